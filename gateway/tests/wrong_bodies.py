#!/usr/bin/env python3
"""Changes the gateway in one place after another, each time so that it does a wrong thing, and sees that a test tells.

    python3 gateway/tests/wrong_bodies.py [WORD]

Each of WRONG is tried on a copy in a folder of its own, by the one test that is named beside it; with WORD only those
whose name holds it. So is each call that counts something, without its count. Prints a line for each, `wrong_bodies:
refused: NAME: TOLD` with what the test told, or `wrong_bodies: let through: NAME`, and at the end their number. Exit
status 0 where each was refused, 1 else. It takes some minutes, and is no part of the gate.
"""
import concurrent.futures
import os
import re
import shutil
import subprocess
import sys
import tempfile
from collections import Counter
from dataclasses import dataclass

TOP = os.path.dirname(os.path.dirname(os.path.dirname(os.path.abspath(__file__))))
BESIDE, SECONDS = 4, 120
FIRST_PORT, PORTS = 12_000, 200
# What goes wrong, the file, the text that is changed, what it becomes, and the test that tells.
WRONG = [
    ("replies_as_they_come", "relay", "            message.reply = reply\n            #",
     "            message.reply = reply\n            client.pending.remove(message)\n"
     "            client.pending.appendleft(message)\n            #", "test_clients.Order.test_order"),
    ("the_first_lane_for_all", "relay", "place = loads.index(least)",
     "place = next(k for k, load in enumerate(loads) if load != OUT)",
     "test_lanes.Choice.test_the_lane_with_the_fewest_under_way"),
    ("a_lost_message_is_sent_again", "lane", 'self.relay.lose(message, "the lane ended", self.lane.number)',
     "self.relay.give(message)", "test_ends.Killed.test_a_message_that_was_read"),
    ("a_lost_message_ends_no_client", "relay", "        self.settle(message, LOST)\n", "        pass\n",
     "test_lanes.Ending.test_a_lane_ends"),
    ("a_lane_ends_untold", "lane", 'self.tell(f"taken out: {cause}")', "pass", "test_lanes.Ending.test_a_lane_ends"),
    ("a_lane_out_gets_messages", "lane", "        self.relay.loads[self.lane.place] = OUT\n", "",
     "test_ends.Killed.test_the_stand_in"),
    ("a_silent_lane_is_kept", "lane", "now - self.under_way[0].given > seconds", "now < 0",
     "test_lanes.Ending.test_a_lane_that_does_not_answer"),
    ("a_reply_that_fits_nothing", "lane", "not fits(under_way[0].frame, reply, header)", "False",
     "test_lanes.Ending.test_a_reply_with_another_header"),
    ("no_echo_first", "lane", "        if not await link.probe:", "        if False:",
     "test_lanes.UsedUp.test_a_lane_in_use"),
    ("more_connections_than_accept", "lane", "            if self.left <= 0:\n", "            if self.left <= -3:\n",
     "test_lanes.UsedUp.test_few_are_left"),
    ("few_connections_untold", "lane", 'self.tell(f"few connections', 'str(f"few connections',
     "test_lanes.UsedUp.test_few_are_left"),
    ("a_used_up_program_is_kept", "app", "            self.program.renew()\n", "            pass\n",
     "test_lanes.UsedUp.test_few_are_left"),
    ("a_message_waits_for_ever", "relay", "now - self.waiting[0].began > self.limits.wait_seconds", "False",
     "test_lanes.Ending.test_no_lane"),
    ("lanes_without_bound", "relay", "if least >= self.limits.lane_messages:", "if least >= OUT:",
     "test_lanes.Ending.test_no_lane"),
    ("half_a_frame_for_ever", "client", "if self.since and now - self.since >", "if self.since and now - now >",
     "test_clients.Stalling.test_half_a_frame"),
    ("a_trickle_prolongs_half_a_frame", "client", "            if len(self.rest) < self.wanted:\n",
     "            self.since = self.relay.now\n            if len(self.rest) < self.wanted:\n",
     "test_clients.Stalling.test_a_byte_at_a_time"),
    ("who_does_not_read_blocks_others", "plain", "            count = self.socket.send(data)\n",
     "            self.socket.setblocking(True)\n            count = self.socket.sendall(data) or len(data)\n",
     "test_clients.Stalling.test_a_client_that_never_reads"),
    ("replies_kept_without_bound", "client", "or self.bytes >= limits.client_bytes or self.unread_since:", "and False:",
     "test_clients.Stalling.test_a_client_that_never_reads"),
    ("who_does_not_read_stays", "client", "now - unread_since > limits.unread_seconds", "now < 0",
     "test_clients.Stalling.test_a_client_that_never_reads"),
    ("messages_without_bound", "client", "if len(pending) >= limits.messages or", "if",
     "test_clients.Stalling.test_a_client_that_reads_late"),
    ("bytes_without_bound", "client", "or self.bytes >= limits.client_bytes", "",
     "test_clients.Stalling.test_few_bytes_under_way"),
    ("no_probes", "doors", "socket.SO_KEEPALIVE, 1)", "socket.SO_KEEPALIVE, 0)", "test_doors.Addresses.test_probes"),
    ("clients_without_bound", "doors", "elif self.inside >= self.relay.limits.clients:", "elif False:",
     "test_clients.Stalling.test_too_many_clients"),
    ("a_descriptor_is_waited_for_in_vain", "doors", "if (door, is_tls) in self.doors:", "if False:",
     "test_clients.Stalling.test_no_descriptor_is_left"),
    ("any_address", "doors", "if not self.is_allowed(host):", "if False:",
     "test_doors.Addresses.test_the_list_of_addresses"),
    ("any_certificate", "doors", "context.verify_mode = ssl.CERT_REQUIRED", "pass",
     "test_doors.Tls.test_certificates_of_clients"),
    ("an_end_without_replies", "relay", "while any(client.pending for client in self.clients) and", "while False and",
     "test_ends.Stopped.test_messages_under_way_are_answered"),
    ("messages_after_the_signal", "client", "        if self.transport.is_reading():\n", "        if False:\n",
     "test_ends.Stopped.test_messages_under_way_are_answered"),
    ("a_status_of_its_own", "app", "        return status\n\n    def stop", "        return 0\n\n    def stop",
     "test_ends.Stopped.test_the_programs_own_status"),
    ("a_second_signal_is_nothing", "app", "self.relay.drain_until = 0.0", "pass",
     "test_ends.Stopped.test_a_second_signal"),
    ("no_new_start", "program", "            if self.is_ending.is_set():\n                return status\n",
     "            return status\n", "test_ends.Killed.test_a_message_that_was_read"),
    ("starts_for_ever", "program", "or len(self.starts) >= MOST_STARTS:", "or len(self.starts) >= 2 * MOST_STARTS:",
     "test_ends.Stopped.test_a_program_that_fails_at_each_start"),
    ("the_programs_line_is_lost", "app", "if self.program and self.program.in_vain:", "if False:",
     "test_settings.Reading.test_the_programs_status"),
    ("another_field_of_a_key", "refusals", '"CA": {"10": 1, "11": 2}', '"CA": {"10": 2, "11": 1}',
     "test_refusals.Words.test_the_models_fields"),
    ("another_field_of_a_pin", "refusals", '"DG": {"14": (2, OTHER)}', '"DG": {"14": (3, OTHER)}',
     "test_refusals.Words.test_the_models_fields"),
    ("another_field_that_does_not_stand", "refusals", 'return at(command, "fields", reading.failed, words)',
     'return at(command, "fields", max(1, reading.failed - 1), words)', "test_refusals.Words.test_the_models_fields"),
    ("another_compared_field", "refusals", '"CY": 2', '"CY": 3', "test_refusals.Words.test_cases"),
    ("texts_in_the_log", "relay", "if self.settings.log.texts:", "if True:", "test_log.Lines.test_secrets"),
    ("any_unknown_code_in_the_log", "relay", "text[:2].isascii() and text[:2].isalpha() and text[:2].isupper()", "True",
     "test_log.Lines.test_secrets"),
    ("lost_lines_uncounted", "journal", "self.lost += len(lines)", "pass",
     "test_log.Lines.test_a_reader_that_reads_nothing"),
    ("messages_uncounted", "relay", "        kind.count += 1\n", "", "test_log.Metrics.test_the_text"),
    ("times_unmeasured", "relay", "        kind.times.add(micros)\n", "", "test_log.Metrics.test_the_text"),
    ("a_time_of_nothing", "relay", "int((self.now - message.began) * 1_000_000)", "0",
     "test_log.Lines.test_the_time_a_message_took"),
    ("serving_without_a_lane", "app", '{"serving": bool(serving) and', '{"serving": True and',
     "test_lanes.UsedUp.test_a_module_that_runs_already"),
    ("any_share", "faults", "self.random.random() < rule.share", "True", "test_faults.Choice.test_share_and_command"),
    ("any_command", "faults", "wanted in (None, command) and", "", "test_faults.Choice.test_share_and_command"),
    ("no_delay", "relay", 'message.rule.act == "delay"', 'message.rule.act == "late"', "test_faults.Acts.test_delay"),
    ("a_refused_message_reaches_the_module", "relay", "self.loop.call_soon(self.refuse, message, rule.code)",
     "self.give(message)", "test_faults.Acts.test_refuse_and_code"),
    ("a_dropped_message_is_answered", "relay", 'self.loop.call_soon(self.lose, message, "a rule drops it", 0)',
     'self.loop.call_soon(self.refuse, message, "68")', "test_faults.Acts.test_drop")]
# The test that tells of each count that is left out, by the file, the name, and its place among those of the name.
COUNTED = {
    ("client", "clients_ended", 0): "test_clients.Stalling.test_half_a_frame",
    ("doors", "clients", 0): "test_clients.Many.test_over_the_stand_in",
    ("doors", "clients", 1): "test_doors.Tls.test_certificates_of_clients",
    ("doors", "clients_refused", 0): "test_doors.Addresses.test_the_list_of_addresses",
    ("lane", "lanes_lost", 0): "test_lanes.Ending.test_a_lane_ends",
    ("lane", "lane_connections", 0): "test_lanes.UsedUp.test_few_are_left",
    ("program", "program_starts", 0): "test_ends.Stopped.test_a_program_that_fails_at_each_start",
    ("relay", "messages_lost", 0): "test_lanes.Ending.test_no_lane",
    ("relay", "messages_changed", 0): "test_faults.Acts.test_delay"}


@dataclass(frozen=True)
class Wrong:
    """What goes wrong, the file, its whole changed text, and the test that must tell."""

    name: str
    file: str
    text: str
    test: str


def path_of(file: str) -> str:
    """Where a file stands: in gateway/, or in what it uses of tools/."""
    return f"tools/sothvelm/{file}.py" if file in ("table", "forms", "refusals") else f"gateway/{file}.py"


def read(file: str) -> str:
    with open(os.path.join(TOP, path_of(file)), encoding="utf-8") as source:
        return source.read()


def changed() -> list[Wrong]:
    """The files of WRONG, each with its one change."""
    found = []
    for name, file, old, new, test in WRONG:
        text = read(file)
        if text.count(old) != 1:
            raise ValueError(f"{name}: {file}.py has {old!r} {text.count(old)} times")
        found.append(Wrong(name, file, text.replace(old, new), test))
    return found


def uncounted() -> list[Wrong]:
    """Each call that counts something, in whose place something without effect is called."""
    found = []
    for file in sorted(name.removesuffix(".py") for name in os.listdir(os.path.join(TOP, "gateway"))
                       if name.endswith(".py")):
        text, seen = read(file), Counter[str]()
        for call in re.finditer(r'[\w.]*\bfigures\.count\((?="(\w+)")', text):
            name = call[1]
            found.append(Wrong(f"{name}_uncounted_in_{file}", file, f"{text[:call.start()]}max({text[call.end():]}",
                               COUNTED[file, name, seen[name]]))
            seen[name] += 1
    return found


def told_of(place: int, wrong: Wrong) -> str:
    """What the test that is named tells of a copy with the changed file; nothing where it passes."""
    with tempfile.TemporaryDirectory() as folder:
        for name in "gateway", "tools", "examples", "model":
            shutil.copytree(os.path.join(TOP, name), os.path.join(folder, name),
                            ignore=shutil.ignore_patterns("__pycache__"))
        with open(os.path.join(folder, path_of(wrong.file)), "w", encoding="utf-8") as source:
            source.write(wrong.text)
        first = FIRST_PORT + PORTS * place
        environment = {**os.environ, "GATEWAY_WAIT": "8", "GATEWAY_PORTS": f"{first} {first + PORTS}"}
        done = subprocess.run([sys.executable, "-B", "-m", "unittest", f"gateway.tests.{wrong.test}"], cwd=folder,
                              env=environment, capture_output=True, timeout=SECONDS, check=False, text=True)
    if "Ran 1 test" not in done.stderr or "ImportError" in done.stderr or "SyntaxError" in done.stderr:
        raise ValueError(f"{wrong.name}: {wrong.test} did not run: {done.stderr[-1000:]}")
    told = re.findall(r"^[\w.]*(?:Error|Expired)\b.*$", done.stderr, re.MULTILINE)
    return (told or ["it failed"])[-1][:150] if done.returncode != 0 else ""


def main(words: list[str]) -> int:
    wanted = [wrong for wrong in [*changed(), *uncounted()] if not words or words[0] in wrong.name]
    through = 0
    with concurrent.futures.ThreadPoolExecutor(BESIDE) as pool:
        for wrong, told in zip(wanted, pool.map(told_of, range(len(wanted)), wanted)):
            through += not told
            line = f"refused: {wrong.name}: {told}" if told else f"let through: {wrong.name}"
            print(f"wrong_bodies: {line}", flush=True)
    print(f"wrong_bodies: {len(wanted)} tried, {through} let through")
    return 1 if through else 0


if __name__ == "__main__":
    sys.exit(main(sys.argv[1:]))
