#!/usr/bin/env python3
"""Changes the tools in one place after another, each time so that they do a wrong thing, and sees that a test tells.

    python3 tools/tests/wrong_bodies.py [WORD]

Each of WRONG is tried on a copy in a folder of its own, by the one test that is named beside it; with WORD only those
whose name holds it. Prints a line for each, `wrong_bodies: refused: NAME: TOLD` with what the test told, or
`wrong_bodies: let through: NAME`, and at the end their number. Exit status 0 where each was refused, 1 else. It takes
some minutes, and is no part of the gate.
"""
import concurrent.futures
import os
import re
import shutil
import subprocess
import sys
import tempfile

TOP = os.path.dirname(os.path.dirname(os.path.dirname(os.path.abspath(__file__))))
BESIDE, SECONDS = 4, 180
# What goes wrong, the file, the text that is changed, what it becomes, and the test that tells.
WRONG = [
    ("a_field_dropped_from_a_form", "examples/commands.txt", "> 4N - expiry date\n> 3N - service code\n< 3N - CVV",
     "> 4N - expiry date\n< 3N - CVV",
     "test_table.Words.test_each_example_reads"),
    ("a_field_of_the_console_dropped", "examples/commands.txt", "> scheme - scheme\n> comp clear first", "> comp clear first",
     "test_table.Words.test_the_consoles_forms_are_the_programs"),
    ("a_code_without_words", "examples/commands.txt", "! 75 a part of the key equals the part before it\n", "",
     "test_table.Words.test_each_code_has_words"),
    ("a_form_without_words", "examples/commands.txt", "= 12V 12345678901N 12 characters: 11 hexadecimal digits and one N\n",
     "", "test_table.Words.test_each_form_has_words_and_a_text_that_stands"),
    ("a_code_of_a_command_left_out", "examples/commands.txt", "~ 10 14 24 25", "~ 10 14 24",
     "test_table.Words.test_the_codes_are_those_of_the_documents"),
    ("an_old_method", "tools/sothvelm/replies.py", "The reply to JA: draw a PIN.", "The reply to JA: draw PINs.",
     "test_table.Generated.test_files"),
    ("a_set_behind_the_trailer", "tools/sothvelm/request.py", '"".join(texts) + named + behind', '"".join(texts) + behind + named',
     "test_client.Messages.test_an_lmk_set_is_sent_where_it_is_named_and_before_the_trailer"),
    ("a_value_that_does_not_stand_is_sent", "tools/sothvelm/request.py", "if not stands(each, found, text):", "if False:",
     "test_client.Messages.test_a_value_of_another_form_is_told_by_its_field_alone"),
    ("a_value_in_what_is_told", "tools/sothvelm/request.py", 'return f"{self.command}, field {number}, {each.name}{when}: wanted is {words}"',
     'return f"{self.command}, field {number}, {each.name}{when}: wanted is {words}: {self.values[number - 1]}"',
     "test_client.Messages.test_a_value_of_another_form_is_told_by_its_field_alone"),
    ("a_secret_in_a_log", "tools/sothvelm/request.py", "values: tuple[object, ...] = field(repr=False)",
     "values: tuple[object, ...] = field()", "test_client.Secrets.test_none_in_what_is_printed"),
    ("a_pin_in_a_reply_that_is_printed", "tools/sothvelm/replies.py", "    pin: str = field(repr=False)", "    pin: str = field()",
     "test_client.Secrets.test_none_in_what_is_printed"),
    ("replies_of_a_pipeline_out_of_order", "tools/sothvelm/client.py", "zip(waiting, connection.ask_all(",
     "zip(reversed(waiting), connection.ask_all(", "test_client.Pipelines.test_replies_and_refusals_come_at_their_places"),
    ("a_late_reply_for_another_message", "tools/sothvelm/link.py",
     "        except TimeoutError:\n            raise ClientError(f\"no reply within {self.timeout} seconds\") from None\n\n    async",
     "        except TimeoutError:\n            self.waiting.remove(answer)\n            raise ClientError(\"none\") from None\n\n    async",
     "test_client.Asyncio.test_a_task_that_gave_up"),
    ("any_header_comes_back", "tools/sothvelm/link.py", "if header != self.header:", "if False:",
     "test_client.Replies.test_no_reply"),
    ("a_configuration_in_a_file", "tools/sothvelm/module.py", 'if hasattr(os, "memfd_create"):', "if False:",
     "test_module.Served.test_no_secret_outside_of_the_process"),
    ("a_module_that_goes_on", "tools/sothvelm/module.py", "            self.process.terminate()\n", "            return\n",
     "test_module.Served.test_it_ends_with_its_block"),
    ("a_grant_that_stays", "tools/sothvelm/keys.py", "            self.console.cancel_activity(activity=activity)", "            pass",
     "test_keys.Running.test_the_words_are_asked_for"),
    ("a_key_in_what_is_told", "tools/sothvelm/keys.py", 'raise Told("a key in the clear has 16', 'raise Told(f"{text} is no key, which has 16',
     "test_keys.Keys.test_refused"),
    ("a_key_among_the_words_is_repeated", "tools/sothvelm/main.py", 'if message.startswith("unrecognized arguments"):', "if False:",
     "test_keys.Keys.test_a_key_among_the_words_is_not_repeated"),
    ("another_byte_of_even_parity", "tools/sothvelm/lint.py", "whole = 16 * (number - 1) + place", "whole = 16 * number + place",
     "test_lint.Places.test_parity"),
    ("a_port_twice_is_let_through", "tools/sothvelm/lint.py", "if spot.value in seen:", "if False:",
     "test_lint.Agreement.test_the_rules_of_the_tests"),
    ("a_words_text_in_what_lint_tells", "tools/sothvelm/lint.py", "and it has {len(text)} characters", "and it is {text}",
     "test_lint.Places.test_no_secret_is_repeated"),
    ("the_field_before", "tools/sothvelm/why.py", "start = before + (space if before < len(rest) else 0)", "start = before - 1",
     "test_why.Places.test_cases"),
    ("a_pin_is_shown", "tools/sothvelm/why.py", "any(each.is_secret for each in found.command.fields)", "found.field.is_secret",
     "test_why.Secrets.test_none_is_shown"),
    ("any_line_in_the_history", "tools/sothvelm/prompt.py", "                if session.may_be_kept(line):\n", "                if line:\n",
     "test_prompt.Terminal.test_session"),
    ("a_word_in_the_history", "tools/sothvelm/prompt.py", "all(stands(each, [], text) for each, text in zip(asked, given))", "True",
     "test_prompt.History.test_lines_that_are_kept"),
    ("a_word_on_the_screen", "tools/sothvelm/keys.py", "return getpass.getpass(prompt).strip()", "return input(prompt).strip()",
     "test_prompt.Terminal.test_session"),
    ("a_line_with_words_is_sent", "tools/sothvelm/prompt.py", "if len(given) != len(asked) + is_set:", "if False:",
     "test_prompt.Lines.test_a_line_that_is_not_sent"),
    ("a_pin_in_the_frame", "tools/sothvelm/page.py", '"\\u2022" * len(value) if each.is_secret else value', "value",
     "test_page.Frames.test_secrets_are_masked"),
    ("a_pin_in_the_title", "tools/sothvelm/page.html", "  show(came);\n", "  show(came); document.title = row.code + texts();\n",
     "test_page.Page.test_secrets"),
    ("a_pin_shown_at_once", "tools/sothvelm/page.html", 'field.secret ? "" : field.text, { className', 'field.text, { className',
     "test_page.Page.test_secrets"),
    ("requests_in_a_log", "tools/sothvelm/page.py", '        """Nothing is written down."""', "        print(format % args)",
     "test_page.Requests.test_nothing_is_written_down"),
    ("any_page_may_send", "tools/sothvelm/page.py", 'self.headers.get("X-Sothvelm") != self.server.token', "False",
     "test_page.Requests.test_others_are_refused"),
    ("a_refusal_without_its_field", "tools/sothvelm/page.html", 'input.setAttribute("aria-invalid", "true");', "",
     "test_page.Page.test_a_refusal_is_marked"),
    ("a_field_without_help", "tools/sothvelm/page.html", 'const words = make("p", help,', 'const words = make("p", "",',
     "test_page.Page.test_each_commands_form"),
    ("a_script_from_elsewhere", "tools/sothvelm/page.html", "</head>", '<script src="https://elsewhere.example/x.js"></script></head>',
     "test_page.Requests.test_the_page_names_nothing_elsewhere"),
]


def tried(wrong: tuple[str, str, str, str, str]) -> str:
    """As `told_of`; a change that does not apply, or a test that does not run, tells nothing."""
    try:
        return told_of(wrong)
    except ValueError as fault:
        print(f"wrong_bodies: {fault}", flush=True)
        return ""


def told_of(wrong: tuple[str, str, str, str, str]) -> str:
    """What the test that is named tells of a copy with the changed file; nothing where it passes."""
    name, file, old, new, test = wrong
    with open(os.path.join(TOP, file), encoding="utf-8") as source:
        text = source.read()
    if text.count(old) != 1:
        raise ValueError(f"{name}: {file} has {old!r} {text.count(old)} times")
    with tempfile.TemporaryDirectory() as folder:
        for each in "tools", "examples", "model", "docs", "packaging", "gateway":
            if os.path.isdir(os.path.join(TOP, each)):
                shutil.copytree(os.path.join(TOP, each), os.path.join(folder, each), symlinks=True,
                                ignore=shutil.ignore_patterns("__pycache__"))
        for each in "src", "specs":
            shutil.copytree(os.path.join(TOP, "crates", "hsm_rows", each), os.path.join(folder, "crates", "hsm_rows", each))
        for each in "crates/hsm_tool/data", "crates/test_config/src":
            shutil.copytree(os.path.join(TOP, each), os.path.join(folder, each))
        with open(os.path.join(folder, file), "w", encoding="utf-8") as source:
            source.write(text.replace(old, new))
        program = os.environ.get("TOOLS_PROGRAM") or os.path.join(TOP, "crates", "hsm_tool", "out", "hsm_tool")
        done = subprocess.run([sys.executable, "-B", "-m", "unittest", f"tests.{test}"], cwd=os.path.join(folder, "tools"),
                              env={**os.environ, "TOOLS_PROGRAM": program, "TMPDIR": folder}, capture_output=True,
                              timeout=SECONDS, check=False, text=True)
    if "Ran 1 test" not in done.stderr or "SyntaxError" in done.stderr or "skipped=" in done.stderr:
        raise ValueError(f"{name}: {test} did not run: {done.stderr[-1000:]}")
    told = re.findall(r"^[\w.]*(?:Error|Expired|Fault|Refused|Told)\b.*$", done.stderr, re.MULTILINE)
    return (told or ["it failed"])[-1][:150] if done.returncode != 0 else ""


def main(words: list[str]) -> int:
    wanted = [wrong for wrong in WRONG if not words or words[0] in wrong[0]]
    through = 0
    with concurrent.futures.ThreadPoolExecutor(BESIDE) as pool:
        for wrong, told in zip(wanted, pool.map(tried, wanted)):
            through += not told
            line = f"refused: {wrong[0]}: {told}" if told else f"let through: {wrong[0]}"
            print(f"wrong_bodies: {line}", flush=True)
    print(f"wrong_bodies: {len(wanted)} tried, {through} let through")
    return 1 if through else 0


if __name__ == "__main__":
    sys.exit(main(sys.argv[1:]))
