"""The gateway over `hsm_tool serve` itself. Each test is skipped where there is no program."""
import contextlib
import io
import os
import re
import unittest
from typing import Any

from gateway.tests.harness import PROGRAM, Laboratory, Peer, echo, need_program

import acquirer
from client import Console, Host

# What the acquirer's day asks at its host port, and what it is answered.
DAY = ("NC00 A000 BU00 A600 A000 A817 A800 A000 DG00 DC00 CA00 EC00 EC01 CW00 CY00 CY01 A000 M600 M800 M801 A817")
REFUSED = {
    "A817": "an activity that is needed is not allowed: export.402.host",
    "EC01": "field 7, PVV: the value given is not the one computed",
    "CY01": "field 2, CVV: the value given is not the one computed",
    "M801": "field 11, MAC: the value given is not the one computed"}


class Kept:
    """A client whose texts and replies are kept."""

    def __init__(self, client: Any, kept: list[str]) -> None:
        self.client, self.kept = client, kept

    def ask(self, text: str) -> str:
        return self.ask_all([text])[0]

    def ask_all(self, texts: list[str]) -> list[str]:
        replies = self.client.ask_all(texts)
        self.kept += [*texts, *replies]
        return replies


def secrets(texts: list[str]) -> set[str]:
    """The key texts, PIN blocks, account and card numbers, and MACs of a day, without tags."""
    return {part for text in texts for part in re.findall("[0-9A-F]{12,}", text) if part != acquirer.LMK_CHECK}


class Day(unittest.TestCase):
    """An acquirer's day through the gateway, the officers at the console beside it."""

    def setUp(self) -> None:
        need_program()

    def test_the_log_of_the_day(self) -> None:
        kept: list[str] = []
        with Laboratory(program=PROGRAM) as laboratory:
            with Console("127.0.0.1", laboratory.console) as console, Host(
                    "127.0.0.1", laboratory.port, acquirer.HEADER) as host, contextlib.redirect_stdout(io.StringIO()):
                acquirer.day(Kept(host, kept), Kept(console, []))
            lines = laboratory.until(
                lambda: len(laboratory.messages()) == len(DAY.split()) and laboratory.messages(), "lines are wanting")
            # The two messages that are sent together may be answered by their lanes in either order.
            self.assertEqual(sorted(line["command"] + line["code"] for line in lines), sorted(DAY.split()))
            self.assertEqual([line["command"] for line in lines], [each[:2] for each in DAY.split()])
            for line in lines:
                if line["code"] != "00":
                    self.assertEqual(line["refusal"], REFUSED[line["command"] + line["code"]])
            told = laboratory.text() + laboratory.get("/metrics")
            found = secrets(kept)
            self.assertGreater(len(found), 20)
            for secret in found:
                self.assertNotIn(secret, told)

    def test_refusals(self) -> None:
        """The module's own codes, and the words for them."""
        start = f"CA{acquirer.TPK}{acquirer.TPK}12{acquirer.TERMINAL_BLOCK}"
        cases = [
            (f"{start}0101{acquirer.ACCOUNT}", "11", "field 2, ZPK: "),
            (f"{start}0199{acquirer.ACCOUNT}", "23", "field 6, code of the new block: no PIN block code"),
            (f"NG{acquirer.ACCOUNT}{acquirer.SEALED_PIN}", "17",
             "an activity that is needed is not allowed: pin.clear.host"),
            ("A0", "15", "field 1, mode: no text of the form 0to1: the message ends before it does"),
            ("A01001Z;0", "15", "field 5, wrapping key: "), ("NO01", "15", "field 1, kind: no text of the form 00"),
            ("HC", "68", "no such command")]
        with Laboratory(program=PROGRAM, hosts=2) as laboratory, Host("127.0.0.1", laboratory.port, "0001") as host:
            for text, code, _ in cases:
                self.assertEqual(host.ask(text)[2:4], code)
            lines = laboratory.until(
                lambda: len(laboratory.messages()) == len(cases) and laboratory.messages(), "lines are wanting")
            for (text, code, words), line in zip(cases, lines):
                self.assertEqual(line["code"], code)
                self.assertTrue(line["refusal"].startswith(words), (text, line))

    def test_the_largest_laboratory(self) -> None:
        """64 lanes: so many threads and descriptors has the program, and so few connections are used."""
        with Laboratory(program=PROGRAM, hosts=64, accept=4096) as laboratory:
            with Peer(laboratory.port) as peer, Console("127.0.0.1", laboratory.console) as console:
                peer.put(*[echo(b"%d" % number) for number in range(256)])
                self.assertEqual([peer.reply() for _ in range(256)], [b"B300%d" % number for number in range(256)])
                self.assertEqual(console.ask("VA"), "OK 0")
                pid = laboratory.started()[0]
                with open(f"/proc/{pid}/status", encoding="ascii") as file:
                    threads = re.search(r"^Threads:\s+([0-9]+)$", file.read(), re.MULTILINE)
                assert threads
                self.assertEqual((int(threads[1]), len(os.listdir(f"/proc/{pid}/fd"))), (65, 133))
            self.assertEqual(laboratory.health()["connections_left"], 64 * 4095)


if __name__ == "__main__":
    unittest.main()
