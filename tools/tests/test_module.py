"""Clients over `hsm_tool` itself, and how it is started. Each test is skipped where there is no program."""
import contextlib
import os
import subprocess
import sys
import time
import unittest
from unittest import mock

from tests.harness import TOOLS, folder, need_program, write

from sothvelm import FieldFault, Refused, console_requests, module, requests, table
from sothvelm.module import Module, ModuleFault, answers, find_program, toml_of
from sothvelm.request import request_of

ACCOUNT = "123456789012"
# What the examples of the table are answered where nothing is drawn; the values are those of docs/COMMANDS.md.
ANSWERED = {"A6": "U71D85977C347EBFADA6E35FE76C6A28108D7B4", "A8": "X1A4D672DCA6CB3351FD1B02B237AF9AE08D7B4",
            "BU": "08D7B4", "CA": "04526BF0A5BB9BD27101", "CC": "0626D8302117AD6FFE01", "DE": "6088FFFFFFFF",
            "DG": "1256", "DA": "", "EA": "", "DC": "", "EC": "", "BA": "AC9E30EA4EE08820", "NG": "1234FFFFFFFF",
            "CW": "568", "CY": "", "M6": "5889D4F0", "M8": "", "B2": "A\x19B", "NC": "33C517CEFDC01D400001-LAB1",
            "RA": ""}
TEST = '''
def test_a_pin(sothvelm_host, sothvelm_console, sothvelm_allow):
    sothvelm_allow("pin.clear.host")
    sealed = sothvelm_host.put_clear_pin_under_lmks(pin="1234", account_field="123456789012")
    assert sealed.pin_under_lmks == "AC9E30EA4EE08820"
    assert sothvelm_console.show_live_grants().number_of_live_grants == 1
'''


class Served(unittest.TestCase):
    """A module of each test."""

    def setUp(self) -> None:
        self.module = self.enterContext(Module(need_program()))

    def test_each_command(self) -> None:
        """The example of each command is answered 00, with the values of the documents."""
        with self.module.client() as host:
            self.module.allow("pin.clear.host")
            for row in table.load().hosts.values():
                request = request_of(row.code, row.example)
                reply = host.perform(request)
                self.assertEqual(list(reply), [each.name for each in row.answers])
                if row.code in ANSWERED:
                    self.assertEqual(host.ask(request.text()) if row.code != "NG" else "NH00" + ANSWERED["NG"],
                                     f"{row.reply}00{ANSWERED[row.code]}")

    def test_each_text_of_the_console(self) -> None:
        console = self.module.console()
        self.module.allow("component.000.console")
        replies = {row.code: console.perform(request_of(row.code, row.example))
                   for row in table.load().console.values() if row.code != "A"}
        self.assertEqual(replies["FK"], {"key under the LMKs": "U9F9A79DCD106B37584C5D3D3C418F4AE",
                                         "check value": "08D7B4"})
        self.assertEqual((replies["C"], replies["Q"]["live grants"]), ({"cancelled grants": 0}, 1))
        self.assertEqual(replies["VA"], {"number of live grants": 1, "grants": ("component.000.console=0",)})

    def test_refusals_of_each_kind(self) -> None:
        with self.module.client() as host:
            cases = [
                ("17", 0, requests.generate_key(mode=0, key_type="000", scheme_under_lmks="U")),
                ("27", 3, requests.generate_key(mode=0, key_type="402", scheme_under_lmks="Z")),
                ("10", 1, requests.make_cvv(cvk_pair=32 * "0", account_number=ACCOUNT, expiry_date="2912",
                                            service_code="201")),
                ("01", 2, requests.verify_cvv(cvk_pair="U050818953CB9A7F43E0AD44C5019553E", cvv="569",
                                              account_number="4123456789012345678", expiry_date="8701",
                                              service_code="101"))]
            for code, number, request in cases:
                with self.assertRaises(Refused) as caught:
                    host.perform(request)
                self.assertEqual((caught.exception.code, caught.exception.field), (code, number))
        console = self.module.console()
        for code, request in [
                ("17", console_requests.draw_component_of_key(key_type="000", scheme="U")),
                ("WORDS", console_requests.allow_activity(activity="export", minutes=1, first_officers_word="x",
                                                          second_officers_word="y")),
                ("27", console_requests.draw_component_of_key(key_type="402", scheme="Z"))]:
            with self.assertRaises(Refused) as caught:
                console.perform(request)
            self.assertEqual(caught.exception.code, code)

    def test_an_lmk_set(self) -> None:
        """Set 00 is the one without a name, and one that is not loaded is told, of a program that reads sets."""
        with self.module.client() as host:
            plain = host.check_of_lmks()
            try:
                named = host.check_of_lmks(lmk_set=0, trailer=b"t")
            except Refused as refused:
                self.assertEqual((refused.code, refused.check), ("15", "set"))
                self.skipTest("this program reads no LMK set")
            self.assertEqual((named.check_of_lmks, named.trailer), (plain.check_of_lmks, b"t"))
            with self.assertRaises(Refused) as caught:
                host.draw_pin(account_field=ACCOUNT, length=4, lmk_set=3)
            self.assertEqual((caught.exception.code, caught.exception.check), ("13", "set"))

    def test_a_pipeline(self) -> None:
        with self.module.client() as host:
            with host.pipeline() as several:
                pins = [several.draw_pin(account_field=ACCOUNT, length=length) for length in range(4, 13)]
            self.assertEqual(len({each.reply.pin_under_lmks for each in pins}), 9)

    def test_no_secret_outside_of_the_process(self) -> None:
        """The officers' words stand in no list of processes and in no file; the configuration in none either."""
        process = self.module.process
        with open(f"/proc/{process.pid}/cmdline", "rb") as file:
            words = file.read().split(b"\0")
        self.assertEqual((words[-3], words[-1]), (b"serve", b""))
        if hasattr(os, "memfd_create"):
            self.assertTrue(words[-2].startswith(b"/proc/self/fd/"), words)
        for word in self.module.words:
            self.assertNotIn(word.encode(), b" ".join(words))
            self.assertNotIn(word, self.module.text())

    def test_two_modules_at_once_have_other_words_and_ports(self) -> None:
        with Module(need_program(), hosts=1) as other, other.client() as host:
            self.assertEqual(host.numbers_of_grants_and_hosts().host_lanes, "01")
            self.assertFalse({other.console_port, *other.host_ports} & {self.module.console_port, *self.module.host_ports})
            self.assertNotEqual(other.words, self.module.words)

    def test_it_ends_with_its_block(self) -> None:
        with Module(need_program()) as other:
            process = other.process
            self.assertIsNone(process.poll())
        self.assertIsNotNone(process.returncode)
        with self.assertRaises(ZeroDivisionError), Module(need_program()) as other:
            process = other.process
            1 / 0  # noqa: B018
        self.assertIsNotNone(process.returncode)


class Asyncio(unittest.IsolatedAsyncioTestCase):
    """The clients of asyncio over the program."""

    def setUp(self) -> None:
        self.module = self.enterContext(Module(need_program()))

    async def test_client(self) -> None:
        async with self.module.async_client() as host:
            self.assertEqual((await host.check_of_lmks()).check_of_lmks, "33C517CEFDC01D40")
            with self.assertRaises(FieldFault):
                await host.draw_pin(account_field=ACCOUNT, length=13)


class Starting(unittest.TestCase):
    """The program is found and started, or it is told why not."""

    def test_a_configuration_that_is_refused(self) -> None:
        program = need_program()
        with self.assertRaises(ModuleFault) as caught, Module(program, {"header": 256}):
            pass
        self.assertEqual(str(caught.exception), "hsm: rule 3")

    def test_a_program_that_is_not_there(self) -> None:
        with mock.patch.dict(os.environ, {"SOTHVELM_PROGRAM": "/missing/hsm_tool"}):
            self.assertRaises(ModuleFault, find_program)
        with self.assertRaises(ModuleFault) as caught:
            find_program("/missing")
        self.assertEqual(str(caught.exception), "no program /missing: name it by --program or SOTHVELM_PROGRAM")

    def test_a_lost_port(self) -> None:
        """Where another program took a port meanwhile, others are tried."""
        program, tries, free = need_program(), [], module.free_ports

        def ports(count: int) -> list[int]:
            tries.append(count)
            found = free(count)
            return [found[0]] * 2 + found[2:] if len(tries) == 1 else found

        taken = contextlib.closing(__import__("socket").create_server(("127.0.0.1", 0)))
        with taken as door:
            def lost(count: int) -> list[int]:
                found = ports(count)
                return [door.getsockname()[1], *free(count - 1)] if len(tries) == 1 else found
            with mock.patch.object(module, "free_ports", lost), mock.patch.object(
                    module, "listening", lambda port: time.sleep(0.2) or len(tries) > 1), Module(program) as served:
                self.assertEqual(len(tries), 2)
                self.assertNotEqual(served.console_port, door.getsockname()[1])

    def test_a_script(self) -> None:
        with folder() as name:
            path = write(os.path.join(name, "module.toml"), Module(need_program()).text().replace(
                "console_port = 0", "console_port = 1500").replace("host_ports = []", "host_ports = [1501]"))
            asked, answered = (f"L1 {len(text):04X}{text.hex().upper()}"
                               for text in (b"0001NC", b"0001ND0033C517CEFDC01D400001-LAB1"))
            self.assertEqual(answers(need_program(), path, [asked]), [answered])

    def test_values_as_toml(self) -> None:
        value = ["a\"b\\c\nd", 1, True, {"x": [2]}]
        self.assertEqual(__import__("tomllib").loads(f"v = {toml_of(value)}")["v"], value)


class Fixture(unittest.TestCase):
    """The fixtures of pytest, where it is installed for this Python or the system's."""

    def test_fixture(self) -> None:
        program = need_program()
        python = next((each for each in (sys.executable, "/usr/bin/python3") if os.path.exists(each) and subprocess.run(
            [each, "-c", "import pytest"], capture_output=True, check=False).returncode == 0), None)
        if python is None:
            self.skipTest("no pytest (Debian package python3-pytest)")
        with folder() as name:
            write(os.path.join(name, "test_it.py"), TEST)
            done = subprocess.run(
                [python, "-B", "-m", "pytest", "-q", "-p", "sothvelm.pytest_plugin", "-p", "no:cacheprovider", name],
                env={**os.environ, "PYTHONPATH": TOOLS, "SOTHVELM_PROGRAM": program}, capture_output=True, check=False)
            self.assertEqual(done.returncode, 0, done.stdout.decode())
            self.assertIn(b"1 passed", done.stdout)


if __name__ == "__main__":
    unittest.main()
