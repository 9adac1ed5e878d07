"""The table of commands: its forms, examples and codes, and what is generated from it."""
import importlib
import inspect
import os
import re
import sys
import unittest

from tests.harness import EXAMPLES, TOOLS, read

from sothvelm import commands, console_requests, generate, requests, table
from sothvelm.forms import read_message, read_reply, stands
from sothvelm.request import is_whole, request_of

ROWS = table.load()
ALL = [*ROWS.hosts.values(), *ROWS.console.values()]


class Words(unittest.TestCase):
    """Each form, code and command has its words."""

    def test_each_form_has_words_and_a_text_that_stands(self) -> None:
        for row in ALL:
            for each in row.fields:
                self.assertIn(each.plain, ROWS.forms, (row.code, each))
        for form, found in ROWS.forms.items():
            texts = {"KF": ["FF", "1"], "offs": [*["x"] * 5, "04"], "data": ["0003"], "mac": ["0", "0", "0"]}.get(
                form, ["000", "U"])
            self.assertTrue(stands(table.Field(form, "-", ""), texts, found.example), (form, found))

    def test_the_forms_are_those_of_the_documents(self) -> None:
        text = read("docs", "COMMANDS.md").split("## The forms that `explain` prints")[1]
        told = {name for line in text.splitlines() for name in re.findall("`([^`]+)`", line.partition(" | ")[0])}
        used = {re.sub("^[0-9]+(?=[NH]$)", "n", each.plain) for row in ROWS.hosts.values() for each in row.fields}
        self.assertEqual(used - told, set())

    def test_each_code_has_words(self) -> None:
        for row in ALL:
            for code in row.codes:
                self.assertIn(code, ROWS.meanings, row.code)

    def test_the_codes_are_those_of_the_documents(self) -> None:
        told = dict(re.findall(r"^\| (\w\w) \| \w\w \| [^|]+ \| ([\d, ]*)\|$", read("docs", "START.md"), re.MULTILINE))
        self.assertEqual({row.code: row.codes for row in ROWS.hosts.values()},
                         {code: told[code].replace(",", " ").split() for code in told})

    def test_the_consoles_forms_are_the_programs(self) -> None:
        """`explain` prints no text of the console: its fields are those of the program's sources."""
        named = dict(re.findall(r'Form::(\w+)(?:\(_\))? => "([^"]+)"', read("crates", "hsm_rows", "src", "listing.rt")))
        found = re.findall(r'row!\(b"(\w+)", b"", \S+\s+\[(.*?)\],\n', read("crates", "hsm_rows", "src", "table.rt"),
                           re.DOTALL)
        forms = {code: [named[form] for form in re.findall(r"Form::(\w+)", line)] for code, line in found}
        self.assertEqual({code: [each.form for each in row.fields] for code, row in ROWS.console.items()}, forms)

    def test_each_example_reads(self) -> None:
        for row in ALL:
            self.assertEqual(len(row.example), len(row.fields), row.code)
            self.assertTrue(is_whole(request_of(row.code, row.example)), row.code)

    def test_a_line_that_does_not_read_is_told(self) -> None:
        for line in (">", "> K", "> K key ZMK", "~ 10", "* x", "! 00", "= K", "A0", "a0 A1 x"):
            with self.assertRaises(table.TableFault) as caught:
                table.read_table(["# first", "", line])
            self.assertIn("line 3", str(caught.exception), line)

    def test_the_package_has_the_table(self) -> None:
        """The repository has one table; a package that is built gets its copy, which does not stay behind."""
        name = os.path.join(TOOLS, "sothvelm", "commands.txt")
        self.assertFalse(os.path.lexists(name))
        sys.path.insert(0, TOOLS)
        try:
            backend = importlib.import_module("build_backend")
        except ModuleNotFoundError as error:
            self.skipTest(f"no {error.name}")
        finally:
            sys.path.remove(TOOLS)
        with backend.with_table(), open(name, encoding="utf-8") as copied:
            self.assertEqual(copied.read(), read("examples", "commands.txt"))
        self.assertFalse(os.path.lexists(name))


class Generated(unittest.TestCase):
    """What is written from the table."""

    def test_files(self) -> None:
        for name, text in generate.files().items():
            self.assertEqual(read("tools", "sothvelm", name), text, f"{name}: run python3 -m sothvelm.generate in tools/")

    def test_each_command_has_its_method_and_each_field_its_name(self) -> None:
        kinds = (ROWS.hosts.values(), requests, commands.HostCommands), (
            ROWS.console.values(), console_requests, commands.ConsoleCommands)
        for rows, module, methods in kinds:
            for row in rows:
                name = generate.snake(row.title)
                made = getattr(module, name)
                wanted = [each for each, field in zip(generate.names_of(row.fields), row.fields)
                          if generate.is_asked(field)]
                self.assertEqual(list(inspect.signature(made).parameters)[:len(wanted)], wanted, row.code)
                self.assertIs(getattr(methods, name), made)
                for code in row.codes:
                    self.assertIn(ROWS.meaning(code), re.sub(r"\s+", " ", made.__doc__), (row.code, code))

    def test_a_row_that_is_added_gets_its_method(self) -> None:
        rows = table.read_table(["XA XB do a thing", "> 12N - account field", "< 4N clear secret", "~ 17"])
        row = rows.hosts["XA"]
        written = generate.request_function(row, rows) + generate.reply_class(row, rows)
        self.assertIn("def do_thing(*, account_field: str, lmk_set: int | None = None,", written)
        self.assertIn("secret: str = field(repr=False)", written)


class Readings(unittest.TestCase):
    """How messages and replies are read, beyond what the gateway's tests see of refusals."""

    def test_a_set_and_a_trailer(self) -> None:
        for rest, lmk_set, trailer in ("", None, ""), ("%02", 2, ""), ("\x19%01", None, "\x19%01"), (
                "%00\x19ab", 0, "\x19ab"):
            reading = read_message(ROWS.hosts["NC"], rest)
            self.assertEqual((reading.failed, reading.lmk_set, reading.trailer), (0, lmk_set, trailer))
        for rest in ("%0", "%001", "%01%01", "%0A", "\x1A", "\x19" + 33 * "x"):
            self.assertEqual(read_message(ROWS.hosts["NC"], rest).failed, 1, rest)

    def test_texts_of_the_console(self) -> None:
        cases = [
            ("A", " export 10 abc hello", 0), ("A", " export.402.host.lmk01 0 a b", 0), ("A", " exports 10 a b", 1),
            ("A", " pin.clear.000 0 a b", 1), ("A", " export  10 a b", 2), ("A", " export 010 a b", 2),
            ("A", " export 721 a b", 2), ("A", " export 720 a", 4), ("A", " export 720 a b ", 5), ("C", " *", 0),
            ("A", " * 0 a b", 1), ("GC", " 000 U", 0), ("GC", " 004 U", 1), ("GC", "000 U", 1), ("VA", " x", 1),
            ("FK", " 001 Z 0123456789abcdef 0123456789ABCDEF", 0), ("FK", " 001 U 0123456789abcdef 0123456789ABCDEF", 3),
            ("FK", " 001 Z 0123456789abcdef 0123456789ABCDEF 0123456789ABCDE", 5)]
        for word, rest, failed in cases:
            self.assertEqual(read_message(ROWS.console[word], rest).failed, failed, (word, rest))

    def test_replies(self) -> None:
        key = "U" + 32 * "A"
        cases = [
            ("A0", f"{key}{key}ABCDEF", [key, key, "ABCDEF"], 0), ("A0", f"{key}ABCDEF", [key, "", "ABCDEF"], 0),
            ("A0", f"{key}ABCDEF\x19x", [key, "", "ABCDEF"], 0), ("A0", f"{key}ABCDE", [key, ""], 3),
            ("NG", "1234FFFFFFFF", ["1234FFFFFFFF"], 0), ("NG", "1234FFFFFFFFx", ["1234FFFFFFFF"], 2),
            ("B2", "any\x19thing", ["any\x19thing"], 0), ("VA", " 1 export=0", ["1", "export=0"], 0),
            ("VA", " 0", ["0", ""], 0), ("Q", " 1 2 3", ["1", "2", "3"], 0), ("Q", " 1 2", ["1", "2"], 3)]
        for code, text, texts, failed in cases:
            reading = read_reply(ROWS.hosts.get(code) or ROWS.console[code], text)
            self.assertEqual((reading.texts, reading.failed), (texts, failed), (code, text))


if __name__ == "__main__":
    unittest.main()
