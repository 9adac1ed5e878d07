"""`sothvelm why`: the check, the field and its place, of messages in each way that they are given in."""
import os
import unittest
from unittest import mock

from tests.harness import EXAMPLES, called, folder, laboratory, need_program, write

from sothvelm import main, refusals, table, why
from sothvelm.why import Message, find, message_of

LABORATORY = os.path.join(EXAMPLES, "laboratory.toml")
TPK, ZPK, BLOCK = "U70608A485781E63A744063451C9937C8", "U3F8CBDF978784512EB6EFEAEC959DDE8", "5E6CD2CEB7124BBF"
ACCOUNT, WORD = "123456789012", "quicklime"
CA = f"CA{TPK}{ZPK}12{BLOCK}"
# A message, what it is refused with, the check, the number of the field, its place in the message with a header of four
# characters, and what is shown of what stands there. Places: 4 and 2 characters, and the fields before.
CASES = [
    (f"{CA}0199{ACCOUNT}", "23", "fields", 6, 4 + 2 + 33 + 33 + 2 + 16 + 2 + 1, "99.. (14 characters from here on)"),
    (f"{CA}0101{ACCOUNT[:-1]}", "15", "fields", 7, 95, "12345678901"),
    (f"{CA}0101", "15", "fields", 7, 95, "nothing"),
    (f"CA{TPK}{TPK}12{BLOCK}0101{ACCOUNT}", "11", "keys", 2, 4 + 2 + 33 + 1, TPK),
    (f"{CA}0101{ACCOUNT}x", "15", "end", 8, 107, "1 character, not shown"),
    (f"BU013{TPK}", "05", "fields", 2, 9, "3.. (34 characters from here on)"),
    (f"BA1234FFFFFFFG{ACCOUNT}", "15", "fields", 1, 7, "24 characters, not shown"),
    ("A00402Z", "27", "keys", 3, 11, "Z"), ("ZZ", "68", "command", 0, 0, ""),
    (f"NG{ACCOUNT}{BLOCK}", "17", "activity", 0, 0, "")]


def answered(code: str, message: str) -> str:
    """A reply with this code."""
    return message[0] + chr(ord(message[1]) + 1) + code


class Places(unittest.TestCase):
    """The field and its place, of codes that are given."""

    def test_cases(self) -> None:
        for text, code, check, number, place, there in CASES:
            with self.subTest(text=text):
                found = find(Message("0001", text), answered(code, text))
                self.assertEqual((found.code, found.refusal.check, found.place), (code, check, place))
                if number:
                    self.assertEqual(why.shown(found), there)
                    rows = table.load().hosts[text[:2]].fields
                    self.assertEqual(found.field, rows[number - 1] if number <= len(rows) else None)
                lines = "\n".join(why.described(found))
                self.assertIn(f"refused with {code}, ", lines)
                if place:
                    self.assertIn(f"place: byte {place} of the message, which is byte {place + 2} of the frame", lines)

    def test_console(self) -> None:
        cases = [("A export 10 abc", "15", 4, 16), ("A export 10  abc", "15", 3, 13), ("A exports 10 a b", "15", 1, 3),
                 ("GC 000 X", "26", 2, 8), ("FK 001 U 0123", "15", 3, 10), ("VA x", "15", 0, 4)]
        for text, code, number, place in cases:
            found = find(Message("", text, True), f"NO {code}")
            row = table.load().console[text.split()[0]]
            self.assertEqual((found.field, found.place), (row.fields[number - 1] if number else None, place), text)

    def test_each_field_says_what_it_wants(self) -> None:
        """A message that ends before a field names it, with the words and the example of its form."""
        rows = table.load()
        for row in rows.hosts.values():
            before = ""
            for each, text in zip(row.fields, row.example):
                if text and each.plain != "[;f]":
                    found = find(Message("", row.code + before), answered(refusal_code(row, before), row.code))
                    lines = why.described(found)
                    self.assertEqual((found.field, found.there), (each, ""), (row.code, each, lines))
                    self.assertIn(rows.words_of(each.form), lines[-1])
                before += text


def refusal_code(row: table.Command, rest: str) -> str:
    return refusals.read_message(row, rest).code


class Forms(unittest.TestCase):
    """The ways in which a message is given."""

    def test_all_are_one_message(self) -> None:
        body = f"0001{CA}0101{ACCOUNT}"
        digits = body.encode().hex().upper()
        frame = f"{len(body):04X}{digits}"
        colons = ":".join(frame[at:at + 2] for at in range(0, len(frame), 2)).lower()
        for line in (body, digits, frame, f"L1 {frame}", colons, f'{{"at":"x","message":"{body}","reply":"y"}}', body + "\n"):
            self.assertEqual(message_of(line, 4), Message("0001", body[4:]), line)
        self.assertEqual(message_of(body[4:], 4), Message("0000", body[4:]))
        self.assertEqual(message_of("C VA", 4), Message("", "VA", True))
        self.assertEqual(message_of("VA", 4, is_console=True), Message("", "VA", True))
        # Digits that are a message, and no hexadecimal ones of another.
        self.assertEqual(message_of(f"0001BA{12 * '1'}{ACCOUNT}", 4).text, f"BA{12 * '1'}{ACCOUNT}")
        self.assertEqual(message_of("NC", 0), Message("", "NC"))

    def test_what_is_no_message(self) -> None:
        for line in ("0001", "00", "{", '{"command":"CA"}', "{}", '{"message":1}'):
            self.assertRaises(main.Told, message_of, line, 4)


class Secrets(unittest.TestCase):
    """No PIN, component or word is shown, nor what stands behind a field that does not."""

    def test_none_is_shown(self) -> None:
        cases = [
            (Message("0001", f"BA483920FFFFFG{ACCOUNT}"), "BB15", "483920"),
            (Message("0001", f"BA483920FFFFFF{ACCOUNT[:-1]}"), "BB15", "483920"),
            (Message("", f"A export 10 {WORD}", True), "NO 15", WORD),
            (Message("", f"A export 1000 {WORD} {WORD}", True), "NO 15", WORD),
            (Message("", f"A {WORD} {WORD}", True), "NO 15", "lime"),
            (Message("", "FK 001 Z 0123456789ABCDEF 0123456789ABCDE", True), "NO 15", "0123456789"),
            (Message("0001", f"NG{ACCOUNT}AC9E30EA4EE08820"), "NH00483920FFFFFF", "483920")]
        for message, reply, secret in cases:
            self.assertNotIn(secret, "\n".join(why.described(find(message, reply))), message)


class Runs(unittest.TestCase):
    """The command, over the program."""

    def setUp(self) -> None:
        self.enterContext(mock.patch.dict(os.environ, {"SOTHVELM_PROGRAM": need_program()}))

    def why(self, *words: str, given: str = "") -> tuple[int, str, str]:
        return called(main.main, "why", LABORATORY, *words, given=given)

    def test_the_program_tells_the_code(self) -> None:
        for text, code, _, _, place, _ in CASES:
            status, output, error = self.why("-", given=f"0001{text}\n")
            self.assertEqual((status, error), (0, ""))
            self.assertIn(f"refused with {code}, ", output, text)
            self.assertIn(f"place: byte {place} " if place else "check: ", output)

    def test_what_is_not_refused(self) -> None:
        self.assertEqual(self.why("NC"), (
            0, "NC, check of the LMKs: answered 00\ncheck of the LMKs: 33C517CEFDC01D40\nfirmware: 0001-LAB1\n", ""))
        status, output, _ = self.why("--allow", "pin.clear.host", f"NG{ACCOUNT}AC9E30EA4EE08820")
        self.assertEqual((status, output), (0, "NG, show a PIN that is under the LMKs: answered 00\nPIN: not shown\n"))

    def test_officers_words(self) -> None:
        self.assertIn("answered OK", self.why("C A export 10 abc hello")[1])
        status, output, _ = self.why("-", "--console", given=f"A export 10 abc {WORD}\n")
        self.assertEqual(output, "A, allow an activity: refused with WORDS, the officers' words are wrong\n"
                         "check: words; the officers' words are wrong\n")

    def test_refused(self) -> None:
        with folder() as name:
            wrong = write(os.path.join(name, "wrong.toml"), laboratory(header=256))
            cases = [((LABORATORY, ""), 2, "there is no message"), ((LABORATORY, "--allow", "x", "NC"), 2, "'x' is no act"),
                     ((LABORATORY, "--allow", "export", "C A export 1 a b"), 2, "--allow has officers of its own"),
                     ((LABORATORY, "00"), 1, "a message has a header of 4 characters"), ((wrong, "NC"), 3, "hsm: rule 3"),
                     (("missing", "NC"), 3, "missing: No such file"), ((LABORATORY, "\u20ac" * 6), 2, "a message has bytes")]
            for words, status, told in cases:
                came, output, error = called(main.main, "why", *words)
                self.assertEqual((came, output, error.count("\n")), (status, "", 1), (words, error))
                self.assertTrue(error.startswith(f"sothvelm why: {told}"), error)


if __name__ == "__main__":
    unittest.main()
