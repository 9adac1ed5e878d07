"""Which check and which field the log names for a refusal."""
import contextlib
import os
import re
import shutil
import sys
import unittest
from typing import Any, Callable
from unittest import mock

from gateway.app import read_table
from gateway.tests.harness import TOP
from sothvelm.forms import trailer_of

KEY, PAIR = "U70608A485781E63A744063451C9937C8", "783D054D5587C8BD8FB88A71AC1A5C5D"
ZMK = "U9F9A79DCD106B37584C5D3D3C418F4AE"
BLOCK, ACCOUNT = "5E6CD2CEB7124BBF", "123456789012"
PARITY = "the key has a byte of even parity, as where the text is of another LMK set or key type"
# A message without header, the error code that it is answered with, the check and what is told.
CASES = [
    ("ZZ", "68", "command", "no such command"),
    (f"CA{KEY}{KEY}12{BLOCK}0199{ACCOUNT}", "23", "fields", "field 6, code of the new block: no PIN block code"),
    (f"CA{KEY}{KEY}12{BLOCK}0101{ACCOUNT[:-1]}", "15", "fields",
     "field 7, account field: no text of the form 12N: the message ends before it does"),
    (f"CA{KEY[1:17]}", "15", "fields", "field 2, ZPK: no text of the form K: the message ends before it does"),
    (f"CA{KEY}{KEY}13{BLOCK}", "15", "fields", "field 3, greatest length: no text of the form len"),
    (f"CA{KEY}{KEY}12{BLOCK}0101{ACCOUNT}1", "15", "end",
     "behind field 7: something follows that is no LMK set and trailer"),
    ("NCX", "15", "end", "behind the command: something follows that is no LMK set and trailer"),
    (f"CA{KEY}{KEY}12{BLOCK}0101{ACCOUNT}%01", "13", "set", "%01 behind the fields: the LMK set is not loaded"),
    ("NC%1", "15", "end", "behind the command: something follows that is no LMK set and trailer"),
    (f"CA{KEY}{KEY}12{BLOCK}0101{ACCOUNT}", "10", "keys", f"field 1, TPK: {PARITY}"),
    (f"CA{KEY}{KEY}12{BLOCK}0101{ACCOUNT}", "11", "keys", f"field 2, ZPK: {PARITY}"),
    (f"CA{KEY}{KEY}12{BLOCK}0101{ACCOUNT}\x19trailer", "20", "data",
     "field 4, PIN block under the TPK: the block holds no PIN of its code: as where another key enciphered it, or the "
     "account field is another one"),
    ("A00001", "26", "fields", "field 3, scheme under the LMKs: the scheme is wrong: the message ends before it does"),
    (f"A01001U;0{ZMK}Z", "26", "keys", "field 6, scheme under the wrapping key: the scheme is wrong: it has another "
     "number of parts than field 3, scheme under the LMKs"),
    ("A00402Z", "27", "keys",
     "field 3, scheme under the LMKs: the key has a wrong number of parts: the type 402 wants 2, and it has 1"),
    (f"A01001U{'0' * 16}U", "27", "keys", "field 5, wrapping key: the key has a wrong number of parts: a ZMK or TMK "
     "that wraps has two or three parts, and it has one"),
    (f"A01000U{ZMK}U", "29", "type", "field 2, key type: the type forbids the act"),
    (f"A01402U{ZMK}U", "17", "activity", "an activity that is needed is not allowed: export.402.host"),
    ("A00000U", "17", "activity", "an activity that is needed is not allowed: generate.000.host"),
    (f"A6001{ZMK}X{'0' * 32}U", "11", "keys", f"field 3, key under the ZMK: {PARITY}"),
    (f"A8002{ZMK}{KEY}X", "75", "parts", "field 4, key under the LMKs: a part of the key equals the part before it"),
    (f"BU010{KEY}", "27", "keys", "field 3, key under the LMKs: the key has a wrong number of parts: the flag asks for "
     "1, and it has 2"),
    (f"BU011{PAIR}", "26", "keys", "field 3, key under the LMKs: the scheme is wrong: an untagged pair is read for the "
     "types 002 and 402 alone"),
    ("BU013", "05", "fields", "field 2, flag: no flag"),
    (f"NG{ACCOUNT}{BLOCK}", "17", "activity", "an activity that is needed is not allowed: pin.clear.host"),
    (f"DG{PAIR}{BLOCK}{ACCOUNT}1", "14", "data", "field 2, PIN under the LMKs: the PIN does not open for the account "
     "field: as where another key enciphered it, or the account field is another one"),
    (f"DE{KEY}{BLOCK}05{ACCOUNT}{'0123456701234567'}12345678901N", "24", "data",
     "field 3, check length: the PIN has a wrong length: it is shorter than this"),
    (f"CY{PAIR}5684123456789012345678;8701101", "01", "comparison",
     "field 2, CVV: the value given is not the one computed"),
    ("M600031008U" + "0" * 32 + "0000", "80", "data", "field 10, data: the data of the MAC are refused: none, no whole "
     "blocks, or padding 3 in another mode than 0"),
    ("M600031008Z" + "0" * 16 + "0001A", "27", "keys", "field 7, key: the key has a wrong number of parts: algorithm 3 "
     "wants two parts, and it has 1")]


class Words(unittest.TestCase):
    """What is told of a refusal."""

    def test_cases(self) -> None:
        refusals = read_table()
        for message, code, check, words in CASES:
            with self.subTest(message=message, code=code):
                found = refusals.explain(message, code)
                self.assertEqual((found.check, found.words), (check, words))
                number = re.match("field ([0-9]+)", words)
                self.assertEqual(found.field, int(number[1]) if number else 0)

    def test_the_trailer_behind_an_lmk_set(self) -> None:
        commands = read_table().commands
        for message, trailer in ("NC%01\x19ab", "\x19ab"), ("NC\x19%01", "\x19%01"), ("NC%01", ""), ("NC%1\x19ab", ""):
            self.assertEqual(trailer_of(commands["NC"], message[2:]), trailer)

    def test_a_code_that_does_not_fit(self) -> None:
        refusals = read_table()
        for message, code in ("NC", "10"), ("CA", "23"), ("NC", "??"), (f"CW{PAIR}", "01"):
            self.assertEqual(refusals.explain(message, code).check, "unknown")

    def test_the_models_messages(self) -> None:
        """Of each message that the model refuses, the right check of its order is told, and no text of a field."""
        if not shutil.which("openssl"):
            self.skipTest("no openssl")
        checks = {"68": {"command"}, "04": {"fields"}, "05": {"fields"}, "23": {"fields"}, "15": {"fields", "end"},
                  "13": {"set"},
                  "26": {"fields", "keys"}, "27": {"keys"}, "10": {"keys"}, "11": {"keys"}, "29": {"type"},
                  "75": {"parts"}, "17": {"activity"}, "25": {"data"}, "20": {"data"}, "24": {"data"}, "14": {"data"},
                  "80": {"data"}, "01": {"comparison"}}
        refusals, seen = read_table(), 0
        for message, answer in model_messages():
            code = answer[2:4]
            if code == "00":
                continue
            found = refusals.explain(message, code)
            seen += 1
            self.assertIn(found.check, checks[code], (message, code, found))
            self.assertIsNone(re.search("[0-9A-F]{8}", found.words), (message, found))
        self.assertGreater(seen, 200)

    def test_the_models_fields(self) -> None:
        """The field that is told is the one at which the model stops: of its reading, its keys, its PIN block."""
        if not shutil.which("openssl"):
            self.skipTest("no openssl")
        refusals, kinds = read_table(), set()
        with Watched() as watched:
            for message, _ in model_messages():
                code = watched.host(message)[2:4]
                found = refusals.explain(message, code) if code != "00" else None
                if found and (wanted := watched.field(message) if found.check != "fields" else watched.read):
                    self.assertEqual(found.field, wanted, (message, code, found))
                    kinds.add((message[:2], code, found.field))
        self.assertGreater(len(kinds), 60)


def model_messages() -> list[tuple[str, str]]:
    """The messages that the scripts of model/ print, and their answers."""
    sys.path.insert(0, os.path.join(TOP, "model"))
    import data_rows
    import key_rows
    import pin_rows
    return [(message.decode("latin-1"), answer.decode("latin-1")) for rows in (key_rows, pin_rows, data_rows)
            for group in rows.GROUPS.values() for message, answer in group().cases]


class Watched:
    """The model, of which is seen where it stops: the last field that it read, and the text that a call refused."""

    def __enter__(self) -> "Watched":
        sys.path.insert(0, os.path.join(TOP, "model"))
        import hsm_model
        self.model, self.hsm, self.held = hsm_model, hsm_model.Hsm(), contextlib.ExitStack()
        self.read, self.text = 0, ""
        pattern_of = hsm_model.pattern_of

        def reading(form: str, texts: list[str]) -> tuple[str, str]:
            self.read = len(texts) + 1
            return pattern_of(form, texts)

        self.held.enter_context(mock.patch.object(hsm_model, "pattern_of", reading))
        for name, place in ("lmk_key", 1), ("pin_under", 1), ("pin_under_lmk", 0):
            self.held.enter_context(mock.patch.object(self.hsm, name, self.watching(getattr(self.hsm, name), place)))
        return self

    def __exit__(self, *_: object) -> None:
        self.held.close()

    def watching(self, call: Callable[..., Any], place: int) -> Callable[..., Any]:
        """A call of the model, with its argument at this place kept where it refuses."""
        def watched(*given: Any, **named: Any) -> Any:
            try:
                return call(*given, **named)
            except self.model.Refused:
                self.text = given[place]
                raise
        return watched

    def host(self, message: str) -> str:
        self.read, self.text = 0, ""
        return self.hsm.host(message.encode("latin-1")).decode("latin-1")

    def field(self, message: str) -> int:
        """The number of the field whose text was refused; 0 where no call refused one, or two fields have this text."""
        texts, _ = self.model.read_fields(self.model.FIELDS[message[:2]], message[2:], False) if self.text else ([], "")
        return texts.index(self.text) + 1 if texts.count(self.text) == 1 else 0


if __name__ == "__main__":
    unittest.main()
