"""`sothvelm key`: keys of the documents, sealed, told, wrapped and joined; what is asked for; what is refused."""
import os
import re
import unittest
import unittest.mock

from tests.harness import called, folder, laboratory, need_program, ran, read, write

from sothvelm import main
from sothvelm.keys import even_bytes
from sothvelm.module import Module

ZMK = "U9F9A79DCD106B37584C5D3D3C418F4AE"
ZPK, WRAPPED = "U71D85977C347EBFADA6E35FE76C6A281", "X1A4D672DCA6CB3351FD1B02B237AF9AE"
CVK = "U93433818F0FC142D7DDA7B0CFFEF28D2"


def documented() -> list[tuple[str, str, str]]:
    """The keys of docs/COMMANDS.md: text, type, and the key in the clear."""
    return re.findall(r"^\| `(U\w{32})`[^|]*\| (\w{3}) \| \w+ ([0-9A-F]{32}) \|$", read("docs", "COMMANDS.md"), re.MULTILINE)


def key(*words: str, given: str = "") -> tuple[int, str, str]:
    return called(main.main, "key", *words, given=given)


class Keys(unittest.TestCase):
    """Over a module that is started for each run."""

    def setUp(self) -> None:
        self.enterContext(unittest.mock.patch.dict(os.environ, {"SOTHVELM_PROGRAM": need_program()}))

    def test_the_documents_keys(self) -> None:
        """Each is sealed to its text, and its text is told to be of its type alone."""
        self.assertEqual(len(documented()), 6)
        for text, code, clear in documented():
            status, output, error = key("seal", "--type", code, given=clear.lower() + "\n")
            self.assertEqual((status, output.split()[0], error), (0, text, ""))
            value = output.split()[1]
            self.assertEqual(key("check", "--type", code, text), (0, value + "\n", ""))
            status, output, _ = key("what", text)
            self.assertEqual((status, [line[:8] for line in output.splitlines()]), (0, [f"type {code}"]), output)
            self.assertIn(f"set 00, check value {value}", output)

    def test_wrapping(self) -> None:
        self.assertEqual(key("wrap", "--type", "001", "--zmk", ZMK, ZPK), (0, f"{WRAPPED} 08D7B4\n", ""))
        self.assertEqual(key("unwrap", "--type", "001", "--zmk", ZMK, WRAPPED), (0, f"{ZPK} 08D7B4\n", ""))
        # A type whose export and import officers have to allow.
        self.assertEqual(key("wrap", "--type", "402", "--zmk", ZMK, CVK), (0, f"{WRAPPED} 08D7B4\n", ""))
        self.assertEqual(key("unwrap", "--type", "402", "--zmk", ZMK, WRAPPED), (0, f"{CVK} 08D7B4\n", ""))
        status, _, error = key("wrap", "--type", "000", "--zmk", ZMK, ZMK)
        self.assertEqual((status, error), (
            1, "sothvelm key: A8 was refused with 29: field 1, key type: the type forbids the act\n"))

    def test_components(self) -> None:
        """Components that are drawn, joined by the module and by exclusive-or, are one key."""
        for count, scheme in (2, "U"), (3, "T"), (2, "Z"):
            status, output, _ = key("components", "--type", "001", "--scheme", scheme, "--count", str(count))
            drawn = [line.split()[0] for line in output.splitlines()]
            self.assertEqual((status, len(drawn), len(set(drawn))), (0, count, count))
            status, joined, _ = key("join", "--type", "001", "--count", str(count), given="\n".join(drawn) + "\n")
            self.assertEqual(status, 0)
            number = 0
            for each in drawn:
                number ^= int(each, 16)
            clear = f"{number:0{len(drawn[0])}X}"
            self.assertEqual(key("seal", "--type", "001", "--odd", given=clear + "\n"), (0, joined, ""))

    def test_another_configuration(self) -> None:
        with folder() as name:
            path = write(os.path.join(name, "equal.toml"), read("crates", "hsm_tool", "data", "equal_pairs.toml"))
            self.assertEqual(key("seal", "--type", "001", "--config", path, given="0123456789ABCDEF\n"),
                             (0, "85E813540F0AB405 D5D44F\n", ""))
            # In this set all pairs are alike, but for the variant of 402, which has no key of one part.
            status, output, _ = key("what", "--config", path, "85E813540F0AB405")
            self.assertEqual((status, re.findall("type (...)", output)), (0, ["001", "002", "003", "008", "00A", "00B"]))

    def test_refused(self) -> None:
        cases = [
            (("seal", "--type", "001"), "0023456789ABCDEF", 1,
             "byte 1 of the key has even parity; --odd makes each byte odd"),
            (("seal", "--type", "001"), "0123456789ABCDEG", 1, "a key in the clear has 16, 32 or 48 hexadecimal digits"),
            (("seal", "--type", "001", "--scheme", "U"), "0123456789ABCDEF", 1,
             "scheme U is of a key of 2 parts, and this one has 1"),
            (("seal", "--type", "402"), "0123456789ABCDEF", 1, "FK was refused with 27: field 2, scheme: "),
            (("seal", "--type", "001"), "0123456789ABCDEF0123456789ABCDEF", 1, "FK was refused with 75: field 3, "),
            (("join", "--type", "001"), "0123456789ABCDEF\n0123456789ABCDEF0123456789ABCDEF", 1,
             "the components have different numbers of digits"),
            (("join", "--type", "001"), "0123456789ABCDEF", 2, "standard input ended where the component 2 is wanted"),
            (("what", WRAPPED), "", 1, "X is of keys under a ZMK or TMK, which `sothvelm key unwrap` tries"),
            (("what", "U" + 32 * "0"), "", 1, "the text opens to a key of odd parity under no type and set"),
            (("check", "--type", "001", "--config", "missing", ZPK), "", 3, "missing: No such file or directory"),
            (("check", "--type", "001", "--console", "1500", ZPK), "", 2, "--console and --host are wanted together"),
            (("check", "--type", "001", "--program", "missing", ZPK), "", 3, "no program missing: name it by ")]
        for words, given, status, told in cases:
            came, output, error = key(*words, given=given + "\n")
            self.assertEqual((came, output, error.count("\n")), (status, "", 1), (words, error))
            self.assertTrue(error.startswith(f"sothvelm key: {told}"), (words, error))
            if given:
                self.assertNotIn(given[:16], error)

    def test_a_key_among_the_words_is_not_repeated(self) -> None:
        status, _, error = ran("key", "seal", "--type", "001", "0123456789ABCDEF")
        self.assertEqual((status, error), (
            2, "sothvelm: there are words too many; sothvelm --help says more\n"))

    def test_even_bytes(self) -> None:
        self.assertEqual(even_bytes("0123456789ABCDEF0023456789ABCDEE"), [9, 16])


class Running(unittest.TestCase):
    """Over a module that runs, whose officers' words are asked for where they are needed."""

    def setUp(self) -> None:
        self.module = self.enterContext(Module(need_program(), words=("quick", "lime")))
        self.words = ("--console", str(self.module.console_port), "--host", str(self.module.host_ports[0]))

    def grants(self) -> tuple[str, ...]:
        with self.module.console() as console:
            return console.show_live_grants().grants

    def test_the_words_are_asked_for(self) -> None:
        text, code, clear = documented()[0]
        status, output, error = key("seal", "--type", code, *self.words, given=f"{clear}\nquick\nlime\n")
        self.assertEqual((status, output.split()[0], error), (0, text, ""))
        self.assertEqual(self.grants(), ())

    def test_a_grant_that_lives_stays(self) -> None:
        self.module.allow("component.000")
        self.module.console().close()
        text, code, clear = documented()[0]
        status, output, _ = key("seal", "--type", code, *self.words, given=f"{clear}\n")
        self.assertEqual((status, output.split()[0], self.grants()), (0, text, ("component.000=0",)))

    def test_wrong_words_are_not_repeated(self) -> None:
        _, code, clear = documented()[0]
        status, output, error = key("seal", "--type", code, *self.words, given=f"{clear}\nquick\nlimes\n")
        self.assertEqual((status, output, error), (
            1, "", "sothvelm key: A was refused with WORDS: the officers' words are wrong\n"))
        self.assertEqual(self.grants(), ())

    def test_nobody_listens(self) -> None:
        self.module.end()
        status, _, error = key("check", "--type", "001", *self.words, ZPK)
        self.assertEqual((status, error), (3, "sothvelm key: nobody listens at that port\n"))


class Laboratory(unittest.TestCase):
    """What the tests themselves use."""

    def test_texts(self) -> None:
        self.assertEqual(laboratory(), read("examples", "laboratory.toml"))
        self.assertIn("\nheader = 9\nofficers", laboratory(header=9))
        self.assertNotIn("officers =", laboratory(officers=None))


if __name__ == "__main__":
    unittest.main()
