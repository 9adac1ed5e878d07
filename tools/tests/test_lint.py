"""`sothvelm lint`: it agrees with `hsm_tool check` on each configuration, and says where and why."""
import os
import random
import re
import subprocess
import unittest

from tests.harness import TOP, called, folder, laboratory, need_program, read, write

from sothvelm import lint, main, toml

NAMES = ["examples/laboratory.toml", "examples/laboratory64.toml", "examples/laboratory_listed.toml",
         "examples/equal_pairs_but_14.toml", "crates/hsm_tool/data/equal_pairs.toml", "examples/gateway/gateway.toml",
         "examples/service/gateway.toml", "tools/pyproject.toml"]
# Lines of TOML, put behind the laboratory's: some are no TOML 1.1, and the others are keys that are not known.
LINES = r'''
a = 1 # remark
a = 0x_1
a = 0xAF
a = 0XAF
a = 01
a = +1
a = 1_000
a = 1__0
a = 9223372036854775807
a = 9223372036854775808
a = -9223372036854775808
a = -9223372036854775809
a = 0x8000000000000000
a = 1.
a = .1
a = 1.5e3
a = 1e06
a = 1_0.0_1
a = 1e999
a = inf
a = +nan
a = infinity
a = true
a = True
a = "x
a = "\e\x41\u00e9"
a = "\q"
a = "\uD800"
a = 'it\'
a = 'it
a = """one""two"""
a = """one""""""
a = """one"""""
a = 1979-05-27
a = 1979-02-29
a = 1980-02-29 07:32
a = 1979-05-27T07:32:00.5+01:00
a = 1979-05-27T07:32:60Z
a = 1979-05-27T24:00:00
a = 07:32
a = 07:3
a = 1979-05-27 x
a = 1979-5-27
a = 1 2
a = [1, 2,]
a = [1 2]
a = [,]
a = { b = 1, }
a = { b = 1, b = 2 }
a = { b.c = 1, b.d = 2 }
a = { b = 1 c = 2 }
a = { b }
a = {}
a.b = 1
a . b = 1
"a" = 1
'a'.b = 1
"" = 1
a = 1 b = 2
= 1
a =
a
a b = 1
[a]
[ a . b ]
[a] # remark
[a] x
[[a]]
[a
[]
[a]]
[ [a] ]
accept = 9
"accept" = 9
accept.b = 9
[accept]
[version]
[[host_ports]]
 # remark
a = "tab	in it"
# control 
a-b_1 = 1
ä = 1
"ä" = 1
a = nan1
a = [[[[1]]]]
'''.strip().splitlines()
DOCUMENTS = [
    b"", b"\xef\xbb\xbf", b"\xef\xbb\xbfa = 1", b"a = 1\r\nb = 2\r\n", b"a = 1\rb = 2", b"# \xff", b"a = \"\xff\"",
    b"a = \"\x00\"", b"# \x7f", b"[a]\nb = 1\n[a]\n", b"[a.b]\n[a]\n", b"[a]\n[a.b]\n[a]\n", b"a.b = 1\n[a]\n",
    b"[a]\nb.c = 1\n[a.b]\n", b"[a]\nb.c = 1\n[a.b.d]\n", b"[a.b.c]\n[a]\nb.d = 1\n", b"[a.b.c]\n[a]\nb.c.d = 1\n",
    b"[[a]]\n[[a]]\n[a.b]\n", b"[a]\n[[a]]\n", b"[[a]]\n[a]\n", b"a = []\n[[a]]\n", b"a = {}\n[a.b]\n",
    b"[[a.b]]\n[a]\nb.c = 1\n", b"a = '''\nx\n'''\n", b"a = '''x\r\ny'''\n", b"a = \"\"\"x\\\n   y\"\"\"\n",
    b"a = \"\"\"x\\ y\"\"\"\n", b"a = {\n b = 1, # remark\n c = 2\n}\n", b"a = [\n 1, # remark\n 2\n]\n",
    b"a = { b\n= 1 }\n", b"a\n= 1\n", b"a = " + 80 * b"[" + 80 * b"]" + b"\n", b"a = " + 81 * b"[" + 81 * b"]" + b"\n",
    b".".join(80 * [b"a"]) + b" = 1\n", b".".join(81 * [b"a"]) + b" = 1\n",
    b"[" + b".".join(81 * [b"a"]) + b"]\n"]


def declared() -> list[tuple[bytes, str]]:
    """The broken documents of crates/test_config, with the rule that each breaks."""
    source = read("crates", "test_config", "src", "documents.rt")
    found = re.search(r"const LINES: \[&str; 8\] = \[\n(.*?)\n\];", source, re.DOTALL)
    lines = [text.replace('\\"', '"') for text in re.findall(r'"((?:[^"\\]|\\.)*)",$', found[1], re.MULTILINE)]
    part = source[source.index("fn refuses_broken_lines"):source.index("fn refuses_pairs")]
    cases = re.findall(r'\(\s*(\d),\s*"((?:[^"\\]|\\.)*)",\s*(\d+),?\s*\)', part)
    return [("\n".join(line.replace('\\"', '"') if place == int(at) else each
                       for place, each in enumerate(lines)).encode(), rule) for at, line, rule in cases]


def documents() -> list[bytes]:
    """Configurations of the repository, those of its tests, lines behind the laboratory's, and documents of TOML."""
    sound = laboratory().encode()
    found = [read(name).encode() for name in NAMES] + [data for data, _ in declared()]
    found += [sound + line.encode() + b"\n" for line in LINES] + DOCUMENTS + [sound + each for each in DOCUMENTS]
    found += [sound.replace(b"accept = 8", each) for each in (
        b"accept = 0x10", b"accept = 4_096", b"accept = 4.0", b"accept = '8'", b"accept = [8]", b"accept = true",
        b"\"accept\" = 8", b"accept.x = 8", b"accept = 08", b"accept = +8", b"accept = 4097")]
    return found


def changed(count: int, seed: int) -> list[bytes]:
    """Configurations of the repository with bytes and lines changed, dropped and repeated at random."""
    draw, found = random.Random(seed), []
    sources = [read(name).encode() for name in NAMES[:5]]
    for _ in range(count):
        data = draw.choice(sources)
        for _ in range(draw.randrange(1, 4)):
            at = draw.randrange(len(data) + 1)
            kind = draw.randrange(4)
            if kind == 0:
                data = data[:at] + bytes([draw.choice(b"0129aF\"'[]{}=.,#\n\r\t _-+eE:T\\\xc3\x00")]) + data[at + 1:]
            elif kind == 1:
                data = data[:at] + data[at + draw.randrange(1, 5):]
            elif kind == 2:
                lines = data.splitlines(keepends=True)
                place = draw.randrange(len(lines))
                data = b"".join(lines[:place] + draw.choice([[], 2 * [lines[place]]]) + lines[place + 1:])
            else:
                more = draw.choice([b"1501", b"65536", b"[x]", b"x = 1", b"\"\"\"", b"0x", b"1979-05-27"])
                data = data[:at] + more + data[at:]
            data = data or b"\n"
        found.append(data)
    return found


class Agreement(unittest.TestCase):
    """What is told first is what the program tells, and nothing is told where it tells nothing."""

    def test_the_rules_of_the_tests(self) -> None:
        cases = declared()
        self.assertEqual(len(cases), 36)
        for data, rule in cases:
            self.assertEqual(lint.verdict(data), f"hsm: rule {rule}", data)

    def check(self, found: list[bytes]) -> None:
        program = need_program()
        wrong, kinds = [], set()
        with folder() as name:
            path = os.path.join(name, "module.toml")
            for data in found:
                write(path, data)
                done = subprocess.run([program, "check", path], capture_output=True, check=False)
                told = (done.stdout + done.stderr).decode().strip()
                kinds.add(told)
                if told != lint.verdict(data):
                    wrong.append((told, lint.verdict(data), data[-200:]))
        self.assertEqual(wrong, [])
        self.assertGreater(len(kinds), 3)

    def test_documents(self) -> None:
        self.check(documents())

    def test_changed_documents(self) -> None:
        self.check(changed(600, 40))

    def test_a_long_file(self) -> None:
        self.assertEqual(lint.verdict(bytes(2**24 + 1)), "hsm: file too long")


class Places(unittest.TestCase):
    """Where and why."""

    def told(self, text: str) -> list[str]:
        return [each.told("f") for each in lint.lint(text.encode())[0]]

    def test_parity(self) -> None:
        """Which of 320 bytes has even parity."""
        text = read("examples", "laboratory_listed.toml").replace("2C2C2C2C2C2C2C2C6D", "2C2C2C2C2D2C2C2C6C")
        line = text[:text.index("2C2C2C2C2D")].count("\n") + 1
        self.assertEqual(self.told(text), [
            f"f:{line}: lmk: pair 12-13: byte 5 of it has even parity, which is byte 101 of 320 (rule 6)",
            f"f:{line}: lmk: pair 12-13: byte 9 of it has even parity, which is byte 105 of 320 (rule 6)"])

    def test_ports(self) -> None:
        self.assertEqual(self.told(laboratory(host_ports="[1501,\n 1502, 1501, 1500]")), [
            "f:9: host_ports: port 1501 is twice: of lane 1 and of lane 3 (rule 9)",
            "f:9: host_ports: port 1500 is twice: of the console and of lane 4 (rule 9)"])
        self.assertEqual(self.told(laboratory(host_ports="[0, 'x']")), [
            "f:8: host_ports: lane 1: an integer of 1 to 65535 is wanted, and it is 0 (rule 8)",
            "f:8: host_ports: lane 2: an integer of 1 to 65535 is wanted, and it is a text (rule 8)"])

    def test_all_faults_by_their_rules(self) -> None:
        self.assertEqual(self.told(laboratory(accept=0, header=256, version=None, acept=1, console_port="1.5")), [
            "f:9: acept: no key of a configuration; accept is one (rule 1)", "f: version: the key is missing (rule 2)",
            "f:2: header: an integer of 0 to 255 is wanted, and it is 256 (rule 3)",
            "f:6: console_port: an integer of 1 to 65535 is wanted, and it is 1.5 (rule 7)",
            "f:8: accept: an integer of 1 to 4096 is wanted, and it is 0 (rule 10)"])

    def test_officers_and_pairs(self) -> None:
        digest = "ba7816bf8f01cfea414140de5dae2223b00361a396177a9cb410ff61f20015ad"
        self.assertEqual(self.told(laboratory(officers=f'["{digest[:-1]}g", "quicklime"]')), [
            "f:4: officers: officer 1: a SHA-256 digest has 64 hexadecimal digits, and character 64 is none (rule 4)",
            "f:4: officers: officer 2: a SHA-256 digest has 64 hexadecimal digits, and it has 9 characters (rule 4)"])
        self.assertEqual(self.told(laboratory(lmk='"T"')), [
            'f:6: lmk: the text "test" is wanted, or a list of 20 texts (rule 5)'])
        self.assertEqual(self.told(laboratory(lmk="[]")), ["f:6: lmk: 20 texts are wanted, and there are 0 (rule 5)"])

    def test_no_toml(self) -> None:
        self.assertEqual(self.told(laboratory(accept="= 9"))[0], "f:9:10: not toml: a value is wanted")
        self.assertEqual(self.told(laboratory() + "accept = 9\n"), ["f:10:1: not toml: this key stands already in line 9"])
        self.assertEqual([each.told("f") for each in lint.lint(b"a = 1\n# \xff")[0]], ["f:2:3: not toml: no UTF-8"])

    def test_no_secret_is_repeated(self) -> None:
        """An officer's word or a key at a wrong place stands in no line that is told."""
        word, key = "quicklime", "0123456789ABCDEF0123456789ABCDEF"
        for text in (laboratory(officers=f"[{word}, {word}]"), laboratory(officers=f'["{word}", "{word}"]'),
                     laboratory(officers=f'"{word}"'), laboratory(lmk=f'"{key}"'), laboratory(lmk=f'["{key[:-1]}"]'),
                     laboratory(lmk=key), laboratory() + f"{word} x\n", laboratory() + f'"{word} and {key}" = 1\n',
                     laboratory(accept=f'"{word}"')):
            told = self.told(text)
            self.assertTrue(told)
            for secret in (word, key[:31]):
                self.assertNotIn(secret, "\n".join(told))


class Limits(unittest.TestCase):
    """What is told of the machine."""

    def notes(self, text: str, descriptors: int | None = None, threads: int | None = None) -> list[str]:
        return lint.notes(toml.read(text.encode()), descriptors, threads, here=False)

    def test_descriptors_and_threads(self) -> None:
        """The numbers are those of docs/OPERATING.md for 65 lanes."""
        text = read("examples", "laboratory64.toml")
        for descriptors, words in (67, "can't be listened on, which takes 68"), (68, "133 are wanted"), (
                132, "133 are wanted"), (133, None):
            told = self.notes(text, descriptors)
            self.assertEqual(bool(told), words is not None)
            if words:
                self.assertIn(words, told[0])
        self.assertIn("64 threads: 65 lanes", self.notes(text, None, 64)[0])
        self.assertEqual(self.notes(text, None, 65), [])

    def test_one_word_for_both(self) -> None:
        digest = '"ba7816bf8f01cfea414140de5dae2223b00361a396177a9cb410ff61f20015ad"'
        self.assertEqual(self.notes(laboratory(officers=f"[{digest}, {digest}]")),
                         ["officers: both digests are of one word"])


class Runs(unittest.TestCase):
    """The command."""

    def test_statuses(self) -> None:
        with folder() as name:
            sound = write(os.path.join(name, "sound.toml"), laboratory())
            wrong = write(os.path.join(name, "wrong.toml"), laboratory(header=256, accept=0))
            status, output, error = called(main.main, "lint", "--descriptors", "4", sound)
            self.assertEqual((status, output.splitlines()[0], error), (0, "OK 2", ""))
            self.assertIn(f"{sound}: note: 4 descriptors", output)
            status, output, error = called(main.main, "lint", wrong)
            self.assertEqual((status, len(output.splitlines()), error),
                             (1, 2, f"sothvelm lint: {wrong}: 2 faults\n"))
            for words, status, told in [
                    ((os.path.join(name, "missing"),), 3, "No such file or directory\n"), ((name,), 3, "Is a directory\n"),
                    ((), 2, "sothvelm lint --help says more\n"), ((sound, "x"), 2, "sothvelm --help says more\n")]:
                came, output, error = called(main.main, "lint", *words)
                self.assertEqual((came, output, error.count("\n")), (status, "", 1))
                self.assertTrue(error.endswith(told), error)

    def test_a_long_file(self) -> None:
        with folder() as name:
            path = os.path.join(name, "long.toml")
            with open(path, "wb") as file:
                file.truncate(2**24 + 1)
            self.assertEqual(called(main.main, "lint", path),
                             (1, "", f"sothvelm lint: {path}: it has more than 16777216 bytes\n"))


class Repository(unittest.TestCase):
    """What the tests stand on."""

    def test_the_names_are_there(self) -> None:
        for name in NAMES:
            self.assertTrue(os.path.exists(os.path.join(TOP, name)), name)


if __name__ == "__main__":
    unittest.main()
