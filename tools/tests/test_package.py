"""The Debian package: built, looked at by lintian, unpacked, and run."""
import os
import re
import shutil
import subprocess
import sys
import unittest

from tests.harness import PROGRAM, TOP, WAIT, folder, need, need_program, read, write

from sothvelm import __version__, main, table

BUILD = os.path.join(TOP, "packaging", "build")
MODULES = "usr/lib/python3/dist-packages"


def built(target: str, program: str) -> str:
    """A package in a folder. Gives its path."""
    done = subprocess.run([sys.executable, "-B", BUILD, target, program], capture_output=True, text=True, timeout=WAIT,
                          check=False)
    if done.returncode != 0:
        raise AssertionError(done.stderr)
    return done.stdout.strip()


class Package(unittest.TestCase):
    """A package with the program, unpacked in a folder."""

    @classmethod
    def setUpClass(cls) -> None:
        need_program()
        need("dpkg-deb", "dpkg")
        cls.folder = cls.enterClassContext(folder())
        cls.path = built(cls.folder, PROGRAM)
        cls.top = os.path.join(cls.folder, "top")
        subprocess.run(["dpkg-deb", "-x", cls.path, cls.top], check=True, timeout=WAIT)

    def run_it(self, *words: str, given: str = "", **environment: str) -> tuple[int, str, str]:
        """A run of a program of the package, which finds the others beside it."""
        path = os.path.join(self.top, "usr", "bin")
        name = os.path.join(path, words[0])
        start = [name] if words[0] == "hsm_tool" else [sys.executable, "-B", name]
        done = subprocess.run([*start, *words[1:]], input=given, capture_output=True, text=True, timeout=WAIT, cwd="/",
                              env={**os.environ, "PATH": f"{path}:{os.environ['PATH']}", "SOTHVELM_PROGRAM": "hsm_tool",
                                   **environment}, check=False)
        return done.returncode, done.stdout, done.stderr

    def test_lintian_finds_no_error(self) -> None:
        lintian = need("lintian", "lintian")
        done = subprocess.run([lintian, "--allow-root", "--fail-on", "error", self.path], capture_output=True, text=True,
                              timeout=4 * WAIT, check=False)
        self.assertEqual(re.findall("^E: .*$", done.stdout, re.MULTILINE), [])
        self.assertEqual(done.returncode, 0, done.stdout + done.stderr)

    def test_the_same_files_give_the_same_package(self) -> None:
        with folder() as other, open(built(other, PROGRAM), "rb") as again, open(self.path, "rb") as first:
            self.assertTrue(again.read() == first.read())

    def test_the_program_runs(self) -> None:
        self.assertEqual(self.run_it("hsm_tool", "check", f"{self.top}/etc/sothvelm/module.toml"), (0, "OK 64\n", ""))
        self.assertEqual(self.run_it("hsm_tool", "make", "4", "0")[1], (
            "MADE 4 4 0 e866c070225042da676880fb41a91f02ce00e87ac6846003960d44b2f8e69685\n"))

    def test_the_desk_runs(self) -> None:
        self.assertEqual(self.run_it("sothvelm", "--version"), (0, f"sothvelm {__version__}\n", ""))
        self.assertEqual(self.run_it("sothvelm", "lint", f"{self.top}/etc/sothvelm/module.toml")[1].splitlines()[0], "OK 64")
        self.assertEqual(self.run_it("sothvelm", "key", "seal", "--type", "000",
                                     given="0123456789ABCDEFFEDCBA9876543210\n"),
                         (0, "U9F9A79DCD106B37584C5D3D3C418F4AE 08D7B4\n", ""))

    def test_the_gateway_reads_its_configurations(self) -> None:
        with open(f"{self.top}/etc/sothvelm/gateway.toml", encoding="utf-8") as file:
            text = file.read()
        self.assertIn('program = "/usr/bin/hsm_tool"', text)
        write(f"{self.top}/etc/sothvelm/here.toml", text.replace("/usr/bin/hsm_tool", "hsm_tool"))
        self.assertEqual(self.run_it("sothvelm-gateway", "--check", f"{self.top}/etc/sothvelm/here.toml"),
                         (0, "OK 64\n", ""))
        shutil.copy(os.path.join(TOP, "packaging", "container", "gateway.toml"), f"{self.top}/etc/sothvelm/container.toml")
        self.assertEqual(self.run_it("sothvelm-gateway", "--check", f"{self.top}/etc/sothvelm/container.toml"),
                         (0, "OK 64\n", ""))

    def test_an_example_stands_on_the_package(self) -> None:
        example = f"{self.top}/usr/share/doc/sothvelm/examples/frames.py"
        done = subprocess.run([sys.executable, "-B", example, "output"], input="L1 000E3030303142563030443544343446\n",
                              capture_output=True, text=True, timeout=WAIT, cwd="/", check=False,
                              env={**os.environ, "PYTHONPATH": f"{self.top}/{MODULES}"})
        self.assertEqual(done.stdout, "L1 BV 00  no error; check value D5D44F\n", done.stderr)

    def test_the_tree(self) -> None:
        """All files of the tools are there, what the units start is, and who may read the configurations."""
        here = {name for name in os.listdir(os.path.join(TOP, "tools", "sothvelm")) if not name.startswith("__pycache__")}
        self.assertEqual(here - set(os.listdir(f"{self.top}/{MODULES}/sothvelm")), {"generate.py"})
        for name in "sothvelm.service", "sothvelm-gateway.service":
            with open(f"{self.top}/lib/systemd/system/{name}", encoding="utf-8") as file:
                text = file.read()
            self.assertNotIn("/usr/local", text)
            for path in re.findall("^ExecStart=/(\\S+)", text, re.MULTILINE):
                self.assertTrue(os.access(f"{self.top}/{path}", os.X_OK), path)
        for name in "module.toml", "gateway.toml":
            self.assertEqual(os.stat(f"{self.top}/etc/sothvelm/{name}").st_mode & 0o777, 0o600)
        control = subprocess.run(["dpkg-deb", "-f", self.path], capture_output=True, text=True, check=True).stdout
        self.assertIn("Depends: libc6, python3 (>= 3.11)\n", control)

    def test_completion(self) -> None:
        cases = [("hsm_tool", ["hsm_tool", "e"], ["explain"]), ("hsm_tool", ["hsm_tool", "explain", "C"], ["CA", "CC", "CW", "CY"]),
                 ("sothvelm", ["sothvelm", "l"], ["lint"]), ("sothvelm", ["sothvelm", "key", "w"], ["wrap", "what"]),
                 ("sothvelm", ["sothvelm", "key", "seal", "--t"], ["--type"]),
                 ("sothvelm", ["sothvelm", "key", "seal", "--type", "00"], ["000", "001", "002", "003", "008", "009", "00A", "00B"]),
                 ("sothvelm", ["sothvelm", "page", "--po"], ["--port"])]
        for name, words, wanted in cases:
            script = (f". {self.top}/usr/share/bash-completion/completions/{name}; "
                      f"COMP_WORDS=({' '.join(words)}); COMP_CWORD={len(words) - 1}; _{name}; echo ${{COMPREPLY[*]}}")
            done = subprocess.run(["bash", "-c", script], capture_output=True, text=True, timeout=WAIT, check=False)
            self.assertEqual((done.stdout.split(), done.stderr), (wanted, ""), words)


class Pages(unittest.TestCase):
    """The man pages say what there is."""

    def test_words_and_statuses(self) -> None:
        for name in main.COMMANDS:
            self.assertRegex(read("packaging", "man", "sothvelm.1"), rf"\n\.B {name}\n")
        self.assertEqual(re.findall(r"^\.B (\d+)$", read("packaging", "man", "sothvelm.1"), re.MULTILINE),
                         re.findall(r"^\| (\d+) \|", read("docs", "TOOLS.md").split("## Exit status")[1], re.MULTILINE))
        page = read("packaging", "man", "hsm_tool.1")
        told = read("docs", "PROGRAM.md")
        self.assertEqual(re.findall(r"^\.B (\d)$", page, re.MULTILINE),
                         sorted(set(re.findall(r"^\| (\d) \|", told, re.MULTILINE))))
        for word in re.findall(r"^\| `hsm_tool (\w+)", told, re.MULTILINE):
            self.assertIn(f".B hsm_tool {word}\n", page)

    def test_they_are_laid_out(self) -> None:
        groff = need("groff", "groff-base")
        for name in os.listdir(os.path.join(TOP, "packaging", "man")):
            done = subprocess.run([groff, "-man", "-Tutf8", "-ww", os.path.join(TOP, "packaging", "man", name)],
                                  capture_output=True, text=True, timeout=WAIT, check=False)
            self.assertEqual((done.returncode, done.stderr), (0, ""))


class Builds(unittest.TestCase):
    """The script."""

    def test_refused(self) -> None:
        usage = "usage: packaging/build FOLDER [PROGRAM]\n"
        for words, status, told in [((), 2, usage), (("-x",), 2, usage), (("a", "b", "c"), 2, usage),
                                    (("/tmp", "/missing"), 3, "packaging/build: /missing: No such file or directory\n")]:
            done = subprocess.run([sys.executable, "-B", BUILD, *words], capture_output=True, text=True, timeout=WAIT,
                                  check=False)
            self.assertEqual((done.returncode, done.stdout, done.stderr), (status, "", told))

    def test_the_version_is_that_of_the_package(self) -> None:
        self.assertIn(f'version = "{__version__}"', read("tools", "pyproject.toml"))
        self.assertEqual(len(table.load().hosts), 23)


if __name__ == "__main__":
    unittest.main()
