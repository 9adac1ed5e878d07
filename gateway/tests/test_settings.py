"""The configuration, and what the gateway says where it does not start."""
import json
import os
import shutil
import socket
import subprocess
import sys
import tempfile
import unittest
from typing import Any

from gateway import settings
from gateway.tests.harness import GATEWAY, STAND_IN, TOP, WAIT, free_ports, module_text, need

GOOD = """version = 1
module = "module.toml"
program = "hsm_tool"
listen = ["127.0.0.1:1600", "[::1]:1601"]
watch_port = 9464
allow = ["192.0.2.0/24", "::1"]

[log]
texts = true

[limits]
clients = 20
half_frame_seconds = 0.5

[[fault]]
act = "delay"
command = "CA"
share = 0.25
milliseconds = 100
"""
# What is changed, and what is told of it.
WRONG = [
    ("version = 1", "version = 2", "key 'version': 1 is wanted"),
    ("version = 1", "", "key 'version': 1 is wanted"),
    ("watch_port", "watch", "no key 'watch' is known"),
    ("= 9464", "= 0", "key 'watch_port': an integer of 1 to 65535 is wanted"),
    ("127.0.0.1:1600", "localhost:1600",
     "key 'listen': a list of texts such as 127.0.0.1:1600 or [::1]:1600 is wanted"),
    ("127.0.0.1:1600", "127.0.0.1:70000",
     "key 'listen': a list of texts such as 127.0.0.1:1600 or [::1]:1600 is wanted"),
    ("127.0.0.1:1600", "127.0.0.1:1501", "127.0.0.1 port 1501 is a host port of the module"),
    ("127.0.0.1:1600", "0.0.0.0:1500", "0.0.0.0 port 1500 is the console's port of the module"),
    ("127.0.0.1:1600", "127.0.0.1:9464", "127.0.0.1 port 9464 is named twice"),
    ("module.toml", "module\\u0000", "key 'module': a text is wanted"),
    ('["127.0.0.1:1600", "[::1]:1601"]', "[]", "key 'listen': at least one address is wanted"),
    ("192.0.2.0/24", "192.0.2.1/24", "key 'allow': a list of addresses or networks such as 192.0.2.0/24 is wanted"),
    ("clients = 20", "clients = 0", "key 'limits.clients': an integer of 1 to 20000 is wanted"),
    ("clients = 20", "client = 20", "no key 'limits.client' is known"),
    ("= 0.5", "= 0", "key 'limits.half_frame_seconds': a number of 0.05 to 3600 is wanted"),
    ("texts = true", "texts = 1", "key 'log.texts': true or false is wanted"),
    ('"delay"', '"wait"', "key 'fault.1.act': one of delay, refuse, silence, drop, code is wanted"),
    ("milliseconds = 100", "", "key 'fault.1.milliseconds': an integer of 1 to 600000 is wanted"),
    ('command = "CA"', 'command = "CAA"', "key 'fault.1.command': two printable characters are wanted"),
    ("0.25", "1.25", "key 'fault.1.share': a number of 0 to 1 is wanted"),
    ("milliseconds = 100", "milliseconds = 100\n[tls]\ncertificate = 'a'",
     "key 'tls.listen': a list of texts such as 127.0.0.1:1600 or [::1]:1600 is wanted")]


class Reading(unittest.TestCase):
    """A configuration file."""

    def setUp(self) -> None:
        self.folder = tempfile.TemporaryDirectory()
        self.addCleanup(self.folder.cleanup)
        self.write("module.toml", module_text(1500, [1501, 1502], 8))

    def write(self, name: str, text: str) -> str:
        path = os.path.join(self.folder.name, name)
        with open(path, "w", encoding="utf-8") as file:
            file.write(text)
        return path

    def test_a_good_one(self) -> None:
        found = settings.read(self.write("good.toml", GOOD))
        self.assertEqual(found.module.ports, (1501, 1502))
        self.assertEqual((found.module.header, found.module.console, found.module.accept), (4, 1500, 8))
        self.assertEqual(found.listen, (("127.0.0.1", 1600), ("::1", 1601)))
        self.assertEqual((found.limits.clients, found.limits.half_frame_seconds, found.limits.messages), (20, 0.5, 64))
        self.assertEqual(found.faults, (settings.FaultRule("delay", "CA", 0.25, 100),))

    def test_broken_ones(self) -> None:
        for old, new, told in WRONG:
            with self.subTest(told=told), self.assertRaises(settings.SettingsFault) as caught:
                self.assertIn(old, GOOD)
                settings.read(self.write("wrong.toml", GOOD.replace(old, new)))
            self.assertEqual(str(caught.exception), told)

    def test_no_toml(self) -> None:
        with self.assertRaisesRegex(settings.SettingsFault, "wrong.toml: not toml: "):
            settings.read(self.write("wrong.toml", "version ="))
        self.write("module.toml", "header = 300")
        with self.assertRaisesRegex(settings.SettingsFault, "module.toml: key 'host_ports': 1 to 64 different "):
            settings.read(self.write("good.toml", GOOD))

    # The command

    def run_with(self, *words: str, **more: Any) -> tuple[int, str, str]:
        """The exit status of the command with these words, and what it prints."""
        done = subprocess.run([sys.executable, "-B", GATEWAY, *words], stdin=subprocess.DEVNULL, capture_output=True,
                              timeout=WAIT, check=False, text=True, **more)
        return done.returncode, done.stdout, done.stderr

    def ended(self, *words: str) -> tuple[int, str]:
        """The exit status and the line on standard error, where nothing else is printed."""
        status, output, error = self.run_with(*words)
        self.assertEqual(output, "")
        return status, error

    def small(self, more: str = "", listen: int = 0) -> str:
        port = listen or free_ports(1)[0]
        return self.write("small.toml", f'version = 1\nmodule = "module.toml"\nlisten = ["127.0.0.1:{port}"]\n{more}')

    def test_words(self) -> None:
        told = "usage: gateway CONFIG, or gateway --check CONFIG; gateway --help says more\n"
        for words in [], ["-c"], ["a", "b"], [""], ["--check"], ["--check", "-c"], ["--check", "a", "b"], ["-h", "a"]:
            self.assertEqual(self.ended(*words), (64, told), words)

    def test_help(self) -> None:
        """It names the keys and the tables of the configuration, and the exit statuses."""
        for word in "--help", "-h":
            status, output, error = self.run_with(word)
            self.assertEqual((status, error), (0, ""))
            for told in ("usage: gateway CONFIG\n", "version", "module", "listen", "program", "watch_port", "allow",
                         "fault_seed", "[tls]", "[log]", "[limits]", "[[fault]]", "64", "66", "69", "72", "73", "78"):
                self.assertIn(told, output)
            self.assertLessEqual(max(map(len, output.splitlines())), 80)

    def test_check(self) -> None:
        """A configuration is read whole, and nothing is opened: neither its log nor its port, which is in use."""
        with socket.socket() as taken:
            taken.bind(("127.0.0.1", 0))
            taken.listen()
            name = self.small('[log]\nfile = "log"', listen=taken.getsockname()[1])
            self.assertEqual(self.run_with("--check", name), (0, "OK 2\n", ""))
        self.assertFalse(os.path.exists(os.path.join(self.folder.name, "log")))
        self.assertEqual(self.ended("--check", self.small("x = 1")), (78, "gateway: no key 'x' is known\n"))
        self.assertEqual(self.ended("--check", self.small('program = "no_such_program"')), (
            72, "gateway: no program no_such_program\n"))

    def test_files(self) -> None:
        missing, listen = os.path.join(self.folder.name, "missing"), free_ports(1)[0]
        self.assertEqual(self.ended(missing), (66, f"gateway: {missing}: No such file or directory\n"))
        tls = f'[tls]\nlisten = ["127.0.0.1:{listen}"]\ncertificate = "missing"\nkey = "missing"\n'
        self.assertEqual(self.ended(self.small(tls)), (66, f"gateway: {missing}: No such file or directory\n"))
        self.write("missing", "no certificate")
        status, error = self.ended(self.small(tls))
        self.assertEqual(status, 78)
        self.assertRegex(error, "^gateway: key 'tls': the certificate, its key or those of clients don't read: .*\n$")
        self.assertEqual(self.ended(self.small('[log]\nfile = "missing/log"')), (
            73, f"gateway: {missing}/log: Not a directory\n"))
        self.assertEqual(self.ended(self.folder.name), (66, f"gateway: {self.folder.name}: Is a directory\n"))
        closed = subprocess.run(["sh", "-c", 'exec "$0" "$@" >&-', sys.executable, "-B", GATEWAY, self.small()],
                                stderr=subprocess.PIPE, timeout=WAIT, check=False)
        self.assertEqual((closed.returncode, closed.stderr), (73, b"gateway: standard output: it is closed\n"))

    def test_configuration(self) -> None:
        self.assertEqual(self.ended(self.small("x = 1")), (78, "gateway: no key 'x' is known\n"))
        self.assertEqual(self.ended(self.small(listen=1502)), (
            78, "gateway: 127.0.0.1 port 1502 is a host port of the module\n"))
        name = self.small("watch_port = 1601", listen=1601)
        self.assertEqual(self.ended(name), (78, "gateway: 127.0.0.1 port 1601 is named twice\n"))
        module = self.write("module.toml", module_text(1500, [1501, 1502], 0))
        self.assertEqual(self.ended(self.small()), (
            78, f"gateway: {module}: key 'accept': an integer of 1 to 4096 is wanted\n"))

    def test_port_in_use(self) -> None:
        with socket.socket() as taken:
            taken.bind(("127.0.0.1", 0))
            taken.listen()
            port = taken.getsockname()[1]
            for name in self.small(listen=port), self.small(f"watch_port = {port}"):
                self.assertEqual(self.ended(name), (
                    69, f"gateway: 127.0.0.1 port {port} can't be listened on: Address already in use\n"))

    def test_no_program(self) -> None:
        self.assertEqual(self.ended(self.small('program = "no_such_program"')), (
            72, "gateway: no program no_such_program\n"))

    def test_the_programs_status(self) -> None:
        """A program that refuses its configuration is not started again, and its line is told."""
        self.write("refuses", "#!/bin/sh\necho 'hsm: rule 6' >&2\nexit 4\n")
        os.chmod(os.path.join(self.folder.name, "refuses"), 0o755)
        name = self.small('program = "./refuses"\n[log]\nfile = "log"')
        self.assertEqual(self.ended(name), (4, "gateway: the program ended with status 4: hsm: rule 6\n"))
        with open(os.path.join(self.folder.name, "log"), encoding="utf-8") as file:
            told = [json.loads(line)["told"] for line in file]
        self.assertEqual(told[-5:], ["hsm: rule 6", "ended with status 4", "it is not started again",
                                     "takes no more messages", "ends with status 4"])

    def test_the_packed_file(self) -> None:
        """The gateway as one file, and the program beside it."""
        packed = os.path.join(self.folder.name, "gateway")
        words = [sys.executable, "-B", os.path.join(os.path.dirname(GATEWAY), "pack.py")]
        done = subprocess.run([*words, packed], capture_output=True, timeout=WAIT, check=True)
        self.assertEqual(done.stdout + done.stderr, b"")
        self.assertEqual(subprocess.run(words, capture_output=True, timeout=WAIT, check=False).returncode, 2)
        self.write("beside", "#!/bin/sh\nexit 4\n")
        os.chmod(os.path.join(self.folder.name, "beside"), 0o755)
        name = self.small('program = "beside"')
        done = subprocess.run([packed, name], capture_output=True, timeout=WAIT, check=False)
        self.assertEqual((done.returncode, done.stderr), (4, b"gateway: the program ended with status 4\n"))
        self.assertIn(b'"told":"ended with status 4"', done.stdout)


class Examples(unittest.TestCase):
    """What stands in examples/ for the gateway."""

    def test_configurations(self) -> None:
        found = settings.read(os.path.join(TOP, "examples", "gateway", "gateway.toml"))
        self.assertEqual((found.module.ports, found.listen), ((1501, 1502), (("127.0.0.1", 1600),)))
        with tempfile.TemporaryDirectory() as folder:
            shutil.copy(os.path.join(TOP, "examples", "service", "gateway.toml"), folder)
            shutil.copy(os.path.join(TOP, "examples", "laboratory64.toml"), os.path.join(folder, "module.toml"))
            found = settings.read(os.path.join(folder, "gateway.toml"))
        self.assertEqual((len(found.module.ports), found.module.accept), (64, 4096))
        self.assertEqual(found.program, "/usr/local/bin/hsm_tool")

    def test_the_unit(self) -> None:
        """systemd-analyze finds nothing in it; it has the threads and descriptors for 65 lanes and 500 clients."""
        analyze = need("systemd-analyze")
        with open(os.path.join(TOP, "examples", "service", "sothvelm-gateway.service"), encoding="utf-8") as file:
            unit = file.read()
        self.assertIn("\nExecStart=/usr/local/bin/gateway %d/gateway.toml\n", unit)
        for key, least in ("TasksMax", 65 + 3), ("LimitNOFILE", 64 + 500 + 20):
            self.assertGreaterEqual(int(unit.partition(f"\n{key}=")[2].partition("\n")[0]), least)
        with tempfile.TemporaryDirectory() as folder:
            name = os.path.join(folder, "sothvelm-gateway.service")
            with open(name, "w", encoding="utf-8") as file:
                file.write(unit.replace("/usr/local/bin/gateway", GATEWAY))
            done = subprocess.run([analyze, "verify", name], capture_output=True, timeout=WAIT, check=False)
        self.assertEqual((done.returncode, done.stdout, done.stderr), (0, b"", b""))


if __name__ == "__main__":
    assert os.access(STAND_IN, os.X_OK)
    unittest.main()
