"""`hsm_tool`: found, run over a script, and served on free ports of 127.0.0.1 for as long as a block lasts.

    with Module() as module:                      # the test set of LMK pairs, two host lanes
        with module.client() as host, module.console() as console:
            module.allow("pin.clear.host")
            host.put_clear_pin_under_lmks(pin="1234", account_field="123456789012")

Where no words of officers are named the module's are drawn, and known to its object alone. A configuration and a script
that hold secrets are handed over in memory, and stand in no file and in no list of processes.
"""
import contextlib
import hashlib
import os
import re
import secrets
import shutil
import socket
import subprocess
import tempfile
import time
import tomllib
from collections.abc import Callable, Iterator
from typing import Any, Self, TypeVar

from sothvelm.client import AsyncClient, Client, Console
from sothvelm.link import Connection

ADDRESS = "127.0.0.1"
HERE = os.path.dirname(os.path.abspath(__file__))
BUILT = os.path.join(os.path.dirname(os.path.dirname(HERE)), "crates", "hsm_tool", "out", "hsm_tool")
STARTS = 4  # tries, where another program takes a port that was free
C = TypeVar("C", Client, Console)


class ModuleFault(Exception):
    """There is no program, it does not start, or it refuses a file; the text says which, in one line."""

    def __init__(self, words: str, status: int = 3) -> None:
        super().__init__(words)
        self.status = status  # of the program


def find_program(name: str | None = None) -> str:
    """The path of the program: the one named, else $SOTHVELM_PROGRAM, else the one that was built, else of PATH.

    Raises ModuleFault where there is none.
    """
    name = name or os.environ.get("SOTHVELM_PROGRAM")
    found = shutil.which(name) if name else shutil.which(BUILT) or shutil.which("hsm_tool")
    if found is None:
        raise ModuleFault(f"no program {name or 'hsm_tool'}: name it by --program or SOTHVELM_PROGRAM")
    return found


@contextlib.contextmanager
def in_memory(data: bytes) -> Iterator[tuple[str, tuple[int, ...]]]:
    """The name of a file with these bytes, and the descriptors to hand over with it. It is kept in memory alone."""
    if hasattr(os, "memfd_create"):
        number = os.memfd_create("sothvelm")
        try:
            os.write(number, data)
            yield f"/proc/self/fd/{number}", (number,)
        finally:
            os.close(number)
        return
    with tempfile.NamedTemporaryFile(prefix="sothvelm") as file:  # readable by its owner alone
        file.write(data)
        file.flush()
        yield file.name, ()


def run_program(program: str, *words: str, held: tuple[int, ...] = (), seconds: float = 60) -> str:
    """What a run of the program prints. Raises ModuleFault with its line on standard error."""
    try:
        done = subprocess.run([program, *words], stdin=subprocess.DEVNULL, capture_output=True, timeout=seconds,
                              pass_fds=held, check=False)
    except subprocess.TimeoutExpired:
        raise ModuleFault(f"{program} did not end within {seconds:g} seconds") from None
    except OSError as fault:
        raise ModuleFault(f"{program}: {fault.strerror}") from None
    if done.returncode not in (0, 6):
        told = done.stderr.decode(errors="replace").strip().splitlines() or [f"status {done.returncode}"]
        raise ModuleFault(told[-1], done.returncode)
    return done.stdout.decode("latin-1")


def read_configuration(path: str) -> dict[str, Any]:
    """The document of a configuration. Raises ModuleFault where it can't be read, or is no TOML."""
    try:
        with open(path, "rb") as file:
            return tomllib.load(file)
    except OSError as fault:
        raise ModuleFault(f"{path}: {fault.strerror}") from None
    except (tomllib.TOMLDecodeError, UnicodeDecodeError) as fault:
        raise ModuleFault(f"{path}: not toml: {fault}", 4) from None


def toml_of(value: Any) -> str:
    """A value of a configuration as TOML."""
    if isinstance(value, bool):
        return "true" if value else "false"
    if isinstance(value, str):
        return '"' + "".join(each if each.isprintable() and each not in '"\\' else f"\\u{ord(each):04X}"
                             for each in value) + '"'
    if isinstance(value, list):
        return "[" + ", ".join(map(toml_of, value)) + "]"
    if isinstance(value, dict):
        return "{" + ", ".join(f"{toml_of(key)} = {toml_of(each)}" for key, each in value.items()) + "}"
    return str(value)


def digest(word: str) -> str:
    """The SHA-256 digest of an officer's word, as a configuration has it."""
    return hashlib.sha256(word.encode("latin-1")).hexdigest()


def free_ports(count: int) -> list[int]:
    """Ports of 127.0.0.1 that are free now."""
    sockets = [socket.socket() for _ in range(count)]
    try:
        for each in sockets:
            each.bind((ADDRESS, 0))
        return [each.getsockname()[1] for each in sockets]
    finally:
        for each in sockets:
            each.close()


def listening(port: int) -> bool:
    """Whether a program listens at a port, without a connection to it."""
    with open("/proc/net/tcp", encoding="ascii") as file:
        return any(words[1].endswith(f":{port:04X}") and words[3] == "0A" for words in map(str.split, file))


class Module:
    """`hsm_tool serve` under a configuration, on free ports. The processes are ended with the `with` block.

    `document` has the keys of a configuration (docs/CONFIGURATION.md); its ports and officers are replaced, and it may
    leave out all keys. `hosts` is the number of host lanes and `accept` how many connections each lane takes. `words`
    are the officers'.
    """

    def __init__(self, program: str | None = None, document: dict[str, Any] | None = None, *, hosts: int = 2,
                 accept: int = 64, words: tuple[str, str] | None = None, seconds: float = 10) -> None:
        self.program, self.document, self.hosts, self.accept = find_program(program), document or {}, hosts, accept
        self.words = words or (secrets.token_hex(16), secrets.token_hex(16))
        self.seconds = seconds
        self.process: subprocess.Popen[bytes] | None = None
        self.console_port = 0
        self.held: Console | None = None
        self.host_ports: list[int] = []

    @property
    def header(self) -> str:
        """A header of the length of the configuration."""
        return "0001".ljust(self.length, "0")[:self.length]

    @property
    def length(self) -> int:
        return int(self.document.get("header", 4))

    def text(self) -> str:
        """The configuration that the module is started with."""
        document = {"version": 1, "header": 4, "lmk": "test", **self.document,
                    "officers": list(map(digest, self.words)), "console_port": self.console_port, "host_ports": self.host_ports, "accept": self.accept}
        return "".join(f"{key} = {toml_of(value)}\n" for key, value in document.items())

    def __enter__(self) -> Self:
        for _ in range(STARTS):
            self.console_port, *self.host_ports = free_ports(1 + self.hosts)
            told = self.start()
            if not told:
                return self
            if "no door" not in told:
                break
        raise ModuleFault(told)

    def __exit__(self, *_: object) -> None:
        self.end()

    def start(self) -> str:
        """Starts the program. Gives nothing once it listens, or its line on standard error where it ended."""
        with in_memory(self.text().encode()) as (name, held):
            self.process = subprocess.Popen([self.program, "serve", name], stdin=subprocess.DEVNULL, pass_fds=held,
                                            stdout=subprocess.DEVNULL, stderr=subprocess.PIPE)
            until = time.monotonic() + self.seconds
            while not all(map(listening, [self.console_port, *self.host_ports])):
                if self.process.poll() is not None:
                    _, told = self.process.communicate()
                    return told.decode(errors="replace").strip() or f"it ended with {self.process.returncode}"
                if time.monotonic() > until:
                    self.end()
                    return f"the program does not listen within {self.seconds:g} seconds"
                time.sleep(0.01)
        return ""

    def end(self) -> None:
        """Ends the program."""
        if self.held is not None:
            self.held.close()
        if self.process is not None and self.process.poll() is None:
            self.process.terminate()
            try:
                self.process.wait(5)
            except subprocess.TimeoutExpired:
                self.process.kill()
        if self.process is not None and self.process.stderr is not None and not self.process.stderr.closed:
            self.process.communicate()

    def client(self, lane: int = 1, timeout: float = 10) -> Client:
        """A client of a host lane, which are counted from 1."""
        return joined(lambda: Client(ADDRESS, self.host_ports[lane - 1], self.header, timeout))

    def async_client(self, lane: int = 1, timeout: float = 10) -> AsyncClient:
        """A client of asyncio, to be opened by `async with`."""
        return AsyncClient(ADDRESS, self.host_ports[lane - 1], self.header, timeout)

    def console(self, timeout: float = 10) -> Console:
        """The client of the console: one for all callers until it is closed, since a port serves one connection."""
        if self.held is None or link_of(self.held).stream.fileno() == -1:
            self.held = joined(lambda: Console(ADDRESS, self.console_port, timeout))
        return self.held

    def allow(self, activity: str, minutes: int = 0) -> None:
        """Allows an activity, by both officers' words. Raises Refused, ClientError."""
        self.console().allow_activity(activity=activity, minutes=minutes, first_officers_word=self.words[0],
                                      second_officers_word=self.words[1])


def link_of(client: Client | Console) -> Connection:
    """The connection of a client that was made here."""
    assert isinstance(client.connection, Connection)
    return client.connection


def joined(make: Callable[[], C]) -> C:
    """A connection, tried for a second, that is none with itself: as where nobody listens at a port of a client."""
    until = time.monotonic() + 1
    while True:
        try:
            found = make()
        except ConnectionRefusedError:
            if time.monotonic() > until:
                raise
            time.sleep(0.02)
            continue
        link = link_of(found)
        if link.stream.getsockname() != link.stream.getpeername():
            return found
        link.close()


def answers(program: str, configuration: str, lines: list[str]) -> list[str]:
    """What a script of lines is answered under the file of a configuration, a line each. Raises ModuleFault."""
    with in_memory("".join(line + "\n" for line in lines).encode("latin-1")) as (name, held):
        output = run_program(program, "script", configuration, name, held=held)
    return [line for line in output.splitlines() if not re.match("END ", line)]
