"""A gateway and a module in a folder of their own, on free ports of 127.0.0.1, and clients of them.

Each wait ends after WAIT seconds, and each process that is started is ended.
"""
import contextlib
import json
import os
import random
import re
import shutil
import socket
import struct
import subprocess
import sys
import tempfile
import time
import unittest
import urllib.error
import urllib.request
from typing import Any, Callable, Iterator

TOP = os.path.dirname(os.path.dirname(os.path.dirname(os.path.abspath(__file__))))
sys.path[:0] = [os.path.join(TOP, "examples")]
sys.dont_write_bytecode = True

from client import ClientError, Connection  # noqa: E402

WAIT = float(os.environ.get("GATEWAY_WAIT", "30"))  # seconds
PROGRAM = os.path.abspath(os.environ.get("GATEWAY_PROGRAM") or os.path.join(TOP, "crates/hsm_tool/out/hsm_tool"))
STAND_IN = os.path.join(TOP, "gateway", "tests", "stand_in.py")
GATEWAY = os.path.join(TOP, "gateway", "gateway")
PORTS = iter(range(*map(int, os.environ.get("GATEWAY_PORTS", f"{random.randrange(12_000, 30_000)} 32000").split())))
HEADER = b"0001"


def module_text(console: int, hosts: list[int], accept: int, header: int = 4) -> str:
    """The configuration of examples/laboratory.toml over other ports."""
    with open(os.path.join(TOP, "examples", "laboratory.toml"), encoding="ascii") as file:
        text = file.read()
    for key, value in ("header", header), ("console_port", console), ("host_ports", hosts), ("accept", accept):
        text, count = re.subn(f"^{key} = .*$", f"{key} = {value}", text, flags=re.MULTILINE)
        assert count == 1
    return text


def need_program() -> None:
    """Skips a test where there is no program."""
    if not os.access(PROGRAM, os.X_OK):
        raise unittest.SkipTest(f"no {os.path.relpath(PROGRAM, TOP)}")


def need(command: str) -> str:
    """The path of a command, without which a test is skipped."""
    path = shutil.which(command)
    if path is None:
        raise unittest.SkipTest(f"no {command}")
    return path


def free_ports(count: int) -> list[int]:
    """Ports that are free now, of those of this process and below those that the system gives to clients.

    None is given twice. checks/gateway gives processes beside one another a range each, as GATEWAY_PORTS.
    """
    found: list[int] = []
    while len(found) < count:
        port = next(PORTS)
        with contextlib.suppress(OSError), socket.socket() as each:
            each.bind(("127.0.0.1", port))
            found.append(port)
    return found


def framed(text: bytes, header: bytes = HEADER) -> bytes:
    return (len(header) + len(text)).to_bytes(2, "big") + header + text


def echo(data: bytes) -> bytes:
    """A message that is answered with its data."""
    return b"B2%04X" % len(data) + data


class Peer(Connection):
    """A client's connection. Messages and replies are bytes without their header."""

    def __init__(self, port: int, address: str = "127.0.0.1", header: bytes = HEADER) -> None:
        super().__init__(address, port, WAIT)
        self.header = header

    def put(self, *texts: bytes) -> None:
        self.stream.sendall(b"".join(framed(text, self.header) for text in texts))

    def reply(self) -> bytes:
        body = self.receive()
        if body[:len(self.header)] != self.header:
            raise ClientError(f"a reply with the header {body[:len(self.header)]!r}")
        return body[len(self.header):]

    def asked(self, text: bytes) -> bytes:
        self.put(text)
        return self.reply()

    def is_ended(self, seconds: float = WAIT) -> bool:
        """Whether the gateway ends the connection within so many seconds, with nothing more to read."""
        self.stream.settimeout(seconds)
        try:
            return self.stream.recv(1) == b""
        except ConnectionResetError:
            return True
        except socket.timeout:
            return False

    def reset(self) -> None:
        """Ends the connection by a reset."""
        self.stream.setsockopt(socket.SOL_SOCKET, socket.SO_LINGER, struct.pack("ii", 1, 0))
        self.close()


class Laboratory:
    """A gateway over a module that it starts, or over one that runs already."""

    def __init__(self, *, hosts: int = 8, accept: int = 16, program: str | None = STAND_IN, top: str = "",
                 tables: str = "", ports: int = 1, header: int = 4, is_served: bool = True) -> None:
        self.hosts, self.program, self.is_served = hosts, program, is_served
        self.folder = tempfile.TemporaryDirectory()
        self.console, self.watch, *rest = free_ports(2 + hosts + ports)
        self.lanes, self.ports = rest[:hosts], rest[hosts:]
        self.port = self.ports[0]
        self.log, self.seen = self.path("log"), self.path("seen")
        self.write("module.toml", module_text(self.console, self.lanes, accept, header))
        named = ", ".join(f'"127.0.0.1:{port}"' for port in self.ports)
        listen = "" if "listen =" in top else f"listen = [{named}]"
        start = f'program = "{program}"' if program else ""
        self.write("gateway.toml", f"""version = 1
module = "module.toml"
watch_port = {self.watch}
{listen}
{start}
{top}
[log]
file = "log"
{tables}
""")
        self.process: subprocess.Popen[bytes] | None = None

    def path(self, name: str) -> str:
        return os.path.join(self.folder.name, name)

    def write(self, name: str, text: str) -> None:
        with open(self.path(name), "w", encoding="utf-8") as file:
            file.write(text)

    def __enter__(self) -> "Laboratory":
        try:
            if self.is_served:
                self.start()
                self.until_serving()
        except BaseException:
            self.__exit__()
            raise
        return self

    def start(self) -> None:
        environment = {**os.environ, "PYTHONDONTWRITEBYTECODE": "1", "STAND_IN_SEEN": self.seen}
        self.process = subprocess.Popen(
            [sys.executable, GATEWAY, self.path("gateway.toml")], stdin=subprocess.DEVNULL,
            stdout=subprocess.PIPE, stderr=subprocess.PIPE, env=environment)

    def __exit__(self, *_: Any) -> None:
        told = b""
        if self.process is not None:
            if self.process.poll() is None:
                self.process.terminate()
                with contextlib.suppress(subprocess.TimeoutExpired):
                    self.process.wait(10)
            if self.process.poll() is None:
                self.process.kill()
            for pid in self.started():
                with contextlib.suppress(ProcessLookupError):
                    os.kill(pid, 9)
            told = self.process.communicate()[1] + "".join(self.events("defect")).encode()
        self.folder.cleanup()
        if told:
            raise AssertionError(f"of the gateway, a defect or on standard error: {told.decode()}")

    def started(self) -> list[int]:
        """The processes of programs that the gateway started and whose end it did not tell of, the last one first."""
        found: list[int] = []
        for line in self.lines():
            if line.get("event") == "program" and (begun := re.fullmatch("started as process ([0-9]+)", line["told"])):
                found.insert(0, int(begun[1]))
            elif line.get("event") == "program" and line["told"].startswith("ended with"):
                found.pop(0)
        return found

    def stopped(self, number: int = 15) -> int:
        """Sends the gateway a signal, and gives its exit status."""
        assert self.process is not None
        self.process.send_signal(number)
        return self.process.wait(WAIT)

    @contextlib.contextmanager
    def module(self) -> Iterator[None]:
        """The stand-in, started beside the gateway and not by it."""
        process = subprocess.Popen([sys.executable, STAND_IN, "serve", self.path("module.toml")],
                                   stdout=subprocess.DEVNULL, env={**os.environ, "STAND_IN_SEEN": self.seen})
        try:
            yield
        finally:
            process.kill()
            process.wait()

    def until_listening(self) -> None:
        """Waits until somebody listens at each lane's port; no connection is made."""
        def ports() -> set[int]:
            with open("/proc/net/tcp", encoding="ascii") as file:
                return {int(words[1][-4:], 16) for words in map(str.split, file) if words[3] == "0A"}
        self.until(lambda: ports() >= set(self.lanes), "nobody listens")

    def until_serving(self, lanes: int | None = None) -> None:
        wanted = self.hosts if lanes is None else lanes
        self.until(lambda: self.health()["lanes_serving"] == wanted, f"{wanted} lanes do not serve")

    def until(self, is_so: Callable[[], Any], told: str, seconds: float = WAIT) -> Any:
        """Waits until something is so; gives what it is."""
        end = time.monotonic() + seconds
        while True:
            with contextlib.suppress(OSError, KeyError, IndexError):
                if found := is_so():
                    return found
            is_ended = self.process is not None and self.process.poll() is not None
            if is_ended or time.monotonic() > end:
                raise AssertionError(f"{told}: {self.text()[-3000:]}")
            time.sleep(0.02)

    # What the gateway tells

    def get(self, path: str) -> str:
        try:
            with urllib.request.urlopen(f"http://127.0.0.1:{self.watch}{path}", timeout=WAIT) as answer:
                return answer.read().decode()
        except urllib.error.HTTPError as fault:
            return fault.read().decode()

    def health(self) -> dict[str, Any]:
        return json.loads(self.get("/health"))

    def metric(self, row: str) -> float:
        """The value of a row of /metrics, 0 where there is none."""
        for line in self.get("/metrics").splitlines():
            if line.rpartition(" ")[0] == f"sothvelm_gateway_{row}":
                return float(line.rpartition(" ")[2])
        return 0.0

    def text(self) -> str:
        try:
            with open(self.log, encoding="utf-8") as file:
                return file.read()
        except FileNotFoundError:
            return ""

    def lines(self) -> list[dict[str, Any]]:
        return [json.loads(line) for line in self.text().splitlines() if line.endswith("}")]

    def events(self, event: str) -> list[str]:
        return [line["told"] for line in self.lines() if line.get("event") == event]

    def until_told(self, event: str, pattern: str) -> str:
        return self.until(lambda: [told for told in self.events(event) if re.search(pattern, told)],
                          f"no event {event} tells of {pattern}")[0]

    def messages(self) -> list[dict[str, Any]]:
        return [line for line in self.lines() if "command" in line]

    def seen_messages(self) -> list[bytes]:
        """What the stand-in's lanes read, but for the echoes that a connection begins with."""
        with open(self.seen, encoding="ascii") as file:
            found = [bytes.fromhex(line.split(" ")[1]) for line in file if line.endswith("\n")]
        return [each for each in found if each != b"B20000"]

    def until_seen(self, text: bytes) -> None:
        """Waits until a lane of the stand-in has read a message."""
        self.until(lambda: text in self.seen_messages(), f"no lane read {text!r}")

    def until_under_way(self, count: int) -> None:
        """Waits until so many messages are under way, or more."""
        self.until(lambda: self.health()["under_way"] >= count, f"{count} messages are not under way")

    @contextlib.contextmanager
    def peer(self, place: int = 0, **more: Any) -> Iterator[Peer]:
        with Peer(self.ports[place], **more) as peer:
            yield peer
