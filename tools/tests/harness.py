"""What the tests share: where things are, a port that answers as it is told, a module, runs of the command `sothvelm`."""
import contextlib
import io
import os
import re
import shutil
import socket
import subprocess
import sys
import tempfile
import threading
import unittest
from collections.abc import Callable, Iterator
from typing import Any
from unittest import mock

TOP = os.path.dirname(os.path.dirname(os.path.dirname(os.path.abspath(__file__))))
TOOLS = os.path.join(TOP, "tools")
EXAMPLES = os.path.join(TOP, "examples")
PROGRAM = os.path.abspath(os.environ.get("TOOLS_PROGRAM") or os.path.join(TOP, "crates/hsm_tool/out/hsm_tool"))
SOTHVELM = os.path.join(TOOLS, "bin", "sothvelm")
WAIT = 30  # seconds
sys.path[:0] = [each for each in (TOOLS, EXAMPLES) if each not in sys.path]
sys.dont_write_bytecode = True


def need_program() -> str:
    """The program, without which a test is skipped."""
    if not os.access(PROGRAM, os.X_OK):
        raise unittest.SkipTest(f"no {os.path.relpath(PROGRAM, TOP)}")
    return PROGRAM


def need(command: str, package: str) -> str:
    """The path of a command, without which a test is skipped."""
    path = shutil.which(command)
    if path is None:
        raise unittest.SkipTest(f"no {command} (Debian package {package})")
    return path


def read(*names: str) -> str:
    """A text of the repository."""
    with open(os.path.join(TOP, *names), encoding="utf-8") as file:
        return file.read()


class Answering:
    """A port of 127.0.0.1 whose frames are answered by a function: a body, or None to end the connection.

    `came` are the bodies in their order. Bytes are sent as they are where the function gives a list of them.
    """

    def __init__(self, answer: Callable[[bytes], bytes | list[bytes] | None]) -> None:
        self.answer = answer
        self.came: list[bytes] = []
        self.door = socket.create_server(("127.0.0.1", 0))
        self.port = self.door.getsockname()[1]
        self.thread = threading.Thread(target=self.serve, daemon=True)
        self.links: list[socket.socket] = []

    def __enter__(self) -> "Answering":
        self.thread.start()
        return self

    def __exit__(self, *_: object) -> None:
        for each in (self.door, *self.links):
            with contextlib.suppress(OSError):
                each.shutdown(socket.SHUT_RDWR)
            each.close()
        self.thread.join(WAIT)

    def serve(self) -> None:
        with contextlib.suppress(OSError):
            while True:
                link, _ = self.door.accept()
                self.links.append(link)
                self.serve_one(link)

    def serve_one(self, link: socket.socket) -> None:
        with link, link.makefile("rb") as stream, contextlib.suppress(OSError):
            while len(length := stream.read(2)) == 2:
                body = stream.read(int.from_bytes(length, "big"))
                self.came.append(body)
                given = self.answer(body)
                if given is None:
                    return
                for each in given if isinstance(given, list) else [len(given).to_bytes(2, "big") + given]:
                    link.sendall(each)


def ran(*words: str, given: str = "", **environment: str) -> tuple[int, str, str]:
    """A run of the command `sothvelm` in a process: its status, output and standard error."""
    done = subprocess.run([sys.executable, "-B", SOTHVELM, *words], input=given.encode(), capture_output=True, cwd=TOP,
                          timeout=WAIT, env={**os.environ, "SOTHVELM_PROGRAM": PROGRAM, **environment}, check=False)
    return done.returncode, done.stdout.decode(), done.stderr.decode()


def called(main: Callable[[list[str]], int], *words: str, given: str = "") -> tuple[int, str, str]:
    """A call of a command's function with these words and this standard input: status, output, standard error."""
    output, error = io.StringIO(), io.StringIO()
    with contextlib.redirect_stdout(output), contextlib.redirect_stderr(error), mock.patch("sys.stdin", io.StringIO(given)):
        try:
            status = main(list(words))
        except SystemExit as ended:
            status = int(ended.code or 0)
    return status, output.getvalue(), error.getvalue()


@contextlib.contextmanager
def folder() -> Iterator[str]:
    with tempfile.TemporaryDirectory() as name:
        yield name


def write(path: str, text: str | bytes) -> str:
    """A file of this content. Gives its path."""
    with open(path, "wb") as file:
        file.write(text if isinstance(text, bytes) else text.encode())
    return path


def laboratory(**keys: Any) -> str:
    """The text of examples/laboratory.toml with other values of keys, written as TOML; None leaves a key out."""
    text = read("examples", "laboratory.toml")
    for key, value in keys.items():
        line = "" if value is None else f"{key} = {value}\n"
        text, count = re.subn(rf"^{key} = .*?\n(?=[a-z#]|\Z)", lambda _: line, text, flags=re.MULTILINE | re.DOTALL)
        text = text if count else text + line
    return text
