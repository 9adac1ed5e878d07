"""`hsm_tool serve`, started, watched, started anew where it ends, and ended with the gateway."""
import asyncio
import contextlib
import os
import shutil
import signal
import sys
import time
from typing import Callable

from gateway.figures import Figures
from gateway.journal import Journal

# With these a new start would end in the same way: the words, and the configuration, are refused.
FINAL = (2, 4)
AGAIN_SECONDS = 1.0
MOST_STARTS, WITHIN_SECONDS = 10, 60.0
END_SECONDS = 5.0  # from SIGTERM to SIGKILL
MOST_LINE = 65_536


class ProgramFault(Exception):
    """There is no program to start."""


def found(name: str) -> str:
    """The path of the program: as it is named, else beside the gateway, else in PATH. Raises ProgramFault."""
    if os.sep in name:
        path = shutil.which(name)
    else:
        beside = os.path.join(os.path.dirname(os.path.realpath(sys.argv[0])), name)
        path = shutil.which(beside) or shutil.which(name)
    if path is None:
        raise ProgramFault(f"no program {name}")
    return path


def with_end(path: str) -> list[str]:
    """The words that start a program which is ended where the gateway is killed; without setpriv it is not."""
    setpriv = shutil.which("setpriv")
    return [setpriv, "--pdeathsig", "KILL", "--", path] if setpriv else [path]


def status_of(code: int) -> int:
    """The exit status of a process: 128 and the signal's number where one ended it."""
    return code if code >= 0 else 128 - code


class Program:
    """The program under one configuration. `on_new` is called before each start but the first."""

    def __init__(self, path: str, module: str, journal: Journal, figures: Figures, on_new: Callable[[], None]) -> None:
        self.path, self.module, self.journal, self.figures, self.on_new = path, module, journal, figures, on_new
        self.process: asyncio.subprocess.Process | None = None
        self.is_ending = asyncio.Event()
        self.starts: list[float] = []
        self.error = ""  # the last line of the program on standard error
        self.in_vain = ""  # why it is not started again

    async def run(self) -> int:
        """Runs until the gateway ends it, or a new start would be in vain. Gives the exit status."""
        while True:
            self.starts = [start for start in self.starts if time.monotonic() - start < WITHIN_SECONDS]
            self.starts.append(time.monotonic())
            status = await self.once()
            self.process = None
            if self.is_ending.is_set():
                return status
            if status in FINAL or len(self.starts) >= MOST_STARTS:
                self.give_up(status)
                return status
            with contextlib.suppress(TimeoutError):
                await asyncio.wait_for(self.is_ending.wait(), AGAIN_SECONDS)
                return status
            self.on_new()

    def give_up(self, status: int) -> None:
        """Says why the program is not started again."""
        if status in FINAL:
            told = f"the program ended with status {status}"
        else:
            told = f"the program ended {MOST_STARTS} times within {WITHIN_SECONDS:g} s, at last with status {status}"
        self.in_vain = f"{told}: {self.error}" if self.error else told
        self.tell("it is not started again")

    async def once(self) -> int:
        """One run of the program, whose lines go to the log."""
        self.error = ""
        try:
            # In a session of its own, so that the keyboard's signals reach the gateway alone.
            self.process = await asyncio.create_subprocess_exec(
                *with_end(self.path), "serve", self.module, stdin=asyncio.subprocess.DEVNULL,
                stdout=asyncio.subprocess.PIPE, stderr=asyncio.subprocess.PIPE, start_new_session=True, limit=MOST_LINE)
        except OSError as fault:
            self.error = f"can't be started: {fault.strerror}"
            self.tell(self.error)
            return 72
        self.figures.count("program_starts")
        self.tell(f"started as process {self.process.pid}")
        if self.is_ending.is_set():
            self.signal(signal.SIGTERM)
        await asyncio.gather(self.lines(self.process.stdout), self.lines(self.process.stderr, is_error=True))
        status = status_of(await self.process.wait())
        self.tell(f"ended with status {status}")
        return status

    async def lines(self, stream: asyncio.StreamReader | None, *, is_error: bool = False) -> None:
        """Each line that the program prints is an event of the log."""
        while stream is not None:
            try:
                line = await stream.readline()
            except ValueError:
                continue  # a line of more than MOST_LINE bytes, which the program has none of
            if not line:
                return
            told = line.decode("ascii", "replace").rstrip("\n")
            self.error = told if is_error else self.error
            self.tell(told)

    def tell(self, told: str) -> None:
        self.journal.event("program", told)

    def signal(self, number: int) -> None:
        if self.process is not None:
            with contextlib.suppress(ProcessLookupError):
                self.process.send_signal(number)

    def renew(self) -> None:
        """Ends the program, which serves no host any more; it is then started anew."""
        self.tell("no lane has a connection left: it is ended, and started anew")
        self.signal(signal.SIGTERM)

    async def end(self, running: "asyncio.Task[int]") -> int:
        """Ends the program with the gateway. Gives its exit status."""
        self.is_ending.set()
        self.signal(signal.SIGTERM)
        done, _ = await asyncio.wait([running], timeout=END_SECONDS)
        if not done:
            self.signal(signal.SIGKILL)
        return await running
