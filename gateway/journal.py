"""The log: a line of JSON for each message, and one for each event of the gateway.

Lines are gathered for a few milliseconds and written by a thread of their own, so that a reader that is slow holds up
no client. At most MOST_BYTES of them wait; further ones are lost, counted, and told of by a line once there is room.
"""
import asyncio
import errno
import json
import os
import queue
import sys
import threading
import time
from typing import Any

MOST_BYTES = 8_000_000  # of lines that wait to be written
GATHERED_SECONDS = 0.02
END_SECONDS = 2.0  # that the last lines are waited for

written = json.JSONEncoder(ensure_ascii=True, separators=(",", ":")).encode  # a value as a line of the log has it


class Journal:
    """Writes lines to a file descriptor, which it does not close."""

    def __init__(self, descriptor: int, loop: asyncio.AbstractEventLoop) -> None:
        self.descriptor, self.loop = descriptor, loop
        self.lines: list[str] = []
        self.waiting = 0  # bytes that are handed to the thread and not yet written
        self.lost = self.told = 0
        self.is_gathering = False
        self.handed: queue.SimpleQueue[bytes | None] = queue.SimpleQueue()
        self.lock = threading.Lock()
        self.thread = threading.Thread(target=self.write_all, name="journal", daemon=True)
        self.second, self.prefix = -1, ""

    def start(self) -> None:
        self.thread.start()

    def stamp(self) -> str:
        """The moment now as text, in UTC with microseconds."""
        now = time.time()
        second = int(now)
        if second != self.second:
            self.second, self.prefix = second, time.strftime("%Y-%m-%dT%H:%M:%S", time.gmtime(second))
        return f"{self.prefix}.{int((now - second) * 1_000_000):06}Z"

    def line(self, text: str) -> None:
        """A whole line of JSON, without its end."""
        self.lines.append(text)
        if not self.is_gathering:
            self.is_gathering = True
            self.loop.call_later(GATHERED_SECONDS, self.hand_over)

    def event(self, event: str, told: str, **more: Any) -> None:
        """An event of the gateway, in words."""
        self.line(written({"time": self.stamp(), "event": event, **more, "told": told}))

    def hand_over(self) -> None:
        """Gives the gathered lines to the thread, or counts them as lost where too many wait there."""
        self.is_gathering = False
        lines, self.lines = self.lines, []
        if not lines:
            return
        if self.waiting > MOST_BYTES:
            self.lost += len(lines)
            return
        if self.lost > self.told:
            lines.append(written({"time": self.stamp(), "event": "log", "told": (
                f"{self.lost - self.told} lines were lost: nobody read them fast enough")}))
            self.told = self.lost
        piece = ("\n".join(lines) + "\n").encode("ascii", "backslashreplace")
        with self.lock:
            self.waiting += len(piece)
        self.handed.put(piece)

    def write_all(self) -> None:
        """The thread: writes pieces as they come. A descriptor that takes nothing more is told of once."""
        is_told = False
        while (piece := self.handed.get()) is not None:
            try:
                view = memoryview(piece)
                while view:
                    view = view[os.write(self.descriptor, view):]
            except OSError as fault:
                self.lost += piece.count(b"\n")
                if not is_told:
                    print(f"gateway: the log can't be written: {fault.strerror}", file=sys.stderr, flush=True)
                is_told = True
            with self.lock:
                self.waiting -= len(piece)

    def end(self) -> None:
        """Writes what is left, and ends the thread; a reader that reads nothing is not waited for."""
        self.hand_over()
        self.handed.put(None)
        self.thread.join(END_SECONDS)


def open_log(path: str | None) -> int:
    """A descriptor that lines are appended to: that of a file, or standard output. Raises OSError."""
    if path is None and sys.stdout is None:
        raise OSError(errno.EBADF, "it is closed", "standard output")
    if path is None:
        return sys.stdout.fileno()
    return os.open(path, os.O_WRONLY | os.O_APPEND | os.O_CREAT | os.O_CLOEXEC, 0o640)
