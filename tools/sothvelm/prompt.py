"""`sothvelm console`: the console of a module, with history, completion, and the time that grants have left.

Officers' words and components are asked for, unseen where standard input is a terminal, and are kept nowhere: not in
the history, which holds lines alone that were understood and have none, and in no list of processes. A line that has
one is not sent.
"""
import argparse
import contextlib
import os
import re
import sys
from collections.abc import Iterator
from typing import Any

from sothvelm import table
from sothvelm.client import Console
from sothvelm.forms import CATEGORIES, CHOICES, SETS, stands
from sothvelm.keys import unseen
from sothvelm.link import ClientError
from sothvelm.main import Told, port_of
from sothvelm.module import ADDRESS
from sothvelm.request import FieldFault, Refused, request_of

PROMPT = "console> "
MOST_HISTORY = 1000
KINDS = {"A": "an activity was allowed", "C": "an activity was cancelled", "X": "all activities were cancelled",
         "L": "a look", "R": "a look at the entries", "U": "any other message"}
VERDICTS = {"+": "", "-": ", and an activity was wanting or the list of grants was full"}
HELP = """A ACTIVITY MINUTES       allows an activity; both officers' words are asked for
C ACTIVITY, C *          cancels an activity, or all of them
VA                       the live grants, with the time that is left
Q                        the moment, the place of the next random word, the number of live grants
LOG                      the last entries
GC TYPE SCHEME           draws a component of a key, which is shown
FK TYPE SCHEME           forms a key; its components are asked for
help, quit"""


class NotSent(Exception):
    """A line is not sent; the text says why, and repeats nothing of it."""


def left(seconds: int) -> str:
    """A time in words."""
    hours, minutes = seconds // 3600, seconds % 3600 // 60
    parts = [f"{hours} h"] * (hours > 0) + [f"{minutes} min"] * (minutes > 0) + [f"{seconds % 60} s"]
    return " ".join(parts)


class Session:
    """The console, line after line."""

    def __init__(self, console: Console) -> None:
        self.console, self.rows = console, table.load().console

    def texts_of(self, line: str) -> tuple[str, list[str]]:
        """The word of a line and the texts of its fields, with the secrets asked for. Raises NotSent."""
        word, *given = line.split()
        row = self.rows.get(word)
        if row is None:
            raise NotSent("no such word; help lists them")
        asked = [each for each in row.fields if not each.is_secret and each.plain != "[%nn]"]
        is_set = len(given) == len(asked) + 1 and given[-1].startswith("%") and word in ("GC", "FK")
        if len(given) != len(asked) + is_set:
            names = " ".join(each.name.replace(" ", "-") for each in asked)
            more = "; what is secret is asked for" if len(asked) < len(row.fields) else ""
            raise NotSent(f"wanted is {f'{word} {names}'.strip()}{more}")
        texts = [text for each, text in zip(asked, given)]
        for each in row.fields:
            if each.is_secret:
                text = unseen(f"{each.name}{' (nothing: none)' if each.plain == '[comp]' else ''}: ")
                texts.append(text)
        return word, texts + ([""] if len(texts) < len(row.fields) else [])

    def set_of(self, line: str) -> int | None:
        """The LMK set that a line names."""
        last = line.split()[-1]
        if not last.startswith("%"):
            return None
        if last not in [f"%{number:02}" for number in range(SETS)]:
            raise NotSent(f"an LMK set is %00 to %{SETS - 1:02}")
        return int(last[1:])

    def run(self, line: str) -> list[str]:
        """Does what a line says. Gives the lines to show. Raises NotSent, Refused, FieldFault, ClientError."""
        if line == "help":
            return HELP.splitlines()
        word, texts = self.texts_of(line)
        reply = self.console.perform(request_of(word, texts, self.set_of(line)))
        if word == "VA":
            return self.grants(reply["grants"])
        if word == "LOG":
            return [self.entry(each) for each in reply["entries"]]
        return [f"{name}: {value}" for name, value in reply.items()] or ["OK"]

    def grants(self, found: tuple[str, ...]) -> list[str]:
        """The grants with the time that each has left, by the module's own moment."""
        if not found:
            return ["no activity is allowed"]
        moment = self.console.show_where_ledger_stands().moment
        lines = []
        for each in found:
            activity, _, end = each.rpartition("=")
            lines.append(f"{activity}: {left(max(0, int(end) - moment)) + ' left' if int(end) else 'without end'}")
        return lines

    def entry(self, text: str) -> str:
        number, moment, kind, verdict = text.split(":")
        return f"{number} at {moment}: {KINDS.get(kind, kind)}{VERDICTS.get(verdict, verdict)}"

    def may_be_kept(self, line: str) -> bool:
        """Whether a line may stand in the history: one of this console's, with as many texts as it has open fields."""
        word, *given = line.split()
        row = self.rows.get(word)
        if row is None:
            return line == "help"
        if given and re.fullmatch(f"%0[0-{SETS - 1}]", given[-1]):
            given.pop()
        asked = [each for each in row.fields if not each.is_secret and each.plain != "[%nn]"]
        return len(given) <= len(asked) and all(stands(each, [], text) for each, text in zip(asked, given))


# Completion

def activities(sets: bool) -> list[str]:
    """All activities that can be allowed."""
    types = ["", *(f".{code}" for code in CHOICES["type"])]
    places = ["", ".host", ".console"]
    ends = ["", *(f".lmk{number:02}" for number in range(SETS))] if sets else [""]
    return [f"{category}{code}{place}{end}" for category in CATEGORIES
            for code in (types if category != "pin.clear" else [""]) for place in places for end in ends]


def completions(line: str, text: str) -> list[str]:
    """What may stand for a text that begins so, behind the words of a line before it."""
    before = line.split()
    if text:
        before = before[:-1]
    if not before:
        found = [*table.load().console, "help", "quit"]
    elif before[0] == "C" and len(before) == 1:
        found = [*activities(True), "*"]
    elif before[0] == "A" and len(before) == 1:
        found = activities(True)
    elif before[0] in ("GC", "FK") and len(before) in (1, 2):
        found = list(CHOICES["type"] if len(before) == 1 else CHOICES["scheme"])
    else:
        found = []
    return [each for each in stepped(found, text) if each.startswith(text)]


def stepped(found: list[str], text: str) -> list[str]:
    """Of activities those alone that have no more parts than what is there, the one that is begun among them."""
    return [each for each in found if parts(each) <= parts(text)]


def parts(activity: str) -> int:
    """How many dots part an activity; the one of `pin.clear` parts nothing."""
    return activity.count(".") - activity.startswith("pin.")


class Keyboard:
    """Lines of a terminal with history and completion; else lines of standard input."""

    def __init__(self, history: str | None) -> None:
        self.readline: Any = None
        self.history = history
        if sys.stdin.isatty():
            with contextlib.suppress(ImportError):
                import readline  # noqa: PLC0415
                self.readline = readline
        if self.readline:
            self.prepare()

    def prepare(self) -> None:
        self.readline.set_auto_history(False)
        self.readline.set_completer_delims(" ")
        self.readline.set_completer(self.complete)
        self.readline.parse_and_bind("tab: complete")
        self.readline.set_history_length(MOST_HISTORY)
        if self.history and os.path.exists(self.history):
            self.readline.read_history_file(self.history)

    def complete(self, text: str, number: int) -> str | None:
        found = completions(self.readline.get_line_buffer()[:self.readline.get_endidx()], text)
        return found[number] if number < len(found) else None

    def lines(self) -> Iterator[str]:
        while True:
            try:
                line = input(PROMPT if sys.stdin.isatty() else "")
            except EOFError:
                return
            if line.strip() == "quit":
                return
            if line.strip():
                yield line.strip()

    def keep(self, line: str) -> None:
        if self.readline:
            self.readline.add_history(line)

    def end(self) -> None:
        """Writes the history, readable by its owner alone."""
        if self.readline and self.history:
            os.close(os.open(self.history, os.O_WRONLY | os.O_CREAT, 0o600))
            os.chmod(self.history, 0o600)
            self.readline.write_history_file(self.history)


def add(parser: argparse.ArgumentParser) -> None:
    """The words of `sothvelm console`."""
    parser.add_argument("--port", metavar="PORT", type=port_of, default=1500, help="the console's port (1500)")
    parser.add_argument("--history", metavar="FILE", help="keeps the history; without it none is kept behind the run")


def connected(port: int) -> Console:
    """The console. Raises ClientError where nobody listens."""
    try:
        return Console(ADDRESS, port)
    except ConnectionRefusedError:
        raise ClientError(f"nobody listens at port {port}") from None


def run(options: argparse.Namespace) -> int:
    """Reads lines until their end. Status 1 where one was refused and standard input is no terminal."""
    refused = 0
    with connected(options.port) as console:
        session, keyboard = Session(console), Keyboard(options.history)
        try:
            for line in keyboard.lines():
                if session.may_be_kept(line):
                    keyboard.keep(line)
                try:
                    print("\n".join(session.run(line)), flush=True)
                except (NotSent, Refused, FieldFault) as told:
                    refused += 1
                    print(f"sothvelm console: {told}", file=sys.stderr, flush=True)
                except ClientError as error:
                    raise Told(f"{error}: a console serves one client at a time", 3) from None
        finally:
            keyboard.end()
    return 1 if refused and not sys.stdin.isatty() else 0
