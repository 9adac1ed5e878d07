"""The table of commands: `examples/commands.txt`, whose head says what its lines are.

It is the one place where the commands, their fields, their error codes and the words for them are written; the gate
compares it with what `hsm_tool explain` prints for each command. In an installed package it stands beside this file.
"""
import functools
import os
import re
from dataclasses import dataclass, field
from typing import Any

HERE = os.path.dirname(os.path.abspath(__file__))
NAMES = (os.path.join(HERE, "commands.txt"),
         os.path.join(os.path.dirname(os.path.dirname(HERE)), "examples", "commands.txt"))


class TableFault(Exception):
    """A line of commands.txt does not read; the text says which."""


@dataclass(frozen=True)
class Field:
    """A field of a message or a reply: its form, its kind (key, block, clear or -) and its name."""

    form: str
    kind: str
    name: str

    @property
    def condition(self) -> str:
        """The modes under which the field is there, as `mode23`, or `FF`; empty where it always is."""
        return self.form.rpartition(":")[0]

    @property
    def plain(self) -> str:
        """The form without its condition."""
        return self.form.rpartition(":")[2]

    @property
    def is_secret(self) -> bool:
        """Whether its text is a key, a PIN or an officer's word in the clear."""
        return self.kind == "clear"


@dataclass
class Command:
    """A host's command, or a text of the console, whose reply code is `-`."""

    code: str
    reply: str
    title: str
    fields: list[Field] = field(default_factory=list)
    answers: list[Field] = field(default_factory=list)  # the fields of a reply without an error
    codes: list[str] = field(default_factory=list)  # its error codes beside 00 and 15
    example: list[str] = field(default_factory=list)  # a text for each field, empty for one that is left out

    @property
    def is_console(self) -> bool:
        return self.reply == "-"


@dataclass(frozen=True)
class FormWords:
    """A form in words, and a text of it."""

    example: str
    words: str


@dataclass
class Table:
    """All of commands.txt: host commands and texts of the console by their codes, meanings of error codes, forms."""

    hosts: dict[str, Command] = field(default_factory=dict)
    console: dict[str, Command] = field(default_factory=dict)
    meanings: dict[str, str] = field(default_factory=dict)
    forms: dict[str, FormWords] = field(default_factory=dict)

    def answering(self, reply: str) -> Command | None:
        """The host command whose reply has this code."""
        return next((each for each in self.hosts.values() if each.reply == reply), None)

    def meaning(self, code: str) -> str:
        """An error code in words."""
        return self.meanings.get(code, "no known error code")

    def words_of(self, form: str) -> str:
        """What the texts of a form are."""
        found = self.forms.get(form.rpartition(":")[2])
        return found.words if found else f"a text of the form {form}"


def written(text: str) -> str:
    """A text of a line `*` as it is sent: `{20}` is the byte 20 (hexadecimal)."""
    return re.sub(r"\{([0-9A-Fa-f]{2})\}", lambda found: chr(int(found[1], 16)), text)


def read_table(lines: list[str]) -> Table:
    """The table of the lines of commands.txt. Raises TableFault."""
    table, last = Table(), None
    for number, line in enumerate(lines, 1):
        text = line.rstrip("\n")
        words = text.split(" ", 3)
        if text.startswith("#") or not text.strip():
            continue
        if words[0] in (">", "<") and len(words) == 4 and last:
            (last.fields if words[0] == ">" else last.answers).append(Field(*words[1:]))
        elif words[0] == "~" and last:
            last.codes = text.split(" ")[1:]
        elif words[0] == "*" and last:
            last.example = [written(each) if each != "-" else "" for each in text.split(" ")[1:]]
        elif words[0] == "!" and len(words) > 2:
            table.meanings[words[1]] = text.split(" ", 2)[2]
        elif words[0] == "=" and len(words) == 4:
            table.forms[words[1]] = FormWords(words[2], words[3])
        elif re.fullmatch("[A-Z][A-Z0-9]*", words[0]) and len(words) > 2:
            last = Command(words[0], words[1], text.split(" ", 2)[2])
            (table.console if last.is_console else table.hosts)[last.code] = last
        else:
            raise TableFault(f"line {number} of commands.txt is none of a command, a field and a meaning")
    return table


@functools.cache
def load() -> Table:
    """The table that stands in the package, or in `examples/` of the repository. Raises OSError, TableFault."""
    loader: Any = globals().get("__loader__")
    if not os.path.isfile(__file__) and hasattr(loader, "get_data"):
        return read_table(loader.get_data(NAMES[0]).decode().splitlines())  # packed in one file
    name = next((name for name in NAMES if os.path.isfile(name)), NAMES[-1])
    with open(name, encoding="utf-8") as file:
        return read_table(file.read().splitlines())
