"""Writes `replies.py`, `requests.py` and `commands.py` from the table of commands.

    python3 -m sothvelm.generate          writes the files that differ
    python3 -m sothvelm.generate --check  writes nothing; exit status 1 where a file differs, and its name

Names are those of the table without articles: "translate a PIN block from a TPK to a ZPK" becomes
`translate_pin_block_from_tpk_to_zpk`. A row that is added to the table gets its method by a run of this.
"""
import os
import re
import sys
import textwrap

from sothvelm import table
from sothvelm.forms import CHOICES
from sothvelm.table import Command, Field

HERE = os.path.dirname(os.path.abspath(__file__))
LEFT_OUT = {"a", "an", "the", "its", "that", "is", "with", "each"}
HEAD = "# Written by `python3 -m sothvelm.generate` from examples/commands.txt.\n"
ALIASES = {"type": "KeyType", "mactype": "MacType", "type2": "PairCode", "flag": "Flag", "scheme": "Scheme",
           "wscheme": "WrapScheme", "format": "Format"}
ENDS = ("lmk_set: int | None = None", "trailer: bytes | None = None")


def snake(words: str) -> str:
    """A name of Python for words of the table."""
    kept = [re.sub(r"\W", "", word.lower().replace("'s", "s")) for word in words.split()]
    return "_".join(word for word in kept if word and word not in LEFT_OUT)


def camel(words: str) -> str:
    return "".join(part.capitalize() for part in snake(words).split("_"))


def names_of(fields: list[Field]) -> list[str]:
    """The names of fields as parameters; a name that comes twice gets a number."""
    found: list[str] = []
    for each in fields:
        name = snake(each.name)
        found.append(name if name not in found else f"{name}_{found.count(name) + 1}")
    return found


def is_asked(each: Field) -> bool:
    """Whether the caller gives the field: a text that is the same always, and a count of data, follow by themselves."""
    return each.plain not in ("00", ";", "count", "[%nn]")


def names_set(row: Command) -> bool:
    """Whether a text of the console has a field that names an LMK set."""
    return any(each.plain == "[%nn]" for each in row.fields)


def is_optional(each: Field) -> bool:
    return bool(each.condition) or each.plain in ("[;f]", "[comp]")


def hint_of(each: Field) -> str:
    """The type of a field's value."""
    plain = each.plain
    if plain in ("len", "min") or re.fullmatch("[0-9](?:to|or)[0-9]", plain):
        hint = "int"
    elif plain == "data":
        hint = "bytes"
    elif plain == "[;f]":
        hint = 'Literal["0", "1"]'
    elif plain in ALIASES:
        hint = ALIASES[plain]
    else:
        hint = "str"
    return f"{hint} | None" if is_optional(each) else hint


def aliases() -> str:
    """The types of fields of few texts."""
    return "".join(f"{name} = Literal[{', '.join(map(repr_of, CHOICES[plain]))}]\n" for plain, name in ALIASES.items())


def repr_of(text: str) -> str:
    return f'"{text}"'


def answer_hint(each: Field) -> str:
    return {"data": "bytes", "number": "int", "words": "tuple[str, ...]"}.get(each.form, "str")


def reply_name(row: Command) -> str:
    return f"{row.code.title() if row.is_console else row.reply}Reply"


def wrapped(text: str, indent: int, hanging: int = 4) -> str:
    return textwrap.fill(text, 118, initial_indent=" " * indent, subsequent_indent=" " * (indent + hanging))


def packed(head: str, parts: list[str], end: str, indent: int) -> list[str]:
    """Parts between commas, as many as a line holds."""
    lines, line = [], head
    for place, part in enumerate(parts):
        is_last = place + 1 == len(parts)
        if len(line) + len(part) + (len(end) if is_last else 1) > 118:
            lines.append(line.rstrip())
            line = " " * indent
        line += part + (end if is_last else ", ")
    return [*lines, line if parts else head + end]


def reply_class(row: Command, rows: table.Table) -> str:
    lines = ["@dataclass(frozen=True)", f"class {reply_name(row)}(Reply):",
             f'    """The reply to {row.code}: {row.title}."""', ""]
    for each, name in zip(row.answers, names_of(row.answers)):
        hidden = " = field(repr=False)" if each.is_secret else ""
        what = {"[W]": "a key text, or nothing with mode 0", "12F": "a PIN, without its fill",
                "data": "all bytes", "words": "texts"}.get(each.form) or rows.words_of(each.form)
        what = {"hex": "hexadecimal digits", "text": "text", "number": "a number"}.get(each.form, what)
        lines.append(f"    {name}: {answer_hint(each)}{hidden}  # {what}")
    return "\n".join(lines).rstrip() + "\n"


def arguments(row: Command) -> list[str]:
    found = [f"{name}: {hint_of(each)}" + (" = None" if is_optional(each) else "")
             for each, name in zip(row.fields, names_of(row.fields)) if is_asked(each)]
    if row.is_console:
        return found + ([ENDS[0]] if names_set(row) else [])
    return found + list(ENDS)


def described(row: Command, rows: table.Table) -> list[str]:
    """The lines of a docstring: what each argument is, and the error codes."""
    lines = [f'    """{row.code}: {row.title}.', ""]
    for each, name in zip(row.fields, names_of(row.fields)):
        if is_asked(each):
            when = f" (with {each.condition} alone)" if each.condition else ""
            words = rows.words_of(each.form)
            if each.plain in ("12F", "offs"):
                words = "decimal digits; the fill F to 12 characters is added"
            if each.plain == "pan":
                words = "12 to 19 decimal digits"
            if each.plain == "data":
                words = "the characters of the data field; their count is added"
            if each.plain == "[;f]":
                words = "0 for a ZMK, 1 for a TMK; None means a ZMK"
            lines.append(wrapped(f"{name}: {words}{when}", 4))
    if not row.is_console or names_set(row):
        lines.append("    lmk_set: the LMK set, 0 to 3; None names none, which means set 0")
    if not row.is_console:
        lines.append("    trailer: at most 32 bytes, which the reply repeats; None sends none")
    codes = "; ".join(f"{code} {rows.meaning(code)}" for code in ["15", *row.codes])
    faults = "FieldFault for a value of another form, and " if arguments(row) else ""
    told = f"Raises {faults}Refused with: {codes}."
    lines += [""] * (len(lines) > 2) + [wrapped(told, 4, 0), '    """']
    return lines


def request_function(row: Command, rows: table.Table) -> str:
    given = arguments(row)
    head = f"def {snake(row.title)}(" + ("*, " if given else "")
    lines = packed(head, given, f") -> Request[replies.{reply_name(row)}]:", 8)
    lines += described(row, rows)
    values = []
    for each, name in zip(row.fields, names_of(row.fields)):
        if each.plain == "count":
            values.append('f"{len(data):04X}"')
        else:
            values.append(name if is_asked(each) else "...")
    rest = ", lmk_set, trailer" if not row.is_console else ", lmk_set" if names_set(row) else ""
    call = f"    return Request({repr_of(row.code)}, replies.{reply_name(row)}, ("
    lines += packed(call, values, ("," if len(values) == 1 else "") + f"){rest})", 8)
    return "\n".join(lines) + "\n"


def replies_file(rows: table.Table) -> str:
    classes = [reply_class(row, rows) for row in (*rows.hosts.values(), *rows.console.values())]
    return ('"""The replies of all commands as data classes. A key or PIN in the clear stands in no `repr`."""\n' + HEAD
            + "from dataclasses import dataclass, field\n\nfrom sothvelm.request import Reply\n\n\n"
            + "\n\n".join(classes))


def requests_file(rows: table.Table, which: list[Command], what: str) -> str:
    functions = [request_function(row, rows) for row in which]
    types = sorted({ALIASES[each.plain] for row in which for each in row.fields if each.plain in ALIASES
                    and is_asked(each)})
    uses_literal = any("Literal" in hint_of(each) for row in which for each in row.fields)
    imports = ("from typing import Literal\n\n" if uses_literal else "") + "from sothvelm import replies\n"
    return (f'"""{what}"""\n{HEAD}{imports}from sothvelm.request import Request\n'
            f"from sothvelm.texts import {', '.join(types)}\n\n\n" + "\n\n".join(functions))


def texts_file() -> str:
    return f'"""The texts of fields that have few of them."""\n{HEAD}from typing import Literal\n\n{aliases()}'


def methods(which: list[Command], module: str) -> str:
    return "".join(f"    {snake(row.title)} = call({module}.{snake(row.title)})\n" for row in which)


def commands_file(rows: table.Table) -> str:
    head = '"""The methods of clients: one for each command, typed as its request and its reply are."""\n'
    return (f"{head}{HEAD}from sothvelm import console_requests, requests\nfrom sothvelm.call import call\n\n\n"
            f'class HostCommands:\n    """The commands of a host."""\n\n'
            f'{methods(list(rows.hosts.values()), "requests")}'
            f'\n\nclass ConsoleCommands:\n    """The texts of the console."""\n\n'
            f'{methods(list(rows.console.values()), "console_requests")}')


def files() -> dict[str, str]:
    """The files by their names."""
    rows = table.load()
    hosts = "The messages of a host's commands: a function for each, with the values of its fields by name."
    console = "The texts of the console: a function for each, with the values of its fields by name."
    return {"replies.py": replies_file(rows), "requests.py": requests_file(rows, list(rows.hosts.values()), hosts),
            "console_requests.py": requests_file(rows, list(rows.console.values()), console),
            "texts.py": texts_file(), "commands.py": commands_file(rows)}


def main(words: list[str]) -> int:
    if words not in ([], ["--check"]):
        print("usage: python3 -m sothvelm.generate [--check]", file=sys.stderr)
        return 2
    status = 0
    for name, text in files().items():
        path = os.path.join(HERE, name)
        standing = ""
        if os.path.exists(path):
            with open(path, encoding="utf-8") as file:
                standing = file.read()
        if standing == text:
            continue
        if words:
            print(f"generate: {name} is not what the table says", file=sys.stderr)
            status = 1
            continue
        with open(path, "w", encoding="utf-8") as file:
            file.write(text)
    return status


if __name__ == "__main__":
    sys.exit(main(sys.argv[1:]))
