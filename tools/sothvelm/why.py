"""`sothvelm why CONFIG MESSAGE`: why a message is refused, at which field and byte, and what a text of it looks like.

The program itself answers the message, under the configuration, with a new ledger in which the activities of `--allow`
alone live; which field its code speaks of is found as the gateway finds it. Texts of PINs, components and officers'
words are not shown.
"""
import argparse
import json
import re
import secrets
import sys
from dataclasses import dataclass
from typing import Any

from sothvelm import table
from sothvelm.forms import read_message, read_reply
from sothvelm.main import WORDS, Told
from sothvelm.module import digest, find_program, in_memory, read_configuration, run_program, toml_of
from sothvelm.refusals import Refusal, Refusals
from sothvelm.table import Command, Field

MOST_SHOWN = 80  # characters of a field


@dataclass(frozen=True)
class Message:
    """A message: its header, and its text from the command on; of the console's there is no header."""

    header: str
    text: str
    is_console: bool = False


@dataclass(frozen=True)
class Finding:
    """What became of a message: its command, the code, the refusal, and the field with its place."""

    message: Message
    command: Command | None
    code: str
    refusal: Refusal | None
    field: Field | None = None
    place: int = 0  # of the field's first byte in the message with its header, from 1 on
    there: str = ""  # the field's text, or what stands in its place
    reply: str = ""


def text_in(line: str) -> str:
    """The text of a line: a message, its hexadecimal digits, a line of a script or of the gateway's log."""
    line = line.rstrip("\r\n")
    if line.startswith("{"):
        try:
            found = json.loads(line)
        except ValueError:
            raise Told("the line is no JSON of the gateway's log") from None
        if not isinstance(found, dict) or not isinstance(found.get("message"), str):
            raise Told("the line of the log has no message: the gateway writes whole messages with texts = true")
        return str(found["message"])
    line = re.sub(r"^L[1-9][0-9]* (?=[0-9A-Fa-f:]+$)", "", line)
    digits = line.replace(":", "") if re.fullmatch("[0-9A-Fa-f]{2}(:[0-9A-Fa-f]{2})+", line) else line
    if re.fullmatch("(?:[0-9A-Fa-f]{2})+", digits):
        data = bytes.fromhex(digits)
        if int.from_bytes(data[:2], "big") == len(data) - 2:
            return data[2:].decode("latin-1")
        # Digits may be a message themselves, whose header and command are such.
        if digits != line or len(data) > 2 and is_known(data[4:6]):
            return data.decode("latin-1")
    return line


def is_known(code: bytes) -> bool:
    return code.decode("latin-1") in table.load().hosts


def message_of(line: str, header: int, *, is_console: bool = False) -> Message:
    """The message of a line under a header of this length. Raises Told for a text that is none."""
    line = line.rstrip("\r\n")
    if is_console or line.startswith("C "):
        return Message("", line.removeprefix("C "), True)
    text = text_in(line)
    rows = table.load().hosts
    if text[header:header + 2] not in rows and text[:2] in rows:
        return Message("0" * header, text)  # given without its header
    if len(text) < header + 2:
        raise Told(f"a message has a header of {header} characters and a command of two, and this is shorter: the "
                   "module ends the connection")
    return Message(text[:header], text[header:])


def answer_of(program: str, document: dict[str, Any], message: Message, allowed: list[str]) -> str:
    """The program's answer, without its header. Raises ModuleFault."""
    words = secrets.token_hex(8), secrets.token_hex(8)
    if allowed:
        if message.is_console and message.text.startswith("A "):
            raise Told("--allow has officers of its own, whose words are not those of the text", WORDS)
        document = {**document, "officers": list(map(digest, words))}
    text = "".join(f"{key} = {toml_of(value)}\n" for key, value in document.items())
    lines = [f"C A {activity} 0 {words[0]} {words[1]}" for activity in allowed]
    if message.is_console:
        lines.append(f"C {message.text}")
    else:
        body = (message.header + message.text).encode("latin-1")
        lines.append(f"L1 {(len(body).to_bytes(2, 'big') + body).hex().upper()}")
    with in_memory(text.encode()) as (name, held):
        came = answers_held(program, name, lines, held)
    refused = next((activity for activity, line in zip(allowed, came) if line != "C OK"), None)
    if refused is not None:
        raise Told(f"'{refused}' is no activity", WORDS)
    word, _, rest = came[len(allowed)].partition(" ")
    if word == "C":
        return rest
    return bytes.fromhex(rest)[2 + len(message.header):].decode("latin-1")


def answers_held(program: str, name: str, lines: list[str], held: tuple[int, ...]) -> list[str]:
    """What a script is answered, a line each, under a configuration that is kept in memory."""
    with in_memory("".join(line + "\n" for line in lines).encode("latin-1")) as (script, more):
        output = run_program(program, "script", name, script, held=held + more)
    return [line for line in output.splitlines() if not re.match("END ", line)]


def find(message: Message, reply: str) -> Finding:
    """What a message was answered, with the field that the answer speaks of."""
    rows = table.load()
    refusals = Refusals(rows)
    if message.is_console:
        word = message.text.split(" ")[0]
        command = rows.console.get(word)
        code = reply.removeprefix("NO ") if reply.startswith("NO ") else "00"
        refusal = refusals.explain_console(message.text, code) if code != "00" else None
    else:
        word = message.text[:2]
        command = rows.hosts.get(word)
        code = reply[2:4]
        refusal = refusals.explain(message.text, code) if code != "00" else None
    if command is None or refusal is None:
        return Finding(message, command, code, refusal, reply=reply)
    return placed(message, command, code, refusal)


def placed(message: Message, command: Command, code: str, refusal: Refusal) -> Finding:
    """The place of the field that a refusal speaks of, and what stands there."""
    rest = message.text[len(command.code):]
    reading = read_message(command, rest)
    number = refusal.field or (reading.failed if reading.failed else 0)
    if not number:
        return Finding(message, command, code, refusal)
    space = 1 if command.is_console else 0
    before = sum(len(text) + (space if text or not space else 0) for text in reading.texts[:number - 1])
    start = before + (space if before < len(rest) else 0)
    is_field = number <= len(command.fields)
    there = reading.texts[number - 1] if number <= len(reading.texts) else rest[start:]
    place = len(message.header) + len(command.code) + start + 1
    return Finding(message, command, code, refusal, command.fields[number - 1] if is_field else None, place, there)


def described(found: Finding) -> list[str]:
    """The lines that are told."""
    rows = table.load()
    title = f"{found.command.code}, {found.command.title}" if found.command else "the command"
    if found.refusal is None:
        return [f"{title}: answered {'OK' if found.message.is_console else '00'}", *reply_lines(found)]
    lines = [f"{title}: refused with {found.code}, {rows.meaning(found.code)}",
             f"check: {found.refusal.check}; {found.refusal.words}"]
    if found.command is None:
        known = ", ".join(rows.console if found.message.is_console else rows.hosts)
        header = len(found.message.header)
        where = "" if found.message.is_console else f", behind a header of {header} characters"
        return [*lines, f"known are {known}{where}"]
    if found.place:
        lines.append(f"place: byte {found.place} of the message" + (
            f", which is byte {found.place + 2} of the frame" if not found.message.is_console else ""))
        lines.append(f"there: {shown(found)}")
    if found.field is not None:
        words = rows.words_of(found.field.form)
        form = rows.forms.get(found.field.plain)
        example = f", as {form.example}" if form and not found.field.is_secret else ""
        lines.append(f"wanted: {words}{example}")
    return lines


def shown(found: Finding) -> str:
    """What stands at the place, as far as it may be shown."""
    text = found.there
    if not text:
        return "nothing"
    count = f"{len(text)} character{'s' * (len(text) > 1)}"
    # Of a command that has a secret no text is shown, since it may be the secret at a wrong place.
    if found.field is None or found.command is None or any(each.is_secret for each in found.command.fields):
        return f"{count}, not shown"
    kept = text[:longest(found.field)]
    told = "".join(each if " " <= each <= "~" else f"{{{ord(each):02X}}}" for each in kept)
    return f"{told}{'..' if len(kept) < len(text) else ''} ({count} from here on)" if len(kept) < len(text) else told


def longest(field: Field) -> int:
    """How many characters of what stands in a field's place are shown: no more than a text of it has.

    What stands behind may be of another field, and a secret.
    """
    form = table.load().forms.get(field.plain)
    return min(MOST_SHOWN, len(form.example) if form else 1)


def reply_lines(found: Finding) -> list[str]:
    """The fields of an answer without an error; what is in the clear is not shown."""
    if found.command is None:
        return []
    rest = found.reply[2:] if found.message.is_console else found.reply[4:]
    reading = read_reply(found.command, rest)
    return [f"{each.name}: {'not shown' if each.is_secret else text}"
            for each, text in zip(found.command.answers, reading.texts) if text]


def add(parser: argparse.ArgumentParser) -> None:
    """The words of `sothvelm why`."""
    parser.add_argument("config", metavar="CONFIG", help="the module's configuration")
    parser.add_argument("message", metavar="MESSAGE", help="with its header or without, as text or hexadecimal digits, "
                        "a line of a script, or of the gateway's log; - reads a line of standard input, where a PIN in "
                        "the clear belongs")
    parser.add_argument("--console", action="store_true", help="the message is a text of the console")
    parser.add_argument("--allow", metavar="ACTIVITY", action="append", default=[], help="an activity that lives")
    parser.add_argument("--program", metavar="FILE", help="hsm_tool; else $SOTHVELM_PROGRAM, or that of PATH")


def run(options: argparse.Namespace) -> int:
    """Prints why the message is refused, or what it is answered."""
    program = find_program(options.program)
    document = read_configuration(options.config)
    run_program(program, "check", options.config)
    line = sys.stdin.readline() if options.message == "-" else options.message
    if not line.strip("\r\n"):
        raise Told("there is no message", WORDS)
    message = message_of(line, int(document["header"]), is_console=options.console)
    try:
        found = find(message, answer_of(program, document, message, options.allow))
    except UnicodeEncodeError:
        raise Told("a message has bytes alone: write others as hexadecimal digits", WORDS) from None
    print("\n".join(described(found)))
    return 0
