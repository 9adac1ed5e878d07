"""A command's message with the reply that belongs to it: made of Python values, sent as a text, read as a data class.

What the messages and replies of each command are stands in `replies` and `requests`, which `generate` writes from the
table of commands.
"""
import dataclasses
import re
from collections.abc import Callable
from dataclasses import dataclass, field
from typing import Any, Generic, TypeVar

from sothvelm import refusals, table
from sothvelm.forms import MOST_TRAILER, SETS, read_message, read_reply, stands
from sothvelm.link import ClientError

R = TypeVar("R")
SEPARATOR = "\x19"


class FieldFault(ValueError):
    """A value is none of its field; nothing was sent. The text names the field and its form, and not the value."""


class Refused(ClientError):
    """The module refused a message.

    `command` and `code` are as in docs/COMMANDS.md, at the console a cause such as `WORDS` too; `meaning` is the code
    in words; `check`, `field` and `words` say which check failed, the number of the field (0: none, or several) and
    both in words, without the field's text.
    """

    def __init__(self, command: str, code: str, found: refusals.Refusal, trailer: bytes = b"") -> None:
        self.command, self.code, self.trailer = command, code, trailer
        self.meaning = table.load().meaning(code)
        self.check, self.field, self.words = found.check, found.field, found.words
        super().__init__(f"{command} was refused with {code}: {found.words}")


@dataclass(frozen=True)
class Reply:
    """What each reply has beside its fields."""

    trailer: bytes = field(default=b"", kw_only=True)  # as it was sent, without the byte before it


def text_of(each: table.Field, value: object) -> str:
    """The text of a field for a value: an int is a number of two digits where the field is a length."""
    if value is None:
        return ""
    if isinstance(value, bytes):
        return value.decode("latin-1")
    if isinstance(value, int):
        return f"{value:02}" if each.plain == "len" else str(value)
    text = str(value)
    if each.plain in ("12F", "offs"):
        return text.ljust(12, "F")
    if each.plain == "pan":
        return text if text.endswith(";") else text + ";"
    return f";{text}" if each.plain == "[;f]" and text in ("0", "1") else text


def value_of(each: table.Field, text: str) -> Any:
    """The value of a reply's field: data are bytes, numbers of the console are int, and PINs have no fill."""
    if each.form == "data":
        return text.encode("latin-1")
    if each.form == "number":
        return int(text)
    if each.form == "words":
        return tuple(text.split())
    return text.rstrip("F") if each.form == "12F" else text


@dataclass(frozen=True)
class Request(Generic[R]):
    """A message of a command, and the class of its reply. `values` are those of the fields in their order."""

    command: str
    reply: Callable[..., R]
    values: tuple[object, ...] = field(repr=False)
    lmk_set: int | None = None
    trailer: bytes | None = None

    def row(self) -> table.Command:
        rows = table.load()
        return rows.hosts.get(self.command) or rows.console[self.command]

    def texts(self) -> list[str]:
        """The texts of the fields. Raises FieldFault for a value that is none of its field."""
        row, found = self.row(), list[str]()
        for number, (each, value) in enumerate(zip(row.fields, self.values, strict=True), 1):
            if each.plain == "[%nn]":
                found.append("")  # the set stands behind the fields of a host, too
                continue
            if each.plain in ("00", ";") and value is ...:
                is_there = not each.condition or stands(each, found, each.plain)
                found.append(each.plain if is_there else "")
                continue
            text = text_of(each, value)
            if not stands(each, found, text):
                raise FieldFault(self.wrong(number, each))
            found.append(text)
        return found

    def wrong(self, number: int, each: table.Field) -> str:
        words = table.load().words_of(each.form)
        when = f" (wanted with {each.condition} alone)" if each.condition else ""
        return f"{self.command}, field {number}, {each.name}{when}: wanted is {words}"

    def text(self) -> str:
        """The message without its header. Raises FieldFault."""
        texts = self.texts()
        if self.lmk_set is not None and not 0 <= self.lmk_set < SETS:
            raise FieldFault(f"{self.command}: an LMK set is a number of 0 to {SETS - 1}")
        named = "" if self.lmk_set is None else f"%{self.lmk_set:02}"
        if self.row().is_console:
            return " ".join([self.command, *filter(None, [*texts, named])])
        if self.trailer is not None and len(self.trailer) > MOST_TRAILER:
            raise FieldFault(f"{self.command}: a trailer has at most {MOST_TRAILER} bytes")
        behind = "" if self.trailer is None else SEPARATOR + self.trailer.decode("latin-1")
        return self.command + "".join(texts) + named + behind

    def read(self, text: str) -> R:
        """The reply of this text, without its header. Raises Refused, or ClientError for a reply of another shape."""
        row = self.row()
        if row.is_console:
            return self.read_console(row, text)
        if text[:2] != row.reply or not re.fullmatch("[0-9]{2}", text[2:4]):
            raise ClientError(f"{self.command} was answered by no reply of it")
        code, rest = text[2:4], text[4:]
        if code != "00":
            found = refusals.Refusals(table.load()).explain(self.text(), code)
            raise Refused(self.command, code, found, rest[1:].encode("latin-1"))
        return self.filled(row, rest)

    def read_console(self, row: table.Command, text: str) -> R:
        verdict, _, rest = text.partition(" ")
        if verdict == "NO":
            found = refusals.Refusals(table.load()).explain_console(self.text(), rest)
            raise Refused(self.command, rest, found)
        if verdict != "OK":
            raise ClientError(f"{self.command} was answered by neither OK nor NO")
        return self.filled(row, text[2:])

    def filled(self, row: table.Command, rest: str) -> R:
        reading = read_reply(row, rest)
        if reading.failed:
            raise ClientError(f"the reply to {self.command} has other fields than the table of commands")
        values = [value_of(each, text) for each, text in zip(row.answers, reading.texts)]
        return self.reply(*values, trailer=reading.rest[1:].encode("latin-1"))


def request_of(command: str, texts: list[str], lmk_set: int | None = None) -> Request[dict[str, Any]]:
    """A message of texts of fields, as a form page has them; its reply is a dict of names and values."""
    row = table.load().hosts.get(command) or table.load().console[command]

    def reply(*values: Any, trailer: bytes) -> dict[str, Any]:
        return dict(zip([each.name for each in row.answers], values))

    return Request(command, reply, tuple(texts), lmk_set)


def is_whole(request: Request[Any]) -> bool:
    """Whether the message of a request reads in the one way of its texts."""
    row, text = request.row(), request.text()
    reading = read_message(row, text[len(row.code):])
    return not reading.failed and reading.texts == request.texts()


def names_of(reply: Any) -> list[str]:
    """The names of a reply's fields."""
    return [each.name for each in dataclasses.fields(reply)]
