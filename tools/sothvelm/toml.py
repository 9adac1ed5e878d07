"""A document of TOML 1.1 with the place of each value, read as `hsm_tool` reads a configuration.

Python's own reader knows TOML 1.0, and no places. As the program does, this one refuses integers outside of 64 bits,
more than 80 parts in a key, and values nested more than 80 deep. What is told of a fault repeats nothing of the text, in
which a word or a key may stand at a wrong place.
"""
import datetime
import math
import re
from dataclasses import dataclass, field
from typing import Any, Literal, NoReturn

MOST_DEEP = 80
ESCAPES = {"b": "\b", "e": "\x1b", "f": "\f", "n": "\n", "r": "\r", "t": "\t", '"': '"', "\\": "\\"}
BLANK = re.compile(r"(?:[ \t]|\r?\n|#[^\x00-\x08\x0a-\x1f\x7f]*)*")
BARE = re.compile(r"[A-Za-z0-9_-]+")
WORD = re.compile(r"[A-Za-z0-9_+.:-]+(?: [0-9][A-Za-z0-9_+.:-]*)?")
PLAIN = {'"': re.compile(r'[^"\\\x00-\x08\x0a-\x1f\x7f]+'), "'": re.compile(r"[^'\x00-\x08\x0a-\x1f\x7f]+")}
RADIX = {"0x": (16, "[0-9A-Fa-f]"), "0o": (8, "[0-7]"), "0b": (2, "[01]")}
DECIMAL = re.compile(r"([+-]?)(0|[1-9](?:_?[0-9])*)(\.[0-9](?:_?[0-9])*)?([eE][+-]?[0-9](?:_?[0-9])*)?")
DATE, TIME = r"(\d{4})-(\d\d)-(\d\d)", r"(\d\d):(\d\d)(?::(\d\d)(?:\.\d+)?)?"
MOMENT = re.compile(rf"(?:{DATE}(?:[Tt ]{TIME}([Zz]|[+-]\d\d:\d\d)?)?|{TIME})")
Origin = Literal["implicit", "dotted", "header", "value"]


class TomlFault(Exception):
    """The text is no document; `line` and `column` say where, from 1 on."""

    def __init__(self, words: str, line: int, column: int) -> None:
        super().__init__(words)
        self.line, self.column = line, column


@dataclass
class Spot:
    """A value, where it begins, and of an array its elements, of a table its members."""

    kind: str  # text, integer, float, boolean, date, array or table
    value: Any
    line: int
    items: list["Spot"] = field(default_factory=list)
    members: dict[str, "Spot"] = field(default_factory=dict)
    origin: Origin = "value"
    key_line: int = 0


class Reader:
    """Reads a text from the left."""

    def __init__(self, text: str) -> None:
        self.text, self.at = text, 1 if text.startswith("\ufeff") else 0
        self.root = Spot("table", None, 1, origin="header")

    def line_of(self, at: int) -> int:
        return self.text.count("\n", 0, at) + 1

    def fail(self, words: str, at: int | None = None) -> NoReturn:
        at = self.at if at is None else at
        raise TomlFault(words, self.line_of(at), at - (self.text.rfind("\n", 0, at) + 1) + 1)

    def peek(self, count: int = 1) -> str:
        return self.text[self.at:self.at + count]

    def take(self, text: str, words: str) -> None:
        if self.peek(len(text)) != text:
            self.fail(words)
        self.at += len(text)

    def skip_spaces(self) -> None:
        while self.peek() in (" ", "\t") and self.peek():
            self.at += 1

    def skip_blank(self) -> None:
        found = BLANK.match(self.text, self.at)
        self.at = found.end() if found else self.at

    # Documents

    def document(self) -> Spot:
        """The table of the whole text. Raises TomlFault."""
        path: list[str] = []
        while True:
            self.skip_blank()
            if self.at >= len(self.text):
                return self.root
            begin = self.at
            if self.peek() == "[":
                path = self.header()
            else:
                key, value = self.pair(MOST_DEEP)
                self.define(self.along(path, begin), key, value, begin)
            self.skip_spaces()
            if self.at < len(self.text) and self.peek() not in "#\n\r":
                self.fail("something follows on the line")

    def header(self) -> list[str]:
        """A header, which makes a table or an element of an array of them. Gives its path."""
        begin, mark = self.at, "[[" if self.peek(2) == "[[" else "["
        self.at += len(mark)
        self.skip_spaces()
        key = self.key()
        self.take("]" * len(mark), f"'{']' * len(mark)}' is wanted behind the name of a table")
        table = self.along(key[:-1], begin)
        found = table.members.get(key[-1])
        line = self.line_of(begin)
        if mark == "[[":
            element = Spot("table", None, line, origin="header")
            if found is None:
                table.members[key[-1]] = Spot("array", None, line, [element], origin="header", key_line=line)
            elif found.kind == "array" and found.origin == "header":
                found.items.append(element)
            else:
                self.fail(f"this name stands already in line {found.line}", begin)
        elif found is None:
            table.members[key[-1]] = Spot("table", None, line, origin="header", key_line=line)
        elif found.kind == "table" and found.origin == "implicit":
            found.origin = "header"
        else:
            self.fail(f"this name stands already in line {found.key_line or found.line}", begin)
        return key

    def along(self, path: list[str], begin: int) -> Spot:
        """The table at the end of a header's path."""
        table = self.root
        for part in path:
            found = table.members.get(part)
            if found is None:
                line = self.line_of(begin)
                found = table.members[part] = Spot("table", None, line, origin="implicit", key_line=line)
            if found.kind == "array" and found.origin == "header":
                found = found.items[-1]
            if found.kind != "table" or found.origin == "value":
                self.fail("a part of this name is no table", begin)
            table = found
        return table

    def define(self, table: Spot, key: list[str], value: Spot, begin: int) -> None:
        """Puts a value at a key, whose parts but the last are tables that no header defined."""
        line = self.line_of(begin)
        for part in key[:-1]:
            found = table.members.get(part)
            if found is None:
                found = table.members[part] = Spot("table", None, line, origin="dotted", key_line=line)
            if found.kind != "table" or found.origin in ("header", "value"):
                self.fail(f"a part of this key stands already in line {found.key_line or found.line}", begin)
            found.origin = "dotted"
            table = found
        if key[-1] in table.members:
            found = table.members[key[-1]]
            self.fail(f"this key stands already in line {found.key_line or found.line}", begin)
        value.key_line = line
        table.members[key[-1]] = value

    # Keys

    def key(self) -> list[str]:
        parts: list[str] = []
        while True:
            if len(parts) == MOST_DEEP:
                self.fail(f"a key has at most {MOST_DEEP} parts")
            parts.append(self.key_part())
            self.skip_spaces()
            if self.peek() != ".":
                return parts
            self.at += 1
            self.skip_spaces()

    def key_part(self) -> str:
        if self.peek() in ('"', "'") and self.peek():
            return self.line_text()
        found = BARE.match(self.text, self.at)
        if found is None:
            self.fail("a key is wanted")
        self.at = found.end()
        return found[0]

    def pair(self, deep: int) -> tuple[list[str], Spot]:
        """A key, `=` and a value."""
        key = self.key()
        self.take("=", "'=' is wanted behind a key")
        self.skip_spaces()
        return key, self.value(deep)

    # Values

    def value(self, deep: int) -> Spot:
        line = self.line_of(self.at)
        if self.peek() in ("[", "{") and self.peek() and deep == 0:
            self.fail(f"values are nested more than {MOST_DEEP} deep")
        if self.peek() == "[":
            return self.array(deep - 1, line)
        if self.peek() == "{":
            return self.inline_table(deep - 1, line)
        if self.peek() in ('"', "'") and self.peek():
            return Spot("text", self.text_value(), line)
        return self.word(line)

    def more(self, closing: str) -> None:
        """Behind an element: a comma, or the end, which stays."""
        self.skip_blank()
        if self.peek() == ",":
            self.at += 1
        elif self.peek() != closing:
            self.fail(f"',' or '{closing}' is wanted")

    def array(self, deep: int, line: int) -> Spot:
        self.at += 1
        found = Spot("array", None, line)
        while True:
            self.skip_blank()
            if self.peek() == "]":
                self.at += 1
                return found
            found.items.append(self.value(deep))
            self.more("]")

    def inline_table(self, deep: int, line: int) -> Spot:
        self.at += 1
        found = Spot("table", None, line)
        while True:
            self.skip_blank()
            if self.peek() == "}":
                self.at += 1
                return found
            begin = self.at
            key, value = self.pair(deep)
            self.define(found, key, value, begin)
            self.more("}")

    def word(self, line: int) -> Spot:
        """A boolean, a number or a date."""
        found = WORD.match(self.text, self.at)
        if found is None:
            self.fail("a value is wanted")
        word = found[0]
        if word in ("true", "false"):
            spot = Spot("boolean", word == "true", line)
        elif re.match(r"[0-9]+[-:]", word):
            spot = Spot("date", self.date(word), line)
        else:
            spot = self.number(word, line)
        self.at = found.end()
        return spot

    def number(self, word: str, line: int) -> Spot:
        if word[:2] in RADIX:
            radix, digit = RADIX[word[:2]]
            if not re.fullmatch(f"{digit}(?:_?{digit})*", word[2:]):
                self.fail("this is no number")
            return self.integer(int(word[2:].replace("_", ""), radix), line)
        if re.fullmatch("[+-]?(?:inf|nan)", word):
            return Spot("float", float(word), line)
        found = DECIMAL.fullmatch(word)
        if found is None:
            self.fail("this is no value: texts stand between quotes" if word[0].isalpha() else "this is no number")
        if found[3] or found[4]:
            number = float(word.replace("_", ""))
            if math.isinf(number):
                self.fail("a number that is too large")
            return Spot("float", number, line)
        return self.integer(int(word.replace("_", "")), line)

    def integer(self, number: int, line: int) -> Spot:
        if not -2**63 <= number < 2**63:
            self.fail("an integer outside of 64 bits")
        return Spot("integer", number, line)

    def date(self, word: str) -> str:
        found = MOMENT.fullmatch(word)
        if found is None:
            self.fail("this is no date or time")
        year, month, day, *rest = found.groups()
        hour, minute, second, zone = rest[:4] if year else (*rest[4:7], None)
        try:
            if year:
                datetime.date(int(year) or 4, int(month), int(day))  # the year 0 has a 29 February, too
        except ValueError:
            self.fail("this is no date")
        if hour and (int(hour) > 23 or int(minute or 0) > 59 or int(second or 0) > 60):
            self.fail("this is no time")
        if zone and zone not in "Zz" and (int(zone[1:3]) > 23 or int(zone[4:6]) > 59):
            self.fail("this is no time")
        return word

    # Texts

    def text_value(self) -> str:
        mark = self.peek()
        if self.peek(3) != 3 * mark:
            return self.line_text()
        self.at += 3
        if self.peek(2) == "\r\n":
            self.at += 2
        elif self.peek() == "\n":
            self.at += 1
        return self.many_lines(mark)

    def line_text(self) -> str:
        """A text of one line."""
        mark, parts = self.peek(), list[str]()
        begin = self.at
        self.at += 1
        while True:
            found = PLAIN[mark].match(self.text, self.at)
            if found:
                parts.append(found[0])
                self.at = found.end()
            elif self.peek() == mark:
                self.at += 1
                return "".join(parts)
            elif self.peek() == "\\" and mark == '"':
                self.at += 1
                parts.append(self.escape())
            else:
                self.fail("a text does not end on its line", begin)

    def many_lines(self, mark: str) -> str:
        parts: list[str] = []
        begin = self.at
        while True:
            found = PLAIN[mark].match(self.text, self.at)
            if found:
                parts.append(found[0])
                self.at = found.end()
            elif self.peek() == mark:
                count = len(self.peek(6)) - len(self.peek(6).lstrip(mark))
                if count == 3:
                    self.at += 3
                    return "".join(parts)
                if count > 5:
                    self.fail(f"more than five {mark}")
                parts.append(mark)
                self.at += 1
            elif self.peek() == "\\" and mark == '"':
                self.at += 1
                if cut := re.compile(r"[ \t]*\r?\n(?:[ \t]|\r?\n)*").match(self.text, self.at):
                    self.at = cut.end()
                else:
                    parts.append(self.escape())
            elif self.peek() == "\n" or self.peek(2) == "\r\n":
                parts.append(self.peek())
                self.at += 1
            else:
                self.fail("a text does not end", begin)

    def escape(self) -> str:
        """What follows a backslash."""
        letter = self.peek()
        if letter in ESCAPES and letter:
            self.at += 1
            return ESCAPES[letter]
        count = {"x": 2, "u": 4, "U": 8}.get(letter, 0)
        digits = self.text[self.at + 1:self.at + 1 + count]
        if not count or not re.fullmatch(f"[0-9A-Fa-f]{{{count}}}", digits):
            self.fail("no escape of TOML")
        code = int(digits, 16)
        if 0xD800 <= code < 0xE000 or code > 0x10FFFF:
            self.fail("no character has this number")
        self.at += 1 + count
        return chr(code)


def read(data: bytes) -> Spot:
    """The table of a document. Raises TomlFault."""
    try:
        text = data.decode()
    except UnicodeDecodeError as fault:
        before = data[:fault.start]
        raise TomlFault("no UTF-8", before.count(b"\n") + 1, fault.start - before.rfind(b"\n")) from None
    return Reader(text).document()
