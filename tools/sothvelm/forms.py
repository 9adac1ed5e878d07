"""The texts of fields: which stand for a form, how a message is read, and how a reply is.

A text is a `str`, one character a byte (Latin-1). Fields are numbered from 1, as `hsm_tool explain CODE` prints them;
an absent one, of another mode, keeps its number and has the empty text.
"""
import re
from dataclasses import dataclass

from sothvelm.table import Command, Field

HEX = "[0-9A-Fa-f]"
PARTS = {"Z": 1, "U": 2, "T": 3, "X": 2, "Y": 3}
TAGGED = {tag: f"{tag}{HEX}{{{16 * parts}}}" for tag, parts in PARTS.items()}
KEY = f"{HEX}{{16}}|{TAGGED['Z']}|{TAGGED['U']}|{TAGGED['T']}"
PAIR = f"{HEX}{{32}}"
TYPES = ("000", "001", "002", "402", "003", "008", "009", "00A", "00B")
MOST_MINUTES, MOST_TRAILER, SETS = 720, 32, 4
CATEGORIES = ("generate", "import", "export", "component", "pin.clear")
ACTIVITY = re.compile(
    rf"(?:(generate|import|export|component)(\.(?:{'|'.join(TYPES)}))?|(pin\.clear))"
    r"(\.(?:host|console))?(\.lmk0[0-3])?")
# Form: its text, and the error code of a text that does not stand.
FORMS = {
    "K": (KEY, "15"), "P": (f"{PAIR}|{TAGGED['U']}", "15"), "W": (f"{KEY}|{TAGGED['X']}|{TAGGED['Y']}", "15"),
    "type": ("|".join(TYPES), "04"), "mactype": ("003|008", "04"), "type2": ("FF|0[012389AB]", "04"),
    "flag": ("[012]", "05"), "scheme": ("[ZUT]", "26"), "wscheme": ("[ZUTXY]", "26"), "format": ("01|03|05|47", "23"),
    "len": ("0[4-9]|1[012]", "15"), "[;f]": (";[01]|(?!;)", "15"), "pan": ("[0-9]{12,19};", "15"),
    "12F": ("|".join(f"[0-9]{{{count}}}F{{{12 - count}}}" for count in range(13)), "15"),
    "12V": ("|".join(f"{HEX}{{{count}}}N{HEX}{{{11 - count}}}" for count in range(12)), "15"),
    "0to1": ("[01]", "15"), "0to2": ("[012]", "15"), "0to3": ("[0-3]", "15"), "1or3": ("[13]", "15"),
    "count": (f"{HEX}{{4}}", "15"), "00": ("00", "15"), ";": (";", "15"), "[%nn]": ("%[0-9]{2}", "15"),
    # Of the console, where each text ends before a space or at the end.
    "act": (r"[^ ]+(?![^ ])", "15"), "act*": (r"[^ ]+(?![^ ])", "15"), "min": ("(?:0|[1-9][0-9]{0,2})(?![^ ])", "15"),
    "word": ("[!-~]{1,64}(?![^ ])", "15"),
    # Of replies alone.
    "hex": (f"{HEX}*", "15"), "text": ("[^\x19]*", "15"), "number": ("[0-9]+(?![^ ])", "15"), "words": (".*", "15")}
CHOICES = {
    "type": TYPES, "mactype": ("003", "008"), "type2": ("00", "01", "02", "03", "08", "09", "0A", "0B", "FF"),
    "flag": ("0", "1", "2"), "scheme": tuple("ZUT"), "wscheme": tuple("ZUTXY"), "format": ("01", "03", "05", "47"),
    "len": tuple(f"{length:02}" for length in range(4, 13)), "[;f]": ("", ";0", ";1"), "0to1": ("0", "1"),
    "0to2": ("0", "1", "2"), "0to3": ("0", "1", "2", "3"), "1or3": ("1", "3"), "00": ("00",), ";": (";",)}
END = re.compile(f"(%[0-9]{{2}})?(\x19.{{0,{MOST_TRAILER}}})?", re.DOTALL)


@dataclass(frozen=True)
class Reading:
    """The texts of the fields that stand, and why the reading ended.

    With `failed` 0 the whole message reads. Else it is the number of the field that does not stand, or one more than
    there are fields where something follows the last; `code` is the error code, and `is_short` tells that the message
    ends before the field does. `rest` is what stands from there on, or the name of a set and the trailer.
    """

    texts: list[str]
    failed: int = 0
    code: str = "00"
    is_short: bool = False
    rest: str = ""

    @property
    def lmk_set(self) -> int | None:
        """The LMK set that a message that reads names, or None."""
        return int(self.rest[1:3]) if self.rest.startswith("%") else None

    @property
    def trailer(self) -> str:
        """The trailer of a message that reads, with the byte 19 (hexadecimal) before it, or nothing."""
        return "" if self.failed else self.rest.removeprefix(self.rest[:3] if self.rest.startswith("%") else "")


def counted(form: str) -> str | None:
    """The pattern of a form nN or nH, or None."""
    found = re.fullmatch("([0-9]+)([NH])", form)
    return ("[0-9]" if found[2] == "N" else HEX) + f"{{{found[1]}}}" if found else None


def pattern_of(form: str, texts: list[str]) -> tuple[str, str]:
    """The pattern of a form and its error code; texts are those of the earlier fields."""
    if pattern := counted(form):
        return pattern, "15"
    if form == "KF":
        untagged = {"0": HEX + "{16}|", "1": PAIR + "|", "2": ""}[texts[1]]
        return untagged + "|".join(TAGGED[tag] for tag in "ZUT"), "15"
    if form == "offs":
        check = int(texts[5])
        return f"[0-9]{{{check}}}F{{{12 - check}}}", "15"
    if form == "data":
        count = int(texts[-1], 16)
        is_hex = len(texts) > 1 and texts[1] == "1"
        # No text stands for an odd number of hexadecimal digits.
        return ("(?!)" if is_hex and count % 2 else f"(?:{HEX if is_hex else '.'}){{{count}}}"), "15"
    if form == "mac":
        return HEX + ("{8}" if texts[2] == "0" else "{16}"), "15"
    if form in ("comp", "[comp]"):
        return HEX + f"{{{16 * PARTS[texts[1]]}}}(?![^ ])", "15"
    return FORMS[form]


def is_present(condition: str, texts: list[str]) -> bool:
    """Whether a field of a mode, or one that follows the pair code FF, is there."""
    return texts[0] == "FF" if condition == "FF" else texts[0] in condition.removeprefix("mode")


def found_text(form: str, texts: list[str], text: str) -> tuple[str | None, str]:
    """The text of a form at the front of another one, or None where none stands, and the form's error code."""
    pattern, code = pattern_of(form, texts)
    found = re.compile(f"(?:{pattern})", re.DOTALL).match(text)
    return (found[0] if found and stands_beyond(form, found[0]) else None), code


def stands_beyond(form: str, text: str) -> bool:
    """What a pattern does not say: an activity, and how many minutes there can be."""
    if form == "act*" and text == "*":
        return True
    if form in ("act", "act*"):
        return ACTIVITY.fullmatch(text) is not None
    return form != "min" or int(text) <= MOST_MINUTES


def stands(field: Field, texts: list[str], text: str) -> bool:
    """Whether a text is just one of the field, whose earlier fields have these texts."""
    if field.condition and not is_present(field.condition, texts):
        return text == ""
    if text == "" and field.plain in ("[comp]", "[%nn]", "[;f]"):
        return True
    return found_text(field.plain, texts, text)[0] == text


def read_message(command: Command, text: str) -> Reading:
    """The texts of the fields behind the command's code, read from the left as the module reads them.

    Of a text of the console the code and its fields are given without the word, with a space before each field.
    """
    texts: list[str] = []
    for number, each in enumerate(command.fields, 1):
        if (each.condition and not is_present(each.condition, texts)) or is_left_out(each.plain, text):
            texts.append("")
            continue
        space = 1 if command.is_console else 0
        found, code = found_text(each.plain, texts, text[space:])
        if found is None or text[:space].strip(" "):
            return Reading(texts, number, code, len(text) - space < least_size(each.plain, texts), text)
        texts.append(found)
        text = text[space + len(found):]
    if text if command.is_console else not END.fullmatch(text):
        return Reading(texts, len(command.fields) + 1, "15", rest=text)
    return Reading(texts, rest=text)


def is_left_out(form: str, text: str) -> bool:
    """Whether a field of the console is left out before what is left."""
    return (form == "[%nn]" and not text) or (form == "[comp]" and (not text or text.startswith(" %")))


def least_size(form: str, texts: list[str]) -> int:
    """The fewest characters that a text of a form has."""
    if found := re.fullmatch("([0-9]+)[NHFV]", form):
        return int(found[1])
    if form == "data":
        return int(texts[-1], 16)
    if form == "mac":
        return 8 if texts[2] == "0" else 16
    if form in ("comp", "[comp]"):
        return 16 * PARTS[texts[1]]
    return {"K": 16, "W": 16, "KF": 16, "P": 32, "type": 3, "mactype": 3, "type2": 2, "format": 2, "len": 2, "pan": 13,
            "offs": 12, "count": 4, "00": 2, "[;f]": 0, "hex": 0, "text": 0, "words": 0}.get(form, 1)


def read_reply(command: Command, text: str) -> Reading:
    """The texts of the fields of a reply without an error, behind the error code or behind `OK`.

    `failed` tells, as for a message, the field that does not stand, or that something follows which is no trailer.
    """
    texts: list[str] = []
    for place, each in enumerate(command.answers):
        if each.form == "words":
            texts.append(text.removeprefix(" "))
            text = ""
            continue
        if each.form == "data":
            found: str | None = text
        elif each.form == "[W]":
            behind = 6 if place + 1 < len(command.answers) else 0
            found = "" if len(text.split("\x19")[0]) <= behind else found_text("W", [], text)[0]
        elif each.form == "comp":
            found = (re.match(f" ({HEX}+)", text) or [None, None])[1]
        else:
            found = found_text(each.form, texts, text[command.is_console:])[0]
        if found is None:
            return Reading(texts, place + 1, "15", rest=text)
        texts.append(found)
        text = text[len(found) + command.is_console:]
    if text and (command.is_console or not re.fullmatch("\x19.{0,32}", text, re.DOTALL)):
        return Reading(texts, len(command.answers) + 1, "15", rest=text)
    return Reading(texts, rest=text)


def trailer_of(command: Command, text: str) -> str:
    """The trailer behind the fields of a message that reads, or nothing."""
    return read_message(command, text).trailer


def parts_of(key: str) -> int:
    """How many parts a key text has: by its tag, or by its digits."""
    return PARTS.get(key[:1]) or len(key) // 16
