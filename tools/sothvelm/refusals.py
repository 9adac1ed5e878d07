"""Which check of the module refused a message, and at which field, in words.

The order of checks is that of docs/COMMANDS.md: the command, the fields, what follows them, the LMK set, the keys, the
type, equal parts, activities, the data, the comparison. What stands in the clear in a message (forms, schemes, types) is looked at
anew; what only the module sees (a key's parity, a PIN) follows from the error code and the command. No text of a field
stands in the words.
"""
from dataclasses import dataclass

from sothvelm.forms import Reading, parts_of, read_message
from sothvelm.table import Command, Table

# The fields whose opened keys the error codes 10 and 11 speak of.
PARITY = {
    "A0": {"10": 5}, "A6": {"10": 2, "11": 3}, "A8": {"10": 3, "11": 4}, "BU": {"10": 3},
    "CA": {"10": 1, "11": 2}, "CC": {"10": 1, "11": 2}, "DE": {"10": 1}, "DG": {"10": 1}, "DA": {"10": 1, "11": 2},
    "EA": {"10": 1, "11": 2}, "DC": {"10": 1, "11": 2}, "EC": {"10": 1, "11": 2}, "CW": {"10": 1}, "CY": {"10": 1},
    "M6": {"10": 7}, "M8": {"10": 7}}
# The wrapping key, the key, its type and the schemes that must have as many parts, by number.
WRAPPING = {"A0": 5, "A6": 2, "A8": 3}
TYPE_FIELD = {"A0": 2, "A6": 1, "A8": 1}
KEY_FIELD = {"A0": 3, "A6": 3, "A8": 4}
SCHEMES = {"A0": (3, 6), "A6": (3, 4), "A8": (4, 5)}
# The field of a check of the data, and what is wrong with it beyond the code's meaning.
OTHER = "as where another key enciphered it, or the account field is another one"
DATA = {
    "CA": {"20": (4, OTHER), "24": (4, "not 4 to 12 digits, or more than field 3, greatest length")},
    "CC": {"20": (4, OTHER), "24": (4, "not 4 to 12 digits, or more than field 3, greatest length")},
    "DE": {"25": (5, ""), "14": (2, OTHER), "24": (3, "it is shorter than this")}, "DG": {"14": (2, OTHER)},
    **dict.fromkeys(("DA", "EA"), {"25": (8, ""), "20": (4, OTHER), "24": (
        4, "not 4 to 12 digits, more than field 3, greatest length, or fewer than field 6, check length")}),
    **dict.fromkeys(("DC", "EC"), {"20": (3, OTHER), "24": (3, "not 4 to 12 digits")}),
    "BA": {"24": (1, "fewer than 4 digits")}, "NG": {"14": (2, OTHER)},
    **dict.fromkeys(("M6", "M8"), {"80": (10, "none, no whole blocks, or padding 3 in another mode than 0")})}
COMPARED = {"DA": 10, "EA": 10, "DC": 7, "EC": 7, "CY": 2, "M8": 11}
# Key types that an act needs an activity for, by the order of docs/COMMANDS.md.
GRANTED = {"generate": ("000",), "import": ("000", "402", "009", "00A", "00B"), "export": ("402", "002", "00A")}
PARTS_OF_TYPE = {"000": (2, 3), "402": (2,), "009": (2, 3)}
TYPE_OF_PAIR = {"00": "000", "01": "001", "02": "002", "03": "003", "08": "008", "09": "009", "0A": "00A", "0B": "00B"}


@dataclass(frozen=True)
class Refusal:
    """A check that failed, the number of the field (0: none, or several), and both in words."""

    check: str
    field: int
    words: str


class Refusals:
    """Refusals over the table of commands."""

    def __init__(self, table: Table) -> None:
        self.table, self.commands = table, table.hosts

    def explain(self, message: str, code: str) -> Refusal:
        """Why a message, from its command code on, was answered with this error code, which is not 00."""
        meaning = self.table.meaning(code)
        command = self.commands.get(message[:2])
        if command is None or code == "68":
            return Refusal("command", 0, meaning)
        reading = read_message(command, message[2:])
        if reading.failed:
            if reading.code != code:
                return Refusal("unknown", 0, meaning)
            return unread(command, reading, meaning)
        if reading.lmk_set is not None and code == "13":
            return Refusal("set", 0, f"{reading.rest[:3]} behind the fields: the LMK set is not loaded")
        found = self.behind(command, reading.texts, code, meaning)
        return found or Refusal("unknown", 0, meaning)

    def explain_console(self, text: str, cause: str) -> Refusal:
        """Why a text of the console was answered `NO` with this cause."""
        meaning = self.table.meaning(cause)
        word = text.split(" ")[0]
        command = self.table.console.get(word)
        if command is None or cause == "68":
            return Refusal("command", 0, meaning)
        reading = read_message(command, text[len(word):])
        if reading.failed:
            return unread(command, reading, meaning) if reading.code == cause else Refusal("unknown", 0, meaning)
        if cause == "17":
            return Refusal("activity", 0, f"{meaning}: component.{reading.texts[0]}.console")
        if cause == "27":
            parts = " or ".join(map(str, PARTS_OF_TYPE.get(reading.texts[0], (1, 2, 3))))
            return at(command, "keys", 2, f"{meaning}: the type {reading.texts[0]} wants {parts}")
        if cause == "75":
            return at(command, "parts", 3, f"{meaning}, once the components are joined")
        checks = {"WORDS": "words", "FULL": "grants", "13": "set"}
        return Refusal(checks.get(cause, "unknown"), 0, meaning)

    def behind(self, command: Command, texts: list[str], code: str, meaning: str) -> Refusal | None:
        """The refusal of a message that reads."""
        name = command.code
        if code in PARITY.get(name, {}):
            number = PARITY[name][code]
            words = "the key has a byte of even parity, as where the text is of another LMK set or key type"
            return at(command, "keys", number, words)
        if code in ("26", "27"):
            return self.of_keys(command, texts, code, meaning)
        if code == "29":
            return at(command, "type", TYPE_FIELD.get(name, 0), meaning)
        if code == "75":
            return at(command, "parts", KEY_FIELD.get(name, 0), meaning)
        if code == "17":
            return Refusal("activity", 0, f"{meaning}: {' and '.join(needed(name, texts))}")
        if code in DATA.get(name, {}):
            number, more = DATA[name][code]
            return at(command, "data", number, f"{meaning}: {more}" if more else meaning)
        if code == "01" and name in COMPARED:
            return at(command, "comparison", COMPARED[name], meaning)
        return None

    def of_keys(self, command: Command, texts: list[str], code: str, meaning: str) -> Refusal | None:
        """The refusal of a scheme, or of a number of parts."""
        name = command.code
        if code == "26" and name == "BU":
            return at(command, "keys", 3, f"{meaning}: an untagged pair is read for the types 002 and 402 alone")
        if code == "26" and name in SCHEMES:
            first, second = SCHEMES[name]
            words = f"{meaning}: it has another number of parts than field {first}, {command.fields[first - 1].name}"
            return at(command, "keys", second, words)
        if code == "27" and name in WRAPPING:
            number = WRAPPING[name] if is_wrapping_first(name, texts) else KEY_FIELD[name]
            return at(command, "keys", number, f"{meaning}: {parts_words(name, texts, number)}")
        if code == "27" and name == "BU":
            return at(command, "keys", 3, f"{meaning}: {parts_words(name, texts, 3)}")
        if code == "27" and name in ("M6", "M8"):
            return at(command, "keys", 7, f"{meaning}: algorithm 3 wants two parts, and it has {parts_of(texts[6])}")
        return None


def at(command: Command, check: str, number: int, words: str) -> Refusal:
    """A refusal at a field."""
    if not number:
        return Refusal(check, 0, words)
    return Refusal(check, number, f"field {number}, {command.fields[number - 1].name}: {words}")


def unread(command: Command, reading: Reading, meaning: str) -> Refusal:
    """The refusal of a field that does not stand, or of what follows the fields."""
    if reading.failed > len(command.fields):
        where = f"behind field {len(command.fields)}" if command.fields else "behind the command"
        what = "something follows" if command.is_console else "something follows that is no LMK set and trailer"
        return Refusal("end", 0, f"{where}: {what}")
    form = command.fields[reading.failed - 1].form
    words = meaning if reading.code != "15" else f"no text of the form {form}"
    if reading.is_short:
        words += ": the message ends before it does"
    return at(command, "fields", reading.failed, words)


def is_wrapping_first(name: str, texts: list[str]) -> bool:
    """Whether 27 speaks of the wrapping key: it has one part, and nothing before it was refused."""
    if name == "A0":
        allowed = PARTS_OF_TYPE.get(texts[1], (1, 2, 3))
        return parts_of(texts[2]) in allowed
    return parts_of(texts[WRAPPING[name] - 1]) == 1


def parts_words(name: str, texts: list[str], number: int) -> str:
    """What is wrong with the number of parts of a key."""
    if name in WRAPPING and number == WRAPPING[name]:
        return "a ZMK or TMK that wraps has two or three parts, and it has one"
    parts = parts_of(texts[number - 1])
    if name == "BU":
        code = TYPE_OF_PAIR.get(texts[0], texts[4])
        wanted = int(texts[1]) + 1
        if parts in PARTS_OF_TYPE.get(code, (1, 2, 3)):
            return f"the flag asks for {wanted}, and it has {parts}"
    else:
        code = texts[TYPE_FIELD[name] - 1]
    wanted_parts = " or ".join(map(str, PARTS_OF_TYPE.get(code, (1, 2, 3))))
    return f"the type {code} wants {wanted_parts}, and it has {parts}"


def needed(name: str, texts: list[str]) -> list[str]:
    """The activities that a message needs."""
    if name not in TYPE_FIELD:
        return ["pin.clear.host"]
    code = texts[TYPE_FIELD[name] - 1]
    acts = {"A0": ["generate", "export"] if texts[0] == "1" else ["generate"], "A6": ["import"], "A8": ["export"]}[name]
    return [f"{act}.{code}.host" for act in acts if code in GRANTED[act]]
