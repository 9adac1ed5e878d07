#!/usr/bin/env python3
"""Readable lines for the scripts of `hsm_tool script`, and readable answers of what it prints.

    python3 examples/frames.py script [FILE] [--header TEXT]    readable lines into the program's script
    python3 examples/frames.py lines [FILE] [--header TEXT]     a script into readable lines
    python3 examples/frames.py output [FILE] [--header TEXT]    the program's output into readable answers, with names

Without FILE, standard input is read. The header, which is 0001 if none is given, goes before each message. A readable
line is one of these:

    L1 BU 01 0 85E813540F0AB405     a message of host lane 1; header and length are added, spaces are not sent
    L1 B2 0003 A{19}B{20}           bytes by their hexadecimal digits; a space, { } and | are sent in this way alone
    L1 EC U111 | 22 33              a frame that is cut: each part is a piece of its own
    L1 =00063030                    a piece as it stands, in hexadecimal digits, with nothing added
    C VA                            a text of the console, as it stands
    T 36000                         a moment
    # a remark, or nothing

The fields of messages and replies are those of commands.txt, as `sothvelm` of tools/ reads them. Exit status: 0 all
lines read; 1 a line does not read, with `frames.py: line N: CAUSE` on standard error and nothing on standard output; 2
the words are wrong; 3 a file can't be read. It needs the standard library alone.
"""
import os
import re
import sys

# Beside examples/, where sothvelm is not installed.
sys.path.append(os.path.join(os.path.dirname(os.path.dirname(os.path.abspath(__file__))), "tools"))

from sothvelm import table  # noqa: E402
from sothvelm.forms import read_message, read_reply  # noqa: E402

USAGE = "usage: python3 examples/frames.py script|lines|output [FILE] [--header TEXT]"
MOST_BYTES, MOST_TEXT, MOST_MOMENT = 65535, 1000, 2**40
HEX = "[0-9A-Fa-f]"


class Wrong(Exception):
    """A line does not read."""


# Texts of bytes, one character a byte

def bytes_of(text, column=0):
    """The bytes of a readable text: spaces are left out, and {19} is a byte."""
    data, place = "", 0
    while place < len(text):
        found = re.compile(f"\\{{((?:{HEX}{HEX})+)\\}}").match(text, place)
        if found:
            data += bytes.fromhex(found[1]).decode("latin-1")
            place = found.end()
            continue
        if text[place] in "{}" or not " " <= text[place] <= "~":
            told = f"{text[place]!r} is no character of a message: write it as {{19}}"
            raise Wrong(f"column {column + place + 1}: {told}")
        data += text[place].strip()
        place += 1
    return data


def readable(data):
    """A text of bytes as it is written in a readable line."""
    return re.sub(r"^=|[^!-z~]", lambda found: f"{{{ord(found[0]):02X}}}", data)


# Readable lines into a script

def script_line(text, header):
    """The lines of the script that a readable line stands for."""
    if not text or text.startswith("#"):
        return [text]
    word, space, rest = text.partition(" ")
    if word == "T":
        if not re.fullmatch("0|[1-9][0-9]*", rest) or int(rest) > MOST_MOMENT:
            raise Wrong(f"'{rest}' is no moment: a number of at most {MOST_MOMENT}, without leading zeros")
        return [text]
    if word == "C":
        if not re.fullmatch(f"[ -~]{{1,{MOST_TEXT}}}", rest):
            raise Wrong(f"a text of the console has 1 to {MOST_TEXT} printable ASCII characters")
        return [text]
    if not re.fullmatch("L[1-9][0-9]*", word) or not space:
        raise Wrong(f"'{word}' is none of L1, L2 and so on, C, T and #")
    if rest.startswith("="):
        if not re.fullmatch(f"({HEX}{HEX})+", rest[1:]):
            raise Wrong("behind = stand hexadecimal digits, two for each byte")
        return [f"{word} {rest[1:]}"]
    pieces, column = [], len(word) + 1
    for part in rest.split("|"):
        pieces.append(bytes_of(part, column))
        column += len(part) + 1
    whole = header + "".join(pieces)
    if not all(pieces):
        raise Wrong("a piece holds at least one byte")
    if len(whole) > MOST_BYTES:
        raise Wrong(f"a message of {len(whole)} bytes with its header: a frame holds at most {MOST_BYTES}")
    pieces[0] = len(whole).to_bytes(2, "big").decode("latin-1") + header + pieces[0]
    return [f"{word} {digits(piece)}" for piece in pieces]


def digits(data):
    return data.encode("latin-1").hex().upper()


# A script and an output into readable lines

def unframed(piece, header):
    """The message of a piece that is just one frame with the header, or None."""
    whole = int.from_bytes(piece[:2].encode("latin-1"), "big") == len(piece) - 2
    return piece[2 + len(header):] if whole and len(piece) > 2 and piece.startswith(header, 2) else None


def piece_of(text):
    word, _, rest = text.partition(" ")
    if not re.fullmatch("L[1-9][0-9]*", word) or not re.fullmatch(f"({HEX}{HEX})+", rest):
        raise Wrong(f"'{word}' is no line of a script: L1 and hexadecimal digits, C, T or #")
    return word, bytes.fromhex(rest).decode("latin-1")


def readable_line(text, header, commands):
    """A line of a script in readable form."""
    if not text or text[0] == "#" or re.match("[CT] ", text):
        return script_line(text, header)[0]
    word, piece = piece_of(text)
    message = unframed(piece, header)
    if message is None or len(message) < 2 or digits(piece) != text.partition(" ")[2]:
        return f"{word} ={text.partition(' ')[2]}"
    texts, rest = [], message[2:]
    if message[:2] in commands:
        reading = read_message(commands[message[:2]], rest)
        texts, rest = reading.texts, reading.rest
    lmk_set = rest[:3] if re.match("%[0-9][0-9]", rest) else ""
    parts = [message[:2], *texts, lmk_set, rest[len(lmk_set):]]
    return " ".join([word, *(readable(part) for part in parts if part)])


def readable_answer(text, header, commands, meanings):
    """A line of the program's output in readable form."""
    if re.fullmatch("END [0-9]+|L[1-9][0-9]* (cut|closed|short [0-9]+)", text):
        return text
    if text.startswith("C "):
        cause = text.removeprefix("C NO ")
        return text if cause == text else f"{text}  {meanings.get(cause, 'no known cause')}"
    word, piece = piece_of(text)
    reply = unframed(piece, header)
    if reply is None:
        raise Wrong(f"the answer is no frame with the header '{header}'")
    return " ".join([word, *named_reply(reply, commands, meanings)])


def named_reply(reply, commands, meanings):
    """The code, the error code with its meaning, and the fields with their names."""
    command = next((one for one in commands.values() if one.reply == reply[:2]), None)
    code, rest = reply[2:4], reply[4:]
    named = f"{readable(reply[:2])} {readable(code)}  {meanings.get(code, 'no known error code')}"
    parts = []
    if command and code == "00":
        reading = read_reply(command, rest)
        parts = [f"{each.name} {readable(text)}" for each, text in zip(command.answers, reading.texts) if text]
        rest = reading.rest
    if rest.startswith("\x19"):
        parts.append(f"trailer {readable(rest)}")
    elif rest:
        parts.append(f"then {readable(rest)}")
    return ["; ".join([named, *parts])]


def convert(what, text, header, commands, meanings):
    """All lines, or the number and the cause of the first that does not read."""
    found = []
    for number, line in enumerate(text.split("\n")[:-1] if text.endswith("\n") else text.split("\n"), 1):
        try:
            if what == "script":
                found += script_line(line, header)
            elif what == "lines":
                found.append(readable_line(line, header, commands))
            elif line:
                found.append(readable_answer(line, header, commands, meanings))
        except Wrong as wrong:
            raise Wrong(f"line {number}: {wrong}") from None
    return "".join(line + "\n" for line in found)


def main(words):
    header = "0001"
    if "--header" in words[:-1]:
        place = words.index("--header")
        header = os.fsencode(words[place + 1]).decode("latin-1")
        words = words[:place] + words[place + 2:]
    if not 1 <= len(words) <= 2 or words[0] not in ("script", "lines", "output") or len(header) > 255 or any(
            word.startswith("-") for word in words):
        print(USAGE, file=sys.stderr)
        return 2
    try:
        rows = table.load()
        if len(words) == 2:
            with open(words[1], encoding="latin-1", newline="\n") as file:
                text = file.read()
        else:
            text = sys.stdin.buffer.read().decode("latin-1")
    except OSError as error:
        print(f"frames.py: {error.filename}: {error.strerror}", file=sys.stderr)
        return 3
    try:
        sys.stdout.buffer.write(convert(words[0], text, header, rows.hosts, rows.meanings).encode("latin-1"))
    except Wrong as wrong:
        print(f"frames.py: {wrong}", file=sys.stderr)
        return 1
    return 0


if __name__ == "__main__":
    sys.exit(main(sys.argv[1:]))
