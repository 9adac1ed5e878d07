#!/usr/bin/env python3
"""Writes a script of changed messages and texts, and what it prints, to compare a program with.

    model/mutants.py FOLDER SEED COUNT [CODE..]

FOLDER gets `mutants.script`, with COUNT messages and texts over two lanes and the console under the test set, and
`mutants.output`. Each is one of those that the other scripts here print, as it stands or with a character changed, put
in, left out or doubled, cut short, with a trailer, or with the name of an LMK set; officers allow and cancel activities
between them. With CODEs,
only messages of these commands are used, and no console texts. What the program prints must be the output:

    hsm_tool script .. model/out/mutants.script | cmp - model/out/mutants.output

The answers are those of hsm_model.py. It needs the command openssl. Nothing of the crates is used.
"""
import random
import sys

import console_rows
import data_rows
import key_rows
import pin_rows
from hsm_model import FIELDS, Hsm, run_script
from hsm_values import check_known, line

CHARACTERS = "0123456789ABCDEFNPTUXYZabcf;%. \x00\x19\xff"


def messages(codes):
    """The messages of all groups, of these commands alone where some are named."""
    found = [message for rows in (key_rows, pin_rows, data_rows) for group in rows.GROUPS.values()
             for message, _ in group().cases]
    return [text.decode("latin-1") for text in found if not codes or text[:2].decode("latin-1") in codes]


def texts():
    """The console's texts of all groups."""
    lines = [text for group in console_rows.GROUPS.values() for text, _ in group().cases]
    return [text[2:] for text in lines if text.startswith("C ")]


def changed(rng, text, characters):
    """The text as it stands, or changed in one place."""
    place = rng.randrange(len(text) + 1)
    before, after = text[:place], text[place:]
    return rng.choice([
        text, text, text, before + rng.choice(characters) + after[1:], before + rng.choice(characters) + after,
        before + after[1:], before + after[:1] + after, before, text + "\x19" + after[:32], text + "%00", text + "%01",
        text + "%02\x19" + after[:32]])


def write(folder, seed, count, codes):
    rng = random.Random(seed)
    known, console = messages(codes), texts()
    lines = []
    while len(lines) < count:
        if rng.random() < 0.05:
            lines.append(f"T {rng.randrange(4000)}")
        if not codes and rng.random() < 0.2:
            text = changed(rng, rng.choice(console), CHARACTERS[:-3])
            lines += ["C " + text] if 1 <= len(text) <= 1000 and text.isprintable() else []
            continue
        message = changed(rng, rng.choice(known), CHARACTERS)
        if len(message) >= 2 and not (codes and message[:2] in FIELDS and message[:2] not in codes):
            lines.append(line(message.encode("latin-1"), rng.randrange(1, 3) if not codes else 1))
    script = "".join(text + "\n" for text in lines).encode()
    output, _ = run_script(Hsm(), script)
    for name, whole in ("script", script), ("output", output):
        with open(f"{folder}/mutants.{name}", "wb") as file:
            file.write(whole)


if __name__ == "__main__":
    check_known()
    write(sys.argv[1], int(sys.argv[2]), int(sys.argv[3]), sys.argv[4:])
