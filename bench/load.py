#!/usr/bin/env python3
"""Writes a load of PIN and card messages, its answers and the DES work in it, computed by OpenSSL's DES.

    bench/load.py FOLDER COUNT

FOLDER gets three files. `pins.script` has COUNT messages, in turn CA, CC, DA, EA, DC, EC and CY, each one a line of
lane 1 under the test set; `pins.output` is what it prints, each answer being 00. `pins.work` is for bench/script.c:
the count in four bytes, the least significant first, sixteen bytes for each of KEYS below, then for each message a byte
for its kind, 0 to 6, and four blocks: what is given, a second block, and what two steps of the work must come to. No
message has its fill drawn. It needs the command openssl. Nothing of the crates is used.
"""
import os
import sys

sys.path.insert(0, os.path.join(os.path.dirname(os.path.dirname(os.path.abspath(__file__))), "model"))

from hsm_values import (  # noqa: E402
    CARD, TERMINAL, VERIFICATION, ZONE, check_known, drawn, encipher, exclusive_or, line, offset, parts_of, pin_block,
    sealed, selected, validation_block, wrapping_pair)

OTHER_ZONE = drawn(1044, 2)
TABLE = "0123456789012345"
INDEX, EXPIRY, SERVICE = "1", "2912", "201"
# The LMK pairs and the texts under them, in the order of pins.work.
KEYS = {
    "002": wrapping_pair("002"), "001": wrapping_pair("001"), "402": wrapping_pair("402"),
    "TPK": sealed("002", "U", TERMINAL), "ZPK": sealed("001", "U", ZONE), "other ZPK": sealed("001", "U", OTHER_ZONE),
    "PVK": sealed("002", "U", VERIFICATION), "PVK pair": sealed("002", "P", VERIFICATION),
    "CVK pair": sealed("402", "P", CARD)}


class Digits:
    """Digits of one stream that is the same at each run."""

    def __init__(self):
        self.x = 0

    def number(self, below):
        self.x = (self.x * 1103515245 + 12345) % 2**31
        return (self.x >> 16) % below

    def text(self, count, digits="0123456789"):
        return "".join(digits[self.number(len(digits))] for _ in range(count))


def under(key, blocks):
    """Each block under the key."""
    return parts_of(encipher(key, b"".join(blocks)))


class Messages:
    """What the messages of one kind hold."""

    def __init__(self, count, digits):
        self.accounts = [digits.text(12) for _ in range(count)]
        self.pins = [digits.text(4 + digits.number(3)) for _ in range(count)]
        self.pans = ["4" + digits.text(15) for _ in range(count)]
        self.fills = [digits.text(10, "ABCDEF") for _ in range(count)]

    def clear(self, code):
        return [pin_block(code, pin, account, fill)
                for pin, account, fill in zip(self.pins, self.accounts, self.fills)]


def translated(messages, source_key, target_key, start, source):
    clear, target = messages.clear(source), messages.clear("01")
    given, made = under(source_key, clear), under(target_key, target)
    for block, clear_block, target_block, answer, pin, account in zip(
            given, clear, target, made, messages.pins, messages.accounts):
        yield (f"{start}12{digits(block)}{source}01{account}", f"{len(pin):02}{digits(answer)}01",
               (block, exclusive_or(clear_block, target_block), clear_block, answer))


def with_offset(messages, key, start, source):
    clear = messages.clear(source)
    validation = [account[1:] + "N" for account in messages.accounts]
    blocks = [validation_block(text, account) for text, account in zip(validation, messages.accounts)]
    naturals = under(VERIFICATION, blocks)
    for block, clear_block, data, text, natural, pin, account in zip(
            under(key, clear), clear, blocks, validation, naturals, messages.pins, messages.accounts):
        given = offset([TABLE[int(n, 16)] for n in natural.hex()], pin, 4)
        yield (f"{start}12{digits(block)}{source}04{account}{TABLE}{text}{given}", "",
               (block, data, clear_block, natural))


def with_pvv(messages, key, start, source):
    clear = messages.clear(source)
    blocks = [bytes.fromhex(account[1:] + INDEX + pin[:4]) for pin, account in zip(messages.pins, messages.accounts)]
    for block, clear_block, data, made, account in zip(
            under(key, clear), clear, blocks, under(VERIFICATION, blocks), messages.accounts):
        yield (f"{start}{digits(block)}{source}{account}{INDEX}{selected(made, 4)}", "",
               (block, data, clear_block, made))


def with_cvv(messages, start):
    pairs = [parts_of(bytes.fromhex((pan + EXPIRY + SERVICE).ljust(32, "0"))) for pan in messages.pans]
    middle = [exclusive_or(first, second)
              for first, (_, second) in zip(under(CARD[:8], [first for first, _ in pairs]), pairs)]
    for (first, second), between, made, pan in zip(pairs, middle, under(CARD, middle), messages.pans):
        yield f"{start}{selected(made, 3)}{pan};{EXPIRY}{SERVICE}", "", (first, second, between, made)


def digits(block):
    return block.hex().upper()


def load(count):
    """For each message its text, the fields of its answer and its blocks."""
    stream = Digits()
    ca, cc, da, ea, dc, ec, cy = (Messages((count + 6 - i) // 7, stream) for i in range(7))
    each = [
        translated(ca, TERMINAL, ZONE, "CA" + KEYS["TPK"] + KEYS["ZPK"], "01"),
        translated(cc, ZONE, OTHER_ZONE, "CC" + KEYS["ZPK"] + KEYS["other ZPK"], "47"),
        with_offset(da, TERMINAL, "DA" + KEYS["TPK"] + KEYS["PVK"], "01"),
        with_offset(ea, ZONE, "EA" + KEYS["ZPK"] + KEYS["PVK"], "47"),
        with_pvv(dc, TERMINAL, "DC" + KEYS["TPK"] + KEYS["PVK pair"], "01"),
        with_pvv(ec, ZONE, "EC" + KEYS["ZPK"] + KEYS["PVK pair"], "47"),
        with_cvv(cy, "CY" + KEYS["CVK pair"])]
    return [next(each[i % 7]) for i in range(count)]


def main(folder, count):
    check_known()
    with open(f"{folder}/pins.work", "wb") as work, open(f"{folder}/pins.script", "w", encoding="ascii") as script, \
            open(f"{folder}/pins.output", "w", encoding="ascii") as output:
        work.write(int(count).to_bytes(4, "little"))
        for key in KEYS.values():
            work.write(key if isinstance(key, bytes) else bytes.fromhex(key.removeprefix("U")))
        for i, (message, fields, blocks) in enumerate(load(int(count))):
            reply = message[0] + chr(ord(message[1]) + 1)
            print(line(message.encode()), file=script)
            print(line(f"{reply}00{fields}".encode()), file=output)
            work.write(bytes([i % 7]) + b"".join(blocks))
        print(f"END {count}", file=output)


if __name__ == "__main__":
    main(*sys.argv[1:])
