#!/usr/bin/env python3
"""Prints the worked day of the examples, computed by OpenSSL's DES and ChaCha20.

    model/day.py script     examples/day.script
    model/day.py output     examples/day.output, what it prints under the test set with two host lanes
    model/day.py table      the day as docs/SCRIPTS.md has it

The header is 0001, the seed 32 zero bytes, the officers' words are abc and hello. The answers are those of
hsm_model.py. It needs the command openssl. Nothing of the crates is used.
"""
import sys

from hsm_model import Lines
from hsm_values import (
    HEADER, check_known, drawn, enciphered_pin, exclusive_or, mac_value, pvv, sealed, sealed_pin, wrapped)

ACCOUNT = "400000123456"
MESSAGE = "0200 PURCHASE 000000012345 9786"


def day():
    s = Lines()
    remark(s, "The officers allow components, draw two and join them to a ZMK.")
    s.line("T 36000")
    s.console("A component.000 30 abc hello", "OK")
    first = s.console_ok("GC 000 U")[0]
    second = s.console_ok("GC 000 U")[0]
    zmk = s.console_ok(f"FK 000 U {first} {second}")[0]
    s.console("VA", "OK 1 component.000=37800")
    s.console("C component.000", "OK 1")
    kek = exclusive_or(drawn(0, 2), drawn(4, 2))
    kek = bytes(byte ^ 1 for byte in kek)  # two odd bytes make an even one
    assert zmk == sealed("000", "U", kek)

    remark(s, "Lane 1 draws a ZPK and exports it under the ZMK, then a TPK, a PVK pair and a ZAK.")
    s.line("T 36600")
    keys = [drawn(place, 2) for place in range(8, 24, 4)]
    zpk, tpk, pvk, zak = (
        sealed(code, "U", key) for code, key in zip(("001", "002", "002", "008"), keys))
    assert s.host(f"A01001U;0{zmk}X").startswith(zpk + wrapped(kek, "X", keys[0]))
    for code, text in ("002", tpk), ("002", pvk), ("008", zak):
        assert s.host(f"A00{code}U").startswith(text)

    remark(s, "Lane 2 draws a PIN and its PVV. It shows the PIN while officers allow that, and not after.")
    s.line("T 37200")
    pin = s.host(f"JA{ACCOUNT}04", lane=2)
    value = s.host(f"DG{pvk}{pin}{ACCOUNT}1", lane=2)
    s.host(f"NG{ACCOUNT}{pin}", "17", lane=2)
    s.console("A pin.clear.host 10 abc hello", "OK")
    clear = s.host(f"NG{ACCOUNT}{pin}", lane=2).rstrip("F")
    s.console("C pin.clear.host", "OK 1")
    s.host(f"NG{ACCOUNT}{pin}", "17", lane=2)
    assert value == pvv(keys[2], ACCOUNT, "1", clear) and pin == sealed_pin(clear, ACCOUNT)

    remark(s, "Lane 1 translates a terminal's block to the zone, with drawn fill, and verifies it by a cut frame.")
    remark(s, "Then it makes a MAC of a purchase.")
    s.line("T 37260")
    block = enciphered_pin(keys[1], "01", clear, ACCOUNT)
    answer = s.host(f"CA{tpk}{zpk}12{block}0147{ACCOUNT}")
    s.host(f"EC{zpk}{pvk}{answer[2:18]}47{ACCOUNT}1{value}", cut=40)
    mac = s.host(f"M600132008{zak}{len(MESSAGE):04X}{MESSAGE}")
    assert mac == mac_value(keys[3], "3", bytes(8), "2", MESSAGE.encode()).hex().upper()

    remark(s, "The numbers and the last entries; then lane 2 ends inside a frame.")
    s.console("Q", "OK 37260 38 0")
    s.console_ok("LOG")
    s.host("NC")
    s.line("L2 00063030")
    return s


def remark(lines, text):
    lines.line("# " + text)


def table(lines):
    """The day with its messages in the clear; the header and the lengths are left out."""
    print("| Line | Asked | Answered |\n|---|---|---|")
    held = ""
    for text, printed in [*lines.cases, ("", lines.run.end())]:
        word, _, rest = text.partition(" ")
        if word == "#":
            continue
        if word.startswith("L") and not printed:
            held = rest
            print(f"| `{word}` | the first {len(rest) // 2} bytes of a frame | |")
            continue
        if word.startswith("L"):
            rest, held = clear_text(held + rest), ""
        asked = f"`{rest}`" if rest else ""
        answers = " ".join(f"`{answer_text(answer)}`" for answer in printed)
        print(f"| {f'`{word}`' if word else 'end'} | {asked} | {answers} |")


def clear_text(digits):
    return bytes.fromhex(digits)[2 + len(HEADER):].decode()


def answer_text(answer):
    word, _, rest = answer.partition(" ")
    return clear_text(rest) if word in ("L1", "L2") and rest != "cut" else (rest if word == "C" else answer)


def main(what):
    check_known()
    lines = day()
    if what == "table":
        table(lines)
    else:
        print(end=dict(zip(("script", "output"), lines.whole()))[what].decode())


if __name__ == "__main__":
    main(*sys.argv[1:])
