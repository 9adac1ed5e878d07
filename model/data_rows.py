#!/usr/bin/env python3
"""Prints messages of the card, MAC and echo commands and their whole answers, computed by OpenSSL's DES.

    model/data_rows.py [cases] [GROUP..]    each message and its answer, without the header, as byte strings
    model/data_rows.py script GROUP         the group's messages as the lines of a script
    model/data_rows.py output GROUP         what that script prints

The groups are cvvs (CW, CY), macs (M6), compared (M8), echo (B2, NC) and counts (NO, RA) under the test set, and
equal_pairs under the set of that example; crates/test_acceptance/src/cards.rt, macs.rt and diagnostics.rt have their
cases. Each group is one script. The header is 0001 and no grant lives. The answers are those of hsm_model.py. It needs
the command openssl. Nothing of the crates is used.
"""
import sys

from hsm_model import Hsm, Messages, check_codes
from hsm_values import (
    AUTHENTICATION, CARD, EVEN_ONE, EVEN_TWO, ONE, SET_EQUAL, THREE, TWO, cvv, encipher, exclusive_or, mac_chain,
    mac_value, print_groups, sealed, selected)

TEXT = b"7654321 Now is the time for "
WHOLE = TEXT[:24]
HELD = b"\x19\x00;\xff %L\x19"


def counted(data):
    return f"{len(data):04X}" + data.decode("latin-1")


def in_digits(text):
    return f"{len(text):04X}{text}"


def cvvs():
    g = Messages()
    tagged, pair, even = sealed("402", "U", CARD), sealed("402", "P", CARD), sealed("402", "P", EVEN_TWO)
    long, short = "4123456789012345678", "412345678901"

    def cy(key, pan, expiry, service):
        g.add("CY" + key + cvv(CARD, pan, expiry, service) + pan + ";" + expiry + service)

    g.add("CW" + tagged + long + ";8701101")
    g.add("CW" + pair + short + ";2912201", trailer=b"\x19end")
    g.add("CW" + pair.lower() + long[:16] + ";0000999")
    g.refused("CW" + even + long + ";8701101", "10")
    g.refused("CW" + sealed("002", "U", CARD) + long + ";8701101", "10", trailer=b"\x19end")
    g.refused("CW" + pair + long + "9;8701101", "15")
    g.refused("CW" + pair + short[:11] + ";8701101", "15")
    g.refused("CW" + pair + long + "8701101", "15")
    cy(tagged, long, "8701", "101")
    cy(pair, short, "2912", "000")
    cy(pair, long[:13], "2912", "201")
    value = cvv(CARD, long, "8701", "101")
    g.refused("CY" + pair + str((int(value[0]) + 1) % 10) + value[1:] + long + ";8701101", "01", trailer=b"\x19end")
    g.refused("CY" + pair + value + long + ";8701102", "01")
    g.refused("CY" + even + value + long + ";8701101", "10")
    g.refused("CY" + pair + value[:2] + "A" + long + ";8701101", "15")
    g.refused("CY" + pair + value + long + "8;8701101", "15")
    # A CVV by its definition: its two blocks are the account number, expiry, service code and zeros.
    known, card = sealed("402", "U", TWO), long + ";8701101"
    blocks = bytes.fromhex("4123456789012345"), bytes.fromhex("6788701101000000")
    value = selected(encipher(TWO, exclusive_or(encipher(ONE, blocks[0]), blocks[1])), 3)
    g.answered("CW" + known + card, "CX00" + value)
    g.answered("CY" + known + value + card, "CZ00")
    g.answered("CY" + known + str((int(value[0]) + 1) % 10) + value[1:] + card, "CZ01")
    return g


def macs():
    g = Messages()
    zak, tak, single = sealed("008", "U", AUTHENTICATION), sealed("003", "U", AUTHENTICATION), sealed("008", "Z", ONE)
    triple = sealed("003", "T", THREE)
    # A whole message: mode 0, input, size, algorithm, padding, type.
    for fields, key, data in [
            ("00011008", single, TEXT), ("00111008", "Z" + single.lower(), TEXT), ("00110008", single, WHOLE),
            ("00111008", single, WHOLE), ("00112008", single, WHOLE), ("00113008", single, WHOLE),
            ("00011008", zak, TEXT), ("00112003", triple, TEXT), ("00133003", tak, TEXT),
            ("00131008", zak, TEXT), ("00032008", zak, TEXT), ("02110008", single, HELD)]:
        g.add("M6" + fields + key + counted(data))
    g.add("M601131008" + zak + in_digits(TEXT.hex()))
    g.add("M601012008" + zak + in_digits("0F"), trailer=b"\x19end")
    g.add("M600012008" + zak + counted(HELD[:1]), trailer=HELD[:1] + b"end")
    g.add("M600010008" + zak + counted(TEXT[:8] * 25))
    # In parts: the chaining value of one part is given with the next.
    for fields, algorithm, digits in ("0011", "1", str.upper), ("0132", "3", str.lower):
        first = mac_chain(AUTHENTICATION, algorithm, bytes(8), TEXT[:16])
        second = mac_chain(AUTHENTICATION, algorithm, first, TEXT[16:24])
        g.add(f"M61{fields}008" + zak + counted(TEXT[:16]))
        g.add(f"M62{fields}008" + zak + digits(first.hex()) + counted(TEXT[16:24]))
        g.add(f"M63{fields}008" + zak + digits(second.hex()) + counted(TEXT[24:]))
    # Fields.
    whole = zak + counted(TEXT)
    for text, code in [
            ("", "15"), ("40011008", "15"), ("00211008", "15"), ("00014008", "15"), ("00011002", "04"),
            ("0001100", "04")]:
        g.refused("M6" + text + whole * bool(text), code)
    g.refused("M600011008" + zak + counted(TEXT)[:-1], "15")
    g.refused("M601011008" + zak + in_digits("123"), "15")
    g.refused("M601011008" + zak + in_digits("12 4"), "15")
    g.refused("M620011008" + zak + counted(WHOLE), "15")
    g.refused("M600011008" + zak + counted(TEXT) + "0" * 16, "15")
    # Keys, before the data.
    g.refused("M600030008" + single + counted(TEXT), "27")
    g.refused("M600031003" + triple + counted(TEXT), "27", trailer=b"\x19end")
    g.refused("M600031008" + sealed("008", "Z", EVEN_ONE) + counted(b""), "27")
    g.refused("M600031008" + sealed("008", "U", EVEN_TWO) + counted(b""), "10")
    # No data; data that are no blocks; the length in front of what is no whole message.
    g.refused("M600011008" + zak + counted(b""), "80", trailer=b"\x19end")
    g.refused("M600010008" + zak + counted(TEXT), "80")
    g.refused("M610011008" + zak + counted(TEXT), "80")
    g.refused("M620011008" + zak + "0" * 16 + counted(TEXT), "80")
    g.refused("M630010008" + zak + "0" * 16 + counted(TEXT), "80")
    g.refused("M620013008" + zak + "0" * 16 + counted(WHOLE), "80")
    g.refused("M630013008" + zak + "0" * 16 + counted(WHOLE), "80")
    g.refused("M611010008" + zak + in_digits("00" * 7), "80")
    return g


def compared():
    g = Messages()
    zak, single = sealed("008", "U", AUTHENTICATION), sealed("003", "Z", ONE)
    value = mac_value(AUTHENTICATION, "3", bytes(8), "2", TEXT).hex()
    first = mac_chain(AUTHENTICATION, "3", bytes(8), TEXT[:24])
    g.add("M800132008" + zak + counted(TEXT) + value)
    g.add("M800032008" + zak + counted(TEXT) + value[:8].upper(), trailer=b"\x19end")
    g.add("M801013003" + single + in_digits(TEXT.hex()) + mac_value(ONE, "1", bytes(8), "3", TEXT).hex()[:8])
    g.add("M810132008" + zak + counted(TEXT[:16]))
    g.add("M820132008" + zak + mac_chain(AUTHENTICATION, "3", bytes(8), TEXT[:16]).hex() + counted(TEXT[16:24]))
    g.add("M830132008" + zak + first.hex() + counted(TEXT[24:]) + value.upper())
    wrong = value[:15] + ("0" if value[15] == "1" else "1")
    g.add("M800032008" + zak + counted(TEXT) + wrong[:8])
    g.refused("M800132008" + zak + counted(TEXT) + wrong, "01", trailer=b"\x19end")
    g.refused("M830132008" + zak + first.hex() + counted(TEXT[24:]) + wrong, "01")
    g.refused("M800032008" + zak + counted(TEXT) + wrong[8:], "01")
    g.refused("M800132008" + zak + counted(TEXT) + value[:8], "15")
    g.refused("M800032008" + zak + counted(TEXT) + value, "15")
    g.refused("M800132001" + zak + counted(TEXT) + value, "04")
    g.refused("M800131003" + single + counted(TEXT) + value, "27")
    g.refused("M800132008" + sealed("008", "U", EVEN_TWO) + counted(TEXT) + value, "10")
    g.refused("M800130008" + zak + counted(TEXT) + value, "80")
    return g


def echo():
    g = Messages()
    longest = b"\x19" + b"A" * 32
    g.add("B2" + counted(b"A\x19B"), trailer=longest)
    g.add("B2" + counted(b"\x19end"))
    g.add("B2000a" + HELD.decode("latin-1") + "\x80\"")
    g.add("B20000")
    g.refused("B2" + counted(b"A\x19B") + longest.decode() + "A", "15")
    g.refused("B2", "15")
    g.refused("B2000", "15")
    g.refused("B20003AB", "15")
    g.refused("B20001AB", "15", trailer=b"\x19end")
    g.add("NC")
    g.add("NC", trailer=longest)
    g.refused("NC0", "15")
    return g


def counts():
    """No grant can live without a console."""
    g = Messages()
    g.add("NO00")
    g.add("RA", trailer=b"\x19end")
    g.add("NO00", trailer=b"\x19")
    g.refused("NO", "15")
    g.refused("NO01", "15")
    g.refused("RA0", "15", trailer=b"\x19end")
    return g


def equal_pairs():
    z = "85E813540F0AB405"
    g = Messages(SET_EQUAL)
    g.add("M600011008" + z + counted(TEXT))
    first = mac_chain(ONE, "1", bytes(8), TEXT[:16])
    g.add("M610011008" + z + counted(TEXT[:16]))
    g.add("M620011008" + z + first.hex().upper() + counted(TEXT[16:24]))
    g.add("M630011008" + z + mac_chain(ONE, "1", first, TEXT[16:24]).hex().upper() + counted(TEXT[24:]))
    g.refused("M800011008" + z + counted(TEXT) + "F1D30F69", "01")
    g.refused("M600011008" + z + "0000", "80")
    g.refused("M630013008" + z + "0" * 16 + counted(TEXT[:8]), "80")
    g.add("NC")
    assert [answer for _, answer in g.cases[::3]] == [b"M700F1D30F68", b"M700F1D30F68", b"M780"]
    assert g.cases[-1][1] == b"ND000000000000000000" + b"0001-LAB1"
    return g


GROUPS = {"cvvs": cvvs, "macs": macs, "compared": compared, "echo": echo, "counts": counts, "equal_pairs": equal_pairs}
CODES = {
    "CW": "00 10 15", "CY": "00 01 10 15", "M6": "00 04 10 15 27 80", "M8": "00 01 04 10 15 27 80", "B2": "00 15",
    "NC": "00 15", "NO": "00 15", "RA": "00 15"}


def check_worked():
    """Answers that are known from elsewhere or by their definition, for the second form itself."""
    hsm = Hsm()
    trailer = b"\x19" + b"A" * 32
    assert hsm.host(b"B20003A\x19B" + trailer) == b"B300A\x19B" + trailer
    assert hsm.host(b"B20003A\x19B" + trailer + b"A") == b"B315"
    assert hsm.host(b"ZZ") == b"Z[68"
    assert hsm.host(b"NO00") == b"NP000002"


if __name__ == "__main__":
    check_worked()
    check_codes(GROUPS, CODES)
    print_groups(GROUPS, sys.argv[1:])
