#!/usr/bin/env python3
"""Prints messages of A0, A6, A8 and BU and their whole answers, computed by OpenSSL's DES and ChaCha20.

    model/key_rows.py [cases] [GROUP..]     each message and its answer, without the header, as byte strings
    model/key_rows.py script GROUP          the group's messages as the lines of a script
    model/key_rows.py output GROUP          what that script prints under the test set

The groups are a0, a6, a8, bu, trailers and draws; crates/test_acceptance/src/keys.rt has their cases. Each group is one
script, so that its draws begin at place 0. The header is 0001, the seed is 32 zero bytes and no grant lives. The codes
of refusals stand beside their messages here; all digits are computed. It needs the command openssl. Nothing of the
crates is used.
"""
import sys

from hsm_values import (
    EVEN_ONE, EVEN_TWO, FIRST_AGAIN, LATER_TWICE, ONE, PARTS, THREE, TWICE, TWO, check_value, drawn, opens_even,
    print_groups, sealed, wrapped)


class Group:
    """Messages in the order of their entries, each with its answer."""

    def __init__(self):
        self.cases = []
        self.place = 0

    def add(self, message, answer, *, trailer=b"", repeated=None):
        text = message.encode("latin-1") + trailer
        self.cases.append((text, answer.encode("latin-1") + (trailer if repeated is None else repeated)))

    def refused(self, message, code):
        self.add(message, message[0] + chr(ord(message[1]) + 1) + code)

    def drawn(self, message, code, scheme, kek=None, other=None, trailer=b""):
        """A0 that draws: the key under the LMK, under the wrapping key in mode 1, the check value."""
        key = drawn(self.place, PARTS[scheme])
        self.place += 2 * PARTS[scheme]
        under = "" if kek is None else wrapped(kek, other, key)
        self.add(message, "A100" + sealed(code, scheme, key) + under + check_value(key), trailer=trailer)


def a0():
    zmk, tmk = sealed("000", "U", TWO), sealed("002", "T", THREE)
    even, single = sealed("000", "U", EVEN_TWO), sealed("002", "Z", ONE)
    g = Group()
    g.drawn("A00001U", "001", "U")
    g.drawn("A00001U", "001", "U")
    g.drawn("A0000BT", "00B", "T")
    g.drawn("A00001Z", "001", "Z")
    g.drawn("A01001U;0" + zmk + "X", "001", "U", TWO, "X")
    g.drawn("A01001U" + zmk + "U", "001", "U", TWO, "U")
    g.drawn("A01003T;1" + tmk + "Y", "003", "T", THREE, "Y")
    g.drawn("A01008Z;0" + zmk + "Z", "008", "Z", TWO, "Z")
    g.refused("A0", "15")
    g.refused("A02001U", "15")
    g.refused("A00", "04")
    g.refused("A00004U", "04")
    g.refused("A0000aU", "04")
    g.refused("A00001", "26")
    g.refused("A00001X", "26")
    g.refused("A00001u", "26")
    g.refused("A00001U;0", "15")
    g.refused("A01001U;2" + zmk + "X", "15")
    g.refused("A01001U;0X" + zmk[1:] + "X", "15")
    g.refused("A01001U;0" + zmk[:-1], "15")
    g.refused("A01001U;0" + zmk, "26")
    g.refused("A01001U;0" + zmk + "P", "26")
    g.refused("A01001U;0" + zmk + "X0", "15")
    g.refused("A01001U;0" + even + "T", "26")
    g.refused("A01000Z;0" + zmk + "X", "26")
    g.refused("A00000Z", "27")
    g.refused("A01402T;0" + even + "Y", "27")
    g.refused("A01001U;1" + single + "X", "27")
    g.refused("A01009U;0" + even + "X", "10")
    g.refused("A01009U;0" + zmk + "X", "29")
    g.refused("A01000U;0" + zmk + "X", "29")
    g.refused("A00000U", "17")
    g.refused("A01402U;0" + zmk + "X", "17")
    g.drawn("A00402U", "402", "U")
    return g


def a6():
    zmk, long_zmk = sealed("000", "U", TWO), sealed("000", "T", THREE)
    even, given = sealed("000", "U", EVEN_TWO), wrapped(TWO, "X", TWO)
    g = Group()

    def imported(code, zmk, text, scheme, key):
        g.add("A6" + code + zmk + text + scheme, "A700" + sealed(code, scheme, key) + check_value(key))

    g.refused("A6001" + zmk + wrapped(TWO, "X", TWICE) + "U", "75")
    imported("001", zmk, given, "U", TWO)
    imported("001", zmk, wrapped(TWO, "U", TWO), "U", TWO)
    imported("003", zmk, wrapped(TWO, "Z", ONE), "Z", ONE)
    imported("003", zmk, "Z" + wrapped(TWO, "Z", ONE).lower(), "Z", ONE)
    imported("008", long_zmk, wrapped(THREE, "Y", THREE), "T", THREE)
    imported("002", long_zmk, wrapped(THREE, "T", FIRST_AGAIN), "T", FIRST_AGAIN)
    g.refused("A6", "04")
    g.refused("A6004" + zmk + given + "U", "04")
    g.refused("A6001", "15")
    g.refused("A6001X" + zmk[1:] + given + "U", "15")
    g.refused("A6001" + zmk + given[:-1], "15")
    g.refused("A6001" + zmk + given, "26")
    g.refused("A6001" + zmk + given + "X", "26")
    g.refused("A6001" + zmk + given[1:] + "U", "26")
    g.refused("A6001" + zmk + given + "U;0", "15")
    g.refused("A6001" + sealed("000", "Z", EVEN_ONE) + given + "U", "27")
    g.refused("A6001" + even + given + "T", "10")
    g.refused("A6402" + zmk + given + "Z", "26")
    g.refused("A6402" + zmk + wrapped(TWO, "Z", EVEN_ONE) + "U", "26")
    g.refused("A6402" + zmk + wrapped(TWO, "Z", EVEN_ONE) + "Z", "27")
    g.refused("A6009" + zmk + wrapped(TWO, "X", EVEN_TWO) + "U", "11")
    g.refused("A6001" + long_zmk + wrapped(THREE, "Y", LATER_TWICE) + "T", "75")
    g.refused("A6009" + zmk + wrapped(TWO, "X", TWICE) + "U", "75")
    g.refused("A6009" + zmk + given + "U", "17")
    g.refused("A6402" + zmk + given + "U", "17")
    return g


def a8():
    zmk, tmk = sealed("000", "U", TWO), sealed("002", "U", TWO)
    even, zone = sealed("000", "U", EVEN_TWO), sealed("001", "U", TWO)
    g = Group()

    def exported(code, mark, wrapping, text, kek, scheme, key):
        g.add("A8" + code + mark + wrapping + text + scheme, "A900" + wrapped(kek, scheme, key) + check_value(key))

    g.refused("A8402" + zmk + sealed("402", "U", TWO) + "X", "17")
    g.refused("A8009" + zmk + sealed("009", "U", TWO) + "X", "29")
    exported("001", "", zmk, zone, TWO, "X", TWO)
    exported("001", ";0", zmk, zone, TWO, "U", TWO)
    exported("003", ";1", tmk, sealed("003", "Z", ONE), TWO, "Z", ONE)
    exported("008", ";0", sealed("000", "T", THREE), sealed("008", "T", THREE), THREE, "Y", THREE)
    exported("008", "", zmk, sealed("008", "T", FIRST_AGAIN), TWO, "T", FIRST_AGAIN)
    g.refused("A8", "04")
    g.refused("A8004" + zmk + zone + "X", "04")
    g.refused("A8001;", "15")
    g.refused("A8001;2" + zmk + zone + "X", "15")
    g.refused("A8001" + zmk + "X" + zone[1:] + "X", "15")
    g.refused("A8001" + zmk + zone, "26")
    g.refused("A8001" + zmk + zone + "P", "26")
    g.refused("A8002" + zmk + sealed("002", "P", TWO) + "X", "26")
    g.refused("A8001" + zmk + zone + "X;", "15")
    g.refused("A8001;1" + sealed("002", "Z", ONE) + zone + "X", "27")
    g.refused("A8001" + even + zone + "T", "10")
    # Texts of keys of other types.
    assert opens_even("002", zmk) and opens_even("003", zone)
    g.refused("A8001;1" + zmk + zone + "X", "10")
    g.refused("A8003" + zmk + zone + "X", "11")
    g.refused("A8001" + zmk + zone + "Y", "26")
    g.refused("A8402" + zmk + sealed("402", "Z", EVEN_ONE) + "X", "26")
    g.refused("A8402" + zmk + sealed("402", "Z", EVEN_ONE) + "Z", "27")
    g.refused("A8009" + zmk + sealed("009", "U", EVEN_TWO) + "X", "11")
    g.refused("A8009" + zmk + sealed("009", "U", TWICE) + "X", "29")
    g.refused("A8402" + zmk + sealed("402", "U", TWICE) + "X", "75")
    g.refused("A8001" + zmk + sealed("001", "U", TWICE) + "X", "75")
    return g


def bu():
    zone, pair = sealed("001", "Z", ONE), sealed("002", "P", TWO)
    g = Group()

    def checked(message, key):
        g.add("BU" + message, "BV00" + check_value(key))

    checked("010" + zone, ONE)
    checked("010Z" + zone.lower(), ONE)
    checked("020" + sealed("002", "Z", ONE), ONE)
    checked("021" + pair, TWO)
    checked("001" + sealed("000", "U", TWO), TWO)
    checked("031" + sealed("003", "U", TWICE), TWICE)
    checked("082" + sealed("008", "T", THREE), THREE)
    checked("091" + sealed("009", "U", TWO), TWO)
    checked("0A0" + sealed("00A", "Z", ONE), ONE)
    checked("0B2" + sealed("00B", "T", THREE), THREE)
    checked("FF1" + sealed("402", "U", TWO) + ";402", TWO)
    checked("FF1" + sealed("402", "P", TWO) + ";402", TWO)
    checked("FF0" + zone + ";001", ONE)
    g.refused("BU", "04")
    g.refused("BU040" + zone, "04")
    g.refused("BU0a0" + zone, "04")
    g.refused("BU01", "05")
    g.refused("BU013", "05")
    g.refused("BU010", "15")
    g.refused("BU010" + zone[:-1], "15")
    g.refused("BU010" + zone[:-1] + "G", "15")
    g.refused("BU010" + zone + "0", "15")
    g.refused("BU010" + pair, "15")
    g.refused("BU011" + zone, "15")
    g.refused("BU012" + pair + zone, "15")
    g.refused("BU011u" + pair, "15")
    g.refused("BU011X" + pair, "15")
    g.refused("BUFF0" + zone, "15")
    g.refused("BUFF0" + zone + ";", "04")
    g.refused("BUFF0" + zone + ";004", "04")
    g.refused("BU011" + sealed("001", "P", EVEN_TWO), "26")
    g.refused("BUFF1" + pair + ";00B", "26")
    g.refused("BU000" + sealed("000", "Z", ONE), "27")
    g.refused("BU010" + sealed("001", "U", TWO), "27")
    g.refused("BU010" + sealed("001", "U", EVEN_TWO), "27")
    g.refused("BU011" + sealed("001", "T", THREE), "27")
    g.refused("BUFF0" + sealed("402", "Z", ONE) + ";402", "27")
    g.refused("BU010" + sealed("001", "Z", EVEN_ONE), "10")
    g.refused("BU021" + sealed("002", "P", EVEN_TWO), "10")
    # The text of a key of another type, and of another variant of its LMK pair.
    for code, other in ("001", "003"), ("002", "402"):
        text = sealed(code, "U", TWO)
        assert opens_even(other, text) and not opens_even(code, text)
        g.refused("BUFF1" + text + ";" + other, "10")
    return g


def trailers():
    zone, zmk = sealed("001", "Z", ONE), sealed("000", "U", TWO)
    good, value = "BU010" + zone, "BV00" + check_value(ONE)
    longest = b"\x19" + b"A" * 32
    g = Group()
    g.drawn("A01001U;0" + zmk + "X", "001", "U", TWO, "X", trailer=b"\x19end")
    g.add(good, value, trailer=b"\x19")
    g.add(good, value, trailer=b"\x19\x19\x00\x7F\x80\xFFend")
    g.add(good, value, trailer=longest)
    g.add(good, "BV15", trailer=longest + b"A", repeated=b"")
    g.add(good, "BV15", trailer=b"\x1A", repeated=b"")
    g.add(good, "BV15", trailer=b" \x19", repeated=b"")
    g.add("BU013" + zone, "BV05", trailer=b"\x19end", repeated=b"")
    g.add("BU010", "BV15", trailer=b"\x19end", repeated=b"")
    g.add("BU010" + sealed("001", "U", TWO), "BV27", trailer=b"\x19end")
    g.add("BU010" + sealed("001", "Z", EVEN_ONE), "BV10", trailer=b"\x19end")
    g.add("A00000U", "A117", trailer=b"\x19end")
    g.add("A01009U;0" + zmk + "X", "A129", trailer=b"\x19end")
    g.add("A6001" + zmk + wrapped(TWO, "X", TWICE) + "U", "A775", trailer=b"\x19end")
    g.add("A8001" + zmk + sealed("001", "U", TWO) + "X", "A900" + wrapped(TWO, "X", TWO) + check_value(TWO),
          trailer=longest)
    g.add("A8001" + zmk + sealed("001", "U", EVEN_TWO) + "X", "A911", trailer=b"\x19end")
    g.add("ZZ", "Z[68", trailer=b"\x19end", repeated=b"")
    return g


def draws():
    zmk = sealed("000", "U", TWO)
    g = Group()
    g.refused("A00000Z", "27")
    g.refused("A00000U", "17")
    g.refused("A01009U;0" + zmk + "X", "29")
    g.refused("A00001X", "26")
    g.refused("A00001U0", "15")
    g.refused("A01402U;0" + zmk + "X", "17")
    g.drawn("A00001U", "001", "U")
    g.add("BU001" + zmk, "BV00" + check_value(TWO))
    g.add("A6001" + zmk + wrapped(TWO, "X", TWO) + "U", "A700" + sealed("001", "U", TWO) + check_value(TWO))
    g.add("A8001" + zmk + sealed("001", "U", TWO) + "X", "A900" + wrapped(TWO, "X", TWO) + check_value(TWO))
    g.refused("A00000U", "17")
    g.drawn("A00001U", "001", "U")
    g.drawn("A0000AZ", "00A", "Z")
    g.drawn("A00009T", "009", "T")
    g.drawn("A00001U", "001", "U")
    return g


GROUPS = {"a0": a0, "a6": a6, "a8": a8, "bu": bu, "trailers": trailers, "draws": draws}


if __name__ == "__main__":
    print_groups(GROUPS, sys.argv[1:])
