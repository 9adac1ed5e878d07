#!/usr/bin/env python3
"""Prints messages of the PIN commands and their whole answers, computed by OpenSSL's DES and ChaCha20.

    model/pin_rows.py [cases] [GROUP..]     each message and its answer, without the header, as byte strings
    model/pin_rows.py script GROUP          the group's messages as the lines of a script
    model/pin_rows.py output GROUP          what that script prints

The groups are known (CA, DE, DG, DC), whose answers follow from their definitions by hand, translations (CA, CC), pins
(JA, BA, NG), offsets (DE, DA, EA) and pvvs (DG, DC, EC) under the test set, equal_pairs and equal_pairs_but_14 under
the sets of these examples; crates/test_acceptance/src/pins.rt has their cases. Each group is one script, so that its
draws begin at place 0. The header is 0001, the seed is 32 zero bytes and no grant lives. The answers are those of
hsm_model.py. It needs the command openssl. Nothing of the crates is used.
"""
import sys

from hsm_model import Hsm, Messages, check_codes
from hsm_values import (
    EVEN_TWO, ONE, SET_EQUAL, SET_EQUAL_BUT_14, TERMINAL, THREE, TWO, VERIFICATION, ZONE, encipher, enciphered_pin,
    natural_pin, offset, print_groups, pvv, sealed, sealed_pin, selected)

ACCOUNT, OTHER = "123456789012", "400000123456"
TABLE, SEVEN_DIGITS, DATA = "0123456789012345", "0123456012345601", "12345678901N"
TPK, ZPK, PVK = sealed("002", "U", TERMINAL), sealed("001", "U", ZONE), sealed("002", "U", VERIFICATION)
PAIR, PIN = sealed("002", "P", VERIFICATION), sealed_pin("1234", ACCOUNT)
EVEN_TPK, EVEN_ZPK = sealed("002", "U", EVEN_TWO), sealed("001", "U", EVEN_TWO)


def block(key, code, pin, account=ACCOUNT, fill="ABCDEFABCD"):
    return enciphered_pin(key, code, pin, account, fill)


def raw(key, clear):
    """A block that need not hold a PIN."""
    return encipher(key, bytes.fromhex(clear)).hex().upper()


def known():
    """Answers that are known from elsewhere or by their definition. The fill is AA, of the words 0 and 1."""
    g = Messages()
    one, two = sealed("002", "Z", ONE), sealed("002", "U", TWO)
    text = "12" + raw(ONE, "0C1226622EE882ED") + "0147" + ACCOUNT
    g.answered("CA" + one + sealed("001", "Z", ONE) + text, "CB0012" + raw(ONE, "3C1226622EE882B8") + "47")
    g.answered("CA" + one + sealed("001", "Z", ONE) + "11" + text[2:], "CB24")
    start = "DE" + one + PIN + "04" + ACCOUNT
    g.answered(start + SEVEN_DIGITS + DATA, "DF25")
    digits = encipher(ONE, bytes.fromhex("1234567890189012")).hex()[:4]
    natural = ["0123456701234567"[int(digit, 16)] for digit in digits]
    made = "".join(str((int(p) - int(n)) % 10) for p, n in zip("1234", natural))
    g.answered(start + "0123456701234567" + DATA, "DF00" + made + "FFFFFFFF")
    g.answered("DG" + two + PIN + ACCOUNT + "1", "DH00" + selected(encipher(TWO, bytes.fromhex("2345678901211234")), 4))
    value = selected(encipher(TWO, bytes.fromhex("2345678901214621")), 4)
    g.answered("DG" + two + sealed_pin("4621", ACCOUNT) + ACCOUNT + "1", "DH00" + value)
    start = "DC" + one + two + block(ONE, "01", "4621") + "01" + ACCOUNT + "1"
    g.answered(start + value, "DD00")
    g.answered(start + value[:3] + str((int(value[3]) + 1) % 10), "DD01")
    return g


def translations():
    g = Messages()

    def ca(pin, source, target, most="12", account=ACCOUNT, keys=TPK + ZPK, key=TERMINAL):
        g.add("CA" + keys + most + block(key, source, pin, account) + source + target + account)

    # Each pair of formats. The longest PIN leaves two nibbles of fill, the shortest one ten.
    for source, pin in ("01", "1234"), ("03", "12345"), ("05", "987654321012"), ("47", "0000"):
        for target in "01", "03", "05", "47":
            ca(pin, source, target)
    ca("1234", "01", "01", most="04")
    ca("123456789012", "01", "47", account=OTHER)
    ca("55555", "47", "01", most="05", keys=sealed("002", "Z", ONE) + sealed("001", "T", THREE), key=ONE)
    ca("1234567", "05", "03", keys="Z" + sealed("002", "Z", ONE).lower() + sealed("001", "Z", ONE), key=ONE)
    # CC reads the block under a ZPK.
    g.add("CC" + ZPK + sealed("001", "Z", ONE) + "06" + block(ZONE, "01", "123456") + "0101" + ACCOUNT)
    g.add("CC" + ZPK + ZPK + "12" + block(ZONE, "01", "123456") + "0147" + ACCOUNT)
    g.add("CC" + ZPK + ZPK + "12" + block(ZONE, "47", "123456") + "4705" + ACCOUNT, trailer=b"\x19end")
    tail = "0101" + ACCOUNT
    good = block(TERMINAL, "01", "1234")
    # Fields.
    g.refused("CA", "15")
    g.refused("CA" + TPK + ZPK + "03" + good + tail, "15")
    g.refused("CA" + TPK + ZPK + "13" + good + tail, "15")
    g.refused("CA" + TPK + ZPK + "12" + good[:-1] + "G" + tail, "15")
    g.refused("CA" + TPK + ZPK + "12" + good + "0201" + ACCOUNT, "23")
    g.refused("CA" + TPK + ZPK + "12" + good + "0104" + ACCOUNT, "23")
    g.refused("CA" + TPK + ZPK + "12" + good + tail + "0", "15")
    # Keys: the first one is looked at before the second.
    g.refused("CA" + EVEN_TPK + EVEN_ZPK + "12" + good + tail, "10")
    g.refused("CA" + TPK + EVEN_ZPK + "04" + block(TERMINAL, "01", "12345") + tail, "11")
    g.refused("CC" + TPK + ZPK + "12" + good + tail, "10")  # a TPK's text
    g.refused("CC" + ZPK + EVEN_ZPK + "12" + good + tail, "11", trailer=b"\x19end")
    # Blocks: control, length and body; then the length that is allowed. A refused message draws nothing.
    for clear, source, code in [
            ("041226CBA9876FED", "47", "20"), ("0412340000000000", "05", "20"),
            ("0312" + "6" * 12, "01", "24"), ("3D12" + "6" * 12, "47", "24"),
            ("123FFFFFFFFFFFFF", "03", "24"), ("1234567890123456", "03", "24"), ("1234AFFFFFFFFFFF", "03", "20"),
            ("0412A6CBA9876FED", "01", "20"), ("3412263456789012", "47", "20"),
            ("34122A" + "C" * 10, "47", "20")]:
        g.refused("CA" + TPK + ZPK + "12" + raw(TERMINAL, clear) + source + "47" + ACCOUNT, code)
    g.refused("CA" + TPK + ZPK + "12" + good + "0101" + OTHER, "20")
    g.refused("CA" + TPK + ZPK + "11" + block(TERMINAL, "01", "123456789012") + "0147" + ACCOUNT, "24")
    g.refused("CC" + ZPK + ZPK + "04" + block(ZONE, "47", "12345") + "4747" + ACCOUNT, "24", trailer=b"\x19end")
    g.refused("CC" + ZPK + ZPK + "04" + good + "4747" + ACCOUNT, "20")
    g.refused("CC" + ZPK + ZPK + "04" + good + "4700" + ACCOUNT, "23")
    g.refused("CC" + ZPK + ZPK + "4", "15")
    ca("1234", "01", "47")
    return g


def pins():
    g = Messages()
    g.add("JA" + ACCOUNT + "04")
    g.add("JA" + OTHER + "12")
    g.refused("JA" + ACCOUNT + "03", "15")
    g.refused("JA" + ACCOUNT + "13", "15")
    g.add("JA" + ACCOUNT + "06", trailer=b"\x19end")
    pin = sealed_pin("4621", ACCOUNT)
    for digits in "1234FFFFFFFF", "123456789012", "123FFFFFFFFF", "FFFFFFFFFFFF":
        g.refused("BA" + digits + ACCOUNT, "17")
    g.refused("BA1234FFFFFFFF" + ACCOUNT, "17", trailer=b"\x19end")
    g.refused("BA1234F5FFFFFF" + ACCOUNT, "15")
    g.refused("NG" + ACCOUNT + pin, "17")
    g.refused("NG" + OTHER + pin.lower(), "17", trailer=b"\x19end")
    g.refused("NG" + ACCOUNT + pin[:-1], "15")
    return g


def offsets():
    g = Messages()
    add_made_offsets(g)
    add_terminal_offsets(g)
    add_zone_offsets(g)
    return g


def given(digits, check, account=ACCOUNT, table=TABLE, data=DATA, key=VERIFICATION):
    return offset(natural_pin(key, table, data, account), digits, int(check))


def add_made_offsets(g):
    def de(digits, check, account=ACCOUNT, table=TABLE, data=DATA, key=PVK):
        g.add("DE" + key + sealed_pin(digits, account) + check + account + table + data)

    de("1234", "04", table="0123456701234567")
    de("123456789012", "12")
    de("123456789012", "04", account=OTHER, table="8351296477461538", data="N4000001234A")
    de("98765", "05", data="abcdefN12345", key=sealed("002", "Z", ONE))
    de("0000", "04", data="1N2345678901", key=sealed("002", "T", THREE))
    # Eight different digits, two of them four times. Seven digits; a digit five times.
    de("1234", "04", table="0000111122345677")
    g.refused("DE" + PVK + PIN + "04" + ACCOUNT + SEVEN_DIGITS + DATA, "25")
    g.refused("DE" + PVK + PIN + "04" + ACCOUNT + "0000012345678912" + DATA, "25", trailer=b"\x19end")
    # The table is looked at before the PIN, and the PIN before the check length.
    g.refused("DE" + PVK + PIN + "04" + OTHER + "0123456789000000" + DATA, "25")
    g.refused("DE" + PVK + PIN + "12" + OTHER + TABLE + DATA, "14")
    g.refused("DE" + PVK + PIN + "05" + ACCOUNT + TABLE + DATA, "24")
    g.refused("DE" + EVEN_TPK + PIN + "04" + ACCOUNT + SEVEN_DIGITS + DATA, "10")
    g.refused("DE", "15")
    g.refused("DE" + PVK + PIN + "03" + ACCOUNT + TABLE + DATA, "15")
    g.refused("DE" + PVK + PIN + "04" + ACCOUNT + TABLE + "123456789012", "15")


def add_terminal_offsets(g):
    def da(digits, source, most, check, account=ACCOUNT, table=TABLE, data=DATA):
        g.add("DA" + TPK + PVK + most + block(TERMINAL, source, digits, account) + source + check + account + table
              + data + given(digits, check, account, table, data))

    # DA: the PIN as long as the greatest length and as the check length; longer than the check length.
    da("1234", "01", "04", "04")
    da("123456789012", "03", "12", "12", account=OTHER)
    da("98765", "05", "12", "04", table="8351296477461538", data="N4000001234A")
    da("000000", "47", "06", "05", data="abcdefN12345")
    good, tail = block(TERMINAL, "01", "12345"), ACCOUNT + TABLE + DATA
    four, five = given("12345", "04"), given("12345", "05")
    start = "DA" + TPK + PVK
    g.refused(start + "12" + good + "0104" + tail + five, "15")
    g.refused(start + "12" + good + "0105" + tail + four, "15")
    g.refused(start + "12" + good + "0104" + tail + "123AFFFFFFFF", "15")
    g.refused(start + "12" + good + "0104" + tail + four.lower(), "15")
    g.refused(start + "12" + good + "0003" + tail + four, "23")
    g.refused("DA" + EVEN_TPK + EVEN_TPK + "12" + good + "0104" + tail + four, "10")
    g.refused("DA" + TPK + EVEN_TPK + "12" + good + "0104" + ACCOUNT + SEVEN_DIGITS + DATA + four, "11")
    g.refused(start + "12" + raw(TERMINAL, "0" * 16) + "0104" + ACCOUNT + SEVEN_DIGITS + DATA + four, "25")
    g.refused(start + "12" + good + "4704" + tail + four, "20")
    g.refused(start + "12" + raw(TERMINAL, "0312" + "6" * 12) + "0104" + tail + four, "24")
    g.refused(start + "04" + good + "0104" + tail + four, "24")
    g.refused(start + "12" + good + "0106" + tail + "123456FFFFFF", "24")
    g.refused(start + "12" + block(TERMINAL, "01", "12344") + "0105" + tail + five, "01", trailer=b"\x19end")
    g.add(start + "12" + block(TERMINAL, "01", "12344") + "0104" + tail + four, trailer=b"\x19end")
    g.refused(start + "12" + good + "0104" + tail + str((int(four[0]) + 1) % 10) + four[1:], "01")


def add_zone_offsets(g):
    """EA reads the block under a ZPK."""
    tail, four, five = ACCOUNT + TABLE + DATA, given("12345", "04"), given("12345", "05")
    zone = block(ZONE, "47", "12345")
    g.add("EA" + ZPK + PVK + "05" + zone + "4705" + tail + five)
    g.refused("EA" + EVEN_ZPK + EVEN_TPK + "05" + zone + "4705" + tail + five, "10")
    g.refused("EA" + ZPK + EVEN_TPK + "05" + zone + "4705" + tail + five, "11")
    g.refused("EA" + ZPK + PVK + "05" + zone + "4705" + ACCOUNT + SEVEN_DIGITS + DATA + five, "25")
    g.refused("EA" + ZPK + PVK + "05" + zone + "0105" + tail + five, "20")
    g.refused("EA" + ZPK + PVK + "04" + zone + "4704" + tail + four, "24")
    g.refused("EA" + ZPK + PVK + "05" + zone + "4805" + tail + five, "23")
    g.refused("EA" + ZPK + PVK + "05" + zone + "4705" + tail + four, "15")
    g.refused("EA" + ZPK + PVK + "05" + zone + "4704" + tail + "0000FFFFFFFF", "01")


def pvvs():
    g = Messages()
    add_made_pvvs(g)
    add_compared_pvvs(g)
    return g


def add_made_pvvs(g):
    def dg(pair, digits, account, index, trailer=b""):
        g.add("DG" + pair + sealed_pin(digits, account) + account + index, trailer=trailer)

    dg(PAIR, "1234", ACCOUNT, "1")
    dg(PVK, "123456789012", OTHER, "0", trailer=b"\x19end")
    dg(sealed("002", "P", TWO).lower(), "98765", OTHER, "9")
    g.refused("DG" + PAIR + PIN + OTHER + "1", "14")
    g.refused("DG" + PAIR + "0" * 16 + ACCOUNT + "1", "14", trailer=b"\x19end")
    g.refused("DG" + EVEN_TPK + "0" * 16 + ACCOUNT + "1", "10")
    g.refused("DG", "15")
    g.refused("DG" + sealed("002", "Z", ONE) + PIN + ACCOUNT + "1", "15")
    g.refused("DG" + PAIR + PIN + ACCOUNT + "F", "15")


def add_compared_pvvs(g):
    def value(digits, account=ACCOUNT, index="1"):
        return pvv(VERIFICATION, account, index, digits)

    # DC, with a PIN of each format. Only the first four digits of a PIN count.
    for keys, source, digits in [
            (TPK + PAIR, "01", "1234"), (TPK + PVK, "03", "123456789012"), (TPK + PAIR, "05", "12345"),
            (TPK + PAIR, "47", "1234")]:
        g.add("DC" + keys + block(TERMINAL, source, digits) + source + ACCOUNT + "1" + value("1234"))
    start, good = "DC" + TPK + PAIR, block(TERMINAL, "01", "1234")
    wrong = value("1234")[:3] + str((int(value("1234")[3]) + 1) % 10)
    g.refused(start + good + "01" + ACCOUNT + "1" + wrong, "01", trailer=b"\x19end")
    g.refused(start + good + "01" + ACCOUNT + "2" + value("1234"), "01")
    g.refused(start + good + "01" + OTHER + "1" + value("1234"), "20")
    g.refused(start + raw(TERMINAL, "0312" + "6" * 12) + "01" + ACCOUNT + "1" + wrong, "24")
    g.refused("DC" + EVEN_TPK + EVEN_TPK + good + "01" + ACCOUNT + "1" + wrong, "10")
    g.refused("DC" + TPK + EVEN_TPK + raw(TERMINAL, "0" * 16) + "01" + ACCOUNT + "1" + wrong, "11")
    g.refused(start + good + "00" + ACCOUNT + "1" + wrong, "23")
    g.refused(start + good + "01" + ACCOUNT + "1" + wrong[:3], "15")
    # EC reads the block under a ZPK.
    zone = block(ZONE, "47", "1234", OTHER)
    right = value("1234", OTHER, "3")
    g.add("EC" + ZPK + PAIR + zone + "47" + OTHER + "3" + right)
    g.refused("EC" + EVEN_ZPK + EVEN_TPK + zone + "47" + OTHER + "3" + right, "10")
    g.refused("EC" + ZPK + EVEN_TPK + zone + "47" + OTHER + "3" + right, "11")
    g.refused("EC" + ZPK + PAIR + zone + "05" + OTHER + "3" + right, "20")
    g.refused("EC" + ZPK + PAIR + raw(ZONE, "0312" + "6" * 12) + "01" + OTHER + "3" + right, "24")
    g.refused("EC" + ZPK + PAIR + zone + "4" + OTHER + "3" + right, "23")
    g.refused("EC" + ZPK + PAIR + zone + "47" + OTHER + "3" + right + "0", "15")
    g.refused("EC" + ZPK + PAIR + zone + "47" + OTHER + "4" + right, "01", trailer=b"\x19end")


def equal_pairs():
    """Both keys of CC have one text. NG's text is no PIN."""
    z = "85E813540F0AB405"
    g = Messages(SET_EQUAL)
    g.refused("CC" + z + z + "12D5D44FF720683D0D0101" + ACCOUNT, "24")
    g.refused("CC" + z + z + "123FA40E8A984D48150101" + ACCOUNT, "20")
    g.refused("CC" + z + z + "1217668DFC7292532D0501" + ACCOUNT, "24")
    g.refused("CC" + z + z + "12D5D44FF720683D0D0201" + ACCOUNT, "23")
    g.refused("NG" + ACCOUNT + z, "17")
    return g


def equal_pairs_but_14():
    """The text 17668DFC7292532D opens to 1111111111111111 under pair 14-15."""
    z, even = "85E813540F0AB405", "17668DFC7292532D"
    g = Messages(SET_EQUAL_BUT_14)
    g.refused("CA" + even + z + "12D5D44FF720683D0D0101" + ACCOUNT, "10")
    g.refused("EA" + z + even + "12D5D44FF720683D0D0104" + ACCOUNT + TABLE + DATA + "4943FFFFFFFF", "11")
    return g


GROUPS = {
    "known": known, "translations": translations, "pins": pins, "offsets": offsets, "pvvs": pvvs,
    "equal_pairs": equal_pairs, "equal_pairs_but_14": equal_pairs_but_14}

# The codes that each command can give; those under a grant are 00 and 24 of BA, 00 and 14 of NG.
TRANSLATED, COMPARED = "00 10 11 15 20 23 24", "00 01 10 11 15 20 23 24"
CODES = {
    "CA": TRANSLATED, "CC": TRANSLATED, "JA": "00 15", "BA": "15 17", "NG": "15 17", "DE": "00 10 14 15 24 25",
    "DA": COMPARED + " 25", "EA": COMPARED + " 25", "DG": "00 10 14 15", "DC": COMPARED, "EC": COMPARED}


def check_worked():
    """Answers that are known from elsewhere or by their definition, for the second form itself."""
    hsm = Hsm()

    def answers(message, answer):
        assert hsm.host(message.encode()) == answer.encode(), (message, answer, hsm.host(message.encode()))

    assert raw(hsm.lmks[1], "044633CBA9876FED") == sealed_pin("4621", ACCOUNT)
    assert raw(hsm.lmks[1], "041226CBA9876FED") == sealed_pin("1234", ACCOUNT)
    answers("JA" + ACCOUNT + "04", "JB00" + sealed_pin("4621", ACCOUNT))
    answers("NG" + ACCOUNT + sealed_pin("4621", ACCOUNT), "NH17")
    hsm.console("A pin.clear.host 0 abc hello")
    answers("NG" + ACCOUNT + sealed_pin("4621", ACCOUNT), "NH004621FFFFFFFF")
    answers("BA123FFFFFFFFF" + ACCOUNT, "BB24")
    answers("BA1234FFFFFFFF" + ACCOUNT, "BB00" + sealed_pin("1234", ACCOUNT))


if __name__ == "__main__":
    check_worked()
    check_codes(GROUPS, CODES)
    print_groups(GROUPS, sys.argv[1:])
