#!/usr/bin/env python3
"""Prints scripts over a module of two LMK sets and what they print, computed by OpenSSL's DES and ChaCha20.

    model/set_rows.py [cases] [GROUP..]     each line of a script and what it prints, as texts
    model/set_rows.py script GROUP          the group's script
    model/set_rows.py output GROUP          what it prints

Set 00 is the test set, set 01 that of equal_pairs.toml, and no other is loaded. The groups are names (what names a set,
and what a grant of a set covers), keys and others (a message of each host row under set 00, under set 01 and under a
set that is not loaded), lanes (two lanes under a set each) and day (an acquirer's day under both sets);
crates/test_acceptance/src/sets.rt has their cases. The header is 0001, there are two host lanes, the officers' words
are abc and hello. The answers are those of hsm_model.py. It needs the command openssl. Nothing of the crates is used.
"""
import sys

from console_rows import ACCOUNT, WORDS, print_scripts
from hsm_model import Lines
from hsm_values import (
    CARD, SET_EQUAL, SET_T, TERMINAL, TWO, VERIFICATION, ZONE, check_known, check_value, cvv, drawn, drawn_pin,
    enciphered_pin, mac_value, natural_pin, offset, pvv, sealed, sealed_pin, wrapped)

NAMED = {"": SET_T, "%01": SET_EQUAL}
TABLE, DATA, MESSAGE = "0123456789012345", "12345678901N", "0200 PURCHASE 000000012345 9786"


def two_sets():
    return Lines(others=[SET_EQUAL])


def names():
    """What names a set, what does not, and what a grant of a set covers."""
    s = two_sets()
    bu = "BU01085E813540F0AB405"
    assert s.host(bu + "%01") == "D5D44F"
    s.host(bu, "10")
    s.host(bu + "%00", "10")
    s.host(bu + "%02", "13")
    s.host(bu + "%04", "13")
    for rest in ("%0", "%001", "%01%01", "%0A", "%", "%01\x1A"):
        s.host(bu + rest, "15")
    assert s.host(bu + "%01\x19ab") == "D5D44F\x19ab"
    s.host(bu + "%02\x19ab", "13")
    s.host(bu + "\x19%01", "10")
    s.host("BU00%02", "05")
    s.host("BU010U" + "0" * 32 + "%02", "13")
    s.host("BU010U" + "0" * 32 + "%01", "27")
    s.host("ZZ%02", "68")
    # A row that uses no set asks for a loaded one all the same, and draws and cancels nothing then.
    s.host("B20001%%02", "13")
    assert s.host("B20003%02%01") == "%02"
    s.console("A pin.clear.host.lmk01 0" + WORDS, "OK")
    s.console("VA", "OK 1 pin.clear.host.lmk01=0")
    s.host("RA%05", "13")
    s.host("NG" + ACCOUNT + sealed_pin("1234", ACCOUNT), "17")
    assert s.host("NG" + ACCOUNT + sealed_pin("1234", ACCOUNT, SET_EQUAL) + "%01") == "1234FFFFFFFF"
    s.console("C pin.clear.host", "OK 0")
    s.console("A pin.clear.host 0" + WORDS, "OK")
    assert s.host("NG" + ACCOUNT + sealed_pin("1234", ACCOUNT)) == "1234FFFFFFFF"
    s.console("VA", "OK 2 pin.clear.host.lmk01=0 pin.clear.host=0")
    s.console("C pin.clear.host.lmk01", "OK 1")
    s.console("VA", "OK 1 pin.clear.host=0")
    for text in ("pin.clear.lmk04", "pin.clear.lmk1", "pin.clear.lmk01.host", "pin.clear.001.lmk01"):
        s.console(f"A {text} 0" + WORDS, "NO 15")
    return s


def components():
    """The set that GC and FK name, and grants of one set for keys."""
    s = two_sets()
    a8 = "A8402" + sealed("000", "U", TWO, SET_EQUAL) + sealed("402", "U", TWO, SET_EQUAL) + "X"
    s.console("A export.402.lmk00 0" + WORDS, "OK")
    s.host(a8 + "%01", "17")
    s.console("A export.402.lmk01 0" + WORDS, "OK")
    assert s.host(a8 + "%01") == wrapped(TWO, "X", TWO) + "08D7B4"
    s.host(a8, "10")
    s.console("GC 001 Z %01", "NO 17")
    s.console("A component.console.lmk01 0" + WORDS, "OK")
    s.console("GC 001 Z", "NO 17")
    s.console("GC 001 Z %04", "NO 13")
    for text in ("GC 001 Z %1", "GC 001 Z%01", "GC 001 Z %01 ", "GC 001 Z ", "GC 001 Z  %01", "VA %01"):
        s.console(text, "NO 15")
    part = drawn(0, 1)
    assert s.console_ok("GC 001 Z %01") == [part.hex().upper(), sealed("001", "Z", part, SET_EQUAL), check_value(part)]
    zeros = " " + "0" * 32
    for parts in (TWO.hex() + zeros, TWO.hex() + zeros + zeros):
        assert s.console_ok(f"FK 402 U {parts} %01") == [sealed("402", "U", TWO, SET_EQUAL), "08D7B4"]
    s.console(f"FK 402 U {TWO.hex()}{zeros} %02", "NO 13")
    s.console(f"FK 402 U {TWO.hex()} %01", "NO 15")
    s.console("VA", "OK 3 export.402.lmk00=0 export.402.lmk01=0 component.console.lmk01=0")
    return s


def each(s, message, code="10", named="00"):
    """A message under set 00, under set 01, and under one that is not loaded; the first two answers differ."""
    first = s.host(message, code)
    second = s.host(message + "%01", named)
    assert (code, first) != (named, second), message
    s.host(message + "%02", "13")
    return second


def key(code, clear, scheme="U"):
    return sealed(code, scheme, clear, SET_EQUAL)


def keys():
    """Messages of the key and PIN rows. Those that name keys have them under set 01, and under set 00 none opens."""
    s = two_sets()
    s.console("A export.lmk01 0" + WORDS, "OK")
    s.console("A pin.clear.lmk01 0" + WORDS, "OK")
    assert each(s, "A00001U", "00") == sealed("001", "U", drawn(4, 2), SET_EQUAL) + check_value(drawn(4, 2))
    assert each(s, f"A6001{key('000', TWO)}{wrapped(TWO, 'X', ZONE)}U") == key("001", ZONE) + check_value(ZONE)
    assert each(s, f"A8402{key('000', TWO)}{key('402', CARD)}X") == wrapped(TWO, "X", CARD) + check_value(CARD)
    assert each(s, f"BU011{key('001', ZONE)}") == check_value(ZONE)
    tpk, zpk, pvk = key("002", TERMINAL), key("001", ZONE), key("002", VERIFICATION)
    block = enciphered_pin(TERMINAL, "01", "1234", ACCOUNT)
    other = enciphered_pin(ZONE, "01", "1234", ACCOUNT)
    translated = "04" + enciphered_pin(ZONE, "03", "1234", ACCOUNT, "") + "03"
    assert each(s, f"CA{tpk}{zpk}12{block}0103{ACCOUNT}") == translated
    assert each(s, f"CC{zpk}{zpk}12{other}0103{ACCOUNT}") == translated
    pin = sealed_pin("1234", ACCOUNT, SET_EQUAL)
    value = offset(natural_pin(VERIFICATION, TABLE, DATA, ACCOUNT), "1234", 4)
    assert each(s, f"DE{pvk}{pin}04{ACCOUNT}{TABLE}{DATA}") == value
    chosen = pvv(VERIFICATION, ACCOUNT, "1", "1234")
    assert each(s, f"DG{pvk}{pin}{ACCOUNT}1") == chosen
    each(s, f"DA{tpk}{pvk}12{block}0104{ACCOUNT}{TABLE}{DATA}{value}")
    each(s, f"EA{zpk}{pvk}12{other}0104{ACCOUNT}{TABLE}{DATA}{value}")
    each(s, f"DC{tpk}{pvk}{block}01{ACCOUNT}1{chosen}")
    each(s, f"EC{zpk}{pvk}{other}01{ACCOUNT}1{chosen}")
    return s


def others():
    """Messages of the other rows. B2 and NO show nothing of a set."""
    s = two_sets()
    s.console("A pin.clear.lmk01 0" + WORDS, "OK")
    assert each(s, f"BA1234FFFFFFFF{ACCOUNT}", "17") == sealed_pin("1234", ACCOUNT, SET_EQUAL)
    assert each(s, f"NG{ACCOUNT}{sealed_pin('1234', ACCOUNT, SET_EQUAL)}", "17") == "1234FFFFFFFF"
    each(s, f"JA{ACCOUNT}04", "00")
    cvk, zak = key("402", CARD), key("008", TWO)
    value = cvv(CARD, "4123456789012345", "8701", "101")
    assert each(s, f"CW{cvk}4123456789012345;8701101") == value
    each(s, f"CY{cvk}{value}4123456789012345;8701101")
    mac = mac_value(TWO, "3", bytes(8), "2", MESSAGE.encode()).hex().upper()
    text = f"132008{zak}{len(MESSAGE):04X}{MESSAGE}"
    assert each(s, "M600" + text) == mac
    each(s, "M800" + text + mac)
    each(s, "NC", "00")
    for message in ("B20002ab", "NO00"):
        assert s.host(message) == s.host(message + "%01")
        s.host(message + "%02", "13")
    s.host("RA%02", "13")
    s.console("VA", "OK 1 pin.clear.lmk01=0")
    s.host("RA%01")
    s.console("VA", "OK 0")
    return s


def lanes():
    """Two lanes that take turns, each under its own set, with the same texts; pieces are cut."""
    s = two_sets()
    s.console("A component 0" + WORDS, "OK")
    zeros = " " + "0" * 32
    texts = {name: s.console_ok(f"FK 001 U {ZONE.hex()}{zeros} {name}".rstrip())[0] for name in NAMED}
    for text in texts.values():
        for lane, name in enumerate(NAMED, 1):
            own = text == texts[name]
            answer = s.host(f"BU011{text}{name}", "00" if own else "10", lane=lane, cut=9 + lane)
            assert answer == (check_value(ZONE) if own else "")
    for lane, (name, lmks) in enumerate(NAMED.items(), 1):
        pin = sealed_pin(drawn_pin(4 * (lane - 1), 4), ACCOUNT, lmks)
        assert s.host(f"JA{ACCOUNT}04{name}", lane=lane) == pin
    return s


def day():
    """An acquirer's day under both sets: keys from components, a PIN translated and verified, a MAC."""
    s = two_sets()
    place = 0
    for lane, (name, lmks) in enumerate(NAMED.items(), 1):
        console = f" {name}".rstrip()
        ending = ".lmk" + (name[1:] or "00")
        s.console(f"A component.000{ending} 30" + WORDS, "OK")
        first = s.console_ok("GC 000 U" + console)[0]
        second = s.console_ok("GC 000 U" + console)[0]
        zmk = s.console_ok(f"FK 000 U {first} {second}{console}")[0]
        s.console(f"C component.000{ending}", "OK 1")
        place += 8
        zpk, tpk, pvk, zak = (drawn(place + 4 * n, 2) for n in range(4))
        assert s.host(f"A01001U;0{zmk}X{name}", lane=lane).startswith(sealed("001", "U", zpk, lmks))
        for code, clear in ("002", tpk), ("002", pvk), ("008", zak):
            assert s.host(f"A00{code}U{name}", lane=lane).startswith(sealed(code, "U", clear, lmks))
        place += 16
        texts = [
            sealed(code, "U", clear, lmks) for code, clear in (("001", zpk), ("002", tpk), ("002", pvk), ("008", zak))]
        pin = s.host(f"JA{ACCOUNT}04{name}", lane=lane)
        place += 4
        value = s.host(f"DG{texts[2]}{pin}{ACCOUNT}1{name}", lane=lane)
        s.console(f"A pin.clear.host{ending} 10" + WORDS, "OK")
        clear = s.host(f"NG{ACCOUNT}{pin}{name}", lane=lane).rstrip("F")
        s.console(f"C pin.clear.host{ending}", "OK 1")
        s.host(f"NG{ACCOUNT}{pin}{name}", "17", lane=lane)
        assert value == pvv(pvk, ACCOUNT, "1", clear) and pin == sealed_pin(clear, ACCOUNT, lmks)
        block = enciphered_pin(tpk, "01", clear, ACCOUNT)
        answer = s.host(f"CA{texts[1]}{texts[0]}12{block}0101{ACCOUNT}{name}", lane=lane)
        s.host(f"EC{texts[0]}{texts[2]}{answer[2:18]}01{ACCOUNT}1{value}{name}", lane=lane, cut=40)
        mac = s.host(f"M600132008{texts[3]}{len(MESSAGE):04X}{MESSAGE}{name}", lane=lane)
        assert mac == mac_value(zak, "3", bytes(8), "2", MESSAGE.encode()).hex().upper()
    return s


GROUPS = {"names": names, "components": components, "keys": keys, "others": others, "lanes": lanes, "day": day}


if __name__ == "__main__":
    check_known()
    print_scripts(GROUPS, sys.argv[1:])
