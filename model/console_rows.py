#!/usr/bin/env python3
"""Prints scripts of console texts and host messages and what they print, computed by OpenSSL's DES and ChaCha20.

    model/console_rows.py [cases] [GROUP..]     each line of a script and what it prints, as texts
    model/console_rows.py script GROUP          the group's script
    model/console_rows.py output GROUP          what it prints

The groups are keys, pins, components, texts, full, notes and lanes under the test set, and grants under that of
equal_pairs.toml; crates/test_acceptance/src/consoles.rt has their cases. The header is 0001, there are two host lanes,
the officers' words are abc and hello. The answers are those of hsm_model.py. It needs the command openssl. Nothing of
the crates is used.
"""
import sys

from hsm_model import Hsm, Lines, run_script
from hsm_values import (
    ONE, SET_EQUAL, SET_EQUAL_BUT_14, THREE, TWO, TYPES, check_known, check_value, drawn, exclusive_or, line, sealed,
    sealed_pin, wrapped)

ACCOUNT = "123456789012"
WORDS = " abc hello"
ZMK = sealed("000", "U", TWO)


def grants():
    """A grant with an end is gone at that moment, and does not come back."""
    s = Lines(SET_EQUAL)
    no_pin = "NG" + ACCOUNT + "85E813540F0AB405"
    s.line("T 100")
    s.console("A pin.clear.host 1" + WORDS, "OK")
    s.console("VA", "OK 1 pin.clear.host=160")
    s.console("Q", "OK 100 0 1")
    s.console("LOG", "OK 3 0:100:A:+ 1:100:L:+ 2:100:L:+")
    s.line("T 159")
    s.host(no_pin, "14")
    s.line("T 160")
    s.host(no_pin, "17")
    s.line("T 159")
    s.host(no_pin, "17")
    s.console("Q", "OK 160 0 0")
    s.console("A pin.clear 0" + WORDS, "OK")
    s.console("A component.402 720" + WORDS, "OK")
    s.console("A pin.clear 10" + WORDS, "OK")
    s.console("VA", "OK 2 component.402=43360 pin.clear=760")
    # A grant that names no place covers the host's need.
    s.host(no_pin, "14")
    s.console("A pin.clear 10 abc wrong", "NO WORDS")
    s.line("T 1099511627776")
    s.console("A import.00A.console 720" + WORDS, "OK")
    s.console("VA", "OK 1 import.00A.console=1099511670976")
    return s


def keys():
    """Which grants cover the needs of the key commands."""
    s = Lines()
    cvk = "A8402" + ZMK + sealed("402", "U", TWO) + "X"
    s.host(cvk, "17")
    s.console("A export.402.host 0" + WORDS, "OK")
    assert s.host(cvk) == wrapped(TWO, "X", TWO) + "08D7B4"
    s.host("A01402U;0" + ZMK + "X")
    s.console("C export", "OK 0")
    s.console("C export.402.host", "OK 1")
    s.host(cvk, "17")
    s.console("A export 0" + WORDS, "OK")
    s.host("A8009" + ZMK + sealed("009", "U", TWO) + "X", "29")
    s.host(cvk)
    s.host("A00000U", "17")
    s.console("A generate.000.console 0" + WORDS, "OK")
    s.host("A00000U", "17")
    s.console("A generate.000 0" + WORDS, "OK")
    s.host("A00000U")
    s.console("A import.402 0" + WORDS, "OK")
    s.host("A6009" + ZMK + wrapped(TWO, "X", TWO) + "U", "17")
    s.console("A import.host 0" + WORDS, "OK")
    s.host("A6009" + ZMK + wrapped(TWO, "X", TWO) + "U")
    s.host("NO00")
    s.console("Q", "OK 0 8 5")
    s.host("RA")
    s.console("VA", "OK 0")
    s.host("A00000U", "17")
    return s


def pins():
    """PINs in the clear, under a grant and without one."""
    s = Lines()
    ng, ba = "NG" + ACCOUNT + sealed_pin("4621", ACCOUNT), "BA1234FFFFFFFF" + ACCOUNT
    assert s.host("JA" + ACCOUNT + "04") == sealed_pin("4621", ACCOUNT)
    s.console("A pin.clear.host 10 abc wrong", "NO WORDS")
    s.host(ng, "17")
    s.host("BA123FFFFFFFFF" + ACCOUNT, "17")
    s.console("A pin.clear.console 10" + WORDS, "OK")
    s.host(ng, "17")
    s.console("A pin.clear.host 10" + WORDS, "OK")
    assert s.host(ng) == "4621FFFFFFFF"
    assert s.host(ng + "\x19end") == "4621FFFFFFFF\x19end"
    assert s.host("NG" + ACCOUNT + sealed_pin("123456789012", ACCOUNT)) == "123456789012"
    s.host("NG400000123456" + sealed_pin("4621", ACCOUNT), "14")
    assert s.host(ba) == sealed_pin("1234", ACCOUNT)
    assert s.host("BA123456789012" + ACCOUNT) == sealed_pin("123456789012", ACCOUNT)
    s.host("BA123FFFFFFFFF" + ACCOUNT, "24")
    s.host("BAFFFFFFFFFFFF" + ACCOUNT, "24")
    # Another account field may open the text where it differs only in digits that lie over the PIN's.
    opens, pin = "023456789012", sealed_pin("1234", ACCOUNT)
    assert s.host("NG" + ACCOUNT + pin) == "1234FFFFFFFF"
    assert s.host("NG" + opens + pin) == "1224FFFFFFFF"
    s.console("C *", "OK 2")
    s.host(ng, "17")
    s.host(ba, "17")
    return s


def components():
    s = Lines()
    s.console("GC 001 Z", "NO 17")
    s.console("A component 5" + WORDS, "OK")
    first = drawn(0, 1)
    assert first.hex().upper() == "76B9E0ADA1F13D91"
    assert s.console_ok("GC 001 Z") == [first.hex().upper(), sealed("001", "Z", first), check_value(first)]
    assert s.console_ok("FK 402 U " + TWO.hex() + " " + "0" * 32) == [sealed("402", "U", TWO), "08D7B4"]
    three = drawn(2, 3)
    assert s.console_ok("GC 00B T") == [three.hex().upper(), sealed("00B", "T", three), check_value(three)]
    # The third component is the exclusive-or of the key and the first two. Their parity is not looked at.
    last = exclusive_or(exclusive_or(THREE, three), bytes([1] * 24))
    joined = f"{three.hex()} {'01' * 24} {last.hex()}"
    assert s.console_ok("FK 008 T " + joined) == [sealed("008", "T", THREE), check_value(THREE)]
    assert s.console_ok("FK 002 Z 0000000000000000 0000000000000000") == [
        sealed("002", "Z", bytes([1] * 8)), check_value(bytes([1] * 8))]
    zeros = " 0000000000000000"
    for text, code in [
            ("GC", "04"), ("GC 004 Z", "04"), ("GC  001 Z", "04"), ("GC 001Z", "26"), ("GC 001 ", "26"),
            ("GC 001 X", "26"), ("GC 001 Z ", "15"), ("GC 000 Z", "27"), ("GC 402 T", "27"), ("FK 001 Z" + zeros, "15"),
            ("FK 001 Z" + zeros * 2 + " ", "15"), ("FK 001 Z" + zeros * 4, "15"), ("FK 001 U" + zeros * 2, "15"),
            ("FK 009 Z" + zeros * 2, "27"), ("FK 001 U" + (zeros + zeros[1:]) * 2, "75"),
            ("FK 004 Z" + zeros * 2, "04"), ("FK 001 P" + (zeros + zeros[1:]) * 2, "26")]:
        s.console(text, "NO " + code)
    s.console("Q", "OK 0 8 1")
    s.host("RA")
    s.console("GC 001 Z", "NO 17")
    s.console("FK 009 Z" + zeros * 2, "NO 27")
    s.console("FK 001 U" + (zeros + zeros[1:]) * 2, "NO 75")
    s.console("FK 001 Z" + zeros * 2, "NO 17")
    s.console("A component.001.host 5" + WORDS, "OK")
    s.console("GC 001 Z", "NO 17")
    s.console("A component.001.console 5" + WORDS, "OK")
    s.console("GC 002 Z", "NO 17")
    s.console_ok("GC 001 Z")
    return s


def texts():
    """Texts that do not read, and officers' words that are wrong."""
    s = Lines()
    long = "w" * 64
    for text, wanted in [
            ("ZZ", "68"), (" VA", "68"), ("va", "68"), ("NC", "68"), ("A0", "68"), ("VA ", "15"), ("Q 0", "15"),
            ("LOG LOG", "15"), ("C", "15"), ("C generate.004", "15"), ("C pin.clear.001", "15"), ("C * *", "15"),
            ("C component.console.001", "15"), ("A", "15"), ("A pin.clear", "15"), ("A  pin.clear 1" + WORDS, "15"),
            ("A pin.clear 721" + WORDS, "15"), ("A pin.clear 01" + WORDS, "15"), ("A pin.clear -1" + WORDS, "15"),
            ("A pin.clear 1 abc", "15"), ("A pin.clear 1 abc  hello", "15"), ("A pin.clear 1 abc hello ", "15"),
            (f"A pin.clear 1 {long}w hello", "15"), (f"A pin.clear 1 {long} {long}", "WORDS"),
            ("A pin.clear 1 hello abc", "WORDS"), ("A pin.clear 1 abc Hello", "WORDS"),
            ("A pin.clear 1 ABC hello", "WORDS")]:
        s.console(text, "NO " + wanted)
    s.console("VA", "OK 0")
    s.console("C *", "OK 0")
    s.console("A pin.clear.console 0" + WORDS, "OK")
    s.console("A generate.00B.host 720" + WORDS, "OK")
    s.console("VA", "OK 2 pin.clear.console=0 generate.00B.host=43200")
    return s


def full():
    """32 grants of different activities; one more is too many, one of them again is not."""
    s = Lines()
    activities = [f"{category}.{code}" for category in ("generate", "import", "export", "component") for code in TYPES]
    for activity in activities[:32]:
        s.console(f"A {activity} 0" + WORDS, "OK")
    s.console(f"A {activities[32]} 0" + WORDS, "NO FULL")
    s.console(f"A {activities[32]} 0 abc wrong", "NO WORDS")
    s.console(f"A {activities[0]} 1" + WORDS, "OK")
    s.host("NO00")
    s.console("LOG", "OK 16 " + " ".join(
        [f"{n}:0:A:+" for n in range(20, 32)] + ["32:0:A:-", "33:0:U:+", "34:0:A:+", "35:0:L:+"]))
    s.line("T 60")
    s.console(f"A {activities[32]} 0" + WORDS, "OK")
    s.console("C *", "OK 32")
    return s


def notes():
    """A note of each kind and verdict. The note of LOG is added after its answer."""
    s = Lines()
    s.console("LOG", "OK 0")
    s.host("BU", "04")
    s.host("NG" + ACCOUNT + "0" * 16, "17")
    s.line("T 7")
    s.console("A import.00A 3" + WORDS, "OK")
    s.console("C import", "OK 0")
    s.console("C *", "OK 1")
    s.host("RA")
    s.host("RA0", "15")
    s.host("NO00")
    s.console("Q", "OK 7 0 0")
    s.console("VA", "OK 0")
    s.console("GC 001 Z", "NO 17")
    s.console("GC 000 Z", "NO 27")
    s.console("LOG", " ".join(
        ["OK 13 0:0:R:+ 1:0:U:+ 2:0:U:- 3:7:A:+ 4:7:C:+ 5:7:X:+ 6:7:X:+ 7:7:U:+ 8:7:L:+ 9:7:L:+ 10:7:L:+ 11:7:U:-",
         "12:7:U:+"]))
    return s


def lanes():
    """Two lanes whose frames are cut anywhere, one of them closed by a short frame, the other cut at the end."""
    s = Lines()
    bu = "BU010" + sealed("001", "Z", ONE)
    s.line("# Two lanes")
    s.line("")
    frame = line(bu.encode())[3:]
    other = line(b"NC")[3:]
    s.line("L1 " + frame[:2])
    s.host("A00001U", lane=2)
    s.line("L2 " + other[:10].lower())
    s.console("Q", "OK 0 4 0")
    s.line("L1 " + frame[2:] + other, *s_printed(bu, "NC"))
    s.line("L2 " + other[10:] + "0005" + other, line(b"ND00" + b"33C517CEFDC01D400001-LAB1", 2), "L2 short 5")
    s.line("L2 " + frame, "L2 closed")
    # Lane 1 draws after lane 2.
    s.host("A00001U")
    s.line("L1 00")
    return s


def s_printed(*messages):
    hsm = Hsm()
    return [line(hsm.host(message.encode())) for message in messages]


GROUPS = {
    "grants": grants, "keys": keys, "pins": pins, "components": components, "texts": texts, "full": full,
    "notes": notes, "lanes": lanes}


def check_worked():
    """Scripts whose outputs are known from elsewhere, for the second form itself."""
    asked = "L1 001930303031425530313038354538313335343046304142343035\n"
    answered = "L1 000E3030303142563030443544343446\n"
    pieces = "".join(f"L1 {asked[i:i + 2]}\n" for i in range(3, 57, 2))
    for lmks, script, output in [
            (SET_EQUAL, asked, answered + "END 1\n"), (SET_EQUAL, pieces, answered + "END 1\n"),
            (SET_EQUAL, "L1 00053030303142\n" + asked, "L1 short 5\nL1 closed\nEND 0\n"),
            (SET_EQUAL, "L1 0000", "L1 short 0\nEND 0\n"), (SET_EQUAL, asked + "L1 0019", answered + "L1 cut\nEND 1\n"),
            (SET_EQUAL_BUT_14, "L1 001930303031425530323031373636384446433732393235333244",
             "L1 00083030303142563130\nEND 1\n"),
            (SET_EQUAL, "L1 0006303030315A5A", "L1 0008303030315A5B3638\nEND 1\n"),
            (SET_EQUAL, "L1 00083030303142553031", "L1 00083030303142563035\nEND 1\n"), (SET_EQUAL, "", "END 0\n")]:
        assert run_script(Hsm(lmks), script.encode())[0] == output.encode(), script
    assert run_script(Hsm(), b"T 5\nL3 00") == 2
    assert run_script(Hsm(), b"L1 00\n\n#\nL2 00\nC VA\nl1 00") == 6
    assert run_script(Hsm(), b"T 1099511627776\n\n# \xff\n") == (b"END 0\n", 0)
    for script in [
            "X", "T", "T 05", "T -1", "T 1099511627777", "T 5\r\n", "L0 00", "L01 00", "L1", "L1 ", "L1 0\n",
            "L1 0G\n", "L1 00\r\n", "C", "C ", "C \x7f", "l1 00"]:
        assert run_script(Hsm(), script.encode()) == 1


def quoted(lines):
    """The lines as a text."""
    return '"' + "".join(text + "\\n" for text in lines) + '"'


def print_scripts(groups, names):
    """Prints the cases of groups of scripts, or the script or the output of one."""
    what = names.pop(0) if names and names[0] in ("cases", "script", "output") else "cases"
    for name in names or groups:
        lines = groups[name]()
        script, output = lines.whole()
        if what != "cases":
            print(end=(script if what == "script" else output).decode())
            continue
        end = lines.run
        print(f"# {name}: {end.hsm.ledger.number} entries, {len(end.cut())} cut, {len(end.closed())} short")
        for asked, printed in [*lines.cases, ("", end.end())]:
            print(f'("{asked}", {quoted(printed)}),')


if __name__ == "__main__":
    check_known()
    check_worked()
    print_scripts(GROUPS, sys.argv[1:])
