#!/usr/bin/env python3
"""A day of an acquirer at one host port, with the officers at the console beside it.

    python3 examples/acquirer.py [CONSOLE_PORT HOST_PORT]

Start `hsm_tool serve examples/laboratory.toml` first. Without ports, the console's port and the first host port of that
file are taken. Each step prints a line. Exit status: 0 all was answered as it should be; 1 something differed, which
the last line says, or no reply came; 2 the words are neither nothing nor two ports.

The module must have the test set of LMK pairs, a header of 4 characters, and officers whose words are abc and hello.
The keys are drawn by the module, so their texts differ each day: what is checked is that replies fit each other. The
console's activities are cancelled at the beginning. It stands on `sothvelm` of tools/ (docs/TOOLS.md).
"""
import contextlib
import functools
import os
import re
import sys

from client import Connection, Host

from sothvelm import Client, ClientError, Console, Refused

USAGE = "usage: python3 examples/acquirer.py [CONSOLE_PORT HOST_PORT]"
ADDRESS, HEADER = "127.0.0.1", "0001"
WORDS = ("abc", "hello")
LMK_CHECK = "33C517CEFDC01D40"
ACCOUNT = "123456789012"
CARD, EXPIRY, SERVICE = "4123456789012345678", "2912", "201"
EXPORT = "export.402.host"
PURCHASE = b"0200 PURCHASE 000000012345 9786"
# Keys under the test LMKs, and the PIN 1234 under the TPK as a block of code 01, and under the LMKs.
ZMK = "U9F9A79DCD106B37584C5D3D3C418F4AE"
TPK = "U70608A485781E63A744063451C9937C8"
TERMINAL_BLOCK = "5E6CD2CEB7124BBF"
SEALED_PIN = "AC9E30EA4EE08820"


class Differs(Exception):
    """A reply is not the one that the day needs."""


class Told:
    """A connection whose replies are printed, each behind what its message does."""

    def __init__(self, connection):
        self.connection, self.steps = connection, []

    def ask(self, text):
        return self.told(self.connection.ask(text))

    def ask_all(self, texts):
        return [self.told(reply) for reply in self.connection.ask_all(texts)]

    def told(self, reply):
        print(f"{self.steps.pop(0)}: {reply}")
        return reply

    def close(self):
        self.connection.close()


def step(client, *steps):
    """The client, whose next messages do this."""
    client.connection.steps += steps
    return client


@contextlib.contextmanager
def refusal(code):
    """What is called in the block must be refused with this code."""
    try:
        yield
    except Refused as refused:
        same(refused.code, code, f"the error codes of {refused.command}")
        return
    raise Differs(f"nothing was refused, and not with {code}")


def same(one, other, what):
    if one != other:
        raise Differs(f"{what}: '{one}' and '{other}' differ")


def another(digits):
    """The digits with the last one changed."""
    return digits[:-1] + str((int(digits[-1]) + 1) % 10)


def zone_key(host):
    """A ZPK is drawn and goes to the other side under the ZMK; what the other side would send comes in again."""
    drawn = step(host, "A ZPK is drawn and exported under the ZMK").generate_key(
        mode=1, key_type="001", scheme_under_lmks="U", kind_of_wrapping_key="0", wrapping_key=ZMK,
        scheme_under_wrapping_key="X")
    zpk = drawn.key_under_lmks
    value = step(host, "Its check value is asked").check_value_of_key(
        lmk_pair="01", flag="1", key_under_lmks=zpk).check_value
    same(value, drawn.check_value, "the check values of the ZPK")
    imported = step(host, "The exported ZPK is imported").import_key(
        key_type="001", zmk=ZMK, key_under_zmk=drawn.key_under_wrapping_key, scheme_under_lmks="U")
    same((imported.key_under_lmks, imported.check_value), (zpk, value), "the ZPK and the imported one")
    return zpk


def export(host):
    """A call that exports a CVK under the ZMK."""
    return functools.partial(host.export_key, key_type="402", kind_of_wrapping_key="0", wrapping_key=ZMK,
                             scheme_under_wrapping_key="X")


def card_key(host, console):
    """A CVK is drawn. It is exported where the officers allow that, and not before."""
    drawn = step(host, "A CVK is drawn").generate_key(mode=0, key_type="402", scheme_under_lmks="U")
    cvk = drawn.key_under_lmks
    with refusal("17"):
        export(step(host, "Its export is refused"))(key_under_lmks=cvk)
    step(console, "The officers allow the export of CVKs for ten minutes").allow_activity(
        activity=EXPORT, minutes=10, first_officers_word=WORDS[0], second_officers_word=WORDS[1])
    shown = step(console, "The console shows that").show_live_grants()
    same([each.partition("=")[0] for each in shown.grants], [EXPORT], "the activities that live")
    exported = export(step(host, "The CVK is exported under the ZMK"))(key_under_lmks=cvk)
    same(exported.check_value, drawn.check_value, "the check values of the CVK")
    return cvk


def pins(host, zpk):
    """A terminal's PIN block is translated to the zone, and the PIN is verified by its PVV on both sides."""
    pvk = step(host, "A PVK pair is drawn").generate_key(
        mode=0, key_type="002", scheme_under_lmks="U").key_under_lmks
    pvv = step(host, "The PVV of the PIN is made").pvv_of_pin(
        pvk_pair=pvk, pin_under_lmks=SEALED_PIN, account_field=ACCOUNT, index="1").pvv
    step(host, "The terminal's PIN is verified by it").verify_terminals_pin_by_pvv(
        tpk=TPK, pvk_pair=pvk, pin_block_under_tpk=TERMINAL_BLOCK, code_of_block="01", account_field=ACCOUNT,
        index="1", pvv=pvv)
    translated = step(host, "The terminal's PIN block is translated to the zone").translate_pin_block_from_tpk_to_zpk(
        tpk=TPK, zpk=zpk, greatest_length=12, pin_block_under_tpk=TERMINAL_BLOCK, code_of_block="01",
        code_of_new_block="47", account_field=ACCOUNT)
    same((translated.length_of_pin, translated.code_of_new_block), ("04", "47"), "the PIN's length and block code")
    verify = functools.partial(
        host.verify_pin_from_zone_by_pvv, zpk=zpk, pvk_pair=pvk, pin_block_under_zpk=translated.pin_block_under_zpk,
        code_of_block="47", account_field=ACCOUNT, index="1")
    step(host, "The PIN from the zone is verified by the PVV")
    verify(pvv=pvv)
    step(host, "Another PVV is refused")
    with refusal("01"):
        verify(pvv=another(pvv))


def card(host, cvk):
    """The CVV of a card is made and verified."""
    fields = {"cvk_pair": cvk, "account_number": CARD, "expiry_date": EXPIRY, "service_code": SERVICE}
    cvv = step(host, "The CVV of a card is made").make_cvv(**fields).cvv
    step(host, "It is verified").verify_cvv(cvv=cvv, **fields)
    with refusal("01"):
        step(host, "Another CVV is refused").verify_cvv(cvv=another(cvv), **fields)


def mac(host):
    """A purchase gets a MAC; then two messages are sent together, and their replies come in that order."""
    zak = step(host, "A ZAK is drawn").generate_key(mode=0, key_type="008", scheme_under_lmks="U").key_under_lmks
    fields = {"mode": 0, "input_format": 0, "size": 1, "algorithm": 3, "padding": 2, "key_type": "008", "key": zak}
    value = step(host, "The MAC of a purchase is made").make_mac(data=PURCHASE, **fields).mac_or_chaining_value
    step(host, "It is verified", "With another amount it is refused")
    with host.pipeline() as both:
        genuine = both.verify_mac(data=PURCHASE, mac=value, **fields)
        changed = both.verify_mac(data=PURCHASE.replace(b"12345", b"12346"), mac=value, **fields)
    same(genuine.reply.chaining_value, "", "what is told of the genuine purchase")
    with refusal("01"):
        changed.reply  # noqa: B018


def day(host_connection, console_connection):
    """The whole day, over a connection to a host port and one to the console."""
    host, console = Client.over(Told(host_connection)), Console.over(Told(console_connection))
    step(console, "The officers cancel all activities").cancel_activity(activity="*")
    check = step(host, "The module has the test LMKs").check_of_lmks()
    same((check.check_of_lmks, check.firmware), (LMK_CHECK, "0001-LAB1"), "the LMKs and the firmware")
    zpk = zone_key(host)
    cvk = card_key(host, console)
    pins(host, zpk)
    card(host, cvk)
    mac(host)
    cancelled = step(console, "The officers cancel the activity").cancel_activity(activity=EXPORT)
    same(cancelled.cancelled_grants, 1, "how many were cancelled")
    with refusal("17"):
        export(step(host, "The export of the CVK is refused again"))(key_under_lmks=cvk)
    same(step(console, "No activity lives at the end").show_where_ledger_stands().live_grants, 0, "the live grants")


def laboratory_ports():
    """The console's port and the first host port of laboratory.toml."""
    with open(os.path.join(os.path.dirname(os.path.abspath(__file__)), "laboratory.toml"), encoding="utf-8") as file:
        text = file.read()
    return [re.search(key + "([0-9]+)", text)[1] for key in (r"console_port = ", r"host_ports = \[")]


def main(words):
    ports = words or laboratory_ports()
    if len(ports) != 2 or not all(re.fullmatch("[0-9]{1,5}", port) and 1 <= int(port) <= 65535 for port in ports):
        print(USAGE, file=sys.stderr)
        return 2
    try:
        with Connection(ADDRESS, int(ports[0])) as console, Host(ADDRESS, int(ports[1]), HEADER) as host:
            day(host, console)
    except Differs as differs:
        print(f"Differs: {differs}")
        return 1
    except (ClientError, OSError) as error:
        print(f"acquirer.py: {error}", file=sys.stderr)
        return 1
    return 0


if __name__ == "__main__":
    sys.exit(main(sys.argv[1:]))
