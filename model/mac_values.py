#!/usr/bin/env python3
"""Prints the MACs that the tests of hsm_mac compare with, computed by OpenSSL's DES.

It needs the command openssl. Nothing of the crates is used.
"""
from hsm_values import ONE, TWO, check_known, mac_value

MESSAGES = ["Now is the time for all ", "Now is the time for it"]


def mac(key, algorithm, padding, message):
    """The MAC of a whole message, its digits in groups of four."""
    digits = mac_value(key, algorithm, bytes(8), padding, message.encode()).hex().upper()
    return "_".join(digits[i:i + 4] for i in range(0, 16, 4))


if __name__ == "__main__":
    check_known()
    for message in MESSAGES:
        for padding in "123":
            print(f"padding {padding} {mac(ONE, '1', padding, message)} {mac(TWO, '3', padding, message)} {message!r}")
    message = "7654321 Now is the time for "
    print(f"padding 1 {mac(ONE, '1', '1', message)} {message!r}")
