#!/usr/bin/env python3
"""Prints sealed key texts that the tests of hsm_lmk compare with, computed by OpenSSL's DES.

It needs the command openssl. Nothing of the crates is used.
"""
from hsm_values import THREE, TWO, sealed, wrapped


def digits(text):
    return text.lstrip("UTXY")


if __name__ == "__main__":
    for code, scheme, key in [("001", "Z", TWO[:8]), ("402", "U", TWO), ("001", "T", THREE)]:
        print(code, scheme, digits(sealed(code, scheme, key)))
    print(TWO.hex().upper(), "Y", digits(wrapped(TWO, "Y", THREE)))
