#!/usr/bin/env python3
"""Prints the CVVs and the PVV that the tests of hsm_verify compare with, computed by OpenSSL's DES.

It needs the command openssl. Nothing of the crates is used.
"""
from hsm_values import TWO, check_known, cvv, pvv

if __name__ == "__main__":
    check_known()
    for pan in "4123456789012345", "4123456789012345678":
        print("CVV", cvv(TWO, pan, "8701", "101"), pan)
    print("PVV", pvv(TWO, "123456789012", "1", "1234"))
