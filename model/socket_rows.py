#!/usr/bin/env python3
"""Prints the messages of an acquirer's day that the tests of hsm_tool send over sockets, computed by OpenSSL's DES.

The ZPK is drawn by the program, so what it is sealed to and the block under it are taken from its replies. Texts are
without length and header. It needs the command openssl. Nothing of the crates is used.
"""
from hsm_values import ONE, TWO, check_known, enciphered_pin, mac_value, pvv, sealed

ACCOUNT = "123456789012"
PIN = "1234"
PURCHASE = "ABCDEFGHIJKLMNOPQRSTUVWXY" * 8

if __name__ == "__main__":
    check_known()
    zmk, tpk, pvk, zak = (
        sealed(code, scheme, key) for code, scheme, key in
        (("000", "U", TWO), ("002", "Z", ONE), ("002", "U", TWO), ("008", "U", TWO)))
    print(f"A0 A01001U;0{zmk}X")
    print(f"CA CA{tpk}(ZPK)12{enciphered_pin(ONE, '01', PIN, ACCOUNT)}0101{ACCOUNT}")
    print(f"EC EC(ZPK){pvk}(block)01{ACCOUNT}1{pvv(TWO, ACCOUNT, '1', PIN)}")
    print(f"M6 M600032008{zak}{len(PURCHASE):04X}{PURCHASE}")
    print(f"M7 M700{mac_value(TWO, '3', bytes(8), '2', PURCHASE.encode()).hex().upper()[:8]}")
