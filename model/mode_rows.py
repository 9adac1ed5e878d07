#!/usr/bin/env python3
"""Prints the enciphered messages that the tests of hsm_modes compare with, computed by OpenSSL's ciphers.

It needs the command openssl. Nothing of the crates is used. The modes are OpenSSL's own.
"""
from hsm_values import ONE, THREE, TWO, check_known, run_openssl

MESSAGE = b"Now is the time for all good men to come"
CHAIN = bytes.fromhex("1234567890ABCDEF")
KEYS = {"One": ONE, "Two": TWO, "Three": THREE}
MODES = "ecb", "cbc"


def cipher_words(key, mode, chain):
    """The words of a mode under a key; a single part is given twice, which is DES."""
    key = key * 2 if len(key) == 8 else key
    name = {16: "-des-ede", 24: "-des-ede3"}[len(key)] + ("-cbc" if mode == "cbc" else "")
    return name, "-K", key.hex(), *(("-iv", chain.hex()) if mode == "cbc" else ())


def enciphered(key, mode, chain, message):
    """The message enciphered from a chaining value."""
    return run_openssl(cipher_words(key, mode, chain), message)


def blocks(data):
    """The blocks of data, as literals of Rattle."""
    digits = [data[at:at + 8].hex().upper() for at in range(0, len(data), 8)]
    return ["0x" + "_".join(block[at:at + 4] for at in range(0, 16, 4)) for block in digits]


def texts():
    """The key of three parts, the chaining value, the message, and what it becomes."""
    return [THREE, CHAIN, MESSAGE, *(enciphered(key, mode, CHAIN, MESSAGE) for mode in MODES for key in KEYS.values())]


def check_modes():
    """Parts join, and what was enciphered is deciphered."""
    for key in KEYS.values():
        whole = enciphered(key, "cbc", CHAIN, MESSAGE)
        parts = enciphered(key, "cbc", CHAIN, MESSAGE[:16])
        parts += enciphered(key, "cbc", parts[-8:], MESSAGE[16:])
        assert whole == parts
        for mode in MODES:
            words = cipher_words(key, mode, CHAIN)
            assert run_openssl(("-d", *words), enciphered(key, mode, CHAIN, MESSAGE)) == MESSAGE


if __name__ == "__main__":
    check_known()
    check_modes()
    print(f"message {' '.join(blocks(MESSAGE))}")
    for name, key in KEYS.items():
        for mode in MODES:
            print(f"{name} {mode} {' '.join(blocks(enciphered(key, mode, CHAIN, MESSAGE)))}")
