#!/usr/bin/env python3
"""A valid message of each host command, cut before each byte behind its code, and with one byte appended.

    model/cut_rows.py [cases|script|output]

Prints messages with their answers, a script that sends them to lane 1 under the test set, or what that script prints.
The messages are the longest without trailer that the other scripts here have answered 00, and for BA and NG 17; those of
B2 and RA stand here. The answers are those of hsm_model.py. It needs the command openssl. Nothing of the crates is used.
"""
import sys

import data_rows
import key_rows
import pin_rows
from hsm_model import FIELDS, Messages
from hsm_values import print_groups


STATED = {"B2": "B20005Hello", "RA": "RA"}


def valid(code):
    """A message of the command that reads."""
    if code in STATED:
        return STATED[code]
    wanted = b"17" if code in ("BA", "NG") else b"00"
    found = [message for rows in (key_rows, pin_rows, data_rows) for group in rows.GROUPS.values()
             for message, answer in group().cases
             if message.startswith(code.encode()) and answer[2:4] == wanted and b"\x19" not in message]
    return max((message for message in found if len(message) <= 300), key=len).decode("latin-1")


def cuts():
    """Of each command the cut messages, then the longer one."""
    group = Messages()
    for message in map(valid, FIELDS):
        for text in [message[:size] for size in range(2, len(message))] + [message + "A"]:
            group.cases.append((text.encode("latin-1"), group.hsm.host(text.encode("latin-1"))))
    return group


GROUPS = {"cuts": cuts}


if __name__ == "__main__":
    print_groups(GROUPS, sys.argv[1:])
