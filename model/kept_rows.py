#!/usr/bin/env python3
"""Prints connections of a lane, their replies, and how often an opened key was found by the end of each.

    model/kept_rows.py

A lane keeps the last 64 keys that its messages opened, by type, scheme and text, from one connection to the next. Each
connection is printed as frames, replies and hits; crates/test_lanes/src/kept.rt has them. It needs the command
openssl. Nothing of the crates is used.
"""
from hsm_model import Hsm, digits_of, scheme_of
from hsm_values import ONE, SET_EQUAL, SET_T, sealed


class Lane(Hsm):
    """A module with the opened keys that a lane keeps, the oldest first."""

    def __init__(self, lmks):
        super().__init__(lmks)
        self.kept, self.hits = [], 0

    def lmk_key(self, code, text, parity, **asked):
        key = super().lmk_key(code, text, parity, **asked)
        entry = (code, scheme_of(text), digits_of(text))
        if entry in self.kept:
            self.hits += 1
        else:
            self.kept = [*self.kept, entry][-64:]
        return key

    def connection(self, *messages):
        """The frames of these messages, those of their replies, and the hits at the end."""
        header = b"0001"
        sent = b"".join(framed(header + message) for message in messages)
        return sent, b"".join(framed(header + self.host(message)) for message in messages), self.hits


def framed(body):
    return len(body).to_bytes(2, "big") + body


def lanes():
    """The connections of each lane."""
    asked, lane = b"BU010" + sealed("001", "Z", ONE, SET_T).encode(), Lane(SET_T)
    yield [lane.connection(asked, asked, asked), lane.connection(asked)]
    key = sealed("001", "Z", ONE, SET_EQUAL).encode()
    yield [Lane(SET_EQUAL).connection(b"CC" + key + key + b"12D5D44FF720683D0D0101123456789012")]
    yield [Lane(SET_EQUAL).connection(*[b"BU010" + key] * 10)]


if __name__ == "__main__":
    for number, connections in enumerate(lanes()):
        for frames, replies, found in connections:
            print(f"lane {number}: {found}\n  {frames}\n  {replies}")
