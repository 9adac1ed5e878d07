#!/usr/bin/env python3
"""Prints scripts that are made of a count of messages and a seed, and what a run of one sums up to.

    model/make_rows.py numbers COUNT SEED    for each message its number, its kind and the size of its first piece
    model/make_rows.py script COUNT SEED     the script
    model/make_rows.py output COUNT SEED     what it prints under the test set with one host lane
    model/make_rows.py summary COUNT SEED    the line of `make COUNT SEED`

The answers are those of hsm_model.py. It needs the command openssl. Nothing of the crates is used.
"""
import hashlib
import itertools
import re
import sys

from hsm_model import Hsm, run_script
from hsm_values import HEADER, ONE, check_known, framed, sealed


def numbers(count, seed):
    """The numbers of the messages (a linear congruential generator modulo 2**31)."""
    stream = itertools.accumulate(itertools.repeat(seed % 2**31), lambda x, _: (x * 1103515245 + 12345) % 2**31)
    return itertools.islice(stream, 1, count + 1)


def kind_of(x):
    return x // 65536 % 5


def first_size(x):
    return 1 + x % 7


def lines(x):
    """The lines of the message of a number."""
    if kind_of(x) == 4:
        return ["C GC 001 Z"]
    text = [f"B20008{x:08X}", "A00001U", "JA12345678901204", "BU010" + sealed("001", "Z", ONE)][kind_of(x)]
    digits = framed(HEADER + text.encode())
    cut = 2 * first_size(x)
    return ["L1 " + digits[:cut], "L1 " + digits[cut:]]


def script(count, seed):
    return "".join(line + "\n" for x in numbers(count, seed) for line in lines(x)).encode()


def output(count, seed):
    printed, status = run_script(Hsm(hosts=1), script(count, seed))
    assert status == 0
    return printed


def summary(count, seed):
    printed = output(count, seed)
    texts = printed.decode().splitlines()
    replies = [text for text in texts if re.match("C|L1", text)]
    ok = sum(bool(re.match("C OK|L1 .{16}3030", text)) for text in replies)
    return f"MADE {count} {ok} {len(replies) - ok} {hashlib.sha256(printed).hexdigest()}\n".encode()


def number_lines(count, seed):
    return "".join(f"{x} {kind_of(x)} {first_size(x)}\n" for x in numbers(count, seed)).encode()


if __name__ == "__main__":
    check_known()
    prints = {"numbers": number_lines, "script": script, "output": output, "summary": summary}[sys.argv[1]]
    sys.stdout.buffer.write(prints(int(sys.argv[2]), int(sys.argv[3])))
