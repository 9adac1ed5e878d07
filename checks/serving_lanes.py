"""Checks of the served program: messages, 64 lanes at once, and a full output."""
import contextlib
import os
import random
import re
import threading
import time

from checks import Failed, Skipped, same
from served import (
    ECHO, ECHOED, HAS_MODEL, PIN_REFUSED, SHOW_PIN, WAIT, WORKED, Served, framed, serving_check)

if HAS_MODEL:
    import hsm_model
    from load import load
    from serving_days import is_drawn_key


# Messages

@serving_check("replies to messages that came together come in their order")
def in_order():
    with Served() as served, served.connect(1) as host:
        texts = [f"B20004{number:04}".encode() for number in range(300)]
        host.put(*(framed(text) for text in texts))
        host.end_input()
        for text in texts:
            same(f"the reply to {text!r}", host.reply(), b"B300" + text[6:])
        host.wants_end()
        served.end(0, 0, 300)


@serving_check("the longest message")
def longest():
    with Served() as served, served.connect(1) as host:
        data = random.Random(1).randbytes(65535 - 4 - 6)
        host.wants(b"B2FFF5" + data, b"B300" + data)
        host.put(framed(b"B2FFF5" + data) + framed(ECHO))
        same("the reply to it", host.reply(), b"B300" + data)
        same("the reply to the next one", host.reply(), ECHOED)
        host.close()
        served.end(0, 0, 3)


@serving_check("the moment is the system's, and each run draws other keys")
def moments_and_seeds():
    drawn = []
    for _ in range(2):
        with Served() as served, served.connect(0) as console, served.connect(1) as host:
            before = int(time.time())
            console.put(framed(b"Q", b""))
            reply = console.reply().decode()
            found = re.fullmatch("OK ([0-9]+) 0 0", reply)
            if not found or not before <= int(found[1]) <= int(time.time()):
                raise Failed(f"'Q' was answered {reply!r} after {before}")
            host.put(framed(b"A00001U"))
            drawn.append(host.reply())
            same("the start of a drawn key's reply", drawn[-1][:5], b"A100U")
            console.close()
            host.close()
            served.end(0, 1, 1)
    if drawn[0] == drawn[1]:
        raise Failed(f"both runs drew {drawn[0]!r}")


# 64 lanes at once

def lane_messages(rng, loads):
    """Messages of a lane with their answers. An answer of None holds a drawn key."""
    data = rng.randbytes(rng.randrange(1, 600))
    echo = f"B2{len(data):04X}".encode() + data
    trailer = b"\x19" + rng.randbytes(32)
    pairs = [*rng.sample(sorted(WORKED.items()), 5), (b"NO00", b"NP000064"), (b"BU015", b"BV05"), (echo, b"B300" + data),
             (echo + trailer, b"B300" + data + trailer), (SHOW_PIN, PIN_REFUSED), (b"A00001U", None),
             *rng.sample(loads, min(2, len(loads)))]
    rng.shuffle(pairs)
    return pairs


def cut_at_random(rng, stream):
    """The stream in pieces, of which many end inside a frame."""
    places = sorted(rng.sample(range(1, len(stream)), min(25, len(stream) - 1)))
    return [stream[start:end] for start, end in zip([0, *places], [*places, len(stream)])]


def talk(served, lane, rng, headers, texts, all_there, replies):
    """A lane's client: sends its pieces once all clients are there, and keeps its replies. Stays until all have theirs."""
    with served.connect(lane) as host:
        all_there.wait(2 * WAIT)
        for piece in cut_at_random(rng, b"".join(map(framed, texts, headers))):
            host.put(piece)
            time.sleep(rng.choice([0, 0, 0.002]))
        for header in headers:
            host.header = header
            replies.append(host.reply())
        all_there.wait(2 * WAIT)


def check_drawn(drawn):
    """The replies to A0 of all lanes hold keys that differ; by the model each is a ZPK with its check value."""
    for reply in drawn:
        if not re.fullmatch(b"A100U[0-9A-F]{38}", reply):
            raise Failed(f"A0 was answered {reply!r}")
    same("how many drawn keys differ", len({reply[4:37] for reply in drawn}), len(drawn))
    if not HAS_MODEL:
        return
    for reply in drawn[::8]:
        if not is_drawn_key("A00001U", reply.decode()):
            raise Failed(f"A0 was answered {reply!r}, which holds no key with its check value")


def lanes_of_messages(hosts):
    """The messages of each lane with their answers, which the model must give too."""
    if not HAS_MODEL:
        return [lane_messages(random.Random(lane), []) for lane in range(hosts)]
    loads = [(text.encode(), f"{text[0]}{chr(ord(text[1]) + 1)}00{fields}".encode()) for text, fields, _ in load(28)]
    lanes = [lane_messages(random.Random(lane), loads) for lane in range(hosts)]
    hsm = hsm_model.Hsm(hosts=hosts)
    for text, answer in [*WORKED.items(), *(pair for pairs in lanes for pair in pairs)]:
        if answer is not None:
            same(f"the model's answer to {text!r}", hsm.host(text), answer)
    return lanes


def compare_lanes(lanes, replies):
    for number, (pairs, came) in enumerate(zip(lanes, replies), 1):
        for (text, answer), reply in zip(pairs, came):
            if answer is not None:
                same(f"the reply to {text!r} of lane {number}", reply, answer)
        same(f"the number of replies of lane {number}", len(came), len(pairs))
    check_drawn([reply for pairs, came in zip(lanes, replies) for (_, answer), reply in zip(pairs, came)
                 if answer is None])


@serving_check("64 host lanes at once, messages cut at random")
def many_lanes():
    hosts = 64
    lanes = lanes_of_messages(hosts)
    with Served(hosts=hosts) as served:
        all_there = threading.Barrier(hosts + 1)
        clients, causes, replies = [], [], [[] for _ in lanes]
        for lane, pairs in enumerate(lanes):
            headers = [f"{lane:02}{number:02}".encode() for number in range(len(pairs))]
            texts = [text for text, _ in pairs]
            arguments = served, lane + 1, random.Random(lane), headers, texts, all_there, replies[lane]
            clients.append(threading.Thread(target=kept_cause, args=(causes, talk, *arguments), daemon=True))
            clients[-1].start()
        with served.connect(0) as console:
            with contextlib.suppress(threading.BrokenBarrierError):
                all_there.wait(2 * WAIT)
                console.wants(b"VA", b"OK 0")
                all_there.wait(2 * WAIT)
            for client in clients:
                client.join(2 * WAIT)
            if causes:
                raise Failed(f"{len(causes)} clients failed, the first one by {causes[0]!r}")
            compare_lanes(lanes, replies)
            # Each lane drew four words.
            console.put(framed(b"Q", b""))
            same("the reply to 'Q', without its moment", console.reply().split()[2:], [b"%d" % (4 * hosts), b"0"])
        served.end(0, 2, *map(len, lanes))


def kept_cause(causes, function, *arguments):
    """A client in a thread, whose failure is kept."""
    try:
        function(*arguments)
    except Exception as cause:  # what failed first is told
        causes.append(cause)


@serving_check("a full output")
def full_output():
    if not os.path.exists("/dev/full"):
        raise Skipped("no /dev/full")
    with open("/dev/full", "wb") as full, Served(output=full) as served:
        with served.connect(1) as host:
            host.wants(ECHO, ECHOED)
        served.connect(0).close()
        same("status, output and error", served.stopped(), (3, "", "hsm: output fault\n"))
