"""Checks of the served program: its doors, and how connections end."""
import contextlib
import select
import signal
import socket
import time

from checks import Failed, same
from served import ADDRESS, ECHO, ECHOED, WAIT, WORKED, Served, framed, free_ports, serving_check


# Doors and ends of connections

@serving_check("a port that is taken")
def port_taken():
    for lane in 0, 1, 2:
        ports = free_ports(3)
        with socket.socket() as taken:
            taken.bind((ADDRESS, ports[lane]))
            taken.listen()
            with Served(ports=ports) as served:
                same(f"status, output and error with the port of lane {lane} taken", served.stopped(),
                     (3, "", f"hsm: no door for lane {lane}\n"))


@serving_check("each door is at its port of 127.0.0.1 and at no other address")
def addresses():
    with Served(hosts=2, accept=2) as served:
        for lane in 0, 1, 2:
            served.connect(lane).close()
        for port in served.ports:
            with socket.socket() as other, contextlib.suppress(ConnectionRefusedError):
                other.connect(("127.0.0.2", port))
                raise Failed(f"127.0.0.2 takes connections to port {port}")
        served.end(0, 0, 0, 0)


@serving_check("an accept that fails")
def accept_fails():
    # The standard streams and two listeners are open, and nothing else may be: then an accept fails at once.
    with Served(files=5) as served:
        same("status, output and error", served.stopped(), (
            7, "lane 0: 0 connections, 0 messages\nlane 1: 0 connections, 0 messages\n", ""))


@serving_check("clients that disconnect inside a frame")
def cut_frames():
    with Served(hosts=2, accept=4) as served:
        for part in b"\0", b"\0\x0a", framed(ECHO)[:-1]:
            with served.connect(1) as host:
                host.put(framed(ECHO), part)
                same("the reply before", host.reply(), ECHOED)
                host.end_input()
                host.wants_end()
        with served.connect(1) as host:
            host.wants(ECHO, ECHOED)
        served.end(6, 0, 4, 0)
    with Served() as served:
        with served.connect(0) as console:
            console.put(framed(b"VA", b""), framed(b"Q", b"")[:-1])
            same("the console's reply before", console.reply(), b"OK 0")
        served.end(6, 1, 0)


@serving_check("short frames")
def short_frames():
    with Served(accept=4) as served:
        for length in 5, 0:
            with served.connect(1) as host:
                host.put(framed(ECHO), length.to_bytes(2, "big"), framed(ECHO))
                same("the reply before", host.reply(), ECHOED)
                host.wants_end()
        with served.connect(1) as host:
            host.wants(b"ZZ", WORKED[b"ZZ"])  # the least length
        with served.connect(1) as host:
            host.wants(ECHO, ECHOED)
        served.end(6, 0, 4)
    with Served(accept=2) as served:
        with served.connect(0) as console:
            console.put(framed(b"VA", b""), bytes(2))
            same("the console's reply before", console.reply(), b"OK 0")
            console.wants_end()
        with served.connect(0) as console:
            console.wants(b"X", b"NO 68")
        served.end(6, 2, 0)


@serving_check("clients that send nothing")
def nothing_sent():
    with Served(hosts=2, accept=3) as served:
        for lane in 0, 1, 2:
            served.connect(lane).close()
            with served.connect(lane) as peer:
                peer.end_input()
                peer.wants_end()
        with served.connect(1) as host:
            host.wants(ECHO, ECHOED)
        served.end(0, 0, 1, 0)


@serving_check("a client that resets ends its own connection alone")
def reset():
    with Served(hosts=2, accept=3) as served, served.connect(2) as other, served.connect(0) as console:
        other.wants(ECHO, ECHOED)
        with served.connect(1) as host:
            host.wants(ECHO, ECHOED)
            host.reset()
        with served.connect(1) as host:
            host.put(framed(ECHO), framed(ECHO)[:3])
            same("a reply after the reset", host.reply(), ECHOED)
        with served.connect(1) as host:
            host.wants(ECHO, ECHOED)
        other.wants(ECHO, ECHOED)
        console.wants(b"VA", b"OK 0")
        other.close()
        console.close()
        # A fault counts before a cut frame.
        served.end(7, 1, 3, 2)


def fill(host, frames):
    """Sends frames and reads no reply, until the module can neither write one nor read more.

    Gives how many were begun, and what of the last one is still to be sent.
    """
    for buffer in socket.SO_RCVBUF, socket.SO_SNDBUF:
        host.stream.setsockopt(socket.SOL_SOCKET, buffer, 65536)
    host.stream.setblocking(False)
    count, rest = 0, b""
    while select.select([], [host.stream], [], 0.5)[1] and count < len(frames):
        if not rest:
            rest = frames[count]
            count += 1
        with contextlib.suppress(BlockingIOError):
            rest = rest[host.stream.send(rest):]
    host.stream.settimeout(WAIT)
    return count, rest


def long_echoes(count):
    """The data of so many echoes of 60,000 bytes, which all differ."""
    return [number.to_bytes(4, "big") * 15000 for number in range(count)]


@serving_check("clients that go away while their replies are written")
def gone_while_written():
    with Served(accept=3) as served:
        with served.connect(1) as host:
            host.put(framed(ECHO) * 50)
        with served.connect(1) as host:
            count, _ = fill(host, [framed(b"B2EA60" + data) for data in long_echoes(1000)])
            host.reset()
        with served.connect(1) as host:
            host.wants(ECHO, ECHOED)
        served.end(7, 0, range(2, 50 + count + 2))


@serving_check("while a client reads no reply, another host and the console are answered; then its replies come whole")
def replies_not_read():
    with Served(hosts=2) as served, served.connect(1) as silent:
        echoes = long_echoes(1000)
        count, rest = fill(silent, [framed(b"B2EA60" + data) for data in echoes])
        with served.connect(2) as host, served.connect(0) as console:
            for _ in range(10):
                host.wants(ECHO, ECHOED)
                console.wants(b"VA", b"OK 0")
        # A process that is stopped and goes on has written a part of its reply.
        served.process.send_signal(signal.SIGSTOP)
        time.sleep(0.1)
        served.process.send_signal(signal.SIGCONT)
        for number, data in enumerate(echoes[:count]):
            if number + 1 == count:
                silent.put(rest)
                silent.end_input()
            if silent.reply() != b"B300" + data:
                raise Failed(f"reply {number + 1} of {count} is another one")
        silent.wants_end()
        served.end(0, 10, count, 10)


@serving_check("connections of a lane are served one after another")
def one_after_another():
    with Served(accept=2) as served, served.connect(1) as first:
        first.wants(ECHO, ECHOED)
        with served.connect(1) as second:
            second.put(framed(b"NC"))
            same("before the first connection's end", select.select([second.stream], [], [], 0.3)[0], [])
            first.wants(ECHO, ECHOED)
            first.close()
            same("after it", second.reply(), WORKED[b"NC"])
        served.end(0, 0, 3)
