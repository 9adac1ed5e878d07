"""Clients that come and go, vanish, stall, send halves, and do not read: none holds up another."""
import os
import random
import resource
import select
import socket
import threading
import time
import unittest
from typing import Callable

from gateway.tests.harness import PROGRAM, STAND_IN, WAIT, ClientError, Laboratory, Peer, echo, framed, need_program

CLIENTS, THREADS = 500, 50


class Crowd:
    """Clients in threads; each sends messages of its own, ends in a way of its own, and looks at each reply."""

    def __init__(self, laboratory: Laboratory) -> None:
        self.laboratory = laboratory
        self.lock = threading.Lock()
        self.wrong: list[str] = []
        self.answered = 0
        self.numbers = iter(range(CLIENTS))

    def run(self) -> None:
        threads = [threading.Thread(target=self.work, daemon=True) for _ in range(THREADS)]
        for thread in threads:
            thread.start()
        for thread in threads:
            thread.join(3 * WAIT)

    def work(self) -> None:
        while True:
            with self.lock:
                number = next(self.numbers, None)
            if number is None or self.wrong:
                return
            try:
                self.client(number)
            except Exception as fault:  # the cause of each failure is told
                self.wrong.append(f"client {number}: {type(fault).__name__}: {fault}")

    def client(self, number: int) -> None:
        rng = random.Random(number)
        with self.laboratory.peer(number % len(self.laboratory.ports)) as peer:
            for turn in range(rng.randrange(1, 5)):
                texts = [echo(b"%d %d %d " % (number, turn, k) + rng.randbytes(rng.randrange(200)))
                         for k in range(rng.randrange(1, 6))]
                peer.put(*texts)
                for text in texts:
                    reply = peer.reply()
                    if reply != b"B300" + text[6:]:
                        self.wrong.append(f"client {number}: {text!r} was answered {reply!r}")
                with self.lock:
                    self.answered += len(texts)
            match number % 5:
                case 0:
                    peer.stream.sendall(framed(echo(b"cut"))[:rng.randrange(1, 12)])
                case 1:
                    peer.reset()
                case 2:
                    peer.stream.shutdown(socket.SHUT_WR)
                    if not peer.is_ended():
                        self.wrong.append(f"client {number}: no end behind the last reply")


class Many(unittest.TestCase):
    """500 clients over 8 lanes, of which each accepts 16 connections."""

    def crowd(self, program: str) -> None:
        with Laboratory(program=program, ports=2) as laboratory:
            crowd = Crowd(laboratory)
            crowd.run()
            self.assertEqual(crowd.wrong, [])
            laboratory.until(lambda: laboratory.health()["clients"] == 0, "clients are left")
            health = laboratory.health()
            # One connection a lane, whatever clients do.
            self.assertEqual((health["lanes_serving"], health["connections_left"]), (8, 8 * 15))
            self.assertEqual(laboratory.metric("clients_total"), CLIENTS)
            self.assertEqual(health["messages"], crowd.answered)
            self.assertEqual(laboratory.metric('messages_total{command="B2",code="00"}'), crowd.answered)

    def test_over_the_stand_in(self) -> None:
        self.crowd(STAND_IN)

    def test_over_the_program(self) -> None:
        need_program()
        self.crowd(PROGRAM)


class Stalling(unittest.TestCase):
    """Clients that stall."""

    def served_meanwhile(self, laboratory: Laboratory) -> None:
        """Another client is served."""
        with laboratory.peer() as other:
            for number in range(20):
                self.assertEqual(other.asked(echo(b"%d" % number)), b"B300%d" % number)

    def test_half_a_frame(self) -> None:
        with Laboratory(hosts=2, tables="[limits]\nhalf_frame_seconds = 0.5") as laboratory:
            for half in framed(echo(b"half"))[:-1], b"\0":
                with laboratory.peer() as peer:
                    peer.put(echo(b"whole"))
                    peer.stream.sendall(half)
                    self.assertEqual(peer.reply(), b"B300whole")
                    began = time.monotonic()
                    self.served_meanwhile(laboratory)
                    self.assertTrue(peer.is_ended())
                    self.assertLess(time.monotonic() - began, 5)
            self.assertEqual(laboratory.metric('clients_ended_total{cause="half frame"}'), 2)
            self.assertTrue(laboratory.until_told("client", "half a frame for 0.5 s"))

    def test_a_byte_at_a_time(self) -> None:
        """A frame that never ends has its time as a whole; one that ends is answered, however it is cut."""
        with Laboratory(hosts=2, tables="[limits]\nhalf_frame_seconds = 1") as laboratory, laboratory.peer() as peer:
            frame = framed(echo(b"slow"))
            for at in range(len(frame)):
                peer.stream.sendall(frame[at:at + 1])
                time.sleep(0.005)
            self.assertEqual(peer.reply(), b"B300slow")
            began = time.monotonic()
            with self.assertRaises(OSError):
                for byte in framed(echo(bytes(2000))):
                    peer.stream.sendall(bytes([byte]))
                    time.sleep(0.02)
            self.assertLess(time.monotonic() - began, 10)

    def test_a_client_that_never_reads(self) -> None:
        """It is not read from for long, its replies are not kept without bound, and its connection ends."""
        limits = "[limits]\nunread_seconds = 2\nanswer_seconds = 20"
        with Laboratory(hosts=2, tables=limits) as laboratory, laboratory.peer() as peer:
            before = memory(laboratory)
            taken = sent_until_stopped(peer, framed(echo(bytes(60000))), 60_000_000)
            self.assertLess(taken, 8_000_000)
            self.served_meanwhile(laboratory)
            self.assertLess(memory(laboratory) - before, 4_000)
            laboratory.until_told("client", "replies were not read for 2 s")
            self.assertEqual(laboratory.metric('clients_ended_total{cause="unread"}'), 1)

    def test_a_client_that_reads_late(self) -> None:
        """Of thousands of messages at once few are under way while the lanes are slow; all are answered in order."""
        with Laboratory(hosts=2) as laboratory, laboratory.peer() as peer:
            texts = [b"!wait0700", b"!wait0700", *(b"%05d" % number for number in range(5000))]
            sender = threading.Thread(target=peer.put, args=map(echo, texts))
            sender.start()
            laboratory.until_under_way(3)
            time.sleep(0.3)
            self.assertLessEqual(laboratory.health()["under_way"], 64)
            for text in texts:
                self.assertEqual(peer.reply(), b"B300" + text)
            sender.join()

    def test_few_bytes_under_way(self) -> None:
        """Of many messages at once those are under way that reach `client_bytes`, and no more."""
        with Laboratory(hosts=2, tables="[limits]\nclient_bytes = 1000") as laboratory, laboratory.peer() as peer:
            texts = [b"!wait0300 %d" % number + bytes(388) for number in range(8)]
            peer.put(*map(echo, texts))
            laboratory.until_under_way(3)
            time.sleep(0.1)
            self.assertEqual(laboratory.health()["under_way"], 3)
            self.assertEqual([peer.reply() for _ in texts], [b"B300" + text for text in texts])

    def test_a_client_that_vanishes(self) -> None:
        """Its machine is gone without a word; probes find that out."""
        with Laboratory(hosts=2, tables="[limits]\nkeepalive_seconds = 1") as laboratory:
            peer = Peer(laboratory.port)
            self.assertEqual(peer.asked(echo(b"here")), b"B300here")
            self.assertEqual(laboratory.health()["clients"], 1)
            try:
                # In this mode a socket closes without a segment on its way.
                peer.stream.setsockopt(socket.IPPROTO_TCP, 19, 1)
            except OSError as fault:
                raise unittest.SkipTest(f"no TCP_REPAIR: {fault}") from None
            peer.close()
            laboratory.until(lambda: laboratory.health()["clients"] == 0, "the client is still there")

    def test_short_frames(self) -> None:
        """The messages before are answered, and the short frame goes to no lane."""
        with Laboratory(hosts=1) as laboratory:
            for length in 0, 5:
                with laboratory.peer() as peer:
                    peer.stream.sendall(framed(echo(b"one")) + length.to_bytes(2, "big") + framed(echo(b"two")))
                    self.assertEqual(peer.reply(), b"B300one")
                    self.assertTrue(peer.is_ended())
            self.assertEqual(laboratory.seen_messages(), 2 * [echo(b"one")])
            self.assertEqual(laboratory.health()["lanes_serving"], 1)
            self.assertEqual(laboratory.metric('clients_ended_total{cause="short frame"}'), 2)
            laboratory.until_told("client", "a frame of the length 5, and the header and a command code have 6")

    def test_too_many_clients(self) -> None:
        with Laboratory(hosts=1, tables="[limits]\nclients = 3") as laboratory:
            peers = [Peer(laboratory.port) for _ in range(3)]
            for peer in peers:
                self.assertEqual(peer.asked(echo(b"in")), b"B300in")
            with laboratory.peer() as one_more:
                self.assertTrue(one_more.is_ended())
            self.assertEqual(laboratory.metric('clients_refused_total{cause="too many"}'), 1)
            laboratory.until_told("refused", "there are 3 clients, and no more are let in")
            peers[0].close()
            laboratory.until(lambda: laboratory.health()["clients"] == 2, "a client is still there")
            with laboratory.peer() as again:
                self.assertEqual(again.asked(echo(b"again")), b"B300again")
            for peer in peers[1:]:
                peer.close()


    def test_no_descriptor_is_left(self) -> None:
        """No client is let in for a second, and that is told; those that are in are served, and others later."""
        with Laboratory(hosts=1) as laboratory, laboratory.peer() as inside:
            self.assertEqual(inside.asked(echo(b"in")), b"B300in")
            assert laboratory.process is not None
            pid = laboratory.process.pid
            most = resource.prlimit(pid, resource.RLIMIT_NOFILE)
            used = set(map(int, os.listdir(f"/proc/{pid}/fd")))
            resource.prlimit(pid, resource.RLIMIT_NOFILE, (min(set(range(len(used) + 1)) - used), most[1]))
            with laboratory.peer() as waiting:
                waiting.put(echo(b"waits"))
                laboratory.until_told("refused", "no client is let in for now: Too many open files")
                self.assertEqual(inside.asked(echo(b"still")), b"B300still")
                resource.prlimit(pid, resource.RLIMIT_NOFILE, most)
                self.assertEqual(waiting.reply(), b"B300waits")
            self.assertGreaterEqual(laboratory.metric('clients_refused_total{cause="no descriptor"}'), 1)


def memory(laboratory: Laboratory) -> int:
    """The resident memory of the gateway, in kB."""
    assert laboratory.process is not None
    with open(f"/proc/{laboratory.process.pid}/status", encoding="ascii") as file:
        return next(int(line.split()[1]) for line in file if line.startswith("VmRSS"))


def sent_until_stopped(peer: Peer, frame: bytes, most: int) -> int:
    """Sends frames until the other side takes nothing more for a second, or so many bytes were sent. Gives how many."""
    peer.stream.setblocking(False)
    sent, rest = 0, b""
    while sent < most and select.select([], [peer.stream], [], 1.0)[1]:
        rest = rest or frame
        try:
            count = peer.stream.send(rest)
        except (BlockingIOError, ConnectionError):
            break
        sent, rest = sent + count, rest[count:]
    return sent


class Order(unittest.TestCase):
    """Replies, in the order of a client's messages, whatever lane answered first."""

    def test_order(self) -> None:
        rng = random.Random(1)
        with Laboratory(hosts=8) as laboratory:
            wrong: list[str] = []
            threads = [threading.Thread(target=self.talk, args=(laboratory, number, rng.random(), wrong.append))
                       for number in range(8)]
            for thread in threads:
                thread.start()
            for thread in threads:
                thread.join(WAIT)
            self.assertEqual(wrong, [])

    def talk(self, laboratory: Laboratory, number: int, seed: float, tell: Callable[[str], None]) -> None:
        rng = random.Random(seed)
        texts = [echo(b"!wait%04d %d %d" % (rng.choice([0, 0, 0, 1, 5, 20]), number, k)) for k in range(100)]
        try:
            with laboratory.peer(header=b"%04d" % number) as peer:
                peer.put(*texts)
                for text in texts:
                    reply = peer.reply()
                    if reply != b"B300" + text[6:]:
                        tell(f"{text!r} was answered {reply!r}")
        except (ClientError, OSError) as fault:
            tell(f"client {number}: {fault}")


if __name__ == "__main__":
    unittest.main()
