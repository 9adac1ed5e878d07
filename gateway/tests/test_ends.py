"""A program that is killed under load, and the end of the gateway itself."""
import asyncio
import os
import signal
import subprocess
import threading
import time
import unittest
from collections import Counter
from typing import Callable
from unittest import mock

from gateway import journal, program
from gateway.figures import Figures
from gateway.tests.harness import PROGRAM, STAND_IN, WAIT, ClientError, Laboratory, Peer, echo, need, need_program


class Load:
    """Clients that send messages which differ, the next ones behind each reply, and make connections anew."""

    def __init__(self, laboratory: Laboratory, clients: int, under_way: int) -> None:
        self.laboratory, self.under_way = laboratory, under_way
        self.wrong: list[str] = []
        self.answered = self.ended = 0
        self.stop = threading.Event()
        self.lock = threading.Lock()
        self.threads = [threading.Thread(target=self.work, args=(number,), daemon=True) for number in range(clients)]

    def __enter__(self) -> "Load":
        for thread in self.threads:
            thread.start()
        return self

    def __exit__(self, *_: object) -> None:
        self.stop.set()
        for thread in self.threads:
            thread.join(2 * WAIT)
        if any(thread.is_alive() for thread in self.threads):
            self.wrong.append("a client was neither answered nor saw its connection end")

    def work(self, number: int) -> None:
        turn = 0
        while not self.stop.is_set():
            try:
                with self.laboratory.peer() as peer:
                    while not self.stop.is_set():
                        turn += 1
                        self.turn(peer, number, turn)
            except ConnectionRefusedError:
                time.sleep(0.05)
            except (ClientError, OSError) as fault:
                if "within" in str(fault) or "header" in str(fault):
                    self.wrong.append(f"client {number}: {fault}")
                    return
                self.ended += 1

    def turn(self, peer: Peer, number: int, turn: int) -> None:
        """A few messages at once; each reply must be that to its message."""
        texts = [echo(b"%d %d %d" % (number, turn, k)) for k in range(self.under_way)]
        peer.put(*texts)
        for text in texts:
            reply = peer.reply()
            if reply != b"B300" + text[6:]:
                self.wrong.append(f"{text!r} was answered {reply!r}")
            with self.lock:
                self.answered += 1

    def until(self, more: int) -> None:
        """Waits until so many messages more are answered."""
        wanted = self.answered + more
        self.laboratory.until(lambda: self.answered >= wanted or self.wrong, "messages are not answered")


class Killed(unittest.TestCase):
    """The program is killed while clients use it."""

    def killed(self, laboratory: Laboratory, before: Callable[[int], None]) -> None:
        """Kills the program, after what is done before, and waits until the next one serves."""
        pid = laboratory.started()[0]
        before(pid)
        os.kill(pid, signal.SIGKILL)
        laboratory.until(lambda: laboratory.health()["lanes_serving"] == 0, "the lanes still serve")
        laboratory.until_serving()

    def under_load(self, path: str, before: Callable[[Laboratory, int], None]) -> None:
        """Kills a program twice: each message is answered, or its client sees its connection end."""
        with Laboratory(program=path) as laboratory:
            with Load(laboratory, 20, 5) as load:
                for _ in range(2):
                    load.until(300)
                    self.killed(laboratory, lambda pid: before(laboratory, pid))
                load.until(300)
            self.assertEqual(load.wrong, [])
            self.assertGreater(load.ended, 0)
            self.assertEqual(laboratory.metric("program_starts_total"), 3)
            self.assertEqual(len([told for told in laboratory.events("program") if "ended with status 137" in told]), 2)
            # A reply may be on its way to a client that no longer waits for it.
            laboratory.until(lambda: sum(line["code"] == "00" for line in laboratory.messages()) >= load.answered,
                             "lines are wanting")
            if path == STAND_IN:
                twice = [text for text, count in Counter(laboratory.seen_messages()).items() if count > 1]
                self.assertEqual(twice, [])

    def stopped(self, laboratory: Laboratory, pid: int) -> None:
        """The program is stopped first, so that it has messages without replies when it is killed."""
        os.kill(pid, signal.SIGSTOP)
        laboratory.until_under_way(10)

    def test_the_stand_in(self) -> None:
        self.under_load(STAND_IN, self.stopped)

    def test_the_program(self) -> None:
        need_program()
        self.under_load(PROGRAM, self.stopped)

    def test_a_message_that_was_read(self) -> None:
        """The program has read it when it is killed: the next program never sees it."""
        text = echo(b"!wait9000 read")
        with Laboratory(hosts=2) as laboratory, laboratory.peer() as peer:
            peer.put(text)
            self.killed(laboratory, lambda _: laboratory.until_seen(text))
            self.assertTrue(peer.is_ended())
            with laboratory.peer() as other:
                self.assertEqual(other.asked(echo(b"later")), b"B300later")
            self.assertEqual(laboratory.seen_messages(), [text, echo(b"later")])


class Stopped(unittest.TestCase):
    """SIGTERM, and SIGINT."""

    def test_messages_under_way_are_answered(self) -> None:
        for number in signal.SIGTERM, signal.SIGINT:
            with Laboratory(hosts=2) as laboratory, laboratory.peer() as peer, laboratory.peer() as idle:
                self.assertEqual(idle.asked(echo(b"idle")), b"B300idle")
                peer.put(echo(b"!wait0500"), echo(b"!wait0300 second"))
                laboratory.until_under_way(2)
                assert laboratory.process is not None
                laboratory.process.send_signal(number)
                laboratory.until_told("gateway", "takes no more messages")
                idle.put(echo(b"too late"))
                self.assertEqual((peer.reply(), peer.reply()), (b"B300!wait0500", b"B300!wait0300 second"))
                self.assertTrue(peer.is_ended())
                self.assertTrue(idle.is_ended())
                with self.assertRaises(ConnectionRefusedError):
                    Peer(laboratory.port)
                # The program was ended by SIGTERM, which is its status.
                self.assertEqual(laboratory.process.wait(WAIT), 128 + signal.SIGTERM)
                self.assertEqual(laboratory.started(), [])
                self.assertNotIn(echo(b"too late"), laboratory.seen_messages())

    def test_a_message_that_is_never_answered(self) -> None:
        with Laboratory(hosts=1, tables="[limits]\ndrain_seconds = 0.5") as laboratory, laboratory.peer() as peer:
            peer.put(echo(b"!mute"))
            laboratory.until_under_way(1)
            began = time.monotonic()
            self.assertEqual(laboratory.stopped(), 143)
            self.assertLess(time.monotonic() - began, 5)
            self.assertTrue(peer.is_ended())

    def test_a_second_signal(self) -> None:
        """It ends the waiting for replies."""
        limits = "[limits]\ndrain_seconds = 60\nanswer_seconds = 60"
        with Laboratory(hosts=1, tables=limits) as laboratory, laboratory.peer() as peer:
            peer.put(echo(b"!mute"))
            laboratory.until_under_way(1)
            assert laboratory.process is not None
            laboratory.process.terminate()
            laboratory.until_told("gateway", "takes no more messages")
            with self.assertRaises(subprocess.TimeoutExpired):
                laboratory.process.wait(0.5)
            began = time.monotonic()
            self.assertEqual(laboratory.stopped(), 143)
            self.assertLess(time.monotonic() - began, 10)
            self.assertTrue(peer.is_ended())

    def test_a_gateway_that_is_killed(self) -> None:
        """Its program ends with it, so that its ports are free."""
        need("setpriv")
        with Laboratory(hosts=1) as laboratory:
            (pid,) = laboratory.started()
            self.assertEqual(laboratory.stopped(signal.SIGKILL), -signal.SIGKILL)
            end = time.monotonic() + WAIT
            while os.path.exists(f"/proc/{pid}") and time.monotonic() < end:
                time.sleep(0.02)
            self.assertFalse(os.path.exists(f"/proc/{pid}"))

    def test_the_programs_own_status(self) -> None:
        """A program that ends in the same way at each start is not started for ever."""
        with Laboratory(hosts=1, program="./fails", is_served=False) as laboratory:
            laboratory.write("fails", "#!/bin/sh\nexit 3\n")
            os.chmod(laboratory.path("fails"), 0o755)
            laboratory.start()
            assert laboratory.process is not None
            laboratory.until_told("program", "ended with status 3")
            laboratory.until(lambda: laboratory.metric("program_starts_total") == 2, "no second start")
            self.assertEqual(laboratory.stopped(), 3)

    def test_a_program_that_fails_at_each_start(self) -> None:
        """It is started ten times, without the pauses between them here, and its line is kept."""
        with Laboratory(hosts=1, is_served=False) as laboratory:
            laboratory.write("fails", "#!/bin/sh\necho 'hsm: no door for lane 0' >&2\nexit 3\n")
            os.chmod(laboratory.path("fails"), 0o755)
            with mock.patch.object(program, "AGAIN_SECONDS", 0.01):
                status, in_vain, starts = asyncio.run(self.ran(laboratory))
            self.assertEqual((status, starts), (3, 10))
            self.assertEqual(in_vain, "the program ended 10 times within 60 s, at last with status 3: "
                             "hsm: no door for lane 0")

    async def ran(self, laboratory: Laboratory) -> tuple[int, str, int]:
        """The last status of the program, why it is not started again, and how often it was."""
        log, figures = journal.Journal(os.open(os.devnull, os.O_WRONLY), asyncio.get_running_loop()), Figures([])
        running = program.Program(laboratory.path("fails"), "module.toml", log, figures, lambda: None)
        return await running.run(), running.in_vain, figures.counted["program_starts", ""]


if __name__ == "__main__":
    unittest.main()
