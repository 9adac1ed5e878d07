"""Lanes that end, do not answer, or are used up."""
import socket
import unittest
import urllib.error
import urllib.request
from collections import Counter

from gateway.tests.harness import HEADER, WAIT, Laboratory, Peer, echo


class SlowPeer(Peer):
    """A client of whose replies the system holds few bytes."""

    def __init__(self, port: int) -> None:
        self.timeout, self.header = WAIT, HEADER
        self.stream = socket.socket()
        self.stream.setsockopt(socket.SOL_SOCKET, socket.SO_RCVBUF, 4096)
        self.stream.settimeout(WAIT)
        self.stream.connect(("127.0.0.1", port))


class Choice(unittest.TestCase):
    """The lane that a message is given to."""

    def test_the_lane_with_the_fewest_under_way(self) -> None:
        with Laboratory(hosts=3) as laboratory, laboratory.peer() as slow, laboratory.peer() as peer:
            slow.put(echo(b"!wait1500"))
            laboratory.until_under_way(1)
            # No message waits behind the slow one while other lanes have fewer.
            for number in range(20):
                self.assertEqual(peer.asked(echo(b"%d" % number)), b"B300%d" % number)
            self.assertEqual(laboratory.health()["under_way"], 1)
            # Of twenty at once each lane has seven in the end, the slow one six of them.
            texts = [b"!wait0100 %d" % number for number in range(20)]
            peer.put(*map(echo, texts))
            self.assertEqual([peer.reply() for _ in texts], [b"B300" + text for text in texts])
            self.assertEqual(slow.reply(), b"B300!wait1500")
            lines = laboratory.until(
                lambda: len(laboratory.messages()) == 41 and laboratory.messages(), "lines are wanting")
            held = next(line["lane"] for line in lines if line["micros"] > 1_400_000 and line["client"].endswith(
                f":{slow.stream.getsockname()[1]}"))
            early, late = lines[:20], lines[20:]
            self.assertNotIn(held, [line["lane"] for line in early])
            self.assertEqual(Counter(line["lane"] for line in late), {1: 7, 2: 7, 3: 7})


class Ending(unittest.TestCase):
    """One lane of several ends."""

    def ended(self, laboratory: Laboratory, text: bytes) -> None:
        """A client whose message ends its lane sees its connection end, and the message goes to no other lane."""
        with laboratory.peer() as peer:
            self.assertEqual(peer.asked(echo(b"before")), b"B300before")
            peer.put(echo(text))
            self.assertTrue(peer.is_ended())
        self.assertEqual(laboratory.seen_messages().count(echo(text)), 1)

    def test_a_lane_ends(self) -> None:
        with Laboratory(hosts=3) as laboratory, laboratory.peer() as other:
            self.assertEqual(other.asked(echo(b"other")), b"B300other")
            self.ended(laboratory, b"!close")
            self.assertEqual(other.asked(echo(b"other")), b"B300other")
            laboratory.until_told("lane", "taken out: the (module ended the connection|connection)")
            laboratory.until_serving()
            self.assertEqual(laboratory.health()["connections_left"], 3 * 15 - 1)
            self.assertEqual(laboratory.metric('messages_lost_total{cause="the lane ended"}'), 1)
            self.assertEqual(laboratory.metric("lanes_lost_total"), 1)
            (line,) = [line for line in laboratory.messages() if line["code"] is None]
            self.assertEqual((line["command"], line["lost"]), ("B2", "the lane ended"))
            self.assertIn(line["lane"], (1, 2, 3))

    def test_replies_before_the_lost_one(self) -> None:
        """Those that were sent before are answered first, though other lanes have them."""
        with Laboratory(hosts=3) as laboratory, laboratory.peer() as peer:
            peer.put(echo(b"!wait0300 first"), echo(b"!close"), echo(b"!wait0100 third"))
            self.assertEqual(peer.reply(), b"B300!wait0300 first")
            self.assertTrue(peer.is_ended())

    def test_replies_behind_the_lost_one(self) -> None:
        """They come from other lanes, are given to nobody, and hold up neither their lane nor the replies before."""
        with Laboratory(hosts=8, tables="[limits]\nclient_bytes = 1000000") as laboratory:
            peer = SlowPeer(laboratory.port)
            data = [b"!wait0400 %d" % number + bytes(60000) for number in range(6)]
            peer.put(*map(echo, data), echo(b"!close"), echo(b"!wait0800"))
            laboratory.until(lambda: laboratory.health()["messages"] == 7, "seven messages are not answered")
            for each in data:
                self.assertEqual(peer.reply(), b"B300" + each)
            self.assertTrue(peer.is_ended())
            peer.close()
            laboratory.until_serving()
            self.assertEqual(laboratory.health()["connections_left"], 8 * 15 - 1)

    def test_a_lane_that_does_not_answer(self) -> None:
        with Laboratory(hosts=3, tables="[limits]\nanswer_seconds = 0.7") as laboratory:
            self.ended(laboratory, b"!mute")
            laboratory.until_told("lane", "taken out: no answer within 0.7 s")
            self.assertEqual(laboratory.health()["lanes_serving"], 2)
            with laboratory.peer() as other:
                for number in range(20):
                    self.assertEqual(other.asked(echo(b"%d" % number)), b"B300%d" % number)
            laboratory.until_serving()

    def test_a_reply_with_another_header(self) -> None:
        with Laboratory(hosts=2) as laboratory:
            self.ended(laboratory, b"!other")
            laboratory.until_told("lane", "taken out: a reply that fits no message")
            laboratory.until_serving()

    def test_no_lane(self) -> None:
        """A message that no lane has room for in time: its client's connection ends, and the log tells why."""
        limits = "[limits]\nwait_seconds = 0.7\nlane_messages = 1"
        with Laboratory(hosts=1, tables=limits) as laboratory, laboratory.peer() as slow, laboratory.peer() as peer:
            slow.put(echo(b"!wait2000"))
            laboratory.until_under_way(1)
            peer.put(echo(b"late"))
            with laboratory.peer() as gone:
                gone.put(echo(b"gone"))
                laboratory.until_under_way(3)
                self.assertEqual(laboratory.metric('lane_under_way{lane="1"}'), 1)
                self.assertEqual(laboratory.metric("waiting_messages"), 2)
                gone.reset()
            self.assertTrue(peer.is_ended())
            self.assertEqual(slow.reply(), b"B300!wait2000")
            lost = {line["lost"]: line["command"] for line in laboratory.messages() if line["code"] is None}
            causes = "no lane had room for it in time", "the client had gone"
            self.assertEqual(lost, dict.fromkeys(causes, "B2"))
            for cause in causes:
                self.assertEqual(laboratory.metric(f'messages_lost_total{{cause="{cause}"}}'), 1)
            self.assertEqual(laboratory.seen_messages(), [echo(b"!wait2000")])


class UsedUp(unittest.TestCase):
    """Lanes whose connections are used up."""

    def test_few_are_left(self) -> None:
        """No more connections are made than `accept`, and each lane is told; then the program is a new one."""
        with Laboratory(hosts=2, accept=2) as laboratory:
            for _ in range(3):
                with laboratory.peer() as peer:
                    peer.put(echo(b"!close"))
                    self.assertTrue(peer.is_ended())
                laboratory.until(lambda: laboratory.health()["lanes_serving"], "no lane serves")
            laboratory.until_told("lane", "few connections are left before the lane ends: 0")
            laboratory.until_told("lane", "no connection is left")
            with laboratory.peer() as peer:
                peer.put(echo(b"!close"))
                self.assertTrue(peer.is_ended())
            laboratory.until_told("program", "no lane has a connection left: it is ended, and started anew")
            laboratory.until(lambda: laboratory.metric("program_starts_total") == 2, "no new start")
            laboratory.until_serving()
            self.assertEqual(laboratory.metric("lane_connections_total"), 2 * 2 + 2)
            self.assertEqual(laboratory.health()["connections_left"], 2)

    def test_a_lane_in_use(self) -> None:
        """Over a module that runs already: a lane that another client holds gets no message, and is told."""
        limits = "[limits]\nanswer_seconds = 0.5"
        with Laboratory(hosts=2, program=None, tables=limits, is_served=False) as laboratory, laboratory.module():
            laboratory.until_listening()
            with Peer(laboratory.lanes[0]) as holder:
                self.assertEqual(holder.asked(echo(b"mine")), b"B300mine")
                laboratory.start()
                laboratory.until_told("lane", "no answer to an echo: another client holds the lane, or ")
                laboratory.until_serving(1)
                with laboratory.peer() as peer:
                    for number in range(10):
                        self.assertEqual(peer.asked(echo(b"%d" % number)), b"B300%d" % number)
                self.assertEqual(holder.asked(echo(b"mine")), b"B300mine")
            laboratory.until_serving(2)
            # It waited with the one connection that it had made.
            self.assertEqual(laboratory.health()["connections_left"], 2 * 15)

    def test_a_module_that_runs_already(self) -> None:
        """It is waited for, and another one after it counts anew, though all connections were used up."""
        with Laboratory(hosts=1, accept=1, program=None, is_served=False) as laboratory:
            laboratory.start()
            self.assertFalse(laboratory.until(laboratory.health, "no answer")["serving"])
            with self.assertRaises(urllib.error.HTTPError) as caught:
                urllib.request.urlopen(f"http://127.0.0.1:{laboratory.watch}/health", timeout=WAIT)
            self.assertEqual(caught.exception.code, 503)
            caught.exception.close()
            for _ in range(2):
                with laboratory.module():
                    laboratory.until_serving()
                    with laboratory.peer() as peer:
                        self.assertEqual(peer.asked(echo(b"served")), b"B300served")
                        peer.put(echo(b"!close"))
                        self.assertTrue(peer.is_ended())
                    laboratory.until(lambda: laboratory.health()["lanes_spent"], "the lane is not used up")
            self.assertEqual(laboratory.metric("lane_connections_total"), 2)
            self.assertEqual(laboratory.stopped(), 0)


if __name__ == "__main__":
    unittest.main()
