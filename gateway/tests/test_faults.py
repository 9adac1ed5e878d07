"""The rules for tests of a switch: what is named happens, to as many messages as are named, and nothing else does."""
import time
import unittest

from gateway import settings
from gateway.faults import Faults, refused
from gateway.tests.harness import Laboratory, echo, framed


class Choice(unittest.TestCase):
    """Which messages a rule applies to."""

    def test_share_and_command(self) -> None:
        faults = Faults((settings.FaultRule("drop", "CA", 0.25), settings.FaultRule("refuse", None, 0.5)), seed=7)
        chosen = [faults.choose(b"CA") for _ in range(10_000)]
        acts = [rule.act if rule else None for rule in chosen]
        self.assertAlmostEqual(acts.count("drop") / 10_000, 0.25, delta=0.02)
        self.assertAlmostEqual(acts.count("refuse") / 10_000, 0.375, delta=0.02)
        self.assertNotIn("drop", [rule and rule.act for rule in (faults.choose(b"CC") for _ in range(1000))])
        again = Faults((settings.FaultRule("drop", "CA", 0.25), settings.FaultRule("refuse", None, 0.5)), seed=7)
        self.assertEqual(acts, [rule.act if rule else None for rule in (again.choose(b"CA") for _ in range(10_000))])

    def test_the_reply_of_a_rule(self) -> None:
        self.assertEqual(refused(framed(b"CA12"), 4, "15", b""), framed(b"CB15"))
        self.assertEqual(refused(framed(b"Z\xff"), 4, "68", b"\x19end"), framed(b"Z\x0068\x19end"))
        self.assertEqual(refused(b"\0\x02NC", 0, "99", b""), b"\0\x04ND99")


class Acts(unittest.TestCase):
    """Each act, over a gateway."""

    def laboratory(self, rule: str) -> Laboratory:
        return Laboratory(hosts=2, tables=f"[[fault]]\n{rule}")

    def test_delay(self) -> None:
        with self.laboratory('act = "delay"\ncommand = "B2"\nmilliseconds = 400') as laboratory:
            with laboratory.peer() as peer:
                began = time.monotonic()
                peer.put(echo(b"late"), b"NC")
                self.assertEqual(peer.reply(), b"B300late")
                self.assertGreaterEqual(time.monotonic() - began, 0.4)
                self.assertEqual(peer.reply()[:4], b"ND00")
            line, _ = sorted(laboratory.until(
                lambda: len(laboratory.messages()) == 2 and laboratory.messages(), "no two lines"),
                key=lambda line: line["command"])
            self.assertEqual((line["command"], line["fault"]), ("B2", "delay"))
            self.assertEqual(laboratory.metric('messages_changed_total{act="delay"}'), 1)

    def test_refuse_and_code(self) -> None:
        rules = 'act = "refuse"\ncommand = "NC"\n[[fault]]\nact = "code"\ncommand = "NO"\ncode = "41"'
        with self.laboratory(rules) as laboratory, laboratory.peer() as peer:
            peer.put(b"NC", b"NO00\x19end", b"NO00", echo(b"as it is"))
            self.assertEqual([peer.reply() for _ in range(4)], [b"ND68", b"NP41\x19end", b"NP41", b"B300as it is"])
            # The module saw the last one alone.
            self.assertEqual(laboratory.seen_messages(), [echo(b"as it is")])
            self.assertEqual(laboratory.metric('messages_changed_total{act="code"}'), 2)
            self.assertEqual(laboratory.metric('messages_total{command="NC",code="68"}'), 1)

    def test_drop(self) -> None:
        with self.laboratory('act = "drop"\ncommand = "NC"') as laboratory, laboratory.peer() as peer:
            peer.put(echo(b"!wait0200"), b"NC", echo(b"behind"))
            self.assertEqual(peer.reply(), b"B300!wait0200")
            self.assertTrue(peer.is_ended())
            self.assertNotIn(b"NC", laboratory.seen_messages())
            self.assertEqual(laboratory.metric('messages_lost_total{cause="a rule drops it"}'), 1)
            self.assertEqual(laboratory.metric('messages_changed_total{act="drop"}'), 1)

    def test_silence(self) -> None:
        with self.laboratory('act = "silence"\ncommand = "NC"') as laboratory, laboratory.peer() as peer:
            peer.put(b"NC", echo(b"behind"))
            self.assertEqual(peer.reply(), b"B300behind")
            self.assertEqual(laboratory.seen_messages(), [echo(b"behind")])
            self.assertEqual(laboratory.metric('messages_changed_total{act="silence"}'), 1)
            lines = laboratory.until(lambda: len(laboratory.messages()) == 2 and laboratory.messages(), "no two lines")
            (line,) = [line for line in lines if line["code"] is None]
            self.assertEqual((line["command"], line["lane"], line["fault"]), ("NC", 0, "silence"))

    def test_a_share(self) -> None:
        rule = 'act = "code"\ncommand = "B2"\nshare = 0.3\ncode = "99"'
        with self.laboratory(rule) as laboratory, laboratory.peer() as peer:
            texts = [echo(b"%03d" % number) for number in range(400)]
            peer.put(*texts)
            replies = [peer.reply() for _ in texts]
            changed = replies.count(b"B399")
            self.assertTrue(80 <= changed <= 160, changed)
            for text, reply in zip(texts, replies):
                self.assertIn(reply, (b"B399", b"B300" + text[6:]))
            self.assertEqual(len(laboratory.seen_messages()), 400 - changed)

    def test_none_unless_named(self) -> None:
        with Laboratory(hosts=2) as laboratory, laboratory.peer() as peer:
            peer.put(*[echo(b"%d" % number) for number in range(200)])
            for number in range(200):
                self.assertEqual(peer.reply(), b"B300%d" % number)
            self.assertNotIn("messages_changed", laboratory.get("/metrics"))


if __name__ == "__main__":
    unittest.main()
