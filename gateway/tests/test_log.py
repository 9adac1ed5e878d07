"""The log and the metrics: what they say of each message, and what they never say."""
import calendar
import re
import time
import unittest

from gateway.figures import BOUNDS, Figures
from gateway.tests.harness import Laboratory, echo, framed

# Made-up texts, in messages that read, that do not, and that begin at another place than the gateway thinks.
SECRETS = ["U70608A485781E63A744063451C9937C8", "783D054D5587C8BD8FB88A71AC1A5C5D", "5E6CD2CEB7124BBF",
           "4123456789012345678", "987654321098", "7391FFFFFFFF", "the amount of a purchase"]
KEY, PAIR, BLOCK, CARD, ACCOUNT, PIN, DATA = (text.encode() for text in SECRETS)
MESSAGES = [
    b"CA" + KEY + KEY + b"12" + BLOCK + b"0101" + ACCOUNT, b"CA" + KEY + KEY + b"12" + BLOCK + b"0199" + ACCOUNT,
    b"CA" + KEY + b"Q" + KEY, b"BA" + PIN + ACCOUNT, b"CY" + PAIR + b"568" + CARD + b";8701101",
    b"NG" + ACCOUNT + BLOCK, b"DG" + PAIR + BLOCK + ACCOUNT + b"X", KEY + BLOCK, ACCOUNT, PIN, CARD,
    b"M600031008" + KEY + b"0018" + DATA, b"B20000\x19" + PIN, b"ZZ" + KEY, b"B2FFFF" + DATA]


def sent(laboratory: Laboratory) -> None:
    """Sends all messages, and waits until each has its line in the log."""
    for text in MESSAGES:
        with laboratory.peer() as peer:
            peer.asked(text)
    # A client whose header is shorter than the gateway's, and one that ends inside a frame.
    with laboratory.peer(header=b"") as peer:
        peer.stream.sendall(framed(b"CA" + KEY + KEY, b""))
        peer.receive()
    with laboratory.peer() as peer:
        peer.stream.sendall(framed(b"BA" + PIN + ACCOUNT)[:-1])
        peer.stream.shutdown(1)
        assert peer.is_ended()
    laboratory.until(lambda: len(laboratory.messages()) == len(MESSAGES) + 1, "lines are wanting")


class Lines(unittest.TestCase):
    """A line a message."""

    def test_what_a_line_says(self) -> None:
        with Laboratory(hosts=2) as laboratory:
            with laboratory.peer() as peer:
                peer.put(b"NC", b"QQ")
                self.assertEqual(peer.reply()[:4], b"ND00")
                self.assertEqual(peer.reply(), b"QR68")
                name = "127.0.0.1:%d" % peer.stream.getsockname()[1]
            lines = laboratory.until(lambda: len(laboratory.messages()) == 2 and laboratory.messages(), "no two lines")
            good, bad = sorted(lines, key=lambda line: line["code"])
            self.assertEqual(sorted(good), ["client", "code", "command", "lane", "micros", "time"])
            self.assertEqual((good["client"], good["command"], good["code"]), (name, "NC", "00"))
            self.assertIn(good["lane"], (1, 2))
            self.assertIsInstance(good["micros"], int)
            moment = calendar.timegm(time.strptime(good["time"][:19], "%Y-%m-%dT%H:%M:%S"))
            self.assertLess(abs(moment - time.time()), 60)
            self.assertRegex(good["time"], r"^20\d\d-\d\d-\d\dT\d\d:\d\d:\d\d\.\d{6}Z$")
            self.assertEqual((bad["command"], bad["code"], bad["check"], bad["refusal"], bad["unknown"]), (
                "other", "68", "command", "no such command", "QQ"))

    def test_the_time_a_message_took(self) -> None:
        with Laboratory(hosts=1) as laboratory, laboratory.peer() as peer:
            began = time.monotonic()
            self.assertEqual(peer.asked(echo(b"!wait0200")), b"B300!wait0200")
            most = (time.monotonic() - began) * 1_000_000
            (line,) = laboratory.until(laboratory.messages, "no line")
            self.assertTrue(200_000 <= line["micros"] <= most, line)
            self.assertGreaterEqual(laboratory.metric('message_seconds_sum{command="B2"}'), 0.2)
            self.assertEqual(laboratory.metric('message_seconds_bucket{command="B2",le="0.1"}'), 0)

    def test_secrets(self) -> None:
        with Laboratory(hosts=2) as laboratory:
            sent(laboratory)
            told = laboratory.text() + laboratory.get("/metrics") + laboratory.get("/health")
            for secret in SECRETS:
                for part in secret, secret[1:], secret[:8], secret[-8:], secret.encode().hex():
                    self.assertNotIn(part, told)
            for line in laboratory.messages():
                self.assertRegex(line.get("unknown", "AA"), "^[A-Z]{2}$")
            self.assertEqual(laboratory.metric('clients_ended_total{cause="cut"}'), 1)

    def test_texts_where_the_switch_says_so(self) -> None:
        with Laboratory(hosts=2, tables="texts = true") as laboratory:
            sent(laboratory)
            texts = [line["message"] for line in laboratory.messages()]
            for text in MESSAGES:
                self.assertIn("0001" + text.decode("latin-1"), texts)
            for secret in SECRETS:
                self.assertIn(secret, laboratory.text())
            self.assertEqual(laboratory.messages()[-1]["reply"][-2:], "68")

    def test_a_reader_that_reads_nothing(self) -> None:
        """Lines that nobody reads are lost and counted; clients are served all the same."""
        with Laboratory(hosts=2, tables="texts = true", is_served=False) as laboratory:
            with open(laboratory.path("gateway.toml"), encoding="utf-8") as file:
                text = file.read().replace('file = "log"', "")
            laboratory.write("gateway.toml", text)
            laboratory.start()
            laboratory.until_serving()
            data = bytes(60000)
            with laboratory.peer() as peer:
                for _ in range(60):
                    self.assertEqual(peer.asked(echo(data)), b"B300" + data)
            self.assertGreater(laboratory.metric("log_lines_lost_total"), 0)
            self.assertEqual(laboratory.stopped(), 143)


class Metrics(unittest.TestCase):
    """/metrics and /health."""

    def test_the_text(self) -> None:
        with Laboratory(hosts=3) as laboratory, laboratory.peer() as peer:
            for _ in range(5):
                peer.asked(echo(b"counted"))
            peer.asked(b"CAX")
            self.assertEqual(laboratory.metric('messages_total{command="B2",code="00"}'), 5)
            self.assertEqual(laboratory.metric('messages_total{command="CA",code="68"}'), 1)
            self.assertEqual(laboratory.metric('message_seconds_count{command="B2"}'), 5)
            self.assertEqual(laboratory.metric('message_seconds_bucket{command="B2",le="+Inf"}'), 5)
            self.assertEqual(laboratory.metric("clients_now"), 1)
            self.assertEqual(laboratory.metric('lanes{state="serving"}'), 3)
            self.assertEqual(laboratory.metric('lane_connections_left{lane="3"}'), 15)
            for line in laboratory.get("/metrics").splitlines():
                self.assertRegex(line, r'^(# (HELP|TYPE) \w+ .+|\w+(\{\w+="[^"]*"(,\w+="[^"]*")*\})? [0-9.]+)$')
            health = laboratory.health()
            self.assertTrue(health["serving"])
            self.assertEqual((health["lanes"], health["messages"], health["clients"]), (3, 6, 1))
            self.assertEqual(laboratory.get("/other"), "/health or /metrics\n")

    def test_buckets(self) -> None:
        figures = Figures(["CA"])
        kind = figures.kind(b"CA00")
        for micros in 0, BOUNDS[0], BOUNDS[0] + 1, BOUNDS[-1] + 1:
            kind.count += 1
            kind.times.add(micros)
        rows = dict(line.rsplit(" ", 1) for line in figures.text([]).splitlines() if not line.startswith("#"))
        bucket = 'sothvelm_gateway_message_seconds_bucket{command="CA",le="%s"}'
        self.assertEqual([rows[bucket % bound] for bound in ("0.0001", "0.0002", "5", "+Inf")], ["2", "3", "3", "4"])

    def test_commands_that_are_made_up(self) -> None:
        """Clients cannot make rows without end."""
        figures = Figures(["CA"])
        for number in range(2000):
            figures.kind(b"%c%c68" % (65 + number % 26, 65 + number // 26 % 26)).count += 1
            figures.kind(b"CA%c%c" % (number % 256, number // 256)).count += 1
        rows = re.findall(r"^sothvelm_gateway_messages_total\{.*$", figures.text([]), re.MULTILINE)
        self.assertLess(len(rows), 110)
        self.assertEqual(figures.messages(), 4000)


if __name__ == "__main__":
    unittest.main()
