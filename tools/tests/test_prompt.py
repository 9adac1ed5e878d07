"""`sothvelm console`: what is sent and shown, completion, and that no word or component is kept anywhere."""
import fcntl
import os
import re
import select
import subprocess
import sys
import termios
import time
import unittest

from tests.harness import PROGRAM, SOTHVELM, TOP, WAIT, Answering, called, folder, need_program

from sothvelm import main, prompt
from sothvelm.client import Console
from sothvelm.module import Module
from sothvelm.prompt import Session, completions, left

FIRST, SECOND, COMPONENT = "quicklime", "hello-there", "0123456789ABCDEF"
ANSWERS = {b"VA": b"OK 2 export.402.host=1690 pin.clear.host=0", b"Q": b"OK 1000 7 2", b"C *": b"OK 2",
           b"LOG": b"OK 2 7:900:A:+ 8:950:U:-", f"A pin.clear.host 10 {FIRST} {SECOND}".encode(): b"OK",
           b"GC 001 Z": f"OK {COMPONENT} {16 * '2'} AABBCC".encode(), b"GC 001 Z %01": b"NO 13",
           f"FK 001 Z {COMPONENT} {COMPONENT}".encode(): f"OK {16 * '3'} DDEEFF".encode()}


def session(*lines: str) -> tuple[int, str, str, list[bytes]]:
    """Lines on standard input: status, output, standard error, and what was sent."""
    with Answering(lambda body: ANSWERS.get(body, b"NO 15")) as port:
        came = called(main.main, "console", "--port", str(port.port), given="".join(line + "\n" for line in lines))
        return *came, port.came


class Lines(unittest.TestCase):
    """What a line sends and shows."""

    def test_grants_with_the_time_that_is_left(self) -> None:
        self.assertEqual(session("VA"), (
            0, "export.402.host: 11 min 30 s left\npin.clear.host: without end\n", "", [b"VA", b"Q"]))
        self.assertEqual([left(0), left(59), left(600), left(3661), left(43200)],
                         ["0 s", "59 s", "10 min 0 s", "1 h 1 min 1 s", "12 h 0 s"])

    def test_words_and_components_are_asked_for(self) -> None:
        status, output, error, came = session("A pin.clear.host 10", FIRST, SECOND, "FK 001 Z", COMPONENT, COMPONENT, "")
        self.assertEqual((status, output, error), (0, f"OK\nkey under the LMKs: {16 * '3'}\ncheck value: DDEEFF\n", ""))
        self.assertEqual(came, [f"A pin.clear.host 10 {FIRST} {SECOND}".encode(),
                                f"FK 001 Z {COMPONENT} {COMPONENT}".encode()])

    def test_the_others(self) -> None:
        status, output, error, came = session("Q", "LOG", "C *", "GC 001 Z", "help", "quit", "VA")
        self.assertEqual((status, error), (0, ""))
        self.assertIn("moment: 1000\nplace of the next random word: 7\nlive grants: 2\n", output)
        self.assertIn("7 at 900: an activity was allowed\n8 at 950: any other message, and an activity was", output)
        self.assertIn(f"cancelled grants: 2\ncomponent: {COMPONENT}\n", output)
        self.assertIn("A ACTIVITY MINUTES", output)
        self.assertEqual(came, [b"Q", b"LOG", b"C *", b"GC 001 Z"])

    def test_a_line_that_is_not_sent(self) -> None:
        """A line with a secret is not sent, and what is told repeats nothing of it."""
        cases = [(f"A pin.clear.host 10 {FIRST} {SECOND}", "wanted is A activity minutes; what is secret is asked for"),
                 (FIRST, "no such word; help lists them"), ("VA x", "wanted is VA"), ("GC 001", "wanted is GC key-type"),
                 (f"FK 001 Z {COMPONENT} {COMPONENT}", "wanted is FK key-type scheme; what is secret is asked for"),
                 ("GC 001 Z %09", "an LMK set is %00 to %03")]
        for line, told in cases:
            line_of = told.replace("activity minutes", "activity activity")
            status, output, error, came = session(line)
            self.assertEqual((status, output, came), (1, "", []), line_of)
            self.assertTrue(error.startswith(f"sothvelm console: {told}"), error)
            for secret in (FIRST, SECOND, COMPONENT):
                self.assertNotIn(secret, error)

    def test_refusals_in_words(self) -> None:
        self.assertEqual(session("GC 001 Z %01")[:3], (
            1, "", "sothvelm console: GC was refused with 13: " + prompt.table.load().meaning("13") + "\n"))
        self.assertEqual(session("C generate.000")[2][:51], "sothvelm console: C was refused with 15: a field ha")

    def test_no_console(self) -> None:
        with Answering(lambda _: None) as port:
            came = called(main.main, "console", "--port", str(port.port), given="VA\n")
        self.assertEqual((came[0], came[2]), (3, "sothvelm console: the connection was closed before a reply: a console "
                                              "serves one client at a time\n"))
        came = called(main.main, "console", "--port", str(port.port), given="VA\n")
        self.assertEqual((came[0], came[2]), (3, f"sothvelm console: nobody listens at port {port.port}\n"))
        self.assertEqual(called(main.main, "console", "--port", "0")[0], 2)


class Completion(unittest.TestCase):
    """What the tab key offers."""

    def test_completions(self) -> None:
        cases = [
            ("", "", ["A", "C", "VA", "Q", "LOG", "GC", "FK", "help", "quit"]), ("A exp", "exp", ["export"]),
            ("A export.40", "export.40", ["export.402"]), ("A pin", "pin", ["pin.clear"]),
            ("A pin.clear.h", "pin.clear.h", ["pin.clear.host"]), ("GC ", "", list(prompt.CHOICES["type"])),
            ("FK 001 ", "", ["Z", "U", "T"]), ("A export 10 ", "", []), ("VA ", "", []), ("C *", "*", ["*"])]
        for line, text, wanted in cases:
            self.assertEqual(completions(line, text), wanted, line)
        self.assertEqual(set(completions("A export.402.", "export.402.")),
                         {"export.402.host", "export.402.console", "export.402.lmk00", "export.402.lmk01",
                          "export.402.lmk02", "export.402.lmk03"})

    def test_each_activity_reads(self) -> None:
        self.assertTrue(all(prompt.stands(prompt.table.Field("act", "-", ""), [], each)
                            for each in prompt.activities(True)))


class History(unittest.TestCase):
    """What may be kept."""

    def test_lines_that_are_kept(self) -> None:
        with Answering(lambda _: b"OK") as port, Console("127.0.0.1", port.port) as console:
            kept = Session(console).may_be_kept
            for line in ("VA", "A export.402.host 10", "C *", "GC 000 U", "GC 000 U %01", "FK 001 Z", "help"):
                self.assertTrue(kept(line), line)
            for line in (f"A export 10 {FIRST}", f"A export {FIRST} {SECOND}", FIRST, f"A {FIRST} 10", f"VA {FIRST}",
                         f"FK 001 Z {COMPONENT}", f"C {FIRST}", f"{FIRST} VA", COMPONENT):
                self.assertFalse(kept(line), line)


class Terminal(unittest.TestCase):
    """A terminal: what is typed unseen stands neither on it nor in the history, nor in the list of processes."""

    def test_session(self) -> None:
        with folder() as name, Module(need_program(), words=(FIRST, SECOND)) as module:
            history = os.path.join(name, "history")
            screen, words = self.typed(module, history)
            with open(history, encoding="utf-8") as file:
                kept = file.read().split()
            mode = os.stat(history).st_mode & 0o777
            with module.console() as console:
                self.assertEqual(console.show_live_grants().grants[0].partition("=")[0], "pin.clear.host")
        self.assertEqual((kept, mode), ("A pin.clear.host 10 VA".split(), 0o600))
        self.assertRegex(screen, r"pin\.clear\.host: (10 min 0|9 min 5\d) s left")
        for secret in (FIRST, SECOND):
            self.assertNotIn(secret, screen)
            self.assertNotIn(secret, words)
        # No title of the window is set.
        self.assertNotIn("\x1b]", screen)

    def typed(self, module: Module, history: str) -> tuple[str, str]:
        """What the screen shows of a session, and the words of its process."""
        mine, theirs = os.openpty()
        process = subprocess.Popen(
            [sys.executable, "-B", SOTHVELM, "console", "--port", str(module.console_port), "--history", history],
            stdin=theirs, stdout=theirs, stderr=theirs, start_new_session=True, cwd=TOP,
            env={**os.environ, "SOTHVELM_PROGRAM": PROGRAM, "TERM": "dumb"},
            preexec_fn=lambda: fcntl.ioctl(0, termios.TIOCSCTTY, 0))
        os.close(theirs)
        self.screen = b""
        try:
            # The tab key completes an activity on its way.
            for wait, keys in (("console> ", "A pin\t.host 10\r"), ("first officer's word: ", FIRST + "\r"),
                               ("second officer's word: ", SECOND + "\r"), ("OK", "VA\r"),
                               ("left", "A export 10 word-one word-two\r"), ("asked for", "quit\r")):
                self.until(mine, wait)
                with open(f"/proc/{process.pid}/cmdline", encoding="utf-8") as file:
                    words = file.read()
                os.write(mine, keys.encode())
            process.wait(WAIT)
        finally:
            process.kill()
            process.wait()
            os.close(mine)
        return self.screen.decode(), words

    def until(self, terminal: int, text: str) -> None:
        """Waits for a text that comes behind what was seen before."""
        seen, until = len(self.screen), time.monotonic() + WAIT
        start = max(0, seen - len(text)) if text == "console> " else seen
        while not re.search(re.escape(text.encode()), self.screen[start:]):
            if not select.select([terminal], [], [], max(0, until - time.monotonic()))[0]:
                self.fail(f"{text!r} does not come behind {self.screen.decode()!r}")
            self.screen += os.read(terminal, 4096)
        time.sleep(0.3)  # for the prompt, and for getpass to turn the echo off
        while select.select([terminal], [], [], 0)[0]:
            self.screen += os.read(terminal, 4096)


if __name__ == "__main__":
    unittest.main()
