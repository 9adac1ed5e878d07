"""`sothvelm page`: its requests, and the page itself in a browser without a window."""
import contextlib
import http.client
import io
import json
import os
import signal
import socket
import subprocess
import sys
import unittest
from typing import Any

from tests.browser import Browser, served
from tests.harness import PROGRAM, SOTHVELM, TOP, WAIT, Answering, called, need, need_program

from sothvelm import main, page, table
from sothvelm.page import Desk, PageServer, frame_of, request_in

PIN, WORD = "483920", "quicklime"
# The contrast of text and ground, of all pairs that the page has: WCAG 2.1 wants 4.5 of usual text.
CONTRAST = """(() => {
  const style = getComputedStyle(document.documentElement);
  const light = (name) => { const hex = style.getPropertyValue(name).trim().slice(1);
    const parts = [0, 2, 4].map((at) => parseInt(hex.slice(at, at + 2), 16) / 255)
      .map((part) => part <= 0.03928 ? part / 12.92 : ((part + 0.055) / 1.055) ** 2.4);
    return 0.2126 * parts[0] + 0.7152 * parts[1] + 0.0722 * parts[2]; };
  return ["--text", "--soft", "--mark", "--good", "--key"].flatMap((text) => ["--page", "--box"].map((ground) => {
    const pair = [light(text), light(ground)].sort((one, other) => other - one);
    return (pair[0] + 0.05) / (pair[1] + 0.05); })).concat([3.1]).reduce((one, other) => Math.min(one, other), 99); })()"""


class Requests(unittest.TestCase):
    """What is taken, from whom, and what is given."""

    def setUp(self) -> None:
        port = self.enterContext(Answering(lambda body: b"0001" + b"ND00" + 16 * b"1" + b"F" if b"NC" in body else None))
        self.server = self.enterContext(PageServer(0, Desk(port.port, port.port, "0001", None), "Here."))
        import threading  # noqa: PLC0415
        threading.Thread(target=self.server.serve_forever, daemon=True).start()
        self.addCleanup(self.server.shutdown)

    def ask(self, method: str, path: str, body: bytes = b"", **headers: str) -> tuple[int, bytes, dict[str, str]]:
        link = http.client.HTTPConnection("127.0.0.1", self.server.server_port, timeout=WAIT)
        named = {name.replace("_", "-"): value for name, value in headers.items()}
        with contextlib.closing(link):
            link.request(method, path, body if method == "POST" else None, named)
            came = link.getresponse()
            return came.status, came.read(), dict(came.getheaders())

    def test_the_page_names_nothing_elsewhere(self) -> None:
        status, body, headers = self.ask("GET", "/")
        text = body.decode()
        self.assertEqual((status, headers["Cache-Control"]), (200, "no-store"))
        self.assertIn("default-src 'none'", headers["Content-Security-Policy"])
        for word in ("http:", "https:", "//", "src=", "@NONCE@", "@DATA@", "@WHERE@", "@import", "url("):
            self.assertNotIn(word, text.replace("// ", ""), word)

    def test_others_are_refused(self) -> None:
        ours = f"127.0.0.1:{self.server.server_port}"
        token = self.server.token
        good = json.dumps({"command": "NC", "texts": []}).encode()
        self.assertEqual(self.ask("POST", "/send", good, X_Sothvelm=token)[0], 200)
        for status, path, body, headers in [
                (403, "/send", good, {}), (403, "/send", good, {"X_Sothvelm": "x"}),
                (403, "/send", good, {"X_Sothvelm": token, "Host": "elsewhere.example"}),
                (404, "/other", good, {"X_Sothvelm": token}), (404, "/send", b"{", {"X_Sothvelm": token}),
                (404, "/send", b"[]", {"X_Sothvelm": token}), (413, "/send", 200_001 * b"x", {"X_Sothvelm": token})]:
            with contextlib.suppress(ConnectionError):  # a body that is not read may break the connection
                self.assertEqual(self.ask("POST", path, body, **{"Host": ours, **headers})[0], status, (path, headers))
        self.assertEqual(self.ask("GET", "/", Host="elsewhere.example")[0], 403)
        self.assertEqual(self.ask("GET", "/x")[0], 404)

    def test_what_a_module_answers(self) -> None:
        token = self.server.token

        def sent(**asked: Any) -> Any:
            return json.loads(self.ask("POST", "/send", json.dumps(asked).encode(), X_Sothvelm=token)[1])

        came = sent(command="NC", texts=[])
        self.assertEqual((came["code"], [each["text"] for each in came["fields"]]), ("00", [16 * "1", "F"]))
        came = sent(command="JA", texts=["12345", "04"])
        self.assertEqual((came["field"], came["fault"][:34]), (1, "not sent: JA, field 1, account fie"))
        for asked in ({"command": "XX", "texts": []}, {"command": "JA", "texts": ["1"]}, {"texts": [1]}, {}):
            self.assertIn("no command of the table", sent(**asked)["fault"])
        self.assertIn("an LMK set is 0 to 3", sent(command="NC", texts=[], set="9")["fault"])
        self.assertIn("no reply: the connection was closed", sent(command="RA", texts=[])["fault"])
        self.assertEqual(sent(command="NC", texts=[])["code"], "00")  # over a connection that is made anew

    def test_nothing_is_written_down(self) -> None:
        held = io.StringIO()
        with contextlib.redirect_stderr(held), contextlib.redirect_stdout(held):
            self.ask("POST", "/send", json.dumps({"command": "BA", "texts": [PIN, "x"]}).encode(),
                     X_Sothvelm=self.server.token)
            self.ask("GET", f"/?pin={PIN}")
        self.assertEqual(held.getvalue(), "")


class Frames(unittest.TestCase):
    """What the page shows of a message."""

    def test_secrets_are_masked(self) -> None:
        desk = Desk(1, 1, "0001", None)
        for command, texts, secret in [
                ("BA", [PIN + "FFFFFF", "123456789012"], PIN), ("A", ["export", "1", WORD, WORD], WORD),
                ("FK", ["001", "Z", "0123456789ABCDEF", "0123456789ABCDEF", ""], "0123456789ABCDEF")]:
            request = request_in({"command": command, "texts": texts}, desk)
            self.assertIn(secret, request.text())
            self.assertNotIn(secret, json.dumps(frame_of(request, "0001")))

    def test_parts(self) -> None:
        request = request_in({"command": "JA", "texts": ["123456789012", "04"], "set": "1", "trailer": "end"},
                             Desk(1, 1, "0001", None))
        self.assertEqual([each["text"] for each in frame_of(request, "0001")],
                         ["001B", "0001", "JA", "123456789012", "04", "%01{19}end"])

    def test_the_day_is_of_the_table(self) -> None:
        rows = table.load()
        for each in page.day():
            row = rows.hosts.get(each["command"]) or rows.console[each["command"]]
            self.assertEqual(len(each["texts"]), len(row.fields))
            self.assertLessEqual(set(each["save"].values()), {one.name for one in row.answers})


class Page(unittest.TestCase):
    """The page in Chromium, over the program."""

    @classmethod
    def setUpClass(cls) -> None:
        need_program()
        path = need("chromium", "chromium")
        cls.written = cls.enterClassContext(contextlib.redirect_stderr(io.StringIO()))
        cls.server = cls.enterClassContext(served(PROGRAM))
        cls.browser = cls.enterClassContext(Browser(path))
        cls.address = f"http://127.0.0.1:{cls.server.server_port}/"

    def setUp(self) -> None:
        self.browser.look()
        self.browser.open(self.address)
        self.browser.until("typeof row === 'object' && row !== null")

    def send(self, code: str, texts: str = "row.example") -> Any:
        return self.browser.run(f"(choose('{code}'), fill({texts}), send())")

    def allow(self) -> None:
        for activity in "pin.clear", "component":
            self.assertEqual(self.send("A", json.dumps([activity, "0", "", ""]))["code"], "OK")

    def test_each_commands_form(self) -> None:
        """Each is sent once with its example, and answered without an error, which the page says."""
        self.allow()
        rows = self.browser.run("data.rows.map((each) => each.code)")
        self.assertEqual(rows, [*table.load().hosts, *table.load().console])
        for code in rows:
            if code in ("GC", "A"):
                self.allow()
            came = self.send(code)
            self.assertEqual(came.get("code"), "OK" if code in table.load().console else "00", (code, came))
            self.assertIn("no error", self.browser.run("at('reply').textContent"), code)
            names = self.browser.run("[...document.querySelectorAll('#fields input, #fields select')].map((each) => "
                                     "[each.labels.length, at(each.id + 'help').textContent.length > 0])")
            row = table.load().hosts.get(code) or table.load().console[code]
            self.assertEqual(names, len(page.open_fields(row)) * [[1, True]], code)

    def test_a_refusal_is_marked(self) -> None:
        """By the module, and before it is sent: the field is marked, has the words beside it, and the focus."""
        for change, number, words in [
                ("at('field1').value = at('field0').value", 2, "field 2, ZPK: the key has a byte of even parity"),
                ("at('field6').value = '1'", 7, "CA, field 7, account field: wanted is 12 decimal digits")]:
            came = self.browser.run(f"(choose('CA'), fill(row.example), {change}, send())")
            self.assertEqual(came["field"], number)
            marked = self.browser.run("[...document.querySelectorAll('[aria-invalid=true]')].map((each) => each.id)")
            self.assertEqual(marked, [f"field{number - 1}"])
            self.assertIn(words, self.browser.run(f"at('field{number - 1}mark').textContent"))
            self.assertEqual(self.browser.run("document.activeElement.id"), f"field{number - 1}")
        self.send("CA")
        self.assertEqual(self.browser.run("document.querySelectorAll('[aria-invalid=true]').length"), 0)

    def test_the_day(self) -> None:
        self.send("RA")
        for number in range(1, len(page.DAY) + 1):
            self.browser.run("next()")
            self.assertIn(f"Step {number} of {len(page.DAY)}", self.browser.run("at('told').textContent"))
            if page.DAY[number - 1][1] == "A":
                self.browser.run("look()")
                self.assertRegex(self.browser.run("at('grants').textContent"),
                                 r"pin\.clear\.host, (10 min 0|9 min \d+) s left")
        self.browser.run("look()")
        self.assertIn("an activity was cancelled", self.browser.run("at('entries').textContent"))

    def test_secrets(self) -> None:
        """Neither in the title, the address, what is kept, nor what the page shows but at a press of a button."""
        self.allow()
        self.send("BA", json.dumps([PIN + "FFFFFF", "123456789012"]))
        sealed = self.browser.run("at('reply').querySelector('dd').textContent")
        self.send("NG", json.dumps(["123456789012", sealed]))
        places = "[document.title, location.href, document.body.innerText, JSON.stringify(localStorage), " \
                 "JSON.stringify(sessionStorage), document.cookie].join(' ')"
        self.assertNotIn(PIN, self.browser.run(places))
        self.assertEqual(self.browser.run("document.title"), "Sothvelm: commands of a test module")
        self.browser.run("at('reply').querySelector('button').click()")
        self.assertEqual(self.browser.run("at('reply').querySelector('dd').textContent"), PIN)
        for code, number in (("BA", 0), ("A", 2), ("FK", 2)):
            self.assertEqual(self.browser.run(f"(choose('{code}'), at('field{number}').type)"), "password")
        self.assertEqual(self.written.getvalue(), "")

    def test_the_keyboard(self) -> None:
        """A command is chosen, filled and sent without a mouse; the focus is seen."""
        self.browser.run("at('command').focus()")
        self.browser.key("J", 74, "J")
        self.browser.until("row.code === 'JA'")
        self.browser.key("Tab", 9)
        self.assertEqual(self.browser.run("document.activeElement.id"), "field0")
        self.assertNotEqual(self.browser.run("getComputedStyle(document.activeElement).outlineStyle"), "none")
        self.browser.type("123456789012")
        self.browser.key("Enter", 13, "\r")
        self.browser.until("at('reply').textContent.includes('no error')")

    def test_looks(self) -> None:
        """In light and dark text stands out, and at 200 % nothing is beside the window."""
        for dark in False, True:
            self.browser.look(dark=dark)
            self.assertGreater(self.browser.run(CONTRAST.replace(".concat([3.1])", "")), 4.5)
        grounds = []
        for dark in False, True:
            self.browser.look(dark=dark)
            grounds.append(self.browser.run("getComputedStyle(document.body).backgroundColor"))
        self.assertNotEqual(*grounds)
        for width, scale in (1280, 2), (640, 2), (1280, 1):
            self.browser.look(width=width, scale=scale)
            for code in table.load().hosts:
                self.browser.run(f"(choose('{code}'), fill(row.example))")
                wide = self.browser.run("document.documentElement.scrollWidth - document.documentElement.clientWidth")
                self.assertLessEqual(wide, 0, (code, width, scale))

    def test_nothing_is_fetched_from_elsewhere(self) -> None:
        self.send("NC")
        asked = [each for each in self.browser.requested if not each.startswith(("about:", "chrome:"))]
        self.assertTrue(asked)
        self.assertEqual([each for each in asked if not each.startswith(self.address)], [])


class Runs(unittest.TestCase):
    """The command."""

    def test_it_ends_from_the_keyboard_with_its_module(self) -> None:
        program = need_program()
        with socket.socket() as free:
            free.bind(("127.0.0.1", 0))
            port = free.getsockname()[1]
        process = subprocess.Popen(
            [sys.executable, "-B", SOTHVELM, "page", "--port", str(port)], cwd=TOP, stdout=subprocess.PIPE,
            stderr=subprocess.PIPE, text=True, env={**os.environ, "SOTHVELM_PROGRAM": program})
        try:
            self.assertEqual(process.stdout.readline(), f"http://127.0.0.1:{port}/\n")
            with open(f"/proc/{process.pid}/task/{process.pid}/children", encoding="ascii") as file:
                children = file.read().split()
            self.assertEqual(len(children), 1)
            process.send_signal(signal.SIGINT)
            _, told = process.communicate(timeout=WAIT)
        finally:
            process.kill()
        self.assertEqual((process.returncode, told), (0, "sothvelm page: ended\n"))
        self.assertFalse(os.path.exists(f"/proc/{children[0]}"))

    def test_refused(self) -> None:
        with socket.create_server(("127.0.0.1", 0)) as door:
            port = str(door.getsockname()[1])
            words = ("page", "--port", port, "--console", port, "--host", port)
            status, output, error = called(main.main, *words)
            self.assertEqual((status, output, error),
                             (3, "", f"sothvelm page: port {port}: Address already in use\n"))
        for words, status in ((("page", "--port", "0"), 2), (("page", "--host", "1"), 2)):
            came, _, error = called(main.main, *words)
            self.assertEqual((came, error.count("\n")), (status, 1))


if __name__ == "__main__":
    unittest.main()
