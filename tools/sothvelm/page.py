"""`sothvelm page`: one page at 127.0.0.1 with a form for each command, over a module that runs or one of its own.

Nothing is fetched from elsewhere, and nothing is written down: no request is logged, what is secret is masked in the
frame, and the title is the same always. A request is taken from this page alone, by a token, and under the names of
this machine alone.
"""
import argparse
import contextlib
import html
import json
import re
import secrets
import socket
import sys
import threading
import time
from collections.abc import Iterator
from http.server import BaseHTTPRequestHandler, ThreadingHTTPServer
from pathlib import Path
from typing import Any

from sothvelm import table
from sothvelm.client import Client, Console
from sothvelm.forms import CHOICES, SETS
from sothvelm.link import ClientError
from sothvelm.main import WORDS, Told, add_module, port_of
from sothvelm.module import ADDRESS, Module, find_program, read_configuration
from sothvelm.prompt import KINDS
from sothvelm.request import FieldFault, Refused, Request, request_of

HERE = Path(__file__).parent
MOST_BODY, MOST_ENTRIES = 200_000, 16
LOOKS = "LR"  # kinds of entries that this page itself makes
# A worked day: what a step does, the command, its error code, and what is kept of its reply for later steps. Texts are
# those of the command's example but at these places; <name> stands for what was kept.
DAY: list[tuple[str, str, str, dict[int, str], dict[str, str]]] = [
    ("The module has the test LMKs", "NC", "00", {}, {}),
    ("A ZPK is drawn, and exported under the ZMK", "A0", "00", {},
     {"zpk": "key under the LMKs", "exported": "key under the wrapping key"}),
    ("Its check value is asked", "BU", "00", {3: "<zpk>", 5: "001"}, {}),
    ("The exported ZPK is imported", "A6", "00", {3: "<exported>"}, {}),
    ("A terminal's PIN block is translated to the zone", "CA", "00", {2: "<zpk>", 6: "47"},
     {"block": "PIN block under the ZPK"}),
    ("The PVV of the PIN is made", "DG", "00", {}, {"pvv": "PVV"}),
    ("The PIN from the zone is verified by the PVV", "EC", "00",
     {1: "<zpk>", 3: "<block>", 5: "123456789012", 6: "1", 7: "<pvv>"}, {}),
    ("The CVV of a card is made", "CW", "00", {}, {"cvv": "CVV"}),
    ("It is verified", "CY", "00", {2: "<cvv>"}, {}),
    ("Another service code is refused", "CY", "01", {2: "<cvv>", 5: "102"}, {}),
    ("A clear PIN is refused, since no officer allowed it", "NG", "17", {}, {}),
    ("The officers allow clear PINs at the host for ten minutes", "A", "OK", {3: "", 4: ""}, {}),
    ("The PIN is shown", "NG", "00", {}, {}),
    ("The officers cancel the activity", "C", "OK", {}, {}),
    ("A purchase gets a MAC", "M6", "00", {}, {})]


class Desk:
    """A host port and the console, for one request after another; a connection that failed is made anew."""

    def __init__(self, host: int, console: int, header: str, words: tuple[str, str] | None) -> None:
        self.ports, self.header, self.words = (host, console), header, words
        self.lock = threading.Lock()
        self.held: dict[bool, Client | Console] = {}
        self.entries: dict[int, str] = {}

    def client(self, is_console: bool) -> Client | Console:
        if is_console not in self.held:
            self.held[is_console] = Console(ADDRESS, self.ports[1]) if is_console else Client(
                ADDRESS, self.ports[0], self.header)
        return self.held[is_console]

    def perform(self, request: Request[Any]) -> Any:
        """The reply to a request. Raises Refused, FieldFault, ClientError, OSError."""
        is_console = request.row().is_console
        with self.lock:
            try:
                return self.client(is_console).perform(request)
            except (Refused, FieldFault):
                raise
            except (ClientError, OSError):
                with contextlib.suppress(KeyError):
                    self.held.pop(is_console).close()
                raise

    def close(self) -> None:
        for each in self.held.values():
            each.close()


# What the page asks

def open_fields(row: table.Command) -> list[table.Field]:
    """The fields of the form. The LMK set of the console's last field is asked for beside them."""
    return [each for each in row.fields if each.plain != "[%nn]"]


def request_in(asked: dict[str, Any], desk: Desk) -> Request[Any]:
    """The request that the page's form says. Raises FieldFault."""
    rows = table.load()
    command, texts = asked.get("command"), asked.get("texts")
    row = rows.hosts.get(str(command)) or rows.console.get(str(command))
    if row is None or not isinstance(texts, list) or len(texts) != len(open_fields(row)) or not all(
            isinstance(each, str) for each in texts):
        raise FieldFault("the page asks for no command of the table")
    texts = texts + [""] * (len(row.fields) - len(texts))
    if row.code == "A" and desk.words and not any(texts[2:]):
        texts[2:4] = desk.words  # the officers of the page's own module
    number, trailer = str(asked.get("set") or ""), str(asked.get("trailer") or "")
    if number and number not in [str(each) for each in range(SETS)]:
        raise FieldFault(f"an LMK set is 0 to {SETS - 1}, or nothing")
    made = request_of(row.code, texts, int(number) if number else None)
    return Request(made.command, made.reply, made.values, made.lmk_set,
                   trailer.encode("latin-1", "replace") if trailer else None)


def frame_of(request: Request[Any], header: str) -> list[dict[str, str]]:
    """The parts of the message, with secrets masked. Raises FieldFault."""
    row, text = request.row(), request.text()
    whole = text if row.is_console else header + text
    parts = [("length", f"{len(whole):04X}")] + ([] if row.is_console else [("header", header)]) + [("code", row.code)]
    rest = text[len(row.code):]
    for each, value in zip(row.fields, request.texts()):
        if value:
            parts.append((each.name, "\u2022" * len(value) if each.is_secret else value))
            rest = rest[len(value) + row.is_console:]
    if rest:
        parts.append(("LMK set and trailer", rest))
    return [{"name": name, "text": shown(value)} for name, value in parts]


def shown(text: str) -> str:
    return "".join(each if each.isprintable() else f"{{{ord(each):02X}}}" for each in text)


def sent(asked: dict[str, Any], desk: Desk) -> dict[str, Any]:
    """What the form's message is answered."""
    try:
        request = request_in(asked, desk)
        frame = frame_of(request, desk.header)
    except FieldFault as fault:
        number = re.search(", field ([0-9]+), ", str(fault))
        return {"fault": f"not sent: {fault}", "field": int(number[1]) if number else 0}
    try:
        reply = desk.perform(request)
    except Refused as refused:
        return {"frame": frame, "code": refused.code, "words": refused.words, "field": refused.field}
    except (ClientError, OSError) as error:
        return {"frame": frame, "fault": f"no reply: {error}", "field": 0}
    row = request.row()
    return {"frame": frame, "code": "OK" if row.is_console else "00", "field": 0, "fields": [
        {"name": each.name, "text": value_text(reply[each.name]), "secret": each.is_secret} for each in row.answers]}


def value_text(value: Any) -> str:
    if isinstance(value, bytes):
        return shown(value.decode("latin-1"))
    return " ".join(value) if isinstance(value, tuple) else str(value)


def ledger(desk: Desk) -> dict[str, Any]:
    """The live grants and the last entries, without looks such as this one."""
    try:
        entries = desk.perform(request_of("LOG", []))["entries"]
        grants = desk.perform(request_of("VA", []))["grants"]
        moment = desk.perform(request_of("Q", []))["moment"]
    except (ClientError, OSError) as error:
        return {"fault": f"the console does not answer: {error}"}
    for each in entries:
        number, when, kind, verdict = each.split(":")
        if kind not in LOOKS:
            refused = ", and an activity was wanting" if verdict == "-" else ""
            desk.entries[int(number)] = f"{number}: {KINDS.get(kind, kind)}{refused}"
    for number in sorted(desk.entries)[:-MOST_ENTRIES]:
        del desk.entries[number]
    parted = [each.rpartition("=") for each in grants]
    return {"grants": [{"activity": activity, "left": int(end) - moment if int(end) else None, "at": time.time()}
                       for activity, _, end in parted],
            "entries": [desk.entries[number] for number in sorted(desk.entries, reverse=True)]}


# The page

def field_data(row: table.Command, place: int) -> dict[str, Any]:
    """What the page shows of a field."""
    each, rows = row.fields[place], table.load()
    form = rows.forms.get(each.plain)
    when = {"": "", "FF": "with the LMK pair FF"}.get(each.condition, f"with mode {' or '.join(each.condition[4:])}")
    return {"name": each.name, "words": rows.words_of(each.form), "when": when, "secret": each.is_secret,
            "condition": each.condition, "choices": list(CHOICES.get(each.plain, ())),
            "example": (row.example[place] if place < len(row.example) else "") or (form.example if form else "")}


def day() -> list[dict[str, Any]]:
    """The steps of the day, with all texts of their commands."""
    rows = table.load()
    found = []
    for words, command, code, places, save in DAY:
        row = rows.hosts.get(command) or rows.console[command]
        texts = [places.get(place, text) for place, text in enumerate(row.example, 1)]
        found.append({"words": words, "command": command, "code": code, "texts": texts, "save": save})
    return found


def page_of(token: str, nonce: str, where: str) -> str:
    """The whole page."""
    rows = table.load()
    data = {"token": token, "day": day(), "rows": [
        {"code": row.code, "title": row.title, "console": row.is_console, "set": row.code in ("GC", "FK"),
         "example": ["" if each.is_secret else text for each, text in zip(row.fields, row.example)]
         if row.code == "A" else row.example,
         "fields": [field_data(row, place) for place in range(len(open_fields(row)))]}
        for row in (*rows.hosts.values(), *rows.console.values())]}
    text = (HERE / "page.html").read_text("utf-8")
    written = json.dumps(data).replace("<", "\\u003c")
    return text.replace("@NONCE@", nonce).replace("@WHERE@", html.escape(where)).replace("@DATA@", written)


class Handler(BaseHTTPRequestHandler):
    """One request of a browser."""

    server: "PageServer"
    protocol_version = "HTTP/1.1"
    timeout = 30

    def log_message(self, format: str, *args: Any) -> None:  # noqa: A002
        """Nothing is written down."""

    def is_ours(self) -> bool:
        """Whether the request is under a name of this machine: no other name leads here."""
        return self.headers.get("Host") in [f"{name}:{self.server.server_port}" for name in (ADDRESS, "localhost")]

    def do_GET(self) -> None:  # noqa: N802
        if not self.is_ours():
            self.give(403, "text/plain", b"another name\n")
        elif self.path != "/":
            self.give(404, "text/plain", b"nothing\n")
        else:
            nonce = secrets.token_urlsafe(16)
            policy = (f"default-src 'none'; script-src 'nonce-{nonce}'; style-src 'nonce-{nonce}'; connect-src 'self'; "
                      "base-uri 'none'; form-action 'none'; frame-ancestors 'none'")
            page = page_of(self.server.token, nonce, self.server.where)
            self.give(200, "text/html; charset=utf-8", page.encode(), policy)

    def do_POST(self) -> None:  # noqa: N802
        length = self.headers.get("Content-Length", "")
        if not self.is_ours() or self.headers.get("X-Sothvelm") != self.server.token:
            return self.give(403, "text/plain", b"not from this page\n")
        if not length.isdigit() or int(length) > MOST_BODY:
            return self.give(413, "text/plain", b"too long\n")
        try:
            asked = json.loads(self.rfile.read(int(length)))
        except ValueError:
            asked = None
        if not isinstance(asked, dict) or self.path not in ("/send", "/ledger"):
            return self.give(404, "text/plain", b"nothing\n")
        desk = self.server.desk
        answer = sent(asked, desk) if self.path == "/send" else ledger(desk)
        return self.give(200, "application/json", json.dumps(answer).encode())

    def give(self, status: int, kind: str, body: bytes, policy: str = "default-src 'none'") -> None:
        self.send_response(status)
        for name, value in (("Content-Type", kind), ("Content-Length", str(len(body))), ("Cache-Control", "no-store"),
                            ("Content-Security-Policy", policy), ("Referrer-Policy", "no-referrer"),
                            ("X-Content-Type-Options", "nosniff")):
            self.send_header(name, value)
        if status != 200:
            self.close_connection = True
            self.send_header("Connection", "close")
        self.end_headers()
        self.wfile.write(body)


class PageServer(ThreadingHTTPServer):
    """Serves the page on 127.0.0.1. Raises OSError where the port can't be had."""

    daemon_threads = True

    def __init__(self, port: int, desk: Desk, where: str) -> None:
        super().__init__((ADDRESS, port), Handler)
        self.desk, self.where, self.token = desk, where, secrets.token_urlsafe(24)

    def server_bind(self) -> None:
        """Without a look for this machine's name, which http.server begins with."""
        self.socket.setsockopt(socket.SOL_SOCKET, socket.SO_REUSEADDR, 1)
        self.socket.bind(self.server_address)
        self.server_address = self.socket.getsockname()
        self.server_name, self.server_port = ADDRESS, self.server_address[1]

    def handle_error(self, request: Any, client_address: Any) -> None:
        """A browser that went away is no fault."""


@contextlib.contextmanager
def desk_of(options: argparse.Namespace) -> Iterator[tuple[Desk, str]]:
    """The module that the words name, and what the page says of it."""
    if options.console or options.host:
        if not (options.console and options.host) or options.config:
            raise Told("--console and --host are wanted together, and without --config", WORDS)
        desk = Desk(options.host, options.console, options.header, None)
        where = f"Over the module at the host port {options.host} and the console's port {options.console}."
        try:
            yield desk, where
        finally:
            desk.close()
        return
    document = read_configuration(options.config) if options.config else {}
    with Module(find_program(options.program), document, hosts=1) as module:
        desk = Desk(module.host_ports[0], module.console_port, module.header, module.words)
        sets = f"the LMK sets of {options.config}" if options.config else "the test set of LMK pairs"
        try:
            yield desk, f"Over a module of its own with {sets}; leave the officers' words empty, which it knows."
        finally:
            desk.close()


def add(parser: argparse.ArgumentParser) -> None:
    """The words of `sothvelm page`."""
    parser.add_argument("--port", metavar="PORT", type=port_of, default=8080, help="the page's port (8080)")
    add_module(parser)


def run(options: argparse.Namespace) -> int:
    """Serves the page until it is ended from the keyboard."""
    with desk_of(options) as (desk, where):
        try:
            server = PageServer(options.port, desk, where)
        except OSError as fault:
            raise Told(f"port {options.port}: {fault.strerror}", 3) from None
        with server:
            with contextlib.suppress(KeyboardInterrupt):
                print(f"http://{ADDRESS}:{server.server_port}/", flush=True)
                server.serve_forever()
            print("sothvelm page: ended", file=sys.stderr)
    return 0
