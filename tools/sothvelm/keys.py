"""`sothvelm key`: test keys, sealed, checked, joined, wrapped and told by the module itself.

Nothing is computed here a second time: keys are sealed by the console's FK, components drawn by GC, check values asked
by BU, keys wrapped by A8 and unwrapped by A6. The module is one that runs, or one that is started for the run with the
LMK sets of a configuration. Keys in the clear are read from standard input, unseen where it is a terminal.
"""
import argparse
import contextlib
import getpass
import re
import sys
from collections.abc import Callable, Iterator
from typing import Any, TypeVar, cast

from sothvelm import table
from sothvelm.client import Client, Console
from sothvelm.forms import PARTS, SETS, TYPES, parts_of
from sothvelm.link import ClientError
from sothvelm.main import WORDS, Told, add_module, set_of
from sothvelm.module import ADDRESS, Module, find_program, read_configuration
from sothvelm.request import Refused

R = TypeVar("R")
TAGS = {1: "Z", 2: "U", 3: "T"}
NAMES = {"000": "ZMK", "001": "ZPK", "002": "PVK, TMK, TPK", "402": "CVK", "003": "TAK", "008": "ZAK", "009": "BDK",
         "00A": "ZEK", "00B": "DEK"}
KEY_TYPE = f"a key type: {', '.join(f'{code} {name}' for code, name in NAMES.items())}"


class Desk:
    """A host port and the console of a module, and the officers' words, which are asked for once they are needed."""

    def __init__(self, host: Client, console: Console, words: tuple[str, str] | None = None) -> None:
        self.host, self.console, self.words = host, console, words

    def with_leave(self, activity: str, act: Callable[[], R]) -> R:
        """The result of a call that may need an activity.

        Where it is not allowed now the officers' words allow it for a minute, and it is cancelled behind the call.
        """
        try:
            return act()
        except Refused as refused:
            if refused.code != "17":
                raise
        self.words = self.words or (unseen("first officer's word: "), unseen("second officer's word: "))
        self.console.allow_activity(activity=activity, minutes=1, first_officers_word=self.words[0],
                                    second_officers_word=self.words[1])
        try:
            return act()
        finally:
            self.console.cancel_activity(activity=activity)


def unseen(prompt: str) -> str:
    """A line of standard input without its end; where that is a terminal it is asked for, and not shown."""
    if sys.stdin.isatty():
        return getpass.getpass(prompt).strip()
    line = sys.stdin.readline()
    if not line:
        raise Told(f"standard input ended where the {prompt.rstrip(': ')} is wanted", WORDS)
    return line.strip()


@contextlib.contextmanager
def desk_of(options: argparse.Namespace) -> Iterator[Desk]:
    """The module that the words name. Raises Told, ModuleFault, OSError."""
    if options.console or options.host:
        if not (options.console and options.host) or options.config:
            raise Told("--console and --host are wanted together, and without --config", WORDS)
        with Client(ADDRESS, options.host, options.header) as host, Console(ADDRESS, options.console) as console:
            yield Desk(host, console)
        return
    document = read_configuration(options.config) if options.config else {}
    with Module(find_program(options.program), document, hosts=1) as module:
        with module.client() as host, module.console() as console:
            yield Desk(host, console, module.words)


def clear_key(prompt: str) -> str:
    """A key in the clear, of one to three parts. Raises Told, which does not repeat it."""
    text = re.sub(r"\s", "", unseen(prompt)).upper()
    if not re.fullmatch("[0-9A-F]{16}|[0-9A-F]{32}|[0-9A-F]{48}", text):
        raise Told("a key in the clear has 16, 32 or 48 hexadecimal digits")
    return text


def even_bytes(text: str) -> list[int]:
    """The places, from 1 on, of the bytes of even parity."""
    return [place for place, byte in enumerate(bytes.fromhex(text), 1) if not byte.bit_count() % 2]


def scheme_for(options: argparse.Namespace, parts: int) -> str:
    """The scheme that is named, or the one under LMKs of so many parts. Raises Told where they do not fit."""
    scheme = options.scheme or TAGS[parts]
    if PARTS[scheme] != parts:
        raise Told(f"scheme {scheme} is of a key of {PARTS[scheme]} parts, and this one has {parts}")
    return str(scheme)


def joined(desk: Desk, options: argparse.Namespace, components: list[str]) -> tuple[str, str]:
    """The key of components under the LMKs, and its check value."""
    scheme = scheme_for(options, len(components[0]) // 16)
    first, second, third = (*components, None)[:3]
    found = desk.with_leave(f"component.{options.type}.console", lambda: desk.console.form_key_from_components(
        key_type=options.type, scheme=cast(Any, scheme), first_component=cast(str, first),
        second_component=cast(str, second), third_component=third, lmk_set=options.set))
    return found.key_under_lmks, found.check_value


def seal(options: argparse.Namespace) -> int:
    """A key in the clear under the LMKs: FK of the key and of zeros."""
    key = clear_key("key: ")
    even = even_bytes(key)
    if even and not options.odd:
        raise Told(f"byte {', '.join(map(str, even))} of the key has even parity; --odd makes each byte odd")
    with desk_of(options) as desk:
        print(*joined(desk, options, [key, "0" * len(key)]))
    return 0


def join(options: argparse.Namespace) -> int:
    """A key of two or three components."""
    components = [clear_key(f"component {number}: ") for number in range(1, options.count + 1)]
    if len({len(each) for each in components}) > 1:
        raise Told("the components have different numbers of digits")
    with desk_of(options) as desk:
        print(*joined(desk, options, components))
    return 0


def components(options: argparse.Namespace) -> int:
    """Components that the module draws, each with its text under the LMKs and its check value."""
    with desk_of(options) as desk:
        for _ in range(options.count):
            drawn = desk.with_leave(f"component.{options.type}.console", lambda: desk.console.draw_component_of_key(
                key_type=options.type, scheme=cast(Any, options.scheme or "U"), lmk_set=options.set))
            print(drawn.component, drawn.component_under_lmks, drawn.check_value)
    return 0


def check_value(desk: Desk, code: str, text: str, lmk_set: int | None) -> str:
    """The check value of a text of a type. Raises Refused."""
    flag = cast(Any, str(parts_of(text) - 1))
    return desk.host.check_value_of_key(lmk_pair="FF", flag=flag, key_under_lmks=text, key_type=cast(Any, code),
                                        lmk_set=lmk_set).check_value


def check(options: argparse.Namespace) -> int:
    """The check value of a key under the LMKs."""
    with desk_of(options) as desk:
        print(check_value(desk, options.type, options.text, options.set))
    return 0


def wrap(options: argparse.Namespace) -> int:
    """A key under the LMKs as one under a ZMK or TMK."""
    scheme = options.scheme or {1: "Z", 2: "X", 3: "Y"}[parts_of(options.text)]
    with desk_of(options) as desk:
        found = desk.with_leave(f"export.{options.type}.host", lambda: desk.host.export_key(
            key_type=options.type, kind_of_wrapping_key="1" if options.tmk else "0", lmk_set=options.set,
            wrapping_key=options.tmk or options.zmk, key_under_lmks=options.text,
            scheme_under_wrapping_key=cast(Any, scheme)))
        print(found.key_under_wrapping_key, found.check_value)
    return 0


def unwrap(options: argparse.Namespace) -> int:
    """A key under a ZMK as one under the LMKs."""
    scheme = scheme_for(options, parts_of(options.text))
    with desk_of(options) as desk:
        found = desk.with_leave(f"import.{options.type}.host", lambda: desk.host.import_key(
            key_type=options.type, zmk=options.zmk, key_under_zmk=options.text, scheme_under_lmks=cast(Any, scheme),
            lmk_set=options.set))
        print(found.key_under_lmks, found.check_value)
    return 0


def loaded_sets(desk: Desk) -> list[int | None]:
    """The LMK sets of the module: None alone where it reads no name of a set."""
    found: list[int | None] = []
    for number in range(SETS):
        try:
            desk.host.check_of_lmks(lmk_set=number)
            found.append(number)
        except Refused as refused:
            if refused.code == "15":
                return [None]
    return found


def what(options: argparse.Namespace) -> int:
    """The types and sets of which a text could be, each with its check value."""
    if options.text[:1] in ("X", "Y"):
        raise Told(f"{options.text[0]} is of keys under a ZMK or TMK, which `sothvelm key unwrap` tries")
    found = 0
    with desk_of(options) as desk:
        for lmk_set in loaded_sets(desk):
            for code in TYPES:
                try:
                    value = check_value(desk, code, options.text, lmk_set)
                except Refused as refused:
                    if refused.code not in ("10", "26", "27"):
                        raise
                    continue
                print(f"type {code} ({NAMES[code]}), set {lmk_set or 0:02}, check value {value}")
                found += 1
    if not found:
        raise Told("the text opens to a key of odd parity under no type and set of the module")
    return 0


def add(parser: argparse.ArgumentParser) -> None:
    """The words of `sothvelm key`."""
    inner = parser.add_subparsers(dest="act", metavar="ACT", required=True)
    acts: dict[str, tuple[Callable[[argparse.Namespace], int], str, str]] = {
        "seal": (seal, "type scheme", "a key in the clear, of standard input, under the LMKs"),
        "join": (join, "type scheme count", "a key of components, of standard input, under the LMKs"),
        "components": (components, "type scheme count", "draws components"),
        "check": (check, "type text", "the check value of a key under the LMKs"),
        "wrap": (wrap, "type zmk wscheme text", "a key under the LMKs as one under a ZMK or TMK"),
        "unwrap": (unwrap, "type zmk scheme text", "a key under a ZMK as one under the LMKs"),
        "what": (what, "text", "the types and sets of which a text could be")}
    for name, (act, words, told) in acts.items():
        each = inner.add_parser(name, help=told, description=told[0].upper() + told[1:] + ".")
        each.set_defaults(act=act)
        add_words(each, words.split(), name)
        add_module(each)


def add_words(parser: argparse.ArgumentParser, words: list[str], name: str) -> None:
    if "type" in words:
        parser.add_argument("--type", required=True, choices=TYPES, metavar="TYPE", help=KEY_TYPE)
    if "scheme" in words:
        parser.add_argument("--scheme", choices=("Z", "U", "T"), help="else the one of as many parts, or U")
    if "wscheme" in words:
        parser.add_argument("--scheme", choices=("Z", "U", "T", "X", "Y"), help="else Z, X or Y, by the key's parts")
    if "count" in words:
        parser.add_argument("--count", type=int, choices=(2, 3), default=2, help="how many components (2)")
    if "zmk" in words:
        group = parser.add_mutually_exclusive_group(required=True)
        group.add_argument("--zmk", metavar="TEXT", type=key_text, help="the ZMK under the LMKs")
        if name == "wrap":
            group.add_argument("--tmk", metavar="TEXT", type=key_text, help="the TMK under the LMKs")
    if "text" in words:
        parser.add_argument("text", metavar="TEXT", type=key_text, help="the text of a key")
    if name == "seal":
        parser.add_argument("--odd", action="store_true", help="makes each byte of the key odd")
    if name != "what":
        parser.add_argument("--set", metavar="N", type=set_of, help="the LMK set, 0 to 3; else none is named")


def key_text(text: str) -> str:
    """A key text of the words. Raises ArgumentTypeError."""
    if not re.fullmatch(table_pattern(), text):
        raise argparse.ArgumentTypeError(f"this is none: {table.load().words_of('W')}, or 32 for a pair")
    return text


def table_pattern() -> str:
    from sothvelm.forms import FORMS, PAIR  # noqa: PLC0415
    return f"{FORMS['W'][0]}|{PAIR}"


def run(options: argparse.Namespace) -> int:
    """Does what the words say. Gives the exit status."""
    try:
        return int(options.act(options))
    except ConnectionRefusedError:
        raise ClientError("nobody listens at that port") from None
