"""`sothvelm lint FILE`: where and why a configuration is refused, and what its lanes want of the machine.

The rules are those of docs/CONFIGURATION.md. What is told first is what `hsm_tool check` tells by its number; the tests
compare both on each configuration of the repository, and on changed ones.
"""
import argparse
import difflib
import glob
import os
import re
import resource
import sys
from dataclasses import dataclass

from sothvelm import toml
from sothvelm.forms import HEX
from sothvelm.main import Told
from sothvelm.toml import Spot, TomlFault

MOST_BYTES = 2**24
KEYS = ("version", "header", "officers", "lmk", "console_port", "host_ports", "accept")
PAIRS = 20


@dataclass(frozen=True)
class Fault:
    """A rule that is broken (0: the file is no TOML), the line (0: none), the key, and the reason."""

    rule: int
    line: int
    key: str
    words: str
    column: int = 0

    def told(self, path: str) -> str:
        place = f"{path}:{self.line}" if self.line else path
        if not self.rule:
            return f"{place}:{self.column}: not toml: {self.words}"
        return f"{place}: {self.key}: {self.words} (rule {self.rule})"


def lint(data: bytes) -> tuple[list[Fault], int]:
    """What is wrong with a document, by the numbers of the rules, and how many host ports it has."""
    try:
        document = toml.read(data)
    except TomlFault as fault:
        return [Fault(0, fault.line, "", str(fault), fault.column)], 0
    found = Rules(document).faults()
    ports = document.members.get("host_ports")
    return found, len(ports.items) if ports else 0


def verdict(data: bytes) -> str:
    """What `hsm_tool check` tells of a file with these bytes."""
    if len(data) > MOST_BYTES:
        return "hsm: file too long"
    faults, ports = lint(data)
    if not faults:
        return f"OK {ports}"
    return f"hsm: rule {faults[0].rule}" if faults[0].rule else "hsm: not toml"


class Rules:
    """The rules over a document."""

    def __init__(self, document: Spot) -> None:
        self.document, self.found = document, list[Fault]()

    def faults(self) -> list[Fault]:
        self.known_keys()
        self.integer(2, "version", 1, 1)
        self.integer(3, "header", 0, 255)
        self.texts(4, "officers", 2, 64, "officer", "a SHA-256 digest")
        self.pairs()
        self.integer(7, "console_port", 1, 65535)
        self.host_ports()
        self.different_ports()
        self.integer(10, "accept", 1, 4096)
        return sorted(self.found, key=lambda fault: fault.rule)

    def add(self, rule: int, key: str, words: str, spot: Spot | None = None) -> None:
        self.found.append(Fault(rule, spot.line if spot else 0, key, words))

    def at(self, rule: int, key: str) -> Spot | None:
        """The value at a key; where there is none that is a fault."""
        found = self.document.members.get(key)
        if found is None:
            self.add(rule, key, "the key is missing")
        return found

    def known_keys(self) -> None:
        for key, spot in self.document.members.items():
            if key not in KEYS:
                near = difflib.get_close_matches(key, KEYS, 1)
                hint = f"; {near[0]} is one" if near else f"; those are {', '.join(KEYS)}"
                self.found.append(Fault(1, spot.key_line or spot.line, shown(key), f"no key of a configuration{hint}"))

    def integer(self, rule: int, key: str, least: int, most: int) -> None:
        spot = self.at(rule, key)
        if spot and not is_within(spot, least, most):
            wanted = str(least) if least == most else f"{least} to {most}"
            self.add(rule, key, f"an integer of {wanted} is wanted, and it is {told_of(spot)}", spot)

    def texts(self, rule: int, key: str, count: int, digits: int, one: str, what: str) -> bool:
        """An array of so many texts of so many hexadecimal digits. Gives whether it is."""
        spot = self.at(rule, key)
        before = len(self.found)
        if spot is None:
            return False
        if spot.kind != "array":
            self.add(rule, key, f"a list of {count} texts is wanted, and it is {told_of(spot)}", spot)
        elif len(spot.items) != count:
            self.add(rule, key, f"{count} texts are wanted, and there are {len(spot.items)}", spot)
        for number, each in enumerate(spot.items, 1):
            name = pair_name(number) if key == "lmk" else f"{one} {number}"
            if each.kind != "text":
                self.add(rule, key, f"{name}: a text is wanted, and it is {told_of(each)}", each)
            elif not re.fullmatch(f"{HEX}{{{digits}}}", each.value):
                self.add(rule, key, f"{name}: {digit_words(each.value, digits, what)}", each)
        return len(self.found) == before

    def pairs(self) -> None:
        spot = self.document.members.get("lmk")
        if spot and spot.kind == "text":
            if spot.value != "test":
                self.add(5, "lmk", 'the text "test" is wanted, or a list of 20 texts', spot)
            return
        if not self.texts(5, "lmk", PAIRS, 32, "pair", "a pair of LMKs"):
            return
        for number, each in enumerate(spot.items if spot else [], 1):
            for place, byte in enumerate(bytes.fromhex(each.value), 1):
                if not byte.bit_count() % 2:
                    whole = 16 * (number - 1) + place
                    self.add(6, "lmk", f"{pair_name(number)}: byte {place} of it has even parity, "
                             f"which is byte {whole} of {16 * PAIRS}", each)

    def host_ports(self) -> None:
        spot = self.at(8, "host_ports")
        if spot is None:
            return
        if spot.kind != "array":
            self.add(8, "host_ports", f"a list of 1 to 64 integers is wanted, and it is {told_of(spot)}", spot)
        elif not 1 <= len(spot.items) <= 64:
            self.add(8, "host_ports", f"1 to 64 ports are wanted, and there are {len(spot.items)}", spot)
        for number, each in enumerate(spot.items, 1):
            if not is_within(each, 1, 65535):
                self.add(8, "host_ports", f"lane {number}: an integer of 1 to 65535 is wanted, and it is "
                         f"{told_of(each)}", each)

    def different_ports(self) -> None:
        """No port is named twice; the rules before look at those that are none."""
        seen: dict[int, str] = {}
        console, hosts = (self.document.members.get(key) for key in ("console_port", "host_ports"))
        named = [("console_port", "the console", console)] if console else []
        named += [("host_ports", f"lane {number}", each) for number, each in enumerate(hosts.items if hosts else [], 1)]
        for key, name, spot in named:
            if not is_within(spot, 1, 65535):
                continue
            if spot.value in seen:
                self.add(9, key, f"port {spot.value} is twice: of {seen[spot.value]} and of {name}", spot)
            seen.setdefault(spot.value, name)


def is_within(spot: Spot, least: int, most: int) -> bool:
    return spot.kind == "integer" and least <= spot.value <= most


def told_of(spot: Spot) -> str:
    """What a value is; a text is not repeated, since it may be a word or a key."""
    article = "an" if spot.kind in ("integer", "array") else "a"
    return str(spot.value) if spot.kind in ("integer", "float") else f"{article} {spot.kind}"


def shown(key: str) -> str:
    """A key as it is told: one that may be a misplaced secret is not repeated."""
    return key if re.fullmatch("[A-Za-z_][A-Za-z0-9_-]{0,30}", key) else "a key"


def pair_name(number: int) -> str:
    return f"pair {2 * number - 2:02}-{2 * number - 1:02}"


def digit_words(text: str, digits: int, what: str) -> str:
    """What is wrong with a text that is to have so many hexadecimal digits, without the text itself."""
    wrong = re.search("[^0-9A-Fa-f]", text)
    if len(text) != digits:
        return f"{what} has {digits} hexadecimal digits, and it has {len(text)} characters"
    return f"{what} has {digits} hexadecimal digits, and character {wrong.start() + 1 if wrong else 0} is none"


# What the machine gives

def notes(document: Spot, descriptors: int | None, threads: int | None, here: bool) -> list[str]:
    """What may be wanting once the configuration is served; `here` looks at this machine's ports."""
    hosts = [each.value for each in document.members["host_ports"].items]
    lanes = 1 + len(hosts)
    found = []
    wanted = 2 * lanes + 3
    if descriptors is not None and descriptors < lanes + 3:
        found.append(f"{descriptors} descriptors: the ports of {lanes} lanes can't be listened on, which takes {lanes + 3}")
    elif descriptors is not None and descriptors < wanted:
        found.append(f"{descriptors} descriptors: with a connection to each of {lanes} lanes {wanted} are wanted")
    if threads is not None and threads < lanes:
        found.append(f"{threads} threads: {lanes} lanes want one each, and those without one serve nobody")
    ports = [document.members["console_port"].value, *hosts]
    low = [port for port in ports if port < first_free_port()]
    if here and low and os.geteuid() != 0:
        found.append(f"port {low[0]}: below {first_free_port()} a privilege is wanted")
    taken = [port for port in ports if here and is_taken(port)]
    if taken:
        found.append(f"port {taken[0]}: a program listens there now")
    officers = document.members["officers"].items
    if officers[0].value.lower() == officers[1].value.lower():
        found.append("officers: both digests are of one word")
    return found


def first_free_port() -> int:
    return number_in("/proc/sys/net/ipv4/ip_unprivileged_port_start") or 1024


def is_taken(port: int) -> bool:
    """Whether a program of this machine listens at a port, without a connection to it."""
    try:
        with open("/proc/net/tcp", encoding="ascii") as file:
            return any(words[1].endswith(f":{port:04X}") and words[3] == "0A" for words in map(str.split, file))
    except OSError:
        return False


def number_in(path: str) -> int | None:
    """The number that stands in a file of the system, or None."""
    try:
        with open(path, encoding="ascii") as file:
            text = file.read().strip()
    except OSError:
        return None
    return int(text) if text.isdigit() else None


def descriptors_here() -> int | None:
    soft, _ = resource.getrlimit(resource.RLIMIT_NOFILE)
    return None if soft == resource.RLIM_INFINITY else soft


def threads_here() -> int | None:
    """How many more threads this user may start: by the limit of the user, and by that of the control group."""
    found = []
    soft, _ = resource.getrlimit(resource.RLIMIT_NPROC)
    if soft != resource.RLIM_INFINITY and os.geteuid() != 0:
        found.append(soft - threads_of_user())
    try:
        with open("/proc/self/cgroup", encoding="ascii") as file:
            group = next((line.strip().partition("::")[2] for line in file if line.startswith("0::")), "")
    except OSError:
        group = ""
    folder = "/sys/fs/cgroup" + group
    most, now = number_in(f"{folder}/pids.max"), number_in(f"{folder}/pids.current")
    if most is not None and now is not None:
        found.append(most - now)
    return max(0, min(found)) if found else None


def threads_of_user() -> int:
    count = 0
    for path in glob.glob("/proc/[0-9]*"):
        try:
            if os.stat(path).st_uid == os.geteuid():
                count += len(os.listdir(f"{path}/task"))
        except OSError:
            continue
    return count


def add(parser: argparse.ArgumentParser) -> None:
    """The words of `sothvelm lint`."""
    parser.add_argument("file", metavar="FILE", help="a configuration of the module")
    parser.add_argument("--descriptors", type=int, metavar="N", help="the limit to look at (LimitNOFILE of a unit); "
                        "else that of this shell")
    parser.add_argument("--threads", type=int, metavar="N", help="the limit to look at (TasksMax of a unit); else what "
                        "this user has left")


def run(options: argparse.Namespace) -> int:
    """Prints what is wrong, a line each, or `OK n` as `hsm_tool check` does, and what may be wanting."""
    with open(options.file, "rb") as file:
        data = file.read(MOST_BYTES + 1)
    if len(data) > MOST_BYTES:
        raise Told(f"{options.file}: it has more than {MOST_BYTES} bytes")
    faults, ports = lint(data)
    for fault in faults:
        print(fault.told(options.file))
    if faults:
        print(f"sothvelm lint: {options.file}: {len(faults)} fault{'s' * (len(faults) > 1)}", file=sys.stderr)
        return 1
    print(f"OK {ports}")
    descriptors = descriptors_here() if options.descriptors is None else options.descriptors
    threads = threads_here() if options.threads is None else options.threads
    for note in notes(toml.read(data), descriptors, threads, here=True):
        print(f"{options.file}: note: {note}")
    return 0
