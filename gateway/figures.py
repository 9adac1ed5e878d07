"""Counts and times of messages, and the text that /metrics gives of them, in the format of Prometheus."""
from bisect import bisect_left
from collections import Counter
from typing import Iterable

# Upper bounds of the buckets, in microseconds.
BOUNDS = [100, 200, 500, 1_000, 2_000, 5_000, 10_000, 20_000, 50_000, 100_000, 200_000, 500_000, 1_000_000, 5_000_000]
OTHER = "other"  # a command that the module does not know, so that clients cannot make rows without end


class Times:
    """How long the messages of a command took."""

    __slots__ = ("buckets", "micros")

    def __init__(self) -> None:
        self.buckets = [0] * (len(BOUNDS) + 1)
        self.micros = 0

    def add(self, micros: int) -> None:
        """One message more, of so many microseconds."""
        self.buckets[bisect_left(BOUNDS, micros)] += 1
        self.micros += micros


class Kind:
    """The messages of one command that were answered with one error code."""

    __slots__ = ("command", "code", "count", "times", "text")

    def __init__(self, command: str, code: str, times: Times) -> None:
        self.command, self.code, self.times = command, code, times
        self.count = 0
        self.text = f'"command":"{command}","code":"{code}"'  # as it stands in a line of the log


class Figures:
    """All counts. A kind is found by the four bytes of a message's command code and its reply's error code."""

    def __init__(self, commands: Iterable[str]) -> None:
        self.commands = set(commands)
        self.kinds: dict[bytes, Kind] = {}  # those of a known command and a code of two digits
        self.named: dict[tuple[str, str], Kind] = {}  # all, by command and code
        self.times: dict[str, Times] = {}
        # By the name of a counter and its labels; one without labels is there from the start.
        self.counted = Counter({(name, ""): 0 for name in PLAIN})

    def kind(self, key: bytes) -> Kind:
        """The kind of these four bytes. What is no known command is `other`, and what is no code of two digits `??`."""
        found = self.kinds.get(key)
        if found is None:
            command, code = key[:2].decode("latin-1"), key[2:].decode("latin-1")
            is_code = code.isascii() and code.isdigit()
            name = command if command in self.commands else OTHER, code if is_code else "??"
            found = self.named.get(name) or Kind(*name, self.times_of(name[0]))
            self.named[name] = found
            if name == (command, code):
                self.kinds[key] = found
        return found

    def times_of(self, command: str) -> Times:
        return self.times.setdefault(command, Times())

    def count(self, name: str, labels: str = "", more: int = 1) -> None:
        """Adds to the counter `sothvelm_gateway_NAME_total` with these labels."""
        self.counted[name, labels] += more

    def messages(self) -> int:
        """How many messages were answered."""
        return sum(kind.count for kind in self.named.values())

    def text(self, gauges: Iterable[tuple[str, str, list[tuple[str, float]]]]) -> str:
        """The whole text. A gauge is its name, what it tells, and its values by labels."""
        lines = head("messages_total", "counter", "Messages that were answered, by command and error code.")
        for kind in self.named.values():
            lines.append(row("messages_total", f'command="{kind.command}",code="{kind.code}"', kind.count))
        lines += head("message_seconds", "histogram", "From a whole message to its reply, in seconds, by command.")
        for command, times in self.times.items():
            lines += histogram(command, times)
        for name in sorted({name for name, _ in self.counted}):
            lines += head(f"{name}_total", "counter", COUNTERS[name])
            lines += [row(f"{name}_total", labels, value) for (other, labels), value in sorted(self.counted.items())
                      if other == name]
        for name, told, values in gauges:
            lines += head(name, "gauge", told)
            lines += [row(name, labels, value) for labels, value in values]
        return "\n".join(lines) + "\n"


# What is told of each counter; those of PLAIN have no labels.
PLAIN = {
    "clients": "Clients that were let in.",
    "lane_connections": "Connections to lanes that were made.",
    "lanes_lost": "Connections to lanes that ended, or were ended since no answer came.",
    "log_lines_lost": "Lines of the log that were lost.",
    "program_starts": "Starts of the program."}
COUNTERS = {
    **PLAIN,
    "clients_ended": "Clients whose connection the gateway ended, by cause.",
    "clients_refused": "Clients that were not let in, by cause.",
    "messages_changed": "Messages to which a fault rule was applied, by act.",
    "messages_lost": "Messages that were not answered, by cause."}


def head(name: str, kind: str, told: str) -> list[str]:
    return [f"# HELP sothvelm_gateway_{name} {told}", f"# TYPE sothvelm_gateway_{name} {kind}"]


def row(name: str, labels: str, value: float | str) -> str:
    return f"sothvelm_gateway_{name}{{{labels}}} {value}" if labels else f"sothvelm_gateway_{name} {value}"


def histogram(command: str, times: Times) -> list[str]:
    """The rows of a command's times; buckets are cumulative, as Prometheus wants them."""
    lines, total = [], 0
    for bound, count in zip([*BOUNDS, None], times.buckets):
        total += count
        least = "+Inf" if bound is None else f"{bound / 1e6:g}"
        lines.append(row("message_seconds_bucket", f'command="{command}",le="{least}"', total))
    lines.append(row("message_seconds_sum", f'command="{command}"', f"{times.micros / 1e6:.6f}"))
    lines.append(row("message_seconds_count", f'command="{command}"', total))
    return lines
