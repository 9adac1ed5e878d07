"""Messages under way: which lane gets each one, and which client its reply.

A message goes to the lane with the fewest under way, and to no other one ever: where the lane ends before the reply,
the client's connection ends at that place in the order of its replies. Messages wait here while each lane has as many
as `lane_messages` says. What a client may have under way is bounded, so all that is held is.
"""
import asyncio
import time
from collections import deque
from typing import TYPE_CHECKING, Callable

from gateway.faults import Faults, refused
from gateway.figures import OTHER, Figures
from gateway.journal import Journal, written
from gateway.settings import FaultRule, Settings
from sothvelm.forms import trailer_of
from sothvelm.refusals import Refusals

if TYPE_CHECKING:
    from gateway.client import Client
    from gateway.lane import Link

OUT = 1 << 30  # the load of a lane that takes no messages
LOST = b""  # in the place of a reply: the connection ends here
ROOM = 65536  # bytes of one read
SWEEP_SECONDS = 0.1
# With these error codes the module repeats no trailer.
BARE_CODES = ("68", "04", "05", "15", "23")


class Message:
    """A message of a client, from its last byte to its reply. Times are those of the monotonic clock, in seconds."""

    __slots__ = ("client", "frame", "began", "given", "reply", "rule")

    def __init__(self, client: "Client", frame: bytes, began: float) -> None:
        self.client, self.frame, self.began = client, frame, began
        self.given = 0.0  # to a lane
        self.reply: bytes | None = None
        self.rule: FaultRule | None = None


class Relay:
    """The clients, the lanes' links, and the messages between them. One event loop alone calls it."""

    def __init__(self, settings: Settings, journal: Journal, figures: Figures, refusals: Refusals) -> None:
        self.settings, self.journal, self.figures, self.refusals = settings, journal, figures, refusals
        self.limits = settings.limits
        self.header = settings.module.header
        self.least = self.header + 2  # bytes of a message with its header
        self.faults = Faults(settings.faults, settings.seed) if settings.faults else None
        self.loop = asyncio.get_running_loop()
        self.room = bytearray(ROOM)
        self.view = memoryview(self.room)
        self.now = time.monotonic()
        self.clients: set["Client"] = set()
        self.links: list["Link | None"] = [None] * len(settings.module.ports)
        self.loads = [OUT] * len(self.links)
        self.waiting: deque[Message] = deque()
        self.dirty: list["Link"] = []
        self.is_ending = False
        self.drain_until = 0.0  # when a drain gives up
        self.on_sweep: list[Callable[[float], None]] = []

    # From a client to a lane

    def take(self, client: "Client", frame: bytes) -> None:
        """A whole message of a client, with its two bytes of length."""
        message = Message(client, frame, self.now)
        if self.faults is not None:
            rule = self.faults.choose(frame[self.least:self.least + 2])
            if rule is not None and self.change(message, rule):
                return
        client.pending.append(message)
        client.bytes += len(frame)
        self.give(message)

    def give(self, message: Message) -> None:
        """Gives a message to the lane with the fewest under way, or lets it wait."""
        loads = self.loads
        least = min(loads)
        if least >= self.limits.lane_messages:
            self.waiting.append(message)
            return
        place = loads.index(least)
        loads[place] = least + 1
        link = self.links[place]
        message.given = self.now
        link.under_way.append(message)
        link.out.append(message.frame)
        if not link.is_dirty:
            link.is_dirty = True
            if not self.dirty:
                self.loop.call_soon(self.flush)
            self.dirty.append(link)

    def flush(self) -> None:
        """Writes what was given to each lane since the last time, in one piece a lane."""
        dirty, self.dirty = self.dirty, []
        for link in dirty:
            link.write_out()

    def feed(self) -> None:
        """Gives waiting messages to lanes that have room for them."""
        waiting, most = self.waiting, self.limits.lane_messages
        while waiting and min(self.loads) < most:
            message = waiting.popleft()
            if message.client.is_gone:
                self.lose(message, "the client had gone", 0)
            else:
                self.give(message)

    # From a lane to a client

    def answered(self, message: Message, reply: bytes, lane: int, stamp: str) -> None:
        """The reply to a message, framed, from a lane; 0 is the gateway itself."""
        frame, at = message.frame, self.least
        key = frame[at:at + 2] + reply[at + 2:at + 4]
        kind = self.figures.kinds.get(key) or self.figures.kind(key)
        micros = int((self.now - message.began) * 1_000_000)
        kind.count += 1
        kind.times.add(micros)
        client = message.client
        line = f'{{"time":"{stamp}","client":"{client.name}","lane":{lane},{kind.text},"micros":{micros}'
        if kind.code != "00" or kind.command == OTHER or message.rule or client.is_gone or self.settings.log.texts:
            line += self.more(message, reply, kind.code)
        self.journal.line(line + "}")
        if message.rule is not None and message.rule.act == "delay":
            self.loop.call_later(message.rule.milliseconds / 1000, self.settle, message, reply)
        elif client.is_gone:
            pass
        else:
            message.reply = reply
            # None are pending of a client whose connection ends at an earlier message.
            if client.pending and client.pending[0] is message:
                client.settle()

    def more(self, message: Message, reply: bytes, code: str) -> str:
        """What a line of the log says beyond the usual: the check that failed, the rule that was applied, texts."""
        more: dict[str, object] = {}
        text = message.frame[self.least:].decode("latin-1")
        if code != "00":
            refusal = self.refusals.explain(text, code)
            more = {"check": refusal.check, "field": refusal.field, "refusal": refusal.words}
            if refusal.check == "command" and text[:2].isascii() and text[:2].isalpha() and text[:2].isupper():
                # Two letters stand in no PIN and in no account number.
                more["unknown"] = text[:2]
        if message.rule is not None:
            more["fault"] = message.rule.act
        if message.client.is_gone:
            more["gone"] = True
        if self.settings.log.texts:
            more["message"] = message.frame[2:].decode("latin-1")
            more["reply"] = reply[2:].decode("latin-1")
        return f",{written(more)[1:-1]}" if more else ""

    def settle(self, message: Message, reply: bytes) -> None:
        """A reply that is given to its client outside of a read: a late one, one of a rule, or LOST."""
        client = message.client
        message.reply = reply
        if not client.is_gone and client.pending and client.pending[0] is message:
            client.settle()
            client.write_out()

    def lose(self, message: Message, cause: str, lane: int) -> None:
        """A message that is answered by nobody: its client's connection ends there."""
        self.figures.count("messages_lost", f'cause="{cause}"')
        self.unanswered(message, lane, lost=cause)
        self.settle(message, LOST)

    def unanswered(self, message: Message, lane: int, **more: str) -> None:
        """A line of the log for a message without a reply."""
        command = message.frame[self.least:self.least + 2].decode("latin-1")
        if message.rule is not None:
            more["fault"] = message.rule.act
        self.journal.line(written({
            "time": self.journal.stamp(), "client": message.client.name, "lane": lane,
            "command": command if command in self.figures.commands else OTHER, "code": None,
            "micros": int((time.monotonic() - message.began) * 1_000_000), **more}))

    # Rules

    def change(self, message: Message, rule: FaultRule) -> bool:
        """Applies a rule to a message that was taken. Tells whether it goes to no lane."""
        message.rule = rule
        self.figures.count("messages_changed", f'act="{rule.act}"')
        if rule.act == "delay":
            return False
        if rule.act == "silence":
            self.unanswered(message, 0)
            return True
        message.client.pending.append(message)
        message.client.bytes += len(message.frame)
        if rule.act == "drop":
            self.loop.call_soon(self.lose, message, "a rule drops it", 0)
        else:
            self.loop.call_soon(self.refuse, message, rule.code)
        return True

    def refuse(self, message: Message, code: str) -> None:
        """Answers a message in the place of a lane."""
        text = message.frame[self.least:].decode("latin-1")
        command = self.refusals.commands.get(text[:2])
        trailer = trailer_of(command, text[2:]).encode("latin-1") if command and code not in BARE_CODES else b""
        self.now = time.monotonic()
        self.answered(message, refused(message.frame, self.header, code, trailer), 0, self.journal.stamp())
        message.client.write_out()

    # Time, and the end

    def sweep(self) -> None:
        """Ends what took too long: half frames, replies that nobody reads, silent lanes, messages without a lane."""
        now = self.now = time.monotonic()
        for client in list(self.clients):
            client.sweep(now)
        for link in self.links:
            if link is not None:
                link.sweep(now)
        while self.waiting and (now - self.waiting[0].began > self.limits.wait_seconds
                                or self.waiting[0].client.is_gone):
            message = self.waiting.popleft()
            gone = message.client.is_gone
            self.lose(message, "the client had gone" if gone else "no lane had room for it in time", 0)
        for each in self.on_sweep:
            each(now)
        self.loop.call_later(SWEEP_SECONDS, self.sweep)

    def under_way(self) -> int:
        """How many messages wait, or are given to a lane and not answered."""
        return len(self.waiting) + sum(len(link.under_way) for link in self.links if link is not None)

    async def drain(self, seconds: float) -> None:
        """Takes no further message, waits so long for replies to those under way, and ends each client's connection."""
        self.is_ending = True
        self.drain_until = time.monotonic() + seconds
        for client in list(self.clients):
            client.stop_reading()
        while any(client.pending for client in self.clients) and time.monotonic() < self.drain_until:
            await asyncio.sleep(0.01)
        for client in list(self.clients):
            client.close()
        while self.clients and time.monotonic() < self.drain_until:
            await asyncio.sleep(0.01)
        for client in list(self.clients):
            client.abort()
