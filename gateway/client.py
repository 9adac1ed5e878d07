"""A client's connection: frames in, replies out in the order of its messages.

No client holds up another. What it may have under way is bounded by `messages` and `client_bytes`; beyond that, and
while it does not read its replies, nothing is read from it. A half frame, and replies that are not read, have their
time.
"""
import asyncio
import time
from collections import deque
from typing import TYPE_CHECKING, Callable

if TYPE_CHECKING:
    from gateway.plain import Plain
    from gateway.relay import Message, Relay


class Client(asyncio.BufferedProtocol):
    """One connection. `on_end` is called once, when it has ended."""

    def __init__(self, relay: "Relay", name: str, on_end: Callable[[], None]) -> None:
        self.relay, self.name, self.on_end = relay, name, on_end
        self.transport: "asyncio.Transport | Plain | None" = None  # None until the connection is made
        self.pending: deque["Message"] = deque()  # in their order, without those whose replies are written
        self.bytes = 0  # of the pending messages
        self.out: list[bytes] = []
        self.rest = bytearray()  # what was read and is no whole message yet, or is held
        self.wanted = 2  # bytes that the rest must have before it is worth looking at
        self.since = 0.0  # when the half frame began; 0: there is none
        self.unread_since = 0.0  # when the replies began to pile up; 0: they do not
        self.closing_since = 0.0  # when the connection was to be ended; 0: not yet
        self.is_held = self.is_ending = self.is_gone = self.is_touched = False

    def connection_made(self, transport: asyncio.BaseTransport) -> None:
        """The handshake is over. Where replies can't be written at once, nothing more is read."""
        assert isinstance(transport, asyncio.Transport)
        # (With high=0 a transport of TLS would pause at each write.)
        transport.set_write_buffer_limits(high=1, low=0)
        self.begin(transport)

    def begin(self, transport: "asyncio.Transport | Plain") -> None:
        self.transport = transport
        self.relay.clients.add(self)
        if self.relay.is_ending:
            transport.close()

    def connection_lost(self, _: Exception | None) -> None:
        self.is_gone = True
        self.relay.clients.discard(self)
        self.pending.clear()
        self.on_end()

    # Reading

    def get_buffer(self, _: int) -> memoryview:
        return self.relay.view

    def buffer_updated(self, count: int) -> None:
        """So many bytes more were read."""
        if self.is_ending:
            return
        self.relay.now = time.monotonic()
        if not self.rest:
            self.parse(bytes(self.relay.view[:count]))
        else:
            self.rest += self.relay.view[:count]
            if len(self.rest) < self.wanted:
                return
            data, self.rest = bytes(self.rest), bytearray()
            self.parse(data)
        if self.out:
            self.write_out()

    def parse(self, data: bytes) -> None:
        """Takes the whole messages at the front of the data, as many as may be under way, and keeps the rest."""
        relay, pending, limits = self.relay, self.pending, self.relay.limits
        at, size, wanted = 0, len(data), 2
        while size - at >= 2:
            if len(pending) >= limits.messages or self.bytes >= limits.client_bytes or self.unread_since:
                self.hold()
                break
            length = data[at] << 8 | data[at + 1]
            if length < relay.least:
                self.end(f"a frame of the length {length}, and the header and a command code have {relay.least}",
                         "short frame")
                return
            end = at + 2 + length
            if end > size:
                wanted = 2 + length
                break
            relay.take(self, data[at:end])
            at = end
        if at < size:
            self.rest = bytearray(data[at:])
            self.wanted = wanted
            if not self.since or at:
                self.since = relay.now
        else:
            self.since = 0.0
        if self.is_held:
            self.since = 0.0

    def hold(self) -> None:
        """Reads nothing more until replies were given."""
        if not self.is_held:
            self.is_held = True
            self.transport.pause_reading()

    def release(self) -> None:
        """Goes on with what was held, where there is room again."""
        if not self.is_held or self.is_gone or self.is_ending or self.relay.is_ending:
            return
        self.is_held = False
        data, self.rest = bytes(self.rest), bytearray()
        self.relay.now = time.monotonic()
        self.parse(data)
        if self.out:
            self.write_out()
        if not self.is_held and not self.is_ending:
            self.transport.resume_reading()

    def eof_received(self) -> bool:
        """The client sends nothing more. Its messages are answered before the connection ends."""
        if self.rest and not self.is_ending and not self.is_held:
            self.tell("the client ended inside a frame", "cut")
        self.is_ending = True
        # Over TLS the client's end is the connection's.
        return bool(self.pending) and not isinstance(self.transport, asyncio.Transport)

    # Writing

    def settle(self) -> None:
        """Puts the replies that are next in the order into `out`, and lets go where a reply is lost."""
        pending = self.pending
        while pending and (reply := pending[0].reply) is not None:
            self.bytes -= len(pending.popleft().frame)
            if not reply:
                pending.clear()
                self.is_ending = True
                break
            self.out.append(reply)
        if self.is_held:
            self.relay.loop.call_soon(self.release)

    def write_out(self) -> None:
        """Writes the replies that are due, in one piece, and ends the connection where nothing is left to come."""
        out = self.out
        if out and not self.is_gone:
            self.transport.write(out[0] if len(out) == 1 else b"".join(out))
        out.clear()
        if self.is_ending and not self.pending and not self.is_gone:
            self.closing_since = self.closing_since or time.monotonic()
            self.transport.close()

    def pause_writing(self) -> None:
        self.unread_since = time.monotonic()

    def resume_writing(self) -> None:
        self.unread_since = 0.0
        if self.is_held:
            self.relay.loop.call_soon(self.release)

    # Ends

    def end(self, told: str, cause: str) -> None:
        """Reads nothing more, and ends the connection once the messages before were answered."""
        self.tell(told, cause)
        self.stop_reading()
        self.is_ending = True
        self.since = 0.0
        if not self.pending:
            self.write_out()

    def tell(self, told: str, cause: str) -> None:
        self.relay.figures.count("clients_ended", f'cause="{cause}"')
        self.relay.journal.event("client", told, client=self.name)

    def stop_reading(self) -> None:
        self.rest.clear()
        if self.transport.is_reading():
            self.transport.pause_reading()

    def close(self) -> None:
        """Ends the connection behind what is written."""
        self.is_ending = True
        self.pending.clear()
        self.write_out()

    def abort(self) -> None:
        self.transport.abort()

    def sweep(self, now: float) -> None:
        """Ends a half frame, or replies that are not read, whose time is over."""
        limits = self.relay.limits
        if self.since and now - self.since > limits.half_frame_seconds:
            self.end(f"half a frame for {limits.half_frame_seconds:g} s", "half frame")
        unread_since = self.closing_since or self.unread_since
        if unread_since and now - unread_since > limits.unread_seconds:
            self.tell(f"replies were not read for {limits.unread_seconds:g} s", "unread")
            self.abort()
