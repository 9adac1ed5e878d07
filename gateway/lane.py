"""A host lane of the module: one connection to it, which is kept, and made anew where it ends.

A lane gets messages only once it answered an echo of no data on its connection: so a lane that has ended, or that
another client holds, is found before a message is lost in it. Each connection counts towards the `accept` of the lane,
and no more are made than that. A port that nobody listens at has no program behind it: the next one counts anew.
"""
import asyncio
import contextlib
import socket
import time
from collections import deque
from typing import TYPE_CHECKING

from gateway.plain import Plain
from gateway.relay import OUT

if TYPE_CHECKING:
    from gateway.relay import Message, Relay

ADDRESS = "127.0.0.1"
CONNECT_SECONDS = 5.0
NOBODY_SECONDS = 0.1  # until a port that nobody listens at is tried again
FIRST_PAUSE, LAST_PAUSE = 0.05, 5.0  # until a lane is tried again that ended: doubled each time
SPENT_SECONDS = 2.0  # until it is looked whether another program listens at a lane without connections
STEADY_SECONDS = 10.0  # of service after which a pause is the first one again


class Link:
    """One connection to a lane, with the messages that are under way on it, in their order."""

    def __init__(self, relay: "Relay", lane: "Lane", connection: socket.socket) -> None:
        self.relay, self.lane = relay, lane
        self.under_way: deque["Message"] = deque()
        self.out: list[bytes] = []
        self.rest = b""
        self.is_dirty = self.is_ended = False
        self.probe: asyncio.Future[bool] | None = None
        self.ended: asyncio.Future[str] = relay.loop.create_future()  # the cause
        self.transport = Plain(relay.loop, connection, self)

    def connection_lost(self, fault: Exception | None) -> None:
        self.end("the connection ended" if fault is None else f"the connection failed: {fault}")

    def pause_writing(self) -> None:
        """What is not yet written is bounded by the messages that a lane is given."""

    def resume_writing(self) -> None:
        pass

    def eof_received(self) -> bool:
        self.end("the module ended the connection")
        return False

    def end(self, cause: str) -> None:
        """Takes the lane out. What was under way on it is lost, and goes to no other lane."""
        if self.is_ended:
            return
        self.is_ended = True
        self.out.clear()
        self.relay.loads[self.lane.place] = OUT
        self.relay.links[self.lane.place] = None
        if self.probe is not None and not self.probe.done():
            self.probe.set_result(False)
        if not self.ended.done():
            self.ended.set_result(cause)
        self.transport.abort()
        lost, self.under_way = self.under_way, deque()
        for message in lost:
            self.relay.lose(message, "the lane ended", self.lane.number)

    def get_buffer(self, _: int) -> memoryview:
        return self.relay.view

    def buffer_updated(self, count: int) -> None:
        """So many bytes more were read: replies to the messages under way, the oldest first."""
        relay = self.relay
        relay.now = time.monotonic()
        data = self.rest + relay.view[:count] if self.rest else bytes(relay.view[:count])
        if self.probe is not None and not self.probe.done():
            self.rest = b""
            self.probe.set_result(data == self.lane.probed())
            return
        at, size, header, under_way = 0, len(data), relay.header, self.under_way
        stamp, number, touched = relay.journal.stamp(), self.lane.number, []
        while size - at >= 2:
            end = at + 2 + (data[at] << 8 | data[at + 1])
            if end > size:
                break
            reply = data[at:end]
            at = end
            if not under_way or not fits(under_way[0].frame, reply, header):
                self.end("a reply that fits no message")
                break
            message = under_way.popleft()
            relay.answered(message, reply, number, stamp)
            client = message.client
            if client.out and not client.is_touched:
                client.is_touched = True
                touched.append(client)
        self.rest = data[at:]
        if not self.is_ended:
            relay.loads[self.lane.place] = len(under_way)
        if relay.waiting:
            relay.feed()
        for client in touched:
            client.is_touched = False
            client.write_out()

    def write_out(self) -> None:
        """Writes what was given to the lane, in one piece."""
        self.is_dirty = False
        if self.out:
            self.transport.write(self.out[0] if len(self.out) == 1 else b"".join(self.out))
            self.out.clear()

    def sweep(self, now: float) -> None:
        """Takes the lane out where its oldest message has waited too long."""
        seconds = self.relay.limits.answer_seconds
        if self.under_way and now - self.under_way[0].given > seconds:
            self.end(f"no answer within {seconds:g} s")


def fits(frame: bytes, reply: bytes, header: int) -> bool:
    """Whether a reply has the header of the message and the reply code of its command."""
    code = header + 2
    return (reply[2:code + 1] == frame[2:code + 1] and len(reply) >= code + 4
            and reply[code + 1] == (frame[code + 1] + 1) % 256)


def listener(port: int) -> str | None:
    """The inode of the socket that listens at a port of 127.0.0.1, or None. No connection is made to see it."""
    try:
        with open("/proc/self/net/tcp", encoding="ascii") as file:
            for words in map(str.split, file):
                if words[1] == f"0100007F:{port:04X}" and words[3] == "0A":
                    return words[9]
    except OSError:
        pass
    return None


class Lane:
    """A host port: how many connections are left to it, and the one that is kept."""

    def __init__(self, relay: "Relay", place: int) -> None:
        self.relay, self.place, self.number = relay, place, place + 1
        self.port = relay.settings.module.ports[place]
        self.left = relay.settings.module.accept
        self.state = "starting"  # then serving, out or spent
        self.renewed = asyncio.Event()
        self.listener: str | None = None  # the socket that listened at the port when it was last connected to

    def probed(self) -> bytes:
        """The reply to the echo that a connection begins with."""
        header = b"0" * self.relay.header
        return (len(header) + 4).to_bytes(2, "big") + header + b"B300"

    def renew(self) -> None:
        """The program is a new one: the lane has all its connections again."""
        self.left = self.relay.settings.module.accept
        self.renewed.set()

    def tell(self, told: str) -> None:
        self.relay.journal.event("lane", told, lane=self.number, left=self.left)

    async def keep(self) -> None:
        """Keeps a connection to the lane, until the task is cancelled."""
        pause = FIRST_PAUSE
        while True:
            if self.left <= 0:
                await self.wait_for_renewal()
            link = await self.connected()
            if link is None:
                await self.pause(NOBODY_SECONDS)
                continue
            began = time.monotonic()
            cause = await self.serve(link)
            self.state = "out"
            self.relay.figures.count("lanes_lost")
            self.tell(f"taken out: {cause}")
            pause = FIRST_PAUSE if time.monotonic() - began > STEADY_SECONDS else min(2 * pause, LAST_PAUSE)
            await self.pause(pause)

    async def pause(self, seconds: float) -> None:
        """Waits so long, or until the program is a new one."""
        self.renewed.clear()
        with contextlib.suppress(TimeoutError):
            await asyncio.wait_for(self.renewed.wait(), seconds)

    async def wait_for_renewal(self) -> None:
        """Waits until the program is a new one: it was started here, or another socket listens at the port."""
        self.state = "spent"
        self.tell("no connection is left: the lane serves nobody until the program is a new one")
        while self.left <= 0:
            await self.pause(SPENT_SECONDS)
            if listener(self.port) not in (None, self.listener):
                self.renew()
        self.state = "starting"

    async def connected(self) -> Link | None:
        """A new connection, or None where there is none to be had."""
        self.listener = listener(self.port)
        connection = socket.socket()
        connection.setblocking(False)
        connection.setsockopt(socket.IPPROTO_TCP, socket.TCP_NODELAY, 1)
        try:
            await asyncio.wait_for(self.relay.loop.sock_connect(connection, (ADDRESS, self.port)), CONNECT_SECONDS)
            # While nobody listens at a port, a connection may come to be one with itself.
            if connection.getsockname() == connection.getpeername():
                raise ConnectionRefusedError
        except BaseException as fault:
            connection.close()
            if isinstance(fault, ConnectionRefusedError):
                self.left = self.relay.settings.module.accept
            if isinstance(fault, (OSError, TimeoutError)):
                return None
            raise
        self.left -= 1
        self.relay.figures.count("lane_connections")
        if self.left <= min(self.relay.limits.few_connections, self.relay.settings.module.accept // 4):
            self.tell(f"few connections are left before the lane ends: {self.left}")
        return Link(self.relay, self, connection)

    async def serve(self, link: Link) -> str:
        """Serves over a connection once its echo is answered, however late. Gives the cause of its end."""
        link.probe = self.relay.loop.create_future()
        header = b"0" * self.relay.header
        link.transport.write((len(header) + 6).to_bytes(2, "big") + header + b"B20000")
        done, _ = await asyncio.wait({link.probe}, timeout=self.relay.limits.answer_seconds)
        if not done:
            self.state = "out"
            self.tell("no answer to an echo: another client holds the lane, or its connections are used up; "
                      "it is waited for")
        if not await link.probe:
            link.end("the echo was answered with something else")
            return await link.ended
        self.state = "serving"
        self.tell("serves")
        self.relay.links[self.place] = link
        self.relay.loads[self.place] = 0
        self.relay.feed()
        return await link.ended
