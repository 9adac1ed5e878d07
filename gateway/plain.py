"""A connection without TLS, on the event loop's readers and writers: what a transport of asyncio does, and no more.

The protocol is one that reads into a buffer of its own (`asyncio.BufferedProtocol`): it is told of bytes that were
read, of the end of input, of output that piles up, and of the end.
"""
import asyncio
import socket
from typing import Protocol


class Peer(Protocol):
    """What a connection tells its owner."""

    def get_buffer(self, sizehint: int) -> memoryview: ...

    def buffer_updated(self, nbytes: int) -> None: ...

    def eof_received(self) -> bool | None: ...

    def pause_writing(self) -> None: ...

    def resume_writing(self) -> None: ...

    def connection_lost(self, exc: Exception | None) -> None: ...


class Plain:
    """A connected socket, which is read from until it is told otherwise. `pause_writing` comes with the first byte that
    the system does not take, and `resume_writing` when all are written."""

    __slots__ = ("loop", "socket", "number", "peer", "view", "out", "reading", "closing", "ended")

    def __init__(self, loop: asyncio.AbstractEventLoop, connection: socket.socket, peer: Peer) -> None:
        connection.setblocking(False)
        self.loop, self.socket, self.peer = loop, connection, peer
        # The loop looks for a descriptor by its number; of an object that it does not know it writes a long text first.
        self.number = connection.fileno()
        self.view = peer.get_buffer(-1)
        self.out = bytearray()  # what is still to be written
        self.closing = self.ended = False
        self.reading = True
        loop.add_reader(self.number, self.read)

    def read(self) -> None:
        """The socket has bytes, or has ended."""
        try:
            count = self.socket.recv_into(self.view)
        except (BlockingIOError, InterruptedError):
            return
        except OSError as fault:
            self.end(fault)
            return
        if count:
            try:
                self.peer.buffer_updated(count)
            except BaseException:
                # A defect must not leave the two sides at different places of the stream.
                self.end(None)
                raise
            return
        self.pause_reading()
        if not self.peer.eof_received():
            self.close()

    def write(self, data: bytes) -> None:
        """Writes data behind what is still to be written."""
        if self.ended or self.closing:
            return
        if self.out:
            self.out += data
            return
        try:
            count = self.socket.send(data)
        except (BlockingIOError, InterruptedError):
            count = 0
        except OSError as fault:
            self.end(fault)
            return
        if count < len(data):
            self.out += memoryview(data)[count:]
            self.loop.add_writer(self.number, self.write_more)
            self.peer.pause_writing()

    def write_more(self) -> None:
        """The socket takes bytes again."""
        try:
            count = self.socket.send(self.out)
        except (BlockingIOError, InterruptedError):
            return
        except OSError as fault:
            self.end(fault)
            return
        del self.out[:count]
        if not self.out:
            self.loop.remove_writer(self.number)
            self.peer.resume_writing()
            if self.closing:
                self.end(None)

    def is_reading(self) -> bool:
        return self.reading

    def pause_reading(self) -> None:
        if self.reading:
            self.reading = False
            self.loop.remove_reader(self.number)

    def resume_reading(self) -> None:
        if not self.reading and not self.closing and not self.ended:
            self.reading = True
            self.loop.add_reader(self.number, self.read)

    def close(self) -> None:
        """Ends the connection behind what is still to be written; nothing more is read."""
        if not self.closing and not self.ended:
            self.closing = True
            self.pause_reading()
            if not self.out:
                self.end(None)

    def abort(self) -> None:
        """Ends the connection; what is still to be written is not."""
        self.end(None)

    def end(self, fault: Exception | None) -> None:
        if self.ended:
            return
        self.ended = True
        self.pause_reading()
        if self.out:
            self.loop.remove_writer(self.number)
            self.out.clear()
        self.socket.close()
        self.loop.call_soon(self.peer.connection_lost, fault)
