"""Framed messages over one connection: two bytes of length, the high one first, and so many bytes.

A connection to a host port or to the console's. A module serves one connection of a port at a time.
"""
import asyncio
import socket
from types import TracebackType
from typing import Self

MOST_BYTES = 65535  # of a message without its length
MOST_UNANSWERED = 32768  # bytes that are sent before replies are read: both sides' buffers hold as many


class ClientError(Exception):
    """There is no reply, or it is not the reply to the message that was sent."""


def framed(bodies: "list[bytes] | tuple[bytes, ...]") -> bytes:
    """Messages with their lengths, one after another. Raises ClientError for one of more than MOST_BYTES bytes."""
    for body in bodies:
        if len(body) > MOST_BYTES:
            raise ClientError(f"a message of {len(body)} bytes: a frame holds at most {MOST_BYTES}")
    return b"".join(len(body).to_bytes(2, "big") + body for body in bodies)


def closed(what: str, came: int, count: int, *, may_end: bool) -> ClientError:
    """The error of a connection that ended while bytes were wanted."""
    if may_end and not came:
        return ClientError("the connection was closed before a reply")
    return ClientError(f"the connection was closed inside {what}, after {came} of {count} bytes")


def parted(bodies: list[bytes]) -> list[list[bytes]]:
    """The messages in their order, in lists of at most MOST_UNANSWERED bytes or of one message."""
    lists: list[list[bytes]] = []
    room = 0
    for body in bodies:
        room -= 2 + len(body)
        if room < 0:
            lists.append([])
            room = MOST_UNANSWERED - 2 - len(body)
        lists[-1].append(body)
    return lists


class Texts:
    """What a message and a reply are beside their text: of the console's port they are the text itself."""

    def body_of(self, text: str) -> bytes:
        return text.encode("latin-1")

    def text_of(self, body: bytes) -> str:
        return body.decode("latin-1")


class HostTexts(Texts):
    """The header goes before each message and must come back before its reply."""

    def __init__(self, header: str) -> None:
        self.header = header.encode("latin-1")

    def body_of(self, text: str) -> bytes:
        return self.header + super().body_of(text)

    def text_of(self, body: bytes) -> str:
        header, rest = body[:len(self.header)], body[len(self.header):]
        if header != self.header:
            raise ClientError(f"a reply with the header {header!r} in place of {self.header!r}")
        return super().text_of(rest)


class Connection:
    """A blocking connection. Each wait ends after `timeout` seconds. Raises OSError where none can be made."""

    texts = Texts()

    def __init__(self, address: str, port: int, timeout: float = 10) -> None:
        self.timeout = timeout
        self.stream = socket.create_connection((address, port), timeout)
        self.stream.setsockopt(socket.IPPROTO_TCP, socket.TCP_NODELAY, 1)

    def __enter__(self) -> Self:
        return self

    def __exit__(self, kind: type[BaseException] | None, error: BaseException | None, at: TracebackType | None) -> None:
        self.close()

    def close(self) -> None:
        """Ends the connection. A module serves the next connection of a port only then."""
        self.stream.close()

    def send(self, *bodies: bytes) -> None:
        """Sends messages, each framed, in one piece."""
        self.stream.sendall(framed(bodies))

    def receive(self) -> bytes:
        """The next reply without its length."""
        length = int.from_bytes(self._exactly(2, "the length of a reply", may_end=True), "big")
        return self._exactly(length, "a reply")

    def _exactly(self, count: int, what: str, *, may_end: bool = False) -> bytes:
        data = b""
        while len(data) < count:
            try:
                piece = self.stream.recv(count - len(data))
            except TimeoutError:
                raise ClientError(f"no reply within {self.timeout} seconds") from None
            if not piece:
                raise closed(what, len(data), count, may_end=may_end)
            data += piece
        return data

    def ask(self, text: str) -> str:
        """Sends one message and gives its reply."""
        self.send(self.texts.body_of(text))
        return self.texts.text_of(self.receive())

    def ask_all(self, texts: list[str]) -> list[str]:
        """Sends several messages before their replies are read. Gives the replies, in the order of the messages."""
        replies: list[str] = []
        for bodies in parted([self.texts.body_of(text) for text in texts]):
            self.send(*bodies)
            replies += [self.texts.text_of(self.receive()) for _ in bodies]
        return replies


class HostConnection(Connection):
    """A connection to a host port, whose messages and replies are given without their header."""

    def __init__(self, address: str, port: int, header: str, timeout: float = 10) -> None:
        self.texts = HostTexts(header)
        super().__init__(address, port, timeout)


class AsyncConnection:
    """A connection of asyncio. Many tasks may ask at once: messages and replies keep their order."""

    def __init__(self, texts: Texts, timeout: float = 10) -> None:
        self.texts, self.timeout = texts, timeout
        self.reader: asyncio.StreamReader | None = None
        self.writer: asyncio.StreamWriter | None = None
        self.waiting: list[asyncio.Future[str]] = []
        self.reading: asyncio.Task[None] | None = None

    async def open(self, address: str, port: int) -> None:
        """Makes the connection. Raises OSError."""
        reader, writer = await asyncio.wait_for(asyncio.open_connection(address, port), self.timeout)
        writer.get_extra_info("socket").setsockopt(socket.IPPROTO_TCP, socket.TCP_NODELAY, 1)
        self.reader, self.writer = reader, writer
        self.reading = asyncio.create_task(self._read())

    async def close(self) -> None:
        """Ends the connection; what waits for a reply is told that none comes."""
        if self.reading is not None:
            self.reading.cancel()
            await asyncio.gather(self.reading, return_exceptions=True)
        if self.writer is not None:
            self.writer.close()

    async def ask(self, text: str) -> str:
        """Sends one message and gives its reply."""
        if self.writer is None or self.reading is None or self.reading.done():
            raise ClientError("the connection was closed before a reply")
        data = framed([self.texts.body_of(text)])
        answer: asyncio.Future[str] = asyncio.get_running_loop().create_future()
        self.waiting.append(answer)
        self.writer.write(data)
        try:
            await self.writer.drain()
        except OSError as error:
            raise ClientError(f"the connection failed: {error.strerror or error}") from None
        try:
            # The reply of a task that gave up still comes at its place.
            return await asyncio.wait_for(asyncio.shield(answer), self.timeout)
        except TimeoutError:
            raise ClientError(f"no reply within {self.timeout} seconds") from None

    async def _read(self) -> None:
        """Gives each reply to the message that has waited longest."""
        told = ClientError("the connection was closed before a reply")
        try:
            while True:
                body = await self._frame()
                answer = self.waiting.pop(0) if self.waiting else None
                if answer is None:
                    raise ClientError("a reply came to no message")
                if not answer.done():
                    try:
                        answer.set_result(self.texts.text_of(body))
                    except ClientError as error:
                        answer.set_exception(error)
        except ClientError as error:
            told = error
        except OSError as error:
            told = ClientError(f"the connection failed: {error.strerror or error}")
        finally:
            for answer in self.waiting:
                if not answer.done():
                    answer.set_exception(told)
                    answer.exception()  # nobody may wait for it any more
            self.waiting.clear()

    async def _frame(self) -> bytes:
        assert self.reader is not None
        what, count, may_end = "the length of a reply", 2, True
        try:
            length = int.from_bytes(await self.reader.readexactly(2), "big")
            what, count, may_end = "a reply", length, False
            return await self.reader.readexactly(length)
        except asyncio.IncompleteReadError as error:
            raise closed(what, len(error.partial), count, may_end=may_end) from None
