"""Clients of a module's host ports and of its console, with a method for each command.

    with Client("127.0.0.1", 1501, header="0001") as host:
        host.check_of_lmks().check_of_lmks               # "33C517CEFDC01D40"
        with host.pipeline() as several:                 # sent together, when the block ends
            first = several.draw_pin(account_field="123456789012", length=4)
            second = several.echo(data=b"ABC")
        first.reply.pin_under_lmks, second.reply.data

A refusal is raised as `Refused`, with its code and its words; that there is no reply, as `ClientError`; a value of
another form than its field's, before anything is sent, as `FieldFault`. `AsyncClient` and `AsyncConsole` have the same
methods as coroutines; messages of several tasks are sent without waiting for each other's replies.
"""
from types import TracebackType
from typing import Any, Generic, Protocol, Self, TypeVar

from sothvelm.commands import ConsoleCommands, HostCommands
from sothvelm.link import AsyncConnection, ClientError, Connection, HostConnection, HostTexts, Texts
from sothvelm.request import FieldFault, Refused, Request

__all__ = ["AsyncClient", "AsyncConsole", "Client", "ClientError", "Console", "FieldFault", "Pending", "Refused"]
R = TypeVar("R")
Answer = Any | Refused | ClientError


class Pending(Generic[R]):
    """A message of a pipeline. `reply`, once the pipeline was sent, gives its reply or raises its refusal."""

    def __init__(self, request: Request[R], text: str) -> None:
        self.request, self.text = request, text
        self.answer: R | None = None
        self.error: Exception | None = ClientError("the pipeline was not sent yet")

    @property
    def reply(self) -> R:
        """The reply. Raises Refused or ClientError."""
        if self.error is not None:
            raise self.error
        return self.answer  # type: ignore[return-value]

    def settle(self, text: str) -> None:
        """Takes the text of the reply."""
        try:
            self.answer, self.error = self.request.read(text), None
        except ClientError as error:
            self.error = error


class Asks(Protocol):
    """What a client is over: texts are sent, and their replies come in the order of the messages."""

    def ask(self, text: str) -> str: ...
    def ask_all(self, texts: list[str]) -> list[str]: ...
    def close(self) -> None: ...


class Side:
    """What all clients share: they perform a request, each in its way."""


class BlockingSide(Side):
    """A client whose methods give replies."""

    connection: Asks

    @classmethod
    def over(cls, connection: Asks) -> Self:
        """A client over a connection that is there."""
        client = cls.__new__(cls)
        client.connection = connection
        return client

    def __enter__(self) -> Self:
        return self

    def __exit__(self, kind: type[BaseException] | None, error: BaseException | None, at: TracebackType | None) -> None:
        self.close()

    def close(self) -> None:
        """Ends the connection."""
        self.connection.close()

    def perform(self, request: Request[R]) -> R:
        """Sends a message and gives its reply. Raises Refused, ClientError, FieldFault."""
        return request.read(self.connection.ask(request.text()))

    def perform_all(self, requests: list[Request[Any]]) -> list[Answer]:
        """Sends several messages before their replies are read. Gives a reply, or the error, for each of them."""
        waiting = [Pending(each, each.text()) for each in requests]
        send(self.connection, waiting)
        return [each.answer if each.error is None else each.error for each in waiting]

    def ask(self, text: str) -> str:
        """Sends a text as it is, without its header, and gives the reply's. Raises ClientError alone."""
        return self.connection.ask(text)


def send(connection: Asks, waiting: list[Pending[Any]]) -> None:
    """Sends the messages of a pipeline, and gives each its reply. Raises ClientError where replies end early."""
    for each, text in zip(waiting, connection.ask_all([each.text for each in waiting])):
        each.settle(text)


class PipelineSide(Side):
    """Methods that put their messages into a pipeline."""

    def __init__(self, connection: Asks) -> None:
        self.connection = connection
        self.waiting: list[Pending[Any]] = []

    def __enter__(self) -> Self:
        return self

    def __exit__(self, kind: type[BaseException] | None, error: BaseException | None, at: TracebackType | None) -> None:
        if error is None:
            self.send()

    def perform(self, request: Request[R]) -> Pending[R]:
        """Puts a message into the pipeline. Raises FieldFault."""
        self.waiting.append(Pending(request, request.text()))
        return self.waiting[-1]

    def send(self) -> None:
        """Sends what was put in since the last time. Raises ClientError where replies end early."""
        waiting, self.waiting = self.waiting, []
        send(self.connection, waiting)


class Pipeline(PipelineSide, HostCommands):
    """Messages of a host that are sent together."""


class ConsolePipeline(PipelineSide, ConsoleCommands):
    """Texts of the console that are sent together."""


class Client(BlockingSide, HostCommands):
    """A connection to a host port of a module, or to the gateway. Each wait ends after `timeout` seconds.

    `header` is what stands before each message, as many characters as the module's configuration says. Raises OSError
    where no connection can be made.
    """

    def __init__(self, host: str, port: int, header: str = "0001", timeout: float = 10) -> None:
        self.connection = HostConnection(host, port, header, timeout)

    def pipeline(self) -> Pipeline:
        """Messages that are sent together at the end of a `with` block."""
        return Pipeline(self.connection)


class Console(BlockingSide, ConsoleCommands):
    """A connection to the console's port of a module."""

    def __init__(self, host: str, port: int, timeout: float = 10) -> None:
        self.connection = Connection(host, port, timeout)

    def pipeline(self) -> ConsolePipeline:
        """Texts that are sent together at the end of a `with` block."""
        return ConsolePipeline(self.connection)


class AsyncSide(Side):
    """A client of asyncio, whose methods are coroutines. Use it as `async with`, or call `open` and `close`."""

    def __init__(self, host: str, port: int, texts: Texts, timeout: float) -> None:
        self.address = host, port
        self.connection = AsyncConnection(texts, timeout)

    async def __aenter__(self) -> Self:
        await self.open()
        return self

    async def __aexit__(self, *_: object) -> None:
        await self.close()

    async def open(self) -> None:
        """Makes the connection. Raises OSError."""
        await self.connection.open(*self.address)

    async def close(self) -> None:
        """Ends the connection."""
        await self.connection.close()

    async def perform(self, request: Request[R]) -> R:
        """Sends a message and gives its reply. Raises Refused, ClientError, FieldFault."""
        return request.read(await self.connection.ask(request.text()))

    async def ask(self, text: str) -> str:
        """Sends a text as it is, without its header, and gives the reply's. Raises ClientError alone."""
        return await self.connection.ask(text)


class AsyncClient(AsyncSide, HostCommands):
    """`Client` for asyncio."""

    def __init__(self, host: str, port: int, header: str = "0001", timeout: float = 10) -> None:
        super().__init__(host, port, HostTexts(header), timeout)


class AsyncConsole(AsyncSide, ConsoleCommands):
    """`Console` for asyncio."""

    def __init__(self, host: str, port: int, timeout: float = 10) -> None:
        super().__init__(host, port, Texts(), timeout)
