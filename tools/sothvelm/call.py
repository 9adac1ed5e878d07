"""A method of a client for a command: it takes what the command's request takes, and gives what the client makes of it.

`Client` gives the reply, `AsyncClient` a coroutine for it, and `Pipeline` what holds it once the pipeline was sent.
"""
from collections.abc import Callable, Coroutine
from typing import TYPE_CHECKING, Any, Generic, ParamSpec, TypeVar, overload

from sothvelm.request import Request

if TYPE_CHECKING:
    from sothvelm.client import AsyncSide, BlockingSide, Pending, PipelineSide

P = ParamSpec("P")
R = TypeVar("R")


class call(Generic[P, R]):  # noqa: N801
    """A descriptor over the function that makes the command's request."""

    def __init__(self, make: Callable[P, Request[R]]) -> None:
        self.make = make
        self.__doc__ = make.__doc__

    @overload
    def __get__(self, client: None, kind: type) -> Callable[P, Request[R]]: ...
    @overload
    def __get__(self, client: "BlockingSide", kind: type) -> Callable[P, R]: ...
    @overload
    def __get__(self, client: "AsyncSide", kind: type) -> Callable[P, Coroutine[Any, Any, R]]: ...
    @overload
    def __get__(self, client: "PipelineSide", kind: type) -> "Callable[P, Pending[R]]": ...

    def __get__(self, client: Any, kind: type) -> Any:
        if client is None:
            return self.make

        def called(*given: P.args, **named: P.kwargs) -> Any:
            return client.perform(self.make(*given, **named))

        called.__doc__, called.__name__ = self.__doc__, self.make.__name__
        return called
