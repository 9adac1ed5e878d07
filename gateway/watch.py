"""/health and /metrics, over HTTP on a port of 127.0.0.1 of their own."""
import asyncio
import json
import socket
from typing import Callable

MOST_READERS = 16
REQUEST_SECONDS = 5.0
REQUEST_BYTES = 4096


class Watch:
    """Answers one request a connection. `health` gives what stands there, `metrics` a text."""

    def __init__(self, health: Callable[[], dict[str, object]], metrics: Callable[[], str]) -> None:
        self.health, self.metrics = health, metrics
        self.readers = 0
        self.server: asyncio.Server | None = None

    async def open(self, door: socket.socket) -> None:
        self.server = await asyncio.start_server(self.answer, sock=door, limit=REQUEST_BYTES)

    def close(self) -> None:
        if self.server is not None:
            self.server.close()

    async def answer(self, reader: asyncio.StreamReader, writer: asyncio.StreamWriter) -> None:
        """Reads a request's head and answers it; who is slow, or one too many, gets nothing."""
        self.readers += 1
        try:
            if self.readers <= MOST_READERS:
                head = await asyncio.wait_for(reader.readuntil(b"\r\n\r\n"), REQUEST_SECONDS)
                writer.write(self.reply(head.split(b"\r\n", 1)[0].decode("latin-1").split(" ")))
                await asyncio.wait_for(writer.drain(), REQUEST_SECONDS)
        except (TimeoutError, OSError, asyncio.IncompleteReadError, asyncio.LimitOverrunError):
            pass
        finally:
            self.readers -= 1
            writer.close()

    def reply(self, words: list[str]) -> bytes:
        """The whole reply to a request's first line."""
        if len(words) != 3 or words[0] not in ("GET", "HEAD"):
            return http("405 Method Not Allowed", "text/plain", "GET or HEAD\n", words)
        path = words[1].partition("?")[0]
        if path == "/metrics":
            return http("200 OK", "text/plain; version=0.0.4", self.metrics(), words)
        if path == "/health":
            told = self.health()
            status = "200 OK" if told["serving"] else "503 Service Unavailable"
            return http(status, "application/json", json.dumps(told) + "\n", words)
        return http("404 Not Found", "text/plain", "/health or /metrics\n", words)


def http(status: str, kind: str, text: str, words: list[str]) -> bytes:
    """A reply of HTTP/1.1, without its body where the head alone was asked."""
    body = text.encode()
    head = f"HTTP/1.1 {status}\r\nContent-Type: {kind}\r\nContent-Length: {len(body)}\r\nConnection: close\r\n\r\n"
    return head.encode() + (b"" if words[:1] == ["HEAD"] else body)
