"""Listening sockets, the list of addresses that may connect, and TLS."""
import asyncio
import contextlib
import errno
import ipaddress
import socket
import ssl
import time
from typing import TYPE_CHECKING

from gateway.client import Client
from gateway.plain import Plain
from gateway.settings import Address, Settings, SettingsFault, Tls

if TYPE_CHECKING:
    from gateway.relay import Relay

BACKLOG = 1024
MOST_ACCEPTED = 64  # connections in one turn
HELD_BYTES = 131_072  # of a client's messages, and of its replies, that the system is asked to hold
PROBES = 3  # that a client leaves unanswered before its connection ends
HANDSHAKE_SECONDS = 10.0
FULL_SECONDS = 1.0  # without accepting where no descriptor is left
TOLD_SECONDS = 1.0  # between two lines on connections that were refused for one cause


class DoorFault(Exception):
    """A port can't be listened on; the text says which and why."""


def opened(address: Address, keepalive: int) -> socket.socket:
    """A socket that listens, and whose connections are kept alive by probes. Raises DoorFault."""
    host, port = address
    family = socket.AF_INET6 if ":" in host else socket.AF_INET
    door = socket.socket(family, socket.SOCK_STREAM | socket.SOCK_NONBLOCK)
    try:
        door.setsockopt(socket.SOL_SOCKET, socket.SO_REUSEADDR, 1)
        if family == socket.AF_INET6:
            door.setsockopt(socket.IPPROTO_IPV6, socket.IPV6_V6ONLY, 1)
        # What is set here is set for each connection that is accepted.
        door.setsockopt(socket.SOL_SOCKET, socket.SO_KEEPALIVE, 1)
        for option in socket.SO_RCVBUF, socket.SO_SNDBUF:
            door.setsockopt(socket.SOL_SOCKET, option, HELD_BYTES)
        for option, value in (
                (socket.TCP_NODELAY, 1), (socket.TCP_KEEPIDLE, keepalive),
                (socket.TCP_KEEPINTVL, max(1, keepalive // PROBES)), (socket.TCP_KEEPCNT, PROBES),
                (socket.TCP_USER_TIMEOUT, 2000 * keepalive)):
            door.setsockopt(socket.IPPROTO_TCP, option, value)
        door.bind((host, port))
        door.listen(BACKLOG)
    except OSError as fault:
        door.close()
        raise DoorFault(f"{host} port {port} can't be listened on: {fault.strerror}") from None
    return door


def open_doors(settings: Settings) -> list[tuple[socket.socket, bool]]:
    """All sockets that clients connect to, each with whether it speaks TLS. Raises DoorFault, and opens none then."""
    doors: list[tuple[socket.socket, bool]] = []
    with contextlib.ExitStack() as held:
        for addresses, is_tls in ((settings.listen, False), (settings.tls.listen if settings.tls else (), True)):
            for address in addresses:
                door = opened(address, settings.limits.keepalive_seconds)
                held.callback(door.close)
                doors.append((door, is_tls))
        held.pop_all()
    return doors


def context_of(tls: Tls) -> ssl.SSLContext:
    """What TLS stands on. Raises OSError where a file can't be read, SettingsFault where it holds something else."""
    for name in filter(None, (tls.certificate, tls.key, tls.clients)):
        with open(name, "rb"):
            pass
    context = ssl.SSLContext(ssl.PROTOCOL_TLS_SERVER)
    context.minimum_version = ssl.TLSVersion.TLSv1_2
    try:
        context.load_cert_chain(tls.certificate, tls.key, password=lambda: b"")
        if tls.clients:
            context.load_verify_locations(tls.clients)
            context.verify_mode = ssl.CERT_REQUIRED
    except (ssl.SSLError, ValueError) as fault:
        raise SettingsFault(f"key 'tls': the certificate, its key or those of clients don't read: {fault}") from None
    return context


class Doors:
    """Accepts clients, as many as `clients` says, from the addresses of `allow`."""

    def __init__(self, relay: "Relay", doors: list[tuple[socket.socket, bool]], context: ssl.SSLContext | None) -> None:
        self.relay, self.doors, self.context = relay, doors, context
        self.inside = 0  # clients, and connections that are still in their handshake
        self.allowed: dict[str, bool] = {}
        self.told: dict[str, float] = {}
        self.tasks: set[asyncio.Task[None]] = set()

    def open(self) -> None:
        for door, is_tls in self.doors:
            self.relay.loop.add_reader(door, self.accept, door, is_tls)

    def close(self) -> None:
        for door, _ in self.doors:
            self.relay.loop.remove_reader(door)
            door.close()
        self.doors = []

    def accept(self, door: socket.socket, is_tls: bool) -> None:
        """Accepts the connections that wait at a door."""
        for _ in range(MOST_ACCEPTED):
            try:
                connection, address = door.accept()
            except (BlockingIOError, InterruptedError):
                return
            except OSError as fault:
                if fault.errno in (errno.EMFILE, errno.ENFILE, errno.ENOBUFS, errno.ENOMEM):
                    self.relay.loop.remove_reader(door)
                    self.relay.loop.call_later(FULL_SECONDS, self.again, door, is_tls)
                    self.refuse("no descriptor", f"no client is let in for now: {fault.strerror}", "")
                    return
                continue  # the client was gone before it was accepted
            self.admit(connection, address, is_tls)

    def again(self, door: socket.socket, is_tls: bool) -> None:
        if (door, is_tls) in self.doors:
            self.relay.loop.add_reader(door, self.accept, door, is_tls)

    def admit(self, connection: socket.socket, address: tuple[str, int], is_tls: bool) -> None:
        """Lets a client in, or ends its connection and tells why."""
        host, port = address[0], address[1]
        name = f"[{host}]:{port}" if ":" in host else f"{host}:{port}"
        if not self.is_allowed(host):
            connection.close()
            self.refuse("address", "the address is not one that may connect", name)
        elif self.inside >= self.relay.limits.clients:
            connection.close()
            self.refuse("too many", f"there are {self.inside} clients, and no more are let in", name)
        else:
            self.inside += 1
            client = Client(self.relay, name, self.left)
            if not is_tls:
                self.relay.figures.count("clients")
                client.begin(Plain(self.relay.loop, connection, client))
                return
            task = self.relay.loop.create_task(self.join(connection, client))
            self.tasks.add(task)
            task.add_done_callback(self.tasks.discard)

    async def join(self, connection: socket.socket, client: Client) -> None:
        """Makes a connection the client's once its handshake is over."""
        try:
            await self.relay.loop.connect_accepted_socket(
                lambda: client, connection, ssl=self.context, ssl_handshake_timeout=HANDSHAKE_SECONDS)
            self.relay.figures.count("clients")
        except (OSError, asyncio.CancelledError) as fault:
            connection.close()
            if client.transport is None:
                self.inside -= 1
            self.refuse("handshake", f"no TLS: {fault}", client.name)

    def left(self) -> None:
        self.inside -= 1

    def is_allowed(self, host: str) -> bool:
        found = self.allowed.get(host)
        if found is None:
            address = ipaddress.ip_address(host.partition("%")[0])
            found = any(address in network for network in self.relay.settings.allow)
            if len(self.allowed) < 10_000:
                self.allowed[host] = found
        return found

    def refuse(self, cause: str, told: str, name: str) -> None:
        """Counts a connection that was refused, and tells of it, of each cause once a second at most."""
        self.relay.figures.count("clients_refused", f'cause="{cause}"')
        now = time.monotonic()
        if now - self.told.get(cause, 0.0) >= TOLD_SECONDS:
            self.told[cause] = now
            self.relay.journal.event("refused", told, client=name)
