"""The gateway's configuration, and what the gateway uses of the module's: both read whole before anything is opened.

A document that breaks a rule raises `SettingsFault`, whose text names the key and what it wants. A file that can't be
read raises `OSError`.
"""
import dataclasses
import ipaddress
import os
import tomllib
from dataclasses import dataclass, field
from typing import Any, Callable

Address = tuple[str, int]
Network = ipaddress.IPv4Network | ipaddress.IPv6Network

LOCAL = ("127.0.0.0/8", "::1/128")
ACTS = ("delay", "refuse", "silence", "drop", "code")


class SettingsFault(Exception):
    """A configuration breaks a rule; the text says which key, and what it wants."""


@dataclass(frozen=True)
class Module:
    """What the gateway uses of the module's configuration."""

    path: str
    header: int  # bytes before the command code
    console: int  # the port of the console, to which nothing is passed on
    ports: tuple[int, ...]  # of the host lanes, lane 1 first
    accept: int  # connections that each lane accepts


@dataclass(frozen=True)
class Tls:
    """The ports that speak TLS, and the files for it."""

    listen: tuple[Address, ...]
    certificate: str
    key: str
    clients: str | None = None  # certificates of those who sign clients' certificates; None: no client needs one


@dataclass(frozen=True)
class Log:
    """Where the log goes, and how much it says."""

    file: str | None = None  # None: standard output
    texts: bool = False  # whether whole messages and replies stand in it


@dataclass(frozen=True)
class Limits:
    """How much the gateway holds, and how long it waits; times in seconds."""

    clients: int = 500
    messages: int = 64  # of one client without their replies
    client_bytes: int = 65536  # of these messages together, beyond which no further one is taken
    lane_messages: int = 64  # given to one lane without their replies
    few_connections: int = 16  # left to a lane, from which on it is told
    half_frame_seconds: float = 10.0
    answer_seconds: float = 10.0
    wait_seconds: float = 10.0
    unread_seconds: float = 30.0
    keepalive_seconds: int = 30
    drain_seconds: float = 10.0


@dataclass(frozen=True)
class FaultRule:
    """Some messages, and what is done to them."""

    act: str
    command: str | None = None  # None: each command
    share: float = 1.0  # of the messages of the command, 0 to 1
    milliseconds: int = 0  # with `delay`
    code: str = "68"  # with `code`


@dataclass(frozen=True)
class Settings:
    """A whole configuration."""

    module: Module
    program: str | None
    listen: tuple[Address, ...]
    watch_port: int | None
    allow: tuple[Network, ...]
    tls: Tls | None = None
    log: Log = field(default_factory=Log)
    limits: Limits = field(default_factory=Limits)
    faults: tuple[FaultRule, ...] = ()
    seed: int = 1


def read(path: str) -> Settings:
    """The settings of a file. Names of files in it are looked up from the file's own folder."""
    document = parsed(path)
    folder = os.path.dirname(os.path.abspath(path))
    top = Table(document, "", folder)
    top.take("version", MISSING, lambda value: is_integer(value, 1, 1), "1")
    module = read_module(top.file("module"))
    program = top.text("program", None)
    if program is not None and os.sep in program:
        program = os.path.join(folder, program)
    tls = read_tls(top.table("tls")) if "tls" in document else None
    settings = Settings(
        module=module,
        program=program,
        listen=top.addresses("listen", () if tls else None),
        watch_port=top.integer("watch_port", 1, 65535, None),
        allow=top.networks("allow", LOCAL),
        tls=tls,
        log=read_log(top.table("log")),
        limits=read_limits(top.table("limits")),
        faults=tuple(map(read_fault, top.tables("fault"))),
        seed=top.integer("fault_seed", 0, 2**32 - 1, 1))
    top.end()
    check_ports(settings)
    return settings


def parsed(path: str) -> dict[str, Any]:
    """The document of a file. Raises OSError where it can't be read, SettingsFault where it is no TOML."""
    with open(path, "rb") as file:
        try:
            return tomllib.load(file)
        except (tomllib.TOMLDecodeError, UnicodeDecodeError) as fault:
            raise SettingsFault(f"{path}: not toml: {fault}") from None


def read_module(path: str) -> Module:
    """What is used of a module's configuration; the program itself checks the whole of it."""
    document = parsed(path)
    try:
        table = Table(document, "", os.path.dirname(path))
        ports = document.get("host_ports")
        if not isinstance(ports, list) or not 1 <= len(ports) <= 64 or not all(
                is_integer(port, 1, 65535) for port in ports) or len(set(ports)) != len(ports):
            raise SettingsFault("key 'host_ports': 1 to 64 different integers of 1 to 65535 are wanted")
        return Module(path, table.integer("header", 0, 255), table.integer("console_port", 1, 65535), tuple(ports),
                      table.integer("accept", 1, 4096))
    except SettingsFault as fault:
        raise SettingsFault(f"{path}: {fault}") from None


def read_tls(table: "Table") -> Tls:
    tls = Tls(table.addresses("listen", None), table.file("certificate"), table.file("key"),
              table.file("clients", required=False))
    table.end()
    return tls


def read_log(table: "Table") -> Log:
    log = Log(table.file("file", required=False), table.boolean("texts", False))
    table.end()
    return log


def read_limits(table: "Table") -> Limits:
    """The limits that are named, each within its own bounds; the others are as above."""
    bounds = {"clients": (1, 20000), "messages": (1, 4096), "client_bytes": (1, 2**24), "lane_messages": (1, 4096),
              "few_connections": (0, 4096), "keepalive_seconds": (1, 3600)}
    named: dict[str, Any] = {}
    for each in dataclasses.fields(Limits):
        if each.name in bounds:
            named[each.name] = table.integer(each.name, *bounds[each.name], each.default)
        else:
            named[each.name] = table.number(each.name, 0.05, 3600.0, each.default)
    table.end()
    return Limits(**named)


def read_fault(table: "Table") -> FaultRule:
    act = table.text("act")
    if act not in ACTS:
        raise SettingsFault(f"key '{table.name}act': one of {', '.join(ACTS)} is wanted")
    rule = FaultRule(
        act, table.text("command", None), table.number("share", 0.0, 1.0, 1.0),
        table.integer("milliseconds", 1, 600_000) if act == "delay" else 0,
        table.text("code") if act == "code" else "68")
    table.end()
    for name, text in ("command", rule.command), ("code", rule.code):
        if text is not None and not (len(text) == 2 and text.isascii() and text.isprintable() and text.strip() == text):
            raise SettingsFault(f"key '{table.name}{name}': two printable characters are wanted")
    return rule


def check_ports(settings: Settings) -> None:
    """No port is named twice, and none is one of the module's."""
    listening = [*settings.listen, *(settings.tls.listen if settings.tls else ())]
    if not listening:
        raise SettingsFault("key 'listen': at least one address is wanted")
    if settings.watch_port:
        listening.append(("127.0.0.1", settings.watch_port))
    for place, (host, port) in enumerate(listening):
        if (host, port) in listening[:place]:
            raise SettingsFault(f"{host} port {port} is named twice")
        if host in ("127.0.0.1", "0.0.0.0") and port in (settings.module.console, *settings.module.ports):
            kind = "the console's port" if port == settings.module.console else "a host port"
            raise SettingsFault(f"{host} port {port} is {kind} of the module")


def is_integer(value: Any, least: int, most: int) -> bool:
    return isinstance(value, int) and not isinstance(value, bool) and least <= value <= most


def address_of(text: Any) -> Address:
    """The address and port of `127.0.0.1:1600` or `[::1]:1600`. Raises ValueError."""
    host, _, port = text.rpartition(":")
    if host.startswith("[") and host.endswith("]"):
        host = str(ipaddress.IPv6Address(host[1:-1]))
    else:
        host = str(ipaddress.IPv4Address(host))
    if not port.isascii() or not port.isdigit() or not 1 <= int(port) <= 65535:
        raise ValueError(port)
    return host, int(port)


MISSING: Any = object()


class Table:
    """A table of the document, whose keys are taken one by one; those that are left over are refused."""

    def __init__(self, values: dict[str, Any], name: str, folder: str) -> None:
        self.values, self.name, self.folder = dict(values), name, folder

    def take(self, key: str, default: Any, is_good: Callable[[Any], bool], wanted: str) -> Any:
        value = self.values.pop(key, MISSING)
        if value is MISSING and default is not MISSING:
            return default
        if value is MISSING or not is_good(value):
            raise SettingsFault(f"key '{self.name}{key}': {wanted} is wanted")
        return value

    def integer(self, key: str, least: int, most: int, default: Any = MISSING) -> Any:
        return self.take(key, default, lambda value: is_integer(value, least, most),
                         f"an integer of {least} to {most}")

    def number(self, key: str, least: float, most: float, default: Any = MISSING) -> float:
        return float(self.take(key, default, lambda value: (
            isinstance(value, (int, float)) and not isinstance(value, bool) and least <= value <= most),
            f"a number of {least:g} to {most:g}"))

    def boolean(self, key: str, default: Any = MISSING) -> Any:
        return self.take(key, default, lambda value: isinstance(value, bool), "true or false")

    def text(self, key: str, default: Any = MISSING) -> Any:
        return self.take(key, default, lambda value: isinstance(value, str) and value != "" and "\0" not in value,
                         "a text")

    def file(self, key: str, *, required: bool = True) -> Any:
        name = self.text(key, MISSING if required else None)
        return name if name is None else os.path.join(self.folder, name)

    def list_of(self, key: str, default: Any, read: Callable[[Any], Any], wanted: str) -> tuple[Any, ...]:
        values = self.take(key, MISSING if default is None else list(default), lambda value: (
            isinstance(value, list) and all(isinstance(each, str) for each in value)), wanted)
        try:
            return tuple(map(read, values))
        except ValueError:
            raise SettingsFault(f"key '{self.name}{key}': {wanted} is wanted") from None

    def addresses(self, key: str, default: Any) -> tuple[Address, ...]:
        return self.list_of(key, default, address_of, "a list of texts such as 127.0.0.1:1600 or [::1]:1600")

    def networks(self, key: str, default: Any) -> tuple[Network, ...]:
        return self.list_of(key, default, ipaddress.ip_network, "a list of addresses or networks such as 192.0.2.0/24")

    def table(self, key: str) -> "Table":
        return Table(self.take(key, {}, lambda value: isinstance(value, dict), "a table"), f"{key}.", self.folder)

    def tables(self, key: str) -> list["Table"]:
        """The tables of a list, which are numbered from 1 in what is told of them."""
        found = self.take(key, [], lambda value: (
            isinstance(value, list) and all(isinstance(each, dict) for each in value)), f"[[{key}]]")
        return [Table(each, f"{key}.{number}.", self.folder) for number, each in enumerate(found, 1)]

    def end(self) -> None:
        for key in self.values:
            raise SettingsFault(f"no key '{self.name}{key}' is known")
