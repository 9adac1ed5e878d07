"""The whole gateway, from the words of the command line to the exit status."""
import asyncio
import contextlib
import os
import signal
import socket
import ssl
import sys
import time
import traceback
from collections.abc import Iterator
from dataclasses import dataclass

from gateway import doors, journal, program, settings
from gateway.figures import Figures
from gateway.lane import Lane
from gateway.relay import Relay
from gateway.watch import Watch
from sothvelm import table
from sothvelm.refusals import Refusals

USAGE = "usage: gateway CONFIG, or gateway --check CONFIG; gateway --help says more"
HELP = """usage: gateway CONFIG
       gateway --check CONFIG
       gateway --help

A front door for a laboratory: any number of clients over the host lanes of
`hsm_tool serve`. docs/GATEWAY.md is its page.

CONFIG is a document in TOML. It wants these keys:
  version = 1
  module = "module.toml"        the configuration of the module
  listen = ["127.0.0.1:1600"]   addresses with ports for clients
and may have:
  program = "hsm_tool"          the program, which is then started and watched
  watch_port = 9464             the port of /health and /metrics on 127.0.0.1
  allow = ["192.0.2.0/24"]      who may connect, else this machine alone
  fault_seed, [tls], [log], [limits], [[fault]]

The log goes to standard output, a line of JSON for each message. On SIGTERM or
SIGINT no more messages are taken, those under way are answered, and the program
is ended. A second signal ends the waiting.

--check reads CONFIG and the files that it names, and prints OK and the number
of lanes. It opens no port and starts nothing.

Exit status: the program's own, 143 where the gateway's end ended it; 0 without
a program. What stops the gateway before it serves is told by one line on
standard error, and has the status
  64  the words are wrong             72  the program is not there
  66  a file can't be read            73  the log can't be opened
  69  a port can't be listened on     78  a configuration is wrong"""
# Exit statuses of the gateway's own, after sysexits.h; the others are the program's.
WORDS, NO_FILE, NO_DOOR, NO_PROGRAM, NO_LOG, WRONG = 64, 66, 69, 72, 73, 78
ENDED_SECONDS = 1.0  # for replies that are still to be written, once the program has ended for good


class Refused(Exception):
    """The gateway does not start: its exit status, and one line for standard error."""

    def __init__(self, status: int, told: str) -> None:
        super().__init__(told)
        self.status = status


@dataclass(frozen=True)
class Read:
    """What is read before anything is opened."""

    settings: settings.Settings
    refusals: Refusals
    context: ssl.SSLContext | None
    program: str | None


@dataclass(frozen=True)
class Opened:
    """What is opened before the gateway serves."""

    log: int
    doors: list[tuple[socket.socket, bool]]
    watch: socket.socket | None


class Gateway:
    """The gateway while it serves."""

    def __init__(self, found: Read, held: Opened) -> None:
        self.settings, self.watch_door = found.settings, held.watch
        self.journal = journal.Journal(held.log, asyncio.get_running_loop())
        self.figures = Figures(found.refusals.commands)
        self.relay = Relay(found.settings, self.journal, self.figures, found.refusals)
        self.lanes = [Lane(self.relay, place) for place in range(len(found.settings.module.ports))]
        self.doors = doors.Doors(self.relay, held.doors, found.context)
        self.watch = Watch(self.health, self.metrics)
        self.program = found.program and program.Program(
            found.program, found.settings.module.path, self.journal, self.figures, self.renew)
        self.stopped = asyncio.Event()
        self.began = time.monotonic()

    async def run(self) -> int:
        """Serves until a signal or the program's last end. Gives the exit status."""
        self.journal.start()
        self.relay.loop.set_exception_handler(self.defect)
        for number in signal.SIGTERM, signal.SIGINT:
            self.relay.loop.add_signal_handler(number, self.stop)
        running = asyncio.create_task(self.program.run()) if self.program else None
        keeping = [asyncio.create_task(lane.keep()) for lane in self.lanes]
        for task in keeping:
            task.add_done_callback(self.kept)
        self.relay.on_sweep.append(self.look)
        self.relay.sweep()
        self.doors.open()
        if self.watch_door is not None:
            await self.watch.open(self.watch_door)
        self.journal.event("gateway", f"serves {len(self.lanes)} lanes")
        stopping = asyncio.create_task(self.stopped.wait())
        await asyncio.wait({stopping, *([running] if running else [])}, return_when=asyncio.FIRST_COMPLETED)
        self.doors.close()
        self.journal.event("gateway", "takes no more messages")
        # Where the program has ended for good there are no replies to wait for.
        await self.relay.drain(ENDED_SECONDS if running and running.done() else self.settings.limits.drain_seconds)
        for task in [*keeping, stopping, *self.doors.tasks]:
            task.cancel()
        for link in filter(None, self.relay.links):
            link.transport.close()
        self.watch.close()
        status = await self.program.end(running) if self.program and running else 0
        self.journal.event("gateway", f"ends with status {status}")
        self.journal.end()
        if self.program and self.program.in_vain:
            print(f"gateway: {self.program.in_vain}", file=sys.stderr)
        return status

    def stop(self) -> None:
        """A signal: the first one ends the gateway in order, the second one at once."""
        if self.stopped.is_set():
            self.relay.drain_until = 0.0
        self.stopped.set()

    def defect(self, _: object, context: dict[str, object]) -> None:
        """Something that must not happen: where it did is told, and no value, since that could be a secret."""
        fault = context.get("exception")
        trace = traceback.extract_tb(fault.__traceback__) if isinstance(fault, BaseException) else []
        places = " ".join(f"{os.path.basename(frame.filename)}:{frame.lineno}" for frame in trace)
        self.journal.event("defect", f"{type(fault).__name__} {places}".strip())

    def kept(self, task: "asyncio.Task[None]") -> None:
        if not task.cancelled() and task.exception() is not None:
            self.defect(None, {"exception": task.exception()})

    def look(self, _: float) -> None:
        """What is looked at with each sweep: a program of which no lane is left is started anew."""
        if self.program and all(lane.state == "spent" for lane in self.lanes):
            for lane in self.lanes:
                lane.state = "starting"
            self.program.renew()

    def renew(self) -> None:
        """The program is about to be a new one."""
        for lane in self.lanes:
            lane.renew()

    # What /health and /metrics say

    def health(self) -> dict[str, object]:
        """Whether messages are served, and by how many lanes."""
        serving = sum(lane.state == "serving" for lane in self.lanes)
        return {"serving": bool(serving) and not self.relay.is_ending, "lanes": len(self.lanes),
                "lanes_serving": serving, "lanes_spent": sum(lane.state == "spent" for lane in self.lanes),
                "connections_left": sum(lane.left for lane in self.lanes), "clients": self.doors.inside,
                "under_way": self.relay.under_way(), "messages": self.figures.messages(),
                "seconds": int(time.monotonic() - self.began)}

    def metrics(self) -> str:
        """The text of /metrics."""
        relay, lanes = self.relay, self.lanes
        self.figures.counted["log_lines_lost", ""] = self.journal.lost
        states = ("starting", "serving", "out", "spent")
        links = [(lane, relay.links[lane.place]) for lane in lanes]
        return self.figures.text([
            ("clients_now", "Clients that are connected.", [("", self.doors.inside)]),
            ("waiting_messages", "Messages that wait for a lane.", [("", len(relay.waiting))]),
            ("lanes", "Lanes by state.", [
                (f'state="{state}"', sum(lane.state == state for lane in lanes)) for state in states]),
            ("lane_under_way", "Messages that a lane was given and has not answered.", [
                (f'lane="{lane.number}"', len(link.under_way) if link else 0) for lane, link in links]),
            ("lane_connections_left", "Connections that a lane accepts before it ends.", [
                (f'lane="{lane.number}"', lane.left) for lane in lanes])])


@contextlib.contextmanager
def refusing() -> Iterator[None]:
    """Turns what may be wrong at the start into the status and the line that tell of it."""
    try:
        yield
    except (settings.SettingsFault, table.TableFault) as fault:
        raise Refused(WRONG, str(fault)) from None
    except doors.DoorFault as fault:
        raise Refused(NO_DOOR, str(fault)) from None
    except program.ProgramFault as fault:
        raise Refused(NO_PROGRAM, str(fault)) from None
    except OSError as fault:
        raise Refused(NO_FILE, f"{fault.filename}: {fault.strerror}") from None


def read_table() -> Refusals:
    """Refusals over the table of commands. Raises OSError, TableFault."""
    return Refusals(table.load())


def read(path: str) -> Read:
    """Reads the configuration and the files that it names. Raises Refused."""
    with refusing():
        chosen = settings.read(path)
        return Read(chosen, read_table(), doors.context_of(chosen.tls) if chosen.tls else None,
                    program.found(chosen.program) if chosen.program else None)


def opened(chosen: settings.Settings) -> Opened:
    """Opens the log and all ports. Raises Refused; no client was let in then."""
    try:
        log = journal.open_log(chosen.log.file)
    except OSError as fault:
        raise Refused(NO_LOG, f"{fault.filename}: {fault.strerror}") from None
    with refusing():
        listening = doors.open_doors(chosen)
        watch = doors.opened(("127.0.0.1", chosen.watch_port), 60) if chosen.watch_port else None
    return Opened(log, listening, watch)


async def serve(found: Read, held: Opened) -> int:
    return await Gateway(found, held).run()


def main(words: list[str]) -> int:
    """Serves under the configuration that the words name, or checks it. Gives the exit status."""
    if words in (["--help"], ["-h"]):
        print(HELP)
        return 0
    is_check = words[:1] == ["--check"]
    names = words[is_check:]
    if len(names) != 1 or not names[0] or names[0].startswith("-"):
        print(USAGE, file=sys.stderr)
        return WORDS
    try:
        found = read(names[0])
        if is_check:
            print(f"OK {len(found.settings.module.ports)}")
            return 0
        held = opened(found.settings)
    except Refused as refused:
        print(f"gateway: {refused}", file=sys.stderr)
        return refused.status
    return asyncio.run(serve(found, held))
