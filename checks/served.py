"""The program as it serves on free ports of 127.0.0.1, and connections to its lanes.

A check that is listed by `serving_check` runs again where another program took a port that was free when it was chosen.
The replies wanted are those that docs/COMMANDS.md states for its worked messages. Each wait ends after some seconds, and
each program that is started is ended.
"""
import contextlib
import functools
import os
import re
import resource
import shutil
import socket
import struct
import subprocess
import tempfile
import time

import checks
from checks import Failed, Skipped, check, same
from client import Connection, Console, Host

HAS_MODEL = shutil.which("openssl") is not None

WAIT = 20  # seconds that a connection, a reply or an end is waited for; a few of them at most together
ADDRESS, HEADER = "127.0.0.1", b"0001"
ECHO, ECHOED = b"B20002Hi", b"B300Hi"
SHOW_PIN, PIN_SHOWN, PIN_REFUSED = b"NG123456789012FEB654057793C1C3", b"NH004621FFFFFFFF", b"NH17"

# The worked messages of docs/COMMANDS.md whose answers are the same whatever was answered before.
WORKED = {
    "A6001U9F9A79DCD106B37584C5D3D3C418F4AEX1A4D672DCA6CB3351FD1B02B237AF9A"
    "EU": "A700U71D85977C347EBFADA6E35FE76C6A28108D7B4",
    "A8001U9F9A79DCD106B37584C5D3D3C418F4AEU71D85977C347EBFADA6E35FE76C6A28"
    "1X": "A900X1A4D672DCA6CB3351FD1B02B237AF9AE08D7B4",
    "BUFF1U93433818F0FC142D7DDA7B0CFFEF28D2;402": "BV0008D7B4",
    "BU010U71D85977C347EBFADA6E35FE76C6A281": "BV27",
    "CAU70608A485781E63A744063451C9937C8U3F8CBDF978784512EB6EFEAEC959DDE812"
    "5E6CD2CEB7124BBF0101123456789012": "CB0004526BF0A5BB9BD27101",
    "CCU3F8CBDF978784512EB6EFEAEC959DDE80432EB69FE765AC40691F26B03811511930101123456789012": "CD000626D8302117AD6FFE01",
    "DEUC0BB8D8AC01056250F71E7C14AD8FF9DAC9E30EA4EE0882004123456789012012345670123456712345678901N": "DF006088FFFFFFFF",
    "DG783D054D5587C8BD8FB88A71AC1A5C5DAC9E30EA4EE088201234567890121": "DH001256",
    "DAU70608A485781E63A744063451C9937C8UC0BB8D8AC01056250F71E7C14AD8FF9D04"
    "5E6CD2CEB7124BBF0104123456789012012345678901234512345678901N6200FFFFFFFF": "DB00",
    "EAU3F8CBDF978784512EB6EFEAEC959DDE8UC0BB8D8AC01056250F71E7C14AD8FF9D05"
    "631B19DF14F8FA524705123456789012012345678901234512345678901N62002FFFFFFF": "EB00",
    "DCU70608A485781E63A744063451C9937C8783D054D5587C8BD8FB88A71AC1A5C5D5E6CD2CEB7124BBF0112345678901211256": "DD00",
    "ECU3F8CBDF978784512EB6EFEAEC959DDE8783D054D5587C8BD8FB88A71AC1A5C5D3D070DA9086C3F6E4740000012345630206": "ED00",
    "NG123456789012FEB654057793C1C3": "NH17",
    "CWU050818953CB9A7F43E0AD44C5019553E4123456789012345678;8701101": "CX00568",
    "CYU050818953CB9A7F43E0AD44C5019553E5684123456789012345678;8701101": "CZ00",
    "M600011008U74B3A15FE77187687BC6542782E3EB50001C7654321 Now is the time for ": "M7005889D4F0",
    "M610011008U74B3A15FE77187687BC6542782E3EB5000107654321 Now is t": "M700599AE0DF286B48B1",
    "M620011008U74B3A15FE77187687BC6542782E3EB50599AE0DF286B48B10008he time ": "M700B57171C1A8B56F24",
    "M630011008U74B3A15FE77187687BC6542782E3EB50B57171C1A8B56F240004for ": "M7005889D4F0",
    "M800132008U74B3A15FE77187687BC6542782E3EB50001C7654321 Now is the time for adf239fe343102b1": "M900",
    "NC": "ND0033C517CEFDC01D400001-LAB1",
    "ZZ": "Z[68",
}
WORKED = {message.encode(): answer.encode() for message, answer in WORKED.items()}

CONFIGURATION = """version = 1
header = 4
officers = ["ba7816bf8f01cfea414140de5dae2223b00361a396177a9cb410ff61f20015ad",
            "2cf24dba5fb0a30e26e83b2ac5b9e29e1b161e5c1fa7425e73043362938b9824"]
lmk = "test"
console_port = {}
host_ports = {}
accept = {}
"""


class PortLost(Exception):
    """Another program took a port that was free when it was chosen."""


def serving_check(name, over_model=False):
    """Lists a check, which is tried again where a port was lost. One over the model stands on it alone."""
    def listed(function):
        @functools.wraps(function)
        def tried():
            if over_model and not HAS_MODEL:
                raise Skipped("no openssl (Debian package openssl)")
            for _ in range(4):
                with contextlib.suppress(PortLost):
                    return function()
            return function()
        return check(name)(tried)
    return listed


# The program, and connections to it

def free_ports(count):
    """Ports that are free now."""
    with contextlib.ExitStack() as held:
        sockets = [held.enter_context(socket.socket()) for _ in range(count)]
        for each in sockets:
            each.bind((ADDRESS, 0))
        return [each.getsockname()[1] for each in sockets]


class Peer(Connection):
    """A connection to a lane. Messages and replies are bytes, a host's without their header."""

    def __init__(self, port, header):
        super().__init__(ADDRESS, port, WAIT)
        self.header = header

    def put(self, *pieces):
        """Sends bytes as they are, in one piece."""
        self.stream.sendall(b"".join(pieces))

    def reply(self):
        body = self.receive()
        same("a reply's header", body[:len(self.header)], self.header)
        return body[len(self.header):]

    def wants(self, text, wanted):
        """Sends a message, whose reply must be this."""
        self.put(framed(text, self.header))
        same(f"the reply to {text!r}", self.reply(), wanted)

    def wants_end(self):
        """The module must have ended the connection, without a further reply."""
        with contextlib.suppress(ConnectionResetError):
            same("behind the last reply", self.stream.recv(1), b"")

    def end_input(self):
        self.stream.shutdown(socket.SHUT_WR)

    def reset(self):
        """Ends the connection by a reset: what is on its way is dropped."""
        self.stream.setsockopt(socket.SOL_SOCKET, socket.SO_LINGER, struct.pack("ii", 1, 0))
        self.close()


def framed(text, header=HEADER):
    return (len(header) + len(text)).to_bytes(2, "big") + header + text


class Served:
    """The program, serving a console and some host lanes, each of which accepts so many connections.

    It may have so many files open, sockets among them.
    """

    def __init__(self, hosts=1, accept=1, ports=None, output=subprocess.PIPE, files=None):
        self.accept, self.output, self.files = accept, output, files
        self.ports = ports or free_ports(1 + hosts)
        self.made = [0] * len(self.ports)
        self.told = None

    def __enter__(self):
        self.folder = tempfile.TemporaryDirectory()
        name = os.path.join(self.folder.name, "served.toml")
        with open(name, "w", encoding="ascii") as file:
            file.write(CONFIGURATION.format(self.ports[0], self.ports[1:], self.accept))
        self.process = subprocess.Popen(
            [checks.PROGRAM, "serve", name], stdin=subprocess.DEVNULL, stdout=self.output, stderr=subprocess.PIPE,
            preexec_fn=self.files and (lambda: resource.setrlimit(resource.RLIMIT_NOFILE, (self.files, self.files))))
        return self

    def __exit__(self, kind, error, _):
        if self.process.poll() is None:
            self.process.kill()
        if self.told is None:
            _, self.told = self.process.communicate()
        self.folder.cleanup()
        if error and b"no door" in self.told:
            raise PortLost from error

    def connect(self, lane):
        """A connection to a lane. It is tried until the program listens."""
        return self.joined(lane, lambda: Peer(self.ports[lane], HEADER if lane else b""))

    def client(self, lane):
        """A client of examples/client.py."""
        return self.joined(lane, lambda: (
            Host(ADDRESS, self.ports[lane], HEADER.decode(), WAIT) if lane else Console(ADDRESS, self.ports[0], WAIT)))

    def joined(self, lane, make):
        until = time.monotonic() + WAIT
        while True:
            with contextlib.suppress(ConnectionRefusedError):
                connection = make()
                # While nobody listens at a port, a connection may come to be one with itself.
                if connection.stream.getsockname() != connection.stream.getpeername():
                    self.made[lane] += 1
                    return connection
                connection.close()
            if self.process.poll() is not None or time.monotonic() > until:
                raise Failed(f"no connection to lane {lane}")
            time.sleep(0.02)

    def stopped(self):
        """Waits for the program's end. Gives status, output and standard error."""
        try:
            output, self.told = self.process.communicate(timeout=WAIT)
        except subprocess.TimeoutExpired:
            raise Failed(f"the program did not end within {WAIT} seconds") from None
        return self.process.returncode, (output or b"").decode(), self.told.decode()

    def end(self, status, *messages):
        """Makes the connections that are still to come, with nothing in them. Compares the status and the lines.

        Of each lane the number of its messages is given, or the numbers that are right.
        """
        for lane, made in enumerate(self.made):
            for _ in range(self.accept - made):
                self.connect(lane).close()
        came, output, told = self.stopped()
        lines = output.splitlines(keepends=True)
        same("standard error", told, "")
        same("the lines that were printed", len(lines), len(messages))
        for lane, (line, wanted) in enumerate(zip(lines, messages)):
            found = re.fullmatch(f"lane {lane}: {self.accept} connections, (0|[1-9][0-9]*) messages\n", line)
            if not found or int(found[1]) not in (wanted if isinstance(wanted, range) else [wanted]):
                raise Failed(f"{line!r} was printed for lane {lane} with {self.accept} connections, {wanted} messages")
        same("the exit status", came, status)
