#!/usr/bin/env python3
"""Runs the acquirer's day against a module and writes what passed over the two connections as a capture.

    python3 examples/wireshark/capture.py FILE [CONSOLE_PORT HOST_PORT] [--segment BYTES]

Start `hsm_tool serve examples/laboratory.toml` first. FILE becomes a pcap file of TCP segments between 127.0.0.1 and
itself, as tshark and Wireshark read it; no leave to capture is needed, since the bytes are those that this client sent
and got. With --segment each segment holds at most so many bytes, so that frames lie over several. Exit status: 0 the
day was as it should be; 1 something differed or no reply came; 2 the words are wrong; 3 FILE can't be written. It needs
the standard library alone.
"""
import os
import re
import struct
import sys
import time

sys.path.insert(0, os.path.dirname(os.path.dirname(os.path.abspath(__file__))))

import acquirer  # noqa: E402
from client import ClientError, Console, Host  # noqa: E402

USAGE = "usage: python3 examples/wireshark/capture.py FILE [CONSOLE_PORT HOST_PORT] [--segment BYTES]"
FIN, SYN, PUSH, ACK = 1, 2, 8, 16
ADDRESS = bytes([127, 0, 0, 1])


class Capture:
    """Segments in the order in which they passed."""

    def __init__(self, most_bytes):
        self.most_bytes = most_bytes
        self.packets = []

    def segment(self, source, target, flags, sequence, acknowledged, data=b""):
        tcp = struct.pack(">HHIIBBHHH", source, target, sequence, acknowledged, 5 << 4, flags, 65535, 0, 0)
        ip = struct.pack(">BBHHHBBH4s4s", 0x45, 0, 40 + len(data), 0, 0, 64, 6, 0, ADDRESS, ADDRESS)
        self.packets.append((time.time(), ip + tcp + data))

    def bytes(self):
        """A pcap file of raw IP packets."""
        head = struct.pack("<IHHiIII", 0xA1B2C3D4, 2, 4, 0, 0, 65535, 101)
        return head + b"".join(
            struct.pack("<IIII", int(when), int(when % 1 * 1000000), len(packet), len(packet)) + packet
            for when, packet in self.packets)


class Recorded:
    """A connection's socket, whose bytes are written down."""

    def __init__(self, stream, capture):
        self.stream, self.capture = stream, capture
        self.ports = stream.getsockname()[1], stream.getpeername()[1]
        self.sequence = [1, 1]  # the next byte of the client and of the module
        capture.segment(*self.ports, SYN, 0, 0)
        capture.segment(*reversed(self.ports), SYN | ACK, 0, 1)
        capture.segment(*self.ports, ACK, 1, 1)

    def passed(self, side, data):
        ports = self.ports if side == 0 else self.ports[::-1]
        for at in range(0, len(data), self.capture.most_bytes):
            part = data[at:at + self.capture.most_bytes]
            self.capture.segment(*ports, PUSH | ACK, self.sequence[side], self.sequence[1 - side], part)
            self.sequence[side] += len(part)

    def sendall(self, data):
        self.stream.sendall(data)
        self.passed(0, data)

    def recv(self, count):
        data = self.stream.recv(count)
        self.passed(1, data)
        return data

    def close(self):
        self.stream.close()
        self.capture.segment(*self.ports, FIN | ACK, self.sequence[0], self.sequence[1])


def recorded(connection, capture):
    connection.stream = Recorded(connection.stream, capture)
    return connection


def port_of(word):
    return int(word) if re.fullmatch("[0-9]{1,5}", word) and 1 <= int(word) <= 65535 else None


def main(words):
    most_bytes = 1400
    if "--segment" in words[:-1]:
        place = words.index("--segment")
        most_bytes = port_of(words[place + 1])
        words = words[:place] + words[place + 2:]
    ports = [port_of(word) for word in words[1:] or acquirer.laboratory_ports()] if words else []
    if len(ports) != 2 or None in ports or not most_bytes or words[0].startswith("-"):
        print(USAGE, file=sys.stderr)
        return 2
    capture = Capture(most_bytes)
    try:
        with Console(acquirer.ADDRESS, ports[0]) as console, Host(acquirer.ADDRESS, ports[1], acquirer.HEADER) as host:
            acquirer.day(recorded(host, capture), recorded(console, capture))
    except acquirer.Differs as differs:
        print(f"Differs: {differs}")
        return 1
    except (ClientError, OSError) as error:
        print(f"capture.py: {error}", file=sys.stderr)
        return 1
    try:
        with open(words[0], "wb") as file:
            file.write(capture.bytes())
    except OSError as error:
        print(f"capture.py: {words[0]}: {error.strerror}", file=sys.stderr)
        return 3
    return 0


if __name__ == "__main__":
    sys.exit(main(sys.argv[1:]))
