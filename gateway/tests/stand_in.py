#!/usr/bin/env python3
"""A program that serves lanes as `hsm_tool serve` does, and does on demand what that one never would.

    stand_in.py serve CONFIG

Each lane is a thread and serves one connection after another, as many as `accept` says; a lane that has ended goes on
listening and serves nobody; when all have ended it prints their lines and ends with status 0. Each message that it
reads is a line of the file STAND_IN_SEEN, where the environment names one: the lane, and the message without its
header. What it answers: NC, `B2` and the data, and 68 to the rest. The data of B2 may begin with a word: `!wait0050` is
answered after 50 milliseconds; `!mute` is not answered, and nothing behind it; `!close` ends the connection and `!exit`
the program without an answer; `!other` is answered with another header.
"""
import os
import socket
import sys
import threading
import time
import tomllib

sys.dont_write_bytecode = True


class Lane(threading.Thread):
    """A port, and the connections that it serves one by one."""

    def __init__(self, number: int, port: int, header: int, accept: int, seen: int | None) -> None:
        super().__init__(daemon=True)
        self.number, self.header, self.accept, self.seen = number, header, accept, seen
        self.messages = 0
        self.door = socket.socket()
        self.door.setsockopt(socket.SOL_SOCKET, socket.SO_REUSEADDR, 1)
        self.door.bind(("127.0.0.1", port))
        self.door.listen(128)

    def run(self) -> None:
        for _ in range(self.accept):
            connection, _ = self.door.accept()
            connection.setsockopt(socket.IPPROTO_TCP, socket.TCP_NODELAY, 1)
            with connection:
                try:
                    self.talk(connection)
                except OSError:
                    pass

    def talk(self, connection: socket.socket) -> None:
        """Answers messages until the connection ends."""
        held = b""
        while piece := connection.recv(4096):
            held += piece
            replies = b""
            while len(held) >= 2 and len(held) >= (end := 2 + int.from_bytes(held[:2], "big")):
                body, held = held[2:end], held[end:]
                if len(body) < self.header + 2:
                    return
                self.messages += 1
                if self.seen is not None:
                    os.write(self.seen, b"%d %s\n" % (self.number, body[self.header:].hex().encode()))
                reply = self.answer(body, connection)
                if reply is None:
                    return
                replies += len(reply).to_bytes(2, "big") + reply
            connection.sendall(replies)

    def answer(self, body: bytes, connection: socket.socket) -> bytes | None:
        """The reply to a message with its header, or None where the connection ends."""
        header, code, rest = body[:self.header], body[self.header:self.header + 2], body[self.header + 2:]
        if code == b"NC":
            return header + b"ND0033C517CEFDC01D400001-LAB1"
        if code != b"B2":
            return header + code[:1] + bytes([(code[1] + 1) % 256]) + b"68"
        data = rest[4:]
        if data.startswith(b"!wait"):
            time.sleep(int(data[5:9]) / 1000)
        elif data.startswith(b"!mute"):
            while connection.recv(4096):
                pass
            return None
        elif data.startswith(b"!exit"):
            os._exit(9)
        elif data.startswith(b"!close"):
            return None
        elif data.startswith(b"!other"):
            header = b"#" * self.header
        return header + b"B300" + data


def main(words: list[str]) -> int:
    with open(words[1], "rb") as file:
        document = tomllib.load(file)
    name = os.environ.get("STAND_IN_SEEN")
    seen = os.open(name, os.O_WRONLY | os.O_CREAT | os.O_APPEND) if name else None
    ports = [document["console_port"], *document["host_ports"]]
    try:
        lanes = [Lane(number, port, document["header"] if number else 0, document["accept"], seen if number else None)
                 for number, port in enumerate(ports)]
    except OSError:
        print("hsm: no door for lane 0", file=sys.stderr)
        return 3
    for lane in lanes:
        lane.start()
    for lane in lanes:
        lane.join()
    for lane in lanes:
        print(f"lane {lane.number}: {lane.accept} connections, {lane.messages} messages", flush=True)
    return 0


if __name__ == "__main__":
    sys.exit(main(sys.argv[1:]))
