#!/usr/bin/env python3
"""A client of `hsm_tool serve`: one connection to a host port or to the console's port of a module.

    python3 examples/client.py PORT TEXT

sends TEXT as one message to PORT of 127.0.0.1 and prints the reply. At a host port TEXT begins with the header, as in
`0001NC`; at the console's port it has none, as in `VA`. Exit status: 0 a reply came, whatever its error code; 1 none
came, with one line on standard error; 2 the words are not a port and a text.

A message is framed: two bytes of length, the high one first, and so many bytes. Texts are str here, one character a
byte (Latin-1), so that a message may hold any bytes:

    with Host("127.0.0.1", 1501, "0001") as host, Console("127.0.0.1", 1500) as console:
        host.ask("NC")                    # "ND0033C517CEFDC01D400001-LAB1"
        host.ask_all(["NC", "NO00"])      # sent together; the replies in the order of the messages
        console.ask("VA")                 # "OK 0"

It stands on `sothvelm` of tools/, whose `Client` has a method for each command (docs/TOOLS.md), and needs the standard
library alone.
"""
import os
import re
import sys

# Beside examples/, where sothvelm is not installed.
sys.path.append(os.path.join(os.path.dirname(os.path.dirname(os.path.abspath(__file__))), "tools"))

from sothvelm.link import MOST_BYTES, ClientError, Connection  # noqa: E402, F401
from sothvelm.link import Connection as Console  # noqa: E402, F401
from sothvelm.link import HostConnection as Host  # noqa: E402, F401

USAGE = "usage: python3 examples/client.py PORT TEXT"


def main(words):
    if len(words) != 2 or not re.fullmatch("[0-9]{1,5}", words[0]) or not 1 <= int(words[0]) <= 65535:
        print(USAGE, file=sys.stderr)
        return 2
    try:
        with Connection("127.0.0.1", int(words[0])) as connection:
            connection.send(os.fsencode(words[1]))
            reply = connection.receive()
    except (ClientError, OSError) as error:
        print(f"client.py: {error}", file=sys.stderr)
        return 1
    sys.stdout.buffer.write(reply + b"\n")
    return 0


if __name__ == "__main__":
    sys.exit(main(sys.argv[1:]))
