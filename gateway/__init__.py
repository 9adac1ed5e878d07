"""A front door for a laboratory: any number of clients over the host lanes of `hsm_tool serve`.

docs/GATEWAY.md is the page for users. How a message reads and which check refused it is told by `sothvelm` of `tools/`,
which stands beside this folder, or in the same file where both are packed. The files, lowest first:

    settings     the configuration of the gateway, and what is used of the module's
    journal      the log: lines of JSON, written by a thread of their own
    figures      counts and times, and the text that /metrics gives of them
    faults       the rules by which some messages are delayed, refused or dropped, for tests of a switch
    relay        messages under way: which lane gets them, and which client their replies
    plain        a connection without TLS
    client       a client's connection
    lane         a connection to a host lane, and how it is made anew
    doors        listening sockets, the list of addresses, TLS
    watch        /health and /metrics
    program      `hsm_tool serve`, started, watched and ended
    app          all of it together, from the words of the command line to the exit status
"""
import os
import sys

_TOOLS = os.path.join(os.path.dirname(os.path.dirname(os.path.abspath(__file__))), "tools")
if os.path.isdir(_TOOLS) and _TOOLS not in sys.path:
    sys.path.append(_TOOLS)
