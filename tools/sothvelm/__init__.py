"""A laboratory's desk around `hsm_tool`: clients, keys, configurations, refusals in words, a console, a form page.

docs/TOOLS.md is the page for users. `from sothvelm import Client` is where a program begins; the command `sothvelm`
(`sothvelm.main`) has the rest. Nothing of it is proved. It needs Python 3.11 and its standard library alone. The files,
lowest first:

    table              examples/commands.txt: commands, fields, codes, forms
    forms              the texts of fields, and how messages and replies read
    refusals           which check failed, and at which field, in words
    link               framed messages over a connection, blocking and of asyncio
    request            a command's message with its reply
    generate           writes texts, replies, requests, console_requests and commands from the table
    call, client       clients with a method for each command
    module             `hsm_tool`, found, run, and served on free ports
    pytest_plugin      fixtures over `module`
    main               the command: its words, its lines on standard error, its exit statuses
    keys               `sothvelm key`
    toml, lint         `sothvelm lint`
    why                `sothvelm why`
    prompt             `sothvelm console`
    page, page.html    `sothvelm page`
"""
from typing import TYPE_CHECKING, Any

if TYPE_CHECKING:
    from sothvelm.client import AsyncClient, AsyncConsole, Client, ClientError, Console, FieldFault, Refused

__all__ = ["AsyncClient", "AsyncConsole", "Client", "ClientError", "Console", "FieldFault", "Refused"]
__version__ = "0.15.0"


def __getattr__(name: str) -> Any:
    """What `__all__` names, once it is asked for: whoever reads forms alone does not load the clients."""
    if name in __all__:
        from sothvelm import client  # noqa: PLC0415
        return getattr(client, name)
    raise AttributeError(f"module 'sothvelm' has no attribute '{name}'")
