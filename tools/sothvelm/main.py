"""The command `sothvelm`, from its words to its exit status.

0: what was asked for is done. 1: it is refused, or what was looked at is wrong. 2: the words are wrong. 3: a file or a
module can't be had. 130: ended from the keyboard. With each but 0 there is one line on standard error, except where
`lint` lists what is wrong on standard output.
"""
import argparse
import importlib
import os
import sys
from typing import NoReturn

from sothvelm.link import ClientError
from sothvelm.module import ModuleFault
from sothvelm.request import FieldFault, Refused
from sothvelm.table import TableFault

WRONG, WORDS, NOT_HAD, INTERRUPTED = 1, 2, 3, 130
COMMANDS = {
    "key": ("keys", "seals, checks, joins, wraps and tells test keys"),
    "lint": ("lint", "says where and why a configuration is refused"),
    "why": ("why", "says why a message is refused, and where"),
    "console": ("prompt", "the officers' console, with history, completion and the time that grants have left"),
    "page": ("page", "serves a form page for all commands on 127.0.0.1")}


class Told(Exception):
    """A line for standard error, and the exit status."""

    def __init__(self, words: str, status: int = WRONG) -> None:
        super().__init__(words)
        self.status = status


class Parser(argparse.ArgumentParser):
    """A parser that tells wrong words in one line."""

    def error(self, message: str) -> NoReturn:
        if message.startswith("unrecognized arguments"):
            message = "there are words too many"  # which may be a key that belongs on standard input
        print(f"{self.prog}: {message}; {self.prog} --help says more", file=sys.stderr)
        sys.exit(WORDS)


def port_of(text: str) -> int:
    """A port of the words. Raises ArgumentTypeError."""
    if not (text.isascii() and text.isdigit() and len(text) < 6 and 1 <= int(text) <= 65535):
        raise argparse.ArgumentTypeError(f"'{text}' is no port of 1 to 65535")
    return int(text)


def set_of(text: str) -> int:
    """The number of an LMK set of the words. Raises ArgumentTypeError."""
    if text not in ("0", "1", "2", "3", "00", "01", "02", "03"):
        raise argparse.ArgumentTypeError(f"'{text}' is no LMK set of 0 to 3")
    return int(text)


def add_module(parser: argparse.ArgumentParser) -> None:
    """The words that name a module: one that runs, or a configuration whose LMK sets a module of its own gets."""
    parser.add_argument("--config", metavar="FILE", help="a module is started with the LMK sets of this configuration; "
                        "without it and --console, with the test set")
    parser.add_argument("--console", metavar="PORT", type=port_of, help="the console's port of a module that runs")
    parser.add_argument("--host", metavar="PORT", type=port_of, help="a host port of that module")
    parser.add_argument("--header", metavar="TEXT", default="0001", help="what stands before its messages (0001)")
    parser.add_argument("--program", metavar="FILE", help="hsm_tool; else $SOTHVELM_PROGRAM, or that of PATH")


def parser_of(words: list[str]) -> Parser:
    """The parser of the command that the words name, or of all of them."""
    parser = Parser(prog="sothvelm", description="A laboratory's desk around hsm_tool. docs/TOOLS.md is its page.",
                    epilog="sothvelm COMMAND --help says more of a command.")
    parser.add_argument("--version", action="version", version=version())
    inner = parser.add_subparsers(dest="command", metavar="COMMAND", required=True, parser_class=Parser)
    for name, (file, told) in COMMANDS.items():
        each = inner.add_parser(name, help=told, description=told[0].upper() + told[1:] + ".")
        if words[:1] == [name]:
            module = importlib.import_module(f"sothvelm.{file}")
            module.add(each)
            each.set_defaults(run=module.run)
    return parser


def version() -> str:
    from sothvelm import __version__  # noqa: PLC0415
    return f"sothvelm {__version__}"


def main(words: list[str]) -> int:
    """Does what the words say. Gives the exit status."""
    options = parser_of(words).parse_args(words)
    name = f"sothvelm {options.command}"
    try:
        status = int(options.run(options))
        sys.stdout.flush()
        return status
    except Told as told:
        return say(name, str(told), told.status)
    except Refused as refused:
        return say(name, str(refused), WRONG)
    except FieldFault as fault:
        return say(name, str(fault), WRONG)
    except (ClientError, ModuleFault, TableFault) as fault:
        return say(name, str(fault), NOT_HAD)
    except BrokenPipeError:
        os.dup2(os.open(os.devnull, os.O_WRONLY), sys.stdout.fileno())
        return say(name, "standard output was closed", NOT_HAD)
    except OSError as fault:
        return say(name, f"{fault.filename}: {fault.strerror}" if fault.filename else f"{fault.strerror}", NOT_HAD)
    except KeyboardInterrupt:
        return say(name, "ended from the keyboard", INTERRUPTED)


def say(name: str, words: str, status: int) -> int:
    print(f"{name}: {words}", file=sys.stderr)
    return status


def run() -> NoReturn:
    """The entry of the command."""
    sys.exit(main(sys.argv[1:]))
