"""The build backend of the package: setuptools, with the table of commands put into the package for the build.

The table stands once in the repository, in `examples/commands.txt`; a package that is installed has a copy of its own.
"""
import contextlib
import os
import shutil
from collections.abc import Iterator
from typing import Any

from setuptools import build_meta
from setuptools.build_meta import (  # noqa: F401
    get_requires_for_build_sdist, get_requires_for_build_wheel, prepare_metadata_for_build_wheel)

HERE = os.path.dirname(os.path.abspath(__file__))
SOURCE = os.path.join(os.path.dirname(HERE), "examples", "commands.txt")
COPY = os.path.join(HERE, "sothvelm", "commands.txt")


@contextlib.contextmanager
def with_table() -> Iterator[None]:
    """The package has its copy within the block; where it came with one, as a source archive does, that one stays."""
    if os.path.isfile(COPY):
        yield
        return
    shutil.copyfile(SOURCE, COPY)
    try:
        yield
    finally:
        os.remove(COPY)


def build_wheel(*words: Any, **named: Any) -> str:
    with with_table():
        return str(build_meta.build_wheel(*words, **named))


def build_sdist(*words: Any, **named: Any) -> str:
    with with_table():
        return str(build_meta.build_sdist(*words, **named))
