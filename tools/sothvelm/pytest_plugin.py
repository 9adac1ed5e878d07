"""Fixtures of pytest: a module on free ports, which is ended with the test or the session, and clients of it.

    def test_a_pin(sothvelm_host, sothvelm_allow):
        sothvelm_allow("pin.clear.host")
        sothvelm_host.put_clear_pin_under_lmks(pin="1234", account_field="123456789012")

An installed package names this file to pytest; else `pytest -p sothvelm.pytest_plugin`. A test is skipped where there
is no program.
"""
from collections.abc import Callable, Iterator

import pytest

from sothvelm.client import Client, Console
from sothvelm.module import Module, ModuleFault, find_program


@pytest.fixture
def sothvelm_module() -> Iterator[Module]:
    """A module with the test set of LMK pairs and two host lanes, of this test alone."""
    try:
        program = find_program()
    except ModuleFault as fault:
        pytest.skip(str(fault))
    with Module(program) as module:
        yield module


@pytest.fixture
def sothvelm_host(sothvelm_module: Module) -> Iterator[Client]:
    """A client of the module's first host lane."""
    with sothvelm_module.client() as host:
        yield host


@pytest.fixture
def sothvelm_console(sothvelm_module: Module) -> Iterator[Console]:
    """A client of the module's console."""
    with sothvelm_module.console() as console:
        yield console


@pytest.fixture
def sothvelm_allow(sothvelm_module: Module) -> Callable[[str], None]:
    """Allows an activity at the module, by its officers' words."""
    return sothvelm_module.allow
