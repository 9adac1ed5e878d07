"""What the scripts of checks/ share: where the program is, how it is run, and how checks are listed, run and told.

A script that lists its checks prints a line for each, `SCRIPT: passed: NAME`, `SCRIPT: failed: NAME: CAUSE` or `SCRIPT:
skipped: NAME: WORD`, and at the end `SCRIPT: N checks`: checks/program counts these.
"""
import os
import shutil
import subprocess
import sys

TOP = os.path.dirname(os.path.dirname(os.path.abspath(__file__)))
EXAMPLES = os.path.join(TOP, "examples")
PROGRAM = os.path.join(TOP, "crates", "hsm_tool", "out", "hsm_tool")  # as `rt ci` and `rt run` leave it
SECONDS = 60  # that a command is waited for
CHECKS = []

sys.path[:0] = [os.path.join(TOP, folder) for folder in ("examples", "examples/wireshark", "model", "bench")]
sys.dont_write_bytecode = True


class Failed(Exception):
    """Something is not as it should be."""


class Skipped(Exception):
    """A tool is not there."""


def same(what, came, wanted):
    if came != wanted:
        raise Failed(f"{what}: {came!r} came and {wanted!r} was wanted")


# Tools and the program

def needs(name, package):
    """Skips the check where a command is not there."""
    if not shutil.which(name):
        raise Skipped(f"no {name} (Debian package {package})")


def run(*words, given=b"", seconds=SECONDS, **environment):
    """Runs a command at the top of the repository. Gives its status, output and standard error."""
    done = subprocess.run(words, input=given, cwd=TOP, env={**os.environ, **environment}, capture_output=True,
                          timeout=seconds, check=False)
    return done.returncode, done.stdout, done.stderr


def use_program(words):
    """Takes the program that the words of a script name, or else the one that stands. Gives the words behind it."""
    global PROGRAM  # noqa: PLW0603
    if words:
        PROGRAM = os.path.abspath(words[0])
    if not os.access(PROGRAM, os.X_OK):
        sys.exit(f"no {os.path.relpath(PROGRAM, TOP)}: run 'rt run' in crates/hsm_tool first")
    return words[1:]


# Checks

def check(name):
    """Lists a function as a check."""
    def listed(function):
        CHECKS.append((name, function))
        return function
    return listed


def told_of(function, *arguments):
    """Runs a check. Gives how it ended, and what is told of it."""
    try:
        function(*arguments)
    except Skipped as skipped:
        return "skipped", str(skipped)
    except Exception as fault:  # the cause of each failure is printed
        return "failed", f"{type(fault).__name__}: {fault}"
    return "passed", ""


def report(script, checks):
    """Runs checks of a name, a function and its arguments, and prints a line for each. Gives the exit status."""
    failed = count = 0
    for name, function, *arguments in checks:
        word, told = told_of(function, *arguments)
        failed += word == "failed"
        count += 1
        print(f"{script}: {word}: {name}" + (f": {told}" if told else ""), flush=True)
    print(f"{script}: {count} checks")
    return 1 if failed else 0
