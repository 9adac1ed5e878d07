#!/usr/bin/env python3
"""Writes the gateway as one file that Python runs, with the table of commands in it.

    python3 gateway/pack.py TARGET

Exit status: 0 TARGET is written; 2 the words are no name of a file; 3 it can't be written, which a line tells.
"""
import os
import sys
import zipfile

HERE = os.path.dirname(os.path.abspath(__file__))
TOOLS = ("table.py", "forms.py", "refusals.py")  # of tools/sothvelm, what the gateway uses
MAIN = '''import sys

if sys.version_info < (3, 11):
    sys.exit("gateway: Python 3.11 or later is wanted")

from gateway.app import main

sys.exit(main(sys.argv[1:]))
'''


def contents() -> dict[str, str]:
    """The files of the packed one, by their names in it. Raises OSError."""
    top = os.path.dirname(HERE)
    sources = {f"gateway/{name}": os.path.join(HERE, name) for name in os.listdir(HERE)
               if name.endswith(".py") and name not in ("__main__.py", "pack.py")}
    sources |= {f"sothvelm/{name}": os.path.join(top, "tools", "sothvelm", name) for name in TOOLS}
    sources["sothvelm/commands.txt"] = os.path.join(top, "examples", "commands.txt")
    found = {"__main__.py": MAIN, "sothvelm/__init__.py": '"""What the gateway uses of tools/sothvelm."""\n'}
    for name, path in sources.items():
        with open(path, encoding="utf-8") as file:
            found[name] = file.read()
    return found


def pack(target: str, python: str = "/usr/bin/env python3") -> None:
    """Writes the file, the same for the same sources. Raises OSError."""
    files = contents()
    with open(target, "wb") as file:
        file.write(f"#!{python}\n".encode())
        with zipfile.ZipFile(file, "w", zipfile.ZIP_DEFLATED) as archive:
            for name in sorted(files):
                archive.writestr(zipfile.ZipInfo(name), files[name], zipfile.ZIP_DEFLATED)
    os.chmod(target, 0o755)


def main(words: list[str]) -> int:
    if len(words) != 1 or not words[0] or words[0].startswith("-"):
        print("usage: python3 gateway/pack.py TARGET", file=sys.stderr)
        return 2
    try:
        pack(words[0])
    except OSError as fault:
        print(f"pack.py: {fault.filename or words[0]}: {fault.strerror}", file=sys.stderr)
        return 3
    return 0


if __name__ == "__main__":
    sys.exit(main(sys.argv[1:]))
