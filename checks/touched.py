"""What a change touches: the tables of docs/CONTRIBUTING.md beside the sources and definitions of the crates.

Each part of PROBES has names that only what the part is about has: the names of rows, a key type that no command treats by
its name, a form. A file of the product that has such a name must stand in the part, behind its crate, as must all files
that the part names behind a crate be there. Rows of tests and statements on chosen rows are left out.
"""
import os
import re

from checks import TOP, Failed

PAGE = "docs/CONTRIBUTING.md"
PROBES = {
    "A command": r"\b(?:row|rules)_(?:[A-Z][A-Z0-9]?|LOG)\b|\bRuleSet::[A-Z]\w*|\bset\.[A-Z]\w*",
    "A key type": r"\bDek\b",
    "A form of a field": r"\bValidation\b"}
# A form stands in the table where a row has it.
OF_A_ROW = {("hsm_rows", "src/table.rt"), ("hsm_rows", "specs/Table.antt")}


def parts():
    """The parts of the page by their headings."""
    with open(os.path.join(TOP, PAGE), encoding="utf-8") as file:
        found = re.split(r"^## (.*)$", file.read(), flags=re.MULTILINE)
    return dict(zip(found[1::2], found[2::2]))


def named(text):
    """The files that a part names, each with the crate that was named last in front of it."""
    found, crate = [], None
    for token in re.findall(r"`([^`]+)`", text):
        if os.path.isdir(os.path.join(TOP, "crates", token)):
            crate = token
        elif re.fullmatch(r"(?:src|specs|proofs)/[\w/]+\.(?:rt|antt)", token):
            found.append((crate, token))
    return found


def files_with(probe):
    """The files of the product that have a name, as pairs of crate and path."""
    found = set()
    for crate in sorted(os.listdir(os.path.join(TOP, "crates"))):
        if not crate.startswith("hsm_"):
            continue
        for folder in "src", "specs", "proofs":
            top = os.path.join(TOP, "crates", crate)
            for inside, _, names in os.walk(os.path.join(top, folder)):
                for name in names:
                    with open(os.path.join(inside, name), encoding="utf-8") as file:
                        if re.search(probe, file.read()):
                            found.add((crate, os.path.relpath(os.path.join(inside, name), top)))
    return found


def check_touched(title):
    """The files of a part are there, and those with its names stand in it."""
    listed = named(parts()[title])
    for crate, path in listed:
        if not crate or not os.path.exists(os.path.join(TOP, "crates", crate, path)):
            raise Failed(f"{PAGE}, {title}: {crate} has no {path}")
    wanted = files_with(PROBES[title]) if title in PROBES else set()
    left = wanted - set(listed) - (OF_A_ROW if title == "A form of a field" else set())
    if left:
        raise Failed(f"{PAGE}, {title}: {', '.join(f'{crate}/{path}' for crate, path in sorted(left))} is touched too")


def checks():
    """The checks of all parts that have a table."""
    return [(f"what '{title}' touches", check_touched, title) for title, text in parts().items() if "\n| Step | Files |\n" in text]
