"""What is to be read to trust the headline: the definitions that it reaches, and the types that these name.

From the file of the headline each line `use Rattle.CRATE.specs...` of a definition is followed, in the order in which they
stand, into the crates of this repository. A path with `declared` names a type of a source: of that its declaration is to
be read, and those of the types of its fields; where a type is seen by its model, what the model is made of.
"""
import os
import re

from checks import TOP, Failed

HEADLINE = "crates/hsm_program/specs/Headline.antt"
PAGE = "docs/PROOFS.md"
USE = re.compile(r"^\s*(?:ghost )?use Rattle\.(\w+)\.specs\.([\w.]*\w)", re.MULTILINE)
BEGINS = re.compile(r"^pub(?:\([a-z]+\))? (?:struct|enum) (\w+)")


def read(name):
    with open(os.path.join(TOP, name), encoding="utf-8") as file:
        return file.read()


def is_here(crate):
    return os.path.isdir(os.path.join(TOP, "crates", crate))


def sources(crate):
    """The sources of a crate."""
    found = []
    for folder, _, names in sorted(os.walk(os.path.join(TOP, "crates", crate, "src"))):
        found += [os.path.relpath(os.path.join(folder, name), TOP) for name in sorted(names) if name.endswith(".rt")]
    return found


def declaration(text, name):
    """The declaration of a type with the remarks and attributes before it, or none."""
    lines = text.splitlines()
    for start, line in enumerate(lines):
        begun = BEGINS.match(line)
        if begun and begun[1] == name:
            end = start
            while not re.fullmatch(r"\}|.*[;}]", lines[end]) or lines[end].startswith(" "):
                end += 1
            while start and lines[start - 1].startswith(("///", "#[")):
                start -= 1
            return "\n".join(lines[start:end + 1]) + "\n"
    return None


class Reading:
    """The files that are to be read, in order: of a definition the whole file, of a source the types."""

    def __init__(self):
        self.files = {}

    def definition(self, path):
        if path not in self.files:
            self.files[path] = None
            self.follow(read(path))

    def follow(self, text):
        for crate, dotted in USE.findall(text):
            if not is_here(crate):
                continue
            parts = dotted.split(".")
            if parts[0] == "declared":
                names = [part for part in parts[1:] if part != "TheVariants"]
                self.type_of(crate, names[-1])
            else:
                while parts and not os.path.exists(os.path.join(TOP, "crates", crate, "specs", *parts) + ".antt"):
                    parts.pop()
                if not parts:
                    raise Failed(f"no file of {crate} has {dotted}")
                self.definition(os.path.join("crates", crate, "specs", *parts) + ".antt")

    def type_of(self, crate, name):
        """A type of a crate, or of one that the crate hands on."""
        for path in sources(crate):
            text = read(path)
            if declaration(text, name) and name not in (self.files.get(path) or []):
                self.files.setdefault(path, []).append(name)
                model = re.search(rf"^impl(?:<[^>]*>)? Model for {name}\b.*?^\}}", text, re.MULTILINE | re.DOTALL)
                if model:
                    self.follow("\n".join(re.findall(r"^ *ghost use .*", model[0], re.MULTILINE)))
                else:
                    self.fields(crate, text, declaration(text, name))

    def fields(self, crate, text, declared):
        """The types that a declaration names."""
        imported = {}
        for other, names in re.findall(r"^use (\w+)(?:::\w+)*::(\{[^}]*\}|\w+);", text, re.MULTILINE):
            for name in re.findall(r"\w+", names):
                imported[name] = crate if other in ("crate", "super") else other
        without_remarks = re.sub(r"//.*|#\[.*", "", declared)
        for name in re.findall(r"\b[A-Z]\w*", without_remarks):
            if is_here(imported.get(name, crate)):
                self.type_of(imported.get(name, crate), name)


def told(path, names):
    """The row of a file: its name, its lines that are to be read, and what stands in them."""
    text = read(path)
    if names is None:
        remark = " ".join(line[2:].strip() for line in re.match(r"(?:--.*\n)+", text)[0].splitlines())
        sentence = re.split(r"\.(?: |$)", remark)[0]
        sentence = sentence if sentence[1].isupper() else sentence[0].lower() + sentence[1:]
        return f"`{path}`", len(text.splitlines()), sentence
    lines = sum(len(declaration(text, name).splitlines()) for name in names)
    return f"`{path}`", lines, "the type" + "s" * (len(names) > 1) + " " + ", ".join(f"`{name}`" for name in names)


def table():
    """The part of the page that lists what is to be read."""
    reading = Reading()
    reading.definition(HEADLINE)
    rows = [told(path, names) for path, names in reading.files.items()]
    whole = sum(lines for _, lines, _ in rows)
    head = [f"{len(rows)} files, of which {whole:,} lines are to be read:", "", "| Definition | Lines | What it says |",
            "|---|---|---|"]
    return "".join(line + "\n" for line in [*head, *(f"| {name} | {lines} | {what} |" for name, lines, what in rows)])


STANDING = re.compile(r"^\d+ files, of which [\d,]+ lines are to be read:\n\n(?:\|.*\n)+", re.MULTILINE)


def check_reading():
    """The list of the page is what the headline reaches."""
    standing, wanted = STANDING.search(read(PAGE)), table()
    if not standing:
        raise Failed(f"{PAGE} has no list of what is to be read")
    if standing[0] != wanted:
        came, listed = standing[0].splitlines(), wanted.splitlines()
        first = next((pair for pair in zip(came, listed) if pair[0] != pair[1]), (came[-1], listed[-1]))
        raise Failed(f"{PAGE} says {first[0]!r} where it is {first[1]!r}: `checks/documents --reading` writes the list anew")


def write_reading():
    text = read(PAGE)
    with open(os.path.join(TOP, PAGE), "w", encoding="utf-8") as file:
        file.write(STANDING.sub(lambda _: table(), text, count=1))
