#!/usr/bin/env python3
"""Tests that each contract that README.md and docs/*.md name exists, and each check of bin/checks/staying.py.

Looks at each code span in the columns of a table that name contracts (`COLUMNS`), and at each span elsewhere that begins with a crate:
`CRATE::NAME` or `CRATE::TYPE::NAME`, with the labels of its clauses after commas. In a cell, a later span may leave out the crate and
the type, or be the label of a clause alone; one that names no function may name a type, a trait, a module or a definition. Checks are
named in the columns `Checks`. Prints each span that names nothing, with its line, and then has status 1.
"""

import pathlib
import re
import sys

TOP = pathlib.Path(__file__).resolve().parents[2]
FUNCTION = re.compile(r"^ *(?:pub(?:\([a-z]+\))? )?(?:const )?(?:unsafe )?fn ([a-z_0-9]+)")
OWNER = re.compile(r"^(?:pub(?:\([a-z]+\))? )?(?:impl|trait)\b(?:<.*?>(?= ))?(.*)")
TYPE = re.compile(r"^(?:pub(?:\([a-z]+\))? )?(?:struct|enum|trait) (\w+)")
CLAUSE = re.compile(r"^ *ensures\*? ([a-z_0-9]+) \{")
DEFINED = re.compile(r"^(?:\w+ )?pub (?:(?:abbrev|record|data) )?(\w+) ", re.M)
FIELD = re.compile(r"^ +pub (\w+) :", re.M)
COLUMNS = ("Contract", "Where", "For users of the library", "In the program")
CHECK = re.compile(r"^@check\ndef (\w+)\(", re.M)
CHECK_NAME = re.compile(r"[a-z0-9]+(?:-[a-z0-9]+)*")
SPAN = re.compile(r"`([^`]+)`")
NAMED = re.compile(r"\w+(?:::\w+)*(?:, [a-z_0-9]+)*")


class Crate:
    """What a crate has that a document can name."""

    def __init__(self, folder):
        # The labels of each function's clauses, by the function's name, after its type if it has one. Functions of one name in
        # several modules have one entry.
        self.clauses = {}
        # Its types, traits and modules, and its definitions; and the fields of these.
        self.names, self.modules, self.fields = set(), set(), set()
        for path in sorted(folder.glob("src/**/*.rt")):
            module = path.relative_to(folder / "src").with_suffix("").parts
            self.modules.add("::".join(module))
            self.names.add(module[-1])
            self.read(path.read_text(encoding="utf-8"))
        for path in folder.glob("specs/**/*.antt"):
            text = path.read_text(encoding="utf-8")
            self.names.update(DEFINED.findall(text))
            self.fields.update(FIELD.findall(text))

    def read(self, text):
        owner, labels = "", None
        for line in text.split("\n"):
            if found := OWNER.match(line):
                *traits, of = (re.sub(r"\W.*", "", it.strip()) for it in found[1].split(" for "))
                self.names.update(traits)
                owner = of + "::"
            elif line.startswith("}"):
                owner = ""
            if found := TYPE.match(line):
                self.names.add(found[1])
            if found := FUNCTION.match(line):
                labels = self.clauses.setdefault(owner + found[1], set())
            if (found := CLAUSE.match(line)) and labels is not None:
                labels.add(found[1])

    def function(self, path):
        """Returns the name of the function that the path ends in: one of a type, or a free one of a module."""
        *above, name = path
        if above and f"{above[-1]}::{name}" in self.clauses:
            return f"{above[-1]}::{name}"
        is_free = not above or any(it == "::".join(above) or it.endswith("::" + "::".join(above)) for it in self.modules)
        return name if is_free and name in self.clauses else None

    def has_part(self, name):
        """Returns whether a type has a function of this name, or a definition has a field of it."""
        return name in self.fields or any(it.endswith("::" + name) for it in self.clauses)


class Reader:
    """Reads the spans of a cell in turn: what a span leaves out is that of the span before it."""

    def __init__(self, crates, crate):
        self.crates, self.crate, self.owner, self.labels = crates, crate, [], set()
        self.function = None

    def missing(self, span):
        """Returns what the span names that isn't there. `function` is then the path of the function that it names, or None."""
        self.function = None
        name, *labels = span.split(", ")
        path = name.split("::")
        is_whole = len(path) > 1 and path[0] in self.crates
        if is_whole:
            self.crate, self.owner = path.pop(0), []
        if len(path) > 1:
            self.owner = path[:-1]
        if name in self.labels and not labels:
            return []
        crate = self.crates.get(self.crate)
        for it in ([*self.owner, path[-1]], path):
            if found := crate and crate.function(it):
                self.function = (self.crate, *it)
                self.labels |= crate.clauses[found]
                return [it for it in labels if it not in crate.clauses[found]]
        if labels or not self.is_named(crate, path, is_whole):
            return [name]
        if crate and "::".join(path) in crate.modules:
            self.owner = path
        return []

    def is_named(self, crate, path, is_whole):
        """Returns whether the path names something other than a function. A span without a crate may name that of another."""
        if "::".join(path) in self.crates:
            return True
        if is_whole:
            return path[-1] in crate.names if len(path) == 1 else "::".join(path) in crate.modules
        if len(path) > 1:
            return crate is not None and "::".join(path) in crate.modules
        return any(path[0] in it.names for it in self.crates.values()) or crate is not None and crate.has_part(path[0])


def cells(lines):
    """Yields each part of the text with the number of its line, and the heading of its column if it is a cell of a table."""
    headings: list[str] = []
    for number, line in enumerate(lines, 1):
        if not line.startswith("|"):
            headings = []
            yield number, "", line
            continue
        texts = [it.strip() for it in line.strip().strip("|").split("|")]
        for place, text in enumerate(texts):
            yield number, headings[place] if place < len(headings) else "", text
        headings = headings or texts


def read(crates, path):
    """Yields each part of a document with the number of its line, the heading of its column, and a reader for its spans."""
    section = ""
    for number, heading, text in cells(path.read_text(encoding="utf-8").split("\n")):
        if text.startswith("#"):
            found = re.search(r"\(`(\w+)`", text)
            section = found[1] if found else ""
        yield number, heading, text, Reader(crates, section)


def complaints(crates, path):
    for number, heading, text, reader in read(crates, path):
        is_cell = heading in COLUMNS
        for span in SPAN.findall(text):
            if not is_cell and not ("::" in span and span.split("::")[0] in crates):
                continue
            if NAMED.fullmatch(span):
                lost = reader.missing(span)
            else:
                # A cell has no other spans but signs, and the text has expressions too.
                lost = [span] if is_cell and re.search(r"\w", span) else []
            if lost:
                yield f"{path.relative_to(TOP)}:{number}: `{span}`: there is no {', '.join(lost)}"


def checks_of(top):
    """Returns the names of the checks of a node that stays."""
    texts = [path.read_text(encoding="utf-8") for path in (top / "bin" / "staying").glob("*.py")]
    return {name.replace("_", "-") for text in texts for name in CHECK.findall(text)}


def lost_checks(checks, path):
    for number, heading, text in cells(path.read_text(encoding="utf-8").split("\n")):
        for span in SPAN.findall(text) if heading == "Checks" else ():
            if CHECK_NAME.fullmatch(span) and span not in checks:
                yield f"{path.relative_to(TOP)}:{number}: `{span}`: there is no such check"


def crates_of(top):
    return {it.name: Crate(it) for it in sorted((top / "crates").iterdir()) if it.is_dir()}


def main():
    crates, checks = crates_of(TOP), checks_of(TOP)
    documents = (TOP / "README.md", *sorted(TOP.glob("docs/*.md")))
    said = [it for path in documents for it in (*complaints(crates, path), *lost_checks(checks, path))]
    for it in said:
        print(it)
    return 1 if said else 0


if __name__ == "__main__":
    sys.exit(main())
