#!/usr/bin/env python3
"""Tests, by the sources alone, that `main` reaches the calls of which README.md and docs/PROMISES.md say that the program makes them.

README.md: each cell of a column `Where` first names a call that the program makes. It makes all calls that the cell names, but those behind
`library:`, which only users of the library make. docs/PROMISES.md: the column `For users of the library` has exactly those calls of the
columns `Contract` that the program doesn't make, and the column `In the program` calls that it makes. Laws, whose bodies are empty, are
passed over.

What is reached: `main`, and all that a function calls that is reached, in the crates that `peers_node` stands on. A name that a body calls or
hands on is looked up as Rust does it, by `use` lines and items; a method by the type of its receiver, which bin/reaching finds from the types
of parameters, fields and results, and from patterns. A call on a receiver whose type it doesn't find counts for nothing: no call is taken
for made because another one has its name. A method of a trait of the crates is called of each type that a function names that is
reached, and so is each function of an impl of another trait, since std calls these.

Prints what isn't so, and then has status 1. With --calls it prints what is reached, and with --unknown each call of a method on a receiver
whose type it doesn't find. It first tries itself on a small repository that it makes up.
"""

import pathlib
import sys
import tempfile
import textwrap

sys.dont_write_bytecode = True
TOP = pathlib.Path(__file__).resolve().parents[2]
sys.path[0] = str(TOP / "bin")

from checks import contracts  # noqa: E402, since the path has to be set first
from reaching.program import program_of  # noqa: E402

LIBRARY = "library:"
# What the check is tried on: the files of a repository, and what is wrong in it.
MADE_UP = {
    "crates.txt": "low:\npeers_node: low\n",
    "crates/low/src/lib.rt": """
        mod cell;
        pub use cell::{Cell, Other};
        pub fn never() -> u32 { 0 }
        pub fn made() -> Result<Cell, u32> { Ok(Cell { count: 0 }) }
        pub fn a_law() ensures { true } {}
    """,
    "crates/low/src/cell.rt": """
        pub struct Cell { pub count: u64 }
        pub struct Other { cell: Cell }
        impl Cell {
            pub fn add(&mut self) -> u64 { note(self) }
            pub fn take(&self) -> u64 { self.count }
        }
        impl Other {
            pub fn take(&self) -> u64 { self.cell.take() }
        }
        fn note(cell: &Cell) -> u64 { cell.count }
    """,
    "crates/peers_node/src/main.rt": """
        use low::made;
        fn main(rt: HostRuntime) -> u64 {
            match made() { Ok(mut cell) => cell.add(), Err(_) => rt.take() }
        }
        #[test]
        fn tries() { low::never(); low::made().unwrap().take(); }
    """,
    "README.md": """
| Claim | Where |
|---|---|
| right | `low::made`; `Cell::add`; `a_law` (law); library: `Other::take` |
| made by tests alone | `low::never` |
| of another type alone | `low::made`; `Cell::take` |
| no call | `low::a_law` (law) |
| made | `low::made`; library: `Cell::add` |
""",
    "docs/PROMISES.md": """
| Claim | Contract |
|---|---|
| all | `low::made`; `never`; `Cell::take`; `Cell::add` |

| For users of the library | In the program |
|---|---|
| `low::never` | `low::Other::take` |
| `low::Cell::add` | |
""",
}
WRONG = [
    "README.md:5: the program doesn't call `low::never`",
    "README.md:6: the program doesn't call `low::Cell::take`",
    "README.md:7: the cell names no call that the program makes",
    "README.md:8: the program calls `low::Cell::add`, which stands behind `library:`",
    "docs/PROMISES.md:8: the program doesn't call `low::Other::take`",
    "docs/PROMISES.md:9: the program calls `low::Cell::add`, or no column `Contract` has it",
    "docs/PROMISES.md:4: the program doesn't call `low::Cell::take`, and no column `For users of the library` has it",
]


def calls_of(crates, program, reader, text):
    """Returns the calls of the program's crates that a cell names, with whether the program makes them."""
    found = {}
    for span in contracts.SPAN.findall(text):
        if contracts.NAMED.fullmatch(span):
            reader.missing(span)
            made = reader.function and program.makes(reader.function)
            if made is not None:
                found["::".join(reader.function)] = made
    return found


def of_readme(crates, program, parts):
    for number, heading, text, reader in parts:
        if heading != "Where" or not text.strip("-"):
            continue
        said, _, library = text.partition(LIBRARY)
        made = calls_of(crates, program, reader, said)
        if not made:
            yield number, "the cell names no call that the program makes"
        for name in (it for it in made if not made[it]):
            yield number, f"the program doesn't call `{name}`"
        others = calls_of(crates, program, reader, library)
        for name in (it for it in others if others[it]):
            yield number, f"the program calls `{name}`, which stands behind `{LIBRARY}`"


def of_promises(crates, program, parts):
    unmade: dict[str, int] = {}
    listed: dict[str, int] = {}
    for number, heading, text, reader in parts:
        if heading not in contracts.COLUMNS:
            continue
        for name, made in calls_of(crates, program, reader, text).items():
            if heading == "For users of the library":
                listed[name] = number
            elif heading == "In the program" and not made:
                yield number, f"the program doesn't call `{name}`"
            elif heading == "Contract" and not made:
                unmade.setdefault(name, number)
    for name in listed.keys() - unmade.keys():
        yield listed[name], f"the program calls `{name}`, or no column `Contract` has it"
    for name in unmade.keys() - listed.keys():
        yield unmade[name], f"the program doesn't call `{name}`, and no column `For users of the library` has it"


def complaints(top, program):
    crates = contracts.crates_of(top)
    for name, check in (("README.md", of_readme), ("docs/PROMISES.md", of_promises)):
        for number, said in check(crates, program, contracts.read(crates, top / name)):
            yield f"{name}:{number}: {said}"


def try_itself():
    """Returns what the check says of the made-up repository beside what is wrong there, and what it doesn't say."""
    with tempfile.TemporaryDirectory() as folder:
        top = pathlib.Path(folder)
        for name, text in MADE_UP.items():
            (top / name).parent.mkdir(parents=True, exist_ok=True)
            (top / name).write_text(textwrap.dedent(text), encoding="utf-8")
        said = set(complaints(top, program_of(top)))
    return [f"made up: {it}" for it in sorted(said - set(WRONG))] + [f"made up, not found: {it}" for it in WRONG if it not in said]


def main(words):
    program = program_of(TOP)
    if words == ["--calls"]:
        said = sorted(str(it) for it in program.reached)
    elif words == ["--unknown"]:
        said = program.unknown
    elif words:
        print("usage: bin/checks/reached.py [--calls | --unknown]", file=sys.stderr)
        return 1
    else:
        said = [*try_itself(), *complaints(TOP, program)]
    for it in said:
        print(it)
    return 1 if said and not words else 0


if __name__ == "__main__":
    sys.exit(main(sys.argv[1:]))
