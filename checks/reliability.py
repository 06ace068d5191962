#!/usr/bin/env python3
"""Compares docs/reliability.md with the sources: each public call stands there once, beside clauses and tests that exist.

A public call is a function that a crate exports, a method of a type that it exports, or one of a trait that it exports;
laws, whose bodies are empty, are left out. In a row of a crate's table the first cell names calls, with `(waits)` behind
those that take a runtime which may wait. A name in small letters in the other cells is a clause of one of these calls, a
law, or a test. A call that answers a Result stands in no row that says `none`. Wants Python's standard library alone.
"""
import re

from tally import TOP, Tally

PAGE = TOP / "docs" / "reliability.md"
FUNCTION = re.compile(r'^(\s*)(pub )?(?:const |unsafe |extern "C" )*fn (\w+)')
WORD = re.compile(r"`([\w:]+)`")


class Call:
    """A public call: its signature, and the names of its clauses."""

    def __init__(self, name, head, block):
        self.name, self.block = name, block
        self.signature = re.split(r"\n\s*(?:requires|ensures|//)", head)[0]
        self.clauses = set(re.findall(r"^\s*ensures (\w+)\s*\{", head, re.M))

    def may_wait(self):
        return "Wait" in self.signature

    def waits_by_its_type(self):
        return "Wait" in self.block

    def refuses(self):
        return "-> Result" in re.sub(r"\s+", " ", self.signature)


def exports(path, folder):
    """The names that a root file exports, and the public modules below it, by the names of their files."""
    text, names, modules = path.read_text("utf-8"), set(), set()
    for used in re.findall(r"^pub use ([^;]+);", text, re.M):
        inner = re.search(r"\{(.*)\}", used, re.S)
        names |= {name.strip() for name in inner.group(1).split(",")} if inner else {used.split("::")[-1]}
    for module in re.findall(r"^pub mod (\w+);", text, re.M):
        modules.add(module)
        more = exports(folder / f"{module}.rt", folder / module)
        names |= more[0]
    return names, modules


def head_of(lines, at):
    """The lines of a function's signature and clauses."""
    head = []
    for line in lines[at:]:
        head.append(line)
        if line.strip() == "{" or line.rstrip().endswith((" {", "{}", ";")) and not re.match(r"\s*(ensures|requires)", line):
            break
    return "\n".join(head)


def functions(path):
    """Each function of a file with the type or trait that it is one of, whether it is public, and its head."""
    owner, block, of_trait = None, "", False
    lines = path.read_text("utf-8").splitlines()
    for at, line in enumerate(lines):
        found = re.match(r"(?:unsafe )?impl(?:<.*?>)? (\w+)", line) if not re.search(r"^impl.* for ", line) else None
        found = found or re.match(r"pub trait (\w+)", line)
        if found:
            owner, block, of_trait = found.group(1), line, line.startswith("pub trait")
        elif re.match(r"(?:unsafe )?impl", line) or line.startswith("}"):
            owner, block, of_trait = None, "", False
        found = FUNCTION.match(line)
        if found and (owner or not found.group(1)) and (found.group(2) or of_trait):
            yield owner, found.group(3), head_of(lines, at), block


def public_calls(crate):
    """The public calls of a crate, by their names."""
    source = TOP / "crates" / crate / "src"
    root = source / "lib.rt"
    if not root.exists():
        return {}
    names, modules = exports(root, source)
    calls = {}
    for path in sorted(source.rglob("*.rt")):
        place = path.relative_to(source)
        if place.parts[0] in ("tests", "tests.rt", "law.rt"):
            continue
        for owner, name, head, block in functions(path):
            if (owner or name) in names or str(place.with_suffix("")) in modules:
                full = f"{owner}::{name}" if owner else name
                calls[full] = Call(full, head, block)
    return calls


def tests_and_laws():
    """The names of all tests and laws."""
    found = set()
    for path in (TOP / "crates").glob("*/src/**/*.rt"):
        text = path.read_text("utf-8")
        found |= set(re.findall(r"#\[test\]\s*fn (\w+)", text))
        if path.name == "law.rt":
            found |= set(re.findall(r"^pub fn (\w+)", text, re.M))
    return found


def tables(text):
    """Of each crate's table on the page the rows, each as its cells."""
    found = {}
    for crate, body in re.findall(r"^### `(\w+)`\n(.*?)(?=^#|\Z)", text, re.M | re.S):
        rows = [line.strip("| ").split(" | ") for line in body.splitlines() if line.startswith("| `")]
        found[crate] = rows
    return found


def try_row(tally, crate, calls, cells, known):
    """One row: its calls are there, wait where it says so, refuse where it says so, and its names exist."""
    named = re.findall(r"`([\w:]+)`( \(waits\))?", cells[0])
    place = f"{crate}, {named[0][0]}"
    there = [calls[name] for name, _ in named if name in calls]
    tally.expect(f"{place}: the calls are there", [name for name, _ in named if name not in calls], [])
    waits = [name for name, word in named if name in calls
             and (calls[name].may_wait() if not word else not calls[name].may_wait() and not calls[name].waits_by_its_type())]
    tally.expect(f"{place}: which calls wait", waits, [])
    if cells[1] == "none":
        tally.expect(f"{place}: none refuses", [call.name for call in there if call.refuses()], [])
    clauses = set().union(*(call.clauses for call in there)) if there else set()
    words = [word for cell in cells[1:] for word in WORD.findall(cell)]
    tally.expect(f"{place}: clauses and tests", [word for word in words if word not in clauses | known], [])
    return [name for name, _ in named]


def main():
    tally = Tally()
    shown, known = tables(PAGE.read_text("utf-8")), tests_and_laws() | {"limit"}
    crates = [line.split(":")[0].split()[0] for line in (TOP / "crates.txt").read_text().splitlines() if ":" in line]
    for crate in crates:
        calls = public_calls(crate)
        if not calls:
            continue
        named = []
        for cells in shown.pop(crate, []):
            named += try_row(tally, crate, calls, cells, known)
        tally.expect(f"{crate}: every public call", sorted(named), sorted(calls))
    tally.expect("crates without a public call", sorted(shown), [])
    tally.end()


if __name__ == "__main__":
    main()
