#!/usr/bin/env python3
"""Looks whether each library crate has an example at its head, and whether code that is built has it word for word.

Wants Python's standard library alone.
"""
from tally import TOP, Tally

CRATES = TOP / "crates"


def head_example(text):
    """The lines between the fences in a crate's head; None where there are none."""
    head = [line[3:].removeprefix(" ") for line in text.split("\n") if line.startswith("//!")]
    fences = [at for at, line in enumerate(head) if line == "```"]
    return head[fences[0] + 1 : fences[1]] if len(fences) == 2 else None


def code_lines(path):
    """The lines of a source file without their indentation and without its comments."""
    lines = (line.strip() for line in path.read_text("utf-8").split("\n"))
    return [line for line in lines if not line.startswith("//")]


def stands_in(example, lines):
    """Whether the example's lines stand in a row among others."""
    wanted = [line.strip() for line in example if not line.strip().startswith("//")]
    return any(lines[at : at + len(wanted)] == wanted for at in range(len(lines) - len(wanted) + 1))


def main():
    tally = Tally()
    sources = [code_lines(path) for path in sorted(CRATES.glob("*/src/**/*.rt"))]
    for path in sorted(CRATES.glob("*/src/lib.rt")):
        name = path.parent.parent.name
        if name.endswith("_tests"):
            continue
        example = head_example(path.read_text("utf-8"))
        found = example is not None and any(stands_in(example, lines) for lines in sources)
        tally.holds(f"the example of {name}", found, "none, or no code that is built has it")
    tally.end()


if __name__ == "__main__":
    main()
