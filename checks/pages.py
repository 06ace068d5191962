#!/usr/bin/env python3
"""Runs each line of the program that a page shows, and compares what it prints with what stands there.

A line of a block is shown behind `$ bidprice`, or a path to it; one of `printf` makes a file for it, one of `grep` looks
into a file that it wrote, and one of `examples/` runs a script of the examples, where the solver that it asks is there.
It is run where its files are: at the top of the repository, or in the example's folder that has them all. Where a page
cuts a text short, by a line of two or more dots, the pieces that it shows have to stand there in their order. A line that
writes to a file keeps it for the lines behind it, and since threads write it, the numbers that are said of it may be
others. Wants the kit's `rt` where the program is not built yet, and Python's standard library alone.
"""
import re
import shlex
import shutil
import subprocess
import tempfile
from pathlib import Path

from tally import TOP, Tally, built_program

PAGES = ["README.md", *sorted(str(page.relative_to(TOP)) for page in (TOP / "docs").rglob("*.md"))]
BLOCK = re.compile(r"^```[a-z]*\n(.*?)^```$", re.M | re.S)
CUT = re.compile(r"^\.{2,}$")


def shown(page):
    """The lines of the program in the blocks of a page, each with the lines that stand behind it."""
    for block in BLOCK.findall((TOP / page).read_text()):
        lines = block.splitlines()
        starts = [at for at, line in enumerate(lines) if line.startswith("$ ")] + [len(lines)]
        for start, end in zip(starts, starts[1:]):
            words = shlex.split(lines[start][2:])
            if words and Path(words[0]).name in ("bidprice", "printf", "grep"):
                yield [Path(words[0]).name, *words[1:]], lines[start + 1 : end]
            elif words and words[0].startswith("examples/"):
                yield words, lines[start + 1 : end]


def names(words):
    """The words that are names of files."""
    return [word for word in words[1:] if not word.startswith("-") and not word.isdigit() and word != ">"]


def folder_of(words, folders):
    """The first folder that has every file that a line reads."""
    read = names(words[: words.index(">")] if ">" in words else words)
    return next((folder for folder in folders if all((folder / name).is_file() for name in read)), None)


def command_of(verb, program, top):
    """What a line's first word runs, and why this machine cannot run it, or None."""
    if verb == "bidprice":
        return [program], None
    if verb == "grep":
        return ["grep"], None
    return [top / verb], None if shutil.which("glpsol") else "glpsol is not there"


def agree(said, wanted):
    """Whether a text is what a page shows of it: its pieces, between the cuts, stand there in their order."""
    pieces = [[]]
    for line in wanted:
        if CUT.match(line):
            pieces.append([])
        else:
            pieces[-1].append(line)
    if len(pieces) == 1:
        return said == wanted
    first, *middle, last = pieces
    if said[: len(first)] != first or said[len(said) - len(last) :] != last:
        return False
    at, end = len(first), len(said) - len(last)
    for piece in middle:
        at = next((k for k in range(at, end - len(piece) + 1) if said[k : k + len(piece)] == piece), None)
        if at is None:
            return False
        at += len(piece)
    return at <= end


def without_numbers(lines):
    return [re.sub(r"\d+", "N", line) for line in lines]


def main():
    program = built_program()
    tally = Tally()
    with tempfile.TemporaryDirectory() as copy:
        shutil.copytree(TOP / "examples", Path(copy) / "examples")
        top = Path(copy)
        folders = [top, *sorted(folder for folder in top.rglob("*") if folder.is_dir())]
        for page in PAGES:
            written = set()
            for (verb, *words), wanted in shown(page):
                if verb == "printf":
                    (top / words[-1]).write_text(words[0].replace("\\n", "\n"))
                    continue
                name = f"{page}: {verb} {' '.join(words)}"
                folder = top if verb.startswith("examples/") else folder_of(words, folders)
                command, lacks = command_of(verb, program, top)
                if lacks:
                    tally.skip(name, lacks)
                    continue
                if folder is None:
                    tally.skip(name, "it names files of the reader's own")
                    continue
                goes_to = words.index(">") if ">" in words else len(words)
                done = subprocess.run([*command, *words[:goes_to]], cwd=folder, capture_output=True, text=True, timeout=60)
                if goes_to < len(words):
                    (folder / words[goes_to + 1]).write_text(done.stdout)
                    written.add(words[goes_to + 1])
                    done.stdout = ""
                said = done.stdout.splitlines()
                if written & set(words[:goes_to]):
                    said, wanted = without_numbers(said), without_numbers(wanted)
                tally.holds(name, agree(said, wanted), f"it prints {done.stdout[:500]!r}")
    tally.end()


if __name__ == "__main__":
    main()
