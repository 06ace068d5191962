#!/usr/bin/env python3
"""Tries the planted bugs that the gate does not try: the prover has to refuse each.

    bench/planted.py [CRATE..]

It wants rt and Python's standard library. The gate tries five to ten planted bugs a crate, those of its folder must-fail,
which tell most; more stand in its folder planted, in the same form. This script copies the repository into out/planted,
with these in the place of the others, and runs `rt must-fail` on each crate that has some, or on those that are named:
up to a minute for each bug. Ends with status 1 where one is not refused.
"""
import shutil
import subprocess
import sys
from pathlib import Path

TOP = Path(__file__).resolve().parent.parent
COPY = TOP / "out" / "planted"


def copy():
    """The repository as git knows it, with the other planted bugs."""
    shutil.rmtree(COPY, ignore_errors=True)
    listed = subprocess.run(["git", "ls-files", "-z"], cwd=TOP, capture_output=True, check=True).stdout
    for name in filter(None, listed.decode().split("\0")):
        path = Path(name)
        if path.parts[0] == "crates" and path.parts[2] == "must-fail":
            continue
        if path.parts[0] == "crates" and path.parts[2] == "planted":
            path = Path(*path.parts[:2], "must-fail", *path.parts[3:])
        (COPY / path).parent.mkdir(parents=True, exist_ok=True)
        shutil.copy2(TOP / name, COPY / path)
    subprocess.run(["git", "init", "-q"], cwd=COPY, check=True)


def main():
    copy()
    crates = sys.argv[1:] or sorted(path.parent.name for path in (COPY / "crates").glob("*/must-fail"))
    failed = [crate for crate in crates if subprocess.run(["rt", "must-fail", crate], cwd=COPY).returncode]
    print(f"not all refused: {', '.join(failed)}" if failed else "all refused")
    sys.exit(bool(failed))


if __name__ == "__main__":
    main()
