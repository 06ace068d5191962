#!/usr/bin/env python3
"""Tells what each crate costs the gate, in processor minutes.

    bench/gate.py [NAME..]

It wants rt and Python's standard library, and takes as long as the gate from nothing, which is more than an hour on four
processors. Crate by crate, from the lowest up, or for those that are named, it has `rt ci NAME` prove the crate and its
tests and try its planted bugs. What passed is kept on this machine and not done again: so each run does the one crate's
part where those below it have passed, and a crate that has passed before costs next to nothing. Prints a row a crate:
processor minutes, minutes, planted bugs, and the last line. Ends with status 1 where a crate does not pass.
"""
import os
import subprocess
import sys
import time
from pathlib import Path

TOP = Path(__file__).resolve().parent.parent


def crates():
    """The names in crates.txt, each behind those that it uses."""
    uses = {}
    for line in (TOP / "crates.txt").read_text().splitlines():
        if ":" in line:
            head, names = line.split(":", 1)
            uses[head.split()[0]] = names.split()
    order = []

    def visit(name):
        if name in uses and name not in order:
            for lower in uses[name]:
                visit(lower)
            order.append(name)

    for name in uses:
        visit(name)
    return order


def passes(name):
    """Runs the gate for one crate: processor seconds, seconds, whether it passed, and its last line."""
    begin = time.monotonic()
    log = TOP / "out" / "gate" / name
    log.parent.mkdir(parents=True, exist_ok=True)
    with open(log, "wb") as said:
        child = subprocess.Popen(["rt", "ci", name], cwd=TOP, stdout=said, stderr=subprocess.STDOUT)
        _, status, used = os.wait4(child.pid, 0)
    lines = log.read_text(errors="replace").splitlines() or [""]
    return used.ru_utime + used.ru_stime, time.monotonic() - begin, status == 0, lines[-1]


def main():
    failed, whole = 0, 0
    print(f"{'crate':20} processor min   min  planted bugs  last line")
    for name in sys.argv[1:] or crates():
        used, taken, passed, last = passes(name)
        failed += not passed
        whole += used
        edits = len(list((TOP / "crates" / name / "must-fail").glob("*.edit")))
        print(f"{name:20} {used / 60:13.1f} {taken / 60:5.1f} {edits:13}  {last}", flush=True)
    print(f"{'together':20} {whole / 60:13.1f}")
    sys.exit(failed > 0)


if __name__ == "__main__":
    main()
