#!/usr/bin/env python3
"""Runs a desk where the system makes no thread, or few, and has each journal judged.

A desk's optimisers wait for its sessions. That a run ends all the same where its callers come one after another is in no
contract, since a call that waits owes no return; so it is tried here, under a limit on processes and with a limit on
time. Wants the kit's `rt` where the program is not built yet, and Python's standard library alone.
"""
import os
import resource
import shutil
import subprocess
import tempfile
from pathlib import Path

from tally import TOP, Tally, built_program

HOTEL = TOP / "examples" / "lindenhof"
FILES = ["hotel.toml", "stays.csv", "forecast.csv", "bookings.csv"]
NOBODY = 65534
SECONDS = 60


def with_threads(many):
    """Leaves a child so many threads beside its first one. The limit does not bind root, so the child is nobody."""

    def limit():
        resource.setrlimit(resource.RLIMIT_NPROC, (many, many))
        if os.getuid() == 0:
            os.setgid(NOBODY)
            os.setuid(NOBODY)

    return limit


def entries_of(journal):
    """How many entries the text of a journal has."""
    other = (b"journal ", b"value ", b"sell", b"prices", b"end")
    return sum(not line.startswith(other) for line in journal.splitlines())


def main():
    program = built_program()
    tally = Tally()
    with tempfile.TemporaryDirectory() as folder:
        os.chmod(folder, 0o755)
        ours = shutil.copy(program, folder)
        for name in [*FILES, "script.csv"]:
            shutil.copy(HOTEL / name, folder)
        for many in (0, 1, 2, 3, 64):
            name = f"a desk with {many} threads beside its own"
            line = [ours, "desk", *FILES, "script.csv"]
            try:
                run = subprocess.run(line, cwd=folder, stdout=subprocess.PIPE, preexec_fn=with_threads(many), timeout=SECONDS)
            except subprocess.TimeoutExpired:
                tally.holds(name, False, f"it did not end in {SECONDS} seconds")
                continue
            Path(folder, "journal").write_bytes(run.stdout)
            judged = subprocess.run([ours, "replay", *FILES, "journal"], cwd=folder, capture_output=True)
            wanted = (0, 0, b"legal %d\n" % entries_of(run.stdout))
            tally.expect(name, (run.returncode, judged.returncode, judged.stdout), wanted)
    tally.end()


if __name__ == "__main__":
    main()
