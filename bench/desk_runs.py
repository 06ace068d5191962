#!/usr/bin/env python3
"""Runs desks beside one another's threads many times, and has each journal judged.

    bench/desk_runs.py [RUNS [COMMANDS]]

It wants the program, Python's standard library and, for the desk in C++, Debian's packages g++ and liblemon-dev; that
part is left out, and said to be, where they are missing. A thousand runs (or RUNS) of a month of 31 nights, 120 rooms and
300 stays with four sessions of fifty commands and two workers, a fifth as many of a busy house with 32 sessions and
sixteen workers, and one run of 200,000 commands, with the most memory that it takes. Every house allows entries and
vectors for all commands, so each run has to end with status 0; its journal has to be legal for the house, with as many
entries as it has, with all commands among them, and with no more vectors than two and one for every `lead` commands.
Prints a line for each kind of run.

Then a year of 3,000 stays with four sessions of COMMANDS commands (5,000) each and one, two and four workers, beside the
same sessions on a desk in C++ under one mutex, whose optimisers solve afresh by LEMON's network simplex: medians of
three runs each, in turn. The program's time has the reading of the files and the writing of the journal in it, and that
of the desk in C++ has not. A vector of a session tells that a booking of it had to wait, since sessions publish for
nothing else. The script fails where a journal is not as it has to be, where the run of 200,000 commands takes more than
64 MiB, and where the program is slower than the desk in C++.
"""
import os
import shutil
import statistics
import subprocess
import sys
import tempfile
import time

from houses import House
from program import FOLDER, build_beside_lemon, peak, program

MONTH = dict(nights=31, rooms=120, stays=300, stale_after=20, publications=100)
BUSY = dict(nights=14, rooms=20, stays=120, stale_after=12, publications=1000)
LONG = dict(nights=365, rooms=120, stays=3000, stale_after=1000, publications=1000)
YEAR = dict(nights=365, rooms=120, stays=3000, stale_after=100, publications=1000)
SESSIONS = 4
MOST_MEMORY = 64 * 1024  # KiB, of the run of 200,000 commands


class Journal:
    """What a journal's text has: how many entries, how many of them commands, and who published each vector."""

    def __init__(self, text):
        self.entries, self.commands, self.publishers = 0, 0, []
        for line in text.splitlines():
            place, *words = line.split(b" ", 3)
            if not place.isdigit():
                continue
            self.entries += 1
            if words[1] == b"publish":
                self.publishers.append(int(words[0]))
            elif words[1] not in (b"enrol", b"leave"):
                self.commands += 1

    def by_sessions(self, sessions):
        """How many vectors a session published."""
        return sum(1 <= caller <= sessions for caller in self.publishers)


def fail(files, script, journal, why):
    """Keeps what a run had and wrote, and ends the script."""
    kept = os.path.join(FOLDER, "failed")
    os.makedirs(kept, exist_ok=True)
    for path in (*files, script, journal):
        shutil.copy(path, kept)
    sys.exit(f"{why}; the run's files are in {kept}")


def run(files, script, workers, journal, commands, lead):
    """One run, judged: its journal and its seconds."""
    begin = time.perf_counter()
    with open(journal, "wb") as out:
        desk = subprocess.run([program(), "desk", *files, script, "--workers", str(workers)], stdout=out)
    taken = time.perf_counter() - begin
    if desk.returncode != 0:
        fail(files, script, journal, f"desk ended with status {desk.returncode}")
    with open(journal, "rb") as text:
        found = Journal(text.read())
    judged = subprocess.run([program(), "replay", *files, journal], capture_output=True)
    wanted = f"legal {found.entries}\n".encode()
    if (judged.returncode, judged.stdout) != (0, wanted):
        fail(files, script, journal, f"a journal was judged {judged.stdout!r}, not {wanted!r}")
    if found.commands != commands:
        fail(files, script, journal, f"a journal has {found.commands} commands, not {commands}")
    if len(found.publishers) > 2 + commands // lead:
        fail(files, script, journal, f"a journal has {len(found.publishers)} vectors for {commands} commands")
    return found, taken


def many(name, runs, sessions, commands, workers, shape):
    """So many runs, each of a house of its own, and the most memory of a run that stands alone."""
    taken, by_sessions = 0.0, 0
    with tempfile.TemporaryDirectory() as folder:
        for seed in range(runs):
            house = House(seed, **shape)
            files = house.write(folder)
            script, journal = os.path.join(folder, "script.csv"), os.path.join(folder, "journal")
            with open(script, "w") as out:
                out.write(house.script(sessions, commands))
            found, seconds = run(files, script, workers, journal, sessions * commands, house.lead)
            by_sessions += found.by_sessions(sessions)
            taken += seconds
        memory = peak([program(), "desk", *files, script, "--workers", str(workers)]) if runs == 1 else None
    line = f"{name:<10}{runs:>6} runs, all whole and legal, {taken / runs:.3f} s each, {sessions * commands * runs / taken:,.0f} commands a second, "
    print(line + f"{by_sessions} bookings that waited for a vector of their own" + (f", peak {memory} KiB" if memory else ""), flush=True)
    if memory and memory > MOST_MEMORY:
        sys.exit("the run takes too much memory")


def beside(commands):
    """The rate of the program and that of the desk in C++, on the same sessions: whether the program's is no less."""
    peer = build_beside_lemon("desk_peer")
    if peer is None:
        print("the desk in C++ is left out: g++ or liblemon-dev is missing")
        return True
    keeps_up = True
    with tempfile.TemporaryDirectory() as folder:
        house = House(1, **YEAR)
        files, text = house.write(folder), house.script(SESSIONS, commands)
        script, journal, numbers = (os.path.join(folder, name) for name in ("script.csv", "journal", "numbers"))
        for name, content in ((script, text), (numbers, house.numbers(text))):
            with open(name, "w") as out:
                out.write(content)
        for workers in (1, 2, 4):
            ours, theirs = [], []
            for _ in range(3):
                found, taken = run(files, script, workers, journal, SESSIONS * commands, house.lead)
                ours.append(taken)
                said = subprocess.run([peer, numbers, str(workers)], capture_output=True, check=True).stdout.split()
                theirs.append(float(said[0]))
            rate, peers = (SESSIONS * commands / statistics.median(times) for times in (ours, theirs))
            print(
                f"{workers} workers: {rate:,.0f} commands a second, {rate / peers:.2f} of C++ with LEMON ({peers:,.0f}); "
                f"{len(found.publishers)} vectors, {found.by_sessions(SESSIONS)} by sessions whose booking had to wait; "
                f"in C++ {int(said[2])} vectors, {int(said[3])} waits",
                flush=True,
            )
            keeps_up &= rate >= peers
    return keeps_up


def main():
    runs = int(sys.argv[1]) if len(sys.argv) > 1 else 1000
    many("month", runs, 4, 50, 2, MONTH)
    many("crowded", max(1, runs // 5), 32, 40, 16, BUSY)
    many("long", 1, 4, 50_000, 2, LONG)
    if not beside(int(sys.argv[2]) if len(sys.argv) > 2 else 5000):
        sys.exit("the program is slower than the desk in C++")


if __name__ == "__main__":
    main()
