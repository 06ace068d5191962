#!/usr/bin/env python3
"""Answers the same scenarios on one, two and four processors, and compares the bytes.

That threads change no answer is proved of what the threads are given; that the program which ships writes the same on
any number of processors is seen here. There are 2,100 scenarios, so that threads are started. Wants the kit's `rt` where
the program is not built yet, and Python's standard library alone.
"""
import os
import subprocess
import tempfile
from pathlib import Path

from tally import Tally, built_program

NIGHTS = 60
STAYS = 200
SCENARIOS = 2_100


def draws(seed):
    """A linear congruential generator."""
    while True:
        seed = 16807 * seed % 2147483647
        yield seed


def drawn_problem(draw):
    """The text of a problem."""
    lines = ["problem 1", f"nights {NIGHTS}", "rooms" + " 12" * NIGHTS, f"stays {STAYS}"]
    for _ in range(STAYS):
        start = next(draw) % NIGHTS
        end = start + 1 + next(draw) % min(7, NIGHTS - start)
        lines.append(f"stay {start} {end} {(end - start) * (50 + next(draw) % 100)} {next(draw) % 8}")
    return "\n".join(lines + ["end", ""])


def drawn_changes(draw):
    """The text of scenarios, some of which take more rooms than there are."""
    lines = ["scenarios 1"]
    for _ in range(SCENARIOS):
        lines.append("scenario")
        for _ in range(next(draw) % 4):
            start = next(draw) % NIGHTS
            end = start + 1 + next(draw) % min(7, NIGHTS - start)
            lines.append(
                [
                    f"rooms {start} {end} down {1 + next(draw) % 8}",
                    f"rooms {start} {end} up {1 + next(draw) % 8}",
                    f"demand {next(draw) % STAYS} {next(draw) % 8}",
                    f"rate {next(draw) % STAYS} {1 + next(draw) % 700}",
                ][next(draw) % 4]
            )
    return "\n".join(lines + ["end", ""])


def on_processors(processors):
    return lambda: os.sched_setaffinity(0, processors)


def main():
    program = built_program()
    tally = Tally()
    draw = draws(18)
    with tempfile.TemporaryDirectory() as folder:
        Path(folder, "problem").write_text(drawn_problem(draw))
        Path(folder, "changes").write_text(drawn_changes(draw))
        there = sorted(os.sched_getaffinity(0))
        first = None
        for many in (1, 2, 4):
            if many > len(there):
                tally.skip(f"scenarios on {many} processors", "this machine has fewer")
                continue
            done = subprocess.run(
                [program, "scenarios", "problem", "changes"],
                cwd=folder, capture_output=True, timeout=300, preexec_fn=on_processors(there[:many]),
            )
            lines = done.stdout.splitlines()
            refused = sum(b"refused" in line for line in lines)
            tally.holds(f"scenarios on {many} processors end well", done.returncode == 0, f"status {done.returncode}")
            tally.expect(f"a line for each scenario on {many} processors", len(lines), SCENARIOS)
            tally.holds(f"some are refused on {many} processors", 0 < refused < SCENARIOS, f"{refused} are")
            first = first or done.stdout
            tally.holds(f"the same bytes on {many} processors", done.stdout == first, "other bytes")
    tally.end()


if __name__ == "__main__":
    main()
