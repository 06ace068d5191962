#!/usr/bin/env python3
"""Times `bidprice report` beside `bidprice replay` on one journal of the greatest length.

    bench/report.py [COMMANDS]

It wants the program and Python's standard library. The journal is that of a run on a year of 365 nights and 3,000 stays,
with 200,000 commands, or as many as are given. Both commands judge it; the one prints a line, the other its tables. Their
runs take turns, and of each the best of nine counts. It fails where `report` takes more than 1.2 times as long.
"""
import os
import sys

from journal import made, year
from program import FOLDER, program, timed

MOST_COMMANDS = 200_000

# Above this the tables take too long.
MOST_RATIO = 1.2


def main():
    commands = int(sys.argv[1]) if len(sys.argv) > 1 else MOST_COMMANDS
    files, journal = made(year(commands), commands)
    best = {}
    for _ in range(9):
        for command in ["replay", "report"]:
            taken, _ = timed([program(), command, *files, journal], said=os.path.join(FOLDER, "said"))
            best[command] = min(best.get(command, taken), taken)
    ratio = best["report"] / best["replay"]
    print(f"{commands} commands: replay {best['replay']:.3f} s, report {best['report']:.3f} s, {ratio:.2f} times")
    if ratio > MOST_RATIO:
        sys.exit(f"more than {MOST_RATIO} times")


if __name__ == "__main__":
    main()
