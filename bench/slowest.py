#!/usr/bin/env python3
"""Runs the slowest inputs that were found for each command, within the limits, and tells what they take.

    bench/slowest.py [PART [COMMAND..]]

It wants the program and Python's standard library. Of the inputs whose time grows with a count (of changes, groups or
commands) PART of that count is taken, a hundredth where none is given, and 1 for the input at its limit; the others are
run whole. Nothing is promised of time; the table says, for each command, what input took longest among those that were
tried, and what it took: seconds, and processor seconds where threads work beside one another. Ends with status 1 where
a run ends otherwise than with its answer.
"""
import os
import random
import sys
import time

from houses import House, date
from lines import JOURNAL_OF_A_PROBLEM, list_of, said
from program import FOLDER, program

NIGHTS, STAYS, ROOMS, RATE, FORECAST = 400, 4_000, 10_000, 10**9, 10**6


def spans(draw, shortest, longest):
    """Spans of nights with lengths between two bounds."""
    for _ in range(STAYS):
        length = draw.randint(shortest, longest)
        start = draw.randint(0, NIGHTS - length)
        yield start, start + length


def problem(folder, seed, shortest, longest, most_forecast, rooms=ROOMS):
    """The path of a problem of the greatest size, with random spans of such lengths."""
    draw = random.Random(seed)
    rows = [f"stay {start} {end} {draw.randint(1, RATE)} {draw.randint(1, most_forecast)}" for start, end in spans(draw, shortest, longest)]
    room = " ".join(str(draw.randint(rooms // 2, rooms)) for _ in range(NIGHTS))
    return written(folder, "problem", "\n".join(["problem 1", f"nights {NIGHTS}", f"rooms {room}", f"stays {STAYS}", *rows, "end", ""]))


def written(folder, name, text):
    os.makedirs(folder, exist_ok=True)
    path = os.path.join(folder, name)
    with open(path, "w") as out:
        out.write(text)
    return path


HARD = dict(seed=1, shortest=1, longest=NIGHTS, most_forecast=200)


def solve(folder, part):
    return ["solve", problem(folder, **HARD)]


def check(folder, part):
    hard = problem(folder, **HARD)
    return ["check", hard, written(folder, "certificate", said(program(), ["solve", hard]).decode())]


def group(folder, part):
    """A group of half the rooms on every night, which moves what each stay has."""
    return ["group", problem(folder, **HARD), "0", str(NIGHTS), str(ROOMS // 2)]


def sheet(folder, part):
    return ["sheet", problem(folder, **HARD)]


def scenarios(folder, part):
    """One list of changes that take half of all rooms away and give them back."""
    lines = [f"rooms 0 {NIGHTS} {'up' if nth % 2 else 'down'} {ROOMS // 2}" for nth in range(int(100_000 * part))]
    return ["scenarios", problem(folder, **HARD), written(folder, "changes", "\n".join(["scenarios 1", "scenario", *lines, "end", ""]))]


def demo(folder, part):
    return ["demo", "7", str(NIGHTS), str(ROOMS), str(STAYS)]


class Groups(House):
    """The greatest house, where every command is a group of half the rooms on many nights that pays too little."""

    def __init__(self, rooms=ROOMS):
        super().__init__(1, NIGHTS, rooms, 1, unit=100, groups=1.0)
        self.stays = [(start, end - start, self.draw.randint(1, RATE), self.draw.randint(1, 20_000)) for start, end in spans(self.draw, 1, NIGHTS)]

    def group(self):
        start = self.draw.randrange(NIGHTS // 2)
        return f"group,{date(start)},{NIGHTS // 2},{self.rooms // 2},1"


def desk(folder, part):
    house = Groups()
    files = house.write(folder)
    script = written(folder, "script.csv", house.script(1, int(200_000 * part)))
    return ["desk", *files, script, "--workers", "0"]


def journal_of(folder, part):
    words = desk(folder, part)
    return words[1:5], written(folder, "journal", said(program(), words, statuses=(0, 7)).decode())


def replay(folder, part):
    files, journal = journal_of(folder, part)
    return ["replay", *files, journal]


def report(folder, part):
    files, journal = journal_of(folder, part)
    return ["report", *files, journal]


def judge(folder, part):
    """A journal of groups on a problem's house, each quoted on every night."""
    hard = problem(folder, **HARD)
    claim = said(program(), ["solve", hard]).decode().split("\n", 1)[1].removesuffix("end\n")
    displaced = int(said(program(), ["group", hard, "0", str(NIGHTS), str(ROOMS // 2)]).split(None, 2)[1])
    count = int(199_999 * part)
    lines = JOURNAL_OF_A_PROBLEM.format(claim=claim).splitlines()
    refused = [f"{nth + 2} 1 group 0 {NIGHTS} {ROOMS // 2} 0 toolow {displaced}" for nth in range(count)]
    return ["judge", hard, written(folder, "journal", "\n".join([*lines[:-2], *refused, f"{count + 2} 1 leave done", "end", ""]))]


def portfolio(folder, part):
    hotels = [desk(os.path.join(folder, str(hotel)), part)[1:6] for hotel in range(8)]
    return ["portfolio", written(folder, "list", list_of(hotels)), "--workers", "0"]


COMMANDS = {
    "check": (check, "400 nights, 4,000 stays of any length"),
    "solve": (solve, "the same problem"),
    "group": (group, "the same, half the rooms on every night"),
    "sheet": (sheet, "the same: each night raised and lowered"),
    "scenarios": (scenarios, "the same, 100,000 changes of half the rooms on every night, in one scenario"),
    "demo": (demo, "400 nights of 10,000 rooms, 4,000 stays"),
    "judge": (judge, "the same problem, 200,000 groups of half the rooms on every night"),
    "desk": (desk, "unit 100, 200,000 groups of half the rooms on half the nights, one session, no worker"),
    "replay": (replay, "the journal of that desk"),
    "report": (report, "the same"),
    "portfolio": (portfolio, "eight such desks"),
}


def main():
    part = float(sys.argv[1]) if len(sys.argv) > 1 else 0.01
    print(f"{'command':10}{'seconds':>10}{'processor':>11}  a part of {part:g} where a count is named")
    for command in sys.argv[2:] or COMMANDS:
        make, told = COMMANDS[command]
        words = make(os.path.join(FOLDER, "slowest", command), part)
        begin = time.perf_counter()
        quiet = [(os.POSIX_SPAWN_OPEN, 1, os.path.join(FOLDER, "slowest", "said"), os.O_WRONLY | os.O_CREAT | os.O_TRUNC, 0o644)]
        child = os.posix_spawn(program(), [program(), *words], os.environ, file_actions=quiet)
        _, status, used = os.wait4(child, 0)
        taken = time.perf_counter() - begin
        print(f"{command:10}{taken:>10.3f}{used.ru_utime + used.ru_stime:>11.3f}  {told}", flush=True)
        if os.waitstatus_to_exitcode(status) not in (0, 7):
            sys.exit(f"{command} ended with status {os.waitstatus_to_exitcode(status)}")


if __name__ == "__main__":
    main()
