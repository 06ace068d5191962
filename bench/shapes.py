#!/usr/bin/env python3
"""Times the solver on fourteen shapes of problems beside LEMON's network simplex, or looks for the worst problem.

    bench/shapes.py                    the fourteen shapes, and a booking, a change of a rate and a group's quote on a year
    bench/shapes.py NAME..             the shapes of these names, and those that a hunt found
    bench/shapes.py --plain            how long the hard shapes take by successive shortest paths from nothing: some seconds
    bench/shapes.py --hunt SECONDS     a hunt for the problem that takes the solver longest; 20 seconds where none are given

It wants the program, which `./bidprice` builds at its first call, and Debian's g++ and liblemon-dev. The solve proper is
the call bidprice_solve_numbers of the library, which checks/library.sh builds by the kit's rt, beside LEMON's solve in one
process; where rt is missing it is the time of `solve` less that of `check`. The whole command stands beside a static C++
program around LEMON. The calls on a solver that stands are those of crates/bp_bench, and are left out where that is not
built. All times are processor times, medians of seven in turn, and all values must be equal.

Behind each figure stands its goal. It fails where a goal is lost that the solver has reached; those that it has not are
marked, and with --plain where a hard shape is none. A hunt prints what it finds as a call of problems.hunted, and fails
above its goal.
"""
import os
import random
import shutil
import statistics
import subprocess
import sys
import tempfile
import time
from pathlib import Path

from generate import problem_text
from problems import FOUND, SHAPES, hunted, hunter
from program import TOP, build_beside_lemon, program

RUNS = 7
PROPER = 0.8                # the solve proper, of LEMON's
WHOLE = 0.9                 # the whole command, of the static program's time
WORST = 50                  # milliseconds of any problem within the limits
HARD = {"flat rates": 3, "gadgets": 8}      # seconds that successive shortest paths from nothing take at least
CALLS = {"booking": 1 / 500, "rate": 1 / 60, "group": 1 / 8}    # of a solve from nothing by LEMON
NOT_YET = {                 # goals that are not reached
    "proper": {"month", "scarce rooms", "nested", "stepped", "gadgets", "equal spans", "power rates", "one rate"},
    "whole": {"month", "120 nights", "scarce rooms", "nested", "stepped", "gadgets", "equal spans", "power rates", "one rate"},
    "calls": {"booking", "rate"},
}


def processor_time(command, said=os.devnull):
    """Milliseconds of the processor that one run takes, its output in a file."""
    action = [(os.POSIX_SPAWN_OPEN, 1, said, os.O_WRONLY | os.O_CREAT | os.O_TRUNC, 0o644)]
    child = os.posix_spawn(command[0], command, os.environ, file_actions=action)
    _, status, used = os.wait4(child, 0)
    if status:
        sys.exit(f"{' '.join(command)} ended with status {os.waitstatus_to_exitcode(status)}")
    return (used.ru_utime + used.ru_stime) * 1000


def build(folder):
    """The C++ program: static, and with the library's calls where the kit is there, else None."""
    here = TOP + "/bench/shapes.cpp"
    words = ["g++", "-O2", "-std=c++17", "-w", here]
    peer, calls = folder / "shapes", folder / "calls"
    subprocess.run([*words, "-static", "-o", peer], check=True)
    if not shutil.which("rt"):
        print("the kit's rt is not installed: the solve proper is the time of solve less that of check")
        return str(peer), None
    subprocess.run([TOP + "/checks/library.sh", folder], check=True)
    subprocess.run([*words, "-DCALLS", f"-I{TOP}/include", folder / "libbidprice.a", "-o", calls], check=True)
    return str(peer), str(calls)


class Measure:
    """Measures one problem after the other, in a folder of its own."""

    def __init__(self, folder):
        self.folder = folder
        self.ours = program()
        self.peer = self.calls = None
        self.problem, self.certificate, self.other = (str(folder / name) for name in ("problem", "certificate", "other"))

    def build(self):
        """Builds what stands beside the program."""
        self.peer, self.calls = build(self.folder)

    def write(self, rooms, rows):
        Path(self.problem).write_text(problem_text(rooms, rows), "ascii")

    def whole(self):
        """Milliseconds of the whole command, of its check, and of the static program."""
        ours, checks, theirs = [], [], []
        for _ in range(RUNS):
            ours.append(processor_time([self.ours, "solve", self.problem], self.certificate))
            checks.append(processor_time([self.ours, "check", self.problem, self.certificate]))
            theirs.append(processor_time([self.peer, "solve", self.problem], self.other))
        if value_in(self.certificate) != value_in(self.other):
            sys.exit("the values differ")
        return statistics.median(ours), statistics.median(checks), statistics.median(theirs)

    def proper(self):
        """Milliseconds of the solve alone and of LEMON's, and None for the first where the library is missing."""
        words = [self.calls, "times", self.problem, str(RUNS)] if self.calls else [self.peer, "times", self.problem, "1"]
        runs = 1 if self.calls else RUNS        # a process that solves once, as the command does
        said = "".join(subprocess.run(words, capture_output=True, text=True, check=True).stdout for _ in range(runs))
        columns = list(zip(*(line.split() for line in said.splitlines())))
        lemon, *ours = (statistics.median(map(float, column)) / 1000 for column in columns[1:])
        return ours[0] if ours else None, lemon


def value_in(certificate):
    """The second line of a certificate."""
    with open(certificate) as lines:
        return lines.readlines()[1]


class Goals:
    """Shows figures with their goals, and notes those that are lost."""

    def __init__(self):
        self.lost = []

    def shown(self, kind, name, figure, goal):
        """A figure with its goal: held, lost, or not reached yet."""
        held = figure <= goal
        if not held and name not in NOT_YET[kind]:
            self.lost.append(f"{name} ({kind})")
        return f"{figure:9.4f} {'' if held else 'lost' if name not in NOT_YET[kind] else 'not yet':8}"


def time_shapes(measure, goals, names):
    """A line for each shape; gives LEMON's milliseconds on a year."""
    print(f"{'shape':14}{'solve ms':>9}{'LEMON ms':>9}{f'of LEMON, goal {PROPER}':>21}   {'whole ms':>9}{'peer ms':>9}{f'of the peer, goal {WHOLE}':>24}")
    year = None
    for name, make in SHAPES + FOUND:
        if names and name not in names:
            continue
        measure.write(*make())
        ours, lemon = measure.proper()
        whole, check, peer = measure.whole()
        ours = whole - check if ours is None else ours
        proper, both = goals.shown("proper", name, ours / lemon, PROPER), goals.shown("whole", name, whole / peer, WHOLE)
        print(f"{name:14}{ours:9.3f}{lemon:9.3f}   {proper}   {whole:9.3f}{peer:9.3f}      {both}", flush=True)
        if name == "year":
            year = lemon
    return year


def time_calls(goals, lemon):
    """A booking, a change of a rate and a quote for ten rooms on a year, each the mean of a hundred."""
    bench = TOP + "/crates/bp_bench/out/bp_bench"
    if not os.access(bench, os.X_OK):
        print("left out a booking, a change and a quote: bench/restarts.sh builds their program")
        return
    figures = {}
    for _ in range(RUNS):
        for line in subprocess.run([bench, "restarts", "100"], capture_output=True, text=True, check=True).stdout.splitlines():
            kind, nanoseconds, _ = line.split()
            figures.setdefault(kind, []).append(int(nanoseconds) / 100_000_000)
    for kind, goal in CALLS.items():
        taken = statistics.median(figures[kind])
        print(f"{kind:14}{taken * 1000:9.1f} microseconds{goals.shown('calls', kind, taken / lemon, goal)} of LEMON afresh, goal {goal:.4f}")


def time_plain(folder):
    """How long the hard shapes take without a start; gives whether each is hard."""
    paths, problem, hard = build_beside_lemon("paths"), folder / "problem", True
    for name, make in SHAPES:
        if name in HARD:
            problem.write_text(problem_text(*make()), "ascii")
            seconds = float(subprocess.run([paths, problem], capture_output=True, text=True, check=True).stdout.split()[3]) / 1000
            print(f"{name:14}{seconds:9.1f} seconds by successive shortest paths from nothing, {HARD[name]} at least")
            hard &= seconds >= HARD[name]
    return hard


def hunt(measure, seconds):
    """Looks for the problem that takes longest, by chance and by hill climbing; gives its milliseconds."""
    draw, best, end, tried = random.Random(), [], time.monotonic() + seconds, 0
    while time.monotonic() < end:
        words = hunter(draw, best[draw.randrange(len(best))][1] if best and draw.random() < 0.6 else None)
        measure.write(*hunted(**words))
        taken = processor_time([measure.ours, "solve", measure.problem], measure.certificate)
        tried += 1
        best = sorted([*best, (taken, words)], key=lambda one: -one[0])[:6]
        if best[0][1] is words:
            calls = ", ".join(f"{name}={value!r}" for name, value in words.items())
            print(f"{tried:6} {taken:8.2f} ms  hunted({calls})", flush=True)
    print(f"{tried} problems; the whole command takes {best[0][0]:.1f} ms at most, goal {WORST}")
    return best[0][0]


def main():
    words = sys.argv[1:]
    with tempfile.TemporaryDirectory() as place:
        if words[:1] == ["--plain"]:
            sys.exit(not time_plain(Path(place)))
        measure, goals = Measure(Path(place)), Goals()
        if words[:1] == ["--hunt"]:
            sys.exit(hunt(measure, float(words[1]) if words[1:] else 20) > WORST)
        measure.build()
        year = time_shapes(measure, goals, words)
        if year:
            time_calls(goals, year)
    sys.exit(f"lost: {', '.join(goals.lost)}" if goals.lost else 0)


if __name__ == "__main__":
    main()
