#!/usr/bin/env python3
"""Times `bidprice solve` beside glpsol, clp and LEMON's network simplex on generated problems.

    bench/solve.py

It wants the program, which `./bidprice` builds at its first call. The yardsticks are Debian's packages
glpk-utils, coinor-clp and liblemon-dev (with g++); one that is not installed is left out, and said to be. Each
command runs on a file and is timed whole, the best of three runs, and all values must be equal whole numbers:
glpsol writes fifteen digits of its objective, and clp's is added up from the rates and its own allocation, since
it prints eight digits. The time of the solve alone is what a yardstick
says of itself; for bidprice it is the time of `solve` less that of `check`, which reads the same problem.
Searches have no counter when the program runs: valgrind counts the calls, where it is installed.
"""
import os
import re
import shutil
import subprocess
import sys
import tempfile
import time

from generate import generate, problem_text
from program import build_beside_lemon, program

SIZES = [(7, 120, 50, 800), (7, 365, 120, 3000), (7, 400, 120, 4000)]


def mps_line(kind, *fields):
    """One line of fixed MPS: a kind, and names and numbers in their columns."""
    line = f" {kind:<2} "
    for field, width in zip(fields, (10, 10, 15, 10, 12)):
        line += f"{field:<{width}}"
    return line.rstrip()


def mps_text(rooms, rows):
    """The linear program as a minimum, in fixed MPS."""
    lines = ["NAME          HOTEL", "ROWS", mps_line("N", "COST")]
    lines += [mps_line("L", f"N{night}") for night in range(len(rooms))]
    lines.append("COLUMNS")
    for stay, (start, end, rate, _) in enumerate(rows):
        lines.append(mps_line("", f"Y{stay}", "COST", -rate))
        lines += [mps_line("", f"Y{stay}", f"N{night}", 1) for night in range(start, end)]
    lines.append("RHS")
    lines += [mps_line("", "RHS", f"N{night}", room) for night, room in enumerate(rooms)]
    lines.append("BOUNDS")
    lines += [mps_line("UP", "BND", f"Y{stay}", row[3]) for stay, row in enumerate(rows)]
    return "\n".join(lines + ["ENDATA", ""])


def best_of_three(command):
    """The least time of three runs in milliseconds, and what the last one wrote."""
    best = None
    for _ in range(3):
        begin = time.perf_counter()
        done = subprocess.run(command, capture_output=True, text=True, check=True)
        taken = (time.perf_counter() - begin) * 1000
        best = taken if best is None else min(best, taken)
    return best, done.stdout


def first_number(pattern):
    """Reads the value that a command prints."""
    return lambda text, rows, folder: int(re.search(pattern, text).group(1))


def glpsol_value(text, rows, folder):
    """The objective of the solution that glpsol wrote, to fifteen digits."""
    with open(os.path.join(folder, "glpsol.sol")) as lines:
        line = next(line for line in lines if line.startswith("s bas "))
    return abs(round(float(line.split()[-1])))


def clp_value(text, rows, folder):
    """The worth of the allocation that clp wrote: each line of it has a stay's name and how many are sold."""
    with open(os.path.join(folder, "clp.sol")) as lines:
        sold = [line.split()[1:3] for line in lines if line.split()[1][:1] == "Y"]
    return sum(rows[int(name[1:])][2] * round(float(count)) for name, count in sold)


def number_in(pattern, text):
    found = re.search(pattern, text)
    return float(found.group(1)) if found else None


def searches_in(counts):
    """How often the calls of a file of callgrind close nodes, which they do once a search."""
    names, called, searches = {}, "", 0
    for line in open(counts):
        if line.startswith(("fn=", "cfn=")):
            number, _, name = line.strip().split("=", 1)[1].partition(" ")
            names.setdefault(number, name)
            called = names[number] if line.startswith("cfn=") else ""
        elif line.startswith("calls=") and ("close_until" in called or "close_to" in called):
            searches += int(line.split("=")[1].split()[0])
    return searches


def searches_of(command, folder):
    """The searches of a run, where valgrind is installed."""
    if not shutil.which("valgrind"):
        return None
    counts = os.path.join(folder, "callgrind.out")
    valgrind = ["valgrind", "--tool=callgrind", f"--callgrind-out-file={counts}"]
    subprocess.run(valgrind + command, capture_output=True, check=True)
    return searches_in(counts)


def own_figures(program, problem, text, taken, folder):
    """The milliseconds of the solve alone, and the searches, of a run that wrote this certificate."""
    certificate = os.path.join(folder, "certificate")
    with open(certificate, "w") as out:
        out.write(text)
    read, _ = best_of_three([program, "check", problem, certificate])
    return taken - read, searches_of([program, "solve", problem], folder)


def yardsticks(folder):
    """Name, words, value and milliseconds of the solve, of each that is installed."""
    found, missing = [], []
    glpsol, clp = (os.path.join(folder, name + ".sol") for name in ("glpsol", "clp"))
    if shutil.which("glpsol"):
        found.append(("glpsol", lambda p, m: ["glpsol", "--mps", m, "-w", glpsol], glpsol_value, None))
    else:
        missing.append("glpk-utils")
    if shutil.which("clp"):
        found.append(("clp", lambda p, m: ["clp", m, "-solve", "-solution", clp], clp_value, None))
    else:
        missing.append("coinor-clp")
    lemon = build_beside_lemon("lemon")
    if lemon:
        found.append(("lemon", lambda p, m: [lemon, p], first_number(r"value (\d+)"), r"solve_ms (\S+)"))
    else:
        missing.append("liblemon-dev with g++")
    if missing:
        print(f"not installed, and left out: {', '.join(missing)}")
    return found


def shown(number, form):
    return "-" if number is None else format(number, form)


def run_all(commands, ours, size, folder):
    """A line for each command on a problem of a size. Gives the values that were found."""
    rooms, rows = generate(*size)
    problem, mps = os.path.join(folder, "problem"), os.path.join(folder, "problem.mps")
    with open(problem, "w") as out:
        out.write(problem_text(rooms, rows))
    with open(mps, "w") as out:
        out.write(mps_text(rooms, rows))
    values = []
    for name, command, value_of, alone in commands:
        taken, text = best_of_three(command(problem, mps))
        values.append(value_of(text, rows, folder))
        solve, searches = number_in(alone, text) if alone else None, None
        if name == "bidprice":
            solve, searches = own_figures(ours, problem, text, taken, folder)
        print(f"{' '.join(map(str, size)):<18}{name:<10}{taken:>10.1f}{shown(solve, '.1f'):>10}{shown(searches, 'd'):>10}{values[-1]:>14}")
    return values


def main():
    ours = program()
    with tempfile.TemporaryDirectory() as folder:
        commands = [("bidprice", lambda p, m: [ours, "solve", p], first_number(r"value (\d+)"), None), *yardsticks(folder)]
        print(f"{'problem':<18}{'command':<10}{'whole ms':>10}{'solve ms':>10}{'searches':>10}{'value':>14}")
        equal = [len(set(run_all(commands, ours, size, folder))) == 1 for size in SIZES]
    sys.exit(0 if all(equal) else "the values differ")


if __name__ == "__main__":
    main()
