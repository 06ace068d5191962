#!/usr/bin/env python3
"""Times the calls for C and Python on generated problems, beside the command and the distribution's solvers.

    bench/embed.py

It wants the kit's `rt` and gcc, and numpy for the calls with its arrays (run it by /usr/bin/python3 where that has it).
The yardsticks are scipy's linprog (HiGHS) and networkx's network simplex; one that is not installed is left out, and
said to be. All values must be equal whole numbers. valgrind counts the instructions of a call and of the cold solve in
it, where it is installed. It fails where a call takes more than 1.05 times as many as the solve, where the fastest call
from Python takes more than 1.1 times the fastest from C on a year, where a thousand cold solves of 30 nights and 200
stays are fewer than 20 times as many a second by the call as by the command, or where a thousand what-ifs of a year by
the call of scenarios are fewer than 20 times as many a second as cold solves.
"""
import os
import re
import shutil
import subprocess
import sys
import tempfile
import time
from array import array
from pathlib import Path

from generate import generate, problem_text
from program import program

TOP = Path(__file__).resolve().parent.parent
sys.path.append(str(TOP / "python"))

YEAR = (7, 365, 120, 3000)
MONTH = (7, 30, 40, 200)
SOLVES = 1000
BATCH = 100


def best(call, runs):
    """The least milliseconds of some calls, and what the last one gave."""
    least = None
    for _ in range(runs):
        begin = time.perf_counter()
        given = call()
        taken = (time.perf_counter() - begin) * 1000
        least = taken if least is None else min(least, taken)
    return least, given


def columns_of(bidprice, rooms, rows):
    """The columns of a problem as arrays: those of numpy where it is there, and else Python's own."""
    np = bidprice.numpy
    if np is None:
        return [array("Q", rooms), *(array(code, column) for code, column in zip("IIQQ", zip(*rows)))]
    table = np.array(rows, dtype=np.uint64)
    nights = [table[:, k].astype(np.uint32) for k in (0, 1)]
    return [np.array(rooms, np.uint64), *nights, table[:, 2].copy(), table[:, 3].copy()]


def by_linprog(rooms, rows):
    """The optimum by scipy's linprog, as a call; None where scipy is missing."""
    try:
        import numpy as np
        from scipy.optimize import linprog
        from scipy.sparse import csc_matrix
    except ImportError:
        return None
    nights = [(night, stay) for stay, row in enumerate(rows) for night in range(row[0], row[1])]
    matrix = csc_matrix((np.ones(len(nights)), zip(*nights)), shape=(len(rooms), len(rows)))
    worth, most = [-row[2] for row in rows], [(0, row[3]) for row in rows]
    return lambda: round(-linprog(worth, A_ub=matrix, b_ub=rooms, bounds=most, method="highs").fun)


def by_networkx(rooms, rows):
    """The optimum by networkx's network simplex, as a call; None where networkx is missing.

    A unit of flow is a room that goes from night to night: along the nights' own arcs where it is free, and along a
    stay's where it is sold. The supplies are the differences of the nights' rooms.
    """
    try:
        import networkx
    except ImportError:
        return None
    graph = networkx.MultiDiGraph()
    edges = [0, *rooms, 0]
    for night in range(len(rooms) + 1):
        graph.add_node(night, demand=edges[night] - edges[night + 1])
    for night, room in enumerate(rooms):
        graph.add_edge(night, night + 1, weight=0)
    for start, end, rate, forecast in rows:
        graph.add_edge(start, end, weight=-rate, capacity=forecast)
    return lambda: -networkx.network_simplex(graph)[0]


def time_year(bidprice, calls, folder):
    """The calls and the yardsticks on a year; gives the times from C and from Python, and what `counted` gives."""
    rooms, rows = generate(*YEAR)
    path = folder / "year"
    path.write_text(problem_text(rooms, rows), "ascii")
    columns = columns_of(bidprice, rooms, rows)
    c = float(subprocess.run([calls, "time", path], capture_output=True, text=True, check=True).stdout)
    python, certificate = best(lambda: bidprice.solve_columns(*columns), 9)
    text, _ = best(lambda: bidprice.solve_text(path.read_bytes()), 5)
    process, _ = best(lambda: subprocess.run([program(), "solve", path], capture_output=True, check=True), 5)
    print(f"365 nights, 3,000 stays: from C {c:.2f} ms, from Python {python:.2f}, by texts {text:.2f}, "
          f"by the command {process:.2f}")
    yardsticks = [("linprog (HiGHS)", by_linprog(rooms, rows), 3)]
    yardsticks.append(("network simplex of networkx", by_networkx(rooms, rows), 1))
    for name, call, runs in yardsticks:
        if call is None:
            print(f"skipped {name}: it is not installed")
            continue
        taken, value = best(call, runs)
        print(f"{name}: {taken:.1f} ms, {taken / python:.1f} times the call from Python")
        if value != certificate.value:
            sys.exit(f"{name} says {value}, and the call {certificate.value}")
    return c, python, counted(calls, path, folder)


def counted(calls, path, folder):
    """How many times as many instructions a call takes as the cold solve in it; None where valgrind is missing."""
    if not shutil.which("valgrind"):
        print("skipped the count of instructions: valgrind is not installed")
        return None
    told = folder / "counts"
    words = ["valgrind", "-q", "--tool=callgrind", f"--callgrind-out-file={told}", calls, "numbers", path]
    subprocess.run(words, check=True, stdout=subprocess.DEVNULL)
    annotate = ["callgrind_annotate", "--inclusive=yes", told]
    lines = subprocess.run(annotate, check=True, capture_output=True, text=True).stdout

    def instructions(name):
        found = re.search(rf"^ *([0-9,]+) .*{name}", lines, re.M)
        return int(found[1].replace(",", "")) if found else sys.exit(f"callgrind saw no {name}")

    # The compiler may put the solve into the function that asks for it.
    whole, solve = instructions("bidprice_solve_numbers"), instructions("(?:Solver::cold|least::solved)")
    print(f"of {whole:,} instructions of a call the cold solve takes {solve:,}")
    return whole / solve


def time_months(bidprice, folder):
    """A thousand cold solves by the call, and by the command, each by its fastest batch; gives how many times as many
    a second."""
    rooms, rows = generate(*MONTH)
    path = folder / "month"
    path.write_text(problem_text(rooms, rows), "ascii")
    columns = columns_of(bidprice, rooms, rows)

    def call():
        for draw in range(BATCH):
            columns[4][draw % len(rows)] = draw * 7 % 20
            bidprice.solve_columns(*columns)

    def command():
        for _ in range(BATCH):
            subprocess.run([program(), "solve", path], capture_output=True, check=True)

    batches = SOLVES // BATCH
    (calls, _), (commands, _) = best(call, batches), best(command, batches)
    print(f"30 nights, 200 stays, {SOLVES} cold solves in batches of {BATCH}: calls {calls / BATCH:.3f} ms each, "
          f"commands {commands / BATCH:.3f}, {commands / calls:.1f} times as many a second")
    return commands / calls


def time_what_ifs(bidprice, solve):
    """A thousand what-ifs of one change each on a year, beside a cold solve; gives how many times as many a second."""
    rooms, rows = generate(*YEAR)
    lists = [[("demand", draw * 7 % len(rows), draw % 20)] for draw in range(SOLVES)]
    problem, changes = bidprice.problem_text(rooms, rows), bidprice.scenarios_text(lists)
    taken, _ = best(lambda: bidprice.scenarios(problem, changes), 3)
    print(f"{SOLVES} what-ifs of the year: {taken:.1f} ms, {solve * SOLVES / taken:.1f} times as many a second as cold "
          "solves")
    return solve * SOLVES / taken


def main():
    with tempfile.TemporaryDirectory() as place:
        folder = Path(place)
        subprocess.run([TOP / "checks" / "library.sh", folder], check=True)
        os.environ["BIDPRICE_LIBRARY"] = str(folder / "libbidprice.so")
        import bidprice

        calls = folder / "calls"
        words = ["gcc", "-O2", f"-I{TOP / 'include'}", "-Wl,--wrap=malloc", "-Wl,--wrap=realloc", "-Wl,--wrap=free"]
        subprocess.run([*words, TOP / "checks" / "embed_calls.c", folder / "libbidprice.a", "-o", calls], check=True)
        c, python, count = time_year(bidprice, calls, folder)
        times = time_months(bidprice, folder)
        what_ifs = time_what_ifs(bidprice, c)
    if count and count > 1.05:
        sys.exit(f"a call takes {count:.3f} times the instructions of its solve")
    if python > 1.1 * c:
        sys.exit(f"the call from Python takes {python / c:.2f} times the call from C")
    if times < 20:
        sys.exit("fewer than 20 times as many solves a second")
    if what_ifs < 20:
        sys.exit("fewer than 20 times as many what-ifs a second")


if __name__ == "__main__":
    main()
