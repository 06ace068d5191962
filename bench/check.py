#!/usr/bin/env python3
"""Times `bidprice check` beside a C program that only reads the two files and adds up their bytes.

    bench/check.py

It wants gcc, glpsol (Debian's glpk-utils) for the certificates, and the program, which `./bidprice` builds at its
first call. Files are made in out/bench. Each command is timed whole, the best of 40 runs, in turn with the other.
It fails where `check` takes more than 1.5 times as long on 400 nights and 4,000 stays, or more memory than four times
the texts and 8 MiB.
"""
import os
import subprocess
import sys

from generate import generate, problem_text, words
from program import FOLDER, build, peak, program, timed

SIZES = [500, 1000, 2000, 4000]
RUNS = 40


def certificate_text(value, sell, prices):
    return "\n".join(["certificate 1", f"value {value}", words("sell", sell), words("prices", prices), "end", ""])


def solved(rooms, rows, name):
    """The optimum of glpsol: how many of each stay are sold, and the price of each night."""
    model = os.path.join(FOLDER, name + ".lp")
    answer = os.path.join(FOLDER, name + ".sol")
    with open(model, "w") as out:
        out.write("Maximize\n obj: " + " + ".join(f"{row[2]} y{j}" for j, row in enumerate(rows)) + "\nSubject To\n")
        for night, room in enumerate(rooms):
            here = [f"y{j}" for j, row in enumerate(rows) if row[0] <= night < row[1]]
            if here:
                out.write(f" n{night}: " + " + ".join(here) + f" <= {room}\n")
        out.write("Bounds\n" + "".join(f" 0 <= y{j} <= {row[3]}\n" for j, row in enumerate(rows)) + "End\n")
    subprocess.run(["glpsol", "--lp", model, "-w", answer], check=True, stdout=subprocess.DEVNULL)
    # rows and columns are numbered from 1, in the order in which the model names them first
    nights = [night for night in range(len(rooms)) if any(row[0] <= night < row[1] for row in rows)]
    sell, prices = [0] * len(rows), [0] * len(rooms)
    with open(answer) as lines:
        for line in lines:
            field = line.split()
            if field[0] == "i":
                prices[nights[int(field[1]) - 1]] = round(float(field[4]))
            elif field[0] == "j":
                sell[int(field[1]) - 1] = round(float(field[3]))
    return sell, prices


def main():
    os.makedirs(FOLDER, exist_ok=True)
    ours, adder, said = program(), build("bytes"), os.path.join(FOLDER, "said")
    print(f"{'stays':>6}{'bytes':>9}{'check':>10}{'bytes.c':>10}{'ratio':>8}{'peak KiB':>10}  said")
    for stays in SIZES:
        rooms, rows = generate(7, 400, 30, stays)
        problem, certificate = (os.path.join(FOLDER, f"{kind}-{stays}") for kind in ("problem", "certificate"))
        with open(problem, "w") as out:
            out.write(problem_text(rooms, rows))
        sell, prices = solved(rooms, rows, str(stays))
        with open(certificate, "w") as out:
            out.write(certificate_text(sum(row[2] * sold for row, sold in zip(rows, sell)), sell, prices))
        check, adding = [], []
        for _ in range(RUNS):
            adding.append(1000 * timed([adder, problem, certificate], said)[0])
            check.append(1000 * timed([ours, "check", problem, certificate], said)[0])
        most = peak([ours, "check", problem, certificate])
        size = os.path.getsize(problem) + os.path.getsize(certificate)
        ratio = min(check) / min(adding)
        with open(said) as answered:
            answer = answered.read().strip()
        print(f"{stays:>6}{size:>9}{min(check):>8.2f}ms{min(adding):>8.2f}ms{ratio:>8.2f}{most:>10}  {answer}")
    if ratio > 1.5:
        sys.exit("check takes more than 1.5 times as long")
    if most * 1024 > 4 * size + 8 * 1024 * 1024:
        sys.exit("check takes too much memory")


if __name__ == "__main__":
    main()
