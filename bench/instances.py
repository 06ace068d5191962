#!/usr/bin/env python3
"""Solves ten thousand random problems and lists of changes of them, and checks each certificate.

    bench/instances.py [COUNT [FIRST]]

It wants the program, which `./bidprice` builds at its first call; LEMON's network simplex (Debian's liblemon-dev, with g++)
is left out, and said to be, where it is missing. Problem after problem, of up to 60 nights and 400 stays, with rooms alike
and ragged, rates equal, tiny and huge, and forecasts from 0 to a million: `check` calls the certificate of `solve` optimal,
and LEMON finds the same value. Then `scenarios` answers three lists of changes by restarts: where a list fits, its value and
prices are those that `solve` finds from nothing for the changed problem, and that certificate is optimal too; where it does
not, the answer names the change that does not. Ends with status 1 at the first problem that fails, and leaves it in out/bench.
"""
import os
import random
import shutil
import subprocess
import sys
import tempfile
from multiprocessing import Pool
from pathlib import Path

from generate import problem_text
from program import FOLDER, build_beside_lemon, program

COUNT = 10_000


def drawn(draw):
    """A problem: its rooms by night, and its stays."""
    nights, stays = draw.randint(1, 60), draw.choice([draw.randint(0, 12), draw.randint(0, 400)])
    most = draw.choice([1, 5, 100, 9_000])
    rooms = [most] * nights if draw.random() < 0.5 else [draw.randint(0, most) for _ in range(nights)]
    longest, forecast = draw.choice([1, 3, 7, nights]), draw.choice([1, 3, 20, 1000, 1_000_000])
    kind = draw.choice(["night", "near", "equal", "tiny", "huge", "any"])
    rows = []
    for _ in range(stays):
        start = draw.randrange(nights)
        length = draw.randint(1, min(longest, nights - start))
        rate = {"night": lambda: 100 * length, "near": lambda: length * draw.randint(100, 110), "equal": lambda: 100, "tiny": lambda: draw.randint(1, 3),
                "huge": lambda: draw.randint(999_999_000, 1_000_000_000), "any": lambda: int(2 ** draw.uniform(0, 29))}[kind]()
        rows.append((start, start + length, rate, draw.randint(0, forecast)))
    return rooms, rows


def changes_of(draw, rooms, rows):
    """A list of changes; some do not fit."""
    changes = []
    for _ in range(draw.randint(0, 4)):
        kind = draw.choice(["rooms", "demand", "rate", "booking"])
        if kind == "rooms" or not rows:
            start = draw.randrange(len(rooms))
            changes.append(("rooms", start, draw.randint(start + 1, len(rooms)), draw.choice(["up", "down"]), draw.randint(1, 3)))
            continue
        stay = draw.randrange(len(rows))
        if kind == "booking":
            start, end, _, forecast = rows[stay]
            changes += [("rooms", start, end, "down", 1), ("demand", stay, max(0, forecast - 1))]
        else:
            changes.append((kind, stay, draw.choice([1, rows[stay][2] // 2 + 1, min(1_000_000_000, 2 * rows[stay][2]), 1_000_000]) if kind == "rate" else draw.randint(0, 20)))
    return changes


def changed(rooms, rows, changes):
    """The changed problem, and the number of the first change that does not fit, from 1; 0 where all fit."""
    rooms, rows = list(rooms), [list(row) for row in rows]
    for number, (kind, *numbers) in enumerate(changes, 1):
        if kind == "rooms":
            start, end, way, units = numbers
            if way == "down" and min(rooms[start:end]) < units or way == "up" and max(rooms[start:end]) + units > 1_000_000:
                return rooms, rows, number
            for night in range(start, end):
                rooms[night] += units if way == "up" else -units
        else:
            rows[numbers[0]][2 if kind == "rate" else 3] = numbers[1]
    return rooms, rows, 0


def scenarios_text(lists):
    lines = ["scenarios 1"]
    for changes in lists:
        lines += ["scenario", *(" ".join(map(str, change)) for change in changes)]
    return "\n".join([*lines, "end", ""])


def said(command, status=0):
    done = subprocess.run(command, capture_output=True, text=True)
    if done.returncode != status:
        raise ValueError(f"{' '.join(command)} ended with status {done.returncode}: {done.stdout}{done.stderr}")
    return done.stdout


def solved(folder, rooms, rows, lemon):
    """Value and prices of a problem, which `check` and LEMON have confirmed."""
    problem, certificate = str(folder / "problem"), str(folder / "certificate")
    Path(problem).write_text(problem_text(rooms, rows), "ascii")
    text = said([program(), "solve", problem])
    Path(certificate).write_text(text, "ascii")
    value, prices = text.splitlines()[1].split()[1], text.splitlines()[3]
    verdict = said([program(), "check", problem, certificate]).strip()
    if verdict != f"optimal {value}":
        raise ValueError(f"check says {verdict} of {value}")
    if lemon and said([lemon, problem]).split()[1] != value:
        raise ValueError(f"LEMON finds another value than {value}")
    return value, prices


def wanted(folder, number, rooms, rows, changes, lemon):
    """The line that `scenarios` has to write for a list of changes."""
    rooms, rows, unfit = changed(rooms, rows, changes)
    if unfit:
        return f"scenario {number} refused {unfit}"
    value, prices = solved(folder, rooms, rows, lemon)
    return f"scenario {number} value {value} {prices}"


def tried(job):
    """What fails of one problem; None where nothing does."""
    seed, lemon = job
    draw = random.Random(seed)
    rooms, rows = drawn(draw)
    lists = [changes_of(draw, rooms, rows) for _ in range(3)]
    with tempfile.TemporaryDirectory() as place:
        folder = Path(place)
        try:
            solved(folder, rooms, rows, lemon)
            (folder / "base").write_text(problem_text(rooms, rows), "ascii")
            (folder / "changes").write_text(scenarios_text(lists), "ascii")
            answers = said([program(), "scenarios", str(folder / "base"), str(folder / "changes")]).splitlines()
            for number, (changes, answer) in enumerate(zip(lists, answers, strict=True), 1):
                line = wanted(folder, number, rooms, rows, changes, lemon)
                if answer != line:
                    raise ValueError(f"scenarios answers {answer}, and not {line}")
        except ValueError as wrong:
            kept = Path(FOLDER) / f"instance-{seed}"
            shutil.copytree(folder, kept, dirs_exist_ok=True)
            return f"problem {seed}, in {kept}: {wrong}"
    return None


def main():
    count, first = (int(word) for word in (sys.argv[1:] + [COUNT, 1][len(sys.argv) - 1:]))
    os.makedirs(FOLDER, exist_ok=True)
    lemon = build_beside_lemon("lemon")
    if not lemon:
        print("left out LEMON: it wants Debian's g++ and liblemon-dev")
    with Pool() as pool:
        for wrong in pool.imap_unordered(tried, ((seed, lemon) for seed in range(first, first + count)), 20):
            if wrong:
                sys.exit(wrong)
    print(f"{count} problems, and three lists of changes of each: all certificates are optimal")


if __name__ == "__main__":
    main()
