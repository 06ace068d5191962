#!/usr/bin/env python3
"""Makes one HTML page of a hotel's files and its journal, to look at in a browser.

    page.py HOTEL STAYS FORECAST BOOKINGS JOURNAL OUT

It wants the built program (./bidprice builds it), and Python's standard library alone. The page opens from the file,
fetches nothing and needs no server. Its numbers are those of `bidprice report` on these files, of `bidprice sheet` on
the program that the report leaves, and of the journal; none is computed anew but the sum of a stay's prices and its
distance from the rate.
"""
import datetime
import json
import os
import subprocess
import sys
import tempfile
import tomllib

HERE = os.path.dirname(os.path.abspath(__file__))
sys.path.insert(0, os.path.join(HERE, "..", "reading"))

from house import House, Program

PROGRAM = os.path.join(HERE, "..", "..", "bidprice")


def said(*words):
    """What the program prints for a line, or the end where it refuses."""
    done = subprocess.run([PROGRAM, *words], capture_output=True, text=True)
    if done.returncode != 0:
        sys.exit(f"bidprice {words[0]} ended with status {done.returncode}: {done.stdout}{done.stderr}")
    return done.stdout


def report_of(text):
    """The nights and the stays of a report, and the value of the last vector."""
    lines = text.splitlines()
    middle = next(place for place, line in enumerate(lines) if line.startswith("stay "))
    nights = [line.split() for line in lines[1:middle]]
    stays = [line.split() for line in lines[middle + 1:-1]]
    return (
        [dict(date=row[1], rooms=int(row[2]), sold=int(row[3]), left=int(row[4]), price=int(row[5])) for row in nights],
        [dict(code=row[0], asked=int(row[1]), accepted=int(row[2]), forecast=int(row[6])) for row in stays],
        int(lines[-1].split()[1]),
    )


def hurdles_of(text):
    """Of each arrival its least length, or none, and its hurdles."""
    rows = [line.split() for line in text.splitlines() if line.startswith("arrival ")]
    return [
        dict(least=None if row[2] == "closed" else int(row[3]), hurdles=[int(word) for word in row[row.index("hurdles") + 1:]])
        for row in rows
    ]


def entries_of(path):
    """The entries of a journal: place, caller, act and reply as words; a Publish with its prices."""
    with open(path, encoding="ascii") as file:
        lines = [line.split() for line in file]
    found = []
    for line in lines:
        if line[0] == "prices":
            found[-1]["prices"] = [int(word) for word in line[1:]]
        elif line[0].isdigit():
            found.append(dict(place=int(line[0]), caller=int(line[1]), verb=line[2], words=line[3:]))
    return found


def data_of(files, journal):
    """All that the page shows."""
    house = House(*files)
    with open(files[0], "rb") as file:
        name = tomllib.load(file)["name"]
    nights, stays, value = report_of(said("report", *files, journal))
    entries = entries_of(journal)
    for entry in entries:
        house.make([str(entry["caller"]), entry["verb"], *entry["words"]])
    for stay, span, rate in zip(stays, house.spans, house.rates):
        stay.update(arrival=span[0], nights=span[1] - span[0], rate=rate)
    left = [house.unit * night["left"] for night in nights]
    rows = [(*span, stay["rate"], stay["forecast"]) for span, stay in zip(house.spans, stays)]
    with tempfile.TemporaryDirectory() as folder:
        problem = os.path.join(folder, "problem")
        with open(problem, "w", encoding="ascii") as file:
            file.write(Program(left, rows).to_problem())
        hurdles = hurdles_of(said("sheet", problem))
    return dict(name=name, unit=house.unit, nights=nights, stays=stays, value=value, entries=entries, hurdles=hurdles)


def main():
    if len(sys.argv) != 7:
        sys.exit(__doc__)
    data = data_of(sys.argv[1:5], sys.argv[5])
    weekday = datetime.date.fromisoformat(data["nights"][0]["date"]).weekday()
    with open(os.path.join(HERE, "page.html"), encoding="utf-8") as file:
        page = file.read()
    text = json.dumps({**data, "weekday": weekday}, separators=(",", ":")).replace("<", "\\u003c")
    with open(sys.argv[6], "w", encoding="utf-8") as file:
        file.write(page.replace("/*DATA*/null", text))


if __name__ == "__main__":
    main()
