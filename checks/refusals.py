#!/usr/bin/env python3
"""Tries each refusal that docs/files.md shows, on the files of that page, with the line that it shows for it.

Wants the kit's `rt` where the program is not built yet, and Python's standard library alone.
"""
import re
import subprocess
import tempfile
from pathlib import Path

from tally import TOP, Tally, built_program

PAGE = (TOP / "docs" / "files.md").read_text("utf-8")
BLOCKS = re.findall(r"^```[a-z]*\n(.*?)^```$", PAGE, re.M | re.S)
HOTEL, STAYS, COUNTS, SCRIPT = BLOCKS[:4]
FILES = {"hotel": HOTEL, "stays": STAYS, "forecast": COUNTS, "bookings": "code,count\n", "script": SCRIPT}
DESK = ["desk", *FILES, "--workers", "0"]
CLOSED = HOTEL[HOTEL.index("[[night]]") :]

# Of each row of the hotel file's table: what it says in full, and the file that it speaks of.
HOTELS = [
    ("`name = Hotel Lindenhof`, without quotes", HOTEL.replace('"Hotel Lindenhof"', "Hotel Lindenhof")),
    ("`nights` is not there", HOTEL.replace("nights = 31\n", "")),
    ("`first_night = 2025-07-01`, without quotes", HOTEL.replace('"2025-07-01"', "2025-07-01", 1)),
    ('`first_night = "2025-7-1"`', HOTEL.replace("2025-07-01", "2025-7-1", 1)),
    ('`first_night = "9999-12-29"` with `nights = 3`', HOTEL.replace("2025-07-01", "9999-12-29", 1).replace("nights = 31", "nights = 3")),
    ("a first table of `night` without `rooms`", HOTEL.replace("rooms = 0\n", "")),
    ('a second table with `date = "2025-08-01"`, in the hotel above', HOTEL + CLOSED.replace("2025-07-16", "2025-08-01")),
    ("two tables of 2025-07-03, the first and the third",
     HOTEL.replace("2025-07-16", "2025-07-03") + CLOSED.replace("2025-07-16", "2025-07-04") + CLOSED.replace("2025-07-16", "2025-07-03")),
]


def rows(title):
    """The rows of the tables below a title of the page that comes once, or its last."""
    body = PAGE[PAGE.rindex(title) :]
    end = body.find("\n## ", 1)
    return [line.strip("| ").split(" | ") for line in body[: end if end > 0 else None].splitlines() if line.startswith("| ")]


def said(program, folder, **changed):
    for name, text in {**FILES, **changed}.items():
        Path(folder, name).write_text(text, "utf-8")
    done = subprocess.run([program, *DESK], cwd=folder, capture_output=True, text=True)
    return done.returncode, done.stdout


def try_hotels(tally, program, folder):
    shown = dict(row for row in rows("### What is refused, in order\n\n1. Bytes") if len(row) == 2)
    for name, text in HOTELS:
        wanted = shown.get(name, "`no such row`").strip("`")
        tally.expect(name, said(program, folder, hotel=text), (3, f"refused 1 {wanted}\n"))


def try_records(tally, program, folder, title, file, number):
    """Each row of a table of refusals: its lines behind the records of the page's file, one by one."""
    for test, causes, lines in (row for row in rows(title) if len(row) == 3):
        name, at = (file, number) if not test.startswith("forecast and bookings") else ("forecast", 3)
        for cause, record in zip(re.findall(r"`(\w+)`", causes), re.findall(r"`([^`]+)`", lines)):
            text = FILES[name] + (STAYS.splitlines()[1] if record == "JUL01-1" else record) + "\n"
            wanted = f"refused {at} {cause} {text.count(chr(10))}\n"
            tally.expect(f"{file}: {record}", said(program, folder, **{name: text}), (3, wanted))


def main():
    program = built_program()
    tally = Tally()
    with tempfile.TemporaryDirectory() as folder:
        tally.expect("the files of the page", said(program, folder)[0], 0)
        try_hotels(tally, program, folder)
        try_records(tally, program, folder, "First the header:", "stays", 2)
        try_records(tally, program, folder, "The header is looked at as above.", "script", 5)
        for name, text, wanted in (
            ("stays", STAYS.replace("rate", "price", 1), "refused 2 column rate"),
            ("stays", "", "refused 2 column code"),
            ("bookings", "code,count\nJUL01-1,25\n", "refused 4 overbooked 0"),
            ("script", SCRIPT + "1,resize,2025-08-01,,x,\n", "refused 5 number 7"),
        ):
            tally.expect(f"{name}: {wanted}", said(program, folder, **{name: text}), (3, wanted + "\n"))
    tally.end()


if __name__ == "__main__":
    main()
