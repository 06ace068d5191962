#!/usr/bin/env python3
"""Gives the program stays files as real exports write them, and looks for the refusals that docs/exports.md names.

Wants the kit's `rt` where the program is not built yet, and Python's standard library alone.
"""
import shutil
import subprocess
import tempfile
from pathlib import Path

from tally import TOP, Tally, built_program

HOTEL = TOP / "examples" / "lindenhof"
FILES = ["hotel.toml", "stays.csv", "forecast.csv", "bookings.csv", "script.csv"]
STAYS = (HOTEL / "stays.csv").read_text("utf-8")
ROW = "JUL01-1,2025-07-01,1,8900,"


def changed(row):
    """The stays with another first row."""
    assert STAYS.count(ROW) == 1
    return STAYS.replace(ROW, row).encode()


LAST = STAYS.count("\n") + 1

CASES = [
    ("semicolons", STAYS.replace(",", ";").encode(), "column code"),
    ("tabs", STAYS.replace(",", "\t").encode(), "column code"),
    ("a title", b"Rates for July,,,,\n" + STAYS.encode(), "column code"),
    ("another letter case", STAYS.replace("code,", "Code,", 1).encode(), "column code"),
    ("UTF-16", STAYS.encode("utf-16"), "notcsv 1"),
    ("another encoding in a remark", changed("JUL01-1,2025-07-01,1,8900,caf\xe9").replace(b"\xc3\xa9", b"\xe9"), "notcsv 2"),
    ("a date with dots", changed("JUL01-1,01.07.2025,1,8900,"), "date 2"),
    ("a date with slashes", changed("JUL01-1,07/01/2025,1,8900,"), "date 2"),
    ("a short date", changed("JUL01-1,2025-7-1,1,8900,"), "date 2"),
    ("a decimal comma", changed("JUL01-1,2025-07-01,1,89,00,"), "notcsv 2"),
    ("a decimal comma in quotes", changed('JUL01-1,2025-07-01,1,"89,00",'), "number 2"),
    ("a decimal point", changed("JUL01-1,2025-07-01,1,89.00,"), "number 2"),
    ("a comma between thousands", changed('JUL01-1,2025-07-01,1,"1,178",'), "number 2"),
    ("an apostrophe between thousands", changed("JUL01-1,2025-07-01,1,1'178,"), "number 2"),
    ("a currency", changed("JUL01-1,2025-07-01,1,\u20ac 89,"), "number 2"),
    ("an emptied row", (STAYS + ",,,,\n").encode(), f"code {LAST}"),
    ("a total", (STAYS + "Total,,,123456,\n").encode(), f"date {LAST}"),
    ("a code with a slash", changed("JUL01/1,2025-07-01,1,8900,"), "code 2"),
    ("a code with a blank", changed("JUL01 1,2025-07-01,1,8900,"), "code 2"),
    ("a code of seventeen characters", changed("JULY-FIRST-1NIGHT,2025-07-01,1,8900,"), "code 2"),
    ("one code on two rows", (STAYS + ROW + "\n").encode(), f"twicecode {LAST}"),
]


def main():
    program = built_program()
    tally = Tally()
    with tempfile.TemporaryDirectory() as folder:
        for name in FILES:
            shutil.copy(HOTEL / name, folder)
        for name, stays, cause in CASES:
            Path(folder, "stays.csv").write_bytes(stays)
            desk = subprocess.run([program, "desk", *FILES], cwd=folder, capture_output=True, text=True)
            tally.expect(name, (desk.returncode, desk.stdout), (3, f"refused 2 {cause}\n"))
    tally.end()


if __name__ == "__main__":
    main()
