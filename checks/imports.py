#!/usr/bin/env python3
"""Turns six exports, each written in another way, into a hotel's files, and opens a desk on each.

Wants the kit's `rt` where the program is not built yet, and Python's standard library alone. What has to stand in the
files was worked out by hand from the exports of examples/import.
"""
import subprocess
import sys
import tempfile
from pathlib import Path

from tally import TOP, Tally, built_program

IMPORT = TOP / "examples" / "import"
FILES = ["hotel.toml", "stays.csv", "forecast.csv", "bookings.csv"]

# Of each export: the rows of stays, forecast and bookings, and the first words of what is said of its lines.
EXPORTS = [
    ("semicolons.csv", ["Fr-hling-1,2026-07-01,1,8900", "WE-2,2026-07-03,2,117850"], ["Fr-hling-1,4", "WE-2,7"],
     ["Fr-hling-1,1", "WE-2,2"], ["line 1: left out", "line 2: left out", "line 4: the code", "line 6: left out", "2 stays"]),
    ("tabs.txt", ["A1,2026-07-01,1,8900", "A2,2026-07-03,2,17850"], ["A1,4", "A2,7"], [], ["2 stays"]),
    ("dollars.csv", ["WKND-2,2026-07-03,2,117850", "MID-1,2026-07-01,1,8900"], [], ["WKND-2,2"],
     ["line 2: the code", "line 3: the code", "line 4: left out", "2 stays"]),
    ("emptied.csv", ["S1,2026-07-01,1,8900", "S2,2026-07-03,2,17800"], ["S1,4", "S2,7"], [],
     ["line 3: left out", "line 5: left out", "line 6: left out", "2 stays"]),
    ("yen.csv", ["TATAMI-1,2026-07-01,1,12000", "TATAMI-3,2026-07-02,3,33000"], [], ["TATAMI-1,1"], ["2 stays"]),
    ("euros.csv", ["S-1,2026-07-01,1,8900", "S-2,2026-07-03,2,117850"], ["S-1,4", "S-2,7"], ["S-1,1"],
     ["line 1: left out", "line 2: left out", "line 4: the code", "line 5: the code", "2 stays"]),
]

# Of the first export with one thing changed, in the export or in its settings: what is said in place of files.
REFUSED = [
    ("export", "89,00", "89.00", "refused: line 4: '89.00' is no amount"),
    ("export", "1.178,50", "1178.50", "refused: line 5: '1178.50' is no amount"),
    ("export", "01.07.2026", "31.06.2026", "refused: line 4: '31.06.2026' is no date"),
    ("export", "01.07.2026", "1.7.2026", "refused: line 4: '1.7.2026' is no date"),
    ("export", "WE-2", "Frühling/1", "refused: line 5: the code Fr-hling-1"),
    ("export", "WE-2", "Wochenende-im-Juli", "refused: line 5: the code 'Wochenende-im-Juli'"),
    ("export", ";7;2", ";7", "refused: line 5: 5 fields"),
    ("export", ";7;2", ";7,5;2", "refused: line 5: '7,5' is no whole number"),
    ("export", ";2;1.178", ";0;1.178", "refused: line 5: a stay of 0 nights"),
    ("export", "Gebucht", "Preis", "refused: no line has all the columns"),
    ("settings", 'totals = ["Summe"]', "", "refused: line 6: '' is no date"),
    ("settings", 'encoding = "cp1252"', "", "refused: the export is not utf-8"),
    ("settings", 'separator = ";"', "", "refused: no line has all the columns"),
    ("settings", 'thousands = "."', 'thousands = ","', "refused: decimal and thousands"),
    ("settings", "DD.MM.YYYY", "DD.MM.YY", "refused: dates ="),
    ("settings", 'nights = "Tage"', "", "refused: the settings have to name"),
]


def turn(settings, export, folder):
    line = [sys.executable, IMPORT / "import.py", settings, export, folder]
    done = subprocess.run(line, capture_output=True, text=True, encoding="utf-8")
    return done.returncode, done.stdout.splitlines()


def table(header, rows):
    return "\n".join([header, *rows]) + "\n"


def try_export(tally, program, name, stays, forecast, bookings, said, folder):
    export = IMPORT / "exports" / name
    status, lines = turn(export.with_suffix(".toml"), export, folder)
    tally.expect(f"{name} is turned", status, 0)
    tally.holds(f"{name} says what it changed", len(lines) == len(said) and all(map(str.startswith, lines, said)), repr(lines))
    wanted = [table("code,arrival,nights,rate", stays), table("code,count", forecast), table("code,count", bookings)]
    found = [Path(folder, file).read_text() if Path(folder, file).exists() else None for file in FILES[1:]]
    tally.expect(f"{name} gives its tables", found, wanted)
    Path(folder, "script.csv").write_text("session,verb,item,nights,rooms,amount\n")
    desk = subprocess.run([program, "desk", *FILES, "script.csv", "--workers", "0"], cwd=folder, capture_output=True)
    tally.expect(f"a desk opens on {name}", (desk.returncode, desk.stdout[:10]), (0, b"journal 2\n"))


def try_refusal(tally, place, old, new, said, folder):
    first = IMPORT / "exports" / "semicolons.csv"
    texts = {"export": first.read_text("cp1252"), "settings": first.with_suffix(".toml").read_text("utf-8")}
    texts[place] = texts[place].replace(old, new, 1)
    settings, export = Path(folder, "settings.toml"), Path(folder, "export.csv")
    settings.write_text(texts["settings"], "utf-8")
    export.write_text(texts["export"], "cp1252")
    status, lines = turn(settings, export, Path(folder, "none"))
    last = lines[-1] if lines else ""
    tally.holds(f"refused: {new or old}", status == 1 and last.startswith(said) and not Path(folder, "none").exists(), f"{status} {last!r}")


def main():
    program = built_program()
    tally = Tally()
    for export in EXPORTS:
        with tempfile.TemporaryDirectory() as folder:
            try_export(tally, program, *export, folder)
    for refusal in REFUSED:
        with tempfile.TemporaryDirectory() as folder:
            try_refusal(tally, *refusal, folder)
    tally.end()


if __name__ == "__main__":
    main()
