#!/usr/bin/env python3
"""Times the readers of stays, forecast and bookings beside Python's csv module, on tables of 4,000 stays, and measures
what refused files take.

    bench/files.py

It wants the program and gcc, and rt where bp_bench has to be built, which takes some minutes, most of them for proofs.
The files are made in out/bench. Both sides read from memory and are timed from within, in turn, the best of many
readings: this repository's readers give the stays, their forecasts and the rooms sold, or the first refusal; Python's
csv.reader gives the records as lists of texts, and its csv.DictReader as fields by the names of their columns, and
neither looks at any of them. The script fails where the readers take longer than csv.reader or tell other numbers than
stand in the tables, where bp_bench needs more memory for one reading than eight times the files and 16 MiB, or where a
desk on the files of examples/lindenhof does not do the same with both of its stays files.

Then each table in turn is a refused one of 16 MiB: many short records, 1,000 columns that nobody asks for, or a record
more than may be taken. The script fails where the program's refusal is another one than it should be, or where it takes
more than 64 MiB with all its files.
"""
import csv
import io
import os
import subprocess
import sys
import time

from generate import generate
from lines import EXAMPLES, by_one_session, read, said, write
from program import FOLDER, bench_program, build, peak, program

ROUNDS, READINGS = 8, 50
NIGHTS, ROOMS, STAYS, UNIT = 400, 10000, 4000, 100
COMMANDS = 200000
WHOLE, MOST = 2**24, 2**26
NAMES = ["hotel.toml", "stays.csv", "forecast.csv", "bookings.csv", "script.csv"]
SCRIPT = "session,verb,item,nights,rooms,amount\n"
HOTEL = f'name = "Bench"\nfirst_night = "2025-01-01"\nnights = {NIGHTS}\nrooms = {ROOMS}\nunit = {UNIT}\n'


def date(night):
    """The date of a night."""
    return time.strftime("%Y-%m-%d", time.gmtime(1735689600 + 86400 * night))


def tables():
    """The texts of the three tables; and the forecasts and the rooms sold on all nights, added up."""
    _, rows = generate(7, NIGHTS, ROOMS, STAYS)
    stays, counts, sold, told = ["code,arrival,nights,rate"], ["code,count"], ["code,count"], 0
    for stay, (start, end, rate, forecast) in enumerate(rows):
        stays.append(f"STAY-{stay:04},{date(start)},{end - start},{rate}")
        counts.append(f"STAY-{stay:04},{UNIT * forecast}")
        sold.append(f"STAY-{stay:04},{forecast % 3}")
        told += UNIT * forecast + forecast % 3 * (end - start)
    return ["\n".join(lines + [""]) for lines in (stays, counts, sold)], told


def python_reads(reader, texts):
    """Microseconds in which a reader of Python's csv module reads these texts, at best."""
    best = None
    for _ in range(READINGS):
        begin = time.perf_counter_ns()
        for text in texts:
            list(reader(io.StringIO(text, newline="")))
        taken = time.perf_counter_ns() - begin
        best = taken if best is None else min(best, taken)
    return best / 1000


def readers_read(bench, files, told):
    """Microseconds in which the readers read these files, at best."""
    name, nanoseconds, count = said(bench, ["tables", str(READINGS), *files]).split()
    if name != b"tables" or int(count) != told:
        sys.exit("the readers tell other numbers than stand in the tables")
    return int(nanoseconds) / 1000


def try_example():
    """Opens the desk of examples/lindenhof with each of its stays files."""
    write(FOLDER, "script.csv", by_one_session(read("lindenhof", "script.csv").decode()).encode())
    script, journals = os.path.join(FOLDER, "script.csv"), []
    for stays in ("stays.csv", "stays-from-a-spreadsheet.csv"):
        files = [os.path.join(EXAMPLES, "lindenhof", name) for name in ("hotel.toml", stays, "forecast.csv", "bookings.csv")]
        journals.append(said(program(), ["desk", *files, script, "--workers", "0"], statuses=(0, 7)))
    if journals[0] != journals[1]:
        sys.exit("the stays files of examples/lindenhof do not say the same")


def main():
    os.makedirs(FOLDER, exist_ok=True)
    bench = bench_program("bp_bench")
    try_example()
    texts, told = tables()
    files = [os.path.join(FOLDER, name) for name in NAMES]
    for name, text in zip(NAMES, [HOTEL, *texts, SCRIPT]):
        write(FOLDER, name, text.encode())
    rounds = [
        (readers_read(bench, files[:4], told), python_reads(csv.reader, texts), python_reads(csv.DictReader, texts))
        for _ in range(ROUNDS)
    ]
    ours, theirs, by_name = map(min, zip(*rounds))
    most = peak([bench, "tables", "1", *files[:4]])
    size = sum(map(os.path.getsize, files))
    print(f"{STAYS} stays in {size} bytes: {ours:.0f} us, {ours / theirs:.2f} times csv.reader's {theirs:.0f} us")
    print(f"csv.DictReader {by_name:.0f} us; peak {most} KiB")
    if ours > theirs:
        sys.exit("the readers take longer than csv.reader")
    if most * 1024 > 8 * size + 16 * 1024 * 1024:
        sys.exit("the readers take too much memory")
    measure_refused(files, texts)


def padded(text, end):
    """A text with spaces before its end, so that the two fill a whole file."""
    return text + " " * (WHOLE - len(text) - len(end)) + end


def refused(texts):
    """Refused files: which of the five, its refusal, and its text, which fills a whole file."""
    for place, text in enumerate([*texts, SCRIPT], 1):
        header = text[: text.index("\n") + 1]
        width = header.count(",") + 1
        first = "session" if "session" in header else "code"
        short = "," * (width - 1) + "\n"
        yield place, f"{first} 2", header + short * ((WHOLE - len(header)) // len(short))
        yield place, f"column {first}", "\n".join(["x" * 15] * (WHOLE // 16))
        wide = "," * 1000
        record = "," * (width - 1) + wide + "\n"
        yield place, f"{first} 2", header[:-1] + wide + "\n" + record * (WHOLE // len(record) - 1)
        record = "1,book,STAY-0001,,,\n" if place == 4 else text[len(header) : text.index("\n", len(header)) + 1]
        taken = text if place < 4 else header + record * COMMANDS
        wrong = {1: f"limit {STAYS + 2}", 4: f"limit {COMMANDS + 2}"}.get(place, f"twicecode {STAYS + 2}")
        yield place, wrong, padded(taken, record.strip("\n").replace("STAY-0000", "STAY-9999" if place == 1 else "STAY-0000"))


def measure_refused(files, texts):
    """Has the program read each refused file in the place of the right one."""
    name, most = os.path.join(FOLDER, "refused.csv"), 0
    for place, wrong, text in refused(texts):
        write(FOLDER, "refused.csv", text.encode())
        words = [*files]
        words[place] = name
        ran = subprocess.run([build("peak"), program(), "desk", *words, "--workers", "0"], capture_output=True, text=True)
        if ran.returncode != 3 or ran.stdout != f"refused {place + 1} {wrong}\n":
            sys.exit(f"a file that is to be refused as {wrong} is read with status {ran.returncode}: {ran.stdout[:200]}")
        most = max(most, int(ran.stderr))
    print(f"refused files of {WHOLE} bytes: peak {most} KiB")
    if most * 1024 > MOST:
        sys.exit("a refused file takes too much memory")


if __name__ == "__main__":
    main()
