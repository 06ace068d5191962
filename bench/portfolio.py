#!/usr/bin/env python3
"""Times eight hotels in one call of `portfolio` beside eight calls of `desk`, one after another.

    bench/portfolio.py [COMMANDS]

It wants gcc, the program and Python's standard library. The hotels are years of 365 nights and 3,000 stays, each with one
session of COMMANDS commands (10,000) and no worker, so that each has one journal alone: the text of `portfolio` has to
be these eight, each behind its line. The two ways take turns, and of each the median of five counts. On four processors
it fails where `portfolio` makes less than three times as many commands a second; on fewer it only tells.

The most memory that `portfolio` may have is the sum of the books and 64 MiB. What a book takes is told by a run of its
desk alone: what that has at most, less what the program has that prints the usage text. It is the most that a book can
be, since the house, the solver and the script of that run are in it too.
"""
import os
import statistics
import subprocess
import sys

from houses import House
from lines import list_of
from program import FOLDER, build, peak, program, spent

HOTELS = 8
RUNS = 5
LEAST_RATIO = 3.0
BESIDE_THE_BOOKS = 64 * 1024  # KiB


def make(folder, commands):
    """The files of each hotel, and the path of the list."""
    hotels = []
    for hotel in range(HOTELS):
        house = House(100 + hotel, nights=365, rooms=120, stays=3000, stale_after=100, groups=0.0)
        here = os.path.join(folder, f"hotel-{hotel + 1}")
        files = house.write(here)
        files.append(os.path.join(here, "script.csv"))
        with open(files[-1], "w") as out:
            out.write(house.script(1, commands))
        hotels.append(files)
    names = os.path.join(folder, "list")
    with open(names, "w") as out:
        out.write(list_of(hotels))
    return hotels, names


def one_after_another(hotels, folder):
    """Seconds and processor seconds of the eight desks, and the text that `portfolio` has to write for them."""
    taken, used, text = 0.0, 0.0, b""
    for hotel, files in enumerate(hotels):
        said = os.path.join(folder, f"journal-{hotel + 1}")
        seconds, processor, status = spent([program(), "desk", *files, "--workers", "0"], said, statuses=(0, 7))
        taken, used = taken + seconds, used + processor
        with open(said, "rb") as journal:
            text += b"hotel %d %d\n" % (hotel + 1, status) + journal.read()
    return taken, used, text


def peak_at_usage():
    """The most memory, in KiB, of the program that does nothing but print its usage."""
    done = subprocess.run([build("peak"), program(), "help"], stdout=subprocess.DEVNULL, stderr=subprocess.PIPE)
    return int(done.stderr)


def main():
    commands = int(sys.argv[1]) if len(sys.argv) > 1 else 10_000
    folder = os.path.join(FOLDER, "portfolio")
    hotels, names = make(folder, commands)
    line = [program(), "portfolio", names, "--workers", "0"]
    said = os.path.join(folder, "said")
    alone, beside = [], []
    for _ in range(RUNS):
        *times, text = one_after_another(hotels, folder)
        alone.append(times)
        beside.append(spent(line, said, statuses=(0, 7))[:2])
        with open(said, "rb") as whole:
            if whole.read() != text:
                sys.exit("portfolio does not write the eight journals")
    rates = [HOTELS * commands / statistics.median(taken for taken, _ in times) for times in (alone, beside)]
    processor = [statistics.median(used for _, used in times) for times in (alone, beside)]
    processors = len(os.sched_getaffinity(0))
    ratio = rates[1] / rates[0]
    print(f"{HOTELS} hotels of {commands} commands, {processors} processors: desks one after another {rates[0]:,.0f} commands a second, "
          f"portfolio {rates[1]:,.0f}, {ratio:.2f} times; processor seconds {processor[0]:.2f} and {processor[1]:.2f}; "
          f"load {os.getloadavg()[0]:.1f}")
    start = peak_at_usage()
    books = sum(peak([program(), "desk", *files, "--workers", "0"]) - start for files in hotels)
    most = peak(line)
    print(f"peak {most} KiB; the books {books} KiB, the program without one {start} KiB")
    if most > books + BESIDE_THE_BOOKS:
        sys.exit("portfolio takes more memory than the books and 64 MiB")
    if processors >= 4 and ratio < LEAST_RATIO:
        sys.exit(f"less than {LEAST_RATIO} times as fast")


if __name__ == "__main__":
    main()
