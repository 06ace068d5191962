#!/usr/bin/env python3
"""Times `bidprice replay` beside a C program that only reads the journal and adds up its bytes, and beside `check`.

    bench/journal.py [COMMANDS..]

It wants gcc, the program, and Python's standard library. The journals are those of runs on a year of 365 nights and
3,000 stays, with 25,000 to 200,000 commands, or as many as are given, no group among them, and about a thousand vectors
each, which sessions publish. It fails where the longest takes more than five times the C program and a thousand times a
whole `check` of that size, or more memory than the file, the book and 64 MiB; where the time grows faster than the
commands, whose vectors are about as many in each journal; or where the longest has fewer than 900 vectors.

Then a journal of 11,000 commands, a thousand groups of one to ten rooms among them, is timed beside a whole `bidprice
group`: it fails where replay takes more than a thousand times that. The last one, of a hundred groups of 5,000 rooms
that are counted in hundredths, is told beside and fails nothing.
"""
import datetime
import os
import sys

from houses import House, date
from program import FOLDER, build, peak, program, timed

SIZES = [25_000, 50_000, 100_000, 200_000]
SESSIONS = 4
FEWEST_VECTORS = 900
BOOK = 64 * 2**20  # bytes that a book of the greatest limits takes, with its house


class Blocks(House):
    """A house of 10,000 rooms, counted in hundredths, where all ask for 5,000 of them."""

    def __init__(self, seed):
        super().__init__(seed, nights=365, rooms=10_000, stays=3000, unit=100, groups=1.0)

    def group(self):
        return f"group,{date(self.draw.randrange(self.nights))},1,5000,{self.draw.randrange(400_000)}"


def year(commands, groups=0.0):
    """A house of 120 rooms a night, with nearly a thousand vectors where there are 20,000 commands or more."""
    # Of a hundred commands some 87 are changes, and a few more where the script is short.
    stale_after = max(20, commands * 88 // 100_000 + 2)
    return House(commands, nights=365, rooms=120, stays=3000, stale_after=stale_after, groups=groups)


def made(house, commands):
    """The files and the journal of a run with so many commands at a house, without workers: so a vector is published
    where a booking has to wait for it, and at the end."""
    folder = os.path.join(FOLDER, f"journal-{commands}")
    files = house.write(folder)
    script, journal = os.path.join(folder, "script.csv"), os.path.join(folder, "journal")
    with open(script, "w") as out:
        out.write(house.script(SESSIONS, commands // SESSIONS))
    timed([program(), "desk", *files, script, "--workers", "0"], said=journal, statuses=(0, 7))
    return files, journal


def one_check(files, journal):
    """Seconds of one whole `check` of the journal's first vector, and the path of its problem."""
    folder = os.path.dirname(journal)
    stays = [line.split(",") for line in open(files[1]).read().split()[1:]]
    counts = dict(line.split(",") for line in open(files[2]).read().split()[1:])
    start = datetime.date.fromisoformat("2026-01-01")
    rows = []
    for code, arrival, nights, rate in stays:
        night = (datetime.date.fromisoformat(arrival) - start).days
        rows.append(f"stay {night} {night + int(nights)} {rate} {counts[code]}")
    problem, certificate = os.path.join(folder, "problem"), os.path.join(folder, "certificate")
    with open(problem, "w") as out:
        out.write("\n".join(["problem 1", "nights 365", "rooms " + " ".join(["120"] * 365), f"stays {len(rows)}", *rows, "end", ""]))
    lines = open(journal).read(2**20).split("\n")[2:5]
    with open(certificate, "w") as out:
        out.write("\n".join(["certificate 1", *lines, "end", ""]))
    return min(timed([program(), "check", problem, certificate])[0] for _ in range(9)), problem


def replayed(files, journal):
    """Seconds of the fastest of three replays."""
    return min(timed([program(), "replay", *files, journal])[0] for _ in range(3))


def lines_with(journal, word):
    """How many lines of the journal have the word."""
    with open(journal) as text:
        return sum(word in line for line in text)


def years(sizes):
    """Times the journals of so many commands each, and gives a problem of their size."""
    adder = build("bytes")
    print(f"{'commands':>9}{'vectors':>9}{'bytes':>10}{'replay':>10}{'adding':>10}{'check':>10}{'peak KiB':>10}")
    times = []
    for commands in sizes:
        files, journal = made(year(commands), commands)
        times.append(replayed(files, journal))
        adding = min(timed([adder, journal])[0] for _ in range(9))
        check, problem = one_check(files, journal)
        memory = peak([program(), "replay", *files, journal])
        size = os.path.getsize(journal)
        vectors = lines_with(journal, "value")
        print(f"{commands:>9}{vectors:>9}{size:>10}{times[-1]:>9.3f}s{adding:>9.4f}s{check:>9.4f}s{memory:>10}")
    if sizes == SIZES and vectors < FEWEST_VECTORS:
        sys.exit("too few vectors")
    if times[-1] > 5 * adding + 1000 * check:
        sys.exit("replay takes too long")
    if times[-1] / times[0] > 1.25 * sizes[-1] / sizes[0]:
        sys.exit("replay grows faster than the commands")
    if memory * 1024 > size + BOOK + 64 * 2**20:
        sys.exit("replay takes too much memory")
    return problem


def main():
    problem = years([int(size) for size in sys.argv[1:]] or SIZES)
    files, journal = made(year(11_000, 1 / 11), 11_000)
    replay = replayed(files, journal)
    quote = min(timed([program(), "group", problem, "100", "103", "5"])[0] for _ in range(9))
    groups = lines_with(journal, " group ")
    print(f"{groups} groups among 11,000 commands: replay {replay:.3f} s, one whole group {quote:.4f} s")
    if replay > 1000 * quote:
        sys.exit("replay of groups takes too long")
    files, journal = made(Blocks(100), 100)
    replay = replayed(files, journal)
    groups = lines_with(journal, " group ")
    print(f"{groups} groups of 5,000 rooms in hundredths: replay {replay:.3f} s")


if __name__ == "__main__":
    main()
