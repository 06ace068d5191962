#!/usr/bin/env python3
"""Gives each command files that grow, and sees that twice the bytes take at most 2.3 times the time.

    bench/growing.py [FILE..]

It wants the program and Python's standard library. Of each file that a command reads, or of the ones that are named (as
hotel.toml or problem), some twenty kinds of text are made, wrong everywhere, wrong at the end alone, or with much in them
that does not count: of a quarter of the greatest size, of half of it, and of all of it (16 MiB, of a journal 64). The time
is that of the processors, the least of seven runs and of as many as make a third of a second; a pair that is above the
limit is measured again, twice, and the least counts. A text that takes less than 10 ms at its greatest is not compared,
since starting the program takes a part of that. Every answer has to be one of the command's (bench/answers.py).

Prints a row a command and file: how many kinds of text, which of them grew most and by how much, and what the slowest took
at its greatest size. Ends with status 1 where one is above 2.3. Other work on the machine raises the figures.
"""
import os
import shutil
import sys

from answers import complaint
from lines import COMMANDS, make, words_of
from program import FOLDER, Runs, place_for_files, program

MOST = 2.3
ROUNDS, WORK, AGAIN = 7, 0.3, 2
LEAST = 0.01  # seconds at the greatest size, below which a text is not compared
SECONDS = 300
GREATEST = {"journal": 2**26, "problem-journal": 2**26}
HEADERS = {
    "stays.csv": b"code,arrival,nights,rate",
    "forecast.csv": b"code,count",
    "bookings.csv": b"code,count",
    "script.csv": b"session,verb,item,nights,rooms,amount",
}
RECORDS = {
    "stays.csv": lambda nth: b"P%d,2025-07-01,1,100" % nth,
    "forecast.csv": lambda nth: b"JUL01-1,1",
    "bookings.csv": lambda nth: b"JUL01-1,1",
    "script.csv": lambda nth: b"1,cancel,1,,,",
}
MOST_RECORDS = {"stays.csv": 4_000, "forecast.csv": 1, "bookings.csv": 1, "script.csv": 200_000}
LATER = b"%d 1 publish %d vector %d\nvalue 0\nsell 0 0\nprices 0 0\n"
VECTOR = b"0 0 publish 0 vector 0\nvalue 0\nsell 0 0 0 0\nprices 0 0 0\n1 1 enrol done\n"


def filled(size, front, piece, end=b""):
    """A text of about so many bytes: a piece again and again, between a front and an end."""
    return front + piece * ((size - len(front) - len(end)) // len(piece)) + end


def counted(size, front, piece, first=0):
    """A text of about so many bytes: a piece for each number from the first one on."""
    parts, room, nth = [front], size - len(front), first
    while room > 0:
        parts.append(piece(nth))
        room -= len(parts[-1])
        nth += 1
    return b"".join(parts)[:size]


ANY = {
    "zeros": lambda size: b"0" * size,
    "lines": lambda size: b"\n" * size,
    "spaces": lambda size: b" " * size,
    "no text": lambda size: b"\xff" * size,
    "NUL": lambda size: b"\0" * size,
}

FOUR_KEYS = b'name = "A"\nfirst_night = "2025-07-01"\nnights = 31\nrooms = 2\n'
TOML = {
    "tables": lambda size: filled(size, b"", b"[[night]]\n"),
    "nights": lambda size: filled(size, FOUR_KEYS, b'[[night]]\ndate = "2025-07-01"\nrooms = 1\n'),
    "keys": lambda size: counted(size, b'name = "A"\n', lambda nth: b"k%d = 1\n" % nth),
    "keys of a table": lambda size: counted(size, b"[a]\n", lambda nth: b"k%d = 1\n" % nth),
    "dotted keys": lambda size: counted(size, b"", lambda nth: b"a.b%d.c = 1\n" % nth),
    "headers": lambda size: counted(size, b"", lambda nth: b"[a.b%d]\n" % nth),
    "a deep key": lambda size: filled(size, b"a", b".a", b" = 1\n"),
    "a deep header": lambda size: filled(size, b"[a", b".a", b"]\n"),
    "brackets": lambda size: filled(size, b"a = ", b"["),
    "braces": lambda size: filled(size, b"a = ", b"{a="),
    "an array": lambda size: filled(size, b"a = [", b"1,", b"]\n"),
    "an array of tables": lambda size: filled(size, b"a = [", b"{b=1},", b"]\n"),
    "an inline table": lambda size: counted(size, b"a = {", lambda nth: b"k%d=1," % nth),
    "comments": lambda size: filled(size, b"", b"# a\n"),
    "a string": lambda size: filled(size, b'name = "', b"a", b'"\n'),
    "escapes": lambda size: filled(size, b'name = "', b"\\u00e9", b'"\n'),
    "an open string": lambda size: filled(size, b'name = """', b'a""\n'),
    "a long number": lambda size: filled(size, b"nights = ", b"9"),
}


def tables(name):
    """Kinds of text for a table: of its header, and of records that are right but for their last."""
    header, record, most = HEADERS[name], RECORDS[name], MOST_RECORDS[name]

    def records(size):
        note = b"x" * (2**24 // most)
        return counted(size, header + b",note\n", lambda nth: record(nth) + b"," + note + b"\n")[: size - 3] + b"\nx\n"

    return {
        "commas": lambda size: b"," * size,
        "quotes": lambda size: b'"' * size,
        "columns": lambda size: counted(size, header, lambda nth: b",c%d" % nth),
        "equal columns": lambda size: filled(size, header, b",code", b"\n"),
        "short records": lambda size: filled(size, header + b"\n", b"A\n"),
        "no records": lambda size: filled(size, header + b"\n", b"\r\n"),
        "a long field": lambda size: filled(size, header + b"\n", b"a"),
        "a quoted field": lambda size: filled(size, header + b'\n"', b'""'),
        "spaces in a field": lambda size: filled(size, header + b"\n", b" "),
        "right records": records,
    }


OTHERS = {
    "problem": {
        "rooms": lambda size: filled(size, b"problem 1\nnights 400\nrooms", b" 1"),
        "a long number": lambda size: filled(size, b"problem 1\nnights ", b"9", b"\n"),
        "a long stay": lambda size: filled(size, b"problem 1\nnights 1\nrooms 1\nstays 1\nstay 0 1 1 ", b"9", b"\n"),
        "trailing": lambda size: filled(size, b"problem 1\nnights 1\nrooms 1\nstays 0\nend\n", b"\n"),
    },
    "certificate": {
        "sells": lambda size: filled(size, b"certificate 1\nvalue 1\nsell", b" 1", b"\n"),
        "a long value": lambda size: filled(size, b"certificate 1\nvalue ", b"9", b"\n"),
        "prices": lambda size: filled(size, b"certificate 1\nvalue 1\nsell 0\nprices", b" 18446744073709551615", b"\n"),
    },
    "changes": {
        "scenarios": lambda size: filled(size, b"scenarios 1\n", b"scenario\n"),
        "changes": lambda size: filled(size, b"scenarios 1\nscenario\n", b"rooms 0 2 up 1\n"),
        "a long number": lambda size: filled(size, b"scenarios 1\nscenario\nrate 0 ", b"9", b"\n"),
    },
    "list": {
        "a long name": lambda size: filled(size, b"portfolio 1\nhotels 1\n", b"a"),
        "a long line": lambda size: filled(size, b"portfolio 1\nhotels 1\n", b"a ", b"\n"),
        "a long number": lambda size: filled(size, b"portfolio 1\nhotels ", b"9", b"\n"),
    },
}
JOURNALS = {
    "prices": lambda size: filled(size, b"journal 2\n0 0 publish 0 vector 0\nvalue 1\nsell", b" 1"),
    "cancels": lambda size: counted(size, b"journal 2\n" + VECTOR, lambda nth: b"%d 1 cancel 1 notbooked\n" % nth, 2),
    "vectors": lambda size: counted(size, b"journal 2\n" + VECTOR, lambda nth: LATER % (nth, nth, nth), 2),
    "a long number": lambda size: filled(size, b"journal 2\n" + VECTOR + b"2 1 book ", b"9", b"\n"),
    "a long word": lambda size: filled(size, b"journal 2\n" + VECTOR + b"2 1 ", b"a", b"\n"),
}


def kinds_of(name):
    """The kinds of text that are tried of a file."""
    if name == "hotel.toml":
        return {**ANY, **TOML}
    if name in HEADERS:
        return {**ANY, **tables(name)}
    return {**ANY, **(JOURNALS if name.endswith("journal") else OTHERS[name])}


class Growth:
    """What was seen of a command and one of its files: the kind that grew most, and the one that took longest."""

    def __init__(self):
        self.kinds, self.compared, self.worst, self.slowest = 0, 0, (0.0, ""), (0.0, "")

    def add(self, kind, times):
        self.kinds += 1
        self.slowest = max(self.slowest, (times[-1], kind))
        if times[-1] >= LEAST:
            self.compared += 1
            self.worst = max(self.worst, (growth(times), kind))


def growth(times):
    return max(more / less for less, more in zip(times, times[1:]))


def answered(runs, words):
    """The seconds of a first run, and what is wrong with its answer, or None."""
    run = runs.run(words)
    if run.late:
        return run.processor, f"no end within {SECONDS} seconds"
    return run.processor, complaint([word.encode() for word in words], run.status, run.text, run.errors)


def least(runs, words, first):
    """The least processor seconds of many runs of a line, of a few where it is slow."""
    many = max(ROUNDS, min(100, int(WORK / max(first, 1e-4)))) if first < SECONDS / 100 else 2
    return min([first] + [runs.run(words).processor for _ in range(many)])


def times_of(runs, lines):
    """The least seconds of each of some lines, measured again where twice the bytes take too much longer."""
    firsts = [answered(runs, words) for words in lines]
    faults = [fault for _, fault in firsts if fault]
    times = [least(runs, words, first) for words, (first, _) in zip(lines, firsts)]
    for _ in range(AGAIN):
        if times[-1] >= LEAST and growth(times) > MOST:
            times = [least(runs, words, before) for words, before in zip(lines, times)]
    return times, faults


def try_file(runs, name, folder, place):
    """A row of each command that reads a file of this name; and how many are not as promised."""
    readers, wrong = [command for command in COMMANDS if name in COMMANDS[command][0]], 0
    seen = {command: Growth() for command in readers}
    for kind, text in kinds_of(name).items():
        paths = []
        for part in (4, 2, 1):
            paths.append(os.path.join(place, f"growing-{part}"))
            with open(paths[-1], "wb") as out:
                out.write(text(GREATEST.get(name, 2**24) // part))
        for command in readers:
            files = [os.path.join(folder, file) for file in COMMANDS[command][0]]
            at = COMMANDS[command][0].index(name)
            times, faults = times_of(runs, [words_of(command, [*files[:at], path, *files[at + 1 :]]) for path in paths])
            seen[command].add(kind, times)
            wrong += len(faults)
            for fault in faults:
                print(f"{command}, {name}, {kind}: {fault}")
    for command, found in seen.items():
        wrong += found.worst[0] > MOST
        counts = f"{found.kinds:>6}{found.compared:>10}{found.worst[0]:>8.2f}"
        print(f"{command:10}{name:16}{counts}  {found.worst[1]:20}{found.slowest[0]:>8.3f}  {found.slowest[1]}", flush=True)
    return wrong


def main():
    names = list(dict.fromkeys(name for files, _ in COMMANDS.values() for name in files))
    if not set(sys.argv[1:]) <= set(names):
        sys.exit(f"the files are {', '.join(names)}")
    place = place_for_files("growing-")
    try:
        folder = make(program(), os.path.join(FOLDER, "growing"), False)
        runs = Runs(place, SECONDS)
        print(f"{'command':10}{'file':16}{'kinds':>6}{'compared':>10}{'grew':>8}  {'most of':20}{'most s':>8}  of", flush=True)
        wrong = sum(try_file(runs, name, folder, place) for name in sys.argv[1:] or names)
    finally:
        shutil.rmtree(place)
    print(f"{wrong} not as promised")
    sys.exit(wrong > 0)


if __name__ == "__main__":
    main()
