#!/usr/bin/env python3
"""Gives the program, compiled with checks on every access and every sum, damaged files and words, and failing calls.

    bench/checked.py [TIMES [SEED [COMMAND..]]]

It wants rt and Python's standard library. `rt try` compiles the program from its sources with an address sanitizer and
with traps at what no proof has been asked about: an index out of range, a sum that overflows, a cast that loses bits. It
runs TIMES (200) damaged inputs of each command that reads files, made as those of bench/damage.py from small texts, and as
many lines of damaged words; each has to end by itself, with a status that the command has and the text that goes with it.
Then, for each COMMAND that is named, every allocation fails in turn, and each read and write fails in turn and is cut short
in turn; the kit tells each run that faults, hangs, or ends with its status and another text. A kit that is older than
these ways to fail says so, and then they are not tried.

Prints a row a command: how often each status came, and how many runs were not as promised; then, of each COMMAND, a row a
way to fail with what the kit counts. What it said stands in out/bench/checked. It ends with status 1 where a run is not as
promised. The build takes some minutes, once for the damaged inputs and three times for each COMMAND.
"""
import collections
import os
import random
import re
import shutil
import subprocess
import sys

from answers import complaint
from damages import damaged, damaged_words
from program import FOLDER, TOP

sys.path.insert(0, os.path.join(TOP, "checks"))

from statuses import FILES

HOTEL = ["stale-hotel", "stays", "forecast", "bookings"]
LINES = {
    "check": ["check", "problem", "certificate"],
    "solve": ["solve", "problem"],
    "group": ["group", "problem", "0", "2", "1"],
    "sheet": ["sheet", "problem"],
    "scenarios": ["scenarios", "problem", "changes"],
    "judge": ["judge", "problem", "journal"],
    "replay": ["replay", *HOTEL, "run"],
    "report": ["report", *HOTEL, "run"],
    "desk": ["desk", *HOTEL, "script", "--workers", "0"],
    "portfolio": ["portfolio", "list", "--workers", "0"],
    "demo": ["demo", "7", "9", "2", "12"],
}
CRATE = os.path.join(TOP, "crates", "bidprice")
HERE = os.path.join(FOLDER, "checked")
ENDED = re.compile(r"case=\S+ run=ended status=(\d+)")
Case = collections.namedtuple("Case", "command words damaged may_fail")


def used():
    """The files of the lines above, and those that the list names."""
    names = {word for line in LINES.values() for word in line} | {"one-vector"}
    return sorted(name for name in names if name in FILES)


def data_flags():
    return [word for name in used() for word in ("--data", f"{name}={os.path.join(HERE, name)}")]


def tried(words, log):
    """The status and the last line of a run of `rt try`, whose output goes to a file."""
    with open(log, "wb") as out:
        status = subprocess.run(["rt", "try", "bidprice", *words], cwd=CRATE, stdout=out, stderr=subprocess.STDOUT).returncode
    with open(log, "rb") as said:
        return status, said.read()


def write_case(folder, name, data, words):
    """A case: a file, and the words of its line, one by one, with {} where the file's name belongs."""
    with open(os.path.join(folder, name), "wb") as out:
        out.write(data)
    with open(os.path.join(folder, name + ".args"), "wb") as out:
        out.write(b"\n".join(words) + b"\n")


def file_case(draw, command):
    """A line of a command of whose files one is damaged."""
    line = [word.encode() for word in LINES[command]]
    files = [at for at, word in enumerate(LINES[command]) if word in FILES]
    at = draw.choice(files)
    data = damaged(draw, FILES[LINES[command][at]])
    line[at] = b"{}"
    return data, line, Case(command, line, files.index(at) + 1, command == "portfolio")


def words_case(draw):
    """A line of damaged words, none of which is empty, no text or of two lines: a case cannot hold such a word."""
    while True:
        line = damaged_words(draw, [word.encode() for word in LINES[draw.choice(list(LINES))]])
        whole = b"".join(line)
        if line and all(line) and not re.search(rb"[\r\n]", whole) and whole.isascii() and len(whole) < 10_000:
            return b"", line, Case("words", line, 0, True)


def make_cases(folder, times, draw):
    """Writes the cases, and gives what each is of."""
    shutil.rmtree(folder, ignore_errors=True)
    os.makedirs(folder)
    cases = {}
    for command in [*LINES, "words"]:
        if command == "demo":
            continue
        for nth in range(times):
            data, line, case = words_case(draw) if command == "words" else file_case(draw, command)
            name = f"{command}-{nth:05}"
            write_case(folder, name, data, line)
            cases[name] = case
    return cases


def complaint_of(case, said):
    """The status of a case, and what is wrong with it, or None. What a run wrote stands in front of what the kit tells."""
    text, _, told = said.rpartition(b"case=")
    ended = ENDED.match(("case=" + told.decode(errors="replace")))
    if not ended:
        return None, said[-300:].decode(errors="replace")
    status = int(ended[1])
    if status == 2 and case.command != "words":
        return status, "status 2 of a line"
    return status, complaint(case.words, status, text, b"", case.damaged, False, case.may_fail)


def try_cases(times, draw):
    """A row of each command, and how many of its runs were not as promised."""
    folder = os.path.join(HERE, "cases")
    cases = make_cases(folder, times, draw)
    status, said = tried(["--cases", folder, *data_flags()], os.path.join(HERE, "cases.log"))
    parts = re.split(rb"^== ([a-z]+-\d{5})\n", said, flags=re.M)
    answers = dict(zip((name.decode() for name in parts[1::2]), parts[2::2]))
    statuses, wrong = collections.defaultdict(collections.Counter), collections.Counter()
    for name, case in cases.items():
        found, fault = complaint_of(case, answers.get(name, b"nothing was said"))
        statuses[case.command][found] += 1
        if fault:
            wrong[case.command] += 1
            print(f"{name}: {fault}; it is in {os.path.relpath(folder)}")
    print(f"{'command':10}{'inputs':>8}" + "".join(f"{f'status {s}' if s == 0 else s:>9}" for s in range(8)) + f"{'no end':>9}{'wrong':>7}")
    for command, counts in statuses.items():
        counted = "".join(f"{counts[found] or '':>9}" for found in [*range(8), None])
        print(f"{command:10}{counts.total():>8}{counted}{wrong[command]:>7}")
    told = said.decode(errors="replace").splitlines() or ["nothing was said"]
    print(f"the kit: {told[-1]}", flush=True)
    return wrong.total() + (status != 0)


def try_failing(command):
    """A row of each way in which the calls of a command's line fail, and how many ways were not as promised."""
    wrong = 0
    for flag in ("--fail-alloc", "--fail-io", "--short-io"):
        status, said = tried([flag, "1..", *data_flags(), "--", *LINES[command]], os.path.join(HERE, f"{command}{flag}.log"))
        told = said.decode(errors="replace").splitlines() or ["nothing was said"]
        if any("kit is older" in line for line in told):
            told = ["not tried: this kit is older than that"]
        else:
            wrong += status in (1, 2, 3, 4, 5, 6) and "run=ended" not in told[-1]
        print(f"{command:10}{flag:15}{told[-1]}", flush=True)
    return wrong


def main():
    times = int(sys.argv[1]) if len(sys.argv) > 1 else 200
    draw = random.Random(int(sys.argv[2]) if len(sys.argv) > 2 else 1)
    os.makedirs(HERE, exist_ok=True)
    for name in used():
        with open(os.path.join(HERE, name), "wb") as out:
            out.write(FILES[name])
    wrong = try_cases(times, draw)
    wrong += sum(try_failing(command) for command in sys.argv[3:])
    sys.exit(wrong > 0)


if __name__ == "__main__":
    main()
