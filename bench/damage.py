#!/usr/bin/env python3
"""Gives each command damaged files and damaged words, many times, and sees that it ends as it is promised to.

    bench/damage.py [TIMES [COMMAND..]] [--seed SEED] [--jobs JOBS] [--only NTH]

It wants the program and Python's standard library. TIMES (2,000) is how many damaged inputs each command gets, on JOBS
processes beside one another, as many as there are processors where none are named. Most are made from small inputs, one in
forty from a busy one, and one in four thousand is a file of the greatest size or of a byte more. Of a line's files one is
damaged, or of a line the words (the rows `demo`, which reads no file, and `words`, of all commands): bytes changed, cut,
doubled, swapped or put in, digits grown, lines moved, dropped, repeated or swapped, fields emptied, another encoding, a
NUL, a byte order mark, nothing at all. Whatever it is, the program has to end by itself within a minute, with a status
that this command has and the text that goes with it, and with nothing on standard error. A refusal may not name a file
before the damaged one, and `toolong` and the usage text come exactly where they have to; `check` has to call a certificate
of `solve` optimal, and `replay` a journal of `desk` legal.

Prints a row a command: how often each status came, and the seconds of the slowest input. An input that was not answered
so is kept in out/bench/damage with its line, and the script ends with status 1. Input NTH of a command is made from SEED,
the command's name and NTH alone: --only makes it again, tells its line and its answer, and keeps it.
"""
import argparse
import collections
import multiprocessing
import os
import random
import shutil
import sys
import time

from answers import complaint
from damages import damaged, damaged_words
from lines import COMMANDS, HOTEL, list_of, make, make_small, words_of
from program import FOLDER, TOP, Runs, place_for_files, program

SECONDS = 60
SMALL = 8  # made from seeds, beside the one of the examples
BUSY_ONE_IN = 40
GREATEST_ONE_IN = 4000
CHUNK = 250
SHELVES = ["example", *(f"small-{nth}" for nth in range(SMALL))]
KEPT = os.path.join(FOLDER, "damage")
STATUSES = range(8)
LONGEST = {"journal": 2**26, "problem-journal": 2**26}
OF_WORDS = ("demo", "words")
Trial = collections.namedtuple("Trial", "words damaged data too_long may_fail")


class Answers:
    """How often each status came, the slowest input, and what was not as promised."""

    def __init__(self):
        self.statuses, self.wrong, self.seconds, self.slowest = collections.Counter(), [], 0.0, (0.0, 0)

    def add(self, nth, status, seconds, fault):
        self.statuses[status] += 1
        self.seconds += seconds
        self.slowest = max(self.slowest, (seconds, nth))
        if fault:
            self.wrong.append((nth, fault))

    def join(self, other):
        self.statuses += other.statuses
        self.wrong += other.wrong
        self.seconds += other.seconds
        self.slowest = max(self.slowest, other.slowest)


class Bench:
    """One process's place for its runs: a folder with its damaged file, and lists that name that file."""

    def __init__(self, place, texts, seed):
        self.texts, self.seed = texts, seed
        folder = os.path.join(place, f"process-{os.getpid()}")
        os.makedirs(folder)
        self.runs = Runs(folder, SECONDS)
        os.chdir(folder)
        self.input = os.open("damaged", os.O_RDWR | os.O_CREAT)
        for shelf in texts:
            for at in range(10):
                names = [f"../{shelf}/{name}" for name in (*HOTEL, "script.csv")] * 2
                names[at] = "damaged"
                with open(f"list-{shelf}-{at}", "w") as out:
                    out.write(list_of([names[:5], names[5:]]))

    def put(self, data):
        os.ftruncate(self.input, 0)
        os.pwrite(self.input, data, 0)

    def draw(self, command, nth):
        return random.Random(f"{self.seed} {command} {nth}")

    def try_one(self, command, nth):
        """One input: what was tried, what became of it, and what is wrong with that, or None."""
        trial = self.make(command, nth)
        if trial.data is not None:
            self.put(trial.data)
        run = self.runs.run(trial.words)
        if run.late:
            return trial, run, f"no end within {SECONDS} seconds"
        answer = run.status, run.text, run.errors
        fault = complaint(trial.words, *answer, trial.damaged, trial.too_long, trial.may_fail)
        return trial, run, fault or self.misjudged(command, trial.words, run)

    def misjudged(self, command, words, run):
        """What another command says against an answer, or None: `check` of a certificate, and `replay` of a journal."""
        if (command, run.status) == ("solve", 0):
            judging, wanted = [b"check", words[1], b"answer"], b"optimal "
        elif command == "desk" and run.status in (0, 7):
            judging, wanted = [b"replay", *words[1:5], b"answer"], b"legal "
        else:
            return None
        with open("answer", "wb") as out:
            out.write(run.text)
        said = self.runs.run(judging).text
        return None if said.startswith(wanted) else f"{judging[0].decode()} says {said[:200]!r} of the answer"

    def make(self, command, nth):
        draw = self.draw(command, nth)
        shelf = "busy" if nth % BUSY_ONE_IN == 0 else draw.choice(SHELVES)
        if command in OF_WORDS:
            chosen = command if command == "demo" else draw.choice(list(COMMANDS))
            return Trial(damaged_words(draw, self.whole_line(chosen, shelf)), 0, None, False, True)
        names = COMMANDS[command][0]
        at = draw.choice((0, 0, *range(11))) if command == "portfolio" else draw.randrange(len(names))
        name = [*names, *[*HOTEL, "script.csv"] * 2][at] if command == "portfolio" else names[at]
        data = damaged(draw, self.texts[shelf][name])
        limit = LONGEST.get(name, 2**24)
        if nth % GREATEST_ONE_IN == 1:
            data = (data or b"0") * (limit // max(1, len(data)) + 2)
            data = data[: limit + draw.randrange(2)]
        if command == "portfolio":
            words = ["portfolio", "damaged" if at == 0 else f"list-{shelf}-{at - 1}", "--workers", "0"]
        else:
            files = ["damaged" if at == place else f"../{shelf}/{file}" for place, file in enumerate(names)]
            words = words_of(command, files)
        return Trial([word.encode() for word in words], at + 1, data, len(data) > limit, command == "portfolio" and at == 0)

    def whole_line(self, command, shelf):
        """The words of a line of a command, all of whose files are there."""
        return [word.encode() for word in words_of(command, [f"../{shelf}/{file}" for file in COMMANDS[command][0]])]


def keep(command, nth, trial, told):
    """Keeps an input with its line, and gives its place."""
    path = os.path.join(KEPT, f"{command}-{nth}")
    os.makedirs(path, exist_ok=True)
    if trial.data is not None:
        with open(os.path.join(path, "damaged"), "wb") as out:
            out.write(trial.data)
    with open(os.path.join(path, "line"), "wb") as out:
        out.write(b"bidprice " + b" ".join(trial.words) + b"\n" + told.encode() + b"\n")
    return os.path.relpath(path, TOP)


def begin(*how):
    global bench
    bench = Bench(*how)


def try_some(chunk):
    """Some inputs of a command, one after another."""
    command, first, after = chunk
    answers = Answers()
    for nth in range(first, after):
        trial, run, fault = bench.try_one(command, nth)
        answers.add(nth, run.status, run.seconds, fault)
        if fault:
            keep(command, nth, trial, fault)
    return command, answers


def row(command, answers, times):
    counts = "".join(f"{answers.statuses[status] or '':>9}" for status in STATUSES)
    mean = answers.seconds / times * 1000
    most, slowest = answers.slowest
    print(f"{command:10}{times:>8}{counts}{len(answers.wrong):>7}{mean:>9.2f}{most * 1000:>10.1f}  {slowest}", flush=True)
    for nth, fault in answers.wrong[:10]:
        print(f"    input {nth}: {fault}")


def try_all(commands, times, jobs, how):
    """A row of each command, whose inputs are spread over the processes; and how many answers were wrong."""
    print(f"{'command':10}{'inputs':>8}" + "".join(f"{f'status {s}' if s == 0 else s:>9}" for s in STATUSES)
          + f"{'wrong':>7}{'mean ms':>9}{'most ms':>10}  the slowest input", flush=True)
    chunks = [(command, first, min(first + CHUNK, times)) for command in commands for first in range(0, times, CHUNK)]
    begun, wrong, done = time.perf_counter(), 0, {command: (Answers(), []) for command in commands}
    with multiprocessing.get_context("fork").Pool(jobs, begin, how) as pool:
        for command, answers in pool.imap(try_some, chunks):
            done[command][0].join(answers)
            done[command][1].append(1)
            if len(done[command][1]) * CHUNK >= times:
                row(command, done[command][0], times)
                wrong += len(done[command][0].wrong)
    taken = time.perf_counter() - begun
    print(f"{len(commands) * times} damaged inputs, {wrong} not as promised; {taken:.0f} s on {jobs} processes, seed {how[2]}")
    return wrong


def try_again(command, nth, how):
    """One input again, with its line and its answer."""
    begin(*how)
    trial, run, fault = bench.try_one(command, nth)
    place = keep(command, nth, trial, fault or "as promised")
    line = b" ".join(trial.words)[:500].decode(errors="replace")
    print(f"bidprice {line}\nstatus {run.status} after {run.seconds * 1000:.1f} ms: {run.text[:500]!r}")
    print(f"{fault or 'as promised'}; it is kept in {place}")
    return 1 if fault else 0


def texts_of(place):
    """Makes the files that are damaged, and gives the bytes of each by its shelf and name."""
    for nth, shelf in enumerate([*SHELVES, "busy"]):
        folder = os.path.join(place, shelf)
        make_small(program(), folder, nth) if shelf.startswith("small") else make(program(), folder, shelf == "busy")
        names = [f"../{shelf}/{name}" for name in (*HOTEL, "script.csv")]
        with open(os.path.join(folder, "list"), "w") as out:
            out.write(list_of([names] * 2))
    texts = {}
    for shelf in [*SHELVES, "busy"]:
        names = os.listdir(os.path.join(place, shelf))
        texts[shelf] = {}
        for name in names:
            with open(os.path.join(place, shelf, name), "rb") as file:
                texts[shelf][name] = file.read()
    return texts


def main():
    known = [*COMMANDS, "words"]
    words = argparse.ArgumentParser(description=__doc__, formatter_class=argparse.RawDescriptionHelpFormatter)
    words.add_argument("times", nargs="?", type=int, default=2000)
    words.add_argument("commands", nargs="*", metavar="command", help=", ".join(known))
    words.add_argument("--seed", type=int, default=1)
    words.add_argument("--jobs", type=int, default=len(os.sched_getaffinity(0)))
    words.add_argument("--only", type=int)
    asked = words.parse_args()
    if not set(asked.commands) <= set(known):
        words.error("there is no such command")
    os.makedirs(KEPT, exist_ok=True)
    place = place_for_files("damage-")
    try:
        how = place, texts_of(place), asked.seed
        if asked.only is not None:
            wrong = sum(try_again(command, asked.only, how) for command in asked.commands or known)
        else:
            wrong = try_all(asked.commands or known, asked.times, asked.jobs, how)
    finally:
        os.chdir(FOLDER)
        shutil.rmtree(place)
    sys.exit(wrong > 0)


if __name__ == "__main__":
    main()
