#!/usr/bin/env python3
"""Runs random scripts at random houses, crowded, on one processor, and without threads, and judges each journal.

    bench/random_runs.py [RUNS [SEED]]

It wants the program and Python's standard library, and for the runs on one processor `taskset`. RUNS (1,000) is how many
runs of each way are made: as many threads as it likes; held to one processor; no thread beside its own, or two, by a
limit on processes. Half of the runs have 32 sessions and 16 workers, the others any number of both. Houses and scripts
are drawn: nights, rooms, stays, units, `stale_after`, and limits on entries and vectors that cut some of the runs.

Of each run: it ends, with status 0 or 7; `replay` calls its journal legal, with as many entries; each session's commands
are the first of its own, in order, with a Leave behind them, and nobody else makes one; the vectors are no more than two
and one for each `lead` commands; at 0 all commands are there and no change stands after the last vector's position; and
at 7 one of the three causes holds that cut a run. Last, two runs at the greatest house: 400 nights of 10,000 rooms, 4,000
stays, unit 100, 200,000 commands of 32 sessions; one makes them all, and one comes to 1,000 vectors before. Prints a row
a way; a run that is not so is kept in out/bench/failed, and the script ends with status 1.
"""
import collections
import datetime
import os
import random
import resource
import shutil
import subprocess
import sys
import tempfile
import time

from houses import FIRST, House
from program import FOLDER, program

SECONDS = 300
NOBODY = 65534
ACTS = ("book", "cancel", "reforecast", "reprice", "resize", "group")


class Story:
    """What the text of a journal says: each caller's commands in order, and what stands after the last vector."""

    def __init__(self, text):
        self.entries, self.vectors, self.position = 0, 0, 0
        self.commands, self.left, self.changed = collections.defaultdict(list), set(), []
        for line in text.splitlines():
            place, *words = line.split()
            if place.isdigit():
                self.entries += 1
                self.entry(int(place), int(words[0]), words[1], words[2:])

    def entry(self, place, caller, act, rest):
        if act == "publish":
            self.vectors, self.position = self.vectors + 1, int(rest[0])
        elif act == "leave":
            self.left.add(caller)
        elif act in ACTS:
            said = {"group": 4, "resize": 2, "reforecast": 2, "reprice": 2}.get(act, 1)
            self.commands[caller].append(" ".join([act, *rest[:said]]))
            reply = rest[said]
            if act in ("book", "reforecast", "reprice") or reply in ("cancelled", "done") or (act, reply) == ("group", "accepted"):
                self.changed.append(place)

    def made(self):
        return sum(map(len, self.commands.values()))

    def after(self):
        """How many changes stand after the last vector's position."""
        return sum(place >= self.position for place in self.changed)


class RandomHouse(House):
    """A house whose every setting is drawn, and its limit on entries."""

    def __init__(self, seed, crowded):
        draw = random.Random(seed)
        nights = draw.choice([1, 2, 7, draw.randint(3, 60)])
        super().__init__(seed, nights, draw.choice([0, 1, 3, draw.randint(2, 60)]), draw.randint(1, 120), unit=draw.choice([1, 1, 100]),
                         stale_after=draw.choice([1, 2, 5, draw.randint(3, 40)]), groups=draw.choice([0, 0.03, 0.2]))
        self.sessions = 32 if crowded else draw.randint(1, 32)
        self.workers = 16 if crowded else draw.randint(0, 16)
        self.each = draw.randint(1, 25)
        self.asked = self.sessions * self.each
        self.entries = draw.choice([200_000, 200_000, self.asked, max(1, self.asked * draw.randint(1, 9) // 10)])
        most = 2 + self.asked // self.lead
        self.publications = min(1000, draw.choice([1000, most, most, draw.randint(1, most)]))

    def write(self, folder):
        paths = super().write(folder)
        with open(paths[0], "a") as out:
            out.write(f"entries = {self.entries}\n")
        return paths

    def wanted(self, script):
        """The commands of each session as a journal writes them."""
        lists = collections.defaultdict(list)
        for record in script.splitlines()[1:]:
            session, verb, item, nights, rooms, amount = record.split(",")
            night = (datetime.date.fromisoformat(item) - FIRST).days if verb in ("resize", "group") else None
            words = {"cancel": [item], "resize": [night, rooms], "group": [night, (night or 0) + int(nights or 0), rooms, amount]}
            text = words.get(verb) or [int(item[1:]), *([amount] if amount else [])]
            lists[int(session)].append(" ".join(map(str, [verb, *text])))
        return lists


def case_of(status, story, house, wanted):
    """Which of the three causes cut a run, `whole` where none did, or None where the status is another one."""
    whole = all(story.commands[session] == wanted[session] for session in wanted)
    full, vectors = story.made() == house.entries, story.vectors == house.publications
    if status == 0:
        return "whole" if whole and story.after() == 0 else None
    if full and not whole and (story.after() == 0 or vectors):
        return "a"
    if vectors and not whole and story.after() >= house.stale_after:
        return "b"
    return "c" if whole and vectors and story.after() > 0 else None


def complaint(status, text, judged, house, wanted):
    """What is not as it has to be, or None, and the case."""
    if status not in (0, 7):
        return f"status {status}", None
    story = Story(text.decode())
    if judged != b"legal %d\n" % story.entries:
        return f"judged {judged!r}", None
    for caller, made in story.commands.items():
        if made != wanted[caller][: len(made)]:
            return f"session {caller} made other commands", None
    if not set(range(1, house.sessions + 1)) <= story.left or max(story.left) > house.sessions + house.workers:
        return f"callers {sorted(story.left)} have left", None
    if story.vectors > 2 + house.asked // house.lead:
        return f"{story.vectors} vectors", None
    case = case_of(status, story, house, wanted)
    return (None, case) if case else (f"status {status} in no case", None)


def with_threads(many):
    """Leaves a child so many threads beside its first one. The limit does not bind root, so the child is nobody."""

    def limit():
        resource.setrlimit(resource.RLIMIT_NPROC, (many, many))
        if os.getuid() == 0:
            os.setgid(NOBODY)
            os.setuid(NOBODY)

    return limit


WAYS = {
    "threads": ([], {}),
    "one processor": (["taskset", "-c", str(min(os.sched_getaffinity(0)))], {}),
    "no thread": ([], {"preexec_fn": with_threads(0)}),
    "two threads": ([], {"preexec_fn": with_threads(2)}),
}


def run(way, house, ours, folder):
    """One run: what is wrong with it, its case, and its seconds."""
    before, how = WAYS[way]
    os.chmod(folder, 0o755)
    files, script = house.write(folder), house.script(house.sessions, house.each)
    paths = {name: os.path.join(folder, name) for name in ("script.csv", "journal")}
    with open(paths["script.csv"], "w") as out:
        out.write(script)
    begin = time.perf_counter()
    try:
        line = [*before, ours, "desk", *files, paths["script.csv"], "--workers", str(house.workers)]
        done = subprocess.run(line, capture_output=True, timeout=SECONDS, **how)
    except subprocess.TimeoutExpired:
        return f"no end within {SECONDS} seconds", None, SECONDS
    taken = time.perf_counter() - begin
    with open(paths["journal"], "wb") as out:
        out.write(done.stdout)
    judged = subprocess.run([ours, "replay", *files, paths["journal"]], capture_output=True).stdout
    return *complaint(done.returncode, done.stdout, judged, house, house.wanted(script)), taken


def many(way, runs, seed, ours):
    """So many runs of a way: a row, and how many were not as they have to be."""
    cases, taken, wrong = collections.Counter(), 0.0, 0
    for nth in range(runs):
        with tempfile.TemporaryDirectory() as folder:
            house = RandomHouse(seed * 1_000_000 + nth, nth % 2 == 0)
            fault, case, seconds = run(way, house, ours, folder)
            cases[case] += 1
            taken += seconds
            if fault:
                wrong += 1
                kept = os.path.join(FOLDER, "failed", f"{way}-{seed}-{nth}".replace(" ", "-"))
                shutil.copytree(folder, kept, dirs_exist_ok=True)
                print(f"{way}, run {nth}: {fault}; its files are in {kept}", flush=True)
    told = ", ".join(f"{case} {count}" for case, count in sorted(cases.items(), key=str))
    print(f"{way:14} {runs:6} runs, {told}; {wrong} not as promised; {taken / max(1, runs):.3f} s each", flush=True)
    return wrong


class Greatest(RandomHouse):
    """The greatest house, and the longest script. With 400 changes to a stale vector the script is made whole; with 40 the
    vectors come to their limit before."""

    def __init__(self, stale_after):
        House.__init__(self, 1, 400, 10_000, 4_000, stale_after=stale_after, publications=1000, unit=100, groups=0.0)
        self.sessions, self.workers, self.each, self.entries = 32, 16, 6_250, 200_000
        self.asked = self.sessions * self.each


def greatest(stale_after, wanted, ours):
    """A row of a run at every limit at once; and whether it was in another case than the one that is wanted."""
    with tempfile.TemporaryDirectory() as folder:
        fault, case, taken = run("threads", Greatest(stale_after), ours, folder)
        path = os.path.join(folder, "journal")
        story = Story("")
        if os.path.exists(path):  # a run that does not end in time leaves none
            with open(path) as journal:
                story = Story(journal.read())
    full = wanted == "whole" or story.vectors == 1000
    told = f"{story.made()} commands, {story.vectors} vectors, {taken:.1f} s"
    print(f"the greatest house, vectors stale after {stale_after} changes: {fault or case}, {told}", flush=True)
    return fault is not None or case != wanted or not full


def main():
    runs = int(sys.argv[1]) if len(sys.argv) > 1 else 1000
    seed = int(sys.argv[2]) if len(sys.argv) > 2 else 1
    wrong = 0
    with tempfile.TemporaryDirectory() as place:
        os.chmod(place, 0o755)
        ours = shutil.copy(program(), place)
        for way, (before, _) in WAYS.items():
            if before and not shutil.which(before[0]):
                print(f"{way} is left out: {before[0]} is missing")
                continue
            wrong += many(way, runs, seed, ours)
        wrong += sum(greatest(stale_after, wanted, ours) for stale_after, wanted in ((400, "whole"), (40, "b")))
    sys.exit(wrong > 0)


if __name__ == "__main__":
    main()
