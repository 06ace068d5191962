#!/usr/bin/env python3
"""Refuses the program its allocations, on a line of each command, small and busy.

    bench/program_without_memory.py [MOST [COMMAND..]] [--jobs JOBS]

It wants gcc, the program and Python's standard library. Each allocation of a line is refused in turn, alone and with all
later ones; of more than MOST (2,000) allocations, as many as that are drawn, the first and the last among them, and with 0
none is left out. The runs are spread over JOBS processes. The program must end with status 6 and a first part of its
answer, or with its own status and its whole answer. Without memory for the start the solver begins from nothing and may
sell another optimal allocation: then all other lines are the same, and `check` or `replay` says that it is right. Then the
line runs in less and less address space. A desk with two workers has no one journal: what it writes whole has to be legal,
and of what it writes in part the whole entries have to be.

Prints a row a command and input: how many allocations the line makes; of those refused alone, and of those refused with
all later ones, how many runs ended with status 6 and how many with the line's own answer; the least address space, in MiB,
in which the line still gave that answer; and how many runs were not as promised. Ends with status 1 where one was not.
"""
import argparse
import collections
import multiprocessing
import os
import random
import resource
import shutil
import sys

from lines import COMMANDS, HOTEL, files_of, make, run, words_of
from program import FOLDER, Runs, build_library, place_for_files, program

CHUNK = 50
Line = collections.namedtuple("Line", "name command words files whole legal")


def without_sales(text):
    """A text without its lines on how many of each stay are sold, of which the last may be cut, even in its word."""
    lines = text.splitlines(keepends=True)
    return b"".join(line for line in lines if not line.startswith(b"sell") and not b"sell".startswith(line))


def fewer_rooms(problem):
    """The problem of a group's line after its group: one room less on the first two nights."""
    lines = problem.splitlines(keepends=True)
    rooms = lines[2].split()
    rooms[1:3] = [b"%d" % (int(number) - 1) for number in rooms[1:3]]
    return b"".join([*lines[:2], b" ".join(rooms) + b"\n", *lines[3:]])


def read(path):
    with open(path, "rb") as file:
        return file.read()


def put(path, data):
    with open(path, "wb") as out:
        out.write(data)
    return path


def whole_entries(text):
    """A journal of the entries that stand whole in a first part of one, or None where there is none."""
    lines, kept, at = text.split(b"\n")[:-1], [], 1
    while at < len(lines) and lines[at][:1].isdigit():
        many = 4 if b" publish " in lines[at] else 1
        if at + many > len(lines):
            break
        kept += lines[at : at + many]
        at += many
    return b"\n".join([lines[0], *kept, b"end", b""]) if kept else None


class Judge:
    """One process's place: runs of the program, and whether what they wrote is right."""

    def __init__(self, place):
        self.folder = os.path.join(place, f"process-{os.getpid()}")
        os.makedirs(self.folder)
        self.runs = Runs(self.folder, 120)

    def refused(self, library, words, nth, all_later):
        """The answer with the nth allocation refused, or None where there are not so many."""
        run = self.runs.run(words, {"LD_PRELOAD": library, "REFUSE": str(nth), **({"REFUSE_ALL": "1"} if all_later else {})})
        return (run.status, run.text) if run.errors or run.late else None

    def said(self, *words):
        return self.runs.run(list(words)).text

    def is_right(self, line, found):
        """Whether a line answered as it does with ample memory, or a first part of that at status 6."""
        if line.legal:
            return self.is_legal(line, found)
        if found == line.whole or (found[0] == 6 and line.whole[1].startswith(found[1])):
            return True
        left, whole = without_sales(found[1]), without_sales(line.whole[1])
        same = left == whole if found[0] == line.whole[0] else found[0] == 6 and whole.startswith(left)
        return same and self.sells_right(line, found[1])

    def sells_right(self, line, text):
        """Whether the certificates of a text that are whole, or those of its journals, are right ones of the line's files."""
        here = lambda name, data: put(os.path.join(self.folder, name), data)
        if line.command in ("solve", "group"):
            problem = read(line.files[0])
            parts = text.split(b"certificate 1\n")[1:]
            problems = [here("first", problem), here("second", fewer_rooms(problem))]
            whole = [(of, part) for of, part in zip(problems, parts) if part.endswith(b"\nend\n")]
            checked = [self.said("check", of, here("certificate", b"certificate 1\n" + part)) for of, part in whole]
            return all(text.startswith(b"optimal ") for text in checked)
        if line.command in ("desk", "portfolio"):
            folder = os.path.dirname(line.files[0])
            files = [os.path.join(folder, name) for name in HOTEL]
            journals = [b"journal 2\n" + part.split(b"hotel ")[0] for part in text.split(b"journal 2\n")[1:]]
            judged = [whole_entries(journal) for journal in journals]
            return all(self.said("replay", *files, here("journal", journal)).startswith(b"legal ") for journal in judged if journal)
        return False

    def is_legal(self, line, found):
        """Whether what a desk with workers answered is a legal history, or a first part of one at status 6."""
        if found[0] not in (0, 6, 7):
            return False
        text = whole_entries(found[1])
        if found[0] != 6 and text != found[1] or not b"journal 2\n".startswith(found[1][:10]):
            return False
        journal = put(os.path.join(self.folder, "journal"), text or b"")
        return text is None or self.said("replay", *line.files[:4], journal).startswith(b"legal ")


def count(judge, library, words):
    """How many allocations a line makes, by doubling and halving."""
    most = 1
    while judge.refused(library, words, most, False):
        most *= 2
    least = most // 2
    while least + 1 < most:
        middle = (least + most) // 2
        least, most = (middle, most) if judge.refused(library, words, middle, False) else (least, middle)
    return least


def chosen(allocations, most):
    """All of them, or the first, the last and some between."""
    if allocations <= most or most == 0:
        return list(range(1, allocations + 1))
    return sorted({1, allocations, *random.Random(1).sample(range(1, allocations + 1), max(0, most - 2))})


def begin(*how):
    global judge
    judge = Judge(*how)


def try_some(task):
    """Some allocations of a line refused: how its runs ended, and what was wrong."""
    library, line, some = task
    ends, wrong = collections.Counter(), []
    for nth in some:
        for all_later in (False, True):
            found = judge.refused(library, line.words, nth, all_later)
            if found is None:  # threads: this run made fewer allocations
                continue
            ends[all_later, found[0] == 6] += 1
            if not judge.is_right(line, found):
                wrong.append(f"{line.name}, allocation {nth}{' and later ones' if all_later else ''}: {found[0]}, {found[1][-200:]!r}")
    return ends, wrong


def try_spaces(judge, line):
    """Runs a line in less and less address space: the least in MiB in which it gave its own answer, and wrong answers."""
    least, wrong = None, []
    for space in range(64, 0, -1):
        limit = lambda: resource.setrlimit(resource.RLIMIT_AS, (space << 20, space << 20))
        found = run(program(), line.words, preexec_fn=limit)
        if judge.is_right(line, found):
            least = space if found[0] == line.whole[0] else least
        elif found[0] == 127 or found[0] < 0 and space < 16:
            break  # without room to start it cannot answer
        else:
            wrong.append(f"{line.name} in {space} MiB: {found[0]}, {found[1][:100]!r}")
    return least, wrong


def try_line(pool, judge, library, line, size, most):
    """A row of a line; and how many of its runs were not as promised."""
    allocations = count(judge, library, line.words)
    picked = chosen(allocations, most)
    ends, wrong = collections.Counter(), []
    tasks = [(library, line, picked[at : at + CHUNK]) for at in range(0, len(picked), CHUNK)]
    for more, faults in pool.imap_unordered(try_some, tasks):
        ends += more
        wrong += faults
    least, faults = try_spaces(judge, line)
    wrong += faults
    counts = "".join(f"{ends[all_later, six]:>9}" for all_later in (False, True) for six in (True, False))
    print(f"{line.name:18}{size:7}{allocations:>12}{len(picked):>9}{counts}{least or '-':>6}{len(wrong):>7}", flush=True)
    for fault in wrong[:10]:
        print(f"    {fault}")
    return len(wrong)


def lines_of(folder, commands):
    """The lines that are tried on a folder's files."""
    for command in commands:
        files = files_of(command, folder)
        words = words_of(command, files)
        yield Line(command, command, words, files, run(program(), words), False)
        if command == "desk":
            words = [*words[:-1], "2"]
            yield Line("desk, two workers", command, words, files, run(program(), words), True)


def main():
    asked = argparse.ArgumentParser(description=__doc__, formatter_class=argparse.RawDescriptionHelpFormatter)
    asked.add_argument("most", nargs="?", type=int, default=2000)
    asked.add_argument("commands", nargs="*", metavar="command")
    asked.add_argument("--jobs", type=int, default=len(os.sched_getaffinity(0)))
    asked = asked.parse_args()
    library, place, wrong = build_library("refuse"), place_for_files("refused-"), 0
    try:
        folders = {size: make(program(), os.path.join(place, size), size == "busy") for size in ("small", "busy")}
        with multiprocessing.get_context("fork").Pool(asked.jobs, begin, (place,)) as pool:
            judge = Judge(place)
            print(f"{'':46}{'refused alone':>18}{'and all later':>18}")
            print(f"{'line':18}{'input':7}{'allocations':>12}{'refused':>9}" + f"{'status 6':>9}{'its own':>9}" * 2 + f"{'MiB':>6}{'wrong':>7}")
            for size, folder in folders.items():
                for line in lines_of(folder, asked.commands or COMMANDS):
                    wrong += try_line(pool, judge, library, line, size, asked.most)
    finally:
        shutil.rmtree(place)
    print(f"{wrong} runs not as promised")
    sys.exit(wrong > 0)


if __name__ == "__main__":
    main()
