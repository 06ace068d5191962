#!/usr/bin/env python3
"""Compares the calls of the library for C, and the Python module over it, with the program's commands, byte for byte.

The library is built as it ships, by both of the kit's compilers. The calls answer the examples, random problems,
spoiled texts and empty ones, each with buffers too short by one and too long. They answer all of them once more under
the address sanitizer, the examples and a few of the others under valgrind, and one of each call with each request for
memory refused in turn. The module is installed by pip, and the script that draws the spread of prices is run. Wants the
kit's `rt` and gcc; valgrind, numpy and matplotlib where they are there.

    checks/embed.py [PROBLEMS]      how many random problems, 1000 where none is said
"""
import json
import os
import random
import shutil
import subprocess
import sys
import tempfile
from concurrent.futures import ThreadPoolExecutor
from pathlib import Path

from tally import EXAMPLE, TOP, Tally, built_program

sys.path.append(str(TOP / "bench"))
from generate import generate, problem_text

OPTIONS = ["-std=c11", "-Wall", "-Wextra", "-Werror", f"-I{TOP / 'include'}"]
WRAPPED = ["-Wl,--wrap=malloc", "-Wl,--wrap=realloc", "-Wl,--wrap=free"]
COMPILERS = [("llvm", []), ("rattle", ["--backend", "rattle"])]
PYTHONS = [sys.executable, "/usr/bin/python3"]
SLOW = 40


def ran(words, **more):
    """The status and the bytes of a program."""
    done = subprocess.run([str(word) for word in words], capture_output=True, **more)
    return done.returncode, done.stdout


def all_of(function, items):
    """The function of each, by as many threads as there are processors."""
    with ThreadPoolExecutor(os.cpu_count()) as pool:
        return list(pool.map(function, items))


def beside(library):
    """The environment in which the module takes this library."""
    return {**os.environ, "BIDPRICE_LIBRARY": str(library / "libbidprice.so")}


class Case:
    """A line of the program whose files hold these texts: a call, and what the command gave."""

    def __init__(self, call, texts, numbers=(), problem=None):
        self.call, self.texts, self.numbers, self.problem = call, texts, numbers, problem
        self.status, self.said = None, None

    def put(self, folder, number):
        """Writes the texts down; gives the words behind the program's name."""
        names = []
        for place, text in enumerate(self.texts):
            names.append(folder / f"{number}.{place}")
            names[-1].write_bytes(text)
        self.words = [*names, *self.numbers]
        return self

    def ask(self, program):
        self.status, self.said = ran([program, self.command(), *self.words])

    def command(self):
        return "solve" if self.call == "numbers" else self.call

    def plain(self):
        """The same for the script of the Python module."""
        rooms, stays = self.problem or (None, None)
        texts = [text.decode("latin-1") for text in self.texts]
        said = self.said.decode("latin-1")
        asked = dict(call=self.call, texts=texts, numbers=self.numbers, rooms=rooms, stays=stays)
        return dict(asked, status=self.status, said=said)


def some_problem(chance, kind):
    """A random problem within the limits of a text."""
    nights, stays = chance.choice([(1, 3), (3, 5), (8, 20), (14, 60), (30, 200)])
    seed, most = chance.randrange(1 << 30), chance.choice([0, 1, 3, 10, 50])
    rooms, rows = generate(seed, nights, most, chance.choice([0, 1, stays]))
    if kind % 3 == 0:
        rooms = [chance.choice([0, 1, 2, 9, 10000]) for _ in rooms]
    if kind % 4 == 0:
        rates, forecasts = [1, 5, 1000000000], [0, 1, 1000000]
        rows = [(f, t, chance.choice(rates), chance.choice(forecasts)) for f, t, _, _ in rows]
    return rooms, rows


def spoiled(chance, text):
    """The text with one thing wrong."""
    cut = chance.randrange(len(text) + 1)
    how = chance.randrange(4)
    if how == 0:
        return text[:cut]
    if how == 1:
        return text + b"end\n"
    if how == 2:
        return text[:cut] + bytes([chance.randrange(256)]) + text[cut + 1 :]
    lines = text.split(b"\n")
    at = chance.randrange(len(lines))
    lines[at] += b"9999999999"
    return b"\n".join(lines)


def group_of(chance, nights):
    """Nights and rooms of a group: mostly some that are there."""
    first = chance.randrange(nights)
    last = first + 1 + chance.randrange(min(7, nights - first))
    odd = [(last, first, 1), (first, nights + 1, 1), (0, 1, 0), (0, 1, 10001)]
    odd += [(1000000000, 1000000001, 1), (0, 999999999, 1), (0, 1000000000, 1), (0, 4294967295, 2), (0, 1, 10000)]
    return chance.choice([(first, last, chance.randrange(1, 6))] * 5 + odd)


def changes_of(chance, nights, stays):
    """The text of a few lists of changes: mostly some that are there."""
    lines = ["scenarios 1"]
    for _ in range(chance.randrange(6)):
        lines.append("scenario")
        for _ in range(chance.randrange(4)):
            first = chance.randrange(nights)
            last = first + 1 + chance.randrange(min(7, nights - first))
            stay = chance.randrange(stays) if stays else 0
            moved = f"rooms {first} {last} {chance.choice(['up', 'down'])} {chance.randrange(1, 4)}"
            asked, paid = f"demand {stay} {chance.randrange(20)}", f"rate {stay} {chance.randrange(1, 9000)}"
            lines.append(chance.choice([moved, asked, paid]))
    return "\n".join([*lines, "end", ""]).encode()


def cases_of(chance, rooms, rows, certificate):
    """What is asked of one problem."""
    problem = problem_text(rooms, rows).encode()
    vector = b"\n".join(certificate.split(b"\n")[1:4])
    journal = b"journal 2\n0 0 publish 0 vector 0\n" + vector + b"\nend\n"
    return [
        Case("numbers", [problem], problem=(rooms, rows)),
        Case("solve", [problem]),
        Case("check", [problem, certificate]),
        Case("check", [problem, spoiled(chance, certificate)]),
        Case(chance.choice(["solve", "sheet"]), [spoiled(chance, problem)]),
        Case("group", [problem], group_of(chance, len(rooms))),
        Case("judge", [problem, journal]),
        Case("judge", [problem, spoiled(chance, journal)]),
        Case("scenarios", [problem, changes_of(chance, len(rooms), len(rows))]),
        Case("sheet", [problem]),
    ]


def example_cases():
    """What is asked of the files of the example, and of empty ones."""
    texts = {name: (EXAMPLE / name).read_bytes() for name in ("problem", "certificate", "journal", "changes")}
    cases = []
    for p in (texts["problem"], b""):
        cases += [Case("solve", [p]), Case("sheet", [p]), Case("group", [p], (0, 2, 1))]
        cases += [Case("check", [p, c]) for c in (texts["certificate"], b"", texts["journal"])]
        cases += [Case("scenarios", [p, c]) for c in (texts["changes"], b"", texts["journal"])]
        cases += [Case("judge", [p, j]) for j in (texts["journal"], b"", texts["journal"].replace(b" 1 ", b" 2 ", 1))]
    return cases


def random_cases(chance, program, many, folder):
    """What is asked of random problems, which are solved first."""
    problems = [some_problem(chance, kind) for kind in range(many)]
    texts = [problem_text(*problem).encode() for problem in problems]
    solved = [Case("solve", [text]).put(folder, f"s{n}") for n, text in enumerate(texts)]
    all_of(lambda case: case.ask(program), solved)
    return [case for problem, first in zip(problems, solved) for case in cases_of(chance, *problem, first.said)]


def compiled(folder, name, library, *options):
    """The program of the calls, over a library."""
    program = folder / name
    parts = [TOP / "checks" / "embed_calls.c", library / "libbidprice.a"]
    words = ["gcc", "-O1", "-g", *OPTIONS, *options, *WRAPPED, *parts]
    subprocess.run([*map(str, words), "-o", str(program)], check=True)
    return program


def compare(tally, name, cases, before, **environment):
    """Counts one check for each call: of each of its cases it gives what the command gave."""
    found = all_of(lambda case: ran([*before, case.call, *case.words], env={**os.environ, **environment}), cases)
    for call in sorted({case.call for case in cases}):
        pairs = [(case, answer, (case.status, case.said)) for case, answer in zip(cases, found) if case.call == call]
        wrong = [(case.words, answer, wanted) for case, answer, wanted in pairs if answer != wanted]
        tally.holds(f"{name}, {call}, {len(pairs)} cases", not wrong, f"{len(wrong)} differ, first {wrong[:1]!r:.2000}")


def compare_module(tally, name, cases, folder, library):
    """Counts one check for each Python: the module gives what the commands gave."""
    told = folder / "cases.json"
    told.write_text(json.dumps([case.plain() for case in cases]), "utf-8")
    for python in dict.fromkeys(PYTHONS):
        if not Path(python).exists():
            tally.skip(f"{name}, {python}", "it is not there")
            continue
        words = [python, str(TOP / "checks" / "embed_python.py"), str(told)]
        done = subprocess.run(words, capture_output=True, text=True, env=beside(library))
        tally.holds(f"{name}, {python}", done.returncode == 0, done.stderr[-1000:])
        print(f"{name}, {python}: {done.stdout.strip()}")


def refuse_memory(tally, name, program, cases):
    """Counts one check for each call: with each request for memory refused in turn, status 6, and nothing lost."""
    for case in cases:
        status, said = ran([program, "refuse", case.call, *case.words])
        tally.holds(f"{name}, {case.call} without memory", status == 0 and b"refused in turn" in said, said[-300:])
        print(f"{name}, {case.call}: {said.decode().strip()}")


def example_program(tally, name, folder, library):
    """Counts two checks: the example for C is built against either library, and prints what docs/embed.md says."""
    page = (TOP / "docs" / "embed.md").read_text("utf-8")
    static, shared = [library / "libbidprice.a"], [f"-L{library}", f"-Wl,-rpath,{library}", "-lbidprice"]
    for kind, options in (("static", static), ("shared", shared)):
        program = folder / f"three_nights_{kind}"
        words = ["gcc", *OPTIONS, TOP / "examples" / "embed" / "three_nights.c", *options, "-o", program]
        subprocess.run([str(word) for word in words], check=True)
        status, said = ran([program])
        shown = status == 0 and said and said.decode() in page
        tally.holds(f"{name}, the example with the {kind} library", shown, said)


def check_install(tally, folder, library):
    """Counts one check for each Python that has pip: the module installed by it solves without the repository."""
    source = folder / "python"
    shutil.copytree(TOP / "python", source, ignore=shutil.ignore_patterns("__pycache__", "libbidprice.so"))
    shutil.copy(library / "libbidprice.so", source / "bidprice")
    bare = {name: value for name, value in os.environ.items() if name not in ("BIDPRICE_LIBRARY", "PYTHONPATH")}
    stays = "[(0, 2, 100, 3), (1, 3, 150, 1), (0, 1, 60, 1), (2, 3, 40, 5)]"
    asked = f"import bidprice; print(bidprice.solve([2, 1, 2], {stays}), end='')"
    wanted = (0, (EXAMPLE / "certificate").read_bytes())
    for number, python in enumerate(dict.fromkeys(PYTHONS)):
        if not Path(python).exists() or ran([python, "-m", "pip", "--version"])[0] != 0:
            tally.skip(f"the module installed for {python}", "it has no pip")
            continue
        target = folder / f"installed{number}"
        words = [python, "-m", "pip", "install", "-q", "--no-index", "--no-build-isolation", "--target", target, source]
        installed = subprocess.run([str(word) for word in words], capture_output=True, text=True)
        found = ran([python, "-c", asked], cwd=folder, env={**bare, "PYTHONPATH": str(target)})
        tally.holds(f"the module installed for {python}", found == wanted, f"{found!r}, {installed.stderr[-500:]}")


def check_spread(tally, folder, library):
    """Counts one check: the script of a thousand draws solves the season and draws its picture."""
    names = [TOP / "examples" / "season" / name for name in ("hotel.toml", "stays.csv", "forecast.csv", "bookings.csv")]
    for python in dict.fromkeys(PYTHONS):
        if Path(python).exists() and ran([python, "-c", "import numpy, matplotlib"])[0] == 0:
            words = [python, TOP / "examples" / "embed" / "spread.py", *names, folder / "spread"]
            status, said = ran(words, env=beside(library))
            drawn = all((folder / f"spread.{kind}").exists() for kind in ("png", "svg"))
            tally.holds("the spread of a season", status == 0 and drawn and said.startswith(b"value "), said)
            return
    tally.skip("the spread of a season", "no Python here has numpy and matplotlib")


def largest_cases(cases, folder):
    """Of each call one case, with the largest problem where the call has one of its own."""
    largest = max((case for case in cases if case.problem and case.status == 0), key=lambda case: len(case.texts[0]))
    texts = largest.texts
    changes = b"scenarios 1\nscenario\nrate 0 9\nend\n"
    more = [Case("solve", texts), Case("sheet", texts), Case("group", texts, (0, 1, 1))]
    more.append(Case("scenarios", [*texts, changes]))
    few = [next(case for case in cases if case.call == call) for call in ("check", "judge")]
    return [largest, *few, *(case.put(folder, f"m{n}") for n, case in enumerate(more))]


def check_library(tally, name, options, cases, few, folder):
    """All checks of the library from one of the kit's compilers."""
    library = folder / name
    subprocess.run([str(TOP / "checks" / "library.sh"), str(library), *options], check=True)
    calls = compiled(folder, f"calls_{name}", library)
    compare(tally, name, cases, [calls])
    compare_module(tally, name, cases, folder, library)
    # The blocks of the calls are counted by the program itself; its own buffers live to its end.
    checked = compiled(folder, f"checked_{name}", library, "-fsanitize=address")
    compare(tally, f"{name} under the address sanitizer", cases, [checked], ASAN_OPTIONS="detect_leaks=0")
    if shutil.which("valgrind"):
        before = ["valgrind", "-q", "--error-exitcode=90", "--leak-check=no", calls]
        compare(tally, f"{name} under valgrind", few, before)
    else:
        tally.skip(f"{name} under valgrind", "it is not there")
    refuse_memory(tally, name, calls, largest_cases(cases, folder))
    example_program(tally, name, folder, library)


def main():
    tally = Tally()
    program = built_program()
    chance = random.Random(21)
    many = int(sys.argv[1]) if len(sys.argv) > 1 else 1000
    with tempfile.TemporaryDirectory() as place:
        folder = Path(place)
        cases = example_cases() + random_cases(chance, program, many, folder)
        cases = [case.put(folder, number) for number, case in enumerate(cases)]
        all_of(lambda case: case.ask(program), cases)
        few = cases[: len(example_cases())] + chance.sample(cases, min(SLOW, len(cases)))
        for name, options in COMPILERS:
            check_library(tally, name, options, cases, few, folder)
        check_install(tally, folder, folder / COMPILERS[0][0])
        check_spread(tally, folder, folder / COMPILERS[0][0])
    tally.end()


if __name__ == "__main__":
    main()
