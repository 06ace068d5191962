"""A line of each command, on a small input and on a busy one, for the scripts of this folder that try them hard."""
import os
import random
import subprocess

from generate import generate, problem_text
from houses import House, date

EXAMPLES = os.path.join(os.path.dirname(os.path.dirname(os.path.abspath(__file__))), "examples")
HOTEL = ["hotel.toml", "stays.csv", "forecast.csv", "bookings.csv"]

# The names of the files that a command takes, in order, and its words: a name of a file is given by its place.
COMMANDS = {
    "check": (["problem", "certificate"], ["check", 0, 1]),
    "solve": (["problem"], ["solve", 0]),
    "group": (["problem"], ["group", 0, "0", "2", "1"]),
    "sheet": (["problem"], ["sheet", 0]),
    "scenarios": (["problem", "changes"], ["scenarios", 0, 1]),
    "judge": (["problem", "problem-journal"], ["judge", 0, 1]),
    "replay": ([*HOTEL, "journal"], ["replay", 0, 1, 2, 3, 4]),
    "report": ([*HOTEL, "journal"], ["report", 0, 1, 2, 3, 4]),
    "desk": ([*HOTEL, "script.csv"], ["desk", 0, 1, 2, 3, 4, "--workers", "0"]),
    "portfolio": (["list"], ["portfolio", 0, "--workers", "0"]),
    "demo": ([], ["demo", "7", "60", "20", "200"]),
}

# How many files a command reads, where its words name fewer.
READS = {"portfolio": 11}

# One stay of the problem is booked, as it is judged over any problem with such a vector in front.
JOURNAL_OF_A_PROBLEM = "journal 1\n0 0 publish 0 vector 0\n{claim}1 1 enrol done\n2 1 leave done\nend\n"


def words_of(command, files):
    """The words of a command on files given in its own order."""
    return [files[word] if isinstance(word, int) else word for word in COMMANDS[command][1]]


def run(program, words, **how):
    """The status and the text of a line."""
    done = subprocess.run([program, *words], capture_output=True, **how)
    return done.returncode, done.stdout


def said(program, words, statuses=(0,)):
    """The text of a line that ends well."""
    status, text = run(program, words)
    if status not in statuses:
        raise SystemExit(f"{' '.join(words)} ended with status {status}: {text[:200]!r}")
    return text


def read(*path):
    """The bytes of a file of the examples."""
    with open(os.path.join(EXAMPLES, *path), "rb") as file:
        return file.read()


def write(folder, name, data):
    with open(os.path.join(folder, name), "wb") as out:
        out.write(data)


def by_one_session(script):
    """The commands of a script as those of one session, so that a run without workers has one journal alone."""
    header, *records = script.splitlines(keepends=True)
    return header + "".join("1," + record.split(",", 1)[1] for record in records)


def changes(count):
    """A text of so many scenarios of three changes each, rooms, a rate and a forecast each."""
    lines = ["scenarios 1"]
    for nth in range(count):
        lines += ["scenario", f"rooms 0 2 {'up' if nth % 2 else 'down'} 1", f"rate 0 {100 + nth}", f"demand {nth % 4} {nth}"]
    return "\n".join(lines + ["end", ""])


def list_of(hotels):
    """The list of a portfolio."""
    return "\n".join(["portfolio 1", f"hotels {len(hotels)}", *(" ".join(files) for files in hotels), "end", ""])


def make(program, folder, busy):
    """Writes every file that a command takes into a folder: of the examples, or of a season made from a seed."""
    os.makedirs(folder, exist_ok=True)
    if busy:
        write(folder, "problem", problem_text(*generate(11, 60, 40, 400)).encode())
        house = House(5, nights=60, rooms=12, stays=300, publications=200)
        house.write(folder)
        write(folder, "script.csv", house.script(1, 400).encode())
    else:
        for name in HOTEL:
            write(folder, name, read("lindenhof", name))
        write(folder, "script.csv", by_one_session(read("lindenhof", "script.csv").decode()).encode())
        write(folder, "problem", read("three-nights", "problem"))
    claim = make_certificate(program, folder)
    write(folder, "problem-journal", JOURNAL_OF_A_PROBLEM.format(claim=claim).encode())
    finish(program, folder, 100 if busy else 3)
    return folder


def make_small(program, folder, seed):
    """Writes every file that a command takes into a folder: of a house of a few nights and stays, made from a seed, whose
    one session makes commands of each kind. The journal of its problem is that of a desk before which nothing was sold."""
    draw = random.Random(seed)
    nights, rooms, stays = draw.randint(2, 8), draw.randint(1, 5), draw.randint(4, 8)
    house = House(seed, nights, rooms, stays, stale_after=100_000, groups=0.1)
    house.write(folder)
    write(folder, "problem", house.problem().encode())
    make_certificate(program, folder)
    write(folder, "script.csv", house.script(1, 16).encode())
    here = [os.path.join(folder, name) for name in (*HOTEL, "script.csv")]
    write(folder, "problem-journal", said(program, words_of("desk", here)))
    house.stale_after = draw.randint(2, 6)
    house.write(folder)
    with open(here[0], "a") as out:
        out.write(f'[[night]]\ndate = "{date(house.nights - 1)}"\nrooms = {house.rooms + draw.randint(0, 2)}\n')
    write(folder, "bookings.csv", f"code,count\n{house.code(0)},1\n".encode())
    finish(program, folder, 3)
    return folder


def make_certificate(program, folder):
    """Writes the certificate of a folder's problem, and gives what a journal has of it."""
    certificate = said(program, ["solve", os.path.join(folder, "problem")])
    write(folder, "certificate", certificate)
    return b"".join(certificate.splitlines(keepends=True)[1:-1]).decode()


def finish(program, folder, scenarios):
    """Writes the files that rest on those of a hotel and a problem, where the journal of the problem has to be legal."""
    here = lambda *names: [os.path.join(folder, name) for name in names]
    said(program, words_of("judge", here("problem", "problem-journal")))
    write(folder, "changes", changes(scenarios).encode())
    write(folder, "list", list_of([here(*HOTEL, "script.csv")] * 2).encode())
    write(folder, "journal", said(program, words_of("desk", here(*HOTEL, "script.csv")), statuses=(0, 7)))


def files_of(command, folder):
    return [os.path.join(folder, name) for name in COMMANDS[command][0]]
