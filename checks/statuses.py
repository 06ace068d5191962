#!/usr/bin/env python3
"""Tries each exit status that a command can give on the program that ships, with the bytes that it writes.

The proofs speak of `run`, and `main` hands its answer to the system: that the system gets it is seen here. Each command
has its rows below. Wants the kit's `rt` where the program is not built yet, and Python's standard library alone.
"""
import os
import resource
import subprocess
import tempfile
from pathlib import Path

from tally import EXAMPLE, Tally, built_program

PROBLEM = (EXAMPLE / "problem").read_bytes()
CERTIFICATE = (EXAMPLE / "certificate").read_bytes()

USAGE = b"""usage:
bidprice check PROBLEM CERTIFICATE
bidprice solve PROBLEM
bidprice group PROBLEM FROM TO ROOMS
bidprice judge PROBLEM JOURNAL
bidprice desk HOTEL STAYS FORECAST BOOKINGS SCRIPT [--workers W]
bidprice replay HOTEL STAYS FORECAST BOOKINGS JOURNAL
bidprice report HOTEL STAYS FORECAST BOOKINGS JOURNAL
bidprice demo SEED NIGHTS ROOMS STAYS
bidprice scenarios PROBLEM CHANGES
bidprice sheet PROBLEM
bidprice portfolio LIST [--workers W]
"""


def claim(value, sell, prices):
    """The text of a certificate."""
    numbers = lambda word, each: " ".join([word, *map(str, each)])
    return f"certificate 1\nvalue {value}\n{numbers('sell', sell)}\n{numbers('prices', prices)}\nend\n".encode()


# One session books a stay of the problem, and leaves.
JOURNAL = b"""journal 1
0 0 publish 0 vector 0
value 250
sell 0 1 1 1
prices 0 100 40
1 1 enrol done
2 1 book 0 accepted 0 100
3 1 leave done
end
"""

# The files of a hotel whose opening problem is that problem.
HOTEL = b"""name = "A"
first_night = "2025-07-01"
nights = 3
rooms = 2
[[night]]
date = "2025-07-02"
rooms = 1
"""

STAYS = b"""code,arrival,nights,rate
P0,2025-07-01,2,100
P1,2025-07-02,2,150
P2,2025-07-01,1,60
P3,2025-07-03,1,40
"""

FORECAST = b"code,count\nP0,3\nP1,1\nP2,1\nP3,5\n"

# That hotel, whose bookings wait for a vector after two changes.
STALE_HOTEL = HOTEL.replace(b"[[night]]", b"stale_after = 2\n[[night]]")

SCRIPT = b"session,verb,item,nights,rooms,amount\n1,book,P0,,,\n1,book,P1,,,\n1,book,P3,,,\n"

# What the one session of that script makes there, where no worker stands beside it.
RUN = b"""journal 2
0 0 publish 0 vector 0
value 250
sell 0 1 1 1
prices 0 100 40
1 1 enrol done
2 1 book 0 accepted 0 100
3 1 book 1 noroom 0 140 1
4 1 publish 4 vector 1
value 140
sell 0 0 1 2
prices 60 40 40
5 1 book 3 accepted 1 40
6 1 leave done
7 0 publish 7 vector 2
value 100
sell 0 0 1 1
prices 60 40 40
end
"""

# The report of that run.
REPORT = b"""night date        rooms   sold   left       price
    0 2025-07-01      2      1      1          60
    1 2025-07-02      1      1      0          40
    2 2025-07-03      2      1      1          40
stay              asked accepted toolow noroom cancelled forecast
P0                    1        1      0      0         0        2
P1                    1        0      0      1         0        0
P2                    0        0      0      0         0        1
P3                    1        1      0      0         0        4
value 100
"""

# The sheet of the problem.
SHEET = b"""night 0 price 0 gain 0 loss 0
night 1 price 100 gain 100 loss 110
night 2 price 40 gain 40 loss 40
arrival 0 least 1 hurdles 0 100 140
arrival 1 least 2 hurdles 100 140
arrival 2 least 1 hurdles 40
"""

# The demo of a hotel with one stay, whose rate is the price of its only room.
DEMO = b"""demo 0 1 1 1
value 5073
prices 5073
accepted 1
toolow 0
noroom 0
closing 0
"""

# And where the house allows one vector.
CUT_RUN = b"""journal 2
0 0 publish 0 vector 0
value 250
sell 0 1 1 1
prices 0 100 40
1 1 enrol done
2 1 book 0 accepted 0 100
3 1 book 1 noroom 0 140 1
4 1 leave done
end
"""

# Four scenarios of the problem, and what is answered.
CHANGES = (EXAMPLE / "changes").read_bytes()

FORESEEN = b"""scenario 1 value 250 prices 0 100 40
scenario 2 value 140 prices 0 110 40
scenario 3 refused 1
scenario 4 value 340 prices 60 140 40
"""

LIST = b"""portfolio 1
hotels 2
one-vector stays forecast bookings script
stale-hotel stays forecast bookings script
end
"""

FILES = {
    "problem": PROBLEM,
    "certificate": CERTIFICATE,
    "one-stay-less": claim(250, [0, 1, 1], [0, 100, 40]),
    "dear": claim(250, [0, 1, 1, 1], [0, 1_000_000_001, 40]),
    "above-forecast": claim(250, [0, 2, 1, 1], [0, 100, 40]),
    "overfull": claim(250, [1, 1, 0, 1], [0, 100, 40]),
    "gap": claim(250, [0, 1, 1, 0], [0, 100, 40]),
    "misvalued": claim(251, [0, 1, 1, 1], [0, 100, 40]),
    "zero-in-front": PROBLEM.replace(b"nights 3", b"nights 03"),
    "many-nights": PROBLEM.replace(b"nights 3", b"nights 401"),
    "cut": PROBLEM[:-1],
    "more": PROBLEM + b" ",
    "cut-certificate": CERTIFICATE[:-5],
    "journal": JOURNAL,
    "early-leave": JOURNAL.replace(b"3 1 leave", b"3 2 leave"),
    "other-reply": JOURNAL.replace(b"accepted 0 100", b"accepted 0 99"),
    "no-vector": b"journal 1\nend\n",
    "zero-in-journal": JOURNAL.replace(b"book 0", b"book 00"),
    "hotel": HOTEL,
    "stays": STAYS,
    "forecast": FORECAST,
    "bookings": b"code,count\n",
    "stale-hotel": STALE_HOTEL,
    "one-vector": STALE_HOTEL.replace(b"stale_after", b"publications = 1\nstale_after"),
    "script": SCRIPT,
    "session-33": SCRIPT.replace(b"1,book,P0", b"33,book,P0"),
    "run": RUN,
    "list": LIST,
    "one-hotel-twice": LIST.replace(b"one-vector", b"stale-hotel"),
    "no-second-script": LIST.replace(b"script\nend", b"absent\nend"),
    "nine": b"portfolio 1\nhotels 9\n",
    "overbooked": b"code,count\nP0,1\nP1,1\n",
    "changes": CHANGES,
    "no-stay": b"scenarios 1\nscenario\ndemand 4 1\nend\n",
    "long": b"p" * (2**24 + 1),
    "greatest": b"p" * 2**24,
}

BOTH = ["check", "problem", "certificate"]

REPLAY = ["replay", "hotel", "stays", "forecast", "bookings"]

STALE = ["stale-hotel", "stays", "forecast", "bookings"]

ONE_VECTOR = ["one-vector", "stays", "forecast", "bookings"]

# A line of words, its status, and the whole text that it writes.
LINES = [
    (BOTH, 0, b"optimal 250\n"),
    (["check", "problem", "one-stay-less"], 1, b"wronglength\n"),
    (["check", "problem", "dear"], 1, b"pricetoogreat 1\n"),
    (["check", "problem", "above-forecast"], 1, b"aboveforecast 1\n"),
    (["check", "problem", "overfull"], 1, b"overfull 1 2\n"),
    (["check", "problem", "gap"], 1, b"gap 210 250\n"),
    (["check", "problem", "misvalued"], 1, b"misvalued 250\n"),
    (["judge", "problem", "journal"], 0, b"legal 4\n"),
    (["judge", "problem", "no-vector"], 1, b"illegal 0 opening\n"),
    (["judge", "problem", "early-leave"], 1, b"illegal 3 caller\n"),
    ([*REPLAY, "journal"], 0, b"legal 4\n"),
    ([*REPLAY, "other-reply"], 1, b"illegal 2 reply\n"),
    (["desk", *STALE, "script", "--workers", "0"], 0, RUN),
    (["replay", *STALE, "run"], 0, b"legal 8\n"),
    (["desk", *ONE_VECTOR, "script", "--workers", "0"], 7, CUT_RUN),
    (["portfolio", "list", "--workers", "0"], 7, b"hotel 1 7\n" + CUT_RUN + b"hotel 2 0\n" + RUN),
    (["portfolio", "one-hotel-twice", "--workers", "0"], 0, b"hotel 1 0\n" + RUN + b"hotel 2 0\n" + RUN),
    (["portfolio", "nine"], 3, b"refused 1 limit 2\n"),
    (["report", *STALE, "run"], 0, REPORT),
    (["report", *REPLAY[1:], "other-reply"], 1, b"illegal 2 reply\n"),
    (["sheet", "problem"], 0, SHEET),
    (["demo", "0", "1", "1", "1"], 0, DEMO),
    (["demo", "000", "01", "1", "1"], 0, DEMO),
    (["scenarios", "problem", "changes"], 0, FORESEEN),
    (["scenarios", "problem", "no-stay"], 3, b"refused 2 limit 3\n"),
    (["scenarios", "problem", "absent"], 4, b"fault 2\n"),
    (["scenarios", "problem"], 2, USAGE),
    ([], 2, USAGE),
    (["help"], 2, USAGE),
    (["check", "problem"], 2, USAGE),
    (["check", "problem", "-certificate"], 2, USAGE),
    (["solve"], 2, USAGE),
    (["sheet"], 2, USAGE),
    (["demo", "0", "401", "1", "1"], 2, USAGE),
    (["demo", "0", "0", "1", "1"], 2, USAGE),
    (["report", *STALE], 2, USAGE),
    (["group", "problem", "0", "2", "0"], 2, USAGE),
    (["desk", *STALE], 2, USAGE),
    (["desk", *STALE, "script", "--workers=2"], 2, USAGE),
    (["desk", *STALE, "session-33"], 3, b"refused 5 session 2\n"),
    (["desk", "hotel", "stays", "forecast", "overbooked", "script"], 3, b"refused 4 overbooked 1\n"),
    (["desk", *STALE, "absent"], 4, b"fault 5\n"),
    (["check", "zero-in-front", "certificate"], 3, b"refused 1 badline 2\n"),
    (["check", "problem", "cut-certificate"], 3, b"refused 2 tooshort\n"),
    (["solve", "many-nights"], 3, b"refused 1 limit 2\n"),
    (["solve", "cut"], 3, b"refused 1 tooshort\n"),
    (["solve", "more"], 3, b"refused 1 trailing 10\n"),
    (["solve", "long"], 3, b"refused 1 toolong\n"),
    (["group", "problem", "2", "2", "1"], 3, b"refused span\n"),
    (["group", "problem", "0", "4", "1"], 3, b"refused span\n"),
    (["group", "problem", "0", "3", "2"], 3, b"noroom 1\n"),
    (["group", "long", "0", "2", "1"], 3, b"refused 1 toolong\n"),
    (["judge", "problem", "zero-in-journal"], 3, b"refused 2 badline 7\n"),
    (["replay", "hotel", "stays", "forecast", "overbooked", "journal"], 3, b"refused 4 overbooked 1\n"),
    ([*REPLAY, "absent"], 4, b"fault 5\n"),
    (["report", *STALE, "absent"], 4, b"fault 5\n"),
    (["report", "hotel", "stays", "forecast", "overbooked", "journal"], 3, b"refused 4 overbooked 1\n"),
    (["sheet", "many-nights"], 3, b"refused 1 limit 2\n"),
    (["sheet", "absent"], 4, b"fault 1\n"),
    (["check", "absent", "certificate"], 4, b"fault 1\n"),
    (["check", "problem", "absent"], 4, b"fault 2\n"),
    (["check", "folder", "certificate"], 4, b"fault 1\n"),
    (["solve", "absent"], 4, b"fault 1\n"),
    (["group", "absent", "0", "2", "1"], 4, b"fault 1\n"),
    (["judge", "absent", "journal"], 4, b"fault 1\n"),
    (["judge", "problem", "absent"], 4, b"fault 2\n"),
    (["portfolio", "absent"], 4, b"fault 1\n"),
    (["portfolio", "no-second-script"], 4, b"fault 11\n"),
]

# A line whose answer has parts that another solver may choose otherwise: how many of each stay are sold.
CHOSEN = [
    (["solve", "problem"], [b"certificate 1", b"value 250", b"prices 0 100 40", b"end"]),
    (
        ["group", "problem", "0", "2", "1"],
        [b"displacement 110", b"certificate 1", b"value 250", b"prices 0 100 40", b"end"]
        + [b"certificate 1", b"value 140", b"prices 0 110 40", b"end"],
    ),
]

# One line of words for each command, and one that no command has: each writes something.
WRITING = [BOTH, ["solve", "problem"], ["group", "problem", "0", "2", "1"], ["judge", "problem", "journal"], [*REPLAY, "journal"], ["desk", *STALE, "script"], ["report", *STALE, "run"], ["sheet", "problem"], ["demo", "0", "1", "1", "1"], ["scenarios", "problem", "changes"], ["portfolio", "list"], ["help"]]

# A line of each command that reads files, whose first file is as long as such files may be, and its refusal.
TOO_SHORT, NO_TOML = b"refused 1 tooshort\n", b"refused 1 nottoml\n"

GREAT = [
    (["check", "greatest", "certificate"], TOO_SHORT),
    (["solve", "greatest"], TOO_SHORT),
    (["group", "greatest", "0", "2", "1"], TOO_SHORT),
    (["judge", "greatest", "journal"], TOO_SHORT),
    (["sheet", "greatest"], TOO_SHORT),
    (["scenarios", "greatest", "changes"], TOO_SHORT),
    (["portfolio", "greatest"], TOO_SHORT),
    (["desk", "greatest", *STALE[1:], "script"], NO_TOML),
    (["replay", "greatest", *STALE[1:], "run"], NO_TOML),
    (["report", "greatest", *STALE[1:], "run"], NO_TOML),
]


def run(program, folder, words, **how):
    how.setdefault("stdout", subprocess.PIPE)
    return subprocess.run([program, *words], cwd=folder, stderr=subprocess.PIPE, timeout=60, **how)


def named(words):
    return " ".join(words) or "no words"


def try_lines(tally, program, folder):
    for words, status, text in LINES:
        done = run(program, folder, words)
        tally.expect(named(words), (done.returncode, done.stdout, done.stderr), (status, text, b""))
    for words, lines in CHOSEN:
        done = run(program, folder, words)
        kept = [line for line in done.stdout.split(b"\n")[:-1] if not line.startswith(b"sell")]
        tally.expect(named(words), (done.returncode, kept, done.stderr), (0, lines, b""))


def try_runs(tally, program, folder):
    """Runs each example hotel's script beside two workers: whatever they publish, the journal is legal on those files."""
    for hotel in ["lindenhof", "season"]:
        files = [EXAMPLE.parent / hotel / name for name in ["hotel.toml", "stays.csv", "forecast.csv", "bookings.csv"]]
        ran = run(program, folder, ["desk", *files, EXAMPLE.parent / hotel / "script.csv"])
        (Path(folder) / "run-of-a-hotel").write_bytes(ran.stdout)
        judged = run(program, folder, ["replay", *files, "run-of-a-hotel"])
        entries = sum(line[:1].isdigit() for line in ran.stdout.splitlines())
        wanted = (0, b"", 0, b"legal %d\n" % entries, b"")
        tally.expect(f"a run of {hotel}", (ran.returncode, ran.stderr, judged.returncode, judged.stdout, judged.stderr), wanted)


def try_words_that_are_no_text(tally, program, folder):
    done = run(program, folder, ["check", b"\xff", "certificate"])
    tally.expect("words that are no text", (done.returncode, done.stdout), (2, b""))


def try_output_that_fails(tally, program, folder):
    for words in WRITING:
        if not Path("/dev/full").is_char_device():
            tally.skip(f"{named(words)} into a full device", "this machine has none")
        else:
            with open("/dev/full", "wb") as full:
                tally.expect(f"{named(words)} into a full device", run(program, folder, words, stdout=full).returncode, 5)
        reader, writer = os.pipe()
        os.close(reader)
        done = run(program, folder, words, stdout=writer)
        os.close(writer)
        tally.expect(f"{named(words)} into a closed pipe", done.returncode, 5)


def with_address_space(bytes_at_most):
    return lambda: resource.setrlimit(resource.RLIMIT_AS, (bytes_at_most, bytes_at_most))


def least_space_to_start(program, folder):
    """The least address space, in steps of 256 KiB, in which the program ends by itself with what it has to say."""
    for space in range(2**20, 2**30, 2**18):
        done = run(program, folder, ["help"], preexec_fn=with_address_space(space))
        if (done.returncode, done.stdout) == (2, USAGE):
            return space
    return None


def try_want_of_memory(tally, program, folder):
    space = least_space_to_start(program, folder)
    if space is None:
        tally.skip("want of memory", "no limit on the address space lets the program start here")
        return
    for words, refusal in GREAT:
        ample = run(program, folder, words)
        tally.expect(f"{named(words)} with ample memory", (ample.returncode, ample.stdout), (3, refusal))
        done = run(program, folder, words, preexec_fn=with_address_space(space + 2**22))
        tally.expect(f"{named(words)} without memory", (done.returncode, done.stdout), (6, b""))


def main():
    program = built_program()
    tally = Tally()
    with tempfile.TemporaryDirectory() as folder:
        for name, data in FILES.items():
            (Path(folder) / name).write_bytes(data)
        (Path(folder) / "folder").mkdir()
        try_lines(tally, program, folder)
        try_runs(tally, program, folder)
        try_words_that_are_no_text(tally, program, folder)
        try_output_that_fails(tally, program, folder)
        try_want_of_memory(tally, program, folder)
    tally.end()


if __name__ == "__main__":
    main()
