#!/usr/bin/env python3
"""Tries each limit of the program at its edge and one past it.

    bench/limits.py

It wants the program and Python's standard library. Each row of the table is a limit: the greatest (or least) value, which
has to be taken, and the next one, which has to be refused in the words that stand beside it. The files are made for it.
The script ends with status 1 where a row is not as promised.
"""
import os
import re
import subprocess
import sys
import tempfile

from program import program

HOTEL = """name = "A"
first_night = "2025-07-01"
nights = 3
rooms = 2
"""
STAYS = "code,arrival,nights,rate\nP0,2025-07-01,2,100\nP1,2025-07-02,2,150\n"
COUNTS = "code,count\n"
SCRIPT = "session,verb,item,nights,rooms,amount\n"
EMPTY = {"hotel": HOTEL, "stays": STAYS, "forecast": COUNTS, "bookings": COUNTS, "script": SCRIPT}
ONE_NIGHT = "code,arrival,nights,rate\nP0,2025-07-01,1,100\n"
DESK = ["desk", "hotel", "stays", "forecast", "bookings", "script", "--workers", "0"]


def problem(nights=3, rooms=None, stays=None):
    rooms = [2] * nights if rooms is None else rooms
    stays = [(0, 2, 100, 3)] if stays is None else stays
    lines = ["problem 1", f"nights {nights}", "rooms " + " ".join(map(str, rooms)), f"stays {len(stays)}"]
    lines += ["stay %d %d %d %d" % stay for stay in stays]
    return "\n".join(lines + ["end", ""])


def certificate(value=0, sell=(0,), prices=(0, 0, 0)):
    line = lambda word, numbers: " ".join([word, *map(str, numbers)])
    return "\n".join(["certificate 1", f"value {value}", line("sell", sell), line("prices", prices), "end", ""])


def journal(entry):
    """A journal of a problem without forecasts, and one entry of caller 1."""
    claim = "value 0\nsell 0\nprices 0 0 0\n"
    return f"journal 2\n0 0 publish 0 vector 0\n{claim}1 1 enrol done\n{entry}\nend\n"


CLAIM = "value 0\nsell 0\nprices 0 0 0"
NO_DEMAND = problem(stays=[(0, 2, 100, 0)])


def solve(text):
    return ["solve", "problem"], {"problem": text}


def check(text, of=None):
    return ["check", "problem", "certificate"], {"problem": of or NO_DEMAND, "certificate": text}


def group(rooms):
    return ["group", "problem", "0", "1", str(rooms)], {"problem": problem(rooms=[10_000] * 3)}


def judge(entry):
    return ["judge", "problem", "journal"], {"problem": NO_DEMAND, "journal": journal(entry)}


def long_history(entries):
    """A journal of a problem without forecasts: these entries of places 2, 3 and so on, behind caller 1's Enrol."""
    lines = [f"{2 + nth} {entry}" + ("\n" + CLAIM if " publish " in entry else "") for nth, entry in enumerate(entries)]
    text = "\n".join([f"journal 2\n0 0 publish 0 vector 0\n{CLAIM}\n1 1 enrol done", *lines, "end", ""])
    return ["judge", "problem", "journal"], {"problem": NO_DEMAND, "journal": text}


def cancels(count):
    """A journal of so many commands."""
    return long_history(["1 cancel 1 notbooked"] * count)


def vectors(count):
    """A journal of so many vectors, each after a new forecast."""
    return long_history([entry for nth in range(1, count) for entry in ("1 reforecast 0 0 done", f"0 publish {2 * nth + 1} vector {nth}")])


def desk(workers="0", **files):
    return [*DESK[:-1], workers], {**EMPTY, **files}


def script(*records, **files):
    return desk(script=SCRIPT + "".join(record + "\n" for record in records), **files)


def hotel(key, value, **files):
    return desk(**files, hotel=re.sub(rf"^{key} = .*$", f"{key} = {value}", HOTEL, flags=re.M) if f"\n{key} = " in HOTEL else HOTEL + f"{key} = {value}\n")


def stay(code="P2", arrival="2025-07-01", nights=1, rate=100, **files):
    return desk(stays=STAYS + f"{code},{arrival},{nights},{rate}\n", **files)


def many_stays(count):
    rows = "".join(f"P{nth},2025-07-01,1,100\n" for nth in range(count))
    return desk(stays="code,arrival,nights,rate\n" + rows)


def long_problem(size):
    """A text of so many bytes whose first line is no line of a problem."""
    return ["solve", "problem"], {"problem": "p" * size}


def long_journal(size):
    return ["judge", "problem", "journal"], {"problem": NO_DEMAND, "journal": "p" * size}


def night(rooms):
    return desk(hotel=HOTEL + f'[[night]]\ndate = "2025-07-01"\nrooms = {rooms}\n')


def full(settings, commands):
    """One session that makes so many commands at a house with these settings: in turn a booking and a new forecast."""
    records = ["1,book,P0,,,", "1,reforecast,P1,,,1"] * commands
    return script(*records[:commands], hotel=HOTEL + settings + "\n")


def long_file(name, text, size):
    """A line of `desk` with one file of so many bytes."""
    return desk(**{name: text + "A" * (size - len(text))})


def hotels(count):
    """A portfolio of so many hotels, each with the same files."""
    line = "hotel stays forecast bookings script\n"
    return ["portfolio", "list", "--workers", "0"], {**EMPTY, "list": f"portfolio 1\nhotels {count}\n" + line * count + "end\n"}


def named(size):
    """A portfolio whose hotel file has a name of so many bytes, with which no file is there."""
    line = "n" * size + " stays forecast bookings script\n"
    return ["portfolio", "list"], {**EMPTY, "list": "portfolio 1\nhotels 1\n" + line + "end\n"}


def long_list(size):
    return ["portfolio", "list"], {"list": "p" * size}


def scenarios(lines):
    return ["scenarios", "problem", "changes"], {"problem": problem(), "changes": "\n".join(["scenarios 1", *lines, "end", ""])}


def changed(line, count=1):
    """One scenario of so many times this change, at three nights of two rooms and one stay."""
    return scenarios(["scenario"] + [line] * count)


def demo(seed=7, nights=9, rooms=2, stays=12):
    return ["demo", *map(str, (seed, nights, rooms, stays))], {}


USAGE = "usage"
TAKEN = "taken"  # any answer but a refusal or the usage, of a run that is whole
CUT = "cut"  # a run that a limit of its house has cut
NOBODY = 18_446_744_073_709_551_615

# What has a limit; the line at its edge, with what is printed; and the line one past it, with what is printed.
LIMITS = [
    ("nights of a problem, 1", solve(problem(1, stays=[])), TAKEN, solve(problem(0, stays=[])), "refused 1 limit 2"),
    ("nights of a problem, 400", solve(problem(400)), TAKEN, solve(problem(401)), "refused 1 limit 2"),
    ("rooms of a night, 10,000", solve(problem(rooms=[10_000] * 3)), TAKEN, solve(problem(rooms=[2, 10_001, 2])), "refused 1 limit 3"),
    ("stays of a problem, 4,000", solve(problem(stays=[(0, 1, 1, 1)] * 4000)), TAKEN, solve(problem(stays=[(0, 1, 1, 1)] * 4001)), "refused 1 limit 4"),
    ("a stay's last night", solve(problem(stays=[(2, 3, 1, 1)])), TAKEN, solve(problem(stays=[(2, 4, 1, 1)])), "refused 1 limit 5"),
    ("FROM below TO", solve(problem(stays=[(1, 2, 1, 1)])), TAKEN, solve(problem(stays=[(2, 2, 1, 1)])), "refused 1 limit 5"),
    ("a rate, 1", solve(problem(stays=[(0, 1, 1, 1)])), TAKEN, solve(problem(stays=[(0, 1, 0, 1)])), "refused 1 limit 5"),
    ("a rate, 10^9", solve(problem(stays=[(0, 1, 10**9, 1)])), TAKEN, solve(problem(stays=[(0, 1, 10**9 + 1, 1)])), "refused 1 limit 5"),
    ("a forecast, 1,000,000", solve(problem(stays=[(0, 1, 1, 10**6)])), TAKEN, solve(problem(stays=[(0, 1, 1, 10**6 + 1)])), "refused 1 limit 5"),
    ("a file, 16 MiB", long_problem(2**24), "refused 1 tooshort", long_problem(2**24 + 1), "refused 1 toolong"),
    ("a value, 10^30", check(certificate(10**30)), "misvalued 0", check(certificate(10**30 + 1)), "refused 2 limit 2"),
    ("sold numbers, 4,000", check(certificate(sell=[0] * 4000)), "wronglength", check(certificate(sell=[0] * 4001)), "refused 2 limit 3"),
    ("prices, 400", check(certificate(prices=[0] * 400)), "wronglength", check(certificate(prices=[0] * 401)), "refused 2 limit 4"),
    ("a sold number, 2^64 - 1", check(certificate(sell=[NOBODY])), "aboveforecast 0", check(certificate(sell=[NOBODY + 1])), "refused 2 limit 3"),
    ("a price that is checked, 10^9", check(certificate(prices=[10**9, 0, 0])), "gap 0 2000000000", check(certificate(prices=[10**9 + 1, 0, 0])), "pricetoogreat 0"),
    ("a price that is read, 2^64 - 1", check(certificate(prices=[NOBODY, 0, 0])), "pricetoogreat 0", check(certificate(prices=[NOBODY + 1, 0, 0])), "refused 2 limit 4"),
    ("rooms of a group, 1", group(1), TAKEN, group(0), USAGE),
    ("rooms of a group, 10,000", group(10_000), TAKEN, group(10_001), USAGE),
    ("digits of a word, 9", group("000000001"), TAKEN, group("0000000001"), USAGE),
    ("a journal, 64 MiB", long_journal(2**26), "refused 2 tooshort", long_journal(2**26 + 1), "refused 2 toolong"),
    ("a stay in a journal, 2^32 - 1", judge(f"2 1 book {2**32 - 1} toolow 0 0 100"), "illegal 2 range", judge(f"2 1 book {2**32} toolow 0 0 100"), "refused 2 limit 7"),
    ("a number in a journal, 2^64 - 1", judge(f"2 1 book 0 accepted 0 {NOBODY}"), "illegal 2 reply", judge(f"2 1 book 0 accepted 0 {NOBODY + 1}"), "refused 2 limit 7"),
    ("a displacement, 10^30", judge(f"2 1 group 0 1 1 0 accepted {10**30}"), "illegal 2 reply", judge(f"2 1 group 0 1 1 0 accepted {10**30 + 1}"), "refused 2 limit 7"),
    ("a caller, 63", judge("2 63 enrol done"), "legal 3", judge("2 64 enrol done"), "illegal 2 caller"),
    ("commands of a journal, 200,000", cancels(200_000), "legal 200002", cancels(200_001), "illegal 200002 limit"),
    ("vectors of a journal, 1,000", vectors(1_000), "legal 2000", vectors(1_001), "illegal 2001 limit"),
    ("nights of a hotel, 1", hotel("nights", 1, stays=ONE_NIGHT), TAKEN, hotel("nights", 0), "refused 1 range nights"),
    ("nights of a hotel, 400", hotel("nights", 400), TAKEN, hotel("nights", 401), "refused 1 range nights"),
    ("rooms of a hotel, 10,000", hotel("rooms", 10_000), TAKEN, hotel("rooms", 10_001), "refused 1 range rooms"),
    ("rooms of a hotel, 0", hotel("rooms", 0), TAKEN, hotel("rooms", -1), "refused 1 range rooms"),
    ("stale_after, 1", hotel("stale_after", 1), TAKEN, hotel("stale_after", 0), "refused 1 range stale_after"),
    ("stale_after, 100,000", hotel("stale_after", 100_000), TAKEN, hotel("stale_after", 100_001), "refused 1 range stale_after"),
    ("entries, 200,000", hotel("entries", 200_000), TAKEN, hotel("entries", 200_001), "refused 1 range entries"),
    ("entries, 1", hotel("entries", 1), TAKEN, hotel("entries", 0), "refused 1 range entries"),
    ("publications, 1,000", hotel("publications", 1_000), TAKEN, hotel("publications", 1_001), "refused 1 range publications"),
    ("publications, 1", hotel("publications", 1), TAKEN, hotel("publications", 0), "refused 1 range publications"),
    ("unit, 100", hotel("unit", 100), TAKEN, hotel("unit", 101), "refused 1 range unit"),
    ("unit, 1", hotel("unit", 1), TAKEN, hotel("unit", 0), "refused 1 range unit"),
    ("unit, 1 or 100 and none between", hotel("unit", 1), TAKEN, hotel("unit", 2), "refused 1 range unit"),
    ("the last night, 9999-12-30", hotel("first_night", '"9999-12-28"'), "refused 2 outside 2", hotel("first_night", '"9999-12-29"'), "refused 1 range first_night"),
    ("a code, 16 letters", stay(code="A" * 16), TAKEN, stay(code="A" * 17), "refused 2 code 4"),
    ("a code, 1 letter", stay(code="A"), TAKEN, stay(code=""), "refused 2 code 4"),
    ("nights of a stay, 1", stay(), TAKEN, stay(nights=0), "refused 2 limit 4"),
    ("nights of a stay, to the last", stay(nights=3), TAKEN, stay(nights=4), "refused 2 outside 4"),
    ("rate of a stay, 1", stay(rate=1), TAKEN, stay(rate=0), "refused 2 limit 4"),
    ("rate of a stay, 10^9", stay(rate=10**9), TAKEN, stay(rate=10**9 + 1), "refused 2 limit 4"),
    ("digits of a number, 18", stay(rate="0" * 15 + "100"), TAKEN, stay(rate="0" * 16 + "100"), "refused 2 number 4"),
    ("stays of a hotel, 4,000", many_stays(4000), TAKEN, many_stays(4001), "refused 2 limit 4002"),
    ("a forecast in a table, 1,000,000", desk(forecast=COUNTS + "P0,1000000\n"), TAKEN, desk(forecast=COUNTS + "P0,1000001\n"), "refused 3 limit 2"),
    ("rooms sold, as many as there are", desk(bookings=COUNTS + "P0,2\n"), TAKEN, desk(bookings=COUNTS + "P0,3\n"), "refused 4 overbooked 0"),
    ("sessions, 32", script("32,book,P0,,,"), TAKEN, script("33,book,P0,,,"), "refused 5 session 2"),
    ("a session, 1", script("1,book,P0,,,"), TAKEN, script("0,book,P0,,,"), "refused 5 session 2"),
    ("an old booking, 200,000", script("1,cancel,200000,,,"), TAKEN, script("1,cancel,200001,,,"), "refused 5 limit 2"),
    ("an old booking, 1", script("1,cancel,1,,,"), TAKEN, script("1,cancel,0,,,"), "refused 5 limit 2"),
    ("a new forecast, 1,000,000", script("1,reforecast,P0,,,1000000"), TAKEN, script("1,reforecast,P0,,,1000001"), "refused 5 limit 2"),
    ("a new forecast, 0", script("1,reforecast,P0,,,0"), TAKEN, script("1,reforecast,P0,,,-1"), "refused 5 number 2"),
    ("a new rate, 10^9", script("1,reprice,P0,,,1000000000"), TAKEN, script("1,reprice,P0,,,1000000001"), "refused 5 limit 2"),
    ("a new rate, 1", script("1,reprice,P0,,,1"), TAKEN, script("1,reprice,P0,,,0"), "refused 5 limit 2"),
    ("new rooms, 10,000", script("1,resize,2025-07-01,,10000,"), TAKEN, script("1,resize,2025-07-01,,10001,"), "refused 5 limit 2"),
    ("new rooms, 0", script("1,resize,2025-07-01,,0,"), TAKEN, script("1,resize,2025-07-01,,-1,"), "refused 5 number 2"),
    ("rooms of a session's group, 10,000", script("1,group,2025-07-01,1,10000,1"), TAKEN, script("1,group,2025-07-01,1,10001,1"), "refused 5 limit 2"),
    ("rooms of a session's group, 1", script("1,group,2025-07-01,1,1,1"), TAKEN, script("1,group,2025-07-01,1,0,1"), "refused 5 limit 2"),
    ("nights of a session's group, 1", script("1,group,2025-07-01,1,1,1"), TAKEN, script("1,group,2025-07-01,0,1,1"), "refused 5 limit 2"),
    ("nights of a session's group, to the last", script("1,group,2025-07-02,2,1,1"), TAKEN, script("1,group,2025-07-02,3,1,1"), "refused 5 outside 2"),
    ("what a group pays, 10^15", script(f"1,group,2025-07-01,1,1,{10**15}"), TAKEN, script(f"1,group,2025-07-01,1,1,{10**15 + 1}"), "refused 5 limit 2"),
    ("what a group pays, 0", script("1,group,2025-07-01,1,1,0"), TAKEN, script("1,group,2025-07-01,1,1,-1"), "refused 5 number 2"),
    ("commands of a script, 200,000", script(*["1,cancel,1,,,"] * 200_000), TAKEN, script(*["1,cancel,1,,,"] * 200_001), "refused 5 limit 200002"),
    ("workers, 16", desk("16"), TAKEN, desk("17"), USAGE),
    ("workers, 0", desk("0"), TAKEN, desk("-1"), USAGE),
    ("rooms of one night, 10,000", night(10_000), TAKEN, night(10_001), "refused 1 nightshape 0"),
    ("rooms of one night, 0", night(0), TAKEN, night(-1), "refused 1 nightshape 0"),
    ("commands of a run, as many as entries", full("entries = 3", 3), TAKEN, full("entries = 3", 4), CUT),
    ("vectors of a run, enough and too few", full("stale_after = 2\npublications = 5", 3), TAKEN, full("stale_after = 2\npublications = 1", 3), CUT),
    ("a hotel file, 16 MiB", long_file("hotel", HOTEL + "#", 2**24), TAKEN, long_file("hotel", HOTEL + "#", 2**24 + 1), "refused 1 toolong"),
    ("a stays file, 16 MiB", long_file("stays", STAYS, 2**24), "refused 2 notcsv 4", long_file("stays", STAYS, 2**24 + 1), "refused 2 toolong"),
    ("a script, 16 MiB", long_file("script", SCRIPT, 2**24), "refused 5 notcsv 2", long_file("script", SCRIPT, 2**24 + 1), "refused 5 toolong"),
    ("hotels of a list, 8", hotels(8), TAKEN, hotels(9), "refused 1 limit 2"),
    ("hotels of a list, 1", hotels(1), TAKEN, hotels(0), "refused 1 limit 2"),
    ("a name in a list, 200 bytes", named(200), "fault 2", named(201), "refused 1 badline 3"),
    ("a name in a list, 1 byte", named(1), "fault 2", named(0), "refused 1 badline 3"),
    ("a list, 16 MiB", long_list(2**24), "refused 1 tooshort", long_list(2**24 + 1), "refused 1 toolong"),
    ("scenarios, 20,000", scenarios(["scenario"] * 20_000), TAKEN, scenarios(["scenario"] * 20_001), "refused 2 limit 20002"),
    ("change lines, 100,000", changed("rate 0 7", 100_000), TAKEN, changed("rate 0 7", 100_001), "refused 2 limit 100003"),
    ("UNITS, 1", changed("rooms 0 3 up 1"), TAKEN, changed("rooms 0 3 up 0"), "refused 2 limit 3"),
    ("UNITS, 10,000", changed("rooms 0 1 down 10000"), "scenario 1 refused 1", changed("rooms 0 1 down 10001"), "refused 2 limit 3"),
    ("TO of a change, the nights", changed("rooms 0 3 up 1"), TAKEN, changed("rooms 0 4 up 1"), "refused 2 limit 3"),
    ("rooms after a change, 10,000", changed("rooms 0 1 up 9998"), TAKEN, changed("rooms 0 1 up 9999"), "scenario 1 refused 1"),
    ("rooms after a change, 0", changed("rooms 0 1 down 2"), TAKEN, changed("rooms 0 1 down 3"), "scenario 1 refused 1"),
    ("STAY of a change, the last", changed("demand 0 1"), TAKEN, changed("demand 1 1"), "refused 2 limit 3"),
    ("a changed forecast, 1,000,000", changed("demand 0 1000000"), TAKEN, changed("demand 0 1000001"), "refused 2 limit 3"),
    ("a changed rate, 10^9", changed("rate 0 1000000000"), TAKEN, changed("rate 0 1000000001"), "refused 2 limit 3"),
    ("a changed rate, 1", changed("rate 0 1"), TAKEN, changed("rate 0 0"), "refused 2 limit 3"),
    ("nights of a demo, 1", demo(nights=1), TAKEN, demo(nights=0), USAGE),
    ("nights of a demo, 400", demo(nights=400), TAKEN, demo(nights=401), USAGE),
    ("rooms of a demo, 10,000", demo(rooms=10_000), TAKEN, demo(rooms=10_001), USAGE),
    ("stays of a demo, 4,000", demo(stays=4_000), TAKEN, demo(stays=4_001), USAGE),
    ("a seed, 999,999,999", demo(seed=999_999_999), TAKEN, demo(seed=1_000_000_000), USAGE),
]


def said(line, folder):
    """The first line that is printed, which is USAGE for the usage text, TAKEN for an answer, and CUT at status 7."""
    words, files = line
    for name, text in files.items():
        with open(os.path.join(folder, name), "w") as out:
            out.write(text)
    done = subprocess.run([program(), *words], cwd=folder, capture_output=True, timeout=120)
    if done.returncode == 2:
        return USAGE
    first = done.stdout.split(b"\n", 1)[0].decode()
    if done.returncode in (1, 3, 4) or first.startswith("legal") or " refused " in first:
        return first
    return {0: TAKEN, 7: CUT}.get(done.returncode, f"status {done.returncode}")


def main():
    failed = 0
    print(f"{'limit':42} {'at its edge':20} one past it")
    with tempfile.TemporaryDirectory() as folder:
        for name, edge, wanted, past, refused in LIMITS:
            found = said(edge, folder), said(past, folder)
            held = found == (wanted, refused)
            failed += not held
            print(f"{name:42} {found[0]:20} {found[1]}" + ("" if held else f"   WANTED {wanted}, {refused}"))
    print(f"{len(LIMITS) - failed} limits held, {failed} did not")
    sys.exit(failed > 0)


if __name__ == "__main__":
    main()
