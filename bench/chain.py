#!/usr/bin/env python3
"""Runs a chain of 200 hotels by GNU parallel and as an array of Slurm jobs, and sees how both grow and what they survive.

    bench/chain.py [COUNT]

It wants the program, Python's standard library and Debian's packages parallel and slurm-wlm; a way whose package is
missing is left out, and said to be. COUNT (200) hotels are made by examples/chain/make.py, the last of them with a rate
that is refused. Each way runs them from nothing with 1, 2 and so on up to as many processes at once as there are
processors, and each journal has to be legal.

Before that, of three hotels, one's `replay` is stood in for by one that calls the journal illegal, and then by one that
ends without a word: the table has to tell either, and of the others what it told before. A call after that mends it.

Then, each way: one hotel gets a script of 40,000 commands, and its job is ended half way, by a signal that cannot be
caught; the others have to have what they had, byte for byte, and the table has to say which hotel has no journal and
why. The script is called again: that hotel has its journal, and no other file has changed. Last, the refused hotel's
rate is mended and one hotel's row taken away: a third call makes these two, and leaves the others as they are. The
script ends with status 1 where something is not so.
"""
import os
import shutil
import signal
import subprocess
import sys
import threading
import time

from program import FOLDER, TOP, program

CHAIN = os.path.join(TOP, "examples", "chain")
WAYS = {"parallel": "parallel", "slurm": "slurmctld"}
LONG = 40_000


# A program whose `replay` is another.
STAND_IN = """#!/bin/sh
[ "$1" = replay ] || exec "{program}" "$@"
{replay}
"""


def call(name, *words, by=None):
    env = {**os.environ, "BIDPRICE": by or program()}
    return subprocess.run([os.path.join(CHAIN, name), *words], capture_output=True, text=True, env=env)


def table(folder):
    """What gather.py says of each hotel: its last column; and the line below the table."""
    lines = call("gather.py", folder).stdout.splitlines()
    return {line.split()[0]: line.split(None, 6)[6] for line in lines[1:-1]}, lines[-1]


def hotels_of(folder):
    return sorted(name for name in os.listdir(folder) if os.path.isdir(os.path.join(folder, name)))


def results(folder, but=()):
    """The journals and rows of all hotels but some, with the time at which each was written."""
    found = {}
    for hotel in hotels_of(folder):
        for name in ("journal", "row"):
            path = os.path.join(folder, hotel, name)
            if hotel not in but and os.path.exists(path):
                with open(path, "rb") as file:
                    found[hotel, name] = os.stat(path).st_mtime_ns, file.read()
    return found


def forget(folder, hotels=None):
    for hotel in hotels or hotels_of(folder):
        for name in ("journal", "row", "said", "journal.part"):
            if os.path.exists(os.path.join(folder, hotel, name)):
                os.remove(os.path.join(folder, hotel, name))


def run(way, folder, processes):
    """Milliseconds of a whole call."""
    done = call(f"{way}.sh", folder, str(processes))
    last = done.stdout.split()
    if done.returncode or last[-1:] != ["ms"]:
        sys.exit(f"{way}.sh ended with {done.returncode}: {done.stdout}{done.stderr}")
    return int(last[-2])


def growth(way, folder):
    """A line for each number of processes, and whether all hotels but the refused one have a legal journal each time."""
    count, first = len(hotels_of(folder)), None
    for processes in range(1, len(os.sched_getaffinity(0)) + 1):
        forget(folder)
        taken = run(way, folder, processes)
        first = first or taken
        said, last = table(folder)
        print(f"{way:9}{processes:3} at once {taken / 1000:8.2f} s {taken / count:7.1f} ms a hotel {first / taken:6.2f} times one; "
              f"{last}; load {os.getloadavg()[0]:.1f}", flush=True)
        expect(last == f"{count - 1} of {count} hotels have a legal journal", f"{way}: {last}")
        expect(said[hotels_of(folder)[-1]].startswith("refused 2 number "), f"{way}: the refused hotel has {said[hotels_of(folder)[-1]]}")


def expect(held, otherwise):
    if not held:
        sys.exit(otherwise)


def processes_in(folder):
    """The processes that stand in a folder."""
    found = []
    for name in filter(str.isdigit, os.listdir("/proc")):
        try:
            if os.readlink(f"/proc/{name}/cwd") == folder:
                found.append(int(name))
        except OSError:
            continue
    return found


def end_half_way(folder, done):
    """Ends, by a signal, the processes of a hotel as soon as its desk writes, or stands; until the call is done."""
    while not done.is_set():
        if os.path.exists(os.path.join(folder, "said")) and not os.path.exists(os.path.join(folder, "row")):
            time.sleep(0.05)
            for process in processes_in(folder):
                try:
                    os.kill(process, signal.SIGKILL)
                except OSError:
                    continue
            return
        time.sleep(0.002)


def lengthen(folder):
    """Repeats the commands of a hotel's script, and gives it the room for them."""
    script = os.path.join(folder, "script.csv")
    with open(script) as file:
        header, *records = file.read().splitlines()
    with open(script, "w") as out:
        out.write("\n".join([header, *(records * (LONG // len(records)))]) + "\n")
    with open(os.path.join(folder, "hotel.toml"), "a") as out:
        out.write("stale_after = 1000\n")


def survive(way, folder):
    """A job that is ended half way, one that is called again, a refused one that is mended, and one that is run again."""
    hotels = hotels_of(folder)
    victim, again, refused = hotels[len(hotels) // 2], hotels[1], hotels[-1]
    here = os.path.join(folder, victim)
    lengthen(here)
    for name in ("journal", "row", "said"):
        os.remove(os.path.join(here, name))
    before = results(folder, but=(victim, refused))
    done = threading.Event()
    ender = threading.Thread(target=end_half_way, args=(os.path.realpath(here), done))
    ender.start()
    call(f"{way}.sh", folder)
    done.set()
    ender.join()
    said, last = table(folder)
    expect(said[victim].startswith("ended half way"), f"{way}: the hotel that was ended has {said[victim]}")
    expect(results(folder, but=(victim, refused)) == before, f"{way}: other hotels have changed")
    expect(last.startswith(f"{len(hotels) - 2} of"), f"{way}: {last}")
    print(f"{way}: {victim} '{said[victim]}', {refused} '{said[refused]}'; {last}", flush=True)

    run(way, folder, len(os.sched_getaffinity(0)))
    said, last = table(folder)
    expect(said[victim].startswith("legal "), f"{way}: called again, the hotel has {said[victim]}")
    expect(results(folder, but=(victim, refused)) == before, f"{way}: called again, other hotels have changed")
    print(f"{way}: called again, {victim} '{said[victim]}'; {last}", flush=True)

    stays = os.path.join(folder, refused, "stays.csv")
    with open(stays) as file:
        text = file.read()
    with open(stays, "w") as out:
        out.write(text.replace(".00\n", "\n"))
    before = results(folder, but=(again, refused))
    os.remove(os.path.join(folder, again, "row"))
    run(way, folder, len(os.sched_getaffinity(0)))
    said, last = table(folder)
    expect(last == f"{len(hotels)} of {len(hotels)} hotels have a legal journal", f"{way}: {last}")
    expect(results(folder, but=(again, refused)) == before, f"{way}: run again, other hotels have changed")
    print(f"{way}: {refused} mended and {again} run again; {last}", flush=True)


def otherwise_replayed(folder):
    """A journal that cannot be replayed, and one that is called illegal; and the hotel called again."""
    hotels = hotels_of(folder)
    for hotel in hotels:
        call("hotel.sh", os.path.join(folder, hotel))
    told, legal = table(folder)[0], len(hotels) - 1
    here, stand_in = os.path.join(folder, hotels[0]), os.path.join(FOLDER, "stand-in")
    journal = os.path.join(here, "journal")
    for replay, wanted, kept in (
        ("echo illegal 7 reply; exit 1", "illegal 7 reply", True),
        ("exit 6", "the journal could not be replayed", False),
    ):
        with open(stand_in, "w") as out:
            out.write(STAND_IN.format(program=os.path.abspath(program()), replay=replay))
        os.chmod(stand_in, 0o755)
        forget(folder, hotels[:1])
        call("hotel.sh", here, by=stand_in)
        said, last = table(folder)
        expect(said == {**told, hotels[0]: wanted}, f"`{replay}` for a replay: {said}")
        expect(last.startswith(f"{legal - 1} of"), f"`{replay}` for a replay: {last}")
        expect(os.path.exists(journal) == kept, f"`{replay}` for a replay: the journal is there or not")
        print(f"`{replay}` for a replay: {hotels[0]} '{said[hotels[0]]}'; {last}", flush=True)
    call("hotel.sh", here)
    said, last = table(folder)
    expect(said[hotels[0]].startswith("legal "), f"called again, the hotel has {said[hotels[0]]}")
    expect(last.startswith(f"{legal} of"), f"called again: {last}")


def main():
    few = os.path.join(FOLDER, "chain-few")
    shutil.rmtree(few, ignore_errors=True)
    call("make.py", few, "3")
    otherwise_replayed(few)
    count = sys.argv[1] if len(sys.argv) > 1 else "200"
    for way, wants in WAYS.items():
        if not shutil.which(wants):
            print(f"{way} is left out: {wants} is not there")
            continue
        folder = os.path.join(FOLDER, f"chain-{way}")
        shutil.rmtree(folder, ignore_errors=True)
        call("make.py", folder, count)
        growth(way, folder)
        survive(way, folder)


if __name__ == "__main__":
    main()
