#!/usr/bin/env python3
"""Fails what a line of each command asks of the system, in turn, on a small input and on a busy one.

    bench/faults.py

It wants gcc, the program and Python's standard library. Each file of a line is absent in turn, a folder, or closed to the
reader; each opening, reading and writing fails in turn, and each reading and writing is cut short to one byte in turn;
the output is a full device, closed from the start, or a pipe that is closed after some bytes; and a file shrinks while
it is read. A file that fails is status 4 with `fault` and its number; an output that fails is status 5, with a first
part of the text of the line without a fault; a call that is cut short changes nothing. Prints a row a command, and ends
with status 1 where anything is not so.
"""
import os
import re
import subprocess
import sys
import threading

from lines import COMMANDS, HOTEL, READS, files_of, list_of, make, run, words_of, write
from program import FOLDER, build_library, program

NOBODY = 65534


class Row:
    """What was tried of a command, and what was not as promised."""

    def __init__(self, name):
        self.name, self.tried, self.wrong = name, 0, 0

    def expect(self, what, held, found):
        self.tried += 1
        if not held:
            self.wrong += 1
            print(f"{self.name}, {what}: {found}")


def as_nobody():
    if os.getuid() == 0:
        os.setgid(NOBODY)
        os.setuid(NOBODY)


def try_files(row, command, files, folder):
    absent, closed = os.path.join(folder, "absent"), os.path.join(folder, "closed")
    with open(closed, "w"):
        pass
    os.chmod(closed, 0)
    for what, name, how in (("absent", absent, {}), ("a folder", folder, {}), ("closed", closed, {"preexec_fn": as_nobody})):
        for at in range(len(files)):
            changed = [name if nth == at else file for nth, file in enumerate(files)]
            found = run(program(), words_of(command, changed), **how)
            row.expect(f"file {at + 1} {what}", found == (4, b"fault %d\n" % (at + 1)), found)
        for at in range(10 if command == "portfolio" else 0):
            listed = [os.path.join(folder, file) for file in (*HOTEL, "script.csv")] * 2
            listed[at] = name
            write(folder, "list-of-faults", list_of([listed[:5], listed[5:]]).encode())
            found = run(program(), words_of(command, [os.path.join(folder, "list-of-faults")]), **how)
            row.expect(f"file {at + 2} {what}", found == (4, b"fault %d\n" % (at + 2)), found)


def try_calls(row, command, files, library, whole):
    words = words_of(command, files)
    for call in ("open", "read", "write", "brief", "short"):
        last_file, nth, faults = 0, 0, set()
        while True:
            nth += 1
            env = {**os.environ, "LD_PRELOAD": library, "FAIL": call, "NTH": str(nth)}
            done = subprocess.run([program(), *words], capture_output=True, env=env, timeout=120)
            if not done.stderr:
                break
            found = done.returncode, done.stdout
            if call in ("brief", "short"):
                held = found == whole
            elif call == "write":
                held = found[0] == 5 and whole[1].startswith(found[1])
            else:
                fault = re.fullmatch(rb"fault (\d+)\n", found[1])
                of_the_system = nth > READS.get(command, len(files)) and found == whole  # it asks how many processors there are
                held = of_the_system or found[0] == 4 and fault and last_file <= int(fault[1]) <= READS.get(command, len(files))
                last_file = int(fault[1]) if fault else last_file
                faults |= {last_file} - {0}
            row.expect(f"{call} {nth}", held, (found[0], found[1][:100]))
        if call in ("open", "read"):  # so no file is left out, and none stands for another
            row.expect(f"{call} of each file", faults == set(range(1, READS.get(command, len(files)) + 1)), faults)
        else:
            row.expect(f"{call} at all", nth > 1 or (call == "brief" and not files), "none was tried")


def try_output(row, command, files, whole):
    words = [program(), *words_of(command, files)]
    with open("/dev/full", "wb") as full:
        row.expect("a full device", subprocess.run(words, stdout=full).returncode == 5, "another status")
    done = subprocess.run(words, preexec_fn=lambda: os.close(1), stderr=subprocess.PIPE)
    row.expect("no output at all", (done.returncode, done.stderr) == (5, b""), (done.returncode, done.stderr))
    for many in (0, 1, 1000, 65536, 70000):
        child = subprocess.Popen(words, stdout=subprocess.PIPE)
        part = child.stdout.read(many) if many else b""
        child.stdout.close()
        status = child.wait()
        held = status in (5, whole[0]) and whole[1].startswith(part) and (status == 5 or len(whole[1]) <= many + 65536)
        row.expect(f"a pipe closed after {many} bytes", held, status)


def try_shrinking(row, command, files, folder):
    """A file loses its end while it is read: the answer is that of some bytes, in its time."""
    shrinking = os.path.join(folder, "shrinking")
    for at, file in enumerate(files):
        with open(file, "rb") as whole:
            data = whole.read()
        for _ in range(5):
            with open(shrinking, "wb") as out:
                out.write(data)
            changed = [shrinking if nth == at else name for nth, name in enumerate(files)]
            shrink = threading.Timer(0.001, os.truncate, (shrinking, len(data) // 2))
            shrink.start()
            status, text = run(program(), words_of(command, changed))
            shrink.join()
            row.expect(f"file {at + 1} shrinks", status in (0, 1, 3, 4, 7), (status, text[:100]))


def main():
    library = build_library("fail")
    wrong = 0
    for name in ("small", "busy"):
        folder = make(program(), os.path.join(FOLDER, "faults", name), name == "busy")
        for command in COMMANDS:
            row, files = Row(f"{command} {name}"), files_of(command, folder)
            whole = run(program(), words_of(command, files))
            try_files(row, command, files, folder)
            try_calls(row, command, files, library, whole)
            try_output(row, command, files, whole)
            try_shrinking(row, command, files, folder)
            print(f"{row.name:15} {row.tried:5} tried, {row.wrong} not as promised")
            wrong += row.wrong
    sys.exit(wrong > 0)


if __name__ == "__main__":
    main()
