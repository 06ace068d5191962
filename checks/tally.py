"""Counts what was tried of the program that ships, and says at the end how much of it held."""
import subprocess
import sys
from pathlib import Path

TOP = Path(__file__).resolve().parent.parent
PROGRAM = TOP / "crates" / "bidprice" / "out" / "bidprice"
EXAMPLE = TOP / "examples" / "three-nights"


def built_program():
    """The program, built anew by its launcher where a source has changed."""
    line = [TOP / "bidprice", "check", EXAMPLE / "problem", EXAMPLE / "certificate"]
    done = subprocess.run(line, capture_output=True)
    if done.returncode != 0 or not PROGRAM.exists():
        sys.exit(f"the program could not be built: {done.stderr.decode(errors='replace')[-2000:]}")
    return PROGRAM


class Tally:
    """What held, what did not, and what this machine could not try, which counts as neither."""

    def __init__(self):
        self.passed = 0
        self.failed = 0

    def expect(self, name, found, wanted):
        """Counts one check: what was found is what is wanted."""
        self.holds(name, found == wanted, f"found {found!r}, wanted {wanted!r}")

    def holds(self, name, fact, otherwise):
        """Counts one check: the fact, or what is there in its place."""
        if fact:
            self.passed += 1
        else:
            self.failed += 1
            print(f"FAILED {name}: {otherwise}")

    def skip(self, name, why):
        print(f"skipped {name}: {why}")

    def end(self):
        print(f"{self.passed} passed, {self.failed} failed")
        sys.exit(1 if self.failed else 0)
