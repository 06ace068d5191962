#!/usr/bin/env python3
"""Times `bidprice demo` beside the same demo in C++ with LEMON's network simplex, and compares their texts.

    bench/demo.py

It wants the program, which `./bidprice` builds at its first call, g++ and Debian's liblemon-dev. Each command is timed
whole, the best of nine runs; both must write the same text. It ends with status 1 where the first of the hotels takes
more than 1.5 times as long.
"""
import os
import sys
import tempfile

from program import build_beside_lemon, program, timed

# Above this the first of the hotels takes too long.
MOST_RATIO = 1.5

NUMBERS = [(7, 400, 10_000, 4_000), (7, 120, 50, 800), (7, 365, 120, 3_000), (3, 20, 4, 60), (0, 1, 0, 0)]


def best_of_nine(command, said):
    """The least time of nine runs in milliseconds, and what was written."""
    taken = min(timed(command, said)[0] for _ in range(9))
    with open(said, "rb") as text:
        return 1000 * taken, text.read()


def main():
    peer = build_beside_lemon("demo")
    if peer is None:
        sys.exit("the yardstick wants g++ and liblemon-dev")
    print("demo                       bidprice ms    LEMON ms   ratio")
    ratios = []
    with tempfile.TemporaryDirectory() as folder:
        said = os.path.join(folder, "said")
        for numbers in NUMBERS:
            words = [str(number) for number in numbers]
            ours, text = best_of_nine([program(), "demo", *words], said)
            theirs, expected = best_of_nine([peer, *words], said)
            if text != expected:
                sys.exit(f"demo {' '.join(words)}: {text!r} is not {expected!r}")
            ratios.append(ours / theirs)
            print(f"{' '.join(words):<24}{ours:>14.1f}{theirs:>12.1f}{ratios[-1]:>8.2f}", flush=True)
    if ratios[0] > MOST_RATIO:
        sys.exit(f"{ratios[0]:.2f} times the yardstick, more than {MOST_RATIO}")


if __name__ == "__main__":
    main()
