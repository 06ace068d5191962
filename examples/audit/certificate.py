#!/usr/bin/env python3
"""Has another solver compute the optimum that a certificate claims.

    certificate.py PROBLEM CERTIFICATE [FILE]

It wants glpsol, of Debian's package glpk-utils. Prints both values, and ends with status 1 where they differ. Where a
FILE is named, the problem is written there as the linear program that glpsol reads by --lp, for any other solver.
"""
import os
import sys

sys.path.insert(0, os.path.join(os.path.dirname(os.path.abspath(__file__)), "..", "reading"))

from house import problem_of, value_of
from peer import compare


def main():
    if len(sys.argv) not in (3, 4):
        sys.exit(__doc__)
    with open(sys.argv[1], encoding="ascii") as problem, open(sys.argv[2], encoding="ascii") as certificate:
        program, claimed = problem_of(problem.read()), value_of(certificate.read())
    if len(sys.argv) == 4:
        with open(sys.argv[3], "w", encoding="ascii") as file:
            file.write(program.to_lp())
    sys.exit(0 if compare("value", claimed, program) else 1)


if __name__ == "__main__":
    main()
