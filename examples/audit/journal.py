#!/usr/bin/env python3
"""Has another solver compute the optimum behind each price vector of a journal.

    journal.py HOTEL STAYS FORECAST BOOKINGS JOURNAL

It wants glpsol, of Debian's package glpk-utils. The linear program at the position that a vector names is built by a
reading of the journal of its own. Prints a line a vector, and ends with status 1 where a value differs.
"""
import os
import sys

sys.path.insert(0, os.path.join(os.path.dirname(os.path.abspath(__file__)), "..", "reading"))

from house import House, vectors
from peer import compare


def main():
    if len(sys.argv) != 6:
        sys.exit(__doc__)
    house = House(*sys.argv[1:5])
    equal = [
        compare(f"vector {number} at position {position}", value, program)
        for number, position, value, program in vectors(house, sys.argv[5])
    ]
    sys.exit(0 if all(equal) else 1)


if __name__ == "__main__":
    main()
