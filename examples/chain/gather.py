#!/usr/bin/env python3
"""Gathers what came out of a chain's desks into one table.

    gather.py FOLDER

A row a hotel: status, entries, vectors, the last vector's value, seconds, and what `replay` said of its journal or
why there is none. Ends with status 1 where a hotel has no legal journal.
"""
import os
import sys


def row_of(folder):
    """The words of a hotel's row, or why it has none."""
    try:
        with open(os.path.join(folder, "row")) as file:
            status, entries, vectors, value, taken, verdict = file.read().strip().split(" ", 5)
            seconds = f"{int(taken) / 1000:.2f}"
    except FileNotFoundError:
        begun = os.path.exists(os.path.join(folder, "said"))
        return ["-", "-", "-", "-", "-", "ended half way: call the script again" if begun else "not run yet"]
    except ValueError:
        return ["-", "-", "-", "-", "-", "not a whole row: remove it, and call the script again"]
    return [status, entries, vectors, value, seconds, verdict]


def main():
    if len(sys.argv) != 2:
        sys.exit(__doc__)
    hotels = sorted(entry.name for entry in os.scandir(sys.argv[1]) if entry.is_dir())
    rows = [[hotel, *row_of(os.path.join(sys.argv[1], hotel))] for hotel in hotels]
    for hotel, status, entries, vectors, value, taken, verdict in [["hotel", "status", "entries", "vectors", "value", "seconds", "journal"], *rows]:
        print(f"{hotel:<12}{status:>6}{entries:>9}{vectors:>9}{value:>14}{taken:>9}  {verdict}")
    legal = sum(row[-1].startswith("legal ") for row in rows)
    print(f"{legal} of {len(rows)} hotels have a legal journal")
    sys.exit(0 if legal == len(rows) else 1)


if __name__ == "__main__":
    main()
