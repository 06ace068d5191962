#!/usr/bin/env python3
"""Looks whether docs/desk.md and docs/displays.md show the programs that are tested, and whether the first one's test
reads the files of the example.

Wants Python's standard library alone.
"""
from textwrap import indent

from tally import TOP, Tally

SOURCES = TOP / "crates" / "bp_desk_tests" / "src"
EXAMPLE = TOP / "examples" / "lindenhof"
FILES = ["hotel.toml", "stays.csv", "forecast.csv", "bookings.csv"]


def main():
    tally = Tally()
    page = (TOP / "docs" / "desk.md").read_text("utf-8")
    day = (SOURCES / "day.rt").read_text("utf-8")
    program = day[day.index("/// Two callers at one desk, from") :]
    tally.holds("the program in docs/desk.md", indent(program, "    ") in page, "day.rt has another one")
    page = (TOP / "docs" / "displays.md").read_text("utf-8")
    evening = (TOP / "crates" / "bp_show_tests" / "src" / "evening.rt").read_text("utf-8")
    program = evening[evening.index("/// The stay that is booked.") :]
    tally.holds("the program in docs/displays.md", program in page, "evening.rt has another one")
    test = (SOURCES / "lindenhof.rt").read_text("utf-8")
    for name in FILES:
        text = (EXAMPLE / name).read_text("utf-8").replace("\\", "\\\\").replace('"', '\\"')
        tally.holds(f"the test's {name}", f'"{text}"' in test, "examples/lindenhof has another one")
    tally.end()


if __name__ == "__main__":
    main()
