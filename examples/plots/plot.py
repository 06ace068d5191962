#!/usr/bin/env python3
"""Draws bid prices by night, with the rooms left beneath, as a PNG and an SVG.

    plot.py NAME CERTIFICATE PROBLEM    the prices of a certificate; the rooms that its allocation leaves
    plot.py NAME REPORT                 the last prices and the rooms left of a report
    plot.py NAME SHEET [PROBLEM]        the prices of a sheet with their bands; a problem's rooms, if it is given

NAME.png and NAME.svg are written. What a file is, its first line says. Money is drawn as it stands in the file, in
minor units. It needs matplotlib, from the distribution (Debian: python3-matplotlib).
"""
import sys

import matplotlib

matplotlib.use("Agg")
import matplotlib.pyplot as plt


class Nights:
    """What is drawn: one number a night, and None where the file does not say it."""

    def __init__(self, prices, left=None, bands=None, dates=None):
        self.prices = prices
        self.left = left
        self.bands = bands
        self.dates = dates


def numbers(line, word):
    """The numbers behind a word."""
    first, *rest = line.split(" ")
    if first != word:
        sys.exit(f"a line that begins with {word} is missing")
    return [int(number) for number in rest]


def problem_of(path):
    """Rooms by night, and the spans of the stays."""
    with open(path, encoding="ascii") as file:
        lines = file.read().splitlines()
    rooms = numbers(lines[2], "rooms")
    stays = [numbers(line, "stay") for line in lines if line.startswith("stay ")]
    return rooms, [(stay[0], stay[1]) for stay in stays]


def of_certificate(lines, problem):
    if problem is None:
        sys.exit("a certificate says no rooms: name its problem too")
    rooms, spans = problem_of(problem)
    sell = numbers(lines[2], "sell")
    prices = numbers(lines[3], "prices")
    if len(prices) != len(rooms) or len(sell) != len(spans):
        sys.exit("the certificate is of another problem")
    left = list(rooms)
    for (start, end), sold in zip(spans, sell):
        for night in range(start, end):
            left[night] -= sold
    return Nights(prices, left)


def of_report(lines):
    end = next(place for place, line in enumerate(lines) if line.startswith("stay "))
    rows = [line.split() for line in lines[1:end]]
    return Nights(
        [int(row[5]) for row in rows],
        [int(row[4]) for row in rows],
        dates=[row[1] for row in rows],
    )


def of_sheet(lines, problem):
    rows = [line.split(" ") for line in lines if line.startswith("night ")]
    prices = [int(row[3]) for row in rows]
    # No room more can be had on a night with the most rooms, and none fewer on one without: there the band ends.
    gains = [int(row[5]) if row[5] != "-" else int(row[3]) for row in rows]
    losses = [int(row[7]) if row[7] != "-" else int(row[3]) for row in rows]
    rooms = problem_of(problem)[0] if problem else None
    return Nights(prices, rooms, bands=(gains, losses))


def read(path, problem):
    """The nights of a file, whichever it is."""
    with open(path, encoding="ascii") as file:
        lines = file.read().splitlines()
    first = lines[0] if lines else ""
    if first == "certificate 1":
        return of_certificate(lines, problem)
    if first.startswith("night date "):
        return of_report(lines)
    if first.startswith("night 0 price "):
        return of_sheet(lines, problem)
    sys.exit(f"{path} is no certificate, report or sheet")


def draw(nights, name):
    """One picture: prices above, rooms left beneath, over the same nights."""
    count = len(nights.prices)
    places = range(count)
    beneath = nights.left is not None
    figure, axes = plt.subplots(
        2 if beneath else 1,
        1,
        sharex=True,
        squeeze=False,
        figsize=(max(6.0, min(16.0, 0.3 * count + 3)), 5.0 if beneath else 3.2),
        gridspec_kw={"height_ratios": [2, 1]} if beneath else None,
    )
    prices = axes[0][0]
    prices.step(
        [place - 0.5 for place in range(count + 1)],
        nights.prices + nights.prices[-1:],
        where="post",
        color="#1f4e79",
        linewidth=1.8,
        label="bid price",
    )
    if nights.bands is not None:
        gains, losses = nights.bands
        prices.bar(
            places,
            [loss - gain for gain, loss in zip(gains, losses)],
            bottom=gains,
            width=1.0,
            color="#9dc3e6",
            alpha=0.6,
            label="between gain and loss of a room",
        )
    prices.set_ylabel("price of a night")
    prices.set_ylim(bottom=0)
    prices.legend(loc="lower right", bbox_to_anchor=(1.0, 1.0), ncol=2, frameon=False)
    if beneath:
        rooms = axes[1][0]
        rooms.bar(places, nights.left, width=0.8, color="#7f7f7f")
        rooms.set_ylabel("rooms" if nights.bands is not None else "rooms left")
        rooms.set_ylim(bottom=0)
        rooms.yaxis.get_major_locator().set_params(integer=True)
    last = axes[-1][0]
    step = max(1, -(-count // 16))
    last.set_xticks(list(places)[::step])
    if nights.dates:
        last.set_xticklabels(nights.dates[::step], rotation=45, ha="right")
    else:
        last.set_xlabel("night")
    last.set_xlim(-0.5, count - 0.5)
    for axis in axes.flat:
        axis.spines[["top", "right"]].set_visible(False)
    figure.tight_layout()
    figure.savefig(f"{name}.png", dpi=120)
    figure.savefig(f"{name}.svg", metadata={"Date": None})


def main(words):
    if len(words) not in (2, 3):
        sys.exit(__doc__)
    draw(read(words[1], words[2] if len(words) == 3 else None), words[0])


if __name__ == "__main__":
    main(sys.argv[1:])
