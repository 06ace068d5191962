#!/usr/bin/env python3
"""What selling by bid prices earns, beside first come first served and beside hindsight.

    worth.py NAME [SEEDS]

It wants the built program (./bidprice builds it) and matplotlib (Debian: python3-matplotlib) for
the picture. The hotel is that of examples/season. For each of SEEDS seeds (10) a season's requests are drawn: of each
stay a Poisson number whose mean is its forecast, and all of them in a random order, or the cheapest a night first, or the
shortest first. They are sold in three ways:

  first come  each request for which every night has a room
  desk        by `bidprice desk` with the forecasts right, a fifth too high, and a fifth too low; its journal is replayed
  hindsight   the best choice of whole requests for who knew all of them, by `bidprice solve`

Prints a table of the money taken, as shares of hindsight, and writes NAME.png and NAME.svg.
"""
import math
import os
import random
import statistics
import subprocess
import sys
import tempfile

HERE = os.path.dirname(os.path.abspath(__file__))
sys.path.insert(0, os.path.join(HERE, "..", "reading"))

from house import House, Program, value_of

PROGRAM = os.path.join(HERE, "..", "..", "bidprice")
SEASON = [os.path.join(HERE, "..", "season", name) for name in ("hotel.toml", "stays.csv", "forecast.csv", "bookings.csv")]
BIASES = {"right": 100, "a fifth too high": 120, "a fifth too low": 80}
ORDERS = ("random", "cheap first", "short first")


def poisson(draw, mean):
    """A Poisson number by Knuth's product of uniform numbers, for means of some dozens at most."""
    limit, count, product = math.exp(-mean), 0, draw.random()
    while product > limit:
        count += 1
        product *= draw.random()
    return count


def requests_of(house, seed, order):
    """The stays that are asked for, in order."""
    draw = random.Random(seed)
    counts = [poisson(draw, forecast / house.unit) for forecast in house.forecasts]
    requests = [stay for stay, count in enumerate(counts) for _ in range(count)]
    draw.shuffle(requests)
    nights = lambda stay: house.spans[stay][1] - house.spans[stay][0]
    if order == "cheap first":
        requests.sort(key=lambda stay: house.rates[stay] / nights(stay))
    if order == "short first":
        requests.sort(key=nights)
    return requests


def first_come(house, requests):
    left = [rooms - sold for rooms, sold in zip(house.rooms, house.sold)]
    earned = 0
    for stay in requests:
        nights = range(*house.spans[stay])
        if all(left[night] for night in nights):
            earned += house.rates[stay]
            for night in nights:
                left[night] -= 1
    return earned


def hindsight(house, requests, folder):
    left = [rooms - sold for rooms, sold in zip(house.rooms, house.sold)]
    counts = [requests.count(stay) for stay in range(len(house.rates))]
    problem = os.path.join(folder, "problem")
    with open(problem, "w") as file:
        file.write(Program(left, [(*s, r, c) for s, r, c in zip(house.spans, house.rates, counts)]).to_problem())
    said = subprocess.run([PROGRAM, "solve", problem], capture_output=True, text=True, check=True)
    return value_of(said.stdout)


def by_desk(house, requests, percent, folder):
    """One session asks for all requests in turn; forecasts are so many percent of those that requests were drawn from."""
    hotel, stays, _, bookings = SEASON
    forecast, script, journal = (os.path.join(folder, name) for name in ("forecast.csv", "script.csv", "journal"))
    with open(forecast, "w") as file:
        rows = [f"{code},{f * percent // 100}" for code, f in zip(house.codes, house.forecasts)]
        file.write("\n".join(["code,count", *rows]) + "\n")
    with open(script, "w") as file:
        rows = [f"1,book,{house.codes[stay]},,," for stay in requests]
        file.write("\n".join(["session,verb,item,nights,rooms,amount", *rows]) + "\n")
    files = [hotel, stays, forecast, bookings]
    with open(journal, "w") as file:
        subprocess.run([PROGRAM, "desk", *files, script, "--workers", "0"], stdout=file, check=True)
    subprocess.run([PROGRAM, "replay", *files, journal], stdout=subprocess.DEVNULL, check=True)
    with open(journal) as file:
        entries = [line.split() for line in file]
    return sum(house.rates[int(entry[3])] for entry in entries if entry[2:3] == ["book"] and entry[4] == "accepted")


def shares(house, seed, order, folder):
    """Of hindsight, what each way of selling earned."""
    requests = requests_of(house, seed, order)
    best = hindsight(house, requests, folder)
    ways = {"first come": first_come(house, requests)}
    for name, percent in BIASES.items():
        ways[f"desk, {name}"] = by_desk(house, requests, percent, folder)
    return {name: earned / best for name, earned in ways.items()}


def draw_picture(found, name):
    import matplotlib

    matplotlib.use("Agg")
    import matplotlib.pyplot as plt

    figure, axes = plt.subplots(1, len(ORDERS), sharey=True, figsize=(12, 3.6))
    for axis, order in zip(axes, ORDERS):
        ways = list(found[order])
        means = [100 * statistics.mean(found[order][way]) for way in ways]
        spread = [[100 * (statistics.mean(v) - min(v)) for v in found[order].values()],
                  [100 * (max(v) - statistics.mean(v)) for v in found[order].values()]]
        axis.bar(range(len(ways)), means, yerr=spread, capsize=4, color=["#7f7f7f"] + ["#1f4e79"] * (len(ways) - 1))
        axis.set_xticks(range(len(ways)), [way.replace(", ", ",\n") for way in ways], fontsize=8)
        axis.set_title("random order" if order == "random" else f"the {order.replace(' ', 'est ')}", fontsize=10)
        axis.spines[["top", "right"]].set_visible(False)
    axes[0].set_ylabel("percent of hindsight")
    axes[0].set_ylim(80, 101)
    figure.tight_layout()
    figure.savefig(f"{name}.png", dpi=120)
    figure.savefig(f"{name}.svg", metadata={"Date": None})


def main():
    if len(sys.argv) not in (2, 3):
        sys.exit(__doc__)
    seeds = int(sys.argv[2]) if len(sys.argv) == 3 else 10
    house = House(*SEASON)
    found = {}
    with tempfile.TemporaryDirectory() as folder:
        for order in ORDERS:
            rows = [shares(house, seed, order, folder) for seed in range(seeds)]
            found[order] = {way: [row[way] for row in rows] for way in rows[0]}
    print(f"{'requests':<13}{'sold':<24}{'mean':>8}{'least':>8}{'most':>8}   of hindsight, {seeds} seeds")
    for order, ways in found.items():
        for way, values in ways.items():
            print(f"{order:<13}{way:<24}{statistics.mean(values):>8.1%}{min(values):>8.1%}{max(values):>8.1%}")
    draw_picture(found, sys.argv[1])


if __name__ == "__main__":
    main()
