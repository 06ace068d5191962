#!/usr/bin/env python3
"""How far each night's bid price moves when the forecasts are not what they seem: a notebook, cell by cell.

    spread.py HOTEL STAYS FORECAST BOOKINGS [NAME]

The files are those of a desk, as in examples/season. A thousand times each forecast is drawn anew, between 70 and 130 in
100 of what it is, and the nights are solved again. NAME.png and NAME.svg, `spread` where no name is given, show the
prices of today's forecasts, and between which two prices the middle 80 in 100 of the draws lie. It needs numpy and
matplotlib, from the distribution (Debian: python3-numpy, python3-matplotlib), and the library that checks/library.sh
builds.
"""
# %% What it stands on
import sys
from pathlib import Path

import matplotlib
import numpy as np

matplotlib.use("Agg")
import matplotlib.pyplot as plt

TOP = Path(__file__).resolve().parents[2]
sys.path[:0] = [str(TOP / "python"), str(TOP / "examples" / "reading")]
import bidprice
from house import House

DRAWS = 1000

# %% The table of stays, as columns
program = House(*sys.argv[1:5]).program()
name = sys.argv[5] if len(sys.argv) > 5 else "spread"
rooms = np.array(program.rooms, np.uint64)
table = np.array(program.stays, np.int64)
arrive, depart = (table[:, k].astype(np.uint32) for k in (0, 1))
rate, forecast = (table[:, k].astype(np.uint64) for k in (2, 3))

# %% Today's certificate: the optimum, and the least price of each night
today = bidprice.solve_columns(rooms, arrive, depart, rate, forecast)
print(f"value {today.value}, {int((today.prices > 0).sum())} of {len(rooms)} nights have a price")

# %% The same with each forecast drawn anew
chance = np.random.default_rng(1)
drawn = np.empty((DRAWS, len(rooms)), np.uint64)
for draw in range(DRAWS):
    other = np.rint(forecast * chance.uniform(0.7, 1.3, len(forecast))).astype(np.uint64)
    drawn[draw] = bidprice.solve_columns(rooms, arrive, depart, rate, other).prices
low, high = np.percentile(drawn, [10, 90], axis=0)
print(f"the widest spread is {int((high - low).max())}, of night {int((high - low).argmax())}")

# %% The picture
figure, axes = plt.subplots(figsize=(10, 4))
nights = np.arange(len(rooms))
axes.bar(nights, high - low, bottom=low, width=1.0, color="#9dc3e6", alpha=0.6, label=f"middle 80 in 100 of {DRAWS:,} draws")
axes.step(np.arange(len(rooms) + 1) - 0.5, np.append(today.prices, today.prices[-1]), where="post", color="#1f4e79", label="bid price")
axes.set_xlabel("night")
axes.set_ylabel("price of a night")
axes.set_ylim(bottom=0)
axes.legend(loc="lower right", bbox_to_anchor=(1.0, 1.0), ncol=2, frameon=False)
figure.tight_layout()
figure.savefig(f"{name}.png", dpi=150)
figure.savefig(f"{name}.svg")
