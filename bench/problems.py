"""The shapes of problems on which the solver is timed: real ones, hard ones, and the worst that a hunt found.

Each shape is a name and a call without arguments that gives the rooms of each night and the stays (from, to, rate,
forecast).
"""
import random

from generate import Draws, generate


def spread(seed, nights, stays, rooms, length, rate, forecast):
    """Stays at random: a length, a rate and a forecast are drawn by calls of (draw, nights left) and of (draw, length)."""
    draws = Draws(seed)
    rows = []
    for _ in range(stays):
        start = draws.below(nights)
        nights_of = length(draws, nights - start)
        rows.append((start, start + nights_of, rate(draws, nights_of), forecast(draws)))
    return [rooms(draws) for _ in range(nights)], rows


def half_sold():
    """A year of which stays as they come took half of all rooms, and their forecasts with them."""
    rooms, rows = generate(7, 365, 120, 3000)
    sold, most = 0, sum(rooms) // 2
    left = [list(row) for row in rows]
    draws = Draws(5)
    while sold < most:
        row = left[draws.below(len(left))]
        if row[3] > 0 and all(rooms[night] > 0 for night in range(row[0], row[1])):
            row[3] -= 1
            for night in range(row[0], row[1]):
                rooms[night] -= 1
            sold += row[1] - row[0]
    return rooms, [tuple(row) for row in left]


def long_stays():
    """A year of stays of 30 to 120 nights."""
    return spread(7, 365, 3000, lambda d: 120, lambda d, left: 1 + min(left - 1, 29 + d.below(91)),
                  lambda d, nights: nights * (5000 + d.below(10000)), lambda d: d.below(20))


def equal_rates():
    """A year of stays that all pay the same for each night."""
    return spread(7, 365, 3000, lambda d: 120, lambda d, left: 1 + d.below(min(7, left)), lambda d, nights: nights * 10000, lambda d: d.below(20))


def many_rooms():
    """400 nights of 10,000 rooms, asked for by twice as many."""
    return spread(7, 400, 4000, lambda d: 10000, lambda d, left: 1 + d.below(min(7, left)),
                  lambda d, nights: nights * (5000 + d.below(10000)), lambda d: d.below(1000))


def wide():
    """400 nights of 10,000 rooms and stays of any length."""
    return spread(7, 400, 4000, lambda d: 10000, lambda d, left: 1 + d.below(left), lambda d, nights: nights * (5000 + d.below(10000)), lambda d: d.below(100))


def nested():
    """400 nights of 10,000 rooms and stays of 200 spans, each within the next."""
    draws = Draws(7)
    rows = []
    for _ in range(4000):
        start = draws.below(200)
        rows.append((start, 400 - start, (400 - 2 * start) * (5000 + draws.below(10000)), draws.below(20)))
    return [10000] * 400, rows


def stepped():
    """400 nights of 1,000 rooms and rates by steps: with each ten nights of a stay its rate doubles."""
    return spread(7, 400, 4000, lambda d: 1000, lambda d, left: 1 + d.below(min(100, left)), lambda d, nights: 1000 * 2 ** (nights // 10), lambda d: d.below(100))


def flat_rates():
    """Hard: stays up to 60 nights that all pay the same for each night, on rooms that differ from night to night."""
    return spread(7, 400, 4000, lambda d: 5000 + d.below(5001), lambda d, left: 1 + d.below(min(60, left)), lambda d, nights: nights * 10000, lambda d: d.below(100))


def gadget(level, first, stays):
    """Zadeh's gadget from a node on, through which so many units times 2^level go: its last node, its arcs (tail, head, cost, room),
    and the most that a unit costs. Successive shortest paths send its units one by one, and those that go through the gadget inside
    are led back: each level doubles their number."""
    if level == 0:
        return first + 1, [(first, first + 1, cost, 1) for cost in range(stays)], stays - 1
    inner = first + 1
    outer, arcs, most = gadget(level - 1, inner, stays)
    last, units, cost = outer + 1, stays * 2 ** (level - 1), most + 1
    arcs += [(first, inner, 0, units), (outer, last, 0, units), (first, outer, cost, units), (inner, last, cost, units)]
    return last, arcs, 2 * cost


def chain(count, level, stays, others):
    """A chain of so many gadgets, with a night of one room between them, so that each fills by itself, in sight of all before it; and so
    many other stays, which gain less. A stay of a gadget gains so much for each night that no unit takes a free arc instead."""
    rooms, rows, night_gain = [], [], 100_000
    for _ in range(count):
        last, arcs, _ = gadget(level, len(rooms), stays)
        rows += [(tail, head, (head - tail) * night_gain - cost, units) for tail, head, cost, units in arcs]
        rooms += [stays * 2 ** level] * (last - len(rooms)) + [1]
    draws = Draws(9)
    for _ in range(others):
        start = draws.below(len(rooms))
        end = start + 1 + draws.below(min(7, len(rooms) - start))
        rows.append((start, end, (end - start) * (night_gain // 2 + draws.below(40_000)), draws.below(20)))
    return rooms, rows


def gadgets():
    """Hard: a chain of nested gadgets (Zadeh, A bad network problem for the simplex method and other minimum cost flow
    algorithms, 1973) among other stays."""
    return chain(14, 13, 1, 3200)


FORECASTS = [(1,), (1, 2, 5), (20,), (0, 800), (1, 1000), tuple(range(20))]


def hunted(seed, rooms, ragged, holes, nights, short, kind, rate, noise, power, forecasts):
    """A problem of 400 nights and 4,000 stays by the words of a hunt. Rooms are that many, or less where they are ragged, with a single one on
    each so many nights; stays have up to so many nights, and fewer the shorter they are; their rate goes by a kind, with noise."""
    draw = random.Random(seed)
    by_night = [min(10000, int(rooms * draw.random() ** ragged)) for _ in range(400)]
    if holes:
        by_night[::holes] = [1] * len(by_night[::holes])
    rows = []
    for _ in range(4000):
        length = min(400, int(nights * draw.random() ** short) + 1)
        start = draw.randrange(401 - length)
        grows = {"night": length, "flat": 1, "power": length ** power}.get(kind)
        paid = 2 ** (29 * draw.random()) if grows is None else rate * grows * (1 + noise * draw.random())
        rows.append((start, start + length, max(1, min(10 ** 9, int(paid))), draw.choice(FORECASTS[forecasts])))
    return by_night, rows


def hunter(draw, near):
    """The words of another problem: those of one that was found with one of them changed, or new ones."""
    if near is None:
        return dict(seed=draw.randrange(10 ** 9), rooms=draw.choice([5, 50, 500, 10000]), ragged=draw.choice([0, 0, 1, 3]),
                    holes=draw.choice([0, 0, 7, 18, 50]), nights=draw.choice([7, 30, 100, 256, 400]), short=draw.choice([0.5, 1, 2, 4]),
                    kind=draw.choice(["night", "flat", "power", "any"]), rate=draw.choice([10, 1000, 100000]),
                    noise=draw.choice([0, 0.001, 0.01, 0.1, 1, 10]), power=draw.choice([0.3, 0.7, 0.9, 1.1, 1.5]), forecasts=draw.randrange(6))
    words = dict(near, seed=draw.randrange(10 ** 9))
    name = draw.choice(["seed", "rooms", "ragged", "nights", "short", "rate", "noise", "power"])
    if name != "seed":
        changed = words[name] * draw.choice([0.5, 0.8, 1.25, 2])
        words[name] = max(1, min(round(changed), 10 ** 9 if name == "rate" else 10_000)) if name in ("rooms", "nights", "rate") else round(changed, 4)
    return words


SHAPES = [
    ("month", lambda: generate(7, 31, 120, 300)),
    ("120 nights", lambda: generate(7, 120, 50, 800)),
    ("year", lambda: generate(7, 365, 120, 3000)),
    ("half sold", half_sold),
    ("scarce rooms", lambda: generate(7, 365, 5, 3000)),
    ("long stays", long_stays),
    ("equal rates", equal_rates),
    ("ample rooms", lambda: generate(7, 365, 400, 3000)),
    ("10,000 rooms", many_rooms),
    ("wide", wide),
    ("nested", nested),
    ("stepped", stepped),
    ("flat rates", flat_rates),
    ("gadgets", gadgets),
]

FOUND = [
    ("equal spans", lambda: chain(26, 6, 128, 0)),
    ("power rates", lambda: hunted(seed=949738670, rooms=10000, ragged=0, holes=0, nights=100, short=0.16, kind="power", rate=100000, noise=0.0025, power=0.875, forecasts=2)),
    ("one rate", lambda: hunted(seed=271451224, rooms=10000, ragged=0, holes=0, nights=512, short=0.5, kind="flat", rate=100000, noise=0.1, power=1, forecasts=5)),
]
