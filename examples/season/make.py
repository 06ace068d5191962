#!/usr/bin/env python3
"""Makes the files of this folder: the season of a hotel on a lake, from June to August 2026.

    examples/season/make.py

It wants Python's standard library alone, and writes the same bytes at every run. The hotel has 48 rooms, of which
sixteen are closed while a wing is renovated in June; a trade fair fills the town in the second week of July. Stays of
one to seven nights have codes as a house has them, `0701-1N`: the day of arrival and the nights. Forecasts are in
hundredths of a stay. Some rooms are sold already. The script has six sessions: four at the desk, one of a revenue
manager who changes rates and forecasts, and one that sells to groups.
"""
import datetime
import os
import random

HERE = os.path.dirname(os.path.abspath(__file__))
FIRST = datetime.date(2026, 6, 1)
NIGHTS = 90
ROOMS = 48
WING = range(14, 28)  # nights on which sixteen rooms are closed
FAIR = range(42, 47)  # nights of the trade fair
LENGTHS = (1, 2, 3, 4, 7)
UNIT = 100

HOTEL = f"""# Hotel am See, a summer: {ROOMS} rooms, a wing closed in June, a trade fair in July.
name = "Hotel am See"
first_night = "{FIRST}"
nights = {NIGHTS}
rooms = {ROOMS}
stale_after = 24
unit = {UNIT}
"""


def date(night):
    return FIRST + datetime.timedelta(days=night)


def is_weekend(night):
    """Friday and Saturday nights."""
    return date(night).weekday() in (4, 5)


def nightly(night):
    """What a room costs for one night, in cents."""
    if night in FAIR:
        return 24_500
    season = 9_500 + 40 * night
    return season + (2_800 if is_weekend(night) else 0)


def is_sold(night, length):
    """Which stays the house offers: short ones on each day, a week from Saturdays, three nights before a weekend."""
    if night + length > NIGHTS:
        return False
    weekday = date(night).weekday()
    return {1: True, 2: weekday in (1, 4, 5), 3: weekday == 3, 4: weekday == 0, 7: weekday == 5}[length]


def stays():
    """Code, night of arrival, nights and rate of each stay."""
    rows = []
    for night in range(NIGHTS):
        for length in LENGTHS:
            if is_sold(night, length):
                rate = sum(map(nightly, range(night, night + length)))
                cheaper = {1: 100, 2: 98, 3: 95, 4: 94, 7: 90}[length]
                rows.append((f"{date(night):%m%d}-{length}N", night, length, rate * cheaper // 100))
    return rows


def forecast(draw, night, length):
    """How many such stays are expected to ask, in hundredths."""
    base = {1: 700, 2: 1150, 3: 900, 4: 520, 7: 640}[length]
    if any(n in FAIR for n in range(night, night + length)):
        base *= 3
    elif length == 1 and is_weekend(night):
        base = base * 3 // 2
    return base * draw.randint(60, 125) // 100 // 5 * 5


def write(name, lines):
    with open(os.path.join(HERE, name), "w", newline="\n") as out:
        out.write("\n".join(lines) + "\n")


def commands(draw, rows):
    """What the six sessions ask, turn by turn."""
    asks = {row[0]: 0 for row in rows}
    lines, booked = [], {session: 0 for session in range(1, 5)}
    codes = [row[0] for row in rows]
    weights = [forecast(draw, row[1], row[2]) for row in rows]
    for turn in range(60):
        for session in range(1, 5):
            if booked[session] > 2 and draw.random() < 0.12:
                lines.append(f"{session},cancel,{draw.randint(1, booked[session])},,,")
            else:
                code = draw.choices(codes, weights)[0]
                asks[code] += 1
                booked[session] += 1
                lines.append(f"{session},book,{code},,,")
        if turn % 5 == 2:
            code, _, _, rate = draw.choice(rows)
            lines.append(f"5,reprice,{code},,,{rate * draw.choice((95, 103, 108)) // 100}")
        if turn % 6 == 3:
            code = max(asks, key=asks.get)
            asks[code] = 0
            lines.append(f"5,reforecast,{code},,,{draw.randint(6, 24) * UNIT}")
        if turn % 9 == 4:
            night, nights, rooms = draw.randint(0, NIGHTS - 4), draw.randint(1, 3), draw.randint(4, 12)
            whole = sum(map(nightly, range(night, night + nights))) * rooms
            lines.append(f"6,group,{date(night)},{nights},{rooms},{whole * draw.randint(70, 115) // 100}")
    # the wing opens two days early
    lines.append(f"5,resize,{date(WING[-2])},,{ROOMS},")
    lines.append(f"5,resize,{date(WING[-1])},,{ROOMS},")
    return lines


def main():
    draw = random.Random(2026)
    rows = stays()
    wing = [f'\n[[night]]\ndate = "{date(night)}"\nrooms = {ROOMS - 16}' for night in WING]
    write("hotel.toml", [HOTEL + "\n# The north wing is renovated." + "\n".join(wing)])
    write("stays.csv", ["code,arrival,nights,rate"] + [f"{c},{date(n)},{k},{rate}" for c, n, k, rate in rows])
    write("forecast.csv", ["code,count"] + [f"{c},{forecast(draw, n, k)}" for c, n, k, _ in rows])
    sold = [(c, draw.randint(1, 4)) for c, n, k, _ in rows if k > 1 and draw.random() < 0.2]
    write("bookings.csv", ["code,count"] + [f"{c},{count}" for c, count in sold])
    write("script.csv", ["session,verb,item,nights,rooms,amount"] + commands(draw, rows))


if __name__ == "__main__":
    main()
