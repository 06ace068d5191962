#!/usr/bin/env python3
"""Makes the files of a chain of hotels, each in a folder of its own.

    make.py FOLDER [COUNT]

FOLDER gets COUNT hotels (200), `hotel-000` and so on, each with its settings, its three tables and a script of four
sessions. They differ in nights, rooms, stays and forecasts, by their numbers alone, so each call makes the same files.
One of them, the last, has a rate with a point in it: it will be refused, and the others are not to notice.
"""
import datetime
import os
import random
import sys

SESSIONS, COMMANDS = 4, 60


class Hotel:
    def __init__(self, number):
        self.draw = random.Random(number)
        self.name = f"hotel-{number:03}"
        self.first = datetime.date(2026, 1, 1) + datetime.timedelta(days=self.draw.randrange(300))
        self.nights, self.rooms = self.draw.randint(30, 120), self.draw.randint(12, 120)
        self.stays = [self.stay() for _ in range(self.draw.randint(40, 240))]

    def stay(self):
        """First night, nights, rate and forecast."""
        start = self.draw.randrange(self.nights)
        length = self.draw.randint(1, min(7, self.nights - start))
        return start, length, length * self.draw.randint(6_000, 18_000), self.draw.randrange(1, 2 + self.rooms // 8)

    def date(self, night):
        return self.first + datetime.timedelta(days=night)

    def command(self):
        stay = self.draw.randrange(len(self.stays))
        draw = self.draw.random()
        if draw < 0.82:
            return f"book,s{stay},,,"
        if draw < 0.90:
            return f"cancel,{self.draw.randint(1, COMMANDS // 2)},,,"
        if draw < 0.95:
            return f"reforecast,s{stay},,,{self.draw.randrange(20)}"
        if draw < 0.98:
            return f"reprice,s{stay},,,{self.draw.randint(6_000, 90_000)}"
        start = self.draw.randrange(self.nights - 2)
        return f"group,{self.date(start)},2,{self.draw.randint(2, 8)},{self.draw.randint(20_000, 200_000)}"

    def files(self, rate="{}"):
        """Each file's name and lines."""
        rows = list(enumerate(self.stays))
        script = [f"{session},{self.command()}" for _ in range(COMMANDS) for session in range(1, SESSIONS + 1)]
        return {
            "hotel.toml": [f'name = "{self.name}"', f'first_night = "{self.first}"', f"nights = {self.nights}", f"rooms = {self.rooms}"],
            "stays.csv": ["code,arrival,nights,rate"] + [f"s{j},{self.date(s)},{k},{rate.format(r)}" for j, (s, k, r, _) in rows],
            "forecast.csv": ["code,count"] + [f"s{j},{row[3]}" for j, row in rows],
            "bookings.csv": ["code,count"],
            "script.csv": ["session,verb,item,nights,rooms,amount"] + script,
        }


def main():
    if len(sys.argv) not in (2, 3):
        sys.exit(__doc__)
    count = int(sys.argv[2]) if len(sys.argv) == 3 else 200
    for number in range(count):
        hotel = Hotel(number)
        folder = os.path.join(sys.argv[1], hotel.name)
        os.makedirs(folder, exist_ok=True)
        for name, lines in hotel.files("{}.00" if number == count - 1 else "{}").items():
            with open(os.path.join(folder, name), "w", newline="\n") as file:
                file.write("\n".join(lines) + "\n")


if __name__ == "__main__":
    main()
