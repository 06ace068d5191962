"""A hotel's four files and a journal, read apart from the proved program, for the scripts of examples/.

The rules are those of docs/files.md, docs/journal.md and docs/desk.md. Nothing is checked here: `bidprice replay` does
that. No line of this is shared with the program.
"""
import csv
import datetime
import tomllib


class Program:
    """The hotel's linear program: rooms by night, and of each stay its nights, rate and forecast, all in units."""

    def __init__(self, rooms, stays):
        self.rooms = rooms
        self.stays = stays  # (first night, night of departure, rate, forecast)

    def to_problem(self):
        """The text that `bidprice solve` reads."""
        lines = ["problem 1", f"nights {len(self.rooms)}", "rooms " + " ".join(map(str, self.rooms)), f"stays {len(self.stays)}"]
        lines += ["stay " + " ".join(map(str, stay)) for stay in self.stays]
        return "\n".join([*lines, "end"]) + "\n"

    def to_lp(self):
        """The text that glpsol reads by --lp: sell x_j of stay j, at most its forecast, within the rooms of each night."""
        columns = range(len(self.stays))
        worth = " ".join(f"+ {self.stays[j][2]} x{j}" for j in columns) or "0 x0"
        lines = ["Maximize", f" value: {worth}", "Subject To"]
        for night, rooms in enumerate(self.rooms):
            over = [f"+ x{j}" for j in columns if self.stays[j][0] <= night < self.stays[j][1]]
            if over:
                lines.append(f" night{night}: {' '.join(over)} <= {rooms}")
        lines.append("Bounds")
        lines += [f" 0 <= x{j} <= {self.stays[j][3]}" for j in columns]
        return "\n".join([*lines, "End"]) + "\n"


def problem_of(text):
    """The program of a problem's text."""
    lines = [line.split() for line in text.splitlines()]
    rooms = [int(word) for word in lines[2][1:]]
    stays = [tuple(map(int, line[1:])) for line in lines if line[0] == "stay"]
    return Program(rooms, stays)


def value_of(text):
    """The value that a certificate claims."""
    return next(int(line.split()[1]) for line in text.splitlines() if line.startswith("value "))


def table(path):
    """The rows of a table, by the names of its columns."""
    with open(path, encoding="utf-8-sig", newline="") as file:
        rows = csv.reader(file)
        names = [name.strip() for name in next(rows)]
        return [dict(zip(names, (field.strip() for field in row))) for row in rows if row]


class House:
    """A hotel as its journal moves it: rooms, sold rooms, rates and forecasts."""

    def __init__(self, hotel, stays, forecast, bookings):
        with open(hotel, "rb") as file:
            settings = tomllib.load(file)
        first = datetime.date.fromisoformat(settings["first_night"])
        self.unit = settings.get("unit", 1)
        self.rooms = [settings["rooms"]] * settings["nights"]
        for night in settings.get("night", []):
            self.rooms[(datetime.date.fromisoformat(night["date"]) - first).days] = night["rooms"]
        rows = table(stays)
        self.codes = [row["code"] for row in rows]
        place = {code: j for j, code in enumerate(self.codes)}
        starts = [(datetime.date.fromisoformat(row["arrival"]) - first).days for row in rows]
        self.spans = [(start, start + int(row["nights"])) for start, row in zip(starts, rows)]
        self.rates = [int(row["rate"]) for row in rows]
        self.forecasts = [0] * len(rows)
        self.sold = [0] * len(self.rooms)
        for row in table(forecast):
            self.forecasts[place[row["code"]]] = int(row["count"])
        for row in table(bookings):
            self.take(self.spans[place[row["code"]]], int(row["count"]))
        self.booked = {}  # by caller, of each of its bookings the stay where it was accepted

    def take(self, span, rooms):
        for night in range(*span):
            self.sold[night] += rooms

    def make(self, words):
        """What an entry changes, given as its words from the caller on."""
        caller, verb, *rest = words
        if verb == "book":
            stay, accepted = int(rest[0]), rest[1] == "accepted"
            self.booked.setdefault(caller, []).append(stay if accepted else None)
            self.forecasts[stay] = max(0, self.forecasts[stay] - self.unit)
            if accepted:
                self.take(self.spans[stay], 1)
        elif verb == "cancel" and rest[1] == "cancelled":
            self.take(self.spans[self.booked[caller][int(rest[0]) - 1]], -1)
        elif verb == "reforecast":
            self.forecasts[int(rest[0])] = int(rest[1])
        elif verb == "reprice":
            self.rates[int(rest[0])] = int(rest[1])
        elif verb == "resize" and rest[2] == "done":
            self.rooms[int(rest[0])] = int(rest[1])
        elif verb == "group" and rest[4] == "accepted":
            start, end, rooms = map(int, rest[:3])
            self.take((start, end), rooms)

    def program(self):
        """The linear program as of now."""
        left = [self.unit * (rooms - sold) for rooms, sold in zip(self.rooms, self.sold)]
        return Program(left, [(*s, r, f) for s, r, f in zip(self.spans, self.rates, self.forecasts)])


def vectors(house, journal):
    """Of each vector of a journal: its number, the position that it names, its value, and the program there."""
    with open(journal, encoding="ascii") as file:
        lines = [line.split() for line in file.read().splitlines()]
    programs = [house.program()]
    for place, line in enumerate(lines):
        if not line[0].isdigit():
            continue
        _, caller, verb, *rest = line
        if verb == "publish":
            yield int(rest[2]), int(rest[0]), int(lines[place + 1][1]), programs[int(rest[0])]
        house.make([caller, verb, *rest])
        programs.append(house.program())
