"""Houses and scripts for the scripts of this folder: a hotel's four files, and what its sessions ask."""
import datetime
import os
import random

FIRST = datetime.date(2026, 1, 1)


def date(night):
    return FIRST + datetime.timedelta(days=night)


class House:
    """A hotel with stays of one to seven nights, made from a seed."""

    def __init__(self, seed, nights, rooms, stays, stale_after=20, publications=1000, unit=1, groups=0.03):
        self.draw = random.Random(seed)
        self.nights, self.rooms, self.unit = nights, rooms, unit
        self.stale_after, self.publications, self.groups = stale_after, publications, groups
        self.lead = (stale_after + 1) // 2
        self.stays = []
        for _ in range(stays):
            start = self.draw.randrange(nights)
            length = self.draw.randint(1, min(7, nights - start))
            rate = length * self.draw.randint(5_000, 15_000)
            self.stays.append((start, length, rate, self.draw.randrange(20) * unit))

    def code(self, stay):
        return f"S{stay:04}"

    def write(self, folder):
        """Writes the four files, and gives their paths."""
        os.makedirs(folder, exist_ok=True)
        rows = list(enumerate(self.stays))
        texts = {
            "hotel.toml": f'name = "Bench"\nfirst_night = "{FIRST}"\nnights = {self.nights}\nrooms = {self.rooms}\n'
            f"stale_after = {self.stale_after}\npublications = {self.publications}\nunit = {self.unit}\n",
            "stays.csv": "code,arrival,nights,rate\n"
            + "".join(f"{self.code(j)},{date(start)},{length},{rate}\n" for j, (start, length, rate, _) in rows),
            "forecast.csv": "code,count\n" + "".join(f"{self.code(j)},{row[3]}\n" for j, row in rows),
            "bookings.csv": "code,count\n",
        }
        paths = []
        for name, text in texts.items():
            paths.append(os.path.join(folder, name))
            with open(paths[-1], "w") as out:
                out.write(text)
        return paths

    def problem(self):
        """The text of the problem that the house opens with."""
        rows = [f"stay {start} {start + length} {rate} {forecast}" for start, length, rate, forecast in self.stays]
        rooms = " ".join([str(self.rooms * self.unit)] * self.nights)
        return "\n".join(["problem 1", f"nights {self.nights}", f"rooms {rooms}", f"stays {len(rows)}", *rows, "end", ""])

    def command(self, booked):
        """One command, where so many bookings were asked for before: mostly a booking."""
        stay = self.draw.randrange(len(self.stays))
        if self.draw.random() < self.groups:
            return self.group()
        draw = self.draw.random()
        if draw < 0.74 or (draw < 0.88 and booked == 0):
            return f"book,{self.code(stay)},,,"
        if draw < 0.88:
            return f"cancel,{self.draw.randint(1, booked)},,,"
        if draw < 0.93:
            return f"reforecast,{self.code(stay)},,,{self.draw.randrange(30) * self.unit}"
        if draw < 0.97:
            return f"reprice,{self.code(stay)},,,{self.draw.randint(5_000, 90_000)}"
        return f"resize,{date(self.draw.randrange(self.nights))},,{self.draw.randint(0, self.rooms)},"

    def group(self):
        """A group of one to ten rooms on one to three nights."""
        start = self.draw.randrange(self.nights)
        nights = self.draw.randint(1, min(3, self.nights - start))
        return f"group,{date(start)},{nights},{self.draw.randint(1, 10)},{self.draw.randrange(400_000)}"

    def script(self, sessions, commands):
        """The text of a script with so many commands a session, turn by turn."""
        booked = [0] * sessions
        lines = ["session,verb,item,nights,rooms,amount"]
        for _ in range(commands):
            for session in range(sessions):
                command = self.command(booked[session])
                booked[session] += command.startswith("book")
                lines.append(f"{session + 1},{command}")
        return "\n".join(lines) + "\n"

    def numbers(self, script):
        """The house and a script as numbers, as the desk in C++ beside these scripts reads them."""
        sessions = {}
        for line in script.splitlines()[1:]:
            session, command = line.split(",", 1)
            sessions.setdefault(int(session), []).append(self.act(command.split(",")))
        lines = [f"{self.nights} {len(self.stays)} {self.unit} 200000 {self.publications} {self.stale_after}"]
        lines.append(" ".join([str(self.rooms)] * self.nights))
        lines += [f"{start} {start + length} {rate} {forecast}" for start, length, rate, forecast in self.stays]
        lines.append(str(len(sessions)))
        for session in sorted(sessions):
            lines += [str(len(sessions[session])), *sessions[session]]
        return "\n".join(lines) + "\n"

    def act(self, words):
        """A command as its verb's number, an item, the first night and the one after the last, and two numbers."""
        verb, item, nights, rooms, amount = words
        if verb == "cancel":
            return f"1 0 0 0 {item} 0"
        if verb in ("resize", "group"):
            night = (datetime.date.fromisoformat(item) - FIRST).days
            return f"4 {night} 0 0 {rooms} 0" if verb == "resize" else f"5 0 {night} {night + int(nights)} {rooms} {amount}"
        return f"{('book', '', 'reforecast', 'reprice').index(verb)} {int(item[1:])} 0 0 {amount or 0} 0"
