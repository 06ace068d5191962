"""Generated problems for the scripts of this folder."""


class Draws:
    """A linear congruential generator."""

    def __init__(self, seed):
        self.last = seed + 1

    def below(self, limit):
        self.last = 16807 * self.last % 2147483647
        return self.last % limit


def generate(seed, nights, rooms, stays):
    """Rooms of each night, and stays (from, to, rate, forecast)."""
    draw = Draws(seed).below
    rows = []
    for _ in range(stays):
        start = draw(nights)
        length = 1 + draw(min(7, nights - start))
        rate = length * (5000 + draw(10000))
        rows.append((start, start + length, rate, draw(20)))
    return [rooms] * nights, rows


def words(word, numbers):
    """A line of a text: a word, and numbers behind it."""
    return " ".join([word, *map(str, numbers)])


def problem_text(rooms, rows):
    """The text of a problem."""
    lines = ["problem 1", f"nights {len(rooms)}", words("rooms", rooms), f"stays {len(rows)}"]
    lines += [words("stay", row) for row in rows]
    return "\n".join(lines + ["end", ""])
