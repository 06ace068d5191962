#!/usr/bin/env python3
"""Turns a property system's export into a hotel's four files.

    import.py SETTINGS EXPORT FOLDER

SETTINGS is a TOML file that says how the export is written: nothing of it is guessed.

    encoding = "cp1252"            # utf-8 where it is absent
    separator = ";"                # "," where it is absent, "\\t" for tabs
    dates = "DD.MM.YYYY"           # YYYY-MM-DD where it is absent; any order of DD, MM and YYYY
    decimal = ","                  # "." where it is absent
    thousands = "."                # none where it is absent
    currency = "EUR"               # a sign or word before or behind a rate, none where it is absent
    digits = 2                     # of the money: 2 turns 89 or 89,00 into 8900
    totals = ["Summe"]             # a row whose first filled field is one of these is left out

    [hotel]                        # what hotel.toml is to say, as docs/files.md has it
    name = "Hotel am See"
    first_night = "2026-06-01"
    nights = 90
    rooms = 48

    [columns]                      # the export's header of each column; departure may stand in place of nights
    code = "Produkt"
    arrival = "Anreise"
    nights = "Tage"
    rate = "Preis"
    forecast = "Erwartet"          # whole stays; may be left out: then no forecast is written
    bookings = "Gebucht"           # may be left out: then no booking is written

FOLDER gets hotel.toml, stays.csv, forecast.csv and bookings.csv. What was changed or left out is said, line by line of
the export. Where something can be read in two ways, or in none, nothing is written, and the status is 1.
"""
import csv
import datetime
import io
import os
import re
import sys
import tomllib

NEEDED = ("code", "arrival", "rate")


class Refused(Exception):
    """Why nothing is written."""


class Import:
    def __init__(self, settings):
        self.settings = settings
        self.columns = settings.get("columns", {})
        missing = [name for name in NEEDED if name not in self.columns]
        if missing or ("nights" in self.columns) == ("departure" in self.columns):
            raise Refused(f"the settings have to name the columns {', '.join(NEEDED)}, and either nights or departure")
        if not re.fullmatch(r"(?=.*YYYY)(?=.*MM)(?=.*DD)[YMD./ -]{10}", self.dates):
            raise Refused(f"dates = {self.dates!r} is no order of YYYY, MM and DD in ten characters")
        if self.decimal == self.thousands:
            raise Refused("decimal and thousands are the same sign")

    def __getattr__(self, name):
        wanted = {"encoding": "utf-8", "separator": ",", "dates": "YYYY-MM-DD", "decimal": ".", "thousands": "",
                  "currency": "", "digits": 2, "totals": []}
        if name not in wanted:
            raise AttributeError(name)
        return self.settings.get(name, wanted[name])

    def rows(self, path):
        """The records of the export, each with the line on which it ends; empty ones too."""
        with open(path, "rb") as file:
            raw = file.read()
        encoding = "utf-8-sig" if self.encoding.lower().replace("_", "-") == "utf-8" else self.encoding
        try:
            text = raw.decode(encoding)
        except UnicodeDecodeError as error:
            raise Refused(f"the export is not {self.encoding}: byte {error.start}") from None
        reader = csv.reader(io.StringIO(text, newline=""), delimiter=self.separator, strict=True)
        try:
            return [(reader.line_num, [field.strip() for field in row]) for row in reader]
        except csv.Error as error:
            raise Refused(f"line {reader.line_num}: {error}") from None

    def parts(self, rows):
        """The column numbers, and the rows behind the header; the rows before it are said to be left out."""
        for place, (line, row) in enumerate(rows):
            if all(name in row for name in self.columns.values()):
                twice = [name for name in self.columns.values() if row.count(name) > 1]
                if twice:
                    raise Refused(f"line {line}: two columns are called {twice[0]}")
                return {key: row.index(name) for key, name in self.columns.items()}, len(row), rows[place + 1:]
            say(line, f"left out, it stands before the header: {' '.join(filter(None, row))!r}")
        raise Refused(f"no line has all the columns {', '.join(self.columns.values())}")

    def date(self, line, text):
        pattern = re.escape(self.dates).replace("YYYY", r"(?P<Y>\d{4})").replace("MM", r"(?P<M>\d{2})").replace("DD", r"(?P<D>\d{2})")
        found = re.fullmatch(pattern, text)
        try:
            return datetime.date(*(int(found[part]) for part in "YMD"))
        except (TypeError, ValueError):
            raise Refused(f"line {line}: {text!r} is no date as {self.dates}") from None

    def money(self, line, text):
        """A rate in the smallest unit."""
        bare = text.removeprefix(self.currency).removesuffix(self.currency).strip()
        whole, point, cents = bare.partition(self.decimal)
        grouped = rf"\d{{1,3}}({re.escape(self.thousands)}\d{{3}})+" if self.thousands else r"(?!)"
        if not re.fullmatch(rf"\d+|{grouped}", whole) or (point and not re.fullmatch(rf"\d{{1,{max(self.digits, 1)}}}", cents)):
            raise Refused(f"line {line}: {text!r} is no amount with the decimal sign {self.decimal!r}")
        if point and not self.digits:
            raise Refused(f"line {line}: {text!r} has parts of a unit, and the money has none")
        return int(whole.replace(self.thousands, "") if self.thousands else whole) * 10**self.digits + int(cents.ljust(self.digits, "0") or 0)

    def count(self, line, text):
        if text == "":
            return 0
        if not re.fullmatch(r"\d{1,9}", text):
            raise Refused(f"line {line}: {text!r} is no whole number")
        return int(text)

    def code(self, line, text):
        code = re.sub(r"[^A-Za-z0-9._-]+", "-", text).strip("-")
        if not 1 <= len(code) <= 16:
            raise Refused(f"line {line}: the code {text!r} cannot be made one of 1 to 16 letters, digits, dots, dashes")
        if code != text:
            say(line, f"the code {text!r} becomes {code!r}")
        return code

    def stay(self, line, field):
        """Code, arrival, nights, rate, forecast and bookings of a row."""
        arrival = self.date(line, field("arrival"))
        if "departure" in self.columns:
            nights = (self.date(line, field("departure")) - arrival).days
        else:
            nights = self.count(line, field("nights"))
        if nights < 1:
            raise Refused(f"line {line}: a stay of {nights} nights")
        forecast, bookings = (self.count(line, field(name)) if name in self.columns else 0 for name in ("forecast", "bookings"))
        unit = self.settings.get("hotel", {}).get("unit", 1)
        return self.code(line, field("code")), arrival, nights, self.money(line, field("rate")), forecast * unit, bookings

    def stays(self, path):
        at, width, rows = self.parts(self.rows(path))
        found = {}
        for line, row in rows:
            filled = [field for field in row if field]
            if not filled:
                say(line, "left out, it is empty")
            elif filled[0] in self.totals:
                say(line, f"left out, it is a total: {' '.join(filled)!r}")
            elif len(row) != width:
                raise Refused(f"line {line}: {len(row)} fields, and the header has {width}")
            else:
                stay = self.stay(line, lambda name: row[at[name]])
                if stay[0] in found:
                    raise Refused(f"line {line}: the code {stay[0]} is on an earlier line, too")
                found[stay[0]] = stay
        return list(found.values())

    def hotel(self):
        """The hotel file, from the settings."""
        lines = []
        for key, value in self.settings.get("hotel", {}).items():
            if key != "night":
                lines.append(f"{key} = " + (f'"{value}"' if isinstance(value, str) else str(value)))
        for night in self.settings.get("hotel", {}).get("night", []):
            lines += ["", "[[night]]", f'date = "{night["date"]}"', f"rooms = {night['rooms']}"]
        return lines


def say(line, what):
    print(f"line {line}: {what}")


def write(folder, name, lines):
    with open(os.path.join(folder, name), "w", encoding="ascii", newline="\n") as file:
        file.write("\n".join(lines) + "\n")


def main():
    if len(sys.argv) != 4:
        sys.exit(__doc__)
    settings, export, folder = sys.argv[1:]
    try:
        with open(settings, "rb") as file:
            work = Import(tomllib.load(file))
        stays = work.stays(export)
    except (Refused, tomllib.TOMLDecodeError) as refused:
        print(f"refused: {refused}")
        sys.exit(1)
    os.makedirs(folder, exist_ok=True)
    write(folder, "hotel.toml", work.hotel())
    write(folder, "stays.csv", ["code,arrival,nights,rate"] + [f"{c},{a},{n},{r}" for c, a, n, r, _, _ in stays])
    write(folder, "forecast.csv", ["code,count"] + [f"{row[0]},{row[4]}" for row in stays if row[4]])
    write(folder, "bookings.csv", ["code,count"] + [f"{row[0]},{row[5]}" for row in stays if row[5]])
    print(f"{len(stays)} stays")


if __name__ == "__main__":
    main()
