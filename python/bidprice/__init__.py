"""Certified bid prices of a hotel: the proved solver, checker and commands of bidprice as calls.

>>> solve([2, 1, 2], [(0, 2, 100, 3), (1, 3, 150, 1), (0, 1, 60, 1), (2, 3, 40, 5)]).prices
[0, 100, 40]

Nights count from 0, a stay is (arrival, departure, rate, forecast), money is in minor units, and rooms and forecasts
are in units. Texts are bytes. The functions with texts give what the command of their name writes on files of these
texts. While a call runs, other threads of Python run too: they have to leave its arrays alone.
"""
from __future__ import annotations

import array
import ctypes
import os
from ctypes import POINTER, addressof, byref, c_char, c_char_p, c_size_t, c_uint32, c_uint64, c_void_p, string_at
from pathlib import Path
from typing import Iterable, List, NamedTuple, Optional, Sequence, Tuple, Union

try:
    import numpy
except ImportError:
    numpy = None

__all__ = [
    "BidpriceError", "NoMemory", "LengthsDiffer", "Usage",
    "Refused", "BadLine", "Limit", "TooShort", "Trailing", "TooLong", "BadSpan", "NoRoom",
    "LimitRefused", "NoNights", "TooManyNights", "TooManyStays", "Rooms", "SpanOut", "Rate", "Forecast",
    "Certificate", "Answer", "Column",
    "solve", "solve_columns", "problem_text", "solve_text", "check", "group", "judge", "sheet",
    "Outcome", "what_if", "scenarios_text", "scenarios",
]


class BidpriceError(Exception):
    """Every error of this module."""


class NoMemory(BidpriceError, MemoryError):
    """There was no memory; nothing was written, and nothing is lost."""


class LengthsDiffer(BidpriceError, ValueError):
    """The columns have not one length."""


class Usage(BidpriceError, ValueError):
    """Numbers of a group that no line of the command may have."""


class Refused(BidpriceError, ValueError):
    """A text is refused, or what is asked of it. The message is the command's line.

    `file` counts the call's texts from 1, `line` the lines of that text, and `night` is one of a group. A refusal has
    what its line names, and None for the others.
    """

    file: Optional[int] = None
    line: Optional[int] = None
    night: Optional[int] = None


class BadLine(Refused):
    """A line of a text has not the form of its place."""


class Limit(Refused):
    """A number on a line of a text is outside its limit."""


class TooShort(Refused):
    """A text ends before its last line does."""


class Trailing(Refused):
    """Bytes follow the end of a text; `line` is the one behind it."""


class TooLong(Refused):
    """A text is longer than a file of its kind may be."""


class BadSpan(Refused):
    """The nights of a group are none of the problem's."""


class NoRoom(Refused):
    """A night of a group has fewer rooms: `night` is the first."""


class LimitRefused(Refused):
    """A limit refuses numbers: `limit` names it, and `place` is the night or the stay that breaks it."""

    NAMES = ("", "no night", "too many nights", "too many stays", "rooms", "span", "rate", "forecast")

    def __init__(self, limit: int, place: int):
        self.limit, self.place = self.NAMES[limit], place
        super().__init__(f"{self.limit} {place}" if limit > 3 else self.limit)


class NoNights(LimitRefused):
    """There is no night."""


class TooManyNights(LimitRefused):
    """There are more than 400 nights."""


class TooManyStays(LimitRefused):
    """There are more than 4,000 stays."""


class Rooms(LimitRefused):
    """The night `place` has more than 1,000,000 units of rooms."""


class SpanOut(LimitRefused):
    """The stay `place` does not arrive before it departs, or departs behind the last night."""


class Rate(LimitRefused):
    """The rate of the stay `place` is not 1 to 1,000,000,000."""


class Forecast(LimitRefused):
    """The forecast of the stay `place` is above 1,000,000 units."""


# By the number of the limit, and by the command's word.
_LIMITS = (LimitRefused, NoNights, TooManyNights, TooManyStays, Rooms, SpanOut, Rate, Forecast)
_CAUSES = {"badline": BadLine, "limit": Limit, "tooshort": TooShort, "trailing": Trailing, "toolong": TooLong}


def _refusal(said: str) -> Refused:
    """The exception of a command's line."""
    word, *rest = said.split(" ")
    if word == "noroom":
        error = NoRoom(said)
        error.night = int(rest[0])
    elif rest == ["span"]:
        error = BadSpan(said)
    else:
        file, cause, *line = rest
        error = _CAUSES.get(cause, Refused)(said)
        error.file, error.line = int(file), int(line[0]) if line else None
    return error


class Certificate(NamedTuple):
    """The optimum, the units sold of each stay, and the least price of each night. As a string it is the text."""

    value: int
    sell: Sequence[int]
    prices: Sequence[int]

    def __str__(self) -> str:
        rows = (("sell", self.sell), ("prices", self.prices))
        sell, prices = (" ".join([word, *map(str, numbers)]) for word, numbers in rows)
        return "\n".join(["certificate 1", f"value {self.value}", sell, prices, "end", ""])


class Answer(NamedTuple):
    """The status of a command and the bytes that it writes."""

    status: int
    text: bytes


class Outcome(NamedTuple):
    """What a problem is worth after some changes, and the least price of each night; or None and no prices, with the
    number of the first change, from 1, that the rooms do not allow."""

    value: Optional[int]
    prices: Sequence[int]
    refused: Optional[int] = None


# Whole numbers in order: a list, an array of the module array, or one of numpy.
Column = Union[Iterable[int], "numpy.ndarray"]


class _Refusal(ctypes.Structure):
    _fields_ = [("limit", c_uint32), ("place", c_uint32)]


def _found() -> str:
    here = Path(__file__).resolve().parent
    beside = here / "libbidprice.so"
    built = beside if beside.exists() else here.parents[1] / "out" / "libbidprice.so"
    return os.environ.get("BIDPRICE_LIBRARY") or str(built)


_TEXT = [c_char_p, c_size_t]
_ANSWER = [c_void_p, c_size_t, POINTER(c_uint64)]
_COLUMN = [c_void_p, c_size_t]
_CALLS = {
    "check": _TEXT * 2 + _ANSWER,
    "solve": _TEXT + _ANSWER,
    "group": _TEXT + [c_uint32, c_uint32, c_uint64] + _ANSWER,
    "judge": _TEXT * 2 + _ANSWER,
    "scenarios": _TEXT * 2 + _ANSWER,
    "sheet": _TEXT + _ANSWER,
    "solve_numbers": _COLUMN * 5 + [POINTER(c_uint64)] + _COLUMN * 2 + [POINTER(_Refusal)],
}
_library = ctypes.CDLL(_found())
_call = {}
for _name, _types in _CALLS.items():
    _call[_name] = getattr(_library, f"bidprice_{_name}")
    _call[_name].argtypes, _call[_name].restype = _types, c_uint32

# What is good for no numbers, and its address; the start of a buffer, which tells an address in half the time.
_NOTHING = (c_uint64 * 1)()
_NOWHERE = addressof(_NOTHING)
_START = c_char * 0
_array, _solve_numbers = array.array, _call["solve_numbers"]


def _column(numbers, code: str):
    """A column of machine words: what owns it, where it lies, and how many there are."""
    if type(numbers) is _array and numbers.typecode == code:
        owner = numbers
    elif numpy is not None and isinstance(numbers, numpy.ndarray):
        owner = _as_words(numbers, numpy.uint64 if code == "Q" else numpy.uint32)
        length = owner.size
        if length == 0:
            return owner, _NOWHERE, 0
        return owner, addressof(_START.from_buffer(owner)) if owner.flags.writeable else owner.ctypes.data, length
    else:
        owner = _array(code, numbers)
    address, length = owner.buffer_info()
    return owner, (address if length else _NOWHERE), length


def _as_words(numbers, kind):
    """The array itself where its type is the call's and it lies in one piece, and else a copy of that type."""
    if numbers.ndim != 1:
        raise LengthsDiffer("a column has one dimension")
    if numbers.dtype != kind:
        whole = numbers.dtype.kind in "iu"
        if not whole or (numbers.size and (numbers.min() < 0 or numbers.max() > numpy.iinfo(kind).max)):
            raise OverflowError("a number of a column is no machine word")
    return numpy.ascontiguousarray(numbers, kind)


def solve_columns(rooms: Column, arrive: Column, depart: Column, rate: Column, forecast: Column) -> Certificate:
    """The certificate of columns, with the least prices: rooms by night, and a row of the other four for each stay.

    Arrays of numpy give arrays of numpy, and are not copied where they are uint64 (rooms, rate, forecast) and uint32
    (arrive, depart) in one piece. Other sequences of whole numbers give lists; arrays of the module array are not
    copied where their codes are Q and I, likewise. Raises the LimitRefused of the limit that refuses the numbers, and
    LengthsDiffer where the columns have not one length.
    """
    rooms, rooms_at, nights = _column(rooms, "Q")
    arrive, arrive_at, stays = _column(arrive, "I")
    depart, depart_at, departs = _column(depart, "I")
    rate, rate_at, rates = _column(rate, "Q")
    forecast, forecast_at, forecasts = _column(forecast, "Q")
    as_arrays = type(rooms) is not _array
    if as_arrays:
        blank_sell, blank_prices = numpy.empty(stays, numpy.uint64), numpy.empty(nights, numpy.uint64)
    else:
        blank_sell, blank_prices = _array("Q", bytes(8 * stays)), _array("Q", bytes(8 * nights))
    sell, sell_at, _ = _column(blank_sell, "Q")
    prices, prices_at, _ = _column(blank_prices, "Q")
    value, refused = c_uint64(), _Refusal()
    status = _solve_numbers(
        rooms_at, nights, arrive_at, stays, depart_at, departs, rate_at, rates, forecast_at, forecasts,
        byref(value), sell_at, stays, prices_at, nights, byref(refused),
    )
    if status == 0:
        return Certificate(value.value, *((sell, prices) if as_arrays else (sell.tolist(), prices.tolist())))
    if status == 3:
        raise _LIMITS[refused.limit](refused.limit, refused.place)
    raise NoMemory() if status == 6 else LengthsDiffer("the columns have not one length")


def solve(rooms: Sequence[int], stays: Iterable[Tuple[int, int, int, int]]) -> Certificate:
    """The certificate of rooms by night and stays (arrival, departure, rate, forecast), with the least prices."""
    columns = list(zip(*stays)) or [(), (), (), ()]
    return solve_columns(rooms, *columns)


def problem_text(rooms: Sequence[int], stays: Iterable[Tuple[int, int, int, int]]) -> bytes:
    """The text of a problem, for the functions that take one."""
    rows = [" ".join(["stay", *map(str, stay)]) for stay in stays]
    rooms = list(rooms)
    head = ["problem 1", f"nights {len(rooms)}", " ".join(["rooms", *map(str, rooms)]), f"stays {len(rows)}"]
    return "\n".join([*head, *rows, "end", ""]).encode()


def _text(name: str, size: int, *given) -> Answer:
    """The answer of a call with texts and numbers; the buffer is made again where it is too short."""
    words = []
    for one in given:
        words += (one, len(one)) if isinstance(one, bytes) else (one,)
    written = c_uint64()
    while True:
        buffer = (c_char * max(size, 1))()
        status = _call[name](*words, addressof(buffer), size, byref(written))
        if status != 8:
            break
        size = written.value
    if status == 6:
        raise NoMemory()
    return Answer(status, string_at(buffer, written.value))


def _accepted(answer: Answer) -> Answer:
    """The answer, unless it is a refusal."""
    if answer.status == 2:
        raise Usage("numbers of a group that no line of the command may have")
    if answer.status == 3:
        raise _refusal(answer.text.decode().rstrip("\n"))
    return answer


def check(problem: bytes, certificate: bytes) -> Answer:
    """Whether the certificate is right for the problem: status 0 where it is, and 1 where it is not."""
    return _accepted(_text("check", 128, problem, certificate))


def solve_text(problem: bytes) -> bytes:
    """The text of a certificate of the problem, with the least prices."""
    return _accepted(_text("solve", len(problem) + 64, problem)).text


def group(problem: bytes, first: int, last: int, rooms: int) -> bytes:
    """What so many rooms on each night from `first` up to the morning of `last` displace, with both certificates."""
    if not (0 <= first < 2**32 and 0 <= last < 2**32 and 0 <= rooms < 2**64):
        raise Usage("numbers of a group that no line of the command may have")
    return _accepted(_text("group", 2 * len(problem) + 128, problem, first, last, rooms)).text


def judge(problem: bytes, journal: bytes) -> Answer:
    """Whether the journal is a legal history of the problem's house: status 0 where it is, and 1 where it is not."""
    return _accepted(_text("judge", 128, problem, journal))


def scenarios(problem: bytes, changes: bytes) -> bytes:
    """The optimum and the least prices of the problem after each list of changes, a line each."""
    # A price has at most ten digits, so the lines need no more room than this, and nothing is asked for twice.
    nights = min(problem.count(b" ", 0, problem.find(b"\nstays")), 400)
    room = 128 + changes.count(b"scenario\n") * (128 + 11 * nights)
    return _accepted(_text("scenarios", room, problem, changes)).text


def scenarios_text(lists: Iterable[Iterable[Tuple]]) -> bytes:
    """The text of lists of changes: ("rooms", first, last, more), where fewer rooms are a negative number, ("demand",
    stay, forecast) and ("rate", stay, rate)."""
    lines = ["scenarios 1"]
    for changes in lists:
        lines.append("scenario")
        for word, *numbers in changes:
            if word == "rooms":
                first, last, more = numbers
                numbers = [first, last, "up" if more >= 0 else "down", abs(more)]
            lines.append(" ".join([word, *map(str, numbers)]))
    return "\n".join([*lines, "end", ""]).encode()


def what_if(
    rooms: Sequence[int], stays: Iterable[Tuple[int, int, int, int]], lists: Iterable[Iterable[Tuple]]
) -> List[Outcome]:
    """What each list of changes, as of `scenarios_text`, makes of the problem. It is solved once, and each list takes a
    restart from there."""
    outcomes = []
    for line in scenarios(problem_text(rooms, stays), scenarios_text(lists)).decode().splitlines():
        _, _, word, number, *rest = line.split(" ")
        if word == "refused":
            outcomes.append(Outcome(None, (), int(number)))
        else:
            outcomes.append(Outcome(int(number), [int(price) for price in rest[1:]]))
    return outcomes


def sheet(problem: bytes) -> bytes:
    """The sheet of the problem: the bands of each night, and what a stay of each length has to pay."""
    return _accepted(_text("sheet", 1 << 16, problem)).text
