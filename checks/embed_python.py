"""Asks the Python module what the commands were asked, and compares: a script for `checks/embed.py`.

    python3 checks/embed_python.py CASES

CASES is a file of a list of cases, as JSON with each byte as one character. BIDPRICE_LIBRARY names the shared library.
The last line says how many comparisons were made; the first that fails ends the script.
"""
import array
import json
import sys
from pathlib import Path

TOP = Path(__file__).resolve().parent.parent
sys.path.insert(0, str(TOP / "python"))
import bidprice

compared = 0


def same(what, found, wanted):
    global compared
    compared += 1
    if found != wanted:
        sys.exit(f"{what}: found {found!r}, wanted {wanted!r}")


def answered(call, *given):
    """The status and the text that a function of the module stands for."""
    try:
        answer = call(*given)
    except bidprice.Refused as refused:
        return 3, f"{refused}\n".encode()
    except bidprice.Usage:
        return 2, None
    return (0, answer) if isinstance(answer, bytes) else tuple(answer)


def raised(error, call, *given):
    """The error of this kind that the call raises."""
    try:
        call(*given)
    except error as found:
        return found
    sys.exit(f"{call.__name__} of {given!r:.80} raised nothing")


def numbers_of(rooms, stays, text):
    """The same numbers as lists, as arrays of Python's own, and as arrays of numpy where that is there."""
    same("numbers from lists", str(bidprice.solve(rooms, stays)).encode(), text)
    lists = [rooms, *(list(column) for column in zip(*stays))] if stays else [rooms, [], [], [], []]
    own = [array.array(code, column) for code, column in zip("QIIQQ", lists)]
    before = [column.tolist() for column in own]
    same("numbers from Python's arrays", str(bidprice.solve_columns(*own)).encode(), text)
    same("Python's arrays as before", [column.tolist() for column in own], before)
    np = bidprice.numpy
    if np is None:
        return
    table = np.array(stays, dtype=np.uint64).reshape(-1, 4)
    nights = [table[:, k].astype(np.uint32) for k in (0, 1)]
    columns = [np.array(rooms, np.uint64), *nights, table[:, 2].copy(), table[:, 3].copy()]
    before = [column.copy() for column in columns]
    certificate = bidprice.solve_columns(*columns)
    same("numbers from arrays", str(certificate).encode(), text)
    same("arrays of the answer", [a.dtype == np.uint64 for a in certificate[1:]], [True, True])
    same("columns as before", all((a == b).all() for a, b in zip(before, columns)), True)
    others = [np.array(rooms, np.int64), *(table[:, k].astype(np.int32) for k in (0, 1)), table[:, 2], table[:, 3]]
    same("numbers from other arrays", str(bidprice.solve_columns(*others)).encode(), text)


LIMITS = [
    ([], [], "NoNights", "no night", 0),
    ([1] * 401, [], "TooManyNights", "too many nights", 0),
    ([1], [(0, 1, 1, 1)] * 4001, "TooManyStays", "too many stays", 0),
    ([1, 1000001], [], "Rooms", "rooms", 1),
    ([1], [(0, 1, 1, 1), (0, 2, 1, 1)], "SpanOut", "span", 1),
    ([1], [(0, 0, 1, 1)], "SpanOut", "span", 0),
    ([1], [(0, 1, 0, 1)], "Rate", "rate", 0),
    ([1], [(0, 1, 1000000001, 1)], "Rate", "rate", 0),
    ([1], [(0, 1, 1, 1000001)], "Forecast", "forecast", 0),
]

NIGHT = b"problem 1\nnights 1\nrooms 2\nstays 0\nend\n"

# A call and what it is given; the exception, and its file, line and night.
REFUSED = [
    ("solve_text", (b"problem 2\n",), "BadLine", 1, 1, None),
    ("solve_text", (b"problem 1\nnights 401\n",), "Limit", 1, 2, None),
    ("sheet", (NIGHT[:-1],), "TooShort", 1, None, None),
    ("sheet", (NIGHT + b" ",), "Trailing", 1, 6, None),
    ("solve_text", (b" " * (16 * 1024 * 1024 + 1),), "TooLong", 1, None, None),
    ("check", (NIGHT, b"certificate 1\nvalue 0250\n"), "BadLine", 2, 2, None),
    ("judge", (NIGHT, b""), "TooShort", 2, None, None),
    ("scenarios", (NIGHT, b"scenarios 1\nscenario\nrooms 0 2 up 1\n"), "Limit", 2, 3, None),
    ("group", (NIGHT, 1, 1, 1), "BadSpan", None, None, None),
    ("group", (NIGHT, 0, 1, 3), "NoRoom", None, None, 0),
]


def main():
    for case in json.loads(Path(sys.argv[1]).read_text("utf-8")):
        call, wanted = case["call"], (case["status"], case["said"].encode("latin-1"))
        given = [text.encode("latin-1") for text in case["texts"]]
        if call == "numbers":
            numbers_of(case["rooms"], case["stays"], wanted[1])
            same("text of a problem", bidprice.problem_text(case["rooms"], case["stays"]), given[0])
            continue
        function = bidprice.solve_text if call == "solve" else getattr(bidprice, call)
        found = answered(function, *given, *case["numbers"])
        same(call, found, (2, None) if wanted[0] == 2 else wanted)
    for rooms, stays, name, limit, place in LIMITS:
        refused = raised(bidprice.LimitRefused, bidprice.solve, rooms, stays)
        same("limit", (type(refused), refused.limit, refused.place), (getattr(bidprice, name), limit, place))
    for call, given, name, *fields in REFUSED:
        refused = raised(bidprice.Refused, getattr(bidprice, call), *given)
        same("refusal", type(refused), getattr(bidprice, name))
        same("what it names", [refused.file, refused.line, refused.night], fields)
    changes = [[], [("rooms", 1, 2, -1)], [("rooms", 1, 2, -2)], [("rate", 0, 200)]]
    found = bidprice.what_if([2, 1, 2], [(0, 2, 100, 3), (1, 3, 150, 1), (0, 1, 60, 1), (2, 3, 40, 5)], changes)
    wanted = [(250, [0, 100, 40], None), (140, [0, 110, 40], None), (None, (), 1), (340, [60, 140, 40], None)]
    same("what if", [tuple(outcome) for outcome in found], wanted)
    raised(bidprice.LengthsDiffer, bidprice.solve_columns, [1], [0], [1], [1], [])
    raised(OverflowError, bidprice.solve_columns, [-1], [0], [1], [1], [1])
    raised(bidprice.Usage, bidprice.group, b"", 0, 2**32, 1)
    print(f"{compared} compared, numpy {'on' if bidprice.numpy is not None else 'off'}")


if __name__ == "__main__":
    main()
