"""What a line of the program may answer: which words are a line, and what each status writes, by the pages of docs/."""
import os
import re
import sys

sys.path.insert(0, os.path.join(os.path.dirname(os.path.dirname(os.path.abspath(__file__))), "checks"))

from statuses import USAGE

TEXT = rb"tooshort|(badline|limit|trailing) [1-9]\d*"


def table(columns, causes):
    return rb"column (%b)|(notcsv|%b) [1-9]\d*" % (columns, causes)


# Why a file of each kind is refused, behind the number of the file. Each may be too long.
HOTEL_KEYS = rb"name|first_night|nights|rooms"
MORE_KEYS = rb"stale_after|entries|publications|unit"
REFUSED = {
    "text": TEXT,
    "hotel": rb"nottoml|missing (%b)|kind (%b|%b|night)|date first_night|range (first_night|nights|rooms|%b)"
    % (HOTEL_KEYS, HOTEL_KEYS, MORE_KEYS, MORE_KEYS) + rb"|(nightshape|nightoutside|twicenight) \d+",
    "stays": table(rb"code|arrival|nights|rate", rb"code|date|number|limit|outside|twicecode"),
    "forecast": table(rb"code|count", rb"code|nocode|number|limit|twicecode"),
    "bookings": table(rb"code|count", rb"code|nocode|number|limit|twicecode") + rb"|overbooked \d+",
    "script": table(rb"session|verb|item|nights|rooms|amount", rb"session|verb|code|nocode|date|number|limit|outside"),
}
REFUSED = {kind: re.compile(rb"refused (\d+) (%b|toolong)\n" % causes) for kind, causes in REFUSED.items()}

HOTEL = ["hotel", "stays", "forecast", "bookings"]
FILES = {
    "check": ["text", "text"],
    "solve": ["text"],
    "group": ["text"],
    "judge": ["text", "text"],
    "desk": [*HOTEL, "script"],
    "replay": [*HOTEL, "text"],
    "report": [*HOTEL, "text"],
    "demo": [],
    "scenarios": ["text", "text"],
    "sheet": ["text"],
    "portfolio": ["text", *[*HOTEL, "script"] * 8],
}

CERTIFICATE = rb"certificate 1\nvalue \d+\nsell( \d+)*\nprices( \d+)+\nend\n"
JUDGED = rb"illegal \d+ (opening|caller|range|limit|behind|position|certificate|reply)\n"
VERDICT = rb"wronglength\n|(pricetoogreat|aboveforecast|misvalued) \d+\n|(overfull|gap) \d+ \d+\n"
WRITTEN = {
    ("check", 0): rb"optimal \d+\n",
    ("check", 1): VERDICT,
    ("solve", 0): CERTIFICATE,
    ("group", 0): rb"displacement \d+\n" + CERTIFICATE * 2,
    ("judge", 0): rb"legal \d+\n",
    ("judge", 1): JUDGED,
    ("replay", 0): rb"legal \d+\n",
    ("replay", 1): JUDGED,
    ("report", 0): rb"night date        rooms   sold   left       price\n(.*\n)+"
    rb"stay              asked accepted toolow noroom cancelled forecast\n(.*\n)*value \d+\n",
    ("report", 1): JUDGED,
    ("scenarios", 0): rb"(scenario \d+ (value \d+ prices( \d+)+|refused \d+)\n)*",
    ("sheet", 0): rb"(night \d+ price \d+ gain (\d+|-) loss (\d+|-)\n)+(arrival \d+ (least \d+|closed) hurdles( \d+)+\n)+",
    ("demo", 0): rb"demo( \d+){4}\nvalue \d+\nprices \d+\naccepted \d+\ntoolow \d+\nnoroom \d+\nclosing \d+\n",
}
WRITTEN = {key: re.compile(form) for key, form in WRITTEN.items()}
JOURNAL_LINE = re.compile(rb"\d+ \d+ publish \d+ vector \d+|\d+ \d+ [a-z]+[a-z0-9 ]*|value \d+|sell( \d+)*|prices( \d+)+")
GROUP_REFUSED = re.compile(rb"refused span\n|noroom \d+\n")


def is_name(word):
    return len(word) > 0 and not word.startswith(b"-")


def is_number(word, least, most):
    return re.fullmatch(rb"[0-9]{1,9}", word) is not None and least <= int(word) <= most


def is_text(word):
    try:
        word.decode()
    except UnicodeDecodeError:
        return False
    return True


def is_plain(words):
    """Whether words, as bytes, are a line that the usage shows."""
    command, *rest = words or [b""]
    command = command.decode("latin-1")
    if command in ("desk", "portfolio") and len(rest) > 2 and rest[-2] == b"--workers" and is_number(rest[-1], 0, 16):
        rest = rest[:-2]
    if command == "demo":
        ranges = [(0, 999_999_999), (1, 400), (0, 10_000), (0, 4_000)]
        return len(rest) == 4 and all(is_number(word, *limits) for word, limits in zip(rest, ranges))
    if command == "group":
        ranges = [(0, 999_999_999), (0, 999_999_999), (1, 10_000)]
        return len(rest) == 4 and is_name(rest[0]) and all(is_number(word, *limits) for word, limits in zip(rest[1:], ranges))
    names = 1 if command == "portfolio" else len(FILES.get(command, []))
    return names > 0 and len(rest) == names and all(map(is_name, rest))


def is_journal(text):
    """Whether a text has the lines of a journal; that it is a legal one is for `replay` to say."""
    lines = text.split(b"\n")
    return lines[0] == b"journal 2" and lines[-2:] == [b"end", b""] and all(JOURNAL_LINE.fullmatch(line) for line in lines[1:-2])


def is_portfolio(status, text):
    """Whether a text is that of the hotels' journals, and its status that of the worst of them."""
    parts = re.split(rb"^hotel (\d) ([07])\n", text, flags=re.M)
    numbers, statuses, journals = parts[1::3], parts[2::3], parts[3::3]
    return (parts[0] == b"" and numbers == [b"%d" % nth for nth in range(1, len(numbers) + 1)] and 1 <= len(numbers) <= 8
            and all(map(is_journal, journals)) and (status == 7) == (b"7" in statuses))


def is_written(command, status, text):
    """Whether a command that ends with status 0, 1 or 7 may have written such a text."""
    if command == "desk":
        return status in (0, 7) and is_journal(text)
    if command == "portfolio":
        return status in (0, 7) and is_portfolio(status, text)
    form = WRITTEN.get((command, status))
    return form is not None and form.fullmatch(text) is not None


def complaint_of_refusal(command, text, damaged, too_long):
    """What is wrong with what status 3 writes, or None: the first file that may be refused is the damaged one, counted
    from 1, and it is too long exactly where it is."""
    if command == "group" and GROUP_REFUSED.fullmatch(text):
        return None
    number = re.match(rb"refused (\d+) ", text)
    at = int(number[1]) if number else 0
    kinds = FILES[command]
    if not 1 <= at <= len(kinds) or not REFUSED[kinds[at - 1]].fullmatch(text):
        return f"status 3 with {text[:200]!r}"
    if at < damaged:
        return f"{text!r}, where the damaged file is {damaged}"
    if damaged and (at == damaged and text.endswith(b" toolong\n")) != too_long:
        return f"{text!r}, of a file that is {'' if too_long else 'not '}too long"
    return None


def complaint(words, status, text, errors, damaged=0, too_long=False, may_fail=False):
    """What is wrong with an answer, or None. The words are bytes; damaged is the number of the damaged file, from 1; a line
    may fail where its words or its list may name files that are not there."""
    if not 0 <= status <= 7:
        return f"status {status}"
    if errors:
        return f"standard error: {errors[:200]!r}"
    if not all(map(is_text, words)):
        return None if (status, text) == (2, b"") else f"status {status}, where a word is no text"
    if not is_plain(words):
        return None if (status, text) == (2, USAGE) else f"status {status} with {text[:200]!r}, where the words are no line"
    command = words[0].decode()
    if status == 3:
        return complaint_of_refusal(command, text, damaged, too_long)
    if too_long:
        return f"status {status}, of a file that is too long"
    if status == 4 and may_fail:
        fault = re.fullmatch(rb"fault (\d+)\n", text)
        return None if fault and 1 <= int(fault[1]) <= len(FILES[command]) else f"status 4 with {text[:200]!r}"
    if status in (2, 4, 5, 6):
        return f"status {status}: the words are a line, the files are there, and the output is open"
    if not is_written(command, status, text):
        return f"status {status} with {text[:200]!r}"
    if command == "demo" and not text.startswith(b"demo %d %d %d %d\n" % tuple(map(int, words[1:]))):
        return f"{text[:60]!r} for other words"
    return None
