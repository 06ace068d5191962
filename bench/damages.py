"""Damages of a file's bytes and of a line's words, for the scripts of this folder that try what is not well formed."""
import re

NUMBER = re.compile(rb"\d+")
NO_TEXTS = [b"\xff", b"\xc0\x80", b"\xed\xa0\x80"]
MARKS = [b",", b'"', b"'", b"-", b"+", b".", b"#", b"[", b"]", b"{", b"=", b"\\"]
PIECES = [*NO_TEXTS, *MARKS, b"\0", b"\xef\xbb\xbf", b"\r", b"\n", b"\r\n", b" ", b"\t", b"0", b"1", b"9" * 40]
PIECES += [piece.encode() for piece in ("é", "\u2028", "٣")]
ENCODINGS = ["utf-16", "utf-16-le", "utf-32", "utf-8-sig", "utf-7", "cp037"]


def flip(draw, text):
    text[draw.randrange(len(text))] = draw.randrange(256)


def cut(draw, text):
    del text[draw.randrange(len(text)) :]


def drop(draw, text):
    at = draw.randrange(len(text))
    del text[at : at + draw.randint(1, 20)]


def double(draw, text):
    at = draw.randrange(len(text))
    text[at:at] = text[at : at + draw.randint(1, 200)]


def swap(draw, text):
    """Two pieces of one length change places."""
    size = draw.randint(1, max(1, min(20, len(text) // 2)))
    a, b = sorted((draw.randrange(len(text)), draw.randrange(len(text))))
    size = min(size, b - a, len(text) - b)
    text[a : a + size], text[b : b + size] = text[b : b + size], text[a : a + size]


def put_in(draw, text):
    at = draw.randrange(len(text) + 1)
    text[at:at] = draw.choice(PIECES)


def mark(draw, text):
    """A byte order mark in front, or two."""
    text[0:0] = b"\xef\xbb\xbf" * draw.randint(1, 2)


def grow_digits(draw, text):
    number = NUMBER.search(text, draw.randrange(len(text))) or NUMBER.search(text)
    if number:
        powers = [draw.choice((31, 32, 63, 64, 127, 128)), 10 * draw.randint(1, 12)]
        other = draw.choice([b"0", b"1", b"9" * draw.randint(1, 40), b"0" * draw.randint(1, 20) + number[0], number[0] * 2,
                             b"%d" % (2 ** powers[0] - draw.randrange(2)), b"%d" % (2 ** powers[1]),
                             b"%d" % (int(number[0][:18]) + draw.choice((-1, 1)))])
        text[number.start() : number.end()] = other


def recode(draw, text):
    text[:] = text.decode("utf-8", "replace").encode(draw.choice(ENCODINGS), "replace")


def other_ends(draw, text):
    text[:] = text.replace(b"\n", draw.choice([b"\r\n", b"\r", b"\n\n", b"\n\r"]))


def nothing(draw, text):
    text.clear()


def of_lines(change):
    def damage(draw, text):
        lines = text.splitlines(keepends=True)
        change(draw, lines)
        text[:] = b"".join(lines)

    return damage


def swap_lines(draw, lines):
    a, b = draw.randrange(len(lines)), draw.randrange(len(lines))
    lines[a], lines[b] = lines[b], lines[a]


def move_line(draw, lines):
    line = lines.pop(draw.randrange(len(lines)))
    lines.insert(draw.randint(0, len(lines)), line)


def repeat_line(draw, lines):
    at = draw.randint(0, len(lines))
    lines[at:at] = [draw.choice(lines)] * draw.choice((1, 1, 1, 1, 2, 9))


def drop_lines(draw, lines):
    at = draw.randrange(len(lines))
    del lines[at : at + draw.choice((1, 1, 1, 2, 3))]


def of_fields(change):
    """A change of one line's fields, which stand between commas or spaces: field, separator, field and so on."""

    def damage(draw, lines):
        at = draw.randrange(len(lines))
        fields = re.split(rb"([, ])", lines[at])
        change(draw, fields, (len(fields) + 1) // 2)
        lines[at] = b"".join(fields)

    return of_lines(damage)


def empty_field(draw, fields, count):
    fields[2 * draw.randrange(count)] = b""


def swap_fields(draw, fields, count):
    a, b = 2 * draw.randrange(count), 2 * draw.randrange(count)
    fields[a], fields[b] = fields[b], fields[a]


def drop_field(draw, fields, count):
    at = 2 * draw.randrange(count)
    del fields[at : at + 2]


# Each damage, and how often it is drawn beside the others.
DAMAGES = {
    flip: 20, cut: 6, drop: 8, double: 6, swap: 6, put_in: 14, mark: 1, grow_digits: 24, recode: 1, other_ends: 1, nothing: 0.2,
    of_lines(swap_lines): 5, of_lines(move_line): 5, of_lines(repeat_line): 5, of_lines(drop_lines): 5,
    of_fields(empty_field): 4, of_fields(swap_fields): 6, of_fields(drop_field): 4,
}
KINDS, WEIGHTS = list(DAMAGES), list(DAMAGES.values())


def damaged(draw, data):
    """The bytes with one damage, two or three."""
    text = bytearray(data)
    for damage in draw.choices(KINDS, WEIGHTS, k=draw.choice((1, 1, 1, 2, 3))):
        if text:
            damage(draw, text)
    return bytes(text)


OTHER_WORDS = [b"", b"-", b"--", b"--help", b"--workers", b"--workers=2", b"-1", b"+1", b"1.0", b"0x1", b"017", b" 1", b"1\n"]
OTHER_WORDS += [b".", b"..", b"/", b"*", b"check", b"solve", b"desk", b"demo", b"portfolio", "٣".encode(), b"a" * 100_000]
OTHER_WORDS += NO_TEXTS
AT_A_LIMIT = [0, 1, 9, 16, 17, 399, 400, 401, 3_999, 4_000, 4_001, 9_999, 10_000, 10_001, 10**9 - 1, 10**9, 2**32, 2**64]


def other_number(draw):
    """A word of digits: often one at a limit, else one of any length, small ones as likely as great ones."""
    number = draw.choice(AT_A_LIMIT) if draw.random() < 0.25 else int(10 ** (draw.random() * 5))
    return b"0" * draw.choice((0, 0, 0, 0, 1, 5)) + b"%d" % number


def damaged_words(draw, words):
    """The words of a line with one damage, two or three. A word holds no NUL, since the system ends it there."""
    words = list(words)
    for _ in range(draw.choice((1, 1, 1, 2, 3))):
        kind, at = draw.randrange(10), draw.randrange(len(words)) if words else 0
        if not words or kind == 0:
            words.insert(at, draw.choice(OTHER_WORDS))
        elif kind == 1:
            del words[at]
        elif kind == 2:
            words[at:at] = [words[at]] * draw.choice((1, 1, 2, 1000 if len(words[at]) < 100 else 3))
        elif kind == 3:
            other = draw.randrange(len(words))
            words[at], words[other] = words[other], words[at]
        elif kind == 4:
            words[at] = draw.choice(OTHER_WORDS)
        elif kind == 5:
            words[at] = damaged(draw, words[at]).replace(b"\0", b"")
        else:
            numbers = [place for place, word in enumerate(words) if word.isdigit()]
            words[draw.choice(numbers) if numbers else at] = other_number(draw)
    return words
