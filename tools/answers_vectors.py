"""Requests of the line protocol (docs/PROTOCOL.md) with the answers that a model of its own expects.

    python3 tools/answers_vectors.py crates/answers

writes the requests to crates/answers/stdin and the answers to crates/answers/stdout. The last request has no newline.

    python3 tools/answers_vectors.py --random 200000 1 DIR

writes that many random requests, from the seed 1, and their answers to DIR/stdin and DIR/stdout.

The model computes with Python's integers and dates alone and never runs the program.
"""

import random
import re
import sys
from datetime import date, timedelta
from pathlib import Path

SCALES = {"s": 1_000_000_000, "ms": 1_000_000, "us": 1_000, "ns": 1}

# Nanoseconds in the granularities of a fixed length.
LENGTHS = {
    "microsecond": 1_000,
    "millisecond": 1_000_000,
    "second": 1_000_000_000,
    "minute": 60_000_000_000,
    "hour": 3_600_000_000_000,
    "day": 86_400_000_000_000,
}
FINE = ["microsecond", "millisecond", "second", "minute", "hour"]
NAMES = FINE + ["day", "week", "month", "quarter", "year"]

DAY = LENGTHS["day"]
EPOCH = date(1970, 1, 1)
LEAST = {"s": -(2**31), "ms": -(2**31), "us": -(2**63), "ns": -(2**63)}
GREATEST = {"s": 2**31 - 1, "ms": 2**31 - 1, "us": 2**63 - 1, "ns": 2**63 - 1}

BAD = b"bad request"


# ---- the model


class Bad(Exception):
    """The line is no request."""


class Fault(Exception):
    def __init__(self, number, layer):
        super().__init__(number, layer)
        self.text = f"fault {number} {layer}".encode()


def number(word):
    found = re.fullmatch(rb"(-?)0*([0-9]+)", word)
    if not found or len(found[2]) > 19:
        raise Bad
    n = int(found[1] + found[2])
    if not -(2**63) <= n < 2**63:
        raise Bad
    return n


def value(word):
    return None if word == b"null" else number(word)


def unit(word):
    text = word.decode("latin-1")
    if text not in SCALES:
        raise Bad
    return text


def name_bytes(word):
    if not word.startswith(b"hex:"):
        return word
    digits = word[4:]
    if len(digits) % 2 or not re.fullmatch(rb"[0-9a-fA-F]*", digits):
        raise Bad
    return bytes.fromhex(digits.decode())


def granularity(name):
    try:
        text = name.decode("utf-8").lower()
    except UnicodeDecodeError:
        raise Fault(1, 3) from None
    if text not in NAMES:
        raise Fault(1, 3)
    return text


def start_of(name, instant):
    """The boundary of an instant, both in nanoseconds."""
    if name in LENGTHS:
        return instant // LENGTHS[name] * LENGTHS[name]
    day = EPOCH + timedelta(days=instant // DAY)
    if name == "week":
        first = day - timedelta(days=day.weekday())
    elif name == "month":
        first = day.replace(day=1)
    elif name == "quarter":
        first = date(day.year, (day.month - 1) // 3 * 3 + 1, 1)
    else:
        first = date(day.year, 1, 1)
    return (first - EPOCH).days * DAY


def shown(v):
    return b"null" if v is None else b"ok %d" % v


def answer_name(words):
    (g,) = words
    return b"ok " + granularity(name_bytes(g)).encode()


def answer_civil(words):
    (day,) = words
    ordinal = number(day) + EPOCH.toordinal()
    if not 1 <= ordinal <= date.max.toordinal():
        raise Fault(16, 1)
    found = date.fromordinal(ordinal)
    return b"ok %d %d %d" % (found.year, found.month, found.day)


def answer_days(words):
    year, month, day = (number(word) for word in words)
    try:
        found = date(year, month, day)
    except (ValueError, OverflowError):
        raise Fault(16, 1) from None
    return shown(found.toordinal() - EPOCH.toordinal())


def answer_trunc(words):
    form, u, g, zone, v = words
    if form != b"scalar" or zone != b"-":
        raise Bad
    scale, name, v = SCALES[unit(u)], name_bytes(g), value(v)
    g = granularity(name)
    if v is None:
        return b"null"
    if not -(2**63) <= v * scale < 2**63:
        raise Fault(3, 3)
    start = start_of(g, v * scale)
    if start < -(2**63):
        raise Fault(4, 3)
    return shown(start // scale)


def answer_time(words):
    form, u, g, v = words
    if form != b"scalar":
        raise Bad
    u, name, v = unit(u), name_bytes(g), value(v)
    if v is not None and not LEAST[u] <= v <= GREATEST[u]:
        raise Bad
    g = granularity(name)
    if g not in FINE:
        raise Fault(2, 3)
    if v is None:
        return b"null"
    length = max(1, LENGTHS[g] // SCALES[u])
    cut = abs(v) // length * length
    return shown(-cut if v < 0 else cut)


# The words after the first, and the answer to them.
REQUESTS = {
    b"name": (1, answer_name),
    b"civil": (1, answer_civil),
    b"days": (3, answer_days),
    b"trunc": (5, answer_trunc),
    b"time": (4, answer_time),
}


def answer(line):
    first, *words = line.split(b" ")
    if first not in REQUESTS or b"" in words:
        return BAD
    count, answered = REQUESTS[first]
    if len(words) != count:
        return BAD
    try:
        return answered(words)
    except Bad:
        return BAD
    except Fault as fault:
        return fault.text


# ---- the requests


def instant(year, month, day, hour=0, minute=0, second=0, nanos=0):
    days = (date(year, month, day) - EPOCH).days
    return days * DAY + (hour * 3600 + minute * 60 + second) * 1_000_000_000 + nanos


# A boundary of each granularity, by the unit that it is asked in.
BOUNDARIES = {
    "microsecond": dict.fromkeys(SCALES, instant(1969, 12, 31, 23, 59, 59, 999_999_000)),
    "millisecond": dict.fromkeys(SCALES, instant(1969, 7, 20, 20, 17, 40, 123_000_000)),
    "second": dict.fromkeys(SCALES, instant(1969, 12, 31, 23, 59, 58)),
    "minute": dict.fromkeys(SCALES, instant(2024, 2, 29, 12, 35)),
    "hour": dict.fromkeys(SCALES, instant(1900, 2, 28, 23)),
    "day": {"s": instant(2000, 2, 29), "ms": instant(1900, 3, 1), "us": 0, "ns": instant(2024, 2, 29)},
    "week": {"s": instant(2024, 2, 26), "ms": instant(1969, 12, 29), "us": instant(2000, 2, 28), "ns": instant(1900, 1, 1)},
    "month": {"s": instant(2024, 3, 1), "ms": instant(1900, 3, 1), "us": instant(2000, 3, 1), "ns": instant(1969, 12, 1)},
    "quarter": {"s": instant(2023, 4, 1), "ms": instant(1969, 7, 1), "us": instant(2000, 10, 1), "ns": instant(1970, 1, 1)},
    "year": {"s": instant(1970, 1, 1), "ms": instant(2000, 1, 1), "us": instant(1900, 1, 1), "ns": instant(2024, 1, 1)},
}

INSIDE = [
    instant(2000, 2, 29, 12, 34, 56, 789_012_345),
    instant(1900, 2, 28, 23, 59, 59, 999_999_999),
    instant(2024, 2, 29, 6, 7, 8, 9_010_011),
    instant(1969, 12, 31, 23, 59, 59, 999_999_999),
]

QUARTER_ENDS = [(2023, 3, 31), (1968, 6, 30), (2000, 9, 30), (1899, 12, 31)]


def trunc(u, g, v):
    return f"trunc scalar {u} {g} - {'null' if v is None else v}"


def time(u, g, v):
    return f"time scalar {u} {g} {'null' if v is None else v}"


def readings():
    least = -(2**63)
    yield "civil 19782"
    yield trunc("ns", "second", -1)
    yield trunc("ns", "microsecond", -1)
    yield trunc("ns", "day", least)
    yield trunc("ns", "microsecond", least)
    yield trunc("s", "minute", 9223372036)
    yield trunc("s", "minute", 9223372037)
    yield time("s", "minute", -1)


def timestamps():
    for i, u in enumerate(SCALES):
        scale = SCALES[u]
        smallest, largest = -(2**63 // scale), (2**63 - 1) // scale
        for j, g in enumerate(NAMES):
            around = BOUNDARIES[g][u] // scale
            for v in (around - 1, around, around + 1):
                yield trunc(u, g, v)
            yield trunc(u, g, smallest)
            # A unit that is no finer than the granularity has boundaries only.
            if LENGTHS.get(g, DAY) > scale:
                yield trunc(u, g, INSIDE[(i + j) % 4] // scale)
                yield trunc(u, g, largest)
        for end in QUARTER_ENDS:
            yield trunc(u, "quarter", (instant(*end) + DAY - 1) // scale)
        yield trunc(u, "year", smallest - 1)
        yield trunc(u, "microsecond", largest + 1)
        yield trunc(u, NAMES[2 * i + 1], None)


def times():
    for u in SCALES:
        for g in NAMES:
            for v in (LEAST[u], -1, 0, 1, GREATEST[u], None):
                yield time(u, g, v)
    for u in ("s", "ms"):
        yield time(u, "minute", LEAST[u] - 1)
        yield time(u, "day", GREATEST[u] + 1)
        yield time(u, "nosuch", GREATEST[u] + 1)
    yield time("us", "hour", 3_599_999_999)
    yield time("us", "hour", 3_600_000_000)
    yield time("ns", "second", -1_000_000_001)
    yield time("s", "hour", -3_601)


def names():
    for g in NAMES:
        yield f"name {g}"
    mixed = "Microsecond MILLISECOND sEcOnD MinutE hOUR DAY Week mONTH qUaRtEr YEAR"
    for word in mixed.split():
        yield f"name {word}"
    for word in ("wee\u212a", "WEE\u212a", "\u212aeew", "wee\u212a\u212a", "m\u0131nute", "\u0130our", "da\u0443"):
        yield f"name {word}"
    for word in ("days", "da", "d", "dayy", "nanosecond", "weeks", "micro", "day-", "-", "null", "decade"):
        yield f"name {word}"
    for word in ("646179", "6D6F6e7468", "44617A", "776565E284AA", "776565e284aa", "776565E284AB", "", "00", "20646179", "ff", "646179ff"):
        yield f"name hex:{word}"
    for word in ("6", "64617", "6g", "0x64", "-64", "646179:"):
        yield f"name hex:{word}"
    yield "name HEX:646179"
    yield "name hex"
    yield b"name \xff"
    yield b"name day\xff"
    yield b"name wee\xe2\x84"
    yield b"name day\0"
    yield "name day\r"
    yield trunc("ms", "hex:776565e284aa", -1)
    yield time("ms", "hex:486f5552", 7_200_001)
    yield trunc("ms", "nosuch", None)
    yield trunc("s", "nosuch", 2**63 - 1)
    yield time("ns", "hex:", None)


def dates():
    for day in (0, -1, 1, 11016, 11017, 11015, 58, 59, -25509, -25508, -40587, -141427, 24855):
        yield f"civil {day}"
    for day in (-719162, -719163, -719161, 2932896, 2932897, -719468, 2**63 - 1, -(2**63), 2**63, -(2**63) - 1):
        yield f"civil {day}"
    for parts in (
        "1970 1 1", "1969 12 31", "1970 1 2", "2000 3 1", "1 1 1", "1 12 31", "9999 12 31", "9999 1 1",
        "0 3 1", "0 12 31", "10000 1 1", "-1 1 1", "1582 10 15", "1600 1 1", "1858 11 17", "2038 1 19",
        "2000 2 29", "2000 2 30", "1900 2 28", "1900 2 29", "2024 2 29", "2023 2 29", "4 2 29", "100 2 29", "400 2 29", "2100 2 29",
        "2024 0 1", "2024 13 1", "2024 1 0", "2024 1 32", "2024 4 30", "2024 4 31", "2024 -1 1", "2024 1 -1",
        "2147483648 1 1", "4294967298 1 1", "2024 4294967297 1", "2024 1 4294967297", "-9223372036854775808 9223372036854775807 0",
    ):
        yield f"days {parts}"
    # What Hinnant's algorithms count by: eras of 400 years, 146,097 days, from a 1 March, and the months of a year that begins in March.
    for era in range(1, 7):
        yield f"civil {era * 146_097 - 719_468 - 1}"
        yield f"civil {era * 146_097 - 719_468}"
        yield f"days {400 * era} 2 29"
        yield f"days {400 * era} 3 1"
    for month in range(3, 15):
        yield f"days {2000 + (month - 1) // 12} {(month - 1) % 12 + 1} 1"


def bad():
    yield ""
    yield " "
    yield "nosuch"
    yield "Civil 0"
    yield "civil"
    yield "civil "
    yield " civil 0"
    yield "civil  0"
    yield "civil 0 "
    yield "civil 0 0"
    yield "civil\t0"
    yield "civil 0\r"
    for word in ("+0", "-", "--1", "1-", "1.0", "1e3", "0x10", "1_000", "null", "\u0661"):
        yield f"civil {word}"
    yield "civil -0"
    yield "civil 00000000000000000000000000019782"
    yield "days 2024 2"
    yield "days 2024 2 29 0"
    yield "days 2024 two 29"
    yield "name"
    yield "name "
    yield "name day week"
    yield "trunc"
    yield "trunc scalar"
    yield "trunc scalar ns day -"
    yield "trunc scalar ns day - 1 2"
    yield "trunc scalar NS day - 1"
    yield "trunc scalar ns day f:0 1"
    yield "trunc scalar ns nosuch - one"
    yield "trunc column ns day - 1"
    yield "time scalar s minute"
    yield "time scalar s minute - 1"
    yield "time scalar m minute 1"
    yield "time scalar s minute NULL"
    yield "time column s minute 1"
    yield "bin scalar dt:1:0 default ts-ns 1"
    yield "zone -"
    yield "offset - 0"
    yield "instants - 0"
    yield "register time s minute | add 1"
    yield "civil 2932896"


def vectors():
    for family in (readings, timestamps, times, names, dates, bad):
        yield from family()


# ---- random requests


def some_number(draw):
    kind = draw.randrange(6)
    if kind == 0:
        return draw.randint(-100_000, 100_000)
    if kind == 1:
        return draw.choice([-1, 1]) * draw.getrandbits(draw.randrange(1, 66))
    if kind == 2:
        return draw.randint(-800_000, 3_000_000)
    if kind == 3:
        scale = draw.choice(list(SCALES.values()))
        return draw.choice([-(2**63) // scale, (2**63 - 1) // scale, -(2**31), 2**31 - 1]) + draw.randint(-2, 2)
    if kind == 4:
        length = draw.choice(list(LENGTHS.values())) // draw.choice(list(SCALES.values()))
        return draw.randint(-10_000, 10_000) * length + draw.randint(-1, 1)
    return draw.randint(-(2**63), 2**63 - 1)


def some_value(draw):
    return "null" if draw.random() < 0.03 else str(some_number(draw))


def some_name(draw):
    g = draw.choice(NAMES)
    kind = draw.randrange(8)
    if kind == 0:
        g = "".join(draw.choice([c.upper(), c, "\u212a" if c == "k" else c]) for c in g)
    elif kind == 1:
        at = draw.randrange(len(g) + 1)
        g = g[:at] + draw.choice(["", "s", "\u212a", "\u017f", "K"]) + g[at + draw.randrange(2) :]
    elif kind == 2:
        g = "hex:" + draw.choice([str, str.upper])(g.encode().hex())
    return g or "-"


def some_date(draw):
    year = draw.choice([draw.randint(-1, 10_001), draw.randint(1, 99) * 100, some_number(draw)])
    month = draw.choice([draw.randint(0, 13), 2, 2, draw.randint(1, 12), some_number(draw)])
    day = draw.choice([draw.randint(0, 32), 28, 29, 30, 31, draw.randint(1, 28)])
    return f"{year} {month} {day}"


def spoiled(draw, line):
    """A line with a byte added, taken away or changed, or a word moved."""
    at = draw.randrange(len(line) + 1)
    byte = bytes([draw.choice([32, 32, 32, 43, 45, 48, 57, 58, 97, 9, 13, 0, 255, draw.randrange(256)])])
    kind = draw.randrange(4)
    if kind == 0:
        line = line[:at] + byte + line[at:]
    elif kind == 1:
        line = line[:at] + line[at + 1 :]
    elif kind == 2:
        line = line[:at] + byte + line[at + 1 :]
    else:
        words = line.split(b" ")
        draw.shuffle(words)
        line = b" ".join(words)
    return line.replace(b"\n", b" ")


def some_request(draw):
    u = draw.choice(list(SCALES))
    kind = draw.randrange(10)
    if kind < 4:
        line = f"trunc scalar {u} {some_name(draw)} - {some_value(draw)}"
    elif kind < 7:
        line = f"time scalar {u} {some_name(draw)} {some_value(draw)}"
    elif kind == 7:
        line = f"civil {some_number(draw)}"
    elif kind == 8:
        line = f"days {some_date(draw)}"
    else:
        line = f"name {some_name(draw)}"
    line = line.encode()
    return spoiled(draw, line) if draw.random() < 0.1 else line


def random_requests(count, seed):
    draw = random.Random(seed)
    for _ in range(count):
        yield some_request(draw)


# ---- the files


def write(folder, requests):
    lines = [line if isinstance(line, bytes) else line.encode() for line in requests]
    Path(folder, "stdin").write_bytes(b"\n".join(lines))
    Path(folder, "stdout").write_bytes(b"".join(answer(line) + b"\n" for line in lines))
    print(len(lines), "requests")


def main(args):
    if len(args) == 1 and not args[0].startswith("-"):
        write(args[0], vectors())
    elif len(args) == 4 and args[0] == "--random":
        write(args[3], random_requests(int(args[1]), int(args[2])))
    else:
        sys.exit(__doc__)


if __name__ == "__main__":
    main(sys.argv[1:])
