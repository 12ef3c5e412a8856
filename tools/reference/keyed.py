"""A keyed text: its record, or its first text fault (1 to 6)."""
from fractions import Fraction

import binary32

LIMIT = 16384


class Fault(Exception):
    """A fault's number, table and entry."""


class Record:
    def __init__(self, locations, sums):
        self.locations = locations
        self.sums = sums
        self.intervals = [0, 0, 0]
        self.tables = [[], [], []]


def whole(item):
    """1 to 7 digits, or None."""
    if 1 <= len(item) <= 7 and all(48 <= b <= 57 for b in item):
        return int(item)
    return None


def fixed(item):
    """F: 'an optional `-`, 1 to 5 digits, and at most one point with a digit on each side'; or None."""
    negative = item[:1] == b"-"
    body = item[1:] if negative else item
    parts = body.split(b".")
    if len(parts) > 2 or any(len(p) == 0 for p in parts):
        return None
    digits = b"".join(parts)
    if not (1 <= len(digits) <= 5 and all(48 <= b <= 57 for b in digits)):
        return None
    value = Fraction(int(digits), 10 ** (len(parts[1]) if len(parts) == 2 else 0))
    if value == 0:
        return 0.0
    return binary32.rounded(-value if negative else value)


def location(item):
    """Number and whether indexed, or None."""
    indexed = item.endswith(b"--")
    n = whole(item[:-2] if indexed else item)
    return None if n is None else (n, indexed)


def within(low, high):
    def read(item):
        n = whole(item)
        return n if n is not None and low <= n <= high else None
    return read


def among(numbers):
    def read(item):
        n = whole(item)
        return n if n in numbers else None
    return read


SUBROUTINES = list(range(1, 10)) + list(range(79, 100))
COMMANDS = [0] + SUBROUTINES + list(range(10, 33)) + list(range(41, 49)) + list(range(51, 59))
command = among(COMMANDS)
reps = within(1, 99)
XYZ = [location, location, location]
FORMS = {
    1: [reps, within(1, 18), within(1, 7), within(1, 28), location, fixed, fixed],
    2: [reps, within(1, 18), within(1, 7), within(1, 14), location, fixed, fixed],
    30: [fixed, location], 31: [location, location], 32: [location],
    33: XYZ, 34: [location, fixed, location], 35: XYZ, 36: XYZ, 37: [location, fixed, location], 38: XYZ,
    70: [reps, location], 71: [reps, location], 72: [reps, location], 73: [reps, location], 74: [reps, location],
    77: [among([10, 100, 110])],
    85: [among(SUBROUTINES)],
    86: [among([c for c in COMMANDS if c not in (30, 32)])],
    87: [within(0, 0), within(1, 9999)],
    88: [location, within(1, 4), location, command],
    89: [location, within(1, 4), fixed, command],
    91: [within(10, 29), command],
    92: [within(0, 1439), within(1, 1440), command],
    94: [], 95: [],
}


def items(line, end):
    """The items between `(` and `end`, or None where the line has another shape."""
    if not line.startswith(b"(") or not line.endswith(end) or len(line) < 1 + len(end):
        return None
    parts = line[1:len(line) - len(end)].split(b" ")
    if any(len(p) == 0 or b"(" in p or b")" in p for p in parts):
        return None
    return parts


def entry(line, t, n):
    """Entry n of Table t."""
    parts = items(line, b")")
    if parts is None:
        raise Fault(1, t, n)
    number = whole(parts[0])
    if number is None:
        raise Fault(2, t, n)
    if number not in FORMS:
        raise Fault(3, t, n)
    form = FORMS[number]
    if len(parts) - 1 != len(form):
        raise Fault(4, t, n)
    values = [read(p) for read, p in zip(form, parts[1:])]
    if None in values:
        raise Fault(2, t, n)
    if n == 100:
        raise Fault(6, t, n)
    return (number, values)


def interval(line, t):
    """V of a table's first line; 0 of Table 3."""
    parts = items(line, b"")
    wanted = [b"table", b"%d" % t]
    if parts is None or parts[:2] != wanted or len(parts) != (2 if t == 3 else 3):
        raise Fault(1, t, 0)
    if t == 3:
        return 0
    v = whole(parts[2])
    if v is None:
        raise Fault(2, t, 0)
    if v == 0 or (t == 1 and v <= 7) or (v % 8 == 0 and v <= 524240):
        return v
    raise Fault(5, t, 0)


def sizes(line):
    """I and M of the program line."""
    parts = items(line, b"")
    if parts is None or len(parts) != 3 or parts[0] != b"program":
        raise Fault(1, 0, 0)
    locations = whole(parts[1])
    sums = whole(parts[2])
    if locations is None or sums is None or not 1 <= locations <= 2000 or sums > 2000:
        raise Fault(2, 0, 0)
    return Record(locations, sums)


def read(text):
    """The record of a text; raises its first text fault."""
    if len(text) > LIMIT:
        raise Fault(1, 0, 0)
    lines = text.split(b"\n")
    rest = lines.pop()
    at = iter(lines)

    def following(t, n):
        for line in at:
            return line
        raise Fault(1, t, n)

    record = sizes(following(0, 0))
    for t in (1, 2, 3):
        record.intervals[t - 1] = interval(following(t, 0), t)
        n = 1
        line = following(t, n)
        while line != b")":
            record.tables[t - 1].append(entry(line, t, n))
            n += 1
            line = following(t, n)
    if following(0, 0) != b")" or list(at) or rest:
        raise Fault(1, 0, 0)
    return record
