"""The listing program: standard input to what it prints."""
import calls
import keyed
import words
from machine import Buffers, State


class Refused(Exception):
    """Number, table and entry."""


def cut(data):
    """The keyed text and the lines behind it: 'up to the first `)` line straight after a `)` line, or all of it'."""
    at = 0
    closed = False
    while True:
        end = data.find(b"\n", at)
        if end < 0:
            return data, b""
        close = data[at:end] == b")"
        at = end + 1
        if close and closed:
            return data[:at], data[at:]
        closed = close


def later(line):
    """A reading's number and value, or a tick's day and time."""
    parts = keyed.items(line, b")")
    if parts is None or len(parts) != 3 or parts[0] not in (b"reading", b"tick"):
        raise Refused(1, 0, 0)
    n = keyed.whole(parts[1])
    if parts[0] == b"reading":
        v = keyed.fixed(parts[2])
        if n is None or v is None or not 1 <= n <= 196:
            raise Refused(1, 0, 0)
        return ("reading", n, v)
    time = keyed.whole(parts[2])
    if n is None or time is None:
        raise Refused(1, 0, 0)
    return ("tick", n, time)


def shown_value(w):
    negative, places, digits = words.fields(w)
    text = str(digits).rjust(places + 1, "0")
    if places:
        text = text[:-places] + "." + text[-places:]
    return ("-" if negative else "") + text


def carry_out(data):
    text, rest = cut(data)
    record, verdict = calls.verdict(text)
    if verdict[0] == "fault":
        raise Refused(*verdict[1:])
    state = State()
    lent = Buffers([0.0] * record.locations, [0.0] * record.sums, [0] * 297, [0.0] * 196, [0] * 64)
    lines = rest.split(b"\n")
    last = lines.pop()
    for line in lines:
        kind, first, second = later(line)
        if kind == "reading":
            lent.readings[first - 1] = second
            continue
        for table in (0, 1):
            refusal = calls.scan(record, table, first, second, state, lent)
            if refusal:
                raise Refused(refusal, 0, 0)
    if last:
        raise Refused(1, 0, 0)
    shown = words.arrays(words.by_age(state, lent.ring))
    return "".join(",".join([str(a[0] - 64512)] + [shown_value(w) for w in a[1:]]) + "\n" for a in shown)


def output(data):
    try:
        return carry_out(data)
    except Refused as refused:
        return "E %d %d %d\n" % refused.args
