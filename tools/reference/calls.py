"""The public calls. A refusal leaves the state and every buffer as before."""
import math

import check
import keyed
from machine import COUNT_LIMIT, Scan

LAST_TIME = 6911999


def verdict(text):
    """The record of a text or None, and its verdict: ('pass', counts) or ('fault', number, table, entry)."""
    try:
        record = keyed.read(text)
        return record, ("pass", check.check(record))
    except keyed.Fault as fault:
        return None, ("fault",) + fault.args


def record_verdict(record):
    """The verdict of a record whose numbers are in their ranges."""
    try:
        return ("pass", check.check(record))
    except keyed.Fault as fault:
        return ("fault",) + fault.args


def passes(record):
    return record is not None and record_verdict(record)[0] == "pass"


def scan_refusal(record, day, time, state, lent):
    if not passes(record):
        return 30
    lengths = [len(b) for b in (lent.locations, lent.sums, lent.counts, lent.readings)]
    if lengths != [record.locations, record.sums, 297, 196] or not 1 <= len(lent.ring) <= 32768:
        return 31
    n = len(lent.ring)
    if state.position >= n or state.filled > n or state.array > 399 or max(lent.counts) > COUNT_LIMIT:
        return 32
    if not 1 <= day <= 366 or time > LAST_TIME:
        return 33
    return 0


def scan(record, table, day, time, state, lent):
    """Table 0 or 1. Answers the refusal; changes the state and the buffers in place."""
    refusal = scan_refusal(record, day, time, state, lent)
    v = record.intervals[table] if refusal == 0 else 0
    if v != 0 and time % v == 0:
        run = Scan(record, table, day, time, state, lent)
        run.run()
        assert run.steps <= check.check(record)[table]
    return refusal


def key_location(record, n, v, locations):
    if not passes(record):
        return 30
    if len(locations) != record.locations:
        return 31
    if not 1 <= n <= record.locations or not math.isfinite(v):
        return 34
    locations[n - 1] = v
    return 0


def key_flag(record, f, state):
    if not passes(record):
        return 30
    if not 1 <= f <= 8:
        return 34
    state.flags[f] = not state.flags[f]
    return 0
