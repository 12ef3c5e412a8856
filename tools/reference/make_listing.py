"""Writes inputs of the listing program and what it must print: make_listing.py FOLDER (NAME.in, NAME.out)."""
import os
import sys

import listing

WORKED = b"""(program 2 0
(table 1 80
(1 1 5 1 1 1 1.0 0.0)
(86 10)
(70 1 1)
)
(table 2 0
)
(table 3
)
)
(reading 1 2.5)
(tick 1 0)
(tick 1 40)
(reading 1 -0.0625)
(tick 1 80)
"""
TEXT = WORKED[:WORKED.index(b"(reading")]
TICKS = b"(reading 1 2.5)\n(tick 1 0)\n"
MADE = {}


def make(name, data):
    assert name not in MADE
    MADE[name] = data


def program(one, two=b"", three=b"", size=b"2 0", v=(b"8", b"0")):
    lines = lambda s: b"".join(b"(%s)\n" % e.strip() for e in s.split(b";") if e.strip())
    return (b"(program %s\n(table 1 %s\n" % (size, v[0]) + lines(one) + b")\n(table 2 %s\n" % v[1] + lines(two) + b")\n(table 3\n" + lines(three) + b")\n)\n")


def faults():
    of = lambda one=b"", two=b"", three=b"", **k: program(one, two, three, **k) + b"(tick 1 0)\n"
    make("fault-01-empty", b"")
    make("fault-01-newline", b"\n")
    make("fault-01-no-program", b"(tick 1 0)\n")
    make("fault-01-shape", of(b"32  1"))
    make("fault-01-close-after-close", b"(program 1 0\n(table 1 0\n)\n)\n(table 2 0\n)\n(table 3\n)\n)\n(tick 1 0)\n")
    make("fault-01-close-twice-at-once", b"(program 1 0\n)\n)\n(tick 1 0)\n")
    make("fault-01-no-table-3", b"(program 1 0\n(table 1 0\n)\n(table 2 0\n)\n)\n")
    make("fault-02", of(b"91 10 40"))
    make("fault-02-program", of(size=b"2001 0"))
    make("fault-03", of(b"40 1"))
    make("fault-04", of(b"32"))
    make("fault-05", of(v=(b"8", b"4")))
    make("fault-06", of(b";".join([b"32 1"] * 100)))
    make("fault-10", of(b"85 1"))
    make("fault-11", of(three=b"85 1; 95; 85 1"))
    make("fault-12", of(three=b"32 1"))
    make("fault-13", of(b"95"))
    make("fault-14", of(b"94"))
    make("fault-15", of(b"86 31"))
    make("fault-16", of(b";".join([b"91 11 30"] * 12)))
    make("fault-17", of(b"87 0 2"))
    make("fault-18", of(b"86 9"))
    make("fault-19", of(three=b"85 1; 86 1; 95"))
    make("fault-20", of(b"32 0"))
    make("fault-21", of(b"71 1 1"))
    make("fault-22", of(b"87 0 9999; 32 1; 32 1; 32 1; 32 1; 32 1; 32 1; 95"))
    make("fault-22-table-2", of(b"32 1", b"87 0 9999; 32 1; 32 1; 32 1; 32 1; 32 1; 32 1; 95"))
    make("fault-before-bad-line", program(b"32 3") + b"nonsense\n(tick 0 0)\n")


def cuts():
    """The worked example cut behind each line, before its byte 10, and inside it."""
    at = 0
    for n, line in enumerate(WORKED.split(b"\n")[:-1], 1):
        for where, length in (("inside", len(line) // 2), ("before-byte-10", len(line)), ("behind", len(line) + 1)):
            make("cut-line-%02d-%s" % (n, where), WORKED[:at + length])
        at += len(line) + 1


def later_lines():
    bad = {"blank": b"\n", "blank-first": b"\n(tick 1 0)\n", "close": b")\n", "cr": b"(tick 1 8)\r\n", "space-behind": b"(tick 1 8) \n", "two-spaces": b"(tick 1  8)\n",
           "space-first": b" (tick 1 8)\n", "space-inside": b"( tick 1 8)\n", "no-parentheses": b"tick 1 8\n", "not-closed": b"(tick 1 8\n", "closed-twice": b"(tick 1 8))\n",
           "tick-of-one": b"(tick 1)\n", "tick-of-three": b"(tick 1 8 8)\n", "other-name": b"(Tick 1 8)\n", "name-longer": b"(ticks 1 8)\n", "other-form": b"(32 1)\n", "program": b"(program 1 0\n",
           "tick-8-digits-day": b"(tick 00000001 0)\n", "tick-8-digits-time": b"(tick 1 00000008)\n", "tick-negative": b"(tick -1 8)\n", "tick-point": b"(tick 1 8.0)\n", "tick-letter": b"(tick 1 8a)\n",
           "tick-indexed": b"(tick 1-- 8)\n", "reading-0": b"(reading 0 1)\n", "reading-197": b"(reading 197 1)\n", "reading-9999999": b"(reading 9999999 1)\n", "reading-8-digits": b"(reading 00000001 1)\n",
           "reading-indexed": b"(reading 1-- 1)\n", "reading-no-value": b"(reading 1)\n", "reading-6-digits": b"(reading 1 123456)\n", "reading-6-digits-point": b"(reading 1 1.00000)\n",
           "reading-point-first": b"(reading 1 .5)\n", "reading-point-last": b"(reading 1 5.)\n", "reading-two-points": b"(reading 1 1.2.3)\n", "reading-minus-alone": b"(reading 1 -)\n",
           "reading-minus-twice": b"(reading 1 --1)\n", "reading-plus": b"(reading 1 +1)\n", "reading-exponent": b"(reading 1 1e3)\n", "reading-letter": b"(reading x 1)\n",
           "byte-0": b"(tick 1 \x008)\n", "byte-255": b"(tick 1 8\xff)\n", "tab": b"(tick\t1 8)\n", "long": b"(tick 1 " + b"8" * 70000 + b")\n", "no-byte-10": b"(tick 1 80)", "nothing-but-open": b"(\n", "empty-form": b"()\n"}
    for name, line in bad.items():
        make("line-" + name, TEXT + TICKS + line)
    make("line-good-after-bad", TEXT + TICKS + b"(reading 0 1)\n(tick 1 80)\n")
    make("line-blank-at-the-end", WORKED + b"\n")
    for name, line in {"day-0": b"(tick 0 0)", "day-367": b"(tick 367 0)", "day-9999999": b"(tick 9999999 0)", "time-6912000": b"(tick 1 6912000)", "time-9999999": b"(tick 1 9999999)"}.items():
        make("tick-" + name, TEXT + TICKS + line + b"\n")
    make("tick-33-tables-off", program(b"32 1", v=(b"0", b"0")) + b"(tick 1 0)\n(tick 0 0)\n")
    make("tick-33-before-bad-line", TEXT + b"(tick 367 0)\nnonsense\n")
    make("tick-bad-line-before-33", TEXT + b"nonsense\n(tick 367 0)\n")
    make("tick-0-0-first", TEXT + b"(tick 0 0)\n")


def sound():
    make("nothing-behind", TEXT)
    make("readings-only", TEXT + b"(reading 196 99999)\n(reading 1 -0)\n")
    make("readings-0-at-first", TEXT + b"(tick 1 0)\n")
    make("leading-zeros", TEXT + b"(reading 0000001 02.50)\n(tick 0000001 0000080)\n(reading 001 -0.5)\n(tick 0366 6911920)\n")
    every = program(b"1 1 1 7 28 1 1 0; 86 10; 77 110; 70 1 1", v=(b"1", b"0"))
    make("last-tick", every + b"(reading 196 6.9996)\n(tick 366 6911999)\n(tick 1 0)\n(tick 1 0)\n")
    make("tick-366", every + b"(reading 196 -0.0004)\n(tick 366 0)\n(reading 196 -69.996)\n(tick 365 2880000)\n")
    values = (b"0", b"-0", b"0.001", b"-0.001", b"6.9994", b"6.9996", b"7", b"69.99", b"69.996", b"70", b"699.96", b"700", b"6999.4", b"6999.5", b"7000", b"99999", b"-99999", b"0.0005", b"-0.0625", b"0.0004")
    make("places", program(b"1 1 1 1 1 1 1 0; 86 10; 70 1 1") + b"".join(b"(reading 1 %s)\n(tick 1 %d)\n" % (v, 8 * n) for n, v in enumerate(values)))
    make("two-tables-one-tick", program(b"32 1; 86 10; 70 1 1", b"32 1; 86 10; 70 1 1", v=(b"8", b"16")) + b"".join(b"(tick 1 %d)\n" % (8 * n) for n in range(5)))
    make("subroutine-id", program(b"86 1; 70 1 1", b"", b"85 1; 32 1; 86 10; 95") + b"(tick 1 0)\n(tick 1 8)\n")
    make("no-array", program(b"32 1; 70 1 1; 86 10") + b"(tick 1 0)\n(tick 1 8)\n")
    make("not-due", TEXT + b"(reading 1 5)\n(tick 1 79)\n(tick 1 81)\n")
    make("clock-back", program(b"92 0 1 10; 77 10; 70 1 1; 32 1") + b"(tick 5 4800)\n(tick 5 4808)\n(tick 5 0)\n(tick 5 4800)\n(tick 4 4800)\n(tick 4 4816)\n")
    make("average-by-the-minute", program(b"1 1 1 1 1 1 1 0; 92 0 1 10; 77 10; 71 1 1; 73 1 1; 74 1 1; 72 1 1", size=b"1 4", v=(b"800", b"0"))
         + b"".join(b"(reading 1 %d.%d)\n(tick 1 %d)\n" % (n % 37, n % 10, 800 * n) for n in range(40)))
    make("not-finite", program(b"38 1 2 1; 37 1 99999 2; 37 2 99999 2; 37 2 99999 2; 37 2 99999 2; 37 2 99999 2; 37 2 99999 2; 37 2 99999 2; 37 2 99999 2; 86 10; 70 2 1") + b"(tick 1 0)\n(tick 1 8)\n")


def rings():
    one = program(b"32 1; 86 10; 70 1 1")
    for n in (31, 32, 33, 64, 65, 200):
        make("ring-pairs-%d" % n, one + b"".join(b"(tick 1 %d)\n" % (8 * i) for i in range(n)))
    three = program(b"32 1; 86 10; 70 2 1")
    for n in (21, 22, 23, 43):
        make("ring-threes-%d" % n, three + b"".join(b"(tick 1 %d)\n" % (8 * i) for i in range(n)))
    for reps in (62, 63, 64, 65):
        make("ring-array-of-%d" % reps, program(b"32 1; 86 10; 70 %d 1" % reps, size=b"70 0") + b"(tick 1 0)\n")
    make("ring-array-then-short", program(b"32 1; 86 10; 70 63 1; 89 1 3 2 0; 86 10; 70 1 1", size=b"70 0") + b"(tick 1 0)\n")
    make("ring-short-then-too-long", program(b"32 1; 86 10; 70 1 1; 86 10; 70 70 1", size=b"70 0") + b"(tick 1 0)\n")


def long_inputs():
    one = program(b"1 1 1 1 1 1 1 0; 71 1 1; 92 0 30 10; 77 110; 71 1 1", size=b"1 2", v=(b"8", b"0"))
    make("lines-6000", one + b"".join(b"(reading 1 %d.%03d)\n(tick 1 %d)\n" % (n % 50, n % 1000, 800 * n) for n in range(3000)))
    make("lines-5000-then-bad", TEXT + b"(tick 1 80)\n" * 5000 + b"(tick 1 80\n")
    entry = b"(0000001 0000001 0000001 000000%d 0000001 0000001 0.000 00.00)\n"
    full = lambda n: b"".join(entry % (i % 7 + 1) for i in range(n))
    def text(total):
        head = b"(program 0000001 0000000\n(table 1 0000008\n" + full(97) + b"(86 10)\n(70 1 1)\n)\n(table 2 0000008\n" + full(99) + b")\n(table 3\n(85 1)\n"
        tail = b"(95)\n)\n)\n"
        room = total - len(head) - len(tail)
        whole = room // len(entry % 1)
        body = full(whole)
        rest = room - len(body)
        short = b"(32 1)\n"
        body += short * (rest // len(short) - 1)
        rest = total - len(head) - len(tail) - len(body)
        body += b"(32 " + b"1".rjust(rest - 6, b"0") + b")\n"
        made = head + body + tail
        assert len(made) == total, (len(made), total)
        return made
    for total in (16383, 16384, 16385):
        make("text-%d" % total, text(total) + b"(tick 1 0)\n")
    make("text-16384-no-close", (b"(program 1 0\n(table 1 0\n" + b"(32 1)\n" * 3000)[:16384])
    make("text-over-16384-no-close", b"(program 1 0\n(table 1 0\n" + b"(32 1)\n" * 3000)
    make("text-over-16384-one-line", b"x" * 70000 + b"\n)\n)\n")
    make("text-cr-everywhere", WORKED.replace(b"\n", b"\r\n"))
    make("text-cr-on-the-last-closes", TEXT[:-4] + b")\r\n)\r\n" + TICKS)
    make("text-100000-newlines", b"\n" * 100000)


def main():
    for part in (faults, cuts, later_lines, sound, rings, long_inputs):
        part()
    os.makedirs(sys.argv[1], exist_ok=True)
    for name, data in MADE.items():
        with open(os.path.join(sys.argv[1], name + ".in"), "wb") as f:
            f.write(data)
        with open(os.path.join(sys.argv[1], name + ".out"), "w") as f:
            f.write(listing.output(data))


main()
