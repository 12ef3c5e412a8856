"""Writes the cases of test_calls: make_cases.py > stdin."""
import random_cases
from case_forms import (INF, LARGEST, LEAST, MINUS_INF, MINUS_LARGEST, MINUS_LEAST, MINUS_ZERO, NAN, OUT, case, program, puts)

FORM = """A case: its keyed text in the form of crate `test_cases`, then the calls on its record, from fresh, with every buffer zero.
lend A B C D E      the lengths lent from here on: locations, sums, counts, readings, ring (else I, M, 297, 196, 64)
put KIND N V V ..   location, sum, reading (8 hexadecimal digits of the bits), count, word (decimal) N and following, N from 1
put KIND V          position, filled, id of the state;   put KIND T V   day, minute of Table T's last scan
run T DAY TIME      scan;   key N V   a location;   invert F   a flag;   show K J   the listing
alter T E           entry E of Table T becomes a 95, and the record is checked
printed             the refusal and all that is not 0: state, locations, sums, counts, and the ring's words in place, WORD*TIMES for equal ones"""


def first():
    case("worked-example", FORM.replace("\n", "|") + "|document 01's listing: 102,2.500 and 102,-0.063",
         program((2, 0), "1 1 5 1 1 1 1.0 0.0; 86 10; 70 1 1", v=(80, 0)), """
         put reading 1 40200000
         run 1 1 0
         run 2 1 0
         run 1 1 40
         put reading 1 bd800000
         run 1 1 80
         show 0 0
         show 0 1
         show 0 2
         show 1 0
         show 1 1
         show 1 2
         show 2 0""")


def measurements():
    case("1/reps-channels-cards", "reps take following channels, cards and locations; the range has no effect",
         program((12, 0), "1 4 1 1 27 1 2.0 -0.5; 1 1 18 7 28 5 1 0; 1 2 5 3 1 6 -3 1.25; 1 1 9 1 1 8 0.1 0.2"),
         puts("reading", 1, 10.0) + "\n" + puts("reading", 27, 1.0, -2.0, 3.0, 4.5) + "\n" + puts("reading", 57, 7.0, 8.0) + "\n"
         + puts("reading", 196, 9.5) + "\nrun 1 1 0")
    case("1/all-196", "99 reps twice, from card 1 and up to card 7's last channel",
         program((196, 0), "1 99 1 1 1 1 1 0; 1 97 1 4 16 100 1 0"),
         puts("reading", 1, *[float(n) for n in range(1, 197)]) + "\nrun 1 1 0")
    case("1/not-finite", "a reading that isn't finite stores -99,999, unscaled, whatever multiplier and offset",
         program((6, 0), "1 5 1 1 1 1 0.0 1.0; 1 1 1 1 6 6 0 0"),
         puts("reading", 1, NAN, INF, MINUS_INF, "7fffffff", "ff800001", MINUS_ZERO) + "\nrun 1 1 0")
    case("1/rounding", "two roundings, not one: the first four differ from a fused step; then the scaled value overflows, or is below the least",
         program((12, 0), "1 4 1 1 1 1 1.1 -0.7; 1 4 1 1 5 5 2.0 0.0; 1 4 1 1 9 9 0.5 0.0"),
         puts("reading", 1, "3f8996c7", "3f409f13", "40e39441", "419b3b30", LARGEST, MINUS_LARGEST, "7effffff", "7f000000",
              LEAST, "00000003", MINUS_LEAST, "00800000") + "\nrun 1 1 0")
    case("1/signs-of-zero", "-0 times 1 plus +0 is +0; an overflow of the product alone is stored -99,999",
         program((4, 0), "1 2 1 1 1 1 1 -0.0; 1 1 1 1 3 3 -99999 99999; 1 1 1 1 4 4 0 0"),
         puts("reading", 1, MINUS_ZERO, -1e-30, LARGEST, -5.0) + "\nrun 1 1 0")
    case("2/reps-channels-cards", "differential d reads 2d - 1 less 2d; reps go on over cards",
         program((12, 0), "2 3 1 1 13 1 1 0; 2 1 18 7 14 4 2.0 0.5; 2 1 1 1 1 5 1 0; 2 1 1 2 1 6 1 0"),
         puts("reading", 1, 5.0, 3.0) + "\n" + puts("reading", 25, 1.0, 0.25, 2.0, 7.0, 100.0, 1.0) + "\n" + puts("reading", 195, -1.5, 2.5)
         + "\nrun 1 1 0")
    case("2/not-finite", "either input or the difference not finite stores -99,999, unscaled; one rounded subtraction",
         program((9, 0), "2 9 1 1 1 1 1 1"),
         puts("reading", 1, INF, INF, NAN, 1.0, 1.0, NAN, 0.0, MINUS_INF, LARGEST, MINUS_LARGEST, LARGEST, LARGEST, 16777216.0, -1.0,
              LEAST, LEAST, MINUS_ZERO, MINUS_ZERO) + "\nrun 1 1 0")
    case("2/scaled", "multiplier 0 with an infinite difference is still -99,999; a -0 difference",
         program((4, 0), "2 4 1 7 11 1 0 0"),
         puts("reading", 189, LARGEST, MINUS_LARGEST, MINUS_ZERO, 0.0, 1.0, 1.0, 3.0, 1.0) + "\nrun 1 1 0")


def processing():
    case("30", "F to the nearest binary32; zero keyed with - is +0",
         program((9, 0), "30 0.1 1; 30 -99999 2; 30 -0.0 3; 30 6.9996 4; 30 00001 5; 30 0.0001 6; 30 99999 7; 30 -1.5 8"), "run 1 1 0")
    case("31-and-32", "copies and counts: -0 is kept, what isn't finite is copied as -99,999 and counted from there, 2^24 + 1 stays",
         program((16, 0), "31 1 2; 31 3 4; 31 5 6; 32 7; 32 8; 32 9; 32 10; 32 11; 32 12; 31 13 13"),
         "\n".join([puts("location", 1, MINUS_ZERO), puts("location", 3, NAN), puts("location", 5, INF),
                    puts("location", 7, 16777216.0, -1.0, MINUS_INF, LARGEST, LEAST, MINUS_ZERO, NAN), "run 1 1 0", "run 1 1 8"]))
    pairs = [(1.0, 2.0), (0.1, 0.2), (LARGEST, LARGEST), (LARGEST, MINUS_LARGEST), (MINUS_ZERO, MINUS_ZERO), (MINUS_ZERO, 0.0), (3.0, 3.0),
             (LEAST, LEAST), (1.0, 3.0), (NAN, 1.0), (1.0, INF), (MINUS_INF, NAN), (16777216.0, 1.0), (16777218.0, 1.0), (0.0, -5.0), (7.0, 0.0),
             (0.0, MINUS_ZERO), (-7.0, MINUS_ZERO), ("00000003", 2.0), ("00800000", "3f000001"), ("3f800001", "3f7fffff"), (1e-30, 1e-30)]
    for number, what in ((33, "X + Y"), (35, "X - Y"), (36, "X x Y"), (38, "X / Y")):
        body = "; ".join("%d %d %d %d" % (number, 3 * n + 1, 3 * n + 2, 3 * n + 3) for n in range(len(pairs)))
        calls = [puts("location", 3 * n + 1, x, y) for n, (x, y) in enumerate(pairs)]
        case("%d" % number, "Z = %s, rounded once; not finite is -99,999; X and Y read so, and not changed" % what,
             program((3 * len(pairs), 0), body), "\n".join(calls + ["run 1 1 0"]))
    case("34-and-37", "X + F, X x F",
         program((24, 0), "34 1 0.1 2; 34 3 -1 4; 34 5 99999 6; 34 7 0 8; 34 9 1 10; 37 11 1.8519 12; 37 13 -1 14; 37 15 99999 16; 37 17 0.5 18; 37 19 0 20; 37 21 2 22; 34 23 0 24"),
         "\n".join(puts("location", n, v) for n, v in ((1, 0.2), (3, 1.0), (5, LARGEST), (7, MINUS_ZERO), (9, NAN), (11, 350.0), (13, 0.0),
                                                       (15, LARGEST), (17, LEAST), (19, -3.0), (21, INF), (23, MINUS_LEAST))) + "\nrun 1 1 0")
    case("same-place", "Z may be X, Y or both", program((3, 0), "33 1 1 1; 35 2 1 2; 36 3 3 3; 38 1 2 1; 38 3 3 3"),
         puts("location", 1, 3.0, 5.0, -7.0) + "\nrun 1 1 0\nrun 1 1 8")
    case("location-2000", "the last location and the last sum there can be",
         program((2000, 2000), "30 5 2000; 32 1999; 20 * 72 99 1; 72 20 1981"), "run 1 1 0\nrun 1 1 8\nkey 2000 c0000000\nkey 2001 c0000000")


def output():
    case("70", "stores only with flag 0 high; nothing before it is raised",
         program((4, 0), "70 2 1; 86 10; 70 3 2; 70 1 1; 86 20; 70 1 4; 86 10; 70 1 4"),
         puts("location", 1, 1.0, -2.5, NAN, 7.0) + "\nrun 1 1 0\nshow 0 0\nshow 0 3\nshow 1 0\nshow 1 1\nshow 1 2")
    values = [0.0, MINUS_ZERO, 0.0004, -0.0004, 0.0005, 0.001, -0.001, 0.0625, -0.0625, 6.9994, 6.9996, 6.999, 7.0, -7.0, 69.994, 69.996, 70.0, 699.94,
              699.96, 700.0, -700.0, 6999.0, 6999.4, 6999.5, -6999.5, 7000.0, 8191.0, 8192.0, 1e30, LARGEST, MINUS_LARGEST, LEAST, MINUS_LEAST, -99999.0,
              NAN, INF, MINUS_INF, 0.1875, 2.5, 6.9995, 0.0015]
    calls = [puts("location", 1, *values), "run 1 1 0"] + ["show 0 %d" % n for n in range(len(values) + 2)]
    case("70/words", "places after rounding, halves away from zero, digits 0 never negative, 6,999 where none fits",
         program((len(values), 0), "86 10; 70 %d 1" % len(values)), "\n".join(calls))
    case("77", "hours and minutes, day, both; stored only with flag 0 high; 23:59, midnight, 13:25; days 1 and 366",
         program((1, 0), "77 10; 77 110; 86 10; 77 10; 77 100; 77 110"),
         "run 1 1 0\nrun 1 366 6911992\nrun 1 59 3864000\nrun 1 60 4800\nrun 1 61 4792\nrun 1 99 288000\nrun 1 100 287992")


def statistics():
    for number, name in ((71, "average"), (72, "total"), (73, "maximum"), (74, "minimum")):
        case("%d" % number, "%s of three scans by reps, stored on the fourth; then from none again" % name,
             program((3, 3), "1 3 1 1 1 1 1 0; 89 1 3 100 10; %d 3 1" % number),
             "\n".join([puts("reading", 1, 2.0, -1.5, 0.1), "run 1 1 0", puts("reading", 1, -3.0, -1.5, 0.2), "run 1 1 8", puts("reading", 1, 5.0, 9.0, 0.7),
                        "run 1 1 16", puts("reading", 1, 100.0, -9.0, 0.3), "run 1 1 24", "run 1 1 32", puts("reading", 1, 4.0, 4.0, 4.0), "run 1 1 40",
                        "show 0 0", "show 0 1", "show 0 2", "show 0 3", "show 1 3"]))
    all_four = "71 2 1; 72 2 1; 73 2 1; 74 2 1"
    case("71-74/no-samples", "flag 9 high: no sample; with flag 0 high none at all is -99,999, of a total 0; what was sampled before is kept and stored",
         program((2, 8), "91 11 19; 91 12 10; " + all_four),
         puts("location", 1, 3.0, -4.0) + "\ninvert 1\ninvert 2\nrun 1 1 0\ninvert 2\ninvert 1\nrun 1 1 8\ninvert 1\nrun 1 1 16\ninvert 2\nrun 1 1 24\nrun 1 1 32")
    case("71-74/not-finite", "a location that isn't finite is sampled as -99,999; sums that overflow are -99,999",
         program((2, 8), "91 11 10; " + all_four),
         "\n".join([puts("location", 1, NAN, LARGEST), "run 1 1 0", puts("location", 1, 1.0, LARGEST), "run 1 1 8", puts("location", 1, INF, MINUS_LARGEST),
                    "run 1 1 16", "invert 1", "run 1 1 24"]))
    case("71-74/zeros", "a later sample replaces a maximum only if greater, a minimum only if less: -0 and +0 are neither; the first sample is copied",
         program((2, 8), all_four),
         "\n".join([puts("location", 1, MINUS_ZERO, 0.0), "run 1 1 0", puts("location", 1, 0.0, MINUS_ZERO), "run 1 1 8", puts("location", 1, MINUS_ZERO, MINUS_ZERO),
                    "run 1 1 16"]))


def counts_and_sums():
    all_four = "71 2 1; 72 2 1; 73 2 1; 74 2 1"
    odd = puts("sum", 1, NAN, INF, INF, NAN, MINUS_INF, NAN, NAN, MINUS_INF)
    case("71-74/sums-lent", "a lent sum that isn't finite is read as -99,999 and, where a maximum or minimum isn't replaced, stays as it was",
         program((2, 8), "91 11 10; " + all_four),
         "\n".join([odd, "put count 2 3 3 3 3", puts("location", 1, -100000.0, -99999.0), "run 1 1 0", odd, "put count 2 3 3 3 3", puts("location", 1, 5.0, 6.0),
                    "run 1 1 8", odd, "put count 2 2 2 2 2", "invert 1", puts("location", 1, -99999.0, -99999.0), "run 1 1 16"]))
    case("71-74/sums-lent-no-samples", "with count 0 the lent sum doesn't matter, with flag 9 high or low",
         program((2, 8), "86 10; 91 11 19; " + all_four),
         "\n".join([odd, puts("location", 1, 5.0, -6.0), "run 1 1 0", odd, "invert 1", "run 1 1 8"]))
    case("71-74/count-16777214", "one more sample is taken, then none; storing still works",
         program((2, 8), "91 11 10; " + all_four),
         "\n".join([puts("sum", 1, *[16777214.0] * 8), "put count 2 16777214 16777214 16777214 16777214", puts("location", 1, 16777217.0, -5.0), "run 1 1 0", "run 1 1 8",
                    "invert 1", "run 1 1 16"]))
    case("71-74/count-16777215", "at 16,777,215 nothing is sampled; a flag 9 that is high changes nothing there",
         program((2, 8), "91 12 19; 91 11 10; " + all_four),
         "\n".join([puts("sum", 1, 1e9, 2e9, 1e9, 2e9, 1e9, 2e9, 1e9, 2e9), "put count 3 16777215 16777215 16777214 16777215", puts("location", 1, 3e9, -5.0), "run 1 1 0",
                    "invert 2", "run 1 1 8", "invert 2", "invert 1", "run 1 1 16"]))
    case("71/rounding", "sums are added one by one in binary32 and divided once",
         program((1, 1), "1 1 1 1 1 1 1 0; 89 1 1 9 10; 71 1 1"),
         "\n".join("%s\nrun 1 1 %d" % (puts("reading", 1, v), 8 * n) for n, v in enumerate((0.1, 0.2, 0.3, 1e8, -1e8, 1e-8, 9.0))))
    case("sums/handed-out", "in entry order, Table 1 first, then 2 and 3, called or not; counts by entry: (t - 1) x 99 + e",
         program((3, 9), "71 2 1; 32 1; 74 1 2; 86 79", "73 1 3; 86 79", "85 1; 72 2 1; 95; 85 79; 71 3 1; 95", v=(8, 8)),
         puts("location", 1, 1.0, 20.0, 300.0) + "\nrun 1 1 0\nrun 2 1 0\nrun 1 1 8")
    case("sums/in-a-loop", "each pass takes a sample of its own location; one count for the entry",
         program((4, 1), "87 0 3; 32 4; 89 4 1 3 10; 71 1 1--; 95"),
         puts("location", 1, 2.0, 4.0, 9.0) + "\nrun 1 1 0\nrun 1 1 8")
    case("sums/shared-subroutine", "both tables call it: one count, one sum", program((1, 1), "86 1", "91 11 10; 86 1", "85 1; 72 1 1; 95", v=(8, 16)),
         puts("location", 1, 1.5) + "\nrun 1 1 0\nrun 2 1 0\nrun 1 1 8\ninvert 1\nrun 2 1 16\nrun 1 1 16")


def arrays():
    case("array/again", "raising flag 0 when high begins a new array; raise, lower, raise with no value between writes nothing",
         program((1, 0), "32 1; 86 10; 70 1 1; 86 10; 86 10; 70 1 1; 86 20; 86 10; 86 20; 86 10; 86 20; 86 10; 70 1 1; 70 1 1"),
         "run 1 1 0\nrun 1 1 8\nshow 0 0\nshow 2 0\nshow 2 2\nshow 5 1\nshow 5 3\nshow 6 0")
    case("array/waiting", "a start word that waits is gone with its scan: the next scan begins with flag 0 low",
         program((1, 0), "70 1 1; 32 1; 91 11 10; 70 1 1; 86 10"), "run 1 1 0\nrun 1 1 8\ninvert 1\nrun 1 1 16\ninvert 1\nrun 1 1 24\nshow 0 0\nshow 0 1\nshow 1 0")
    case("array/other-table", "flag 0 left high by Table 1 is lowered as Table 2 starts; ids of tables 1, 2 and 3",
         program((1, 0), "32 1; 86 10; 70 1 1", "70 1 1; 91 10 11; 86 7; 70 1 1; 86 10; 70 1 1", "85 7; 86 10; 70 1 1; 95", v=(8, 8)),
         "run 1 1 0\nrun 2 1 0\nrun 1 1 8\nrun 2 1 8\nshow 0 0\nshow 1 0\nshow 2 0\nshow 2 1\nshow 3 0")
    case("array/subroutine", "an array raised in a subroutine is 300 + entry and goes on behind the call",
         program((2, 0), "30 2.5 1; 86 9; 70 1 1; 86 99; 70 1 1", "", "85 99; 32 2; 86 10; 95; 85 9; 86 10; 70 1 1; 95"),
         "run 1 1 0\nrun 1 1 8\nshow 0 0\nshow 0 1\nshow 0 2\nshow 0 3\nshow 1 0\nshow 1 1")
    case("array/last-ids", "entries 98, 97 and 99 raise: 198, 297; the last entry of a table raises without a value, and 299 stays in the state",
         program((1, 0), "97 * 32 1; 86 10; 70 1 1", "96 * 32 1; 86 10; 70 1 1; 86 10",
                 "85 90; 95 * 32 1; 86 10; 70 1 1; 95", v=(8, 8)), "run 1 1 0\nrun 2 1 0\nshow 0 0\nshow 1 0\nshow 1 1")
    case("array/subroutine-397", "entry 97 of Table 3", program((1, 0), "86 90", "", "85 90; 95 * 32 1; 86 10; 70 1 1; 95"), "run 1 1 0\nshow 0 0\nshow 0 1")
    case("array/by-88-89-91-92", "every test can raise flag 0; a false one raises and lowers nothing",
         program((2, 0), "32 1; 88 1 1 1 10; 70 1 1; 88 1 2 1 10; 70 1 1; 89 1 3 1 10; 70 1 1; 89 1 4 1 20; 70 1 1; 91 10 10; 70 1 1; 91 20 10; 70 1 1; 92 0 1 10; 70 1 1; 92 1 2 20; 70 1 1"),
         "run 1 1 0\nrun 1 1 4800\nrun 1 1 4808\nshow 0 0\nshow 1 0\nshow 2 0\nshow 3 0\nshow 3 2")
    case("flags-0-and-9", "lowered as a table starts, and by 20 and 29; flags 1 to 8 stay",
         program((4, 1), "91 10 41; 91 19 42; 72 1 1; 86 10; 86 19; 86 15; 86 29; 86 19", "91 20 43; 91 29 44; 86 10", v=(8, 8)),
         puts("location", 1, 1.0) + "\nrun 1 1 0\nrun 2 1 0\nrun 1 1 8\nrun 2 1 12\nrun 2 1 16")


def control():
    raising = "; ".join("86 %d" % (10 + f) for f in range(10))
    lowering = "; ".join("86 %d" % (20 + f) for f in range(10))
    case("86/flags", "commands 10 to 19, then 20 to 29 where Table 2 runs", program((1, 0), raising, lowering, v=(8, 8)), "run 1 1 0\nrun 2 1 0\nrun 1 1 8")
    case("86/ports", "commands 41 to 48, then 51 to 58", program((1, 0), "; ".join("86 %d" % c for c in range(41, 49)), "; ".join("86 %d" % c for c in range(51, 59)), v=(8, 8)),
         "run 1 1 0\nrun 2 1 0\nrun 1 1 8")
    for f in range(10):
        case("91/flag-%d" % f, "1f is high, 2f low: one flag at a time",
             program((1, 0), "91 1%d 41; 91 2%d 42; 86 1%d; 91 1%d 43; 91 2%d 44; 86 2%d; 91 1%d 45; 91 2%d 46" % ((f,) * 8)),
             "run 1 1 0" + ("\ninvert %d\nrun 1 1 8" % f if 0 < f < 9 else "\nrun 1 1 8"))
    for truth in ("true", "false"):
        tests = {"88": "88 1 1 1" if truth == "true" else "88 1 2 1", "89": "89 1 1 0" if truth == "true" else "89 1 4 0",
                 "91": "91 21" if truth == "true" else "91 11", "92": "92 0 1" if truth == "true" else "92 1 1"}
        for k, test in tests.items():
            cs = [10, 19, 14, 41, 48, 80]
            lows = [20, 29, 15, 51, 58, 8]
            body = "86 15; 86 25; 86 46; " + "; ".join("%s %d" % (test, c) for c in cs) + "; 32 3; " + "; ".join("%s %d" % (test, c) for c in lows)
            case("%s/commands-%s" % (k, truth), "flags, ports and calls by a %s %s" % (truth, k),
                 program((4, 0), body, "", "85 8; 32 2; 95; 85 80; 32 4; 95"), "run 1 1 0\nrun 1 1 4800")


def relations():
    rel = ["%d %d" % (x, y) for x, y in ((1, 2), (2, 1), (1, 1), (3, 4), (4, 3), (5, 6))]
    body = []
    for pair in rel:
        x, y = pair.split()
        for r in (1, 2, 3, 4):
            body.append("88 %s %d %s 30; 32 %d; 95" % (x, r, y, 7 + len(body)))
    case("88/relations", "less, greater, equal, -0 and +0 equal, what isn't finite as -99,999", program((31, 0), "; ".join(body)),
         puts("location", 1, 1.0, 2.0, MINUS_ZERO, 0.0, NAN, -99999.0) + "\nrun 1 1 0\n" + puts("location", 1, LARGEST, MINUS_LARGEST, INF, MINUS_INF, LEAST, 0.0) + "\nrun 1 1 8")
    body = ["89 %d %d %s 30; 32 %d; 95" % (x, r, f, 6 + 4 * n + r) for n, (x, f) in enumerate(((1, "1"), (2, "1"), (3, "0"), (4, "-99999"), (5, "0.1"), (6, "-0.0"))) for r in (1, 2, 3, 4)]
    case("89/relations", "against F: the same; 0.1 is its binary32", program((31, 0), "; ".join(body)),
         puts("location", 1, 1.0, 0.9999999, MINUS_ZERO, NAN, "3dcccccd", LEAST) + "\nrun 1 1 0\n" + puts("location", 1, 1.0000001, INF, 0.0, MINUS_INF, "3dcccccc", MINUS_LEAST) + "\nrun 1 1 8")


def blocks():
    case("then-else", "both halves, with and without Else, empty halves, Ends in a row",
         program((9, 0), "91 11 30; 32 1; 94; 32 2; 95; 91 11 30; 32 3; 95; 91 11 30; 94; 32 4; 95; 91 11 30; 32 5; 94; 95; 91 11 30; 94; 95; 91 11 30; 91 12 30; 32 6; 94; 32 7; 95; 94; 91 12 30; 32 8; 94; 32 9; 95; 95"),
         "run 1 1 0\ninvert 1\nrun 1 1 8\ninvert 2\nrun 1 1 16\ninvert 1\nrun 1 1 24")
    case("then/11-deep", "eleven Then Do, all true, then the innermost false, with an Else", program((2, 0), "10 * 91 21 30; 91 22 30; 32 1; 94; 32 2; 11 * 95"),
         "run 1 1 0\ninvert 2\nrun 1 1 8\ninvert 1\nrun 1 1 16")
    case("loop/counts", "passes 1, 2 and 9,999; an empty body; a loop in the other half of an If",
         program((5, 0), "87 0 1; 32 1; 95; 87 0 2; 32 2; 95; 87 0 9999; 32 3; 95; 87 0 7; 95; 91 11 30; 87 0 3; 32 4; 95; 94; 87 0 4; 32 5; 95; 95"), "run 1 1 0\ninvert 1\nrun 1 1 8")
    case("loop/11-deep", "eleven loops of 2: 2,048 turns", program((1, 0), "11 * 87 0 2; 32 1; 11 * 95"), "run 1 1 0")
    case("loop/60000", "as many entries as may be: 54,001 stated", program((2, 0), "87 0 6000; 8 * 32 1; 95"), "run 1 1 0")
    case("loop/index", "an indexed location moves with the innermost own loop: 2, 3, 4 and then again; one that isn't stays; reps on top",
         program((12, 0), "32 1--; 87 0 3; 32 2--; 32 1; 87 0 2; 32 6--; 95; 34 2-- 10 9--; 95; 32 12--; 87 0 2; 1 3 1 1 1 7-- 1 0; 95"),
         puts("reading", 1, 11.0, 12.0, 13.0) + "\nrun 1 1 0")
    case("loop/index-everywhere", "every instruction's location may be indexed",
         program((40, 8), "86 10; 87 0 2; 2 1 1 1 1 1-- 1 0; 30 5 3--; 31 3-- 5--; 32 7--; 33 3-- 7-- 9--; 34 9-- 1 11--; 35 9-- 7-- 13--; 36 9-- 9-- 15--; 37 9-- 2 17--; 38 9-- 7-- 19--; 70 2 7--; "
                 "71 1 7--; 72 2 8--; 73 1 15--; 74 1 15--; 88 7-- 1 8-- 11; 89 8-- 3 1 12; 95"),
         puts("reading", 1, 3.0, 1.0) + "\n" + puts("location", 7, 1.0, 2.0, 3.0) + "\nrun 1 1 0")


def exits():
    case("exit/31-and-32", "88, 89, 91 and 86 leave a loop; 32 where the test is false; what was open inside is closed",
         program((9, 0), "87 0 9; 32 1; 89 1 3 3 31; 95; 87 0 9; 32 2; 89 2 4 4 32; 95; 87 0 9; 32 3; 88 3 1 1 31; 95; 87 0 9; 32 4; 88 4 2 2 32; 95; 87 0 9; 32 5; 86 31; 32 6; 95; "
                 "87 0 3; 32 7; 91 21 31; 95; 87 0 3; 32 8; 91 21 32; 95; 87 0 3; 32 9; 91 11 31; 95"), "run 1 1 0\ninvert 1\nrun 1 1 8")
    case("exit/92", "a loop left by the time", program((4, 0), "87 0 3; 32 1; 92 0 2 31; 95; 87 0 3; 32 2; 92 0 2 32; 95"), "run 1 1 0\nrun 1 1 8\nrun 1 1 4800\nrun 1 1 9600")
    case("exit/nested", "an exit out of two Ifs and an Else goes past the innermost loop's End only; the outer loop goes on with its own pass",
         program((9, 0), "87 0 3; 32 1--; 87 0 5; 32 4--; 91 21 30; 94; 32 9; 95; 91 11 30; 32 9; 94; 89 4 3 1 30; 86 31; 95; 95; 95; 32 1--; 95; 32 9"), "run 1 1 0\ninvert 1\nrun 1 1 8")
    case("exit/first-and-last", "an exit as a loop's first entry, and on the last pass", program((3, 0), "87 0 3; 86 31; 32 1; 95; 87 0 3; 32 2; 89 2 3 3 31; 95; 32 3"), "run 1 1 0")
    case("command-0", "ends the scan: from a loop, an If, at once; the scan is the last scan, later entries do nothing",
         program((4, 0), "32 1; 87 0 5; 91 21 30; 32 2; 89 2 3 3 0; 94; 32 3; 95; 95; 86 0; 32 4", "86 0; 32 4", v=(8, 8)), "run 1 1 0\nrun 2 1 4800\ninvert 1\nrun 1 1 8")
    for k, test in (("88", "88 1 1 1 0"), ("89", "89 1 2 0 0"), ("91", "91 11 0"), ("92", "92 1 2 0")):
        case("command-0/" + k, "by a test, true and false", program((3, 0), "%s; 32 2; 32 1" % test), "run 1 1 0\ninvert 1\nrun 1 1 4800\nrun 1 1 9600")


def subroutines():
    numbers = list(range(1, 10)) + list(range(79, 100))
    case("call/all-numbers", "1 to 9 and 79 to 99, in another order than keyed", program((30, 0), "; ".join("86 %d" % k for k in reversed(numbers)), "",
         "; ".join("85 %d; 32 %d; 95" % (k, n) for n, k in enumerate(numbers, 1))), "run 1 1 0")
    seven = "; ".join("85 %d; 32 %d; %s; 32 %d; 95" % (k, k, "86 %d" % (k + 1) if k < 7 else "32 15", 7 + k) for k in range(1, 8))
    case("call/7-deep", "each goes on behind its call", program((16, 0), "86 1; 32 16", "", seven), "run 1 1 0")
    stop = seven.replace("32 15", "86 0")
    case("call/7-deep-command-0", "command 0 goes to the end of the calling table", program((16, 0), "86 1; 32 16", "86 7; 32 16", stop, v=(8, 8)), "run 1 1 0\nrun 2 1 0")
    case("call/twice-and-in-loops", "calls in loops and Ifs, one behind the other; loops in the subroutine; the caller's pass goes on",
         program((12, 0), "87 0 3; 86 2; 32 1--; 91 21 30; 86 2; 95; 95; 86 2; 86 2", "", "85 2; 32 4--; 87 0 2; 32 5--; 95; 32 8--; 95"), "run 1 1 0")
    case("call/index-own-loop", "a loop of the caller doesn't move the subroutine's locations; the subroutine's loop not the caller's",
         program((9, 0), "87 0 3; 86 3; 32 1--; 95; 32 1--; 86 3", "", "85 3; 32 5--; 87 0 4; 86 4; 32 6--; 95; 95; 85 4; 32 4--; 95"), "run 1 1 0")
    case("call/exit-own-loop", "an exit in a subroutine leaves its own loop only; the caller's goes on",
         program((5, 0), "87 0 3; 86 1; 32 1; 95", "", "85 1; 87 0 5; 32 2; 86 31; 95; 91 21 30; 32 3; 94; 32 4; 95; 95"), "run 1 1 0\ninvert 1\nrun 1 1 8")
    case("call/raises-and-flag-9", "what a subroutine does to flags is seen behind the call",
         program((2, 1), "32 1; 86 5; 72 1 1; 70 1 1", "", "85 5; 86 19; 86 10; 95"), "run 1 1 0\nrun 1 1 8")
    case("call/92-by-the-calling-table", "the same subroutine: each table by its own scan before",
         program((3, 0), "86 1; 32 2", "86 1; 32 3", "85 1; 92 0 1 30; 32 1; 95; 95", v=(8, 80)),
         "run 1 1 0\nrun 1 1 8\nrun 2 1 80\nrun 2 1 160\nrun 1 1 4800\nrun 2 1 4800\nrun 2 1 4880\nrun 1 2 4808\nrun 2 2 4880")
    case("call/tests", "88, 89, 91 and 92 call in turn, each where it is true", program((4, 0), "88 4 1 4 1; 89 4 2 0 1; 91 21 1; 92 5 10 1; 92 0 5 1", "", "85 1; 32 1; 91 11 2; 95; 85 2; 32 2; 95"),
         "run 1 1 0\ninvert 1\nrun 1 1 24000\nrun 1 1 24008")


def times():
    minutes = "32 1; 92 0 1 30; 32 2; 95; 92 0 5 30; 32 3; 95; 92 3 5 30; 32 4; 95; 92 5 5 30; 32 5; 95; 92 1439 1440 30; 32 6; 95; 92 0 1440 30; 32 7; 95; 92 1439 3 30; 32 8; 95; 92 59 60 30; 32 9; 95"
    case("92/minutes", "every minute, every five, into 3, into at and above the interval (never), the last minute of the day, midnight",
         program((9, 0), minutes), "run 1 1 0\nrun 1 1 8\nrun 1 1 4792\nrun 1 1 4800\nrun 1 1 14400\nrun 1 1 24000\nrun 1 1 24008\nrun 1 1 283200\nrun 1 1 6907200\nrun 1 1 6911992\nrun 1 2 0\nrun 1 2 8")
    case("92/days", "the same minute of another day is another minute; the year's last day and its first", program((9, 0), minutes), "run 1 365 6907200\nrun 1 366 6907200\nrun 1 366 6907208\nrun 1 1 6907200\nrun 1 1 0\nrun 1 366 0")
    case("92/out-of-order", "the clock set back and again: only the scan before counts", program((9, 0), minutes), "run 1 5 24000\nrun 1 5 0\nrun 1 5 24000\nrun 1 4 24000\nrun 1 4 24008\nrun 1 5 24008")
    case("92/other-table", "the other table's scans don't count", program((4, 0), "92 0 1 30; 32 1; 95; 32 3", "92 0 1 30; 32 2; 95; 32 4", v=(8, 16)), "run 1 1 0\nrun 2 1 0\nrun 2 1 16\nrun 1 1 8\nrun 2 1 4800\nrun 1 1 4800\nrun 1 1 4808\nrun 2 1 4816")
    case("92/not-due", "a table that isn't due has no scan: the next one is the first of its minute", program((2, 0), "92 0 1 30; 32 1; 95; 32 2", v=(80, 0)), "run 1 1 0\nrun 1 1 4840\nrun 1 1 4880\nrun 1 1 4960\nrun 1 1 9601\nrun 1 1 9680")
    case("92/all-through", "stays what it was all through a scan", program((3, 0), "87 0 3; 92 0 1 30; 32 1; 94; 32 2; 95; 95; 92 0 1 30; 32 3; 95"), "run 1 1 0\nrun 1 1 8")
    case("92/states-lent", "no scan yet is day 0, whatever its minute; a day that no clock has is another day; minute 1,440 another minute",
         program((2, 0), "92 0 1 30; 32 1; 95; 32 2"), "put minute 1 5\nrun 1 1 24000\nput day 1 0\nrun 1 1 24000\nput day 1 367\nrun 1 367 24000\nrun 1 366 24000\nput day 1 65535\nrun 1 366 24000\nput minute 1 1440\nrun 1 366 24000\nput minute 1 65535\nput minute 2 5\nrun 1 366 24000")
    case("due/V-0", "V = 0 is off: never due, at no time; a refusal comes all the same", program((1, 0), "32 1", "32 1", v=(0, 0)), "run 1 1 0\nrun 2 1 0\nrun 1 1 8\nrun 1 0 0\nrun 2 1 6912000")
    for v in (1, 2, 3, 4, 5, 6, 7):
        case("due/V-%d" % v, "in eightieths of a second: Table 1 only", program((1, 0), "32 1", v=(v, 0)), "\n".join("run 1 1 %d" % t for t in range(8)) + "\nrun 1 1 6911999\nrun 1 366 6911999")
    case("due/V-524240", "the longest interval, in both tables", program((1, 0), "32 1", "32 1", v=(524240, 524240)), "run 1 1 0\nrun 2 1 0\nrun 1 1 524239\nrun 1 1 524240\nrun 2 1 524232\nrun 2 1 1048480\nrun 2 1 6815120\nrun 1 1 6911999")
    case("due/24", "24 divides T", program((1, 0), "32 1", "32 1", v=(24, 16)), "\n".join("run %d 1 %d" % (t, 8 * n) for n in range(5) for t in (1, 2)))
    case("empty-tables", "a due table with no entries lowers flags 0 and 9 and becomes the last scan", program((1, 0), "86 10; 86 19", "", v=(8, 8)), "run 1 1 0\nrun 2 1 4800\nrun 2 2 4808\nrun 1 2 4812")
    case("empty-program", "no entries at all, I 1, M 0", program((1, 0), "", "", v=(1, 8)), "run 1 1 0\nrun 2 366 6911992\nrun 1 366 6911999\nkey 1 3f800000\ninvert 8")


def rings():
    store = program((3, 0), "32 1; 86 10; 70 3 1")
    for n in (1, 2, 3, 4, 5, 63, 64):
        calls = ["lend 3 0 297 196 %d" % n] + ["run 1 1 %d" % (8 * i) for i in range(3 if n < 60 else 1)]
        if n >= 60:
            calls = ["lend 3 0 297 196 %d" % n] + ["run 1 1 %d" % (8 * i) for i in range(18)]
        calls += ["show 0 0", "show 0 1", "show 0 3", "show 0 4", "show 1 0", "show 1 3", "show 15 0", "show 15 3", "show 16 0"]
        case("ring/%d" % n, "a ring of %d words gone round: the oldest array loses its start word and is not shown" % n, store, "\n".join(calls))
    fill = program((99, 0), "32 1; 86 10; 87 0 82; 70 99 1; 70 99 1; 70 99 1; 70 99 1; 95; 86 10; 70 99 1")
    case("ring/32768", "the longest ring: filled in one scan but for its last words, then gone round", fill,
         "lend 99 0 297 196 32768\nrun 1 1 0\nshow 0 0\nshow 0 1\nshow 0 32472\nshow 0 32473\nshow 1 0\nshow 1 99\nshow 1 100\nshow 2 0\nrun 1 1 8\nshow 0 0\nshow 0 99\nshow 1 0\nshow 1 2\nshow 2 1\nshow 4294967295 0\nshow 0 4294967295")
    case("ring/32768-lent", "position and filled count at the ends of the longest ring", program((3, 0), "32 1; 86 10; 70 3 1"),
         "lend 3 0 297 196 32768\nput position 32767\nput filled 32768\nput word 32765 64613 25576 25577\nrun 1 1 0\nshow 0 0\nshow 0 1\nshow 1 0\nput position 32766\nput filled 0\nrun 1 1 8\nshow 0 0\nshow 0 3")
    case("ring/lent-words", "listing of lent words: before a start word, unfilled, no value has, ids above 399, start words alone",
         program((1, 0), ""), "lend 1 0 297 196 16\nput word 1 25576 64614 27076 57407 64615 64616 7000 64617 699 64618 700 65535 57344 64512 57345 64700\nput filled 16\n"
         + "\n".join("show %d %d" % (k, j) for k in range(6) for j in range(4))
         + "\nput filled 14\nshow 0 0\nshow 0 1\nput position 3\nput filled 6\nshow 0 0\nshow 0 1\nshow 1 0\nshow 2 0\nput filled 1\nshow 0 0\nput filled 0\nshow 0 0")
    edges = [0, 1, 699, 700, 6999, 7000, 8191, 8192, 8891, 8892, 15191, 15192, 16383, 16384, 17083, 17084, 23383, 23384, 24575, 24576, 24577, 31575, 31576, 32767, 32768, 32769, 33467, 33468,
             39767, 39768, 40960, 41659, 41660, 47959, 47960, 49152, 49851, 49852, 56151, 56152, 57343, 57344, 57345, 64343, 64344, 64511]
    w = []
    for n, x in enumerate(edges):
        w += [64512 + n, x]
    case("ring/words-no-value-has", "one array a word: shown are those that some number has", program((1, 0), ""),
         "lend 1 0 297 196 %d\nput filled %d\nput word 1 %s\n" % (len(w), len(w), " ".join(map(str, w))) + "\n".join("show %d 0\nshow %d 1" % (k, k) for k in range(30)))
    case("ring/written-over-lent", "a scan writes over lent words, whatever they are, at the position lent", program((2, 0), "32 1; 86 10; 70 2 1"),
         "lend 2 0 297 196 5\nput word 1 1 2 64513 4 5\nput position 4\nput filled 3\nput id 399\nrun 1 1 0\nshow 0 0\nshow 0 2\nrun 1 1 8\nshow 0 0\nshow 0 1")
    case("ring/wrapped-array", "an array longer than the ring: nothing to show", program((9, 0), "32 1; 86 10; 70 9 1"), "lend 9 0 297 196 9\nrun 1 1 0\nshow 0 0\nrun 1 1 8\nshow 0 0\nlend 9 0 297 196 10\nput filled 10\nput position 9\nrun 1 1 16\nshow 0 0\nshow 0 9")


def refusals():
    every = "32 1; 86 10; 70 1 1; 72 2 1"
    sound = program((2, 2), every, "32 2", v=(8, 8))
    calls_30 = "run 1 1 0\nrun 2 1 0\nkey 1 3f800000\nkey 0 7fc00000\ninvert 1\ninvert 9\nrun 1 0 0"
    case("30/text", "a text with a lone 95: its record is the empty one, and every call but the listing refuses it, before all else",
         program((2, 2), "95"), calls_30 + "\nlend 2 2 297 196 0\nrun 1 0 9999999\nkey 3 7f800000\nshow 0 0\nlend 2 2 297 196 64\nput id 400\nput position 64\nrun 1 1 0\ninvert 1\nshow 0 0")
    case("30/record", "a record with a lone 95", sound, "run 1 1 0\nalter 1 1\n" + calls_30 + "\nshow 0 0\nshow 0 1\nlend 1 2 297 196 64\nrun 1 1 8\nkey 1 3f800000")
    case("30/record-of-the-other-table", "Table 2's fault refuses Table 1's scan too, and one in Table 3",
         program((2, 2), "32 1", "32 1", "85 1; 32 1; 95", v=(8, 8)), "alter 2 1\nrun 1 1 0\nrun 2 1 0")
    case("30/record-table-3", "an End too many in Table 3", program((2, 2), "32 1", "32 1", "85 1; 32 1; 95", v=(8, 8)), "alter 3 2\nrun 1 1 0\nrun 2 1 0\nkey 1 00000000\ninvert 1")
    case("30/unused-slot", "an entry behind the last one is judged by nothing", sound, "alter 1 5\nalter 2 99\nrun 1 1 0")


def lengths_and_limits():
    every = "32 1; 86 10; 70 1 1; 72 2 1"
    sound = program((2, 2), every, "32 2", v=(8, 8))
    lengths = [2, 2, 297, 196, 64]
    calls = []
    for i in range(5):
        for d in ((-1, 1) if i < 4 else (-64, 32705)):
            other = lengths[:]
            other[i] += d
            calls += ["lend " + " ".join(map(str, other)), "run 1 1 0", "key 1 40000000", "show 0 0"]
        other = lengths[:]
        other[i] = 0
        calls += ["lend " + " ".join(map(str, other)), "run 2 1 0", "key 2 40000000"]
    case("31", "each length one too short, one too long, and 0; keying is held to the locations, the listing to the ring", sound,
         "put reading 1 3f800000\n" + "\n".join(calls) + "\nlend 2 2 297 196 1\nrun 1 1 0\nlend 2 2 297 196 32768\nput position 32767\nput filled 32768\nrun 1 1 8\nlend 2 2 297 196 32769\nrun 1 1 16\nshow 0 0")
    case("31/M-0", "no sums: none may be lent", program((1, 0), "32 1"), "lend 1 1 297 196 64\nrun 1 1 0\nlend 1 0 297 196 64\nrun 1 1 8")
    case("32", "position, filled count, array id, sample counts: at and over the limit; the listing is held to the first two", sound,
         "run 1 1 0\nput position 64\nrun 1 1 8\nshow 0 0\nput position 65535\nrun 1 1 8\nshow 0 0\nput position 63\nput filled 65\nrun 1 1 8\nshow 0 0\nput filled 65535\nrun 2 1 8\nput filled 64\nput id 400\nrun 1 1 8\nshow 0 0\n"
         "put id 65535\nrun 1 1 8\ninvert 3\nkey 1 41200000\nput id 399\nput count 297 16777216\nrun 1 1 8\nput count 297 16777215\nput count 1 4294967295\nrun 2 1 8\nput count 1 16777215\nput count 100 16777216\nrun 2 1 8\nput count 100 0\nrun 1 1 8\nput count 298 16777216\nrun 1 1 16")
    case("33", "day 0 and 367, T 6,912,000 and beyond; the ends are taken; a table that isn't due is refused too", sound,
         "run 1 0 0\nrun 1 367 0\nrun 1 1 6912000\nrun 1 4294967295 0\nrun 1 65537 0\nrun 1 1 4294967295\nrun 2 0 4294967295\nrun 1 0 1\nrun 1 1 0\nrun 1 366 6911992\nrun 2 366 6911999\nrun 2 65902 8")
    case("34/location", "0, I + 1, and numbers whose low bits are in range; values that aren't finite; -0 and the ends are taken", sound,
         "key 0 3f800000\nkey 3 3f800000\nkey 4294967295 3f800000\nkey 65537 3f800000\nkey 257 3f800000\nkey 1 7fc00000\nkey 1 7f800000\nkey 2 ff800000\nkey 0 ff800000\nkey 1 80000000\nkey 2 7f7fffff\nkey 2 ff7fffff\nkey 1 00000001\nrun 1 1 0")
    case("34/flag", "0, 9 and beyond are refused; 1 to 8 turn over and back", sound,
         "invert 0\ninvert 9\ninvert 10\ninvert 255\n" + "\n".join("invert %d" % f for f in range(1, 9)) + "\ninvert 8\ninvert 1\nrun 1 1 0\ninvert 0\ninvert 9")
    case("order", "31 before 32 before 33; 31 before 34; 30 before all", sound,
         "put id 400\nlend 1 2 297 196 64\nrun 1 0 0\nkey 0 7fc00000\nlend 2 2 297 196 64\nrun 1 0 0\nkey 0 7fc00000\nput id 0\nrun 1 0 0\nput position 70\nlend 2 2 297 196 0\nrun 1 0 0\nshow 0 0\nlend 2 2 297 196 64\nshow 0 0\nrun 1 0 0\nput position 0\nrun 1 1 0\nput id 400\nput position 70\nlend 1 1 1 1 0\nalter 1 1\nrun 1 0 0\nkey 0 7fc00000\ninvert 0")
    case("buffers-longer-than-lent", "places behind what is lent stay", program((2, 1), "32 1; 72 1 1; 86 10; 70 1 1"), "put location 3 3f800000\nput sum 2 3f800000\nput count 298 7\nput reading 197 3f800000\nput word 5 9\nlend 2 1 297 196 4\nrun 1 1 0\nrun 1 1 8\nrun 1 1 16")


def keyings():
    case("keyings", "between scans: the next scan takes them up", program((4, 1), "91 11 30; 34 1 1 1; 94; 34 1 10 2; 95; 91 12 10; 71 1 1; 70 2 1"),
         "key 1 40a00000\nrun 1 1 0\ninvert 1\nrun 1 1 8\nkey 1 c0000000\nkey 2 42c80000\ninvert 2\nrun 1 1 16\ninvert 1\ninvert 2\nkey 4 80000000\nrun 1 1 24\nkey 0 00000000\ninvert 9\nrun 1 1 32")
    case("keyings/scan-writes-over", "a keyed location that the table measures is written over", program((1, 0), "1 1 1 1 1 1 1 0"), "key 1 41200000\nput reading 1 3f800000\nrun 1 1 0\nkey 1 41200000\nrun 1 1 4")
    case("keyings/flag-8-and-ports", "a flag keyed starts and stops what its 91 does", program((1, 0), "91 18 41; 91 28 51"), "run 1 1 0\ninvert 8\nrun 1 1 8\ninvert 8\nrun 1 1 16")


def manual():
    case("manual/540-degrees", "the wind vane of section 8",
         program((5, 0), "1 1 16 1 1 2 1.0 0.0; 86 1; 37 3 1.8519 5; 86 10; 70 1 3; 70 1 5", "", "85 1; 89 3 3 270 30; 86 11; 94; 86 21; 95; 31 2 3; 89 3 4 180 30; 91 11 30; 34 3 360 3; 95; 95; 95", v=(240, 0)),
         "\n".join("%s\nrun 1 1 %d" % (puts("reading", 1, x), 240 * n) for n, x in enumerate((350.0, 10.0, 200.0, 10.0))))
    case("two-rates", "Table 1 each eighth of a second, Table 2 each second: both at one tick, Table 1 first",
         program((3, 2), "1 1 1 1 1 1 1 0; 72 1 1", "31 1 2; 32 3; 86 10; 71 1 2; 70 1 3", v=(8, 80)),
         "\n".join("%s\nrun 1 1 %d\nrun 2 1 %d" % (puts("reading", 1, float(n)), 8 * n, 8 * n) for n in range(0, 21)))


def main():
    for part in (first, measurements, processing, output, statistics, counts_and_sums, arrays, control, relations, blocks, exits, subroutines, times, rings, refusals,
                 lengths_and_limits, keyings, manual):
        part()
    for lines in random_cases.make(48):
        OUT.extend(lines)
    print("\n".join(OUT))


main()
