"""Cases as lines: programs, calls and comments."""
import struct

OUT = []


def bits(x):
    return struct.pack(">f", x).hex()


NAN, INF, MINUS_INF = "7fc00000", "7f800000", "ff800000"
LARGEST, MINUS_LARGEST, LEAST, MINUS_LEAST, MINUS_ZERO = "7f7fffff", "ff7fffff", "00000001", "80000001", "80000000"


def entries(s):
    """Entries apart by `;`: `N * ENTRY` has the entry N times."""
    lines = []
    for e in [e.strip() for e in s.split(";") if e.strip()]:
        if " * " in e:
            n, e = e.split(" * ")
            lines.append("@times " + n)
        lines.append("(%s)" % e)
    return lines


def program(size, one="", two="", subs="", v=(8, 0)):
    lines = ["(program %d %d" % size, "(table 1 %d" % v[0]] + entries(one)
    if not two and not v[1] and not subs:
        return lines + ["@end 1"]
    lines += [")", "(table 2 %d" % v[1]] + entries(two)
    if not subs:
        return lines + ["@end 2"]
    return lines + [")", "(table 3"] + entries(subs) + ["@end 3"]


def case(name, why, lines, calls):
    OUT.append("@case " + name)
    for w in why.split("|"):
        OUT.append("@# " + w.strip())
    OUT.extend(lines)
    OUT.extend("@" + c.strip() for c in calls.split("\n") if c.strip())


def puts(kind, at, *values):
    return "put %s %d %s" % (kind, at, " ".join(v if isinstance(v, str) else bits(v) for v in values))
