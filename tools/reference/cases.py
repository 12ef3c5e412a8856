"""A list of cases, and what test_calls must print of it. The form of the cases is told at the head of the list."""
import binary32
import calls
import words
from machine import Buffers, State

SIZES = (2001, 2001, 300, 200, 32769)
HEXADECIMAL = ("location", "sum", "reading")


def tables(first, upto):
    """The ends of empty tables and the first lines of those behind them."""
    follow = {1: b")\n(table 2 0\n", 2: b")\n(table 3\n", 3: b")\n)\n"}
    return b"".join(follow[t] for t in range(first, upto))


def text_of(lines):
    """The keyed text of a case."""
    out = b""
    times = 1
    for line in lines:
        words_of = line.split(b" ")
        kind = words_of[0]
        if not kind.startswith(b"@"):
            out += (line + b"\n") * times
        elif kind == b"@byte":
            out += bytes([int(words_of[1])])
        elif kind == b"@drop":
            out = out[:-1]
        elif kind == b"@fill":
            out += b"x" * max(0, int(words_of[1]) - len(out))
        elif kind == b"@open":
            out += b"(program " + b" ".join(words_of[2:]) + b"\n(table 1 0\n" + tables(1, int(words_of[1]))
        elif kind == b"@end":
            out += tables(int(words_of[1]), 4)
        times = int(words_of[1]) if kind == b"@times" else 1
    return out


def split(data):
    """Each case's lines."""
    found = []
    for line in data.split(b"\n")[:-1]:
        if line.startswith(b"@case"):
            found.append([])
        if found:
            found[-1].append(line)
    return found


def shown_verdict(verdict):
    if verdict[0] == "pass":
        return "pass %d %d" % tuple(verdict[1])
    return "E %d %d %d" % verdict[1:]


def named(lines):
    return lines[0].split(b" ", 1)[1].decode("latin-1")


def verdicts(data):
    return "".join("%s %s\n" % (named(c), shown_verdict(calls.verdict(text_of(c))[1])) for c in split(data))


def runs(ring):
    """Equal words side by side are one item, WORD*TIMES; zeros at the end are left out."""
    found = []
    for w in ring:
        if found and found[-1][0] == w:
            found[-1][1] += 1
        else:
            found.append([w, 1])
    if found and found[-1][0] == 0:
        found.pop()
    return ["%d" % w if n == 1 else "%d*%d" % (w, n) for w, n in found]


class Case:
    def __init__(self, lines):
        self.lines = lines
        self.record, verdict = calls.verdict(text_of(lines))
        self.out = [named(lines) + " " + shown_verdict(verdict)]
        self.state = State()
        self.locations, self.sums, self.counts, self.readings, self.ring = (
            [0.0] * SIZES[0], [0.0] * SIZES[1], [0] * SIZES[2], [0.0] * SIZES[3], [0] * SIZES[4])
        r = self.record
        self.lengths = [r.locations, r.sums, 297, 196, 64] if r else [0, 0, 297, 196, 64]

    def all_buffers(self):
        return [self.locations, self.sums, self.counts, self.readings, self.ring]

    def lend(self):
        return Buffers(*[b[:n] for b, n in zip(self.all_buffers(), self.lengths)])

    def take_back(self, lent):
        for b, c in zip(self.all_buffers(), (lent.locations, lent.sums, lent.counts, lent.readings, lent.ring)):
            b[:len(c)] = c

    def show(self, name, refusal):
        s = self.state
        parts = [name, str(refusal), "flags", "".join("01"[f] for f in s.flags), "ports", "".join("01"[p] for p in s.ports),
                 "ring", str(s.position), str(s.filled), "array", str(s.array),
                 "last", *[str(n) for n in (s.days[0], s.minutes[0], s.days[1], s.minutes[1])]]
        for title, values in (("locations", self.locations), ("sums", self.sums)):
            parts.append(title)
            parts += ["%d=%s" % (n, binary32.shown(x)) for n, x in enumerate(values, 1) if not binary32.is_plus_zero(x)]
        parts.append("counts")
        parts += ["%d=%d" % (n, x) for n, x in enumerate(self.counts, 1) if x]
        self.out.append(" ".join(parts + ["words"] + runs(self.ring)))

    def put(self, kind, at, values):
        if kind in ("position", "filled", "id"):
            setattr(self.state, {"id": "array"}.get(kind, kind), int(at))
        elif kind in ("day", "minute"):
            getattr(self.state, kind + "s")[int(at) - 1] = int(values[0])
        else:
            place = int(at) - 1
            for v in values:
                buffer = getattr(self, {"word": "ring"}.get(kind, kind + "s"))
                buffer[place] = binary32.from_bits(int(v, 16)) if kind in HEXADECIMAL else int(v)
                place += 1

    def listing(self, k, j):
        item = words.item(self.state, self.ring[:self.lengths[4]], k, j)
        title = {"refused": "E", "none": "none", "id": "id", "value": "value"}[item[0]]
        self.out.append(" ".join(["show", title] + [str(n) for n in item[1:]]))

    def run(self, table, day, time):
        lent = self.lend()
        refusal = calls.scan(self.record, table - 1, day, time, self.state, lent)
        self.take_back(lent)
        self.show("run", refusal)

    def key(self, n, v):
        lent = self.lend()
        refusal = calls.key_location(self.record, n, v, lent.locations)
        self.take_back(lent)
        self.show("key", refusal)

    def alter(self, table, entry):
        used = self.record.tables[table - 1]
        if entry <= len(used):
            used[entry - 1] = (95, [])
        self.out.append("alter " + shown_verdict(calls.record_verdict(self.record)))

    def line(self, line):
        parts = line.decode("latin-1").split(" ")
        kind, rest = parts[0], parts[1:]
        if kind == "@lend":
            self.lengths = [min(int(n), size) for n, size in zip(rest, SIZES)]
        elif kind == "@put":
            self.put(rest[0], rest[1], rest[2:])
        elif kind == "@run":
            self.run(*map(int, rest))
        elif kind == "@key":
            self.key(int(rest[0]), binary32.from_bits(int(rest[1], 16)))
        elif kind == "@invert":
            self.show("invert", calls.key_flag(self.record, int(rest[0]), self.state))
        elif kind == "@show":
            self.listing(*map(int, rest))
        elif kind == "@alter":
            self.alter(*map(int, rest))
        elif kind.startswith("@") and kind not in ("@case", "@open", "@end", "@times", "@byte", "@drop", "@fill", "@#"):
            raise ValueError(line)

    def output(self):
        for line in self.lines:
            self.line(line)
        return self.out


def output(data):
    return "".join(line + "\n" for c in split(data) for line in Case(c).output())
