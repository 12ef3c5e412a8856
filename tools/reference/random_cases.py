"""Cases of random tables and random calls, from a fixed seed. Only tables that pass the check are kept."""
import random

import calls

RANDOM = random.Random(19970701)
ODD = ["7fc00000", "7f800000", "ff800000", "7f7fffff", "ff7fffff", "00000001", "80000000", "80000001", "c7c34f80", "00800000"]
SUBS = [1, 2, 9, 79, 99]


def choice(*values):
    return RANDOM.choice(values)


def fixed():
    return choice("0", "1", "-1", "0.5", "2.5", "-0.1", "100", "99999", "0.001", "-3.75", "7", "69.99")


class Maker:
    """One program with I locations; blocks are opened and closed at random."""

    def __init__(self):
        self.size = RANDOM.randint(3, 9)
        self.subs = RANDOM.sample(SUBS, RANDOM.randint(0, 3))

    def location(self, passes, reps=1):
        indexed = RANDOM.random() < 0.5
        top = self.size - (passes - 1 if indexed else 0) - (reps - 1)
        if top < 1:
            indexed, top = False, max(1, self.size - reps + 1)
        return "%d%s" % (RANDOM.randint(1, top), "--" if indexed else "")

    def command(self, within_loop, callable_subs):
        options = [10, 10, 20, 19, 29, RANDOM.randint(11, 18), RANDOM.randint(21, 28), RANDOM.randint(41, 48), RANDOM.randint(51, 58)]
        if RANDOM.random() < 0.1:
            options.append(0)
        options += [31] * 2 * within_loop + callable_subs * 2
        return RANDOM.choice(options)

    def plain(self, p):
        reps = RANDOM.randint(1, 3)
        loc = lambda r=1: self.location(p, r)
        return RANDOM.choice([
            lambda: "1 %d 1 %d %d %s %s %s" % (reps, choice(1, 1, 2), RANDOM.randint(1, 28), loc(reps), fixed(), fixed()),
            lambda: "2 %d 1 1 %d %s %s %s" % (reps, RANDOM.randint(1, 14), loc(reps), fixed(), fixed()),
            lambda: "30 %s %s" % (fixed(), loc()), lambda: "31 %s %s" % (loc(), loc()), lambda: "32 %s" % loc(), lambda: "32 %s" % loc(),
            lambda: "%d %s %s %s" % (choice(33, 35, 36, 38), loc(), loc(), loc()), lambda: "%d %s %s %s" % (choice(34, 37), loc(), fixed(), loc()),
            lambda: "%d %d %s" % (choice(70, 71, 72, 73, 74), reps, loc(reps)), lambda: "%d %d %s" % (choice(70, 71, 72, 73, 74), reps, loc(reps)),
            lambda: "77 %d" % choice(10, 100, 110)])()

    def test(self, p):
        return RANDOM.choice([
            lambda: "88 %s %d %s" % (self.location(p), RANDOM.randint(1, 4), self.location(p)),
            lambda: "89 %s %d %s" % (self.location(p), RANDOM.randint(1, 4), fixed()),
            lambda: "91 %d" % RANDOM.randint(10, 29), lambda: "92 %d %d" % (choice(0, 0, 1, 2), choice(1, 2, 3, 5))])()

    def block(self, depth, p, within_loop, subs, n):
        lines = []
        while n > 0:
            n -= 1
            kind = RANDOM.random()
            if kind < 0.12 and depth < 4:
                passes = RANDOM.randint(1, 4)
                lines += ["87 0 %d" % passes] + self.block(depth + 1, passes, True, subs, n // 2) + ["95"]
                n //= 2
            elif kind < 0.3 and depth < 4:
                lines += [self.test(p) + " 30"] + self.block(depth + 1, p, within_loop, subs, n // 2)
                lines += (["94"] + self.block(depth + 1, p, within_loop, subs, n // 3) if RANDOM.random() < 0.6 else []) + ["95"]
                n //= 2
            elif kind < 0.45:
                c = 32 if within_loop and RANDOM.random() < 0.2 else self.command(within_loop, subs)
                lines.append("%s %d" % (self.test(p), c))
            elif kind < 0.6:
                lines.append("86 %d" % self.command(within_loop, subs))
            else:
                lines.append(self.plain(p))
        return lines

    def text(self):
        one = self.block(0, 1, False, self.subs, RANDOM.randint(4, 22))
        two = self.block(0, 1, False, self.subs, RANDOM.randint(0, 14))
        three = []
        for i, k in enumerate(self.subs):
            three += ["85 %d" % k] + self.block(0, 1, False, self.subs[i + 1:], RANDOM.randint(1, 8)) + ["95"]
        self.one, self.two, self.three = one, two, three
        sums = sum(int(e.split()[1]) for e in one + two + three if e.split()[0] in ("71", "72", "73", "74"))
        self.sums = sums
        line = lambda es: ["(%s)" % e for e in es]
        return (["(program %d %d" % (self.size, sums), "(table 1 %d" % choice(8, 8, 24, 5, 80)] + line(one) + [")", "(table 2 %d" % choice(8, 16, 80, 0)]
                + line(two) + [")", "(table 3"] + line(three) + [")", ")"])


def value():
    if RANDOM.random() < 0.15:
        return RANDOM.choice(ODD)
    return RANDOM.choice(["3f800000", "40000000", "c0200000", "42c80000", "3dcccccd", "461c4000", "bd800000", "40e00000", "%08x" % RANDOM.getrandbits(32)])


def some_calls(m, ring):
    lines = []
    day, time = RANDOM.randint(1, 366), 40 * 80 * RANDOM.randint(0, 2000)
    for _ in range(RANDOM.randint(8, 12)):
        kind = RANDOM.random()
        if kind < 0.4:
            lines.append("@put reading %d %s" % (RANDOM.randint(1, 28), " ".join(value() for _ in range(RANDOM.randint(1, 8)))))
        if kind < 0.7:
            t = choice(1, 1, 2)
            lines.append("@run %d %d %d" % (t, day, time))
            if t == 1 and RANDOM.random() < 0.4:
                lines.append("@run 2 %d %d" % (day, time))
            step = choice(8, 40, 80, 240, 4800, 4800, 9600)
            time += step
            if time > 6911999:
                day, time = day % 366 + 1, 0
        elif kind < 0.8:
            lines.append("@invert %d" % RANDOM.randint(0, 9))
        elif kind < 0.9:
            lines.append("@key %d %s" % (RANDOM.randint(0, m.size + 1), value()))
        elif m.sums and kind < 0.95:
            lines.append("@put sum %d %s" % (RANDOM.randint(1, m.sums), value()))
        else:
            lines.append("@put location %d %s" % (RANDOM.randint(1, m.size), value()))
    return lines + ["@show %d %d" % (k, j) for k in range(3) for j in range(2)]


def make(n):
    made = []
    while len(made) < n:
        m = Maker()
        text = m.text()
        data = ("\n".join(text) + "\n").encode()
        if calls.verdict(data)[1][0] != "pass":
            continue
        ring = choice(64, 64, 64, 7, 12, 30)
        body = ["@case random/%d" % (len(made) + 1), "@# a random table and random calls"] + text
        body += ["@lend %d %d 297 196 %d" % (m.size, m.sums, ring)] + some_calls(m, ring)
        made.append(body)
    return made
