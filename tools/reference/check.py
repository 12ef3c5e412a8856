"""The check of a record: faults 10 to 22, and the stated counts."""
from keyed import Fault

TESTS = (86, 88, 89, 91, 92)


def command_of(e):
    """The command of an entry, or None."""
    return e[1][-1] if e[0] in TESTS else None


def is_call(c):
    return c is not None and (1 <= c <= 9 or 79 <= c <= 99)


def kind_opened(e):
    """What a block's first entry opens, 85 apart: 'then', 'loop' or None."""
    if e[0] == 87:
        return "loop"
    return "then" if command_of(e) == 30 else None


class Walk:
    """What is open while a table is read from its first entry on."""

    def __init__(self, t):
        self.t = t
        self.within = t != 3
        self.blocks = []

    def after(self, e):
        if e[0] == 85:
            self.within = True
        elif e[0] == 95:
            if self.blocks:
                self.blocks.pop()
            else:
                self.within = False
        elif e[0] == 94:
            self.blocks[-1][1] = True
        elif kind_opened(e):
            self.blocks.append([kind_opened(e), False, e[1][-1]])

    def passes(self):
        """The count of the innermost loop open here."""
        for kind, _, count in reversed(self.blocks):
            if kind == "loop":
                return count
        return 1


def block_fault(walk, e, subs):
    t = walk.t
    if e[0] == 85:
        if t != 3 or walk.within:
            return 10
        return 11 if e[1][0] in subs else None
    if not walk.within:
        return 13 if e[0] == 95 else 12
    if e[0] == 95:
        return 13 if t != 3 and not walk.blocks else None
    if e[0] == 94:
        if not walk.blocks or walk.blocks[-1][0] != "then" or walk.blocks[-1][1]:
            return 14
        return None
    if command_of(e) in (31, 32) and all(b[0] != "loop" for b in walk.blocks):
        return 15
    if kind_opened(e) and len(walk.blocks) == 11:
        return 16
    return None


def walk_blocks(record):
    subs = set()
    for t in (1, 2, 3):
        walk = Walk(t)
        for n, e in enumerate(record.tables[t - 1], 1):
            fault = block_fault(walk, e, subs)
            if fault:
                raise Fault(fault, t, n)
            if e[0] == 85:
                subs.add(e[1][0])
            walk.after(e)
        if walk.blocks or (t == 3 and walk.within):
            raise Fault(17, t, len(record.tables[t - 1]) + 1)
    return subs


def locations_of(e):
    """The locations of an entry, each with how many reps it has."""
    many = e[1][0] if e[0] in (1, 2, 70, 71, 72, 73, 74) else 1
    return [(v, many) for v in e[1] if isinstance(v, tuple)]


def reach_fault(record, walk, e, subs):
    if is_call(command_of(e)) and command_of(e) not in subs:
        return 18
    for (n, indexed), many in locations_of(e):
        last = n + (walk.passes() - 1 if indexed else 0) + many - 1
        if n == 0 or last > record.locations:
            return 20
    if e[0] in (1, 2):
        channels = 28 if e[0] == 1 else 14
        if (e[1][2] - 1) * channels + e[1][3] + e[1][0] - 1 > 7 * channels:
            return 20
    return None


def walk_reach(record, subs):
    for t in (1, 2, 3):
        walk = Walk(t)
        for n, e in enumerate(record.tables[t - 1], 1):
            fault = reach_fault(record, walk, e, subs)
            if fault:
                raise Fault(fault, t, n)
            walk.after(e)


def bodies(record):
    """Each subroutine's number, the entry of its 85 and its entries after 85, in entry order."""
    found = []
    walk = Walk(3)
    for n, e in enumerate(record.tables[2], 1):
        if e[0] == 85:
            found.append((e[1][0], n, []))
        else:
            found[-1][2].append(e)
        walk.after(e)
    return found


def walk_chains(record):
    found = bodies(record)
    calls = {k: {command_of(e) for e in body if is_call(command_of(e))} for k, _, body in found}
    long = set(calls)
    for _ in range(7):
        long = {k for k in calls if calls[k] & long}
    for k, n, _ in found:
        if k in long:
            raise Fault(19, 3, n)


def walk_sums(record):
    total = 0
    for t in (1, 2, 3):
        for n, e in enumerate(record.tables[t - 1], 1):
            total += e[1][0] if e[0] in (71, 72, 73, 74) else 0
            if total > record.sums:
                raise Fault(21, t, n)


def stated(entries, of_sub):
    """The stated count of entries; of_sub gives a subroutine's. Each open block has its count of passes (1 of a Then Do)
    and the count of its entries so far."""
    blocks = [(1, 0)]
    for e in entries:
        one = 1 + (of_sub(command_of(e)) if is_call(command_of(e)) else 0)
        passes, count = blocks.pop()
        if e[0] == 95 and blocks:
            before, outer = blocks.pop()
            blocks.append((before, outer + passes * (count + one)))
            continue
        blocks.append((passes, count + one))
        if kind_opened(e):
            blocks.append((e[1][1] if e[0] == 87 else 1, 0))
    return blocks[0][1]


def walk_counts(record):
    entries = {k: body for k, _, body in bodies(record)}
    known = {}

    def of_sub(k):
        if k not in known:
            known[k] = stated(entries[k], of_sub)
        return known[k]

    counts = []
    for t in (1, 2):
        counts.append(stated(record.tables[t - 1], of_sub))
        if counts[-1] > 60000:
            raise Fault(22, t, 0)
    return counts


def check(record):
    """The stated counts of Tables 1 and 2; raises the first fault."""
    subs = walk_blocks(record)
    walk_reach(record, subs)
    walk_chains(record)
    walk_sums(record)
    return walk_counts(record)
