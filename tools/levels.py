#!/usr/bin/env python3
"""Writes crates.txt by level: a crate's level is one more than the highest of those that it names. Within a level the order stays.

  levels.py        run inside the repository

The comment above a crate goes with it. The order is for the reader: `rt ci` finds its own.
"""
import functools, re

lines = open('crates.txt', encoding='utf-8').read().split('\n')
head, crates, comment = [], {}, []
for line in lines:
    found = re.match(r'(\w+)(?: \w+)?:(.*)', line)
    if found:
        crates[found.group(1)] = (comment, line, found.group(2).split())
        comment = []
    elif line.startswith('# ----') or not line:
        if not crates:
            head += comment
            comment = []
    else:
        comment.append(line)


@functools.cache
def level(name):
    return 1 + max([level(d) for d in crates[name][2] if d in crates], default=-1)


out = list(head)
for n in range(1 + max(map(level, crates))):
    out += ['', f'# ---- level {n + 1}']
    for name in crates:
        if level(name) == n:
            out += crates[name][0] + [crates[name][1]]
open('crates.txt', 'w', encoding='utf-8').write('\n'.join(out) + '\n')
