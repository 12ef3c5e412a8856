#!/usr/bin/env python3
"""Respells this repository's own names by tools/respelled.tsv, in the crates below the current folder: run once, behind the kit's port.py.

  respell.py [FOLDER]     FOLDER: the repository's top

A row is: the old name, a tab, the new one. Whole words turn, in .antt files everywhere but in prose and quoted text, in .rt files outside of prose and
quoted text; in a comment only what stands between back ticks. A row whose old name has neither a dash nor a capital turns in .antt files alone, and not
behind a dot, where it is a label of the code.
"""
import os, re, sys

here = os.path.dirname(os.path.realpath(__file__))
root = sys.argv[1] if len(sys.argv) > 1 else '.'
table = dict(line.rstrip('\n').split('\t') for line in open(os.path.join(here, 'respelled.tsv'), encoding='utf-8') if line.strip())
ANTT = re.compile(r'("(?:[^"\\\n]|\\.)*")|((?<![^\s(){}.;,@"«»])--[^\n]*)|([^\s(){}.;,@"«»]+)')
RUST = re.compile(r'''("(?:[^"\\]|\\.)*"|b?'(?:[^'\\\n]|\\.)')|(//[^\n]*)|([A-Za-z_][\w'₀-₉]*(?:-[\w'₀-₉]+)*)''')
SPAN = re.compile(r'`[^`\n]*`')
PLAIN = re.compile(r"[a-z_0-9]+$")


def turn(text, pattern, rust):
    def one(m):
        if m.group(1):
            return m.group(0)
        if m.group(2):
            return SPAN.sub(lambda s: pattern.sub(word, s.group(0)), m.group(0))
        return word(m)

    def word(m):
        w = m.group(0)
        if m.group(1) or m.group(2) or w not in table:
            return w
        if PLAIN.match(w) and (rust or m.string[m.start() - 1:m.start()] == '.'):
            return w
        return table[w]

    return pattern.sub(one, text)


changed = 0
for folder, dirs, files in os.walk(os.path.join(root, 'crates')):
    dirs[:] = sorted(d for d in dirs if d not in ('out', '.git'))
    for f in sorted(files):
        if not f.endswith(('.antt', '.rt')):
            continue
        p = os.path.join(folder, f)
        old = open(p, encoding='utf-8').read()
        new = turn(old, ANTT if f.endswith('.antt') else RUST, f.endswith('.rt'))
        if new != old:
            open(p, 'w', encoding='utf-8').write(new)
            changed += 1
print(f'respell: {changed} files changed')
