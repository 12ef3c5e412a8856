#!/usr/bin/env python3
"""Lists the places in src/ that are written in an older form, by point: docs/DESIGN-PASS.md counts them by it.
    tools/forms.py [POINT]      POINT: 1 to 7; with none, the counts alone
"""
import glob
import re
import sys
from collections import defaultdict

NONE = {'Malformed', 'Missing', 'Nothing', 'Other', 'Ended', 'Fault', 'Failed', 'Refused', 'Clean', 'All'}
INTEGER = r'(?:u8|u16|u32|u64|usize)'


class Function:
    """A function: its comment, name, parameters (name, type), result, requires and body."""

    def __init__(self, file, line, comment, text):
        self.file, self.line, self.comment = file, line, comment
        self.name = re.search(r'fn (\w+)', text).group(1)
        head = text.split('\n{\n')[0]
        inside = head[head.index('(') + 1:]
        depth, end = 1, 0
        for end, c in enumerate(inside):
            depth += (c == '(') - (c == ')')
            if depth == 0:
                break
        self.params = [tuple(p.strip().split(': ', 1)) for p in re.split(r',\s*(?![^\[<(]*[\]>)])', inside[:end]) if ': ' in p]
        said = re.match(r'\s*->\s*([^\n{]+)', inside[end + 1:])
        self.result = said.group(1).strip() if said else ''
        self.requires = [r for line in head.split('\n') for r in re.findall(r'^\s*requires \w*\s*\{ (.*) \}$', line)]
        self.body = text[len(head):]

    def place(self):
        return f'{self.file}:{self.line}: {self.name}'


def functions():
    for file in sorted(glob.glob('crates/*/src/**/*.rt', recursive=True)):
        lines = open(file).read().split('\n')
        for i, line in enumerate(lines):
            if re.match(r'\s*(pub )?(extern "C" )?fn \w', line):
                indent = re.match(r'\s*', line).group(0)
                end = next((j for j in range(i, len(lines)) if lines[j] == indent + '}' or (lines[j].startswith(indent) and lines[j].endswith('{}'))), i)
                k = i
                while k and (lines[k - 1].lstrip().startswith('//') or lines[k - 1].lstrip().startswith('#')):
                    k -= 1
                yield Function(file, i + 1, ' '.join(lines[k:i]), '\n'.join(lines[i:end + 1]))


def enums():
    for file in sorted(glob.glob('crates/*/src/**/*.rt', recursive=True)):
        text = open(file).read()
        for m in re.finditer(r'enum (\w+) \{(.*?)\n\}', text, re.S):
            names = re.findall(r'^    (\w+)', m.group(2), re.M)
            if set(names) & NONE:
                yield f'{file}:{text[:m.start()].count(chr(10)) + 1}: enum {m.group(1)} {{{", ".join(names)}}}'


def one(fs):
    """Own enums with a variant for none or for a refusal; numbers in which 0 or a place past the end says so; numbers for kinds."""
    yield from enums()
    for f in fs:
        if re.fullmatch(INTEGER, f.result) and re.search(r'\b0 for none|, or 0\b|; 0 |0 where|0 with none|else 0\b|NOWHERE|refusal|no next step|how a text is refused|its fault', f.comment + ' ' + ' '.join(re.findall(r'NOWHERE', f.body))):
            yield f.place()
    for file in sorted(glob.glob('crates/*/src/**/*.rt', recursive=True)):
        for n, line in enumerate(open(file), 1):
            if re.match(r'pub const [A-Z_]+: u(32|64) = \d+;', line) and re.search('record_codes|scan_marks', file):
                yield f'{file}:{n}: {line.strip()}'
            if re.match(r'    pub refusal: u8', line):
                yield f'{file}:{n}: {line.strip()}'


def shape(f):
    """The body with names, numbers and types taken out."""
    b = re.sub(r'//.*', '', f.body)
    b = re.sub(r'\b\d[\w.]*\b', 'N', b)
    b = re.sub(r"b?\"[^\"]*\"|b'.'", 'S', b)
    b = re.sub(r'\b(?!if|else|while|for|in|return|match|let|mut|loop)[A-Za-z_]\w*(::[A-Za-z_]\w*)*', 'w', b)
    return re.sub(r'\s+', ' ', b)


def two(fs):
    """Functions whose bodies are the same but for names, types and numbers, of four lines and more."""
    by = defaultdict(list)
    for f in fs:
        if f.body.count('\n') >= 5 and 'firmware/src' not in f.file:
            by[shape(f)].append(f.place())
    for places in by.values():
        if len(places) > 1:
            yield ' ~ '.join(places)


def three(fs):
    """Loops that are no `for`."""
    for file in sorted(glob.glob('crates/*/src/**/*.rt', recursive=True)):
        for n, line in enumerate(open(file), 1):
            if re.match(r"\s*('\w+: )?(while|loop)\b", line):
                yield f'{file}:{n}: {line.strip()}'


def four(fs):
    """Conversions, comparisons and logic written as functions: from a number or a byte to a kind, from a kind to a number, min, max, and, or, widening."""
    for f in fs:
        body = f.body.strip('{} \n')
        types = [t for _, t in f.params]
        if re.fullmatch(r'\w+( as usize| as u\d+)', body) and len(types) == 1:
            yield f.place() + ' (widening)'
        elif re.fullmatch(r'if [\w<.=() ]+ \{ [\w.]+ \} else \{ [\w.]+ \}', body) or re.search(r'^if (\w+) < (\w+) \{\s*return', body):
            yield f.place() + ' (a choice that the library has)'
        elif len(types) == 1 and re.match(r'match \w+( / \d+)? \{', body) and (re.fullmatch(INTEGER, types[0]) or re.fullmatch(INTEGER, f.result)):
            yield f.place() + ' (conversion)'
        elif re.search(r'fn (same_bytes|by_parts|is_finite|all_digits|is_between)\b', 'fn ' + f.name):
            yield f.place()


def five(fs):
    """Facts that stand in the requires of three or more functions, and pairs of parameters that stand side by side in five or more."""
    facts, runs = defaultdict(set), defaultdict(set)
    for f in fs:
        for r in f.requires:
            for fact in re.split(r' × ', r.replace('(', ' ').replace(')', ' ')):
                facts[re.sub(r'\s+', ' ', fact).strip()].add(f.place())
        names = [f'{n}: {t}' for n, t in f.params]
        for a, b in zip(names, names[1:]):
            runs[f'{a}, {b}'].add(f.place())
    for kind, found in (('fact', facts), ('parameters', runs)):
        for what, places in sorted(found.items(), key=lambda x: -len(x[1])):
            if len(places) >= (3 if kind == 'fact' else 5):
                yield f'{len(places)} {kind}: {what}'


def six(fs):
    """A lent buffer of bytes with the count of those filled beside it; parallel arrays of one length."""
    for f in fs:
        names = dict(f.params)
        if names.get('out') == '&mut [u8]' and any(names.get(k) == 'usize' for k in ('n', 'at', 'm')):
            yield f.place() + ' (out and n)'
        arrays = re.findall(r'\[0[\w.]*; (297|384|256)\]', f.body)
        if any(arrays.count(a) > 1 for a in arrays):
            yield f.place() + ' (parallel arrays)'


def seven(fs):
    """A number or an enum handed in that says which step to run."""
    for f in fs:
        for n, t in f.params:
            if t in ('Kind', 'bool') and re.search(rf'match {n} \{{|if {n} \{{', f.body) and f.body.count('match') + f.body.count('if ') >= 1 and t == 'Kind':
                yield f.place()


POINTS = [one, two, three, four, five, six, seven]


def main():
    fs = list(functions())
    wanted = sys.argv[1:]
    for n, point in enumerate(POINTS, 1):
        places = list(point(fs))
        if not wanted:
            print(f'{n}: {len(places)}')
        elif wanted[0] == str(n):
            print('\n'.join(places))


main()
