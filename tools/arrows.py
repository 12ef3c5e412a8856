#!/usr/bin/env python3
"""Says where crates.txt and the crates differ: a dependency that is listed and not named, or named and not listed; and which arrows break a
rule of docs/ARCHITECTURE.md.

  arrows.py            prints nothing where all is well
  arrows.py CRATE      how many crates are proved again after a change of CRATE, and which
"""
import os, re, sys

os.chdir(os.path.join(os.path.dirname(os.path.abspath(__file__)), '..'))
# a type of a value that is handed on lies there
UNNAMED = {('firmware_list', 'storage_word'), ('logger_list', 'storage_ring'), ('logger_keys', 'spec_check'), ('listing_feed', 'text_answer'), ('listing_finish', 'text_answer'), ('listing_finish', 'listing_output'), ('tablecheck_line', 'text_answer'), ('tablecheck_answer', 'text_answer'), ('test_text', 'text_answer'), ('test_calls', 'text_answer'), ('test_call', 'storage_listing'), ('test_call', 'spec_check'), ('test_calls', 'spec_calls'), ('test_lent', 'storage_word'), ('test_calls', 'spec_check')}
# layers that a layer must not name
RULES = [('check_', 'scan_'), ('scan_', 'check_'), ('spec_', 'proof_'), ('spec_', 'check_'), ('spec_', 'scan_')]
RULES += [(low, high) for low in ('check_', 'text_', 'record_', 'proof_record') for high in ('spec_machine', 'spec_buffers', 'spec_calls', 'storage_', 'proof_calls')]

listed = {}
for line in open('crates.txt', encoding='utf-8'):
    if ':' in line and not line.startswith('#'):
        head, rest = line.split(':', 1)  # NAME, or NAME staticlib
        listed[head.split()[0]] = set(rest.split())
# std is always there and never listed; these are the other libraries of the kit that a crate lists
KIT = set().union(*listed.values()) - listed.keys()


def named(crate):
    found = set()
    modules = {f[:-3] for f in os.listdir(f'crates/{crate}/src')}
    for folder, folders, files in os.walk(f'crates/{crate}'):
        folders[:] = [f for f in folders if f != 'out']
        for f in files:
            if f.endswith(('.rt', '.antt')):
                text = re.sub(r'(//|--).*', '', open(os.path.join(folder, f), encoding='utf-8').read())
                found |= set(re.findall(r'Rattle\.([a-z][a-z0-9_]*)\.', text))
                if f.endswith('.rt'):
                    found |= {c for c in re.findall(r'(?<![\w:.])([a-z][a-z0-9_]*)::', text) if c not in modules and c in listed.keys() | KIT}
    return found - {crate, 'std'}


if len(sys.argv) > 1:
    again = {sys.argv[1]}
    while more := {c for c in listed if listed[c] & again} - again:
        again |= more
    print(len(again), *sorted(again))
    sys.exit()
wrong = 0
for crate in listed:
    there = named(crate)
    for c in sorted(there - listed[crate]):
        wrong += 1
        print(f'{crate} names {c} and does not list it')
    for c in sorted(listed[crate] - there):
        if (crate, c) not in UNNAMED:
            wrong += 1
            print(f'{crate} lists {c} and does not name it')
    for low, high in RULES:
        for c in sorted(there):
            if crate.startswith(low) and c.startswith(high):
                wrong += 1
                print(f'{crate} names {c}: {low} must not stand on {high}')
sys.exit(min(1, wrong))
