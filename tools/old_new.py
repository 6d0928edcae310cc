#!/usr/bin/env python3
"""Writes the last section of docs/DESIGN-PASS.md from two trees: what is public and changed under its own name, old above new. Its input is what
contracts.py, in the kit's folder port/, prints with --json: `python3 contracts.py OLDTREE NEWTREE --json | python3 tools/old_new.py NEWTREE`."""
import glob
import json
import os
import re
import sys

tree = sys.argv[1]
rows = json.load(sys.stdin)


def is_public(where):
    crate, _, name = where.partition(' ')
    name = name.split()[-1]
    for file in glob.glob(os.path.join(tree, 'crates', crate, 'src', '**', '*.rt'), recursive=True):
        if re.search(rf'(?m)^\s*pub fn {re.escape(name)}\b', open(file, encoding='utf-8').read()):
            return True
    return False


def short(where):
    return where.replace(' src/lib.rt', '').replace(' src/', ' ').replace('.rt ', ' ')


def clauses(requires, ensures):
    return ' '.join([f'requires {n + " " if n else ""}{{ {t} }}' for n, t in requires] + [f'ensures {n + " " if n else ""}{{ {t} }}' for n, t in ensures])


print('### Signatures\n\n```')
for where, old, new in rows['signatures changed']:
    if is_public(where):
        print(f'{short(where)}\n  - {old}\n  + {new}')
print('```\n\n### Clauses\n\n```')
for where, old_requires, old_ensures, new_requires, new_ensures in rows['contracts changed']:
    if is_public(where):
        print(f'{short(where)}\n  - {clauses(old_requires, old_ensures)}\n  + {clauses(new_requires, new_ensures)}')
print('```\n\n### Definitions\n\n```')
for crate, name, old, new in rows['definitions']['changed']:
    print(f'{crate} {name}\n  - {" ".join(old)}\n  + {" ".join(new)}')
print('```')
