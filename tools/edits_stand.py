#!/usr/bin/env python3
"""Lists the must-fail edits whose old text does not stand once in its file, after the pairs before it. Status 1 where there is one."""
import glob
import os
import sys

bad = 0
for f in sorted(glob.glob('crates/*/must-fail/*.edit')):
    crate = f.split('/must-fail/')[0]
    name, old, texts = None, None, {}
    for line in open(f, encoding='utf-8'):
        line = line.rstrip('\n')
        if line.startswith('file: '):
            name = os.path.join(crate, line[6:].strip())
            if not os.path.exists(name):
                print(f'{f}: no file {name}')
                bad += 1
            elif name not in texts:
                texts[name] = open(name, encoding='utf-8').read()
        elif line.startswith('old: '):
            old = line[5:]
        elif line.startswith('new: ') and name in texts:
            n = texts[name].count(old)
            if n != 1:
                print(f'{f}: {name}: {n} times: {old}')
                bad += 1
            texts[name] = texts[name].replace(old, line[5:], 1)
sys.exit(1 if bad else 0)
