#!/usr/bin/env python3
"""Spells this repository's own choice `if◌then◌else◌` as `when◌then◌else◌`, since `rt ci` keeps the first name for the library's, whose precedence is another.

usage: rename_choice.py     at the top of the repository: .antt files, the clauses and `ghost use` lines of .rt files, must-fail edits of specs/, and the rules made wrong"""
import glob
import os
import re
import sys

sys.path.insert(0, os.path.dirname(os.path.abspath(__file__)))
import respell

ROW = {'if◌then◌else◌': 'when◌then◌else◌', 'if': 'when'}


def main():
    n = 0
    for f in respell.antt_files():
        t = respell.read(f)
        n += respell.write(f, respell.antt(t, ROW), t)
    for f in respell.rt_files():
        t = respell.read(f)
        n += respell.write(f, respell.rt(t, ROW), t)
    for f in sorted(glob.glob('crates/*/must-fail/*.edit')):
        t = respell.read(f)
        out, antt = [], False
        for line in t.split('\n'):
            if line.startswith('file: '):
                antt = line.endswith('.antt')
            if line.startswith(('old: ', 'new: ')) and (antt or re.match(r'(?:old|new): +(?:requires|ensures)', line)):
                line = line[:5] + respell.words(line[5:], ROW)
            out.append(line)
        n += respell.write(f, '\n'.join(out), t)
    for f in glob.glob('scripts/wrong_*.txt'):
        t = respell.read(f)
        n += respell.write(f, re.sub(r'(?m)^((?:old|new): )(.*)$', lambda m: m.group(1) + re.sub(r'(?<![\w.])if(?= )|(?<=\\n)if(?= )', 'when', m.group(2)), t), t)
    print(n, 'files')


main()
