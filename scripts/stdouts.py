#!/usr/bin/env python3
"""Fails where the stored output of a program says that a case was wrong, or that none was tried.

`rt ci` holds a program to its file `stdout`, whatever that says. The forms: 'N compared, M wrong', 'N of M: …', 'same' or 'DIFFERENT',
'kept' or 'CHANGED', and 'changed N M' with M bytes changed past the image.
"""
import glob
import os
import re
import sys


def line_fault(line):
    """What a line says is wrong, or None."""
    for wrong in re.findall(r'(\d+) wrong', line):
        if int(wrong):
            return f'{wrong} wrong'
    for tried in re.findall(r'(\d+) compared', line):
        if not int(tried):
            return 'nothing compared'
    for right, made in re.findall(r'(\d+) of (\d+)\b', line):
        if int(right) != int(made) or not int(made):
            return f'{right} of {made}'
    for past in re.findall(r'\bchanged \d+ (\d+)', line):
        if int(past):
            return f'{past} bytes changed past the image'
    loud = re.search(r'\b(?:DIFFERENT|CHANGED|WRONG|FAILED|FAIL|BAD)\b', line)
    return loud.group() if loud else None


def text_faults(text):
    if not text.strip():
        yield 0, 'says nothing'
    for i, line in enumerate(text.split('\n')):
        why = line_fault(line)
        if why:
            yield i + 1, why


def main():
    failed = 0
    for crate in sorted(glob.glob('crates/*')):
        if not os.path.exists(os.path.join(crate, 'src', 'main.rt')):
            continue
        path = os.path.join(crate, 'stdout')
        stored = open(path, 'rb').read() if os.path.exists(path) else b''
        if b'\0' in stored:
            continue
        for line, why in text_faults(stored.decode('utf-8', 'replace')):
            print(f'stdouts: {path}:{line}: {why}')
            failed += 1
    return 1 if failed else 0


if __name__ == '__main__':
    sys.exit(main())
