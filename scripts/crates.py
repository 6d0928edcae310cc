#!/usr/bin/env python3
"""Fails where crates.txt does not list a folder under crates/, or lists one that is not there."""
import os
import sys

listed = set()
for line in open('crates.txt', encoding='utf-8'):
    name = ''.join(line.split('#')[0].split(':')[0].split()[:1])
    if name:
        listed.add(name)
there = {name for name in os.listdir('crates') if os.path.isdir(os.path.join('crates', name))}
for name in sorted(there - listed):
    print(f'crates: crates/{name} is not in crates.txt')
for name in sorted(listed - there):
    print(f'crates: crates.txt lists {name}, which is not under crates/')
sys.exit(1 if there != listed else 0)
