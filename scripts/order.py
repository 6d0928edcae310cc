#!/usr/bin/env python3
"""Writes crates.txt by level: each crate above all that it uses, and in a level in the order that is there."""

HEAD = """# Each crate and what it uses, lowest level first; scripts/order.py writes this order. The prefix of a name is its room: docs/DECISIONS.md, 'The house'.
"""


def main():
    uses, kinds = {}, {}
    for line in open('crates.txt', encoding='utf-8'):
        line = line.split('#')[0].strip()
        if line:
            head, used = line.split(':')
            name, *kind = head.split()
            uses[name], kinds[name] = used.split(), ' '.join([name, *kind])
    levels = {}

    def level(name):
        if name not in levels:
            levels[name] = 1 + max((level(u) for u in uses[name] if u in uses), default=0)
        return levels[name]

    names = sorted(uses, key=level)
    with open('crates.txt', 'w', encoding='utf-8') as out:
        out.write(HEAD)
        for i, name in enumerate(names):
            if i == 0 or level(name) != level(names[i - 1]):
                out.write(f'\n# level {level(name)}\n')
            out.write(f"{kinds[name]}: {' '.join(uses[name])}".rstrip() + '\n')


main()
