#!/usr/bin/env python3
"""needs.py [--check]: writes stack and memory of each call into docs/PERFORMANCE.md; with --check it fails where the document says otherwise.

The stack is that of the list in callers/tablegoose.h, which scripts/stack.py holds to the code. The lent rooms are upper bounds by the header's limits: ROOMS has
a formula for each. The part of the document between its heading '## Stack and memory' and the next heading is made anew.
"""
import os
import re
import sys

HEADER = 'callers/tablegoose.h'
DOCUMENT = 'docs/PERFORMANCE.md'
HEADING = '## Stack and memory'
# A call of less stack and without a room of its own has no row.
SMALL = 4096
WORD, BYTE = 4, 1
SIZES = {WORD: 'words', BYTE: 'bytes'}
# The longest data of a port, and the columns of all memories that a port of the largest k reaches.
DATA = 'MAX_WIDTH * 2 ** MAX_WIDE'
REACHED = 'MAX_COLUMNS * 2 ** MAX_WIDE'
# Of each call the rooms that it is lent for results, and its scratch: name, how many at most, and the bytes of one.
ROOMS = {
    'add_bitwise_mux': [('out', 'MAX_MERGE', WORD)],
    'add_dedup_dff': [('out', 'MAX_MERGE', WORD)],
    'add_dedup_mux': [('out', 'MAX_MERGE', WORD)],
    'extract_read_ports': [
        ('room_nets', f'MAX_PORTS * (2 * ADDR_BITS + 2 * {DATA})', WORD),
        ('room_trits', f'MAX_BITS + 3 * MAX_PORTS * {DATA}', BYTE),
        ('room_output', f'MAX_PORTS * {DATA}', WORD),
    ],
    'fill': [('image', 'MAX_IMAGE', BYTE)],
    'fill_and_patch': [('buffer', 'MAX_IMAGE', BYTE)],
    'fill_rows': [('image', 'MAX_IMAGE', BYTE)],
    'fill_then_patch': [('buffer', 'MAX_IMAGE', BYTE)],
    'list_input': [('out', 'MAX_LINE * (MAX_COLUMNS + 1)', BYTE)],
    'list_record': [('out', 'MAX_LINE * (MAX_COLUMNS + 1)', BYTE)],
    'lower_fallback': [('scratch', '2 * MAX_PORTS * MAX_BITS', WORD)],
    'make_data_swizzle': [('out', 'MAX_ROW', WORD)],
    'patch': [('image', 'MAX_IMAGE', BYTE)],
    'patch_all': [('buffer', 'MAX_IMAGE', BYTE)],
    'patch_each': [('buffer', 'MAX_IMAGE', BYTE)],
    'patch_row': [('image', 'MAX_IMAGE', BYTE)],
    'read_laid_row': [('room', 'MAX_WIDTH', BYTE)],
    'read_record': [('image', 'MAX_IMAGE', BYTE)],
    'read_row': [('room', 'MAX_WIDTH', BYTE)],
    'swizzle': [
        ('image', 'MAX_IMAGE', BYTE),
        ('nets_to', f'MAX_PORTS * (2 * MAX_HARD + 2 * {REACHED})', WORD),
        ('trits_to', f'3 * MAX_PORTS * {REACHED}', BYTE),
        ('scratch', REACHED, WORD),
    ],
    'swizzle_depths': [('out', 'MAX_COLUMNS', WORD)],
    'transparency_mux': [('bits_to', DATA, WORD), ('mask_to', DATA, WORD)],
    'write_record': [('out', 'MAX_RECORD', BYTE)],
}
ROOMS['swizzle_and_patch'] = ROOMS['swizzle']


def limits(header):
    return {name: int(value) for name, value in re.findall(r'^#define TABLEGOOSE_(\w+) (\d+)u? ', header, re.M)}


def stacks(header):
    """Of each call the bytes of stack, without its prefix."""
    return {name: int(size) for size, name in re.findall(r'^ \* +(\d+) tablegoose_(\w+)$', header, re.M)}


def shown(room, known):
    name, formula, size = room
    return f'{name} {eval(formula, {"__builtins__": {}}, known):,} {SIZES[size]}'


def section(header):
    stack, known = stacks(header), limits(header)
    missing = sorted(set(ROOMS) - set(stack))
    if missing:
        sys.exit(f"needs: the header's list of stack has not {missing}")
    listed = sorted((name for name in stack if name in ROOMS or stack[name] >= SMALL), key=lambda name: (-stack[name], name))
    rows = ''.join(f'| `{name}` | {stack[name]:,} | {", ".join(shown(room, known) for room in ROOMS.get(name, [])) or "none"} |\n' for name in listed)
    others = [stack[name] for name in stack if name not in listed]
    return (f'{HEADING}\n\nA call allocates nothing and keeps nothing: it takes stack, and the arrays that it is lent. The rooms are bounds by the limits: no input needs more. A\n'
            'call with less room than its own input needs is refused by 20. A log comes to them where the call has one: as many words as the rules give. Results as long as what\n'
            f'is given (constants, values, numbers of patches) are left out. `scripts/needs.py` writes this part.\n\n| call | stack in bytes | rooms and scratch at most |\n|---|---|---|\n{rows}'
            f'\nThe {len(others)} other calls take at most {max(others):,} bytes of stack.\n')


def main(given):
    text, made = open(DOCUMENT, encoding='utf-8').read(), section(open(HEADER, encoding='utf-8').read())
    before, _, rest = text.partition(HEADING + '\n')
    after = re.search(r'^## ', rest, re.M)
    new = before.rstrip('\n') + '\n\n' + made + ('\n' + rest[after.start():] if after else '')
    if given == ['--check']:
        if new != text:
            print(f'needs: {DOCUMENT} has not what scripts/needs.py writes')
        return 0 if new == text else 1
    with open(DOCUMENT, 'w', encoding='utf-8') as out:
        out.write(new)
    return 0


if __name__ == '__main__':
    os.chdir(os.path.dirname(os.path.dirname(os.path.abspath(__file__))))
    sys.exit(main(sys.argv[1:]))
