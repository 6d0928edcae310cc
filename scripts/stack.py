#!/usr/bin/env python3
"""stack.py [--write]: the stack that each exported function takes at most, in bytes, read from the code of target/libtablegoose.a; x86-64 only.

Without an option the header's list is checked: each function's number must be enough. With --write the list is made anew, rounded up to ROUND bytes.

A function's own frame is its pushes and the most that it takes off the stack pointer, and eight bytes for the return address; to it comes the largest of
what it calls. The C library's memset, memcpy and memmove are counted as EXTERNAL bytes. Code that calls by pointer is an error, and so is code that calls
itself, but for the functions in LEVELS, which do so at most so many times deep.
"""
import re
import subprocess
import sys

ARCHIVE = 'target/libtablegoose.a'
HEADER = 'callers/tablegoose.h'
EXTERNAL = 64
ROUND = 128
LIST = re.compile(r'(/\* ---- stack:.*?\n)(.*?)( \*/\n)', re.S)
KNOWN = ('memset', 'memcpy', 'memmove', 'memcmp', 'bcmp')
# the tree of a read port: a level for each bit of its mux address, for which swizzle_read has MUX_ROOM (64) places, and the last one
LEVELS = {'swizzle_tree::tree': 65}


def functions(text):
    """For each function of a disassembly its own frame and what it calls."""
    found, name, unit = {}, None, ''
    for line in text.splitlines():
        if member := re.match(r'^(\S+\.o):\s+file format', line):
            unit = member[1]
        elif head := re.match(r'^[0-9a-f]+ <(.+)>:$', line):
            name = head[1] if head[1].startswith('tablegoose_') else f'{unit}:{head[1]}'
            found[name] = {'pushed': 0, 'taken': 0, 'calls': set(), 'unit': unit}
        elif name:
            look(found[name], line)
    return found


def look(function, line):
    if re.search(r'\tpush\s', line):
        function['pushed'] += 8
    elif taken := re.search(r'\tsub\s+\$0x([0-9a-f]+),%r(?:sp|11)$', line):
        # A large frame is taken page by page in a loop, whose bound is taken off r11 before.
        function['taken'] += int(taken[1], 16)
    elif re.search(r'\t(?:sub\s+%\w+|and\s+\$\S+),%rsp', line):
        sys.exit(f'stack: a frame whose size is not in the code: {line.strip()}')
    elif re.search(r'\tcall\s+\*', line):
        function['calls'].add('*')
    elif target := re.search(r'R_X86_64_(?:PLT32|PC32)\s+([\w.$:<>]+)-0x4', line):
        if not target[1].startswith('.rodata') and not target[1].startswith('.L'):
            function['calls'].add(target[1])
    elif inside := re.search(r'\tcall\s+[0-9a-f]+ <([^+>]+)>$', line):
        function['calls'].add(inside[1])


def depth(found, name, on_way=()):
    if name in on_way:
        sys.exit(f'stack: {name} calls itself')
    function = found[name]
    levels = LEVELS.get(name.split(':', 1)[1], 1) if ':' in name else 1
    most = 0
    for call in function['calls']:
        if call == '*':
            sys.exit(f'stack: {name} calls by pointer')
        inner = next((n for n in (call, f'{function["unit"]}:{call}', f'{function["unit"]}:{call.removeprefix(".text.")}') if n in found), None)
        if inner == name and levels > 1:
            continue
        if inner:
            most = max(most, depth(found, inner, (*on_way, name)))
        elif call in KNOWN:
            most = max(most, EXTERNAL)
        elif not call.startswith('.'):
            sys.exit(f'stack: {name} calls {call}, which is not known')
    return levels * (8 + function['pushed'] + function['taken']) + most


def measured(archive):
    text = subprocess.run(['objdump', '-dr', '--no-show-raw-insn', archive], capture_output=True, text=True, check=True).stdout
    found = functions(text)
    return {name: depth(found, name) for name in sorted(found) if ':' not in name}


def main():
    header, stack = open(HEADER).read(), measured(ARCHIVE)
    if sys.argv[1:] == ['--write']:
        lines = ''.join(f' * {-(-size // ROUND) * ROUND:7} {name}\n' for name, size in stack.items())
        open(HEADER, 'w').write(LIST.sub(lambda m: m[1] + lines + m[3], header))
        return 0
    stated = {name: int(size) for size, name in re.findall(r'^ \* +(\d+) (tablegoose_\w+)$', LIST.search(header)[2], re.M)}
    faults = [f'{name} takes {size} bytes, the header says {stated.get(name)}' for name, size in stack.items() if size > stated.get(name, -1)]
    for fault in faults:
        print('stack:', fault)
    return 1 if faults else 0


if __name__ == '__main__':
    sys.exit(main())
