#!/usr/bin/env python3
"""Fails where a document names something that does not exist.

In README.md, CONTRIBUTING.md and docs/*.md (but for docs/SCOPE.md, which is given, and docs/DESIGN-PASS.md, which names what went) these are looked up:

    crate::name             a function, struct, enum or constant of that crate's sources
    tablegoose_name         a word of callers/tablegoose.h, or a crate
    `crate/name.edit`       a must-fail edit of that crate
    `crate/specs/File.antt#name`, `crate/proofs/File.antt#name`
                            a definition, record or theorem of that file
    `some_name`             a definition, theorem, function, field or constant of the crates, a crate with or without its prefix, or a name of the callers' or the oracle's Rust
    `a/path`                a file or folder of the repository
A command `crates/NAME/out/NAME < FILE` that is shown with its output: FILE is what crates/NAME is run on, and the output what is stored there.
docs/CALLING.md's list of ops is compared with oracle/OPS and with its own section of ops.
"""
import glob
import os
import re
import sys

HEADER, OPS, CALLING = 'callers/tablegoose.h', 'oracle/OPS', 'docs/CALLING.md'
# what is said of ops that are described and do not exist
ALONE = 'An op that `oracle/OPS` does not list is answered by the oracle alone.'
# prefixes of `::` that are not crates of this repository: the oracle's library, the kit's crates, the Rust crate's module, and `crate` for any
OTHERS = {'oracle', 'check', 'io', 'libc', 'ffi', 'std', 'crate'}
# a method of the Rust, which is not here
NOT_OURS = {'replace_net'}
# folders of the Rust, and what a run makes
ELSEWHERE = ('memory/', 'netlist/', 'target/', 'crate/', 'crates/NAME', 'out/')
# a path that is said from within a crate
WITHIN = ('specs/', 'proofs/', 'src/', 'must-fail/', 'declared/')


class Here:
    """What the repository has. The tests make another one."""

    def __init__(self):
        self.crates = {name: '\n'.join(map(read, glob.glob(f'crates/{name}/src/*.rt'))) for name in os.listdir('crates')}
        specs = '\n'.join(map(read, glob.glob('crates/*/specs/**/*.antt', recursive=True)))
        proofs = '\n'.join(map(read, glob.glob('crates/*/proofs/**/*.antt', recursive=True)))
        rust = '\n'.join(map(read, glob.glob('callers/**/*.rs', recursive=True) + glob.glob('oracle/**/*.rs', recursive=True)))
        self.header = read(HEADER)
        self.names = set(re.findall(r'^\s*(?:(?:unfoldable|abbrev) )?(?:pub )?(\S+) :', specs + '\n' + proofs, re.M))
        self.names |= set(re.findall(r'\b(?:fn|struct|enum|const|mod) (\w+)', '\n'.join(self.crates.values())))
        self.names |= set(re.findall(r'\b(\w+):(?!:)', '\n'.join(self.crates.values())))
        self.names |= set(re.findall(r'\w+', rust)) | {part for name in self.crates for part in (name, name.partition('_')[2])}
        self.ops = [int(op) for op in read(OPS).split(',')]

    def text(self, path):
        return read(path) if os.path.isfile(path) else None

    def exists(self, path):
        return os.path.exists(path)

    def bytes(self, path):
        return open(path, 'rb').read() if os.path.isfile(path) else path


def read(path):
    return open(path, encoding='utf-8').read()


def rattle_fault(here, crate, name):
    if crate in OTHERS:
        return None
    if crate not in here.crates:
        return f'there is no crate {crate}'
    if not re.search(rf'\b(?:fn|struct|enum|const) {name}\b', here.crates[crate]):
        return f'{crate} has no {name}'
    return None


def antt_fault(here, crate, path, name):
    text = here.text(f'crates/{crate}/{path}')
    if text is None:
        return f'there is no crates/{crate}/{path}'
    if not re.search(rf'^\s*(?:(?:unfoldable |abbrev )?(?:pub )?{re.escape(name)} :|(?:abbrev )?pub (?:record|data) {re.escape(name)}\b)', text, re.M):
        return f'crates/{crate}/{path} has no {name}'
    return None


def token_fault(here, token):
    """What is wrong with a text in backticks, or None."""
    if token.startswith(ELSEWHERE):
        return None
    if re.fullmatch(r'[a-z]+[A-Z][A-Za-z0-9]*|[a-z][a-z0-9]*(?:_[a-z0-9]+)+', token) and not token.startswith('tablegoose_'):
        return None if token in here.names | NOT_OURS else f'nothing is called {token}'
    cited = re.fullmatch(r'([a-z_0-9]+)/((?:specs|proofs)/\S+\.antt)#(\S+)', token)
    if cited:
        return antt_fault(here, *cited.groups())
    edit = re.fullmatch(r'([a-z_0-9]+)/([a-z_0-9]+\.edit)', token)
    if edit:
        path = 'crates/{}/must-fail/{}'.format(*edit.groups())
        return None if here.exists(path) else f'there is no {path}'
    if re.fullmatch(r'[\w.-]+(?:/[\w.-]+)+/?', token) and '..' not in token and not token.startswith(WITHIN):
        return None if here.exists(token) or here.exists('crates/' + token) else f'there is no {token}'
    return None


def text_faults(here, path, text):
    """What the text of a document names that is not there."""
    for token in re.findall(r'`([^`\n]+)`', text):
        fault = token_fault(here, token)
        if fault:
            yield f'{path}: `{token}`: {fault}'
    for crate, name in re.findall(r'(?<![\w:])([a-z][a-z_0-9]*)::([a-zA-Z_0-9]+)\b(?!::)', text):
        fault = rattle_fault(here, crate, name)
        if fault:
            yield f'{path}: {crate}::{name}: {fault}'
    for name in re.findall(r'\btablegoose_[a-z_0-9]+\b(?!\.\.)', text):
        if not re.search(rf'\b{name}\b', here.header) and name not in here.crates and not name.endswith('_'):
            yield f'{path}: {name} is not in {HEADER}'


def listed(text):
    """The numbers of a list such as `1 to 6, 10, and 40`."""
    numbers = set()
    for first, last in re.findall(r'(\d+)(?: to (\d+))?', text):
        numbers |= set(range(int(first), int(last or first) + 1))
    return numbers


def ops_faults(here, text):
    """docs/CALLING.md: the ops that exist, and the section of ops."""
    section = text.partition('\n### Ops\n')[2].partition('\nNotes.\n')[0]
    described = {int(op) for op in re.findall(r'^    (\d+) +[a-z]', section, re.M)}
    exist = re.search(r'^Ops that exist so far: ([^.]*)\.', text, re.M)
    if not exist or listed(exist.group(1)) != set(here.ops):
        yield f'{CALLING}: the ops that exist are not those of {OPS}'
    if described - set(here.ops) and ALONE not in text:
        yield f'{CALLING}: {sorted(described - set(here.ops))} are described, and it is not said that the oracle alone answers them'
    if set(here.ops) - described:
        yield f'{CALLING}: ops that are not described: {sorted(set(here.ops) - described)}'


def shown_faults(here, path, text):
    """Commands with their output."""
    for name, given, output in re.findall(r'^    \$ [^\n]*crates/\w+/out/(\w+) < (\S+)[^\n]*\n((?:    [^$\n][^\n]*\n)+)', text, re.M):
        if here.bytes(given) != here.bytes(f'crates/{name}/stdin'):
            yield f'{path}: {given} is not what crates/{name} is run on'
        if re.sub('^    ', '', output, flags=re.M).encode() != here.bytes(f'crates/{name}/stdout'):
            yield f'{path}: the output of {name} is not the stored one'


def documents():
    return ['README.md', 'CONTRIBUTING.md', *sorted(set(glob.glob('docs/*.md')) - {'docs/SCOPE.md', 'docs/DESIGN-PASS.md'})]


def main():
    here = Here()
    faults = [fault for path in documents() for find in (text_faults, shown_faults) for fault in find(here, path, read(path))]
    faults += ops_faults(here, read(CALLING))
    for fault in dict.fromkeys(faults):
        print('docs:', fault)
    return 1 if faults else 0


if __name__ == '__main__':
    os.chdir(os.path.dirname(os.path.dirname(os.path.abspath(__file__))))
    sys.exit(main())
