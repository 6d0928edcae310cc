#!/usr/bin/env python3
"""exports.py [--check | --only CRATE ..]: writes the crate tablegoose_c, the static library for callers in C and Rust, from the sources of the crates c_.

A crate is a library or a static library, and not both. So the functions `tablegoose_..` of the crates c_, which use one another, are those of libraries, and
crates/tablegoose_c has for each of them one exported function of the same name, parameters and clauses, which only calls it. A file of it stands for a file
of theirs. The line of tablegoose_c in crates.txt is checked too: it lists what its files cite.
With --check nothing is written: the script fails where a file of the crate is not as it makes it, or the line lists other crates.
"""
import os
import re
import subprocess
import sys
import tempfile

MADE = 'tablegoose_c'
SRC = f'crates/{MADE}/src'
FUNCTION = re.compile(r'^pub fn (tablegoose_\w+)(<[^>(]*>)?\((.*?)\)( -> [\w:]+)?\n(.*?)^\{\n', re.M | re.S)
GHOST = re.compile(r'^ghost use ([\w.]+)\.\{([^}]*)\};', re.M)
USE = re.compile(r'^(?:pub )?use ([\w:]+)::(?:\{([^}]*)\}|(\w+));', re.M)
STRUCT = re.compile(r'^pub struct (\w+)', re.M)
# what is not of the repository, and stands in no line of crates.txt
OF_KIT = {'std', 'core'}


def read(path):
    with open(path, encoding='utf-8') as it:
        return it.read()


def listed():
    """The crates of crates.txt with what each uses, in order; a static library without the word."""
    lines = (line.split('#')[0].strip() for line in read('crates.txt').split('\n'))
    pairs = (line.partition(':') for line in lines if line)
    return {name.split()[0]: uses.split() for name, _, uses in pairs}


def sources(crate):
    """The files of a crate that has exported functions: the module's name, '' for the root, and its text, in the order of the root's `mod` lines."""
    root = read(f'crates/{crate}/src/lib.rt')
    files = [('', root)]
    files += [(name, read(f'crates/{crate}/src/{name}.rt')) for name in re.findall(r'^(?:pub )?mod (\w+);', root, re.M)]
    return [(name, text) for name, text in files if FUNCTION.search(text)]


def types_of(crate, text):
    """Where each type that a file names by one word comes from, by its path."""
    found = {name: f'{crate}::{name}' for name in STRUCT.findall(text)}
    for path, many, one in USE.findall(text):
        path = re.sub(r'^crate\b', crate, path)
        found.update({name.strip(): f'{path}::{name.strip()}' for name in (many or one).split(',') if name.strip()})
    return found


def words(clauses):
    """The words of clauses, but for those after a dot."""
    return {word for word in re.findall(r'(?<![.\w])[^\s(){}\[\],;.]+|\[\]', clauses)}


def is_used(name, found):
    """Whether an imported name stands among the words: of an operator each of its parts."""
    return all(part in found for part in name.split('◌') if part)


def uses_of(crate, text):
    """The `ghost use` and `use` lines of a file of the static library."""
    heads = list(FUNCTION.finditer(text))
    found = words(' '.join(m[5] for m in heads))
    lines = []
    for module, names in GHOST.findall(text):
        taken = [name.strip() for name in names.split(',') if is_used(name.strip(), found)]
        lines += [f'ghost use {module}.{{{", ".join(taken)}}};'] if taken else []
    kinds = {name for m in heads for name in re.findall(r'(?<![\w:])[A-Z]\w*', m[3] + (m[4] or ''))}
    known = types_of(crate, text)
    lacking = sorted(kinds - set(known))
    if lacking:
        sys.exit(f'exports: {crate}: where {", ".join(lacking)} comes from is not known')
    groups = {}
    for path in sorted(known[name] for name in kinds):
        groups.setdefault(path.rpartition('::')[0], []).append(path.rpartition('::')[2])
    shown = [f'use {path}::{names[0]};' if len(names) == 1 else f'use {path}::{{{", ".join(names)}}};' for path, names in sorted(groups.items())]
    return '\n'.join(lines) + '\n\n' + ''.join(line + '\n' for line in shown) + ('\n' if shown else '')


def exported(path, function):
    """One exported function, which calls the library's."""
    name, lifetimes, given, result, clauses = function.groups()
    names = re.findall(r'(?:^|,)\s*(\w+):', re.sub(r'<[^>]*>', '', given))
    call = f'{path}::{name}({", ".join(names)})'
    return f'#[unsafe(no_mangle)]\npub extern "C" fn {name}{lifetimes or ""}({given}){result or ""}\n{clauses}{{\n    {call}{"" if result else ";"}\n}}\n'


def module_of(crate, name):
    return '_'.join([crate.removeprefix('c_')] + ([name] if name else [])) + '_calls'


def those():
    """The crates c_."""
    return [name for name in listed() if name.startswith('c_')]


def made(crates):
    """Each file of the static library, before it is laid out, and the names of its functions."""
    files, functions = {}, []
    for crate in crates:
        for name, text in sources(crate):
            path = f'{crate}::{name}' if name else crate
            of = f'`{name}` of ' if name else ''
            found = list(FUNCTION.finditer(text))
            functions += [m[1] for m in found]
            head = f'// The exported functions of {of}{crate}. Made by scripts/exports.py.\n' + uses_of(crate, text)
            files[module_of(crate, name)] = head + '\n'.join(exported(path, m) for m in found)
    mods = ''.join(f'pub mod {name};\n' for name in sorted(files))
    files['lib'] = ('// The static library for callers in C and Rust: each function has the name, the parameters and the clauses of one of the crates c_,\n'
                    f'// and only calls it. Made by scripts/exports.py.\n#![tactic(auto)]\n\n{mods}')
    return files, functions


def laid_out(files):
    """The files in the formatter's layout."""
    with tempfile.TemporaryDirectory() as folder:
        os.makedirs(f'{folder}/src')
        for name, text in files.items():
            with open(f'{folder}/src/{name}.rt', 'w', encoding='utf-8') as out:
                out.write(text)
        said = subprocess.run(['rt', 'fmt'], cwd=folder, capture_output=True, text=True)
        if said.returncode:
            sys.exit('exports: rt fmt refuses what is made:\n' + said.stdout + said.stderr)
        return {f'{SRC}/{name}.rt': read(f'{folder}/src/{name}.rt') for name in files}


def cited(files):
    """The crates of the repository that the files cite."""
    text = '\n'.join(files.values())
    names = set(re.findall(r'\bRattle\.(\w+)\.', text)) | set(re.findall(r'^use (\w+)::', text, re.M)) | set(re.findall(r'\b(c_[a-z]+)::', text))
    return sorted(names - OF_KIT - {MADE})


def line_of(files):
    return f'{MADE} staticlib: {" ".join(cited(files))}'


def faults(files, functions):
    """What is not as this script makes it."""
    declared = [name for crate in those() for name in re.findall(r'\bfn (tablegoose_\w+)', '\n'.join(
        read(os.path.join(at, name)) for at, _, names in os.walk(f'crates/{crate}/src') for name in names))]
    yield from (f'{name} has no exported function' for name in sorted(set(declared) - set(functions)))
    yield from (f'{name} stands {declared.count(name)} times' for name in sorted(set(declared)) if declared.count(name) != 1)
    there = {os.path.join(SRC, name) for name in os.listdir(SRC)} if os.path.isdir(SRC) else set()
    yield from (f'{path} is made by no crate' for path in sorted(there - set(files)))
    yield from (f'{path} is not as scripts/exports.py makes it' for path, text in sorted(files.items()) if path not in there or read(path) != text)
    if line_of(files) not in read('crates.txt').split('\n'):
        yield f'crates.txt has not the line {line_of(files)}'


def main(given):
    raw, functions = made(given[1:] if given[:1] == ['--only'] else those())
    files = laid_out(raw)
    if given != ['--check']:
        lines = read('crates.txt')
        line = re.compile(rf'^{MADE} .*$', re.M)
        lines = line.sub(line_of(files), lines) if line.search(lines) else lines + '\n' + line_of(files) + '\n'
        with open('crates.txt', 'w', encoding='utf-8') as out:
            out.write(lines)
        os.makedirs(SRC, exist_ok=True)
        for name in os.listdir(SRC):
            if os.path.join(SRC, name) not in files:
                os.remove(os.path.join(SRC, name))
        for path, text in files.items():
            with open(path, 'w', encoding='utf-8') as out:
                out.write(text)
    found = list(faults(files, functions))
    for fault in found:
        print('exports:', fault)
    print(f'exports: {len(functions)} functions')
    return 1 if found or not functions else 0


if __name__ == '__main__':
    os.chdir(os.path.dirname(os.path.dirname(os.path.abspath(__file__))))
    sys.exit(main(sys.argv[1:]))
