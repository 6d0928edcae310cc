#!/usr/bin/env python3
"""sample.py [--check | --oracle PROGRAM]: writes the sentences that antt proves by computing.

crates/rules_trial/proofs/: one file a call, with cases and one sentence: the rules give the Rust's own answers. The cases are those of scripts/sample.txt,
which is what `oracle sample` prints, and after them those of scripts/sample_cases.txt. A line is a case's words in decimal, ` = `, and the words of the
Rust's answer; 0*4096 is a word 4,096 times.
crates/rules/proofs/Starred.antt: the starred examples hold.
A sentence names every definition that is unfolded on the way: this script finds them.
With --check nothing is written: the script fails where a file that it makes differs from the committed one. With --oracle it asks the oracle, and fails
where its sample, or its answer to a case, is another one.
"""
import glob
import itertools
import os
import re
import struct
import subprocess
import sys

SPECS = sorted(p for c in ('lists', 'rules', 'rules_trial') for p in glob.glob(f'crates/{c}/specs/**/*.antt', recursive=True))
PROOFS = 'crates/rules_trial/proofs'
STARRED = 'crates/rules/proofs/Starred.antt'
SAMPLE = 'scripts/sample.txt'
ADDED = 'scripts/sample_cases.txt'
# so many equal words and more are not written out
MANY = 16


def module_of(path):
    """A spec file's module."""
    parts = path[:-5].split('/')
    return f'Rattle.{parts[1]}.specs.{".".join(parts[3:])}'


def definitions():
    """Each definition: its file, its kind, and the words of its body. A name that stands for two things is an error, but for the two `do`s."""
    found = {}
    for path in SPECS:
        text = re.sub(r'--[^\n]*', '', open(path, encoding='utf-8').read())
        parts = re.split(r'^\s*(abbrev|unfoldable) pub (\S+) :', text, flags=re.M)
        for kind, what, body in zip(parts[1::3], parts[2::3], parts[3::3]):
            words = set(re.findall(r"[^\s(){}\[\],;.|]+", body))
            if what in found and what != '◌>>=◌':
                sys.exit(f'sample: {what} stands in {found[what][0]} and in {path}')
            found.setdefault(what, (path, kind, words))
    return found


def reached(start, table):
    """The unfoldable names that a definition reaches, in the order of the spec files."""
    seen, todo = set(), [start]
    operators = {n.strip('◌'): n for n in table if '◌' in n}
    while todo:
        name = todo.pop()
        if name in seen:
            continue
        seen.add(name)
        for word in table[name][2]:
            for other in (word, operators.get(word), operators.get('>>=') if word == 'do' else None):
                if other in table and other not in seen:
                    todo.append(other)
    return [n for n in table if n in seen and table[n][1] == 'unfoldable']


def uses(names, table):
    """The `use` lines of some names."""
    groups = {}
    for name in names:
        groups.setdefault(module_of(table[name][0]), []).append(name)
    return groups


def numerals(words):
    """The words as a list; so many equal ones are a `replicate`."""
    text = ''
    for word, group in itertools.groupby(words):
        n = len(list(group))
        text += f'replicate {n} {word} ++ ' if n >= MANY else f'{word} ∷ ' * n
    return text + '[]'


def words_of(text):
    """The words of one side of a line."""
    words = []
    for part in text.split():
        word, _, times = part.partition('*')
        words += [word] * int(times or 1)
    return words


def trial_text(op, cases, table):
    names = list(dict.fromkeys(reached(f'op{op}', table) + ['agrees', 'agree']))
    groups = uses(names, table)
    groups.setdefault('Rattle.rules_trial.specs.Wire', []).extend(['Case', 'case'])
    lines = [f'-- Calls {op} of the call format, which the rules answer as the Rust does. Made by scripts/sample.py.']
    lines += ['use Prim.Native.Nat.{ℕ}', 'use mathlib.Core.Path.{◌≡◌, refl}', 'use mathlib.Core.Bool.{true}']
    shown = [f'    case ({numerals(given)}) ({numerals(answer)})\n    ∷' for given, answer in cases]
    many = any('replicate' in one for one in shown)
    lines += ['use mathlib.Core.List.{List, [], ◌∷◌, ◌++◌}', 'use lib.ListN.{replicate}'] if many else ['use mathlib.Core.List.{List, [], ◌∷◌}']
    lines += [f'use {module}.{{{", ".join(group)}}}' for module, group in groups.items()]
    lines += ['', 'abbrev pub cases : List Case', 'cases ='] + shown + ['    []']
    binds = 'Rattle.rules_trial.specs.Read.◌>>=◌'
    lines += ['', f'pub agreed : agree op{op} cases ≡ true', 'unfolding ' + ' '.join(names + [binds]), 'agreed = refl', '']
    return '\n'.join(lines)


def starred_text(table):
    table = {n: d for n, d in table.items() if '/rules_trial/' not in d[0]}
    names = list(dict.fromkeys(reached('holds', table) + ['all_hold', 'starred']))
    lines = ['-- The starred examples hold, all of them: one sentence, which antt computes. Made by scripts/sample.py.']
    lines += ['use mathlib.Core.Path.{◌≡◌, refl}', 'use mathlib.Core.Bool.{true}']
    lines += [f'use {module}.{{{", ".join(group)}}}' for module, group in uses(names, table).items()]
    lines += ['', 'pub starred_hold : all_hold starred ≡ true', 'unfolding ' + ' '.join(names), 'starred_hold = refl', '']
    return '\n'.join(lines)


def cases_of(path):
    """The cases of a text, in order."""
    cases = []
    for line in open(path, encoding='utf-8'):
        line = line.split('#')[0].strip()
        if line:
            given, answer = line.split('=')
            cases.append((words_of(given), words_of(answer)))
    return cases


def made():
    """Each file that this script makes, with its text."""
    table = definitions()
    by_op = {}
    for case in cases_of(SAMPLE) + cases_of(ADDED):
        by_op.setdefault(int(case[0][0]), []).append(case)
    files = {f'{PROOFS}/Op{op}.antt': trial_text(op, cases, table) for op, cases in by_op.items()}
    head = "-- A sample of calls on which the rules give the Rust's own answers: one sentence for each call of the format.\n"
    files[f'{PROOFS}/Lib.antt'] = head + ''.join(f'pub mod Op{op}\n' for op in sorted(by_op))
    files[STARRED] = starred_text(table)
    return files


def stands(path, text):
    return os.path.exists(path) and open(path, encoding='utf-8').read() == text


def asked(oracle):
    """Fails where the oracle's sample or its answers are others than the texts'."""
    if subprocess.run([oracle, 'sample'], capture_output=True, check=True).stdout != open(SAMPLE, 'rb').read():
        sys.exit(f'sample: {SAMPLE} is not what the oracle prints')
    cases = cases_of(ADDED)
    numbers = [int(word) for given, _ in cases for word in given]
    answers = subprocess.run([oracle, 'answer'], input=struct.pack(f'<{len(numbers)}I', *numbers), capture_output=True, check=True).stdout
    told = [int(word) for _, answer in cases for word in answer]
    if answers != struct.pack(f'<{len(told)}I', *told):
        sys.exit(f'sample: {ADDED} has an answer that is not the oracle\'s')


def main():
    if sys.argv[1:2] == ['--oracle']:
        return asked(sys.argv[2])
    files = made()
    others = [p for p in glob.glob(f'{PROOFS}/Op*.antt') if p not in files]
    if sys.argv[1:] == ['--check']:
        differ = others + [p for p, text in files.items() if not stands(p, text)]
        if differ:
            sys.exit('sample: not as this script makes them: ' + ' '.join(differ))
        return
    for path in others:
        os.remove(path)
    for path, text in files.items():
        with open(path, 'w', encoding='utf-8') as out:
            out.write(text)


main()
