#!/usr/bin/env python3
"""Runs the cases of docs/numbers.cases and docs/differences.cases and compares each whole answer.

    python3 scripts/cases.py [PROGRAM [ARG..]]     the driver (target/callers/release/answer), or another program that answers cases
    python3 scripts/cases.py --oracle PROGRAM      the oracle: every op, and what the Rust alone does with the cases of docs/differences.cases

Before that it holds the two texts to their documents: docs/NUMBERS.md shows the case that is called by the number alone, docs/DIFFERENCES.md names each
case in a row, and each row names one. A case of an op that oracle/OPS does not list is left out, and the last line counts it. A number of which no case is run fails.
"""
import os
import re
import struct
import subprocess
import sys

NUMBERS, NUMBERS_DOC = 'docs/numbers.cases', 'docs/NUMBERS.md'
DIFFERENCES, DIFFERENCES_DOC = 'docs/differences.cases', 'docs/DIFFERENCES.md'
DRIVER = 'target/callers/release/answer'
ALL = [n for n in range(1, 24) if n != 19]
# the ops whose answers carry the numbers of patches
PATCHING = (27, 30, 40)
# what the Rust does where it gives no result, by the words of `oracle alone`
WITHOUT = {'panics': [0xFFFFFFFD, 0], 'endless': [0xFFFFFFFC, 0]}


def words_of(text):
    """0*257 is a word 257 times."""
    words = []
    for part in text.split():
        word, _, times = part.partition('*')
        words += [int(word)] * int(times or 1)
    return words


class Case:
    """NAME: case = answer, and in the list of differences | what the Rust does."""

    def __init__(self, line):
        self.name, _, rest = (part.strip() for part in line.partition(':'))
        self.text, _, told = (part.strip() for part in rest.partition('='))
        answer, _, self.rust = (part.strip() for part in told.partition('|'))
        self.words, self.answer = words_of(self.text), words_of(answer)


def cases_of(text):
    return [Case(line) for line in (line.split('#')[0].strip() for line in text.split('\n')) if line]


def text_faults(cases, rust):
    """What is wrong with the cases of one text."""
    names = [case.name for case in cases]
    for name in sorted({name for name in names if names.count(name) > 1}):
        yield f'{name} stands twice'
    for case in cases:
        for what, words in (('case', case.words), ('answer', case.answer)):
            if len(words) < 2 or words[1] != len(words) - 2:
                yield f'{case.name}: the length word of the {what} is not true'
        if rust and not case.rust:
            yield f'{case.name}: what the Rust does is not said'


def name_faults(cases):
    """Where a name's number is not the answer's, and numbers without a case."""
    for case in cases:
        number = re.match(r'\d+', case.name)
        given = case.answer[:1]
        if case.words[0] in PATCHING and given == [0]:
            given = case.answer[2:]
        if not number or int(number.group()) not in given:
            yield f'{case.name}: the answer is {case.answer[:1]}'
    for number in ALL:
        if str(number) not in (case.name for case in cases):
            yield f'no case is called {number}'


def rows_of(text):
    """The rows of the tables of a document, each as its cells."""
    for line in text.split('\n'):
        if line.startswith('|') and not re.match(r'\|[-|]*$', line):
            yield [cell.strip() for cell in line.strip('|').split(' | ')]


def numbers_doc_faults(text, cases):
    """The document has a row for each number, which shows its case."""
    shown = {row[0]: row[-1] for row in rows_of(text)}
    for case in cases:
        if case.name.isdigit() and shown.get(case.name) != f'`{case.text}`':
            yield f'{NUMBERS_DOC}: the row of {case.name} does not show `{case.text}`'


def differences_doc_faults(text, cases):
    """Each row names cases in its last cell, and each case is named."""
    rows = list(rows_of(text))[1:]
    names = {case.name for case in cases}
    named = set()
    for row in rows:
        here = set(re.findall(r'`([^`]+)`', row[-1]))
        if not here or here - names:
            yield f'{DIFFERENCES_DOC}: the row "{row[0][:60]}" names no case, or one that is not there: {sorted(here - names)}'
        named |= here
    for name in sorted(names - named):
        yield f'{DIFFERENCES_DOC}: no row names {name}'


def ask(command, cases):
    """The answers of a program, each as its words."""
    data = b''.join(struct.pack(f'<{len(case.words)}I', *case.words) for case in cases)
    try:
        said = subprocess.run(command, input=data, stdout=subprocess.PIPE, check=True).stdout
    except (OSError, subprocess.CalledProcessError) as error:
        sys.exit(f'cases: {error}')
    words = struct.unpack(f'<{len(said) // 4}I', said)
    answers, at = [], 0
    while at + 1 < len(words):
        end = at + 2 + words[at + 1]
        answers.append(list(words[at:end]))
        at = end
    return answers


def shown(words):
    return ' '.join(map(str, words[:12])) + (' ..' if len(words) > 12 else '')


def answer_faults(cases, wanted, answers):
    if len(answers) != len(cases):
        yield f'{len(answers)} answers to {len(cases)} cases'
    for case, want, answer in zip(cases, wanted, answers):
        if want != answer:
            yield f'{case.name}: {shown(answer)} instead of {shown(want)}'


def run_faults(numbers, run):
    """Numbers of which no case is run."""
    for number in ALL:
        if not any(re.match(r'\d+', case.name).group() == str(number) for case in numbers if case in run):
            yield f'no case of number {number} is run'


def rust_words(case):
    """What `oracle alone` must say, or None where the Rust has no such call or value."""
    if case.rust == 'none':
        return None
    return case.answer if case.rust == 'same' else WITHOUT.get(case.rust) or words_of(case.rust)


def read(path):
    return open(path, encoding='utf-8').read()


def main(given):
    numbers, differences = cases_of(read(NUMBERS)), cases_of(read(DIFFERENCES))
    cases = numbers + differences
    faults = [*text_faults(numbers, False), *text_faults(differences, True), *name_faults(numbers)]
    faults += [*numbers_doc_faults(read(NUMBERS_DOC), numbers), *differences_doc_faults(read(DIFFERENCES_DOC), differences)]
    if not faults:
        if given[:1] == ['--oracle']:
            run = cases
            asked = [case for case in differences if rust_words(case) is not None]
            faults += answer_faults(cases, [case.answer for case in cases], ask([given[1], 'answer'], cases))
            faults += answer_faults(asked, [rust_words(case) for case in asked], ask([given[1], 'alone'], asked))
        else:
            ops = [int(op) for op in read('oracle/OPS').split(',')]
            run = [case for case in cases if case.words[0] in ops]
            faults += run_faults(numbers, run)
            faults += answer_faults(run, [case.answer for case in run], ask(given or [DRIVER], run))
        left = sorted({case.words[0] for case in cases if case not in run})
        print(f'cases: {len(run)} cases answered' + (f'; {len(cases) - len(run)} left out, of the ops {left}' if left else ''))
    for fault in faults:
        print('cases:', fault)
    return 1 if faults else 0


if __name__ == '__main__':
    os.chdir(os.path.dirname(os.path.dirname(os.path.abspath(__file__))))
    sys.exit(main(sys.argv[1:]))
