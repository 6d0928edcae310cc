#!/usr/bin/env python3
"""Tries cases.py on wrong cases, wrong documents and wrong answers: each must be found."""
import sys

sys.dont_write_bytecode = True
import cases  # noqa: E402

# A line of a list of cases, and a part of what must be said of it.
LINES = [
    ('4: 4 3 1 3 = 4 0', 'length word of the case'),
    ('4: 4 2 1 3 = 4', 'length word of the answer'),
    ('4: 4 2 1 3 = 4 1', 'length word of the answer'),
    ('4: 4 2 1 3 = 4 0\n4: 5 2 1 0 = 4 0', '4 stands twice'),
]
# The same, by its name.
NAMES = [
    ('3: 4 2 1 3 = 4 0', '3: the answer is'),
    ('bad: 4 2 1 3 = 4 0', 'bad: the answer is'),
    ('15: 40 17 1 1 1 1 0 1 0 0 0 0 0 1 1 1 1 1 0 = 0 4 1 4 1 0', '15: the answer is'),
    ('4-only: 4 2 1 3 = 4 0', 'no case is called 4'),
]
GOOD = '4: 4 2 1 3 = 4 0'
# A document beside the case of number 4.
NUMBERS_DOC = ['| 4 | a trit | `4 2 1 2` |', '| 5 | a trit | `4 2 1 3` |', '']
ROW = 'bad-trit: 4 2 1 3 = 4 0 | none'
HEAD = '| difference | cases |\n|---|---|\n'
DIFFERENCES_DOC = [HEAD + '| codes | none |', HEAD + '| codes | `other` |', HEAD, HEAD + '| codes | `bad-trit` |\n| more | a text |']
# Answers to the case of number 4.
ANSWERS = [[], [[2, 0]], [[4, 1, 0]], [[4, 0], [4, 0]]]


def says(faults, want):
    return any(want in fault for fault in faults)


def main():
    failed = []
    for text, want in LINES:
        if not says(cases.text_faults(cases.cases_of(text), False), want):
            failed.append(f'not found: {want}: {text}')
    if not says(cases.text_faults(cases.cases_of(GOOD), True), 'the Rust'):
        failed.append('a difference that does not say what the Rust does')
    for text, want in NAMES:
        if not says(cases.name_faults(cases.cases_of(text)), want):
            failed.append(f'not found: {want}: {text}')
    case, row = cases.cases_of(GOOD), cases.cases_of(ROW)
    for text in NUMBERS_DOC:
        if not list(cases.numbers_doc_faults(text, case)):
            failed.append(f'not found: {text}')
    for text in DIFFERENCES_DOC:
        if not list(cases.differences_doc_faults(text, row)):
            failed.append(f'not found: {text}')
    for answers in ANSWERS:
        if not list(cases.answer_faults(case, [case[0].answer], answers)):
            failed.append(f'not found: {answers}')
    if not says(cases.run_faults(case, []), 'no case of number 4') or says(cases.run_faults(case, case), 'no case of number 4'):
        failed.append('a number of which no case is run')
    # What is right must pass.
    right = [*cases.text_faults(case + row, False), *cases.text_faults(row, True), *cases.answer_faults(case, [[4, 0]], [[4, 0]])]
    right += [*cases.numbers_doc_faults('| 4 | a trit | `4 2 1 3` |', case), *cases.differences_doc_faults(HEAD + '| codes | `bad-trit` |', row)]
    failed += [f'found, but right: {fault}' for fault in right]
    # A program that answers each case by two zeros, and one that says nothing.
    for program in ('import sys; sys.stdout.buffer.write(bytes(8))', 'pass'):
        answers = cases.ask([sys.executable, '-c', program], case)
        if not list(cases.answer_faults(case, [case[0].answer], answers)):
            failed.append(f'not found: {program}')
    for fault in failed:
        print('test_cases:', fault)
    return 1 if failed else 0


if __name__ == '__main__':
    sys.exit(main())
