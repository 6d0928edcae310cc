#!/usr/bin/env python3
"""wrong_trial.py [TEXT]: makes each rule of scripts/wrong_trial.txt wrong, and fails where antt does not prove that a computed sentence is then false.

An entry is `refused by` the files of some sentences, each OpN of crates/rules_trial/proofs. Such a file says of its cases that they agree, `≡ true`. In a
copy with the wrong rule the files are made anew (scripts/sample.py), and these say `≡ false`, which must then be proved: a sentence that no longer
computes, or a rule that is no definition any more, counts for nothing. With TEXT only the entries whose comment has it are tried.
"""
import os
import re
import shutil
import subprocess
import sys
import tempfile
from concurrent.futures import ThreadPoolExecutor

from wrong import entries, make_wrong, wrong_text

LIST = 'scripts/wrong_trial.txt'
CRATES = ['lists', 'rules', 'rules_trial']
SENTENCE = re.compile(r'^(pub \S+ : .*) ≡ true$', re.M)


def make_base(root):
    """The three crates alone, with `lists` and what checks of `rules` kept."""
    lines = [line for line in open('crates.txt', encoding='utf-8') if line.split(':')[0] in CRATES]
    with open(os.path.join(root, 'crates.txt'), 'w', encoding='utf-8') as out:
        out.writelines(lines)
    for crate in CRATES:
        shutil.copytree(f'crates/{crate}', f'{root}/crates/{crate}', ignore=shutil.ignore_patterns('must-fail', 'out'))
    os.mkdir(f'{root}/scripts')
    for name in ('sample.py', 'sample.txt', 'sample_cases.txt'):
        shutil.copy(f'scripts/{name}', f'{root}/scripts')
    keep_only(f'{root}/crates/rules/proofs', [])
    said = rt(root, 'rules', 'lib')
    if said.returncode != 0:
        sys.exit('wrong_trial: lists and rules are not proved:\n' + said.stdout[-2000:])


def rt(root, crate, verb):
    """A run of rt in a crate's folder."""
    return subprocess.run(['rt', verb, '--jobs', '1'], cwd=f'{root}/crates/{crate}', stdout=subprocess.PIPE, stderr=subprocess.STDOUT, text=True)


def keep_only(folder, names):
    """Of a crate's proofs these files alone."""
    for other in os.listdir(folder):
        path = os.path.join(folder, other)
        if os.path.isdir(path):
            shutil.rmtree(path)
        elif other[:-5] not in names:
            os.remove(path)
    with open(f'{folder}/Lib.antt', 'w', encoding='utf-8') as out:
        out.write('-- The sentences that are tried.\n' + ''.join(f'pub mod {name}\n' for name in names))


def turn_round(path):
    """The file's sentence says `≡ false`."""
    text, times = SENTENCE.subn(r'\1 ≡ false', open(path, encoding='utf-8').read())
    if times != 1:
        sys.exit(f'wrong_trial: {os.path.basename(path)} has {times} sentences')
    with open(path, 'w', encoding='utf-8') as out:
        out.write(text.replace('Core.Bool.{true}', 'Core.Bool.{false}'))


def copy_of(base):
    """A copy, which takes from the base what was proved there."""
    root = tempfile.mkdtemp(prefix='entry.', dir=os.path.dirname(base))
    for name in ('crates', 'scripts'):
        shutil.copytree(f'{base}/{name}', f'{root}/{name}')
    shutil.copy2(f'{base}/crates.txt', root)
    return root


def tried(base, entry):
    """What is wrong with an entry; nothing where its sentences are proved false."""
    root = copy_of(base)
    try:
        make_wrong(root, entry)
        return tried_in(root, entry['by'].split())
    finally:
        shutil.rmtree(root)


def tried_in(root, names):
    made = subprocess.run([sys.executable, 'scripts/sample.py'], cwd=root, capture_output=True, text=True)
    if made.returncode != 0:
        return made.stderr
    keep_only(f'{root}/crates/rules/proofs', [])  # sample.py makes one of them
    keep_only(f'{root}/crates/rules_trial/proofs', names)
    for name in names:
        turn_round(f'{root}/crates/rules_trial/proofs/{name}.antt')
    said = rt(root, 'rules_trial', 'check')
    if said.returncode == 0 and re.search(r'^logic=proved ', said.stdout, re.M):
        return ''
    errors = [line for line in said.stdout.splitlines() if ' error: ' in line]
    return (errors[0] if errors else said.stdout[-500:])[:300]


def main():
    only = sys.argv[1] if len(sys.argv) > 1 else ''
    wrong = [e for e in entries(LIST) if only in e['comment']]
    for entry in wrong:
        wrong_text('.', entry)
    # the script itself: with no rule wrong a sentence is not false
    right = {'comment': 'no rule wrong', 'by': 'Op28', 'file': 'crates/rules/specs/Limits.antt', 'pairs': []}
    top = tempfile.mkdtemp(prefix='wrong_trial.')
    base = f'{top}/base'
    try:
        os.mkdir(base)
        make_base(base)
        with ThreadPoolExecutor(len(os.sched_getaffinity(0))) as pool:
            faults = pool.map(lambda e: tried(base, e), [right] + wrong)
            if 'error: `agreed`' not in next(faults):
                sys.exit('wrong_trial: a sentence is false, or not tried, with no rule wrong')
            failed = 0
            for entry, fault in zip(wrong, faults):
                failed += fault != ''
                print(f"wrong_trial: '{entry['comment']}': {'NOT ' if fault else ''}contradicted by {entry['by']} {fault}".rstrip(), flush=True)
        print(f'wrong_trial: {len(wrong) - failed} of {len(wrong)} wrong rules are contradicted')
        sys.exit(1 if failed else 0)
    finally:
        shutil.rmtree(top, ignore_errors=True)


main()
