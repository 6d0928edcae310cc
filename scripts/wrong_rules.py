#!/usr/bin/env python3
"""Makes each rule of scripts/wrong_rules.txt wrong in a copy of the project and fails where the crate that promises the call still proves.

The copy has no out/ folders, so what stands on the wrong rules is proved anew. A refusal counts only where a fact is refused (scripts/edits.py).
"""
import os
import re
import shutil
import subprocess
import sys
import tempfile

import edits
from wrong import entries, make_wrong

LIST = 'scripts/wrong_rules.txt'
# an error or a note at a place of a file, and one that only says that a proof file names what is not there
TOLD = re.compile(r'(?:note: \S+:\d+:\d+: |\S+:\d+:\d+: error)')
NAMES = re.compile(r'(?:note: )?(?:\./)?proofs/.*(?:has no field|is not in scope|has no `|was not admitted)')


def first_told(said):
    """The first error or note that is more than a lost name, as `rt ci` says it of a must-fail edit."""
    return next((line for line in said.splitlines() if TOLD.match(line) and not NAMES.match(line)), '')


def check(root, crate):
    """What `rt check` says in a crate's folder: the status, and the words of the crate itself, after those of the crates below."""
    done = subprocess.run(['rt', 'check'], cwd=f'{root}/crates/{crate}', stdout=subprocess.PIPE, stderr=subprocess.STDOUT, text=True)
    return done.returncode, done.stdout.split('rt: chose --jobs')[-1], done.stdout


def main():
    wrong = entries(LIST)
    root = tempfile.mkdtemp(prefix='wrong_rules.')
    try:
        shutil.copy('crates.txt', root)
        shutil.copytree('crates', os.path.join(root, 'crates'), ignore=shutil.ignore_patterns('out'))
        for entry in wrong:
            make_wrong(root, entry)
        status, _, said = check(root, 'rules')
        if status:
            sys.exit('wrong_rules: the rules themselves do not prove:\n' + said[-3000:])
        failed = 0
        for entry in wrong:
            crate = entry['by']
            status, own, said = check(root, crate)
            if status != 1 or not re.search(r'^logic=not-proved', own, re.M) or re.search(r'^rt: the library \w+ did not build', said, re.M):
                print(f"wrong_rules: '{entry['comment']}': {crate} was not refused: {said.strip().splitlines()[-1][:200]}")
                failed += 1
                continue
            told = first_told(own)
            why = edits.said_fault(told[:400])
            if why:
                print(f"wrong_rules: '{entry['comment']}': {crate}: {why[:200]}")
                failed += 1
                continue
            print(f"wrong_rules: '{entry['comment']}': refused by {crate}, first at {told.removeprefix('note: ').split(': ')[0]}")
        sys.exit(1 if failed else 0)
    finally:
        shutil.rmtree(root, ignore_errors=True)


main()
