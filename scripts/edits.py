#!/usr/bin/env python3
"""edits.py LOG: fails where a must-fail edit was refused for another reason than a fact that no longer holds.

`rt ci` counts an edit as soon as the prover refuses its crate, also where the edit only took away a name that a proof file has, or where the prover reached a
limit. LOG is what `rt ci` or `rt must-fail` printed: of each edit a line, with the first error or note that is more than a lost name. It must be a goal that is
not proved, or stand in a proof file and be one of the ways in which a fact is refused.
"""
import glob
import os
import re
import sys

LINE = re.compile(r'^rt: must-fail (\w+)/([\w.-]+)\.edit: (.*)$', re.M)
REFUSED = 'refused, as it must be'
PLACE = re.compile(r'^(?:\./)?(\S+?):\d+:\d+: error: (.*)')

# A goal of the code that no answer and no search proves.
GOAL = re.compile(r'^note: src/\S+:\d+:\d+: it is not proved that ')

# What the checker says where a proof file no longer fits the function, or the source is not taken.
SHAPE = re.compile(
    r'not in scope|no proof: expected|that can be named|takes only names|has no (?:field|function|module|`)|is not a function|'
    r'more than .* takes|was not admitted|not declared|unexpected|syntax|parse')

# What it says where a fact does not hold: another type than the goal's, two terms that differ, an arithmetic goal that fails, a rewriting that does not close.
FACT = re.compile(
    r'` ≟ `|the two (?:types|values|sides)|expected type|the goal does not follow|`omega`|`cc`|`search`|`grind`|'
    r'give a proof of that as the last argument|must be a path whose two ends are equal|`rw`|`simp`')


def said_fault(said):
    """Why an edit that was refused by this error or note does not count, or None where a fact was refused."""
    if GOAL.search(said):
        return None
    place = PLACE.match(said)
    if not place:
        return f'it was refused by no error at a place of a file: {said}'
    path, words = place.groups()
    if not path.startswith('proofs/'):
        return f'the first error is not in a proof: {path}: {words}'
    if SHAPE.search(re.sub('`[^`]*`', '`…`', words)):
        return f'the shape was refused, not a fact: {path}: {words}'
    if not FACT.search(words):
        return f'the first error is of no kind that scripts/edits.py knows: {path}: {words}'
    return None


def fault(told):
    """Why an edit of which the log says this does not count, or None where a fact was refused."""
    if not told.startswith(REFUSED):
        return told or 'the log says nothing of it'
    rest = told[len(REFUSED):]
    return said_fault(rest[2:]) if rest.startswith(': ') else f'it was refused{rest or " with no error"}'


def main(given):
    if len(given) != 1:
        sys.exit('usage: edits.py LOG')
    log = open(given[0], encoding='utf-8', errors='replace').read()
    told = {(crate, name): words for crate, name, words in LINE.findall(log)}
    failed, goals = 0, 0
    edits = sorted(glob.glob('crates/*/must-fail/*.edit'))
    for edit in edits:
        crate, label = edit.split('/')[1], os.path.basename(edit)[:-len('.edit')]
        words = told.get((crate, label), '')
        why = fault(words)
        goals += bool(GOAL.search(words[len(REFUSED) + 2:]))
        if why:
            print(f'edits: {crate}/{label}: {why}')
            failed += 1
    print(f'edits: {len(edits) - failed} of {len(edits)} refused at a fact: {len(edits) - failed - goals} in a proof file, {goals} at a goal that is left open')
    return 1 if failed or not edits else 0


if __name__ == '__main__':
    sys.exit(main(sys.argv[1:]))
