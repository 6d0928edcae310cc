#!/usr/bin/env python3
"""times.py LOG: writes the check's time into docs/PERFORMANCE.md, from the output of a whole run of .ci/run.

What the whole gate took, and how much of it `rt ci` did in that run. The part of the document between its heading '## Times of the check' and the next
heading is made anew.
"""
import os
import re
import sys

DOCUMENT = 'docs/PERFORMANCE.md'
HEADING = '## Times of the check'
WHOLE = re.compile(r'^gate: all checks passed in (.*)$', re.M)
SHARE = re.compile(r'^rt: ok; .*; (?:done in this run: (.*?); the others are kept|(every proof and must-fail edit))', re.M)


def section(log):
    """The text of the section."""
    whole, share = WHOLE.search(log), SHARE.search(log)
    if not whole or not share:
        sys.exit('times: this is not the output of a whole run of .ci/run')
    last = log.strip().splitlines()[-1]
    return (f'{HEADING}\n\nOne run of `.ci/run` on {len(os.sched_getaffinity(0))} processors: {whole.group(1)}. `rt ci` did in it: {share.group(1) or share.group(2)}; {last}.\n'
            '`scripts/times.py` writes this section anew from the output of a run.\n')


def main():
    made = section(open(sys.argv[1], encoding='utf-8', errors='replace').read())
    text = open(DOCUMENT, encoding='utf-8').read()
    before, _, rest = text.partition(HEADING + '\n')
    after = re.search(r'^## ', rest, re.M)
    tail = '\n' + rest[after.start():] if after else ''
    with open(DOCUMENT, 'w', encoding='utf-8') as out:
        out.write(before.rstrip('\n') + '\n\n' + made + tail)


main()
