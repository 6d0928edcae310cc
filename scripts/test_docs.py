#!/usr/bin/env python3
"""Tries docs.py on small texts: each name that is not there must be found, and each that is there must pass."""
import sys

sys.dont_write_bytecode = True
import docs  # noqa: E402


class Small:
    """A repository of one crate."""

    crates = {'net_logic': 'pub fn const_and(x: u32) {}\npub struct Part {}'}
    names = {'const_and', 'net_logic', 'logic'}
    header = 'uint32_t tablegoose_const_and(uint32_t x);'
    ops = [1, 2]
    files = {
        'crates/net_logic/specs/View.antt': 'unfoldable pub part_of : Part\npub record Held (a : Part) : Type 0 where\n  pub at : Part\nnamed : Part\n',
        'crates/net_logic/must-fail/not_x.edit': '',
        'docs/CALLING.md': '',
        'a.record': 'in', 'crates/lister/stdin': 'in', 'crates/lister/stdout': 'one\ntwo\n',
    }

    def text(self, path):
        return self.files.get(path)

    def exists(self, path):
        return path in self.files

    def bytes(self, path):
        return self.files[path].encode() if path in self.files else path


WRONG = [
    '`net_logic::const_xor`', 'net_logic::const_xor(a, b)', '`net_value::const_and`', '`net_logic::Whole`', '    net_logic::const_nand(out, a)',
    'tablegoose_const_or', '    tablegoose_const_andd(1);', '`const_or`', '`constAnd`', '`net_logic/one_x.edit`', '`net_value/not_x.edit`', '`docs/CALL.md`', '`crates/net_value`',
    '`net_logic/specs/View.antt#part`', '`net_logic/specs/Views.antt#part_of`', '`net_value/specs/View.antt#part_of`', '`net_logic/specs/View.antt#Hel`',
]
RIGHT = [
    '`net_logic::const_and`', 'net_logic::const_and(a, b)', '`net_logic::Part`', 'tablegoose_const_and(1)', '`const_and`', '`net_logic`', '`tablegoose_const_and`', '`net_logic/not_x.edit`', '`docs/CALLING.md`',
    '`net_logic/specs/View.antt#part_of`', '`net_logic/specs/View.antt#Held`', '`net_logic/specs/View.antt#named`', '`tablegoose_..`', '`a and b`', '`crate::name`', '`Cell::validate`',
]
CALLING = 'Ops that exist so far: {}.\n### Ops\n\n{}\n    1  const_not        in\n    2  const_and        in\n    29 lower_fallback   in\n\nNotes.\n'
WRONG_OPS = [('1', docs.ALONE), ('1 to 3', docs.ALONE), ('1 and 2', ''), ('1, 2 and 29', docs.ALONE)]

SHOWN = '    $ crates/lister/out/lister < {}   # words\n    {}\n    two\n\ntext\n'
WRONG_SHOWN = [('b.record', 'one'), ('a.record', 'on'), ('crates/lister/stdout', 'one')]


def main():
    here, failed = Small(), []
    failed += [f'not found: {text}' for text in WRONG if not list(docs.text_faults(here, 'a', text))]
    failed += [f'found, but right: {text}' for text in RIGHT if list(docs.text_faults(here, 'a', text))]
    failed += [f'not found: {given}' for given in WRONG_OPS if not list(docs.ops_faults(here, CALLING.format(*given)))]
    if list(docs.ops_faults(here, CALLING.format('1 and 2', docs.ALONE))):
        failed.append('found, but right: the ops')
    if not list(docs.ops_faults(here, CALLING.format('1 and 2', docs.ALONE).replace('    2  const_and', '    two'))):
        failed.append('not found: an op that is not described')
    failed += [f'not found: {given}' for given in WRONG_SHOWN if not list(docs.shown_faults(here, 'a', SHOWN.format(*given)))]
    if list(docs.shown_faults(here, 'a', SHOWN.format('a.record', 'one'))):
        failed.append('found, but right: the output')
    for fault in failed:
        print('test_docs:', fault)
    return 1 if failed else 0


if __name__ == '__main__':
    sys.exit(main())
