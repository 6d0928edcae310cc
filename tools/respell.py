#!/usr/bin/env python3
"""Spells the repository's own definitions, lemmas, fields and constructors in snake case, as today's Rattle does: `swizzleCall` is `swizzle_call`, `part-refused` is
`part_refused`, and a dash stays where it joins two names, as in `length-drop_runs`. Types, facts and modules keep their capitals.

usage: respell.py plan      reads crates/ and writes the table tools/respelled.tsv (old, new)
       respell.py crates    turns crates/ by the table: antt files, and the clauses and `ghost use` lines of .rt files
       respell.py text F..  turns whole words of the files F by the table

A new spelling that another name of the repository, a name of the library that is imported here, or a name of src/ has already, gets `_of` at its end, or for a
lemma keeps its dashes."""
import collections
import glob
import os
import re
import sys

TOP = os.path.dirname(os.path.dirname(os.path.abspath(__file__)))
TABLE = os.path.join(TOP, 'tools', 'respelled.tsv')
W = r'[^\s(){}.;,@"«»]'
WORD = re.compile(W + '+')
HEAD = re.compile(r'^( *)((?:(?:pub|abbrev|unfoldable|private) )*)((?:data|record) )?(' + W + r'+(?: ' + W + r'+)*?)((?: [({][^=]*?[)}])*) : ')
NOT = {'let', 'λ', 'elim', 'use', 'module', 'open', 'in', 'do', 'unfolding', 'with', '|', '→', 'rw', 'infix', 'infixl', 'infixr', 'ruleset', '--'}


def antt_files():
    return sorted(f for f in glob.glob(os.path.join(TOP, 'crates', '*', '*', '**', '*.antt'), recursive=True) if '/out/' not in f)


def rt_files():
    return sorted(f for f in glob.glob(os.path.join(TOP, 'crates', '*', 'src', '**', '*.rt'), recursive=True))


def read(f):
    with open(f, encoding='utf-8') as it:
        return it.read()


def declared(text):
    """(name, kind) for each declaration: kind is 'type', 'value' or 'field'."""
    kind_of = []
    inside = None
    for line in text.split('\n'):
        if line.lstrip().startswith('--') or not line.strip():
            continue
        m = HEAD.match(line)
        indent = len(line) - len(line.lstrip())
        if inside is not None and indent <= inside[0]:
            inside = None
        if not m:
            continue
        words = m.group(4).split()
        if words[0] in NOT or any(w.startswith(('→', '≡')) for w in words):
            continue
        if '=' in words or ':' in words:
            continue
        if m.group(3):
            kind_of += [(w, 'type') for w in words]
            inside = (indent, m.group(3).strip())
        elif inside is not None:
            kind_of += [(w, 'field' if inside[1] == 'record' else 'constructor') for w in words]
        else:
            kind_of += [(w, 'value') for w in words]
    return kind_of


def snake(word):
    word = re.sub(r'(?<=[a-z0-9])([A-Z]+)(?=[A-Z][a-z]|[^A-Za-z]|$)', lambda m: '_' + m.group(1).lower(), word)
    return re.sub(r'(?<=[a-z0-9])([A-Z])', lambda m: '_' + m.group(1).lower(), word)


def main_spelling(word, names):
    """The new spelling, before clashes are looked at."""
    if word[0].isupper() and '-' not in word:
        return word
    if not re.search(r'[a-z0-9][A-Z]|-', word) or not re.match(r'[A-Za-z]', word):
        return word
    parts = [p for p in re.split('-', word)]
    if any(not p for p in parts):
        return word
    parts = [p if p[0].isupper() else snake(p) for p in parts]
    out = parts[0]
    for p in parts[1:]:
        dash = (p in names or p[0].isupper()) and (out.split('-')[-1] in names or out.split('-')[-1][0].isupper()) and not p.isdigit()
        out += ('-' if dash else '_') + p
    return out


def plan():
    decl = collections.defaultdict(set)
    values = set()
    for f in antt_files():
        text = read(f)
        if f.endswith('/Proof.antt'):
            # its answers, which turn_walks.py names anew
            made = re.findall(r'(?m)^(?:abbrev |pub )*(' + W + r'+) : (?:tie\.(?:Need|inv|dec)|\{M : Type 1\})', text)
            text = '\n'.join(l for l in text.split('\n') if not any(l.startswith(p + x + ' : ') for x in made for p in ('', 'pub ', 'abbrev ')))
        for w, k in declared(text):
            decl[w].add((k, '/specs/' in f))
    for w, ks in decl.items():
        if any(s and k == 'value' for k, s in ks):
            values.add(w)
    names = {snake(w) for w in values if '-' not in w}
    src = set()
    for f in rt_files():
        text = re.sub(r'//[^\n]*', '', read(f))
        src |= set(re.findall(r'\b([a-z_][a-z0-9_]*)\s*:(?!:)(?! \{)', text))
    std = set()
    beside = collections.defaultdict(list)
    for f in antt_files():
        t = read(f)
        for m in re.finditer(r'(?m)^use ([^\s{]+)\.\{([^}]*)\}', t):
            if not m.group(1).startswith('Rattle.') or re.match(r'Rattle\.(std|core|libc|io)\b', m.group(1)):
                std |= set(x.strip() for x in m.group(2).split(','))
        t = re.sub(r'(?m)--.*$', '', t)
        t = re.sub(r'(?m)^((?:pub )?use )[^\s{]+', '', t)
        t = re.sub(r'(?<=[{;] )' + W + '+ (?==)', '', t)
        bare = set(re.findall(r'(?<![^\s(){};,@«»])' + W + '+', t))
        for w in bare & set(decl):
            beside[w].append(bare)
    rows, taken, clashes = {}, {}, []
    olds = sorted(decl, key=lambda w: (not any(s for _, s in decl[w]), w))
    for w in olds:
        if main_spelling(w, names) == w:
            taken.setdefault(w, w)
    for w in olds:
        new = main_spelling(w, names)
        if new == w:
            continue
        kinds = {k for k, _ in decl[w]}
        is_field = bool(kinds & {'field', 'constructor'})
        tries = [new]
        if '-' in w:
            keep = '-'.join(p if p[0].isupper() else snake(p) for p in w.split('-') if p)
            tries += [new + '_lem', keep]
        else:
            tries += [new + '_of', new + '_lem', w]
        for t in tries:
            bad = None
            if t in taken and taken[t] != w:
                bad = f'is {taken[t]}'
            elif t in std:
                bad = 'of std'
            elif not is_field and '-' not in t and t in src:
                bad = 'in src'
            elif not is_field and t not in decl and any(t in it for it in beside[w]):
                bad = 'a local name'
            if not bad:
                break
            clashes.append((w, t, bad))
        else:
            t = w
        if t != w:
            rows[w] = t
            taken[t] = w
    os.makedirs(os.path.dirname(TABLE), exist_ok=True)
    with open(TABLE, 'w') as f:
        for w in sorted(rows):
            f.write(f'{w}\t{rows[w]}\n')
    print(len(decl), 'declared', len(rows), 'respelled', len(clashes), 'clashes')
    for c in clashes:
        print('clash:', *c)


def table():
    return dict(l.rstrip('\n').split('\t') for l in open(TABLE, encoding='utf-8'))


QUIET = re.compile(r'(?<![^\s(){}.;,@"«»])--[^\n]*|"(?:[^"\\\n]|\\.)*"')


def words(text, rows):
    return WORD.sub(lambda m: rows.get(m.group(0), m.group(0)), text)


def spans(text, rows):
    return re.sub(r'`[^`\n]*`', lambda m: words(m.group(0)[0:1] + m.group(0)[1:-1], rows) + '`' if False else '`' + words(m.group(0)[1:-1], rows) + '`', text)


def antt(text, rows):
    out, at = [], 0
    for m in QUIET.finditer(text):
        out.append(words(text[at:m.start()], rows))
        out.append(spans(m.group(0), rows))
        at = m.end()
    out.append(words(text[at:], rows))
    return ''.join(out)


CLAUSE = re.compile(r'\b(?:requires|ensures)\*?(?: \w+)? \{|\bghost(?: \w+:)? \{|\bghost use\b')


def rt(text, rows):
    out, at = [], 0
    code = text
    pos = 0
    while True:
        m = CLAUSE.search(code, pos)
        if not m:
            break
        line = code.rfind('\n', 0, m.start()) + 1
        if '//' in code[line:m.start()]:
            pos = m.end()
            continue
        if m.group(0).startswith('ghost use'):
            end = code.index(';', m.end())
        else:
            deep, end = 1, m.end()
            while deep:
                deep += (code[end] == '{') - (code[end] == '}')
                end += 1
        out.append(comments(code[at:m.end()], rows))
        out.append(words(code[m.end():end], rows))
        at = pos = end
    out.append(comments(code[at:], rows))
    return ''.join(out)


def comments(text, rows):
    return re.sub(r'//[^\n]*', lambda m: spans(m.group(0), rows), text)


def write(f, new, old):
    if new != old:
        with open(f, 'w', encoding='utf-8') as it:
            it.write(new)
        return 1
    return 0


def turn():
    rows = table()
    n = 0
    for f in antt_files():
        t = read(f)
        n += write(f, antt(t, rows), t)
    for f in rt_files():
        t = read(f)
        n += write(f, rt(t, rows), t)
    print(n, 'files turned')


if __name__ == '__main__':
    if sys.argv[1:] == ['plan']:
        plan()
    elif sys.argv[1:] == ['crates']:
        turn()
    elif sys.argv[1:2] == ['text']:
        rows = table()
        for f in sys.argv[2:]:
            t = read(f)
            write(f, words(t, rows), t)
    else:
        print(__doc__)
        sys.exit(2)
