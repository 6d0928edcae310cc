#!/usr/bin/env python3
"""Turns the old proof files of a crate, proofs/F/Proof.antt, into proofs/F/Invariants.antt and Answers.antt, as today's Rattle reads them.

usage: turn_walks.py CRATE [--all] [F ..]     at the top of the repository; with no F each Proof.antt of the crate

It asks `rt check --generated DIR --old-names` for each goal's old and new name. Answers that Rattle finds itself (`search rules`, `omega arith`) are left out but
under --all. A line that begins 'look:' names what it could not turn. What it wrote for each goal, and the old file,
is kept below the system's folder for temporary files, in turned/CRATE."""
import glob
import json
import os
import re
import shutil
import subprocess
import sys
import tempfile

TOP = os.getcwd()
MUTS, MINE, SLICES = {}, {}, {}
W = r'[^\s(){}.;,@"«»]'
WORD = re.compile(W + '+')


def norm(s):
    return s.replace('-', '_').replace('«', '').replace('»', '')


def said(*words):
    print(*words)


def clause_names(top):
    """crate::path of a function -> names of its ensures and requires, by text."""
    out = {}
    for f in glob.glob(os.path.join(top, 'crates', '*', 'src', '**', '*.rt'), recursive=True):
        crate = f.split('/crates/')[1].split('/')[0]
        mod = f.split('/src/')[1][:-3]
        mod = '' if mod in ('lib', 'main') else mod.replace('/', '::') + '::'
        text = re.sub(r'//[^\n]*', '', open(f, encoding='utf-8').read())
        for m in re.finditer(r'\bfn (\w+)', text):
            end = text.find('\n}', m.end())
            head = text[m.end():end if end > 0 else len(text)]
            nxt = re.search(r'\bfn \w+', head)
            head = head[:nxt.start()] if nxt else head
            ens = re.findall(r'\bensures\*?(?: (\w+))? \{', head)
            req = re.findall(r'\brequires\*?(?: (\w+))? \{', head)
            out[f'{crate}::{mod}{m.group(1)}'] = (ens, req)
            MINE[f'{crate}::{mod}{m.group(1)}'] = re.findall(r'(\w+): ', head.split('ensures')[0])
            params = head[:head.index('\n{')] if '\n{' in head else head
            params = re.split(r'\n    (?:requires|ensures)|\)\s*->', params)[0]
            MUTS[f'{crate}::{mod}{m.group(1)}'] = re.findall(r'(\w+): (?:&mut |(?:\w+::)*[A-Z])', params)
            SLICES[f'{crate}::{mod}{m.group(1)}'] = re.findall(r'(\w+): &mut \[', params)
    return out


def split_tuple(s):
    """The two parts of '(a, b)' or None."""
    s = s.strip()
    if not (s.startswith('(') and s.endswith(')')):
        return None
    deep, parts, at = 0, [], 1
    for i, ch in enumerate(s):
        if ch in '([{':
            deep += 1
        elif ch in ')]}':
            deep -= 1
            if deep == 0 and i != len(s) - 1:
                return None
        elif ch == ',' and deep == 1:
            parts.append(s[at:i])
            at = i + 1
    parts.append(s[at:-1])
    parts = [p.strip() for p in parts]
    if not parts[-1]:
        parts.pop()
    return parts if len(parts) > 1 else None


def lead_lets(body):
    """The lets at the head of a body, and what follows their last `in`."""
    at = 0
    while True:
        m = re.compile(r'\s*let\s').match(body, at)
        if not m:
            break
        deep, lets = 0, 1
        for k in re.compile(r'[(\[{]|[)\]}]|(?<![^\s(){}])(?:let|in)(?=\s)').finditer(body, m.end()):
            w = k.group(0)
            if w in '([{':
                deep += 1
            elif w in ')]}':
                deep -= 1
            elif deep == 0:
                lets += 1 if w == 'let' else -1
                if lets == 0:
                    at = k.end()
                    break
        else:
            break
    return (body[:at] + '\n    ' if at else ''), body[at:]


def into_record(body, names):
    """A nested tuple for several clauses as a record; leading lets stay."""
    lead, tail = lead_lets(body)
    parts, rest = [], tail
    while len(parts) < len(names) - 1:
        t = split_tuple(rest)
        if not t or len(t) < 2:
            return None
        if len(t) == len(names) - len(parts):
            parts += t
            rest = None
            break
        parts.append(t[0])
        rest = t[1] if len(t) == 2 else '(' + ', '.join(t[1:]) + ')'
    if rest is not None:
        parts.append(rest)
    if len(parts) != len(names):
        return None
    return lead + 'record { ' + '; '.join(f'{n} = {p}' for n, p in zip(names, parts)) + ' }'


def last_tuple(body, names):
    """`rw e (a, (b, c))` with its last argument as a record."""
    b = body.rstrip()
    if not b.endswith(')'):
        return None
    deep = 0
    for i in range(len(b) - 1, -1, -1):
        deep += (b[i] == ')') - (b[i] == '(')
        if deep == 0:
            break
    if i == 0:
        return None
    r = into_record(b[i:], names)
    return b[:i] + '(' + r + ')' if r else None


def by_parts(body, names, fn=None):
    """`lemma a b` that gives all clauses, as a record of its parts."""
    lead, tail = lead_lets(body)
    tail = tail.strip()
    m = re.fullmatch(r'c\.(' + W + r'+)\.ensures', tail)
    if m and fn is not None:
        callee = next((ca for ops in fn.steps.values() for (n, ca, _) in ops if n == m.group(1)), None)
        theirs = fn.clauses.get(callee, ([], []))[0]
        if len(theirs) == len(names):
            return f'{lead}record {{ ' + '; '.join(f'{n} = {tail}.{t}' for n, t in zip(names, theirs)) + ' }'
    if re.match(r'(rw|simp|omega|search|cc|elim|grind|absurd|first_of|λ|\()(?![\w-])', tail):
        return None
    parts = []
    for i, n in enumerate(names):
        path = '.1' * i + ('.0' if i < len(names) - 1 else '')
        parts.append(f'{n} = whole{path}')
    return f'{lead}let whole = {tail} in\n    record {{ ' + '; '.join(parts) + ' }'


class Fn:
    def __init__(self, crate, path, row, clauses):
        self.own = clauses.get(f'{crate}::' + path.replace('/', '::').replace('+', ''), ([], []))
        self.crate, self.path, self.row = crate, path, row
        self.needs = {norm(a): b for a, b in row['needs']}
        self.need_list = row['needs']
        self.clauses = clauses
        self.muts = MUTS
        self.vars = {v for l in row['loops'] for v in l[1]} | {norm(p) for ps in [MINE.get(f'{crate}::' + path.replace('/', '::').replace('+', ''), [])] for p in ps}
        self.steps, self.places = {}, {}
        self.parent = {}
        for (place, parent, (old, new), callee, more), new_place in zip(row['places'], row['places_by_name']):
            self.places[norm(place)] = new_place
            self.parent[place] = parent
            if old:
                self.steps.setdefault(norm(old), []).append((new, callee, place))
        self.arms = []
        for arm, place in zip(row['arms'], row['places']):
            if arm:
                for new, step, path in arm[2]:
                    if not new.endswith('-own'):
                        self.arms.append((norm(step), path, arm[0], new))
        self.asked = {}
        for (old, new), (a, b) in zip(row['needs'], row['asked_at']):
            self.asked[norm(old)] = (a, b)

    def need(self, word):
        """Need-overflow-mul-to and the like -> the new goal's name"""
        w = norm(word)
        tries = [w, re.sub(r'^overflow_', '', w), re.sub(r'_holds$', '_init', w), re.sub(r'_less$', '_smaller', w), re.sub(r'_again$', '_preserved', w),
                 re.sub(r'^(overflow|nonzero)_', '', w)]
        for t in tries:
            if t in self.needs:
                return self.needs[t]
        for t in tries:
            for new in self.needs.values():
                if norm(new) == t:
                    return new
        for t in tries:
            near = [new for new in self.needs.values() if re.fullmatch(re.escape(t) + r'_\d+', norm(new))]
            if len(near) == 1:
                return near[0]
        return None

    def turn_paths(self, text, roots):
        """Paths behind c, or a variable that stands for it."""
        while True:
            more = {v for v, of in re.findall(r'\blet (' + W + r'+) = (' + W + r'+)(?:\.before)* in\b', text) if of in roots} - roots
            if not more:
                break
            roots |= more
        root = '(?:' + '|'.join(re.escape(r) for r in sorted(roots)) + ')'
        text = re.sub(r'(?<![^\s(){};,@«»←])(' + root + r')(?:\.before)+(?![\w-])', r'\1', text)
        for m in list(re.finditer(r'\blet (' + W + r'+) = (' + root + r'(?:\.' + W + r'+)+\.given) in\s*', text)):
            text = text.replace(m.group(0), '')
            text = re.sub(r'(?<![^\s(){};,@«»←])' + re.escape(m.group(1)) + r'(?=\.)', m.group(2), text)
        mine = MINE.get(f'{self.crate}::' + self.path.replace('/', '::').replace('+', ''), [])
        heads = [r'(?:' + '|'.join(re.escape(r) for r in sorted(roots)) + r')\.args']
        heads += [re.escape(v) for v, of in re.findall(r'\blet (' + W + r'+) = (' + W + r'+)\.args in\b', text) if of in roots]
        text = re.sub(r'(?<![^\s(){};,@«»←])(' + '|'.join(heads) + r')\.t(\d+)(?![\w-])',
                      lambda m: m.group(1) + '.' + mine[int(m.group(2)) - 1] if int(m.group(2)) <= len(mine) else m.group(0), text)
        text = re.sub(r'(?<![^\s(){};,@«»←])(' + '|'.join(heads) + r')\.(' + W + r'+)', lambda m: m.group(1) + '.' + self.var(m.group(2)), text)
        # lengths of arrays in a struct by value: omega knows them
        text = re.sub(r', \w+_long (?:' + W + r'|\.)+ _ (?:' + W + r'|\.)+well_formed(?:\.\d)*', '', text)
        look = []

        def one(m):
            root, rest = m.group(1), m.group(2)
            if root not in roots:
                return m.group(0)
            parts = [p for p in rest.split('.') if p]
            if not parts:
                return m.group(0)
            if parts[0] == 'pre':
                parts[0] = 'requires'
            step = norm(parts[0])
            if step not in self.steps and re.search('_(lem|of)$', step) and re.sub('_(lem|of)$', '', step) in self.steps:
                step = re.sub('_(lem|of)$', '', step)
            if step == 'type_size' and 'size_of' in self.steps:
                step = 'size_of'
            if step not in self.steps and step.lower() in self.steps:
                step = step.lower()
            if step not in self.steps and re.sub('^is', '', step.lower()) in self.steps:
                step = re.sub('^is', '', step.lower())
            if step not in self.steps and re.sub(r'\d$', '', step) in self.steps and step[-1:].isdigit():
                step = step[:-1]
            for st, path, arm, new in self.arms:
                if st == step and [norm(x) for x in parts[1:1 + len(path)]] == [norm(x) for x in path] and path:
                    return root + '.' + '.'.join([arm, new] + parts[1 + len(path):])
            if step == 'well_formed':
                return root + '.' + '.'.join(['well_formed'] + parts[1:])
            if step == 'requires' and len(self.own[1]) > 1 and len(parts) > 1:
                return root + '.' + '.'.join(self.by_clause(parts[:1], parts[1:], self.own[1]))
            if step in ('args', 'requires', 'ranges', 'type_inv'):
                return root + '.' + '.'.join([parts[0]] + [self.var(x) for x in parts[1:]])
            if step == 'measure' or step == 'auto':
                return m.group(0)
            if step in self.steps:
                options = self.steps[step]
                new, callee, place = options[0]
                parts[0] = new
                if len({o[0] for o in options}) > 1:
                    look.append(f'{rest} may be one of {[o[0] for o in options]}')
                parts = self.clause(parts, callee)
                parts = [{'type-inv': 'type_inv', 'well-formed': 'well_formed'}.get(x, x) for x in self.kept(parts, callee)]
                parts = [parts[0]] + [self.var(x) for x in parts[1:]]
                if new.startswith('if-not-') and len(parts) == 2 and parts[1] in ('true', 'false'):
                    return '(ap not ' + root + '.' + '.'.join(parts) + ')'
                return root + '.' + '.'.join(parts)
            look.append(f'no step {rest}')
            return m.group(0)

        text = re.sub(r'(?<![^\s(){};,@«»←])(' + W + r'+)((?:\.[^\s(){}.;,@"]+)+)', one, text)
        for m in re.finditer(r'\blet (' + W + r'+) = (' + W + r'+)\.requires in\b', text):
            if m.group(2) in roots and len(self.own[1]) > 1:
                v = m.group(1)
                text = re.sub(r'(?<![^\s(){};,@«»←])' + re.escape(v) + r'((?:\.[^\s(){}.;,@"]+)+)',
                              lambda k: '.'.join(self.by_clause([v], k.group(1)[1:].split('.'), self.own[1])), text)
        for m in re.finditer(r'\blet (' + W + r'+) = ' + root + r'\.(' + W + r'+)\.ensures in\b', text):
            callee = next((ca for ops in self.steps.values() for (n, ca, _) in ops if n == m.group(2)), None)
            names = self.clauses.get(callee, ([], []))[0]
            if len(names) > 1:
                v = m.group(1)
                text = re.sub(r'(?<![^\s(){};,@«»←])' + re.escape(v) + r'((?:\.[^\s(){}.;,@"]+)+)',
                              lambda k: '.'.join(self.by_clause([v], k.group(1)[1:].split('.'), names)), text)
        # an alias of a step: let q = c.STEP in .. q.ensures.1.0
        for m in re.finditer(r'\blet (' + W + r'+) = ' + root + r'\.(' + W + r'+) in\b', text):
            callee = next((ca for ops in self.steps.values() for (n, ca, _) in ops if n == m.group(2)), None)
            if callee:
                v = m.group(1)
                text = re.sub(r'(?<![^\s(){};,@«»←])' + re.escape(v) + r'((?:\.[^\s(){}.;,@"]+)+)',
                              lambda k: '.'.join(self.behind([v] + k.group(1)[1:].split('.'), callee)), text)
        return text, look

    def behind(self, parts, callee):
        parts = self.clause(parts, callee)
        return self.kept(parts, callee)

    def kept(self, parts, callee):
        """.new.1.0 -> .new.NAME"""
        ms = self.row['params'].get(callee) or MINE.get(callee, [])
        if len(parts) < 3 or parts[1] not in ('new', 'auto') or not parts[2].isdigit():
            return parts
        rest, k = parts[2:], 0
        while rest and rest[0] == '1' and k < len(ms) - 1:
            rest, k = rest[1:], k + 1
        if rest and rest[0] == '0' and k < len(ms):
            return parts[:2] + [ms[k]] + rest[1:]
        return parts

    def clause(self, parts, callee):
        """.ensures.1.0 -> .ensures.NAME"""
        if not callee or 'ensures' not in parts or callee not in self.clauses:
            return parts
        names = self.clauses[callee][0]
        if len(names) < 2 or any(not n for n in names):
            return parts
        i = parts.index('ensures')
        return self.by_clause(parts[:i + 1], parts[i + 1:], names)

    def by_clause(self, head, rest, names):
        whole, k = list(rest), 0
        if not rest or rest[0] not in ('0', '1') or any(not n for n in names):
            return head + whole
        while rest and rest[0] == '1' and k < len(names) - 1:
            rest, k = rest[1:], k + 1
        if k < len(names) - 1:
            if not rest or rest[0] != '0':
                return head + whole
            rest = rest[1:]
        return head + [names[k]] + list(rest)

    def var(self, x):
        n = norm(x)
        if n in self.vars:
            return n
        short = re.sub('_(lem|of)$', '', n)
        return short if short in self.vars and short != n and n not in self.vars else x

    def asked_callee(self, old):
        m = re.fullmatch(r'(.*)_requires(?:_(\d+))?', norm(old))
        if not m:
            return None
        step = m.group(1) + (m.group(2) or '')
        ops = self.steps.get(step) or self.steps.get(m.group(1)) or []
        return ops[0][1] if ops else None


def paragraphs(text):
    out, now = [], []
    for line in text.split('\n'):
        if not line.strip():
            if now:
                out.append('\n'.join(now))
            now = []
        else:
            now.append(line)
    if now:
        out.append('\n'.join(now))
    return out


def inv(fn, body, args, which):
    """An invariant's or a measure's body over l, from its positional arguments."""
    loop = fn.row['loops'][which]
    variables, changed = loop[1], fn.row['changed'][which]
    order = [('l.initial.' if ch else 'l.') + v for v, ch in zip(variables, changed)] + ['l.' + v for v, ch in zip(variables, changed) if ch]
    look = []
    if len(order) != len(args):
        look.append(f'{len(args)} arguments for {len(order)} variables')
    known = {}
    plain = {norm(v): v for v in variables}
    for k, a in enumerate(args):
        base = norm(a.rstrip('₀'))
        if base in plain:
            v = plain[base]
            known[a] = ('l.initial.' if a.endswith('₀') else 'l.') + v
        elif a != '_' and k < len(order) and len(order) == len(args):
            known[a] = order[k]
            look.append(f'{a} read as {order[k]}')
        elif a != '_':
            look.append(f'no variable {a}')
    out, deep, bound, at = [], 0, [], 0
    token = re.compile(r'[(\[{]|[)\]}]|λ\s*|' + W + '+|\\s+|.', re.S)
    while at < len(body):
        m = token.match(body, at)
        w = m.group(0)
        at = m.end()
        if w.startswith('λ'):
            end = body.index('. ', at) if '. ' in body[at:] else len(body)
            binder = body[at:end]
            names = [n for part in re.findall(r'\(([^()]*?) :', binder) for n in part.split()] or re.findall(W + '+', binder)
            bound.append((deep, set(names)))
            # the binder's own text, types turned
            out.append(w + binder)
            at = end
            continue
        if w in '([{' and len(w) == 1:
            deep += 1
        elif w in ')]}' and len(w) == 1:
            deep -= 1
            bound = [b for b in bound if b[0] <= deep]
        elif re.fullmatch(W + '+', w) and (not out or out[-1] != '.') and not (re.match(r'\s=\s', body[at:]) and re.search(r'[{;]\s*$', ''.join(out[-3:]))) and w in known and not any(w in b[1] for b in bound):
            w = known[w]
        out.append(w)
    return ''.join(out), look


BROUGHT = {'ap': 'use mathlib.Core.Path.{ap}', 'not': 'use mathlib.Core.Bool.{not}'}


def imports(uses, text, own=()):
    """The use lines whose names the text has."""
    words = set(WORD.findall(text))
    marks = set(re.findall(r'[^\s(){}.;,@"«»\w]+', text)) | words
    out = []
    for u in uses:
        m = re.match(r'use (\S+?)\.\{(.*)\}$', u.replace('\n', ' '))
        if not m:
            m2 = re.match(r'use (\S+) as (\S+)$', u)
            if m2:
                if re.search(r'(?<![\w-])' + re.escape(m2.group(2)) + r'\.', text):
                    out.append(u)
            else:
                last = u.split('.')[-1]
                if re.search(r'(?<![\w-])' + re.escape(last) + r'\.', text):
                    out.append(u)
            continue
        keep = []
        for it in m.group(2).split(','):
            it = it.strip()
            name = it.split(' as ')[-1].strip()
            pieces = [p for p in name.split('◌') if p]
            if name in words or ('◌' in name and all(p in text for p in pieces)):
                keep.append(it)
        if keep:
            out.append('use ' + m.group(1) + '.{' + ', '.join(keep) + '}')
    if '(ap not ' in text:
        have = set(re.split(r'[{},\s]+', ' '.join(out)))
        out += [line for w, line in BROUGHT.items() if w not in have]
    return out


def clauses_of(fn, callee):
    return fn.clauses.get(callee, ([], []))[1]


TRIVIAL = {'search rules', 'omega arith', 'search needs', 'refl', 'tt'}


def named(h):
    return re.findall(r'(?m)^(?:  )?(?:(?:pub|abbrev|unfoldable) )*(' + W + r'+)(?: ' + W + r'+)* :', re.sub(r'(?m)^--.*$', '', h))


def has(text, n):
    return re.search(r'(?<![^\s(){}.;,])' + re.escape(n) + r'(?![^\s(){}.;,])', text)


def placed_helper(body):
    """A lemma whose first argument is a place, as (name, type, body over c, its unfolding words)."""
    code = '\n'.join(l for l in body.split('\n') if not l.startswith('--'))
    at = r'goal\.[^\s()]+(?: (?:invariant|decreases)-[^\s()]+)*'
    m = re.match(r'(?:abbrev )?(?:pub )?(\S+) : (?:\(c : ' + at + r'\)|' + at + r') →\s*', code)
    if not m:
        return None
    name = m.group(1)
    rest = code[m.end():]
    d = re.search(r'(?m)^(unfolding .*\n)?' + re.escape(name) + r' c((?: [^\s(){}]+)*) =\s*', rest)
    if not d:
        return None
    kind = rest[:d.start()].rstrip()
    inner = rest[d.end():].rstrip()
    if re.search(r'(?m)^' + re.escape(name) + ' ', inner):
        return None
    args = d.group(2).split()
    if args:
        inner = 'λ ' + ' '.join(args) + '. ' + inner
    unf = (d.group(1) or '').replace('unfolding', '').split()
    return name, re.sub(r'\s*\n\s*', ' ', kind), re.sub(r'\s*\n\s*', ' ', inner), unf


def join_unfolding(unf, word):
    have = [w for u in unf for w in u.replace('unfolding', '').split()]
    return 'unfolding ' + ' '.join(have + [word] if word not in have else have)


def put_inside(body, inside):
    """The answer's body with a let for each placed lemma that it calls."""
    used, more = [], []

    roots = {'c'}
    while True:
        new = {v for v, of in re.findall(r'\blet (' + W + r'+) = (' + W + r'+) in\b', body) if of in roots} - roots
        if not new:
            break
        roots |= new
    root = '(?:' + '|'.join(re.escape(r) for r in sorted(roots)) + ')'

    def calls(text, name):
        return re.search(r'(?<![^\s(){};,@«»←])' + re.escape(name) + r' ' + root + r'(?![^\s(){};,@])', text)

    def drop(text, name):
        text = re.sub(r'\(' + re.escape(name) + r' ' + root + r'\)', name, text)
        return re.sub(r'(?<![^\s(){};,@«»←])' + re.escape(name) + r' ' + root + r'(?![^\s(){};,@])', name, text)
    wanted = body
    for name, kind, inner, unf in reversed(inside):
        if calls(wanted, name):
            used.insert(0, (name, kind, inner, unf))
            wanted += ' ' + kind + ' ' + inner
    if not used:
        return body, more
    names = [u[0] for u in used]
    lets = []
    for name, kind, inner, unf in used:
        for n in names:
            kind, inner = drop(kind, n), drop(inner, n)
        lets.append(f'let {name} : {kind} = {inner} in')
        more += [w for w in unf if w not in more]
    for n in names:
        body = drop(body, n)
    return '\n    '.join(lets) + '\n    ' + body.lstrip(), more


def convert(crate, path, fn, everything):
    folder = os.path.join(TOP, 'crates', crate, 'proofs', path)
    old = os.path.join(folder, 'Proof.antt')
    text = open(old, encoding='utf-8').read()
    uses, helpers, invs, answers, looks, kept, inside = [], [], [], [], [], {}, []
    head = None
    dotted = path.replace('/', '.')
    own = fn.clauses.get(f'{crate}::' + path.replace('/', '::').replace('+', ''), ([], []))
    loops = {norm(l[0][0]): i for i, l in enumerate(fn.row['loops'])}
    for p in paragraphs(text):
        body_lines = p.split('\n')
        comment = [l for l in body_lines if l.startswith('--')]
        code = '\n'.join(l for l in body_lines if not l.startswith('--'))
        if comment and head is None and not code.strip().startswith(('abbrev', 'pub')):
            head = comment[0]
            comment = []
        if code.startswith('use '):
            for u in re.split(r'\n(?=use )', code):
                if '.Statement.' in u or u.endswith('.Tie as tie') or '.Tie as ' in u:
                    continue
                uses.append(re.sub(r'\n\s*', ' ', u))
            continue
        if not code.strip():
            continue
        m = re.match(r'(?:abbrev )?(?:pub )?(invariant|decreases)-?(\S*) : (?:tie|goal)\.\S+', code)
        if m:
            name = m.group(2)
            rest = code[m.end():]
            unf = re.findall(r'(?m)^unfolding .*$', rest)
            rest = re.sub(r'(?m)^unfolding .*$\n?', '', rest).strip()
            d = re.match(r'(\S+)\s+((?:\S+\s+)*?)=\s', rest + ' ')
            if not d:
                looks.append(f'invariant of no known form: {rest[:80]}')
                continue
            args = d.group(2).split()
            body = rest[d.end():] if d.end() <= len(rest) else rest[d.end() - 1:]
            which = loops.get(norm(name), 0 if len(loops) == 1 else None)
            if which is None:
                which = next((i for l, i in loops.items() if l == norm(name)), None)
            if which is None:
                looks.append(f'no loop {name} among {list(loops)}')
                which = 0
            if not fn.row['loops']:
                looks.append(f'no loops, but {m.group(0)}')
                continue
            new_body, look = inv(fn, body, args, which)
            looks += look
            new = fn.row['loops'][which][0][1]
            invs.append('\n'.join(comment + [f'abbrev pub {m.group(1)}-{new} : goal.{m.group(1)}-{new}'] + unf + [f'{m.group(1)}-{new} l ={" " if not new_body.startswith(chr(10)) else ""}{new_body}']))
            continue
        m = re.match(r'(?:abbrev )?(?:pub )?(\S+) : (?:tie|goal)\.Need-(\S+)(?: \S+)*', code)
        if m:
            new = fn.need(m.group(2))
            rest = code[m.end():]
            unf = re.findall(r'(?m)^unfolding .*$', rest)
            rest = re.sub(r'(?m)^unfolding .*$\n?', '', rest).strip()
            d = re.match(r'(\S+)\s+((?:\S+\s+)*?)=\s', rest + ' ')
            if not d:
                looks.append(f'answer of no known form: {rest[:80]}')
                continue
            args = d.group(2).split()
            body = (rest + ' ')[d.end():].strip()
            if new is None:
                if body.strip() not in TRIVIAL and not re.match(r'(same|shape|enum|known|long|told)', m.group(2)):
                    looks.append(f'no goal for {m.group(2)}: {body[:100]!r}')
                kept['?' + m.group(2)] = body
                continue
            body, look = fn.turn_paths(body, {'c'})
            looks += [f'{new}: {l}' for l in look]
            if new.startswith('returns') and len(own[0]) > 1:
                r = into_record(body, own[0]) or last_tuple(body, own[0]) or by_parts(body, own[0], fn)
                if r:
                    body = r
                elif body.strip() not in TRIVIAL:
                    looks.append(f'{new}: not a tuple of {len(own[0])} clauses')
            callee = fn.asked_callee(m.group(2)) if '-requires' in new else None
            if callee and len(clauses_of(fn, callee)) > 1:
                names = clauses_of(fn, callee)
                r = into_record(body, names) or last_tuple(body, names) or by_parts(body, names)
                if r:
                    body = r
                elif body.strip() not in TRIVIAL:
                    looks.append(f'{new}: not a tuple of {len(names)} clauses')
            if re.search(r'(?:array|slice)-(?:share|relend|lend)\S* c(?![\w.])', body) or new.startswith('slice_bounds') and re.search(r'_long c\.', body):
                looks.append(f'{new} left to Rattle: {body[:80]!r}')
                continue
            args = [a for a in args if a != 'κs']
            body, more = put_inside(body, inside)
            for u in more:
                if u not in unf:
                    unf = [join_unfolding(unf, u)]
            nl = '\n' in body or len(body) > 110
            whole = '\n'.join(comment + [f'pub {new} : goal.{new}'] + unf + [f'{new} {" ".join(args)} ={chr(10) + "    " if nl else " "}{body}'])
            kept[new] = whole
            if (body.strip() in TRIVIAL - {'refl', 'tt'} and not unf or new in fn.row.get('settled', [])) and not everything:
                continue
            answers.append(whole)
            continue
        if re.match(r'(?:pub )?\S+-spec : |(?:pub )?\S+_spec : ', code):
            continue
        body = code
        t = re.search(r'\(c : tie\.(\S+?)\)', code)
        if 'tie.' in code:
            def place(k):
                n = fn.places.get(norm(k.group(1)))
                if n is None:
                    looks.append(f'no place {k.group(1)}')
                    return k.group(0)
                return 'goal.' + n
            body = re.sub(r'tie\.([A-Za-z][^\s(){}.;,]*)', place, body)
            body, look = fn.turn_paths(body, {'c'})
            looks += [f'helper: {l}' for l in look]
            placed = placed_helper(body)
            if placed:
                inside.append(placed)
                continue
            looks.append('a helper takes a place: call it with (goal.at.GOAL c).PLACE: ' + body.split('\n')[0][:120])
        helpers.append('\n'.join(comment + [body]))
    made = []
    inv_text = '\n\n'.join(invs)
    given = []
    if invs:
        # helpers that the invariants name go there too
        f = os.path.join(folder, 'Invariants.antt')
        for h in reversed(list(helpers)):
            names = named(h)
            if any(has(inv_text, n) for n in names):
                h2 = re.sub(r'(?m)^(?!pub |abbrev pub |unfoldable pub |--)((?:abbrev |unfoldable )?)(' + W + r'+ :)', r'\1pub \2', h, count=1)
                inv_text = h2 + '\n\n' + inv_text
                helpers.remove(h)
                given += names
        lines = imports(uses, inv_text)
        with open(f, 'w', encoding='utf-8') as it:
            it.write(f'-- The invariants of `{crate}::{path.replace("/", "::")}`.\n' + '\n'.join(lines + [f'use Rattle.{crate}.proofs.{dotted}.Given as goal']) + '\n\n' + inv_text + '\n')
        made.append('Invariants')
    if answers:
        # helpers stay only where an answer, or a helper that stays, names them
        text = '\n\n'.join(answers)
        stay = []
        for h in reversed(helpers):
            names = named(h)
            if any(has(text, n) for n in names) or h.lstrip('-').startswith(('module', 'open', 'use', 'infix')):
                stay.insert(0, h)
                text = h + '\n\n' + text
        body = '\n\n'.join(stay + answers)
        f = os.path.join(folder, 'Answers.antt')
        lines = imports(uses, body)
        mine = [n for n in given if has(body, n)]
        if mine:
            lines.append(f'use Rattle.{crate}.proofs.{dotted}.Invariants.{{' + ', '.join(mine) + '}')
        with open(f, 'w', encoding='utf-8') as it:
            it.write(f'-- `{crate}::{path.replace("/", "::")}` meets its contract.\n' + '\n'.join(lines + [f'use Rattle.{crate}.proofs.{dotted}.Goals as goal']) + '\n\n' + body + '\n')
        made.append('Answers')
    keep = os.path.join(tempfile.gettempdir(), 'turned', crate, path)
    os.makedirs(keep, exist_ok=True)
    shutil.copy(old, os.path.join(keep, 'Proof.antt'))
    with open(os.path.join(keep, 'kept.json'), 'w') as it:
        json.dump({'uses': uses, 'answers': kept}, it, ensure_ascii=False, indent=1)
    os.remove(old)
    said(f'{crate}::{path}: {" ".join(made) or "no file"}' + (f', {len(answers)} answers' if answers else ''))
    for l in looks:
        said(f'look: {crate}::{path}: {l}')
    if not os.listdir(folder):
        os.rmdir(folder)


def main(argv):
    everything = '--all' in argv
    argv = [a for a in argv if a != '--all']
    crate, only = argv[0], argv[1:]
    where = os.path.join(TOP, 'crates', crate)
    names = os.path.join(tempfile.gettempdir(), f'names-{os.getpid()}')
    r = subprocess.run(['rt', 'check', '--generated', names, '--old-names'], cwd=where, capture_output=True, text=True)
    got = os.path.join(names, 'names.json')
    if not os.path.exists(got):
        print(r.stdout[-3000:], r.stderr[-2000:])
        sys.exit('turn_walks: no names: mend the source first')
    table = json.load(open(got, encoding='utf-8'))
    shutil.rmtree(names)
    clauses = clause_names(TOP)
    for old in sorted(glob.glob(os.path.join(where, 'proofs', '**', 'Proof.antt'), recursive=True)):
        path = os.path.relpath(os.path.dirname(old), os.path.join(where, 'proofs'))
        if only and path not in only:
            continue
        key = f'Rattle-{crate}-proofs.{path.replace("/", ".")}.Lts'
        row = table.get(key)
        if row is None:
            close = [k for k in table if k.count('.') > 1 and k.split('.')[-2].strip('+') == path.split('/')[-1].strip('+')]
            said(f'look: {crate}::{path}: no names under {key}; near: {close}')
            continue
        try:
            convert(crate, path, Fn(crate, path, row, clauses), everything)
        except Exception as e:
            import traceback
            traceback.print_exc()
            said(f'look: {crate}::{path}: {e!r}')


if __name__ == '__main__':
    main(sys.argv[1:])
