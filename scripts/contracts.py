#!/usr/bin/env python3
"""Fails where a public function of a library crate promises too little, as far as its text shows: exports count as public.

Each has an `ensures` and no `requires`; its clauses name the result and what each `&mut` parameter holds after the call, a lent struct
whole or by each of its fields, not only in a premise; no clause says that a thing equals itself, and none has a premise that cannot hold.
The methods of a public trait are public. `test_contracts.py` tries this script.
"""
import functools
import glob
import itertools
import os
import re
import sys


def inside(room, *fields):
    return tuple(f'{room}.{field}' for field in fields)


# Emissions inside other calls, with room that the call clears once: what these arrays hold afterwards is open, and nobody reads it.
KEYS = inside('keys', 'x', 'y', 'at')
TRITS = inside('trits', 'packed', 'clear', 'reset', 'init')
MUXES = ('spare',) + KEYS
OVERLAY = ('bits', 'mask', 'select') + MUXES
OPEN = {
    'crates/merge_keys/src/lib.rt merge': inside('self', 'x', 'y', 'at'),
    'crates/merge_mux/src/emit.rt emit_dedup_mux': KEYS,
    'crates/merge_mux/src/emit.rt emit_bitwise_nets': KEYS,
    'crates/merge_mux/src/emit.rt emit_bitwise_mux': KEYS,
    'crates/merge_dff/src/lib.rt emit_dedup_dff': KEYS + TRITS,
    'crates/port_delay/src/lib.rt emit_delayed': inside('self', 'starts', *KEYS, *TRITS),
    'crates/port_transparency/src/lib.rt emit_transparency': inside('self', *OVERLAY),
    'crates/port_transparency/src/lib.rt add': inside('overlay', *OVERLAY),
    'crates/port_overlay/src/lib.rt emit_pair': inside('overlay', *OVERLAY),
    'crates/port_overlay/src/lib.rt emit_pairs': inside('overlay', *OVERLAY),
    'crates/port_overlay/src/lib.rt emit_unmap': inside('overlay', 'under', *OVERLAY),
    'crates/port_unmap/src/lib.rt emit': inside('overlay', 'under', *OVERLAY),
    'crates/port_unmap_all/src/lib.rt emit_unmap_all': inside('overlay', 'under', *OVERLAY),
    'crates/port_reset_emit/src/lib.rt emit_reset': inside('room', *inside('overlay', 'under', *OVERLAY), *inside('mask', 'over', *TRITS, 'ones', 'starts')),
    'crates/fallback_row/src/lib.rt emit_start': inside('row', *MUXES),
    'crates/fallback_row/src/lib.rt emit_over': inside('row', *MUXES),
    'crates/fallback_row/src/lib.rt emit_held': inside('row', *MUXES),
    'crates/fallback_row/src/lib.rt emit_drive': ('spare',),
}

PUBLIC = re.compile(r'\bpub\b(?!\s*\()[^;{}()=]*?\bfn\s+(\w+)')
EXPORTED = re.compile(r'#\[[^\]]*\bno_mangle\b[^\]]*\](?:\s*#\[[^\]]*\])*\s*(?:pub\s*\([^)]*\))?[^;{}()=]*?\bfn\s+(\w+)')
QUOTED = re.compile(r'''b?r(#*)".*?"\1|"(?:\\.|[^"\\])*"|b?'(?:\\(?:x..|.)|[^'\\\n])\'''', re.S)
TRAIT = re.compile(r'\bpub\b(?!\s*\()[^;{}()=]*?\btrait\s+\w+[^{]*\{')
STRUCT = re.compile(r'\bstruct\s+(\w+)[^;{(]*\{')
METHOD = re.compile(r'\bfn\s+(\w+)')
IMPL = re.compile(r'\bimpl\b([^;{]*)\{')
MUT = re.compile(r"&\s*(?:'\w+\s*)?mut\b")
TOKEN = re.compile(r'«[^»]*»|\.[^\s(){}.;,@"«»]+|[(){}.;,@"]|[^\s(){}.;,@"«»]+')
CLOSES = {'(': ')', '{': '}'}
ARROWS = {'→', '→ₛ', '-∗'}
JOINS = {'×', '∗', '∧ₛ', '×ₛ', ',', ';'}
CHOICES = {'⊎', '∨₁', '∨ₛ'}
RELATIONS = {'≡', '≢', '<', '>', '≤', '≥'}
TRUE = {'⊤', '⊤ₛ', 'Unit', 'True'}
FALSE = {'⊥', '⊥ₛ', 'Empty', 'False'}
# Signs that a contract reads by, and the one module that each may come from; the others are there without a `use`.
PRELUDE = 'Rattle.std.specs.Prelude'
HOMES = {**dict.fromkeys(['◌≡◌', '◌≤◌', '◌<◌', '◌≥◌', '◌>◌', '◌≢◌'], PRELUDE), **dict.fromkeys(['◌×◌', '◌→◌', '¬◌', 'result'], '')}


# ---- the text of a function

def blank(part):
    return re.sub(r'[^\n]', ' ', part)


def comment_end(text, i):
    """The index after the block comment that starts at i; such comments nest."""
    depth = 0
    for m in re.compile(r'/\*|\*/').finditer(text, i):
        depth += 1 if m.group() == '/*' else -1
        if depth == 0:
            return m.end()
    return len(text)


def without_comments(text):
    """The text with comments and what stands in quotes blanked, so that their words do not count."""
    out, i = [], 0
    while i < len(text):
        quoted = QUOTED.match(text, i)
        if text.startswith('//', i):
            end = text.find('\n', i)
            end = len(text) if end < 0 else end
            out.append(blank(text[i:end]))
        elif text.startswith('/*', i):
            end = comment_end(text, i)
            out.append(blank(text[i:end]))
        elif quoted:
            end = quoted.end()
            out.append('"' + blank(text[i + 1:end - 1]) + '"')
        else:
            end = i + 1
            out.append(text[i])
        i = end
    return ''.join(out)


def closing(text, opening):
    """The index of the bracket that closes the one at `opening`."""
    pair = {'(': ')', '{': '}', '[': ']', '<': '>'}
    here, there = text[opening], pair[text[opening]]
    depth = 0
    for i in range(opening, len(text)):
        if text[i] == here:
            depth += 1
        elif text[i] == there and not (there == '>' and text[i - 1] == '-'):
            depth -= 1
            if depth == 0:
                return i
    return len(text)


def taken_apart(text, start):
    """Of the function whose name ends at `start`: its parameters, its result's type, its clauses, and other words before its body."""
    opening = text.index('(', start)
    if text[start:opening].strip().startswith('<'):
        opening = text.index('(', closing(text, text.index('<', start)))
    i = closing(text, opening)
    params = text[opening + 1:i]
    clauses, others, result, from_ = [], '', None, i + 1
    while True:
        i += 1
        if i >= len(text) or text[i] == ';':
            result = text[from_:i].strip() if result is None else result
            break
        if text[i] in '([':
            i = closing(text, i)
        elif text[i] == '{':
            kind = re.search(r'\b(requires|ensures)\b', text[from_:i])
            before = text[from_:from_ + kind.start()] if kind else text[from_:i]
            if result is None:
                result = before.strip()
            else:
                others += before.strip()
            if not kind:
                break
            end = closing(text, i)
            clauses.append((kind.group(1), text[i + 1:end]))
            i, from_ = end, end + 1
    return params, result or '', clauses, others


def holders(text):
    """The types of a file that hold a `&mut`, by a field or under another name."""
    kinds = re.findall(r'\b(?:struct|enum|type)\s+(\w+)([^;{(=]*(?:\{[^}]*\}|\([^)]*\)|=[^;]*))', text)
    return {name for name, body in kinds if MUT.search(body)}


def typed(text):
    """The name and the type of each parameter or field; a receiver has a type alone, and one that is only read is left out."""
    for part in re.split(r',(?![^<(\[]*[>)\]])', text):
        name, _, kind = part.partition(':')
        if kind:
            yield name.split()[-1], kind
        elif part.strip() and (MUT.search(part) or '&' not in part):
            yield 'self', re.sub(r'^\s*mut\b', '', re.sub(r'\bself\b', 'Self', part))


def owner(text, place):
    """The type whose `impl` a place stands in."""
    around = [m.group(1).strip() for m in IMPL.finditer(text, 0, place) if closing(text, m.end() - 1) > place]
    head = around[-1] if around else ''
    head = head[closing(head, 0) + 1:] if head.startswith('<') else head
    return re.split(r'\bwhere\b', re.split(r'\bfor\b', head)[-1])[0]


def structs(text, path):
    """Each struct with named fields: its file, its name, and its fields with their types."""
    return [(path, m.group(1), list(typed(text[m.end():closing(text, m.end() - 1)]))) for m in STRUCT.finditer(text)]


def crate_of(path):
    return path.split('/')[1] if '/' in path else ''


def fields_of(kind, path, text, declared):
    """The fields of the struct that a file's type names: its own, one of the crates that its paths name, its crate's; else of all so named."""
    parts = re.fullmatch(rf'\s*(?:{MUT.pattern}\s*)?((?:\w+\s*::\s*)*)(\w+)\s*(?:<.*>)?\s*', kind, re.S)
    if not parts:
        return []
    within, name = parts.groups()
    known = [(place, fields) for place, other, fields in declared if other == name]
    paths = re.findall(rf'\b(\w+)\s*::(?:\s*\w+\s*::)*\s*(?:\{{[^}}]*?\b)?{name}\b', within + name if within else text)
    crates = {crate_of(path) if x in ('crate', 'self', 'super') else x for x in paths}
    nearer = [lambda x: x == path and not within, lambda x: crate_of(x) in crates, lambda x: crate_of(x) == crate_of(path), lambda x: True]
    found = ([x for place, fields in known if near(place) for x in fields] for near in nearer)
    return next((fields for fields in found if fields), [])


def leaves(name, kind, fields):
    """What is written through a name: itself, or each field of its struct, and so on within these."""
    inner = [x for field, its in fields(kind) for x in leaves(f'{name}.{field}', its, fields)]
    return inner or [name]


def lent(params, fields, holding, own):
    """What the function may write: a parameter, or the fields of a lent struct; `own` is the type of `self`."""
    written = []
    for name, kind in typed(params):
        kind = re.sub(r'\bSelf\b', lambda _: own, kind)
        if MUT.search(kind):
            written += leaves(name, kind, fields)
        elif set(re.findall(r'\w+', kind)) & set(holding):
            held = [x for field, its in fields(kind) if MUT.search(its) for x in leaves(f'{name}.{field}', its, fields)]
            written += held or [name]
    return written


# ---- the words of a clause

def plain(token):
    """A token as it is compared: an escaped name is the bare name, a numeral its value."""
    if token.startswith('«'):
        return token[1:-1]
    if re.fullmatch(r'0x[0-9a-fA-F_]+|0o[0-7_]+|0b[01_]+|[0-9][0-9_]*', token):
        return int(token.replace('_', ''), 0 if token[:2] in ('0x', '0o', '0b') else 10)
    return token


def tree(clause):
    """The clause's tokens, nested by parentheses and braces."""
    tokens = TOKEN.findall(clause)
    stack = [([], None)]
    for token in map(plain, tokens):
        if token in CLOSES:
            stack.append(([], CLOSES[token]))
        elif token == stack[-1][1]:
            group = tuple(stack.pop()[0])
            stack[-1][0].append(group)
        else:
            stack[-1][0].append(token)
    while len(stack) > 1:
        group = tuple(stack.pop()[0])
        stack[-1][0].append(group)
    return tuple(stack[0][0])


def bare(items):
    """The items without parentheses around all of them."""
    while len(items) == 1 and isinstance(items[0], tuple):
        items = items[0]
    return tuple(bare(x) if isinstance(x, tuple) and len(bare(x)) > 1 else (bare(x)[0] if isinstance(x, tuple) and bare(x) else x) for x in items)


def split(items, at):
    parts = [[]]
    for item in items:
        if isinstance(item, str) and item in at:
            parts.append([])
        else:
            parts[-1].append(item)
    return [bare(tuple(part)) for part in parts]


def after_binder(items):
    """What stands after a λ and its variables, at the start."""
    return items[items.index('.') + 1:] if items and items[0] == 'λ' and '.' in items else items


def relation(items):
    """Left side, sign and right side, where the items are one relation."""
    signs = [i for i, x in enumerate(items) if isinstance(x, str) and x in RELATIONS]
    if len(signs) != 1:
        return None
    i = signs[0]
    return bare(items[:i]), items[i], bare(items[i + 1:])


def number(side):
    return side[0] if len(side) == 1 and isinstance(side[0], int) else None


def apart(a, b):
    """Whether two sides are unlike as their text shows: other numerals, other truth values, a number and one more."""
    if None not in (number(a), number(b)):
        return number(a) != number(b)
    if {a, b} == {('true',), ('false',)}:
        return True
    for x, y in ((a, b), (b, a)):
        if x[:1] == ('suc',) and (number(y) == 0 or bare(x[1:]) == y):
            return True
        if len(x) > 2 and x[-2] == '+' and isinstance(x[-1], int) and x[-1] > 0 and (bare(x[:-2]) == y or number(y) == 0):
            return True
    return False


def below(a, b):
    """Whether a < b cannot hold."""
    known = None not in (number(a), number(b))
    return a == b or number(b) == 0 or (known and number(a) >= number(b))


def cannot_hold(items):
    items = bare(items)
    parts = split(items, JOINS)
    if len(parts) > 1:
        return clash(parts)
    if len(split(items, CHOICES)) > 1:
        return all(cannot_hold(part) for part in split(items, CHOICES))
    if len(items) == 1 and items[0] in FALSE:
        return True
    if items[:1] == ('¬',):
        return holds(items[1:])
    parts = relation(items)
    if not parts:
        return False
    a, sign, b = parts
    known = None not in (number(a), number(b))
    return {'≡': apart(a, b), '≢': a == b, '<': below(a, b), '>': below(b, a),
            '≤': known and number(a) > number(b), '≥': known and number(a) < number(b)}[sign]


def clash(parts):
    """Whether facts cannot hold together: one cannot, one is another's opposite, or two give a thing unlike values."""
    if any(cannot_hold(part) for part in parts):
        return True
    denied = [bare(part[1:]) for part in parts if part[:1] == ('¬',)]
    told = [relation(part) for part in parts if relation(part)]
    unlike = any(x[0] == y[0] and x[1] == y[1] == '≡' and apart(x[2], y[2]) for x in told for y in told)
    return unlike or any(part in denied for part in parts)


def holds(items):
    """Whether the fact says nothing: it holds whatever its names stand for."""
    items = bare(items)
    if len(items) == 1 and items[0] in TRUE:
        return True
    if len(split(items, CHOICES)) > 1:
        return any(holds(part) for part in split(items, CHOICES))
    if items[:1] == ('¬',):
        return cannot_hold(items[1:])
    parts = relation(items)
    if not parts:
        return False
    a, sign, b = parts
    return a == b and sign in ('≡', '≤', '≥') or sign == '≤' and number(a) == 0 or sign == '≥' and number(b) == 0


# ---- what a clause says

def premises(items):
    """The premises of an implication, a binder by its type; and its conclusion."""
    parts = split(after_binder(items), ARROWS)
    return [bare(part[part.index(':') + 1:]) if ':' in part else part for part in parts[:-1]], parts[-1]


def bound(items):
    """The names that binders inside a clause bring."""
    names = set()
    for part in split(items, ARROWS)[:-1]:
        names |= {x for x in part[:part.index(':')] if isinstance(x, str)} if ':' in part else set()
    for i, item in enumerate(items):
        rest = items[i + 1:]
        if item in ('λ', '∀'):
            names |= set(flat(rest[:rest.index('.')] if '.' in rest else rest[:1]))
        elif item == 'let':
            names |= set(flat(rest[:1]))
    for item in items:
        names |= bound(item) if isinstance(item, tuple) else set()
    return names


def flat(items):
    for item in items:
        if isinstance(item, tuple):
            yield from flat(item)
        else:
            yield item


def said(items):
    """The tokens by which a clause gives something: not those of premises, of bounds, or of a list's length alone."""
    out = []
    for group in split(items, JOINS):
        conclusion = premises(group)[1]
        if relation(conclusion) and relation(conclusion)[1] != '≡':
            continue
        for before, item in zip((None,) + conclusion, conclusion):
            if before != 'length':
                out += said(item) if isinstance(item, tuple) else [item]
    return out


def empty(items):
    """Why a clause says nothing, or says it of no case."""
    for group in split(items, JOINS):
        given, conclusion = premises(group)
        if clash(given):
            yield 'has a premise that cannot hold'
        if holds(conclusion):
            sides = relation(conclusion)
            yield 'says that a thing equals itself' if sides and sides[1] == '≡' else 'says what always holds'
        if any(part == conclusion for part in given):
            yield 'has its conclusion as a premise'
    for item in items:
        if isinstance(item, tuple):
            yield from empty(item)


def in_let(words):
    """Whether a `let` takes what follows these words, so that it is not yet said."""
    since = words[len(words) - words[::-1].index('in'):] if 'in' in words else words
    return words[-1:] == ['='] and 'let' in since


def named_in(words):
    """What a clause's words name: the result, and a parameter after the call, whole or by a field."""
    named = {'result'} & set(words)
    for i, word in enumerate(words):
        if words[i + 1:i + 2] == ['.new'] and not in_let(words[:i]):
            fields = itertools.takewhile(lambda x: str(x).startswith('.'), words[i + 2:])
            named.add(f'{word}{"".join(fields)}')
    return named


def is_named(thing, named):
    """Whether the thing is named, or a struct that it is a field of."""
    return any(f'{thing}.'.startswith(f'{name}.') for name in named)


# ---- the faults

def clause_faults(clause, params):
    """The faults of one `ensures`, and what it names: the result and parameters after the call."""
    found = ['has a comment in a clause'] if re.search(r'--\s|--$|\{-', clause) else []
    body = tree(clause)
    found += sorted(set(empty(body)))
    again = bound(body) & ({'result'} | set(params))
    found += [f'binds {x} anew in a clause' for x in sorted(again)]
    return found, named_in(said(body))


def function_faults(text, start, fields, holding):
    """The faults of the function whose name ends at `start`, and what its clauses leave unsaid."""
    params, result, clauses, others = taken_apart(text, start)
    promises = [body for kind, body in clauses if kind == 'ensures']
    found = ['has a requires'] if len(promises) < len(clauses) else []
    found += ['has a clause of another kind'] if others else []
    written = lent(params, fields, holding, owner(text, start))
    named = set()
    for clause in promises:
        wrong, names = clause_faults(clause, {x.split('.')[0] for x in written})
        found += wrong
        named |= names
    wanted = written + (['result'] if re.sub(r'[\s()]', '', result.replace('->', '')) else [])
    return found, ([] if promises else ['ensures']) + [x for x in wanted if not is_named(x, named)]


def unsaid_fault(name, x):
    if x == 'ensures':
        return f'{name} has no ensures'
    return f'no clause of {name} says ' + ('its result' if x == 'result' else f'{x} after the call')


def functions(text):
    """The name and its end of each public function, the methods of a public trait among them."""
    found = [*PUBLIC.finditer(text), *EXPORTED.finditer(text)]
    for m in TRAIT.finditer(text):
        found += METHOD.finditer(text, m.end(), closing(text, m.end() - 1))
    return sorted({m.end(): m.group(1) for m in found}.items())


def strange_signs(text):
    """The signs that a file brings in from elsewhere than their own module."""
    for m in re.finditer(r'\bghost\s+use\s+([^;{]*?)\.?\{([^}]*)\}', text):
        for part in m.group(2).split(','):
            name = part.split(' as ')[-1].strip()
            if name in HOMES and (HOMES[name] != m.group(1).strip() or ' as ' in part):
                yield text.count('\n', 0, m.start()) + 1, name


def text_faults(text, path='', left_open=None, holding=(), declared=()):
    """The faults of one file. `left_open` lists what its functions may leave unsaid; other files have types that hold a `&mut`, and structs."""
    left_open = {} if left_open is None else left_open
    text = without_comments(text)
    holding = holders(text) | set(holding)
    declared = [x for x in declared if x[0] != path] + structs(text, path)
    fields = functools.partial(fields_of, path=path, text=text, declared=declared)
    for line, name in strange_signs(text):
        yield f'{path}:{line}: {name} is brought in from another module than its own'
    unsaid = {}
    for start, name in functions(text):
        found, missing = function_faults(text, start, fields, holding)
        line = text.count('\n', 0, start) + 1
        for fault in found:
            yield f'{path}:{line}: {name} {fault}'
        for x in missing:
            if x not in left_open.get(f'{path} {name}', ()):
                yield f'{path}:{line}: {unsaid_fault(name, x)}'
        unsaid[name] = unsaid.get(name, []) + missing
    for name, missing in unsaid.items():
        for x in left_open.get(f'{path} {name}', ()):
            if x not in missing:
                yield f'{path}: {name} says {x}, which scripts/contracts.py has as open: take it from the list'


def faults():
    """The faults of every library crate."""
    texts = {}
    for root in sorted(glob.glob('crates/*/src/lib.rt')):
        for path in sorted(glob.glob(os.path.join(os.path.dirname(root), '**', '*.rt'), recursive=True)):
            texts[path] = without_comments(open(path, encoding='utf-8').read())
    holding = set().union(*(holders(text) for text in texts.values()))
    declared = [x for path, text in texts.items() for x in structs(text, path)]
    there = set()
    for path, text in texts.items():
        yield from text_faults(text, path, OPEN, holding, declared)
        there |= {f'{path} {name}' for _, name in functions(text)}
    for key in sorted(set(OPEN) - there):
        yield f'{key} is left open in scripts/contracts.py and is not there'
    if not there:
        yield 'no public function was found'


def main():
    found = list(faults())
    for fault in found:
        print('contracts:', fault)
    return 1 if found else 0


if __name__ == '__main__':
    sys.exit(main())
