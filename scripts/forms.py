#!/usr/bin/env python3
"""Counts the places of docs/DESIGN-PASS.md in crates/*/src: one line a point, and with --where each place. `python3 scripts/forms.py [--where POINT]`, at the top
of a tree; for another commit run it in a work tree of that commit (`git worktree add`)."""
import collections
import glob
import re
import sys

SOURCES = sorted(glob.glob('crates/*/src/**/*.rt', recursive=True))
TEXT = {f: open(f, encoding='utf-8').read() for f in SOURCES}
FN = re.compile(r'(?m)^[ \t]*(?:pub(?:\(crate\))? )?(?:unsafe )?(?:extern "C" )?fn (\w+)(?:<[^>]*>)?\(')


def body_end(text, at):
    """The end of the parentheses that open at `at`."""
    depth = 0
    for i in range(at, len(text)):
        if text[i] in '([{':
            depth += 1
        if text[i] in ')]}':
            depth -= 1
            if depth == 0:
                return i
    return len(text)


def functions():
    """Each function: file, name, parameters, result, and its clauses up to the body."""
    for file, text in TEXT.items():
        for m in FN.finditer(text):
            end = body_end(text, m.end() - 1)
            params = text[m.end():end]
            rest = text[end + 1:end + 4000]
            stop = re.search(r'(?m)^[ \t]*\{$|;\n| \{\n', rest)
            head = rest[:stop.start()] if stop else rest
            result = re.match(r'\s*->\s*([^\n{]+?)(?:\s*\{|\s*\n|$)', rest)
            yield file, m.group(1), params, result.group(1).strip() if result else '', head


def options():
    """Point 1: own enums shaped like Option or Result; functions whose number says that they refuse."""
    out = []
    for file, text in TEXT.items():
        for m in re.finditer(r'enum (\w+)(?:<[^>]*>)? \{(.*?)\n\}', text, re.S):
            variants = re.findall(r'(?m)^    (\w+)', m.group(2))
            if re.search(r'\b(Refused|None|Bad|Missing)\b', ' '.join(variants)) and len(variants) < 3:
                out.append(f'{file}: enum {m.group(1)}')
    for file, name, params, result, head in functions():
        if '/c_' in file or 'tablegoose_c' in file:
            continue
        if result == 'u32' and re.search(r'_(refusal|number|call|number_by|rooms)\b|filled_with|_number ', head) and 'ensures' in head:
            out.append(f'{file}: fn {name} -> u32')
        elif result == 'u32' and re.search(r'(_refusal|_number)$', name):
            out.append(f'{file}: fn {name} -> u32')
    for file, text in TEXT.items():
        if '/c_' in file:
            continue
        for m in re.finditer(r'struct (\w+)(?:<[^>]*>)? \{(.*?)\n\}', text, re.S):
            if re.search(r'(?m)^    (?:pub )?(refusal|number): u32', m.group(2)):
                out.append(f'{file}: struct {m.group(1)} with a number beside its value')
    return out


def twins():
    """Point 2: functions of one file or crate whose names differ in a type, a width or a word of a pair, with bodies of one shape."""
    shapes = collections.defaultdict(list)
    for file, text in TEXT.items():
        for m in FN.finditer(text):
            start = m.start()
            end = text.find('\n}\n', start)
            piece = text[m.end():end]
            if piece.count('\n') < 6:
                continue
            words = {}
            shape = re.sub(r'[A-Za-z_]\w*|\d+', lambda w: words.setdefault(w.group(0), f'w{len(words)}'), re.sub(r'\s+', ' ', piece))
            shapes[shape].append(f'{file}: fn {m.group(1)}')
    return [' ~ '.join(names) for names in shapes.values() if len(names) > 1]


def loops():
    """Point 3: loops written by `while` or `loop`."""
    return [f'{f}:{n}' for f, t in TEXT.items() for n, line in enumerate(t.split('\n'), 1) if re.match(r'\s*(\'\w+: )?(while|loop)\b', line)]


def by_hand():
    """Point 4: casts, equality and the like by functions of our own."""
    out = [f'{f}:{n}' for f, t in TEXT.items() for n, line in enumerate(t.split('\n'), 1)
           for _ in re.findall(r'lists::(?:usize_of_u32|u64_of_u32|u32_of_u16|u32_of_u8|usize_of_u64|u64_of_usize|smaller|larger|minus)\b', line)]
    for file, name, params, result, head in functions():
        if re.match(r'(same|equal|eq)(_|$)', name) and result == 'bool' or re.match(r'(smaller|larger|lower|higher|minus|less|more|both|either|put_number|digits_of)(_\w+)?$', name):
            out.append(f'{file}: fn {name}')
    return out


GROUPS = [('log', 'st'), ('clear', 'reset', 'init'), ('nets', 'trits'), ('entries', 'writes', 'reads')]


def together():
    """Point 5: functions that take the parameters of a group side by side, and facts that stand in three or more contracts."""
    out = []
    for file, name, params, result, head in functions():
        names = re.findall(r'(\w+):', params)
        for group in GROUPS:
            if all(g in names for g in group):
                out.append(f'{file}: fn {name} takes {", ".join(group)}')
    facts = collections.defaultdict(list)
    for file, name, params, result, head in functions():
        for m in re.finditer(r'requires (?:\w+ )?\{ (.*?) \}\n', head):
            facts[(file.split('/')[1], m.group(1))].append(name)
    out += [f'crates/{c}: {f!r} in {len(n)} contracts' for (c, f), n in facts.items() if len(n) > 2]
    return out


def beside():
    """Point 6: a length or a count beside what it counts, in a struct or among parameters."""
    out = []
    for file, text in TEXT.items():
        for m in re.finditer(r'struct (\w+)(?:<[^>]*>)? \{(.*?)\n\}', text, re.S):
            fields = re.findall(r'(?m)^    (?:pub )?(\w+):', m.group(2))
            if any(re.search(r'(_len|_count|^len|^count)$', f) for f in fields) and re.search(r': \[|: &', m.group(2)):
                out.append(f'{file}: struct {m.group(1)}')
    return out


def switches():
    """Point 7: an enum or a flag that says which step to run, passed down."""
    out = []
    for file, text in TEXT.items():
        private = re.findall(r'(?m)^enum (\w+)', text)
        for e in private:
            takers = [n for f, n, p, r, h in functions() if f == file and re.search(rf': {e}\b', p)]
            if takers:
                out.append(f'{file}: enum {e} taken by {", ".join(takers)}')
    return out


def proofs():
    """Point 8: lines of proof files: answers, invariants, lemmas."""
    kinds = collections.Counter()
    for f in glob.glob('crates/*/proofs/**/*.antt', recursive=True):
        kind = 'answers' if f.endswith('Answers.antt') else 'invariants' if f.endswith('Invariants.antt') else 'lemma files'
        kinds[kind] += sum(1 for line in open(f, encoding='utf-8') if line.strip() and not line.startswith(('use ', '--')))
        kinds[kind + ', files'] += 1
    return [f'{k}: {v}' for k, v in sorted(kinds.items())]


POINTS = [options, twins, loops, by_hand, together, beside, switches, proofs]

if __name__ == '__main__':
    if sys.argv[1:2] == ['--where']:
        print('\n'.join(POINTS[int(sys.argv[2]) - 1]()))
    else:
        for i, point in enumerate(POINTS, 1):
            found = point()
            print(f'{i}  {len(found) if point is not proofs else "; ".join(found)}  {point.__doc__.split(": ", 1)[1]}')
