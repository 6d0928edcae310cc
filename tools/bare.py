#!/usr/bin/env python3
"""bare.py CRATE [FN ..] [--using], at the top of a tree: takes away the answers of each function (or of each FN) of a crate that proves, names the definitions that
they unfolded (with --using also the lemmas that they cited) in an attribute on the function, checks, and puts back the answers of the functions that did not
close. It prints how many went, and which stay. Run `rt fmt` and `rt tidy` in the crate afterwards."""
import os
import re
import subprocess
import sys

FN = r'(?m)^([ \t]*)((?:pub(?:\(crate\))? )?(?:unsafe )?fn %s\b)'


def source_of(rel):
    """The source file of the function whose answers stand in proofs/`rel`, and its name."""
    *modules, name = rel.split('/')
    files = (['src/' + '/'.join(modules) + '.rt'] if modules else []) + ['src/lib.rt', 'src/main.rt']
    return next((f for f in files if os.path.exists(f)), None), name


def attribute(crate, text, using):
    """The attribute that opens what these answers unfolded, or None where they unfolded nothing that an attribute can name."""
    came = {}
    for m in re.finditer(r'(?m)^use ([\w.·]+)\.\{([^}]*)\}', text):
        came.update({name.strip(): m.group(1).split('.') for name in m.group(2).split(',')})

    def path(name, folder):
        parts = came.get(name, [])
        if parts[:1] != ['Rattle'] or folder not in parts or parts[-1] == 'Goals' or parts[1] == 'std' or not re.fullmatch(r'[A-Za-z_]\w*', name):
            return None
        return '::'.join(['crate' if parts[1] == crate else parts[1], *parts[2:], name])

    opened = [w for m in re.finditer(r'(?m)^unfolding (.*)$', text) for w in m.group(1).split()]
    opened = list(dict.fromkeys(filter(None, (path(w, 'specs') for w in opened))))
    cited = list(filter(None, (path(w, 'proofs') for w in came))) if using else []
    lists = [f'using({", ".join(cited)})'] * bool(cited) + [f'unfolding({", ".join(opened)})'] * bool(opened)
    return f'#[tactic(auto, {", ".join(lists)})]' if lists else None


def functions(crate, only, using):
    """For each function with answers, and no attribute yet: where they stand, its source and name, the attribute, and the answers."""
    found = []
    for folder, _, files in sorted(os.walk('proofs')):
        rel = os.path.relpath(folder, 'proofs')
        if 'Answers.antt' not in files or '+' in rel or (only and rel.split('/')[-1] not in only):
            continue
        text = open(f'{folder}/Answers.antt', encoding='utf-8').read()
        file, name = source_of(rel)
        places = list(re.finditer(FN % re.escape(name), open(file, encoding='utf-8').read())) if file else []
        if len(places) == 1 and not places[0].string[:places[0].start()].rstrip().split('\n')[-1].lstrip().startswith('#[tactic'):
            found.append((rel, file, name, attribute(crate, text, using), text))
    return found


def write(sources, every, bare):
    """The tree in which the functions of `bare` have an attribute and no answers, and the others their answers."""
    for file, text in sources.items():
        for _, where, name, told, _ in bare:
            if where == file and told:
                text = re.sub(FN % re.escape(name), lambda m, told=told: f'{m.group(1)}{told}\n{m.group(1)}{m.group(2)}', text, count=1)
        open(file, 'w', encoding='utf-8').write(text)
    for row in every:
        answers = f'proofs/{row[0]}/Answers.antt'
        if row in bare:
            if os.path.exists(answers):
                os.remove(answers)
        else:
            os.makedirs(os.path.dirname(answers), exist_ok=True)
            open(answers, 'w', encoding='utf-8').write(row[4])


def open_ones(crate, bare):
    """Those of `bare` that the check does not prove by themselves."""
    said = subprocess.run(['rt', 'check', '--allow-holes'], stdout=subprocess.PIPE, stderr=subprocess.STDOUT, text=True).stdout
    lines = dict(re.findall(r'(?m)^fn (\S+): (?:no proof|not proved)(.*)', said))
    failed = []
    for row in bare:
        line = lines.get('::'.join([crate, *row[0].split('/')]), '')
        # a function that only waits for a callee stays bare
        if line and ('did not prove' in line or 'calls' not in line):
            failed.append(row)
    return failed


def main():
    words = [w for w in sys.argv[1:] if not w.startswith('--')]
    if not words:
        sys.exit('usage: bare.py CRATE [FN ..] [--using]')
    crate, only = words[0], set(words[1:])
    os.chdir(f'crates/{crate}')
    every = functions(crate, only, '--using' in sys.argv)
    sources = {row[1]: open(row[1], encoding='utf-8').read() for row in every}
    bare = list(every)
    for _ in range(4):
        write(sources, every, bare)
        failed = open_ones(crate, bare)
        if not failed:
            break
        bare = [row for row in bare if row not in failed]
    write(sources, every, bare)
    print(f'{crate}: {len(bare)} of {len(every)} bare; kept: {" ".join(row[0] for row in every if row not in bare)}')


if __name__ == '__main__':
    main()
