#!/usr/bin/env python3
"""Makes the stored list of calls: callers/stored/cases, and the oracle's answers to them in callers/stored/answers.

    oracle/build && python3 scripts/stored.py target/oracle/build/release/oracle

`callers/run` gives the cases to the driver and compares every byte of its output with the answers. The cases are those of `oracle gen-small`,
short ones of `scripts/borders.py`, and random ones from a fixed seed; of each call and refusal number only so many are kept, evenly spread. After them stand
fallbacks and histories with fallbacks among their steps, and the swizzles and fallbacks of `scripts/stored_cases.txt`. Only calls of oracle/OPS are taken.
"""
import array
import subprocess
import sys
import tempfile

OPS = [int(op) for op in open("oracle/OPS").read().split(",")]
# the calls whose payload starts with a log's room
LOGS = [6, 10, 11, 12, 13, 21, 22, 23, 29]
MAX_LOG_ROOM = 200000
SEED = 7
RANDOM = 60000
# layouts, the calls on ports, and swizzles with histories are drawn apart, so that the other random cases stay as they are
LAYOUT = 40
RANDOM_LAYOUTS = 6000
ON_PORTS = [13, 21, 22, 23]
RANDOM_ON_PORTS = 12000
SWIZZLES = [27, 30]
RANDOM_SWIZZLES = 9000
# fallbacks too, and histories with them
FALLBACK, HISTORY = 29, 30
RANDOM_FALLBACKS = 1500
# of the accepted ones: from the systematic list and from the random ones; and the most words of a random case with its answer
KEEP_SWIZZLES = (360, 240)
KEEP_FALLBACKS = (60, 60)
MAX_SWIZZLE = 900
ADDED = 'scripts/stored_cases.txt'
# of each call and number: from the systematic list, from the random ones, from those at borders, and the most words of a random case
KEEP_SMALL = 160
KEEP_RANDOM = 60
KEEP_BORDER = 240
MAX_RANDOM = 160
# the most words of a case at a border
MAX_BORDER = 260
# the calls over a memory, whose cases are longer: of these a quarter; and the most words of a case
MEMORIES = [13, *range(20, 31), LAYOUT]
MAX_CASE = 20480


def words_of(data):
    words = array.array('I')
    words.frombytes(data)
    if sys.byteorder == 'big':
        words.byteswap()
    return words


def split(data):
    """The parts `x, n, n words` of a stream."""
    words = words_of(data)
    at = 0
    parts = []
    while at < len(words):
        end = at + 2 + words[at + 1]
        parts.append(words[at:end])
        at = end
    return parts


def run(program, arguments, given=b''):
    return subprocess.run([program, *arguments], input=given, stdout=subprocess.PIPE, check=True).stdout


def answered(program, cases):
    answers = split(run(program, ['answer'], cases))
    return list(zip(split(cases), answers, strict=True))


def spread(items, most):
    """At most so many of the items, evenly spread."""
    if len(items) <= most:
        return items
    return [items[i * len(items) // most] for i in range(most)]


def fits(case):
    return len(case) <= MAX_CASE and (case[0] not in LOGS or case[2] <= MAX_LOG_ROOM)


def short(case, answer):
    if case[0] in (*SWIZZLES, FALLBACK):
        return len(case) + len(answer) <= MAX_SWIZZLE and fits(case)
    return len(case) <= MAX_RANDOM and fits(case)


def kept(pairs, most, swizzles=0):
    groups = {}
    for case, answer in pairs:
        groups.setdefault((case[0], answer[0]), []).append((case, answer))
    whole = (*SWIZZLES, FALLBACK)
    count = lambda op, number: swizzles if op in whole and number == 0 and swizzles else most // 4 if op in MEMORIES else most
    return [pair for key in sorted(groups) for pair in spread(groups[key], count(*key))]


def added(program):
    """The cases of the text, whose answers must be the oracle's."""
    lines = [line.split(' = ') for line in open(ADDED) if ' = ' in line]
    times = lambda word: [int(word.split('*')[0])] * int((word + '*1').split('*')[1])
    words = lambda text: array.array('I', [n for word in text.split() for n in times(word)])
    pairs = [(words(case), words(answer)) for case, answer in lines]
    stream = b''.join(case.tobytes() for case, _ in pairs)
    if sys.byteorder == 'little' and answered(program, stream) != pairs:
        sys.exit(f"stored: {ADDED} has an answer that is not the oracle's")
    return pairs


def fallbacks(program):
    """Calls 29 and histories with them: the systematic ones, which a list without 29 has not, and random ones."""
    if FALLBACK not in OPS:
        return []
    without = {case.tobytes() for case in split(run(program, ['gen-small', str(HISTORY)]))}
    systematic = run(program, ['gen-small', str(FALLBACK), str(HISTORY)])
    systematic = [p for p in answered(program, systematic) if p[0].tobytes() not in without and short(*p)]
    random = [p for p in answered(program, run(program, ['gen', str(SEED), str(RANDOM_FALLBACKS), str(FALLBACK), str(HISTORY)])) if short(*p)]
    small, drawn = KEEP_FALLBACKS
    return kept(systematic, KEEP_SMALL, small) + kept(random, KEEP_RANDOM, drawn)


def borders():
    """The cases at the borders of the limits."""
    with tempfile.NamedTemporaryFile() as out:
        subprocess.run([sys.executable, 'scripts/borders.py', out.name], stdout=subprocess.DEVNULL, check=True)
        return out.read()


def main():
    if len(sys.argv) != 2:
        sys.exit('usage: stored.py ORACLE')
    program = sys.argv[1]
    ops = [str(op) for op in OPS if op not in (LAYOUT, *ON_PORTS, *SWIZZLES, FALLBACK)]
    on_ports = [str(op) for op in OPS if op in ON_PORTS]
    swizzles = [str(op) for op in OPS if op in SWIZZLES]
    others = [str(op) for op in OPS if op != FALLBACK]
    systematic = [p for p in answered(program, run(program, ['gen-small', *others])) if p[0][0] in OPS and fits(p[0])]
    drawn = run(program, ['gen', str(SEED), str(RANDOM), *ops]) + run(program, ['gen', str(SEED), str(RANDOM_LAYOUTS), str(LAYOUT)])
    if on_ports:
        drawn += run(program, ['gen', str(SEED), str(RANDOM_ON_PORTS), *on_ports])
    if swizzles:
        drawn += run(program, ['gen', str(SEED), str(RANDOM_SWIZZLES), *swizzles])
    random = [p for p in answered(program, drawn) if p[0][0] in OPS and short(*p)]
    border = [p for p in answered(program, borders()) if p[0][0] in OPS and p[0][0] != FALLBACK and len(p[0]) <= MAX_BORDER]
    small, drawn = KEEP_SWIZZLES
    chosen = kept(systematic, KEEP_SMALL, small) + kept(border, KEEP_BORDER) + kept(random, KEEP_RANDOM, drawn)
    chosen += fallbacks(program)
    chosen += added(program) if swizzles else []
    for name, part in (('cases', 0), ('answers', 1)):
        with open(f'callers/stored/{name}', 'wb') as out:
            for pair in chosen:
                words = pair[part][:]
                if sys.byteorder == 'big':
                    words.byteswap()
                out.write(words.tobytes())
    print(len(chosen), 'calls')


main()
