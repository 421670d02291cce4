"""Writes crates/naturals_run/stdout: the cases that the program runs, worked out with whole numbers of any size."""
import os

from limits import COUNT as WORDS

BITS = 32 * WORDS
HALF = BITS // 2
LIMIT = 1 << BITS
TOP = (1 << 32) - 1
HERE = os.path.dirname(os.path.abspath(__file__))


def number(words):
    return sum(w << (32 * i) for i, w in enumerate(words))


def block(start, end, word):
    return sum(word << (32 * i) for i in range(start, end))


def falling(count):
    return number([TOP - 65537 * i for i in range(count)])


SAMPLES = [
    0, 1, TOP, 1 << 32, (1 << HALF) - 1, 1 << HALF, LIMIT - 1, 1 << (BITS - 1),
    block(0, WORDS, 2309737967), 3, (1 << HALF) + 1, block(2, WORDS - 2, 4275878552), falling(WORDS // 2), falling(WORDS // 2 + 1), falling(WORDS),
]
SHIFTS = [0, 1, 31, 32, 33, 127, 128, HALF - 32, HALF - 1, HALF, HALF + 1, HALF + 32, BITS - 32, BITS - 1, BITS, BITS + 1, TOP]
DIVISORS = [0, 1, 3, 10, 65536, 2147483649, 4294967295]
LAST = 12               # the last place of the slice that is loaded from
ROOM = LAST + WORDS     # its words
PLACES = [0, 1, LAST - 1, LAST, LAST + 1, ROOM, 2**64 - 1 - WORDS, 2**64 - WORDS, 2**64 - 1]
lines = []


def fit(ok, n):
    return f'= {n:x}' if ok else '! 0'


def below(n):
    return fit(n < LIMIT, n)


def shifted(a, k):
    if a == 0:
        return below(0)
    return '! 0' if k > 100000 else below(a << k)


def load(s, at):
    lines.append(f'load {len(s)} {at} ' + fit(at + WORDS <= len(s), number(s[at:at + WORDS])))


def order(a, b):
    return 'less' if a < b else 'equal' if a == b else 'greater'


def store(s, at):
    ok = at + WORDS <= len(s)
    if ok:
        s[at:at + WORDS] = [(SAMPLES[8] >> (32 * i)) & TOP for i in range(WORDS)]
    lines.append(f'store {len(s)} {at} ' + ('= ' if ok else '! ') + ''.join(f'{w:08x}' for w in s))


for i, a in enumerate(SAMPLES):
    lines.append(f'sample {i} ' + ('zero ' if a == 0 else '') + f'{a:x}')
    for j, b in enumerate(SAMPLES):
        lines.append(f'add {i} {j} ' + below(a + b))
        lines.append(f'subtract {i} {j} ' + fit(b <= a, a - b))
        lines.append(f'multiply {i} {j} ' + below(a * b))
        lines.append(f'compare {i} {j} ' + order(a, b))
    for k in SHIFTS:
        lines.append(f'shift {i} {k} ' + shifted(a, k))
    for d in DIVISORS:
        lines.append(f'divide {i} {d} ' + (f'= {a % d:x} {a // d:x}' if d else '! 0 0'))
        for c in (0, TOP):
            lines.append(f'times {i} {d} {c} ' + below(a * d + c))
for k in SHIFTS:
    lines.append(f'power {k} ' + shifted(1, k))
    lines.append(f'word {k} {k:x}')
lines.append('zero 0')
for at in PLACES:
    s = [2863311530 + i for i in range(ROOM)]
    load(s, at)
    store(s, at)
s = [5] * (WORDS - 1)
load(s, 0)
store(s, 0)
s = [6] * WORDS
load(s, 0)
load(s, 1)
store(s, 1)
store(s, 0)
with open(os.path.join(HERE, '..', 'crates', 'naturals_run', 'stdout'), 'w') as out:
    out.write('\n'.join(lines) + '\n')
