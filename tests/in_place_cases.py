"""Writes crates/in_place_run/stdout: the cases that the program runs, worked out with whole numbers of any size."""
import os

from limits import COUNT as WORDS

TOP = (1 << 32) - 1
BITS = 32 * WORDS
HALF = BITS // 2
ROOM = 4 * WORDS
HERE = os.path.dirname(os.path.abspath(__file__))


def block(start, end, word):
    return sum(word << (32 * i) for i in range(start, end))


BETWEEN = sum((TOP - 65537 * i) << (32 * i) for i in range(1, WORDS // 2))
SAMPLES = [0, 1, block(0, WORDS // 2, TOP), block(0, WORDS, TOP), BETWEEN]
SHIFTS = [(0, 0), (31, 31), (33, 32), (64, 95), (HALF - 1, HALF - 1), (HALF + 1, HALF), (1, HALF + 32), (BITS - 1, TOP)]
USED = [WORDS, WORDS // 2 + 1, 0]
lines = []


def fit(n, words):
    return f'= {n:x}' if n < 1 << (32 * words) else '! 0'


def low(n, words):
    return n % (1 << (32 * words))


def shifted(n, k):
    return n << k if n == 0 or k < 100000 else 1 << 100000


def order(a, b):
    return 'less' if a < b else 'equal' if a == b else 'greater'


for i, a in enumerate(SAMPLES):
    for j, b in enumerate(SAMPLES):
        for used in USED:
            x, y = low(a, used), low(b, used)
            for s, t in SHIFTS:
                lines.append(f'sum {i} {j} {s} {t} {used} ' + fit(shifted(x, s) + shifted(y, t), used))
                lines.append(f'more {i} {j} {t} {used} ' + fit(x + shifted(y, t), used))
            lines.append(f'compare {i} {j} {used} ' + order(x, y))
            lines.append(f'product {i} {j} {used} ' + fit(x * low(b, WORDS + 1 - used), WORDS) if used else f'product {i} {j} 0 ' + fit(0, WORDS))
for at in [0, 1, ROOM - WORDS, ROOM - WORDS + 1, 2**64 - 1 - WORDS, 2**64 - WORDS, 2**64 - 1]:
    s = [0] * ROOM
    s[0] = 7
    read = lambda p: sum(w << (32 * k) for k, w in enumerate(s[p:p + WORDS])) if p + WORDS <= len(s) else 0
    lines.append(f'compare at {at} ' + order(read(0), read(at)))
    lines.append(f'compare at {at} ' + order(read(at), read(0)))
for x in [0, 1, TOP]:
    for bits in [32, 33, 95, HALF - 1, HALF, HALF + 1, BITS - 1]:
        lines.append(f'power less {bits} {x} {(1 << bits) - x:x} {x:x}')
for bits in [0, 31, 32, HALF - 1, HALF, BITS - 1, BITS, TOP]:
    lines.append(f'words for {bits} {bits // 32 + 1}')
with open(os.path.join(HERE, '..', 'crates', 'in_place_run', 'stdout'), 'w') as out:
    out.write('\n'.join(lines) + '\n')
