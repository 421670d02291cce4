"""Writes crates/counts_run/stdin and stdout: diagrams, and what document 01 says of their counts, small queries and negation."""
import itertools
import os
import random
import struct

from diagram_cases import D, HALF, full, ladder, layered, terminals, widest
from limits import COUNT, MAX_NODES, MAX_VARS, ROOM
from reading import most, room_after, verdict

HERE = os.path.dirname(os.path.abspath(__file__))
FOLDER = os.path.join(HERE, '..', 'crates', 'counts_run')
OUTPUT = 3 * MAX_NODES + 12
SHORT = 5
DIGITS = 8 * COUNT                                      # hexadecimal ones of a count


def node(words, p):
    return words[3 * p:3 * p + 3]


def holds(words, bits):
    p = len(words) // 3 - 1
    while p > 1:
        v, low, high = node(words, p)
        p = high if bits[v] else low
    return p == 1


def count(words):
    """By trying every valuation where they are few; else from the root down, a variable at a time."""
    v, n = words[0], len(words) // 3
    if v <= 8:
        return sum(holds(words, bits) for bits in itertools.product([0, 1], repeat=v))
    ways = {n - 1: 1}                                   # how many partial valuations arrive at each node
    for i in range(v):
        after = {}
        for p, k in ways.items():
            var, low, high = node(words, p)
            for q in ((low, high) if p > 1 and var == i else (p, p)):
                after[q] = after.get(q, 0) + k
        ways = after
    return ways.get(1, 0)


def paths(words):
    known = {0: 0, 1: 1}

    def at(p):
        if p not in known:
            _, low, high = node(words, p)
            known[p] = at(low) + at(high)
        return known[p]
    return at(len(words) // 3 - 1)


def float_bits(words):
    """The count as a double: Python's floats are IEEE doubles, and `*` by a power of two and `+` round as the Rust's. Nodes are taken by
    falling variable; where the true count is at most 2 ** 53, the double has to be that number."""
    v, n = words[0], len(words) // 3
    known = {0: 0.0, 1: 1.0}
    for p in sorted(range(2, n), key=lambda p: -words[3 * p]):
        var, low, high = node(words, p)
        known[p] = known[low] * 2.0 ** (words[3 * low] - var - 1) + known[high] * 2.0 ** (words[3 * high] - var - 1)
    total = known[n - 1] * 2.0 ** words[3 * (n - 1)]
    assert count(words) > 2 ** 53 or total == count(words)
    return struct.unpack('<Q', struct.pack('<d', total))[0]


def walk(words, every):
    """The Rust's is_clause and, where every variable has to be tested, is_valuation."""
    p, expected = len(words) // 3 - 1, 0
    while p != 1:
        if p == 0:
            return False
        var, low, high = node(words, p)
        if every and var != expected:
            return False
        expected += 1
        if low == 0:
            p = high
        elif high == 0:
            p = low
        else:
            return False
    return not every or words[3] == expected


def negated(words):
    v, n = words[0], len(words) // 3
    if n == 1:
        return terminals(v)
    if n == 2:
        return terminals(v)[:3]
    swap = {0: 1, 1: 0}
    return words[:6] + [swap.get(x, x) if i % 3 else x for i, x in enumerate(words[6:])]


def said(answer):
    kind, a, b = answer
    return f'accepted nodes {a} vars {b}' if kind == 'accepted' else f'refused {a} at {b}'


def per_variable(words, room, lent):
    """The nodes of each variable, in an output of that length."""
    answer = verdict(words, room, ('variables', lent))
    n, v = answer[1:] if answer[0] == 'accepted' else (0, 0)
    at = [words[3 * p] for p in range(2, n)]
    return f', per variable in {lent} {said(answer)} kept {lent - v} words' + ''.join(f' {at.count(c)}' for c in range(v))


def line(words, room, word):
    yes = {True: 'yes', False: 'no'}
    plain, short, dia = (verdict(words, room, out) for out in (None, ('diagram', SHORT), ('diagram', OUTPUT)))
    ok = plain[0] == 'accepted'
    n, v = (plain[1], plain[2]) if ok else (0, 0)
    zeros = room_after(words, room)
    result = negated(words) if ok else []
    left = result + [word] * (OUTPUT - len(result))
    return ''.join([
        said(plain), f', count {count(words) if ok else 0:0{DIGITS}x}', f', paths {paths(words) if ok else 0:0{DIGITS}x}', f', float {float_bits(words) if ok else 0:016x}',
        f', size {n}, vars {v}', f', true {yes[ok and n == 2]}, false {yes[ok and n == 1]}',
        f', clause {yes[ok and walk(words, False)]}, valuation {yes[ok and walk(words, True)]}',
        f', room zero {zeros} kept {room - zeros}',
        *(per_variable(words, room, lent) for lent in (OUTPUT, MAX_VARS, MAX_VARS - 1)),
        f', short {said(short)} kept {SHORT}',
        f', not {said(dia)} nodes {len(result) // 3} words', ''.join(f' {x}' for x in left[:len(words)]), '\n'])


def chain(v, bits, skip=()):
    """x0 or its opposite and x1 .., without the variables in `skip`: nodes from the last variable up."""
    words, below = terminals(v), 1
    for i in reversed(range(v)):
        if i not in skip:
            words += [i, 0, below] if bits[i] else [i, below, 0]
            below = len(words) // 3 - 1
    return words


def parity(v):
    words, even, odd = terminals(v), 0, 1
    for i in reversed(range(1, v)):
        words += [i, even, odd, i, odd, even]
        even, odd = len(words) // 3 - 2, len(words) // 3 - 1
    return words + [0, even, odd]


def doubled(v):
    """A node with low = high for each variable: true, and 2 ** v paths."""
    words, below = terminals(v), 1
    for i in reversed(range(v)):
        words += [i, below, below]
        below = len(words) // 3 - 1
    return words


def some_of_the_last(v, k):
    """All variables hold but the last k, and of these at least one: 2 ** k - 1 valuations."""
    words, below = terminals(v), 0
    for i in reversed(range(v)):
        words += [i, below, 1] if i >= v - k else [i, 0, below]
        below = len(words) // 3 - 1
    return words


def wide():
    """Many variables, and counts of all sizes up to the most, also on either side of 2 ** 53, up to which the float is the count."""
    rng = random.Random(1993)
    for k in (53, 54, HALF - 1, HALF, HALF + 1):
        yield some_of_the_last(MAX_VARS, k)
        yield chain(MAX_VARS, [1] * MAX_VARS, set(range(MAX_VARS - k, MAX_VARS)))       # 2 ** k valuations
    yield some_of_the_last(MAX_VARS, MAX_VARS)
    for v in (HALF - 1, HALF, HALF + 1):
        yield terminals(v)
    for v in (300, 400, MAX_VARS):
        for n in (20, 100, v + 2):
            yield ladder(rng, n, v)
        yield layered(rng, 100, v)


def cases():
    rng = random.Random(2019)

    def exact(words, more=0):
        return words, ROOM * most(len(words) // 3) + more, 7

    yield exact(D)
    yield exact(D, 5)
    yield D, ROOM * 5 - 1, 7
    yield exact([])
    yield exact(D[:-1])
    yield exact([0, 0, 0, 0, 0, 0])
    yield exact([1, 0, 0, 1, 1, 1, 0, 2, 0, 0, 2, 1])
    yield exact([1, 0, 0, 1, 1, 1, 0, 1, 2, 0, 2, 1])
    for words in widest():
        yield exact(words)
    yield full(MAX_VARS), ROOM * MAX_NODES - 1, 7
    for more, words in enumerate(wide()):
        yield exact(words, more % 3)
    for v in (0, 1, 2, 5, MAX_VARS - 1):
        yield exact(terminals(v)[:3])
        yield exact(terminals(v))
    for v in (1, 2, 3, 8, 32, 33, 64, MAX_VARS):
        bits = [rng.randrange(2) for _ in range(v)]
        yield exact(chain(v, bits))
        yield exact(doubled(v))
        yield exact(terminals(v) + [rng.randrange(v), 0, 1])
        yield exact(terminals(v) + [v - 1, 0, 0])
        if v > 1:
            yield exact(chain(v, bits, {v - 1}))
            yield exact(chain(v, bits, {0}))
            yield exact(chain(v, bits, {v // 2}))
            yield exact(parity(v))
    for v in (1, 2, 3, 4):
        words = terminals(v) + [0, 1, 1]
        yield exact(words)
    yield exact([2, 0, 0, 2, 1, 1, 1, 0, 1, 1, 0, 1, 0, 2, 3])                  # two equal nodes
    yield exact([1, 0, 0, 1, 1, 1, 0, 0, 0])                                     # false in three nodes
    for k in range(160):
        v = rng.choice([1, 2, 3, 4, 5, 6, 7, 8])
        yield exact(layered(rng, rng.randrange(3, 30), v, rng.choice(['random', 'children first', 'children last'])))
    for k in range(30):
        v = rng.choice([20, 63, 64, 100, 200, MAX_VARS])
        yield exact(layered(rng, rng.randrange(20, 200), v, rng.choice(['random', 'children first', 'children last'])))


def main():
    with open(os.path.join(FOLDER, 'stdin'), 'w') as given, open(os.path.join(FOLDER, 'stdout'), 'w') as wanted:
        for words, room, word in cases():
            given.write(' '.join(map(str, [room, word] + words)) + '\n')
            wanted.write(line(words, room, word))


if __name__ == '__main__':
    main()
