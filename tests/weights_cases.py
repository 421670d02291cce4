"""Writes crates/weights_run/stdin and stdout: the cases of count and weights, and what the rules say of each: first for both
together, then for the weights alone. The count comes from the same paths and chances as the weights. Weights come
from all paths where there are few variables, and else from chances: half of what comes to a node goes on by each link,
so that skipped variables need no factor."""
import os
import random
from fractions import Fraction
from itertools import product

from diagram_cases import D, HALF, full, ladder, layered, terminals, widest
from limits import COUNT, MAX_NODES, MAX_VARS, ROOM
from reading import most, nodes, room_after, verdict

HERE = os.path.dirname(os.path.abspath(__file__))
FOLDER = os.path.join(HERE, '..', 'crates', 'weights_run')


def by_paths(words):
    ns = nodes(words)
    weights = [0] * len(ns)
    for bits in product((0, 1), repeat=ns[0][0]):
        path = [len(ns) - 1]
        while path[-1] >= 2:
            var, low, high = ns[path[-1]]
            path.append(high if bits[var] else low)
        if path[-1] == 1:
            for p in path:
                weights[p] += 1
    return weights


def by_chances(words):
    ns = nodes(words)
    n, v = len(ns), ns[0][0]
    order = sorted(range(2, n), key=lambda p: ns[p][0])
    ends = {0: Fraction(0), 1: Fraction(1)}             # the chance to end at node 1, from each node
    for p in reversed(order):
        ends[p] = (ends[ns[p][1]] + ends[ns[p][2]]) / 2
    comes = [Fraction(0)] * n                           # the chance to come to each node
    comes[n - 1] = Fraction(1)
    for p in order:
        for child in ns[p][1:]:
            comes[child] += comes[p] / 2
    return [int(comes[p] * ends[p] * 2 ** v) for p in range(n)]


def count_of(words):
    """how many valuations end at node 1: every one that does has visited it"""
    ns = nodes(words)
    if len(ns) == 1:
        return 0
    if ns[0][0] <= 8:
        ends = 0
        for bits in product((0, 1), repeat=ns[0][0]):
            p = len(ns) - 1
            while p >= 2:
                p = ns[p][2 if bits[ns[p][0]] else 1]
            ends += p == 1
        return ends
    chance = {0: Fraction(0), 1: Fraction(1)}
    for p in sorted(range(2, len(ns)), key=lambda p: -ns[p][0]):
        chance[p] = (chance[ns[p][1]] + chance[ns[p][2]]) / 2
    return int(chance[len(ns) - 1] * 2 ** ns[0][0])


def weights_of(words):
    weights = by_chances(words)
    if words[0] <= 8:
        assert weights == by_paths(words)
    return weights


def answer(words, room, lent):
    kind, a, b = verdict(words, room, ('weights', lent))
    zero = room_after(words, room, ('weights', lent))
    said = f'accepted nodes {a} vars {b}' if kind == 'accepted' else f'refused {a} at {b}'
    left = f', room zero {zero} kept {room - zero}'
    count, written = 0, f', output kept {lent}'
    if kind == 'accepted':
        weights = weights_of(words)
        count = count_of(words)
        written = f', output kept {lent - COUNT * a}, weights ' + ' '.join(f'{x:x}' for x in weights)
    return f'{said}, count {count:x}{left}{written}\n{said}{left}{written}\n'


def cases():
    """(words, room length, output length)"""
    rng = random.Random(1986)

    def exact(words, room=0, output=0):
        n = len(words) // 3
        return words, ROOM * most(n) + room, COUNT * n + output

    yield exact(D)                                      # C1: 0 5 3 3 5
    yield exact(D, 5, 3)                                # more than is asked for is as it was
    yield exact(D, 0, -1)                               # 4
    yield exact(D, -1, 0)                               # 5
    yield exact(D, -1, -1)                              # 4 comes before 5
    yield exact([3, 0, 0])                              # the one-node diagram: count 0, one weight of 0
    yield exact([3, 0, 0], 2, 2)
    yield exact([0, 0, 0])
    yield exact([0, 0, 0], 0, -1)                       # 4 and 5 as of any other
    yield exact([3, 0, 0], -1, 0)
    for i, words in enumerate(widest()):                # the most variables, and 7 for one more
        yield exact(words, i % 3, i % 4)
    yield exact(full(MAX_VARS), 0, -1)                  # 4 and 5 at the most nodes
    yield exact(full(MAX_VARS), -1, 0)
    for v in (0, 1, 31, 32, HALF - 1, HALF, HALF + 1, MAX_VARS - 1):
        yield exact(terminals(v))
    yield [], 2 * ROOM, COUNT                           # 1
    yield exact([3] * 4)                                # 2
    yield [9] * 3 * (MAX_NODES + 1), ROOM * MAX_NODES, COUNT * (MAX_NODES + 1)  # 3
    yield exact([1, 0, 0, 0, 1, 1])                     # 6
    yield exact([3, 0, 0, 3, 1, 1, 3, 0, 1])            # 8, 9, 10
    yield exact([3, 0, 0, 3, 1, 1, 2, 3, 1])
    yield exact([3, 0, 0, 3, 1, 1, 2, 0, 3])
    yield exact([1, 0, 0, 1, 1, 1, 0, 2, 1])            # 11
    yield exact([1, 0, 0, 1, 1, 1, 0, 1, 2])            # 17
    yield exact([2, 0, 0, 2, 1, 1, 1, 0, 1, 1, 0, 1])   # 12
    for links in ((0, 1), (1, 0), (1, 1), (0, 0)):      # one node, first and last variable of the most, low = high among them
        yield exact(terminals(MAX_VARS) + [0, *links])
        yield exact(terminals(MAX_VARS) + [MAX_VARS - 1, *links])
    yield exact([2, 0, 0, 2, 1, 1, 1, 0, 1, 1, 0, 1, 0, 2, 3])
    for v in (8, MAX_VARS):                             # conjunctions: every weight is 1, but node 0's
        chain = [(v - 1 - i, 0, 1 + i) for i in range(v)]
        yield exact(terminals(v) + [x for node in chain for x in node])
    for v in (8, HALF + 8):                             # disjunctions: 2 ** k - 1 for each k
        chain = [(v - 1 - i, 1 + i if i else 0, 1) for i in range(v)]
        yield exact(terminals(v) + [x for node in chain for x in node])
    for order in ('children first', 'children last', 'random'):
        for n, v in ((10, MAX_VARS), (20, 300), (20, 400), (60, 33), (60, MAX_VARS), (200, 64), (300, 12)):
            yield exact(layered(rng, n, v, order), rng.choice((0, 1)), rng.choice((0, 2)))
    for n, v in ((HALF + 3, HALF + 1), (302, 300), (40, 300), (40, 400), (12, MAX_VARS), (40, MAX_VARS)):
        yield exact(ladder(rng, n, v))                  # weights of many words, as products of two such numbers
    for _ in range(250):                                # few variables: every path is followed
        n = rng.choice((3, 4, 5, 6, 9, 14, 30))
        order = rng.choice(('children first', 'children last', 'random'))
        yield exact(layered(rng, n, rng.choice((1, 2, 3, 5, 8)), order), 0, rng.choice((0, 0, 5)))


def main():
    lines, answers = [], []
    for words, room, lent in cases():
        lines.append(' '.join(str(x) for x in [room, 7, lent, 9] + words) + '\n')
        answers.append(answer(words, room, lent))
    open(os.path.join(FOLDER, 'stdin'), 'w').writelines(lines)
    open(os.path.join(FOLDER, 'stdout'), 'w').writelines(answers)


if __name__ == '__main__':
    main()
