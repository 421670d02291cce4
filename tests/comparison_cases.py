"""Writes crates/comparison_run/stdin and stdout: the cases of two diagrams beside each other, and what document 02 says of each. Pairs come
from a walk over sets. Where there are few variables, counts and the smallest difference come from all valuations, and else from the
chance that both hold, and from the pairs from which two different terminals are reached."""
import os
import random
from fractions import Fraction
from itertools import product

from diagram_cases import D, HALF, crowded, full, ladder, layered, terminals, widened
from limits import MAX_NODES, MAX_VARS, PAIR, ROOM
from reading import most, nodes, room_after, verdict

HERE = os.path.dirname(os.path.abspath(__file__))
FOLDER = os.path.join(HERE, '..', 'crates', 'comparison_run')
MARK, FILL = 7, 9       # what room and table are filled with beforehand
FEW = 10                # variables whose valuations are gone through one by one


def children(a, b, pair):
    """Where a pair goes by 0 and by 1, or nothing for two terminals."""
    p, q = pair
    x, y = a[p][0], b[q][0]
    if p < 2 and q < 2:
        return ()
    return tuple((a[p][side] if x <= y else p, b[q][side] if y <= x else q) for side in (1, 2))


def pairs_of(first, second):
    a, b = nodes(first), nodes(second)
    met, todo = set(), {(len(a) - 1, len(b) - 1)}
    while todo:
        pair = todo.pop()
        if pair not in met:
            met.add(pair)
            todo |= set(children(a, b, pair))
    return met


def ends(ns, bits):
    p = len(ns) - 1
    while p >= 2:
        p = ns[p][2 if bits[ns[p][0]] else 1]
    return p == 1


def by_valuations(first, second):
    a, b = nodes(first), nodes(second)
    only_first = only_second = both = 0
    smallest = None
    for number, bits in enumerate(product((0, 1), repeat=a[0][0])):
        one, two = ends(a, bits), ends(b, bits)
        only_first += one and not two
        only_second += two and not one
        both += one and two
        if one != two and smallest is None:
            smallest = number
    return only_first, only_second, both, smallest


def by_chances(first, second):
    a, b = nodes(first), nodes(second)
    v = a[0][0]

    def level(pair):
        return min(a[pair[0]][0], b[pair[1]][0])

    chance, differs = {}, {}
    for pair in sorted(pairs_of(first, second), key=lambda pair: -level(pair)):
        on = children(a, b, pair)
        if on:
            chance[pair] = [sum(x) / 2 for x in zip(chance[on[0]], chance[on[1]])]
            differs[pair] = differs[on[0]] or differs[on[1]]
        else:
            one, two = pair
            chance[pair] = [Fraction(one * (1 - two)), Fraction(two * (1 - one)), Fraction(one * two)]
            differs[pair] = one != two
    pair = (len(a) - 1, len(b) - 1)
    counts = [int(x * 2 ** v) for x in chance[pair]]
    if not differs[pair]:
        return (*counts, None)
    smallest = 0
    while children(a, b, pair):
        low, high = children(a, b, pair)
        if not differs[low]:
            smallest += 2 ** (v - 1 - level(pair))
        pair = low if differs[low] else high
    return (*counts, smallest)


def answer(first, second, room, table):
    zero = room_after(first, room)
    refusal, cleared, which = verdict(first, room), 0, 0
    if refusal[0] == 'accepted':
        refusal, which = verdict(second, room), 1
        zero = max(zero, room_after(second, room))
        if refusal[0] == 'accepted':
            which = 0
            if first[0] != second[0]:
                refusal = 'refused', 31, 0
            else:
                cleared = table - table % PAIR
                pairs = len(pairs_of(first, second))
                refusal = ('accepted', pairs, first[0]) if pairs <= table // PAIR else ('refused', 32, 0)
    kind, a, b = refusal
    said = f'accepted pairs {a} vars {b}' if kind == 'accepted' else f'refused {a} at {b}'
    one, two, both, smallest = 0, 0, 0, None
    if kind == 'accepted':
        one, two, both, smallest = by_chances(first, second)
        if b <= FEW:
            assert (one, two, both, smallest) == by_valuations(first, second)
    return (f'{said} which {which}, first {one:x} second {two:x} both {both:x}, differ {"no" if smallest is None else "yes"}'
            f' smallest {smallest or 0:x}, room zero {zero} kept {room - zero}, table zero {cleared} kept {table - cleared}\n')


def flat(*ns):
    return [x for node in ns for x in node]


def conjunction(v, links=(0, 1)):
    """All variables: one node for each."""
    made = terminals(v)
    for i in reversed(range(v)):
        below = len(made) // 3 - 1
        made += [i, links[0], below]
    return made


def parity(v):
    """An odd number of ones: two nodes for each variable but the first."""
    made, even, odd = terminals(v), 0, 1
    for i in reversed(range(v)):
        at = len(made) // 3
        made += [i, even, odd]
        if i:
            made += [i, odd, even]
        even, odd = at, at + 1
    return made


def doubled(rng, words):
    """The same function in another array: some links go through a new node whose children are the same, and the places are others."""
    ns = nodes(words)
    v = ns[0][0]
    made = [list(node) for node in ns]
    for p in range(2, len(ns)):
        for side in (1, 2):
            child = made[p][side]
            if ns[child][0] > made[p][0] + 1 and rng.random() < 0.4:
                made.append([rng.randrange(made[p][0] + 1, ns[child][0]), child, child])
                made[p][side] = len(made) - 1
    root = len(ns) - 1
    if root < 2:
        return flat(*made)
    rest = [p for p in range(2, len(made)) if p != root]
    rng.shuffle(rest)
    place = {0: 0, 1: 1, root: len(made) - 1, **{p: 2 + i for i, p in enumerate(rest)}}
    out = [None] * len(made)
    for p, (var, low, high) in enumerate(made):
        out[place[p]] = (var, place[low], place[high])
    assert verdict(flat(*out), ROOM * most(len(out)))[0] == 'accepted' and out[0][0] == v
    return flat(*out)


def without_dead(words):
    """Only what the root reaches, so that a changed array is accepted."""
    ns = nodes(words)
    reached, todo = set(), {len(ns) - 1}
    while todo:
        p = todo.pop()
        if p not in reached:
            reached.add(p)
            if p >= 2:
                todo |= set(ns[p][1:])
    if len(ns) == 1:
        return words
    kept = [p for p in range(len(ns)) if p < 2 or p in reached]
    place = {p: i for i, p in enumerate(kept)}
    return flat(*((ns[p][0], place[ns[p][1]], place[ns[p][2]]) if p >= 2 else ns[p] for p in kept))


def cut(rng, words, terminal):
    """Links to a node or two go to a terminal."""
    ns = nodes(words)
    inner = list(range(2, len(ns) - 1))
    gone = set(rng.sample(inner, min(len(inner), rng.choice((1, 1, 2)))))
    return without_dead(flat(*((var, terminal if low in gone else low, terminal if high in gone else high) if p >= 2 else (var, low, high)
                               for p, (var, low, high) in enumerate(ns))))


def faulty():
    """Refused arrays, with the room that each is lent beside its own need: every number that the check has."""
    over = MAX_VARS + 1
    yield [], 0                                         # 1
    yield [3] * 4, 0                                    # 2
    yield D, -1                                         # 5
    yield [0, 0, 0], -1
    yield [1, 0, 0, 0, 1, 1], 0                         # 6
    yield [0, 0, 1], 0
    yield widened(terminals(MAX_VARS)), 0               # 7
    yield [over, 0, 0], 3
    yield [3, 0, 0, 3, 1, 1, 3, 0, 1], 0                # 8, 9, 10
    yield [3, 0, 0, 3, 1, 1, 2, 3, 1], 0
    yield [3, 0, 0, 3, 1, 1, 2, 0, 3], 0
    yield [1, 0, 0, 1, 1, 1, 0, 2, 1], 0                # 11
    yield [1, 0, 0, 1, 1, 1, 0, 1, 2], 0                # 17
    yield [2, 0, 0, 2, 1, 1, 1, 0, 1, 1, 0, 1], 2       # 12
    yield [3, 0, 0, 3, 1, 1, 2, 3, 1, 1, 2, 1, 0, 2, 3], 1


def need(words):
    return ROOM * most(len(words) // 3)


def cases():
    """(first, second, room length, table length)"""
    rng = random.Random(2026)
    x0, x1 = terminals(2) + [0, 0, 1], terminals(2) + [1, 0, 1]
    false, true = [0, 0, 0], terminals(0)

    def fits(first, second, pairs=0, rest=0, room=0):
        """room as asked for, and a table for so many pairs more than are reached"""
        return first, second, max(need(first), need(second)) + room, PAIR * (len(pairs_of(first, second)) + pairs) + rest

    def both_ways(first, second, *more):
        yield fits(first, second, *more)
        yield fits(second, first, *more)

    yield fits(D, D)
    yield fits(D, D, 0, 0, 5)
    yield fits(D, D, 2, 63, 1)                          # more than is asked for is as it was
    yield fits(D, D, -1)                                # 32
    yield fits(D, D, -1, 63, 1)                         # and a rest of one word less than a pair is none
    yield D, D, need(D), 0                              # tables of no whole pair
    yield D, D, need(D), 63
    yield false, [], 130, PAIR                          # A40, A42
    yield false, [1, 0, 0], 2 * ROOM, PAIR
    yield false, true, 2 * ROOM, PAIR                   # A41
    yield true, false, 2 * ROOM, PAIR + 3
    yield true, true, 2 * ROOM, PAIR
    yield false, false, 2 * ROOM, 64                    # A45
    yield false, true, 2 * ROOM, 63
    yield [1, 0, 0], terminals(1) + [0, 0, 1], 3 * ROOM, 2 * PAIR        # A43
    yield [1, 0, 0], terminals(1) + [0, 0, 1], 3 * ROOM, 3 * PAIR
    yield [1, 0, 0], terminals(1) + [0, 0, 1], 3 * ROOM, 191             # A44
    for pairs in (-1, 0):                               # low = high steps too, and so does the same node on both sides
        yield fits(terminals(1) + [0, 1, 1], terminals(1), pairs)
        yield fits(terminals(1) + [0, 0, 0], [1, 0, 0], pairs)
        yield fits(terminals(2) + [1, 1, 1, 0, 2, 2], terminals(2) + [1, 1, 1], pairs)
        yield fits(x0, x1, pairs)
        yield fits(x0, x0, pairs)
    for words, room in faulty():                        # each refusal of the first, before all that the second has and before 31 and 32
        lent = max(need(words) + room, 0)
        yield words, D, lent, 4 * PAIR
        yield words, [], lent, 1
        yield words, words, lent, 0
        yield words, terminals(2), lent, PAIR + 5
    for words, room in faulty():                        # and of the second; the first has other variables, so 31 comes after, and so does 32
        for before in (false, terminals(5), D):
            yield before, words, max(need(words) + room, need(before)), 4 * PAIR + 1
        yield true, words, max(need(words) + room, 0), 0
    large = [9] * 3 * (MAX_NODES + 1)                   # 3, for either; and a room for one diagram only
    yield large, D, 0, PAIR
    yield D, large, need(D) + 2, PAIR
    yield D, conjunction(6), need(D), 90 * PAIR
    yield D, conjunction(6), need(conjunction(6)) - 1, 90 * PAIR
    yield conjunction(6), D, need(D), 90 * PAIR
    for one, two in ((D, x0), (x0, D), (false, [1, 0, 0]), (terminals(MAX_VARS), terminals(MAX_VARS - 1)), ([3, 0, 0], terminals(2))):
        yield one, two, max(need(one), need(two)) + 3, 70     # 31, whatever the table
        yield one, two, max(need(one), need(two)), 0
        yield one, two, max(need(one), need(two)), 40 * PAIR
    for v in (1, 2, 31, 32, 33, HALF - 1, HALF, HALF + 1, MAX_VARS - 1, MAX_VARS):
        constants = (terminals(v)[:3], terminals(v))
        for one in constants:
            for two in constants:
                yield fits(one, two)
        for var in {0, v - 1, v // 2}:                  # one node, beside each constant
            for links in ((0, 1), (1, 0), (1, 1), (0, 0)):
                node = terminals(v) + [var, *links]
                yield from both_ways(node, constants[rng.randrange(2)])
    for v in (2, 3, 40, MAX_VARS):                      # conjunctions beside disjunctions, parity beside its negation
        yield from both_ways(conjunction(v), conjunction(v)[:-3] + [0, 0, 0])
        yield fits(conjunction(v), conjunction(v))
        yield fits(conjunction(v), conjunction(v), -1)
    for v in (2, 3, 8, 33, 150):
        other = parity(v)[:-2] + parity(v)[-2:][::-1]
        yield fits(parity(v), parity(v))
        yield from both_ways(parity(v), other, rng.choice((0, -1)))
        yield from both_ways(parity(v), conjunction(v))
    last = conjunction(MAX_VARS)
    yield from both_ways(last, last[:6] + [MAX_VARS - 1, 0, 0] + last[9:])      # the one difference is the last valuation
    yield from both_ways(last[:6] + [MAX_VARS - 1, 1, 0] + last[9:], last)      # and the one before it
    lone = conjunction(MAX_VARS, (0, 1))
    lone = lone[:6] + [x for i in reversed(range(MAX_VARS)) for x in (i, 1 if i == MAX_VARS - 1 else 1 + MAX_VARS - 1 - i, 0)]
    yield from both_ways(lone, terminals(MAX_VARS)[:3])                          # and the first
    for n, v in ((20, MAX_VARS), (60, MAX_VARS), (40, 300), (120, 200), (30, 33)):
        yield from both_ways(ladder(rng, n, v), ladder(rng, n, v))
        words = ladder(rng, n, v)
        yield from both_ways(words, doubled(rng, words))
        yield from both_ways(words, cut(rng, words, rng.randrange(2)))
    for _ in range(30):                                 # a diagram beside its cut, both ways
        words = layered(rng, rng.choice((5, 9, 20, 60)), rng.choice((4, 6, 8)), rng.choice(('children first', 'children last', 'random')))
        for terminal in (0, 1):
            yield from both_ways(words, cut(rng, words, terminal), rng.choice((0, 0, 3)), rng.choice((0, 17)))
    for _ in range(30):                                 # the same function in other arrays
        words = layered(rng, rng.choice((3, 5, 9, 20)), rng.choice((3, 5, 8)), rng.choice(('children first', 'children last', 'random')))
        yield from both_ways(words, doubled(rng, words), rng.choice((-1, 0, 1)))
    for _ in range(200):                                # any two
        v = rng.choice((3, 4, 5, 6, 7, 8))
        one, two = (layered(rng, rng.choice((1, 2, 3, 4, 5, 6, 9, 14, 30)), v, rng.choice(('children first', 'children last', 'random')))
                    for _ in range(2))
        yield fits(one, two, rng.choice((-1, 0, 0, 0, 5)), rng.choice((0, 0, 1, 63)), rng.choice((0, 0, 2)))
    one, two = layered(rng, 160, 24), layered(rng, 160, 24)                      # many pairs, and one less than are reached
    yield fits(one, two)
    yield fits(one, two, -1)


def main():
    lines, answers = [], []
    for first, second, room, table in cases():
        assert table < PAIR * 4096
        lines.append(' '.join(str(x) for x in [room, MARK, table, FILL, len(first)] + first + second) + '\n')
        answers.append(answer(first, second, room, table))
    open(os.path.join(FOLDER, 'stdin'), 'w').writelines(lines)
    open(os.path.join(FOLDER, 'stdout'), 'w').writelines(answers)


if __name__ == '__main__':
    main()
