"""Writes crates/reduction_run/stdin and stdout: the cases of reduction, and what it must answer. Reduction is done here from
truth tables where there are few variables, and else from node lists with a dictionary of the triples met so far."""
import os
import random
import sys

from diagram_cases import full, widest
from limits import MAX_NODES, MAX_VARS, ROOM
from reading import most, room_after, verdict

sys.setrecursionlimit(10000)
HERE = os.path.dirname(os.path.abspath(__file__))


def from_nodes(words):
    """The reduced words: nodes numbered on the way back, low branch first."""
    vars_ = words[0]
    out, places, memo = [(vars_, 0, 0), (vars_, 1, 1)], {}, {}

    def go(p):
        if p < 2:
            return p
        if p not in memo:
            var, low, high = words[3 * p : 3 * p + 3]
            a = go(low)
            b = go(high)
            if a == b:
                memo[p] = a
            else:
                if (var, a, b) not in places:
                    places[var, a, b] = len(out)
                    out.append((var, a, b))
                memo[p] = places[var, a, b]
        return memo[p]

    root = go(len(words) // 3 - 1)
    return [x for node in out[: root + 1] for x in node]


def from_table(vars_, table):
    """The same from a truth table, the first variable counting most."""
    out, places = [(vars_, 0, 0), (vars_, 1, 1)], {}

    def go(var, block):
        if not any(block):
            return 0
        if all(block):
            return 1
        half = len(block) // 2
        if block[:half] == block[half:]:
            return go(var + 1, block[half:])
        if (var, block) not in places:
            low = go(var + 1, block[:half])
            high = go(var + 1, block[half:])
            places[var, block] = len(out)
            out.append((var, low, high))
        return places[var, block]

    root = go(0, tuple(table))
    return [x for node in out[: root + 1] for x in node]


def table_of(words):
    vars_ = words[0]
    table = []
    for valuation in range(2**vars_):
        p = len(words) // 3 - 1
        while p > 1:
            bit = valuation >> (vars_ - 1 - words[3 * p]) & 1
            p = words[3 * p + 1 + bit]
        table.append(p)
    return table


def line(words, room, marked, lent, filled, reduce):
    """The case, and its answer."""
    kind, a, b = verdict(words, room, ('diagram', lent))
    case = ' '.join(str(x) for x in [room, marked, lent, filled] + words)
    zero = room_after(words, room, ('diagram', lent))
    reduced = reduce(words) if kind == 'accepted' else []
    said = f'accepted nodes {a} vars {b}' if kind == 'accepted' else f'refused {a} at {b}'
    said += f', answer nodes {len(reduced) // 3}, room zero {zero} kept {room - zero}, output kept {lent - len(reduced)}'
    if reduced:
        said += ', words ' + ' '.join(str(x) for x in reduced)
    return case, said


def by_table(words):
    answer = from_table(words[0], table_of(words))
    assert answer == from_nodes(words)
    return answer


def exactly(words, reduce):
    """With an output and a room of just the length that is asked for."""
    m = most(len(words) // 3)
    return line(words, ROOM * m, 7, 3 * m, 9, reduce)


def more(words, reduce):
    """With more of both; and the answer as a case of its own, which reducing doesn't change."""
    m = most(len(words) // 3)
    lines = [line(words, ROOM * m + 3, 7, 3 * m + 4, 9, reduce)]
    if verdict(words, ROOM * m)[0] == 'accepted':
        reduced = reduce(words)
        assert reduce(reduced) == reduced
        lines.append(exactly(reduced, reduce))
    return lines


def terminals(vars_):
    return [(vars_, 0, 0), (vars_, 1, 1)]


def constant(bit):
    """Every variable tested, with low = high: as deep as an array can be."""
    return terminals(MAX_VARS) + [(MAX_VARS - 1, bit, bit)] + [(MAX_VARS + 1 - k, k - 1, k - 1) for k in range(3, MAX_VARS + 2)]


def odd():
    """Whether an odd number of the variables hold: two nodes for each but the first."""
    nodes = terminals(MAX_VARS)
    for k in range(1, MAX_VARS):
        nodes += [(MAX_VARS - k, 2 * k - 2, 2 * k - 1), (MAX_VARS - k, 2 * k - 1, 2 * k - 2)]
    return nodes + [(0, len(nodes) - 2, len(nodes) - 1)]


def tree(levels):
    return [(i, 2 ** (i + 1) + 2 * j, 2 ** (i + 1) + 2 * j + 1) for i in range(1, levels) for j in range(2**i)]


def few():
    nodes = terminals(12) + tree(11)
    nodes[2047] = (10, 4094, 2048)
    return nodes + [(11, 0, 1)] * 2047 + [(0, 2, 3)]


def pairs(width, var, below, count):
    pool = [below + k for k in range(count)] + [0, 1]
    for j in range(width):
        a = j % len(pool)
        yield (var, pool[a], pool[(a + 1 + j // len(pool)) % len(pool)])


def every():
    nodes = terminals(16) + tree(10)
    widths = [1024, 1024, 859, 150, 12, 2, 0]
    at = 1024
    for k in range(6):
        nodes += pairs(widths[k], 10 + k, (at + widths[k]) if widths[k + 1] else 0, widths[k + 1])
        at += widths[k]
    return nodes + [(0, 2, 3)]


def mixed(seed, size):
    state, table = seed * 7919, []
    for _ in range(256):
        state = (state * 1103515245 + 12345) % 2**31
        table.append(state // 65536 % 2)
    return table[:size]


def plant(vars_, table, rng):
    """A function as its whole decision tree, the nodes but the root in any order."""
    if vars_ == 0:
        return [0, 0, 0, 0, 1, 1][:3 + 3 * table[0]]
    inner = [(i, j) for i in range(1, vars_) for j in range(2**i)]
    rng.shuffle(inner)
    places = {where: p for p, where in enumerate(inner + [(0, 0)], 2)}

    def child(i, j):
        return places[i, j] if i < vars_ else table[j]

    made = terminals(vars_) + [(i, child(i + 1, 2 * j), child(i + 1, 2 * j + 1)) for i, j in inner + [(0, 0)]]
    return [x for node in made for x in node]


def flat(nodes):
    return [x for node in nodes for x in node]


D = [3, 0, 0, 3, 1, 1, 2, 0, 1, 1, 2, 1, 0, 2, 3]
WORKED = [
    D,
    # D with one node twice, a node with low = high, and children after their parents
    [3, 0, 0, 3, 1, 1, 1, 4, 1, 1, 5, 5, 2, 0, 1, 2, 0, 1, 0, 3, 2],
    # x0 and x1 and x2; the answers of C3, C4, C5 of document 01
    [3, 0, 0, 3, 1, 1, 2, 0, 1, 1, 0, 2, 0, 0, 3],
    [3, 0, 0, 3, 1, 1, 1, 0, 1, 0, 0, 2],
    [3, 0, 0, 3, 1, 1, 2, 0, 1, 0, 2, 0],
    [3, 0, 0, 3, 1, 1, 2, 0, 1, 0, 2, 1],
    # an exclusive or, with its two lower nodes the other way round
    [2, 0, 0, 2, 1, 1, 1, 1, 0, 1, 0, 1, 0, 3, 2],
    # false and true
    [3, 0, 0],
    [3, 0, 0, 3, 1, 1],
]
REFUSED = [
    [],
    [3, 0, 0, 3],
    [0] * 3 * (MAX_NODES + 1),
    [3, 0, 0, 3, 1, 0],
    [MAX_VARS + 1, 0, 0],
    [3, 0, 0, 3, 1, 1, 3, 0, 1],
    [3, 0, 0, 3, 1, 1, 0, 3, 1],
    [3, 0, 0, 3, 1, 1, 0, 1, 3],
    [3, 0, 0, 3, 1, 1, 1, 0, 1, 1, 2, 0],
    [3, 0, 0, 3, 1, 1, 1, 0, 1, 1, 0, 2],
    [3, 0, 0, 3, 1, 1, 1, 0, 1, 1, 1, 0],
]
# How many functions of so many variables: all of the few, some of the others.
SOME = {4: 60, 5: 40, 6: 20, 7: 12, 8: 8}

lines = []
for words in WORKED:
    lines += [exactly(words, by_table)] + more(words, by_table)
for nodes in (constant(0), constant(1), odd(), few(), every()):
    lines.append(exactly(flat(nodes), from_nodes))
for words in REFUSED:
    lines += [line(words, ROOM * most(len(words) // 3) + 3, 7, 3 * most(len(words) // 3) + 4, 9, by_table)]
# the most variables and one more
for words in widest():
    lines.append(exactly(words, from_nodes))
# an output and a room that are a word too short, the room also at the most nodes
lines += [line(D, 5 * ROOM, 7, 14, 9, by_table), line(D, 5 * ROOM - 1, 7, 15, 9, by_table)]
lines.append(line(full(MAX_VARS), MAX_NODES * ROOM - 1, 7, 3 * MAX_NODES, 9, by_table))
rng = random.Random(1986)
for v in range(4):
    for f in range(2 ** 2 ** v):
        lines += more(plant(v, [f >> x & 1 for x in range(2 ** v)], rng), by_table)
for v, count in SOME.items():
    for f in range(count):
        lines += more(plant(v, mixed(f, 2 ** v), rng), by_table)

for name, k in (('stdin', 0), ('stdout', 1)):
    with open(os.path.join(HERE, '..', 'crates', 'reduction_run', name), 'w', encoding='ascii') as f:
        f.write(''.join(line[k] + '\n' for line in lines))
