"""Writes crates/cuts_run/stdin and stdout: requests to cut, and their answers.

    python3 tests/cuts_cases.py          has the Rust text answer all that the rules don't refuse (cargo, and Debian's
                                         librust-num-bigint-dev, as for bench/run.sh), holds every answer to the reading
                                         below, and writes both files
    python3 tests/cuts_cases.py check    holds the stored files to the reading, without the Rust

Refusals, and what is left in output and room, come from the papers alone (docs/RULES.md); nodes, trials and words from the Rust text
(bench/rust_text/examples/stored_cuts.rs, which says how trials are counted), but for over to size 1, where 02, E5, departs from the Rust, which must
then be seen to answer true, and for targets that are met already where the words are not to be kept as they are (02, E8), which the Rust must be seen to
answer with the words it was given; there the answer is the reading's. The reading cuts nodes of dictionaries and
reduces by recursion; weights come from chances (weights_cases.py)."""
import glob
import os
import random
import re
import subprocess
import sys

from diagram_cases import D, HALF, crowded, full, ladder, layered, terminals, widened
from limits import COUNT, MAX_NODES, MAX_VARS, ROOM
from reading import most, nodes, room_after, verdict
from weights_cases import by_chances

HERE = os.path.dirname(os.path.abspath(__file__))
FOLDER = os.path.join(HERE, '..', 'crates', 'cuts_run')
BENCH = os.path.join(HERE, '..', 'bench')
SINGLE, BOTH = [1, 0, 0, 1, 1, 1, 0, 1, 1], [2, 0, 0, 2, 1, 1, 1, 1, 1, 0, 2, 2]   # true, in three nodes and in four
NONE = [1, 0, 0, 1, 1, 1, 0, 0, 0]                      # false, in three nodes
LONG = [(1, 0, 1), (0, 2, 2)]                           # x1, under a root with low = high
MARKED, FILLED = 7, 9                                   # the words of room and output beforehand
LETTERS = 'uostcdSTCD'                                  # capitals: words that meet the target are to stay as they are


def flat(ns):
    return [x for node in ns for x in node]


def constant(v, t):
    return nodes(terminals(v))[:t + 1]


def reduced(ns):
    v = ns[0][0]
    made, places, known = [], {}, {0: 0, 1: 1}

    def at(p):
        if p not in known:
            var, low, high = ns[p]
            node = var, at(low), at(high)
            if node[1] == node[2]:
                known[p] = node[1]
            else:
                if node not in places:
                    places[node] = 2 + len(made)
                    made.append(node)
                known[p] = places[node]
        return known[p]

    root = at(len(ns) - 1)
    return constant(v, root) if root < 2 else constant(v, 1) + made


def cut(ns, marked, t):
    if len(ns) - 1 in marked:
        return constant(ns[0][0], t)

    def sent(link):
        return t if link in marked else link
    return reduced(ns[:2] + [(var, sent(low), sent(high)) for var, low, high in ns[2:]])


def negated(ns):
    if len(ns) <= 2:
        return constant(ns[0][0], 2 - len(ns))

    def other(link):
        return 1 - link if link < 2 else link
    return ns[:2] + [(var, other(low), other(high)) for var, low, high in ns[2:]]


def count(ns):
    known = {0: 0, 1: 1}

    def at(p):
        if p not in known:
            var, low, high = ns[p]
            known[p] = sum(at(q) << (ns[q][0] - var - 1) for q in (low, high))
        return known[p]
    root = len(ns) - 1
    return at(root) << ns[root][0]


def priorities(ns):
    weights = by_chances(flat(ns))
    order = sorted(range(2, len(ns)), key=lambda p: (weights[p], -p))
    return order, weights


def under_to_size(ns, t):
    n, v = len(ns), ns[0][0]
    if t <= 1:
        return constant(v, 0), 0
    if t == 2:
        return constant(v, 1 if n == 2 else 0), 0
    order, _ = priorities(ns)
    start, stop, trials = 0, n - t, 0
    while start < stop:
        middle = (start + stop) // 2
        found = cut(ns, set(order[:middle]), 0)
        trials += 1
        if len(found) == t:
            return found, trials
        if len(found) < t:
            stop = middle
        else:
            start = middle + 1
    return cut(ns, set(order[:stop]), 0), trials + 1


def under_to_count(ns, k):
    whole = count(ns)
    if k == 0:
        return constant(ns[0][0], 0), 0
    order, weights = priorities(ns)
    rest, taken, trials = whole - k, 0, 0
    while True:
        while taken < len(order):
            taken += 1
            if weights[order[taken - 1]] >= rest:
                break
            rest -= weights[order[taken - 1]]
        found = cut(ns, set(order[:taken]), 0)
        trials += 1
        if count(found) <= k:
            return found, trials
        rest = count(found) - k


def is_met(letter, target, ns):
    """The array as it is given meets the target."""
    kind = letter.lower()
    if kind in 'uo':
        return False
    if kind in 'st':
        return target[0] >= len(ns)
    k = number(target)
    return 0 < k >= count(ns) if kind == 'c' else k <= count(ns)


def cuts(letter, target, words):
    """The nodes of the answer, and the trials."""
    ns = nodes(words)
    if is_met(letter, target, ns):
        return ns if letter.isupper() else reduced(ns), 0
    return searched(letter.lower(), target, words)


def searched(letter, target, words):
    ns = nodes(words)
    if letter in 'uo':
        return cut(ns, set(target), 'uo'.index(letter)), 0
    if letter == 's':
        return under_to_size(ns, target[0])
    if letter == 't' and target == [1]:                 # where it isn't refused; 02, E5
        return constant(words[0], 0), 0
    if letter == 't':
        found, trials = under_to_size(negated(ns), target[0])
        return negated(found), trials
    k = number(target)
    if letter == 'c':
        return under_to_count(ns, k)
    found, trials = under_to_count(negated(ns), count(negated(ns)) - (k - count(ns)))
    return negated(found), trials


def number(words):
    return sum(x << (32 * i) for i, x in enumerate(words))


def count_words(k):
    return [k >> (32 * i) & 0xffffffff for i in range(COUNT)]


def refusal(letter, target, words, room, lent):
    """The check's verdict, and then 13 and 14, or 18, or 16 and 19."""
    letter = letter.lower()
    said = verdict(words, room, ('diagram', lent))
    if said[0] == 'refused':
        return said
    _, n, v = said
    if letter in 'st':
        least = 2 if letter == 't' and count(nodes(words)) else 1
        return ('refused', 18, 0) if target[0] < least else said
    if letter in 'uo':
        outside = [i for i, p in enumerate(target) if p >= n]
        terminal = [i for i, p in enumerate(target) if p < 2]
        if outside:
            return 'refused', 13, outside[0]
        if terminal:
            return 'refused', 14, terminal[0]
        return said
    k = number(target)
    if letter == 'd' and k > 2 ** v:
        return 'refused', 16, 0
    if 0 < k < 2 ** v and n == {'c': 2, 'd': 1}[letter]:
        return 'refused', 19, 0
    return said


def worked():
    """C3 to C12 of 01, its cases that are only run (by [0, 4] as 02, E10, has it), those of 02, E5, and others settled by hand: a request, and its
    answer's nodes after the terminals, its count, its trials (None: not said); or the refusal."""
    yield 'u', [2], D, [(1, 0, 1), (0, 0, 2)], 2, 0
    yield 'u', [3], D, [(2, 0, 1), (0, 2, 0)], 2, 0
    yield 'o', [3], D, [(2, 0, 1), (0, 2, 1)], 6, 0
    yield 's', [4], D, [(2, 0, 1), (0, 2, 0)], 2, 2
    yield 's', [3], D, None, 0, 2
    yield 't', [4], D, [(2, 0, 1), (0, 2, 1)], 6, 2
    yield 'c', count_words(4), D, [(2, 0, 1), (0, 2, 0)], 2, 1
    yield 'c', count_words(1), D, None, 0, 1
    yield 's', [4], terminals(3) + [2, 0, 1, 1, 0, 2, 0, 0, 3], None, 0, None
    yield 'd', count_words(8), D, [], 8, None
    yield 'd', count_words(9), D, 16, 0
    yield 'u', [0, 4], D, 14, 0
    yield 'u', [0], D, 14, 0
    yield 's', [5], D, nodes(D)[2:], 5, 0
    # 02, E8: the array itself meets the target or doesn't, and then it is reduced or stays as it is
    x1 = [(1, 0, 1)]
    for letter, size, after, trials in (('s', 3, x1, 1), ('s', 4, x1, 0), ('S', 4, LONG, 0), ('S', 3, x1, 1), ('t', 3, x1, 1), ('t', 4, x1, 0), ('T', 4, LONG, 0), ('T', 3, x1, 1)):
        yield letter, [size], terminals(2) + flat(LONG), after, 2, trials
    for letter, k, after, whole, trials in (('c', 2, x1, 2, 0), ('C', 2, LONG, 2, 0), ('c', 1, None, 0, 1), ('C', 1, None, 0, 1),
                                            ('d', 2, x1, 2, 0), ('D', 2, LONG, 2, 0), ('d', 3, [], 4, 1), ('D', 3, [], 4, 1), ('d', 0, x1, 2, 0), ('D', 0, LONG, 2, 0)):
        yield letter, count_words(k), terminals(2) + flat(LONG), after, whole, trials
    for letter in 'cC':                                 # to 0, whatever is asked for
        yield letter, count_words(0), NONE, None, 0, 0
    yield 'u', [], [MAX_VARS, 0, 0], None, 0, 0
    yield 'u', [], terminals(MAX_VARS), [], 2 ** MAX_VARS, 0
    yield 'u', [], [MAX_VARS + 1, 0, 0], 7, 0
    yield 's', [3], terminals(MAX_VARS + 1), 7, 0
    yield 'c', count_words(4), terminals(3), 19, 0
    # where a plausible port goes wrong
    for target, place in (([2, 9], 1), ([0, 9], 1), ([4, 5], 1), ([4294967295], 0)):
        yield 'u', target, D, 13, place
    # a terminal is refused beside the root and where it is the root (02, E10); 13 first
    for letter, after, share in (('u', None, 0), ('o', [], 1)):
        yield letter, [4], D, after, share * 8, 0
        for target, place in (([0, 4], 0), ([4, 0], 1), ([1, 4, 0], 0), ([2, 1, 0], 1), ([4, 3, 1, 1], 2)):
            yield letter, target, D, 14, place
        for target, place in (([0, 9], 1), ([9, 0], 0), ([4, 0, 5], 2), ([5, 4, 0], 0)):
            yield letter, target, D, 13, place
        for target, number, place in (([0], 14, 0), ([0, 0], 14, 0), ([1], 13, 0), ([0, 1], 13, 1)):
            yield letter, target, [0, 0, 0], number, place
        for target, number, place in (([0], 14, 0), ([1], 14, 0), ([0, 1], 14, 0), ([1, 2], 13, 1), ([2, 1], 13, 0)):
            yield letter, target, terminals(0), number, place
        for words in (terminals(1) + [0, 0, 0], SINGLE):        # constants in three nodes have a root that may be listed
            yield letter, [2], words, after, share * 2, 0
            yield letter, [2, 1], words, 14, 1
    yield 's', [3], BOTH, [], 4, 2                      # the last cut counts, though the list was tried before
    yield 't', [2], [0, 0, 0], None, 0, 0               # the early rules look at the negation's array
    # 02, E5: no answer has no nodes; one node is an answer from above only to what holds for no valuation, whatever its array
    for words in ([0, 0, 0], terminals(0), NONE, SINGLE, D):
        for letter in 'st':
            yield letter, [0], words, 18, 0
    for words in ([0, 0, 0], terminals(0), NONE, SINGLE, D, deep(0), deep(1)):
        yield 's', [1], words, None, 0, 0
    for words in ([0, 0, 0], [3, 0, 0], NONE, deep(0)):
        yield 't', [1], words, None, 0, 0
    for words in (terminals(0), terminals(3), SINGLE, D, deep(1)):
        yield 't', [1], words, 18, 0
    yield 't', [2], NONE, [], 2, 0                      # two nodes are asked for: by array length, as the Rust has it
    yield 's', [2], SINGLE, None, 0, 0                  # true, but not by array length
    yield 'c', count_words(1), SINGLE, None, 0, 1
    yield 'c', count_words(0), terminals(1) + [0, 0, 0], None, 0, 0
    # a second round, below a root that isn't at the first variable: what is left at it counts double
    yield 'c', count_words(4), terminals(4) + [3, 0, 1, 2, 2, 2, 1, 1, 3], None, 0, 2
    yield 'c', count_words(2), terminals(0), [], 1, 0   # only over refuses 16
    yield 'd', count_words(2), terminals(0), 16, 0
    yield 'd', count_words(1), [0, 0, 0], [], 1, 0
    yield 'd', count_words(4), [3, 0, 0], 19, 0


def deep(link):
    """Every variable tested, the last one's high link to a terminal: as deep as an array can be, and false where it is to 0."""
    return terminals(MAX_VARS) + [MAX_VARS - 1, 0, link] + flat((MAX_VARS - i, i, i) for i in range(2, MAX_VARS + 1))


def exact(letter, target, words, room=0, output=0):
    m = most(len(words) // 3)
    return letter, target, words, ROOM * m + room, 3 * m + output


def by_hand():
    """(letter, list or target, words, room length, output length)"""
    for case in worked():
        yield exact(*case[:3])
        if len(case[2]) < MAX_VARS:
            yield exact(*case[:3], 3, 4)                # more than is asked for is as it was
    targets = {'u': [2], 'o': [2], 's': [3], 't': [3], 'c': count_words(1), 'd': count_words(1)}
    broken = [
        [],                                             # 1
        [3] * 4,                                        # 2
        [0, 0, 1], [1, 0, 0, 0, 1, 1], [0, 0, 0, 0, 0, 0],  # 6 at 0, at 1
        [MAX_VARS + 1, 0, 0], terminals(MAX_VARS + 1) + [MAX_VARS + 45, 9, 9],  # 7, also before 8
        terminals(3) + [2, 0, 1, 3, 9, 9],              # 8, 9, 10
        terminals(3) + [2, 0, 1, 2, 4, 9],
        terminals(3) + [2, 0, 1, 2, 0, 4],
        [1, 0, 0, 1, 1, 1, 0, 2, 0, 0, 2, 1],           # 11, through another violator
        [1, 0, 0, 1, 1, 1, 0, 1, 2, 0, 2, 1],           # 17, at a smaller node than an 11
        [2, 0, 0, 2, 1, 1, 1, 0, 1, 1, 0, 1],           # 12
    ]
    for letter, target in targets.items():
        for words in broken:
            yield exact(letter, target, words, 1, 1)
        for room, output in ((0, -1), (-1, 0), (-1, -1)):   # 4 and 5, and 4 before 5
            yield exact(letter, target, D, room, output)
            yield exact(letter, target, [0, 0, 0], room, output)
        yield exact(letter, [4294967295] * len(target), [MAX_VARS + 1, 0, 0])   # whatever is asked for
    for letter in 'st':                                 # the diagram's own before 18
        for t in (0, 1):
            for words in broken:
                yield exact(letter, [t], words, 1, 1)
            for words in (D, [0, 0, 0], NONE):
                yield exact(letter, [t], words, 0, -1)
                yield exact(letter, [t], words, -1, 0)
    yield 't', [1], [9] * 3 * (MAX_NODES + 1), ROOM * MAX_NODES, 3 * MAX_NODES
    yield 'u', [2], [9] * 3 * (MAX_NODES + 1), ROOM * MAX_NODES, 3 * MAX_NODES  # 3, at one node more than the most
    # places in the list; 13 and 14, whether or not the root is listed
    yield exact('u', [2], terminals(0), 2)
    yield exact('o', [5], [0, 0, 0], 2, 2)
    for target in ([2, 9], [2, 1, 0], [0, 9], [9, 0], [4, 9], [4, 5], [1, 4, 0], [3, 3, 3], [2, 3], [3, 2, 4], [4294967295]):
        yield exact('u', target, D, 1, 1)
        yield exact('o', target, D, 1, 1)
    for t in (0, 1, 2, 3, 4, 4294967295):
        for letter in 'st':
            for words in ([0, 0, 0], terminals(0), [MAX_VARS, 0, 0], terminals(MAX_VARS), NONE, SINGLE, BOTH, D):
                yield exact(letter, [t], words)
    for letter in 'st':                                 # as deep as can be, searched and only reduced
        for t, link in ((3, 0), (3, 1), (4294967295, 1)):
            yield exact(letter, [t], deep(link))
    for v in (0, 1, 3, HALF, MAX_VARS):                 # counts of constants, by array length and in longer arrays
        for letter in 'cd':
            for k in sorted({0, 1, 2, 2 ** v - 1, 2 ** v, 2 ** v + 1, 2 ** MAX_VARS, 2 ** (32 * COUNT) - 1}):
                yield exact(letter, count_words(k), [v, 0, 0])
                yield exact(letter, count_words(k), terminals(v))
                if v:
                    for link in (0, 1):
                        yield exact(letter, count_words(k), terminals(v) + [v - 1, link, link])
    for letter, target in (('c', 0), ('c', 1), ('c', 3), ('d', 1), ('d', 4), ('d', 5)):
        yield exact(letter, count_words(target), BOTH)
        yield exact(letter, count_words(target), terminals(2) + [1, 0, 0, 0, 2, 2])


def wide():
    """The most variables and one more, each at one, two, some and the most nodes; and targets beyond half of a count's bits."""
    rng = random.Random(1993)
    some = ladder(rng, 30, MAX_VARS)
    for letter, target in (('u', [5]), ('o', [5]), ('s', [20]), ('t', [20]), ('c', count_words(1 << HALF)), ('d', count_words((1 << MAX_VARS) - (1 << HALF) - 1))):
        yield exact(letter, target, some)
        for words in (terminals(MAX_VARS)[:3], terminals(MAX_VARS), some):
            yield exact(letter, target, widened(words), 1, 1)
    long = ladder(rng, MAX_VARS + 2, MAX_VARS)
    yield exact('s', [200], long, 2, 2)
    yield exact('d', count_words(count(nodes(long)) + (1 << MAX_VARS - 9)), long)
    yield exact('s', [2000], crowded(), 1)
    yield exact('c', count_words(1), full(MAX_VARS + 1), 1)
    yield exact('t', [4], full(MAX_VARS), -1)           # a room one word short
    either = chain(HALF + 8, 1)
    for k in ((1 << HALF) - 1, 1 << HALF, (1 << HALF) + 1):
        yield exact('c', count_words(k), either)
    for k in ((1 << HALF) + 1, (1 << HALF + 7) - 1):
        yield exact('d', count_words(k), chain(HALF + 8, 0))
    for n, v in ((12, HALF + 1), (20, 300), (25, 400), (30, MAX_VARS)):
        words = ladder(rng, n, v)
        yield from requests(rng, words, [[n // 2]], (n // 2, n - 2), 4)


def of_edits():
    """The smallest requests that the programs of the must-fail edits answer wrongly, as the edits' own lines say them."""
    said = re.compile(r'wrong on: (under|over) (by|to size|to count) \[?([0-9, ]*)\]?( as it is)? of ([0-9 ]+):')
    for name in sorted(glob.glob(os.path.join(HERE, '..', 'crates', '*', 'must-fail', '*.edit'))):
        for side, kind, target, as_is, words in said.findall(open(name).read()):
            target = [int(x) for x in target.replace(',', ' ').split()]
            letter = {'by': 'uo', 'to size': 'st', 'to count': 'cd'}[kind][side == 'over']
            target = count_words(*target) if letter in 'cd' else target
            yield exact(letter.upper() if as_is else letter, target, [int(x) for x in words.split()])


def lists(rng, n):
    """Lists of non-terminals, now and then with the root, repeats or a terminal."""
    yield []
    for size in (1, 1, 2, n // 3):
        target = [rng.randrange(2, n - 1) for _ in range(size)] if n > 3 else []
        if rng.random() < 0.1:
            target.append(n - 1)
        if rng.random() < 0.1:
            target.insert(0, rng.choice((0, 1, n)))
        yield target


def chain(v, one):
    """A conjunction of all variables, or where `one` is 1 their disjunction: all weights equal 1, or a power of 2 each."""
    links = [(1 + i if i else 1) if one == 0 else 0 for i in range(v)]
    made = []
    for i in range(v):
        rest = 1 - one if i == 0 else 1 + i
        made += [v - 1 - i, 0, links[i]] if one == 0 else [v - 1 - i, rest, 1]
    return terminals(v) + made


def at_random():
    rng = random.Random(1986)
    orders = ('children first', 'children last', 'random')
    for i in range(75):
        n = rng.choice((3, 4, 4, 5, 5, 6, 6, 7, 8, 9, 12))
        words = layered(rng, n, rng.choice((1, 2, 3, 4, 5, 6, 8)) if n < 12 else rng.choice((6, 8, 33)), orders[i % 3])
        yield from requests(rng, words, lists(rng, len(words) // 3), range(len(words) // 3 + 2), 2)
    for i, (n, v) in enumerate(((14, MAX_VARS), (16, 200), (30, 40), (40, MAX_VARS), (60, 12), (60, 64), (120, MAX_VARS))):
        words = layered(rng, n, v, orders[i % 3])
        n = len(words) // 3
        sizes = sorted({3, n // 4, n // 2, 2 * n // 3, n - 2, n - 1, n})
        yield from requests(rng, words, list(lists(rng, n))[1:3], sizes, 2)
    for words in (chain(6, 0), chain(6, 1), chain(60, 0), chain(60, 1)):
        n = len(words) // 3
        yield from requests(rng, words, [[n // 2]], sorted({3, 4, n // 2, n - 1}), 1)


def requests(rng, words, targets, sizes, some):
    v, whole = words[0], count(nodes(words))
    for target in targets:
        yield exact(rng.choice('uo'), target, words, rng.choice((0, 0, 2)), rng.choice((0, 0, 2)))
    for t in sizes:
        yield exact(rng.choice('st'), [t], words, rng.choice((0, 0, 2)), rng.choice((0, 0, 2)))
    below, above = [rng.randrange(whole + 1) for _ in range(some)], [rng.randrange(whole, 2 ** v + 1) for _ in range(some)]
    for k in sorted({0, 1, max(whole - 1, 0), whole, 2 ** v, *below}):
        if k < whole or rng.random() < 0.3:
            yield exact('c', count_words(k), words, rng.choice((0, 0, 2)), rng.choice((0, 0, 2)))
    for k in sorted({0, whole, whole + 1, 2 ** v - 1, 2 ** v, 2 ** v + 1, *above}):
        if whole < k or rng.random() < 0.3:
            yield exact('d', count_words(k), words, rng.choice((0, 0, 2)), rng.choice((0, 0, 2)))


def both_ways(made):
    """A target that is met is asked for as it is too; of the others every sixth, but for the longest."""
    for i, (letter, target, words, *lent) in enumerate(made):
        yield letter, target, words, *lent
        if letter in 'stcd' and (i % 6 == 0 and len(words) < MAX_NODES or refusal(letter, target, words, *lent)[0] == 'accepted' and is_met(letter, target, nodes(words))):
            yield letter.upper(), target, words, *lent


def cases():
    """Each request once."""
    seen = set()
    for case in both_ways([*by_hand(), *of_edits(), *at_random(), *wide()]):
        line = request(*case)
        if case[0] in LETTERS and line not in seen:
            seen.add(line)
            yield line, case


def request(letter, target, words, room, lent):
    return letter + ' '.join(str(x) for x in [room, MARKED, lent, FILLED, len(target), *target, *words]) + '\n'


def answer(case, found):
    """The program's line, where `found` has the numbers of nodes and trials and the words of what is not refused."""
    letter, target, words, room, lent = case
    kind, a, b = refusal(letter, target, words, room, lent)
    zero = room_after(words, room, ('diagram', lent))
    said = f'accepted nodes {a} vars {b}' if kind == 'accepted' else f'refused {a} at {b}'
    size, trials, result = found if kind == 'accepted' else (0, 0, [])
    said += f', answer nodes {size} trials {trials}, room zero {zero} kept {room - zero}, output kept {lent - len(result)}'
    return said + (', words ' + ' '.join(str(x) for x in result) if result else '') + '\n'


def by_reading(case):
    found, trials = cuts(*case[:3])
    return len(found), trials, flat(found)


def by_rust(asked):
    subprocess.run(['cargo', 'build', '--release', '--quiet', '-p', 'rust-text', '--examples'], cwd=BENCH, check=True)
    lines = [letter.lower() + ' '.join(str(x) for x in [len(target), *target, *words]) for letter, target, words, _, _ in asked]
    run = subprocess.run([os.path.join(BENCH, 'target', 'release', 'examples', 'stored_cuts')], check=True, text=True,
                         input='\n'.join(lines) + '\n', stdout=subprocess.PIPE)
    for line in run.stdout.splitlines():
        size, trials, *words = (int(x) for x in line.split())
        yield size, trials, words


def of_rust(letter, target, words):
    """What the Rust must be seen to answer: as it is; over to size 1 gives true, also from false."""
    if letter in 'tT' and target == [1]:
        return 2, 0, terminals(words[0])
    return by_reading((letter if letter in 'uo' else letter.upper(), target, words))


def hold_to_paper():
    for letter, target, words, *said in worked():
        if isinstance(said[0], int):
            assert refusal(*exact(letter, target, words)) == ('refused', *said)
        else:
            after, whole, trials = said
            found, made = cuts(letter, target, words)
            assert found == constant(words[0], 0 if after is None else 1) + (after or [])
            assert count(found) == whole and trials in (None, made)


def main():
    sys.setrecursionlimit(10000)
    hold_to_paper()
    made = list(cases())
    asked = [case for _, case in made if refusal(*case)[0] == 'accepted']
    readings = [by_reading(case) for case in asked]
    check = sys.argv[1:] == ['check']
    answers = readings if check else list(by_rust(asked))
    assert len(answers) == len(asked)
    departures = 0
    for case, one, reading in zip(asked, answers, readings):
        rust = reading if check else of_rust(*case[:3])
        departures += rust != reading
        assert one == rust, case
    found = iter(readings)
    stdin = ''.join(line for line, _ in made)
    stdout = ''.join(answer(case, next(found) if refusal(*case)[0] == 'accepted' else None) for _, case in made)
    for name, text in (('stdin', stdin), ('stdout', stdout)):
        path = os.path.join(FOLDER, name)
        if check:
            assert open(path).read() == text, name
        else:
            open(path, 'w').write(text)
    letters = {x: sum(case[0] == x for case in asked) for x in LETTERS}
    print(f'{len(made)} requests, {len(asked)} of them answered: {letters}; {departures} in which the Rust answers otherwise; {len(stdin)} and {len(stdout)} bytes')


if __name__ == '__main__':
    main()
