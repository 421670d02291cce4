"""Writes crates/diagram_run/stdin and stdout: the cases of the check, and what document 01 says of each."""
import os
import random

from limits import COUNT, MAX_NODES, MAX_VARS, ROOM
from reading import most, room_after, verdict

HERE = os.path.dirname(os.path.abspath(__file__))
FOLDER = os.path.join(HERE, '..', 'crates', 'diagram_run')
D = [3, 0, 0, 3, 1, 1, 2, 0, 1, 1, 2, 1, 0, 2, 3]
HALF = 16 * COUNT                                       # half of a count's bits: wide cases stand on either side of it


def terminals(v):
    return [v, 0, 0, v, 1, 1]


def layered(rng, n, v, order='random'):
    """An accepted array of n nodes: each but the root is the child of an earlier one, then the nodes are put in order."""
    if n <= 2:
        return terminals(v)[:3 * n]
    made = [[0, None, None]]
    free = [(0, 1), (0, 2)]
    while len(made) < n - 2:
        spots = [i for i, (q, _) in enumerate(free) if made[q][0] < v - 1]
        if not spots:
            break                                       # as many nodes as fit under so few variables
        q, k = free.pop(rng.choice(spots[-64:]))
        left = v - 1 - made[q][0]
        made[q][k] = len(made)
        made.append([made[q][0] + 1 + (0 if n > 20 * left else rng.randrange(min(left, 3))), None, None])
        free += [(len(made) - 1, 1), (len(made) - 1, 2)]
    for q, k in free:
        later = [i for i in range(q + 1, min(len(made), q + 40)) if made[i][0] > made[q][0]]
        made[q][k] = rng.choice(later) if later and rng.random() < 0.7 else ('T', rng.randrange(2))
    place = list(range(2, len(made) + 2))
    if order == 'children first':
        place = [len(made) + 1 - i for i in range(len(made))]
    elif order == 'children last':
        place = [len(made) + 1] + [1 + i for i in range(1, len(made))]
    else:
        rest = list(range(2, len(made) + 1))
        rng.shuffle(rest)
        place = [len(made) + 1] + rest
    out = [None] * (len(made) + 2)
    out[0], out[1] = (v, 0, 0), (v, 1, 1)
    for i, (x, low, high) in enumerate(made):
        link = [c[1] if isinstance(c, tuple) else place[c] for c in (low, high)]
        out[place[i]] = (x, link[0], link[1])
    return [w for node in out for w in node]


def ladder(rng, n, v):
    """An accepted array of n nodes, each at a variable of its own: one link goes to the next node, the other to one of the next few, now and then
    the same, or to a terminal. It is as deep as it can be: with a node for each variable, counts and weights have bits of every size."""
    at = sorted(rng.sample(range(v), n - 2))
    place = list(range(2, n - 1))
    rng.shuffle(place)
    place = [n - 1] + place
    out = [(v, 0, 0), (v, 1, 1)] + [None] * (n - 2)
    for i, var in enumerate(at):
        if i + 1 < len(at):
            links = [place[i + 1], rng.choice([0, 1] + place[i + 1:i + 2] + 3 * place[i + 2:i + 6])]
        else:
            links = [0, 1]
        rng.shuffle(links)
        out[place[i]] = (var, *links)
    return [w for node in out for w in node]


def crowded():
    """The most nodes over the most variables: a layered diagram of the last 40, under the conjunction of those before."""
    last = 40
    first = MAX_VARS - last
    words = layered(random.Random(1993), MAX_NODES - first, last)
    made = terminals(MAX_VARS) + [w if i % 3 else w + first for i, w in enumerate(words[6:])]
    for i in reversed(range(first)):
        made += [i, 0, len(made) // 3 - 1]
    assert len(made) == 3 * MAX_NODES
    return made


def widened(words):
    """The same nodes over one variable more than there may be."""
    return terminals(MAX_VARS + 1)[:len(words)] + words[6:]


def full(v):
    """The most nodes, in few bytes of text: of those between the terminals and the root none can be reached."""
    return terminals(v) + [0, 0, 1] * (MAX_NODES - 2)


def widest():
    """Arrays over the most variables and, for 7, over one more: of one node, of two, of some, and of the most."""
    rng = random.Random(1994)
    for words in (terminals(MAX_VARS)[:3], terminals(MAX_VARS), ladder(rng, 60, MAX_VARS), ladder(rng, MAX_VARS + 2, MAX_VARS)):
        yield words
        yield widened(words)
    yield crowded()
    yield full(MAX_VARS + 1)


def which_link():
    """A node whose child is not at a larger variable: 11 for its low child, 17 for its high child alone, the smallest node first."""
    t = terminals(3)
    for low, high in ((2, 1), (0, 2), (2, 2)):          # its own child: low only, high only, both
        yield terminals(1) + [0, low, high]
        yield t + [1, low, high]
    yield terminals(1) + [0, 1, 2] + [0, 2, 1]          # 17 at 2, although there is an 11 at 3
    yield terminals(1) + [0, 2, 1] + [0, 1, 2]          # 11 at 2, although there is a 17 at 3
    for var in (0, 1):                                  # a child at a smaller variable, and at the same one; beside a right child
        for low, high in ((2, 1), (0, 2), (2, 2)):
            yield t + [var, 0, 1] + [1, low, high]
        for low, high in ((3, 2), (2, 3), (3, 3)):
            yield t + [2, 0, 1] + [var, 0, 1] + [1, low, high]
    for first in ([1, 2, 1], [1, 1, 2], [1, 2, 2]):     # two such nodes: by low, by high, by both, and either met first
        for second in ([1, 3, 1], [1, 1, 3], [1, 3, 3]):
            yield t + first + second + [0, 2, 3]
            yield t + first + second + [0, 3, 2]
    for low, high in ((3, 0), (0, 3), (3, 3)):          # circles: of two nodes, back by low, by high, by both
        for back, again in ((2, 1), (1, 2), (2, 2)):
            yield t + [0, low, high] + [1, back, again] + [0, 2, 1]
            yield t + [1, low, high] + [2, back, again] + [0, 2, 3]
    for var in (0, 1, 2):                               # a circle through the root
        yield t + [1, 0, 4] + [2, 4, 1] + [var, 2, 3]
        yield t + [1, 4, 0] + [2, 1, 4] + [var, 3, 2]
    yield t + [1, 0, 2] + [0, 0, 1]                     # out of reach: 12, whichever link
    yield t + [1, 2, 0] + [0, 1, 1]
    yield t + [2, 0, 1] + [1, 0, 3] + [0, 3, 1]         # 17 at 3 before 12 at 2
    yield t + [2, 0, 1] + [1, 3, 0] + [0, 3, 1]         # and 11 at 3


def cases():
    """(words, room length, word of the room before)"""
    rng = random.Random(1986)

    def exact(words, more=0):
        return words, ROOM * most(len(words) // 3) + more, 7

    yield exact(D)
    yield exact(D, 3)                                   # a longer room keeps its rest
    yield D, ROOM * 5 - 1, 7                            # a room one word short
    over = MAX_VARS + 1
    for more, words in enumerate(widest()):             # the most variables and one more
        yield exact(words, more % 4)
    yield exact(terminals(over) + [over + 44, 9, 9])    # 7 comes before 8
    yield exact(terminals(MAX_VARS) + [MAX_VARS, 9, 9])
    yield full(MAX_VARS), ROOM * MAX_NODES - 1, 7       # a room one word short, at the most nodes
    yield [], 2 * ROOM, 7                               # 1
    yield [], 0, 7
    for k in (1, 2, 4, 5, 13, 14, 16):                  # 2
        yield exact([3] * k)
    yield [9] * 3 * (MAX_NODES + 1), 0, 7               # 3 comes before 5
    yield exact(layered(rng, MAX_NODES, MAX_VARS), 3)   # the most nodes and one more
    yield layered(rng, MAX_NODES, MAX_VARS) + [0, 0, 1], ROOM * (MAX_NODES + 1), 7
    yield exact([0, 0, 1])                              # 6
    yield exact([1, 0, 0, 0, 1, 1])
    yield exact([0, 0, 0, 0, 0, 0])
    yield exact([over, 0, 0, MAX_VARS, 1, 1])
    yield exact([over, 0, 1])
    yield exact([over, 0, 0, over, 1, 0])               # 6 comes before 7
    yield exact([3, 0, 0, 3, 1, 1, 3, 0, 1])            # 8, 9, 10, each with a later fault beside it
    yield exact([3, 0, 0, 3, 1, 1, 3, 9, 9])
    yield exact([3, 0, 0, 3, 1, 1, 2, 3, 1])
    yield exact([3, 0, 0, 3, 1, 1, 2, 3, 3])
    yield exact([3, 0, 0, 3, 1, 1, 2, 0, 3])
    yield exact([3, 0, 0, 3, 1, 1, 2, 0, 3, 9, 9, 9])
    yield exact([3, 0, 0, 3, 1, 1, 2, 0, 1, 9, 9, 9])
    yield exact([1, 0, 0, 1, 1, 1, 0, 2, 0, 0, 2, 1])   # 11 through another violator
    yield exact([1, 0, 0, 1, 1, 1, 0, 2, 2, 0, 0, 1])   # an unreachable violator is 12
    yield exact([1, 0, 0, 1, 1, 1, 0, 0, 1, 0, 3, 1])   # 11 before a 12 at a smaller node
    yield exact([1, 0, 0, 1, 1, 1, 0, 0, 1, 0, 1, 3])   # and 17
    yield from (exact(words) for words in which_link())
    yield exact([1, 0, 0, 1, 1, 1, 0, 2, 1])            # self-linked
    yield exact([2, 0, 0, 2, 1, 1, 0, 3, 1, 1, 2, 0])   # a cycle
    yield exact([3, 0, 0, 3, 1, 1, 1, 3, 0, 1, 4, 0, 1, 2, 0, 0, 2, 1])
    yield exact([2, 0, 0, 2, 1, 1, 1, 0, 1, 1, 0, 1])   # 12
    yield exact([2, 0, 0, 2, 1, 1, 1, 0, 1, 1, 1, 0, 0, 3, 1])
    yield exact([0, 0, 0])
    yield exact(terminals(0))
    yield [0, 0, 0], 2 * ROOM - 1, 7                    # one node asks for the room of two
    yield [0, 0, 0], 2 * ROOM, 7
    yield [0, 0, 0], 2 * ROOM + 2, 7
    yield exact([1, 0, 0, 1, 1, 1, 0, 1, 1])            # low = high is accepted, and so are equal nodes
    yield exact([2, 0, 0, 2, 1, 1, 1, 0, 1, 1, 0, 1, 0, 2, 3])
    for order in ('children first', 'children last', 'random'):
        for n in (3, 10, 60, 300):
            yield exact(layered(rng, n, 200, order))
    for _ in range(300):                                # damaged: one word of an accepted array changed
        n = rng.choice((3, 4, 5, 6, 8, 12))
        words = layered(rng, n, rng.choice((4, 9)), rng.choice(('children first', 'children last', 'random')))
        words[rng.randrange(len(words))] = rng.choice((0, 1, 2, 3, n - 1, n, MAX_VARS, 4294967295))
        if rng.random() < 0.1:
            words = words[:-1]
        yield words, ROOM * most(len(words) // 3) + rng.choice((-1, 0, 0, 0, 2)), 7
    for _ in range(300):                                # any links at all, in range
        n = rng.choice((3, 4, 5, 6, 7))
        v = rng.choice((1, 2, 3, 5))
        words = terminals(v) + [x for _ in range(n - 2) for x in (rng.randrange(v), rng.randrange(n), rng.randrange(n))]
        yield exact(words, rng.choice((0, 1)))


def main():
    lines, answers = [], []
    for words, room, word in cases():
        kind, a, b = verdict(words, room)
        said = f'accepted nodes {a} vars {b}' if kind == 'accepted' else f'refused {a} at {b}'
        zero = room_after(words, room)
        lines.append(' '.join(str(x) for x in [room, word] + words) + '\n')
        answers.append(f'{said}, room zero {zero} kept {room - zero}\n')
    open(os.path.join(FOLDER, 'stdin'), 'w').writelines(lines)
    open(os.path.join(FOLDER, 'stdout'), 'w').writelines(answers)


if __name__ == '__main__':
    main()
