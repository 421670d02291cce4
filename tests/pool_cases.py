"""Writes crates/pool_run/stdin and stdout: calls to pools, one after the other, and what document 02 (E6) says of each. A condition is kept as a
number in one dictionary of reduced nodes, so that equal conditions have equal numbers; where there are few variables all valuations are gone
through beside it. Whether words are a pool is told in the paper's own words: by sets, and by walking from the live slots. What each slot
holds is also kept apart, by the calls alone, and every slot of every table that is answered is held to it."""
import os
import random
from itertools import product

from comparison_cases import conjunction, doubled, faulty, parity
from diagram_cases import D, crowded, ladder, layered, terminals
from limits import MAX_NODES, MAX_VARS, ROOM, SLOTS
from reading import most, nodes, room_after, verdict

HERE = os.path.dirname(os.path.abspath(__file__))
FOLDER = os.path.join(HERE, '..', 'crates', 'pool_run')
SHOWN = 24                          # more words than these are summed
TABLE, NAMES = 3 * MAX_NODES + 4, 66        # the longest table and slots that the program lends
FEW = 5                             # variables whose valuations are gone through one by one
FAR = 1 << 32                       # a slot beyond 32 bits


class Reduced:
    """Reduced nodes over v variables, each once: 0 and 1 are the terminals."""

    def __init__(self, v):
        self.v, self.nodes, self.number = v, [(v, 0, 0), (v, 1, 1)], {}

    def node(self, var, low, high):
        if low == high:
            return low
        if (var, low, high) not in self.number:
            self.number[var, low, high] = len(self.nodes)
            self.nodes.append((var, low, high))
        return self.number[var, low, high]

    def conditions(self, ns, roots):
        """The number of each root's condition. Nodes are taken by falling variable, so that children come first."""
        made = {0: 0, 1: 1}
        for p in sorted((p for p in reached(ns, roots) if p > 1), key=lambda p: -ns[p][0]):
            var, low, high = ns[p]
            made[p] = self.node(var, made[low], made[high])
        return [made[root] for root in roots]

    def order(self, condition, place):
        """Numbers the nodes of a condition that have no place yet, on the way back, low branch first."""
        todo = [(condition, False)]
        while todo:
            x, back = todo.pop()
            if x in place:
                continue
            if back:
                place[x] = len(place)
            else:
                todo += [(x, True), (self.nodes[x][2], False), (self.nodes[x][1], False)]

    def words(self, place):
        return [word for x in sorted(place, key=place.get) for word in (self.nodes[x][0], *(place[y] for y in self.nodes[x][1:]))]

    def array(self, condition):
        """The reduced array."""
        if condition == 0:
            return [self.v, 0, 0]
        place = {0: 0, 1: 1}
        self.order(condition, place)
        return self.words(place)


STORES = {}


def store(v):
    return STORES.setdefault(v, Reduced(v))


def condition(words):
    """The number of what a diagram says."""
    ns = nodes(words)
    return store(ns[0][0]).conditions(ns, [len(ns) - 1])[0]


def reduced(words):
    return store(words[0]).array(condition(words))


def reached(ns, roots):
    met, todo = set(), list(roots)
    while todo:
        p = todo.pop()
        if p not in met:
            met.add(p)
            if p > 1:
                todo += ns[p][1:]
    return met


def well_formed(table, slots):
    """Document 02: variable count within the limit, live slots naming nodes, the nodes after the terminals ordered, reduced and distinct, each
    reached from a live slot, free places zero."""
    if len(table) % 3 or not 2 <= len(table) // 3 <= MAX_NODES or len(slots) != SLOTS:
        return False
    ns = nodes(table)
    v = ns[0][0]
    if ns[:2] != [(v, 0, 0), (v, 1, 1)] or v > MAX_VARS:
        return False
    inner = {p for p in range(2, len(ns)) if ns[p] != (0, 0, 0)}
    known = inner | {0, 1}
    roots = {name - 1 for name in slots if name}
    if not roots <= known:
        return False
    for p in inner:
        var, low, high = ns[p]
        ordered = var < v and low in known and high in known and var < ns[low][0] and var < ns[high][0]
        if not ordered or low == high:
            return False
    if len({ns[p] for p in inner}) < len(inner):
        return False
    return inner <= reached(ns, roots)


def held(table, slots):
    """What each slot of a well-formed pool holds: the number of a condition, or nothing."""
    ns = nodes(table)
    live = [k for k in range(SLOTS) if slots[k]]
    numbers = store(table[0]).conditions(ns, [slots[k] - 1 for k in live])
    return dict(zip(live, numbers))


def one_table(v, conditions):
    """The nodes of conditions in the order of their slots, each once, and the words of the slots."""
    place, names = {0: 0, 1: 1}, [0] * SLOTS
    for k in sorted(conditions):
        store(v).order(conditions[k], place)
        names[k] = place[conditions[k]] + 1
    return store(v).words(place), names


def ends(ns, p, bits):
    while p > 1:
        p = ns[p][2 if bits[ns[p][0]] else 1]
    return p


def same_everywhere(table, name, words):
    """Whether a slot of the table and a diagram hold for the same valuations."""
    a, b = nodes(table), nodes(words)
    return all(ends(a, name - 1, bits) == ends(b, len(b) - 1, bits) for bits in product((0, 1), repeat=table[0]))


def sum_of(words):
    total = 0
    for word in words:
        total = (total * 2654435761 + word) % 4294967311
    return total


def shown(words):
    if len(words) > SHOWN:
        return f' sum {sum_of(words)}'
    return ''.join(f' {word}' for word in words)


def numbers(*groups):
    return ' '.join(str(x) for group in groups for x in group) + '\n'


class Script:
    """Calls to one pool after the other. What is lent of table and slots is kept here as it is there."""

    def __init__(self):
        self.lines, self.answers = [], []
        self.calls, self.told = {'add': 0, 'drop': 0, 'read': 0}, {}
        self.table, self.slots, self.put = [], [], {}
        self.known = None

    # ---- the words lent

    def offer(self, table, slots=(), names=SLOTS):
        """Any words; zeros behind those of the slots, so many that there are `names` of them."""
        assert len(table) <= TABLE and names <= NAMES
        self.table, self.slots = list(table), list(slots) + [0] * (names - len(slots))
        self.put, self.known = {}, None
        while table and table[-1] == 0:
            table = table[:-1]
        self.lines.append('z0\n')
        self.lines.append('t' + numbers([0], table))
        if any(self.slots):
            self.lines.append('s' + numbers([0], slots))
        if self.formed():
            for k, c in held(self.table, self.slots).items():
                self.put[k] = store(self.table[0]).array(c)

    def pool(self, v, places):
        """An empty one."""
        self.offer(terminals(v) + [0] * 3 * (places - 2))

    def spoil(self, letter, at, word):
        """A word of table or slots becomes another."""
        words = {'t': self.table, 's': self.slots}[letter]
        words[at], self.known = word, None
        self.lines.append(letter + numbers([at, word]))

    def formed(self):
        if self.known is None:
            self.known = well_formed(self.table, self.slots)
        return self.known

    # ---- the calls

    def say(self, call, told, rest):
        kind, a, b = told
        self.calls[call] += 1
        self.told[told[:2] if kind == 'refused' else kind] = self.told.get(told[:2] if kind == 'refused' else kind, 0) + 1
        said = f'accepted nodes {a} vars {b}' if kind == 'accepted' else f'refused {a} at {b}'
        self.answers.append(f'{call} {said}{rest}\n')

    def lent(self, slot):
        return [len(self.table), len(self.slots), slot % FAR, slot // FAR]

    def both(self):
        return f', table{shown(self.table)}, slots{shown(self.slots)}'

    def becomes(self, conditions):
        """The one table of these conditions takes the place of the words lent."""
        v, places = self.table[0], len(self.table) // 3
        words, names = one_table(v, conditions)
        self.table, self.slots = words + [0] * (3 * places - len(words)), names
        assert well_formed(self.table, self.slots) and held(self.table, self.slots) == conditions
        assert {k: store(v).array(c) for k, c in conditions.items()} == self.put
        if v <= FEW:
            assert all(same_everywhere(self.table, self.slots[k], self.put[k]) for k in self.put)
        return 'accepted', len(words) // 3, v

    def add(self, slot, words, room=None):
        room = ROOM * most(len(words) // 3) if room is None else room
        zero = room_after(words, room) if self.formed() else 0
        self.lines.append('a' + numbers(self.lent(slot), [room], words))
        self.say('add', self.to_add(slot, words, room), f', room zero {zero} kept {room - zero}{self.both()}')

    def to_add(self, slot, words, room):
        if not self.formed():
            return 'refused', 46, 0
        own = verdict(words, room)
        if own[0] == 'refused':
            return own
        if slot >= SLOTS:
            return 'refused', 33, 0
        if self.slots[slot]:
            return 'refused', 34, 0
        if words[0] != self.table[0]:
            return 'refused', 35, 0
        conditions = held(self.table, self.slots) | {slot: condition(words)}
        inner = reached(store(words[0]).nodes, conditions.values()) - {0, 1}
        if len(inner) + 2 > len(self.table) // 3:
            return 'refused', 36, 0
        self.put[slot] = reduced(words)
        return self.becomes(conditions)

    def drop(self, slot):
        self.lines.append('d' + numbers(self.lent(slot)))
        self.say('drop', self.to_drop(slot), self.both())

    def to_find(self, slot):
        """Nothing, or why a slot is not there or empty."""
        if not self.formed():
            return 'refused', 46, 0
        if slot >= SLOTS:
            return 'refused', 33, 0
        if not self.slots[slot]:
            return 'refused', 34, 0
        return None

    def to_drop(self, slot):
        missing = self.to_find(slot)
        if missing:
            return missing
        conditions = held(self.table, self.slots)
        del conditions[slot], self.put[slot]
        return self.becomes(conditions)

    def read(self, slot, room=None, output=None):
        """With a room and an output as long as they must be, where nothing else is said."""
        places = len(self.table) // 3
        missing = self.to_find(slot)
        array = [] if missing else store(self.table[0]).array(held(self.table, self.slots)[slot])
        assert missing or array == self.put[slot]
        room = ROOM * places if room is None else room
        output = len(array) if output is None else output
        told = missing or (('refused', 5, 0) if room < ROOM * places else ('refused', 4, 0) if output < len(array) else
                           ('accepted', len(array) // 3, self.table[0]))
        zero = ROOM * places if told[0] == 'accepted' or told[1] == 4 else 0
        array = array if told[0] == 'accepted' else []
        self.lines.append('r' + numbers(self.lent(slot), [room, output]))
        self.say('read', told, f', room zero {zero} kept {room - zero}, output{shown(array)} kept {output - len(array)}')

    def read_all(self, beside=()):
        for k in sorted(set(self.put) | set(beside)):
            self.read(k)


# ---- conditions

def of_truth(v, bits):
    """The diagram of a list of 2^v bits: node 2 + p for each place p of a tree, and so not reduced."""
    if v == 0:
        return terminals(0)[:3 + 3 * bits[0]]
    made, below = terminals(v), list(bits)
    for var in reversed(range(v)):
        first = len(made) // 3
        for i in range(0, len(below), 2):
            made += [var, below[i], below[i + 1]]
        below = list(range(first, first + len(below) // 2))
    return made


def random_truth(rng, v):
    return of_truth(v, [rng.randrange(2) for _ in range(2 ** v)])


def by_one_variable(v, var, low=0, high=1):
    return terminals(v) + [var, low, high]


def all_of(v, variables, last=(0, 1)):
    """All of some variables: a chain, whose last node has the links last."""
    made, links = terminals(v), last
    for var in sorted(variables, reverse=True):
        made += [var, *links]
        links = 0, len(made) // 3 - 1
    return made


def chosen(rng, v):
    """Any condition of a few nodes."""
    kind = rng.randrange(8)
    if kind == 0:
        return rng.choice((terminals(v)[:3], terminals(v), by_one_variable(v, rng.randrange(v), *rng.choice(((0, 0), (1, 1))))))
    if kind == 1:
        return by_one_variable(v, rng.randrange(v), *rng.choice(((0, 1), (1, 0))))
    if kind == 2 and v <= 4:
        return random_truth(rng, v)
    if kind == 3:
        return all_of(v, rng.sample(range(v), rng.randrange(1, v + 1)), rng.choice(((0, 1), (1, 0))))
    if kind == 4 and v <= 6:
        return parity(v)
    words = layered(rng, rng.choice((3, 4, 5, 6, 8, 10)), v, rng.choice(('children first', 'children last', 'random')))
    return doubled(rng, words) if kind == 5 else words


# ---- the calls

def small_print(s):
    """Each sentence of the request by hand."""
    for v in (0, 1, 3, MAX_VARS):                       # an empty pool: every slot is empty
        for places in (2, 3):
            s.pool(v, places)
            for slot in (0, 1, 63, 64, FAR, FAR + 1, FAR * FAR - 1):
                s.drop(slot)
                s.read(slot)
            s.add(0, terminals(v)[:3])                  # a constant needs no place
            s.add(63, terminals(v))
            s.read_all((1, 62, 64))
            s.drop(0)
            s.read_all((0,))
            s.drop(63)
            s.drop(63)
    s.pool(1, 2)                                        # A58: two places have room for constants alone
    s.add(0, terminals(1))
    s.add(1, by_one_variable(1, 0))
    s.add(1, by_one_variable(1, 0, 1, 1))               # its reduced form is true
    s.add(2, by_one_variable(1, 0, 0, 0))
    s.read_all()
    s.pool(1, 3)
    s.add(5, by_one_variable(1, 0))
    s.add(6, by_one_variable(1, 0))                     # the same condition twice is the same node
    s.add(7, by_one_variable(1, 0, 1, 0))               # its negation is another
    s.drop(5)
    s.read_all((5, 7))
    s.add(7, by_one_variable(1, 0, 1, 0))               # the node is still in use by slot 6
    s.drop(6)
    s.add(7, by_one_variable(1, 0, 1, 0))               # and now its place is free
    s.read_all((5, 6))
    s.pool(3, 5)                                        # D and its parts; 36 counts distinct nodes
    s.add(9, D)
    s.add(8, by_one_variable(3, 2))
    s.add(10, by_one_variable(3, 0))
    s.add(7, all_of(3, (1, 2), (0, 1)))
    s.drop(9)
    s.read_all((9,))
    s.add(10, by_one_variable(3, 0))
    s.add(9, D)
    s.drop(10)
    s.drop(8)
    s.add(9, D)
    s.read_all((8, 10))
    s.pool(3, 8)                                        # the order of the slots decides the order of the nodes, not that of the calls
    for slots in ((0, 1, 2), (2, 1, 0), (1, 2, 0)):
        for slot in slots:
            s.add(slot, (D, by_one_variable(3, 0), by_one_variable(3, 1, 1, 0))[slot])
        for slot in slots:
            s.drop(slot)
    s.pool(0, 7)                                        # no variables: free places are no nodes
    for slot in (3, 63):
        s.add(slot, terminals(0)[:3])
        s.add(slot - 1, terminals(0))
    s.read_all((0, 64))
    s.drop(3)
    s.drop(62)
    s.read_all((3, 62))


def orders(s):
    """Of two refusals that both apply the earlier one is given; each again without the earlier."""
    large = [9] * 3 * (MAX_NODES + 1)
    wide = conjunction(9)
    for spoilt in (False, True):
        s.pool(3, 4)
        s.add(2, by_one_variable(3, 1))
        if spoilt:
            s.spoil('t', 4, 0)                          # 46 before all others
        for slot in (0, 2, 64, FAR + 2):
            s.add(slot, large, 1)                       # the diagram's own, before 33, 34, 35 and 36
            for words, more in faulty():
                s.add(slot, words, max(0, ROOM * most(len(words) // 3) + more))
            for words in (by_one_variable(2, 1), wide, D, by_one_variable(3, 1), by_one_variable(3, 0)):
                s.add(slot, words, ROOM * most(len(words) // 3) - 1)
                s.add(slot, words, 0)
                if slot or words != by_one_variable(3, 0):
                    s.add(slot, words)                  # 33, 34, 35, 36
            s.drop(slot) if slot != 2 else None
            for room in (0, ROOM * 4 - 1, ROOM * 4, ROOM * 4 + 3):  # 33 and 34 before 5, 5 before 4
                for output in (0, 8, 9, 10):
                    s.read(slot, room, output)
    s.spoil('t', 4, 1)
    s.read_all((0,))
    s.drop(2)


def lengths(s):
    """Rooms and outputs exact, one short and longer."""
    for v, places, words in ((3, 5, D), (3, 6, D), (3, 2, terminals(3)), (3, 2, terminals(3)[:3]), (0, 2, [0, 0, 0]), (0, 3, terminals(0)),
                             (MAX_VARS, 40, all_of(MAX_VARS, range(0, MAX_VARS, 20)))):
        s.pool(v, places)
        need = ROOM * most(len(words) // 3)
        for room in (0, 1, need - 1, need, need + 5):
            s.add(17, words, room)
        whole = len(reduced(words))
        for room in (0, ROOM * places - 1, ROOM * places, ROOM * places + 2):
            for output in (0, 1, whole - 1, whole, whole + 1, 3 * places):
                s.read(17, room, output)
        s.drop(17)
        s.add(17, words, need + 1)
        s.read(17)


def near(rng, usual, any_one, chance=0.88):
    """One of the usual ones, where there are any, and now and then any at all."""
    return rng.choice(sorted(usual)) if usual and rng.random() < chance else rng.choice(any_one)


def walk(s, rng, v, places, calls, slots):
    """Calls at random: slots are few, so that they are taken and empty in turn, and conditions share nodes."""
    s.pool(v, places)
    for _ in range(calls):
        empty = set(slots) - set(s.put) - {SLOTS, SLOTS + 1, FAR}
        what = rng.random()
        if what < 0.48 and (empty or rng.random() < 0.2):
            words = chosen(rng, v - 1 or 2) if rng.random() < 0.04 else chosen(rng, v)     # 35
            s.add(near(rng, empty, slots), words, None if rng.random() < 0.9 else ROOM * most(len(words) // 3) + rng.choice((-1, 1, 4)))
        elif what < 0.73:
            s.drop(near(rng, s.put, slots))
        else:
            s.read(near(rng, s.put, slots), None if rng.random() < 0.9 else ROOM * places + rng.choice((-1, 1, 4)),
                   None if rng.random() < 0.8 else rng.choice((0, 3, 5, 6, 9, 12, 3 * places)))


def walks(s, rng):
    for places in range(2, 9):
        for v in (1, 2, 3):
            walk(s, rng, v, places, 110, (0, 1, 2, 5, 63, rng.choice((3, 64, FAR))))
    for places, v in ((9, 3), (10, 4), (12, 4), (13, 5), (14, 3), (16, 4), (18, 6), (20, 4), (24, 5), (28, 7), (32, 4), (40, 8), (64, 5)):
        walk(s, rng, v, places, 330, (0, 1, 2, 3, 7, 8, 20, 41, 62, 63, rng.choice((64, 65, FAR))))
    for places, v in ((60, 30), (90, 100), (150, MAX_VARS), (40, MAX_VARS - 1)):
        walk(s, rng, v, places, 220, (0, 1, 2, 3, 4, 5, 30, 31, 32, 63, 64))


def sites(s, rng):
    """All slots in use, by conditions with parts in common: behind the same guards, and in the same groups."""
    for v, places in ((40, 400), (60, 180)):
        s.pool(v, places)
        guards = [all_of(v, rng.sample(range(6), 3)) for _ in range(4)]
        order = list(range(SLOTS))
        rng.shuffle(order)
        for slot in order:
            guard = rng.choice(guards)
            units = rng.sample(range(6, v), rng.randrange(2, 6))
            s.add(slot, all_of(v, [guard[i] for i in range(6, len(guard), 3)] + units, rng.choice(((0, 1), (1, 0)))))
        s.read_all()
        for _ in range(3):
            rng.shuffle(order)
            for slot in order[:20]:
                s.drop(slot)
            for slot in order[:20]:
                s.add(slot, all_of(v, rng.sample(range(v), 5)))
        s.read_all()
        for slot in order:
            s.drop(slot)
        assert s.table == terminals(v) + [0] * 3 * (places - 2) and not any(s.slots)


def widest(s, rng):
    """The most places and the most variables."""
    whole = reduced(crowded())                          # over the most variables, and as deep as can be
    places = len(whole) // 3
    s.pool(MAX_VARS, places - 1)                        # one place short, exact, and the most
    s.add(0, whole)
    s.pool(MAX_VARS, places)
    s.add(0, whole)
    s.add(63, whole)
    s.add(1, terminals(MAX_VARS))
    s.add(2, by_one_variable(MAX_VARS, 0))
    s.drop(0)
    s.read(63)
    s.drop(63)
    s.read(1)
    s.pool(MAX_VARS, MAX_NODES)
    deep = ladder(rng, MAX_VARS + 2, MAX_VARS)
    s.add(40, deep)
    s.add(3, whole)
    s.read(40)
    s.read(3, None, 3 * MAX_NODES + 4)
    s.add(4, whole)
    s.add(5, deep[:-3] + [deep[-3], deep[-1], deep[-2]])
    for slot in (40, 3, 5):
        s.read(slot)
        s.drop(slot)
        s.read(4)
    s.read(4, ROOM * MAX_NODES - 1)
    s.read(4, ROOM * MAX_NODES + 4)
    s.drop(4)
    full = []                                           # many conditions up to the last place
    s.pool(26, MAX_NODES)
    while len(full) < SLOTS:
        words = layered(rng, 70, 26, 'random')
        full.append(words)
        s.add(len(full) - 1, words)
    spare = MAX_NODES - len({x for x in reached(store(26).nodes, held(s.table, s.slots).values()) if x > 1}) - 2
    assert spare > 0
    for slot in (60, 10, 33):
        s.drop(slot)
        s.add(slot, layered(rng, 3500, 26))
        s.read(slot - 1)
    s.add(33, full[5])
    s.add(60, full[5])
    s.read_all((10, 64))


# ---- tables offered to 46

def shuffled(rng, table, slots, more):
    """The same pool with its nodes at any places, and `more` places beside those in use."""
    ns = nodes(table)
    used = [p for p in range(2, len(ns)) if ns[p] != (0, 0, 0)]
    places = 2 + len(used) + more
    place = {0: 0, 1: 1, **dict(zip(used, rng.sample(range(2, places), len(used))))}
    made = [0] * 3 * places
    for p in [0, 1] + used:
        made[3 * place[p]:3 * place[p] + 3] = ns[p][0], place[ns[p][1]], place[ns[p][2]]
    return made, [name and place[name - 1] + 1 for name in slots]


def look(s):
    """46, or 33 where it is a pool."""
    s.drop(SLOTS)


def pool_of(conditions, places):
    """A pool with some diagrams in it, by slot."""
    v = next(iter(conditions.values()))[0]
    words, names = one_table(v, {k: condition(w) for k, w in conditions.items()})
    return words + [0] * (3 * places - len(words)), names


def damaged(s, rng):
    """Every word of a small pool changed to others."""
    small = [({0: terminals(1)[:3]}, 2), ({4: by_one_variable(1, 0)}, 4), ({0: D}, 5), ({0: D, 1: by_one_variable(3, 0), 63: by_one_variable(3, 2, 1, 0)}, 8),
             ({7: parity(3), 8: terminals(3)}, 7), ({1: all_of(4, (0, 2, 3)), 2: all_of(4, (1, 2, 3))}, 8), ({3: terminals(0)}, 4)]
    for conditions, places in small:
        table, slots = pool_of(conditions, places)
        if places > 4:
            table, slots = shuffled(rng, table, slots, places - len([x for x in nodes(table) if x != (0, 0, 0)]))
        s.offer(table, slots)
        look(s)
        v = table[0]
        others = sorted({0, 1, 2, 3, max(v - 1, 0), v, v + 1, places - 1, places, places + 1, MAX_VARS, MAX_VARS + 1, FAR - 1})
        live = [k for k in range(SLOTS) if slots[k]]
        for letter, words, where in (('t', table, range(len(table))), ('s', slots, live + [k for k in (0, 62, 63) if k not in live])):
            for at in where:
                for word in others:
                    if word != words[at]:
                        s.spoil(letter, at, word)
                        look(s)
                s.spoil(letter, at, words[at])
        for first, second in ((0, 3), (3, 0)):          # both terminals of another count
            for count in (v + 1, MAX_VARS, MAX_VARS + 1, FAR - 1, 0):
                s.spoil('t', first, count)
                s.spoil('t', second, count)
                look(s)
            s.spoil('t', first, v)
            s.spoil('t', second, v)
        look(s)


def by_hand(s):
    """Each of the paper's words that a pool can fail, and pools that look odd and are well formed."""
    x2 = [2, 0, 1]
    t = terminals(3)
    cases = [
        (t + x2, {0: 3}), (t + x2, {}),                                             # reached from a live slot
        (t + x2 + [0, 0, 0], {0: 4}),                                               # a slot names a free place
        (t + x2, {0: 4}), (t + x2, {0: 3, 5: FAR - 1}), (t + x2, {0: 3, 63: 2, 62: 1}),     # names no place; terminals
        (t + x2 + x2, {0: 3, 1: 4}), (t + x2 + [0, 0, 0] + x2, {0: 3, 1: 5}),       # an equal pair
        (t + x2 + x2 + [0, 2, 3], {0: 5}),
        (t + [2, 0, 0], {0: 3}), (t + [2, 1, 1], {0: 3}), (t + x2 + [1, 2, 2], {0: 4}),     # low = high
        (t + [2, 0, 1, 1, 0, 2], {0: 4}), (t + [1, 0, 3, 2, 0, 1], {0: 3}),         # ordered either way round
        (t + [1, 0, 1, 1, 0, 2], {0: 4}), (t + [1, 0, 1, 2, 0, 2], {0: 4}), (t + [1, 2, 0], {0: 3}),       # and not
        (t + [1, 0, 3, 2, 2, 1], {0: 3, 1: 4}), (t + [0, 3, 1, 0, 2, 1], {0: 3, 1: 4}),     # circles
        (t + [3, 0, 1], {0: 3}), (t + [2, 0, 3], {0: 3}), (t + [2, 3, 1], {0: 3}),  # out of range
        (t + [1, 0, 3, 0, 0, 0], {0: 3}), (t + [0, 0, 3, 0, 0, 0], {0: 3}),         # a link to a free place
        (t + [0, 0, 0, 0, 0, 0, 2, 0, 1], {0: 5}), (t + [0, 0, 0, 1, 0, 4, 2, 0, 1, 0, 0, 0], {9: 4}),     # free places between
        (t + [0, 0, 1], {0: 3}), (t + [0, 1, 0], {0: 3}), (t + [0, 0, 1], {}),      # a node at variable 0 is not free
        (t + x2 + [1, 0, 2], {0: 3, 1: 3}), (t + x2 + [1, 0, 2], {1: 4}),           # its parent is not reached; it is
        (t + x2 + [1, 0, 2, 1, 2, 0], {5: 4}), (t + x2 + [1, 0, 2, 1, 2, 0], {5: 4, 6: 5}),
        (t + [2, 0, 1, 0, 0, 5], {0: 3}), (t + [0, 0, 5], {}), (t + [5, 0, 0], {}), (t + [0, 7, 0], {0: 1}),    # free places zero
        ([3, 0, 0, 3, 0, 1], {}), ([3, 0, 0, 2, 1, 1], {}), ([3, 1, 0, 3, 1, 1], {}), ([0] * 6, {}), ([0] * 12, {}), ([1] * 6, {}),
        (terminals(MAX_VARS), {3: 2}), (terminals(MAX_VARS + 1), {3: 2}), (terminals(MAX_VARS + 1), {}), (terminals(FAR - 1), {}),
        (terminals(MAX_VARS) + [MAX_VARS - 1, 0, 1], {3: 3}), (terminals(MAX_VARS) + [MAX_VARS, 0, 1], {3: 3}),
        (terminals(0), {}), (terminals(0) + [0, 0, 0] * 3, {8: 2, 9: 1}), (terminals(0) + [0, 0, 1], {8: 3}), (terminals(0) + [0, 0, 0], {8: 3}),
    ]
    for table, names in cases:
        slots = [names.get(k, 0) for k in range(SLOTS)]
        s.offer(table, slots)
        look(s)
        s.add(33, by_one_variable(table[0], 0) if 0 < table[0] <= MAX_VARS else terminals(0), 3 * ROOM)
        s.read(min(names, default=0), None, 12)
    for table, names in ((t, SLOTS), (t + [0], SLOTS), (t + [0, 0], SLOTS), (t[:5], SLOTS), (t[:4], SLOTS), (t[:3], SLOTS), ([], SLOTS), ([3, 0], SLOTS),
                         (t, SLOTS - 1), (t, SLOTS + 1), (t, SLOTS + 2), (t, 0), (t, 1), (t + x2, SLOTS - 1)):
        s.offer(table, [0, 3] if len(table) > 8 and names else [], names)           # lengths of table and slots
        look(s)
        s.drop(1)
        s.add(0, by_one_variable(3, 2))
        s.read(1, ROOM * 4, 9)
    for places in (MAX_NODES, MAX_NODES + 1):
        s.offer(terminals(2) + [0] * 3 * (places - 2))
        look(s)
        s.add(0, by_one_variable(2, 1))
    s.offer(terminals(2) + [0] * (3 * (MAX_NODES - 2) + 1))
    look(s)


def offered(s, rng, count):
    """Pools in any order with free places between, half of them with a word or two changed; and words at random."""
    for _ in range(count):
        v = rng.choice((1, 2, 3, 4))
        conditions = {rng.choice((0, 1, 2, 7, 30, 63)): chosen(rng, v) for _ in range(rng.randrange(1, 4))}
        if sum(len(words) for words in conditions.values()) > 60:
            continue
        table, slots = shuffled(rng, *pool_of(conditions, 40), rng.choice((0, 0, 1, 2, 3)))
        for _ in range(rng.choice((0, 0, 1, 1, 1, 2))):
            if rng.random() < 0.75:
                table[rng.randrange(len(table))] = rng.choice((0, 1, 2, 3, 4, v, len(table) // 3))
            else:
                slots[rng.choice((0, 1, 2, 7, 30, 62, 63))] = rng.randrange(len(table) // 3 + 2)
        s.offer(table, slots)
        if not s.formed():
            look(s)
            continue
        what = rng.random()                             # a pool whose nodes stand anywhere: read, then put in order by the next call
        live = sorted(s.put)
        if live and what < 0.6:
            s.read_all()
        s.drop(rng.choice(live)) if live and what < 0.5 else s.add(rng.choice((0, 5, 63)), chosen(rng, v))
        if what > 0.9:
            s.read_all()
    for _ in range(count // 2):                         # few words, so that some are pools by chance
        places = rng.choice((2, 3, 3, 4))
        v = rng.choice((1, 2, 2, 3))
        inner = [rng.choice((rng.randrange(v), 0)) if i % 3 == 0 else rng.randrange(places) for i in range(3 * (places - 2))]
        s.offer(terminals(v) + inner, [rng.choice((0, 0, 1, 2, 3, 3, 4, 5)) for _ in range(4)])
        look(s)


def main():
    rng = random.Random(2027)
    s = Script()
    small_print(s)
    orders(s)
    lengths(s)
    by_hand(s)
    damaged(s, rng)
    offered(s, rng, 700)
    walks(s, rng)
    sites(s, rng)
    widest(s, rng)
    assert sum(s.calls.values()) >= 10000
    open(os.path.join(FOLDER, 'stdin'), 'w').writelines(s.lines)
    open(os.path.join(FOLDER, 'stdout'), 'w').writelines(s.answers)


if __name__ == '__main__':
    main()
