"""Writes crates/summary_run/stdin and stdout: calls to pools with the summary kept beside them, and what document 02 (E7) says of each. The
model is that of pool_cases.py; what a record must say is worked out from the reduced nodes of all conditions, each once, and where there are
few variables a second time from the tables of truth alone: a slot depends on a variable where flipping it tells, and the nodes that test it
are the different rests of the tables that differ in their two halves."""
import os
import random
from itertools import cycle, product

import pool_cases
from comparison_cases import conjunction, faulty, parity
from diagram_cases import D, crowded, ladder, layered, terminals
from limits import MAX_NODES, MAX_VARS, ROOM, SLOTS
from pool_cases import FAR, FEW, Script, all_of, by_one_variable, chosen, ends, held, near, numbers, pool_of, random_truth, reached, reduced, \
    shown, shuffled, store
from reading import most, nodes, room_after

HERE = os.path.dirname(os.path.abspath(__file__))
FOLDER = os.path.join(HERE, '..', 'crates', 'summary_run')
LONGEST = 2 * MAX_VARS + 12         # the longest summary that the program lends
BEHIND = ((), (), (5, 5), (FAR - 1, 0, 3), (1, 0, 0, 1, 2, 2), (4,))      # what stands behind the records


def by_nodes(table, slots):
    """One record a variable, as two words: the reduced nodes of all conditions, each once; and the conditions that have such a node."""
    v, conditions = table[0], held(table, slots).values()
    known = store(v).nodes
    words = [0] * 2 * v
    for x in reached(known, conditions) - {0, 1}:
        words[2 * known[x][0]] += 1
    for condition in conditions:
        for var in {known[x][0] for x in reached(known, [condition]) - {0, 1}}:
            words[2 * var + 1] += 1
    return words


def by_truth(table, slots):
    """The same from the valuations alone."""
    v, ns = table[0], nodes(table)
    truths = [tuple(ends(ns, name - 1, bits) for bits in product((0, 1), repeat=v)) for name in slots if name]
    words = []
    for var in range(v):
        rest = 2 ** (v - var)
        parts = {truth[at:at + rest] for truth in truths for at in range(0, 2 ** v, rest)}
        words.append(sum(part[:rest // 2] != part[rest // 2:] for part in parts))
        words.append(sum(any(truth[x] != truth[x ^ rest // 2] for x in range(2 ** v)) for truth in truths))
    return words


class Beside(Script):
    """Calls to one pool after the other, with a row of words beside it. Nothing is read: a read takes no row."""

    def __init__(self):
        super().__init__()
        self.calls = {'add': 0, 'drop': 0, 'summarize': 0}
        self.row, self.given, self.fresh = [], None, None
        self.tails = cycle(BEHIND)

    # ---- the words lent

    def offer(self, table, slots=(), names=SLOTS, row=None, behind=None):
        """With the records that belong to it where no row is given, and some words behind them."""
        super().offer(table, slots, names)
        self.given, self.fresh = None, None
        if row is None:
            row = self.summary() if self.formed() else [0] * 2 * min(self.table[0] if self.table else 0, MAX_VARS)
            row = row + list(next(self.tails) if behind is None else behind)
        self.lay(row)

    def lay(self, row):
        """Another row, of any words."""
        assert len(row) <= LONGEST
        self.row, last = list(row), len(row)
        while last and not row[last - 1]:
            last -= 1
        if last:
            self.lines.append('w' + numbers([0], row[:last]))
        if last < len(row):
            self.lines.append('w' + numbers([last], [0] * (len(row) - last)))

    def spoil(self, letter, at, word):
        if letter == 'w':
            self.row[at] = word
            self.lines.append('w' + numbers([at, word]))
        else:
            super().spoil(letter, at, word)
            self.hold()

    def name(self, slots):
        """All slots become others."""
        self.slots = list(slots)
        self.lines.append('s' + numbers([0], slots))
        self.hold()

    def hold(self):
        """What table and slots hold after a change from outside."""
        self.known = self.fresh = None
        if self.formed():
            self.put = {k: store(self.table[0]).array(c) for k, c in held(self.table, self.slots).items()}

    def part(self):
        """As much of the row as is lent."""
        return self.row if self.given is None else self.row[:self.given]

    def lent(self, slot):
        return [len(self.table), len(self.slots), len(self.part()), slot % FAR, slot // FAR]

    def both(self):
        return f'{super().both()}, summary{shown(self.part())}'

    # ---- the summary

    def summary(self):
        """Worked out afresh."""
        if self.fresh is None:
            self.fresh = by_nodes(self.table, self.slots)
            assert self.table[0] > FEW or self.fresh == by_truth(self.table, self.slots)
        return self.fresh

    def formed_and_long(self):
        """Nothing, or 46, or 37."""
        if not self.formed():
            return 'refused', 46, 0
        return ('refused', 37, 0) if len(self.part()) < 2 * self.table[0] else None

    def stands(self):
        """Nothing, or what is refused before all else is looked at."""
        early = self.formed_and_long()
        if early:
            return early
        return ('refused', 47, 0) if self.row[:2 * self.table[0]] != self.summary() else None

    def renew(self):
        self.row[:2 * self.table[0]] = self.summary()

    def becomes(self, conditions):
        told = super().becomes(conditions)
        self.fresh = None
        self.renew()
        return told

    # ---- the calls

    def add(self, slot, words, room=None):
        room = ROOM * most(len(words) // 3) if room is None else room
        early = self.stands()
        zero = 0 if early else room_after(words, room)
        self.lines.append('a' + numbers(self.lent(slot), [room], words))
        self.say('add', early or self.to_add(slot, words, room), f', room zero {zero} kept {room - zero}{self.both()}')

    def drop(self, slot):
        self.lines.append('d' + numbers(self.lent(slot)))
        self.say('drop', self.stands() or self.to_drop(slot), self.both())

    def summarize(self):
        self.lines.append('u' + numbers(self.lent(0)[:3]))
        early = self.formed_and_long()
        if not early:
            self.renew()
        self.say('summarize', early or ('accepted', len(self.table) // 3, self.table[0]), self.both())

    def read(self, slot, room=None, output=None):
        pass

    def read_all(self, beside=()):
        """Where a script reads, the row is worked out once more."""
        self.summarize()


# ---- the calls

def small_print(s):
    """Each sentence of the request by hand."""
    x0 = by_one_variable(1, 0)
    for row in ([0, 0, 5, 5], [1, 0], [0, 1], []):      # A57
        s.pool(1, 3)
        s.lay(row)
        s.add(0, x0)
        s.drop(0)
        s.summarize()
        s.add(0, x0)
        s.drop(0)
    s.pool(3, 12)
    for slot, words in ((9, D), (4, D), (5, D), (60, by_one_variable(3, 2)), (61, by_one_variable(3, 2, 1, 0))):    # equal ones share all nodes
        s.add(slot, words)
    for slot, words in ((0, terminals(3)), (1, terminals(3)[:3]), (2, by_one_variable(3, 1, 1, 1))):    # constants depend on nothing
        s.add(slot, words)
    s.summarize()
    for slot in (9, 60, 5, 0, 4, 2, 61, 1):             # a node is counted until the last slot that needs it is dropped
        s.drop(slot)
        s.drop(slot)
    s.pool(4, 20)
    s.add(0, all_of(4, (0, 3)))                         # variables that are passed by
    s.add(1, all_of(4, (1, 2), (1, 0)))
    s.add(2, parity(4))                                 # two nodes of each variable but the first, and one slot
    s.add(3, [4, 0, 0, 4, 1, 1, 3, 1, 1, 3, 0, 1, 2, 2, 3, 0, 3, 4])    # nodes that reducing takes away count nowhere
    s.add(4, [4, 0, 0, 4, 1, 1, 3, 0, 1, 3, 0, 1, 1, 2, 3])
    for slot in (2, 0, 1, 3, 4):
        s.drop(slot)
    for row in ([], [3], [7, 7, 7, 7], [FAR - 1] * 9):  # no variables: there are no records, and nothing is looked at
        s.pool(0, 4)
        s.lay(row)
        for slot in (3, 63):
            s.add(slot, terminals(0)[:3])
            s.add(slot - 1, terminals(0))
        s.summarize()
        s.drop(3)
        s.drop(3)
    t = terminals(3)
    for table, names in ((t + [0, 0, 0, 2, 0, 1], {7: 4}), (t + [0, 0, 0, 1, 0, 4, 2, 0, 1, 0, 0, 0], {9: 4}),      # free places between nodes
                         (t + [0, 3, 1, 1, 0, 4, 2, 0, 1], {0: 3, 1: 4, 2: 5}), (t + [0] * 9 + [2, 1, 0], {63: 6, 0: 2, 1: 1}),
                         (t + [1, 0, 3, 2, 0, 1, 0, 2, 3], {0: 5, 1: 3, 2: 5, 3: 3})):
        slots = [names.get(k, 0) for k in range(SLOTS)]
        for row in (None, [0] * 6, [9] * 8):            # kept, that of the empty pool, and any
            s.offer(table, slots, row=row)
            s.add(20, by_one_variable(3, 1))
            s.summarize()
            s.add(21, by_one_variable(3, 2))
            s.drop(min(names))
            s.drop(21)


def orders(s):
    """46, 37 and 47 in this order before all others, with those that come later there too."""
    t = terminals(3) + [1, 0, 1, 0, 0, 0]
    own = [words for words, more in faulty() if not more] + [[], D[:14], [9] * 30]
    others = [by_one_variable(2, 1), conjunction(9), D, by_one_variable(3, 1), by_one_variable(3, 0)]
    right = [0, 0, 1, 1, 0, 0]
    for fault in ('none', 'row', 'short', 'short row', 'pool', 'pool row', 'pool short'):
        s.offer(t, [0, 0, 3])
        assert s.row[:6] == right
        if 'row' in fault:
            s.spoil('w', 2, 2)
        if 'pool' in fault:
            s.spoil('t', 4, 0)
        if 'short' in fault:
            s.given = 5
        for slot in (0, 2, 64) if fault != 'none' else (0, 2, 64, FAR + 2):
            for words in own + others:
                for room in (None, 0) if fault != 'none' else (None, ROOM * most(len(words) // 3) - 1, 0):
                    # what would be accepted comes last
                    if fault != 'none' or room is not None or slot or words != by_one_variable(3, 0) and words != by_one_variable(3, 1):
                        s.add(slot, words, room)
            if fault != 'none' or slot != 2:
                s.drop(slot)
        if fault in ('row', 'pool row'):
            s.spoil('w', 2, 1)                          # mended, and with nothing else amiss
        s.summarize()
        s.given = None
        s.add(64, by_one_variable(3, 1))
        s.add(0, by_one_variable(3, 0))
        s.summarize()
        s.drop(2)
    s.offer(t, [0, 0, 3], row=right[:4] + [7, 7])
    s.add(0, [9] * 3 * (MAX_NODES + 1), 1)              # 47 before 3
    s.summarize()
    s.add(0, [9] * 3 * (MAX_NODES + 1), 1)


def wrong_words(s, rng):
    """Every word of small summaries becomes others, and some of the longest one."""
    pools = [pool_of({4: by_one_variable(1, 0)}, 4), pool_of({0: D, 1: D, 63: by_one_variable(3, 2, 1, 0)}, 8), pool_of({7: terminals(3)}, 3),
             pool_of({k: random_truth(rng, 4) for k in (0, 1, 2, 30)}, 30)]
    for table, slots in pools:
        v, live = table[0], min(k for k in range(SLOTS) if slots[k])
        s.offer(*shuffled(rng, table, slots, 3))
        for at in range(2 * v):
            kept = s.row[at]
            beside = s.row[at ^ 1]                      # nodes and slots exchanged, too
            for word in sorted({0, 1, kept + 1, (kept - 1) % FAR, beside, FAR - 1} - {kept}):
                s.spoil('w', at, word)
                s.drop(live)
                s.add(13, by_one_variable(v, v - 1))
            s.spoil('w', at, kept)
        for at in range(0, 2 * v, 2):
            if s.row[at] != s.row[at + 1]:
                s.row[at], s.row[at + 1] = s.row[at + 1], s.row[at]
                s.lay(s.row)
                s.drop(live)
                s.row[at], s.row[at + 1] = s.row[at + 1], s.row[at]
                s.lay(s.row)
        s.drop(live)
        s.drop(live)
        s.add(live, by_one_variable(v, 0))
    deep = all_of(MAX_VARS, range(0, MAX_VARS, 3))
    s.pool(MAX_VARS, 400)
    s.lay([0] * 2 * MAX_VARS + [8, 8, 8])
    s.add(5, deep)
    for at in (0, 1, 2, 3, 510, 511, 512, 2 * MAX_VARS - 2, 2 * MAX_VARS - 1):
        kept = s.row[at]
        for word in (kept + 1, 1 - min(kept, 1), FAR - 1):
            s.spoil('w', at, word)
            s.add(6, deep)
            s.drop(5)
        s.spoil('w', at, kept)
    for at in (2 * MAX_VARS, 2 * MAX_VARS + 2):         # behind the last record nothing is looked at
        s.spoil('w', at, 3)
        s.add(at - 2 * MAX_VARS, by_one_variable(MAX_VARS, MAX_VARS - 1))
    s.drop(5)
    s.summarize()


def lengths(s):
    """Rows as long as they must be, a word and a record shorter and longer, and none."""
    for v, places, words in ((3, 5, D), (3, 6, parity(3)), (1, 3, by_one_variable(1, 0, 1, 0)), (3, 2, terminals(3)), (0, 3, terminals(0)),
                             (6, 20, all_of(6, (0, 5))), (MAX_VARS, 40, all_of(MAX_VARS, range(0, MAX_VARS, 20)))):
        for given in (0, 1, 2 * v - 2, 2 * v - 1, 2 * v, 2 * v + 1, 2 * v + 2, 2 * v + 9):
            if given < 0:
                continue
            s.pool(v, places)
            s.lay([0] * 2 * v + [9, 8, 7, 6, 5, 4, 3, 2, 1])
            s.given = given
            s.add(17, words, 0)
            s.add(17, words)
            s.drop(17)
            s.summarize()
            s.add(17, words)
            if s.slots[17]:
                s.spoil('w', max(0, 2 * v - 1), 9)
                s.drop(17)
                s.summarize()
                s.drop(17)


def any_pool(s, rng, count):
    """Pools whose nodes stand anywhere with free places between, and rows of any words: worked out, then kept."""
    for turn in range(count):
        v = rng.choice((1, 2, 3, 4, 5, 6))
        conditions = {rng.choice((0, 1, 2, 7, 30, 63)): chosen(rng, v) for _ in range(rng.randrange(1, 5))}
        if sum(len(words) for words in conditions.values()) > 90:
            continue
        table, slots = shuffled(rng, *pool_of(conditions, 60), rng.choice((0, 1, 2, 3, 5)))
        kind = turn % 4
        row = None if kind == 0 else [rng.choice((0, 0, 1, 2, 3, FAR - 1)) for _ in range(2 * v + rng.choice((-3, -1, 0, 0, 0, 0, 1, 4)))]
        s.offer(table, slots, row=row)
        if rng.random() < 0.2:
            s.spoil('t', rng.randrange(len(table)), rng.choice((0, 1, 2, v)))
        live = sorted(s.put)
        if kind:
            s.drop(rng.choice(live))
        if kind > 1:
            s.summarize()
        s.drop(rng.choice(live)) if rng.random() < 0.5 else s.add(rng.choice((0, 5, 62)), chosen(rng, v))
        s.drop(live[0])


def upset(s, rng):
    """Something is done to the row from outside; calls; and it is mended, or worked out."""
    v, row = s.table[0], list(s.row)
    what = rng.random()
    if what < 0.5 and v:
        at = rng.randrange(2 * v)
        s.spoil('w', at, rng.choice((s.row[at] + 1, (s.row[at] - 1) % FAR, 0, rng.randrange(FAR))))
    elif what < 0.7 and v:
        s.given = rng.choice((0, 2 * v - 1, 2 * v - 2, rng.randrange(2 * v)))
    elif len(row) > 2 * v:
        s.spoil('w', rng.randrange(2 * v, len(row)), rng.randrange(FAR))
    for _ in range(rng.randrange(1, 3)):
        slot = rng.choice((0, 1, 2, 63, 64))
        s.add(slot, chosen(rng, v)) if rng.random() < 0.5 else s.drop(slot)
    s.given = None
    if rng.random() < 0.5 or s.row[2 * v:] != row[2 * v:]:
        s.summarize()
    else:
        s.summarize() if s.stands() is None else s.lay(row)


def walk(s, rng, v, places, calls, slots):
    """Calls at random, as in pool_cases.py; now and then the row is upset."""
    s.pool(v, places)
    for _ in range(calls):
        empty = set(slots) - set(s.put) - {SLOTS, SLOTS + 1, FAR}
        what = rng.random()
        if what < 0.55 and (empty or rng.random() < 0.2):
            words = chosen(rng, v - 1 or 2) if rng.random() < 0.04 else chosen(rng, v)
            s.add(near(rng, empty, slots), words, None if rng.random() < 0.95 else ROOM * most(len(words) // 3) + rng.choice((-1, 1, 4)))
        elif what < 0.92:
            s.drop(near(rng, s.put, slots))
        else:
            upset(s, rng)


def walks(s, rng):
    for places in range(2, 9):
        for v in (1, 2, 3):
            walk(s, rng, v, places, 32, (0, 1, 2, 5, 63, rng.choice((3, 64, FAR))))
    for places, v in ((9, 3), (10, 4), (12, 4), (13, 5), (16, 4), (18, 6), (20, 4), (28, 7), (32, 4), (40, 8), (64, 5)):
        walk(s, rng, v, places, 170, (0, 1, 2, 3, 7, 8, 20, 41, 62, 63, rng.choice((64, 65, FAR))))
    for places, v in ((60, 30), (90, 100), (150, MAX_VARS), (40, MAX_VARS - 1)):
        walk(s, rng, v, places, 120, (0, 1, 2, 3, 4, 5, 30, 31, 32, 63, 64))


def widest(s, rng):
    """The most places and the most variables, and as many live slots as there are."""
    whole = crowded()
    s.pool(MAX_VARS, MAX_NODES)
    s.lay([0] * 2 * MAX_VARS + [6, 6, 6, 6])
    s.add(40, whole)
    s.name([s.slots[40]] * SLOTS)                       # every slot names the same root: its nodes are counted once
    s.drop(40)
    s.summarize()
    s.drop(40)
    s.add(40, ladder(rng, MAX_VARS + 2, MAX_VARS))
    s.drop(0)
    s.add(0, by_one_variable(MAX_VARS, MAX_VARS - 1))
    s.drop(63)
    s.spoil('w', 2 * MAX_VARS - 1, 65)
    s.drop(1)
    s.spoil('w', 2 * MAX_VARS - 1, s.summary()[-1])
    s.drop(1)
    s.offer(*shuffled(rng, s.table, s.slots, 0), row=[FAR - 1] * (2 * MAX_VARS + 2))
    s.drop(2)
    s.summarize()
    s.drop(2)
    s.pool(26, 3000)                                    # many conditions with nodes of their own
    for slot in range(SLOTS):
        s.add(slot, layered(rng, 20, 26))
    for slot in (60, 10, 33):
        s.drop(slot)
    s.add(33, layered(rng, 1000, 26))
    s.add(60, reduced(whole)[:3] + [0])
    s.drop(33)


def main():
    rng = random.Random(2028)
    s = Beside()
    small_print(s)
    pool_cases.small_print(s)
    orders(s)
    wrong_words(s, rng)
    lengths(s)
    pool_cases.lengths(s)
    pool_cases.by_hand(s)
    pool_cases.damaged(s, rng)                          # 46; or 47, where it is a pool still
    pool_cases.offered(s, rng, 150)
    any_pool(s, rng, 400)
    walks(s, rng)
    pool_cases.sites(s, rng)
    widest(s, rng)
    assert sum(s.calls.values()) >= 8000
    open(os.path.join(FOLDER, 'stdin'), 'w').writelines(s.lines)
    open(os.path.join(FOLDER, 'stdout'), 'w').writelines(s.answers)


if __name__ == '__main__':
    main()
