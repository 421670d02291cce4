"""Conditions as a plant has them, as reduced arrays: children before parents, low first, the root last. Signals in this order: interlocks, four mode
bits, six feeders, then eleven for each unit. It shares nothing with the proved code."""
import random

from limits import MAX_NODES, MAX_VARS

MODES, FEEDERS = 4, 6
UNIT = 'trip run maintenance t0 t1 t2 v0 v1 valve high low'.split()


class Plant:
    """Nodes over all signals of a plant, no node twice."""

    def __init__(self, units, interlocks=0, seed=1986):
        first = interlocks + MODES
        self.v = first + FEEDERS + len(UNIT) * units
        self.nodes, self.places, self.known = [(self.v, 0, 0), (self.v, 1, 1)], {}, {}
        self.interlocks = [self.signal(i) for i in range(interlocks)]
        self.modes = [self.signal(interlocks + i) for i in range(MODES)]
        self.feeders = [self.signal(first + i) for i in range(FEEDERS)]
        first += FEEDERS
        self.units = [{name: self.signal(first + len(UNIT) * u + i) for i, name in enumerate(UNIT)} for u in range(units)]
        rng = random.Random(seed)
        self.supply = [rng.choice(self.feeders) for _ in range(units)]

    def node(self, var, low, high):
        if low == high:
            return low
        key = var, low, high
        if key not in self.places:
            self.places[key] = len(self.nodes)
            self.nodes.append(key)
        return self.places[key]

    def signal(self, i):
        return self.node(i, 0, 1)

    def choose(self, f, g, h):
        """g where f holds, else h."""
        if f < 2:
            return g if f else h
        if g == h:
            return g
        key = f, g, h
        if key not in self.known:
            var = min(self.nodes[x][0] for x in key)
            low, high = ([self.nodes[x][side] if self.nodes[x][0] == var else x for x in key] for side in (1, 2))
            self.known[key] = self.node(var, self.choose(*low), self.choose(*high))
        return self.known[key]

    def no(self, f):
        return self.choose(f, 0, 1)

    def both(self, *fs):
        out = 1
        for f in reversed(fs):
            out = self.choose(f, out, 0)
        return out

    def either(self, *fs):
        out = 0
        for f in reversed(fs):
            out = self.choose(f, 1, out)
        return out

    def differ(self, f, g):
        return self.choose(f, self.no(g), g)

    def at_least(self, k, fs):
        rows = [1] + [0] * k
        for f in reversed(fs):
            rows = [1] + [self.choose(f, rows[j - 1], rows[j]) for j in range(1, k + 1)]
        return rows[k]

    def first_out(self, u):
        """The first alarm of a unit: tripped, not in maintenance, and hot, shaking or full."""
        s = self.units[u]
        hot = self.at_least(2, [s['t0'], s['t1'], s['t2']])
        return self.both(s['trip'], self.no(s['maintenance']), self.either(hot, self.both(s['v0'], s['v1']), self.both(s['high'], self.no(s['valve']))))

    def group(self, units):
        """A first alarm in a group of units, in mode 0."""
        return self.both(self.modes[0], self.either(*[self.first_out(u) for u in units]))

    def trips(self, k, units):
        """At least k units tripped, whose feeders are up and which are not in maintenance."""
        return self.at_least(k, [self.both(self.units[u]['trip'], self.no(self.units[u]['maintenance']), self.no(self.supply[u])) for u in units])

    def outage(self, k, units):
        """As trips, whatever the units' own feeders, where no two feeders are down."""
        up = self.no(self.at_least(2, self.feeders))
        return self.both(up, self.at_least(k, [self.both(self.units[u]['trip'], self.no(self.units[u]['maintenance'])) for u in units]))

    def alarms(self, k, units):
        """First alarms of at least k units."""
        return self.at_least(k, [self.first_out(u) for u in units])

    def maintenance(self, units):
        """All units of a group in maintenance, or standing."""
        return self.both(self.differ(self.modes[2], self.modes[3]),
                         *[self.either(self.units[u]['maintenance'], self.both(self.no(self.units[u]['run']), self.no(self.units[u]['trip']))) for u in units])

    def chatter(self, k, units):
        """Valves that swing, at least k of a group, but in mode 3."""
        swing = [self.both(self.differ(self.units[u]['valve'], self.units[u]['high']), self.differ(self.units[u]['high'], self.units[u]['low'])) for u in units]
        return self.both(self.no(self.modes[3]), self.at_least(k, swing))

    def storm(self, k, units):
        """Alarms behind feeders that are down, at least k."""
        return self.at_least(k, [self.both(self.supply[u], self.either(self.units[u]['trip'], self.at_least(2, [self.units[u][t] for t in ('t0', 't1', 't2')])))
                                 for u in units])

    def array(self, root):
        """The words of the nodes under a root."""
        order, place = [], {0: 0, 1: 1}

        def visit(p):
            if p not in place:
                _, low, high = self.nodes[p]
                visit(low)
                visit(high)
                place[p] = 2 + len(order)
                order.append(p)

        visit(root)
        ends = [self.v, 0, 0, self.v, 1, 1][:3 * min(root + 1, 2)]
        return ends + [x for p in order for x in (self.nodes[p][0], place[self.nodes[p][1]], place[self.nodes[p][2]])]


def whole():
    """The most nodes: trips of three out of fourteen units that no storm explains, and no interlock."""
    plant = Plant(14, 9, 1)
    units = range(14)
    words = plant.array(plant.both(*map(plant.no, plant.interlocks), plant.trips(3, units), plant.no(plant.storm(3, units))))
    assert len(words) == 3 * MAX_NODES
    return words


def wide():
    """The most variables: first alarms of at least three out of forty-five units, in mode 0, and no interlock."""
    plant = Plant(45, 6)
    words = plant.array(plant.both(*map(plant.no, plant.interlocks), plant.modes[0], plant.alarms(3, range(45))))
    assert words[0] == MAX_VARS
    return words


def pump_trips():
    """More nodes than a block file holds: at least two out of sixteen pumps tripped."""
    plant = Plant(16, seed=1)
    return plant.array(plant.trips(2, range(16)))
