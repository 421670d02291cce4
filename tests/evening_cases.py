"""Writes tests/evening, to which tests/evening.sh holds examples/evening.sh: twenty conditions of a plant in conditions, the list of an evening and of a second
one, and for each of them the answers (answers, answers-second) and the table (table, table-second), by program_cases.py's reading.

    python3 tests/evening_cases.py"""
import os
import re
import shutil
import sys

import node_file
from cuts_cases import count
from plant import Plant
from program_cases import file_of, shrunk
from reading import nodes

FOLDER = os.path.join(os.path.dirname(os.path.abspath(__file__)), 'evening')
TARGET_WIDTH, LONG = 24, 12                             # a wider target is cut short, and more digits than this are rounded


def conditions():
    """File, words, keep or suppress."""
    small, plant, wide = Plant(6, 0, 3), Plant(12, 2, 1), Plant(45, 6)
    trips = plant.both(*map(plant.no, plant.interlocks), plant.trips(2, range(3, 11)))
    return [
        ('unit-02-first-out.block', small.array(small.both(small.modes[0], small.first_out(2))), 'keep'),
        ('unit-05-first-out.block', small.array(small.both(small.no(small.modes[1]), small.first_out(5), small.no(small.supply[5]))), 'keep'),
        ('maintenance-north.block', small.array(small.maintenance(range(6))), 'suppress'),
        ('chatter-north.block', small.array(small.chatter(2, range(4))), 'suppress'),
        ('storm-north.bdd', small.array(small.storm(3, range(6))), 'suppress'),
        ('trips-north.bdd', small.array(small.trips(2, range(6))), 'keep'),
        ('group-a.bdd', plant.array(plant.group(range(0, 7))), 'keep'),
        ('group-b.bdd', plant.array(plant.group(range(4, 12))), 'keep'),
        ('trips-west.bdd', plant.array(plant.trips(2, range(0, 7))), 'keep'),
        ('trips-east.bdd', plant.array(trips), 'keep'),
        ('outage-all.bdd', plant.array(plant.outage(4, range(12))), 'keep'),
        ('alarms-all.bdd', plant.array(plant.alarms(3, range(12))), 'keep'),
        ('maintenance-all.bdd', plant.array(plant.maintenance(range(12))), 'suppress'),
        ('chatter-west.bdd', plant.array(plant.chatter(3, range(0, 8))), 'suppress'),
        ('chatter-east.bdd', plant.array(plant.chatter(2, range(6, 12))), 'suppress'),
        ('storm-west.bdd', plant.array(plant.storm(3, range(0, 7))), 'suppress'),
        ('storm-east.bdd', plant.array(plant.storm(4, range(6, 12))), 'suppress'),
        ('maintenance-site.bdd', wide.array(wide.maintenance(range(0, 45, 3))), 'suppress'),
        ('alarms-site.bdd', wide.array(wide.alarms(2, range(0, 45, 6))), 'keep'),
        ('never.bdd', plant.array(0), 'suppress'),
    ]


# For each condition the target of the evening and of the second one; a share is of the condition's own cases.
TARGETS = {
    'unit-02-first-out.block': ('size 10', 'size 9'), 'unit-05-first-out.block': ('size 14 as-is', 'size 8'), 'maintenance-north.block': ('size 15', 'cases 3/4'), 'chatter-north.block': ('cases 9/10', 'size 20'),
    'storm-north.bdd': ('size 80', 'size 60'), 'trips-north.bdd': ('size 50', 'hex 3/2'), 'group-a.bdd': ('size 40', 'size 30'), 'group-b.bdd': ('hex 11/10', 'size 50'), 'trips-west.bdd': ('size 100', 'size 80'),
    'trips-east.bdd': ('cases 5/4', 'size 120'), 'outage-all.bdd': ('size 84', 'size 60'), 'alarms-all.bdd': ('size 200', 'size 150'), 'maintenance-all.bdd': ('size 30', 'hex 1/2'), 'chatter-west.bdd': ('size 60', 'size 40'),
    'chatter-east.bdd': ('hex 4/5', 'size 30'), 'storm-west.bdd': ('size 150', 'size 100'), 'storm-east.bdd': ('size 4096', 'size 90'), 'maintenance-site.bdd': ('size 30', 'cases 1/2'), 'alarms-site.bdd': ('cases 2/1', 'hex 101/100'),
    'never.bdd': ('size 1', 'cases 0'),
}


def request(target, whole):
    """Kind, number and as_is; the number of a share from the condition's own cases."""
    kind, number, *flag = target.split()
    over, _, under = number.partition('/')
    return kind, whole * int(over) // int(under) if under else int(over), bool(flag)


def short(number):
    return str(number) if len(str(number)) <= LONG else '%.3e' % number


def row(name, way, wanted, err):
    """The line of the table, from what shrink says."""
    found = re.match(r'target .*\nnodes (\d+) to (\d+)\ncases (\d+) .*\n(added|lost) (\d+) ', err)
    old, new, cases, word, change = found.groups()
    assert word == {'keep': 'added', 'suppress': 'lost'}[way]
    assert int(cases) or not int(change)
    share = '%.3g%%' % (100 * float(change) / float(cases)) if int(cases) else '0%'
    share = 'nearly all' if (word, share) == ('lost', '100%') and change != cases else share
    return name, way, wanted if len(wanted) <= TARGET_WIDTH else wanted[:TARGET_WIDTH - 2] + '..', old + ' to ' + new, word + ' ' + short(int(change)), share


def evening(which, ending):
    """The list, the answers and the table of an evening."""
    lines, rows = ['# file, keep or suppress, target', ''], [('condition', 'way', 'target', 'nodes', 'cases', 'share')]
    os.makedirs(os.path.join(FOLDER, 'answers' + ending))
    for name, words, way in conditions():
        form = 'nodes' if name.endswith('.bdd') else 'blocks'
        kind, number, as_is = request(TARGETS[name][which], count(nodes(words)))
        wanted = kind + ' ' + ('%x' if kind == 'hex' else '%d') % number + as_is * ' as-is'
        out, err = shrunk(way, kind, number, stored(name, words), as_is, form)
        with open(os.path.join(FOLDER, 'answers' + ending, name), 'wb') as f:
            f.write(out)
        lines.append(name + ' ' + way + ' ' + wanted)
        rows.append(row(name, way, wanted, err.decode()))
    widest = max(len(name) for name, *_ in rows)
    table = ['%-*s  %-8s  %-*s  %-12s  %-16s  %s' % (widest, name, way, TARGET_WIDTH, *rest) for name, way, *rest in rows]
    for name, text in (('list', lines), ('table', table)):
        with open(os.path.join(FOLDER, name + ending), 'w') as f:
            f.write('\n'.join(text) + '\n')


def stored(name, words):
    return node_file.write(words) if name.endswith('.bdd') else file_of(words)


def main():
    sys.setrecursionlimit(10000)
    shutil.rmtree(FOLDER, ignore_errors=True)
    os.makedirs(os.path.join(FOLDER, 'conditions'))
    for name, words, _ in conditions():
        with open(os.path.join(FOLDER, 'conditions', name), 'wb') as f:
            f.write(stored(name, words))
    evening(0, '')
    evening(1, '-second')
    print(len(conditions()), 'conditions')


if __name__ == '__main__':
    main()
