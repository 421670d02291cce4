"""Writes tests/programs: for each case NAME.call (the program and its words, one to a line), NAME.in, NAME.out and NAME.err, which
tests/programs.sh holds the built programs to. Inputs of which several cases take the first bytes stand once, and NAME.from in place of NAME.in has
the file and the number of bytes; of a very long output NAME.sum in place of NAME.out has the SHA-256 sum. The files that `differ` and `shrink_stored` are given
by name stand beside the cases, under that name. Block files by block.py, node files by node_file.py, settings by setting_block.py, reports by blocks_cases.py, cuts by
cuts_cases.py: readings of the papers that share nothing with the code.

    python3 tests/program_cases.py"""
import hashlib
import os
import random
import sys

import block
import comparison_cases
import node_file
import plant
import setting_block
from blocks_cases import SENTENCES, chain, changed, filled, longest, refused_line, report, resummed
from cuts_cases import count, count_words, cuts, flat, refusal
from diagram_cases import D, HALF, crowded, layered, terminals, widened
from limits import BLOCK, COUNT, FILE_NODES, LENT_PAIRS, MAX_NODES, MAX_VARS, NODE_BYTES, ROOM
from reading import nodes, verdict

FOLDER = os.path.join(os.path.dirname(os.path.abspath(__file__)), 'programs')
UNKNOWN = b'shrink: the words are nodes where it is a node file, keep or suppress, size or cases or hex, a number, and as-is where it is wanted; shrink alone prints its help\n'
WHICH = b'shrink: count does not say which base its number is in: write cases for decimal, hex for hexadecimal\n'
HELP = b"""shrink keep size N       at most N nodes: cases are added until it fits
shrink keep cases N      at least N cases
shrink keep hex N        at least N cases, N in hexadecimal as weigh prints it
shrink suppress size N   at most N nodes: cases are lost until it fits
shrink suppress cases N  at most N cases
shrink suppress hex N    at most N cases, N in hexadecimal as weigh prints it
A condition that fits already loses no case and gains none, and comes out in the fewest nodes; as-is after N leaves its nodes as they are.
Reads a block file on standard input and writes it cut to fit to standard output, the summary to standard error; shrink nodes .. does the same with a node file, of up to 4096 nodes.
keep only adds cases, suppress only loses them. Numbers are decimal but for hex, with no zeros in front.
"""
WEIGH_UNKNOWN = b'weigh: the word is nodes for a node file; without a word it is a block file\n'
CONVERT_UNKNOWN = b'convert: the words are blocks to nodes, or nodes to blocks; convert alone prints its help\n'
CONVERT_HELP = b"""convert blocks to nodes   a block file to a node file
convert nodes to blocks   a node file of at most 120 nodes to a block file
Reads standard input and writes standard output. What is not a diagram is refused.
"""
FALSE, TRUE = [3, 0, 0], [3, 0, 0, 3, 1, 1]
NONE = TRUE + [1, 0, 0]                                 # false, in three nodes
DEAD = TRUE + [2, 0, 1, 1, 2, 2, 2, 0, 1, 0, 3, 4]      # x2, in six nodes: a node twice, and two with low = high
# The longest word that the program looks at: as many digits as a count may have.
WORD = 10 * COUNT
# Inputs up to so many bytes stand with their case, and so do outputs.
SMALL, LARGE = 6 * BLOCK, 2 ** 19


def file_of(words):
    return b''.join(block.write(words))


# Reader and writer of each form.
FORMS = {'blocks': (block.reader, file_of), 'nodes': (node_file.reader, node_file.write)}


def read(form, data):
    """(answer, words): the words only where the reader doesn't refuse."""
    answer, output = FORMS[form][0](data, [0] * 3 * MAX_NODES)
    return answer, output[:3 * answer[1]] if answer[0] == 'nodes' else None


def refused(number, place):
    return b'', refused_line(number, place).encode()


def twice(n):
    return '%d (hex %x)' % (n, n)


def shrunk(direction, kind, target, data, as_is=False, form='blocks'):
    """Standard output and standard error."""
    answer, words = read(form, data)
    if answer[0] == 'refused':
        return refused(*answer[1:])
    counted = kind != 'size'
    letter = {('suppress', False): 's', ('keep', False): 't', ('suppress', True): 'c', ('keep', True): 'd'}[direction, counted]
    letter = letter.upper() if as_is else letter
    wanted = count_words(target) if counted else [target]
    said = refusal(letter, wanted, words, ROOM * MAX_NODES, 3 * MAX_NODES)
    if said[0] == 'refused':
        return refused(*said[1:])
    made, trials = cuts(letter, wanted, words)
    old, new = count(nodes(words)), count(made)
    most = 'at least' if counted and direction == 'keep' else 'at most'
    lines = ['target %s %d cases (hex %x)' % (most, target, target) if counted else 'target %s %d nodes' % (most, target)]
    assert (new >= target if most == 'at least' else new <= target) if counted else len(made) <= target
    lines += ['nodes %d to %d' % (len(words) // 3, len(made)), 'cases %s to %s' % (twice(old), twice(new)),
              ('added ' if direction == 'keep' else 'lost ') + twice(new - old if direction == 'keep' else old - new), 'trials %d' % trials]
    return FORMS[form][1](flat(made)), ('\n'.join(lines) + '\n').encode()


def converted(old, new, data):
    """Standard output and standard error."""
    answer, words = read(old, data)
    if answer[0] == 'nodes':
        answer = verdict(words, ROOM * MAX_NODES)
    if answer[0] == 'accepted' and new == 'blocks':
        answer = block.writer(words, BLOCK * len(words))[0]
    if answer[0] == 'refused':
        return refused(*answer[1:])
    return FORMS[new][1](words), b'nodes %d\n' % answer[1]


def weighed():
    d, big = file_of(D), file_of(chain(FILE_NODES))
    return {
        'weigh-D': d, 'weigh-false': file_of(FALSE), 'weigh-true': file_of(TRUE), 'weigh-empty': b'', 'weigh-short': d[:-1], 'weigh-trailing': d + b'\0',
        'weigh-22': changed(d, block.SUMMED, 0), 'weigh-23': resummed(changed(d, 0, 1)), 'weigh-24': resummed(changed(d, 503, 1)),
        'weigh-25': b''.join(block.write(chain(FILE_NODES + 1))), 'weigh-second-block': big[:BLOCK] + changed(big[BLOCK:2 * BLOCK], 9, 7) + big[2 * BLOCK:],
        'weigh-50': file_of(chain(50)), 'weigh-100': file_of(chain(100)), 'weigh-120': big, 'weigh-unordered': file_of([1, 0, 0, 1, 1, 1, 0, 2, 0, 0, 2, 1]),
        'weigh-unordered-high': file_of([1, 0, 0, 1, 1, 1, 0, 1, 2, 0, 2, 1]), 'weigh-7': file_of(widened(filled())), 'weigh-wide': file_of(filled()),
        'weigh-wide-true': file_of(terminals(MAX_VARS)), 'weigh-longest': file_of(longest()),
    }


def wide():
    """A diagram over the most variables that holds for half of all valuations: the last variable."""
    return [MAX_VARS, 0, 0, MAX_VARS, 1, 1, MAX_VARS - 1, 0, 1]


def wide_requests():
    """Files of the most nodes over the most variables: counts and targets of many words, and one variable more."""
    some, true, over = file_of(filled()), file_of(longest()), file_of(widened(filled()))
    whole, half = count(nodes(filled())), 2 ** HALF
    for a in ('keep', 'suppress'):
        yield from ((a, 'size', t, some) for t in (2, 60, FILE_NODES))
        yield a, 'size', 60, over
    for b in ('cases', 'hex'):
        yield from (('keep', b, t, some) for t in (whole, whole + 1, 2 ** MAX_VARS - half, 2 ** MAX_VARS + 1))
        yield from (('suppress', b, t, some) for t in (half - 1, half + 1, whole - 1))
        yield 'suppress', b, 2 ** (MAX_VARS - 1), true
    yield from (('suppress', 'size', t, true) for t in (3, FILE_NODES))


# An array for each of the diagram's own refusals that a file can meet.
DIAGRAMS = {6: [3, 0, 0, 3, 1, 2], 7: [MAX_VARS + 1, 0, 0, MAX_VARS + 1, 1, 1], 8: TRUE + [3, 0, 1], 9: TRUE + [0, 3, 1], 10: TRUE + [0, 0, 3], 11: TRUE + [0, 2, 1],
            12: TRUE + [2, 0, 1, 1, 0, 1], 17: TRUE + [0, 1, 2]}
NODES_ONLY = {51, 52, 53}                               # refusals of the node file's reader


def broken():
    """A file for each refusal that can come up, and the words of a request."""
    d, big = file_of(D), file_of(chain(FILE_NODES))
    for number in range(6, 13):
        yield number, 'keep', 'size', 4, file_of(DIAGRAMS[number])
    yield 16, 'keep', 'cases', 9, d
    yield 18, 'keep', 'size', 1, d
    yield 18, 'keep', 'size', 0, file_of(FALSE)
    yield 18, 'suppress', 'size', 0, file_of(NONE)
    yield 19, 'suppress', 'cases', 4, file_of(TRUE)
    yield 19, 'keep', 'hex', 4, file_of(FALSE)
    yield 21, 'keep', 'size', 4, b''
    yield 21, 'suppress', 'size', 4, d[:-1]
    yield 21, 'keep', 'size', 4, d + b'\0'
    yield 21, 'keep', 'size', 4, big + bytes(BLOCK)
    yield 22, 'suppress', 'cases', 1, changed(d, block.SUMMED, 0)
    yield 22, 'keep', 'size', 4, big[:BLOCK] + changed(big[BLOCK:2 * BLOCK], 9, 7) + big[2 * BLOCK:]
    yield 23, 'keep', 'size', 4, resummed(changed(d, 0, 1))
    yield 24, 'keep', 'size', 4, resummed(changed(d, 503, 1))
    yield 25, 'keep', 'size', 4, b''.join(block.write(chain(FILE_NODES + 1)))
    yield 17, 'suppress', 'size', 4, file_of(DIAGRAMS[17])


def asked():
    """The words of a request, and the file: those that are understood, and the others with what is said."""
    d = file_of(D)
    requests = [(a, 'size', t, d) for a in ('keep', 'suppress') for t in (0, 1, 2, 3, 4, 5, 40, 2 ** 32 - 1)]
    requests += [(a, b, t, d) for a in ('keep', 'suppress') for b in ('cases', 'hex') for t in (0, 1, 4, 5, 6, 8, 10)]
    requests += [(a, 'size', 40, file_of(chain(n))) for a in ('keep', 'suppress') for n in (50, 100, FILE_NODES)]
    requests += [('keep', b, 2 ** 64, file_of(chain(FILE_NODES))) for b in ('cases', 'hex')]
    requests += [(a, b, t, file_of(wide())) for a in ('keep', 'suppress') for b in ('cases', 'hex') for t in (2 ** (MAX_VARS - 2) + 1, 2 ** (MAX_VARS - 1) + 2 ** 128 + 7, 2 ** MAX_VARS)]
    requests += [(a, 'size', t, file_of(words)) for a in ('keep', 'suppress') for t in (0, 1, 2) for words in (FALSE, TRUE, NONE)]
    requests += [(a, 'size', t, file_of(TRUE + [2, 0, 1, 1, 0, 1])) for a in ('keep', 'suppress') for t in (0, 1)]     # 12 before 18
    requests += [(a, 'size', t, file_of(DEAD)) for a in ('keep', 'suppress') for t in (3, 5, 6, 7)]        # met by six nodes, not by three
    requests += [(a, b, t, file_of(DEAD)) for a in ('keep', 'suppress') for b in ('cases', 'hex') for t in (0, 3, 4, 5)]
    seen = set()
    for number, *request in broken():
        seen.add(number)
        assert shrunk(*request)[1].startswith(b'refused %d at ' % number), (number, shrunk(*request))
        requests.append(tuple(request))
    assert seen == set(SENTENCES) - {4, 31, 32} - NODES_ONLY
    requests = [(*request, False) for request in requests]
    requests += [(*request[:4], True) for request in requests if request[3] in (d, file_of(DEAD)) and request[1] != 'hex' or request[0] == 'suppress' and request[3] == b'']
    requests += [(*request, as_is) for request in wide_requests() for as_is in ((False, True) if request[1:3] == ('size', FILE_NODES) else (False,))]
    others = [([], HELP)]
    others += [(w.split(), UNKNOWN) for w in (
        'keep', 'keep size', 'keep size 4 5', 'keep size 4 asis', 'keep size 4 AS-IS', 'keep size 4 as-is 5', 'keep size 4 as-is as-is', 'as-is keep size 4', 'keep as-is size 4', 'keep size as-is', 'grow size 4', 'suppress sise 4', 'keep size 04', 'keep size -1', 'keep size 1f', 'keep size 4294967296',
        'keep hex 1F', 'keep hex 0x6', 'suppress hex 00', 'Keep size 4', 'keep hex 1' + 8 * COUNT * '0', 'keep cases 1f', 'keep cases 06', 'keep cases ' + str(2 ** (32 * COUNT)),
        'suppress cases +5', 'keep keep 4', 'size keep 4')]
    others += [(w, UNKNOWN) for w in (['', 'size', '4'], ['keep', '', '4'], ['keep', 'size', ''], ['', '', ''], ['keep', 'cases', ''], ['keep', 'size', ' 4'], [''])]
    # words longer than the program looks at, also where their first bytes would be taken
    others += [(w, UNKNOWN) for w in (['keep', 'size', (WORD + 1) * '4'], ['keep', 'cases', (WORD - 1) * '0' + '55'], ['keep' + (WORD + 20) * 'p', 'size', '4'],
                                  ['keep', 'size' + (WORD - 3) * 'e', '4'], ['keep', 'size', 4000 * '1'])]
    others += [(['keep', 'size', '4', 'as-is' + WORD * 's'], UNKNOWN), (['keep', 'size', '4', ''], UNKNOWN)]
    others += [(w.split(), WHICH) for w in ('keep count 6 as-is', 'keep count 6', 'suppress count 1f', 'keep count x')]
    others += [(['keep', 'count', ''], WHICH), ('grow count 6'.split(), UNKNOWN), ('keep count'.split(), UNKNOWN)]
    return requests, others


def broad():
    """The most nodes over the most variables, eight or nine at each from the fourth on: almost every weight has as many digits as one can have."""
    rng = random.Random(1986)
    sizes = [1, 2, 4] + [8] * (MAX_VARS - 3)
    for i in range(MAX_NODES - 2 - sum(sizes)):
        sizes[-1 - i] += 1
    words, below = terminals(MAX_VARS), [0, 1]
    for var in reversed(range(MAX_VARS)):
        links = below + [rng.choice(below) for _ in range(2 * sizes[var] - len(below))]
        rng.shuffle(links)
        below = [len(words) // 3 + i for i in range(sizes[var])]
        words += [x for i in range(sizes[var]) for x in (var, links[2 * i], links[2 * i + 1])]
    assert len(words) == 3 * MAX_NODES
    return words


def shared():
    """The inputs of which several cases take the first bytes: the most nodes with one more and a byte, the most variables, and both."""
    return {'whole.bytes': node_file.write(plant.whole() + [0, MAX_NODES - 2, MAX_NODES - 1]) + b'\0', 'wide.bytes': node_file.write(plant.wide()),
            'crowded.bytes': node_file.write(crowded()), 'broad.bytes': node_file.write(broad())}


def lengths():
    """Bytes around the reader's limits: of no node, of less than one, of the most and of more."""
    bytes_ = shared()['whole.bytes']
    most = NODE_BYTES * MAX_NODES
    return {'%d-bytes' % n: bytes_[:n] for n in (0, 1, NODE_BYTES - 1, NODE_BYTES + 1, most - 1, most + 1, most + NODE_BYTES - 1, most + NODE_BYTES, most + NODE_BYTES + 1)}


def node_files():
    """Node files by name: right ones of each size, those that the reader refuses, those that are no diagram, and block files."""
    large = 2 ** 32 - 1
    found = {'D': D, 'false': FALSE, 'true': TRUE, 'none': NONE, 'dead': DEAD, '120': chain(FILE_NODES), '121': chain(FILE_NODES + 1), '4096': plant.whole(), 'broad': broad(), 'widest': filled()}
    found.update(('refused-%02d' % number, words) for number, words in DIAGRAMS.items())
    found.update({'far-variable': TRUE + [node_file.WIDEST, 0, 1], 'far-low': TRUE + [0, large, 1], 'far-high': TRUE + [0, 0, large], 'far-terminal': [3, 0, large], 'far-count': [node_file.WIDEST, 0, 0],
                  '121-refused-12': chain(FILE_NODES) + chain(FILE_NODES)[-3:], '3000-refused-12': plant.whole()[:3 * 3000]})
    found = {name: node_file.write(words) for name, words in found.items()}
    return {**found, **lengths(), 'a-block': file_of(D), 'three-blocks': file_of(chain(FILE_NODES)), 'ten-blocks': 10 * file_of(D)}


def node_requests():
    """Requests over node files: (direction, kind, target, data, as_is)."""
    near, both = lengths(), ('keep', 'suppress')
    yield from ((a, 'size', 4, data, False) for name, data in node_files().items() for a in (both if name in near else both[:1]))
    for words in (FALSE, TRUE, D, DEAD, NONE):
        data = node_file.write(words)
        yield from ((a, 'size', t, data, as_is) for a in both for t in (1, 2, 3, 2 ** 32 - 1) for as_is in (False, True)[:1 + (words in (D, DEAD))])
        yield from ((a, b, t, data, False) for a in both for b in ('cases', 'hex')[:1 + (words == D)] for t in (0, 4, 5, 9))
    for n in (FILE_NODES, FILE_NODES + 1):
        yield from ((a, 'size', t, node_file.write(chain(n)), False) for a in both for t in (40, FILE_NODES, FILE_NODES + 1))
    for words in (plant.whole(), plant.wide(), crowded()):
        data, whole = node_file.write(words), count(nodes(words))
        yield from ((a, 'size', 400, data, False) for a in both)
        yield from (('keep', b, 6 * whole // 5, data, False) for b in ('cases', 'hex'))
        yield from (('suppress', b, 7 * whole // 10, data, False) for b in ('cases', 'hex'))
        yield 'keep', 'cases', 2 ** words[0] + 1, data, False
    whole = node_file.write(plant.whole())
    yield from (('suppress', 'size', t, whole, False) for t in (1, 2, 3, MAX_NODES - 1))
    yield from (('suppress', 'size', MAX_NODES, whole, as_is) for as_is in (False, True))
    yield 'keep', 'size', MAX_NODES, node_file.write(crowded()), True


NODE_WORDS = [(w.split(), UNKNOWN) for w in (
    'nodes keep', 'nodes keep size', 'nodes nodes', 'nodes nodes keep size 4', 'keep nodes size 4', 'keep size nodes 4', 'keep size 4 nodes', 'keep size 4 as-is nodes', 'nodes keep size 4 5',
    'nodes keep size 4 as-is 5', 'nodes keep size 4 as-is as-is', 'nodes as-is keep size 4', 'nodes keep size 4 nodes', 'blocks keep size 4', 'node keep size 4', 'Nodes keep size 4', 'nodes grow size 4', 'nodes keep size 04',
    'nodes keep hex 1F', 'nodes keep cases 1f', 'nodes keep size 4294967296', 'blocks', 'nodes as-is', 'keep keep size 4', 'nodes keep size nodes', 'nodes suppress size 4 asis', 'nodes keep count', 'nodes count 6',
    'nodes grow count 6', 'keep keep size 4 as-is', 'size keep size 4 as-is')]
NODE_WORDS += [(w, UNKNOWN) for w in (['nodes', ''], ['', 'keep', 'size', '4'], ['nodes', '', 'size', '4'], ['nodes', 'keep', 'size', ''], ['nodes' + WORD * 's', 'keep', 'size', '4'], [' nodes', 'keep', 'size', '4'],
                                      ['nodes', 'keep', 'size', (WORD + 1) * '4'], ['nodes', 'keep', 'size', '4', ''], ['nodes' + WORD * 's'])]
NODE_WORDS += [(['nodes'], HELP)] + [(w.split(), WHICH) for w in ('nodes keep count 6', 'nodes suppress count 1f', 'nodes keep count 6 as-is')]
WEIGH_WORDS = [w.split() for w in ('blocks', 'node', 'Nodes', 'nodes nodes', 'nodes keep', 'keep size 4', 'D.bdd')] + [[''], ['nodes '], ['nodes', ''], ['', 'nodes'], ['nodes' + WORD * 's']]
CONVERT_WORDS = [w.split() for w in ('blocks', 'nodes', 'blocks to', 'blocks to blocks', 'nodes to nodes', 'to nodes', 'nodes blocks', 'blocks into nodes', 'nodes to blocks nodes', 'Blocks to nodes', 'blocks to Nodes',
                                     'block to node', 'to blocks nodes', 'blocks nodes to', 'nodes to blocks as-is', 'blocks To nodes')]
CONVERT_WORDS += [[''], ['', '', ''], ['blocks', 'to', ''], ['blocks', '', 'nodes'], ['', 'to', 'blocks'], ['blocks to nodes'], ['blocks', 'to', 'nodes', ''], ['blocks' + WORD * 's', 'to', 'nodes'], ['nodes', 'to', 'blocks' + WORD * 's']]


def node_cases():
    """(name, call, input, standard output, standard error) of what the programs do with node files."""
    d = node_file.write(D)
    for name, data in node_files().items():
        yield 'weigh-nodes-' + name, ['weigh', 'nodes'], data, report(data, node_file.reader).encode(), b''
        yield 'convert-nodes-' + name, ['convert', 'nodes', 'to', 'blocks'], data, *converted('nodes', 'blocks', data)
    for i, (direction, kind, target, data, as_is) in enumerate(dict.fromkeys(node_requests())):
        words = ['shrink', 'nodes', direction, kind, '%x' % target if kind == 'hex' else '%d' % target] + ['as-is'] * as_is
        yield 'shrink-nodes-%03d-%s-%s' % (i, direction, kind), words, data, *shrunk(direction, kind, target, data, as_is, 'nodes')
    for name, data in {**weighed(), **{'51': file_of(chain(51)), 'node-file': d, 'dead': file_of(DEAD)}, **{'refused-%02d' % number: file_of(words) for number, words in DIAGRAMS.items()}}.items():
        yield 'convert-blocks-' + name.replace('weigh-', ''), ['convert', 'blocks', 'to', 'nodes'], data, *converted('blocks', 'nodes', data)
    # a node file where a block file is awaited
    for name, data in (('D', d), ('120', node_file.write(chain(FILE_NODES))), ('4096', node_file.write(plant.whole()))):
        yield 'weigh-node-file-' + name, ['weigh'], data, report(data).encode(), b''
        yield 'shrink-node-file-' + name, ['shrink', 'keep', 'size', '4'], data, *shrunk('keep', 'size', 4, data)
    for program, answers in (('shrink', NODE_WORDS), ('weigh', [(w, WEIGH_UNKNOWN) for w in WEIGH_WORDS]), ('convert', [([], CONVERT_HELP)] + [(w, CONVERT_UNKNOWN) for w in CONVERT_WORDS])):
        for i, (words, said) in enumerate(answers):
            yield '%s-nodes-words-%02d' % (program, i), [program] + words, d, b'', said


DIFFER_UNKNOWN = b'differ: the words are the names of two files, with nodes before them where they are node files; differ alone prints its help\n'
DIFFER_HELP = b"""differ OLD NEW         compares two block files, by their names
differ nodes OLD NEW   compares two node files
Says how many cases hold in the old condition only, in the new one only and in both, and shows the smallest case in which they differ: a bit for each signal, x0 first, and the signals that are on.
Two node files that reach more than 16384 pairs of nodes together are refused; two block files never do.
"""
# The longest name that can be opened, and the longest that is looked at.
PATH, NAME = 4095, 4096


def named(name, number, place):
    return b'', ('%s: %s' % (name, refused_line(number, place))).encode()


def differed(form, old, new, files):
    """Standard output and standard error for two names; `files` has the bytes of those that can be read."""
    found = []
    for name in (old, new):
        if name not in files:
            return b'', ("%s: can't be opened\n" % (name if len(name) <= NAME else '')).encode()
        answer, words = read(form, files[name])
        if answer[0] == 'refused':
            return named(name, *answer[1:])
        found.append(words)
    for name, words in zip((old, new), found):
        answer = verdict(words, ROOM * MAX_NODES)
        if answer[0] == 'refused':
            return named(name, *answer[1:])
    first, second = found
    if first[0] != second[0]:
        return named('differ', 31, 0)
    if len(comparison_cases.pairs_of(first, second)) > LENT_PAIRS:
        return named('differ', 32, 0)
    one, two, both, smallest = comparison_cases.by_chances(first, second)
    lines = ['vars %d' % first[0], 'old only ' + twice(one), 'new only ' + twice(two), 'both ' + twice(both)]
    if smallest is None:
        lines += ['no difference']
    else:
        row = ''.join(str(smallest >> i & 1) for i in reversed(range(first[0])))
        on = ['x%d' % i for i, bit in enumerate(row) if bit == '1']
        lines += [('smallest difference ' + row).rstrip(), 'on ' + (' '.join(on) or 'none')]
    return ('\n'.join(lines) + '\n').encode(), b''


def under(words, links):
    """Some nodes more on top: each goes on by 1, and by 0 to node 0. They come first in the order of variables."""
    v = words[0] + links
    made = terminals(v) + [x + links if i % 3 == 0 else x for i, x in enumerate(words[6:])]
    for i in reversed(range(links)):
        made += [i, 0, len(made) // 3 - 1]
    return made


def crowd():
    """Two diagrams that reach as many pairs together as the program lends a table for."""
    rng = random.Random(16384)
    while True:
        first, second = (layered(rng, 900, 30) for _ in range(2))
        short = LENT_PAIRS - len(comparison_cases.pairs_of(first, second))
        if 0 < short < MAX_VARS - 30:
            return under(first, short), under(second, short)


CUT = TRUE + [2, 0, 1, 0, 2, 0]                         # C4: D without node 3
EITHER = TRUE + [2, 0, 1, 1, 2, 1]                      # x1 or x2: beside D, x0 is on in no difference but the smallest has none of it


def block_names():
    """Block files by name: right ones, and one for each refusal of a file or a diagram."""
    d = file_of(D)
    found = {'D': D, 'cut': CUT, 'either': EITHER, 'false': FALSE, 'true': TRUE, 'none': NONE, 'dead': DEAD, 'x2': TRUE + [2, 0, 1], 'no-variable-false': [0, 0, 0], 'no-variable-true': [0, 0, 0, 0, 1, 1],
             'chain': chain(FILE_NODES), 'widest': filled(), 'longest': longest(), 'wide': wide(), 'wide-false': terminals(MAX_VARS)[:3]}
    found.update(('refused-%02d' % number, words) for number, words in DIAGRAMS.items())
    found = {name: file_of(words) for name, words in found.items()}
    found.update({'refused-21': d[:-1], 'empty': b'', 'trailing': d + b'\0', 'refused-22': changed(d, block.SUMMED, 0), 'refused-23': resummed(changed(d, 0, 1)),
                  'refused-24': resummed(changed(d, 503, 1)), 'refused-25': b''.join(block.write(chain(FILE_NODES + 1)))})
    return {name + '.block': data for name, data in found.items()}


def node_names():
    """The same of node files; some have more nodes than a block file."""
    first, second = crowd()
    found = {'D': D, 'cut': CUT, 'either': EITHER, 'false': FALSE, 'true': TRUE, 'dead': DEAD, 'x2': TRUE + [2, 0, 1], 'no-variable-false': [0, 0, 0], 'no-variable-true': [0, 0, 0, 0, 1, 1],
             'widest': filled(), 'longest': longest(), 'crowd-first': first, 'crowd-second': second, 'crowd-first-more': under(first, 1), 'crowd-second-more': under(second, 1)}
    found.update(('refused-%02d' % number, words) for number, words in DIAGRAMS.items())
    found = {name: node_file.write(words) for name, words in found.items()}
    found.update({'refused-51': b'', 'refused-52': found['D'][:-1]})
    return {name + '.nodes': data for name, data in found.items()}


def differ_calls():
    """(form, old, new)"""
    for form, end in (('blocks', '.block'), ('nodes', '.nodes')):
        right = ['D', 'cut', 'either', 'dead', 'x2', 'false', 'true']
        for old in right:
            for new in right:
                yield form, old + end, new + end
        for old, new in (('no-variable-false', 'no-variable-true'), ('no-variable-false', 'no-variable-false'), ('no-variable-true', 'D'), ('widest', 'longest'), ('widest', 'widest')):
            yield form, old + end, new + end
            yield form, new + end, old + end
        own = ['refused-%02d' % number for number in sorted(DIAGRAMS)]
        files = ['refused-%d' % number for number in ((21, 22, 23, 24, 25) if form == 'blocks' else (51, 52))]
        for name in own + files:                        # each refusal of each file, and of both
            yield form, name + end, 'D' + end
            yield form, 'D' + end, name + end
            yield form, name + end, name + end
            yield form, name + end, 'longest' + end     # 31 comes later
        for name in files:                              # a file's refusal comes before a diagram's, of either
            yield form, name + end, own[0] + end
            yield form, own[0] + end, name + end
        for name in ('missing', 'D', files[0], own[0]):
            yield form, 'missing', name + end
            yield form, name + end, 'missing'
        for name in ('.', '', 'nodes', PATH * 'n', NAME * 'n', (NAME + 1) * 'n'):
            yield form, name, 'D' + end
            yield form, 'D' + end, name
    for old, new in (('empty', 'D'), ('D', 'trailing'), ('chain', 'D'), ('chain', 'chain'), ('wide', 'wide-false'), ('wide-false', 'wide'), ('widest', 'wide'), ('longest', 'wide-false'), ('none', 'false')):
        yield 'blocks', old + '.block', new + '.block'
    for old, new in (('crowd-first', 'crowd-second'), ('crowd-second', 'crowd-first'), ('crowd-first-more', 'crowd-second-more'), ('crowd-first', 'crowd-second-more')):
        yield 'nodes', old + '.nodes', new + '.nodes'   # answered at exactly as many pairs, and 32 at one more
    for old, new in (('whole.bytes', 'D.nodes'), ('D.nodes', 'whole.bytes'), ('crowded.bytes', 'crowded.bytes'), ('broad.bytes', 'crowded.bytes'), ('wide.bytes', 'crowded.bytes'), ('D.nodes', 'D.block')):
        yield 'nodes', old, new
    yield 'blocks', 'D.nodes', 'D.block'
    yield 'blocks', 'D.block', 'crowded.bytes'


DIFFER_WORDS = [w.split() for w in ('D.block', 'nodes', 'nodes D.nodes D.nodes D.nodes', 'D.block cut.block D.block', 'blocks D.block cut.block', 'Nodes D.nodes cut.nodes', 'D.nodes nodes cut.nodes', 'D.nodes cut.nodes nodes')]
DIFFER_WORDS += [[''], ['', 'D.nodes', 'cut.nodes'], ['nodes ', 'D.nodes', 'cut.nodes'], ['nodes' + NAME * 's', 'D.nodes', 'cut.nodes']]


def differ_cases(files):
    """(name, call, input, standard output, standard error) of `differ`, over files by their names."""
    for i, (form, old, new) in enumerate(differ_calls()):
        yield 'differ-%03d' % i, ['differ'] + ['nodes'] * (form == 'nodes') + [old, new], b'', *differed(form, old, new, files)
    for i, (words, said) in enumerate([([], DIFFER_HELP)] + [(w, DIFFER_UNKNOWN) for w in DIFFER_WORDS]):
        yield 'differ-words-%02d' % i, ['differ'] + words, b'', b'', said


def hold_to_differ(cases):
    """Every refusal that can come up in `differ` does, of either file."""
    own, blocks, nodes_ = set(DIAGRAMS), {21, 22, 23, 24, 25}, NODES_ONLY
    for form, said in (('blocks', own | blocks), ('nodes', own | nodes_)):
        for side in (-2, -1):
            found = {int(err.split()[2]) for _, call, _, _, err in cases
                     if (form == 'nodes') == (call[1:2] == ['nodes'] and len(call) == 4) and len(call) > 2 and call[-2] != call[-1] and err.startswith(call[side].encode() + b': refused ')}
            assert found == said, (form, side, found)
    both = {int(err.split()[2]) for _, _, _, _, err in cases if err.startswith(b'differ: refused ')}
    assert both == {31, 32}, both


SETTINGS_UNKNOWN = b'settings: the words are keep or suppress, size or cases or hex, a number, and as-is where it is wanted; or show; settings alone prints its help\n'
SETTINGS_WHICH = b'settings: count does not say which base its number is in: write cases for decimal, hex for hexadecimal\n'
SETTINGS_HELP = b"""settings keep size N > FILE   stores what shrink keep size N would do; shrink_stored settings FILE does it
settings show < FILE          shows the words that are stored
The words are those of shrink: keep or suppress, size or cases or hex, a number, and as-is where it is wanted. A block of 512 bytes is written to standard output; version 1 unless it has as-is, which is in version 2 only.
"""
MOST = 2 ** (32 * COUNT) - 1                            # the largest count
# What is said of a settings file alone; of all else, what is said of a block.
SETTINGS_SENTENCES = {38: 'the version is not known', 39: 'a field is out of its range'}
# What `shrink` says of words, as `settings` says it.
ALSO = {HELP: SETTINGS_HELP, UNKNOWN: SETTINGS_UNKNOWN, WHICH: SETTINGS_WHICH}


def settings_line(number, place):
    if number in SETTINGS_SENTENCES:
        return ('refused %d at %d: %s\n' % (number, place, SETTINGS_SENTENCES[number])).encode()
    return refused_line(number, place).encode()


def setting(direction, kind, target, as_is):
    return int(direction == 'keep'), int(kind != 'size'), int(as_is), target


def words_of(direction, kind, target, as_is):
    return [direction, kind, ('%x' if kind == 'hex' else '%d') % target] + ['as-is'] * as_is


def line_of(direction, kind, target, as_is):
    """The words in which a cut is shown: a count in decimal, however it was given."""
    return (' '.join(words_of(direction, 'size' if kind == 'size' else 'cases', target, as_is)) + '\n').encode()


def to_store():
    """(direction, kind, target, as_is)"""
    for a in ('keep', 'suppress'):
        for as_is in (False, True):
            yield from ((a, 'size', t, as_is) for t in (0, 1, 4, 400, 2 ** 32 - 1))
            yield from ((a, b, t, as_is) for b in ('cases', 'hex') for t in (0, 6, 2 ** 32, 7936 * 10 ** 30, 2 ** MAX_VARS, MOST))


def setting_files():
    """Settings files by name: (bytes, what is stored); none where it is refused."""
    found = {}
    for version, a, kind, t, as_is in ((1, 'keep', 'size', 4, False), (2, 'keep', 'size', 4, False), (2, 'keep', 'size', 4, True), (1, 'suppress', 'size', 4, False), (2, 'keep', 'size', 40, True), (1, 'keep', 'size', 40, False),
                                       (2, 'suppress', 'size', 40, True), (1, 'keep', 'size', 0, False), (1, 'keep', 'size', 1, False), (1, 'suppress', 'size', 2 ** 32 - 1, False), (1, 'keep', 'cases', 6, False),
                                       (2, 'suppress', 'cases', 2, True), (1, 'suppress', 'cases', 0, False), (1, 'keep', 'cases', 2 ** MAX_VARS, False), (1, 'keep', 'cases', MOST, False), (2, 'suppress', 'cases', MOST, False)):
        number = {MOST: 'most', 2 ** MAX_VARS: 'all', 2 ** 32 - 1: 'most'}.get(t, t)
        found['v%d-%s-%s-%s%s.settings' % (version, a, kind, number, as_is * '-as-is')] = setting_block.block(version, setting(a, kind, t, as_is)), (a, kind, t, as_is)
    one, two = setting_block.block(1, (1, 0, 0, 4)), setting_block.block(2, (1, 0, 1, 4))
    refused_ = {
        'empty': (21, b''), 'short': (21, one[:-1]), 'long': (21, one + b'\0'), 'damaged': (22, changed(one, 4, 5)), 'damaged-sum': (22, changed(two, BLOCK - 1, 7)), 'exchanged': (22, one[:3] + one[4:5] + one[3:4] + one[5:]),
        'zeros': (38, bytes(BLOCK)), 'version-3': (38, resummed(changed(two, 0, 3))), 'direction-2': (39, resummed(changed(one, 1, 2))), 'kind-2': (39, resummed(changed(two, 2, 2))), 'flag-2': (39, resummed(changed(two, 3, 2))),
        'size-33-bits': (39, setting_block.block(1, (1, 0, 0, 2 ** 32))), 'flag-in-1': (24, resummed(changed(one, 3, 1))), 'unused': (24, resummed(changed(two, 68, 1))), 'unused-last': (24, resummed(changed(one, block.SUMMED - 1, 1))),
    }
    for name, (number, data) in refused_.items():
        assert setting_block.reader(data)[0] == number, name
        found[name + '.settings'] = data, None
    assert {setting_block.reader(data)[0] for data, _ in found.values()} == {0, 21, 22, 38, 39, 24}
    return found


def settled(form, name, data, files):
    """Standard output and standard error of `shrink_stored settings NAME`; `files` has those that can be read."""
    if name not in files:
        return b'', b"settings file: can't be opened\n"
    stored, cut = files[name]
    number, place = setting_block.reader(stored)[:2]
    if number:
        return b'', b'settings file: ' + settings_line(number, place)
    return shrunk(*cut[:3], data, cut[3], form)


def setting_cases(files, others):
    """(name, call, input, standard output, standard error) of `settings` and of `shrink_stored settings`; `others` are words of shrink that ask for no cut, and what it says."""
    for i, cut in enumerate(to_store()):
        data = setting_block.block(2 if cut[3] else 1, setting(*cut))
        yield 'settings-%02d' % i, ['settings'] + words_of(*cut), b'', data, line_of(*cut)
        assert setting_block.reader(data) == (0, 0, 2 if cut[3] else 1, setting(*cut))
    for name, (data, cut) in files.items():
        number, place, version, _ = setting_block.reader(data)
        yield 'settings-show-' + name[:-9], ['settings', 'show'], data, *((b'', settings_line(number, place)) if number else (line_of(*cut), b'version %d\n' % version))
    wrong = [w.split() for w in ('show show', 'show keep', 'Show', 'shown', 'show keep size 4', 'keep show 4', 'settings', 'nodes keep size 4', 'nodes', 'nodes show', 'show 4', 'keep size 4 as-is show', 'show as-is')]
    wrong += [['show', ''], [' show'], ['show' + WORD * 'w'], ['', 'show'], ['v1-keep-size-4.settings'], ['show', 'v1-keep-size-4.settings']]
    for i, (words, said) in enumerate([(words, ALSO[said]) for words, said in others] + [(words, SETTINGS_UNKNOWN) for words in wrong]):
        yield 'settings-words-%02d' % i, ['settings'] + words, setting_block.block(1, (1, 0, 0, 4)), b'', said
    d, dead = {'blocks': file_of(D), 'nodes': node_file.write(D)}, {'blocks': file_of(DEAD), 'nodes': node_file.write(DEAD)}
    short = {form: data[:-1] for form, data in d.items()}
    for form in FORMS:
        before = ['shrink_stored'] + ['nodes'] * (form == 'nodes') + ['settings']
        for i, name in enumerate([*files, 'missing.settings', '.', '', 'settings', PATH * 'n', NAME * 'n', (NAME + 1) * 'n']):
            for input_, data in (('D', d), ('dead', dead), ('short', short)):
                if input_ == 'D' or name in files and files[name][1]:
                    yield 'shrink-settings-%s-%02d-%s' % (form, i, input_), before + [name], data[form], *settled(form, name, data[form], files)
        # the other form: what is refused is the input
        yield 'shrink-settings-%s-other-form' % form, before + ['v1-keep-size-4.settings'], d['blocks' if form == 'nodes' else 'nodes'], *settled(form, 'v1-keep-size-4.settings', d['blocks' if form == 'nodes' else 'nodes'], files)
        # a settings file where a condition is awaited
        yield 'shrink-settings-%s-twice' % form, before + ['v1-keep-size-4.settings'], files['v1-keep-size-4.settings'][0], *settled(form, 'v1-keep-size-4.settings', files['v1-keep-size-4.settings'][0], files)
    for name in ('v1-keep-size-40.settings', 'v2-keep-size-40-as-is.settings', 'v1-suppress-size-most.settings', 'v1-keep-cases-all.settings'):
        data = node_file.write(plant.whole())
        yield 'shrink-settings-4096-' + name[:-9], ['shrink_stored', 'nodes', 'settings', name], data, *settled('nodes', name, data, files)
    wrong = [w.split() for w in ('settings', 'nodes settings', 'settings FILE more', 'nodes settings FILE more', 'Settings FILE', 'setting FILE', 'settings nodes FILE', 'nodes nodes settings FILE', 'FILE settings', 'blocks settings FILE',
                                 'settings keep size 4', 'keep settings FILE', 'nodes FILE settings', 'settings FILE as-is', 'settings settings FILE', 'settings FILE nodes')]
    wrong += [['settings ', 'FILE'], ['settings' + WORD * 's', 'FILE'], ['nodes', 'settings' + WORD * 's', 'FILE'], ['', 'FILE'], ['nodes', '', 'FILE'], ['settings', 'FILE', ''], ['', 'settings', 'FILE']]
    for i, words in enumerate(wrong):
        words = ['v1-keep-size-4.settings' if word == 'FILE' else word for word in words]
        yield 'shrink-settings-words-%02d' % i, ['shrink_stored'] + words, file_of(D), b'', UNKNOWN


def hold_to_settings(cases):
    """Every refusal of a settings file comes up in both programs."""
    for program, begins in (('settings', b'refused '), ('shrink_stored', b'settings file: refused ')):
        found = {int(err[len(begins):].split()[0]) for _, call, _, _, err in cases if call[0] == program and err.startswith(begins)}
        assert found == {21, 22, 38, 39, 24}, (program, found)


def numbers_of(cases, program, form):
    """The refusals that the cases of a program over a form meet."""
    found = set()
    for _, call, _, out, err in cases:
        line = err or out
        if call[0] == program and form == ('nodes' if call[1:2] == ['nodes'] else 'blocks') and line.startswith(b'refused '):
            found.add(int(line.split()[1]))
    return found


def hold_to_refusals(cases):
    """Every refusal that can come up in a program does."""
    own, cut, blocks = set(DIAGRAMS), {16, 18, 19}, {21, 22, 23, 24, 25}
    for program, form, said in (('weigh', 'nodes', own | NODES_ONLY), ('shrink', 'nodes', own | cut | NODES_ONLY), ('convert', 'nodes', own | NODES_ONLY | {25}), ('convert', 'blocks', own | blocks)):
        assert numbers_of(cases, program, form) == said, (program, form, numbers_of(cases, program, form))


def main():
    sys.setrecursionlimit(10000)
    cases = [(name, ['weigh'], data, report(data).encode(), b'') for name, data in weighed().items()]
    requests, others = asked()
    for i, (direction, kind, target, data, as_is) in enumerate(requests):
        words = ['shrink', direction, kind, '%x' % target if kind == 'hex' else '%d' % target] + ['as-is'] * as_is
        cases.append(('shrink-%03d-%s-%s' % (i, direction, kind), words, data) + shrunk(direction, kind, target, data, as_is))
    for i, (words, said) in enumerate(others):
        cases.append(('shrink-words-%02d' % i, ['shrink'] + words, file_of(D), b'', said))
    old = len(cases)
    cases += node_cases()
    hold_to_refusals(cases[old:])
    named_files = {**block_names(), **node_names()}
    old = len(cases)
    cases += differ_cases({**named_files, **shared()})
    hold_to_differ(cases[old:])
    stored = setting_files()
    named_files.update((name, data) for name, (data, _) in stored.items())
    old = len(cases)
    cases += setting_cases(stored, others)
    hold_to_settings(cases[old:])
    assert len({case[0] for case in cases}) == len(cases)
    os.makedirs(FOLDER, exist_ok=True)
    for old in os.listdir(FOLDER):
        os.remove(os.path.join(FOLDER, old))
    inputs = shared()
    for name, data in {**inputs, **named_files}.items():
        with open(os.path.join(FOLDER, name), 'wb') as f:
            f.write(data)
    for name, call, data, out, err in cases:
        shown = ('sum', b'%s  -\n' % hashlib.sha256(out).hexdigest().encode()) if len(out) > LARGE else ('out', out)
        source = next((file for file, whole in inputs.items() if len(data) > SMALL and whole.startswith(data)), None)
        given = ('from', b'%s %d\n' % (source.encode(), len(data))) if source else ('in', data)
        for end, text in (('call', ''.join(word + '\n' for word in call).encode()), given, shown, ('err', err)):
            with open(os.path.join(FOLDER, name + '.' + end), 'wb') as f:
                f.write(text)
    print(len(cases), 'cases')


if __name__ == '__main__':
    main()
