"""Writes stdin, args and stdout of crates/shrink and crates/shrink_stored, and stdin and stdout of crates/shrinking_run: a diagram, requests, and what document 01 works out by hand or program_cases.py
answers."""
import os

import block
import node_file
from blocks_cases import changed
from diagram_cases import D
from program_cases import UNKNOWN, shrunk

TOP = os.path.join(os.path.dirname(os.path.abspath(__file__)), '..')
TERMINALS = [3, 0, 0, 3, 1, 1]
C5 = TERMINALS + [2, 0, 1, 0, 2, 1]


# x1 or x2 or x3 or x4: fifteen cases for each x0, over a root with low = high.
OR4 = [5, 0, 0, 5, 1, 1, 4, 0, 1, 3, 2, 1, 2, 3, 1, 1, 4, 1, 0, 5, 5]


def case(crate, words, answer, diagram=D):
    for name, data in (('stdin', b''.join(block.write(diagram))), ('args', '\n'.join(words).encode() + b'\n'), ('stdout', b''.join(block.write(answer)))):
        with open(os.path.join(TOP, 'crates', crate, name), 'wb') as file:
            file.write(data)


# C8: over to size 4.
case('shrink', ['keep', 'size', '4'], C5)
case('shrink_stored', ['keep', 'size', '4'], C5)
# The file of x1 or x2 or x3 or x4, and for each call of the program standard output and standard error.
FILE = b''.join(block.write(OR4))
DAMAGED = changed(FILE, 508, 0)
assert DAMAGED != FILE
answers = [shrunk('suppress', 'cases', 12, FILE), shrunk('keep', 'size', 4, FILE), (b'', UNKNOWN), shrunk('keep', 'size', 9, FILE),
           shrunk('keep', 'size', 9, FILE, True), (b'', UNKNOWN)]
assert answers[4][0] == FILE != answers[3][0]
# The same nodes as a node file, and the block taken for one.
NODES = node_file.write(OR4)
for data in (NODES, FILE):
    answers += [shrunk('keep', 'size', 9, data, True, 'nodes'), shrunk('suppress', 'size', 4, data, False, 'nodes')]
assert answers[6][0] == NODES and answers[8][1].startswith(b'refused 52 at 0')
answers += [shrunk('keep', 'size', 4, DAMAGED)]
for name, data in (('stdin', FILE), ('stdout', b''.join(a + b for a, b in answers))):
    with open(os.path.join(TOP, 'crates', 'shrinking_run', name), 'wb') as file:
        file.write(data)
