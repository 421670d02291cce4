"""The node file (docs/NODE-FILES.md), read and written from its words alone; shares nothing with the proved code."""
import struct

from limits import MAX_NODES, NODE_BYTES

NODE = '<HII'                           # variable, low link and high link, least byte first
WIDEST = 65535                          # the largest variable that two bytes hold
assert struct.calcsize(NODE) == NODE_BYTES


def write(words):
    """The bytes of a file, right or not: as many nodes as there are."""
    return b''.join(struct.pack(NODE, *words[i:i + 3]) for i in range(0, len(words), 3))


def writer(words, lent):
    """(answer, bytes) of the writer: the nodes, or number and place."""
    if not words:
        return ('refused', 1, 0), None
    if len(words) % 3:
        return ('refused', 2, 0), None
    n = len(words) // 3
    if n > MAX_NODES:
        return ('refused', 53, 0), None
    if lent < NODE_BYTES * n:
        return ('refused', 54, 0), None
    for p in range(n):
        if words[3 * p] > WIDEST:
            return ('refused', 55, p), None
    return ('nodes', n), write(words)


def reader(data, output):
    """(answer, output afterwards)."""
    output = list(output)
    if not data:
        return ('refused', 51, 0), output
    if len(data) // NODE_BYTES > MAX_NODES:
        return ('refused', 53, 0), output
    if len(data) % NODE_BYTES:
        return ('refused', 52, 0), output
    n = len(data) // NODE_BYTES
    if len(output) < 3 * n:
        return ('refused', 54, 0), output
    output[:3 * n] = [x for node in struct.iter_unpack(NODE, data) for x in node]
    return ('nodes', n), output
