"""The block file of document 01, read and written from its words alone; shares nothing with the proved code."""
import struct

from limits import BLOCK, BLOCK_NODES, FILE_NODES

PLACE = 10                              # bytes of a node
SUMMED = BLOCK - 4                      # bytes before the sums
PLACES_END = SUMMED - 4                 # bytes before the number of all nodes


def sums(front):
    """The two sums of the bytes before them."""
    return struct.pack('<HH', sum(front) % 65536, sum((i + 1) * b for i, b in enumerate(front)) % 65536)


def block(number, held, nodes, total, room=None):
    """One block, right or not: its places, or `room` in their stead."""
    body = b''.join(struct.pack('<HII', *n) for n in nodes)
    body = (body + bytes(PLACES_END - 4 - len(body))) if room is None else room
    front = struct.pack('<HH', number, held) + body + struct.pack('<I', total)
    return front + sums(front)


def split(words):
    return [tuple(words[i:i + 3]) for i in range(0, len(words), 3)]


def write(words):
    """The blocks of a file."""
    ns = split(words)
    return [block(i // BLOCK_NODES, len(ns[i:i + BLOCK_NODES]), ns[i:i + BLOCK_NODES], len(ns)) for i in range(0, len(ns), BLOCK_NODES)]


def writer(words, lent):
    """(answer, bytes) of the writer: the nodes, or number and place."""
    if not words:
        return ('refused', 1, 0), None
    if len(words) % 3:
        return ('refused', 2, 0), None
    n = len(words) // 3
    if n > FILE_NODES:
        return ('refused', 25, 0), None
    if lent < BLOCK * -(-n // BLOCK_NODES):
        return ('refused', 4, 0), None
    for p in range(n):
        if words[3 * p] > 65535:
            return ('refused', 26, p), None
    return ('nodes', n), b''.join(write(words))


def one(b, due, stated, output):
    """(answer, output afterwards) for the block due, tested in document 01's order; `stated` is what block 0 stated."""
    output = list(output)
    b = b[:BLOCK]
    if len(b) < BLOCK:
        return ('refused', 21, due), output
    if sums(b[:SUMMED]) != b[SUMMED:]:
        return ('refused', 22, due), output
    number, held = struct.unpack('<HH', b[:4])
    total, = struct.unpack('<I', b[PLACES_END:SUMMED])
    if number != due or total == 0 or (due > 0 and total != stated) or held == 0 or held != min(BLOCK_NODES, total - BLOCK_NODES * due):
        return ('refused', 23, due), output
    if total > FILE_NODES:
        return ('refused', 25, due), output
    if any(b[4 + PLACE * held:PLACES_END]):
        return ('refused', 24, due), output
    if 3 * BLOCK_NODES * due + 3 * held > len(output):
        return ('refused', 4, due), output
    for i in range(held):
        at, from_ = 3 * (BLOCK_NODES * due + i), 4 + PLACE * i
        output[at:at + 3] = struct.unpack('<HII', b[from_:from_ + PLACE])
    return ('nodes', total), output


def reader(data, output):
    """(answer, output afterwards): block by block."""
    due, stated = 0, None
    while True:
        answer, output = one(data[BLOCK * due:], due, stated, output)
        if answer[0] == 'refused':
            return answer, output
        stated, due = answer[1], due + 1
        if BLOCK_NODES * due >= stated:
            break
    if len(data) > BLOCK * due:
        return ('refused', 21, due), output
    return ('nodes', stated), output
