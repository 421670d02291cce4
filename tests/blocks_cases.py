"""Writes crates/blocks_run/stdin and stdout: files, whole and damaged, texts and reports, and what document 01 says of
each; crates/weigh/stdin and stdout; and the files of examples/, node files among them."""
import os
import random

import block
import node_file
import plant
from diagram_cases import D, HALF, ladder, terminals, widened
from limits import BLOCK, BLOCK_NODES, COUNT, FILE_NODES, LENT_PAIRS, MAX_NODES, MAX_VARS, ROOM
from reading import nodes, verdict
from weights_cases import by_chances, count_of

HERE = os.path.dirname(os.path.abspath(__file__))
TOP = os.path.join(HERE, '..')
LIMIT = 1 << (32 * COUNT)
MIDDLE = 1 << HALF
DIGITS = len(str(LIMIT - 1))                            # the most decimal ones of a number
FILE_WORDS = 3 * FILE_NODES
random.seed(23)
# What shrink says of each number that it can meet; 4 only where its caller lends a short buffer, which the program does not.
SENTENCES = {
    4: 'the output is too short',
    6: "node %d is not the terminal that stands there in a diagram, with node 0's variable count", 7: 'there are more than %s variables' % MAX_VARS,
    8: 'node %d has a variable that is not below the variable count', 9: 'node %d has a low link past the nodes',
    10: 'node %d has a high link past the nodes', 11: 'node %d has a low child that is not at a larger variable', 12: "node %d can't be reached from the root",
    16: 'the count to reach is above the number of all valuations', 17: 'node %d has a high child that is not at a larger variable', 18: 'no answer has so few nodes; 2 are always enough', 19: "a constant can't be cut to a count between 0 and the number of all valuations",
    21: 'a block is short or missing, or bytes stand after the last one', 22: 'a check sum is wrong',
    23: 'a block number, a node count or the order of blocks is wrong', 24: 'unused bytes are not zero', 25: 'there are more than %s nodes' % FILE_NODES,
    31: "the two conditions don't have the same number of variables", 32: 'more than %s pairs of nodes are reached' % LENT_PAIRS,
    51: 'the file is empty', 52: 'the length of the file is not a multiple of ten bytes', 53: 'there are more than %s nodes' % MAX_NODES,
}


def refused_line(number, place):
    sentence = SENTENCES.get(number, 'the input is refused')
    return 'refused %d at %d: %s\n' % (number, place, sentence % place if '%d' in sentence else sentence)


def said(answer):
    return 'nodes %d' % answer[1] if answer[0] == 'nodes' else 'refused %d at %d' % answer[1:]


def report(data, reader=block.reader):
    """What the program prints."""
    answer, output = reader(data, [0] * 3 * MAX_NODES)
    if answer[0] == 'refused':
        return said(answer) + '\n'
    words = output[:3 * answer[1]]
    judged = verdict(words, ROOM * MAX_NODES, ('weights', COUNT * MAX_NODES))
    if judged[0] == 'refused':
        return 'refused %d at %d\n' % judged[1:]
    weights = by_chances(words)
    lines = ['vars %d' % words[0], 'nodes %d' % answer[1], 'count %x' % count_of(words)]
    lines += ['node %d var %d weight %x' % (p, n[0], weights[p]) for p, n in enumerate(nodes(words))]
    return '\n'.join(lines) + '\n'


def some(n):
    """Words that fit a file, no diagram."""
    return [x for _ in range(n) for x in (random.choice([0, 1, 255, 256, 65535]), random.choice([0, 4294967295, 65536, 7]), random.randrange(2 ** 32))]


def chain(n):
    """A diagram of n nodes: the conjunction of n - 2 variables."""
    words = [n - 2, 0, 0, n - 2, 1, 1]
    for p in range(2, n):
        words += [n - 1 - p, 0, p - 1]
    return words


def longest():
    """True, in the most nodes of a file over the most variables: every weight but node 0's is the largest that there is."""
    words = terminals(MAX_VARS)
    for p in range(2, FILE_NODES):
        words += [MAX_VARS + 1 - p, p - 1, p - 1]
    return words


def filled():
    """The most nodes of a file over the most variables."""
    return ladder(random.Random(1993), FILE_NODES, MAX_VARS)


def changed(data, at, byte):
    return data[:at] + bytes([byte]) + data[at + 1:]


def resummed(b):
    return b[:block.SUMMED] + block.sums(b[:block.SUMMED])


def files():
    """Bytes and lengths of output."""
    for n in (1, 2, 49, 50, 51, 99, 100, 101, FILE_NODES - 1, FILE_NODES):
        words = some(n)
        data = b''.join(block.write(words))
        yield data, 3 * n
        yield data, 3 * n + 4
        yield data, 3 * n - 1
        yield data + b'\0', 3 * n
        yield data[:-1], 3 * n
        yield changed(data, len(data) - 6, data[-6] ^ 1), 3 * n     # a sum
        yield changed(data, len(data) - 1, data[-1] ^ 1), 3 * n
    one = block.write([9, 8, 7])[0]
    yield one, 3
    yield one + b'x', 3
    yield one + b'x', 0
    yield b'', 9
    yield bytes(BLOCK), 9                                             # every sum is right, no node
    yield one[:100], 9
    for place in (2, 504):                                          # counts, with right sums
        yield resummed(changed(one, place, 2)), 9
    yield resummed(changed(one, 0, 1)), 9                           # the second block's number
    for at in (14, 250, 503):                                       # unused bytes
        yield resummed(changed(one, at, 1)), 9
    yield changed(one, 20, 1), 9                                    # and a wrong sum before
    a = block.write([1, 2, 3] * 51)
    yield a[0] + changed(a[1], 508, a[1][508] ^ 1), 153             # the first block's nodes are kept
    yield a[0] + resummed(changed(a[1], 504, 52)), 153              # another total
    yield a[1] + a[0], 153
    yield a[0] + a[0], 153
    yield a[0], 153
    yield a[0] + a[1] + a[1], 153
    yield a[0] + a[1], 150                                          # the second block's nodes don't fit
    many = block.write([1, 2, 3] * (FILE_NODES + 1))
    yield b''.join(many), 400
    yield resummed(changed(many[0], 2, 49)), 400
    yield resummed(changed(many[0], 20, 1)), 400
    wide = block.write(some(40))[0]
    yield wide, 120
    two = [many[0][:504] + (100).to_bytes(4, 'little')]
    yield resummed(two[0]), 400
    yield a[0] + resummed(changed(a[1], 0, 0)), 153                 # a smaller block number, all else right
    yield a[0] + block.write([1, 2, 3] * 52)[1], 156                # a larger total, which block 1 would hold in its own file
    yield block.block(0, 50, block.split([1, 2, 3] * 50), 2 ** 24 + 5), 400     # byte 507 counts in both sums
    # two tests fail at once, and the first of them is said
    yield changed(one, 508, one[508] ^ 1), 0                        # 22 and 4
    yield b''.join(many), 0                                         # 25 and 4
    yield resummed(changed(one, 503, 1)), 2                         # 24 and 4
    yield resummed(changed(many[0], 2, 49)), 0                      # 23, 25 and 4
    yield resummed(changed(changed(one, 2, 2), 503, 1)), 0          # 23, 24 and 4


def single_blocks():
    """A block alone: its bytes, its number, what block 0 stated, and the length of the output."""
    top, over = FILE_NODES, FILE_NODES + 1
    many, right = block.write([1, 2, 3] * over), block.write(some(top))
    for number in (1, 2):
        yield many[number], number, over, 400                       # 25 at a later block
        yield right[number], number, top, FILE_WORDS
        yield right[number], number, top - 1, FILE_WORDS
        yield right[number], number, top, 3 * BLOCK_NODES * number
        yield right[number], 0, top, FILE_WORDS
        yield right[number][:-1], number, top, FILE_WORDS
        yield changed(right[number], BLOCK - 1, right[number][-1] ^ 1), number, top, 0
    yield resummed(changed(many[2], 503, 1)), 2, over, 0            # 25, 24 and 4
    yield resummed(changed(right[2], 503, 1)), 2, top, 0            # 24 and 4
    yield resummed(changed(right[2], 504, over)), 2, over, 400      # 23 and 25
    yield right[0], 0, 7, FILE_WORDS                                     # block 0 has nothing to agree with


def words_to_write():
    for n in (0, 1, BLOCK_NODES, BLOCK_NODES + 1, FILE_NODES, FILE_NODES + 1):
        words = some(n)
        size = BLOCK * -(-n // BLOCK_NODES)
        for lent in (size, size + 3, max(size - 1, 0)):
            yield words, lent
    yield [1, 2], BLOCK
    yield [1, 2, 3, 4], 0
    yield [65536, 0, 0], BLOCK
    yield [65536, 0, 0], BLOCK - 1
    yield [0, 0, 0] * 2 + [70000, 1, 1] + [65536, 0, 0], 600


def reported():
    for words in (D, [3, 0, 0], [3, 0, 0, 3, 1, 1], chain(50), chain(100), chain(FILE_NODES), terminals(MAX_VARS)[:3], terminals(MAX_VARS), terminals(MAX_VARS) + [0, 0, 1],
                  filled(), longest(), D[:12] + [0, 2, 4], [3, 0, 0, 3, 1, 1, 2, 0, 1, 1, 0, 1], terminals(MAX_VARS + 1)[:3], terminals(MAX_VARS + 1), widened(filled()), [9, 8, 7]):
        yield b''.join(block.write(words))
    for data, _ in list(files())[70:]:
        yield data


def node_files():
    """The same diagrams as node files, and files that are none."""
    for words in (D, [3, 0, 0], chain(50), filled(), D[:12] + [0, 2, 4], [9, 8, 7]):
        yield node_file.write(words)
    yield from (b'', node_file.write(D)[:-1], node_file.write(D) + b'\0', block.write(D)[0])


def texts():
    decimals = ['0', '1', '9', '10', '4294967295', '4294967296', '99999999999999999999', '', '00', '01', '1a', 'a', ' 1', '1 ', '-1', '/', ':', '007']
    wide = [MIDDLE - 1, MIDDLE, MIDDLE + 1, 16 * MIDDLE - 1, 2 ** MAX_VARS - 1, 2 ** MAX_VARS, 2 ** MAX_VARS + 1, LIMIT // 3, LIMIT - 1, LIMIT, LIMIT + 1, LIMIT + 12345]
    hexadecimals = ['0', 'f', '10', 'ff', 'F', 'g', ':', '/', '0f', '', 'deadbeef0123456789', '%x' % (LIMIT >> 4), '%x' % (16 * LIMIT - 1), '`', 'a0', '00',
                    '0' + '%x' % MIDDLE, '%X' % (LIMIT - 1)] + ['%x' % n for n in wide]
    naturals = [0, 9, 10, 99, 100, 2 ** 32 - 1, 2 ** 32, 10 ** 19, 2 ** 64 - 1, 2 ** 64, 10 ** 20, 10 ** 77, 10 ** 78, LIMIT // 10, 10 * LIMIT, 10 ** (DIGITS - 1) - 1,
                10 ** (DIGITS - 1), 10 ** DIGITS - 1, 10 ** DIGITS, 10 ** (10 * COUNT), LIMIT * LIMIT] + wide
    others = ['', '00', '01', '0' + str(LIMIT - 1), '0' + str(MIDDLE), '00' + '1' * 70, 'a', '1a', 'a1', '12345678901234567890f', str(MIDDLE) + 'f', '-1', '+1', ' 1', '1 ', '1_000', '/', ':',
              '1:']
    for t in decimals:
        good = t.isdigit() and str(int(t)) == t and int(t) < 2 ** 32
        yield 3, t, t if good else 'none'
    for t in hexadecimals:
        good = t != '' and all(c in '0123456789abcdef' for c in t) and '%x' % int(t, 16) == t and int(t, 16) < LIMIT
        yield 4, t, t if good else 'none'
    for t in [str(n) for n in naturals] + others:
        good = t.isdigit() and str(int(t)) == t and int(t) < LIMIT
        yield 5, t, '%s\n%d' % (t, int(t) % 2 ** 64) if good else 'none\nnone'


def main():
    cases, answers = [], []
    for data, lent in files():
        answer, output = block.reader(data, [9] * lent)
        cases.append([0, lent, 9, *data])
        answers.append(' '.join([said(answer), *map(str, output)]) + '\n')
    for data, number, stated, lent in single_blocks():
        answer, output = block.one(data, number, stated, [9] * lent)
        cases.append([6, lent, 9, number, stated, *data])
        answers.append(' '.join([said(answer), *map(str, output)]) + '\n')
    for words, lent in words_to_write():
        answer, data = block.writer(words, lent)
        left = ([9] * lent) if data is None else list(data) + [9] * (lent - len(data))
        cases.append([1, lent, 9, *words])
        answers.append(' '.join([said(answer), *map(str, left)]) + '\n')
    for data in reported():
        cases.append([2, 0, 0, *data])
        answers.append(report(data))
    for data in node_files():
        cases.append([2, 1, 0, *data])
        answers.append(report(data, node_file.reader))
    for number in [*range(28), *range(50, 57), 2 ** 32 - 1]:
        cases.append([7, 4095, number])
        answers.append(refused_line(number, 4095))
    for kind, text, answer in texts():
        cases.append([kind, 0, 0, *text.encode()])
        answers.append(answer + '\n')
    folder = os.path.join(TOP, 'crates', 'blocks_run')
    with open(os.path.join(folder, 'stdin'), 'w') as f:
        f.write('\n'.join(' '.join(map(str, c)) for c in cases))
    with open(os.path.join(folder, 'stdout'), 'w') as f:
        f.write(''.join(answers))
    whole = block.write(D)[0]
    assert whole[block.SUMMED:] == bytes([0x1E, 0, 0x2C, 0x0C])
    with open(os.path.join(TOP, 'crates', 'weigh', 'stdin'), 'wb') as f:
        f.write(whole)
    with open(os.path.join(TOP, 'crates', 'weigh', 'stdout'), 'w') as f:
        f.write(report(whole))
    # as docs/NODE-FILES.md has it by hand
    assert node_file.write(D) == bytes.fromhex('03000000000000000000 03000100000001000000 02000000000001000000 01000200000001000000 00000200000003000000')
    examples = os.path.join(TOP, 'examples')
    os.makedirs(examples, exist_ok=True)
    made = {
        'D.block': whole, 'chain120.block': b''.join(block.write(chain(FILE_NODES))), 'damaged.block': changed(whole, 30, whole[30] ^ 4), 'false.block': block.write([3, 0, 0])[0],
        'D.bdd': node_file.write(D), 'cut-short.bdd': node_file.write(D)[:-1], 'pump-trips.bdd': node_file.write(plant.pump_trips()),
    }
    for name, data in made.items():
        with open(os.path.join(examples, name), 'wb') as f:
            f.write(data)
    print(len(cases), 'cases')


if __name__ == '__main__':
    main()
