"""Writes crates/settings_run/stdin and stdout, from setting_block.py's reading: settings at and past the bounds of each field, written and read; blocks whole, damaged in each
byte with the sums left and with the sums mended, cut and lengthened; crates/settings/stdin, args and stdout; and examples/pump-trips.settings.

    python3 tests/settings_cases.py"""
import os
import random

import setting_block
from block import SUMMED
from blocks_cases import changed, resummed
from limits import BLOCK, COUNT
from setting_block import block, reader, writer

TOP = os.path.join(os.path.dirname(os.path.abspath(__file__)), '..')
LIMIT, WORD = 2 ** (32 * COUNT), 2 ** 32
FILLING = 9
VERSIONS = (0, 1, 2, 3, 255, 256, 257, 258, WORD - 1)
BITS = (0, 1, 2, 255, 256, 257, WORD - 1)               # for direction, kind and flag
SIZES = (0, 1, 5, 256, WORD - 1, WORD, WORD + 5, 2 ** 64, LIMIT - WORD, LIMIT - 1)
COUNTS = (0, 1, 255, 256, WORD - 1, WORD, 2 ** 256 - 1, 2 ** 256, 2 ** 511, LIMIT - 2, LIMIT - 1)
LENGTHS = (0, 1, BLOCK - 1, BLOCK, BLOCK + 1)
# One setting of each kind, in the two versions, and one whose count has a byte of its own in each place.
SIZE, FEW = (1, 0, 0, 40), (0, 1, 0, 2 ** 511 + 2 ** 200 + 77)
RIGHT = [(1, SIZE), (1, FEW), (2, (1, 0, 1, 40)), (2, (0, 1, 1, FEW[3])), (2, SIZE)]
MANY = 0, 1, 0, int.from_bytes(bytes(range(1, 65)), 'little')
TEXT = 524288                                           # bytes of cases that the program has room for
random.seed(9)


def settings():
    """Each field at and past its bounds beside fields that are right, and some beside others that are wrong."""
    for kind, targets in ((0, SIZES), (1, COUNTS)):
        for direction in (0, 1):
            for flag in (0, 1):
                yield from ((direction, kind, flag, target) for target in targets)
    for at in range(3):
        for number in BITS:
            for target in (0, 40, WORD):
                setting = [1, 1, 0, target]
                setting[at] = number
                yield tuple(setting)
    yield from ((2, 0, 1, WORD), (2, 2, 2, 2), (WORD - 1, WORD - 1, WORD - 1, LIMIT - 1), (0, 2, 0, LIMIT - 1), (1, 0, 2, WORD), (0, 0, 1, WORD))


def written():
    """(version, setting, length of the output)"""
    for setting in dict.fromkeys(settings()):
        yield from ((version, setting, BLOCK) for version in (1, 2))
    yield from ((version, MANY, BLOCK + 1) for version in (1, 2))
    for version in VERSIONS:                            # 38 before 39 before 4
        for setting in (SIZE, (1, 0, 1, 40), (2, 0, 0, 40), (0, 0, 0, WORD)):
            yield from ((version, setting, lent) for lent in LENGTHS)


def fields():
    """Blocks with right sums, of fields at and past their bounds."""
    for version in (0, 1, 2, 3, 255):
        for at in (1, 2, 3):
            for byte in (0, 1, 2, 128, 255):
                for _, setting in RIGHT[:2]:
                    yield resummed(changed(block(version, setting), at, byte))
    for version in (1, 2):
        yield from (block(version, (direction, 0, 0, size)) for direction in (0, 1) for size in SIZES)
        yield from (block(version, (direction, 1, 0, count)) for direction in (0, 1) for count in COUNTS)


def damaged():
    """Each byte of right blocks damaged: with the sums left, which is always seen, and with the sums mended."""
    for version, setting in (RIGHT[0], RIGHT[3]):
        whole = block(version, setting)
        for at in range(BLOCK):
            yield changed(whole, at, whole[at] ^ (1 << random.randrange(8)))
        for at in range(SUMMED):
            yield resummed(changed(whole, at, whole[at] ^ (1, 2, 0x80, 0xFF)[at % 4]))
    for version, setting in RIGHT:                      # of the fields and of the byte behind them, by every bit
        whole = block(version, setting)
        for at in (0, 1, 2, 3, 4, 7, 8, 67, 68, SUMMED - 1):
            yield from (resummed(changed(whole, at, whole[at] ^ (1 << bit))) for bit in range(8))


def others():
    """Lengths, zeros, exchanges, sums that hide a change from one another, and refusals that hide one another."""
    for version, setting in RIGHT:
        whole = block(version, setting)
        yield whole
        yield from (whole[:length] for length in (0, 1, 4, SUMMED, BLOCK - 1))
        yield whole + b'\0'
        yield whole + b'\1'
        for at in (0, 1, 2, 3, 4, 30, 66, SUMMED - 1, SUMMED, SUMMED + 1, SUMMED + 2):      # neighbours exchanged
            yield whole[:at] + whole[at + 1:at + 2] + whole[at:at + 1] + whole[at + 2:]
        yield changed(changed(whole, 20, whole[66]), 66, whole[20])
        # one byte more and another less: the first sum is as it was; three bytes of which the second is twice the others': so are both
        yield changed(changed(whole, 10, whole[10] + 1), 11, whole[11] - 1 & 255)
        yield changed(changed(changed(whole, 4, whole[4] + 1), 6, whole[6] + 1), 5, whole[5] - 2 & 255)
        yield whole[:SUMMED] + whole[SUMMED + 2:] + whole[SUMMED:SUMMED + 2]                # the two sums exchanged
        # each refusal beside all that come after it
        wrong = changed(changed(changed(whole, 0, 3), 1, 2), 100, 1)
        yield wrong[:-1]                                # 21, 22, 38, 39 and 24
        yield wrong                                     # 22, 38, 39 and 24
        yield resummed(wrong)                           # 38, 39 and 24
        yield resummed(changed(wrong, 0, version))      # 39 and 24
        yield resummed(changed(changed(wrong, 0, version), 1, 1))       # 24
        yield resummed(changed(changed(whole, 0, 1), 3, 1))             # 24: version 1 has no flag
        yield resummed(changed(changed(changed(whole, 0, 1), 3, 1), 2, 2))      # 39 before it
    yield from (block(version, MANY) for version in (1, 2))
    yield from (bytes(length) for length in (0, BLOCK - 1, BLOCK, BLOCK + 1))
    yield from (bytes([byte]) * BLOCK for byte in (1, 255))
    yield resummed(bytes([255]) * BLOCK)
    yield resummed(bytes([1]) * BLOCK)
    yield resummed(bytes([2, 1, 1, 1]) + bytes([255]) * (SUMMED - 4) + bytes(4))


def runs(values):
    """Each that is not as the one before it, from a zero on, with its place; then how many there are."""
    parts = ['%d:%d' % (i, value) for i, (value, before) in enumerate(zip(values, [0, *values])) if value != before]
    return ''.join(' ' + part for part in parts) + ' of %d\n' % len(values)


def words_of(target):
    return [target >> 32 * i & WORD - 1 for i in range(COUNT)]


def read_line(answer):
    number, place, version, (direction, kind, flag, target) = answer
    return 'read %d %d %d %d %d %d' % (number, place, version, direction, kind, flag) + runs(words_of(target))


def hold_to(read):
    """What the cases are for is in them: every refusal of both readers, and nothing but 22 where a byte is damaged and the sums are left."""
    assert {answer[0] for data in read for answer in (reader(data), reader(data, 1))} == {0, 21, 22, 38, 39, 24}
    left = [data for data in damaged()][:BLOCK]
    assert all(reader(data)[0] == 22 for data in left)
    assert any(reader(data)[2] == 1 for data in read) and any(reader(data)[2] == 2 and reader(data, 1) == (38, 0, 0, setting_block.NOTHING) for data in read)


def main():
    cases, answers = [], []
    for version, setting, lent in written():
        answer, data = writer(version, setting, lent)
        left = list(data or []) + [FILLING] * (lent - len(data or b''))
        cases.append([0, version, *setting[:3], lent, FILLING, *words_of(setting[3])])
        answers.append('written %d %d %d' % answer + runs(left))
    assert {line.split()[1] for line in answers} == {'0', '4', '38', '39'}
    read = list(dict.fromkeys(data for group in (fields(), damaged(), others()) for data in group))
    hold_to(read)
    for data in read:
        cases.append([1, len(data)] + [x for at, byte in enumerate(data) if byte for x in (at, byte)])
        answers.append(read_line(reader(data)) + read_line(reader(data, 1)))
    files = {
        'crates/settings_run/stdin': '\n'.join(' '.join(map(str, case)) for case in cases).encode(), 'crates/settings_run/stdout': ''.join(answers).encode(),
        'crates/settings/args': b'show\n', 'crates/settings/stdin': block(2, (1, 0, 1, 40)), 'crates/settings/stdout': b'keep size 40 as-is\n',
        'examples/pump-trips.settings': block(1, (1, 0, 0, 400)),
    }
    assert len(files['crates/settings_run/stdin']) <= TEXT
    for name, data in files.items():
        with open(os.path.join(TOP, name), 'wb') as f:
            f.write(data)
    print(len(cases), 'cases')


if __name__ == '__main__':
    main()
