"""The settings block (docs/SETTINGS.md), read and written from its words alone; shares nothing with the proved code. A setting is (direction, kind, flag, target), of
numbers that may be out of their range; the flag of version 1 is 0."""
from block import SUMMED, sums
from limits import BLOCK, COUNT
from limits import SETTINGS_VERSION as NEWEST

TARGET, TARGET_BYTES = 4, 64            # where the target begins, and how long it is
NOTHING = 0, 0, 0, 0                    # what is shown with a refusal
assert TARGET_BYTES == 4 * COUNT


def in_range(version, setting):
    direction, kind, flag, target = setting
    return direction in (0, 1) and kind in (0, 1) and flag in ((0,) if version == 1 else (0, 1)) and target < 2 ** (32 if kind == 0 else 8 * TARGET_BYTES)


def sealed(front):
    return front + sums(front)


def block(version, setting):
    """The block, right or not, of fields that have a byte each."""
    direction, kind, flag, target = setting
    front = bytes([version, direction, kind, flag]) + target.to_bytes(TARGET_BYTES, 'little')
    return sealed(front + bytes(SUMMED - len(front)))


def writer(version, setting, lent):
    """((number, place, bytes), the block): none where it is refused."""
    if version not in range(1, NEWEST + 1):
        return (38, 0, 0), None
    if not in_range(version, setting):
        return (39, 0, 0), None
    if lent < BLOCK:
        return (4, 0, 0), None
    return (0, 0, BLOCK), block(version, setting)


def reader(data, knows=NEWEST):
    """(number, place, version, setting)."""
    if len(data) != BLOCK:
        return 21, 0, 0, NOTHING
    if sums(data[:SUMMED]) != data[SUMMED:]:
        return 22, 0, 0, NOTHING
    version = data[0]
    if version not in range(1, knows + 1):
        return 38, 0, 0, NOTHING
    unused = list(data[TARGET + TARGET_BYTES:SUMMED])
    flag = data[3]
    if version == 1:                    # it has no flag: the byte is unused
        unused.append(flag)
        flag = 0
    setting = data[1], data[2], flag, int.from_bytes(data[TARGET:TARGET + TARGET_BYTES], 'little')
    if not in_range(version, setting):
        return 39, 0, 0, NOTHING
    if any(unused):
        return 24, 0, 0, NOTHING
    return 0, 0, version, setting


# as docs/SETTINGS.md has it by hand
assert block(1, (0, 0, 0, 5)) == bytes.fromhex('0100000005') + bytes(503) + bytes.fromhex('06001a00')
