"""An executable reading of the rules in force (docs/RULES.md), written from the papers alone: the expected output of the test programs is made
with it. It shares no code and no method with the library: sets and dictionaries, no limits on depth or size."""
from limits import COUNT, MAX_NODES, MAX_VARS, ROOM


def nodes(words):
    return [tuple(words[i:i + 3]) for i in range(0, len(words), 3)]


def most(n):
    return max(n, 2)


def verdict(words, room, output=None):
    """('accepted', n, v) or ('refused', number, place). output: None, or (kind, words lent)."""
    if len(words) == 0:
        return 'refused', 1, 0
    if len(words) % 3:
        return 'refused', 2, 0
    n = len(words) // 3
    if n > MAX_NODES:
        return 'refused', 3, 0
    if output is not None:
        kind, lent = output
        asked = {'diagram': 3 * most(n), 'weights': COUNT * n, 'variables': MAX_VARS}[kind]
        if lent < asked:
            return 'refused', 4, 0
    if room < ROOM * most(n):
        return 'refused', 5, 0
    ns = nodes(words)
    v = ns[0][0]
    if ns[0] != (v, 0, 0):
        return 'refused', 6, 0
    if n > 1 and ns[1] != (v, 1, 1):
        return 'refused', 6, 1
    if v > MAX_VARS:
        return 'refused', 7, 0
    for p in range(2, n):
        var, low, high = ns[p]
        if var >= v:
            return 'refused', 8, p
        if low >= n:
            return 'refused', 9, p
        if high >= n:
            return 'refused', 10, p
    reached, todo = set(), {n - 1}
    while todo:
        p = todo.pop()
        if p not in reached:
            reached.add(p)
            if p >= 2:
                todo |= {ns[p][1], ns[p][2]}
    for p in range(2, n):
        wrong = [side for side in (1, 2) if ns[ns[p][side]][0] <= ns[p][0]]
        if p in reached and wrong:
            return 'refused', {1: 11, 2: 17}[wrong[0]], p
    for p in range(2, n):
        if p not in reached:
            return 'refused', 12, p
    return 'accepted', n, v


def room_after(words, length, output=None):
    """How many words at the front of a room of that length are zero afterwards (it was filled with others)."""
    kind, number = verdict(words, length, output)[:2]
    if kind == 'refused' and number <= 5:
        return 0
    return ROOM * most(len(words) // 3)
