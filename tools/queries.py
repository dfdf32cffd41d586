"""Questions of many look-ups in one call, for indexes.py: a block of names, queries that are spans of it, and a buffer for the answers."""
import itertools
import random

import form
from model import ANSWER, ENTRY, LIBRARY, QUERY, SIZE

WIDE = 1 << 32
MOST = 170  # queries that the program has room for
rng = random.Random(12)


def packed(queries):
    return b"".join(QUERY.pack(*(v % WIDE for v in q)) for q in queries)


def question(names, queries, more=0):
    """Queries, as their bytes, and a buffer of so many bytes more than their answers need."""
    room = len(queries) // QUERY.size * ANSWER.size + more
    assert len(names) <= 1024 and len(queries) <= MOST * QUERY.size and 0 <= room <= 2048
    return "%04x%s:%s" % (room, queries.hex(), form.plain(names))


def some(all_of, most):
    """So many at most, in another order."""
    return rng.sample(all_of, min(len(all_of), most))


# ---- questions about an index, of which the keys are given: owner, name and `at` of each entry
def crossed(keys, most):
    """Names that are there and names near to them, laid one after the other, with owners of all kinds: the library, what is there, what is not."""
    owners = {LIBRARY, LIBRARY - 1, 7} | {o for o, _, _ in keys} | {at for _, _, at in keys}
    there = list(dict.fromkeys(n for _, n, _ in keys)) or [b"m"]
    near = some([f for n in there for f in (n.swapcase(), n + b"\0", n[:-1], b"\xff" + n)], 8) + [b""]
    block, start = b"", {}
    for name in some(there + near, len(there + near)):
        start[name] = len(block)
        block += name
    spans = lambda pairs: [(o, start[n], len(n)) for o, n in pairs]
    exact, other = spans([(o, n) for o, n, _ in keys]), spans(itertools.product(sorted(owners), start))
    yield question(block, packed(some(exact + some(other, most - len(exact)), most)))
    yield question(block, packed(2 * exact[::-1]), 5)


def none():
    """No queries, and one that is asked many times."""
    yield from (question(names, b"", more) for names in (b"", b"m") for more in (0, 1, 4, 7))
    yield question(b"am", packed([(LIBRARY, 1, 1)] * MOST), 2048 - 4 * MOST)
    yield question(b"am", packed([(LIBRARY, 1, 1)] * (MOST - 1) + [(LIBRARY, 0, 2)]))


def edges(block, owner):
    """Spans at each edge of a block and past it, some of which are within it by their low bytes alone, or end at 2^32 or a little more."""
    n, wider = len(block), (1 << 8, 1 << 16, 1 << 24)
    starts = [0, 1, n - 1, n, n + 1, *wider, WIDE // 2, WIDE - n, WIDE - 1]
    lengths = [0, 1, n - 1, n, n + 1, *(n + w for w in wider), WIDE // 2, WIDE - 1]
    spans = [(s % WIDE, length % WIDE) for s in starts for length in lengths + [WIDE - s, WIDE + 1 - s, WIDE + n - s]]
    return question(block, packed((owner, s, length) for s, length in dict.fromkeys(spans)))


def within(block, longest, owners):
    """All spans of a block up to a length, which overlap."""
    spans = [(o, s, length) for o in owners for length in range(1, longest + 1) for s in range(len(block) - length + 1)]
    return question(block, packed(some(spans, MOST)))


def rooms(block, queries):
    """Buffers around what the answers need, and queries that are not whole."""
    whole, need = packed(queries), len(queries) * ANSWER.size
    yield from (question(block, whole, room - need) for room in (0, 1, 3, 4))
    yield from (question(block, whole, more) for more in (-4, -1, 0, 1, 2, 3, 4))
    yield from (question(block, odd, 4) for odd in (whole[:-1], whole[:-11], whole + b"\0", whole[:11], whole[:1]))


# ---- the order of refusals
FAULTS = [question(b"am", queries, more) for queries in (packed([(LIBRARY, 1, 1), (0, 0, 1)]), bytes(QUERY.size + 1)) for more in (0, -1)]


def faults(rows, index):
    """Record files and indexes of every fault beside each other, and with each the queries and buffers of FAULTS."""
    file = b"".join(rows)
    files = [file, file[:-1], file + bytes(SIZE), file[SIZE:], file + rows[0], rows[0] + file[SIZE:-1]]
    return itertools.product(files, [index, index[:-1], index + bytes(ENTRY.size), b""])
