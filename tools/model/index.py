"""The index beside a record file: building it, checking one from outside, and finding a SITE block, MACRO or PIN by its owner and name, or many."""
import struct
from typing import NamedTuple

from .files import agreement, whole
from .reader import reading
from .record import Kind, named, pack, rows
from .rules import NOW, Answer

ENTRY = struct.Struct("<IIII")  # owner, name start, name length, `at`
QUERY = struct.Struct("<III")  # owner, name start, name length
ANSWER = struct.Struct("<I")  # the `at`
INDEXED = {Kind.SITE, Kind.MACRO, Kind.PIN}
NOWHERE = 4294967295  # the `at` of what is not found


class Query(NamedTuple):
    """One of many look-ups; start and length are the name's span in the block of names that is lent."""

    owner: int
    start: int
    length: int


def entries(index):
    """The entries of an index of whole entries, each as its 16 bytes."""
    return [index[i : i + ENTRY.size] for i in range(0, len(index), ENTRY.size)]


def index_of(text, records):
    """The index of records: by owner, then by name bytes, then by `at`."""
    chosen = sorted((r for r in records if r.kind in INDEXED), key=lambda r: (r.owner, named(text, r), r.at))
    return b"".join(ENTRY.pack(r.owner, r.start, r.length, r.at) for r in chosen)


def build(text, file, room, rules=NOW):
    """Builds into a buffer of so many bytes: the answer, and the bytes at the buffer's front that it changes."""
    records = reading(text, rules)
    if isinstance(records, Answer):
        return records, b""
    answer = agreement(rows(pack(records)), file, rules)
    if answer.number:
        return answer, b""
    index = index_of(text, records)
    count = len(entries(index))
    return (Answer(11, count, 0), b"") if len(index) > room else (Answer(0, count, 0), index)


def consult(text, file, index, rules=NOW, queries=b""):
    """Whether an index is the one that would be built; that it, and then the queries, are whole comes before what the records are."""
    records = reading(text, rules)
    if isinstance(records, Answer):
        return records
    if whole(file):
        return whole(file)
    for given, size in (index, ENTRY.size), (queries, QUERY.size):
        if len(given) % size:
            return Answer(13, len(given), 0)
    answer = agreement(rows(pack(records)), file, rules)
    wanted = index_of(text, records)
    if answer.number or index == wanted:
        return answer
    given, wanted = entries(index), entries(wanted)
    shorter = min(len(given), len(wanted))
    return Answer(16, next((i for i in range(shorter) if given[i] != wanted[i]), shorter), 0)


def least(text, records):
    """The least `at` of each owner and name that a SITE block, MACRO or PIN has."""
    chosen = sorted((r for r in records if r.kind in INDEXED), key=lambda r: r.at, reverse=True)
    return {(r.owner, named(text, r)): r.at for r in chosen}


def find(text, file, index, owner, name, rules=NOW):
    """The least `at` of a SITE block, MACRO or PIN with that owner and name; the index is checked first."""
    answer = consult(text, file, index, rules)
    if answer.number:
        return answer, NOWHERE
    return answer, least(text, reading(text, rules)).get((owner, name), NOWHERE)


def find_many(text, file, index, names, queries, room, rules=NOW):
    """Finds what each query asks for, into a buffer of so many bytes: the answer, and the bytes at the buffer's front that it changes."""
    answer = consult(text, file, index, rules, queries)
    if answer.number:
        return answer, b""
    asked = [Query(*q) for q in QUERY.iter_unpack(queries)]
    if len(asked) * ANSWER.size > room:
        return Answer(11, len(asked), 0), b""
    at = least(text, reading(text, rules))
    return Answer(0, len(asked), 0), b"".join(ANSWER.pack(at.get((q.owner, named(names, q)), NOWHERE)) for q in asked)
