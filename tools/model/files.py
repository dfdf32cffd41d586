"""Checking a record file against a text, and the calls on records alone."""
from .reader import reading
from .record import COUNTING, DESIGNRULEWIDTH, EXCEPTPGNET, SIZE, SPACING, Kind, named, pack, rows, unpack
from .rules import NOW, Answer


def whole(file):
    """13 for bytes that are no whole records, or None."""
    return Answer(13, len(file), 0) if len(file) % SIZE else None


def agreement(wanted, file, rules=NOW):
    """Whether a file holds every record of a reading once, with nothing else, in some order: 13, 14, 15 or 0. The reading's records are
    given as their bytes."""
    if whole(file):
        return whole(file)
    held = rows(file)
    old = [i for i, r in enumerate(held) if r[0] == Kind.NAMESCASESENSITIVE] if rules.retired else []
    if old:
        return Answer(17, old[0], 0)
    known, seen = set(wanted), set()
    for i, r in enumerate(held):
        if r not in known or r in seen:
            return Answer(14, i, 0)
        seen.add(r)
    for r in wanted:
        if r not in seen:
            return Answer(15, unpack(r)[0].at, 0)
    return Answer(0, 0, 0)


def check(text, file, rules=NOW):
    """The checker's answer: the text's refusal comes first."""
    records = reading(text, rules)
    return records if isinstance(records, Answer) else agreement(rows(pack(records)), file, rules)


def counted_as(kind, code):
    """What a record counts as: its kind, and of a LAYER's options EXCEPTPGNET or the other two; None where the code is of none."""
    if kind != Kind.LAYER_OPTION:
        return kind
    return {EXCEPTPGNET: "EXCEPTPGNET", SPACING: "SPACING", DESIGNRULEWIDTH: "SPACING"}.get(code)


def counting(rules=NOW):
    """The kinds that all count."""
    return COUNTING | {Kind.OBS} if rules.all_obs else COUNTING


def in_force(file, owner, kind, code, rules=NOW):
    """The index of the record in force: the greatest `at`, the first in the file on a tie; None if there is none."""
    if whole(file):
        return whole(file), None
    asked, found = counted_as(kind, code), None
    records = unpack(file)
    for i, r in enumerate(records):
        if asked is not None and r.owner == owner and r.kind == kind and counted_as(r.kind, r.code) == asked:
            if found is None or r.at > records[found].at:
                found = i
    return Answer(0, 0, 0), None if kind in counting(rules) else found


def name(text, file, index):
    """A record's name as that part of the text; empty past the file."""
    records = unpack(file[SIZE * index : SIZE * index + SIZE])
    return named(text, records[0]) if records else b""


def owners(file, index):
    """How many owners a record has out to the library: each stands below its record, and is the first in the file with that `at`."""
    if whole(file):
        return whole(file), 0
    records = unpack(file)
    first = {}
    for i, r in enumerate(records):
        first.setdefault(r.at, i)
    count = 0
    while index < len(records) and records[index].owner < records[index].at and records[index].owner in first:
        index = first[records[index].owner]
        count += 1
    return Answer(0, 0, 0), count
