"""Our list of records in the form that src/kept.rs defines, so that it can be held beside what the original keeps."""
import os, re, sys

sys.path.insert(0, os.path.join(os.path.dirname(os.path.abspath(__file__)), ".."))
import model
from model import CODES, KEYS, LIBRARY
from model import Kind as K


def first_word(kind):
    """What a statement of a kind begins with."""
    words = [KEYS[kind]] if KEYS[kind] else CODES.get(kind)
    return re.compile(rb"(%s)(?!\S)" % "|".join(words).encode() if words else rb"[-0-9]", re.I)


FIRST = [None] + [first_word(kind) for kind in range(1, len(KEYS))]


def parsed(line):
    """The records of one line."""
    return [model.parsed(r) for r in line.split(";") if r.strip()]


def complaint(text, records):
    """What is wrong with the places of a reading's records, which the original does not tell: `at` rises and is where the
    statement's first token stands, the owner stands before, the name lies between this statement's start and the next's."""
    seen, last = {LIBRARY}, -1
    for i, r in enumerate(records):
        until = records[i + 1].at if i + 1 < len(records) else len(text)
        if r.at <= last or r.owner not in seen:
            return "record %d: at %d after %d, owner %s" % (i, r.at, last, r.owner)
        if not FIRST[r.kind].match(text, r.at):
            return "record %d: kind %d at %d" % (i, r.kind, r.at)
        if (r.start, r.length) != (0, 0) and not r.at < r.start < r.start + r.length <= until:
            return "record %d: name %d %d" % (i, r.start, r.length)
        seen.add(r.at)
        last = r.at
    return None


def named(text, r):
    return "".join(chr(b) if chr(b).isalnum() or b == 95 else "%%%02X" % b for b in model.named(text, r)) or "-"


def group(r):
    """What is kept together, in the order of its first record: shapes, and of a layer's options the two that are one thing."""
    if r.kind in (K.RECT, K.POLYGON, K.PATH):
        return K.RECT, 0
    return (r.kind, int(r.code > 1)) if r.kind == K.LAYER_OPTION else (r.kind, 0)


def kept(text, records):
    owned = {}
    for r in records:
        things = owned.setdefault(r.owner, {}).setdefault(group(r), [])
        if r.kind not in model.counting():
            things.clear()
        things.append(r)

    def parts(owner):
        groups = owned.get(owner, {})
        return "".join(thing(r) for g in sorted(groups) for r in groups[g] if r.kind != K.OBS or r.at in owned)

    def thing(r):
        return "(%d %d %s %d %d%s)" % (r.kind, r.code, named(text, r), r.x, r.y, parts(r.at))

    return parts(LIBRARY)
