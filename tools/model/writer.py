"""Writing: the canonical text of records, one statement a line in order of `at`."""
from .files import check
from .numeral import written
from .record import CODES, EXCEPTPGNET, KEYS, LIBRARY, PARTS, Kind, named, unpack
from .rules import NOW, Answer

CLOSED = {Kind.UNITS: b"END UNITS", Kind.PORT: b"END", Kind.OBS: b"END"}
CLOSED_BY_NAME = {Kind.SITE, Kind.MACRO, Kind.PIN}
WITH_PARTS = {Kind.SYMMETRY, Kind.LAYER, Kind.RECT, Kind.POLYGON, Kind.PATH}
WITHOUT_SEMICOLON = PARTS | CLOSED_BY_NAME | set(CLOSED)
XY = {Kind.ORIGIN, Kind.POINT, Kind.VIA}
X = {Kind.VERSION, Kind.WIDTH, Kind.ANTENNA}


def numbers(r):
    """The record's x and y as they are written; bytes 2 and 3 have the decimals of each (2026-07), and are 0 today."""
    return written(r.x, r.spare % 256).encode(), written(r.y, r.spare // 256).encode()


def words(text, r):
    """The tokens of a record's statement, up to its parts and its semicolon."""
    (x, y), kind = numbers(r), r.kind
    out = [KEYS[kind].encode()] if KEYS[kind] else []
    if kind in CODES:
        out += CODES[kind][r.code - 1].encode().split()
    if kind == Kind.DATABASE_MICRONS:
        out += [b"MICRONS", x]
    elif kind == Kind.SIZE:
        out += [x, b"BY", y]
    elif kind == Kind.FOREIGN:
        out += [named(text, r)] + ([x, y] if r.code else [])
    elif kind in (Kind.BUSBITCHARS, Kind.DIVIDERCHAR):
        out += [b'"' + named(text, r) + b'"']
    elif kind in XY:
        out += [x, y]
    elif kind in X or kind == Kind.LAYER_OPTION and r.code != EXCEPTPGNET:
        out += [x]
    if kind == Kind.ANTENNA and r.length:
        out += [b"LAYER"]
    if r.length and kind not in (Kind.BUSBITCHARS, Kind.DIVIDERCHAR, Kind.FOREIGN):
        out += [named(text, r)]
    return out


def lines(text, owned, owner, depth, rules):
    """The lines of what an owner encloses, and of what that encloses in turn."""
    for r in owned.get(owner, []):
        if r.kind in PARTS:
            continue
        out = words(text, r)
        if r.kind in WITH_PARTS:
            for part in owned.get(r.at, []):
                out += words(text, part) if part.kind in PARTS else []
        ends = r.kind not in WITHOUT_SEMICOLON and (r.kind != Kind.ANTENNAMODEL or rules.model_semicolon)
        indent = b"  " * depth
        yield indent + b" ".join(out + ([b";"] if ends else [])) + b"\n"
        yield from lines(text, owned, r.at, depth + 1, rules)
        if r.kind in CLOSED:
            yield indent + CLOSED[r.kind] + b"\n"
        elif r.kind in CLOSED_BY_NAME:
            yield indent + b"END " + named(text, r) + b"\n"


def canonical(text, records, rules=NOW):
    """The text of the records of a reading, in whatever order."""
    owned = {}
    for r in sorted(records, key=lambda r: r.at):
        owned.setdefault(r.owner, []).append(r)
    return b"".join(lines(text, owned, LIBRARY, 0, rules)) + b"END LIBRARY\n"


def write(text, file, room, rules=NOW):
    """Writes into a buffer of so many bytes: the answer, and the bytes at the buffer's front that it changes."""
    answer = check(text, file, rules)
    if answer.number:
        return answer, b""
    out = canonical(text, unpack(file), rules)
    return (Answer(12, len(out), 0), b"") if len(out) > room else (Answer(0, len(out), 0), out)
