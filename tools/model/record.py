"""The record: its layout, the kinds and the codes. They are typed here and nowhere else in tools/."""
import struct
from typing import NamedTuple

LAYOUT = struct.Struct("<BBHIIIIqq")
SIZE = 36
LIBRARY = 4294967295  # the owner at library level
assert LAYOUT.size == SIZE


class Record(NamedTuple):
    """The fields in the layout's order. `spare` is bytes 2 and 3; start and length are the name's span."""

    kind: int
    code: int
    spare: int
    at: int
    owner: int
    start: int
    length: int
    x: int
    y: int


class Kind:
    """The kinds by their names."""

    (VERSION, BUSBITCHARS, DIVIDERCHAR, NAMESCASESENSITIVE, NOWIREEXTENSIONATPIN, UNITS, DATABASE_MICRONS, SITE, SITE_CLASS, SYMMETRY,
     SYMMETRY_WORD, SIZE, MACRO, MACRO_CLASS, MACRO_SITE, FOREIGN, ORIGIN, PIN, DIRECTION, USE, SHAPE, ANTENNAMODEL, ANTENNA, PORT,
     PORT_CLASS, OBS, LAYER, LAYER_OPTION, WIDTH, RECT, POLYGON, PATH, POINT, VIA) = range(1, 35)


# The word that a statement of each kind begins with, from kind 1; of four kinds it is the word of the code, or a number.
KEYS = [None] + [None if w == "-" else w for w in """VERSION BUSBITCHARS DIVIDERCHAR NAMESCASESENSITIVE NOWIREEXTENSIONATPIN UNITS DATABASE
 SITE CLASS SYMMETRY - SIZE MACRO CLASS SITE FOREIGN ORIGIN PIN DIRECTION USE SHAPE ANTENNAMODEL - PORT CLASS OBS LAYER - WIDTH RECT
 POLYGON PATH - VIA""".split()]
assert len(KEYS) == Kind.VIA + 1


def _with(word, values):
    return [word + " " + v for v in values.split()]


_ON_OFF = ["ON", "OFF"]
# The values of each kind that has codes, from code 1.
CODES = {
    Kind.NAMESCASESENSITIVE: _ON_OFF,
    Kind.NOWIREEXTENSIONATPIN: _ON_OFF,
    Kind.SITE_CLASS: ["PAD", "CORE"],
    Kind.SYMMETRY_WORD: ["X", "Y", "R90"],
    Kind.MACRO_CLASS: ["COVER", "COVER BUMP", "RING", "BLOCK", "BLOCK BLACKBOX", "BLOCK SOFT", "PAD"]
    + _with("PAD", "INPUT OUTPUT INOUT POWER SPACER AREAIO")
    + ["CORE"]
    + _with("CORE", "FEEDTHRU TIEHIGH TIELOW SPACER ANTENNACELL WELLTAP")
    + _with("ENDCAP", "PRE POST TOPLEFT TOPRIGHT BOTTOMLEFT BOTTOMRIGHT"),
    Kind.DIRECTION: ["INPUT", "OUTPUT", "OUTPUT TRISTATE", "INOUT", "FEEDTHRU"],
    Kind.USE: ["SIGNAL", "ANALOG", "POWER", "GROUND", "CLOCK"],
    Kind.SHAPE: ["ABUTMENT", "RING", "FEEDTHRU"],
    Kind.ANTENNAMODEL: ["OXIDE1", "OXIDE2", "OXIDE3", "OXIDE4"],
    Kind.ANTENNA: """ANTENNADIFFAREA ANTENNAGATEAREA ANTENNAPARTIALMETALAREA ANTENNAPARTIALMETALSIDEAREA ANTENNAPARTIALCUTAREA
 ANTENNAPARTIALDIFFAREA ANTENNAMAXAREACAR ANTENNAMAXSIDEAREACAR ANTENNAMAXCUTCAR""".split(),
    Kind.PORT_CLASS: ["NONE", "CORE", "BUMP"],
    Kind.LAYER_OPTION: ["EXCEPTPGNET", "SPACING", "DESIGNRULEWIDTH"],
}
EXCEPTPGNET, SPACING, DESIGNRULEWIDTH = 1, 2, 3
WITH_POINT = 1  # the code of a FOREIGN that has its point
# The kinds that all count.
COUNTING = {Kind.SITE, Kind.SYMMETRY_WORD, Kind.MACRO, Kind.PIN, Kind.ANTENNA, Kind.PORT, Kind.LAYER, Kind.RECT, Kind.POLYGON, Kind.PATH,
            Kind.POINT, Kind.VIA}
# The kinds that stand on their owner's line.
PARTS = {Kind.SYMMETRY_WORD, Kind.LAYER_OPTION, Kind.POINT}


def code_of(kind, value):
    """The code of a value, two words with a space between or one, in any letter case; 0 if the kind has none such."""
    values = CODES.get(kind, [])
    return values.index(value.upper()) + 1 if value.upper() in values else 0


def record(kind, at, owner, code=0, start=0, length=0, x=0, y=0, spare=0):
    """A record; what is not given is 0."""
    return Record(kind, code, spare, at, owner, start, length, x, y)


def pack(records):
    """The record file of these records."""
    return b"".join(LAYOUT.pack(*r) for r in records)


def rows(file):
    """The records of a file of whole records, each as its 36 bytes."""
    return [file[i : i + SIZE] for i in range(0, len(file), SIZE)]


def unpack(file):
    """The whole records of a file; what is left at its end is passed over."""
    return [Record(*LAYOUT.unpack_from(file, i)) for i in range(0, len(file) - SIZE + 1, SIZE)]


def printed(r):
    """A record as the listing has it."""
    owner = "-" if r.owner == LIBRARY else "%d" % r.owner
    return "%d %d %d %s %d %d %d %d" % (r.kind, r.code, r.at, owner, r.start, r.length, r.x, r.y)


def parsed(line):
    """The record of such a line."""
    kind, code, at, owner, start, length, x, y = line.split()
    return Record(int(kind), int(code), 0, int(at), LIBRARY if owner == "-" else int(owner), int(start), int(length), int(x), int(y))


def named(text, r):
    """A record's name: that part of the text, empty if the span reaches outside."""
    return text[r.start : r.start + r.length] if r.start + r.length <= len(text) else b""


def aside(text, records):
    """A reading with text positions aside: `at` and owner as indexes, names as their bytes."""
    index = {r.at: i for i, r in enumerate(records)}
    return [(r.kind, r.code, r.spare, index[r.at], index.get(r.owner), named(text, r), r.x, r.y) for r in records]
