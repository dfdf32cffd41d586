"""LEF text as a record file, from Python: liblef.so by ctypes. include/lef.h says what each call does, and how much stack it takes.

    import lef

    text = open("cells.lef", "rb").read()
    for r in lef.read(text):
        if r.kind == lef.Kind.MACRO:
            print(r.name(text))

    file = lef.read_bytes(text)
    index = lef.index(text, file)
    macro = lef.find(text, file, index, lef.LIBRARY, b"INV_X1")
    pin = None if macro is None else lef.find(text, file, index, macro, b"ZN")
    a, zn = lef.find_many(text, file, index, [(macro, b"A"), (macro, b"ZN")])

Texts, record files, indexes and names are bytes. What the library refuses is raised as a Refusal. The library is looked for when it is first needed: at the
path in the environment variable LEF_LIBRARY, and else as liblef.so.1 or liblef.so where the system's loader looks; `load` takes a path."""
import ctypes
import enum
import os
import struct
from typing import Any, Iterable, List, NamedTuple, Optional, Tuple, Union

version = "1.2.0"  # LEF_H_VERSION of the header that this module goes with

TEXT_LIMIT = 16777216  # bytes of the longest text that is read
RECORD_SIZE = 36  # bytes of a record
LIBRARY = 4294967295  # the owner of a record that no other encloses
ENTRY_SIZE = 16  # bytes of an entry of an index
NOWHERE = 4294967295  # what the library says where nothing is found; `find` and `find_many` give None
QUERY_SIZE = 12  # bytes of a query of many look-ups, and of its answer
ANSWER_SIZE = 4

LAYOUT = struct.Struct("<BB2xIIIIqq")
ENTRY_LAYOUT = struct.Struct("<IIII")
QUERY_LAYOUT = struct.Struct("<III")  # owner, start and length of the name in the block of names
ANSWER_LAYOUT = struct.Struct("<I")
assert (LAYOUT.size, ENTRY_LAYOUT.size, QUERY_LAYOUT.size, ANSWER_LAYOUT.size) == (RECORD_SIZE, ENTRY_SIZE, QUERY_SIZE, ANSWER_SIZE)

Bytes = Union[bytes, bytearray, memoryview]


class Kind(enum.IntEnum):
    """The kinds of records; include/lef.h has the fields and codes of each."""

    VERSION = 1
    BUSBITCHARS = 2
    DIVIDERCHAR = 3
    NAMESCASESENSITIVE = 4
    NOWIREEXTENSIONATPIN = 5
    UNITS = 6
    DATABASE_MICRONS = 7
    SITE = 8
    SITE_CLASS = 9
    SYMMETRY = 10
    SYMMETRY_WORD = 11
    SIZE = 12
    MACRO = 13
    MACRO_CLASS = 14
    MACRO_SITE = 15
    FOREIGN = 16
    ORIGIN = 17
    PIN = 18
    DIRECTION = 19
    USE = 20
    SHAPE = 21
    ANTENNAMODEL = 22
    ANTENNA = 23
    PORT = 24
    PORT_CLASS = 25
    OBS = 26
    LAYER = 27
    LAYER_OPTION = 28
    WIDTH = 29
    RECT = 30
    POLYGON = 31
    PATH = 32
    POINT = 33
    VIA = 34


class Number(enum.IntEnum):
    """The numbers of the refusals."""

    DONE = 0
    TOO_LONG = 1
    NOT_ASCII = 2
    NO_TOKEN = 3
    WRONG_TOKEN = 4
    NOT_A_KEY = 5
    NOT_ALLOWED = 6
    OTHER_WORD = 7
    NOT_SUPPORTED = 8
    NOT_A_NUMERAL = 9
    SITE_LACKS = 10
    RECORD_ROOM = 11
    TEXT_ROOM = 12
    NOT_WHOLE = 13
    WRONG_RECORD = 14
    LACKING = 15
    INDEX_DIFFERS = 16


# What each number means, from 0 on, and how its place is said; where nothing stands here, it is a byte of the text.
WORDS = (
    "done", "text over 16,777,216 bytes", "a byte above 127", "byte starts no token", "wrong kind of token, or end", "word not a key here",
    "value not allowed", "another word required", "known, not supported", "numeral", "SITE lacks CLASS or SIZE",
    "record or index buffer too small", "text buffer too small",
    "record bytes not a multiple of 36, or index bytes not of 16", "record foreign, or equal to an earlier one",
    "record lacking", "index differs from the one that would be built",
)
PLACES = {
    Number.TOO_LONG: "",
    Number.RECORD_ROOM: ": {} records or entries",
    Number.TEXT_ROOM: ": {} bytes",
    Number.NOT_WHOLE: ": {} bytes",
    Number.WRONG_RECORD: ": record {}",
    Number.LACKING: ": that of the statement at byte {}",
    Number.INDEX_DIFFERS: ": entry {}",
}


class Refusal(Exception):
    """What the library refuses, and where: number, place and line are those of include/lef.h."""

    def __init__(self, number: int, place: int, line: int) -> None:
        super().__init__(number, place, line)
        self.number = number
        self.place = place
        self.line = line

    def __str__(self) -> str:
        words = WORDS[self.number] if self.number < len(WORDS) else "?"
        place = PLACES.get(self.number, " at byte {}").format(self.place)
        return "refused %d (%s)%s%s" % (self.number, words, place, ", line %d" % self.line if self.line else "")


def _part(text: bytes, start: int, length: int) -> bytes:
    """A part of the text; empty where it reaches outside."""
    return text[start : start + length] if start + length <= len(text) else b""


class Record(NamedTuple):
    """A record. Fields that its kind does not use are 0; x and y are in millionths. Bytes 2 and 3, 0 in every reading, are no field."""

    kind: int
    code: int
    at: int
    owner: int
    name_start: int
    name_length: int
    x: int
    y: int

    def name(self, text: bytes) -> bytes:
        """Its name, as a part of the text; empty where it has none, and where its span reaches outside the text."""
        return _part(text, self.name_start, self.name_length)


class Entry(NamedTuple):
    """An entry of an index: each field is that of a record of kind SITE, MACRO or PIN."""

    owner: int
    name_start: int
    name_length: int
    at: int

    def name(self, text: bytes) -> bytes:
        """Its name, as that of a record."""
        return _part(text, self.name_start, self.name_length)


# ---- the library

NAMES = ("liblef.so." + version.split(".")[0], "liblef.so")
_library: Optional[ctypes.CDLL] = None


def load(path: Optional[str] = None) -> ctypes.CDLL:
    """Loads the library from a path, or from where it is looked for. OSError where there is none."""
    global _library
    wanted = path or os.environ.get("LEF_LIBRARY")
    why = []
    for name in (wanted,) if wanted else NAMES:
        try:
            library = ctypes.CDLL(name)
            lent, number, told = [ctypes.c_char_p, ctypes.c_size_t], [ctypes.c_uint64], [ctypes.POINTER(ctypes.c_uint64)]
            for call, takes in (
                ("lef_read", lent * 2), ("lef_check", lent * 2), ("lef_write", lent * 3), ("lef_index", lent * 3), ("lef_index_check", lent * 3),
                ("lef_find", lent * 3 + number + lent + told), ("lef_find_many", lent * 6),
            ):
                function = getattr(library, call)
                function.argtypes = takes + told * 2
                function.restype = ctypes.c_uint64
        except (OSError, AttributeError) as e:
            why.append(str(e))
        else:
            _library = library
            return library
    raise OSError("no LEF library (%s): set LEF_LIBRARY to the path of liblef.so, or install it" % "; ".join(why))


def _asked(call: str, *buffers: Any) -> Tuple[int, int, int]:
    """Number, place and line of a call on these buffers; a number, and what stands for a pointer to one, go as they are."""
    function = getattr(_library or load(), call)
    place, line = ctypes.c_uint64(), ctypes.c_uint64()
    given = [part for b in buffers for part in ((b, len(b)) if hasattr(b, "__len__") else (b,))]
    number = function(*given, ctypes.byref(place), ctypes.byref(line))
    return number, place.value, line.value


def _accepted(call: str, *given: Any) -> None:
    number, place, line = _asked(call, *given)
    if number != Number.DONE:
        raise Refusal(number, place, line)


def _made(call: str, unit: int, *given: bytes) -> bytes:
    """What a call leaves in a buffer: with none it says of how many units it has to be, and is called again with that."""
    out = ctypes.create_string_buffer(0)
    number, place, line = _asked(call, *given, out)
    if number in (Number.RECORD_ROOM, Number.TEXT_ROOM):
        out = ctypes.create_string_buffer(place * unit)
        number, place, line = _asked(call, *given, out)
    if number != Number.DONE:
        raise Refusal(number, place, line)
    return out.raw


def _bytes(what: str, given: Bytes) -> bytes:
    if not isinstance(given, (bytes, bytearray, memoryview)):
        raise TypeError("%s has to be bytes, and is %s" % (what, type(given).__name__))
    return bytes(given)


# ---- the calls


def read_bytes(text: Bytes) -> bytes:
    """The record file of a text: its records by rising `at`."""
    return _made("lef_read", RECORD_SIZE, _bytes("a text", text))


def read(text: Bytes) -> List[Record]:
    """The records of a text by rising `at`."""
    return records(read_bytes(text))


def check(text: Bytes, file: Bytes) -> None:
    """Accepts a record file that holds the records of the text, each once and no others, in any order."""
    _accepted("lef_check", _bytes("a text", text), _bytes("a record file", file))


def write(text: Bytes, file: Bytes) -> bytes:
    """The records of a file that `check` accepts as canonical text."""
    return _made("lef_write", 1, _bytes("a text", text), _bytes("a record file", file))


def index(text: Bytes, file: Bytes) -> bytes:
    """The index of the records of a file that `check` accepts, by which SITE blocks, macros and pins are found."""
    return _made("lef_index", ENTRY_SIZE, _bytes("a text", text), _bytes("a record file", file))


def check_index(text: Bytes, file: Bytes, index: Bytes) -> None:
    """Accepts an index that is the one which `index` gives."""
    _accepted("lef_index_check", _bytes("a text", text), _bytes("a record file", file), _bytes("an index", index))


def find(text: Bytes, file: Bytes, index: Bytes, owner: int, name: Bytes) -> Optional[int]:
    """The `at` of the first SITE block, macro or pin with the owner and the name, or None. LIBRARY owns sites and macros, a macro's `at` its
    pins. Text, file and index are checked at each call: for many names, ask `find_many`."""
    at = ctypes.c_uint64()
    given = _bytes("a text", text), _bytes("a record file", file), _bytes("an index", index)
    # An owner that 32 bits do not hold owns nothing; ctypes would cut one that 64 do not.
    asked = ctypes.c_uint64(owner if 0 <= owner <= LIBRARY else LIBRARY + 1)
    _accepted("lef_find", *given, asked, _bytes("a name", name), ctypes.byref(at))
    return None if at.value == NOWHERE else at.value


def find_many(text: Bytes, file: Bytes, index: Bytes, asked: Iterable[Tuple[Optional[int], Bytes]]) -> List[Optional[int]]:
    """What `find` gives for each owner and name in turn, in one call, which checks text, file and index once. None owns nothing, so that what is
    found may be asked on as an owner."""
    given = _bytes("a text", text), _bytes("a record file", file), _bytes("an index", index)
    names, queries = bytearray(), bytearray()
    for owner, name in asked:
        part = _bytes("a name", name)
        # For an owner that a query does not hold the empty name is asked for, which nothing has.
        if owner is None or not 0 <= owner <= LIBRARY:
            owner, part = LIBRARY, b""
        queries += QUERY_LAYOUT.pack(owner, len(names), len(part))
        names += part
    answers = ctypes.create_string_buffer(len(queries) // QUERY_SIZE * ANSWER_SIZE)
    _accepted("lef_find_many", *given, bytes(names), bytes(queries), answers)
    return [None if at == NOWHERE else at for (at,) in ANSWER_LAYOUT.iter_unpack(answers.raw)]


# ---- record files and indexes, which need no library


def _whole(what: str, size: int, file: Bytes) -> bytes:
    whole = _bytes(what, file)
    if len(whole) % size:
        raise Refusal(Number.NOT_WHOLE, len(whole), 0)
    return whole


def records(file: Bytes) -> List[Record]:
    """The records of a record file."""
    return [Record._make(fields) for fields in LAYOUT.iter_unpack(_whole("a record file", RECORD_SIZE, file))]


def entries(index: Bytes) -> List[Entry]:
    """The entries of an index, by owner, name and `at`."""
    return [Entry._make(fields) for fields in ENTRY_LAYOUT.iter_unpack(_whole("an index", ENTRY_SIZE, index))]


def pack(listed: Iterable[Record]) -> bytes:
    """The record file of these records."""
    return b"".join(LAYOUT.pack(*r) for r in listed)


def array(file: Bytes) -> Any:
    """The records of a record file as an array of numpy, which has to be installed: its fields are those of Record, and `spare` for
    bytes 2 and 3."""
    import numpy

    names = ("kind", "code", "spare", "at", "owner", "name_start", "name_length", "x", "y")
    layout = numpy.dtype(list(zip(names, ("u1", "u1", "<u2", "<u4", "<u4", "<u4", "<u4", "<i8", "<i8"))))
    return numpy.frombuffer(_whole("a record file", RECORD_SIZE, file), layout)
