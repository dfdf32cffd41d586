#!/usr/bin/env python3
"""module.py LIBLEF_SO: tests examples/lef.py with that library: its constants beside include/lef.h, answers that are written here by hand
from the rules, and the sample beside the model of the rules (tools/model). Ends with 0 if nothing was wrong."""
import os
import pickle
import re
import sys

sys.dont_write_bytecode = True
ROOT = os.path.join(os.path.dirname(os.path.abspath(__file__)), "..")
sys.path[:0] = [os.path.join(ROOT, "examples"), os.path.join(ROOT, "tools")]
import lef
import model
from lef import LIBRARY, Entry, Kind, Record

tried = wrong = 0


def expect(what, found, wanted):
    global tried, wrong
    tried += 1
    if found != wanted:
        wrong += 1
        print("%s: %r, not %r" % (what, found, wanted))


def raised(error, call, *given):
    """The error that a call raises, or None."""
    try:
        call(*given)
    except error as e:
        return e


def refused(number, place, line, words, call, *given):
    e = raised(lef.Refusal, call, *given)
    expect(words, e and (e.number, e.place, e.line), (number, place, line))
    expect("its words", str(e), words)


def of_repository(*path):
    with open(os.path.join(ROOT, *path), "rb") as f:
        return f.read()


# ---- the constants, by the header

HEADER = of_repository("include", "lef.h").decode("ascii")
DEFINED = {name: int(value) for name, value in re.findall(r"^#define LEF_(\w+) +(\d+)u?(?= |$)", HEADER, re.M)}
OFFSETS = {name: DEFINED.pop(name.upper()) for name in ("spare",) + Record._fields}
ENTRY_OFFSETS = [DEFINED.pop("ENTRY_" + name) for name in ("OWNER", "NAME", "LEN", "AT")]
QUERY_OFFSETS = [DEFINED.pop("QUERY_" + name) for name in ("OWNER", "START", "LEN")]


def constants():
    ours = {k.name: k.value for k in [*lef.Kind, *lef.Number]}
    sizes = "RECORD_SIZE", "LIBRARY", "TEXT_LIMIT", "ENTRY_SIZE", "NOWHERE", "QUERY_SIZE", "ANSWER_SIZE"
    ours.update({name: getattr(lef, name) for name in sizes})
    expect("constants of the header", len(DEFINED) > 50, True)
    for name in sorted(set(DEFINED) | set(ours)):
        if name != "H_NUMBER" and not name.startswith("TOKEN_") and not name.endswith("_STACK"):
            expect(name, ours.get(name), DEFINED.get(name))
    said = re.search(r"WHY\[\] = \{(.*?)\};", of_repository("command", "refusals.c").decode("ascii"), re.S)[1]
    expect("the words of refusals, as the command has them", list(lef.WORDS), re.findall(r'"(.*?)"', said))
    expect("version", lef.version, re.search(r'^#define LEF_H_VERSION "(.*)"$', HEADER, re.M)[1])


# ---- record files

VIA = Record(34, 26, 0x12345678, LIBRARY, 0x84030201, 33, -1, -(1 << 63))
VIA_BYTES = bytes([34, 26, 0, 0, 0x78, 0x56, 0x34, 0x12, 255, 255, 255, 255, 1, 2, 3, 0x84, 33, 0, 0, 0] + 8 * [255] + 7 * [0] + [0x80])


def files():
    expect("a record", lef.records(VIA_BYTES), [VIA])
    expect("its bytes", lef.pack([VIA]), VIA_BYTES)
    expect("no records", lef.records(b""), [])
    refused(13, 37, 0, "refused 13 (record bytes not a multiple of 36, or index bytes not of 16): 37 bytes", lef.records, VIA_BYTES + b"0")
    expect("a name", Record(Kind.PIN, 0, 0, 0, 4, 3, 0, 0).name(b"PIN abc"), b"abc")
    expect("a name that reaches outside", Record(Kind.PIN, 0, 0, 0, 4, 4, 0, 0).name(b"PIN abc"), b"")
    expect("an entry", lef.entries(bytes(range(1, 17))), [Entry(0x04030201, 0x08070605, 0x0C0B0A09, 0x100F0E0D)])
    expect("where its fields start", ENTRY_OFFSETS, [0, 4, 8, 12])
    expect("where a query's fields start", QUERY_OFFSETS, [0, 4, 8])
    expect("its name", (Entry(0, 4, 3, 0).name(b"PIN abc"), Entry(0, 4, 4, 0).name(b"PIN abc")), (b"abc", b""))
    refused(13, 17, 0, "refused 13 (record bytes not a multiple of 36, or index bytes not of 16): 17 bytes", lef.entries, bytes(17))


def arrays():
    try:
        import numpy
    except ImportError:
        print("lef.py: no numpy on this machine; lef.array is not tried")
        return expect("array without numpy", raised(ImportError, lef.array, b"") is None, False)
    a = lef.array(2 * VIA_BYTES)
    expect("an array", (type(a), a.shape, a.dtype.itemsize), (numpy.ndarray, (2,), 36))
    expect("where its fields start", {name: a.dtype.fields[name][1] for name in a.dtype.names}, OFFSETS)
    for name in Record._fields:
        expect("field " + name, a[name].tolist(), 2 * [getattr(VIA, name)])
    expect("an empty array", lef.array(b"").shape, (0,))
    refused(13, 35, 0, "refused 13 (record bytes not a multiple of 36, or index bytes not of 16): 35 bytes", lef.array, VIA_BYTES[1:])
    file = lef.read_bytes(of_repository("sample", "cells.lef"))
    expect("the sample's array", [Record(*(int(row[name]) for name in Record._fields)) for row in lef.array(file)], lef.records(file))


# ---- the calls

SITE = b"SITE s\nCLASS CORE ;\nSIZE 1.5 BY 2 ;\nEND s\nEND LIBRARY\n"
WRITTEN = b"SITE s\n  CLASS CORE ;\n  SIZE 1.5 BY 2 ;\nEND s\nEND LIBRARY\n"
RECORDS = [Record(8, 0, 0, LIBRARY, 5, 1, 0, 0), Record(9, 2, 7, 0, 0, 0, 0, 0), Record(12, 0, 20, 0, 0, 0, 1500000, 2000000)]


def reading():
    expect("read", lef.read(SITE), RECORDS)
    expect("read_bytes", lef.read_bytes(SITE), lef.pack(RECORDS))
    expect("a bytearray", lef.read(bytearray(SITE)), RECORDS)
    expect("a memoryview", lef.read(memoryview(b"  " + SITE)[2:]), RECORDS)
    expect("a text with no records", lef.read(b"END LIBRARY"), [])
    longest = b"END LIBRARY".ljust(lef.TEXT_LIMIT)
    expect("the longest text", lef.read(longest), [])
    refused(1, 0, 0, "refused 1 (text over 16,777,216 bytes)", lef.read, longest + b" ")
    refused(2, 12, 0, "refused 2 (a byte above 127) at byte 12", lef.read, b"END LIBRARY \x80")
    refused(3, 11, 3, "refused 3 (byte starts no token) at byte 11, line 3", lef.read, b"MACRO m\n\n  @")
    refused(4, 0, 1, "refused 4 (wrong kind of token, or end) at byte 0, line 1", lef.read, b"")
    refused(8, 17, 1, "refused 8 (known, not supported) at byte 17, line 1", lef.read_bytes, b"UNITS CAPACITANCE")


def checking():
    changed = lef.pack([RECORDS[0], RECORDS[1], RECORDS[2]._replace(x=1500001)])
    twice = lef.pack([RECORDS[0], RECORDS[1], RECORDS[1]])
    foreign = "refused 14 (record foreign, or equal to an earlier one): record 2"
    lacking = "refused 15 (record lacking): that of the statement at byte 20"
    expect("check", lef.check(SITE, lef.pack(RECORDS)), None)
    expect("another order", lef.check(SITE, lef.pack(reversed(RECORDS))), None)
    refused(14, 2, 0, foreign, lef.check, SITE, changed)
    refused(14, 2, 0, foreign, lef.check, SITE, twice)
    refused(15, 20, 0, lacking, lef.check, SITE, lef.pack(RECORDS[:2]))
    refused(13, 107, 0, "refused 13 (record bytes not a multiple of 36, or index bytes not of 16): 107 bytes", lef.check, SITE, lef.pack(RECORDS)[:-1])
    refused(3, 0, 1, "refused 3 (byte starts no token) at byte 0, line 1", lef.check, b"@", b"0")
    expect("write", lef.write(SITE, lef.pack(reversed(RECORDS))), WRITTEN)
    expect("no records to write", lef.write(b" END LIBRARY", b""), b"END LIBRARY\n")
    refused(14, 2, 0, foreign, lef.write, SITE, changed)
    refused(15, 20, 0, lacking, lef.write, SITE, lef.pack(RECORDS[:2]))


# Two macros of one name, two pins of one name, a name that begins another, letters of both cases, and a macro's SITE, which has no entry.
NAMES = b"MACRO m SITE s ; PIN ab END ab PIN a END a PIN A END A PIN a END a END m SITE s CLASS CORE ; SIZE 1 BY 1 ; END s MACRO m END m END LIBRARY"


def many(file, index, looked_for):
    """All of them in one call, as they are, from the last to the first, and each of them many times."""
    for what, of in ("find_many", looked_for), ("the last first", looked_for[::-1]), ("many times", 1000 * looked_for):
        expect(what, lef.find_many(NAMES, file, index, [(owner, name) for owner, name, _ in of]), [at for _, _, at in of])
    expect("nothing asked", lef.find_many(NAMES, file, index, []), [])
    expect("what is given but once", lef.find_many(NAMES, file, index, iter([(0, b"a")])), [31])
    expect("None as an owner", lef.find_many(NAMES, file, index, [(None, b"m"), (LIBRARY, b"m"), (None, b"")]), [None, 0, None])
    expect("any bytes", lef.find_many(NAMES, file, index, [(0, b"a\0"), (0, b"\xff"), (0, b"a" * 70000), (0, b"a")]), [None, None, None, 31])
    expect("no records", lef.find_many(b"END LIBRARY", b"", b"", [(LIBRARY, b"m")]), [None])


def finding():
    file = lef.read_bytes(NAMES)
    index = lef.index(NAMES, file)
    wanted = [(0, b"A", 43), (0, b"a", 31), (0, b"a", 55), (0, b"ab", 17), (LIBRARY, b"m", 0), (LIBRARY, b"m", 113), (LIBRARY, b"s", 73)]
    expect("entries", [(e.owner, e.name(NAMES), e.at) for e in lef.entries(index)], wanted)
    expect("another order", lef.index(NAMES, lef.pack(reversed(lef.records(file)))), index)
    expect("no entries", lef.index(b"END LIBRARY", b""), b"")
    expect("check_index", lef.check_index(NAMES, file, index), None)
    looked_for = (
        (LIBRARY, b"m", 0), (LIBRARY, b"s", 73), (0, b"a", 31), (0, b"ab", 17), (0, b"A", 43), (0, b"s", None), (0, b"AB", None), (0, b"", None),
        (113, b"a", None), (LIBRARY, b"a", None), (LIBRARY + 1, b"a", None), (1 << 64, b"a", None), (-1, b"m", None), (0, bytearray(b"a"), 31),
    )
    for owner, name, at in looked_for:
        expect("find %d %r" % (owner, name), lef.find(NAMES, file, index, owner, name), at)
    many(file, index, looked_for)
    swapped = index[16:32] + index[:16] + index[32:]
    differs = "refused 16 (index differs from the one that would be built): entry "
    for call, more in (lef.check_index, ()), (lef.find, (0, b"a")), (lef.find_many, ([(0, b"a")],)), (lef.find_many, ([],)):
        refused(16, 0, 0, differs + "0", call, NAMES, file, swapped, *more)
        refused(16, 6, 0, differs + "6", call, NAMES, file, index[:-16], *more)
        refused(13, 111, 0, "refused 13 (record bytes not a multiple of 36, or index bytes not of 16): 111 bytes", call, NAMES, file, index[1:], *more)
        refused(15, 0, 0, "refused 15 (record lacking): that of the statement at byte 0", call, NAMES, b"", index, *more)
        refused(3, 0, 1, "refused 3 (byte starts no token) at byte 0, line 1", call, b"@", file, index, *more)
    refused(14, 0, 0, "refused 14 (record foreign, or equal to an earlier one): record 0", lef.index, NAMES, lef.pack([VIA]))
    text = of_repository("sample", "cells.lef")
    file = lef.read_bytes(text)
    named = sorted((r.owner, r.name(text), r.at) for r in lef.records(file) if r.kind in (Kind.SITE, Kind.MACRO, Kind.PIN))
    index = lef.index(text, file)
    expect("the sample's index", [(e.owner, e.name(text), e.at) for e in lef.entries(index)], named)
    # each name with each owner of the sample; of several of one name the least `at` is kept last
    first = {(owner, name): at for owner, name, at in reversed(named)}
    asked = [(owner, name) for name in sorted({name for _, name, _ in named}) for owner in {owner for owner, _, _ in named}]
    expect("the sample's names", lef.find_many(text, file, index, asked), [first.get(pair) for pair in asked])


def by_the_model():
    text = of_repository("sample", "cells.lef")
    file = lef.read_bytes(text)
    expect("the sample's records", file == model.pack(model.reading(text)), True)
    written = lef.write(text, file)
    expect("the sample, written", written == model.canonical(text, model.reading(text)), True)
    again = lef.read(written)
    expect("it reads back", model.aside(written, model.unpack(lef.pack(again))), model.aside(text, model.unpack(file)))
    expect("and is written as it is", lef.write(written, lef.pack(again)) == written, True)


# ---- what is not bytes, and no library


def errors():
    for what, call, given in (
        ("a text", lef.read, ("END LIBRARY",)), ("a text", lef.check, ("END LIBRARY", b"")), ("a text", lef.write, ("END LIBRARY", b"")),
        ("a record file", lef.check, (SITE, "")), ("a record file", lef.write, (SITE, "")), ("a record file", lef.records, ("",)),
        ("a text", lef.index, ("", b"")), ("a record file", lef.index, (SITE, "")), ("an index", lef.check_index, (SITE, b"", "")),
        ("a name", lef.find, (SITE, b"", b"", 0, "a")), ("an index", lef.entries, ("",)), ("a text", lef.find_many, ("", b"", b"", [])),
        ("an index", lef.find_many, (SITE, b"", "", [])), ("a name", lef.find_many, (SITE, b"", b"", [(None, "a")])),
    ):
        expect(call.__name__, str(raised(TypeError, call, *given)), what + " has to be bytes, and is str")
    expect("a number for a text", str(raised(TypeError, lef.read, 36)), "a text has to be bytes, and is int")
    kept = pickle.loads(pickle.dumps(lef.Refusal(8, 55, 3)))
    expect("a refusal that is sent on", (type(kept), str(kept)), (lef.Refusal, "refused 8 (known, not supported) at byte 55, line 3"))
    expect("a refusal to come", str(lef.Refusal(99, 1, 2)), "refused 99 (?) at byte 1, line 2")


def no_library():
    plain = r"no LEF library \((.*)\): set LEF_LIBRARY to the path of liblef.so, or install it"
    lef._library, lef.NAMES = None, ("no-liblef.so.1", "no-liblef.so")
    os.environ.pop("LEF_LIBRARY", None)
    said = re.fullmatch(plain, str(raised(OSError, lef.read, SITE)))
    expect("none where the loader looks", said and [name in said[1] for name in lef.NAMES], [True, True])
    os.environ["LEF_LIBRARY"] = os.path.join(ROOT, "no-such-folder", "liblef.so")
    said = re.fullmatch(plain, str(raised(OSError, lef.read, SITE)))
    expect("none at LEF_LIBRARY", said and "no-such-folder" in said[1], True)
    said = re.fullmatch(plain, str(raised(OSError, lef.load, __file__)))
    expect("a file that is no library", said and __file__ in said[1], True)
    said = re.fullmatch(plain, str(raised(OSError, lef.load, "libc.so.6")))
    expect("a library without the calls", said and "lef_read" in said[1], True)
    os.environ["LEF_LIBRARY"] = sys.argv[1]
    expect("the one at LEF_LIBRARY", lef.read(SITE), RECORDS)


def main():
    lef.load(sys.argv[1])
    for trial in constants, files, reading, checking, finding, by_the_model, arrays, errors, no_library:
        trial()
    print("lef.py: %d tried, %d wrong" % (tried, wrong))
    return wrong != 0


if __name__ == "__main__":
    sys.exit(main())
