#!/usr/bin/env python3
"""writes.py: writes what crates/writes replays (stdin) and the answers that it has to print (stdout). No answer comes from the library: a
tree of statements is laid out twice by libraries.py, by the rules of writing and in disorder, and each text's record file is known from
that. Refusals of other texts are those of tools/readings, which the original gave. writes.py --check: are the stored lines those made
here, and does the model, which reads the texts and writes them itself, confirm the stored answers?"""
import sys

sys.dont_write_bytecode = True
import answers
import form
import model
from libraries import NUMBERS, Statement, Text, geometry, layer, library, number, rng, size, some
from model import CODES, MICRONS, SIZE, VERSIONS
from model import Kind as K

asked, wanted = [], []


def laid(answer, text, room):
    return answer + text.ljust(room, b"~").hex()


def ask(text, file, room, answer):
    assert len(text) <= 4096 and len(file) <= 8192 and room <= 4096, (len(text), len(file), room)
    asked.append(form.line("w", "%04x" % room, form.plain(text), file.hex()))
    wanted.append(answer)


def refused(number, place, line, room):
    return laid("%d %d %d " % (number, place, line), b"", room)


def written(text, records, canonical, few):
    n = len(canonical)
    rooms = [0, n - 1, n, n + 1, n + 9]
    for room in rng.sample(rooms, 2) if few else rooms:
        mixed = b"".join(rng.sample(records, len(records)))
        if n <= room:
            ask(text, mixed, room, laid("0 %d 0 " % n, canonical, room))
        else:
            ask(text, mixed, room, refused(12, n, 0, room))


def every(kinds, make=Statement):
    """A statement for each code of these kinds."""
    return [make(k, c) for k in kinds for c in range(1, len(CODES[k]) + 1)]


def of_macro(*inside):
    return [Statement(K.MACRO, name=b"m", inside=inside)]


def of_pin(*inside):
    return of_macro(Statement(K.PIN, name=b"p", inside=inside))


def each_statement():
    """Trees that have each statement with each code."""
    yield []
    yield [Statement(K.VERSION, x=x) for x in VERSIONS]
    yield [Statement(K.VERSION, x=VERSIONS[4])] + every([K.NAMESCASESENSITIVE, K.NOWIREEXTENSIONATPIN])
    for a, b in [(91, 93), (10, 59), (35, 10), (59, 35), (0, 127), (32, 9)]:
        yield [Statement(K.BUSBITCHARS, name=bytes([a, b])), Statement(K.DIVIDERCHAR, name=bytes([b]))]
    yield [Statement(K.UNITS, inside=[Statement(K.DATABASE_MICRONS, x=x) for x in MICRONS])]
    yield [Statement(K.SITE, name=b"s", inside=every([K.SITE_CLASS]) + [size()] + [Statement(K.SYMMETRY, inside=every([K.SYMMETRY_WORD]))])]
    yield of_macro(*every([K.MACRO_CLASS]))
    yield of_pin(*every([K.DIRECTION, K.USE, K.SHAPE, K.ANTENNAMODEL]))
    for n in (b"", b"l;"):
        yield of_pin(*every([K.ANTENNA], lambda k, c: Statement(k, c, x=number(), name=n)))
    yield of_pin(Statement(K.PORT, inside=every([K.PORT_CLASS]) + [layer()]))
    options = every([K.LAYER_OPTION], lambda k, c: Statement(k, c, x=number() if c > 1 else 0))
    yield of_macro(Statement(K.OBS, inside=[Statement(K.LAYER, name=b"l", inside=options + some(6, geometry))]))
    for a in NUMBERS:
        for b in (0, 1):
            yield of_macro(Statement(K.FOREIGN, 1, b"f", a, b), Statement(K.FOREIGN, 0, b"f"), Statement(K.ORIGIN, x=a, y=b), size())


def ask_tree(tree, few):
    canonical, canon_records = Text(True).library(tree)
    text, records = Text(False).library(tree)
    n, file = len(canonical), b"".join(records)
    if n + 9 > 4096 or len(text) > 4096 or few and len(records) > 60:
        return
    written(text, records, canonical, few)
    # what was written is read as the same records, and written as it is
    ask(canonical, b"".join(rng.sample(canon_records, len(canon_records))), n, laid("0 %d 0 " % n, canonical, n))
    # files that the checker refuses: nothing is written
    ask(text, file + bytes(SIZE), n, refused(14, len(records), 0, n))
    if records:
        k = rng.randrange(len(records))
        ask(text, b"".join(records[:k] + records[k + 1 :]), n, refused(15, model.unpack(records[k])[0].at, 0, n))
        ask(text, file[:-1], 40, refused(13, len(file) - 1, 0, 40))

trees = [(tree, False) for tree in each_statement()] + [(library(), True) for _ in range(85)]
for tree, few in trees:
    ask_tree(tree, few)

# ---- the refusals of texts
for text, said in form.readings():
    if said.startswith("refusal "):
        ask(text, b"", 16, refused(*map(int, said[8:].split()), 16))

if sys.argv[1:] == ["--check"]:
    sys.exit(not answers.checked("writes", asked))
form.store("writes", asked, wanted)
