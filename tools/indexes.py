#!/usr/bin/env python3
"""indexes.py: writes what crates/indexes and crates/netlists replay (stdin) and the answers that they have to print (stdout): questions on
building an index, on checking one and on finding by it, and of netlists on many look-ups in one call; and the answers that the model of the
rules gives, which shares nothing with the library. indexes.py --check: are the stored lines those made here, and does the model confirm the
stored answers?

An index that is asked about is most often picked, entry by entry, from a pool: the entries of the right index, and foreign ones."""
import random
import struct
import sys

sys.dont_write_bytecode = True
import answers
import form
import libraries
import model
import queries
from model import ENTRY, LIBRARY, SIZE

WIDE = 1 << 32
rng = random.Random(16)
libraries.rng.seed(16)
asked = []


def ask(letter, text, file, *fields):
    assert len(text) <= 4096 and len(file) <= 8192
    asked.append(form.line(letter, form.plain(text), file.hex(), *fields))


def of(text):
    """The records of a text that reads, each as its bytes, and its index."""
    records = model.reading(text)
    return model.rows(model.pack(records)), model.index_of(text, records)


def mixed(rows):
    return b"".join(rng.sample(rows, len(rows)))


# ---- the texts
def pins(*names):
    return b"".join(b"PIN %s END %s " % (n, n) for n in names)


def macro(name, inside=b""):
    return b"MACRO %s %sEND %s\n" % (name, inside, name)


def site(name):
    return b"SITE %s CLASS CORE ; SIZE 1 BY 1 ; END %s\n" % (name, name)


LONG = b"n" * 60
TEXTS = [t + b"END LIBRARY" for t in (
    b"",
    b"VERSION 5.8 ; UNITS DATABASE MICRONS 100 ; END UNITS ",
    macro(b"m"),
    site(b"s"),
    macro(b"m", pins(b"a", b"a")),
    macro(b"m", pins(b"b", b"a")) + macro(b"m", pins(b"a", b"b")),
    site(b"x") + macro(b"x", b"SITE x ; FOREIGN x ; PIN x PORT LAYER x ; END END x ") + site(b"X") + site(b"x"),
    macro(b"a", pins(b"ab", b"a", b"abc", b"ab", b"b", b"abcd")) + macro(b"ab") + site(b"abc"),
    macro(b"A", pins(b"a", b"A", b"aA", b"Aa", b"Z", b"z")) + macro(b"a") + site(b"B"),
    macro(b"c", pins(b"a;", b'a"', b"a#", b"a!", b"a", b"a~", b"a\x7f", b"a\x00", b"a\x01", b"a[1]", b"a|", b"a\\")),
    macro(b"END", pins(b"END", b"PIN", b"Library", b"MACRO")) + macro(b"PIN") + site(b"END"),
    macro(LONG, pins(LONG + b"1", LONG, LONG + b"0", LONG[1:])),
    site(b"s") + site(b"r") + macro(b"n", pins(b"q")) + macro(b"m", pins(b"q", b"p", b"q")) + b"VERSION 5.7 ; ",
)]


# ---- building
def ask_building(text, rows, index):
    n = len(index)
    rooms = {0, 1, 15, 16, 17, n + 1, n + 15, n + 16, n + 23} | {r for r in (n - 17, n - 16, n - 1, n) if r >= 0}
    ask("b", text, b"".join(rows), "%04x" % n)
    ask("b", text, b"".join(rows[::-1]), "%04x" % n)
    ask("b", text, mixed(rows), *("%04x" % r for r in sorted(rooms)))


# ---- checking
def changed(entry, **fields):
    values = dict(zip(("owner", "start", "length", "at"), ENTRY.unpack(entry)))
    values.update(fields)
    return ENTRY.pack(*(values[f] % WIDE for f in ("owner", "start", "length", "at")))


def foreign(text, entry):
    """Entries near to one: a field changed, and the same name at other places of the text."""
    owner, start, length, at = ENTRY.unpack(entry)
    name, n = text[start : start + length], len(text)
    yield from (changed(entry, at=v) for v in (at + 1, at - 1, LIBRARY))
    yield from (changed(entry, owner=v) for v in (owner + 1, owner - 1, at))
    yield from (changed(entry, length=v) for v in (0, length + 1, length - 1, LIBRARY))
    yield from (changed(entry, start=v) for v in (start + 1, n, n - length, LIBRARY))
    yield from (changed(entry, start=i) for i in range(n) if i != start and text[i : i + length] == name)


def key(text, entry):
    """By what entries are ordered; a name that reaches outside the text is empty."""
    owner, start, length, at = ENTRY.unpack(entry)
    return owner, text[start : start + length] if start + length <= len(text) else b"", at


def keys_of(text, index):
    return [key(text, e) for e in model.entries(index)]


def families(n):
    """Picks of the n entries of an index: swapped, dropped, doubled, reversed, all alike, shifted, cut and longer by one."""
    every = list(range(n))
    yield every
    yield every[::-1]
    yield every + every
    yield from (every[:i] + [every[i + 1], every[i]] + every[i + 2 :] for i in range(n - 1))
    yield from (every[:i] + every[i + 1 :] for i in range(n))
    yield from (every[:i] + [every[i]] + every[i:] for i in range(n))
    yield from ([i] * n for i in range(n))
    yield from (every[i:] + every[:i] for i in range(1, n))
    yield from (every[:i] for i in range(n))
    yield from (every + [i] for i in range(n))
    yield from (every[:i] + [j] + every[i + 1 :] for i in range(n) for j in (0, n - 1, rng.randrange(n)))
    yield from (rng.sample(every, n) for _ in range(4))


def with_foreign(text, pool, n):
    """Picks with entries of the pool from n on: each in the place of an entry and before it, and some where the index goes on rising."""
    every = list(range(n))
    for f in range(n, len(pool)):
        i = rng.randrange(n + 1)
        yield every[:i] + [f] + every[i + 1 :]
        yield every[:i] + [f] + every[i:]
    for _ in range(2 * (len(pool) - n)):
        some = rng.sample(range(len(pool)), rng.choice((1, 2, n))) + [i for i in every if rng.random() < rng.choice((0.5, 0.9, 1))]
        yield sorted(set(some), key=lambda p: key(text, pool[p]))


def ask_picks(text, rows, index, most, picks):
    """The picks, and those with as many foreign entries at most."""
    held = model.entries(index)
    near = list(dict.fromkeys(f for e in held for f in foreign(text, e)))
    pool = held + rng.sample(near, min(len(near), most))
    picks = [bytes(p).hex() for p in [*picks, *with_foreign(text, pool, len(held))]]
    ask("p", text, mixed(rows), b"".join(pool).hex(), *dict.fromkeys(picks))


def ask_checking(text, rows, index, masks):
    odd = [index, index[:-1], index[1:], index + b"\0", index[:-15], bytes(1), index + bytes(ENTRY.size), index + b"\xff" * ENTRY.size]
    ask("c", text, mixed(rows), *(i.hex() for i in odd + [b"", bytes(len(index)), b"\xff" * len(index)]))
    if index:
        ask("e", text, mixed(rows), index.hex(), *masks)
        ask_picks(text, rows, index, 20, families(len(index) // ENTRY.size))


# ---- finding
def question(owner, name):
    return struct.pack("<Q", owner).hex() + form.plain(name)


def ask_finding(text, rows, index):
    keys = keys_of(text, index)
    owners = sorted({o for o, _, _ in keys} | {at for _, _, at in keys}) + [LIBRARY, LIBRARY - 1, WIDE, WIDE + LIBRARY, 2**64 - 1]
    names = list(dict.fromkeys(name for _, name, _ in keys))
    near = [n.swapcase() for n in names] + [n + b"\0" for n in names] + [n[:-1] for n in names] + [n + b"a" for n in names]
    questions = [(o, n) for o, n, _ in keys] + [(o, rng.choice(names or [b"m"])) for o in owners]
    questions += [(rng.choice(owners), n) for n in rng.sample(near, min(len(near), 12)) + [b"m", b"\xff", b"\x80x", b"q" * 256]]
    questions += [(o, b"") for o in (0, LIBRARY, 2**64 - 1)] + [(o + WIDE, n) for o, n, _ in keys[:2]]
    ask("q", text, mixed(rows), index.hex(), *(question(o, n) for o, n in dict.fromkeys(questions)))


# ---- the order of refusals
def ask_order(text, rows, index):
    """Record files and indexes of every fault beside each other."""
    file = b"".join(rows)
    files = [file, file[:-1], file + b"\0", file + bytes(SIZE), file[SIZE:], file + rows[0] if rows else b""]
    indexes = [index, index + b"\0", index[:-1], index + bytes(ENTRY.size), b""]
    for f in files:
        ask("c", text, f, *(i.hex() for i in indexes))
        ask("b", text, f, "0000", "%04x" % len(index))
        ask("q", text, f, rng.choice(indexes).hex(), question(LIBRARY, b"m"))


for text in TEXTS:
    rows, index = of(text)
    ask_building(text, rows, index)
    ask_checking(text, rows, index, ("01", "80", "ff") if len(index) <= 112 else ("01",))
    ask_finding(text, rows, index)
for text in (TEXTS[0], TEXTS[4], TEXTS[0][:-1], b"@", b"MACRO m \x80"):
    ask_order(text, *(of(text) if text in TEXTS else of(TEXTS[4])))
ask("c", TEXTS[4], b"".join(of(TEXTS[5])[0]), of(TEXTS[4])[1].hex())  # the records, and then the index, of another text
ask("c", TEXTS[4], b"".join(of(TEXTS[4])[0]), of(TEXTS[5])[1].hex())

# ---- libraries by chance
for _ in range(50):
    text, rows = libraries.Text(rng.random() < 0.5).library(libraries.library())
    index = of(text)[1]
    if index and len(rows) <= 20 and len(text) <= 900:
        ask("b", text, mixed(rows), "%04x" % len(index))
        ask_picks(text, rows, index, 6, [])

# ---- the refusals of texts
for text, said in form.readings():
    if said.startswith("refusal ") and rng.random() < 0.3:
        letter, field = rng.choice((("b", "0010"), ("c", ""), ("c", "00")))
        ask(letter, text, bytes(rng.choice((0, 1, SIZE))), field)

# ---- long texts
LONG_TEXTS = [b"".join(v.to_bytes(3, "little") for v in given).hex() for given in (
    (1, 0, 1, 0, 0), (2, 1, 2, 1, 0), (1000, 1, 1000, 500, 499), (1000, 999, 1000, 999, 0), (1000, 0, 1, 1, 0), (1000, 7, 10, 300, 9),
    (4096, 1023, 4096, 2048, 4095), (20000, 7919, 20000, 19999, 12345), (20000, 7919, 20000, 7, 7))]
asked += (form.line("m", given) for given in LONG_TEXTS)
alone, asked = asked, []

# ---- many look-ups in one call
def ask_many(text, rows, index, questions):
    ask("n", text, mixed(rows), index.hex(), *questions)


for text in TEXTS:
    rows, index = of(text)
    ask_many(text, rows, index, queries.crossed(keys_of(text, index), 60))
for i in (0, 2):
    ask_many(TEXTS[i], *of(TEXTS[i]), queries.none())
ask_many(TEXTS[2], *of(TEXTS[2]), [queries.edges(block, LIBRARY) for block in (b"m", b"mm", b"xm", b"m\xff", b"")])
ask_many(TEXTS[7], *of(TEXTS[7]), [queries.within(b"abcdab", 6, (0, LIBRARY)), queries.edges(b"abcd", 0)])
ask_many(TEXTS[9], *of(TEXTS[9]), [queries.within(b"\xffa\x00a|a\\\x80a\x7fa:a\nma;c", 3, (0, LIBRARY))])
ask_many(TEXTS[12], *of(TEXTS[12]), queries.rooms(b"spq", [(LIBRARY, 0, 1), (TEXTS[12].index(b"MACRO m"), 1, 1), (LIBRARY, 0, 3)]))
for file, index in queries.faults(*of(TEXTS[4])):
    for text in (TEXTS[4], rng.choice((TEXTS[4][:-1], b"@", b"MACRO m \x80"))):
        ask("n", text, file, index.hex(), *queries.FAULTS)
for _ in range(40):
    text, rows = libraries.Text(rng.random() < 0.5).library(libraries.library())
    index = of(text)[1]
    if index and len(rows) <= 40 and len(text) <= 900:
        ask_many(text, rows, index, queries.crossed(keys_of(text, index), 40))
for text, said in form.readings():
    if said.startswith("refusal ") and rng.random() < 0.1:
        ask("n", text, bytes(rng.choice((0, 1, SIZE))), bytes(rng.choice((0, 1, ENTRY.size))).hex(), rng.choice(queries.FAULTS))
asked += (form.line("l", given) for given in LONG_TEXTS)

BOTH = ("indexes", alone), ("netlists", asked)
if sys.argv[1:] == ["--check"]:
    sys.exit(not all([answers.checked(program, lines) for program, lines in BOTH]))
for program, lines in BOTH:
    form.store(program, lines, [answers.indexes(q) for q in lines])
