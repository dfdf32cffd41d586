#!/usr/bin/env python3
"""words.py: writes what follows from the word lists of crates/word/specs/Words.antt: the stems, keys and counts of specs/Lookup.antt,
the numbers of src/names.rt, the tables of src/nodes.rt, src/spelling.rt and src/slots.rt, and in src/slots.rt the slot of a name, by shifts that
a search finds. Run at the repository's root after a change of those lists, then `rt fmt` in crates/word. Where the number of words or nodes
changed, the numbers in proofs/nodes and proofs/spelling are to be changed as well. The proofs, and not this script, say that the tables are right."""
import itertools
import re

WORDS = "crates/word/specs/Words.antt"
LOOKUP = "crates/word/specs/Lookup.antt"
NAMES = "crates/word/src/names.rt"
NODES = "crates/word/src/nodes.rt"
SPELT = "crates/word/src/spelling.rt"
SLOTS = "crates/word/src/slots.rt"


def listed(name):
    text = open(WORDS).read()
    text = text[text.index("\n%s =" % name):]
    return re.findall(r'"([A-Z0-9]+)"', text[: text.index("[]")])


keys, values = listed("keys"), listed("values")
words = keys + values
stems = []
for w in words:
    for n in range(6, len(w), 6):
        if w[:n] not in words and w[:n] not in stems:
            stems.append(w[:n])
nodes = words + stems
number = {w: k for k, w in enumerate(nodes, 1)}


def marked(stretch):
    sum = 1
    for c in reversed(stretch):
        sum = 256 * sum + ord(c)
    return sum


def key(w):
    n = 6 * ((len(w) - 1) // 6)
    return number.get(w[:n], 0) + 256 * marked(w[n:])


def rows(items, width):
    out, line = [], ""
    for item in items:
        if line and len(line) + len(item) > width:
            out.append("    " + line.rstrip())
            line = ""
        line += item + " "
    return "\n".join(out + ["    " + line.rstrip()])


def replaced(path, start, stop, middle):
    text = open(path).read()
    a = text.index(start) + len(start)
    b = text.index(stop, a)
    open(path, "w").write(text[:a] + middle + text[b:])


replaced(LOOKUP, "\nstems =\n", "\n\n", rows(['"%s" ∷' % s for s in stems] + ["[]"], 140))
replaced(LOOKUP, "\nkeyed =\n", "\n\n", rows(["0x%x ∷" % key(w) for w in nodes] + ["[]"], 140))
replaced(LOOKUP, "\nword_count = ", "\n", str(len(words)))
replaced(LOOKUP, "\nnode_count = ", "\n", str(len(nodes)))
with open(NAMES, "w") as f:
    f.write("// The number of each word: the key words first, then the words of values and those that stand inside UNITS.\n")
    f.write("// Numbers and no enum, since the definitions number the words by their place, and the tables are read by these numbers.\n")
    f.write("pub const KEYS: u8 = %d;\n\npub const WORDS: u8 = %d;\n\n" % (len(keys), len(words)))
    f.write("\n".join("pub const %s: u8 = %d;\n" % (w, k) for k, w in enumerate(words, 1)))


def table(path, name, form, rows):
    """A static array: its length, and its rows, one a line."""
    text = open(path).read()
    start = re.search(r"static %s: \[%s; \d+\] = \[\n" % (name, re.escape(form)), text)[0]
    replaced(path, start, "];", "".join("    %s,\n" % row for row in rows))
    text = open(path).read()
    open(path, "w").write(text.replace(start, "static %s: [%s; %d] = [\n" % (name, form, len(rows))))


table(NODES, "NODES", "(u64, u8)", ["(0x%x, %d)" % row for row in sorted((key(w), k) for k, w in enumerate(nodes, 1))])


def number_of(letters):
    return int.from_bytes(letters.encode(), "little")


def letters(w):
    eights = [number_of(w[8 * n:8 * n + 8]) for n in range(4)]
    return "Letters(%d, [%s])" % (len(w), ", ".join("0x%x" % e if e else "0" for e in eights))


table(SPELT, "TABLE", "Letters", [letters(w) for w in [""] + words])


def apart(slot, names):
    """The word of each slot, where no two words share one."""
    held = {}
    for w in names:
        if held.setdefault(slot(w), w) != w:
            return None
    return held


def found(names, sizes, choices, slot):
    """The first size and shifts that keep the words apart, and the slots."""
    for size in sizes:
        for shifts in choices:
            held = apart(lambda w: slot(w, shifts) % size, names)
            if held:
                return size, shifts, held
    raise SystemExit("words.py: no shifts keep the words apart")


def mixed(w, shifts):
    n = number_of(w)
    for s in shifts:
        n ^= number_of(w) >> s
    return n


def slots(name, size, held, slot):
    """The words of the slots, 0 where there is none, and in the function the slot."""
    table(SLOTS, name.upper(), "u8", [number[held[h]] if h in held else 0 for h in range(size)])
    replaced(SLOTS, "    %s[(" % name.upper(), " as usize]", "(%s) %% %d)" % (slot, size))


choices = itertools.chain(*(itertools.combinations(range(1, 64), n) for n in (3, 4, 5)))
size, shifts, held = found([w for w in words if len(w) <= 8], [512], choices, mixed)
slots("short", size, held, "w ^ " + " ^ ".join("(w >> %d)" % s for s in shifts))
choices = list(itertools.product(range(64), range(64)))
size, (s, t), held = found([w for w in words if 8 < len(w) <= 16], [32, 64, 128], choices, lambda w, c: (number_of(w[:8]) >> c[0]) ^ (number_of(w[8:]) >> c[1]))
slots("long", size, held, "(w >> %d) ^ (v >> %d)" % (s, t))
