#!/usr/bin/env python3
"""checks.py: writes the checks that crates/checks replays (stdin) and the answers that it has to print (stdout). No answer comes from
the library: the readings are those of tools/readings, which the original gave, or are plain from the rules (a long text of one
statement many times over); 13, 14 and 15 are told by the model of the rules. checks.py --check: are the stored lines those made here,
and does the model, which reads the texts itself, confirm the stored answers?"""
import itertools
import random
import sys

sys.dont_write_bytecode = True
import answers
import form
import model

rng = random.Random(36)
asked, wanted = [], []


def packed(printed):
    return model.pack([model.parsed(printed)])


def answer(reading, file):
    """The reading's refusal, or what is told of the file."""
    return reading if isinstance(reading, str) else answers.numbers(model.agreement(reading, file))


def ask(text, reading, file):
    assert len(text) <= 4096 and len(file) <= 4096
    asked.append(form.line("c", form.plain(text), file.hex()))
    wanted.append(answer(reading, file))


readings = []
for text, said in form.readings():
    if said.startswith("refusal "):
        reading = said[8:] + " "
    else:
        reading = [packed(r) for r in said.split(";")] if said else []
    readings.append((text, reading))

# ---- every reading: its own file, and files near to it
for text, reading in readings:
    if isinstance(reading, str):
        ask(text, reading, bytes(rng.choice([0, 1, model.SIZE, model.SIZE + 1])))
        continue
    rs, own = reading, b"".join(reading)
    near = [rs[::-1], rs[1:], rs[:-1], rs + rs[:1], rs[:1] + rs, rs[1:] + rs[-1:], rng.sample(rs, len(rs))]
    near = [b"".join(f) for f in near] + [own[:-1], own + b"\0"]
    if own:
        i = rng.randrange(len(own))
        near.append(own[:i] + bytes([own[i] ^ 1 << rng.randrange(8)]) + own[i + 1 :])
    for file in [own] + rng.sample(near, 2):
        ask(text, reading, file)

# ---- the site of the rules: every choice of up to four of its records, and every byte changed
site = b"SITE s\nCLASS CORE ;\nSIZE 1.5 BY 2 ;\nEND s\nEND LIBRARY\n"
rs = [packed("8 0 0 - 5 1 0 0"), packed("9 2 7 0 0 0 0 0"), packed("12 0 20 0 0 0 1500000 2000000")]
for n in range(5):
    for choice in itertools.product(rs, repeat=n):
        ask(site, rs, b"".join(choice))
for order in (rs, [rs[2], rs[0], rs[1]]):
    file = b"".join(order)
    for i in range(len(file)):
        ask(site, rs, file[:i] + bytes([file[i] ^ 1 << rng.randrange(8)]) + file[i + 1 :])
for n in [1] + [i * model.SIZE + j for i in (1, 2, 3) for j in (-1, 0, 1)][:-1]:
    ask(site, rs, b"".join(rs)[:n])
# two of one place, one in place of the other
other = bytearray(rs[1])
other[2] = 1
for order in itertools.permutations([rs[0], rs[1], rs[2], bytes(other)]):
    ask(site, rs, b"".join(order))
    ask(site, rs, b"".join(order[:3]))

# ---- no records; and texts that are refused before anything of the file is looked at
for file in (b"", b"\0", bytes(model.SIZE), bytes(2 * model.SIZE), rs[0], rs[0][:-1]):
    ask(b"END LIBRARY", [], file)
    ask(b"", "4 0 1 ", file)
    ask(b"END LIBRARY @", "3 12 1 ", file)
    ask(b"END \x80LIBRARY", "2 4 0 ", file)
    ask(site[:-12], "4 42 5 ", file)


# ---- long texts: n statements of 12 bytes each, so that the windows' edges are passed
LONGEST = 40001
STATEMENTS = [model.pack([model.record(model.Kind.VERSION, 12 * k, model.LIBRARY, x=5 * model.MILLION)]) for k in range(LONGEST + 1)]


def long(n, held, step, odd, put):
    file = [STATEMENTS[put if i == odd else i * step % n] for i in range(held)]
    asked.append(form.line("m", b"".join(v.to_bytes(3, "little") for v in (n, held, step, odd, put)).hex()))
    wanted.append(answer(STATEMENTS[:n], b"".join(file)))


never = (1 << 24) - 1
for n in (1, 2, 63, 64, 65, 128, 16383, 16384, 16385, 32768, LONGEST):
    long(n, n, 1, never, 0)
    long(n, n, n - 1, never, 0)
    long(n, n - 1, 1, never, 0)
    long(n, n + 1, 1, n, n)
    long(n, n + 1, 1, n, n // 2)
    long(n, 0, 1, never, 0)
n = LONGEST
for step in (3, 20000, 39999):
    long(n, n, step, never, 0)
    long(n, n - 1, step, never, 0)
    for odd in (0, 16384, n - 1):
        for put in (0, 16383, 16384, 32768, n):
            long(n, n, step, odd, put)

if sys.argv[1:] == ["--check"]:
    sys.exit(not answers.checked("checks", asked))
form.store("checks", asked, wanted)
