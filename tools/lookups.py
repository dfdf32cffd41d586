#!/usr/bin/env python3
"""lookups.py: writes crates/lookups/stdin and crates/lookups/stdout: questions on record files, and the answers that the model of the rules
gives, which shares nothing with the library. lookups.py --check: are the stored lines those made here, and does the model confirm the
stored answers?

A record file is a list of records; a record is kind, code, at, owner, name start and name length, and the rest of its bytes is noise."""
import random
import struct
import sys

sys.dont_write_bytecode = True
import answers
import form
import model
from model import LIBRARY, SIZE
from model import Kind as K

LIMIT = 0xFFFFFFFF
random.seed(36)


def pack(records):
    noise = random.Random(len(records))
    signed = lambda v: v - (1 << 64) if v >> 63 else v
    out = []
    for kind, code, at, owner, start, length in records:
        spare, x, y = noise.getrandbits(16), signed(noise.getrandbits(64)), signed(noise.getrandbits(64))
        out.append(model.record(kind, at, owner, code, start, length, x, y, spare))
    return model.pack(out)


QUESTIONS = []


def ask_force(data, owner, kind, code):
    QUESTIONS.append(form.line('f', struct.pack('<Q', owner).hex(), '%02x' % kind, '%02x' % code, data.hex()))


def ask_names(text, data):
    QUESTIONS.append(form.line('n', form.plain(text), data.hex()))


def ask_owners(data):
    QUESTIONS.append(form.line('o', data.hex()))


def ask_chain(letter, count):
    QUESTIONS.append(form.line(letter, struct.pack('<I', count).hex()))


def cut(data):
    return [data, data[:-1], data + b'\0', data[1:]]


def force():
    tie = pack([(K.WIDTH, 0, 50, 40, 0, 0), (K.WIDTH, 0, 60, 40, 0, 0), (K.WIDTH, 5, 60, 40, 0, 0), (K.WIDTH, 0, 60, 80, 0, 0), (K.SIZE, 0, 99, 40, 0, 0)])
    for data in cut(tie) + [b'', b'\0', bytes(SIZE - 1), bytes(SIZE), bytes(SIZE + 1)]:
        for owner in (0, 40, 80, LIBRARY):
            ask_force(data, owner, K.WIDTH, 0)
    options = pack([(K.LAYER_OPTION, c, at, 7, 0, 0) for c, at in ((2, 20), (3, 30), (1, 10), (3, 30), (2, 25), (0, 90), (4, 90), (255, 90))])
    for code in (0, 1, 2, 3, 4, 5, 128, 255):
        ask_force(options, 7, K.LAYER_OPTION, code)
        ask_force(options[SIZE:], 7, K.LAYER_OPTION, code)
        ask_force(options[SIZE * 3:], 7, K.LAYER_OPTION, code)
    every = pack([(k, 1, 256 - k, 3, 0, 0) for k in list(range(0, 36)) + [127, 128, 255]])
    for kind in list(range(0, 37)) + [127, 128, 254, 255]:
        ask_force(every, 3, kind, 1)
    limits = pack([(K.ORIGIN, 0, at, owner, 0, 0) for at in (LIMIT - 1, LIMIT, 0, LIMIT) for owner in (LIMIT, LIMIT - 1, 0)])
    for owner in (LIMIT, LIMIT - 1, 0, 1, 1 << 32, (1 << 32) + LIMIT, (1 << 64) - 1):
        ask_force(limits, owner, K.ORIGIN, 0)
    ask_force(pack([(K.ORIGIN, 0, 0, 0, 0, 0)]), 0, K.ORIGIN, 0)
    kinds = (K.LAYER_OPTION, K.LAYER_OPTION, K.WIDTH, K.SYMMETRY_WORD)
    for _ in range(150):
        data = pack([(random.choice(kinds), random.randrange(5), random.randrange(4), random.randrange(2), 0, 0) for _ in range(random.randrange(9))])
        ask_force(data, random.randrange(2), random.choice(kinds), random.randrange(5))


def names():
    text = b'SITE s CLASS'
    n = len(text)
    spans = [(s, l) for s in (0, 1, n - 1, n, n + 1, LIMIT - 1, LIMIT) for l in (0, 1, 2, n - 1, n, n + 1, LIMIT - 1, LIMIT)]
    data = pack([(K.SITE, 0, 0, LIBRARY, s, l) for s, l in spans])
    for file in cut(data) + [b'', bytes(SIZE - 1)]:
        ask_names(text, file)
    ask_names(b'', data)


def chains():
    at_owner = [
        [(5, 9), (9, 5)],
        [(9, 5), (5, 9)],
        [(7, 7)],
        [(0, 0), (1, 0), (1, 1), (2, 1)],
        [(3, 2), (2, 1), (1, 0), (0, LIBRARY)],
        [(0, LIBRARY), (1, 0), (2, 1), (3, 2)],
        [(LIMIT, LIMIT), (LIMIT, LIMIT - 1), (LIMIT - 1, LIMIT), (LIMIT - 1, 0), (0, LIMIT)],
        [(LIMIT - 1, 0), (LIMIT, LIMIT - 1), (0, LIMIT), (LIMIT, 0)],
        [(8, 6)],
        [(11, 9), (9, 3), (9, 5), (5, 4), (4, LIBRARY), (3, 1)],
        [(11, 9), (9, 5), (9, 3), (5, 4), (4, LIBRARY), (3, 1)],
    ]
    for rows in at_owner:
        data = pack([(K.PORT, 0, at, owner, 0, 0) for at, owner in rows])
        for file in cut(data):
            ask_owners(file)
    for file in (b'', b'\0', bytes(SIZE - 1), bytes(SIZE), b'\xff' * SIZE, b'\xff' * 2 * SIZE):
        ask_owners(file)
    for _ in range(80):
        n = random.randrange(9)
        ask_owners(pack([(K.PORT, 0, random.randrange(8), random.choice((random.randrange(8), LIBRARY)), 0, 0) for _ in range(n)]))
    for letter, longest in ('u', 50000), ('d', 5000):
        for count in (1, 2, 3, 1000, longest):
            ask_chain(letter, count)


force()
names()
chains()
if sys.argv[1:] == ['--check']:
    sys.exit(not answers.checked('lookups', QUESTIONS))
form.store('lookups', QUESTIONS, [answers.lookups(q) for q in QUESTIONS])
