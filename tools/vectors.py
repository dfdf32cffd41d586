#!/usr/bin/env python3
"""vectors.py ORACLE LIBRS: writes the vectors that crates/replay replays (stdin) and the answers that it has to print (stdout).
ORACLE is the program that tools/lef21/build makes, LIBRS the file src/lib.rs of lef21 0.2.0. No answer comes from the library, and the
model of the rules has to agree with each: tokens are the original lexer's, numerals are the model's and, where the crate is to be equal,
compared with its rust_decimal; key words and value words are the original's; codes and records are the model's; readings are those
of tools/readings; runs of the listing are typed here from the rules' worked examples.

vectors.py --check: are the stored lines those made here, and does the model confirm the stored answers? This asks no original."""
import os
import random
import re
import subprocess
import sys

sys.dont_write_bytecode = True
sys.path.append(os.path.join(os.path.dirname(os.path.abspath(__file__)), "lef21"))
import answers
import form
import model
from original import PUBLISHED, file, program
from model import CODES, GREATEST, KEY_WORDS, KNOWN, SIZE

if sys.argv[1:] in (["--help"], ["-h"]):
    print(__doc__)
    sys.exit()
checking = sys.argv[1:] == ["--check"]
if not checking:
    if len(sys.argv) != 3:
        sys.exit(__doc__)
    program(sys.argv[1], "tools/lef21/build makes it")
    file(sys.argv[2], "LIBRS is a file of " + PUBLISHED)
rng = random.Random(2026)
asked, wanted = [], []


def ask(letter, *fields, says=None):
    """A line, and its answer where another than the model gives it: the model has to give the same."""
    assert len(fields[-1]) <= 8192
    asked.append(form.line(letter, *(f if isinstance(f, str) else form.plain(f) for f in fields)))
    wanted.append(answers.replay(asked[-1]))
    assert says in (None, wanted[-1]), (asked[-1], says, wanted[-1])


def original(mode, texts):
    """What the original says of each text; None where it is not asked."""
    if checking:
        return [None] * len(texts)
    lines = "".join(t.hex() + "\n" for t in texts)
    return subprocess.run([sys.argv[1], mode], input=lines, capture_output=True, text=True, check=True).stdout.split("\n")[: len(texts)]


def all_tokens():
    """Every byte alone and after each kind of token, a comment, a newline and a blank; then mixed texts."""
    texts = [b""] + [bytes([b]) for b in range(128)]
    for before in [b"A", b"1", b";", b'"a"', b'"a', b"#c", b"\n", b" "]:
        texts += [before + bytes([b]) + b" B\n2" for b in range(128)]
    alphabet = b'Az09-.;;"# \t\r\n\n\x0b\x0c@\x00\x7f_'
    texts += [bytes(rng.choice(alphabet) for _ in range(rng.randrange(1, 30))) for _ in range(250)]
    for t, said in zip(texts, original("tokens", texts)):
        ask("t", t, says=said if said is None or said.endswith("end") else said + " ")


def first_tokens():
    """Every byte above 127, and every place of a text up to past its end."""
    for b in range(128, 256):
        ask("f", "%02x" % (b % 3), b"A " + bytes([b]) + b"\xff", says="2 2 0 0 0 0 ")
    mixed = b'a\n\n "x\ny" 1;#c\n@ z'
    places = [(mixed, p) for p in range(len(mixed) + 3)]
    places += [(b"", 0), (b"", 255), (b"A", 0), (b"A", 1), (b"A", 2), (b"\n\n@", 0), (b"\n\n@", 1)]
    for (t, p), said in zip(places, original("tokens", [t[p:] for t, p in places])):
        ask("f", "%02x" % p, t, says=said and first_of(said.split(), t, p))


def first_of(said, text, place):
    """The first token from a place on, by what the original says of the text from there."""
    if said[0] == "end":
        return "0 0 0 0 %d %d " % (len(text), len(text))
    if said[0] == "bad":
        return "3 %d %s 0 0 0 " % (place + int(said[1]), said[2])
    return "0 0 0 %s %d %d " % (said[0], place + int(said[1]), place + int(said[2]))


NUMERALS = """0 -0 00 -00.00 1 -1 5. -5. .5 -.5 . - -. 1.2.3 1..2 1-2 --1 1e3 +1 1_000 0x1 007.50 5.8 5.80 5.9
 10000000 -10000000 10000000.0 10000000.000000 10000000.0000000000 10000000.000001 -10000000.000001 9999999.999999 9999999.9999999
 9999999.9999990 10000001 99999999999999999999999999999999 18446744073709551616 0.000001 -0.000001 0.0000001 0.0000010 0.00000100
 0.1234567 0.1234560 00000000000000000000000000000000000000000007.5 1.00000000000000000000000000000000000000 0.5000000
 1.500000 12.25 1000 0.015 79228162514264337593543950335 79228162514264337593543950336""".split() + [""]


def numerals():
    texts = NUMERALS[:]
    for _ in range(250):
        whole = str(rng.randrange(10 ** rng.randrange(1, 9))) if rng.random() < 0.95 else ""
        part = "." + "".join(rng.choice("0000123456789") for _ in range(rng.randrange(0, 9))) if rng.random() < 0.8 else ""
        texts.append(rng.choice(["", "", "-"]) + rng.choice(["", "", "0"]) + whole + part)
    for t, said in zip(texts, original("numerals", [t.encode() for t in texts])):
        ask("n", t.encode())
        if said is not None and re.fullmatch(r"-?[0-9]+(\.[0-9]+)?", t) and wanted[-1] != "not":
            assert wanted[-1].rsplit(" ", 1)[0] == said, (t, said, wanted[-1])


def words():
    """The key words, the words of the value lists and of UNITS, and words near to them."""
    if not checking:
        source = open(sys.argv[2]).read()
        lists = {n: re.findall(r'"([A-Z0-9]+)"', body) for n, body in re.findall(r"\n    (Lef\w+) \{(.*?)\n    \}\n\);", source, re.S)}
        units = "DATABASE MICRONS END UNITS TIME CAPACITANCE RESISTANCE POWER CURRENT VOLTAGE FREQUENCY".split()
        assert lists["LefKey"] == KEY_WORDS
        lists.pop("LefDefSource")  # SOURCE is refused before its value is taken
        assert set(units).union(*lists.values()) == KNOWN
    for w in sorted(KNOWN):
        for spelt in [w, w.lower(), w.capitalize(), w + "S", w[:-1], w[1:], w[:-1] + "0", "_" + w]:
            ask("w", spelt.encode())
    for b in [b"\0PIN", b"PIN\0", b"PIN;", b"P", b"SITE ", b"s{te", b"[IN", b"A" * 200, b"ANTENN", b"GROUNDSENSIT"]:
        ask("w", b)


def codes():
    for kind, values in sorted(CODES.items()):
        for v in values:
            ask("c", "%02x" % kind, v.lower().encode())
        for v in ["ENDCAP", "RING BUMP", "PIN", "nothing", "INPUT TRISTATE", "X Y"]:
            if v not in values:
                ask("c", "%02x" % kind, v.encode(), says="0 ")
    for kind in [0, 1, 13, 34, 255]:
        ask("c", "%02x" % kind, b"ON", says="0 ")


def one_record():
    edge = [0, 1, 255, 256, 65535, 65536, 2**24, 2**32 - 1]
    wide = [0, 1, -1, GREATEST, -GREATEST, 2**63 - 1, -(2**63), 1500000]
    kind, code, spare = rng.randrange(256), rng.randrange(256), rng.choice([0, 0, 0, 1, 513])
    at, owner, start, length = [rng.choice(edge) for _ in range(4)]
    return model.pack([model.record(kind, at, owner, code, start, length, rng.choice(wide), rng.choice(wide), spare)])


def records():
    one = one_record
    files = [b"", b"\1" * (SIZE - 1), one(), one() + b"\2" * (SIZE - 1), one() + one(), bytes(SIZE), b"\xff" * SIZE]
    for file in files + [one() for _ in range(12)]:
        ask("r", file.hex())


# The rules' worked examples, a byte that is no ASCII, SOURCE, and room for 1,820 records, filled and one over.
FULL = b"SITE s CLASS CORE ; SIZE 1 BY 1 ; SYMMETRY %s ; END s END LIBRARY"
FILLED = "8 0 0 - 5 1 0 0\n9 2 7 0 0 0 0 0\n12 0 20 0 0 0 1000000 1000000\n10 0 34 0 0 0 0 0\n%s\n1820 records"
RUNS = [
    (b"", "refusal 4 0 1"),
    (b"END LIBRARY", "0 records"),
    (b"END LIBRARY @", "refusal 3 12 1"),
    (b"END LIBRARY x @", "0 records"),
    (b'END LIBRARY "a', "0 records"),
    (b"END LIBRARY;", "refusal 5 12 1"),
    (b"VERSION 5.8 ; END LIBRARY", "1 0 0 - 0 0 5800000 0\n1 records"),
    (b"VERSION 5.9 ; END LIBRARY", "refusal 6 17 1"),
    (b"VERSION - ;", "refusal 9 11 1"),
    (b'BUSBITCHARS "[]x" ;', "refusal 6 19 1"),
    (b'BUSBITCHARS "[]" ; END LIBRARY', "2 0 0 - 13 2 0 0\n1 records"),
    (b"SITE s CLASS CORE ; END s END LIBRARY", "refusal 10 29 1"),
    (b"SITE s\nCLASS CORE ;\nSIZE 1.5 BY 2 ;\nEND s\nEND LIBRARY\n", "8 0 0 - 5 1 0 0\n9 2 7 0 0 0 0 0\n12 0 20 0 0 0 1500000 2000000\n3 records"),
    (b"MACRO m ORIGIN 1-2 ; END m END LIBRARY", "13 0 0 - 6 1 0 0\n17 0 8 0 0 0 1000000 -2000000\n2 records"),
    (b"MACRO m ORIGIN 10000000 -10000000 ; END m END LIBRARY", "13 0 0 - 6 1 0 0\n17 0 8 0 0 0 10000000000000 -10000000000000\n2 records"),
    (b"MACRO m ORIGIN 10000000.000001 0 ;", "refusal 9 32 1"),
    (b"\n\n@", "refusal 3 2 3"),
    (b'BUSBITCHARS "\n\n" @', "refusal 3 17 1"),
    (b"END LIBRARY \x80", "refusal 2 12 0"),
    (b"@ \xff", "refusal 2 2 0"),
    (b"VERSION 5.4 ; MACRO m SOURCE USER ;", "refusal 8 28 1"),
    (FULL % b" ".join([b"X"] * 1816), FILLED % "\n".join("11 1 %d 34 0 0 0 0" % (43 + 2 * i) for i in range(1816))),
    (FULL % b" ".join([b"X"] * 1817), "refusal 11 1821 0"),
]

all_tokens()
first_tokens()
numerals()
words()
codes()
records()
for text, said in form.readings():  # which the original confirmed (lef21/compare --texts asks it again)
    ask("l", text, says=said)
for number, (text, said) in enumerate(RUNS, 1):
    ask("p", "%02x" % number, text, says="run %d \n%s\n" % (number, said))
if checking:
    sys.exit(not answers.checked("replay", asked))
form.store("replay", asked, wanted)
