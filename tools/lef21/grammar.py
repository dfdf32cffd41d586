"""Texts from the grammar, by a random number generator: every statement of the rules, every value word, numerals of all
forms, names of all sorts, blocks in any order, attributes repeated. A text is a list of tokens; `laid` puts blanks between."""

import os, sys

sys.path.insert(0, os.path.join(os.path.dirname(os.path.abspath(__file__)), ".."))
import model
from model import CODES
from model import Kind as K

# The classes of a macro, each with the words that may follow, and none where none may.
SECOND = {}
for value in CODES[K.MACRO_CLASS]:
    first, _, second = value.partition(" ")
    SECOND.setdefault(first, []).append(second)
MICRONS = [model.written(x) for x in model.MICRONS]
NAMES = """a A b m1 M1 met1 VDD vss clk s p x0 END LAYER PIN MACRO LIBRARY End ORIGIN N R90 OXIDE1 a; x;y a#b a"b" q" a<3> b[0]
 u/v c_d e-1 f.5 g@ h(2) i%j k\\l z!""".split()
EDGES = """0 -0 0.0 -0.000 1 -1 00 007 007.50 10000000 -10000000 10000000.000000 9999999.999999 -9999999.999999 0.000001
 -0.000001 0.1234560000 5.8 1000 0000000000000000000000000000000000000007.5 1.0000000000000000000000000000000000000
 9999999.9999990000000000000000000000000000000 0.0000010000000000000000000000000000000 3.1415920000000000000000000""".split()
BLANKS = [b" ", b"\n", b"\t", b"  ", b"\r\n", b"\x0b", b"\x0c", b"\r", b" \n\t", b" # c ; END \"\n", b"\n#\n", b"\n\n\n", b"\t#x\r\n "]


class Grammar:
    def __init__(self, rng):
        self.rng = rng
        self.pick = rng.choice

    def some(self, most, *makers):
        """Up to so many of these, each as likely, one after the other."""
        return sum((self.pick(makers)() for _ in range(self.rng.randrange(most + 1))), [])

    def word(self, *values):
        w = self.pick(values)
        n = self.rng.random()
        return w if n < 0.7 else w.lower() if n < 0.85 else w.title() if n < 0.93 else "".join(self.pick((c, c.lower())) for c in w)

    def value(self, kind):
        return self.word(*CODES[kind])

    def name(self):
        return self.pick(NAMES)

    def number(self):
        n = self.rng.random()
        if n < 0.3:
            return str(self.rng.randrange(20))
        if n < 0.4:
            return self.pick(EDGES)
        whole = str(self.rng.randrange(10 ** self.rng.randrange(1, 8)))
        part = str(self.rng.randrange(10**6)).zfill(6)[: self.rng.randrange(1, 7)]
        sign, zeros = self.pick(("", "", "-")), self.pick(("", "", "", "0", "000"))
        return sign + zeros + whole + ("." + part + self.pick(("", "", "0", "00000")) if n < 0.8 else "")

    def point(self):
        return [self.number(), self.number()]

    def statement(self, *parts):
        return [t for p in parts for t in (p if isinstance(p, list) else [p])] + [";"]

    def end(self, *words):
        return [self.word("END"), *words]

    # the library level
    def version(self):
        x = self.pick(("5.8", "5.4", "5.3", "5.0", "5", "5.7", "5.6", "5.5", "5.2", "5.1", "5.80", "05.4", "5.400", "5.8000000000"))
        return self.statement(self.word("VERSION"), x)

    def old(self):
        return self.version() + self.statement(self.word("NAMESCASESENSITIVE"), self.value(K.NAMESCASESENSITIVE))

    def string(self, length):
        return '"' + "".join(self.pick("[]<>/|.aZ0;# \n\t{}") for _ in range(length)) + '"'

    def flag(self):
        return self.statement(self.word("NOWIREEXTENSIONATPIN"), self.value(K.NOWIREEXTENSIONATPIN))

    def bus(self):
        return self.statement(self.word("BUSBITCHARS"), self.string(2))

    def divider(self):
        return self.statement(self.word("DIVIDERCHAR"), self.string(1))

    def units(self):
        return [self.word("UNITS")] + self.some(2, self.microns) + self.end(self.word("UNITS"))

    def microns(self):
        x = self.pick(("", "", "", "0", "000")) + self.pick(MICRONS) + (self.pick((".0", ".00", ".000")) if self.rng.random() < 0.02 else "")
        return self.statement(self.word("DATABASE"), self.word("MICRONS"), x)

    def symmetry(self):
        return self.statement(self.word("SYMMETRY"), [self.value(K.SYMMETRY_WORD) for _ in range(self.rng.randrange(4))])

    def size(self):
        return self.statement(self.word("SIZE"), self.number(), self.word("BY"), self.number())

    def site(self):
        name = self.name()
        need = [lambda: self.statement(self.word("CLASS"), self.value(K.SITE_CLASS)), self.size]
        self.rng.shuffle(need)
        more = self.some(1, self.symmetry, *need)
        return [self.word("SITE"), name] + need[0]() + more + need[1]() + self.some(1, self.symmetry, *need) + self.end(name)

    def macro(self):
        name = self.name()
        return [self.word("MACRO"), name] + self.some(7, self.macro_class, self.macro_site, self.foreign, self.origin, self.size,
                self.symmetry, self.obs, self.pin, self.pin) + self.end(name)

    def macro_class(self):
        first = self.pick(list(SECOND))
        second = self.pick(SECOND[first])
        return self.statement(self.word("CLASS"), self.word(first), [self.word(second)] if second else [])

    def macro_site(self):
        return self.statement(self.word("SITE"), self.name())

    def foreign(self):
        return self.statement(self.word("FOREIGN"), self.name(), self.pick(([], self.point())))

    def origin(self):
        return self.statement(self.word("ORIGIN"), self.point())

    def pin(self):
        name = self.name()
        return [self.word("PIN"), name] + self.some(6, self.direction, self.use, self.shape, self.model, self.antenna, self.antenna,
                self.port, self.port) + self.end(name)

    def direction(self):
        w = self.word("INPUT", "OUTPUT", "INOUT", "FEEDTHRU")
        return self.statement(self.word("DIRECTION"), w, self.pick(([], [self.word("TRISTATE")])) if w.upper() == "OUTPUT" else [])

    def use(self):
        return self.statement(self.word("USE"), self.value(K.USE))

    def shape(self):
        return self.statement(self.word("SHAPE"), self.value(K.SHAPE))

    def model(self):
        return [self.word("ANTENNAMODEL"), self.value(K.ANTENNAMODEL)] + [";"] * model.NOW.model_semicolon

    def antenna(self):
        return self.statement(self.value(K.ANTENNA), self.number(), self.pick(([], [self.word("LAYER"), self.name()])))

    def port(self):
        return [self.word("PORT")] + self.some(3, self.port_class, self.layer, self.layer) + self.end()

    def port_class(self):
        return self.statement(self.word("CLASS"), self.value(K.PORT_CLASS))

    def obs(self):
        return [self.word("OBS")] + self.some(3, self.layer) + self.end()

    def layer(self):
        options = self.some(2, lambda: [self.word("EXCEPTPGNET")], lambda: [self.word("SPACING", "DESIGNRULEWIDTH"), self.number()])
        return self.statement(self.word("LAYER"), self.name(), options) + self.some(4, self.width, self.rect, self.via,
                lambda: self.points("POLYGON", 3), lambda: self.points("PATH", 2))

    def width(self):
        return self.statement(self.word("WIDTH"), self.number())

    def rect(self):
        return self.statement(self.word("RECT"), self.point(), self.point())

    def via(self):
        return self.statement(self.word("VIA"), self.point(), self.name())

    def points(self, key, least):
        return self.statement(self.word(key), *[self.point() for _ in range(least + self.rng.randrange(3))])

    def library(self, most=5):
        head = self.some(2, self.version, self.old, self.bus, self.divider, self.flag, self.units)
        body = self.some(most, self.macro, self.macro, self.site, self.units, self.flag, self.bus)
        rest = self.some(1, lambda: self.pick((["x"], [";"], ["1"], ['"a'], ["END", "LIBRARY"], ["x", "@"])))
        tokens = head + body + self.end(self.word("LIBRARY")) + self.pick(([], [], rest))
        return [t.encode() for t in tokens]


def laid(rng, tokens):
    """Tokens as a text: plain, a statement a line, or with any blanks and comments between, or none where none are needed."""
    style = rng.randrange(4)
    out = [rng.choice(BLANKS) if style == 3 and rng.random() < 0.3 else b""]
    for i, t in enumerate(tokens):
        after = tokens[i + 1][:1] if i + 1 < len(tokens) else b""
        out.append(t)
        glued = not (t[:1].isalpha() or t[:1].isdigit() and after.isdigit() or t[:1] == b"-" and (after.isdigit() or len(t) == 1) or after == b".")
        if style < 3:
            out.append((b"\n" if style and t == b";" else b" ") if after or style == 1 else b"")
        elif after or rng.random() < 0.4:
            out.append(rng.choice((b"", b"#;\n", b" ")) if glued and rng.random() < 0.5 else rng.choice(BLANKS))
    return b"".join(out)
