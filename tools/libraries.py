"""Libraries as trees of statements, by chance, and two layouts of each: by the rules of writing, and in disorder (other blanks, comments,
letter case and longer numerals). Where each statement stands, and so the text's record file, is known from laying it out: nothing is
read here, and the layout is not the model's."""
import random

import model
from model import CODES, GREATEST, KEYS, LIBRARY, MICRONS, VERSIONS
from model import Kind as K

rng = random.Random(12)
ON_LINE = {K.SYMMETRY: K.SYMMETRY_WORD, K.LAYER: K.LAYER_OPTION, K.RECT: K.POINT, K.POLYGON: K.POINT, K.PATH: K.POINT}  # whose parts stand on its line


class Statement:
    def __init__(self, kind, code=0, name=b"", x=0, y=0, inside=()):
        self.kind, self.code, self.name, self.x, self.y, self.inside = kind, code, name, x, y, list(inside)

    def tokens(self):
        """Words, names, numbers (integers, in millionths) and the quoted, in order; a name is a pair with True."""
        k, x, y, name = self.kind, self.x, self.y, (self.name, True)
        value = CODES[k][self.code - 1].split() if k in CODES else []
        first = [KEYS[k]] if KEYS[k] else []
        forms = {
            K.BUSBITCHARS: [(b'"' + self.name + b'"', True), ";"],
            K.DIVIDERCHAR: [(b'"' + self.name + b'"', True), ";"],
            K.DATABASE_MICRONS: ["MICRONS", x, ";"],
            K.SIZE: [x, "BY", y, ";"],
            K.MACRO_SITE: [name, ";"],
            K.FOREIGN: [name] + ([x, y] if self.code else []) + [";"],
            K.ORIGIN: [x, y, ";"],
            K.ANTENNA: value + [x] + (["LAYER", name] if self.name else []) + [";"],
            K.LAYER_OPTION: value + ([x] if self.code > 1 else []),
            K.POINT: [x, y],
            K.VIA: [x, y, name, ";"],
            K.SYMMETRY_WORD: value,
            K.ANTENNAMODEL: value + [";"] * model.NOW.model_semicolon,
        }
        forms.update(dict.fromkeys((K.VERSION, K.WIDTH), [x, ";"]))
        forms.update(dict.fromkeys((K.SITE, K.MACRO, K.PIN, K.LAYER), [name]))
        return first + forms.get(k, value + [";"] if value else [])

    def last(self):
        """The tokens that end its block."""
        if self.kind in (K.SITE, K.MACRO, K.PIN):
            return ["END", (self.name, False)]
        return {K.UNITS: ["END", "UNITS"], K.PORT: ["END"], K.OBS: ["END"]}.get(self.kind)


class Text:
    """A text that grows, and its records."""

    def __init__(self, canonical):
        self.canonical, self.out, self.records = canonical, b"", []

    def blank(self):
        return rng.choice([b" ", b"  ", b"\n", b"\t", b"\r\n", b" # ; a \"comment\n", b"\x0b\x0c"])

    def token(self, t, first, depth, whole=False):
        if self.canonical:
            self.out += b"  " * depth if first else b" "
        else:
            self.out += self.blank()
        at = len(self.out)
        if isinstance(t, tuple):
            s = t[0]
        elif isinstance(t, int):
            s = model.written(t)
            if not self.canonical and not whole and rng.random() < 0.5:
                s = (s if "." in s else s + ".0") + "0" * rng.randrange(3)
                s = "-00" + s[1:] if s[0] == "-" else "0" + s
            s = s.encode()
        else:
            s = t.encode()
            if not self.canonical and t != ";":
                s = rng.choice([s, s.lower(), s.title()])
        self.out += s
        return at

    def line(self, tokens, depth, on_line):
        # a point in the number of MICRONS is a thing apart (docs/DIFFERENCES.md)
        return [self.token(t, i == 0 and not on_line, depth, "MICRONS" in tokens) for i, t in enumerate(tokens)]

    def newline(self):
        if self.canonical:
            self.out += b"\n"

    def statement(self, s, owner, depth, on_line=False):
        tokens = s.tokens()
        places = self.line(tokens, depth, on_line)
        at, name, length = places[0], 0, 0
        for t, p in zip(tokens, places):
            if isinstance(t, tuple) and t[1]:
                name, length = (p + 1, len(t[0]) - 2) if t[0][:1] == b'"' else (p, len(t[0]))
        self.records.append(model.pack([model.record(s.kind, at, owner, s.code, name, length, s.x, s.y)]))
        part = ON_LINE.get(s.kind)
        if part:
            for q in s.inside:
                if q.kind == part:
                    self.statement(q, at, depth, True)
            self.token(";", False, depth)
        if not on_line:
            self.newline()
        for q in s.inside:
            if q.kind != part:
                self.statement(q, at, depth + 1)
        if s.last():
            self.line(s.last(), depth, False)
            self.newline()

    def library(self, statements):
        for s in statements:
            self.statement(s, LIBRARY, 0)
        self.line(["END", "LIBRARY"], 0, False)
        self.newline()
        return self.out, self.records


# ---- by chance
NAMES = [b"a", b"Z9", b"m;1", b'q"x"', b"h#sh", b"a;b;", b"A" * 60, b"end", b"LAYER", b"x-1", b"n[3]", b"p<0>", b"END", b"Library"]
NUMBERS = [0, 1, -1, 10, 1000000, -2500000, 1230000, GREATEST, -GREATEST, GREATEST - 1, 999999, 100000, -10, 123456789]


def name():
    return rng.choice(NAMES)


def number():
    return rng.choice(NUMBERS + [rng.randrange(-GREATEST, GREATEST + 1)])


def code(kind):
    return rng.randrange(len(CODES[kind])) + 1


def some(n, make):
    return [make() for _ in range(rng.randrange(n))]


def point():
    return Statement(K.POINT, x=number(), y=number())


def geometry():
    return rng.choice([
        lambda: Statement(K.WIDTH, x=number()),
        lambda: Statement(K.RECT, inside=[point(), point()]),
        lambda: Statement(K.POLYGON, inside=[point(), point(), point()] + some(3, point)),
        lambda: Statement(K.PATH, inside=[point(), point()] + some(3, point)),
        lambda: Statement(K.VIA, x=number(), y=number(), name=name()),
    ])()


def option():
    c = code(K.LAYER_OPTION)
    return Statement(K.LAYER_OPTION, c, x=number() if c > 1 else 0)


def layer():
    return Statement(K.LAYER, name=name(), inside=some(3, option) + some(4, geometry))


def symmetry():
    return Statement(K.SYMMETRY, inside=some(4, lambda: Statement(K.SYMMETRY_WORD, code(K.SYMMETRY_WORD))))


def size():
    return Statement(K.SIZE, x=number(), y=number())


def port():
    return Statement(K.PORT, inside=some(2, lambda: Statement(K.PORT_CLASS, code(K.PORT_CLASS))) + some(3, layer))


def pin():
    def part():
        k = rng.choice([K.DIRECTION, K.USE, K.SHAPE, K.ANTENNAMODEL, K.ANTENNA, K.ANTENNA, K.PORT])
        if k == K.PORT:
            return port()
        return Statement(k, code(k), name=rng.choice([b"", name()]) if k == K.ANTENNA else b"", x=number() if k == K.ANTENNA else 0)

    return Statement(K.PIN, name=name(), inside=some(7, part))


def foreign():
    c = rng.randrange(2)
    return Statement(K.FOREIGN, c, name=name(), x=number() if c else 0, y=number() if c else 0)


def macro():
    makers = [
        lambda: Statement(K.MACRO_CLASS, code(K.MACRO_CLASS)),
        lambda: Statement(K.MACRO_SITE, name=name()),
        foreign,
        foreign,
        lambda: Statement(K.ORIGIN, x=number(), y=number()),
        size,
        symmetry,
        pin,
        pin,
        lambda: Statement(K.OBS, inside=some(3, layer)),
    ]
    return Statement(K.MACRO, name=name(), inside=some(7, lambda: rng.choice(makers)()))


def site():
    inside = [Statement(K.SITE_CLASS, code(K.SITE_CLASS)), size()] + some(2, symmetry) + some(2, size)
    rng.shuffle(inside)
    return Statement(K.SITE, name=name(), inside=inside)


def units():
    return Statement(K.UNITS, inside=some(3, lambda: Statement(K.DATABASE_MICRONS, x=rng.choice(MICRONS))))


def chars(n):
    return bytes(rng.choice(b'[]<>/|\n;# aZ0\t\x00\x7f') for _ in range(n))


def library():
    out, version = [], VERSIONS[8]
    for _ in range(rng.randrange(6)):
        k = rng.choice([K.VERSION, K.BUSBITCHARS, K.DIVIDERCHAR, K.NAMESCASESENSITIVE, K.NOWIREEXTENSIONATPIN, K.UNITS, K.SITE] + 3 * [K.MACRO])
        if k == K.VERSION:
            version = VERSIONS[rng.randrange(9)]
            out.append(Statement(k, x=version))
        elif k in (K.BUSBITCHARS, K.DIVIDERCHAR):
            out.append(Statement(k, name=chars(2 if k == K.BUSBITCHARS else 1)))
        elif k == K.NAMESCASESENSITIVE:
            if version <= VERSIONS[4]:
                out.append(Statement(k, code(k)))
        elif k == K.NOWIREEXTENSIONATPIN:
            out.append(Statement(k, code(k)))
        else:
            out.append({K.UNITS: units, K.SITE: site, K.MACRO: macro}[k]())
    return out
