#!/usr/bin/env python3
"""pins.py IN.lef MACRO: the pins of a macro, as pins.c prints them, by lef.py.

Exit status: 0 done, 1 refused or no such macro, 2 wrong usage or a system error."""
import os
import sys
from typing import Dict, Iterator, List, Tuple

import lef
from lef import Kind, Record

# Words by code; `-` stands for none.
DIRECTIONS = "-", "INPUT", "OUTPUT", "OUTPUT TRISTATE", "INOUT", "FEEDTHRU"
USES = "-", "SIGNAL", "ANALOG", "POWER", "GROUND", "CLOCK"
SHAPES = Kind.RECT, Kind.POLYGON, Kind.PATH, Kind.WIDTH, Kind.VIA


def word(words: Tuple[str, ...], code: int) -> str:
    """The word of a code; a later library may have codes that are not known here."""
    return words[code] if code < len(words) else "?"


def numeral(number: int) -> str:
    """A number in millionths: 1500000 is 1.5."""
    whole, part = divmod(abs(number), 1000000)
    return ("-" if number < 0 else "") + ("%d.%06d" % (whole, part)).rstrip("0").rstrip(".")


class Library:
    """The records of a text by their owners, found in one pass."""

    def __init__(self, text: bytes) -> None:
        self.text = text
        self.owned: Dict[int, List[Record]] = {}
        for r in lef.read(text):
            self.owned.setdefault(r.owner, []).append(r)

    def of(self, owner: int, *kinds: Kind) -> List[Record]:
        """What an owner has of these kinds, in the order of the text."""
        return [r for r in self.owned.get(owner, []) if r.kind in kinds]

    def code(self, owner: int, kind: Kind) -> int:
        """The code that holds: the last one, or 0 where there is none."""
        return ([0] + [r.code for r in self.of(owner, kind)])[-1]

    def name(self, r: Record) -> str:
        return r.name(self.text).decode("ascii")


def shape_words(library: Library, shape: Record) -> List[str]:
    """The word of a shape, and what follows it; the points of most are records of their own."""
    words = [Kind(shape.kind).name]
    if shape.kind == Kind.WIDTH:
        return words + [numeral(shape.x)]
    if shape.kind == Kind.VIA:
        return words + [numeral(shape.x), numeral(shape.y), library.name(shape)]
    return words + [numeral(n) for point in library.of(shape.at, Kind.POINT) for n in (point.x, point.y)]


def pin_lines(library: Library, pin: Record) -> Iterator[str]:
    direction, use = library.code(pin.at, Kind.DIRECTION), library.code(pin.at, Kind.USE)
    yield "%s %s %s\n" % (library.name(pin), word(DIRECTIONS, direction), word(USES, use))
    for port in library.of(pin.at, Kind.PORT):
        for layer in library.of(port.at, Kind.LAYER):
            for shape in library.of(layer.at, *SHAPES):
                yield "  %s %s\n" % (library.name(layer), " ".join(shape_words(library, shape)))


def print_pins(name: str, macro: str) -> int:
    with open(name, "rb") as f:
        library = Library(f.read(lef.TEXT_LIMIT + 1))
    found = [m for m in library.of(lef.LIBRARY, Kind.MACRO) if m.name(library.text) == os.fsencode(macro)]
    if not found:
        print("%s: no macro has the name %s" % (name, macro), file=sys.stderr)
        return 1
    # Closed here, so that it is seen here if a line could not be written.
    with open(sys.stdout.fileno(), "w", encoding="ascii", newline="", closefd=False) as out:
        for pin in library.of(found[0].at, Kind.PIN):
            out.writelines(pin_lines(library, pin))
    return 0


def main(given: List[str]) -> int:
    if len(given) != 2:
        print("usage: pins.py IN.lef MACRO", file=sys.stderr)
        return 2
    try:
        return print_pins(*given)
    except lef.Refusal as refusal:
        print("%s: %s" % (given[0], refusal), file=sys.stderr)
        return 1
    except OSError as e:
        print("pins.py: %s" % e, file=sys.stderr)
        return 2


if __name__ == "__main__":
    sys.exit(main(sys.argv[1:]))
