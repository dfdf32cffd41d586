#!/usr/bin/env python3
"""big.py [BYTES [SEED]]: prints a standard-cell library of at most so many bytes, and little less: by default 16,777,216, which
is the most that is read. The cells are drawn by the seed, with pins, rails and obstructions in the manner of published 45 and 130 nm
libraries, coordinates on a grid of 2.5 nm. Every statement is in force: the original keeps as many things as there are records."""
import argparse, itertools, random, sys

FUNCTIONS = """INV BUF NAND2 NAND3 NAND4 NOR2 NOR3 NOR4 AND2 AND3 AND4 OR2 OR3 OR4 XOR2 XNOR2 AOI21 AOI22 AOI211 AOI221
 AOI222 OAI21 OAI22 OAI211 OAI221 OAI222 MUX2 MUX4 HA FA DFF DFFR DFFS DFFRS SDFF SDFFR SDFFRS DLH DLL CLKBUF
 CLKGATE TBUF FILLCELL LOGIC""".split()
HEAD = """VERSION 5.8 ;
BUSBITCHARS "[]" ;
DIVIDERCHAR "/" ;
UNITS
  DATABASE MICRONS 2000 ;
END UNITS

SITE unit
  SYMMETRY Y ;
  CLASS CORE ;
  SIZE 0.19 BY 1.4 ;
END unit

"""


def microns(steps):
    """So many steps of the grid, as a library writes microns: without zeros at the end."""
    return "%s%d%s" % ("-" if steps < 0 else "", abs(steps) // 400, (".%04d" % (abs(steps) % 400 * 25)).rstrip("0").rstrip("."))


class Cells:
    def __init__(self, seed):
        self.rng = random.Random(seed)

    def some(self, most):
        return microns(1 + self.rng.randrange(most))

    def shapes(self, width, most):
        """The shapes of a layer: rectangles, and a polygon now and then."""
        point = lambda: (self.rng.randrange(width + 1), self.rng.randrange(561) - 28)
        for _ in range(self.rng.randrange(most) + 1):
            (a, b), (c, d) = point(), point()
            yield "RECT %s %s %s %s ;" % tuple(microns(n) for n in (min(a, c), min(b, d), max(a, c), max(b, d)))
        if self.rng.randrange(8) == 0:
            yield "POLYGON %s ;" % " ".join(microns(n) for _ in range(self.rng.choice((6, 8, 8, 12))) for n in point())

    def layers(self, layers, width, most):
        for layer in layers:
            yield "      LAYER %s ;" % layer
            for shape in self.shapes(width, most):
                yield "        " + shape

    def pin(self, name, direction, use, width):
        yield "  PIN " + name
        yield "    DIRECTION %s ;" % direction
        yield "    USE %s ;" % use
        if use in ("POWER", "GROUND"):
            yield "    SHAPE ABUTMENT ;"
        else:
            yield "    ANTENNAPARTIALMETALAREA %s LAYER metal1 ;" % self.some(200)
            yield "    ANTENNAPARTIALMETALSIDEAREA %s LAYER metal1 ;" % self.some(800)
            yield "    ANTENNA%sAREA %s ;" % ("GATE" if direction == "INPUT" else "DIFF", self.some(400))
        for _ in range(self.rng.choice((1, 1, 1, 2))):
            yield "    PORT"
            yield from self.layers(self.rng.choice((["metal1"], ["metal1"], ["metal1", "via1", "metal2"])), width, 6)
            yield "    END"
        yield "  END " + name
        yield ""

    def cell(self, name, inputs, outputs):
        sites = self.rng.randrange(3, 40)
        width = 76 * sites
        yield "MACRO " + name
        yield "  CLASS CORE ;"
        yield "  FOREIGN %s 0 0 ;" % name
        yield "  ORIGIN 0 0 ;"
        yield "  SIZE %s BY 1.4 ;" % microns(width)
        yield "  SYMMETRY X Y ;"
        yield "  SITE unit ;"
        for i in range(inputs):
            yield from self.pin("A%d" % (i + 1), "INPUT", "CLOCK" if i == 0 and "FF" in name else "SIGNAL", width)
        for i in range(outputs):
            yield from self.pin("Z" + "N" * i, "OUTPUT TRISTATE" if "TBUF" in name else "OUTPUT", "SIGNAL", width)
        yield from self.pin("VDD", "INOUT", "POWER", width)
        yield from self.pin("VSS", "INOUT", "GROUND", width)
        yield "  OBS"
        yield from self.layers(self.rng.choice((["metal1"], ["metal1", "metal2"], ["poly", "metal1", "via1"])), width, 16)
        yield "  END"
        yield "END " + name
        yield ""

    def library(self, room):
        out, end = [HEAD], "END LIBRARY\n"
        room -= len(HEAD) + len(end)
        for n in itertools.count():
            function, drive = self.rng.choice(FUNCTIONS), self.rng.choice((1, 1, 2, 2, 4, 8, 16, 32))
            name, inputs, outputs = "%s_X%d_%04d" % (function, drive, n), self.rng.randrange(1, 7), self.rng.choice((1, 1, 1, 2))
            cell = "\n".join(self.cell(name, inputs, outputs)) + "\n"
            room -= len(cell)
            if room < 0:
                return "".join(out) + end
            out.append(cell)


if __name__ == "__main__":
    p = argparse.ArgumentParser(description=__doc__, formatter_class=argparse.RawDescriptionHelpFormatter)
    p.add_argument("bytes", type=int, nargs="?", default=16777216)
    p.add_argument("seed", type=int, nargs="?", default=2026)
    args = p.parse_args()
    sys.stdout.write(Cells(args.seed).library(args.bytes))
