#!/usr/bin/env python3
"""listed.py TEXT FOLDER: what the programs of examples/ have to print of a text: FOLDER/MACRO.pins for each macro, and FOLDER/placement.

It is made of the canonical text that the model of the rules (tools/model) writes, which has a statement a line and two blanks a block, and
so of words alone: no record, code or owner is looked at."""
import os
import sys

sys.dont_write_bytecode = True
sys.path.insert(0, os.path.join(os.path.dirname(os.path.abspath(__file__)), "..", "tools"))
import model

SHAPES = "RECT", "POLYGON", "PATH", "WIDTH", "VIA"


class Pin:
    def __init__(self, name):
        self.name, self.shapes = name, []
        self.said = {"DIRECTION": "-", "USE": "-"}


def macros(text):
    """The macros of a text in turn, as their names and pins."""
    found, pin, layer = [], None, None
    for line in model.canonical(text, model.reading(text)).decode("ascii").splitlines():
        words = [w for w in line.split() if w != ";"]
        depth = (len(line) - len(line.lstrip(" "))) // 2
        if depth == 0 and words[0] == "MACRO":
            found.append((words[1], []))
        elif depth == 1:
            pin = Pin(words[1]) if words[0] == "PIN" else None
            if pin:
                found[-1][1].append(pin)
        elif pin and depth == 2 and words[0] in pin.said:
            pin.said[words[0]] = " ".join(words[1:])
        elif pin and depth == 3 and words[0] == "LAYER":
            layer = words[1]
        elif pin and depth == 4 and words[0] in SHAPES:
            pin.shapes.append("  %s %s\n" % (layer, " ".join(words)))
    return found


def pins(of):
    return "".join("%s %s %s\n%s" % (p.name, p.said["DIRECTION"], p.said["USE"], "".join(p.shapes)) for p in of)


def placement(found):
    lines = ["%s %s: %s, %s\n" % (macro, p.name, p.said["DIRECTION"], p.said["DIRECTION"]) for macro, of in found for p in of]
    first = "size of enum direction: 1 in one part, 4 in the other\n"
    return first + "".join(lines) + "%d pins: the parts agree\n" % len(lines)


def main(name, folder):
    with open(name, "rb") as f:
        found = macros(f.read())
    # Of several macros of one name the first is listed.
    listed = {macro + ".pins": pins(of) for macro, of in reversed(found)}
    for file, lines in [*listed.items(), ("placement", placement(found))]:
        with open(os.path.join(folder, file), "w", encoding="ascii", newline="") as f:
            f.write(lines)


if __name__ == "__main__":
    main(*sys.argv[1:])
