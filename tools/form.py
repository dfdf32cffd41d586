"""The form of the vectors that the gate's programs replay, and of tools/readings: a line is a letter and its fields, with `|` between two.
In a text field the bytes from 32 to 126 stand for themselves but for `\\` and `|`; these and all others are `\\` and two hexadecimal
digits. Numbers and record files are in hexadecimal. A line of tools/readings has no letter: it is a text and the answer to it."""
import os
import re

ROOT = os.path.join(os.path.dirname(os.path.abspath(__file__)), "..")
ESCAPED = re.compile(r"\\([0-9a-f]{2})")


def plain(data):
    """Bytes as a text field."""
    return "".join(chr(b) if 32 <= b <= 126 and chr(b) not in "\\|" else "\\%02x" % b for b in data)


def data(field):
    """The bytes of a text field."""
    return ESCAPED.sub(lambda m: chr(int(m[1], 16)), field).encode("latin-1")


def line(letter, *fields):
    """A line, of fields that are made already."""
    return letter + "|".join(fields)


def numbers(values):
    """Numbers as the programs print them."""
    return "".join("%d " % v for v in values)


def file(*path):
    """What stands in a file of the repository, a character for each byte."""
    with open(os.path.join(ROOT, *path), encoding="latin-1", newline="") as f:
        return f.read()


def asked(program):
    """The lines that a program replays."""
    return file("crates", program, "stdin").split("\n")[:-1]


def readings():
    """The texts of tools/readings, each with its answer."""
    for row in file("tools", "readings").split("\n")[:-1]:
        text, answer = row.split("|")
        yield data(text), answer


def store(program, lines, answers):
    """Writes what a program replays, a mebibyte at most, and what it has to print."""
    size = sum(len(row) + 1 for row in lines)
    assert size <= 1 << 20, size
    for name, rows in ("stdin", lines), ("stdout", answers):
        with open(os.path.join(ROOT, "crates", program, name), "w", encoding="latin-1", newline="") as f:
            f.write("".join(row + "\n" for row in rows))
    print("%s: %d lines, %d bytes" % (program, len(lines), size))
