#!/usr/bin/env python3
"""placement.py IN.lef FILE.rec: the directions of a library's pins by a record file that another program made, by lef.py. The file is checked
against the text first, and then what it says is what any other program reads from it.

Exit status: 0 done, 1 refused, 2 wrong usage or a system error."""
import sys
from typing import Dict, List

import lef
from lef import Kind

# Words by code; `-` stands for none.
DIRECTIONS = "-", "INPUT", "OUTPUT", "OUTPUT TRISTATE", "INOUT", "FEEDTHRU"


def print_directions(name: str, file_name: str) -> None:
    with open(name, "rb") as f:
        text = f.read(lef.TEXT_LIMIT + 1)
    with open(file_name, "rb") as f:
        file = f.read()
    lef.check(text, file)
    macros: Dict[int, str] = {}
    directions: Dict[int, int] = {}
    # The file may have any order; by rising `at` an owner stands before what it encloses, and of several directions the last holds.
    records = sorted(lef.records(file), key=lambda r: r.at)
    for r in records:
        if r.kind == Kind.MACRO:
            macros[r.at] = r.name(text).decode("ascii")
        elif r.kind == Kind.DIRECTION:
            directions[r.owner] = r.code
    for r in records:
        if r.kind == Kind.PIN:
            print("%s %s: %s" % (macros[r.owner], r.name(text).decode("ascii"), DIRECTIONS[directions.get(r.at, 0)]))
    sys.stdout.flush()


def main(given: List[str]) -> int:
    if len(given) != 2:
        print("usage: placement.py IN.lef FILE.rec", file=sys.stderr)
        return 2
    try:
        print_directions(*given)
        return 0
    except lef.Refusal as refusal:
        print("%s, %s: %s" % (given[0], given[1], refusal), file=sys.stderr)
        return 1
    except OSError as e:
        print("placement.py: %s" % e, file=sys.stderr)
        return 2


if __name__ == "__main__":
    sys.exit(main(sys.argv[1:]))
