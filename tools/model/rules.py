"""The requests to come that change an answer of today, each with its switch, and the limits. NOW is what holds: all are off.

A request lands by turning its switch on here; until then nothing asks for it but a caller who hands in other rules. The requests that
only add calls need no switch: text that arrives in parts (2026-06) will join lexer.py, the salvage (2026-13) reader.py, geometry on the
grid (2026-14) files.py, and the tidying of 2026-11 writer.py.
2026-04 and 2026-08 change no answer, and 2026-09 says something of today's."""
from typing import NamedTuple

LONGEST = 16777216  # bytes of a text
MILLION = 1000000
GREATEST = 10000000 * MILLION  # the magnitude of a field


class Rules(NamedTuple):
    model_semicolon: bool = False  # 2026-03: ANTENNAMODEL ends with a semicolon
    numeral_place: bool = False  # 2026-05: refusal 9 names the byte at which the numeral cannot go on, and its line
    decimals: bool = False  # 2026-07: bytes 2 and 3 have how many decimals were written for x and for y
    layers: bool = False  # 2026-10: the mode that reads a LAYER at library level
    all_obs: bool = False  # 2026-11: OBS is of the kinds that all count
    retired: bool = False  # 2026-12: NAMESCASESENSITIVE gives no record, and a file that has one is refused 17


NOW = Rules()


class Answer(NamedTuple):
    """What comes back: the refusal, or 0 with a count for the place."""

    number: int
    place: int
    line: int


class Refused(Exception):
    """A refusal on its way to the call that answers with it."""

    def __init__(self, number, place, line=0):
        super().__init__(number, place, line)
        self.answer = Answer(number, place, line)
