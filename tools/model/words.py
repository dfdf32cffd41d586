"""The words: the key words in the order of the original's list, and those that are only values or stand only in UNITS."""
from .record import CODES
from .rules import MILLION

KEY_WORDS = """LIBRARY VERSION FOREIGN ORIGIN SOURCE NAMESCASESENSITIVE NOWIREEXTENSIONATPIN MACRO END PIN PORT OBS LAYER DIRECTION USE SHAPE
 PATH POLYGON RECT VIA WIDTH CLASS SYMMETRY ROWPATTERN SITE SIZE BY BUSBITCHARS DIVIDERCHAR UNITS BEGINEXT TRISTATE INPUT OUTPUT INOUT
 FEEDTHRU EXCEPTPGNET DESIGNRULEWIDTH SPACING BUMP ANTENNAMODEL ANTENNADIFFAREA ANTENNAGATEAREA ANTENNAPARTIALMETALAREA
 ANTENNAPARTIALMETALSIDEAREA ANTENNAPARTIALCUTAREA ANTENNAPARTIALDIFFAREA ANTENNAMAXAREACAR ANTENNAMAXSIDEAREACAR ANTENNAMAXCUTCAR
 TAPERRULE NETEXPR SUPPLYSENSITIVITY GROUNDSENSITIVITY MUSTJOIN PROPERTY""".split()
# Units of other quantities than length.
OTHER_UNITS = "TIME CAPACITANCE RESISTANCE POWER CURRENT VOLTAGE FREQUENCY".split()
# What a pin may have in the reference and is not supported.
OTHER_OF_PIN = "TAPERRULE NETEXPR SUPPLYSENSITIVITY GROUNDSENSITIVITY MUSTJOIN PROPERTY".split()
# The values of SOURCE, which is refused before its value is taken.
OF_SOURCE = "NETLIST DIST TIMING USER".split()
KNOWN = set(KEY_WORDS + OTHER_UNITS + ["DATABASE", "MICRONS"]).union(*(v.split() for values in CODES.values() for v in values))
# The numbers of DATABASE MICRONS, and the versions, in millionths.
MICRONS = [n * MILLION for n in (100, 200, 400, 800, 1000, 2000, 4000, 8000, 10000, 20000)]
VERSIONS = [5 * MILLION + n * MILLION // 10 for n in range(9)]
VERSION_5_4, VERSION_5_8 = VERSIONS[4], VERSIONS[8]


def upper(word):
    """A word of a text in upper case, as it is compared; bytes above 127, which no text has that is read, stay apart."""
    return word.upper().decode("latin-1")


def key_number(word):
    """The number of a key word in its list, from 1, or 0."""
    w = upper(word)
    return KEY_WORDS.index(w) + 1 if w in KEY_WORDS else 0
