"""The texts that the original and this library are asked about, by a seed: pairs of a group's name and a text. All are ASCII.

grammar   from the grammar
damaged   copies of such texts with tokens or bytes dropped, changed, doubled, swapped, put in or cut off
words     at every place where a token is judged every known word (key words, value words, words of the LEF reference), and
          numerals and other tokens that are out of the ordinary
short     all texts of a few tokens of a small alphabet, after the opening of each block or statement
"""
import itertools, random, re
from grammar import EDGES, Grammar, laid, model

# words of the reference that neither the original nor this library knows
REFERENCE = """PROPERTYDEFINITIONS MANUFACTURINGGRID CLEARANCEMEASURE FIXEDMASK USEMINSPACING MAXVIASTACK VIARULE NONDEFAULTRULE ARRAY
 ENDEXT EEQ DENSITY SITEPATTERN LEQ ITERATE MASK DO STEP TYPE ROUTING CUT OFFSET PITCH SPACINGTABLE MINSIZE INOUTS DATABASEMICRONS
 ANTENNASIZE ANTENNAMETALAREA ANTENNAMETALLENGTH CURRENTSOURCE TIMING ENDTIMING POWERS RISETHRESH SCANUSE NETLIST GENERATE R0 R180 N
 FS MY90 OXIDE5 OXIDE VIRTUAL BUMPS LEF58_TYPE BEGINEXTENSION""".split()
# what opens a place where a word is judged, and what closes it
CLOSE = {"L": "END LIBRARY", "U": "END UNITS END LIBRARY", "S": "END s END LIBRARY", "M": "END m END LIBRARY",
         "P": "END p END m END LIBRARY", "Q": "END END p END m END LIBRARY", "O": "END END m END LIBRARY"}
PLACES = """L:|L:VERSION 5.4 ;|L:VERSION|L:VERSION 5.4|L:BUSBITCHARS|L:BUSBITCHARS "[]"|L:DIVIDERCHAR "/"|L:NOWIREEXTENSIONATPIN
L:NOWIREEXTENSIONATPIN ON|L:VERSION 5.4 ; NAMESCASESENSITIVE|L:END|L:END LIBRARY|L:MACRO|L:SITE|U:UNITS|U:UNITS DATABASE
U:UNITS DATABASE MICRONS|U:UNITS DATABASE MICRONS 100|U:UNITS DATABASE MICRONS 100 ;|L:UNITS END|S:SITE s
S:SITE s CLASS CORE ; SIZE 1 BY 1 ;|S:SITE s SIZE 1 BY 1 ; CLASS|S:SITE s CLASS PAD|S:SITE s CLASS PAD ; SIZE|S:SITE s CLASS PAD ; SIZE 1
S:SITE s CLASS PAD ; SIZE 1 BY|S:SITE s CLASS PAD ; SIZE 1 BY 1|S:SITE s SYMMETRY|S:SITE s SYMMETRY X|L:SITE s CLASS PAD ; SIZE 1 BY 1 ; END
M:MACRO m|M:VERSION 5.4 ; MACRO m|M:VERSION 5.4 ; MACRO m SOURCE|M:MACRO m CLASS|M:MACRO m CLASS COVER|M:MACRO m CLASS RING
M:MACRO m CLASS BLOCK|M:MACRO m CLASS PAD|M:MACRO m CLASS CORE|M:MACRO m CLASS ENDCAP|M:MACRO m CLASS ENDCAP PRE|M:MACRO m CLASS CORE TIELOW
M:MACRO m SITE|M:MACRO m SITE s|M:MACRO m FOREIGN|M:MACRO m FOREIGN f|M:MACRO m FOREIGN f 0|M:MACRO m FOREIGN f 0 0|M:MACRO m ORIGIN
M:MACRO m ORIGIN 0|M:MACRO m ORIGIN 0 0|M:MACRO m SIZE|M:MACRO m SIZE 1|M:MACRO m SIZE 1 BY|M:MACRO m SYMMETRY|L:MACRO m END|M:MACRO m PIN
P:MACRO m PIN p|P:MACRO m PIN p DIRECTION|P:MACRO m PIN p DIRECTION INPUT|P:MACRO m PIN p DIRECTION OUTPUT
P:MACRO m PIN p DIRECTION OUTPUT TRISTATE|P:MACRO m PIN p USE|P:MACRO m PIN p USE CLOCK|P:MACRO m PIN p SHAPE|P:MACRO m PIN p ANTENNAMODEL
P:MACRO m PIN p ANTENNAMODEL OXIDE1|P:MACRO m PIN p ANTENNAGATEAREA|P:MACRO m PIN p ANTENNAGATEAREA 1|P:MACRO m PIN p ANTENNAGATEAREA 1 LAYER
P:MACRO m PIN p ANTENNAGATEAREA 1 LAYER l|M:MACRO m PIN p END|Q:MACRO m PIN p PORT|Q:MACRO m PIN p PORT CLASS|Q:MACRO m PIN p PORT CLASS CORE
Q:MACRO m PIN p PORT LAYER|Q:MACRO m PIN p PORT LAYER l ;|P:MACRO m PIN p PORT END|O:MACRO m OBS|O:MACRO m OBS LAYER|O:MACRO m OBS LAYER l
O:MACRO m OBS LAYER l SPACING|O:MACRO m OBS LAYER l SPACING 1|O:MACRO m OBS LAYER l DESIGNRULEWIDTH|O:MACRO m OBS LAYER l EXCEPTPGNET
O:MACRO m OBS LAYER l ;|O:MACRO m OBS LAYER l ; WIDTH|O:MACRO m OBS LAYER l ; WIDTH 1|O:MACRO m OBS LAYER l ; RECT|O:MACRO m OBS LAYER l ; RECT 0 0
O:MACRO m OBS LAYER l ; RECT 0 0 1 1|O:MACRO m OBS LAYER l ; POLYGON|O:MACRO m OBS LAYER l ; POLYGON 0 0 1 1|O:MACRO m OBS LAYER l ; PATH
O:MACRO m OBS LAYER l ; PATH 0 0|O:MACRO m OBS LAYER l ; VIA|O:MACRO m OBS LAYER l ; VIA 0|O:MACRO m OBS LAYER l ; VIA 0 0
O:MACRO m OBS LAYER l ; VIA 0 0 v|M:MACRO m OBS END|M:MACRO m OBS LAYER l ; END"""
PLACES = [tuple(p.split(":", 1)[::-1]) for p in re.split(r"\||\n", PLACES)]
# an opening, how many tokens at most after it, of which alphabet, and what closes
SHORT = [
    ("", 4, "END LIBRARY library VERSION 5.4 NAMESCASESENSITIVE ON ; MACRO x BEGINEXT", ""),
    ("", 3, 'END LIBRARY VERSION 5 UNITS SITE CLASS CORE SIZE 1 BY ; x "[]" BUSBITCHARS', "END LIBRARY"),
    ("VERSION", 4, "5.8 5.9 5.80 5.81 -5 6 ; x VERSION", "END LIBRARY"),
    ("BUSBITCHARS", 3, '"" "a" "ab" "abc" "\n\n" ; a" "', "; END LIBRARY"),
    ("DIVIDERCHAR", 3, '"" "a" "ab" "\n" ";" ; a "', "; END LIBRARY"),
    ("END LIBRARY", 3, '; # " @ x 1 - END "x" _', ""),
    ("UNITS", 4, "DATABASE MICRONS 100 1000 3 ; END UNITS TIME x", "END UNITS END LIBRARY"),
    ("UNITS DATABASE MICRONS", 3, "100 200 100.0 10.0 400.00 20000 -100 0 ; END", "; END UNITS END LIBRARY"),
    ("SITE s", 4, "CLASS CORE ; SIZE 1 BY END s S ROWPATTERN", "END LIBRARY"),
    ("SITE s CLASS CORE ;", 5, "SIZE 1 BY ; SYMMETRY X END s", "END LIBRARY"),
    ("MACRO m", 4, "CLASS COVER BUMP ; RING SITE x FOREIGN 1 END m", "END m END LIBRARY"),
    ("MACRO m FOREIGN f", 4, "0 1.5 - ; N FOREIGN f END m", "END m END LIBRARY"),
    ("VERSION 5.4 ; MACRO m", 3, "SOURCE USER ; NETLIST END m VERSION 5.5", "END m END LIBRARY"),
    ("MACRO m PIN p", 4, "DIRECTION INPUT OUTPUT TRISTATE ; USE ANTENNAMODEL OXIDE1 END p", "END p END m END LIBRARY"),
    ("MACRO m PIN p ANTENNAGATEAREA", 4, "1 ; LAYER l x ANTENNADIFFAREA END", "; END p END m END LIBRARY"),
    ("MACRO m PIN p PORT", 4, "CLASS CORE ; LAYER l WIDTH 1 END p", "END p END m END LIBRARY"),
    ("MACRO m OBS LAYER l", 4, "SPACING DESIGNRULEWIDTH EXCEPTPGNET 1 2 ; x LAYER END", "; END END m END LIBRARY"),
    ("MACRO m OBS LAYER l ;", 5, "RECT POLYGON 0 1 ; VIA v", "END END m END LIBRARY"),
    ("MACRO m OBS LAYER l ; PATH 0", 5, "0 1 ; - x LAYER", "; END END m END LIBRARY"),
    ("MACRO m OBS LAYER l ; POLYGON 0 0 1", 4, "0 1 ; - x LAYER", "; END END m END LIBRARY"),
    ("MACRO m OBS LAYER l ; RECT 0 0", 4, "0 -1 1.5 ; x END", "; END END m END LIBRARY"),
    ("MACRO m OBS LAYER l ; WIDTH 1 ;", 4, "WIDTH 2 ; LAYER k END OBS", "END END m END LIBRARY"),
]
# tokens out of the ordinary
HARSH = """5. -.5 -. - 1.2.3 0.0000001 10000001 10000000.000001 1..2 99999999999999999999999999999999999 79228162514264337593543950336
 000000000000000000000000000000000000000. 0.00000000000000000000000000001 4.9999999999999999999999999999999999 @ " _ +1 .5 x; ;; #""".split()


def words(sources):
    """The words of the original's lists and of its reader, by the model's lists where no sources are given, and those of the reference."""
    if not sources:
        return sorted(model.KNOWN.union(model.OF_SOURCE, ["EOF"])) + REFERENCE
    lib, read = (open(sources + "/" + f).read() for f in ("lib.rs", "read.rs"))
    return sorted(set(re.findall(r'\w+: "([A-Z0-9]+)"', lib)) | set(re.findall(r'"([A-Z]+)"', read))) + REFERENCE


def damaged(rng, tokens, known):
    """A copy of a text, damaged once or twice."""
    tokens = list(tokens)
    plain = [";", "1", "x", "-2.5", '"ab"', "END"]
    strange = lambda: rng.choice((rng.choice(known), rng.choice(known).lower(), rng.choice(tokens).decode(), rng.choice(plain), rng.choice(HARSH))).encode()
    for _ in range(rng.choice((0, 1, 1, 1, 2))):
        i, how = rng.randrange(len(tokens)), rng.randrange(7)
        if how == 0:
            tokens[i : i + 1] = []
        elif how == 1:
            tokens[i:i] = [tokens[i]]
        elif how == 2:
            tokens[i : i + 2] = tokens[i : i + 2][::-1]
        elif how == 3:
            tokens[i:i] = [strange()]
        elif how == 4:
            j = rng.randrange(i, min(len(tokens), i + 8))
            tokens[i : j + 1] = tokens[i : j + 1] * 2 if rng.random() < 0.5 else []
        else:
            tokens[i] = strange() if how < 6 or rng.random() < 0.8 else tokens[i].swapcase()
        tokens = tokens or [b";"]
    text = bytearray(laid(rng, tokens))
    for _ in range(rng.choice((0, 0, 1, 1, 2))):
        i, how = rng.randrange(len(text) + 1), rng.randrange(6)
        byte = rng.choice((rng.choice(b' \n\t;"#-.019aZ@_\x0b\r'), rng.randrange(128)))
        if how == 0:
            del text[i : i + 1]
        elif how == 1:
            text[i:i] = text[i : i + 1]
        elif how == 2:
            text[i : i + 2] = text[i : i + 2][::-1]
        elif how == 3:
            text[i : i + 1] = [byte]
        elif how == 4:
            text[i:i] = [byte]
        elif rng.random() < 0.5:
            del text[i:]
    return bytes(text)


def texts(sources, seed, share):
    """`share` is how much of the random groups to make, 1 for the usual number."""
    rng = random.Random(seed)
    known, grammar = words(sources), Grammar(rng)
    for _ in range(int(50000 * share)):
        yield "grammar", laid(rng, grammar.library(rng.choice((0, 1, 1, 2, 5))))
    for _ in range(int(20000 * share)):
        tokens = grammar.library(rng.choice((0, 1, 1, 2)))
        for _ in range(5):
            yield "damaged", damaged(rng, tokens, known)
    for opening, close in PLACES:
        for w in known + HARSH + EDGES:
            for after in ("", " ;", " x ;", " 1 2 ;"):
                yield "words", ("%s %s%s %s" % (opening, rng.choice((w, w, w.lower())), after, CLOSE[close])).encode()
    for opening, most, alphabet, close in SHORT:
        for n in range(most + 1):
            for middle in itertools.product(alphabet.split(" "), repeat=n):
                yield "short", " ".join((opening,) + middle + (close,)).strip(" ").encode()
    for opening in ("END LIBRARY", "END", 'BUSBITCHARS "', "VERSION 5", "MACRO m END m"):
        for n in range(5):
            for middle in itertools.product(b';"#-.1a \n@', repeat=n):
                yield "short", opening.encode() + bytes(middle)
