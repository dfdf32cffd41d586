"""A model of reading, checking, writing and finding: the rules in plain Python, for the tools beside it and for nothing else.

It is written from the words of the rules and from the source of the original, which decides what is read, and shares nothing with the
crates of this repository: the reader has a function for each of the original's, and no table. Answers are plain values. A refusal is an
Answer of number, place and line; records are tuples in the layout's order; texts and record files are bytes. rules.py has a switch for
each request to come."""
from .files import agreement, check, counting, in_force, name, owners
from .index import ANSWER, ENTRY, INDEXED, NOWHERE, QUERY, Query, build, consult, entries, find, find_many, index_of
from .lexer import END, NAME, NUMBER, SEMICOLON, STRING, Token, first_token, lex, screened, tokens
from .listing import answered, listing
from .numeral import millionths, written
from .reader import closing, read, reading
from .record import (CODES, COUNTING, KEYS, LIBRARY, PARTS, SIZE, WITH_POINT, Kind, Record, aside, code_of, named, pack, parsed, printed,
                     record, rows, unpack)
from .rules import GREATEST, LONGEST, MILLION, NOW, Answer, Refused, Rules
from .words import KEY_WORDS, KNOWN, MICRONS, OF_SOURCE, VERSIONS, key_number, upper
from .writer import canonical, write
