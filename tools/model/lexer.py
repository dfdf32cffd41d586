"""Tokens, and the screen that comes before everything."""
import re
from typing import NamedTuple

from .rules import LONGEST, Answer, Refused

END, NAME, NUMBER, SEMICOLON, STRING = range(5)
BLANKS = re.compile(rb"(?:[\t-\r ]+|#[^\n]*)*")
TOKEN = re.compile(rb'([A-Za-z][^\t-\r ]*)|([-0-9][0-9.]*)|(;)|("[^"]*"?)')
HIGH = re.compile(rb"[\x80-\xff]")


class Token(NamedTuple):
    """A token from start to stop; the line is that of its start. At the end of the text both are its length."""

    kind: int
    start: int
    stop: int
    line: int


def screen(text):
    """Refuses 1 and 2."""
    if len(text) > LONGEST:
        raise Refused(1, 0)
    high = HIGH.search(text)
    if high:
        raise Refused(2, high.start())


def screened(text):
    """The screen's answer: 1 or 2, or three zeros."""
    try:
        screen(text)
    except Refused as r:
        return r.answer
    return Answer(0, 0, 0)


def lex(text, at, line):
    """The token that is first from `at` on, a place of that line. Between tokens stand blanks, newlines and comments, so that no newline
    counted here is between quotes."""
    start = BLANKS.match(text, at).end()
    line += text.count(b"\n", at, start)
    if start == len(text):
        return Token(END, start, start, line)
    m = TOKEN.match(text, start)
    if not m:
        raise Refused(3, start, line)
    return Token(m.lastindex, start, m.end(), line)


def tokens(text):
    """All tokens of a text that was screened; refused 3 when they come to such a byte."""
    at, line = 0, 1
    while True:
        t = lex(text, at, line)
        if t.kind == END:
            return
        yield t
        at, line = t.stop, t.line


def first_token(text, place):
    """The first token from a place on, as answer, kind, start and stop. Lines count from the place."""
    try:
        screen(text)
        t = lex(text, min(place, len(text)), 1)
    except Refused as r:
        return r.answer, 0, 0, 0
    return Answer(0, 0, 0), t.kind, t.start, t.stop
