"""Numerals: optional minus, digits with at most one point, at least one digit; the field holds a million times the exact value."""
import re

from .rules import GREATEST, MILLION

NUMERAL = re.compile(rb"(-?)([0-9]*)(?:\.([0-9]*))?")
PLACES = 6  # decimals of a field


def millionths(token):
    """A million times the value, or None if that is no whole number, passes the limit, or the token is no numeral."""
    m = NUMERAL.fullmatch(token)
    if not m or not (m[2] or m[3]):
        return None
    whole, part = m[2].lstrip(b"0"), (m[3] or b"").rstrip(b"0")
    if len(part) > PLACES or len(whole) > len(str(GREATEST // MILLION)):
        return None
    value = int(whole or b"0") * MILLION + int(part.ljust(PLACES, b"0"))
    if value > GREATEST:
        return None
    return -value if m[1] else value


def written(value, decimals=0):
    """The shortest numeral of that many millionths, with at least so many decimals."""
    whole, part = divmod(abs(value), MILLION)
    part = ("%06d" % part).rstrip("0").ljust(decimals, "0")
    return ("-" if value < 0 else "") + str(whole) + ("." + part if part else "")


def decimals(token):
    """How many decimals were written, six at most (2026-07)."""
    return min(PLACES, len(token.partition(b".")[2]))


def stuck(token):
    """The first byte at which a numeral that is refused cannot go on (2026-05): the second point, the first nonzero digit past the sixth
    decimal, or the digit that takes the magnitude past the limit, where that is a decimal the first nonzero one; or its stop."""
    value, point = 0, None
    for i, b in enumerate(token):
        if b == ord("."):
            if point is not None:
                return i
            point = i
        elif b != ord("-"):
            digit = b - ord("0")
            if point is None:
                value = 10 * value + digit
                if value * MILLION > GREATEST:
                    return i
            elif digit and (i - point > PLACES or value * MILLION == GREATEST):
                return i
    return len(token)
