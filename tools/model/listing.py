"""What the listing program prints of a text."""
from .reader import read
from .record import SIZE, printed, unpack

LONGEST_LISTED = 65536
ROOM = 1820 * SIZE


def answered(answer, file, between):
    """The records with something between them, or the refusal."""
    if answer.number:
        return "refusal %d %d %d" % answer
    return between.join(printed(r) for r in unpack(file))


def listing(text):
    """All lines of the listing of a text."""
    if len(text) > LONGEST_LISTED:
        return "too long\n"
    answer, file = read(text, ROOM)
    said = answered(answer, file, "\n")
    return said + ("\n" if said else "") + ("" if answer.number else "%d records\n" % answer.place)
