"""What each program of the gate has to print, by the model, line by line from what it is given; and whether that is what is stored."""
import functools
import os
import re
import struct

import form
import model
from form import numbers
from indexed import indexes


# ---- replay
def all_tokens(text):
    out = ""
    try:
        for t in model.tokens(text):
            out += numbers(t)
    except model.Refused as r:
        return out + "bad " + numbers(r.answer[1:])
    return out + "end"


def first(place, text):
    answer, *token = model.first_token(text, place)
    return numbers((*answer, *token))


def value(text):
    v = model.millionths(text)
    return "not" if v is None else "%s %d %s" % ("-" if v < 0 else "+", abs(v), model.written(v))


def word(text):
    number = model.key_number(text)
    return numbers([number]) if number else "value" if model.upper(text) in model.KNOWN else "none"


def one_record(r):
    """Its fields, x and y without their sign, and the bytes of a buffer of two records after it was put second."""
    fields = (r.kind, r.code, r.at, r.owner, r.start, r.length, r.x % 2**64, r.y % 2**64)
    return numbers(fields) + numbers(bytes(model.SIZE) + model.pack([r]))


def reading(text):
    answer, file = model.read(text, 147456)
    return model.answered(answer, file, ";")


def replay(line):
    letter, fields = line[0], line[1:].split("|")
    text = form.data(fields[-1])
    small = int(fields[0], 16) if letter in "fcp" else 0
    return {
        "t": lambda: all_tokens(text),
        "f": lambda: first(small, text),
        "n": lambda: value(text),
        "w": lambda: word(text),
        "c": lambda: numbers([model.code_of(small, text.decode("latin-1"))]),
        "l": lambda: reading(text),
        "p": lambda: "run %d \n" % small + model.listing(text),
        "r": lambda: "".join(one_record(r) for r in model.unpack(bytes.fromhex(fields[0]))) + "past",
    }[letter]()


# ---- checks
@functools.lru_cache(None)
def long_reading(n):
    """The records of n statements, each as its bytes."""
    return model.rows(model.pack(model.reading(b"VERSION 5 ;\n" * n + b"END LIBRARY")))


def long_check(n, held, step, odd, put):
    """The check of a file of `held` records against n statements: number i is the reading's (i * step) % n, but that at index `odd` is
    the reading's `put`, and foreign from n on."""
    records = long_reading(n)
    foreign = model.pack([model.record(model.Kind.VERSION, 12 * put, model.LIBRARY, x=5 * model.MILLION)])
    file = [records[i * step % n] if i != odd else records[put] if put < n else foreign for i in range(held)]
    return model.agreement(records, b"".join(file))


def checks(line):
    if line[0] == "m":
        given = bytes.fromhex(line[1:])
        return numbers(long_check(*(int.from_bytes(given[i : i + 3], "little") for i in range(0, 15, 3))))
    text, file = line[1:].split("|")
    return numbers(model.check(form.data(text), bytes.fromhex(file)))


# ---- writes
def writes(line):
    if line[0] == "a":
        return rewritten(form.data(line[1:]))
    room, text, file = line[1:].split("|")
    room = int(room, 16)
    answer, out = model.write(form.data(text), bytes.fromhex(file), room)
    return numbers(answer) + out.ljust(room, b"~").hex()


def rewritten(text):
    records = model.reading(text)
    return "refusal " + numbers(records) if isinstance(records, model.Answer) else model.canonical(text, records).hex()


# ---- lookups
def in_force(owner, kind, code, file):
    answer, index = model.in_force(file, owner, kind, code)
    return numbers((*answer, int(index is not None), index or 0))


def names(text, file):
    found = [model.name(text, file, i) for i in range(len(file) // model.SIZE + 1)]
    return "".join(";" + numbers([len(n), *n]) for n in found)


def chain(file, index):
    answer, count = model.owners(file, index)
    return ";" + numbers((*answer, count))


def long_chain(count, falling):
    """A chain of so many ports, each the owner of the next; the owners of the file's last record and of its first."""
    places = range(count)[::-1] if falling else range(count)
    file = model.pack([model.record(model.Kind.PORT, k, k - 1 if k else model.LIBRARY) for k in places])
    return chain(file, count - 1) + chain(file, 0)


def lookups(line):
    letter, fields = line[0], line[1:].split("|")
    if letter == "f":
        owner, kind, code = (int.from_bytes(bytes.fromhex(f), "little") for f in fields[:3])
        return in_force(owner, kind, code, bytes.fromhex(fields[3]))
    if letter == "n":
        return names(form.data(fields[0]), bytes.fromhex(fields[1]))
    given = bytes.fromhex(fields[0])
    if letter == "o":
        return "".join(chain(given, i) for i in range(len(given) // model.SIZE + 1))
    return long_chain(*struct.unpack("<I", given), letter == "d")


# ---- programs that take no lines
def measured(given):
    """The count of a text's records, or the check of the file after byte 255; `given` starts with a line that says how often."""
    text, mark, file = given.partition(b"\n")[2].partition(b"\xff")
    answer = model.check(text, file) if mark else model.read(text, 0)[0]
    return numbers(answer[:2]) + "\n"


def at_the_limit():
    """Spaces of one byte more than is read and of just as many, then both with a last byte that is not ASCII: screened, and read."""
    spaces = b" " * (model.LONGEST + 1)
    for text in (spaces, spaces[1:], spaces[:-1] + b"\x80", spaces[1:-1] + b"\x80"):
        yield "%d %d %d" % model.screened(text)
        yield "%d %d %d" % model.read(text, 0)[0]


def example():
    """The text of docs/RECORDS.md and its records, which the listing prints."""
    return [re.search("```%s\n(.*?)```" % name, form.file("docs", "RECORDS.md"), re.S)[1] for name in ("lef", "records")]


# An entry of docs/DIFFERENCES.md that says how a text is refused, or that it is read.
ENTRY = re.compile(r"^\| `([^`]+)` \| (?:refus(?:ed|al) (\d+) at (\d+)|(read))\b", re.M)


def entries():
    """Such entries: the text, and what is said of it."""
    for text, number, place, read in ENTRY.findall(form.file("docs", "DIFFERENCES.md")):
        yield text.encode("latin-1"), read or "refused %s at %s" % (number, place)


def entry(text):
    answer, _ = model.read(text, model.LONGEST)
    return "refused %d at %d" % answer[:2] if answer.number else "read"


LINES = {"replay": replay, "checks": checks, "writes": writes, "lookups": lookups, "indexes": indexes, "netlists": indexes}


def pairs(program):
    """Pairs of a question and the model's answer to it, in the stored order; the answers end with a newline and make up the output."""
    if program in LINES:
        return [(q, LINES[program](q) + "\n") for q in form.asked(program)]
    if program == "list":
        given = form.file("crates", "list", "stdin")
        return [("line %d" % i, a) for i, a in enumerate(model.listing(given.encode("latin-1")).splitlines(True), 1)]
    if program == "measure":
        given = form.file("crates", "measure", "stdin").encode("latin-1")
        return [("the only line", measured(given))]
    if program == "limit":
        return [("line %d" % i, a + "\n") for i, a in enumerate(at_the_limit(), 1)]
    if program == "readings":
        return [(form.plain(t), reading(t) + "\n") for t, _ in form.readings()]
    if program == "DIFFERENCES":
        return [(form.plain(t), entry(t) + "\n") for t, _ in entries()]
    return [("line %d" % i, a) for i, a in enumerate(model.listing(example()[0].encode()).splitlines(True), 1)]


def stored(program):
    """The output that is stored for a program; of the three that are no programs, what stands for it."""
    if program in ("readings", "DIFFERENCES"):
        return "".join(a + "\n" for _, a in (form.readings() if program == "readings" else entries()))
    if program == "RECORDS":
        return example()[1]
    return form.file("crates", program, "stdout")


PROGRAMS = list(LINES) + ["list", "limit", "measure", "readings", "RECORDS", "DIFFERENCES"]


def difference(said, place, answer):
    """Where an answer is not what stands at its place: the line of the output, what stands there, and what should."""
    lines, stored = answer.split("\n"), said[place:].split("\n")
    i = next(i for i, a in enumerate(lines) if stored[i : i + 1] != [a])
    return said.count("\n", 0, place) + 1 + i, stored[i] if i < len(stored) else "", lines[i]


def confirmed(program):
    """Compares all that is stored for a program with the model's answers, prints how many agree, or the first line that does not."""
    said, place, count = stored(program), 0, 0
    for question, answer in pairs(program):
        if not said.startswith(answer, place):
            line, theirs, ours = difference(said, place, answer)
            part = slice(max(0, len(os.path.commonprefix([theirs, ours])) - 100), None)
            print("%s: line %d differs\n  asked  %s\n  stored %s\n  model  %s" % (program, line, question, theirs[part][:300], ours[part][:300]))
            return False
        place, count = place + len(answer), count + 1
    if place != len(said) or not count:
        print("%s: line %d is stored, and nothing asks for it" % (program, said.count("\n", 0, place) + 1) if count else "%s: nothing is stored" % program)
        return False
    print("%s: %d answers confirmed" % (program, count))
    return True


def checked(program, lines):
    """What `--check` of a generator says: that the lines it makes are those stored, and that the model confirms their answers."""
    for i, (ours, theirs) in enumerate(zip(lines + [None], form.asked(program) + [None]), 1):
        if ours != theirs:
            print("%s: line %d asks otherwise than what is made here\n  stored %s\n  made   %s" % (program, i, theirs, ours))
            return False
    return confirmed(program)
