"""What the programs indexes and netlists have to print, by the model, line by line from what it is given."""
import functools

import form
import model
from form import numbers


def found(text, file, index, owner, name):
    answer, at = model.find(text, file, index, owner, name)
    return numbers((*answer, *((0, 0) if at == model.NOWHERE else (1, at))))


def built(text, file, room):
    answer, index = model.build(text, file, room)
    return numbers(answer) + index.ljust(room, b"~").hex()


def masked(text, file, index, mask):
    """The checks of the index with each of its bytes changed in turn."""
    return "".join(numbers(model.consult(text, file, index[:i] + bytes([index[i] ^ mask]) + index[i + 1 :])) for i in range(len(index)))


@functools.lru_cache(1 << 16)
def alone(text, file, index, owner, name):
    """The `at` of a look-up by itself."""
    return model.find(text, file, index, owner, name)[1]


def many(text, file, index, field):
    """The buffer of so many bytes after the look-ups in one call, and the `at` of each query by itself."""
    room, (queries, names) = int(field[:4], 16), field[4:].split(":", 1)
    queries, names = bytes.fromhex(queries), form.data(names)
    answer, out = model.find_many(text, file, index, names, queries, room)
    asked = [model.Query(*model.QUERY.unpack_from(queries, i)) for i in range(0, len(queries) - model.QUERY.size + 1, model.QUERY.size)]
    return numbers(answer) + out.ljust(room, b"~").hex() + " " + numbers(alone(text, file, index, q.owner, model.named(names, q)) for q in asked)


def beside(letter, text, file, index, field):
    """The answer to a question of a line that has one index for all of them."""
    if letter == "n":
        return many(text, file, index, field)
    given = form.data(field[16:]) if letter == "q" else bytes.fromhex(field)
    if letter == "e":
        return masked(text, file, index, given[0])
    if letter == "p":
        held = model.entries(index)
        return numbers(model.consult(text, file, b"".join(held[p] for p in given)))
    return found(text, file, index, int.from_bytes(bytes.fromhex(field[:16]), "little"), given)


def summed(data):
    """A sum that tells an order from another."""
    return functools.reduce(lambda s, b: (31 * s + b) % 16777213, data, 0)


def long_index(n, step, names, odd, put, every):
    """The index of one macro with n pins, of which number i is named by (i * step) % names: the answer of building it and a sum of its
    bytes, where the first pin is that `put` names, for `every` the answer of asking for every pin and for one more in one call and a sum of
    what is answered, and the check after the entry at `odd` was made the one at `put`."""
    named = lambda k: b"p" + bytes(97 + (k >> bits) % 16 for bits in (12, 8, 4, 0))
    text = b"MACRO m\n" + b"".join(b"PIN %s END %s\n" % (2 * (named(i * step % names),)) for i in range(n)) + b"END m\nEND LIBRARY\n"
    file = model.pack(model.reading(text))
    answer, index = model.build(text, file, len(file))
    parts = [numbers((*answer, summed(index))), found(text, file, index, 0, named(put))]
    if every:
        asked = b"".join(model.QUERY.pack(0, 12 + 20 * i, 5) for i in range(n + 1))
        told, ats = model.find_many(text, file, index, text, asked, 4 * (n + 1))
        parts.append(numbers((*told, summed(ats))))
    held = model.entries(index)
    held[odd] = held[put]
    parts.append(numbers(model.consult(text, file, b"".join(held))))
    return "".join(";" + p for p in parts)


def indexes(line):
    letter, fields = line[0], line[1:].split("|")
    if letter in "ml":
        given = bytes.fromhex(fields[0])
        return long_index(*(int.from_bytes(given[i : i + 3], "little") for i in range(0, 15, 3)), letter == "l")
    text, file = form.data(fields[0]), bytes.fromhex(fields[1])
    if letter == "b":
        return "".join(";" + built(text, file, int(room, 16)) for room in fields[2:])
    if letter == "c":
        return "".join(";" + numbers(model.consult(text, file, bytes.fromhex(index))) for index in fields[2:])
    return "".join(";" + beside(letter, text, file, bytes.fromhex(fields[2]), field) for field in fields[3:])
