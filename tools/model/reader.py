"""Reading, as `parse_lib` of the original: the library level, UNITS and SITE; macros are read in macro.py."""
from .lexer import NAME, STRING
from .macro import MacroReader
from .record import LIBRARY, SIZE, Kind, pack
from .rules import NOW, Answer, Refused
from .words import MICRONS, OTHER_UNITS, VERSION_5_4, VERSIONS, upper


class Reader(MacroReader):
    def parse_lib(self):
        """All statements up to END LIBRARY: where that word stops."""
        while True:
            key = self.peek_key()
            if key == "MACRO":
                self.parse_macro()
            elif key == "VERSION":
                self.parse_version()
            elif key == "BUSBITCHARS":
                self.parse_quoted(Kind.BUSBITCHARS, 2)
            elif key == "DIVIDERCHAR":
                self.parse_quoted(Kind.DIVIDERCHAR, 1)
            elif key == "NAMESCASESENSITIVE":
                if self.version > VERSION_5_4:
                    self.fail(5)
                self.parse_coded(Kind.NAMESCASESENSITIVE, LIBRARY)
            elif key == "NOWIREEXTENSIONATPIN":
                self.parse_coded(Kind.NOWIREEXTENSIONATPIN, LIBRARY)
            elif key == "UNITS":
                self.parse_units()
            elif key == "SITE":
                self.parse_site_def()
            elif key == "END":
                self.take()
                stop = self.held.stop
                self.expect_key("LIBRARY")
                return stop
            else:
                self.fail(8 if key == "BEGINEXT" else 5)

    def parse_version(self):
        at = self.take().start
        x = self.parse_number()
        self.semicolon()
        if x[0] not in VERSIONS:
            self.fail(6)
        self.version = x[0]
        self.put(Kind.VERSION, at, LIBRARY, x=x)

    def parse_quoted(self, kind, length):
        at = self.take().start
        quote = self.expect(STRING)
        if quote.stop - quote.start != length + 2:
            self.fail(6)
        self.semicolon()
        self.put(kind, at, LIBRARY, name=quote._replace(start=quote.start + 1, stop=quote.stop - 1))

    def parse_units(self):
        owner = self.take().start
        self.put(Kind.UNITS, owner, LIBRARY)
        while True:
            token = self.expect(NAME)
            word = upper(self.word(token))
            if word == "DATABASE":
                self.expect_keyword("MICRONS")
                x = self.parse_number()
                self.semicolon()
                if x[0] not in MICRONS:
                    self.fail(6)
                self.put(Kind.DATABASE_MICRONS, token.start, owner, x=x)
            elif word == "END":
                self.expect_keyword("UNITS")
                return
            else:
                self.fail(8 if word in OTHER_UNITS else 5)

    def parse_site_def(self):
        owner, name = self.parse_opening(Kind.SITE, LIBRARY)
        seen = set()
        while True:
            key = self.peek_key()
            if key == "END":
                self.take()
                self.expect_ident(name)
                break
            if key == "CLASS":
                self.parse_coded(Kind.SITE_CLASS, owner)
            elif key == "SYMMETRY":
                self.parse_symmetries(owner)
            elif key == "SIZE":
                self.parse_size(owner)
            else:
                self.fail(8 if key == "ROWPATTERN" else 6)
            seen.add(key)
        if not {"CLASS", "SIZE"} <= seen:
            self.fail(10)


def reading(text, rules=NOW):
    """The records of a text by rising `at`, or the Answer that refuses it."""
    if rules.layers:
        raise NotImplementedError("2026-10: routing layers, in a mode of their own")
    try:
        reader = Reader(text, rules)
        reader.parse_lib()
    except Refused as r:
        return r.answer
    records = [r for r in reader.records if not (rules.retired and r.kind == Kind.NAMESCASESENSITIVE)]
    return sorted(records, key=lambda r: r.at)


def closing(text, rules=NOW):
    """Where the closing LIBRARY of a text that reads stops."""
    return Reader(text, rules).parse_lib()


def read(text, room, rules=NOW):
    """Reads into a buffer of so many bytes: the answer, and the bytes at the buffer's front that it changes."""
    records = reading(text, rules)
    if isinstance(records, Answer):
        return records, b""
    if SIZE * len(records) > room:
        return Answer(11, len(records), 0), b""
    return Answer(0, len(records), 0), pack(records)
