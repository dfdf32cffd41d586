"""The token held ahead, what takes it, and the forms of statement that occur in more than one block."""
from . import numeral
from .lexer import END, NAME, NUMBER, SEMICOLON, lex, screen
from .record import CODES, Kind, code_of, record
from .rules import Refused
from .words import KEY_WORDS, VERSION_5_8, upper


class Taker:
    """Takes tokens and gives records. Taking a token first reads the next, so that refusal 3 there comes before any complaint; the place
    of a refusal is the end of the token then held, and its line that token's."""

    def __init__(self, text, rules):
        screen(text)
        self.text, self.rules, self.records = text, rules, []
        self.version = VERSION_5_8
        self.held = lex(text, 0, 1)

    def fail(self, number):
        raise Refused(number, self.held.stop, self.held.line)

    def take(self):
        """The token held; the next is read first. The end is never passed."""
        taken = self.held
        if taken.kind != END:
            self.held = lex(self.text, taken.stop, taken.line)
        return taken

    def word(self, token):
        return self.text[token.start : token.stop]

    def holds(self, kind):
        return self.held.kind == kind

    def expect(self, kind):
        taken = self.take()
        if taken.kind != kind:
            self.fail(4)
        return taken

    def semicolon(self):
        self.expect(SEMICOLON)

    def peek_key(self):
        """The key word held ahead, which is not taken."""
        if not self.holds(NAME):
            self.fail(4)
        return self.known(self.held)

    def get_key(self):
        return self.known(self.expect(NAME))

    def known(self, token):
        word = upper(self.word(token))
        if word not in KEY_WORDS:
            self.fail(5)
        return word

    def expect_key(self, key):
        if self.get_key() != key:
            self.fail(7)

    def expect_keyword(self, word):
        if upper(self.word(self.expect(NAME))) != word:
            self.fail(7)

    def expect_ident(self, name):
        """The identifier after END, compared exactly."""
        if self.word(self.expect(NAME)) != name:
            self.fail(7)

    def parse_enum(self, values):
        """One of these words."""
        word = upper(self.word(self.expect(NAME)))
        if word not in values:
            self.fail(6)
        return word

    def parse_number(self):
        """A numeral's millionths, and how many decimals the record keeps of it."""
        token = self.expect(NUMBER)
        word = self.word(token)
        value = numeral.millionths(word)
        if value is None and self.rules.numeral_place:
            raise Refused(9, token.start + numeral.stuck(word), token.line)
        if value is None:
            self.fail(9)
        return value, numeral.decimals(word) if self.rules.decimals else 0

    def put(self, kind, at, owner, code=0, name=None, x=(0, 0), y=(0, 0)):
        """A record; the name is its token, a number its value and its decimals."""
        start, length = (name.start, name.stop - name.start) if name else (0, 0)
        self.records.append(record(kind, at, owner, code, start, length, x[0], y[0], x[1] + 256 * y[1]))

    def parse_point(self):
        return {"x": self.parse_number(), "y": self.parse_number()}

    def parse_opening(self, kind, owner):
        """The opening key word and the name of a block, which is a record: its `at`, and its name's bytes."""
        at = self.take().start
        name = self.expect(NAME)
        self.put(kind, at, owner, name=name)
        return at, self.word(name)

    def parse_coded(self, kind, owner):
        """A key word, one word of the kind's values, and a semicolon."""
        at = self.take().start
        code = code_of(kind, self.parse_enum(CODES[kind]))
        self.semicolon()
        self.put(kind, at, owner, code)

    def parse_symmetries(self, owner):
        at = self.take().start
        self.put(Kind.SYMMETRY, at, owner)
        while not self.holds(SEMICOLON):
            start = self.held.start
            word = self.parse_enum(CODES[Kind.SYMMETRY_WORD])
            self.put(Kind.SYMMETRY_WORD, start, at, code_of(Kind.SYMMETRY_WORD, word))
        self.semicolon()

    def parse_size(self, owner):
        at = self.take().start
        x = self.parse_number()
        self.expect_key("BY")
        y = self.parse_number()
        self.semicolon()
        self.put(Kind.SIZE, at, owner, x=x, y=y)
