"""Reading a macro, as `parse_macro` of the original and the functions below it: pins, ports, obstructions and their geometry."""
from .lexer import NAME, SEMICOLON
from .record import CODES, EXCEPTPGNET, LIBRARY, WITH_POINT, Kind, code_of
from .taker import Taker
from .words import OTHER_OF_PIN, VERSION_5_4

CLASSES = CODES[Kind.MACRO_CLASS]


class MacroReader(Taker):
    def parse_macro(self):
        owner, name = self.parse_opening(Kind.MACRO, LIBRARY)
        while True:
            key = self.peek_key()
            if key == "CLASS":
                self.parse_macro_class(owner)
            elif key == "SITE":
                at = self.take().start
                site = self.expect(NAME)
                self.semicolon()
                self.put(Kind.MACRO_SITE, at, owner, name=site)
            elif key == "FOREIGN":
                self.parse_foreign(owner)
            elif key == "ORIGIN":
                at = self.take().start
                point = self.parse_point()
                self.semicolon()
                self.put(Kind.ORIGIN, at, owner, **point)
            elif key == "SIZE":
                self.parse_size(owner)
            elif key == "PIN":
                self.parse_pin(owner)
            elif key == "OBS":
                self.parse_obstructions(owner)
            elif key == "SYMMETRY":
                self.parse_symmetries(owner)
            elif key == "SOURCE":
                self.fail(5 if self.version > VERSION_5_4 else 8)
            elif key == "END":
                self.take()
                return self.expect_ident(name)
            else:
                self.fail(5)

    def parse_macro_class(self, owner):
        """The class, and after all but RING a word more: of ENDCAP it is due, and BUMP is asked for as a key word."""
        at = self.take().start
        value = self.parse_enum({c.split()[0] for c in CLASSES})
        seconds = {c.split()[1] for c in CLASSES if c.startswith(value + " ")}
        if value == "COVER" and not self.holds(SEMICOLON):
            self.expect_key("BUMP")
            value += " BUMP"
        elif value == "ENDCAP" or value not in ("COVER", "RING") and not self.holds(SEMICOLON):
            value += " " + self.parse_enum(seconds)
        self.semicolon()
        self.put(Kind.MACRO_CLASS, at, owner, code_of(Kind.MACRO_CLASS, value))

    def parse_foreign(self, owner):
        at = self.take().start
        cell = self.expect(NAME)
        code, point = 0, {}
        if not self.holds(SEMICOLON):
            code, point = WITH_POINT, self.parse_point()
        if self.holds(NAME):
            self.fail(8)
        self.semicolon()
        self.put(Kind.FOREIGN, at, owner, code, cell, **point)

    def parse_pin(self, macro):
        owner, name = self.parse_opening(Kind.PIN, macro)
        while True:
            key = self.peek_key()
            if key == "END":
                self.take()
                return self.expect_ident(name)
            if key == "PORT":
                self.parse_port(owner)
            elif key == "DIRECTION":
                self.parse_pin_direction(owner)
            elif key == "USE":
                self.parse_coded(Kind.USE, owner)
            elif key == "SHAPE":
                self.parse_coded(Kind.SHAPE, owner)
            elif key == "ANTENNAMODEL":
                self.parse_antenna_model(owner)
            elif key in CODES[Kind.ANTENNA]:
                self.parse_antenna(key, owner)
            else:
                self.fail(8 if key in OTHER_OF_PIN else 5)

    def parse_pin_direction(self, owner):
        at = self.take().start
        value = self.get_key()
        if value not in ("INPUT", "OUTPUT", "INOUT", "FEEDTHRU"):
            self.fail(6)
        if value == "OUTPUT" and not self.holds(SEMICOLON):
            self.expect_key("TRISTATE")
            value += " TRISTATE"
        self.semicolon()
        self.put(Kind.DIRECTION, at, owner, code_of(Kind.DIRECTION, value))

    def parse_antenna_model(self, owner):
        """Its word, and no semicolon; with 2026-03 a semicolon."""
        at = self.take().start
        value = self.parse_enum(CODES[Kind.ANTENNAMODEL])
        if self.rules.model_semicolon:
            self.semicolon()
        self.put(Kind.ANTENNAMODEL, at, owner, code_of(Kind.ANTENNAMODEL, value))

    def parse_antenna(self, key, owner):
        at = self.take().start
        x, layer = self.parse_number(), None
        if not self.holds(SEMICOLON):
            self.expect_key("LAYER")
            layer = self.expect(NAME)
        self.semicolon()
        self.put(Kind.ANTENNA, at, owner, code_of(Kind.ANTENNA, key), layer, x)

    def parse_port(self, pin):
        owner = self.take().start
        self.put(Kind.PORT, owner, pin)
        while True:
            key = self.peek_key()
            if key == "CLASS":
                self.parse_coded(Kind.PORT_CLASS, owner)
            elif not self.layer_or_end(key, owner):
                return

    def parse_obstructions(self, macro):
        owner = self.take().start
        self.put(Kind.OBS, owner, macro)
        while self.layer_or_end(self.peek_key(), owner):
            pass

    def layer_or_end(self, key, owner):
        """A layer is read; END is taken and ends the block."""
        if key == "LAYER":
            self.parse_layer_geometries(owner)
        elif key == "END":
            self.take()
        else:
            self.fail(5)
        return key == "LAYER"

    def parse_layer_geometries(self, block):
        owner = self.take().start
        self.put(Kind.LAYER, owner, block, name=self.expect(NAME))
        while not self.holds(SEMICOLON):
            at, key = self.held.start, self.get_key()
            if key not in CODES[Kind.LAYER_OPTION]:
                self.fail(5)
            code = code_of(Kind.LAYER_OPTION, key)
            x = (0, 0) if code == EXCEPTPGNET else self.parse_number()
            self.put(Kind.LAYER_OPTION, at, owner, code, x=x)
        self.semicolon()
        while True:
            key = self.peek_key()
            if key in ("LAYER", "END"):
                return
            self.parse_geometry(key, owner)

    def parse_geometry(self, key, owner):
        if key == "RECT":
            self.parse_rect(owner)
        elif key == "POLYGON":
            self.parse_points(Kind.POLYGON, 3, owner)
        elif key == "PATH":
            self.parse_points(Kind.PATH, 2, owner)
        elif key == "VIA":
            at = self.take().start
            if self.holds(NAME):
                self.fail(8)
            point, via = self.parse_point(), self.expect(NAME)
            self.semicolon()
            self.put(Kind.VIA, at, owner, name=via, **point)
        elif key == "WIDTH":
            at, x = self.take().start, self.parse_number()
            self.semicolon()
            self.put(Kind.WIDTH, at, owner, x=x)
        else:
            self.fail(5)

    def shape_point(self, owner):
        at = self.held.start
        self.put(Kind.POINT, at, owner, **self.parse_point())

    def parse_rect(self, owner):
        at = self.take().start
        self.put(Kind.RECT, at, owner)
        if self.holds(NAME):
            self.fail(8)
        self.shape_point(at)
        self.shape_point(at)
        self.semicolon()

    def parse_points(self, kind, least, owner):
        """Points up to a semicolon; that they are enough is tested before it is taken."""
        at = self.take().start
        self.put(kind, at, owner)
        count = 0
        while not self.holds(SEMICOLON):
            self.shape_point(at)
            count += 1
        if count < least:
            self.fail(6)
        self.semicolon()
