//! What the original's library keeps of a text, in a form that follows from the library as well as from a list of records.
//!
//! A thing that is kept is written `(KIND CODE NAME X Y PARTS)`. Kind, code, x and y are those of its record, numbers in
//! millionths. The name is the bytes of the record's name: letters, digits and `_` as they are, any other byte as `%` and
//! two hexadecimal digits, and `-` for a record without a name. The parts are the things whose owner it is, one after the
//! other with nothing between them; a library is written as its parts alone, the things of the library level.
//!
//! Of the things of one owner these are kept, in this order:
//! - kind by kind upwards, RECT, POLYGON and PATH (30 to 32) being one kind in this;
//! - of a kind that counts (8, 11, 13, 18, 23, 24, 27, 30 to 34) all, in the order of the text;
//! - of any other kind the one in force, which is the last in the text;
//! - of LAYER options (28) the EXCEPTPGNET in force and then the one in force among SPACING and DESIGNRULEWIDTH;
//! - the OBS in force (26) only if a layer stands in it: the original's library holds no trace of an empty one.
//!
//! So a second SYMMETRY, OBS or UNITS puts the first with all of its parts out of force, and whether a VIA stood before or
//! after a RECT is not told: the original keeps the shapes of a layer and its vias in two lists.
use crate::numbers::kept as number;
use lef21::*;
use std::fmt::Display;

const CLASSES: &str = "COVER/COVER BUMP/RING/BLOCK/BLOCK BLACKBOX/BLOCK SOFT/PAD/PAD INPUT/PAD OUTPUT/PAD INOUT/PAD POWER/\
PAD SPACER/PAD AREAIO/CORE/CORE FEEDTHRU/CORE TIEHIGH/CORE TIELOW/CORE SPACER/CORE ANTENNACELL/CORE WELLTAP/ENDCAP PRE/\
ENDCAP POST/ENDCAP TOPLEFT/ENDCAP TOPRIGHT/ENDCAP BOTTOMLEFT/ENDCAP BOTTOMRIGHT";
const ANTENNAS: &str = "ANTENNADIFFAREA/ANTENNAGATEAREA/ANTENNAPARTIALMETALAREA/ANTENNAPARTIALMETALSIDEAREA/\
ANTENNAPARTIALCUTAREA/ANTENNAPARTIALDIFFAREA/ANTENNAMAXAREACAR/ANTENNAMAXSIDEAREACAR/ANTENNAMAXCUTCAR";

/// The code of a value: where it stands among the values of its kind, from 1.
fn code(values: &str, value: impl Display) -> usize {
    let value = value.to_string();
    1 + values.split('/').position(|v| v == value).unwrap_or_else(|| panic!("{} is none of {}", value, values))
}

fn name(bytes: &str) -> String {
    let mut out = String::new();
    for b in bytes.bytes() {
        match b {
            b'A'..=b'Z' | b'a'..=b'z' | b'0'..=b'9' | b'_' => out.push(b as char),
            _ => out.push_str(&format!("%{:02X}", b)),
        }
    }
    out
}

fn thing(kind: u8, code: usize, name: &str, point: (&LefDecimal, &LefDecimal), parts: String) -> String {
    let name = if name.is_empty() { "-" } else { name };
    format!("({} {} {} {} {}{})", kind, code, name, number(point.0), number(point.1), parts)
}

const ZERO: LefDecimal = LefDecimal::ZERO;

fn block(kind: u8, called: &str, parts: String) -> String {
    thing(kind, 0, &name(called), (&ZERO, &ZERO), parts)
}
fn coded(kind: u8, code: usize) -> String {
    thing(kind, code, "", (&ZERO, &ZERO), String::new())
}
fn amount(kind: u8, x: &LefDecimal) -> String {
    thing(kind, 0, "", (x, &ZERO), String::new())
}
fn pair(kind: u8, x: &LefDecimal, y: &LefDecimal) -> String {
    thing(kind, 0, "", (x, y), String::new())
}

/// The form of a value that may be absent.
fn some<T>(value: &Option<T>, form: impl Fn(&T) -> String) -> String {
    value.as_ref().map(form).unwrap_or_default()
}
fn all<T>(values: &[T], form: impl Fn(&T) -> String) -> String {
    values.iter().map(form).collect()
}

pub fn library(l: &LefLibrary) -> String {
    some(&l.version, |v| amount(1, v))
        + &some(&l.bus_bit_chars, |(a, b)| block(2, &format!("{}{}", a, b), String::new()))
        + &some(&l.divider_char, |c| block(3, &c.to_string(), String::new()))
        + &some(&l.names_case_sensitive, |v| coded(4, code("ON/OFF", v)))
        + &some(&l.no_wire_extension_at_pin, |v| coded(5, code("ON/OFF", v)))
        + &some(&l.units, |u| block(6, "", some(&u.database_microns, |m| amount(7, &m.value().into()))))
        + &all(&l.sites, site)
        + &all(&l.macros, macro_)
}

fn symmetry(words: &Vec<LefSymmetry>) -> String {
    block(10, "", all(words, |w| coded(11, code("X/Y/R90", w))))
}

fn site(s: &LefSite) -> String {
    let class = coded(9, code("PAD/CORE", s.class));
    block(8, &s.name, class + &some(&s.symmetry, symmetry) + &pair(12, &s.size.0, &s.size.1))
}

fn macro_(m: &LefMacro) -> String {
    let parts = some(&m.symmetry, symmetry)
        + &some(&m.size, |(x, y)| pair(12, x, y))
        + &some(&m.class, |c| coded(14, code(CLASSES, class(c))))
        + &some(&m.site, |s| block(15, s, String::new()))
        + &some(&m.foreign, foreign)
        + &some(&m.origin, |p| pair(17, &p.x, &p.y))
        + &all(&m.pins, pin);
    let obs = if m.obs.is_empty() { String::new() } else { block(26, "", all(&m.obs, layer)) };
    block(13, &m.name, parts + &obs)
}

fn class(c: &LefMacroClass) -> String {
    fn typed(word: &str, tp: &Option<impl Display>) -> String {
        tp.as_ref().map(|t| format!("{} {}", word, t)).unwrap_or(word.to_string())
    }
    match c {
        LefMacroClass::Cover { bump: false } => "COVER".to_string(),
        LefMacroClass::Cover { bump: true } => "COVER BUMP".to_string(),
        LefMacroClass::Ring => "RING".to_string(),
        LefMacroClass::Block { tp } => typed("BLOCK", tp),
        LefMacroClass::Pad { tp } => typed("PAD", tp),
        LefMacroClass::Core { tp } => typed("CORE", tp),
        LefMacroClass::EndCap { tp } => format!("ENDCAP {}", tp),
    }
}

fn foreign(f: &LefForeign) -> String {
    match &f.pt {
        Some(p) => thing(16, 1, &name(&f.cell_name), (&p.x, &p.y), String::new()),
        None => block(16, &f.cell_name, String::new()),
    }
}

fn pin(p: &LefPin) -> String {
    let parts = some(&p.direction, |d| coded(19, code("INPUT/OUTPUT/OUTPUT TRISTATE/INOUT/FEEDTHRU", d)))
        + &some(&p.use_, |u| coded(20, code("SIGNAL/ANALOG/POWER/GROUND/CLOCK", u)))
        + &some(&p.shape, |s| coded(21, code("ABUTMENT/RING/FEEDTHRU", s)))
        + &some(&p.antenna_model, |m| coded(22, code("OXIDE1/OXIDE2/OXIDE3/OXIDE4", m)))
        + &all(&p.antenna_attrs, antenna)
        + &all(&p.ports, |q| block(24, "", some(&q.class, |c| coded(25, code("NONE/CORE/BUMP", c))) + &all(&q.layers, layer)));
    block(18, &p.name, parts)
}

/// An antenna amount. Its fields are private, and its key is the word as it was spelt.
fn antenna(a: &LefPinAntennaAttr) -> String {
    let shown = serde_json::to_value(a).unwrap();
    let value: LefDecimal = shown["val"].as_str().unwrap().parse().unwrap();
    let key = shown["key"].as_str().unwrap().to_ascii_uppercase();
    thing(23, code(ANTENNAS, key), &name(shown["layer"].as_str().unwrap_or("")), (&value, &ZERO), String::new())
}

fn layer(l: &LefLayerGeometries) -> String {
    let spacing = some(&l.spacing, |s| match s {
        LefLayerSpacing::Spacing(x) => thing(28, 2, "", (x, &ZERO), String::new()),
        LefLayerSpacing::DesignRuleWidth(x) => thing(28, 3, "", (x, &ZERO), String::new()),
    });
    let parts = if l.except_pg_net == Some(true) { coded(28, 1) } else { String::new() }
        + &spacing
        + &some(&l.width, |x| amount(29, x))
        + &all(&l.geometries, geometry)
        + &all(&l.vias, |v| thing(34, 0, &name(&v.via_name), (&v.pt.x, &v.pt.y), String::new()));
    block(27, &l.layer_name, parts)
}

fn geometry(g: &LefGeometry) -> String {
    let point = |p: &LefPoint| pair(33, &p.x, &p.y);
    match g {
        LefGeometry::Shape(LefShape::Rect(p, q)) => block(30, "", point(p) + &point(q)),
        LefGeometry::Shape(LefShape::Polygon(ps)) => block(31, "", all(ps, point)),
        LefGeometry::Shape(LefShape::Path(ps)) => block(32, "", all(ps, point)),
        LefGeometry::Iterate { .. } => panic!("never read"),
    }
}
