/* Kinds and codes by name, and records in words. */
#include "command.h"

#include <inttypes.h>

#define MOST_CODES 26

/* A kind's word, or one that is no word of LEF where the record has none of its own; how many numbers it has, and whether they are
 * lengths; and the words of its codes from 1 on. */
static const struct {
    const char *word;
    int numbers, are_lengths;
    const char *codes[MOST_CODES];
} KINDS[] = {
    [LEF_VERSION] = {"VERSION", 1, 0, {0}},
    [LEF_BUSBITCHARS] = {"BUSBITCHARS", 0, 0, {0}},
    [LEF_DIVIDERCHAR] = {"DIVIDERCHAR", 0, 0, {0}},
    [LEF_NAMESCASESENSITIVE] = {"NAMESCASESENSITIVE", 0, 0, {"ON", "OFF"}},
    [LEF_NOWIREEXTENSIONATPIN] = {"NOWIREEXTENSIONATPIN", 0, 0, {"ON", "OFF"}},
    [LEF_UNITS] = {"UNITS", 0, 0, {0}},
    [LEF_DATABASE_MICRONS] = {"DATABASE MICRONS", 1, 0, {0}},
    [LEF_SITE] = {"SITE", 0, 0, {0}},
    [LEF_SITE_CLASS] = {"CLASS", 0, 0, {"PAD", "CORE"}},
    [LEF_SYMMETRY] = {"SYMMETRY", 0, 0, {0}},
    [LEF_SYMMETRY_WORD] = {"symmetry", 0, 0, {"X", "Y", "R90"}},
    [LEF_SIZE] = {"SIZE", 2, 1, {0}},
    [LEF_MACRO] = {"MACRO", 0, 0, {0}},
    [LEF_MACRO_CLASS] = {"CLASS", 0, 0,
                         {"COVER", "COVER BUMP", "RING", "BLOCK", "BLOCK BLACKBOX", "BLOCK SOFT", "PAD", "PAD INPUT", "PAD OUTPUT", "PAD INOUT",
                          "PAD POWER", "PAD SPACER", "PAD AREAIO", "CORE", "CORE FEEDTHRU", "CORE TIEHIGH", "CORE TIELOW", "CORE SPACER",
                          "CORE ANTENNACELL", "CORE WELLTAP", "ENDCAP PRE", "ENDCAP POST", "ENDCAP TOPLEFT", "ENDCAP TOPRIGHT",
                          "ENDCAP BOTTOMLEFT", "ENDCAP BOTTOMRIGHT"}},
    [LEF_MACRO_SITE] = {"SITE", 0, 0, {0}},
    [LEF_FOREIGN] = {"FOREIGN", 2, 1, {"at"}},
    [LEF_ORIGIN] = {"ORIGIN", 2, 1, {0}},
    [LEF_PIN] = {"PIN", 0, 0, {0}},
    [LEF_DIRECTION] = {"DIRECTION", 0, 0, {"INPUT", "OUTPUT", "OUTPUT TRISTATE", "INOUT", "FEEDTHRU"}},
    [LEF_USE] = {"USE", 0, 0, {"SIGNAL", "ANALOG", "POWER", "GROUND", "CLOCK"}},
    [LEF_SHAPE] = {"SHAPE", 0, 0, {"ABUTMENT", "RING", "FEEDTHRU"}},
    [LEF_ANTENNAMODEL] = {"ANTENNAMODEL", 0, 0, {"OXIDE1", "OXIDE2", "OXIDE3", "OXIDE4"}},
    [LEF_ANTENNA] = {"antenna", 1, 0,
                     {"ANTENNADIFFAREA", "ANTENNAGATEAREA", "ANTENNAPARTIALMETALAREA", "ANTENNAPARTIALMETALSIDEAREA", "ANTENNAPARTIALCUTAREA",
                      "ANTENNAPARTIALDIFFAREA", "ANTENNAMAXAREACAR", "ANTENNAMAXSIDEAREACAR", "ANTENNAMAXCUTCAR"}},
    [LEF_PORT] = {"PORT", 0, 0, {0}},
    [LEF_PORT_CLASS] = {"CLASS", 0, 0, {"NONE", "CORE", "BUMP"}},
    [LEF_OBS] = {"OBS", 0, 0, {0}},
    [LEF_LAYER] = {"LAYER", 0, 0, {0}},
    [LEF_LAYER_OPTION] = {"option", 1, 1, {"EXCEPTPGNET", "SPACING", "DESIGNRULEWIDTH"}},
    [LEF_WIDTH] = {"WIDTH", 1, 1, {0}},
    [LEF_RECT] = {"RECT", 0, 0, {0}},
    [LEF_POLYGON] = {"POLYGON", 0, 0, {0}},
    [LEF_PATH] = {"PATH", 0, 0, {0}},
    [LEF_POINT] = {"point", 2, 1, {0}},
    [LEF_VIA] = {"VIA", 2, 1, {0}},
};

#define COUNT (sizeof KINDS / sizeof *KINDS)

const char *kind_word(uint32_t kind) {
    return kind < COUNT && KINDS[kind].word != NULL ? KINDS[kind].word : "?";
}

const char *code_words(uint32_t kind, uint32_t code) {
    return kind < COUNT && 1 <= code && code <= MOST_CODES ? KINDS[kind].codes[code - 1] : NULL;
}

/* How many numbers a record has: a FOREIGN without its point has none, nor has the option EXCEPTPGNET. */
static int numbers_of(uint32_t kind, uint32_t code) {
    return kind >= COUNT || (kind == LEF_FOREIGN && code == 0) || (kind == LEF_LAYER_OPTION && code == 1) ? 0 : KINDS[kind].numbers;
}

void add_shown(struct sheet *s, const uint8_t *at, size_t len) {
    size_t i;
    for (i = 0; i < len; i++)
        if (at[i] == 9 || (11 <= at[i] && at[i] <= 13))
            add(s, " ");
        else if (32 <= at[i] && at[i] < 127)
            add_bytes(s, at + i, 1);
        else
            add(s, "\\x%02x", (unsigned)at[i]);
}

void add_words(struct sheet *s, struct bytes text, const uint8_t *record) {
    uint32_t kind = lef_record_kind(record), code = lef_record_code(record);
    uint64_t start, len;
    int n = numbers_of(kind, code);
    const char *words = code_words(kind, code);
    add(s, "%s", kind_word(kind));
    if (words != NULL && kind != LEF_FOREIGN)
        add(s, " %s", words);
    else if (words == NULL && code != 0)
        add(s, " code %" PRIu32, code);
    lef_name(text.at, text.len, record, LEF_RECORD_SIZE, 0, &start, &len);
    if (len > 0)
        add(s, " ");
    add_shown(s, text.at + start, len);
    if (words != NULL && kind == LEF_FOREIGN)
        add(s, " %s", words);
    if (n > 0) {
        add(s, " ");
        add_millionths(s, lef_record_x(record));
    }
    if (n > 1) {
        add(s, " ");
        add_millionths(s, lef_record_y(record));
    }
    if (n > 0 && KINDS[kind].are_lengths)
        add(s, n > 1 || lef_record_x(record) != 1000000 ? " microns" : " micron");
}

void add_fields(struct sheet *s, const uint8_t *record) {
    uint32_t owner = lef_record_owner(record);
    add(s, "%" PRIu32 " %" PRIu32 " %" PRIu32, lef_record_kind(record), lef_record_code(record), lef_record_at(record));
    add(s, owner == LEF_LIBRARY ? " -" : " %" PRIu32, owner);
    add(s, " %" PRIu32 " %" PRIu32 " %" PRId64 " %" PRId64, lef_record_name_start(record), lef_record_name_length(record), lef_record_x(record),
        lef_record_y(record));
}
