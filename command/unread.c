/* The words of legal LEF that this library does not read. They are those of the LEF 5.8 reference, and of older ones where libraries still
 * have them. */
#include "command.h"

/* Statements of the technology, at the library's level; some of these words are read inside a macro. */
static const char *const TECHNOLOGY[] = {
    "ANTENNAINOUTDIFFAREA", "ANTENNAINPUTGATEAREA", "ANTENNAOUTPUTDIFFAREA", "ARRAY", "BEGINEXT", "CLEARANCEMEASURE", "CORRECTIONTABLE", "DIELECTRIC",
    "EDGERATESCALEFACTOR", "EDGERATETHRESHOLD1", "EDGERATETHRESHOLD2", "FIXEDMASK", "INOUTPINANTENNASIZE", "INPUTPINANTENNASIZE", "IRDROP", "LAYER",
    "MANUFACTURINGGRID", "MAXVIASTACK", "MINFEATURE", "NOISETABLE", "NONDEFAULTRULE", "OUTPUTPINANTENNASIZE", "PROPERTYDEFINITIONS", "SPACING",
    "UNIVERSALNOISEMARGIN", "USEMINSPACING", "VIA", "VIARULE",
};

/* Statements and parts of them inside UNITS, sites, macros, pins and layers. */
static const char *const INSIDE[] = {
    "ANTENNAMETALAREA", "ANTENNAMETALLENGTH", "ANTENNASIZE", "CAPACITANCE", "CURRENT", "CURRENTSOURCE", "DENSITY", "DO", "EEQ", "FALLSATCUR", "FALLTHRESH",
    "FIXEDMASK", "FREQUENCY", "GENERATE", "GENERATED", "GROUNDSENSITIVITY", "INPUTNOISEMARGIN", "ITERATE", "IV_TABLES", "LEQ", "MASK", "MAXDELAY", "MAXLOAD",
    "MUSTJOIN", "NETEXPR", "OUTPUTNOISEMARGIN", "OUTPUTRESISTANCE", "PROPERTY", "PULLDOWNRES", "RESISTANCE", "RISESATCUR", "RISETHRESH", "ROWPATTERN",
    "SOURCE", "STEP", "SUPPLYSENSITIVITY", "TAPERRULE", "TIEOFFR", "TIME", "TIMING", "VHI", "VLO", "VOLTAGE",
};

#define COUNT(list) (sizeof(list) / sizeof *(list))

static int is_among(struct bytes text, struct token t, const char *const *words, size_t n) {
    while (n-- > 0)
        if (spells(text, t, words[n]))
            return 1;
    return 0;
}

int is_unread(struct bytes text, struct token t, int at_library_level) {
    return at_library_level ? is_among(text, t, TECHNOLOGY, COUNT(TECHNOLOGY)) : is_among(text, t, INSIDE, COUNT(INSIDE));
}
