/* pins IN.lef MACRO: the pins of a macro. Of each its name, direction and use, and then a line for each shape of its ports: the layer, the
 * statement's word and its numbers in microns. WIDTH, that of a path, has a line as well. `-` stands for a direction or use that the text
 * does not give. Of several macros of that name the first is taken.
 *
 * Exit status: 0 done, 1 refused or no such macro, 2 wrong usage or a system error. */
#include <lef.h>

#include <errno.h>
#include <inttypes.h>
#include <stdio.h>
#include <stdlib.h>
#include <string.h>

#define DONE 0
#define REFUSED 1
#define FAILED 2

/* Words by code; `-` stands for none. */
#define WORDS 6
static const char *const DIRECTIONS[WORDS] = {"-", "INPUT", "OUTPUT", "OUTPUT TRISTATE", "INOUT", "FEEDTHRU"};
static const char *const USES[WORDS] = {"-", "SIGNAL", "ANALOG", "POWER", "GROUND", "CLOCK"};

/* One byte more than the library reads, so that a text that is too long is refused and not cut. */
static uint8_t text[LEF_TEXT_LIMIT + 1];

static void fail(const char *name) {
    fprintf(stderr, "pins: %s: %s\n", name, strerror(errno));
    exit(FAILED);
}

/* ---- the text and its records */

static size_t load(const char *name) {
    FILE *f = fopen(name, "rb");
    size_t len;
    if (f == NULL)
        fail(name);
    len = fread(text, 1, sizeof text, f);
    if (ferror(f))
        fail(name);
    fclose(f);
    return len;
}

/* The records, and how many bytes they have. With no room lef_read says how many records there are. */
static uint8_t *read_records(const char *name, size_t text_len, size_t *len) {
    uint8_t *records = NULL;
    uint64_t place, line, number = lef_read(text, text_len, NULL, 0, &place, &line);
    if (number == LEF_RECORD_ROOM) {
        records = malloc(place * LEF_RECORD_SIZE);
        if (records == NULL)
            fail("records");
        number = lef_read(text, text_len, records, place * LEF_RECORD_SIZE, &place, &line);
    }
    if (number != LEF_DONE) {
        fprintf(stderr, "%s: refused %" PRIu64 ", place %" PRIu64 ", line %" PRIu64 "\n", name, number, place, line);
        exit(REFUSED);
    }
    *len = place * LEF_RECORD_SIZE;
    return records;
}

/* The first macro of a name, or NULL. Names are parts of the text: they have a length, and no zero at their end. */
static const uint8_t *find_macro(const uint8_t *records, size_t len, const char *name) {
    size_t i, name_len = strlen(name);
    for (i = 0; i < len; i += LEF_RECORD_SIZE) {
        const uint8_t *r = records + i;
        if (lef_record_kind(r) == LEF_MACRO && lef_record_name_length(r) == name_len && memcmp(text + lef_record_name_start(r), name, name_len) == 0)
            return r;
    }
    return NULL;
}

/* Where a block ends. lef_read lists records by rising `at`, so that what a block encloses follows it, up to the next record with the same
 * owner or to the end of that owner. */
static const uint8_t *block_end(const uint8_t *block, const uint8_t *owner_end) {
    const uint8_t *r = block + LEF_RECORD_SIZE;
    while (r < owner_end && lef_record_owner(r) != lef_record_owner(block))
        r += LEF_RECORD_SIZE;
    return r;
}

/* ---- printing */

/* The word of a code; a later library may have codes that are not known here. */
static const char *word(const char *const *words, uint32_t code) {
    return code < WORDS ? words[code] : "?";
}

static void print_name(const uint8_t *record) {
    fwrite(text + lef_record_name_start(record), 1, lef_record_name_length(record), stdout);
}

/* Numbers are in millionths: 1500000 is 1.5. */
static void print_number(int64_t number) {
    uint64_t size = number < 0 ? 0 - (uint64_t)number : (uint64_t)number, rest = size % 1000000;
    int decimals = 6;
    printf(" %s%" PRIu64, number < 0 ? "-" : "", size / 1000000);
    for (; decimals > 0 && rest % 10 == 0; decimals--)
        rest /= 10;
    if (decimals > 0)
        printf(".%0*" PRIu64, decimals, rest);
}

static void print_point(const uint8_t *record) {
    print_number(lef_record_x(record));
    print_number(lef_record_y(record));
}

/* The front of a shape's line; its points are records of their own, and follow. */
static void print_shape(const uint8_t *layer, const char *statement) {
    printf("\n  ");
    print_name(layer);
    printf(" %s", statement);
}

static void print_shapes(const uint8_t *pin, const uint8_t *end) {
    const uint8_t *r, *layer = pin;
    for (r = pin; r < end; r += LEF_RECORD_SIZE)
        switch (lef_record_kind(r)) {
        case LEF_LAYER: layer = r; break;
        case LEF_RECT: print_shape(layer, "RECT"); break;
        case LEF_POLYGON: print_shape(layer, "POLYGON"); break;
        case LEF_PATH: print_shape(layer, "PATH"); break;
        case LEF_POINT: print_point(r); break;
        case LEF_WIDTH: print_shape(layer, "WIDTH"); print_number(lef_record_x(r)); break;
        case LEF_VIA: print_shape(layer, "VIA"); print_point(r); putchar(' '); print_name(r); break;
        }
    putchar('\n');
}

/* Of several directions or uses the last holds, and it may follow the shapes. */
static void print_pin(const uint8_t *pin, const uint8_t *end) {
    const uint8_t *r;
    uint32_t direction = 0, use = 0;
    for (r = pin; r < end; r += LEF_RECORD_SIZE)
        if (lef_record_kind(r) == LEF_DIRECTION)
            direction = lef_record_code(r);
        else if (lef_record_kind(r) == LEF_USE)
            use = lef_record_code(r);
    print_name(pin);
    printf(" %s %s", word(DIRECTIONS, direction), word(USES, use));
    print_shapes(pin, end);
}

static void print_pins(const uint8_t *macro, const uint8_t *records_end) {
    const uint8_t *r, *end = block_end(macro, records_end);
    for (r = macro; r < end; r += LEF_RECORD_SIZE)
        if (lef_record_kind(r) == LEF_PIN)
            print_pin(r, block_end(r, end));
}

int main(int argc, char **argv) {
    uint8_t *records;
    const uint8_t *macro;
    size_t len;
    if (argc != 3) {
        fputs("usage: pins IN.lef MACRO\n", stderr);
        return FAILED;
    }
    records = read_records(argv[1], load(argv[1]), &len);
    macro = find_macro(records, len, argv[2]);
    if (macro == NULL)
        fprintf(stderr, "%s: no macro has the name %s\n", argv[1], argv[2]);
    else
        print_pins(macro, records + len);
    if (fflush(stdout) != 0 || ferror(stdout))
        fail("standard output");
    free(records);
    return macro == NULL ? REFUSED : DONE;
}
