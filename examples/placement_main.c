/* placement IN.lef: the direction of each pin of a library, as two parts of the program see it that disagree on the size of an enum
 * (placement.c). Prints the two sizes, a line for each pin with both directions, and whether the parts agree.
 *
 * Exit status: 0 they agree, 1 they do not or the text is refused, 2 wrong usage or a system error. */
#include "placement.h"

#include <lef.h>

#include <errno.h>
#include <inttypes.h>
#include <stdio.h>
#include <stdlib.h>
#include <string.h>

#define DONE 0
#define REFUSED 1
#define FAILED 2

/* One byte more than the library reads, so that a text that is too long is refused and not cut. */
static uint8_t text[LEF_TEXT_LIMIT + 1];

static void fail(const char *name) {
    fprintf(stderr, "placement: %s: %s\n", name, strerror(errno));
    exit(FAILED);
}

/* So many bytes of 0, and at least one. */
static uint8_t *room_for(size_t len) {
    uint8_t *room = calloc(len == 0 ? 1 : len, 1);
    if (room == NULL)
        fail("memory");
    return room;
}

static size_t load(const char *name) {
    FILE *f = fopen(name, "rb");
    size_t len;
    if (f == NULL)
        fail(name);
    len = fread(text, 1, sizeof text, f);
    if (ferror(f))
        fail(name);
    fclose(f);
    return len;
}

static void refuse_unless_done(const char *name, uint64_t number, uint64_t place, uint64_t line) {
    if (number == LEF_DONE)
        return;
    fprintf(stderr, "%s: refused %" PRIu64 ", place %" PRIu64 ", line %" PRIu64 "\n", name, number, place, line);
    exit(REFUSED);
}

/* The importer makes the record file. It stays in memory here; on a disk it would be the same bytes. */
static uint8_t *import(const char *name, size_t text_len, size_t *len) {
    uint8_t *records = NULL;
    uint64_t place, line, number = lef_read(text, text_len, NULL, 0, &place, &line);
    if (number == LEF_RECORD_ROOM) { /* place is how many there are */
        records = room_for(place * LEF_RECORD_SIZE);
        number = lef_read(text, text_len, records, place * LEF_RECORD_SIZE, &place, &line);
    }
    refuse_unless_done(name, number, place, line);
    *len = place * LEF_RECORD_SIZE;
    return records;
}

/* Whoever made it, the placement program takes no record file that is not the reading of the text. */
static void check(const char *name, size_t text_len, const uint8_t *records, size_t len) {
    uint64_t place, line, number = lef_check(text, text_len, records, len, &place, &line);
    refuse_unless_done(name, number, place, line);
}

static size_t count_pins(const uint8_t *records, size_t len) {
    size_t i, n = 0;
    for (i = 0; i < len; i += LEF_RECORD_SIZE)
        n += lef_record_kind(records + i) == LEF_PIN;
    return n;
}

static void print_name(const uint8_t *record) {
    fwrite(text + lef_record_name_start(record), 1, lef_record_name_length(record), stdout);
}

static const char *word(uint8_t code) {
    static const char *const WORDS[] = {"-", "INPUT", "OUTPUT", "OUTPUT TRISTATE", "INOUT", "FEEDTHRU"};
    return code < sizeof WORDS / sizeof *WORDS ? WORDS[code] : "?";
}

/* Prints each pin after the name of its macro, and gives how many the two parts see otherwise. */
static size_t compare(const uint8_t *records, size_t len, const uint8_t *by_short, const uint8_t *by_wide) {
    const uint8_t *macro = records;
    size_t i, n = 0, differ = 0;
    for (i = 0; i < len; i += LEF_RECORD_SIZE)
        if (lef_record_kind(records + i) == LEF_MACRO)
            macro = records + i;
        else if (lef_record_kind(records + i) == LEF_PIN) {
            print_name(macro);
            putchar(' ');
            print_name(records + i);
            printf(": %s, %s\n", word(by_short[n]), word(by_wide[n]));
            differ += by_short[n] != by_wide[n];
            n++;
        }
    return differ;
}

int main(int argc, char **argv) {
    uint8_t *records, *by_short, *by_wide;
    size_t text_len, len, pins, differ;
    if (argc != 2) {
        fputs("usage: placement IN.lef\n", stderr);
        return FAILED;
    }
    text_len = load(argv[1]);
    records = import(argv[1], text_len, &len);
    check(argv[1], text_len, records, len);
    pins = count_pins(records, len);
    by_short = room_for(pins);
    by_wide = room_for(pins);
    printf("size of enum direction: %zu in one part, %zu in the other\n", short_enum_size(), wide_enum_size());
    differ = short_directions(records, len, by_short, pins) != wide_directions(records, len, by_wide, pins);
    differ += compare(records, len, by_short, by_wide);
    if (differ == 0)
        printf("%zu pins: the parts agree\n", pins);
    else
        printf("%zu pins: the parts differ on %zu\n", pins, differ);
    free(records);
    free(by_short);
    free(by_wide);
    if (fflush(stdout) != 0 || ferror(stdout))
        fail("standard output");
    return differ == 0 ? DONE : REFUSED;
}
