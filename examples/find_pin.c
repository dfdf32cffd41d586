/* find_pin IN.lef MACRO PIN..: pins of a macro by their names. Of each the byte at which its statement starts, and its direction; `-` stands for
 * one that the text does not give. Of several macros or pins of one name the first is taken.
 *
 * Exit status: 0 done, 1 refused or not found, 2 wrong usage or a system error. */
#include <lef.h>

#include <errno.h>
#include <inttypes.h>
#include <stdio.h>
#include <stdlib.h>
#include <string.h>

#define DONE 0
#define REFUSED 1
#define FAILED 2

/* One byte more than the library reads, so that a text that is too long is refused and not cut. */
static uint8_t text[LEF_TEXT_LIMIT + 1];
static size_t text_len;
static uint8_t *records, *entries;
static size_t records_len, entries_len;
static uint64_t place, line;

static void fail(const char *name) {
    fprintf(stderr, "find_pin: %s: %s\n", name, strerror(errno));
    exit(FAILED);
}

static void load(const char *name) {
    FILE *f = fopen(name, "rb");
    if (f == NULL)
        fail(name);
    text_len = fread(text, 1, sizeof text, f);
    if (ferror(f))
        fail(name);
    fclose(f);
}

/* Room for as many bytes, at least one, so that it is NULL only where there is no memory. */
static uint8_t *room(size_t len) {
    uint8_t *bytes = malloc(len + 1);
    if (bytes == NULL)
        fail("memory");
    return bytes;
}

/* The records of the text and their index. With no room, lef_read and lef_index say how many there are. */
static uint64_t read_and_index(void) {
    uint64_t number = lef_read(text, text_len, NULL, 0, &place, &line);
    records_len = place * LEF_RECORD_SIZE;
    if (number != LEF_DONE && number != LEF_RECORD_ROOM)
        return number;
    records = room(records_len);
    lef_read(text, text_len, records, records_len, &place, &line);
    lef_index(text, text_len, records, records_len, NULL, 0, &place, &line);
    entries_len = place * LEF_ENTRY_SIZE;
    entries = room(entries_len);
    return lef_index(text, text_len, records, records_len, entries, entries_len, &place, &line);
}

/* Where the first thing of that owner and name starts. The index is the library's own, so that nothing is refused. */
static uint64_t find(uint64_t owner, const char *name) {
    uint64_t at;
    lef_find(text, text_len, records, records_len, entries, entries_len, owner, (const uint8_t *)name, strlen(name), &at, &place, &line);
    return at;
}

/* What is found is where a statement starts, which is the owner of what it encloses. */
static const char *direction(uint64_t pin) {
    static const char *const DIRECTIONS[] = {"-", "INPUT", "OUTPUT", "OUTPUT TRISTATE", "INOUT", "FEEDTHRU"};
    uint64_t index;
    uint32_t code = 0;
    lef_in_force(records, records_len, pin, LEF_DIRECTION, 0, &index, &place, &line);
    if (index != UINT64_MAX)
        code = lef_record_code(records + index * LEF_RECORD_SIZE);
    return code < sizeof DIRECTIONS / sizeof *DIRECTIONS ? DIRECTIONS[code] : "?";
}

int main(int argc, char **argv) {
    uint64_t number, macro, pin;
    int i, status = DONE;
    if (argc < 4) {
        fputs("usage: find_pin IN.lef MACRO PIN..\n", stderr);
        return FAILED;
    }
    load(argv[1]);
    number = read_and_index();
    if (number != LEF_DONE) {
        fprintf(stderr, "%s: refused %" PRIu64 ", place %" PRIu64 ", line %" PRIu64 "\n", argv[1], number, place, line);
        return REFUSED;
    }
    /* LEF_NOWHERE is the library's number as an owner, and is not to be asked for pins. */
    macro = find(LEF_LIBRARY, argv[2]);
    for (i = 3; i < argc; i++) {
        pin = macro == LEF_NOWHERE ? LEF_NOWHERE : find(macro, argv[i]);
        if (pin == LEF_NOWHERE) {
            fprintf(stderr, "%s: no pin %s in a macro %s\n", argv[1], argv[i], argv[2]);
            status = REFUSED;
        } else
            printf("%s: byte %" PRIu64 ", %s\n", argv[i], pin, direction(pin));
    }
    if (fflush(stdout) != 0 || ferror(stdout))
        fail("standard output");
    free(records);
    free(entries);
    return status;
}
