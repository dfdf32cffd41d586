/* The library from C, by its header alone: the worked examples of the rules, every refusal, buffers that are short by one, exact and
 * larger, and two programs that disagree on the size of an enum and agree on a record file. */
#include "border.h"
#include "placement.h"

#include <inttypes.h>
#include <stdio.h>
#include <stdlib.h>
#include <string.h>

static int tried, wrong;

void expect(const char *what, uint64_t is, uint64_t should) {
    tried++;
    if (is != should) {
        wrong++;
        printf("%s: %" PRIu64 ", not %" PRIu64 "\n", what, is, should);
    }
}

const uint8_t *bytes(const char *s) {
    return (const uint8_t *)s;
}

struct given of(const char *s) {
    struct given g = {bytes(s), strlen(s)};
    return g;
}

static uint64_t number_of(const uint8_t *at, unsigned n) {
    uint64_t sum = 0;
    while (n-- > 0)
        sum = 256 * sum + at[n];
    return sum;
}

/* ---- reading */

#define MARK 0xa5u

static uint8_t buffer[65536];

static int marked(size_t from, size_t to) {
    while (from < to)
        if (buffer[from++] != MARK)
            return 0;
    return 1;
}

static uint64_t reads(const char *text, size_t room, uint64_t *place, uint64_t *line) {
    memset(buffer, MARK, sizeof buffer);
    *place = *line = 77;
    return lef_read(bytes(text), strlen(text), buffer, room, place, line);
}

static void refused(const char *text, uint64_t number, uint64_t at, uint64_t on) {
    uint64_t place, line;
    expect(text, reads(text, 3600, &place, &line), number);
    expect(text, place, at);
    expect(text, line, on);
    expect("the buffer is as it was", (uint64_t)marked(0, sizeof buffer), 1);
}

struct record {
    uint64_t kind, code, at, owner, name, len;
    int64_t x, y;
};

/* A text that has n records: with room for one more, exactly as many, and one less. */
static void read_as(const char *text, const struct record *r, size_t n) {
    uint64_t place, line;
    size_t i, room;
    for (room = n == 0 ? 0 : n - 1; room <= n + 1; room++) {
        uint64_t number = reads(text, room * LEF_RECORD_SIZE, &place, &line);
        expect(text, number, room < n ? LEF_RECORD_ROOM : LEF_DONE);
        expect(text, place, n);
        expect(text, line, 0);
        expect("what is kept", (uint64_t)marked(room < n ? 0 : n * LEF_RECORD_SIZE, sizeof buffer), 1);
    }
    reads(text, n * LEF_RECORD_SIZE, &place, &line);
    for (i = 0; i < n; i++, r++) {
        const uint8_t *b = buffer + i * LEF_RECORD_SIZE;
        expect("kind", b[LEF_KIND], r->kind);
        expect("code", b[LEF_CODE], r->code);
        expect("spare", number_of(b + LEF_SPARE, 2), 0);
        expect("at", number_of(b + LEF_AT, 4), r->at);
        expect("owner", number_of(b + LEF_OWNER, 4), r->owner);
        expect("name start", number_of(b + LEF_NAME_START, 4), r->name);
        expect("name length", number_of(b + LEF_NAME_LENGTH, 4), r->len);
        expect("x", number_of(b + LEF_X, 8), (uint64_t)r->x);
        expect("y", number_of(b + LEF_Y, 8), (uint64_t)r->y);
    }
}

static const char SITE[] = "SITE s\nCLASS CORE ;\nSIZE 1.5 BY 2 ;\nEND s\nEND LIBRARY\n";

static void reading(void) {
    static const struct record site[] = {{8, 0, 0, LEF_LIBRARY, 5, 1, 0, 0}, {9, 2, 7, 0, 0, 0, 0, 0}, {12, 0, 20, 0, 0, 0, 1500000, 2000000}};
    static const struct record version[] = {{1, 0, 0, LEF_LIBRARY, 0, 0, 5800000, 0}};
    static const struct record chars[] = {{2, 0, 0, LEF_LIBRARY, 13, 2, 0, 0}};
    static const struct record origin[] = {{13, 0, 0, LEF_LIBRARY, 6, 1, 0, 0}, {17, 0, 8, 0, 0, 0, 1000000, -2000000}};
    static const struct record edge[] = {{13, 0, 0, LEF_LIBRARY, 6, 1, 0, 0}, {17, 0, 8, 0, 0, 0, 10000000000000, -10000000000000}};
    read_as("END LIBRARY", NULL, 0);
    read_as("END LIBRARY x @", NULL, 0);
    read_as("END LIBRARY \"a", NULL, 0);
    read_as("VERSION 5.8 ; END LIBRARY", version, 1);
    read_as("BUSBITCHARS \"[]\" ; END LIBRARY", chars, 1);
    read_as(SITE, site, 3);
    read_as("MACRO m ORIGIN 1-2 ; END m END LIBRARY", origin, 2);
    read_as("MACRO m ORIGIN 10000000 -10000000 ; END m END LIBRARY", edge, 2);
    refused("", LEF_WRONG_TOKEN, 0, 1);
    refused("END LIBRARY @", LEF_NO_TOKEN, 12, 1);
    refused("END LIBRARY;", LEF_NOT_A_KEY, 12, 1);
    refused("VERSION 5.9 ; END LIBRARY", LEF_NOT_ALLOWED, 17, 1);
    refused("VERSION - ;", LEF_NOT_A_NUMERAL, 11, 1);
    refused("BUSBITCHARS \"[]x\" ;", LEF_NOT_ALLOWED, 19, 1);
    refused("SITE s CLASS CORE ; END s END LIBRARY", LEF_SITE_LACKS, 29, 1);
    refused("MACRO m ORIGIN 10000000.000001 0 ; END m END LIBRARY", LEF_NOT_A_NUMERAL, 32, 1);
    refused("\nVERSION \x80 ;", LEF_NOT_ASCII, 9, 0);
    refused("END\nUNITS", LEF_OTHER_WORD, 9, 2);
    refused("UNITS CAPACITANCE", LEF_NOT_SUPPORTED, 17, 1);
}

static void too_long(void) {
    uint64_t place, line;
    uint8_t *text = malloc(LEF_TEXT_LIMIT + 1);
    memset(text, ' ', LEF_TEXT_LIMIT + 1);
    memcpy(text, "END LIBRARY", 11);
    expect("the longest text", lef_read(text, LEF_TEXT_LIMIT, buffer, 0, &place, &line), LEF_DONE);
    expect("its records", place, 0);
    expect("a text that is too long", lef_read(text, LEF_TEXT_LIMIT + 1, buffer, 0, &place, &line), LEF_TOO_LONG);
    expect("its place", place, 0);
    free(text);
}

/* ---- checking */

static uint64_t checks(const char *order, size_t len, uint64_t *place) {
    uint8_t file[4 * LEF_RECORD_SIZE];
    uint64_t line = 77, number;
    size_t i;
    reads(SITE, sizeof buffer, place, &line);
    for (i = 0; order[i] != 0; i++)
        memcpy(file + i * LEF_RECORD_SIZE, buffer + (size_t)(order[i] - '0') * LEF_RECORD_SIZE, LEF_RECORD_SIZE);
    number = lef_check(bytes(SITE), strlen(SITE), file, len, place, &line);
    expect("the line", line, 0);
    return number;
}

static void checking(void) {
    uint64_t place, line;
    expect("in order", checks("012", 108, &place), LEF_DONE);
    expect("its place", place, 0);
    expect("in another order", checks("201", 108, &place), LEF_DONE);
    expect("one twice", checks("011", 108, &place), LEF_WRONG_RECORD);
    expect("its index", place, 2);
    expect("one lacking", checks("01", 72, &place), LEF_LACKING);
    expect("its place", place, 20);
    expect("no whole record", checks("012", 107, &place), LEF_NOT_WHOLE);
    expect("its length", place, 107);
    expect("the text first", lef_check(bytes("@"), 1, buffer, 1, &place, &line), LEF_NO_TOKEN);
    expect("its line", line, 1);
}

/* ---- writing */

static const char WRITTEN[] = "SITE s\n  CLASS CORE ;\n  SIZE 1.5 BY 2 ;\nEND s\nEND LIBRARY\n";

static void writing(void) {
    uint8_t file[108];
    uint64_t place, line;
    size_t n = strlen(WRITTEN), room;
    reads(SITE, sizeof buffer, &place, &line);
    memcpy(file, buffer, sizeof file);
    for (room = n - 1; room <= n + 1; room++) {
        memset(buffer, MARK, sizeof buffer);
        expect("written", lef_write(bytes(SITE), strlen(SITE), file, sizeof file, buffer, room, &place, &line), room < n ? LEF_TEXT_ROOM : LEF_DONE);
        expect("its bytes", place, n);
        expect("its line", line, 0);
        expect("the text", (uint64_t)(room < n || memcmp(buffer, WRITTEN, n) == 0), 1);
        expect("what is kept", (uint64_t)marked(room < n ? 0 : n, sizeof buffer), 1);
    }
    memset(buffer, MARK, sizeof buffer);
    expect("a file that is not accepted", lef_write(bytes(SITE), strlen(SITE), file, 72, buffer, sizeof buffer, &place, &line), LEF_LACKING);
    expect("its place", place, 20);
    expect("what is kept", (uint64_t)marked(0, sizeof buffer), 1);
}

/* ---- tokens and look-ups */

static void tokens(void) {
    static const char text[] = "A; 1-2 \"x\ny\" ; #c\n @";
    static const uint64_t should[][3] = {{1, 0, 2}, {2, 3, 4}, {2, 4, 6}, {4, 7, 12}, {3, 13, 14}};
    uint64_t from = 0, kind, start, stop, place, line;
    size_t i;
    for (i = 0; i < 5; i++, from = stop) {
        expect("a token", lef_token(bytes(text), strlen(text), from, &kind, &start, &stop, &place, &line), LEF_DONE);
        expect("kind", kind, should[i][0]);
        expect("start", start, should[i][1]);
        expect("stop", stop, should[i][2]);
    }
    expect("a bad byte", lef_token(bytes(text), strlen(text), from, &kind, &start, &stop, &place, &line), LEF_NO_TOKEN);
    expect("its place", place, 19);
    expect("its line", line, 2);
    expect("the end", lef_token(bytes(text), 18, from, &kind, &start, &stop, &place, &line), LEF_DONE);
    expect("its kind", kind, LEF_TOKEN_END);
    expect("past the end", lef_token(bytes(text), 18, UINT64_MAX, &kind, &start, &stop, &place, &line), LEF_DONE);
    expect("its kind", kind, LEF_TOKEN_END);
}

static const char PINS[] =
    "MACRO m PIN a DIRECTION INPUT ; DIRECTION OUTPUT TRISTATE ; PORT LAYER l SPACING 1 DESIGNRULEWIDTH 2 ; RECT 0 0 1 1 ; END END a "
    "PIN b DIRECTION INOUT ; END b PIN c END c PIN d DIRECTION FEEDTHRU ; END d END m END LIBRARY";

static void look_ups(void) {
    uint64_t n, place, line, index, count, start, len;
    size_t size;
    expect("the pins", reads(PINS, sizeof buffer, &n, &line), LEF_DONE);
    size = n * LEF_RECORD_SIZE;
    expect("a direction in force", lef_in_force(buffer, size, 8, LEF_DIRECTION, 0, &index, &place, &line), LEF_DONE);
    expect("its index", index, 3);
    expect("no such kind", lef_in_force(buffer, size, 8, 256 + LEF_DIRECTION, 0, &index, &place, &line), LEF_DONE);
    expect("none", index, UINT64_MAX);
    expect("a kind that counts", lef_in_force(buffer, size, 0, LEF_PIN, 0, &index, &place, &line), LEF_DONE);
    expect("none", index, UINT64_MAX);
    expect("an option", lef_in_force(buffer, size, number_of(buffer + 5 * LEF_RECORD_SIZE + LEF_AT, 4), LEF_LAYER_OPTION, 2, &index, &place, &line), LEF_DONE);
    expect("its index", index, 7);
    expect("no whole record", lef_in_force(buffer, size - 1, 8, LEF_DIRECTION, 0, &index, &place, &line), LEF_NOT_WHOLE);
    expect("its length", place, size - 1);
    expect("no index", index, UINT64_MAX);
    expect("owners", lef_owners(buffer, size, 9, &count, &place, &line), LEF_DONE);
    expect("their count", count, 5);
    expect("past the file", lef_owners(buffer, size, n, &count, &place, &line), LEF_DONE);
    expect("their count", count, 0);
    expect("no whole record", lef_owners(buffer, 1, 0, &count, &place, &line), LEF_NOT_WHOLE);
    expect("a name", lef_name(bytes(PINS), strlen(PINS), buffer, size, 1, &start, &len), LEF_DONE);
    expect("its start", start, 12);
    expect("its length", len, 1);
    expect("a name outside", lef_name(bytes(PINS), 12, buffer, size, 1, &start, &len), LEF_DONE);
    expect("its length", len, 0);
    expect("past the file", lef_name(bytes(PINS), strlen(PINS), buffer, size, UINT64_MAX, &start, &len), LEF_DONE);
    expect("its length", len, 0);
}

/* A null pointer is taken where the length beside it is 0, by every call. */
static void nulls(void) {
    uint64_t a, b, c, place, line;
    expect("no text", lef_read(NULL, 0, NULL, 0, &place, &line), LEF_WRONG_TOKEN);
    expect("its line", line, 1);
    expect("no records", lef_read(bytes("END LIBRARY"), 11, NULL, 0, &place, &line), LEF_DONE);
    expect("records that are counted", lef_read(bytes(SITE), strlen(SITE), NULL, 0, &place, &line), LEF_RECORD_ROOM);
    expect("their count", place, 3);
    expect("an empty file", lef_check(bytes("END LIBRARY"), 11, NULL, 0, &place, &line), LEF_DONE);
    expect("an empty file of three", lef_check(bytes(SITE), strlen(SITE), NULL, 0, &place, &line), LEF_LACKING);
    expect("no text to check", lef_check(NULL, 0, NULL, 0, &place, &line), LEF_WRONG_TOKEN);
    expect("bytes that are counted", lef_write(bytes("END LIBRARY"), 11, NULL, 0, NULL, 0, &place, &line), LEF_TEXT_ROOM);
    expect("their count", place, 12);
    expect("no text to write", lef_write(NULL, 0, NULL, 0, NULL, 0, &place, &line), LEF_WRONG_TOKEN);
    expect("no text to lex", lef_token(NULL, 0, 0, &a, &b, &c, &place, &line), LEF_DONE);
    expect("its end", a, LEF_TOKEN_END);
    expect("none in force", lef_in_force(NULL, 0, 0, LEF_SIZE, 0, &a, &place, &line), LEF_DONE);
    expect("its index", a, UINT64_MAX);
    expect("no owners", lef_owners(NULL, 0, 0, &a, &place, &line), LEF_DONE);
    expect("their count", a, 0);
    expect("no name", lef_name(NULL, 0, NULL, 0, 0, &a, &b), LEF_DONE);
    expect("its length", b, 0);
}

/* The fields of a record as the header reads them, at a place that no word is aligned to. */
static void fields(void) {
    static const uint8_t file[] = {0,    34,   26,   0,    0,    0x78, 0x56, 0x34, 0x12, 0xff, 0xff, 0xff, 0xff, 0x01, 0x02, 0x03, 0x84, 0x21, 0x00,
                                   0x00, 0x00, 0xff, 0xff, 0xff, 0xff, 0xff, 0xff, 0xff, 0xff, 0x00, 0x00, 0x00, 0x00, 0x00, 0x00, 0x00, 0x80};
    const uint8_t *record = file + 1;
    expect("kind", lef_record_kind(record), LEF_VIA);
    expect("code", lef_record_code(record), 26);
    expect("at", lef_record_at(record), 0x12345678);
    expect("owner", lef_record_owner(record), LEF_LIBRARY);
    expect("name start", lef_record_name_start(record), 0x84030201);
    expect("name length", lef_record_name_length(record), 33);
    expect("x", lef_record_x(record) == -1, 1);
    expect("y", lef_record_y(record) == INT64_MIN, 1);
    expect("the greatest", lef_signed(INT64_MAX) == INT64_MAX, 1);
    expect("no bytes", lef_number(NULL, 0), 0);
    expect("an entry's owner", lef_entry_owner(record + 3), 0x34567800);
    expect("its name's start", lef_entry_name_start(record + 3), 0xffffff12);
    expect("its name's length", lef_entry_name_length(record + 3), 0x030201ff);
    expect("its at", lef_entry_at(record + 3), 0x00002184);
}

/* The version as a text and as a number. */
static void version(void) {
    unsigned first, second, third;
    expect("three parts", (uint64_t)sscanf(LEF_H_VERSION, "%u.%u.%u", &first, &second, &third), 3);
    expect("the same number", 10000 * first + 100 * second + third, LEF_H_NUMBER);
}

static void accident(void) {
    static const uint8_t should[] = {3, 4, 0, 5};
    uint8_t by_short[8], by_wide[8];
    uint64_t n, line;
    size_t i;
    reads(PINS, sizeof buffer, &n, &line);
    expect("an enum of one byte", short_enum_size(), 1);
    expect("an enum of four", wide_enum_size(), 4);
    expect("pins", short_directions(buffer, n * LEF_RECORD_SIZE, by_short, 8), 4);
    expect("pins", wide_directions(buffer, n * LEF_RECORD_SIZE, by_wide, 8), 4);
    for (i = 0; i < 4; i++) {
        expect("a pin's direction", by_short[i], should[i]);
        expect("the other program's", by_wide[i], should[i]);
    }
}

int main(void) {
    reading();
    too_long();
    checking();
    writing();
    tokens();
    look_ups();
    nulls();
    fields();
    version();
    finding();
    sorting();
    asking();
    accident();
    printf("border: %d tried, %d wrong\n", tried, wrong);
    return wrong != 0;
}
