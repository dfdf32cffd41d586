/* The index from C: a worked example, every refusal and their order, buffers that are short by one, exact and larger, and indexes that differ
 * in every way. */
#include "border.h"

#include <stdlib.h>
#include <string.h>

#define MARK 0xa5u

/* ---- the worked example: names twice, a name that begins another, letters of both cases, and a macro's SITE, which has no entry */

static const char CELLS[] = "SITE core CLASS CORE ; SIZE 1 BY 1 ; END core "
                            "MACRO b SITE core ; PIN z END z PIN A END A PIN a END a PIN AB END AB END b "
                            "MACRO a PIN a END a PIN q END q PIN a END a END a "
                            "MACRO b PIN y END y END b END LIBRARY";

#define COUNT 12u
#define SIZE (COUNT * LEF_ENTRY_SIZE)

/* owner, name start, name length, `at` */
static const uint32_t ENTRIES[COUNT][4] = {
    {46, 82, 1, 78},    {46, 106, 2, 102},  {46, 94, 1, 90},           {46, 70, 1, 66},          {122, 134, 1, 130},        {122, 158, 1, 154},
    {122, 146, 1, 142}, {172, 184, 1, 180}, {LEF_LIBRARY, 128, 1, 122}, {LEF_LIBRARY, 52, 1, 46}, {LEF_LIBRARY, 178, 1, 172}, {LEF_LIBRARY, 5, 4, 0},
};

static uint8_t file[64 * LEF_RECORD_SIZE], buffer[SIZE + 2 * LEF_ENTRY_SIZE], entries[SIZE + 2 * LEF_ENTRY_SIZE];
static struct given text, records;
static uint64_t place, line, at;

static int marked(size_t from) {
    while (from < sizeof buffer)
        if (buffer[from++] != MARK)
            return 0;
    return 1;
}

static uint64_t build(struct given t, struct given r, size_t room) {
    memset(buffer, MARK, sizeof buffer);
    place = line = 77;
    return lef_index(t.at, t.len, r.at, r.len, buffer, room, &place, &line);
}

static uint64_t check(struct given t, struct given r, size_t len) {
    place = line = 77;
    return lef_index_check(t.at, t.len, r.at, r.len, entries, len, &place, &line);
}

static uint64_t find(struct given t, struct given r, size_t len, uint64_t owner, struct given name) {
    at = place = line = 77;
    return lef_find(t.at, t.len, r.at, r.len, entries, len, owner, name.at, name.len, &at, &place, &line);
}

static void answered(const char *what, uint64_t number, uint64_t wanted, uint64_t its_place, uint64_t its_line) {
    expect(what, number, wanted);
    expect("its place", place, its_place);
    expect("its line", line, its_line);
}

static void building(void) {
    static const size_t rooms[] = {0, LEF_ENTRY_SIZE, SIZE - LEF_ENTRY_SIZE, SIZE - 1, SIZE, SIZE + 1, SIZE + LEF_ENTRY_SIZE};
    uint8_t turned[sizeof file];
    struct given other = {turned, records.len};
    size_t i;
    for (i = 0; i < sizeof rooms / sizeof *rooms; i++) {
        answered("an index", build(text, records, rooms[i]), rooms[i] < SIZE ? LEF_RECORD_ROOM : LEF_DONE, COUNT, 0);
        expect("what is kept", (uint64_t)marked(rooms[i] < SIZE ? 0 : SIZE), 1);
    }
    for (i = 0; i < COUNT; i++) {
        const uint8_t *entry = buffer + i * LEF_ENTRY_SIZE;
        expect("owner", lef_entry_owner(entry), ENTRIES[i][0]);
        expect("name start", lef_entry_name_start(entry), ENTRIES[i][1]);
        expect("name length", lef_entry_name_length(entry), ENTRIES[i][2]);
        expect("at", lef_entry_at(entry), ENTRIES[i][3]);
    }
    memcpy(entries, buffer, sizeof entries);
    for (i = 0; i < records.len; i += LEF_RECORD_SIZE)
        memcpy(turned + i, records.at + records.len - LEF_RECORD_SIZE - i, LEF_RECORD_SIZE);
    answered("the file in another order", build(text, other, SIZE), LEF_DONE, COUNT, 0);
    expect("the same index", (uint64_t)memcmp(buffer, entries, sizeof entries), 0);
    answered("it is accepted", check(text, other, SIZE), LEF_DONE, 0, 0);
    answered("it is found in", find(text, other, SIZE, 46, of("a")), LEF_DONE, 0, 0);
    expect("its at", at, 90);
}

/* ---- finding */

static void looked_for(uint64_t owner, struct given name, uint64_t wanted) {
    answered("looked for", find(text, records, SIZE, owner, name), LEF_DONE, 0, 0);
    expect("at", at, wanted);
}

static void found(void) {
    static const uint64_t far[] = {UINT64_C(4294967296) + 46, UINT64_C(2) * 4294967295 + 1, UINT64_MAX, 4294967296, 4294967294};
    struct given part = {text.at + 106, 2}, none = {NULL, 0}, high = {(const uint8_t *)"a\0", 2};
    size_t i;
    answered("the index", check(text, records, SIZE), LEF_DONE, 0, 0);
    looked_for(LEF_LIBRARY, of("core"), 0);
    looked_for(LEF_LIBRARY, of("a"), 122);
    looked_for(LEF_LIBRARY, of("b"), 46);
    looked_for(46, of("A"), 78);
    looked_for(46, of("a"), 90);
    looked_for(46, of("z"), 66);
    looked_for(46, part, 102);
    looked_for(122, of("a"), 130);
    looked_for(122, of("q"), 142);
    looked_for(172, of("y"), 180);
    /* other case, a name cut or with more behind it, another owner, a macro's SITE, and none at all */
    looked_for(LEF_LIBRARY, of("CORE"), LEF_NOWHERE);
    looked_for(LEF_LIBRARY, of("cor"), LEF_NOWHERE);
    looked_for(LEF_LIBRARY, of("core "), LEF_NOWHERE);
    looked_for(LEF_LIBRARY, of("z"), LEF_NOWHERE);
    looked_for(46, of("y"), LEF_NOWHERE);
    looked_for(46, of("core"), LEF_NOWHERE);
    looked_for(46, high, LEF_NOWHERE);
    looked_for(46, of("\xff"), LEF_NOWHERE);
    looked_for(46, none, LEF_NOWHERE);
    looked_for(LEF_LIBRARY, none, LEF_NOWHERE);
    looked_for(78, of("a"), LEF_NOWHERE);
    looked_for(0, of("a"), LEF_NOWHERE);
    for (i = 0; i < sizeof far / sizeof *far; i++)
        looked_for(far[i], of("a"), LEF_NOWHERE);
}

/* ---- refusals */

/* Text and file are refused alike by all three, whatever follows in the order: no room, an index that is not whole, or one that differs. */
static void refused(struct given t, struct given r, uint64_t number, uint64_t its_place, uint64_t its_line) {
    size_t len = number < LEF_WRONG_RECORD ? LEF_ENTRY_SIZE + 1 : LEF_ENTRY_SIZE, room;
    for (room = 0; room <= SIZE; room += SIZE) {
        answered("an index", build(t, r, room), number, its_place, its_line);
        expect("the buffer is as it was", (uint64_t)marked(0), 1);
    }
    answered("a check", check(t, r, len), number, its_place, its_line);
    answered("a find", find(t, r, len, LEF_LIBRARY, of("a")), number, its_place, its_line);
    expect("nowhere", at, LEF_NOWHERE);
}

const struct refused_text REFUSED[REFUSED_COUNT] = {
    {"\nVERSION \x80 @", LEF_NOT_ASCII, 9, 0},
    {"END LIBRARY @", LEF_NO_TOKEN, 12, 1},
    {"", LEF_WRONG_TOKEN, 0, 1},
    {"END LIBRARY;", LEF_NOT_A_KEY, 12, 1},
    {"VERSION 5.9 ; END LIBRARY", LEF_NOT_ALLOWED, 17, 1},
    {"END\nUNITS", LEF_OTHER_WORD, 9, 2},
    {"UNITS CAPACITANCE", LEF_NOT_SUPPORTED, 17, 1},
    {"VERSION - ;", LEF_NOT_A_NUMERAL, 11, 1},
    {"SITE s CLASS CORE ; END s END LIBRARY", LEF_SITE_LACKS, 29, 1},
};

static void refusals(void) {
    uint8_t spoilt[sizeof file], *blank = malloc(LEF_TEXT_LIMIT + 1);
    struct given cut = {spoilt, records.len - 1}, wrong = {spoilt, records.len}, lacks = {records.at, records.len - LEF_RECORD_SIZE};
    struct given longest = {blank, LEF_TEXT_LIMIT + 1}, none = {NULL, 0};
    size_t i;
    memset(blank, 0x80, LEF_TEXT_LIMIT + 1);
    refused(longest, cut, LEF_TOO_LONG, 0, 0);
    free(blank);
    memcpy(spoilt, file, sizeof file);
    memcpy(spoilt + 5 * LEF_RECORD_SIZE, spoilt + 4 * LEF_RECORD_SIZE, LEF_RECORD_SIZE);
    for (i = 0; i < REFUSED_COUNT; i++)
        refused(of(REFUSED[i].text), cut, REFUSED[i].number, REFUSED[i].place, REFUSED[i].line);
    refused(text, cut, LEF_NOT_WHOLE, records.len - 1, 0);
    refused(text, wrong, LEF_WRONG_RECORD, 5, 0);
    refused(text, lacks, LEF_LACKING, 180, 0);
    refused(text, none, LEF_LACKING, 0, 0);
    /* an index that is not whole comes before 14 and 15 */
    answered("a record foreign", check(text, wrong, SIZE - 1), LEF_NOT_WHOLE, SIZE - 1, 0);
    answered("a record lacking", check(text, lacks, 1), LEF_NOT_WHOLE, 1, 0);
    answered("an index cut", check(text, records, SIZE - 1), LEF_NOT_WHOLE, SIZE - 1, 0);
    answered("to find in", find(text, records, SIZE + 15, LEF_LIBRARY, of("a")), LEF_NOT_WHOLE, SIZE + 15, 0);
    expect("nowhere", at, LEF_NOWHERE);
}

/* ---- indexes that differ */

/* Whether both calls say that the index given parts at a position from the one that would be built. */
static int parts_at(size_t len, uint64_t position) {
    int is_said = check(text, records, len) == LEF_INDEX_DIFFERS && place == position && line == 0;
    return is_said && find(text, records, len, LEF_LIBRARY, of("a")) == LEF_INDEX_DIFFERS && place == position && line == 0 && at == LEF_NOWHERE;
}

static void differing(void) {
    uint8_t kept[sizeof entries];
    uint64_t changed = 0, both = 0, turned = 0, cut = 0, lacking = 0, twice = 0;
    size_t i, k, e = LEF_ENTRY_SIZE;
    memcpy(kept, entries, sizeof kept);
    for (i = 0; i < SIZE; i++) {
        entries[i] ^= 1;
        changed += (uint64_t)parts_at(SIZE, i / e);
        entries[i] ^= 1;
    }
    expect("a bit changed in each byte", changed, SIZE);
    for (i = 0; i < COUNT; i++)
        for (k = 0; k < i; k++) {
            entries[i * e + LEF_ENTRY_AT] ^= 1;
            entries[k * e + LEF_ENTRY_AT] ^= 1;
            both += (uint64_t)parts_at(SIZE, k);
            memcpy(entries, kept, sizeof kept);
        }
    expect("two changed", both, COUNT * (COUNT - 1) / 2);
    for (i = 0; i < COUNT; i++) {
        cut += (uint64_t)parts_at(i * e, i);
        memmove(entries + i * e, kept + (i + 1) * e, SIZE - (i + 1) * e);
        lacking += (uint64_t)parts_at(SIZE - e, i);
        memcpy(entries, kept, sizeof kept);
        memmove(entries + (i + 1) * e, kept + i * e, SIZE - i * e);
        twice += (uint64_t)parts_at(SIZE + e, i + 1);
        memcpy(entries, kept, sizeof kept);
        memcpy(entries + i * e, kept + (i + 1) % COUNT * e, e);
        memcpy(entries + (i + 1) % COUNT * e, kept + i * e, e);
        turned += (uint64_t)parts_at(SIZE, i + 1 < COUNT ? i : 0);
        memcpy(entries, kept, sizeof kept);
    }
    expect("cut", cut, COUNT);
    expect("one lacking", lacking, COUNT);
    expect("one twice", twice, COUNT);
    expect("two swapped", turned, COUNT);
    expect("one more behind", (uint64_t)parts_at(SIZE + e, COUNT), 1);
    answered("as it was", check(text, records, SIZE), LEF_DONE, 0, 0);
}

/* ---- no bytes */

static void empty(void) {
    const uint8_t *end = bytes("END LIBRARY"), *version = bytes("VERSION 5.8 ; END LIBRARY");
    uint8_t own[LEF_RECORD_SIZE];
    place = line = 77;
    answered("no text", lef_index(NULL, 0, NULL, 0, NULL, 0, &place, &line), LEF_WRONG_TOKEN, 0, 1);
    answered("no text", lef_index_check(NULL, 0, NULL, 0, NULL, 0, &place, &line), LEF_WRONG_TOKEN, 0, 1);
    answered("no text", lef_find(NULL, 0, NULL, 0, NULL, 0, 0, NULL, 0, &at, &place, &line), LEF_WRONG_TOKEN, 0, 1);
    expect("nowhere", at, LEF_NOWHERE);
    answered("no records", lef_index(end, 11, NULL, 0, NULL, 0, &place, &line), LEF_DONE, 0, 0);
    answered("no records", lef_index_check(end, 11, NULL, 0, NULL, 0, &place, &line), LEF_DONE, 0, 0);
    answered("no records", lef_find(end, 11, NULL, 0, NULL, 0, LEF_LIBRARY, NULL, 0, &at, &place, &line), LEF_DONE, 0, 0);
    expect("nowhere", at, LEF_NOWHERE);
    answered("an index too many", lef_index_check(end, 11, NULL, 0, entries, LEF_ENTRY_SIZE, &place, &line), LEF_INDEX_DIFFERS, 0, 0);
    expect("a record without an entry", lef_read(version, 25, own, sizeof own, &place, &line), LEF_DONE);
    answered("its index", lef_index(version, 25, own, sizeof own, NULL, 0, &place, &line), LEF_DONE, 0, 0);
    answered("entries that are counted", lef_index(text.at, text.len, records.at, records.len, NULL, 0, &place, &line), LEF_RECORD_ROOM, COUNT, 0);
    answered("an index of none", lef_index_check(text.at, text.len, records.at, records.len, NULL, 0, &place, &line), LEF_INDEX_DIFFERS, 0, 0);
}

void finding(void) {
    text = of(CELLS);
    lef_read(text.at, text.len, file, sizeof file, &place, &line);
    records.at = file;
    records.len = place * LEF_RECORD_SIZE;
    building();
    found();
    refusals();
    differing();
    empty();
}
