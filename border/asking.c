/* Many look-ups in one call: each answer beside the single look-up and beside a search from front to back, spans at and past every edge of the
 * block of names, and buffers that are short, exact and larger. */
#include "border.h"

#include <stdlib.h>
#include <string.h>

#define MARK 0xa5u
#define GUARD 16u

/* A site and a macro of one name, a pin's name twice, and names that are a part of another. */
static const char CELLS[] = "SITE core CLASS CORE ; SIZE 1 BY 1 ; END core "
                            "MACRO inv PIN zn END zn PIN n END n PIN z END z PIN n END n END inv "
                            "MACRO core PIN n END n END core END LIBRARY";

#define RECORDS 10u
#define ENTRIES 8u
#define SITE_AT 0u
#define INV_AT 46u
#define CORE_AT 114u

static uint8_t file[RECORDS * LEF_RECORD_SIZE], entries[ENTRIES * LEF_ENTRY_SIZE];
static struct call cells;
static uint64_t place, line;

/* How far behind an address that malloc gives the buffers start. */
static size_t shift;

/* ---- what the answers have to be */

/* A query's name, and none where its span reaches outside the block. */
static struct given name_of(struct given names, const uint8_t *query) {
    uint64_t start = lef_number(query + LEF_QUERY_START, 4), len = lef_number(query + LEF_QUERY_LEN, 4);
    struct given name = {NULL, 0};
    if (len > 0 && start + len <= names.len) {
        name.at = names.at + start;
        name.len = len;
    }
    return name;
}

/* The least `at` of the records that are found by name and have the owner and the name. */
static uint32_t searched(const struct call *c, uint32_t owner, struct given name) {
    uint32_t least = LEF_NOWHERE;
    size_t i;
    for (i = 0; i < c->records.len; i += LEF_RECORD_SIZE) {
        const uint8_t *r = c->records.at + i;
        uint32_t kind = lef_record_kind(r), at = lef_record_at(r);
        if ((kind == LEF_SITE || kind == LEF_MACRO || kind == LEF_PIN) && lef_record_owner(r) == owner && lef_record_name_length(r) == name.len &&
            memcmp(c->text.at + lef_record_name_start(r), name.at, name.len) == 0 && at < least)
            least = at;
    }
    return least;
}

/* Puts the answers that are wanted, and says how many of them the single look-up gives as well. */
static uint64_t put_wanted(const struct call *c, uint8_t *answers) {
    uint64_t alike = 0, at;
    size_t i;
    for (i = 0; i < c->queries.len / LEF_QUERY_SIZE; i++) {
        const uint8_t *query = c->queries.at + i * LEF_QUERY_SIZE;
        uint32_t owner = (uint32_t)lef_number(query, 4), wanted;
        struct given name = name_of(c->names, query);
        wanted = searched(c, owner, name);
        lef_put32(answers + i * LEF_ANSWER_SIZE, wanted);
        lef_find(c->text.at, c->text.len, c->records.at, c->records.len, c->index.at, c->index.len, owner, name.at, name.len, &at, &place, &line);
        alike += at == wanted;
    }
    return alike;
}

/* ---- a call, and all that it leaves */

static uint64_t ask(const struct call *c, uint8_t *answers) {
    place = line = 77;
    return lef_find_many(c->text.at, c->text.len, c->records.at, c->records.len, c->index.at, c->index.len, c->names.at, c->names.len, c->queries.at,
                         c->queries.len, answers, c->room, &place, &line);
}

/* A copy of exactly as many bytes, so that a tool that watches memory sees a byte read beside it. */
static struct given copied(struct given g) {
    uint8_t *block = malloc(shift + g.len + (shift + g.len == 0));
    if (g.len > 0)
        memcpy(block + shift, g.at, g.len);
    g.at = block + shift;
    return g;
}

/* Whether a copy is as it was made; it is freed. */
static uint64_t is_kept(struct given g, struct given copy) {
    int is_same = g.len == 0 || memcmp(g.at, copy.at, g.len) == 0;
    free((uint8_t *)copy.at - shift);
    return (uint64_t)is_same;
}

void asks(const char *what, struct call c, uint64_t number, uint64_t its_place, uint64_t its_line) {
    struct call own = {copied(c.text), copied(c.records), copied(c.index), copied(c.names), copied(c.queries), c.room};
    size_t size = GUARD + shift + c.room + GUARD;
    uint8_t *held = malloc(size), *wanted = malloc(size);
    memset(held, MARK, size);
    memset(wanted, MARK, size);
    if (number == LEF_DONE)
        expect("each asked singly", put_wanted(&c, wanted + GUARD + shift), its_place);
    expect(what, ask(&own, held + GUARD + shift), number);
    expect("its place", place, its_place);
    expect("its line", line, its_line);
    expect("the answers, and what is kept", (uint64_t)(memcmp(held, wanted, size) == 0), 1);
    expect("text and records are as they were", is_kept(c.text, own.text) + is_kept(c.records, own.records), 2);
    expect("index, names and queries are", is_kept(c.index, own.index) + is_kept(c.names, own.names) + is_kept(c.queries, own.queries), 3);
    free(held);
    free(wanted);
}

/* As many queries, with room for their answers. */
static struct call with(struct given names, const uint8_t *queries, size_t count) {
    struct call c = cells;
    c.names = names;
    c.queries.at = queries;
    c.queries.len = count * LEF_QUERY_SIZE;
    c.room = count * LEF_ANSWER_SIZE;
    return c;
}

/* ---- the worked example, by hand */

static const char BLOCK[] = "core\0invzn\xffz CORE\x80n";

/* owner, start, length, and the answer */
static const uint32_t ROWS[][4] = {
    {LEF_LIBRARY, 0, 4, SITE_AT},     {LEF_LIBRARY, 5, 3, INV_AT},       {INV_AT, 8, 2, 56},           {INV_AT, 9, 1, 70},
    {INV_AT, 8, 1, 82},               {INV_AT, 11, 1, 82},               {CORE_AT, 18, 1, 125},        {INV_AT, 6, 1, 70},
    {INV_AT, 18, 1, 70},              {INV_AT, 8, 2, 56},                {CORE_AT, 8, 1, LEF_NOWHERE}, {INV_AT, 0, 4, LEF_NOWHERE},
    {LEF_LIBRARY, 0, 5, LEF_NOWHERE}, {LEF_LIBRARY, 13, 4, LEF_NOWHERE}, {INV_AT, 8, 3, LEF_NOWHERE},  {INV_AT, 10, 2, LEF_NOWHERE},
    {INV_AT, 17, 2, LEF_NOWHERE},     {SITE_AT, 9, 1, LEF_NOWHERE},      {56, 9, 1, LEF_NOWHERE},      {LEF_LIBRARY, 9, 1, LEF_NOWHERE},
    {INV_AT + 1, 9, 1, LEF_NOWHERE},  {INV_AT, 0, 0, LEF_NOWHERE},       {LEF_LIBRARY, 19, 0, LEF_NOWHERE},
    {4294967294, 5, 3, LEF_NOWHERE},
};

#define COUNT (sizeof ROWS / sizeof *ROWS)
#define SIZE (COUNT * LEF_QUERY_SIZE)
#define ROOM (COUNT * LEF_ANSWER_SIZE)

/* One byte more, for queries that are not whole. */
static uint8_t rows[SIZE + 1];

struct call worked(void) {
    struct given block = {bytes(BLOCK), sizeof BLOCK - 1};
    return with(block, rows, COUNT);
}

static void by_hand(void) {
    static const uint8_t query[] = {MARK, 0x78, 0x56, 0x34, 0x12, 0xff, 0xff, 0xff, 0xff, 0x01, 0x02, 0x03, 0x84, MARK};
    uint8_t put[sizeof query], answers[ROOM];
    struct call c = worked();
    size_t i;
    memset(put, MARK, sizeof put);
    lef_query_put(put + 1, 0x12345678, 4294967295, 0x84030201);
    expect("a query's bytes", (uint64_t)memcmp(put, query, sizeof put), 0);
    expect("an answer", lef_answer_at(query + 3), 0xffff1234);
    expect("the worked example", ask(&c, answers), LEF_DONE);
    for (i = 0; i < COUNT; i++)
        expect("an answer by hand", lef_answer_at(answers + i * LEF_ANSWER_SIZE), ROWS[i][3]);
    asks("the worked example", c, LEF_DONE, COUNT, 0);
}

/* ---- spans at and past every edge */

#define FARS 3u
#define OWNERS 5u
#define EDGES (2 * (9 + 3) + FARS)

/* Numbers up to past the block's length, as many that a length makes wrap, and some between. */
static size_t edges_of(size_t len, uint32_t edges[EDGES]) {
    static const uint32_t far[FARS] = {65536, 2147483647, 2147483648};
    size_t n = 0, i;
    for (i = 0; i < len + 3; i++) {
        edges[n++] = (uint32_t)i;
        edges[n++] = 4294967295u - (uint32_t)i;
    }
    for (i = 0; i < FARS; i++)
        edges[n++] = far[i];
    return n;
}

static void spans(void) {
    static const uint32_t owners[OWNERS] = {LEF_LIBRARY, INV_AT, CORE_AT, SITE_AT, 4294967294};
    static const char *const blocks[] = {"", "n", "zn", "inv", "\x80zn\xff", "coreinvzn"};
    static uint8_t queries[EDGES * EDGES * OWNERS * LEF_QUERY_SIZE];
    uint32_t edges[EDGES];
    size_t b, i, k, o, n, count;
    for (b = 0; b < sizeof blocks / sizeof *blocks; b++) {
        n = edges_of(strlen(blocks[b]), edges);
        count = 0;
        for (i = 0; i < n; i++)
            for (k = 0; k < n; k++)
                for (o = 0; o < OWNERS; o++)
                    lef_query_put(queries + count++ * LEF_QUERY_SIZE, owners[o], edges[i], edges[k]);
        asks("spans", with(of(blocks[b]), queries, count), LEF_DONE, count, 0);
    }
}

/* ---- buffers */

static void buffers(void) {
    static const size_t rooms[] = {0, 1, 3, 4, ROOM - 4, ROOM - 1, ROOM, ROOM + 1, ROOM + 2, ROOM + 3, ROOM + 4, ROOM + 40};
    uint8_t many[1000 * LEF_QUERY_SIZE], turned[sizeof file];
    struct call c = worked();
    size_t i, k, r = LEF_RECORD_SIZE;
    for (i = 0; i < sizeof rooms / sizeof *rooms; i++) {
        c.room = rooms[i];
        asks("answers with room", c, rooms[i] < ROOM ? LEF_RECORD_ROOM : LEF_DONE, COUNT, 0);
    }
    for (i = 0; i < 1000; i++)
        lef_query_put(many + i * LEF_QUERY_SIZE, INV_AT, 8, 2);
    asks("one query many times", with(c.names, many, 1000), LEF_DONE, 1000, 0);
    asks("names that are the text", with(cells.text, many, 1000), LEF_DONE, 1000, 0);
    c = worked();
    c.names = c.queries;
    asks("names that are the queries", c, LEF_DONE, COUNT, 0);
    for (shift = 1; shift < 9; shift++)
        asks("buffers at any address", worked(), LEF_DONE, COUNT, 0);
    shift = 0;
    /* from the last record to the first, from each on */
    c = worked();
    c.records.at = turned;
    for (k = 0; k < RECORDS; k++) {
        for (i = 0; i < RECORDS; i++)
            memcpy(turned + i * r, file + (RECORDS - 1 - (i + k) % RECORDS) * r, r);
        asks("the file in another order", c, LEF_DONE, COUNT, 0);
    }
}

/* ---- no bytes */

static void empty(void) {
    static const uint8_t outside[3 * LEF_QUERY_SIZE] = {[LEF_QUERY_SIZE + LEF_QUERY_LEN] = 1, [2 * LEF_QUERY_SIZE + LEF_QUERY_START] = 1};
    static const struct call nothing;
    const struct given none = {NULL, 0};
    struct call c = cells;
    expect("no text", ask(&nothing, NULL), LEF_WRONG_TOKEN);
    expect("its line", line, 1);
    expect("no queries", ask(&c, NULL), LEF_DONE);
    expect("no answers", place, 0);
    c.queries = worked().queries;
    expect("no names and no room", ask(&c, NULL), LEF_RECORD_ROOM);
    expect("the answers needed", place, COUNT);
    c.queries = none;
    c.room = 40;
    asks("no queries, and room", c, LEF_DONE, 0, 0);
    c.names = worked().names;
    asks("names that no query asks for", c, LEF_DONE, 0, 0);
    c.queries.at = rows;
    c.queries.len = 1;
    asks("less than a query", c, LEF_NOT_WHOLE, 1, 0);
    asks("a block of no names", with(none, outside, 3), LEF_DONE, 3, 0);
    c = worked();
    c.text = of("END LIBRARY");
    c.records = c.index = none;
    asks("no records", c, LEF_DONE, COUNT, 0);
}

void asking(void) {
    size_t i;
    cells.text = of(CELLS);
    expect("the cells", lef_read(cells.text.at, cells.text.len, file, sizeof file, &place, &line), LEF_DONE);
    expect("their records", place, RECORDS);
    expect("their index", lef_index(cells.text.at, cells.text.len, file, sizeof file, entries, sizeof entries, &place, &line), LEF_DONE);
    expect("its entries", place, ENTRIES);
    cells.records.at = file;
    cells.records.len = sizeof file;
    cells.index.at = entries;
    cells.index.len = sizeof entries;
    for (i = 0; i < COUNT; i++)
        lef_query_put(rows + i * LEF_QUERY_SIZE, ROWS[i][0], ROWS[i][1], ROWS[i][2]);
    by_hand();
    spans();
    buffers();
    empty();
    ordering();
}
