/* ours FILE TIMES: how long the library takes for a text with a macro in it, in nanoseconds of processor time for one of TIMES runs of each
 * job. The buffers are touched before the first run, so that no run pays for pages that the system clears. */
#define _POSIX_C_SOURCE 200809L
#include "lef.h"

#include <stdio.h>
#include <stdlib.h>
#include <string.h>
#include <time.h>

/* How many look-ups the job of many has. */
#define QUERIES 100000u

static uint8_t *text, *records, *mixed, *out, *entries, *drawn, *names;
static uint8_t queries[QUERIES * LEF_QUERY_SIZE], answers[QUERIES * LEF_ANSWER_SIZE];
static size_t text_len, records_len, out_len, entries_len, names_len;

static double now(void) {
    struct timespec t;
    clock_gettime(CLOCK_PROCESS_CPUTIME_ID, &t);
    return 1e9 * (double)t.tv_sec + (double)t.tv_nsec;
}

static uint64_t place, line;

static uint64_t count(void) {
    return lef_read(text, text_len, records, 0, &place, &line) == LEF_RECORD_ROOM ? LEF_DONE : LEF_TOO_LONG;
}

static uint64_t fill(void) {
    return lef_read(text, text_len, records, records_len, &place, &line);
}

static uint64_t in_order(void) {
    return lef_check(text, text_len, records, records_len, &place, &line);
}

static uint64_t shuffled(void) {
    return lef_check(text, text_len, mixed, records_len, &place, &line);
}

static uint64_t again(void) {
    return lef_write(text, text_len, records, records_len, out, out_len, &place, &line);
}

static uint64_t index_of(void) {
    return lef_index(text, text_len, records, records_len, entries, entries_len, &place, &line);
}

static uint64_t index_checked(void) {
    return lef_index_check(text, text_len, records, records_len, entries, entries_len, &place, &line);
}

/* The entry in the middle of the index, by its owner and name. */
static uint64_t found(void) {
    const uint8_t *e = entries + entries_len / LEF_ENTRY_SIZE / 2 * LEF_ENTRY_SIZE;
    uint64_t at, number;
    number = lef_find(text, text_len, records, records_len, entries, entries_len, lef_number(e, 4), text + lef_number(e + 4, 4), lef_number(e + 8, 4), &at,
                      &place, &line);
    return number == LEF_DONE && at != lef_number(e + 12, 4) ? LEF_LACKING : number;
}

static uint64_t many(void) {
    return lef_find_many(text, text_len, records, records_len, entries, entries_len, names, names_len, queries, sizeof queries, answers,
                         sizeof answers, &place, &line);
}

/* All tokens, by calls on windows of the text: every call looks its window over first, so a small one is lent, and a larger one where
 * that holds no whole token. */
static uint64_t tokens(void) {
    uint64_t from = 0, kind = LEF_TOKEN_NAME, start, stop, window, number = LEF_DONE;
    while (number == LEF_DONE && kind != LEF_TOKEN_END) {
        for (window = 128;; window *= 16) {
            int last = window >= text_len - from;
            number = lef_token(text + from, last ? text_len - from : window, 0, &kind, &start, &stop, &place, &line);
            if (last || number != LEF_DONE || (kind != LEF_TOKEN_END && stop < window))
                break;
        }
        from += stop;
    }
    return number;
}

static void job(const char *name, uint64_t (*run)(void), int times) {
    double start, best = 0;
    int i;
    for (i = 0; i < times; i++) {
        start = now();
        if (run() != LEF_DONE) {
            printf("%s refused\n", name);
            exit(1);
        }
        start = now() - start;
        if (i == 0 || start < best)
            best = start;
    }
    printf("%s %.0f\n", name, best);
}

/* Rows in another order, which is always the same. */
static void shuffle(uint8_t *rows, size_t n, size_t size) {
    uint8_t row[LEF_RECORD_SIZE];
    uint64_t seed = 1;
    size_t i, j;
    for (i = n - 1; i > 0; i--) {
        seed = seed * 6364136223846793005u + 1442695040888963407u;
        j = (size_t)((seed >> 33) % (i + 1));
        memcpy(row, rows + i * size, size);
        memcpy(rows + i * size, rows + j * size, size);
        memcpy(rows + j * size, row, size);
    }
}

/* Draws an entry for each query: all of them, again where they are fewer, in no order. Their names lie one after the other in a block of
 * their own, as those of a netlist would. */
static void draw(void) {
    size_t n = entries_len / LEF_ENTRY_SIZE, i;
    const uint8_t *e;
    drawn = malloc(QUERIES * LEF_ENTRY_SIZE);
    for (i = 0; i < QUERIES; i++) {
        memcpy(drawn + i * LEF_ENTRY_SIZE, entries + i % n * LEF_ENTRY_SIZE, LEF_ENTRY_SIZE);
        names_len += lef_entry_name_length(drawn + i * LEF_ENTRY_SIZE);
    }
    shuffle(drawn, QUERIES, LEF_ENTRY_SIZE);
    names = malloc(names_len);
    names_len = 0;
    for (i = 0; i < QUERIES; i++) {
        e = drawn + i * LEF_ENTRY_SIZE;
        memcpy(names + names_len, text + lef_entry_name_start(e), lef_entry_name_length(e));
        lef_query_put(queries + i * LEF_QUERY_SIZE, lef_entry_owner(e), (uint32_t)names_len, lef_entry_name_length(e));
        names_len += lef_entry_name_length(e);
    }
}

/* Whether every query is answered by the entry that was drawn for it: in these texts no two of one owner have one name. */
static int answered(void) {
    size_t i;
    if (many() != LEF_DONE || place != QUERIES)
        return 0;
    for (i = 0; i < QUERIES; i++)
        if (lef_answer_at(answers + i * LEF_ANSWER_SIZE) != lef_entry_at(drawn + i * LEF_ENTRY_SIZE))
            return 0;
    return 1;
}

/* Makes the buffers: whether the text and all that is made of it are accepted. */
static int prepared(FILE *f) {
    text = malloc(LEF_TEXT_LIMIT);
    text_len = fread(text, 1, LEF_TEXT_LIMIT, f);
    if (lef_read(text, text_len, text, 0, &place, &line) != LEF_RECORD_ROOM)
        return 0;
    records_len = place * LEF_RECORD_SIZE;
    records = malloc(records_len);
    mixed = malloc(records_len);
    fill();
    memcpy(mixed, records, records_len);
    shuffle(mixed, records_len / LEF_RECORD_SIZE, LEF_RECORD_SIZE);
    if (lef_write(text, text_len, records, records_len, records, 0, &place, &line) != LEF_TEXT_ROOM)
        return 0;
    out_len = place;
    out = malloc(out_len);
    memset(out, 0, out_len);
    if (lef_index(text, text_len, records, records_len, records, 0, &place, &line) != LEF_RECORD_ROOM)
        return 0;
    entries_len = place * LEF_ENTRY_SIZE;
    entries = malloc(entries_len);
    index_of();
    draw();
    return answered();
}

int main(int argc, char **argv) {
    FILE *f = argc == 3 ? fopen(argv[1], "rb") : NULL;
    int times = argc == 3 ? atoi(argv[2]) : 0;
    if (f == NULL || times < 1)
        return 2;
    if (!prepared(f))
        return 1;
    printf("bytes %zu\nrecords %zu\nwritten %zu\n", text_len, records_len / LEF_RECORD_SIZE, out_len);
    printf("entries %zu\nqueries %u\n", entries_len / LEF_ENTRY_SIZE, QUERIES);
    job("tokens", tokens, times);
    job("count", count, times);
    job("read", fill, times);
    job("check", in_order, times);
    job("shuffled", shuffled, times);
    job("write", again, times);
    job("index", index_of, times);
    job("index-check", index_checked, times);
    job("find", found, times);
    job("find-many", many, times);
    return 0;
}
