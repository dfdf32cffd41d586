/* How much stack each call takes: it is run on a stack filled with a pattern, and what has changed is counted. No call may take more than
 * include/lef.h says. */
#define _POSIX_C_SOURCE 200809L
#include "lef.h"

#include <inttypes.h>
#include <pthread.h>
#include <stdio.h>
#include <stdlib.h>
#include <string.h>

#define STACK (4u << 20)
#define MARK 0x5au

static uint8_t *text, *records, *mixed, *out, *entries, *queries, *answers;
static size_t text_len, records_len, out_len, entries_len;
static uint64_t place, line, other[3];

static void nothing(void) {
}

static void do_read(void) {
    lef_read(text, text_len, records, records_len, &place, &line);
}

static void do_check(void) {
    lef_check(text, text_len, mixed, records_len, &place, &line);
}

static void do_write(void) {
    lef_write(text, text_len, mixed, records_len, out, out_len, &place, &line);
}

static void do_token(void) {
    uint64_t from;
    for (from = 0; from < text_len; from = other[2] > from ? other[2] : text_len)
        lef_token(text, text_len, from, &other[0], &other[1], &other[2], &place, &line);
}

static void do_in_force(void) {
    lef_in_force(mixed, records_len, LEF_LIBRARY, LEF_VERSION, 0, other, &place, &line);
}

/* A record that is enclosed by the one before it, and so on: more owners than any reading has. */
#define DEEP 5000u

static void do_owners(void) {
    static uint8_t chain[DEEP * LEF_RECORD_SIZE];
    uint32_t i;
    for (i = 0; i < DEEP; i++) {
        uint8_t *record = chain + i * LEF_RECORD_SIZE;
        record[LEF_AT] = (uint8_t)(i + 1);
        record[LEF_AT + 1] = (uint8_t)((i + 1) >> 8);
        record[LEF_OWNER] = (uint8_t)i;
        record[LEF_OWNER + 1] = (uint8_t)(i >> 8);
    }
    lef_owners(chain, sizeof chain, DEEP - 1, other, &place, &line);
}

static void do_name(void) {
    uint64_t i;
    for (i = 0; i < records_len / LEF_RECORD_SIZE; i++)
        lef_name(text, text_len, records, records_len, i, other, other + 1);
}

static void do_index(void) {
    lef_index(text, text_len, mixed, records_len, entries, entries_len, &place, &line);
}

/* An index that is accepted, and one whose last entry differs. */
static void do_index_check(void) {
    lef_index_check(text, text_len, mixed, records_len, entries, entries_len, &place, &line);
    entries[entries_len - 1] ^= 1;
    lef_index_check(text, text_len, mixed, records_len, entries, entries_len, &place, &line);
    entries[entries_len - 1] ^= 1;
}

static void do_find(void) {
    const uint8_t *last = entries + entries_len - LEF_ENTRY_SIZE;
    lef_find(text, text_len, mixed, records_len, entries, entries_len, lef_entry_owner(last), text + lef_entry_name_start(last), lef_entry_name_length(last),
             other, &place, &line);
}

/* A query for each entry of the index, its name a part of the text. */
static void do_find_many(void) {
    size_t n = entries_len / LEF_ENTRY_SIZE, i;
    for (i = 0; i < n; i++) {
        const uint8_t *e = entries + i * LEF_ENTRY_SIZE;
        lef_query_put(queries + i * LEF_QUERY_SIZE, lef_entry_owner(e), lef_entry_name_start(e), lef_entry_name_length(e));
    }
    lef_find_many(text, text_len, mixed, records_len, entries, entries_len, text, text_len, queries, n * LEF_QUERY_SIZE, answers, n * LEF_ANSWER_SIZE,
                  &place, &line);
}

static void *started(void *run) {
    (*(void (**)(void))run)();
    return NULL;
}

/* How many bytes of a stack a call changes, from the lowest that changed up. */
static size_t used(void (*run)(void)) {
    uint8_t *stack;
    pthread_attr_t a;
    pthread_t t;
    size_t free_bytes = 0;
    if (posix_memalign((void **)&stack, 4096, STACK) != 0)
        exit(2);
    memset(stack, MARK, STACK);
    if (pthread_attr_init(&a) != 0 || pthread_attr_setstack(&a, stack, STACK) != 0 || pthread_create(&t, &a, started, &run) != 0)
        exit(2);
    pthread_join(t, NULL);
    while (free_bytes < STACK && stack[free_bytes] == MARK)
        free_bytes++;
    free(stack);
    return STACK - free_bytes;
}

static int tried, wrong;

static void at_most(const char *call, void (*run)(void), size_t most) {
    size_t before = used(nothing), bytes = used(run) - before;
    tried++;
    printf("stack: %s takes %zu bytes, at most %zu\n", call, bytes, most);
    wrong += bytes > most;
}

static void measure(void) {
    at_most("lef_read", do_read, LEF_READ_STACK);
    at_most("lef_check", do_check, LEF_CHECK_STACK);
    at_most("lef_write", do_write, LEF_WRITE_STACK);
    at_most("lef_token", do_token, LEF_TOKEN_STACK);
    at_most("lef_in_force", do_in_force, LEF_IN_FORCE_STACK);
    at_most("lef_owners", do_owners, LEF_OWNERS_STACK);
    at_most("lef_name", do_name, LEF_NAME_STACK);
    at_most("lef_index", do_index, LEF_INDEX_STACK);
    at_most("lef_index_check", do_index_check, LEF_INDEX_CHECK_STACK);
    at_most("lef_find", do_find, LEF_FIND_STACK);
    at_most("lef_find_many", do_find_many, LEF_FIND_MANY_STACK);
}

int main(int argc, char **argv) {
    FILE *f = argc == 2 ? fopen(argv[1], "rb") : NULL;
    size_t i, n;
    if (f == NULL)
        return 2;
    text = malloc(LEF_TEXT_LIMIT);
    text_len = fread(text, 1, LEF_TEXT_LIMIT, f);
    fclose(f);
    if (lef_read(text, text_len, NULL, 0, &place, &line) != LEF_RECORD_ROOM)
        return 2;
    n = place;
    records_len = n * LEF_RECORD_SIZE;
    records = malloc(records_len);
    mixed = malloc(records_len);
    do_read();
    /* the records in the opposite order, which no pass in order can take */
    for (i = 0; i < n; i++)
        memcpy(mixed + i * LEF_RECORD_SIZE, records + (n - 1 - i) * LEF_RECORD_SIZE, LEF_RECORD_SIZE);
    if (lef_write(text, text_len, mixed, records_len, NULL, 0, &place, &line) != LEF_TEXT_ROOM)
        return 2;
    out_len = place;
    out = malloc(out_len);
    if (lef_index(text, text_len, mixed, records_len, NULL, 0, &place, &line) != LEF_RECORD_ROOM)
        return 2;
    entries_len = place * LEF_ENTRY_SIZE;
    entries = malloc(entries_len);
    queries = malloc(place * LEF_QUERY_SIZE);
    answers = malloc(place * LEF_ANSWER_SIZE);
    measure();
    printf("stack: %d tried, %d wrong\n", tried, wrong);
    return wrong != 0;
}
