/* hostile TEXT RECORDS INDEX TIMES: how long the library takes for a text, a record file and an index, in nanoseconds of processor time:
 * for checking the records and for checking the index given, of TIMES runs of each the least, for building the index once, and, where the index
 * given is the one that is built, for looking up each of its entries in one call. After them what the check of the index answered, whether the
 * index given is that one, and the sum of what is answered to the look-ups. */
#define _POSIX_C_SOURCE 200809L
#include "lef.h"

#include <inttypes.h>
#include <stdio.h>
#include <stdlib.h>
#include <string.h>
#include <time.h>

struct bytes {
    uint8_t *at;
    size_t len;
};

static struct bytes text, records, given, built, queries, answers;
static uint64_t place, line;

static struct bytes whole(const char *path) {
    struct bytes b = {NULL, 0};
    FILE *f = fopen(path, "rb");
    if (f == NULL || fseek(f, 0, SEEK_END) != 0)
        exit(2);
    b.len = (size_t)ftell(f);
    b.at = malloc(b.len + 1);
    rewind(f);
    if (b.at == NULL || fread(b.at, 1, b.len, f) != b.len)
        exit(2);
    fclose(f);
    return b;
}

static double now(void) {
    struct timespec t;
    clock_gettime(CLOCK_PROCESS_CPUTIME_ID, &t);
    return 1e9 * (double)t.tv_sec + (double)t.tv_nsec;
}

static uint64_t check(void) {
    return lef_check(text.at, text.len, records.at, records.len, &place, &line);
}

static uint64_t build(void) {
    return lef_index(text.at, text.len, records.at, records.len, built.at, built.len, &place, &line);
}

static uint64_t check_index(void) {
    return lef_index_check(text.at, text.len, records.at, records.len, given.at, given.len, &place, &line);
}

static uint64_t ask(void) {
    return lef_find_many(text.at, text.len, records.at, records.len, given.at, given.len, text.at, text.len, queries.at, queries.len, answers.at, answers.len,
                         &place, &line);
}

/* A query for each entry, its name a part of the text. */
static void put_queries(void) {
    size_t n = given.len / LEF_ENTRY_SIZE, i;
    queries.len = n * LEF_QUERY_SIZE;
    queries.at = malloc(queries.len);
    answers.len = n * LEF_ANSWER_SIZE;
    answers.at = calloc(n, LEF_ANSWER_SIZE);
    for (i = 0; i < n; i++) {
        const uint8_t *e = given.at + i * LEF_ENTRY_SIZE;
        lef_query_put(queries.at + i * LEF_QUERY_SIZE, lef_entry_owner(e), lef_entry_name_start(e), lef_entry_name_length(e));
    }
}

static uint64_t answered(void) {
    uint64_t sum = 0;
    size_t i;
    for (i = 0; i < answers.len; i += LEF_ANSWER_SIZE)
        sum += lef_answer_at(answers.at + i);
    return sum;
}

static uint64_t job(const char *name, uint64_t (*run)(void), int times) {
    double start, best = 0;
    uint64_t number = 0;
    int i;
    for (i = 0; i < times; i++) {
        start = now();
        number = run();
        start = now() - start;
        if (i == 0 || start < best)
            best = start;
    }
    printf("%s %.0f\n", name, best);
    return number;
}

int main(int argc, char **argv) {
    int times = argc == 5 ? atoi(argv[4]) : 0;
    uint64_t number;
    int is_same;
    if (times < 1)
        return 2;
    text = whole(argv[1]);
    records = whole(argv[2]);
    given = whole(argv[3]);
    if (job("check", check, times) != LEF_DONE)
        return 1;
    if (lef_index(text.at, text.len, records.at, records.len, text.at, 0, &place, &line) != LEF_RECORD_ROOM)
        return 1;
    built.len = place * LEF_ENTRY_SIZE;
    built.at = malloc(built.len);
    memset(built.at, 0, built.len);
    if (job("index", build, 1) != LEF_DONE)
        return 1;
    number = job("index-check", check_index, times);
    is_same = built.len == given.len && memcmp(built.at, given.at, given.len) == 0;
    printf("number %" PRIu64 "\nplace %" PRIu64 "\nsame %d\n", number, place, is_same);
    if (!is_same)
        return 0;
    put_queries();
    if (job("find-many", ask, 1) != LEF_DONE)
        return 1;
    printf("answered %" PRIu64 "\n", answered());
    return 0;
}
