/* The index of a library of many names, most of them several times, beside the C library's own sorting; and each of them found, singly and all
 * in one call. */
#include "border.h"

#include <stdio.h>
#include <stdlib.h>
#include <string.h>

#define MACROS 40u
#define PINS 12u
#define MOST (MACROS * (PINS + 1))

static char many[32 * MOST];

static uint32_t drawn(uint32_t below) {
    static uint32_t state = 1;
    state = state * 1664525u + 1013904223u;
    return (state >> 16) % below;
}

/* A name of one to four letters. */
static void draw(char name[5]) {
    size_t n = 1 + drawn(4), i;
    for (i = 0; i < n; i++)
        name[i] = "abAz"[drawn(4)];
    name[n] = 0;
}

static void lay_out(void) {
    char macro[5], pin[5];
    size_t len = 0, i, k;
    for (i = 0; i < MACROS; i++) {
        draw(macro);
        len += (size_t)sprintf(many + len, "MACRO %s\n", macro);
        for (k = drawn(PINS + 1); k > 0; k--) {
            draw(pin);
            len += (size_t)sprintf(many + len, "PIN %s END %s\n", pin, pin);
        }
        len += (size_t)sprintf(many + len, "END %s\n", macro);
    }
    sprintf(many + len, "END LIBRARY");
}

static int by_name(const uint8_t *e, const uint8_t *f) {
    uint32_t m = lef_entry_name_length(e), n = lef_entry_name_length(f);
    int names = memcmp(many + lef_entry_name_start(e), many + lef_entry_name_start(f), m < n ? m : n);
    return lef_entry_owner(e) != lef_entry_owner(f) ? (lef_entry_owner(e) < lef_entry_owner(f) ? -1 : 1) : names != 0 ? names : m < n ? -1 : m > n;
}

static int by_key(const void *e, const void *f) {
    int names = by_name(e, f);
    return names != 0 ? names : lef_entry_at(e) < lef_entry_at(f) ? -1 : lef_entry_at(e) > lef_entry_at(f);
}

static uint8_t all[MOST * LEF_RECORD_SIZE], made[MOST * LEF_ENTRY_SIZE];

/* Asks for each entry's name as a part of the text, in another order than the index has; of several of one name the first is the answer. */
static void all_at_once(size_t len, size_t n) {
    static uint8_t queries[MOST * LEF_QUERY_SIZE], answers[MOST * LEF_ANSWER_SIZE];
    uint32_t wanted[MOST], first = 0, turn = drawn((uint32_t)n);
    uint64_t right = 0, place, line;
    size_t i, k;
    for (i = 0; i < n; i++) {
        const uint8_t *e = made + i * LEF_ENTRY_SIZE;
        first = i > 0 && by_name(e - LEF_ENTRY_SIZE, e) == 0 ? first : lef_entry_at(e);
        k = (n - 1 - i + turn) % n;
        wanted[k] = first;
        lef_query_put(queries + k * LEF_QUERY_SIZE, lef_entry_owner(e), lef_entry_name_start(e), lef_entry_name_length(e));
    }
    expect("all in one call",
           lef_find_many(bytes(many), len, all, n * LEF_RECORD_SIZE, made, n * LEF_ENTRY_SIZE, bytes(many), len, queries, n * LEF_QUERY_SIZE, answers,
                         n * LEF_ANSWER_SIZE, &place, &line),
           LEF_DONE);
    expect("the answers", place, n);
    for (i = 0; i < n; i++)
        right += lef_answer_at(answers + i * LEF_ANSWER_SIZE) == wanted[i];
    expect("each is found, of several the first", right, n);
}

void sorting(void) {
    static uint8_t wanted[MOST * LEF_ENTRY_SIZE];
    const uint8_t *e, *first = made, *names = bytes(many);
    uint64_t i, n = 0, right = 0, at, place, line;
    size_t len;
    lay_out();
    len = strlen(many);
    expect("many names", lef_read(names, len, all, sizeof all, &n, &line), LEF_DONE);
    /* each record has an entry: owner, name start and name length stand together in both */
    for (i = 0; i < n; i++) {
        memcpy(wanted + i * LEF_ENTRY_SIZE, all + i * LEF_RECORD_SIZE + LEF_OWNER, 12);
        memcpy(wanted + i * LEF_ENTRY_SIZE + LEF_ENTRY_AT, all + i * LEF_RECORD_SIZE + LEF_AT, 4);
    }
    qsort(wanted, n, LEF_ENTRY_SIZE, by_key);
    expect("their index", lef_index(names, len, all, n * LEF_RECORD_SIZE, made, sizeof made, &place, &line), LEF_DONE);
    expect("its entries", place, n);
    expect("it is sorted", (uint64_t)memcmp(made, wanted, sizeof made), 0);
    for (e = made; e < made + n * LEF_ENTRY_SIZE; e += LEF_ENTRY_SIZE) {
        first = by_name(first, e) == 0 ? first : e;
        lef_find(names, len, all, n * LEF_RECORD_SIZE, made, n * LEF_ENTRY_SIZE, lef_entry_owner(e), names + lef_entry_name_start(e),
                 lef_entry_name_length(e), &at, &place, &line);
        right += at == lef_entry_at(first);
    }
    expect("each is found, of several the first", right, n);
    all_at_once(len, n);
}
