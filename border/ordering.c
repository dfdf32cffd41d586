/* The refusals of many look-ups: of any faults together the one that the order has first is said, and no buffer has changed. */
#include "border.h"

#include <stdlib.h>
#include <string.h>

/* The faults of a file; queries have three, and a text and the room one each. 0 is none. */
#define CUT 1
#define WRONG 2
#define LACKS 3

struct faults {
    int text, records, index, queries, room;
};

static uint8_t twice[64 * LEF_RECORD_SIZE], other[64 * LEF_ENTRY_SIZE];

/* A record of the file stands in the place of the next as well, and an entry of the index differs. */
static void spoil(void) {
    struct call c = worked();
    memcpy(twice, c.records.at, c.records.len);
    memcpy(twice + 5 * LEF_RECORD_SIZE, twice + 4 * LEF_RECORD_SIZE, LEF_RECORD_SIZE);
    memcpy(other, c.index.at, c.index.len);
    other[3 * LEF_ENTRY_SIZE] ^= 1;
}

/* The call with these faults: what is cut is wrong as well. */
static struct call with_faults(struct faults f) {
    struct call c = worked();
    if (f.text)
        c.text = of("\n@");
    if (f.records == CUT || f.records == WRONG)
        c.records.at = twice;
    if (f.records == CUT || f.records == LACKS)
        c.records.len -= f.records == CUT ? 1 : LEF_RECORD_SIZE;
    if (f.index)
        c.index.at = other;
    c.index.len -= f.index == CUT;
    c.queries.len -= f.queries == 1 ? 1 : f.queries == 2 ? 11 : 0;
    c.queries.len += f.queries == 3;
    c.room -= f.room != 0;
    return c;
}

static void in_order(struct faults f) {
    struct call c = with_faults(f);
    uint64_t answers = worked().room / LEF_ANSWER_SIZE;
    if (f.text)
        asks("a text refused", c, LEF_NO_TOKEN, 1, 2);
    else if (f.records == CUT)
        asks("records not whole", c, LEF_NOT_WHOLE, c.records.len, 0);
    else if (f.index == CUT)
        asks("an index not whole", c, LEF_NOT_WHOLE, c.index.len, 0);
    else if (f.queries)
        asks("queries not whole", c, LEF_NOT_WHOLE, c.queries.len, 0);
    else if (f.records == WRONG)
        asks("a record twice", c, LEF_WRONG_RECORD, 5, 0);
    else if (f.records == LACKS)
        asks("the last record lacking", c, LEF_LACKING, 125, 0);
    else if (f.index)
        asks("an index that differs", c, LEF_INDEX_DIFFERS, 3, 0);
    else
        asks("the room", c, f.room ? LEF_RECORD_ROOM : LEF_DONE, answers, 0);
}

/* Each refusal of a text, with all else wrong as well. */
static void texts(void) {
    static const struct faults all = {0, CUT, CUT, 1, 1};
    struct call c = with_faults(all);
    uint8_t *longest = malloc(LEF_TEXT_LIMIT + 1);
    size_t i;
    for (i = 0; i < REFUSED_COUNT; i++) {
        c.text = of(REFUSED[i].text);
        asks(REFUSED[i].text, c, REFUSED[i].number, REFUSED[i].place, REFUSED[i].line);
    }
    memset(longest, 0x80, LEF_TEXT_LIMIT + 1);
    c.text.at = longest;
    c.text.len = LEF_TEXT_LIMIT + 1;
    asks("a text too long", c, LEF_TOO_LONG, 0, 0);
    free(longest);
}

void ordering(void) {
    struct faults f;
    spoil();
    for (f.text = 0; f.text < 2; f.text++)
        for (f.records = 0; f.records <= LACKS; f.records++)
            for (f.index = 0; f.index <= WRONG; f.index++)
                for (f.queries = 0; f.queries < 4; f.queries++)
                    for (f.room = 0; f.room < 2; f.room++)
                        in_order(f);
    texts();
}
