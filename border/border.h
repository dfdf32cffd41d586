/* What the parts of the test from C share. */
#ifndef BORDER_H
#define BORDER_H

#include "lef.h"

/* Counts one thing tried, and says where it is other than it should be. */
void expect(const char *what, uint64_t is, uint64_t should);

const uint8_t *bytes(const char *s);

/* Bytes that are lent to a call. */
struct given {
    const uint8_t *at;
    size_t len;
};

struct given of(const char *s);

/* finding.c, sorting.c, asking.c: the calls that build an index and take one. */
void finding(void);
void sorting(void);
void asking(void);

/* finding.c: a text for each refusal of a text from 2 on, in their order. */
#define REFUSED_COUNT 9u
struct refused_text {
    const char *text;
    uint64_t number, place, line;
};
extern const struct refused_text REFUSED[REFUSED_COUNT];

/* asking.c: what is handed to lef_find_many, and a call that is answered; a byte more lies behind its queries. */
struct call {
    struct given text, records, index, names, queries;
    size_t room;
};
struct call worked(void);

/* The call leaves these numbers; the answers stand at the front of their buffer, or it is as it was; and nothing else has changed. */
void asks(const char *what, struct call c, uint64_t number, uint64_t its_place, uint64_t its_line);

/* ordering.c: the refusals of that call beside one another. */
void ordering(void);

#endif
