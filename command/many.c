/* Where each name of a list is. A list has a look-up a line; all are asked of the library in one call, by queries whose names are the list's own
 * bytes. */
#include "command.h"

#include <inttypes.h>
#include <stdlib.h>
#include <string.h>

/* Room for so many things and one more, so that it is never none; all its bytes are nought. */
static void *room_for(size_t count, size_t size) {
    void *room = calloc(count + 1, size);
    if (room == NULL)
        exit(failed("no memory", "the look-ups"));
    return room;
}

/* ---- the list */

/* What is left of a list, and the number of the line before it. */
struct rest {
    const uint8_t *at, *stop;
    uint64_t line;
};

/* What a line asks for: a macro or a site, or the pin of a macro. A word that the line does not have is empty; the third is one too many. */
struct wanted {
    struct name word, pin, third;
};

static struct rest all_of(struct bytes list) {
    struct rest r = {list.at, list.at + list.len, 0};
    return r;
}

static int is_blank(uint8_t byte) {
    return byte == ' ' || byte == '\t';
}

/* Takes the next word off a line, which is empty where there is none. */
static struct name next_word(const uint8_t **at, const uint8_t *stop) {
    struct name word;
    while (*at < stop && is_blank(**at))
        ++*at;
    word.at = *at;
    while (*at < stop && !is_blank(**at))
        ++*at;
    word.len = (size_t)(*at - word.at);
    return word;
}

/* Takes the lines off a list up to the first that has a word: 1, or 0 where there is none. */
static int next_wanted(struct rest *r, struct wanted *w) {
    w->word.len = 0;
    while (r->at < r->stop && w->word.len == 0) {
        const uint8_t *at = r->at, *newline = memchr(at, '\n', (size_t)(r->stop - at)), *stop = newline == NULL ? r->stop : newline;
        r->at = newline == NULL ? r->stop : newline + 1;
        r->line++;
        if (stop > at && stop[-1] == '\r')
            stop--;
        w->word = next_word(&at, stop);
        w->pin = next_word(&at, stop);
        w->third = next_word(&at, stop);
    }
    return w->word.len > 0;
}

int load_list(const char *name, struct bytes *list) {
    struct rest r;
    struct wanted w;
    int status = load(name, LIST_LIMIT, list);
    if (status != DONE)
        return status;
    if (list->len > LIST_LIMIT) {
        fprintf(stderr, "lef: %s: a list of names over %u bytes is not read\n", name, LIST_LIMIT);
        return FAILED;
    }
    for (r = all_of(*list); next_wanted(&r, &w);)
        if (w.third.len > 0) {
            fprintf(stderr, "lef: %s:%" PRIu64 ": more than two words; a line has a macro or a site, or a macro and a pin\n", name, r.line);
            return FAILED;
        }
    return DONE;
}

/* ---- the macro that is asked for a pin. Of several with one name it is the first that has such a pin. Which that is, is sorted out ahead for all
 * pins, so that a line takes one query however many macros share the name. */

/* The name of a pin, and the first that has it of the macros with one name. */
struct pin {
    struct name name;
    uint32_t macro;
};

/* A name of macros, one that has it, and the pins of all that have it, each name once. */
struct macros {
    struct name name;
    uint32_t one;
    struct pin *pins;
    size_t pins_count;
};

struct owners {
    struct macros *names;
    size_t count;
};

/* Both a pin and macros begin with their name. */
static int by_name(const void *a, const void *b) {
    return ordered(*(const struct name *)a, *(const struct name *)b);
}

static int by_name_and_macro(const void *a, const void *b) {
    uint32_t macro = ((const struct pin *)a)->macro, other = ((const struct pin *)b)->macro;
    int names = by_name(a, b);
    return names != 0 ? names : macro < other ? -1 : macro > other;
}

/* Puts the pins of a macro behind those of others with its name. */
static void put_pins(const struct library *l, struct macros *m, uint32_t macro) {
    struct bytes rest = entries_from(l, macro, spelt(""));
    size_t i;
    for (i = 0; i < rest.len && lef_entry_owner(rest.at + i) == macro; i += LEF_ENTRY_SIZE) {
        struct pin pin = {name_of(l, rest.at + i), macro};
        m->pins[m->pins_count++] = pin;
    }
}

/* Sorts pins, and leaves of those with one name the one of the first macro. */
static void sort_pins(struct macros *m) {
    size_t i, kept = 0;
    qsort(m->pins, m->pins_count, sizeof *m->pins, by_name_and_macro);
    for (i = 0; i < m->pins_count; i++)
        if (i == 0 || by_name(m->pins + i, m->pins + kept - 1) != 0)
            m->pins[kept++] = m->pins[i];
    m->pins_count = kept;
}

/* The names of macros in their order. The pins stand in the room that is given, which is enough for all. */
static struct owners owners_of(const struct library *l, struct pin *pins) {
    struct bytes entries = entries_from(l, LEF_LIBRARY, spelt(""));
    struct owners o = {room_for(entries.len / LEF_ENTRY_SIZE, sizeof *o.names), 0};
    size_t i, k;
    for (i = 0; i < entries.len; i = k) {
        struct macros m = {name_of(l, entries.at + i), LEF_NOWHERE, pins, 0};
        for (k = i; k < entries.len && ordered(name_of(l, entries.at + k), m.name) == 0; k += LEF_ENTRY_SIZE)
            if (kind_of(l, entries.at + k) == LEF_MACRO) {
                m.one = lef_entry_at(entries.at + k);
                put_pins(l, &m, m.one);
            }
        sort_pins(&m);
        pins += m.pins_count;
        if (m.one != LEF_NOWHERE)
            o.names[o.count++] = m;
    }
    return o;
}

/* The macro to be asked for a pin, or LEF_NOWHERE where none has that name. */
static uint32_t macro_for(struct owners o, struct wanted w) {
    const struct macros *m = bsearch(&w.word, o.names, o.count, sizeof *o.names, by_name);
    const struct pin *pin = m == NULL ? NULL : bsearch(&w.pin, m->pins, m->pins_count, sizeof *m->pins, by_name);
    return m == NULL ? LEF_NOWHERE : pin == NULL ? m->one : pin->macro;
}

/* ---- queries and answers, one of each for every line that has a word */

static size_t count_wanted(struct bytes list) {
    struct rest r = all_of(list);
    struct wanted w;
    size_t count = 0;
    while (next_wanted(&r, &w))
        count++;
    return count;
}

static void put_query(uint8_t *query, struct bytes list, uint32_t owner, struct name name) {
    lef_query_put(query, owner, (uint32_t)(name.at - list.at), (uint32_t)name.len);
}

/* Where a pin has no macro its query stays nought, and so asks for the empty name, which nothing has; LEF_NOWHERE as an owner is the library. */
static void put_queries(const struct library *l, struct bytes list, uint8_t *query) {
    struct pin *pins = room_for(l->index.len / LEF_ENTRY_SIZE, sizeof *pins);
    struct owners o = owners_of(l, pins);
    struct rest r = all_of(list);
    struct wanted w;
    for (; next_wanted(&r, &w); query += LEF_QUERY_SIZE) {
        uint32_t macro = w.pin.len > 0 ? macro_for(o, w) : LEF_NOWHERE;
        if (w.pin.len == 0)
            put_query(query, list, LEF_LIBRARY, w.word);
        else if (macro != LEF_NOWHERE)
            put_query(query, list, macro, w.pin);
    }
    free(o.names);
    free(pins);
}

/* Adds that there is none of what a line asks for. */
static void add_nowhere(struct sheet *s, const struct library *l, struct wanted w, int is_macro_there) {
    if (in_json) {
        add(s, "{");
        add_field(s, "file", spelt(l->asked.text_name));
        add(s, "\"line\":null,\"kind\":null,\"word\":null,");
        add_field(s, "name", w.pin.len > 0 ? w.pin : w.word);
        if (w.pin.len > 0)
            add_field(s, "macro", w.word);
        else
            add(s, "\"macro\":null,");
        add(s, "\"at\":null}\n");
        return;
    }
    add(s, "%s: no ", l->asked.text_name);
    if (w.pin.len > 0 && is_macro_there)
        add_named(s, "PIN ", w.pin);
    add_named(s, w.pin.len == 0 ? "MACRO or SITE " : is_macro_there ? " of MACRO " : "MACRO ", w.word);
    add(s, "\n");
}

/* ---- lines: counted once up to the start of each block of the text, and then on from there, since answers come in any order */

#define BLOCK 256u

static uint32_t *lines_of(struct bytes text) {
    uint32_t *lines = room_for(text.len / BLOCK, sizeof *lines), line = 1;
    size_t i;
    for (i = 0; i < text.len; i++) {
        if (i % BLOCK == 0)
            lines[i / BLOCK] = line;
        line += text.at[i] == '\n';
    }
    return lines;
}

static uint64_t line_by(const uint32_t *lines, struct bytes text, uint32_t place) {
    uint64_t line = lines[place / BLOCK];
    uint32_t i;
    for (i = place - place % BLOCK; i < place; i++)
        line += text.at[i] == '\n';
    return line;
}

/* Prints what is found, and counts what is not. */
static size_t print_answers(const struct library *l, struct bytes list, const uint8_t *query, const uint8_t *answer) {
    struct sheet s = {{NULL, 0}, 0};
    struct rest r = all_of(list);
    struct wanted w;
    uint32_t *lines = lines_of(l->asked.text);
    size_t lacking = 0;
    for (; next_wanted(&r, &w); query += LEF_QUERY_SIZE, answer += LEF_ANSWER_SIZE) {
        uint32_t at = lef_answer_at(answer);
        if (at == LEF_NOWHERE)
            add_nowhere(&s, l, w, lef_number(query + LEF_QUERY_LEN, 4) > 0);
        else
            add_found(&s, l, at, line_by(lines, l->asked.text, at));
        lacking += at == LEF_NOWHERE;
        flush(&s, 0);
    }
    flush(&s, 1);
    free(lines);
    return lacking;
}

int find_many(const struct library *l, struct bytes list) {
    struct asked a = l->asked;
    struct refusal r;
    size_t count = count_wanted(list), lacking = 0;
    uint8_t *queries = room_for(count, LEF_QUERY_SIZE), *answers = room_for(count, LEF_ANSWER_SIZE);
    int status;
    put_queries(l, list, queries);
    r.number = lef_find_many(a.text.at, a.text.len, a.file.at, a.file.len, l->index.at, l->index.len, list.at, list.len, queries,
                             count * LEF_QUERY_SIZE, answers, count * LEF_ANSWER_SIZE, &r.place, &r.line);
    if (r.number == LEF_DONE)
        lacking = print_answers(l, list, queries, answers);
    free(queries);
    free(answers);
    status = r.number == LEF_DONE ? printed() : refused(r, a);
    if (status != DONE || lacking == 0)
        return status;
    fprintf(stderr, "lef: %s: %zu of %zu names not found\n", a.text_name, lacking, count);
    return REFUSED;
}
