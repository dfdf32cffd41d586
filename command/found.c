/* Sites, macros and pins by their names: the index of a record file, and where in the text it has a name. */
#include "command.h"

#include <inttypes.h>
#include <stdlib.h>
#include <string.h>

struct refusal index_records(struct bytes text, struct bytes records, struct bytes *index) {
    struct refusal r;
    index->at = NULL;
    index->len = 0;
    r.number = lef_index(text.at, text.len, records.at, records.len, NULL, 0, &r.place, &r.line);
    if (r.number == LEF_RECORD_ROOM) {
        index->len = r.place * LEF_ENTRY_SIZE;
        index->at = malloc(index->len);
        if (index->at == NULL)
            exit(failed("no memory", "the index"));
        r.number = lef_index(text.at, text.len, records.at, records.len, index->at, index->len, &r.place, &r.line);
    }
    return r;
}

/* ---- entries of one owner and name. The index is the one that lef_index built, and so it is searched by the order that lef.h says: lef_find
 * gives the first of them alone, and checks all that it is handed at each call, of which there may be many where macros share a name. */

struct name name_of(const struct library *l, const uint8_t *entry) {
    struct name name = {l->asked.text.at + lef_entry_name_start(entry), lef_entry_name_length(entry)};
    return name;
}

struct name spelt(const char *word) {
    struct name name = {(const uint8_t *)word, strlen(word)};
    return name;
}

void add_named(struct sheet *s, const char *before, struct name name) {
    add(s, "%s", before);
    add_shown(s, name.at, name.len);
}

int ordered(struct name a, struct name b) {
    int by_bytes = memcmp(a.at, b.at, a.len < b.len ? a.len : b.len);
    return by_bytes != 0 ? by_bytes : a.len < b.len ? -1 : a.len > b.len;
}

/* How an entry stands to an owner and a name. */
static int stands(const struct library *l, const uint8_t *entry, uint32_t owner, struct name name) {
    uint32_t own = lef_entry_owner(entry);
    return own != owner ? (own < owner ? -1 : 1) : ordered(name_of(l, entry), name);
}

struct bytes entries_from(const struct library *l, uint32_t owner, struct name name) {
    size_t low = 0, high = l->index.len / LEF_ENTRY_SIZE;
    struct bytes rest = l->index;
    while (low < high) {
        size_t middle = low + (high - low) / 2;
        if (stands(l, l->index.at + middle * LEF_ENTRY_SIZE, owner, name) < 0)
            low = middle + 1;
        else
            high = middle;
    }
    if (low > 0) {
        rest.at += low * LEF_ENTRY_SIZE;
        rest.len -= low * LEF_ENTRY_SIZE;
    }
    return rest;
}

/* The entries with the owner and the name, which stand together by rising `at`. */
static struct bytes entries_of(const struct library *l, uint32_t owner, struct name name) {
    struct bytes rest = entries_from(l, owner, name);
    size_t len = 0;
    while (len < rest.len && stands(l, rest.at + len, owner, name) == 0)
        len += LEF_ENTRY_SIZE;
    rest.len = len;
    return rest;
}

/* ---- what is said of an entry */

uint32_t kind_of(const struct library *l, const uint8_t *entry) {
    return lef_record_kind(record_at(l->asked.file, lef_entry_at(entry)));
}

/* The name of a record of the text. */
static struct name called(const struct library *l, const uint8_t *record) {
    struct name name = {l->asked.text.at + lef_record_name_start(record), lef_record_name_length(record)};
    return name;
}

void add_field(struct sheet *s, const char *field, struct name name) {
    add(s, "\"%s\":", field);
    add_json(s, name.at, name.len);
    add(s, ",");
}

void add_found(struct sheet *s, const struct library *l, uint32_t at, uint64_t line) {
    const uint8_t *record = record_at(l->asked.file, at), *macro = record_at(l->asked.file, lef_record_owner(record));
    uint32_t kind = lef_record_kind(record);
    if (in_json) {
        add(s, "{");
        add_field(s, "file", spelt(l->asked.text_name));
        add(s, "\"line\":%" PRIu64 ",\"kind\":%" PRIu32 ",\"word\":\"%s\",", line, kind, kind_word(kind));
        add_field(s, "name", called(l, record));
        if (macro == NULL)
            add(s, "\"macro\":null,");
        else
            add_field(s, "macro", called(l, macro));
        add(s, "\"at\":%" PRIu32 "}\n", at);
        return;
    }
    add(s, "%s:%" PRIu64 ": %s ", l->asked.text_name, line, kind_word(kind));
    add_named(s, "", called(l, record));
    if (macro != NULL)
        add_named(s, " of MACRO ", called(l, macro));
    add(s, ", at byte %" PRIu32 "\n", at);
}

/* A place and its line, all newlines counted. Entries are said by rising `at`, so that it is counted on from the one before. */
struct counted {
    uint64_t place, line;
};

/* Adds where an entry is. */
static void add_entry(struct sheet *s, const struct library *l, struct counted *c, const uint8_t *entry) {
    uint32_t at = lef_entry_at(entry);
    for (; c->place < at; c->place++)
        c->line += l->asked.text.at[c->place] == '\n';
    add_found(s, l, at, c->line);
}

/* ---- where there is none */

static int is_alike(struct name a, struct name b) {
    size_t i = 0;
    while (i < a.len && i < b.len && raised(a.at[i]) == raised(b.at[i]))
        i++;
    return i == a.len && i == b.len;
}

/* Adds a name of the owner that differs in case alone, if there is one: 1, or 0. */
static int add_alike(struct sheet *s, const struct library *l, uint32_t owner, struct name name) {
    struct bytes rest = entries_from(l, owner, spelt(""));
    size_t i;
    for (i = 0; i < rest.len && lef_entry_owner(rest.at + i) == owner; i += LEF_ENTRY_SIZE)
        if (is_alike(name_of(l, rest.at + i), name)) {
            add(s, "; there is a %s", kind_word(kind_of(l, rest.at + i)));
            add_named(s, " ", name_of(l, rest.at + i));
            return 1;
        }
    return 0;
}

/* Adds a pin of the name, if there is one, for somebody who left its macro out. */
static void add_pin(struct sheet *s, const struct library *l, struct name name) {
    size_t i;
    for (i = 0; i < l->index.len && lef_entry_owner(l->index.at + i) != LEF_LIBRARY; i += LEF_ENTRY_SIZE)
        if (ordered(name_of(l, l->index.at + i), name) == 0) {
            add_named(s, "; there is a PIN ", name);
            add_named(s, " of MACRO ", called(l, record_at(l->asked.file, lef_entry_owner(l->index.at + i))));
            return;
        }
}

/* Adds that there is no such site or macro, and what comes near it. */
static void add_no_owner(struct sheet *s, const struct library *l, struct bytes owners, struct name name, int is_pin_wanted) {
    add_named(s, is_pin_wanted ? "it has no MACRO " : "it has no MACRO or SITE ", name);
    if (owners.len > 0)
        add_named(s, "; there is a SITE ", name);
    else if (!add_alike(s, l, LEF_LIBRARY, name))
        add_pin(s, l, name);
}

/* Says that there is none, and what comes near it. Gives REFUSED. */
static int missing(const struct library *l, struct bytes owners, struct name name, const char *pin) {
    struct sheet s = {{NULL, 0}, 0};
    size_t i, macros = 0;
    add(&s, "lef: %s: ", l->asked.text_name);
    for (i = 0; i < owners.len; i += LEF_ENTRY_SIZE)
        macros += kind_of(l, owners.at + i) == LEF_MACRO;
    if (macros == 0)
        add_no_owner(&s, l, owners, name, pin != NULL);
    else {
        add_named(&s, "MACRO ", name);
        add_named(&s, " has no PIN ", spelt(pin));
        for (i = 0; i < owners.len; i += LEF_ENTRY_SIZE)
            if (add_alike(&s, l, lef_entry_at(owners.at + i), spelt(pin)))
                break;
    }
    add(&s, "\n");
    fwrite(s.text.at, 1, s.text.len, stderr);
    free(s.text.at);
    return REFUSED;
}

int find(const struct library *l, const char *word, const char *pin) {
    struct name name = spelt(word);
    struct bytes owners = entries_of(l, LEF_LIBRARY, name);
    struct sheet s = {{NULL, 0}, 0};
    struct counted c = {0, 1};
    size_t i, k;
    for (i = 0; i < owners.len; i += LEF_ENTRY_SIZE) {
        const uint8_t *owner = owners.at + i;
        struct bytes pins = {NULL, 0};
        if (pin == NULL)
            add_entry(&s, l, &c, owner);
        else
            pins = entries_of(l, lef_entry_at(owner), spelt(pin));
        for (k = 0; k < pins.len; k += LEF_ENTRY_SIZE)
            add_entry(&s, l, &c, pins.at + k);
    }
    if (s.text.len == 0)
        return missing(l, owners, name, pin);
    fwrite(s.text.at, 1, s.text.len, stdout);
    free(s.text.at);
    return printed();
}
