/* The records of a text, one a line, and its tokens. */
#include "command.h"

#include <inttypes.h>
#include <stdlib.h>

void flush(struct sheet *s, int is_last) {
    if (!is_last && s->text.len < 65536)
        return;
    if (s->text.len > 0)
        fwrite(s->text.at, 1, s->text.len, stdout);
    s->text.len = 0;
    if (is_last)
        free(s->text.at);
}

int printed(void) {
    return fflush(stdout) == 0 && !ferror(stdout) ? DONE : failed("cannot write", "standard output");
}

/* A record in words, behind its place and indented by its owners. The open ones are those on the way out from the record before. */
#define DEEPEST 16

struct open {
    uint32_t at[DEEPEST];
    int count;
};

static void add_indented(struct sheet *s, struct bytes text, const uint8_t *record, struct open *o) {
    while (o->count > 0 && o->at[o->count - 1] != lef_record_owner(record))
        o->count--;
    add(s, "%8" PRIu32 "  %*s", lef_record_at(record), 2 * o->count, "");
    add_words(s, text, record);
    add(s, "\n");
    if (o->count < DEEPEST)
        o->at[o->count++] = lef_record_at(record);
}

static void add_object(struct sheet *s, struct bytes text, const uint8_t *record) {
    uint32_t kind = lef_record_kind(record), code = lef_record_code(record), owner = lef_record_owner(record);
    const char *words = code_words(kind, code);
    uint64_t start, len;
    lef_name(text.at, text.len, record, LEF_RECORD_SIZE, 0, &start, &len);
    add(s, "{\"kind\":%" PRIu32 ",\"word\":\"%s\",\"code\":%" PRIu32 ",\"value\":", kind, kind_word(kind), code);
    add(s, words == NULL ? "null" : "\"%s\"", words);
    add(s, ",\"at\":%" PRIu32 ",\"owner\":", lef_record_at(record));
    add(s, owner == LEF_LIBRARY ? "null" : "%" PRIu32, owner);
    add(s, ",\"name_start\":%" PRIu32 ",\"name_length\":%" PRIu32 ",\"name\":", lef_record_name_start(record), lef_record_name_length(record));
    add_json(s, text.at + start, len);
    add(s, ",\"x\":%" PRId64 ",\"y\":%" PRId64 "}\n", lef_record_x(record), lef_record_y(record));
}

int list_records(struct bytes text, struct bytes records, enum listing form) {
    struct sheet s = {{NULL, 0}, 0};
    struct open o = {{0}, 0};
    size_t i;
    for (i = 0; i < records.len; i += LEF_RECORD_SIZE) {
        const uint8_t *record = records.at + i;
        if (in_json)
            add_object(&s, text, record);
        else if (form == WORDS)
            add_indented(&s, text, record, &o);
        else {
            add_fields(&s, record);
            add_bytes(&s, (const uint8_t *)"\n", 1);
        }
        flush(&s, 0);
    }
    if (!in_json)
        add(&s, "%zu records\n", records.len / LEF_RECORD_SIZE);
    flush(&s, 1);
    return printed();
}

int list_tokens(struct asked a) {
    struct sheet s = {{NULL, 0}, 0};
    struct token t = FIRST_TOKEN;
    struct refusal r;
    int status;
    r.number = lef_token(a.text.at, a.text.len, a.text.len, &t.kind, &t.start, &t.stop, &r.place, &r.line);
    if (r.number != LEF_DONE)
        return refused(r, a);
    for (t.stop = 0; (r.number = next_token(a.text, &t)) == LEF_DONE && t.kind != LEF_TOKEN_END; flush(&s, 0)) {
        uint64_t len = t.stop - t.start;
        if (in_json) {
            add(&s, "{\"kind\":\"%s\",\"start\":%" PRIu64 ",\"stop\":%" PRIu64 ",\"token\":", token_kind(t.kind), t.start, t.stop);
            add_json(&s, a.text.at + t.start, len);
            add(&s, "}\n");
        } else {
            add(&s, "%s %" PRIu64 " %" PRIu64 " ", token_kind(t.kind), t.start, t.stop);
            add_shown(&s, a.text.at + t.start, len < 60 ? len : 60);
            add(&s, len < 60 ? "\n" : "...\n");
        }
    }
    flush(&s, 1);
    status = printed();
    r.place = t.start;
    r.line = t.line;
    return status != DONE || r.number == LEF_DONE ? status : refused(r, a);
}
