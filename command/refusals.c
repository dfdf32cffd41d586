/* Refusals as people read them, and as objects of JSON. */
#include "command.h"

#include <inttypes.h>
#include <stdlib.h>
#include <string.h>

int in_json;

static const char *why(uint64_t number, int is_unread) {
    static const char *const WHY[] = {
        "done", "text over 16,777,216 bytes", "a byte above 127", "byte starts no token", "wrong kind of token, or end",
        "word not a key here", "value not allowed", "another word required", "known, not supported", "numeral", "SITE lacks CLASS or SIZE",
        "record or index buffer too small", "text buffer too small",
        "record bytes not a multiple of 36, or index bytes not of 16", "record foreign, or equal to an earlier one", "record lacking",
        "index differs from the one that would be built",
    };
    return is_unread ? "LEF that this library does not read" : number < sizeof WHY / sizeof *WHY ? WHY[number] : "?";
}

/* ---- what stands at a place */

/* Adds the first bytes of a token, or all of a short one. */
static void add_token(struct sheet *s, struct bytes text, struct token t) {
    uint64_t len = t.stop - t.start;
    if (t.kind == LEF_TOKEN_END)
        add(s, "the end of the text");
    else if (t.kind == LEF_TOKEN_SEMICOLON)
        add(s, "the semicolon");
    else {
        add(s, "the %s ", token_kind(t.kind));
        add_shown(s, text.at + t.start, len < 40 ? len : 40);
        add(s, "%s", len < 40 ? "" : "...");
    }
}

/* In what the first byte above 127 stands. */
static const char *standing(struct bytes text, uint64_t place) {
    struct bytes before = {text.at, place};
    struct token t = FIRST_TOKEN, last = t;
    uint64_t number, from = line_start(text, place);
    while ((number = next_token(before, &t)) != LEF_DONE || t.kind != LEF_TOKEN_END) {
        if (number != LEF_DONE)
            t.stop = t.start + 1;
        last = t;
    }
    from = last.stop > from ? last.stop : from;
    if (memchr(text.at + from, '#', place - from) != NULL)
        return "in a comment";
    if (last.stop == place && last.kind == LEF_TOKEN_NAME && place > 0)
        return "in a name";
    if (last.stop == place && is_unclosed(text, last))
        return "in a string";
    return "between tokens";
}

/* Adds the bytes above 127 from a place on, some of them at most, in hexadecimal. */
static void add_high(struct sheet *s, struct bytes text, uint64_t place) {
    uint64_t at;
    for (at = place; at < text.len && at < place + 8 && text.at[at] > 127; at++)
        add(s, at == place ? "%02x" : " %02x", (unsigned)text.at[at]);
}

/* ---- refusals of a text */

/* A refusal of a text with what stands there. Line and column are counted from 1 over all newlines, as an editor does. */
struct scene {
    struct refusal r;
    uint64_t line, column;
    struct fault fault;
};

static struct scene scene_of(struct refusal r, struct bytes text) {
    struct scene s = {r, line_of(text, r.place), r.place - line_start(text, r.place) + 1, {FIRST_TOKEN, FIRST_TOKEN, r.place, 0, 0}};
    if (LEF_WRONG_TOKEN <= r.number && r.number <= LEF_SITE_LACKS)
        s.fault = fault_of(text, r);
    return s;
}

#define NOTE "       = "

/* Adds what helps where a fault is a common one. */
static void add_advice(struct sheet *s, struct scene c, struct bytes text) {
    struct token t = c.fault.token;
    if (c.r.number == LEF_NOT_A_NUMERAL)
        add(s, NOTE "a number has a digit, one point at most and six decimals that count, and is within 10,000,000\n");
    if (c.r.number == LEF_NOT_A_KEY && spells(text, t, "NAMESCASESENSITIVE"))
        add(s, NOTE "it is read up to VERSION 5.4, and where no VERSION stands before it 5.8 holds\n");
    if (t.kind == LEF_TOKEN_NAME && t.stop > t.start + 1 && text.at[t.stop - 1] == ';')
        add(s, NOTE "a name runs to the next blank; a semicolon that ends a statement has a blank before it\n");
    if (t.kind == LEF_TOKEN_END && c.fault.is_at_library_level)
        add(s, NOTE "a text ends with END LIBRARY\n");
}

/* Adds which token is refused, and which is held ahead, where that is another. */
static void add_fault(struct sheet *s, struct scene c, struct bytes text) {
    if (c.r.number == LEF_SITE_LACKS)
        add(s, NOTE "refused is the end of a site without CLASS or without SIZE, at ");
    else
        add(s, NOTE "refused is ");
    add_token(s, text, c.fault.token);
    if (is_unclosed(text, c.fault.token))
        add(s, ", whose quote is not closed");
    if (c.fault.token.start != c.fault.held.start && c.fault.held.kind == LEF_TOKEN_END)
        add(s, "; the text ends at the caret");
    else if (c.fault.token.start != c.fault.held.start) {
        add(s, "; at the caret ends ");
        add_token(s, text, c.fault.held);
        add(s, ", which was held ahead");
    }
    add(s, "\n");
    add_advice(s, c, text);
}

/* Adds what the byte or the token at the caret is. */
static void add_note(struct sheet *s, struct scene c, struct bytes text) {
    uint8_t byte = c.r.place < text.len ? text.at[c.r.place] : 0;
    if (c.r.number == LEF_NOT_ASCII) {
        add(s, NOTE "in hexadecimal ");
        add_high(s, text, c.r.place);
        add(s, ", %s; texts are ASCII, comments too\n", standing(text, c.r.place));
    } else if (c.r.number == LEF_NO_TOKEN) {
        add(s, byte == 0 ? NOTE "a NUL byte" : 32 < byte && byte < 127 ? NOTE "the byte %c" : NOTE "the byte %02x in hexadecimal", (unsigned)byte);
        add(s, "; a name starts with a letter, a number with a digit or a minus\n");
    } else
        add_fault(s, c, text);
    if (c.r.line != 0 && c.r.line != c.line)
        add(s, NOTE "line %" PRIu64 " by the rules, which count no newline between quotes\n", c.r.line);
}

static void add_text_refusal(struct sheet *s, struct scene c, struct asked a) {
    struct marks m = {c.r.place, c.r.place, c.r.place, c.fault.statement};
    if (c.r.number != LEF_NOT_ASCII && c.r.number != LEF_NO_TOKEN) {
        m.start = c.fault.token.start;
        m.stop = c.fault.token.stop;
    }
    add(s, "%s:%" PRIu64 ":%" PRIu64 ": refused %" PRIu64 " (%s) at byte %" PRIu64 "\n", a.text_name, c.line, c.column, c.r.number,
        why(c.r.number, c.fault.is_unread), c.r.place);
    add_lines(s, a.text, m);
    add_note(s, c, a.text);
}

static void add_text_object(struct sheet *s, struct scene c, struct bytes text) {
    add(s, ",\"file_line\":%" PRIu64 ",\"column\":%" PRIu64, c.line, c.column);
    if (c.r.number == LEF_NOT_ASCII) {
        add(s, ",\"bytes\":\"");
        add_high(s, text, c.r.place);
        add(s, "\",\"stands\":\"%s\"", standing(text, c.r.place));
    } else if (c.r.number != LEF_NO_TOKEN) {
        add(s, ",\"fault\":");
        add_json(s, text.at + c.fault.token.start, c.fault.token.stop - c.fault.token.start);
        add(s, ",\"held\":");
        add_json(s, text.at + c.fault.held.start, c.fault.held.stop - c.fault.held.start);
    }
}

/* ---- refusals of a record file */

/* Adds a record as numbers and in words. */
static void add_record(struct sheet *s, const char *what, struct bytes text, const uint8_t *record) {
    add(s, "  %s: ", what);
    add_fields(s, record);
    add(s, ", that is ");
    add_words(s, text, record);
    if (lef_number(record + LEF_SPARE, 2) != 0)
        add(s, ", with bytes 2 and 3 not nought");
    add(s, "\n");
}

const uint8_t *record_at(struct bytes records, uint64_t at) {
    size_t low = 0, high = records.len / LEF_RECORD_SIZE;
    while (low < high) {
        size_t middle = low + (high - low) / 2;
        if (lef_record_at(records.at + middle * LEF_RECORD_SIZE) < at)
            low = middle + 1;
        else
            high = middle;
    }
    return low * LEF_RECORD_SIZE < records.len && lef_record_at(records.at + low * LEF_RECORD_SIZE) == at ? records.at + low * LEF_RECORD_SIZE : NULL;
}

/* Adds a record that is foreign or a repeat, beside the earlier one or what the text has in its place. */
static void add_wrong_record(struct sheet *s, uint64_t index, struct asked a, struct bytes reading) {
    const uint8_t *record = a.file.at + index * LEF_RECORD_SIZE, *own = record_at(reading, lef_record_at(record));
    uint64_t i;
    add_record(s, "the file has", a.text, record);
    for (i = 0; i < index; i++)
        if (memcmp(a.file.at + i * LEF_RECORD_SIZE, record, LEF_RECORD_SIZE) == 0) {
            add(s, "  record %" PRIu64 " is the same\n", i);
            return;
        }
    if (own != NULL)
        add_record(s, "the text has", a.text, own);
    else
        add(s, "  the text has no statement at byte %" PRIu32 "\n", lef_record_at(record));
}

/* Adds a record that the file lacks, with its line of the text. */
static void add_lacking(struct sheet *s, uint64_t at, struct asked a, struct bytes reading) {
    struct marks m = {at, at, at, at};
    const uint8_t *own = record_at(reading, at);
    if (own != NULL)
        add_record(s, "the text has", a.text, own);
    add_lines(s, a.text, m);
}

static void add_file_refusal(struct sheet *s, struct refusal r, struct asked a) {
    struct bytes reading = {NULL, 0};
    add(s, "%s: refused %" PRIu64 " (%s): ", a.file_name, r.number, why(r.number, 0));
    if (a.file.len > RECORDS_LIMIT)
        add(s, "over %u bytes, which are more than any text has\n", RECORDS_LIMIT);
    else if (r.number == LEF_NOT_WHOLE)
        add(s, "%" PRIu64 " bytes, 36 times %" PRIu64 " and %" PRIu64 " over\n", r.place, r.place / LEF_RECORD_SIZE, r.place % LEF_RECORD_SIZE);
    else if (read_records(a.text, &reading).number == LEF_DONE && r.number == LEF_WRONG_RECORD) {
        add(s, "record %" PRIu64 "\n", r.place);
        add_wrong_record(s, r.place, a, reading);
    } else {
        add(s, "that of the statement at byte %" PRIu64 " of %s\n", r.place, a.text_name);
        add_lacking(s, r.place, a, reading);
    }
    free(reading.at);
}

int refused(struct refusal r, struct asked a) {
    struct sheet s = {{NULL, 0}, 0};
    int is_of_text = r.number < LEF_NOT_WHOLE;
    const char *name = is_of_text ? a.text_name : a.file_name;
    struct scene c = {r, 0, 0, {FIRST_TOKEN, FIRST_TOKEN, 0, 0, 0}};
    if (is_of_text && r.number != LEF_TOO_LONG)
        c = scene_of(r, a.text);
    if (in_json) {
        add(&s, "{\"refusal\":%" PRIu64 ",\"why\":\"%s\",\"file\":", r.number, why(r.number, c.fault.is_unread));
        add_json(&s, (const uint8_t *)name, strlen(name));
        add(&s, ",\"place\":%" PRIu64 ",\"line\":%" PRIu64, r.place, r.line);
        if (is_of_text && r.number != LEF_TOO_LONG)
            add_text_object(&s, c, a.text);
        add(&s, "}\n");
    } else if (r.number == LEF_TOO_LONG)
        add(&s, "%s: refused %" PRIu64 " (%s)\n", name, r.number, why(r.number, 0));
    else if (is_of_text)
        add_text_refusal(&s, c, a);
    else
        add_file_refusal(&s, r, a);
    fwrite(s.text.at, 1, s.text.len, stderr);
    free(s.text.at);
    return REFUSED;
}
