/* Which token a refusal from 4 to 10 is about. Its place is the end of the token held ahead, which is often one further than the one at
 * fault. The library itself is asked which it is: a token is innocent if the text up to it is refused alike whatever comes in its place. */
#include "command.h"

#include <stdlib.h>
#include <string.h>

#define ROOM 32

/* A copy of the text up to the refusal's place, with room for other words behind a part of it. */
struct trial {
    struct bytes text;
    struct refusal wanted;
};

static struct refusal tried(struct trial t, uint64_t kept, const char *behind) {
    struct refusal r;
    size_t n = strlen(behind);
    memcpy(t.text.at + kept, behind, n);
    r.number = lef_read(t.text.at, kept + n, NULL, 0, &r.place, &r.line);
    return r;
}

/* Whether the text up to a token is refused with the number wanted while the token is held, whatever it is. */
static int is_innocent(struct bytes text, struct trial t, uint64_t start) {
    static const char *const OTHERS[] = {"\n; ;", "\nx ;", "\n1 ;", "\n\"\" ;"};
    size_t i;
    int same = 1;
    for (i = 0; same && i < sizeof OTHERS / sizeof *OTHERS; i++) {
        struct refusal r = tried(t, start, OTHERS[i]);
        same = r.number == t.wanted.number && r.place == start + strlen(OTHERS[i]) - 2;
    }
    memcpy(t.text.at + start, text.at + start, t.wanted.place < start + ROOM ? t.wanted.place - start : ROOM);
    return same;
}

/* Whether the library's own END could stand in place of the token. */
static int is_at_library_level(struct trial t, uint64_t start) {
    struct refusal r = tried(t, start, "\nEND LIBRARY\n");
    return r.number == LEF_DONE || r.number == LEF_RECORD_ROOM;
}

/* The words that open a block: how many tokens the opening has. Others end with a semicolon, or are followed by one of these. */
static int opening(struct bytes text, struct token t) {
    static const char *const ALONE[] = {"UNITS", "PORT", "OBS"}, *const NAMED[] = {"SITE", "MACRO", "PIN", "END"};
    size_t i;
    for (i = 0; i < sizeof ALONE / sizeof *ALONE; i++)
        if (spells(text, t, ALONE[i]))
            return 1;
    for (i = 0; i < sizeof NAMED / sizeof *NAMED; i++)
        if (spells(text, t, NAMED[i]))
            return 2;
    return 0;
}

/* The last tokens up to a place, each with where its statement starts; `of` is how many tokens its statement has, if that is known. */
#define KEPT 4

struct standing {
    struct token token;
    uint64_t statement;
    int nth, of;
};

/* The token after another, with the statement it belongs to. */
static struct standing after(struct bytes text, struct standing last, struct token t) {
    struct standing s = {t, last.statement, last.nth + 1, last.of};
    int opens = opening(text, t), is_over = last.nth == 0 || last.token.kind == LEF_TOKEN_SEMICOLON || (last.of > 0 && last.nth >= last.of);
    int names = last.of == 2 && last.nth == 1 && !spells(text, last.token, "END");
    if (t.kind != LEF_TOKEN_SEMICOLON && t.kind != LEF_TOKEN_END && (is_over || (opens > 0 && !names))) {
        s.statement = t.start;
        s.nth = 1;
        s.of = opens;
    }
    return s;
}

/* Walks over the tokens up to the place: the last of them, the last one last, and where the last site starts. */
static void walk(struct bytes text, uint64_t place, struct standing last[KEPT], uint64_t *site) {
    struct token t = FIRST_TOKEN;
    memset(last, 0, KEPT * sizeof *last);
    while (t.stop < place && next_token(text, &t) == LEF_DONE) {
        memmove(last, last + 1, (KEPT - 1) * sizeof *last);
        last[KEPT - 1] = after(text, last[KEPT - 2], t);
        if (last[KEPT - 1].nth == 1 && spells(text, t, "SITE"))
            *site = t.start;
        if (t.kind == LEF_TOKEN_END)
            break;
    }
}

/* Where the text ends with a token, that token or the end may be held; what is behind the one held changes nothing. */
static int is_end_held(struct trial t, uint64_t place) {
    struct refusal r = tried(t, place, "\n; ;");
    return r.number != t.wanted.number || r.place != place;
}

/* Goes back from the token held, which is the last, to the one at fault: its index. */
static int found(struct bytes text, struct trial t, const struct standing last[KEPT]) {
    int i = KEPT - 1;
    while (i > 1 && last[i - 1].nth > 0 && is_innocent(text, t, last[i].token.start))
        i--;
    /* a number of VERSION or MICRONS is judged after its semicolon */
    return t.wanted.number == LEF_NOT_ALLOWED && i < KEPT - 1 && last[i].token.kind == LEF_TOKEN_SEMICOLON ? i - 1 : i;
}

int is_unclosed(struct bytes text, struct token t) {
    return t.kind == LEF_TOKEN_STRING && (t.stop == t.start + 1 || text.at[t.stop - 1] != '"');
}

struct fault fault_of(struct bytes text, struct refusal r) {
    struct trial t = {{malloc(r.place + ROOM), r.place}, r};
    struct standing last[KEPT];
    struct fault f;
    int i = KEPT - 1, is_open;
    uint64_t site = 0;
    if (t.text.at == NULL)
        exit(failed("no memory", "the text refused"));
    memcpy(t.text.at, text.at, r.place);
    walk(text, r.place, last, &site);
    /* nothing can be put behind a string that runs to the end of the text, and it is at fault whatever is complained of */
    is_open = is_unclosed(text, last[i].token);
    if (!is_open && r.place == text.len && last[i].token.kind != LEF_TOKEN_END && is_end_held(t, r.place)) {
        struct token end = {LEF_TOKEN_END, text.len, text.len, r.line};
        memmove(last, last + 1, (KEPT - 1) * sizeof *last);
        last[i] = after(text, last[i - 1], end);
    }
    f.held = last[i].token;
    i = is_open ? i : found(text, t, last);
    f.token = last[i].token;
    f.statement = r.number == LEF_SITE_LACKS ? site : last[i].nth == 0 ? f.token.start : last[i].statement;
    f.is_at_library_level = !is_open && is_at_library_level(t, f.token.start);
    f.is_unread = r.number == LEF_NOT_SUPPORTED || (r.number <= LEF_OTHER_WORD && is_unread(text, f.token, f.is_at_library_level));
    free(t.text.at);
    return f;
}
