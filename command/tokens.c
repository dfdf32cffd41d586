/* The tokens of a text in turn. The library looks a text over whenever it is asked for a token, so it is handed a window of the text, and
 * a larger one where that holds no whole token. */
#include "command.h"

#include <string.h>

#define WINDOW 256
#define LARGER 16

uint64_t next_token(struct bytes text, struct token *t) {
    uint64_t from = t->stop, left = text.len - from, window = WINDOW, place, line, number, i;
    for (;; window *= LARGER) {
        if (window > left)
            window = left;
        number = lef_token(text.at + from, window, 0, &t->kind, &t->start, &t->stop, &place, &line);
        if (window == left || number != LEF_DONE || (t->kind != LEF_TOKEN_END && t->stop < window))
            break;
    }
    t->start = from + (number == LEF_DONE ? t->start : place);
    t->stop += from;
    for (i = from; i < t->start; i++)
        t->line += text.at[i] == '\n';
    return number;
}

uint8_t raised(uint8_t byte) {
    return 'a' <= byte && byte <= 'z' ? (uint8_t)(byte - 32) : byte;
}

int spells(struct bytes text, struct token t, const char *word) {
    size_t i, n = strlen(word);
    if (t.kind != LEF_TOKEN_NAME || t.stop - t.start != n)
        return 0;
    for (i = 0; i < n; i++)
        if (raised(text.at[t.start + i]) != word[i])
            return 0;
    return 1;
}

const char *token_kind(uint64_t kind) {
    static const char *const KINDS[] = {"end", "name", "number", "semicolon", "string"};
    return kind < sizeof KINDS / sizeof *KINDS ? KINDS[kind] : "?";
}
