/* The lines of a text around a refusal, with marks under them. */
#include "command.h"

#include <inttypes.h>

/* How much of a long line is shown, and how much of that before the place. */
#define WIDTH 76u
#define BEFORE 50u

uint64_t line_start(struct bytes text, uint64_t place) {
    while (place > 0 && text.at[place - 1] != '\n')
        place--;
    return place;
}

uint64_t line_of(struct bytes text, uint64_t place) {
    uint64_t i, line = 1;
    for (i = 0; i < place; i++)
        line += text.at[i] == '\n';
    return line;
}

static uint64_t line_stop(struct bytes text, uint64_t place) {
    while (place < text.len && text.at[place] != '\n')
        place++;
    return place;
}

/* Whether a place is in a line, or right behind it. */
static int is_in(uint64_t place, uint64_t start, uint64_t stop) {
    return start <= place && place <= stop;
}

/* Adds the marks under a part of a line: a caret at the place, and waves under the token at fault. */
static void add_marks(struct sheet *s, struct bytes text, uint64_t start, uint64_t stop, const char *margin, struct marks m) {
    uint64_t at, last = is_in(m.place, start, stop) ? m.place + 1 : m.stop < stop ? m.stop : stop;
    if (last <= start || (!is_in(m.place, start, stop) && m.start >= stop))
        return;
    add(s, "       |%s", margin);
    for (at = start; at < last; at++) {
        size_t before = s->text.len, i;
        if (at == m.place || at == text.len)
            add(s, "^");
        else
            add_shown(s, text.at + at, 1);
        for (i = before; at != m.place && i < s->text.len; i++)
            s->text.at[i] = m.start <= at && at < m.stop ? '~' : ' ';
    }
    add(s, "\n");
}

/* Adds a line, or of a long one what is around the first of the marks in it. */
static void add_line(struct sheet *s, struct bytes text, uint64_t start, uint64_t line, struct marks m) {
    uint64_t stop = line_stop(text, start), from = start, to = stop;
    uint64_t centre = is_in(m.place, start, stop) ? m.place : is_in(m.start, start, stop) ? m.start : is_in(m.statement, start, stop) ? m.statement : start;
    if (stop - start > WIDTH) {
        from = centre - start > BEFORE ? centre - BEFORE : start;
        to = stop - from > WIDTH ? from + WIDTH : stop;
    }
    add(s, "%6" PRIu64 " |%s", line, from > start ? "..." : " ");
    add_shown(s, text.at + from, to - from);
    add(s, "%s\n", to < stop ? "..." : "");
    add_marks(s, text, from, to, from > start ? "   " : " ", m);
}

void add_lines(struct sheet *s, struct bytes text, struct marks m) {
    uint64_t start = line_start(text, m.statement), line = line_of(text, start), first = line, last = line_of(text, m.place);
    int is_left_out = 0;
    for (; line <= last; line++) {
        uint64_t stop = line_stop(text, start);
        if (line == first || line + 2 > last || is_in(m.start, start, stop) || last - first < 5) {
            add_line(s, text, start, line, m);
            is_left_out = 0;
        } else if (!is_left_out) {
            add(s, "       ...\n");
            is_left_out = 1;
        }
        start = stop + 1;
    }
}
