/* The names on a drawing, each where there is room for it. */
#include "drawing.h"

#include <stdlib.h>
#include <string.h>

/* The sizes of letters, in pixels. Above the small one a name is written only on a shape that holds it. */
static const int FONTS[] = {16, 12, 10, 8, 7, 6, 5, 4, 3, 2, 1};
#define FONT_COUNT (sizeof FONTS / sizeof *FONTS)
#define SMALL 2

/* Whether a name covers a cell of the drawing, which is half a pixel wide and high. */
#define CELL (PIXEL / 2)
static uint8_t covered[2 * (TOP + HIGH + MARGIN) + 3][2 * (WIDE + 2 * MARGIN) + 3];

/* The edge of the macro that a shape is at. */
enum edge { NO_EDGE, LEFT_EDGE, RIGHT_EDGE, LOWER_EDGE, UPPER_EDGE, EDGES };

/* A name on the drawing: whose it is, what it is written on, and where. */
struct label {
    const uint8_t *record;
    struct box on;
    enum edge edge;
    int64_t x, y;
    int length; /* for each pixel of its letters' size, in hundredths */
    int font, upright;
    int anchor; /* what of it is at the place: -1 its start, 0 its middle, 1 its end */
};

/* The edge that something on the drawing is at. */
static enum edge edge_of(const struct drawing *d, struct box b) {
    struct box e = drawn(d, d->size == NULL ? d->extent : d->outline);
    int64_t near = 8 * PIXEL;
    if (b.x0 - e.x0 < near || e.x1 - b.x1 < near)
        return b.x0 - e.x0 < near ? LEFT_EDGE : RIGHT_EDGE;
    return e.y1 - b.y1 < near ? LOWER_EDGE : b.y0 - e.y0 < near ? UPPER_EDGE : NO_EDGE;
}

static double area(struct box b) {
    return (double)(b.x1 - b.x0) * (double)(b.y1 - b.y0);
}

/* Lists the names of the pins, each on its first largest part, and of the vias: where the list ends. */
static struct label *list_labels(const struct drawing *d, struct label *labels) {
    struct label *l, *pin = NULL, *stop = labels;
    const struct shape *s;
    for (s = d->shapes; s < d->shapes + d->shape_count; s++) {
        struct box part = part_of(s);
        if (s->rank != OBSTRUCTION && (pin == NULL || pin->record != s->group)) {
            pin = stop++;
            pin->record = s->group;
            pin->on = part;
        } else if (s->rank != OBSTRUCTION && area(part) > area(pin->on))
            pin->on = part;
        if (s->kind == LEF_VIA) {
            stop->record = s->from;
            stop++->on = part;
        }
    }
    for (l = labels; l < stop; l++) {
        l->on = drawn(d, l->on);
        l->edge = edge_of(d, l->on);
        l->length = length_of(d, l->record);
    }
    return stop;
}

/* Puts a label at a place: whether it is on the drawing there and covers no other. */
static int put(const struct drawing *d, struct label *l, int64_t x, int64_t y, int anchor, int upright) {
    int64_t length = l->font * PIXEL / 100 * l->length, before = (anchor + 1) * length / 2, half = l->font * PIXEL / 2, row;
    struct box level = {x - before, y - half, x - before + length, y + half}, rising = {x - half, y + before - length, x + half, y + before};
    struct box b = upright ? rising : level;
    size_t cells = (size_t)(b.x1 / CELL - b.x0 / CELL + 1);
    l->x = x;
    l->y = y;
    l->anchor = anchor;
    l->upright = upright;
    if (b.x0 < 0 || b.y0 < (TOP - MARGIN) * PIXEL || b.x1 > (d->wide + 2 * MARGIN) * PIXEL || b.y1 > (TOP + d->high + MARGIN) * PIXEL)
        return 0;
    for (row = b.y0 / CELL; row <= b.y1 / CELL; row++)
        if (memchr(covered[row] + b.x0 / CELL, 1, cells) != NULL)
            return 0;
    for (row = b.y0 / CELL; row <= b.y1 / CELL; row++)
        memset(covered[row] + b.x0 / CELL, 1, cells);
    return 1;
}

/* Puts a label along its shape; where that does not hold the name, inwards from the edge that the shape is at, or across it or below or
 * above it. A name that fits level in small letters is not put upright in larger ones. A via has its name beside it. */
static int put_by_shape(const struct drawing *d, struct label *l) {
    static const int SIXTEENTHS[] = {8, 4, 12, 2, 14, 1, 15, 8}; /* of the way along, the middle first and, if none is free, last */
    struct box b = l->on;
    int64_t x = (b.x0 + b.x1) / 2, y = (b.y0 + b.y1) / 2, line = l->font * PIXEL, gap = line * 3 / 10, length = line / 100 * l->length;
    int64_t wide = b.x1 - b.x0, high = b.y1 - b.y0;
    int is_small = l->font <= FONTS[SMALL], level = length <= wide && (is_small || line <= high), i, done = 0;
    int upright = FONTS[SMALL] * PIXEL / 100 * l->length > wide && length <= high && (is_small || line <= wide);
    if (lef_record_kind(l->record) == LEF_VIA)
        return is_small && (put(d, l, x + 7 * PIXEL, y, -1, 0) || put(d, l, x - 7 * PIXEL, y, 1, 0));
    if (level || upright) {
        for (i = 0; i < 8 && !done; i++)
            done = put(d, l, level ? b.x0 + wide / 16 * SIXTEENTHS[i] : x, level ? y : b.y0 + high / 16 * SIXTEENTHS[i], 0, !level);
        return done;
    }
    if (!is_small)
        return 0;
    if (l->edge == LEFT_EDGE)
        return put(d, l, b.x1 + gap, y, -1, 0);
    if (l->edge == RIGHT_EDGE)
        return put(d, l, b.x0 - gap, y, 1, 0);
    if (l->edge == LOWER_EDGE)
        return put(d, l, x, b.y0 - gap, -1, 1);
    if (l->edge == UPPER_EDGE)
        return put(d, l, x, b.y1 + gap, 1, 1);
    return (line <= high && put(d, l, x, y, 0, 0)) || put(d, l, x, b.y1 + line / 2 + gap, 0, 0) || put(d, l, x, b.y0 - line / 2 - gap, 0, 0);
}

/* Puts all labels, those at an edge in letters of one size that leaves room for most of them: whether that had to be made smaller.
 * What finds no room is made smaller still, and at last stays where it is. */
static int put_labels(const struct drawing *d, struct label *labels, const struct label *stop, size_t sizes[EDGES]) {
    size_t all[EDGES] = {0}, missed[EDGES] = {0}, font;
    struct label *l;
    int edge, again = 0;
    memset(covered, 0, sizeof covered);
    for (l = labels; l < stop; l++) {
        for (font = 0; font < FONT_COUNT; font = font + 1 == SMALL ? sizes[l->edge] : font + 1) {
            l->font = FONTS[font];
            if (put_by_shape(d, l))
                break;
        }
        all[l->edge]++;
        missed[l->edge] += font > sizes[l->edge];
    }
    for (edge = LEFT_EDGE; edge < EDGES; edge++)
        if (missed[edge] > all[edge] / 4 && sizes[edge] + 1 < FONT_COUNT) {
            sizes[edge]++;
            again = 1;
        }
    return again;
}

void draw_labels(const struct drawing *d) {
    static const char *const ANCHORS[] = {"start", "middle", "end"};
    size_t sizes[EDGES] = {SMALL, SMALL, SMALL, SMALL, SMALL};
    struct label *labels = allocated(2 * d->shape_count, sizeof *labels), *stop = list_labels(d, labels), *l;
    while (put_labels(d, labels, stop, sizes))
        ;
    for (l = labels; l < stop; l++) {
        add(d->s, "<text class=\"name\" font-size=\"%d\" text-anchor=\"%s\" dy=\".35em\"", l->font, ANCHORS[l->anchor + 1]);
        add_place(d, " transform=\"translate(", l->x, l->y);
        add(d->s, ")%s\">", l->upright ? " rotate(-90)" : "");
        add_name(d, l->record, MOST_SHOWN);
        add(d->s, "</text>\n");
    }
    free(labels);
}
