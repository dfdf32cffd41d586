/* What of a macro is drawn, and where: its outline, its shapes and their layers, and how they are scaled. */
#include "drawing.h"

#include <stdlib.h>
#include <string.h>

/* ---- records */

const uint8_t *behind(const uint8_t *owner, const uint8_t *stop) {
    const uint8_t *r = owner + LEF_RECORD_SIZE;
    while (r < stop && lef_record_owner(r) != LEF_LIBRARY && lef_record_owner(r) >= lef_record_at(owner))
        r += LEF_RECORD_SIZE;
    return r;
}

const uint8_t *in_force(const uint8_t *owner, const uint8_t *stop, uint32_t kind) {
    const uint8_t *r, *last = NULL, *to = behind(owner, stop);
    for (r = owner; r < to; r += LEF_RECORD_SIZE)
        if (lef_record_kind(r) == kind && lef_record_owner(r) == lef_record_at(owner))
            last = r;
    return last;
}

int is_named(struct bytes text, const uint8_t *record, const void *name, size_t len) {
    return lef_record_name_length(record) == len && memcmp(text.at + lef_record_name_start(record), name, len) == 0;
}

/* The number of the layer that a record names. */
static unsigned layer_of(struct drawing *d, const uint8_t *record) {
    unsigned i;
    for (i = 0; i < d->layer_count && i < MOST_LAYERS - 1; i++)
        if (is_named(d->text, d->layers[i], d->text.at + lef_record_name_start(record), lef_record_name_length(record)))
            return i;
    if (i == d->layer_count)
        d->layers[d->layer_count++] = record;
    return i;
}

static enum rank rank_of(const uint8_t *pin, const uint8_t *stop) {
    const uint8_t *use = in_force(pin, stop, LEF_USE);
    return use != NULL && (lef_record_code(use) == 3 || lef_record_code(use) == 4) ? SUPPLY : SIGNAL;
}

/* ---- boxes */

struct box between(int64_t x, int64_t y, int64_t u, int64_t v) {
    struct box b = {x < u ? x : u, y < v ? y : v, x < u ? u : x, y < v ? v : y};
    return b;
}

struct box spot(const uint8_t *point) {
    return between(lef_record_x(point), lef_record_y(point), lef_record_x(point), lef_record_y(point));
}

static struct box both(struct box a, struct box b) {
    return between(a.x0 < b.x0 ? a.x0 : b.x0, a.y0 < b.y0 ? a.y0 : b.y0, a.x1 > b.x1 ? a.x1 : b.x1, a.y1 > b.y1 ? a.y1 : b.y1);
}

struct box bounds(const struct shape *s, const uint8_t *to) {
    const uint8_t *p, *q;
    int64_t reach = s->width / 2;
    struct box b = spot(s->from);
    for (q = s->from, p = q + LEF_RECORD_SIZE; p < to; q = p, p += LEF_RECORD_SIZE) {
        b = both(b, spot(p));
        if (lef_record_x(p) != lef_record_x(q) && lef_record_y(p) != lef_record_y(q))
            reach = s->width / 4 * 3;
    }
    return s->kind == LEF_PATH ? between(b.x0 - reach, b.y0 - reach, b.x1 + reach, b.y1 + reach) : b;
}

struct box part_of(const struct shape *s) {
    const uint8_t *p, *q = s->to - LEF_RECORD_SIZE;
    struct box b = bounds(s, s->kind == LEF_PATH ? s->from + 2 * LEF_RECORD_SIZE : s->to);
    int64_t y = b.y0 + (b.y1 - b.y0) / 2, first = b.x1, second = b.x1;
    if (s->kind != LEF_POLYGON)
        return b;
    for (p = s->from; p < s->to; q = p, p += LEF_RECORD_SIZE)
        if ((lef_record_y(p) <= y) != (lef_record_y(q) <= y)) {
            double part = (double)(y - lef_record_y(p)) / (double)(lef_record_y(q) - lef_record_y(p));
            int64_t x = lef_record_x(p) + (int64_t)(part * (double)(lef_record_x(q) - lef_record_x(p)));
            second = x < first ? first : x < second ? x : second;
            first = x < first ? x : first;
        }
    return between(first, y, second, y);
}

/* ---- measures */

int larger(int a, int b) {
    return a > b ? a : b;
}

void *allocated(size_t count, size_t size) {
    void *at = calloc(count + 1, size);
    if (at == NULL)
        exit(failed("no memory", "the drawing"));
    return at;
}

void list_shapes(struct drawing *d) {
    struct shape s = {0, OBSTRUCTION, 0, 0, NULL, NULL, NULL};
    const uint8_t *r;
    d->shapes = allocated((size_t)(d->stop - d->macro) / LEF_RECORD_SIZE, sizeof *d->shapes);
    for (r = d->macro; r < d->stop; r += LEF_RECORD_SIZE) {
        s.kind = lef_record_kind(r);
        if (s.kind == LEF_PIN || s.kind == LEF_OBS) {
            s.rank = s.kind == LEF_OBS ? OBSTRUCTION : rank_of(r, d->stop);
            s.group = r;
        } else if (s.kind == LEF_LAYER) {
            s.width = 0;
            s.layer = layer_of(d, r);
            s.group = s.rank == OBSTRUCTION ? r : s.group;
            d->used[s.layer][s.rank != OBSTRUCTION] = 1;
        } else if (s.kind == LEF_WIDTH)
            s.width = lef_record_x(r) > 0 ? lef_record_x(r) : 0;
        else if (s.kind == LEF_RECT || s.kind == LEF_POLYGON || s.kind == LEF_PATH || s.kind == LEF_VIA) {
            s.from = s.kind == LEF_VIA ? r : r + LEF_RECORD_SIZE;
            s.to = behind(r, d->stop);
            d->extent = d->size == NULL && d->shape_count == 0 ? bounds(&s, s.to) : both(d->extent, bounds(&s, s.to));
            d->shapes[d->shape_count++] = s;
        }
    }
}

void find_outline(struct drawing *d) {
    const uint8_t *origin = in_force(d->macro, d->stop, LEF_ORIGIN);
    int64_t x = origin == NULL ? 0 : -lef_record_x(origin), y = origin == NULL ? 0 : -lef_record_y(origin);
    d->size = in_force(d->macro, d->stop, LEF_SIZE);
    if (d->size != NULL)
        d->extent = d->outline = between(x, y, x + lef_record_x(d->size), y + lef_record_y(d->size));
}

int64_t scaled(const struct drawing *d, int64_t way) {
    int64_t product = way * d->pixels;
    return product / d->across * PIXEL + product % d->across * 100000 / d->across * 10;
}

struct box drawn(const struct drawing *d, struct box b) {
    int64_t x = d->left * PIXEL, y = TOP * PIXEL;
    struct box e = d->extent;
    return between(x + scaled(d, b.x0 - e.x0), y + scaled(d, e.y1 - b.y1), x + scaled(d, b.x1 - e.x0), y + scaled(d, e.y1 - b.y0));
}

void fit(struct drawing *d) {
    struct box e = d->extent;
    int64_t half = e.x0 == e.x1 && e.y0 == e.y1 ? 500000 : 0;
    int wide;
    d->extent = e = between(e.x0 - half, e.y0 - half, e.x1 + half, e.y1 + half);
    d->pixels = half > 0 ? NARROW : (e.x1 - e.x0) * HIGH > (e.y1 - e.y0) * WIDE ? WIDE : HIGH;
    d->across = d->pixels == WIDE ? e.x1 - e.x0 : e.y1 - e.y0;
    wide = (int)(scaled(d, e.x1 - e.x0) / PIXEL) + 1;
    d->high = (int)(scaled(d, e.y1 - e.y0) / PIXEL) + 1;
    d->wide = larger(wide, NARROW);
    d->left = MARGIN + (d->wide - wide) / 2;
}
