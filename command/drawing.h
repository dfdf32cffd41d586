/* A macro as a drawing: what its parts share. What is on the chip is in millionths of a micron with y up, as records have it; what is on the
 * drawing is in millionths of a pixel with y down. */
#ifndef LEF_DRAWING_H
#define LEF_DRAWING_H

#include "command.h"

#define PIXEL INT64_C(1000000)

/* In pixels: the room that a macro is scaled to fill, the least width that is kept for it, and what is left beside and above it. */
#define WIDE 1000
#define HIGH 700
#define NARROW 260
#define MARGIN 32
#define TOP 100

/* The layers that are told apart; the last stands for all that come after the others. */
#define MOST_LAYERS 48
/* The characters of a name that are shown. A tooltip has the whole name. */
#define MOST_SHOWN 40

/* What lies from x0 to x1 and from y0 to y1. */
struct box {
    int64_t x0, y0, x1, y1;
};

/* What is drawn below the others comes first. */
enum rank { OBSTRUCTION, SUPPLY, SIGNAL };

struct shape {
    uint32_t kind;
    enum rank rank;
    unsigned layer;
    int64_t width;
    const uint8_t *from, *to; /* its points; a via is its own */
    const uint8_t *group;     /* its pin, or the LAYER of an obstruction */
};

struct drawing {
    struct sheet *s;
    struct bytes text;
    const uint8_t *macro, *stop, *size;
    struct box outline, extent; /* on the chip */
    int64_t across, pixels;     /* so long a way on the chip is so many pixels */
    int left, wide, high;       /* in pixels: where the macro starts, the width kept for it, and its height */
    const uint8_t *layers[MOST_LAYERS];
    int used[MOST_LAYERS][2]; /* by obstructions, by pins */
    unsigned layer_count;
    struct shape *shapes;
    size_t shape_count;
};

/* ---- drawing.c: what is drawn, and where. */

/* The first record behind all that one owns, itself or through others: they stand right behind it. */
const uint8_t *behind(const uint8_t *owner, const uint8_t *stop);

/* The last record of a kind that one owns, which is the one in force, or NULL. */
const uint8_t *in_force(const uint8_t *owner, const uint8_t *stop, uint32_t kind);

int is_named(struct bytes text, const uint8_t *record, const void *name, size_t len);

struct box between(int64_t x, int64_t y, int64_t u, int64_t v);

struct box spot(const uint8_t *point);

/* What the points of a shape span, up to one of them. A path reaches half its width beyond its ends; where it runs aslant, its corners
 * reach further. */
struct box bounds(const struct shape *s, const uint8_t *to);

/* The part of a shape that a name is written on: the first leg of a path, and of a polygon the leftmost stretch at half its height,
 * which lies inside it however it is bent. */
struct box part_of(const struct shape *s);

void *allocated(size_t count, size_t size);

int larger(int a, int b);

/* Lists the shapes and the layers, and finds the extent of all that is to be drawn. */
void list_shapes(struct drawing *d);

/* The outline of the macro: its size, moved by its origin. */
void find_outline(struct drawing *d);

/* Fits the extent into the room. One of a single point is drawn small, with half a micron around it. */
void fit(struct drawing *d);

/* A way on the chip as one on the drawing, to a hundred thousandth of a pixel. No extent is over 4 * 10^13, so that no product here
 * passes 63 bits. */
int64_t scaled(const struct drawing *d, int64_t way);

struct box drawn(const struct drawing *d, struct box b);

/* ---- svg.c: what is written. */

/* How long what is shown of a name is, in hundredths of its letters' size, by the width that they have on the whole. */
int length_of(const struct drawing *d, const uint8_t *record);

/* Adds so much of a name at most. Characters that XML has no way to write are shown by their number. */
void add_name(const struct drawing *d, const uint8_t *record, uint32_t most);

/* Adds a place on the drawing. */
void add_place(const struct drawing *d, const char *before, int64_t x, int64_t y);

/* Adds the way around a box on the chip. As a rectangle of SVG it would not be seen where it has no width. */
void add_box(const struct drawing *d, struct box b);

/* ---- labels.c */

/* Draws the names of the pins and of the vias. */
void draw_labels(const struct drawing *d);

#endif
