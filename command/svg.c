/* A macro as a drawing in SVG: its size, the shapes of its pins and obstructions by layer, and their names. */
#include "drawing.h"

#include <stdlib.h>
#include <string.h>

/* The least width that is kept for the title, in pixels. */
#define TITLE 400

/* Colours that are told apart also by people who see no red or no green (after Okabe and Ito). */
static const char *const COLOURS[] = {"#0072b2", "#d55e00", "#009e73", "#cc79a7", "#e69f00", "#56b4e9", "#444444"};
#define COLOUR_COUNT (sizeof COLOURS / sizeof *COLOURS)

static const char STYLE[] =
    "text{font-family:sans-serif}\n"
    "path{vector-effect:non-scaling-stroke}\n"
    ".ink{fill:none;stroke:#000;stroke-width:1.5}\n"
    ".line{fill:none}\n"
    ".via{fill:#fff;fill-opacity:1;stroke-width:1;stroke-dasharray:none}\n"
    ".wide{vector-effect:none;fill:none;stroke-opacity:.6;stroke-linecap:square;stroke-miterlimit:1.5;stroke-dasharray:none}\n"
    ".name{stroke:#fff;stroke-width:.25em;stroke-linejoin:round;paint-order:stroke;pointer-events:none}\n";

/* ---- writing */

int length_of(const struct drawing *d, const uint8_t *record) {
    const uint8_t *name = d->text.at + lef_record_name_start(record);
    uint32_t len = lef_record_name_length(record), i;
    int sum = len > MOST_SHOWN ? 90 : 0;
    for (i = 0; i < len && i < MOST_SHOWN; i++)
        sum += name[i] <= 32 || 127 <= name[i] ? 240 : 'A' <= name[i] && name[i] <= 'Z' ? 70 : 60;
    return sum;
}

void add_name(const struct drawing *d, const uint8_t *record, uint32_t most) {
    const uint8_t *name = d->text.at + lef_record_name_start(record);
    uint32_t len = lef_record_name_length(record), i;
    for (i = 0; i < len && i < most; i++)
        if (name[i] <= 32 || 127 <= name[i])
            add(d->s, "\\x%02x", name[i]);
        else if (strchr("&<>\"'", name[i]) != NULL)
            add(d->s, "&#%d;", name[i]);
        else
            add_bytes(d->s, name + i, 1);
    if (i < len)
        add(d->s, "...");
}

void add_place(const struct drawing *d, const char *before, int64_t x, int64_t y) {
    add(d->s, "%s", before);
    add_millionths(d->s, x);
    add(d->s, " ");
    add_millionths(d->s, y);
}

void add_box(const struct drawing *d, struct box b) {
    b = drawn(d, b);
    add_place(d, "M", b.x0, b.y0);
    add_place(d, "L", b.x1, b.y0);
    add_place(d, "L", b.x1, b.y1);
    add_place(d, "L", b.x0, b.y1);
    add(d->s, "Z");
}

static void add_points(const struct drawing *d, const struct shape *s) {
    const uint8_t *p;
    for (p = s->from; p < s->to; p += LEF_RECORD_SIZE) {
        struct box b = drawn(d, spot(p));
        add_place(d, p == s->from ? "M" : "L", b.x0, b.y0);
    }
}

/* ---- shapes */

/* Opens the group of a pin or of the obstructions of a layer, with what is said of it where it is pointed at. */
static void open_group(const struct drawing *d, const uint8_t *group) {
    const uint8_t *direction = in_force(group, d->stop, LEF_DIRECTION), *use = in_force(group, d->stop, LEF_USE);
    add(d->s, "<g>\n<title>%s ", lef_record_kind(group) == LEF_PIN ? "pin" : "obstruction");
    add_name(d, group, UINT32_MAX);
    if (direction != NULL)
        add(d->s, ", %s", code_words(LEF_DIRECTION, lef_record_code(direction)));
    if (use != NULL)
        add(d->s, ", %s", code_words(LEF_USE, lef_record_code(use)));
    add(d->s, "</title>\n");
}

/* Draws a shape; of a path also its centre line, which is seen however thin the path is. */
static void draw_shape(const struct drawing *d, const struct shape *s) {
    const char *use = s->rank == OBSTRUCTION ? "obs" : "pin";
    if (s->kind == LEF_PATH && s->width > 0) {
        add(d->s, "<path class=\"%s%u wide\" style=\"stroke-width:", use, s->layer);
        add_millionths(d->s, scaled(d, s->width));
        add(d->s, "\" d=\"");
        add_points(d, s);
        add(d->s, "\"/>\n");
    }
    add(d->s, "<path class=\"%s%u%s\" d=\"", use, s->layer, s->kind == LEF_PATH ? " line" : s->kind == LEF_VIA ? " via" : "");
    if (s->kind == LEF_RECT)
        add_box(d, bounds(s, s->to));
    else
        add_points(d, s);
    add(d->s, "%s\"/>\n", s->kind == LEF_POLYGON ? "Z" : s->kind == LEF_VIA ? "m-4 -4h8v8h-8zl8 8m0 -8l-8 8" : "");
}

static void draw_shapes(const struct drawing *d, enum rank rank) {
    const uint8_t *group = NULL;
    const struct shape *s;
    for (s = d->shapes; s < d->shapes + d->shape_count; s++)
        if (s->rank == rank) {
            if (s->group != group) {
                add(d->s, group == NULL ? "" : "</g>\n");
                open_group(d, s->group);
            }
            group = s->group;
            draw_shape(d, s);
        }
    add(d->s, group == NULL ? "" : "</g>\n");
}

/* ---- the picture */

/* Opens the picture, which has room for the macro, its title above and the layers beside it. */
static void open_picture(const struct drawing *d) {
    int wide = larger(larger(d->wide, TITLE), 23 * length_of(d, d->macro) / 100), high = d->high + 2 * MARGIN;
    unsigned i;
    for (i = 0; i < d->layer_count; i++)
        wide = larger(wide, d->wide + MARGIN + 64 + 13 * length_of(d, d->layers[i]) / 100);
    wide += 2 * MARGIN;
    high = TOP + larger(high, 20 * (int)i) + MARGIN;
    add(d->s, "<?xml version=\"1.0\" encoding=\"UTF-8\"?>\n");
    add(d->s, "<svg xmlns=\"http://www.w3.org/2000/svg\" width=\"%d\" height=\"%d\" viewBox=\"0 0 %d %d\">\n<title>", wide, high, wide, high);
    add_name(d, d->macro, UINT32_MAX);
    add(d->s, "</title>\n<rect width=\"%d\" height=\"%d\" fill=\"#fff\"/>\n", wide, high);
}

/* Adds how the layers are painted. Where the colours are used up, paler ones with broken edges and other hatches tell them apart. */
static void add_styles(const struct drawing *d) {
    unsigned i;
    add(d->s, "<style>\n");
    for (i = 0; i < d->layer_count; i++) {
        const char *colour = COLOURS[i % COLOUR_COUNT];
        unsigned turn = i / COLOUR_COUNT;
        add(d->s, ".pin%u{fill:%s;fill-opacity:.%u;stroke:%s;stroke-width:1.5", i, colour, 75 / (turn + 1), colour);
        add(d->s, ";stroke-dasharray:%s}\n", turn == 0 ? "none" : "6 2");
        add(d->s, ".obs%u{fill:url(#hatch%u);stroke:%s;stroke-opacity:.6;stroke-dasharray:4 3}\n", i, i, colour);
        add(d->s, ".obs%u.wide{stroke:url(#hatch%u)}\n", i, i);
    }
    add(d->s, "%s</style>\n", STYLE);
    for (i = 0; i < d->layer_count; i++) {
        const char *colour = COLOURS[i % COLOUR_COUNT];
        unsigned step = 12 + 6 * (i / COLOUR_COUNT % 3), slope = (45 + 90 * i + 25 * (i / 2)) % 180;
        add(d->s, "<pattern id=\"hatch%u\" width=\"%u\" height=\"9\" patternUnits=\"userSpaceOnUse\" patternTransform=\"rotate(%u)\">\n", i, step,
            slope);
        add(d->s, "<rect width=\"%u\" height=\"9\" fill=\"%s\" fill-opacity=\".07\"/>\n", step, colour);
        add(d->s, "<rect width=\"1.2\" height=\"9\" fill=\"%s\" fill-opacity=\".5\"/>\n</pattern>\n", colour);
    }
}

static void draw_outline(const struct drawing *d) {
    if (d->size == NULL)
        return;
    add(d->s, "<path class=\"ink\" stroke-dasharray=\"8 4\" d=\"");
    add_box(d, d->outline);
    add(d->s, "\"/>\n");
}

/* Draws a cross at the origin, if that is on the drawing. */
static void draw_origin(const struct drawing *d) {
    struct box e = d->extent, origin = {0, 0, 0, 0};
    if (e.x0 > 0 || 0 > e.x1 || e.y0 > 0 || 0 > e.y1)
        return;
    origin = drawn(d, origin);
    add_place(d, "<path class=\"ink\" d=\"M", origin.x0, origin.y0);
    add(d->s, "m-8 0h16m-8 -8v16\"/>\n");
}

static void draw_title(const struct drawing *d) {
    const uint8_t *class = in_force(d->macro, d->stop, LEF_MACRO_CLASS);
    add(d->s, "<text x=\"%d\" y=\"42\" font-size=\"22\" font-weight=\"bold\">", MARGIN);
    add_name(d, d->macro, MOST_SHOWN);
    add(d->s, "</text>\n<text x=\"%d\" y=\"64\" font-size=\"14\">", MARGIN);
    if (d->size == NULL)
        add(d->s, "no size");
    else {
        add_millionths(d->s, lef_record_x(d->size));
        add(d->s, " &#215; ");
        add_millionths(d->s, lef_record_y(d->size));
        add(d->s, " &#181;m");
    }
    add(d->s, "%s%s</text>\n", class == NULL ? "" : ", ", class == NULL ? "" : code_words(LEF_MACRO_CLASS, lef_record_code(class)));
}

/* Draws a bar below the macro: the longest of 1, 2 or 5 times a power of ten that is not too long. */
static void draw_bar(const struct drawing *d) {
    static const int TIMES[] = {1, 2, 5};
    int64_t ten, bar = 1;
    int i, y = TOP + d->high + MARGIN;
    for (ten = 1; ten <= d->across; ten *= 10)
        for (i = 0; i < 3; i++)
            if (scaled(d, TIMES[i] * ten) <= 160 * PIXEL)
                bar = TIMES[i] * ten;
    add(d->s, "<path class=\"ink\" d=\"M%d %dv8h", MARGIN, y);
    add_millionths(d->s, scaled(d, bar));
    add(d->s, "v-8\"/>\n<text x=\"%d\" y=\"%d\" font-size=\"13\">", MARGIN, y + 25);
    add_millionths(d->s, bar);
    add(d->s, " &#181;m</text>\n");
}

static void draw_legend(const struct drawing *d) {
    int x = MARGIN + d->wide + MARGIN, y = TOP;
    unsigned i;
    if (d->layer_count > 0) {
        add(d->s, "<text x=\"%d\" y=\"%d\" font-size=\"11\">PIN</text>\n", x, y - 8);
        add(d->s, "<text x=\"%d\" y=\"%d\" font-size=\"11\">OBS</text>\n", x + 30, y - 8);
    }
    for (i = 0; i < d->layer_count; i++, y += 20) {
        if (d->used[i][1])
            add(d->s, "<path class=\"pin%u\" d=\"M%d %dh22v12h-22z\"/>\n", i, x, y);
        if (d->used[i][0])
            add(d->s, "<path class=\"obs%u\" d=\"M%d %dh22v12h-22z\"/>\n", i, x + 30, y);
        add(d->s, "<text x=\"%d\" y=\"%d\" font-size=\"13\">", x + 64, y + 11);
        if (i < MOST_LAYERS - 1)
            add_name(d, d->layers[i], MOST_SHOWN);
        else
            add(d->s, "all further layers");
        add(d->s, "</text>\n");
    }
}

int draw(struct sheet *s, struct bytes text, struct bytes records, const char *macro) {
    const uint8_t *r = records.at, *stop = records.at + records.len;
    struct drawing d;
    memset(&d, 0, sizeof d);
    while (r < stop && !(lef_record_kind(r) == LEF_MACRO && is_named(text, r, macro, strlen(macro))))
        r += LEF_RECORD_SIZE;
    if (r == stop)
        return 0;
    d.s = s;
    d.text = text;
    d.macro = r;
    d.stop = behind(r, stop);
    find_outline(&d);
    list_shapes(&d);
    fit(&d);
    open_picture(&d);
    add_styles(&d);
    draw_shapes(&d, OBSTRUCTION);
    draw_outline(&d);
    draw_shapes(&d, SUPPLY);
    draw_shapes(&d, SIGNAL);
    draw_origin(&d);
    draw_labels(&d);
    draw_title(&d);
    draw_bar(&d);
    draw_legend(&d);
    add(s, "</svg>\n");
    free(d.shapes);
    return 1;
}
