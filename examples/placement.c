/* A part of a placement program: the directions of pins, from a record file.
 *
 * It is compiled twice, with -fshort-enums -DSHORT and without, and both parts are linked into one program (placement_main.c). They give
 * enum direction one byte and four, and the linker need not say so: a struct pin that one part filled would have its direction in other
 * bytes for the other part. What they hand on instead is a record file: where its fields stand is said by lef.h, and by no compiler. */
#include "placement.h"

#include <lef.h>

#ifdef SHORT
#define PART(name) short_##name
#else
#define PART(name) wide_##name
#endif

/* The values are the codes of LEF_DIRECTION; NONE is for a pin that has no direction. */
enum direction { NONE, INPUT, OUTPUT, TRISTATE, INOUT, FEEDTHRU };

/* A pin as this part knows it, and as no other part may see it. */
struct pin {
    enum direction direction;
    uint32_t at;
};

/* The pin whose record starts at byte i. Its directions follow it before the next pin, and the last one holds. */
static struct pin pin_of(const uint8_t *records, size_t len, size_t i) {
    struct pin pin = {NONE, lef_record_at(records + i)};
    for (i += LEF_RECORD_SIZE; i < len && lef_record_kind(records + i) != LEF_PIN; i += LEF_RECORD_SIZE)
        if (lef_record_kind(records + i) == LEF_DIRECTION && lef_record_owner(records + i) == pin.at)
            pin.direction = (enum direction)lef_record_code(records + i);
    return pin;
}

size_t PART(enum_size)(void) {
    return sizeof(enum direction);
}

size_t PART(directions)(const uint8_t *records, size_t len, uint8_t *codes, size_t room) {
    size_t i, n = 0;
    for (i = 0; i < len; i += LEF_RECORD_SIZE)
        if (lef_record_kind(records + i) == LEF_PIN && n < room)
            codes[n++] = (uint8_t)pin_of(records, len, i).direction;
    return n;
}
