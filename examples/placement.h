/* The two parts of the placement program, each a build of placement.c. What goes in and out is bytes: neither an enum nor a struct that has
 * one stands in this header, as the parts would not agree on its size. */
#ifndef PLACEMENT_H
#define PLACEMENT_H

#include <stddef.h>
#include <stdint.h>

/* How many bytes the part gives its own enum. */
size_t short_enum_size(void);
size_t wide_enum_size(void);

/* The direction of each pin, as its code in the file or 0, for a record file by rising `at`, as lef_read leaves it. Fills `codes` as far as
 * there is room, and gives how many it has filled. */
size_t short_directions(const uint8_t *records, size_t len, uint8_t *codes, size_t room);
size_t wide_directions(const uint8_t *records, size_t len, uint8_t *codes, size_t room);

#endif
