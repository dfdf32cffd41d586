/* A text that grows in memory. */
#include "command.h"

#include <inttypes.h>
#include <stdarg.h>
#include <stdlib.h>
#include <string.h>

/* Makes room for so many more bytes. */
static void make_room(struct sheet *s, size_t more) {
    size_t room = s->room == 0 ? 4096 : s->room;
    while (room - s->text.len < more)
        room *= 2;
    if (room == s->room)
        return;
    s->text.at = realloc(s->text.at, room);
    s->room = room;
    if (s->text.at == NULL)
        exit(failed("no memory", "what is to be written"));
}

void add_bytes(struct sheet *s, const uint8_t *at, size_t len) {
    make_room(s, len);
    if (len > 0)
        memcpy(s->text.at + s->text.len, at, len);
    s->text.len += len;
}

void add(struct sheet *s, const char *format, ...) {
    va_list list;
    size_t left;
    int len, tries;
    make_room(s, 128);
    for (tries = 0; tries < 2; tries++) {
        left = s->room - s->text.len;
        va_start(list, format);
        len = vsnprintf((char *)s->text.at + s->text.len, left, format, list);
        va_end(list);
        if ((size_t)len < left)
            break;
        make_room(s, (size_t)len + 1);
    }
    s->text.len += (size_t)len;
}

void add_millionths(struct sheet *s, int64_t x) {
    uint64_t size = x < 0 ? 0 - (uint64_t)x : (uint64_t)x;
    uint64_t rest = size % 1000000;
    int decimals = 6;
    add(s, "%s%" PRIu64, x < 0 ? "-" : "", size / 1000000);
    for (; decimals > 0 && rest % 10 == 0; decimals--)
        rest /= 10;
    if (decimals > 0)
        add(s, ".%0*" PRIu64, decimals, rest);
}

/* How many bytes the character has that starts here, by UTF-8; 0 where none does. */
static size_t character(const uint8_t *at, size_t len) {
    size_t n = at[0] < 0x80 ? 1 : at[0] < 0xc2 ? 0 : at[0] < 0xe0 ? 2 : at[0] < 0xf0 ? 3 : at[0] < 0xf5 ? 4 : 0, i;
    uint32_t number = n < 2 ? at[0] : at[0] & (0xffu >> (n + 1));
    if (n > len)
        return 0;
    for (i = 1; i < n; i++) {
        if ((at[i] & 0xc0) != 0x80)
            return 0;
        number = number << 6 | (at[i] & 0x3fu);
    }
    return (n == 3 && (number < 0x800 || number >> 11 == 27)) || (n == 4 && (number < 0x10000 || number > 0x10ffff)) ? 0 : n;
}

void add_json(struct sheet *s, const uint8_t *at, size_t len) {
    size_t i, n;
    add(s, "\"");
    for (i = 0; i < len; i += n == 0 ? 1 : n) {
        n = character(at + i, len - i);
        if (at[i] == '"' || at[i] == '\\')
            add(s, "\\%c", at[i]);
        else if (n == 0 || at[i] < 32 || at[i] == 127)
            add(s, "\\u%04x", (unsigned)at[i]);
        else
            add_bytes(s, at + i, n);
    }
    add(s, "\"");
}
