/* netlist IN.lef NETLIST: the pins that a netlist connects, all looked up by two calls. NETLIST is a plain text, one connection a line:
 *
 *     instance cell pin net
 *
 * with blanks between the four words; a tab and a carriage return are blanks as well, and a line without a word is passed over. Of each connection
 * in turn it prints instance and pin, the net, the byte at which the PIN statement starts, and its direction; `-` stands for one that the text
 * does not give. A cell or pin that is not there is said with its line. Of several macros or pins of one name the first is taken; a SITE block of
 * that name is no cell.
 *
 * Exit status: 0 done, 1 refused or not found, 2 wrong usage, a line of NETLIST that has not four words, or a system error. */
#include <lef.h>

#include <errno.h>
#include <inttypes.h>
#include <stdio.h>
#include <stdlib.h>
#include <string.h>

#define DONE 0
#define REFUSED 1
#define FAILED 2

static uint8_t *text, *records, *entries;
static size_t text_len, records_len, entries_len;
static uint64_t place, line;

/* The bytes of the netlist are the block of names: a query is a span of them, which starts at a number of 32 bits, and no name is copied. */
#define NAMES_LIMIT UINT32_MAX
static uint8_t *names;
static size_t names_len;

struct word {
    uint32_t start, len;
};

#define INSTANCE 0
#define CELL 1
#define PIN 2
#define NET 3
#define WORDS 4

struct connection {
    struct word words[WORDS];
    size_t line;
    uint32_t macro; /* where the cell's statement starts */
};

static struct connection *connections;
static size_t count;
static uint8_t *queries, *answers;

static void fail(const char *name) {
    fprintf(stderr, "netlist: %s: %s\n", name, strerror(errno));
    exit(FAILED);
}

/* Room for as many bytes, at least one, so that it is NULL only where there is no memory. What was there before stays. */
static void *room(void *before, size_t len) {
    void *bytes = realloc(before, len + 1);
    if (bytes == NULL)
        fail("memory");
    return bytes;
}

/* All bytes of a file; of one with more than `most` at least one byte more than that. */
static uint8_t *load(const char *name, size_t most, size_t *len) {
    FILE *f = fopen(name, "rb");
    uint8_t *bytes = NULL;
    size_t size = 32768;
    if (f == NULL)
        fail(name);
    for (*len = 0; *len <= most && !feof(f) && !ferror(f);) {
        size *= 2;
        bytes = room(bytes, size);
        *len += fread(bytes + *len, 1, size - *len, f);
    }
    if (ferror(f))
        fail(name);
    fclose(f);
    return bytes;
}

/* The records of the text and their index. With no room, lef_read and lef_index say how many there are. */
static uint64_t read_and_index(void) {
    uint64_t number = lef_read(text, text_len, NULL, 0, &place, &line);
    records_len = place * LEF_RECORD_SIZE;
    if (number != LEF_DONE && number != LEF_RECORD_ROOM)
        return number;
    records = room(NULL, records_len);
    lef_read(text, text_len, records, records_len, &place, &line);
    lef_index(text, text_len, records, records_len, NULL, 0, &place, &line);
    entries_len = place * LEF_ENTRY_SIZE;
    entries = room(NULL, entries_len);
    return lef_index(text, text_len, records, records_len, entries, entries_len, &place, &line);
}

/* ---- the netlist */

static int is_blank(uint8_t byte) {
    return byte == ' ' || byte == '\t' || byte == '\r';
}

/* The next word on the line from a byte on, which is moved behind it; where there is none it has no bytes. */
static struct word next_word(size_t *from) {
    struct word w;
    while (*from < names_len && is_blank(names[*from]))
        ++*from;
    w.start = (uint32_t)*from;
    while (*from < names_len && names[*from] != '\n' && !is_blank(names[*from]))
        ++*from;
    w.len = (uint32_t)(*from - w.start);
    return w;
}

static void parse(const char *name) {
    size_t lines = 1, number, from, n;
    for (from = 0; from < names_len; from++)
        lines += names[from] == '\n';
    connections = room(NULL, lines * sizeof *connections);
    for (from = 0, number = 1; from < names_len; from++, number++) {
        struct connection *c = connections + count;
        for (n = 0; n < WORDS && (c->words[n] = next_word(&from)).len > 0;)
            n++;
        if (n != 0 && (n < WORDS || next_word(&from).len > 0)) {
            fprintf(stderr, "netlist: %s:%zu: not the four words: instance cell pin net\n", name, number);
            exit(FAILED);
        }
        c->line = number;
        count += n == WORDS;
    }
}

/* ---- asking */

static void put_query(size_t i, uint32_t owner, struct word name) {
    lef_query_put(queries + i * LEF_QUERY_SIZE, owner, name.start, name.len);
}

static uint32_t answer(size_t i) {
    return lef_answer_at(answers + i * LEF_ANSWER_SIZE);
}

/* Asks all queries in one call. The index is the library's own and the answers have room, so that nothing is refused. */
static void ask(void) {
    lef_find_many(text, text_len, records, records_len, entries, entries_len, names, names_len, queries, count * LEF_QUERY_SIZE, answers,
                  count * LEF_ANSWER_SIZE, &place, &line);
}

/* The record of the statement that starts at a byte: they stand by rising `at`. */
static const uint8_t *record_of(uint32_t at) {
    size_t low = 0, high = records_len / LEF_RECORD_SIZE;
    while (high - low > 1) {
        size_t middle = low + (high - low) / 2;
        if (lef_record_at(records + middle * LEF_RECORD_SIZE) <= at)
            low = middle;
        else
            high = middle;
    }
    return records + low * LEF_RECORD_SIZE;
}

/* The first macro of a cell's name. What is found is that macro, or a SITE block of the name: then the macro stands after it, and the records are
 * gone through. */
static uint32_t macro_of(uint32_t found, struct word cell) {
    const uint8_t *r = found == LEF_NOWHERE ? records + records_len : record_of(found);
    for (; r < records + records_len; r += LEF_RECORD_SIZE)
        if (lef_record_kind(r) == LEF_MACRO && lef_record_name_length(r) == cell.len &&
            memcmp(text + lef_record_name_start(r), names + cell.start, cell.len) == 0)
            return lef_record_at(r);
    return LEF_NOWHERE;
}

/* All cells in one call, and then all pins. LEF_NOWHERE is the library's number as an owner, and is not to be asked for pins: for a cell that is not
 * there the empty name is asked for, which nothing has, so that answers and connections stay side by side. */
static void look_up(void) {
    static const struct word empty = {0, 0};
    size_t i;
    for (i = 0; i < count; i++)
        put_query(i, LEF_LIBRARY, connections[i].words[CELL]);
    ask();
    for (i = 0; i < count; i++) {
        struct connection *c = connections + i;
        c->macro = macro_of(answer(i), c->words[CELL]);
        put_query(i, c->macro, c->macro == LEF_NOWHERE ? empty : c->words[PIN]);
    }
    ask();
}

/* ---- printing */

/* The last direction is the one in force. The records that a pin encloses follow its own, and have it or one of them as their owner. */
static const char *direction(uint32_t pin) {
    static const char *const DIRECTIONS[] = {"-", "INPUT", "OUTPUT", "OUTPUT TRISTATE", "INOUT", "FEEDTHRU"};
    const uint8_t *r = record_of(pin) + LEF_RECORD_SIZE, *end = records + records_len;
    uint32_t code = 0;
    for (; r < end && lef_record_owner(r) >= pin && lef_record_owner(r) != LEF_LIBRARY; r += LEF_RECORD_SIZE)
        if (lef_record_owner(r) == pin && lef_record_kind(r) == LEF_DIRECTION)
            code = lef_record_code(r);
    return code < sizeof DIRECTIONS / sizeof *DIRECTIONS ? DIRECTIONS[code] : "?";
}

static void print_word(FILE *f, const struct connection *c, int word) {
    fwrite(names + c->words[word].start, 1, c->words[word].len, f);
}

static void say_lacking(const struct connection *c, const char *lef, const char *netlist) {
    fprintf(stderr, "%s:%zu: no ", netlist, c->line);
    if (c->macro != LEF_NOWHERE) {
        fputs("pin ", stderr);
        print_word(stderr, c, PIN);
        fputs(" of a ", stderr);
    }
    fputs("macro ", stderr);
    print_word(stderr, c, CELL);
    fprintf(stderr, " in %s\n", lef);
}

static void print_pin(const struct connection *c, uint32_t pin) {
    print_word(stdout, c, INSTANCE);
    putchar('/');
    print_word(stdout, c, PIN);
    putchar(' ');
    print_word(stdout, c, NET);
    printf(": byte %" PRIu32 ", %s\n", pin, direction(pin));
}

/* A line for each connection in turn, and the exit status. */
static int print_all(const char *lef, const char *netlist) {
    int status = DONE;
    size_t i;
    for (i = 0; i < count; i++)
        if (answer(i) == LEF_NOWHERE) {
            say_lacking(connections + i, lef, netlist);
            status = REFUSED;
        } else
            print_pin(connections + i, answer(i));
    if (fflush(stdout) != 0 || ferror(stdout))
        fail("standard output");
    return status;
}

int main(int argc, char **argv) {
    uint64_t number;
    int status;
    if (argc != 3) {
        fputs("usage: netlist IN.lef NETLIST\n", stderr);
        return FAILED;
    }
    text = load(argv[1], LEF_TEXT_LIMIT, &text_len);
    names = load(argv[2], NAMES_LIMIT, &names_len);
    if (names_len > NAMES_LIMIT) {
        fprintf(stderr, "netlist: %s: over %" PRIu32 " bytes\n", argv[2], NAMES_LIMIT);
        return FAILED;
    }
    number = read_and_index();
    if (number != LEF_DONE) {
        fprintf(stderr, "%s: refused %" PRIu64 ", place %" PRIu64 ", line %" PRIu64 "\n", argv[1], number, place, line);
        return REFUSED;
    }
    parse(argv[2]);
    queries = room(NULL, count * LEF_QUERY_SIZE);
    answers = room(NULL, count * LEF_ANSWER_SIZE);
    look_up();
    status = print_all(argv[1], argv[2]);
    free(text);
    free(names);
    free(records);
    free(entries);
    free(connections);
    free(queries);
    free(answers);
    return status;
}
