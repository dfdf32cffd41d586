/* lef: LEF text and its record file, at a prompt. Everything is asked of the library; this program moves bytes between it and files, and says
 * in words what it answers. */
#include "command.h"

#include <inttypes.h>
#include <stdlib.h>
#include <string.h>

static enum listing form = FIELDS;

/* What the verb is asked about, kept up to the end of the program: the text with a file beside it, the same with its index, and a list of names. */
static struct asked asked;
static struct library library;
static struct bytes list;

/* ---- the verbs */

struct refusal read_records(struct bytes text, struct bytes *records) {
    struct refusal r;
    records->at = NULL;
    records->len = 0;
    r.number = lef_read(text.at, text.len, NULL, 0, &r.place, &r.line);
    if (r.number == LEF_RECORD_ROOM) {
        records->len = r.place * LEF_RECORD_SIZE;
        records->at = malloc(records->len);
        if (records->at == NULL)
            exit(failed("no memory", "the records"));
        r.number = lef_read(text.at, text.len, records->at, records->len, &r.place, &r.line);
    }
    return r;
}

/* Loads a text and reads it. */
static int read_text(const char *name) {
    struct refusal r;
    int status = load(name, LEF_TEXT_LIMIT, &asked.text);
    asked.text_name = name;
    asked.file_name = "";
    if (status != DONE)
        return status;
    r = read_records(asked.text, &asked.file);
    return r.number == LEF_DONE ? DONE : refused(r, asked);
}

/* Loads a text and a record file. */
static int load_both(char **names) {
    int status = load(names[0], LEF_TEXT_LIMIT, &asked.text);
    asked.text_name = names[0];
    asked.file_name = names[1];
    return status == DONE ? load(names[1], RECORDS_LIMIT, &asked.file) : status;
}

/* Writes the records of a file as text, and warns where that is too long to be read again. */
static int write_text(const char *name) {
    struct refusal r;
    struct bytes out = {NULL, 0};
    int status;
    r.number = lef_write(asked.text.at, asked.text.len, asked.file.at, asked.file.len, NULL, 0, &r.place, &r.line);
    if (r.number == LEF_TEXT_ROOM) {
        out.len = r.place;
        out.at = malloc(out.len);
        if (out.at == NULL)
            return failed("no memory", name);
        r.number = lef_write(asked.text.at, asked.text.len, asked.file.at, asked.file.len, out.at, out.len, &r.place, &r.line);
    }
    if (r.number != LEF_DONE)
        return refused(r, asked);
    status = store(name, out);
    free(out.at);
    if (status == DONE && out.len > LEF_TEXT_LIMIT)
        fprintf(stderr, "lef: %s: warning: it has %zu bytes, and a text over %u bytes is not read\n", name, out.len, LEF_TEXT_LIMIT);
    return status;
}

static int do_read(char **names) {
    int status = read_text(names[0]);
    return status == DONE ? store(names[1], asked.file) : status;
}

static int do_check(char **names) {
    struct refusal r;
    int status = load_both(names);
    if (status != DONE)
        return status;
    r.number = lef_check(asked.text.at, asked.text.len, asked.file.at, asked.file.len, &r.place, &r.line);
    return r.number == LEF_DONE ? DONE : refused(r, asked);
}

static int do_write(char **names) {
    int status = load_both(names);
    return status == DONE ? write_text(names[2]) : status;
}

/* The file that is written is the text's own reading, which lef_write checks as any other. */
static int do_format(char **names) {
    int status = read_text(names[0]);
    return status == DONE ? write_text(names[1]) : status;
}

static int do_list(char **names) {
    int status = read_text(names[0]);
    return status == DONE ? list_records(asked.text, asked.file, form) : status;
}

static int do_tokens(char **names) {
    int status = load(names[0], LEF_TEXT_LIMIT, &asked.text);
    asked.text_name = names[0];
    return status == DONE ? list_tokens(asked) : status;
}

static int do_index(char **names) {
    struct refusal r;
    struct bytes index;
    int status = load_both(names);
    if (status != DONE)
        return status;
    r = index_records(asked.text, asked.file, &index);
    if (r.number != LEF_DONE)
        return refused(r, asked);
    status = store(names[2], index);
    free(index.at);
    return status;
}

/* Loads a text, reads it and builds its index. */
static int index_text(const char *name) {
    struct refusal r;
    int status = read_text(name);
    if (status != DONE)
        return status;
    r = index_records(asked.text, asked.file, &library.index);
    library.asked = asked;
    return r.number == LEF_DONE ? DONE : refused(r, asked);
}

static int do_find(char **names) {
    int status = index_text(names[0]);
    return status == DONE ? find(&library, names[1], names[2]) : status;
}

static int do_find_many(char **names) {
    int status = index_text(names[0]);
    if (status == DONE)
        status = load_list(names[1], &list);
    return status == DONE ? find_many(&library, list) : status;
}

static int do_svg(char **names) {
    struct sheet s = {{NULL, 0}, 0};
    int status = read_text(names[0]);
    if (status != DONE)
        return status;
    if (!draw(&s, asked.text, asked.file, names[1])) {
        fprintf(stderr, "lef: %s: it has no macro %s\n", names[0], names[1]);
        return FAILED;
    }
    status = store(names[2], s.text);
    free(s.text.at);
    return status;
}

/* ---- usage */

/* A verb, and what it takes: files that are read (<), files that are written (>), other words (.), and last one that may be left out (?). */
static const struct verb {
    const char *name, *takes, *words[3], *help;
    int (*run)(char **names);
} VERBS[] = {
    {"read", "<>", {"IN.lef", "OUT.rec"}, "the records of a text, as a file", do_read},
    {"check", "<<", {"IN.lef", "FILE.rec"}, "whether a file is the reading of a text, in any order", do_check},
    {"write", "<<>", {"IN.lef", "FILE.rec", "OUT.lef"}, "the text again, in canonical form", do_write},
    {"format", "<>", {"IN.lef", "OUT.lef"}, "read, check and write in one", do_format},
    {"list", "<", {"IN.lef"}, "the records of a text, one a line", do_list},
    {"tokens", "<", {"IN.lef"}, "its tokens, one a line", do_tokens},
    {"index", "<<>", {"IN.lef", "FILE.rec", "OUT.idx"}, "the index of a file, by which names are found", do_index},
    {"find", "<.?", {"IN.lef", "MACRO", "PIN"}, "where a macro, site or pin is", do_find},
    {"find-many", "<<", {"IN.lef", "NAMES"}, "where each name of a list is", do_find_many},
    {"svg", "<.>", {"IN.lef", "MACRO", "OUT.svg"}, "a picture of a macro", do_svg},
};

#define COUNT (sizeof VERBS / sizeof *VERBS)

/* Prints a verb with what it takes; gives how many characters that are. */
static int put_synopsis(struct verb v, FILE *f) {
    int n = fprintf(f, "lef %s", v.name);
    size_t i;
    for (i = 0; v.takes[i] != 0; i++)
        n += fprintf(f, v.takes[i] == '?' ? " [%s]" : " %s", v.words[i]);
    return n;
}

static int help(void) {
    size_t i;
    for (i = 0; i < COUNT; i++) {
        printf(i == 0 ? "usage: " : "       ");
        printf("%*s %s\n", 34 - put_synopsis(VERBS[i], stdout), "", VERBS[i].help);
    }
    printf("       lef --help\n"
           "       lef --version\n"
           "\n"
           "list prints kind, code, at, owner (- for the library), name start, name length, x, y; with --words what they mean, lengths in\n"
           "microns. tokens prints kind, start, stop, and the token itself. find prints all of that name, one a line. NAMES has a line for\n"
           "each look-up, a macro or a site, or a macro and a pin; find-many prints a line for each, the first of that name or that there is none.\n"
           "--json prints the records, the tokens, what is found and refusals as objects of JSON, one a line.\n"
           "A file given as - is standard input or standard output; -- ends the options. A file is written only when it is whole, and never\n"
           "over an input; what is no regular file is written through.\n"
           "Exit status: 0 done, 1 refused or not found (which is said on standard error), 2 wrong usage or a system error.\n");
    return printed();
}

/* Names the fault of a call, and says what the verb takes, or which verbs there are. */
static int misused(const struct verb *v, const char *word, const char *what) {
    size_t i;
    fprintf(stderr, "lef: %s %s\n", word, what);
    if (v != NULL) {
        fprintf(stderr, "usage: ");
        put_synopsis(*v, stderr);
        fprintf(stderr, "\n");
        return FAILED;
    }
    fprintf(stderr, "verbs:");
    for (i = 0; i < COUNT; i++)
        fprintf(stderr, " %s", VERBS[i].name);
    fprintf(stderr, "; lef --help says what each takes\n");
    return FAILED;
}

/* Whether a verb prints to standard output what it makes of its inputs. */
static int is_printing(const struct verb *v) {
    return v->run == do_list || v->run == do_tokens || v->run == do_find || v->run == do_find_many;
}

/* Refuses a call before anything is read, where one file stands in two places that harm each other. */
static int run(const struct verb *v, char **names) {
    size_t i, k, n = strlen(v->takes);
    for (i = 0; i < n; i++) {
        for (k = 0; k < n; k++) {
            if (k < i && v->takes[k] == '<' && v->takes[i] == '<' && is_standard_input(names[k]) && is_standard_input(names[i]))
                return misused(v, names[i], "is asked for twice, and standard input can be read once");
            if (v->takes[k] == '<' && v->takes[i] == '>' && is_same_file(names[k], names[i]))
                return misused(v, names[i], "is the same file as an input; nothing was read or written");
        }
        if (v->takes[i] == '<' && is_printing(v) && is_same_file(names[i], "-"))
            return misused(v, names[i], "is the same file as standard output; nothing was read or written");
    }
    return v->run(names);
}

/* Sorts the words of a call: those that are no options, at most so many. Gives how many there are, or -1 after it said what is wrong. */
static int sort_words(int argc, char **argv, char **words, int most) {
    int i, n = 0, are_options = 1;
    for (i = 1; i < argc; i++)
        if (are_options && strcmp(argv[i], "--") == 0)
            are_options = 0;
        else if (are_options && strcmp(argv[i], "--json") == 0)
            in_json = 1;
        else if (are_options && strcmp(argv[i], "--words") == 0)
            form = WORDS;
        else if (are_options && strncmp(argv[i], "-", 1) == 0 && argv[i][1] != 0)
            return misused(NULL, argv[i], "is no option"), -1;
        else if (n < most)
            words[n++] = argv[i];
    return n;
}

static const struct verb *verb_of(const char *word) {
    size_t i;
    for (i = 0; i < COUNT; i++)
        if (strcmp(word, VERBS[i].name) == 0)
            return VERBS + i;
    return NULL;
}

int main(int argc, char **argv) {
    const struct verb *v;
    char *words[6] = {NULL};
    int n, least, takes;
    if (argc == 2 && (strcmp(argv[1], "--help") == 0 || strcmp(argv[1], "-h") == 0))
        return help();
    if (argc == 2 && strcmp(argv[1], "--version") == 0) {
        printf("lef %s\n", LEF_H_VERSION);
        return printed();
    }
    n = sort_words(argc, argv, words, 5);
    if (n < 0)
        return FAILED;
    if (n == 0)
        return misused(NULL, "a verb", "is missing");
    v = verb_of(words[0]);
    if (v == NULL)
        return misused(NULL, words[0], "is no verb");
    takes = (int)strlen(v->takes);
    least = (int)strcspn(v->takes, "?");
    if (form == WORDS && v->run != do_list)
        return misused(v, "--words", "is an option of list alone");
    if (n - 1 < least)
        return misused(v, v->words[n - 1], "is missing");
    return n - 1 <= takes ? run(v, words + 1) : misused(v, words[takes + 1], "is one too many");
}
