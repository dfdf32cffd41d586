/* What the parts of the command `lef` share: bytes in memory, files, tokens, names of kinds and codes, and refusals. */
#ifndef LEF_COMMAND_H
#define LEF_COMMAND_H

#include "lef.h"

#include <stdio.h>

/* How a verb ends, which is the exit status of the command. */
#define DONE 0
#define REFUSED 1
#define FAILED 2

/* Bytes in memory. What a verb has allocated is freed by the end of the program. */
struct bytes {
    uint8_t *at;
    size_t len;
};

/* ---- files.c */

/* Says on standard error what the system could not do, and why. */
int failed(const char *what, const char *name);

/* Whether a name stands for standard input, which can be read once only. */
int is_standard_input(const char *name);

/* Whether the output is the same file as the input, so that writing the one would harm the other. */
int is_same_file(const char *input, const char *output);

/* Reads a file up to its end, or up to one byte more than `most`. */
int load(const char *name, size_t most, struct bytes *b);

/* Writes bytes to a file, which appears only when it is whole; to what is no regular file they are written through. */
int store(const char *name, struct bytes b);

/* ---- sheet.c: a text that grows. */
struct sheet {
    struct bytes text;
    size_t room;
};

/* Adds what printf would print. Ends the program with FAILED where there is no memory. */
void add(struct sheet *s, const char *format, ...);

/* Adds bytes as they are. */
void add_bytes(struct sheet *s, const uint8_t *at, size_t len);

/* Adds the characters of a number in millionths: the shortest numeral. */
void add_millionths(struct sheet *s, int64_t x);

/* Adds a string of JSON, with its quotes: characters by UTF-8, and bytes that are none, as in a file's name, by their number. */
void add_json(struct sheet *s, const uint8_t *at, size_t len);

/* ---- tokens.c: the tokens of a text in turn. */
struct token {
    uint64_t kind, start, stop, line;
};

#define FIRST_TOKEN {LEF_TOKEN_NAME, 0, 0, 1}

/* The next token after t, which is FIRST_TOKEN before the first: LEF_DONE, or 3 with its place in t->start. The text is one that is not
 * refused 1 or 2. */
uint64_t next_token(struct bytes text, struct token *t);

/* A byte with a small letter made a capital. */
uint8_t raised(uint8_t byte);

/* Whether the token is a name that spells the word, which is in upper case. */
int spells(struct bytes text, struct token t, const char *word);

/* The kind of a token in words. */
const char *token_kind(uint64_t kind);

/* ---- main.c */

/* A refusal, or that a call is done, as the library gives it. */
struct refusal {
    uint64_t number, place, line;
};

/* No text has more records than bytes, since each has an `at` of its own: a record file is read up to so many bytes. */
#define RECORDS_LIMIT (LEF_TEXT_LIMIT * LEF_RECORD_SIZE)

/* The records of a text. */
struct refusal read_records(struct bytes text, struct bytes *records);

/* ---- refusals.c */

/* What a call was asked about: a text, and a record file where it took one. */
struct asked {
    const char *text_name;
    struct bytes text;
    const char *file_name;
    struct bytes file;
};

/* Says a refusal on standard error: for people, or as one object of JSON on a line. Gives REFUSED. */
int refused(struct refusal r, struct asked a);

/* Whether listings and refusals are objects of JSON, one a line. */
extern int in_json;

/* The record with that `at` among the records of a reading, or NULL. */
const uint8_t *record_at(struct bytes records, uint64_t at);

/* ---- unread.c */

/* Whether the token spells a word of legal LEF that this library does not read. */
int is_unread(struct bytes text, struct token t, int at_library_level);

/* ---- fault.c */

/* The token held ahead of a refusal from 4 to 10, the token at fault, where the statement starts that has it, whether END LIBRARY could stand
 * in its place, and whether it is legal LEF that this library does not read. */
struct fault {
    struct token held, token;
    uint64_t statement;
    int is_at_library_level, is_unread;
};

struct fault fault_of(struct bytes text, struct refusal r);

/* Whether the token is a string that no quote ends. */
int is_unclosed(struct bytes text, struct token t);

/* ---- shown.c: the lines of a text around a place. */

/* Where the place's line starts, and its number, all newlines counted. */
uint64_t line_start(struct bytes text, uint64_t place);
uint64_t line_of(struct bytes text, uint64_t place);

/* A caret at the place, waves from start to stop, and where the statement starts that is to be seen. */
struct marks {
    uint64_t place, start, stop, statement;
};

/* Adds the lines from the statement's to the place's, and the marks under them. */
void add_lines(struct sheet *s, struct bytes text, struct marks m);

/* ---- words.c: kinds and codes by name. */

/* The word of a kind, as its statement has it. */
const char *kind_word(uint32_t kind);

/* The words of a kind's code, or NULL where the kind has no such code. */
const char *code_words(uint32_t kind, uint32_t code);

/* Adds bytes of a text as they can be shown on one line: blanks as a space, what cannot be printed in hexadecimal. */
void add_shown(struct sheet *s, const uint8_t *at, size_t len);

/* Adds a record in words: kind, code, name, and its numbers, lengths in microns. */
void add_words(struct sheet *s, struct bytes text, const uint8_t *record);

/* Adds a record's fields as numbers: kind, code, `at`, owner (- for the library), name start, name length, x, y. */
void add_fields(struct sheet *s, const uint8_t *record);

/* ---- listing.c: the records and the tokens of a text. */
enum listing { FIELDS, WORDS };

/* Prints a sheet where it has grown large, and at the end, when it is given back. */
void flush(struct sheet *s, int is_last);

/* Whether all that was printed went out: DONE or FAILED. */
int printed(void);

int list_records(struct bytes text, struct bytes records, enum listing form);
int list_tokens(struct asked a);

/* ---- found.c: sites, macros and pins by their names. */

/* The index of a record file. */
struct refusal index_records(struct bytes text, struct bytes records, struct bytes *index);

/* A part of the text, of a list of names, or a word of the call. */
struct name {
    const uint8_t *at;
    size_t len;
};

struct name spelt(const char *word);

/* By bytes, a name before those that it begins: below, at or above nought. */
int ordered(struct name a, struct name b);

/* Adds words and a name behind them, as it can be shown. */
void add_named(struct sheet *s, const char *before, struct name name);

/* Adds a name as a field of an object of JSON, and the comma behind it. */
void add_field(struct sheet *s, const char *field, struct name name);

/* What is asked, which is a text and its reading, and the index of that. */
struct library {
    struct asked asked;
    struct bytes index;
};

/* The entries from the first on that does not come before the owner and the name. */
struct bytes entries_from(const struct library *l, uint32_t owner, struct name name);

/* The name of an entry, and the kind of its record. */
struct name name_of(const struct library *l, const uint8_t *entry);
uint32_t kind_of(const struct library *l, const uint8_t *entry);

/* Adds where the site, macro or pin with that `at` is, as a line or an object; the line is that of the `at`, all newlines counted. */
void add_found(struct sheet *s, const struct library *l, uint32_t at, uint64_t line);

/* Prints where the macros and sites of a name are, or the pins of a name in the macros of the other, if that is not NULL: DONE, or REFUSED after
 * it said that there is none. */
int find(const struct library *l, const char *word, const char *pin);

/* ---- many.c: a list of names, all looked up in one call. */

/* A list of names is read up to so many bytes, which the 32 bits of a query's start reach. */
#define LIST_LIMIT 1000000000u

/* Loads a list, a look-up a line: DONE, or FAILED after it said what is wrong with it. */
int load_list(const char *name, struct bytes *list);

/* Prints where each name of the list is, a line for each in turn: DONE, or REFUSED after it said how many were not found. */
int find_many(const struct library *l, struct bytes list);

/* ---- svg.c */

/* Draws the first macro of that name: 1, or 0 where the records have none. */
int draw(struct sheet *s, struct bytes text, struct bytes records, const char *macro);

#endif
