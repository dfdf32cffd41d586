/* LEF text as a record file: reading, checking, writing, looking up and finding by name.
 *
 * Every call returns the number of a refusal, or LEF_DONE, and leaves its other results behind the pointers given. A call that is
 * refused has changed no buffer. The numbers, places and lines are those of the table "The refusals" below.
 *
 * What a caller owes: each pointer to a buffer points to as many bytes as the length beside it says, and may be null where that length
 * is 0; each pointer to a number points to a uint64_t; a buffer or number that is written overlaps nothing else that is handed to the
 * same call. The calls keep no state and allocate nothing, so that any threads may call them at once.
 *
 * What a call costs stands with it: how often it passes over what it is lent. None takes more stack than its constant says.
 */
#ifndef LEF_H
#define LEF_H

#include <stddef.h>
#include <stdint.h>

#ifdef __cplusplus
extern "C" {
#endif

/* The version of this header and of the library, which `lef --version` and lef.pc say as well, and the same as one number: 10000 for
 * the first part, 100 for the second. LEF_VERSION, below, is a kind of record and says nothing of the library. */
#define LEF_H_VERSION "1.2.0"
#define LEF_H_NUMBER 10200

/* The longest text that is read, in bytes. */
#define LEF_TEXT_LIMIT 16777216u

/* A record: 36 bytes, little-endian, one after the other with no header. Where each field starts, and what it is; the functions
 * lef_record_.. read them. Fields that a kind does not use are 0.
 *
 * Lengths and places on the chip are in millionths of a micron: `SIZE 0.38 BY 1.4 ;` has x 380000 and y 1400000. Other numbers are in
 * millionths as well: VERSION 5.8 is 5800000.
 *
 * In a reading no two records have the same `at`. So the record that encloses another is the one whose `at` is the other's owner; it
 * stands before it, and in a file by rising `at`, as lef_read leaves it, it is found by bisection. */
#define LEF_RECORD_SIZE 36u
#define LEF_KIND 0u         /* 8 bits */
#define LEF_CODE 1u         /* 8 bits */
#define LEF_SPARE 2u        /* 16 bits, 0 */
#define LEF_AT 4u           /* 32 bits: where the statement's first token starts in the text */
#define LEF_OWNER 8u        /* 32 bits: `at` of the record that encloses it, or LEF_LIBRARY */
#define LEF_NAME_START 12u  /* 32 bits: where the name starts in the text */
#define LEF_NAME_LENGTH 16u /* 32 bits: how many bytes it has */
#define LEF_X 20u           /* 64 bits, two's complement: millionths, of a micron where it is a length */
#define LEF_Y 28u           /* the same */

/* The owner of a record that no other encloses. */
#define LEF_LIBRARY 4294967295u

/* An entry of an index: 16 bytes, little-endian, one after the other with no header. There is one for each record of kind LEF_SITE,
 * LEF_MACRO and LEF_PIN, and none for a macro's SITE statement. Where each field starts; the functions lef_entry_.. read them. Each is
 * that of the record.
 *
 * Entries stand by rising owner, those of the library last; of one owner by their names' bytes, in exact case, a name before those that
 * it begins; and of one name by rising `at`. */
#define LEF_ENTRY_SIZE 16u
#define LEF_ENTRY_OWNER 0u /* 32 bits, as all four */
#define LEF_ENTRY_NAME 4u  /* where the name starts in the text */
#define LEF_ENTRY_LEN 8u   /* how many bytes it has */
#define LEF_ENTRY_AT 12u

/* A query of lef_find_many: 12 bytes, little-endian, one after the other with no header: an owner, and a name as a part of the block of names
 * that is lent beside the queries. Where each field starts; lef_query_put writes a query. An answer is 4 bytes, little-endian: an `at`, or
 * LEF_NOWHERE; lef_answer_at reads it. */
#define LEF_QUERY_SIZE 12u
#define LEF_QUERY_OWNER 0u /* 32 bits, as all three */
#define LEF_QUERY_START 4u /* where the name starts in the block */
#define LEF_QUERY_LEN 8u   /* how many bytes it has */
#define LEF_ANSWER_SIZE 4u

/* What stands for the `at` of what is not found. It is LEF_LIBRARY as well, so ask whether something was found before you hand an `at` on as
 * the owner of what you look for next. */
#define LEF_NOWHERE 4294967295u

/* The number of n bytes, the lowest first. */
static inline uint64_t lef_number(const uint8_t *bytes, unsigned n) {
    uint64_t number = 0;
    while (n-- > 0)
        number = number << 8 | bytes[n];
    return number;
}

/* The number that 64 bits are in two's complement. */
static inline int64_t lef_signed(uint64_t word) {
    return word >> 63 == 0 ? (int64_t)word : -1 - (int64_t)~word;
}

/* The fields of the record that starts at a byte, wherever that lies: no alignment is asked, and nothing is cast. */
static inline uint32_t lef_record_kind(const uint8_t *record) {
    return record[LEF_KIND];
}
static inline uint32_t lef_record_code(const uint8_t *record) {
    return record[LEF_CODE];
}
static inline uint32_t lef_record_at(const uint8_t *record) {
    return (uint32_t)lef_number(record + LEF_AT, 4);
}
static inline uint32_t lef_record_owner(const uint8_t *record) {
    return (uint32_t)lef_number(record + LEF_OWNER, 4);
}
static inline uint32_t lef_record_name_start(const uint8_t *record) {
    return (uint32_t)lef_number(record + LEF_NAME_START, 4);
}
static inline uint32_t lef_record_name_length(const uint8_t *record) {
    return (uint32_t)lef_number(record + LEF_NAME_LENGTH, 4);
}
static inline int64_t lef_record_x(const uint8_t *record) {
    return lef_signed(lef_number(record + LEF_X, 8));
}
static inline int64_t lef_record_y(const uint8_t *record) {
    return lef_signed(lef_number(record + LEF_Y, 8));
}

/* The fields of the entry that starts at a byte, wherever that lies. */
static inline uint32_t lef_entry_owner(const uint8_t *entry) {
    return (uint32_t)lef_number(entry + LEF_ENTRY_OWNER, 4);
}
static inline uint32_t lef_entry_name_start(const uint8_t *entry) {
    return (uint32_t)lef_number(entry + LEF_ENTRY_NAME, 4);
}
static inline uint32_t lef_entry_name_length(const uint8_t *entry) {
    return (uint32_t)lef_number(entry + LEF_ENTRY_LEN, 4);
}
static inline uint32_t lef_entry_at(const uint8_t *entry) {
    return (uint32_t)lef_number(entry + LEF_ENTRY_AT, 4);
}

/* Writes four bytes, the lowest first. */
static inline void lef_put32(uint8_t *bytes, uint32_t number) {
    unsigned i;
    for (i = 0; i < 4; i++)
        bytes[i] = (uint8_t)(number >> 8 * i);
}

/* Writes the 12 bytes of a query. */
static inline void lef_query_put(uint8_t *query, uint32_t owner, uint32_t start, uint32_t len) {
    lef_put32(query + LEF_QUERY_OWNER, owner);
    lef_put32(query + LEF_QUERY_START, start);
    lef_put32(query + LEF_QUERY_LEN, len);
}

/* The answer that starts at a byte, wherever that lies. */
static inline uint32_t lef_answer_at(const uint8_t *answer) {
    return (uint32_t)lef_number(answer, 4);
}

/* The kinds of records, with the fields that they use beside `at` and owner. */
#define LEF_VERSION               1u   /* x */
#define LEF_BUSBITCHARS           2u   /* name: the two bytes between the quotes */
#define LEF_DIVIDERCHAR           3u   /* name: the byte between the quotes */
#define LEF_NAMESCASESENSITIVE    4u   /* code: 1 ON, 2 OFF */
#define LEF_NOWIREEXTENSIONATPIN  5u   /* code: 1 ON, 2 OFF */
#define LEF_UNITS                 6u
#define LEF_DATABASE_MICRONS      7u   /* x */
#define LEF_SITE                  8u   /* name */
#define LEF_SITE_CLASS            9u   /* code: 1 PAD, 2 CORE */
#define LEF_SYMMETRY              10u
#define LEF_SYMMETRY_WORD         11u  /* code: 1 X, 2 Y, 3 R90 */
#define LEF_SIZE                  12u  /* x, y */
#define LEF_MACRO                 13u  /* name */
#define LEF_MACRO_CLASS           14u  /* code: 1 to 26 */
#define LEF_MACRO_SITE            15u  /* name */
#define LEF_FOREIGN               16u  /* name; code 1: with the point x, y */
#define LEF_ORIGIN                17u  /* x, y */
#define LEF_PIN                   18u  /* name */
#define LEF_DIRECTION             19u  /* code: 1 INPUT, 2 OUTPUT, 3 OUTPUT TRISTATE, 4 INOUT, 5 FEEDTHRU */
#define LEF_USE                   20u  /* code: 1 SIGNAL, 2 ANALOG, 3 POWER, 4 GROUND, 5 CLOCK */
#define LEF_SHAPE                 21u  /* code: 1 ABUTMENT, 2 RING, 3 FEEDTHRU */
#define LEF_ANTENNAMODEL          22u  /* code: 1 to 4, OXIDE1 to OXIDE4 */
#define LEF_ANTENNA               23u  /* code: 1 to 9; x; name: the layer, if one is given */
#define LEF_PORT                  24u
#define LEF_PORT_CLASS            25u  /* code: 1 NONE, 2 CORE, 3 BUMP */
#define LEF_OBS                   26u
#define LEF_LAYER                 27u  /* name */
#define LEF_LAYER_OPTION          28u  /* code: 1 EXCEPTPGNET, 2 SPACING x, 3 DESIGNRULEWIDTH x */
#define LEF_WIDTH                 29u  /* x */
#define LEF_RECT                  30u
#define LEF_POLYGON               31u
#define LEF_PATH                  32u
#define LEF_POINT                 33u  /* x, y */
#define LEF_VIA                   34u  /* x, y, name */

/* The kinds of tokens. */
#define LEF_TOKEN_END 0u
#define LEF_TOKEN_NAME 1u
#define LEF_TOKEN_NUMBER 2u
#define LEF_TOKEN_SEMICOLON 3u
#define LEF_TOKEN_STRING 4u

/* The refusals, with the place that each gives. The line, from 3 to 10, is that of the place, counted from 1, newlines between quotes
 * not counted; else it is 0. The first in this order is given: 1, 2, the first of 3 to 10, then 13 for the records, 13 for the index, 13 for the
 * queries, 14, 15, 16, then 11 or 12. */
#define LEF_DONE                  0u   /* the count of records, bytes, entries or answers written; 0 where nothing is written */
#define LEF_TOO_LONG              1u   /* 0 */
#define LEF_NOT_ASCII             2u   /* the first byte above 127 */
#define LEF_NO_TOKEN              3u   /* the byte that starts no token */
#define LEF_WRONG_TOKEN           4u   /* from 4 to 10: the end of the token held ahead, or the text's length */
#define LEF_NOT_A_KEY             5u
#define LEF_NOT_ALLOWED           6u
#define LEF_OTHER_WORD            7u
#define LEF_NOT_SUPPORTED         8u
#define LEF_NOT_A_NUMERAL         9u
#define LEF_SITE_LACKS            10u
#define LEF_RECORD_ROOM           11u  /* the records needed, or the entries, or the answers */
#define LEF_TEXT_ROOM             12u  /* the bytes needed */
#define LEF_NOT_WHOLE             13u  /* the length of the record bytes, or of the index bytes, or of the query bytes */
#define LEF_WRONG_RECORD          14u  /* the index of the record that is foreign, or equal to an earlier one */
#define LEF_LACKING               15u  /* the `at` of the record that is lacking */
#define LEF_INDEX_DIFFERS         16u  /* the first position at which the index differs from the one that would be built; where one of
                                          the two begins the other, the count of entries of the shorter */

/* How many bytes of stack each call takes at most, on x86-64. */
#define LEF_READ_STACK 8192u
#define LEF_CHECK_STACK 655360u
#define LEF_WRITE_STACK 655360u
#define LEF_TOKEN_STACK 1024u
#define LEF_IN_FORCE_STACK 1024u
#define LEF_OWNERS_STACK 1024u
#define LEF_NAME_STACK 1024u
#define LEF_INDEX_STACK 655360u
#define LEF_INDEX_CHECK_STACK 655360u
#define LEF_FIND_STACK 655360u
#define LEF_FIND_MANY_STACK 655360u

/* Reads the text: its records, by rising `at`, from the front of the buffer; the rest of the buffer keeps its bytes. *place is the
 * count of records. 11 says how many there are where the buffer has no room for all of them: a buffer of length 0 counts them.
 * Passes over the text twice, once to count. */
uint64_t lef_read(const uint8_t *text, size_t text_len, uint8_t *records, size_t records_len, uint64_t *place, uint64_t *line);

/* Accepts the record file exactly where it holds the records of the reading, each once and no others, in any order.
 * Passes over text and file once where the file has the reading's order, and else over the text once more and over the file once for
 * each 16,384 records of the text. */
uint64_t lef_check(const uint8_t *text, size_t text_len, const uint8_t *records, size_t records_len, uint64_t *place, uint64_t *line);

/* Writes the records of a file that lef_check accepts as canonical text, from the front of `out`; the rest of `out` keeps its bytes.
 * *place is the count of bytes. 12 says how many there are where `out` has no room for all of them. That text may be longer than
 * LEF_TEXT_LIMIT, and is then written but not read back.
 * Checks, and then passes over the text twice, once to count. */
uint64_t lef_write(const uint8_t *text, size_t text_len, const uint8_t *records, size_t records_len, uint8_t *out, size_t out_len, uint64_t *place,
                   uint64_t *line);

/* The first token from the place `from` on: its kind (LEF_TOKEN_END: the end of the text), where it starts and the place after it.
 * A `from` past the text counts as its end. Lines are counted from 1 at `from`. Refused 1, 2 or 3.
 * Looks the whole text over for refusal 2, from its start, at each call: to have all tokens of a long text, lend it window by window. */
uint64_t lef_token(const uint8_t *text, size_t text_len, uint64_t from, uint64_t *kind, uint64_t *start, uint64_t *stop, uint64_t *place, uint64_t *line);

/* The index of the record in force: of those with the owner and the kind (and the code, for LEF_LAYER_OPTION, where 2 and 3 count as
 * one) the one with the greatest `at`, and of several with that `at`, which no reading has, the first in the file. UINT64_MAX where
 * there is none, on a refusal, and for the kinds that all count: LEF_SITE, LEF_SYMMETRY_WORD, LEF_MACRO, LEF_PIN, LEF_ANTENNA,
 * LEF_PORT, LEF_LAYER, LEF_RECT, LEF_POLYGON, LEF_PATH, LEF_POINT and LEF_VIA. Refused 13.
 * Passes over the whole file at each call: for many owners, pass over the file yourself once. */
uint64_t lef_in_force(const uint8_t *records, size_t records_len, uint64_t owner, uint64_t kind, uint64_t code, uint64_t *index, uint64_t *place, uint64_t *line);

/* How many owners the record at the index has, from the one that encloses it out to the library's; 0 for an index past the file. An
 * owner that is not below its record's `at`, or that no record has, ends the count; of several records with the owner's `at` the first
 * in the file is taken. Refused 13.
 * Passes over the file up to each owner at each call. */
uint64_t lef_owners(const uint8_t *records, size_t records_len, uint64_t index, uint64_t *count, uint64_t *place, uint64_t *line);

/* The name of the record at the index, as a part of the text: *len is 0 where it has none, for an index past the file, and where its
 * span reaches outside the text. Never refused. Takes the same time whatever it is lent. */
uint64_t lef_name(const uint8_t *text, size_t text_len, const uint8_t *records, size_t records_len, uint64_t index, uint64_t *start, uint64_t *len);

/* Builds the index of the records of a file that lef_check accepts, from the front of the buffer; the rest of the buffer keeps its bytes. It
 * is the same in whatever order the file has them. *place is the count of entries. 11 says how many there are where the buffer has no room for
 * all of them: a buffer of length 0 counts them.
 * Checks the records, and then passes over the file twice and sorts: n entries take some n log n steps, each of which compares two names. */
uint64_t lef_index(const uint8_t *text, size_t text_len, const uint8_t *records, size_t records_len, uint8_t *index, size_t index_len, uint64_t *place,
                   uint64_t *line);

/* Accepts an index exactly where it is the one that lef_index builds, byte by byte; else 16 says where they part.
 * Checks the records, passes over the index once, and looks up each entry of the records in it, which takes some n log n steps as well. Where
 * they part it passes over the file log n times more. */
uint64_t lef_index_check(const uint8_t *text, size_t text_len, const uint8_t *records, size_t records_len, const uint8_t *index, size_t index_len,
                         uint64_t *place, uint64_t *line);

/* The `at` of the SITE block, MACRO or PIN that has the owner and the name; of several the least. LEF_LIBRARY as the owner asks for sites and
 * macros, a macro's `at` for its pins. The name is any bytes, in exact case, and need not lie in the text; one of length 0 is the empty name.
 * LEF_NOWHERE where there is none, which is no refusal, for an owner above LEF_LIBRARY, and on a refusal.
 * Checks records and index as lef_index_check does, and then bisects: to find many, ask lef_find_many. */
uint64_t lef_find(const uint8_t *text, size_t text_len, const uint8_t *records, size_t records_len, const uint8_t *index, size_t index_len, uint64_t owner,
                  const uint8_t *name, size_t name_len, uint64_t *at, uint64_t *place, uint64_t *line);

/* As many look-ups as there are queries, in one call: from the front of `answers` the answer to each query in turn, which is what lef_find leaves
 * as `at` for its owner and its name; the rest of `answers` keeps its bytes. The names are any bytes. A name that reaches outside the block, in
 * whole or part, is the empty name, which nothing in a text has. *place is the count of answers. 11 says how many there are where `answers` has no
 * room for all of them, and comes last: lend LEF_ANSWER_SIZE bytes for each query.
 * Checks records and index once, as lef_index_check does, and then bisects for each query: some log n steps for n entries, each of which
 * compares two names. */
uint64_t lef_find_many(const uint8_t *text, size_t text_len, const uint8_t *records, size_t records_len, const uint8_t *index, size_t index_len,
                       const uint8_t *names, size_t names_len, const uint8_t *queries, size_t queries_len, uint8_t *answers, size_t answers_len,
                       uint64_t *place, uint64_t *line);

#ifdef __cplusplus
}
#endif

#endif
