/* zeharmeku.h: the C interface of Zeharmeku. docs/LINKING.md says how to link it, with examples.
 *
 * Two ways to call. Each operation is a function of the archive, which puts its answer into an array; and behind it a small function of
 * this header, zeharmeku_do_compile and so on, which makes that call and answers with a struct, whose members have names. Take the second.
 *
 * Every function answers for every input and always ends. None keeps anything from call to call: there is no global state and no
 * allocation, so any number of threads may call at once, each with areas of its own to write to; tables, charmap areas, strings and
 * sources that nobody writes to may be shared.
 *
 * Lent arrays. Each array is a pointer and the count of its elements (not of its bytes). The pointer is aligned for its type and never
 * null, also where the count is 0. An array that is not const overlaps no other array of the same call, and nothing else writes to any
 * array during a call. Nothing outside the counts given is read or written.
 *
 * Refusals. Every answer begins with its refusal, 0 for none: enum zeharmeku_refusal. In a refusal all else in the answer is 0, but for
 * the line of a source. Sources and charmaps test 1, then their lines in order (the lowest number of the first line that has one), then
 * 8, then 9. The directory tests 11, 16, 17, 12, 15, 13 in this order, each over all headings and all topics before the next. The others
 * test 11, 12, 14, 13 in this order, the first string before the second. A refused call leaves all arrays but the answer and the work
 * area as they were.
 *
 * The check. Every call on a table checks the whole table first, in time that grows with the table and not with the strings. So make keys
 * once: who sorts many strings calls zeharmeku_key once for each, and compares the keys by memcmp, without any call.
 *
 * A table in a file. A table is numbers of 32 bits in the machine's order of bytes: on x86-64 four bytes for each, the low one first. Keep
 * the size that compile answered, in this order, and nothing else is needed to read it back. Nothing of the file has to be trusted: what was
 * cut off, changed so that it is no table, or stored in the other order of bytes is refused by 11. Whether an accepted table is the one that
 * was meant, no check can know. Another version may store tables in another way, so keep the source too, and compile it again where the
 * version changes. */

#ifndef ZEHARMEKU_H
#define ZEHARMEKU_H

#include <stddef.h>
#include <stdint.h>

#ifdef __cplusplus
extern "C" {
#endif

/* ---- Version ---- */

#define ZEHARMEKU_VERSION_MAJOR 0
#define ZEHARMEKU_VERSION_MINOR 1
#define ZEHARMEKU_VERSION_PATCH 0
#define ZEHARMEKU_VERSION "0.1.0"

/* ---- Sizes, in elements of the array that is lent ---- */

/* The most bytes of a source or a charmap; the most characters of a string, and bytes to decode; the most headings of a page, and topics. */
#define ZEHARMEKU_SOURCE_MOST 1048576
#define ZEHARMEKU_STRING_MOST 4096
#define ZEHARMEKU_PAGE_MOST 1000

/* The work area for a source of so many bytes: with less, compile refuses by 1. */
#define ZEHARMEKU_WORK_AREA(bytes) ((size_t)(bytes) + 64)

/* A table area that is enough for every source of so many bytes. The table takes 16 + L + I x (6 + L) + W numbers of it, of L levels, I items
 * and W weights (docs/TABLE.md); numbers behind it are not read. */
#define ZEHARMEKU_TABLE_AREA(bytes) (6 * (size_t)(bytes) + 64)

/* A key area that is enough for every string of so many characters, by any table; and for every string: 1,060,880 bytes. */
#define ZEHARMEKU_KEY_AREA(characters) (259 * (size_t)(characters) + 16)
#define ZEHARMEKU_KEY_MOST ZEHARMEKU_KEY_AREA(ZEHARMEKU_STRING_MOST)

/* A charmap area; numbers behind it are not read. */
#define ZEHARMEKU_CHARMAP_AREA 512

/* The most stack, in bytes, that a call takes of its thread, whatever the input (docs/ANSWERS.md). Not counted is what the dynamic linker takes
 * where it binds memcpy or memset at their first call. */
#define ZEHARMEKU_STACK_COMPILE 81920
#define ZEHARMEKU_STACK_CHECK 1024
#define ZEHARMEKU_STACK_STEP 1024
#define ZEHARMEKU_STACK_COMPARE 34816
#define ZEHARMEKU_STACK_KEY 1024
#define ZEHARMEKU_STACK_DIRECTORY 22528
#define ZEHARMEKU_STACK_CHARMAP 4096
#define ZEHARMEKU_STACK_AREA 20480
#define ZEHARMEKU_STACK_DECODE 20480
#define ZEHARMEKU_STACK_ENCODE 40960

/* ---- Refusals; docs/REFUSALS.md explains each ---- */

enum zeharmeku_refusal {
    ZEHARMEKU_NONE = 0,
    ZEHARMEKU_TOO_LONG = 1,
    ZEHARMEKU_BAD_BYTE = 2,
    ZEHARMEKU_MALFORMED = 3,
    ZEHARMEKU_BAD_RULE = 4,
    ZEHARMEKU_TWICE = 5,
    ZEHARMEKU_UNKNOWN = 6,
    ZEHARMEKU_TOO_MANY = 7,
    ZEHARMEKU_UNRANKED = 8,
    ZEHARMEKU_SHORT_AREA = 9,
    ZEHARMEKU_BYTE_TWICE = 10,
    ZEHARMEKU_NOT_ACCEPTED = 11,
    ZEHARMEKU_BAD_STRING = 12,
    ZEHARMEKU_NO_ROOM = 13,
    ZEHARMEKU_NOT_MAPPED = 14,
    ZEHARMEKU_NOT_RISING = 15,
    ZEHARMEKU_NOT_PLAIN = 16,
    ZEHARMEKU_BAD_PART = 17
};

/* What a refusal means, in English. */
static inline const char *zeharmeku_refusal_text(uint64_t refusal)
{
    switch (refusal) {
    case ZEHARMEKU_NONE:
        return "none";
    case ZEHARMEKU_TOO_LONG:
        return "a source or charmap over 1,048,576 bytes, or a work area that is too short";
    case ZEHARMEKU_BAD_BYTE:
        return "a byte outside 20 to 7E hex, tab and LF, outside comments and passed-over lines";
    case ZEHARMEKU_MALFORMED:
        return "a malformed or misplaced line, a missing end or category, or an open conditional";
    case ZEHARMEKU_BAD_RULE:
        return "a rule unknown (a section name too), empty, repeated, or of both directions";
    case ZEHARMEKU_TWICE:
        return "a name declared twice or shaped as a character, two order lines for one item or symbol, two elements with the same characters, "
               "or a block that moves its own named line";
    case ZEHARMEKU_UNKNOWN:
        return "an undeclared name, a name or code that is no character where one must stand, or no line after which a block could stand";
    case ZEHARMEKU_TOO_MANY:
        return "too many levels, weights, operands, names, nested conditionals, toggles or lines, an element or a name of the wrong length, "
               "a charmap's byte past FF or a range backwards";
    case ZEHARMEKU_UNRANKED:
        return "a weight whose name has no order line";
    case ZEHARMEKU_SHORT_AREA:
        return "a table area that is too short, or a charmap area of less than 512 numbers";
    case ZEHARMEKU_BYTE_TWICE:
        return "a charmap's byte given twice";
    case ZEHARMEKU_NOT_ACCEPTED:
        return "a table or a charmap area that is not accepted";
    case ZEHARMEKU_BAD_STRING:
        return "a string, or bytes to decode, over 4,096, or a number in a string that is no character";
    case ZEHARMEKU_NO_ROOM:
        return "a key or text longer than the area lent, or a list too short for the topics";
    case ZEHARMEKU_NOT_MAPPED:
        return "a character or a byte that the charmap does not have";
    case ZEHARMEKU_NOT_RISING:
        return "a heading without a weight at level 1, or headings that do not rise there";
    case ZEHARMEKU_NOT_PLAIN:
        return "for a directory, a level 1 with a rule other than plain forward";
    case ZEHARMEKU_BAD_PART:
        return "over 1,000 headings or topics, or one that reaches outside the run";
    default:
        return "no refusal of this version";
    }
}

/* ---- The functions of the archive ----
 *
 * Each but zeharmeku_area and zeharmeku_directory, which return their refusal, puts a few numbers in front of the array `answer`, in the
 * order given, and leaves what lies behind them as it was. An array that is too short for them gets as many as it has room for: lend
 * one number to learn only the refusal. All else is done as if it were long enough. */

/* The LC_COLLATE of a locale source to its table, in front of the area.
 * Answers 3 numbers: refusal (1, 2 to 7, 8, 9), its line, from 1, 0 for the refusals 1 and 9, and how many numbers the table takes. The
 * area stays as it was behind the table. The work area may hold anything before the call; it is all zero after it, refused or not. */
void zeharmeku_compile(const uint8_t *source, size_t source_count,
                       uint32_t *area, size_t area_count,
                       uint32_t *work, size_t work_count,
                       uint64_t *answer, size_t answer_count);

/* Whether an area begins with an accepted table.
 * Answers 4 numbers: refusal (11), levels, items, and how many numbers the table takes. */
void zeharmeku_check(const uint32_t *table, size_t table_count,
                     uint64_t *answer, size_t answer_count);

/* The collating element that begins at a place of a string, the first place being 0. A string is characters, each one number: a code
 * point up to 10FFFF hex and none of D800 to DFFF.
 * Answers 3 numbers: refusal (11, 12), the place of its item in the table, from 1, and how many characters it takes; both are 0 at or
 * past the end of the string. */
void zeharmeku_step(const uint32_t *table, size_t table_count,
                    const uint32_t *string, size_t string_count,
                    size_t at,
                    uint64_t *answer, size_t answer_count);

/* How two strings stand to each other.
 * Answers 4 numbers: refusal (11, 12); the sign, which read as int64_t is -1 where a comes before b, 0 where they are equal, 1 where a
 * comes after b; the level that decides, from 1, L + 1 for the code points, 0 where they are equal; how many entries agreed before. */
void zeharmeku_compare(const uint32_t *table, size_t table_count,
                       const uint32_t *a, size_t a_count,
                       const uint32_t *b, size_t b_count,
                       uint64_t *answer, size_t answer_count);

/* The key of a string, in front of the area: two keys by the same table stand in the order of memcmp, a beginning before the longer, as
 * their strings do by zeharmeku_compare.
 * Answers 2 numbers: refusal (11, 12, 13), and how many bytes the key takes. The area stays as it was behind the key. */
void zeharmeku_key(const uint32_t *table, size_t table_count,
                   const uint32_t *string, size_t string_count,
                   uint8_t *area, size_t area_count,
                   uint64_t *answer, size_t answer_count);

/* Which heading of a page each of its topics belongs to, in front of the list: one number for each topic, in the order of the topics.
 * Headings and topics are parts of one run of characters, each part a start, from 0, and a length: start, length, start, length, .. The
 * counts are those of the arrays, as everywhere: headings_count is twice the number of headings. A last start with no length behind it
 * is not looked at. Parts may overlap; numbers of the run that lie in no part are not looked at.
 * The headings rise in their first weight at level 1. A topic belongs to the last one whose first weight there is not above the topic's
 * own; headings count from 1. A topic with no such weight, or before every heading, belongs to 0, the top of the page.
 * Returns the refusal (11, 16, 17, 12, 15, 13), 0 for none. The list stays as it was behind the topics. */
uint32_t zeharmeku_directory(const uint32_t *table, size_t table_count,
                             const uint32_t *run, size_t run_count,
                             const uint64_t *headings, size_t headings_count,
                             const uint64_t *topics, size_t topics_count,
                             uint32_t *list, size_t list_count);

/* A charmap's source to a charmap area: for each byte its code, 110000 hex for none; then for each byte 1 where it encodes its code.
 * Answers 2 numbers: refusal (1, 2, 3, 6, 7, 10, 9), and its line, from 1, 0 for the refusals 1 and 9. The area stays as it was behind
 * the 512 numbers. */
void zeharmeku_charmap(const uint8_t *source, size_t source_count,
                       uint32_t *area, size_t area_count,
                       uint64_t *answer, size_t answer_count);

/* Whether an area begins with an accepted charmap.
 * Returns the refusal, 0 or 11. */
uint32_t zeharmeku_area(const uint32_t *charmap, size_t charmap_count);

/* The characters of bytes by a charmap, in front of the area: one number for each byte.
 * Answers 2 numbers: refusal (11, 12, 14, 13), and how many were written. The area stays as it was behind them. */
void zeharmeku_decode(const uint32_t *charmap, size_t charmap_count,
                      const uint8_t *bytes, size_t bytes_count,
                      uint32_t *area, size_t area_count,
                      uint64_t *answer, size_t answer_count);

/* The bytes of a string by a charmap, in front of the area: one byte for each character.
 * Answers 2 numbers: refusal (11, 12, 14, 13), and how many were written. The area stays as it was behind them. */
void zeharmeku_encode(const uint32_t *charmap, size_t charmap_count,
                      const uint32_t *string, size_t string_count,
                      uint8_t *area, size_t area_count,
                      uint64_t *answer, size_t answer_count);

/* ---- The same with named answers ----
 *
 * zeharmeku_do_X makes the call of zeharmeku_X with the same arrays, and its answer is a zeharmeku_X_answer. */

typedef struct zeharmeku_compile_answer {
    enum zeharmeku_refusal refusal;
    size_t line; /* of the refusal, from 1; 0 for none */
    size_t size; /* of the table, in numbers */
} zeharmeku_compile_answer;

typedef struct zeharmeku_check_answer {
    enum zeharmeku_refusal refusal;
    size_t levels;
    size_t items;
    size_t size; /* of the table, in numbers */
} zeharmeku_check_answer;

typedef struct zeharmeku_step_answer {
    enum zeharmeku_refusal refusal;
    size_t place;  /* of the element's item, from 1; 0 at or past the end of the string */
    size_t length; /* of the element, in characters */
} zeharmeku_step_answer;

typedef struct zeharmeku_compare_answer {
    enum zeharmeku_refusal refusal;
    int sign;      /* -1: a comes before b; 0: they are equal; 1: a comes after b */
    size_t level;  /* that decides, from 1; L + 1: the code points; 0: they are equal */
    size_t agreed; /* entries */
} zeharmeku_compare_answer;

typedef struct zeharmeku_key_answer {
    enum zeharmeku_refusal refusal;
    size_t size; /* of the key, in bytes */
} zeharmeku_key_answer;

typedef struct zeharmeku_directory_answer {
    enum zeharmeku_refusal refusal;
    size_t size; /* of what is written in the list: one number for each topic */
} zeharmeku_directory_answer;

typedef struct zeharmeku_charmap_answer {
    enum zeharmeku_refusal refusal;
    size_t line; /* of the refusal, from 1; 0 for none */
} zeharmeku_charmap_answer;

typedef struct zeharmeku_area_answer {
    enum zeharmeku_refusal refusal;
} zeharmeku_area_answer;

typedef struct zeharmeku_decode_answer {
    enum zeharmeku_refusal refusal;
    size_t size; /* of the string, in characters */
} zeharmeku_decode_answer;

typedef struct zeharmeku_encode_answer {
    enum zeharmeku_refusal refusal;
    size_t size; /* of the text, in bytes */
} zeharmeku_encode_answer;

/* A heading or a topic: where it stands in the run, from 0. */
typedef struct zeharmeku_part {
    uint64_t start;
    uint64_t length;
} zeharmeku_part;

static inline zeharmeku_compile_answer zeharmeku_do_compile(const uint8_t *source, size_t source_count,
                                                            uint32_t *area, size_t area_count,
                                                            uint32_t *work, size_t work_count)
{
    uint64_t told[3];
    zeharmeku_compile_answer answer;
    zeharmeku_compile(source, source_count, area, area_count, work, work_count, told, 3);
    answer.refusal = (enum zeharmeku_refusal)told[0];
    answer.line = (size_t)told[1];
    answer.size = (size_t)told[2];
    return answer;
}

static inline zeharmeku_check_answer zeharmeku_do_check(const uint32_t *table, size_t table_count)
{
    uint64_t told[4];
    zeharmeku_check_answer answer;
    zeharmeku_check(table, table_count, told, 4);
    answer.refusal = (enum zeharmeku_refusal)told[0];
    answer.levels = (size_t)told[1];
    answer.items = (size_t)told[2];
    answer.size = (size_t)told[3];
    return answer;
}

static inline zeharmeku_step_answer zeharmeku_do_step(const uint32_t *table, size_t table_count,
                                                      const uint32_t *string, size_t string_count,
                                                      size_t at)
{
    uint64_t told[3];
    zeharmeku_step_answer answer;
    zeharmeku_step(table, table_count, string, string_count, at, told, 3);
    answer.refusal = (enum zeharmeku_refusal)told[0];
    answer.place = (size_t)told[1];
    answer.length = (size_t)told[2];
    return answer;
}

static inline zeharmeku_compare_answer zeharmeku_do_compare(const uint32_t *table, size_t table_count,
                                                            const uint32_t *a, size_t a_count,
                                                            const uint32_t *b, size_t b_count)
{
    uint64_t told[4];
    zeharmeku_compare_answer answer;
    zeharmeku_compare(table, table_count, a, a_count, b, b_count, told, 4);
    answer.refusal = (enum zeharmeku_refusal)told[0];
    answer.sign = told[1] > 1 ? -1 : (int)told[1];
    answer.level = (size_t)told[2];
    answer.agreed = (size_t)told[3];
    return answer;
}

static inline zeharmeku_key_answer zeharmeku_do_key(const uint32_t *table, size_t table_count,
                                                    const uint32_t *string, size_t string_count,
                                                    uint8_t *area, size_t area_count)
{
    uint64_t told[2];
    zeharmeku_key_answer answer;
    zeharmeku_key(table, table_count, string, string_count, area, area_count, told, 2);
    answer.refusal = (enum zeharmeku_refusal)told[0];
    answer.size = (size_t)told[1];
    return answer;
}

/* Here the counts of headings and topics are those of the parts. */
static inline zeharmeku_directory_answer zeharmeku_do_directory(const uint32_t *table, size_t table_count,
                                                                const uint32_t *run, size_t run_count,
                                                                const zeharmeku_part *headings, size_t headings_count,
                                                                const zeharmeku_part *topics, size_t topics_count,
                                                                uint32_t *list, size_t list_count)
{
    zeharmeku_directory_answer answer;
    answer.refusal = (enum zeharmeku_refusal)zeharmeku_directory(table, table_count, run, run_count,
                                                                 (const uint64_t *)headings, 2 * headings_count,
                                                                 (const uint64_t *)topics, 2 * topics_count,
                                                                 list, list_count);
    answer.size = answer.refusal == ZEHARMEKU_NONE ? topics_count : 0;
    return answer;
}

static inline zeharmeku_charmap_answer zeharmeku_do_charmap(const uint8_t *source, size_t source_count,
                                                            uint32_t *area, size_t area_count)
{
    uint64_t told[2];
    zeharmeku_charmap_answer answer;
    zeharmeku_charmap(source, source_count, area, area_count, told, 2);
    answer.refusal = (enum zeharmeku_refusal)told[0];
    answer.line = (size_t)told[1];
    return answer;
}

static inline zeharmeku_area_answer zeharmeku_do_area(const uint32_t *charmap, size_t charmap_count)
{
    zeharmeku_area_answer answer;
    answer.refusal = (enum zeharmeku_refusal)zeharmeku_area(charmap, charmap_count);
    return answer;
}

static inline zeharmeku_decode_answer zeharmeku_do_decode(const uint32_t *charmap, size_t charmap_count,
                                                          const uint8_t *bytes, size_t bytes_count,
                                                          uint32_t *area, size_t area_count)
{
    uint64_t told[2];
    zeharmeku_decode_answer answer;
    zeharmeku_decode(charmap, charmap_count, bytes, bytes_count, area, area_count, told, 2);
    answer.refusal = (enum zeharmeku_refusal)told[0];
    answer.size = (size_t)told[1];
    return answer;
}

static inline zeharmeku_encode_answer zeharmeku_do_encode(const uint32_t *charmap, size_t charmap_count,
                                                          const uint32_t *string, size_t string_count,
                                                          uint8_t *area, size_t area_count)
{
    uint64_t told[2];
    zeharmeku_encode_answer answer;
    zeharmeku_encode(charmap, charmap_count, string, string_count, area, area_count, told, 2);
    answer.refusal = (enum zeharmeku_refusal)told[0];
    answer.size = (size_t)told[1];
    return answer;
}

#ifdef __cplusplus
}
#endif

#endif
