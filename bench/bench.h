/* What the files of the benchmark share. `run` says what it measures. */

#ifndef BENCH_H
#define BENCH_H

#include <stddef.h>
#include <stdint.h>

/* ---- sources.c: locale sources, the same for all systems ---- */

/* Bytes that grow. */
struct text {
    char *bytes;
    size_t count, room;
};

/* The order of the characters over the lines of a table. */
enum order { RISING, FALLING, SHUFFLED };

/* An order line: its characters, the line that its first weight names, its accent and case, or IGNORE at all levels. */
struct line {
    uint32_t chars[3];
    int count, base, accent, capital, ignored;
};

/* A source under a name, and the rules by which ICU orders alike, empty where there are none. */
struct source {
    const char *name;
    struct text text, rules;
};

enum { MOST_LINES = 32000, MOST_SOURCE = 1048576 };

/* A table of so many lines and three levels, the second of them backward or not; its lines for whoever asks. */
struct source table_source(const char *name, int lines, enum order order, int backward);
int table_lines(struct line *lines, int count, enum order order);

/* The smallest source, and orders with much of one thing. */
struct source small_source(void);
struct source elements_source(int count);
struct source comments_source(void);
struct source joined_source(const char *piece);
struct source conditionals_source(int depth);
struct source names_source(int count);
struct source joined_name_source(int count);

/* How a source begins and ends, and parts of sources. */
extern const char source_head[], source_tail[];
void put(struct text *text, const char *form, ...);
void put_comments(struct text *text, size_t size);
void declared_and_ordered(struct text *text, int count, void (*put_symbol)(struct text *, int));

/* Writes NAME.src, with the categories that localedef asks for, and NAME.charmap, with ASCII and the characters that the source names. */
void write_source(const char *folder, const struct source *source);

/* ---- hostile.c: sources that are meant to be slow ---- */

/* A slow source, or its honest twin. */
enum kind { HOSTILE, HONEST };

/* Names with one hash. */
struct source colliding_source(int count);

/* Sources of up to so many bytes. */
struct source joined_toggle_source(size_t size, enum kind kind);
struct source other_toggle_source(size_t size, enum kind kind);
struct source alike_elements_source(size_t size, enum kind kind);
struct source joined_element_source(size_t size, enum kind kind);
struct source deepest_source(size_t size, enum kind kind);
struct source way_source(size_t size, enum kind kind);
struct source short_way_source(size_t size, enum kind kind);
struct source joined_symbol_source(size_t size, enum kind kind);
struct source joined_character_source(size_t size, enum kind kind);
struct source chained_source(size_t size, enum kind kind);

/* Charmaps. */
struct source entries_map(int count, size_t comment, enum kind kind);
struct source comments_map(size_t size);

/* ---- strings.c: pairs of strings, pages ---- */

enum { MOST_LENGTH = 4096, MOST_PAIRS = 8 };

/* A string as each system takes it. */
struct string {
    size_t count, bytes;
    uint32_t codes[MOST_LENGTH + 1];
    wchar_t *wide;     /* the same numbers, with a zero behind them */
    char utf8[4 * MOST_LENGTH + 1];
    uint16_t utf16[MOST_LENGTH + 1];
};

/* Where two strings differ, and in what. */
enum difference { FIRST, LAST, CASE_FIRST, CASE_LAST, IGNORABLE, DIFFERENCES };
extern const char *const difference_names[DIFFERENCES];

extern struct string first_strings[MOST_PAIRS], second_strings[MOST_PAIRS];

/* Makes pairs of this length, of ASCII letters or of letters from all over the table: how many. One character in eight is punctuation. */
int make_pairs(enum difference difference, int length, const struct line *lines, int count, int whole);

/* A page: so many headings and topics, parts of one run, each a start and a length. ICU takes the same parts of the run in UTF-16. */
enum { MOST_PARTS = 1000, MOST_TOPIC = 64, MOST_RUN = MOST_PARTS * (1 + MOST_TOPIC) };

struct page {
    size_t count; /* of the run */
    uint32_t run[MOST_RUN];
    uint16_t utf16[MOST_RUN];
    int headings, topics;
    uint64_t heading_parts[2 * MOST_PARTS], topic_parts[2 * MOST_PARTS];
};

extern struct page page;

/* What topics are made of: ASCII letters, under the table's first letters; letters from all over the table, under letters that are spread
 * evenly over it; or one ASCII letter behind punctuation. In the first two, one character in eight is punctuation, the first too. */
enum topic { ASCII, ALL, LATE, TOPICS };
extern const char *const topic_names[TOPICS];

/* Makes a page of so many headings and topics, which have this length. */
void make_page(int headings, int topics, int length, enum topic topic, const struct line *lines, int count);

/* A number below a bound, the same ones in every run. */
uint32_t random_below(uint32_t bound);

void *reserve(size_t size);

#endif
