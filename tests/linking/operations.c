/* Every operation by the header's functions with named answers, granted and refused. What it prints
 * stands in operations.txt, and operations.rs prints the same. */
#include <stdio.h>
#include <string.h>

#include "zeharmeku.h"

/* Source S of document 01, and a source with a mistake in its line 3. */
static const uint8_t source[] =
    "comment_char %\n"
    "escape_char /\n"
    "LC_COLLATE\n"
    "collating-symbol <LOW>\n"
    "collating-symbol <CAP>\n"
    "order_start forward;forward\n"
    "<LOW>\n"
    "<CAP>\n"
    "<U0061> <U0061>;<LOW>\n"
    "<U0041> <U0061>;<CAP>\n"
    "<U0062> <U0062>;<LOW>\n"
    "<U002D> IGNORE;IGNORE\n"
    "order_end\n"
    "END LC_COLLATE\n";
static const uint8_t wrong_source[] = "LC_COLLATE\norder_start\n<NEW>\n";

static const uint8_t charmap_source[] = "CHARMAP\n<U0041> \\x41\n<U0061>..<U0063> \\x61\nEND CHARMAP\n";
static const uint8_t wrong_charmap[] = "CHARMAP\n<A> \\x41\nEND CHARMAP\n";

enum {
    SOURCE = sizeof source - 1,
    WRONG_SOURCE = sizeof wrong_source - 1,
    CHARMAP_SOURCE = sizeof charmap_source - 1,
    WRONG_CHARMAP = sizeof wrong_charmap - 1,
    TABLE = ZEHARMEKU_TABLE_AREA(SOURCE),
    WORK = ZEHARMEKU_WORK_AREA(SOURCE),
    SIZE = 66,
    MOST = 8
};

static uint32_t table[TABLE], work[WORK], charmap[ZEHARMEKU_CHARMAP_AREA];

/* Prints a refusal, with a line where there is one; answers whether there was one. */
static int refused(const char *what, enum zeharmeku_refusal refusal, size_t line)
{
    if (refusal == ZEHARMEKU_NONE)
        return 0;
    printf("%s: line %zu, refusal %d: %s\n", what, line, (int)refusal, zeharmeku_refusal_text(refusal));
    return 1;
}

/* The characters of a text of ASCII. */
static size_t string_of(const char *text, uint32_t *string)
{
    size_t length = strlen(text);
    for (size_t k = 0; k < length; k++)
        string[k] = (unsigned char)text[k];
    return length;
}

static void compile(const char *what, const uint8_t *text, size_t count, size_t area_count, size_t work_count)
{
    zeharmeku_compile_answer answer = zeharmeku_do_compile(text, count, table, area_count, work, work_count);
    if (!refused(what, answer.refusal, answer.line))
        printf("%s: size %zu\n", what, answer.size);
}

static void check(const char *what, size_t count)
{
    zeharmeku_check_answer answer = zeharmeku_do_check(table, count);
    if (!refused(what, answer.refusal, 0))
        printf("%s: levels %zu, items %zu, size %zu\n", what, answer.levels, answer.items, answer.size);
}

static void step(const char *what, const char *text, size_t at, uint32_t first)
{
    uint32_t string[MOST];
    size_t length = string_of(text, string);
    string[0] = first;
    zeharmeku_step_answer answer = zeharmeku_do_step(table, SIZE, string, length, at);
    if (!refused(what, answer.refusal, 0))
        printf("%s: place %zu, length %zu\n", what, answer.place, answer.length);
}

static void compare(const char *what, size_t table_count, const char *one, const char *other)
{
    uint32_t a[MOST], b[MOST];
    size_t a_count = string_of(one, a), b_count = string_of(other, b);
    zeharmeku_compare_answer answer = zeharmeku_do_compare(table, table_count, a, a_count, b, b_count);
    if (!refused(what, answer.refusal, 0))
        printf("%s: sign %d, level %zu, agreed %zu\n", what, answer.sign, answer.level, answer.agreed);
}

static void key(const char *what, const char *text, size_t area_count)
{
    uint32_t string[MOST];
    uint8_t area[ZEHARMEKU_KEY_AREA(MOST)];
    size_t length = string_of(text, string);
    zeharmeku_key_answer answer = zeharmeku_do_key(table, SIZE, string, length, area, area_count);
    if (refused(what, answer.refusal, 0))
        return;
    printf("%s:", what);
    for (size_t k = 0; k < answer.size; k++)
        printf(" %u", area[k]);
    printf("\n");
}

/* A page of the headings a and b, or of b and a. */
static void directory(const char *what, size_t first, size_t second, size_t list_count)
{
    uint32_t run[MOST], list[MOST];
    size_t length = string_of("ab-A-z", run);
    const zeharmeku_part headings[] = {{first, 1}, {second, 1}};
    const zeharmeku_part topics[] = {{3, 1}, {4, 2}, {2, 1}};
    zeharmeku_directory_answer answer = zeharmeku_do_directory(table, SIZE, run, length, headings, 2, topics, 3, list, list_count);
    if (refused(what, answer.refusal, 0))
        return;
    printf("%s:", what);
    for (size_t k = 0; k < answer.size; k++)
        printf(" %u", (unsigned)list[k]);
    printf("\n");
}

static void read_charmap(const char *what, const uint8_t *text, size_t count)
{
    zeharmeku_charmap_answer answer = zeharmeku_do_charmap(text, count, charmap, ZEHARMEKU_CHARMAP_AREA);
    if (!refused(what, answer.refusal, answer.line))
        printf("%s: granted\n", what);
}

static void area(const char *what, size_t count)
{
    zeharmeku_area_answer answer = zeharmeku_do_area(charmap, count);
    if (!refused(what, answer.refusal, 0))
        printf("%s: granted\n", what);
}

static void decode(const char *what, const char *text, size_t area_count)
{
    uint32_t string[MOST];
    zeharmeku_decode_answer answer = zeharmeku_do_decode(charmap, ZEHARMEKU_CHARMAP_AREA, (const uint8_t *)text, strlen(text), string, area_count);
    if (refused(what, answer.refusal, 0))
        return;
    printf("%s:", what);
    for (size_t k = 0; k < answer.size; k++)
        printf(" %u", (unsigned)string[k]);
    printf("\n");
}

static void encode(const char *what, const char *text, size_t area_count)
{
    uint32_t string[MOST];
    uint8_t bytes[MOST];
    size_t length = string_of(text, string);
    zeharmeku_encode_answer answer = zeharmeku_do_encode(charmap, ZEHARMEKU_CHARMAP_AREA, string, length, bytes, area_count);
    if (refused(what, answer.refusal, 0))
        return;
    printf("%s:", what);
    for (size_t k = 0; k < answer.size; k++)
        printf(" %u", bytes[k]);
    printf("\n");
}

int main(void)
{
    compile("compile, work area too short", source, SOURCE, TABLE, WORK - 1);
    compile("compile, table area too short", source, SOURCE, SIZE - 1, WORK);
    compile("compile, a mistake", wrong_source, WRONG_SOURCE, TABLE, WORK);
    compile("compile", source, SOURCE, TABLE, WORK);
    check("check", TABLE);
    check("check, too short", SIZE - 1);
    step("step", "ab", 1, 'a');
    step("step, at the end", "ab", 2, 'a');
    step("step, no character", "ab", 1, 0xD800);
    compare("compare, less", SIZE, "a", "A");
    compare("compare, equal", SIZE, "aa", "aa");
    compare("compare, greater", SIZE, "ab", "Aa");
    compare("compare, no table", 0, "a", "A");
    key("key", "aA", ZEHARMEKU_KEY_AREA(2));
    key("key, area too short", "aA", 17);
    directory("directory", 0, 1, 3);
    directory("directory, not rising", 1, 0, 3);
    directory("directory, outside the run", 0, 6, 3);
    directory("directory, list too short", 0, 1, 2);
    read_charmap("charmap, a mistake", wrong_charmap, WRONG_CHARMAP);
    area("area, before", ZEHARMEKU_CHARMAP_AREA);
    read_charmap("charmap", charmap_source, CHARMAP_SOURCE);
    area("area", ZEHARMEKU_CHARMAP_AREA);
    decode("decode", "cab", 3);
    decode("decode, not in the charmap", "cabz", MOST);
    encode("encode", "Abba", MOST);
    encode("encode, area too short", "Abba", 3);
    for (uint64_t refusal = ZEHARMEKU_TOO_LONG; refusal <= ZEHARMEKU_BAD_PART; refusal++)
        printf("refusal %u: %s\n", (unsigned)refusal, zeharmeku_refusal_text(refusal));
    printf("sizes: %zu %zu %zu %zu %d %d %d %d\n", ZEHARMEKU_WORK_AREA(10), ZEHARMEKU_TABLE_AREA(10), ZEHARMEKU_KEY_AREA(10), ZEHARMEKU_KEY_MOST,
           ZEHARMEKU_CHARMAP_AREA, ZEHARMEKU_STRING_MOST, ZEHARMEKU_SOURCE_MOST, ZEHARMEKU_PAGE_MOST);
    printf("version: %s\n", ZEHARMEKU_VERSION);
    return 0;
}
