/* The table area that the header publishes, against the sources whose tables are the largest for their length. For each it prints the bytes
 * of the source, the numbers of its table, and how many of these each byte gave. Where a table does not fit ZEHARMEKU_TABLE_AREA the line
 * ends with the refusal, and the exit status is 1. What it prints stands in docs/LINKING.md. */
#include <stdarg.h>
#include <stdio.h>
#include <stdlib.h>

#include "zeharmeku.h"

enum { MOST = ZEHARMEKU_SOURCE_MOST };

static char source[MOST + 1024];
static size_t length;
static int failed;

/* Adds a text to the source. */
static void put(const char *form, ...)
{
    va_list list;
    va_start(list, form);
    length += (size_t)vsnprintf(source + length, sizeof source - length, form, list);
    va_end(list);
}

static void begin(void)
{
    length = 0;
    put("LC_COLLATE\n");
}

static void start_order(int levels)
{
    put("order_start forward");
    for (int k = 1; k < levels; k++)
        put(";forward");
    put("\n");
}

static void end(void)
{
    put("order_end\nEND LC_COLLATE");
}

static void measure(const char *what)
{
    size_t area_count = ZEHARMEKU_TABLE_AREA(length), work_count = ZEHARMEKU_WORK_AREA(length);
    uint32_t *area = malloc(area_count * sizeof *area), *work = malloc(work_count * sizeof *work);
    if (area == NULL || work == NULL) {
        fputs("sizes: out of memory\n", stderr);
        exit(2);
    }
    zeharmeku_compile_answer made = zeharmeku_do_compile((const uint8_t *)source, length, area, area_count, work, work_count);
    printf("%-38s%9zu%9zu%9.3f", what, length, made.size, (double)made.size / (double)length);
    if (made.refusal != ZEHARMEKU_NONE) {
        printf(" line %zu: %s", made.line, zeharmeku_refusal_text(made.refusal));
        failed = 1;
    }
    printf("\n");
    free(area);
    free(work);
}

/* Characters in turn, those that are none passed over. */
static unsigned next_character(unsigned character)
{
    return character == 0xD7FF ? 0xE000 : character + 1;
}

/* Characters with all operands left out. */
static void bare(const char *what, int levels, int lines)
{
    begin();
    start_order(levels);
    unsigned character = 1;
    for (int k = 0; k < lines; k++, character = next_character(character))
        put("<U%04X>\n", character);
    end();
    measure(what);
}

/* Characters with operands that are empty: `;;`, which say the same and take bytes. */
static void empty_operands(const char *what)
{
    begin();
    start_order(8);
    unsigned character = 1;
    for (int k = 0; k < 32767; k++, character = next_character(character))
        put("<U%04X> ;;;;;;;\n", character);
    end();
    measure(what);
}

/* Characters with `quoted` levels of eight one-character names in quotes, the others left out, as many as fit. */
static void quoted(const char *what, int levels, int quoted_levels)
{
    begin();
    put("collating-symbol <a>\n");
    start_order(levels);
    put("<a>\n");
    unsigned character = 1;
    for (int k = 1; k < 32767 && length < MOST - 300; k++, character = next_character(character)) {
        put("<U%04X> ", character);
        for (int level = 0; level < quoted_levels; level++)
            put(level == 0 ? "\"<a><a><a><a><a><a><a><a>\"" : ";\"<a><a><a><a><a><a><a><a>\"");
        put("\n");
    }
    end();
    measure(what);
}

/* Elements with names of one or two characters, as many as there are of these, with all operands left out. */
static void elements(const char *what, int behind)
{
    static const char letters[] = "ABCDEFGHIJKLMNOPQRSTUVWXYZabcdefghijklmnopqrstuvwxyz0123456789";
    enum { LETTERS = sizeof letters - 1 };
    begin();
    if (behind) {
        start_order(8);
        put("<U0001>\norder_end\n");
    }
    unsigned character = 0x100;
    for (int one = 0; one < LETTERS; one++)
        for (int two = -1; two < LETTERS; two++)
            put("collating-element <%c%.*s> from \"<U0001><U%04X>\"\n", letters[one], two >= 0, &letters[two < 0 ? 0 : two], character++);
    if (behind)
        put("reorder-after <U0001>\n");
    else
        start_order(8);
    for (int one = 0; one < LETTERS; one++)
        for (int two = -1; two < LETTERS; two++)
            put("<%c%.*s>\n", letters[one], two >= 0, &letters[two < 0 ? 0 : two]);
    put(behind ? "reorder-end\nEND LC_COLLATE" : "order_end\nEND LC_COLLATE");
    measure(what);
}

/* UNDEFINED with a line of its own, and nothing else. */
static void stated(const char *what)
{
    begin();
    start_order(8);
    put("UNDEFINED\n");
    end();
    measure(what);
}

/* Lines that a block moves: they give no second item. */
static void moved(const char *what)
{
    begin();
    start_order(8);
    unsigned character = 1;
    for (int k = 0; k < 32767; k++, character = next_character(character))
        put("<U%04X>\n", character);
    put("order_end\nreorder-after <U0001>\n");
    character = 2;
    for (int k = 1; k < 32767; k++, character = next_character(character))
        put("<U%04X>\n", character);
    put("reorder-end\nEND LC_COLLATE");
    measure(what);
}

int main(void)
{
    printf("%-38s%9s%9s%9s\n", "source", "bytes", "numbers", "a byte");
    bare("one level, no line", 1, 0);
    bare("8 levels, no line", 8, 0);
    bare("8 levels, one character", 8, 1);
    bare("8 levels, 10 characters", 8, 10);
    bare("8 levels, 100 characters", 8, 100);
    bare("8 levels, 1,000 characters", 8, 1000);
    bare("8 levels, 32,767 characters", 8, 32767);
    bare("one level, 32,767 characters", 1, 32767);
    empty_operands("8 levels, empty operands");
    quoted("8 levels, one with 8 names in quotes", 8, 1);
    quoted("8 levels, all with 8 names in quotes", 8, 8);
    elements("8 levels, elements with short names", 0);
    elements("8 levels, elements of a block", 1);
    stated("8 levels, UNDEFINED stated");
    moved("8 levels, all lines in a block too");
    return failed;
}
