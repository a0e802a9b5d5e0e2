/* The stack that each operation takes, against the header's numbers. Each call runs on a stack of its own that was painted before; how
 * far down the paint is gone is what the call took. The inputs are large: 32,767 lines, conditionals 8 deep, strings of 4,096 characters, 1,000 headings. For
 * each operation it prints both numbers. A line ends with `too much` where the call took more; the exit status is then 1.
 *
 * What is reserved and not written keeps its paint: stack.py counts that too. */
#define _DEFAULT_SOURCE
#include <stdarg.h>
#include <stdio.h>
#include <stdlib.h>
#include <string.h>
#include <sys/mman.h>
#include <ucontext.h>

#include "zeharmeku.h"

enum { STACK = 1 << 20, PAINT = 0xA5, LINES = 32767, LONGEST = ZEHARMEKU_STRING_MOST, PARTS = ZEHARMEKU_PAGE_MOST };

static char source[ZEHARMEKU_SOURCE_MOST + 1024], charmap_source[1 << 16];
static size_t source_length, charmap_length;
static uint32_t table[ZEHARMEKU_TABLE_AREA(ZEHARMEKU_SOURCE_MOST)], work[ZEHARMEKU_WORK_AREA(ZEHARMEKU_SOURCE_MOST)];
static uint32_t charmap[ZEHARMEKU_CHARMAP_AREA], one[LONGEST], other[LONGEST], decoded[LONGEST], list[PARTS];
static uint8_t key[ZEHARMEKU_KEY_MOST], bytes[LONGEST];
static zeharmeku_part headings[PARTS], topics[PARTS];
static size_t table_size;

/* ---- The inputs ---- */

/* Adds a text to another. */
static void put(char *text, size_t *length, size_t most, const char *form, ...)
{
    va_list rest;
    va_start(rest, form);
    *length += (size_t)vsnprintf(text + *length, most - *length, form, rest);
    va_end(rest);
}

#define SOURCE(...) put(source, &source_length, sizeof source, __VA_ARGS__)
#define CHARMAP(...) put(charmap_source, &charmap_length, sizeof charmap_source, __VA_ARGS__)

/* Chains of conditionals, one in the other. */
static void open_conditionals(int depth)
{
    for (int k = 0; k < depth; k++)
        SOURCE("ifdef OFF\nelif ON\n");
}

static void close_conditionals(int depth)
{
    for (int k = 0; k < depth; k++)
        SOURCE("else\nendif\n");
}

/* Characters in an order that is not that of their codes, those that are none passed over. */
static unsigned character_of(unsigned place)
{
    unsigned shuffled = (place * 7919u + 13u) % LINES + 1;
    return shuffled < 0xD800 ? shuffled : shuffled + 0x800;
}

static void write_source(void)
{
    SOURCE("LC_COLLATE\ndefine ON\ncollating-symbol <a>\ncollating-element <b> from \"<U0061><U0062><U0063><U0064>\"\n");
    SOURCE("order_start forward;backward;forward,position;backward,position;forward;forward;forward;forward\n");
    open_conditionals(8);
    SOURCE("<a>\n<b> \"<a><b>\";<b>;\"<a><a><a><a><a><a><a><a>\"\n");
    for (unsigned k = 0; k < LINES - 2; k++)
        SOURCE(k % 64 == 0 ? "<U%04X> ;\"<a><b><a>\"\n" : "<U%04X>\n", character_of(k));
    close_conditionals(8);
    SOURCE("order_end\n");
    open_conditionals(8);
    SOURCE("reorder-after <a>\n<b> <a>\n");
    for (unsigned k = 0; k < 1000; k++)
        SOURCE("<U%04X> ;\"<a><b><a>\"\n", character_of(k));
    SOURCE("reorder-end\n");
    close_conditionals(8);
    SOURCE("END LC_COLLATE\n");
}

static void write_charmap(void)
{
    CHARMAP("<code_set_name> X\n<comment_char> %%\n<escape_char> /\nCHARMAP\n");
    for (unsigned k = 0; k < 128; k++)
        CHARMAP("<U%04X> /x%02X\n", k + 1, k);
    CHARMAP("<U2500>..<U257F> /x80 %% comment\nEND CHARMAP\n");
}

static void fill_strings(void)
{
    for (size_t k = 0; k < LONGEST; k++) {
        one[k] = other[k] = k % 5 < 4 ? 'a' + (uint32_t)k % 5 : 0x3000 + (uint32_t)k;
        bytes[k] = (uint8_t)k;
    }
    other[LONGEST - 1]++;
}

/* Headings that rise: the characters in the order of their lines behind those that a block moved. */
static void fill_parts(uint32_t *run)
{
    for (size_t k = 0; k < PARTS; k++) {
        run[k] = character_of(2000 + (unsigned)k);
        headings[k].start = topics[k].start = k;
        headings[k].length = topics[k].length = 1;
    }
    topics[0].start = 0;
    topics[0].length = LONGEST;
}

/* ---- The calls ---- */

static uint64_t refusal;

static void do_nothing(void)
{
    refusal = 0;
}

static void do_compile(void)
{
    zeharmeku_compile_answer answer = zeharmeku_do_compile((const uint8_t *)source, source_length, table, sizeof table / sizeof table[0],
                                                           work, sizeof work / sizeof work[0]);
    refusal = answer.refusal;
    table_size = answer.size;
}

static void do_check(void)
{
    refusal = zeharmeku_do_check(table, table_size).refusal;
}

static void do_step(void)
{
    refusal = zeharmeku_do_step(table, table_size, one, LONGEST, 0).refusal;
}

static void do_compare(void)
{
    refusal = zeharmeku_do_compare(table, table_size, one, LONGEST, other, LONGEST).refusal;
}

static void do_key(void)
{
    refusal = zeharmeku_do_key(table, table_size, one, LONGEST, key, sizeof key).refusal;
}

static void do_directory(void)
{
    refusal = zeharmeku_do_directory(table, table_size, one, LONGEST, headings, PARTS, topics, PARTS, list, PARTS).refusal;
}

static void do_charmap(void)
{
    refusal = zeharmeku_do_charmap((const uint8_t *)charmap_source, charmap_length, charmap, ZEHARMEKU_CHARMAP_AREA).refusal;
}

static void do_area(void)
{
    refusal = zeharmeku_do_area(charmap, ZEHARMEKU_CHARMAP_AREA).refusal;
}

static void do_decode(void)
{
    refusal = zeharmeku_do_decode(charmap, ZEHARMEKU_CHARMAP_AREA, bytes, LONGEST, decoded, LONGEST).refusal;
}

static void do_encode(void)
{
    refusal = zeharmeku_do_encode(charmap, ZEHARMEKU_CHARMAP_AREA, decoded, LONGEST, bytes, LONGEST).refusal;
}

/* ---- The painted stack ---- */

static ucontext_t here, there;
static unsigned char *stack;

/* How many bytes of a painted stack a call takes, with those that its way here takes. */
static size_t taken(void (*call)(void))
{
    memset(stack, PAINT, STACK);
    getcontext(&there);
    there.uc_stack.ss_sp = stack;
    there.uc_stack.ss_size = STACK;
    there.uc_link = &here;
    makecontext(&there, call, 0);
    swapcontext(&here, &there);
    size_t left = 0;
    while (left < STACK && stack[left] == PAINT)
        left++;
    return STACK - left;
}

static const struct {
    const char *name;
    void (*call)(void);
    size_t published;
} operations[] = {
    {"compile", do_compile, ZEHARMEKU_STACK_COMPILE},       {"check", do_check, ZEHARMEKU_STACK_CHECK},
    {"step", do_step, ZEHARMEKU_STACK_STEP},                {"compare", do_compare, ZEHARMEKU_STACK_COMPARE},
    {"key", do_key, ZEHARMEKU_STACK_KEY},                   {"charmap", do_charmap, ZEHARMEKU_STACK_CHARMAP},
    {"area", do_area, ZEHARMEKU_STACK_AREA},                {"decode", do_decode, ZEHARMEKU_STACK_DECODE},
    {"encode", do_encode, ZEHARMEKU_STACK_ENCODE},          {"directory", do_directory, ZEHARMEKU_STACK_DIRECTORY},
};

int main(void)
{
    int failed = 0;
    stack = mmap(NULL, STACK, PROT_READ | PROT_WRITE, MAP_PRIVATE | MAP_ANONYMOUS, -1, 0);
    if (stack == MAP_FAILED) {
        perror("stack");
        return 2;
    }
    write_source();
    write_charmap();
    fill_strings();
    size_t way = taken(do_nothing);
    for (size_t k = 0; k < sizeof operations / sizeof operations[0]; k++) {
        if (operations[k].call == do_directory)
            fill_parts(one);
        size_t most = taken(operations[k].call) - way;
        int bad = refusal != 0 || most > operations[k].published;
        printf("%s: %zu of %zu", operations[k].name, most, operations[k].published);
        if (refusal != 0)
            printf(", refusal %u", (unsigned)refusal);
        printf("%s\n", bad ? ", too much" : "");
        failed |= bad;
    }
    return failed;
}
