/* Answers that are too short: each operation with an answer of 0 numbers, of 1, and so on, up to one more than it tells. Each answer lies between two
 * forbidden pages, its last byte right before one, then its first byte right behind one, so that a step beside it ends the program. What
 * it gets is the beginning of the whole answer, and what lies behind stays as it was. */
#define _DEFAULT_SOURCE
#include <stdio.h>
#include <stdlib.h>
#include <string.h>
#include <sys/mman.h>
#include <unistd.h>

#include "zeharmeku.h"

static const uint8_t source[] = "LC_COLLATE\norder_start\n<U0061>\n<U0062>\norder_end\nEND LC_COLLATE\n";
static const uint8_t charmap_source[] = "CHARMAP\n<U0061> \\x61\nEND CHARMAP\n";
static const uint32_t string[] = {'a', 'b'};

enum {
    SOURCE = sizeof source - 1,
    CHARMAP_SOURCE = sizeof charmap_source - 1,
    TABLE = ZEHARMEKU_TABLE_AREA(SOURCE),
    WORK = ZEHARMEKU_WORK_AREA(SOURCE),
    KEY = ZEHARMEKU_KEY_AREA(2),
    MOST_TOLD = 4
};

static const uint64_t UNTOUCHED = 0xA5A5A5A5A5A5A5A5u;

static uint32_t table[TABLE], work[WORK], charmap[ZEHARMEKU_CHARMAP_AREA], characters[2];
static uint8_t key[KEY], bytes[2];

/* The operations, granted; where `refused`, on sources, tables and areas that are none. */
static int refused;

static void compile(uint64_t *answer, size_t count)
{
    zeharmeku_compile(source, refused ? 30 : SOURCE, table, TABLE, work, WORK, answer, count);
}

static void check(uint64_t *answer, size_t count)
{
    zeharmeku_check(table, refused ? 0 : TABLE, answer, count);
}

static void step(uint64_t *answer, size_t count)
{
    zeharmeku_step(table, refused ? 0 : TABLE, string, 2, 1, answer, count);
}

static void compare(uint64_t *answer, size_t count)
{
    zeharmeku_compare(table, refused ? 0 : TABLE, string, 2, string + 1, 1, answer, count);
}

static void make_key(uint64_t *answer, size_t count)
{
    zeharmeku_key(table, TABLE, string, 2, key, refused ? 0 : KEY, answer, count);
}

static void read_charmap(uint64_t *answer, size_t count)
{
    zeharmeku_charmap(charmap_source, refused ? 10 : CHARMAP_SOURCE, charmap, ZEHARMEKU_CHARMAP_AREA, answer, count);
}

static void decode(uint64_t *answer, size_t count)
{
    static const uint8_t text[] = {'a', 'a'};
    zeharmeku_decode(charmap, ZEHARMEKU_CHARMAP_AREA, text, 2, characters, refused ? 1 : 2, answer, count);
}

static void encode(uint64_t *answer, size_t count)
{
    zeharmeku_encode(charmap, ZEHARMEKU_CHARMAP_AREA, string, refused ? 2 : 1, bytes, 2, answer, count);
}

static const struct {
    const char *name;
    size_t told;
    void (*call)(uint64_t *answer, size_t count);
} operations[] = {
    {"compile", 3, compile}, {"check", 4, check}, {"step", 3, step}, {"compare", 4, compare},
    {"key", 2, make_key}, {"charmap", 2, read_charmap}, {"decode", 2, decode}, {"encode", 2, encode},
};

/* One page that may be read and written, between two that may not. */
static unsigned char *page;
static size_t page_size;

static void make_pages(void)
{
    page_size = (size_t)sysconf(_SC_PAGESIZE);
    unsigned char *first = mmap(NULL, 3 * page_size, PROT_NONE, MAP_PRIVATE | MAP_ANONYMOUS, -1, 0);
    if (first == MAP_FAILED || mprotect(first + page_size, page_size, PROT_READ | PROT_WRITE) != 0) {
        perror("answers");
        exit(2);
    }
    page = first + page_size;
}

/* Whether an answer of `count` numbers at `at` gets the beginning of `whole`, and nothing else changes. */
static int good(size_t operation, const uint64_t *whole, uint64_t *at, size_t count)
{
    size_t told = count < operations[operation].told ? count : operations[operation].told;
    uint64_t *all = (uint64_t *)(void *)page;
    for (size_t k = 0; k < page_size / sizeof *all; k++)
        all[k] = UNTOUCHED;
    operations[operation].call(at, count);
    for (uint64_t *one = all; one < all + page_size / sizeof *all; one++) {
        uint64_t right = one >= at && one < at + told ? whole[one - at] : UNTOUCHED;
        if (*one != right)
            return 0;
    }
    return 1;
}

static int all_good(size_t operation)
{
    uint64_t whole[MOST_TOLD] = {0};
    operations[operation].call(whole, operations[operation].told);
    if ((whole[0] != 0) != refused)
        return 0;
    for (size_t count = 0; count <= operations[operation].told + 1; count++) {
        uint64_t *at_end = (uint64_t *)(void *)(page + page_size) - count, *at_start = (uint64_t *)(void *)page;
        if (!good(operation, whole, at_end, count) || !good(operation, whole, at_start, count))
            return 0;
    }
    return 1;
}

int main(void)
{
    int failed = 0;
    make_pages();
    for (refused = 0; refused <= 1; refused++)
        for (size_t k = 0; k < sizeof operations / sizeof operations[0]; k++) {
            int right = all_good(k);
            printf("%s, %s: %s\n", operations[k].name, refused ? "refused" : "granted", right ? "as it must be" : "NOT as it must be");
            failed |= !right;
        }
    return failed;
}
