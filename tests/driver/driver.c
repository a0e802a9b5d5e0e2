/* The driver: answers the requests of ../reference/README.md through the product's C interface.
 *
 *   driver [guards | end | start]
 *
 * Every area that a call is lent is filled with a pattern, or with the request's numbers, before
 * the call. Afterwards all of it must be as before, save the result in front of the area that
 * receives it, and save the work area, which must be all zero. Where that fails the answer is
 * `touched`. A line that is no request is answered `bad request`.
 *
 * What lies beside an area is said by the argument. `guards`, or none: bytes with a pattern, which
 * must be as before too. `end` and `start`: forbidden pages on both sides, where one byte read or
 * written ends the program; the area's last byte stands right before such a page with `end`, its
 * first byte right behind one with `start`. `outside`, a request of no arguments, reads the byte
 * behind an area with `end` and the byte before one otherwise: a test of the forbidden pages. */

#define _DEFAULT_SOURCE
#include <errno.h>
#include <inttypes.h>
#include <stdio.h>
#include <stdlib.h>
#include <string.h>
#include <sys/mman.h>
#include <unistd.h>

#include "zeharmeku.h"

/* ---- Areas ---- */

enum { GUARD = 256, MOST_AREAS = 8, MOST_LENT = 1 << 26 };

/* `count` units of `unit` bytes each at `now`. They lie in `whole` bytes at `all` that may be read
 * and written; `before` is what those held. */
struct area {
    size_t count, unit;
    unsigned char *all, *before;
    size_t whole;
    void *now;
};

/* What lies beside an area. */
static enum { GUARDS, PAGE_AT_END, PAGE_AT_START } beside = GUARDS;

/* How many numbers more than needed an answer is lent; these must stay as they are. At a forbidden
 * page there are none, so that a step behind the answer ends the program. */
static size_t spare(void)
{
    return beside == GUARDS ? 2 : 0;
}

/* The areas of the request at hand. */
static struct area areas[MOST_AREAS];
static int area_count;

static void out_of_memory(void)
{
    fputs("driver: out of memory\n", stderr);
    exit(2);
}

static void *reserve(size_t size)
{
    void *memory = malloc(size == 0 ? 1 : size);
    if (memory == NULL)
        out_of_memory();
    return memory;
}

static size_t bytes_of(const struct area *area)
{
    return area->count * area->unit;
}

static void put_between_guards(struct area *area)
{
    area->whole = GUARD + bytes_of(area) + GUARD;
    area->all = reserve(area->whole);
    area->now = area->all + GUARD;
}

static size_t page_size(void)
{
    return (size_t)sysconf(_SC_PAGESIZE);
}

/* As many whole pages as the area needs, none for an empty one, between two forbidden pages. */
static void put_between_pages(struct area *area)
{
    size_t page = page_size();
    area->whole = (bytes_of(area) + page - 1) / page * page;
    unsigned char *first = mmap(NULL, page + area->whole + page, PROT_NONE,
                                MAP_PRIVATE | MAP_ANONYMOUS, -1, 0);
    if (first == MAP_FAILED)
        out_of_memory();
    area->all = first + page;
    if (area->whole != 0 && mprotect(area->all, area->whole, PROT_READ | PROT_WRITE) != 0)
        out_of_memory();
    area->now = beside == PAGE_AT_START ? area->all : area->all + area->whole - bytes_of(area);
}

/* A new area, filled with a pattern. */
static struct area *lend(size_t count, size_t unit)
{
    struct area *area = &areas[area_count++];
    area->count = count;
    area->unit = unit;
    area->before = NULL;
    if (beside == GUARDS)
        put_between_guards(area);
    else
        put_between_pages(area);
    for (size_t k = 0; k < area->whole; k++)
        area->all[k] = (unsigned char)(k * 37 + 165);
    return area;
}

static void release(struct area *area)
{
    if (beside == GUARDS)
        free(area->all);
    else
        munmap(area->all - page_size(), page_size() + area->whole + page_size());
    free(area->before);
}

static void release_all(void)
{
    for (int k = 0; k < area_count; k++)
        release(&areas[k]);
    area_count = 0;
}

/* Keeps what all areas hold just before the call. */
static void note_all(void)
{
    for (int k = 0; k < area_count; k++) {
        areas[k].before = reserve(areas[k].whole);
        memcpy(areas[k].before, areas[k].all, areas[k].whole);
    }
}

/* Whether an area and what may be read beside it are as before, its first `written` units not
 * looked at. */
static int kept_after(const struct area *area, size_t written)
{
    size_t front = (size_t)((unsigned char *)area->now - area->all);
    size_t from = front + written * area->unit;
    return memcmp(area->all, area->before, front) == 0
        && memcmp(area->all + from, area->before + from, area->whole - from) == 0;
}

/* Whether an area is all zero and what may be read beside it is as before. */
static int cleared(const struct area *area)
{
    const unsigned char *bytes = area->now;
    for (size_t k = 0; k < bytes_of(area); k++)
        if (bytes[k] != 0)
            return 0;
    return kept_after(area, area->count);
}

/* Whether all areas are as before, save the first `size` units of `result`, save the told numbers
 * of `answer`, and save `work`, which must be cleared. Each of the three may be NULL. */
static int only_written(const struct area *result, uint64_t size,
                        const struct area *answer, const struct area *work)
{
    for (int k = 0; k < area_count; k++) {
        const struct area *area = &areas[k];
        int good;
        if (area == work)
            good = cleared(area);
        else if (area == answer)
            good = kept_after(area, area->count - spare());
        else
            good = kept_after(area, area == result ? (size_t)size : 0);
        if (!good)
            return 0;
    }
    return 1;
}

/* ---- Requests ---- */

/* The part of the request that is not read yet, and whether all read so far was well formed. */
static char *rest;
static int well_formed;

static uint64_t read_number(void)
{
    while (*rest == ' ')
        rest++;
    if (*rest < '0' || *rest > '9') {
        well_formed = 0;
        return 0;
    }
    errno = 0;
    uint64_t number = strtoull(rest, &rest, 10);
    if (errno != 0)
        well_formed = 0;
    return number;
}

/* A length, or the size of an area to be lent. */
static size_t read_size(void)
{
    uint64_t size = read_number();
    if (size > MOST_LENT) {
        well_formed = 0;
        return 0;
    }
    return (size_t)size;
}

static struct area *read_numbers(void)
{
    struct area *area = lend(read_size(), sizeof(uint32_t));
    uint32_t *numbers = area->now;
    for (size_t k = 0; k < area->count; k++) {
        uint64_t number = read_number();
        if (number > UINT32_MAX)
            well_formed = 0;
        numbers[k] = (uint32_t)number;
    }
    return area;
}

static struct area *read_places(void)
{
    struct area *area = lend(read_size(), sizeof(uint64_t));
    uint64_t *numbers = area->now;
    for (size_t k = 0; k < area->count; k++)
        numbers[k] = read_number();
    return area;
}

static struct area *read_bytes(void)
{
    struct area *area = lend(read_size(), sizeof(uint8_t));
    uint8_t *bytes = area->now;
    for (size_t k = 0; k < area->count; k++) {
        uint64_t number = read_number();
        if (number > UINT8_MAX)
            well_formed = 0;
        bytes[k] = (uint8_t)number;
    }
    return area;
}

/* Whether the request was well formed and ends here; then the call may be made. */
static int ready(void)
{
    while (*rest == ' ')
        rest++;
    if (*rest != '\0' && *rest != '\n')
        well_formed = 0;
    if (!well_formed) {
        puts("bad request");
        return 0;
    }
    note_all();
    return 1;
}

/* ---- Answers ---- */

static void print_array(const struct area *area, uint64_t size)
{
    printf("%" PRIu64, size);
    for (size_t k = 0; k < size; k++)
        if (area->unit == sizeof(uint8_t))
            printf(" %u", ((const uint8_t *)area->now)[k]);
        else
            printf(" %" PRIu32, ((const uint32_t *)area->now)[k]);
    puts("");
}

/* `refusal ARRAY` or, with a line, `refusal line ARRAY`. */
static void print_result(const struct area *answer, const uint64_t *line,
                         const struct area *result, uint64_t size, const struct area *work)
{
    uint64_t refusal = *(const uint64_t *)answer->now;
    if (size > result->count
        || !only_written(result, refusal == 0 ? size : 0, answer, work)) {
        puts("touched");
        return;
    }
    printf("%" PRIu64 " ", refusal);
    if (line != NULL)
        printf("%" PRIu64 " ", *line);
    print_array(result, size);
}

/* ---- The product's calls: the only section that knows their form ----
 *
 * An answer is a few numbers of 64 bits in front of an array:
 *   check                refusal, levels, items, size
 *   step                 refusal, place, length
 *   compare              refusal, sign (-1, 0 or 1 in two's complement), level, agreed
 *   key, decode, encode  refusal, size
 *   compile              refusal, line, size
 *   charmap              refusal, line
 * Sizes count what was written to the area; a charmap's is always 512. area and directory return
 * their refusal; what a directory writes is a number for each topic. */

#define LENT(type, area) (type *)(area)->now, (area)->count
#define NUMBERS(area) LENT(const uint32_t, area)
#define BYTES(area) LENT(const uint8_t, area)
#define PLACES(area) LENT(const uint64_t, area)
#define ANSWER(area) LENT(uint64_t, area)

enum { CHARMAP_SIZE = 512 };

/* An area for an answer of `told` numbers. */
static struct area *lend_answer(size_t told)
{
    return lend(told + spare(), sizeof(uint64_t));
}

static void do_check(void)
{
    struct area *table = read_numbers();
    struct area *answer = lend_answer(4);
    if (!ready())
        return;
    zeharmeku_check(NUMBERS(table), ANSWER(answer));
    const uint64_t *said = answer->now;
    if (only_written(NULL, 0, answer, NULL))
        printf("%" PRIu64 " %" PRIu64 " %" PRIu64 " %" PRIu64 "\n",
               said[0], said[1], said[2], said[3]);
    else
        puts("touched");
}

static void do_area(void)
{
    struct area *given = read_numbers();
    if (!ready())
        return;
    uint32_t refusal = zeharmeku_area(NUMBERS(given));
    if (only_written(NULL, 0, NULL, NULL))
        printf("%" PRIu32 "\n", refusal);
    else
        puts("touched");
}

static void do_step(void)
{
    struct area *table = read_numbers(), *string = read_numbers();
    size_t at = (size_t)read_number();
    struct area *answer = lend_answer(3);
    if (!ready())
        return;
    zeharmeku_step(NUMBERS(table), NUMBERS(string), at, ANSWER(answer));
    const uint64_t *said = answer->now;
    if (only_written(NULL, 0, answer, NULL))
        printf("%" PRIu64 " %" PRIu64 " %" PRIu64 "\n", said[0], said[1], said[2]);
    else
        puts("touched");
}

static void do_compare(void)
{
    struct area *table = read_numbers(), *one = read_numbers(), *other = read_numbers();
    struct area *answer = lend_answer(4);
    if (!ready())
        return;
    zeharmeku_compare(NUMBERS(table), NUMBERS(one), NUMBERS(other), ANSWER(answer));
    const uint64_t *said = answer->now;
    if (only_written(NULL, 0, answer, NULL))
        printf("%" PRIu64 " %" PRId64 " %" PRIu64 " %" PRIu64 "\n",
               said[0], (int64_t)said[1], said[2], said[3]);
    else
        puts("touched");
}

static void do_key(void)
{
    struct area *table = read_numbers(), *string = read_numbers();
    struct area *result = lend(read_size(), sizeof(uint8_t));
    struct area *answer = lend_answer(2);
    if (!ready())
        return;
    zeharmeku_key(NUMBERS(table), NUMBERS(string), LENT(uint8_t, result), ANSWER(answer));
    const uint64_t *said = answer->now;
    print_result(answer, NULL, result, said[1], NULL);
}

static void do_compile(void)
{
    struct area *source = read_bytes();
    struct area *table = lend(read_size(), sizeof(uint32_t));
    struct area *work = lend(read_size(), sizeof(uint32_t));
    struct area *answer = lend_answer(3);
    if (!ready())
        return;
    zeharmeku_compile(BYTES(source), LENT(uint32_t, table), LENT(uint32_t, work),
                      ANSWER(answer));
    const uint64_t *said = answer->now;
    print_result(answer, &said[1], table, said[2], work);
}

static void do_charmap(void)
{
    struct area *source = read_bytes();
    struct area *map = lend(read_size(), sizeof(uint32_t));
    struct area *answer = lend_answer(2);
    if (!ready())
        return;
    zeharmeku_charmap(BYTES(source), LENT(uint32_t, map), ANSWER(answer));
    const uint64_t *said = answer->now;
    print_result(answer, &said[1], map, said[0] == 0 ? CHARMAP_SIZE : 0, NULL);
}

static void do_decode(void)
{
    struct area *map = read_numbers(), *bytes = read_bytes();
    struct area *result = lend(read_size(), sizeof(uint32_t));
    struct area *answer = lend_answer(2);
    if (!ready())
        return;
    zeharmeku_decode(NUMBERS(map), BYTES(bytes), LENT(uint32_t, result), ANSWER(answer));
    const uint64_t *said = answer->now;
    print_result(answer, NULL, result, said[1], NULL);
}

static void do_encode(void)
{
    struct area *map = read_numbers(), *string = read_numbers();
    struct area *result = lend(read_size(), sizeof(uint8_t));
    struct area *answer = lend_answer(2);
    if (!ready())
        return;
    zeharmeku_encode(NUMBERS(map), NUMBERS(string), LENT(uint8_t, result), ANSWER(answer));
    const uint64_t *said = answer->now;
    print_result(answer, NULL, result, said[1], NULL);
}

static void do_directory(void)
{
    struct area *table = read_numbers(), *run = read_numbers();
    struct area *headings = read_places(), *topics = read_places();
    struct area *list = lend(read_size(), sizeof(uint32_t));
    if (!ready())
        return;
    uint32_t refusal = zeharmeku_directory(NUMBERS(table), NUMBERS(run), PLACES(headings),
                                           PLACES(topics), LENT(uint32_t, list));
    size_t size = refusal == 0 ? topics->count / 2 : 0;
    if (size > list->count || !only_written(list, size, NULL, NULL)) {
        puts("touched");
        return;
    }
    printf("%" PRIu32 " ", refusal);
    print_array(list, size);
}

/* ---- The forbidden pages themselves ---- */

static void do_outside(void)
{
    struct area *area = lend(1, sizeof(uint32_t));
    const volatile unsigned char *bytes = area->now;
    if (ready())
        printf("read %d\n", beside == PAGE_AT_END ? bytes[sizeof(uint32_t)] : bytes[-1]);
}

/* ---- The loop over requests ---- */

static const struct {
    const char *name;
    void (*answer)(void);
} operations[] = {
    {"check", do_check},     {"step", do_step},       {"compare", do_compare},
    {"key", do_key},         {"compile", do_compile}, {"charmap", do_charmap},
    {"area", do_area},       {"decode", do_decode},   {"encode", do_encode},
    {"directory", do_directory}, {"outside", do_outside},
};

static void answer_request(char *line)
{
    size_t length = strcspn(line, " \n");
    for (size_t k = 0; k < sizeof operations / sizeof operations[0]; k++)
        if (strlen(operations[k].name) == length
            && strncmp(operations[k].name, line, length) == 0) {
            rest = line + length;
            well_formed = 1;
            operations[k].answer();
            release_all();
            return;
        }
    puts("bad request");
}

/* Whether the arguments are understood. */
static int read_arguments(int count, char **arguments)
{
    if (count > 2)
        return 0;
    if (count < 2 || strcmp(arguments[1], "guards") == 0)
        beside = GUARDS;
    else if (strcmp(arguments[1], "end") == 0)
        beside = PAGE_AT_END;
    else if (strcmp(arguments[1], "start") == 0)
        beside = PAGE_AT_START;
    else
        return 0;
    return 1;
}

int main(int count, char **arguments)
{
    if (!read_arguments(count, arguments)) {
        fputs("driver: the argument is guards, end or start\n", stderr);
        return 2;
    }
    char *line = NULL;
    size_t room = 0;
    while (getline(&line, &room, stdin) >= 0) {
        answer_request(line);
        fflush(stdout);
    }
    free(line);
    return 0;
}
