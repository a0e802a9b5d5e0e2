/* Sources that are meant to be slow. Each has an honest twin: as many bytes, in lines of the same kind, without what makes the other one slow. */

#include <stdio.h>
#include <stdlib.h>
#include <string.h>

#include "bench.h"

/* ---- Names and elements with one hash ---- */

/* The hash of a name (crates/text_names) or of the characters of an element (crates/work_subjects), from the hash of what stands before the last byte or
 * character. */
static uint32_t number_on(uint32_t before, uint32_t last)
{
    return (before * 10368889u + last) & 0xFFFFFF;
}

static uint32_t number_of(const char *name, int count)
{
    uint32_t number = 0;
    for (int i = 0; i < count; i++)
        number = number_on(number, (unsigned char)name[i]);
    return number;
}

/* The hash that all names and elements get which are to have one. */
enum { ONE = 1234567 };

enum { LETTERS = 58, PIECE = 4, PIECES = LETTERS * LETTERS * LETTERS * LETTERS };

/* Writes a number in letters from A to z. */
static void put_letters(char *at, int count, uint32_t k)
{
    for (int i = 0; i < count; i++, k /= LETTERS)
        at[i] = (char)('A' + k % LETTERS);
}

/* For each number one more than a piece of four letters that has it, 0 where there is none. */
static uint32_t *pieces;

static void find_pieces(void)
{
    char piece[PIECE];
    if (pieces != NULL)
        return;
    pieces = reserve(sizeof *pieces << 24);
    memset(pieces, 0, sizeof *pieces << 24);
    for (uint32_t k = 0; k < PIECES; k++) {
        put_letters(piece, PIECE, k);
        pieces[number_of(piece, PIECE)] = k + 1;
    }
}

/* Exchanges the last five letters of a name so that it gets a number: about every second letter has a piece that leads there. */
static void end_name(char *name, int count, uint32_t number)
{
    int end = count - PIECE;
    find_pieces();
    for (char letter = 'A'; letter <= 'z'; letter++) {
        name[end - 1] = letter;
        uint32_t before = number_of(name, end);
        for (int i = 0; i < PIECE; i++)
            before = number_on(before, 0);
        uint32_t piece = pieces[(number - before) & 0xFFFFFF];
        if (piece != 0) {
            put_letters(name + end, PIECE, piece - 1);
            return;
        }
    }
    fputs("bench: no name has the number\n", stderr);
    exit(2);
}

enum { MOST_NAME = 32 };

/* Name k of so many bytes, 8 at least: all have one hash, or hardly two have. */
static void make_name(char *name, int count, int k, enum kind kind)
{
    memset(name, 'n', (size_t)count);
    name[count] = 0;
    put_letters(name, 3, (uint32_t)k);
    if (kind == HOSTILE)
        end_name(name, count, ONE);
}

static void put_colliding(struct text *text, int k)
{
    char name[MOST_NAME + 1];
    make_name(name, MOST_NAME, k, HOSTILE);
    put(text, "%s", name);
}

struct source colliding_source(int count)
{
    struct source source = {.name = "colliding"};
    declared_and_ordered(&source.text, count, put_colliding);
    return source;
}

/* As many of a number as a source of this size has of the largest. */
static int part_of(size_t most, size_t size)
{
    return (int)(most * size / MOST_SOURCE);
}

/* ---- Weights ---- */

/* Begins an order of as many levels as there may be. */
static const char order_start[] = "order_start forward;forward;forward;forward;forward;forward;forward;forward\n";

/* Order lines up to so many bytes of source and its end, each with as many weights as there may be, all of one name. */
static void put_weights(struct text *text, size_t size, const char *name)
{
    size_t line = 64 * strlen(name) + 200;
    for (uint32_t c = 0x4E00; text->count + line < size; c++) {
        put(text, "<U%04X> ", c);
        for (int level = 0; level < 8; level++) {
            put(text, level == 0 ? "\"" : ";\"");
            for (int k = 0; k < 8; k++)
                put(text, "<%s>", name);
            put(text, "\"");
        }
        put(text, "\n");
    }
    put(text, source_tail);
}

static void put_symbol(struct text *text, const char *name)
{
    put(text, "collating-symbol <%s>\n", name);
}

/* 9,000 symbols at most whose names have one hash, and weights that name the first. */
struct source deepest_source(size_t size, enum kind kind)
{
    struct source source = {.name = "deepest"};
    char name[MOST_NAME + 1];
    int count = part_of(9000, size);
    put(&source.text, source_head);
    for (int k = 0; k < count; k++) {
        make_name(name, 8, k, kind);
        put_symbol(&source.text, name);
    }
    make_name(name, 8, 0, kind);
    put(&source.text, "%s<%s>\n", order_start, name);
    put_weights(&source.text, size, name);
    return source;
}

/* ---- Ways ---- */

/* There are as many chains as a source has eights of bytes, and one more, so the sources of this part have exactly the size that they are made for. */
static uint32_t chains_of(size_t size)
{
    return (uint32_t)(size / 8 + 1);
}

static void fill_up(struct text *text, size_t size)
{
    while (text->count < size)
        put(text, "\n");
}

/* A number below another, the same in every run. */
static uint32_t draw(uint32_t below)
{
    static uint64_t state = 1;
    state = state * 6364136223846793005u + 1442695040888963407u;
    return (uint32_t)((state >> 33) % below);
}

static char draw_letter(void)
{
    return (char)('A' + draw(LETTERS));
}

static const char aim[MOST_NAME + 1] = "ThisNameIsTheOneThatAllWeightsDo";

enum { SIX = 24, LOW = 8 };

/* Whether a byte shares so many of its lowest bits, seven at most, with that of the name aimed at. */
static int shares(char letter, int at, int bits)
{
    int mask = bits <= 0 ? 0 : bits >= 7 ? 127 : (1 << bits) - 1;
    return ((letter ^ aim[at]) & mask) == 0;
}

/* The names that are found, the one aimed at first. */
static char on_the_way[8 * MOST_NAME][MOST_NAME + 1];

static int is_new(const char *name, int count)
{
    for (int i = 0; i < count; i++)
        if (strcmp(on_the_way[i], name) == 0)
            return 0;
    return 1;
}

/* Finds one name more, in the chain of the one aimed at, that goes its way for as many bits as there are names before it: whether there is one. The first six
 * of a name's numbers hold its first 24 bytes and, but for the four highest bits of the last one, its last four; so only the seventh tells these names apart. */
static int find_on_the_way(int count, uint32_t chains)
{
    char *name = on_the_way[count];
    uint32_t chain = number_of(aim, MOST_NAME) % chains;
    int bits = count - 1;
    memcpy(name, aim, sizeof aim);
    for (int tries = 0; tries < 300000; tries++) {
        for (int i = 0; i < 4; i++)
            do
                name[SIX + i] = draw_letter();
            while (!shares(name[SIX + i], SIX + i, bits - 8 * SIX - 7 * i));
        uint32_t before = number_of(name, MOST_NAME - 1);
        for (char last = 'A'; last <= 'z'; last++)
            if ((last ^ aim[MOST_NAME - 1]) % LOW == 0 && number_on(before, (uint32_t)last) % chains == chain) {
                name[MOST_NAME - 1] = last;
                if (is_new(name, count))
                    return 1;
            }
    }
    return 0;
}

static void turn_round(char *name, int count)
{
    for (int i = 0; i < count / 2; i++) {
        char letter = name[i];
        name[i] = name[count - 1 - i];
        name[count - 1 - i] = letter;
    }
}

/* Names that stand one deeper each on the way to the one that all weights have, so many as can be found. */
struct source way_source(size_t size, enum kind kind)
{
    struct source source = {.name = "way"};
    memcpy(on_the_way[0], aim, sizeof aim);
    put(&source.text, source_head);
    for (int count = 1; count < 8 * MOST_NAME && find_on_the_way(count, chains_of(size)); count++) {
        char name[MOST_NAME + 1];
        memcpy(name, on_the_way[count], sizeof name);
        if (kind == HONEST)
            turn_round(name, MOST_NAME);
        put_symbol(&source.text, name);
    }
    put_symbol(&source.text, aim);
    put(&source.text, "%s<%s>\n", order_start, aim);
    put_weights(&source.text, size, aim);
    fill_up(&source.text, size);
    return source;
}

static int is_character(uint32_t c)
{
    return 0 < c && c <= 0x10FFFF && (c < 0xD800 || 0xDFFF < c);
}

/* How many names, and then elements, can stand on the way of a name of one byte: names begin with it and `@`, whose lowest six bits are 0; elements begin with
 * the character whose number is the byte, and the lowest bits of the number of the next are 0. */
enum { NAMES_ON_SHORT = 14, ON_SHORT = 53 };

/* A name of eight bytes in the chain of the byte. */
static void put_beginning_with(struct text *text, char byte, uint32_t chains, enum kind kind)
{
    char name[9] = {byte, '@'};
    do
        for (int i = 2; i < 8; i++)
            name[i] = draw_letter();
    while (number_of(name, 8) % chains != (uint32_t)byte % chains);
    if (kind == HONEST)
        turn_round(name, 8);
    put_symbol(text, name);
}

/* An element in the chain of the byte; the number of its second character has so many lowest bits that are 0. In the twin the first is another one. */
static void put_element_on(struct text *text, int k, char byte, int bits, uint32_t chains, enum kind kind)
{
    uint32_t first = (uint32_t)byte - 1, second, third, last;
    do {
        second = (1 + draw(0x10FFFFu >> bits)) << bits;
        second--;
        third = 0xE000 + draw(0x100000);
        uint32_t before = number_on(number_on(number_on(number_on(0, first), second), third), 0);
        uint32_t wanted = draw(0x1000000 / chains) * chains + (uint32_t)byte % chains;
        last = (wanted - before) & 0xFFFFFF;
    } while (!is_character(second) || !is_character(last));
    put(text, "collating-element <e%d> from \"<U%08X><U%08X><U%08X><U%08X>\"\n", k, kind == HONEST ? first + 1 + (uint32_t)k : first, second, third, last);
}

/* The deepest way of a name of one byte, and as many weights that name it as there can be. */
struct source short_way_source(size_t size, enum kind kind)
{
    struct source source = {.name = "short_way"};
    static const char name[] = "U";
    put(&source.text, source_head);
    for (int k = 0; k < NAMES_ON_SHORT; k++)
        put_beginning_with(&source.text, name[0], chains_of(size), kind);
    for (int k = NAMES_ON_SHORT; k < ON_SHORT; k++)
        put_element_on(&source.text, k, name[0], k < 32 ? 0 : k - 32, chains_of(size), kind);
    put_symbol(&source.text, name);
    put(&source.text, "%s<%s>\n", order_start, name);
    put_weights(&source.text, size, name);
    fill_up(&source.text, size);
    return source;
}

/* ---- Joins ---- */

/* The end of a word, a name or quotes, with joins before it up to so many bytes of source; in the twin they stand behind it. */
static void put_joined(struct text *text, size_t size, const char *end, enum kind kind)
{
    if (kind == HONEST)
        put(text, "%s ", end);
    while (text->count < size)
        put(text, "/\n");
    put(text, "%s\n", kind == HONEST ? "" : end);
}

/* A symbol that is joined over half of the source, and weights that name it. */
struct source joined_symbol_source(size_t size, enum kind kind)
{
    struct source source = {.name = "joined_symbol"};
    put(&source.text, source_head);
    put(&source.text, "collating-symbol <");
    put_joined(&source.text, size / 2, "X>", kind);
    put(&source.text, "%s<X>\n", order_start);
    put_weights(&source.text, size, "X");
    return source;
}

/* A character that is joined over half of the source on its order line, and weights that name it. */
struct source joined_character_source(size_t size, enum kind kind)
{
    struct source source = {.name = "joined_character"};
    put(&source.text, source_head);
    put(&source.text, "%s<U00", order_start);
    put_joined(&source.text, size / 2, "41>", kind);
    put_weights(&source.text, size, "U0041");
    return source;
}

/* A toggle that is joined over half of the source, another that begins alike, and conditionals that name one of the two. */
static struct source toggle_source(size_t size, const char *named, enum kind kind)
{
    struct source source = {.name = "toggle"};
    put(&source.text, source_head);
    put(&source.text, "define T");
    put_joined(&source.text, size / 2, "X", kind);
    put(&source.text, "define TY\norder_start forward\n<U0061>\n");
    while (source.text.count < size - 64)
        put(&source.text, "ifdef %s\nendif\n", named);
    put(&source.text, source_tail);
    return source;
}

struct source joined_toggle_source(size_t size, enum kind kind)
{
    return toggle_source(size, "TX", kind);
}

struct source other_toggle_source(size_t size, enum kind kind)
{
    return toggle_source(size, "TY", kind);
}

/* ---- Elements ---- */

enum { FIRST_CHARACTER = 0x3400, CHARACTERS = 0x9FFF - FIRST_CHARACTER + 1 };

/* The characters of the next element: all have one hash, or hardly two have. `place` says how many were tried. */
static void next_element(uint32_t *place, uint32_t chars[3], enum kind kind)
{
    do {
        chars[0] = FIRST_CHARACTER + *place / CHARACTERS;
        chars[1] = FIRST_CHARACTER + *place % CHARACTERS;
        chars[2] = FIRST_CHARACTER;
        uint32_t before = number_on(number_on(0, chars[0]), chars[1]);
        if (kind == HOSTILE)
            chars[2] = (ONE - number_on(before, 0)) & 0xFFFFFF;
        ++*place;
    } while (chars[2] < FIRST_CHARACTER || chars[2] >= FIRST_CHARACTER + CHARACTERS);
}

/* 8,000 elements at most whose characters have one hash; those of the first are joined up to so many bytes of source. */
static struct source element_source(size_t size, size_t joined, enum kind kind)
{
    struct source source = {.name = "element"};
    uint32_t place = 0, chars[3];
    int count = part_of(8000, size);
    put(&source.text, source_head);
    for (int k = 0; k < count; k++) {
        char end[64];
        next_element(&place, chars, kind);
        put(&source.text, "collating-element <e%d> from \"", k);
        snprintf(end, sizeof end, "<U%04X><U%04X><U%04X>\"", chars[0], chars[1], chars[2]);
        put_joined(&source.text, k == 0 ? joined : 0, end, kind);
    }
    put(&source.text, "order_start forward\n");
    for (int k = 0; k < count; k++)
        put(&source.text, "<e%d>\n", k);
    put(&source.text, source_tail);
    return source;
}

struct source alike_elements_source(size_t size, enum kind kind)
{
    return element_source(size, 0, kind);
}

struct source joined_element_source(size_t size, enum kind kind)
{
    return element_source(size, size / 2, kind);
}

/* ---- Characters ---- */

/* A source of this size, whose characters stand in as few chains as their codes allow; each has a weight that names the first of its chain.
 * How many chains there are follows from the size, so a comment fills it up. */
struct source chained_source(size_t size, enum kind kind)
{
    struct source source = {.name = "chained"};
    uint32_t chains = (uint32_t)size / 8 + 1, first = 0xE000, each = (0x10F000 - first) / chains;
    put(&source.text, source_head);
    put(&source.text, "order_start forward\n");
    for (uint32_t k = 0; k < MOST_LINES && source.text.count < size - 64; k++) {
        uint32_t c = first + (kind == HOSTILE ? k / each + k % each * chains : k);
        put(&source.text, "<U%08X> <U%08X>\n", c, first + (kind == HOSTILE ? k / each : k));
    }
    put(&source.text, "%%");
    while (source.text.count + 1 + strlen(source_tail) < size)
        put(&source.text, "x");
    put(&source.text, "\n%s", source_tail);
    return source;
}

/* ---- Charmaps ---- */

static const char map_head[] = "<comment_char> %%\n<escape_char> /\nCHARMAP\n";
static const char map_tail[] = "END CHARMAP\n";

/* Entries, each with a comment behind it of so many bytes; a slow one ends with an escape, as if the next line were joined to it. */
struct source entries_map(int count, size_t comment, enum kind kind)
{
    struct source source = {.name = "entries"};
    put(&source.text, map_head);
    for (int k = 0; k < count; k++) {
        size_t end = source.text.count + comment;
        put(&source.text, "<U%04X> /x%02X ", k, k);
        while (source.text.count < end)
            put(&source.text, "x");
        put(&source.text, kind == HOSTILE ? "/\n" : "\n");
    }
    put(&source.text, map_tail);
    return source;
}

struct source comments_map(size_t size)
{
    struct source source = {.name = "comments"};
    put(&source.text, map_head);
    put_comments(&source.text, size);
    put(&source.text, map_tail);
    return source;
}
