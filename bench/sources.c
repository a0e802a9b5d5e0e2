/* The locale sources that are measured: tables of many lines, and orders with much of one thing. */

#define _POSIX_C_SOURCE 200809L
#include <stdarg.h>
#include <stdio.h>
#include <stdlib.h>
#include <string.h>

#include "bench.h"

void *reserve(size_t size)
{
    void *memory = malloc(size);
    if (memory == NULL) {
        fputs("bench: out of memory\n", stderr);
        exit(2);
    }
    return memory;
}

void put(struct text *text, const char *form, ...)
{
    char piece[256];
    va_list words;
    va_start(words, form);
    size_t size = (size_t)vsnprintf(piece, sizeof piece, form, words);
    va_end(words);
    if (text->count + size + 1 > text->room) {
        text->room = 2 * text->room + sizeof piece;
        text->bytes = realloc(text->bytes, text->room);
        if (text->bytes == NULL) {
            fputs("bench: out of memory\n", stderr);
            exit(2);
        }
    }
    memcpy(text->bytes + text->count, piece, size + 1);
    text->count += size;
}

/* A character in UTF-8. */
static void put_utf8(struct text *text, uint32_t c)
{
    if (c < 0x80)
        put(text, "%c", c);
    else if (c < 0x800)
        put(text, "%c%c", 0xC0 | c >> 6, 0x80 | (c & 0x3F));
    else if (c < 0x10000)
        put(text, "%c%c%c", 0xE0 | c >> 12, 0x80 | (c >> 6 & 0x3F), 0x80 | (c & 0x3F));
    else
        put(text, "%c%c%c%c", 0xF0 | c >> 18, 0x80 | (c >> 12 & 0x3F), 0x80 | (c >> 6 & 0x3F), 0x80 | (c & 0x3F));
}

/* ---- Tables ---- */

/* Four symbols open the order: two accents, two cases. Six ignored characters follow, the letters a A to z Z, the elements ch and dzs, then
 * letters in groups of four (small, capital, accented small, accented capital), and after each 49 of them an element of two. */

static const uint32_t ignored[] = {0x2D, 0x2E, 0x20, 0x27, 0x2C, 0x3A};
static const uint32_t ranges[][2] = {{0xC0, 0xD6},     {0xD8, 0xF6},     {0xF8, 0x17F},    {0x391, 0x3A1},  {0x3A3, 0x3FE},
                                     {0x400, 0x47F},   {0x3400, 0x4DBF}, {0x4E00, 0x9FFF}, {0xE000, 0xF8FF}};

enum { SYMBOLS = 4, IGNORED = 6, LETTERS = 26 };

static void list_letters(uint32_t *letters, int count)
{
    int many = 0;
    for (size_t r = 0; r < sizeof ranges / sizeof *ranges; r++)
        for (uint32_t c = ranges[r][0]; c <= ranges[r][1] && many < count; c++)
            letters[many++] = c;
}

static void swap(uint32_t *numbers, int a, int b)
{
    uint32_t kept = numbers[a];
    numbers[a] = numbers[b];
    numbers[b] = kept;
}

static void set_order(uint32_t *numbers, int count, enum order order)
{
    for (int k = 0; order == FALLING && k < count / 2; k++)
        swap(numbers, k, count - 1 - k);
    for (int k = count - 1; order == SHUFFLED && k > 0; k--)
        swap(numbers, k, (int)random_below((uint32_t)k + 1));
}

int table_lines(struct line *lines, int count, enum order order)
{
    static uint32_t letters[MOST_LINES];
    int wanted = count - SYMBOLS, many = 0;
    for (int k = 0; k < IGNORED; k++)
        lines[many++] = (struct line){.chars = {ignored[k]}, .count = 1, .ignored = 1};
    for (int k = 0; k < LETTERS; k++) {
        lines[many] = (struct line){.chars = {'a' + (uint32_t)k}, .count = 1, .base = many};
        lines[many + 1] = (struct line){.chars = {'A' + (uint32_t)k}, .count = 1, .base = many, .capital = 1};
        many += 2;
    }
    lines[many] = (struct line){.chars = {'c', 'h'}, .count = 2, .base = many};
    many++;
    lines[many] = (struct line){.chars = {'d', 'z', 's'}, .count = 3, .base = many};
    many++;

    int singles = wanted - many - (wanted - many) / 50;
    list_letters(letters, singles);
    set_order(letters, singles, order);
    int base = 0;
    for (int taken = 0, k = 0; many < wanted; k++) {
        if (k % 50 == 49) {
            lines[many] = (struct line){.chars = {letters[taken - 8], letters[taken - 4]}, .count = 2, .base = many};
        } else {
            if (taken % 4 == 0)
                base = many;
            lines[many] = (struct line){
                .chars = {letters[taken]}, .count = 1, .base = base, .accent = taken % 4 / 2, .capital = taken % 2};
            taken++;
        }
        many++;
    }
    return many;
}

static void put_name(struct text *text, const struct line *lines, int k)
{
    if (lines[k].count == 1)
        put(text, "<U%04X>", lines[k].chars[0]);
    else
        put(text, "<e%d>", k);
}

static struct text table_text(const struct line *lines, int count, int backward)
{
    struct text text = {0};
    put(&text, "comment_char %%\nescape_char /\nLC_COLLATE\n");
    put(&text, "collating-symbol <A>\ncollating-symbol <B>\ncollating-symbol <L>\ncollating-symbol <C>\n");
    for (int k = 0; k < count; k++) {
        if (lines[k].count == 1)
            continue;
        put(&text, "collating-element <e%d> from \"", k);
        for (int i = 0; i < lines[k].count; i++)
            put(&text, "<U%04X>", lines[k].chars[i]);
        put(&text, "\"\n");
    }
    put(&text, "order_start forward;%s;forward\n<A>\n<B>\n<L>\n<C>\n", backward ? "backward" : "forward");
    for (int k = 0; k < count; k++) {
        put_name(&text, lines, k);
        if (lines[k].ignored) {
            put(&text, " IGNORE;IGNORE;IGNORE\n");
            continue;
        }
        put(&text, " ");
        put_name(&text, lines, lines[k].base);
        put(&text, ";%s;%s\n", lines[k].accent ? "<B>" : "<A>", lines[k].capital ? "<C>" : "<L>");
    }
    put(&text, "order_end\nEND LC_COLLATE\n");
    return text;
}

static struct text table_rules(const struct line *lines, int count, int backward)
{
    struct text rules = {0};
    put(&rules, "%s&[last tertiary ignorable]", backward ? "[backwards 2]" : "");
    for (int k = 0; k < IGNORED; k++)
        put(&rules, ignored[k] == 0x27 ? "=''" : "='%c'", ignored[k]);
    put(&rules, "&[last regular]");
    for (int k = IGNORED; k < count; k++) {
        if (lines[k].base == k)
            put(&rules, "<");
        else
            put(&rules, lines[k].accent != lines[k - 1].accent ? "<<" : "<<<");
        for (int i = 0; i < lines[k].count; i++)
            put_utf8(&rules, lines[k].chars[i]);
    }
    return rules;
}

struct source table_source(const char *name, int count, enum order order, int backward)
{
    static struct line lines[MOST_LINES];
    int many = table_lines(lines, count, order);
    return (struct source){name, table_text(lines, many, backward), table_rules(lines, many, backward)};
}

/* ---- Other orders ---- */

const char source_head[] = "comment_char %%\nescape_char /\nLC_COLLATE\n";
const char source_tail[] = "order_end\nEND LC_COLLATE\n";

struct source small_source(void)
{
    struct source source = {.name = "small"};
    put(&source.text, source_head);
    put(&source.text, "order_start forward\n<U0061>\n");
    put(&source.text, source_tail);
    return source;
}

/* Elements that share their first character. */
struct source elements_source(int count)
{
    struct source source = {.name = "elements"};
    uint32_t *seconds = reserve((size_t)count * sizeof *seconds);
    for (int k = 0; k < count; k++)
        seconds[k] = 0x4E00 + (uint32_t)k;
    set_order(seconds, count, SHUFFLED);
    put(&source.text, source_head);
    for (int k = 0; k < count; k++)
        put(&source.text, "collating-element <e%d> from \"<U4E00><U%04X>\"\n", k, seconds[k]);
    put(&source.text, "order_start forward\n<U4E00>\n");
    for (int k = 0; k < count; k++)
        put(&source.text, "<e%d>\n", k);
    put(&source.text, source_tail);
    free(seconds);
    return source;
}

/* Comments up to so many bytes. */
void put_comments(struct text *text, size_t size)
{
    while (text->count < size - 128)
        put(text, "%% a comment of the kind that says what the lines below it are for\n");
}

/* Comments up to the largest source. */
struct source comments_source(void)
{
    struct source source = {.name = "comments"};
    put(&source.text, source_head);
    put(&source.text, "order_start forward\n");
    put_comments(&source.text, MOST_SOURCE);
    put(&source.text, "<U0061>\n");
    put(&source.text, source_tail);
    return source;
}

/* One order line that is joined from pieces, up to the largest source. */
struct source joined_source(const char *piece)
{
    struct source source = {.name = "joined"};
    put(&source.text, source_head);
    put(&source.text, "order_start forward;forward\n<U0061> ");
    while (source.text.count < MOST_SOURCE - 64)
        put(&source.text, "%s", piece);
    put(&source.text, "<U0061>;<U0061>\n");
    put(&source.text, source_tail);
    return source;
}

/* Order lines each within so many conditionals, whose first branches are passed over, up to the most lines or the largest source. */
struct source conditionals_source(int depth)
{
    struct source source = {.name = "conditionals"};
    put(&source.text, source_head);
    put(&source.text, "order_start forward\n");
    for (uint32_t c = 0x3400; c < 0x3400 + MOST_LINES && source.text.count < MOST_SOURCE - 300; c++) {
        for (int k = 0; k < depth; k++)
            put(&source.text, "ifdef NONE\nelse\n");
        put(&source.text, "<U%04X>\n", c);
        for (int k = 0; k < depth; k++)
            put(&source.text, "endif\n");
    }
    put(&source.text, source_tail);
    return source;
}

/* Symbols, and an order line for each. */
void declared_and_ordered(struct text *text, int count, void (*put_symbol)(struct text *, int))
{
    put(text, source_head);
    for (int k = 0; k < count; k++) {
        put(text, "collating-symbol <");
        put_symbol(text, k);
        put(text, ">\n");
    }
    put(text, "order_start forward\n<U0061>\n");
    for (int k = 0; k < count; k++) {
        put(text, "<");
        put_symbol(text, k);
        put(text, ">\n");
    }
    put(text, source_tail);
}

/* 32 bytes, of which the last four count. */
static void put_late(struct text *text, int k)
{
    put(text, "nnnnnnnnnnnnnnnnnnnnnnnnnnnn%04d", k);
}

struct source names_source(int count)
{
    struct source source = {.name = "names"};
    declared_and_ordered(&source.text, count, put_late);
    return source;
}

/* A symbol whose name is joined from empty lines, over half of the largest source, and lines that name it. */
struct source joined_name_source(int count)
{
    struct source source = {.name = "joined_name"};
    put(&source.text, source_head);
    put(&source.text, "collating-symbol <");
    while (source.text.count < MOST_SOURCE / 2)
        put(&source.text, "/\n");
    put(&source.text, "X>\norder_start forward\n<X>\n");
    for (int k = 0; k < count; k++)
        put(&source.text, "<U%04X> <X>\n", 0x4E00 + k);
    put(&source.text, source_tail);
    return source;
}

/* ---- Files for localedef ---- */

static const char *const copied[][2] = {
    {"LC_CTYPE", "POSIX"}, {"LC_NUMERIC", "POSIX"}, {"LC_TIME", "POSIX"},     {"LC_MONETARY", "POSIX"},
    {"LC_MESSAGES", "POSIX"}, {"LC_PAPER", "i18n"}, {"LC_NAME", "i18n"},      {"LC_ADDRESS", "i18n"},
    {"LC_TELEPHONE", "i18n"}, {"LC_MEASUREMENT", "i18n"}, {"LC_IDENTIFICATION", "i18n"}};

static FILE *file_of(const char *folder, const char *name, const char *kind)
{
    char path[4096];
    snprintf(path, sizeof path, "%s/%s.%s", folder, name, kind);
    FILE *file = fopen(path, "w");
    if (file == NULL) {
        perror(path);
        exit(2);
    }
    return file;
}

static void write_charmap(FILE *file, const struct text *text)
{
    static char used[0x110000];
    memset(used, 0, sizeof used);
    memset(used, 1, 0x80);
    for (const char *at = text->bytes; (at = strstr(at, "<U")) != NULL; at += 2)
        used[strtoul(at + 2, NULL, 16) % sizeof used] = 1;
    fputs("<code_set_name> UTF-8\n<comment_char> %\n<escape_char> /\n<mb_cur_min> 1\n<mb_cur_max> 6\nCHARMAP\n", file);
    for (uint32_t c = 0; c < sizeof used; c++) {
        if (!used[c])
            continue;
        struct text bytes = {0};
        put_utf8(&bytes, c);
        fprintf(file, c < 0x10000 ? "<U%04X> " : "<U%08X> ", c);
        for (size_t k = 0; k < bytes.count; k++)
            fprintf(file, "/x%02x", (unsigned char)bytes.bytes[k]);
        fputs(" x\n", file);
        free(bytes.bytes);
    }
    fputs("END CHARMAP\n", file);
}

void write_source(const char *folder, const struct source *source)
{
    FILE *file = file_of(folder, source->name, "src");
    fwrite(source->text.bytes, 1, source->text.count, file);
    for (size_t k = 0; k < sizeof copied / sizeof *copied; k++)
        fprintf(file, "%s\ncopy \"%s\"\nEND %s\n", copied[k][0], copied[k][1], copied[k][0]);
    fclose(file);
    file = file_of(folder, source->name, "charmap");
    write_charmap(file, &source->text);
    fclose(file);
}
