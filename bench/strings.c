/* Pairs of strings that differ in one place, and pages of topics under headings. */

#include <stdlib.h>
#include <string.h>
#include <wchar.h>

#include "bench.h"

const char *const difference_names[DIFFERENCES] = {"first letter", "last letter", "case of the first", "case of the last",
                                                   "ignorable, last but one"};
const char *const topic_names[TOPICS] = {"ASCII", "all", "ASCII, last alone"};

struct string first_strings[MOST_PAIRS], second_strings[MOST_PAIRS];
struct page page;

uint32_t random_below(uint32_t bound)
{
    static uint64_t state = 14651;
    state = state * 6364136223846793005u + 1442695040888963407u;
    return (uint32_t)((state >> 33) % bound);
}

/* The small letters to choose from, and the capital of each. */
static uint32_t small[MOST_LINES], capital[MOST_LINES];
static int letters;

static void list_letters(const struct line *lines, int count, int whole)
{
    letters = 0;
    for (int k = 0; k + 1 < count; k++) {
        const struct line *low = &lines[k], *high = &lines[k + 1];
        int pair = low->count == 1 && high->count == 1 && low->base == high->base && low->accent == high->accent && high->capital;
        if (pair && !low->ignored && (whole || low->chars[0] < 0x80)) {
            small[letters] = low->chars[0];
            capital[letters] = high->chars[0];
            letters++;
        }
    }
}

static void finish(struct string *string, const uint32_t *codes, int length)
{
    string->count = (size_t)length;
    string->bytes = 0;
    if (string->wide == NULL)
        string->wide = reserve((MOST_LENGTH + 1) * sizeof *string->wide);
    for (int k = 0; k < length; k++) {
        uint32_t c = codes[k];
        char *at = string->utf8 + string->bytes;
        string->codes[k] = c;
        string->wide[k] = (wchar_t)c;
        string->utf16[k] = (uint16_t)c;
        if (c < 0x80) {
            at[0] = (char)c;
            string->bytes += 1;
        } else if (c < 0x800) {
            at[0] = (char)(0xC0 | c >> 6);
            at[1] = (char)(0x80 | (c & 0x3F));
            string->bytes += 2;
        } else {
            at[0] = (char)(0xE0 | c >> 12);
            at[1] = (char)(0x80 | (c >> 6 & 0x3F));
            at[2] = (char)(0x80 | (c & 0x3F));
            string->bytes += 3;
        }
    }
    string->wide[length] = 0;
    string->utf8[string->bytes] = 0;
    string->utf16[length] = 0;
}

static const uint32_t punctuation[] = {'-', '.', ' '};

static void make_pair(struct string *first, struct string *second, enum difference difference, int length)
{
    uint32_t a[MOST_LENGTH], b[MOST_LENGTH];
    int opening = 0, closing = 0;
    for (int k = 0; k < length; k++) {
        closing = (int)random_below((uint32_t)letters);
        if (k == 0)
            opening = closing;
        a[k] = small[closing];
        if (0 < k && k < length - 1 && random_below(8) == 0)
            a[k] = punctuation[random_below(3)];
        b[k] = a[k];
    }
    switch (difference) {
    case FIRST:
        b[0] = small[(opening + 1) % letters];
        break;
    case LAST:
        b[length - 1] = small[(closing + 1) % letters];
        break;
    case CASE_FIRST:
        b[0] = capital[opening];
        break;
    case CASE_LAST:
        b[length - 1] = capital[closing];
        break;
    default:
        a[length - 2] = '-';
        b[length - 2] = '.';
    }
    finish(first, a, length);
    finish(second, b, length);
}

int make_pairs(enum difference difference, int length, const struct line *lines, int count, int whole)
{
    int pairs = length < MOST_LENGTH ? MOST_PAIRS : 2;
    list_letters(lines, count, whole);
    for (int k = 0; k < pairs; k++)
        make_pair(&first_strings[k], &second_strings[k], difference, length);
    return pairs;
}

/* The characters from a place of the run on are a part. */
static void put_part(uint64_t *part, size_t start)
{
    part[0] = start;
    part[1] = page.count - start;
}

static void put_character(uint32_t c)
{
    page.run[page.count] = c;
    page.utf16[page.count++] = (uint16_t)c;
}

static void put_topic(int length, enum topic topic)
{
    for (int k = 0; k < length; k++) {
        uint32_t letter = random_below((uint32_t)letters), c = random_below(4) == 0 ? capital[letter] : small[letter];
        int quiet = topic == LATE ? k < length - 1 : random_below(8) == 0;
        put_character(quiet ? punctuation[random_below(3)] : c);
    }
}

void make_page(int headings, int topics, int length, enum topic topic, const struct line *lines, int count)
{
    static uint32_t firsts[MOST_LINES]; /* a letter for each first weight, rising */
    int many = 0;
    for (int k = 0; k < count; k++)
        if (lines[k].count == 1 && lines[k].base == k && !lines[k].ignored)
            firsts[many++] = lines[k].chars[0];
    page.count = 0;
    page.headings = headings;
    page.topics = topics;
    for (int k = 0; k < headings; k++) {
        size_t start = page.count;
        put_character(firsts[topic == ALL ? k * many / headings : k]);
        put_part(&page.heading_parts[2 * k], start);
    }
    list_letters(lines, count, topic == ALL);
    for (int k = 0; k < topics; k++) {
        size_t start = page.count;
        put_topic(length, topic);
        put_part(&page.topic_parts[2 * k], start);
    }
}
