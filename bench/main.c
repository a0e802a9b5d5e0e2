/* Measures the product beside its peers and prints the tables, the summary first: bench FOLDER TABLES LOCALEDEF..
 *
 * FOLDER is where sources and locales are kept; TABLES is one word that names the tables, with blanks between them, all if it is empty; the
 * other words are the command that runs localedef. All systems of a row take turns in one run, and the least time of each counts, in
 * processor time: other work on the machine slows a turn down but not the least of many. */

#define _GNU_SOURCE
#include <fcntl.h>
#include <locale.h>
#include <spawn.h>
#include <stdio.h>
#include <stdlib.h>
#include <string.h>
#include <sys/resource.h>
#include <sys/wait.h>
#include <time.h>
#include <unistd.h>
#include <wchar.h>

#include <unicode/ucol.h>
#include <unicode/ustring.h>

#include "bench.h"
#include "zeharmeku.h"

extern char **environ;

static const char *folder;
static char **localedef;
static int localedef_words;

static void fail(const char *what, const char *which)
{
    fprintf(stderr, "bench: %s: %s\n", what, which);
    exit(2);
}

/* ---- Time ---- */

static volatile long sink;

/* A call on pair k; one call on each pair is a round. */
typedef long (*call)(int k);

struct timing {
    call call;
    long rounds;
    double best; /* nanoseconds for one call */
};

static double processor_time(void)
{
    struct timespec t;
    clock_gettime(CLOCK_PROCESS_CPUTIME_ID, &t);
    return (double)t.tv_sec * 1e9 + (double)t.tv_nsec;
}

static double turn(const struct timing *timing, int pairs)
{
    double from = processor_time();
    for (long r = 0; r < timing->rounds; r++)
        for (int k = 0; k < pairs; k++)
            sink += timing->call(k);
    return processor_time() - from;
}

/* Times some calls on the same pairs, in turns: a slow one twice, one of more than ten seconds once. A call that is NULL is left out, with a
 * best time of 0. */
static void measure(struct timing *timings, int count, int pairs)
{
    enum { TURNS = 20 };
    const double least = 1.5e6, slow = 5e7, endless = 1e10;
    double first[8] = {0};
    for (int s = 0; s < count; s++) {
        if (timings[s].call == NULL)
            continue;
        timings[s].rounds = 1;
        for (;;) {
            first[s] = turn(&timings[s], pairs);
            if (first[s] >= least)
                break;
            timings[s].rounds *= first[s] < least / 10 ? 10 : 2;
        }
        timings[s].best = first[s];
    }
    for (int t = 0; t < TURNS; t++)
        for (int s = 0; s < count; s++) {
            if (timings[s].call == NULL || (t > 0 && first[s] > slow) || first[s] > endless)
                continue;
            double took = turn(&timings[s], pairs);
            if (took < timings[s].best)
                timings[s].best = took;
        }
    for (int s = 0; s < count; s++)
        if (timings[s].call != NULL)
            timings[s].best /= (double)(timings[s].rounds * pairs);
}

/* ---- The systems: each orders by the table at hand ---- */

static uint32_t *table;
static size_t table_count;
static locale_t locale;
static UCollator *collator;

enum { KEY_ROOM = 1060880 };
static _Alignas(8) uint8_t key_room[4 * KEY_ROOM];

static long plain_pass(int k)
{
    uint32_t sum = 0;
    (void)k;
    for (size_t i = 0; i < table_count; i++)
        sum += table[i];
    return sum;
}

static long product_check(int k)
{
    uint64_t answer[4];
    (void)k;
    zeharmeku_check(table, table_count, answer, 4);
    return (long)answer[3];
}

static long product_compare(int k)
{
    const struct string *a = &first_strings[k], *b = &second_strings[k];
    uint64_t answer[4];
    zeharmeku_compare(table, table_count, a->codes, a->count, b->codes, b->count, answer, 4);
    if (answer[0] != 0)
        fail("refused", "compare");
    return (long)(int64_t)answer[1];
}

static long product_key(int k)
{
    uint64_t answer[2];
    zeharmeku_key(table, table_count, first_strings[k].codes, first_strings[k].count, key_room, KEY_ROOM, answer, 2);
    if (answer[0] != 0)
        fail("refused", "key");
    return (long)answer[1];
}

/* For each topic of the page its heading, from 1, 0 for none. */
static uint32_t our_list[MOST_PARTS], icu_list[MOST_PARTS];

static long product_directory(int k)
{
    (void)k;
    if (zeharmeku_directory(table, table_count, page.run, page.count, page.heading_parts, 2 * (size_t)page.headings, page.topic_parts,
                            2 * (size_t)page.topics, our_list, MOST_PARTS) != 0)
        fail("refused", "directory");
    return our_list[0];
}

static long wide_compare(int k)
{
    return wcscoll_l(first_strings[k].wide, second_strings[k].wide, locale);
}

static long wide_key(int k)
{
    return (long)wcsxfrm_l((wchar_t *)key_room, first_strings[k].wide, KEY_ROOM, locale);
}

static long byte_compare(int k)
{
    return strcoll_l(first_strings[k].utf8, second_strings[k].utf8, locale);
}

static long byte_key(int k)
{
    return (long)strxfrm_l((char *)key_room, first_strings[k].utf8, KEY_ROOM, locale);
}

static long icu_compare(int k)
{
    const struct string *a = &first_strings[k], *b = &second_strings[k];
    return ucol_strcoll(collator, (const UChar *)a->utf16, (int32_t)a->count, (const UChar *)b->utf16, (int32_t)b->count);
}

static long icu_key(int k)
{
    return ucol_getSortKey(collator, (const UChar *)first_strings[k].utf16, (int32_t)first_strings[k].count, key_room, KEY_ROOM);
}

/* By halving: how many headings do not come after the topic. */
static uint32_t icu_heading(const uint64_t *topic)
{
    const UChar *run = (const UChar *)page.utf16;
    int from = 0, to = page.headings;
    while (from < to) {
        int middle = (from + to) / 2;
        const uint64_t *heading = &page.heading_parts[2 * middle];
        if (ucol_strcoll(collator, run + heading[0], (int32_t)heading[1], run + topic[0], (int32_t)topic[1]) != UCOL_GREATER)
            from = middle + 1;
        else
            to = middle;
    }
    return (uint32_t)from;
}

static long icu_directory(int k)
{
    (void)k;
    for (int t = 0; t < page.topics; t++)
        icu_list[t] = icu_heading(&page.topic_parts[2 * t]);
    return icu_list[0];
}

/* Letters that differ in accent or case alone are equal from here on, until the next order is taken. */
static void icu_primary(void)
{
    ucol_setStrength(collator, UCOL_PRIMARY);
}

/* ---- Compiling ---- */

static const struct source *compiled;
static uint32_t area[1 << 21], work[MOST_SOURCE + 64];

static long product_compile(int k)
{
    uint64_t answer[3];
    (void)k;
    zeharmeku_compile((const uint8_t *)compiled->text.bytes, compiled->text.count, area, sizeof area / sizeof *area, work,
                      compiled->text.count + 64, answer, 3);
    if (answer[0] != 0)
        fail("refused", compiled->name);
    return (long)answer[2];
}

static long product_charmap(int k)
{
    uint64_t answer[2];
    (void)k;
    zeharmeku_charmap((const uint8_t *)compiled->text.bytes, compiled->text.count, area, sizeof area / sizeof *area, answer, 2);
    if (answer[0] != 0)
        fail("refused", compiled->name);
    return (long)area[0];
}

static UCollator *icu_open(const struct source *source)
{
    static UChar rules[1 << 20];
    int32_t count;
    UErrorCode error = U_ZERO_ERROR;
    UParseError place;
    u_strFromUTF8(rules, sizeof rules / sizeof *rules, &count, source->rules.bytes, (int32_t)source->rules.count, &error);
    UCollator *opened = ucol_openRules(rules, count, UCOL_DEFAULT, UCOL_IDENTICAL, &place, &error);
    if (U_FAILURE(error))
        fail("ICU refused", source->name);
    return opened;
}

static long icu_compile(int k)
{
    (void)k;
    ucol_close(icu_open(compiled));
    return 0;
}

/* Runs localedef on FOLDER/NAME.src with a charmap: the processor time that it took, or -1 where it failed. */
static double run_localedef(const char *name, const char *charmap)
{
    char source[4096], map[4096], to[4096], quiet[] = "--quiet", no_archive[] = "--no-archive", input[] = "-i", by[] = "-f";
    char *words[32];
    int count = 0;
    snprintf(source, sizeof source, "%s/%s.src", folder, name);
    snprintf(map, sizeof map, "%s/%s.charmap", folder, charmap);
    snprintf(to, sizeof to, "%s/%s", folder, name);
    for (int k = 0; k < localedef_words; k++)
        words[count++] = localedef[k];
    words[count++] = quiet;
    words[count++] = no_archive;
    words[count++] = input;
    words[count++] = source;
    words[count++] = by;
    words[count++] = map;
    words[count++] = to;
    words[count] = NULL;

    pid_t child;
    int status;
    struct rusage used;
    posix_spawn_file_actions_t actions;
    posix_spawn_file_actions_init(&actions);
    posix_spawn_file_actions_addopen(&actions, STDERR_FILENO, "/dev/null", O_WRONLY, 0);
    if (posix_spawnp(&child, words[0], &actions, NULL, words, environ) != 0)
        fail("cannot run", words[0]);
    posix_spawn_file_actions_destroy(&actions);
    if (wait4(child, &status, 0, &used) != child)
        fail("no end of", words[0]);
    if (status != 0)
        return -1;
    return (double)(used.ru_utime.tv_sec + used.ru_stime.tv_sec) * 1e9 + (double)(used.ru_utime.tv_usec + used.ru_stime.tv_usec) * 1e3;
}

/* Takes the order of a source: the product's table, glibc's locale and ICU's collator. */
static void take_order(const struct source *source)
{
    compiled = source;
    table_count = (size_t)product_compile(0);
    table = area;
    write_source(folder, source);
    if (run_localedef(source->name, source->name) < 0)
        fail("localedef refused", source->name);
    if (locale != NULL)
        freelocale(locale);
    locale = newlocale(LC_ALL_MASK, source->name, NULL);
    if (locale == NULL)
        fail("no locale", source->name);
    if (collator != NULL)
        ucol_close(collator);
    collator = icu_open(source);
}

/* ---- What the systems take ---- */

/* Nanoseconds for one call of each system, 0 where it has none; `check` is the check within ours, `pass` a plain pass over the table. */
struct times {
    double ours, check, localedef, wide, bytes, icu, pass;
};

static struct times check_times(void)
{
    struct timing timings[] = {{.call = plain_pass}, {.call = product_check}};
    measure(timings, 2, 1);
    return (struct times){.pass = timings[0].best, .ours = timings[1].best};
}

static int sign(long x)
{
    return (x > 0) - (x < 0);
}

/* All systems order each pair alike, or the row would say nothing. glibc calls strings equal that differ in ignorable characters alone. */
static void same_order(int pairs)
{
    static const call peers[] = {wide_compare, byte_compare, icu_compare};
    for (int k = 0; k < pairs; k++) {
        int ours = sign(product_compare(k));
        for (size_t s = 0; s < sizeof peers / sizeof *peers; s++) {
            int theirs = sign(peers[s](k));
            if (theirs != ours && theirs != 0)
                fail("a pair is ordered otherwise", "the row after the last one printed");
        }
    }
}

/* The times of calls that glibc and ICU have too. */
static struct times string_times(call wide, call bytes, call icu, call ours, int pairs)
{
    struct timing timings[] = {{.call = wide}, {.call = bytes}, {.call = icu}, {.call = product_check}, {.call = ours}};
    measure(timings, 5, pairs);
    return (struct times){.wide = timings[0].best, .bytes = timings[1].best, .icu = timings[2].best, .check = timings[3].best,
                          .ours = timings[4].best};
}

static struct times compare_times(int pairs)
{
    same_order(pairs);
    return string_times(wide_compare, byte_compare, icu_compare, product_compare, pairs);
}

static struct times key_times(int pairs)
{
    return string_times(wide_key, byte_key, icu_key, product_key, pairs);
}

/* Both systems put each topic under the same heading, or the row would say nothing. */
static void same_headings(void)
{
    product_directory(0);
    icu_directory(0);
    if (memcmp(our_list, icu_list, (size_t)page.topics * sizeof *our_list) != 0)
        fail("a topic stands under another heading", "the row after the last one printed");
}

static struct times directory_times(void)
{
    struct timing timings[] = {{.call = icu_directory}, {.call = product_check}, {.call = product_directory}};
    same_headings();
    measure(timings, 3, 1);
    return (struct times){.icu = timings[0].best, .check = timings[1].best, .ours = timings[2].best};
}

/* The least time of localedef on a source, less that on the smallest with the same charmap; 0 where it refuses. */
static double localedef_net(const struct source *source)
{
    enum { RUNS = 60 };
    const double enough = 1.5e9;
    double best = 1e18, least = 1e18, all = 0;
    write_source(folder, source);
    for (int k = 0; k < RUNS && all < enough; k++) {
        double start = run_localedef("small", source->name), took = run_localedef(source->name, source->name);
        if (start < 0 || took < 0)
            return 0;
        least = start < least ? start : least;
        best = took < best ? took : best;
        all += start + took;
    }
    return best - least;
}

static struct times compile_times(const struct source *source, int has_peer)
{
    compiled = source;
    struct timing timings[] = {{.call = product_compile}, {.call = source->rules.count > 0 ? icu_compile : NULL}};
    measure(timings, 2, 1);
    return (struct times){.ours = timings[0].best, .icu = timings[1].best, .localedef = has_peer ? localedef_net(source) : 0};
}

/* ---- Tables of figures ---- */

enum { CELL = 64 };

/* A whole number, thousands apart. */
static void write_whole(char text[CELL], double x)
{
    char digits[32];
    int count = snprintf(digits, sizeof digits, "%.0f", x);
    for (int k = 0; k < count; k++) {
        if (k > 0 && (count - k) % 3 == 0)
            *text++ = ',';
        *text++ = digits[k];
    }
    *text = 0;
}

/* A figure: three digits, or a whole number; what is not measured is a dash. */
static void write_figure(char text[CELL], double x)
{
    if (x <= 0)
        snprintf(text, CELL, "-");
    else if (x < 9.995)
        snprintf(text, CELL, "%.2f", x);
    else if (x < 99.95)
        snprintf(text, CELL, "%.1f", x);
    else
        write_whole(text, x);
}

static void whole_cell(double x)
{
    char text[CELL];
    write_whole(text, x);
    printf(" %s |", text);
}

static void padded_cell(int width, double x)
{
    char text[CELL];
    write_figure(text, x);
    printf(" %*s |", width, text);
}

static void cell(double x)
{
    padded_cell(0, x);
}

static void end_row(void)
{
    printf("\n");
    fflush(stdout);
}

/* The product's time, the check's part of it, what is left, and how often that takes what peers take. What is left says nothing where it is
 * less than a twelfth of the check. */
static void cells_beside(double ours, double check, const double *peers, int count)
{
    double left = ours - check;
    if (left < check / 12)
        left = 0;
    cell(ours);
    printf(" %.0f %% |", 100 * (check < ours ? check / ours : 1));
    cell(left);
    for (int k = 0; k < count; k++)
        cell(peers[k] > 0 ? left / peers[k] : 0);
}

static const int sizes[] = {100, 1000, 10000, 32000}, lengths[] = {8, 64, 512, 4096};
enum { SIZES = 4, LENGTHS = 4 };

static struct source forward_tables[SIZES], backward_table;
static struct line lines[MOST_LINES];

/* ---- The summary ---- */

struct unit {
    const char *name;
    double nanoseconds;
};

static const struct unit nanoseconds = {"ns", 1}, microseconds = {"us", 1e3}, milliseconds = {"ms", 1e6};

/* Our whole time and each peer's in this unit, and ours beside the least of theirs. The summary is read as it is printed, so each column has
 * one width. */
static void summary_row(const char *operation, const char *size, struct unit unit, struct times times)
{
    static const int widths[] = {8, 9, 10, 11, 8, 10};
    const double figures[] = {times.ours, times.localedef, times.wide, times.bytes, times.icu, times.pass};
    double best = 1e18;
    printf("| %-14s | %-16s | %-4s |", operation, size, unit.name);
    for (size_t k = 0; k < sizeof figures / sizeof *figures; k++) {
        padded_cell(widths[k], figures[k] / unit.nanoseconds);
        if (k > 0 && figures[k] > 0 && figures[k] < best)
            best = figures[k];
    }
    padded_cell(6, times.ours / best);
    end_row();
}

static void summary_compile(const char *size, const struct source *source)
{
    summary_row("compile", size, milliseconds, compile_times(source, 1));
}

static void summary_check(const char *size, const struct source *source)
{
    take_order(source);
    summary_row("check", size, microseconds, check_times());
}

/* Comparisons or keys by the order at hand, which is of 100 lines. */
static void summary_strings(const char *operation, struct times (*times_of)(int pairs), enum difference difference)
{
    static const int few[] = {8, 64, 4096};
    static const char *const names[] = {"8 characters", "64 characters", "4,096 characters"};
    int count = table_lines(lines, sizes[0], RISING);
    for (int n = 0; n < 3; n++)
        summary_row(operation, names[n], nanoseconds, times_of(make_pairs(difference, few[n], lines, count, 0)));
}

static void summary_directory(const char *size, int s)
{
    take_order(&forward_tables[s]);
    icu_primary();
    make_page(26, MOST_PARTS, 8, ALL, lines, table_lines(lines, sizes[s], RISING));
    summary_row("directory", size, microseconds, directory_times());
}

static void summary_table(void)
{
    printf("## Summary\n\n"
           "The time of one call. Ours is whole: every call checks its table. localedef's is without its start. Strings are of ASCII letters\n"
           "and go by a table of 100 lines; of two that are compared, the last or the first letter differs. A directory has 26 headings and\n"
           "1,000 topics of 8 letters; ICU halves over the headings. The ratio is of our time to the best peer's.\n\n"
           "| operation      | size             | unit |     ours | localedef | glibc wide | glibc bytes |      ICU | plain pass |  ratio |\n"
           "|----------------|------------------|------|---------:|----------:|-----------:|------------:|---------:|-----------:|-------:|\n");
    summary_compile("100 lines", &forward_tables[0]);
    summary_compile("1,000 lines", &forward_tables[1]);
    summary_compile("32,000 lines", &forward_tables[SIZES - 1]);
    summary_check("100 lines", &forward_tables[0]);
    summary_check("1,000 lines", &forward_tables[1]);
    summary_check("32,000 lines", &forward_tables[SIZES - 1]);
    take_order(&forward_tables[0]);
    summary_strings("compare, last", compare_times, LAST);
    summary_strings("compare, first", compare_times, FIRST);
    summary_strings("key", key_times, LAST);
    summary_directory("100 lines", 0);
    summary_directory("32,000 lines", SIZES - 1);
}

/* ---- The long tables ---- */

static void check_table(void)
{
    printf("## Check\n\nOne check of a table beside one plain pass that adds up the same numbers, in microseconds.\n\n");
    printf("| lines | numbers | plain pass | check | check / pass |\n|--:|--:|--:|--:|--:|\n");
    for (int s = 0; s < SIZES; s++) {
        take_order(&forward_tables[s]);
        struct times times = check_times();
        printf("|");
        whole_cell(sizes[s]);
        whole_cell((double)table_count);
        cell(times.pass / 1e3);
        cell(times.ours / 1e3);
        cell(times.ours / times.pass);
        end_row();
    }
}

/* The end of a row of strings: glibc, ICU and ours. */
static void string_cells(struct times times)
{
    const double peers[] = {times.wide, times.icu};
    cell(times.wide);
    cell(times.bytes);
    cell(times.icu);
    cells_beside(times.ours, times.check, peers, 2);
    end_row();
}

static void compare_rows(const struct source *source, int size, const char *second)
{
    take_order(source);
    int count = table_lines(lines, size, RISING);
    for (int d = 0; d < DIFFERENCES; d++)
        for (int n = 0; n < LENGTHS; n++) {
            int pairs = make_pairs((enum difference)d, lengths[n], lines, count, 0);
            printf("| %s | %s |", second, difference_names[d]);
            whole_cell(lengths[n]);
            string_cells(compare_times(pairs));
        }
}

static const char beside[] = "wcscoll | strcoll | ICU | ours | check | left | left / wcscoll | left / ICU |\n";
static const char beside_line[] = "--:|--:|--:|--:|--:|--:|--:|--:|\n";

static void compare_table(void)
{
    printf("## Compare, by difference and length\n\nA table of 100 lines, ASCII letters, nanoseconds for one comparison. "
           "`check` is its share of our time, `left` our time without it, a dash where that is too little to be told.\n\n");
    printf("| second level | difference | length | %s|---|---|--:|%s", beside, beside_line);
    compare_rows(&forward_tables[0], sizes[0], "forward");
    compare_rows(&backward_table, sizes[0], "backward");
}

static void growth_table(void)
{
    printf("## Compare, by size of the table\n\nThe last letter differs, all levels forward, nanoseconds for one comparison; "
           "letters of ASCII, or from all over the table.\n\n");
    printf("| lines | letters | length | %s|--:|---|--:|%s", beside, beside_line);
    for (int s = 0; s < SIZES; s++) {
        take_order(&forward_tables[s]);
        int count = table_lines(lines, sizes[s], RISING);
        for (int whole = 0; whole < 2; whole++)
            for (int n = 0; n < LENGTHS; n++) {
                int pairs = make_pairs(LAST, lengths[n], lines, count, whole);
                printf("|");
                whole_cell(sizes[s]);
                printf(" %s |", whole ? "all" : "ASCII");
                whole_cell(lengths[n]);
                string_cells(compare_times(pairs));
            }
    }
}

static void key_rows(const struct source *source, int size, const char *second)
{
    take_order(source);
    int count = table_lines(lines, size, RISING);
    for (int whole = 0; whole < 2; whole++)
        for (int n = 0; n < LENGTHS; n++) {
            int pairs = make_pairs(LAST, lengths[n], lines, count, whole);
            printf("|");
            whole_cell(size);
            printf(" %s | %s |", second, whole ? "all" : "ASCII");
            whole_cell(lengths[n]);
            string_cells(key_times(pairs));
        }
}

static void key_table(void)
{
    printf("## Key\n\nNanoseconds for one key, of letters of ASCII or from all over the table.\n\n");
    printf("| lines | second level | letters | length | wcsxfrm | strxfrm | ICU | ours | check | left | left / wcsxfrm | left / ICU |\n"
           "|--:|---|---|--:|%s", beside_line);
    for (int s = 0; s < SIZES; s++)
        key_rows(&forward_tables[s], sizes[s], "forward");
    key_rows(&backward_table, sizes[0], "backward");
}

static void compile_row(const char *what, const struct source *source, int has_peer)
{
    struct times times = compile_times(source, has_peer);
    printf("| %s |", what);
    whole_cell((double)source->text.count);
    cell(times.localedef / 1e6);
    cell(times.icu / 1e6);
    cell(times.ours / 1e6);
    cell(times.localedef > 0 ? times.ours / times.localedef : 0);
    end_row();
}

static void compile_table(void)
{
    static const char *const names[] = {"100 lines, rising", "1,000 lines, rising", "10,000 lines, rising", "32,000 lines, rising"};
    printf("## Compile\n\nOne source, in milliseconds; localedef without its start. It refuses conditionals within conditionals, and lines "
           "that are nothing but a join.\n\n");
    printf("| source | bytes | localedef | ICU | ours | ours / localedef |\n|---|--:|--:|--:|--:|--:|\n");
    for (int s = 0; s < SIZES; s++)
        compile_row(names[s], &forward_tables[s], 1);
    struct source source = table_source("falling", 32000, FALLING, 0);
    compile_row("32,000 lines, falling", &source, 1);
    source = table_source("shuffled", 32000, SHUFFLED, 0);
    compile_row("32,000 lines, shuffled", &source, 1);
    source = elements_source(8000);
    compile_row("8,000 elements with one first character", &source, 1);
    source = comments_source();
    compile_row("1 MiB of comments", &source, 1);
    source = joined_source(" /\n");
    compile_row("1 MiB of one joined line, blanks and joins", &source, 1);
    source = joined_source("/\n");
    compile_row("1 MiB of one joined line, joins alone", &source, 0);
    source = conditionals_source(1);
    compile_row("32,000 lines, each in a conditional", &source, 1);
    source = conditionals_source(8);
    compile_row("1 MiB of lines in conditionals 8 deep", &source, 0);
    source = names_source(9000);
    compile_row("9,000 names of 32 bytes that differ in the last", &source, 1);
    source = colliding_source(2000);
    compile_row("2,000 names with one hash", &source, 1);
    source = colliding_source(4000);
    compile_row("4,000 names with one hash", &source, 1);
    source = joined_name_source(50);
    compile_row("50 lines that name a symbol joined over 512 KiB", &source, 0);
    source = joined_name_source(100);
    compile_row("100 lines that name a symbol joined over 512 KiB", &source, 0);
}

/* How many times smaller than the largest the hostile sources are. */
static size_t part = 1;

static double time_of(call call, const struct source *source)
{
    compiled = source;
    struct timing timing = {.call = call};
    measure(&timing, 1, 1);
    return timing.best;
}

/* Milliseconds for a source, and nanoseconds for a byte of it. */
static void time_cells(double took, const struct source *source)
{
    cell(took / 1e6);
    cell(took / (double)source->text.count);
}

/* A row of hostile sources, and whether localedef takes them. */
struct hostile {
    const char *what;
    struct source (*make)(size_t size, enum kind kind);
    int has_peer;
};

static const struct hostile hostile_sources[] = {
    {"a toggle joined over one half, conditionals that name it", joined_toggle_source, 0},
    {"the same, conditionals that name another that begins alike", other_toggle_source, 0},
    {"elements whose characters have one hash", alike_elements_source, 1},
    {"the same, the first joined over one half", joined_element_source, 0},
    {"names with one hash, weights that name the first", deepest_source, 1},
    {"names on the way to the one that all weights name", way_source, 1},
    {"names and elements on the way to one of a single byte, named 64 times a line", short_way_source, 1},
    {"a symbol joined over one half, weights that name it", joined_symbol_source, 0},
    {"a character joined over one half, weights that name it", joined_character_source, 0},
    {"characters in as few chains as they allow", chained_source, 1},
};

static void hostile_row(const struct hostile *row, size_t size)
{
    struct source source = row->make(size, HOSTILE), twin = row->make(size, HONEST);
    double ours = time_of(product_compile, &source), honest = time_of(product_compile, &twin);
    double peer = row->has_peer ? localedef_net(&source) : 0;
    printf("| %s |", row->what);
    whole_cell((double)source.text.count);
    time_cells(ours, &source);
    time_cells(honest, &twin);
    cell(ours / honest);
    cell(peer / 1e6);
    end_row();
    free(source.text.bytes);
    free(twin.text.bytes);
}

static void charmap_row(const char *what, struct source source)
{
    printf("| %s |", what);
    whole_cell((double)source.text.count);
    time_cells(time_of(product_charmap, &source), &source);
    end_row();
    free(source.text.bytes);
}

static void hostile_charmaps(size_t size)
{
    printf("\n| charmap | bytes | ours | ns a byte |\n|---|--:|--:|--:|\n");
    charmap_row("256 entries", entries_map(256, 40, HONEST));
    charmap_row("comments", comments_map(size));
    charmap_row("255 entries with long comments", entries_map(255, size / 256, HONEST));
    charmap_row("255 entries with long comments that end in an escape", entries_map(255, size / 256, HOSTILE));
}

static void hostile_table(void)
{
    static const struct hostile small_chains = {"the same, in 16 KiB", chained_source, 1};
    size_t size = MOST_SOURCE / part;
    printf("## Hostile sources\n\nOne source, in milliseconds, beside its honest twin: as many bytes in the same lines, without what makes "
           "the source slow. Sources are of up to 1 MiB, 8,000 elements and 9,000 names, divided by %zu. localedef without its start; it "
           "refuses lines that are nothing but a join, or never ends on them.\n\n", part);
    printf("| source | bytes | ours | ns a byte | honest twin | ns a byte | ours / twin | localedef |\n|---|--:|--:|--:|--:|--:|--:|--:|\n");
    for (size_t r = 0; r < sizeof hostile_sources / sizeof *hostile_sources; r++)
        hostile_row(&hostile_sources[r], size);
    hostile_row(&small_chains, 16384);
    hostile_charmaps(size);
}

static void directory_cells(struct times times)
{
    const double peers[] = {times.icu / 1e3};
    cell(peers[0]);
    cells_beside(times.ours / 1e3, times.check / 1e3, peers, 1);
    end_row();
}

static void directory_rows(const struct source *source, int size, int headings)
{
    take_order(source);
    icu_primary();
    int count = table_lines(lines, size, RISING);
    for (int t = 0; t < TOPICS; t++)
        for (int n = 0; n < LENGTHS && lengths[n] <= MOST_TOPIC; n++) {
            make_page(headings, MOST_PARTS, lengths[n], (enum topic)t, lines, count);
            printf("|");
            whole_cell(size);
            whole_cell(page.headings);
            whole_cell(page.topics);
            printf(" %s |", topic_names[t]);
            whole_cell(lengths[n]);
            directory_cells(directory_times());
        }
}

static void directory_table(void)
{
    printf("## Directory\n\nThe headings of all topics, microseconds for one call. Topics are of ASCII letters, under the first letters of "
           "the table; of letters from all over the table, under such letters; or of punctuation but for the last. ICU halves over the "
           "headings at its primary strength.\n\n");
    printf("| lines | headings | topics | letters | length | ICU halving | ours | check | left | left / ICU |\n"
           "|--:|--:|--:|---|--:|--:|--:|--:|--:|--:|\n");
    directory_rows(&forward_tables[0], sizes[0], 26);
    directory_rows(&forward_tables[SIZES - 1], sizes[SIZES - 1], 26);
    directory_rows(&forward_tables[SIZES - 1], sizes[SIZES - 1], MOST_PARTS);
}

static const struct {
    const char *name;
    void (*print)(void);
} tables[] = {{"summary", summary_table}, {"check", check_table},     {"compare", compare_table}, {"growth", growth_table},
              {"key", key_table},         {"compile", compile_table}, {"hostile", hostile_table}, {"directory", directory_table}};
enum { TABLES = sizeof tables / sizeof *tables };

/* Prints the tables that are named, all if none is. */
static void print_tables(char *names)
{
    int named[TABLES] = {0}, all = 1, printed = 0;
    for (char *name = strtok(names, " "); name != NULL; name = strtok(NULL, " ")) {
        int t = 0;
        while (t < TABLES && strcmp(tables[t].name, name) != 0)
            t++;
        if (t == TABLES)
            fail("no such table", name);
        named[t] = 1;
        all = 0;
    }
    for (int t = 0; t < TABLES; t++) {
        if (!all && !named[t])
            continue;
        if (printed++ > 0)
            printf("\n");
        tables[t].print();
    }
}

/* Takes the part from the variable PART. */
static void take_part(void)
{
    const char *word = getenv("PART");
    if (word == NULL)
        return;
    part = strtoul(word, NULL, 10);
    if (part < 1 || part > 64)
        fail("PART is 1 to 64, not", word);
}

int main(int count, char **words)
{
    if (count < 4)
        fail("wants", "FOLDER TABLES LOCALEDEF..");
    folder = words[1];
    localedef = words + 3;
    localedef_words = count - 3;
    setenv("LOCPATH", folder, 1);
    take_part();
    static const char *const names[] = {"lines100", "lines1000", "lines10000", "lines32000"};
    for (int s = 0; s < SIZES; s++)
        forward_tables[s] = table_source(names[s], sizes[s], RISING, 0);
    backward_table = table_source("backward100", sizes[0], RISING, 1);
    struct source small = small_source();
    write_source(folder, &small);
    print_tables(words[2]);
    return 0;
}
