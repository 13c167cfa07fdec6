/* Times the bare calls of hanneddois.h: the yardstick of the wrappers. Each line it prints is a task and its least processor time in
   ns. */
#include <stdio.h>
#include <stdlib.h>
#include <string.h>
#include <time.h>

#include "hanneddois.h"

enum { CALLS = 20000, LINE_ROUNDS = 100, LIST_ROUNDS = 7 };
#define LIST_BYTES ((size_t)16 << 20)

static const char LINE[] = "user=ben id=42 failed now";
static const char UNIT[] = "2018-12-24 08:02:44 WARN  disk /var at 91% of 40 GB\n";
static hanneddois_error error;
static size_t sum; /* keeps results in use */

/* Processor time in ns. */
static double now(void)
{
    return (double)clock() * (1e9 / CLOCKS_PER_SEC);
}

static hanneddois_regex make(const char *pattern, uint32_t flags)
{
    hanneddois_regex regex = HANNEDDOIS_EMPTY;
    hanneddois_options options = {0};
    options.flags = flags;
    size_t length = strlen(pattern);
    if (hanneddois_new(&regex, (const uint8_t *)pattern, length, &length, 1, &options, &error) != HANNEDDOIS_OK)
        abort();
    return regex;
}

static void search_line(int finds)
{
    hanneddois_regex regex = make("[0-9]+", 0);
    double least = 1e18;
    for (int round = 0; round < LINE_ROUNDS; round++) {
        double begun = now();
        for (int call = 0; call < CALLS; call++) {
            hanneddois_match match = {0, 0, 0};
            if (finds)
                hanneddois_find_at(&regex, (const uint8_t *)LINE, sizeof LINE - 1, 0, &match, &error);
            else
                match.end = hanneddois_is_match(&regex, (const uint8_t *)LINE, sizeof LINE - 1, &error);
            sum += match.end;
        }
        double took = (now() - begun) / CALLS;
        least = took < least ? took : least;
    }
    printf("%s\t%.1f\n", finds ? "find" : "is_match", least);
    hanneddois_free(&regex);
}

/* The matches one by one, as the iterators of the wrappers find them. None of the patterns has empty matches. */
static void step(hanneddois_regex *regex, const uint8_t *haystack)
{
    hanneddois_match match = {0, 0, 0};
    while (hanneddois_find_at(regex, haystack, LIST_BYTES, match.end, &match, &error) == HANNEDDOIS_OK)
        sum += match.start;
}

static void list(hanneddois_regex *regex, const uint8_t *haystack, hanneddois_match *rows, size_t room)
{
    size_t count;
    hanneddois_find_all(regex, haystack, LIST_BYTES, rows, room, &count, &error);
    for (size_t i = 0; i < count && i < room; i++)
        sum += rows[i].start;
}

static void search_all(const char *task, const char *pattern, uint32_t flags, const uint8_t *haystack)
{
    hanneddois_regex regex = make(pattern, flags);
    double least = 1e18;
    for (int round = 0; round < LIST_ROUNDS; round++) {
        double begun = now();
        if (flags == HANNEDDOIS_UTF8) {
            hanneddois_match *rows = malloc(LIST_BYTES / 8 * sizeof *rows);
            list(&regex, haystack, rows, LIST_BYTES / 8);
            free(rows);
        } else {
            step(&regex, haystack);
        }
        double took = now() - begun;
        least = took < least ? took : least;
    }
    printf("%s\t%.1f\n", task, least);
    hanneddois_free(&regex);
}

int main(void)
{
    uint8_t *haystack = malloc(LIST_BYTES);
    if (!haystack)
        return 2;
    for (size_t i = 0; i < LIST_BYTES; i++)
        haystack[i] = (uint8_t)UNIT[i % (sizeof UNIT - 1)];
    search_line(0);
    search_line(1);
    search_all("dates", "[0-9]{4}-[0-9]{2}-[0-9]{2}", 0, haystack);
    search_all("words", "[A-Za-z]+", 0, haystack);
    search_all("dates, UTF-8", "[0-9]{4}-[0-9]{2}-[0-9]{2}", HANNEDDOIS_UTF8, haystack);
    free(haystack);
    return sum == 0;
}
