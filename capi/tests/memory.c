/* Memory: what the library holds is counted, block by block, and each allocation of each call fails in turn. Built with
   -Wl,--wrap=malloc,--wrap=realloc,--wrap=free. Prints nothing where all is well. */
#include <malloc.h>
#include <stdio.h>
#include <stdlib.h>
#include <string.h>

#include "hanneddois.h"

void *__real_malloc(size_t size);
void *__real_realloc(void *block, size_t size);
void __real_free(void *block);

/* The blocks that are held and their bytes, the allocations since the last start, and which of these fails; 0 for none. */
static size_t held, held_bytes, asked, fails_at, failed;

static int fails(void)
{
    asked++;
    if (asked != fails_at)
        return 0;
    failed++;
    return 1;
}

void *__wrap_malloc(size_t size)
{
    if (fails())
        return NULL;
    void *block = __real_malloc(size);
    held += block != NULL;
    held_bytes += malloc_usable_size(block);
    return block;
}

void *__wrap_realloc(void *block, size_t size)
{
    if (fails())
        return NULL;
    size_t before = malloc_usable_size(block);
    void *grown = __real_realloc(block, size);
    held += block == NULL && grown != NULL;
    if (grown != NULL)
        held_bytes += malloc_usable_size(grown) - before;
    return grown;
}

void __wrap_free(void *block)
{
    held -= block != NULL;
    held_bytes -= malloc_usable_size(block);
    __real_free(block);
}

static void start(size_t number)
{
    asked = failed = 0;
    fails_at = number;
}

static int wrong = 0;

#define CHECK(what)                                                                     \
    do {                                                                                \
        if (!(what)) {                                                                  \
            printf("memory: line %d: %s, allocation %zu\n", __LINE__, #what, fails_at); \
            wrong = 1;                                                                  \
        }                                                                               \
    } while (0)

static hanneddois_error error;

/* Patterns with a word boundary, and a haystack in which the automata give up at a byte above 0x7F: other regexes answer. The first
   pattern matches at 3, 9 and 14, and the second nowhere; so says Python's re. */
static const uint8_t patterns[] = "\\bk\\bz";
static const size_t lengths[2] = {5, 1};
static const uint8_t haystack[] = "\xC3\xA9 k \xC3\xA9k k\xE2\x80\x94 k";
static const size_t length = sizeof haystack - 1;
static const size_t starts[3] = {3, 9, 14};

static hanneddois_status make(hanneddois_regex *regex)
{
    hanneddois_options options = {0};
    return hanneddois_new(regex, patterns, 6, lengths, 2, &options, &error);
}

static hanneddois_status is_match(hanneddois_regex *regex)
{
    return hanneddois_is_match(regex, haystack, length, &error);
}

static hanneddois_status find_at(hanneddois_regex *regex)
{
    hanneddois_match match = {7, 7, 7};
    hanneddois_status status = hanneddois_find_at(regex, haystack, length, 4, &match, &error);
    if (status == HANNEDDOIS_OK)
        CHECK(match.pattern == 0 && match.start == 9 && match.end == 10);
    else
        CHECK(match.pattern == 0 && match.start == 0 && match.end == 0);
    return status;
}

/* After an error the matches before it are counted and written. */
static hanneddois_status find_all(hanneddois_regex *regex)
{
    hanneddois_match rows[3];
    size_t count = 7;
    memset(rows, 0x55, sizeof rows);
    hanneddois_status status = hanneddois_find_all(regex, haystack, length, rows, 3, &count, &error);
    CHECK(status == HANNEDDOIS_OK ? count == 3 : count <= 3);
    for (size_t i = 0; i < 3; i++)
        if (i < count)
            CHECK(rows[i].pattern == 0 && rows[i].start == starts[i] && rows[i].end == starts[i] + 1);
        else
            CHECK(rows[i].start == (size_t)0x5555555555555555);
    return status;
}

static hanneddois_status which(hanneddois_regex *regex)
{
    uint8_t matched[2] = {7, 7};
    size_t count = 7;
    hanneddois_status status = hanneddois_matching_patterns(regex, haystack, length, matched, 2, &count, &error);
    if (status == HANNEDDOIS_OK)
        CHECK(count == 1 && matched[0] == 1 && matched[1] == 0);
    else
        CHECK(count == 0 && matched[0] == 0 && matched[1] == 0);
    return status;
}

/* Without a match, and after an error, no slot holds an offset. */
static hanneddois_status captures(hanneddois_regex *regex)
{
    hanneddois_match match = {7, 7, 7};
    size_t slots[4] = {7, 7, 7, 7};
    hanneddois_status status = hanneddois_captures(regex, haystack, length, 4, &match, slots, 4, &error);
    int is_found = status == HANNEDDOIS_OK;
    CHECK(match.pattern == 0 && match.start == (is_found ? 9 : 0) && match.end == (is_found ? 10 : 0));
    CHECK(slots[0] == (is_found ? 9 : HANNEDDOIS_NO_OFFSET) && slots[1] == (is_found ? 10 : HANNEDDOIS_NO_OFFSET));
    CHECK(slots[2] == HANNEDDOIS_NO_OFFSET && slots[3] == HANNEDDOIS_NO_OFFSET);
    return status;
}

/* After an error the matches before it are counted and written with their slots. */
static hanneddois_status captures_all(hanneddois_regex *regex)
{
    hanneddois_match rows[3];
    size_t count = 7, slots[12];
    memset(rows, 0x55, sizeof rows);
    memset(slots, 0x55, sizeof slots);
    hanneddois_status status = hanneddois_captures_all(regex, haystack, length, rows, 3, slots, 12, 4, &count, &error);
    CHECK(status == HANNEDDOIS_OK ? count == 3 : count <= 3);
    for (size_t i = 0; i < 3; i++) {
        const size_t *own = slots + 4 * i;
        if (i < count) {
            CHECK(rows[i].pattern == 0 && rows[i].start == starts[i] && rows[i].end == starts[i] + 1);
            CHECK(own[0] == starts[i] && own[1] == starts[i] + 1 && own[2] == HANNEDDOIS_NO_OFFSET && own[3] == HANNEDDOIS_NO_OFFSET);
        } else {
            CHECK(rows[i].start == (size_t)0x5555555555555555);
            CHECK(own[0] == (size_t)0x5555555555555555 || (i == count && own[0] == HANNEDDOIS_NO_OFFSET));
        }
    }
    return status;
}

/* After an error the search goes on where it failed. */
static hanneddois_status captures_next(hanneddois_regex *regex)
{
    hanneddois_match rows[3];
    size_t count = 7, from = 0, slots[12];
    memset(rows, 0x55, sizeof rows);
    memset(slots, 0x55, sizeof slots);
    hanneddois_status status = hanneddois_captures_next(regex, haystack, length, &from, rows, 3, slots, 12, 4, &count, &error);
    CHECK(status == HANNEDDOIS_OK ? count == 3 : count <= 3);
    CHECK(from == (count ? starts[count - 1] + 1 : 0));
    for (size_t i = 0; i < 3; i++) {
        const size_t *own = slots + 4 * i;
        if (i < count) {
            CHECK(rows[i].pattern == 0 && rows[i].start == starts[i] && rows[i].end == starts[i] + 1);
            CHECK(own[0] == starts[i] && own[1] == starts[i] + 1 && own[2] == HANNEDDOIS_NO_OFFSET && own[3] == HANNEDDOIS_NO_OFFSET);
        } else {
            CHECK(rows[i].start == (size_t)0x5555555555555555);
            CHECK(own[0] == (size_t)0x5555555555555555 || (i == count && own[0] == HANNEDDOIS_NO_OFFSET));
        }
    }
    return status;
}

/* After an error nothing is written. Each match, a k, is replaced by two. */
static hanneddois_status replace_all(hanneddois_regex *regex)
{
    uint8_t output[100];
    size_t written = 7, count = 7;
    memset(output, 0x55, sizeof output);
    hanneddois_status status = hanneddois_replace_all(regex, haystack, length, (const uint8_t *)"$0$0", 4, 0, 0, output, sizeof output,
                                                      &written, &count, &error);
    CHECK(status == HANNEDDOIS_OK ? count == 3 && written == length + 3 : count == 0 && written == 0);
    CHECK(output[written] == 0x55);
    if (status == HANNEDDOIS_OK)
        CHECK(output[starts[0]] == 'k' && output[starts[0] + 1] == 'k' && output[starts[2] + 3] == 'k');
    return status;
}

/* A second regex of the same patterns, which is freed again. */
static hanneddois_status clone(hanneddois_regex *regex)
{
    hanneddois_regex copy = HANNEDDOIS_EMPTY;
    error.status = hanneddois_clone(regex, &copy);
    CHECK((copy.inside != NULL) == (error.status == HANNEDDOIS_OK));
    hanneddois_free(&copy);
    return error.status;
}

typedef hanneddois_status call(hanneddois_regex *regex);

/* With ample memory a call answers, and is never out of memory. It may be only where an allocation failed, and then the same call
   succeeds when it is tried again. An allocation that fails may also be made up for, and the result is the right one. */
static void each_fails(call *call, int is_new)
{
    size_t reported = 0;
    for (size_t number = 1;; number++) {
        hanneddois_regex regex = HANNEDDOIS_EMPTY;
        start(0);
        if (!is_new)
            CHECK(make(&regex) == HANNEDDOIS_OK);
        start(number);
        hanneddois_status status = call(&regex);
        size_t failures = failed;
        CHECK(status == HANNEDDOIS_OK || (status == HANNEDDOIS_NO_MEMORY && failures == 1));
        CHECK(error.status == status);
        reported += status == HANNEDDOIS_NO_MEMORY;
        start(0);
        CHECK(call(&regex) == HANNEDDOIS_OK);
        CHECK(is_match(&regex) == HANNEDDOIS_OK);
        hanneddois_free(&regex);
        CHECK(held == 0);
        if (failures == 0)
            break;
    }
    CHECK(reported > 0);
}

/* A regex with each of its parts made: caches, the automaton of hanneddois_matching_patterns, what finds groups, and the regexes that answer
   where automata give up. */
static void make_whole(hanneddois_regex *regex)
{
    CHECK(make(regex) == HANNEDDOIS_OK);
    CHECK(find_all(regex) == HANNEDDOIS_OK);
    CHECK(which(regex) == HANNEDDOIS_OK);
    CHECK(captures(regex) == HANNEDDOIS_OK);
}

/* hanneddois_new frees what stood in the regex before, whether it succeeds or not, and hanneddois_free does. */
static void replaced(void)
{
    hanneddois_options options = {0};
    hanneddois_regex regex = HANNEDDOIS_EMPTY, other = HANNEDDOIS_EMPTY;
    size_t one = 1, two = 2;
    start(0);
    make_whole(&regex);
    size_t whole = held;
    CHECK(whole > 0);
    hanneddois_free(&regex);
    CHECK(held == 0);

    make_whole(&regex);
    make_whole(&regex);
    CHECK(held == whole);
    CHECK(hanneddois_new(&regex, (const uint8_t *)"a", 1, &one, 1, &options, &error) == HANNEDDOIS_OK);
    size_t small = held;
    hanneddois_free(&regex);
    CHECK(hanneddois_new(&other, (const uint8_t *)"a", 1, &one, 1, &options, &error) == HANNEDDOIS_OK);
    CHECK(held == small);
    hanneddois_free(&other);
    CHECK(held == 0);

    make_whole(&regex);
    CHECK(hanneddois_new(&regex, (const uint8_t *)"a(", 2, &two, 1, &options, &error) == HANNEDDOIS_SYNTAX_ERROR);
    CHECK(regex.inside == NULL && held == 0);
    make_whole(&regex);
    CHECK(hanneddois_new(&regex, (const uint8_t *)"a", 1, &two, 1, &options, &error) == HANNEDDOIS_BAD_ARGUMENT);
    CHECK(regex.inside == NULL && held == 0);
}

/* A clone shares what was compiled, which is freed with the last of them, and frees what stood in its destination. */
static void cloned(void)
{
    hanneddois_regex regex = HANNEDDOIS_EMPTY, copy = HANNEDDOIS_EMPTY, last = HANNEDDOIS_EMPTY;
    start(0);
    CHECK(make(&regex) == HANNEDDOIS_OK);
    size_t one = held;
    CHECK(hanneddois_clone(&regex, &copy) == HANNEDDOIS_OK);
    size_t two = held;
    CHECK(two > one && two < 2 * one);
    make_whole(&last);
    CHECK(hanneddois_clone(&copy, &last) == HANNEDDOIS_OK);
    CHECK(held - two == two - one);
    hanneddois_free(&copy);
    CHECK(held == two);
    hanneddois_free(&regex);
    CHECK(held == one);
    CHECK(find_all(&last) == HANNEDDOIS_OK && which(&last) == HANNEDDOIS_OK && is_match(&last) == HANNEDDOIS_OK);
    CHECK(hanneddois_clone(&copy, &last) == HANNEDDOIS_BAD_ARGUMENT && last.inside == NULL);
    CHECK(held == 0);

    make_whole(&copy);
    CHECK(make(&regex) == HANNEDDOIS_OK);
    start(1);
    CHECK(hanneddois_clone(&regex, &copy) == HANNEDDOIS_NO_MEMORY && copy.inside == NULL);
    CHECK(held == one);
    hanneddois_free(&regex);
    CHECK(held == 0);
}

/* With the flag, what finds groups is made by hanneddois_new, and by hanneddois_clone. A search then makes less. */
static hanneddois_status make_with_groups(hanneddois_regex *regex)
{
    hanneddois_options options = {0};
    options.flags = HANNEDDOIS_GROUPS;
    return hanneddois_new(regex, patterns, 6, lengths, 2, &options, &error);
}

static void made_at_once(void)
{
    hanneddois_regex later = HANNEDDOIS_EMPTY, at_once = HANNEDDOIS_EMPTY, copy = HANNEDDOIS_EMPTY;
    start(0);
    CHECK(make(&later) == HANNEDDOIS_OK);
    size_t without = held;
    CHECK(make_with_groups(&at_once) == HANNEDDOIS_OK);
    CHECK(held - without > without);
    CHECK(is_match(&later) == HANNEDDOIS_OK && is_match(&at_once) == HANNEDDOIS_OK);
    CHECK(find_at(&later) == HANNEDDOIS_OK && find_at(&at_once) == HANNEDDOIS_OK);
    start(0);
    CHECK(captures(&later) == HANNEDDOIS_OK);
    size_t asked_later = asked;
    start(0);
    CHECK(captures(&at_once) == HANNEDDOIS_OK);
    CHECK(asked < asked_later);
    size_t asked_at_once = asked;
    CHECK(hanneddois_clone(&at_once, &copy) == HANNEDDOIS_OK);
    CHECK(is_match(&copy) == HANNEDDOIS_OK && find_at(&copy) == HANNEDDOIS_OK);
    start(0);
    CHECK(captures(&copy) == HANNEDDOIS_OK && asked == asked_at_once);
    hanneddois_free(&copy);
    hanneddois_free(&later);
    hanneddois_free(&at_once);
    CHECK(held == 0);
}

static hanneddois_status clone_with_groups(hanneddois_regex *regex)
{
    hanneddois_options options = {0};
    options.flags = HANNEDDOIS_GROUPS;
    size_t number = fails_at;
    start(0);
    CHECK(hanneddois_new(regex, patterns, 6, lengths, 2, &options, &error) == HANNEDDOIS_OK);
    start(number);
    return clone(regex);
}

/* 100,000 streams, each with another input so far, take less than 64 bytes each beside the cache and the states that they share, and in all
   less than 100 MB. Each is in one of many states, over a cache of the least capacity, which is cleared all the time. */
static void many_streams(void)
{
    enum { COUNT = 100000, READ = 40 };
    static const uint8_t text[] = "a[a-z]{9}c|[0-9]{4}x";
    static const size_t length = sizeof text - 1;
    hanneddois_streams streams = HANNEDDOIS_EMPTY;
    hanneddois_options options = {0};
    hanneddois_end ends[1];
    uint32_t dice = 1;
    options.flags = HANNEDDOIS_RAISE_CAPACITY;
    options.capacity = 1;
    start(0);
    CHECK(hanneddois_streams_new(&streams, text, length, &length, 1, &options, &error) == HANNEDDOIS_OK);
    size_t before = held_bytes;
    for (size_t i = 0; i < COUNT; i++) {
        size_t stream, taken, count;
        uint8_t bytes[READ];
        CHECK(hanneddois_stream_new(&streams, &stream) == HANNEDDOIS_OK && stream == i);
        for (size_t k = 0; k < READ; k++) {
            dice = dice * 1664525 + 1013904223;
            bytes[k] = (uint8_t)"aaaacdefxz0123456789"[(dice >> 16) % 20];
        }
        CHECK(hanneddois_stream_feed(&streams, stream, bytes, 4, ends, 1, &taken, &count, &error) == HANNEDDOIS_OK);
        if (i == 0)
            before = held_bytes;
    }
    /* the list of streams doubles, so it may have room for twice as many */
    CHECK(held_bytes - before < 2 * 64 * (size_t)COUNT + (1 << 20));
    for (size_t i = 0; i < COUNT; i++) {
        size_t taken = 0, count;
        uint8_t bytes[READ];
        for (size_t k = 0; k < READ; k++) {
            dice = dice * 1664525 + 1013904223;
            bytes[k] = (uint8_t)"aaaacdefxz0123456789"[(dice >> 16) % 20];
        }
        for (size_t at = 0; at < READ; at += taken)
            CHECK(hanneddois_stream_feed(&streams, i, bytes + at, READ - at, ends, 1, &taken, &count, &error) == HANNEDDOIS_OK);
    }
    if (getenv("SHOW"))
        printf("memory: %zu bytes in %zu blocks for %d streams\n", held_bytes, held, COUNT);
    CHECK(held_bytes < 100000000);
    hanneddois_streams_free(&streams);
    CHECK(held == 0);
}

int main(void)
{
    many_streams();
    replaced();
    cloned();
    made_at_once();
    each_fails(clone, 0);
    each_fails(clone_with_groups, 0);
    each_fails(make, 1);
    each_fails(make_with_groups, 1);
    each_fails(captures, 0);
    each_fails(captures_all, 0);
    each_fails(captures_next, 0);
    each_fails(replace_all, 0);
    each_fails(is_match, 0);
    each_fails(find_at, 0);
    each_fails(find_all, 0);
    each_fails(which, 0);
    return wrong;
}
