/* Each allocation of each call of the library fails in turn. Built with -Wl,--wrap=malloc,--wrap=realloc,--wrap=free. Prints a line
 * `| `call` | allocations | reported | answered |` for each call of the header, summed over the regexes and haystacks below: how many
 * of its allocations failed, after how many of these it returned HANNEDDOIS_NO_MEMORY, and after how many it made up for them and
 * returned what it returns with ample memory. Prints also what is wrong, and then ends with status 1.
 *
 * After HANNEDDOIS_NO_MEMORY the outputs have to be as the header says: an empty regex, a match of 0, the matches before as they are
 * with ample memory and no other row changed, marks and a count of 0, an output that is unchanged, and an error without other fields. The same call made once more
 * returns what it returns with ample memory. After the last hanneddois_free no block is held.
 */
#include <stdio.h>
#include <stdlib.h>
#include <string.h>

#include "hanneddois.h"

void *__real_malloc(size_t size);
void *__real_realloc(void *block, size_t size);
void __real_free(void *block);

/* The blocks that are held, the allocations since the last start, and which of these fails; 0 for none. */
static size_t held, asked, fails_at, failed;

static int fails(void)
{
    asked++;
    if (asked != fails_at)
        return 0;
    failed++;
    return 1;
}

void *__wrap_malloc(size_t size)
{
    if (fails())
        return NULL;
    void *block = __real_malloc(size);
    held += block != NULL;
    return block;
}

void *__wrap_realloc(void *block, size_t size)
{
    if (fails())
        return NULL;
    void *grown = __real_realloc(block, size);
    held += block == NULL && grown != NULL;
    return grown;
}

void __wrap_free(void *block)
{
    held -= block != NULL;
    __real_free(block);
}

static void start(size_t number)
{
    asked = failed = 0;
    fails_at = number;
}

/* ---- regexes and haystacks */

struct made {
    const char *name, *texts;
    size_t lengths[4], count;
    hanneddois_options options;
    const char *haystack;
    size_t length;
};

#define HAYSTACK(text) text, sizeof text - 1

static const struct made ALL[] = {
    {"a literal", "foo", {3}, 1, {0, 0, 0, 0}, HAYSTACK("a foo, foo\n")},
    {"words, where the automata give up", "\\bk\\bz", {5, 1}, 2, {0, 0, 0, 0}, HAYSTACK("\xC3\xA9 k \xC3\xA9k k\xE2\x80\x94 k")},
    {"letters in either case", "[a-s\\x{3B1}-\\x{3C9}&&[^k]]+ss", {27, 2}, 2, {HANNEDDOIS_CASE_INSENSITIVE | HANNEDDOIS_MATCHING_PATTERNS, 0, 0, 0}, HAYSTACK("ab STRASSE \xC5\xBF\xC5\xBF 12")},
    {"characters", "(?s:.)\xC3\xA9|x{2,5}", {6, 9}, 2, {HANNEDDOIS_UTF8, 0, 0, 0}, HAYSTACK("\xC3\xA9t\xC3\xA9 xxxxxxx")},
    {"empty loops", "(?:a*)*b()", {7, 3}, 2, {HANNEDDOIS_EMPTY_LOOPS, 0, 0, 0}, HAYSTACK("aab aa b")},
    {"caches of the least size", "[a-z]+[0-9]{3}q|r", {14, 3}, 2, {HANNEDDOIS_RAISE_CAPACITY | HANNEDDOIS_NO_BYTE_CLASSES, 0, 1, 0}, HAYSTACK("abc123 xyz456 q r abc789 zzz000 mnop111")},
    {"shared states", "[\\x{3B1}-\\x{3C9}a-f]+$", {22}, 1, {HANNEDDOIS_SHRINK | HANNEDDOIS_MULTI_LINE, 0, 0, 0}, HAYSTACK("\xCE\xB1\xCE\xB2 abc\nfff\nx")},
    {"groups", "(a+)(?:-(b))?(?<name>[c-e])*x(y|z)", {28, 6}, 2, {HANNEDDOIS_GROUPS, 0, 0, 0}, HAYSTACK("aa-bcde xy a xz")},
    {"lines of streams", "^[a-c]+$b\\z", {8, 3}, 2, {HANNEDDOIS_STREAM_LINES | HANNEDDOIS_RAISE_CAPACITY, 0, 1, 0}, HAYSTACK("ab\n\nxb\nabc")},
    {"four patterns", "^abb+c[cd]e$", {3, 2, 5, 2}, 4, {HANNEDDOIS_CRLF | HANNEDDOIS_MULTI_LINE, 0, 0, 0}, HAYSTACK("abbb\r\ncdde\r\n")},
};
#define COUNT (sizeof ALL / sizeof ALL[0])
#define ROWS 16
#define WIDTH 6

static const struct made *now;
static int wrong;

#define CHECK(what)                                                                                     \
    do {                                                                                                \
        if (!(what)) {                                                                                  \
            printf("tests/refused/library: line %d, %s: %s, allocation %zu\n", __LINE__, now->name, #what, fails_at); \
            wrong = 1;                                                                                  \
        }                                                                                               \
    } while (0)

/* What a call returned and wrote. */
struct result {
    hanneddois_status status;
    hanneddois_error error;
    hanneddois_match match, rows[ROWS];
    size_t count, number, slots[WIDTH * ROWS];
    uint8_t marks[4], text[256];
};

static int is_same(const struct result *first, const struct result *second)
{
    return memcmp(first, second, sizeof *first) == 0;
}

/* ---- calls */

typedef void call(hanneddois_regex *regex, struct result *result);

static void make(hanneddois_regex *regex, struct result *result)
{
    size_t length = 0;
    for (size_t i = 0; i < now->count; i++)
        length += now->lengths[i];
    result->status = hanneddois_new(regex, (const uint8_t *)now->texts, length, now->lengths, now->count, &now->options, &result->error);
    CHECK((regex->inside != NULL) == (result->status == HANNEDDOIS_OK));
}

static const uint8_t *haystack(void)
{
    return (const uint8_t *)now->haystack;
}

static void is_match(hanneddois_regex *regex, struct result *result)
{
    result->status = hanneddois_is_match(regex, haystack(), now->length, &result->error);
}

static void find_at(hanneddois_regex *regex, struct result *result)
{
    result->status = hanneddois_find_at(regex, haystack(), now->length, 1, &result->match, &result->error);
    if (result->status != HANNEDDOIS_OK)
        CHECK(result->match.pattern == 0 && result->match.start == 0 && result->match.end == 0);
}

static void find_all(hanneddois_regex *regex, struct result *result)
{
    result->status = hanneddois_find_all(regex, haystack(), now->length, result->rows, ROWS, &result->count, &result->error);
    for (size_t i = result->count; i < ROWS; i++)
        CHECK(result->rows[i].start == (size_t)0x5555555555555555);
}

static void captures(hanneddois_regex *regex, struct result *result)
{
    result->status = hanneddois_captures(regex, haystack(), now->length, 1, &result->match, result->slots, WIDTH, &result->error);
    if (result->status == HANNEDDOIS_OK)
        return;
    CHECK(result->match.pattern == 0 && result->match.start == 0 && result->match.end == 0);
    for (size_t i = 0; i < WIDTH; i++)
        CHECK(result->slots[i] == HANNEDDOIS_NO_OFFSET);
}

static void captures_all(hanneddois_regex *regex, struct result *result)
{
    result->status = hanneddois_captures_all(regex, haystack(), now->length, result->rows, ROWS, result->slots, WIDTH * ROWS, WIDTH, &result->count, &result->error);
    for (size_t i = result->count; i < ROWS; i++)
        CHECK(result->rows[i].start == (size_t)0x5555555555555555);
    /* after an error those of the next match may hold no offset */
    for (size_t i = WIDTH * (result->count + (result->status > HANNEDDOIS_NONE)); i < WIDTH * ROWS; i++)
        CHECK(result->slots[i] == (size_t)0x5555555555555555);
}

/* The same of the next matches, and the offset from which to go on. */
static void captures_next(hanneddois_regex *regex, struct result *result)
{
    result->number = 0;
    result->status = hanneddois_captures_next(regex, haystack(), now->length, &result->number, result->rows, ROWS, result->slots, WIDTH * ROWS, WIDTH,
                                              &result->count, &result->error);
    const hanneddois_match *last = result->count ? &result->rows[result->count - 1] : NULL;
    CHECK(result->number == (last ? last->end + (last->start == last->end) : 0));
    for (size_t i = result->count; i < ROWS; i++)
        CHECK(result->rows[i].start == (size_t)0x5555555555555555);
    for (size_t i = WIDTH * (result->count + (result->status > HANNEDDOIS_NONE)); i < WIDTH * ROWS; i++)
        CHECK(result->slots[i] == (size_t)0x5555555555555555);
}

/* A template with all groups of the widest pattern. */
static void replace_all(hanneddois_regex *regex, struct result *result)
{
    static const char by[] = "<$1$2${name}$$>";
    result->status = hanneddois_replace_all(regex, haystack(), now->length, (const uint8_t *)by, sizeof by - 1, 0, 0, result->text,
                                            sizeof result->text, &result->number, &result->count, &result->error);
    if (result->status > HANNEDDOIS_NONE)
        CHECK(result->number == 0 && result->count == 0);
    for (size_t i = result->number; i < sizeof result->text; i++)
        CHECK(result->text[i] == 0x55);
}

static void group_count(hanneddois_regex *regex, struct result *result)
{
    result->number = hanneddois_group_count(regex, 0);
    result->status = HANNEDDOIS_OK;
}

static void group_name(hanneddois_regex *regex, struct result *result)
{
    result->number = hanneddois_group_name(regex, 0, 3, result->text, sizeof result->text);
    result->status = HANNEDDOIS_OK;
}

static void matching_patterns(hanneddois_regex *regex, struct result *result)
{
    result->status = hanneddois_matching_patterns(regex, haystack(), now->length, result->marks, now->count, &result->count, &result->error);
    if (result->status != HANNEDDOIS_OK)
        CHECK(result->count == 0 && memcmp(result->marks, "\0\0\0\0", now->count) == 0);
}

/* A second regex in the place of one that is there, which is then freed. */
static void make_clone(hanneddois_regex *regex, struct result *result)
{
    hanneddois_regex copy = HANNEDDOIS_EMPTY;
    size_t at = fails_at, made = 0, missed = 0;
    struct result other;
    memset(&other, 0x55, sizeof other);
    start(0);
    CHECK(hanneddois_clone(regex, &copy) == HANNEDDOIS_OK);
    matching_patterns(&copy, &other);
    start(at);
    result->error = (hanneddois_error){0, 0, 0, 0, 0, 0};
    result->status = result->error.status = hanneddois_clone(regex, &copy);
    made = asked, missed = failed;
    CHECK((copy.inside != NULL) == (result->status == HANNEDDOIS_OK));
    start(0);
    if (result->status == HANNEDDOIS_OK)
        find_all(&copy, result);
    hanneddois_free(&copy);
    asked = made, failed = missed, fails_at = at;
}

static void free_regex(hanneddois_regex *regex, struct result *result)
{
    hanneddois_free(regex);
    CHECK(regex->inside == NULL);
    result->status = HANNEDDOIS_OK;
}

static void pattern_count(hanneddois_regex *regex, struct result *result)
{
    result->number = hanneddois_pattern_count(regex);
    result->status = HANNEDDOIS_OK;
}

static void error_text(hanneddois_regex *regex, struct result *result)
{
    (void)regex;
    hanneddois_error error = {HANNEDDOIS_SYNTAX_ERROR, 1, 0, 0, 0, 0};
    result->number = hanneddois_error_text(&error, result->text, sizeof result->text);
    result->status = HANNEDDOIS_OK;
}

static void memory_usage(hanneddois_regex *regex, struct result *result)
{
    result->number = hanneddois_memory_usage(regex);
    result->status = HANNEDDOIS_OK;
}

static void clear_count(hanneddois_regex *regex, struct result *result)
{
    result->number = hanneddois_clear_count(regex);
    result->status = HANNEDDOIS_OK;
}

static void version(hanneddois_regex *regex, struct result *result)
{
    (void)regex;
    result->number = hanneddois_version();
    result->status = HANNEDDOIS_OK;
}

/* ---- calls with streams: each sets up what it needs with ample memory, and the regex is of no use to it */

/* What the allocator counted up to now. */
struct counted {
    size_t asked, failed, fails_at;
};

static struct counted with_ample_memory(void)
{
    struct counted it = {asked, failed, fails_at};
    start(0);
    return it;
}

static void go_on(struct counted it)
{
    asked = it.asked, failed = it.failed, fails_at = it.fails_at;
}

/* Word boundaries are those of ASCII, since streams have no others. */
static hanneddois_status make_set(hanneddois_streams *streams, hanneddois_error *error)
{
    size_t length = 0;
    hanneddois_options options = now->options;
    if (strstr(now->texts, "\\b") != NULL)
        options.flags |= HANNEDDOIS_NO_UNICODE;
    for (size_t i = 0; i < now->count; i++)
        length += now->lengths[i];
    return hanneddois_streams_new(streams, (const uint8_t *)now->texts, length, now->lengths, now->count, &options, error);
}

/* A set with a stream that has read the first bytes of the haystack. */
static hanneddois_streams set_with_stream(size_t length)
{
    hanneddois_streams streams = HANNEDDOIS_EMPTY;
    hanneddois_error error;
    hanneddois_end ends[64];
    size_t stream, taken, count;
    CHECK(make_set(&streams, &error) == HANNEDDOIS_OK);
    CHECK(hanneddois_stream_new(&streams, &stream) == HANNEDDOIS_OK && stream == 0);
    CHECK(hanneddois_stream_feed(&streams, 0, haystack(), length, ends, 64, &taken, &count, &error) == HANNEDDOIS_OK && taken == length);
    return streams;
}

/* Feeds the rest of the haystack to a stream and closes it. Writes how many ends there are from here on, and a sum of them all. */
static void finish(hanneddois_streams *streams, size_t stream, size_t from, size_t sums[2])
{
    hanneddois_error error;
    hanneddois_end ends[64];
    size_t taken, count, last;
    CHECK(hanneddois_stream_feed(streams, stream, haystack() + from, now->length - from, ends, 60, &taken, &count, &error) == HANNEDDOIS_OK);
    CHECK(taken == now->length - from);
    CHECK(hanneddois_stream_close(streams, stream, ends + count, 4, &last, &error) == HANNEDDOIS_OK);
    sums[0] += count + last;
    for (size_t i = 0; i < count + last; i++)
        sums[1] += (ends[i].pattern + 1) * (ends[i].end + 1);
}

static void streams_new(hanneddois_regex *regex, struct result *result)
{
    (void)regex;
    hanneddois_streams streams = HANNEDDOIS_EMPTY;
    result->status = make_set(&streams, &result->error);
    CHECK((streams.inside != NULL) == (result->status == HANNEDDOIS_OK));
    struct counted it = with_ample_memory();
    hanneddois_streams_free(&streams);
    go_on(it);
}

static void streams_free(hanneddois_regex *regex, struct result *result)
{
    (void)regex;
    struct counted it = with_ample_memory();
    hanneddois_streams streams = set_with_stream(now->length);
    go_on(it);
    hanneddois_streams_free(&streams);
    CHECK(streams.inside == NULL);
    result->status = HANNEDDOIS_OK;
}

static void streams_memory_usage(hanneddois_regex *regex, struct result *result)
{
    (void)regex;
    struct counted it = with_ample_memory();
    hanneddois_streams streams = set_with_stream(now->length);
    go_on(it);
    result->number = hanneddois_streams_memory_usage(&streams);
    it = with_ample_memory();
    hanneddois_streams_free(&streams);
    go_on(it);
    result->status = HANNEDDOIS_OK;
}

/* A call that adds a stream, to which the haystack is then fed. */
static void added(struct result *result, int is_copy)
{
    struct counted it = with_ample_memory();
    size_t half = is_copy ? now->length / 2 : 0, stream = 9, sums[2] = {0, 0}, first[2] = {0, 0};
    hanneddois_streams streams = set_with_stream(half);
    go_on(it);
    result->error = (hanneddois_error){0, 0, 0, 0, 0, 0};
    result->status = is_copy ? hanneddois_stream_clone(&streams, 0, &stream) : hanneddois_stream_new(&streams, &stream);
    result->error.status = result->status;
    it = with_ample_memory();
    CHECK(stream == (result->status == HANNEDDOIS_OK));
    finish(&streams, 0, half, first);
    if (result->status == HANNEDDOIS_OK)
        finish(&streams, stream, half, sums);
    CHECK(result->status != HANNEDDOIS_OK || (sums[0] == first[0] && sums[1] == first[1]));
    hanneddois_streams_free(&streams);
    go_on(it);
}

static void stream_new(hanneddois_regex *regex, struct result *result)
{
    (void)regex;
    added(result, 0);
}

static void stream_clone(hanneddois_regex *regex, struct result *result)
{
    (void)regex;
    added(result, 1);
}

/* What wasn't taken when memory ran out is fed again: the ends are those with ample memory. */
static void stream_feed(hanneddois_regex *regex, struct result *result)
{
    (void)regex;
    hanneddois_end ends[64];
    size_t taken = 99, count = 99, sums[2] = {0, 0};
    struct counted it = with_ample_memory();
    hanneddois_streams streams = set_with_stream(0);
    go_on(it);
    result->status = hanneddois_stream_feed(&streams, 0, haystack(), now->length, ends, 60, &taken, &count, &result->error);
    it = with_ample_memory();
    CHECK(taken <= now->length && count <= 60);
    CHECK(result->status != HANNEDDOIS_OK || taken == now->length);
    for (size_t i = 0; i < count; i++)
        sums[1] += (ends[i].pattern + 1) * (ends[i].end + 1);
    sums[0] = count;
    finish(&streams, 0, taken, sums);
    result->count = sums[0];
    result->number = sums[1];
    hanneddois_streams_free(&streams);
    go_on(it);
}

/* A stream that can't be closed is as it was. */
static void stream_close(hanneddois_regex *regex, struct result *result)
{
    (void)regex;
    hanneddois_end ends[64];
    size_t count = 99, sums[2] = {0, 0};
    struct counted it = with_ample_memory();
    hanneddois_streams streams = set_with_stream(now->length);
    go_on(it);
    result->status = hanneddois_stream_close(&streams, 0, ends, 60, &count, &result->error);
    it = with_ample_memory();
    if (result->status == HANNEDDOIS_OK) {
        sums[0] = count;
        for (size_t i = 0; i < count; i++)
            sums[1] += (ends[i].pattern + 1) * (ends[i].end + 1);
    } else {
        CHECK(count == 0);
        finish(&streams, 0, now->length, sums);
    }
    result->count = sums[0];
    result->number = sums[1];
    hanneddois_streams_free(&streams);
    go_on(it);
}

static void stream_reset(hanneddois_regex *regex, struct result *result)
{
    (void)regex;
    size_t sums[2] = {0, 0};
    struct counted it = with_ample_memory();
    hanneddois_streams streams = set_with_stream(now->length / 2);
    go_on(it);
    result->status = hanneddois_stream_reset(&streams, 0);
    it = with_ample_memory();
    finish(&streams, 0, 0, sums);
    result->number = sums[1];
    hanneddois_streams_free(&streams);
    go_on(it);
}

/* A number that isn't noted as free, since memory ran out, isn't used again. */
static void stream_free(hanneddois_regex *regex, struct result *result)
{
    (void)regex;
    size_t stream = 9;
    struct counted it = with_ample_memory();
    hanneddois_streams streams = set_with_stream(now->length / 2);
    go_on(it);
    result->status = hanneddois_stream_free(&streams, 0);
    it = with_ample_memory();
    CHECK(hanneddois_stream_free(&streams, 0) == HANNEDDOIS_BAD_ARGUMENT);
    CHECK(hanneddois_stream_new(&streams, &stream) == HANNEDDOIS_OK && stream < 2);
    hanneddois_streams_free(&streams);
    go_on(it);
}

struct row {
    const char *name;
    call *call;
    int is_new;   /* it makes the regex */
    int is_error; /* it has a parameter for an error */
};

static const struct row CALLS[] = {
    {"hanneddois_new", make, 1, 1},
    {"hanneddois_clone", make_clone, 0, 0},
    {"hanneddois_free", free_regex, 0, 0},
    {"hanneddois_pattern_count", pattern_count, 0, 0},
    {"hanneddois_is_match", is_match, 0, 1},
    {"hanneddois_find_at", find_at, 0, 1},
    {"hanneddois_find_all", find_all, 0, 1},
    {"hanneddois_captures", captures, 0, 1},
    {"hanneddois_captures_all", captures_all, 0, 1},
    {"hanneddois_captures_next", captures_next, 0, 1},
    {"hanneddois_replace_all", replace_all, 0, 1},
    {"hanneddois_group_count", group_count, 0, 0},
    {"hanneddois_group_name", group_name, 0, 0},
    {"hanneddois_matching_patterns", matching_patterns, 0, 1},
    {"hanneddois_error_text", error_text, 0, 0},
    {"hanneddois_memory_usage", memory_usage, 0, 0},
    {"hanneddois_clear_count", clear_count, 0, 0},
    {"hanneddois_streams_new", streams_new, 0, 1},
    {"hanneddois_streams_free", streams_free, 0, 0},
    {"hanneddois_streams_memory_usage", streams_memory_usage, 0, 0},
    {"hanneddois_stream_new", stream_new, 0, 1},
    {"hanneddois_stream_feed", stream_feed, 0, 1},
    {"hanneddois_stream_close", stream_close, 0, 1},
    {"hanneddois_stream_reset", stream_reset, 0, 0},
    {"hanneddois_stream_clone", stream_clone, 0, 1},
    {"hanneddois_stream_free", stream_free, 0, 0},
    {"hanneddois_version", version, 0, 0},
};

/* ---- sweeps */

/* Makes the call over a regex that is made with ample memory and has searched nothing yet, or, for one that makes it, over one that is
   replaced. */
static void call_once(const struct row *row, hanneddois_regex *whole, hanneddois_regex *regex, size_t number, struct result *result)
{
    struct result other;
    memset(&other, 0x55, sizeof other);
    start(0);
    CHECK(hanneddois_clone(whole, regex) == HANNEDDOIS_OK);
    if (row->is_new)
        find_all(regex, &other);
    memset(result, 0x55, sizeof *result);
    start(number);
    row->call(regex, result);
}

/* What has to hold after HANNEDDOIS_NO_MEMORY, next to what the calls check. */
static void check_refused(const struct row *row, const struct result *result, const struct result *ample)
{
    CHECK(result->status == HANNEDDOIS_NO_MEMORY);
    if (row->is_error) {
        hanneddois_error plain;
        memset(&plain, 0, sizeof plain);
        plain.status = HANNEDDOIS_NO_MEMORY;
        CHECK(memcmp(&result->error, &plain, sizeof plain) == 0);
    }
    if (row->call == find_all || row->call == captures_all || row->call == captures_next) {
        CHECK(result->count <= ample->count);
        CHECK(memcmp(result->rows, ample->rows, result->count * sizeof result->rows[0]) == 0);
    }
    if (row->call == captures_all || row->call == captures_next)
        CHECK(memcmp(result->slots, ample->slots, result->count * WIDTH * sizeof result->slots[0]) == 0);
}

/* Makes each allocation of the call fail in turn, and adds up how many did, and how these ended. */
static void sweep(const struct row *row, size_t *made, size_t *reported, size_t *answered)
{
    hanneddois_regex regex = HANNEDDOIS_EMPTY, whole = HANNEDDOIS_EMPTY;
    struct result ample, result;
    start(0);
    make(&whole, &result);
    size_t before = held;
    call_once(row, &whole, &regex, 0, &ample);
    CHECK(ample.status == HANNEDDOIS_OK || ample.status == HANNEDDOIS_NONE);
    size_t total = asked;
    hanneddois_free(&regex);
    CHECK(held == before);
    for (size_t number = 1; number <= total; number++) {
        call_once(row, &whole, &regex, number, &result);
        CHECK(failed == 1);
        if (is_same(&result, &ample)) {
            *answered += 1;
        } else {
            *reported += 1;
            check_refused(row, &result, &ample);
        }
        start(0);
        if (row->is_new && result.status == HANNEDDOIS_NO_MEMORY)
            CHECK(held == before);
        memset(&result, 0x55, sizeof result);
        row->call(&regex, &result);
        CHECK(is_same(&result, &ample));
        hanneddois_free(&regex);
        CHECK(held == before);
    }
    hanneddois_free(&whole);
    CHECK(held == 0);
    *made += total;
}

int main(void)
{
    for (size_t i = 0; i < sizeof CALLS / sizeof CALLS[0]; i++) {
        size_t made = 0, reported = 0, answered = 0;
        for (size_t k = 0; k < COUNT; k++) {
            now = &ALL[k];
            sweep(&CALLS[i], &made, &reported, &answered);
        }
        printf("| `%s` | %zu | %zu | %zu |\n", CALLS[i].name, made, reported, answered);
        fflush(stdout);
    }
    return wrong;
}
