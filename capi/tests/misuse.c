/* What a caller may do wrong and still gets an answer for, and each field of an error. Prints nothing where all is well. */
#include <stdio.h>
#include <string.h>

#include "hanneddois.h"

static int failed = 0;

#define CHECK(what)                                              \
    do {                                                         \
        if (!(what)) {                                           \
            printf("misuse: line %d: %s\n", __LINE__, #what);    \
            failed = 1;                                          \
        }                                                        \
    } while (0)

static hanneddois_error error;

static hanneddois_status make(hanneddois_regex *regex, const char *text, const hanneddois_options *options)
{
    size_t length = strlen(text);
    return hanneddois_new(regex, (const uint8_t *)text, length, &length, 1, options, &error);
}

static const uint8_t *bytes(const char *text)
{
    return (const uint8_t *)text;
}

/* Whether a match is all 0, and no slot holds an offset. */
static int is_cleared(const hanneddois_match *match, const size_t *slots, size_t count)
{
    for (size_t i = 0; i < count; i++)
        if (slots[i] != HANNEDDOIS_NO_OFFSET)
            return 0;
    return match->pattern == 0 && match->start == 0 && match->end == 0;
}

static void empty_handles(void)
{
    hanneddois_regex none = HANNEDDOIS_EMPTY;
    hanneddois_match match = {7, 7, 7};
    size_t count = 7;
    uint8_t matched[1] = {7};
    CHECK(hanneddois_is_match(&none, bytes("a"), 1, &error) == HANNEDDOIS_BAD_ARGUMENT);
    CHECK(error.status == HANNEDDOIS_BAD_ARGUMENT);
    CHECK(hanneddois_find_at(&none, bytes("a"), 1, 0, &match, &error) == HANNEDDOIS_BAD_ARGUMENT);
    CHECK(match.pattern == 0 && match.start == 0 && match.end == 0);
    CHECK(hanneddois_find_all(&none, bytes("a"), 1, &match, 1, &count, &error) == HANNEDDOIS_BAD_ARGUMENT && count == 0);
    CHECK(hanneddois_matching_patterns(&none, bytes("a"), 1, matched, 1, &count, &error) == HANNEDDOIS_BAD_ARGUMENT && matched[0] == 0 && count == 0);
    CHECK(hanneddois_pattern_count(&none) == 0 && hanneddois_memory_usage(&none) == 0 && hanneddois_clear_count(&none) == 0);
    size_t slots[2] = {7, 7};
    match.pattern = match.start = match.end = 7;
    CHECK(hanneddois_captures(&none, bytes("a"), 1, 0, &match, slots, 2, &error) == HANNEDDOIS_BAD_ARGUMENT);
    CHECK(is_cleared(&match, slots, 2) && error.status == HANNEDDOIS_BAD_ARGUMENT);
    memset(slots, 0x55, sizeof slots);
    match.end = count = 7;
    CHECK(hanneddois_captures_all(&none, bytes("a"), 1, &match, 1, slots, 2, 2, &count, &error) == HANNEDDOIS_BAD_ARGUMENT && count == 0);
    CHECK(match.end == 7 && slots[0] == (size_t)0x5555555555555555);
    CHECK(hanneddois_group_count(&none, 0) == 0);
    CHECK(hanneddois_group_name(&none, 0, 0, matched, 1) == 0 && matched[0] == 0);
    hanneddois_free(&none);
    hanneddois_free(&none);
    CHECK(none.inside == NULL);
}

static void refusals(void)
{
    hanneddois_regex regex = HANNEDDOIS_EMPTY;
    hanneddois_options options = {0};
    CHECK(make(&regex, "a(b", &options) == HANNEDDOIS_SYNTAX_ERROR);
    CHECK(regex.inside == NULL && error.pattern == 0 && error.start == 1 && error.end == 2);
    uint8_t words[100];
    size_t length = hanneddois_error_text(&error, words, sizeof words);
    CHECK(length == 14 && memcmp(words, "unclosed group", 14) == 0);
    memset(words, 'x', sizeof words);
    CHECK(hanneddois_error_text(&error, words, 3) == 14 && memcmp(words, "uncx", 4) == 0);
    CHECK(hanneddois_error_text(&error, words, 0) == 14);

    size_t lengths[3] = {1, 2, 1};
    CHECK(hanneddois_new(&regex, bytes("aa**"), 4, lengths, 3, &options, &error) == HANNEDDOIS_SYNTAX_ERROR && error.pattern == 2);
    CHECK(hanneddois_new(&regex, bytes("aa+b"), 4, lengths, 3, &options, &error) == HANNEDDOIS_OK);
    CHECK(hanneddois_pattern_count(&regex) == 3);
    CHECK(hanneddois_new(&regex, bytes("aa+b"), 4, lengths, 2, &options, &error) == HANNEDDOIS_BAD_ARGUMENT && regex.inside == NULL);
    CHECK(hanneddois_new(&regex, bytes("aa"), 2, lengths, 3, &options, &error) == HANNEDDOIS_BAD_ARGUMENT);
    CHECK(hanneddois_new(&regex, bytes(""), 0, lengths, 0, &options, &error) == HANNEDDOIS_BAD_ARGUMENT);
    lengths[0] = SIZE_MAX;
    CHECK(hanneddois_new(&regex, bytes("aa+b"), 4, lengths, 3, &options, &error) == HANNEDDOIS_BAD_ARGUMENT);

    CHECK(make(&regex, "ab\xff", &options) == HANNEDDOIS_NOT_UTF8 && error.pattern == 0 && error.start == 2);
    /* Arguments are checked before the patterns. */
    options.flags = 1u << 20;
    CHECK(make(&regex, "ab\xff", &options) == HANNEDDOIS_BAD_ARGUMENT && error.start == 0 && regex.inside == NULL);
    CHECK(make(&regex, "a(b", &options) == HANNEDDOIS_BAD_ARGUMENT && error.cause == 0);
    options.flags = 1u << 16;
    CHECK(make(&regex, "a", &options) == HANNEDDOIS_BAD_ARGUMENT);
    options.flags = HANNEDDOIS_STREAM_LINES;
    CHECK(make(&regex, "a\nb", &options) == HANNEDDOIS_OK && hanneddois_is_match(&regex, bytes("a\nb"), 3, &error) == HANNEDDOIS_OK);
    options.flags = 0;
    size_t too_long[2] = {1, 2}, too_short[2] = {1, 1};
    CHECK(hanneddois_new(&regex, bytes("\xff*"), 2, too_long, 2, &options, &error) == HANNEDDOIS_BAD_ARGUMENT && error.start == 0);
    CHECK(hanneddois_new(&regex, bytes("\xff*b"), 3, too_short, 2, &options, &error) == HANNEDDOIS_BAD_ARGUMENT);
    CHECK(hanneddois_new(&regex, bytes("\xff*"), 2, too_short, 2, &options, &error) == HANNEDDOIS_NOT_UTF8 && error.pattern == 0);
    CHECK(hanneddois_new(&regex, bytes("*\xff"), 2, too_short, 2, &options, &error) == HANNEDDOIS_NOT_UTF8 && error.pattern == 1);
    CHECK(make(&regex, "(a*)*", &options) == HANNEDDOIS_EMPTY_LOOP && error.pattern == 0);
    options.flags = HANNEDDOIS_EMPTY_LOOPS;
    CHECK(make(&regex, "(a*)*b", &options) == HANNEDDOIS_OK);
    CHECK(hanneddois_is_match(&regex, bytes("aab"), 3, &error) == HANNEDDOIS_OK);
    /* Spans by Python's re: each b ends a match, so they have one end each. */
    hanneddois_match rows[3];
    size_t count = 7;
    memset(rows, 0x55, sizeof rows);
    CHECK(hanneddois_find_all(&regex, bytes("xxaabcab"), 8, rows, 3, &count, &error) == HANNEDDOIS_OK && count == 2);
    CHECK(rows[0].start == 2 && rows[0].end == 5 && rows[1].start == 6 && rows[1].end == 8);
    CHECK(rows[2].start == (size_t)0x5555555555555555);
    CHECK(hanneddois_find_all(&regex, bytes("xxx"), 3, rows, 3, &count, &error) == HANNEDDOIS_NONE && count == 0);
    options.flags = 1u << 20;
    CHECK(make(&regex, "a", &options) == HANNEDDOIS_BAD_ARGUMENT && regex.inside == NULL);
    options.flags = 0;
    options.nest_limit = 2;
    CHECK(make(&regex, "(((a)))", &options) == HANNEDDOIS_NESTS_TOO_DEEP);
    options.nest_limit = 0;
    options.size_limit = 100;
    CHECK(make(&regex, "[a-z]{100}", &options) == HANNEDDOIS_TOO_LARGE && error.limit == 100);
    options.size_limit = 0;
    options.capacity = 1;
    CHECK(make(&regex, "[a-z]+", &options) == HANNEDDOIS_CAPACITY_TOO_SMALL && error.limit > 1);
    options.capacity = error.limit;
    CHECK(make(&regex, "[a-z]+", &options) != HANNEDDOIS_SYNTAX_ERROR);
    options.capacity = 1;
    options.flags = HANNEDDOIS_RAISE_CAPACITY;
    CHECK(make(&regex, "[a-z]{3,9}x", &options) == HANNEDDOIS_OK);
    for (int i = 0; i < 20; i++)
        CHECK(hanneddois_is_match(&regex, bytes("abcdefgh ijklmnopqrx"), 20, &error) == HANNEDDOIS_OK);
    CHECK(hanneddois_clear_count(&regex) > 0 && hanneddois_memory_usage(&regex) > 0);
    hanneddois_free(&regex);
    CHECK(regex.inside == NULL);
    hanneddois_free(&regex);
}

static void searches(void)
{
    hanneddois_regex regex = HANNEDDOIS_EMPTY;
    hanneddois_options options = {0};
    hanneddois_match match, rows[3];
    size_t count;
    CHECK(make(&regex, "[0-9]+", &options) == HANNEDDOIS_OK);
    CHECK(hanneddois_find_at(&regex, bytes("a12b3"), 5, 2, &match, &error) == HANNEDDOIS_OK && match.start == 2 && match.end == 3);
    CHECK(hanneddois_find_at(&regex, bytes("a12b3"), 5, 5, &match, &error) == HANNEDDOIS_NONE);
    CHECK(hanneddois_find_at(&regex, bytes("a12b3"), 5, 6, &match, &error) == HANNEDDOIS_BAD_ARGUMENT);
    CHECK(hanneddois_find_at(&regex, bytes("a12b3"), 5, SIZE_MAX, &match, &error) == HANNEDDOIS_BAD_ARGUMENT);
    memset(rows, 0x55, sizeof rows);
    CHECK(hanneddois_find_all(&regex, bytes("1 2 3 45"), 8, rows, 2, &count, &error) == HANNEDDOIS_OK && count == 4);
    CHECK(rows[1].start == 2 && rows[1].end == 3 && rows[2].start == (size_t)0x5555555555555555);
    CHECK(hanneddois_find_all(&regex, bytes("1 2 3 45"), 8, rows, 0, &count, &error) == HANNEDDOIS_OK && count == 4);
    CHECK(hanneddois_find_all(&regex, bytes(""), 0, rows, 3, &count, &error) == HANNEDDOIS_NONE && count == 0);

    CHECK(make(&regex, "\\bk\\b", &options) == HANNEDDOIS_OK);
    CHECK(hanneddois_is_match(&regex, bytes("a k b"), 5, &error) == HANNEDDOIS_OK);
    /* Beside what isn't ASCII the automata give up, and other regexes answer. */
    CHECK(hanneddois_is_match(&regex, bytes("a \xc3\xa9 b"), 6, &error) == HANNEDDOIS_NONE && error.status == HANNEDDOIS_NONE);
    CHECK(hanneddois_is_match(&regex, bytes("\xc3\xa9k"), 3, &error) == HANNEDDOIS_NONE);
    CHECK(hanneddois_find_at(&regex, bytes("\xc3\xa9 k"), 4, 0, &match, &error) == HANNEDDOIS_OK && match.start == 3 && match.end == 4);
    CHECK(hanneddois_find_all(&regex, bytes("k k \xc3\xa9k \xe2\x80\x94k"), 12, rows, 3, &count, &error) == HANNEDDOIS_OK && count == 3);
    CHECK(rows[0].end == 1 && rows[1].start == 2 && rows[2].start == 11 && rows[2].end == 12);

    CHECK(make(&regex, "^a|(?-u:\\xff)", &options) == HANNEDDOIS_OK);
    CHECK(hanneddois_find_at(&regex, bytes("ba\xff"), 3, 1, &match, &error) == HANNEDDOIS_OK && match.start == 2);
    options.flags = HANNEDDOIS_UTF8;
    CHECK(make(&regex, "(?-u:\\xff)", &options) == HANNEDDOIS_SYNTAX_ERROR);
    CHECK(make(&regex, ".", &options) == HANNEDDOIS_OK);
    CHECK(hanneddois_is_match(&regex, bytes("ab\xff"), 3, &error) == HANNEDDOIS_HAYSTACK_NOT_UTF8 && error.start == 2);
    CHECK(hanneddois_find_at(&regex, bytes("\xc3\xa9"), 2, 0, &match, &error) == HANNEDDOIS_OK && match.end == 2);
    hanneddois_free(&regex);
}

static void patterns(void)
{
    hanneddois_regex regex = HANNEDDOIS_EMPTY;
    hanneddois_options options = {0};
    hanneddois_match rows[4];
    size_t count, lengths[4] = {2, 1, 2, 5};
    uint8_t matched[4];
    CHECK(hanneddois_new(&regex, bytes("abacd"), 5, lengths, 3, &options, &error) == HANNEDDOIS_OK);
    CHECK(hanneddois_find_all(&regex, bytes("cdxabaa"), 7, rows, 4, &count, &error) == HANNEDDOIS_OK && count == 4);
    CHECK(rows[0].pattern == 2 && rows[1].pattern == 0 && rows[2].pattern == 1 && rows[3].pattern == 1);

    /* In "xab" both "ab" and "a" match, though the one overlaps with the other. */
    memset(matched, 7, sizeof matched);
    CHECK(hanneddois_matching_patterns(&regex, bytes("xab"), 3, matched, 3, &count, &error) == HANNEDDOIS_OK && count == 2);
    CHECK(matched[0] == 1 && matched[1] == 1 && matched[2] == 0 && matched[3] == 7);
    CHECK(hanneddois_matching_patterns(&regex, bytes("cd"), 2, matched, 3, &count, &error) == HANNEDDOIS_OK && count == 1 && matched[2] == 1);
    CHECK(hanneddois_matching_patterns(&regex, bytes("xyz"), 3, matched, 3, &count, &error) == HANNEDDOIS_NONE && count == 0 && matched[2] == 0);
    CHECK(hanneddois_matching_patterns(&regex, bytes("cd"), 2, matched, 2, &count, &error) == HANNEDDOIS_BAD_ARGUMENT && count == 0 && matched[0] == 0);
    CHECK(hanneddois_matching_patterns(&regex, bytes("cd"), 2, matched, 4, &count, &error) == HANNEDDOIS_BAD_ARGUMENT && matched[3] == 0);

    /* Looks beside what isn't ASCII, an empty match at the end, and a pattern that never matches. */
    options.flags = HANNEDDOIS_MATCHING_PATTERNS;
    CHECK(hanneddois_new(&regex, bytes("\\bk$kkzzzzz"), 11, (size_t[]){3, 1, 2, 5}, 4, &options, &error) == HANNEDDOIS_OK);
    CHECK(hanneddois_matching_patterns(&regex, bytes("\xc3\xa9k"), 3, matched, 4, &count, &error) == HANNEDDOIS_OK && count == 1);
    CHECK(matched[0] == 0 && matched[1] == 1 && matched[2] == 0 && matched[3] == 0);
    CHECK(hanneddois_matching_patterns(&regex, bytes("\xe2\x80\x94kk"), 5, matched, 4, &count, &error) == HANNEDDOIS_OK && count == 3 && matched[0] == 1 && matched[2] == 1);
    options.flags = HANNEDDOIS_UTF8;
    CHECK(hanneddois_new(&regex, bytes("a.b"), 3, (size_t[]){1, 1, 1}, 3, &options, &error) == HANNEDDOIS_OK);
    CHECK(hanneddois_matching_patterns(&regex, bytes("\xc3\xa9" "b"), 3, matched, 3, &count, &error) == HANNEDDOIS_OK && count == 2 && matched[0] == 0);
    CHECK(hanneddois_matching_patterns(&regex, bytes("a\xff"), 2, matched, 3, &count, &error) == HANNEDDOIS_HAYSTACK_NOT_UTF8 && error.start == 1 && matched[0] == 0);
    hanneddois_free(&regex);
}

static void clones(void)
{
    hanneddois_regex regex = HANNEDDOIS_EMPTY, copy = HANNEDDOIS_EMPTY, last = HANNEDDOIS_EMPTY;
    hanneddois_options options = {0};
    hanneddois_match match;
    CHECK(hanneddois_clone(&regex, &copy) == HANNEDDOIS_BAD_ARGUMENT && copy.inside == NULL);
    CHECK(make(&copy, "a", &options) == HANNEDDOIS_OK);
    CHECK(hanneddois_clone(&regex, &copy) == HANNEDDOIS_BAD_ARGUMENT && copy.inside == NULL && regex.inside == NULL);

    /* A clone has the options and patterns of its source, and caches of its own. */
    options.flags = HANNEDDOIS_RAISE_CAPACITY | HANNEDDOIS_CASE_INSENSITIVE | HANNEDDOIS_UTF8 | HANNEDDOIS_MATCHING_PATTERNS;
    options.capacity = 1;
    size_t lengths[2] = {11, 1}, count;
    uint8_t matched[2] = {7, 7};
    CHECK(hanneddois_new(&regex, bytes("[a-z]{3,9}x7"), 12, lengths, 2, &options, &error) == HANNEDDOIS_OK);
    for (int i = 0; i < 20; i++)
        CHECK(hanneddois_is_match(&regex, bytes("abcdefgh ijklmnopqrx"), 20, &error) == HANNEDDOIS_OK);
    size_t clears = hanneddois_clear_count(&regex);
    CHECK(clears > 0);
    CHECK(hanneddois_clone(&regex, &copy) == HANNEDDOIS_OK && copy.inside != regex.inside);
    CHECK(hanneddois_clear_count(&copy) == 0 && hanneddois_pattern_count(&copy) == 2);
    CHECK(hanneddois_find_at(&copy, bytes("- ABCX 7"), 8, 0, &match, &error) == HANNEDDOIS_OK && match.start == 2 && match.end == 6);
    CHECK(hanneddois_matching_patterns(&copy, bytes("- ABCX 7"), 8, matched, 2, &count, &error) == HANNEDDOIS_OK && count == 2);
    CHECK(hanneddois_is_match(&copy, bytes("\xff"), 1, &error) == HANNEDDOIS_HAYSTACK_NOT_UTF8);
    for (int i = 0; i < 20; i++)
        CHECK(hanneddois_is_match(&copy, bytes("abcdefgh ijklmnopqrx"), 20, &error) == HANNEDDOIS_OK);
    CHECK(hanneddois_clear_count(&copy) > 0 && hanneddois_clear_count(&regex) == clears);

    /* Each may be freed first, and a clone may be cloned. */
    CHECK(hanneddois_clone(&copy, &last) == HANNEDDOIS_OK);
    hanneddois_free(&regex);
    CHECK(hanneddois_clone(&last, &regex) == HANNEDDOIS_OK);
    hanneddois_free(&copy);
    CHECK(hanneddois_find_at(&regex, bytes("\xc3\xa9 abcx"), 7, 0, &match, &error) == HANNEDDOIS_OK && match.start == 3 && match.end == 7);
    CHECK(hanneddois_find_at(&last, bytes("\xc3\xa9 abcx"), 7, 0, &match, &error) == HANNEDDOIS_OK && match.start == 3 && match.end == 7);
    hanneddois_free(&last);
    hanneddois_free(&regex);
}

/* The groups of the first match of a pattern. Expected offsets are those of Python's re, or were written by hand. */
static void groups(void)
{
    hanneddois_regex regex = HANNEDDOIS_EMPTY, copy = HANNEDDOIS_EMPTY;
    hanneddois_options options = {0};
    hanneddois_match match;
    size_t slots[8];
    uint8_t name[8];
    for (int at_once = 0; at_once < 2; at_once++) {
        options.flags = at_once ? HANNEDDOIS_GROUPS : 0;
        CHECK(make(&regex, "(?<year>[0-9]{4})-(?P<mois\xc3\xa9>[0-9]{2})|(x)", &options) == HANNEDDOIS_OK);
        CHECK(hanneddois_captures(&regex, bytes("on 2024-05 and x"), 16, 0, &match, slots, 8, &error) == HANNEDDOIS_OK);
        CHECK(match.pattern == 0 && match.start == 3 && match.end == 10 && error.status == HANNEDDOIS_OK);
        CHECK(slots[0] == 3 && slots[1] == 10 && slots[2] == 3 && slots[3] == 7 && slots[4] == 8 && slots[5] == 10);
        CHECK(slots[6] == HANNEDDOIS_NO_OFFSET && slots[7] == HANNEDDOIS_NO_OFFSET);
        CHECK(hanneddois_captures(&regex, bytes("on 2024-05 and x"), 16, 4, &match, slots, 8, &error) == HANNEDDOIS_OK);
        CHECK(match.start == 15 && slots[0] == 15 && slots[1] == 16 && slots[2] == HANNEDDOIS_NO_OFFSET && slots[6] == 15 && slots[7] == 16);
        /* As many slots as there are. */
        memset(slots, 0x55, sizeof slots);
        CHECK(hanneddois_captures(&regex, bytes("2024-05"), 7, 0, &match, slots, 3, &error) == HANNEDDOIS_OK);
        CHECK(slots[1] == 7 && slots[2] == 0 && slots[3] == (size_t)0x5555555555555555);
        CHECK(hanneddois_captures(&regex, bytes("2024-05"), 7, 0, &match, slots, 0, &error) == HANNEDDOIS_OK && match.end == 7);

        CHECK(hanneddois_group_count(&regex, 0) == 4 && hanneddois_group_count(&regex, 1) == 0 && hanneddois_group_count(&regex, SIZE_MAX) == 0);
        memset(name, 'x', sizeof name);
        CHECK(hanneddois_group_name(&regex, 0, 1, name, sizeof name) == 4 && memcmp(name, "yearxxxx", 8) == 0);
        CHECK(hanneddois_group_name(&regex, 0, 2, name, sizeof name) == 6 && memcmp(name, "mois\xc3\xa9xx", 8) == 0);
        memset(name, 'x', sizeof name);
        CHECK(hanneddois_group_name(&regex, 0, 1, name, 2) == 4 && memcmp(name, "yexx", 4) == 0);
        CHECK(hanneddois_group_name(&regex, 0, 1, name, 0) == 4 && memcmp(name, "yexx", 4) == 0);
        CHECK(hanneddois_group_name(&regex, 0, 0, name, 8) == 0 && hanneddois_group_name(&regex, 0, 3, name, 8) == 0);
        CHECK(hanneddois_group_name(&regex, 0, 4, name, 8) == 0 && hanneddois_group_name(&regex, 0, SIZE_MAX, name, 8) == 0);
        CHECK(hanneddois_group_name(&regex, 1, 1, name, 8) == 0 && memcmp(name, "yexx", 4) == 0);

        /* A clone has the groups of its source. */
        CHECK(hanneddois_clone(&regex, &copy) == HANNEDDOIS_OK);
        hanneddois_free(&regex);
        CHECK(hanneddois_group_count(&copy, 0) == 4 && hanneddois_group_name(&copy, 0, 1, name, 8) == 4);
        CHECK(hanneddois_captures(&copy, bytes("2024-05"), 7, 0, &match, slots, 8, &error) == HANNEDDOIS_OK && slots[4] == 5 && slots[5] == 7);
    }
    hanneddois_free(&copy);
    options.flags = 0;

    /* Without a match, and after each error, nothing is left. */
    CHECK(make(&regex, "(a)|\\b(b)", &options) == HANNEDDOIS_OK);
    memset(slots, 0x55, sizeof slots);
    CHECK(hanneddois_captures(&regex, bytes("xyz"), 3, 0, &match, slots, 6, &error) == HANNEDDOIS_NONE && is_cleared(&match, slots, 6));
    CHECK(slots[6] == (size_t)0x5555555555555555 && error.status == HANNEDDOIS_NONE);
    memset(slots, 0x55, sizeof slots);
    CHECK(hanneddois_captures(&regex, bytes("aa"), 2, 3, &match, slots, 6, &error) == HANNEDDOIS_BAD_ARGUMENT && is_cleared(&match, slots, 6));
    CHECK(hanneddois_captures(&regex, bytes("aa"), 2, SIZE_MAX, &match, slots, 6, &error) == HANNEDDOIS_BAD_ARGUMENT);
    CHECK(hanneddois_captures(&regex, bytes("aa"), 2, 2, &match, slots, 6, &error) == HANNEDDOIS_NONE);
    /* Looks see what is before the offset, also where the automata give up. */
    CHECK(hanneddois_captures(&regex, bytes("\xc3\xa9" "b"), 3, 2, &match, slots, 6, &error) == HANNEDDOIS_NONE && is_cleared(&match, slots, 6));
    CHECK(hanneddois_captures(&regex, bytes("\xe2\x80\x94" "b"), 4, 0, &match, slots, 6, &error) == HANNEDDOIS_OK);
    CHECK(match.start == 3 && slots[2] == HANNEDDOIS_NO_OFFSET && slots[4] == 3 && slots[5] == 4);
    options.flags = HANNEDDOIS_UTF8;
    CHECK(make(&regex, "(.)", &options) == HANNEDDOIS_OK);
    memset(slots, 0x55, sizeof slots);
    CHECK(hanneddois_captures(&regex, bytes("ab\xff"), 3, 0, &match, slots, 4, &error) == HANNEDDOIS_HAYSTACK_NOT_UTF8 && error.start == 2);
    CHECK(is_cleared(&match, slots, 4));
    CHECK(hanneddois_captures(&regex, bytes("\xc3\xa9"), 2, 0, &match, slots, 4, &error) == HANNEDDOIS_OK && slots[3] == 2);

    /* The last round of a group; and the preferred end whatever loops consume. */
    options.flags = HANNEDDOIS_EMPTY_LOOPS;
    CHECK(make(&regex, "(?:(a)|(b))*", &options) == HANNEDDOIS_OK);
    CHECK(hanneddois_captures(&regex, bytes("abab"), 4, 0, &match, slots, 6, &error) == HANNEDDOIS_OK && match.end == 4);
    CHECK(slots[2] == 2 && slots[3] == 3 && slots[4] == 3 && slots[5] == 4);
    CHECK(make(&regex, "(|a)+", &options) == HANNEDDOIS_OK);
    CHECK(hanneddois_captures(&regex, bytes("aaa"), 3, 0, &match, slots, 4, &error) == HANNEDDOIS_OK && match.end == 0 && slots[1] == 0 && slots[3] == 0);

    /* Several patterns with different numbers of groups. */
    options.flags = 0;
    size_t lengths[3] = {3, 6, 1};
    CHECK(hanneddois_new(&regex, bytes("(a)(b)(c)z"), 10, lengths, 3, &options, &error) == HANNEDDOIS_OK);
    CHECK(hanneddois_group_count(&regex, 0) == 2 && hanneddois_group_count(&regex, 1) == 3 && hanneddois_group_count(&regex, 2) == 1);
    CHECK(hanneddois_group_count(&regex, 3) == 0);
    CHECK(hanneddois_captures(&regex, bytes("xbca"), 4, 0, &match, slots, 6, &error) == HANNEDDOIS_OK && match.pattern == 1);
    CHECK(slots[2] == 1 && slots[3] == 2 && slots[4] == 2 && slots[5] == 3);
    CHECK(hanneddois_captures(&regex, bytes("xbca"), 4, 3, &match, slots, 6, &error) == HANNEDDOIS_OK && match.pattern == 0);
    CHECK(slots[2] == 3 && slots[3] == 4 && slots[4] == HANNEDDOIS_NO_OFFSET && slots[5] == HANNEDDOIS_NO_OFFSET);
    CHECK(hanneddois_captures(&regex, bytes("z"), 1, 0, &match, slots, 6, &error) == HANNEDDOIS_OK && match.pattern == 2 && slots[1] == 1);
    CHECK(slots[2] == HANNEDDOIS_NO_OFFSET);

    /* What finds groups may be too large, and then other searches go on. With the flag no regex is made. */
    hanneddois_options limited = {0};
    limited.size_limit = 1000;
    char nested[2 * 60 + 2] = {0};
    memset(nested, '(', 60);
    nested[60] = 'a';
    memset(nested + 61, ')', 60);
    CHECK(make(&regex, nested, &limited) == HANNEDDOIS_OK);
    memset(slots, 0x55, sizeof slots);
    CHECK(hanneddois_captures(&regex, bytes("xa"), 2, 0, &match, slots, 4, &error) == HANNEDDOIS_TOO_LARGE);
    CHECK(error.limit == 1000 && is_cleared(&match, slots, 4));
    CHECK(hanneddois_find_at(&regex, bytes("xa"), 2, 0, &match, &error) == HANNEDDOIS_OK && match.end == 2);
    limited.flags = HANNEDDOIS_GROUPS;
    CHECK(make(&copy, nested, &limited) == HANNEDDOIS_TOO_LARGE && error.limit == 1000);
    hanneddois_free(&copy);
    hanneddois_free(&regex);
}

/* All matches with their groups. Expected offsets are those of Python's re, or were written by hand. */
static void all_groups(void)
{
    hanneddois_regex regex = HANNEDDOIS_EMPTY;
    hanneddois_options options = {0};
    hanneddois_match rows[4];
    size_t slots[24], count = 7;
    const size_t untouched = (size_t)0x5555555555555555;
    CHECK(make(&regex, "(a)|([0-9])(?:-([0-9]))?", &options) == HANNEDDOIS_OK);
    memset(rows, 0x55, sizeof rows);
    memset(slots, 0x55, sizeof slots);
    CHECK(hanneddois_captures_all(&regex, bytes("a 1-2 3"), 7, rows, 4, slots, 24, 6, &count, &error) == HANNEDDOIS_OK && count == 3);
    CHECK(rows[0].end == 1 && rows[1].start == 2 && rows[1].end == 5 && rows[2].start == 6 && rows[3].start == untouched);
    CHECK(slots[0] == 0 && slots[1] == 1 && slots[2] == 0 && slots[3] == 1 && slots[4] == HANNEDDOIS_NO_OFFSET);
    CHECK(slots[6] == 2 && slots[7] == 5 && slots[8] == HANNEDDOIS_NO_OFFSET && slots[10] == 2 && slots[11] == 3);
    CHECK(slots[12] == 6 && slots[13] == 7 && slots[16] == 6 && slots[17] == 7 && slots[18] == untouched && slots[23] == untouched);
    /* Fewer rows than matches; a width of 8 has the last group too, and an odd one is as good. */
    memset(slots, 0x55, sizeof slots);
    CHECK(hanneddois_captures_all(&regex, bytes("a 1-2 3"), 7, rows, 2, slots, 16, 8, &count, &error) == HANNEDDOIS_OK && count == 3);
    CHECK(slots[14] == 4 && slots[15] == 5 && slots[16] == untouched);
    CHECK(hanneddois_captures_all(&regex, bytes("a 1-2 3"), 7, rows, 3, slots, 9, 3, &count, &error) == HANNEDDOIS_OK && slots[8] == HANNEDDOIS_NO_OFFSET);
    CHECK(hanneddois_captures_all(&regex, bytes("a 1-2 3"), 7, rows, 3, slots, 0, 0, &count, &error) == HANNEDDOIS_OK && count == 3);
    CHECK(hanneddois_captures_all(&regex, bytes("a 1-2 3"), 7, rows, 0, slots, 0, 6, &count, &error) == HANNEDDOIS_OK && count == 3);
    CHECK(hanneddois_captures_all(&regex, bytes("bcd"), 3, rows, 1, slots, 6, 6, &count, &error) == HANNEDDOIS_NONE && count == 0);

    /* Slots that don't fill the rows. */
    memset(rows, 0x55, sizeof rows);
    memset(slots, 0x55, sizeof slots);
    static const size_t wrong[][3] = {{2, 11, 6}, {2, 13, 6}, {0, 1, 6}, {2, 0, 6}, {2, 2, 0}, {4, 0, SIZE_MAX / 4 + 1}};
    for (size_t i = 0; i < sizeof wrong / sizeof wrong[0]; i++) {
        count = 7;
        CHECK(hanneddois_captures_all(&regex, bytes("a 1"), 3, rows, wrong[i][0], slots, wrong[i][1], wrong[i][2], &count, &error) ==
              HANNEDDOIS_BAD_ARGUMENT);
        CHECK(count == 0 && error.status == HANNEDDOIS_BAD_ARGUMENT && rows[0].start == untouched && slots[0] == untouched);
    }

    /* Empty matches go on as those of hanneddois_find_all, and the haystack is checked once. */
    CHECK(make(&regex, "(x?)", &options) == HANNEDDOIS_OK);
    CHECK(hanneddois_captures_all(&regex, bytes("axb"), 3, rows, 4, slots, 16, 4, &count, &error) == HANNEDDOIS_OK && count == 3);
    CHECK(rows[0].end == 0 && rows[1].start == 1 && rows[1].end == 2 && rows[2].start == 3 && slots[6] == 1 && slots[7] == 2);
    options.flags = HANNEDDOIS_UTF8;
    CHECK(make(&regex, "(.)", &options) == HANNEDDOIS_OK);
    count = 7;
    memset(slots, 0x55, sizeof slots);
    CHECK(hanneddois_captures_all(&regex, bytes("ab\xff"), 3, rows, 4, slots, 16, 4, &count, &error) == HANNEDDOIS_HAYSTACK_NOT_UTF8);
    CHECK(count == 0 && error.start == 2 && slots[4] == untouched);

    /* The preferred ends whatever loops consume, where hanneddois_find_all may have others. */
    options.flags = HANNEDDOIS_EMPTY_LOOPS;
    CHECK(make(&regex, "(a*)*b|c", &options) == HANNEDDOIS_OK);
    CHECK(hanneddois_captures_all(&regex, bytes("xaabcab"), 7, rows, 4, slots, 16, 4, &count, &error) == HANNEDDOIS_OK && count == 3);
    CHECK(rows[0].start == 1 && rows[0].end == 4 && rows[1].start == 4 && rows[2].start == 5 && rows[2].end == 7);
    hanneddois_free(&regex);
}

/* A list in pieces. With the empty matches right at the end of another one, it is as that of Python's re. */
static void next_groups(void)
{
    hanneddois_regex regex = HANNEDDOIS_EMPTY;
    hanneddois_options options = {0};
    hanneddois_match rows[4];
    size_t slots[24], count = 7, from = 0;
    const size_t untouched = (size_t)0x5555555555555555;
    CHECK(make(&regex, "(a)|([0-9])(?:-([0-9]))?", &options) == HANNEDDOIS_OK);
    memset(rows, 0x55, sizeof rows);
    memset(slots, 0x55, sizeof slots);
    /* The rows are full, and then no match follows. */
    CHECK(hanneddois_captures_next(&regex, bytes("a 1-2 3"), 7, &from, rows, 2, slots, 12, 6, &count, &error) == HANNEDDOIS_OK && count == 2 && from == 5);
    CHECK(rows[0].end == 1 && rows[1].start == 2 && rows[1].end == 5 && rows[2].start == untouched && slots[12] == untouched);
    CHECK(slots[0] == 0 && slots[3] == 1 && slots[4] == HANNEDDOIS_NO_OFFSET && slots[6] == 2 && slots[8] == HANNEDDOIS_NO_OFFSET && slots[11] == 3);
    CHECK(hanneddois_captures_next(&regex, bytes("a 1-2 3"), 7, &from, rows, 2, slots, 12, 6, &count, &error) == HANNEDDOIS_OK && count == 1 && from == 7);
    CHECK(rows[0].start == 6 && rows[0].end == 7 && rows[1].end == 5 && slots[4] == 6 && slots[6] == 2);
    CHECK(hanneddois_captures_next(&regex, bytes("a 1-2 3"), 7, &from, rows, 2, slots, 12, 6, &count, &error) == HANNEDDOIS_NONE && count == 0 && from == 7);
    CHECK(rows[0].start == 6 && slots[4] == 6 && error.status == HANNEDDOIS_NONE);
    /* Without slots, and from an offset that looks see. */
    from = 3;
    CHECK(hanneddois_captures_next(&regex, bytes("a 1-2 3"), 7, &from, rows, 4, slots, 0, 0, &count, &error) == HANNEDDOIS_OK && count == 2 && from == 7);
    CHECK(rows[0].start == 4 && rows[1].start == 6);

    /* No row, slots that don't fill the rows, and an empty handle. */
    memset(rows, 0x55, sizeof rows);
    memset(slots, 0x55, sizeof slots);
    static const size_t wrong[][3] = {{0, 0, 6}, {0, 0, 0}, {2, 11, 6}, {2, 13, 6}, {2, 0, 6}, {2, 2, 0}, {4, 0, SIZE_MAX / 4 + 1}};
    for (size_t i = 0; i < sizeof wrong / sizeof wrong[0]; i++) {
        count = 7;
        from = 1;
        CHECK(hanneddois_captures_next(&regex, bytes("a 1"), 3, &from, rows, wrong[i][0], slots, wrong[i][1], wrong[i][2], &count, &error) ==
              HANNEDDOIS_BAD_ARGUMENT);
        CHECK(count == 0 && from == 1 && error.status == HANNEDDOIS_BAD_ARGUMENT && rows[0].start == untouched && slots[0] == untouched);
    }
    hanneddois_free(&regex);
    count = 7;
    CHECK(hanneddois_captures_next(&regex, bytes("a 1"), 3, &from, rows, 2, slots, 12, 6, &count, &error) == HANNEDDOIS_BAD_ARGUMENT);
    CHECK(count == 0 && from == 1 && rows[0].start == untouched && slots[0] == untouched);

    /* Empty matches, also one right at the end of another one, and one at the end of the haystack. */
    CHECK(make(&regex, "(x?)", &options) == HANNEDDOIS_OK);
    from = 0;
    CHECK(hanneddois_captures_next(&regex, bytes("axb"), 3, &from, rows, 3, slots, 12, 4, &count, &error) == HANNEDDOIS_OK && count == 3 && from == 3);
    CHECK(rows[0].end == 0 && rows[1].start == 1 && rows[1].end == 2 && rows[2].start == 2 && rows[2].end == 2 && slots[6] == 1 && slots[7] == 2);
    CHECK(hanneddois_captures_next(&regex, bytes("axb"), 3, &from, rows, 1, slots, 4, 4, &count, &error) == HANNEDDOIS_OK && count == 1 && from == 4);
    CHECK(rows[0].start == 3 && rows[0].end == 3);
    static const size_t after[] = {4, 5, SIZE_MAX};
    for (size_t i = 0; i < 3; i++) {
        from = after[i];
        CHECK(hanneddois_captures_next(&regex, bytes("axb"), 3, &from, rows, 1, slots, 4, 4, &count, &error) == HANNEDDOIS_NONE && count == 0);
        CHECK(from == after[i]);
    }
    options.flags = HANNEDDOIS_UTF8;
    CHECK(make(&regex, "(.)", &options) == HANNEDDOIS_OK);
    count = 7;
    from = 1;
    CHECK(hanneddois_captures_next(&regex, bytes("ab\xff"), 3, &from, rows, 3, slots, 12, 4, &count, &error) == HANNEDDOIS_HAYSTACK_NOT_UTF8);
    CHECK(count == 0 && from == 1 && error.start == 2);

    /* The preferred ends whatever loops consume. */
    options.flags = HANNEDDOIS_EMPTY_LOOPS;
    CHECK(make(&regex, "(a*)*b|c", &options) == HANNEDDOIS_OK);
    from = 0;
    CHECK(hanneddois_captures_next(&regex, bytes("xaabcab"), 7, &from, rows, 4, slots, 16, 4, &count, &error) == HANNEDDOIS_OK && count == 3 && from == 7);
    CHECK(rows[0].start == 1 && rows[0].end == 4 && rows[1].start == 4 && rows[2].start == 5 && rows[2].end == 7);
    hanneddois_free(&regex);
}

/* A call that replaces matches, with as much room as is given, which is followed by bytes that no call may write. */
static uint8_t output[64];
static size_t length, count;

static hanneddois_status replace(hanneddois_regex *regex, const char *haystack, const char *by, size_t limit, uint32_t flags, size_t room)
{
    memset(output, '~', sizeof output);
    length = count = 7;
    memset(&error, 0x55, sizeof error);
    hanneddois_status status = hanneddois_replace_all(regex, bytes(haystack), strlen(haystack), bytes(by), strlen(by), limit, flags,
                                                      output, room, &length, &count, &error);
    CHECK(error.status == status && error.cause == 0 && error.pattern == 0 && error.end == 0 && error.limit == 0);
    for (size_t i = length < room ? length : room; i < sizeof output; i++)
        CHECK(output[i] == '~');
    return status;
}

/* Whether the call writes this for so many matches, into each room that is large enough, and its beginning into each that isn't. */
static int replaces(hanneddois_regex *regex, const char *haystack, const char *by, size_t limit, uint32_t flags, size_t matches, const char *whole)
{
    size_t size = strlen(whole);
    for (size_t room = 0; room < sizeof output; room++) {
        hanneddois_status wanted = room < size ? HANNEDDOIS_OUTPUT_TOO_SMALL : matches ? HANNEDDOIS_OK : HANNEDDOIS_NONE;
        if (replace(regex, haystack, by, limit, flags, room) != wanted || length != size || count != matches)
            return 0;
        if (memcmp(output, whole, room < size ? room : size) != 0)
            return 0;
    }
    return 1;
}

/* Replaced matches. What is expected is what the crate regex 1.7.1 writes, or was written by hand. */
static void replaced(void)
{
    hanneddois_regex regex = HANNEDDOIS_EMPTY;
    hanneddois_options options = {0};
    CHECK(replace(&regex, "a", "b", 0, 0, 9) == HANNEDDOIS_BAD_ARGUMENT && length == 0 && count == 0);
    const char *dates = "on 2024-05, 1999-12";
    CHECK(make(&regex, "(?<y>[0-9]{4})-([0-9]{2})", &options) == HANNEDDOIS_OK);
    CHECK(replaces(&regex, dates, "$2/${y}", 0, 0, 2, "on 05/2024, 12/1999"));
    CHECK(replaces(&regex, dates, "$2/${y}", 1, 0, 1, "on 05/2024, 1999-12"));
    CHECK(replaces(&regex, dates, "$2/${y}", SIZE_MAX, 0, 2, "on 05/2024, 12/1999"));
    CHECK(replaces(&regex, dates, "$2/${y}", 0, HANNEDDOIS_LITERAL, 2, "on $2/${y}, $2/${y}"));
    CHECK(replaces(&regex, dates, "[$$$9$z$y$0]", 0, 0, 2, "on [$20242024-05], [$19991999-12]"));
    CHECK(replaces(&regex, dates, "", 0, 0, 2, "on , "));
    CHECK(replaces(&regex, "none", "$2", 0, 0, 0, "none"));
    CHECK(replaces(&regex, "", "$2", 0, 0, 0, ""));
    /* A flag that is none, also if the regex is empty. */
    CHECK(replace(&regex, dates, "", 0, 2, 9) == HANNEDDOIS_BAD_ARGUMENT && length == 0 && count == 0);
    CHECK(replace(&regex, dates, "", 0, 1u << 31, 9) == HANNEDDOIS_BAD_ARGUMENT && length == 0 && count == 0);
    hanneddois_free(&regex);
    CHECK(replace(&regex, dates, "", 0, 2, 9) == HANNEDDOIS_BAD_ARGUMENT && length == 0 && count == 0);

    CHECK(make(&regex, "x*", &options) == HANNEDDOIS_OK);
    CHECK(replaces(&regex, "axb", "-", 0, 0, 3, "-a-b-"));
    CHECK(replaces(&regex, "axb", "-", 2, 0, 2, "-a-b"));
    CHECK(replaces(&regex, "", "-", 0, 0, 1, "-"));
    /* The groups of the pattern that matched. */
    size_t lengths[2] = {3, 6};
    CHECK(hanneddois_new(&regex, bytes("(a)(b)(c)"), 9, lengths, 2, &options, &error) == HANNEDDOIS_OK);
    CHECK(replaces(&regex, "abc", "<$1,$2>", 0, 0, 2, "<a,><b,c>"));
    /* A haystack that is no UTF-8. */
    options.flags = HANNEDDOIS_UTF8;
    CHECK(make(&regex, "(.)", &options) == HANNEDDOIS_OK);
    CHECK(replaces(&regex, "\xc3\xa9", "$1$1", 0, 0, 1, "\xc3\xa9\xc3\xa9"));
    memset(output, '~', sizeof output);
    length = count = 7;
    CHECK(hanneddois_replace_all(&regex, bytes("ab\xff"), 3, bytes("-"), 1, 0, 0, output, 9, &length, &count, &error) ==
          HANNEDDOIS_HAYSTACK_NOT_UTF8);
    CHECK(error.start == 2 && length == 0 && count == 0 && output[0] == '~');
    /* The preferred ends whatever loops consume, where hanneddois_find_all may have others. */
    options.flags = HANNEDDOIS_EMPTY_LOOPS;
    CHECK(make(&regex, "(|a)+", &options) == HANNEDDOIS_OK);
    CHECK(replaces(&regex, "aa", "-", 0, 0, 3, "-a-a-"));
    hanneddois_free(&regex);
}

int main(void)
{
    empty_handles();
    groups();
    all_groups();
    next_groups();
    replaced();
    clones();
    refusals();
    searches();
    patterns();
    CHECK(hanneddois_version() == HANNEDDOIS_VERSION);
    return failed;
}
