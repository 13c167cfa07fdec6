/*
 * hanneddois: regular expressions by a lazy DFA, for C and C++.
 *
 * A regex is made once of one pattern or several, and used for many searches:
 *
 *     hanneddois_regex regex = HANNEDDOIS_EMPTY;
 *     hanneddois_options options = {0};
 *     hanneddois_error error;
 *     const char *text = "[0-9]+";
 *     size_t length = strlen(text);
 *     if (hanneddois_new(&regex, (const uint8_t *)text, length, &length, 1, &options, &error) != HANNEDDOIS_OK)
 *         return 1;
 *     hanneddois_match match;
 *     if (hanneddois_find_at(&regex, haystack, haystack_length, 0, &match, &error) == HANNEDDOIS_OK)
 *         printf("%zu..%zu\n", match.start, match.end);
 *     hanneddois_free(&regex);
 *
 * Patterns are written in the syntax of the Rust crate regex. All offsets count bytes from 0; an offset "end" is
 * the one after the last byte.
 *
 * For every call, the caller has to ensure the following:
 *
 *   - A hanneddois_regex begins as HANNEDDOIS_EMPTY, all 0, and only the calls of this header change it. It may be
 *     moved, but of two copies only one may be used from then on. With an empty one, a search returns
 *     HANNEDDOIS_BAD_ARGUMENT.
 *   - Calls with the same regex don't run at the same time. Different regexes may be used by different threads.
 *   - No pointer is NULL. If a pointer comes with a length, it points to as many elements. If that length is 0, the
 *     pointer isn't read but still isn't NULL.
 *   - While a call runs, nobody else writes to what it reads, or reads or writes what it writes. What a call writes
 *     doesn't overlap with anything else that it is given.
 *
 * The automata may give up, for example at a byte above 0x7F if a pattern has a Unicode word boundary. Then slower
 * regexes of the same patterns answer. They are made when they are first needed. There a search fails only if it is
 * out of memory, or if these regexes are too large.
 *
 * No call aborts, waits, prints, starts a thread or calls back. Memory comes from malloc, realloc and free.
 *
 * Two promises of this header can't be stated in a contract and are only tested: that memory is freed, and that a call
 * returns HANNEDDOIS_NO_MEMORY only if an allocation failed.
 */
#ifndef HANNEDDOIS_H
#define HANNEDDOIS_H

#include <stddef.h>
#include <stdint.h>

#ifdef __cplusplus
extern "C" {
#endif

/* The version of this header: 10000 times the major number, 100 times the minor one, and the patch. */
#define HANNEDDOIS_VERSION 300

/* Nothing, or a compiled regex with the caches of its searches. */
typedef struct hanneddois_regex {
    void *inside;
} hanneddois_regex;

/* Nothing: what a hanneddois_regex begins as. */
#define HANNEDDOIS_EMPTY { NULL }

/* How a call ended. */
typedef uint32_t hanneddois_status;
enum {
    /* The call did what it is for: a regex is made; there is a match. */
    HANNEDDOIS_OK = 0,
    /* There is no match. */
    HANNEDDOIS_NONE = 1,
    /* An argument isn't one that the call takes. */
    HANNEDDOIS_BAD_ARGUMENT = 2,
    /* An allocation failed. A search may be tried again. */
    HANNEDDOIS_NO_MEMORY = 3,
    /* A pattern is no UTF-8: error.pattern is its number, error.start the offset of the first faulty byte. */
    HANNEDDOIS_NOT_UTF8 = 4,
    /* A pattern has a syntax error: error.pattern is its number, error.start and error.end are the offsets in it. */
    HANNEDDOIS_SYNTAX_ERROR = 5,
    /* A pattern nests deeper than it may: the fields are those of HANNEDDOIS_SYNTAX_ERROR. */
    HANNEDDOIS_NESTS_TOO_DEEP = 6,
    /* A pattern has an unbounded repetition whose body can match the empty string, as (a*)*: error.pattern is its
       number. */
    HANNEDDOIS_EMPTY_LOOP = 7,
    /* The automata take more bytes than they may: error.limit is how many they may, if that limit is the cause. From a
       search: the slower regexes that it needs are too large, or what finds the groups of a pattern is; then error.limit
       is how many bytes that may take. */
    HANNEDDOIS_TOO_LARGE = 8,
    /* A cache may take fewer bytes than it needs: error.limit is how many it needs. */
    HANNEDDOIS_CAPACITY_TOO_SMALL = 9,
    /* From hanneddois_streams_new alone: a pattern has a Unicode word boundary. error.pattern is its number. */
    HANNEDDOIS_WORD_BOUNDARY = 10,
    /* The haystack of a regex that is made with HANNEDDOIS_UTF8 is no UTF-8: error.start is the offset of the first
       faulty byte. */
    HANNEDDOIS_HAYSTACK_NOT_UTF8 = 12,
    /* The output is longer than the room for it. The call has written its beginning, and how long it is. */
    HANNEDDOIS_OUTPUT_TOO_SMALL = 13,
    /* A stream is closed: its end was read, and it wasn't reset since then. */
    HANNEDDOIS_CLOSED = 14
};

/* One match: which pattern it is of, counted from 0, and where it starts and ends in the haystack. */
typedef struct hanneddois_match {
    size_t pattern;
    size_t start;
    size_t end;
} hanneddois_match;

/* What both slots of a group hold that took no part in the match. No offset is that number. */
#define HANNEDDOIS_NO_OFFSET SIZE_MAX

/* Why a call failed. Each call with such a parameter writes all of it, even if it doesn't fail. A field that the
   comment on the status doesn't name is 0. */
typedef struct hanneddois_error {
    hanneddois_status status;
    /* What is wrong with a pattern, by a number that hanneddois_error_text turns into words. */
    uint32_t cause;
    size_t pattern;
    size_t start;
    size_t end;
    size_t limit;
} hanneddois_error;

/* Flags of options, to be joined by |. A flag in a pattern, as (?i), overrides the option from there on. */
enum {
    /* Letters match in either case (i). */
    HANNEDDOIS_CASE_INSENSITIVE = 1 << 0,
    /* ^ and $ hold at the ends of lines (m). */
    HANNEDDOIS_MULTI_LINE = 1 << 1,
    /* . matches a line feed too (s). */
    HANNEDDOIS_DOT_MATCHES_NEW_LINE = 1 << 2,
    /* a* is lazy and a*? is greedy (U). */
    HANNEDDOIS_SWAP_GREED = 1 << 3,
    /* White space and comments in patterns are skipped (x). */
    HANNEDDOIS_IGNORE_WHITESPACE = 1 << 4,
    /* A carriage return ends a line too (R). */
    HANNEDDOIS_CRLF = 1 << 5,
    /* A backslash and digits are a character by its number in base eight. */
    HANNEDDOIS_OCTAL = 1 << 6,
    /* Classes, words and the folding of case are ASCII's rather than Unicode's (-u). */
    HANNEDDOIS_NO_UNICODE = 1 << 7,
    /* Haystacks must be UTF-8, and no match splits a character. A pattern that could split one is rejected. Each search
       then checks its whole haystack once for this. */
    HANNEDDOIS_UTF8 = 1 << 8,
    /* A pattern with an unbounded repetition whose body can match the empty string isn't rejected. The end of a match
       of such a pattern is one that the pattern has, but may be another than the preferred one. Its start is always the
       leftmost one. */
    HANNEDDOIS_EMPTY_LOOPS = 1 << 9,
    /* hanneddois_new makes the automaton that hanneddois_matching_patterns needs, instead of the first call of hanneddois_matching_patterns. */
    HANNEDDOIS_MATCHING_PATTERNS = 1 << 10,
    /* A capacity below the least one is raised to that, and isn't an error. With a capacity of 1, caches are as small
       as can be. */
    HANNEDDOIS_RAISE_CAPACITY = 1 << 11,
    /* Bytes that patterns treat alike don't share their transitions: caches are larger. For tests. */
    HANNEDDOIS_NO_BYTE_CLASSES = 1 << 12,
    /* The automaton that finds starts shares states of classes, which takes longer to make. */
    HANNEDDOIS_SHRINK = 1 << 13,
    /* hanneddois_new makes what finds the groups of all patterns, instead of the first search that needs it. If it can't
       be made, hanneddois_new fails. */
    HANNEDDOIS_GROUPS = 1 << 14,
    /* For hanneddois_streams_new: streams search each line of their input by itself. hanneddois_new ignores it. */
    HANNEDDOIS_STREAM_LINES = 1 << 15
};

/* Options of hanneddois_new. Most callers want all of them 0. Only the flags from HANNEDDOIS_CASE_INSENSITIVE to
   HANNEDDOIS_EMPTY_LOOPS can change which matches are found. */
typedef struct hanneddois_options {
    /* Flags. If a bit is set that is none of them, the call returns HANNEDDOIS_BAD_ARGUMENT. */
    uint32_t flags;
    /* How deep groups, classes and repetitions of a pattern may nest; 0 for 250. Deeper ones need a larger stack. */
    uint32_t nest_limit;
    /* How many bytes each of both caches may take. A capacity that is set is never exceeded, unless
       HANNEDDOIS_RAISE_CAPACITY raises it. With 0, each may take 2 MiB at first. If searches or streams clear it too
       soon, it is enlarged, up to 256 MiB. */
    size_t capacity;
    /* How many bytes each of both automata may take, and the automaton that finds the groups of a pattern; 0 for
       64 MiB. */
    size_t size_limit;
} hanneddois_options;

/*
 * Makes a regex of `count` patterns, which follow one another in `texts`: the first has lengths[0] bytes, and so on.
 * If count is 0, the lengths don't sum up to texts_length, or a flag is unknown, the call returns
 * HANNEDDOIS_BAD_ARGUMENT, whatever else is wrong. If matches of several patterns start at the same offset, the one of the
 * earlier pattern is preferred.
 *
 * Returns HANNEDDOIS_OK, and *regex is the new one; or an error, which *error describes, and *regex is empty. What
 * *regex held before is freed in both cases; this is tested.
 */
hanneddois_status hanneddois_new(
    hanneddois_regex *regex,
    const uint8_t *texts, size_t texts_length,
    const size_t *lengths, size_t count,
    const hanneddois_options *options,
    hanneddois_error *error);

/*
 * Makes *to a second regex of the same patterns and options as *from, with caches of its own: one thread can search with
 * each at the same time. Both share the compiled patterns, which are freed with the last of them, in any order. *to
 * is another variable than *from. Searches of *from may come before and after, but not at the same time.
 *
 * Nothing is parsed or compiled: a clone gets empty caches, which takes some 5 microseconds, and memory in proportion to
 * the states of the automata and to the patterns. That is 7 KB for a literal, and 300 KB for [\w\d]{20}. Each clone makes for itself what its
 * searches need later: the slower regexes, the automaton of hanneddois_matching_patterns, and what finds groups. With
 * HANNEDDOIS_MATCHING_PATTERNS the call makes that automaton at once, by copies, which takes about an eighth of the time
 * of hanneddois_new. With HANNEDDOIS_GROUPS it makes what finds groups at once.
 *
 * Returns HANNEDDOIS_OK; HANNEDDOIS_BAD_ARGUMENT if *from is empty; or HANNEDDOIS_NO_MEMORY. If it doesn't return
 * HANNEDDOIS_OK, *to is empty. What *to held before is freed in any case; this is tested.
 */
hanneddois_status hanneddois_clone(hanneddois_regex *from, hanneddois_regex *to);

/* Frees what a regex holds, and leaves it empty. An empty one stays so. */
void hanneddois_free(hanneddois_regex *regex);

/* How many patterns the regex has; 0 if it is empty. */
size_t hanneddois_pattern_count(hanneddois_regex *regex);

/*
 * How many groups a pattern has, which is counted from 0: the groups in parentheses that capture, and group 0, which is the
 * whole match. 0 if there is no such pattern or if the regex is empty.
 */
size_t hanneddois_group_count(hanneddois_regex *regex, size_t pattern);

/*
 * The name of a group of a pattern, as year in (?<year>[0-9]+): writes as many of its bytes as fit into `name`, without a 0
 * after them, and returns how many it has. It is UTF-8. Returns 0 if the group has no name, if there is no such group or
 * pattern, or if the regex is empty.
 */
size_t hanneddois_group_name(
    hanneddois_regex *regex,
    size_t pattern, size_t group,
    uint8_t *name, size_t name_length);

/* Whether there is a match in the haystack: HANNEDDOIS_OK, HANNEDDOIS_NONE, or an error. */
hanneddois_status hanneddois_is_match(
    hanneddois_regex *regex,
    const uint8_t *haystack, size_t haystack_length,
    hanneddois_error *error);

/*
 * The leftmost match that starts at `from` or after it, and of these the preferred one: HANNEDDOIS_OK and *match is
 * it, HANNEDDOIS_NONE, or an error. Looks, as ^ and \b, see the bytes before `from`. If `from` is above
 * haystack_length, the call returns HANNEDDOIS_BAD_ARGUMENT. If it doesn't return HANNEDDOIS_OK, *match is all 0.
 */
hanneddois_status hanneddois_find_at(
    hanneddois_regex *regex,
    const uint8_t *haystack, size_t haystack_length,
    size_t from,
    hanneddois_match *match,
    hanneddois_error *error);

/*
 * The match of hanneddois_find_at, with the offsets of its groups. Group n starts at slots[2 * n] and ends at
 * slots[2 * n + 1]; for a group that took no part in the match, both are HANNEDDOIS_NO_OFFSET. A group in a repetition has
 * the offsets of its last round. As many slots are written as there are: slots_length may be 0, and slots after the last
 * group of the match's pattern are HANNEDDOIS_NO_OFFSET.
 *
 * The match has the preferred end also with HANNEDDOIS_EMPTY_LOOPS. What finds the groups of a pattern is made by the first
 * match of that pattern, or by hanneddois_new with HANNEDDOIS_GROUPS. If it can't be made, the call returns
 * HANNEDDOIS_NO_MEMORY or HANNEDDOIS_TOO_LARGE, and other calls stay as they are. If the call doesn't return
 * HANNEDDOIS_OK, *match is all 0 and all slots are HANNEDDOIS_NO_OFFSET.
 */
hanneddois_status hanneddois_captures(
    hanneddois_regex *regex,
    const uint8_t *haystack, size_t haystack_length,
    size_t from,
    hanneddois_match *match,
    size_t *slots, size_t slots_length,
    hanneddois_error *error);

/*
 * All matches from left to right: each is the leftmost one from the end of the one before it. An empty match right
 * at the end of the one before it is skipped. Writes the first of them to `matches`, at most matches_length, and to
 * *count how many there are in all. Returns HANNEDDOIS_OK if there is any, HANNEDDOIS_NONE and a count of 0, or an
 * error. After an error *count is the number of matches before the search that failed, and these are written as far
 * as they fit. For an empty regex *count is 0. Rows after the last match are unchanged.
 *
 * With HANNEDDOIS_EMPTY_LOOPS the list goes on from the end that each match has. It ends only if no match follows.
 */
hanneddois_status hanneddois_find_all(
    hanneddois_regex *regex,
    const uint8_t *haystack, size_t haystack_length,
    hanneddois_match *matches, size_t matches_length,
    size_t *count,
    hanneddois_error *error);

/*
 * The matches of hanneddois_find_all, each with the offsets of its groups. The slots of the match in matches[i] are
 * slots[i * width] and the next ones, `width` in all, as hanneddois_captures writes them. So slots_length has to be
 * matches_length * width; otherwise the call returns HANNEDDOIS_BAD_ARGUMENT. A width of 2 * N has room for N groups.
 *
 * Returns HANNEDDOIS_OK if there is any match, HANNEDDOIS_NONE and a count of 0, or an error. After an error *count is the
 * number of matches before the search that failed, and these are written with their slots as far as they fit. With
 * HANNEDDOIS_BAD_ARGUMENT *count is 0. Rows after the last match are unchanged, and so are their slots; only after an error
 * the slots of the next match may be HANNEDDOIS_NO_OFFSET. Matches have the preferred end also with HANNEDDOIS_EMPTY_LOOPS.
 */
hanneddois_status hanneddois_captures_all(
    hanneddois_regex *regex,
    const uint8_t *haystack, size_t haystack_length,
    hanneddois_match *matches, size_t matches_length,
    size_t *slots, size_t slots_length, size_t width,
    size_t *count,
    hanneddois_error *error);

/*
 * The next matches from *from on, with the offsets of their groups, as many as there is room for: a list in pieces. Each is the
 * leftmost match from the end of the one before it, or from the offset after that if that one is empty. So an empty match right
 * at the end of the one before it is listed too; without these the list is that of hanneddois_captures_all. No match starts
 * after the haystack. Rows and slots are those of hanneddois_captures_all, and matches_length is at least 1:
 *
 *     size_t from = 0, count;
 *     do {
 *         hanneddois_captures_next(&regex, haystack, length, &from, matches, 100, slots, 100 * width, width, &count, &error);
 *         use matches[0] .. matches[count - 1];
 *     } while (count == 100);
 *
 * Writes to *count how many matches there are, and to *from where the following call goes on. If *count is below
 * matches_length, no match follows. Returns HANNEDDOIS_OK if there is any, HANNEDDOIS_NONE and a count of 0, or an error. After
 * an error *count is the number of matches before the search that failed, these are written with their slots, and *from is where
 * that search begins. If matches_length is 0, or slots_length isn't matches_length * width, the call returns
 * HANNEDDOIS_BAD_ARGUMENT. With that *count is 0, and *from is unchanged. Rows after the last match are unchanged, and so are
 * their slots; only after an error the slots of the next match may be HANNEDDOIS_NO_OFFSET. With HANNEDDOIS_UTF8 each call checks
 * the whole haystack. Matches have the preferred end also with HANNEDDOIS_EMPTY_LOOPS.
 */
hanneddois_status hanneddois_captures_next(
    hanneddois_regex *regex,
    const uint8_t *haystack, size_t haystack_length,
    size_t *from,
    hanneddois_match *matches, size_t matches_length,
    size_t *slots, size_t slots_length, size_t width,
    size_t *count,
    hanneddois_error *error);

/* Flags of hanneddois_replace_all. */
enum {
    /* The replacement is written as it is: a dollar sign in it has no meaning. */
    HANNEDDOIS_LITERAL = 1 << 0
};

/*
 * Replaces matches: the matches of hanneddois_captures_all, or the first `limit` of them if that isn't 0. Writes to `output`
 * the haystack with its matches replaced, as far as it fits, without a 0 after it. Writes to *length how many bytes that has
 * in all, and to *count how many matches are replaced. The bytes of `output` after these are unchanged.
 *
 * The replacement is a template, as in the crate regex. In it $1, $name and ${name} stand for what groups of the match
 * matched: $0 for the whole match, and $$ for a dollar sign. A name without braces is the longest one of ASCII letters,
 * digits and _: $1a is the group named 1a, and ${1}a is group 1 before an a. A group that took no part in the match, and a name
 * or a number that the match's pattern doesn't have, stands for nothing. Any other dollar sign stands for itself. So no template
 * is an error. The bytes of a template needn't be UTF-8.
 *
 * Returns HANNEDDOIS_OK if a match is replaced, and HANNEDDOIS_NONE if there is none; then the output is the haystack. If
 * the output is longer than output_length, with a match or without one, the call returns HANNEDDOIS_OUTPUT_TOO_SMALL. With
 * *length bytes of room the same call succeeds, and with an output_length of 0 it only counts.
 *
 * Or it returns an error of hanneddois_captures, HANNEDDOIS_BAD_ARGUMENT also if a bit is set in `flags` that is no flag.
 * After an error *length and *count are 0, and `output` is unchanged. The call allocates memory for the whole output. Only
 * groups that the template has are searched for.
 */
hanneddois_status hanneddois_replace_all(
    hanneddois_regex *regex,
    const uint8_t *haystack, size_t haystack_length,
    const uint8_t *replacement, size_t replacement_length,
    size_t limit,
    uint32_t flags,
    uint8_t *output, size_t output_length,
    size_t *length, size_t *count,
    hanneddois_error *error);

/*
 * Which patterns match anywhere in the haystack, also if their matches overlap. Writes to matched[i] 1 if pattern i
 * does, and else 0, and to *count how many do. Returns HANNEDDOIS_OK if a pattern matches, HANNEDDOIS_NONE and a count
 * of 0, or an error, after which count and marks are 0. If matched_length isn't the number of patterns, the call returns
 * HANNEDDOIS_BAD_ARGUMENT, and the count is 0. The first call makes a separate automaton for this.
 */
hanneddois_status hanneddois_matching_patterns(
    hanneddois_regex *regex,
    const uint8_t *haystack, size_t haystack_length,
    uint8_t *matched, size_t matched_length,
    size_t *count,
    hanneddois_error *error);

/* The message of an error: writes as many of its bytes as fit into `text`, without a 0 after them, and returns how
   many it has. It is ASCII, and names no offset or number. */
size_t hanneddois_error_text(const hanneddois_error *error, uint8_t *text, size_t text_length);

/* An estimate of how many bytes the caches of the regex need now; 0 if it is empty. */
size_t hanneddois_memory_usage(hanneddois_regex *regex);

/* How often the caches of the regex were cleared since it was made, also those that larger ones have replaced; 0 if
   it is empty. */
size_t hanneddois_clear_count(hanneddois_regex *regex);

/*
 * Streams: searches of input that comes in pieces, many at once.
 *
 *     hanneddois_streams streams = HANNEDDOIS_EMPTY;
 *     hanneddois_streams_new(&streams, texts, texts_length, lengths, count, &options, &error);
 *     size_t stream, taken, found;
 *     hanneddois_stream_new(&streams, &stream);
 *     while (there is a piece)
 *         do {
 *             hanneddois_stream_feed(&streams, stream, piece, piece_length, ends, room, &taken, &found, &error);
 *             use ends[0] .. ends[found - 1];
 *             piece += taken, piece_length -= taken;
 *         } while (piece_length > 0);
 *     hanneddois_stream_close(&streams, stream, ends, room, &found, &error);
 *     hanneddois_streams_free(&streams);
 *
 * A stream reports each pair of a pattern and an offset such that the pattern matches a part of its whole input that ends
 * there: all patterns, also if matches overlap, offsets ascending, each pair once. It doesn't report where matches start.
 * An end is known once the byte after it is read, since looks, as $ and \b, see that byte. The ends at the end of the
 * input are known when the stream is closed. What is reported never depends on where pieces are cut, or on other streams.
 *
 * With HANNEDDOIS_STREAM_LINES each line of the input is a haystack of its own: ^ and $ are the start and the end of the
 * line, and no match goes beyond it. A line feed ends a line and is no part of it. After the last line feed there is a line
 * only if a byte follows. Offsets are those of the whole input. The ends at the end of a line are known once its line feed
 * is read, and those of the last line when the stream is closed. A carriage return before a line feed is part of the line.
 *
 * A hanneddois_streams holds an automaton, a cache and streams, which are known by their numbers. The rules for
 * hanneddois_regex hold for it: it begins as HANNEDDOIS_EMPTY, and calls with the same one, with any of its streams, don't
 * run at the same time. It stays on one thread.
 */
typedef struct hanneddois_streams {
    void *inside;
} hanneddois_streams;

/* The end of a match: which pattern it is of, and the offset from the begin of the stream. */
typedef struct hanneddois_end {
    size_t pattern;
    size_t end;
} hanneddois_end;

/*
 * Makes a set of no streams over patterns, which are given as to hanneddois_new, with the same errors but for
 * HANNEDDOIS_EMPTY_LOOP: a pattern such as (a*)* is accepted. A pattern with a Unicode word boundary, as \b or \B, is
 * rejected: HANNEDDOIS_WORD_BOUNDARY. Write (?-u:\b), or use HANNEDDOIS_NO_UNICODE. The flags HANNEDDOIS_EMPTY_LOOPS,
 * HANNEDDOIS_MATCHING_PATTERNS, HANNEDDOIS_SHRINK and HANNEDDOIS_GROUPS have no effect. With HANNEDDOIS_UTF8 the input of
 * each stream has to be UTF-8 as a whole, which isn't checked: if it isn't, ends may split characters. All streams of the set
 * search lines if HANNEDDOIS_STREAM_LINES is set, and none otherwise.
 *
 * Returns HANNEDDOIS_OK, and *streams is the new set; or an error, and *streams is empty. What *streams held before is freed
 * in both cases.
 */
hanneddois_status hanneddois_streams_new(
    hanneddois_streams *streams,
    const uint8_t *texts, size_t texts_length,
    const size_t *lengths, size_t count,
    const hanneddois_options *options,
    hanneddois_error *error);

/* Frees a set with all its streams, and leaves it empty. An empty one stays so. */
void hanneddois_streams_free(hanneddois_streams *streams);

/* An estimate of how many bytes the cache of the set needs now; 0 if it is empty. A stream takes some 50 bytes more. */
size_t hanneddois_streams_memory_usage(hanneddois_streams *streams);

/* Adds a stream that has read nothing, and writes its number to *stream: HANNEDDOIS_OK. Otherwise *stream is 0, and the status
   is HANNEDDOIS_BAD_ARGUMENT if the set is empty, or HANNEDDOIS_NO_MEMORY. */
hanneddois_status hanneddois_stream_new(hanneddois_streams *streams, size_t *stream);

/*
 * Feeds a piece to a stream. Writes to *taken how many of its bytes were read, to `ends` the ends that these bytes decide,
 * and to *count how many these are. Returns HANNEDDOIS_OK, or an error.
 *
 * The call stops before a byte if `ends` has no room for the ends that are known by it. So with HANNEDDOIS_OK and *taken below
 * length, feed the rest. With as many rows as there are patterns, each call takes a byte at least.
 *
 * After an error too, *taken bytes were read and *count ends written. With HANNEDDOIS_NO_MEMORY the others can be fed again.
 * With HANNEDDOIS_CLOSED, and HANNEDDOIS_BAD_ARGUMENT if the set is empty or has no such stream, *taken and *count are 0.
 * Rows after the ends have no meaning.
 */
hanneddois_status hanneddois_stream_feed(
    hanneddois_streams *streams, size_t stream,
    const uint8_t *bytes, size_t length,
    hanneddois_end *ends, size_t ends_length,
    size_t *taken, size_t *count,
    hanneddois_error *error);

/*
 * Reads the end of a stream's input, and writes the ends that lie there to `ends` and their number to *count. The stream is
 * closed then: it takes no more bytes until it is reset. After an error it is as it was. With HANNEDDOIS_OUTPUT_TOO_SMALL
 * *count is how many rows are needed; there are never more ends than patterns. After other errors *count is 0.
 */
hanneddois_status hanneddois_stream_close(
    hanneddois_streams *streams, size_t stream,
    hanneddois_end *ends, size_t ends_length,
    size_t *count,
    hanneddois_error *error);

/* Makes a stream one that has read nothing: HANNEDDOIS_OK; or HANNEDDOIS_BAD_ARGUMENT if there is no such stream. */
hanneddois_status hanneddois_stream_reset(hanneddois_streams *streams, size_t stream);

/* Adds a copy of a stream as it is now, and writes its number to *to: HANNEDDOIS_OK. Otherwise *to is 0, and the status is
   HANNEDDOIS_BAD_ARGUMENT if there is no such stream, or HANNEDDOIS_NO_MEMORY. */
hanneddois_status hanneddois_stream_clone(hanneddois_streams *streams, size_t from, size_t *to);

/* Removes a stream: HANNEDDOIS_OK; or HANNEDDOIS_BAD_ARGUMENT if there is none with this number. A later stream may get it. */
hanneddois_status hanneddois_stream_free(hanneddois_streams *streams, size_t stream);

/* The version of the library, as HANNEDDOIS_VERSION. */
uint32_t hanneddois_version(void);

/* Names of version 0.2, for callers that were written for it. Version 0.4 won't have them. */
#define HANNEDDOIS_NO_PATTERN HANNEDDOIS_SYNTAX_ERROR
#define HANNEDDOIS_WHICH HANNEDDOIS_MATCHING_PATTERNS
#define hanneddois_which hanneddois_matching_patterns

#ifdef __cplusplus
}
#endif

#endif
