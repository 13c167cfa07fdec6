// Answers: what different calls return about the same patterns and haystack has to fit together. The reference of a call is another call:
// a list of matches is built of single searches, several patterns are compared with each one alone, HANNEDDOIS_UTF8 with a search without
// it, and a regex with large caches with one that has the smallest caches and shares nothing.
#include <algorithm>
#include <memory>

#include "handle.hpp"

namespace fuzz {
namespace {

using Patterns = std::vector<Bytes>;

constexpr size_t MOST_FROM = 10;

struct Regexes {
    Handle all, other, plain;
    std::vector<std::unique_ptr<Handle>> singles;
    bool may_end_elsewhere = false; // a loop may be empty, so which end a match has is left open
};

bool is_made(const Found &found) {
    check(found.status != HANNEDDOIS_NO_MEMORY, "out of memory, and no allocation failed");
    return found.status == HANNEDDOIS_OK;
}

// Of patterns that are rejected together, the one that the error names is rejected alone, for the same cause.
void compare_rejection(const Found &rejected, const Patterns &patterns, const hanneddois_options &options) {
    if (!is_one_of(rejected.status, {HANNEDDOIS_NOT_UTF8, HANNEDDOIS_SYNTAX_ERROR, HANNEDDOIS_NESTS_TOO_DEEP, HANNEDDOIS_EMPTY_LOOP}))
        return;
    Handle alone;
    Found found = alone.make({patterns[rejected.error.pattern]}, options);
    check(found.status == rejected.status && found.error.cause == rejected.error.cause, "a pattern is rejected for another cause alone");
    check(found.error.start == rejected.error.start && found.error.end == rejected.error.end, "a pattern is rejected at other offsets alone");
}

void check_made_or_too_large(const Found &found, const char *what) {
    check(is_made(found) || is_one_of(found.status, {HANNEDDOIS_TOO_LARGE, HANNEDDOIS_CAPACITY_TOO_SMALL}), what);
}

bool has_empty_loop(const Patterns &patterns, hanneddois_options options) {
    if (!(options.flags & HANNEDDOIS_EMPTY_LOOPS))
        return false;
    Handle strict;
    options.flags &= ~HANNEDDOIS_EMPTY_LOOPS;
    Found found = strict.make(patterns, options);
    check_made_or_too_large(found.status == HANNEDDOIS_EMPTY_LOOP ? Found() : found, "without empty loops patterns are rejected for something else");
    return found.status != HANNEDDOIS_OK;
}

bool make_all(Regexes &made, const Case &given) {
    Found found = made.all.make(given.patterns, given.options);
    if (!is_made(found)) {
        compare_rejection(found, given.patterns, given.options);
        return false;
    }
    made.may_end_elsewhere = has_empty_loop(given.patterns, given.options);
    hanneddois_options other = given.options;
    other.flags ^= HANNEDDOIS_SHRINK | HANNEDDOIS_NO_BYTE_CLASSES | HANNEDDOIS_MATCHING_PATTERNS;
    other.flags = cheap(other.flags | HANNEDDOIS_RAISE_CAPACITY);
    other.capacity = 1;
    check_made_or_too_large(made.other.make(given.patterns, other), "with small caches patterns are rejected");
    hanneddois_options plain = given.options;
    plain.flags &= ~HANNEDDOIS_UTF8;
    if (given.options.flags & HANNEDDOIS_UTF8)
        check_made_or_too_large(made.plain.make(given.patterns, plain), "without HANNEDDOIS_UTF8 patterns are rejected");
    for (const Bytes &pattern : given.patterns) {
        made.singles.push_back(std::make_unique<Handle>());
        check_made_or_too_large(made.singles.back()->make({pattern}, given.options), "a pattern of a regex is rejected alone");
    }
    return true;
}

// Whether both are answers, so that they can be compared. A search may fail only if what it needs is too large, or its haystack is faulty.
bool are_answers(const Found &first, const Found &second) {
    for (const Found *each : {&first, &second})
        check(each->is_answer() || is_one_of(each->status, {HANNEDDOIS_TOO_LARGE, HANNEDDOIS_HAYSTACK_NOT_UTF8}), "a search fails for no cause that it may have");
    check((first.status == HANNEDDOIS_HAYSTACK_NOT_UTF8) == (second.status == HANNEDDOIS_HAYSTACK_NOT_UTF8), "one of two searches has a faulty haystack");
    return first.is_answer() && second.is_answer();
}

bool is_same(const Match &first, const Match &second, bool may_end_elsewhere) {
    return first.start == second.start && first.pattern == second.pattern && (may_end_elsewhere || first.end == second.end);
}

void compare_finds(const Found &first, const Found &second, bool may_end_elsewhere, const char *what) {
    if (!are_answers(first, second))
        return;
    check(first.status == second.status && is_same(first.match, second.match, may_end_elsewhere), what);
}

// The list of all matches, from one search to the next. Ends early, and returns false, if a search has no answer.
bool list_by_finds(Handle &regex, const Bytes &haystack, std::vector<Match> &list) {
    size_t from = 0;
    while (from <= haystack.size()) {
        Found found = regex.find_at(haystack, from);
        bool is_adjacent = found.status == HANNEDDOIS_OK && found.match.is_empty() && !list.empty() && found.match.end == list.back().end;
        if (is_adjacent) {
            if (from == haystack.size())
                return true;
            found = regex.find_at(haystack, from + 1);
        }
        if (found.status != HANNEDDOIS_OK)
            return found.status == HANNEDDOIS_NONE;
        list.push_back(found.match);
        from = found.match.end;
    }
    return true;
}

void compare_lists(Handle &regex, const Bytes &haystack, size_t room, bool may_end_elsewhere) {
    Found all = regex.find_all(haystack, haystack.size() + 2);
    Found some = regex.find_all(haystack, room);
    Found whether = regex.is_match(haystack);
    Found first = regex.find_at(haystack, 0);
    if (are_answers(whether, first))
        check(whether.status == first.status, "is_match isn't as find_at");
    if (!are_answers(all, some))
        return;
    check(all.status == first.status || !first.is_answer(), "find_all isn't as find_at");
    check(all.count == some.count && some.list.size() == std::min(room, all.count), "the count of a list changes with its room");
    check(std::equal(some.list.begin(), some.list.end(), all.list.begin()), "a list changes with its room");
    std::vector<Match> built;
    if (!list_by_finds(regex, haystack, built) || may_end_elsewhere)
        return;
    check(built.size() == all.count && built == all.list, "a list isn't that of single searches");
    note(200, static_cast<uint32_t>(std::min<size_t>(built.size(), 20)));
}

// The leftmost match of several patterns is the leftmost of each alone, of the first pattern if several start there.
void compare_with_singles(Regexes &made, const Bytes &haystack, size_t from) {
    Found together = made.all.find_at(haystack, from), best;
    best.status = HANNEDDOIS_NONE;
    for (size_t it = 0; it < made.singles.size(); ++it) {
        if (made.singles[it]->is_empty())
            return;
        Found found = made.singles[it]->find_at(haystack, from);
        if (!are_answers(together, found))
            return;
        if (found.status == HANNEDDOIS_OK && (best.status == HANNEDDOIS_NONE || found.match.start < best.match.start)) {
            best = found;
            best.match.pattern = it;
        }
    }
    compare_finds(together, best, made.may_end_elsewhere, "several patterns don't match as each alone");
}

void compare_matching(Regexes &made, const Bytes &haystack) {
    Found marked = made.all.matching(haystack, made.all.count());
    Found again = made.all.matching(haystack, made.all.count());
    if (!are_answers(marked, again))
        return;
    check(marked.marks == again.marks, "the patterns that match change");
    for (size_t it = 0; it < made.singles.size(); ++it) {
        if (made.singles[it]->is_empty())
            continue;
        Found alone = made.singles[it]->is_match(haystack);
        if (are_answers(marked, alone))
            check((marked.marks[it] == 1) == (alone.status == HANNEDDOIS_OK), "a pattern is marked that doesn't match alone, or the other way round");
    }
    note(300, static_cast<uint32_t>(marked.count));
}

// With HANNEDDOIS_UTF8 a match is the first one without it that isn't empty within a character.
void compare_utf8(Regexes &made, const Bytes &haystack, size_t from) {
    if (made.plain.is_empty() || valid_up_to(haystack) < haystack.size() || !is_boundary(haystack, from))
        return;
    Found found = made.all.find_at(haystack, from), plain = made.plain.find_at(haystack, from);
    while (plain.status == HANNEDDOIS_OK && plain.match.is_empty() && !is_boundary(haystack, plain.match.start))
        plain = made.plain.find_at(haystack, plain.match.start + 1);
    compare_finds(found, plain, made.may_end_elsewhere, "a match isn't as without HANNEDDOIS_UTF8");
}

// A search from any offset up to a match finds that match too.
void compare_offsets(Regexes &made, const Bytes &haystack, size_t from) {
    Found found = made.all.find_at(haystack, from);
    if (made.other.is_empty())
        return;
    compare_finds(found, made.other.find_at(haystack, from), made.may_end_elsewhere, "with small caches a match is another");
    if (found.status != HANNEDDOIS_OK)
        return;
    size_t between = from + (found.match.start - from + 1) / 2;
    compare_finds(found, made.other.find_at(haystack, between), made.may_end_elsewhere, "a search from between finds another match");
}

// The matches with groups are those of the list, and each is found with the same groups from its start on, also with small caches.
void compare_groups(Regexes &made, const Bytes &haystack, size_t room) {
    const size_t width = 6;
    Found all = made.all.find_all(haystack, haystack.size() + 2), rows = made.all.captures_all(haystack, haystack.size() + 2, width);
    Found some = made.all.captures_all(haystack, room, width - 3);
    if (are_answers(rows, some))
        check(rows.count == some.count && std::equal(some.list.begin(), some.list.end(), rows.list.begin()), "a list with groups changes with its room");
    if (are_answers(all, rows) && !made.may_end_elsewhere)
        check(all.count == rows.count && all.list == rows.list, "the matches with groups aren't those of the list");
    for (size_t it = 0; it < rows.list.size() && it < MOST_FROM; ++it) {
        for (Handle *each : {&made.all, &made.other}) {
            if (each->is_empty())
                continue;
            Found one = each->captures(haystack, rows.list[it].start, width);
            if (!are_answers(rows, one))
                continue;
            check(one.status == HANNEDDOIS_OK && one.match == rows.list[it], "a match with groups isn't found alone");
            check(std::equal(one.slots.begin(), one.slots.end(), rows.slots.begin() + it * width), "a match has other groups alone");
        }
    }
    note(500, static_cast<uint32_t>(std::min<size_t>(rows.count, 20)));
}

// Pieces of a list are the list. Without each empty match right at the end of the one before it, it is that of all matches with their groups.
void compare_pieces(Handle &regex, const Bytes &haystack, size_t room) {
    const size_t width = 4;
    Found all = regex.captures_all(haystack, haystack.size() + 2, width);
    Found whole = regex.captures_next(haystack, 0, haystack.size() + 2, width);
    std::vector<Match> list;
    std::vector<size_t> slots;
    for (size_t it = 0; it < whole.list.size(); ++it) {
        const Match &match = whole.list[it];
        if (match.is_empty() && it > 0 && match.end == whole.list[it - 1].end)
            continue;
        list.push_back(match);
        slots.insert(slots.end(), whole.slots.begin() + it * width, whole.slots.begin() + (it + 1) * width);
    }
    if (!are_answers(all, whole))
        return;
    check(list == all.list && slots == all.slots, "a list without empty matches at ends isn't that of all matches");
    std::vector<Match> built;
    for (size_t from = 0, count = room; count == room && built.size() <= haystack.size() + 2;) {
        Found piece = regex.captures_next(haystack, from, room, width);
        if (!piece.is_answer())
            return;
        built.insert(built.end(), piece.list.begin(), piece.list.end());
        from = piece.next;
        count = piece.count;
    }
    check(built == whole.list, "a list in pieces isn't the whole list");
}

// Bytes as they are replace the matches of the list. A template with the whole match alone leaves the haystack as it is.
void compare_replaced(Handle &regex, const Bytes &haystack, size_t room, bool may_end_elsewhere) {
    const Bytes by = {'$', '1', 0xFF}, whole = {'$', '{', '0', '}'};
    Found all = regex.find_all(haystack, haystack.size() + 2);
    Found replaced = regex.replace_all(haystack, by, 0, HANNEDDOIS_LITERAL, 4 * haystack.size() + 3);
    Found some = regex.replace_all(haystack, by, 0, HANNEDDOIS_LITERAL, room);
    Found same = regex.replace_all(haystack, whole, room, 0, haystack.size());
    if (are_answers(replaced, some)) {
        check(replaced.length == some.length && replaced.count == some.count, "the length of an output changes with its room");
        check(std::equal(some.output.begin(), some.output.end(), replaced.output.begin()), "an output changes with its room");
    }
    if (are_answers(all, same))
        check(same.output == haystack, "matches that are replaced by themselves change the haystack");
    if (!are_answers(all, replaced) || may_end_elsewhere)
        return;
    Bytes built;
    size_t last = 0;
    for (const Match &each : all.list) {
        built.insert(built.end(), haystack.begin() + last, haystack.begin() + each.start);
        built.insert(built.end(), by.begin(), by.end());
        last = each.end;
    }
    built.insert(built.end(), haystack.begin() + last, haystack.end());
    check(replaced.count == all.count && replaced.output == built, "other matches are replaced than those of the list");
}

void compare(Regexes &made, const Case &given, const Bytes &haystack) {
    size_t room = given.failing_allocation % 8;
    compare_lists(made.all, haystack, room, made.may_end_elsewhere);
    if (!made.other.is_empty())
        compare_lists(made.other, haystack, room, made.may_end_elsewhere);
    compare_matching(made, haystack);
    compare_replaced(made.all, haystack, room, made.may_end_elsewhere);
    compare_groups(made, haystack, room);
    compare_pieces(made.all, haystack, room + 1);
    for (size_t it = 0; it < MOST_FROM && it < given.calls.size() + 2; ++it) {
        size_t from = it == 0 ? 0 : it == 1 ? haystack.size() : given.calls[it - 2].value * haystack.size() / 255;
        compare_offsets(made, haystack, from);
        compare_with_singles(made, haystack, from);
        compare_utf8(made, haystack, from);
    }
}

void run(const Case &given) {
    set_fences(given.failing_call % 16 == 15);
    Regexes made;
    if (!make_all(made, given))
        return;
    for (const Bytes &haystack : given.haystacks)
        compare(made, given, haystack);
}

} // namespace
} // namespace fuzz

extern "C" int LLVMFuzzerInitialize(int *, char ***) {
    fuzz::watch_blocks();
    return 0;
}

extern "C" int LLVMFuzzerTestOneInput(const uint8_t *data, size_t size) {
    fuzz::run(fuzz::read_case(data, size));
    fuzz::check(fuzz::blocks_held() == 0, "memory is left after all handles were freed");
    return 0;
}
