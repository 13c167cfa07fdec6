#include "handle.hpp"

#include <algorithm>
#include <cstring>

namespace fuzz {
namespace {

hanneddois_error filled_error() {
    hanneddois_error error;
    memset(&error, UNTOUCHED, sizeof error);
    return error;
}

void check_message(const hanneddois_error &error) {
    size_t length = hanneddois_error_text(&error, Fenced("", 0).data(), 0);
    bool is_error = !is_one_of(error.status, {HANNEDDOIS_OK, HANNEDDOIS_NONE});
    check((length > 0) == is_error && length < 1000, "an error has no message, or a very long one");
    for (size_t room : {length, length / 2, length + 7}) {
        Fenced text(nullptr, room);
        memset(text.data(), UNTOUCHED, room);
        check(hanneddois_error_text(&error, text.data(), room) == length, "the length of a message changes with its room");
        for (size_t at = 0; at < room && at < length; ++at)
            check(text.data()[at] >= ' ' && text.data()[at] < 0x7F, "a message isn't ASCII");
        for (size_t at = length; at < room; ++at)
            check(text.data()[at] == UNTOUCHED, "bytes after a message are written");
    }
}

bool has_position(hanneddois_status status) { return is_one_of(status, {HANNEDDOIS_SYNTAX_ERROR, HANNEDDOIS_NESTS_TOO_DEEP}); }

bool has_pattern(hanneddois_status status) { return has_position(status) || is_one_of(status, {HANNEDDOIS_NOT_UTF8, HANNEDDOIS_EMPTY_LOOP, HANNEDDOIS_WORD_BOUNDARY}); }

} // namespace

void check_error(const hanneddois_error &error, const std::vector<Bytes> &patterns) {
    hanneddois_status status = error.status;
    bool has_start = has_position(status) || is_one_of(status, {HANNEDDOIS_NOT_UTF8, HANNEDDOIS_HAYSTACK_NOT_UTF8});
    check(has_pattern(status) || error.pattern == 0, "an error without a pattern names one");
    check(has_start || error.start == 0, "an error without an offset names one");
    check(has_position(status) || error.end == 0, "an error without an end names one");
    check(is_one_of(status, {HANNEDDOIS_TOO_LARGE, HANNEDDOIS_CAPACITY_TOO_SMALL}) || error.limit == 0, "an error without a limit names one");
    note(status, error.cause);
    check_message(error);
    if (!has_pattern(status))
        return;
    check(error.pattern < patterns.size(), "an error names a pattern that isn't there");
    const Bytes &pattern = patterns[error.pattern];
    if (status == HANNEDDOIS_NOT_UTF8)
        check(error.start == valid_up_to(pattern) && error.start < pattern.size(), "the offset isn't that of the first faulty byte of the pattern");
    if (has_position(status))
        check(error.start <= error.end && error.end <= pattern.size(), "the offsets of a syntax error aren't in the pattern");
}

Found Handle::make(const std::vector<Bytes> &patterns, const hanneddois_options &options) {
    Bytes joined;
    std::vector<size_t> lengths;
    for (const Bytes &each : patterns) {
        joined.insert(joined.end(), each.begin(), each.end());
        lengths.push_back(each.size());
    }
    Fenced texts(joined.data(), joined.size()), counts(lengths.data(), lengths.size() * sizeof(size_t));
    Found found;
    found.error = filled_error();
    found.status = hanneddois_new(raw(), texts.data(), texts.size(), reinterpret_cast<const size_t *>(counts.data()), lengths.size(), &options, &found.error);
    check(found.error.status == found.status, "the status of the error isn't the one that is returned");
    check(found.status < HANNEDDOIS_WORD_BOUNDARY && found.status != HANNEDDOIS_NONE, "a regex is made with the status of a search");
    check_error(found.error, patterns);
    bool is_made = found.status == HANNEDDOIS_OK;
    check((raw()->inside != nullptr) == is_made, "a regex that isn't made isn't empty, or the other way round");
    count_ = is_made ? patterns.size() : 0;
    flags_ = options.flags;
    check_counts();
    return found;
}

Found Handle::searched(hanneddois_status status, const hanneddois_error &error, const Bytes &haystack) {
    Found found;
    found.status = status;
    found.error = error;
    check(error.status == status, "the status of the error isn't the one that is returned");
    check_error(error, {});
    if (is_empty()) {
        check(status == HANNEDDOIS_BAD_ARGUMENT, "an empty handle is searched");
        return found;
    }
    bool is_utf8 = (flags_ & HANNEDDOIS_UTF8) != 0;
    if (status == HANNEDDOIS_HAYSTACK_NOT_UTF8) {
        check(is_utf8, "a haystack of any bytes is no UTF-8");
        check(error.start == valid_up_to(haystack) && error.start < haystack.size(), "the offset isn't that of the first faulty byte of the haystack");
    }
    if (is_utf8 && found.is_answer())
        check(valid_up_to(haystack) == haystack.size(), "a haystack that is no UTF-8 is searched");
    return found;
}

Found Handle::is_match(const Bytes &haystack) {
    Fenced input(haystack.data(), haystack.size(), haystack.size() % 2);
    hanneddois_error error = filled_error();
    return searched(hanneddois_is_match(raw(), input.data(), input.size(), &error), error, haystack);
}

Found Handle::find_at(const Bytes &haystack, size_t from) {
    Fenced input(haystack.data(), haystack.size());
    hanneddois_error error = filled_error();
    hanneddois_match match = {9, 9, 9};
    hanneddois_status status = hanneddois_find_at(raw(), input.data(), input.size(), from, &match, &error);
    Found found = searched(status, error, haystack);
    found.match = {match.pattern, match.start, match.end};
    if (status != HANNEDDOIS_OK) {
        check(found.match == Match(), "without a match its fields aren't 0");
        return found;
    }
    check(from <= match.start && match.start <= match.end && match.end <= haystack.size(), "a match is outside the haystack, or before the start of the search");
    check(match.pattern < count_, "a match is of a pattern that isn't there");
    if (flags_ & HANNEDDOIS_UTF8)
        check(is_boundary(haystack, match.start) && is_boundary(haystack, match.end), "a match splits a character");
    return found;
}

Found Handle::find_all(const Bytes &haystack, size_t room) {
    Fenced input(haystack.data(), haystack.size()), rows(nullptr, room * sizeof(hanneddois_match));
    memset(rows.data(), UNTOUCHED, rows.size());
    hanneddois_error error = filled_error();
    size_t count = 99;
    hanneddois_match *matches = reinterpret_cast<hanneddois_match *>(rows.data());
    hanneddois_status status = hanneddois_find_all(raw(), input.data(), input.size(), matches, room, &count, &error);
    Found found = searched(status, error, haystack);
    found.count = count;
    check(status != HANNEDDOIS_OK || count > 0, "matches are found, and their count is 0");
    check(status != HANNEDDOIS_NONE || count == 0, "no match is found, and the count isn't 0");
    check(!is_empty() || count == 0, "an empty handle has matches");
    for (size_t it = 0; it < room && it < count; ++it)
        found.list.push_back({matches[it].pattern, matches[it].start, matches[it].end});
    for (size_t it = count * sizeof(hanneddois_match); it < rows.size(); ++it)
        check(rows.data()[it] == UNTOUCHED, "rows after the last match are written");
    return found;
}

// Both slots of a group are offsets of the match, or neither is. Those of group 0 are the match, and no other group has any.
void Handle::check_slots(const Match &match, const size_t *slots, size_t count) const {
    size_t groups = hanneddois_group_count(const_cast<hanneddois_regex *>(&regexes_[at_]), match.pattern);
    check(groups > 0, "a pattern has no group 0");
    for (size_t at = 0; at < count; ++at) {
        bool is_there = slots[at] != HANNEDDOIS_NO_OFFSET;
        check(!is_there || at / 2 < groups, "a slot after the last group has an offset");
        check(!is_there || (match.start <= slots[at] && slots[at] <= match.end), "a group is outside its match");
        if (at % 2) {
            check(is_there == (slots[at - 1] != HANNEDDOIS_NO_OFFSET), "a group has one offset alone");
            check(!is_there || slots[at - 1] <= slots[at], "a group ends before it starts");
        }
    }
    check(count < 1 || slots[0] == match.start, "group 0 starts elsewhere than the match");
    check(count < 2 || slots[1] == match.end, "group 0 ends elsewhere than the match");
}

Found Handle::captures(const Bytes &haystack, size_t from, size_t count) {
    Fenced input(haystack.data(), haystack.size()), slots(nullptr, count * sizeof(size_t));
    memset(slots.data(), UNTOUCHED, slots.size());
    hanneddois_error error = filled_error();
    hanneddois_match match = {9, 9, 9};
    size_t *first = reinterpret_cast<size_t *>(slots.data());
    hanneddois_status status = hanneddois_captures(raw(), input.data(), input.size(), from, &match, first, count, &error);
    Found found = searched(status, error, haystack);
    found.match = {match.pattern, match.start, match.end};
    found.slots.assign(first, first + count);
    if (status != HANNEDDOIS_OK) {
        check(found.match == Match(), "without a match its fields aren't 0");
        for (size_t slot : found.slots)
            check(slot == HANNEDDOIS_NO_OFFSET, "without a match a slot has an offset");
        return found;
    }
    check(from <= match.start && match.start <= match.end && match.end <= haystack.size(), "a match is outside the haystack, or before the start of the search");
    check(match.pattern < count_, "a match is of a pattern that isn't there");
    check_slots(found.match, first, count);
    return found;
}

Found Handle::captures_all(const Bytes &haystack, size_t room, size_t width) {
    Fenced input(haystack.data(), haystack.size()), rows(nullptr, room * sizeof(hanneddois_match)), slots(nullptr, room * width * sizeof(size_t));
    memset(rows.data(), UNTOUCHED, rows.size());
    memset(slots.data(), UNTOUCHED, slots.size());
    hanneddois_error error = filled_error();
    size_t count = 99;
    hanneddois_match *matches = reinterpret_cast<hanneddois_match *>(rows.data());
    size_t *first = reinterpret_cast<size_t *>(slots.data());
    hanneddois_status status = hanneddois_captures_all(raw(), input.data(), input.size(), matches, room, first, room * width, width, &count, &error);
    Found found = searched(status, error, haystack);
    found.count = count;
    check(status != HANNEDDOIS_OK || count > 0, "matches are found, and their count is 0");
    check(status != HANNEDDOIS_NONE || count == 0, "no match is found, and the count isn't 0");
    check(!is_empty() || count == 0, "an empty handle has matches");
    size_t written = std::min(room, count);
    for (size_t it = 0; it < written; ++it) {
        found.list.push_back({matches[it].pattern, matches[it].start, matches[it].end});
        check_slots(found.list.back(), first + it * width, width);
    }
    found.slots.assign(first, first + written * width);
    for (size_t it = written * sizeof(hanneddois_match); it < rows.size(); ++it)
        check(rows.data()[it] == UNTOUCHED, "rows after the last match are written");
    size_t untouched;
    memset(&untouched, UNTOUCHED, sizeof untouched);
    for (size_t it = written * width; it < room * width; ++it) {
        bool may_be_cleared = !found.is_answer() && it < (written + 1) * width && first[it] == HANNEDDOIS_NO_OFFSET;
        check(may_be_cleared || first[it] == untouched, "slots after the last match are written");
    }
    return found;
}

Found Handle::captures_next(const Bytes &haystack, size_t from, size_t room, size_t width) {
    Fenced input(haystack.data(), haystack.size()), rows(nullptr, room * sizeof(hanneddois_match)), slots(nullptr, room * width * sizeof(size_t));
    memset(rows.data(), UNTOUCHED, rows.size());
    memset(slots.data(), UNTOUCHED, slots.size());
    hanneddois_error error = filled_error();
    size_t count = 99, next = from;
    hanneddois_match *matches = reinterpret_cast<hanneddois_match *>(rows.data());
    size_t *first = reinterpret_cast<size_t *>(slots.data());
    hanneddois_status status = hanneddois_captures_next(raw(), input.data(), input.size(), &next, matches, room, first, room * width, width, &count, &error);
    Found found = searched(status, error, haystack);
    found.count = count;
    found.next = next;
    if (room == 0)
        check(status == HANNEDDOIS_BAD_ARGUMENT, "a list without rows is made");
    check(count <= room, "more matches are counted than there are rows");
    check(status != HANNEDDOIS_OK || count > 0, "matches are found, and their count is 0");
    check(status != HANNEDDOIS_NONE || count == 0, "no match is found, and the count isn't 0");
    check(!is_empty() || count == 0, "an empty handle has matches");
    size_t written = count, expected = from;
    for (size_t it = 0; it < written; ++it) {
        check(expected <= matches[it].start, "a match starts before the search for it");
        expected = matches[it].end + (matches[it].start == matches[it].end);
        found.list.push_back({matches[it].pattern, matches[it].start, matches[it].end});
        check_slots(found.list.back(), first + it * width, width);
    }
    check(next == expected, "a list goes on elsewhere");
    found.slots.assign(first, first + written * width);
    for (size_t it = written * sizeof(hanneddois_match); it < rows.size(); ++it)
        check(rows.data()[it] == UNTOUCHED, "rows after the last match are written");
    size_t untouched;
    memset(&untouched, UNTOUCHED, sizeof untouched);
    for (size_t it = written * width; it < room * width; ++it) {
        bool may_be_cleared = !found.is_answer() && it < (written + 1) * width && first[it] == HANNEDDOIS_NO_OFFSET;
        check(may_be_cleared || first[it] == untouched, "slots after the last match are written");
    }
    return found;
}

Found Handle::matching(const Bytes &haystack, size_t marks) {
    Fenced input(haystack.data(), haystack.size()), matched(nullptr, marks);
    memset(matched.data(), UNTOUCHED, marks);
    hanneddois_error error = filled_error();
    size_t count = 99;
    hanneddois_status status = hanneddois_matching_patterns(raw(), input.data(), input.size(), matched.data(), marks, &count, &error);
    Found found = searched(status, error, haystack);
    found.count = count;
    found.marks.assign(matched.data(), matched.data() + marks);
    if (marks != count_ || is_empty()) {
        check(status == HANNEDDOIS_BAD_ARGUMENT && count == 0, "marks of another number than that of patterns are taken");
        return found;
    }
    size_t sum = 0;
    for (uint8_t mark : found.marks) {
        check(mark <= 1, "a mark is neither 0 nor 1");
        sum += mark;
    }
    check(sum == count, "the count isn't that of the marks");
    check((status == HANNEDDOIS_OK) == (count > 0), "the count doesn't fit the status");
    return found;
}

Found Handle::replace_all(const Bytes &haystack, const Bytes &by, size_t limit, uint32_t flags, size_t room) {
    Fenced input(haystack.data(), haystack.size()), replacement(by.data(), by.size()), output(nullptr, room);
    memset(output.data(), UNTOUCHED, room);
    hanneddois_error error = filled_error();
    size_t length = 99, count = 99;
    hanneddois_status status = hanneddois_replace_all(raw(), input.data(), input.size(), replacement.data(), replacement.size(), limit, flags,
                                                      output.data(), room, &length, &count, &error);
    Found found = searched(status, error, haystack);
    found.length = length;
    found.count = count;
    found.output.assign(output.data(), output.data() + std::min(room, length));
    check(found.is_answer() || (length == 0 && count == 0), "a failed call has replaced something");
    check((status == HANNEDDOIS_OUTPUT_TOO_SMALL) == (length > room), "the status doesn't say whether there is room for the output");
    check(status > HANNEDDOIS_NONE || (status == HANNEDDOIS_OK) == (count > 0), "the count of replaced matches doesn't fit the status");
    check(limit == 0 || count <= limit, "more matches are replaced than the limit");
    check(count > 0 || !found.is_answer() || length == haystack.size(), "without a match the output isn't the haystack");
    for (size_t at = length; at < room; ++at)
        check(output.data()[at] == UNTOUCHED, "bytes after the output are written");
    return found;
}

Found Handle::copy_from(Handle &from) {
    Found found;
    found.status = hanneddois_clone(from.raw(), raw());
    check(is_one_of(found.status, {HANNEDDOIS_OK, HANNEDDOIS_BAD_ARGUMENT, HANNEDDOIS_NO_MEMORY}), "a copy is made with another status");
    check((found.status == HANNEDDOIS_BAD_ARGUMENT) == from.is_empty(), "a copy of nothing is made, or none of a regex");
    check((raw()->inside != nullptr) == (found.status == HANNEDDOIS_OK), "a copy that isn't made isn't empty, or the other way round");
    count_ = found.status == HANNEDDOIS_OK ? from.count_ : 0;
    flags_ = from.flags_;
    check_counts();
    from.check_counts();
    return found;
}

void Handle::end() {
    hanneddois_free(raw());
    check(raw()->inside == nullptr, "a freed handle isn't empty");
    count_ = 0;
    check_counts();
}

void Handle::move() {
    regexes_[1 - at_] = regexes_[at_];
    regexes_[at_].inside = reinterpret_cast<void *>(0xDEAD);
    at_ = 1 - at_;
}

void Handle::check_counts() {
    check(hanneddois_pattern_count(raw()) == count_, "the number of patterns is wrong");
    check(hanneddois_version() == HANNEDDOIS_VERSION, "the library is of another version than the header");
    size_t bytes = hanneddois_memory_usage(raw()), clears = hanneddois_clear_count(raw());
    check(count_ > 0 || (bytes == 0 && clears == 0), "an empty handle has a cache");
    note(100, clears < 8 ? static_cast<uint32_t>(clears) : 8);
    check_groups();
}

// Each pattern has group 0, which has no name. Names are UTF-8, and their length doesn't change with their room.
void Handle::check_groups() {
    check(hanneddois_group_count(raw(), count_) == 0, "a pattern that isn't there has groups");
    for (size_t pattern = 0; pattern < count_; ++pattern) {
        size_t groups = hanneddois_group_count(raw(), pattern);
        check(groups > 0, "a pattern has no group 0");
        for (size_t group = 0; group <= groups && group < 8; ++group) {
            size_t length = hanneddois_group_name(raw(), pattern, group, Fenced("", 0).data(), 0);
            check(length == 0 || (group > 0 && group < groups), "group 0, or a group that isn't there, has a name");
            Fenced name(nullptr, length / 2 + 3);
            memset(name.data(), UNTOUCHED, name.size());
            check(hanneddois_group_name(raw(), pattern, group, name.data(), name.size()) == length, "the length of a name changes with its room");
            for (size_t at = length; at < name.size(); ++at)
                check(name.data()[at] == UNTOUCHED, "bytes after a name are written");
        }
    }
}

} // namespace fuzz
