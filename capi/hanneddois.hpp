/*
 * hanneddois: regular expressions by a lazy DFA, for C++17. This header needs only hanneddois.h and the library.
 *
 *     hanneddois::regex regex("[0-9]+");
 *     for (const hanneddois::match &found : regex.matches("7 and 42"))
 *         std::cout << found.start() << ".." << found.end() << '\n';
 *
 * Patterns are written in the syntax of the Rust crate regex. A haystack is a std::string_view, and may have any bytes.
 * All offsets count bytes from 0; an offset "end" is the one after the last byte.
 *
 * A regex is moved, and never copied. A search changes its caches, so only a regex that isn't const can be searched.
 * One thread at a time may use a regex, and the iterators over its matches. Different regexes may be used by different
 * threads, also if one is a clone() of the other.
 *
 * A match, with its groups or without, and a range of matches refer to the haystack, and a range refers to the regex. Both
 * must outlive them. For a temporary std::string, calls that return a match don't compile.
 *
 * Each call has two forms. One throws hanneddois::error. The other is noexcept, and has a last parameter to which it
 * writes why it failed, or that it didn't. If it failed, it returns what it returns without a match.
 */
#ifndef HANNEDDOIS_HPP
#define HANNEDDOIS_HPP

#include <algorithm>
#include <cstddef>
#include <cstdint>
#include <exception>
#include <initializer_list>
#include <iterator>
#include <memory>
#include <new>
#include <optional>
#include <string>
#include <string_view>
#include <type_traits>
#include <utility>
#include <vector>

#include "hanneddois.h"

namespace hanneddois {

/* Flags of options, to be joined by |. The constants of hanneddois.h explain them. */
enum class flag : std::uint32_t {
    none = 0,
    case_insensitive = HANNEDDOIS_CASE_INSENSITIVE,
    multi_line = HANNEDDOIS_MULTI_LINE,
    dot_matches_new_line = HANNEDDOIS_DOT_MATCHES_NEW_LINE,
    swap_greed = HANNEDDOIS_SWAP_GREED,
    ignore_whitespace = HANNEDDOIS_IGNORE_WHITESPACE,
    crlf = HANNEDDOIS_CRLF,
    octal = HANNEDDOIS_OCTAL,
    no_unicode = HANNEDDOIS_NO_UNICODE,
    utf8 = HANNEDDOIS_UTF8,
    empty_loops = HANNEDDOIS_EMPTY_LOOPS,
    matching_patterns = HANNEDDOIS_MATCHING_PATTERNS,
    raise_capacity = HANNEDDOIS_RAISE_CAPACITY,
    no_byte_classes = HANNEDDOIS_NO_BYTE_CLASSES,
    shrink = HANNEDDOIS_SHRINK,
    groups = HANNEDDOIS_GROUPS,
    stream_lines = HANNEDDOIS_STREAM_LINES
};

constexpr flag operator|(flag a, flag b) noexcept
{
    return static_cast<flag>(static_cast<std::uint32_t>(a) | static_cast<std::uint32_t>(b));
}

constexpr flag operator&(flag a, flag b) noexcept
{
    return static_cast<flag>(static_cast<std::uint32_t>(a) & static_cast<std::uint32_t>(b));
}

/* How patterns are compiled. Where options are expected, flags alone will do. */
struct options {
    constexpr options() noexcept = default;
    constexpr options(flag joined) noexcept : flags(joined) {}

    flag flags = flag::none;
    /* How deep groups, classes and repetitions of a pattern may nest; 0 for 250. Deeper ones need a larger stack. */
    std::uint32_t nest_limit = 0;
    /* How many bytes each of both caches may take. A capacity that is set is never exceeded, unless
       flag::raise_capacity raises it. With 0, each may take 2 MiB at first. If searches or streams clear it too soon, it
       is enlarged, up to 256 MiB. */
    std::size_t capacity = 0;
    /* How many bytes each of both automata may take, and the automaton that finds the groups of a pattern; 0 for
       64 MiB. */
    std::size_t size_limit = 0;
};

/* How a call ended. The constants of hanneddois.h explain it. */
enum class status : hanneddois_status {
    ok = HANNEDDOIS_OK,
    none = HANNEDDOIS_NONE,
    bad_argument = HANNEDDOIS_BAD_ARGUMENT,
    no_memory = HANNEDDOIS_NO_MEMORY,
    not_utf8 = HANNEDDOIS_NOT_UTF8,
    syntax_error = HANNEDDOIS_SYNTAX_ERROR,
    nests_too_deep = HANNEDDOIS_NESTS_TOO_DEEP,
    empty_loop = HANNEDDOIS_EMPTY_LOOP,
    too_large = HANNEDDOIS_TOO_LARGE,
    capacity_too_small = HANNEDDOIS_CAPACITY_TOO_SMALL,
    word_boundary = HANNEDDOIS_WORD_BOUNDARY,
    haystack_not_utf8 = HANNEDDOIS_HAYSTACK_NOT_UTF8,
    output_too_small = HANNEDDOIS_OUTPUT_TOO_SMALL,
    closed = HANNEDDOIS_CLOSED
};

/* Why a call failed, or that it didn't. What the numbers mean depends on the status: hanneddois.h
   has this with each. */
class failure {
public:
    failure() noexcept = default;
    explicit failure(const hanneddois_error &fields) noexcept : fields_(fields) {}

    /* Whether the call failed. That there is no match is no failure. */
    explicit operator bool() const noexcept { return fields_.status > HANNEDDOIS_NONE; }

    hanneddois::status status() const noexcept { return static_cast<hanneddois::status>(fields_.status); }
    std::uint32_t cause() const noexcept { return fields_.cause; }
    std::size_t pattern() const noexcept { return fields_.pattern; }
    std::size_t start() const noexcept { return fields_.start; }
    std::size_t end() const noexcept { return fields_.end; }
    std::size_t limit() const noexcept { return fields_.limit; }

    /* The message, as "unclosed group". It is ASCII, and names no offset or number. */
    std::string message() const
    {
        char none;
        std::string text(write_message(&none, 0), '\0');
        write_message(text.data(), text.size());
        return text;
    }

    /* Writes as many bytes of the message as fit, without a 0 after them, and returns how many it has. */
    std::size_t write_message(char *text, std::size_t length) const noexcept
    {
        return hanneddois_error_text(&fields_, reinterpret_cast<std::uint8_t *>(text), length);
    }

private:
    hanneddois_error fields_{};
};

/* What a call throws. To make one needs no memory, so that it can report that there is none. */
class error : public std::exception {
public:
    explicit error(const failure &why) noexcept : why_(why)
    {
        text_[std::min(why.write_message(text_, sizeof text_ - 1), sizeof text_ - 1)] = '\0';
    }

    const failure &why() const noexcept { return why_; }
    hanneddois::status status() const noexcept { return why_.status(); }
    std::uint32_t cause() const noexcept { return why_.cause(); }
    std::size_t pattern() const noexcept { return why_.pattern(); }
    std::size_t start() const noexcept { return why_.start(); }
    std::size_t end() const noexcept { return why_.end(); }
    std::size_t limit() const noexcept { return why_.limit(); }

    /* The message. */
    const char *what() const noexcept override { return text_; }

private:
    failure why_;
    char text_[128];
};

/* One match: which pattern it is of, counted from 0, and which bytes of the haystack it has. */
class match {
public:
    match() noexcept = default;
    match(std::string_view haystack, const hanneddois_match &row) noexcept
        : bytes_(haystack.data() + row.start, row.end - row.start), start_(row.start), pattern_(row.pattern)
    {
    }

    std::size_t pattern() const noexcept { return pattern_; }
    std::size_t start() const noexcept { return start_; }
    std::size_t end() const noexcept { return start_ + bytes_.size(); }
    std::size_t size() const noexcept { return bytes_.size(); }
    bool empty() const noexcept { return bytes_.empty(); }
    std::string_view view() const noexcept { return bytes_; }

private:
    std::string_view bytes_;
    std::size_t start_ = 0;
    std::size_t pattern_ = 0;
};

class match_iterator;
class match_range;
class captures_iterator;
class captures_range;

namespace detail {

/* The names of the groups of a pattern, by their numbers. A group without a name has an empty one. */
using group_names = std::vector<std::string>;

/* A call of the library needs a pointer that isn't null, also with a length of 0. */
inline const std::uint8_t *bytes_of(std::string_view haystack) noexcept
{
    return reinterpret_cast<const std::uint8_t *>(haystack.data() ? haystack.data() : "");
}

inline failure failure_of(status what) noexcept
{
    hanneddois_error fields{};
    fields.status = static_cast<hanneddois_status>(what);
    return failure(fields);
}

/* Either writes why a call failed, if there is a parameter for it, or throws. */
inline void report(const failure &why, failure *to)
{
    if (to)
        *to = why;
    else if (why)
        throw error(why);
}

/* Rows of a list of matches, their slots, and why the list ends before its end, if it does. */
struct rows {
    std::unique_ptr<hanneddois_match[]> first;
    std::unique_ptr<std::size_t[]> slots;
    std::size_t width = 0;
    std::size_t count = 0;
    failure why;
};

/* A temporary string, of which a match would outlive the bytes. */
template <class T>
using if_temporary_string = std::enable_if_t<std::is_same_v<std::remove_const_t<T>, std::string>, int>;

template <class Iterator>
using if_patterns = std::enable_if_t<
    std::is_convertible_v<typename std::iterator_traits<Iterator>::reference, std::string_view>, int>;

/* What a regex keeps about its groups once a search needed it: the most slots of a pattern, and the names of each pattern of
   which a match was found. */
struct group_table {
    std::size_t slots = 0;
    std::vector<std::shared_ptr<const group_names>> names;
};

}  // namespace detail

/* One match with its groups. Group 0 is the whole match, and the others are counted from 1 by their opening parentheses. */
class match_groups {
public:
    match_groups() noexcept = default;

    /* The whole match. */
    const match &whole() const noexcept { return whole_; }
    std::size_t pattern() const noexcept { return whole_.pattern(); }
    std::size_t start() const noexcept { return whole_.start(); }
    std::size_t end() const noexcept { return whole_.end(); }

    /* How many groups the pattern of the match has, group 0 included. */
    std::size_t size() const noexcept { return slots_.size() / 2; }

    /* A group by its number or its name; nothing if it took no part in the match, or if there is no such group. In a
       repetition it has the offsets of its last round. */
    std::optional<match> operator[](std::size_t group) const noexcept
    {
        if (group >= size() || slots_[2 * group] == HANNEDDOIS_NO_OFFSET)
            return std::nullopt;
        return match(haystack_, {whole_.pattern(), slots_[2 * group], slots_[2 * group + 1]});
    }
    std::optional<match> operator[](std::string_view name) const noexcept
    {
        const std::optional<std::size_t> group = index(name);
        return group ? (*this)[*group] : std::nullopt;
    }

    /* The bytes of a group; none if it is nothing. */
    std::string_view view(std::size_t group = 0) const noexcept { return bytes_of((*this)[group]); }
    std::string_view view(std::string_view name) const noexcept { return bytes_of((*this)[name]); }

    /* The number of the group with this name, if there is one. */
    std::optional<std::size_t> index(std::string_view name) const noexcept
    {
        for (std::size_t i = 0; names_ && !name.empty() && i < names_->size(); i++)
            if ((*names_)[i] == name)
                return i;
        return std::nullopt;
    }

private:
    friend class regex;
    friend class captures_iterator;

    match_groups(std::string_view haystack, const hanneddois_match &row, std::vector<std::size_t> &&slots,
                 std::shared_ptr<const detail::group_names> names) noexcept
        : haystack_(haystack), whole_(haystack, row), slots_(std::move(slots)), names_(std::move(names))
    {
    }

    static std::string_view bytes_of(const std::optional<match> &group) noexcept
    {
        return group ? group->view() : std::string_view();
    }

    std::string_view haystack_;
    match whole_;
    std::vector<std::size_t> slots_;
    std::shared_ptr<const detail::group_names> names_;
};

/* A compiled regex with the caches of its searches. If it is empty, calls fail with status::bad_argument. */
class regex {
public:
    /* Makes an empty one. */
    regex() noexcept = default;

    /* Compiles a pattern. */
    explicit regex(std::string_view pattern, const options &options = {})
    {
        compile(&pattern, &pattern + 1, options, nullptr);
    }
    regex(std::string_view pattern, const options &options, failure &why) noexcept
    {
        compile(&pattern, &pattern + 1, options, &why);
    }

    /* Compiles several patterns. If matches of several start at the same offset, the one of the earlier pattern is
       preferred. */
    explicit regex(std::initializer_list<std::string_view> patterns, const options &options = {})
    {
        compile(patterns.begin(), patterns.end(), options, nullptr);
    }
    regex(std::initializer_list<std::string_view> patterns, const options &options, failure &why) noexcept
    {
        compile(patterns.begin(), patterns.end(), options, &why);
    }
    template <class Iterator, detail::if_patterns<Iterator> = 0>
    regex(Iterator first, Iterator last, const options &options = {})
    {
        compile(first, last, options, nullptr);
    }
    template <class Iterator, detail::if_patterns<Iterator> = 0>
    regex(Iterator first, Iterator last, const options &options, failure &why) noexcept
    {
        compile(first, last, options, &why);
    }

    regex(const regex &) = delete;
    regex &operator=(const regex &) = delete;

    /* Moving leaves the other one empty. */
    regex(regex &&other) noexcept
        : handle_(std::exchange(other.handle_, {nullptr})), is_utf8_(other.is_utf8_),
          groups_(std::exchange(other.groups_, {}))
    {
    }
    regex &operator=(regex &&other) noexcept
    {
        regex moved(std::move(other));
        std::swap(handle_, moved.handle_);
        std::swap(is_utf8_, moved.is_utf8_);
        std::swap(groups_, moved.groups_);
        return *this;
    }

    ~regex() { hanneddois_free(&handle_); }

    /* A second regex of the same patterns and options, with caches of its own, as for another thread. Nothing is parsed
       or compiled. */
    regex clone() { return clone_or(nullptr); }
    regex clone(failure &why) noexcept { return clone_or(&why); }

    /* Whether it is empty. */
    bool empty() const noexcept { return handle_.inside == nullptr; }

    /* Whether there is a match. */
    bool is_match(std::string_view haystack) { return is_match_or(haystack, nullptr); }
    bool is_match(std::string_view haystack, failure &why) noexcept { return is_match_or(haystack, &why); }

    /* The leftmost match that starts at `from` or after it, and of these the preferred one. Looks, as ^ and \b, see the
       bytes before `from`. If `from` is after the end of the haystack, the call fails with status::bad_argument. */
    std::optional<match> find(std::string_view haystack, std::size_t from = 0)
    {
        return find_or(haystack, from, nullptr);
    }
    std::optional<match> find(std::string_view haystack, std::size_t from, failure &why) noexcept
    {
        return find_or(haystack, from, &why);
    }
    template <class String, class... Rest, detail::if_temporary_string<String> = 0>
    std::optional<match> find(String &&haystack, Rest &&...) = delete;

    /*
     * All matches from left to right, each searched for when it is reached: each is the leftmost one from the end of
     * the one before it. An empty match right at the end of the one before it is skipped. A search that fails throws
     * from begin() or ++. In the second form it ends the range, and `why`, which has to outlive the range, has the
     * reason.
     */
    match_range matches(std::string_view haystack) &;
    match_range matches(std::string_view haystack, failure &why) & noexcept;
    template <class String, class... Rest, detail::if_temporary_string<String> = 0>
    match_range matches(String &&haystack, Rest &&...) = delete;

    /* All matches in a list, as those of matches(). If the second form fails, the list has those before the search that
       failed. */
    std::vector<match> find_all(std::string_view haystack) { return find_all_or(haystack, nullptr); }
    std::vector<match> find_all(std::string_view haystack, failure &why) noexcept
    {
        return find_all_or(haystack, &why);
    }
    template <class String, class... Rest, detail::if_temporary_string<String> = 0>
    std::vector<match> find_all(String &&haystack, Rest &&...) = delete;

    /* The match of find() with its groups. It has the preferred end also with flag::empty_loops. */
    std::optional<match_groups> captures(std::string_view haystack, std::size_t from = 0)
    {
        return captures_or(haystack, from, nullptr);
    }
    std::optional<match_groups> captures(std::string_view haystack, std::size_t from, failure &why) noexcept
    {
        return captures_or(haystack, from, &why);
    }
    template <class String, class... Rest, detail::if_temporary_string<String> = 0>
    std::optional<match_groups> captures(String &&haystack, Rest &&...) = delete;

    /*
     * The next matches from an offset on with their groups, at most so many, as hanneddois_captures_next lists them: an empty
     * one right at the end of the one before it too. `from` is then the offset from which the following call goes on. If there
     * are fewer matches than `most`, none follows. If a search fails, the first form throws and leaves `from` as it was. The
     * second returns the matches before that search.
     */
    std::vector<match_groups> captures_next(std::string_view haystack, std::size_t &from, std::size_t most)
    {
        return next_or(haystack, from, most, nullptr);
    }
    std::vector<match_groups> captures_next(std::string_view haystack, std::size_t &from, std::size_t most, failure &why) noexcept
    {
        return next_or(haystack, from, most, &why);
    }
    template <class String, class... Rest, detail::if_temporary_string<String> = 0>
    std::vector<match_groups> captures_next(String &&haystack, Rest &&...) = delete;

    /*
     * The haystack with its matches replaced, or with the first `limit` of them if that isn't 0. In a template $1, $name and
     * ${name} stand for groups of the match, and $$ for a dollar sign, as hanneddois_replace_all has them. With
     * replace_all_literal the replacement has no such meaning. If the call fails, the result is empty.
     */
    std::string replace_all(std::string_view haystack, std::string_view by, std::size_t limit = 0)
    {
        return replace_or(haystack, by, limit, 0, nullptr);
    }
    std::string replace_all(std::string_view haystack, std::string_view by, std::size_t limit, failure &why) noexcept
    {
        return replace_or(haystack, by, limit, 0, &why);
    }
    std::string replace_all_literal(std::string_view haystack, std::string_view by, std::size_t limit = 0)
    {
        return replace_or(haystack, by, limit, HANNEDDOIS_LITERAL, nullptr);
    }
    std::string replace_all_literal(std::string_view haystack, std::string_view by, std::size_t limit, failure &why) noexcept
    {
        return replace_or(haystack, by, limit, HANNEDDOIS_LITERAL, &why);
    }

    /* All matches with their groups, each searched for when it is reached, as those of matches(). */
    captures_range captures_iter(std::string_view haystack) &;
    captures_range captures_iter(std::string_view haystack, failure &why) & noexcept;
    template <class String, class... Rest, detail::if_temporary_string<String> = 0>
    captures_range captures_iter(String &&haystack, Rest &&...) = delete;

    /* The numbers of the patterns that match anywhere in the haystack, also if their matches overlap. They ascend. */
    std::vector<std::size_t> matching_patterns(std::string_view haystack) { return matching_or(haystack, nullptr); }
    std::vector<std::size_t> matching_patterns(std::string_view haystack, failure &why) noexcept
    {
        return matching_or(haystack, &why);
    }

    /* How many patterns it has. */
    std::size_t pattern_count() noexcept { return hanneddois_pattern_count(&handle_); }
    /* How many groups a pattern has, group 0 included; 0 if there is no such pattern. */
    std::size_t group_count(std::size_t pattern = 0) noexcept { return hanneddois_group_count(&handle_, pattern); }
    /* The names of the groups of a pattern, by their numbers. A group without a name has an empty one. */
    std::vector<std::string> group_names(std::size_t pattern = 0) { return group_names_or(pattern, nullptr); }
    std::vector<std::string> group_names(std::size_t pattern, failure &why) noexcept
    {
        return group_names_or(pattern, &why);
    }
    /* An estimate of how many bytes its caches need now. */
    std::size_t memory_usage() noexcept { return hanneddois_memory_usage(&handle_); }
    /* How often its caches were cleared since it was made, also those that larger ones have replaced. */
    std::size_t clear_count() noexcept { return hanneddois_clear_count(&handle_); }

    /* The handle for the calls of hanneddois.h. It stays owned by this regex. */
    hanneddois_regex *handle() noexcept { return &handle_; }

private:
    friend class match_iterator;
    friend class captures_iterator;

    template <class Iterator>
    void compile(Iterator first, Iterator last, const options &options, failure *why)
    {
        std::string bytes;
        std::vector<std::size_t> lengths;
        try {
            for (; first != last; ++first) {
                const std::string_view pattern = *first;
                bytes += pattern;
                lengths.push_back(pattern.size());
            }
        } catch (const std::bad_alloc &) {
            return detail::report(detail::failure_of(status::no_memory), why);
        }
        detail::report(make(bytes, lengths, options), why);
    }

    failure make(const std::string &bytes, const std::vector<std::size_t> &lengths, const options &options) noexcept
    {
        const std::size_t none = 0;
        const hanneddois_options fields = {
            static_cast<std::uint32_t>(options.flags), options.nest_limit, options.capacity, options.size_limit};
        hanneddois_error error;
        hanneddois_new(&handle_, detail::bytes_of(bytes), bytes.size(), lengths.empty() ? &none : lengths.data(),
                       lengths.size(), &fields, &error);
        is_utf8_ = (options.flags & flag::utf8) != flag::none;
        return failure(error);
    }

    regex clone_or(failure *why)
    {
        regex copy;
        copy.is_utf8_ = is_utf8_;
        detail::report(detail::failure_of(static_cast<status>(hanneddois_clone(&handle_, &copy.handle_))), why);
        return copy;
    }

    bool is_match_or(std::string_view haystack, failure *why)
    {
        hanneddois_error error;
        const hanneddois_status ended =
            hanneddois_is_match(&handle_, detail::bytes_of(haystack), haystack.size(), &error);
        detail::report(failure(error), why);
        return ended == HANNEDDOIS_OK;
    }

    bool find_row(std::string_view haystack, std::size_t from, hanneddois_match &row, failure *why)
    {
        hanneddois_error error;
        const hanneddois_status ended =
            hanneddois_find_at(&handle_, detail::bytes_of(haystack), haystack.size(), from, &row, &error);
        detail::report(failure(error), why);
        return ended == HANNEDDOIS_OK;
    }

    std::optional<match> find_or(std::string_view haystack, std::size_t from, failure *why)
    {
        hanneddois_match row;
        if (!find_row(haystack, from, row, why))
            return std::nullopt;
        return match(haystack, row);
    }

    std::string group_name(std::size_t pattern, std::size_t group)
    {
        std::uint8_t none;
        std::string name(hanneddois_group_name(&handle_, pattern, group, &none, 0), '\0');
        hanneddois_group_name(&handle_, pattern, group, reinterpret_cast<std::uint8_t *>(name.data()), name.size());
        return name;
    }

    detail::group_names names_of(std::size_t pattern)
    {
        detail::group_names names(group_count(pattern));
        for (std::size_t group = 0; group < names.size(); group++)
            names[group] = group_name(pattern, group);
        return names;
    }

    std::vector<std::string> group_names_or(std::size_t pattern, failure *why)
    {
        try {
            std::vector<std::string> names = names_of(pattern);
            detail::report(failure(), why);
            return names;
        } catch (const std::bad_alloc &) {
            detail::report(detail::failure_of(status::no_memory), why);
        }
        return {};
    }

    /* The names of a pattern of which a match was found. They are read once. */
    const std::shared_ptr<const detail::group_names> &kept_names(std::size_t pattern)
    {
        std::shared_ptr<const detail::group_names> &names = groups_.names[pattern];
        if (!names)
            names = std::make_shared<const detail::group_names>(names_of(pattern));
        return names;
    }

    /* The most slots of a pattern. */
    std::size_t slot_count()
    {
        if (groups_.names.empty()) {
            std::size_t most = 0;
            for (std::size_t pattern = 0; pattern < pattern_count(); pattern++)
                most = std::max(most, group_count(pattern));
            groups_.names.resize(pattern_count());
            groups_.slots = 2 * most;
        }
        return groups_.slots;
    }

    std::optional<match_groups> search_groups(std::string_view haystack, std::size_t from, failure *why)
    {
        std::vector<std::size_t> slots(std::max(slot_count(), std::size_t{1}));
        hanneddois_match row;
        hanneddois_error error;
        const hanneddois_status ended = hanneddois_captures(&handle_, detail::bytes_of(haystack), haystack.size(), from, &row,
                                                            slots.data(), slots.size(), &error);
        detail::report(failure(error), why);
        if (ended != HANNEDDOIS_OK)
            return std::nullopt;
        slots.resize(2 * group_count(row.pattern));
        return match_groups(haystack, row, std::move(slots), kept_names(row.pattern));
    }

    match_groups groups_of(std::string_view haystack, const hanneddois_match &row, const std::size_t *slots)
    {
        return match_groups(haystack, row, std::vector<std::size_t>(slots, slots + 2 * group_count(row.pattern)),
                            kept_names(row.pattern));
    }

    std::string replace_or(std::string_view haystack, std::string_view by, std::size_t limit, std::uint32_t flags, failure *why)
    {
        try {
            std::string output(haystack.size() + haystack.size() / 8 + 64, '\0');
            for (;;) {
                std::size_t length = 0, count = 0;
                hanneddois_error error;
                const hanneddois_status ended = hanneddois_replace_all(
                    &handle_, detail::bytes_of(haystack), haystack.size(), detail::bytes_of(by), by.size(), limit, flags,
                    reinterpret_cast<std::uint8_t *>(output.data()), output.size(), &length, &count, &error);
                output.resize(length);
                if (ended == HANNEDDOIS_OUTPUT_TOO_SMALL)
                    continue;
                detail::report(failure(error), why);
                return output;
            }
        } catch (const std::bad_alloc &) {
            detail::report(detail::failure_of(status::no_memory), why);
        }
        return std::string();
    }

    std::optional<match_groups> captures_or(std::string_view haystack, std::size_t from, failure *why)
    {
        try {
            return search_groups(haystack, from, why);
        } catch (const std::bad_alloc &) {
            detail::report(detail::failure_of(status::no_memory), why);
        }
        return std::nullopt;
    }

    /* The first list of matches has room for one match in so many bytes of the haystack, for at least the second number
       of matches, and for at most the third, which takes 100 MB of addresses. The system gives memory only for rows
       that are written. */
    static constexpr std::size_t bytes_per_row = 8, least_rows = 64, most_rows = std::size_t{1} << 22;

    /* All matches. If there are more than the first list has room for, the haystack is searched once more. */
    detail::rows list(std::string_view haystack) noexcept
    {
        detail::rows listed;
        std::size_t room = std::clamp(haystack.size() / bytes_per_row, least_rows, most_rows);
        for (;;) {
            listed.first.reset(new (std::nothrow) hanneddois_match[room]);
            if (!listed.first) {
                listed.count = 0;
                listed.why = detail::failure_of(status::no_memory);
                return listed;
            }
            hanneddois_error error;
            hanneddois_find_all(&handle_, detail::bytes_of(haystack), haystack.size(), listed.first.get(), room,
                                &listed.count, &error);
            listed.why = failure(error);
            if (listed.count <= room)
                return listed;
            room = listed.count;
        }
    }

    /* All matches with their groups, in the same way. */
    detail::rows list_groups(std::string_view haystack)
    {
        detail::rows listed;
        listed.width = slot_count();
        std::size_t room = std::clamp(haystack.size() / bytes_per_row, least_rows,
                                      least_rows + most_rows / std::max(listed.width, std::size_t{1}));
        for (;;) {
            listed.first.reset(new hanneddois_match[room]);
            listed.slots.reset(new std::size_t[std::max(room * listed.width, std::size_t{1})]);
            hanneddois_error error;
            hanneddois_captures_all(&handle_, detail::bytes_of(haystack), haystack.size(), listed.first.get(), room,
                                    listed.slots.get(), room * listed.width, listed.width, &listed.count, &error);
            listed.why = failure(error);
            if (listed.count <= room)
                return listed;
            room = listed.count;
        }
    }

    /* A haystack has at most one match at each of its offsets. */
    std::vector<match_groups> list_next(std::string_view haystack, std::size_t &from, std::size_t most, failure *why)
    {
        const std::size_t width = slot_count(), room = std::min(most, haystack.size() + 2);
        const std::unique_ptr<hanneddois_match[]> rows(new hanneddois_match[std::max(room, std::size_t{1})]);
        const std::unique_ptr<std::size_t[]> slots(new std::size_t[std::max(room * width, std::size_t{1})]);
        std::size_t next = from, count = 0;
        hanneddois_error error;
        hanneddois_captures_next(&handle_, detail::bytes_of(haystack), haystack.size(), &next, rows.get(), room, slots.get(),
                                 room * width, width, &count, &error);
        std::vector<match_groups> found;
        found.reserve(count);
        for (std::size_t i = 0; i < count; i++)
            found.push_back(groups_of(haystack, rows[i], slots.get() + i * width));
        detail::report(failure(error), why);
        from = next;
        return found;
    }

    std::vector<match_groups> next_or(std::string_view haystack, std::size_t &from, std::size_t most, failure *why)
    {
        try {
            return list_next(haystack, from, most, why);
        } catch (const std::bad_alloc &) {
            detail::report(detail::failure_of(status::no_memory), why);
        }
        return {};
    }

    std::vector<match> find_all_or(std::string_view haystack, failure *why)
    {
        const detail::rows listed = list(haystack);
        detail::report(listed.why, why);
        std::vector<match> matches;
        try {
            matches.reserve(listed.count);
        } catch (const std::bad_alloc &) {
            detail::report(detail::failure_of(status::no_memory), why);
            return matches;
        }
        for (std::size_t i = 0; i < listed.count; i++)
            matches.emplace_back(haystack, listed.first[i]);
        return matches;
    }

    std::vector<std::size_t> matching_or(std::string_view haystack, failure *why)
    {
        std::vector<std::size_t> numbers;
        try {
            std::vector<std::uint8_t> marks(std::max(pattern_count(), std::size_t{1}));
            std::size_t count = 0;
            hanneddois_error error;
            hanneddois_matching_patterns(&handle_, detail::bytes_of(haystack), haystack.size(), marks.data(),
                                         pattern_count(), &count, &error);
            detail::report(failure(error), why);
            numbers.reserve(count);
            for (std::size_t i = 0; i < marks.size(); i++)
                if (marks[i])
                    numbers.push_back(i);
        } catch (const std::bad_alloc &) {
            detail::report(detail::failure_of(status::no_memory), why);
        }
        return numbers;
    }

    hanneddois_regex handle_ = HANNEDDOIS_EMPTY;
    bool is_utf8_ = false;
    detail::group_table groups_;
};

/* An input iterator over the matches of a haystack. A default-constructed one is the end. */
class match_iterator {
public:
    using iterator_category = std::input_iterator_tag;
    using value_type = match;
    using difference_type = std::ptrdiff_t;
    using pointer = const match *;
    using reference = const match &;

    match_iterator() noexcept = default;

    reference operator*() const noexcept { return found_; }
    pointer operator->() const noexcept { return &found_; }

    match_iterator &operator++()
    {
        hanneddois_match row;
        has_match_ = listed_ ? next_listed(row) : next_searched(row);
        if (has_match_)
            found_ = match(haystack_, row);
        return *this;
    }

    match_iterator operator++(int)
    {
        match_iterator before = *this;
        ++*this;
        return before;
    }

    /* Whether both are the end, or are at the same match. */
    friend bool operator==(const match_iterator &a, const match_iterator &b) noexcept
    {
        if (!a.has_match_ || !b.has_match_)
            return a.has_match_ == b.has_match_;
        return a.regex_ == b.regex_ && a.found_.start() == b.found_.start() && a.found_.end() == b.found_.end();
    }
    friend bool operator!=(const match_iterator &a, const match_iterator &b) noexcept { return !(a == b); }

private:
    friend class match_range;

    /* In UTF-8 mode each search checks the whole haystack, so one search lists all matches there. */
    match_iterator(regex &regex, std::string_view haystack, failure *why)
        : regex_(&regex), haystack_(haystack), why_(why)
    {
        hanneddois_match row;
        has_match_ = regex.is_utf8_ ? list() && next_listed(row) : search(0, row);
        if (has_match_)
            found_ = match(haystack_, row);
    }

    bool search(std::size_t from, hanneddois_match &row) { return regex_->find_row(haystack_, from, row, why_); }

    /* An empty match right at the end of the one before it is skipped. */
    bool next_searched(hanneddois_match &row)
    {
        const std::size_t end = found_.end();
        if (!search(end, row))
            return false;
        return row.end != end || (end < haystack_.size() && search(end + 1, row));
    }

    bool list()
    {
        try {
            listed_ = std::make_shared<const detail::rows>(regex_->list(haystack_));
        } catch (const std::bad_alloc &) {
            detail::report(detail::failure_of(status::no_memory), why_);
        }
        return listed_ != nullptr;
    }

    bool next_listed(hanneddois_match &row)
    {
        if (index_ == listed_->count) {
            detail::report(listed_->why, why_);
            return false;
        }
        row = listed_->first[index_++];
        return true;
    }

    regex *regex_ = nullptr;
    std::string_view haystack_;
    failure *why_ = nullptr;
    std::shared_ptr<const detail::rows> listed_;
    std::size_t index_ = 0;
    match found_;
    bool has_match_ = false;
};

/* The matches of a haystack. Each begin() searches from the start. */
class match_range {
public:
    using iterator = match_iterator;
    using const_iterator = match_iterator;

    match_iterator begin() const { return match_iterator(*regex_, haystack_, why_); }
    match_iterator end() const noexcept { return match_iterator(); }

private:
    friend class regex;

    match_range(regex &regex, std::string_view haystack, failure *why) noexcept
        : regex_(&regex), haystack_(haystack), why_(why)
    {
        if (why)
            *why = failure();
    }

    regex *regex_;
    std::string_view haystack_;
    failure *why_;
};

inline match_range regex::matches(std::string_view haystack) &
{
    return match_range(*this, haystack, nullptr);
}

inline match_range regex::matches(std::string_view haystack, failure &why) & noexcept
{
    return match_range(*this, haystack, &why);
}

/* An input iterator over the matches of a haystack with their groups. A default-constructed one is the end. */
class captures_iterator {
public:
    using iterator_category = std::input_iterator_tag;
    using value_type = match_groups;
    using difference_type = std::ptrdiff_t;
    using pointer = const match_groups *;
    using reference = const match_groups &;

    captures_iterator() noexcept = default;

    reference operator*() const noexcept { return *found_; }
    pointer operator->() const noexcept { return &*found_; }

    captures_iterator &operator++()
    {
        if (listed_)
            next_listed();
        else
            next_searched();
        return *this;
    }

    captures_iterator operator++(int)
    {
        captures_iterator before = *this;
        ++*this;
        return before;
    }

    /* Whether both are the end, or are at the same match. */
    friend bool operator==(const captures_iterator &a, const captures_iterator &b) noexcept
    {
        if (!a.found_ || !b.found_)
            return a.found_.has_value() == b.found_.has_value();
        return a.regex_ == b.regex_ && a.found_->start() == b.found_->start() && a.found_->end() == b.found_->end();
    }
    friend bool operator!=(const captures_iterator &a, const captures_iterator &b) noexcept { return !(a == b); }

private:
    friend class captures_range;

    /* In UTF-8 mode each search checks the whole haystack, so one search lists all matches there. */
    captures_iterator(regex &regex, std::string_view haystack, failure *why)
        : regex_(&regex), haystack_(haystack), why_(why)
    {
        if (!regex.is_utf8_)
            found_ = regex.captures_or(haystack, 0, why);
        else if (list())
            next_listed();
    }

    /* An empty match right at the end of the one before it is skipped. */
    void next_searched()
    {
        const std::size_t end = found_->end();
        found_ = regex_->captures_or(haystack_, end, why_);
        if (found_ && found_->end() == end)
            found_ = end < haystack_.size() ? regex_->captures_or(haystack_, end + 1, why_) : std::nullopt;
    }

    bool list()
    {
        try {
            listed_ = std::make_shared<const detail::rows>(regex_->list_groups(haystack_));
        } catch (const std::bad_alloc &) {
            detail::report(detail::failure_of(status::no_memory), why_);
        }
        return listed_ != nullptr;
    }

    void next_listed()
    {
        found_ = std::nullopt;
        if (index_ == listed_->count)
            return detail::report(listed_->why, why_);
        const std::size_t i = index_++;
        try {
            found_ = regex_->groups_of(haystack_, listed_->first[i], listed_->slots.get() + i * listed_->width);
        } catch (const std::bad_alloc &) {
            detail::report(detail::failure_of(status::no_memory), why_);
        }
    }

    regex *regex_ = nullptr;
    std::string_view haystack_;
    failure *why_ = nullptr;
    std::shared_ptr<const detail::rows> listed_;
    std::size_t index_ = 0;
    std::optional<match_groups> found_;
};

/* The matches of a haystack with their groups. Each begin() searches from the start. */
class captures_range {
public:
    using iterator = captures_iterator;
    using const_iterator = captures_iterator;

    captures_iterator begin() const { return captures_iterator(*regex_, haystack_, why_); }
    captures_iterator end() const noexcept { return captures_iterator(); }

private:
    friend class regex;

    captures_range(regex &regex, std::string_view haystack, failure *why) noexcept
        : regex_(&regex), haystack_(haystack), why_(why)
    {
        if (why)
            *why = failure();
    }

    regex *regex_;
    std::string_view haystack_;
    failure *why_;
};

inline captures_range regex::captures_iter(std::string_view haystack) &
{
    return captures_range(*this, haystack, nullptr);
}

inline captures_range regex::captures_iter(std::string_view haystack, failure &why) & noexcept
{
    return captures_range(*this, haystack, &why);
}

/* The end of a match in a stream: which pattern it is of, and its offset from the begin of the stream. */
using stream_end = hanneddois_end;

namespace detail {

/* The streams of a set, with their automaton and its cache, and the rows into which ends are written. */
struct shared_streams {
    shared_streams() = default;
    shared_streams(const shared_streams &) = delete;
    shared_streams &operator=(const shared_streams &) = delete;
    ~shared_streams() { hanneddois_streams_free(&handle); }

    hanneddois_streams handle = HANNEDDOIS_EMPTY;
    std::vector<stream_end> rows;
};

}  // namespace detail

/*
 * A search of input that comes in pieces, as stream_set::open makes it. It is moved, and copied only by clone().
 *
 * It reports each pair of a pattern and an offset such that the pattern matches a part of the whole input that ends there:
 * all patterns, also if matches overlap, offsets ascending, each pair once. It doesn't report where matches start. An end is
 * known once the byte after it was fed, or when the stream is closed. What is reported doesn't depend on where the input is
 * cut, or on other streams. Streams of one set are used by one thread at a time.
 *
 * Of a set with flag::stream_lines it searches each line of its input by itself: ^ and $ are the start and the end of the
 * line, and no match goes beyond it. A line feed ends a line and is no part of it. Offsets are those of the whole input.
 */
class stream {
public:
    /* Makes one of no set, with which calls fail with status::bad_argument. */
    stream() noexcept = default;

    stream(const stream &) = delete;
    stream &operator=(const stream &) = delete;

    stream(stream &&other) noexcept
        : inside_(std::move(other.inside_)), number_(other.number_), position_(std::exchange(other.position_, 0))
    {
    }
    stream &operator=(stream &&other) noexcept
    {
        stream moved(std::move(other));
        std::swap(inside_, moved.inside_);
        std::swap(number_, moved.number_);
        std::swap(position_, moved.position_);
        return *this;
    }

    ~stream()
    {
        if (inside_)
            hanneddois_stream_free(&inside_->handle, number_);
    }

    /* Feeds a piece, and returns the ends that are known by it. If the second form fails, position() says how many bytes
       were read, and the list has the ends that are known by these. With status::no_memory the others can be fed again. */
    std::vector<stream_end> feed(std::string_view piece) { return feed_or(piece, nullptr); }
    std::vector<stream_end> feed(std::string_view piece, failure &why) noexcept { return feed_or(piece, &why); }

    /* Feeds a piece, and calls `on_end` with each end that is known by it. */
    template <class Call>
    void feed_each(std::string_view piece, Call &&on_end)
    {
        detail::report(feed_rows(piece, [&](const stream_end *rows, std::size_t count) {
            std::for_each(rows, rows + count, on_end);
        }), nullptr);
    }

    /* Ends the input, and returns the ends there. The stream takes no more bytes until it is reset. */
    std::vector<stream_end> close() { return close_or(nullptr); }
    std::vector<stream_end> close(failure &why) noexcept { return close_or(&why); }

    /* Makes it a stream that has read nothing. */
    void reset() noexcept
    {
        position_ = 0;
        if (inside_)
            hanneddois_stream_reset(&inside_->handle, number_);
    }

    /* A second stream that goes on from here. */
    stream clone() { return clone_or(nullptr); }
    stream clone(failure &why) noexcept { return clone_or(&why); }

    /* How many bytes it has read. */
    std::size_t position() const noexcept { return position_; }

private:
    friend class stream_set;

    template <class Take>
    failure feed_rows(std::string_view piece, Take &&take)
    {
        if (!inside_)
            return detail::failure_of(status::bad_argument);
        while (!piece.empty()) {
            std::vector<stream_end> &rows = inside_->rows;
            std::size_t taken = 0, count = 0;
            hanneddois_error error;
            hanneddois_stream_feed(&inside_->handle, number_, detail::bytes_of(piece), piece.size(), rows.data(), rows.size(),
                                   &taken, &count, &error);
            position_ += taken;
            piece.remove_prefix(taken);
            take(rows.data(), count);
            if (failure(error))
                return failure(error);
        }
        return failure();
    }

    /* Makes room in a list for the ends of one call, so that none is lost if memory runs out. */
    void make_room(std::vector<stream_end> &ends) const
    {
        if (inside_ && ends.capacity() - ends.size() < inside_->rows.size())
            ends.reserve(2 * ends.size() + inside_->rows.size());
    }

    std::vector<stream_end> feed_or(std::string_view piece, failure *why)
    {
        std::vector<stream_end> ends;
        failure ended;
        try {
            make_room(ends);
            ended = feed_rows(piece, [&](const stream_end *rows, std::size_t count) {
                ends.insert(ends.end(), rows, rows + count);
                make_room(ends);
            });
        } catch (const std::bad_alloc &) {
            ended = detail::failure_of(status::no_memory);
        }
        detail::report(ended, why);
        return ends;
    }

    std::vector<stream_end> close_or(failure *why)
    {
        std::vector<stream_end> ends;
        failure ended = detail::failure_of(inside_ ? status::no_memory : status::bad_argument);
        try {
            make_room(ends);
            if (inside_) {
                std::size_t count = 0;
                hanneddois_error error;
                hanneddois_stream_close(&inside_->handle, number_, inside_->rows.data(), inside_->rows.size(), &count, &error);
                ended = failure(error);
                ends.assign(inside_->rows.data(), inside_->rows.data() + (ended ? 0 : count));
            }
        } catch (const std::bad_alloc &) {
        }
        detail::report(ended, why);
        return ends;
    }

    stream clone_or(failure *why)
    {
        stream copy;
        status ended = status::bad_argument;
        if (inside_)
            ended = static_cast<status>(hanneddois_stream_clone(&inside_->handle, number_, &copy.number_));
        if (ended == status::ok) {
            copy.inside_ = inside_;
            copy.position_ = position_;
        }
        detail::report(detail::failure_of(ended), why);
        return copy;
    }

    std::shared_ptr<detail::shared_streams> inside_;
    std::size_t number_ = 0;
    std::size_t position_ = 0;
};

/*
 * Patterns for input that comes in pieces: an automaton and a cache, which any number of streams share. It lives as long as
 * one of these. A pattern with a Unicode word boundary is rejected with status::word_boundary: write (?-u:\b), or use
 * flag::no_unicode.
 */
class stream_set {
public:
    /* Makes an empty one, of which no stream can be made. */
    stream_set() noexcept = default;

    explicit stream_set(std::string_view pattern, const options &options = {})
    {
        compile(&pattern, &pattern + 1, options, nullptr);
    }
    stream_set(std::string_view pattern, const options &options, failure &why) noexcept
    {
        compile(&pattern, &pattern + 1, options, &why);
    }
    explicit stream_set(std::initializer_list<std::string_view> patterns, const options &options = {})
    {
        compile(patterns.begin(), patterns.end(), options, nullptr);
    }
    stream_set(std::initializer_list<std::string_view> patterns, const options &options, failure &why) noexcept
    {
        compile(patterns.begin(), patterns.end(), options, &why);
    }
    template <class Iterator, detail::if_patterns<Iterator> = 0>
    stream_set(Iterator first, Iterator last, const options &options = {})
    {
        compile(first, last, options, nullptr);
    }
    template <class Iterator, detail::if_patterns<Iterator> = 0>
    stream_set(Iterator first, Iterator last, const options &options, failure &why) noexcept
    {
        compile(first, last, options, &why);
    }

    /* A new stream, which has read nothing. */
    stream open() { return open_or(nullptr); }
    stream open(failure &why) noexcept { return open_or(&why); }

    /* Whether it is empty. */
    bool empty() const noexcept { return !inside_; }

    /* An estimate of how many bytes the cache needs now. A stream takes some 50 bytes more. */
    std::size_t memory_usage() noexcept { return inside_ ? hanneddois_streams_memory_usage(&inside_->handle) : 0; }

private:
    /* A call has room for so many ends, and for one of each pattern. */
    static constexpr std::size_t least_rows = 256;

    template <class Iterator>
    void compile(Iterator first, Iterator last, const options &options, failure *why)
    {
        failure ended;
        try {
            std::string bytes;
            std::vector<std::size_t> lengths;
            for (; first != last; ++first) {
                const std::string_view pattern = *first;
                bytes += pattern;
                lengths.push_back(pattern.size());
            }
            ended = make(bytes, lengths, options);
        } catch (const std::bad_alloc &) {
            ended = detail::failure_of(status::no_memory);
        }
        detail::report(ended, why);
    }

    failure make(const std::string &bytes, const std::vector<std::size_t> &lengths, const options &options)
    {
        const std::size_t none = 0;
        const hanneddois_options fields = {
            static_cast<std::uint32_t>(options.flags), options.nest_limit, options.capacity, options.size_limit};
        hanneddois_error error;
        std::shared_ptr<detail::shared_streams> made = std::make_shared<detail::shared_streams>();
        made->rows.resize(std::max(lengths.size(), least_rows));
        hanneddois_streams_new(&made->handle, detail::bytes_of(bytes), bytes.size(), lengths.empty() ? &none : lengths.data(),
                               lengths.size(), &fields, &error);
        if (!failure(error))
            inside_ = std::move(made);
        return failure(error);
    }

    stream open_or(failure *why)
    {
        stream opened;
        status ended = status::bad_argument;
        if (inside_)
            ended = static_cast<status>(hanneddois_stream_new(&inside_->handle, &opened.number_));
        if (ended == status::ok)
            opened.inside_ = inside_;
        detail::report(detail::failure_of(ended), why);
        return opened;
    }

    std::shared_ptr<detail::shared_streams> inside_;
};

/* The version of the library, as HANNEDDOIS_VERSION of hanneddois.h. */
inline std::uint32_t version() noexcept
{
    return hanneddois_version();
}

}  // namespace hanneddois

#endif
