// Streams: up to 24 calls in any order over two sets of streams. What each stream reports is compared with its whole input: fed in one
// piece to a set of its own, and searched by regexes that match only if the pattern matches a part that ends at a given offset.
#include <algorithm>
#include <map>
#include <memory>

#include "set.hpp"

namespace fuzz {
namespace {

enum Kind { MAKE, MAKE_OTHER, MAKE_FAULTY, END, MOVE, OPEN, FEED, FEED_NARROW, FEED_ALL, CLOSE, CLOSE_NARROW, RESET, CLONE, FREE, UNKNOWN, FINISH, KINDS };

constexpr size_t MOST_STREAMS = 6;
constexpr size_t LONGEST = 600; // bytes of a stream
constexpr size_t MOST_OFFSETS = 48; // of an input that regexes search for each pattern

// What a stream was given, and what it reported.
struct Stream {
    size_t number = 0;
    size_t haystack = 0; // from which its bytes come, over and over
    Bytes input;
    std::vector<End> ends;
    bool is_closed = false;
};

// A line of the input, or the whole input.
struct Part {
    size_t start;
    Bytes bytes;
};

std::vector<Part> parts_of(const Bytes &input, bool are_lines) {
    if (!are_lines)
        return {{0, input}};
    std::vector<Part> parts;
    size_t start = 0;
    for (size_t at = 0; at <= input.size(); ++at) {
        bool is_end = at == input.size() ? start < at : input[at] == '\n';
        if (!is_end)
            continue;
        parts.push_back({start, Bytes(input.begin() + start, input.begin() + at)});
        start = at + 1;
    }
    return parts;
}

// Finds out by regexes whether a pattern matches a part of a haystack that ends at an offset. A look sees one byte after that offset at
// most, so a search of what is before it and of this byte is enough.
class Ends {
  public:
    Ends(const Bytes &pattern, hanneddois_options options) {
        is_utf8_ = (options.flags & HANNEDDOIS_UTF8) != 0;
        options.flags &= HANNEDDOIS_CASE_INSENSITIVE | HANNEDDOIS_MULTI_LINE | HANNEDDOIS_DOT_MATCHES_NEW_LINE | HANNEDDOIS_SWAP_GREED |
                         HANNEDDOIS_IGNORE_WHITESPACE | HANNEDDOIS_CRLF | HANNEDDOIS_OCTAL | HANNEDDOIS_NO_UNICODE;
        options.flags |= HANNEDDOIS_EMPTY_LOOPS | HANNEDDOIS_RAISE_CAPACITY;
        options.nest_limit += options.nest_limit > 0 ? 2 : 0;
        options.size_limit = 1u << 22;
        make(inner_, pattern, "(?s-u:.)\\z", options);
        make(last_, pattern, "\\z", options);
    }

    bool are_known() const { return !inner_.is_empty() && !last_.is_empty(); }

    // Whether there is such a match, or nothing if the search needs too much.
    bool is_end(const Bytes &haystack, size_t at, bool *is_known) {
        *is_known = true;
        if (is_utf8_ && !is_boundary(haystack, at))
            return false;
        Found found = at < haystack.size() ? inner_.is_match(Bytes(haystack.begin(), haystack.begin() + at + 1)) : last_.is_match(haystack);
        *is_known = found.is_answer();
        return found.status == HANNEDDOIS_OK;
    }

  private:
    // A comment at the end of a pattern takes the parenthesis, and nothing is made then.
    static void make(Handle &handle, const Bytes &pattern, const char *after, const hanneddois_options &options) {
        std::string before = "(?:", end = std::string(")") + after;
        Bytes whole(before.begin(), before.end());
        whole.insert(whole.end(), pattern.begin(), pattern.end());
        whole.insert(whole.end(), end.begin(), end.end());
        handle.make({whole}, options);
    }

    Handle inner_, last_;
    bool is_utf8_;
};

// A set with its streams, and what it was made of.
struct Side {
    Set set;
    std::vector<Stream> streams;
    std::vector<Bytes> patterns;
    hanneddois_options options = {};
    std::vector<std::unique_ptr<Ends>> ends;
    std::map<Bytes, std::vector<End>> expected;

    bool reads_lines() const { return (options.flags & HANNEDDOIS_STREAM_LINES) != 0; }
};

class Runs {
  public:
    explicit Runs(const Case &given) : given_(given) {}

    void all() {
        make(sides_[0], false, 0);
        open(sides_[0], 0);
        for (size_t at = 0; at < given_.calls.size(); ++at) {
            is_failing_ = at == given_.failing_call % MOST_CALLS;
            one(given_.calls[at]);
        }
        is_failing_ = false;
        for (Side &side : sides_)
            for (size_t at = 0; at < side.streams.size(); ++at)
                finish(side, side.streams[at]);
    }

  private:
    void begin_failing() {
        if (is_failing_)
            fail_allocation(given_.failing_allocation % 16, given_.failing_call >= 128);
    }

    // Whether a call is out of memory, as it may be only if an allocation failed.
    bool is_out(hanneddois_status status) {
        bool has_failed = end_failing();
        check(status != HANNEDDOIS_NO_MEMORY || has_failed, "out of memory, and no allocation failed");
        return status == HANNEDDOIS_NO_MEMORY;
    }

    void one(Call call) {
        Side &side = sides_[call.kind / KINDS % 2];
        int kind = call.kind % KINDS;
        note(800, static_cast<uint32_t>(kind + KINDS * side.set.is_empty()));
        if (kind == MAKE || kind == MAKE_OTHER)
            make(side, kind == MAKE_OTHER, call.value);
        else if (kind == MAKE_FAULTY)
            make_faulty(side, call.value);
        else if (kind == END)
            end(side);
        else if (kind == MOVE)
            side.set.move();
        else if (kind == OPEN)
            open(side, call.value);
        else if (kind == UNKNOWN || side.streams.empty())
            unknown(side, call.value);
        else
            with_stream(side, side.streams[call.value % side.streams.size()], kind, call.value / 4);
        side.set.check_usage();
    }

    void with_stream(Side &side, Stream &stream, int kind, uint8_t value) {
        note(900, static_cast<uint32_t>(kind + KINDS * stream.is_closed));
        switch (kind) {
        case FEED:
            feed(side, stream, value % 48, side.set.count());
            break;
        case FEED_NARROW:
            feed(side, stream, 8 + value % 8, value / 8 % (side.set.count() + 2));
            break;
        case FEED_ALL:
            feed(side, stream, given_.haystacks[stream.haystack].size(), 1 + value);
            break;
        case CLOSE:
            close(side, stream, side.set.count());
            break;
        case CLOSE_NARROW:
            close(side, stream, value % side.set.count());
            break;
        case RESET:
            check(side.set.reset(stream.number) == HANNEDDOIS_OK, "a stream isn't reset");
            stream = {stream.number, value % 2u, {}, {}, false};
            break;
        case CLONE:
            clone(side, stream);
            break;
        case FREE:
            free(side, stream);
            break;
        default:
            finish(side, stream);
        }
    }

    void end(Side &side) {
        side.set.end();
        side.streams.clear();
    }

    void make(Side &side, bool is_other, uint8_t value) {
        side.patterns = given_.patterns;
        side.options = given_.options;
        side.streams.clear();
        side.ends.clear();
        side.expected.clear();
        if (is_other) {
            std::rotate(side.patterns.begin(), side.patterns.begin() + value % side.patterns.size(), side.patterns.end());
            side.options.flags = cheap(side.options.flags ^ 1u << value % 16);
            side.options.capacity = pick_capacity(value);
        }
        begin_failing();
        Found found = side.set.make(side.patterns, side.options);
        if (is_out(found.status))
            found = side.set.make(side.patterns, side.options);
        check(found.status != HANNEDDOIS_NO_MEMORY, "out of memory again, and no allocation failed");
        compare_made(side, found);
    }

    // Patterns that a set rejects are rejected by a regex for the same cause, unless they have a word boundary of Unicode.
    void compare_made(const Side &side, const Found &made) {
        hanneddois_options options = side.options;
        options.flags |= HANNEDDOIS_EMPTY_LOOPS;
        options.flags &= ~static_cast<uint32_t>(HANNEDDOIS_GROUPS | HANNEDDOIS_MATCHING_PATTERNS);
        Handle regex;
        Found found = regex.make(side.patterns, options);
        if (is_one_of(found.status, {HANNEDDOIS_NOT_UTF8, HANNEDDOIS_SYNTAX_ERROR, HANNEDDOIS_NESTS_TOO_DEEP})) {
            check(found.status == made.status && found.error.cause == made.error.cause && found.error.pattern == made.error.pattern, "a set rejects patterns for another cause than a regex");
            check(found.error.start == made.error.start && found.error.end == made.error.end, "a set rejects a pattern at other offsets than a regex");
        } else {
            check(is_one_of(made.status, {HANNEDDOIS_OK, HANNEDDOIS_WORD_BOUNDARY, HANNEDDOIS_TOO_LARGE, HANNEDDOIS_CAPACITY_TOO_SMALL}), "a set rejects patterns that a regex takes");
        }
        if (made.status != HANNEDDOIS_WORD_BOUNDARY)
            return;
        check(!(side.options.flags & HANNEDDOIS_NO_UNICODE) || has_flags(side.patterns[made.error.pattern]), "a pattern without Unicode has a word boundary of Unicode");
        Set alone;
        check(is_one_of(alone.make({side.patterns[made.error.pattern]}, side.options).status, {HANNEDDOIS_WORD_BOUNDARY}), "a pattern with a word boundary of Unicode is taken alone");
    }

    static bool has_flags(const Bytes &pattern) { return std::count(pattern.begin(), pattern.end(), '?') > 0; }

    void make_faulty(Side &side, uint8_t value) {
        hanneddois_options options = given_.options;
        std::vector<Bytes> patterns = given_.patterns;
        if (value % 2)
            patterns.clear();
        else
            options.flags |= 1u << (16 + value / 2 % 16);
        check(side.set.make(patterns, options).status == HANNEDDOIS_BAD_ARGUMENT, "a faulty argument is taken");
        side.streams.clear();
    }

    void add(Side &side, const Stream &stream) {
        for (const Stream &each : side.streams)
            check(each.number != stream.number, "two streams have one number");
        side.streams.push_back(stream);
    }

    void open(Side &side, uint8_t value) {
        if (side.streams.size() >= MOST_STREAMS)
            return;
        size_t number;
        begin_failing();
        hanneddois_status status = side.set.open(&number);
        if (is_out(status))
            status = side.set.open(&number);
        check(status != HANNEDDOIS_NO_MEMORY, "out of memory again, and no allocation failed");
        if (status == HANNEDDOIS_OK)
            add(side, {number, value % 2u, {}, {}, false});
    }

    void clone(Side &side, const Stream &from) {
        if (side.streams.size() >= MOST_STREAMS)
            return;
        Stream copy = from;
        begin_failing();
        hanneddois_status status = side.set.clone(from.number, &copy.number);
        if (is_out(status))
            status = side.set.clone(from.number, &copy.number);
        check(status == HANNEDDOIS_OK, "a stream can't be copied");
        add(side, copy);
    }

    void free(Side &side, Stream &stream) {
        size_t number = stream.number;
        check(side.set.close_number(number) == HANNEDDOIS_OK, "a stream can't be freed");
        side.streams.erase(side.streams.begin() + (&stream - side.streams.data()));
        check(side.set.reset(number) == HANNEDDOIS_BAD_ARGUMENT, "a freed stream is there");
    }

    // Calls with a number that no stream has change nothing.
    void unknown(Side &side, uint8_t value) {
        size_t number = value % 2 ? SIZE_MAX - value : value / 2;
        for (const Stream &each : side.streams)
            if (each.number == number)
                return;
        const uint8_t bytes[] = {'a', '\n'};
        size_t copy;
        check(side.set.feed(number, bytes, value % 3, value % 5).status == HANNEDDOIS_BAD_ARGUMENT, "a stream that isn't there is fed");
        check(side.set.close(number, value % 5).status == HANNEDDOIS_BAD_ARGUMENT, "a stream that isn't there is closed");
        check(side.set.reset(number) == HANNEDDOIS_BAD_ARGUMENT, "a stream that isn't there is reset");
        check(side.set.clone(number, &copy) == HANNEDDOIS_BAD_ARGUMENT, "a stream that isn't there is copied");
        check(side.set.close_number(number) == HANNEDDOIS_BAD_ARGUMENT, "a stream that isn't there is freed");
    }

    // The next bytes of the stream's haystack, which begins anew at its end.
    Bytes piece_for(const Stream &stream, size_t length) const {
        const Bytes &haystack = given_.haystacks[stream.haystack];
        Bytes piece;
        while (!haystack.empty() && piece.size() < length && stream.input.size() + piece.size() < LONGEST)
            piece.push_back(haystack[(stream.input.size() + piece.size()) % haystack.size()]);
        return piece;
    }

    void feed(Side &side, Stream &stream, size_t length, size_t room) {
        Bytes piece = piece_for(stream, length);
        begin_failing();
        Fed fed = side.set.feed(stream.number, piece.data(), piece.size(), room);
        bool is_repeated = is_out(fed.status);
        take(side, stream, piece, fed, room);
        if (is_repeated) {
            piece = piece_for(stream, length - fed.taken);
            fed = side.set.feed(stream.number, piece.data(), piece.size(), room);
            check(fed.status != HANNEDDOIS_NO_MEMORY, "out of memory again, and no allocation failed");
            take(side, stream, piece, fed, room);
        }
    }

    // Notes what a call read and wrote. The ends that are known then are those before the last byte that was read.
    void take(Side &side, Stream &stream, const Bytes &piece, const Fed &fed, size_t room) {
        check((fed.status == HANNEDDOIS_CLOSED) == stream.is_closed, "a closed stream is fed, or one that isn't closed can't be");
        check(fed.status != HANNEDDOIS_BAD_ARGUMENT, "a stream isn't known");
        size_t before = stream.input.size();
        stream.input.insert(stream.input.end(), piece.begin(), piece.begin() + fed.taken);
        for (const End &each : fed.ends) {
            check(before <= each.end && each.end < stream.input.size(), "an end is reported too early or too late");
            stream.ends.push_back(each);
        }
        note(1000, static_cast<uint32_t>(std::min<size_t>(fed.count, 20)));
        if (fed.status != HANNEDDOIS_OK || fed.taken == piece.size())
            return;
        Bytes longer = stream.input;
        longer.push_back(piece[fed.taken]);
        size_t next = 0; // ends that this byte decides
        for (const End &each : expected(side, longer))
            next += each.end == stream.input.size();
        check(next > room - fed.count, "a byte isn't taken, and there is room for its ends");
    }

    void close(Side &side, Stream &stream, size_t room) {
        begin_failing();
        Fed fed = side.set.close(stream.number, room);
        if (is_out(fed.status))
            fed = side.set.close(stream.number, room);
        check(fed.status != HANNEDDOIS_NO_MEMORY, "out of memory again, and no allocation failed");
        check((fed.status == HANNEDDOIS_CLOSED) == stream.is_closed, "a closed stream is closed, or one that isn't closed can't be");
        if (fed.status == HANNEDDOIS_OUTPUT_TOO_SMALL)
            fed = side.set.close(stream.number, fed.count);
        check(is_one_of(fed.status, {HANNEDDOIS_OK, HANNEDDOIS_CLOSED}), "a stream can't be closed");
        if (fed.status != HANNEDDOIS_OK)
            return;
        for (const End &each : fed.ends) {
            check(each.end == stream.input.size(), "an end is reported at the close that isn't at the end");
            stream.ends.push_back(each);
        }
        stream.is_closed = true;
        check(stream.ends == expected(side, stream.input), "a stream reports other ends than its whole input at once");
        compare_with_regexes(side, stream);
    }

    // Feeds some more, and closes a stream, so that all that it reported is compared.
    void finish(Side &side, Stream &stream) {
        if (stream.is_closed)
            return;
        feed(side, stream, 5, side.set.count());
        close(side, stream, side.set.count());
    }

    // The ends of an input that is fed in one piece to a set of its own.
    const std::vector<End> &expected(Side &side, const Bytes &input) {
        auto found = side.expected.find(input);
        if (found != side.expected.end())
            return found->second;
        Set set;
        hanneddois_options options = side.options;
        options.capacity = 0;
        options.flags = (options.flags ^ HANNEDDOIS_NO_BYTE_CLASSES) | HANNEDDOIS_RAISE_CAPACITY;
        check(set.make(side.patterns, options).status == HANNEDDOIS_OK, "a set can't be made once more");
        size_t number;
        check(set.open(&number) == HANNEDDOIS_OK, "a set of its own has no stream");
        Fed fed = set.feed(number, input.data(), input.size(), (input.size() + 1) * set.count());
        check(fed.status == HANNEDDOIS_OK && fed.taken == input.size(), "an input isn't taken in one piece");
        Fed last = set.close(number, set.count());
        check(last.status == HANNEDDOIS_OK, "a stream of its own can't be closed");
        fed.ends.insert(fed.ends.end(), last.ends.begin(), last.ends.end());
        return side.expected[input] = fed.ends;
    }

    void compare_with_regexes(Side &side, const Stream &stream) {
        if ((side.options.flags & HANNEDDOIS_UTF8) && valid_up_to(stream.input) < stream.input.size())
            return;
        set_fences(false);
        if (side.ends.empty())
            for (const Bytes &pattern : side.patterns)
                side.ends.push_back(std::make_unique<Ends>(pattern, side.options));
        for (const Part &part : parts_of(stream.input, side.reads_lines()))
            for (size_t pattern = 0; pattern < side.patterns.size(); ++pattern)
                if (side.ends[pattern]->are_known())
                    compare_part(*side.ends[pattern], stream, part, pattern);
        set_fences(true);
    }

    void compare_part(Ends &ends, const Stream &stream, const Part &part, size_t pattern) {
        size_t step = 1 + part.bytes.size() / MOST_OFFSETS;
        for (size_t at = 0; at <= part.bytes.size(); at += at == part.bytes.size() ? 1 : std::min(step, part.bytes.size() - at)) {
            bool is_known, is_reported = std::binary_search(stream.ends.begin(), stream.ends.end(), End{pattern, part.start + at});
            bool is_end = ends.is_end(part.bytes, at, &is_known);
            check(!is_known || is_end == is_reported, "a regex finds another end than a stream");
        }
    }

    const Case &given_;
    Side sides_[2];
    bool is_failing_ = false;
};

} // namespace
} // namespace fuzz

extern "C" int LLVMFuzzerInitialize(int *, char ***) {
    fuzz::watch_blocks();
    return 0;
}

extern "C" int LLVMFuzzerTestOneInput(const uint8_t *data, size_t size) {
    fuzz::set_fences(true);
    {
        fuzz::Case given = fuzz::read_case(data, size);
        fuzz::Runs(given).all();
    }
    fuzz::check(fuzz::blocks_held() == 0, "memory is left after all sets were freed");
    return 0;
}
