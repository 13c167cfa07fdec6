// The calls of the library on fenced arguments. Each call checks what the header promises of every result.
#ifndef HANDLE_HPP
#define HANDLE_HPP

#include <cstdio>
#include <cstdlib>
#include <initializer_list>
#include <vector>

#include "blocks.hpp"
#include "case.hpp"
#include "memory.hpp"

namespace fuzz {

[[noreturn]] inline void fail(const char *what) {
    fprintf(stderr, "fuzz: WRONG: %s\n", what);
    abort();
}

inline void check(bool holds, const char *what) {
    if (!holds)
        fail(what);
}

struct Match {
    size_t pattern = 0, start = 0, end = 0;
    bool is_empty() const { return start == end; }
    bool operator==(const Match &it) const { return pattern == it.pattern && start == it.start && end == it.end; }
};

// The status of a call, and what it wrote.
struct Found {
    hanneddois_status status = HANNEDDOIS_OK;
    hanneddois_error error = {};
    Match match;
    std::vector<Match> list;
    size_t count = 0;
    std::vector<uint8_t> marks;
    std::vector<size_t> slots;
    Bytes output;      // as far as there is room
    size_t next = 0;   // where a list goes on
    size_t length = 0; // of the whole output
    bool is_answer() const { return status == HANNEDDOIS_OK || status == HANNEDDOIS_NONE || status == HANNEDDOIS_OUTPUT_TOO_SMALL; }
};

inline bool is_one_of(hanneddois_status status, std::initializer_list<int> all) {
    for (int each : all)
        if (status == static_cast<hanneddois_status>(each))
            return true;
    return false;
}

constexpr uint8_t UNTOUCHED = 0xEE;

class Handle {
  public:
    Handle() = default;
    ~Handle() { end(); }
    Handle(const Handle &) = delete;
    Handle &operator=(const Handle &) = delete;

    Found make(const std::vector<Bytes> &patterns, const hanneddois_options &options);
    Found is_match(const Bytes &haystack);
    Found find_at(const Bytes &haystack, size_t from);
    Found find_all(const Bytes &haystack, size_t room);
    Found captures(const Bytes &haystack, size_t from, size_t slots);
    Found captures_all(const Bytes &haystack, size_t room, size_t width);
    Found captures_next(const Bytes &haystack, size_t from, size_t room, size_t width);
    Found matching(const Bytes &haystack, size_t marks);
    Found replace_all(const Bytes &haystack, const Bytes &by, size_t limit, uint32_t flags, size_t room);
    Found copy_from(Handle &from);
    void end();
    void move();
    void check_counts();
    size_t count() const { return count_; }
    bool is_empty() const { return count_ == 0; }
    uint32_t flags() const { return flags_; }

  private:
    void check_slots(const Match &match, const size_t *slots, size_t count) const;
    void check_groups();
    Found searched(hanneddois_status status, const hanneddois_error &error, const Bytes &haystack);
    hanneddois_regex *raw() { return &regexes_[at_]; }

    hanneddois_regex regexes_[2] = {HANNEDDOIS_EMPTY, HANNEDDOIS_EMPTY};
    size_t at_ = 0;
    size_t count_ = 0; // of patterns; 0 without a regex
    uint32_t flags_ = 0;
};

// What the fields of an error may be after each status, and that its message is ASCII and has the length that the call returns.
void check_error(const hanneddois_error &error, const std::vector<Bytes> &patterns);

} // namespace fuzz

#endif
