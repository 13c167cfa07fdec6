// Orders: calls in any order over two handles, also over empty, freed and moved ones, with faulty arguments and with allocations that
// fail. Each block of memory has fences. A search is compared with that of a fresh handle.
#include <algorithm>
#include <cstring>

#include "handle.hpp"

namespace fuzz {
namespace {

enum Kind { MAKE, MAKE_OTHER, IS_MATCH, FIND_AT, FIND_ALL, REPLACE_ALL, CAPTURES, CAPTURES_ALL, CAPTURES_NEXT, MATCHING, END, MOVE, COUNTS, MAKE_FAULTY, FIND_FAULTY, MATCHING_FAULTY, MESSAGE, COPY, KINDS };

// What a handle was made of.
struct Side {
    Handle handle;
    std::vector<Bytes> patterns;
    hanneddois_options options = {};
};

Found search(Handle &handle, int kind, const Bytes &haystack, uint8_t value) {
    switch (kind) {
    case IS_MATCH:
        return handle.is_match(haystack);
    case FIND_AT:
        return handle.find_at(haystack, value * haystack.size() / 255);
    case FIND_ALL:
        return handle.find_all(haystack, value % 16);
    case REPLACE_ALL:
        return handle.replace_all(haystack, {'<', '$', '1', '$', '$', '$', '{', '0', '}'}, value % 4, value % 8 / 4, value);
    case CAPTURES:
        return handle.captures(haystack, value / 8 * haystack.size() / 31, value % 8);
    case CAPTURES_ALL:
        return handle.captures_all(haystack, value % 8, value / 8 % 8);
    case CAPTURES_NEXT:
        return handle.captures_next(haystack, value / 16 * (haystack.size() + 1) / 15, value % 4, value / 4 % 4);
    default:
        return handle.matching(haystack, handle.count());
    }
}

bool is_same(const Found &first, const Found &second, bool may_end_elsewhere) {
    if (first.status != second.status || first.marks != second.marks || first.output != second.output ||
        first.length != second.length || first.slots != second.slots)
        return false;
    if (first.status != HANNEDDOIS_OK || may_end_elsewhere)
        return true;
    return first.count == second.count && first.match == second.match && first.list == second.list;
}

// Whether a call is out of memory, as it may be only if an allocation failed.
bool is_out_of_memory(const Found &found, bool has_failed) {
    bool is_out = found.status == HANNEDDOIS_NO_MEMORY;
    check(!is_out || has_failed, "out of memory, and no allocation failed");
    return is_out;
}

class Runs {
  public:
    explicit Runs(const Case &given) : given_(given) {}

    void all() {
        for (size_t at = 0; at < given_.calls.size(); ++at) {
            is_failing_ = at == given_.failing_call % MOST_CALLS;
            one(given_.calls[at]);
        }
    }

  private:
    void begin_failing() {
        if (is_failing_)
            fail_allocation(given_.failing_allocation, given_.failing_call >= 128);
    }

    void one(Call call) {
        Side &side = sides_[call.kind / KINDS % 2];
        const Bytes &haystack = given_.haystacks[call.kind / KINDS / 2 % 2];
        int kind = call.kind % KINDS;
        note(400, static_cast<uint32_t>(kind + KINDS * side.handle.is_empty()));
        if (kind == MAKE || kind == MAKE_OTHER)
            make(side, kind == MAKE_OTHER, call.value);
        else if (kind == COPY)
            copy(sides_[1 - call.kind / KINDS % 2], side);
        else if (kind >= IS_MATCH && kind <= MATCHING)
            searched(side, kind, haystack, call.value);
        else
            other(side, kind, haystack, call.value);
    }

    void make(Side &side, bool is_other, uint8_t value) {
        side.patterns = given_.patterns;
        side.options = given_.options;
        if (is_other) {
            std::rotate(side.patterns.begin(), side.patterns.begin() + value % side.patterns.size(), side.patterns.end());
            side.options.flags = cheap(side.options.flags ^ 1u << value % 15);
            side.options.capacity = pick_capacity(value);
        }
        begin_failing();
        Found found = side.handle.make(side.patterns, side.options);
        bool has_failed = end_failing();
        if (!is_out_of_memory(found, has_failed) && !has_failed)
            return;
        Found again = side.handle.make(side.patterns, side.options);
        check(again.status != HANNEDDOIS_NO_MEMORY, "out of memory again, and no allocation failed");
        check(found.status == HANNEDDOIS_NO_MEMORY || found.status == again.status, "a failed allocation changes the status of a regex");
    }

    // Makes a second regex of that of the other handle.
    void copy(Side &from, Side &to) {
        begin_failing();
        Found found = to.handle.copy_from(from.handle);
        bool has_failed = end_failing();
        to.patterns = from.patterns;
        to.options = from.options;
        if (is_out_of_memory(found, has_failed))
            check(to.handle.copy_from(from.handle).status == HANNEDDOIS_OK, "a copy can't be made once more");
    }

    void searched(Side &side, int kind, const Bytes &haystack, uint8_t value) {
        begin_failing();
        Found found = search(side.handle, kind, haystack, value);
        bool has_failed = end_failing();
        bool is_out = is_out_of_memory(found, has_failed);
        bool may_end_elsewhere = (side.options.flags & HANNEDDOIS_EMPTY_LOOPS) != 0;
        if (has_failed) {
            Found again = search(side.handle, kind, haystack, value);
            check(again.status != HANNEDDOIS_NO_MEMORY, "out of memory again, and no allocation failed");
            check(is_out || is_same(found, again, may_end_elsewhere), "a failed allocation changes an answer");
            found = again;
        }
        if (value >= 192 && !side.handle.is_empty()) {
            Handle fresh;
            Found made = fresh.make(side.patterns, side.options);
            check(made.status == HANNEDDOIS_OK, "a regex can't be made once more");
            check(is_same(found, search(fresh, kind, haystack, value), may_end_elsewhere), "a fresh handle finds something else");
        }
    }

    void other(Side &side, int kind, const Bytes &haystack, uint8_t value) {
        switch (kind) {
        case END:
            side.handle.end();
            break;
        case MOVE:
            side.handle.move();
            break;
        case COUNTS:
            side.handle.check_counts();
            break;
        case MAKE_FAULTY:
            make_faulty(side, value);
            break;
        case FIND_FAULTY:
            find_faulty(side, haystack, value);
            break;
        case MATCHING_FAULTY:
            side.handle.matching(haystack, side.handle.count() + 1 + value);
            break;
        default:
            message(haystack, value);
        }
    }

    void make_faulty(Side &side, uint8_t value) {
        hanneddois_options options = given_.options;
        std::vector<Bytes> patterns = given_.patterns;
        if (value % 2)
            patterns.clear();
        else
            options.flags |= 1u << (16 + value / 2 % 16);
        Found found = side.handle.make(patterns, options);
        check(found.status == HANNEDDOIS_BAD_ARGUMENT, "a faulty argument is taken");
    }

    void find_faulty(Side &side, const Bytes &haystack, uint8_t value) {
        size_t from = value % 2 ? SIZE_MAX - value : haystack.size() + 1 + value;
        Found found = side.handle.find_at(haystack, from);
        check(is_one_of(found.status, {HANNEDDOIS_BAD_ARGUMENT, HANNEDDOIS_HAYSTACK_NOT_UTF8}), "an offset after the end is taken");
    }

    // A message of an error that no call has made.
    void message(const Bytes &haystack, uint8_t value) {
        hanneddois_error error = {value, 0, 1, 2, 3, 4};
        if (haystack.size() >= sizeof error.cause)
            memcpy(&error.cause, haystack.data(), sizeof error.cause);
        Fenced text(nullptr, value);
        check(hanneddois_error_text(&error, text.data(), text.size()) < 1000, "a message is very long");
    }

    const Case &given_;
    Side sides_[2];
    bool is_failing_ = false;
};

} // namespace
} // namespace fuzz

extern "C" int LLVMFuzzerInitialize(int *, char ***) {
    fuzz::watch_blocks();
    return 0;
}

extern "C" int LLVMFuzzerTestOneInput(const uint8_t *data, size_t size) {
    fuzz::set_fences(true);
    {
        fuzz::Case given = fuzz::read_case(data, size);
        fuzz::Runs(given).all();
    }
    fuzz::check(fuzz::blocks_held() == 0, "memory is left after all handles were freed");
    return 0;
}
