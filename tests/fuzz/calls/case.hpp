// One input of the fuzz, read as settings, patterns, haystacks and calls. Its form, where | stands for the byte F8:
//
//     SETTINGS CALLS | PATTERN.. | HAYSTACK | HAYSTACK
//
// SETTINGS are 8 bytes: two of flags, the limit of nesting, the capacity, the limit of size, the number of patterns, the call whose
// allocations fail, and which of them fails. CALLS are pairs of a call and a value for it.
#ifndef CASE_HPP
#define CASE_HPP

#include <cstddef>
#include <cstdint>
#include <string>
#include <vector>

#include "hanneddois.h"

namespace fuzz {

using Bytes = std::vector<uint8_t>;

constexpr uint8_t SEPARATOR = 0xF8;
constexpr size_t MOST_PATTERNS = 6;
constexpr size_t MOST_CALLS = 24;

// What a call is given next to its handle.
struct Call {
    uint8_t kind;
    uint8_t value;
};

struct Case {
    hanneddois_options options = {};
    std::vector<Bytes> patterns;
    Bytes haystacks[2];
    std::vector<Call> calls;
    uint8_t failing_call = 0;
    uint8_t failing_allocation = 0;
};

// The flags of the header.
constexpr uint32_t ALL_FLAGS = (1u << 15) - 1;

// HANNEDDOIS_SHRINK takes a million allocations for a Unicode class, so it is used for classes of ASCII alone.
inline uint32_t cheap(uint32_t flags) {
    return flags & HANNEDDOIS_NO_UNICODE ? flags : flags & ~static_cast<uint32_t>(HANNEDDOIS_SHRINK);
}

inline size_t pick_capacity(uint8_t by) {
    static const size_t VALUES[] = {0, 0, 0, 1, 1000, 10000, 100000, 2u << 20, 1u << 24, SIZE_MAX};
    return VALUES[by % 10];
}

// Small limits most of the time, so that no case takes long.
inline size_t pick_size_limit(uint8_t by) {
    static const size_t VALUES[] = {1u << 20, 1u << 20, 1u << 20, 1u << 18, 1u << 14, 1000, 1, 1u << 22};
    return VALUES[by % 8];
}

inline std::vector<Bytes> split(const uint8_t *data, size_t size) {
    std::vector<Bytes> pieces(1);
    for (size_t at = 0; at < size; ++at) {
        if (data[at] == SEPARATOR)
            pieces.emplace_back();
        else
            pieces.back().push_back(data[at]);
    }
    return pieces;
}

inline void read_settings(Case &read, const Bytes &piece) {
    uint8_t settings[8] = {};
    for (size_t at = 0; at < sizeof settings && at < piece.size(); ++at)
        settings[at] = piece[at];
    read.options.flags = cheap((settings[0] | settings[1] << 8) & ALL_FLAGS);
    read.options.nest_limit = settings[2] < 128 ? 0 : settings[2] - 127;
    read.options.capacity = pick_capacity(settings[3]);
    read.options.size_limit = pick_size_limit(settings[4]);
    read.failing_call = settings[6];
    read.failing_allocation = settings[7];
    for (size_t at = 8; at + 1 < piece.size() && read.calls.size() < MOST_CALLS; at += 2)
        read.calls.push_back({piece[at], piece[at + 1]});
}

inline Case read_case(const uint8_t *data, size_t size) {
    Case read;
    std::vector<Bytes> pieces = split(data, size);
    read_settings(read, pieces[0]);
    size_t count = 1 + (pieces[0].size() > 5 ? pieces[0][5] : 0) % MOST_PATTERNS;
    size_t next = 1;
    for (; next < pieces.size() && read.patterns.size() < count; ++next)
        read.patterns.push_back(pieces[next]);
    if (read.patterns.empty())
        read.patterns.emplace_back();
    for (Bytes &haystack : read.haystacks)
        if (next < pieces.size())
            haystack = pieces[next++];
    return read;
}

// The number of bytes before the first one that is no part of a character, or of all.
inline size_t valid_up_to(const Bytes &text) {
    size_t at = 0;
    while (at < text.size()) {
        uint8_t first = text[at];
        size_t length = first < 0x80 ? 1 : first >= 0xC2 && first < 0xE0 ? 2 : first >= 0xE0 && first < 0xF0 ? 3 : first >= 0xF0 && first < 0xF5 ? 4 : 0;
        if (length == 0 || at + length > text.size())
            return at;
        uint8_t low = first == 0xE0 ? 0xA0 : first == 0xF0 ? 0x90 : 0x80;
        uint8_t high = first == 0xED ? 0x9F : first == 0xF4 ? 0x8F : 0xBF;
        for (size_t k = 1; k < length; ++k) {
            uint8_t byte = text[at + k];
            if (byte < (k == 1 ? low : 0x80) || byte > (k == 1 ? high : 0xBF))
                return at;
        }
        at += length;
    }
    return at;
}

inline bool is_boundary(const Bytes &text, size_t at) {
    return at >= text.size() || (text[at] & 0xC0) != 0x80;
}

} // namespace fuzz

#endif
