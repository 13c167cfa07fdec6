// Times forms of a test for a set of bytes, as `lazy_dfa` searches for the next byte that leaves a state (`byte_tests.rt`):
//
//     c++ -O2 -march=haswell -o classes classes.cc && ./classes FILE
//
// The first MB of the file is searched for every byte of a set, by vectors of 32 bytes. Each form takes turns with the others. Prints a
// table as Markdown: the mean distance of bytes of the set, and the least processor time in picoseconds a byte.
#include <immintrin.h>
#include <time.h>

#include <algorithm>
#include <cstdint>
#include <cstdio>
#include <fstream>
#include <string>
#include <utility>
#include <vector>

namespace {

using Set = std::vector<std::pair<int, int>>;
using Lanes = __m256i;
#define ALWAYS inline __attribute__((always_inline))

constexpr size_t kLanes = 32, kNear = 256, kFar = 128;
constexpr size_t kSize = 1 << 20;
constexpr int kRounds = 5, kRepeats = 20;

ALWAYS Lanes all(int byte) { return _mm256_set1_epi8(static_cast<char>(byte)); }
ALWAYS Lanes loaded(const uint8_t *at) { return _mm256_loadu_si256(reinterpret_cast<const Lanes *>(at)); }
ALWAYS Lanes twice(const uint8_t *table) { return _mm256_broadcastsi128_si256(_mm_loadu_si128(reinterpret_cast<const __m128i *>(table))); }
ALWAYS Lanes by_low(const uint8_t *table, Lanes bytes) { return _mm256_shuffle_epi8(twice(table), bytes & all(15)); }
ALWAYS Lanes by_high(const uint8_t *table, Lanes bytes) { return _mm256_shuffle_epi8(twice(table), _mm256_srli_epi16(bytes, 4) & all(15)); }
ALWAYS Lanes marked(Lanes marks) { return ~_mm256_cmpeq_epi8(marks, all(0)); }

// The bytes of N ranges.
template <int N>
struct Ranges {
    uint8_t first[N], behind[N];
    explicit Ranges(const Set &set)
    {
        for (int k = 0; k < N; k++) {
            auto [low, high] = set[std::min<size_t>(k, set.size() - 1)];
            first[k] = low, behind[k] = high - low;
        }
    }
    static bool holds(const Set &set) { return set.size() <= N; }
    ALWAYS Lanes one(Lanes bytes, int k) const
    {
        Lanes above = _mm256_sub_epi8(bytes, all(first[k]));
        return _mm256_cmpeq_epi8(_mm256_min_epu8(above, all(behind[k])), above);
    }
    ALWAYS Lanes lanes(Lanes bytes) const
    {
        Lanes found = one(bytes, 0);
        for (int k = 1; k < N; k++)
            found |= one(bytes, k);
        return found;
    }
};

// Two tables, by both halves of a byte: a mark for each kind of row.
struct Halves {
    uint8_t low[16] = {}, high[16] = {};
    explicit Halves(const Set &set) { make(set); }
    static bool holds(const Set &set) { return Halves(set).make(set) <= 8; }
    int make(const Set &set)
    {
        std::vector<uint32_t> kinds;
        for (int top = 0; top < 16; top++) {
            uint32_t row = 0;
            for (auto [from, to] : set)
                for (int byte = std::max(from, top * 16); byte <= std::min(to, top * 16 + 15); byte++)
                    row |= 1u << byte % 16;
            if (!row)
                continue;
            size_t mark = std::find(kinds.begin(), kinds.end(), row) - kinds.begin();
            if (mark == kinds.size())
                kinds.push_back(row);
            high[top] = 1 << (mark & 7);
            for (int half = 0; half < 16; half++)
                low[half] |= (row >> half & 1) << (mark & 7);
        }
        return kinds.size();
    }
    ALWAYS Lanes lanes(Lanes bytes) const { return marked(by_low(low, bytes) & by_high(high, bytes)); }
};

// Three tables: the rows of low halves, of bytes below 128 and of the others, and the bit of each high half.
struct Rows {
    uint8_t below[16] = {}, above[16] = {}, bits[16];
    explicit Rows(const Set &set)
    {
        for (int half = 0; half < 16; half++)
            bits[half] = 1 << half % 8;
        for (auto [from, to] : set)
            for (int byte = from; byte <= to; byte++)
                (byte < 128 ? below : above)[byte % 16] |= bits[byte / 16];
    }
    static bool holds(const Set &) { return true; }
    ALWAYS Lanes lanes(Lanes bytes) const
    {
        return marked(_mm256_blendv_epi8(by_low(below, bytes), by_low(above, bytes), bytes) & by_high(bits, bytes));
    }
};

template <class Test>
ALWAYS size_t find_wide(const Test &test, const uint8_t *text, size_t at, size_t end)
{
    for (; end - at >= kLanes; at += kLanes)
        if (uint32_t bits = _mm256_movemask_epi8(test.lanes(loaded(text + at))))
            return at + __builtin_ctz(bits);
    if (at < end) { // the buffer has further bytes, whose bits are left out
        uint32_t bits = _mm256_movemask_epi8(test.lanes(loaded(text + at)));
        return bits ? std::min(end, at + __builtin_ctz(bits)) : end;
    }
    return end;
}

template <class Test>
ALWAYS size_t find(const Test &test, const uint8_t *text, size_t at, size_t end)
{
    size_t near = at + std::min(end - at, kNear), found = find_wide(test, text, at, near);
    if (found < near)
        return found;
    for (; end - at >= kFar; at += kFar) {
        Lanes some = test.lanes(loaded(text + at)) | test.lanes(loaded(text + at + 32));
        some |= test.lanes(loaded(text + at + 64)) | test.lanes(loaded(text + at + 96));
        if (!_mm256_testz_si256(some, some))
            break;
    }
    return find_wide(test, text, at, end);
}

template <class Test>
__attribute__((noinline)) size_t count(const Test &test, const uint8_t *text, size_t end)
{
    size_t found = 0;
    for (size_t at = 0; (at = find(test, text, at, end)) < end; at++)
        found++;
    return found;
}

double now()
{
    timespec it;
    clock_gettime(CLOCK_THREAD_CPUTIME_ID, &it);
    return it.tv_sec * 1e12 + it.tv_nsec * 1e3;
}

template <class Test>
void time(const Set &set, const std::string &text, double &least, size_t &found)
{
    if (!Test::holds(set))
        return;
    Test test(set);
    double begun = now();
    for (int repeat = 0; repeat < kRepeats; repeat++) {
        found = count(test, reinterpret_cast<const uint8_t *>(text.data()), kSize);
        asm volatile("" ::"r"(found) : "memory"); // or the searches are left out
    }
    least = std::min(least, (now() - begun) / kRepeats / kSize);
}

} // namespace

int main(int argc, char **argv)
{
    std::ifstream file(argc > 1 ? argv[1] : "/dev/null", std::ios::binary);
    std::string text(kSize + kLanes, ' ');
    file.read(text.data(), kSize);
    const std::pair<const char *, Set> sets[] = {
        {"`[A-Z]`", {{65, 90}}},
        {"`[A-Z0-9]`", {{48, 57}, {65, 90}}},
        {"`[A-Fx0-9]`", {{48, 57}, {65, 70}, {120, 120}}},
        {"`[(){};]`", {{40, 41}, {59, 59}, {123, 123}, {125, 125}}},
        {"`[FKQXZ]`", {{70, 70}, {75, 75}, {81, 81}, {88, 88}, {90, 90}}},
        {"``[$@`~]``", {{36, 36}, {64, 64}, {96, 96}, {126, 126}}},
        {"one range, absent", {{1, 3}}},
        {"two ranges, absent", {{1, 3}, {14, 20}}},
        {"three ranges, absent", {{1, 3}, {14, 20}, {22, 25}}},
        {"four ranges, absent", {{1, 3}, {5, 7}, {14, 20}, {22, 25}}},
    };
    printf("| Set | Distance | One range | Two | Three | Four | Two tables | Three tables |\n|---|---|---|---|---|---|---|---|\n");
    for (const auto &[name, set] : sets) {
        double least[6];
        std::fill(least, least + 6, 1e99);
        size_t found = 0;
        for (int round = 0; round < kRounds; round++) {
            time<Ranges<1>>(set, text, least[0], found);
            time<Ranges<2>>(set, text, least[1], found);
            time<Ranges<3>>(set, text, least[2], found);
            time<Ranges<4>>(set, text, least[3], found);
            time<Halves>(set, text, least[4], found);
            time<Rows>(set, text, least[5], found);
        }
        printf("| %s | %s |", name, found ? std::to_string(kSize / found).c_str() : "");
        for (double it : least)
            it < 1e99 ? printf(" %.0f |", it) : printf(" |");
        printf("\n");
        fflush(stdout);
    }
}
