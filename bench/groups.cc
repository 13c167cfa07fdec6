// Times searches for matches with their groups by the library for C, by RE2 and by the crate regex, in turn over the same bytes.
// `bench/groups` builds and runs it, and says what it prints. The crate comes as the shared library of crate/, named by an argument. If it
// isn't there, its columns are empty.
#include <dlfcn.h>
#include <re2/re2.h>
#include <time.h>

#include <cstdio>
#include <cstdlib>
#include <fstream>
#include <iterator>
#include <string>
#include <vector>

#include "hanneddois.h"

namespace {

constexpr int kMostGroups = 8;

double now()
{
    timespec it;
    clock_gettime(CLOCK_THREAD_CPUTIME_ID, &it);
    return it.tv_sec + it.tv_nsec * 1e-9;
}

struct Sum {
    size_t matches = 0, offsets = 0;
    bool operator==(const Sum &other) const { return matches == other.matches && offsets == other.offsets; }
};

const uint8_t *bytes(const std::string &text)
{
    return reinterpret_cast<const uint8_t *>(text.data());
}

[[noreturn]] void stop(const char *why)
{
    fprintf(stderr, "groups: %s\n", why);
    exit(1);
}

// All matches by one call, into room for all of them.
Sum all_at_once(hanneddois_regex *regex, const std::string &text, size_t width, std::vector<hanneddois_match> &rows, std::vector<size_t> &slots)
{
    Sum sum;
    hanneddois_error error;
    hanneddois_status status = hanneddois_captures_all(regex, bytes(text), text.size(), rows.data(), rows.size(), slots.data(), slots.size(), width, &sum.matches, &error);
    if (status > HANNEDDOIS_NONE || sum.matches > rows.size())
        stop("the library failed");
    for (size_t i = 0; i < sum.matches * width; i++)
        sum.offsets += slots[i] == HANNEDDOIS_NO_OFFSET ? 0 : slots[i];
    return sum;
}

// One call for each match.
Sum one_by_one(hanneddois_regex *regex, const std::string &text, size_t width)
{
    Sum sum;
    hanneddois_error error;
    hanneddois_match match;
    size_t slots[2 * kMostGroups];
    for (size_t from = 0; from <= text.size();) {
        if (hanneddois_captures(regex, bytes(text), text.size(), from, &match, slots, width, &error) != HANNEDDOIS_OK)
            break;
        sum.matches++;
        for (size_t i = 0; i < width; i++)
            sum.offsets += slots[i] == HANNEDDOIS_NO_OFFSET ? 0 : slots[i];
        from = match.end;
    }
    return sum;
}

Sum by_re2(const RE2 &regex, const std::string &text, int groups)
{
    Sum sum;
    re2::StringPiece found[kMostGroups];
    for (size_t from = 0; regex.Match(text, from, text.size(), RE2::UNANCHORED, found, groups);) {
        sum.matches++;
        for (int i = 0; i < groups; i++)
            if (found[i].data())
                sum.offsets += 2 * static_cast<size_t>(found[i].data() - text.data()) + found[i].size();
        from = found[0].data() - text.data() + found[0].size();
    }
    return sum;
}

// The shared library of the crate regex.
struct Crate {
    void *(*regex)(const uint8_t *, size_t, bool) = nullptr;
    void (*free)(void *) = nullptr;
    void (*groups)(const void *, const uint8_t *, size_t, Sum *) = nullptr;
};

Crate crate_at(const char *path)
{
    Crate crate;
    void *library = dlopen(path, RTLD_NOW | RTLD_LOCAL);
    if (!library)
        return crate;
    crate.regex = reinterpret_cast<decltype(crate.regex)>(dlsym(library, "crate_regex"));
    crate.free = reinterpret_cast<decltype(crate.free)>(dlsym(library, "crate_free"));
    crate.groups = reinterpret_cast<decltype(crate.groups)>(dlsym(library, "crate_groups"));
    if (!crate.regex || !crate.free || !crate.groups)
        stop("the library of the crate regex has other calls: run bench/crate/build");
    return crate;
}

template <class Search>
double least(int rounds, Sum &sum, const Search &search)
{
    double best = 1e9;
    for (int i = 0; i < rounds; i++) {
        double begun = now();
        Sum it = search();
        double took = now() - begun;
        best = took < best ? took : best;
        if (i && !(it == sum))
            stop("two rounds differ");
        sum = it;
    }
    return best;
}

// The cells of the crate, whose regex is over bytes as ASCII, and the end of the row.
void print_crate(const Crate &crate, const std::string &pattern, const std::string &text, int rounds, const Sum &expected, double once)
{
    void *regex = crate.regex ? crate.regex(bytes(pattern), pattern.size(), false) : nullptr;
    if (!regex) {
        printf(" | |\n");
        return;
    }
    Sum sum;
    double took = least(rounds, sum, [&] {
        Sum it;
        crate.groups(regex, bytes(text), text.size(), &it);
        return it;
    });
    crate.free(regex);
    if (!(sum == expected))
        stop("the sums of the crate regex differ");
    printf(" %.0f | %.2f |\n", took * 1e9 / sum.matches, once / took);
}

}  // namespace

int main(int argc, char **argv)
{
    if (argc < 5) {
        fprintf(stderr, "usage: groups ROUNDS CRATE (NAME FILE PATTERN)..\n");
        return 2;
    }
    int rounds = atoi(argv[1]);
    const Crate crate = crate_at(argv[2]);
    for (int at = 3; at + 2 < argc; at += 3) {
        std::ifstream file(argv[at + 1], std::ios::binary);
        std::string text((std::istreambuf_iterator<char>(file)), {}), pattern = argv[at + 2];
        hanneddois_regex regex = HANNEDDOIS_EMPTY;
        hanneddois_options options = {};
        options.flags = HANNEDDOIS_GROUPS;
        hanneddois_error error;
        size_t length = pattern.size();
        if (hanneddois_new(&regex, bytes(pattern), length, &length, 1, &options, &error) != HANNEDDOIS_OK)
            stop("no regex");
        RE2 theirs(pattern);
        size_t groups = hanneddois_group_count(&regex, 0), width = 2 * groups;
        size_t count = 0;
        hanneddois_find_all(&regex, bytes(text), text.size(), nullptr, 0, &count, &error);
        std::vector<hanneddois_match> rows(count);
        std::vector<size_t> slots(count * width);
        Sum first, second, third;
        double once = least(rounds, first, [&] { return all_at_once(&regex, text, width, rows, slots); });
        double each = least(rounds, second, [&] { return one_by_one(&regex, text, width); });
        double re2 = least(rounds, third, [&] { return by_re2(theirs, text, groups); });
        if (!(first == second) || !(first == third))
            stop("the sums differ");
        printf("| %s | %zu | %.0f | %.0f | %.0f | %.2f |", argv[at], first.matches, once * 1e9 / count, each * 1e9 / count, re2 * 1e9 / count, once / re2);
        print_crate(crate, pattern, text, rounds, first, once);
        hanneddois_free(&regex);
    }
    return 0;
}
