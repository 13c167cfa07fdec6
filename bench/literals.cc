// Times all matches of a pattern in a file, or calls on one line, by one engine. `bench/literals` builds and runs it, and says what it
// prints.
#include <time.h>

#include <cstdio>
#include <cstdlib>
#include <cstring>
#include <fstream>
#include <iterator>
#include <string>
#include <vector>

#ifdef OTHERS
#define PCRE2_CODE_UNIT_WIDTH 8
#include <hs/hs.h>
#include <pcre2.h>
#include <re2/re2.h>
#else
#include "hanneddois.h"
#endif

namespace {

constexpr int kCalls = 20000;

double now()
{
    timespec it;
    clock_gettime(CLOCK_THREAD_CPUTIME_ID, &it);
    return it.tv_sec + it.tv_nsec * 1e-9;
}

[[noreturn]] void stop(const char *why)
{
    fprintf(stderr, "literals: %s\n", why);
    exit(1);
}

// A pattern made by an engine. `all` counts its matches in a text, and `first` searches for the first one.
struct Engine {
    virtual ~Engine() = default;
    virtual size_t all(const std::string &text) = 0;
    virtual bool first(const std::string &text) = 0;
};

#ifdef OTHERS

struct Re2 : Engine {
    RE2 regex;
    explicit Re2(const char *pattern) : regex(pattern) {}
    size_t all(const std::string &text) override
    {
        size_t count = 0;
        re2::StringPiece found;
        for (size_t from = 0; regex.Match(text, from, text.size(), RE2::UNANCHORED, &found, 1);) {
            count++;
            from = found.data() - text.data() + found.size();
        }
        return count;
    }
    bool first(const std::string &text) override
    {
        re2::StringPiece found;
        return regex.Match(text, 0, text.size(), RE2::UNANCHORED, &found, 1);
    }
};

struct Pcre2 : Engine {
    pcre2_code *code;
    pcre2_match_data *data;
    explicit Pcre2(const char *pattern)
    {
        int error;
        PCRE2_SIZE at;
        code = pcre2_compile(reinterpret_cast<PCRE2_SPTR>(pattern), PCRE2_ZERO_TERMINATED, 0, &error, &at, nullptr);
        if (!code || pcre2_jit_compile(code, PCRE2_JIT_COMPLETE))
            stop("PCRE2 has no program for a pattern");
        data = pcre2_match_data_create(1, nullptr);
    }
    int from(const std::string &text, size_t at)
    {
        return pcre2_jit_match(code, reinterpret_cast<PCRE2_SPTR>(text.data()), text.size(), at, 0, data, nullptr);
    }
    size_t all(const std::string &text) override
    {
        size_t count = 0;
        for (size_t at = 0; from(text, at) >= 0; at = pcre2_get_ovector_pointer(data)[1])
            count++;
        return count;
    }
    bool first(const std::string &text) override { return from(text, 0) >= 0; }
};

struct Hyperscan : Engine {
    hs_database_t *database;
    hs_scratch_t *scratch = nullptr;
    explicit Hyperscan(const char *pattern)
    {
        hs_compile_error_t *error;
        if (hs_compile(pattern, 0, HS_MODE_BLOCK, nullptr, &database, &error) != HS_SUCCESS || hs_alloc_scratch(database, &scratch) != HS_SUCCESS)
            stop("Hyperscan has no program for a pattern");
    }
    size_t all(const std::string &text) override
    {
        size_t count = 0;
        auto add = [](unsigned, unsigned long long, unsigned long long, unsigned, void *into) { return ++*static_cast<size_t *>(into), 0; };
        hs_scan(database, text.data(), text.size(), 0, scratch, add, &count);
        return count;
    }
    bool first(const std::string &text) override
    {
        bool found = false;
        auto end = [](unsigned, unsigned long long, unsigned long long, unsigned, void *into) { return *static_cast<bool *>(into) = true, 1; };
        hs_scan(database, text.data(), text.size(), 0, scratch, end, &found);
        return found;
    }
};

Engine *made(const std::string &name, const char *pattern)
{
    if (name == "re2")
        return new Re2(pattern);
    if (name == "pcre2")
        return new Pcre2(pattern);
    return new Hyperscan(pattern);
}

#else

struct Hanneddois : Engine {
    hanneddois_regex regex = HANNEDDOIS_EMPTY;
    hanneddois_error error;
    explicit Hanneddois(const char *pattern)
    {
        hanneddois_options options = {};
        size_t length = strlen(pattern);
        if (hanneddois_new(&regex, reinterpret_cast<const uint8_t *>(pattern), length, &length, 1, &options, &error) != HANNEDDOIS_OK)
            stop("the library has no regex for a pattern");
    }
    ~Hanneddois() override { hanneddois_free(&regex); }
    size_t all(const std::string &text) override
    {
        size_t count = 0;
        if (hanneddois_find_all(&regex, reinterpret_cast<const uint8_t *>(text.data()), text.size(), nullptr, 0, &count, &error) > HANNEDDOIS_NONE)
            stop("the library failed");
        return count;
    }
    bool first(const std::string &text) override
    {
        hanneddois_match match;
        return hanneddois_find_at(&regex, reinterpret_cast<const uint8_t *>(text.data()), text.size(), 0, &match, &error) == HANNEDDOIS_OK;
    }
};

Engine *made(const std::string &, const char *pattern)
{
    return new Hanneddois(pattern);
}

#endif

}  // namespace

// literals all|first ENGINE ROUNDS FILE PATTERN: the count, and the least processor time of all rounds in ns, of a search of the file or
// of a call
int main(int argc, char **argv)
{
    if (argc != 6)
        stop("usage: literals all|first ENGINE ROUNDS FILE PATTERN");
    std::ifstream file(argv[4], std::ios::binary);
    std::string text((std::istreambuf_iterator<char>(file)), {});
    Engine *engine = made(argv[2], argv[5]);
    bool calls = !strcmp(argv[1], "first");
    double least = 1e18;
    size_t count = 0;
    for (int round = atoi(argv[3]); round > 0; round--) {
        double begun = now();
        if (calls) {
            count = 0;
            for (int call = 0; call < kCalls; call++)
                count += engine->first(text);
        } else {
            count = engine->all(text);
        }
        double took = (now() - begun) / (calls ? kCalls : 1);
        least = took < least ? took : least;
    }
    printf("%zu %.3f\n", calls ? count / kCalls : count, least * 1e9);
    delete engine;
    return 0;
}
