/* The tasks of bare.c through hanneddois.hpp. */
#include <cstdio>
#include <ctime>

#include "hanneddois.hpp"

static constexpr int calls = 20000, line_rounds = 100, list_rounds = 7;
static constexpr std::size_t list_bytes = std::size_t{16} << 20;
static constexpr std::string_view line = "user=ben id=42 failed now";
static constexpr std::string_view unit = "2018-12-24 08:02:44 WARN  disk /var at 91% of 40 GB\n";
static std::size_t sum; /* keeps results in use */

template <class Work>
static void measure(const char *task, int rounds, int each, const Work &work)
{
    double least = 1e18;
    for (int round = 0; round < rounds; round++) {
        const std::clock_t begun = std::clock();
        for (int call = 0; call < each; call++)
            sum += work();
        const double took = static_cast<double>(std::clock() - begun) * (1e9 / CLOCKS_PER_SEC);
        least = std::min(least, took / each);
    }
    std::printf("%s\t%.1f\n", task, least);
}

static void search_all(const char *task, const char *pattern, const hanneddois::options &options, std::string_view haystack)
{
    hanneddois::regex regex(pattern, options);
    measure(task, list_rounds, 1, [&] {
        std::size_t starts = 0;
        for (const hanneddois::match &found : regex.matches(haystack))
            starts += found.start();
        return starts;
    });
}

int main()
{
    std::string haystack;
    for (std::size_t i = 0; i < list_bytes; i++)
        haystack.push_back(unit[i % unit.size()]);
    hanneddois::regex regex("[0-9]+");
    measure("is_match", line_rounds, calls, [&] { return std::size_t{regex.is_match(line)}; });
    measure("find", line_rounds, calls, [&] { return regex.find(line)->end(); });
    search_all("dates", "[0-9]{4}-[0-9]{2}-[0-9]{2}", {}, haystack);
    search_all("words", "[A-Za-z]+", {}, haystack);
    search_all("dates, UTF-8", "[0-9]{4}-[0-9]{2}-[0-9]{2}", hanneddois::flag::utf8, haystack);
    return sum == 0;
}
