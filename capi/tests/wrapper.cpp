/* What the calls of hanneddois.hpp return: ./wrapper LISTS, the table that lists.py writes. Expected values are from that table, from the
   documentation of the Rust crate regex, or were written by hand. Prints nothing if all is well. */
#include "hanneddois.hpp"

#include <cstdlib>
#include <fstream>
#include <iostream>
#include <new>
#include <sstream>
#include <thread>
#if __has_include(<ranges>)
#include <ranges>
#endif

using hanneddois::failure;
using hanneddois::flag;
using hanneddois::match;
using hanneddois::match_groups;
using hanneddois::options;
using hanneddois::regex;
using hanneddois::status;
using namespace std::string_view_literals;

static int failed = 0;

#define CHECK(what)                                                         \
    do {                                                                    \
        if (!(what)) {                                                      \
            std::cout << "wrapper: line " << __LINE__ << ": " #what "\n";   \
            failed = 1;                                                     \
        }                                                                   \
    } while (0)

/* Whether the call throws an error, and what that has. */
#define CHECK_THROWS(call, what)                                            \
    do {                                                                    \
        bool has_thrown = false;                                            \
        try {                                                               \
            (void)(call);                                                   \
        } catch (const hanneddois::error &error) {                          \
            has_thrown = true;                                              \
            CHECK(what);                                                    \
        }                                                                   \
        CHECK(has_thrown);                                                  \
    } while (0)

using spans = std::vector<std::pair<std::size_t, std::size_t>>;

static spans spans_of(const std::vector<match> &matches)
{
    spans found;
    for (const match &each : matches)
        found.emplace_back(each.start(), each.end());
    return found;
}

static spans spans_of(regex &searched, std::string_view haystack)
{
    const auto range = searched.matches(haystack);
    return spans_of(std::vector<match>(range.begin(), range.end()));
}

/* Allocations by new fail once there were so many of them. */
static long allocations_left = -1;

static void *allocate(std::size_t size) noexcept
{
    if (allocations_left == 0)
        return nullptr;
    if (allocations_left > 0)
        allocations_left--;
    return std::malloc(size ? size : 1);
}

static void *allocate_or_throw(std::size_t size)
{
    if (void *block = allocate(size))
        return block;
    throw std::bad_alloc();
}

void *operator new(std::size_t size) { return allocate_or_throw(size); }
void *operator new[](std::size_t size) { return allocate_or_throw(size); }
void *operator new(std::size_t size, const std::nothrow_t &) noexcept { return allocate(size); }
void *operator new[](std::size_t size, const std::nothrow_t &) noexcept { return allocate(size); }
void operator delete(void *block) noexcept { std::free(block); }
void operator delete[](void *block) noexcept { std::free(block); }
void operator delete(void *block, std::size_t) noexcept { std::free(block); }
void operator delete[](void *block, std::size_t) noexcept { std::free(block); }

static std::string from_hex(const std::string &hex)
{
    std::string bytes;
    for (std::size_t i = 0; i < hex.size(); i += 2)
        bytes.push_back(static_cast<char>(std::stoi(hex.substr(i, 2), nullptr, 16)));
    return bytes;
}

static spans read_spans(const std::string &words)
{
    spans read;
    std::istringstream stream(words);
    std::size_t start, end;
    char dash;
    while (stream >> start >> dash >> end)
        read.emplace_back(start, end);
    return read;
}

static void lists_are_those_of_python(const char *path)
{
    std::ifstream table(path);
    std::string kind, pattern, hex, words;
    int count = 0;
    while (std::getline(table, kind, '\t') && std::getline(table, pattern, '\t') && std::getline(table, hex, '\t') &&
           std::getline(table, words)) {
        regex searched(pattern, kind == "utf8" ? flag::utf8 : flag::no_unicode);
        const std::string haystack = from_hex(hex);
        const spans wanted = read_spans(words);
        failure why;
        CHECK(spans_of(searched, haystack) == wanted);
        CHECK(spans_of(searched.find_all(haystack)) == wanted);
        CHECK(spans_of(searched.find_all(haystack, why)) == wanted && !why);
        CHECK(searched.is_match(haystack) == !wanted.empty());
        const std::optional<match> first = searched.find(haystack);
        CHECK(first.has_value() == !wanted.empty() && (!first || first->end() == wanted[0].second));
        count++;
    }
    CHECK(count > 1000);
}

static void a_match_has_its_bytes_and_offsets()
{
    regex searched("[0-9]{3}-[0-9]{3}-[0-9]{4}");
    const std::string haystack = "phone: 111-222-3333";
    const std::optional<match> found = searched.find(haystack);
    CHECK(found && found->start() == 7 && found->end() == 19 && found->size() == 12 && !found->empty());
    CHECK(found->view() == "111-222-3333" && found->pattern() == 0 && found->view().data() == haystack.data() + 7);
    CHECK(!searched.find("phone: none"));
    CHECK(searched.is_match(std::string("111-222-3333")));
    CHECK(match().empty() && match().end() == 0);
}

static void searches_from_an_offset_see_what_is_before_it()
{
    regex boundary("\\bchew\\b"), searched("^a|b");
    CHECK(!boundary.find("eschew", 2));
    CHECK(searched.find("aab", 1)->start() == 2 && !searched.find("aab", 3));
    CHECK_THROWS(searched.find("aab", 4), error.status() == status::bad_argument);
    failure why;
    CHECK(!searched.find("aab", 4, why) && why && why.status() == status::bad_argument);
    CHECK(searched.find("aab", 1, why)->start() == 2 && !why && why.status() == status::ok);
    CHECK(!searched.find("aab", 3, why) && !why && why.status() == status::none);
}

static void empty_matches_go_on()
{
    /* Of a lazy pattern each search finds the empty match first, and the next begins a byte later. */
    regex lazy("a*?"), nothing(""), characters("", flag::utf8);
    CHECK((spans_of(lazy, "aa") == spans{{0, 0}, {1, 1}, {2, 2}}));
    CHECK((spans_of(nothing, "\xe2\x98\x83") == spans{{0, 0}, {1, 1}, {2, 2}, {3, 3}}));
    CHECK((spans_of(characters, "\xe2\x98\x83") == spans{{0, 0}, {3, 3}}));
    /* A view without bytes may have no pointer. */
    CHECK((spans_of(nothing, std::string_view()) == spans{{0, 0}}));
    CHECK((spans_of(characters, std::string_view()) == spans{{0, 0}}));
    CHECK(regex(std::string_view()).is_match(std::string_view()));
}

static void a_haystack_may_be_any_bytes()
{
    regex bytes("(?-u)\\xff+"), any("(?s-u).");
    CHECK((spans_of(bytes, "\x00\xff\xff\x80\xff"sv) == spans{{1, 3}, {4, 5}}));
    std::string every;
    for (int byte = 0; byte < 256; byte++)
        every.push_back(static_cast<char>(byte));
    CHECK(any.find_all(every).size() == 256);
}

static void iterators_are_input_iterators()
{
    regex searched("[0-9]+");
    const auto range = searched.matches("7 and 42");
    auto at = range.begin();
    CHECK(at != range.end() && at->view() == "7" && (*at).start() == 0);
    CHECK(at++->view() == "7" && at->view() == "42");
    CHECK(++at == range.end() && hanneddois::match_iterator() == range.end());
    CHECK(range.begin() == range.begin() && std::distance(range.begin(), range.end()) == 2);
    static_assert(std::is_same_v<std::iterator_traits<hanneddois::match_iterator>::value_type, match>);
#if defined(__cpp_lib_ranges)
    static_assert(std::ranges::input_range<hanneddois::match_range>);
    CHECK(std::ranges::distance(range) == 2);
#endif
}

static void several_patterns_have_numbers()
{
    regex searched({"ab", "a", "cd"});
    std::vector<std::size_t> numbers;
    for (const match &found : searched.matches("cdxabaa"))
        numbers.push_back(found.pattern());
    CHECK((numbers == std::vector<std::size_t>{2, 0, 1, 1}));
    CHECK(searched.pattern_count() == 3);
    const std::vector<std::string> patterns = {"b+", "x", "ab", "^b", "$"};
    regex several(patterns.begin(), patterns.end(), flag::matching_patterns | flag::case_insensitive);
    CHECK((several.matching_patterns("aBBa") == std::vector<std::size_t>{0, 2, 4}));
    CHECK((regex{"b", "c"}.matching_patterns("aaa").empty()));
    const char *const words[] = {"a", "*"};
    CHECK_THROWS(regex(std::begin(words), std::end(words)), error.status() == status::syntax_error && error.pattern() == 1);
    CHECK_THROWS(regex(words, words), error.status() == status::bad_argument);
    failure why;
    CHECK(regex({"a", "b"}, {}, why).pattern_count() == 2 && !why);
    CHECK(regex(words, words + 2, {}, why).empty() && why.pattern() == 1);
}

static void groups_have_numbers_and_names()
{
    regex date("(?<year>[0-9]{4})-(?<month>[0-9]{2})|(x)");
    const std::string haystack = "on 2024-05 and x";
    const std::optional<match_groups> found = date.captures(haystack);
    CHECK(found && found->size() == 4 && found->start() == 3 && found->end() == 10 && found->pattern() == 0);
    CHECK(found->whole().view() == "2024-05" && found->view() == "2024-05" && (*found)[0]->view() == "2024-05");
    CHECK((*found)[1]->view() == "2024" && (*found)["month"]->start() == 8 && found->view("year") == "2024");
    CHECK((*found)[1]->view().data() == haystack.data() + 3);
    CHECK(!(*found)[3] && !(*found)[4] && !(*found)["day"] && !(*found)[""] && found->view(3).empty() && found->view("day").empty());
    CHECK(found->index("month") == std::size_t{2} && !found->index("") && !found->index("mont"));
    CHECK(date.captures(haystack, 4)->view(3) == "x" && !date.captures("none"));
    CHECK(date.group_count() == 4 && date.group_count(1) == 0);
    CHECK((date.group_names() == std::vector<std::string>{"", "year", "month", ""}) && date.group_names(1).empty());
    CHECK(!match_groups()[0] && match_groups().size() == 0 && !match_groups()["a"]);
    failure why;
    CHECK(date.captures(haystack, 4, why)->start() == 15 && !why);
    CHECK(!date.captures(haystack, 16, why) && !why && why.status() == status::none);
    CHECK(!date.captures(haystack, 17, why) && why.status() == status::bad_argument);
    CHECK(date.group_names(0, why).size() == 4 && !why);
    CHECK_THROWS(date.captures(haystack, 17), error.status() == status::bad_argument);
    /* What a match has stays when the regex is gone. */
    regex moved(std::move(date));
    date = regex("b");
    const std::optional<match_groups> kept = moved.captures(haystack);
    moved = regex();
    CHECK(kept->view("year") == "2024" && date.captures("abc")->size() == 1);
    /* The last round of a group, and the preferred end whatever loops consume. */
    CHECK(regex("(?:(a)|(b))*", flag::empty_loops).captures("abab")->view(1) == "a");
    CHECK(regex("(|a)+", flag::empty_loops | flag::groups).captures("aaa")->end() == 0);
    CHECK(regex("(?<\xc3\xa9t\xc3\xa9>.)", flag::utf8).captures("\xe2\x98\x83")->view("\xc3\xa9t\xc3\xa9") == "\xe2\x98\x83");
}

/* What is expected is what the crate regex 1.7.1 writes, or was written by hand. */
static void matches_are_replaced()
{
    regex date("(?<y>[0-9]{4})-([0-9]{2})");
    const std::string dates = "on 2024-05, 1999-12";
    CHECK(date.replace_all(dates, "$2/${y}") == "on 05/2024, 12/1999" && date.replace_all(dates, "$2/${y}", 1) == "on 05/2024, 1999-12");
    CHECK(date.replace_all(dates, "[$$$9$z$y$0]") == "on [$20242024-05], [$19991999-12]");
    CHECK(date.replace_all_literal(dates, "$2/${y}") == "on $2/${y}, $2/${y}");
    CHECK(date.replace_all("none", "$2") == "none" && date.replace_all("", "$2").empty() && regex("x*").replace_all("axb", "-") == "-a-b-");
    /* More room than was guessed. */
    const std::string many(1000, 'a');
    CHECK(regex("a").replace_all(many, "$0$0$0").size() == 3000 && regex("a").replace_all_literal(many, "bc", 2).substr(0, 5) == "bcbca");
    failure why;
    CHECK(date.replace_all(dates, "$2", 0, why) == "on 05, 12" && !why && date.replace_all_literal(dates, "$2", 1, why).substr(0, 5) == "on $2" && !why);
    CHECK(regex().replace_all(dates, "$2", 0, why).empty() && why.status() == status::bad_argument);
    regex text(".", flag::utf8);
    CHECK(text.replace_all("ab\xff", "-", 0, why).empty() && why.status() == status::haystack_not_utf8 && why.start() == 2);
    CHECK_THROWS(text.replace_all("\xff", "-"), error.status() == status::haystack_not_utf8);
}

static void captures_are_listed()
{
    regex pair("(?<key>[a-z]+)=(?<value>[a-z]*)"), nothing("(x?)"), text("(.)", flag::utf8);
    std::string keys;
    for (const match_groups &found : pair.captures_iter("a=b c= d"))
        keys += std::string(found.view("key")) + found["value"]->view().data()[0];
    CHECK(keys == "abc ");
    const auto range = nothing.captures_iter("axb");
    std::vector<std::size_t> starts;
    for (const match_groups &found : range)
        starts.push_back(found[1]->start());
    CHECK((starts == std::vector<std::size_t>{0, 1, 3}));
    CHECK(std::distance(range.begin(), range.end()) == 3 && range.begin() == range.begin());
    auto at = range.begin();
    CHECK(at++->start() == 0 && at->end() == 2 && (*++at).start() == 3 && ++at == range.end());
    std::string letters;
    for (const match_groups &found : text.captures_iter("a\xc3\xa9" "b"))
        letters += std::string(found.view(1)) + '.';
    CHECK(letters == "a.\xc3\xa9.b.");
    const std::string many(1000, 'x');
    regex each("(x)(y)?", flag::utf8);
    std::size_t count = 0;
    for (const match_groups &found : each.captures_iter(many))
        count += found[1]->start() == count && !found[2];
    CHECK(count == many.size());
    failure why;
    const auto broken = text.captures_iter("ab\xff", why);
    CHECK(!why && broken.begin() == broken.end() && why.status() == status::haystack_not_utf8 && why.start() == 2);
    CHECK_THROWS(text.captures_iter("ab\xff").begin(), error.status() == status::haystack_not_utf8);
    regex several({"(a)", "(b)(c)", "z"});
    std::string numbers;
    for (const match_groups &found : several.captures_iter("xbcaz"))
        numbers += std::to_string(found.pattern()) + std::to_string(found.size());
    CHECK(numbers == "130221");
    std::size_t from = 0;
    CHECK(pair.captures_next("a=b c= d", from, 1).front().view("key") == "a" && from == 3);
    CHECK(pair.captures_next("a=b c= d", from, 2).front().view("key") == "c" && from == 6);
    CHECK(pair.captures_next("a=b c= d", from, 2).empty() && from == 6);
    from = 0;
    const std::vector<match_groups> adjacent = nothing.captures_next("axb", from, 9);
    CHECK(adjacent.size() == 4 && adjacent[2].start() == 2 && adjacent[2].end() == 2 && adjacent[3].start() == 3 && from == 4);
    from = 0;
    CHECK(text.captures_next("ab\xff", from, 9, why).empty() && why.status() == status::haystack_not_utf8 && from == 0);
    CHECK_THROWS(text.captures_next("ab", from, 0), error.status() == status::bad_argument);
    static_assert(std::is_same_v<std::iterator_traits<hanneddois::captures_iterator>::value_type, match_groups>);
#if defined(__cpp_lib_ranges)
    static_assert(std::ranges::input_range<hanneddois::captures_range>);
#endif
}

static bool has(std::string_view pattern, const options &set, std::string_view haystack)
{
    return regex(pattern, set).is_match(haystack);
}

static void options_change_what_matches()
{
    CHECK(has("ab", flag::case_insensitive, "xAB") && !has("ab", {}, "xAB"));
    CHECK(has("^b", flag::multi_line, "a\nb") && !has("^b", {}, "a\nb"));
    CHECK(has("a.b", flag::dot_matches_new_line, "a\nb") && !has("a.b", {}, "a\nb"));
    CHECK(regex("a*", flag::swap_greed).find("aa")->empty());
    CHECK(has("a b # comment", flag::ignore_whitespace, "ab"));
    CHECK(has("^b", flag::multi_line | flag::crlf, "a\rb") && !has("^b", flag::multi_line, "a\rb"));
    CHECK(has("\\141", flag::octal, "a"));
    CHECK(regex("\\w+", flag::no_unicode).find("\xc3\xa9" "a")->start() == 2);
    CHECK(regex("(?:a*)*b", flag::empty_loops).find("aab")->end() == 3);
    for (const flag each : {flag::no_byte_classes, flag::shrink, flag::matching_patterns, flag::groups})
        CHECK(regex("[a-y]{3,9}z", each).find("abcdefgh ijklmnopqrz")->start() == 10);
    options least = flag::raise_capacity;
    least.capacity = 1;
    regex searched("[a-y]{3,9}z", least);
    for (int i = 0; i < 20; i++)
        CHECK(searched.find("abcdefgh ijklmnopqrz")->start() == 10);
    CHECK(searched.clear_count() > 0 && searched.memory_usage() > 0);
}

static void errors_say_where_and_why()
{
    CHECK_THROWS(regex("a(b"), error.status() == status::syntax_error && error.what() == "unclosed group"sv);
    CHECK_THROWS(regex("a(b"), error.pattern() == 0 && error.start() == 1 && error.end() == 2 && error.limit() == 0);
    CHECK_THROWS(regex("a(b"), error.why().message() == "unclosed group" && error.cause() == error.why().cause());
    CHECK_THROWS(regex("ab\xff"), error.status() == status::not_utf8 && error.start() == 2);
    CHECK_THROWS(regex("(a*)*"), error.status() == status::empty_loop);
    options limits;
    limits.nest_limit = 2;
    CHECK_THROWS(regex("(((a)))", limits), error.status() == status::nests_too_deep);
    limits = options();
    limits.size_limit = 100;
    CHECK_THROWS(regex("[a-z]{100}", limits), error.status() == status::too_large && error.limit() == 100);
    limits = options();
    limits.capacity = 1;
    CHECK_THROWS(regex("[a-z]+", limits), error.status() == status::capacity_too_small && error.limit() > 1);
    failure why;
    regex none("a(b", {}, why);
    CHECK(none.empty() && why && why.status() == status::syntax_error && why.start() == 1 && why.end() == 2);
    CHECK(why.message() == "unclosed group" && failure().message().empty() && !failure());
    char few[3];
    CHECK(why.write_message(few, sizeof few) == 14 && std::string_view(few, 3) == "unc");
    CHECK(!regex("a", {}, why).empty() && !why);
}

static void utf8_mode_rejects_other_haystacks()
{
    regex searched("b", flag::utf8);
    const std::string_view haystack = "ab\xff" "b";
    failure why;
    const auto is_reported = [](const failure &it) { return it.status() == status::haystack_not_utf8 && it.start() == 2; };
    CHECK_THROWS(searched.is_match(haystack), is_reported(error.why()));
    CHECK_THROWS(searched.find(haystack), is_reported(error.why()));
    CHECK_THROWS(searched.find_all(haystack), is_reported(error.why()));
    CHECK_THROWS(searched.matches(haystack).begin(), is_reported(error.why()));
    CHECK_THROWS(searched.matching_patterns(haystack), is_reported(error.why()));
    CHECK(!searched.is_match(haystack, why) && is_reported(why));
    CHECK(searched.find_all(haystack, why).empty() && is_reported(why));
    CHECK(searched.matching_patterns(haystack, why).empty() && is_reported(why));
    const auto range = searched.matches(haystack, why);
    CHECK(!why && range.begin() == range.end() && is_reported(why));
    const auto other = searched.matches("b\xc3\xa9" "b", why);
    CHECK(std::distance(other.begin(), other.end()) == 2 && !why);
}

static void an_empty_regex_fails()
{
    regex first("a"), second(std::move(first));
    CHECK(first.empty() && !second.empty() && second.is_match("a"));  // NOLINT(bugprone-use-after-move)
    CHECK_THROWS(first.is_match("a"), error.status() == status::bad_argument);
    CHECK_THROWS(first.matches("a").begin(), error.status() == status::bad_argument);
    CHECK_THROWS(first.matching_patterns("a"), error.status() == status::bad_argument);
    CHECK_THROWS(first.captures("a"), error.status() == status::bad_argument);
    CHECK(first.group_count() == 0 && first.group_names().empty());
    CHECK(first.pattern_count() == 0 && regex().empty());
    first = std::move(second);
    CHECK(second.empty() && first.is_match("a"));  // NOLINT(bugprone-use-after-move)
    regex &same = first;
    first = std::move(same);
    CHECK(first.is_match("a"));
    first = regex("b", flag::utf8);
    CHECK(first.is_match("b") && hanneddois_pattern_count(first.handle()) == 1);
}

static void a_clone_is_a_regex_of_its_own()
{
    options least = flag::raise_capacity | flag::utf8 | flag::case_insensitive;
    least.capacity = 1;
    regex searched("[a-y]{3,9}z", least);
    for (int i = 0; i < 20; i++)
        CHECK(searched.find("abcdefgh ijklmnopqrz")->start() == 10);
    regex copy = searched.clone();
    CHECK(searched.clear_count() > 0 && copy.clear_count() == 0 && copy.pattern_count() == 1);
    const auto range = copy.matches("abcZ defZ");
    CHECK(std::distance(range.begin(), range.end()) == 2);
    CHECK_THROWS(copy.is_match("\xff"), error.status() == status::haystack_not_utf8);
    searched = regex();
    failure why;
    CHECK(copy.clone(why).is_match("abcz") && !why);
    CHECK_THROWS(searched.clone(), error.status() == status::bad_argument);
    CHECK(searched.clone(why).empty() && why.status() == status::bad_argument);
}

static void different_regexes_serve_different_threads()
{
    std::vector<std::thread> threads;
    regex cloned("[a-z]+[0-9]");
    for (int i = 0; i < 4; i++)
        threads.emplace_back([searched = i % 2 ? cloned.clone() : regex("[a-z]+[0-9]")]() mutable {
            for (int round = 0; round < 200; round++)
                CHECK(searched.find("x ab1")->start() == 2);
        });
    for (std::thread &each : threads)
        each.join();
}

/* Each allocation of the wrapper itself fails in turn. The library's own are made by malloc. */
template <class Call>
static void survives_failed_allocations(const Call &call)
{
    for (long number = 0;; number++) {
        failure why;
        allocations_left = number;
        call(why);
        const bool is_spared = allocations_left > 0;
        allocations_left = -1;
        if (is_spared)
            return;
        CHECK(!why || why.status() == status::no_memory);
        CHECK(number > 0 || why);
    }
}

static void allocations_may_fail()
{
    regex searched({"[0-9]+ plus a long pattern", "[0-9]+"}), text("[0-9]+", flag::utf8), named("(?<digits>[0-9]+)");
    survives_failed_allocations([](failure &why) { regex("a pattern that is longer than a short string", {}, why); });
    survives_failed_allocations([&](failure &why) { searched.find_all("7 and 42", why); });
    survives_failed_allocations([&](failure &why) { searched.matching_patterns("7 and 42", why); });
    survives_failed_allocations([&](failure &why) { text.matches("7 and 42", why).begin(); });
    survives_failed_allocations([&](failure &why) { named.captures("7 and 42", 0, why); });
    survives_failed_allocations([&](failure &why) { searched.captures("7 and 42", 0, why); });
    survives_failed_allocations([&](failure &why) { searched.group_names(0, why); });
    survives_failed_allocations([&](failure &why) { text.captures_iter("7 and 42", why).begin(); });
    allocations_left = 0;
    CHECK_THROWS(searched.find_all("7"), error.status() == status::no_memory && error.what() == "out of memory"sv);
    allocations_left = -1;
}

/* The pairs of pattern and end, as "pattern:end ". */
static std::string text_of(const std::vector<hanneddois::stream_end> &ends)
{
    std::string reported;
    for (const hanneddois::stream_end &each : ends)
        reported += std::to_string(each.pattern) + ':' + std::to_string(each.end) + ' ';
    return reported;
}

static void streams_report_ends()
{
    hanneddois::stream_set set({"ab+", "(?-u:\\b)b", "$"});
    const std::string_view input = "xabb b";
    for (std::size_t i = 0; i <= input.size(); i++) {
        hanneddois::stream first = set.open();
        std::string reported = text_of(first.feed(input.substr(0, i)));
        hanneddois::stream second = first.clone();
        first.feed("zab");
        first.reset();
        CHECK(first.position() == 0 && second.position() == i);
        second.feed_each(input.substr(i), [&](const hanneddois::stream_end &each) { reported += text_of({each}); });
        reported += text_of(second.close());
        CHECK(reported == "0:3 0:4 1:6 2:6 " && second.position() == input.size());
        CHECK_THROWS(second.feed("a"), error.status() == status::closed);
        CHECK_THROWS(second.close(), error.status() == status::closed);
        CHECK(text_of(first.feed("ab")).empty() && text_of(first.close()) == "0:2 2:2 ");
    }
    hanneddois::stream kept;
    {
        hanneddois::stream_set shorter("a+");
        kept = shorter.open();
        CHECK(shorter.memory_usage() > 0 && !shorter.empty());
    }
    CHECK(text_of(kept.feed("aab")) == "0:1 0:2 " && text_of(kept.close()).empty());
    kept.reset();
    CHECK(kept.feed(std::string(3000, 'a')).size() == 2999 && kept.position() == 3000);
}

static void streams_of_lines()
{
    hanneddois::stream_set set({"^b", "b$"}, flag::stream_lines);
    const std::string_view input = "b\nab\n\nb";
    for (std::size_t i = 0; i <= input.size(); i++) {
        hanneddois::stream first = set.open();
        std::string reported = text_of(first.feed(input.substr(0, i)));
        hanneddois::stream second = first.clone();
        first.feed("b\n");
        reported += text_of(second.feed(input.substr(i)));
        reported += text_of(second.close());
        CHECK(reported == "0:1 1:1 1:4 0:7 1:7 " && second.position() == input.size());
    }
}

static void streams_may_fail()
{
    CHECK_THROWS(hanneddois::stream_set("a\\bb"), error.status() == status::word_boundary && error.pattern() == 0);
    CHECK_THROWS(hanneddois::stream_set({"a", "("}), error.status() == status::syntax_error && error.pattern() == 1);
    CHECK(!hanneddois::stream_set("a\\bb", flag::no_unicode).empty());
    hanneddois::stream_set none, set("a+b");
    hanneddois::stream nothing, opened = set.open();
    failure reason;
    CHECK_THROWS(none.open(), error.status() == status::bad_argument);
    CHECK_THROWS(nothing.feed("a"), error.status() == status::bad_argument);
    CHECK(nothing.close(reason).empty() && reason.status() == status::bad_argument);
    CHECK(nothing.clone(reason).position() == 0 && reason.status() == status::bad_argument);
    survives_failed_allocations([](failure &why) { hanneddois::stream_set("a pattern that is longer than a short string", {}, why); });
    survives_failed_allocations([&](failure &why) {
        opened.reset();
        opened.feed("aab aab ", why);
    });
    survives_failed_allocations([&](failure &why) {
        opened.reset();
        opened.close(why);
    });
}

int main(int argc, char **argv)
{
    if (argc != 2) {
        std::cerr << "usage: wrapper LISTS\n";
        return 2;
    }
    lists_are_those_of_python(argv[1]);
    a_match_has_its_bytes_and_offsets();
    searches_from_an_offset_see_what_is_before_it();
    empty_matches_go_on();
    a_haystack_may_be_any_bytes();
    iterators_are_input_iterators();
    several_patterns_have_numbers();
    groups_have_numbers_and_names();
    matches_are_replaced();
    captures_are_listed();
    options_change_what_matches();
    errors_say_where_and_why();
    utf8_mode_rejects_other_haystacks();
    an_empty_regex_fails();
    a_clone_is_a_regex_of_its_own();
    different_regexes_serve_different_threads();
    allocations_may_fail();
    streams_report_ends();
    streams_of_lines();
    streams_may_fail();
    CHECK(hanneddois::version() == HANNEDDOIS_VERSION);
    return failed;
}
