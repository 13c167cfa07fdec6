// Counts in a file by RE2: hostile_re2 lines|matches PATTERN_FILE FILE, the lines in which the pattern matches, or the matches in its lines
// that aren't empty. The options are RE2's defaults, among them its limit of memory. If RE2 rejects the pattern, it prints why, and the
// status is 2.
#include <re2/re2.h>

#include <fstream>
#include <iostream>
#include <sstream>
#include <string>

// Takes a line to a number.
using Counter = size_t (*)(const RE2&, const std::string&);

static std::string content_of(const char* path) {
    std::ifstream file(path, std::ios::binary);
    std::ostringstream text;
    text << file.rdbuf();
    return text.str();
}

static size_t count_match(const RE2& regex, const std::string& line) {
    return RE2::PartialMatch(line, regex);
}

static size_t count_matches(const RE2& regex, const std::string& line) {
    size_t count = 0, at = 0;
    re2::StringPiece found;
    while (at <= line.size() && regex.Match(line, at, line.size(), RE2::UNANCHORED, &found, 1)) {
        count += !found.empty();
        at = found.data() - line.data() + found.size() + found.empty();
    }
    return count;
}

static size_t sum_of_lines(const RE2& regex, const std::string& text, Counter count_of) {
    size_t count = 0;
    std::istringstream lines(text);
    for (std::string line; std::getline(lines, line);)
        count += count_of(regex, line);
    return count;
}

int main(int argc, char** argv) {
    if (argc != 4)
        return 2;
    RE2::Options options;
    options.set_log_errors(false);
    const RE2 regex(content_of(argv[2]), options);
    if (!regex.ok()) {
        std::cerr << regex.error().substr(0, 200) << "\n";
        return 2;
    }
    std::cout << sum_of_lines(regex, content_of(argv[3]), std::string(argv[1]) == "lines" ? count_match : count_matches) << "\n";
}
