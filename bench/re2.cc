// Counts the leftmost-first matches of patterns in a file: re2 latin1|utf8 FILE PATTERN..
// Of several patterns each is a group of one alternation, so that a match tells its pattern, as in the program's lines.
#include <re2/re2.h>

#include <fstream>
#include <iostream>
#include <string>
#include <vector>

static RE2::Options options_of(const std::string& encoding) {
    RE2::Options options;
    options.set_encoding(encoding == "utf8" ? RE2::Options::EncodingUTF8 : RE2::Options::EncodingLatin1);
    return options;
}

static std::string alternation_of(const std::vector<std::string>& patterns) {
    if (patterns.size() == 1) return patterns[0];
    std::string text;
    for (const std::string& pattern : patterns) text += (text.empty() ? "(" : "|(") + pattern + ")";
    return text;
}

static size_t count_matches(const RE2& regex, const re2::StringPiece& text) {
    std::vector<re2::StringPiece> groups(1 + regex.NumberOfCapturingGroups());
    size_t count = 0, place = 0;
    while (place <= text.size() && regex.Match(text, place, text.size(), RE2::UNANCHORED, groups.data(), groups.size())) {
        count += 1;
        place = groups[0].data() - text.data() + groups[0].size() + groups[0].empty();
    }
    return count;
}

int main(int argc, char** argv) {
    if (argc < 4) return 2;
    std::ifstream file(argv[2], std::ios::binary | std::ios::ate);
    std::string text(file ? static_cast<size_t>(file.tellg()) : 0, '\0');
    file.seekg(0);
    if (!file.read(&text[0], text.size())) return 2;
    const RE2 regex(alternation_of({argv + 3, argv + argc}), options_of(argv[1]));
    if (!regex.ok()) return 2;
    std::cout << count_matches(regex, text) << "\n";
}
