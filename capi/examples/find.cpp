/* Prints the offsets of all matches of a pattern in standard input: ./find PATTERN < FILE */
#include <iostream>
#include <iterator>
#include <string>

#include "hanneddois.hpp"

static int report(const std::string &pattern, const hanneddois::error &error)
{
    std::cerr << "find: " << error.what() << '\n';
    if (error.status() == hanneddois::status::syntax_error)
        std::cerr << "    " << pattern << "\n    " << std::string(error.start(), ' ') << "^\n";
    return 2;
}

int main(int argc, char **argv)
{
    if (argc != 2) {
        std::cerr << "usage: find PATTERN < FILE\n";
        return 2;
    }
    const std::string pattern = argv[1];
    const std::string haystack(std::istreambuf_iterator<char>(std::cin), {});
    bool has_match = false;
    try {
        hanneddois::regex regex(pattern);
        for (const hanneddois::match &found : regex.matches(haystack)) {
            std::cout << found.start() << ' ' << found.end() << '\n';
            has_match = true;
        }
    } catch (const hanneddois::error &error) {
        return report(pattern, error);
    }
    return has_match ? 0 : 1;
}
