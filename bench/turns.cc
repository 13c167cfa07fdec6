// Times the stack, as the static library of exports/, beside RE2 and the Rust crate regex in one process, in turn over the same bytes:
//
//     turns ROUNDS HEADS TASK=TEXT..
//
// prints a row of a Markdown table for each task. The crate comes twice as a shared library of crate/ that stands beside this
// program, by its lazy DFA alone (crate_dfa.so) and as it comes, with its search for literals (crate.so); where one lacks, its
// columns are empty. Times are the thread's processor time in ns a byte. All have to find as many matches,
// with the same sums of starts and ends, and where groups tell them, of patterns.
#include <dlfcn.h>
#include <re2/re2.h>
#include <time.h>

#include <algorithm>
#include <cstdint>
#include <cstdio>
#include <cstdlib>
#include <filesystem>
#include <fstream>
#include <functional>
#include <iterator>
#include <memory>
#include <string>
#include <vector>

struct Totals {
    uint64_t matches = 0, patterns = 0, starts = 0, ends = 0;
};

extern "C" uint32_t stack_matches(const uint8_t* head, size_t head_len, const uint8_t* text, size_t text_len, Totals* totals);
extern "C" uint32_t stack_ends(const uint8_t* head, size_t head_len, const uint8_t* text, size_t text_len, Totals* totals);

typedef decltype(&stack_matches) Call;

[[noreturn]] static void fail(const std::string& why) {
    fprintf(stderr, "turns: %s\n", why.c_str());
    exit(1);
}

static std::string contents(const std::string& path) {
    std::ifstream file(path, std::ios::binary);
    if (!file) fail("can't read " + path);
    return std::string(std::istreambuf_iterator<char>(file), std::istreambuf_iterator<char>());
}

static std::vector<std::string> lines_of(const std::string& path) {
    std::ifstream file(path);
    std::vector<std::string> lines;
    for (std::string line; std::getline(file, line);) lines.push_back(line);
    if (lines.empty()) fail("no patterns in " + path);
    return lines;
}

static double now() {
    timespec time;
    clock_gettime(CLOCK_THREAD_CPUTIME_ID, &time);
    return time.tv_sec * 1e9 + time.tv_nsec;
}

static Totals by_stack(Call call, const std::string& head, const std::string& text) {
    Totals totals;
    const uint8_t* begin = reinterpret_cast<const uint8_t*>(text.data());
    uint32_t outcome = call(reinterpret_cast<const uint8_t*>(head.data()), head.size(), begin, text.size(), &totals);
    if (outcome != 0) fail("the stack refuses a search by " + std::to_string(outcome));
    return totals;
}

// The patterns as one regex; with groups each is a group of its own, so that a match tells its pattern.
static std::unique_ptr<RE2> regex_of(const std::vector<std::string>& patterns, bool groups) {
    RE2::Options options;
    std::string text;
    bool ascii = true;
    for (const std::string& pattern : patterns) {
        for (char c : pattern) ascii &= static_cast<unsigned char>(c) < 128;
        if (!text.empty()) text += "|";
        text += patterns.size() == 1 ? pattern : (groups ? "(" : "(?:") + pattern + ")";
    }
    options.set_encoding(ascii ? RE2::Options::EncodingLatin1 : RE2::Options::EncodingUTF8);
    std::unique_ptr<RE2> regex(new RE2(text, options));
    if (!regex->ok()) fail("RE2 refuses a pattern");
    return regex;
}

static size_t pattern_of(const std::vector<re2::StringPiece>& groups) {
    for (size_t k = 1; k < groups.size(); k++)
        if (groups[k].data() != nullptr) return k - 1;
    return 0;
}

static Totals by_re2(const RE2& regex, const std::string& text) {
    std::vector<re2::StringPiece> groups(1 + regex.NumberOfCapturingGroups());
    Totals totals;
    size_t place = 0;
    while (place <= text.size() && regex.Match(text, place, text.size(), RE2::UNANCHORED, groups.data(), groups.size())) {
        size_t start = groups[0].data() - text.data();
        totals.matches += 1;
        totals.patterns += pattern_of(groups);
        totals.starts += start;
        totals.ends += start + groups[0].size();
        place = start + groups[0].size() + groups[0].empty();
    }
    return totals;
}

// A shared library of the crate regex.
struct Crate {
    void* (*regex)(const uint8_t*, size_t, bool) = nullptr;
    void (*free)(void*) = nullptr;
    void (*matches)(const void*, const uint8_t*, size_t, Totals*) = nullptr;
};

static Crate crate_at(const std::string& path) {
    Crate found;
    void* library = dlopen(std::filesystem::absolute(path).c_str(), RTLD_NOW | RTLD_LOCAL);
    if (library == nullptr) return found;
    found.regex = reinterpret_cast<decltype(found.regex)>(dlsym(library, "crate_regex"));
    found.free = reinterpret_cast<decltype(found.free)>(dlsym(library, "crate_free"));
    found.matches = reinterpret_cast<decltype(found.matches)>(dlsym(library, "crate_matches"));
    if (!found.regex || !found.free || !found.matches) fail(path + " isn't the library of crate/");
    return found;
}

static std::shared_ptr<void> regex_by_crate(const Crate& crate, const std::vector<std::string>& patterns) {
    std::string text;
    bool ascii = true;
    for (const std::string& pattern : patterns) {
        for (char c : pattern) ascii &= static_cast<unsigned char>(c) < 128;
        text += (text.empty() ? "" : "|") + (patterns.size() == 1 ? pattern : "(?:" + pattern + ")");
    }
    void* regex = crate.regex(reinterpret_cast<const uint8_t*>(text.data()), text.size(), !ascii);
    if (regex == nullptr) fail("the crate refuses a pattern");
    return std::shared_ptr<void>(regex, crate.free);
}

static Totals by_crate(const Crate& crate, const void* regex, const std::string& text) {
    Totals totals;
    crate.matches(regex, reinterpret_cast<const uint8_t*>(text.data()), text.size(), &totals);
    return totals;
}

// One that takes turns: what it is called, what it does, and which of the sums it tells.
struct Turn {
    std::string name;
    std::function<Totals()> call;
    bool tells_starts, tells_patterns;
    std::vector<double> times;
};

static void check(const Turn& turn, const Totals& wanted, const Totals& found) {
    bool same = wanted.matches == found.matches && wanted.ends == found.ends;
    if (turn.tells_starts) same = same && wanted.starts == found.starts;
    if (turn.tells_patterns) same = same && wanted.patterns == found.patterns;
    if (!same) fail(turn.name + " finds other matches");
}

static std::string time_text(Turn& turn, size_t bytes) {
    char text[64];
    std::sort(turn.times.begin(), turn.times.end());
    snprintf(text, sizeof text, "%.2f (%.2f)", turn.times.front() / bytes, turn.times[turn.times.size() / 2] / bytes);
    return text;
}

static std::string ratio_text(const Turn& ours, const Turn& other) {
    char text[32];
    snprintf(text, sizeof text, "%.2f", ours.times.front() / other.times.front());
    return text;
}

static double least_build(const std::string& head, int rounds) {
    double least = 0;
    for (int round = 0; round < rounds; round++) {
        double begun = now();
        by_stack(stack_matches, head, "");
        double time = now() - begun;
        least = round == 0 ? time : std::min(least, time);
    }
    return least;
}

// The cells of a row: times by the name of who took them, where he took turns.
static std::string time_of(std::vector<Turn>& turns, const std::string& name, size_t bytes) {
    for (Turn& turn : turns)
        if (turn.name == name) return time_text(turn, bytes);
    return "";
}

static std::string ratio_to(const std::vector<Turn>& turns, const std::string& name) {
    for (const Turn& turn : turns)
        if (turn.name == name) return ratio_text(turns[0], turn);
    return "";
}

static const char* const OTHERS[] = {"RE2", "RE2, groups", "crate, lazy DFA", "crate"};

static void run_task(const std::string& heads, const std::string& task, const std::string& path, const Crate& lazy, const Crate& crate, int rounds) {
    const std::string head = contents(heads + "/" + task), text = contents(path);
    const std::vector<std::string> patterns = lines_of(heads + "/" + task + ".patterns");
    const bool several = patterns.size() > 1;
    std::unique_ptr<RE2> plain = regex_of(patterns, false), grouped = regex_of(patterns, true);
    std::shared_ptr<void> by_lazy, by_literals;
    std::vector<Turn> turns;
    turns.push_back({"the stack", [&] { return by_stack(stack_matches, head, text); }, true, true, {}});
    turns.push_back({"ends alone", [&] { return by_stack(stack_ends, head, text); }, false, true, {}});
    turns.push_back({"RE2", [&] { return by_re2(*plain, text); }, true, !several, {}});
    if (several) turns.push_back({"RE2, groups", [&] { return by_re2(*grouped, text); }, true, true, {}});
    if (lazy.matches) {
        by_lazy = regex_by_crate(lazy, patterns);
        turns.push_back({"crate, lazy DFA", [&] { return by_crate(lazy, by_lazy.get(), text); }, true, false, {}});
    }
    if (crate.matches) {
        by_literals = regex_by_crate(crate, patterns);
        turns.push_back({"crate", [&] { return by_crate(crate, by_literals.get(), text); }, true, false, {}});
    }
    const Totals wanted = turns[0].call();
    for (int round = 0; round < rounds; round++) {
        for (Turn& turn : turns) {
            double begun = now();
            Totals found = turn.call();
            turn.times.push_back(now() - begun);
            check(turn, wanted, found);
        }
    }
    const double build = least_build(head, rounds);
    std::vector<std::string> cells = {task, std::to_string(wanted.matches), std::to_string(static_cast<int>(build / 1e3))};
    cells.push_back(time_of(turns, "the stack", text.size())); // which sorts its times
    char each[32] = "";
    if (wanted.matches > 0) snprintf(each, sizeof each, "%.0f", turns[0].times.front() / wanted.matches);
    cells.push_back(each);
    cells.push_back(time_of(turns, "ends alone", text.size()));
    for (const char* other : OTHERS) cells.push_back(time_of(turns, other, text.size()));
    for (const char* other : OTHERS) cells.push_back(ratio_to(turns, other));
    for (const std::string& cell : cells) printf("| %s ", cell.c_str());
    puts("|");
    fflush(stdout);
}

int main(int argc, char** argv) {
    if (argc < 4) fail("turns ROUNDS HEADS TASK=TEXT..");
    const int rounds = std::max(1, atoi(argv[1]));
    const std::string program = argv[0];
    const std::string folder = program.substr(0, program.find_last_of('/') + 1);
    const Crate lazy = crate_at(folder + "crate_dfa.so"), crate = crate_at(folder + "crate.so");
    puts("| Task | Matches | Build, us | Stack | ns a match | Ends alone | RE2 | RE2, groups | Crate, lazy DFA | Crate | / RE2 | / groups | / lazy DFA | / crate |");
    puts("|---|---|---|---|---|---|---|---|---|---|---|---|---|---|");
    for (int k = 3; k < argc; k++) {
        const std::string word = argv[k];
        const size_t cut = word.find('=');
        if (cut == std::string::npos) fail("no text for " + word);
        run_task(argv[2], word.substr(0, cut), word.substr(cut + 1), lazy, crate, rounds);
    }
}
