// Times streams of the library for C next to Hyperscan's streaming mode: streams TEXT ROUNDS
//
// The same bytes are searched in one piece, in pieces of 64 KiB, 1500 and 64 bytes, by one stream and by 1000 in turn, for 1, 10 and 100
// patterns. Each round times all of these once, one after the other, so a round is as loaded as the next; the least time of each is reported.
// Both engines report the ends of all matches, and have to report as many.
#include <hs/hs.h>

#include <algorithm>
#include <chrono>
#include <cstdio>
#include <cstdlib>
#include <fstream>
#include <iterator>
#include <string>
#include <vector>

#include "hanneddois.h"

static void need(bool is_right, const char *what)
{
    if (!is_right) {
        fprintf(stderr, "bench/streams: %s\n", what);
        exit(1);
    }
}

// Patterns of which a log has some matches, and many that it hardly has.
static std::vector<std::string> patterns_of(size_t count)
{
    std::vector<std::string> patterns = {"ERROR [a-z:]+", "user=[0-9]+ id=[0-9a-f]{8}", "[0-9]{2}:[0-9]{2}:59", "ms=[0-9]{3,}", "retried (lease|token)",
                                         "path=/[a-z]+/7", "db::pool: dropped", "T2[0-3]:", "WARN +mail", "served object .*ms=1"};
    while (patterns.size() < count)
        patterns.push_back("id=" + std::to_string(10000 + 7919 * patterns.size() % 90000) + "[0-9a-f]{3}");
    patterns.resize(count);
    return patterns;
}

using seconds = std::chrono::duration<double>;

static double now()
{
    return seconds(std::chrono::steady_clock::now().time_since_epoch()).count();
}

// The pieces of the text, dealt to streams in turn.
template <class Feed>
static void deal(const std::string &text, size_t piece, size_t streams, Feed &&feed)
{
    size_t stream = 0;
    for (size_t at = 0; at < text.size(); at += piece) {
        feed(stream, text.data() + at, std::min(piece, text.size() - at));
        stream = stream + 1 == streams ? 0 : stream + 1;
    }
}

struct Ours {
    hanneddois_streams set = HANNEDDOIS_EMPTY;
    hanneddois_error error;
    std::vector<hanneddois_end> rows{4096};

    explicit Ours(const std::vector<std::string> &patterns)
    {
        std::string texts;
        std::vector<size_t> lengths;
        for (const std::string &each : patterns) {
            texts += each;
            lengths.push_back(each.size());
        }
        hanneddois_options options = {};
        options.flags = HANNEDDOIS_NO_UNICODE;
        options.capacity = 64 << 20;
        need(hanneddois_streams_new(&set, (const uint8_t *)texts.data(), texts.size(), lengths.data(), lengths.size(), &options, &error) ==
                 HANNEDDOIS_OK, "no streams");
    }
    ~Ours() { hanneddois_streams_free(&set); }

    size_t search(const std::string &text, size_t piece, size_t streams)
    {
        std::vector<size_t> numbers(streams);
        for (size_t &each : numbers)
            need(hanneddois_stream_new(&set, &each) == HANNEDDOIS_OK, "no stream");
        size_t found = 0, taken, count;
        deal(text, piece, streams, [&](size_t stream, const char *bytes, size_t length) {
            for (; length > 0; bytes += taken, length -= taken) {
                need(hanneddois_stream_feed(&set, numbers[stream], (const uint8_t *)bytes, length, rows.data(), rows.size(), &taken, &count, &error) ==
                         HANNEDDOIS_OK, "not fed");
                found += count;
            }
        });
        for (size_t each : numbers) {
            need(hanneddois_stream_close(&set, each, rows.data(), rows.size(), &count, &error) == HANNEDDOIS_OK, "not closed");
            found += count;
            hanneddois_stream_free(&set, each);
        }
        return found;
    }
};

struct Theirs {
    hs_database_t *database = nullptr;
    hs_scratch_t *scratch = nullptr;

    explicit Theirs(const std::vector<std::string> &patterns)
    {
        std::vector<const char *> texts;
        std::vector<unsigned> flags(patterns.size(), 0), ids;
        for (const std::string &each : patterns) {
            ids.push_back((unsigned)texts.size());
            texts.push_back(each.c_str());
        }
        hs_compile_error_t *why = nullptr;
        need(hs_compile_multi(texts.data(), flags.data(), ids.data(), (unsigned)texts.size(), HS_MODE_STREAM, nullptr, &database, &why) == HS_SUCCESS,
             "Hyperscan rejects a pattern");
        need(hs_alloc_scratch(database, &scratch) == HS_SUCCESS, "no scratch");
    }
    ~Theirs()
    {
        hs_free_scratch(scratch);
        hs_free_database(database);
    }

    static int count_one(unsigned, unsigned long long, unsigned long long, unsigned, void *found)
    {
        ++*(size_t *)found;
        return 0;
    }

    size_t search(const std::string &text, size_t piece, size_t streams)
    {
        std::vector<hs_stream_t *> opened(streams);
        size_t found = 0;
        for (hs_stream_t *&each : opened)
            need(hs_open_stream(database, 0, &each) == HS_SUCCESS, "no stream of Hyperscan");
        deal(text, piece, streams, [&](size_t stream, const char *bytes, size_t length) {
            hs_scan_stream(opened[stream], bytes, (unsigned)length, 0, scratch, count_one, &found);
        });
        for (hs_stream_t *each : opened)
            hs_close_stream(each, scratch, count_one, &found);
        return found;
    }
};

struct Case {
    size_t piece, streams;
};

template <class Engine>
static double timed(Engine &engine, const std::string &text, const Case &each, size_t &found)
{
    const double begin = now();
    found = engine.search(text, each.piece, each.streams);
    return now() - begin;
}

static void compare(const std::string &text, size_t count, size_t rounds)
{
    const std::vector<std::string> patterns = patterns_of(count);
    Ours ours(patterns);
    Theirs theirs(patterns);
    const std::vector<Case> cases = {{text.size(), 1}, {65536, 1}, {1500, 1}, {64, 1}, {65536, 1000}, {1500, 1000}, {64, 1000}};
    std::vector<double> least(cases.size(), 1e9), their_least(cases.size(), 1e9);
    std::vector<size_t> found(cases.size()), their_found(cases.size());
    for (size_t round = 0; round < rounds; round++)
        for (size_t i = 0; i < cases.size(); i++) {
            least[i] = std::min(least[i], timed(ours, text, cases[i], found[i]));
            their_least[i] = std::min(their_least[i], timed(theirs, text, cases[i], their_found[i]));
        }
    for (size_t i = 0; i < cases.size(); i++) {
        const double bytes = (double)text.size();
        if (found[i] != their_found[i])
            fprintf(stderr, "bench/streams: %zu ends here, and %zu of Hyperscan\n", found[i], their_found[i]);
        printf("| %zu | %s | %zu | %zu | %.2f | %.2f | %.2f | %.2f |\n", count, i ? std::to_string(cases[i].piece).c_str() : "all", cases[i].streams,
               found[i], least[i] / bytes * 1e9, least[i] / least[0], their_least[i] / bytes * 1e9, least[i] / their_least[i]);
        fflush(stdout);
    }
}

int main(int argc, char **argv)
{
    need(argc == 3, "usage: streams TEXT ROUNDS");
    std::ifstream file(argv[1], std::ios::binary);
    const std::string text((std::istreambuf_iterator<char>(file)), std::istreambuf_iterator<char>());
    need(!text.empty(), "no text");
    printf("| Patterns | Piece, bytes | Streams | Ends | ns a byte | / all at once | Hyperscan, ns a byte | / Hyperscan |\n|---|---|---|---|---|---|---|---|\n");
    for (size_t count : {1, 10, 100})
        compare(text, count, (size_t)atoi(argv[2]));
    return 0;
}
