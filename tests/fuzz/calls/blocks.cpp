#include "blocks.hpp"

#include <algorithm>
#include <csignal>
#include <cstdio>
#include <cstdlib>
#include <cstring>
#include <sys/mman.h>
#include <ucontext.h>
#include <unistd.h>

#include "hanneddois.h"

namespace fuzz {
namespace {

struct Start {
    uint32_t at;
    bool is_function;
};

struct Named {
    const char *name;
    uint32_t start, end;
};

#define ORIGIN(AT) constexpr uint32_t ORIGIN_AT = AT;
#define CALL(NAME, START, END)
#define BLOCK(AT, IS_FUNCTION)
#include "blocks.inc"
#undef ORIGIN
#undef CALL

#define ORIGIN(AT)
#define CALL(NAME, START, END) {NAME, START, END},
const Named CALLS[] = {
#include "blocks.inc"
};
#undef CALL
#undef BLOCK

#define CALL(NAME, START, END)
#define BLOCK(AT, IS_FUNCTION) {AT, IS_FUNCTION},
const Start STARTS[] = {
#include "blocks.inc"
};

constexpr size_t COUNT = sizeof STARTS / sizeof *STARTS;
constexpr size_t NOTES = 4096;
constexpr uint8_t BREAKPOINT = 0xCC;

bool reached[COUNT];
uint8_t kept[COUNT]; // the bytes that breakpoints replace

__attribute__((section("__libfuzzer_extra_counters"))) uint8_t counters[COUNT + NOTES];

uint8_t *base() { return reinterpret_cast<uint8_t *>(&hanneddois_version) - ORIGIN_AT; }

void hit(int, siginfo_t *, void *given) {
    ucontext_t *context = static_cast<ucontext_t *>(given);
    uint8_t *at = reinterpret_cast<uint8_t *>(context->uc_mcontext.gregs[REG_RIP]) - 1;
    uint32_t offset = static_cast<uint32_t>(at - base());
    const Start *found = std::lower_bound(STARTS, STARTS + COUNT, offset, [](const Start &it, uint32_t wanted) { return it.at < wanted; });
    if (found == STARTS + COUNT || found->at != offset)
        _exit(99); // a trap of something else
    size_t number = static_cast<size_t>(found - STARTS);
    *at = kept[number];
    reached[number] = true;
    counters[number] = 1;
    context->uc_mcontext.gregs[REG_RIP] -= 1;
}

template <typename Counts> void print_share(const char *what, Counts counts) {
    size_t all = 0, some = 0;
    for (size_t it = 0; it < COUNT; ++it) {
        if (!counts(STARTS[it]))
            continue;
        ++all;
        some += reached[it];
    }
    fprintf(stderr, "reached: %s: %zu of %zu\n", what, some, all);
}

void print_reached() {
    print_share("blocks", [](const Start &) { return true; });
    print_share("functions", [](const Start &it) { return it.is_function; });
    for (const Named &call : CALLS)
        print_share(call.name, [&](const Start &it) { return call.start <= it.at && it.at < call.end; });
    const char *path = getenv("UNREACHED");
    FILE *file = path ? fopen(path, "w") : nullptr;
    for (size_t it = 0; file && it < COUNT; ++it)
        if (!reached[it])
            fprintf(file, "%x\n", STARTS[it].at);
    if (file)
        fclose(file);
}

} // namespace

void watch_blocks() {
    size_t page = static_cast<size_t>(sysconf(_SC_PAGESIZE));
    uintptr_t start = reinterpret_cast<uintptr_t>(base()) / page * page;
    uintptr_t end = reinterpret_cast<uintptr_t>(base()) + STARTS[COUNT - 1].at + page;
    if (mprotect(reinterpret_cast<void *>(start), end - start, PROT_READ | PROT_WRITE | PROT_EXEC) != 0) {
        fprintf(stderr, "fuzz: the library can't be watched\n");
        exit(2);
    }
    struct sigaction action = {};
    action.sa_sigaction = hit;
    action.sa_flags = SA_SIGINFO | SA_NODEFER;
    sigaction(SIGTRAP, &action, nullptr);
    for (size_t it = 0; it < COUNT; ++it) {
        kept[it] = base()[STARTS[it].at];
        base()[STARTS[it].at] = BREAKPOINT;
    }
    atexit(print_reached);
}

void note(uint32_t what, uint32_t how) { counters[COUNT + (what * 31 + how) % NOTES] = 1; }

} // namespace fuzz
