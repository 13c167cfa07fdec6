#include "memory.hpp"

#include <cerrno>
#include <cstdio>
#include <cstdlib>
#include <cstring>
#include <sys/mman.h>
#include <unordered_map>

extern "C" {
void *__real_malloc(size_t);
void *__real_realloc(void *, size_t);
void __real_free(void *);
void *__wrap_malloc(size_t);
void *__wrap_realloc(void *, size_t);
void __wrap_free(void *);
}

namespace fuzz {
namespace {

constexpr size_t PAGE = 4096;
constexpr size_t ALIGN = 16;
constexpr uint8_t SLACK = 0xA5;
constexpr size_t MOST_FENCED = 20000; // the system limits the number of mappings
constexpr size_t NEVER = SIZE_MAX;

struct Block {
    uint8_t *mapped; // none without a fence
    size_t length, size;
};

size_t failing = NEVER;
bool has_failed, fails_on, fences_on;

std::unordered_map<void *, Block> &blocks() {
    static auto *all = new std::unordered_map<void *, Block>;
    return *all;
}

size_t pages_of(size_t size) {
    return (size + PAGE - 1) / PAGE * PAGE;
}

[[noreturn]] void stop(const char *what) {
    fprintf(stderr, "fuzz: %s\n", what);
    abort();
}

bool fails_now() {
    if (failing == NEVER)
        return false;
    if (failing > 0) {
        --failing;
        return false;
    }
    has_failed = true;
    if (!fails_on)
        failing = NEVER;
    return true;
}

uint8_t *map_fenced(size_t size, size_t *length) {
    *length = pages_of(size) + 2 * PAGE;
    void *mapped = mmap(nullptr, *length, PROT_NONE, MAP_PRIVATE | MAP_ANONYMOUS, -1, 0);
    if (mapped == MAP_FAILED)
        return nullptr;
    uint8_t *start = static_cast<uint8_t *>(mapped);
    if (pages_of(size) > 0 && mprotect(start + PAGE, pages_of(size), PROT_READ | PROT_WRITE) != 0)
        stop("a block can't be fenced");
    return start;
}

void *take_fenced(size_t size) {
    size_t length, rounded = (size + ALIGN - 1) / ALIGN * ALIGN;
    uint8_t *mapped = map_fenced(rounded, &length);
    if (!mapped)
        return nullptr;
    uint8_t *data = mapped + length - PAGE - rounded;
    memset(data, SLACK, rounded);
    blocks()[data] = {mapped, length, size};
    return data;
}

void *take(size_t size) {
    if (fences_on && blocks().size() < MOST_FENCED)
        return take_fenced(size);
    void *data = __real_malloc(size);
    if (data)
        blocks()[data] = {nullptr, 0, size};
    return data;
}

void give_back(void *data) {
    if (!data)
        return;
    auto found = blocks().find(data);
    if (found == blocks().end())
        stop("what is freed isn't held");
    Block block = found->second;
    blocks().erase(found);
    if (!block.mapped) {
        __real_free(data);
        return;
    }
    uint8_t *start = static_cast<uint8_t *>(data), *end = block.mapped + block.length - PAGE;
    for (uint8_t *at = start + block.size; at < end; ++at)
        if (*at != SLACK)
            stop("bytes after a block were written");
    munmap(block.mapped, block.length);
}

void *take_again(void *data, size_t size) {
    if (!data)
        return take(size);
    auto found = blocks().find(data);
    if (found == blocks().end())
        stop("what is reallocated isn't held");
    void *other = take(size);
    if (!other)
        return nullptr;
    size_t old = blocks()[data].size;
    memcpy(other, data, old < size ? old : size);
    give_back(data);
    return other;
}

} // namespace

size_t blocks_held() { return blocks().size(); }

void set_fences(bool are_on) { fences_on = are_on; }

void fail_allocation(size_t after, bool all) {
    failing = after;
    fails_on = all;
    has_failed = false;
}

bool end_failing() {
    failing = NEVER;
    return has_failed;
}

Fenced::Fenced(const void *bytes, size_t length, bool is_at_start) : size_(length) {
    mapped_ = map_fenced(length, &length_);
    if (!mapped_)
        stop("there is no memory for an argument");
    data_ = is_at_start ? mapped_ + PAGE : mapped_ + length_ - PAGE - length;
    if (length > 0 && bytes)
        memcpy(data_, bytes, length);
}

Fenced::~Fenced() { munmap(mapped_, length_); }

} // namespace fuzz

// The library asks for no block of 0 bytes; C leaves open what that would return.
void *__wrap_malloc(size_t size) { return fuzz::fails_now() ? nullptr : fuzz::take(size); }

void *__wrap_realloc(void *data, size_t size) { return fuzz::fails_now() ? nullptr : fuzz::take_again(data, size); }

void __wrap_free(void *data) { fuzz::give_back(data); }
