// The memory of the fuzz. The linker sends the library's malloc, realloc and free here (--wrap). The blocks that it holds are counted. A
// chosen allocation fails. With fences on, each block stands right before a page that can't be read or written, and a freed one can't be
// read or written any more: so the library, which no sanitizer instruments, is stopped at once if it goes out of a block.
#ifndef MEMORY_HPP
#define MEMORY_HPP

#include <cstddef>
#include <cstdint>

namespace fuzz {

// What the library has allocated and not freed.
size_t blocks_held();

// From now on blocks have fences, or not. Blocks that are there keep what they have.
void set_fences(bool are_on);

// The allocation after so many others fails; 0 stands for the first one. All after it succeed, unless all have to fail.
void fail_allocation(size_t after, bool all);

// From now on all succeed; returns whether one failed.
bool end_failing();

// A copy of bytes that ends right before a page that can't be read, or begins right after one. It lives until its owner ends.
class Fenced {
  public:
    Fenced(const void *bytes, size_t length, bool is_at_start = false);
    ~Fenced();
    Fenced(const Fenced &) = delete;
    Fenced &operator=(const Fenced &) = delete;
    uint8_t *data() const { return data_; }
    size_t size() const { return size_; }

  private:
    uint8_t *mapped_, *data_;
    size_t length_, size_;
};

} // namespace fuzz

#endif
