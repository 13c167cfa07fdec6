// The calls for streams on fenced arguments. Each call checks what the header promises of every result.
#ifndef SET_HPP
#define SET_HPP

#include "handle.hpp"

namespace fuzz {

// The end of a match of a pattern.
struct End {
    size_t pattern, end;
    bool operator==(const End &it) const { return pattern == it.pattern && end == it.end; }
    bool operator<(const End &it) const { return end < it.end || (end == it.end && pattern < it.pattern); }
};

// What a call with a stream wrote: the ends by offset and pattern.
struct Fed {
    hanneddois_status status = HANNEDDOIS_OK;
    size_t taken = 0, count = 0;
    std::vector<End> ends;
};

// A set of streams, as a caller holds it.
class Set {
  public:
    Set() = default;
    ~Set() { end(); }
    Set(const Set &) = delete;
    Set &operator=(const Set &) = delete;

    Found make(const std::vector<Bytes> &patterns, const hanneddois_options &options);
    hanneddois_status open(size_t *number);
    hanneddois_status clone(size_t from, size_t *number);
    hanneddois_status reset(size_t number);
    hanneddois_status close_number(size_t number);
    Fed feed(size_t number, const uint8_t *bytes, size_t length, size_t room);
    Fed close(size_t number, size_t room);
    void end();
    void move();
    void check_usage();
    size_t count() const { return count_; }
    bool is_empty() const { return count_ == 0; }

  private:
    hanneddois_streams *raw() { return &sets_[at_]; }

    hanneddois_streams sets_[2] = {HANNEDDOIS_EMPTY, HANNEDDOIS_EMPTY};
    size_t at_ = 0;
    size_t count_ = 0; // of patterns; 0 without a set
};

} // namespace fuzz

#endif
