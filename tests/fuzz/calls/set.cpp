#include "set.hpp"

#include <algorithm>
#include <cstring>

namespace fuzz {
namespace {

// What a call has for the ends that it writes, and for its numbers.
class Output {
  public:
    explicit Output(size_t room) : room_(room), rows_(nullptr, room * sizeof(hanneddois_end)), numbers_(nullptr, 2 * sizeof(size_t)), error_(nullptr, sizeof(hanneddois_error)) {
        for (const Fenced *each : {&rows_, &numbers_, &error_})
            memset(each->data(), UNTOUCHED, each->size());
    }
    hanneddois_end *rows() const { return reinterpret_cast<hanneddois_end *>(rows_.data()); }
    size_t *taken() const { return reinterpret_cast<size_t *>(numbers_.data()); }
    size_t *count() const { return taken() + 1; }
    hanneddois_error *error() const { return reinterpret_cast<hanneddois_error *>(error_.data()); }

    // The ends that were written, all of patterns that are there, offsets ascending, each pair once.
    Fed read(hanneddois_status status, size_t patterns) const {
        Fed fed;
        fed.status = status;
        fed.count = *count();
        check(error()->status == status, "the status of the error isn't the one that is returned");
        check(is_one_of(status, {HANNEDDOIS_OK, HANNEDDOIS_BAD_ARGUMENT, HANNEDDOIS_NO_MEMORY, HANNEDDOIS_CLOSED, HANNEDDOIS_OUTPUT_TOO_SMALL}), "a stream fails for no cause that it may have");
        check_error(*error(), {});
        size_t written = status == HANNEDDOIS_OUTPUT_TOO_SMALL ? 0 : fed.count;
        check(written <= room_, "more ends are counted than there is room for");
        for (size_t it = 0; it < written; ++it) {
            check(rows()[it].pattern < patterns, "an end is of a pattern that isn't there");
            check(it == 0 || rows()[it - 1].end <= rows()[it].end, "the offsets of ends don't ascend");
            fed.ends.push_back({rows()[it].pattern, rows()[it].end});
        }
        std::sort(fed.ends.begin(), fed.ends.end());
        check(std::adjacent_find(fed.ends.begin(), fed.ends.end()) == fed.ends.end(), "an end is written twice");
        return fed;
    }

  private:
    size_t room_;
    Fenced rows_, numbers_, error_;
};

} // namespace

Found Set::make(const std::vector<Bytes> &patterns, const hanneddois_options &options) {
    Bytes joined;
    std::vector<size_t> lengths;
    for (const Bytes &each : patterns) {
        joined.insert(joined.end(), each.begin(), each.end());
        lengths.push_back(each.size());
    }
    Fenced texts(joined.data(), joined.size()), counts(lengths.data(), lengths.size() * sizeof(size_t));
    Output output(0);
    Found found;
    found.status = hanneddois_streams_new(raw(), texts.data(), texts.size(), reinterpret_cast<const size_t *>(counts.data()), lengths.size(), &options, output.error());
    found.error = *output.error();
    check(found.error.status == found.status, "the status of the error isn't the one that is returned");
    check(found.status <= HANNEDDOIS_WORD_BOUNDARY && !is_one_of(found.status, {HANNEDDOIS_NONE, HANNEDDOIS_EMPTY_LOOP}), "a set is made with a status of another call");
    check_error(found.error, patterns);
    bool is_made = found.status == HANNEDDOIS_OK;
    check((raw()->inside != nullptr) == is_made, "a set that isn't made isn't empty, or the other way round");
    count_ = is_made ? patterns.size() : 0;
    check_usage();
    return found;
}

hanneddois_status Set::open(size_t *number) {
    *number = 99;
    hanneddois_status status = hanneddois_stream_new(raw(), number);
    check(is_one_of(status, {HANNEDDOIS_OK, HANNEDDOIS_NO_MEMORY, HANNEDDOIS_BAD_ARGUMENT}), "a stream is made with the status of another call");
    check((status == HANNEDDOIS_BAD_ARGUMENT) == is_empty(), "a stream of no set is made, or none of a set");
    check(status == HANNEDDOIS_OK || *number == 0, "a stream that isn't made has a number");
    return status;
}

hanneddois_status Set::clone(size_t from, size_t *number) {
    *number = 99;
    hanneddois_status status = hanneddois_stream_clone(raw(), from, number);
    check(is_one_of(status, {HANNEDDOIS_OK, HANNEDDOIS_NO_MEMORY, HANNEDDOIS_BAD_ARGUMENT}), "a stream is copied with the status of another call");
    check(status == HANNEDDOIS_OK || *number == 0, "a copy that isn't made has a number");
    return status;
}

hanneddois_status Set::reset(size_t number) {
    hanneddois_status status = hanneddois_stream_reset(raw(), number);
    check(is_one_of(status, {HANNEDDOIS_OK, HANNEDDOIS_BAD_ARGUMENT}), "a stream is reset with the status of another call");
    return status;
}

hanneddois_status Set::close_number(size_t number) {
    hanneddois_status status = hanneddois_stream_free(raw(), number);
    check(is_one_of(status, {HANNEDDOIS_OK, HANNEDDOIS_BAD_ARGUMENT}), "a stream is freed with the status of another call");
    return status;
}

Fed Set::feed(size_t number, const uint8_t *bytes, size_t length, size_t room) {
    Fenced piece(bytes, length, length % 2);
    Output output(room);
    hanneddois_status status = hanneddois_stream_feed(raw(), number, piece.data(), length, output.rows(), room, output.taken(), output.count(), output.error());
    Fed fed = output.read(status, count_);
    fed.taken = *output.taken();
    check(status != HANNEDDOIS_OUTPUT_TOO_SMALL, "a stream is fed with the status of another call");
    check(fed.taken <= length, "more bytes are taken than there are");
    check(status != HANNEDDOIS_OK || length == 0 || room < count_ || fed.taken > 0, "no byte is taken, and there is room for all patterns");
    check(is_one_of(status, {HANNEDDOIS_OK, HANNEDDOIS_NO_MEMORY}) || (fed.taken == 0 && fed.count == 0), "a stream that can't be fed takes something");
    return fed;
}

Fed Set::close(size_t number, size_t room) {
    Output output(room);
    hanneddois_status status = hanneddois_stream_close(raw(), number, output.rows(), room, output.count(), output.error());
    Fed fed = output.read(status, count_);
    check(fed.count <= count_, "more ends lie at the end than there are patterns");
    check((status == HANNEDDOIS_OUTPUT_TOO_SMALL) == (fed.count > room), "the status doesn't say whether there is room for the ends");
    check(is_one_of(status, {HANNEDDOIS_OK, HANNEDDOIS_OUTPUT_TOO_SMALL}) || fed.count == 0, "a stream that can't be closed has ends");
    return fed;
}

void Set::end() {
    hanneddois_streams_free(raw());
    check(raw()->inside == nullptr, "a freed set isn't empty");
    count_ = 0;
    check_usage();
}

void Set::move() {
    sets_[1 - at_] = sets_[at_];
    sets_[at_].inside = reinterpret_cast<void *>(0xDEAD);
    at_ = 1 - at_;
}

void Set::check_usage() {
    size_t bytes = hanneddois_streams_memory_usage(raw());
    check(!is_empty() || bytes == 0, "an empty set has a cache");
    note(700, static_cast<uint32_t>(std::min<size_t>(bytes / 512, 40)));
}

} // namespace fuzz
