// Which basic blocks of the library were reached, by a breakpoint at each that goes once it is hit. libFuzzer sees them as counters.
#ifndef BLOCKS_HPP
#define BLOCKS_HPP

#include <cstddef>
#include <cstdint>

namespace fuzz {

// Sets the breakpoints, and prints at the end of the process how many blocks, functions and blocks of each call were reached.
void watch_blocks();

// Notes something that a run did: libFuzzer keeps inputs that do something new.
void note(uint32_t what, uint32_t how);

} // namespace fuzz

#endif
