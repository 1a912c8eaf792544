// Steps that a test takes just before an entry is added to a clock, when the calls of a cache have
// made room for it. The linker puts these functions before those of lru.h (--wrap).
#ifndef LRU_TESTS_BEFORE_ADD_HPP
#define LRU_TESTS_BEFORE_ADD_HPP

#include <cstdint>
#include <functional>
#include <utility>

#include "lru.h"

// Is called once, if it is not empty. The cache holds the mutex of the shard meanwhile.
inline std::function<void()> before_add;

extern "C" {
lru_found __real_lru_clock_add(lru_clock* clock, std::uint64_t hash, std::uint64_t first,
                               std::uint64_t second, std::uint64_t charge, std::uint64_t value,
                               bool strict);
lru_found __wrap_lru_clock_add(lru_clock* clock, std::uint64_t hash, std::uint64_t first,
                               std::uint64_t second, std::uint64_t charge, std::uint64_t value,
                               bool strict) {
  if (before_add) std::exchange(before_add, nullptr)();
  return __real_lru_clock_add(clock, hash, first, second, charge, value, strict);
}

lru_found __real_lru_clock_ready(lru_clock* clock, std::uint64_t ticket, std::uint64_t hash,
                                 std::uint64_t charge, std::uint64_t value, bool strict);
lru_found __wrap_lru_clock_ready(lru_clock* clock, std::uint64_t ticket, std::uint64_t hash,
                                 std::uint64_t charge, std::uint64_t value, bool strict) {
  if (before_add) std::exchange(before_add, nullptr)();
  return __real_lru_clock_ready(clock, ticket, hash, charge, value, strict);
}
}

#endif
