// Eight threads that make all kinds of calls on a lru::ClockCache: each value must be of the key
// that was asked for, and be deleted once, and not while a handle has it. `wrong` of
// deleted_once.hpp counts what is not so.
#ifndef LRU_TESTS_CLOCK_THREADS_HPP
#define LRU_TESTS_CLOCK_THREADS_HPP

#include <cstddef>
#include <cstdint>
#include <mutex>
#include <thread>
#include <utility>
#include <vector>

#include "deleted_once.hpp"
#include "lru_clock.hpp"
#include "random_calls.hpp"

// Counts as wrong if it is deleted twice.
struct Once : Object {
  using Object::Object;
  ~Once() { wrong += !there.exchange(false); }
};

using Objects = lru::ClockCache<Once, std::uint64_t>;

inline auto makes(std::uint64_t number) {
  return [number](std::uint64_t) { return number; };
}

struct Failed {};

namespace clock_threads {

constexpr std::uint64_t kThreads = 8, kKeys = 300, kFixed = 16;

// Handles that any thread may put and take.
struct Exchange {
  Objects::Handle exchange(Objects::Handle handle, std::uint64_t slot) {
    const std::lock_guard<std::mutex> lock(mutex);
    swap(handle, handles[slot]);
    return handle;
  }

  std::mutex mutex;
  Objects::Handle handles[16];
};

inline void is_right(const Objects::Handle& handle, std::uint64_t key) {
  if (handle && (handle->key != key || !handle->there)) wrong++;
}

inline void take_turns(Objects& cache, Exchange& exchange, std::uint64_t seed,
                       std::uint64_t turns) {
  Random random(seed);
  Objects::Handle held[4];
  const auto fails = [](std::uint64_t) -> std::uint64_t { throw Failed(); };
  for (std::uint64_t turn = 0; turn < turns; turn++) {
    const std::uint64_t n = kFixed + random.below(kKeys);
    Objects::Handle& slot = held[random.below(4)];
    try {
      switch (random.below(32)) {
        case 0:
          cache.invalidate(n);
          break;
        case 1:
        case 2:
        case 3:
          is_right(slot = cache.insert(n, 1 + random.below(3), n), n);
          break;
        case 4:
          if (slot) slot = slot.clone();
          break;
        case 5:
        case 6:
        case 7:
          slot = exchange.exchange(std::move(slot), random.below(16));
          break;
        case 8:
          if (random.below(20) == 0) cache.set_capacity(kKeys / 2 + random.below(kKeys));
          if (random.below(20) == 0) cache.set_strict_limit(random.below(2) == 0);
          break;
        case 9:
          if (random.below(100) == 0) {
            cache.for_each([](std::uint64_t key, const Once& once, std::uint64_t charge) {
              if (once.key != key || !once.there || charge == 0) wrong++;
            });
          }
          break;
        case 10:
          if (random.below(100) == 0) {
            cache.erase_if([&](std::uint64_t key, const Once& once, std::uint64_t) {
              if (once.key != key || !once.there) wrong++;
              return key >= kFixed && key % 16 == n % 16;
            });
          }
          break;
        case 11:
          if (random.below(100) == 0) cache.prune();
          break;
        case 12: {
          auto begun = cache.try_begin(n, 1);
          if (begun.maker && random.below(2) == 0) begun.handle = begun.maker.ready(n);
          is_right(begun.handle, n);
          break;
        }
        case 13:
          try {
            is_right(cache.get_or_init(n, 1, fails), n);
          } catch (const Failed&) {
          }
          break;
        case 14:
        case 15:
        case 16:
        case 17:
          // These are there all the time, whatever is written beside them.
          if (!cache.contains(n % kFixed)) wrong++;
          break;
        case 18:
        case 19:
        case 20:
          is_right(cache.get(n), n);
          break;
        default:
          is_right(slot = cache.get_or_init(n, 1 + random.below(3), makes(n)), n);
      }
    } catch (const lru::Full&) {
    }
    for (const Objects::Handle& handle : held) {
      if (handle && !handle->there) wrong++;
    }
    if (random.below(4) == 0) slot.reset();
  }
}

// Whether the numbers of the cache are right in the end. Each thread makes so many calls.
inline bool use_a_cache(std::size_t shards, std::uint64_t seed, std::uint64_t turns) {
  Objects cache(kKeys, shards);
  std::vector<Objects::Handle> fixed;
  for (std::uint64_t n = 0; n < kFixed; n++) fixed.push_back(cache.insert(n, 1, n));
  Exchange exchange;
  std::vector<std::thread> threads;
  for (std::uint64_t t = 0; t < kThreads; t++) {
    threads.emplace_back([&, t] { take_turns(cache, exchange, seed * kThreads + t, turns); });
  }
  for (std::thread& thread : threads) thread.join();
  for (Objects::Handle& handle : exchange.handles) handle.reset();
  const bool are_fixed_pinned = cache.pinned_charge() == kFixed;
  cache.set_capacity(0);
  return are_fixed_pinned && cache.len() == kFixed && alive == kFixed;
}

}  // namespace clock_threads

#endif
