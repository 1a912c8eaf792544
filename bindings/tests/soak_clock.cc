// Makes random calls of all kinds on lru::ClockCache from eight threads, for tests/soak or by hand.
//
//   soak_clock SEED [SECONDS]
//
// The threads look up, insert, make, erase and visit values, clone handles and pass them on, and
// set the capacity and whether it is a strict limit; clock_threads.hpp says what is checked. With
// SECONDS, it begins again with the next seed until the time is up, and prints a line a minute.
// Each third cache has one shard, and each tenth is used for ten times as long.
//
// Prints one line at the end. Ends with 1 at the first cache of which something is wrong.
#include <chrono>
#include <cstdint>
#include <cstdio>
#include <cstdlib>

#include "clock_threads.hpp"
#include "deleted_once.hpp"

namespace {

constexpr std::uint64_t kTurns = 20000;

bool IsRight(std::uint64_t seed) {
  const std::uint64_t turns = seed % 10 == 0 ? 10 * kTurns : kTurns;
  const bool ends_right = clock_threads::use_a_cache(seed % 3 == 0 ? 1 : 16, seed, turns);
  if (ends_right && alive == 0 && wrong == 0) return true;
  std::printf("soak_clock: seed %llu: %lld values are left, %lld times wrong%s\n",
              static_cast<unsigned long long>(seed), static_cast<long long>(alive),
              static_cast<long long>(wrong), ends_right ? "" : ", and so are the numbers");
  return false;
}

void Tell(std::uint64_t first, std::uint64_t last, long long seconds) {
  std::printf("soak_clock: %lld seconds, seeds %llu to %llu: ok\n", seconds,
              static_cast<unsigned long long>(first), static_cast<unsigned long long>(last));
  std::fflush(stdout);
}

}  // namespace

int main(int argc, char** argv) {
  if (argc < 2 || argc > 3) {
    std::fprintf(stderr, "usage: soak_clock SEED [SECONDS]\n");
    return 2;
  }
  const std::uint64_t first = std::strtoull(argv[1], nullptr, 10);
  const long long wanted = argc > 2 ? std::atoll(argv[2]) : 0;
  const auto start = std::chrono::steady_clock::now();
  const auto seconds = [&]() -> long long {
    const auto passed = std::chrono::steady_clock::now() - start;
    return std::chrono::duration_cast<std::chrono::seconds>(passed).count();
  };
  long long told = 0;
  std::uint64_t seed = first;
  while (true) {
    if (!IsRight(seed)) return 1;
    if (seconds() >= wanted) break;
    if (seconds() >= told + 60) {
      told = seconds();
      Tell(first, seed, told);
    }
    seed++;
  }
  Tell(first, seed, seconds());
}
