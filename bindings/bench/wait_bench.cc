// Measures a miss while 0, 10 and 100 threads wait for the slow value of another key, which must
// cost the miss next to nothing. Prints nanoseconds of processor time per miss, those of the
// threads that wait included: the least of all rounds, and its ratio to that with none waiting.
//
//   wait_bench [ROUNDS [MISSES]]
#include <algorithm>
#include <cstddef>
#include <cstdint>
#include <cstdio>
#include <cstdlib>
#include <future>
#include <thread>
#include <vector>

#include "lru.hpp"
#include "processor_time.hpp"

namespace {

using Cache = lru::Cache<int, lru::Words>;

// Nanoseconds per miss of keys that nobody waits for.
double TimePerMiss(std::size_t waiting, std::uint64_t misses) {
  Cache cache(1000);
  std::promise<void> end;
  std::promise<void> begun;
  std::vector<std::thread> threads;
  threads.emplace_back([&] {
    cache.get_or_init({1, 0}, 1, [&](lru::Words) {
      begun.set_value();
      end.get_future().wait();
      return 1;
    });
  });
  begun.get_future().wait();
  for (std::size_t t = 0; t < waiting; t++) {
    threads.emplace_back([&] { cache.get_or_init({1, 0}, 1, [](lru::Words) { return 2; }); });
  }
  while (cache.stats().waits < waiting) std::this_thread::yield();
  const double start = bench::ProcessorTime();
  for (std::uint64_t n = 0; n < misses; n++) {
    cache.get_or_init({2, n}, 1, [](lru::Words) { return 3; });
  }
  const double took = bench::ProcessorTime() - start;
  end.set_value();
  for (std::thread& thread : threads) thread.join();
  return took * 1e9 / static_cast<double>(misses);
}

}  // namespace

int main(int argc, char** argv) {
  const int rounds = argc > 1 ? std::atoi(argv[1]) : 20;
  const std::uint64_t misses = argc > 2 ? std::strtoull(argv[2], nullptr, 10) : 20000;
  const std::size_t waiting[] = {0, 10, 100};
  double least[] = {1e18, 1e18, 1e18};
  for (int round = 0; round < rounds; round++) {
    for (std::size_t i = 0; i < 3; i++) {
      least[i] = std::min(least[i], TimePerMiss(waiting[i], misses));
    }
  }
  for (std::size_t i = 0; i < 3; i++) {
    std::printf("%3zu waiting: %.0f ns a miss, %.2f\n", waiting[i], least[i], least[i] / least[0]);
  }
}
