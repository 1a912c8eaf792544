// Compares programs by pairs of runs, as tools/speed/pairs does: a machine that is shared has slow
// minutes, and two runs that follow one another mostly share them.
#ifndef LRU_BENCH_PAIRS_HPP
#define LRU_BENCH_PAIRS_HPP

#include <algorithm>
#include <chrono>
#include <cstddef>
#include <cstdio>
#include <functional>
#include <string>
#include <thread>
#include <utility>
#include <vector>

#include "processor_time.hpp"

namespace bench {

// What a run took for each of its calls, in nanoseconds: wall time, of all threads together, and
// processor time. And how many of its calls hit, if it tells.
struct Times {
  double wall, processor;
  double hit_ratio = -1;
};

// Runs `work(t)` on each of so many threads, which make so many calls in all.
template <class Work>
Times TimesOf(std::size_t threads, double calls, const Work& work) {
  const auto start = std::chrono::steady_clock::now();
  const double processor_start = ProcessorTime();
  std::vector<std::thread> all;
  for (std::size_t t = 0; t < threads; t++) all.emplace_back([&work, t] { work(t); });
  for (std::thread& thread : all) thread.join();
  const std::chrono::duration<double, std::nano> wall = std::chrono::steady_clock::now() - start;
  return {wall.count() / calls, (ProcessorTime() - processor_start) * 1e9 / calls};
}

struct System {
  const char* name;
  std::function<Times()> run;
};

// The number below which so many quarters of the others lie, as tools/speed/ratios.py has it.
inline double Quartile(std::vector<double> numbers, std::size_t quarters) {
  std::sort(numbers.begin(), numbers.end());
  const double at = static_cast<double>((numbers.size() - 1) * quarters) / 4;
  const auto below = static_cast<std::size_t>(at);
  const double above = numbers[std::min(below + 1, numbers.size() - 1)];
  return numbers[below] + (at - static_cast<double>(below)) * (above - numbers[below]);
}

inline double Median(const std::vector<double>& numbers) { return Quartile(numbers, 2); }

// Runs the first system, and in each round each of the others, after each of which the first runs
// again. `what` is a workload, a number of entries, and a number of threads. Prints for each system
// the median of its wall times, as tools/speed/pictures.py reads it, and its hit ratio; and for the
// others the medians of their ratios to the first, each of a time and the mean of the first's times
// before and after it, and the quartiles, between which half of the ratios lie.
inline void Compare(const std::vector<System>& systems, const std::string& what, int rounds) {
  struct Series {
    std::vector<double> wall, wall_ratios, processor_ratios;
    double hit_ratio = -1;
  };
  std::vector<Series> all(systems.size());
  const auto run = [&](std::size_t n) {
    const Times times = systems[n].run();
    all[n].wall.push_back(times.wall);
    all[n].hit_ratio = times.hit_ratio;
    return times;
  };
  Times before = run(0);
  for (int round = 0; round < rounds; round++) {
    for (std::size_t n = 1; n < systems.size(); n++) {
      const Times own = run(n);
      const Times after = run(0);
      all[n].wall_ratios.push_back(2 * own.wall / (before.wall + after.wall));
      all[n].processor_ratios.push_back(2 * own.processor / (before.processor + after.processor));
      before = after;
    }
  }
  for (std::size_t n = 0; n < systems.size(); n++) {
    std::printf("%s %s %.1f\n", systems[n].name, what.c_str(), Median(all[n].wall));
    if (all[n].hit_ratio >= 0) {
      std::printf("# hits %s %s %.3f\n", systems[n].name, what.c_str(), all[n].hit_ratio);
    }
  }
  for (std::size_t n = 1; n < systems.size(); n++) {
    std::printf("# %s, %s to %s:", what.c_str(), systems[n].name, systems[0].name);
    for (const auto& [name, ratios] : {std::pair("wall", &all[n].wall_ratios),
                                       std::pair("processor", &all[n].processor_ratios)}) {
      std::printf(" %s %.2f (%.2f to %.2f)", name, Median(*ratios), Quartile(*ratios, 1),
                  Quartile(*ratios, 3));
    }
    std::printf("\n");
  }
  std::fflush(stdout);
}

}  // namespace bench

#endif
