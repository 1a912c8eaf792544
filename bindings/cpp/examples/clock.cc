// Four threads share a cache whose hits take no lock.
#include <atomic>
#include <cstddef>
#include <iostream>
#include <string>
#include <thread>
#include <vector>

#include "lru_clock.hpp"

int main() {
  lru::ClockCache<std::string, int> pages(100);  // values are strings, and keys are integers
  std::atomic<int> made = 0;
  std::atomic<std::size_t> letters = 0;
  const auto read = [&] {
    for (int call = 0; call < 1000; call++) {
      // One thread makes a page; the others wait for it, or find it later without a lock.
      const auto page = pages.get_or_init(call % 10, 1, [&](int number) {
        made++;
        return "page " + std::to_string(number);
      });
      letters += page->size();  // pinned: it is not evicted while the handle `page` lives
    }
  };
  std::vector<std::thread> threads;
  for (int i = 0; i < 4; i++) threads.emplace_back(read);
  for (auto& thread : threads) thread.join();
  std::cout << made << " pages were made, " << letters << " letters read\n";
}
