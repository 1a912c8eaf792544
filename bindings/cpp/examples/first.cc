// Four threads ask a cache for the same page, which one of them makes. The README shows this.
#include <atomic>
#include <iostream>
#include <string>
#include <thread>
#include <vector>

#include "lru.hpp"

int main() {
  lru::Cache<std::string, int> pages(100);  // values are strings, and keys are integers
  std::atomic<int> made = 0;
  const auto ask = [&] {
    // The charge is 1. One thread runs the function; the others wait for what it returns.
    const auto page = pages.get_or_init(7, 1, [&](int number) {
      made++;
      return "page " + std::to_string(number);
    });
    std::cout << *page + "\n";  // pinned: it is not evicted while the handle `page` lives
  };
  std::vector<std::thread> threads;
  for (int i = 0; i < 4; i++) threads.emplace_back(ask);
  for (auto& thread : threads) thread.join();
  std::cout << made << " was made\n";
}
