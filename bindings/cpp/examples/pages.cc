// Counts the lines, blanks and commas of a file, each on a thread of its own, through a cache of
// the file's pages. If two threads need the same page, one reads it and the other waits.
//
//   pages FILE CAPACITY     the capacity in bytes
#include <cstdint>
#include <cstdlib>
#include <exception>
#include <fstream>
#include <future>
#include <iostream>
#include <stdexcept>
#include <string>
#include <vector>

#include "lru.hpp"

constexpr std::uint64_t kPageSize = 4096;

using Page = std::vector<char>;
using Pages = lru::ShardedCache<const Page, lru::Words>;  // the keys are {file, page}

Page read_page(const std::string& path, std::uint64_t number) {
  std::ifstream file(path, std::ios::binary);
  if (!file) throw std::runtime_error("cannot open " + path);
  Page page(kPageSize);
  file.seekg(static_cast<std::streamoff>(number * kPageSize));
  file.read(page.data(), kPageSize);
  page.resize(static_cast<std::size_t>(file.gcount()));
  return page;
}

std::uint64_t count(Pages& pages, const std::string& path, char wanted) {
  std::uint64_t found = 0;
  for (std::uint64_t number = 0;; number++) {
    // The handle pins the page: it is neither evicted nor deleted while the handle lives.
    const auto page = pages.get_or_init(
        {1, number}, kPageSize, [&](lru::Words key) { return read_page(path, key.second); });
    if (page->empty()) return found;
    for (const char byte : *page) found += byte == wanted;
  }
}

int main(int argc, char** argv) try {
  if (argc != 3) throw std::invalid_argument("usage: pages FILE CAPACITY");
  const std::string path = argv[1];
  const std::uint64_t capacity = std::strtoull(argv[2], nullptr, 10);
  Pages pages(capacity, lru::TypicalCharge(kPageSize));
  const auto start = [&](char wanted) {
    return std::async(std::launch::async, [&, wanted] { return count(pages, path, wanted); });
  };
  auto lines = start('\n'), blanks = start(' '), commas = start(',');
  // An exception on a thread, such as one from read_page, is thrown again by `get`.
  std::cout << lines.get() << " lines, " << blanks.get() << " blanks, " << commas.get()
            << " commas\n";
  std::cerr << pages.total_charge() << " bytes of pages in the cache\n";
} catch (const std::exception& error) {
  std::cerr << "pages: " << error.what() << '\n';
  return 1;
}
