// Measures what a block cache takes of malloc, and checks it against what its header says.
#ifndef LRU_TESTS_MEMORY_OF_ENTRIES_HPP
#define LRU_TESTS_MEMORY_OF_ENTRIES_HPP

#include <malloc.h>

#include <algorithm>
#include <cstddef>
#include <cstdint>
#include <cstdio>

// How many bytes malloc has given to the program, and taken for its own.
inline std::size_t AllocatedBytes() {
  const struct mallinfo2 info = mallinfo2();
  return info.uordblks + info.hblkhd;
}

// What a cache takes for 100,000 entries, each of which counts 1,000.
struct MemoryOfEntries {
  static constexpr std::uint64_t kEntries = 100000;
  static constexpr std::size_t kCharge = 1000;

  std::size_t for_one;  // the most that adding one took
  std::size_t each;     // of all in all
};

// What a cache takes before it has entries.
template <class Make>
std::size_t MemoryOfTables(Make make) {
  const std::size_t before = AllocatedBytes();
  const auto cache = make();
  return AllocatedBytes() - before;
}

// `cache` is made by `make()`, and `insert(cache, n)` inserts the entry number `n`.
template <class Make, class Insert>
MemoryOfEntries MemoryOf(Make make, Insert insert) {
  MemoryOfEntries memory = {};
  const std::size_t before = AllocatedBytes();
  const auto cache = make();
  std::size_t now = AllocatedBytes();
  for (std::uint64_t n = 0; n < MemoryOfEntries::kEntries; n++) {
    insert(cache.get(), n);
    const std::size_t last = now;
    now = AllocatedBytes();
    memory.for_one = std::max(memory.for_one, now > last ? now - last : 0);
  }
  memory.each = (now - before) / MemoryOfEntries::kEntries;
  return memory;
}

// Whether a cache over the clock takes from `least` to `most` bytes for an entry, makes no table
// larger while it has as many entries as its options let expect, and counts what it takes on
// request, to a tenth. Its parameters are those of TakesLittleMemory.
template <class Options, class Make, class Insert, class Usage>
bool TakesWhatItCounts(const char* name, std::size_t least, std::size_t most, Make make,
                       Insert insert, Usage usage) {
  constexpr std::uint64_t kEntries = MemoryOfEntries::kEntries;
  Options options;
  options.capacity = 2 * kEntries * MemoryOfEntries::kCharge;
  options.shards = 1;
  options.typical_charge = 2 * MemoryOfEntries::kCharge;
  const auto make_it = [&] { return make(options); };
  const MemoryOfEntries memory = MemoryOf(make_it, insert);
  const std::size_t each = memory.each;
  // The first entry also takes the readers of the thread.
  bool is_right = memory.for_one < 1000 && MemoryOfTables(make_it) > 88 * kEntries;
  options.typical_charge = SIZE_MAX;
  is_right &= MemoryOf(make_it, insert).for_one > 10000 && MemoryOfTables(make_it) < 100000;
  options.charges_metadata = true;
  const auto cache = make_it();
  for (std::uint64_t n = 0; n < kEntries; n++) insert(cache.get(), n);
  const std::size_t charged = usage(cache.get()) / kEntries - MemoryOfEntries::kCharge;
  is_right &= least <= each && each <= most && charged > each * 9 / 10 &&
              charged < each * 11 / 10;
  std::printf("%s: %zu bytes an entry (%zu when charged): %s\n", name, each, charged,
              is_right ? "as it says" : "NOT AS IT SAYS");
  return is_right;
}

// Whether a cache of this kind takes at most `most` bytes for an entry, makes no table larger while
// it has as many entries as its options let expect, and counts what it takes on request.
// `make(options)` makes a cache, and `usage(cache)` is the sum of charges in it.
template <class Options, class Make, class Insert, class Usage>
bool TakesLittleMemory(const char* name, std::size_t most, Make make, Insert insert, Usage usage) {
  constexpr std::uint64_t kEntries = MemoryOfEntries::kEntries;
  constexpr std::size_t kCharge = MemoryOfEntries::kCharge;
  Options options;
  const auto make_it = [&] { return make(options); };
  // By default, however large the capacity is, there is room for two million entries.
  options.capacity = SIZE_MAX;
  const std::size_t for_millions = MemoryOfTables(make_it);
  bool is_right = for_millions > 48u << 21 && for_millions < 49u << 21;
  options.capacity = 2 * kEntries * kCharge;
  options.shards = 1;
  options.typical_charge = 2 * kCharge;
  const std::size_t for_tables = MemoryOfTables(make_it);
  const MemoryOfEntries memory = MemoryOf(make_it, insert);
  // A table that grows is larger than an entry.
  is_right &= memory.each <= most && memory.for_one < 500 && for_tables > 48 * kEntries;
  // Without an expectation it takes none, and tables grow.
  options.typical_charge = SIZE_MAX;
  const MemoryOfEntries growing = MemoryOf(make_it, insert);
  is_right &= MemoryOfTables(make_it) < 100000 && growing.for_one > 100000;
  // Entries of charge 1 are few if their memory is charged.
  options.typical_charge = 1;
  options.capacity = kEntries;
  options.charges_metadata = true;
  is_right &= MemoryOfTables(make_it) < 100000;
  options.capacity = 2 * kEntries * kCharge;
  std::size_t charged = 0;
  {
    const auto cache = make(options);
    for (std::uint64_t n = 0; n < kEntries; n++) insert(cache.get(), n);
    charged = usage(cache.get()) / kEntries - kCharge;
  }
  is_right &= charged > memory.each * 9 / 10 && charged < memory.each * 11 / 10;
  std::printf("%s: %zu bytes an entry (%zu when charged), of which %zu at first: %s\n", name,
              memory.each, charged, for_tables / kEntries,
              is_right ? "as it says" : "NOT AS IT SAYS");
  return is_right;
}

#endif
