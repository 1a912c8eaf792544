// Compares the clock with RocksDB's HyperClockCache by pairs of runs (pairs.hpp), if RocksDB's
// header was there when this was compiled, and otherwise with lru::ShardedCache. Keys have 16
// bytes, values are numbers on the heap, and caches have 16 shards.
//
//   clock_bench read_mostly [ROUNDS [THREADS..]]    by default 9 rounds, with 1, 2, 4 and 8 threads
//   clock_bench hits [ROUNDS [ENTRIES..]]           by default 9 rounds, with 1,000, 100,000 and
//                                                   1,000,000 entries
//   clock_bench count SYSTEM ENTRIES HITS           makes the hits of one system, for valgrind
//   clock_bench count_misses SYSTEM ENTRIES MISSES  the same with misses, each of which adds an
//                                                   entry and evicts another one
//
// The systems are the calls of lru.h on clocks with mutexes as in lru_threads_clock.h (c-clock),
// lru::ClockCache (cpp-clock), lru::ShardedCache (cpp-sharded), and as rocksdb::Cache what
// lru::NewRocksDBClockCache makes (block-clock), lru::NewRocksDBBlockCache (block-exact), RocksDB's
// HyperClockCache (rocksdb-hyper) and its LRUCache (rocksdb-sharded). HyperClockCache is told how
// many entries there will be, as it has one table that does not grow; the tables of all others do.
//
// read_mostly_16: keys of 200,000, drawn by Zipf's law with the exponent 0.99, on a cache that has
// room for 100,000. First one thread asks for each of 2^20 drawn keys, which fills the cache. Then
// each thread asks for 300,000 of them, each from another one on; what is missing is made.
// hit_16: one thread asks for a million keys that are there, drawn uniformly.
//
// To count the instructions of a hit or a miss, with those of the loop around it, divide by HITS
// what
//
//   valgrind --tool=callgrind --callgrind-out-file=/dev/null --toggle-collect='*CallEach*'
//     build/clock_bench count SYSTEM ENTRIES HITS
//
// says that it collected. With --cache-sim=yes it counts cache lines too.
#include <algorithm>
#include <atomic>
#include <cmath>
#include <cstddef>
#include <cstdint>
#include <cstdio>
#include <cstdlib>
#include <cstring>
#include <memory>
#include <mutex>
#include <numeric>
#include <string>
#include <vector>

#include "lru.h"
#include "lru.hpp"
#include "lru_clock.hpp"
#include "lru_core.hpp"
#include "pairs.hpp"

#if __has_include("rocksdb/cache.h")
#include "rocksdb/cache.h"
#include "rocksdb_cache.h"
#include "rocksdb_clock_cache.h"
#include "rocksdb_interface.hpp"
#define HAS_ROCKSDB
#endif

namespace {

constexpr std::size_t kShards = 16;

// Keys by number, drawn for the threads, each of which begins at another one.
struct Work {
  std::string name;
  std::uint64_t capacity, entries;
  std::vector<std::uint32_t> fill;  // what is asked for first
  std::vector<std::uint32_t> keys;
  std::size_t threads, calls;
};

std::uint64_t Next(std::uint64_t x) { return x * 6364136223846793005u + 1442695040888963407u; }

Work ReadMostly(std::size_t threads) {
  constexpr std::uint64_t kKeys = 200000, kCapacity = 100000;
  constexpr std::size_t kDraws = 1 << 20;
  std::vector<double> total;
  for (std::uint64_t rank = 0; rank < kKeys; rank++) {
    const double weight = std::pow(static_cast<double>(rank + 1), -0.99);
    total.push_back(total.empty() ? weight : total.back() + weight);
  }
  Work work = {"read_mostly_16", kCapacity, kCapacity, {}, {}, threads, 300000};
  std::uint64_t x = 1;
  for (std::size_t draw = 0; draw < kDraws; draw++) {
    x = Next(x);
    const double part = static_cast<double>(x >> 11) / 9007199254740992.0;
    const auto found = std::upper_bound(total.begin(), total.end(), part * total.back());
    const auto rank = static_cast<std::uint64_t>(found - total.begin());
    // The ranks of neighbours differ, so that keys that are often drawn lie far apart.
    work.keys.push_back(static_cast<std::uint32_t>(std::min(rank, kKeys - 1) * 130363 % kKeys));
  }
  work.fill = work.keys;
  return work;
}

Work Hits(std::uint64_t entries, std::size_t calls) {
  // Twice as many fit, as shards are not filled evenly.
  Work work = {"hit_16", 2 * entries, entries, {}, {}, 1, calls};
  work.fill.resize(static_cast<std::size_t>(entries));
  std::iota(work.fill.begin(), work.fill.end(), 0);
  std::uint64_t x = 1;
  for (std::size_t draw = 0; draw < calls; draw++) {
    x = Next(x);
    work.keys.push_back(static_cast<std::uint32_t>((x >> 32) * entries >> 32));
  }
  return work;
}

Work Misses(std::uint64_t entries, std::size_t calls) {
  Work work = {"miss_16", entries, entries, {}, {}, 1, calls};
  work.fill.resize(static_cast<std::size_t>(entries));
  std::iota(work.fill.begin(), work.fill.end(), 0);
  work.keys.resize(calls);
  std::iota(work.keys.begin(), work.keys.end(), static_cast<std::uint32_t>(entries));
  return work;
}

// Makes sure that a value is read.
void Keep(std::uint64_t value) { __asm__ __volatile__("" : : "r"(value) : "memory"); }

// Each of these classes is a cache, and has a class Caller for the calls of a thread, each of which
// says whether it hit.

template <class OneCache>
class Classes {
 public:
  explicit Classes(std::uint64_t capacity) : cache_(capacity, kShards) {}

  class Caller {
   public:
    explicit Caller(Classes* classes) : cache_(classes->cache_) {}

    bool operator()(lru::Words key) {
      bool is_hit = true;
      const auto value = cache_.get_or_init(key, 1, [&](lru::Words words) {
        is_hit = false;
        return words.first;
      });
      Keep(*value);
      return is_hit;
    }

   private:
    OneCache& cache_;
  };

 private:
  OneCache cache_;
};

class CCalls {
  struct alignas(64) Shard {
    lru::detail::Mutex mutex;
    lru_clock clock = {};
  };

 public:
  explicit CCalls(std::uint64_t capacity) {
    for (Shard& shard : shards_) {
      if (lru_clock_new(capacity / kShards, &shard.clock) != LRU_DONE) std::exit(1);
    }
  }

  ~CCalls() {
    for (Shard& shard : shards_) {
      std::uint32_t next = 0;
      lru_left left;
      while (lru_clock_prune(&shard.clock, &next, &left) == LRU_GONE) Delete(left.value);
      lru_clock_free(&shard.clock);
    }
  }

  CCalls(const CCalls&) = delete;
  CCalls& operator=(const CCalls&) = delete;

  class Caller {
   public:
    explicit Caller(CCalls* cache) : shards_(cache->shards_) {
      for (std::size_t n = 0; n < kShards; n++) {
        const std::lock_guard<lru::detail::Mutex> lock(shards_[n].mutex);
        if (lru_reader_new(&shards_[n].clock, &readers_[n]) != LRU_DONE) std::exit(1);
      }
    }

    ~Caller() {
      for (lru_reader& reader : readers_) lru_reader_free(&reader);
    }

    Caller(const Caller&) = delete;
    Caller& operator=(const Caller&) = delete;

    bool operator()(lru::Words key) {
      const std::uint64_t mixed = lru_hash_multiply(key.first, 0x9e3779b97f4a7c05u);
      const std::uint64_t hash = lru_hash_multiply(mixed ^ key.second, 0xbf58476d1ce4e5b9u);
      const std::size_t n = hash % kShards;
      lru_found found = lru_reader_pin(&readers_[n], hash, key.first, key.second);
      const bool is_hit = found.code == LRU_HIT;
      if (!is_hit) found = Add(&shards_[n], hash, key);
      Keep(*reinterpret_cast<std::uint64_t*>(found.value));
      // No key is erased, so no pin is the last one of an entry that has to be collected.
      lru_reader_unpin(&readers_[n], found.place);
      return is_hit;
    }

   private:
    static lru_found Add(Shard* shard, std::uint64_t hash, lru::Words key) {
      const auto value = reinterpret_cast<std::uint64_t>(new std::uint64_t(key.first));
      std::uint64_t out = 0;
      lru_found found;
      {
        const std::lock_guard<lru::detail::Mutex> lock(shard->mutex);
        lru_left left;
        while (lru_clock_make_room(&shard->clock, 1, &left) == LRU_GONE) {
          Delete(std::exchange(out, left.value));
        }
        found = lru_clock_add(&shard->clock, hash, key.first, key.second, 1, value, false);
      }
      Delete(out);
      if (found.code == LRU_HIT) Delete(value);
      if (found.code != LRU_HIT && found.code != LRU_DONE) std::exit(1);
      return found;
    }

    Shard* shards_;
    alignas(64) lru_reader readers_[kShards] = {};
  };

 private:
  static void Delete(std::uint64_t value) { delete reinterpret_cast<std::uint64_t*>(value); }

  Shard shards_[kShards];
};

#ifdef HAS_ROCKSDB
using Cache = rocksdb::Cache;

std::shared_ptr<Cache> NewHyperClock(std::size_t capacity) {
  return rocksdb::HyperClockCacheOptions(capacity, 1, 4, false, nullptr,
                                         rocksdb::kDontChargeCacheMetadata)
      .MakeSharedCache();
}

std::shared_ptr<Cache> NewLRU(std::size_t capacity) {
  rocksdb::LRUCacheOptions options;
  options.capacity = capacity;
  options.num_shard_bits = 4;
  options.metadata_charge_policy = rocksdb::kDontChargeCacheMetadata;
  return rocksdb::NewLRUCache(options);
}

lru::RocksDBCacheOptions OptionsFor(std::size_t capacity) {
  lru::RocksDBCacheOptions options;
  options.capacity = capacity;
  options.shards = kShards;
  return options;
}

std::shared_ptr<Cache> NewBlockClock(std::size_t capacity) {
  return lru::NewRocksDBClockCache(OptionsFor(capacity));
}

std::shared_ptr<Cache> NewBlockExact(std::size_t capacity) {
  return lru::NewRocksDBBlockCache(OptionsFor(capacity));
}

template <std::shared_ptr<Cache> (*kNew)(std::size_t capacity)>
class AsCache {
 public:
  explicit AsCache(std::uint64_t capacity) : cache_(kNew(static_cast<std::size_t>(capacity))) {}

  class Caller {
   public:
    explicit Caller(AsCache* as) : cache_(as->cache_.get()) {}

    bool operator()(lru::Words key) {
      const rocksdb::Slice slice(reinterpret_cast<const char*>(&key), sizeof key);
      Cache::Handle* handle = cache_->Lookup(slice);
      const bool is_hit = handle != nullptr;
      if (!is_hit) {
        auto* value = new std::uint64_t(key.first);
        if (!Insert(cache_, slice, value, 1, HelperFor<Delete>(), &handle).ok()) std::exit(1);
      }
      Keep(*static_cast<std::uint64_t*>(cache_->Value(handle)));
      cache_->Release(handle);
      return is_hit;
    }

   private:
    static void Delete(const rocksdb::Slice*, void* value) {
      delete static_cast<std::uint64_t*>(value);
    }

    Cache* cache_;
  };

 private:
  std::shared_ptr<Cache> cache_;
};
#endif

// Asks for these keys, and returns how many were there. It is not inlined, so that valgrind knows
// when it runs.
template <class Caller>
[[gnu::noinline]] std::uint64_t CallEach(Caller& call, const Work& work, std::size_t first) {
  std::uint64_t hits = 0;
  std::size_t at = first % work.keys.size();
  for (std::size_t n = 0; n < work.calls; n++) {
    hits += call(lru::Words{work.keys[at], 0});
    if (++at == work.keys.size()) at = 0;
  }
  return hits;
}

template <class OneCache>
bench::Times Measure(const Work& work) {
  constexpr std::size_t kStride = 131072;
  OneCache cache(work.capacity);
  {
    typename OneCache::Caller call(&cache);
    for (const std::uint32_t key : work.fill) call(lru::Words{key, 0});
  }
  std::atomic<std::uint64_t> hits{0};
  const auto calls = static_cast<double>(work.threads * work.calls);
  bench::Times times = bench::TimesOf(work.threads, calls, [&](std::size_t thread) {
    typename OneCache::Caller call(&cache);
    hits += CallEach(call, work, thread * kStride);
  });
  times.hit_ratio = static_cast<double>(hits) / calls;
  return times;
}

struct System {
  const char* name;
  bench::Times (*measure)(const Work& work);
};

// The others are compared with the first.
constexpr System kSystems[] = {
#ifdef HAS_ROCKSDB
    {"rocksdb-hyper", Measure<AsCache<NewHyperClock>>},
    {"block-clock", Measure<AsCache<NewBlockClock>>},
    {"block-exact", Measure<AsCache<NewBlockExact>>},
    {"rocksdb-sharded", Measure<AsCache<NewLRU>>},
#endif
    {"cpp-sharded", Measure<Classes<lru::ShardedCache<std::uint64_t, lru::Words>>>},
    {"cpp-clock", Measure<Classes<lru::ClockCache<std::uint64_t, lru::Words>>>},
    {"c-clock", Measure<CCalls>},
};

void Compare(const Work& work, int rounds) {
  std::vector<bench::System> systems;
  for (const System& system : kSystems) {
    systems.push_back({system.name, [&] { return system.measure(work); }});
  }
  const std::string what =
      work.name + " " + std::to_string(work.entries) + " " + std::to_string(work.threads);
  bench::Compare(systems, what, rounds);
}

bool Count(const char* name, std::uint64_t entries, std::size_t calls, bool are_hits) {
  for (const System& system : kSystems) {
    if (std::strcmp(system.name, name) != 0) continue;
    const Work work = are_hits ? Hits(entries, calls) : Misses(entries, calls);
    return (system.measure(work).hit_ratio > 0.5) == are_hits;
  }
  return false;
}

int Usage() {
  std::fprintf(stderr,
               "usage: clock_bench read_mostly [ROUNDS [THREADS..]]\n"
               "       clock_bench hits [ROUNDS [ENTRIES..]]\n"
               "       clock_bench count SYSTEM ENTRIES HITS\n"
               "       clock_bench count_misses SYSTEM ENTRIES MISSES\n");
  return 2;
}

}  // namespace

int main(int argc, char** argv) {
  const std::string mode = argc > 1 ? argv[1] : "";
  const bool counts = mode == "count" || mode == "count_misses";
  std::vector<std::uint64_t> numbers;
  for (int n = counts ? 3 : 2; n < argc; n++) {
    numbers.push_back(std::strtoull(argv[n], nullptr, 10));
    if (numbers.back() == 0 || numbers.back() > 100000000) return Usage();
  }
  if (counts) {
    if (numbers.size() != 2) return Usage();
    return Count(argv[2], numbers[0], numbers[1], mode == "count") ? 0 : Usage();
  }
  const int rounds = numbers.empty() ? 9 : static_cast<int>(numbers[0]);
  if (numbers.size() > 1) {
    numbers.erase(numbers.begin());
  } else {
    numbers.clear();
  }
  if (mode == "read_mostly") {
    if (numbers.empty()) numbers = {1, 2, 4, 8};
    for (const std::uint64_t threads : numbers) Compare(ReadMostly(threads), rounds);
  } else if (mode == "hits") {
    if (numbers.empty()) numbers = {1000, 100000, 1000000};
    for (const std::uint64_t entries : numbers) Compare(Hits(entries, 1000000), rounds);
  } else {
    return Usage();
  }
}
