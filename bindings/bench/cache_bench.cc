// Compares a hit with its release, and a miss with an eviction, with those of LevelDB's cache by
// pairs of runs (pairs.hpp): one thread, keys of 16 bytes, and a std::mutex around the calls of
// each cache.
//
//   cache_bench [ROUNDS [CALLS]]     by default 9 rounds of 1,000,000 calls
//
// A hit looks up a key that is present and releases it. A miss looks up a key that is absent, makes
// its entry, which evicts another one, and releases it: Lookup, Insert and Release of a LevelDB
// cache; begin, ready and release of this one.
//
// The systems are LevelDB's own cache (leveldb-sharded), the calls of lru.h with keys of two words
// (c-words) and of bytes (c-bytes), lru::Cache (cpp-unsharded), lru::ShardedCache (cpp-sharded),
// and, as leveldb::Cache with 16 shards, what lru::NewLevelDBBlockCache (block-exact),
// lru::NewLevelDBCache (any-exact) and lru::NewLevelDBClockCache (block-clock) make. A hit of
// cpp-unsharded-read and cpp-sharded-read is a call of `read` of the classes.
#include <cstdint>
#include <cstdio>
#include <cstdlib>
#include <memory>
#include <mutex>
#include <string>
#include <string_view>
#include <type_traits>
#include <vector>

#include "leveldb/cache.h"
#include "leveldb_cache.h"
#include "leveldb_clock_cache.h"
#include "lru.h"
#include "lru.hpp"
#include "pairs.hpp"

namespace {

// The key of a block: its file, and its offset there.
lru::Words BlockOf(std::uint64_t n) { return lru::Words{1, n * 4096}; }

// A value that takes no time to make or to delete.
struct Nothing {};

// Each of these classes wraps a cache. Hit and Miss return whether the call was what its name says.

class LevelDBs {
 public:
  explicit LevelDBs(leveldb::Cache* cache) : cache_(cache) {}

  bool Hit(lru::Words block) {
    Handle* handle = cache_->Lookup(Key(&block));
    if (handle == nullptr) return false;
    cache_->Release(handle);
    return true;
  }

  bool Miss(lru::Words block) {
    const leveldb::Slice key = Key(&block);
    if (cache_->Lookup(key) != nullptr) return false;
    cache_->Release(cache_->Insert(key, this, 1, [](const leveldb::Slice&, void*) {}));
    return true;
  }

 private:
  using Handle = leveldb::Cache::Handle;

  static leveldb::Slice Key(const lru::Words* block) {
    return leveldb::Slice(reinterpret_cast<const char*>(block), sizeof *block);
  }

  std::unique_ptr<leveldb::Cache> cache_;
};

// The functions of lru.h, for either kind of key.
template <class Key>
class Calls {
  using C = lru::detail::Calls<Key>;

 public:
  explicit Calls(std::uint64_t capacity) {
    if (lru_chain_new(&gone_) != LRU_DONE ||
        lru_cache_new(C::kind, capacity, 0, &cache_) != LRU_DONE)
      std::exit(2);
  }

  ~Calls() {
    lru_cache_free(&cache_, &gone_);
    Pop();
    lru_chain_free(&gone_);
  }

  bool Hit(lru::Words block) {
    const auto key = KeyOf(&block);
    mutex_.lock();
    const lru_told told = C::get(&cache_, key);
    mutex_.unlock();
    if (told.code != LRU_HIT) return false;
    Release(told.pin);
    return true;
  }

  bool Miss(lru::Words block) {
    const auto key = KeyOf(&block);
    mutex_.lock();
    const lru_told told = C::begin(&cache_, key, 1, false, &gone_);
    mutex_.unlock();
    Pop();
    if (told.code != LRU_MAKE) return false;
    mutex_.lock();
    lru_cache_ready(&cache_, told.pin, 0);
    mutex_.unlock();
    Release(told.pin);
    return true;
  }

 private:
  static typename C::Hashed KeyOf(const lru::Words* block) {
    if constexpr (std::is_same_v<Key, lru::Words>) {
      return *block;
    } else {
      return C::hashed(Key(reinterpret_cast<const char*>(block), sizeof *block), lru::Seed(0));
    }
  }

  void Release(const lru_pin& pin) {
    mutex_.lock();
    lru_cache_release(&cache_, pin, &gone_);
    mutex_.unlock();
    Pop();
  }

  // Without the mutex, as the chain is this caller's own.
  void Pop() {
    lru_gone entry;
    while (lru_chain_pop(&gone_, &entry)) {
    }
  }

  std::mutex mutex_;
  lru_cache cache_ = {};
  lru_chain gone_ = {};
};

// The classes of lru.hpp, whose values are objects on the heap. With `kReads`, a hit calls `read`.
template <class Cache, bool kReads = false>
class Classes {
 public:
  explicit Classes(std::uint64_t capacity) : cache_(capacity) {}

  bool Hit(lru::Words block) {
    if constexpr (kReads) return cache_.read(block, [](const Nothing&) {});
    return static_cast<bool>(cache_.get(block));
  }

  bool Miss(lru::Words block) {
    bool made = false;
    cache_.get_or_init(block, 1, [&](lru::Words) {
      made = true;
      return Nothing();
    });
    return made;
  }

 private:
  Cache cache_;
};

enum class Kind { kHits, kMisses };

struct Work {
  Kind kind;
  std::uint64_t entries, calls;

  // A quarter more than the entries, so that a shard that got more than its share of them does not
  // evict before the hits are measured.
  std::uint64_t capacity() const { return entries + entries / 4; }
};

// Makes the calls, and ends the program if one of them is not what it should be.
template <class Call>
bench::Times Measure(const Work& work, const Call& call) {
  return bench::TimesOf(1, static_cast<double>(work.calls), [&](std::size_t) {
    std::uint64_t done = 0;
    for (std::uint64_t n = 0; n < work.calls; n++) done += call();
    if (done != work.calls) std::exit(3);
  });
}

template <class Cache>
bench::Times Measure(const Work& work, std::unique_ptr<Cache> cache) {
  std::uint64_t fresh = 0;
  for (std::uint64_t n = 0; n < work.entries; n++) {
    if (!cache->Miss(BlockOf(fresh++))) std::exit(2);
  }
  if (work.kind == Kind::kHits) {
    std::uint64_t random = 88172645463325252u;
    return Measure(work, [&] {
      random ^= random << 13;
      random ^= random >> 7;
      random ^= random << 17;
      return cache->Hit(BlockOf(random % work.entries));
    });
  }
  // After these every shard is full, so that each further miss evicts.
  for (std::uint64_t n = 0; n < work.entries; n++) cache->Miss(BlockOf(fresh++));
  return Measure(work, [&] { return cache->Miss(BlockOf(fresh++)); });
}

// Measures a class that wraps a cache.
template <class Cache>
bench::System Made(const char* name, const Work& work) {
  return {name, [&work] { return Measure(work, std::make_unique<Cache>(work.capacity())); }};
}

// Measures a LevelDB cache.
template <class New>
bench::System Made(const char* name, const Work& work, const New& make) {
  return {name, [&work, make] {
            return Measure(work, std::make_unique<LevelDBs>(make(work.capacity())));
          }};
}

std::vector<bench::System> SystemsFor(const Work& work) {
  constexpr std::size_t kShards = 16;  // as many as LevelDB's own has, whatever the capacity
  using One = lru::Cache<Nothing, lru::Words>;
  using Sharded = lru::ShardedCache<Nothing, lru::Words>;
  std::vector<bench::System> systems = {
      Made("leveldb-sharded", work, [](std::size_t n) { return leveldb::NewLRUCache(n); }),
      Made<Calls<lru::Words>>("c-words", work),
      Made<Calls<std::string_view>>("c-bytes", work),
      Made<Classes<One>>("cpp-unsharded", work),
      Made<Classes<Sharded>>("cpp-sharded", work),
      Made("block-exact", work,
           [](std::size_t n) { return lru::NewLevelDBBlockCache(n, kShards); }),
      Made("any-exact", work, [](std::size_t n) { return lru::NewLevelDBCache(n, kShards); }),
      Made("block-clock", work,
           [](std::size_t n) { return lru::NewLevelDBClockCache(n, kShards); })};
  if (work.kind == Kind::kHits) {
    systems.push_back(Made<Classes<One, true>>("cpp-unsharded-read", work));
    systems.push_back(Made<Classes<Sharded, true>>("cpp-sharded-read", work));
  }
  return systems;
}

}  // namespace

int main(int argc, char** argv) {
  const int rounds = argc > 1 ? std::atoi(argv[1]) : 9;
  const std::uint64_t calls = argc > 2 ? std::strtoull(argv[2], nullptr, 10) : 1000000;
  if (rounds < 1 || calls < 1 || argc > 3) {
    std::fprintf(stderr, "usage: cache_bench [ROUNDS [CALLS]]\n");
    return 2;
  }
  for (const std::uint64_t entries : {std::uint64_t{1000}, std::uint64_t{100000}}) {
    for (const auto& [name, kind] :
         {std::pair("hit_16", Kind::kHits), std::pair("miss_16", Kind::kMisses)}) {
      const Work work = {kind, entries, calls};
      bench::Compare(SystemsFor(work), std::string(name) + " " + std::to_string(entries) + " 1",
                     rounds);
    }
  }
}
