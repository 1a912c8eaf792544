// A leveldb::Cache built on the proved library of lru.h, to be used like leveldb::NewLRUCache:
//
//   leveldb::Options options;
//   options.block_cache = lru::NewLevelDBBlockCache(8 << 20);
//
// LevelDB's block cache has keys of 16 bytes, and LevelDBBlockCache caches only such keys: it
// stores them as two words, which is faster. LevelDBCache caches keys of any length.
//
// Among 100,000 entries, one of a LevelDBBlockCache takes 218 bytes of memory beside its value, one
// of a LevelDBCache with a key of 20 bytes 281, and one of LevelDB's own with a key of 16 bytes
// 107. They count only with the option charges_metadata. Of the 218 bytes, the node of the proved
// library takes 112, its tables 58, and what this header has for the entry and its key 48.
//
// Like LevelDB's own cache it has 16 shards, each with a mutex, and both choose the same shard for
// a key. As long as the entries that are pinned at one time fit into the capacity of their shard,
// and none is erased or replaced while it is pinned, both caches hold the same entries. The
// differences:
//
//  - If the capacity is below 256 KiB, there are fewer shards, so that each has a capacity of at
//    least 16 KiB, which is room for a few blocks of LevelDB's usual size. If blocks are larger,
//    pass options.block_size as the typical_charge, and if charges are not bytes, a number of
//    shards of your own. LevelDB's cache always has 16.
//  - Release evicts too. LevelDB's cache evicts only in Insert, so a shard whose pinned entries
//    exceeded its capacity stays above it until the next Insert. Here a shard is above its capacity
//    only while all of its entries are pinned. In particular, an entry larger than its shard's
//    capacity is evicted at its last Release: 16 shards with room for fewer than 16 blocks keep
//    almost nothing.
//  - Erase of a pinned entry, and Insert over one. The key finds the old entry no more, as in
//    LevelDB, but the old entry keeps its charge until its last Release, as its memory is still in
//    use. In LevelDB's cache it has no charge from then on.
//  - With a capacity of 0 LevelDB's cache never finds an entry. Here an entry is found while it is
//    pinned.
//  - A charge of 0 counts as 1, without charges_metadata.
//  - If there is no memory to cache an entry, or the total charge would overflow, Insert returns an
//    entry that is not cached: Lookup does not find it, and its last Release deletes it. LevelDB's
//    cache ends the process if an allocation fails; this one does so only if there is no memory for
//    the entry itself.
//  - Deleters run without the mutex, so they may be slow and may call the cache. LevelDB's cache
//    runs them with the mutex held.
//  - The destructor deletes entries that are still pinned. LevelDB's asserts that there are none.
//    Deleters that the destructor runs must not call the cache.
//
// Each cache hashes keys with a random seed, so that nobody can choose keys whose hashes are equal.
// If std::random_device has no random numbers, the process ends.
//
// Nothing here throws, and the header compiles with -fno-exceptions. If LevelDB was built without
// run-time type information, compile the file that includes this header with -fno-rtti.
#ifndef LRU_LEVELDB_CACHE_H
#define LRU_LEVELDB_CACHE_H

#include <algorithm>
#include <atomic>
#include <cstddef>
#include <cstdint>
#include <cstdlib>
#include <cstring>
#include <mutex>
#include <string_view>

#include "leveldb/cache.h"
#include "leveldb/slice.h"
#include "lru_block_cache.hpp"
#include "lru_core.hpp"

namespace lru {
namespace detail {

// The hash function of LevelDB's own cache.
template <class Slice>
std::uint32_t HashOf(const Slice& key) {
  constexpr std::uint32_t kFactor = 0xc6a4a793;
  const auto* at = reinterpret_cast<const std::uint8_t*>(key.data());
  const std::uint8_t* const end = at + key.size();
  std::uint32_t hash = static_cast<std::uint32_t>(key.size()) * kFactor;
  for (; end - at >= 4; at += 4) {
    std::uint32_t word;  // its lowest byte first, as x86-64 and aarch64 have it
    std::memcpy(&word, at, sizeof word);
    hash = (hash + word) * kFactor;
    hash ^= hash >> 16;
  }
  if (at == end) return hash;
  std::uint32_t rest = 0;
  std::memcpy(&rest, at, static_cast<std::size_t>(end - at));
  hash = (hash + rest) * kFactor;
  return hash ^ hash >> 24;
}

// Deletes the value of an entry, unless the pointer is null.
struct LevelDBDeleter {
  void (*pointer)(const leveldb::Slice& key, void* value);
  void operator()(const leveldb::Slice& key, void* value) const {
    if (pointer != nullptr) pointer(key, value);
  }
};

// Caches for LevelDB have `New` and `ShardsFor` of BlockCacheMaking, and up to 16 shards, as
// LevelDB's own.
template <class Self>
using LevelDBMaking = BlockCacheMaking<Self, BlockCacheOptions, 16, 0>;

}  // namespace detail

// `Key` is how the library stores keys: std::string_view or Words.
template <class Key>
class BasicLevelDBCache : public leveldb::Cache,
                          public detail::LevelDBMaking<BasicLevelDBCache<Key>> {
  using Making = detail::LevelDBMaking<BasicLevelDBCache<Key>>;

 public:
  BasicLevelDBCache(const BasicLevelDBCache&) = delete;
  BasicLevelDBCache& operator=(const BasicLevelDBCache&) = delete;

  // These are as leveldb/cache.h describes them, with the differences above. Any thread may call
  // them at any time.

  Handle* Insert(const leveldb::Slice& key, void* value, std::size_t charge,
                 void (*deleter)(const leveldb::Slice& key, void* value)) override {
    Entry* entry = Entry::New(key, value, {deleter});
    // Insert has no way to report this.
    if (entry == nullptr) std::abort();
    if (!CanStore(key)) return reinterpret_cast<Handle*>(entry);
    const std::uint64_t weight =
        std::max<std::size_t>(detail::SumOf(charge, Metadata(key.size())), 1);
    const auto hashed = Hashed(key);
    entry->shard = ShardOf(key);
    Shard& shard = shards_[entry->shard];
    Evicted evicted;
    const std::lock_guard<detail::Mutex> lock(shard.mutex);
    const lru_told told = shard.core.insert(hashed, weight, entry, &evicted);
    if (told.code == LRU_DONE) {
      entry->SetPin(told.pin);
    } else {
      // The old entry must not be found either.
      shard.core.invalidate(hashed, &evicted);
    }
    return reinterpret_cast<Handle*>(entry);
  }

  Handle* Lookup(const leveldb::Slice& key) override {
    if (!CanStore(key)) return nullptr;
    const auto hashed = Hashed(key);
    Shard& shard = shards_[ShardOf(key)];
    const std::lock_guard<detail::Mutex> lock(shard.mutex);
    const lru_told told = shard.core.get(hashed);
    // It is a miss too if the entry has 2^32 - 1 handles. If the key is longer than any before and
    // there is no memory for a copy, it has no entry.
    if (told.code != LRU_HIT) return nullptr;
    return reinterpret_cast<Handle*>(detail::node_of<Entry>(told.value));
  }

  void Release(Handle* handle) override {
    Entry* entry = reinterpret_cast<Entry*>(handle);
    if (!entry->is_cached()) {
      delete entry;
      return;
    }
    Shard& shard = shards_[entry->shard];
    const lru_pin pin = entry->pin(shard.core.hash_of(Hashed(entry->key())));
    Evicted evicted;
    const std::lock_guard<detail::Mutex> lock(shard.mutex);
    shard.core.release(pin, &evicted);
  }

  void* Value(Handle* handle) override { return reinterpret_cast<Entry*>(handle)->value; }

  void Erase(const leveldb::Slice& key) override {
    if (!CanStore(key)) return;
    const auto hashed = Hashed(key);
    Shard& shard = shards_[ShardOf(key)];
    Evicted evicted;
    const std::lock_guard<detail::Mutex> lock(shard.mutex);
    // This is refused only if the key is longer than any before, and then it has no entry.
    shard.core.invalidate(hashed, &evicted);
  }

  std::uint64_t NewId() override { return ++last_id_; }

  void Prune() override {
    for (Shard& shard : shards_) {
      Evicted evicted;
      const std::lock_guard<detail::Mutex> lock(shard.mutex);
      shard.core.prune(&evicted);
    }
  }

  std::size_t TotalCharge() const override {
    return shards_.Sum([](const Shard& shard) { return shard.core.total(); });
  }

 private:
  friend Making;
  using Entry = detail::BlockEntry<leveldb::Slice, detail::LevelDBDeleter>;
  using Core = detail::Core<Entry, Key>;
  // Always declared before the mutex is locked: it is destroyed, and deleters run, after the mutex
  // is unlocked.
  using Evicted = detail::Evicted<Entry>;

  // What each call uses of a shard lies in one line of memory.
  struct alignas(64) Shard {
    Core core;
    mutable detail::Mutex mutex;
  };

  BasicLevelDBCache(const BlockCacheOptions& options, Seed seed)
      : shards_(Making::ShardsOf(options), seed), charges_metadata_(options.charges_metadata) {}

  bool Open(const BlockCacheOptions& options) {
    return shards_.Open(options, Metadata(sizeof(Words)));
  }

  // What an entry with a key of this length counts besides its charge.
  std::size_t Metadata(std::size_t length) const {
    return charges_metadata_ ? detail::MetadataOf<Entry, Key>(length) : 0;
  }

  static bool CanStore(const leveldb::Slice& key) { return detail::CanStore<Key>(key); }

  // Both of these come before the mutex of the shard is locked. The hash of LevelDB's own cache
  // cannot serve the table too: it has no seed, so anybody can choose keys for which it is equal.
  auto Hashed(const leveldb::Slice& key) const { return detail::Hashed<Key>(key, shards_.seed()); }

  // Of 16 shards, the one that LevelDB's own cache has for the key.
  std::uint8_t ShardOf(const leveldb::Slice& key) const {
    return shards_.NumberFor(detail::HashOf(key));
  }

  detail::Shards<Shard, Making::kMostShards> shards_;
  const bool charges_metadata_;
  std::atomic<std::uint64_t> last_id_{0};
};

// Caches keys of any length.
using LevelDBCache = BasicLevelDBCache<std::string_view>;

// Caches keys of 16 bytes only. Insert returns entries of other keys, but they are not cached.
using LevelDBBlockCache = BasicLevelDBCache<Words>;

// A LevelDBCache with the given capacity or options, or null if there is no memory for it. There
// are 16 shards, or fewer if the capacity is below 256 KiB, unless their number, from 1 to 16, is
// passed. The caller deletes the cache after the last database that uses it.
inline leveldb::Cache* NewLevelDBCache(std::size_t capacity) { return LevelDBCache::New(capacity); }
inline leveldb::Cache* NewLevelDBCache(std::size_t capacity, std::size_t shards) {
  return LevelDBCache::New(capacity, shards);
}
inline leveldb::Cache* NewLevelDBCache(const BlockCacheOptions& options) {
  return LevelDBCache::New(options);
}

// The same, for a LevelDBBlockCache.
inline leveldb::Cache* NewLevelDBBlockCache(std::size_t capacity) {
  return LevelDBBlockCache::New(capacity);
}
inline leveldb::Cache* NewLevelDBBlockCache(std::size_t capacity, std::size_t shards) {
  return LevelDBBlockCache::New(capacity, shards);
}
inline leveldb::Cache* NewLevelDBBlockCache(const BlockCacheOptions& options) {
  return LevelDBBlockCache::New(options);
}

}  // namespace lru

#endif
