// A leveldb::Cache built on the clock of lru.h, whose hits take no lock:
//
//   leveldb::Options options;
//   options.block_cache = lru::NewLevelDBClockCache(8 << 20);
//
// LevelDB's block cache has keys of 16 bytes, and LevelDBClockCache caches only such keys. Insert
// returns entries of other keys, but they are not cached: Lookup does not find them, and their
// Release deletes them.
//
// Lookup and Release take no lock: each thread finds entries by readers of its own, one for each
// shard. They are made by its first call on the shard, under the shard's mutex, and stay for a
// later thread when it ends. These still take the mutex of a shard: Insert and Erase; the last
// Release of an entry that was erased or replaced, or while the total is above the capacity, as it
// evicts then; and a thread for which there is no memory for a reader. An entry is one object on
// the heap, whose address is the handle.
//
// It has shards as LevelDBBlockCache of leveldb_cache.h has, but chooses another one for a key. In
// what it does it is as that cache, except for this:
//
//  - Entries leave in about the order of their last uses, and not exactly: new ones that nobody has
//    used again leave first, and one that is used often is spared several times.
//  - While another thread inserts or erases entries of the same shard, Lookup may miss an entry
//    that is there. The database reads the block then, as after any miss.
//  - Insert makes room while an older entry of the key counts.
//  - An entry has at most about 2^30 handles. Then Lookup does not find it.
//  - While a table grows, only calls that take the mutex wait.
//
// Among 100,000 entries, one takes about 200 bytes of memory beside its value. They count only with
// the option charges_metadata.
//
// Of the clock less is proved than of the other caches: THE CLOCK in lru.h says what. This header
// and those it includes add the mutexes, the readers of threads and the entries. They are ordinary
// C++, tested beside LevelDB's own cache, with threads, and with AddressSanitizer, UBSan and
// ThreadSanitizer. Nothing here throws, and the header compiles with -fno-exceptions. If LevelDB
// was built without run-time type information, compile the file that includes this header with
// -fno-rtti.
#ifndef LRU_LEVELDB_CLOCK_CACHE_H
#define LRU_LEVELDB_CLOCK_CACHE_H

#include <algorithm>
#include <atomic>
#include <cstddef>
#include <cstdint>
#include <cstdlib>

#include "leveldb/cache.h"
#include "leveldb/slice.h"
#include "leveldb_cache.h"
#include "lru_block_cache.hpp"
#include "lru_clock_block_cache.hpp"
#include "lru_core.hpp"

namespace lru {

class LevelDBClockCache : public leveldb::Cache, public detail::LevelDBMaking<LevelDBClockCache> {
 public:
  LevelDBClockCache(const LevelDBClockCache&) = delete;
  LevelDBClockCache& operator=(const LevelDBClockCache&) = delete;

  // These are as leveldb/cache.h describes them, with the differences above. Any thread may call
  // them at any time.

  Handle* Insert(const leveldb::Slice& key, void* value, std::size_t charge,
                 void (*deleter)(const leveldb::Slice& key, void* value)) override {
    Entry* entry = Entry::New(key, value, {deleter}, charge);
    // Insert has no way to report this.
    if (entry == nullptr) std::abort();
    if (detail::HasWords(key)) {
      const std::uint64_t weight = std::max<std::size_t>(detail::SumOf(charge, metadata_), 1);
      const detail::ClockKey hashed = blocks_.Hashed(key);
      entry->shard = static_cast<std::uint8_t>(hashed.shard);
      Blocks::Call call(&blocks_, hashed.shard);
      const bool has_room = call.MakeRoom(weight);
      call.Add(hashed, entry, weight);
      if (!has_room) call.MakeRoom(0);
    }
    return HandleOf(entry);
  }

  Handle* Lookup(const leveldb::Slice& key) override {
    return detail::HasWords(key) ? HandleOf(blocks_.Find(key)) : nullptr;
  }

  void Release(Handle* handle) override { blocks_.Release(EntryOf(handle)); }

  void* Value(Handle* handle) override { return EntryOf(handle)->value; }

  void Erase(const leveldb::Slice& key) override {
    if (detail::HasWords(key)) blocks_.Erase(key);
  }

  std::uint64_t NewId() override { return ++last_id_; }

  void Prune() override { blocks_.Prune(); }

  std::size_t TotalCharge() const override { return blocks_.TotalCharge(); }

 private:
  friend detail::LevelDBMaking<LevelDBClockCache>;
  using Entry = detail::ClockEntry<leveldb::Slice, detail::LevelDBDeleter>;
  using Blocks = detail::ClockBlocks<Entry>;

  LevelDBClockCache(const BlockCacheOptions& options, Seed seed)
      : blocks_(ShardsOf(options), seed),
        metadata_(options.charges_metadata ? detail::ClockMetadata<Entry>() : 0) {}

  bool Open(const BlockCacheOptions& options) { return blocks_.Open(options, metadata_); }

  static Handle* HandleOf(Entry* entry) { return reinterpret_cast<Handle*>(entry); }
  static Entry* EntryOf(Handle* handle) { return reinterpret_cast<Entry*>(handle); }

  // Hits read these, and NewId writes what follows.
  alignas(64) Blocks blocks_;
  const std::size_t metadata_;
  alignas(64) std::atomic<std::uint64_t> last_id_{0};
};

// A LevelDBClockCache with the given capacity or options, or null if there is no memory for it.
// There are 16 shards, or fewer if the capacity is below 256 KiB, unless their number, from 1 to
// 16, is passed. The caller deletes the cache after the last database that uses it.
inline leveldb::Cache* NewLevelDBClockCache(std::size_t capacity) {
  return LevelDBClockCache::New(capacity);
}
inline leveldb::Cache* NewLevelDBClockCache(std::size_t capacity, std::size_t shards) {
  return LevelDBClockCache::New(capacity, shards);
}
inline leveldb::Cache* NewLevelDBClockCache(const BlockCacheOptions& options) {
  return LevelDBClockCache::New(options);
}

}  // namespace lru

#endif
