// A rocksdb::Cache built on the clock of lru.h, whose hits take no lock. It is used like RocksDB's
// HyperClockCache, as a block cache:
//
//   rocksdb::BlockBasedTableOptions table;
//   table.block_cache = lru::NewRocksDBClockCache(64 << 20);
//   rocksdb::Options options;
//   options.table_factory.reset(rocksdb::NewBlockBasedTableFactory(table));
//
// It is for RocksDB 7.8 and 9.10. Keys have 16 bytes, as those of RocksDB's block cache have; a
// cache of rows needs lru::NewRocksDBCache of rocksdb_cache.h. In RocksDB 9.10, text can name it
// after lru::RegisterRocksDBCache<lru::RocksDBClockCache>(), as rocksdb_cache.h says.
//
// Lookup, Ref and Release take no lock: each thread finds entries by readers of its own, one for
// each shard. They are made by its first call on the shard, under the shard's mutex, and stay for a
// later thread when it ends. These still take the mutex of a shard: Insert and Erase; the last
// Release of an entry that was erased or replaced, or while the total is above the capacity, as it
// evicts then; Release with erase_if_last_ref; and a thread for which there is no memory for a
// reader. An entry is one object on the heap, whose address is the handle.
//
// In what it does it is as the caches of rocksdb_cache.h, except for this:
//
//  - Entries leave in about the order of their last uses, and not exactly: new ones that nobody has
//    used again leave first, and one that is used often is spared several times.
//  - A key that has not 16 bytes is refused, as HyperClockCache refuses it: Insert returns
//    NotSupported, Lookup and CreateStandalone return null, and Erase does nothing.
//  - While another thread inserts or erases entries of the same shard, Lookup may miss an entry
//    that is there. The database reads the block then, as after any miss.
//  - Insert makes room while an older entry of the key counts. With the strict limit, an Insert or
//    a CreateStandalone that is refused has evicted the entries of the shard that are not pinned.
//    RocksDB's own caches do the same.
//  - An entry has at most about 2^30 handles. Then Lookup does not find it, and Ref returns false.
//  - ApplyToAllEntries holds no mutex while the callback runs: the callback may call the cache, and
//    other threads are not slowed. It needs no memory.
//  - GetPinnedUsage visits all entries, as that of HyperClockCache does. GetTableAddressCount
//    returns the sum over all shards of the greatest number of entries that there were at once, or
//    of those that a typical charge in the options lets expect, if that is more.
//  - While a table grows, only calls that take the mutex wait.
//
// Compared with HyperClockCache: Insert of a key that has an entry replaces that entry, whereas
// HyperClockCache keeps it. The capacity is not limited by an estimated charge of entries.
// Priorities are accepted and not distinguished in either.
//
// Among 100,000 entries, one takes about 200 bytes of memory beside its value. They count only with
// the option charges_metadata.
//
// Of the clock less is proved than of the other caches: THE CLOCK in lru.h says what. This header
// and those it includes add the mutexes, the readers of threads and the entries. They are ordinary
// C++, tested beside RocksDB's own caches, with threads, with AddressSanitizer, UBSan and
// ThreadSanitizer, and with requests for memory that are refused. Nothing here throws, except that
// GetPrintableOptions throws std::bad_alloc if there is no memory for its result. The header
// compiles with -fno-exceptions. If RocksDB was built without run-time type information, compile
// the file that includes this header with -fno-rtti.
#ifndef LRU_ROCKSDB_CLOCK_CACHE_H
#define LRU_ROCKSDB_CLOCK_CACHE_H

#include <atomic>
#include <cstddef>
#include <cstdint>
#include <memory>
#include <string>

#include "lru_block_cache.hpp"
#include "lru_clock_block_cache.hpp"
#include "lru_core.hpp"
#include "rocksdb/cache.h"
#include "rocksdb/slice.h"
#include "rocksdb/status.h"
#include "rocksdb_cache.h"

namespace lru {
namespace detail {

using RocksDBClockEntry = ClockEntry<rocksdb::Slice, RocksDBDeleter>;

}  // namespace detail

class RocksDBClockCache
    : public detail::RocksDBInterface<RocksDBClockCache, detail::RocksDBClockEntry> {
  using Interface = detail::RocksDBInterface<RocksDBClockCache, detail::RocksDBClockEntry>;

 public:
  RocksDBClockCache(const RocksDBClockCache&) = delete;
  RocksDBClockCache& operator=(const RocksDBClockCache&) = delete;

  // These, and those of RocksDBInterface, are as rocksdb/cache.h or rocksdb/advanced_cache.h
  // describes them, with the differences above. Any thread may call them at any time.

  static const char* ClassName() { return "lru::RocksDBClockCache"; }
  const char* Name() const override { return ClassName(); }

  bool Ref(Handle* handle) override { return blocks_.Ref(EntryOf(handle)); }

  using Interface::Release;
  bool Release(Handle* handle, bool erase_if_last_ref = false) override {
    Entry* entry = EntryOf(handle);
    return erase_if_last_ref ? blocks_.ReleaseAndEvict(entry) : blocks_.Release(entry);
  }

  void Erase(const rocksdb::Slice& key) override {
    if (detail::HasWords(key)) blocks_.Erase(key);
  }

  std::uint64_t NewId() override { return ++last_id_; }

  void SetCapacity(std::size_t capacity) override {
    capacity_ = capacity;
    // Read again, as another thread may have set it meanwhile: all shards end with shares of the
    // same capacity.
    blocks_.SetCapacity([&] { return capacity_.load(); });
  }
  std::size_t GetCapacity() const override { return capacity_; }

  void SetStrictCapacityLimit(bool strict_capacity_limit) override {
    is_strict_ = strict_capacity_limit;
  }
  bool HasStrictCapacityLimit() const override { return is_strict_; }

  using Interface::GetUsage;
  std::size_t GetUsage() const override { return blocks_.TotalCharge(); }
  std::size_t GetPinnedUsage() const override { return blocks_.PinnedCharge(); }
  std::size_t GetOccupancyCount() const override { return blocks_.Found(); }
  std::size_t GetTableAddressCount() const override { return blocks_.Places(); }

  void EraseUnRefEntries() override { blocks_.Prune(); }

  std::string GetPrintableOptions() const override {
    return Printable(blocks_.count(), metadata_ != 0);
  }

 private:
  friend Interface;
  friend Making;
  using Entry = detail::RocksDBClockEntry;
  using Blocks = detail::ClockBlocks<Entry>;

  RocksDBClockCache(const RocksDBCacheOptions& options, Seed seed)
      : blocks_(ShardsOf(options), seed),
        metadata_(options.charges_metadata ? detail::ClockMetadata<Entry>() : 0),
        capacity_(options.capacity),
        is_strict_(options.strict_capacity_limit) {}

  bool Open(const RocksDBCacheOptions& options) { return blocks_.Open(options, metadata_); }

  // What an entry counts.
  std::uint64_t WeightOf(const Entry& entry) const {
    return detail::SumOf(entry.charge, metadata_);
  }

  // Null if there is no memory.
  Entry* NewEntry(const rocksdb::Slice& key, void* value, Helper helper, std::size_t charge) const {
    // The library has no entries without a charge.
    return Entry::New(key, value, {helper}, charge == 0 && metadata_ == 0 ? 1 : charge);
  }

  // Deletes an entry whose value stays the caller's.
  static void Refuse(Entry* entry) {
    entry->KeepValue();
    delete entry;
  }

  // Insert, which leaves the value to the caller unless it returns OK.
  rocksdb::Status InsertValue(const rocksdb::Slice& key, void* value, Helper helper,
                              std::size_t charge, Handle** handle) {
    if (handle != nullptr) *handle = nullptr;
    if (!detail::HasWords(key)) return rocksdb::Status::NotSupported();
    Entry* entry = NewEntry(key, value, helper, charge);
    if (entry == nullptr) return rocksdb::Status::MemoryLimit();
    const detail::ClockKey hashed = blocks_.Hashed(key);
    entry->shard = static_cast<std::uint8_t>(hashed.shard);
    const std::uint64_t weight = WeightOf(*entry);
    typename Blocks::Call call(&blocks_, hashed.shard);
    const bool has_room = call.MakeRoom(weight);
    if (!has_room && (is_strict_ || handle == nullptr)) {
      if (handle != nullptr) {
        Refuse(entry);
        return rocksdb::Status::MemoryLimit();
      }
      // As if it had been evicted at once.
      call.Delete(entry);
      return rocksdb::Status::OK();
    }
    const bool replaces = call.Add(hashed, entry, weight);
    if (!has_room) call.MakeRoom(0);
    if (handle != nullptr) {
      *handle = HandleOf(entry);
    } else if (entry->is_cached) {
      call.Unpin(*entry);
    } else {
      call.Delete(entry);
    }
    return replaces ? rocksdb::Status::OkOverwritten() : rocksdb::Status::OK();
  }

  // An entry that counts and that no key finds, or null.
  Entry* NewStandalone(const rocksdb::Slice& key, void* value, Helper helper, std::size_t charge,
                       bool allow_uncharged) {
    if (!detail::HasWords(key)) return nullptr;
    Entry* entry = NewEntry(key, value, helper, charge);
    if (entry == nullptr) return nullptr;
    const std::uint32_t shard = blocks_.Hashed(key).shard;
    entry->shard = static_cast<std::uint8_t>(shard);
    const std::uint64_t weight = WeightOf(*entry);
    typename Blocks::Call call(&blocks_, shard);
    const bool is_strict = is_strict_;
    const bool has_room = call.MakeRoom(weight);
    if (has_room || !is_strict) call.AddDetached(entry, weight);
    if (!has_room) call.MakeRoom(0);
    if (!entry->is_cached) {
      if (is_strict && !allow_uncharged) {
        Refuse(entry);
        return nullptr;
      }
      entry->charge = 0;
    }
    return entry;
  }

  Entry* Find(const rocksdb::Slice& key) {
    return detail::HasWords(key) ? blocks_.Find(key) : nullptr;
  }

  template <class Visit>
  void ForEachFound(const Visit& visit) {
    blocks_.ForEachFound(visit);
  }

  // Hits read the first line of these, and nothing but a new capacity, limit or number is written
  // in the others.
  alignas(64) Blocks blocks_;
  const std::size_t metadata_;
  alignas(64) std::atomic<std::size_t> capacity_;
  std::atomic<bool> is_strict_;
  std::atomic<std::uint64_t> last_id_{0};
};

// A RocksDBClockCache with the given capacity or options, or null if there is no memory for it; but
// if there is none for the counts of the std::shared_ptr, the process ends. There are 64 shards, or
// fewer if the capacity is below 32 MiB, unless their number, from 1 to 64, is passed.
inline std::shared_ptr<rocksdb::Cache> NewRocksDBClockCache(std::size_t capacity) noexcept {
  return std::shared_ptr<rocksdb::Cache>(RocksDBClockCache::New(capacity));
}
inline std::shared_ptr<rocksdb::Cache> NewRocksDBClockCache(
    std::size_t capacity, std::size_t shards, bool strict_capacity_limit = false) noexcept {
  return std::shared_ptr<rocksdb::Cache>(
      RocksDBClockCache::New(capacity, shards, strict_capacity_limit));
}
inline std::shared_ptr<rocksdb::Cache> NewRocksDBClockCache(
    const RocksDBCacheOptions& options) noexcept {
  return std::shared_ptr<rocksdb::Cache>(RocksDBClockCache::New(options));
}

}  // namespace lru

#endif
