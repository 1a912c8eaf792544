// A rocksdb::Cache built on the proved library of lru.h, to be used like rocksdb::NewLRUCache:
//
//   rocksdb::BlockBasedTableOptions table;
//   table.block_cache = lru::NewRocksDBBlockCache(64 << 20);
//   rocksdb::Options options;
//   options.table_factory.reset(rocksdb::NewBlockBasedTableFactory(table));
//
// It is for RocksDB 7.8 and 9.10. RocksDB's block cache has keys of 16 bytes, and RocksDBBlockCache
// caches only such keys: it stores them as two words, which is faster. RocksDBCache caches keys of
// any length, such as those of a row cache.
//
// Among 100,000 entries, one of a RocksDBBlockCache takes 234 bytes of memory beside its value, one
// of a RocksDBCache with a key of 16 bytes 282, and one of RocksDB's own 107. They count only with
// the option charges_metadata. Of the 234 bytes, the node of the proved library takes 112, its
// tables 58, and what this header has for the entry and its key 64.
//
// Like RocksDB's own LRU cache it has shards, each with a mutex, and evicts what was released
// longest ago. With the same shards, both caches give the same answers and hold the same entries,
// if RocksDB's has one list for entries of all priorities (high_pri_pool_ratio and
// low_pri_pool_ratio are 0) and charges no metadata (kDontChargeCacheMetadata). The differences:
//
//  - Priorities are accepted and not distinguished. docs/EMBEDDING.md has what a database misses
//    without them in one workload, of reads and scans. There the cache of rocksdb_clock_cache.h
//    misses less than RocksDB's own with them.
//  - The memory of the cache itself is charged only with charges_metadata, and not by default.
//  - A charge of 0 counts as 1, without charges_metadata. A database pins one such entry, for its
//    statistics.
//  - The number of shards is any number from 1 to 64, not a power of two, and a key has another
//    shard than in RocksDB's cache.
//  - Insert for a key that has an entry. If the old entry is not pinned, it leaves before room is
//    made for the new one. RocksDB's cache makes room while both count, so it may evict another
//    entry. If it evicts the old entry itself, it returns OK; here it is OkOverwritten.
//  - With the strict limit, an Insert with a handle is refused with MemoryLimit if the charge and
//    those of the pinned entries of the shard add up to more than the shard's capacity. Nothing has
//    changed then. RocksDB's cache has evicted all entries that are not pinned. The status has no
//    message here.
//  - Insert without a handle, where there is no room beside the pinned entries. As in RocksDB's
//    cache, it returns OK and deletes the value, as if the entry had been evicted at once; an entry
//    of the key that is pinned stays. Without the strict limit, all entries that are not pinned are
//    evicted, as in RocksDB's cache. With it, only that of the key is.
//  - An entry has at most 2^32 - 1 handles. Then Lookup does not find it, and Ref returns false.
//  - If there is no memory for an entry, Insert returns MemoryLimit, and nothing has changed; but
//    without a handle the value is deleted in RocksDB 7.8, as its interface says. If there is
//    memory for the entry but none to cache it, or the total charge would overflow, Insert returns
//    OK and an entry that is not cached: Lookup does not find it, no number counts it, and its last
//    Release deletes it. An earlier entry of the key is erased. This is better than MemoryLimit for
//    a database, whose read fails then. RocksDB's cache ends the process if an allocation fails.
//  - CreateStandalone (RocksDB 9.10) evicts nothing if there is no room with the strict limit. If
//    there is no memory for the entry, it returns null. If there is none to count it, or the total
//    would overflow, the entry is uncharged; with the strict limit only if that is allowed, and
//    otherwise null is returned.
//  - ApplyToAllEntries holds the mutex of a shard while it visits all of its entries, whatever
//    average_entries_per_lock is. The callback may read the key and the value and change what they
//    point to, but it must not call the cache, wait for a thread that does, or delete the value. If
//    there is no memory for a list of the entries of a shard, they are not visited.
//  - Lookup does not use its statistics. There is no secondary cache and no memory allocator: of a
//    CacheItemHelper only the deleter is called. Eviction callbacks (RocksDB 9.10) are not called.
//  - The destructor deletes entries that are still pinned; RocksDB's leaves them. Deleters that the
//    destructor runs must not call the cache. Other deleters run without the mutex, as in RocksDB's
//    cache, so they may be slow and may call the cache.
//  - GetOccupancyCount returns the number of entries that keys find, as RocksDB's headers say. That
//    of RocksDB 7.8's cache returns what GetPinnedUsage does.
//  - DisownData does nothing, and GetTableAddressCount and GetHashSeed return 0.
//
// Each cache hashes keys with a random seed, so that nobody can choose keys whose hashes are equal.
// If std::random_device has no random numbers, the process ends.
//
// In RocksDB 9.10, whose registry knows of caches, text can name a cache that was registered:
//
//   lru::RegisterRocksDBCache<lru::RocksDBBlockCache>();
//   rocksdb::Cache::CreateFromString(config, "id=lru::RocksDBBlockCache://64M", &cache);
//
// Nothing here throws, except that GetPrintableOptions, RegisterRocksDBCache and what RocksDB then
// calls to create a cache throw std::bad_alloc if there is no memory. The header compiles with
// -fno-exceptions. If RocksDB was built without run-time type information, compile the file that
// includes this header with -fno-rtti.
#ifndef LRU_ROCKSDB_CACHE_H
#define LRU_ROCKSDB_CACHE_H

#include <algorithm>
#include <atomic>
#include <cstddef>
#include <cstdint>
#include <cstdio>
#include <cstdlib>
#include <functional>
#include <memory>
#include <mutex>
#include <string>
#include <string_view>
#include <type_traits>
#include <unordered_map>

#include "lru_block_cache.hpp"
#include "lru_core.hpp"
#include "rocksdb/cache.h"
#include "rocksdb/slice.h"
#include "rocksdb/statistics.h"
#include "rocksdb/status.h"
#include "rocksdb/version.h"

#if ROCKSDB_MAJOR == 9 && ROCKSDB_MINOR == 10
#include "rocksdb/advanced_cache.h"
#include "rocksdb/convenience.h"
#include "rocksdb/utilities/object_registry.h"
#include "rocksdb/utilities/options_type.h"
#elif ROCKSDB_MAJOR != 7 || ROCKSDB_MINOR != 8
#error "lru: rocksdb_cache.h is for RocksDB 7.8 and 9.10"
#endif

namespace lru {

// What a cache for RocksDB is created with.
struct RocksDBCacheOptions : BlockCacheOptions {
  // Whether Insert refuses entries for which there is no room.
  bool strict_capacity_limit = false;
};

namespace detail {

#if ROCKSDB_MAJOR == 7
using RocksDBHelper = rocksdb::Cache::DeleterFn;
#else
using RocksDBHelper = const rocksdb::Cache::CacheItemHelper*;
#endif

// Deletes the value of an entry, unless the pointer is null or its helper has no deleter.
struct RocksDBDeleter {
  RocksDBHelper pointer;
#if ROCKSDB_MAJOR == 7
  void operator()(const rocksdb::Slice& key, void* value) const {
    if (pointer != nullptr) pointer(key, value);
  }
#else
  void operator()(const rocksdb::Slice&, void* value) const {
    if (pointer != nullptr && pointer->del_cb != nullptr) pointer->del_cb(value, nullptr);
  }
#endif
};

// Caches for RocksDB have `New` and `ShardsFor` of BlockCacheMaking, and up to 64 shards.
template <class Self>
using RocksDBMaking = BlockCacheMaking<Self, RocksDBCacheOptions, 64, 512 << 10>;

// The members of a cache that RocksDB 8 and 9 changed, and those that only read an entry. A `Self`
// has the members that these call. Handles are the addresses of entries.
template <class Self, class Entry>
class RocksDBInterface : public rocksdb::Cache, public RocksDBMaking<Self> {
 protected:
  using Making = RocksDBMaking<Self>;

 public:
  using Helper = RocksDBHelper;

  // With a number of shards, and a limit that may be strict.
  using Making::New;
  static Self* New(std::size_t capacity, std::size_t shards, bool strict_capacity_limit) noexcept {
    RocksDBCacheOptions options = Making::With(capacity, std::max<std::size_t>(shards, 1));
    options.strict_capacity_limit = strict_capacity_limit;
    return New(options);
  }

#if ROCKSDB_MAJOR == 7
  using rocksdb::Cache::Insert;
  rocksdb::Status Insert(const rocksdb::Slice& key, void* value, std::size_t charge,
                         DeleterFn deleter, Handle** handle = nullptr,
                         Priority = Priority::LOW) override {
    const rocksdb::Status status = self()->InsertValue(key, value, deleter, charge, handle);
    if (!status.ok() && handle == nullptr) RocksDBDeleter{deleter}(key, value);
    return status;
  }

  using rocksdb::Cache::Lookup;
  Handle* Lookup(const rocksdb::Slice& key, rocksdb::Statistics* = nullptr) override {
    return HandleOf(self()->Find(key));
  }

  DeleterFn GetDeleter(Handle* handle) const override { return EntryOf(handle)->deleter().pointer; }
#else
  rocksdb::Status Insert(
      const rocksdb::Slice& key, ObjectPtr value, const CacheItemHelper* helper,
      std::size_t charge, Handle** handle = nullptr, Priority = Priority::LOW,
      const rocksdb::Slice& = rocksdb::Slice(),
      rocksdb::CompressionType = rocksdb::CompressionType::kNoCompression) override {
    return self()->InsertValue(key, value, helper, charge, handle);
  }

  Handle* CreateStandalone(const rocksdb::Slice& key, ObjectPtr value,
                           const CacheItemHelper* helper, std::size_t charge,
                           bool allow_uncharged) override {
    return HandleOf(self()->NewStandalone(key, value, helper, charge, allow_uncharged));
  }

  Handle* Lookup(const rocksdb::Slice& key, const CacheItemHelper* = nullptr,
                 CreateContext* = nullptr, Priority = Priority::LOW,
                 rocksdb::Statistics* = nullptr) override {
    return HandleOf(self()->Find(key));
  }

  const CacheItemHelper* GetCacheItemHelper(Handle* handle) const override {
    return EntryOf(handle)->deleter().pointer;
  }

  void ApplyToHandle(rocksdb::Cache*, Handle* handle,
                     const std::function<void(const rocksdb::Slice& key, ObjectPtr value,
                                              std::size_t charge, const CacheItemHelper* helper)>&
                         callback) override {
    Visit(*EntryOf(handle), callback);
  }
#endif

  void ApplyToAllEntries(const std::function<void(const rocksdb::Slice& key, void* value,
                                                  std::size_t charge, Helper helper)>& callback,
                         const ApplyToAllEntriesOptions&) override {
    self()->ForEachFound([&](const Entry& entry) { Visit(entry, callback); });
  }

  void* Value(Handle* handle) override { return EntryOf(handle)->value; }
  std::size_t GetUsage(Handle* handle) const override { return EntryOf(handle)->charge; }
  std::size_t GetCharge(Handle* handle) const override { return EntryOf(handle)->charge; }

 protected:
  static Handle* HandleOf(Entry* entry) { return reinterpret_cast<Handle*>(entry); }
  static Entry* EntryOf(Handle* handle) { return reinterpret_cast<Entry*>(handle); }

  // GetPrintableOptions, of a cache with these.
  std::string Printable(std::size_t shards, bool charges_metadata) const {
    char text[160];
    std::snprintf(text, sizeof text,
                  "    capacity : %zu\n    shards : %zu\n    strict_capacity_limit : %d\n"
                  "    charges_metadata : %d\n",
                  GetCapacity(), shards, HasStrictCapacityLimit() ? 1 : 0,
                  charges_metadata ? 1 : 0);
    return text;
  }

 private:
  Self* self() { return static_cast<Self*>(this); }

  template <class Callback>
  static void Visit(const Entry& entry, const Callback& callback) {
    callback(entry.key(), entry.value, entry.charge, entry.deleter().pointer);
  }
};

struct RocksDBMore {
  // Of an entry that is not in the cache, how many handles it has besides one.
  std::atomic<std::size_t> other_handles{0};
  std::size_t charge = 0;  // last, as a hit reads it with what follows
};

using RocksDBEntry = BlockEntry<rocksdb::Slice, RocksDBDeleter, RocksDBMore>;

}  // namespace detail

// `Key` is how the library stores keys: std::string_view or Words.
template <class Key>
class BasicRocksDBCache
    : public detail::RocksDBInterface<BasicRocksDBCache<Key>, detail::RocksDBEntry> {
  using Interface = detail::RocksDBInterface<BasicRocksDBCache<Key>, detail::RocksDBEntry>;

 public:
  using Handle = rocksdb::Cache::Handle;
  using Helper = detail::RocksDBHelper;

  BasicRocksDBCache(const BasicRocksDBCache&) = delete;
  BasicRocksDBCache& operator=(const BasicRocksDBCache&) = delete;

  // These, and those of RocksDBInterface, are as rocksdb/cache.h or rocksdb/advanced_cache.h
  // describes them, with the differences above. Any thread may call them at any time.

  static const char* ClassName() {
    return std::is_same_v<Key, Words> ? "lru::RocksDBBlockCache" : "lru::RocksDBCache";
  }
  const char* Name() const override { return ClassName(); }

  bool Ref(Handle* handle) override {
    Entry* entry = EntryOf(handle);
    if (!entry->is_cached()) {
      entry->other_handles++;
      return true;
    }
    Shard& shard = shards_[entry->shard];
    const lru_pin pin = PinOf(*entry);
    const std::lock_guard<detail::Mutex> lock(shard.mutex);
    return shard.core.repin(pin).code == LRU_PINNED;
  }

  using Interface::Release;
  bool Release(Handle* handle, bool erase_if_last_ref = false) override {
    Entry* entry = EntryOf(handle);
    if (entry->is_cached()) {
      const lru_pin pin = PinOf(*entry);
      return Call(&shards_[entry->shard]).Release(entry, pin, erase_if_last_ref);
    }
    if (entry->other_handles-- > 0) return false;
    delete entry;
    return true;
  }

  void Erase(const rocksdb::Slice& key) override {
    if (!CanStore(key)) return;
    const HashedKey hashed = Hashed(key);
    Call(&shards_[ShardOf(hashed)]).Detach(hashed, key);
  }

  std::uint64_t NewId() override { return ++last_id_; }

  void SetCapacity(std::size_t capacity) override {
    capacity_ = capacity;
    for (Shard& shard : shards_) {
      Call call(&shard);
      // Read again, as another thread may have set it meanwhile: all shards end with shares of the
      // same capacity.
      call.SetCapacity(shards_.Share(capacity_));
    }
  }
  std::size_t GetCapacity() const override { return capacity_; }

  void SetStrictCapacityLimit(bool strict_capacity_limit) override {
    is_strict_ = strict_capacity_limit;
  }
  bool HasStrictCapacityLimit() const override { return is_strict_; }

  using Interface::GetUsage;
  std::size_t GetUsage() const override {
    return shards_.Sum([](const Shard& shard) { return shard.core.total(); });
  }
  std::size_t GetPinnedUsage() const override {
    return shards_.Sum([](const Shard& shard) { return shard.core.pinned_charge(); });
  }
  std::size_t GetOccupancyCount() const override {
    return shards_.Sum([](const Shard& shard) { return shard.core.len() - shard.detached; });
  }

  void EraseUnRefEntries() override {
    for (Shard& shard : shards_) Call(&shard).EvictIdle();
  }

  std::string GetPrintableOptions() const override {
    return Interface::Printable(shards_.count(), charges_metadata_);
  }

 private:
  friend Interface;
  friend typename Interface::Making;
  using Entry = detail::RocksDBEntry;
  using Interface::EntryOf;
  using Interface::HandleOf;
  using Core = detail::Core<Entry, Key>;
  using HashedKey = typename Core::Hashed;

  // What a hit uses of a shard comes first.
  struct alignas(64) Shard {
    Core core;
    mutable detail::Mutex mutex;
    std::size_t detached = 0;  // how many entries their keys do not find
  };

  // A call on a shard, which holds its mutex. The destructor unlocks it, and then runs the deleters
  // of what the call evicted.
  class Call {
   public:
    explicit Call(Shard* shard) : shard_(*shard), lock_(shard->mutex) {}

    Call(const Call&) = delete;
    Call& operator=(const Call&) = delete;

    // Whether a charge and those of the pinned entries add up to the capacity at most.
    bool HasRoom(std::uint64_t charge) const {
      const std::uint64_t capacity = shard_.core.capacity();
      const std::uint64_t pinned = shard_.core.pinned_charge();
      return pinned <= capacity && charge <= capacity - pinned;
    }

    // Adds an entry and pins it, and returns whether it takes the place of another one of the key.
    // If the library refuses it, the entry is not in the cache.
    bool Add(const HashedKey& hashed, Entry* entry, std::uint64_t weight) {
      lru_told told = shard_.core.begin(hashed, weight, &evicted_);
      // Most keys have no entry, and are looked up only once.
      const bool replaces = DetachFound(told, hashed, entry->key());
      if (replaces) told = shard_.core.begin(hashed, weight, &evicted_);
      if (told.code == LRU_MAKE) {
        shard_.core.ready(told.pin, entry);
        entry->SetPin(told.pin);
      }
      return replaces;
    }

    // The same, of an entry that no key finds. The library has it for a moment with some key that
    // has no entry.
    void AddDetached(Entry* entry, std::uint64_t weight, Seed seed) {
      std::uint64_t words[2] = {0, 0};
      const auto hashed = [&] {
        const rocksdb::Slice key(reinterpret_cast<const char*>(words), sizeof words);
        return detail::Hashed<Key>(key, seed);
      };
      while (shard_.core.contains(hashed()) == LRU_DONE) words[0]++;
      Add(hashed(), entry, weight);
      if (!entry->is_cached()) return;
      shard_.core.invalidate(hashed(), &evicted_);
      SetDetached(entry);
    }

    // Gives back a pin of an entry, and returns whether the entry has left the cache.
    bool Release(Entry* entry, const lru_pin& pin, bool evict) {
      if (evict) {
        shard_.core.release_and_evict(pin, &evicted_);
      } else {
        shard_.core.release(pin, &evicted_);
      }
      const Entry* left = evicted_.first();
      while (left != nullptr && left != entry) left = left->next;
      if (left == nullptr) return false;
      // All others that were evicted were found, as idle entries are.
      if (entry->is_detached()) shard_.detached--;
      return true;
    }

    // The same, of an entry that was just pinned by its key.
    bool Release(Entry* entry, const HashedKey& hashed) {
      return Release(entry, entry->pin(shard_.core.hash_of(hashed)), false);
    }

    // Makes the key find no entry, and returns whether it found one. One that is not pinned leaves.
    bool Detach(const HashedKey& hashed, const rocksdb::Slice& key) {
      // If the key is longer than any before and there is no memory for a copy, it has no entry.
      return DetachFound(shard_.core.get(hashed), hashed, key);
    }

    // Evicts the entry of a key if it is not pinned.
    void EvictIdle(const HashedKey& hashed) { shard_.core.advice_evict(hashed, &evicted_); }

    // Evicts all entries that are not pinned.
    void EvictIdle() { shard_.core.prune(&evicted_); }

    void SetCapacity(std::uint64_t capacity) { shard_.core.set_capacity(capacity, &evicted_); }

    // Deletes an entry that is not in the cache, without the mutex.
    void Delete(Entry* entry) { evicted_.add(entry); }

    // The same, but the value stays the caller's.
    void Refuse(Entry* entry) {
      entry->KeepValue();
      Delete(entry);
    }

    // Visits each entry that its key finds, or none if there is no memory for a list of them.
    template <class Visit>
    void ForEachFound(const Visit& visit) const {
      const auto room = static_cast<std::size_t>(shard_.core.len());
      const std::unique_ptr<lru_entry[], Free> entries(
          static_cast<lru_entry*>(std::malloc(room * sizeof(lru_entry))));
      if (entries == nullptr) return;
      const std::size_t count = shard_.core.entries(entries.get(), room);
      for (std::size_t n = 0; n < count; n++) {
        if (!entries[n].is_detached) visit(*detail::node_of<Entry>(entries[n].value));
      }
    }

   private:
    struct Free {
      void operator()(void* at) const { std::free(at); }
    };

    void SetDetached(Entry* entry) {
      entry->SetDetached();
      shard_.detached++;
    }

    // Detach, if this is what the library answered to a get or a begin of the key.
    bool DetachFound(const lru_told& told, const HashedKey& hashed, const rocksdb::Slice& key) {
      if (told.code != LRU_HIT && told.code != LRU_OVERFLOW) return false;
      if (told.code == LRU_HIT) {
        SetDetached(detail::node_of<Entry>(told.value));
      } else {
        // The total would overflow, and the key has no entry.
        if (shard_.core.contains(hashed) != LRU_DONE) return false;
        // The entry has 2^32 - 1 handles, and is not told.
        ForEachFound([&](Entry& entry) {
          if (entry.key() == key) SetDetached(&entry);
        });
      }
      shard_.core.invalidate(hashed, &evicted_);
      if (told.code == LRU_HIT) Release(detail::node_of<Entry>(told.value), hashed);
      return true;
    }

    Shard& shard_;
    detail::Evicted<Entry> evicted_;  // destroyed after the lock
    const std::lock_guard<detail::Mutex> lock_;
  };

  BasicRocksDBCache(const RocksDBCacheOptions& options, Seed seed)
      : shards_(Interface::ShardsOf(options), seed),
        charges_metadata_(options.charges_metadata),
        capacity_(options.capacity),
        is_strict_(options.strict_capacity_limit) {}

  static bool CanStore(const rocksdb::Slice& key) { return detail::CanStore<Key>(key); }

  // Both of these come before the mutex of the shard is locked.
  HashedKey Hashed(const rocksdb::Slice& key) const {
    return detail::Hashed<Key>(key, shards_.seed());
  }

  // Of an entry in the cache. Comes before the mutex is locked too.
  lru_pin PinOf(const Entry& entry) {
    return entry.pin(shards_[entry.shard].core.hash_of(Hashed(entry.key())));
  }

  // The hash of bytes serves both the shard and the table there, which hashes it once more, with
  // the seed of the shard.
  std::uint8_t ShardOf(const HashedKey& hashed) const {
    if constexpr (std::is_same_v<Key, Words>) {
      return shards_.NumberFor(static_cast<std::uint32_t>(std::hash<Words>()(hashed)));
    } else {
      constexpr std::uint64_t kHashes = std::uint64_t{1} << 32;
      return shards_.NumberFor(static_cast<std::uint32_t>(lru_shard_of(hashed.hash, kHashes)));
    }
  }

  bool Open(const RocksDBCacheOptions& options) {
    return shards_.Open(options, Metadata(sizeof(Words)));
  }

  // What an entry with a key of this length counts besides its charge.
  std::size_t Metadata(std::size_t length) const {
    return charges_metadata_ ? detail::MetadataOf<Entry, Key>(length) : 0;
  }

  // What an entry counts.
  std::uint64_t WeightOf(const Entry& entry) const {
    return detail::SumOf(entry.charge, Metadata(entry.key().size()));
  }

  // Null if there is no memory.
  Entry* NewEntry(const rocksdb::Slice& key, void* value, Helper helper, std::size_t charge) const {
    Entry* entry = Entry::New(key, value, {helper});
    // The library has no entries without a charge.
    if (entry != nullptr) entry->charge = charge == 0 && !charges_metadata_ ? 1 : charge;
    return entry;
  }

  // Insert, which leaves the value to the caller unless it returns OK. Without a handle, it is
  // refused only if there is no memory for an entry.
  rocksdb::Status InsertValue(const rocksdb::Slice& key, void* value, Helper helper,
                              std::size_t charge, Handle** handle) {
    if (handle != nullptr) *handle = nullptr;
    Entry* entry = NewEntry(key, value, helper, charge);
    if (entry == nullptr) return rocksdb::Status::MemoryLimit();
    if (CanStore(key)) return InsertEntry(Hashed(key), entry, handle);
    if (handle == nullptr) {
      delete entry;
    } else {
      *handle = HandleOf(entry);
    }
    return rocksdb::Status::OK();
  }

  // Inserts an entry, or deletes it if there is no room for it. `*handle` is null before.
  rocksdb::Status InsertEntry(const HashedKey& hashed, Entry* entry, Handle** handle) {
    entry->shard = ShardOf(hashed);
    const std::uint64_t weight = WeightOf(*entry);
    Call call(&shards_[entry->shard]);
    const bool is_strict = is_strict_;
    if ((is_strict || handle == nullptr) && !call.HasRoom(weight)) {
      if (handle != nullptr) {
        call.Refuse(entry);
        return rocksdb::Status::MemoryLimit();
      }
      if (is_strict) {
        call.EvictIdle(hashed);
      } else {
        call.EvictIdle();
      }
      call.Delete(entry);
      return rocksdb::Status::OK();
    }
    const bool replaces = call.Add(hashed, entry, weight);
    if (handle != nullptr) {
      *handle = HandleOf(entry);
    } else if (entry->is_cached()) {
      call.Release(entry, hashed);
    } else {
      call.Delete(entry);
    }
    return replaces ? rocksdb::Status::OkOverwritten() : rocksdb::Status::OK();
  }

  // An entry that counts and that no key finds, or null.
  Entry* NewStandalone(const rocksdb::Slice& key, void* value, Helper helper, std::size_t charge,
                       bool allow_uncharged) {
    Entry* entry = NewEntry(key, value, helper, charge);
    if (entry == nullptr) return nullptr;
    entry->shard = CanStore(key) ? ShardOf(Hashed(key)) : 0;
    Call call(&shards_[entry->shard]);
    const bool is_strict = is_strict_;
    if (!is_strict || call.HasRoom(WeightOf(*entry))) {
      call.AddDetached(entry, WeightOf(*entry), shards_.seed());
    }
    if (!entry->is_cached()) {
      if (is_strict && !allow_uncharged) {
        call.Refuse(entry);
        return nullptr;
      }
      entry->charge = 0;
    }
    return entry;
  }

  template <class Visit>
  void ForEachFound(const Visit& visit) {
    for (Shard& shard : shards_) Call(&shard).ForEachFound(visit);
  }

  Entry* Find(const rocksdb::Slice& key) {
    if (!CanStore(key)) return nullptr;
    const HashedKey hashed = Hashed(key);
    Shard& shard = shards_[ShardOf(hashed)];
    const std::lock_guard<detail::Mutex> lock(shard.mutex);
    const lru_told told = shard.core.get(hashed);
    // It is a miss too if the entry has 2^32 - 1 handles. If the key is longer than any before and
    // there is no memory for a copy, it has no entry.
    return told.code == LRU_HIT ? detail::node_of<Entry>(told.value) : nullptr;
  }

  detail::Shards<Shard, Interface::kMostShards> shards_;
  const bool charges_metadata_;
  std::atomic<std::size_t> capacity_;
  std::atomic<bool> is_strict_;
  std::atomic<std::uint64_t> last_id_{0};
};

// Caches keys of any length.
using RocksDBCache = BasicRocksDBCache<std::string_view>;

// Caches keys of 16 bytes only. Insert returns entries of other keys, but they are not cached.
using RocksDBBlockCache = BasicRocksDBCache<Words>;

// A RocksDBCache with the given capacity or options, or null if there is no memory for it; but if
// there is none for the counts of the std::shared_ptr, the process ends. There are 64 shards, or
// fewer if the capacity is below 32 MiB, unless their number, from 1 to 64, is passed.
inline std::shared_ptr<rocksdb::Cache> NewRocksDBCache(std::size_t capacity) noexcept {
  return std::shared_ptr<rocksdb::Cache>(RocksDBCache::New(capacity));
}
inline std::shared_ptr<rocksdb::Cache> NewRocksDBCache(
    std::size_t capacity, std::size_t shards, bool strict_capacity_limit = false) noexcept {
  return std::shared_ptr<rocksdb::Cache>(
      RocksDBCache::New(capacity, shards, strict_capacity_limit));
}

inline std::shared_ptr<rocksdb::Cache> NewRocksDBCache(
    const RocksDBCacheOptions& options) noexcept {
  return std::shared_ptr<rocksdb::Cache>(RocksDBCache::New(options));
}

// The same, for a RocksDBBlockCache.
inline std::shared_ptr<rocksdb::Cache> NewRocksDBBlockCache(std::size_t capacity) noexcept {
  return std::shared_ptr<rocksdb::Cache>(RocksDBBlockCache::New(capacity));
}
inline std::shared_ptr<rocksdb::Cache> NewRocksDBBlockCache(
    std::size_t capacity, std::size_t shards, bool strict_capacity_limit = false) noexcept {
  return std::shared_ptr<rocksdb::Cache>(
      RocksDBBlockCache::New(capacity, shards, strict_capacity_limit));
}
inline std::shared_ptr<rocksdb::Cache> NewRocksDBBlockCache(
    const RocksDBCacheOptions& options) noexcept {
  return std::shared_ptr<rocksdb::Cache>(RocksDBBlockCache::New(options));
}

#if ROCKSDB_MAJOR != 7

namespace detail {

// Reads options from text: a capacity alone, or names and values.
inline rocksdb::Status ReadOptions(const std::string& text, RocksDBCacheOptions* options) {
  using rocksdb::OptionType;
  struct Read {
    std::size_t capacity = 0, shards = 0, typical_charge = 0;
    bool strict_capacity_limit = false, charges_metadata = false;
  } read;
  const std::unordered_map<std::string, rocksdb::OptionTypeInfo> types = {
      {"capacity", {offsetof(Read, capacity), OptionType::kSizeT}},
      {"shards", {offsetof(Read, shards), OptionType::kSizeT}},
      {"typical_charge", {offsetof(Read, typical_charge), OptionType::kSizeT}},
      {"strict_capacity_limit", {offsetof(Read, strict_capacity_limit), OptionType::kBoolean}},
      {"charges_metadata", {offsetof(Read, charges_metadata), OptionType::kBoolean}}};
  const bool has_names = text.find('=') != std::string::npos;
  const rocksdb::Status status = rocksdb::OptionTypeInfo::ParseType(
      rocksdb::ConfigOptions(), has_names ? text : "capacity=" + text, types, &read);
  options->capacity = read.capacity;
  options->shards = read.shards;
  options->typical_charge = read.typical_charge;
  options->strict_capacity_limit = read.strict_capacity_limit;
  options->charges_metadata = read.charges_metadata;
  return status;
}

// What RocksDB calls to create a cache from the text that names it. Returns null and why if that
// fails.
template <class OneCache>
rocksdb::Cache* CreateFromText(const std::string& text, std::unique_ptr<rocksdb::Cache>* cache,
                               std::string* error) {
  RocksDBCacheOptions options;
  const rocksdb::Status status = ReadOptions(text.substr(text.find("://") + 3), &options);
  if (status.ok()) {
    cache->reset(OneCache::New(options));
    if (*cache == nullptr) *error = "no memory for the cache";
  } else {
    *error = status.ToString();
  }
  return cache->get();
}

}  // namespace detail

// From then on, Cache::CreateFromString creates a cache of this type, RocksDBBlockCache or
// RocksDBCache, if its text has the name of the type followed by :// and the capacity, or by names
// of RocksDBCacheOptions and their values, in braces:
//
//   id=lru::RocksDBBlockCache://64M
//   id={lru::RocksDBBlockCache://capacity=64M;shards=16;strict_capacity_limit=true}
//
// So do options of a table as text, as in "block_cache={id=lru::RocksDBBlockCache://64M}". Any
// thread may call this, and as often as it wants to.
template <class OneCache>
void RegisterRocksDBCache() {
  using rocksdb::ObjectLibrary;
  static const bool is_registered = [] {
    const auto name = ObjectLibrary::PatternEntry(OneCache::ClassName(), false).AddSeparator("://");
    ObjectLibrary::Default()->AddFactory<rocksdb::Cache>(name, detail::CreateFromText<OneCache>);
    return true;
  }();
  static_cast<void>(is_registered);
}

#endif

}  // namespace lru

#endif
