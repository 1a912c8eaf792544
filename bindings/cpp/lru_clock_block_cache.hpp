// What leveldb_clock_cache.h and rocksdb_clock_cache.h have in common: entries that are the values
// of a clock and the handles of the database, and the shards that hold them. Nothing here throws,
// and the header compiles with -fno-exceptions and -fno-rtti.
#ifndef LRU_CLOCK_BLOCK_CACHE_HPP
#define LRU_CLOCK_BLOCK_CACHE_HPP

#include <atomic>
#include <cstddef>
#include <cstdint>
#include <cstdlib>
#include <mutex>
#include <new>

#include "lru_block_cache.hpp"
#include "lru_clock_core.hpp"
#include "lru_core.hpp"

namespace lru {
namespace detail {

// An entry, followed by its key. Its destructor calls its deleter with the key and the value.
// `Slice` is the type of keys of the database. All that a handle needs is here, so that no call on
// one needs a lock or a table to find it.
template <class DatabaseSlice, class Deleter>
class ClockEntry {
 public:
  using Slice = DatabaseSlice;

  // Null if there is no memory.
  static ClockEntry* New(const Slice& key, void* value, Deleter deleter, std::size_t charge) {
    void* at = std::malloc(SizeWith(key.size()));
    return at == nullptr ? nullptr : ::new (at) ClockEntry(key, value, deleter, charge);
  }

  ~ClockEntry() { deleter_(key(), value); }
  static void operator delete(void* at) { std::free(at); }

  ClockEntry(const ClockEntry&) = delete;
  ClockEntry& operator=(const ClockEntry&) = delete;

  // How many bytes an entry takes with a key of this length.
  static constexpr std::size_t SizeWith(std::size_t length) {
    return sizeof(ClockEntry) + KeyBehind<Slice>::SizeOf(length);
  }

  Slice key() const { return KeyBehind<Slice>::Read(this + 1, has_words_); }

  Deleter deleter() const { return deleter_; }

  // Leaves the value to the caller: the destructor does not delete it.
  void KeepValue() { deleter_.pointer = nullptr; }

  // Where the clock of the shard has the entry. Another thread may find it before the one that
  // added it has stored the place, so both do; nobody has a handle without it.
  std::uint32_t place() const { return place_.load(std::memory_order_relaxed); }
  void SetPlace(std::uint32_t place) {
    if (this->place() != place) place_.store(place, std::memory_order_relaxed);
  }

  // Whether the entry is in the cache, and its key does not find it.
  bool is_detached() const { return is_detached_.load(std::memory_order_relaxed); }
  void SetDetached(bool is) { is_detached_.store(is, std::memory_order_relaxed); }

  void* const value;

 private:
  Deleter deleter_;

 public:
  union {
    std::size_t charge;
    ClockEntry* next;  // of an entry that has left the cache
  };
  // Of an entry that is not in the cache, how many handles it has besides one.
  std::atomic<std::size_t> other_handles{0};
  std::uint8_t shard = 0;
  bool is_cached = false;

 private:
  ClockEntry(const Slice& key, void* v, Deleter d, std::size_t c)
      : value(v), deleter_(d), charge(c), has_words_(HasWords(key)) {
    KeyBehind<Slice>::Write(key, this + 1);
  }

  const bool has_words_;
  std::atomic<bool> is_detached_{false};
  std::atomic<std::uint32_t> place_{UINT32_MAX};
};

// About how many bytes a cache takes for an entry with a key of two words, all in all. The clock
// has a slot of 56 bytes, 32 for what is known of it under the mutex, 2 for the order, and from 32
// to 64 for the index and those that it had before.
template <class Entry>
constexpr std::size_t ClockMetadata() {
  constexpr std::size_t kIndex = 48;
  return AllocatedFor(Entry::SizeWith(sizeof(Words))) + 56 + 32 + 2 + kIndex;
}

// The entries of a cache, in shards. Keys of two words only are looked for.
template <class EntryOfCache>
class ClockBlocks {
 public:
  using Entry = EntryOfCache;
  using Slice = typename Entry::Slice;

  // The number of shards is at most 256.
  ClockBlocks(std::size_t shards, Seed seed) : shards_(shards, seed) {}

  // False if there is no memory. If the options tell a typical charge, each shard has room for as
  // many entries as they let expect, each of which takes `metadata` of the capacity besides its
  // charge. Otherwise the tables grow with the entries, as no hit waits meanwhile. Comes before all
  // other members, and only once.
  bool Open(const BlockCacheOptions& options, std::size_t metadata) {
    if (options.typical_charge == 0) return shards_.open(options.capacity);
    const std::size_t entries = EntriesIn(options, metadata, count());
    // A clock has no more places than this, and would take all memory before it refused more.
    return entries <= UINT32_MAX && shards_.open(options.capacity, entries);
  }

  // Deletes all entries, even those that are pinned. Their deleters must not call the cache.
  ~ClockBlocks() {
    for (Shard& shard : shards_) Call(this, &shard).RemoveAll();
  }

  ClockBlocks(const ClockBlocks&) = delete;
  ClockBlocks& operator=(const ClockBlocks&) = delete;

  std::size_t count() const { return shards_.count(); }

  ClockKey Hashed(const Slice& key) const { return shards_.hash(Stored<Words>(key)); }

  // Without a mutex, if this thread has called the shard before.

  // Pins the entry of a key, and returns null if it finds none. It may miss one while another
  // thread changes the shard, and misses one that has about 2^30 handles.
  Entry* Find(const Slice& key) const {
    const ClockKey hashed = Hashed(key);
    const lru_found found = shards_.pin(shards_.mine(hashed.shard), hashed);
    if (found.code == LRU_CLOSED) return FindLocked(key);
    return Told(found);
  }

  // Another handle of an entry, unless it has about 2^30.
  bool Ref(Entry* entry) const {
    if (!entry->is_cached) {
      entry->other_handles++;
      return true;
    }
    return shards_.pin_at(entry->shard, entry->place()).code == LRU_HIT;
  }

  // Gives a handle back, and returns whether the entry has left the cache.
  bool Release(Entry* entry) {
    if (!entry->is_cached) return ReleaseUncached(entry);
    const std::uint32_t place = entry->place(), shard = entry->shard;
    lru_reader* const mine = shards_.mine(shard);
    const lru_code code = shards_.unpin(mine, shard, place);
    if (code == LRU_DONE) return false;
    return EndRelease(entry, shard, place, mine, code);
  }

  // Visits each entry that its key finds. No mutex is held meanwhile, so the visitor may call the
  // cache. Entries that come or leave meanwhile may be visited or not.
  template <class Visit>
  void ForEachFound(const Visit& visit) {
    for (std::uint32_t shard = 0; shard < shards_.count(); shard++) {
      const std::uint32_t places = Call(this, &shards_[shard]).places();
      for (std::uint32_t place = 0; place < places; place++) {
        const lru_found found = shards_.pin_at(shard, place);
        if (found.code != LRU_HIT) continue;
        auto* entry = node_of<Entry>(found.value);
        entry->SetPlace(place);
        if (!entry->is_detached()) visit(*entry);
        Release(entry);
      }
    }
  }

  // With the mutexes.

  // Gives a handle back, evicts the entry if that was the last one, and returns whether it has left
  // the cache.
  [[gnu::noinline]] bool ReleaseAndEvict(Entry* entry) {
    if (!entry->is_cached) return ReleaseUncached(entry);
    return Call(this, &shards_[entry->shard]).ReleaseAndEvict(entry);
  }

  void Erase(const Slice& key) {
    const ClockKey hashed = Hashed(key);
    Call(this, &shards_[hashed.shard]).Detach(hashed);
  }

  // Evicts all entries that are not pinned.
  void Prune() {
    for (Shard& shard : shards_) Call(this, &shard).Prune();
  }

  // Sets the capacity of each shard to its share of what `capacity` returns while its mutex is
  // held, and evicts down to it.
  template <class Capacity>
  void SetCapacity(const Capacity& capacity) {
    for (Shard& shard : shards_) Call(this, &shard).SetCapacity(capacity);
  }

  std::size_t TotalCharge() const {
    return Sum([](Shard& shard) { return shard.total(); });
  }
  std::size_t PinnedCharge() const {
    return Sum([](Shard& shard) { return shard.pinned_charge(); });
  }
  // The number of entries that their keys find.
  std::size_t Found() const {
    return Sum([](Shard& shard) { return shard.len() - shard.detached; });
  }
  // The number of entries that there is room for in the tables.
  std::size_t Places() const {
    return Sum([](Shard& shard) { return std::uint64_t{shard.places()}; });
  }

 private:
  struct Shard : ClockShard<Entry> {
    std::size_t detached = 0;  // how many entries their keys do not find
  };
  using Shards = ClockShards<Shard>;

  // The entries that leave a shard.
  class Leaving {
   public:
    explicit Leaving(Shard* shard) : shard_(*shard) {}

    void add(Entry* entry) {
      if (entry->is_detached()) shard_.detached--;
      entries_.add(entry);
    }

    bool Has(const Entry* entry) const {
      const Entry* left = entries_.first();
      while (left != nullptr && left != entry) left = left->next;
      return left != nullptr;
    }

   private:
    Shard& shard_;
    Evicted<Entry> entries_;
  };

 public:
  // A call on a shard, which holds its mutex. The destructor unlocks it, and then runs the deleters
  // of the entries that have left.
  class Call {
   public:
    Call(const ClockBlocks* blocks, std::uint32_t shard) : Call(blocks, &blocks->shards_[shard]) {}
    Call(const ClockBlocks* blocks, Shard* shard)
        : blocks_(*blocks), shard_(*shard), leaving_(shard), lock_(shard->mutex) {}

    Call(const Call&) = delete;
    Call& operator=(const Call&) = delete;

    // Evicts until there is room for a charge, or all that is left is pinned, and returns whether
    // there is room.
    bool MakeRoom(std::uint64_t charge) {
      shard_.make_room(charge, &leaving_);
      return shard_.has_room(charge);
    }

    // Adds an entry and pins it, and returns whether it takes the place of another one of the key.
    // If the library refuses it, the entry is not in the cache, and the key finds none.
    //
    // If there was no room, MakeRoom(0) comes after this, and after AddDetached: whoever released
    // an entry after MakeRoom had found it pinned, and before the total was above the capacity, was
    // not told to evict it.
    bool Add(const ClockKey& key, Entry* entry, std::uint64_t charge) {
      bool replaces = false;
      entry->is_cached = true;
      lru_found found = shard_.add(key, charge, entry);
      // Most keys have no entry.
      if (found.code == LRU_HIT) {
        replaces = true;
        DetachFound(key, found);
        found = shard_.add(key, charge, entry);
      }
      if (found.code == LRU_DONE) {
        entry->SetPlace(found.place);
      } else {
        entry->is_cached = false;
        replaces |= Detach(key);
      }
      return replaces;
    }

    // Adds an entry that no key finds, and pins it. The library adds one for a key that is erased
    // while its value is made.
    void AddDetached(Entry* entry, std::uint64_t charge) {
      Words words = {0, 0};
      ClockKey key;
      lru_found found;
      const auto begin = [&] {
        key = blocks_.shards_.hash(words);
        found = lru_clock_begin(&shard_.clock, key.hash, words.first, words.second, charge);
        return found.code;
      };
      while (begin() == LRU_HIT) {
        shard_.unpin(found.place, &leaving_);
        words.first++;
      }
      if (found.code != LRU_MAKE) return;
      shard_.erase(key, &leaving_);
      // A visitor may find it at once.
      entry->is_cached = true;
      entry->SetDetached(true);
      found = shard_.ready(key, found.value, charge, entry);
      if (found.code == LRU_DONE) {
        entry->SetPlace(found.place);
        shard_.detached++;
      } else {
        entry->is_cached = false;
        entry->SetDetached(false);
      }
    }

    // Gives a pin back, of an entry that stays.
    void Unpin(const Entry& entry) { shard_.unpin(entry.place(), &leaving_); }

    // Ends what an unpin without the mutex has begun, and returns whether the entry has left. It
    // may have left before this call, and is not read.
    bool EndRelease(const Entry* entry, std::uint32_t place, lru_reader* mine, lru_code code) {
      code = shard_.end_unpin(place, mine, code, &leaving_);
      return code == LRU_LAST || leaving_.Has(entry);
    }

    // Gives a pin back, evicts the entry if that was its last one, and returns whether it has left.
    bool ReleaseAndEvict(Entry* entry) {
      shard_.unpin_and_evict(entry->place(), &leaving_);
      return leaving_.Has(entry);
    }

    // Makes the key find no entry, and returns whether it found one. One that is not pinned leaves.
    bool Detach(const ClockKey& key) {
      const lru_found found = shard_.find(key);
      if (found.code == LRU_HIT) DetachFound(key, found);
      // The entry has about 2^30 handles, and is not told.
      if (found.code == LRU_OVERFLOW) shard_.erase(key, &leaving_);
      return found.code != LRU_MISSED;
    }

    void Prune() { shard_.prune(&leaving_); }

    template <class Capacity>
    void SetCapacity(const Capacity& capacity) {
      shard_.set_capacity(share(capacity(), blocks_.count()), &leaving_);
    }

    // Deletes an entry that is not in the cache, without the mutex.
    void Delete(Entry* entry) { leaving_.add(entry); }

    std::uint32_t places() { return shard_.places(); }

   private:
    friend ClockBlocks;

    void DetachFound(const ClockKey& key, const lru_found& found) {
      node_of<Entry>(found.value)->SetDetached(true);
      shard_.detached++;
      shard_.detach(key, found.place, &leaving_);
    }

    // Takes out all entries, even those that are pinned: nobody uses their pins any more.
    void RemoveAll() {
      const std::uint32_t count = places();
      for (std::uint32_t place = 0; place < count; place++) {
        while (lru_reader_unpin(&shard_.reader, place) == LRU_DONE) {
        }
      }
      Prune();
    }

    const ClockBlocks& blocks_;
    Shard& shard_;
    Leaving leaving_;  // destroyed after the lock
    const std::lock_guard<Mutex> lock_;
  };

 private:
  // The entry of a pin, or null if the look-up told none.
  static Entry* Told(const lru_found& found) {
    if (found.code != LRU_HIT) return nullptr;
    auto* entry = node_of<Entry>(found.value);
    entry->SetPlace(found.place);
    return entry;
  }

  // These are not inlined, so that a hit and a release save no registers for them.
  [[gnu::cold, gnu::noinline]] Entry* FindLocked(const Slice& key) const {
    const ClockKey hashed = Hashed(key);
    return Told(shards_.find_locked(hashed, shards_.mine(hashed.shard)));
  }

  [[gnu::cold, gnu::noinline]] static bool ReleaseUncached(Entry* entry) {
    if (entry->other_handles-- > 0) return false;
    delete entry;
    return true;
  }

  [[gnu::cold, gnu::noinline]] bool EndRelease(const Entry* entry, std::uint32_t shard,
                                               std::uint32_t place, lru_reader* mine,
                                               lru_code code) const {
    return Call(this, shard).EndRelease(entry, place, mine, code);
  }

  template <class Number>
  std::size_t Sum(Number number) const {
    return static_cast<std::size_t>(shards_.sum(number));
  }

  Shards shards_;
};

}  // namespace detail
}  // namespace lru

#endif
