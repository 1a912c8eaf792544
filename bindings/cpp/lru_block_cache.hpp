// What leveldb_cache.h, rocksdb_cache.h and lru_clock_block_cache.hpp have in common: options,
// entries that keep the bytes of their keys, shards that have a mutex each, and keys that the
// library stores as bytes or as two words. Nothing here throws, and the header compiles with
// -fno-exceptions and -fno-rtti.
#ifndef LRU_BLOCK_CACHE_HPP
#define LRU_BLOCK_CACHE_HPP

#include <algorithm>
#include <atomic>
#include <cstddef>
#include <cstdint>
#include <cstdlib>
#include <cstring>
#include <mutex>
#include <new>
#include <type_traits>

#include "lru_core.hpp"

namespace lru {

// What a block cache is created with.
struct BlockCacheOptions {
  // The sum of charges above which entries are evicted. 0 keeps only entries that are pinned.
  std::size_t capacity = 0;

  // How many shards there are, each with a mutex and an equal share of the capacity. A number above
  // the most that the cache can have counts as that. If it is 0, ShardsFor chooses it by the
  // capacity and the typical charge.
  std::size_t shards = 0;

  // The charge that most entries have, usually the size of a block. A new cache has tables for as
  // many such entries as the capacity has room for, which take from 48 to 80 bytes for each, and in
  // a cache over the clock from 122 to 154. Until there are more entries, no Insert makes a table
  // larger, which takes about 70 nanoseconds for each entry of the shard while its mutex is held.
  // Tables never become smaller, even if all entries leave. If there is no memory for them, the
  // cache is not created. If this is 0, it is 4 KiB, but the tables are for 2^21 entries at most,
  // and a cache over the clock has none at first.
  std::size_t typical_charge = 0;

  // Whether each entry also counts about as many bytes as the cache itself takes for it: 224 under
  // LevelDB and 240 under RocksDB with keys of two words, and more with keys of bytes; 202 in a
  // cache over the clock.
  bool charges_metadata = false;
};

namespace detail {

// The typical charge of options that have none, and for how many such entries there is room then.
constexpr std::size_t kUsualCharge = 4096;
constexpr std::size_t kMostExpected = std::size_t{1} << 21;

inline std::size_t TypicalCharge(const BlockCacheOptions& options) {
  return options.typical_charge == 0 ? kUsualCharge : options.typical_charge;
}

// The sum, or SIZE_MAX if it would be above.
inline std::size_t SumOf(std::size_t a, std::size_t b) {
  return a > SIZE_MAX - b ? SIZE_MAX : a + b;
}

// Whether a key of the database is two words.
template <class Slice>
bool HasWords(const Slice& key) {
  return key.size() == sizeof(Words);
}

// The key of an entry, in the memory behind it: two words, or the length and the bytes of another
// key.
template <class Slice>
struct KeyBehind {
  static constexpr std::size_t SizeOf(std::size_t length) {
    return (length == sizeof(Words) ? 0 : sizeof length) + length;
  }

  static void Write(const Slice& key, void* behind) {
    const std::size_t length = key.size();
    char* at = static_cast<char*>(behind);
    if (!HasWords(key)) {
      std::memcpy(at, &length, sizeof length);
      at += sizeof length;
    }
    std::memcpy(at, key.data(), length);
  }

  static Slice Read(const void* behind, bool has_words) {
    const char* const at = static_cast<const char*>(behind);
    if (has_words) return Slice(at, sizeof(Words));
    std::size_t length;
    std::memcpy(&length, at, sizeof length);
    return Slice(at + sizeof length, length);
  }
};

// How a cache is made, and with how many shards: from 1 to `kMost`. `Self` has a constructor that
// takes options and a seed, and a member `Open` that takes the options, and returns false if there
// is no memory.
template <class Self, class OptionsOfCache, std::size_t kMost, std::size_t kLeastShare>
class BlockCacheMaking {
 public:
  using Options = OptionsOfCache;

  static constexpr std::size_t kMostShards = kMost;

  // A good number of shards for blocks of this size: the most, from 1 to kMostShards, that leave
  // each shard the capacity of four blocks, and under RocksDB of 512 KiB. Unless a number is
  // passed, a cache has as many as for blocks of 4 KiB. A size of 0 counts as 1.
  static std::size_t ShardsFor(std::size_t capacity,
                               std::size_t block_size = kUsualCharge) noexcept {
    constexpr std::size_t kLeastBlock = std::max<std::size_t>(kLeastShare / 4, 1);
    const std::size_t blocks = capacity / std::max(block_size, kLeastBlock);
    return std::clamp<std::size_t>(blocks / 4, 1, kMost);
  }

  // A cache with these options, or null if there is no memory for it. The seed is random unless a
  // test passes its own.
  static Self* New(const Options& options) noexcept { return New(options, Seed::random()); }
  static Self* New(const Options& options, Seed seed) noexcept {
    auto* cache = new (std::nothrow) Self(options, seed);
    if (cache == nullptr || cache->Open(options)) return cache;
    delete cache;
    return nullptr;
  }

  // The same, with a capacity alone, or with a number of shards from 1 to kMostShards; another
  // number counts as the nearest of these.
  static Self* New(std::size_t capacity) noexcept { return New(With(capacity, 0)); }
  static Self* New(std::size_t capacity, std::size_t shards) noexcept {
    return New(With(capacity, std::max<std::size_t>(shards, 1)));
  }

 protected:
  static Options With(std::size_t capacity, std::size_t shards) noexcept {
    Options options;
    options.capacity = capacity;
    options.shards = shards;
    return options;
  }

  // How many shards a cache with these options has.
  static std::size_t ShardsOf(const Options& options) noexcept {
    if (options.shards != 0) return std::min(options.shards, kMost);
    return ShardsFor(options.capacity, TypicalCharge(options));
  }
};

// How many entries the options let expect in each of so many shards, if each takes `metadata` of
// the capacity besides its charge.
inline std::size_t EntriesIn(const BlockCacheOptions& options, std::size_t metadata,
                             std::size_t shards) {
  const auto capacity = static_cast<std::size_t>(share(options.capacity, shards));
  const std::size_t entries = capacity / SumOf(TypicalCharge(options), metadata);
  return options.typical_charge == 0 ? std::min(entries, kMostExpected / shards) : entries;
}

// The deleters of all entries of a program, each with a number from 1 on. A program has few of
// them, so an entry has such a number of one byte in place of a pointer. None is ever removed.
template <class Deleter>
class Deleters {
  using Pointer = decltype(Deleter::pointer);

 public:
  static constexpr std::uint8_t kNone = 0;
  // The number for all others, if a program has more deleters.
  static constexpr std::uint8_t kOther = UINT8_MAX;

  static std::uint8_t NumberOf(Deleter deleter) {
    if (deleter.pointer == nullptr) return kNone;
    for (std::uint8_t number = 1; number < kOther; number++) {
      Pointer there = pointers_[number].load(std::memory_order_relaxed);
      if (there == deleter.pointer) return number;
      if (there != nullptr) continue;
      // Another thread may have been faster, perhaps with the same one.
      if (pointers_[number].compare_exchange_strong(there, deleter.pointer)) return number;
      if (there == deleter.pointer) return number;
    }
    return kOther;
  }

  // Of a number below kOther.
  static Deleter Of(std::uint8_t number) {
    return {pointers_[number].load(std::memory_order_relaxed)};
  }

 private:
  static inline std::atomic<Pointer> pointers_[kOther] = {};
};

struct NothingMore {};

// An entry, followed by its key. Its destructor calls its deleter with the key and the value.
// `Slice` is the type of keys of the database, and `More` is what else an entry has.
//
// It is packed, as there is such an entry for each block: with a key of 16 bytes and nothing more
// it has 40 bytes, for which malloc takes 48. The library has the key too, but does not tell it of
// an entry that leaves, and deleters are called with it. The hash of a pin is made of the key.
template <class Slice, class Deleter, class More = NothingMore>
struct BlockEntry : More {
  void* value;
  union {
    std::uint64_t stamp = 0;
    BlockEntry* next;  // of an entry that is to be deleted
  };
  std::uint32_t place = 0;
  std::uint8_t shard = 0;

  // Null if there is no memory.
  static BlockEntry* New(const Slice& key, void* value, Deleter deleter) {
    const std::uint8_t number = Numbers::NumberOf(deleter);
    void* at = std::malloc(SizeWith(key.size()) + SizeBefore(number));
    return at == nullptr ? nullptr : ::new (at) BlockEntry(key, value, deleter, number);
  }

  ~BlockEntry() {
    if (number_ != Numbers::kNone) deleter()(key(), value);
  }
  static void operator delete(void* at) { std::free(at); }

  BlockEntry(const BlockEntry&) = delete;
  BlockEntry& operator=(const BlockEntry&) = delete;

  // How many bytes an entry takes with a key of this length.
  static constexpr std::size_t SizeWith(std::size_t length) {
    return sizeof(BlockEntry) + KeyBehind<Slice>::SizeOf(length);
  }

  Slice key() const { return KeyBehind<Slice>::Read(Behind() + SizeBefore(number_), has_words_); }

  Deleter deleter() const {
    if (number_ != Numbers::kOther) return Numbers::Of(number_);
    Deleter other;
    std::memcpy(&other, Behind(), sizeof other);
    return other;
  }

  // Leaves the value to the caller: the destructor does not delete it.
  void KeepValue() { number_ = Numbers::kNone; }

  // Whether it is in the cache; and if so, whether its key does not find it.
  bool is_cached() const { return is_cached_; }
  bool is_detached() const { return is_detached_; }
  void SetDetached() { is_detached_ = true; }

  // Of an entry in the cache, with the hash of its key there.
  lru_pin pin(std::uint64_t hash) const { return {stamp, hash, place}; }

  // Makes it an entry in the cache. A place above 2^32 - 1 is not kept: the wrong one changes no
  // answer, and only a detached entry is looked for by its place.
  void SetPin(const lru_pin& told) {
    const lru_pin pin = copy_of(told);
    stamp = pin.stamp;
    place = static_cast<std::uint32_t>(std::min<std::size_t>(pin.place, UINT32_MAX));
    is_cached_ = true;
  }

 private:
  using Numbers = Deleters<Deleter>;

  BlockEntry(const Slice& key, void* v, Deleter d, std::uint8_t number)
      : value(v), number_(number), has_words_(HasWords(key)), is_cached_(false) {
    if (number == Numbers::kOther) std::memcpy(Behind(), &d, sizeof d);
    KeyBehind<Slice>::Write(key, Behind() + SizeBefore(number));
  }

  // What precedes the key: a deleter that has no number of its own.
  static constexpr std::size_t SizeBefore(std::uint8_t number) {
    return number == Numbers::kOther ? sizeof(Deleter) : 0;
  }
  char* Behind() { return reinterpret_cast<char*>(this + 1); }
  const char* Behind() const { return reinterpret_cast<const char*>(this + 1); }

  std::uint8_t number_;  // of the deleter
  // These two are set before other threads find the entry.
  const bool has_words_ : 1;  // whether the key has 16 bytes; the length of another key precedes it
  bool is_cached_ : 1;
  bool is_detached_ = false;
};

// How many bytes glibc's malloc takes for a block of this size.
constexpr std::size_t AllocatedFor(std::size_t size) {
  return std::max<std::size_t>((size + 8 + 15) / 16 * 16, 32);
}

// About how many bytes a cache takes for an entry with a key of this length, all in all. The
// library has a node of 112 bytes, or of 128 and the bytes of the key, 16 bytes in a list of the
// nodes, and from 32 to 64 in a table.
template <class Entry, class Key>
constexpr std::size_t MetadataOf(std::size_t length) {
  constexpr std::size_t kTables = 16 + 48;
  return AllocatedFor(Entry::SizeWith(length)) + kTables +
         (std::is_same_v<Key, Words> ? 112 : 128 + AllocatedFor(length));
}

// Whether the library can store a key of the database as a `Key`, which is std::string_view or
// Words.
template <class Key, class Slice>
bool CanStore(const Slice& key) {
  return !std::is_same_v<Key, Words> || HasWords(key);
}

// A key of the database as the library stores it.
template <class Key, class Slice>
Key Stored(const Slice& key) {
  if constexpr (std::is_same_v<Key, Words>) {
    Words words;
    std::memcpy(&words, key.data(), sizeof words);
    return words;
  } else {
    return Key(key.data(), key.size());
  }
}

// A key of the database as the calls of a core take it.
template <class Key, class Slice>
auto Hashed(const Slice& key, Seed seed) {
  return Calls<Key>::hashed(Stored<Key>(key), seed);
}

// The shards of a cache: from 1 to `kMost`. A `Shard` has a `core` and a `mutex`.
template <class Shard, std::size_t kMost>
class Shards {
  static_assert(kMost <= UINT8_MAX + 1, "lru: a shard has a number of one byte");

 public:
  Shards(std::size_t count, Seed seed) : count_(count), seed_(seed) {}

  // False if there is no memory. Each shard gets another seed, and has room for its share of the
  // entries that the options let expect, each of which takes `metadata` of the capacity besides its
  // charge. Comes before all other members, and only once.
  bool Open(const BlockCacheOptions& options, std::size_t metadata) {
    Seed seed = seed_;
    const std::size_t share = Share(options.capacity);
    const std::size_t entries = EntriesIn(options, metadata, count_);
    for (Shard& shard : *this) {
      if (!shard.core.open(share, seed) || shard.core.reserve(entries) != LRU_DONE) return false;
      seed.number++;
    }
    return true;
  }

  std::size_t count() const { return count_; }

  // With this the keys of all shards are hashed, before a shard is chosen.
  Seed seed() const { return seed_; }

  // The capacity of each shard if this is the capacity of the cache.
  std::size_t Share(std::size_t capacity) const {
    return static_cast<std::size_t>(share(capacity, count_));
  }

  // The number of the shard that a hash chooses by its highest bits, by the highest 4 of 16 shards.
  std::uint8_t NumberFor(std::uint32_t hash) const {
    return static_cast<std::uint8_t>(std::uint64_t{hash} * count_ >> 32);
  }
  Shard& operator[](std::uint8_t number) { return shards_[number]; }

  // The sum of a number of each shard, which `number` returns while the mutex is held.
  template <class Number>
  std::size_t Sum(Number number) const {
    std::size_t sum = 0;
    for (const Shard& shard : *this) {
      const std::lock_guard<Mutex> lock(shard.mutex);
      sum += static_cast<std::size_t>(number(shard));
    }
    return sum;
  }

  Shard* begin() { return shards_; }
  Shard* end() { return shards_ + count_; }
  const Shard* begin() const { return shards_; }
  const Shard* end() const { return shards_ + count_; }

 private:
  const std::size_t count_;
  const Seed seed_;
  Shard shards_[kMost];
};

}  // namespace detail
}  // namespace lru

#endif
