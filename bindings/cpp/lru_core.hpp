// The library of lru.h as C++ classes without a lock, and a mutex. The other headers for C++ are
// built on them. Nothing here throws except Seed::random, and the header compiles with
// -fno-exceptions and -fno-rtti.
#ifndef CONCURRENT_LRU_CORE_HPP
#define CONCURRENT_LRU_CORE_HPP

#include <condition_variable>
#include <cstddef>
#include <cstdint>
#include <functional>
#include <mutex>
#include <random>
#include <string_view>
#include <type_traits>
#include <utility>

#if __has_include(<sys/single_threaded.h>)
#include <sys/single_threaded.h>
#endif

#include "lru.h"

namespace lru {

// A key of two words, such as the number of a file and an offset in it.
struct Words {
  std::uint64_t first;
  std::uint64_t second;

  friend bool operator==(Words a, Words b) { return a.first == b.first && a.second == b.second; }
  friend bool operator!=(Words a, Words b) { return !(a == b); }
};

// A number with which a cache hashes keys. Whoever knows it can choose keys whose hashes are all
// equal, so that each look-up of such a key visits all of them. No answer of a cache depends on it.
struct Seed {
  explicit Seed(std::uint64_t n) : number(n) {}

  // A seed that nobody can guess, from std::random_device. Throws what that throws if there are no
  // random numbers.
  static Seed random() {
    std::random_device device;
    const std::uint64_t high = device();
    return Seed(high << 32 | device());
  }

  std::uint64_t number;
};

}  // namespace lru

template <>
struct std::hash<lru::Words> {
  std::size_t operator()(lru::Words key) const noexcept {
    // Folded twice, so that the low bits, which choose the shard, depend on all bits of both words.
    std::uint64_t mixed = key.first * 0x9e3779b97f4a7c15u ^ key.second;
    mixed = (mixed ^ mixed >> 32) * 0xbf58476d1ce4e5b9u;
    return static_cast<std::size_t>(mixed ^ mixed >> 32);
  }
};

namespace lru {
namespace detail {

// A key of bytes with its hash.
struct HashedBytes {
  std::string_view bytes;
  std::uint64_t hash;
};

// A copy of a pin that a call has just told. It is made word by word, as the library writes it: a
// processor that reads two of these words as one waits until all earlier writes have reached its
// cache. `volatile` keeps the compiler from joining the reads.
inline lru_pin copy_of(const volatile lru_pin& told) noexcept {
  return lru_pin{told.stamp, told.hash, told.place};
}

// A sum that stays at 2^64 - 1 if it would be more.
inline std::uint64_t saturating_add(std::uint64_t a, std::uint64_t b) noexcept {
  return b > UINT64_MAX - a ? UINT64_MAX : a + b;
}

// A hash that a cache makes of a word after others, as the library does.
inline std::uint64_t fold(std::uint64_t hash, std::uint64_t word) noexcept {
  return lru_hash_multiply(hash ^ word, 0x9e3779b97f4a7c05);
}

// The part of a capacity that each of so many shards gets: equal ones, rounded up.
inline std::uint64_t share(std::uint64_t capacity, std::uint64_t shards) noexcept {
  return capacity / shards + (capacity % shards != 0);
}

// The functions of lru.h that take a key, for each kind of key. They take it as a `Hashed`, which
// `hashed` makes of it, before the lock is taken. It is made with the same seed for all calls on a
// cache.
template <class Key>
struct Calls {};

template <>
struct Calls<std::string_view> {
  using Hashed = HashedBytes;

  static constexpr std::uint32_t kind = LRU_BYTES;

  static std::uint64_t fold(std::uint64_t hash, HashedBytes key) noexcept {
    return detail::fold(hash, key.hash);
  }

  static HashedBytes hashed(std::string_view key, Seed seed) noexcept {
    return {key, lru_hash_bytes(key.data(), key.size(), seed.number)};
  }
  static lru_told begin(lru_cache* cache, HashedBytes key, std::uint64_t charge, bool strict,
                        lru_chain* gone) {
    return lru_bytes_begin(cache, key.bytes.data(), key.bytes.size(), key.hash, charge, strict,
                           gone);
  }
  static lru_told get(lru_cache* cache, HashedBytes key) {
    return lru_bytes_get(cache, key.bytes.data(), key.bytes.size(), key.hash);
  }
  static lru_code contains(lru_cache* cache, HashedBytes key) {
    return lru_bytes_contains(cache, key.bytes.data(), key.bytes.size(), key.hash);
  }
  static lru_code advice_evict(lru_cache* cache, HashedBytes key, lru_chain* gone) {
    return lru_bytes_advice_evict(cache, key.bytes.data(), key.bytes.size(), key.hash, gone);
  }
  static lru_code invalidate(lru_cache* cache, HashedBytes key, lru_chain* gone) {
    return lru_bytes_invalidate(cache, key.bytes.data(), key.bytes.size(), key.hash, gone);
  }
  static lru_told insert(lru_cache* cache, HashedBytes key, std::uint64_t charge,
                         std::uint64_t value, bool strict, lru_chain* gone) {
    return lru_bytes_insert(cache, key.bytes.data(), key.bytes.size(), key.hash, charge, value,
                            strict, gone);
  }
};

// The library hashes the words, which takes no longer than to pass a hash.
template <>
struct Calls<Words> {
  using Hashed = Words;

  static constexpr std::uint32_t kind = LRU_WORDS;

  static std::uint64_t fold(std::uint64_t hash, Words key) noexcept {
    return detail::fold(detail::fold(hash, key.first), key.second);
  }

  static Words hashed(Words key, Seed) noexcept { return key; }
  static lru_told begin(lru_cache* cache, Words key, std::uint64_t charge, bool strict,
                        lru_chain* gone) {
    return lru_words_begin(cache, key.first, key.second, charge, strict, gone);
  }
  static lru_told get(lru_cache* cache, Words key) {
    return lru_words_get(cache, key.first, key.second);
  }
  static lru_code contains(lru_cache* cache, Words key) {
    return lru_words_contains(cache, key.first, key.second);
  }
  static lru_code advice_evict(lru_cache* cache, Words key, lru_chain* gone) {
    return lru_words_advice_evict(cache, key.first, key.second, gone);
  }
  static lru_code invalidate(lru_cache* cache, Words key, lru_chain* gone) {
    return lru_words_invalidate(cache, key.first, key.second, gone);
  }
  static lru_told insert(lru_cache* cache, Words key, std::uint64_t charge, std::uint64_t value,
                         bool strict, lru_chain* gone) {
    return lru_words_insert(cache, key.first, key.second, charge, value, strict, gone);
  }
};

// Whether no thread but this one has ever been started, as far as the C library tells.
inline bool IsOnlyThread() {
#if __has_include(<sys/single_threaded.h>)
  return __libc_single_threaded != 0;
#else
  return false;
#endif
}

// Waits a little, as a processor that tries a lock again should.
inline void Pause() {
#if defined(__x86_64__) || defined(__i386__)
  __builtin_ia32_pause();
#elif defined(__aarch64__)
  __asm__ __volatile__("isb");
#endif
}

// A mutex that each holder keeps for less time than it takes to put a thread to sleep and to wake
// it. A thread that finds it held tries it again for a while, less and less often, before it
// sleeps.
class Mutex {
 public:
  void lock() {
    // With one thread, glibc locks without an atomic instruction, but does not try without one.
    if (IsOnlyThread()) return mutex_.lock();
    if (!mutex_.try_lock()) LockHeld();
  }
  void unlock() { mutex_.unlock(); }

  // Waits at a condition. The caller holds the mutex, and holds it again afterwards.
  void wait(std::condition_variable* condition) {
    std::unique_lock<std::mutex> lock(mutex_, std::adopt_lock);
    condition->wait(lock);
    lock.release();
  }

 private:
  [[gnu::cold]] void LockHeld() {
    for (int pauses = 1; pauses <= kMostPauses; pauses *= 2) {
      for (int n = 0; n < pauses; n++) Pause();
      if (mutex_.try_lock()) return;
    }
    mutex_.lock();
  }

  // With those before them 511 pauses, which take from 2 to some 25 microseconds on processors for
  // x86-64.
  static constexpr int kMostPauses = 256;

  std::mutex mutex_;
};

// The node whose address is a value of the library, and that value.
template <class Node>
Node* node_of(std::uint64_t value) noexcept {
  return reinterpret_cast<Node*>(static_cast<std::uintptr_t>(value));
}
template <class Node>
std::uint64_t word_of(Node* node) noexcept {
  return static_cast<std::uint64_t>(reinterpret_cast<std::uintptr_t>(node));
}

// Nodes that were evicted, oldest first. The destructor deletes them. It must run without the lock:
// the destructor of a value may take long, and may call the cache.
template <class Node>
class Evicted {
 public:
  Evicted() = default;
  ~Evicted() { clear(); }

  Evicted(const Evicted&) = delete;
  Evicted& operator=(const Evicted&) = delete;

  void add(Node* node) noexcept {
    node->next = nullptr;
    (last_ == nullptr ? first_ : last_->next) = node;
    last_ = node;
  }

  // Deletes them now.
  void clear() noexcept {
    last_ = nullptr;
    while (first_ != nullptr) delete std::exchange(first_, first_->next);
  }

  // The oldest of them, or null. Each leads to the one that was evicted after it.
  Node* first() const noexcept { return first_; }

 private:
  Node* first_ = nullptr;
  Node* last_ = nullptr;
};

// A cache of lru.h with its own chain of evicted entries. The caller holds a lock during each call.
//
// The value that the library stores is the address of a Node, which has a member `Node* next` for
// the list of evicted nodes. Keys are passed as Calls<Key>::hashed returns them, which needs no
// lock. Each member calls the function of lru.h with its name, and moves what that evicted to
// `evicted`.
template <class Node, class Key>
class Core {
  static_assert(std::is_same_v<Key, std::string_view> || std::is_same_v<Key, Words>,
                "lru: a key is a std::string_view or an lru::Words");

 public:
  using Hashed = typename detail::Calls<Key>::Hashed;

  Core() = default;

  // Deletes all nodes that are left. Calls on handles that are not open do nothing.
  ~Core() {
    Evicted<Node> rest;
    close(&rest);
    lru_chain_free(&chain_);
  }

  Core(const Core&) = delete;
  Core& operator=(const Core&) = delete;

  // Opens the cache. Comes before all other members, and only once. False if there is no memory for
  // it: then only the destructor may follow.
  [[nodiscard]] bool open(std::uint64_t capacity, Seed seed) noexcept {
    seed_hash_ = fold(0x243f6a8885a308d3, seed.number);
    return lru_chain_new(&chain_) == LRU_DONE &&
           lru_cache_new(Calls::kind, capacity, seed.number, &cache_) == LRU_DONE;
  }

  // The hash that the pins of a key's entry have. It only says where the library looks first: if it
  // hashed keys otherwise, this hash would lead nowhere, and a pin would lead to its entry by its
  // place. Needs no lock.
  std::uint64_t hash_of(const Hashed& key) const noexcept {
    const std::uint64_t hash = Calls::fold(seed_hash_, key);
    return hash << 40 | hash >> 24;
  }

  // Closes the cache, and moves all nodes that are left to `evicted`. Later calls do nothing, and
  // tell LRU_CLOSED.
  void close(Evicted<Node>* evicted) noexcept {
    lru_cache_free(&cache_, &chain_);
    take_evicted(evicted);
  }

  // Whether the capacity is a strict limit, which at first it is not. If it is, calls of begin,
  // ready_with and insert are strict.
  void set_strict_limit(bool is_strict) noexcept { is_strict_ = is_strict; }
  bool is_limit_strict() const noexcept { return is_strict_; }

  lru_told begin(Hashed key, std::uint64_t charge, Evicted<Node>* evicted) noexcept {
    const lru_told told = Calls::begin(&cache_, key, charge, is_strict_, &chain_);
    if (told.code == LRU_MAKE) take_evicted(evicted);
    return told;
  }
  lru_told poll(lru_pin pin) noexcept { return lru_cache_poll(&cache_, pin); }
  // After LRU_DONE the node is the core's; else it is still the caller's.
  lru_code ready(lru_pin pin, Node* node) noexcept {
    return lru_cache_ready(&cache_, pin, word_of(node));
  }
  // The same with a charge for the entry, strictly if the limit is.
  lru_code ready_with(lru_pin pin, Node* node, std::uint64_t charge,
                      Evicted<Node>* evicted) noexcept {
    const lru_code code =
        lru_cache_ready_with(&cache_, pin, word_of(node), charge, is_strict_, &chain_);
    take_evicted(evicted);
    return code;
  }
  lru_code fail(lru_pin pin) noexcept { return lru_cache_fail(&cache_, pin); }
  // The entry of a pin. All of it is 0 if it has no value.
  lru_entry entry(lru_pin pin) const noexcept {
    lru_entry entry = {};
    lru_cache_entry(&cache_, pin, &entry);
    return entry;
  }
  lru_told get(Hashed key) noexcept { return Calls::get(&cache_, key); }
  lru_code contains(Hashed key) const noexcept { return Calls::contains(&cache_, key); }
  lru_told repin(lru_pin pin) noexcept { return lru_cache_repin(&cache_, pin); }
  lru_code release(lru_pin pin, Evicted<Node>* evicted) noexcept {
    const lru_code code = lru_cache_release(&cache_, pin, &chain_);
    take_evicted(evicted);
    return code;
  }
  lru_code release_and_evict(lru_pin pin, Evicted<Node>* evicted) noexcept {
    const lru_code code = lru_cache_release_and_evict(&cache_, pin, &chain_);
    take_evicted(evicted);
    return code;
  }
  lru_code advice_evict(Hashed key, Evicted<Node>* evicted) noexcept {
    const lru_code code = Calls::advice_evict(&cache_, key, &chain_);
    take_evicted(evicted);
    return code;
  }
  lru_code invalidate(Hashed key, Evicted<Node>* evicted) noexcept {
    const lru_code code = Calls::invalidate(&cache_, key, &chain_);
    take_evicted(evicted);
    return code;
  }
  // After LRU_DONE the node is the core's; else it is still the caller's.
  lru_told insert(Hashed key, std::uint64_t charge, Node* node, Evicted<Node>* evicted) noexcept {
    const lru_told told = Calls::insert(&cache_, key, charge, word_of(node), is_strict_, &chain_);
    take_evicted(evicted);
    return told;
  }
  void prune(Evicted<Node>* evicted) noexcept {
    lru_cache_prune(&cache_, &chain_);
    take_evicted(evicted);
  }
  void set_capacity(std::uint64_t capacity, Evicted<Node>* evicted) noexcept {
    lru_cache_set_capacity(&cache_, capacity, &chain_);
    take_evicted(evicted);
  }
  lru_code reserve(std::size_t entries) noexcept { return lru_cache_reserve(&cache_, entries); }
  // Opens a cache with the same seed in place of this one, which has no entry: its tables take no
  // memory then, and it has counted nothing. LRU_DONE; LRU_MEMORY: nothing has changed.
  lru_code reopen(Seed seed) noexcept {
    lru_cache fresh = {};
    const lru_code code = lru_cache_new(Calls::kind, capacity(), seed.number, &fresh);
    if (code != LRU_DONE) return code;
    lru_cache_free(&cache_, &chain_);
    cache_ = fresh;
    return LRU_DONE;
  }
  std::uint64_t total() const noexcept { return lru_cache_total(&cache_).value; }
  std::uint64_t pinned_charge() const noexcept { return lru_cache_pinned_charge(&cache_).value; }
  std::uint64_t capacity() const noexcept { return lru_cache_capacity(&cache_).value; }
  std::uint64_t len() const noexcept { return lru_cache_len(&cache_).value; }
  // Writes the entries that have a node to `out`, and returns how many they are. The room must be
  // enough for len() entries.
  std::size_t entries(lru_entry* out, std::size_t room) const noexcept {
    const lru_told told = lru_cache_entries(&cache_, out, room);
    return told.code == LRU_NUMBER ? static_cast<std::size_t>(told.value) : 0;
  }
  // The key of an entry. The first is for keys of bytes, and tells what the function of lru.h does.
  lru_told key_of(lru_pin pin, char* buffer, std::size_t room) const noexcept {
    return lru_bytes_key_of(&cache_, pin, buffer, room);
  }
  Words key_of(lru_pin pin) const noexcept {
    Words key = {};
    lru_words_key_of(&cache_, pin, &key.first, &key.second);
    return key;
  }
  lru_stats stats() const noexcept {
    lru_stats stats = {};
    lru_cache_stats(&cache_, &stats);
    return stats;
  }

 private:
  using Calls = detail::Calls<Key>;

  // Empties the chain, as the next call needs it empty. Most calls evict nothing.
  void take_evicted(Evicted<Node>* evicted) noexcept {
    lru_gone gone;
    while (!lru_chain_is_empty(&chain_)) {
      lru_chain_pop(&chain_, &gone);
      evicted->add(node_of<Node>(gone.value));
    }
  }

  // Mutable because the calls that only look take a pointer that is not const.
  mutable lru_cache cache_ = {};
  lru_chain chain_ = {};
  std::uint64_t seed_hash_ = 0;
  bool is_strict_ = false;
};

}  // namespace detail
}  // namespace lru

#endif
