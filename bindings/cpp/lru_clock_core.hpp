// The clock of lru.h as shards that have a mutex each, and readers of them for each thread.
// lru_clock.hpp and lru_clock_block_cache.hpp are built on them. Nothing here throws, and the
// header compiles with -fno-exceptions and -fno-rtti.
#ifndef CONCURRENT_LRU_CLOCK_CORE_HPP
#define CONCURRENT_LRU_CLOCK_CORE_HPP

#include <pthread.h>

#include <atomic>
#include <cassert>
#include <cstddef>
#include <cstdint>
#include <memory>
#include <mutex>
#include <new>
#include <utility>

#include "lru_core.hpp"

namespace lru {
namespace detail {

// A thread that has a number, in the list of them. Its memory is the thread's own.
struct NumberedThread {
  static constexpr std::uint32_t kNone = UINT32_MAX;
  // The lanes of the first chunk; each later one has twice as many as the one before.
  static constexpr std::uint32_t kFirst = 8;

  // Sets the number, and finds the lane for it, so that no hit has to.
  void set(std::uint32_t n) noexcept {
    const std::uint64_t nth = std::uint64_t{n} + kFirst;
    number = n;
    chunk = static_cast<std::uint32_t>(63 - __builtin_clzll(nth / kFirst));
    lane = static_cast<std::uint32_t>(nth - (std::uint64_t{kFirst} << chunk));
  }

  std::uint32_t number = kNone;
  std::uint32_t chunk = kNone;
  std::uint32_t lane = 0;  // in the chunk
  bool is_ending = false;
  NumberedThread* next = nullptr;
};

// Numbers the threads of the process that use a clock: each has the least number that no other
// thread has, until it ends. Nothing here throws. It is visible, so that all shared libraries of a
// program give the same numbers.
class [[gnu::visibility("default")]] ThreadNumbers {
 public:
  // The number of this thread, or kNone if it has none: there is no memory for it, or the thread
  // is about to end.
  static std::uint32_t mine() noexcept { return this_thread().number; }

  // This thread, which has no chunk if it has no number.
  static const NumberedThread& this_thread() noexcept {
    if (mine_.number == NumberedThread::kNone) take();
    return mine_;
  }

 private:
  // What tells that a thread ends. A thread_local object would end the program if there is no
  // memory to register its destructor. It is closed when the program ends, or the shared library
  // that has this code is unloaded.
  struct Key {
    Key() noexcept : is_open(pthread_key_create(&key, give_back) == 0) {}
    ~Key() {
      if (is_open.exchange(false)) pthread_key_delete(key);
    }

    pthread_key_t key = 0;
    std::atomic<bool> is_open;
  };

  [[gnu::cold, gnu::noinline]] static void take() noexcept {
    static Key key;
    NumberedThread* const mine = &mine_;
    if (mine->is_ending || !key.is_open || pthread_setspecific(key.key, mine) != 0) return;
    const std::lock_guard<std::mutex> lock(mutex_);
    std::uint32_t number = 0;
    NumberedThread** place = &first_;
    for (; *place != nullptr && (*place)->number == number; number++) place = &(*place)->next;
    mine->set(number);
    mine->next = std::exchange(*place, mine);
  }

  static void give_back(void* at) noexcept {
    auto* const mine = static_cast<NumberedThread*>(at);
    const std::lock_guard<std::mutex> lock(mutex_);
    NumberedThread** place = &first_;
    while (*place != mine) place = &(*place)->next;
    *place = mine->next;
    mine->number = mine->chunk = NumberedThread::kNone;
    mine->is_ending = true;
  }

  static inline thread_local NumberedThread mine_;
  static inline std::mutex mutex_;
  static inline NumberedThread* first_ = nullptr;  // in the order of their numbers
};

// The readers of a cache: each thread has a lane of them, with a reader of each shard, which only
// that thread uses. A reader is opened by the first call of its thread on its shard. The lanes are
// in chunks, each for twice as many threads as the one before, which never move.
class Lanes {
 public:
  explicit Lanes(std::size_t shards) noexcept
      : readers_((shards + kInLine - 1) / kInLine * kInLine) {}

  ~Lanes() {
    for (std::size_t number = 0; number < kChunks; number++) {
      const Chunk chunk(chunks_[number].load(std::memory_order_acquire));
      if (chunk == nullptr) continue;
      for (std::size_t i = 0; i < count_of(number); i++) lru_reader_free(&chunk[i]);
    }
  }

  Lanes(const Lanes&) = delete;
  Lanes& operator=(const Lanes&) = delete;

  // This thread's reader of a shard, which need not be open. Null if the thread has no number, or
  // there is no memory for its lane.
  lru_reader* mine(std::size_t shard) noexcept {
    const NumberedThread& thread = ThreadNumbers::this_thread();
    if (thread.chunk >= kChunks) return nullptr;
    lru_reader* readers = chunks_[thread.chunk].load(std::memory_order_acquire);
    if (readers == nullptr && (readers = add(thread.chunk)) == nullptr) return nullptr;
    return &readers[thread.lane * readers_ + shard];
  }

 private:
  // A line of the processor's cache, which no two lanes share.
  static constexpr std::align_val_t kLine{64};
  static constexpr std::size_t kInLine = 64 / sizeof(lru_reader);
  static_assert(64 % sizeof(lru_reader) == 0, "lru: a line is full of readers");

  // How many chunks there are: enough for twice as many threads as Linux can have.
  static constexpr std::size_t kChunks = 20;

  struct Delete {
    void operator()(lru_reader* readers) const noexcept { ::operator delete[](readers, kLine); }
  };
  using Chunk = std::unique_ptr<lru_reader[], Delete>;

  // The number of readers in a chunk.
  std::size_t count_of(std::size_t chunk) const noexcept {
    return (std::size_t{NumberedThread::kFirst} << chunk) * readers_;
  }

  [[gnu::cold, gnu::noinline]] lru_reader* add(std::size_t number) noexcept {
    Chunk chunk(new (kLine, std::nothrow) lru_reader[count_of(number)]());
    lru_reader* other = nullptr;
    if (chunk == nullptr || !chunks_[number].compare_exchange_strong(other, chunk.get())) {
      return other;
    }
    return chunk.release();
  }

  const std::size_t readers_;  // of a lane, and those that fill its last line
  std::atomic<lru_reader*> chunks_[kChunks] = {};
};

// A key, the hash by which the clock of a shard finds it, and the shard.
struct ClockKey {
  Words words;
  std::uint64_t hash;
  std::uint32_t shard;
};

// A shard: a clock with its mutex. The value that the library stores is the address of a node.
// Shards do not share cache lines, so that threads at different shards do not slow each other, and
// a hit reads nothing of them.
//
// ThreadSanitizer is told (lru_before_release in lru.h) that what a thread has done before it adds
// a value or gives back a pin comes before what another one does once it has pinned a value of the
// same shard or taken it out. So it may miss races of threads that use different values of a shard,
// as it would if each call took the mutex.
//
// The caller of each member holds the mutex. `Evicted` is a list with `add(Node*)`, which takes the
// nodes that leave.
template <class NodeOfCache>
struct alignas(64) ClockShard {
  using Node = NodeOfCache;

  ClockShard() = default;
  ~ClockShard() {
    lru_reader_free(&reader);
    lru_clock_free(&clock);
  }

  ClockShard(const ClockShard&) = delete;
  ClockShard& operator=(const ClockShard&) = delete;

  // Opens a thread's reader, unless it is null. If there is no memory for it, the thread tries
  // again with its next call.
  void open_reader(lru_reader* mine) noexcept {
    if (mine != nullptr) lru_reader_new(&clock, mine);
  }

  // Pins the value of a key, and misses none.
  lru_found find(const ClockKey& key) noexcept {
    return lru_clock_find(&clock, key.hash, key.words.first, key.words.second);
  }

  // Pins a new value of a key, or the one that it has: LRU_HIT.
  lru_found add(const ClockKey& key, std::uint64_t charge, Node* node) noexcept {
    lru_before_release(&clock);
    return lru_clock_add(&clock, key.hash, key.words.first, key.words.second, charge, word_of(node),
                         is_strict);
  }

  // Makes room for a value, and pins it as the key's, in place of the one that the key has:
  // LRU_DONE.
  template <class Evicted>
  lru_found insert(const ClockKey& key, std::uint64_t charge, Node* node,
                   Evicted* evicted) noexcept {
    lru_left left;
    lru_found found;
    lru_before_release(&clock);
    do {
      found = lru_clock_insert(&clock, key.hash, key.words.first, key.words.second, charge,
                               word_of(node), is_strict, &left);
      if (found.code == LRU_GONE || found.code == LRU_REPLACED) take(left, evicted);
    } while (found.code == LRU_GONE);
    if (found.code == LRU_REPLACED) found.code = LRU_DONE;
    return found;
  }

  // Pins a value that was made with a ticket: LRU_DONE.
  lru_found ready(const ClockKey& key, std::uint64_t ticket, std::uint64_t charge,
                  Node* node) noexcept {
    lru_before_release(&clock);
    return lru_clock_ready(&clock, ticket, key.hash, charge, word_of(node), is_strict);
  }

  // Whether the capacity has room for another charge.
  bool has_room(std::uint64_t charge) noexcept {
    const std::uint64_t room = capacity();
    return charge <= room && total() <= room - charge;
  }

  // Evicts until there is room for another charge, or all that is left is pinned. Evicts nothing
  // for a charge that a strict limit refuses in any case.
  template <class Evicted>
  void make_room(std::uint64_t charge, Evicted* evicted) noexcept {
    if (is_strict && charge > capacity()) return;
    lru_left left;
    while (lru_clock_make_room(&clock, charge, &left) == LRU_GONE) take(left, evicted);
  }

  // Evicts down to the capacity. Comes also after a value was added: if it found no room, whoever
  // gave a pin back in between was not told that the total is above the capacity.
  template <class Evicted>
  void settle(Evicted* evicted) noexcept {
    make_room(0, evicted);
  }

  // Evicts all that is not pinned.
  template <class Evicted>
  void prune(Evicted* evicted) noexcept {
    lru_left left;
    std::uint32_t next = 0;
    while (lru_clock_prune(&clock, &next, &left) == LRU_GONE) take(left, evicted);
  }

  template <class Evicted>
  void set_capacity(std::uint64_t capacity, Evicted* evicted) noexcept {
    lru_clock_set_capacity(&clock, capacity);
    settle(evicted);
  }

  // Takes the value of a key away, and the making of one. The value leaves at once unless it is
  // pinned.
  template <class Evicted>
  void erase(const ClockKey& key, Evicted* evicted) noexcept {
    lru_left left;
    if (lru_clock_erase(&clock, key.hash, key.words.first, key.words.second, &left) == LRU_GONE) {
      take(left, evicted);
    }
  }

  // The same, of a value that the caller has pinned at this place. Gives that pin back.
  template <class Evicted>
  void detach(const ClockKey& key, std::uint32_t place, Evicted* evicted) noexcept {
    erase(key, evicted);
    unpin(place, evicted);
  }

  template <class Evicted>
  void unpin(std::uint32_t place, Evicted* evicted) noexcept {
    finish_unpin(lru_reader_unpin(&reader, place), place, evicted);
  }

  // Gives a pin back, and takes out the value if that was its last pin.
  template <class Evicted>
  void unpin_and_evict(std::uint32_t place, Evicted* evicted) noexcept {
    lru_left left;
    if (lru_clock_release_and_evict(&clock, place, &left) == LRU_GONE) take(left, evicted);
  }

  // Ends what an unpin without the mutex has begun, which answered with this code: gives the pin
  // back, if the thread's reader was not open, and takes out what has to leave. Returns what that
  // unpin answered.
  template <class Evicted>
  lru_code end_unpin(std::uint32_t place, lru_reader* mine, lru_code code,
                     Evicted* evicted) noexcept {
    if (code == LRU_CLOSED) {
      open_reader(mine);
      code = lru_reader_unpin(&reader, place);
    }
    assert(code == LRU_DONE || code == LRU_ABOVE || code == LRU_LAST);
    finish_unpin(code, place, evicted);
    return code;
  }

  // Makes room in memory for so many values.
  lru_code reserve(std::size_t entries) noexcept { return lru_clock_reserve(&clock, entries); }

  lru_clock_counts counts() noexcept {
    lru_clock_counts counts = {};
    lru_clock_stats(&clock, &counts);
    return counts;
  }

  std::uint64_t total() noexcept { return lru_clock_total(&clock).value; }
  std::uint64_t pinned_charge() noexcept { return lru_clock_pinned_charge(&clock).value; }
  std::uint64_t capacity() noexcept { return lru_clock_capacity(&clock).value; }
  std::uint64_t len() noexcept { return lru_clock_len(&clock).value; }
  std::uint32_t places() noexcept {
    return static_cast<std::uint32_t>(lru_clock_places(&clock).value);
  }

  Mutex mutex;
  lru_clock clock = {};
  lru_reader reader = {};  // for any thread that holds the mutex
  bool is_strict = false;  // whether nothing is added that takes the total above the capacity

 private:
  // Takes out what has to leave after an unpin that answered with this code.
  template <class Evicted>
  void finish_unpin(lru_code code, std::uint32_t place, Evicted* evicted) noexcept {
    lru_left left;
    if (code == LRU_ABOVE) settle(evicted);
    if (code == LRU_LAST && lru_clock_collect(&clock, place, &left) == LRU_GONE) {
      take(left, evicted);
    }
  }

  template <class Evicted>
  void take(const lru_left& left, Evicted* evicted) noexcept {
    lru_after_acquire(&clock);
    evicted->add(node_of<Node>(left.value));
  }
};

// The shards of a cache, and the readers of all threads. A `Shard` is a ClockShard, or derived from
// one. The members below that take a thread's reader accept null as well, which stands for one that
// is not open.
template <class Shard>
class ClockShards {
 public:
  // Neither the number of shards nor that of a shard is above 2^32 - 1.
  ClockShards(std::size_t count, Seed seed) noexcept : seed_(seed), count_(count), lanes_(count) {}

  // False if there is no memory. Each shard has room for this many entries. Comes before all other
  // members, and only once.
  bool open(std::uint64_t capacity, std::size_t entries = 0) noexcept {
    shards_.reset(new (std::nothrow) Shard[count_]);
    if (shards_ == nullptr) return false;
    for (Shard& shard : *this) {
      if (lru_clock_new(share(capacity, count_), &shard.clock) != LRU_DONE ||
          lru_reader_new(&shard.clock, &shard.reader) != LRU_DONE ||
          shard.reserve(entries) != LRU_DONE) {
        return false;
      }
    }
    return true;
  }

  std::size_t count() const noexcept { return count_; }
  Shard& operator[](std::size_t number) const noexcept { return shards_[number]; }
  Shard* begin() const noexcept { return shards_.get(); }
  Shard* end() const noexcept { return shards_ == nullptr ? nullptr : shards_.get() + count_; }

  // The lower half of the hash chooses the shard, and a clock uses the upper half. Both depend on
  // all bits of the key.
  ClockKey hash(Words words) const noexcept {
    const std::uint64_t mixed = lru_hash_multiply(words.first ^ seed_.number, 0x9e3779b97f4a7c05u);
    const std::uint64_t hash = lru_hash_multiply(mixed ^ words.second, 0xbf58476d1ce4e5b9u);
    const std::uint64_t shard = std::uint64_t{static_cast<std::uint32_t>(hash)} * count_ >> 32;
    return {words, hash, static_cast<std::uint32_t>(shard)};
  }

  // Without the mutex.

  // This thread's reader of a shard.
  lru_reader* mine(std::uint32_t shard) const noexcept { return lanes_.mine(shard); }

  // Pins the value of a key. May miss one while the clock is written.
  lru_found pin(lru_reader* mine, const ClockKey& key) const noexcept {
    if (mine == nullptr) return {0, LRU_CLOSED, 0};
    const lru_found found = lru_reader_pin(mine, key.hash, key.words.first, key.words.second);
    lru_after_acquire(&shards_[key.shard].clock);
    return found;
  }
  lru_code unpin(lru_reader* mine, std::uint32_t number, std::uint32_t place) const noexcept {
    if (mine == nullptr) return LRU_CLOSED;
    lru_before_release(&shards_[number].clock);
    return lru_reader_unpin(mine, place);
  }

  // These take the mutex if the reader is not open, and then open it.

  // Pins the value of a key, and misses none.
  [[gnu::cold, gnu::noinline]] lru_found find_locked(const ClockKey& key,
                                                     lru_reader* mine) const noexcept {
    Shard& shard = shards_[key.shard];
    const std::lock_guard<Mutex> lock(shard.mutex);
    shard.open_reader(mine);
    return shard.find(key);
  }

  // Pins whatever value is at a place.
  lru_found pin_at(std::uint32_t number, std::uint32_t place) const noexcept {
    lru_reader* const mine = lanes_.mine(number);
    Shard& shard = shards_[number];
    lru_found found = {0, LRU_CLOSED, 0};
    if (mine != nullptr) found = lru_reader_pin_at(mine, place);
    lru_after_acquire(&shard.clock);
    if (found.code != LRU_CLOSED) return found;
    const std::lock_guard<Mutex> lock(shard.mutex);
    shard.open_reader(mine);
    return lru_reader_pin_at(&shard.reader, place);
  }

  // The sum of a number of each shard, or 2^64 - 1 if it is more. The shards are read one after
  // another, each with its mutex held.
  template <class Number>
  std::uint64_t sum(Number number) const {
    std::uint64_t sum = 0;
    for (Shard& shard : *this) {
      const std::lock_guard<Mutex> lock(shard.mutex);
      sum = saturating_add(sum, number(shard));
    }
    return sum;
  }

 private:
  const Seed seed_;
  const std::size_t count_;
  std::unique_ptr<Shard[]> shards_;
  mutable Lanes lanes_;
};

}  // namespace detail
}  // namespace lru

#endif
