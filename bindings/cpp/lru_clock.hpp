// A cache that threads share, whose hits take no lock, built on the clock of lru.h. A look-up that
// finds nothing takes the lock of its shard and looks again, as it may miss a value that is there
// while another thread changes the shard.
//
//   lru::ClockCache<Page, std::uint64_t> cache(1000);
//   auto page = cache.get_or_init(7, 1, [](std::uint64_t number) { return Page(number); });
//   use(*page);  // pinned: the value stays while the handle lives
//
// Its members have the names of lru::ShardedCache of lru.hpp and do the same, except for this:
//
//   - Keys are integers, enumerations, pairs of them, lru::Words, or of a type for which lru::Key
//     is specialised with a `written` that returns Words.
//   - Values are evicted in about the order of their last uses, and not exactly. A value that is
//     used often is spared several times.
//   - The end of a handle evicts down to the capacity if the total is above it, as there. But if
//     another thread looks the value up at the same time, that may be left to the next call that
//     adds a value.
//   - A value counts once it has been made: values are evicted for it then, and not before `init`
//     runs. Its charge is that of the call that made it.
//   - A strict limit may refuse a value once it was made, if others took its room meanwhile. Values
//     are evicted before one that is made is refused, and before `init` runs too: only then it is
//     known that all that is left is pinned.
//   - A caller that waits for a value makes one of its own if the key is taken away meanwhile, or
//     if the value is evicted at once.
//   - `read` calls its function without the lock. `contains` is a use of the value. No call tells
//     how many handles a value has.
//   - `stats` counts what is made, added and evicted, but no hits, misses and waits.
//   - There is no hash of the program's own, and no `shrink_to_fit`.
//
// Of the clock of lru.h less is proved than of the other caches: THE CLOCK there says what. This
// header adds the locks, the waiting and the values. It is ordinary C++, tested with
// AddressSanitizer, UBSan and ThreadSanitizer, which it tells what the library orders.
//
// Requires what lru.hpp requires.
#ifndef CONCURRENT_LRU_CLOCK_HPP
#define CONCURRENT_LRU_CLOCK_HPP

#include <algorithm>
#include <cassert>
#include <chrono>
#include <condition_variable>
#include <cstddef>
#include <cstdint>
#include <functional>
#include <memory>
#include <mutex>
#include <optional>
#include <stdexcept>
#include <type_traits>
#include <utility>
#include <vector>

#include "lru.hpp"
#include "lru_clock_core.hpp"

namespace lru {

template <class Value, class Key>
class ClockCache;
template <class Value, class Key>
class ClockMaker;

// What the calls on a ClockCache have done since it was constructed, and what it holds now. Hits
// are not counted: a counter that all threads write would cost a hit as much as a lock. The values
// inserted are those present and those that have left: insertions == entries + evictions. To count
// from some time on, subtract the numbers of that time.
struct ClockStats {
  std::uint64_t insertions = 0;  // values that were added, by `insert` or by those who made them
  std::uint64_t evictions = 0;   // values that have left, for whatever reason
  std::uint64_t entries = 0;     // as len(), total_charge() and capacity()
  std::uint64_t charge = 0;
  std::uint64_t capacity = 0;
  std::uint64_t loads = 0;             // values that were made, by an `init` or with a maker
  std::uint64_t load_failures = 0;     // values that could not be made, or were refused then
  std::uint64_t load_nanoseconds = 0;  // the time that these took in all, from the beginning of the
                                       // making to its end; 0 without set_load_times
};

namespace detail {

// A value of a ClockCache, on the heap.
template <class Value>
struct ClockNode {
  // The value that `init` returns is made in place, so it need not be movable.
  template <class Init, class Key>
  ClockNode(ByInit, Init&& init, const Key& k) : value(std::invoke(std::forward<Init>(init), k)) {}
  template <class... Args>
  explicit ClockNode(std::in_place_t, Args&&... args) : value(std::forward<Args>(args)...) {}

  // Whether its key finds it, as long as it is in the cache.
  bool is_listed() const noexcept { return reason == Reason::kEvicted; }

  Value value;
  Words key = {};
  // The lock of the shard protects these.
  Reason reason = Reason::kEvicted;  // why it leaves, now or later
  union {
    std::uint64_t charge = 0;
    ClockNode* next;  // once it has left the cache
  };
};

}  // namespace detail

// A pinned value of a ClockCache, as lru::Handle is of a Cache.
//
// A handle may be used and destroyed on any thread, by one thread at a time, and must not outlive
// its cache. It is empty once it has been moved from or reset, and ClockCache::get returns an empty
// one if the key has no value.
template <class Value, class Key>
class ClockHandle {
 public:
  ClockHandle() = default;
  ~ClockHandle() { reset(); }

  ClockHandle(ClockHandle&& other) noexcept
      : cache_(std::exchange(other.cache_, nullptr)),
        node_(other.node_),
        place_(other.place_),
        shard_(other.shard_) {}
  ClockHandle& operator=(ClockHandle&& other) noexcept {
    ClockHandle(std::move(other)).swap(*this);
    return *this;
  }
  ClockHandle(const ClockHandle&) = delete;
  ClockHandle& operator=(const ClockHandle&) = delete;

  // Whether the handle has a value.
  explicit operator bool() const noexcept { return cache_ != nullptr; }

  // The value. The handle must not be empty, except for get(), which returns null then.
  Value& operator*() const noexcept { return *get(); }
  Value* operator->() const noexcept { return get(); }
  Value* get() const noexcept { return cache_ == nullptr ? nullptr : std::addressof(node_->value); }

  // Another handle of the same value, even if the key has another value by now, or none. Takes no
  // lock, and is no use of the value. Returns an empty handle if this one is empty. Throws Overflow
  // if the value has about 2^30 handles; nothing changes then.
  ClockHandle clone() const {
    return cache_ == nullptr ? ClockHandle() : cache_->repin(shard_, place_);
  }

  // Releases the value; the handle is empty then. Without its last handle the value is idle, and
  // may be evicted. Takes the lock only if this was the last handle and a value has to leave: this
  // one, if it was invalidated or replaced, or others too, if the total is above the capacity.
  void reset() noexcept {
    if (cache_ != nullptr) std::exchange(cache_, nullptr)->release(shard_, place_);
  }

  // Releases the value as `reset` does, but takes the lock, and if this was its last handle, the
  // value is evicted at once. If the value has another handle, this is the same as `reset`.
  void release_and_evict() noexcept {
    if (cache_ != nullptr) std::exchange(cache_, nullptr)->release_and_evict(shard_, place_);
  }

  // Exchanges the values of two handles.
  void swap(ClockHandle& other) noexcept {
    std::swap(cache_, other.cache_);
    std::swap(node_, other.node_);
    std::swap(place_, other.place_);
    std::swap(shard_, other.shard_);
  }
  friend void swap(ClockHandle& one, ClockHandle& other) noexcept { one.swap(other); }

 private:
  friend class ClockCache<Value, Key>;
  using Node = detail::ClockNode<Value>;

  ClockHandle(const ClockCache<Value, Key>* cache, Node* node, std::uint32_t place,
              std::uint32_t shard)
      : cache_(cache), node_(node), place_(place), shard_(shard) {}

  const ClockCache<Value, Key>* cache_ = nullptr;
  Node* node_ = nullptr;
  std::uint32_t place_ = 0;
  std::uint32_t shard_ = 0;
};

// The duty to make the value of a key, from ClockCache::begin or try_begin, as lru::Maker is of a
// Cache. Other callers that ask for the key wait meanwhile. A maker that is destroyed before
// `ready` fails: the cache keeps no entry, and one of those that wait makes the value.
//
// A maker is moved, not copied. It is empty once it has been moved from, or has ended by `ready`,
// `ready_with` or `fail`. It may be used and destroyed on any thread, by one thread at a time, and
// must not outlive its cache.
template <class Value, class Key>
class ClockMaker {
 public:
  ClockMaker() = default;
  ~ClockMaker() { fail(); }

  ClockMaker(ClockMaker&& other) noexcept { take(&other); }
  ClockMaker& operator=(ClockMaker&& other) noexcept {
    if (this != &other) {
      fail();
      take(&other);
    }
    return *this;
  }
  ClockMaker(const ClockMaker&) = delete;
  ClockMaker& operator=(const ClockMaker&) = delete;

  // Whether there is a value to make.
  explicit operator bool() const noexcept { return cache_ != nullptr; }

  // Constructs the value in place from these arguments, such as another value to be moved, and
  // returns a handle of it. The maker is empty then. Throws std::bad_alloc and what the constructor
  // throws; the maker still has the duty then. Throws std::logic_error if the maker is empty.
  //
  // Throws OutOfMemory, Overflow and Full if the cache refuses the value: it is deleted, and the
  // maker has failed. Other values may have been evicted for it.
  template <class... Args>
  ClockHandle<Value, Key> ready(Args&&... args) {
    static_assert(std::is_constructible_v<Value, Args...>,
                  "lru: ready is called with what the value can be constructed from");
    if (cache_ == nullptr) throw std::logic_error("lru: ready is called on an empty maker");
    return cache_->ready(this, std::make_unique<Node>(std::in_place, std::forward<Args>(args)...));
  }

  // Does what `ready` does, with this charge, above 0, in place of the one with which the making
  // was begun. Also throws ZeroCharge, and the maker has failed then.
  template <class... Args>
  ClockHandle<Value, Key> ready_with(std::uint64_t charge, Args&&... args) {
    static_assert(std::is_constructible_v<Value, Args...>,
                  "lru: ready_with is called with a charge and what the value can be constructed "
                  "from");
    if (cache_ == nullptr) throw std::logic_error("lru: ready_with is called on an empty maker");
    auto made = std::make_unique<Node>(std::in_place, std::forward<Args>(args)...);
    charge_ = charge;
    return cache_->ready(this, std::move(made));
  }

  // Gives up, as the destructor does. Of an empty maker, nothing.
  void fail() noexcept {
    if (cache_ != nullptr) cache_->fail(this);
  }

 private:
  friend class ClockCache<Value, Key>;
  using Node = detail::ClockNode<Value>;

  void take(ClockMaker* other) noexcept {
    if (other->cache_ != nullptr) other->cache_->move(other, this);
  }

  // Null if the maker is empty. Of the maker's own thread alone, which reads it without the lock.
  const ClockCache<Value, Key>* cache_ = nullptr;
  detail::ClockKey key_ = {};
  std::uint64_t charge_ = 0;
  std::uint64_t ticket_ = 0;
  std::chrono::steady_clock::time_point start_;

  // From its beginning to its end a maker stands in the list of its shard. These need the lock.
  ClockMaker** place_ = nullptr;  // what leads to this one: the shard, or the one before
  ClockMaker* next_ = nullptr;
  bool is_detached_ = false;  // whether the key was taken away: later callers make another value
  bool is_awaited_ = false;   // whether a caller waits for its end
};

// What ClockCache::begin and try_begin return: a handle if the key has a value, or a maker. The
// other one is empty. After try_begin both are empty if another caller is making the value.
template <class Value, class Key>
struct ClockBegun {
  ClockHandle<Value, Key> handle;
  ClockMaker<Value, Key> maker;
};

// A cache of several shards, each with its own lock and an equal share of the capacity, rounded up.
// The head of this file says what it has less than a ShardedCache. All members may be called from
// any thread at any time, except the constructor and the destructor.
//
// A hit takes no lock, nor does the end of its handle, unless a value has to leave: each thread
// finds values by readers of its own. They are made by its first call on each shard, and stay for a
// later thread when it ends. A thread for which there is no memory for them takes the lock of the
// shard instead.
//
// No lock is held while `init` makes a value or a value is deleted. So both may take long, and may
// call the cache. But `init` must not ask for the key whose value it makes, and must not wait for
// another thread that does: it would wait for itself. The same applies to the destructors of values
// that are evicted for the new one. Destructors of values must not throw.
template <class Value, class Key>
class alignas(64) ClockCache {
  static_assert(std::is_same_v<typename detail::WrittenAs<Key>::Form, Words>,
                "lru: the keys of a ClockCache are integers, enumerations, pairs of them, "
                "lru::Words, or of a type whose lru::Key<..>::written returns lru::Words");
  using Argument = detail::Argument<Key>;
  using Shown = detail::Shown<Key, Words>;

 public:
  using Handle = ClockHandle<Value, Key>;
  using Maker = ClockMaker<Value, Key>;
  using Begun = ClockBegun<Value, Key>;
  using Listener = typename detail::Notice<Value, Key>::Listener;

  // An empty cache, whose seed is random. `capacity` is that of all shards together. The number of
  // shards is that of shards_for, for charges of 1 unless the typical one is passed. Throws
  // std::bad_alloc, and what std::random_device throws.
  explicit ClockCache(std::uint64_t capacity, TypicalCharge typical = TypicalCharge(1))
      : ClockCache(capacity, shards_for(capacity, typical.charge)) {}

  // The same with this number of shards. Throws std::invalid_argument if it is 0 or above 2^32 - 1.
  ClockCache(std::uint64_t capacity, std::size_t shards)
      : ClockCache(capacity, Seed::random(), shards) {}

  // The same with the seed of a test. Keys are hashed with it, and the hash chooses the shard too.
  ClockCache(std::uint64_t capacity, Seed seed)
      : ClockCache(capacity, seed, shards_for(capacity, 1)) {}
  ClockCache(std::uint64_t capacity, Seed seed, std::size_t shards)
      : ClockCache(capacity, seed, shards, nullptr, Limit::kNotStrict) {}

  // The same, with random seeds, and with a limit that may be strict. It is that of each shard: a
  // value has no room if its own shard has none.
  ClockCache(std::uint64_t capacity, Limit limit)
      : ClockCache(capacity, shards_for(capacity, 1), limit) {}
  ClockCache(std::uint64_t capacity, std::size_t shards, Limit limit)
      : ClockCache(capacity, shards, nullptr, limit) {}

  // The same with one listener for all shards, as for Cache. It may be null. It is told of a value
  // before this and those that leave with the same call are deleted, and needs no memory.
  ClockCache(std::uint64_t capacity, std::size_t shards, Listener listener,
             Limit limit = Limit::kNotStrict)
      : ClockCache(capacity, Seed::random(), shards, std::move(listener), limit) {}

  // Deletes all values. There must be no handle and no maker left, as it would dangle; this is
  // asserted. The destructors of the values and the listener must not call this cache: a call that
  // finds or adds values throws std::logic_error, which ends the program if it leaves a destructor.
  ~ClockCache() {
    Evicted evicted(this);
    for (Shard& shard : shards_) {
      shard.prune(&evicted);
      [[maybe_unused]] const lru_code code = lru_clock_free(&shard.clock);
      assert(code == LRU_DONE && shard.makers == nullptr &&
             "lru: a handle or a maker outlives its cache");
    }
    for (Node* node = evicted.first(); node != nullptr; node = node->next) {
      node->reason = Reason::kCleared;
    }
  }

  ClockCache(const ClockCache&) = delete;
  ClockCache& operator=(const ClockCache&) = delete;

  // A handle of the key's value, or an empty one if there is no value or it is still being made.
  // Takes the lock only if it finds no value. Does not wait for a value. Throws Overflow if the
  // value has about 2^30 handles.
  Handle get(Argument key) {
    const Hashed hashed = hash(key);
    return find(hashed);
  }

  // Calls `reader` with the key's value, and returns what it returned: a std::optional of it, or a
  // bool if that is void. It is empty, or false, if there is no value or it is still being made.
  // Is the same as `get` with the end of its handle: no lock is held while `reader` runs, so it may
  // take long, and may call the cache. Throws what `get` and `reader` throw.
  template <class Reader>
  auto read(Argument key, Reader&& reader) {
    using Result = std::decay_t<std::invoke_result_t<Reader, Value&>>;
    const Handle found = get(key);
    if constexpr (std::is_void_v<Result>) {
      if (found) std::invoke(std::forward<Reader>(reader), *found);
      return static_cast<bool>(found);
    } else {
      if (!found) return std::optional<Result>();
      return std::optional<Result>(std::invoke(std::forward<Reader>(reader), *found));
    }
  }

  // A handle of the key's value. If there is none, `init(key)` makes it. Takes the lock only if it
  // finds no value.
  //
  // Only one caller at a time makes a key's value; the others wait for it. If `init` throws, the
  // exception leaves this call and the cache keeps no entry. If others are waiting, one of them
  // makes the value instead, with its own `init` and charge. So does one that has waited for a
  // value that was evicted at once.
  //
  // `charge` is what the value counts for against the capacity, in units of the caller's choice; it
  // must be above 0, even if the key has a value. If the value exists already or is made by another
  // caller, its charge does not change.
  //
  // Throws ZeroCharge, Overflow and OutOfMemory before `init` runs, and no value is added. So does
  // Full, if the limit is strict, the key has no value and none is being made for it, and there is
  // no room for one. All idle values of the shard have been evicted then, unless the charge alone
  // is above its capacity. If there is no memory for the value that was made, or its charge is too
  // much by then, std::bad_alloc, Overflow or Full is thrown as if by `init`; other values may have
  // been evicted for it.
  template <class Init>
  Handle get_or_init(Argument key, std::uint64_t charge, Init&& init) {
    static_assert(std::is_invocable_v<Init, const Key&>,
                  "lru: init is called with the key, as `[](const Key& key) { .. }` can be");
    if (charge == 0) detail::throw_refusal(LRU_NO_CHARGE);
    const Hashed hashed = hash(key);
    lru_reader* const reader = shards_.mine(hashed.shard);
    lru_found found = shards_.pin(reader, hashed);
    if (found.code == LRU_HIT) return handle(found, hashed.shard);
    Maker maker;
    found = begin(hashed, charge, closed(reader, found), true, &maker);
    if (found.code == LRU_HIT) return handle(found, hashed.shard);
    return ready(&maker, std::make_unique<Node>(detail::ByInit(), std::forward<Init>(init), key));
  }

  // Does what get_or_init does, for a charge that is not known before the value, as
  // Cache::get_or_init_with. Throws what get_or_init throws, but before `init` runs Full only if
  // there is no room for a charge of 1. If `init` returns a charge of 0, ZeroCharge is thrown as if
  // by `init`.
  template <class Init>
  Handle get_or_init_with(Argument key, Init&& init) {
    static_assert(std::is_invocable_v<Init, const Key&>,
                  "lru: init is called with the key, as `[](const Key& key) { .. }` can be");
    Begun begun = begin(key, detail::kUnknownCharge);
    if (begun.handle) return std::move(begun.handle);
    auto [value, charge] = std::invoke(std::forward<Init>(init), std::as_const(key));
    return begun.maker.ready_with(charge, std::forward<decltype(value)>(value));
  }

  // Does what get_or_init does, but leaves it to the caller to make the value, at any time and on
  // any thread:
  //
  //   auto [page, maker] = cache.begin(7, 1);
  //   if (maker) page = maker.ready(load(7));
  //
  // If the charge is not known yet, pass 1, and call ClockMaker::ready_with later.
  //
  // Waits if another caller is making the value, so a thread that has a maker must not call this
  // with its key. Throws what get_or_init throws before `init` runs.
  Begun begin(Argument key, std::uint64_t charge) { return begin(key, charge, true); }

  // The same, but never waits: if another caller is making the value, the handle and the maker that
  // it returns are both empty, and nothing has changed.
  Begun try_begin(Argument key, std::uint64_t charge) { return begin(key, charge, false); }

  // Makes `value` the key's value, whatever the key had, and returns a handle of it. Other callers
  // find the old value or the new one. Handles of the old value keep it, and it counts against the
  // capacity, until the last of them is released. A value that is being made is its maker's alone;
  // those who wait for it get the new one.
  //
  // Throws ZeroCharge; Overflow if the charge would take the total of its shard, with the old
  // value, above 2^64 - 1, or the old value has about 2^30 handles; Full if the limit is strict and
  // there is no room for the new value beside those that have a handle, such as the old one may
  // have; and std::bad_alloc if there is no memory for it. The new value is deleted then, and
  // nothing else changes: the key keeps its old value. Only if other threads take handles during
  // the call may Full come after idle values were evicted, the old one among them.
  template <class V>
  Handle insert(Argument key, std::uint64_t charge, V&& value) {
    if (charge == 0) detail::throw_refusal(LRU_NO_CHARGE);
    auto node = std::make_unique<Node>(std::in_place, std::forward<V>(value));
    const Hashed hashed = hash(key);
    node->key = hashed.words;
    node->charge = charge;
    Shard& shard = shards_[hashed.shard];
    Evicted evicted(this);
    Lock lock(shard.mutex);
    Node* const old = listed(&shard, hashed, &evicted);
    const lru_found found = shard.insert(hashed, charge, node.get(), &evicted);
    shard.settle(&evicted);
    if (found.code != LRU_DONE) detail::throw_refusal(found.code);
    if (old != nullptr) old->reason = Reason::kReplaced;
    const bool is_awaited = take_from_maker(shard, hashed.words);
    lock.unlock();
    if (is_awaited) shard.ended.notify_all();
    return Handle(this, node.release(), found.place, hashed.shard);
  }

  // Whether the key has a value, as `get` looks for it. Is a use of the value.
  bool contains(Argument key) const {
    const Hashed hashed = hash(key);
    return static_cast<bool>(find(hashed));
  }

  // Takes the key's value away: the next caller that asks for the key makes a new one. Handles of
  // the old value keep it, as with `insert`. Those who wait for a value that is being made make one
  // of their own. Throws Overflow if the value has about 2^30 handles; nothing changes then.
  void invalidate(Argument key) {
    const Hashed hashed = hash(key);
    Shard& shard = shards_[hashed.shard];
    Evicted evicted(this);
    Lock lock(shard.mutex);
    const bool is_awaited = detach(&shard, hashed, Reason::kInvalidated, &evicted);
    lock.unlock();
    if (is_awaited) shard.ended.notify_all();
  }

  // Evicts the key's value if it is idle. If it has a handle, nothing changes, except that this is
  // a use of the value.
  void advice_evict(Argument key) {
    const Hashed hashed = hash(key);
    Shard& shard = shards_[hashed.shard];
    Evicted evicted(this);
    const Lock lock(shard.mutex);
    const lru_found found = shard.find(hashed);
    // Otherwise there is no value, or it has about 2^30 handles.
    if (found.code == LRU_HIT) shard.unpin_and_evict(found.place, &evicted);
  }

  // Evicts every idle value, one shard after another.
  void prune() {
    for (Shard& shard : shards_) {
      Evicted evicted(this);
      const Lock lock(shard.mutex);
      shard.prune(&evicted);
    }
  }

  // Takes the value of every key away, as `invalidate` does for one key, one shard after another.
  // What other threads insert meanwhile may stay. Needs no memory. Throws Overflow if a value has
  // about 2^30 handles; values of other keys may have left then.
  void clear() {
    for (Shard& shard : shards_) clear(&shard);
  }

  // Takes the values away, as `invalidate` does, for which `predicate(key, value, charge)` is true,
  // and returns how many they are. It is called once for each value that its key finds, in no
  // particular order; values that are being made stay. One shard is served after another, with its
  // lock held: `predicate` must not call the cache, nor destroy a handle, and other calls that need
  // the lock wait.
  //
  // Throws std::bad_alloc, Overflow if a value has about 2^30 handles, and what `predicate` throws;
  // the shards before have been served then, and no value of this one has left.
  template <class Predicate>
  std::uint64_t erase_if(Predicate&& predicate) {
    std::uint64_t erased = 0;
    for (Shard& shard : shards_) {
      Evicted evicted(this);
      const Lock lock(shard.mutex);
      std::vector<Hashed> chosen;
      visit(&shard, &evicted, [&](Node& node) {
        const Value& value = node.value;
        if (std::invoke(predicate, Shown::of(node.key), value, std::uint64_t{node.charge})) {
          chosen.push_back(shards_.hash(node.key));
        }
      });
      // None of these keys is being made, as it has a value.
      for (const Hashed& key : chosen) detach(&shard, key, Reason::kInvalidated, &evicted);
      erased += chosen.size();
    }
    return erased;
  }

  // Calls `visit(key, value, charge)` for each value that its key finds, in no particular order,
  // one shard after another. Values that are being made are left out, and so are those that were
  // invalidated or replaced. This is no use of a value.
  //
  // The lock of the shard is held meanwhile, so `visit` must not call the cache, nor destroy a
  // handle, and other calls that need the lock wait. The value may be changed only as a handle may
  // change it. Throws what `visit` throws, and Overflow if a value has about 2^30 handles.
  template <class Visit>
  void for_each(Visit&& visit) const {
    for (Shard& shard : shards_) {
      Evicted evicted(this);
      const Lock lock(shard.mutex);
      this->visit(&shard, &evicted, [&](Node& node) {
        std::invoke(visit, Shown::of(node.key), node.value, std::uint64_t{node.charge});
      });
    }
  }

  // The number of values, including those that were invalidated or replaced and still have a
  // handle, but not those that are being made. The shards are read one after another, so while
  // other threads call the cache it is no snapshot.
  std::uint64_t len() const {
    return shards_.sum([](Shard& shard) { return shard.len(); });
  }

  // The total of the charges of these values, or 2^64 - 1 if it is more. No snapshot, as `len`.
  std::uint64_t total_charge() const {
    return shards_.sum([](Shard& shard) { return shard.total(); });
  }

  // The total of the charges of the values that have a handle, or 2^64 - 1 if it is more. No
  // snapshot, as `len`. Takes time in proportion to the greatest number of values that there were
  // at once, or that were reserved.
  std::uint64_t pinned_charge() const {
    return shards_.sum([](Shard& shard) { return shard.pinned_charge(); });
  }

  // The total of the capacities of all shards, or 2^64 - 1 if it is more. Rounding may make it
  // more than the capacity that was set.
  std::uint64_t capacity() const {
    return shards_.sum([](Shard& shard) { return shard.capacity(); });
  }

  // The number of shards.
  std::size_t shards() const noexcept { return shards_.count(); }

  // Sets the capacity, of which each shard gets an equal share, rounded up. Idle values that exceed
  // it are evicted at once.
  void set_capacity(std::uint64_t capacity) {
    for (Shard& shard : shards_) {
      Evicted evicted(this);
      const Lock lock(shard.mutex);
      shard.set_capacity(detail::share(capacity, shards_.count()), &evicted);
    }
  }

  // How many values were made, added and evicted since the cache was constructed, and what it
  // holds: the sums of the numbers of all shards, each at most 2^64 - 1. Costs a hit nothing. No
  // snapshot, as `len`.
  ClockStats stats() const {
    ClockStats sum;
    for (Shard& shard : shards_) {
      const Lock lock(shard.mutex);
      const lru_clock_counts more = shard.counts();
      add_to(&sum.insertions, more.insertions);
      add_to(&sum.insertions, more.makings);
      add_to(&sum.evictions, more.evictions);
      add_to(&sum.entries, more.entries);
      add_to(&sum.charge, more.charge);
      add_to(&sum.capacity, more.capacity);
      add_to(&sum.loads, more.makings);
      add_to(&sum.load_failures, more.failures);
      add_to(&sum.load_nanoseconds, shard.load_nanoseconds);
    }
    return sum;
  }

  // Makes room for an equal share of `entries` values in each shard, rounded up. A shard that gets
  // more than its share grows. Throws OutOfMemory, and Overflow if a share is above 4,294,966,784;
  // the shards before have made room then.
  void reserve(std::size_t entries) {
    const std::uint64_t share = detail::share(entries, shards_.count());
    for (Shard& shard : shards_) {
      Lock lock(shard.mutex);
      const lru_code code = shard.reserve(static_cast<std::size_t>(share));
      lock.unlock();
      if (code != LRU_DONE) detail::throw_refusal(code);
    }
  }

  // Sets whether the capacity of each shard is a strict limit, one shard after another. Evicts
  // nothing: pinned values whose total is above the capacity stay, and until enough of them are
  // released, no value is added. Costs a hit nothing.
  void set_strict_limit(bool is_strict) {
    for (Shard& shard : shards_) {
      const Lock lock(shard.mutex);
      shard.is_strict = is_strict;
    }
  }

  // Says whether stats() tells how long values took to be made, which it does not at first. A miss
  // then takes about 0.05 us longer.
  void set_load_times(bool are_measured) {
    for (Shard& shard : shards_) {
      const Lock lock(shard.mutex);
      shard.times_loads = are_measured;
    }
  }

  // Whether the capacity of every shard is a strict limit. No snapshot, as `len`.
  bool is_limit_strict() const {
    return std::all_of(shards_.begin(), shards_.end(), [](Shard& shard) {
      const Lock lock(shard.mutex);
      return shard.is_strict;
    });
  }

 private:
  friend Handle;
  friend Maker;
  using Hashed = detail::ClockKey;
  using Node = detail::ClockNode<Value>;
  // Always declared before the lock is taken: it is destroyed, and the values with it, after the
  // lock is released. The listener is told of them first.
  class Evicted : public detail::Evicted<Node> {
   public:
    explicit Evicted(const ClockCache* cache) noexcept : cache_(*cache) {}
    ~Evicted() { clear(); }

    // Deletes them now.
    void clear() noexcept {
      if (cache_.listener_) cache_.tell(this->first());
      detail::Evicted<Node>::clear();
    }

   private:
    const ClockCache& cache_;
  };
  using Lock = std::unique_lock<detail::Mutex>;

  struct Shard : detail::ClockShard<Node> {
    bool times_loads = false;
    Maker* makers = nullptr;  // of the values that are being made
    std::uint64_t load_nanoseconds = 0;
    std::condition_variable ended;  // notified when a maker that others wait for has ended
  };
  using Shards = detail::ClockShards<Shard>;

  ClockCache(std::uint64_t capacity, Seed seed, std::size_t shards, Listener listener, Limit limit)
      : shards_(checked(shards), seed), listener_(std::move(listener)) {
    if (!shards_.open(capacity)) throw OutOfMemory();
    set_strict_limit(limit == Limit::kStrict);
  }

  static std::size_t checked(std::size_t shards) {
    if (shards == 0 || shards > UINT32_MAX) {
      throw std::invalid_argument("lru: the number of shards is 0 or above 2^32 - 1");
    }
    return shards;
  }

  Hashed hash(Argument key) const { return shards_.hash(lru::Key<Key>::written(key)); }

  static Node* node_of(const lru_found& found) noexcept {
    return detail::node_of<Node>(found.value);
  }

  Handle handle(const lru_found& found, std::uint32_t shard) const noexcept {
    return Handle(this, node_of(found), found.place, shard);
  }

  // The reader if it was found to be closed, or else null. To open one that is open would write
  // what all readers of its shard share.
  static lru_reader* closed(lru_reader* reader, const lru_found& found) noexcept {
    return found.code == LRU_CLOSED ? reader : nullptr;
  }

  // Misses no value, as a look-up without the lock may while the clock is written.
  Handle find(const Hashed& key) const {
    lru_reader* const reader = shards_.mine(key.shard);
    lru_found found = shards_.pin(reader, key);
    if (found.code != LRU_HIT) {
      found = shards_.find_locked(key, closed(reader, found));
      if (found.code == LRU_MISSED) return Handle();
      if (found.code != LRU_HIT) detail::throw_refusal(found.code);
    }
    return handle(found, key.shard);
  }

  // Another handle of the value at a place, which a handle of the caller pins.
  Handle repin(std::uint32_t shard, std::uint32_t place) const {
    const lru_found found = shards_.pin_at(shard, place);
    if (found.code != LRU_HIT) detail::throw_refusal(found.code);
    return handle(found, shard);
  }

  void release(std::uint32_t shard, std::uint32_t place) const noexcept {
    lru_reader* const reader = shards_.mine(shard);
    const lru_code code = shards_.unpin(reader, shard, place);
    if (code != LRU_DONE) release_locked(shard, place, reader, code);
  }

  // Tells the listener of the nodes of a list. What it throws is dropped: the values leave whatever
  // it does.
  [[gnu::cold, gnu::noinline]] void tell(const Node* node) const noexcept {
    for (; node != nullptr; node = node->next) {
      try {
        listener_(Shown::of(node->key), node->value, node->reason);
      } catch (...) {
      }
    }
  }

  static void add_to(std::uint64_t* sum, std::uint64_t more) noexcept {
    *sum = detail::saturating_add(*sum, more);
  }

  // These take the lock.

  [[gnu::cold, gnu::noinline]] void release_locked(std::uint32_t number, std::uint32_t place,
                                                   lru_reader* reader,
                                                   lru_code code) const noexcept {
    Shard& shard = shards_[number];
    Evicted evicted(this);
    const Lock lock(shard.mutex);
    shard.end_unpin(place, reader, code, &evicted);
  }

  void release_and_evict(std::uint32_t number, std::uint32_t place) const noexcept {
    Shard& shard = shards_[number];
    Evicted evicted(this);
    const Lock lock(shard.mutex);
    shard.unpin_and_evict(place, &evicted);
  }

  Begun begin(Argument key, std::uint64_t charge, bool waits) {
    Begun begun;
    if (charge == 0) detail::throw_refusal(LRU_NO_CHARGE);
    const Hashed hashed = hash(key);
    lru_reader* const reader = shards_.mine(hashed.shard);
    lru_found found = shards_.pin(reader, hashed);
    if (found.code != LRU_HIT) {
      found = begin(hashed, charge, closed(reader, found), waits, &begun.maker);
    }
    if (found.code == LRU_HIT) begun.handle = handle(found, hashed.shard);
    return begun;
  }

  // Finds the key's value: LRU_HIT. Or begins to make it: LRU_MAKE. Or, unless it is to wait for
  // another caller that makes it: LRU_WAIT. Opens the reader, unless it is null.
  [[gnu::noinline]] lru_found begin(const Hashed& key, std::uint64_t charge, lru_reader* reader,
                                    bool waits, Maker* maker) {
    Shard& shard = shards_[key.shard];
    Evicted evicted(this);
    Lock lock(shard.mutex);
    shard.open_reader(reader);
    lru_found found = ask(&shard, key, charge, &evicted);
    while (found.code == LRU_WAIT && waits) {
      making(shard, key.words)->is_awaited_ = true;
      shard.mutex.wait(&shard.ended);
      found = ask(&shard, key, charge, &evicted);
    }
    if (found.code == LRU_MAKE) {
      maker->key_ = key;
      maker->charge_ = charge;
      maker->ticket_ = found.value;
      enlist(maker);
    }
    const bool is_timed = shard.times_loads;
    lock.unlock();
    if (found.code == LRU_MAKE) {
      evicted.clear();
      if (is_timed) maker->start_ = std::chrono::steady_clock::now();
    } else if (found.code != LRU_HIT && found.code != LRU_WAIT) {
      detail::throw_refusal(found.code);
    }
    return found;
  }

  // Gives the node to the clock.
  Handle ready(Maker* maker, std::unique_ptr<Node> made) const {
    const Hashed key = maker->key_;
    const std::uint64_t time = detail::nanoseconds_since(maker->start_);
    Shard& shard = shards_[key.shard];
    Evicted evicted(this);
    Lock lock(shard.mutex);
    shard.load_nanoseconds += time;
    shard.make_room(maker->charge_, &evicted);
    made->key = key.words;
    made->charge = maker->charge_;
    if (maker->is_detached_) made->reason = Reason::kInvalidated;
    const lru_found found = shard.ready(key, maker->ticket_, maker->charge_, made.get());
    // The making of a value for which there is no room, or without a charge, would go on.
    if (found.code == LRU_FULL || found.code == LRU_NO_CHARGE) {
      lru_clock_fail(&shard.clock, maker->ticket_);
    }
    shard.settle(&evicted);
    delist(maker);
    const bool is_awaited = maker->is_awaited_;
    lock.unlock();
    if (is_awaited) shard.ended.notify_all();
    if (found.code != LRU_DONE) detail::throw_refusal(found.code);
    return Handle(this, made.release(), found.place, key.shard);
  }

  void fail(Maker* maker) const noexcept {
    const std::uint64_t time = detail::nanoseconds_since(maker->start_);
    Shard& shard = shards_[maker->key_.shard];
    Lock lock(shard.mutex);
    shard.load_nanoseconds += time;
    [[maybe_unused]] const lru_code code = lru_clock_fail(&shard.clock, maker->ticket_);
    delist(maker);
    const bool is_awaited = maker->is_awaited_;
    lock.unlock();
    assert(code == LRU_DONE);
    if (is_awaited) shard.ended.notify_all();
  }

  void move(Maker* from, Maker* to) const noexcept {
    const Lock lock(shards_[from->key_.shard].mutex);
    delist(from);
    to->key_ = from->key_;
    to->charge_ = from->charge_;
    to->ticket_ = from->ticket_;
    to->start_ = from->start_;
    to->is_detached_ = from->is_detached_;
    to->is_awaited_ = from->is_awaited_;
    enlist(to);
  }

  void clear(Shard* shard) {
    Evicted evicted(this);
    bool is_awaited = false;
    Lock lock(shard->mutex);
    visit(shard, &evicted,
          [&](Node& node) { detach(shard, shards_.hash(node.key), Reason::kCleared, &evicted); });
    for (const Maker* maker = shard->makers; maker != nullptr; maker = maker->next_) {
      if (maker->is_detached_) continue;
      is_awaited |= detach(shard, maker->key_, Reason::kCleared, &evicted);
    }
    lock.unlock();
    if (is_awaited) shard->ended.notify_all();
  }

  // The caller of the rest holds the lock.

  // Does what lru_clock_begin does, if there may be room for a new value: LRU_FULL otherwise. A
  // value that is there, or is being made, is never refused.
  static lru_found ask(Shard* shard, const Hashed& key, std::uint64_t charge,
                       Evicted* evicted) noexcept {
    if (shard->is_strict && !shard->has_room(charge)) {
      const lru_found found = shard->find(key);
      if (found.code != LRU_MISSED) return found;
      if (making(*shard, key.words) == nullptr) {
        shard->make_room(charge, evicted);
        if (!shard->has_room(charge)) return {0, LRU_FULL, 0};
      }
    }
    return lru_clock_begin(&shard->clock, key.hash, key.words.first, key.words.second, charge);
  }

  // The node of a key's value, or null. It stays until the lock is released, also if a call takes
  // the value out meanwhile: it is in `evicted` then.
  static Node* listed(Shard* shard, const Hashed& key, Evicted* evicted) {
    const lru_found found = shard->find(key);
    if (found.code == LRU_MISSED) return nullptr;
    if (found.code != LRU_HIT) detail::throw_refusal(found.code);
    shard->unpin(found.place, evicted);
    return node_of(found);
  }

  // Takes a key's value away, and the making of one. Returns whether callers wait for that. Throws
  // before anything has changed.
  static bool detach(Shard* shard, const Hashed& key, Reason reason, Evicted* evicted) {
    Node* const node = listed(shard, key, evicted);
    if (node != nullptr) node->reason = reason;
    shard->erase(key, evicted);
    return take_from_maker(*shard, key.words);
  }

  // Leaves the value that is being made for a key to its maker alone. Returns whether callers wait
  // for it.
  static bool take_from_maker(const Shard& shard, Words key) noexcept {
    Maker* const maker = making(shard, key);
    if (maker == nullptr) return false;
    maker->is_detached_ = true;
    return std::exchange(maker->is_awaited_, false);
  }

  // Calls `visit` with the node of each value that its key finds, which is pinned meanwhile.
  template <class Visit>
  static void visit(Shard* shard, Evicted* evicted, Visit visit) {
    struct Pinned {
      ~Pinned() { shard->unpin(place, evicted); }

      Shard* shard;
      std::uint32_t place;
      Evicted* evicted;
    };
    const std::uint32_t places = shard->places();
    for (std::uint32_t place = 0; place < places; place++) {
      const lru_found found = lru_reader_pin_at(&shard->reader, place);
      if (found.code == LRU_MISSED) continue;
      if (found.code != LRU_HIT) detail::throw_refusal(found.code);
      const Pinned pinned{shard, place, evicted};
      if (node_of(found)->is_listed()) visit(*node_of(found));
    }
  }

  // The maker of a key's value, for which others wait, or null.
  static Maker* making(const Shard& shard, Words key) noexcept {
    Maker* maker = shard.makers;
    while (maker != nullptr && (maker->is_detached_ || maker->key_.words != key)) {
      maker = maker->next_;
    }
    return maker;
  }

  void enlist(Maker* maker) const noexcept {
    Shard& shard = shards_[maker->key_.shard];
    maker->cache_ = this;
    maker->place_ = &shard.makers;
    maker->next_ = shard.makers;
    if (shard.makers != nullptr) shard.makers->place_ = &maker->next_;
    shard.makers = maker;
  }
  static void delist(Maker* maker) noexcept {
    maker->cache_ = nullptr;
    *maker->place_ = maker->next_;
    if (maker->next_ != nullptr) maker->next_->place_ = maker->place_;
  }

  Shards shards_;
  const Listener listener_;
};

}  // namespace lru

#endif
