// A cache of heavy values that threads share, built on the proved library of lru.h.
//
//   lru::Cache<Page> cache(1000);
//   auto page = cache.get_or_init("a key", 1, [](std::string_view key) { return Page(key); });
//   use(*page);  // pinned: the value stays while the handle lives
//
// A handle pins its value: a pinned value is neither evicted nor deleted. A value without a handle
// is idle. While the total of all charges is above the capacity, idle values are evicted, the least
// recently released first. Pinned values may take the total above the capacity, unless the limit is
// strict.
//
// The library is proved: which value is found, which ones are evicted, and in which order. This
// header adds the locks and the values. It is ordinary C++, tested with the sanitizers.
//
// Requires C++17, the archive liblru.a, and threads (-pthread).
#ifndef CONCURRENT_LRU_HPP
#define CONCURRENT_LRU_HPP

#include <algorithm>
#include <cassert>
#include <chrono>
#include <condition_variable>
#include <cstddef>
#include <cstdint>
#include <deque>
#include <functional>
#include <memory>
#include <mutex>
#include <new>
#include <optional>
#include <stdexcept>
#include <string>
#include <string_view>
#include <type_traits>
#include <utility>
#include <vector>

#include "lru_core.hpp"

namespace lru {

// The cache could not allocate memory. No entry was added, and the call can be repeated.
class OutOfMemory : public std::bad_alloc {
 public:
  const char* what() const noexcept override { return "lru: out of memory"; }
};

// The total of all charges would exceed 2^64 - 1, a value would get more than 2^32 - 1 handles, or
// 2^64 - 1 values have been made. Nothing changed.
class Overflow : public std::overflow_error {
 public:
  Overflow() : std::overflow_error("lru: a number would overflow") {}
};

// The charge was 0. Nothing changed.
class ZeroCharge : public std::invalid_argument {
 public:
  ZeroCharge() : std::invalid_argument("lru: the charge is 0") {}
};

// The limit is strict, and the capacity has no room for the new value beside those that are pinned.
// Nothing changed.
class Full : public std::runtime_error {
 public:
  Full() : std::runtime_error("lru: the cache is full of pinned values") {}
};

// Whether the capacity of a cache is a strict limit. If it is, no value is inserted whose charge,
// with the charges of the pinned values, is above the capacity: the call throws Full. If it is not,
// pinned values may take the total above the capacity.
enum class Limit { kNotStrict, kStrict };

// What the calls on a cache have found and done since it was constructed, and what it holds now.
// The values inserted are those present, those evicted and those removed:
// insertions == entries + evictions + removals. To count from some time on, subtract the numbers of
// that time.
struct Stats {
  std::uint64_t hits = 0;        // calls that asked for a value and found it
  std::uint64_t misses = 0;      // calls that asked for a value and found none, and did not wait
  std::uint64_t waits = 0;       // calls that found the value being made; all but try_begin waited
  std::uint64_t insertions = 0;  // values that were inserted, or whose making was begun
  std::uint64_t evictions = 0;   // values that were evicted
  std::uint64_t removals = 0;    // values whose making failed while no caller waited for them
  std::uint64_t entries = 0;     // as len(), total_charge(), pinned_charge() and capacity()
  std::uint64_t charge = 0;
  std::uint64_t pinned_charge = 0;
  std::uint64_t capacity = 0;
  std::uint64_t loads = 0;             // values that were made, by an `init` or with a maker
  std::uint64_t load_failures = 0;     // values that could not be made, or were refused then
  std::uint64_t load_nanoseconds = 0;  // the time that these took in all, from the beginning of the
                                       // making to its end; 0 without set_load_times

  // The part of the calls that asked for a value and found it: hits / (hits + misses), or 0 if both
  // are 0. Calls that waited do not count.
  double hit_ratio() const noexcept {
    const double asked = static_cast<double>(hits) + static_cast<double>(misses);
    return asked == 0 ? 0 : static_cast<double>(hits) / asked;
  }
};

// About how large the charges of a cache are, by which a ShardedCache chooses how many shards it
// has.
struct TypicalCharge {
  explicit constexpr TypicalCharge(std::uint64_t c) : charge(c) {}

  std::uint64_t charge;
};

// Why a value leaves a cache. A value that has a handle when it is invalidated, replaced or cleared
// leaves with its last handle.
enum class Reason {
  kEvicted,      // to make room, or by prune, advice_evict or release_and_evict
  kInvalidated,  // by invalidate or erase_if, or some call took its key away while it was made
  kReplaced,     // by insert
  kCleared,      // by clear, or because the cache is destroyed
};

// How a key is written for the library, which stores bytes or two words. The library compares what
// keys are written as, so two keys must be written alike if and only if they are equal. Here it is
// said for std::string_view, std::string, Words, integers, enumerations and pairs of the last two.
// A type of your own takes a few lines, outside of any other namespace:
//
//   struct Block {
//     std::uint64_t file;
//     std::uint64_t offset;
//   };
//
//   template <>
//   struct lru::Key<Block> {
//     static lru::Words written(const Block& block) { return {block.file, block.offset}; }
//   };
//
// `written` returns Words, which are faster to look up, a std::string_view, or a std::string that
// is put together in each call. Calls of a cache throw what it throws, and nothing changes.
//
// Where a cache shows keys, it shows what they are written as: Words or a std::string_view. If
// there is a function `read` that makes the key of that, it shows what `read` returns.
template <class T, class = void>
struct Key {};

template <>
struct Key<std::string_view> {
  static std::string_view written(std::string_view key) noexcept { return key; }
};

template <>
struct Key<std::string> {
  static std::string_view written(const std::string& key) noexcept { return key; }
};

template <>
struct Key<Words> {
  static Words written(Words key) noexcept { return key; }
};

namespace detail {

// Whether a key has at most 64 bits. Different keys of one type have different words.
template <class T>
constexpr bool kIsWord = (std::is_integral_v<T> || std::is_enum_v<T>) && sizeof(T) <= 8;

}  // namespace detail

template <class T>
struct Key<T, std::enable_if_t<detail::kIsWord<T>>> {
  static Words written(T key) noexcept { return {0, static_cast<std::uint64_t>(key)}; }
  static T read(Words words) noexcept { return static_cast<T>(words.second); }
};

template <class A, class B>
struct Key<std::pair<A, B>, std::enable_if_t<detail::kIsWord<A> && detail::kIsWord<B>>> {
  static Words written(const std::pair<A, B>& key) noexcept {
    return {static_cast<std::uint64_t>(key.first), static_cast<std::uint64_t>(key.second)};
  }
  static std::pair<A, B> read(Words words) noexcept {
    return {static_cast<A>(words.first), static_cast<B>(words.second)};
  }
};

// The hash that chooses the shard of a key, unless a program passes its own: std::hash of what the
// key is written as.
template <class T>
struct KeyHash {
  std::size_t operator()(const T& key) const {
    const auto& written = Key<T>::written(key);
    return std::hash<std::decay_t<decltype(written)>>()(written);
  }
};

template <class Value, class Key = std::string_view>
class Cache;
template <class Value, class Key = std::string_view>
class Maker;

namespace detail {

template <class T, class = void>
struct WrittenAs {
  static_assert(sizeof(T) == 0,
                "lru: a key is a std::string_view, std::string, lru::Words, integer, enumeration, "
                "pair of the last two, or of a type for which lru::Key is specialised");
};

// What the key type of a cache is written as: Words or bytes.
template <class T>
struct WrittenAs<T, std::void_t<decltype(lru::Key<T>::written(std::declval<const T&>()))>> {
  using Written = std::decay_t<decltype(lru::Key<T>::written(std::declval<const T&>()))>;
  using Form = std::conditional_t<std::is_same_v<Written, Words>, Words, std::string_view>;
  static_assert(std::is_convertible_v<const Written&, Form>,
                "lru: lru::Key<..>::written returns lru::Words or bytes as a string");
};

// How a key is passed.
template <class T>
using Argument = std::conditional_t<std::is_trivially_copyable_v<T> && sizeof(T) <= sizeof(Words),
                                    T, const T&>;

template <class T, class Form, class = void>
struct Shown {
  static Form of(Form written) { return written; }
};

// If there is a `read`, keys are shown as it makes them.
template <class T, class Form>
struct Shown<T, Form, std::void_t<decltype(lru::Key<T>::read(std::declval<Form>()))>> {
  static auto of(Form written) { return lru::Key<T>::read(written); }
};

// What a cache with a listener keeps for each value, to call it when the value leaves.
template <class Value, class Key>
struct Notice {
  using Form = typename WrittenAs<Key>::Form;
  using Shown = detail::Shown<Key, Form>;
  using Listener = std::function<void(decltype(Shown::of(std::declval<Form>())), const Value&,
                                      Reason)>;

  Notice(const Listener& l, Form k) : listener(l), key(k) {}

  [[gnu::cold]] void tell(const Value& value) const noexcept {
    try {
      listener(Shown::of(key), value, reason);
    } catch (...) {
      // The value leaves whatever its listener does, and no caller waits for that.
    }
  }

  const Listener& listener;
  const std::conditional_t<std::is_same_v<Form, Words>, Words, std::string> key;
  Reason reason = Reason::kEvicted;
};

struct ByInit {};

// A charge for the beginning of a making whose charge is told with the value.
constexpr std::uint64_t kUnknownCharge = 1;

// A value of a Cache, on the heap.
template <class Value, class Key>
struct Node {
  // The value that `init` returns is made in place, so it need not be movable.
  template <class Init>
  Node(ByInit, Init&& init, const Key& key) : value(std::invoke(std::forward<Init>(init), key)) {}
  template <class... Args>
  explicit Node(std::in_place_t, Args&&... args) : value(std::forward<Args>(args)...) {}
  ~Node() {
    if (notice != nullptr) notice->tell(value);
  }

  Value value;
  Node* next = nullptr;
  std::unique_ptr<Notice<Value, Key>> notice;  // null without a listener, or if it was refused
};

// Room for the key of an entry, one after another.
template <class Key>
struct KeyRoom {
  template <class Core>
  Words key_of(const Core& core, lru_pin pin) {
    return core.key_of(pin);
  }
};

template <>
struct KeyRoom<std::string_view> {
  template <class Core>
  std::string_view key_of(const Core& core, lru_pin pin) {
    lru_told told = core.key_of(pin, bytes.data(), bytes.size());
    if (told.code == LRU_NO_ROOM) {
      bytes.resize(static_cast<std::size_t>(told.value));
      told = core.key_of(pin, bytes.data(), bytes.size());
    }
    return std::string_view(bytes.data(), static_cast<std::size_t>(told.value));
  }

  std::vector<char> bytes;
};

// Returns 0 for a maker that has no start, since the cache did not measure times when it began.
inline std::uint64_t nanoseconds_since(std::chrono::steady_clock::time_point start) noexcept {
  if (start == std::chrono::steady_clock::time_point()) return 0;
  const std::chrono::nanoseconds time = std::chrono::steady_clock::now() - start;
  return static_cast<std::uint64_t>(time.count());
}

// Throws the exception for a refusal.
[[noreturn]] inline void throw_refusal(lru_code code) {
  switch (code) {
    case LRU_MEMORY:
      throw OutOfMemory();
    case LRU_OVERFLOW:
      throw Overflow();
    case LRU_NO_CHARGE:
      throw ZeroCharge();
    case LRU_FULL:
      throw Full();
    case LRU_CLOSED:
      throw std::logic_error("lru: the destructor of a value calls the cache that is destroyed");
    default:
      throw std::logic_error("lru: the library refused a call that cannot be wrong");
  }
}

}  // namespace detail

// A pinned value: it is neither evicted nor deleted while the handle lives. A handle is moved, not
// copied; `clone` returns another one, or throws. A handle is empty once it has been moved from or
// reset, and Cache::get returns an empty one if the key has no value.
//
// A handle may be used and destroyed on any thread, by one thread at a time. All handles of a value
// refer to the same object, on whatever threads they are: a value that is changed needs a lock of
// its own, and a Cache<const Value> gives access for reading only. A handle must not outlive its
// cache.
template <class Value, class Key = std::string_view>
class Handle {
 public:
  Handle() = default;
  ~Handle() { reset(); }

  Handle(Handle&& other) noexcept
      : cache_(std::exchange(other.cache_, nullptr)), pin_(other.pin_), value_(other.value_) {}
  Handle& operator=(Handle&& other) noexcept {
    Handle(std::move(other)).swap(*this);
    return *this;
  }
  Handle(const Handle&) = delete;
  Handle& operator=(const Handle&) = delete;

  // Whether the handle has a value.
  explicit operator bool() const noexcept { return cache_ != nullptr; }

  // The value. The handle must not be empty, except for get(), which returns null then.
  Value& operator*() const noexcept { return *get(); }
  Value* operator->() const noexcept { return get(); }
  Value* get() const noexcept { return cache_ == nullptr ? nullptr : value_; }

  // Another handle of the same value, even if the key has another value by now, or none. No key is
  // looked up, so this is counted neither as a hit nor as a miss. Returns an empty handle if this
  // one is empty. Throws Overflow if the value has 2^32 - 1 handles; nothing changes then.
  Handle clone() const { return cache_ == nullptr ? Handle() : cache_->repin(pin_); }

  // Releases the value; the handle is empty then. Without its last handle the value is idle, and
  // evicted at once if the total is above the capacity.
  void reset() noexcept {
    if (cache_ != nullptr) std::exchange(cache_, nullptr)->release(pin_);
  }

  // Releases the value as `reset` does, but if this was its last handle, the value is evicted at
  // once, in place of being idle. If the value has another handle, this is the same as `reset`.
  void release_and_evict() noexcept {
    if (cache_ != nullptr) std::exchange(cache_, nullptr)->release_and_evict(pin_);
  }

  // Exchanges the values of two handles.
  void swap(Handle& other) noexcept {
    std::swap(cache_, other.cache_);
    std::swap(pin_, other.pin_);
    std::swap(value_, other.value_);
  }
  friend void swap(Handle& one, Handle& other) noexcept { one.swap(other); }

 private:
  friend class Cache<Value, Key>;

  Handle(Cache<Value, Key>* cache, lru_pin pin, Value* value)
      : cache_(cache), pin_(pin), value_(value) {}

  Cache<Value, Key>* cache_ = nullptr;
  lru_pin pin_ = {};
  Value* value_ = nullptr;
};

// The duty to make the value of a key, from Cache::begin or try_begin. Other callers that ask for
// the key wait meanwhile. A maker that is destroyed before `ready` fails: the cache keeps no entry,
// or one of those that wait makes the value.
//
// A maker is moved, not copied. It is empty once it has been moved from, or has ended by `ready`,
// `ready_with` or `fail`. It may be used and destroyed on any thread, by one thread at a time, and
// must not outlive its cache.
template <class Value, class Key>
class Maker {
 public:
  Maker() = default;
  ~Maker() { fail(); }

  Maker(Maker&& other) noexcept { take(&other); }
  Maker& operator=(Maker&& other) noexcept {
    if (this != &other) {
      fail();
      take(&other);
    }
    return *this;
  }
  Maker(const Maker&) = delete;
  Maker& operator=(const Maker&) = delete;

  // Whether there is a value to make.
  explicit operator bool() const noexcept { return cache_ != nullptr; }

  // Constructs the value in place from these arguments, such as another value to be moved, and
  // returns a handle of it. The maker is empty then. Throws std::bad_alloc and what the constructor
  // throws; the maker still has the duty then. Throws std::logic_error if the maker is empty.
  template <class... Args>
  Handle<Value, Key> ready(Args&&... args) {
    static_assert(std::is_constructible_v<Value, Args...>,
                  "lru: ready is called with what the value can be constructed from");
    if (cache_ == nullptr) throw std::logic_error("lru: ready is called on an empty maker");
    return cache_->ready(this, std::make_unique<Node>(std::in_place, std::forward<Args>(args)...));
  }

  // Constructs the value as `ready` does, and gives it this charge, above 0, in place of the one
  // with which the making was begun. Idle values that exceed the capacity then are evicted.
  //
  // Also throws ZeroCharge, Overflow, and Full if the limit is strict and there is no room for the
  // charge beside the other pinned values. The value is deleted then, nothing is evicted, and the
  // maker has failed.
  template <class... Args>
  Handle<Value, Key> ready_with(std::uint64_t charge, Args&&... args) {
    static_assert(std::is_constructible_v<Value, Args...>,
                  "lru: ready_with is called with a charge and what the value can be constructed "
                  "from");
    if (cache_ == nullptr) throw std::logic_error("lru: ready_with is called on an empty maker");
    auto made = std::make_unique<Node>(std::in_place, std::forward<Args>(args)...);
    return cache_->ready_with(this, std::move(made), charge);
  }

  // Gives up, as the destructor does. Of an empty maker, nothing.
  void fail() noexcept {
    if (cache_ != nullptr) cache_->fail(this);
  }

 private:
  friend class Cache<Value, Key>;
  using Node = detail::Node<Value, Key>;

  void take(Maker* other) noexcept {
    if (other->cache_ != nullptr) other->cache_->move(other, this);
  }

  // Null if the maker is empty. Of the maker's own thread alone, which reads it without the lock.
  Cache<Value, Key>* cache_ = nullptr;
  std::chrono::steady_clock::time_point start_;
  std::unique_ptr<detail::Notice<Value, Key>> notice_;  // null unless there is a listener

  // From its beginning to its end a maker stands in the list of its cache, since no call of the
  // core shows the entries that have no value yet. These need the lock.
  lru_pin pin_ = {};
  Maker** place_ = nullptr;  // what leads to this one: the cache, or the one before
  Maker* next_ = nullptr;
};

// What Cache::begin and try_begin return: a handle if the key has a value, or a maker. The other
// one is empty. After try_begin both are empty if another caller is making the value.
template <class Value, class Key = std::string_view>
struct Begun {
  Handle<Value, Key> handle;
  Maker<Value, Key> maker;
};

// A cache behind one lock.
//
// Keys are of any type that lru::Key says how to write: as bytes, which the cache copies for each
// entry that it makes, or as two words. Each call hashes the bytes before it takes the lock, but
// copies them with the lock held, so very long keys make other threads wait. All members may be
// called from any thread at any time, except the constructor and the destructor.
//
// No lock is held while `init` makes a value or a value is deleted. So both may take long, and may
// call the cache. But `init` must not ask for the key whose value it makes, and must not wait for
// another thread that does: it would wait for itself. The same applies to the destructors of values
// that are evicted for the new one. Destructors of values must not throw.
template <class Value, class Key>
class Cache {
  using Form = typename detail::WrittenAs<Key>::Form;
  using Argument = detail::Argument<Key>;
  using Notice = detail::Notice<Value, Key>;
  using Shown = typename Notice::Shown;

 public:
  using Handle = lru::Handle<Value, Key>;
  using Maker = lru::Maker<Value, Key>;
  using Begun = lru::Begun<Value, Key>;

  // A function that is called for each value that leaves the cache, before it is deleted, with its
  // key as for_each shows it, a const reference to it, and why it leaves. No lock is held, so what
  // holds for the destructors of values holds for it: it may take long, and may call the cache.
  // Several threads may call it at once. What it throws is caught and dropped: the value is
  // deleted, and the cache goes on. A value that the cache has refused is not shown.
  using Listener = typename Notice::Listener;

  // An empty cache. It evicts idle values while the total of all charges is above `capacity`. The
  // seed is random unless a test passes its own. Throws OutOfMemory, and what std::random_device
  // throws if there are no random numbers.
  explicit Cache(std::uint64_t capacity, Seed seed = Seed::random())
      : Cache(capacity, Limit::kNotStrict, seed) {}

  // The same with a limit that may be strict.
  Cache(std::uint64_t capacity, Limit limit, Seed seed = Seed::random())
      : Cache(capacity, nullptr, limit, seed) {}

  // The same with a listener, which may be null. If there is one, the cache keeps a copy of each
  // key, for which there must be memory too.
  Cache(std::uint64_t capacity, Listener listener, Limit limit = Limit::kNotStrict,
        Seed seed = Seed::random())
      : listener_(std::move(listener)), seed_(seed) {
    if (!core_.open(capacity, seed)) throw OutOfMemory();
    core_.set_strict_limit(limit == Limit::kStrict);
  }

  // Deletes all values. There must be no handle and no maker left, as it would dangle; this is
  // asserted. The destructors of the values and the listener must not call this cache: a call that
  // finds or adds values throws std::logic_error, which ends the program if it leaves a destructor.
  ~Cache() { close(); }

  Cache(const Cache&) = delete;
  Cache& operator=(const Cache&) = delete;

  // A handle of the key's value, or an empty one if there is no value or it is still being made.
  // Does not wait. Throws Overflow if the value has 2^32 - 1 handles, and OutOfMemory if the key is
  // longer than any before and there is no memory for a copy.
  Handle get(Argument key) {
    const auto& written = lru::Key<Key>::written(key);
    const Hashed hashed = hash(written);
    std::unique_lock<std::mutex> lock(mutex_);
    const lru_told told = core_.get(hashed);
    lock.unlock();
    if (told.code == LRU_MISSED) return Handle();
    if (told.code != LRU_HIT) detail::throw_refusal(told.code);
    return handle(told);
  }

  // Calls `reader` with the key's value, and returns what it returned: a std::optional of it, or a
  // bool if that is void. It is empty, or false, if there is no value or it is still being made.
  // Is the same use of the value as `get` with the end of its handle, but takes the lock once.
  //
  // The lock is held while `reader` runs, so it must not call the cache, nor destroy a handle, and
  // other calls wait. Does not wait for a value. Throws what `get` and `reader` throw.
  template <class Reader>
  auto read(Argument key, Reader&& reader) {
    using Result = std::decay_t<std::invoke_result_t<Reader, Value&>>;
    const auto& written = lru::Key<Key>::written(key);
    const Hashed hashed = hash(written);
    Evicted evicted;
    const std::lock_guard<std::mutex> lock(mutex_);
    const lru_told told = core_.get(hashed);
    if (told.code != LRU_HIT && told.code != LRU_MISSED) detail::throw_refusal(told.code);
    // A value that was found stays without its pin, as nothing else is done until `reader` returns.
    if (told.code == LRU_HIT) core_.release(detail::copy_of(told.pin), &evicted);
    if constexpr (std::is_void_v<Result>) {
      if (told.code == LRU_HIT) std::invoke(std::forward<Reader>(reader), value_of(told));
      return told.code == LRU_HIT;
    } else {
      if (told.code != LRU_HIT) return std::optional<Result>();
      return std::optional<Result>(std::invoke(std::forward<Reader>(reader), value_of(told)));
    }
  }

  // A handle of the key's value. If there is none, `init(key)` makes it.
  //
  // Only one caller at a time makes a key's value; the others wait for it. If `init` throws, the
  // exception leaves this call and the cache keeps no entry. If others are waiting, one of them
  // makes the value instead, with its own `init`. Values are evicted before `init` runs, and stay
  // evicted if it fails.
  //
  // `charge` is what the value counts for against the capacity, in units of the caller's choice; it
  // must be above 0, even if the key has a value. If the value exists already or is being made, its
  // charge does not change, even if the other caller fails and this one makes the value.
  //
  // Throws ZeroCharge, Overflow and OutOfMemory before `init` runs, and nothing changes. So does
  // Full, if the limit is strict, the key has no value and none is being made for it, and there is
  // no room for one. If there is no memory for the value, std::bad_alloc is thrown as if by `init`.
  template <class Init>
  Handle get_or_init(Argument key, std::uint64_t charge, Init&& init) {
    static_assert(std::is_invocable_v<Init, const Key&>,
                  "lru: init is called with the key, as `[](const Key& key) { .. }` can be");
    Maker maker;
    const lru_told told = begin(key, charge, true, &maker);
    if (told.code == LRU_HIT) return handle(told);
    return ready(&maker, std::make_unique<Node>(detail::ByInit(), std::forward<Init>(init), key));
  }

  // Does what get_or_init does, for a charge that is not known before the value: `init(key)`
  // returns a std::pair, or another pair to be taken apart, of what the value is constructed from
  // and its charge.
  //
  //   auto page = cache.get_or_init_with("a key", [](std::string_view key) {
  //     Page page(key);
  //     const std::uint64_t charge = page.bytes();
  //     return std::pair(std::move(page), charge);
  //   });
  //
  // While it is made, the value counts for 1. Throws what get_or_init throws, but before `init`
  // runs Full only if there is no room for a charge of 1. Afterwards ZeroCharge, Overflow and Full
  // are thrown as if by `init` if the cache refuses its charge, and the value is deleted.
  template <class Init>
  Handle get_or_init_with(Argument key, Init&& init) {
    static_assert(std::is_invocable_v<Init, const Key&>,
                  "lru: init is called with the key, as `[](const Key& key) { .. }` can be");
    Begun begun = begin(key, detail::kUnknownCharge);
    if (begun.handle) return std::move(begun.handle);
    auto [value, charge] = std::invoke(std::forward<Init>(init), std::as_const(key));
    return begun.maker.ready_with(charge, std::forward<decltype(value)>(value));
  }

  // Does what get_or_init does, but leaves it to the caller to make the value, at any time and on
  // any thread:
  //
  //   auto [page, maker] = cache.begin("a key", 1);
  //   if (maker) page = maker.ready(load("a key"));
  //
  // If the charge is not known yet, pass 1, and call Maker::ready_with later.
  //
  // Waits if another caller is making the value, so a thread that has a maker must not call this
  // with its key. Throws what get_or_init throws before `init` runs, and std::bad_alloc if there is
  // a listener and no memory for its copy of the key.
  Begun begin(Argument key, std::uint64_t charge) {
    Begun begun;
    const lru_told told = begin(key, charge, true, &begun.maker);
    if (told.code == LRU_HIT) begun.handle = handle(told);
    return begun;
  }

  // The same, but never waits: if another caller is making the value, the handle and the maker that
  // it returns are both empty, and nothing has changed.
  Begun try_begin(Argument key, std::uint64_t charge) {
    Begun begun;
    const lru_told told = begin(key, charge, false, &begun.maker);
    if (told.code == LRU_HIT) begun.handle = handle(told);
    return begun;
  }

  // Makes `value` the key's value, whatever the key had, and returns a handle of it. Handles of the
  // old value keep it, and it counts against the capacity, until the last of them is released;
  // those who wait for a value that is being made still get that one. Does not wait.
  //
  // Throws ZeroCharge, Overflow and std::bad_alloc, and Full if the limit is strict and there is no
  // room for the new value; an old value that has a handle takes room too. The key keeps its old
  // value then, and the new one is deleted.
  template <class V>
  Handle insert(Argument key, std::uint64_t charge, V&& value) {
    auto node = std::make_unique<Node>(std::in_place, std::forward<V>(value));
    const auto& written = lru::Key<Key>::written(key);
    const Hashed hashed = hash(written);
    if (listener_) node->notice = notice_for(written);
    Evicted evicted;
    std::unique_lock<std::mutex> lock(mutex_);
    const lru_told told = core_.insert(hashed, charge, node.get(), &evicted);
    lock.unlock();
    if (told.code != LRU_DONE) {
      node->notice.reset();
      detail::throw_refusal(told.code);
    }
    if (listener_) mark_replaced(*node, evicted.first());
    return Handle(this, detail::copy_of(told.pin), std::addressof(node.release()->value));
  }

  // Takes the key's value away: the next caller that asks for the key makes a new one. Handles of
  // the old value keep it, as with `insert`. Throws OutOfMemory if the key is longer than any
  // before and there is no memory for a copy.
  void invalidate(Argument key) {
    const auto& written = lru::Key<Key>::written(key);
    const Hashed hashed = hash(written);
    Evicted evicted;
    std::unique_lock<std::mutex> lock(mutex_);
    if (listener_) mark_invalidated(hashed, &evicted);
    const lru_code code = core_.invalidate(hashed, &evicted);
    lock.unlock();
    if (code != LRU_DONE) detail::throw_refusal(code);
  }

  // Evicts the key's value if it is idle. If it is pinned, nothing happens, now or later. Throws
  // OutOfMemory if the key is longer than any before and there is no memory for a copy.
  void advice_evict(Argument key) {
    const auto& written = lru::Key<Key>::written(key);
    const Hashed hashed = hash(written);
    Evicted evicted;
    std::unique_lock<std::mutex> lock(mutex_);
    const lru_code code = core_.advice_evict(hashed, &evicted);
    lock.unlock();
    if (code != LRU_DONE) detail::throw_refusal(code);
  }

  // Evicts every idle value, the least recently released first.
  void prune() {
    Evicted evicted;
    const std::lock_guard<std::mutex> lock(mutex_);
    core_.prune(&evicted);
  }

  // Takes the value of every key away, as `invalidate` does for one key, so that no key finds what
  // was there or was being made. Idle values are evicted, and the others with their last handles;
  // those who wait for a value that is being made still get that one. Throws std::bad_alloc before
  // anything has changed; it needs no memory if no value has a handle or is being made.
  void clear() {
    Evicted evicted;
    const std::lock_guard<std::mutex> lock(mutex_);
    std::vector<lru_pin> pinned;
    detail::KeyRoom<Form> room;
    if (core_.pinned_charge() != 0) {
      for (const lru_entry& entry : findable()) {
        if (entry.pins != 0) pinned.push_back(entry.pin);
      }
      for (const Maker* maker = makers_; maker != nullptr; maker = maker->next_) {
        pinned.push_back(maker->pin_);
      }
      // Once there is room for each of these keys, nothing throws any more.
      for (const lru_pin& pin : pinned) room.key_of(core_, pin);
    }
    for (const lru_pin& pin : pinned) {
      mark(detail::node_of<Node>(core_.entry(pin).value), Reason::kCleared);
      detach(hash(room.key_of(core_, pin)), &evicted);
    }
    core_.prune(&evicted);
    for (Node* node = evicted.first(); node != nullptr; node = node->next) {
      mark(node, Reason::kCleared);
    }
  }

  // Takes the values away, as `invalidate` does, for which `predicate(key, value, charge)` is true,
  // and returns how many they are. It is called once for each value that its key finds, in no
  // particular order; values that are being made stay.
  //
  // The lock is held meanwhile, so `predicate` must not call the cache, nor destroy a handle, and
  // other calls wait. The key is valid during the call. Values are deleted after the lock is
  // released. Throws std::bad_alloc, and what `predicate` throws; no value has left then.
  template <class Predicate>
  std::uint64_t erase_if(Predicate&& predicate) {
    Evicted evicted;
    const std::lock_guard<std::mutex> lock(mutex_);
    std::vector<lru_entry> entries = findable();
    detail::KeyRoom<Form> room;
    const auto stays = [&](const lru_entry& entry) {
      const Value& value = detail::node_of<Node>(entry.value)->value;
      const auto& key = Shown::of(room.key_of(core_, entry.pin));
      return !std::invoke(predicate, key, value, entry.charge);
    };
    entries.erase(std::remove_if(entries.begin(), entries.end(), stays), entries.end());
    // The room is enough for each of these keys, so nothing throws any more.
    for (const lru_entry& entry : entries) {
      mark(detail::node_of<Node>(entry.value), Reason::kInvalidated);
      detach(hash(room.key_of(core_, entry.pin)), &evicted);
    }
    return entries.size();
  }

  // Whether the key has a value, as `get` looks for it. Pins nothing, and does not count as a use.
  // Throws OutOfMemory if the key is longer than any before and there is no memory for a copy.
  bool contains(Argument key) const {
    const auto& written = lru::Key<Key>::written(key);
    const Hashed hashed = hash(written);
    std::unique_lock<std::mutex> lock(mutex_);
    const lru_code code = core_.contains(hashed);
    lock.unlock();
    if (code != LRU_DONE && code != LRU_MISSED) detail::throw_refusal(code);
    return code == LRU_DONE;
  }

  // The number of values, including those that are being made, and those that were invalidated or
  // replaced and still have a handle.
  std::uint64_t len() const {
    const std::lock_guard<std::mutex> lock(mutex_);
    return core_.len();
  }

  // The total of the charges of these values.
  std::uint64_t total_charge() const {
    const std::lock_guard<std::mutex> lock(mutex_);
    return core_.total();
  }

  // The total of the charges of the values that have a handle or are being made. It is 0 if and
  // only if there is none.
  std::uint64_t pinned_charge() const {
    const std::lock_guard<std::mutex> lock(mutex_);
    return core_.pinned_charge();
  }

  // The capacity.
  std::uint64_t capacity() const {
    const std::lock_guard<std::mutex> lock(mutex_);
    return core_.capacity();
  }

  // Calls `visit(key, value, charge, pins)` for each value that its key finds, in no particular
  // order; `pins` is the number of its handles. Values that are being made are left out, and so are
  // those that were invalidated or replaced. This is no use of a value: the order of eviction stays
  // as it is.
  //
  // The lock is held meanwhile, so `visit` must not call the cache, nor destroy a handle, and other
  // calls wait until all values are visited. The value may be changed only as a handle may change
  // it. The key is valid during the call. Throws std::bad_alloc before the first visit, or if there
  // is no memory for the bytes of a key, and what `visit` throws.
  template <class Visit>
  void for_each(Visit&& visit) const {
    const std::lock_guard<std::mutex> lock(mutex_);
    const std::vector<lru_entry> entries = findable();
    detail::KeyRoom<Form> room;
    for (const lru_entry& entry : entries) {
      Value& value = detail::node_of<Node>(entry.value)->value;
      const auto& key = Shown::of(room.key_of(core_, entry.pin));
      std::invoke(visit, key, value, entry.charge, entry.pins);
    }
  }

  // How often calls hit and missed since the cache was constructed, what was inserted and evicted,
  // and what the cache holds, all at one time. `get`, `read`, `get_or_init`, `begin` and
  // `try_begin` are counted as hits, misses and waits; `contains`, `insert` and `Handle::clone` are
  // not.
  Stats stats() const {
    const std::lock_guard<std::mutex> lock(mutex_);
    return counted();
  }

  // Sets the capacity. Idle values that exceed it are evicted at once.
  void set_capacity(std::uint64_t capacity) {
    Evicted evicted;
    const std::lock_guard<std::mutex> lock(mutex_);
    core_.set_capacity(capacity, &evicted);
  }

  // Makes room for `entries` values in all, so that no call that adds one grows a table until there
  // are more. Other calls wait meanwhile. Throws OutOfMemory; nothing changes then.
  void reserve(std::size_t entries) {
    std::unique_lock<std::mutex> lock(mutex_);
    const lru_code code = core_.reserve(entries);
    lock.unlock();
    if (code != LRU_DONE) detail::throw_refusal(code);
  }

  // Gives back the memory of the tables if there is no value, as after `prune` or `clear` if no
  // handle is left, and returns whether it did. Tables have room for as many values as there ever
  // were at once, or as were reserved, and otherwise keep it. Throws OutOfMemory; nothing changes
  // then.
  bool shrink_to_fit() {
    std::unique_lock<std::mutex> lock(mutex_);
    if (core_.len() != 0) return false;
    const Stats before = counted();
    const lru_code code = core_.reopen(seed_);
    if (code == LRU_DONE) {
      counts_ = before;
      own_hits_ = 0;
    }
    lock.unlock();
    if (code != LRU_DONE) detail::throw_refusal(code);
    return true;
  }

  // Sets whether the capacity is a strict limit. Evicts nothing: pinned values whose total is above
  // the capacity stay, and until enough of them are released, no value is inserted.
  void set_strict_limit(bool is_strict) {
    const std::lock_guard<std::mutex> lock(mutex_);
    core_.set_strict_limit(is_strict);
  }

  // Says whether stats() tells how long values took to be made, which it does not at first. A miss
  // then takes about 0.05 us longer.
  void set_load_times(bool are_measured) {
    const std::lock_guard<std::mutex> lock(mutex_);
    times_loads_ = are_measured;
  }

  // Whether the capacity is a strict limit.
  bool is_limit_strict() const {
    const std::lock_guard<std::mutex> lock(mutex_);
    return core_.is_limit_strict();
  }

 protected:
  // Deletes all values. Only the destructor comes after it.
  void close() noexcept {
    assert(core_.pinned_charge() == 0 && "lru: a handle or a maker outlives its cache");
    Evicted evicted;
    core_.close(&evicted);
    for (Node* node = evicted.first(); node != nullptr; node = node->next) {
      mark(node, Reason::kCleared);
    }
  }

 private:
  friend Handle;
  friend Maker;
  using Node = detail::Node<Value, Key>;
  // Always declared before the lock is taken: it is destroyed, and the values with it, after the
  // lock is released.
  using Evicted = detail::Evicted<Node>;
  using Hashed = typename detail::Calls<Form>::Hashed;

  // Comes before the lock is taken, if it can.
  Hashed hash(Form written) const noexcept { return detail::Calls<Form>::hashed(written, seed_); }

  Value& value_of(const lru_told& told) const noexcept {
    return detail::node_of<Node>(told.value)->value;
  }

  Handle handle(const lru_told& told) {
    return Handle(this, detail::copy_of(told.pin), std::addressof(value_of(told)));
  }

  // Finds the key's value: LRU_HIT. Or begins to make it: LRU_MAKE. Or, unless it is to wait for
  // another caller that makes it: LRU_WAIT.
  lru_told begin(Argument key, std::uint64_t charge, bool waits, Maker* maker) {
    const auto& written = lru::Key<Key>::written(key);
    const Hashed hashed = hash(written);
    Evicted evicted;
    std::unique_lock<std::mutex> lock(mutex_);
    lru_told told = core_.begin(hashed, charge, &evicted);
    while (told.code == LRU_WAIT && waits) {
      waiting_++;
      ended_.wait(lock);
      waiting_--;
      told = core_.poll(told.pin);
    }
    if (told.code == LRU_WAIT) {
      // The pin is given back by a `fail`, after which the entry is anybody's to make. The `poll`
      // gives it back to its maker.
      core_.fail(told.pin);
      core_.poll(told.pin);
    }
    if (told.code == LRU_MAKE) enlist(maker, told.pin);
    const bool is_timed = times_loads_;
    lock.unlock();
    if (told.code == LRU_MAKE) {
      evicted.clear();
      if (is_timed) maker->start_ = std::chrono::steady_clock::now();
      if (listener_) maker->notice_ = notice_for(written);
    } else if (told.code != LRU_HIT && told.code != LRU_WAIT) {
      detail::throw_refusal(told.code);
    }
    return told;
  }

  // These two change the list of makers. The caller holds the lock.
  void enlist(Maker* maker, const lru_pin& pin) noexcept {
    maker->cache_ = this;
    maker->pin_ = detail::copy_of(pin);
    maker->place_ = &makers_;
    maker->next_ = makers_;
    if (makers_ != nullptr) makers_->place_ = &maker->next_;
    makers_ = maker;
  }
  static void delist(Maker* maker) noexcept {
    maker->cache_ = nullptr;
    *maker->place_ = maker->next_;
    if (maker->next_ != nullptr) maker->next_->place_ = maker->place_;
  }

  void move(Maker* from, Maker* to) noexcept {
    to->start_ = from->start_;
    to->notice_ = std::move(from->notice_);
    const std::lock_guard<std::mutex> lock(mutex_);
    delist(from);
    enlist(to, from->pin_);
  }

  // All that wait, for whatever value, wait at one condition. So it is notified only if somebody
  // waits for this value, and then has a pin of its entry: else a slow value whose key many ask for
  // would make them wake for each value that is made meanwhile. Who waits took its pin with the
  // lock held, and lets go of the lock only by waiting, so no notification is missed.

  // Gives the node to the core. It is never refused: its caller is the one that makes the value.
  Handle ready(Maker* maker, std::unique_ptr<Node> made) noexcept {
    const std::uint64_t time = detail::nanoseconds_since(maker->start_);
    std::unique_lock<std::mutex> lock(mutex_);
    [[maybe_unused]] const lru_code code = core_.ready(maker->pin_, made.get());
    assert(code == LRU_DONE);
    return end_ready(maker, made.release(), time, &lock);
  }

  // The same with a charge. If the core refuses that, the making has failed.
  Handle ready_with(Maker* maker, std::unique_ptr<Node> made, std::uint64_t charge) {
    const std::uint64_t time = detail::nanoseconds_since(maker->start_);
    Evicted evicted;
    std::unique_lock<std::mutex> lock(mutex_);
    const lru_code code = core_.ready_with(maker->pin_, made.get(), charge, &evicted);
    if (code != LRU_DONE) {
      end_fail(maker, time, &lock);
      detail::throw_refusal(code);
    }
    return end_ready(maker, made.release(), time, &lock);
  }

  void fail(Maker* maker) noexcept {
    const std::uint64_t time = detail::nanoseconds_since(maker->start_);
    std::unique_lock<std::mutex> lock(mutex_);
    end_fail(maker, time, &lock);
  }

  // These end a making, and release the lock.

  // The core has the node.
  Handle end_ready(Maker* maker, Node* node, std::uint64_t time,
                   std::unique_lock<std::mutex>* lock) noexcept {
    delist(maker);
    counts_.loads++;
    counts_.load_nanoseconds += time;
    const bool is_awaited = waiting_ > 0 && core_.entry(maker->pin_).pins > 1;
    if (listener_) {
      node->notice = std::move(maker->notice_);
      if (core_.entry(maker->pin_).is_detached != 0) mark(node, Reason::kInvalidated);
    }
    lock->unlock();
    if (is_awaited) ended_.notify_all();
    return Handle(this, maker->pin_, std::addressof(node->value));
  }

  void end_fail(Maker* maker, std::uint64_t time, std::unique_lock<std::mutex>* lock) noexcept {
    delist(maker);
    counts_.load_failures++;
    counts_.load_nanoseconds += time;
    const lru_code code = core_.fail(maker->pin_);
    lock->unlock();
    maker->notice_.reset();
    assert(code == LRU_LEFT || code == LRU_REMOVED);
    if (code == LRU_LEFT) ended_.notify_all();
  }

  // What stats() returns. The caller holds the lock.
  Stats counted() const {
    const lru_stats told = core_.stats();
    Stats stats = counts_;
    stats.hits = detail::saturating_add(stats.hits, told.hits - own_hits_);
    stats.misses = detail::saturating_add(stats.misses, told.misses);
    stats.waits = detail::saturating_add(stats.waits, told.waits);
    stats.insertions = detail::saturating_add(stats.insertions, told.insertions);
    stats.evictions = detail::saturating_add(stats.evictions, told.evictions);
    stats.removals = detail::saturating_add(stats.removals, told.removals);
    stats.entries = told.entries;
    stats.charge = told.charge;
    stats.pinned_charge = told.pinned_charge;
    stats.capacity = told.capacity;
    return stats;
  }

  // The rest is for a listener. It is cold, so that a cache without one pays nothing for it.

  [[gnu::cold]] std::unique_ptr<Notice> notice_for(Form written) const {
    return std::make_unique<Notice>(listener_, written);
  }

  // Notes why a value leaves, now or later. Does nothing if there is no listener or no value.
  static void mark(Node* node, Reason reason) noexcept {
    if (node != nullptr && node->notice != nullptr) node->notice->reason = reason;
  }

  // Marks the key's value, if it has one, before it is invalidated. Only a pin shows it, whose hit
  // is not counted; the order of eviction does not matter to a value that leaves.
  [[gnu::cold]] void mark_invalidated(const Hashed& hashed, Evicted* evicted) {
    const lru_code code = core_.contains(hashed);
    if (code == LRU_MISSED) return;
    if (code != LRU_DONE) detail::throw_refusal(code);
    const lru_told found = core_.get(hashed);
    if (found.code != LRU_HIT) return;
    own_hits_++;
    mark(detail::node_of<Node>(found.value), Reason::kInvalidated);
    core_.release(found.pin, evicted);
  }

  // Marks the value that an `insert` of this node has replaced, if it had no handle: it leaves as
  // the first. No other one that leaves has its key.
  [[gnu::cold]] static void mark_replaced(const Node& node, Node* first) noexcept {
    if (first != nullptr && first->notice->key == node.notice->key) mark(first, Reason::kReplaced);
  }

  // Marks the value of a pin that is given back, if an `insert` has replaced it while it had a
  // handle. The other calls that take a key away have marked its value.
  [[gnu::cold]] void mark_replaced(lru_pin pin) noexcept {
    const lru_entry entry = core_.entry(pin);
    Node* const node = detail::node_of<Node>(entry.value);
    if (entry.is_detached != 0 && node->notice->reason == Reason::kEvicted) {
      mark(node, Reason::kReplaced);
    }
  }

  // The entries that have a value which their keys find. The caller holds the lock.
  std::vector<lru_entry> findable() const {
    std::vector<lru_entry> entries(static_cast<std::size_t>(core_.len()));
    entries.resize(core_.entries(entries.data(), entries.size()));
    entries.erase(std::remove_if(entries.begin(), entries.end(),
                                 [](const lru_entry& entry) { return entry.is_detached != 0; }),
                  entries.end());
    return entries;
  }

  // Invalidates a key that has an entry, so its bytes are not longer than any before, and the call
  // needs no memory. The caller holds the lock.
  void detach(const Hashed& hashed, Evicted* evicted) noexcept {
    [[maybe_unused]] const lru_code code = core_.invalidate(hashed, evicted);
    assert(code == LRU_DONE);
  }

  // Another handle of the value that a handle of the caller pins.
  Handle repin(lru_pin pin) {
    std::unique_lock<std::mutex> lock(mutex_);
    const lru_told told = core_.repin(pin);
    lock.unlock();
    if (told.code != LRU_PINNED) detail::throw_refusal(told.code);
    return handle(told);
  }

  void release(lru_pin pin) noexcept {
    Evicted evicted;
    const std::lock_guard<std::mutex> lock(mutex_);
    if (listener_) mark_replaced(pin);
    [[maybe_unused]] const lru_code code = core_.release(pin, &evicted);
    assert(code == LRU_DONE);
  }

  void release_and_evict(lru_pin pin) noexcept {
    Evicted evicted;
    const std::lock_guard<std::mutex> lock(mutex_);
    if (listener_) mark_replaced(pin);
    [[maybe_unused]] const lru_code code = core_.release_and_evict(pin, &evicted);
    assert(code == LRU_DONE);
  }

  mutable std::mutex mutex_;
  std::condition_variable ended_;  // notified when a value was made, or not, that others wait for
  std::size_t waiting_ = 0;        // how many callers wait there
  Maker* makers_ = nullptr;        // of the values that are being made
  Stats counts_;                   // of loads, and of what came before the last `reopen`
  bool times_loads_ = false;
  std::uint64_t own_hits_ = 0;     // hits of mark_invalidated
  const Listener listener_;        // nodes refer to it, so it is destroyed after them
  detail::Core<Node, Form> core_;
  const Seed seed_;
};

// A good number of shards for a cache with this capacity whose values have about this charge: the
// most, from 1 to 16, that leave each shard room for 32 values. A charge of 0 counts as 1.
inline std::size_t shards_for(std::uint64_t capacity, std::uint64_t charge) noexcept {
  const std::uint64_t values = capacity / std::max<std::uint64_t>(charge, 1);
  return static_cast<std::size_t>(std::clamp<std::uint64_t>(values / 32, 1, 16));
}

// A cache of several shards, each a Cache with its own lock and an equal share of the capacity,
// rounded up. `Hash` chooses the shard of a key. Threads contend less, but a value is evicted when
// its own shard is full. A shard whose share is smaller than a value's charge does not keep that
// value once it is idle. So if charges are larger than 1, say about how large they are:
//
//   lru::ShardedCache<Page> cache(capacity, lru::TypicalCharge(4096));
//
// The shard of a key does not depend on the seed. Whoever knows `Hash`, such as KeyHash, can
// choose keys that all have the same shard, and so only its lock and its share of the capacity. If
// keys come from outside the program, pass a `Hash` that mixes in a random number.
template <class Value, class Key = std::string_view, class Hash = KeyHash<Key>>
class ShardedCache {
  using Argument = detail::Argument<Key>;

 public:
  using Handle = lru::Handle<Value, Key>;
  using Maker = lru::Maker<Value, Key>;
  using Begun = lru::Begun<Value, Key>;
  using Listener = typename Cache<Value, Key>::Listener;

  // An empty cache, whose seed is random. `capacity` is that of all shards together. The number of
  // shards is that of shards_for, for charges of 1 unless the typical one is passed: 16 from a
  // capacity of 512 such charges on, and less below. It stays the same if the capacity is set
  // later. Throws std::bad_alloc, and what std::random_device throws.
  explicit ShardedCache(std::uint64_t capacity, TypicalCharge typical = TypicalCharge(1))
      : ShardedCache(capacity, shards_for(capacity, typical.charge)) {}

  // The same with this number of shards. Throws std::invalid_argument if it is 0.
  ShardedCache(std::uint64_t capacity, std::size_t shards, Hash hash = Hash())
      : ShardedCache(capacity, Seed::random(), shards, std::move(hash)) {}

  // The same with the seed of a test, to which each shard adds its number. The shard of a key does
  // not depend on it.
  ShardedCache(std::uint64_t capacity, Seed seed)
      : ShardedCache(capacity, seed, shards_for(capacity, 1)) {}
  ShardedCache(std::uint64_t capacity, Seed seed, std::size_t shards, Hash hash = Hash())
      : ShardedCache(capacity, seed, shards, nullptr, Limit::kNotStrict, std::move(hash)) {}

  // The same, with random seeds, and with a limit that may be strict. It is that of each shard: a
  // value has no room if its own shard has none.
  ShardedCache(std::uint64_t capacity, Limit limit)
      : ShardedCache(capacity, shards_for(capacity, 1), limit) {}
  ShardedCache(std::uint64_t capacity, std::size_t shards, Limit limit, Hash hash = Hash())
      : ShardedCache(capacity, shards, nullptr, limit, std::move(hash)) {}

  // The same with one listener for all shards, as for Cache. It may be null.
  ShardedCache(std::uint64_t capacity, std::size_t shards, Listener listener,
               Limit limit = Limit::kNotStrict, Hash hash = Hash())
      : ShardedCache(capacity, Seed::random(), shards, std::move(listener), limit,
                     std::move(hash)) {}

  // As for Cache. All shards are there until all values are deleted.
  ~ShardedCache() {
    for (Shard& shard : shards_) shard.close();
  }

  ShardedCache(const ShardedCache&) = delete;
  ShardedCache& operator=(const ShardedCache&) = delete;

  // As for Cache.
  Handle get(Argument key) { return shard(key).get(key); }
  template <class Reader>
  auto read(Argument key, Reader&& reader) {
    return shard(key).read(key, std::forward<Reader>(reader));
  }
  template <class Init>
  Handle get_or_init(Argument key, std::uint64_t charge, Init&& init) {
    return shard(key).get_or_init(key, charge, std::forward<Init>(init));
  }
  template <class Init>
  Handle get_or_init_with(Argument key, Init&& init) {
    return shard(key).get_or_init_with(key, std::forward<Init>(init));
  }
  Begun begin(Argument key, std::uint64_t charge) { return shard(key).begin(key, charge); }
  Begun try_begin(Argument key, std::uint64_t charge) { return shard(key).try_begin(key, charge); }
  template <class V>
  Handle insert(Argument key, std::uint64_t charge, V&& value) {
    return shard(key).insert(key, charge, std::forward<V>(value));
  }
  bool contains(Argument key) const { return shard(key).contains(key); }
  void invalidate(Argument key) { shard(key).invalidate(key); }
  void advice_evict(Argument key) { shard(key).advice_evict(key); }

  // Evicts every idle value, one shard after another.
  void prune() {
    for (Shard& shard : shards_) shard.prune();
  }

  // As for Cache, one shard after another, each with its own lock held. What other threads insert
  // meanwhile may stay. If one throws, the shards before it have been served.
  void clear() {
    for (Shard& shard : shards_) shard.clear();
  }
  template <class Predicate>
  std::uint64_t erase_if(Predicate&& predicate) {
    std::uint64_t erased = 0;
    for (Shard& shard : shards_) erased += shard.erase_if(predicate);
    return erased;
  }

  // As for Cache, one shard after another, each with its own lock held.
  template <class Visit>
  void for_each(Visit&& visit) const {
    for (const Shard& shard : shards_) shard.for_each(visit);
  }

  // The number of values. The shards are read one after another, so while other threads call the
  // cache it is no snapshot.
  std::uint64_t len() const {
    return sum([](const Shard& shard) { return shard.len(); });
  }

  // The total of the charges of all values, or 2^64 - 1 if it is more. No snapshot, as `len`.
  std::uint64_t total_charge() const {
    return sum([](const Shard& shard) { return shard.total_charge(); });
  }

  // The total of the charges of the values that have a handle or are being made, or 2^64 - 1 if it
  // is more. No snapshot, as `len`.
  std::uint64_t pinned_charge() const {
    return sum([](const Shard& shard) { return shard.pinned_charge(); });
  }

  // The total of the capacities of all shards, or 2^64 - 1 if it is more. Rounding may make it
  // more than the capacity that was set.
  std::uint64_t capacity() const {
    return sum([](const Shard& shard) { return shard.capacity(); });
  }

  // The sums of the counts of all shards, each at most 2^64 - 1. No snapshot, as `len`.
  Stats stats() const {
    Stats sum;
    for (const Shard& shard : shards_) {
      const Stats more = shard.stats();
      sum.hits = detail::saturating_add(sum.hits, more.hits);
      sum.misses = detail::saturating_add(sum.misses, more.misses);
      sum.waits = detail::saturating_add(sum.waits, more.waits);
      sum.insertions = detail::saturating_add(sum.insertions, more.insertions);
      sum.evictions = detail::saturating_add(sum.evictions, more.evictions);
      sum.removals = detail::saturating_add(sum.removals, more.removals);
      sum.entries = detail::saturating_add(sum.entries, more.entries);
      sum.charge = detail::saturating_add(sum.charge, more.charge);
      sum.pinned_charge = detail::saturating_add(sum.pinned_charge, more.pinned_charge);
      sum.capacity = detail::saturating_add(sum.capacity, more.capacity);
      sum.loads = detail::saturating_add(sum.loads, more.loads);
      sum.load_failures = detail::saturating_add(sum.load_failures, more.load_failures);
      sum.load_nanoseconds = detail::saturating_add(sum.load_nanoseconds, more.load_nanoseconds);
    }
    return sum;
  }

  // Sets the capacity, of which each shard gets an equal share, rounded up. Idle values that exceed
  // it are evicted at once.
  void set_capacity(std::uint64_t capacity) {
    for (Shard& shard : shards_) shard.set_capacity(detail::share(capacity, shards_.size()));
  }

  // Makes room for an equal share of `entries` values in each shard, rounded up. A shard that gets
  // more than its share grows. If this throws, the shards before have made room.
  void reserve(std::size_t entries) {
    for (Shard& shard : shards_) {
      shard.reserve(static_cast<std::size_t>(detail::share(entries, shards_.size())));
    }
  }

  // As Cache::shrink_to_fit for each shard, one after another. Whether all of them did. If one
  // throws, the shards before it have been served.
  bool shrink_to_fit() {
    bool all = true;
    for (Shard& shard : shards_) all &= shard.shrink_to_fit();
    return all;
  }

  // Sets whether the capacity of each shard is a strict limit, one shard after another.
  void set_strict_limit(bool is_strict) {
    for (Shard& shard : shards_) shard.set_strict_limit(is_strict);
  }

  // As Cache::set_load_times, for each shard.
  void set_load_times(bool are_measured) {
    for (Shard& shard : shards_) shard.set_load_times(are_measured);
  }

  // Whether the capacity of every shard is a strict limit. No snapshot, as `len`.
  bool is_limit_strict() const {
    return std::all_of(shards_.begin(), shards_.end(),
                       [](const Shard& shard) { return shard.is_limit_strict(); });
  }

 private:
  // Shards do not share cache lines, so that threads at different shards do not slow each other.
  struct alignas(64) Shard : Cache<Value, Key> {
    using Cache<Value, Key>::Cache;
    using Cache<Value, Key>::close;
  };

  ShardedCache(std::uint64_t capacity, Seed seed, std::size_t shards, Listener listener,
               Limit limit, Hash hash)
      : listener_(std::move(listener)), hash_(std::move(hash)) {
    if (shards == 0) throw std::invalid_argument("lru: the number of shards is 0");
    Listener of_shard;
    if (listener_) of_shard = std::cref(listener_);
    for (std::size_t i = 0; i < shards; i++) {
      shards_.emplace_back(detail::share(capacity, shards), of_shard, limit,
                           Seed(seed.number + i));
    }
  }

  template <class Number>
  std::uint64_t sum(Number number) const {
    std::uint64_t sum = 0;
    for (const Shard& shard : shards_) sum = detail::saturating_add(sum, number(shard));
    return sum;
  }

  Shard& shard(const Key& key) { return shards_[hash_(key) % shards_.size()]; }
  const Shard& shard(const Key& key) const { return shards_[hash_(key) % shards_.size()]; }

  const Listener listener_;  // that of all shards refers to it
  std::deque<Shard> shards_;
  Hash hash_;
};

}  // namespace lru

#endif
