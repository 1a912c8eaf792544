// Makes random calls of all kinds on the caches of lru.hpp, for tests/soak and a sanitizer.
//
//   soak SEED
//
// Calls of one thread are also made on a plain cache: each answer and each deletion must be the
// same. Then eight threads share a cache. Each value must be of the key that was asked for, and no
// older than the thread's own last `invalidate` or `insert` of the key allows. Of some keys, which
// only one thread uses, the thread knows the value. Once all threads have ended, the numbers of the
// cache must be those of its objects, each of which must be deleted exactly once.
//
// Prints one line. Ends with 1 at the first check that fails, and says where it stands.
#include <array>
#include <atomic>
#include <cstddef>
#include <cstdint>
#include <cstdio>
#include <cstdlib>
#include <functional>
#include <memory>
#include <mutex>
#include <numeric>
#include <optional>
#include <thread>
#include <utility>
#include <vector>

#include "lru.hpp"
#include "plain_cache.hpp"
#include "random_calls.hpp"

#define MUST(condition)                                                        \
  do {                                                                         \
    if (!(condition)) {                                                        \
      std::printf("%s:%d: MUST(%s) failed\n", __FILE__, __LINE__, #condition); \
      std::fflush(stdout);                                                     \
      std::_Exit(1);                                                           \
    }                                                                          \
  } while (false)

namespace {

struct Failed {};

// -------------------------------------------------------------------- one thread and a plain cache

constexpr int kSteps = 3000;

// Records its number when it is deleted, unless it was moved from.
class Numbered {
 public:
  Numbered(std::uint64_t number, std::vector<std::uint64_t>* deleted)
      : number_(number), deleted_(deleted) {}
  Numbered(Numbered&& from) noexcept
      : number_(from.number_), deleted_(std::exchange(from.deleted_, nullptr)) {}
  ~Numbered() {
    if (deleted_ != nullptr) deleted_->push_back(number_);
  }

  Numbered(const Numbered&) = delete;
  Numbered& operator=(const Numbered&) = delete;

  std::uint64_t number() const { return number_; }

 private:
  std::uint64_t number_;
  std::vector<std::uint64_t>* deleted_;
};

std::vector<std::uint64_t> values_of(const std::vector<lru_gone>& gone) {
  std::vector<std::uint64_t> values;
  for (const lru_gone& entry : gone) values.push_back(entry.value);
  return values;
}

// A cache, and a plain cache for each of its shards.
template <class KeyOf, template <class, class> class CacheOf>
class Beside {
 public:
  explicit Beside(std::uint64_t seed)
      : random_(seed), plain_(Cache::kShards, PlainCache<std::uint64_t>(share(kCapacity))) {
    cache_ = std::make_unique<Cache>(kCapacity, lru::Seed(seed));
  }

  void run() {
    for (int step = 0; step < kSteps; step++) {
      call();
      MUST(deleted_ == values_of(gone_));
      deleted_.clear();
      gone_.clear();
      look();
    }
    for (Held& held : held_) release(held);
    end();
  }

 private:
  using Key = typename KeyOf::Key;
  using Cache = CacheOf<Numbered, Key>;
  using Plain = PlainCache<std::uint64_t>;

  static constexpr std::uint64_t kCapacity = 40;

  struct Held {
    typename Cache::Handle handle;
    std::size_t shard = 0;
    std::uint64_t stamp = 0;
  };

  static std::uint64_t share(std::uint64_t capacity) {
    return (capacity + Cache::kShards - 1) / Cache::kShards;
  }

  void call() {
    const std::uint64_t n = random_.below(30);
    const KeyOf key(n);
    const std::size_t shard = Cache::shard_of(key.key());
    Held& held = held_[random_.below(held_.size())];
    switch (random_.below(16)) {
      case 0:
        cache_->advice_evict(key.key());
        plain_[shard].advice_evict(n, &gone_);
        break;
      case 1:
        cache_->invalidate(key.key());
        plain_[shard].invalidate(n, &gone_);
        break;
      case 2:
      case 3:
        insert(n, key.key(), shard);
        break;
      case 4:
      case 5:
        get(n, key.key(), shard, held);
        break;
      case 6:
        read(n, key.key(), shard);
        break;
      case 7:
        settle();
        break;
      case 8:
      case 9:
        release(held);
        break;
      default:
        init(n, key.key(), shard, held);
    }
  }

  // A charge, which may be one that is refused.
  std::uint64_t charge() {
    const std::uint64_t kind = random_.below(40);
    return kind == 0 ? 0 : kind == 1 ? UINT64_MAX : 1 + random_.below(6);
  }

  void hold(Held& held, typename Cache::Handle handle, std::size_t shard, std::uint64_t stamp) {
    release(held);
    held = Held{std::move(handle), shard, stamp};
  }

  void release(Held& held) {
    if (held.handle) plain_[held.shard].release(held.stamp, &gone_);
    held.handle.reset();
  }

  void init(std::uint64_t n, Key key, std::size_t shard, Held& held) {
    const std::uint64_t weight = charge();
    const bool fails = random_.below(6) == 0;
    const lru_told told = plain_[shard].begin(n, weight, &gone_);
    const std::uint64_t number = told.code == LRU_MAKE ? ++made_ : told.value;
    if (told.code == LRU_MAKE && fails) plain_[shard].fail(told.pin.stamp);
    if (told.code == LRU_MAKE && !fails) plain_[shard].ready(told.pin.stamp, number);
    try {
      auto handle = cache_->get_or_init(key, weight, [&](Key asked) {
        MUST(told.code == LRU_MAKE && asked == key && deleted_ == values_of(gone_));
        if (fails) throw Failed();
        return Numbered(number, &deleted_);
      });
      MUST(told.code == LRU_HIT || (told.code == LRU_MAKE && !fails));
      MUST(handle->number() == number);
      hold(held, std::move(handle), shard, told.pin.stamp);
    } catch (const Failed&) {
      MUST(told.code == LRU_MAKE && fails);
    } catch (const lru::ZeroCharge&) {
      MUST(told.code == LRU_NO_CHARGE);
    } catch (const lru::Overflow&) {
      MUST(told.code == LRU_OVERFLOW);
    }
  }

  void insert(std::uint64_t n, Key key, std::size_t shard) {
    const std::uint64_t weight = charge();
    const std::uint64_t number = ++made_;
    const lru_told told = plain_[shard].insert(n, weight, number, &gone_);
    // A value that is refused is deleted at once.
    if (told.code != LRU_DONE) gone_.push_back({0, 0, number});
    try {
      const auto handle = cache_->insert(key, weight, Numbered(number, &deleted_));
      MUST(told.code == LRU_DONE && handle->number() == number);
      plain_[shard].release(told.pin.stamp, &gone_);
    } catch (const lru::ZeroCharge&) {
      MUST(told.code == LRU_NO_CHARGE);
    } catch (const lru::Overflow&) {
      MUST(told.code == LRU_OVERFLOW);
    }
  }

  void get(std::uint64_t n, Key key, std::size_t shard, Held& held) {
    const lru_told told = plain_[shard].get(n);
    auto handle = cache_->get(key);
    MUST(static_cast<bool>(handle) == (told.code == LRU_HIT));
    if (!handle) return;
    MUST(handle->number() == told.value);
    hold(held, std::move(handle), shard, told.pin.stamp);
  }

  void read(std::uint64_t n, Key key, std::size_t shard) {
    const lru_told told = plain_[shard].get(n);
    const auto number = cache_->read(key, [](const Numbered& value) { return value.number(); });
    MUST(number.has_value() == (told.code == LRU_HIT));
    if (!number) return;
    MUST(*number == told.value);
    plain_[shard].release(told.pin.stamp, &gone_);
  }

  // Evicts all idle values, or sets the capacity.
  void settle() {
    const std::uint64_t capacity = random_.below(2 * kCapacity);
    const bool prunes = random_.below(4) == 0;
    if (prunes) {
      cache_->prune();
      for (Plain& shard : plain_) shard.prune(&gone_);
    } else {
      cache_->set_capacity(capacity);
      for (Plain& shard : plain_) shard.set_capacity(share(capacity), &gone_);
    }
  }

  template <class Number>
  std::uint64_t sum(Number number) const {
    return std::accumulate(plain_.begin(), plain_.end(), std::uint64_t{0},
                           [&](std::uint64_t before, const Plain& shard) {
                             const std::uint64_t more = number(shard.stats());
                             return more > UINT64_MAX - before ? UINT64_MAX : before + more;
                           });
  }

  // Compares all that can be seen without a change.
  void look() const {
    const lru::Stats stats = cache_->stats();
    MUST(stats.hits == sum([](const lru_stats& s) { return s.hits; }));
    MUST(stats.misses == sum([](const lru_stats& s) { return s.misses; }) && stats.waits == 0);
    MUST(stats.insertions == sum([](const lru_stats& s) { return s.insertions; }));
    MUST(stats.evictions == sum([](const lru_stats& s) { return s.evictions; }));
    MUST(stats.removals == sum([](const lru_stats& s) { return s.removals; }));
    MUST(stats.entries == sum([](const lru_stats& s) { return s.entries; }));
    MUST(stats.charge == sum([](const lru_stats& s) { return s.charge; }));
    MUST(stats.pinned_charge == sum([](const lru_stats& s) { return s.pinned_charge; }));
    MUST(stats.capacity == sum([](const lru_stats& s) { return s.capacity; }));
    MUST(cache_->len() == stats.entries && cache_->total_charge() == stats.charge);
    MUST(cache_->pinned_charge() == stats.pinned_charge && cache_->capacity() == stats.capacity);
    for (std::uint64_t n = 0; n < 30; n++) {
      const KeyOf key(n);
      const lru_code code = plain_[Cache::shard_of(key.key())].contains(n);
      MUST(cache_->contains(key.key()) == (code == LRU_DONE));
    }
  }

  void end() {
    MUST(deleted_ == values_of(gone_) && cache_->pinned_charge() == 0);
    cache_->prune();
    for (Plain& shard : plain_) shard.prune(&gone_);
    MUST(deleted_ == values_of(gone_) && cache_->len() == 0);
    cache_.reset();
    MUST(deleted_ == values_of(gone_));
  }

  Random random_;
  // Before the cache and the handles, whose destructors add to it.
  std::vector<std::uint64_t> deleted_;
  std::vector<lru_gone> gone_;
  std::vector<Plain> plain_;
  std::unique_ptr<Cache> cache_;
  std::array<Held, 5> held_;
  std::uint64_t made_ = 0;
};

// ----------------------------------------------------------------------------------- many threads

constexpr std::uint64_t kThreads = 8;
constexpr std::uint64_t kCalls = 1500;
constexpr std::uint64_t kSharedKeys = 40;
constexpr std::uint64_t kOwnKeys = 5;
constexpr std::uint64_t kKeys = kSharedKeys + kThreads * kOwnKeys;
constexpr std::uint64_t kCapacity = 100;

// The same for all values of a key: a caller that takes over a making that failed makes its value
// for the charge that the other caller passed.
std::uint64_t charge_of(std::uint64_t n) { return 1 + n % 4; }

// All objects, by their numbers.
class Ledger {
 public:
  // The number of a new object.
  std::uint64_t add(std::uint64_t n) {
    alive_++;
    charge_ += charge_of(n);
    const std::uint64_t number = made_++;
    MUST(number < deleted_.size());
    return number;
  }
  void remove(std::uint64_t number, std::uint64_t n) {
    MUST(!deleted_[number].exchange(true));
    if (while_deleting && number % 16 == 0) while_deleting();
    charge_ -= charge_of(n);
    alive_--;
  }
  bool is_alive(std::uint64_t number) const { return !deleted_[number]; }

  std::uint64_t made() const { return made_; }
  std::uint64_t alive() const { return alive_; }
  std::uint64_t charge() const { return charge_; }

  // What the destructors of some objects do.
  std::function<void()> while_deleting;

 private:
  std::atomic<std::uint64_t> made_{0};
  std::atomic<std::uint64_t> alive_{0};
  std::atomic<std::uint64_t> charge_{0};
  // A call makes two objects at most.
  std::vector<std::atomic<bool>> deleted_ = std::vector<std::atomic<bool>>(2 * kThreads * kCalls);
};

class Object {
 public:
  enum class Origin { kInit, kInsert };

  Object(std::uint64_t n, Origin origin, Ledger* ledger)
      : key_(n), origin_(origin), number_(ledger->add(n)), ledger_(ledger) {}
  Object(Object&& from) noexcept
      : key_(from.key_),
        origin_(from.origin_),
        number_(from.number_),
        ledger_(std::exchange(from.ledger_, nullptr)) {}
  ~Object() {
    if (ledger_ != nullptr) ledger_->remove(number_, key_);
  }

  Object(const Object&) = delete;
  Object& operator=(const Object&) = delete;

  bool fits(std::uint64_t n) const { return key_ == n && ledger_->is_alive(number_); }
  std::uint64_t key() const { return key_; }
  Origin origin() const { return origin_; }
  std::uint64_t number() const { return number_; }

 private:
  std::uint64_t key_;
  Origin origin_;
  std::uint64_t number_;
  Ledger* ledger_;  // null after it was moved from
};

template <class Handle>
struct Held {
  Handle handle;
  std::uint64_t key = 0;
};

// Where threads leave handles for each other.
template <class Handle>
class Post {
 public:
  void exchange(std::uint64_t box, Held<Handle>& held) {
    const std::lock_guard<std::mutex> lock(mutex_);
    std::swap(boxes_[box % boxes_.size()], held);
  }

 private:
  std::mutex mutex_;
  std::array<Held<Handle>, 4> boxes_;
};

template <class KeyOf, class Cache>
class Worker {
 public:
  using Handle = typename Cache::Handle;

  Worker(Cache* cache, Ledger* ledger, Post<Handle>* post, std::uint64_t thread, std::uint64_t seed)
      : cache_(cache),
        ledger_(ledger),
        post_(post),
        thread_(thread),
        random_(seed * kThreads + thread + 1) {}

  void run() {
    for (std::uint64_t step = 0; step < kCalls; step++) {
      call();
      for (const Held<Handle>& held : held_) MUST(!held.handle || held.handle->fits(held.key));
    }
    for (Held<Handle>& held : held_) held.handle.reset();
  }

  // How many calls asked for a value.
  std::uint64_t asked() const { return asked_; }

 private:
  using Key = typename KeyOf::Key;

  // What this thread knows of a key.
  struct Known {
    std::uint64_t floor = 0;               // no object that an init made is older
    std::optional<std::uint64_t> current;  // the object, if the key is this thread's own
  };

  std::uint64_t any_key() {
    if (random_.below(3) > 0) return random_.below(kSharedKeys);
    return kSharedKeys + thread_ * kOwnKeys + random_.below(kOwnKeys);
  }

  bool is_own(std::uint64_t n) const {
    return n >= kSharedKeys && (n - kSharedKeys) / kOwnKeys == thread_;
  }

  // Whether this thread has a handle of the value that its own key has.
  bool pins(std::uint64_t n) const {
    if (!is_own(n) || !known_[n].current) return false;
    for (const Held<Handle>& held : held_) {
      if (held.handle && held.key == n && held.handle->number() == known_[n].current) return true;
    }
    return false;
  }

  void call() {
    const std::uint64_t n = any_key();
    const KeyOf key(n);
    Held<Handle>& held = held_[random_.below(held_.size())];
    switch (random_.below(32)) {
      case 0:
        cache_->advice_evict(key.key());
        break;
      case 1:
        invalidate(n, key.key());
        break;
      case 2:
      case 3:
        insert(n, key.key(), held);
        break;
      case 4:
      case 5:
      case 6:
        get(n, key.key(), held);
        break;
      case 7:
      case 8:
        read(n, key.key());
        break;
      case 9:
        contains(n, key.key());
        break;
      case 10:
        numbers();
        break;
      case 11:
        settle();
        break;
      case 12:
        if (random_.below(8) > 0) {
          refused(key.key());
        } else if (random_.below(4) > 0) {
          visit();
        } else {
          erase_own();
        }
        break;
      case 13:
        post_->exchange(random_.below(100), held);
        break;
      case 14:
        if (random_.below(2) == 0) {
          held_[0] = {held.handle.clone(), held.key};
        } else {
          swap(held.handle, held_[0].handle);
          std::swap(held.key, held_[0].key);
        }
        break;
      case 15:
      case 16:
        held.handle.reset();
        break;
      case 17:
      case 18:
      case 19:
        begin(n, key.key(), held);
        break;
      default:
        init(n, key.key(), held);
    }
  }

  // A call on this key found this object.
  void found(std::uint64_t n, const Object& object) {
    MUST(object.fits(n));
    if (object.origin() == Object::Origin::kInit) MUST(object.number() >= known_[n].floor);
    if (is_own(n)) MUST(known_[n].current == object.number());
  }

  void missed(std::uint64_t n) {
    MUST(!pins(n));
    known_[n].current.reset();
  }

  void init(std::uint64_t n, Key key, Held<Handle>& held) {
    const bool fails = random_.below(8) == 0;
    bool ran = false;
    asked_++;
    try {
      Handle handle = cache_->get_or_init(key, charge_of(n), [&](Key asked) {
        MUST(asked == key && !pins(n));
        ran = true;
        if (random_.below(8) == 0) std::this_thread::yield();
        if (n < kSharedKeys && random_.below(16) == 0) init_above(n);
        if (fails) throw Failed();
        return Object(n, Object::Origin::kInit, ledger_);
      });
      MUST(!ran || !fails);
      if (ran) known_[n].current = handle->number();
      found(n, *handle);
      held = {std::move(handle), n};
    } catch (const Failed&) {
      MUST(ran && fails);
      missed(n);
    }
  }

  void begin(std::uint64_t n, Key key, Held<Handle>& held) {
    const bool waits = random_.below(2) == 0;
    asked_++;
    auto begun = waits ? cache_->begin(key, charge_of(n)) : cache_->try_begin(key, charge_of(n));
    MUST(!begun.handle || !begun.maker);
    if (begun.maker) {
      MUST(!pins(n));
      auto maker = std::move(begun.maker);
      if (random_.below(8) == 0) std::this_thread::yield();
      if (random_.below(4) == 0) return missed(n);
      begun.handle = maker.ready(n, Object::Origin::kInit, ledger_);
      known_[n].current = begun.handle->number();
    } else if (!begun.handle) {
      MUST(!waits && !is_own(n));
      return;
    }
    found(n, *begun.handle);
    held = {std::move(begun.handle), n};
  }

  // An init may ask for other keys. The order of the keys keeps two from waiting for each other.
  void init_above(std::uint64_t n) {
    if (n + 1 == kSharedKeys) return;
    const std::uint64_t above = n + 1 + random_.below(kSharedKeys - n - 1);
    const KeyOf key(above);
    asked_++;
    const Handle handle = cache_->get_or_init(key.key(), charge_of(above), [&](Key) {
      return Object(above, Object::Origin::kInit, ledger_);
    });
    found(above, *handle);
  }

  void insert(std::uint64_t n, Key key, Held<Handle>& held) {
    known_[n].floor = ledger_->made();
    Handle handle = cache_->insert(key, charge_of(n), Object(n, Object::Origin::kInsert, ledger_));
    known_[n].current = handle->number();
    found(n, *handle);
    held = {std::move(handle), n};
  }

  void invalidate(std::uint64_t n, Key key) {
    known_[n].floor = ledger_->made();
    cache_->invalidate(key);
    known_[n].current.reset();
  }

  void get(std::uint64_t n, Key key, Held<Handle>& held) {
    asked_++;
    Handle handle = cache_->get(key);
    if (handle) {
      found(n, *handle);
    } else {
      missed(n);
    }
    held = {std::move(handle), n};
  }

  void read(std::uint64_t n, Key key) {
    asked_++;
    const bool is_there = cache_->read(key, [&](const Object& object) { found(n, object); });
    if (!is_there) missed(n);
  }

  void contains(std::uint64_t n, Key key) {
    if (!cache_->contains(key)) return missed(n);
    MUST(!is_own(n) || known_[n].current);
  }

  void numbers() {
    const lru::Stats stats = cache_->stats();
    MUST(stats.insertions == stats.entries + stats.evictions + stats.removals);
    MUST(stats.pinned_charge <= stats.charge && stats.entries <= stats.charge);
    // With one lock, the numbers are those of one time, and nothing idle is above the capacity.
    if (Cache::kShards == 1)
      MUST(stats.charge <= stats.capacity || stats.charge == stats.pinned_charge);
    MUST(cache_->len() <= kKeys + 2 * kThreads * kCalls);
    MUST(cache_->total_charge() <= 4 * (kKeys + 2 * kThreads * kCalls));
  }

  void settle() {
    if (random_.below(4) == 0) {
      cache_->prune();
    } else {
      cache_->set_capacity(kCapacity / 2 + random_.below(kCapacity));
    }
  }

  // Visits all values that keys find.
  void visit() {
    cache_->for_each([&](const auto& shown, const Object& object, std::uint64_t charge, auto) {
      const std::uint64_t n = object.key();
      MUST(KeyOf(n).key() == shown && object.fits(n) && charge == charge_of(n));
      if (is_own(n)) MUST(known_[n].current == object.number());
    });
  }

  // Erases the values of all keys of this thread.
  void erase_own() {
    const std::uint64_t erased = cache_->erase_if(
        [&](const auto&, const Object& object, auto...) { return is_own(object.key()); });
    for (std::uint64_t n = kSharedKeys; n < kKeys; n++) {
      if (!is_own(n)) continue;
      known_[n].floor = ledger_->made();
      known_[n].current.reset();
    }
    MUST(erased <= kOwnKeys);
  }

  void refused(Key key) {
    bool is_refused = false;
    try {
      cache_->get_or_init(key, 0, [&](Key) { return Object(0, Object::Origin::kInit, ledger_); });
    } catch (const lru::ZeroCharge&) {
      is_refused = true;
    }
    MUST(is_refused);
  }

  Cache* cache_;
  Ledger* ledger_;
  Post<Handle>* post_;
  std::uint64_t thread_;
  Random random_;
  std::uint64_t asked_ = 0;
  std::array<Held<Handle>, 4> held_;
  std::vector<Known> known_ = std::vector<Known>(kKeys);
};

// Checks the numbers of a cache that nobody calls, and of which nobody has a handle.
template <class Cache>
void is_quiet(const Cache& cache, const Ledger& ledger, std::uint64_t asked) {
  const lru::Stats stats = cache.stats();
  MUST(stats.charge <= stats.capacity && stats.pinned_charge == 0);
  MUST(stats.entries == ledger.alive() && stats.charge == ledger.charge());
  MUST(stats.hits + stats.misses + stats.waits == asked);
  MUST(stats.insertions == stats.entries + stats.evictions + stats.removals);
  MUST(cache.len() == stats.entries && cache.total_charge() == stats.charge);
  MUST(cache.pinned_charge() == 0 && cache.capacity() == stats.capacity);
}

template <class KeyOf, template <class, class> class CacheOf>
void threads(std::uint64_t seed) {
  using Cache = CacheOf<const Object, typename KeyOf::Key>;
  Ledger ledger;
  auto cache = std::make_unique<Cache>(kCapacity, lru::Seed(seed));
  ledger.while_deleting = [&] { cache->contains(KeyOf(0).key()); };
  std::uint64_t asked = 0;
  {
    Post<typename Cache::Handle> post;
    std::vector<Worker<KeyOf, Cache>> workers;
    for (std::uint64_t t = 0; t < kThreads; t++)
      workers.emplace_back(cache.get(), &ledger, &post, t, seed);
    std::vector<std::thread> all;
    for (auto& worker : workers) all.emplace_back([&worker] { worker.run(); });
    for (std::thread& thread : all) thread.join();
    for (const auto& worker : workers) asked += worker.asked();
  }
  is_quiet(*cache, ledger, asked);
  // In half of the runs the destructor deletes what is left.
  if (seed % 2 == 0) {
    cache->prune();
    MUST(ledger.alive() == 0 && cache->len() == 0 && cache->total_charge() == 0);
  }
  ledger.while_deleting = nullptr;
  cache.reset();
  MUST(ledger.alive() == 0 && ledger.charge() == 0 && ledger.made() > 0);
}

template <class KeyOf, template <class, class> class CacheOf>
void all_of(std::uint64_t seed) {
  Beside<KeyOf, CacheOf>(seed).run();
  threads<KeyOf, CacheOf>(seed);
}

}  // namespace

int main(int argc, char** argv) {
  if (argc != 2) {
    std::fprintf(stderr, "usage: soak SEED\n");
    return 2;
  }
  const std::uint64_t seed = std::strtoull(argv[1], nullptr, 10);
  all_of<TextKey, OneLock>(seed);
  all_of<WordsKey, OneLock>(seed);
  all_of<TextKey, SixteenShards>(seed);
  all_of<WordsKey, SixteenShards>(seed);
  std::printf("soak: seed %llu: %d calls beside plain caches, %llu calls of eight threads: ok\n",
              static_cast<unsigned long long>(seed), 4 * kSteps,
              static_cast<unsigned long long>(4 * kThreads * kCalls));
  return 0;
}
