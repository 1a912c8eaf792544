// Runs random calls on the library and on the plain cache, for both kinds of keys: each answer and
// each evicted entry must be the same. Prints one line, and exits with 1 if an answer differs.
#include <algorithm>
#include <cinttypes>
#include <cstdint>
#include <cstdio>
#include <cstdlib>
#include <optional>
#include <string>
#include <string_view>
#include <utility>
#include <vector>

#include "lru.h"
#include "lru_core.hpp"
#include "plain_cache.hpp"

// In the namespace of their types, so that std's algorithms find them. The plain cache hashes
// nothing.
static bool operator==(const lru_told& one, const lru_told& other) {
  return one.code == other.code && one.pin.stamp == other.pin.stamp && one.value == other.value;
}
static bool operator==(const lru_gone& one, const lru_gone& other) {
  return one.stamp == other.stamp && one.charge == other.charge && one.value == other.value;
}
static bool operator==(const lru_entry& one, const lru_entry& other) {
  return one.pin.stamp == other.pin.stamp && one.value == other.value &&
         one.charge == other.charge && one.pins == other.pins &&
         one.is_detached == other.is_detached;
}
static bool operator==(const lru_stats& one, const lru_stats& other) {
  return one.hits == other.hits && one.misses == other.misses && one.waits == other.waits &&
         one.insertions == other.insertions && one.evictions == other.evictions &&
         one.removals == other.removals && one.entries == other.entries &&
         one.charge == other.charge && one.pinned_charge == other.pinned_charge &&
         one.capacity == other.capacity;
}

namespace {

constexpr std::uint64_t kSeeds = 20;
constexpr int kSteps = 2000;

// The functions of lru.h that take a key, for each kind of key, and keys by number, some of which
// begin alike.

// A key of bytes is its bytes and their hash. All keys share their bytes with one other key, and
// half of them their hash with all others of that half.
struct Bytes : lru::detail::Calls<std::string_view> {
  using Key = std::pair<std::string, std::uint64_t>;

  static constexpr const char* name = "bytes";

  static Key key(std::uint64_t n) {
    const std::string bytes = std::string(n / 2 % 3 * 9, '\0') + std::string(n / 6, 'k');
    return {bytes, n % 2 == 0 ? 0 : lru_hash_bytes(bytes.data(), bytes.size(), 1)};
  }
  static lru::detail::HashedBytes hashed(const Key& key) { return {key.first, key.second}; }
  static lru_told begin(lru_cache* cache, const Key& key, std::uint64_t charge, bool strict,
                        lru_chain* gone) {
    return Calls::begin(cache, hashed(key), charge, strict, gone);
  }
  static lru_told get(lru_cache* cache, const Key& key) { return Calls::get(cache, hashed(key)); }
  static lru_code advice_evict(lru_cache* cache, const Key& key, lru_chain* gone) {
    return Calls::advice_evict(cache, hashed(key), gone);
  }
  static lru_code invalidate(lru_cache* cache, const Key& key, lru_chain* gone) {
    return Calls::invalidate(cache, hashed(key), gone);
  }
  static lru_told insert(lru_cache* cache, const Key& key, std::uint64_t charge,
                         std::uint64_t value, bool strict, lru_chain* gone) {
    return Calls::insert(cache, hashed(key), charge, value, strict, gone);
  }
  static lru_code contains(lru_cache* cache, const Key& key) {
    return Calls::contains(cache, hashed(key));
  }
  // Whether the library tells the bytes of this key, or that there is none.
  static bool has_key(lru_cache* cache, lru_pin pin, const std::optional<Key>& key) {
    char buffer[64];
    const lru_told told = lru_bytes_key_of(cache, pin, buffer, sizeof buffer);
    if (told.code != LRU_NUMBER) return told.code == LRU_STALE && !key;
    return key && std::string(buffer, static_cast<std::size_t>(told.value)) == key->first;
  }
};

struct Pairs : lru::detail::Calls<lru::Words> {
  using Key = std::pair<std::uint64_t, std::uint64_t>;

  static constexpr const char* name = "words";

  static Key key(std::uint64_t n) { return {n / 4, n % 4}; }
  static lru::Words words(const Key& key) { return {key.first, key.second}; }
  static lru_told begin(lru_cache* cache, const Key& key, std::uint64_t charge, bool strict,
                        lru_chain* gone) {
    return Calls::begin(cache, words(key), charge, strict, gone);
  }
  static lru_told get(lru_cache* cache, const Key& key) { return Calls::get(cache, words(key)); }
  static lru_code advice_evict(lru_cache* cache, const Key& key, lru_chain* gone) {
    return Calls::advice_evict(cache, words(key), gone);
  }
  static lru_code invalidate(lru_cache* cache, const Key& key, lru_chain* gone) {
    return Calls::invalidate(cache, words(key), gone);
  }
  static lru_told insert(lru_cache* cache, const Key& key, std::uint64_t charge,
                         std::uint64_t value, bool strict, lru_chain* gone) {
    return Calls::insert(cache, words(key), charge, value, strict, gone);
  }
  static lru_code contains(lru_cache* cache, const Key& key) {
    return lru_words_contains(cache, key.first, key.second);
  }
  static bool has_key(lru_cache* cache, lru_pin pin, const std::optional<Key>& key) {
    Key told;
    const lru_code code = lru_words_key_of(cache, pin, &told.first, &told.second);
    return code == LRU_DONE ? key == told : code == LRU_STALE && !key;
  }
};

// SplitMix64.
class Random {
 public:
  explicit Random(std::uint64_t seed) : state_(seed) {}

  std::uint64_t below(std::uint64_t end) {
    std::uint64_t x = state_ += 0x9e3779b97f4a7c15u;
    x = (x ^ (x >> 30)) * 0xbf58476d1ce4e5b9u;
    x = (x ^ (x >> 27)) * 0x94d049bb133111ebu;
    return (x ^ (x >> 31)) % end;
  }

 private:
  std::uint64_t state_;
};

template <class Family>
class Run {
 public:
  explicit Run(std::uint64_t seed)
      : random_(seed), seed_(seed), plain_(kCapacity, kFirstStamp, kMostPins) {
    if (lru_chain_new(&chain_) != LRU_DONE) std::abort();
    // The answers do not depend on the seed of the cache.
    if (lru_cache_new_with_limits(Family::kind, kCapacity, kFirstStamp, kMostPins, seed, &cache_) !=
        LRU_DONE)
      std::abort();
  }

  // Whether all answers were the same.
  bool all() {
    for (int step = 0; step < kSteps; step++) {
      if (!call() || !look()) {
        std::printf("seeded: %s, seed %" PRIu64 ": step %d, %s, differs\n", Family::name, seed_,
                    step, call_);
        return false;
      }
    }
    return end();
  }

 private:
  static constexpr std::uint64_t kCapacity = 16;
  static constexpr std::uint64_t kFirstStamp = 3;
  static constexpr std::uint32_t kMostPins = 3;

  using Key = typename Family::Key;

  Key any_key() { return Family::key(random_.below(12)); }

  // Mostly a pin that was told, sometimes with another hash or place; or any other stamp, which may
  // be one that was never given.
  lru_pin any_pin() {
    if (pins_.empty() || random_.below(8) == 0)
      return {random_.below(latest_ + 2), any_hash(), any_place()};
    lru_pin pin = pins_[static_cast<std::size_t>(random_.below(pins_.size()))];
    if (random_.below(8) == 0) pin.hash = any_hash();
    if (random_.below(8) == 0) pin.place = any_place();
    return pin;
  }

  // 0, or the hash of a key that was pinned, so that entries are sought among those of others.
  std::uint64_t any_hash() {
    if (pins_.empty() || random_.below(2) == 0) return 0;
    return pins_[static_cast<std::size_t>(random_.below(pins_.size()))].hash;
  }

  // A place of another entry, or of none.
  std::size_t any_place() { return static_cast<std::size_t>(random_.below(20)); }

  void pinned(const lru_told& told) {
    pins_.push_back(told.pin);
    latest_ = std::max(latest_, told.pin.stamp);
  }

  void given_back(std::uint64_t stamp) {
    const auto pin = std::find_if(pins_.begin(), pins_.end(),
                                  [stamp](const lru_pin& it) { return it.stamp == stamp; });
    if (pin == pins_.end()) return;
    latest_released_ = *pin;
    pins_.erase(pin);
  }

  // Makes one random call on both caches. False if the answers differ. There are so many releases
  // that about half of the time some entries are idle.
  bool call() {
    const std::uint64_t kind = random_.below(66);
    if (kind < 7) return begin();
    if (kind < 10) return insert();
    if (kind < 11) return poll();
    if (kind < 17) return ready();
    if (kind < 18) return fail();
    if (kind < 22) return get();
    if (kind < 24) return repin();
    if (kind < 50) return release();
    if (kind < 53) return release_and_evict();
    if (kind < 54) return advice_evict();
    if (kind < 55) return invalidate();
    if (kind < 56) return set_capacity();
    // Rarely, as a prune leaves little for other calls to evict.
    if (kind < 57) return random_.below(4) != 0 || prune();
    if (kind < 58) return reserve();
    if (kind < 60) return begin_strictly();
    if (kind < 62) return insert_strictly();
    return ready_with();
  }

  bool begin() {
    call_ = "begin";
    const Key key = any_key();
    const std::uint64_t charge = random_.below(5);
    const lru_told told = Family::begin(&cache_, key, charge, false, &chain_);
    if (told.code <= LRU_HIT) pinned(told);
    return told == plain_.begin(key, charge, &gone_) && evicted();
  }

  // With charges up to the capacity, so that a part of the calls finds no room.
  bool begin_strictly() {
    call_ = "begin_strictly";
    const Key key = any_key();
    const std::uint64_t charge = random_.below(kCapacity + 2);
    const bool is_within = plain_.total() <= plain_.capacity();
    const lru_told told = Family::begin(&cache_, key, charge, true, &chain_);
    if (told.code <= LRU_HIT) pinned(told);
    return told == plain_.begin_strictly(key, charge, &gone_) && evicted() &&
           keeps_limit(is_within, told);
  }

  // Now and then with a charge that is almost the largest.
  bool insert_strictly() {
    call_ = "insert_strictly";
    const Key key = any_key();
    const std::uint64_t charge = random_.below(8) == 0 ? UINT64_MAX - random_.below(2 * kCapacity)
                                                       : random_.below(kCapacity / 2);
    const std::uint64_t value = random_.below(UINT64_MAX);
    const bool is_within = plain_.total() <= plain_.capacity();
    const lru_told told = Family::insert(&cache_, key, charge, value, true, &chain_);
    if (told.code == LRU_DONE) pinned(told);
    return told == plain_.insert_strictly(key, charge, value, &gone_) && evicted() &&
           keeps_limit(is_within, told);
  }

  // Whether a strict call left the total within the capacity, if it was. Counts the call.
  bool keeps_limit(bool is_within, const lru_told& told) {
    (told.code == LRU_FULL ? full_ : strict_)++;
    return !is_within || lru_cache_total(&cache_).value <= plain_.capacity();
  }

  // Now and then with a charge that is almost the largest, which may be too much beside others.
  bool insert() {
    call_ = "insert";
    const Key key = any_key();
    const std::uint64_t charge =
        random_.below(8) == 0 ? UINT64_MAX - random_.below(2 * kCapacity) : random_.below(5);
    const std::uint64_t value = random_.below(UINT64_MAX);
    const lru_told told = Family::insert(&cache_, key, charge, value, false, &chain_);
    if (told.code == LRU_DONE) pinned(told);
    return told == plain_.insert(key, charge, value, &gone_) && evicted();
  }

  bool poll() {
    call_ = "poll";
    const lru_pin pin = any_pin();
    return lru_cache_poll(&cache_, pin) == plain_.poll(pin.stamp);
  }

  bool ready() {
    call_ = "ready";
    const lru_pin pin = any_pin();
    const std::uint64_t value = random_.below(UINT64_MAX);
    return lru_cache_ready(&cache_, pin, value) == plain_.ready(pin.stamp, value);
  }

  // Half of the time strictly, and now and then with a charge that is almost the largest.
  bool ready_with() {
    call_ = "ready_with";
    const lru_pin pin = any_pin();
    const std::uint64_t value = random_.below(UINT64_MAX);
    const std::uint64_t charge = random_.below(8) == 0 ? UINT64_MAX - random_.below(2 * kCapacity)
                                                       : random_.below(kCapacity / 2);
    const bool strict = random_.below(2) == 0;
    const bool is_within = plain_.total() <= plain_.capacity();
    const lru_code code = lru_cache_ready_with(&cache_, pin, value, charge, strict, &chain_);
    if (code == LRU_DONE) charged_++;
    if (code == LRU_FULL) full_charges_++;
    const lru_code expected = strict
                                  ? plain_.ready_with_strictly(pin.stamp, value, charge, &gone_)
                                  : plain_.ready_with(pin.stamp, value, charge, &gone_);
    return code == expected && evicted() &&
           (!strict || !is_within || lru_cache_total(&cache_).value <= plain_.capacity());
  }

  bool fail() {
    call_ = "fail";
    const lru_pin pin = any_pin();
    const lru_code code = lru_cache_fail(&cache_, pin);
    if (code != LRU_STALE) given_back(pin.stamp);
    return code == plain_.fail(pin.stamp);
  }

  bool get() {
    call_ = "get";
    const Key key = any_key();
    const lru_told told = Family::get(&cache_, key);
    if (told.code == LRU_HIT) pinned(told);
    return told == plain_.get(key);
  }

  // Half of the time by the pin that was given back last, whose entry may be idle or gone.
  bool repin() {
    call_ = "repin";
    const lru_pin pin = random_.below(2) == 0 ? latest_released_ : any_pin();
    const lru_told told = lru_cache_repin(&cache_, pin);
    if (told.code == LRU_PINNED) {
      pinned(told);
      repins_++;
    }
    return told == plain_.repin(pin.stamp);
  }

  bool release() {
    call_ = "release";
    const lru_pin pin = any_pin();
    const lru_code code = lru_cache_release(&cache_, pin, &chain_);
    if (code == LRU_DONE) given_back(pin.stamp);
    return code == plain_.release(pin.stamp, &gone_) && evicted();
  }

  bool release_and_evict() {
    call_ = "release_and_evict";
    const lru_pin pin = any_pin();
    const lru_code code = lru_cache_release_and_evict(&cache_, pin, &chain_);
    if (code == LRU_DONE) given_back(pin.stamp);
    const bool same = code == plain_.release_and_evict(pin.stamp, &gone_);
    departures_ += gone_.size();
    return same && evicted();
  }

  bool advice_evict() {
    call_ = "advice_evict";
    const Key key = any_key();
    const lru_code code = Family::advice_evict(&cache_, key, &chain_);
    return code == plain_.advice_evict(key, &gone_) && evicted();
  }

  bool invalidate() {
    call_ = "invalidate";
    const Key key = any_key();
    const lru_code code = Family::invalidate(&cache_, key, &chain_);
    return code == plain_.invalidate(key, &gone_) && evicted();
  }

  bool set_capacity() {
    call_ = "set_capacity";
    const std::uint64_t capacity = random_.below(2 * kCapacity);
    const lru_code code = lru_cache_set_capacity(&cache_, capacity, &chain_);
    return code == plain_.set_capacity(capacity, &gone_) && evicted();
  }

  bool prune() {
    call_ = "prune";
    return lru_cache_prune(&cache_, &chain_) == plain_.prune(&gone_) && evicted();
  }

  bool reserve() {
    call_ = "reserve";
    return lru_cache_reserve(&cache_, static_cast<std::size_t>(random_.below(64))) == LRU_DONE;
  }

  // Whether the chain holds what the plain cache evicted, in order.
  bool evicted() {
    bool same = true;
    for (const lru_gone& expected : gone_) {
      lru_gone told = {};
      same = lru_chain_pop(&chain_, &told) && told == expected && same;
    }
    lru_gone more;
    while (lru_chain_pop(&chain_, &more)) same = false;
    evictions_ += gone_.size();
    gone_.clear();
    return same;
  }

  // Whether the calls that change nothing answer the same.
  bool look() {
    const auto number = [](const lru_told& told) {
      return told.code == LRU_NUMBER ? std::optional<std::uint64_t>(told.value) : std::nullopt;
    };
    const Key key = any_key();
    const lru_pin pin = any_pin();
    lru_stats stats = {};
    return number(lru_cache_total(&cache_)) == plain_.total() &&
           number(lru_cache_pinned_charge(&cache_)) == plain_.pinned_charge() &&
           number(lru_cache_capacity(&cache_)) == plain_.capacity() &&
           number(lru_cache_len(&cache_)) == plain_.len() &&
           lru_cache_stats(&cache_, &stats) == LRU_DONE && stats == plain_.stats() &&
           Family::contains(&cache_, key) == plain_.contains(key) &&
           Family::has_key(&cache_, pin, plain_.key_of(pin.stamp)) &&
           entry(pin) == plain_.entry(pin.stamp) && entries() == plain_.entries();
  }

  // What the library tells of the entry of a pin.
  std::optional<lru_entry> entry(lru_pin pin) {
    lru_entry told = {};
    if (lru_cache_entry(&cache_, pin, &told) != LRU_DONE) return std::nullopt;
    return told;
  }

  // What the library tells of all entries, by stamp. Each has the pin with which it is found.
  std::vector<lru_entry> entries() {
    std::vector<lru_entry> all(static_cast<std::size_t>(lru_cache_len(&cache_).value));
    const lru_told told = lru_cache_entries(&cache_, all.data(), all.size());
    if (told.code != LRU_NUMBER) return {};
    all.resize(static_cast<std::size_t>(told.value));
    std::sort(all.begin(), all.end(),
              [](const lru_entry& a, const lru_entry& b) { return a.pin.stamp < b.pin.stamp; });
    return all;
  }

  // Whether free hands out the same entries, in any order, and the run evicted enough to mean
  // something.
  bool end() {
    std::vector<lru_gone> left;
    lru_gone gone;
    bool same = lru_cache_free(&cache_, &chain_) == LRU_DONE;
    lru_stats stats = {};
    same = lru_cache_stats(&cache_, &stats) == LRU_CLOSED && stats == lru_stats() && same;
    while (lru_chain_pop(&chain_, &gone)) left.push_back(gone);
    std::sort(left.begin(), left.end(),
              [](const lru_gone& a, const lru_gone& b) { return a.stamp < b.stamp; });
    const std::vector<lru_gone> expected = plain_.values();
    same = std::equal(left.begin(), left.end(), expected.begin(), expected.end()) && same;
    same = lru_chain_free(&chain_) == LRU_DONE && same;
    if (!same) std::printf("seeded: %s, seed %" PRIu64 ": the free differs\n", Family::name, seed_);
    // Each kind of call that is counted must have been made often enough to mean something.
    const lru_stats counted = plain_.stats();
    const bool enough = evictions_ >= kSteps / 50 && counted.hits >= kSteps / 50 &&
                        counted.misses >= kSteps / 50 && counted.waits > 0 &&
                        counted.removals > 0 && counted.evictions == evictions_ &&
                        repins_ >= kSteps / 200 && departures_ >= kSteps / 200 &&
                        strict_ >= kSteps / 200 && full_ >= kSteps / 200 &&
                        charged_ >= kSteps / 200 && full_charges_ > 0;
    if (!enough) std::printf("seeded: %s, seed %" PRIu64 ": too few\n", Family::name, seed_);
    return same && enough;
  }

  Random random_;
  std::uint64_t seed_;
  PlainCache<Key> plain_;
  lru_cache cache_ = {};
  lru_chain chain_ = {};
  std::vector<lru_gone> gone_;  // what the plain cache has just evicted
  std::vector<lru_pin> pins_;   // as they were told
  lru_pin latest_released_ = {};
  std::uint64_t latest_ = kFirstStamp;
  std::size_t evictions_ = 0;
  std::size_t repins_ = 0;      // that were not refused
  std::size_t departures_ = 0;  // entries that a release_and_evict evicted
  std::size_t strict_ = 0;      // strict calls that found room, or needed none
  std::size_t full_ = 0;        // strict calls that found no room
  std::size_t charged_ = 0;       // calls of ready_with that were not refused
  std::size_t full_charges_ = 0;  // and those that found no room
  const char* call_ = "";
};

}  // namespace

int main() {
  std::uint64_t same = 0;
  for (std::uint64_t seed = 1; seed <= kSeeds; seed++) {
    same += Run<Bytes>(seed).all();
    same += Run<Pairs>(seed).all();
  }
  std::printf("seeded: %" PRIu64 " of %" PRIu64 " runs of %d steps equal the plain cache\n", same,
              2 * kSeeds, kSteps);
  return same == 2 * kSeeds ? 0 : 1;
}
