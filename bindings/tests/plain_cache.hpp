// The same cache written as plainly as possible, with two maps and a list of the idle entries. It
// is slow. Each call must answer what the library answers, except for the hash of a pin.
#ifndef LRU_TESTS_PLAIN_CACHE_HPP
#define LRU_TESTS_PLAIN_CACHE_HPP

#include <algorithm>
#include <cstdint>
#include <list>
#include <map>
#include <optional>
#include <vector>

#include "lru.h"

template <class Key>
class PlainCache {
 public:
  explicit PlainCache(std::uint64_t capacity, std::uint64_t first_stamp = 0,
                      std::uint32_t most_pins = UINT32_MAX)
      : capacity_(capacity), next_(first_stamp), most_pins_(most_pins) {}

  lru_told begin(const Key& key, std::uint64_t charge, std::vector<lru_gone>* gone) {
    if (charge == 0) return told(LRU_NO_CHARGE);
    const auto found = stamps_.find(key);
    if (found == stamps_.end()) {
      const lru_told made = make(key, charge, gone);
      if (made.code == LRU_MAKE) misses_++;
      return made;
    }
    const std::uint64_t stamp = found->second;
    Entry& entry = entries_.at(stamp);
    if (entry.pins == most_pins_) return told(LRU_OVERFLOW);
    pin(stamp);
    switch (entry.phase) {
      case Phase::kMaking:
        waits_++;
        return told(LRU_WAIT, stamp);
      case Phase::kUntaken:
        misses_++;
        entry.phase = Phase::kMaking;
        return told(LRU_MAKE, stamp);
      case Phase::kReady:
        break;
    }
    hits_++;
    return told(LRU_HIT, stamp, entry.value);
  }

  // A begin, unless the key has no entry and the capacity has no room for one.
  lru_told begin_strictly(const Key& key, std::uint64_t charge, std::vector<lru_gone>* gone) {
    if (charge != 0 && stamps_.count(key) == 0 && !has_room(charge)) return told(LRU_FULL);
    return begin(key, charge, gone);
  }

  lru_told poll(std::uint64_t stamp) {
    const auto found = entries_.find(stamp);
    if (found == entries_.end() || found->second.pins == 0) return told(LRU_STALE);
    Entry& entry = found->second;
    switch (entry.phase) {
      case Phase::kMaking:
        return told(LRU_WAIT, stamp);
      case Phase::kUntaken:
        entry.phase = Phase::kMaking;
        return told(LRU_MAKE, stamp);
      case Phase::kReady:
        break;
    }
    return told(LRU_HIT, stamp, entry.value);
  }

  lru_code ready(std::uint64_t stamp, std::uint64_t value) {
    const auto found = entries_.find(stamp);
    if (found == entries_.end() || found->second.phase != Phase::kMaking) return LRU_STALE;
    found->second.phase = Phase::kReady;
    found->second.value = value;
    return LRU_DONE;
  }

  // A ready with another charge for the entry, after which idle ones may leave.
  lru_code ready_with(std::uint64_t stamp, std::uint64_t value, std::uint64_t charge,
                      std::vector<lru_gone>* gone) {
    if (charge == 0) return LRU_NO_CHARGE;
    const auto found = entries_.find(stamp);
    if (found == entries_.end() || found->second.phase != Phase::kMaking) return LRU_STALE;
    if (charge > UINT64_MAX - (total() - found->second.charge)) return LRU_OVERFLOW;
    found->second.charge = charge;
    ready(stamp, value);
    settle(capacity_, gone);
    return LRU_DONE;
  }

  // A ready_with, unless the capacity has no room for the charge.
  lru_code ready_with_strictly(std::uint64_t stamp, std::uint64_t value, std::uint64_t charge,
                               std::vector<lru_gone>* gone) {
    const auto found = entries_.find(stamp);
    if (charge != 0 && found != entries_.end() && found->second.phase == Phase::kMaking &&
        !has_room(charge, found->second.charge))
      return LRU_FULL;
    return ready_with(stamp, value, charge, gone);
  }

  lru_code fail(std::uint64_t stamp) {
    const auto found = entries_.find(stamp);
    if (found == entries_.end() || found->second.phase != Phase::kMaking) return LRU_STALE;
    if (--found->second.pins > 0) {
      found->second.phase = Phase::kUntaken;
      return LRU_LEFT;
    }
    remove(stamp);
    removals_++;
    return LRU_REMOVED;
  }

  lru_told get(const Key& key) {
    const auto found = stamps_.find(key);
    if (found == stamps_.end() || entries_.at(found->second).phase != Phase::kReady) {
      misses_++;
      return told(LRU_MISSED);
    }
    const Entry& entry = entries_.at(found->second);
    if (entry.pins == most_pins_) return told(LRU_OVERFLOW);
    hits_++;
    pin(found->second);
    return told(LRU_HIT, found->second, entry.value);
  }

  lru_code contains(const Key& key) const {
    const auto found = stamps_.find(key);
    if (found == stamps_.end() || entries_.at(found->second).phase != Phase::kReady)
      return LRU_MISSED;
    return LRU_DONE;
  }

  lru_told repin(std::uint64_t stamp) {
    const auto found = entries_.find(stamp);
    if (found == entries_.end() || found->second.phase != Phase::kReady) return told(LRU_STALE);
    if (found->second.pins == most_pins_) return told(LRU_OVERFLOW);
    pin(stamp);
    return told(LRU_PINNED, stamp, found->second.value);
  }

  lru_code release(std::uint64_t stamp, std::vector<lru_gone>* gone) {
    if (!is_held(stamp)) return LRU_STALE;
    if (--entries_.at(stamp).pins > 0) return LRU_DONE;
    if (is_found(stamp)) {
      idle_.push_back(stamp);
      settle(capacity_, gone);
    } else {
      evict(stamp, gone);
    }
    return LRU_DONE;
  }

  lru_code release_and_evict(std::uint64_t stamp, std::vector<lru_gone>* gone) {
    if (!is_held(stamp)) return LRU_STALE;
    if (--entries_.at(stamp).pins == 0) evict(stamp, gone);
    return LRU_DONE;
  }

  lru_code advice_evict(const Key& key, std::vector<lru_gone>* gone) {
    const auto found = stamps_.find(key);
    if (found != stamps_.end() && entries_.at(found->second).pins == 0) evict(found->second, gone);
    return LRU_DONE;
  }

  lru_code invalidate(const Key& key, std::vector<lru_gone>* gone) {
    const auto found = stamps_.find(key);
    if (found == stamps_.end()) return LRU_DONE;
    const std::uint64_t stamp = found->second;
    if (entries_.at(stamp).pins == 0) {
      evict(stamp, gone);
    } else {
      stamps_.erase(found);
    }
    return LRU_DONE;
  }

  // An invalidate, a begin and a ready; or nothing, if the begin would be refused.
  lru_told insert(const Key& key, std::uint64_t charge, std::uint64_t value,
                  std::vector<lru_gone>* gone) {
    if (charge == 0) return told(LRU_NO_CHARGE);
    const auto found = stamps_.find(key);
    std::uint64_t others = total();
    if (found != stamps_.end() && entries_.at(found->second).pins == 0)
      others -= entries_.at(found->second).charge;
    if (charge > UINT64_MAX - others || next_ == UINT64_MAX) return told(LRU_OVERFLOW);
    invalidate(key, gone);
    const std::uint64_t stamp = make(key, charge, gone).pin.stamp;
    ready(stamp, value);
    return told(LRU_DONE, stamp);
  }

  // An insert, unless the capacity has no room for the charge.
  lru_told insert_strictly(const Key& key, std::uint64_t charge, std::uint64_t value,
                           std::vector<lru_gone>* gone) {
    if (charge != 0 && !has_room(charge)) return told(LRU_FULL);
    return insert(key, charge, value, gone);
  }

  lru_code prune(std::vector<lru_gone>* gone) {
    settle(0, gone);
    return LRU_DONE;
  }

  lru_code set_capacity(std::uint64_t capacity, std::vector<lru_gone>* gone) {
    capacity_ = capacity;
    settle(capacity_, gone);
    return LRU_DONE;
  }

  std::uint64_t total() const {
    std::uint64_t sum = 0;
    for (const auto& [stamp, entry] : entries_) sum += entry.charge;
    return sum;
  }

  std::uint64_t pinned_charge() const {
    std::uint64_t sum = 0;
    for (const auto& [stamp, entry] : entries_) sum += entry.pins > 0 ? entry.charge : 0;
    return sum;
  }

  std::uint64_t capacity() const { return capacity_; }

  std::uint64_t len() const { return entries_.size(); }

  lru_stats stats() const {
    lru_stats stats = {};
    stats.hits = hits_;
    stats.misses = misses_;
    stats.waits = waits_;
    stats.insertions = insertions_;
    stats.evictions = evictions_;
    stats.removals = removals_;
    stats.entries = len();
    stats.charge = total();
    stats.pinned_charge = pinned_charge();
    stats.capacity = capacity();
    return stats;
  }

  std::optional<Key> key_of(std::uint64_t stamp) const {
    const auto found = entries_.find(stamp);
    if (found == entries_.end()) return std::nullopt;
    return found->second.key;
  }

  // The entry of a stamp, if it has a value.
  std::optional<lru_entry> entry(std::uint64_t stamp) const {
    const auto found = entries_.find(stamp);
    if (found == entries_.end() || found->second.phase != Phase::kReady) return std::nullopt;
    const Entry& entry = found->second;
    const auto by_key = stamps_.find(entry.key);
    lru_entry told = {};
    told.pin.stamp = stamp;
    told.value = entry.value;
    told.charge = entry.charge;
    told.pins = entry.pins;
    told.is_detached = by_key == stamps_.end() || by_key->second != stamp;
    return told;
  }

  // The entries that have a value, by stamp.
  std::vector<lru_entry> entries() const {
    std::vector<lru_entry> all;
    for (const auto& [stamp, entry] : entries_) {
      if (entry.phase == Phase::kReady) all.push_back(*this->entry(stamp));
    }
    return all;
  }

  // What free hands out: the entries that have a value, by stamp.
  std::vector<lru_gone> values() const {
    std::vector<lru_gone> all;
    for (const auto& [stamp, entry] : entries_) {
      if (entry.phase == Phase::kReady) all.push_back(gone_of(stamp, entry));
    }
    return all;
  }

 private:
  enum class Phase { kMaking, kUntaken, kReady };

  struct Entry {
    Key key;
    std::uint64_t charge;
    std::uint32_t pins;
    Phase phase;
    std::uint64_t value;
  };

  static lru_gone gone_of(std::uint64_t stamp, const Entry& entry) {
    lru_gone gone = {};
    gone.stamp = stamp;
    gone.charge = entry.charge;
    gone.value = entry.value;
    return gone;
  }

  static lru_told told(lru_code code, std::uint64_t stamp = 0, std::uint64_t value = 0) {
    lru_told answer = {};
    answer.code = code;
    answer.pin.stamp = stamp;
    answer.value = value;
    return answer;
  }

  // Whether a charge fits the capacity beside the entries that have a pin, of whose charges this
  // one does not count.
  bool has_room(std::uint64_t charge, std::uint64_t uncounted = 0) const {
    const std::uint64_t pinned = pinned_charge() - uncounted;
    return pinned <= capacity_ && charge <= capacity_ - pinned;
  }

  lru_told make(const Key& key, std::uint64_t charge, std::vector<lru_gone>* gone) {
    if (charge > UINT64_MAX - total() || next_ == UINT64_MAX) return told(LRU_OVERFLOW);
    insertions_++;
    const std::uint64_t stamp = next_++;
    stamps_.emplace(key, stamp);
    entries_.emplace(stamp, Entry{key, charge, 1, Phase::kMaking, 0});
    settle(capacity_, gone);
    return told(LRU_MAKE, stamp);
  }

  void pin(std::uint64_t stamp) {
    if (entries_.at(stamp).pins++ == 0) idle_.remove(stamp);
  }

  void settle(std::uint64_t capacity, std::vector<lru_gone>* gone) {
    while (!idle_.empty() && total() > capacity) evict(idle_.front(), gone);
  }

  void evict(std::uint64_t stamp, std::vector<lru_gone>* gone) {
    evictions_++;
    gone->push_back(gone_of(stamp, entries_.at(stamp)));
    idle_.remove(stamp);
    remove(stamp);
  }

  // Whether an entry has the stamp, and has a value and a pin.
  bool is_held(std::uint64_t stamp) const {
    const auto found = entries_.find(stamp);
    return found != entries_.end() && found->second.pins > 0 &&
           found->second.phase == Phase::kReady;
  }

  // Whether the key of an entry finds it. It does not after an invalidate.
  bool is_found(std::uint64_t stamp) const {
    const auto found = stamps_.find(entries_.at(stamp).key);
    return found != stamps_.end() && found->second == stamp;
  }

  void remove(std::uint64_t stamp) {
    if (is_found(stamp)) stamps_.erase(entries_.at(stamp).key);
    entries_.erase(stamp);
  }

  std::uint64_t capacity_;
  std::uint64_t next_;
  std::uint32_t most_pins_;
  std::map<std::uint64_t, Entry> entries_;
  std::map<Key, std::uint64_t> stamps_;  // of the entries that their keys find
  std::list<std::uint64_t> idle_;  // the stamps of idle entries, least recently released first
  std::uint64_t hits_ = 0, misses_ = 0, waits_ = 0;
  std::uint64_t insertions_ = 0, evictions_ = 0, removals_ = 0;
};

#endif
