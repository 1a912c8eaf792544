// Tests lru::LevelDBCache, LevelDBBlockCache and LevelDBClockCache: what they have in common with
// LevelDB's own cache, on which these tests run too; where they differ, as their headers say; and
// threads, with each object deleted exactly once.
#include "leveldb_cache.h"

#include <algorithm>
#include <atomic>
#include <cstddef>
#include <cstdint>
#include <cstdio>
#include <functional>
#include <memory>
#include <string>
#include <string_view>
#include <thread>
#include <utility>
#include <vector>

#include "before_add.hpp"
#include "check.hpp"
#include "deleted_once.hpp"
#include "leveldb/cache.h"
#include "leveldb_clock_cache.h"

namespace {

using leveldb::Slice;
using Handle = leveldb::Cache::Handle;

// A cache, with keys of 16 bytes if it needs them: short names are padded by zeros.
class Tested {
 public:
  Tested(leveldb::Cache* cache, bool pads) : cache_(cache), pads_(pads) {}

  leveldb::Cache* operator->() const { return cache_.get(); }

  std::string Key(std::string name) const {
    if (pads_) name.resize(16);
    return name;
  }

  Handle* Insert(const std::string& name, const std::string& value, std::size_t charge = 1) const {
    return cache_->Insert(Key(name), new std::string(value), charge, Delete);
  }

  void Put(const std::string& name, const std::string& value, std::size_t charge = 1) const {
    cache_->Release(Insert(name, value, charge));
  }

  Handle* Lookup(const std::string& name) const { return cache_->Lookup(Key(name)); }

  void Erase(const std::string& name) const { cache_->Erase(Key(name)); }

  std::string ValueOf(Handle* handle) const {
    return *static_cast<std::string*>(cache_->Value(handle));
  }

  // The value of a key, or "none".
  std::string Get(const std::string& name) const {
    Handle* handle = Lookup(name);
    if (handle == nullptr) return "none";
    std::string value = ValueOf(handle);
    cache_->Release(handle);
    return value;
  }

  // The objects deleted since the last call, each as "key=value ".
  static std::string Deleted() { return std::exchange(deleted_, ""); }

 private:
  static void Delete(const Slice& key, void* value) {
    // Without the padding.
    deleted_ += key.ToString().c_str() + ("=" + *static_cast<std::string*>(value)) + " ";
    delete static_cast<std::string*>(value);
  }

  static inline std::string deleted_;

  std::unique_ptr<leveldb::Cache> cache_;
  bool pads_;
};

using NewCache = Tested (*)(std::size_t);

Tested Own(std::size_t capacity) { return Tested(leveldb::NewLRUCache(capacity), false); }
// The charges of these tests are not bytes, so the number of shards is passed.
Tested Any(std::size_t capacity) { return Tested(lru::NewLevelDBCache(capacity, 16), false); }
Tested Blocks(std::size_t capacity) {
  return Tested(lru::NewLevelDBBlockCache(capacity, 16), true);
}
Tested Clock(std::size_t capacity) {
  return Tested(lru::NewLevelDBClockCache(capacity, 16), true);
}

// Tests that LevelDB's own cache passes too.

void HitsAndMisses(NewCache new_cache) {
  const Tested cache = new_cache(1000);
  CHECK(cache.Get("a") == "none");
  cache.Put("a", "1");
  cache.Put("", "empty");
  cache.Put("a longer key", "2", 5);
  CHECK(cache.Get("a") == "1" && cache.Get("") == "empty" && cache.Get("a longer key") == "2");
  CHECK(cache->TotalCharge() == 7);
  cache.Put("a", "3");
  CHECK(cache.Get("a") == "3" && cache.Deleted() == "a=1 ");
  CHECK(cache->TotalCharge() == 7);
  cache.Erase("a");
  cache.Erase("a");
  CHECK(cache.Get("a") == "none" && cache.Deleted() == "a=3 ");
  const std::uint64_t id = cache->NewId();
  CHECK(cache->NewId() != id);
  Handle* held = cache.Lookup("");
  cache->Prune();
  CHECK(cache.Deleted() == "a longer key=2 ");
  CHECK(cache.ValueOf(held) == "empty" && cache->TotalCharge() == 1);
  cache->Release(held);
  CHECK(cache.Get("") == "empty");
}

void EvictsByLastRelease(NewCache new_cache) {
  const Tested cache = new_cache(1600);
  cache.Put("first", "1");
  cache.Put("used", "2");
  Handle* held = cache.Insert("held", "3");
  for (int n = 0; n < 3000; n++) {
    cache.Put("key" + std::to_string(n), "x");
    CHECK(cache.Get("used") == "2");
  }
  CHECK(cache.Get("first") == "none");
  CHECK(cache.ValueOf(held) == "3" && cache.Get("held") == "3");
  cache->Release(held);
}

void ErasesWhatIsHeld(NewCache new_cache) {
  const Tested cache = new_cache(1000);
  Handle* one = cache.Insert("a", "1");
  Handle* two = cache.Lookup("a");
  cache.Erase("a");
  CHECK(cache.Get("a") == "none" && cache.Deleted().empty());
  CHECK(cache.ValueOf(one) == "1" && cache.ValueOf(two) == "1");
  cache->Release(one);
  CHECK(cache.Deleted().empty());
  cache->Release(two);
  CHECK(cache.Deleted() == "a=1 " && cache->TotalCharge() == 0);
  cache.Put("a", "2");
  CHECK(cache.Get("a") == "2");
}

void ReplacesWhatIsHeld(NewCache new_cache) {
  const Tested cache = new_cache(1000);
  Handle* old = cache.Insert("a", "1");
  Handle* fresh = cache.Insert("a", "2");
  CHECK(cache.ValueOf(old) == "1" && cache.ValueOf(fresh) == "2" && cache.Get("a") == "2");
  cache->Release(old);
  CHECK(cache.Deleted() == "a=1 " && cache.Get("a") == "2" && cache->TotalCharge() == 1);
  cache->Release(fresh);
  CHECK(cache.Deleted().empty() && cache.Get("a") == "2");
}

// Tests for these caches only.

void ChargesWhatIsHeld(NewCache new_cache) {
  const Tested cache = new_cache(1000);
  Handle* old = cache.Insert("a", "1", 3);
  Handle* fresh = cache.Insert("a", "2", 4);
  CHECK(cache->TotalCharge() == 7);
  cache.Erase("a");
  CHECK(cache.Get("a") == "none" && cache->TotalCharge() == 7);
  cache->Release(old);
  CHECK(cache.Deleted() == "a=1 " && cache->TotalCharge() == 4);
  cache.Put("a", "3", 5);
  cache->Release(fresh);
  CHECK(cache.Deleted() == "a=2 " && cache.Get("a") == "3" && cache->TotalCharge() == 5);
}

void FindsWhatIsHeldAtCapacity0(NewCache new_cache) {
  const Tested cache = new_cache(0);
  Handle* held = cache.Insert("a", "1");
  CHECK(cache.Get("a") == "1");
  cache->Release(held);
  CHECK(cache.Get("a") == "none" && cache.Deleted() == "a=1 ");
}

// An entry that is refused is not cached, and replaces the old one all the same.
void ReplacesWhereItIsRefused(NewCache new_cache) {
  const Tested cache = new_cache(1000);
  Handle* old = cache.Insert("a", "1");
  Handle* fresh = cache.Insert("a", "2", SIZE_MAX);
  CHECK(cache.ValueOf(fresh) == "2" && cache.Get("a") == "none");
  cache->Release(fresh);
  CHECK(cache.Deleted() == "a=2 " && cache.ValueOf(old) == "1");
  cache->Release(old);
  CHECK(cache.Deleted() == "a=1 " && cache->TotalCharge() == 0);
}

void EvictsAtReleases(NewCache new_cache) {
  const Tested cache = new_cache(16);
  Handle* large = cache.Insert("a", "1", 100);
  CHECK(cache.Get("a") == "1" && cache->TotalCharge() == 100);
  cache->Release(large);
  CHECK(cache.Deleted() == "a=1 " && cache->TotalCharge() == 0);
  cache.Put("b", "2", 0);
  CHECK(cache->TotalCharge() == 1);
}

void DeletesWhatIsLeft(NewCache new_cache) {
  {
    const Tested cache = new_cache(1000);
    cache.Put("a", "1");
    cache.Insert("b", "2");
  }
  const std::string all = Tested::Deleted();
  CHECK(all == "a=1 b=2 " || all == "b=2 a=1 ");
}

// Deleters run without the mutex, so they may call the cache.
void DeletersMayCall(NewCache new_cache) {
  struct Caller {
    const Tested* cache;
    int calls;
  };
  const Tested cache = new_cache(1000);
  Caller caller = {&cache, 0};
  const auto call = [](const Slice&, void* value) {
    auto* c = static_cast<Caller*>(value);
    c->cache->Erase("b");
    c->calls += (*c->cache)->TotalCharge() == 0;
  };
  cache->Release(cache->Insert(cache.Key("a"), &caller, 1, call));
  cache.Put("b", "1");
  cache.Erase("a");
  CHECK(caller.calls == 1 && cache.Deleted() == "b=1 ");
}

// A cache of blocks returns entries of other keys, and does not cache them.
void CachesBlocksOnly() {
  Tested::Deleted();
  for (leveldb::Cache* blocks :
       {lru::NewLevelDBBlockCache(1000), lru::NewLevelDBClockCache(1000)}) {
    const Tested cache(blocks, false);
    for (const std::string name : {"", "a", "seventeen letters"}) {
      Handle* handle = cache.Insert(name, "1");
      CHECK(cache.ValueOf(handle) == "1" && cache.Get(name) == "none");
      CHECK(cache->TotalCharge() == 0);
      cache.Erase(name);
      cache->Release(handle);
      CHECK(cache.Deleted() == name + "=1 ");
    }
  }
}

// Which of many deleters has deleted which values.
std::string deleted_by;

template <std::size_t kNumber>
void DeleteBy(const Slice& key, void* value) {
  deleted_by += key.ToString().c_str() + std::string(value == &deleted_by ? "=" : "?") +
                std::to_string(kNumber) + " ";
}

// More deleters than have numbers of one byte: each entry is deleted by its own.
template <std::size_t... kNumbers>
void HasManyDeleters(NewCache new_cache, std::index_sequence<kNumbers...>) {
  constexpr void (*kDeleters[])(const Slice& key, void* value) = {DeleteBy<kNumbers>...};
  std::string expected;
  deleted_by.clear();
  const Tested cache = new_cache(16000);
  for (std::size_t n = 0; n < sizeof...(kNumbers); n++) {
    const std::string name = "key " + std::to_string(n);
    cache->Release(cache->Insert(cache.Key(name), &deleted_by, 1, kDeleters[n]));
    Handle* handle = cache.Lookup(name);
    CHECK(handle != nullptr && cache->Value(handle) == &deleted_by);
    cache->Release(handle);
    cache.Erase(name);
    expected += name + "=" + std::to_string(n) + " ";
  }
  CHECK(deleted_by == expected);
}

// A pin of a key's entry has the hash that Core makes of the key, so that a release that begins
// with that hash finds the entry where the library looks first.
template <class Key>
void MakesHashesOfPins(Key one, Key other) {
  struct Node {
    Node* next;
  };
  for (const std::uint64_t seed : {std::uint64_t{0}, std::uint64_t{7}, UINT64_MAX}) {
    lru::detail::Core<Node, Key> core;
    CHECK(core.open(10, lru::Seed(seed)));
    lru::detail::Evicted<Node> evicted;
    for (const Key key : {one, other}) {
      const auto hashed = lru::detail::Calls<Key>::hashed(key, lru::Seed(3));
      const lru_told told = core.begin(hashed, 1, &evicted);
      CHECK(told.code == LRU_MAKE && told.pin.hash == core.hash_of(hashed));
      core.fail(told.pin);
    }
  }
}

// The number of blocks, of 30 that were put in, that are found again.
int Kept(const Tested& cache, std::size_t charge = 4100) {
  int kept = 0;
  for (int n = 0; n < 30; n++) cache.Put("block " + std::to_string(n), "x", charge);
  for (int n = 0; n < 30; n++) kept += cache.Get("block " + std::to_string(n)) == "x";
  Tested::Deleted();
  return kept;
}

// A small cache has fewer shards, so that each keeps some blocks.
void KeepsFewBlocks() {
  const auto blocks = [](auto... words) {
    return Tested(lru::NewLevelDBBlockCache(words...), true);
  };
  CHECK(Kept(blocks(9000)) == 2 && Kept(blocks(9000, 16)) == 0 && Kept(blocks(9000, 1)) == 2);
  CHECK(Kept(blocks(16 << 10)) == 3 && Kept(blocks(64 << 10)) >= 3);
  const Tested any(lru::NewLevelDBCache(9000), false);
  CHECK(Kept(any) == 2);
  CHECK(Kept(Tested(lru::NewLevelDBClockCache(9000), true)) == 2);
  CHECK(Kept(Tested(lru::NewLevelDBClockCache(9000, 16), true)) == 0);
  CHECK(Kept(Tested(lru::NewLevelDBClockCache(9000, 0), true)) == 2);
  CHECK(Kept(Tested(lru::NewLevelDBClockCache(9000, 1000), true)) == 0);
  for (const std::size_t capacity : {std::size_t{0}, std::size_t{100} << 10, SIZE_MAX}) {
    CHECK(lru::LevelDBClockCache::ShardsFor(capacity) ==
          lru::LevelDBBlockCache::ShardsFor(capacity));
    CHECK(lru::LevelDBClockCache::ShardsFor(capacity, 64 << 10) ==
          lru::LevelDBBlockCache::ShardsFor(capacity, 64 << 10));
  }
  // Numbers of shards that are not possible.
  CHECK(Kept(blocks(9000, 0)) == 2 && Kept(blocks(9000, 1000)) == 0);
  using Cache = lru::LevelDBBlockCache;
  CHECK(Cache::ShardsFor(0) == 1 && Cache::ShardsFor(40 << 10) == 2);
  CHECK(Cache::ShardsFor((256 << 10) - 1) == 15 && Cache::ShardsFor(SIZE_MAX) == 16);
  // Large blocks: 16 shards are each smaller than one of them.
  CHECK(Cache::ShardsFor(1 << 20, 64 << 10) == 4 && Cache::ShardsFor(1 << 20, 1 << 20) == 1);
  CHECK(Cache::ShardsFor(SIZE_MAX, SIZE_MAX) == 1 && Cache::ShardsFor(63, 0) == 15);
  const std::size_t charge = (64 << 10) + 4;
  CHECK(Kept(blocks(1 << 20), charge) == 0);
  CHECK(Kept(blocks(1 << 20, Cache::ShardsFor(1 << 20, 64 << 10)), charge) == 12);
}

// An entry counts its memory too, if the cache is asked to charge it.
void ChargesItsMemory() {
  lru::BlockCacheOptions options;
  options.capacity = 1000000;
  options.shards = 1;
  options.charges_metadata = true;
  const Tested blocks(lru::NewLevelDBBlockCache(options), true);
  blocks.Put("a", "1", 0);
  const std::size_t each = blocks->TotalCharge();
  CHECK(each > 200 && each < 300);
  blocks.Put("b", "1", 5);
  CHECK(blocks->TotalCharge() == 2 * each + 5);
  // A longer key takes more, and is charged more.
  const Tested any(lru::NewLevelDBCache(options), false);
  any.Put(std::string(16, 'a'), "1", 0);
  const std::size_t of_16 = any->TotalCharge();
  any.Put(std::string(1016, 'a'), "1", 0);
  CHECK(of_16 > each && any->TotalCharge() >= 2 * (of_16 + 1000));
  Handle* large = any.Insert("b", "1", SIZE_MAX);
  CHECK(any.Get("b") == "none");
  any->Release(large);
  // Two entries fit, and not three.
  options.capacity = 2 * each + 10;
  const Tested two(lru::NewLevelDBBlockCache(options), true);
  Tested::Deleted();
  for (const char* name : {"a", "b", "c"}) two.Put(name, "2", 5);
  CHECK(two.Deleted() == "a=2 " && two->TotalCharge() == options.capacity);
  // The same of the clock, which may evict another one.
  const Tested clock(lru::NewLevelDBClockCache(options), true);
  clock.Put("a", "3", 5);
  const std::size_t of_clock = clock->TotalCharge();
  CHECK(of_clock > 205 && of_clock < 305);
  for (const char* name : {"b", "c", "d"}) clock.Put(name, "3", 5);
  CHECK(clock->TotalCharge() == options.capacity / of_clock * of_clock);
  Handle* of_most = clock.Insert("b", "4", SIZE_MAX);
  CHECK(clock.Get("b") == "none");
  clock->Release(of_most);
}

// The typical charge chooses the number of shards, and there may be no memory for the tables.
void ExpectsEntries() {
  lru::BlockCacheOptions options;
  options.capacity = 1 << 20;
  CHECK(Kept(Tested(lru::NewLevelDBBlockCache(options), true), (64 << 10) + 4) == 0);
  options.typical_charge = 64 << 10;
  CHECK(Kept(Tested(lru::NewLevelDBBlockCache(options), true), (64 << 10) + 4) == 12);
  options.capacity = SIZE_MAX;
  options.shards = 1;
  options.typical_charge = 1;
  CHECK(lru::NewLevelDBBlockCache(options) == nullptr && lru::NewLevelDBCache(options) == nullptr);
  CHECK(lru::NewLevelDBClockCache(options) == nullptr);
  options.typical_charge = SIZE_MAX;
  const Tested large(lru::NewLevelDBBlockCache(options), true);
  large.Put("a", "1");
  CHECK(large.Get("a") == "1");
}

// The last Release of an entry, in another thread and in one that has no readers yet.
void ReleasesElsewhere() {
  const Tested cache = Clock(1000);
  std::vector<Handle*> handles;
  for (int n = 0; n < 50; n++) handles.push_back(cache.Insert(std::to_string(n), "1"));
  for (int n = 0; n < 50; n += 2) cache.Erase(std::to_string(n));
  std::thread([&] {
    for (Handle* handle : handles) cache->Release(handle);
  }).join();
  const std::string deleted = Tested::Deleted();
  CHECK(std::count(deleted.begin(), deleted.end(), '=') == 25 && cache->TotalCharge() == 25);
}

// What is released while a new entry finds no room leaves with the Insert of that one. While the
// total is above the capacity, only the last Release of an entry takes the mutex, and evicts it.
void EvictsWithTheLastRelease() {
  const Tested cache(lru::NewLevelDBClockCache(10, 1), true);
  Tested::Deleted();
  Handle* one = cache.Insert("a", "1", 6);
  cache.Get("a");  // this makes the readers
  before_add = [&] { cache->Release(one); };
  Handle* two = cache.Insert("b", "2", 6);
  CHECK(!before_add && cache.Deleted() == "a=1 " && cache->TotalCharge() == 6);
  Handle* three = cache.Insert("c", "3", 6);
  CHECK(cache.Lookup("b") == two);
  before_add = [&] { cache->Release(two); };
  Handle* four = cache.Insert("d", "4", 6);
  CHECK(!before_add && cache.Deleted().empty() && cache->TotalCharge() == 18);
  for (Handle* handle : {two, three}) cache->Release(handle);
  CHECK(cache.Deleted() == "b=2 c=3 " && cache->TotalCharge() == 6);
  cache->Release(four);
  CHECK(cache.Deleted().empty());
}

void Common(NewCache new_cache) {
  for (const auto test :
       {HitsAndMisses, EvictsByLastRelease, ErasesWhatIsHeld, ReplacesWhatIsHeld}) {
    test(new_cache);
    Tested::Deleted();
  }
}

void Differences(NewCache new_cache) {
  for (const auto test : {ChargesWhatIsHeld, FindsWhatIsHeldAtCapacity0, ReplacesWhereItIsRefused,
                          EvictsAtReleases, DeletesWhatIsLeft, DeletersMayCall}) {
    test(new_cache);
    Tested::Deleted();
  }
}

// Random calls on LevelDB's own cache and on another one, whose answers and deletions must be the
// same. What is pinned at one time fits into a shard, and is not erased or replaced, so the
// differences do not show.
class SameAsOwn {
 public:
  explicit SameAsOwn(NewCache new_cache) : caches_{Own(kCapacity), new_cache(kCapacity)} {}

  void Run(std::uint64_t seed) {
    random_ = seed;
    for (int call = 0; call < 20000; call++) {
      Call();
      CHECK(caches_[0]->TotalCharge() == caches_[1]->TotalCharge());
    }
    for (auto& [name, handles] : held_) Release(handles);
    CHECK(deleted_ > 1000);
  }

 private:
  static constexpr std::size_t kCapacity = 16 * 12;
  using Pair = std::pair<Handle*, Handle*>;

  std::uint64_t Below(std::uint64_t end) {
    random_ = random_ * 6364136223846793005u + 1442695040888963407u;
    return (random_ >> 33) % end;
  }

  // Makes a call on both caches, which must delete the same for it.
  template <class Calls>
  void Same(Calls calls) {
    std::string deleted[2];
    for (int i : {0, 1}) {
      calls(i);
      deleted[i] = Tested::Deleted();
    }
    CHECK(deleted[0] == deleted[1]);
    deleted_ += !deleted[0].empty();
  }

  void Release(Pair handles) {
    Same([&](int i) { caches_[i]->Release(i == 0 ? handles.first : handles.second); });
  }

  // At most 4 entries of charge 3 at most are pinned.
  void Hold(const std::string& name, Pair handles) {
    CHECK(caches_[0].ValueOf(handles.first) == caches_[1].ValueOf(handles.second));
    held_.emplace_back(name, handles);
    if (held_.size() < 4) return;
    Release(held_[0].second);
    held_.erase(held_.begin());
  }

  void Call() {
    // Of 16 bytes, so that none is padded, which would change its shard.
    const std::string name = "key of 16 " + std::to_string(100000 + Below(150));
    const bool is_held = std::any_of(held_.begin(), held_.end(),
                                     [&](const auto& held) { return held.first == name; });
    Pair handles;
    const std::uint64_t kind = Below(100);
    if (kind == 0) {
      Same([&](int i) { caches_[i]->Prune(); });
    } else if (kind < 10 && !is_held) {
      Same([&](int i) { caches_[i].Erase(name); });
    } else if (kind < 50 && !is_held) {
      const std::size_t charge = 1 + Below(3);
      const std::string value = std::to_string(random_);
      Same([&](int i) {
        (i == 0 ? handles.first : handles.second) = caches_[i].Insert(name, value, charge);
      });
      Hold(name, handles);
    } else {
      Same([&](int i) { (i == 0 ? handles.first : handles.second) = caches_[i].Lookup(name); });
      CHECK((handles.first == nullptr) == (handles.second == nullptr));
      if (handles.first != nullptr && handles.second != nullptr) Hold(name, handles);
    }
  }

  Tested caches_[2];
  std::vector<std::pair<std::string, Pair>> held_;
  std::uint64_t random_ = 0;
  int deleted_ = 0;
};

void EqualsOwn(NewCache new_cache) {
  for (std::uint64_t seed = 1; seed <= 3; seed++) {
    SameAsOwn(new_cache).Run(seed);
    Tested::Deleted();
  }
}

// Threads: each object is deleted once, by its own deleter, and not while it is pinned.

constexpr int kThreads = 8;
constexpr int kCalls = 20000;

constexpr auto DeleteObject = DeleteOnce<Slice>;

// Handles that one thread has passed and another one may take.
std::atomic<Handle*> passed[4];

void Calls(const Tested& cache, std::uint64_t seed) {
  std::uint64_t random = seed * 0x9e3779b97f4a7c15u;
  Handle* held[4] = {};
  for (int call = 0; call < kCalls; call++) {
    random = random * 6364136223846793005u + 1442695040888963407u;
    const std::uint64_t n = (random >> 33) % 200;
    const std::uint64_t words[2] = {n, n};
    const Slice key(reinterpret_cast<const char*>(words), sizeof words);
    Handle*& slot = held[(random >> 41) % 4];
    const std::uint64_t kind = (random >> 44) % 64;
    if (kind >= 56) {
      slot = passed[random % 4].exchange(slot);
      if (slot != nullptr && !static_cast<const Object*>(cache->Value(slot))->there) wrong++;
    }
    if (slot != nullptr) cache->Release(std::exchange(slot, nullptr));
    if (kind < 4) {
      cache->Erase(key);
    } else if (kind == 4) {
      cache->Prune();
    } else {
      if (kind > 8) slot = cache->Lookup(key);
      const std::size_t charge = 1 + (random >> 50) % 3;
      if (slot == nullptr) slot = cache->Insert(key, new Object(n), charge, DeleteObject);
      const auto* object = static_cast<const Object*>(cache->Value(slot));
      if (object->key != n || !object->there) wrong++;
    }
  }
  for (Handle* handle : held) {
    if (handle != nullptr) cache->Release(handle);
  }
}

void Threads(NewCache new_cache, int count) {
  {
    const Tested cache = new_cache(64);
    std::vector<std::thread> threads;
    for (int t = 1; t <= count; t++) {
      threads.emplace_back(Calls, std::cref(cache), static_cast<std::uint64_t>(t));
    }
    for (std::thread& thread : threads) thread.join();
    for (auto& handle : passed) {
      if (Handle* const left = handle.exchange(nullptr)) cache->Release(left);
    }
    CHECK(cache->TotalCharge() <= 64 && alive > 0);
    cache->Prune();
    CHECK(cache->TotalCharge() == 0 && alive == 0);
  }
  CHECK(wrong == 0);
}

}  // namespace

int main() {
  for (const NewCache new_cache : {Own, Any, Blocks, Clock}) Common(new_cache);
  for (const NewCache new_cache : {Any, Blocks, Clock}) {
    Differences(new_cache);
    if (new_cache != Clock) EqualsOwn(new_cache);
    Threads(new_cache, 4);
    Threads(new_cache, kThreads);
  }
  for (const NewCache new_cache : {Own, Any, Blocks, Clock}) {
    HasManyDeleters(new_cache, std::make_index_sequence<300>());
  }
  MakesHashesOfPins<lru::Words>({1, 2}, {UINT64_MAX, 0});
  MakesHashesOfPins<std::string_view>("a", "a longer key, of 27 letters");
  ReleasesElsewhere();
  EvictsWithTheLastRelease();
  CachesBlocksOnly();
  KeepsFewBlocks();
  ChargesItsMemory();
  ExpectsEntries();
  std::printf("the caches for LevelDB, with 1, 4 and 8 threads: %d checks failed\n",
              failed_checks);
  return failed_checks == 0 ? 0 : 1;
}
