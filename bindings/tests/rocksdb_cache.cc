// Tests lru::RocksDBCache, RocksDBBlockCache and RocksDBClockCache: what they have in common with
// RocksDB's own LRU cache, on which these tests run too; where they differ, as their headers say;
// random calls beside RocksDB's own, number for number, or for the clock beside a model; requests
// for memory that are refused; and threads, with each object deleted exactly once.
#include <algorithm>
#include <atomic>
#include <cstddef>
#include <cstdint>
#include <cstdio>
#include <cstdlib>
#include <cstring>
#include <functional>
#include <iterator>
#include <map>
#include <memory>
#include <new>
#include <string>
#include <thread>
#include <tuple>
#include <utility>
#include <vector>

#include "before_add.hpp"
#include "check.hpp"
#include "deleted_once.hpp"
#include "rocksdb/table.h"
#include "rocksdb_clock_cache.h"
#include "rocksdb_interface.hpp"

// The linker directs the requests for memory of the cache to these. One of them can be refused, or
// all.
namespace {
thread_local int requests_until_refusal = 0;  // 0 if none is refused
thread_local bool are_all_refused = false;

bool IsRefused() {
  return are_all_refused || (requests_until_refusal > 0 && --requests_until_refusal == 0);
}
}  // namespace

extern "C" {
void* __real_malloc(std::size_t size);
void* __real_realloc(void* at, std::size_t size);
void* __wrap_malloc(std::size_t size) { return IsRefused() ? nullptr : __real_malloc(size); }
void* __wrap_realloc(void* at, std::size_t size) {
  return IsRefused() ? nullptr : __real_realloc(at, size);
}

// Of `operator new[]` for aligned memory, in which the shards of a clock and the readers of threads
// are. One that replaced it would be defined twice where a sanitizer is linked in.
void* __real__ZnamSt11align_val_tRKSt9nothrow_t(std::size_t size, std::align_val_t align,
                                                const std::nothrow_t& no) noexcept;
void* __wrap__ZnamSt11align_val_tRKSt9nothrow_t(std::size_t size, std::align_val_t align,
                                                const std::nothrow_t& no) noexcept {
  return IsRefused() ? nullptr : __real__ZnamSt11align_val_tRKSt9nothrow_t(size, align, no);
}
}

namespace {

using rocksdb::Cache;
using rocksdb::Slice;
using rocksdb::Status;
// A value, which knows the name of its key.
struct Named {
  std::string name;
  std::string value;
};

// A cache, with keys of 16 bytes if it needs them: short names are padded by zeros.
class Tested {
 public:
  Tested(std::shared_ptr<Cache> cache, bool pads) : cache_(std::move(cache)), pads_(pads) {}

  Cache* operator->() const { return cache_.get(); }
  Cache* get() const { return cache_.get(); }

  std::string Key(std::string name) const {
    if (pads_) name.resize(16);
    return name;
  }

  // Returns null if it is refused.
  Handle* Insert(const std::string& name, const std::string& value, std::size_t charge = 1) const {
    auto* object = new Named{name, value};
    Handle* handle = nullptr;
    status_ = ::Insert(cache_.get(), Key(name), object, charge, Deleter(), &handle);
    if (!status_.ok()) delete object;
    return handle;
  }

  void Put(const std::string& name, const std::string& value, std::size_t charge = 1) const {
    status_ = ::Insert(cache_.get(), Key(name), new Named{name, value}, charge, Deleter());
  }

  // What the last Insert or Put returned.
  bool IsNew() const { return status_.ok() && !status_.IsOkOverwritten(); }
  bool IsOverwritten() const { return status_.IsOkOverwritten(); }
  bool IsRefused() const { return status_.IsMemoryLimit(); }
  bool IsNotSupported() const { return status_.IsNotSupported(); }

  Handle* Lookup(const std::string& name) const { return cache_->Lookup(Key(name)); }

  // Returns null if it is refused.
  Handle* Standalone(const std::string& name, const std::string& value, std::size_t charge,
                     bool allow_uncharged) const {
    auto* object = new Named{name, value};
    Handle* handle = CreateStandalone(cache_.get(), Key(name), object, charge, Deleter(),
                                      allow_uncharged);
    if (handle == nullptr) delete object;
    return handle;
  }

  void Erase(const std::string& name) const { cache_->Erase(Key(name)); }

  std::string ValueOf(Handle* handle) const {
    return static_cast<Named*>(cache_->Value(handle))->value;
  }

  // The value of a key, or "none".
  std::string Get(const std::string& name) const {
    Handle* handle = Lookup(name);
    if (handle == nullptr) return "none";
    std::string value = ValueOf(handle);
    cache_->Release(handle);
    return value;
  }

  // Whether the cache has these charges and this number of entries that keys find. RocksDB's own
  // returns its pinned charge in place of that number in 7.8.
  bool Counts(std::size_t usage, std::size_t pinned, std::size_t entries) const {
    const bool is_own = ROCKSDB_MAJOR == 7 && std::strcmp(cache_->Name(), "LRUCache") == 0;
    return cache_->GetUsage() == usage && cache_->GetPinnedUsage() == pinned &&
           Visited() == entries && cache_->GetOccupancyCount() == (is_own ? pinned : entries);
  }

  // The number of entries that ApplyToAllEntries visits.
  std::size_t Visited() const {
    std::size_t visited = 0;
    cache_->ApplyToAllEntries(
        [&](const Slice&, void*, std::size_t, Helper) { visited++; }, {});
    return visited;
  }

  // What ApplyToAllEntries visits, in the order of keys, each as "key=value:charge ".
  std::string All() const {
    std::vector<std::string> all;
    cache_->ApplyToAllEntries(
        [&](const Slice& key, void* value, std::size_t charge, Helper helper) {
          all.push_back(NameOf(key) + "=" + static_cast<Named*>(value)->value + ":" +
                        std::to_string(charge) + " ");
          CHECK(helper == Deleter());
        },
        {});
    std::sort(all.begin(), all.end());
    std::string text;
    for (const std::string& entry : all) text += entry;
    return text;
  }

  // The objects deleted since the last call, in the order of keys, each as "key=value ".
  static std::string Deleted() {
    std::sort(deleted_.begin(), deleted_.end());
    std::string text;
    for (const std::string& entry : deleted_) text += entry;
    deleted_.clear();
    return text;
  }

  static void Delete(const Slice* key, void* value) {
    auto* named = static_cast<Named*>(value);
    CHECK(key == nullptr || NameOf(*key) == named->name);
    deleted_.push_back(named->name + "=" + named->value + " ");
    delete named;
  }

  static Helper Deleter() { return HelperFor<Delete>(); }

 private:
  // Without the padding.
  static std::string NameOf(const Slice& key) { return key.ToString().c_str(); }

  static inline std::vector<std::string> deleted_;

  std::shared_ptr<Cache> cache_;
  bool pads_;
  mutable Status status_;
};

using NewCache = Tested (*)(std::size_t capacity, bool is_strict);

// Each has one shard, as the charges of these tests are not bytes.
Tested Own(std::size_t capacity, bool is_strict) {
  rocksdb::LRUCacheOptions options(capacity, 0, is_strict, 0.0);
  options.metadata_charge_policy = rocksdb::kDontChargeCacheMetadata;
  return Tested(rocksdb::NewLRUCache(options), false);
}
Tested Any(std::size_t capacity, bool is_strict) {
  return Tested(lru::NewRocksDBCache(capacity, 1, is_strict), false);
}
Tested Blocks(std::size_t capacity, bool is_strict) {
  return Tested(lru::NewRocksDBBlockCache(capacity, 1, is_strict), true);
}
Tested Clock(std::size_t capacity, bool is_strict) {
  return Tested(lru::NewRocksDBClockCache(capacity, 1, is_strict), true);
}

// Tests that RocksDB's own cache passes too.

void HitsAndMisses(NewCache new_cache) {
  const Tested cache = new_cache(1000, false);
  CHECK(cache.Get("a") == "none" && cache.Counts(0, 0, 0));
  cache.Put("a", "1");
  CHECK(cache.IsNew());
  cache.Put("", "empty");
  cache.Put("a longer key", "2", 5);
  CHECK(cache.Get("a") == "1" && cache.Get("") == "empty" && cache.Get("a longer key") == "2");
  CHECK(cache.Counts(7, 0, 3));
  cache.Put("a", "3");
  CHECK(cache.IsOverwritten());
  CHECK(cache.Get("a") == "3" && cache.Deleted() == "a=1 " && cache.Counts(7, 0, 3));
  cache.Erase("a");
  cache.Erase("a");
  CHECK(cache.Get("a") == "none" && cache.Deleted() == "a=3 " && cache.Counts(6, 0, 2));
  const std::uint64_t id = cache->NewId();
  CHECK(cache->NewId() != id);
  Handle* held = cache.Lookup("");
  CHECK(cache.Counts(6, 1, 2));
  cache->EraseUnRefEntries();
  CHECK(cache.Deleted() == "a longer key=2 " && cache.Counts(1, 1, 1));
  CHECK(cache.ValueOf(held) == "empty");
  CHECK(!cache->Release(held) && cache.Get("") == "empty");
}

void TellsOfHandles(NewCache new_cache) {
  const Tested cache = new_cache(1000, false);
  Handle* handle = cache.Insert("a", "1", 7);
  CHECK(cache->GetCharge(handle) == 7 && cache->GetUsage(handle) == 7);
  CHECK(HelperOf(cache.get(), handle) == Tested::Deleter());
  CHECK(cache->Value(handle) != nullptr);
  cache->Release(handle);
  // A value and a deleter may be null.
  CHECK(Insert(cache.get(), cache.Key("b"), nullptr, 2, NoHelper(), &handle).ok());
  CHECK(cache->Value(handle) == nullptr && HelperOf(cache.get(), handle) == NoHelper());
  CHECK(cache->Release(handle, true) && cache.Counts(7, 0, 1));
}

void EvictsByLastRelease(NewCache new_cache) {
  const Tested cache = new_cache(3, false);
  cache.Put("a", "1");
  cache.Put("b", "2");
  Handle* held = cache.Insert("c", "3");
  CHECK(cache.Get("a") == "1");
  cache.Put("d", "4");
  CHECK(cache.Deleted() == "b=2 " && cache.All() == "a=1:1 c=3:1 d=4:1 ");
  cache.Put("e", "5", 2);
  CHECK(cache.Deleted() == "a=1 d=4 " && cache.All() == "c=3:1 e=5:2 ");
  CHECK(cache.ValueOf(held) == "3" && cache.Get("c") == "3");
  CHECK(!cache->Release(held));
  cache.Put("f", "6");
  CHECK(cache.Deleted() == "e=5 " && cache.All() == "c=3:1 f=6:1 ");
}

void ErasesWhatIsHeld(NewCache new_cache) {
  const Tested cache = new_cache(1000, false);
  Handle* one = cache.Insert("a", "1", 3);
  Handle* two = cache.Lookup("a");
  CHECK(one == two && cache.Counts(3, 3, 1) && cache.All() == "a=1:3 ");
  cache.Erase("a");
  CHECK(cache.Get("a") == "none" && cache.Deleted().empty() && cache.All().empty());
  CHECK(cache.ValueOf(one) == "1" && cache.Counts(3, 3, 0));
  CHECK(!cache->Release(one) && cache.Deleted().empty());
  CHECK(cache->Release(two) && cache.Deleted() == "a=1 " && cache.Counts(0, 0, 0));
  cache.Put("a", "2");
  CHECK(cache.Get("a") == "2");
}

void ReplacesWhatIsHeld(NewCache new_cache) {
  const Tested cache = new_cache(1000, false);
  Handle* old = cache.Insert("a", "1", 3);
  Handle* fresh = cache.Insert("a", "2", 4);
  CHECK(cache.IsOverwritten() && cache.Counts(7, 7, 1) && cache.All() == "a=2:4 ");
  CHECK(cache.ValueOf(old) == "1" && cache.ValueOf(fresh) == "2" && cache.Get("a") == "2");
  cache.Put("a", "3", 5);
  CHECK(cache.IsOverwritten() && cache.Counts(12, 7, 1) && cache.All() == "a=3:5 ");
  CHECK(cache->Release(old) && cache.Deleted() == "a=1 " && cache.Get("a") == "3");
  CHECK(cache->Release(fresh) && cache.Deleted() == "a=2 " && cache.Counts(5, 0, 1));
}

void Refs(NewCache new_cache) {
  const Tested cache = new_cache(1000, false);
  Handle* handle = cache.Insert("a", "1");
  CHECK(cache->Ref(handle));
  CHECK(!cache->Release(handle) && cache.Counts(1, 1, 1));
  CHECK(cache->Ref(handle));
  cache.Erase("a");
  // The key does not find it any more.
  CHECK(cache->Ref(handle) && cache.Counts(1, 1, 0));
  CHECK(!cache->Release(handle) && !cache->Release(handle) && cache.Deleted().empty());
  CHECK(cache->Release(handle) && cache.Deleted() == "a=1 ");
}

void ErasesWithTheLastRelease(NewCache new_cache) {
  const Tested cache = new_cache(1000, false);
  Handle* handle = cache.Insert("a", "1");
  cache->Ref(handle);
  CHECK(!cache->Release(handle, true) && cache.Get("a") == "1");
  CHECK(cache->Release(handle, true) && cache.Deleted() == "a=1 " && cache.Counts(0, 0, 0));
  CHECK(cache.Get("a") == "none" && cache.All().empty());
  handle = cache.Insert("a", "2");
  cache.Erase("a");
  CHECK(cache->Release(handle, true) && cache.Deleted() == "a=2 ");
}

void EvictsAtReleases(NewCache new_cache) {
  const Tested cache = new_cache(16, false);
  cache.Put("b", "2");
  Handle* large = cache.Insert("a", "1", 100);
  CHECK(cache.Deleted() == "b=2 " && cache.Get("a") == "1" && cache.Counts(100, 100, 1));
  CHECK(cache->Release(large) && cache.Deleted() == "a=1 " && cache.Counts(0, 0, 0));
}

void FindsWhatIsHeldAtCapacity0(NewCache new_cache) {
  const Tested cache = new_cache(0, false);
  Handle* held = cache.Insert("a", "1");
  CHECK(cache.Get("a") == "1");
  CHECK(cache->Release(held) && cache.Get("a") == "none" && cache.Deleted() == "a=1 ");
  cache.Put("b", "2");
  CHECK(cache.IsNew() && cache.Deleted() == "b=2 " && cache.Counts(0, 0, 0));
}

// Without a handle and without room, the value is deleted as if its entry had been evicted.
void HasNoRoom(NewCache new_cache) {
  const Tested cache = new_cache(10, false);
  Handle* held = cache.Insert("a", "1", 6);
  cache.Put("b", "2", 2);
  cache.Put("c", "3", 4);
  CHECK(cache.IsNew() && cache.Deleted() == "b=2 " && cache.Counts(10, 6, 2));
  cache.Put("d", "4", 5);
  CHECK(cache.IsNew() && cache.Deleted() == "c=3 d=4 " && cache.Counts(6, 6, 1));
  // The old entry of the key stays if it is pinned.
  cache.Put("a", "5", 5);
  CHECK(cache.IsNew() && cache.Deleted() == "a=5 " && cache.Get("a") == "1");
  cache->Release(held);
  // It does not if it is idle.
  cache.Put("a", "6", 11);
  CHECK(cache.Deleted() == "a=1 a=6 " && cache.Counts(0, 0, 0));
}

void IsStrict(NewCache new_cache) {
  const Tested cache = new_cache(10, true);
  CHECK(cache->HasStrictCapacityLimit() && cache->GetCapacity() == 10);
  Handle* held = cache.Insert("a", "1", 6);
  CHECK(cache.Insert("b", "2", 5) == nullptr && cache.IsRefused() && cache.Counts(6, 6, 1));
  CHECK(cache.Insert("a", "2", 5) == nullptr && cache.IsRefused() && cache.Get("a") == "1");
  CHECK(cache.Deleted().empty());
  // What handle pointed to before is not left.
  Handle* handle = held;
  CHECK(Insert(cache.get(), cache.Key("b"), nullptr, 5, NoHelper(), &handle).IsMemoryLimit());
  CHECK(handle == nullptr);
  cache.Put("b", "2", 5);
  CHECK(cache.IsNew() && cache.Deleted() == "b=2 " && cache.Counts(6, 6, 1));
  cache.Put("b", "3", 4);
  CHECK(cache.IsNew() && cache.Get("b") == "3" && cache.Counts(10, 6, 2));
  Handle* exact = cache.Insert("c", "4", 4);
  CHECK(exact != nullptr && cache.Deleted() == "b=3 " && cache.Counts(10, 10, 2));
  // An entry that keys no longer find counts while it is pinned.
  cache.Erase("a");
  CHECK(cache.Insert("d", "5", 1) == nullptr && cache.IsRefused());
  CHECK(cache->Release(held) && cache.Deleted() == "a=1 ");
  cache->Release(exact);
  cache->SetStrictCapacityLimit(false);
  CHECK(!cache->HasStrictCapacityLimit());
  Handle* large = cache.Insert("d", "6", 11);
  CHECK(large != nullptr && cache.IsNew() && cache->Release(large));
  cache->SetStrictCapacityLimit(true);
  CHECK(cache.Insert("d", "7", 11) == nullptr && cache.IsRefused());
}

void ChangesItsCapacity(NewCache new_cache) {
  const Tested cache = new_cache(4, false);
  for (const char* name : {"a", "b", "c"}) cache.Put(name, "1");
  Handle* held = cache.Insert("d", "1");
  cache->SetCapacity(2);
  CHECK(cache->GetCapacity() == 2 && cache.Deleted() == "a=1 b=1 " && cache.Counts(2, 1, 2));
  cache->SetCapacity(0);
  CHECK(cache.Deleted() == "c=1 " && cache.Counts(1, 1, 1) && cache.Get("d") == "1");
  cache->SetCapacity(3);
  CHECK(!cache->Release(held) && cache.Get("d") == "1");
  for (const char* name : {"e", "f", "g"}) cache.Put(name, "1");
  CHECK(cache.Deleted() == "d=1 " && cache.Counts(3, 0, 3));
}

// All entries that keys find, pinned or not, each once.
void AppliesToAll(NewCache new_cache) {
  const Tested cache = new_cache(1000, false);
  CHECK(cache.All().empty());
  cache.Put("a", "1", 2);
  Handle* held = cache.Insert("b", "2", 3);
  Handle* erased = cache.Insert("c", "3", 4);
  cache.Erase("c");
  Handle* replaced = cache.Insert("d", "4", 5);
  cache.Put("d", "5", 6);
  cache.Put("e", "6", 7);
  cache.Erase("e");
  cache.Put("f", "7", 8);
  CHECK(cache.Counts(28, 12, 4));
  CHECK(cache.All() == "a=1:2 b=2:3 d=5:6 f=7:8 ");
#if ROCKSDB_MAJOR == 7
  static std::size_t sum;
  sum = 0;
  cache->ApplyToAllCacheEntries([](void*, std::size_t charge) { sum += charge; }, true);
  CHECK(sum == 19);
#endif
  for (Handle* handle : {held, erased, replaced}) cache->Release(handle);
  CHECK(cache.All() == "a=1:2 b=2:3 d=5:6 f=7:8 ");
  cache->EraseUnRefEntries();
  CHECK(cache.All().empty() && cache.Counts(0, 0, 0));
}

#if ROCKSDB_MAJOR == 7

// Of a helper only the deleter is called, and each handle is ready.
void TakesHelpers(NewCache new_cache) {
  const Cache::CacheItemHelper helper(nullptr, nullptr, Tested::Deleter());
  const Tested cache = new_cache(1000, false);
  const Cache::CreateCallback create = [](const void*, std::size_t, void**, std::size_t*) {
    return Status::Corruption();
  };
  const Cache::CacheItemHelper* none = nullptr;
  std::string value = "not inserted";
  CHECK(cache->Insert(cache.Key("a"), &value, none, 1).IsInvalidArgument());
  Handle* handle = nullptr;
  CHECK(cache->Insert(cache.Key("a"), new Named{"a", "1"}, &helper, 3, &handle).ok());
  CHECK(cache->IsReady(handle) && cache->GetCharge(handle) == 3);
  CHECK(!cache->Release(handle, true, false));
  handle = cache->Lookup(cache.Key("a"), &helper, create, Priority::LOW, false);
  CHECK(handle != nullptr && cache->IsReady(handle));
  std::vector<Handle*> all = {handle};
  cache->Wait(handle);
  cache->WaitAll(all);
  CHECK(cache.ValueOf(handle) == "1");
  // A value that was of no use may be evicted, but not while another handle pins it.
  cache->Ref(handle);
  CHECK(!cache->Release(handle, false, true));
  CHECK(cache->Release(handle, true, true) && cache.Deleted() == "a=1 ");
  CHECK(cache->Lookup(cache.Key("b"), &helper, create, Priority::LOW, true) == nullptr);
}

void ForThisInterface(NewCache new_cache) { TakesHelpers(new_cache); }

#else

// Entries that count, and that no key finds.
void CreatesStandalone(NewCache new_cache) {
  const Tested cache = new_cache(1000, false);
  cache.Put("a", "1", 300);
  cache.Put("b", "2", 300);
  Handle* one = cache.Standalone("a", "3", 500, false);
  // An older entry made room for it, and the key finds what it did.
  CHECK(cache.Deleted() == "a=1 " && cache.Get("a") == "none" && cache.All() == "b=2:300 ");
  CHECK(cache.ValueOf(one) == "3" && cache->GetCharge(one) == 500 && cache.Counts(800, 500, 1));
  CHECK(HelperOf(cache.get(), one) == Tested::Deleter());
  Handle* two = cache.Standalone("a", "4", 7, false);
  cache.Put("a", "5", 100);
  CHECK(one != two && cache.Get("a") == "5" && cache.Counts(907, 507, 2));
  cache.Erase("a");
  CHECK(cache.Deleted() == "a=5 ");
  CHECK(cache->Ref(one) && !cache->Release(one) && cache.Deleted().empty());
  CHECK(cache->Release(one) && cache.Deleted() == "a=3 " && cache.Counts(307, 7, 1));
  // It is above the capacity, if the limit is not strict.
  one = cache.Standalone("c", "6", 2000, true);
  CHECK(cache->GetCharge(one) == 2000 && cache.Deleted() == "b=2 " && cache.Counts(2007, 2007, 0));
  CHECK(cache->Release(two, true) && cache->Release(one) && cache.Deleted() == "a=4 c=6 ");
  CHECK(cache.Counts(0, 0, 0));
}

void CreatesStandaloneStrictly(NewCache new_cache) {
  const Tested cache = new_cache(1000, true);
  Handle* held = cache.Insert("a", "1", 600);
  CHECK(cache.Standalone("a", "2", 401, false) == nullptr && cache.Deleted().empty());
  CHECK(cache.Counts(600, 600, 1));
  // What may be uncharged is there all the same.
  Handle* uncharged = cache.Standalone("a", "3", 401, true);
  CHECK(cache->GetCharge(uncharged) == 0 && cache.ValueOf(uncharged) == "3");
  CHECK(cache.Counts(600, 600, 1) && cache.Get("a") == "1");
  CHECK(cache->Ref(uncharged) && !cache->Release(uncharged));
  CHECK(cache->Release(uncharged) && cache.Deleted() == "a=3 ");
  Handle* exact = cache.Standalone("a", "4", 400, true);
  CHECK(cache->GetCharge(exact) == 400 && cache.Counts(1000, 1000, 1));
  CHECK(cache->Release(exact) && cache.Deleted() == "a=4 ");
  cache->Release(held);
}

void AppliesToHandles(NewCache new_cache) {
  const Tested cache = new_cache(1000, true);
  std::string seen;
  const auto see = [&](const Slice& key, void* value, std::size_t charge, Helper helper) {
    CHECK(helper == Tested::Deleter());
    seen += key.ToString().c_str() + ("=" + static_cast<Named*>(value)->value) + ":" +
            std::to_string(charge) + " ";
  };
  Handle* all[] = {cache.Insert("a", "1", 600), cache.Standalone("b", "2", 401, true)};
  for (Handle* handle : all) cache->ApplyToHandle(cache.get(), handle, see);
  CHECK(seen == "a=1:600 b=2:0 ");
  for (Handle* handle : all) cache->Release(handle);
}

// There is no secondary cache, so no look-up is pending.
void LooksUpAtOnce(NewCache new_cache) {
  const Tested cache = new_cache(1000, false);
  cache.Put("a", "1", 3);
  const std::string keys[] = {cache.Key("a"), cache.Key("b")};
  Cache::AsyncLookupHandle looked[2];
  for (int i : {0, 1}) {
    looked[i].key = keys[i];
    cache->StartAsyncLookup(looked[i]);
    CHECK(looked[i].IsReady() && !looked[i].IsPending());
  }
  cache->WaitAll(looked, 2);
  Handle* handle = looked[0].Result();
  CHECK(cache.ValueOf(handle) == "1" && looked[1].Result() == nullptr);
  // A value that was of no use may be evicted, but not while another handle pins it.
  cache->Ref(handle);
  CHECK(!cache->Release(handle, false, true));
  CHECK(cache->Release(handle, true, true) && cache.Deleted() == "a=1 ");
}

void ForThisInterface(NewCache new_cache) {
  for (const auto test :
       {CreatesStandalone, CreatesStandaloneStrictly, AppliesToHandles, LooksUpAtOnce}) {
    test(new_cache);
    Tested::Deleted();
  }
}

#endif

// Deleters run without the mutex, so they may call the cache.
struct Caller {
  const Tested* cache;
  int calls;
};

void CallCache(const Slice*, void* value) {
  auto* caller = static_cast<Caller*>(value);
  caller->cache->Erase("b");
  caller->calls += (*caller->cache)->GetUsage() == 0;
}

void DeletersMayCall(NewCache new_cache) {
  const Tested cache = new_cache(1000, false);
  Caller caller = {&cache, 0};
  for (int way = 0; way < 5; way++) {
    Handle* handle = nullptr;
    const Helper helper = HelperFor<CallCache>();
    CHECK(Insert(cache.get(), cache.Key("a"), &caller, 1, helper, &handle).ok());
    cache.Put("b", "1");
    if (way == 0) cache->Release(handle, true);
    if (way > 0) cache->Release(handle);
    if (way == 1) cache.Erase("a");
    if (way == 2) cache->EraseUnRefEntries();
    if (way == 3) cache->SetCapacity(0);
    if (way == 4) cache.Put("c", "1", 0);
    cache->SetCapacity(1000);
    cache->EraseUnRefEntries();
  }
  CHECK(caller.calls == 5);
}

void Common(NewCache new_cache) {
  for (const auto test :
       {HitsAndMisses, TellsOfHandles, ErasesWhatIsHeld, ReplacesWhatIsHeld, Refs,
        ErasesWithTheLastRelease, EvictsAtReleases, FindsWhatIsHeldAtCapacity0, HasNoRoom,
        IsStrict, AppliesToAll, ForThisInterface, DeletersMayCall}) {
    test(new_cache);
    Tested::Deleted();
  }
}

// Those for which entries must leave in the exact order of their last releases.
void InOrder(NewCache new_cache) {
  for (const auto test : {EvictsByLastRelease, ChangesItsCapacity}) {
    test(new_cache);
    Tested::Deleted();
  }
}

// Where the caches differ: what RocksDB's own does, and what the others do.

// Makes room for a new entry of a key without counting the old one, if that is idle.
void ReplacesWithoutEvicting(NewCache new_cache) {
  const bool is_own = new_cache == Own;
  const Tested cache = new_cache(3, false);
  for (const char* name : {"a", "b", "c"}) cache.Put(name, "1");
  cache.Put("b", "2");
  CHECK(cache.IsOverwritten());
  CHECK(cache.Deleted() == (is_own ? "a=1 b=1 " : "b=1 "));
  CHECK(cache.All() == (is_own ? "b=2:1 c=1:1 " : "a=1:1 b=2:1 c=1:1 "));
  cache->SetCapacity(2);
  Tested::Deleted();
  // The oldest one is that of the key.
  cache.Put("c", "2");
  CHECK(cache.IsOverwritten() != is_own && cache.Deleted() == "c=1 ");
  CHECK(cache.All() == "b=2:1 c=2:1 ");
}

void RefusesWithoutEvicting(NewCache new_cache) {
  const bool is_own = new_cache == Own || new_cache == Clock;
  const Tested cache = new_cache(10, true);
  Handle* held = cache.Insert("a", "1", 6);
  cache.Put("b", "2", 2);
  cache.Put("c", "3", 2);
  CHECK(cache.Insert("b", "4", 5) == nullptr && cache.IsRefused());
  CHECK(cache.Deleted() == (is_own ? "b=2 c=3 " : ""));
  CHECK(cache.All() == (is_own ? "a=1:6 " : "a=1:6 b=2:2 c=3:2 "));
  cache->EraseUnRefEntries();
  Tested::Deleted();
  cache.Put("b", "2", 2);
  cache.Put("c", "3", 2);
  // Without a handle, the key must not find an older value afterwards.
  cache.Put("b", "5", 5);
  CHECK(cache.IsNew() && cache.Deleted() == (is_own ? "b=2 b=5 c=3 " : "b=2 b=5 "));
  CHECK(cache.Get("b") == "none" && cache.Get("c") == (is_own ? "none" : "3"));
  cache->Release(held);
}

void CountsACharge0As1(NewCache new_cache) {
  const bool is_own = new_cache == Own;
  const Tested cache = new_cache(10, false);
  Handle* handle = cache.Insert("a", "1", 0);
  const std::size_t counted = is_own ? 0 : 1;
  CHECK(cache.Counts(counted, counted, 1));
  CHECK(cache->GetCharge(handle) == counted && cache->GetUsage(handle) == counted);
  cache->Release(handle);
}

void Differences(NewCache new_cache) {
  for (const auto test : {RefusesWithoutEvicting, CountsACharge0As1}) {
    test(new_cache);
    Tested::Deleted();
  }
}

// Tests for these caches only.

// An entry of an Insert that the library refuses is not cached, and replaces the old one all the
// same.
void ReturnsWhatItDoesNotCache(NewCache new_cache) {
  const Tested cache = new_cache(1000, false);
  Handle* old = cache.Insert("a", "1");
  Handle* fresh = cache.Insert("a", "2", SIZE_MAX);
  CHECK(fresh != nullptr && cache.IsOverwritten() && cache.Counts(1, 1, 0));
  CHECK(cache.ValueOf(fresh) == "2" && cache.Get("a") == "none" && cache.All().empty());
  CHECK(cache->GetCharge(fresh) == SIZE_MAX);
  CHECK(HelperOf(cache.get(), fresh) == Tested::Deleter());
  CHECK(cache->Ref(fresh) && cache->Ref(fresh));
  CHECK(!cache->Release(fresh) && !cache->Release(fresh, true) && cache.Deleted().empty());
  CHECK(cache->Release(fresh) && cache.Deleted() == "a=2 ");
  CHECK(cache.ValueOf(old) == "1" && cache->Release(old) && cache.Deleted() == "a=1 ");
  CHECK(cache.Counts(0, 0, 0));
}

// Nothing is replaced if the key has no entry.
void ReplacesNothingIfItOverflows(NewCache new_cache) {
  const Tested cache = new_cache(1000, false);
  constexpr std::size_t kHalf = SIZE_MAX / 2 + 1;
  Handle* one = cache.Insert("a", "1", kHalf);
  Handle* two = cache.Insert("b", "2", kHalf);
  CHECK(two != nullptr && cache.IsNew() && cache.Counts(kHalf, kHalf, 1));
  CHECK(cache.Get("b") == "none" && cache->Release(two) && cache.Deleted() == "b=2 ");
  CHECK(cache.Get("a") == "1" && cache->Release(one) && cache.Deleted() == "a=1 ");
}

#if ROCKSDB_MAJOR > 7

// An entry that cannot be counted is uncharged, and there is none without memory for it.
void CreatesStandaloneWithoutMemory(NewCache new_cache) {
  for (const bool is_strict : {false, true}) {
    for (const bool allow_uncharged : {false, true}) {
      int nulls = 0, uncharged = 0;
      bool was_refused = true;
      for (int request = 1; was_refused; request++) {
        const Tested cache = new_cache(1000, is_strict);
        const std::string key = cache.Key("a key");
        auto* value = new Named{"a key", "1"};
        const Helper deleter = Tested::Deleter();
        requests_until_refusal = request;
        Handle* handle =
            CreateStandalone(cache.get(), key, value, 7, deleter, allow_uncharged);
        was_refused = std::exchange(requests_until_refusal, 0) == 0;
        if (handle == nullptr) {
          CHECK(was_refused && Tested::Deleted().empty() && cache.Counts(0, 0, 0));
          delete value;
          nulls++;
          continue;
        }
        const std::size_t charge = cache->GetCharge(handle);
        CHECK(charge == 7 || (charge == 0 && was_refused));
        CHECK(cache.Counts(charge, charge, 0) && cache.Get("a key") == "none");
        uncharged += charge == 0;
        CHECK(cache->Release(handle) && Tested::Deleted() == "a key=1 ");
      }
      const bool has_uncharged = !is_strict || allow_uncharged;
      CHECK(has_uncharged ? nulls == 1 && uncharged > 0 : nulls > 1 && uncharged == 0);
    }
  }
}

// Keys that the cache takes for standalone entries remain the user's.
void CreatesStandaloneBesideEachKey(NewCache new_cache) {
  const Tested cache = new_cache(1000, false);
  std::vector<Handle*> all;
  const auto put = [&](std::uint64_t first) {
    const std::uint64_t words[2] = {first, 0};
    cache.Put(std::string(reinterpret_cast<const char*>(words), sizeof words), "put");
  };
  for (std::uint64_t n = 0; n < 4; n++) {
    put(n);
    all.push_back(cache.Standalone("a", std::to_string(n), 1, false));
  }
  CHECK(cache.Counts(8, 4, 4) && Tested::Deleted().empty());
  put(0);
  CHECK(cache.IsOverwritten());
  for (std::size_t n = 0; n < 4; n++) CHECK(cache.ValueOf(all[n]) == std::to_string(n));
  for (Handle* handle : all) CHECK(cache->Release(handle));
  CHECK(cache.Counts(4, 0, 4));
}

#endif

void DeletesWhatIsLeft(NewCache new_cache) {
  {
    const Tested cache = new_cache(1000, false);
    cache.Put("a", "1");
    cache.Insert("b", "2");
    cache.Insert("c", "3");
    cache.Erase("c");
  }
  CHECK(Tested::Deleted() == "a=1 b=2 c=3 ");
}

// Refuses each request for memory of an Insert in turn, until there are no more.
void RefusesMemory(NewCache new_cache) {
  int refused = 0, uncached = 0;
  for (const bool has_handle : {false, true}) {
    for (const bool is_there : {false, true}) {
      bool was_refused = true;
      for (int request = 1; was_refused; request++) {
        const Tested cache = new_cache(1000, false);
        Tested::Deleted();
        if (is_there) cache.Put("a key", "1");
        auto* value = new Named{"a key", "2"};
        const std::string key = cache.Key("a key");
        Handle* handle = nullptr;
        const Helper deleter = Tested::Deleter();
        requests_until_refusal = request;
        const Status status =
            Insert(cache.get(), key, value, 1, deleter, has_handle ? &handle : nullptr);
        was_refused = std::exchange(requests_until_refusal, 0) == 0;
        const std::string found = cache.Get("a key");
        if (status.ok()) {
          // It is cached unless the refusal prevents it. In either case the old entry is gone.
          const bool is_cached = cache.Counts(1, has_handle, 1);
          CHECK(is_cached || (was_refused && cache.Counts(0, 0, 0)));
          CHECK(found == (is_cached ? "2" : "none"));
          CHECK(status.IsOkOverwritten() == is_there && (handle != nullptr) == has_handle);
          if (handle != nullptr) {
            CHECK(cache.ValueOf(handle) == "2" && cache->Release(handle) == !is_cached);
          }
          const std::string left = is_cached ? "" : "a key=2 ";
          CHECK(Tested::Deleted() == (is_there ? "a key=1 " + left : left));
          uncached += !is_cached;
        } else {
          CHECK(was_refused && status.IsMemoryLimit() && handle == nullptr);
          CHECK(found == (is_there ? "1" : "none"));
          // Since RocksDB 8 the value stays the caller's without a handle too.
          const bool is_left = has_handle || ROCKSDB_MAJOR > 7;
          CHECK(Tested::Deleted() == (is_left ? "" : "a key=2 "));
          if (is_left) delete value;
          refused++;
        }
      }
    }
  }
  // The clock has a place for the entry that it replaces.
  CHECK(refused == 4 && uncached >= (new_cache == Clock ? 2 : 4));
}

// Without memory for a list of the entries, none is visited. The clock needs no list.
void VisitsWithoutMemory(NewCache new_cache) {
  const Tested cache = new_cache(10, false);
  cache.Put("a", "1");
  cache.Put("b", "2");
  are_all_refused = true;
  const std::size_t visited = cache.Visited();
  are_all_refused = false;
  CHECK(visited == (new_cache == Clock ? 2 : 0));
  CHECK(cache.All() == "a=1:1 b=2:1 ");
}

// Refuses each request for memory of New in turn: at least as many as three shards make.
template <class OneCache>
void RefusesToOpen(int least) {
  int refused = 0;
  bool was_refused = true;
  for (int request = 1; was_refused; request++) {
    requests_until_refusal = request;
    const std::unique_ptr<OneCache> cache(OneCache::New({{100, 3, 1}}));
    was_refused = std::exchange(requests_until_refusal, 0) == 0;
    CHECK((cache == nullptr) == was_refused);
    refused += was_refused;
  }
  CHECK(refused >= least);
}

void ForThisCache(NewCache new_cache) {
  for (const auto test :
       {ReturnsWhatItDoesNotCache, ReplacesNothingIfItOverflows, DeletesWhatIsLeft, RefusesMemory,
        VisitsWithoutMemory}) {
    test(new_cache);
    Tested::Deleted();
  }
#if ROCKSDB_MAJOR > 7
  CreatesStandaloneWithoutMemory(new_cache);
  CreatesStandaloneBesideEachKey(new_cache);
  Tested::Deleted();
#endif
}

// The clock refuses keys that have not 16 bytes.
void RefusesOtherKeys() {
  const Tested cache(lru::NewRocksDBClockCache(10, 1), false);
  for (const char* name : {"", "a", "seventeen letters"}) {
    CHECK(cache.Insert(name, "1") == nullptr && cache.IsNotSupported());
    CHECK(cache.Standalone(name, "2", 1, true) == nullptr);
    CHECK(cache.Lookup(name) == nullptr && cache.Deleted().empty());
    cache.Erase(name);
    // Without a handle, the value is deleted in 7.8 and left to the caller in 9.10.
    auto* value = new Named{name, "3"};
    CHECK(Insert(cache.get(), name, value, 1, Tested::Deleter()).IsNotSupported());
    if (ROCKSDB_MAJOR > 7) Tested::Delete(nullptr, value);
    CHECK(cache.Deleted() == name + std::string("=3 ") && cache.Counts(0, 0, 0));
  }
}

// A thread takes the mutex if there is no memory for its readers, or for the table of them.
void GoesOnWithoutReaders() {
  const Tested cache = Clock(100, false);
  const auto uses = [&] {
    Handle* handle = cache.Lookup("a");
    CHECK(handle != nullptr && cache.Lookup("e") == nullptr);
    CHECK(cache->Ref(handle) && cache->GetPinnedUsage() == 1);
    CHECK(!cache->Release(handle) && cache->GetPinnedUsage() == 1);
    CHECK(cache.Visited() == 4 && cache->GetPinnedUsage() == 1);
    CHECK(!cache->Release(handle) && cache->GetPinnedUsage() == 0);
    for (const char* name : {"b", "c"}) {
      handle = cache.Lookup(name);
      cache.Erase(name);
      CHECK(cache.Lookup(name) == nullptr && cache->Release(handle));
    }
    CHECK(cache->Release(cache.Lookup("d"), true) && cache.Counts(1, 0, 1));
  };
  const auto uses_without_memory = [&] {
    are_all_refused = true;
    uses();
    are_all_refused = false;
  };
  for (const bool is_other_thread : {false, true}) {
    // No Put uses the readers of a thread.
    for (const char* name : {"a", "b", "c", "d"}) cache.Put(name, "1");
    Tested::Deleted();
    if (is_other_thread) {
      std::thread(uses_without_memory).join();
    } else {
      uses_without_memory();
    }
    CHECK(cache.Deleted() == "b=1 c=1 d=1 " && cache.Get("a") == "1");
  }
}

// What is released while a new entry finds no room leaves with the call that adds that one.
void EvictsWhatIsReleasedMeanwhile() {
  for (const bool is_standalone : {false, true}) {
    // In 7.8 there are no such entries.
    if (is_standalone && ROCKSDB_MAJOR == 7) continue;
    const Tested cache = Clock(10, false);
    Tested::Deleted();
    Handle* one = cache.Insert("a", "1", 6);
    cache.Get("a");  // this makes the readers
    before_add = [&] { CHECK(!cache->Release(one)); };
    Handle* two = is_standalone ? cache.Standalone("b", "2", 6, false) : cache.Insert("b", "2", 6);
    CHECK(!before_add && cache.Deleted() == "a=1 " && cache.Counts(6, 6, is_standalone ? 0 : 1));
    cache->Release(two);
  }
}

// While the total is above the capacity, only the last Release of an entry takes the mutex, and
// evicts the entry.
void EvictsWithTheLastRelease() {
  const Tested cache = Clock(10, false);
  Tested::Deleted();
  Handle* one = cache.Insert("a", "1", 6);
  Handle* two = cache.Insert("b", "2", 6);
  CHECK(cache.Get("a") == "1" && cache->Ref(one) && cache->Ref(one));
  before_add = [&] { CHECK(!cache->Release(one)); };
  Handle* three = cache.Insert("c", "3", 6);
  CHECK(!before_add && !cache->Release(one) && cache.Counts(18, 18, 3));
  CHECK(cache->Release(one) && cache->Release(two) && cache.Deleted() == "a=1 b=2 ");
  CHECK(!cache->Release(three) && cache.Counts(6, 0, 1));
}

// The callback of ApplyToAllEntries may call the clock.
void VisitorsMayCall() {
  const Tested cache = Clock(100, false);
  for (int n = 0; n < 20; n++) cache.Put("put" + std::to_string(n), "1");
  std::size_t visited = 0;
  cache->ApplyToAllEntries(
      [&](const Slice& key, void* value, std::size_t charge, Helper) {
        const auto* named = static_cast<Named*>(value);
        CHECK(charge == 1 && named->value == "1");
        cache->Erase(key);
        CHECK(cache->Lookup(key) == nullptr && named->value == "1");
        visited++;
      },
      {});
  CHECK(visited == 20 && cache.Counts(0, 0, 0));
}

// A cache of blocks returns entries of other keys, and does not cache them.
void CachesBlocksOnly() {
  for (const bool is_strict : {false, true}) {
    const Tested cache(lru::NewRocksDBBlockCache(10, 1, is_strict), false);
    Handle* handle = cache.Insert("a", "1", 20);
    CHECK(cache.IsNew() && cache.ValueOf(handle) == "1" && cache.Get("a") == "none");
    CHECK(cache.Counts(0, 0, 0) && cache.All().empty());
    cache.Erase("a");
    CHECK(cache->Ref(handle) && !cache->Release(handle));
    CHECK(cache->Release(handle) && cache.Deleted() == "a=1 ");
    cache.Put("a", "2");
    CHECK(cache.IsNew() && cache.Deleted() == "a=2 ");
  }
}

void HasShards() {
  using Blocks = lru::RocksDBBlockCache;
  constexpr std::size_t kMiB = 1 << 20;
  CHECK(Blocks::ShardsFor(0) == 1 && Blocks::ShardsFor(kMiB - 1) == 1);
  CHECK(Blocks::ShardsFor(kMiB) == 2 && Blocks::ShardsFor(32 * kMiB - 1) == 63);
  CHECK(Blocks::ShardsFor(32 * kMiB) == 64 && Blocks::ShardsFor(SIZE_MAX) == 64);
  // Four blocks are more than 512 KiB.
  CHECK(Blocks::ShardsFor(8 * kMiB, kMiB) == 2 && Blocks::ShardsFor(kMiB, 0) == 2);
  CHECK(Blocks::ShardsFor(SIZE_MAX, SIZE_MAX) == 1);
  const auto options = [](const std::shared_ptr<Cache>& cache) {
    return cache->GetPrintableOptions();
  };
  CHECK(options(lru::NewRocksDBBlockCache(8 * kMiB)) ==
        "    capacity : 8388608\n    shards : 16\n    strict_capacity_limit : 0\n"
        "    charges_metadata : 0\n");
  // Numbers of shards that are not possible.
  CHECK(options(lru::NewRocksDBCache(7, 0, true)) ==
        "    capacity : 7\n    shards : 1\n    strict_capacity_limit : 1\n"
        "    charges_metadata : 0\n");
  CHECK(options(lru::NewRocksDBCache(7, 1000)) ==
        "    capacity : 7\n    shards : 64\n    strict_capacity_limit : 0\n"
        "    charges_metadata : 0\n");
  CHECK(std::strcmp(lru::NewRocksDBCache(1)->Name(), "lru::RocksDBCache") == 0);
  CHECK(std::strcmp(lru::NewRocksDBBlockCache(1)->Name(), "lru::RocksDBBlockCache") == 0);
  // Shares are rounded up.
  Handle* handle = nullptr;
  const std::unique_ptr<lru::RocksDBCache> four(lru::RocksDBCache::New(5, 4, true));
  CHECK(Insert(four.get(), "two", nullptr, 2, NoHelper(), &handle).ok());
  CHECK(four->Release(handle, true));
  CHECK(Insert(four.get(), "three", nullptr, 3, NoHelper(), &handle).IsMemoryLimit());
  // Each shard has a share of the capacity, and all are looked at.
  const std::unique_ptr<lru::RocksDBCache> cache(
      lru::RocksDBCache::New({{640, 64}, true}, lru::Seed(1)));
  CHECK(Insert(cache.get(), "too large", nullptr, 11, NoHelper(), &handle).IsMemoryLimit());
  for (int n = 0; n < 1000; n++) {
    CHECK(Insert(cache.get(), std::to_string(n), nullptr, 1, NoHelper()).ok());
  }
  CHECK(cache->GetUsage() > 500 && cache->GetUsage() <= 640);
  CHECK(cache->GetOccupancyCount() == cache->GetUsage());
  cache->SetCapacity(64);
  CHECK(cache->GetCapacity() == 64 && cache->GetUsage() == 64);
  std::size_t visited = 0;
  cache->ApplyToAllEntries([&](const Slice&, void*, std::size_t, Helper) { visited++; }, {});
  CHECK(visited == 64);
  cache->EraseUnRefEntries();
  CHECK(cache->GetUsage() == 0 && cache->GetOccupancyCount() == 0);
}

// The same of the clock.
void ClockHasShards() {
  using OneCache = lru::RocksDBClockCache;
  constexpr std::size_t kMiB = 1 << 20;
  for (const std::size_t capacity : {std::size_t{0}, kMiB, 9 * kMiB, SIZE_MAX}) {
    CHECK(OneCache::ShardsFor(capacity) == lru::RocksDBBlockCache::ShardsFor(capacity));
    CHECK(OneCache::ShardsFor(capacity, kMiB) ==
          lru::RocksDBBlockCache::ShardsFor(capacity, kMiB));
  }
  CHECK(lru::NewRocksDBClockCache(8 * kMiB)->GetPrintableOptions() ==
        "    capacity : 8388608\n    shards : 16\n    strict_capacity_limit : 0\n"
        "    charges_metadata : 0\n");
  CHECK(lru::NewRocksDBClockCache(7, 0, true)->GetPrintableOptions() ==
        "    capacity : 7\n    shards : 1\n    strict_capacity_limit : 1\n"
        "    charges_metadata : 0\n");
  lru::RocksDBCacheOptions options{{7, 1000}};
  options.charges_metadata = true;
  CHECK(lru::NewRocksDBClockCache(options)->GetPrintableOptions() ==
        "    capacity : 7\n    shards : 64\n    strict_capacity_limit : 0\n"
        "    charges_metadata : 1\n");
  CHECK(std::strcmp(lru::NewRocksDBClockCache(1)->Name(), "lru::RocksDBClockCache") == 0);
  const Tested cache(std::shared_ptr<Cache>(OneCache::New({{640, 64}, true}, lru::Seed(1))), true);
  CHECK(cache.Insert("too large", "1", 11) == nullptr && cache.IsRefused());
  for (int n = 0; n < 1000; n++) cache.Put(std::to_string(n), "1");
  CHECK(cache->GetUsage() > 500 && cache->GetUsage() <= 640);
  CHECK(cache->GetOccupancyCount() == cache->GetUsage() && cache.Visited() == cache->GetUsage());
  const std::size_t places = cache->GetTableAddressCount();
  CHECK(places >= cache->GetUsage() && places <= 640);
  cache->SetCapacity(64);
  CHECK(cache->GetCapacity() == 64 && cache->GetUsage() == 64 && cache.Visited() == 64);
  cache->EraseUnRefEntries();
  CHECK(cache.Counts(0, 0, 0));
  Tested::Deleted();
}

// An entry counts its memory too, if the cache is asked to charge it.
template <class OneCache>
void ChargesItsMemory() {
  const std::string a(16, 'a'), b(16, 'b'), c(16, 'c');
  lru::RocksDBCacheOptions options{{1000000, 1}};
  options.charges_metadata = true;
  const std::unique_ptr<Cache> cache(OneCache::New(options));
  Handle* handle = nullptr;
  CHECK(Insert(cache.get(), a, nullptr, 0, NoHelper(), &handle).ok());
  const std::size_t each = cache->GetUsage();
  CHECK(each > 200 && each < 350 && cache->GetPinnedUsage() == each);
  CHECK(cache->GetCharge(handle) == 0 && cache->GetUsage(handle) == 0 && !cache->Release(handle));
  CHECK(Insert(cache.get(), b, nullptr, 5, NoHelper()).ok() && cache->GetUsage() == 2 * each + 5);
  std::size_t sum = 0;
  cache->ApplyToAllEntries(
      [&](const Slice&, void*, std::size_t charge, Helper) { sum += charge; }, {});
  CHECK(sum == 5);
  // The sum does not overflow.
  Handle* held = cache->Lookup(b);
  CHECK(Insert(cache.get(), c, nullptr, SIZE_MAX - 1, NoHelper(), &handle).ok());
  CHECK(cache->GetCharge(handle) == SIZE_MAX - 1 && cache->Lookup(c) == nullptr);
  CHECK(cache->Release(handle) && !cache->Release(held));
  cache->SetCapacity(each + 5);
  cache->SetStrictCapacityLimit(true);
  CHECK(cache->GetUsage() == each + 5);
  CHECK(Insert(cache.get(), c, nullptr, 6, NoHelper(), &handle).IsMemoryLimit());
  CHECK(Insert(cache.get(), c, nullptr, 5, NoHelper(), &handle).ok());
  CHECK(cache->GetUsage() == each + 5 && cache->GetOccupancyCount() == 1);
#if ROCKSDB_MAJOR > 7
  Handle* other = cache->CreateStandalone(a, nullptr, NoHelper(), 0, false);
  CHECK(other == nullptr);
  cache->SetCapacity(2 * each + 5);
  other = cache->CreateStandalone(a, nullptr, NoHelper(), 0, false);
  CHECK(other != nullptr && cache->GetUsage() == 2 * each + 5 && cache->Release(other));
#endif
  cache->Release(handle);
}

// The typical charge chooses the number of shards, and there may be no memory for the tables.
void ExpectsEntries() {
  lru::RocksDBCacheOptions options{{8 << 20}};
  options.typical_charge = 1 << 20;
  CHECK(lru::NewRocksDBBlockCache(options)->GetPrintableOptions() ==
        "    capacity : 8388608\n    shards : 2\n    strict_capacity_limit : 0\n"
        "    charges_metadata : 0\n");
  options.capacity = SIZE_MAX;
  options.shards = 1;
  options.typical_charge = 1;
  CHECK(lru::NewRocksDBBlockCache(options) == nullptr && lru::NewRocksDBCache(options) == nullptr);
  CHECK(lru::NewRocksDBClockCache(options) == nullptr);
  options.typical_charge = SIZE_MAX;
  options.strict_capacity_limit = options.charges_metadata = true;
  CHECK(lru::NewRocksDBCache(options)->GetPrintableOptions() ==
        "    capacity : 18446744073709551615\n    shards : 1\n    strict_capacity_limit : 1\n"
        "    charges_metadata : 1\n");
}

// A deleter that SetCapacity runs may call it too. Then all shards have shares of what it set.
void Resize(const Slice*, void* value) { static_cast<Cache*>(value)->SetCapacity(4000); }

template <class OneCache>
void DeletersMayResize() {
  const Tested cache(std::shared_ptr<Cache>(OneCache::New(4000, 4)), true);
  const Helper resize = HelperFor<Resize>();
  for (int round = 0; round < 10; round++) {
    // In some shard.
    const std::string key = cache.Key("resize" + std::to_string(round));
    CHECK(Insert(cache.get(), key, cache.get(), 1, resize).ok());
    cache->SetCapacity(0);
    CHECK(cache->GetCapacity() == 4000);
    cache->EraseUnRefEntries();
    for (int n = 0; n < 100; n++) {
      CHECK(Insert(cache.get(), cache.Key(std::to_string(n)), nullptr, 1, NoHelper()).ok());
    }
    CHECK(cache->GetUsage() == 100);
  }
}

// Random calls on RocksDB's own cache and on another one, with one shard each. All answers, numbers
// and deletions must be the same. Where the header says that the caches differ, the test avoids the
// call or makes up for it.
class SameAsOwn {
 public:
  enum class Limit { kLoose, kStrict, kChanging };

  SameAsOwn(NewCache new_cache, Limit limit)
      : limit_(limit),
        is_strict_(limit == Limit::kStrict),
        caches_{Own(kCapacity, is_strict_), new_cache(kCapacity, is_strict_)} {}

  void Run(std::uint64_t seed) {
    random_ = seed;
    for (int call = 0; call < kCalls; call++) {
      Call();
      CHECK(caches_[0]->GetUsage() == caches_[1]->GetUsage());
      CHECK(caches_[0]->GetPinnedUsage() == caches_[1]->GetPinnedUsage());
      CHECK(caches_[1]->GetOccupancyCount() == caches_[0].Visited());
      if (failed_checks > 20) return;
    }
    CHECK(caches_[0].All() == caches_[1].All());
    while (!held_.empty()) Release(0, false);
    Same([&](int i) { caches_[i]->EraseUnRefEntries(); });
    CHECK(caches_[1].Counts(0, 0, 0) && made_ == deleted_);
    // Each of the kinds of answers came often.
    for (const char* what : {"new", "overwritten", "no room", "hit", "miss", "erased by Release",
                             "kept by Release", "evicted by Release", "above the capacity"}) {
      if (times_[what] < 100) std::printf("%s: %d times\n", what, times_[what]);
      CHECK(times_[what] >= 100);
    }
    CHECK((times_["refused"] >= 100) == (limit_ != Limit::kLoose));
    const bool has_both = ROCKSDB_MAJOR > 7 && limit_ != Limit::kLoose;
    CHECK((times_["standalone"] >= 100) == (ROCKSDB_MAJOR > 7));
    CHECK((times_["uncharged"] >= 100) == has_both);
    CHECK((times_["not standalone"] >= 100) == has_both);
  }

 private:
  static constexpr int kCalls = 100000;
  static constexpr std::size_t kCapacity = 40;

  // One entry that is pinned, in both caches.
  struct Held {
    std::string name;
    std::string value;
    Handle* handles[2];
  };

  std::uint64_t Below(std::uint64_t end) {
    random_ = random_ * 6364136223846793005u + 1442695040888963407u;
    return (random_ >> 33) % end;
  }

  // Makes a call on both caches, which must delete the same for it.
  template <class Calls>
  void Same(Calls calls) {
    std::string deleted[2];
    for (int i : {0, 1}) {
      calls(i);
      deleted[i] = Tested::Deleted();
    }
    CHECK(deleted[0] == deleted[1]);
    deleted_ += std::count(deleted[0].begin(), deleted[0].end(), '=');
  }

  bool IsHeld(const std::string& value) const {
    return std::any_of(held_.begin(), held_.end(),
                       [&](const Held& held) { return held.value == value; });
  }

  // The value that a key finds, or "none". It does not count as a use.
  std::string Found(const std::string& name) {
    std::string found = "none";
    caches_[0]->ApplyToAllEntries(
        [&](const Slice& key, void* value, std::size_t, Helper) {
          if (key == name) found = static_cast<Named*>(value)->value;
        },
        {});
    return found;
  }

  void Insert(const std::string& name, bool has_handle) {
    const std::size_t charge = Below(50) == 0 ? 30 + Below(30) : 1 + Below(5);
    const std::string old = Found(name);
    const bool replaces_idle = old != "none" && !IsHeld(old);
    const std::size_t capacity = caches_[0]->GetCapacity();
    // RocksDB's cache makes room while the old entry counts.
    if (replaces_idle && caches_[0]->GetUsage() + charge > capacity)
      Same([&](int i) { caches_[i].Erase(name); });
    const bool has_room = caches_[0]->GetPinnedUsage() + charge <= capacity;
    Held held = {name, std::to_string(made_), {}};
    made_++;
    const auto priority = static_cast<Priority>(Below(3));
    Status status[2];
    Same([&](int i) {
      auto* value = new Named{name, held.value};
      Handle** handle = has_handle ? &held.handles[i] : nullptr;
      status[i] =
          ::Insert(caches_[i].get(), name, value, charge, Tested::Deleter(), handle, priority);
      // As if by its deleter, so that it is among the deleted ones.
      if (!status[i].ok()) Tested::Delete(nullptr, value);
      // RocksDB's cache evicts all idle entries before it refuses one, and this cache does not.
      if (is_strict_ && !has_room) caches_[i]->EraseUnRefEntries();
    });
    CHECK(status[0].code() == status[1].code() && status[0].subcode() == status[1].subcode());
    CHECK(status[1].IsMemoryLimit() == (is_strict_ && has_handle && !has_room));
    times_[status[1].IsMemoryLimit()     ? "refused"
           : status[1].IsOkOverwritten() ? "overwritten"
           : !has_handle && !has_room    ? "no room"
                                         : "new"]++;
    for (int i : {0, 1}) CHECK((held.handles[i] != nullptr) == (has_handle && status[i].ok()));
    if (held.handles[0] == nullptr || held.handles[1] == nullptr) return;
    for (int i : {0, 1}) {
      CHECK(caches_[i]->GetCharge(held.handles[i]) == charge);
      CHECK(caches_[i]->GetUsage(held.handles[i]) == charge);
    }
    held_.push_back(held);
  }

  void Standalone(const std::string& name) {
    const std::size_t charge = 1 + Below(20);
    const bool allow_uncharged = Below(2) == 0;
    const bool has_room =
        caches_[0]->GetPinnedUsage() + charge <= caches_[0]->GetCapacity() || !is_strict_;
    Held held = {name, std::to_string(made_), {}};
    made_++;
    Same([&](int i) {
      auto* value = new Named{name, held.value};
      held.handles[i] = CreateStandalone(caches_[i].get(), name, value, charge, Tested::Deleter(),
                                         allow_uncharged);
      if (held.handles[i] == nullptr) Tested::Delete(nullptr, value);
      if (!has_room) caches_[i]->EraseUnRefEntries();
    });
    for (int i : {0, 1}) CHECK((held.handles[i] != nullptr) == (has_room || allow_uncharged));
    times_[has_room ? "standalone" : allow_uncharged ? "uncharged" : "not standalone"]++;
    if (held.handles[0] == nullptr || held.handles[1] == nullptr) return;
    for (int i : {0, 1}) CHECK(caches_[i]->GetCharge(held.handles[i]) == (has_room ? charge : 0));
    held_.push_back(held);
  }

  void Lookup(const std::string& name) {
    Held held = {name, "", {}};
    Same([&](int i) { held.handles[i] = caches_[i]->Lookup(name); });
    CHECK((held.handles[0] == nullptr) == (held.handles[1] == nullptr));
    times_[held.handles[0] == nullptr ? "miss" : "hit"]++;
    if (held.handles[0] == nullptr || held.handles[1] == nullptr) return;
    held.value = caches_[0].ValueOf(held.handles[0]);
    CHECK(held.value == caches_[1].ValueOf(held.handles[1]));
    held_.push_back(held);
  }

  void Release(std::size_t index, bool erases) {
    const Held held = held_[index];
    held_.erase(held_.begin() + static_cast<std::ptrdiff_t>(index));
    for (int i : {0, 1}) CHECK(caches_[i].ValueOf(held.handles[i]) == held.value);
    const bool has_useful = Below(2) == 0;
    const bool useful = Below(2) == 0;
    bool is_gone[2];
    Same([&](int i) {
      is_gone[i] = has_useful ? caches_[i]->Release(held.handles[i], useful, erases)
                              : caches_[i]->Release(held.handles[i], erases);
    });
    CHECK(is_gone[0] == is_gone[1]);
    times_[!is_gone[1] ? "kept by Release" : erases ? "erased by Release" : "evicted by Release"]++;
  }

  void Call() {
    // Of 16 bytes, so that none is padded.
    const std::string name = "key of 16 " + std::to_string(100000 + Below(60));
    const std::uint64_t kind = Below(100);
    times_[caches_[1]->GetUsage() > caches_[1]->GetCapacity() ? "above the capacity" : "below"]++;
    if (kind == 0) {
      Same([&](int i) { caches_[i]->EraseUnRefEntries(); });
    } else if (kind == 1) {
      const std::size_t capacity = Below(4) == 0 ? Below(2 * kCapacity) : kCapacity;
      Same([&](int i) { caches_[i]->SetCapacity(capacity); });
    } else if (kind == 2 && limit_ == Limit::kChanging) {
      is_strict_ = !is_strict_;
      for (int i : {0, 1}) caches_[i]->SetStrictCapacityLimit(is_strict_);
      CHECK(caches_[1]->HasStrictCapacityLimit() == is_strict_);
    } else if (kind == 3) {
      CHECK(caches_[0].All() == caches_[1].All());
    } else if (kind < 10) {
      Same([&](int i) { caches_[i].Erase(name); });
    } else if (kind < 25) {
      Insert(name, true);
    } else if (kind < 40) {
      Insert(name, false);
    } else if (kind < 60) {
      Lookup(name);
    } else if (kind < 62 && ROCKSDB_MAJOR > 7) {
      Standalone(name);
    } else if (kind < 66 && !held_.empty()) {
      const Held held = held_[Below(held_.size())];
      for (int i : {0, 1}) CHECK(caches_[i]->Ref(held.handles[i]));
      held_.push_back(held);
    } else if (!held_.empty() && Below(20) < held_.size()) {
      Release(Below(held_.size()), Below(3) == 0);
    }
  }

  Limit limit_;
  bool is_strict_;
  Tested caches_[2];
  std::vector<Held> held_;
  std::map<std::string, int> times_;
  std::uint64_t random_ = 0;
  std::ptrdiff_t made_ = 0;
  std::ptrdiff_t deleted_ = 0;
};

void EqualsOwn(NewCache new_cache) {
  std::uint64_t seed = 1;
  for (const auto limit :
       {SameAsOwn::Limit::kLoose, SameAsOwn::Limit::kStrict, SameAsOwn::Limit::kChanging}) {
    SameAsOwn(new_cache, limit).Run(seed++);
    Tested::Deleted();
  }
}

// Random calls on the clock beside a model, which knows the entries that there are: all but those
// whose objects were deleted. Which entries leave to make room is the clock's choice, and no more
// of them than needed.
class SameAsModel {
 public:
  using Limit = SameAsOwn::Limit;

  explicit SameAsModel(Limit limit)
      : limit_(limit), is_strict_(limit == Limit::kStrict), cache_(Clock(kCapacity, is_strict_)) {}

  void Run(std::uint64_t seed) {
    random_ = seed;
    for (int call = 0; call < kCalls; call++) {
      Call();
      std::size_t usage = 0, pinned = 0;
      for (const auto& [value, entry] : entries_) {
        usage += entry.charge;
        pinned += entry.handles > 0 ? entry.charge : 0;
      }
      CHECK(cache_->GetUsage() == usage && cache_->GetPinnedUsage() == pinned);
      CHECK(cache_->GetOccupancyCount() == found_.size());
      // What is idle leaves until the rest fits.
      CHECK(usage <= cache_->GetCapacity() || usage == pinned);
      times_[usage > cache_->GetCapacity() ? "above the capacity" : "below"]++;
      if (failed_checks > 20) return;
    }
    while (!held_.empty()) Release(0, false);
    cache_->EraseUnRefEntries();
    Take();
    CHECK(entries_.empty() && cache_.Counts(0, 0, 0));
    for (const char* what : {"new", "overwritten", "no room", "hit", "miss", "erased by Release",
                             "kept by Release", "evicted by Release", "above the capacity"}) {
      if (times_[what] < 100) std::printf("%s: %d times\n", what, times_[what]);
      CHECK(times_[what] >= 100);
    }
    CHECK((times_["refused"] >= 100) == (limit_ != Limit::kLoose));
    CHECK((times_["standalone"] >= 100) == (ROCKSDB_MAJOR > 7));
    const bool has_both = ROCKSDB_MAJOR > 7 && limit_ != Limit::kLoose;
    CHECK((times_["uncharged"] >= 100) == has_both);
    CHECK((times_["not standalone"] >= 100) == has_both);
  }

 private:
  static constexpr int kCalls = 50000;
  static constexpr std::size_t kCapacity = 40;

  struct Entry {
    std::string name;
    std::size_t charge;
    int handles;
  };

  struct Held {
    std::string value;
    Handle* handle;
  };

  // What a call has deleted: how many entries, the sum of their charges, and the largest.
  struct Left {
    std::size_t count = 0, charge = 0, largest = 0;
  };

  std::uint64_t Below(std::uint64_t end) {
    random_ = random_ * 6364136223846793005u + 1442695040888963407u;
    return (random_ >> 33) % end;
  }

  bool IsThere(const std::string& value) const { return entries_.count(value) != 0; }

  std::string Found(const std::string& name) const {
    const auto found = found_.find(name);
    return found == found_.end() ? "none" : found->second;
  }

  // Removes what was deleted from the model. Nothing is deleted twice, or while it is held.
  Left Take() {
    Left left;
    const std::string deleted = Tested::Deleted();
    for (std::size_t at = 0; at < deleted.size();) {
      const std::size_t middle = deleted.find('=', at), end = deleted.find(' ', middle);
      const std::string name = deleted.substr(at, middle - at);
      const std::string value = deleted.substr(middle + 1, end - middle - 1);
      at = end + 1;
      const auto entry = entries_.find(value);
      CHECK(entry != entries_.end());
      if (entry == entries_.end()) continue;
      CHECK(entry->second.name == name && entry->second.handles == 0);
      if (Found(name) == value) found_.erase(name);
      left.count++;
      left.charge += entry->second.charge;
      left.largest = std::max(left.largest, entry->second.charge);
      entries_.erase(entry);
    }
    return left;
  }

  void Hold(const std::string& value, Handle* handle) {
    CHECK(cache_.ValueOf(handle) == value);
    CHECK(cache_->GetCharge(handle) == entries_[value].charge);
    entries_[value].handles++;
    held_.push_back({value, handle});
  }

  void Insert(const std::string& name, bool has_handle) {
    const std::size_t charge = Below(50) == 0 ? 30 + Below(30) : 1 + Below(5);
    const std::size_t capacity = cache_->GetCapacity(), usage = cache_->GetUsage();
    const bool has_room = cache_->GetPinnedUsage() + charge <= capacity;
    const bool is_refused = has_handle && is_strict_ && !has_room;
    const std::string old = Found(name);
    const bool is_old_held = old != "none" && entries_[old].handles > 0;
    const std::size_t old_charge = old == "none" ? 0 : entries_[old].charge;
    const std::string value = std::to_string(made_++);
    entries_[value] = {name, charge, 0};
    auto* object = new Named{name, value};
    Handle* handle = nullptr;
    const Status status =
        ::Insert(cache_.get(), name, object, charge, Tested::Deleter(),
                 has_handle ? &handle : nullptr, static_cast<Priority>(Below(3)));
    CHECK(status.ok() == !is_refused && status.IsMemoryLimit() == is_refused);
    CHECK((handle != nullptr) == (has_handle && !is_refused));
    // As if by its deleter, so that it is among the deleted ones.
    if (is_refused) Tested::Delete(nullptr, object);
    Left left = Take();
    const bool is_kept = has_handle ? !is_refused : has_room;
    CHECK(IsThere(value) == is_kept);
    if (!is_kept) left.count--, left.charge -= charge;
    if (is_kept) {
      // The old entry was replaced, unless it was among those that made room.
      if (old == "none") CHECK(!status.IsOkOverwritten());
      if (is_old_held) CHECK(status.IsOkOverwritten() && IsThere(old));
      if (old != "none" && !is_old_held) CHECK(!IsThere(old));
      if (status.IsOkOverwritten() && !is_old_held) left.count--, left.charge -= old_charge;
      found_[name] = value;
    } else if (is_old_held) {
      CHECK(Found(name) == old);
    }
    if (handle != nullptr) Hold(value, handle);
    // No more has left than was needed.
    if (left.count > 0) CHECK(usage - left.charge + charge + left.largest > capacity);
    if (usage + charge <= capacity) CHECK(left.count == 0);
    times_[is_refused                    ? "refused"
           : status.IsOkOverwritten()    ? "overwritten"
           : !has_handle && !has_room    ? "no room"
                                         : "new"]++;
  }

  void Standalone(const std::string& name) {
    const std::size_t charge = 1 + Below(20);
    const bool allow_uncharged = Below(2) == 0;
    const bool has_room =
        cache_->GetPinnedUsage() + charge <= cache_->GetCapacity() || !is_strict_;
    const std::string value = std::to_string(made_++);
    Handle* handle = cache_.Standalone(name, value, charge, allow_uncharged);
    CHECK((handle != nullptr) == (has_room || allow_uncharged));
    times_[has_room ? "standalone" : allow_uncharged ? "uncharged" : "not standalone"]++;
    Take();
    if (handle == nullptr) return;
    entries_[value] = {name, has_room ? charge : 0, 0};
    Hold(value, handle);
  }

  void Lookup(const std::string& name) {
    Handle* handle = cache_.Lookup(name);
    CHECK((handle != nullptr) == (Found(name) != "none"));
    times_[handle == nullptr ? "miss" : "hit"]++;
    if (handle != nullptr) Hold(Found(name), handle);
  }

  void Release(std::size_t index, bool erases) {
    const Held held = held_[index];
    held_.erase(held_.begin() + static_cast<std::ptrdiff_t>(index));
    CHECK(cache_.ValueOf(held.handle) == held.value);
    Entry& entry = entries_[held.value];
    entry.handles--;
    const bool was_found = Found(entry.name) == held.value;
    const bool is_gone = cache_->Release(held.handle, erases);
    const std::string name = entry.name;
    const bool is_last = entry.handles == 0;
    Take();
    CHECK(is_gone == !IsThere(held.value));
    if (is_last && (erases || !was_found)) CHECK(is_gone);
    if (!is_last) CHECK(!is_gone && was_found == (Found(name) == held.value));
    times_[!is_gone ? "kept by Release" : erases ? "erased by Release" : "evicted by Release"]++;
  }

  void Call() {
    // Of 16 bytes, so that none is padded, and without what ends a name or a value.
    const std::string name = "key-of-16-" + std::to_string(100000 + Below(60));
    const std::uint64_t kind = Below(100);
    if (kind == 0) {
      cache_->EraseUnRefEntries();
      Take();
      CHECK(cache_->GetUsage() == cache_->GetPinnedUsage());
    } else if (kind == 1) {
      cache_->SetCapacity(Below(4) == 0 ? Below(2 * kCapacity) : kCapacity);
      Take();
    } else if (kind == 2 && limit_ == Limit::kChanging) {
      is_strict_ = !is_strict_;
      cache_->SetStrictCapacityLimit(is_strict_);
      CHECK(cache_->HasStrictCapacityLimit() == is_strict_);
    } else if (kind == 3) {
      std::string all;
      for (const auto& [key, value] : found_) {
        all += key + "=" + value + ":" + std::to_string(entries_[value].charge) + " ";
      }
      CHECK(cache_.All() == all);
    } else if (kind < 10) {
      const std::string old = Found(name);
      const bool is_held = old != "none" && entries_[old].handles > 0;
      cache_.Erase(name);
      Take();
      CHECK(IsThere(old) == is_held);
      found_.erase(name);
    } else if (kind < 25) {
      Insert(name, true);
    } else if (kind < 40) {
      Insert(name, false);
    } else if (kind < 60) {
      Lookup(name);
    } else if (kind < 62 && ROCKSDB_MAJOR > 7) {
      Standalone(name);
    } else if (kind < 66 && !held_.empty()) {
      const Held held = held_[Below(held_.size())];
      CHECK(cache_->Ref(held.handle));
      Hold(held.value, held.handle);
    } else if (!held_.empty() && Below(20) < held_.size()) {
      Release(Below(held_.size()), Below(3) == 0);
    }
  }

  Limit limit_;
  bool is_strict_;
  Tested cache_;
  std::map<std::string, Entry> entries_;      // by their values, which differ
  std::map<std::string, std::string> found_;  // the value that each key finds
  std::vector<Held> held_;
  std::map<std::string, int> times_;
  std::uint64_t random_ = 0;
  int made_ = 0;
};

void EqualsModel() {
  std::uint64_t seed = 1;
  for (const auto limit :
       {SameAsModel::Limit::kLoose, SameAsModel::Limit::kStrict, SameAsModel::Limit::kChanging}) {
    SameAsModel(limit).Run(seed++);
    Tested::Deleted();
  }
}

// Threads: each object is deleted once, by its own deleter, and not while it is pinned.

constexpr int kThreads = 8;
constexpr int kCalls = 20000;
constexpr std::size_t kThreadsCapacity = 256;

void DeleteObject(const Slice* key, void* value) {
  const std::uint64_t n = static_cast<Object*>(value)->key;
  DeleteOnce(key != nullptr ? *key : Slice(reinterpret_cast<const char*>(&n), sizeof n), value);
}

// Handles that one thread has passed and another one may take.
std::atomic<Handle*> passed[4];

void Calls(Cache* cache, std::uint64_t seed) {
  std::uint64_t random = seed * 0x9e3779b97f4a7c15u;
  std::pair<Handle*, std::uint64_t> held[4] = {};
  for (int call = 0; call < kCalls; call++) {
    random = random * 6364136223846793005u + 1442695040888963407u;
    const std::uint64_t n = (random >> 33) % 400;
    const std::uint64_t words[2] = {n, n};
    const Slice key(reinterpret_cast<const char*>(words), sizeof words);
    auto& [slot, of] = held[(random >> 42) % 4];
    const std::uint64_t kind = (random >> 44) % 64;
    if (slot != nullptr && kind < 8) {
      const auto* object = static_cast<const Object*>(cache->Value(slot));
      if (!cache->Ref(slot) || !object->there || object->key != of) wrong++;
      if (cache->Release(slot, kind < 4)) wrong++;
    }
    if (kind >= 56) {
      slot = passed[random % 4].exchange(slot);
      if (slot == nullptr) continue;
      const auto* object = static_cast<const Object*>(cache->Value(slot));
      if (!object->there) wrong++;
      of = object->key;
    }
    if (slot != nullptr) cache->Release(std::exchange(slot, nullptr), kind % 8 == 0);
    const std::size_t charge = 1 + (random >> 50) % 3;
    if (kind < 4) {
      cache->Erase(key);
    } else if (kind == 4 && call % 8 == 0) {
      cache->EraseUnRefEntries();
    } else if (kind == 5 && call % 8 == 0) {
      cache->SetCapacity(kThreadsCapacity / (1 + random % 2));
    } else if (kind == 6) {
      cache->SetStrictCapacityLimit(random % 2 == 0);
    } else if (kind == 7 && call % 8 == 0) {
      cache->ApplyToAllEntries(
          [](const Slice& k, void* value, std::size_t c, Helper helper) {
            const auto* object = static_cast<const Object*>(value);
            if (!IsOf(k, object) || !object->there || c > 3) wrong++;
            if (helper != HelperFor<DeleteObject>()) wrong++;
          },
          {});
      if (cache->GetUsage() < cache->GetCapacity() / 1000) wrong++;
      // Each thread may be visiting an entry, too.
      if (cache->GetPinnedUsage() > 3 * (4 * kThreads + kThreads + std::size(passed))) wrong++;
    } else if (kind == 8) {
      // In 7.8 there are no such entries.
      auto* object = new Object(n);
      slot = CreateStandalone(cache, key, object, charge, HelperFor<DeleteObject>(), call % 2 == 0);
      if (slot == nullptr) delete object;
      of = n;
    } else if (kind < 12) {
      const Helper helper = HelperFor<DeleteObject>();
      if (!Insert(cache, key, new Object(n), charge, helper).ok()) wrong++;
    } else {
      if (kind > 20) slot = cache->Lookup(key);
      if (slot == nullptr) {
        auto* object = new Object(n);
        const Status status =
            Insert(cache, key, object, charge, HelperFor<DeleteObject>(), &slot);
        if (!status.ok()) {
          if (!status.IsMemoryLimit() || slot != nullptr) wrong++;
          delete object;
          continue;
        }
      }
      of = n;
      const auto* object = static_cast<const Object*>(cache->Value(slot));
      if (object->key != n || !object->there) wrong++;
    }
  }
  for (auto [handle, n] : held) {
    if (handle != nullptr) cache->Release(handle);
  }
}

void Threads(std::shared_ptr<Cache> cache, int count) {
  std::vector<std::thread> threads;
  for (int t = 1; t <= count; t++) {
    threads.emplace_back(Calls, cache.get(), static_cast<std::uint64_t>(t));
  }
  for (std::thread& thread : threads) thread.join();
  for (auto& handle : passed) {
    if (Handle* const left = handle.exchange(nullptr)) cache->Release(left);
  }
  // The shares of the shards are rounded up.
  CHECK(cache->GetUsage() < cache->GetCapacity() + 64 && cache->GetPinnedUsage() == 0 && alive > 0);
  CHECK(static_cast<std::size_t>(alive) == cache->GetOccupancyCount());
  cache->EraseUnRefEntries();
  CHECK(cache->GetUsage() == 0 && cache->GetOccupancyCount() == 0 && alive == 0);
  cache.reset();
  CHECK(wrong == 0);
}

#if ROCKSDB_MAJOR != 7

// The cache that a text names, or null.
std::shared_ptr<Cache> FromText(const std::string& text) {
  rocksdb::ConfigOptions config;
  config.ignore_unsupported_options = false;
  std::shared_ptr<Cache> cache;
  CHECK(Cache::CreateFromString(config, text, &cache).ok() == (cache != nullptr));
  return cache;
}

// Whether there is a cache that shows these options.
bool Has(const std::shared_ptr<Cache>& cache, std::size_t capacity, int shards, int is_strict,
         int charges_metadata) {
  if (cache == nullptr) return false;
  char text[160];
  std::snprintf(text, sizeof text,
                "    capacity : %zu\n    shards : %d\n    strict_capacity_limit : %d\n"
                "    charges_metadata : %d\n",
                capacity, shards, is_strict, charges_metadata);
  return cache->GetPrintableOptions() == text;
}

// Text names a cache of this type, and its options.
template <class OneCache>
void IsCreatedFromText() {
  const std::string name = OneCache::ClassName();
  CHECK(FromText("id=" + name + "://64M") == nullptr);
  for (int i = 0; i < 2; i++) lru::RegisterRocksDBCache<OneCache>();
  const std::shared_ptr<Cache> simple = FromText("id=" + name + "://64M");
  CHECK(Has(simple, 64 << 20, 64, 0, 0));
  CHECK(simple != nullptr && simple->Name() == name);
  CHECK(Has(FromText("id={" + name +
                     "://capacity=1M;shards=3;strict_capacity_limit=true;charges_metadata=true}"),
            1 << 20, 3, 1, 1));
  CHECK(Has(FromText("id={" + name + "://capacity=64M;typical_charge=4M}"), 64 << 20, 4, 0, 0));
  for (const char* wrong : {"x", "capacity=1M;shard=3", "capacity=a", "shards=1;64M"}) {
    CHECK(FromText("id={" + name + "://" + wrong + "}") == nullptr);
  }
  are_all_refused = true;
  CHECK(FromText("id=" + name + "://64M") == nullptr);
  are_all_refused = false;
  rocksdb::BlockBasedTableOptions table;
  const std::string text = "block_cache={id=" + name + "://1M}";
  rocksdb::GetBlockBasedTableOptionsFromString(rocksdb::ConfigOptions(), table, text, &table)
      .PermitUncheckedError();
  CHECK(Has(table.block_cache, 1 << 20, 2, 0, 0));
}

#endif

}  // namespace

int main() {
  for (const NewCache new_cache : {Own, Any, Blocks, Clock}) {
    Common(new_cache);
    Differences(new_cache);
    if (new_cache == Clock) continue;
    InOrder(new_cache);
    ReplacesWithoutEvicting(new_cache);
    Tested::Deleted();
  }
  for (const NewCache new_cache : {Any, Blocks, Clock}) ForThisCache(new_cache);
  for (const NewCache new_cache : {Any, Blocks}) EqualsOwn(new_cache);
  EqualsModel();
  for (const int count : {4, kThreads}) {
    for (const std::size_t shards : {1u, 4u, 64u}) {
      Threads(lru::NewRocksDBCache(kThreadsCapacity, shards), count);
      Threads(lru::NewRocksDBBlockCache(kThreadsCapacity, shards), count);
      Threads(lru::NewRocksDBClockCache(kThreadsCapacity, shards), count);
    }
  }
  // Each shard has a cache, a chain and two tables, or a clock and a reader.
  RefusesToOpen<lru::RocksDBCache>(12);
  RefusesToOpen<lru::RocksDBBlockCache>(12);
  RefusesToOpen<lru::RocksDBClockCache>(6);
  CachesBlocksOnly();
  HasShards();
  ClockHasShards();
  ChargesItsMemory<lru::RocksDBCache>();
  ChargesItsMemory<lru::RocksDBBlockCache>();
  ChargesItsMemory<lru::RocksDBClockCache>();
  RefusesOtherKeys();
  GoesOnWithoutReaders();
  EvictsWhatIsReleasedMeanwhile();
  EvictsWithTheLastRelease();
  VisitorsMayCall();
  ExpectsEntries();
  DeletersMayResize<lru::RocksDBCache>();
  DeletersMayResize<lru::RocksDBClockCache>();
#if ROCKSDB_MAJOR != 7
  IsCreatedFromText<lru::RocksDBCache>();
  IsCreatedFromText<lru::RocksDBBlockCache>();
  IsCreatedFromText<lru::RocksDBClockCache>();
#endif
  std::printf("the caches for RocksDB, with 1, 4 and 8 threads: %d checks failed\n",
              failed_checks);
  return failed_checks == 0 ? 0 : 1;
}
