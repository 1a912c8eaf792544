// Uses databases with this cache and with RocksDB's own.
//
//  - One thread reads 200,000 keys, with several iterators open, at three capacities and with
//    strict limits. All answers must be equal, and the same reads refused by a strict limit.
//    Without one, the numbers of hits, misses and insertions, the numbers and charges of blocks by
//    role and the charge at the end must be equal too. The clock evicts other blocks: with it other
//    reads are refused, and without a strict limit there must be at least half as many hits.
//  - Four threads read, write, delete, iterate, compact and read snapshots of 20,000 keys at three
//    capacities and with strict limits, and of 200,000 keys at one capacity, and read them again
//    once the database has been closed and opened. All answers must be right and equal, except that
//    a strict limit may refuse reads, and that iterators may then skip keys: RocksDB's do so now
//    and then, without an error, and with its own cache too. What they return must be right all the
//    same.
//  - One thread reads keys, and scans many others now and then. This cache must miss as often as
//    RocksDB's own without priorities. With priorities, as by default, that misses fewer:
//    docs/EMBEDDING.md has the numbers that are printed.
//
// Prints a line for each part, and exits with 1 if something differs.
#include <algorithm>
#include <cstdint>
#include <cstdio>
#include <cstdlib>
#include <cstring>
#include <functional>
#include <initializer_list>
#include <map>
#include <memory>
#include <string>
#include <thread>
#include <utility>
#include <vector>

#include "rocksdb/db.h"
#include "rocksdb/filter_policy.h"
#include "rocksdb/iterator.h"
#include "rocksdb/options.h"
#include "rocksdb/statistics.h"
#include "rocksdb/table.h"
#include "memory_of_entries.hpp"
#include "rocksdb_clock_cache.h"
#include "rocksdb_interface.hpp"

namespace {

using rocksdb::Cache;
using rocksdb::DB;
using rocksdb::Status;

constexpr std::uint64_t kThreads = 4;
constexpr std::uint64_t kKeysPerThread = 5000;
constexpr std::uint64_t kKeysToRead = 50000;  // per thread, also where one thread reads them
constexpr std::uint64_t kReads = 40000;
constexpr int kCalls = 6000;

class Random {
 public:
  explicit Random(std::uint64_t seed) : state_(seed) {}

  std::uint64_t Below(std::uint64_t end) {
    std::uint64_t x = state_ += 0x9e3779b97f4a7c15u;
    x = (x ^ (x >> 30)) * 0xbf58476d1ce4e5b9u;
    x = (x ^ (x >> 27)) * 0x94d049bb133111ebu;
    return (x ^ (x >> 31)) % end;
  }

 private:
  std::uint64_t state_;
};

// The keys of a thread follow each other.
std::string KeyOf(std::uint64_t thread, std::uint64_t n) {
  char text[32];
  std::snprintf(text, sizeof text, "%llu/%08llu", static_cast<unsigned long long>(thread),
                static_cast<unsigned long long>(n));
  return text;
}

// 300 bytes, most of which compress.
std::string ValueOf(std::uint64_t thread, std::uint64_t n, std::uint64_t version) {
  std::string value;
  Random random((thread * kKeysToRead + n) * 1000 + version);
  while (value.size() < 48) value += std::to_string(random.Below(1000000));
  value.append(300 - value.size(), 'v');
  return value;
}

void Check(const Status& status) {
  if (status.ok()) return;
  std::fprintf(stderr, "%s\n", status.ToString().c_str());
  std::exit(2);
}

// Whether a strict limit refused a read.
bool IsRefused(const Status& status) { return status.IsMemoryLimit() || status.IsIncomplete(); }

// What Even below counts for a block. What is not a block has a charge of 0, which counts as 1 in
// one of the caches.
std::size_t EvenCharge(std::size_t charge) { return charge == 0 ? 1 : 4000; }

// A cache in which each block has the same charge. RocksDB charges what malloc gave to a block,
// which is not the same each time, so that numbers would differ now and then.
#if ROCKSDB_MAJOR == 7

class Even : public Cache {
 public:

  explicit Even(std::shared_ptr<Cache> cache) : cache_(std::move(cache)) {}

  const char* Name() const override { return cache_->Name(); }
  Status Insert(const rocksdb::Slice& key, void* value, std::size_t charge, DeleterFn deleter,
                Handle** handle, Priority priority) override {
    return cache_->Insert(key, value, EvenCharge(charge), deleter, handle, priority);
  }
  Handle* Lookup(const rocksdb::Slice& key, rocksdb::Statistics* statistics) override {
    return cache_->Lookup(key, statistics);
  }
  bool Ref(Handle* handle) override { return cache_->Ref(handle); }
  bool Release(Handle* handle, bool erases) override { return cache_->Release(handle, erases); }
  void* Value(Handle* handle) override { return cache_->Value(handle); }
  void Erase(const rocksdb::Slice& key) override { cache_->Erase(key); }
  std::uint64_t NewId() override { return cache_->NewId(); }
  void SetCapacity(std::size_t capacity) override { cache_->SetCapacity(capacity); }
  void SetStrictCapacityLimit(bool is_strict) override {
    cache_->SetStrictCapacityLimit(is_strict);
  }
  bool HasStrictCapacityLimit() const override { return cache_->HasStrictCapacityLimit(); }
  std::size_t GetCapacity() const override { return cache_->GetCapacity(); }
  std::size_t GetUsage() const override { return cache_->GetUsage(); }
  std::size_t GetUsage(Handle* handle) const override { return cache_->GetUsage(handle); }
  std::size_t GetPinnedUsage() const override { return cache_->GetPinnedUsage(); }
  std::size_t GetCharge(Handle* handle) const override { return cache_->GetCharge(handle); }
  DeleterFn GetDeleter(Handle* handle) const override { return cache_->GetDeleter(handle); }
  void ApplyToAllEntries(
      const std::function<void(const rocksdb::Slice&, void*, std::size_t, DeleterFn)>& callback,
      const ApplyToAllEntriesOptions& options) override {
    cache_->ApplyToAllEntries(callback, options);
  }
  void EraseUnRefEntries() override { cache_->EraseUnRefEntries(); }

 private:
  std::shared_ptr<Cache> cache_;
};

#else

class Even : public rocksdb::CacheWrapper {
 public:
  using CacheWrapper::CacheWrapper;

  const char* Name() const override { return target_->Name(); }
  Status Insert(const rocksdb::Slice& key, ObjectPtr value, const CacheItemHelper* helper,
                std::size_t charge, Handle** handle, Priority priority,
                const rocksdb::Slice& compressed, rocksdb::CompressionType type) override {
    return target_->Insert(key, value, helper, EvenCharge(charge), handle, priority, compressed,
                           type);
  }
};

#endif

struct Caches {
  std::shared_ptr<Cache> blocks;
  std::shared_ptr<Cache> rows;  // or null
};

rocksdb::Options OptionsFor(const Caches& caches, bool is_strict) {
  rocksdb::BlockBasedTableOptions table;
  table.block_cache = caches.blocks;
  table.filter_policy.reset(rocksdb::NewBloomFilterPolicy(10));
  // With a strict limit, files could not be opened, nor compacted.
  table.cache_index_and_filter_blocks = !is_strict;
  rocksdb::Options options;
  options.table_factory.reset(rocksdb::NewBlockBasedTableFactory(table));
  options.row_cache = caches.rows;
  options.create_if_missing = true;
  options.write_buffer_size = 512 << 10;
  options.target_file_size_base = 512 << 10;
  options.max_bytes_for_level_base = 2 << 20;
  options.statistics = rocksdb::CreateDBStatistics();
  // Nothing counts the blocks by role before the test does: a count is reused for some seconds.
  options.stats_dump_period_sec = 0;
  return options;
}

std::unique_ptr<DB> Open(const rocksdb::Options& options, const std::string& path) {
  DB* db = nullptr;
  Check(DB::Open(options, path, &db));
  return std::unique_ptr<DB>(db);
}

// Gives each key the version 1.
void Fill(DB* db, std::uint64_t keys_per_thread) {
  const std::uint64_t keys = kThreads * keys_per_thread;
  for (std::uint64_t i = 0; i < keys; i++) {
    const std::uint64_t n = i * 7919 % keys;
    Check(db->Put(rocksdb::WriteOptions(), KeyOf(n % kThreads, n / kThreads),
                  ValueOf(n % kThreads, n / kThreads, 1)));
  }
  Check(db->CompactRange(rocksdb::CompactRangeOptions(), nullptr, nullptr));
}

struct Outcome {
  std::vector<std::string> answers;  // "refused" where a strict limit refused one
  std::uint64_t refused = 0, wrong = 0;
  std::uint64_t hits = 0, misses = 0, added = 0;
  std::size_t usage = 0, pinned = 0;
  std::string blocks;  // the number and the charge of the blocks in the cache, by role

  // An answer, and the right one.
  void Add(const Status& status, std::string answer, const std::string& right) {
    if (IsRefused(status)) {
      refused++;
      answer = "refused";
    } else {
      if (!status.IsNotFound()) Check(status);
      if (answer != right) wrong++;
    }
    answers.push_back(std::move(answer));
  }

  // Once the database is closed, so that nothing is pinned.
  void SetNumbers(const Caches& caches, const rocksdb::Statistics& statistics) {
    hits = statistics.getTickerCount(rocksdb::BLOCK_CACHE_HIT);
    misses = statistics.getTickerCount(rocksdb::BLOCK_CACHE_MISS);
    added = statistics.getTickerCount(rocksdb::BLOCK_CACHE_ADD);
    usage = caches.blocks->GetUsage();
    pinned = caches.blocks->GetPinnedUsage();
  }
};

std::string AnswerOf(const Status& status, const std::string& value) {
  return status.IsNotFound() ? "none" : value;
}

// One thread.

// Nine of ten reads are of a hundredth of the keys, and one in fifty is of a key that does not
// exist.
std::pair<std::uint64_t, std::uint64_t> Asked(Random* random) {
  const std::uint64_t thread = random->Below(kThreads);
  if (random->Below(50) == 0) return {thread, kKeysToRead + random->Below(kKeysToRead)};
  if (random->Below(10) == 0) return {thread, random->Below(kKeysToRead)};
  return {thread, random->Below(kKeysToRead / 100)};
}

// Reads by key and by six iterators, each of which pins a block.
void ReadAll(DB* db, Outcome* outcome) {
  Random random(1);
  std::vector<std::unique_ptr<rocksdb::Iterator>> iterators(6);
  for (std::uint64_t read = 0; read < kReads; read++) {
    const auto [thread, n] = Asked(&random);
    const std::string right = n < kKeysToRead ? ValueOf(thread, n, 1) : "none";
    if (random.Below(10) != 0) {
      std::string value;
      const Status status = db->Get(rocksdb::ReadOptions(), KeyOf(thread, n), &value);
      outcome->Add(status, AnswerOf(status, value), right);
      continue;
    }
    if (n >= kKeysToRead) continue;
    auto& iterator = iterators[random.Below(iterators.size())];
    if (iterator == nullptr || !iterator->Valid() || random.Below(20) == 0) {
      iterator.reset(db->NewIterator(rocksdb::ReadOptions()));
    }
    iterator->Seek(KeyOf(thread, n));
    outcome->Add(iterator->status(), iterator->Valid() ? iterator->value().ToString() : "none",
                 right);
    for (std::uint64_t step = 1; step < 20 && iterator->Valid(); step++) {
      if (n + step == kKeysToRead) break;
      iterator->Next();
      outcome->Add(iterator->status(), iterator->Valid() ? iterator->value().ToString() : "none",
                   ValueOf(thread, n + step, 1));
    }
  }
}

Outcome Read(const std::string& path, const Caches& caches, bool is_strict) {
  Outcome outcome;
  const Caches even = {std::make_shared<Even>(caches.blocks), caches.rows};
  const rocksdb::Options options = OptionsFor(even, is_strict);
  {
    DB* opened = nullptr;
    Check(DB::OpenForReadOnly(options, path, &opened));
    const std::unique_ptr<DB> db(opened);
    ReadAll(db.get(), &outcome);
    // RocksDB visits all entries to count them.
    std::map<std::string, std::string> counts;
    if (!db->GetMapProperty(DB::Properties::kBlockCacheEntryStats, &counts)) std::exit(2);
    using Keys = rocksdb::BlockCacheEntryStatsMapKeys;
    for (const auto role :
         {rocksdb::CacheEntryRole::kDataBlock, rocksdb::CacheEntryRole::kFilterBlock,
          rocksdb::CacheEntryRole::kIndexBlock}) {
      outcome.blocks += counts[Keys::EntryCount(role)] + "=" + counts[Keys::UsedBytes(role)] + " ";
    }
  }
  outcome.SetNumbers(caches, *options.statistics);
  return outcome;
}

// Reads between scans, with one thread.

struct Misses {
  std::uint64_t index_and_filter = 0, data = 0;
};

// 40,000 reads by key, and after each 1,000 of them a scan of 20,000 keys. Blocks that a scan needs
// only once displace others, unless the cache prefers index and filter blocks, and those that were
// used again.
Misses ReadBetweenScans(const std::string& path, std::shared_ptr<Cache> cache) {
  constexpr std::uint64_t kScanned = 20000;
  const Caches even = {std::make_shared<Even>(std::move(cache)), nullptr};
  rocksdb::Options options = OptionsFor(even, false);
  options.disable_auto_compactions = true;
  const std::unique_ptr<DB> db = Open(options, path);
  Random random(1);
  for (std::uint64_t read = 1; read <= kReads; read++) {
    const auto [thread, n] = Asked(&random);
    std::string value;
    const Status status = db->Get(rocksdb::ReadOptions(), KeyOf(thread, n), &value);
    if (!status.IsNotFound()) Check(status);
    if (read % 1000 != 0) continue;
    const std::unique_ptr<rocksdb::Iterator> scan(db->NewIterator(rocksdb::ReadOptions()));
    scan->Seek(KeyOf(random.Below(kThreads), random.Below(kKeysToRead - kScanned)));
    for (std::uint64_t step = 0; step < kScanned && scan->Valid(); step++) scan->Next();
    Check(scan->status());
  }
  const rocksdb::Statistics& told = *options.statistics;
  return {told.getTickerCount(rocksdb::BLOCK_CACHE_INDEX_MISS) +
              told.getTickerCount(rocksdb::BLOCK_CACHE_FILTER_MISS),
          told.getTickerCount(rocksdb::BLOCK_CACHE_DATA_MISS)};
}

// Four threads.

// The versions of the keys of one thread. A key with the version 0 has no value.
using Versions = std::vector<std::uint64_t>;

// The calls of one thread, on its own keys.
class Worker {
 public:
  Worker(DB* db, std::uint64_t thread, std::uint64_t keys, bool is_strict)
      : db_(db),
        thread_(thread),
        keys_(keys),
        is_strict_(is_strict),
        random_(thread + 100),
        now_(keys, 1),
        written_(keys, {1}) {}

  void Run() {
    for (int call = 0; call < kCalls; call++) Call(random_.Below(1000));
    if (snapshot_ != nullptr) db_->ReleaseSnapshot(snapshot_);
  }

  // Once the database has been opened again.
  void ReadAgain(DB* db) {
    db_ = db;
    for (std::uint64_t n = 0; n < keys_; n += 5) Get(rocksdb::ReadOptions(), n, now_);
  }

  Outcome outcome;

 private:
  std::string Key(std::uint64_t n) const { return KeyOf(thread_, n); }

  std::string Value(std::uint64_t n, std::uint64_t version) const {
    return version == 0 ? "none" : ValueOf(thread_, n, version);
  }

  void Call(std::uint64_t kind) {
    const std::uint64_t n = random_.Below(keys_);
    if (kind < 400) {
      Get(rocksdb::ReadOptions(), n, now_);
    } else if (kind < 650) {
      const std::uint64_t version = ++last_version_;
      Check(db_->Put(rocksdb::WriteOptions(), Key(n), Value(n, version)));
      now_[n] = version;
      written_[n].push_back(version);
    } else if (kind < 720) {
      Check(db_->Delete(rocksdb::WriteOptions(), Key(n)));
      now_[n] = 0;
    } else if (kind < 820) {
      GetMany(n);
    } else if (kind < 900) {
      Iterate(rocksdb::ReadOptions(), n, now_);
    } else if (kind < 990) {
      ReadSnapshot(n);
    } else if (kind < 995) {
      TakeSnapshot();
    } else if (kind < 998) {
      Check(db_->Flush(rocksdb::FlushOptions()));
    } else {
      const std::string first = Key(0), last = Key(keys_);
      const rocksdb::Slice begin = first, end = last;
      Check(db_->CompactRange(rocksdb::CompactRangeOptions(), &begin, &end));
    }
  }

  void Get(const rocksdb::ReadOptions& options, std::uint64_t n, const Versions& versions) {
    std::string value;
    const Status status = db_->Get(options, Key(n), &value);
    outcome.Add(status, AnswerOf(status, value), Value(n, versions[n]));
  }

  void GetMany(std::uint64_t n) {
    std::vector<std::string> keys;
    for (std::uint64_t i = 0; i < 8; i++) keys.push_back(Key((n + i * i) % keys_));
    const std::vector<rocksdb::Slice> slices(keys.begin(), keys.end());
    std::vector<std::string> values;
    const std::vector<Status> statuses = db_->MultiGet(rocksdb::ReadOptions(), slices, &values);
    for (std::uint64_t i = 0; i < 8; i++) {
      const std::uint64_t at = (n + i * i) % keys_;
      outcome.Add(statuses[i], AnswerOf(statuses[i], values[i]), Value(at, now_[at]));
    }
  }

  // The next 30 keys that have values, or the 30 before, unless an end of the thread's keys is
  // near.
  void Iterate(const rocksdb::ReadOptions& options, std::uint64_t n, const Versions& versions) {
    const bool is_forward = n % 2 == 0;
    const std::unique_ptr<rocksdb::Iterator> iterator(db_->NewIterator(options));
    if (is_forward) {
      iterator->Seek(Key(n));
    } else {
      iterator->SeekForPrev(Key(n));
    }
    if (is_strict_) return IterateStrictly(iterator.get(), is_forward);
    for (int step = 0; step < 30; step++) {
      while (n < keys_ && versions[n] == 0) n = is_forward ? n + 1 : n - 1;
      if (n >= keys_) return;
      std::string answer = "none";
      if (iterator->Valid()) answer = iterator->key().ToString() + iterator->value().ToString();
      outcome.Add(iterator->status(), answer, Key(n) + Value(n, versions[n]));
      if (!iterator->Valid()) return;
      if (is_forward) {
        iterator->Next();
        n++;
      } else {
        iterator->Prev();
        n--;  // below 0 it is above all
      }
    }
  }

  // What follows until a block is refused. Keys and newer versions of keys may be skipped.
  void IterateStrictly(rocksdb::Iterator* iterator, bool is_forward) {
    for (int step = 0; step < 30 && iterator->Valid(); step++) {
      const std::string key = iterator->key().ToString();
      const std::uint64_t n = std::strtoull(key.c_str() + 2, nullptr, 10);
      if (key != Key(n)) return;  // of another thread
      const Versions& all = written_[n];
      if (std::none_of(all.begin(), all.end(), [&](std::uint64_t version) {
            return iterator->value() == Value(n, version);
          }))
        outcome.wrong++;
      if (is_forward) {
        iterator->Next();
      } else {
        iterator->Prev();
      }
    }
    if (IsRefused(iterator->status())) {
      outcome.refused++;
    } else {
      Check(iterator->status());
    }
  }

  void TakeSnapshot() {
    if (snapshot_ != nullptr) db_->ReleaseSnapshot(snapshot_);
    snapshot_ = db_->GetSnapshot();
    then_ = now_;
  }

  void ReadSnapshot(std::uint64_t n) {
    if (snapshot_ == nullptr) return;
    rocksdb::ReadOptions options;
    options.snapshot = snapshot_;
    if (n % 5 == 0) {
      Iterate(options, n, then_);
    } else {
      Get(options, n, then_);
    }
  }

  DB* db_;
  std::uint64_t thread_, keys_;
  bool is_strict_;
  Random random_;
  Versions now_;
  std::vector<Versions> written_;  // of each key, the versions that it has had
  const rocksdb::Snapshot* snapshot_ = nullptr;
  Versions then_;  // when the snapshot was taken
  std::uint64_t last_version_ = 1;
};

// What the workers found, one after the other.
Outcome Work(const std::string& path, const Caches& caches, std::uint64_t keys, bool is_strict) {
  const rocksdb::Options options = OptionsFor(caches, is_strict);
  Outcome all;
  {
    std::unique_ptr<DB> db = Open(options, path);
    Fill(db.get(), keys);
    std::vector<Worker> workers;
    for (std::uint64_t t = 0; t < kThreads; t++) workers.emplace_back(db.get(), t, keys, is_strict);
    std::vector<std::thread> threads;
    for (Worker& worker : workers) threads.emplace_back(&Worker::Run, &worker);
    for (std::thread& thread : threads) thread.join();
    Check(db->VerifyChecksum());
    db.reset();
    db = Open(options, path);
    for (Worker& worker : workers) worker.ReadAgain(db.get());
    for (const Worker& worker : workers) {
      all.refused += worker.outcome.refused;
      all.wrong += worker.outcome.wrong;
      all.answers.insert(all.answers.end(), worker.outcome.answers.begin(),
                         worker.outcome.answers.end());
    }
  }
  all.SetNumbers(caches, *options.statistics);
  Check(rocksdb::DestroyDB(path, options));
  return all;
}

unsigned long long Number(std::uint64_t n) { return n; }

void Print(const char* name, const Outcome& outcome) {
  std::printf(
      "  %-18s %zu answers, %llu refused, %llu wrong, %llu hits, %llu misses, "
      "%llu insertions, charge %zu, %zu pinned, blocks %s\n",
      name, outcome.answers.size(), Number(outcome.refused), Number(outcome.wrong),
      Number(outcome.hits), Number(outcome.misses), Number(outcome.added), outcome.usage,
      outcome.pinned, outcome.blocks.c_str());
}

// Caches by what they are called.

enum class Kind { kOwn, kBlocks, kAny, kClock };

const char* NameOf(Kind kind) {
  return kind == Kind::kOwn      ? "RocksDB's own"
         : kind == Kind::kBlocks ? "RocksDBBlockCache"
         : kind == Kind::kAny    ? "RocksDBCache"
                                 : "RocksDBClockCache";
}

// With one shard, as the two choose different shards for a key, and without what else differs.
Caches WithOneShard(Kind kind, std::size_t capacity, bool is_strict) {
  if (kind == Kind::kBlocks) return {lru::NewRocksDBBlockCache(capacity, 1, is_strict), nullptr};
  if (kind == Kind::kAny) return {lru::NewRocksDBCache(capacity, 1, is_strict), nullptr};
  if (kind == Kind::kClock) return {lru::NewRocksDBClockCache(capacity, 1, is_strict), nullptr};
  rocksdb::LRUCacheOptions options(capacity, 0, is_strict, 0.0);
  options.metadata_charge_policy = rocksdb::kDontChargeCacheMetadata;
  return {rocksdb::NewLRUCache(options), nullptr};
}

// As they are by default. The keys of rows have many lengths.
Caches ByDefault(Kind kind, std::size_t capacity, bool) {
  if (kind == Kind::kBlocks) return {lru::NewRocksDBBlockCache(capacity), nullptr};
  if (kind == Kind::kAny) {
    return {lru::NewRocksDBCache(capacity), lru::NewRocksDBCache(capacity / 4, 2)};
  }
  if (kind == Kind::kClock) return {lru::NewRocksDBClockCache(capacity), nullptr};
  return {rocksdb::NewLRUCache(capacity), rocksdb::NewLRUCache(capacity / 4)};
}

// Whether two caches gave the same answers, apart from what a strict limit refused to either.
bool SameAnswers(const Outcome& one, const Outcome& other) {
  if (one.answers.size() != other.answers.size()) return false;
  for (std::size_t i = 0; i < one.answers.size(); i++) {
    if (one.answers[i] == "refused" || other.answers[i] == "refused") continue;
    if (one.answers[i] != other.answers[i]) return false;
  }
  return true;
}

// Whether the clock is as RocksDB's own cache.
bool IsAsGood(const Outcome& own, const Outcome& clock, bool is_strict) {
  return SameAnswers(own, clock) && (is_strict || clock.hits > own.hits / 2);
}

bool SameNumbers(const Outcome& one, const Outcome& other) {
  return one.hits == other.hits && one.misses == other.misses && one.added == other.added &&
         one.usage == other.usage && one.blocks == other.blocks;
}

// If there were only hits, or only misses, equal numbers would mean nothing.
bool IsGood(const Outcome& outcome) {
  return outcome.wrong == 0 && outcome.pinned == 0 && outcome.hits > 0 && outcome.added > 0;
}

bool all_good = true;

// Compares what both caches gave, at each capacity. `run` makes an outcome, and `is_same` compares
// that of RocksDB's own cache with another one.
template <class Run, class IsSame>
void Compare(const char* what, std::initializer_list<std::size_t> capacities, bool is_strict,
             Caches (*caches)(Kind, std::size_t, bool), Run run, IsSame is_same) {
  std::string numbers;
  for (const std::size_t capacity : capacities) {
    const Outcome own = run(caches(Kind::kOwn, capacity, is_strict), is_strict);
    bool is_good = IsGood(own) && (own.refused > 0) == is_strict;
    for (const Kind kind : {Kind::kBlocks, Kind::kAny, Kind::kClock}) {
      const Outcome proved = run(caches(kind, capacity, is_strict), is_strict);
      const bool is_as_own =
          (kind == Kind::kClock ? IsAsGood(own, proved, is_strict) : is_same(own, proved)) &&
          IsGood(proved) && (proved.refused > 0) == is_strict;
      if (!is_as_own) {
        std::printf("%s, %zu bytes: %s is not as RocksDB's own\n", what, capacity, NameOf(kind));
        Print(NameOf(Kind::kOwn), own);
        Print(NameOf(kind), proved);
      }
      is_good &= is_as_own;
    }
    all_good &= is_good;
    if (!numbers.empty()) numbers += ", ";
    numbers += std::to_string(is_strict ? own.refused : own.hits) + " at " +
               std::to_string(capacity >> 10) + " KiB";
  }
  std::printf("%s: %s %s\n", what, is_strict ? "refused" : "hits", numbers.c_str());
}

// What it costs that there are no priorities.
void ComparePriorities(const std::string& path) {
  // Without compactions beside the writes, the files are the same in each run.
  rocksdb::Options options = OptionsFor(ByDefault(Kind::kOwn, 1 << 20, false), false);
  options.disable_auto_compactions = true;
  Fill(Open(options, path).get(), kKeysToRead);
  for (const std::size_t capacity : {1 << 20, 4 << 20, 16 << 20}) {
    rocksdb::LRUCacheOptions by_default;
    by_default.capacity = capacity;
    by_default.num_shard_bits = 0;
    by_default.metadata_charge_policy = rocksdb::kDontChargeCacheMetadata;
    const Misses with = ReadBetweenScans(path, rocksdb::NewLRUCache(by_default));
    const auto without = [&](Kind kind) {
      return ReadBetweenScans(path, WithOneShard(kind, capacity, false).blocks);
    };
    const Misses own = without(Kind::kOwn), blocks = without(Kind::kBlocks);
    const Misses clock = without(Kind::kClock);
    all_good &= own.index_and_filter == blocks.index_and_filter && own.data == blocks.data;
    all_good &= with.index_and_filter <= blocks.index_and_filter;
    std::printf(
        "priorities, %zu MiB: misses of index and filter blocks, and of data: RocksDB's own %llu, "
        "%llu, without priorities %llu, %llu, RocksDBBlockCache %llu, %llu, RocksDBClockCache "
        "%llu, %llu\n",
        capacity >> 20, Number(with.index_and_filter), Number(with.data),
        Number(own.index_and_filter), Number(own.data), Number(blocks.index_and_filter),
        Number(blocks.data), Number(clock.index_and_filter), Number(clock.data));
  }
}

template <class OneCache>
std::unique_ptr<Cache> Make(const lru::RocksDBCacheOptions& options) {
  return std::unique_ptr<Cache>(OneCache::New(options));
}

// An entry with a key of 16 bytes.
void InsertNumber(Cache* cache, std::uint64_t n) {
  char key[16] = {};
  std::memcpy(key, &n, sizeof n);
  Check(Insert(cache, rocksdb::Slice(key, sizeof key), nullptr, MemoryOfEntries::kCharge,
               NoHelper()));
}

std::size_t UsageOf(Cache* cache) { return cache->GetUsage(); }

template <class OneCache>
bool IsSmall(const char* name, std::size_t most) {
  return TakesLittleMemory<lru::RocksDBCacheOptions>(name, most, Make<OneCache>, InsertNumber,
                                                     UsageOf);
}

}  // namespace

int main(int argc, char** argv) {
  if (argc != 2) {
    std::fprintf(stderr, "usage: rocksdb FOLDER, where FOLDER does not exist yet\n");
    return 2;
  }
  const std::string path = argv[1];
  const std::string work_path = path + "/work";
  all_good &= IsSmall<lru::RocksDBBlockCache>("RocksDBBlockCache", 242);
  all_good &= IsSmall<lru::RocksDBCache>("RocksDBCache", 290);
  using Clock = lru::RocksDBClockCache;
  all_good &= TakesWhatItCounts<lru::RocksDBCacheOptions>("RocksDBClockCache", 180, 230,
                                                          Make<Clock>, InsertNumber, UsageOf);
  {
    const Caches caches = ByDefault(Kind::kOwn, 1 << 20, false);
    Fill(Open(OptionsFor(caches, false), path).get(), kKeysToRead);
  }
  const auto read = [&](const Caches& caches, bool is_strict) {
    return Read(path, caches, is_strict);
  };
  const auto work = [&](const Caches& caches, bool is_strict) {
    return Work(work_path, caches, kKeysPerThread, is_strict);
  };
  const auto work_on_all = [&](const Caches& caches, bool is_strict) {
    return Work(work_path, caches, kKeysToRead, is_strict);
  };
  const auto same_numbers = [](const Outcome& one, const Outcome& other) {
    return one.answers == other.answers && SameNumbers(one, other);
  };
  const auto same_refusals = [](const Outcome& one, const Outcome& other) {
    return one.answers == other.answers;
  };
  const std::initializer_list<std::size_t> loose = {256 << 10, 1 << 20, 8 << 20};
  const std::initializer_list<std::size_t> strict = {10 << 10, 16 << 10, 24 << 10};
  Compare("one thread", loose, false, WithOneShard, read, same_numbers);
  Compare("one thread, strict", strict, true, WithOneShard, read, same_refusals);
  Compare("four threads", loose, false, ByDefault, work, SameAnswers);
  Compare("four threads, 200,000 keys", {1 << 20}, false, ByDefault, work_on_all, SameAnswers);
  Compare("four threads, strict", strict, true, WithOneShard, work, SameAnswers);
  ComparePriorities(path + "/scanned");
  std::printf("RocksDB %d.%d: %llu keys: %s\n", ROCKSDB_MAJOR, ROCKSDB_MINOR,
              Number(kThreads * kKeysToRead),
              all_good ? "equal to RocksDB's own cache" : "NOT EQUAL");
  return all_good ? 0 : 1;
}
