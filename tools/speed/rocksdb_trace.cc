// Works on a RocksDB database and prints a trace: a line for each use of a block of data, with the
// number of the block, in the order of the first uses, and its size in bytes. The trace
// crates/lru_size/data/rocksdb was recorded with it.
//
//   rocksdb_trace FOLDER     makes the database in FOLDER, which must not exist
//
// The trace is always the same: one thread does the work, with a fixed seed, and the database is
// flushed and compacted only where the program says so. It is for RocksDB 7.8, which is Debian's
// librocksdb-dev.
#include <algorithm>
#include <cmath>
#include <cstddef>
#include <cstdint>
#include <cstdio>
#include <cstdlib>
#include <functional>
#include <memory>
#include <numeric>
#include <string>
#include <unordered_map>
#include <utility>
#include <vector>

#include "rocksdb/cache.h"
#include "rocksdb/db.h"
#include "rocksdb/filter_policy.h"
#include "rocksdb/options.h"
#include "rocksdb/table.h"

namespace {

constexpr std::size_t kEntries = 50'000;
constexpr double kExponent = 0.9;
constexpr int kRounds = 8;
constexpr int kOperations = 8'000;

// RocksDB's own cache, which prints the uses while they are recorded: a lookup that finds its block
// is one, and so is an insertion, which comes after a lookup that does not.
class RecordedCache : public rocksdb::Cache {
 public:
  explicit RecordedCache(std::size_t capacity) : cache_(rocksdb::NewLRUCache(capacity)) {}

  void Record(bool is_recorded) { is_recorded_ = is_recorded; }

  rocksdb::Status Insert(const rocksdb::Slice& key, void* block, const CacheItemHelper* helper,
                         std::size_t charge, Handle** handle, Priority priority) override {
    Use(key, block, *helper);
    return cache_->Insert(key, block, helper, charge, handle, priority);
  }
  Handle* Lookup(const rocksdb::Slice& key, const CacheItemHelper* helper,
                 const CreateCallback& create, Priority priority, bool wait,
                 rocksdb::Statistics* statistics) override {
    Handle* const handle = cache_->Lookup(key, helper, create, priority, wait, statistics);
    if (handle != nullptr) Use(key, cache_->Value(handle), *helper);
    return handle;
  }

  // RocksDB calls these two for what is no block.
  rocksdb::Status Insert(const rocksdb::Slice& key, void* value, std::size_t charge,
                         DeleterFn deleter, Handle** handle, Priority priority) override {
    return cache_->Insert(key, value, charge, deleter, handle, priority);
  }
  Handle* Lookup(const rocksdb::Slice& key, rocksdb::Statistics* statistics) override {
    return cache_->Lookup(key, statistics);
  }

  const char* Name() const override { return "RecordedCache"; }
  bool Ref(Handle* handle) override { return cache_->Ref(handle); }
  bool Release(Handle* handle, bool erase) override { return cache_->Release(handle, erase); }
  void* Value(Handle* handle) override { return cache_->Value(handle); }
  void Erase(const rocksdb::Slice& key) override { cache_->Erase(key); }
  std::uint64_t NewId() override { return cache_->NewId(); }
  void SetCapacity(std::size_t capacity) override { cache_->SetCapacity(capacity); }
  void SetStrictCapacityLimit(bool limit) override { cache_->SetStrictCapacityLimit(limit); }
  bool HasStrictCapacityLimit() const override { return cache_->HasStrictCapacityLimit(); }
  std::size_t GetCapacity() const override { return cache_->GetCapacity(); }
  std::size_t GetUsage() const override { return cache_->GetUsage(); }
  std::size_t GetUsage(Handle* handle) const override { return cache_->GetUsage(handle); }
  std::size_t GetPinnedUsage() const override { return cache_->GetPinnedUsage(); }
  std::size_t GetCharge(Handle* handle) const override { return cache_->GetCharge(handle); }
  DeleterFn GetDeleter(Handle* handle) const override { return cache_->GetDeleter(handle); }
  void ApplyToAllEntries(
      const std::function<void(const rocksdb::Slice&, void*, std::size_t, DeleterFn)>& callback,
      const ApplyToAllEntriesOptions& options) override {
    cache_->ApplyToAllEntries(callback, options);
  }
  void EraseUnRefEntries() override { cache_->EraseUnRefEntries(); }

 private:
  // The charge that RocksDB computes depends on malloc, and differs from run to run.
  void Use(const rocksdb::Slice& key, void* block, const CacheItemHelper& helper) {
    if (!is_recorded_) return;
    const std::size_t number = numbers_.try_emplace(key.ToString(), numbers_.size()).first->second;
    std::printf("%zu %zu\n", number, helper.size_cb(block));
  }

  const std::shared_ptr<rocksdb::Cache> cache_;
  bool is_recorded_ = false;
  std::unordered_map<std::string, std::size_t> numbers_;
};

// Numbers by the generator of the benchmark's keys.
class Draws {
 public:
  std::size_t Below(std::size_t bound) { return static_cast<std::size_t>(Next() * bound); }

  // From 0 up to 1.
  double Next() {
    state_ = state_ * 6'364'136'223'846'793'005u + 1'442'695'040'888'963'407u;
    return static_cast<double>(state_ >> 11) / 9'007'199'254'740'992.0;
  }

 private:
  std::uint64_t state_ = 1;
};

void Check(const rocksdb::Status& status) {
  if (status.ok()) return;
  std::fprintf(stderr, "rocksdb_trace: %s\n", status.ToString().c_str());
  std::exit(1);
}

class Work {
 public:
  Work(const std::string& folder, std::shared_ptr<rocksdb::Cache> cache) {
    rocksdb::BlockBasedTableOptions table;
    table.block_cache = std::move(cache);
    table.filter_policy.reset(rocksdb::NewBloomFilterPolicy(10));
    rocksdb::Options options;
    options.table_factory.reset(rocksdb::NewBlockBasedTableFactory(table));
    options.create_if_missing = true;
    options.error_if_exists = true;
    options.compression = rocksdb::kNoCompression;
    // so that nothing is flushed or compacted by itself
    options.write_buffer_size = 256 << 20;
    options.disable_auto_compactions = true;
    rocksdb::DB* db = nullptr;
    Check(rocksdb::DB::Open(options, folder, &db));
    db_.reset(db);

    double sum = 0;
    for (std::size_t rank = 0; rank < kEntries; ++rank) {
      sums_.push_back(sum += std::pow(static_cast<double>(rank + 1), -kExponent));
    }
    std::iota(numbers_.begin(), numbers_.end(), std::size_t{0});
    for (std::size_t rank = kEntries - 1; rank > 0; --rank) {
      std::swap(numbers_[rank], numbers_[draws_.Below(rank + 1)]);
    }
  }

  void Fill() {
    for (std::size_t number = 0; number < kEntries; ++number) Put(KeyOf(number));
    Flush();
    Compact();
  }

  // Of 100 operations, about 65 get an entry, 5 scan up to 100 entries, 25 overwrite an entry or
  // bring a deleted one back, and 5 delete one.
  void Operate() {
    const std::size_t kind = draws_.Below(100);
    const std::string key = DrawKey();
    if (kind < 65) {
      std::string value;
      const rocksdb::Status status = db_->Get(rocksdb::ReadOptions(), key, &value);
      if (!status.IsNotFound()) Check(status);
    } else if (kind < 70) {
      Scan(key, 1 + draws_.Below(100));
    } else if (kind < 95) {
      Put(key);
    } else {
      Check(db_->Delete(rocksdb::WriteOptions(), key));
    }
  }

  void Flush() { Check(db_->Flush(rocksdb::FlushOptions())); }

  void Compact() { Check(db_->CompactRange(rocksdb::CompactRangeOptions(), nullptr, nullptr)); }

 private:
  static std::string KeyOf(std::size_t number) {
    char text[24];
    std::snprintf(text, sizeof text, "%016zu", number);
    return text;
  }

  // By Zipf's law, with the ranks in an order unrelated to that of the keys.
  std::string DrawKey() {
    const auto found = std::upper_bound(sums_.begin(), sums_.end(), draws_.Next() * sums_.back());
    const auto rank = static_cast<std::size_t>(found - sums_.begin());
    return KeyOf(numbers_[std::min(rank, kEntries - 1)]);
  }

  void Put(const std::string& key) {
    const std::string value(100 + draws_.Below(301), 'v');
    Check(db_->Put(rocksdb::WriteOptions(), key, value));
  }

  void Scan(const std::string& first, std::size_t count) {
    const std::unique_ptr<rocksdb::Iterator> at(db_->NewIterator(rocksdb::ReadOptions()));
    at->Seek(first);
    for (std::size_t seen = 1; seen < count && at->Valid(); ++seen) at->Next();
    Check(at->status());
  }

  std::unique_ptr<rocksdb::DB> db_;
  // For each rank, the sum of the weights up to it, and the number of its key.
  std::vector<double> sums_;
  std::vector<std::size_t> numbers_ = std::vector<std::size_t>(kEntries);
  Draws draws_;
};

}  // namespace

int main(int argc, char** argv) {
  if (argc != 2) {
    std::fputs("usage: rocksdb_trace FOLDER\n", stderr);
    return 2;
  }
  const auto cache = std::make_shared<RecordedCache>(std::size_t{8} << 20);
  Work work(argv[1], cache);
  work.Fill();
  for (int round = 1; round <= kRounds; ++round) {
    cache->Record(true);
    for (int operation = 0; operation < kOperations; ++operation) work.Operate();
    // A compaction looks blocks up, but inserts none, so its lookups are not uses.
    cache->Record(false);
    work.Flush();
    if (round == kRounds / 2) work.Compact();
  }
  return std::fflush(stdout) == 0 ? 0 : 1;
}
