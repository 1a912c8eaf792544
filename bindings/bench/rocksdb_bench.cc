// Measures random reads of a RocksDB database with a block cache, for tools/speed/pairs, which
// compares it with others by pairs of runs.
//
//   rocksdb_bench FOLDER CACHE [READS]     creates the database in FOLDER if it does not exist
//
// CACHE is block-clock, which is what lru::NewRocksDBClockCache makes, block-exact, which is what
// lru::NewRocksDBBlockCache makes, or one of RocksDB's own: rocksdb-hyper, its HyperClockCache, or
// rocksdb-sharded, its LRUCache. Metadata is not charged, so that all have room for as many blocks.
//
// reads_all: the cache has room for all blocks, which are some 25 MB of 200,000 keys; reads_tenth:
// for about a tenth of them. Each is of 300,000 reads, unless their number is passed, by 1, 4 and 8
// threads together, once the cache is warm. Prints lines `CACHE WORKLOAD MEBIBYTES THREADS
// NANOSECONDS`: the capacity, and the wall time of all reads divided by their number; and to
// standard error lines `# hits CACHE WORKLOAD MEBIBYTES THREADS RATIO`: how many of the blocks that
// were looked up the cache had.
#include <sys/stat.h>

#include <atomic>
#include <cstddef>
#include <cstdint>
#include <cstdio>
#include <cstdlib>
#include <cstring>
#include <memory>
#include <string>
#include <utility>

#include "pairs.hpp"
#include "random_reads.hpp"
#include "rocksdb/cache.h"
#include "rocksdb/db.h"
#include "rocksdb/options.h"
#include "rocksdb/perf_context.h"
#include "rocksdb/table.h"
#include "rocksdb_cache.h"
#include "rocksdb_clock_cache.h"

namespace {

constexpr std::uint64_t kKeys = 200000;

void Check(const rocksdb::Status& status) {
  if (status.ok()) return;
  std::fprintf(stderr, "rocksdb_bench: %s\n", status.ToString().c_str());
  std::exit(1);
}

std::unique_ptr<rocksdb::DB> Open(const std::string& path, std::shared_ptr<rocksdb::Cache> cache,
                                  bool create) {
  rocksdb::BlockBasedTableOptions table;
  table.block_cache = std::move(cache);
  rocksdb::Options options;
  options.create_if_missing = create;
  options.table_factory.reset(rocksdb::NewBlockBasedTableFactory(table));
  rocksdb::DB* db = nullptr;
  Check(rocksdb::DB::Open(options, path, &db));
  return std::unique_ptr<rocksdb::DB>(db);
}

void Fill(const std::string& path) {
  const std::unique_ptr<rocksdb::DB> db = Open(path, rocksdb::NewLRUCache(1 << 20), true);
  for (std::uint64_t n = 0; n < kKeys; n++) {
    Check(db->Put(rocksdb::WriteOptions(), bench::KeyOf(n), bench::ValueOf(n)));
  }
  Check(db->CompactRange(rocksdb::CompactRangeOptions(), nullptr, nullptr));
}

std::shared_ptr<rocksdb::Cache> NewLRU(std::size_t capacity) {
  rocksdb::LRUCacheOptions options;
  options.capacity = capacity;
  options.metadata_charge_policy = rocksdb::kDontChargeCacheMetadata;
  return rocksdb::NewLRUCache(options);
}

std::shared_ptr<rocksdb::Cache> NewHyperClock(std::size_t capacity) {
  rocksdb::HyperClockCacheOptions options(capacity, 4096);
  options.metadata_charge_policy = rocksdb::kDontChargeCacheMetadata;
  return options.MakeSharedCache();
}

struct Named {
  const char* name;
  std::shared_ptr<rocksdb::Cache> (*make)(std::size_t capacity);
};

constexpr Named kCaches[] = {
    {"block-clock", [](std::size_t capacity) { return lru::NewRocksDBClockCache(capacity); }},
    {"block-exact", [](std::size_t capacity) { return lru::NewRocksDBBlockCache(capacity); }},
    {"rocksdb-hyper", NewHyperClock},
    {"rocksdb-sharded", NewLRU}};

const Named* Find(const char* name) {
  for (const Named& cache : kCaches) {
    if (std::strcmp(cache.name, name) == 0) return &cache;
  }
  return nullptr;
}

void Measure(const std::string& path, const Named& cache, const char* workload,
             std::size_t mebibytes, std::size_t threads, std::uint64_t reads) {
  const std::unique_ptr<rocksdb::DB> db = Open(path, cache.make(mebibytes << 20), false);
  std::atomic<std::uint64_t> hits{0}, misses{0};
  const auto get = [&](const std::string& key, std::string* value) {
    Check(db->Get(rocksdb::ReadOptions(), key, value));
  };
  // RocksDB counts what each thread does, and these are new.
  const bench::Times times = bench::TimesOfReads(get, threads, reads, kKeys, [&] {
    hits += rocksdb::get_perf_context()->block_cache_hit_count;
    misses += rocksdb::get_perf_context()->block_read_count;
  });
  std::printf("%s %s %zu %zu %.1f\n", cache.name, workload, mebibytes, threads, times.wall);
  std::fprintf(stderr, "# hits %s %s %zu %zu %.3f\n", cache.name, workload, mebibytes, threads,
               static_cast<double>(hits) / static_cast<double>(hits + misses));
}

}  // namespace

int main(int argc, char** argv) {
  const Named* const cache = argc > 2 ? Find(argv[2]) : nullptr;
  const std::uint64_t reads = argc > 3 ? std::strtoull(argv[3], nullptr, 10) : 300000;
  if (cache == nullptr || argc > 4 || reads < 8) {
    std::fprintf(stderr, "usage: rocksdb_bench FOLDER CACHE [READS]\n");
    return 2;
  }
  const std::string path = argv[1];
  struct stat found;
  if (stat(path.c_str(), &found) != 0) Fill(path);
  for (const std::size_t threads : {1u, 4u, 8u}) {
    Measure(path, *cache, "reads_all", 64, threads, reads);
    Measure(path, *cache, "reads_tenth", 2, threads, reads);
  }
}
