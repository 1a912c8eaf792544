// Compares random reads of a LevelDB database with this block cache, and with LevelDB's own, by
// pairs of runs (pairs.hpp).
//
//   read_bench FOLDER [ROUNDS [READS]]     creates the database in FOLDER if it does not exist; by
//                                          default 9 rounds of 300,000 reads
//
// The caches are LevelDB's own (leveldb-sharded), and what lru::NewLevelDBBlockCache (block-exact)
// and lru::NewLevelDBClockCache (block-clock) make. reads_all: the cache has room for all blocks,
// 64 MiB; reads_tenth: for about a tenth of them, 2 MiB. By 1 and by 4 threads, once the cache is
// warm.
#include <sys/stat.h>

#include <cstddef>
#include <cstdint>
#include <cstdio>
#include <cstdlib>
#include <memory>
#include <string>
#include <vector>

#include "leveldb/cache.h"
#include "leveldb/db.h"
#include "leveldb/options.h"
#include "leveldb_cache.h"
#include "leveldb_clock_cache.h"
#include "pairs.hpp"
#include "random_reads.hpp"

namespace {

constexpr std::uint64_t kKeys = 200000;

void Check(const leveldb::Status& status) {
  if (status.ok()) return;
  std::fprintf(stderr, "read_bench: %s\n", status.ToString().c_str());
  std::exit(1);
}

std::unique_ptr<leveldb::DB> Open(const std::string& path, leveldb::Cache* cache, bool create) {
  leveldb::Options options;
  options.create_if_missing = create;
  options.block_cache = cache;
  leveldb::DB* db = nullptr;
  Check(leveldb::DB::Open(options, path, &db));
  return std::unique_ptr<leveldb::DB>(db);
}

void Fill(const std::string& path) {
  const std::unique_ptr<leveldb::Cache> cache(leveldb::NewLRUCache(1 << 20));
  const std::unique_ptr<leveldb::DB> db = Open(path, cache.get(), true);
  for (std::uint64_t i = 0; i < kKeys; i++) {
    const std::uint64_t n = i * 7919 % kKeys;
    Check(db->Put(leveldb::WriteOptions(), bench::KeyOf(n), bench::ValueOf(n)));
  }
  // Twice, since the first call may leave what it flushes to a level of its own.
  for (int turn = 0; turn < 2; turn++) db->CompactRange(nullptr, nullptr);
}

// What a read takes, once the cache is warm.
bench::Times Measure(const std::string& path, leveldb::Cache* new_cache, std::size_t threads,
                     std::uint64_t reads) {
  const std::unique_ptr<leveldb::Cache> cache(new_cache);
  const std::unique_ptr<leveldb::DB> db = Open(path, cache.get(), false);
  const auto get = [&](const std::string& key, std::string* value) {
    Check(db->Get(leveldb::ReadOptions(), key, value));
  };
  return bench::TimesOfReads(get, threads, reads, kKeys, [] {});
}

struct Named {
  const char* name;
  leveldb::Cache* (*make)(std::size_t capacity);
};

constexpr Named kCaches[] = {
    {"leveldb-sharded", leveldb::NewLRUCache},
    {"block-exact", [](std::size_t capacity) { return lru::NewLevelDBBlockCache(capacity); }},
    {"block-clock", [](std::size_t capacity) { return lru::NewLevelDBClockCache(capacity); }}};

struct Work {
  const char* name;
  std::size_t mebibytes;
};

constexpr Work kWork[] = {{"reads_all", 64}, {"reads_tenth", 2}};

}  // namespace

int main(int argc, char** argv) {
  const int rounds = argc > 2 ? std::atoi(argv[2]) : 9;
  const std::uint64_t reads = argc > 3 ? std::strtoull(argv[3], nullptr, 10) : 300000;
  if (argc < 2 || argc > 4 || rounds < 1 || reads < 4) {
    std::fprintf(stderr, "usage: read_bench FOLDER [ROUNDS [READS]]\n");
    return 2;
  }
  const std::string path = argv[1];
  struct stat found;
  if (stat(path.c_str(), &found) != 0) Fill(path);
  for (const Work& work : kWork) {
    for (const std::size_t threads : {1u, 4u}) {
      std::vector<bench::System> systems;
      for (const Named& cache : kCaches) {
        systems.push_back({cache.name, [&] {
                             return Measure(path, cache.make(work.mebibytes << 20), threads, reads);
                           }});
      }
      bench::Compare(systems,
                     std::string(work.name) + " " + std::to_string(work.mebibytes) + " " +
                         std::to_string(threads),
                     rounds);
    }
  }
}
