// The cache as the block cache of a LevelDB database.
//
//   block_cache FOLDER     the folder of the database, which is created if it does not exist
#include <cstdio>
#include <memory>
#include <string>

#include "leveldb/db.h"
#include "leveldb/options.h"
#include "leveldb_cache.h"

namespace {

constexpr int kKeys = 10000;

std::string KeyOf(int n) {
  char text[16];
  std::snprintf(text, sizeof text, "key%08d", n);
  return text;
}

int Fail(const leveldb::Status& status) {
  std::fprintf(stderr, "block_cache: %s\n", status.ToString().c_str());
  return 1;
}

}  // namespace

int main(int argc, char** argv) {
  if (argc != 2) {
    std::fprintf(stderr, "usage: block_cache FOLDER\n");
    return 2;
  }
  // Declared first and destroyed last, as the database uses it.
  const std::unique_ptr<leveldb::Cache> cache(lru::NewLevelDBBlockCache(512 << 10));
  if (cache == nullptr) return Fail(leveldb::Status::IOError("no memory for the cache"));

  leveldb::Options options;
  options.create_if_missing = true;
  options.block_cache = cache.get();
  leveldb::DB* opened = nullptr;
  leveldb::Status status = leveldb::DB::Open(options, argv[1], &opened);
  if (!status.ok()) return Fail(status);
  const std::unique_ptr<leveldb::DB> db(opened);

  for (int n = 0; n < kKeys; n++) {
    // LevelDB does not cache blocks that it stored uncompressed, so these values compress.
    status = db->Put(leveldb::WriteOptions(), KeyOf(n),
                     std::string(200, static_cast<char>('a' + n % 26)));
    if (!status.ok()) return Fail(status);
  }
  db->CompactRange(nullptr, nullptr);  // writes the values to blocks on disk

  int found = 0;
  for (int round = 0; round < 2; round++) {
    for (int n = 0; n < kKeys; n += 7) {
      std::string value;
      status = db->Get(leveldb::ReadOptions(), KeyOf(n), &value);
      if (!status.ok()) return Fail(status);
      if (value == std::string(200, static_cast<char>('a' + n % 26))) found++;
    }
  }
  std::printf("%d values read, %zu KiB of blocks in the cache\n", found,
              cache->TotalCharge() >> 10);
  return 0;
}
