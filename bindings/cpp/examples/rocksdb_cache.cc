// The cache as the block cache of a RocksDB database.
//
//   rocksdb_cache FOLDER     the folder of the database, which is created if it does not exist
#include "rocksdb_cache.h"

#include <cstdio>
#include <memory>
#include <string>

#include "rocksdb/db.h"
#include "rocksdb/options.h"
#include "rocksdb/table.h"

namespace {

constexpr int kKeys = 10000;

std::string KeyOf(int n) {
  char text[16];
  std::snprintf(text, sizeof text, "key%08d", n);
  return text;
}

int Fail(const rocksdb::Status& status) {
  std::fprintf(stderr, "rocksdb_cache: %s\n", status.ToString().c_str());
  return 1;
}

}  // namespace

int main(int argc, char** argv) {
  if (argc != 2) {
    std::fprintf(stderr, "usage: rocksdb_cache FOLDER\n");
    return 2;
  }
  rocksdb::BlockBasedTableOptions table;
  table.block_cache = lru::NewRocksDBBlockCache(512 << 10);
  if (table.block_cache == nullptr) return Fail(rocksdb::Status::MemoryLimit());

  rocksdb::Options options;
  options.create_if_missing = true;
  options.table_factory.reset(rocksdb::NewBlockBasedTableFactory(table));
  rocksdb::DB* opened = nullptr;
  rocksdb::Status status = rocksdb::DB::Open(options, argv[1], &opened);
  if (!status.ok()) return Fail(status);
  const std::unique_ptr<rocksdb::DB> db(opened);

  for (int n = 0; n < kKeys; n++) {
    status = db->Put(rocksdb::WriteOptions(), KeyOf(n),
                     std::string(200, static_cast<char>('a' + n % 26)));
    if (!status.ok()) return Fail(status);
  }
  // Writes the values to blocks on disk.
  status = db->CompactRange(rocksdb::CompactRangeOptions(), nullptr, nullptr);
  if (!status.ok()) return Fail(status);

  int found = 0;
  for (int round = 0; round < 2; round++) {
    for (int n = 0; n < kKeys; n += 7) {
      std::string value;
      status = db->Get(rocksdb::ReadOptions(), KeyOf(n), &value);
      if (!status.ok()) return Fail(status);
      if (value == std::string(200, static_cast<char>('a' + n % 26))) found++;
    }
  }
  // A block takes about 4 KiB, so that the cache is full but for a part of one.
  const bool is_full = table.block_cache->GetUsage() > 500 << 10;
  std::printf("%d values read, the cache is %s\n", found, is_full ? "full" : "not full");
  return 0;
}
