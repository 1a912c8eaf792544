// RocksDB's interface for caches as the tests call it, which is the same for 7.8 and 9.10.
#ifndef LRU_TESTS_ROCKSDB_INTERFACE_HPP
#define LRU_TESTS_ROCKSDB_INTERFACE_HPP

#include <cstddef>

#include "rocksdb_cache.h"

// Deletes a value. The key is null in 9.10, which does not tell it.
using DeleteValue = void(const rocksdb::Slice* key, void* value);

using Handle = rocksdb::Cache::Handle;
using Priority = rocksdb::Cache::Priority;

#if ROCKSDB_MAJOR == 7

using Helper = rocksdb::Cache::DeleterFn;

template <DeleteValue* kDelete>
Helper HelperFor() {
  return [](const rocksdb::Slice& key, void* value) { kDelete(&key, value); };
}

inline Helper NoHelper() { return nullptr; }

inline rocksdb::Status Insert(rocksdb::Cache* cache, const rocksdb::Slice& key, void* value,
                              std::size_t charge, Helper helper, Handle** handle = nullptr,
                              Priority priority = Priority::LOW) {
  return cache->Insert(key, value, charge, helper, handle, priority);
}

// There are no such entries.
inline Handle* CreateStandalone(rocksdb::Cache*, const rocksdb::Slice&, void*, std::size_t, Helper,
                                bool) {
  return nullptr;
}

inline Helper HelperOf(rocksdb::Cache* cache, Handle* handle) { return cache->GetDeleter(handle); }

#else

using Helper = const rocksdb::Cache::CacheItemHelper*;

template <DeleteValue* kDelete>
Helper HelperFor() {
  static const rocksdb::Cache::CacheItemHelper helper(
      rocksdb::CacheEntryRole::kMisc,
      [](void* value, rocksdb::MemoryAllocator*) { kDelete(nullptr, value); });
  return &helper;
}

inline Helper NoHelper() { return &rocksdb::kNoopCacheItemHelper; }

inline rocksdb::Status Insert(rocksdb::Cache* cache, const rocksdb::Slice& key, void* value,
                              std::size_t charge, Helper helper, Handle** handle = nullptr,
                              Priority priority = Priority::LOW) {
  return cache->Insert(key, value, helper, charge, handle, priority);
}

inline Handle* CreateStandalone(rocksdb::Cache* cache, const rocksdb::Slice& key, void* value,
                                std::size_t charge, Helper helper, bool allow_uncharged) {
  return cache->CreateStandalone(key, value, helper, charge, allow_uncharged);
}

inline Helper HelperOf(rocksdb::Cache* cache, Handle* handle) {
  return cache->GetCacheItemHelper(handle);
}

#endif

#endif
