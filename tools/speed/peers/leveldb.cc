// The workloads of `lru_bench run` on LevelDB's cache: `run WORKLOAD ENTRIES CALLS` prints the same
// sum as that program does. This cache always has 16 shards, so the one for hits has four times the
// capacity, in which all entries fit.
#include <cstdint>
#include <cstdio>
#include <cstdlib>
#include <memory>
#include <string_view>

#include "leveldb/cache.h"

namespace {

// The first key that no cache is filled with.
constexpr std::uint64_t kFirstAbsent = 10'000'000;

// The keys below a number of entries that the worker of a number draws.
class Draws {
 public:
  Draws(std::uint64_t entries, std::uint64_t worker) : entries_(entries), state_(worker * 77 + 1) {}

  std::uint64_t Next() {
    state_ = state_ * 6'364'136'223'846'793'005u + 1'442'695'040'888'963'407u;
    return (state_ >> 33) % entries_;
  }

 private:
  std::uint64_t entries_;
  std::uint64_t state_;
};

void Delete(const leveldb::Slice&, void* value) { delete static_cast<std::uint64_t*>(value); }

// Returns the value of a key after releasing its entry, which is made if there is none.
std::uint64_t GetOrInit(leveldb::Cache& cache, std::uint64_t key) {
  const leveldb::Slice bytes(reinterpret_cast<const char*>(&key), sizeof key);
  leveldb::Cache::Handle* handle = cache.Lookup(bytes);
  if (handle == nullptr) handle = cache.Insert(bytes, new std::uint64_t(key), 1, Delete);
  const std::uint64_t value = *static_cast<std::uint64_t*>(cache.Value(handle));
  cache.Release(handle);
  return value;
}

std::uint64_t UsePresent(leveldb::Cache& cache, Draws draws, std::uint64_t calls) {
  std::uint64_t sum = 0;
  for (std::uint64_t call = 0; call < calls; ++call) sum += GetOrInit(cache, draws.Next());
  return sum;
}

std::uint64_t UseAscending(leveldb::Cache& cache, std::uint64_t first, std::uint64_t calls) {
  std::uint64_t sum = 0;
  for (std::uint64_t call = 0; call < calls; ++call) sum += GetOrInit(cache, first + call);
  return sum;
}

std::uint64_t Run(bool hits, std::uint64_t entries, std::uint64_t calls) {
  std::unique_ptr<leveldb::Cache> cache(leveldb::NewLRUCache(hits ? 4 * entries : entries));
  UseAscending(*cache, 0, entries);
  UsePresent(*cache, Draws(entries, 1), 2 * entries);
  return hits ? UsePresent(*cache, Draws(entries, 0), calls)
              : UseAscending(*cache, kFirstAbsent, calls);
}

}  // namespace

int main(int argc, char** argv) {
  const std::string_view workload = argc == 5 ? argv[2] : "";
  const std::uint64_t entries = argc == 5 ? std::strtoull(argv[3], nullptr, 10) : 0;
  if ((workload != "hit_get" && workload != "miss_evict") || entries == 0) {
    std::fputs("usage: run hit_get|miss_evict ENTRIES CALLS\n", stderr);
    return 2;
  }
  const std::uint64_t calls = std::strtoull(argv[4], nullptr, 10);
  const std::uint64_t sum = Run(workload == "hit_get", entries, calls);
  std::printf("%llu\n", static_cast<unsigned long long>(sum));
}
