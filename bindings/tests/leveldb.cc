// Reads a database of 20,000 keys with these block caches and with LevelDB's own, at three
// capacities, and one of 200,000 keys with that of the clock and with LevelDB's own. All answers
// must be equal, and the numbers of hits and insertions and the total charge at the end. With the
// clock, which evicts other blocks, only the answers must be, and there must be at least half as
// many hits. Four threads read, write, delete, iterate and compact the second one, each its own
// keys, and then all answers must be right and equal too. Prints these numbers, and exits with 1 if
// something differs.
#include <cstdint>
#include <cstdio>
#include <cstdlib>
#include <cstring>
#include <memory>
#include <string>
#include <thread>
#include <utility>
#include <vector>

#include "leveldb/cache.h"
#include "leveldb/db.h"
#include "leveldb/options.h"
#include "leveldb_cache.h"
#include "leveldb_clock_cache.h"
#include "memory_of_entries.hpp"

namespace {

constexpr std::uint64_t kKeys = 20000;
constexpr std::uint64_t kManyKeys = 200000;
constexpr std::uint64_t kReads = 60000;

std::uint64_t Mix(std::uint64_t x) {
  x += 0x9e3779b97f4a7c15u;
  x = (x ^ (x >> 30)) * 0xbf58476d1ce4e5b9u;
  x = (x ^ (x >> 27)) * 0x94d049bb133111ebu;
  return x ^ (x >> 31);
}

std::string KeyOf(std::uint64_t n) {
  char text[24];
  std::snprintf(text, sizeof text, "%016llu", static_cast<unsigned long long>(n));
  return text;
}

// 300 bytes that compress well: LevelDB does not cache blocks that it stored uncompressed.
std::string ValueOf(std::uint64_t n) {
  std::string value;
  for (std::uint64_t i = 0; i < 6; i++) {
    const std::uint64_t word = Mix(n * 8 + i);
    value.append(reinterpret_cast<const char*>(&word), sizeof word);
  }
  value.append(300 - value.size(), 'v');
  return value;
}

// Counts the calls of a cache, for one thread.
class Counting : public leveldb::Cache {
 public:
  explicit Counting(leveldb::Cache* cache) : cache_(cache) {}

  Handle* Insert(const leveldb::Slice& key, void* value, std::size_t charge,
                 void (*deleter)(const leveldb::Slice&, void*)) override {
    inserts++;
    return cache_->Insert(key, value, charge, deleter);
  }
  Handle* Lookup(const leveldb::Slice& key) override {
    lookups++;
    Handle* handle = cache_->Lookup(key);
    if (handle != nullptr) hits++;
    return handle;
  }
  void Release(Handle* handle) override { cache_->Release(handle); }
  void* Value(Handle* handle) override { return cache_->Value(handle); }
  void Erase(const leveldb::Slice& key) override { cache_->Erase(key); }
  std::uint64_t NewId() override { return cache_->NewId(); }
  void Prune() override { cache_->Prune(); }
  std::size_t TotalCharge() const override { return cache_->TotalCharge(); }

  std::uint64_t lookups = 0;
  std::uint64_t hits = 0;
  std::uint64_t inserts = 0;

 private:
  std::unique_ptr<leveldb::Cache> cache_;
};

void Check(const leveldb::Status& status) {
  if (status.ok()) return;
  std::fprintf(stderr, "%s\n", status.ToString().c_str());
  std::exit(2);
}

std::unique_ptr<leveldb::DB> Open(const std::string& path, leveldb::Cache* cache, bool create) {
  leveldb::Options options;
  options.create_if_missing = create;
  options.block_cache = cache;
  leveldb::DB* db = nullptr;
  Check(leveldb::DB::Open(options, path, &db));
  return std::unique_ptr<leveldb::DB>(db);
}

void Fill(const std::string& path, std::uint64_t keys) {
  const std::unique_ptr<leveldb::Cache> cache(leveldb::NewLRUCache(1 << 20));
  const std::unique_ptr<leveldb::DB> db = Open(path, cache.get(), true);
  for (std::uint64_t i = 0; i < keys; i++) {
    const std::uint64_t n = i * 7919 % keys;
    Check(db->Put(leveldb::WriteOptions(), KeyOf(n), ValueOf(n)));
  }
  // The first call compacts the levels that have files when it begins. The last writes may be
  // flushed to one below these only then, and LevelDB would compact that while it is read.
  for (int turn = 0; turn < 2; turn++) db->CompactRange(nullptr, nullptr);
}

// The key that a read asks for. Nine of ten are from a tenth of the keys, and one in fifty does not
// exist.
std::uint64_t Asked(std::uint64_t read, std::uint64_t keys) {
  const std::uint64_t x = Mix(read);
  if (x % 50 == 0) return keys + x % keys;
  return (x >> 8) % 10 != 0 ? (x >> 16) % (keys / 10) * 10 : (x >> 16) % keys;
}

struct Outcome {
  std::vector<std::string> answers;
  std::uint64_t lookups, hits, inserts;
  std::size_t total_charge;
  std::uint64_t wrong;
};

// Random reads, with a scan of all keys halfway.
Outcome Read(const std::string& path, leveldb::Cache* cache, std::uint64_t keys = kKeys) {
  Counting counting(cache);
  Outcome outcome = {};
  {
    const std::unique_ptr<leveldb::DB> db = Open(path, &counting, false);
    for (std::uint64_t read = 0; read < kReads; read++) {
      if (read == kReads / 2) {
        const std::unique_ptr<leveldb::Iterator> all(db->NewIterator(leveldb::ReadOptions()));
        std::uint64_t n = 0;
        for (all->SeekToFirst(); all->Valid(); all->Next(), n++) {
          if (all->key() != KeyOf(n) || all->value() != ValueOf(n)) outcome.wrong++;
        }
        if (n != keys) outcome.wrong++;
      }
      const std::uint64_t n = Asked(read, keys);
      std::string value;
      const leveldb::Status status = db->Get(leveldb::ReadOptions(), KeyOf(n), &value);
      if (!status.IsNotFound()) Check(status);
      if (status.IsNotFound() ? n < keys : value != ValueOf(n)) outcome.wrong++;
      outcome.answers.push_back(status.IsNotFound() ? "none" : value);
    }
    outcome.lookups = counting.lookups;
    outcome.hits = counting.hits;
    outcome.inserts = counting.inserts;
    outcome.total_charge = counting.TotalCharge();
  }
  return outcome;
}

// The calls of one thread on its own keys, from `first` on, each of which has the version 0 at the
// beginning. A key that was deleted has none.
class Worker {
 public:
  Worker(leveldb::DB* db, std::uint64_t first, std::uint64_t count)
      : db_(db), first_(first), versions_(count, 0) {}

  void Run() {
    constexpr std::uint64_t kCalls = 20000;
    for (std::uint64_t call = 0; call < kCalls; call++) {
      const std::uint64_t x = Mix(first_ + call), kind = x % 1000;
      const std::uint64_t n = (x >> 16) % versions_.size();
      if (kind < 500) {
        Get(n);
      } else if (kind < 750) {
        versions_[n] = call + 1;
        Check(db_->Put(leveldb::WriteOptions(), Key(n), ValueOf(Named(n))));
      } else if (kind < 850) {
        versions_[n] = kNone;
        Check(db_->Delete(leveldb::WriteOptions(), Key(n)));
      } else if (kind < 999) {
        Iterate(n, x % 2 == 0);
      } else {
        const std::string begin = Key(n), end = Key(n + versions_.size() / 10);
        const leveldb::Slice from = begin, to = end;
        db_->CompactRange(&from, &to);
      }
    }
  }

  std::vector<std::string> answers;
  std::uint64_t wrong = 0;

 private:
  static constexpr std::uint64_t kNone = UINT64_MAX;

  std::string Key(std::uint64_t n) const { return KeyOf(first_ + n); }
  // What names the value that a key has.
  std::uint64_t Named(std::uint64_t n) const { return first_ + n + versions_[n] * kManyKeys; }
  std::string Right(std::uint64_t n) const {
    return versions_[n] == kNone ? "none" : ValueOf(Named(n));
  }

  void Add(std::string answer, const std::string& right) {
    if (answer != right) wrong++;
    answers.push_back(std::move(answer));
  }

  void Get(std::uint64_t n) {
    std::string value;
    const leveldb::Status status = db_->Get(leveldb::ReadOptions(), Key(n), &value);
    if (!status.IsNotFound()) Check(status);
    Add(status.IsNotFound() ? "none" : value, Right(n));
  }

  // The next 20 keys that have values, or those before, unless an end of the thread's keys is near.
  void Iterate(std::uint64_t n, bool is_forward) {
    const std::unique_ptr<leveldb::Iterator> it(db_->NewIterator(leveldb::ReadOptions()));
    while (n < versions_.size() && versions_[n] == kNone) n++;
    if (n == versions_.size()) return;
    it->Seek(Key(n));
    for (int step = 0; step < 20; step++) {
      // Below 0 it is above all.
      while (n < versions_.size() && versions_[n] == kNone) n = is_forward ? n + 1 : n - 1;
      if (n >= versions_.size()) break;
      Add(it->Valid() ? it->key().ToString() + it->value().ToString() : "none",
          Key(n) + Right(n));
      if (!it->Valid()) break;
      if (is_forward) {
        it->Next();
        n++;
      } else {
        it->Prev();
        n--;
      }
    }
    Check(it->status());
  }

  leveldb::DB* db_;
  std::uint64_t first_;
  std::vector<std::uint64_t> versions_;
};

// What four threads find in a database that was just filled, one thread after the other.
Outcome Work(const std::string& path, leveldb::Cache* its_own) {
  constexpr std::uint64_t kThreads = 4, kEach = kManyKeys / kThreads;
  const std::unique_ptr<leveldb::Cache> cache(its_own);
  Outcome outcome = {};
  const std::unique_ptr<leveldb::DB> db = Open(path, cache.get(), false);
  std::vector<Worker> workers;
  for (std::uint64_t t = 0; t < kThreads; t++) workers.emplace_back(db.get(), t * kEach, kEach);
  std::vector<std::thread> threads;
  for (Worker& worker : workers) threads.emplace_back(&Worker::Run, &worker);
  for (std::thread& thread : threads) thread.join();
  for (const Worker& worker : workers) {
    outcome.wrong += worker.wrong;
    outcome.answers.insert(outcome.answers.end(), worker.answers.begin(), worker.answers.end());
  }
  return outcome;
}

unsigned long long Number(std::uint64_t n) { return n; }

void Print(const char* name, const Outcome& outcome) {
  std::printf("  %-18s %llu of %llu look-ups hit, %llu insertions, charge %zu, %llu wrong\n", name,
              Number(outcome.hits), Number(outcome.lookups), Number(outcome.inserts),
              outcome.total_charge, Number(outcome.wrong));
}

// Whether a cache gave what LevelDB's own gave. If there were only hits, or only misses, equal
// numbers would mean nothing.
bool IsAs(const Outcome& own, const Outcome& proved) {
  return own.answers == proved.answers && own.lookups == proved.lookups &&
         own.hits == proved.hits && own.inserts == proved.inserts &&
         own.total_charge == proved.total_charge && own.wrong == 0 && proved.wrong == 0 &&
         proved.hits > 0 && proved.inserts > 0;
}

// The same for the clock.
bool IsAsGood(const Outcome& own, const Outcome& clock) {
  return own.answers == clock.answers && own.wrong == 0 && clock.wrong == 0 &&
         clock.inserts > 0 && clock.hits > own.hits / 2;
}

template <class Cache>
std::unique_ptr<Cache> Make(const lru::BlockCacheOptions& options) {
  return std::unique_ptr<Cache>(Cache::New(options));
}

// An entry with a key of this many bytes.
template <std::size_t kLength>
void Insert(leveldb::Cache* cache, std::uint64_t n) {
  char key[kLength] = {};
  std::memcpy(key, &n, sizeof n);
  cache->Release(cache->Insert(leveldb::Slice(key, kLength), nullptr, MemoryOfEntries::kCharge,
                               nullptr));
}

std::size_t UsageOf(leveldb::Cache* cache) { return cache->TotalCharge(); }

template <class Cache, std::size_t kLength>
bool IsSmall(const char* name, std::size_t most) {
  return TakesLittleMemory<lru::BlockCacheOptions>(name, most, Make<Cache>, Insert<kLength>,
                                                   UsageOf);
}

}  // namespace

int main(int argc, char** argv) {
  if (argc != 2) {
    std::fprintf(stderr, "usage: leveldb FOLDER, where FOLDER does not exist yet\n");
    return 2;
  }
  const std::string path = argv[1];
  bool good = IsSmall<lru::LevelDBBlockCache, 16>("LevelDBBlockCache", 226);
  good &= IsSmall<lru::LevelDBCache, 20>("LevelDBCache", 290);
  using Clock = lru::LevelDBClockCache;
  good &= TakesWhatItCounts<lru::BlockCacheOptions>("LevelDBClockCache", 180, 230, Make<Clock>,
                                                    Insert<16>, UsageOf);
  Fill(path, kKeys);
  std::string hits;
  for (const std::size_t kibibytes : {256u, 1024u, 8192u}) {
    const std::size_t capacity = kibibytes << 10;
    const Outcome own = Read(path, leveldb::NewLRUCache(capacity));
    const Outcome blocks = Read(path, lru::NewLevelDBBlockCache(capacity));
    const Outcome any = Read(path, lru::NewLevelDBCache(capacity));
    const Outcome clock = Read(path, lru::NewLevelDBClockCache(capacity));
    if (!IsAs(own, blocks) || !IsAs(own, any) || !IsAsGood(own, clock)) {
      good = false;
      const auto equal = [&](const Outcome& other) {
        return own.answers == other.answers ? "equal" : "not equal";
      };
      std::printf(
          "%zu KiB: the answers of LevelDBBlockCache are %s, of LevelDBCache %s, of "
          "LevelDBClockCache %s\n",
          kibibytes, equal(blocks), equal(any), equal(clock));
      Print("LevelDB's own:", own);
      Print("LevelDBBlockCache:", blocks);
      Print("LevelDBCache:", any);
      Print("LevelDBClockCache:", clock);
    }
    if (!hits.empty()) hits += ", ";
    hits += std::to_string(own.hits) + " at " + std::to_string(kibibytes) + " KiB";
  }
  Fill(path + "/many", kManyKeys);
  const Outcome own = Read(path + "/many", leveldb::NewLRUCache(4 << 20), kManyKeys);
  const Outcome clock = Read(path + "/many", lru::NewLevelDBClockCache(4 << 20), kManyKeys);
  if (!IsAsGood(own, clock)) {
    good = false;
    std::printf("%llu keys: LevelDBClockCache is not as LevelDB's own\n", Number(kManyKeys));
    Print("LevelDB's own:", own);
    Print("LevelDBClockCache:", clock);
  }
  Fill(path + "/own", kManyKeys);
  const Outcome own_work = Work(path + "/own", leveldb::NewLRUCache(4 << 20));
  const Outcome clock_work = Work(path + "/many", lru::NewLevelDBClockCache(4 << 20));
  if (own_work.answers != clock_work.answers || own_work.wrong + clock_work.wrong != 0) {
    good = false;
    std::printf("four threads: %llu answers are wrong with LevelDB's own cache, %llu with "
                "LevelDBClockCache\n",
                Number(own_work.wrong), Number(clock_work.wrong));
  }
  std::printf("leveldb: %llu keys, %llu reads and a scan; hits %s: %s\n", Number(kKeys),
              Number(kReads), hits.c_str(), good ? "equal to LevelDB's own cache" : "NOT EQUAL");
  return good ? 0 : 1;
}
