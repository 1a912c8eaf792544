// Threads use a cache, for a run with a sanitizer: each value must fit the key that was asked for,
// and be deleted exactly once, after a listener was told of it exactly once. Prints one line, and
// exits with 1 if something is wrong.
#include <atomic>
#include <cstdint>
#include <cstdio>
#include <cstdlib>
#include <memory>
#include <stdexcept>
#include <thread>
#include <utility>
#include <vector>

#include "lru.hpp"
#include "random_calls.hpp"

namespace {

constexpr std::uint64_t kKeys = 100;
constexpr std::uint64_t kCalls = 10000;
constexpr std::uint64_t kCapacity = 128;
constexpr std::size_t kMostThreads = 8;

// How often each object was deleted, and shown to a listener before, by its number.
struct Deletions {
  std::atomic<std::uint64_t> made{0};
  std::vector<std::atomic<int>> of = std::vector<std::atomic<int>>(kMostThreads * kCalls);
  std::vector<std::atomic<int>> shown = std::vector<std::atomic<int>>(kMostThreads * kCalls);

  // The number of objects that were not deleted exactly this often.
  std::uint64_t unlike(int wanted) const {
    std::uint64_t count = 0;
    for (std::uint64_t number = 0; number < made; number++) {
      count += of[number] != wanted || shown[number] != wanted;
    }
    return count;
  }
};

class Object {
 public:
  Object(std::uint64_t key, Deletions* deletions)
      : key_(key), number_(deletions->made++), deletions_(deletions) {}
  Object(Object&& from) noexcept
      : key_(from.key_),
        number_(from.number_),
        deletions_(std::exchange(from.deletions_, nullptr)) {}
  ~Object() {
    if (deletions_ != nullptr) deletions_->of[number_]++;
  }

  Object(const Object&) = delete;
  Object& operator=(const Object&) = delete;

  bool fits(std::uint64_t key) const { return key_ == key && deletions_->of[number_] == 0; }
  void show() const {
    if (deletions_->of[number_] == 0) deletions_->shown[number_]++;
  }

 private:
  std::uint64_t key_;
  std::uint64_t number_;
  Deletions* deletions_;  // null after it was moved from
};

struct Failed {};

// The calls of one thread, which holds up to four handles at a time. Returns how many values were
// wrong.
template <class KeyOf, class Cache>
std::uint64_t calls(Cache& cache, std::uint64_t seed, Deletions* deletions) {
  Random random(seed);
  std::uint64_t wrong = 0, made_for = 0;
  typename Cache::Handle held[4];
  typename Cache::Maker maker;
  std::uint64_t keys[4] = {};
  for (std::uint64_t call = 0; call < kCalls; call++) {
    const std::uint64_t n = random.below(kKeys);
    const KeyOf key(n);
    const std::uint64_t slot = random.below(4);
    switch (random.below(40)) {
      case 0:
        cache.advice_evict(key.key());
        break;
      case 1:
        if (random.below(20) == 0) cache.prune();
        break;
      case 2:
        cache.set_capacity(kCapacity / 2 + random.below(kCapacity));
        break;
      case 3:
        cache.invalidate(key.key());
        break;
      case 4:
      case 5:
        held[slot] = cache.insert(key.key(), 1 + random.below(4), Object(n, deletions));
        keys[slot] = n;
        break;
      case 6:
      case 7:
      case 8:
        held[slot] = cache.get(key.key());
        keys[slot] = n;
        break;
      case 9:
      case 10:
      case 11: {
        // Two that have makers may not wait for each other.
        auto begun = maker ? cache.try_begin(key.key(), 1) : cache.begin(key.key(), 1);
        held[slot] = std::move(begun.handle);
        keys[slot] = n;
        if (begun.maker) made_for = n, maker = std::move(begun.maker);
        break;
      }
      case 12:
      case 13:
        wrong += cache.read(key.key(), [n](const Object& object) { return !object.fits(n); })
                     .value_or(false);
        break;
      default:
        if (maker) keys[0] = made_for, held[0] = maker.ready(made_for, deletions);
        const bool fails = random.below(10) >= 8;
        try {
          held[slot] = cache.get_or_init(key.key(), 1 + random.below(4), [&](typename KeyOf::Key) {
            if (random.below(8) == 0) std::this_thread::yield();
            if (fails) throw Failed();
            return Object(n, deletions);
          });
          keys[slot] = n;
        } catch (const Failed&) {
          if (!fails) wrong++;
        }
    }
    for (std::size_t i = 0; i < 4; i++) wrong += held[i] && !held[i]->fits(keys[i]);
    if (random.below(16) == 0) {
      const std::uint64_t other = random.below(4);
      held[other] = held[slot].clone();
      keys[other] = keys[slot];
    }
    if (random.below(3) == 0) held[random.below(4)].reset();
    if (random.below(16) == 0) held[random.below(4)].release_and_evict();
  }
  return wrong;
}

template <class KeyOf, class Cache>
bool stress(const char* name, std::size_t threads) {
  Deletions deletions;
  std::atomic<std::uint64_t> wrong{0};
  std::uint64_t left = 0;
  {
    Cache cache(kCapacity, [](auto&&, const Object& object, lru::Reason) { object.show(); });
    std::vector<std::thread> all;
    for (std::size_t t = 0; t < threads; t++) {
      all.emplace_back([&, t] { wrong += calls<KeyOf>(cache, t + 1, &deletions); });
    }
    for (std::thread& thread : all) thread.join();
    cache.set_capacity(kCapacity);
    left = cache.total_charge();
    // In half of the runs the destructor of the cache deletes the idle values.
    if (threads == 4) {
      cache.prune();
      if (cache.total_charge() != 0 || deletions.unlike(1) != 0) wrong++;
    }
  }
  const std::uint64_t unlike = deletions.unlike(1);
  const bool good = wrong == 0 && unlike == 0 && deletions.made > 0 && left <= kCapacity;
  if (!good) {
    std::printf(
        "stress: %s, %zu threads: %llu made, %llu of them not deleted once, %llu wrong, charge "
        "%llu\n",
        name, threads, static_cast<unsigned long long>(deletions.made.load()),
        static_cast<unsigned long long>(unlike), static_cast<unsigned long long>(wrong.load()),
        static_cast<unsigned long long>(left));
  }
  return good;
}

}  // namespace

int main() {
  bool good = true;
  std::size_t runs = 0;
  for (const std::size_t threads : {std::size_t{4}, kMostThreads}) {
    good = stress<TextKey, lru::Cache<Object>>("one lock, bytes", threads) && good;
    good =
        stress<WordsKey, lru::Cache<const Object, lru::Words>>("one lock, words", threads) && good;
    good = stress<TextKey, SixteenShards<const Object>>("shards, bytes", threads) && good;
    good = stress<WordsKey, SixteenShards<Object, lru::Words>>("shards, words", threads) && good;
    runs += 4;
  }
  std::printf("stress: %zu runs of 4 and 8 threads, each object deleted once: %s\n", runs,
              good ? "ok" : "WRONG");
  return good ? 0 : 1;
}
