// Tests lru::Cache and lru::ShardedCache.
#include <sys/wait.h>
#include <unistd.h>

#include <atomic>
#include <chrono>
#include <condition_variable>
#include <csignal>
#include <cstddef>
#include <cstdint>
#include <cstdio>
#include <functional>
#include <future>
#include <memory>
#include <mutex>
#include <optional>
#include <set>
#include <stdexcept>
#include <string>
#include <string_view>
#include <thread>
#include <tuple>
#include <type_traits>
#include <utility>
#include <vector>

#include "check.hpp"
// The guards of headers that a program may have under the same names.
#define LRU_H
#define LRU_HPP
#include "lru.hpp"
#include "sleeps.hpp"

namespace {

using Numbers = lru::Cache<const int, lru::Words>;

lru::Words key(std::uint64_t n) { return {0, n}; }

auto returns(int number) {
  return [number](lru::Words) { return number; };
}

static_assert(std::is_nothrow_move_constructible_v<Numbers::Handle>);
static_assert(std::is_nothrow_move_assignable_v<Numbers::Handle>);
static_assert(!std::is_copy_constructible_v<Numbers::Handle>);
static_assert(!std::is_copy_assignable_v<Numbers::Handle>);
static_assert(std::is_nothrow_move_constructible_v<Numbers::Maker>);
static_assert(std::is_nothrow_move_assignable_v<Numbers::Maker>);
static_assert(!std::is_copy_constructible_v<Numbers::Maker>);
static_assert(!std::is_copy_assignable_v<Numbers::Maker>);
static_assert(!std::is_move_constructible_v<Numbers>);
static_assert(!std::is_move_constructible_v<lru::ShardedCache<int>>);
static_assert(!std::is_copy_constructible_v<lru::ShardedCache<int>>);
static_assert(std::is_base_of_v<std::bad_alloc, lru::OutOfMemory>);
static_assert(std::is_base_of_v<std::overflow_error, lru::Overflow>);
static_assert(std::is_base_of_v<std::invalid_argument, lru::ZeroCharge>);
static_assert(std::is_base_of_v<std::runtime_error, lru::Full>);

// Whether a call throws this.
template <class Exception, class Call>
bool throws(Call call) {
  try {
    call();
  } catch (const Exception&) {
    return true;
  }
  return false;
}

template <class Call>
bool is_full(Call call) {
  return throws<lru::Full>(call);
}

void a_present_value_is_not_made_again() {
  Numbers cache(10);
  CHECK(*cache.get_or_init(key(1), 1, returns(1)) == 1);
  CHECK(*cache.get_or_init(key(2), 1, returns(2)) == 2);
  CHECK(*cache.get_or_init(key(1), 1, returns(3)) == 1);
  CHECK(cache.total_charge() == 2);
}

void an_evicted_value_is_made_again() {
  Numbers cache(5);
  CHECK(*cache.get_or_init(key(1), 3, returns(1)) == 1);
  CHECK(*cache.get_or_init(key(2), 3, returns(2)) == 2);
  CHECK(*cache.get_or_init(key(1), 3, returns(3)) == 3);
}

void get_finds_what_is_ready() {
  lru::Cache<std::string> cache(10);
  CHECK(!cache.get("a"));
  cache.get_or_init("a", 1, [](std::string_view k) { return std::string(k) + "!"; });
  const auto found = cache.get("a");
  CHECK(found && *found == "a!" && found->size() == 2);
  CHECK(!cache.get(std::string_view("a\0", 2)));
  CHECK(!cache.get(""));
  *cache.get_or_init({}, 1, [](std::string_view) { return "the empty key"; }) += ".";
  CHECK(*cache.get("") == "the empty key.");
}

void a_pinned_value_stays() {
  Numbers cache(1);
  auto large = cache.get_or_init(key(1), 100, returns(1));
  auto small = cache.get_or_init(key(2), 1, returns(2));
  cache.prune();
  cache.advice_evict(key(1));
  cache.set_capacity(0);
  CHECK(cache.total_charge() == 101 && *large == 1 && *small == 2);
  large.reset();
  CHECK(!large && large.get() == nullptr);
  CHECK(cache.total_charge() == 1);
  small.reset();
  CHECK(cache.total_charge() == 0);
}

void handles_move() {
  Numbers cache(0);
  Numbers::Handle none;
  CHECK(!none && none.get() == nullptr);
  Numbers::Handle one = cache.get_or_init(key(1), 1, returns(1));
  Numbers::Handle moved = std::move(one);
  CHECK(moved && *moved == 1);
  Numbers::Handle other = cache.get_or_init(key(2), 1, returns(2));
  CHECK(cache.total_charge() == 2);
  // The assignment releases 2, which a cache of capacity 0 evicts.
  other = std::move(moved);
  CHECK(*other == 1 && cache.total_charge() == 1);
  Numbers::Handle& same = other;
  other = std::move(same);
  CHECK(other && *other == 1 && cache.total_charge() == 1);
  swap(other, none);
  CHECK(!other && *none == 1);
  std::vector<Numbers::Handle> all;
  all.push_back(std::move(none));
  all.push_back(cache.get(key(1)));
  all.erase(all.begin());
  CHECK(cache.total_charge() == 1);
  all.clear();
  CHECK(cache.total_charge() == 0);
}

void a_clone_pins_its_value_too() {
  Numbers cache(10);
  CHECK(!Numbers::Handle().clone());
  auto one = cache.get_or_init(key(1), 3, returns(1));
  const lru::Stats before = cache.stats();
  auto again = one.clone();
  CHECK(one && again && *again == 1 && again.get() == one.get());
  one.reset();
  CHECK(!one && cache.pinned_charge() == 3);
  // The value is no longer the key's, and the clone of a clone has it all the same.
  cache.invalidate(key(1));
  cache.insert(key(1), 4, 2);
  const auto third = again.clone();
  again.reset();
  CHECK(*third == 1 && *cache.get(key(1)) == 2 && cache.total_charge() == 7);
  // Only the get is counted.
  const lru::Stats after = cache.stats();
  CHECK(after.hits == before.hits + 1 && after.misses == before.misses);
}

template <class Cache>
void clones_on_threads(Cache& cache) {
  auto first = cache.get_or_init(key(1), 1, returns(1));
  std::vector<typename Cache::Handle> clones;
  for (int i = 0; i < 8; i++) clones.push_back(first.clone());
  cache.invalidate(key(1));
  first.reset();
  std::atomic<int> sum{0};
  std::vector<std::thread> threads;
  for (auto& clone : clones) {
    threads.emplace_back([&sum, handle = std::move(clone)] { sum += *handle.clone(); });
  }
  for (std::thread& thread : threads) thread.join();
  // The closures held the handles, and are gone.
  CHECK(sum == 8 && cache.pinned_charge() == 0 && cache.len() == 0);
}

void clones_go_to_other_threads() {
  Numbers cache(10);
  clones_on_threads(cache);
  lru::ShardedCache<const int, lru::Words> sharded(100, 4);
  clones_on_threads(sharded);
}

void a_last_release_may_evict() {
  static_assert(noexcept(std::declval<Numbers::Handle>().release_and_evict()));
  Numbers cache(10);
  cache.get_or_init(key(1), 2, returns(1));
  auto held = cache.get_or_init(key(2), 2, returns(2));
  auto again = held.clone();
  held.release_and_evict();
  CHECK(!held && held.get() == nullptr && *again == 2 && cache.contains(key(2)));
  // Of an empty handle, nothing.
  held.release_and_evict();
  again.release_and_evict();
  // The other value is older, and stays.
  CHECK(!again && !cache.contains(key(2)) && cache.contains(key(1)) && cache.total_charge() == 2);
  CHECK(cache.stats().evictions == 1);

  // Whoever is last decides.
  held = cache.get(key(1));
  again = held.clone();
  held.release_and_evict();
  again.reset();
  CHECK(cache.contains(key(1)) && cache.pinned_charge() == 0);

  // A value that is no longer its key's.
  held = cache.get(key(1));
  cache.insert(key(1), 3, 3);
  held.release_and_evict();
  CHECK(*cache.get(key(1)) == 3 && cache.total_charge() == 3);

  lru::ShardedCache<std::string> texts(100, 4);
  texts.insert("one", 1, "1").release_and_evict();
  CHECK(!texts.contains("one") && texts.len() == 0 && texts.stats().evictions == 1);
}

void an_init_that_throws_leaves_nothing() {
  Numbers cache(10);
  cache.get_or_init(key(1), 6, returns(1));
  bool thrown = false;
  try {
    cache.get_or_init(key(2), 5, [](lru::Words) -> int { throw std::runtime_error("no value"); });
  } catch (const std::runtime_error& error) {
    thrown = std::string_view(error.what()) == "no value";
  }
  CHECK(thrown);
  CHECK(!cache.get(key(2)));
  // 1 was evicted before `init` ran.
  CHECK(!cache.get(key(1)) && cache.total_charge() == 0);
  CHECK(*cache.get_or_init(key(2), 1, returns(7)) == 7);
}

void refusals_are_exceptions() {
  Numbers cache(10);
  cache.get_or_init(key(1), 1, returns(1));
  int zero = 0;
  bool overflow = false, ran = false;
  const auto runs = [&ran](lru::Words) { return ran = true, 2; };
  // Also if the key has a value.
  for (const std::uint64_t n : {1, 2}) {
    try {
      cache.get_or_init(key(n), 0, runs);
    } catch (const lru::ZeroCharge&) {
      zero++;
    }
  }
  try {
    cache.get_or_init(key(2), UINT64_MAX, runs);
  } catch (const lru::Overflow&) {
    overflow = true;
  }
  CHECK(zero == 2 && overflow && !ran);
  CHECK(cache.total_charge() == 1 && cache.get(key(1)));
  bool no_shards = false;
  try {
    lru::ShardedCache<int> none(10, 0);
  } catch (const std::invalid_argument&) {
    no_shards = true;
  }
  CHECK(no_shards);
}

// Records that it was deleted, and calls the cache.
struct Calling {
  using Cache = lru::Cache<Calling, lru::Words>;

  Calling(Cache* c, std::vector<int>* d, int n) : cache(c), deleted(d), number(n) {}
  // What was moved from is not recorded.
  Calling(Calling&& from) noexcept
      : cache(from.cache), deleted(std::exchange(from.deleted, nullptr)), number(from.number) {}
  ~Calling() {
    if (deleted == nullptr) return;
    deleted->push_back(number);
    if (cache != nullptr) cache->prune();
  }

  Calling(const Calling&) = delete;
  Calling& operator=(const Calling&) = delete;

  Cache* cache;
  std::vector<int>* deleted;
  int number;
};

void an_insert_replaces_whatever_is_there() {
  std::vector<int> deleted;
  {
    Calling::Cache cache(10);
    const auto insert = [&](int number) {
      return cache.insert(key(1), 2, Calling(nullptr, &deleted, number));
    };
    insert(1);
    CHECK(cache.get(key(1))->number == 1 && cache.total_charge() == 2);
    auto held = insert(2);
    CHECK((deleted == std::vector<int>{1}));
    const auto fresh = insert(3);
    CHECK(held->number == 2 && fresh->number == 3 && cache.get(key(1))->number == 3);
    CHECK(cache.total_charge() == 4);
    held.reset();
    CHECK((deleted == std::vector<int>{1, 2}) && cache.total_charge() == 2);
  }
  CHECK((deleted == std::vector<int>{1, 2, 3}));

  // A refused insert leaves the key its value.
  lru::Cache<std::unique_ptr<int>> owners(10);
  const auto one = owners.insert("a", 1, std::make_unique<int>(1));
  bool zero = false, overflow = false;
  try {
    owners.insert("a", 0, std::make_unique<int>(2));
  } catch (const lru::ZeroCharge&) {
    zero = true;
  }
  try {
    owners.insert("a", UINT64_MAX, std::make_unique<int>(3));
  } catch (const lru::Overflow&) {
    overflow = true;
  }
  CHECK(zero && overflow && **owners.get("a") == 1 && owners.total_charge() == 1);
}

void an_invalidate_takes_a_value_away() {
  Numbers cache(10);
  cache.invalidate(key(1));
  cache.insert(key(1), 3, 1);
  cache.invalidate(key(1));
  CHECK(!cache.get(key(1)) && cache.total_charge() == 0);
  auto held = cache.insert(key(1), 3, 1);
  cache.invalidate(key(1));
  CHECK(!cache.get(key(1)) && *held == 1 && cache.total_charge() == 3);
  CHECK(*cache.get_or_init(key(1), 4, returns(2)) == 2 && cache.total_charge() == 7);
  held.reset();
  CHECK(*cache.get(key(1)) == 2 && cache.total_charge() == 4);
}

template <class Cache, class Key>
void looks_only(Key one, Key two, Key three) {
  Cache cache(2);
  CHECK(!cache.contains(one) && cache.len() == 0);
  const auto zero = [](Key) { return 0; };
  const auto asks = [&](Key) { return cache.contains(one) || cache.len() != 1 ? 1 : 0; };
  CHECK(*cache.get_or_init(one, 1, asks) == 0);
  cache.get_or_init(two, 1, zero);
  CHECK(cache.contains(one) && cache.contains(two) && cache.len() == 2);
  // Not a use: the first value is still the oldest.
  cache.get_or_init(three, 1, zero);
  CHECK(!cache.contains(one) && cache.contains(two) && cache.contains(three));
  auto held = cache.get(two);
  cache.invalidate(two);
  CHECK(!cache.contains(two) && cache.len() == 2);
  held.reset();
  CHECK(cache.contains(three) && cache.len() == 1);
}

void contains_and_len_look_only() {
  looks_only<Numbers>(key(1), key(2), key(3));
  looks_only<lru::Cache<int>, std::string_view>("one", "two", "three");
}

// Whether another thread finds the lock of a cache held, for as long as this waits.
template <class Cache>
bool is_locked(const Cache& cache, std::future<std::uint64_t>* other) {
  *other = std::async(std::launch::async, [&cache] { return cache.len(); });
  return other->wait_for(std::chrono::milliseconds(20)) == std::future_status::timeout;
}

void read_passes_a_value_under_the_lock() {
  Numbers cache(2);
  CHECK(!cache.read(key(1), [](const int&) { return 7; }));
  cache.insert(key(1), 1, 5);
  std::future<std::uint64_t> other;
  const std::optional<int> seen = cache.read(key(1), [&](const int& number) {
    CHECK(is_locked(cache, &other));
    return number + 2;
  });
  CHECK(seen == 7 && other.get() == 1 && cache.pinned_charge() == 0);
  // It is a use: the other value is the oldest then. A value with a handle keeps its pin.
  const auto held = cache.insert(key(2), 1, 6);
  CHECK(cache.read(key(2), [](const int& number) { return number; }) == 6);
  CHECK(cache.pinned_charge() == 1 && cache.stats().hits == 2 && cache.stats().misses == 1);
  Numbers both(2);
  both.insert(key(1), 1, 1);
  both.insert(key(2), 1, 2);
  CHECK(both.read(key(1), [](const int& number) { return number; }) == 1);
  both.insert(key(3), 1, 3);
  CHECK(both.contains(key(1)) && !both.contains(key(2)));

  // A void reader, and one that throws: the lock is released, and no pin is left.
  lru::Cache<std::string> texts(10);
  const auto append = [](std::string& text) { text += "!"; };
  CHECK(!texts.read("a", append));
  texts.insert("a", 3, "one");
  CHECK(texts.read("a", append));
  const auto same = [](std::string& text) -> std::string& { return text; };
  CHECK(*texts.read("a", same) == "one!");
  bool thrown = false;
  try {
    texts.read("a", [](std::string&) -> int { throw std::runtime_error("unread"); });
  } catch (const std::runtime_error&) {
    thrown = true;
  }
  CHECK(thrown && texts.pinned_charge() == 0 && texts.total_charge() == 3);
}

void the_pinned_charge_is_that_of_handles_and_makings() {
  Numbers cache(10);
  std::uint64_t while_made = 0;
  auto one = cache.get_or_init(key(1), 3, [&](lru::Words) {
    while_made = cache.pinned_charge();
    return 1;
  });
  CHECK(while_made == 3 && cache.pinned_charge() == 3);
  auto again = cache.get(key(1));
  const auto two = cache.insert(key(2), 4, 2);
  cache.get_or_init(key(3), 1, returns(3));
  CHECK(cache.pinned_charge() == 7 && cache.total_charge() == 8);
  one.reset();
  CHECK(cache.pinned_charge() == 7);
  again.reset();
  CHECK(cache.pinned_charge() == 4 && cache.total_charge() == 8);
  // An invalidated value is pinned until its last handle is gone.
  cache.invalidate(key(2));
  CHECK(cache.pinned_charge() == 4);
}

void calls_are_counted() {
  Numbers cache(4);
  CHECK(cache.stats().hit_ratio() == 0 && cache.stats().capacity == 4);
  auto one = cache.get_or_init(key(1), 3, returns(1));
  CHECK(!cache.get(key(2)) && cache.get(key(1)));
  CHECK(cache.read(key(1), [](const int& number) { return number; }) == 1);
  // Neither is counted, nor is a call that is refused.
  CHECK(cache.contains(key(1)));
  const auto two = cache.insert(key(2), 2, 2);
  try {
    cache.get_or_init(key(1), 0, returns(1));
  } catch (const lru::ZeroCharge&) {
  }
  lru::Stats stats = cache.stats();
  CHECK(stats.hits == 2 && stats.misses == 2 && stats.waits == 0 && stats.hit_ratio() == 0.5);
  CHECK(stats.insertions == 2 && stats.evictions == 0 && stats.removals == 0);
  CHECK(stats.entries == 2 && stats.charge == 5 && stats.pinned_charge == 5);
  one.reset();
  stats = cache.stats();
  CHECK(stats.entries == 1 && stats.evictions == 1 && stats.charge == 2);
  // A making that fails is a miss, and removes what it inserted.
  try {
    cache.get_or_init(key(3), 1, [](lru::Words) -> int { throw std::runtime_error("unmade"); });
  } catch (const std::runtime_error&) {
  }
  stats = cache.stats();
  CHECK(stats.misses == 3 && stats.insertions == 3 && stats.removals == 1 && stats.entries == 1);
}

// A barrier for two threads.
class Meeting {
 public:
  void meet() {
    std::unique_lock<std::mutex> lock(mutex_);
    arrived_++;
    const int round = (arrived_ + 1) / 2;
    changed_.notify_all();
    changed_.wait(lock, [&] { return arrived_ >= 2 * round; });
  }

 private:
  std::mutex mutex_;
  std::condition_variable changed_;
  int arrived_ = 0;
};

void a_making_that_is_invalidated_is_not_waited_for() {
  Numbers cache(10);
  Meeting meeting;
  std::thread making([&] {
    const auto handle = cache.get_or_init(key(1), 1, [&](lru::Words) {
      meeting.meet();
      meeting.meet();
      return 1;
    });
    CHECK(*handle == 1);
  });
  meeting.meet();
  cache.invalidate(key(1));
  // The value that is being made is no longer the key's, so this one does not wait for it.
  CHECK(*cache.get_or_init(key(1), 2, returns(2)) == 2);
  CHECK(cache.total_charge() == 3);
  meeting.meet();
  making.join();
  CHECK(*cache.get(key(1)) == 2 && cache.total_charge() == 2);
}

void others_wait_for_one_making() {
  Numbers cache(10);
  std::atomic<int> made{0};
  std::vector<std::thread> threads;
  std::atomic<int> right{0};
  for (int t = 0; t < 8; t++) {
    threads.emplace_back([&] {
      const auto handle = cache.get_or_init(key(1), 1, [&](lru::Words) {
        std::this_thread::sleep_for(std::chrono::milliseconds(50));
        return ++made;
      });
      if (*handle == 1) right++;
    });
  }
  for (std::thread& thread : threads) thread.join();
  CHECK(made == 1 && right == 8);
}

void one_that_waits_takes_a_failed_making_over() {
  Numbers cache(10);
  Meeting meeting;
  bool thrown = false;
  std::thread failing([&] {
    try {
      cache.get_or_init(key(1), 1, [&](lru::Words) -> int {
        meeting.meet();
        // Gives the other thread time to wait. If it comes later, it makes the value all the same.
        std::this_thread::sleep_for(std::chrono::milliseconds(50));
        throw std::runtime_error("no value");
      });
    } catch (const std::runtime_error&) {
      thrown = true;
    }
  });
  meeting.meet();
  CHECK(*cache.get_or_init(key(1), 5, returns(7)) == 7);
  failing.join();
  CHECK(thrown);
  CHECK(*cache.get(key(1)) == 7);
}

// Waits until this many callers wait. Who is counted keeps the lock until it waits, so these calls
// see the count only then.
template <class Cache>
void wait_for_waits(const Cache& cache, std::uint64_t waits) {
  while (cache.stats().waits < waits) {
    std::this_thread::sleep_for(std::chrono::milliseconds(1));
  }
}

void all_that_wait_are_woken_however_the_making_ends() {
  constexpr int kWaiting = 8;
  for (const bool is_invalidated : {false, true}) {
    for (const bool fails : {false, true}) {
      Numbers cache(10);
      Meeting meeting, other_meeting;
      std::atomic<int> right{0}, failed{0}, tried{0};
      // The first that waits does so for another value, which is made last.
      std::thread other([&] {
        cache.get_or_init(key(3), 1, [&](lru::Words) {
          other_meeting.meet();
          other_meeting.meet();
          return 3;
        });
      });
      other_meeting.meet();
      std::thread first([&] { CHECK(*cache.get_or_init(key(3), 1, returns(4)) == 3); });
      wait_for_waits(cache, 1);
      // Of those that take the making over, all but one fail too.
      const auto tries = [&](lru::Words) {
        if (fails && tried++ < kWaiting - 1) throw std::runtime_error("no value");
        return 7;
      };
      const auto ask = [&](auto init) {
        try {
          if (*cache.get_or_init(key(1), 1, init) == 7) right++;
        } catch (const std::runtime_error&) {
          failed++;
        }
      };
      std::vector<std::thread> threads;
      threads.emplace_back([&] {
        ask([&](lru::Words k) {
          meeting.meet();
          meeting.meet();
          return tries(k);
        });
      });
      meeting.meet();
      for (int t = 0; t < kWaiting; t++) threads.emplace_back([&] { ask(tries); });
      wait_for_waits(cache, 1 + kWaiting);
      if (is_invalidated) cache.invalidate(key(1));
      // Another value, for which nobody waits, is made meanwhile.
      cache.get_or_init(key(2), 1, returns(2));
      meeting.meet();
      for (std::thread& thread : threads) thread.join();
      other_meeting.meet();
      other.join();
      first.join();
      CHECK(failed == (fails ? kWaiting - 1 : 0) && right == kWaiting + 1 - failed);
      CHECK(cache.pinned_charge() == 0 && cache.contains(key(1)) != is_invalidated);
    }
  }
}

// A value that records its number in `deleted` when it is deleted, and cannot be moved.
struct Recorded {
  Recorded(std::vector<int>* d, int n) : deleted(d), number(n) {}
  ~Recorded() { deleted->push_back(number); }

  Recorded(const Recorded&) = delete;
  Recorded& operator=(const Recorded&) = delete;

  std::vector<int>* deleted;
  int number;
};

void a_beginning_tells_a_handle_or_a_maker() {
  Numbers cache(10);
  {
    auto [handle, maker] = cache.begin(key(1), 3);
    CHECK(!handle && maker && cache.pinned_charge() == 3 && !cache.contains(key(1)));
    handle = maker.ready(7);
    CHECK(*handle == 7 && !maker && cache.contains(key(1)) && cache.pinned_charge() == 3);
  }
  CHECK(cache.pinned_charge() == 0 && cache.stats().misses == 1);
  for (const bool waits : {true, false}) {
    auto begun = waits ? cache.begin(key(1), 9) : cache.try_begin(key(1), 9);
    CHECK(begun.handle && *begun.handle == 7 && !begun.maker && cache.total_charge() == 3);
  }
  CHECK(cache.stats().hits == 2);

  // A maker that is destroyed, or told to, fails.
  { auto begun = cache.begin(key(2), 2); }
  CHECK(cache.len() == 1 && cache.stats().removals == 1);
  auto begun = cache.try_begin(key(2), 2);
  begun.maker.fail();
  CHECK(!begun.maker && cache.len() == 1 && cache.stats().removals == 2);
  begun.maker.fail();
  bool is_refused = false;
  try {
    begun.maker.ready(1);
  } catch (const std::logic_error& error) {
    is_refused = std::string_view(error.what()) == "lru: ready is called on an empty maker";
  }
  CHECK(is_refused && cache.stats().removals == 2);

  int zero = 0;
  for (const std::uint64_t n : {1, 2}) {
    try {
      n == 1 ? cache.begin(key(n), 0) : cache.try_begin(key(n), 0);
    } catch (const lru::ZeroCharge&) {
      zero++;
    }
  }
  Numbers strict(1, lru::Limit::kStrict);
  CHECK(zero == 2 && cache.len() == 1);
  CHECK(is_full([&] { strict.begin(key(1), 2); }) && is_full([&] { strict.try_begin(key(1), 2); }));
}

void a_maker_makes_its_value_in_place() {
  std::vector<int> deleted;
  lru::Cache<Recorded> cache(10);
  CHECK(cache.begin("one", 1).maker.ready(&deleted, 1)->number == 1);
  CHECK(deleted.empty() && cache.get("one")->number == 1);
  lru::Cache<std::atomic<int>> counters(10);
  CHECK(*counters.begin("one", 1).maker.ready(5) == 5);
  lru::Cache<std::unique_ptr<int>> owners(10);
  auto owner = std::make_unique<int>(3);
  CHECK(**owners.begin("one", 1).maker.ready(std::move(owner)) == 3 && !owner);
  CHECK(!*owners.begin("none", 1).maker.ready());

  // The constructor throws: the maker can be asked again.
  struct Even {
    explicit Even(int n) : number(n) {
      if (n % 2 != 0) throw std::runtime_error("odd");
    }
    int number;
  };
  lru::Cache<Even> evens(10);
  auto begun = evens.begin("n", 1);
  bool thrown = false;
  try {
    begun.maker.ready(3);
  } catch (const std::runtime_error&) {
    thrown = true;
  }
  CHECK(thrown && begun.maker && evens.pinned_charge() == 1);
  CHECK(begun.maker.ready(4)->number == 4 && evens.stats().removals == 0);
}

void a_maker_tells_a_charge() {
  std::vector<int> deleted;
  lru::Cache<Recorded, lru::Words> cache(10);
  const auto make = [&](std::uint64_t n, std::uint64_t charge) {
    cache.begin(key(n), charge).maker.ready(&deleted, static_cast<int>(n));
  };
  for (const std::uint64_t n : {1, 2, 3}) make(n, 3);
  auto begun = cache.begin(key(4), 1);
  CHECK(cache.total_charge() == 10 && deleted.empty());
  {
    // Those that were released longest ago leave.
    const auto four = begun.maker.ready_with(5, &deleted, 4);
    CHECK(four->number == 4 && !begun.maker && (deleted == std::vector<int>{1, 2}));
    CHECK(cache.total_charge() == 8 && cache.pinned_charge() == 5);
  }
  // A smaller charge evicts nothing; one above the capacity leaves with its handle.
  cache.begin(key(5), 2).maker.ready_with(1, &deleted, 5);
  CHECK(deleted.size() == 2 && cache.total_charge() == 9 && cache.contains(key(3)));
  cache.begin(key(6), 1).maker.ready_with(11, &deleted, 6);
  CHECK((deleted == std::vector<int>{1, 2, 3, 4, 5, 6}) && cache.len() == 0);
  const lru::Stats stats = cache.stats();
  CHECK(stats.loads == 6 && stats.load_failures == 0 && stats.evictions == 6);

  // Once its key was taken away, a value leaves with its handle.
  auto taken = cache.begin(key(7), 1);
  cache.invalidate(key(7));
  {
    const auto seven = taken.maker.ready_with(4, &deleted, 7);
    CHECK(seven->number == 7 && !cache.contains(key(7)) && cache.pinned_charge() == 4);
  }
  CHECK(deleted.back() == 7 && cache.len() == 0);

  bool is_refused = false;
  try {
    taken.maker.ready_with(1, &deleted, 8);
  } catch (const std::logic_error& error) {
    is_refused = std::string_view(error.what()) == "lru: ready_with is called on an empty maker";
  }
  CHECK(is_refused && deleted.back() == 7);

  // The constructor throws: the maker can be asked again.
  struct Even {
    explicit Even(int n) : number(n) {
      if (n % 2 != 0) throw std::runtime_error("odd");
    }
    int number;
  };
  lru::Cache<Even> evens(10);
  auto again = evens.begin("n", 1);
  CHECK(throws<std::runtime_error>([&] { again.maker.ready_with(4, 3); }));
  CHECK(again.maker && evens.pinned_charge() == 1);
  CHECK(again.maker.ready_with(4, 4)->number == 4 && evens.stats().load_failures == 0);
  CHECK(evens.total_charge() == 4);
}

// The caches have a capacity of 10, and one shard.
template <class Number, class Owner, class Text>
void tells_charges(Number& cache, Owner& owners, Text& texts) {
  const auto returns_with = [](int number, std::uint64_t charge) {
    return [=](lru::Words) { return std::pair(number, charge); };
  };
  for (const std::uint64_t n : {1, 2, 3}) cache.get_or_init(key(n), 3, returns(1));
  CHECK(*cache.get_or_init_with(key(4), returns_with(4, 5)) == 4);
  CHECK(cache.total_charge() == 8 && !cache.contains(key(2)) && cache.contains(key(3)));
  CHECK(*cache.get_or_init_with(key(4), returns_with(5, 6)) == 4 && cache.total_charge() == 8);
  // While it is made, a value counts for 1.
  cache.get_or_init_with(key(5), [&](const lru::Words& k) {
    CHECK(k == key(5) && cache.pinned_charge() == 1 && !cache.get(k));
    return std::pair(5, std::uint64_t{2});
  });
  CHECK(cache.total_charge() == 10);

  // The value is moved from the pair, which may be another one.
  const auto owner = owners.get_or_init_with("one", [](std::string_view) {
    return std::tuple(std::make_unique<int>(1), std::uint64_t{4});
  });
  CHECK(**owner == 1 && owners.total_charge() == 4);
  struct Charged {
    const char* text;
    unsigned charge;
  };
  CHECK(*texts.get_or_init_with("one", [](std::string_view) { return Charged{"a text", 6}; }) ==
        "a text");
  CHECK(texts.total_charge() == 6);

  // An `init` that throws leaves nothing.
  const auto unmade = [](lru::Words) -> std::pair<int, std::uint64_t> {
    throw std::runtime_error("no value");
  };
  CHECK(throws<std::runtime_error>([&] { cache.get_or_init_with(key(6), unmade); }));
  CHECK(cache.pinned_charge() == 0 && cache.stats().load_failures == 1);
  CHECK(*cache.get_or_init_with(key(6), returns_with(6, 1)) == 6);

  // It is refused before `init` runs, or afterwards.
  cache.set_strict_limit(true);
  auto all = cache.insert(key(7), 10, 7);
  CHECK(is_full([&] { cache.get_or_init_with(key(8), unmade); }));
  CHECK(*cache.get_or_init_with(key(7), unmade) == 7);
  all.reset();
  CHECK(is_full([&] { cache.get_or_init_with(key(8), returns_with(8, 11)); }));
  CHECK(throws<lru::ZeroCharge>([&] { cache.get_or_init_with(key(8), returns_with(8, 0)); }));
  CHECK(cache.len() == 0 && cache.stats().load_failures == 3);
}

void an_init_tells_a_charge() {
  Numbers numbers(10);
  lru::Cache<std::unique_ptr<int>> owners(10);
  lru::Cache<const std::string> texts(10);
  tells_charges(numbers, owners, texts);
  lru::ShardedCache<const int, lru::Words> sharded(10, 1);
  lru::ShardedCache<std::unique_ptr<int>> sharded_owners(10, 1);
  lru::ShardedCache<const std::string> sharded_texts(10, 1);
  tells_charges(sharded, sharded_owners, sharded_texts);
}

// Those that wait get the value; if the cache refuses it, one of them makes another.
void those_that_wait_hear_of_a_charge() {
  for (const std::uint64_t charge : {std::uint64_t{4}, std::uint64_t{0}, std::uint64_t{9},
                                     std::uint64_t{UINT64_MAX}}) {
    std::vector<int> deleted;
    Calling::Cache cache(10, charge == 9 ? lru::Limit::kStrict : lru::Limit::kNotStrict);
    const auto ask = [&](int n) {
      return [&cache, &deleted, n](lru::Words) { return Calling(&cache, &deleted, n); };
    };
    const auto held = cache.get_or_init(key(2), 2, ask(2));
    cache.get_or_init(key(3), 6, ask(3));
    auto first = cache.begin(key(1), 1);
    std::thread waiting([&] {
      const auto handle = cache.get_or_init(key(1), 1, ask(8));
      CHECK(handle->number == (charge == 4 ? 7 : 8));
    });
    wait_for_waits(cache, 1);
    const auto give = [&] { first.maker.ready_with(charge, &cache, &deleted, 7); };
    if (charge == 4) {
      give();
      // What it evicts is deleted without the lock.
      CHECK(!deleted.empty() && deleted[0] == 3);
    } else {
      // So is a value that is refused, and nothing is evicted for it.
      CHECK(charge == 0   ? throws<lru::ZeroCharge>(give)
            : charge == 9 ? throws<lru::Full>(give)
                          : throws<lru::Overflow>(give));
      CHECK(!deleted.empty() && deleted[0] == 7);
    }
    CHECK(!first.maker);
    waiting.join();
    const lru::Stats stats = cache.stats();
    CHECK(stats.loads == 3 && stats.load_failures == (charge == 4 ? 0 : 1));
    CHECK(stats.pinned_charge == 2 && held->number == 2);
  }
}

void makers_move() {
  Numbers cache(10);
  Numbers::Maker one = cache.begin(key(1), 1).maker;
  Numbers::Maker two = cache.begin(key(2), 1).maker;
  Numbers::Maker three = cache.begin(key(3), 1).maker;
  Numbers::Maker moved = std::move(two);
  CHECK(!two && moved && cache.len() == 3);
  Numbers::Maker& same = moved;
  moved = std::move(same);
  CHECK(moved && cache.len() == 3);
  // One that has a duty fails when it is given another, and may have a new one later.
  one = std::move(moved);
  CHECK(one && !moved && cache.len() == 2);
  moved = Numbers::Maker();
  two = std::move(one);
  std::vector<Numbers::Maker> all;
  all.push_back(std::move(three));
  all.push_back(std::move(two));
  all.push_back(cache.begin(key(4), 1).maker);
  all.erase(all.begin());
  CHECK(cache.len() == 2 && !cache.try_begin(key(2), 1).maker && cache.begin(key(3), 1).maker);
  // The cache knows them all where they are: no key finds what they make after a `clear`.
  cache.clear();
  CHECK(*all[0].ready(2) == 2 && *all[1].ready(4) == 4);
  CHECK(cache.len() == 0 && cache.stats().removals == 3);
}

void a_try_never_waits() {
  Numbers cache(10);
  auto first = cache.begin(key(1), 3);
  for (int n = 0; n < 3; n++) {
    const auto begun = cache.try_begin(key(1), 4);
    CHECK(!begun.handle && !begun.maker);
  }
  CHECK(cache.total_charge() == 3 && cache.stats().waits == 3 && cache.stats().misses == 1);
  // They have left no pin: what fails is removed, and what is made is idle without its handle.
  first.maker.fail();
  CHECK(cache.len() == 0 && cache.stats().removals == 1);
  first = cache.try_begin(key(1), 3);
  CHECK(first.maker && !cache.try_begin(key(1), 4).maker);
  first.maker.ready(7).release_and_evict();
  CHECK(cache.len() == 0 && cache.stats().evictions == 1);
}

// With others that wait: these get the value, or make it.
void a_try_leaves_those_that_wait_alone() {
  for (const bool fails : {false, true}) {
    Numbers cache(10);
    auto first = cache.begin(key(1), 3);
    std::atomic<bool> has_made{false};
    std::thread waiting([&] {
      auto [handle, maker] = cache.begin(key(1), 3);
      has_made = static_cast<bool>(maker);
      if (maker) handle = maker.ready(8);
      CHECK(*handle == (fails ? 8 : 7));
    });
    wait_for_waits(cache, 1);
    CHECK(!cache.try_begin(key(1), 3).maker && !cache.try_begin(key(1), 3).handle);
    CHECK(!has_made && cache.len() == 1);
    if (fails) {
      first.maker.fail();
    } else {
      CHECK(*first.maker.ready(7) == 7);
    }
    waiting.join();
    CHECK(has_made == fails && cache.pinned_charge() == 0 && cache.contains(key(1)));
  }
}

template <class Cache>
void passes_makers(Cache& cache) {
  auto begun = cache.begin(key(1), 1);
  std::atomic<int> right{0};
  std::vector<std::thread> threads;
  for (int t = 0; t < 4; t++) {
    threads.emplace_back([&] { right += *cache.get_or_init(key(1), 1, returns(8)) == 7; });
  }
  wait_for_waits(cache, 4);
  CHECK(!cache.try_begin(key(1), 1).maker);
  threads.emplace_back([&right, maker = std::move(begun.maker)]() mutable {
    right += *maker.ready(7) == 7;
  });
  for (std::thread& thread : threads) thread.join();
  CHECK(right == 5 && cache.pinned_charge() == 0 && *cache.begin(key(1), 1).handle == 7);

  // Many threads move makers, while another clears the cache.
  std::atomic<bool> is_over{false};
  std::thread clearing([&] {
    while (!is_over) cache.clear();
  });
  threads.clear();
  for (std::uint64_t t = 0; t < 4; t++) {
    threads.emplace_back([&, t] {
      for (std::uint64_t n = 0; n < 200; n++) {
        auto maker = cache.try_begin(key(10 + t), 1).maker;
        if (!maker) continue;
        auto moved = std::move(maker);
        if (n % 4 != 0) moved.ready(static_cast<int>(n));
      }
    });
  }
  for (std::thread& thread : threads) thread.join();
  is_over = true;
  clearing.join();
  cache.clear();
  CHECK(cache.len() == 0 && cache.pinned_charge() == 0);
}

void makers_go_to_other_threads() {
  Numbers cache(10);
  passes_makers(cache);
  lru::ShardedCache<const int, lru::Words> sharded(100, 4);
  passes_makers(sharded);
}

void loads_are_counted() {
  using Clock = std::chrono::steady_clock;
  using std::chrono::milliseconds;
  const auto wait = [] { std::this_thread::sleep_for(milliseconds(20)); };
  // Deleting a value takes long, and is no part of a load.
  struct Slow {
    explicit Slow(int n) : number(n) {}
    ~Slow() { std::this_thread::sleep_for(milliseconds(50)); }
    int number;
  };
  lru::Cache<Slow, lru::Words> cache(2);
  cache.set_load_times(true);
  const auto took = [&](auto call) {
    const lru::Stats before = cache.stats();
    const Clock::time_point start = Clock::now();
    call();
    const std::chrono::nanoseconds all = Clock::now() - start;
    const lru::Stats after = cache.stats();
    const auto load = static_cast<std::int64_t>(after.load_nanoseconds - before.load_nanoseconds);
    CHECK(load >= 0 && load <= all.count());
    CHECK(after.loads - before.loads <= 1 && after.load_failures - before.load_failures <= 1);
    return std::pair(std::chrono::nanoseconds(load), all);
  };
  const auto slowly = [&](lru::Words) { return wait(), 1; };
  CHECK(took([&] { cache.get_or_init(key(1), 1, slowly); }).first >= milliseconds(20));
  CHECK(cache.stats().loads == 1 && cache.stats().load_failures == 0);
  // A hit, an insert and a `get` are no loads.
  const auto none = took([&] {
    cache.get_or_init(key(1), 1, slowly);
    cache.get(key(3));
    cache.insert(key(2), 1, 2);
  });
  CHECK(none.first == milliseconds(0) && cache.stats().loads == 1);
  const auto failed = took([&] {
    try {
      cache.get_or_init(key(3), 1, [&](lru::Words) -> int {
        wait();
        throw std::runtime_error("no value");
      });
    } catch (const std::runtime_error&) {
    }
  });
  // It evicted a value first.
  CHECK(failed.first >= milliseconds(20) && failed.first + milliseconds(50) <= failed.second);
  CHECK(cache.stats().loads == 1 && cache.stats().load_failures == 1);

  // Of a maker, the time until it ends.
  const auto made = took([&] {
    auto begun = cache.begin(key(4), 1);
    wait();
    begun.maker.ready(1);
  });
  const auto given_up = took([&] {
    auto begun = cache.try_begin(key(5), 1);
    auto moved = std::move(begun.maker);
    wait();
  });
  CHECK(made.first >= milliseconds(20) && given_up.first >= milliseconds(20));
  CHECK(cache.stats().loads == 2 && cache.stats().load_failures == 2);

  // Who waits loads nothing.
  auto first = cache.begin(key(6), 1);
  std::thread waiting([&] { cache.get_or_init(key(6), 1, slowly); });
  wait_for_waits(cache, 1);
  wait();
  first.maker.ready(1);
  waiting.join();
  CHECK(cache.stats().loads == 3);

  // A charge that is told with the value may be refused.
  for (const std::uint64_t charge : {1, 0}) {
    const auto told = took([&] {
      const auto init = [&](lru::Words) { return wait(), std::pair(1, charge); };
      CHECK(throws<lru::ZeroCharge>([&] { cache.get_or_init_with(key(8 + charge), init); }) ==
            (charge == 0));
    });
    CHECK(told.first >= milliseconds(20));
  }
  CHECK(cache.stats().loads == 4 && cache.stats().load_failures == 3);

  // Times are measured only while that is asked for.
  cache.set_load_times(false);
  CHECK(took([&] { cache.get_or_init(key(7), 1, slowly); }).first == milliseconds(0));
  CHECK(cache.stats().loads == 5);

  lru::ShardedCache<const int, lru::Words> sharded(100, 4);
  sharded.set_load_times(true);
  for (std::uint64_t n = 0; n < 8; n++) {
    auto begun = sharded.begin(key(n), 1);
    if (n % 4 != 0) begun.maker.ready(1);
  }
  const lru::Stats sum = sharded.stats();
  CHECK(sum.loads == 6 && sum.load_failures == 2 && sum.load_nanoseconds > 0);
}

void a_making_wakes_only_those_that_wait_for_it() {
  constexpr std::size_t kWaiting = 20;
  Numbers cache(10);
  Meeting meeting;
  Sleepers sleepers;
  std::vector<std::thread> threads;
  threads.emplace_back([&] {
    cache.get_or_init(key(0), 1, [&](lru::Words) {
      meeting.meet();
      meeting.meet();
      return 7;
    });
  });
  meeting.meet();
  std::atomic<std::size_t> right{0};
  for (std::size_t t = 0; t < kWaiting; t++) {
    threads.emplace_back([&] {
      sleepers.add_this_thread();
      if (*cache.get_or_init(key(0), 1, returns(8)) == 7) right++;
    });
  }
  wait_for_waits(cache, kWaiting);
  const long before = sleepers.sleeps();
  for (std::uint64_t n = 1; n <= 200; n++) {
    cache.get_or_init(key(n), 1, returns(1));
    try {
      cache.get_or_init(key(1000 + n), 1, [](lru::Words) -> int {
        throw std::runtime_error("no value");
      });
    } catch (const std::runtime_error&) {
    }
  }
  // Nobody has woken: who wakes goes to sleep once more.
  CHECK(sleepers.sleeps() == before);
  meeting.meet();
  for (std::thread& thread : threads) thread.join();
  CHECK(right == kWaiting);
}

void other_keys_are_served_while_a_value_is_made() {
  Numbers cache(2);
  Meeting meeting;
  std::thread making([&] {
    cache.get_or_init(key(1), 1, [&](lru::Words) {
      meeting.meet();
      meeting.meet();
      return 1;
    });
  });
  // The other thread cannot continue before these calls have returned.
  meeting.meet();
  CHECK(!cache.get(key(1)));
  CHECK(*cache.get_or_init(key(2), 1, returns(2)) == 2);
  CHECK(cache.total_charge() == 2);
  meeting.meet();
  making.join();
}

void a_destructor_may_call_the_cache() {
  std::vector<int> deleted;
  Calling::Cache cache(2);
  const auto make = [&](int number) {
    cache.get_or_init(key(static_cast<std::uint64_t>(number)), 1,
                      [&](lru::Words) { return Calling(&cache, &deleted, number); });
  };
  make(1);
  make(2);
  // This evicts 1, whose destructor evicts 2.
  make(3);
  CHECK((deleted == std::vector<int>{1, 2}));
  cache.prune();
  CHECK((deleted == std::vector<int>{1, 2, 3}));
  make(4);
  auto last = cache.insert(key(5), 1, Calling(&cache, &deleted, 5));
  last.release_and_evict();
  CHECK((deleted == std::vector<int>{1, 2, 3, 5, 4}) && cache.len() == 0);
}

void a_cache_deletes_what_is_left_oldest_release_first() {
  std::vector<int> deleted;
  {
    Calling::Cache cache(2);
    const auto make = [&](int number) {
      return cache.get_or_init(key(static_cast<std::uint64_t>(number)), 1,
                               [&](lru::Words) { return Calling(nullptr, &deleted, number); });
    };
    for (int number = 1; number <= 3; number++) make(number);
    CHECK((deleted == std::vector<int>{1}));
    auto pinned = make(4);
    make(5);
    make(6);
    CHECK((deleted == std::vector<int>{1, 2, 3, 5}));
    pinned.reset();
    make(7);
    make(8);
    CHECK((deleted == std::vector<int>{1, 2, 3, 5, 6, 4}));
  }
  CHECK(deleted.size() == 8);
}

void a_capacity_is_set_at_any_time() {
  Numbers cache(3);
  CHECK(cache.capacity() == 3);
  for (int n = 1; n <= 3; n++) cache.get_or_init(key(static_cast<std::uint64_t>(n)), 1, returns(n));
  cache.set_capacity(1);
  CHECK(cache.capacity() == 1 && cache.total_charge() == 1);
  CHECK(!cache.get(key(2)) && cache.get(key(3)));
}

// The hash of a key is its second word.
struct BySecond {
  std::size_t operator()(lru::Words k) const { return static_cast<std::size_t>(k.second); }
};

void a_strict_limit_has_no_room_beside_pinned_values() {
  Numbers cache(10, lru::Limit::kStrict);
  CHECK(cache.is_limit_strict() && !Numbers(10).is_limit_strict());
  auto one = cache.get_or_init(key(1), 6, returns(1));
  cache.get_or_init(key(2), 4, returns(2));
  bool ran = false;
  const auto runs = [&ran](lru::Words) { return ran = true, 3; };
  const lru::Stats before = cache.stats();
  CHECK(is_full([&] { cache.get_or_init(key(3), 5, runs); }));
  CHECK(is_full([&] { cache.insert(key(3), 5, 3); }));
  // The old value has a handle, so it takes room.
  CHECK(is_full([&] { cache.insert(key(1), 5, 3); }));
  // Nothing is evicted or counted, and no value is made.
  const lru::Stats after = cache.stats();
  CHECK(!ran && after.misses == before.misses && after.evictions == before.evictions);
  CHECK(after.insertions == before.insertions && cache.total_charge() == 10);
  CHECK(*cache.get(key(1)) == 1 && *cache.get(key(2)) == 2);

  // A value that exists is found; idle values leave for a new one.
  CHECK(*cache.get_or_init(key(1), 9, runs) == 1 && !ran);
  CHECK(*cache.get_or_init(key(3), 4, returns(3)) == 3 && !cache.get(key(2)));
  CHECK(*cache.insert(key(3), 4, 4) == 4 && cache.total_charge() == 10);
  one.reset();
  CHECK(*cache.insert(key(4), 10, 5) == 5 && cache.total_charge() == 10);

  // The limit is set at any time, whatever the total is.
  cache.set_strict_limit(false);
  CHECK(!cache.is_limit_strict());
  auto large = cache.insert(key(5), 11, 6);
  cache.set_strict_limit(true);
  CHECK(cache.is_limit_strict() && cache.total_charge() == 11 && *large == 6);
  CHECK(is_full([&] { cache.get_or_init(key(6), 1, runs); }) && !ran);
  large.reset();
  CHECK(*cache.get_or_init(key(6), 1, runs) == 3 && ran);
}

void a_strict_limit_is_that_of_each_shard() {
  using Sharded = lru::ShardedCache<const int, lru::Words, BySecond>;
  Sharded cache(4, 2, lru::Limit::kStrict);
  CHECK(cache.is_limit_strict() && !Sharded(4, 2).is_limit_strict());
  CHECK((Sharded(4, lru::Limit::kStrict).is_limit_strict()));
  auto even = cache.insert(key(0), 2, 0);
  CHECK(is_full([&] { cache.insert(key(2), 1, 2); }));
  CHECK(*cache.insert(key(1), 2, 1) == 1);
  cache.set_strict_limit(false);
  CHECK(!cache.is_limit_strict() && *cache.insert(key(2), 1, 2) == 2);
}

// What for_each shows of each value, in the order of the keys: key, value, charge and pins.
template <class Cache>
std::string shown(const Cache& cache) {
  std::set<std::string> all;
  cache.for_each(
      [&](std::string_view key, const int& value, std::uint64_t charge, std::uint32_t pins) {
        all.insert(std::string(key) + "=" + std::to_string(value) + ":" + std::to_string(charge) +
                   "/" + std::to_string(pins) + " ");
      });
  std::string text;
  for (const std::string& one : all) text += one;
  return text;
}

void values_that_keys_find_are_shown() {
  lru::Cache<int> cache(10);
  CHECK(shown(cache).empty());
  const auto a = cache.insert("a", 1, 10);
  cache.insert("bb", 2, 20);
  cache.insert("", 3, 30);
  // Longer than the keys that are shown before and after it.
  const auto longest = cache.insert(std::string(100, 'x'), 4, 40);
  const auto again = longest.clone();
  CHECK(shown(cache) == "=30:3/0 a=10:1/1 bb=20:2/0 " + std::string(100, 'x') + "=40:4/2 ");
  cache.get_or_init("made", 1, [&](std::string_view) {
    CHECK(shown(cache).find("made") == std::string::npos);
    return 50;
  });
  cache.invalidate("a");
  // "bb" was released first, so the making evicted it: to be shown is no use.
  CHECK(shown(cache) == "=30:3/0 made=50:1/0 " + std::string(100, 'x') + "=40:4/2 ");

  lru::Cache<int, lru::Words> words(10);
  const auto held = words.insert(lru::Words{3, 4}, 5, 7);
  int visits = 0;
  words.for_each([&](lru::Words key, int& value, std::uint64_t charge, std::uint32_t pins) {
    CHECK((key == lru::Words{3, 4}) && &value == held.get() && charge == 5 && pins == 1);
    visits++;
  });
  CHECK(visits == 1);
}

void values_of_all_shards_are_shown() {
  lru::ShardedCache<int> cache(1000, std::size_t{4});
  std::set<std::string> keys;
  for (int n = 0; n < 100; n++) {
    keys.insert(std::to_string(n));
    cache.insert(std::to_string(n), 1, n);
  }
  std::set<std::string> seen;
  int visits = 0;
  cache.for_each([&](std::string_view key, const int& value, std::uint64_t, std::uint32_t) {
    CHECK(std::to_string(value) == key);
    seen.emplace(key);
    visits++;
  });
  CHECK(visits == 100 && seen == keys);
}

void a_visit_may_throw() {
  Numbers cache(10);
  for (const std::uint64_t n : {1u, 2u, 3u}) cache.insert(key(n), 1, 0);
  int visits = 0;
  try {
    cache.for_each([&](auto&&...) {
      if (++visits == 2) throw std::runtime_error("enough");
    });
    CHECK(false);
  } catch (const std::runtime_error&) {
  }
  // The lock was released.
  CHECK(visits == 2 && cache.len() == 3);
}

template <class Key, class KeyOf>
void clears(KeyOf key_of) {
  using Cache = lru::Cache<std::unique_ptr<Recorded>, Key>;
  std::vector<int> deleted;
  Cache cache(10);
  const auto insert = [&](int number) {
    return cache.insert(key_of(number), 1, std::make_unique<Recorded>(&deleted, number));
  };
  cache.clear();
  for (int number = 1; number <= 3; number++) insert(number);
  cache.clear();
  // The one that was released first leaves first.
  CHECK((deleted == std::vector<int>{1, 2, 3}) && cache.len() == 0);

  // A value with a handle leaves with it. So does one that was invalidated before, whose key has
  // another value by now.
  deleted.clear();
  auto held = insert(4);
  auto replaced = insert(5);
  insert(5 + 100);
  insert(6);
  cache.insert(key_of(5), 1, std::make_unique<Recorded>(&deleted, 50));
  cache.clear();
  CHECK((deleted == std::vector<int>{105, 6, 50}) && cache.len() == 2);
  for (const int number : {4, 5, 6, 105}) CHECK(!cache.contains(key_of(number)));
  CHECK((*held)->number == 4 && (*replaced)->number == 5);
  CHECK((*insert(4))->number == 4 && cache.len() == 3);
  held.reset();
  replaced.reset();
  CHECK((deleted == std::vector<int>{105, 6, 50, 4, 5}) && cache.contains(key_of(4)));

  // No key finds a value whose making had begun.
  deleted.clear();
  Meeting meeting;
  std::thread making([&] {
    const auto made = cache.get_or_init(key_of(7), 1, [&](Key) {
      // This one begins later and ends earlier.
      const auto other = cache.get_or_init(key_of(8), 1, [&](Key) {
        meeting.meet();
        meeting.meet();
        return std::make_unique<Recorded>(&deleted, 8);
      });
      CHECK((*other)->number == 8 && !cache.contains(key_of(8)));
      return std::make_unique<Recorded>(&deleted, 7);
    });
    CHECK((*made)->number == 7);
  });
  meeting.meet();
  std::thread waiting([&] {
    // It has asked before the clear.
    const auto got = cache.get_or_init(key_of(7), 1, [](Key) { return nullptr; });
    CHECK((*got)->number == 7);
  });
  wait_for_waits(cache, 1);
  cache.clear();
  CHECK((deleted == std::vector<int>{4}) && cache.len() == 2);
  const auto fresh = cache.get_or_init(
      key_of(7), 1, [&](Key) { return std::make_unique<Recorded>(&deleted, 70); });
  CHECK((*fresh)->number == 70);
  meeting.meet();
  making.join();
  waiting.join();
  CHECK((deleted == std::vector<int>{4, 8, 7}) && (**cache.get(key_of(7))).number == 70);
}

void a_clear_leaves_nothing_to_be_found() {
  clears<lru::Words>([](int number) { return key(static_cast<std::uint64_t>(number)); });
  // Keys of different lengths, none of which is copied to a place that is too small.
  std::vector<std::string> names;
  for (int number = 0; number < 200; number++) {
    names.push_back(std::string(static_cast<std::size_t>(number), 'k'));
  }
  clears<std::string_view>(
      [&](int number) { return std::string_view(names[static_cast<std::size_t>(number)]); });
}

void what_a_predicate_chooses_is_erased() {
  std::vector<int> deleted;
  lru::Cache<std::unique_ptr<Recorded>> cache(100);
  const auto insert = [&](std::string_view key, std::uint64_t charge, int number) {
    return cache.insert(key, charge, std::make_unique<Recorded>(&deleted, number));
  };
  const auto all = [](auto&&...) { return true; };
  CHECK(cache.erase_if(all) == 0);
  insert("a", 1, 1);
  insert("bb", 2, 2);
  auto held = insert("", 3, 3);
  auto invalidated = insert("gone", 4, 4);
  cache.invalidate("gone");
  insert(std::string(100, 'x'), 5, 5);
  const lru::Stats before = cache.stats();

  // It sees each key, value and charge once. Nothing leaves unless it says so.
  std::set<std::string> seen;
  const auto none = [&](std::string_view key, const auto& value, std::uint64_t charge) {
    CHECK(deleted.empty());
    seen.insert(std::string(key) + "=" + std::to_string(value->number) + ":" +
                std::to_string(charge));
    return false;
  };
  CHECK(cache.erase_if(none) == 0 && deleted.empty() && cache.len() == 5);
  CHECK((seen == std::set<std::string>{"a=1:1", "bb=2:2", "=3:3", std::string(100, 'x') + "=5:5"}));

  // By key, by value and by charge.
  CHECK(cache.erase_if([](std::string_view key, auto&&...) { return key == "bb"; }) == 1);
  CHECK((deleted == std::vector<int>{2}) && !cache.contains("bb") && cache.contains("a"));
  const auto is_fifth = [](std::string_view, const auto& value, auto) {
    return value->number == 5;
  };
  CHECK(cache.erase_if(is_fifth) == 1 && (deleted == std::vector<int>{2, 5}));
  // A value with a handle leaves with it.
  CHECK(cache.erase_if([](auto, auto&&, std::uint64_t charge) { return charge == 3; }) == 1);
  CHECK(!cache.contains("") && (*held)->number == 3 && deleted.size() == 2);
  held.reset();
  CHECK((deleted == std::vector<int>{2, 5, 3}));
  const lru::Stats after = cache.stats();
  CHECK(after.evictions == before.evictions + 3 && after.hits == before.hits);

  // A value that is being made is not shown, and stays.
  cache.get_or_init("made", 1, [&](std::string_view) {
    CHECK(cache.erase_if(all) == 1);
    return std::make_unique<Recorded>(&deleted, 6);
  });
  CHECK(cache.contains("made") && deleted.back() == 1 && cache.len() == 2);

  // Values are deleted after the lock was released: their destructors may call the cache.
  std::vector<int> numbers;
  Calling::Cache calling(10);
  for (int n = 1; n <= 3; n++) {
    calling.insert(key(static_cast<std::uint64_t>(n)), 1, Calling(&calling, &numbers, n));
  }
  CHECK(calling.erase_if([](lru::Words k, auto&&...) { return k.second < 3; }) == 2);
  CHECK(numbers.size() == 3 && calling.len() == 0);
  calling.insert(key(4), 1, Calling(&calling, &numbers, 4));
  calling.clear();
  CHECK(numbers.size() == 4);
}

void a_predicate_that_throws_erases_nothing() {
  Numbers cache(10);
  for (const std::uint64_t n : {1u, 2u, 3u}) cache.insert(key(n), 1, 0);
  int calls = 0;
  bool thrown = false;
  try {
    cache.erase_if([&](auto&&...) {
      if (++calls == 3) throw std::runtime_error("enough");
      return true;
    });
  } catch (const std::runtime_error&) {
    thrown = true;
  }
  // The lock was released, and the cache goes on.
  CHECK(thrown && cache.len() == 3 && cache.contains(key(1)));
  CHECK(*cache.get_or_init(key(4), 1, returns(4)) == 4);
  CHECK(cache.erase_if([](auto&&...) { return true; }) == 4 && cache.len() == 0);
}

void every_shard_is_cleared() {
  lru::ShardedCache<int> cache(1000, std::size_t{4});
  for (int n = 0; n < 100; n++) cache.insert(std::to_string(n), 1, n);
  CHECK(cache.erase_if([](auto, int value, auto) { return value % 2 == 0; }) == 50);
  CHECK(cache.len() == 50 && !cache.contains("42") && cache.contains("43"));
  auto held = cache.get("43");
  cache.clear();
  CHECK(cache.len() == 1 && !cache.contains("43") && *held == 43);
}

// What a listener has been told, as `key=value reason`, one after another.
struct Told {
  template <class Key, class Value>
  void operator()(const Key& key, const Value& value, lru::Reason reason) {
    const char* const names[] = {"evicted", "invalidated", "replaced", "cleared"};
    text += text.empty() ? "" : ", ";
    text += key + "=" + std::to_string(value) + " " + names[static_cast<int>(reason)];
  }
  // And forgets it.
  std::string take() { return std::exchange(text, ""); }

  std::string text;
};

// The caches have room for three values of charge 1, and one shard.
template <class Make>
void tells(Make make) {
  Told told;
  {
    auto owner = make([&told](auto key, const int& value, lru::Reason reason) {
      told(std::string(key), value, reason);
    });
    auto& cache = *owner;
    const auto init = [&](const char* key, int value) {
      return cache.get_or_init(key, 1, [value](std::string_view) { return value; });
    };
    for (const char* key : {"a", "b", "c", "a"}) init(key, 1);
    CHECK(told.take().empty());
    // To make room, oldest first; also when the last handle goes, or the capacity is set.
    init("d", 2);
    cache.insert("e", 2, 3);
    CHECK(told.take() == "b=1 evicted, c=1 evicted, a=1 evicted");
    {
      const auto one = init("f", 4), two = init("g", 5), three = init("h", 6), four = init("i", 7);
      CHECK(told.take() == "d=2 evicted, e=3 evicted");
    }
    CHECK(told.take() == "i=7 evicted");
    cache.set_capacity(2);
    cache.advice_evict("g");
    init("f", 0).release_and_evict();
    cache.set_capacity(3);
    init("j", 8);
    cache.prune();
    CHECK(told.take() == "h=6 evicted, g=5 evicted, f=4 evicted, j=8 evicted");

    // By a call, whether the value is idle or has a handle.
    init("a", 1);
    auto held = init("b", 2);
    const lru::Stats before = cache.stats();
    cache.invalidate("none");
    cache.invalidate("a");
    cache.invalidate("b");
    const lru::Stats after = cache.stats();
    CHECK(after.hits == before.hits && after.misses == before.misses);
    CHECK(told.take() == "a=1 invalidated");
    cache.insert("b", 1, 3);
    held.reset();
    CHECK(told.take() == "b=2 invalidated");
    held = init("c", 4);
    CHECK(cache.erase_if([](auto&&...) { return true; }) == 2);
    CHECK(told.take() == "b=3 invalidated");
    held.release_and_evict();
    CHECK(told.take() == "c=4 invalidated");
    cache.insert("a", 1, 1);
    cache.insert("b", 1, 2);
    cache.insert("a", 2, 3);
    held = cache.insert("a", 2, 4);
    CHECK(told.take() == "a=1 replaced, a=3 replaced");
    auto again = held.clone();
    cache.insert("a", 1, 5);
    cache.invalidate("a");
    held.reset();
    CHECK(told.take() == "b=2 evicted, a=5 invalidated");
    again.reset();
    CHECK(told.take() == "a=4 replaced");
    held = cache.insert("a", 1, 6);
    cache.insert("a", 1, 7);
    cache.insert("b", 1, 8);
    again = cache.get("b");
    cache.clear();
    CHECK(told.take() == "a=7 cleared");
    held.release_and_evict();
    again.reset();
    CHECK(told.take() == "a=6 replaced, b=8 cleared");

    // A value whose key was taken away while it was made.
    for (int call = 0; call < 3; call++) {
      auto [handle, maker] = cache.begin("a", 1);
      if (call == 0) cache.invalidate("a");
      if (call == 1) cache.clear();
      if (call == 2) cache.insert("a", 1, 2);
      auto moved = std::move(maker);
      handle = moved.ready(1);
      handle.reset();
      CHECK(told.take() == "a=1 invalidated");
    }
    cache.clear();
    CHECK(told.take() == "a=2 cleared");

    // For a charge that is told with a value, and once its key was taken away.
    init("a", 1);
    init("b", 2);
    cache.begin("c", 1).maker.ready_with(3, 3);
    CHECK(told.take() == "a=1 evicted, b=2 evicted");
    cache.prune();
    {
      auto begun = cache.begin("a", 1);
      cache.invalidate("a");
      begun.maker.ready_with(2, 4);
    }
    CHECK(told.take() == "c=3 evicted, a=4 invalidated");

    // What the cache did not keep is not told.
    try {
      cache.insert("a", 0, 1);
    } catch (const lru::ZeroCharge&) {
    }
    try {
      cache.begin("a", 1).maker.ready_with(0, 1);
    } catch (const lru::ZeroCharge&) {
    }
    { auto begun = cache.begin("a", 1); }
    CHECK(told.take().empty());
    cache.begin("a", 1).maker.ready(1);
    cache.insert("b", 1, 2);
  }
  CHECK(told.take() == "a=1 cleared, b=2 cleared");
}

void a_listener_is_told_what_leaves() {
  tells([](auto listener) { return std::make_unique<lru::Cache<int>>(3, listener); });
  tells([](auto listener) {
    return std::make_unique<lru::ShardedCache<int>>(3, std::size_t{1}, listener);
  });
  tells([](auto listener) {
    return std::make_unique<lru::Cache<int, std::string>>(3, listener, lru::Limit::kNotStrict,
                                                          lru::Seed(1));
  });

  // All shards tell one function. Keys are shown as for_each shows them.
  Told told;
  {
    lru::ShardedCache<int, int> shards(400, 4, [&told](int k, int value, lru::Reason reason) {
      told(std::to_string(k), value, reason);
    });
    for (const int n : {1, 2, 3, 4}) shards.insert(n, 1, 10 * n);
    for (const int n : {4, 3, 2, 1}) shards.invalidate(n);
    CHECK(told.take() == "4=40 invalidated, 3=30 invalidated, 2=20 invalidated, 1=10 invalidated");
    shards.insert(5, 1, 50);
  }
  CHECK(told.take() == "5=50 cleared");
  struct Counting {
    void operator()(int, const int&, lru::Reason) { ++*count; }
    std::shared_ptr<int> count;
  };
  auto count = std::make_shared<int>(0);
  lru::ShardedCache<int, int> counting(400, 4, Counting{count});
  CHECK(count.use_count() == 2);
  counting.insert(1, 1, 1);
  counting.prune();
  CHECK(*count == 1);
  lru::Cache<int> untold(10, nullptr);
  untold.insert("a", 1, 1);
  untold.clear();
  CHECK(untold.len() == 0);
}

// A strict limit, and an `insert` that is refused: the old value is as old as before.
void a_listener_changes_no_answer() {
  Told told;
  Numbers cache(
      3, [&told](lru::Words k, const int& value, lru::Reason reason) {
        told(std::to_string(k.second), value, reason);
      },
      lru::Limit::kStrict);
  for (const std::uint64_t n : {1u, 2u, 3u}) cache.insert(key(n), 1, static_cast<int>(n));
  CHECK(cache.is_limit_strict() && is_full([&] { cache.insert(key(1), 4, 4); }));
  cache.insert(key(4), 1, 4);
  CHECK(told.take() == "1=1 evicted");
  const auto held = cache.get(key(2));
  CHECK(is_full([&] { cache.insert(key(2), 3, 5); }) && told.take().empty());
  cache.advice_evict(key(2));
  CHECK(told.take().empty() && cache.contains(key(2)));
}

// It is called before the value is deleted, and may take long and call the cache.
void a_listener_runs_without_the_lock() {
  std::vector<int> deleted;
  std::vector<std::uint64_t> seen;
  lru::Cache<Recorded, lru::Words>* calls = nullptr;
  lru::Cache<Recorded, lru::Words> cache(2, [&](lru::Words k, const Recorded& value, auto) {
    if (calls == nullptr) return;
    CHECK(deleted.size() == seen.size() && static_cast<std::uint64_t>(value.number) == k.second);
    CHECK(std::async(std::launch::async, [&] { return calls->len(); }).get() <= 2);
    calls->advice_evict(key(100));
    seen.push_back(k.second);
  });
  calls = &cache;
  const auto make = [&](std::uint64_t n) {
    return cache.begin(key(n), 1).maker.ready(&deleted, static_cast<int>(n));
  };
  for (std::uint64_t n = 1; n <= 4; n++) make(n);
  make(5).release_and_evict();
  cache.invalidate(key(4));
  CHECK((seen == std::vector<std::uint64_t>{1, 2, 3, 5, 4}));
  make(6);
  cache.prune();
  make(7);
  cache.set_capacity(0);
  CHECK((seen == std::vector<std::uint64_t>{1, 2, 3, 5, 4, 6, 7}) && deleted.size() == 7);
  calls = nullptr;
}

void a_cache_goes_on_if_its_listener_throws() {
  std::vector<int> deleted;
  int calls = 0;
  {
    lru::Cache<Recorded, lru::Words> cache(10, [&](auto&&...) {
      calls++;
      throw std::runtime_error("unheard");
    });
    const auto make = [&](int n) {
      return cache.begin(key(static_cast<std::uint64_t>(n)), 1).maker.ready(&deleted, n);
    };
    for (int n = 1; n <= 3; n++) make(n);
    auto held = make(4);
    cache.prune();
    CHECK(calls == 3 && (deleted == std::vector<int>{1, 2, 3}));
    cache.invalidate(key(4));
    held.reset();
    make(5);
    cache.clear();
    CHECK(calls == 5 && (deleted == std::vector<int>{1, 2, 3, 4, 5}) && cache.len() == 0);
    make(6);
  }
  CHECK(calls == 6 && deleted.size() == 6);
}

void room_is_made_or_refused() {
  const auto is_refused = [](auto&& cache) {
    try {
      cache.reserve(SIZE_MAX);
    } catch (const lru::OutOfMemory&) {
      return cache.len() == 1;
    }
    return false;
  };
  Numbers cache(10);
  cache.insert(key(1), 1, 1);
  lru::ShardedCache<const int, lru::Words> sharded(10, 4);
  sharded.insert(key(1), 1, 1);
  CHECK(is_refused(cache) && is_refused(sharded));
  cache.reserve(1000);
  sharded.reserve(1000);
  CHECK(*cache.get(key(1)) == 1 && *sharded.get(key(1)) == 1 && cache.capacity() == 10);
}

// What calls have counted.
auto counts_of(const lru::Stats& stats) {
  return std::tuple(stats.hits, stats.misses, stats.waits, stats.insertions, stats.evictions,
                    stats.removals, stats.loads, stats.load_failures);
}

// That the memory is given back is tested by no_memory_cpp.cc.
void tables_shrink_if_they_are_empty() {
  Numbers cache(10, [](lru::Words, const int&, lru::Reason) {}, lru::Limit::kStrict);
  for (std::uint64_t round = 1; round <= 2; round++) {
    {
      const auto held = cache.get_or_init(key(1), 1, returns(1));
      cache.get(key(1));
      cache.insert(key(2), 1, 2);
      CHECK(throws<int>([&] {
        cache.get_or_init(key(3), 1, [](lru::Words) -> int { throw 3; });
      }));
      cache.invalidate(key(2));  // which the listener makes look for the value
      cache.prune();
      CHECK(!cache.shrink_to_fit() && *held == 1);
    }
    CHECK(!cache.shrink_to_fit());
    cache.prune();
    const auto counts = counts_of(cache.stats());
    CHECK(counts == std::tuple(round, 2 * round, 0u, 3 * round, 2 * round, round, round, round));
    CHECK(cache.shrink_to_fit() && cache.shrink_to_fit());
    CHECK(counts_of(cache.stats()) == counts && cache.len() == 0);
    CHECK(cache.capacity() == 10 && cache.is_limit_strict() && !cache.contains(key(1)));
  }
  lru::ShardedCache<const int, lru::Words, BySecond> sharded(10, 2);
  sharded.insert(key(1), 1, 1);
  CHECK(!sharded.shrink_to_fit() && *sharded.get(key(1)) == 1);
  sharded.prune();
  CHECK(sharded.shrink_to_fit() && sharded.stats().hits == 1);
}

void shards_have_equal_shares() {
  using Sharded = lru::ShardedCache<const int, lru::Words, BySecond>;
  CHECK(Sharded(10, 3).capacity() == 12);
  CHECK(Sharded(UINT64_MAX, 2).capacity() == UINT64_MAX);
  Sharded cache(4, 2);
  for (int n = 0; n <= 4; n++) {
    cache.get_or_init(key(static_cast<std::uint64_t>(n)), 1, returns(n));
  }
  // The shard of the even keys has room for two.
  CHECK(!cache.get(key(0)) && cache.get(key(1)) && cache.get(key(2)) && cache.get(key(3)));
  CHECK(*cache.get(key(4)) == 4 && cache.total_charge() == 4);
  cache.advice_evict(key(1));
  CHECK(!cache.get(key(1)) && cache.total_charge() == 3);
  cache.set_capacity(2);
  CHECK(cache.capacity() == 2 && cache.total_charge() == 2);
  const Sharded::Handle held = cache.get(key(3));
  CHECK(cache.pinned_charge() == 1);
  cache.prune();
  CHECK(cache.total_charge() == 1 && *held == 3);
  CHECK(cache.read(key(3), [](const int& number) { return number + 1; }) == 4);
  lru::ShardedCache<std::string> texts(100);
  for (const char* text : {"one", "two", "three"}) {
    texts.get_or_init(text, 1, [](std::string_view k) { return std::string(k); });
  }
  CHECK(texts.total_charge() == 3 && *texts.get("two") == "two");
  CHECK(texts.len() == 3 && texts.contains("two") && !texts.contains("four"));
  CHECK(*texts.insert("two", 2, "2") == "2" && texts.total_charge() == 4);
  texts.invalidate("one");
  CHECK(!texts.get("one") && *texts.get("two") == "2" && texts.total_charge() == 3);
  // Three were made and one was inserted; of these, one was replaced and one invalidated.
  const lru::Stats stats = texts.stats();
  CHECK(stats.hits == 2 && stats.misses == 4 && stats.insertions == 4 && stats.evictions == 2);
  CHECK(stats.entries == 2 && stats.charge == 3 && stats.pinned_charge == 0);
  CHECK(stats.capacity == texts.capacity());
}

void a_small_cache_has_few_shards() {
  CHECK(lru::shards_for(0, 1) == 1 && lru::shards_for(63, 1) == 1 && lru::shards_for(64, 1) == 2);
  CHECK(lru::shards_for(511, 1) == 15 && lru::shards_for(512, 1) == 16);
  CHECK(lru::shards_for(UINT64_MAX, 0) == 16 && lru::shards_for(UINT64_MAX, UINT64_MAX) == 1);
  CHECK(lru::shards_for(10000, 4096) == 1 && lru::shards_for(1 << 20, 4096) == 8);
  // A small cache by default keeps what fits; one of 16 shards, which are smaller than the charge,
  // keeps nothing.
  using Sharded = lru::ShardedCache<const int, lru::Words>;
  const auto kept = [](Sharded&& cache) {
    for (std::uint64_t n = 0; n < 20; n++) cache.get_or_init(key(n), 3, returns(1));
    return cache.len();
  };
  CHECK(kept(Sharded(30)) == 10 && kept(Sharded(30, lru::Seed(1))) == 10);
  CHECK(kept(Sharded(30, 1)) == 10 && kept(Sharded(30, 16)) == 0);
  // By default 16 shards of 188; for charges of 300, one.
  const auto keeps = [](Sharded&& cache) {
    for (std::uint64_t n = 0; n < 20; n++) cache.insert(key(n), 300, 1);
    return cache.len();
  };
  CHECK(keeps(Sharded(3000)) == 0 && keeps(Sharded(3000, lru::TypicalCharge(300))) == 10);
  CHECK(Sharded(1001, lru::TypicalCharge(8)).capacity() == 1002);
  // 16 shards of 63, and 15 of 34.
  CHECK(Sharded(1000).capacity() == 1008 && Sharded(500).capacity() == 510);
}

// Puts ten values into a cache that has room for five, and returns the keys that are left.
template <class Cache>
std::set<std::uint64_t> left_in(Cache&& cache) {
  std::set<std::uint64_t> left;
  for (int n = 0; n < 10; n++) cache.get_or_init(key(static_cast<std::uint64_t>(n)), 1, returns(n));
  for (std::uint64_t n = 0; n < 10; n++) {
    if (cache.contains(key(n))) left.insert(n);
  }
  return left;
}

void a_seed_changes_no_answer() {
  using Sharded = lru::ShardedCache<const int, lru::Words>;
  for (const std::uint64_t number : {UINT64_C(0), UINT64_C(1), UINT64_MAX}) {
    CHECK(left_in(Numbers(5, lru::Seed(number))) == left_in(Numbers(5)));
    CHECK(left_in(Sharded(5, lru::Seed(number), 4)) == left_in(Sharded(5, 4)));
  }
  CHECK(lru::Seed::random().number != lru::Seed::random().number);
}

void high_bits_of_a_key_choose_its_shard_too() {
  std::set<std::size_t> firsts, seconds;
  for (std::uint64_t n = 0; n < 1000; n++) {
    firsts.insert(std::hash<lru::Words>()({n << 48, 1}) % 16);
    seconds.insert(std::hash<lru::Words>()({1, n << 48}) % 16);
  }
  CHECK(firsts.size() == 16 && seconds.size() == 16);
}

// What a process that does this writes to standard error, if `abort` ends it.
template <class Action>
std::string last_words(Action action) {
  int ends[2];
  CHECK(pipe(ends) == 0);
  const pid_t child = fork();
  if (child == 0) {
    dup2(ends[1], 2);
    action();
    _exit(0);
  }
  close(ends[1]);
  std::string words;
  char part[512];
  for (ssize_t n; (n = read(ends[0], part, sizeof part)) > 0;) {
    words.append(part, static_cast<std::size_t>(n));
  }
  close(ends[0]);
  int status = 0;
  CHECK(child > 0 && waitpid(child, &status, 0) == child);
  return WIFSIGNALED(status) && WTERMSIG(status) == SIGABRT ? words : "";
}

bool has(const std::string& text, const char* part) {
  return text.find(part) != std::string::npos;
}

void a_handle_that_outlives_its_cache_is_asserted_against() {
  const auto outlives = [](auto take) {
    const std::string words = last_words([&] {
      auto cache = std::make_unique<Numbers>(10);
      cache->insert(key(1), 1, 1);
      const auto taken = take(*cache);
      cache.reset();
      _exit(1);
    });
    return has(words, "lru: a handle or a maker outlives its cache");
  };
  CHECK(outlives([](Numbers& cache) { return cache.get(key(1)); }));
  CHECK(outlives([](Numbers& cache) { return cache.get(key(1)).clone(); }));
  CHECK(outlives([](Numbers& cache) { return cache.insert(key(1), 1, 2); }));
  CHECK(outlives([](Numbers& cache) { return cache.get_or_init(key(1), 1, returns(2)); }));
  CHECK(outlives([](Numbers& cache) { return cache.get_or_init(key(2), 1, returns(2)); }));
  CHECK(outlives([](Numbers& cache) { return cache.begin(key(1), 1).handle; }));
  CHECK(outlives([](Numbers& cache) { return cache.begin(key(2), 1).maker; }));
  CHECK(outlives([](Numbers& cache) { return cache.try_begin(key(2), 1).maker; }));
}

// A value whose destructor makes a call.
struct Caller {
  explicit Caller(std::function<void()> c) : call(std::move(c)) {}
  ~Caller() { call(); }

  Caller(const Caller&) = delete;
  Caller& operator=(const Caller&) = delete;

  std::function<void()> call;
};

// The value is in one shard, and the key that its destructor asks for is of another, which a deque
// of libstdc++ destroys later.
template <class Cache, class... More>
void names_the_rule(const More&... more) {
  const auto names = [&](auto call) {
    const std::string words = last_words([&] {
      const auto cache = std::make_unique<Cache>(100, more...);
      cache->begin(key(1), 1).maker.ready([&] { call(*cache, key(0)); });
      cache->~Cache();
      _exit(1);
    });
    return has(words, "lru: the destructor of a value calls the cache that is destroyed");
  };
  CHECK(names([](Cache& cache, lru::Words k) { cache.get(k); }));
  CHECK(names([](Cache& cache, lru::Words k) { cache.begin(k, 1); }));
  CHECK(names([](Cache& cache, lru::Words k) { cache.insert(k, 1, [] {}); }));
  CHECK(names([](Cache& cache, lru::Words k) { cache.read(k, [](const Caller&) {}); }));
  CHECK(names([](Cache& cache, lru::Words k) { cache.contains(k); }));
  CHECK(names([](Cache& cache, lru::Words k) { cache.invalidate(k); }));
  CHECK(names([](Cache& cache, lru::Words k) { cache.advice_evict(k); }));
}

void a_destructor_that_calls_a_cache_that_is_destroyed_is_told_the_rule() {
  using Cache = lru::Cache<Caller, lru::Words>;
  using Sharded = lru::ShardedCache<Caller, lru::Words, BySecond>;
  const Cache::Listener listener = [](auto&&...) {};
  names_the_rule<Cache>();
  names_the_rule<Cache>(listener);
  names_the_rule<Sharded>(std::size_t{4});
  names_the_rule<Sharded>(std::size_t{4}, listener);
}

void values_may_be_move_only_or_neither() {
  lru::Cache<std::unique_ptr<int>> owners(10);
  const auto owner = owners.get_or_init("1", 1, [](std::string_view) { return new int(1); });
  CHECK(**owner == 1);
  lru::Cache<std::atomic<int>> counters(10);
  const auto counter = counters.get_or_init("1", 1, [](std::string_view) { return 5; });
  CHECK(++*counter == 6 && *counters.get("1") == 6);
}

}  // namespace

int main() {
  a_present_value_is_not_made_again();
  an_evicted_value_is_made_again();
  get_finds_what_is_ready();
  a_pinned_value_stays();
  handles_move();
  a_clone_pins_its_value_too();
  clones_go_to_other_threads();
  a_last_release_may_evict();
  an_init_that_throws_leaves_nothing();
  refusals_are_exceptions();
  an_insert_replaces_whatever_is_there();
  an_invalidate_takes_a_value_away();
  contains_and_len_look_only();
  read_passes_a_value_under_the_lock();
  the_pinned_charge_is_that_of_handles_and_makings();
  calls_are_counted();
  a_making_that_is_invalidated_is_not_waited_for();
  others_wait_for_one_making();
  one_that_waits_takes_a_failed_making_over();
  all_that_wait_are_woken_however_the_making_ends();
  a_beginning_tells_a_handle_or_a_maker();
  a_maker_makes_its_value_in_place();
  a_maker_tells_a_charge();
  an_init_tells_a_charge();
  those_that_wait_hear_of_a_charge();
  makers_move();
  a_try_never_waits();
  a_try_leaves_those_that_wait_alone();
  makers_go_to_other_threads();
  loads_are_counted();
  a_making_wakes_only_those_that_wait_for_it();
  other_keys_are_served_while_a_value_is_made();
  a_destructor_may_call_the_cache();
  a_cache_deletes_what_is_left_oldest_release_first();
  a_capacity_is_set_at_any_time();
  a_strict_limit_has_no_room_beside_pinned_values();
  a_strict_limit_is_that_of_each_shard();
  values_that_keys_find_are_shown();
  values_of_all_shards_are_shown();
  a_visit_may_throw();
  a_clear_leaves_nothing_to_be_found();
  what_a_predicate_chooses_is_erased();
  a_predicate_that_throws_erases_nothing();
  every_shard_is_cleared();
  a_listener_is_told_what_leaves();
  a_listener_changes_no_answer();
  a_listener_runs_without_the_lock();
  a_cache_goes_on_if_its_listener_throws();
  room_is_made_or_refused();
  tables_shrink_if_they_are_empty();
  shards_have_equal_shares();
  a_small_cache_has_few_shards();
  a_seed_changes_no_answer();
  high_bits_of_a_key_choose_its_shard_too();
  a_handle_that_outlives_its_cache_is_asserted_against();
  a_destructor_that_calls_a_cache_that_is_destroyed_is_told_the_rule();
  values_may_be_move_only_or_neither();
  std::printf("lru.hpp: 57 tests, %d checks failed\n", failed_checks);
  return failed_checks == 0 ? 0 : 1;
}
