// Tests lru::ClockCache: what each member answers and throws, with one thread and with some that
// wait; that nothing is lost where memory is refused; and a stress of eight threads, in which each
// value must be deleted once, none while it is held, and none be found under another key.
//
// The linker puts the functions below before those of the C library and of lru.h (--wrap).
#include <pthread.h>
#include <sys/wait.h>
#include <unistd.h>

#include <atomic>
#include <chrono>
#include <condition_variable>
#include <csignal>
#include <cstddef>
#include <cstdint>
#include <cstdio>
#include <cstdlib>
#include <functional>
#include <future>
#include <memory>
#include <mutex>
#include <new>
#include <optional>
#include <set>
#include <stdexcept>
#include <string>
#include <thread>
#include <type_traits>
#include <utility>
#include <vector>

#include "check.hpp"
#include "clock_threads.hpp"
#include "deleted_once.hpp"
#include "lru_clock.hpp"
#include "sleeps.hpp"

// Which request for memory is refused, counted down, and whether all are that come later too. Only
// one thread asks for memory while this is above 0.
static std::atomic<long> refused{0};
static std::atomic<bool> are_all_refused{false};

static bool is_refused() { return are_all_refused || (refused > 0 && --refused == 0); }

extern "C" {
void* __real_malloc(std::size_t size);
void* __real_realloc(void* block, std::size_t size);
void* __wrap_malloc(std::size_t size) { return is_refused() ? nullptr : __real_malloc(size); }
void* __wrap_realloc(void* block, std::size_t size) {
  return is_refused() ? nullptr : __real_realloc(block, size);
}
}

// Is called before each lru_clock_insert, if it is not empty, with what has left in the one before.
static std::function<void(const lru_left&)> before_insert;

extern "C" {
lru_found __real_lru_clock_insert(lru_clock* clock, std::uint64_t hash, std::uint64_t first,
                                  std::uint64_t second, std::uint64_t charge, std::uint64_t value,
                                  bool strict, lru_left* left);
lru_found __wrap_lru_clock_insert(lru_clock* clock, std::uint64_t hash, std::uint64_t first,
                                  std::uint64_t second, std::uint64_t charge, std::uint64_t value,
                                  bool strict, lru_left* left) {
  if (before_insert) before_insert(*left);
  return __real_lru_clock_insert(clock, hash, first, second, charge, value, strict, left);
}
}

// Is called before each lru_clock_ready, if it is not empty.
static std::function<void()> before_ready;

extern "C" {
lru_found __real_lru_clock_ready(lru_clock* clock, std::uint64_t ticket, std::uint64_t hash,
                                 std::uint64_t charge, std::uint64_t value, bool strict);
lru_found __wrap_lru_clock_ready(lru_clock* clock, std::uint64_t ticket, std::uint64_t hash,
                                 std::uint64_t charge, std::uint64_t value, bool strict) {
  if (before_ready) before_ready();
  return __real_lru_clock_ready(clock, ticket, hash, charge, value, strict);
}
}

// Not inlined, as gcc would take them for mismatched.
[[gnu::noinline]] void* operator new(std::size_t size) {
  void* const at = std::malloc(size);
  if (at == nullptr) throw std::bad_alloc();
  return at;
}
[[gnu::noinline]] void operator delete(void* at) noexcept { std::free(at); }
[[gnu::noinline]] void operator delete(void* at, std::size_t) noexcept { std::free(at); }
[[gnu::noinline]] void* operator new[](std::size_t size, std::align_val_t align,
                                       const std::nothrow_t&) noexcept {
  return is_refused() ? nullptr : std::aligned_alloc(static_cast<std::size_t>(align), size);
}
[[gnu::noinline]] void operator delete[](void* at, std::align_val_t) noexcept { std::free(at); }
[[gnu::noinline]] void operator delete[](void* at, std::size_t, std::align_val_t) noexcept {
  std::free(at);
}

namespace {

using Numbers = lru::ClockCache<const int, std::uint64_t>;
constexpr std::size_t kOne = 1;  // shard

static_assert(std::is_nothrow_move_constructible_v<Numbers::Handle>);
static_assert(std::is_nothrow_move_assignable_v<Numbers::Handle>);
static_assert(!std::is_copy_constructible_v<Numbers::Handle>);
static_assert(!std::is_copy_assignable_v<Numbers::Handle>);
static_assert(std::is_nothrow_move_constructible_v<Numbers::Maker>);
static_assert(std::is_nothrow_move_assignable_v<Numbers::Maker>);
static_assert(!std::is_copy_constructible_v<Numbers::Maker>);
static_assert(!std::is_move_constructible_v<Numbers>);

auto returns(int number) {
  return [number](std::uint64_t) { return number; };
}

template <class Exception, class Call>
bool throws(Call call) {
  try {
    call();
  } catch (const Exception&) {
    return true;
  }
  return false;
}

// The values that keys find, as "key=value*charge", in the order of the keys.
template <class Cache>
std::string shown(const Cache& cache) {
  std::set<std::string> all;
  cache.for_each([&](std::uint64_t key, int value, std::uint64_t charge) {
    all.insert(std::to_string(key) + "=" + std::to_string(value) + "*" + std::to_string(charge));
  });
  std::string text;
  for (const std::string& one : all) text += one + " ";
  return text;
}

void a_present_value_is_not_made_again() {
  Numbers cache(10);
  CHECK(!cache.get(1) && !cache.contains(1));
  CHECK(*cache.get_or_init(1, 1, returns(1)) == 1);
  CHECK(*cache.get_or_init(2, 2, returns(2)) == 2);
  CHECK(*cache.get_or_init(1, 5, returns(3)) == 1);
  CHECK(*cache.get(1) == 1 && cache.contains(2) && !cache.get(3));
  CHECK(cache.total_charge() == 3 && cache.len() == 2 && cache.pinned_charge() == 0);
  CHECK(shown(cache) == "1=1*1 2=2*2 ");
}

void a_handle_pins_its_value() {
  Numbers cache(2, kOne);
  auto one = cache.get_or_init(1, 2, returns(1));
  const auto two = cache.get_or_init(2, 2, returns(2));
  CHECK(cache.pinned_charge() == 4 && cache.total_charge() == 4 && cache.capacity() == 2);
  cache.prune();
  CHECK(*one == 1 && *two == 2 && *cache.get(1) == 1 && cache.len() == 2);
  // While the total is above the capacity, what loses its last handle is evicted.
  auto clone = one.clone();
  one.reset();
  CHECK(!one && one.get() == nullptr && cache.len() == 2 && cache.pinned_charge() == 4);
  clone.reset();
  CHECK(!cache.get(1) && cache.len() == 1 && cache.total_charge() == 2);
  cache.insert(3, 1, 3);
  CHECK(!cache.get(3) && *cache.get(2) == 2 && *two == 2 && cache.total_charge() == 2);
}

void what_is_released_before_a_value_is_stored_leaves() {
  Numbers cache(2, kOne);
  auto one = cache.insert(1, 2, 1);
  auto maker = cache.begin(2, 2).maker;
  // No room was made for the new value, as this one had a handle then.
  before_ready = [&] { one.reset(); };
  const auto two = maker.ready(2);
  before_ready = nullptr;
  CHECK(!cache.get(1) && *two == 2 && cache.total_charge() == 2);
}

void a_release_and_an_advice_evict() {
  {
    Objects cache(10, kOne);
    auto one = cache.insert(1, 1, std::uint64_t{1});
    auto clone = one.clone();
    cache.advice_evict(1);
    clone.release_and_evict();
    CHECK(!clone && alive == 1 && cache.get(1).get() == one.get());
    static_assert(noexcept(one.release_and_evict()));
    one.release_and_evict();
    CHECK(!one && alive == 0 && !cache.get(1) && cache.len() == 0);
    one.release_and_evict();
    cache.insert(1, 1, std::uint64_t{1});
    cache.advice_evict(2);
    CHECK(alive == 1 && cache.get(1)->key == 1);
    cache.advice_evict(1);
    CHECK(alive == 0 && !cache.get(1) && cache.total_charge() == 0);

    // A value that its key does not find, and one that is being made.
    one = cache.insert(1, 1, std::uint64_t{1});
    const auto two = cache.insert(1, 1, std::uint64_t{1});
    one.release_and_evict();
    CHECK(alive == 1 && cache.get(1).get() == two.get());
    auto maker = cache.begin(2, 1).maker;
    cache.advice_evict(2);
    CHECK(maker.ready(std::uint64_t{2}) && cache.get(2)->key == 2);
  }
  CHECK(alive == 0 && wrong == 0);
}

void a_value_that_was_made_evicts() {
  Numbers cache(5, kOne);
  cache.get_or_init(1, 3, returns(1));
  cache.get_or_init(2, 2, returns(2));
  const auto held = cache.get(2);
  cache.get_or_init(3, 3, returns(3));
  CHECK(!cache.get(1) && cache.get(3) && cache.total_charge() == 5);
  // Not before it has been made.
  auto maker = cache.begin(4, 1).maker;
  CHECK(cache.total_charge() == 5 && cache.contains(3));
  maker.ready(4);
  CHECK(!cache.get(3) && *cache.get(4) == 4 && *held == 2 && cache.total_charge() == 3);
}

void handles_are_moved_and_cloned() {
  Numbers cache(10);
  auto one = cache.get_or_init(1, 1, returns(1));
  Numbers::Handle none, moved = std::move(one);
  CHECK(!one && one.get() == nullptr && !none.clone() && !one.clone() && *moved == 1);
  auto& same = moved;
  moved = std::move(same);
  CHECK(*moved == 1);
  auto clone = moved.clone();
  CHECK(clone.get() == moved.get() && clone.operator->() == moved.get());
  moved = cache.insert(2, 1, 2);
  CHECK(*moved == 2 && *clone == 1 && cache.pinned_charge() == 2);
  swap(moved, clone);
  CHECK(*moved == 1 && *clone == 2);
  moved.reset();
  moved.reset();
  CHECK(cache.pinned_charge() == 1);
  clone = {};
  CHECK(cache.pinned_charge() == 0 && cache.len() == 2);
}

void a_handle_outlives_what_its_key_finds() {
  {
    Objects cache(10, kOne);
    auto old = cache.get_or_init(1, 2, makes(1));
    auto replaced = cache.insert(1, 3, std::uint64_t{1});
    CHECK(old.get() != replaced.get() && cache.get(1).get() == replaced.get());
    CHECK(cache.len() == 2 && cache.total_charge() == 5 && alive == 2);
    auto clone = old.clone();
    CHECK(clone.get() == old.get());
    old.reset();
    CHECK(alive == 2 && clone->key == 1);
    // The last handle of a value that was replaced deletes it.
    clone.reset();
    CHECK(alive == 1 && cache.len() == 1 && cache.total_charge() == 3);
    cache.invalidate(1);
    CHECK(!cache.get(1) && replaced->key == 1 && alive == 1 && cache.pinned_charge() == 3);
    std::uint64_t visits = 0;
    cache.for_each([&](auto&&...) { visits++; });
    CHECK(visits == 0 && cache.erase_if([](auto&&...) { return true; }) == 0);
    const auto again = cache.get_or_init(1, 1, makes(1));
    cache.invalidate(2);
    replaced.reset();
    CHECK(alive == 1 && cache.get(1).get() == again.get());
  }
  CHECK(alive == 0);
}

void a_reader_runs_without_the_lock() {
  Numbers cache(10, kOne);
  cache.insert(1, 1, 5);
  const auto twice = [&](int number) { return *cache.insert(2, 1, number) + *cache.get(1); };
  CHECK(cache.read(1, twice) == 10 && cache.read(3, twice) == std::nullopt);
  int sum = 0;
  CHECK(cache.read(2, [&](int number) { sum += number; }));
  CHECK(!cache.read(3, [&](int number) { sum += number; }) && sum == 5);
  CHECK(throws<Failed>([&] { cache.read(1, [](int) -> int { throw Failed(); }); }));
  CHECK(cache.pinned_charge() == 0);
}

void a_making_that_fails_leaves_nothing() {
  {
    Objects cache(10, kOne);
    CHECK(throws<Failed>(
        [&] { cache.get_or_init(1, 1, [](std::uint64_t) -> std::uint64_t { throw Failed(); }); }));
    CHECK(cache.len() == 0 && cache.total_charge() == 0 && alive == 0);
    CHECK(cache.get_or_init(1, 1, makes(1))->key == 1);
  }
  CHECK(alive == 0);
}

void bad_charges_are_refused() {
  Numbers cache(10, kOne);
  int calls = 0;
  const auto init = [&](std::uint64_t) { return calls++; };
  CHECK(throws<lru::ZeroCharge>([&] { cache.get_or_init(1, 0, init); }));
  CHECK(throws<lru::ZeroCharge>([&] { cache.begin(1, 0); }));
  CHECK(throws<lru::ZeroCharge>([&] { cache.try_begin(1, 0); }));
  CHECK(throws<lru::ZeroCharge>([&] { cache.insert(1, 0, 1); }));
  cache.insert(1, 1, 1);
  CHECK(throws<lru::ZeroCharge>([&] { cache.get_or_init(1, 0, init); }));
  CHECK(throws<lru::ZeroCharge>([&] { cache.insert(1, 0, 2); }));
  CHECK(throws<lru::Overflow>([&] { cache.get_or_init(2, UINT64_MAX, init); }));
  CHECK(throws<lru::Overflow>([&] { cache.begin(2, UINT64_MAX); }));
  CHECK(throws<lru::Overflow>([&] { cache.insert(1, UINT64_MAX, 2); }));
  CHECK(calls == 0 && shown(cache) == "1=1*1 " && cache.pinned_charge() == 0);
  // A charge that overflows by the time that the value was made.
  auto maker = cache.begin(2, UINT64_MAX - 5).maker;
  const auto held = cache.insert(3, 10, 3);
  CHECK(throws<lru::Overflow>([&] { maker.ready(2); }));
  CHECK(!maker && !cache.get(2) && *held == 3);
  CHECK(*cache.get_or_init(2, 1, returns(4)) == 4);
}

void makers_make_values() {
  Numbers cache(10, kOne);
  auto begun = cache.begin(1, 2);
  Numbers::Handle& handle = begun.handle;
  Numbers::Maker& maker = begun.maker;
  CHECK(!handle && maker && cache.len() == 0 && !cache.get(1) && !cache.contains(1));
  auto other = cache.try_begin(1, 1);
  CHECK(!other.handle && !other.maker);
  Numbers::Maker moved = std::move(maker), more = cache.begin(2, 1).maker;
  CHECK(!maker && moved && throws<std::logic_error>([&] { maker.ready(1); }));
  maker.fail();
  more = std::move(moved);
  CHECK(cache.try_begin(2, 1).maker);
  handle = more.ready(1);
  CHECK(!more && *handle == 1 && cache.total_charge() == 2 && cache.pinned_charge() == 2);
  other = cache.try_begin(1, 1);
  CHECK(!other.maker && other.handle.get() == handle.get());
  CHECK(cache.begin(1, 1).handle.get() == handle.get());
  { const auto left = cache.begin(3, 1); }
  CHECK(cache.begin(3, 1).maker && cache.len() == 1);
}

void a_maker_keeps_its_duty_if_its_value_throws() {
  struct Picky {
    explicit Picky(bool fails) {
      if (fails) throw Failed();
    }
  };
  lru::ClockCache<Picky, int> cache(10);
  auto maker = cache.begin(1, 1).maker;
  CHECK(throws<Failed>([&] { maker.ready(true); }));
  CHECK(maker && !cache.try_begin(1, 1).maker && maker.ready(false));
}

// A value that was made after its key was taken away is its maker's alone.
void a_key_is_taken_from_its_maker() {
  const auto takes = [](auto take, bool has_other) {
    {
      Objects cache(100, kOne);
      cache.insert(7, 1, std::uint64_t{7});
      auto begun = cache.begin(1, 1).maker;
      take(cache);
      auto maker = std::move(begun);
      auto second = cache.try_begin(1, 1);
      CHECK(static_cast<bool>(second.handle) == has_other);
      CHECK(static_cast<bool>(second.maker) == !has_other);
      auto alone = maker.ready(std::uint64_t{1});
      CHECK(alone->key == 1 && static_cast<bool>(cache.get(1)) == has_other);
      std::uint64_t visits = 0;
      cache.for_each([&](std::uint64_t key, auto&&...) { visits += key == 1; });
      CHECK(visits == (has_other ? 1 : 0));
      if (second.maker) second.handle = second.maker.ready(std::uint64_t{1});
      CHECK(cache.get(1).get() == second.handle.get() && alone.get() != second.handle.get());
      const std::int64_t before = alive;
      alone.reset();
      CHECK(alive == before - 1 && cache.contains(1));
      // A maker that fails after that changes nothing.
      auto last = cache.begin(2, 1).maker;
      take(cache);
      last.fail();
      CHECK(!cache.get(2));
    }
    CHECK(alive == 0);
  };
  takes([](Objects& cache) { cache.invalidate(1); }, false);
  takes([](Objects& cache) { cache.clear(); }, false);
  takes([](Objects& cache) { cache.insert(1, 1, std::uint64_t{1}); }, true);
}

void an_insert_replaces() {
  {
    Objects cache(4, kOne);
    for (std::uint64_t n = 0; n < 4; n++) cache.insert(n, 1, n);
    CHECK(cache.len() == 4 && alive == 4);
    cache.insert(2, 2, std::uint64_t{2});
    CHECK(cache.len() == 3 && cache.total_charge() == 4 && alive == 3);
    // What has no room beside what is pinned is inserted all the same.
    const auto large = cache.insert(5, 9, std::uint64_t{5});
    CHECK(cache.len() == 1 && cache.total_charge() == 9);
    {
      const auto six = cache.insert(6, 1, std::uint64_t{6});
      CHECK(cache.total_charge() == 10 && cache.get(5).get() == large.get());
    }
    CHECK(cache.total_charge() == 9 && !cache.get(6));
  }
  CHECK(alive == 0);
}

void values_leave_by_prune_clear_and_erase_if() {
  {
    Objects cache(1000);
    const auto fill = [&] {
      for (std::uint64_t n = 0; n < 50; n++) cache.insert(n, 1 + n % 2, n);
    };
    fill();
    auto held = cache.get(7);
    CHECK(cache.total_charge() == 75);
    cache.prune();
    CHECK(cache.len() == 1 && alive == 1 && cache.get(7).get() == held.get());
    fill();
    CHECK(alive == 51 && cache.get(7).get() != held.get());
    const auto is_small = [](std::uint64_t key, const Once& once, std::uint64_t charge) {
      wrong += once.key != key;
      return charge == 1;
    };
    CHECK(cache.erase_if(is_small) == 25 && cache.len() == 26 && alive == 26);
    CHECK(!cache.get(8) && cache.get(9)->key == 9);
    int calls = 0;
    CHECK(throws<Failed>([&] {
      cache.erase_if([&](auto&&...) {
        if (++calls == 20) throw Failed();
        return false;
      });
    }));
    CHECK(cache.len() == 26 && cache.pinned_charge() == 2);
    CHECK(throws<Failed>([&] { cache.for_each([](auto&&...) { throw Failed(); }); }));
    CHECK(cache.pinned_charge() == 2);
    auto other = cache.get(9);
    cache.clear();
    CHECK(cache.len() == 2 && alive == 2 && !cache.get(9) && other->key == 9 && held->key == 7);
    other.reset();
    CHECK(cache.len() == 1 && alive == 1);
  }
  CHECK(alive == 0 && wrong == 0);
}

void a_predicate_that_throws_erases_nothing_of_its_shard() {
  Numbers cache(100, kOne);
  for (std::uint64_t n = 0; n < 9; n++) cache.insert(n, 1, 1);
  int calls = 0;
  CHECK(throws<Failed>([&] {
    cache.erase_if([&](auto&&...) {
      if (++calls == 9) throw Failed();
      return true;
    });
  }));
  CHECK(cache.len() == 9 && cache.pinned_charge() == 0);
}

void the_capacity_is_shared_and_set() {
  Numbers cache(30, std::size_t{16});
  CHECK(cache.capacity() == 32 && cache.shards() == 16 && Numbers(10).shards() == 1);
  CHECK(Numbers(512).shards() == 16 && Numbers(512, lru::TypicalCharge(4)).shards() == 4);
  CHECK(Numbers(UINT64_MAX, std::size_t{3}).capacity() == UINT64_MAX);
  CHECK(throws<std::invalid_argument>([] { Numbers(1, std::size_t{0}); }));
  CHECK(throws<std::invalid_argument>([] { Numbers(1, std::size_t{1} << 32); }));
  cache.set_capacity(1600);
  for (std::uint64_t n = 0; n < 160; n++) cache.insert(n, 1, 1);
  CHECK(cache.len() == 160 && cache.capacity() == 1600);
  auto held = cache.get(0);
  cache.set_capacity(0);
  CHECK(cache.len() == 1 && cache.capacity() == 0 && *held == 1);
}

// What a listener has been told, as "key=value reason", one after another.
struct Told {
  void operator()(std::uint64_t key, int value, lru::Reason reason) {
    const char* const names[] = {"evicted", "invalidated", "replaced", "cleared"};
    text += text.empty() ? "" : ", ";
    text += std::to_string(key) + "=" + std::to_string(value) + " ";
    text += names[static_cast<int>(reason)];
  }
  // And forgets it.
  std::string take() { return std::exchange(text, ""); }

  std::string text;
};

// Whether a call throws Full.
template <class Call>
bool is_full(Call call) {
  return throws<lru::Full>(call);
}

void a_charge_is_told_with_the_value() {
  Numbers cache(10, kOne);
  for (const int n : {1, 2, 3, 4}) cache.insert(static_cast<std::uint64_t>(n), 2, n);
  auto maker = cache.begin(5, 1).maker;
  auto moved = std::move(maker);
  CHECK(cache.total_charge() == 8);
  {
    const auto made = moved.ready_with(6, 5);
    CHECK(*made == 5 && !moved && cache.total_charge() == 10 && cache.pinned_charge() == 6);
  }
  CHECK(throws<std::logic_error>([&] { moved.ready_with(1, 1); }));
  const auto with = [](int number, std::uint64_t charge) {
    return [=](const std::uint64_t&) { return std::pair(number, charge); };
  };
  CHECK(*cache.get_or_init_with(6, with(60, 3)) == 60);
  CHECK(*cache.get_or_init_with(6, with(61, 4)) == 60 && cache.total_charge() <= 10);
  cache.prune();
  const auto six = cache.get_or_init_with(6, with(62, 4));
  CHECK(shown(cache) == "6=62*4 ");

  // A charge that is refused, or an `init` that throws, ends the making.
  CHECK(throws<lru::ZeroCharge>([&] { cache.get_or_init_with(7, with(7, 0)); }));
  CHECK(throws<lru::Overflow>([&] { cache.get_or_init_with(7, with(7, UINT64_MAX - 3)); }));
  cache.set_strict_limit(true);
  CHECK(is_full([&] { cache.get_or_init_with(7, with(7, 7)); }));
  const auto fails = [](std::uint64_t) -> std::pair<int, std::uint64_t> { throw Failed(); };
  CHECK(throws<Failed>([&] { cache.get_or_init_with(7, fails); }));
  CHECK(cache.stats().load_failures == 4 && shown(cache) == "6=62*4 ");
  CHECK(*cache.get_or_init_with(7, with(7, 6)) == 7 && cache.total_charge() == 10);
  const auto seven = cache.get(7);
  CHECK(is_full([&] { cache.get_or_init_with(8, fails); }));

  lru::ClockCache<std::unique_ptr<int>, int> owners(10);
  const auto owner = owners.get_or_init_with(1, [](int n) {
    return std::pair(std::make_unique<int>(n), std::uint64_t{3});
  });
  CHECK(**owner == 1 && owners.total_charge() == 3);
}

void a_strict_limit_has_no_room_beside_pinned_values() {
  Numbers cache(10, kOne, lru::Limit::kStrict);
  CHECK(cache.is_limit_strict() && !Numbers(10).is_limit_strict());
  CHECK(Numbers(10, lru::Limit::kStrict).is_limit_strict());
  auto one = cache.get_or_init(1, 6, returns(1));
  cache.get_or_init(2, 2, returns(2));
  cache.insert(4, 2, 4);
  int calls = 0;
  const auto init = [&](std::uint64_t) { return calls++; };
  // What is above the capacity evicts nothing.
  CHECK(is_full([&] { cache.get_or_init(3, 11, init); }));
  CHECK(is_full([&] { cache.begin(3, UINT64_MAX); }));
  CHECK(is_full([&] { cache.insert(3, 11, 3); }) && is_full([&] { cache.insert(2, 11, 3); }));
  CHECK(shown(cache) == "1=1*6 2=2*2 4=4*2 ");
  // Nor does an insert that is refused. The old value has a handle, so it takes room.
  CHECK(is_full([&] { cache.insert(1, 5, 3); }) && is_full([&] { cache.insert(3, 5, 3); }));
  CHECK(shown(cache) == "1=1*6 2=2*2 4=4*2 " && *one == 1 && cache.get(1).get() == one.get());
  // Idle values leave before a value that is to be made is refused.
  CHECK(is_full([&] { cache.get_or_init(3, 5, init); }) && shown(cache) == "1=1*6 ");
  CHECK(is_full([&] { cache.begin(3, 5); }) && is_full([&] { cache.try_begin(3, 5); }));
  CHECK(calls == 0 && shown(cache) == "1=1*6 " && !cache.get(3));

  // A value that is there is found, also with the lock, as by a thread that has no reader yet.
  CHECK(*cache.get_or_init(1, 9, init) == 1 && *cache.begin(1, 9).handle == 1);
  std::thread([&] { CHECK(*cache.get_or_init(1, 9, init) == 1 && calls == 0); }).join();
  // All idle values leave for a new one, however often they were used.
  for (std::uint64_t n = 11; n <= 14; n++) {
    cache.insert(n, 1, 1);
    for (int use = 0; use < 5; use++) CHECK(cache.get(n));
  }
  CHECK(*cache.get_or_init(3, 4, returns(3)) == 3 && shown(cache) == "1=1*6 3=3*4 ");
  one.reset();
  CHECK(*cache.insert(4, 10, 5) == 5 && shown(cache) == "4=5*10 ");

  // The limit is set at any time, whatever the total is.
  cache.set_strict_limit(false);
  CHECK(!cache.is_limit_strict());
  auto large = cache.insert(5, 11, 6);
  cache.set_strict_limit(true);
  CHECK(cache.is_limit_strict() && cache.total_charge() == 11 && *large == 6);
  CHECK(is_full([&] { cache.get_or_init(6, 1, init); }) && calls == 0);
  large.reset();
  CHECK(*cache.get_or_init(6, 1, init) == 0 && calls == 1 && cache.total_charge() == 1);
}

void the_room_for_a_value_may_be_taken_while_it_is_made() {
  {
    Objects cache(10, kOne, lru::Limit::kStrict);
    const auto is_refused = [&](auto take, std::int64_t others) {
      auto maker = cache.begin(1, 6).maker;
      take();
      auto held = cache.insert(2, 5, std::uint64_t{2});
      cache.insert(3, 1, std::uint64_t{3});
      const std::uint64_t failures = cache.stats().load_failures;
      CHECK(is_full([&] { maker.ready(std::uint64_t{1}); }));
      CHECK(!maker && alive == 1 + others && !cache.get(1) && !cache.get(3));
      CHECK(cache.stats().load_failures == failures + 1);
      held.reset();
    };
    is_refused([] {}, 0);
    is_refused([&] { cache.invalidate(1); }, 0);
    // Idle values are room then too.
    auto maker = cache.begin(1, 6).maker;
    cache.insert(2, 5, std::uint64_t{2});
    CHECK(maker.ready(std::uint64_t{1})->key == 1 && !cache.get(2) && cache.total_charge() == 6);
    cache.clear();

    // A loader takes it itself, and the capacity is lowered.
    Objects::Handle held;
    CHECK(is_full([&] {
      cache.get_or_init(1, 6, [&](std::uint64_t n) {
        held = cache.insert(2, 5, std::uint64_t{2});
        return n;
      });
    }));
    held = cache.insert(2, 2, std::uint64_t{2});
    held.reset();
    CHECK(is_full([&] {
      cache.get_or_init(1, 6, [&](std::uint64_t n) {
        cache.set_capacity(5);
        return n;
      });
    }));
    CHECK(cache.len() == 1 && alive == 1 && cache.get(2)->key == 2);
    // Nobody waits for a making that was refused.
    cache.set_capacity(10);
    CHECK(cache.begin(1, 6).maker);
  }
  CHECK(alive == 0 && wrong == 0);
}

void an_insert_has_the_room_of_the_old_value() {
  Numbers cache(10, kOne, lru::Limit::kStrict);
  cache.insert(1, 5, 1);
  cache.insert(2, 5, 2);
  CHECK(*cache.insert(1, 5, 3) == 3 && shown(cache) == "1=3*5 2=2*5 ");
  CHECK(*cache.insert(2, 1, 4) == 4 && shown(cache) == "1=3*5 2=4*1 ");
  CHECK(*cache.insert(2, 5, 5) == 5 && shown(cache) == "1=3*5 2=5*5 ");
  CHECK(*cache.insert(2, 3, 6) == 6 && shown(cache) == "1=3*5 2=6*3 ");
  CHECK(*cache.insert(2, 7, 7) == 7 && shown(cache) == "2=7*7 ");
  CHECK(*cache.insert(2, 3, 6) == 6 && *cache.insert(1, 5, 3) == 3);
  // With a handle it takes room, and other values leave for the new one, if that helps.
  auto held = cache.get(1);
  CHECK(*cache.insert(1, 5, 7) == 7 && shown(cache) == "1=7*5 " && cache.total_charge() == 10);
  CHECK(is_full([&] { cache.insert(1, 6, 8); }) && shown(cache) == "1=7*5 ");
  CHECK(*cache.insert(1, 4, 8) == 8 && shown(cache) == "1=8*4 " && cache.total_charge() == 9);
  held.reset();
  CHECK(cache.total_charge() == 4);
  // A value that is refused leaves the old one, if that is idle too.
  held = cache.insert(2, 6, 2);
  CHECK(is_full([&] { cache.insert(1, 5, 9); }) && shown(cache) == "1=8*4 2=2*6 ");
  CHECK(cache.pinned_charge() == 6);
  held.reset();

  // If the total is above the capacity, the old value leaves with its handle.
  cache.clear();
  cache.set_strict_limit(false);
  held = cache.insert(1, 6, 1);
  auto other = cache.insert(2, 5, 2);
  cache.set_strict_limit(true);
  CHECK(is_full([&] { cache.insert(2, 1, 3); }) && cache.get(2).get() == other.get());
  other.reset();
  CHECK(shown(cache) == "1=1*6 ");
  CHECK(*cache.insert(2, 1, 3) == 3 && shown(cache) == "1=1*6 2=3*1 ");
}

// If other threads take handles during an insert, it may be refused after idle values have left.
void an_insert_that_has_evicted_may_be_refused() {
  Told told;
  Numbers cache(10, kOne, std::ref(told), lru::Limit::kStrict);
  for (std::uint64_t n = 1; n <= 5; n++) cache.insert(n, 2, 7);
  int calls = 0;
  std::uint64_t gone = 0;
  Numbers::Handle held;
  before_insert = [&](const lru_left& left) {
    if (++calls != 2) return;
    gone = left.second;
    held = cache.get(gone == 1 ? 2 : 1);
  };
  CHECK(is_full([&] { cache.insert(5, 10, 8); }) && calls == 2);
  before_insert = nullptr;
  CHECK(told.take() == std::to_string(gone) + "=7 evicted" && !cache.get(gone));
  CHECK(held && *held == 7 && cache.len() == 4 && cache.pinned_charge() == 2);
}

void a_strict_limit_is_that_of_each_shard() {
  constexpr std::size_t kShards = 16;
  Numbers cache(kShards, lru::Seed(0), kShards);
  std::vector<Numbers::Handle> held;
  const auto hold = [&](std::uint64_t first) {
    for (std::uint64_t n = first; n < first + 500; n++) {
      try {
        held.push_back(n % 2 == 0 ? cache.insert(n, 1, 1) : cache.get_or_init(n, 1, returns(1)));
      } catch (const lru::Full&) {
      }
    }
  };
  cache.set_strict_limit(true);
  hold(0);
  CHECK(cache.is_limit_strict() && held.size() == kShards && cache.total_charge() == kShards);
  cache.set_strict_limit(false);
  hold(1000);
  CHECK(!cache.is_limit_strict() && held.size() == kShards + 500);
}

// How many requests for memory a call makes.
template <class Call>
long requests_of(Call call) {
  constexpr long kMany = 1000000;
  refused = kMany;
  call();
  return kMany - refused.exchange(0);
}

void room_is_reserved_in_each_shard() {
  Numbers cache(1000, lru::Seed(0), std::size_t{4}), other(1000, lru::Seed(0), std::size_t{4});
  const auto requests = [](Numbers* filled) {
    // This makes the readers.
    for (std::uint64_t n = 0; n < 200; n++) filled->get(n);
    return requests_of([&] {
      for (std::uint64_t n = 0; n < 200; n++) filled->insert(n, 1, 1);
    });
  };
  cache.reserve(400);
  // Each value is one.
  CHECK(requests(&cache) == 200 && requests(&other) > 200);
  CHECK(throws<lru::Overflow>([&] { cache.reserve(SIZE_MAX); }));
  refused = 1;
  CHECK(throws<lru::OutOfMemory>([&] { cache.reserve(100000); }) && refused == 0);
  CHECK(cache.len() == 200 && *cache.get(7) == 1);
}

void stats_tell_what_was_made_added_and_evicted() {
  Numbers cache(1600, std::size_t{16});
  CHECK(cache.stats().capacity == 1600 && cache.stats().insertions == 0);
  for (std::uint64_t n = 0; n < 100; n++) cache.insert(n, 2, 1);
  for (std::uint64_t n = 50; n < 150; n++) cache.get_or_init(n, 3, returns(1));
  cache.insert(7, 1, 1);
  for (std::uint64_t n = 200; n < 210; n++) cache.begin(n, 1).maker.fail();
  lru::ClockStats stats = cache.stats();
  CHECK(stats.insertions == 151 && stats.evictions == 1 && stats.entries == 150);
  CHECK(stats.charge == 349 && stats.charge == cache.total_charge() && stats.capacity == 1600);
  CHECK(stats.loads == 50 && stats.load_failures == 10 && stats.load_nanoseconds == 0);
  cache.invalidate(7);
  cache.clear();
  stats = cache.stats();
  CHECK(stats.insertions == 151 && stats.evictions == 151 && stats.entries == 0);
  // What is refused before it is made is no load.
  cache.set_strict_limit(true);
  CHECK(is_full([&] { cache.begin(1, 1601); }) && cache.stats().load_failures == 10);
}

void the_time_of_loads_is_measured() {
  using std::chrono::milliseconds;
  // Deleting a value takes long, and is no part of a load.
  struct Slow {
    explicit Slow(int n) : number(n) {}
    ~Slow() { std::this_thread::sleep_for(milliseconds(50)); }
    int number;
  };
  using Clock = std::chrono::steady_clock;
  lru::ClockCache<Slow, int> cache(1, kOne, lru::Limit::kStrict);
  const auto took = [&](auto call) {
    const std::uint64_t before = cache.stats().load_nanoseconds;
    const Clock::time_point start = Clock::now();
    call();
    const std::chrono::nanoseconds all = Clock::now() - start;
    const std::chrono::nanoseconds load(cache.stats().load_nanoseconds - before);
    CHECK(load <= all);
    return std::pair(load, all);
  };
  const auto slowly = [](int n) { return std::this_thread::sleep_for(milliseconds(20)), n; };
  const auto make = [&](int n) { return took([&] { cache.get_or_init(n, 1, slowly); }); };
  CHECK(make(1).first.count() == 0);
  cache.set_load_times(true);
  // It evicts a value first.
  const auto made = make(2);
  CHECK(made.first >= milliseconds(20) && made.first + milliseconds(50) <= made.second);
  const auto given_up = took([&] {
    auto begun = cache.begin(3, 1);
    const auto moved = std::move(begun.maker);
    slowly(3);
  });
  CHECK(given_up.first >= milliseconds(20) && cache.stats().load_failures == 1);
  const auto none = took([&] {
    cache.insert(2, 1, 2);
    cache.get(2);
    cache.get_or_init(2, 1, slowly);
  });
  CHECK(none.first.count() == 0);
  cache.set_load_times(false);
  CHECK(make(4).first.count() == 0 && cache.stats().loads == 3);
}

// Each shard has an eighth of the capacity more than its share of the keys.
void keys_are_spread_evenly() {
  using Cache = lru::ClockCache<int, lru::Words>;
  constexpr std::uint64_t kKeys = 20000;
  const auto spreads = [](auto key_of) {
    Cache cache(kKeys + kKeys / 8, lru::Seed(0));
    for (std::uint64_t n = 0; n < kKeys; n++) cache.insert(key_of(n), 1, 1);
    return cache.len() == kKeys;
  };
  CHECK(spreads([](std::uint64_t n) { return lru::Words{0, n}; }));
  CHECK(spreads([](std::uint64_t n) { return lru::Words{n, 0}; }));
  CHECK(spreads([](std::uint64_t n) { return lru::Words{7, n * 4096}; }));
  CHECK(spreads([](std::uint64_t n) { return lru::Words{n << 48, n << 32}; }));
  CHECK(spreads([](std::uint64_t n) { return lru::Words{n % 100, n / 100}; }));
}

enum class Color : std::int8_t { kRed = -1, kBlue = 2 };

struct Block {
  std::uint64_t file;
  std::uint64_t offset;
};

}  // namespace

template <>
struct lru::Key<Block> {
  static lru::Words written(const Block& block) {
    if (block.file == 0) throw Failed();
    return {block.file, block.offset};
  }
};

namespace {

void keys_are_of_any_type_that_is_written_as_words() {
  lru::ClockCache<int, Color> colors(10);
  colors.insert(Color::kRed, 1, 1);
  CHECK(*colors.get(Color::kRed) == 1 && !colors.get(Color::kBlue));
  colors.for_each([](Color color, int, std::uint64_t) { CHECK(color == Color::kRed); });
  using Pair = std::pair<std::int32_t, bool>;
  lru::ClockCache<int, Pair> pairs(10);
  pairs.insert(Pair(-5, true), 1, 1);
  CHECK(pairs.contains(Pair(-5, true)) && !pairs.contains(Pair(-5, false)));
  CHECK(pairs.erase_if([](const Pair& pair, int, auto) { return pair == Pair(-5, true); }) == 1);
  // A key that cannot be written leaves everything as it is.
  lru::ClockCache<int, Block> blocks(10);
  blocks.insert({1, 2}, 1, 1);
  CHECK(throws<Failed>([&] { blocks.insert({0, 2}, 1, 1); }));
  CHECK(throws<Failed>([&] { blocks.get_or_init({0, 2}, 1, [](const Block&) { return 1; }); }));
  blocks.for_each([](lru::Words key, int, std::uint64_t) { CHECK((key == lru::Words{1, 2})); });
  CHECK(blocks.len() == 1 && blocks.pinned_charge() == 0);
}

void values_may_be_neither_movable_nor_copyable() {
  lru::ClockCache<std::atomic<int>, int> counters(10);
  const auto counter = counters.get_or_init(1, 1, [](int n) { return n; });
  (*counter)++;
  CHECK(*counters.get(1) == 2);
  lru::ClockCache<std::unique_ptr<int>, int> owners(10);
  CHECK(**owners.insert(1, 1, std::make_unique<int>(3)) == 3);
}

// A value whose destructor makes a call.
struct Caller {
  explicit Caller(std::function<void()> c) : call(std::move(c)) {}
  ~Caller() { call(); }

  Caller(const Caller&) = delete;
  Caller& operator=(const Caller&) = delete;

  std::function<void()> call;
};

void a_destructor_may_call_the_cache() {
  using Cache = lru::ClockCache<Caller, int>;
  Cache cache(2, kOne);
  int deleted = 0;
  const auto insert = [&](int key) {
    return cache.insert(key, 1, [&] { deleted++, cache.get(1), cache.invalidate(3); });
  };
  for (int key = 1; key <= 3; key++) insert(key);
  CHECK(deleted >= 1);
  insert(3);
  cache.invalidate(3);
  auto held = insert(4);
  cache.invalidate(4);
  const int before = deleted;
  held.reset();
  CHECK(deleted == before + 1);
  cache.clear();
  CHECK(cache.len() == 0 && deleted == 5);
}

void a_listener_is_told_what_leaves() {
  Told told;
  {
    Numbers cache(3, kOne, std::ref(told));
    const auto init = [&](std::uint64_t key, int value) {
      return cache.get_or_init(key, 1, returns(value));
    };
    for (const std::uint64_t n : {1u, 1u}) init(n, 1);
    CHECK(told.take().empty() && !cache.is_limit_strict());
    cache.insert(2, 3, 2);
    CHECK(told.take() == "1=1 evicted");
    cache.set_capacity(2);
    cache.set_capacity(3);
    CHECK(told.take() == "2=2 evicted");
    init(3, 3);
    cache.prune();
    CHECK(told.take() == "3=3 evicted");

    // By a call, whether the value is idle or has a handle.
    init(1, 1);
    auto held = init(2, 2);
    cache.invalidate(9);
    cache.invalidate(1);
    cache.invalidate(2);
    CHECK(told.take() == "1=1 invalidated");
    cache.insert(2, 1, 3);
    held.reset();
    CHECK(told.take() == "2=2 invalidated");
    held = init(3, 4);
    CHECK(cache.erase_if([](auto&&...) { return true; }) == 2);
    CHECK(told.take() == "2=3 invalidated");
    held.reset();
    CHECK(told.take() == "3=4 invalidated");
    cache.insert(1, 1, 1);
    held = cache.insert(1, 1, 2);
    CHECK(told.take() == "1=1 replaced");
    auto again = held.clone();
    cache.insert(1, 1, 3);
    held.reset();
    cache.invalidate(1);
    CHECK(told.take() == "1=3 invalidated");
    again.reset();
    CHECK(told.take() == "1=2 replaced");
    held = cache.insert(1, 1, 4);
    cache.insert(2, 1, 5);
    cache.clear();
    CHECK(told.take() == "2=5 cleared");
    held.reset();
    CHECK(told.take() == "1=4 cleared");

    // A value whose key was taken away while it was made.
    for (int call = 0; call < 3; call++) {
      auto [handle, maker] = cache.begin(1, 1);
      if (call == 0) cache.invalidate(1);
      if (call == 1) cache.clear();
      if (call == 2) cache.insert(1, 1, 2);
      auto moved = std::move(maker);
      handle = moved.ready(1);
      handle.reset();
      CHECK(told.take() == "1=1 invalidated");
    }
    cache.clear();
    CHECK(told.take() == "1=2 cleared");

    // What the cache did not keep is not told.
    CHECK(throws<lru::ZeroCharge>([&] { cache.insert(1, 0, 1); }));
    { const auto begun = cache.begin(1, 1); }
    held = cache.insert(1, 2, 1);
    CHECK(throws<lru::Overflow>([&] { cache.insert(2, UINT64_MAX, 1); }) && told.take().empty());
    held.reset();
    cache.clear();
    CHECK(told.take() == "1=1 cleared");

    // The old value is replaced too if it is the one that is evicted for the new one.
    held = cache.insert(1, 2, 1);
    cache.insert(2, 1, 2);
    auto last = cache.insert(2, 2, 3);
    CHECK(told.take() == "2=2 replaced" && cache.total_charge() == 4);
    last.reset();
    CHECK(told.take() == "2=3 evicted");
    cache.insert(2, 1, 4);
    cache.advice_evict(2);
    CHECK(told.take() == "2=4 evicted");
    cache.insert(2, 1, 5).release_and_evict();
    CHECK(told.take() == "2=5 evicted");
    cache.insert(2, 1, 6);
  }
  CHECK(told.take() == "1=1 cleared, 2=6 cleared");

  // With a strict limit: the old value is replaced if it leaves for the new one, and not if that is
  // refused.
  {
    Numbers cache(3, kOne, std::ref(told), lru::Limit::kStrict);
    CHECK(cache.is_limit_strict());
    cache.insert(1, 2, 1);
    cache.insert(1, 3, 2);
    CHECK(told.take() == "1=1 replaced");
    auto held = cache.get(1);
    CHECK(is_full([&] { cache.insert(1, 1, 3); }));
    held.reset();
    cache.begin(2, 1).maker.fail();
    CHECK(told.take() == "1=2 evicted");
    held = cache.insert(3, 1, 3);
    cache.insert(4, 1, 4);
    CHECK(is_full([&] { cache.insert(5, 3, 5); }) && told.take().empty());
    CHECK(is_full([&] { cache.begin(5, 3); }) && told.take() == "4=4 evicted");
  }
  told.take();

  // All shards tell one function. Keys are shown as for_each shows them.
  std::string keys;
  const auto adds = [&](int key, const int&, lru::Reason) { keys += std::to_string(key); };
  lru::ClockCache<int, int> shards(400, std::size_t{16}, adds);
  for (const int n : {-1, -2, -3, -4}) shards.insert(n, 1, n);
  for (const int n : {-3, -1, -4, -2}) shards.invalidate(n);
  CHECK(keys == "-3-1-4-2");
  Numbers untold(10, kOne, nullptr);
  untold.insert(1, 1, 1);
  untold.clear();
  CHECK(untold.len() == 0);
}

// It is called before the value is deleted, and may take long and call the cache. What it throws is
// dropped.
void a_listener_runs_without_the_lock() {
  Objects* calls = nullptr;
  std::vector<std::uint64_t> seen;
  {
    const auto listener = [&](std::uint64_t key, const Once& once, lru::Reason) {
      if (once.key != key || !once.there) wrong++;
      const auto finds = [&] { return calls->contains(100) || calls->len() > 2; };
      if (calls != nullptr && std::async(std::launch::async, finds).get()) wrong++;
      seen.push_back(key);
      throw Failed();
    };
    Objects cache(2, kOne, listener, lru::Limit::kStrict);
    calls = &cache;
    cache.insert(1, 2, std::uint64_t{1});
    cache.get_or_init(2, 1, makes(2));
    cache.insert(2, 2, std::uint64_t{2});
    auto held = cache.get(2);
    cache.invalidate(2);
    held.reset();
    for (std::uint64_t n = 3; n <= 6; n++) cache.insert(n, 2, n);
    cache.begin(7, 1);
    cache.insert(8, 1, std::uint64_t{8});
    cache.prune();
    cache.insert(9, 1, std::uint64_t{9});
    cache.set_capacity(0);
    cache.set_capacity(2);
    CHECK((seen == std::vector<std::uint64_t>{1, 2, 2, 3, 4, 5, 6, 8, 9}) && alive == 0);
    cache.insert(10, 1, std::uint64_t{10});
    calls = nullptr;
  }
  CHECK(seen.size() == 10 && alive == 0 && wrong == 0);
}

// ------------------------------------------------------------------------------ how threads wait

// What a thread that waits would do if nobody woke it.
template <class Result>
Result in_time(std::future<Result> future) {
  if (future.wait_for(std::chrono::seconds(20)) != std::future_status::ready) {
    std::puts("clock_cache: a thread waits that nobody wakes");
    std::fflush(stdout);
    std::_Exit(1);
  }
  return future.get();
}

// A thread that asks for a key, and which is given time to begin to wait.
template <class Ask>
auto asks(Ask ask) {
  auto future = std::async(std::launch::async, ask);
  std::this_thread::sleep_for(std::chrono::milliseconds(20));
  return future;
}

void others_wait_for_one_making() {
  Numbers cache(10, kOne);
  auto maker = cache.begin(1, 1).maker;
  auto first = asks([&] { return *cache.get_or_init(1, 2, returns(2)); });
  auto second = asks([&] { return *cache.begin(1, 2).handle; });
  auto third = std::move(maker);
  third.ready(1);
  CHECK(in_time(std::move(first)) == 1 && in_time(std::move(second)) == 1);
  CHECK(shown(cache) == "1=1*1 ");
}

void a_making_wakes_only_those_that_wait_for_it() {
  Numbers cache(10, kOne);
  auto maker = cache.begin(1, 1).maker;
  Sleepers sleepers;
  std::vector<std::future<int>> waiting;
  for (int n = 0; n < 10; n++) {
    waiting.push_back(asks([&] {
      sleepers.add_this_thread();
      return static_cast<int>(*cache.get_or_init(1, 1, returns(2)));
    }));
  }
  const long before = sleepers.sleeps();
  for (int n = 0; n < 200; n++) {
    cache.get_or_init(100 + n, 1, returns(3));
    cache.begin(2, 1);  // a maker that is destroyed
  }
  // Nobody has woken: who wakes goes to sleep once more.
  CHECK(sleepers.sleeps() == before);
  maker.ready(1);
  for (auto& value : waiting) CHECK(in_time(std::move(value)) == 1);
}

void one_that_waits_makes_what_another_failed_to() {
  Numbers cache(10, kOne);
  auto maker = cache.begin(1, 1).maker;
  std::atomic<int> made{0};
  const auto ask = [&] {
    return *cache.get_or_init(1, 2, [&](std::uint64_t) { return 10 + made++; });
  };
  auto first = asks(ask);
  auto second = asks(ask);
  auto other = asks([&] { return *cache.get_or_init(2, 2, returns(2)); });
  CHECK(in_time(std::move(other)) == 2);
  maker.fail();
  CHECK(in_time(std::move(first)) == 10 && in_time(std::move(second)) == 10 && made == 1);
  CHECK(shown(cache) == "1=10*2 2=2*2 ");
}

void who_waits_for_a_key_that_is_taken_away_goes_on() {
  const auto goes_on = [](auto take, int expected) {
    Numbers cache(10, kOne);
    auto maker = cache.begin(1, 1).maker;
    auto waits = asks([&] { return *cache.get_or_init(1, 2, returns(2)); });
    take(cache);
    CHECK(in_time(std::move(waits)) == expected);
    CHECK(*maker.ready(1) == 1 && *cache.get(1) == expected);
  };
  goes_on([](Numbers& cache) { cache.invalidate(1); }, 2);
  goes_on([](Numbers& cache) { cache.clear(); }, 2);
  goes_on([](Numbers& cache) { cache.insert(1, 1, 3); }, 3);
}

// One that waits for a value that is refused asks for room itself.
void who_waits_for_a_value_that_is_refused_goes_on() {
  Numbers cache(10, kOne, lru::Limit::kStrict);
  auto maker = cache.begin(1, 6).maker;
  auto fits = asks([&] { return *cache.get_or_init(1, 5, returns(2)); });
  const auto held = cache.insert(2, 5, 2);
  // There is no room, but a value that is being made is waited for.
  CHECK(!cache.try_begin(1, 9).handle && !cache.try_begin(1, 9).maker);
  CHECK(is_full([&] { maker.ready(1); }) && in_time(std::move(fits)) == 2);
  maker = cache.begin(3, 1).maker;
  auto is_too_large = asks([&] { return is_full([&] { cache.get_or_init(3, 9, returns(3)); }); });
  maker.fail();
  CHECK(in_time(std::move(is_too_large)) && shown(cache) == "2=2*5 ");
}

void who_waits_for_a_charge_hears_of_it() {
  for (const std::uint64_t charge : {std::uint64_t{3}, std::uint64_t{0}}) {
    Numbers cache(10, kOne);
    auto maker = cache.begin(1, 1).maker;
    auto waits = asks([&] { return *cache.get_or_init(1, 2, returns(2)); });
    CHECK(throws<lru::ZeroCharge>([&] { maker.ready_with(charge, 1); }) == (charge == 0));
    CHECK(in_time(std::move(waits)) == (charge == 0 ? 2 : 1));
    CHECK(shown(cache) == (charge == 0 ? "1=2*2 " : "1=1*3 "));
  }
}

// --------------------------------------------------------------------------------------- threads

// The first call of a thread on a shard finds what is there, and so does the last handle of one.
void a_new_thread_finds_and_releases() {
  {
    Objects cache(100, std::size_t{5});
    for (std::uint64_t n = 0; n < 20; n++) cache.insert(n, 1, n);
    for (std::uint64_t n = 0; n < 20; n++) {
      auto held = cache.get(n);
      cache.invalidate(n);
      auto kept = cache.insert(n, 1, n);
      std::thread([&, handle = std::move(held)]() mutable {
        CHECK(handle->key == n && handle.clone().get() == handle.get());
        handle.reset();
        CHECK(cache.get(n).get() == kept.get());
      }).join();
      CHECK(cache.pinned_charge() == 1);
    }
    CHECK(alive == 20);
  }
  CHECK(alive == 0);
}

// A look-up without the lock may miss a value while it is replaced, and then looks again.
void a_key_that_is_replaced_always_has_a_value() {
  {
    Objects cache(100, kOne);
    cache.insert(1, 1, std::uint64_t{1});
    std::atomic<bool> is_done{false};
    std::atomic<std::uint64_t> missing{0};
    std::vector<std::thread> threads;
    for (int t = 0; t < 3; t++) {
      threads.emplace_back([&] {
        do {
          missing += !cache.get(1);
          cache.get_or_init(1, 1, [&](std::uint64_t n) {
            missing++;
            return n;
          });
        } while (!is_done);
      });
    }
    for (int n = 0; n < 30000; n++) cache.insert(1, 1, std::uint64_t{1});
    is_done = true;
    for (std::thread& thread : threads) thread.join();
    CHECK(missing == 0 && cache.len() == 1);
  }
  CHECK(alive == 0 && wrong == 0);
}

// Whatever threads pin and release, the total stays within a strict limit.
void the_total_stays_within_a_strict_limit() {
  constexpr std::uint64_t kCapacity = 20;
  {
    Objects cache(kCapacity, kOne, lru::Limit::kStrict);
    std::atomic<std::uint64_t> added{0}, refusals{0}, above{0};
    std::vector<std::thread> threads;
    for (std::uint64_t t = 0; t < 4; t++) {
      threads.emplace_back([&, t] {
        Random random(t);
        Objects::Handle held[4];
        for (int turn = 0; turn < 10000; turn++) {
          const std::uint64_t n = random.below(30), charge = 1 + random.below(4);
          Objects::Handle& slot = held[random.below(4)];
          try {
            slot = random.below(2) == 0 ? cache.insert(n, charge, n)
                                        : cache.get_or_init(n, charge, makes(n));
            added++;
          } catch (const lru::Full&) {
            refusals++;
            slot.reset();
          }
          above += cache.total_charge() > kCapacity;
        }
      });
    }
    for (std::thread& thread : threads) thread.join();
    CHECK(above == 0 && added > 1000 && refusals > 100 && cache.pinned_charge() == 0);
  }
  CHECK(alive == 0 && wrong == 0);
}

// The threads have the least numbers that are free, and each has readers of its own, in lines of
// its own.
void threads_have_numbers_and_lanes() {
  constexpr std::size_t kAtOnce = 40, kShards = 5;
  Numbers cache(1000, kShards);
  for (std::uint64_t n = 0; n < 100; n++) cache.insert(n, 1, static_cast<int>(n));
  lru::detail::Lanes lanes(kShards);
  for (int round = 0; round < 2; round++) {
    std::mutex mutex;
    std::condition_variable condition;
    std::set<std::uint32_t> numbers{lru::detail::ThreadNumbers::mine()};
    std::set<const lru_reader*> readers;
    std::set<std::uintptr_t> lines;
    std::size_t pairs = 0;  // of a thread and a line
    std::vector<std::thread> threads;
    for (std::size_t t = 0; t < kAtOnce; t++) {
      threads.emplace_back([&] {
        for (std::uint64_t n = 0; n < 100; n++) {
          const auto found = cache.get(n);
          if (!found || *found != static_cast<int>(n)) wrong++;
        }
        std::unique_lock<std::mutex> lock(mutex);
        std::set<std::uintptr_t> mine;
        for (std::size_t shard = 0; shard < kShards; shard++) {
          const lru_reader* const reader = lanes.mine(shard);
          if (reader != lanes.mine(shard)) wrong++;
          readers.insert(reader);
          mine.insert(reinterpret_cast<std::uintptr_t>(reader) / 64);
        }
        lines.insert(mine.begin(), mine.end());
        pairs += mine.size();
        numbers.insert(lru::detail::ThreadNumbers::mine());
        condition.notify_all();
        condition.wait(lock, [&] { return numbers.size() == kAtOnce + 1; });
      });
    }
    for (std::thread& thread : threads) thread.join();
    CHECK(*numbers.rbegin() == kAtOnce && wrong == 0);
    CHECK(readers.size() == kAtOnce * kShards && lines.size() == pairs);
  }
}

// A thread that has given back its number, as it is about to end, goes on under the lock. The last
// handles that it destroys are those of a key that is younger than the key of its number.
void a_thread_that_is_about_to_end_goes_on() {
  {
    Objects cache(100, kOne);
    cache.insert(1, 1, std::uint64_t{1});
    pthread_key_t key;
    CHECK(pthread_key_create(&key, [](void* at) {
            auto* const handle = static_cast<Objects::Handle*>(at);
            const bool has_number =
                lru::detail::ThreadNumbers::mine() != lru::detail::NumberedThread::kNone;
            if (has_number || handle->clone().get() != handle->get()) wrong++;
            delete handle;
          }) == 0);
    std::thread([&] {
      CHECK(pthread_setspecific(key, new Objects::Handle(cache.get(1))) == 0);
    }).join();
    CHECK(pthread_key_delete(key) == 0 && cache.pinned_charge() == 0 && wrong == 0);
  }
  CHECK(alive == 0);
}

// ------------------------------------------------------------------------------- refused memory

// Calls of all kinds, where one request for memory is refused: a call that throws is repeated, and
// then answers as if memory were ample. Returns whether that request was made.
bool goes_on_if_one_is_refused(long which) {
  constexpr std::uint64_t kEntries = 150;
  std::optional<Objects> cache;
  const auto repeated = [](auto call) {
    try {
      return call();
    } catch (const std::bad_alloc&) {
      return call();
    }
  };
  refused = which;
  repeated([&] { cache.emplace(kEntries, lru::Seed(0), std::size_t{2}); });
  for (std::uint64_t n = 0; n < kEntries; n++) {
    auto made = repeated([&] { return cache->get_or_init(n, 1, makes(n)); });
    CHECK(made->key == n && cache->get(n).get() == made.get());
    if (n % 3 != 0) continue;
    const auto inserted = repeated([&] { return cache->insert(n, 1, n); });
    CHECK(inserted->key == n && cache->get(n).get() == inserted.get());
    made.reset();
    auto maker = repeated([&] { return cache->begin(n + kEntries, 1).maker; });
    // A cache that has refused the value has ended the making.
    try {
      maker.ready(n + kEntries);
    } catch (const std::bad_alloc&) {
      if (!maker) maker = cache->begin(n + kEntries, 1).maker;
      maker.ready(n + kEntries);
    }
    CHECK(repeated([&] { return cache->contains(n + kEntries); }));
  }
  CHECK(static_cast<std::uint64_t>(alive) == cache->len() && cache->pinned_charge() == 0);
  repeated([&] { cache->erase_if([](auto&&...) { return true; }); });
  CHECK(cache->len() == 0 && alive == 0);
  const bool was_made = refused == 0;
  refused = 0;
  return was_made;
}

long one_request_is_refused() {
  long which = 1;
  while (goes_on_if_one_is_refused(which)) which++;
  CHECK(wrong == 0 && alive == 0);
  return which - 1;
}

// An insert for which there is no memory changes nothing, whatever its key has: no value, one that
// is being made, an idle one, or one with a handle.
void an_insert_without_memory_changes_nothing() {
  enum Has { kNothing, kMaker, kIdle, kHeld };
  for (const Has has : {kNothing, kMaker, kIdle, kHeld}) {
    Told told;
    Numbers cache(1000, kOne, std::ref(told));
    cache.get(0);  // this makes the readers
    int refusals = 0;
    for (std::uint64_t n = 0; n < 200; n++) {
      Numbers::Maker maker;
      Numbers::Handle held;
      if (has == kMaker) maker = cache.begin(n, 1).maker;
      if (has == kIdle || has == kHeld) held = cache.insert(n, 1, 1);
      if (has == kIdle) held.reset();
      const std::string before = shown(cache);
      const lru::ClockStats stats = cache.stats();
      told.take();
      // The first request is that of the value itself.
      refused = 2;
      const bool is_refused = throws<lru::OutOfMemory>([&] { cache.insert(n, 1, 2); });
      CHECK(is_refused == (refused.exchange(0) == 0));
      if (is_refused) {
        refusals++;
        CHECK(shown(cache) == before && told.take().empty());
        CHECK(cache.stats().insertions == stats.insertions && cache.len() == stats.entries);
        if (held) CHECK(cache.get(n).get() == held.get());
        // The maker's value is its key's.
        if (maker) {
          CHECK(*maker.ready(3) == 3 && *cache.get(n) == 3);
          CHECK(shown(cache).find("=3*1 ") != std::string::npos);
        }
        cache.insert(n, 1, 2);
      }
      CHECK(*cache.get(n) == 2);
    }
    CHECK(refusals > 0);
  }
}

// A thread without a reader finds, clones and releases where no memory is left at all.
void a_thread_without_a_reader_goes_on() {
  {
    Objects cache(100, kOne);
    cache.insert(1, 1, std::uint64_t{1});
    auto held = cache.insert(2, 1, std::uint64_t{2});
    cache.invalidate(2);
    std::thread([&, handle = std::move(held)]() mutable {
      are_all_refused = true;
      const bool found = cache.get(1) && cache.get(1)->key == 1 && cache.contains(1) &&
                         !cache.get(2) && cache.get_or_init(1, 1, makes(9))->key == 1;
      const bool is_cloned = handle.clone().get() == handle.get();
      handle.reset();
      const bool is_out = throws<std::bad_alloc>([&] { cache.get_or_init(3, 1, makes(3)); });
      are_all_refused = false;
      CHECK(found && is_cloned && is_out && alive == 1);
      CHECK(cache.get_or_init(3, 1, makes(3))->key == 3);
    }).join();
    CHECK(cache.len() == 2 && cache.pinned_charge() == 0);
    // With lanes that have no room, on a thread that has a number.
    std::thread([] {
      Objects other(100, kOne);
      other.insert(1, 1, std::uint64_t{1});
    }).join();
    are_all_refused = true;
    const bool is_found = cache.get(1)->key == 1;
    are_all_refused = false;
    CHECK(is_found);
  }
  CHECK(alive == 0 && wrong == 0);
}

// ---------------------------------------------------------------------------------------- stress

void threads_use_a_cache(std::size_t shards) {
  CHECK(clock_threads::use_a_cache(shards, 1, 20000));
  CHECK(alive == 0 && wrong == 0);
}

// -------------------------------------------------------------------------- the end of a cache

// What a process that does this writes to standard error, if `abort` ends it.
template <class Action>
std::string last_words(Action action) {
  int ends[2];
  CHECK(pipe(ends) == 0);
  const pid_t child = fork();
  if (child == 0) {
    dup2(ends[1], 2);
    action();
    _exit(0);
  }
  close(ends[1]);
  std::string words;
  char part[512];
  for (ssize_t n; (n = read(ends[0], part, sizeof part)) > 0;) {
    words.append(part, static_cast<std::size_t>(n));
  }
  close(ends[0]);
  int status = 0;
  CHECK(child > 0 && waitpid(child, &status, 0) == child);
  return WIFSIGNALED(status) && WTERMSIG(status) == SIGABRT ? words : "";
}

bool has(const std::string& text, const char* part) { return text.find(part) != std::string::npos; }

void a_handle_that_outlives_its_cache_is_asserted_against() {
  const auto outlives = [](auto take) {
    const std::string words = last_words([&] {
      auto cache = std::make_unique<Numbers>(10);
      cache->insert(1, 1, 1);
      const auto taken = take(*cache);
      cache.reset();
      _exit(1);
    });
    return has(words, "lru: a handle or a maker outlives its cache");
  };
  CHECK(outlives([](Numbers& cache) { return cache.get(1); }));
  CHECK(outlives([](Numbers& cache) { return cache.get(1).clone(); }));
  CHECK(outlives([](Numbers& cache) { return cache.insert(1, 1, 2); }));
  CHECK(outlives([](Numbers& cache) { return cache.begin(2, 1).maker; }));
}

void a_destructor_that_calls_a_cache_that_is_destroyed_is_told_the_rule() {
  using Cache = lru::ClockCache<Caller, int>;
  const Cache::Listener listener = [](auto&&...) {};
  const auto names_with = [](auto call, const Cache::Listener& told) {
    const std::string words = last_words([&] {
      const auto cache = std::make_unique<Cache>(100, kOne, told);
      cache->begin(1, 1).maker.ready([&] { call(*cache); });
      cache->~Cache();
      _exit(1);
    });
    return has(words, "lru: the destructor of a value calls the cache that is destroyed");
  };
  const auto names = [&](auto call) {
    return names_with(call, nullptr) && names_with(call, listener);
  };
  CHECK(names([](Cache& cache) { cache.get(2); }));
  CHECK(names([](Cache& cache) { cache.begin(2, 1); }));
  CHECK(names([](Cache& cache) { cache.insert(2, 1, [] {}); }));
  CHECK(names([](Cache& cache) { cache.read(2, [](const Caller&) {}); }));
  CHECK(names([](Cache& cache) { cache.contains(2); }));
  CHECK(names([](Cache& cache) { cache.invalidate(2); }));
}

}  // namespace

int main() {
  a_present_value_is_not_made_again();
  a_handle_pins_its_value();
  what_is_released_before_a_value_is_stored_leaves();
  a_release_and_an_advice_evict();
  a_value_that_was_made_evicts();
  handles_are_moved_and_cloned();
  a_handle_outlives_what_its_key_finds();
  a_reader_runs_without_the_lock();
  a_making_that_fails_leaves_nothing();
  bad_charges_are_refused();
  makers_make_values();
  a_maker_keeps_its_duty_if_its_value_throws();
  a_key_is_taken_from_its_maker();
  an_insert_replaces();
  values_leave_by_prune_clear_and_erase_if();
  a_predicate_that_throws_erases_nothing_of_its_shard();
  the_capacity_is_shared_and_set();
  a_charge_is_told_with_the_value();
  a_strict_limit_has_no_room_beside_pinned_values();
  the_room_for_a_value_may_be_taken_while_it_is_made();
  an_insert_has_the_room_of_the_old_value();
  an_insert_that_has_evicted_may_be_refused();
  a_strict_limit_is_that_of_each_shard();
  room_is_reserved_in_each_shard();
  stats_tell_what_was_made_added_and_evicted();
  the_time_of_loads_is_measured();
  keys_are_spread_evenly();
  keys_are_of_any_type_that_is_written_as_words();
  values_may_be_neither_movable_nor_copyable();
  a_destructor_may_call_the_cache();
  a_listener_is_told_what_leaves();
  a_listener_runs_without_the_lock();
  others_wait_for_one_making();
  a_making_wakes_only_those_that_wait_for_it();
  one_that_waits_makes_what_another_failed_to();
  who_waits_for_a_key_that_is_taken_away_goes_on();
  who_waits_for_a_value_that_is_refused_goes_on();
  who_waits_for_a_charge_hears_of_it();
  a_new_thread_finds_and_releases();
  a_key_that_is_replaced_always_has_a_value();
  the_total_stays_within_a_strict_limit();
  threads_have_numbers_and_lanes();
  a_thread_that_is_about_to_end_goes_on();
  const long requests = one_request_is_refused();
  an_insert_without_memory_changes_nothing();
  a_thread_without_a_reader_goes_on();
  threads_use_a_cache(1);
  threads_use_a_cache(16);
  a_handle_that_outlives_its_cache_is_asserted_against();
  a_destructor_that_calls_a_cache_that_is_destroyed_is_told_the_rule();
  CHECK(requests > 100);
  std::printf("lru_clock.hpp: 50 tests, %d checks failed\n", failed_checks);
  return failed_checks == 0 ? 0 : 1;
}
