// A run of calls of lru.hpp in which one request for memory may be refused. A call that throws
// std::bad_alloc is repeated, so the answers are those of a run with ample memory, whichever
// request was refused.
//
// Each object must be deleted once, after a listener was told of it if the cache has accepted it,
// and an insert that throws must leave the charges that it found. Where room was reserved, no table
// may grow: the linker puts the functions that count requests before those of the C library. Tables
// of an empty cache must give back what was reserved.
//
// Prints the answers, and to standard error the call that was refused. Exits with 1 if something is
// wrong. tests/no_memory runs this with the first request refused, then with the second, and so on.
#include <cstddef>
#include <cstdint>
#include <cstdio>
#include <memory>
#include <new>
#include <optional>
#include <string_view>
#include <utility>

#include "lru.hpp"
#include "memory_of_entries.hpp"
#include "random_calls.hpp"

// How often and for how many bytes the library has requested memory.
static std::size_t requests = 0, requested = 0;

extern "C" {
void* __real_malloc(std::size_t size);
void* __real_realloc(void* block, std::size_t size);
void* __wrap_malloc(std::size_t size) {
  requests++, requested += size;
  return __real_malloc(size);
}
void* __wrap_realloc(void* block, std::size_t size) {
  requests++, requested += size;
  return __real_realloc(block, size);
}
}

namespace {

int failed = 0;

void wrong(const char* what) {
  std::fprintf(stderr, "wrong: %s\n", what);
  failed = 1;
}

// How often each object was accepted, shown to a listener and deleted.
struct Fate {
  int accepted, shown, deleted;
};

Fate fates[2000];
std::size_t made = 0;

class Object {
 public:
  explicit Object(std::uint64_t number) : number_(number), fate_(&fates[made++]) {}
  Object(Object&& from) noexcept
      : number_(from.number_), fate_(std::exchange(from.fate_, nullptr)) {}
  ~Object() {
    if (fate_ != nullptr) fate_->deleted++;
  }

  Object(const Object&) = delete;
  Object& operator=(const Object&) = delete;

  std::uint64_t number() const { return number_; }
  void accept() const { fate_->accepted++; }
  void show() const { fate_->shown++; }

 private:
  std::uint64_t number_;
  Fate* fate_;  // null after it was moved from
};

// A cache with a listener.
template <class Key>
class Listening : public lru::Cache<Object, Key> {
 public:
  Listening(std::uint64_t capacity, lru::Seed seed)
      : lru::Cache<Object, Key>(
            capacity, [](Key, const Object& object, lru::Reason) { object.show(); },
            lru::Limit::kNotStrict, seed) {}
};

// The answer of a call, which is repeated if it throws.
template <class Call>
auto repeated(const char* name, Call call) {
  try {
    return call();
  } catch (const std::bad_alloc&) {
    std::fprintf(stderr, "memory %s\n", name);
    return call();
  }
}

// Keys of different lengths, so that some are longer than all before.
char letters[700];

struct Bytes {
  using Key = std::string_view;
  static Key key(std::uint64_t n) { return Key(letters, static_cast<std::size_t>(n)); }
};

struct Pairs {
  using Key = lru::Words;
  static Key key(std::uint64_t n) { return {n % 7, n}; }
};

template <class Keys, class Cache>
class Script {
 public:
  void run() {
    // With one seed, all runs make the same requests.
    repeated("new", [&] { cache_.emplace(20u, lru::Seed(0)); });
    // Objects are made and evicted while one is held.
    const auto held = init(1, 3);
    for (std::uint64_t n = 2; n < 25; n++) init(n, 1 + n % 3);
    for (std::uint64_t n = 20; n < 25; n++) find(n);
    // Inserts over nothing, over what is held and over what is idle.
    for (std::uint64_t n = 66; n < 70; n++) {
      const auto first = insert(n, 2);
      insert(n, 3);
      insert(n, 1 + n % 2);
      if (first->number() != n) wrong("an inserted object is not its own");
    }
    find(80);
    repeated("invalidate", [&] { cache_->invalidate(Keys::key(150)); });
    repeated("invalidate", [&] { cache_->invalidate(Keys::key(1)); });
    repeated("advice_evict", [&] { cache_->advice_evict(Keys::key(300)); });
    repeated("advice_evict", [&] { cache_->advice_evict(Keys::key(69)); });
    find(600);
    for (std::uint64_t n = 610; n < 614; n++) begin(n, 2);
    read(620);
    read(613);
    if (held->number() != 1) wrong("a held object is not its own");
    say("total", cache_->total_charge());
    cache_->set_capacity(8);
    say("total", cache_->total_charge());
    // A call that is refused erases nothing; of a sharded cache, nothing of the shard that refused.
    const auto found = insert(70, 2);
    const auto is_even = [](const auto&, const Object& object, std::uint64_t) {
      return object.number() % 2 == 0;
    };
    repeated("erase_if", [&] { cache_->erase_if(is_even); });
    say("total", cache_->total_charge());
    const auto kept = insert(71, 2);
    repeated("clear", [&] { cache_->clear(); });
    if (cache_->contains(Keys::key(71))) wrong("a cleared object is found");
    say("total", cache_->total_charge());
  }

 private:
  using Handle = typename Cache::Handle;

  void say(const char* call, std::uint64_t answer) {
    std::printf("%s %llu\n", call, static_cast<unsigned long long>(answer));
  }

  Handle init(std::uint64_t n, std::uint64_t charge) {
    Handle handle = repeated("get_or_init", [&] {
      bool is_new = false;
      Handle found = cache_->get_or_init(Keys::key(n), charge, [&](typename Keys::Key) {
        is_new = true;
        return Object(n);
      });
      if (is_new) found->accept();
      return found;
    });
    say("init", handle->number());
    say("total", cache_->total_charge());
    return handle;
  }

  // A `ready` that throws leaves the maker its duty.
  void begin(std::uint64_t n, std::uint64_t charge) {
    auto begun = repeated("begin", [&] { return cache_->begin(Keys::key(n), charge); });
    const auto again = repeated("try_begin", [&] { return cache_->try_begin(Keys::key(n), 1); });
    if (!begun.maker || again.maker || again.handle) wrong("a maker is not alone");
    begun.handle = repeated("ready", [&] { return begun.maker.ready(n); });
    begun.handle->accept();
    say("ready", begun.handle->number());
    say("total", cache_->total_charge());
  }

  void read(std::uint64_t n) {
    const auto number = [](const Object& object) { return object.number(); };
    say("read", repeated("read", [&] { return cache_->read(Keys::key(n), number); }).value_or(0));
  }

  Handle insert(std::uint64_t n, std::uint64_t charge) {
    const std::uint64_t before = cache_->total_charge();
    Handle handle = repeated("insert", [&] {
      if (cache_->total_charge() != before) wrong("an insert that was refused changed something");
      return cache_->insert(Keys::key(n), charge, Object(n));
    });
    handle->accept();
    say("insert", handle->number());
    say("total", cache_->total_charge());
    return handle;
  }

  void find(std::uint64_t n) {
    const Handle handle = repeated("get", [&] { return cache_->get(Keys::key(n)); });
    say("get", handle ? handle->number() : 0);
  }

  std::optional<Cache> cache_;
};

// The objects of a run, from the first on.
void check(std::size_t first, bool has_listener) {
  for (std::size_t i = first; i < made; i++) {
    const Fate& fate = fates[i];
    if (fate.deleted != 1) wrong("an object was not deleted exactly once");
    if (fate.shown != (has_listener ? fate.accepted : 0)) wrong("an object was not shown once");
  }
}

template <class Keys>
void run() {
  using Key = typename Keys::Key;
  std::size_t first = made;
  Script<Keys, lru::Cache<Object, Key>>().run();
  Script<Keys, SixteenShards<Object, Key>>().run();
  check(first, false);
  first = made;
  Script<Keys, Listening<Key>>().run();
  check(first, true);
}

// Puts numbers into a cache that has room for them. Without room, a table grows at some of the
// inserts, which then request memory for more than an entry. Returns how much was reserved.
template <class Cache, class... Arguments>
std::size_t reserve(const Arguments&... arguments) {
  constexpr std::size_t kRoom = 64;
  std::optional<Cache> cache;
  repeated("new", [&] { cache.emplace(kRoom, lru::Seed(0), arguments...); });
  const std::size_t reserved = repeated("reserve", [&] {
    requested = 0;
    cache->reserve(kRoom);
    return requested;
  });
  for (std::uint64_t n = 0; n < kRoom; n++) {
    repeated("insert", [&] {
      requests = 0;
      cache->insert(n, 1, n);
    });
    if (requests != 1) wrong("a table has grown in spite of its room");
  }
  return reserved;
}

// Makes room for many values, and gives it back.
template <class Cache, class... Arguments>
void shrink(const Arguments&... arguments) {
  constexpr std::size_t kRoom = 10000;
  std::optional<Cache> cache;
  repeated("new", [&] { cache.emplace(kRoom, lru::Seed(0), arguments...); });
  const std::size_t before = AllocatedBytes();
  repeated("reserve", [&] { cache->reserve(kRoom); });
  const std::size_t reserved = AllocatedBytes();
  if (!repeated("shrink_to_fit", [&] { return cache->shrink_to_fit(); })) wrong("it is not empty");
  const std::size_t after = AllocatedBytes();
  if (reserved < before + 48 * kRoom || after > before + kRoom) wrong("tables keep their memory");
  repeated("insert", [&] { cache->insert(1, 1, 10); });
  if (*repeated("get", [&] { return cache->get(1); }) != 10) wrong("a value is not its own");
}

// Spreads numbers evenly.
struct Evenly {
  std::size_t operator()(std::uint64_t n) const { return static_cast<std::size_t>(n); }
};

}  // namespace

int main() {
  static char out[1 << 16];
  std::setvbuf(stdout, out, _IOFBF, sizeof out);
  for (char& letter : letters) letter = 'k';
  run<Bytes>();
  run<Pairs>();
  const std::size_t one = reserve<lru::Cache<std::uint64_t, std::uint64_t>>();
  const std::size_t four =
      reserve<lru::ShardedCache<std::uint64_t, std::uint64_t, Evenly>>(std::size_t{4});
  if (four == 0 || four >= 2 * one) wrong("the shards do not share what is reserved");
  shrink<lru::Cache<std::uint64_t, std::uint64_t>>();
  shrink<lru::ShardedCache<std::uint64_t, std::uint64_t>>(std::size_t{4});
  std::fflush(stdout);
  return failed;
}
