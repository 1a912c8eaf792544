// Puts the keys that it reads, 16 bytes each, into an lru::Cache, and looks each of them up. The
// first argument says whether they are `words` or `bytes`. The seed of the cache is the number that
// is passed next, or random. Prints the number of entries. tests/attack counts the instructions.
#include <cstdint>
#include <cstdio>
#include <cstdlib>
#include <string>
#include <string_view>
#include <type_traits>
#include <vector>

#include "lru.hpp"

namespace {

std::vector<lru::Words> read_keys() {
  std::vector<lru::Words> keys(100000);
  keys.resize(std::fread(keys.data(), sizeof keys[0], keys.size(), stdin));
  return keys;
}

template <class Key>
Key key_of(const lru::Words& key) {
  if constexpr (std::is_same_v<Key, lru::Words>) {
    return key;
  } else {
    return Key(reinterpret_cast<const char*>(&key), sizeof key);
  }
}

template <class Key>
void fill(lru::Cache<std::size_t, Key>& cache, const std::vector<lru::Words>& keys) {
  for (std::size_t i = 0; i < keys.size(); i++) cache.insert(key_of<Key>(keys[i]), 1, i);
  for (std::size_t i = 0; i < keys.size(); i++) {
    if (*cache.get(key_of<Key>(keys[i])) != i) std::abort();
  }
  std::printf("%llu\n", static_cast<unsigned long long>(cache.len()));
}

// `seed` is null for a random one.
template <class Key>
void run(const char* seed) {
  const std::vector<lru::Words> keys = read_keys();
  if (seed != nullptr) {
    lru::Cache<std::size_t, Key> cache(UINT64_MAX, lru::Seed(std::stoull(seed)));
    fill(cache, keys);
  } else {
    lru::Cache<std::size_t, Key> cache(UINT64_MAX);
    fill(cache, keys);
  }
}

}  // namespace

int main(int argc, char** argv) {
  if (argc < 2) return 2;
  const char* const seed = argc > 2 ? argv[2] : nullptr;
  if (std::string_view(argv[1]) == "bytes") {
    run<std::string_view>(seed);
  } else {
    run<lru::Words>(seed);
  }
}
