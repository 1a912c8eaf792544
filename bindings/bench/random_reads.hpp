// What the measurements of databases have in common: keys, values, and random reads from threads.
#ifndef LRU_BENCH_RANDOM_READS_HPP
#define LRU_BENCH_RANDOM_READS_HPP

#include <cstddef>
#include <cstdint>
#include <cstdio>
#include <string>

#include "pairs.hpp"

namespace bench {

inline std::uint64_t Mix(std::uint64_t x) {
  x += 0x9e3779b97f4a7c15u;
  x = (x ^ (x >> 30)) * 0xbf58476d1ce4e5b9u;
  x = (x ^ (x >> 27)) * 0x94d049bb133111ebu;
  return x ^ (x >> 31);
}

inline std::string KeyOf(std::uint64_t n) {
  char text[24];
  std::snprintf(text, sizeof text, "%016llu", static_cast<unsigned long long>(n));
  return text;
}

// 100 bytes, half of which compress: LevelDB does not cache blocks that it stored uncompressed.
inline std::string ValueOf(std::uint64_t n) {
  std::string value;
  for (std::uint64_t i = 0; i < 6; i++) {
    const std::uint64_t word = Mix(n * 8 + i);
    value.append(reinterpret_cast<const char*>(&word), sizeof word);
  }
  value.append(100 - value.size(), 'v');
  return value;
}

// Reads of one thread. `get` reads the value of a key. Nine of ten reads are of a tenth of the
// `keys` keys.
template <class Get>
void Read(const Get& get, std::uint64_t seed, std::uint64_t reads, std::uint64_t keys) {
  std::string value;
  for (std::uint64_t read = 0; read < reads; read++) {
    const std::uint64_t x = Mix(seed * 1000003 + read);
    const std::uint64_t n = (x >> 8) % 10 != 0 ? (x >> 16) % (keys / 10) * 10 : (x >> 16) % keys;
    get(KeyOf(n), &value);
  }
}

// What a read takes, once the cache is warm. Each thread calls `end` in the end.
template <class Get, class End>
Times TimesOfReads(const Get& get, std::size_t threads, std::uint64_t reads, std::uint64_t keys,
                   const End& end) {
  Read(get, 7, reads / 4, keys);
  return TimesOf(threads, static_cast<double>(reads), [&](std::size_t thread) {
    Read(get, 11 + thread, reads / threads, keys);
    end();
  });
}

}  // namespace bench

#endif
