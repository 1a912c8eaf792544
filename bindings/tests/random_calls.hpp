// What the tests that make random calls on the caches of lru.hpp have in common: random numbers,
// keys of both kinds, and caches whose number of shards is known.
#ifndef LRU_TESTS_RANDOM_CALLS_HPP
#define LRU_TESTS_RANDOM_CALLS_HPP

#include <cstddef>
#include <cstdint>
#include <functional>
#include <string>
#include <string_view>
#include <utility>

#include "lru.hpp"

class Random {
 public:
  explicit Random(std::uint64_t seed) : state_(seed * 0x9e3779b97f4a7c15u + 1) {}

  std::uint64_t below(std::uint64_t end) {
    state_ ^= state_ << 13;
    state_ ^= state_ >> 7;
    state_ ^= state_ << 17;
    return (state_ >> 11) % end;
  }

 private:
  std::uint64_t state_;
};

// Keys of both kinds, by number.
struct TextKey {
  using Key = std::string_view;
  explicit TextKey(std::uint64_t n) : text("key " + std::to_string(n)) {}
  Key key() const { return text; }
  std::string text;
};

struct WordsKey {
  using Key = lru::Words;
  explicit WordsKey(std::uint64_t n) : words{n / 7, n} {}
  Key key() const { return words; }
  lru::Words words;
};

template <class Value, class Key = std::string_view>
class OneLock : public lru::Cache<Value, Key> {
 public:
  static constexpr std::size_t kShards = 1;
  static std::size_t shard_of(Key) { return 0; }

  using lru::Cache<Value, Key>::Cache;
};

// Has 16 shards however small its capacity is.
template <class Value, class Key = std::string_view>
class SixteenShards : public lru::ShardedCache<Value, Key> {
 public:
  static constexpr std::size_t kShards = 16;
  static std::size_t shard_of(Key key) { return std::hash<Key>()(key) % kShards; }

  explicit SixteenShards(std::uint64_t capacity) : Base(capacity, kShards) {}
  SixteenShards(std::uint64_t capacity, lru::Seed seed) : Base(capacity, seed, kShards) {}
  SixteenShards(std::uint64_t capacity, typename lru::Cache<Value, Key>::Listener listener)
      : Base(capacity, kShards, std::move(listener)) {}

 private:
  using Base = lru::ShardedCache<Value, Key>;
};

#endif
