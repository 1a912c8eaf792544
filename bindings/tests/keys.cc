// Tests keys of the types that lru::Key says how to write.
#include <cstddef>
#include <cstdint>
#include <cstdio>
#include <set>
#include <stdexcept>
#include <string>
#include <string_view>
#include <utility>

#include "check.hpp"
#include "lru.hpp"

namespace {

// A key of two numbers, one of bytes, and one whose bytes are put together.
struct Block {
  std::uint64_t file;
  std::uint64_t offset;
};

struct Name {
  std::string text;
};

struct Statement {
  std::string text;
  int user;
};

}  // namespace

template <>
struct lru::Key<Block> {
  static lru::Words written(const Block& block) { return {block.file, block.offset}; }
};

template <>
struct lru::Key<Name> {
  static const std::string& written(const Name& name) { return name.text; }
};

template <>
struct lru::Key<Statement> {
  static std::string written(const Statement& statement) {
    if (statement.user < 0) throw std::runtime_error("no such user");
    return std::to_string(statement.user) + ":" + statement.text;
  }
  static Statement read(std::string_view written) {
    const std::size_t end = written.find(':');
    return {std::string(written.substr(end + 1)), std::stoi(std::string(written.substr(0, end)))};
  }
};

namespace {

// Two keys that differ have values of their own in both caches. `show` makes a text of a key, as it
// is shown.
template <class Key, class Show>
void finds_by(const Key& one, const Key& two, Show show, const std::string& expected) {
  lru::Cache<int, Key> cache(10);
  lru::ShardedCache<int, Key> shards(100, std::size_t{4});
  const auto check = [&](auto& keeps) {
    const auto made = keeps.get_or_init(one, 1, [](const Key&) { return 1; });
    keeps.insert(two, 2, 2);
    const Key again = one;
    CHECK(*made == 1 && *keeps.get(again) == 1 && *keeps.get(two) == 2 && keeps.len() == 2);
    CHECK(keeps.contains(one) && keeps.read(two, [](int n) { return n + 1; }) == 3);
    std::set<std::string> shown;
    keeps.for_each([&](const auto& key, int, auto, auto) { shown.insert(show(key)); });
    CHECK(*shown.begin() + " " + *shown.rbegin() == expected);
    const auto is_last = [&](const auto& key, int, auto) { return show(key) == *shown.rbegin(); };
    CHECK(keeps.erase_if(is_last) == 1 && keeps.len() == 1);
    keeps.advice_evict(one);
    keeps.invalidate(one);
    keeps.clear();
    CHECK(!keeps.contains(one) && !keeps.contains(two) && keeps.len() == 1);
  };
  check(cache);
  check(shards);
}

enum class Color : signed char { kRed = -1, kBlue = 2 };

void keys_are_of_any_type_that_is_written() {
  const auto number = [](auto n) { return std::to_string(n); };
  const auto text = [](std::string_view key) { return std::string(key); };
  finds_by<int>(-1, 1, number, "-1 1");
  finds_by<std::int64_t>(INT64_MIN, INT64_MAX, number,
                         "-9223372036854775808 9223372036854775807");
  finds_by<std::uint64_t>(0, UINT64_MAX, number, "0 18446744073709551615");
  finds_by<bool>(false, true, number, "0 1");
  finds_by<char>('a', 'b', [](char c) { return std::string(1, c); }, "a b");
  finds_by<Color>(Color::kRed, Color::kBlue,
                  [](Color color) { return std::to_string(static_cast<int>(color)); }, "-1 2");
  using Pair = std::pair<std::int32_t, std::uint64_t>;
  const auto pair = [&](const Pair& p) { return number(p.first) + "/" + number(p.second); };
  finds_by<Pair>({-1, 7}, {-1, 8}, pair, "-1/7 -1/8");
  finds_by<Pair>({-1, 7}, {7, 7}, pair, "-1/7 7/7");
  finds_by<std::string>("", "a key", text, " a key");
  finds_by<std::string_view>("k", std::string_view("k\0", 2), text, std::string("k k\0", 4));
  finds_by<Block>({1, 2}, {2, 1}, [&](lru::Words key) { return number(key.first); }, "1 2");
  finds_by<Name>({"one"}, {"two"}, text, "one two");
  const auto statement = [](const Statement& s) { return s.text + std::to_string(s.user); };
  finds_by<Statement>({"SELECT", 7}, {"SELECT", 8}, statement, "SELECT7 SELECT8");

  // A key that cannot be written leaves everything as it is.
  lru::Cache<int, Statement> plans(10);
  bool thrown = false;
  try {
    plans.insert({"SELECT", -1}, 1, 1);
  } catch (const std::runtime_error&) {
    thrown = true;
  }
  CHECK(thrown && plans.len() == 0 && *plans.insert({"SELECT", 1}, 1, 1) == 1);
}

}  // namespace

int main() {
  keys_are_of_any_type_that_is_written();
  std::printf("keys of lru.hpp: %d checks failed\n", failed_checks);
  return failed_checks == 0 ? 0 : 1;
}
