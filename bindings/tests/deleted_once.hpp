// Objects for tests with threads. `wrong` counts what is not as it should be, as when an object is
// deleted twice or with another key.
#ifndef LRU_TESTS_DELETED_ONCE_HPP
#define LRU_TESTS_DELETED_ONCE_HPP

#include <atomic>
#include <cstdint>
#include <cstring>

inline std::atomic<std::int64_t> alive{0};
inline std::atomic<std::int64_t> wrong{0};

struct Object {
  explicit Object(std::uint64_t k) : key(k) { alive++; }
  ~Object() { alive--; }

  std::uint64_t key;
  std::atomic<bool> there{true};
};

// Whether an object was made for a key, which begins with the number of the object.
template <class Slice>
bool IsOf(const Slice& key, const Object* object) {
  std::uint64_t n = 0;
  std::memcpy(&n, key.data(), sizeof n);
  return object->key == n;
}

// A deleter of objects.
template <class Slice>
void DeleteOnce(const Slice& key, void* value) {
  auto* object = static_cast<Object*>(value);
  if (!IsOf(key, object) || !object->there.exchange(false)) wrong++;
  delete object;
}

#endif
