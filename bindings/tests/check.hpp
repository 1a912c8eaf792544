// CHECK(condition) prints the condition if it is false, and the test continues.
#ifndef LRU_TESTS_CHECK_HPP
#define LRU_TESTS_CHECK_HPP

#include <cstdio>

inline int failed_checks = 0;

#define CHECK(condition)                                                                      \
  do {                                                                                        \
    if (!(condition)) {                                                                       \
      std::printf("%s:%d: %s: CHECK(%s) failed\n", __FILE__, __LINE__, __func__, #condition); \
      failed_checks++;                                                                        \
    }                                                                                         \
  } while (false)

#endif
