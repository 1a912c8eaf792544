/* The calls of threads_clock_too.c, which tests/threads_clock.c makes on a cache that it opened. */
#ifndef LRU_TESTS_THREADS_CLOCK_TOO_H
#define LRU_TESTS_THREADS_CLOCK_TOO_H

#include "lru_threads_clock.h"

lru_code too_get(lru_threads_clock *cache, const void *key, size_t length, lru_clock_pinned *out);
lru_code too_release(lru_threads_clock *cache, const lru_clock_pinned *pinned);
const lru_reader *too_reader(lru_threads_clock *cache, uint32_t shard);

#endif
