/* Calls of lru_threads_clock.h in another source file than the one that opens the cache. */
#include "threads_clock_too.h"

lru_code too_get(lru_threads_clock *cache, const void *key, size_t length, lru_clock_pinned *out) {
    return lru_threads_clock_get(cache, key, length, out);
}

lru_code too_release(lru_threads_clock *cache, const lru_clock_pinned *pinned) {
    return lru_threads_clock_release(cache, pinned);
}

const lru_reader *too_reader(lru_threads_clock *cache, uint32_t shard) {
    return lru_threads_clock_reader(cache, shard);
}
