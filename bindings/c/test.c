/* Tests the library from C: the worked rows that need no threads, what free hands out, and the
 * codes for misuse. Prints each failure, and exits with 1 if there is any. */
/* The guard of a header that a program may have under the same name. */
#define LRU_H
#include "lru.h"

#include <inttypes.h>
#include <stdio.h>
#include <stdlib.h>
#include <string.h>

static int failures;

static void check(const char *file, int line, uint64_t got, uint64_t wanted) {
    if (got != wanted) {
        fprintf(stderr, "%s:%d: got %" PRIu64 ", wanted %" PRIu64 "\n", file, line, got, wanted);
        failures++;
    }
}

#define CHECK(got, wanted) check(__FILE__, __LINE__, (uint64_t)(got), (uint64_t)(wanted))

static void check_list(const char *file, int line, const uint64_t *got, size_t length,
                       const uint64_t *wanted, size_t wanted_length) {
    size_t i;

    check(file, line, length, wanted_length);
    for (i = 0; i < length && i < wanted_length; i++)
        check(file, line, got[i], wanted[i]);
}

static int by_value(const void *one, const void *other) {
    uint64_t a = *(const uint64_t *)one, b = *(const uint64_t *)other;

    return (a > b) - (a < b);
}

static void sort(uint64_t *numbers, size_t length) {
    qsort(numbers, length, sizeof *numbers, by_value);
}

/* The pin of a stamp, with a hash and a place that most likely do not lead to its entry. */
static lru_pin pin_of(uint64_t stamp) {
    lru_pin pin = {stamp, 0, 0};

    return pin;
}

/* A number as a key of its eight bytes. */
static const void *bytes_of(uint64_t k) {
    static uint64_t kept[2]; /* two keys may be passed in one expression */
    static int last;

    last = !last;
    kept[last] = k;
    return &kept[last];
}

/* The hash of those bytes. */
static uint64_t hash_of(uint64_t k) {
    return lru_hash_bytes(&k, sizeof k, 0);
}

#define FAMILY(name) lru_bytes_##name
#define KIND LRU_BYTES
#define KEY(k) bytes_of(k), sizeof(uint64_t), hash_of(k)
#include "rows.h"
#undef FAMILY
#undef KIND
#undef KEY

#define FAMILY(name) lru_words_##name
#define KIND LRU_WORDS
#define KEY(k) (k), ~(uint64_t)(k)
#include "rows.h"
#undef FAMILY
#undef KIND
#undef KEY

/* Keys of bytes have any length, and null is the empty key if the length is 0. All have one hash
 * here, which changes no answer. */
static void keys_of_bytes(void) {
    lru_cache cache = {0};
    lru_chain gone = {0};
    lru_gone left;
    lru_told told;
    char key[8];

    CHECK(lru_cache_new(LRU_BYTES, 10, 0, &cache), LRU_DONE);
    CHECK(lru_chain_new(&gone), LRU_DONE);

    CHECK(lru_bytes_begin(&cache, NULL, 1, 7, 1, false, &gone).code, LRU_NULL_KEY);
    CHECK(lru_bytes_begin(&cache, NULL, 1, 7, 1, true, &gone).code, LRU_NULL_KEY);
    CHECK(lru_bytes_get(&cache, NULL, 1, 7).code, LRU_NULL_KEY);
    CHECK(lru_bytes_contains(&cache, NULL, 1, 7), LRU_NULL_KEY);
    CHECK(lru_bytes_advice_evict(&cache, NULL, 1, 7, &gone), LRU_NULL_KEY);
    CHECK(lru_bytes_invalidate(&cache, NULL, 1, 7, &gone), LRU_NULL_KEY);
    CHECK(lru_bytes_insert(&cache, NULL, 1, 7, 1, 1, false, &gone).code, LRU_NULL_KEY);
    CHECK(lru_bytes_insert(&cache, NULL, 1, 7, 1, 1, true, &gone).code, LRU_NULL_KEY);
    CHECK(lru_cache_len(&cache).value, 0);

    told = lru_bytes_begin(&cache, NULL, 0, 7, 1, false, &gone);
    CHECK(told.code, LRU_MAKE);
    CHECK(lru_cache_ready(&cache, told.pin, 100), LRU_DONE);
    CHECK(lru_bytes_get(&cache, "", 0, 7).value, 100);

    /* the key is copied: its bytes may change */
    memcpy(key, "abc", 4);
    told = lru_bytes_begin(&cache, key, 3, 7, 1, false, &gone);
    CHECK(told.code, LRU_MAKE);
    memcpy(key, "xyz", 4);
    CHECK(lru_cache_ready(&cache, told.pin, 200), LRU_DONE);
    CHECK(lru_bytes_get(&cache, "abc", 3, 7).value, 200);
    CHECK(lru_bytes_get(&cache, "abc\0", 4, 7).code, LRU_MISSED);
    CHECK(lru_bytes_get(&cache, "ab", 2, 7).code, LRU_MISSED);

    told = lru_bytes_key_of(&cache, told.pin, key, sizeof key);
    CHECK(told.code, LRU_NUMBER);
    CHECK(told.value, 3);
    CHECK(memcmp(key, "abc", 3), 0);
    memcpy(key, "xyz", 4);
    told = lru_bytes_key_of(&cache, pin_of(1), key, 2);
    CHECK(told.code, LRU_NO_ROOM);
    CHECK(told.value, 3);
    CHECK(memcmp(key, "xyz", 3), 0);
    CHECK(lru_bytes_key_of(&cache, pin_of(1), NULL, 0).code, LRU_NO_ROOM);
    told = lru_bytes_key_of(&cache, pin_of(0), NULL, 0);
    CHECK(told.code, LRU_NUMBER);
    CHECK(told.value, 0);
    CHECK(lru_bytes_key_of(&cache, pin_of(2), key, sizeof key).code, LRU_STALE);

    CHECK(lru_cache_reserve(&cache, 1000), LRU_DONE);
    CHECK(lru_cache_free(&cache, &gone), LRU_DONE);
    /* both are held, so they come in no particular order */
    CHECK(lru_chain_pop(&gone, &left), true);
    uint64_t first = left.value;
    CHECK(lru_chain_pop(&gone, &left), true);
    CHECK(first == 100 || first == 200, true);
    CHECK(left.value, 300 - first);
    CHECK(lru_chain_free(&gone), LRU_DONE);
    CHECK(lru_bytes_key_of(&cache, pin_of(0), key, sizeof key).code, LRU_CLOSED);
}

/* The hash is a part of the key. */
static void hashes_of_bytes(void) {
    lru_cache cache = {0};
    lru_chain gone = {0};
    lru_told told, other;
    lru_gone left;

    CHECK(lru_cache_new(LRU_BYTES, 10, 0, &cache), LRU_DONE);
    CHECK(lru_chain_new(&gone), LRU_DONE);
    told = lru_bytes_insert(&cache, "abc", 3, 1, 1, 100, false, &gone);
    CHECK(told.code, LRU_DONE);
    CHECK(lru_bytes_get(&cache, "abc", 3, 2).code, LRU_MISSED);
    CHECK(lru_bytes_contains(&cache, "abc", 3, 2), LRU_MISSED);
    CHECK(lru_bytes_get(&cache, "abd", 3, 1).code, LRU_MISSED);
    other = lru_bytes_begin(&cache, "abc", 3, UINT64_MAX, 1, false, &gone);
    CHECK(other.code, LRU_MAKE);
    CHECK(lru_cache_ready(&cache, other.pin, 200), LRU_DONE);
    CHECK(lru_cache_len(&cache).value, 2);
    CHECK(lru_bytes_invalidate(&cache, "abc", 3, 2, &gone), LRU_DONE);
    CHECK(lru_bytes_contains(&cache, "abc", 3, 1), LRU_DONE);
    CHECK(lru_bytes_contains(&cache, "abc", 3, UINT64_MAX), LRU_DONE);

    CHECK(lru_cache_release(&cache, told.pin, &gone), LRU_DONE);
    CHECK(lru_cache_release(&cache, other.pin, &gone), LRU_DONE);
    CHECK(lru_chain_is_empty(&gone), true);
    CHECK(lru_bytes_advice_evict(&cache, "abc", 3, UINT64_MAX, &gone), LRU_DONE);
    CHECK(lru_chain_pop(&gone, &left), true);
    CHECK(left.value, 200);
    CHECK(lru_bytes_get(&cache, "abc", 3, 1).value, 100);
    CHECK(lru_cache_free(&cache, &gone), LRU_DONE);
    CHECK(lru_chain_pop(&gone, &left), true);
    CHECK(lru_chain_free(&gone), LRU_DONE);

    /* computed by another program, on a machine whose lowest byte comes first */
    CHECK(lru_hash_bytes("", 0, 0), 0xa9eb3014a738387f);
    CHECK(lru_hash_bytes("", 0, 7), 0x053b7a5fb4692a92);
    CHECK(lru_hash_bytes("abc", 3, 7), 0x3f4e06fbb32b2175);
    CHECK(lru_hash_bytes("abcd", 4, 7), 0x1a2dcf4ef58eae1a);
    CHECK(lru_hash_bytes("abcdefgh", 8, 7), 0x5cc4ff1aa7057cc4);
    CHECK(lru_hash_bytes("abcdefghi", 9, 7), 0x8b35b0781ec3e4c1);
    CHECK(lru_hash_bytes("abcdefghijklmnop", 16, 7), 0xccda765865135297);
    CHECK(lru_hash_bytes("abcdefghijklmnopqrs", 19, 7), 0x033b2096655d1f1f);
    CHECK(lru_hash_bytes(NULL, 5, 7), lru_hash_bytes("", 0, 7));
    CHECK(lru_shard_of(0x0000000000000001, 16), 11);
    CHECK(lru_shard_of(0x8000000000000000, 16), 13);
    CHECK(lru_shard_of(0x3f4e06fbb32b2175, 1000), 472);
    CHECK(lru_shard_of(UINT64_MAX, 1), 0);
}

/* Both words of a key count. */
static void keys_of_words(void) {
    lru_cache cache = {0};
    lru_chain gone = {0};
    lru_told told;
    uint64_t first = 7, second = 8;

    CHECK(lru_cache_new(LRU_WORDS, 10, 0, &cache), LRU_DONE);
    CHECK(lru_chain_new(&gone), LRU_DONE);
    told = lru_words_begin(&cache, 1, 2, 1, false, &gone);
    CHECK(told.code, LRU_MAKE);
    CHECK(lru_cache_ready(&cache, told.pin, 100), LRU_DONE);
    CHECK(lru_words_get(&cache, 2, 1).code, LRU_MISSED);
    CHECK(lru_words_get(&cache, 1, 1).code, LRU_MISSED);
    CHECK(lru_words_get(&cache, 2, 2).code, LRU_MISSED);
    CHECK(lru_words_get(&cache, 1, 2).value, 100);
    CHECK(lru_words_key_of(&cache, pin_of(1), &first, &second), LRU_STALE);
    CHECK(first, 7);
    CHECK(second, 8);
    CHECK(lru_words_key_of(&cache, told.pin, &first, &second), LRU_DONE);
    CHECK(first, 1);
    CHECK(second, 2);
    CHECK(lru_cache_reserve(&cache, 1000), LRU_DONE);
    CHECK(lru_cache_reserve(&cache, SIZE_MAX), LRU_MEMORY);
    CHECK(lru_cache_len(&cache).value, 1);
    CHECK(lru_cache_free(&cache, &gone), LRU_DONE);
    CHECK(lru_chain_free(&gone), LRU_NOT_EMPTY);
    while (!lru_chain_is_empty(&gone)) {
        lru_gone left;
        CHECK(lru_chain_pop(&gone, &left), true);
        CHECK(left.value, 100);
    }
    CHECK(lru_chain_free(&gone), LRU_DONE);
    CHECK(lru_words_key_of(&cache, pin_of(0), &first, &second), LRU_CLOSED);
}

static void check_stats(const char *file, int line, lru_code code, const lru_stats *got,
                        const lru_stats *wanted) {
    check(file, line, code, LRU_DONE);
    check(file, line, got->hits, wanted->hits);
    check(file, line, got->misses, wanted->misses);
    check(file, line, got->waits, wanted->waits);
    check(file, line, got->insertions, wanted->insertions);
    check(file, line, got->evictions, wanted->evictions);
    check(file, line, got->removals, wanted->removals);
    check(file, line, got->entries, wanted->entries);
    check(file, line, got->charge, wanted->charge);
    check(file, line, got->pinned_charge, wanted->pinned_charge);
    check(file, line, got->capacity, wanted->capacity);
}

/* Checks the numbers of a cache in the order of `lru_stats`. */
#define CHECK_STATS(cache, ...)                                                                    \
    do {                                                                                           \
        const lru_stats wanted_stats = {__VA_ARGS__};                                              \
        lru_stats got_stats;                                                                       \
        lru_code stats_code = lru_cache_stats(&(cache), &got_stats);                               \
        check_stats(__FILE__, __LINE__, stats_code, &got_stats, &wanted_stats);                    \
    } while (0)

/* What is counted, and that a cache that is not open writes nothing. */
static void counts(void) {
    lru_cache cache = {0};
    lru_chain gone = {0};
    lru_stats kept = {1, 2, 3, 4, 5, 6, 7, 8, 9, 10};
    lru_told told, other;
    lru_gone entry;

    CHECK(lru_cache_stats(&cache, &kept), LRU_CLOSED);
    CHECK(kept.hits, 1);
    CHECK(kept.capacity, 10);
    /* the stamps need not begin at 0 */
    CHECK(lru_cache_new_with_limits(LRU_WORDS, 2, 100, 3, 0, &cache), LRU_DONE);
    CHECK(lru_chain_new(&gone), LRU_DONE);
    CHECK_STATS(cache, 0, 0, 0, 0, 0, 0, 0, 0, 0, 2);

    told = lru_words_begin(&cache, 1, 1, 2, false, &gone); /* a miss, and one waits */
    other = lru_words_begin(&cache, 1, 1, 2, false, &gone);
    CHECK(told.code, LRU_MAKE);
    CHECK(other.code, LRU_WAIT);
    CHECK_STATS(cache, 0, 1, 1, 1, 0, 0, 1, 2, 2, 2);
    CHECK(lru_words_get(&cache, 1, 1).code, LRU_MISSED); /* it is still being made */
    CHECK_STATS(cache, 0, 2, 1, 1, 0, 0, 1, 2, 2, 2);

    /* a making that is taken over inserts nothing, whether by `poll` or by `begin` */
    CHECK(lru_cache_fail(&cache, told.pin), LRU_LEFT);
    CHECK(lru_words_begin(&cache, 1, 1, 2, false, &gone).code, LRU_MAKE);
    CHECK_STATS(cache, 0, 3, 1, 1, 0, 0, 1, 2, 2, 2);
    CHECK(lru_cache_fail(&cache, told.pin), LRU_LEFT);
    CHECK(lru_cache_poll(&cache, told.pin).code, LRU_MAKE);
    CHECK(lru_cache_fail(&cache, told.pin), LRU_REMOVED);
    CHECK_STATS(cache, 0, 3, 1, 1, 0, 1, 0, 0, 0, 2);

    /* an insert is neither a hit nor a miss; a refusal counts nothing */
    told = lru_words_insert(&cache, 1, 1, 1, 10, false, &gone);
    CHECK(told.code, LRU_DONE);
    CHECK(lru_words_insert(&cache, 1, 1, 0, 10, false, &gone).code, LRU_NO_CHARGE);
    CHECK(lru_words_begin(&cache, 1, 1, 1, false, &gone).code, LRU_HIT);
    CHECK(lru_words_get(&cache, 1, 1).code, LRU_HIT);
    CHECK(lru_words_get(&cache, 1, 1).code, LRU_OVERFLOW);
    CHECK(lru_cache_repin(&cache, told.pin).code, LRU_OVERFLOW);
    CHECK(lru_words_contains(&cache, 1, 1), LRU_DONE);
    CHECK_STATS(cache, 2, 3, 1, 2, 0, 1, 1, 1, 1, 2);

    /* nor is a repin */
    CHECK(lru_cache_release(&cache, told.pin, &gone), LRU_DONE);
    CHECK(lru_cache_repin(&cache, told.pin).code, LRU_PINNED);
    CHECK_STATS(cache, 2, 3, 1, 2, 0, 1, 1, 1, 1, 2);
    CHECK(lru_cache_release(&cache, told.pin, &gone), LRU_DONE);
    CHECK(lru_cache_release(&cache, told.pin, &gone), LRU_DONE);
    CHECK(lru_cache_release(&cache, told.pin, &gone), LRU_DONE);
    CHECK_STATS(cache, 2, 3, 1, 2, 0, 1, 1, 1, 0, 2);

    /* the new entry evicts the idle one */
    told = lru_words_begin(&cache, 2, 2, 2, false, &gone);
    CHECK(told.code, LRU_MAKE);
    CHECK_STATS(cache, 2, 4, 1, 3, 1, 1, 1, 2, 2, 2);
    CHECK(lru_chain_pop(&gone, &entry), true);
    CHECK(entry.value, 10);

    /* the strict calls count as the others do, and a refusal for lack of room counts nothing */
    CHECK(lru_words_begin(&cache, 3, 3, 1, true, &gone).code, LRU_FULL);
    CHECK(lru_words_insert(&cache, 3, 3, 1, 30, true, &gone).code, LRU_FULL);
    CHECK_STATS(cache, 2, 4, 1, 3, 1, 1, 1, 2, 2, 2);
    CHECK(lru_words_begin(&cache, 2, 2, 2, true, &gone).code, LRU_WAIT);
    CHECK_STATS(cache, 2, 4, 2, 3, 1, 1, 1, 2, 2, 2);
    CHECK(lru_cache_fail(&cache, told.pin), LRU_LEFT);
    CHECK(lru_cache_poll(&cache, told.pin).code, LRU_MAKE);

    /* an eviction, whichever call evicts */
    CHECK(lru_cache_ready(&cache, told.pin, 20), LRU_DONE);
    CHECK(lru_cache_release_and_evict(&cache, told.pin, &gone), LRU_DONE);
    CHECK_STATS(cache, 2, 4, 2, 3, 2, 1, 0, 0, 0, 2);
    CHECK(lru_chain_pop(&gone, &entry), true);
    CHECK(entry.value, 20);

    told = lru_words_begin(&cache, 3, 3, 1, true, &gone);
    CHECK(told.code, LRU_MAKE);
    CHECK(lru_cache_ready(&cache, told.pin, 30), LRU_DONE);
    CHECK(lru_words_begin(&cache, 3, 3, 9, true, &gone).code, LRU_HIT);
    CHECK_STATS(cache, 3, 5, 2, 4, 2, 1, 1, 1, 1, 2);
    told = lru_words_insert(&cache, 4, 4, 1, 40, true, &gone);
    CHECK(told.code, LRU_DONE);
    CHECK_STATS(cache, 3, 5, 2, 5, 2, 1, 2, 2, 2, 2);

    /* a charge that is told with the value: only what it evicts is counted */
    CHECK(lru_cache_release(&cache, told.pin, &gone), LRU_DONE);
    told = lru_words_begin(&cache, 5, 5, 1, false, &gone);
    CHECK(told.code, LRU_MAKE);
    CHECK(lru_chain_pop(&gone, &entry), true);
    CHECK(entry.value, 40);
    CHECK_STATS(cache, 3, 6, 2, 6, 3, 1, 2, 2, 2, 2);
    CHECK(lru_cache_ready_with(&cache, told.pin, 50, 2, true, &gone), LRU_FULL);
    CHECK_STATS(cache, 3, 6, 2, 6, 3, 1, 2, 2, 2, 2);
    CHECK(lru_cache_ready_with(&cache, told.pin, 50, 2, false, &gone), LRU_DONE);
    CHECK_STATS(cache, 3, 6, 2, 6, 3, 1, 2, 3, 3, 2);
    told = lru_words_insert(&cache, 5, 5, 1, 60, false, &gone);
    CHECK(told.code, LRU_DONE);

    CHECK(lru_cache_free(&cache, &gone), LRU_DONE);
    while (lru_chain_pop(&gone, &entry))
        CHECK(entry.value == 30 || entry.value == 50 || entry.value == 60, true);
    CHECK(lru_cache_stats(&cache, &kept), LRU_CLOSED);
    CHECK(kept.hits, 1);
    CHECK(lru_chain_free(&gone), LRU_DONE);
}

/* A key of the other kind is refused and changes nothing; a chain takes the entries of both. */
static void keys_of_the_other_kind(void) {
    lru_cache bytes = {0}, words = {0}, neither = {0};
    lru_chain gone = {0};
    lru_told told, other;
    lru_gone entry;
    uint64_t first = 7, second = 8;
    char buffer[2] = {9, 9};

    CHECK(lru_cache_new(LRU_BYTES, 10, 0, &bytes), LRU_DONE);
    CHECK(lru_cache_new(LRU_WORDS, 10, 0, &words), LRU_DONE);
    CHECK(lru_cache_new(LRU_WORDS, 10, 0, &bytes), LRU_OPEN);
    CHECK(lru_cache_new(LRU_BYTES, 10, 0, &words), LRU_OPEN);
    CHECK(lru_cache_new(2, 10, 0, &neither), LRU_NO_KIND);
    CHECK(lru_cache_new_with_limits(2, 10, 0, 1, 0, &neither), LRU_NO_KIND);
    CHECK(lru_cache_len(&neither).code, LRU_CLOSED);
    CHECK(lru_chain_new(&gone), LRU_DONE);
    told = lru_bytes_insert(&bytes, "k", 1, 7, 4, 100, false, &gone);
    CHECK(told.code, LRU_DONE);
    other = lru_words_insert(&words, 1, 2, 5, 200, false, &gone);
    CHECK(other.code, LRU_DONE);

    CHECK(lru_words_begin(&bytes, 1, 2, 1, false, &gone).code, LRU_OTHER_KEYS);
    CHECK(lru_words_begin(&bytes, 1, 2, 0, false, &gone).code, LRU_OTHER_KEYS);
    CHECK(lru_words_begin(&bytes, 1, 2, 11, true, &gone).code, LRU_OTHER_KEYS);
    CHECK(lru_words_get(&bytes, 1, 2).code, LRU_OTHER_KEYS);
    CHECK(lru_words_contains(&bytes, 1, 2), LRU_OTHER_KEYS);
    CHECK(lru_words_advice_evict(&bytes, 1, 2, &gone), LRU_OTHER_KEYS);
    CHECK(lru_words_invalidate(&bytes, 1, 2, &gone), LRU_OTHER_KEYS);
    CHECK(lru_words_insert(&bytes, 1, 2, 1, 1, false, &gone).code, LRU_OTHER_KEYS);
    CHECK(lru_words_insert(&bytes, 1, 2, 11, 1, true, &gone).code, LRU_OTHER_KEYS);
    CHECK(lru_words_key_of(&bytes, told.pin, &first, &second), LRU_OTHER_KEYS);
    CHECK(first, 7);
    CHECK(second, 8);
    CHECK_STATS(bytes, 0, 0, 0, 1, 0, 0, 1, 4, 4, 10);

    CHECK(lru_bytes_begin(&words, "k", 1, 7, 1, false, &gone).code, LRU_OTHER_KEYS);
    CHECK(lru_bytes_begin(&words, "k", 1, 7, 0, false, &gone).code, LRU_OTHER_KEYS);
    CHECK(lru_bytes_begin(&words, "k", 1, 7, 11, true, &gone).code, LRU_OTHER_KEYS);
    CHECK(lru_bytes_get(&words, "k", 1, 7).code, LRU_OTHER_KEYS);
    CHECK(lru_bytes_contains(&words, "k", 1, 7), LRU_OTHER_KEYS);
    CHECK(lru_bytes_advice_evict(&words, "k", 1, 7, &gone), LRU_OTHER_KEYS);
    CHECK(lru_bytes_invalidate(&words, "k", 1, 7, &gone), LRU_OTHER_KEYS);
    CHECK(lru_bytes_insert(&words, "k", 1, 7, 1, 1, false, &gone).code, LRU_OTHER_KEYS);
    CHECK(lru_bytes_insert(&words, "k", 1, 7, 11, 1, true, &gone).code, LRU_OTHER_KEYS);
    CHECK(lru_bytes_key_of(&words, other.pin, buffer, sizeof buffer).code, LRU_OTHER_KEYS);
    CHECK(buffer[0], 9);
    CHECK_STATS(words, 0, 0, 0, 1, 0, 0, 1, 5, 5, 10);
    CHECK(lru_chain_is_empty(&gone), true);

    CHECK(lru_cache_release_and_evict(&bytes, told.pin, &gone), LRU_DONE);
    CHECK(lru_cache_release_and_evict(&words, other.pin, &gone), LRU_NOT_EMPTY);
    CHECK(lru_chain_pop(&gone, &entry), true);
    CHECK(entry.value, 100);
    CHECK(lru_cache_release_and_evict(&words, other.pin, &gone), LRU_DONE);
    CHECK(lru_chain_pop(&gone, &entry), true);
    CHECK(entry.value, 200);
    CHECK(lru_cache_free(&bytes, &gone), LRU_DONE);
    CHECK(lru_cache_free(&words, &gone), LRU_DONE);
    CHECK(lru_chain_free(&gone), LRU_DONE);
    CHECK(lru_words_get(&bytes, 1, 2).code, LRU_CLOSED);
}

int main(void) {
    counts();
    lru_bytes_rows();
    lru_words_rows();
    keys_of_bytes();
    hashes_of_bytes();
    keys_of_words();
    keys_of_the_other_kind();
    if (failures > 0) {
        fprintf(stderr, "%d failed\n", failures);
        return 1;
    }
    puts("all passed");
    return 0;
}
