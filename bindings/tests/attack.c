/* Puts the keys that it reads, 16 bytes each, into a cache of lru.h, and looks each of them up. The
 * first argument says whether they are `words` or `bytes`. The seed is the number that is passed
 * next, or random. Prints the number of entries. tests/attack counts the instructions. */
#include <stdio.h>
#include <stdlib.h>
#include <string.h>
#include <sys/random.h>

#include "lru.h"

enum { MOST_KEYS = 100000 };

static uint64_t keys[MOST_KEYS][2];
static uint64_t seed;
static bool is_bytes;
static lru_cache cache;
static lru_chain gone;

static void check(bool right) {
    if (!right)
        abort();
}

static uint64_t random_seed(void) {
    uint64_t number;
    check(getrandom(&number, sizeof number, 0) == (ssize_t)sizeof number);
    return number;
}

static void release(lru_pin pin) {
    check(lru_cache_release(&cache, pin, &gone) == LRU_DONE);
}

static lru_told insert(const uint64_t key[2], uint64_t value) {
    if (!is_bytes)
        return lru_words_insert(&cache, key[0], key[1], 1, value, false, &gone);
    uint64_t hash = lru_hash_bytes(key, 16, seed);
    return lru_bytes_insert(&cache, key, 16, hash, 1, value, false, &gone);
}

static lru_told get(const uint64_t key[2]) {
    if (!is_bytes)
        return lru_words_get(&cache, key[0], key[1]);
    return lru_bytes_get(&cache, key, 16, lru_hash_bytes(key, 16, seed));
}

int main(int argc, char **argv) {
    check(argc > 1);
    is_bytes = strcmp(argv[1], "bytes") == 0;
    seed = argc > 2 ? strtoull(argv[2], NULL, 10) : random_seed();
    size_t count = fread(keys, sizeof keys[0], MOST_KEYS, stdin);

    check(lru_cache_new(is_bytes ? LRU_BYTES : LRU_WORDS, UINT64_MAX, seed, &cache) == LRU_DONE);
    check(lru_chain_new(&gone) == LRU_DONE);
    for (size_t i = 0; i < count; i++) {
        lru_told told = insert(keys[i], i);
        check(told.code == LRU_DONE);
        release(told.pin);
    }
    for (size_t i = 0; i < count; i++) {
        lru_told told = get(keys[i]);
        check(told.code == LRU_HIT && told.value == i);
        release(told.pin);
    }
    printf("%llu\n", (unsigned long long)lru_cache_len(&cache).value);
    return 0;
}
