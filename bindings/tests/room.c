/* Whether `reserve` makes the room that it was asked for. Each new entry requests memory for its
 * node and, if it is of bytes, its key. If there is room, none requests more than that; without
 * room, a table grows at some of them. And how many bytes of malloc an entry of two words takes,
 * with its part of the tables, in a cache and in a clock.
 *
 * The linker puts the functions below before those of the C library (--wrap). Exits with 1 if
 * something is wrong.
 */
#include <malloc.h>
#include <stdint.h>
#include <stdio.h>
#include <stdlib.h>

#include "lru.h"

enum { ENTRIES = 1000, MANY = 100000 };

static unsigned requests;

void *__real_malloc(size_t size);
void *__real_realloc(void *block, size_t size);
void *__wrap_malloc(size_t size);
void *__wrap_realloc(void *block, size_t size);

void *__wrap_malloc(size_t size) {
    requests++;
    return __real_malloc(size);
}

void *__wrap_realloc(void *block, size_t size) {
    requests++;
    return __real_realloc(block, size);
}

/* The fewest and the most requests of one of the calls that insert. */
struct range {
    unsigned fewest, most;
};

static void wrong(const char *what) {
    fprintf(stderr, "room: %s\n", what);
    exit(1);
}

static void note(struct range *range, unsigned before) {
    unsigned made = requests - before;
    if (made < range->fewest) range->fewest = made;
    if (made > range->most) range->most = made;
}

static struct range of_words(size_t room) {
    lru_cache cache = {0};
    lru_chain gone = {0};
    struct range range = {UINT32_MAX, 0};
    if (lru_cache_new(LRU_WORDS, ENTRIES, 1, &cache) != LRU_DONE) wrong("no cache");
    if (lru_chain_new(&gone) != LRU_DONE) wrong("no chain");
    if (lru_cache_reserve(&cache, room) != LRU_DONE) wrong("no room");
    for (uint64_t key = 0; key < ENTRIES; key++) {
        unsigned before = requests;
        lru_told told = lru_words_begin(&cache, key, 0, 1, false, &gone);
        if (told.code != LRU_MAKE) wrong("no making");
        if (lru_cache_ready(&cache, told.pin, key) != LRU_DONE) wrong("not stored");
        note(&range, before);
    }
    if (lru_cache_free(&cache, &gone) != LRU_DONE) wrong("not freed");
    lru_gone entry;
    while (lru_chain_pop(&gone, &entry)) continue;
    if (lru_chain_free(&gone) != LRU_DONE) wrong("entries are left");
    return range;
}

static struct range of_bytes(size_t room) {
    lru_cache cache = {0};
    lru_chain gone = {0};
    struct range range = {UINT32_MAX, 0};
    if (lru_cache_new(LRU_BYTES, ENTRIES, 1, &cache) != LRU_DONE) wrong("no cache");
    if (lru_chain_new(&gone) != LRU_DONE) wrong("no chain");
    if (lru_cache_reserve(&cache, room) != LRU_DONE) wrong("no room");
    /* The buffer for the key of a call grows at the first one. */
    uint64_t key = ENTRIES;
    if (lru_bytes_get(&cache, &key, sizeof key, key).code != LRU_MISSED) wrong("a hit");
    for (key = 0; key < ENTRIES; key++) {
        unsigned before = requests;
        lru_told told = lru_bytes_insert(&cache, &key, sizeof key, key, 1, key, false, &gone);
        if (told.code != LRU_DONE) wrong("not inserted");
        note(&range, before);
    }
    if (lru_cache_free(&cache, &gone) != LRU_DONE) wrong("not freed");
    lru_gone entry;
    while (lru_chain_pop(&gone, &entry)) continue;
    if (lru_chain_free(&gone) != LRU_DONE) wrong("entries are left");
    return range;
}

/* How many bytes malloc has given to the program, and taken for its own. */
static size_t allocated(void) {
    struct mallinfo2 info = mallinfo2();
    return info.uordblks + info.hblkhd;
}

static size_t bytes_in_cache(void) {
    lru_cache cache = {0};
    lru_chain gone = {0};
    lru_gone entry;
    size_t bytes, before = allocated();
    if (lru_cache_new(LRU_WORDS, MANY, 1, &cache) != LRU_DONE) wrong("no cache");
    if (lru_chain_new(&gone) != LRU_DONE) wrong("no chain");
    for (uint64_t key = 0; key < MANY; key++) {
        lru_told told = lru_words_insert(&cache, key, 0, 1, key, false, &gone);
        if (told.code != LRU_DONE) wrong("not inserted");
        if (lru_cache_release(&cache, told.pin, &gone) != LRU_DONE) wrong("not released");
    }
    bytes = allocated() - before;
    if (lru_cache_len(&cache).value != MANY) wrong("not all are there");
    if (lru_cache_free(&cache, &gone) != LRU_DONE) wrong("not freed");
    while (lru_chain_pop(&gone, &entry)) continue;
    if (lru_chain_free(&gone) != LRU_DONE) wrong("entries are left");
    return bytes / MANY;
}

static size_t bytes_in_clock(void) {
    lru_clock clock = {0};
    lru_reader reader = {0};
    lru_left left;
    uint32_t next = 0;
    size_t bytes, before = allocated();
    if (lru_clock_new(MANY, &clock) != LRU_DONE) wrong("no clock");
    if (lru_reader_new(&clock, &reader) != LRU_DONE) wrong("no reader");
    for (uint64_t key = 0; key < MANY; key++) {
        uint64_t hash = key * 0x9e3779b97f4a7c15;
        lru_found found = lru_clock_add(&clock, hash, key, 0, 1, key, true);
        if (found.code != LRU_DONE) wrong("not added");
        if (lru_reader_unpin(&reader, found.place) != LRU_DONE) wrong("not given back");
    }
    bytes = allocated() - before;
    if (lru_clock_len(&clock).value != MANY) wrong("not all are there");
    while (lru_clock_prune(&clock, &next, &left) == LRU_GONE) continue;
    if (lru_clock_free(&clock) != LRU_DONE) wrong("entries are left");
    if (lru_reader_free(&reader) != LRU_DONE) wrong("no reader is freed");
    return bytes / MANY;
}

static void compare(const char *kind, struct range with, struct range without) {
    if (with.fewest != with.most) wrong("with room, one call requests more memory than another");
    if (without.most <= with.most) wrong("without room, no table grows");
    printf("%s: %u requests an entry with room, up to %u without\n", kind, with.most, without.most);
}

int main(void) {
    size_t in_cache, in_clock;
    compare("words", of_words(ENTRIES), of_words(0));
    compare("bytes", of_bytes(ENTRIES), of_bytes(0));
    in_cache = bytes_in_cache();
    in_clock = bytes_in_clock();
    printf("among %d, an entry takes %zu bytes, and %zu in a clock\n", MANY, in_cache, in_clock);
    if (in_cache < 100 || in_cache > 180) wrong("an entry takes not 100 to 180 bytes");
    if (in_clock < 100 || in_clock > 150) wrong("one of a clock takes not 100 to 150 bytes");
    return 0;
}
