/* lru_threads.h - a cache of lru.h that threads share, with POSIX threads.
 *
 * A caller that asks for the value of a key gets it pinned, and a pinned value is neither evicted
 * nor deleted. If there is no value, a function of the caller makes it, while other callers that
 * ask for the key wait:
 *
 *     static bool open_file(void *context, const void *path, size_t length, uint64_t *value);
 *     static void close_file(void *context, uint64_t value);
 *
 *     lru_threads *files;
 *     if (lru_threads_new(100, 1, close_file, NULL, &files) != LRU_DONE)
 *         return false;
 *
 *     lru_pinned file;
 *     if (lru_threads_get_or_init(files, path, length, 1, open_file, NULL, &file) != LRU_HIT)
 *         return false;
 *     use(file.value);
 *     lru_threads_release(files, &file);
 *
 * Keys are byte strings, which the cache copies and hashes with a random seed. A value is one word,
 * usually the address of an object. A charge is above 0, in units of the caller's choice. While the
 * total of all charges is above the capacity, values that nobody has pinned are evicted, the one
 * that was released longest ago first. lru.h has the calls for keys of two words, for strict limits
 * and for walks over the entries, and leaves locks and waiting to the caller. lru_threads_clock.h
 * has a cache with the same calls, whose hits take no lock.
 *
 * SHARDS. A cache has one or more shards. Each has a lock, and an equal share of the capacity,
 * rounded up; the key chooses the shard. With several, threads contend less, but a value is evicted
 * when its own shard is full, and no idle value stays whose charge is larger than the share.
 *
 * WHAT THE CALLER MUST ENSURE, besides rules 4 to 8 of lru.h:
 *
 *  - Functions may be called from any thread at any time; but lru_threads_free is the last call.
 *  - No lock is held while a value is made or deleted. So both may take long and use the cache. But
 *    the functions that make a value and delete those that are evicted for it must not ask for its
 *    key, nor wait for a thread that does: they would wait for themselves.
 *  - These functions return: they do not throw, jump or end their thread. No thread is cancelled
 *    during a call.
 *  - Pointers are not null, except where that is allowed below.
 *
 * Link with -pthread. Only the core is proved; this header is tested. */
#ifndef CONCURRENT_LRU_THREADS_H
#define CONCURRENT_LRU_THREADS_H

#include <pthread.h>
#include <stdlib.h>
#include <sys/random.h>

#include "lru.h"

#ifdef __cplusplus
extern "C" {
#endif

/* Codes besides those of lru.h. */
enum {
    LRU_FAILED = 64,    /* get_or_init: the function that makes the value failed */
    LRU_NO_SHARDS = 65, /* new: no shards */
    LRU_NO_SEED = 66,   /* new: getrandom failed */
    LRU_HELD = 67       /* free: a value is pinned, or is being made */
};

/* Makes the value of a key, writes it to `value` and returns true, or returns false if that fails.
 * `context` is that of lru_threads_get_or_init. */
typedef bool (*lru_init)(void *context, const void *key, size_t length, uint64_t *value);

/* The same for a value that tells its charge, which it writes to `charge`. `context` is that of
 * lru_threads_get_or_init_with. */
typedef bool (*lru_init_with)(void *context, const void *key, size_t length, uint64_t *value,
                              uint64_t *charge);

/* Deletes a value that has left the cache. `context` is that of lru_threads_new. */
typedef void (*lru_delete)(void *context, uint64_t value);

/* Whether a value is to leave. The lock of its shard is held meanwhile, so this must not use the
 * cache, and other callers wait. `key` may be null if the length is 0. `context` is that of
 * lru_threads_erase_if. */
typedef bool (*lru_predicate)(void *context, const void *key, size_t length, uint64_t value,
                              uint64_t charge);

/* A value that a caller has pinned. It may be copied, and passed to other threads. */
typedef struct lru_pinned {
    uint64_t value;
    lru_pin pin;  /* this and the next member are the library's */
    size_t shard; /* the number of the shard that has the entry */
} lru_pinned;

/* A cache. Only the library uses its members. */
typedef struct lru_threads lru_threads;

/* Opens an empty cache that evicts idle values while the total of charges is above `capacity`.
 * `delete_value` deletes each value that leaves the cache; if it is null, they are not deleted. The
 * caller frees the cache with lru_threads_free.
 *
 * LRU_DONE; LRU_NO_SHARDS if `shards` is 0; LRU_NO_SEED; LRU_MEMORY. */
LRU_INLINE lru_code lru_threads_new(uint64_t capacity, size_t shards, lru_delete delete_value,
                                    void *context, lru_threads **out);

/* Deletes all values, and frees the cache. No other call may be running. The function that deletes
 * values must not use this cache now.
 *
 * LRU_DONE; LRU_HELD: nothing has changed. */
LRU_INLINE lru_code lru_threads_free(lru_threads *cache);

/* Finds the value of a key and pins it. If there is none, calls `init(context, key, length, ..)` to
 * make it, after what has to leave for its charge is evicted. If another caller is making it, waits
 * for that. `charge` is the charge of a new value; one that exists, or that another caller has
 * begun to make, keeps its charge.
 *
 * If `init` fails, there is no value, and what was evicted for it stays evicted. If others wait for
 * the value, one of them makes it, with its own `init`.
 *
 * LRU_HIT: the value is pinned, and written to `out`; LRU_FAILED; LRU_OVERFLOW, LRU_NO_CHARGE and
 * LRU_NULL_KEY as lru_bytes_begin; LRU_MEMORY. */
LRU_INLINE lru_code lru_threads_get_or_init(lru_threads *cache, const void *key, size_t length,
                                            uint64_t charge, lru_init init, void *context,
                                            lru_pinned *out);

/* Does what lru_threads_get_or_init does, for a charge that is not known before the value: `init`
 * writes both. The value counts for 1 until then; what has to leave for its charge is evicted once
 * it is made.
 *
 * The codes of lru_threads_get_or_init, of which LRU_NO_CHARGE comes if `init` writes a charge of
 * 0, and LRU_OVERFLOW also if the total would pass 2^64 - 1 with the charge that it writes. The
 * value is deleted then, nothing is evicted for it, and one of those that wait makes it. */
LRU_INLINE lru_code lru_threads_get_or_init_with(lru_threads *cache, const void *key, size_t length,
                                                 lru_init_with init, void *context,
                                                 lru_pinned *out);

/* Finds the value of a key and pins it. Does not wait.
 *
 * LRU_HIT: the value is written to `out`; LRU_MISSED, if there is none or it is still being made;
 * LRU_OVERFLOW, LRU_MEMORY and LRU_NULL_KEY as lru_bytes_get. */
LRU_INLINE lru_code lru_threads_get(lru_threads *cache, const void *key, size_t length,
                                    lru_pinned *out);

/* Gives a key a value, whatever it had before, and pins it. Who has pinned the old value keeps it.
 *
 * LRU_DONE: the value is the cache's, and written to `out`; LRU_OVERFLOW, LRU_MEMORY, LRU_NO_CHARGE
 * and LRU_NULL_KEY as lru_bytes_insert: the key keeps its old value, and the new one is the
 * caller's still. */
LRU_INLINE lru_code lru_threads_insert(lru_threads *cache, const void *key, size_t length,
                                       uint64_t charge, uint64_t value, lru_pinned *out);

/* Gives a pinned value back. Once nobody has it pinned, it is idle, and may be evicted. Each pin is
 * given back once: `pinned` is not written, and a second call would take the pin of another caller.
 *
 * LRU_DONE; LRU_STALE if no pinned value is named. */
LRU_INLINE lru_code lru_threads_release(lru_threads *cache, const lru_pinned *pinned);

/* Takes the value of a key away, so that the next caller that asks for the key makes a new one. Who
 * has pinned the old value keeps it.
 *
 * LRU_DONE, also if there is none; LRU_MEMORY and LRU_NULL_KEY as lru_bytes_invalidate. */
LRU_INLINE lru_code lru_threads_invalidate(lru_threads *cache, const void *key, size_t length);

/* Takes the values of all keys away, one shard after another, as lru_threads_invalidate does for
 * one key: idle values leave at once, and those that are pinned with their last pins. Who waits for
 * a value that is being made gets it, but no later caller does. What other threads add meanwhile
 * may stay.
 *
 * LRU_DONE; LRU_MEMORY: idle values have left, and some of the others may still be found. */
LRU_INLINE lru_code lru_threads_clear(lru_threads *cache);

/* Takes the values away, one shard after another, as lru_threads_invalidate does, for which
 * `predicate(context, key, length, value, charge)` is true, and writes to `erased` how many they
 * are. It is called once for each value that its key finds, in no particular order. Values that are
 * being made stay.
 *
 * LRU_DONE; LRU_MEMORY: the shards before have been served, and no value of this one has left. */
LRU_INLINE lru_code lru_threads_erase_if(lru_threads *cache, lru_predicate predicate,
                                         void *context, uint64_t *erased);

/* Evicts all idle values, one shard after another. */
LRU_INLINE void lru_threads_prune(lru_threads *cache);

/* Sets the capacity, and evicts the idle values that exceed it, one shard after another. */
LRU_INLINE void lru_threads_set_capacity(lru_threads *cache, uint64_t capacity);

/* Writes the sums of what lru_cache_stats tells of each shard; a sum above 2^64 - 1 stays there.
 * With several shards it is no snapshot while other threads call. */
LRU_INLINE void lru_threads_stats(lru_threads *cache, lru_stats *out);

/* ----------------------------------------------------------------------- how the calls are made */

/* What the core stores for a value. The nodes that a call evicts are a list, oldest first, so that
 * they can be kept without memory until the lock is released. */
typedef struct lru_threads_node {
    uint64_t value;
    struct lru_threads_node *next;
} lru_threads_node;

/* A value that is being made, in the list of its shard. Its memory is that of the call. */
typedef struct lru_threads_making {
    const void *key;
    size_t length;
    uint64_t hash;
    struct lru_threads_making *next;
} lru_threads_making;

typedef struct lru_threads_shard {
    pthread_mutex_t lock;
    pthread_cond_t ended; /* a value was made, or not, that others wait for */
    lru_cache cache;
    lru_chain gone; /* empty whenever the lock is free */
    lru_threads_making *makings;
    char apart[64]; /* no two shards share a cache line */
} lru_threads_shard;

struct lru_threads {
    lru_threads_shard *shards;
    size_t count;
    uint64_t seed;
    lru_delete delete_value;
    void *context;
};

static inline lru_threads_node *lru_threads_node_of(uint64_t word) {
    return (lru_threads_node *)(uintptr_t)word;
}

/* Takes what a call on a shard has evicted, so that the next call finds the chain empty. */
static inline void lru_threads_take(lru_threads_shard *shard, lru_threads_node ***end) {
    lru_gone gone;
    while (lru_chain_pop(&shard->gone, &gone)) {
        **end = lru_threads_node_of(gone.value);
        *end = &(**end)->next;
    }
    **end = NULL;
}

static inline void lru_threads_delete(const lru_threads *cache, lru_threads_node *first) {
    while (first != NULL) {
        lru_threads_node *node = first;
        first = node->next;
        if (cache->delete_value != NULL)
            cache->delete_value(cache->context, node->value);
        free(node);
    }
}

/* Lets go of the lock, wakes those that wait if some do, and then deletes what was evicted. */
static inline void lru_threads_unlock(const lru_threads *cache, lru_threads_shard *shard,
                                      bool is_awaited) {
    lru_threads_node *first = NULL, **end = &first;
    lru_threads_take(shard, &end);
    pthread_mutex_unlock(&shard->lock);
    if (is_awaited)
        pthread_cond_broadcast(&shard->ended);
    lru_threads_delete(cache, first);
}

static inline uint64_t lru_threads_share(uint64_t capacity, uint64_t count) {
    return capacity / count + (capacity % count != 0);
}

/* Opens a shard of zeros. False if that fails; it needs no closing then. */
static inline bool lru_threads_open(lru_threads_shard *shard, uint64_t capacity, uint64_t seed) {
    if (lru_chain_new(&shard->gone) != LRU_DONE)
        return false;
    if (lru_cache_new(LRU_BYTES, capacity, seed, &shard->cache) == LRU_DONE) {
        if (pthread_mutex_init(&shard->lock, NULL) == 0) {
            if (pthread_cond_init(&shard->ended, NULL) == 0)
                return true;
            pthread_mutex_destroy(&shard->lock);
        }
        lru_cache_free(&shard->cache, &shard->gone);
    }
    lru_chain_free(&shard->gone);
    return false;
}

LRU_INLINE lru_code lru_threads_new(uint64_t capacity, size_t shards, lru_delete delete_value,
                                    void *context, lru_threads **out) {
    lru_threads *cache;
    if (shards == 0)
        return LRU_NO_SHARDS;
    cache = (lru_threads *)calloc(1, sizeof *cache);
    if (cache == NULL)
        return LRU_MEMORY;
    cache->delete_value = delete_value;
    cache->context = context;
    if (getrandom(&cache->seed, sizeof cache->seed, 0) != (ssize_t)sizeof cache->seed) {
        free(cache);
        return LRU_NO_SEED;
    }
    cache->shards = (lru_threads_shard *)calloc(shards, sizeof *cache->shards);
    while (cache->count < shards) {
        if (cache->shards == NULL ||
            !lru_threads_open(&cache->shards[cache->count], lru_threads_share(capacity, shards),
                              cache->seed)) {
            lru_threads_free(cache);
            return LRU_MEMORY;
        }
        cache->count++;
    }
    *out = cache;
    return LRU_DONE;
}

LRU_INLINE lru_code lru_threads_free(lru_threads *cache) {
    size_t i;
    for (i = 0; i < cache->count; i++)
        if (lru_cache_pinned_charge(&cache->shards[i].cache).value != 0)
            return LRU_HELD;
    for (i = 0; i < cache->count; i++) {
        lru_threads_shard *shard = &cache->shards[i];
        pthread_mutex_lock(&shard->lock);
        lru_cache_free(&shard->cache, &shard->gone);
        lru_threads_unlock(cache, shard, false);
        lru_chain_free(&shard->gone);
        pthread_cond_destroy(&shard->ended);
        pthread_mutex_destroy(&shard->lock);
    }
    free(cache->shards);
    free(cache);
    return LRU_DONE;
}

/* Writes a value that was pinned, which its pin keeps although the lock is released. */
static inline void lru_threads_tell(lru_pin pin, const lru_threads_node *node, size_t shard,
                                    lru_pinned *out) {
    out->value = node->value;
    out->pin = pin;
    out->shard = shard;
}

/* The function that makes a value: one of the two, and the other one is null. */
typedef struct lru_threads_maker {
    lru_init init;
    lru_init_with init_with;
    void *context;
} lru_threads_maker;

static inline bool lru_threads_make(const lru_threads_maker *maker, const void *key, size_t length,
                                    uint64_t *value, uint64_t *charge) {
    return maker->init != NULL ? maker->init(maker->context, key, length, value)
                               : maker->init_with(maker->context, key, length, value, charge);
}

static inline lru_code lru_threads_ask(lru_threads *cache, const void *key, size_t length,
                                       uint64_t charge, const lru_threads_maker *maker,
                                       lru_pinned *out) {
    uint64_t hash = lru_hash_bytes(key, length, cache->seed);
    size_t number = (size_t)lru_shard_of(hash, cache->count);
    lru_threads_shard *shard = &cache->shards[number];
    lru_threads_making making = {key, length, hash, NULL}, **place;
    bool is_made, is_stored, is_awaited;
    lru_threads_node *node;
    lru_entry entry;
    lru_told told;

    pthread_mutex_lock(&shard->lock);
    told = lru_bytes_begin(&shard->cache, key, length, hash, charge, false, &shard->gone);
    while (told.code == LRU_WAIT) {
        pthread_cond_wait(&shard->ended, &shard->lock);
        told = lru_cache_poll(&shard->cache, told.pin);
    }
    if (told.code == LRU_MAKE) {
        making.next = shard->makings;
        shard->makings = &making;
    }
    lru_threads_unlock(cache, shard, false);
    if (told.code == LRU_HIT)
        lru_threads_tell(told.pin, lru_threads_node_of(told.value), number, out);
    if (told.code != LRU_MAKE)
        return told.code;

    node = (lru_threads_node *)malloc(sizeof *node);
    is_made = node != NULL && lru_threads_make(maker, key, length, &node->value, &charge);
    /* Who waits took a pin, and lets go of the lock only to wait: so no wake-up is missed. */
    pthread_mutex_lock(&shard->lock);
    for (place = &shard->makings; *place != &making;)
        place = &(*place)->next;
    *place = making.next;
    is_stored =
        is_made && (maker->init != NULL
                        ? lru_cache_ready(&shard->cache, told.pin, (uintptr_t)node)
                        : lru_cache_ready_with(&shard->cache, told.pin, (uintptr_t)node, charge,
                                               false, &shard->gone)) == LRU_DONE;
    if (is_stored)
        is_awaited =
            lru_cache_entry(&shard->cache, told.pin, &entry) == LRU_DONE && entry.pins > 1;
    else
        is_awaited = lru_cache_fail(&shard->cache, told.pin) == LRU_LEFT;
    lru_threads_unlock(cache, shard, is_awaited);
    if (is_stored) {
        lru_threads_tell(told.pin, node, number, out);
        return LRU_HIT;
    }
    if (node == NULL)
        return LRU_MEMORY;
    if (is_made && cache->delete_value != NULL)
        cache->delete_value(cache->context, node->value);
    free(node);
    if (!is_made)
        return LRU_FAILED;
    return charge == 0 ? LRU_NO_CHARGE : LRU_OVERFLOW; /* the core refuses only a charge */
}

LRU_INLINE lru_code lru_threads_get_or_init(lru_threads *cache, const void *key, size_t length,
                                            uint64_t charge, lru_init init, void *context,
                                            lru_pinned *out) {
    lru_threads_maker maker = {init, NULL, context};
    return lru_threads_ask(cache, key, length, charge, &maker, out);
}

LRU_INLINE lru_code lru_threads_get_or_init_with(lru_threads *cache, const void *key, size_t length,
                                                 lru_init_with init, void *context,
                                                 lru_pinned *out) {
    lru_threads_maker maker = {NULL, init, context};
    return lru_threads_ask(cache, key, length, 1, &maker, out);
}

LRU_INLINE lru_code lru_threads_get(lru_threads *cache, const void *key, size_t length,
                                    lru_pinned *out) {
    uint64_t hash = lru_hash_bytes(key, length, cache->seed);
    size_t number = (size_t)lru_shard_of(hash, cache->count);
    lru_threads_shard *shard = &cache->shards[number];
    lru_told told;
    pthread_mutex_lock(&shard->lock);
    told = lru_bytes_get(&shard->cache, key, length, hash);
    pthread_mutex_unlock(&shard->lock);
    if (told.code == LRU_HIT)
        lru_threads_tell(told.pin, lru_threads_node_of(told.value), number, out);
    return told.code;
}

LRU_INLINE lru_code lru_threads_insert(lru_threads *cache, const void *key, size_t length,
                                       uint64_t charge, uint64_t value, lru_pinned *out) {
    uint64_t hash = lru_hash_bytes(key, length, cache->seed);
    size_t number = (size_t)lru_shard_of(hash, cache->count);
    lru_threads_shard *shard = &cache->shards[number];
    lru_threads_node *node = (lru_threads_node *)malloc(sizeof *node);
    lru_told told;
    if (node == NULL)
        return LRU_MEMORY;
    node->value = value;
    pthread_mutex_lock(&shard->lock);
    told = lru_bytes_insert(&shard->cache, key, length, hash, charge, (uintptr_t)node, false,
                            &shard->gone);
    lru_threads_unlock(cache, shard, false);
    if (told.code == LRU_DONE)
        lru_threads_tell(told.pin, node, number, out);
    else
        free(node);
    return told.code;
}

LRU_INLINE lru_code lru_threads_release(lru_threads *cache, const lru_pinned *pinned) {
    lru_threads_shard *shard;
    lru_code code;
    if (pinned->shard >= cache->count)
        return LRU_STALE;
    shard = &cache->shards[pinned->shard];
    pthread_mutex_lock(&shard->lock);
    code = lru_cache_release(&shard->cache, pinned->pin, &shard->gone);
    lru_threads_unlock(cache, shard, false);
    return code;
}

LRU_INLINE lru_code lru_threads_invalidate(lru_threads *cache, const void *key, size_t length) {
    uint64_t hash = lru_hash_bytes(key, length, cache->seed);
    lru_threads_shard *shard = &cache->shards[lru_shard_of(hash, cache->count)];
    lru_code code;
    pthread_mutex_lock(&shard->lock);
    code = lru_bytes_invalidate(&shard->cache, key, length, hash, &shard->gone);
    lru_threads_unlock(cache, shard, false);
    return code;
}

/* Room for the key of an entry, one after another. */
typedef struct lru_threads_room {
    void *bytes;
    size_t room, length;
} lru_threads_room;

/* False if there is no memory. */
static inline bool lru_threads_copy_key(lru_threads_shard *shard, lru_pin pin,
                                        lru_threads_room *key) {
    lru_told told = lru_bytes_key_of(&shard->cache, pin, key->bytes, key->room);
    if (told.code == LRU_NO_ROOM) {
        void *larger = realloc(key->bytes, (size_t)told.value);
        if (larger == NULL)
            return false;
        key->bytes = larger;
        key->room = (size_t)told.value;
        told = lru_bytes_key_of(&shard->cache, pin, key->bytes, key->room);
    }
    key->length = (size_t)told.value;
    return true;
}

/* Takes the values away that a predicate chooses, or all, if it is null, and adds their number to
 * `erased`. LRU_MEMORY: nothing has changed. The caller holds the lock. */
static inline lru_code lru_threads_erase(const lru_threads *cache, lru_threads_shard *shard,
                                         lru_predicate predicate, void *context, uint64_t *erased,
                                         lru_threads_node ***end) {
    size_t room = (size_t)lru_cache_len(&shard->cache).value, count = 0, chosen = 0, i;
    lru_entry *entries = (lru_entry *)malloc(room * sizeof *entries + 1);
    lru_threads_room key = {NULL, 0, 0};
    bool has_memory = entries != NULL;
    if (has_memory)
        count = (size_t)lru_cache_entries(&shard->cache, entries, room).value;
    for (i = 0; has_memory && i < count; i++) {
        uint64_t value = lru_threads_node_of(entries[i].value)->value;
        if (entries[i].is_detached)
            continue;
        has_memory = lru_threads_copy_key(shard, entries[i].pin, &key);
        if (has_memory && (predicate == NULL || predicate(context, key.bytes, key.length, value,
                                                          entries[i].charge)))
            entries[chosen++] = entries[i];
    }
    /* Now there is room for each of these keys. */
    for (i = 0; has_memory && i < chosen; i++) {
        lru_threads_copy_key(shard, entries[i].pin, &key);
        lru_bytes_invalidate(&shard->cache, key.bytes, key.length,
                             lru_hash_bytes(key.bytes, key.length, cache->seed), &shard->gone);
        lru_threads_take(shard, end);
        (*erased)++;
    }
    free(key.bytes);
    free(entries);
    return has_memory ? LRU_DONE : LRU_MEMORY;
}

LRU_INLINE lru_code lru_threads_clear(lru_threads *cache) {
    lru_code code = LRU_DONE;
    size_t i;
    for (i = 0; i < cache->count; i++) {
        lru_threads_shard *shard = &cache->shards[i];
        lru_threads_node *first = NULL, **end = &first;
        const lru_threads_making *making;
        uint64_t erased = 0;
        pthread_mutex_lock(&shard->lock);
        lru_cache_prune(&shard->cache, &shard->gone);
        lru_threads_take(shard, &end);
        if (lru_threads_erase(cache, shard, NULL, NULL, &erased, &end) != LRU_DONE)
            code = LRU_MEMORY;
        for (making = shard->makings; making != NULL; making = making->next)
            lru_bytes_invalidate(&shard->cache, making->key, making->length, making->hash,
                                 &shard->gone);
        pthread_mutex_unlock(&shard->lock);
        lru_threads_delete(cache, first);
    }
    return code;
}

LRU_INLINE lru_code lru_threads_erase_if(lru_threads *cache, lru_predicate predicate,
                                         void *context, uint64_t *erased) {
    lru_code code = LRU_DONE;
    size_t i;
    *erased = 0;
    for (i = 0; code == LRU_DONE && i < cache->count; i++) {
        lru_threads_shard *shard = &cache->shards[i];
        lru_threads_node *first = NULL, **end = &first;
        pthread_mutex_lock(&shard->lock);
        code = lru_threads_erase(cache, shard, predicate, context, erased, &end);
        pthread_mutex_unlock(&shard->lock);
        lru_threads_delete(cache, first);
    }
    return code;
}

LRU_INLINE void lru_threads_prune(lru_threads *cache) {
    size_t i;
    for (i = 0; i < cache->count; i++) {
        lru_threads_shard *shard = &cache->shards[i];
        pthread_mutex_lock(&shard->lock);
        lru_cache_prune(&shard->cache, &shard->gone);
        lru_threads_unlock(cache, shard, false);
    }
}

LRU_INLINE void lru_threads_set_capacity(lru_threads *cache, uint64_t capacity) {
    uint64_t share = lru_threads_share(capacity, cache->count);
    size_t i;
    for (i = 0; i < cache->count; i++) {
        lru_threads_shard *shard = &cache->shards[i];
        pthread_mutex_lock(&shard->lock);
        lru_cache_set_capacity(&shard->cache, share, &shard->gone);
        lru_threads_unlock(cache, shard, false);
    }
}

static inline void lru_threads_add(uint64_t *sum, uint64_t more) {
    *sum = more > UINT64_MAX - *sum ? UINT64_MAX : *sum + more;
}

LRU_INLINE void lru_threads_stats(lru_threads *cache, lru_stats *out) {
    size_t i;
    memset(out, 0, sizeof *out);
    for (i = 0; i < cache->count; i++) {
        lru_threads_shard *shard = &cache->shards[i];
        lru_stats more;
        memset(&more, 0, sizeof more);
        pthread_mutex_lock(&shard->lock);
        lru_cache_stats(&shard->cache, &more);
        pthread_mutex_unlock(&shard->lock);
        lru_threads_add(&out->hits, more.hits);
        lru_threads_add(&out->misses, more.misses);
        lru_threads_add(&out->waits, more.waits);
        lru_threads_add(&out->insertions, more.insertions);
        lru_threads_add(&out->evictions, more.evictions);
        lru_threads_add(&out->removals, more.removals);
        lru_threads_add(&out->entries, more.entries);
        lru_threads_add(&out->charge, more.charge);
        lru_threads_add(&out->pinned_charge, more.pinned_charge);
        lru_threads_add(&out->capacity, more.capacity);
    }
}

#ifdef __cplusplus
}
#endif

#endif
