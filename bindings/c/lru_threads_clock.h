/* lru_threads_clock.h - a clock of lru.h that threads share, with POSIX threads: its hits take no
 * lock.
 *
 * It has the calls of lru_threads.h, and is used in the same way:
 *
 *     static bool open_file(void *context, const void *path, size_t length, uint64_t *value);
 *     static void close_file(void *context, uint64_t value);
 *
 *     lru_threads_clock *files;
 *     if (lru_threads_clock_new(100, 16, close_file, NULL, &files) != LRU_DONE)
 *         return false;
 *
 *     lru_clock_pinned file;
 *     if (lru_threads_clock_get_or_init(files, path, length, 1, open_file, NULL, &file) != LRU_HIT)
 *         return false;
 *     use(file.value);
 *     lru_threads_clock_release(files, &file);
 *
 * Keys, values, charges, shards and what the caller must ensure are as lru_threads.h has them. This
 * differs:
 *
 *  - A call that finds a value takes no lock, nor does a release, unless a value has to leave. One
 *    that finds none takes the lock of the shard and looks again, as it may miss a value that is
 *    there while another thread changes the shard. So threads that mostly hit do not wait for each
 *    other, and one shard serves their hits as well as many. With several, those that miss contend
 *    less.
 *  - Values are evicted in about the order of their last uses, and not exactly: THE CLOCK of lru.h
 *    says how.
 *  - A value counts once it has been made: others are evicted for it then, and not before it is
 *    made. Its charge is that of the call that made it.
 *  - A caller that waits for a value makes one of its own if the key is taken away meanwhile, or if
 *    the value is evicted at once.
 *  - A release evicts down to the capacity if the total is above it, as there. But if another
 *    thread looks the value up at the same time, that may be left to the next call that adds a
 *    value.
 *  - Hits, misses and waits are not counted.
 *
 * READERS. Each thread that uses a cache has readers of its shards (lru_reader of lru.h). Its first
 * call on each shard opens one, with the lock, and when the thread ends, they are left to a later
 * one. If there is no memory for them, the thread's calls take the lock in their place, and do the
 * same. A cache may be passed to other source files and libraries; a library that has opened one is
 * not unloaded before the cache is freed.
 *
 * Link with -pthread. Less of the clock is proved than of the other cache, as lru.h says; this
 * header is tested. It tells ThreadSanitizer what the atomic instructions of the library order. */
#ifndef CONCURRENT_LRU_THREADS_CLOCK_H
#define CONCURRENT_LRU_THREADS_CLOCK_H

#include "lru_threads.h"

/* Where the C library tells whether there is only one thread. */
#ifdef __has_include
#if __has_include(<sys/single_threaded.h>)
#include <sys/single_threaded.h>
#define LRU_HAS_SINGLE_THREADED
#endif
#endif

#ifdef __cplusplus
extern "C" {
#endif

/* A value that a caller has pinned. It may be copied, and passed to other threads. */
typedef struct lru_clock_pinned {
    uint64_t value;
    uint32_t place; /* this and the next member are the library's */
    uint32_t shard;
} lru_clock_pinned;

/* A cache. Only the library uses its members. */
typedef struct lru_threads_clock lru_threads_clock;

/* Opens an empty cache, as lru_threads_new does. The caller frees it with lru_threads_clock_free.
 *
 * LRU_DONE; LRU_NO_SHARDS if `shards` is 0; LRU_OVERFLOW if it is above 2^32 - 1; LRU_NO_SEED;
 * LRU_MEMORY. */
LRU_INLINE lru_code lru_threads_clock_new(uint64_t capacity, size_t shards, lru_delete delete_value,
                                          void *context, lru_threads_clock **out);

/* Deletes all values, and frees the cache. No other call may be running. The function that deletes
 * values must not use this cache now.
 *
 * LRU_DONE; LRU_HELD: nothing has changed. */
LRU_INLINE lru_code lru_threads_clock_free(lru_threads_clock *cache);

/* Finds the value of a key and pins it. If there is none, calls `init(context, key, length, ..)` to
 * make it, and then evicts what has to leave for its charge. If another caller is making it, waits
 * for that. `charge` is the charge of a new value; one that exists, or that another caller has
 * begun to make, keeps its charge.
 *
 * If `init` fails, there is no value, and nothing was evicted for it. If others wait for the value,
 * one of them makes it, with its own `init` and charge.
 *
 * LRU_HIT: the value is pinned, and written to `out`; LRU_FAILED; LRU_NO_CHARGE if `charge` is 0,
 * even if the key has a value; LRU_NULL_KEY; LRU_OVERFLOW and LRU_MEMORY as lru_clock_begin. If the
 * cache refuses the value once it was made, it is deleted, and LRU_OVERFLOW or LRU_MEMORY comes
 * after `init`; other values may have been evicted for it. */
LRU_INLINE lru_code lru_threads_clock_get_or_init(lru_threads_clock *cache, const void *key,
                                                  size_t length, uint64_t charge, lru_init init,
                                                  void *context, lru_clock_pinned *out);

/* Does what lru_threads_clock_get_or_init does, for a charge that is not known before the value:
 * `init` writes both.
 *
 * The codes of lru_threads_clock_get_or_init, of which LRU_NO_CHARGE comes if `init` writes a
 * charge of 0: the value is deleted then, nothing is evicted for it, and one of those that wait
 * makes it. */
LRU_INLINE lru_code lru_threads_clock_get_or_init_with(lru_threads_clock *cache, const void *key,
                                                       size_t length, lru_init_with init,
                                                       void *context, lru_clock_pinned *out);

/* Finds the value of a key and pins it. Does not wait for a value. Takes the lock of the shard if
 * it finds none, to be sure.
 *
 * LRU_HIT: the value is written to `out`; LRU_MISSED, if there is none or it is still being made;
 * LRU_OVERFLOW if it has as many pins as it may have, about a billion; LRU_NULL_KEY. */
LRU_INLINE lru_code lru_threads_clock_get(lru_threads_clock *cache, const void *key, size_t length,
                                          lru_clock_pinned *out);

/* Gives a key a value, whatever it had before, and pins it. Who has pinned the old value keeps it.
 * A value that is being made for the key is its maker's alone, and those that wait for it get the
 * new one.
 *
 * LRU_DONE: the value is the cache's, and written to `out`; LRU_OVERFLOW, LRU_MEMORY and
 * LRU_NO_CHARGE as lru_clock_insert, and LRU_NULL_KEY: the key keeps its old value, and the new one
 * is the caller's still. */
LRU_INLINE lru_code lru_threads_clock_insert(lru_threads_clock *cache, const void *key,
                                             size_t length, uint64_t charge, uint64_t value,
                                             lru_clock_pinned *out);

/* Gives a pinned value back. Once nobody has it pinned, it is idle, and may be evicted. Each pin is
 * given back once: `pinned` is not written, and a second call may take the pin of another caller.
 * Takes the lock of the shard only if a value has to leave: this one, whose key was taken away, or
 * others, as the total is above the capacity.
 *
 * LRU_DONE; LRU_STALE if no pinned value is named. */
LRU_INLINE lru_code lru_threads_clock_release(lru_threads_clock *cache,
                                              const lru_clock_pinned *pinned);

/* Takes the value of a key away, so that the next caller that asks for the key makes a new one. Who
 * has pinned the old value keeps it. A value that is being made for the key is its maker's alone,
 * and those that wait for it make one of their own.
 *
 * LRU_DONE, also if there is none; LRU_NULL_KEY. */
LRU_INLINE lru_code lru_threads_clock_invalidate(lru_threads_clock *cache, const void *key,
                                                 size_t length);

/* Takes the values of all keys away, one shard after another, as lru_threads_clock_invalidate does
 * for one key: idle values leave at once, and those that are pinned with their last pins. What
 * other threads add meanwhile may stay.
 *
 * LRU_DONE; LRU_OVERFLOW if a value has as many pins as it may have: it may still be found. */
LRU_INLINE lru_code lru_threads_clock_clear(lru_threads_clock *cache);

/* Takes the values away, one shard after another, as lru_threads_clock_invalidate does, for which
 * `predicate(context, key, length, value, charge)` is true, and writes to `erased` how many they
 * are. It is called for each value that its key finds, in no particular order, and perhaps for some
 * whose key was taken away while they were pinned: for these, its answer does not matter. Values
 * that are being made stay.
 *
 * LRU_DONE; LRU_OVERFLOW if a value has as many pins as it may have: it stays. */
LRU_INLINE lru_code lru_threads_clock_erase_if(lru_threads_clock *cache, lru_predicate predicate,
                                               void *context, uint64_t *erased);

/* Evicts all idle values, one shard after another. */
LRU_INLINE void lru_threads_clock_prune(lru_threads_clock *cache);

/* Sets the capacity, and evicts the idle values that exceed it, one shard after another. */
LRU_INLINE void lru_threads_clock_set_capacity(lru_threads_clock *cache, uint64_t capacity);

/* Writes the sums of what lru_clock_stats tells of each shard; a sum above 2^64 - 1 stays there.
 * With several shards it is no snapshot while other threads call. */
LRU_INLINE void lru_threads_clock_stats(lru_threads_clock *cache, lru_clock_counts *out);

/* The total of the charges of the values that are pinned, or 2^64 - 1 if it is more. Takes time in
 * proportion to the greatest number of values that there were at once. No snapshot, as the
 * counts. */
LRU_INLINE uint64_t lru_threads_clock_pinned_charge(lru_threads_clock *cache);

/* ----------------------------------------------------------------------- how the calls are made */

/* Calls that few hits make, and that are not to make the others longer. */
#define LRU_RARE static __attribute__((cold, noinline, unused))

/* A thread that has a number, in the list of them. Its memory is the thread's own. It is numbered
 * for the caches that were opened by one source file, whose functions and variables these are: so
 * they need no names that a linker sees, and a library that is unloaded takes them with it. */
typedef struct lru_threads_number {
    bool is_numbered, is_ending;
    uint32_t number, chunk, lane; /* the last two: where a cache has the readers of this number */
    struct lru_threads_number *next;
} lru_threads_number;

/* The lanes of the first chunk, and the number of chunks: enough for twice as many threads as Linux
 * can have. */
enum { LRU_LANES = 8, LRU_CHUNKS = 20, LRU_READERS_IN_LINE = 64 / sizeof(lru_reader) };

static __thread lru_threads_number lru_threads_mine;

/* Whether there is a key that tells that a thread ends. The lock is for all of these. */
enum lru_threads_keys { LRU_NO_KEY_YET, LRU_HAS_KEY, LRU_KEY_DELETED };
static pthread_mutex_t lru_threads_numbers_lock = PTHREAD_MUTEX_INITIALIZER;
static enum lru_threads_keys lru_threads_keys;
static pthread_key_t lru_threads_key;
static lru_threads_number *lru_threads_numbers; /* in the order of the numbers */

/* A thread ends: the next one that begins to use a cache gets its number. */
LRU_RARE void lru_threads_give_back(void *at) {
    lru_threads_number *mine = (lru_threads_number *)at, **place = &lru_threads_numbers;
    pthread_mutex_lock(&lru_threads_numbers_lock);
    while (*place != mine)
        place = &(*place)->next;
    *place = mine->next;
    pthread_mutex_unlock(&lru_threads_numbers_lock);
    mine->is_numbered = false;
    mine->is_ending = true;
}

/* The program ends, or the library that has this code is unloaded. */
LRU_RARE void lru_threads_delete_key(void) {
    pthread_mutex_lock(&lru_threads_numbers_lock);
    pthread_key_delete(lru_threads_key);
    lru_threads_keys = LRU_KEY_DELETED;
    pthread_mutex_unlock(&lru_threads_numbers_lock);
}

/* Gives this thread the least number that no other one has, until it ends. Leaves it without if
 * that could not be told, or it is about to end. */
LRU_RARE void lru_threads_take_number(lru_threads_number *mine) {
    lru_threads_number **place = &lru_threads_numbers;
    uint32_t number = 0, chunk = 0;
    if (mine->is_ending)
        return;
    pthread_mutex_lock(&lru_threads_numbers_lock);
    if (lru_threads_keys == LRU_NO_KEY_YET &&
        pthread_key_create(&lru_threads_key, lru_threads_give_back) == 0) {
        if (atexit(lru_threads_delete_key) == 0)
            lru_threads_keys = LRU_HAS_KEY;
        else
            pthread_key_delete(lru_threads_key);
    }
    if (lru_threads_keys == LRU_HAS_KEY && pthread_setspecific(lru_threads_key, mine) == 0) {
        for (; *place != NULL && (*place)->number == number; place = &(*place)->next)
            number++;
        mine->number = number;
        mine->next = *place;
        *place = mine;
        for (; number >= (uint32_t)LRU_LANES << chunk; chunk++)
            number -= (uint32_t)LRU_LANES << chunk;
        mine->chunk = chunk;
        mine->lane = number;
        mine->is_numbered = chunk < LRU_CHUNKS;
    }
    pthread_mutex_unlock(&lru_threads_numbers_lock);
}

static inline const lru_threads_number *lru_threads_this_thread(void) {
    if (!lru_threads_mine.is_numbered)
        lru_threads_take_number(&lru_threads_mine);
    return &lru_threads_mine;
}

/* What the core stores for a value: it begins with the key, whose bytes follow it. */
typedef struct lru_threads_clock_node {
    lru_key key;
    uint64_t value;
    union {
        uint64_t charge;                     /* of a value in the cache */
        struct lru_threads_clock_node *next; /* of one that has left; the oldest is the first */
    } its;
} lru_threads_clock_node;

/* A value that is being made, in the list of its shard, the newest one first. Its memory is that of
 * the call. */
typedef struct lru_threads_clock_making {
    uint64_t hash;
    size_t length;
    bool is_awaited; /* a caller waits for its end */
    struct lru_threads_clock_making *next;
} lru_threads_clock_making;

typedef struct lru_threads_clock_shard {
    pthread_mutex_t lock;
    pthread_cond_t ended; /* a value was made, or not, that others wait for */
    lru_clock clock;
    lru_reader reader; /* for any thread that holds the lock */
    lru_threads_clock_making *makings;
    char apart[64]; /* no two shards share a cache line */
} lru_threads_clock_shard;

/* The readers of a thread, its lane, are in a chunk of lanes. Each chunk has twice as many as the
 * one before, and stays where it is. A call on a key reads the first members, and nothing else that
 * threads share, until it takes a lock: a call that takes one writes nothing beside them. */
struct lru_threads_clock {
    char before[64];
    const lru_threads_number *(*this_thread)(void);
    uint64_t seed;
    size_t count, stride; /* of the shards; from a lane to the next one, in readers */
    lru_reader *chunks[LRU_CHUNKS];
    lru_threads_clock_shard *shards;
    lru_delete delete_value;
    void *context;
    char after[64];
};

static inline lru_threads_clock_node *lru_threads_clock_node_of(uint64_t word) {
    return (lru_threads_clock_node *)(uintptr_t)word;
}

/* A node with a copy of a key, which is not null. Null if there is no memory. */
static inline lru_threads_clock_node *lru_threads_clock_node_new(const void *key, size_t length) {
    lru_threads_clock_node *node = (lru_threads_clock_node *)malloc(sizeof *node + length);
    if (node == NULL)
        return NULL;
    if (length > 0)
        memcpy(node + 1, key, length);
    node->key.bytes = node + 1;
    node->key.length = length;
    return node;
}

static inline void lru_threads_pause(void) {
#if defined(__x86_64__) || defined(__i386__)
    __builtin_ia32_pause();
#elif defined(__aarch64__)
    __asm__ __volatile__("isb");
#endif
}

/* Takes a lock that each holder keeps for less time than it takes to put a thread to sleep and to
 * wake it: tries it for a while, less and less often, before it sleeps. With one thread, glibc
 * locks without an atomic instruction, but does not try without one. */
static inline void lru_threads_clock_lock(lru_threads_clock_shard *shard) {
    int pauses, n;
#ifdef LRU_HAS_SINGLE_THREADED
    if (__libc_single_threaded) {
        pthread_mutex_lock(&shard->lock);
        return;
    }
#endif
    if (pthread_mutex_trylock(&shard->lock) == 0)
        return;
    for (pauses = 1; pauses <= 256; pauses *= 2) {
        for (n = 0; n < pauses; n++)
            lru_threads_pause();
        if (pthread_mutex_trylock(&shard->lock) == 0)
            return;
    }
    pthread_mutex_lock(&shard->lock);
}

/* The nodes that leave in a call, oldest first. */
typedef struct lru_threads_clock_gone {
    lru_threads_clock_node *first, *last;
} lru_threads_clock_gone;

static inline void lru_threads_clock_take(lru_threads_clock_gone *gone, const lru_left *left) {
    lru_threads_clock_node *node = lru_threads_clock_node_of(left->value);
    node->its.next = NULL;
    if (gone->first == NULL)
        gone->first = node;
    else
        gone->last->its.next = node;
    gone->last = node;
}

/* Evicts until there is room for another charge, or all that is left is pinned. */
static inline void lru_threads_clock_make_room(lru_threads_clock_shard *shard, uint64_t charge,
                                               lru_threads_clock_gone *gone) {
    lru_left left;
    while (lru_clock_make_room(&shard->clock, charge, &left) == LRU_GONE)
        lru_threads_clock_take(gone, &left);
}

static inline void lru_threads_clock_evict_idle(lru_threads_clock_shard *shard,
                                                lru_threads_clock_gone *gone) {
    lru_left left;
    uint32_t next = 0;
    while (lru_clock_prune(&shard->clock, &next, &left) == LRU_GONE)
        lru_threads_clock_take(gone, &left);
}

/* Lets go of the lock, wakes those that wait if some do, and then deletes what has left. */
static inline void lru_threads_clock_unlock(const lru_threads_clock *cache,
                                            lru_threads_clock_shard *shard, bool is_awaited,
                                            const lru_threads_clock_gone *gone) {
    lru_threads_clock_node *node = gone->first, *next;
    pthread_mutex_unlock(&shard->lock);
    if (is_awaited)
        pthread_cond_broadcast(&shard->ended);
    lru_after_acquire(&shard->clock); /* who gave a pin back */
    for (; node != NULL; node = next) {
        lru_after_acquire(node); /* who looked another key up, and found this one */
        next = node->its.next;
        if (cache->delete_value != NULL)
            cache->delete_value(cache->context, node->value);
        free(node);
    }
}

/* The value that is being made for a key, or null. If there are several, the others are older, and
 * the key was taken away from them. */
static inline lru_threads_clock_making *
lru_threads_clock_making_of(const lru_threads_clock_shard *shard, uint64_t hash, size_t length) {
    lru_threads_clock_making *making = shard->makings;
    while (making != NULL && (making->hash != hash || making->length != length))
        making = making->next;
    return making;
}

/* The key was taken away: nobody waits for a value that is being made for it any more. Whether
 * somebody did, and is to be woken. */
static inline bool lru_threads_clock_detach(lru_threads_clock_shard *shard, uint64_t hash,
                                            size_t length) {
    lru_threads_clock_making *making = lru_threads_clock_making_of(shard, hash, length);
    bool is_awaited = making != NULL && making->is_awaited;
    if (is_awaited)
        making->is_awaited = false;
    return is_awaited;
}

/* Opens a shard of zeros. False if that fails; it needs no closing then. */
static inline bool lru_threads_clock_open(lru_threads_clock_shard *shard, uint64_t capacity) {
    if (lru_clock_new(capacity, &shard->clock) != LRU_DONE)
        return false;
    if (lru_reader_new(&shard->clock, &shard->reader) == LRU_DONE) {
        if (pthread_mutex_init(&shard->lock, NULL) == 0) {
            if (pthread_cond_init(&shard->ended, NULL) == 0)
                return true;
            pthread_mutex_destroy(&shard->lock);
        }
        lru_reader_free(&shard->reader);
    }
    lru_clock_free(&shard->clock);
    return false;
}

LRU_INLINE lru_code lru_threads_clock_new(uint64_t capacity, size_t shards, lru_delete delete_value,
                                          void *context, lru_threads_clock **out) {
    lru_threads_clock *cache;
    if (shards == 0)
        return LRU_NO_SHARDS;
    if (shards > UINT32_MAX)
        return LRU_OVERFLOW;
    cache = (lru_threads_clock *)calloc(1, sizeof *cache);
    if (cache == NULL)
        return LRU_MEMORY;
    cache->this_thread = lru_threads_this_thread;
    cache->stride = shards + LRU_READERS_IN_LINE; /* no two lanes share a cache line */
    cache->delete_value = delete_value;
    cache->context = context;
    if (getrandom(&cache->seed, sizeof cache->seed, 0) != (ssize_t)sizeof cache->seed) {
        free(cache);
        return LRU_NO_SEED;
    }
    cache->shards = (lru_threads_clock_shard *)calloc(shards, sizeof *cache->shards);
    while (cache->count < shards) {
        if (cache->shards == NULL || !lru_threads_clock_open(&cache->shards[cache->count],
                                                             lru_threads_share(capacity, shards))) {
            lru_threads_clock_free(cache);
            return LRU_MEMORY;
        }
        cache->count++;
    }
    *out = cache;
    return LRU_DONE;
}

/* The number of readers in a chunk, with those before the first lane, which are never opened. */
static inline size_t lru_threads_clock_readers(const lru_threads_clock *cache, uint32_t chunk) {
    return LRU_READERS_IN_LINE + ((size_t)LRU_LANES << chunk) * cache->stride;
}

LRU_INLINE lru_code lru_threads_clock_free(lru_threads_clock *cache) {
    size_t i, reader;
    uint32_t chunk;
    for (i = 0; i < cache->count; i++)
        if (cache->shards[i].makings != NULL ||
            lru_clock_pinned_charge(&cache->shards[i].clock).value != 0)
            return LRU_HELD;
    for (chunk = 0; chunk < LRU_CHUNKS; chunk++) {
        lru_reader *readers = __atomic_load_n(&cache->chunks[chunk], __ATOMIC_ACQUIRE);
        if (readers == NULL)
            continue;
        for (reader = 0; reader < lru_threads_clock_readers(cache, chunk); reader++)
            lru_reader_free(&readers[reader]);
        free(readers);
    }
    for (i = 0; i < cache->count; i++) {
        lru_threads_clock_shard *shard = &cache->shards[i];
        lru_threads_clock_gone gone = {NULL, NULL};
        pthread_mutex_lock(&shard->lock);
        lru_threads_clock_evict_idle(shard, &gone);
        lru_reader_free(&shard->reader);
        lru_clock_free(&shard->clock);
        lru_threads_clock_unlock(cache, shard, false, &gone);
        pthread_cond_destroy(&shard->ended);
        pthread_mutex_destroy(&shard->lock);
    }
    free(cache->shards);
    free(cache);
    return LRU_DONE;
}

/* The chunk of lanes with a number, or null if there is no memory for it. */
LRU_RARE lru_reader *lru_threads_clock_add_chunk(lru_threads_clock *cache, uint32_t chunk) {
    lru_reader *other = NULL;
    lru_reader *readers =
        (lru_reader *)calloc(lru_threads_clock_readers(cache, chunk), sizeof *readers);
    if (readers == NULL || __atomic_compare_exchange_n(&cache->chunks[chunk], &other, readers,
                                                       false, __ATOMIC_ACQ_REL, __ATOMIC_ACQUIRE))
        return readers;
    free(readers);
    return other;
}

/* This thread's reader of a shard, which need not be open. Null if the thread has no number, or
 * there is no memory for its lane. */
static inline lru_reader *lru_threads_clock_reader(lru_threads_clock *cache, uint32_t shard) {
    const lru_threads_number *thread = cache->this_thread();
    lru_reader *readers;
    if (!thread->is_numbered)
        return NULL;
    readers = __atomic_load_n(&cache->chunks[thread->chunk], __ATOMIC_ACQUIRE);
    if (readers == NULL) {
        readers = lru_threads_clock_add_chunk(cache, thread->chunk);
        if (readers == NULL)
            return NULL;
    }
    return &readers[LRU_READERS_IN_LINE + thread->lane * cache->stride + shard];
}

/* Takes the lock, and opens a reader of the thread, unless it is null. If there is no memory for
 * it, the thread tries again with its next call. */
static inline void lru_threads_clock_enter(lru_threads_clock_shard *shard, lru_reader *closed) {
    lru_threads_clock_lock(shard);
    if (closed != NULL)
        lru_reader_new(&shard->clock, closed);
}

/* Looks for the value of a key without the lock, and may miss one while another thread writes.
 * Writes the thread's reader to `closed` if it was not open, and else null: to open one that is
 * open would write what all readers of the shard share. */
static inline lru_found lru_threads_clock_look(lru_threads_clock *cache, uint32_t shard,
                                               const void *key, size_t length, uint64_t hash,
                                               lru_reader **closed) {
    lru_reader *reader = lru_threads_clock_reader(cache, shard);
    lru_found found = {0, LRU_CLOSED, 0};
    if (reader != NULL)
        found = lru_reader_pin_bytes(reader, key, length, hash);
    *closed = found.code == LRU_CLOSED ? reader : NULL;
    return found;
}

/* The same with the lock, which misses none. */
LRU_RARE lru_found lru_threads_clock_find(lru_threads_clock_shard *shard, const void *key,
                                          size_t length, uint64_t hash, lru_reader *closed) {
    lru_found found;
    lru_threads_clock_enter(shard, closed);
    found = lru_clock_find_bytes(&shard->clock, &shard->reader, key, length, hash);
    pthread_mutex_unlock(&shard->lock);
    return found;
}

/* Writes a value that was pinned. */
static inline void lru_threads_clock_tell(lru_found found, uint32_t shard, lru_clock_pinned *out) {
    out->value = lru_threads_clock_node_of(found.value)->value;
    out->place = found.place;
    out->shard = shard;
}

LRU_INLINE lru_code lru_threads_clock_get(lru_threads_clock *cache, const void *key, size_t length,
                                          lru_clock_pinned *out) {
    uint64_t hash = lru_hash_bytes(key, length, cache->seed);
    uint32_t shard = (uint32_t)lru_shard_of(hash, cache->count);
    lru_reader *closed;
    lru_found found = lru_threads_clock_look(cache, shard, key, length, hash, &closed);
    if (found.code != LRU_HIT)
        found = lru_threads_clock_find(&cache->shards[shard], key, length, hash, closed);
    if (found.code == LRU_HIT)
        lru_threads_clock_tell(found, shard, out);
    return found.code;
}

/* Begins to make the value of a key, or finds it, after another caller has made it. */
static inline lru_found lru_threads_clock_begin(const lru_threads_clock *cache,
                                                lru_threads_clock_shard *shard, const void *key,
                                                size_t length, uint64_t charge, lru_reader *closed,
                                                lru_threads_clock_making *making) {
    lru_threads_clock_gone gone = {NULL, NULL};
    lru_found found;
    lru_left left;
    lru_threads_clock_enter(shard, closed);
    for (;;) {
        found = lru_clock_begin_bytes(&shard->clock, key, length, making->hash, charge, &left);
        if (found.code == LRU_GONE) {
            lru_threads_clock_take(&gone, &left);
        } else if (found.code == LRU_WAIT) {
            lru_threads_clock_making_of(shard, making->hash, length)->is_awaited = true;
            pthread_cond_wait(&shard->ended, &shard->lock);
        } else {
            break;
        }
    }
    if (found.code == LRU_MAKE) {
        making->next = shard->makings;
        shard->makings = making;
    }
    lru_threads_clock_unlock(cache, shard, false, &gone);
    return found;
}

/* Ends a making: stores a value, unless it is null, and pins it. */
static inline lru_found lru_threads_clock_end(const lru_threads_clock *cache,
                                              lru_threads_clock_shard *shard, uint64_t ticket,
                                              uint64_t charge, const lru_threads_clock_node *node,
                                              lru_threads_clock_making *making) {
    lru_threads_clock_gone gone = {NULL, NULL};
    lru_threads_clock_making **place = &shard->makings;
    lru_found found = {0, LRU_FAILED, 0};
    lru_threads_clock_lock(shard);
    if (node != NULL) {
        lru_threads_clock_make_room(shard, charge, &gone);
        found =
            lru_clock_ready_bytes(&shard->clock, ticket, making->hash, charge, &node->key, false);
        /* Who gave a pin back in between was not told that the total is above the capacity. */
        lru_threads_clock_make_room(shard, 0, &gone);
    } else {
        lru_clock_fail(&shard->clock, ticket);
    }
    while (*place != making)
        place = &(*place)->next;
    *place = making->next;
    lru_threads_clock_unlock(cache, shard, making->is_awaited, &gone);
    return found;
}

/* What lru_threads_clock_ask does if it finds no value without the lock. */
LRU_RARE lru_found lru_threads_clock_make(lru_threads_clock *cache, uint32_t number,
                                          const void *key, size_t length, uint64_t hash,
                                          uint64_t charge, const lru_threads_maker *maker,
                                          lru_reader *closed) {
    lru_threads_clock_shard *shard = &cache->shards[number];
    lru_threads_clock_making making = {hash, length, false, NULL};
    lru_threads_clock_node *node;
    bool is_made, is_stored;
    lru_found found = lru_threads_clock_begin(cache, shard, key, length, charge, closed, &making);
    if (found.code != LRU_MAKE)
        return found;
    node = lru_threads_clock_node_new(key, length);
    is_made = node != NULL && lru_threads_make(maker, key, length, &node->value, &charge);
    is_stored = is_made && charge != 0;
    if (is_stored)
        node->its.charge = charge;
    found =
        lru_threads_clock_end(cache, shard, found.value, charge, is_stored ? node : NULL, &making);
    if (found.code == LRU_DONE) {
        found.code = LRU_HIT;
        return found;
    }
    if (node == NULL)
        found.code = LRU_MEMORY;
    if (is_made && charge == 0)
        found.code = LRU_NO_CHARGE;
    if (is_made && cache->delete_value != NULL)
        cache->delete_value(cache->context, node->value);
    free(node);
    return found;
}

static inline lru_code lru_threads_clock_ask(lru_threads_clock *cache, const void *key,
                                             size_t length, uint64_t charge,
                                             const lru_threads_maker *maker,
                                             lru_clock_pinned *out) {
    uint64_t hash = lru_hash_bytes(key, length, cache->seed);
    uint32_t shard = (uint32_t)lru_shard_of(hash, cache->count);
    lru_reader *closed;
    lru_found found = lru_threads_clock_look(cache, shard, key, length, hash, &closed);
    if (found.code != LRU_HIT)
        found = lru_threads_clock_make(cache, shard, key, length, hash, charge, maker, closed);
    if (found.code == LRU_HIT)
        lru_threads_clock_tell(found, shard, out);
    return found.code;
}

LRU_INLINE lru_code lru_threads_clock_get_or_init(lru_threads_clock *cache, const void *key,
                                                  size_t length, uint64_t charge, lru_init init,
                                                  void *context, lru_clock_pinned *out) {
    lru_threads_maker maker = {init, NULL, context};
    if (charge == 0)
        return LRU_NO_CHARGE;
    return lru_threads_clock_ask(cache, key, length, charge, &maker, out);
}

LRU_INLINE lru_code lru_threads_clock_get_or_init_with(lru_threads_clock *cache, const void *key,
                                                       size_t length, lru_init_with init,
                                                       void *context, lru_clock_pinned *out) {
    lru_threads_maker maker = {NULL, init, context};
    return lru_threads_clock_ask(cache, key, length, 1, &maker, out);
}

LRU_INLINE lru_code lru_threads_clock_insert(lru_threads_clock *cache, const void *key,
                                             size_t length, uint64_t charge, uint64_t value,
                                             lru_clock_pinned *out) {
    uint64_t hash = lru_hash_bytes(key, length, cache->seed);
    uint32_t number = (uint32_t)lru_shard_of(hash, cache->count);
    lru_threads_clock_shard *shard = &cache->shards[number];
    lru_threads_clock_gone gone = {NULL, NULL};
    lru_threads_clock_node *node;
    bool is_stored, is_awaited;
    lru_found found;
    lru_left left;
    if (lru_key_is_null(key, length))
        return LRU_NULL_KEY;
    node = lru_threads_clock_node_new(key, length);
    if (node == NULL)
        return LRU_MEMORY;
    node->value = value;
    node->its.charge = charge;
    lru_threads_clock_lock(shard);
    do {
        found = lru_clock_insert_bytes(&shard->clock, hash, charge, &node->key, false, &left);
        if (found.code == LRU_GONE || found.code == LRU_REPLACED)
            lru_threads_clock_take(&gone, &left);
    } while (found.code == LRU_GONE);
    is_stored = found.code == LRU_DONE || found.code == LRU_REPLACED;
    is_awaited = is_stored && lru_threads_clock_detach(shard, hash, length);
    if (is_stored) {
        lru_threads_clock_make_room(shard, 0, &gone); /* as where a making ends */
        lru_threads_clock_tell(found, number, out);
    }
    lru_threads_clock_unlock(cache, shard, is_awaited, &gone);
    if (is_stored)
        return LRU_DONE;
    free(node);
    return found.code;
}

/* Ends a release that has answered with this code without the lock: gives the pin back if the
 * thread has no reader that is open, and takes out what has to leave. */
LRU_RARE lru_code lru_threads_clock_end_release(const lru_threads_clock *cache,
                                                const lru_clock_pinned *pinned, lru_code code,
                                                lru_reader *closed) {
    lru_threads_clock_shard *shard = &cache->shards[pinned->shard];
    lru_threads_clock_gone gone = {NULL, NULL};
    lru_left left;
    lru_threads_clock_enter(shard, closed);
    if (code == LRU_CLOSED)
        code = lru_reader_unpin(&shard->reader, pinned->place);
    if (code == LRU_LAST && lru_clock_collect(&shard->clock, pinned->place, &left) == LRU_GONE)
        lru_threads_clock_take(&gone, &left);
    if (code == LRU_ABOVE)
        lru_threads_clock_make_room(shard, 0, &gone);
    lru_threads_clock_unlock(cache, shard, false, &gone);
    return code == LRU_STALE ? LRU_STALE : LRU_DONE;
}

LRU_INLINE lru_code lru_threads_clock_release(lru_threads_clock *cache,
                                              const lru_clock_pinned *pinned) {
    lru_code code = LRU_CLOSED;
    lru_reader *reader;
    if (pinned->shard >= cache->count)
        return LRU_STALE;
    reader = lru_threads_clock_reader(cache, pinned->shard);
    lru_before_release(&cache->shards[pinned->shard].clock);
    if (reader != NULL)
        code = lru_reader_unpin(reader, pinned->place);
    if (code == LRU_DONE || code == LRU_STALE)
        return code;
    return lru_threads_clock_end_release(cache, pinned, code, code == LRU_CLOSED ? reader : NULL);
}

LRU_INLINE lru_code lru_threads_clock_invalidate(lru_threads_clock *cache, const void *key,
                                                 size_t length) {
    uint64_t hash = lru_hash_bytes(key, length, cache->seed);
    lru_threads_clock_shard *shard = &cache->shards[lru_shard_of(hash, cache->count)];
    lru_threads_clock_gone gone = {NULL, NULL};
    bool is_awaited;
    lru_left left;
    if (lru_key_is_null(key, length))
        return LRU_NULL_KEY;
    lru_threads_clock_lock(shard);
    if (lru_clock_erase_bytes(&shard->clock, length, hash, &left) == LRU_GONE)
        lru_threads_clock_take(&gone, &left);
    is_awaited = lru_threads_clock_detach(shard, hash, length);
    lru_threads_clock_unlock(cache, shard, is_awaited, &gone);
    return LRU_DONE;
}

/* Takes the value of a key away if it is at this place, where the caller has a pin. Returns whether
 * it was. Adds to `is_awaited` whether somebody is to be woken. */
static inline bool lru_threads_clock_erase_at(lru_threads_clock_shard *shard, uint32_t place,
                                              const lru_key *key, uint64_t hash,
                                              bool *is_awaited) {
    lru_left left; /* nothing leaves that is pinned */
    lru_found found =
        lru_clock_find_bytes(&shard->clock, &shard->reader, key->bytes, key->length, hash);
    if (found.code != LRU_HIT)
        return false;
    lru_reader_unpin(&shard->reader, found.place);
    if (found.place != place)
        return false;
    lru_clock_erase_bytes(&shard->clock, key->length, hash, &left);
    *is_awaited |= lru_threads_clock_detach(shard, hash, key->length);
    return true;
}

/* Takes the values away that a predicate chooses, or all, if it is null, and adds their number to
 * `erased`. Needs no memory. The caller holds the lock. */
static inline lru_code lru_threads_clock_erase(const lru_threads_clock *cache,
                                               lru_threads_clock_shard *shard,
                                               lru_predicate predicate, void *context,
                                               uint64_t *erased, bool *is_awaited,
                                               lru_threads_clock_gone *gone) {
    uint32_t places = (uint32_t)lru_clock_places(&shard->clock).value, place;
    lru_code code = LRU_DONE;
    lru_left left;
    for (place = 0; place < places; place++) {
        const lru_threads_clock_node *node;
        lru_found found = lru_reader_pin_at(&shard->reader, place);
        if (found.code == LRU_OVERFLOW)
            code = LRU_OVERFLOW;
        if (found.code != LRU_HIT)
            continue;
        node = lru_threads_clock_node_of(found.value);
        if (predicate == NULL || predicate(context, node->key.bytes, node->key.length, node->value,
                                           node->its.charge)) {
            uint64_t hash = lru_hash_bytes(node->key.bytes, node->key.length, cache->seed);
            *erased += lru_threads_clock_erase_at(shard, place, &node->key, hash, is_awaited);
        }
        if (lru_reader_unpin(&shard->reader, place) == LRU_LAST &&
            lru_clock_collect(&shard->clock, place, &left) == LRU_GONE)
            lru_threads_clock_take(gone, &left);
    }
    lru_threads_clock_make_room(shard, 0, gone); /* a pin was perhaps given back in between */
    return code;
}

LRU_INLINE lru_code lru_threads_clock_clear(lru_threads_clock *cache) {
    lru_code code = LRU_DONE;
    size_t i;
    for (i = 0; i < cache->count; i++) {
        lru_threads_clock_shard *shard = &cache->shards[i];
        lru_threads_clock_gone gone = {NULL, NULL};
        lru_threads_clock_making *making;
        bool is_awaited = false;
        uint64_t erased = 0;
        lru_left left;
        lru_threads_clock_lock(shard);
        if (lru_threads_clock_erase(cache, shard, NULL, NULL, &erased, &is_awaited, &gone) !=
            LRU_DONE)
            code = LRU_OVERFLOW;
        for (making = shard->makings; making != NULL; making = making->next) {
            if (lru_clock_erase_bytes(&shard->clock, making->length, making->hash, &left) ==
                LRU_GONE)
                lru_threads_clock_take(&gone, &left);
            is_awaited |= making->is_awaited;
            making->is_awaited = false;
        }
        lru_threads_clock_unlock(cache, shard, is_awaited, &gone);
    }
    return code;
}

LRU_INLINE lru_code lru_threads_clock_erase_if(lru_threads_clock *cache, lru_predicate predicate,
                                               void *context, uint64_t *erased) {
    lru_code code = LRU_DONE;
    size_t i;
    *erased = 0;
    for (i = 0; i < cache->count; i++) {
        lru_threads_clock_shard *shard = &cache->shards[i];
        lru_threads_clock_gone gone = {NULL, NULL};
        bool is_awaited = false;
        lru_threads_clock_lock(shard);
        if (lru_threads_clock_erase(cache, shard, predicate, context, erased, &is_awaited, &gone) !=
            LRU_DONE)
            code = LRU_OVERFLOW;
        lru_threads_clock_unlock(cache, shard, is_awaited, &gone);
    }
    return code;
}

LRU_INLINE void lru_threads_clock_prune(lru_threads_clock *cache) {
    size_t i;
    for (i = 0; i < cache->count; i++) {
        lru_threads_clock_shard *shard = &cache->shards[i];
        lru_threads_clock_gone gone = {NULL, NULL};
        lru_threads_clock_lock(shard);
        lru_threads_clock_evict_idle(shard, &gone);
        lru_threads_clock_unlock(cache, shard, false, &gone);
    }
}

LRU_INLINE void lru_threads_clock_set_capacity(lru_threads_clock *cache, uint64_t capacity) {
    uint64_t share = lru_threads_share(capacity, cache->count);
    size_t i;
    for (i = 0; i < cache->count; i++) {
        lru_threads_clock_shard *shard = &cache->shards[i];
        lru_threads_clock_gone gone = {NULL, NULL};
        lru_threads_clock_lock(shard);
        lru_clock_set_capacity(&shard->clock, share);
        lru_threads_clock_make_room(shard, 0, &gone);
        lru_threads_clock_unlock(cache, shard, false, &gone);
    }
}

LRU_INLINE void lru_threads_clock_stats(lru_threads_clock *cache, lru_clock_counts *out) {
    size_t i;
    memset(out, 0, sizeof *out);
    for (i = 0; i < cache->count; i++) {
        lru_threads_clock_shard *shard = &cache->shards[i];
        lru_clock_counts more;
        memset(&more, 0, sizeof more);
        lru_threads_clock_lock(shard);
        lru_clock_stats(&shard->clock, &more);
        pthread_mutex_unlock(&shard->lock);
        lru_threads_add(&out->makings, more.makings);
        lru_threads_add(&out->failures, more.failures);
        lru_threads_add(&out->insertions, more.insertions);
        lru_threads_add(&out->evictions, more.evictions);
        lru_threads_add(&out->entries, more.entries);
        lru_threads_add(&out->charge, more.charge);
        lru_threads_add(&out->capacity, more.capacity);
    }
}

LRU_INLINE uint64_t lru_threads_clock_pinned_charge(lru_threads_clock *cache) {
    uint64_t sum = 0;
    size_t i;
    for (i = 0; i < cache->count; i++) {
        lru_threads_clock_shard *shard = &cache->shards[i];
        lru_threads_clock_lock(shard);
        lru_threads_add(&sum, lru_clock_pinned_charge(&shard->clock).value);
        pthread_mutex_unlock(&shard->lock);
    }
    return sum;
}

#undef LRU_RARE

#ifdef __cplusplus
}
#endif

#endif
