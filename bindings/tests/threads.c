/* Tests the caches of lru_threads.h: what each call answers and deletes, with one thread; who waits
 * and is woken, with several; and that each value is deleted once while eight threads call. Prints
 * each failure, and exits with 1 if there is any. A call that waits for a lock that its own thread
 * holds ends the program after a minute.
 *
 * The linker puts the functions below before those of the C library (--wrap). */
#define _POSIX_C_SOURCE 200809L
#include <inttypes.h>
#include <stdatomic.h>
#include <stdio.h>
#include <string.h>
#include <unistd.h>

#include "lru_threads.h"

static atomic_int failures;

static void check(int line, uint64_t got, uint64_t wanted) {
    if (got == wanted)
        return;
    fprintf(stderr, "threads.c:%d: got %" PRIu64 ", wanted %" PRIu64 "\n", line, got, wanted);
    failures++;
}

#define CHECK(got, wanted) check(__LINE__, (uint64_t)(got), (uint64_t)(wanted))

/* ------------------------------------------------------------------ functions of the C library */

static unsigned refused; /* which request for memory is refused, counted down; 0 for none */
static bool has_no_random_numbers;
static atomic_uint broadcasts, locks;

void *__real_malloc(size_t size);
void *__real_calloc(size_t count, size_t size);
void *__real_realloc(void *block, size_t size);
ssize_t __real_getrandom(void *to, size_t size, unsigned flags);
int __real_pthread_cond_broadcast(pthread_cond_t *condition);
int __real_pthread_mutex_lock(pthread_mutex_t *lock);
void *__wrap_malloc(size_t size);
void *__wrap_calloc(size_t count, size_t size);
void *__wrap_realloc(void *block, size_t size);
ssize_t __wrap_getrandom(void *to, size_t size, unsigned flags);
int __wrap_pthread_cond_broadcast(pthread_cond_t *condition);
int __wrap_pthread_mutex_lock(pthread_mutex_t *lock);

static bool is_refused(void) { return refused > 0 && --refused == 0; }

void *__wrap_malloc(size_t size) { return is_refused() ? NULL : __real_malloc(size); }

void *__wrap_calloc(size_t count, size_t size) {
    return is_refused() ? NULL : __real_calloc(count, size);
}

void *__wrap_realloc(void *block, size_t size) {
    return is_refused() ? NULL : __real_realloc(block, size);
}

ssize_t __wrap_getrandom(void *to, size_t size, unsigned flags) {
    return has_no_random_numbers ? -1 : __real_getrandom(to, size, flags);
}

int __wrap_pthread_cond_broadcast(pthread_cond_t *condition) {
    broadcasts++;
    return __real_pthread_cond_broadcast(condition);
}

int __wrap_pthread_mutex_lock(pthread_mutex_t *lock) {
    locks++;
    return __real_pthread_mutex_lock(lock);
}

/* ------------------------------------------------------------------------------------- values */

enum { THREADS = 8, CALLS = 10000, KEYS = 100, MOST_VALUES = THREADS * CALLS };

/* A value is the number of an object. Its key is a number, as text. */
static struct object {
    unsigned key;
    atomic_int deletions;
} objects[MOST_VALUES];
static atomic_uint made;
static lru_threads *cache;
static atomic_uint last_deleted;

static uint64_t new_object(unsigned key) {
    unsigned number = made++;
    objects[number].key = key;
    return number;
}

/* Uses the cache, as it may. */
static void delete_object(void *context, uint64_t value) {
    lru_stats stats;
    CHECK(*(const char *)context, 'd');
    objects[value].deletions++;
    last_deleted = (unsigned)value;
    if (cache != NULL)
        lru_threads_stats(cache, &stats);
}

static lru_code try_open(uint64_t capacity, size_t shards) {
    static char context = 'd';
    return lru_threads_new(capacity, shards, delete_object, &context, &cache);
}

static void open_cache(uint64_t capacity, size_t shards) {
    CHECK(try_open(capacity, shards), LRU_DONE);
}

/* After this, each object was deleted once. */
static void close_cache(int line) {
    lru_threads *closed = cache;
    cache = NULL; /* no deleter may use it now */
    check(line, lru_threads_free(closed), LRU_DONE);
    for (; made > 0; made--) {
        check(line, (uint64_t)objects[made - 1].deletions, 1);
        objects[made - 1].deletions = 0;
    }
}

static lru_stats stats(void) {
    lru_stats told;
    lru_threads_stats(cache, &told);
    return told;
}

static size_t text_of(unsigned key, char *text) { return (size_t)sprintf(text, "%u", key); }

/* How a value is to be made. */
struct making {
    unsigned calls;
    bool fails;
    uint64_t waits;  /* how many callers to wait for, before the value is there */
    uint64_t charge; /* told with the value, if it is */
};

static bool make_object(void *context, const void *key, size_t length, uint64_t *value) {
    struct making *making = (struct making *)context;
    char text[12] = "";
    making->calls++;
    while (making->waits > stats().waits)
        sched_yield();
    if (making->fails)
        return false;
    memcpy(text, key, length);
    *value = new_object((unsigned)strtoul(text, NULL, 10));
    return true;
}

/* The same, with a charge that the cache does not know before. */
static bool make_with_charge(void *context, const void *key, size_t length, uint64_t *value,
                             uint64_t *charge) {
    *charge = ((const struct making *)context)->charge;
    return make_object(context, key, length, value);
}

static lru_code ask(unsigned key, uint64_t charge, struct making *making, lru_pinned *out) {
    char text[12];
    return lru_threads_get_or_init(cache, text, text_of(key, text), charge, make_object, making,
                                   out);
}

static lru_code ask_with(unsigned key, struct making *making, lru_pinned *out) {
    char text[12];
    return lru_threads_get_or_init_with(cache, text, text_of(key, text), make_with_charge, making,
                                        out);
}

static lru_code get(unsigned key, lru_pinned *out) {
    char text[12];
    return lru_threads_get(cache, text, text_of(key, text), out);
}

static lru_code insert(unsigned key, uint64_t charge, uint64_t value, lru_pinned *out) {
    char text[12];
    return lru_threads_insert(cache, text, text_of(key, text), charge, value, out);
}

static lru_code invalidate(unsigned key) {
    char text[12];
    return lru_threads_invalidate(cache, text, text_of(key, text));
}

static void release(const lru_pinned *pinned) {
    CHECK(lru_threads_release(cache, pinned), LRU_DONE);
}

/* Asks for a key, and gives the value back. */
static void use(unsigned key) {
    struct making making = {0};
    lru_pinned pinned;
    CHECK(ask(key, 1, &making, &pinned), LRU_HIT);
    CHECK(objects[pinned.value].key, key);
    release(&pinned);
}

/* ---------------------------------------------------------------------------------- one thread */

static void one_value(void) {
    struct making making = {0};
    lru_pinned one, other;
    open_cache(10, 1);
    CHECK(get(7, &one), LRU_MISSED);
    CHECK(ask(7, 4, &making, &one), LRU_HIT);
    CHECK(one.value, 0);
    CHECK(ask(7, 1, &making, &other), LRU_HIT);
    CHECK(making.calls, 1);
    CHECK(other.value, 0);
    CHECK(stats().pinned_charge, 4);
    release(&one);
    CHECK(stats().pinned_charge, 4);
    release(&other);
    CHECK(stats().pinned_charge, 0);
    CHECK(lru_threads_release(cache, &other), LRU_STALE);
    other.shard = 1; /* there is no such shard */
    CHECK(lru_threads_release(cache, &other), LRU_STALE);
    CHECK(get(7, &one), LRU_HIT);
    CHECK(one.value, 0);
    CHECK(lru_threads_free(cache), LRU_HELD);
    CHECK(objects[0].deletions, 0);
    release(&one);
    CHECK(stats().hits, 2);
    CHECK(stats().misses, 2);
    close_cache(__LINE__);
}

/* The charge is told with the value. */
static void charges(void) {
    struct making making = {.charge = 4}, refused_one = {0};
    lru_pinned pinned, other;
    open_cache(5, 1);
    use(1);
    use(2);
    CHECK(ask_with(3, &making, &pinned), LRU_HIT); /* with 4, one of the others has to leave */
    CHECK(making.calls, 1);
    CHECK(objects[pinned.value].key, 3);
    CHECK(objects[0].deletions, 1);
    CHECK(stats().charge, 5);
    CHECK(stats().pinned_charge, 4);
    CHECK(ask_with(3, &making, &other), LRU_HIT); /* is there, with its charge */
    CHECK(other.value, pinned.value);
    CHECK(making.calls, 1);
    release(&other);
    refused_one.fails = true;
    CHECK(ask_with(4, &refused_one, &other), LRU_FAILED);
    CHECK(objects[1].deletions, 1); /* with a charge of 1, it had no room beside that of 2 */
    refused_one.fails = false;
    CHECK(ask_with(4, &refused_one, &other), LRU_NO_CHARGE);
    refused_one.charge = UINT64_MAX;
    CHECK(ask_with(4, &refused_one, &other), LRU_OVERFLOW);
    CHECK(refused_one.calls, 3);
    CHECK(objects[3].deletions, 1); /* those that were refused */
    CHECK(objects[4].deletions, 1);
    CHECK(stats().removals, 3);
    CHECK(get(4, &other), LRU_MISSED);
    CHECK(lru_threads_get_or_init_with(cache, NULL, 1, make_with_charge, &making, &other),
          LRU_NULL_KEY);
    release(&pinned);
    CHECK(stats().entries, 1);
    close_cache(__LINE__);
}

static void eviction(void) {
    lru_pinned pinned;
    open_cache(3, 1);
    for (unsigned key = 0; key < 3; key++)
        use(key);
    use(0);
    use(3); /* evicts the value of 1, which was released longest ago */
    CHECK(last_deleted, 1);
    CHECK(objects[1].deletions, 1);
    CHECK(get(1, &pinned), LRU_MISSED);
    CHECK(get(2, &pinned), LRU_HIT);
    lru_threads_set_capacity(cache, 2); /* evicts that of 0, as the one of 2 is pinned */
    CHECK(last_deleted, 0);
    CHECK(stats().capacity, 2);
    lru_threads_set_capacity(cache, 10);
    use(4);
    use(3);
    lru_threads_prune(cache); /* first the value of 4 */
    CHECK(objects[4].deletions, 1);
    CHECK(last_deleted, 3);
    CHECK(stats().entries, 1);
    lru_threads_set_capacity(cache, 0);
    CHECK(objects[2].deletions, 0);
    release(&pinned); /* which is above the capacity */
    CHECK(objects[2].deletions, 1);
    CHECK(stats().evictions, 5);
    close_cache(__LINE__);
}

static void replacing(void) {
    lru_pinned old, new;
    open_cache(10, 1);
    use(5);
    CHECK(get(5, &old), LRU_HIT);
    CHECK(insert(5, 2, new_object(5), &new), LRU_DONE);
    CHECK(new.value, 1);
    CHECK(objects[0].deletions, 0); /* it is pinned */
    release(&old);
    CHECK(objects[0].deletions, 1);
    CHECK(insert(5, 0, 99, &old), LRU_NO_CHARGE);
    CHECK(get(5, &old), LRU_HIT);
    CHECK(old.value, 1);
    release(&old);
    CHECK(invalidate(5), LRU_DONE);
    CHECK(get(5, &old), LRU_MISSED);
    CHECK(objects[1].deletions, 0);
    release(&new);
    CHECK(objects[1].deletions, 1);
    CHECK(stats().entries, 0);
    use(5);
    CHECK(insert(5, 1, new_object(5), &new), LRU_DONE); /* deletes the old one, which is idle */
    CHECK(objects[2].deletions, 1);
    release(&new);
    CHECK(invalidate(5), LRU_DONE);
    CHECK(objects[3].deletions, 1);
    CHECK(invalidate(5), LRU_DONE);
    close_cache(__LINE__);
}

/* What a predicate was asked. */
struct asked {
    unsigned calls;
    uint64_t charges;
};

static bool is_even(void *context, const void *key, size_t length, uint64_t value,
                    uint64_t charge) {
    struct asked *asked = (struct asked *)context;
    char text[12] = "";
    memcpy(text, key, length);
    asked->calls++;
    asked->charges += charge;
    CHECK(strtoul(text, NULL, 10), objects[value].key);
    return objects[value].key % 2 == 0;
}

/* A predicate chooses the values that are taken away. */
static void erasing(void) {
    struct asked asked = {0};
    lru_pinned even, odd, replaced, found;
    uint64_t erased = 99;
    open_cache(100, 2);
    CHECK(lru_threads_erase_if(cache, is_even, &asked, &erased), LRU_DONE);
    CHECK(erased, 0);
    CHECK(asked.calls, 0);
    for (unsigned key = 1; key <= 10; key++)
        use(key);
    CHECK(get(4, &even), LRU_HIT);
    CHECK(get(5, &odd), LRU_HIT);
    CHECK(get(6, &replaced), LRU_HIT);
    CHECK(insert(6, 5, new_object(6), &found), LRU_DONE);
    CHECK(lru_threads_erase_if(cache, is_even, &asked, &erased), LRU_DONE);
    CHECK(erased, 5);
    CHECK(asked.calls, 10);
    CHECK(asked.charges, 9 + 5); /* without the one that the key does not find */
    for (unsigned key = 1; key <= 10; key++) {
        lru_pinned pinned;
        CHECK(get(key, &pinned), key % 2 == 0 ? LRU_MISSED : LRU_HIT);
        if (key % 2 == 1)
            release(&pinned);
    }
    CHECK(objects[even.value].deletions, 0);
    release(&even);
    CHECK(objects[even.value].deletions, 1);
    release(&odd);
    release(&found);
    release(&replaced);
    CHECK(stats().entries, 5);
    close_cache(__LINE__);
}

static void clearing(void) {
    lru_pinned pinned, cleared;
    open_cache(100, 2);
    CHECK(lru_threads_clear(cache), LRU_DONE);
    for (unsigned key = 1; key <= 10; key++)
        use(key);
    CHECK(get(4, &pinned), LRU_HIT);
    CHECK(lru_threads_clear(cache), LRU_DONE);
    CHECK(stats().entries, 1);
    CHECK(get(4, &cleared), LRU_MISSED);
    use(4); /* makes another one */
    CHECK(made, 11);
    CHECK(objects[pinned.value].deletions, 0);
    CHECK(lru_threads_clear(cache), LRU_DONE); /* the pinned one is not found any more */
    CHECK(stats().entries, 1);
    release(&pinned);
    CHECK(stats().entries, 0);
    close_cache(__LINE__);
}

/* Without memory, a predicate takes nothing away, and what is pinned may still be found. */
static void no_memory_to_erase(void) {
    struct asked asked = {0};
    lru_pinned pinned;
    uint64_t erased;
    open_cache(100, 1);
    use(2);
    CHECK(get(2, &pinned), LRU_HIT);
    for (unsigned requests = 1; requests <= 2; requests++) { /* the list, and room for the key */
        refused = requests;
        CHECK(lru_threads_erase_if(cache, is_even, &asked, &erased), LRU_MEMORY);
        CHECK(refused, 0);
        CHECK(erased, 0);
        use(3);
        refused = requests;
        CHECK(lru_threads_clear(cache), LRU_MEMORY);
        CHECK(refused, 0);
        CHECK(stats().entries, 1);
    }
    CHECK(asked.calls, 0);
    release(&pinned);
    CHECK(get(2, &pinned), LRU_HIT);
    release(&pinned);
    CHECK(lru_threads_clear(cache), LRU_DONE);
    CHECK(stats().entries, 0);
    close_cache(__LINE__);
}

static void refusals(void) {
    struct making making = {0};
    lru_pinned pinned;
    lru_threads *none = NULL;
    CHECK(lru_threads_new(10, 0, NULL, NULL, &none), LRU_NO_SHARDS);
    has_no_random_numbers = true;
    CHECK(lru_threads_new(10, 1, NULL, NULL, &none), LRU_NO_SEED);
    has_no_random_numbers = false;
    CHECK(none == NULL, true);
    open_cache(10, 1);
    CHECK(ask(1, 0, &making, &pinned), LRU_NO_CHARGE);
    CHECK(lru_threads_get_or_init(cache, NULL, 1, 1, make_object, &making, &pinned), LRU_NULL_KEY);
    CHECK(lru_threads_get(cache, NULL, 1, &pinned), LRU_NULL_KEY);
    CHECK(lru_threads_insert(cache, NULL, 1, 1, 99, &pinned), LRU_NULL_KEY);
    CHECK(lru_threads_invalidate(cache, NULL, 1), LRU_NULL_KEY);
    CHECK(making.calls, 0);
    CHECK(lru_threads_get(cache, NULL, 0, &pinned), LRU_MISSED);
    making.fails = true;
    use(2);
    CHECK(ask(1, 10, &making, &pinned), LRU_FAILED);
    CHECK(making.calls, 1);
    CHECK(objects[0].deletions, 1); /* its room was needed */
    CHECK(stats().entries, 0);
    making.fails = false;
    CHECK(ask(1, UINT64_MAX, &making, &pinned), LRU_HIT);
    CHECK(insert(2, 1, 99, &pinned), LRU_OVERFLOW);
    CHECK(get(1, &pinned), LRU_HIT);
    release(&pinned);
    release(&pinned);
    close_cache(__LINE__);
    /* values that need no deleter */
    CHECK(lru_threads_new(1, 1, NULL, NULL, &cache), LRU_DONE);
    CHECK(insert(1, 2, 99, &pinned), LRU_DONE);
    release(&pinned);
    CHECK(stats().entries, 0);
    close_cache(__LINE__);
}

/* Each request of a call for memory is refused in turn, on a new cache, until the call makes no
 * further one. What was refused has added nothing, and a value that was not taken is the caller's.
 * Returns how many requests were refused. */
static unsigned refuse(lru_code (*call)(lru_pinned *)) {
    for (unsigned requests = 1;; requests++) {
        lru_pinned pinned;
        lru_code code;
        open_cache(10, 1);
        use(1);
        refused = requests;
        code = call(&pinned);
        refused = 0;
        if (code != LRU_MEMORY) {
            release(&pinned);
            close_cache(__LINE__);
            return requests - 1;
        }
        CHECK(stats().entries, 1);
        CHECK(get(1, &pinned), LRU_HIT);
        CHECK(pinned.value, 0);
        release(&pinned);
        for (; made > 1; made--) /* the caller's */
            CHECK(objects[made - 1].deletions, 0);
        close_cache(__LINE__);
    }
}

static lru_code ask_for_two(lru_pinned *out) {
    struct making making = {0};
    lru_code code = ask(2, 1, &making, out);
    CHECK(making.calls, code == LRU_HIT ? 1 : 0);
    return code;
}

static lru_code insert_one(lru_pinned *out) { return insert(1, 1, new_object(1), out); }

static void no_memory(void) {
    lru_code code = LRU_MEMORY;
    unsigned requests;
    for (requests = 0; code == LRU_MEMORY; requests++) {
        refused = requests + 1;
        code = try_open(10, 2);
        refused = 0;
    }
    CHECK(code, LRU_DONE);
    CHECK(requests > 6, true); /* the cache, its shards, and in each the core's cache and chain */
    close_cache(__LINE__);
    CHECK(refuse(ask_for_two) > 1, true);
    CHECK(refuse(insert_one) > 1, true);
}

/* The shards of the keys depend on the seed, which is random. */
static void seeds(void) {
    lru_pinned pinned;
    size_t first[KEYS];
    unsigned same = 0;
    for (int run = 0; run < 2; run++) {
        open_cache(KEYS, 4);
        for (unsigned key = 0; key < KEYS; key++) {
            CHECK(insert(key, 1, new_object(key), &pinned), LRU_DONE);
            same += run == 1 && first[key] == pinned.shard;
            first[key] = pinned.shard;
            release(&pinned);
        }
        close_cache(__LINE__);
    }
    CHECK(same < KEYS, true);
}

static void shards(void) {
    open_cache(1000, 4);
    for (unsigned key = 0; key < KEYS; key++)
        use(key);
    for (unsigned key = 0; key < KEYS; key++)
        use(key);
    CHECK(stats().hits, KEYS);
    CHECK(stats().misses, KEYS);
    CHECK(stats().insertions, KEYS);
    CHECK(stats().entries, KEYS);
    CHECK(stats().charge, KEYS);
    CHECK(stats().capacity, 1000);
    lru_threads_set_capacity(cache, 9); /* 3 for each shard */
    CHECK(stats().capacity, 12);
    CHECK(stats().entries, 12);
    CHECK(stats().evictions, KEYS - 12);
    lru_threads_prune(cache);
    CHECK(stats().entries, 0);
    lru_threads_set_capacity(cache, UINT64_MAX);
    CHECK(stats().capacity, UINT64_MAX);
    close_cache(__LINE__);
}

#define CHECK_LOCKS(call, wanted)      \
    do {                               \
        unsigned before = locks;       \
        call;                          \
        CHECK(locks - before, wanted); \
    } while (0)

/* How often each call takes a lock: the archive is not instrumented, so no sanitizer is certain to
 * see that one is missing. No value is deleted meanwhile. */
static void locking(void) {
    struct making making = {0}, failing = {.fails = true};
    struct asked asked = {0};
    lru_pinned pinned[3];
    uint64_t erased;
    open_cache(100, 4);
    CHECK_LOCKS(get(1, &pinned[0]), 1);
    CHECK_LOCKS(ask(1, 1, &failing, &pinned[0]), 2 + 4); /* make_object takes those of all shards */
    CHECK_LOCKS(ask(1, 1, &making, &pinned[0]), 2 + 4);
    CHECK_LOCKS(ask(1, 1, &making, &pinned[1]), 1);
    CHECK_LOCKS(insert(2, 1, new_object(2), &pinned[2]), 1);
    CHECK_LOCKS(release(&pinned[0]), 1);
    CHECK_LOCKS(invalidate(2), 1);
    CHECK_LOCKS(lru_threads_prune(cache), 4);
    CHECK_LOCKS(lru_threads_erase_if(cache, is_even, &asked, &erased), 4);
    CHECK_LOCKS(lru_threads_set_capacity(cache, 200), 4);
    CHECK_LOCKS(stats(), 4);
    release(&pinned[1]);
    release(&pinned[2]);
    lru_threads_prune(cache);
    CHECK_LOCKS(lru_threads_clear(cache), 4);
    close_cache(__LINE__);
}

/* --------------------------------------------------------------------------------- threads wait */

struct caller {
    pthread_t thread;
    struct making making;
    lru_code code;
    lru_pinned pinned;
};

static void *ask_for_seven(void *at) {
    struct caller *caller = (struct caller *)at;
    caller->code = ask(7, 1, &caller->making, &caller->pinned);
    return NULL;
}

static void start(struct caller *caller) {
    CHECK(pthread_create(&caller->thread, NULL, ask_for_seven, caller), 0);
}

/* The others ask while the first makes the value, and so do threads that ask for other keys. */
static void waiting(bool fails) {
    struct caller callers[4] = {0}, last = {0};
    unsigned before, calls;
    open_cache(100, 1);
    callers[0].making.waits = 4; /* three callers, and the last one */
    callers[0].making.fails = fails;
    start(&callers[0]);
    while (stats().misses < 1)
        sched_yield();
    for (int i = 1; i < 4; i++)
        start(&callers[i]);
    while (stats().waits < 3)
        sched_yield();
    before = broadcasts;
    for (unsigned key = 10; key < 20; key++) {
        struct making failing = {.fails = true};
        lru_pinned pinned;
        use(key);
        CHECK(ask(30, 1, &failing, &pinned), LRU_FAILED);
    }
    CHECK(broadcasts, before); /* nobody waits for these */
    start(&last);
    for (int i = 0; i < 4; i++)
        CHECK(pthread_join(callers[i].thread, NULL), 0);
    CHECK(pthread_join(last.thread, NULL), 0);
    calls = last.making.calls;
    for (int i = 1; i < 4; i++) {
        CHECK(callers[i].code, LRU_HIT);
        CHECK(callers[i].pinned.value, last.pinned.value);
        CHECK(objects[callers[i].pinned.value].key, 7);
        release(&callers[i].pinned);
        calls += callers[i].making.calls;
    }
    CHECK(last.code, LRU_HIT);
    release(&last.pinned);
    CHECK(callers[0].code, fails ? LRU_FAILED : LRU_HIT);
    CHECK(calls, fails ? 1 : 0);
    if (!fails) {
        CHECK(callers[0].pinned.value, last.pinned.value);
        release(&callers[0].pinned);
    }
    CHECK(broadcasts - before, fails ? 2 : 1);
    CHECK(stats().pinned_charge, 0);
    close_cache(__LINE__);
}

/* The cache is cleared while a value is made: who waits for it gets it, and nobody later. */
static void clearing_what_is_made(void) {
    struct caller makers[2] = {{0}}, waiters[2] = {{0}};
    lru_pinned pinned;
    open_cache(100, 1);
    for (unsigned i = 0; i < 2; i++) {
        makers[i].making.waits = 2;
        start(&makers[i]);
        while (stats().misses < i + 1)
            sched_yield();
        start(&waiters[i]); /* once both wait, the makers go on */
        if (i == 1)
            break;
        while (stats().waits < 1)
            sched_yield();
        CHECK(lru_threads_clear(cache), LRU_DONE);
    }
    for (int i = 0; i < 2; i++) {
        CHECK(pthread_join(makers[i].thread, NULL), 0);
        CHECK(pthread_join(waiters[i].thread, NULL), 0);
        CHECK(makers[i].code, LRU_HIT);
        CHECK(waiters[i].code, LRU_HIT);
        CHECK(waiters[i].making.calls, 0);
        CHECK(waiters[i].pinned.value, makers[i].pinned.value);
    }
    CHECK(get(7, &pinned), LRU_HIT);
    CHECK(pinned.value, makers[1].pinned.value);
    CHECK(pinned.value == makers[0].pinned.value, false);
    release(&pinned);
    for (int i = 0; i < 2; i++) {
        release(&makers[i].pinned);
        release(&waiters[i].pinned);
    }
    CHECK(stats().entries, 1);
    close_cache(__LINE__);
}

/* --------------------------------------------------------------------------------------- stress */

static unsigned next_random(unsigned *state, unsigned end) {
    *state = *state * 1664525u + 1013904223u;
    return (*state >> 8) % end;
}

/* Takes many values away, in one way or another. */
static void take_away(unsigned key) {
    struct asked asked = {0};
    uint64_t erased;
    if (key % 3 == 0)
        lru_threads_prune(cache);
    else if (key % 3 == 1)
        CHECK(lru_threads_clear(cache), LRU_DONE);
    else
        CHECK(lru_threads_erase_if(cache, is_even, &asked, &erased), LRU_DONE);
}

/* Holds up to four values at a time. */
static void *stress_thread(void *at) {
    unsigned state = *(unsigned *)at;
    lru_pinned held[4];
    unsigned keys[4];
    bool is_held[4] = {false, false, false, false};
    for (unsigned call = 0; call < CALLS; call++) {
        unsigned key = next_random(&state, KEYS), slot = next_random(&state, 4);
        uint64_t charge = 1 + next_random(&state, 4);
        struct making making = {.fails = next_random(&state, 8) == 0, .charge = charge};
        unsigned kind = next_random(&state, 40);
        lru_code code = LRU_MISSED;
        if (is_held[slot]) {
            CHECK(objects[held[slot].value].key, keys[slot]);
            CHECK(objects[held[slot].value].deletions, 0);
            release(&held[slot]);
        }
        keys[slot] = key;
        if (kind == 0 && next_random(&state, 20) == 0)
            take_away(key);
        else if (kind == 1)
            lru_threads_set_capacity(cache, 64 + next_random(&state, 128));
        else if (kind == 2)
            CHECK(invalidate(key), LRU_DONE);
        else if (kind < 5)
            code = insert(key, charge, new_object(key), &held[slot]);
        else if (kind < 9)
            code = get(key, &held[slot]);
        else if (kind < 20)
            code = ask_with(key, &making, &held[slot]);
        else
            code = ask(key, charge, &making, &held[slot]);
        is_held[slot] = code == LRU_HIT || code == LRU_DONE;
        if (!is_held[slot])
            CHECK(code, making.calls > 0 ? LRU_FAILED : LRU_MISSED);
        if (making.calls > 0)
            CHECK(code, making.fails ? LRU_FAILED : LRU_HIT);
    }
    for (int slot = 0; slot < 4; slot++)
        if (is_held[slot])
            release(&held[slot]);
    return NULL;
}

static void stress(size_t shard_count) {
    pthread_t threads[THREADS];
    unsigned seeds[THREADS];
    open_cache(128, shard_count);
    for (unsigned i = 0; i < THREADS; i++) {
        seeds[i] = i + 1;
        CHECK(pthread_create(&threads[i], NULL, stress_thread, &seeds[i]), 0);
    }
    for (unsigned i = 0; i < THREADS; i++)
        CHECK(pthread_join(threads[i], NULL), 0);
    lru_stats told = stats();
    CHECK(told.pinned_charge, 0);
    CHECK(told.charge <= told.capacity, true);
    CHECK(told.insertions, told.entries + told.evictions + told.removals);
    CHECK(made > CALLS && told.removals > 0 && told.hits > 0, true);
    close_cache(__LINE__);
}

int main(void) {
    alarm(60);
    one_value();
    charges();
    eviction();
    replacing();
    erasing();
    clearing();
    no_memory_to_erase();
    refusals();
    no_memory();
    seeds();
    shards();
    locking();
    waiting(false);
    waiting(true);
    clearing_what_is_made();
    stress(1);
    stress(4);
    printf("threads in C: %d checks failed\n", (int)failures);
    return failures == 0 ? 0 : 1;
}
