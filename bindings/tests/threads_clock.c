/* Tests the clocks of lru_threads_clock.h: what each call answers and deletes, with one thread,
 * also among keys of one hash; what it does without memory; which locks it takes; who waits and is
 * woken, with several threads; which readers a thread has, from its first call to its end; and that
 * each value is deleted once, and none while it is pinned, while eight threads call. Prints each
 * failure, and exits with 1 if there is any. A call that waits for a lock that its own thread
 * holds, or that nobody wakes, ends the program after two minutes.
 *
 * The linker puts the functions below before those of the C library and of lru.h (--wrap). */
#define _POSIX_C_SOURCE 200809L
#include <inttypes.h>
#include <stdatomic.h>
#include <stdio.h>
#include <string.h>
#include <unistd.h>

#include "lru_threads_clock.h"
#include "threads_clock_too.h"

static atomic_int failures;

static void check(int line, uint64_t got, uint64_t wanted) {
    if (got == wanted)
        return;
    fprintf(stderr, "threads_clock.c:%d: got %" PRIu64 ", wanted %" PRIu64 "\n", line, got, wanted);
    failures++;
}

#define CHECK(got, wanted) check(__LINE__, (uint64_t)(got), (uint64_t)(wanted))

/* ------------------------------------------------------------------ functions of the C library */

static unsigned refused; /* which request for memory is refused, counted down; 0 for none */
static bool are_all_refused, has_no_random_numbers, has_no_keys, has_no_exit;
static bool is_seed_fixed;
static atomic_bool has_no_place; /* for what a thread keeps with a key */
static atomic_uint broadcasts, waits, locks, tries, missed, deleted_keys;
static atomic_int fails_to_try;     /* how many tries of a lock fail */
static atomic_uint misses_unlocked; /* how many look-ups without the lock find nothing */
static void (*before_calloc)(void); /* called once, if it is not null */
static void (*before_ready)(void);  /* the same; the lock is held */

void *__real_malloc(size_t size);
void *__real_calloc(size_t count, size_t size);
void *__real_realloc(void *block, size_t size);
ssize_t __real_getrandom(void *to, size_t size, unsigned flags);
int __real_atexit(void (*function)(void));
int __real_pthread_key_create(pthread_key_t *key, void (*ends)(void *));
int __real_pthread_key_delete(pthread_key_t key);
int __real_pthread_setspecific(pthread_key_t key, const void *value);
int __real_pthread_cond_broadcast(pthread_cond_t *condition);
int __real_pthread_cond_wait(pthread_cond_t *condition, pthread_mutex_t *lock);
int __real_pthread_mutex_lock(pthread_mutex_t *lock);
int __real_pthread_mutex_trylock(pthread_mutex_t *lock);
lru_found __real_lru_reader_pin(lru_reader *reader, uint64_t hash, uint64_t first, uint64_t second);
lru_found __real_lru_clock_ready(lru_clock *clock, uint64_t ticket, uint64_t hash, uint64_t charge,
                                 uint64_t value, bool strict);
void *__wrap_malloc(size_t size);
void *__wrap_calloc(size_t count, size_t size);
void *__wrap_realloc(void *block, size_t size);
ssize_t __wrap_getrandom(void *to, size_t size, unsigned flags);
int __wrap_atexit(void (*function)(void));
int __wrap_pthread_key_create(pthread_key_t *key, void (*ends)(void *));
int __wrap_pthread_key_delete(pthread_key_t key);
int __wrap_pthread_setspecific(pthread_key_t key, const void *value);
int __wrap_pthread_cond_broadcast(pthread_cond_t *condition);
int __wrap_pthread_cond_wait(pthread_cond_t *condition, pthread_mutex_t *lock);
int __wrap_pthread_mutex_lock(pthread_mutex_t *lock);
int __wrap_pthread_mutex_trylock(pthread_mutex_t *lock);
lru_found __wrap_lru_reader_pin(lru_reader *reader, uint64_t hash, uint64_t first, uint64_t second);
lru_found __wrap_lru_clock_ready(lru_clock *clock, uint64_t ticket, uint64_t hash, uint64_t charge,
                                 uint64_t value, bool strict);

static bool is_refused(void) { return are_all_refused || (refused > 0 && --refused == 0); }

static void call_once(void (**function)(void)) {
    void (*call)(void) = *function;
    if (call == NULL)
        return;
    *function = NULL;
    call();
}

void *__wrap_malloc(size_t size) { return is_refused() ? NULL : __real_malloc(size); }

void *__wrap_calloc(size_t count, size_t size) {
    call_once(&before_calloc);
    return is_refused() ? NULL : __real_calloc(count, size);
}

void *__wrap_realloc(void *block, size_t size) {
    return is_refused() ? NULL : __real_realloc(block, size);
}

ssize_t __wrap_getrandom(void *to, size_t size, unsigned flags) {
    if (is_seed_fixed)
        memset(to, 's', size);
    if (has_no_random_numbers || is_seed_fixed)
        return has_no_random_numbers ? -1 : (ssize_t)size;
    return __real_getrandom(to, size, flags);
}

int __wrap_atexit(void (*function)(void)) { return has_no_exit ? -1 : __real_atexit(function); }

int __wrap_pthread_key_create(pthread_key_t *key, void (*ends)(void *)) {
    return has_no_keys ? -1 : __real_pthread_key_create(key, ends);
}

int __wrap_pthread_key_delete(pthread_key_t key) {
    deleted_keys++;
    return __real_pthread_key_delete(key);
}

int __wrap_pthread_setspecific(pthread_key_t key, const void *value) {
    return has_no_place ? -1 : __real_pthread_setspecific(key, value);
}

int __wrap_pthread_cond_broadcast(pthread_cond_t *condition) {
    broadcasts++;
    return __real_pthread_cond_broadcast(condition);
}

/* Who waits is counted once it has told so: the caller holds the lock. */
int __wrap_pthread_cond_wait(pthread_cond_t *condition, pthread_mutex_t *lock) {
    waits++;
    return __real_pthread_cond_wait(condition, lock);
}

int __wrap_pthread_mutex_lock(pthread_mutex_t *lock) {
    locks += lock != &lru_threads_numbers_lock;
    return __real_pthread_mutex_lock(lock);
}

int __wrap_pthread_mutex_trylock(pthread_mutex_t *lock) {
    int code = fails_to_try > 0 ? 1 : __real_pthread_mutex_trylock(lock);
    tries++;
    if (fails_to_try > 0)
        fails_to_try--;
    locks += code == 0;
    return code;
}

lru_found __wrap_lru_reader_pin(lru_reader *reader, uint64_t hash, uint64_t first,
                                uint64_t second) {
    lru_found found = __real_lru_reader_pin(reader, hash, first, second);
    if (misses_unlocked > 0 && found.code == LRU_HIT) {
        misses_unlocked--;
        missed++;
        CHECK(lru_reader_unpin(reader, found.place), LRU_DONE);
        found.code = LRU_MISSED;
    }
    return found;
}

lru_found __wrap_lru_clock_ready(lru_clock *clock, uint64_t ticket, uint64_t hash, uint64_t charge,
                                 uint64_t value, bool strict) {
    call_once(&before_ready);
    return __real_lru_clock_ready(clock, ticket, hash, charge, value, strict);
}

/* ------------------------------------------------------------------------------------- values */

enum { THREADS = 8, CALLS = 10000, KEYS = 100, MOST_VALUES = THREADS * CALLS + KEYS };

/* A value is the number of an object. Its key is a number, as text. */
static struct object {
    unsigned key;
    atomic_int deletions;
} objects[MOST_VALUES];
static atomic_uint made, deletions;
static lru_threads_clock *cache;
static uint64_t deleted[MOST_VALUES]; /* in their order, with one thread */

static uint64_t new_object(unsigned key) {
    unsigned number = made++;
    objects[number].key = key;
    return number;
}

static lru_clock_counts stats(void) {
    lru_clock_counts told;
    lru_threads_clock_stats(cache, &told);
    return told;
}

/* Uses the cache, as it may. */
static void delete_object(void *context, uint64_t value) {
    CHECK(*(const char *)context, 'd');
    objects[value].deletions++;
    deleted[deletions++] = value;
    if (cache != NULL)
        stats();
}

static lru_code try_open(uint64_t capacity, size_t shards) {
    static char context = 'd';
    return lru_threads_clock_new(capacity, shards, delete_object, &context, &cache);
}

static void open_cache(uint64_t capacity, size_t shards) {
    CHECK(try_open(capacity, shards), LRU_DONE);
}

/* After this, each object was deleted once. */
static void close_cache(int line) {
    lru_threads_clock *closed = cache;
    cache = NULL; /* no deleter may use it now */
    check(line, lru_threads_clock_free(closed), LRU_DONE);
    check(line, deletions, made);
    for (; made > 0; made--) {
        check(line, (uint64_t)objects[made - 1].deletions, 1);
        objects[made - 1].deletions = 0;
    }
    deletions = 0;
}

static uint64_t pinned_charge(void) { return lru_threads_clock_pinned_charge(cache); }

static size_t text_of(unsigned key, char *text) { return (size_t)sprintf(text, "%u", key); }

/* How a value is to be made. */
struct making {
    unsigned calls;
    bool fails;
    unsigned waits;      /* how many callers to wait for, before the value is there */
    void (*after)(void); /* called then, if it is not null */
    uint64_t charge;     /* told with the value, if it is */
};

static bool make_object(void *context, const void *key, size_t length, uint64_t *value) {
    struct making *making = (struct making *)context;
    char text[12] = "";
    making->calls++;
    stats(); /* uses the cache, as it may */
    while (making->waits > waits)
        sched_yield();
    if (making->after != NULL)
        making->after();
    if (making->fails)
        return false;
    memcpy(text, key, length);
    *value = new_object((unsigned)strtoul(text, NULL, 10));
    return true;
}

/* The same, with a charge that the cache does not know before. */
static bool make_with_charge(void *context, const void *key, size_t length, uint64_t *value,
                             uint64_t *charge) {
    *charge = ((const struct making *)context)->charge;
    return make_object(context, key, length, value);
}

static lru_code ask(unsigned key, uint64_t charge, struct making *making, lru_clock_pinned *out) {
    char text[12];
    return lru_threads_clock_get_or_init(cache, text, text_of(key, text), charge, make_object,
                                         making, out);
}

static lru_code ask_with(unsigned key, struct making *making, lru_clock_pinned *out) {
    char text[12];
    return lru_threads_clock_get_or_init_with(cache, text, text_of(key, text), make_with_charge,
                                              making, out);
}

static lru_code get(unsigned key, lru_clock_pinned *out) {
    char text[12];
    return lru_threads_clock_get(cache, text, text_of(key, text), out);
}

static lru_code insert(unsigned key, uint64_t charge, uint64_t value, lru_clock_pinned *out) {
    char text[12];
    return lru_threads_clock_insert(cache, text, text_of(key, text), charge, value, out);
}

static lru_code invalidate(unsigned key) {
    char text[12];
    return lru_threads_clock_invalidate(cache, text, text_of(key, text));
}

static void release(const lru_clock_pinned *pinned) {
    CHECK(lru_threads_clock_release(cache, pinned), LRU_DONE);
}

/* Asks for a key, and gives the value back. */
static void use(unsigned key) {
    struct making making = {0};
    lru_clock_pinned pinned;
    CHECK(ask(key, 1, &making, &pinned), LRU_HIT);
    CHECK(objects[pinned.value].key, key);
    release(&pinned);
}

/* Whether a key has a value. */
static bool has(unsigned key) {
    lru_clock_pinned pinned;
    lru_code code = get(key, &pinned);
    if (code != LRU_HIT)
        CHECK(code, LRU_MISSED);
    else
        release(&pinned);
    return code == LRU_HIT;
}

/* Runs a function on another thread, to its end. */
static void on_a_thread(void *(*function)(void *), void *at) {
    pthread_t thread;
    CHECK(pthread_create(&thread, NULL, function, at), 0);
    CHECK(pthread_join(thread, NULL), 0);
}

/* ---------------------------------------------------------------------------------- one thread */

static void one_value(void) {
    struct making making = {0};
    lru_clock_pinned one, other, none;
    open_cache(10, 1);
    CHECK(get(7, &one), LRU_MISSED);
    CHECK(ask(7, 4, &making, &one), LRU_HIT);
    CHECK(one.value, 0);
    CHECK(ask(7, 1, &making, &other), LRU_HIT);
    CHECK(making.calls, 1);
    CHECK(other.value, 0);
    CHECK(pinned_charge(), 4);
    CHECK(stats().charge, 4);
    release(&one);
    CHECK(pinned_charge(), 4);
    release(&other);
    CHECK(pinned_charge(), 0);
    CHECK(lru_threads_clock_release(cache, &other), LRU_STALE);
    none = other;
    none.shard = 1; /* there is no such shard, and no such place */
    CHECK(lru_threads_clock_release(cache, &none), LRU_STALE);
    none.shard = 0;
    none.place = UINT32_MAX;
    CHECK(lru_threads_clock_release(cache, &none), LRU_STALE);
    CHECK(get(7, &one), LRU_HIT);
    CHECK(one.value, 0);
    CHECK(lru_threads_clock_free(cache), LRU_HELD);
    CHECK(deletions, 0);
    CHECK(get(7, &other), LRU_HIT); /* nothing has changed */
    release(&one);
    release(&other);
    CHECK(stats().makings, 1);
    CHECK(stats().insertions, 0);
    CHECK(stats().entries, 1);
    close_cache(__LINE__);
}

static void eviction(void) {
    lru_clock_pinned pinned[4];
    unsigned first;
    open_cache(3, 1);
    for (unsigned key = 0; key < 3; key++)
        use(key);
    CHECK(deletions, 0);
    CHECK(get(1, &pinned[0]), LRU_HIT);
    for (unsigned key = 10; key < 20; key++) {
        use(key);
        CHECK(has(key), true);
        CHECK(stats().charge, 3);
    }
    CHECK(deletions, 10);
    CHECK(has(1), true); /* as it is pinned */
    CHECK(objects[1].deletions, 0);
    lru_threads_clock_set_capacity(cache, 1);
    CHECK(stats().capacity, 1);
    CHECK(stats().entries, 1);
    CHECK(deletions, 12);
    lru_threads_clock_set_capacity(cache, 10);
    release(&pinned[0]);
    CHECK(deletions, 12);

    /* All that is idle leaves, and is deleted in that order: place by place. */
    for (unsigned key = 30; key < 32; key++) {
        CHECK(insert(key, 1, new_object(key), &pinned[key - 29]), LRU_DONE);
        release(&pinned[key - 29]);
    }
    first = pinned[1].place < pinned[2].place ? 30 : 31;
    CHECK(get(1, &pinned[0]), LRU_HIT);
    lru_threads_clock_prune(cache);
    CHECK(deletions, 14);
    CHECK(objects[deleted[12]].key, first);
    CHECK(objects[deleted[13]].key, 61 - first);
    CHECK(stats().entries, 1);

    /* A release above the capacity evicts, down to it and no further. */
    for (unsigned key = 40; key < 43; key++)
        CHECK(insert(key, 2, new_object(key), &pinned[key - 39]), LRU_DONE);
    lru_threads_clock_set_capacity(cache, 4);
    CHECK(stats().charge, 7);
    CHECK(deletions, 14);
    release(&pinned[2]);
    CHECK(stats().charge, 5);
    CHECK(objects[deleted[14]].key, 41);
    release(&pinned[1]);
    CHECK(stats().charge, 3);
    release(&pinned[3]);
    CHECK(stats().charge, 3);
    CHECK(deletions, 16);
    release(&pinned[0]);
    CHECK(stats().charge, 3);
    CHECK(stats().evictions, 16);
    close_cache(__LINE__);
}

/* Values of all charges leave for one, each of which is deleted. */
static void room_for_a_large_value(void) {
    struct making making = {0};
    lru_clock_pinned pinned;
    open_cache(10, 1);
    for (unsigned key = 0; key < 10; key++)
        use(key);
    CHECK(ask(20, 6, &making, &pinned), LRU_HIT);
    CHECK(stats().charge, 10);
    CHECK(deletions, 6);
    release(&pinned);
    CHECK(insert(21, 9, new_object(21), &pinned), LRU_DONE);
    CHECK(stats().charge <= 10, true);
    CHECK(pinned.value, 11);
    CHECK(has(21), true);
    release(&pinned);
    CHECK(has(21), true);
    CHECK(ask(22, 11, &making, &pinned), LRU_HIT); /* alone above the capacity */
    CHECK(stats().charge, 11);
    release(&pinned);
    CHECK(stats().charge, 0);
    close_cache(__LINE__);
}

static void replacing(void) {
    lru_clock_pinned old, new, other;
    open_cache(10, 1);
    use(5);
    CHECK(get(5, &old), LRU_HIT);
    CHECK(insert(5, 2, new_object(5), &new), LRU_DONE);
    CHECK(new.value, 1);
    CHECK(deletions, 0); /* it is pinned */
    CHECK(get(5, &other), LRU_HIT);
    CHECK(other.value, 1);
    release(&other);
    release(&old);
    CHECK(deletions, 1);
    CHECK(objects[0].deletions, 1);
    CHECK(insert(5, 0, 99, &old), LRU_NO_CHARGE);
    CHECK(get(5, &old), LRU_HIT);
    CHECK(old.value, 1);
    release(&old);
    CHECK(invalidate(5), LRU_DONE);
    CHECK(get(5, &old), LRU_MISSED);
    CHECK(deletions, 1);
    CHECK(stats().charge, 2);
    release(&new);
    CHECK(deletions, 2);
    CHECK(objects[1].deletions, 1);
    CHECK(stats().entries, 0);
    use(5);
    CHECK(insert(5, 1, new_object(5), &new), LRU_DONE); /* deletes the old one, which is idle */
    CHECK(objects[2].deletions, 1);
    release(&new);
    use(6);
    CHECK(invalidate(5), LRU_DONE);
    CHECK(objects[3].deletions, 1);
    CHECK(invalidate(5), LRU_DONE);
    CHECK(has(6), true);
    CHECK(stats().makings, 3);
    CHECK(stats().insertions, 2);
    CHECK(stats().evictions, 4);
    close_cache(__LINE__);
}

/* Another call takes out a value before its last holder does, and its place is used again. */
/* What a predicate was asked. */
struct asked {
    unsigned calls;
    uint64_t charges;
};

static bool is_even(void *context, const void *key, size_t length, uint64_t value,
                    uint64_t charge) {
    struct asked *asked = (struct asked *)context;
    char text[12] = "";
    memcpy(text, key, length);
    asked->calls++;
    asked->charges += charge;
    CHECK(strtoul(text, NULL, 10), objects[value].key);
    return objects[value].key % 2 == 0;
}

/* A predicate chooses the values that are taken away. */
static void erasing(void) {
    struct asked asked = {0};
    lru_clock_pinned even, odd, replaced, found;
    uint64_t erased = 99;
    open_cache(100, 2);
    CHECK(lru_threads_clock_erase_if(cache, is_even, &asked, &erased), LRU_DONE);
    CHECK(erased, 0);
    CHECK(asked.calls, 0);
    for (unsigned key = 1; key <= 10; key++)
        use(key);
    CHECK(get(4, &even), LRU_HIT);
    CHECK(get(5, &odd), LRU_HIT);
    CHECK(get(6, &replaced), LRU_HIT);
    CHECK(insert(6, 5, new_object(6), &found), LRU_DONE);
    are_all_refused = true; /* it needs no memory */
    CHECK(lru_threads_clock_erase_if(cache, is_even, &asked, &erased), LRU_DONE);
    are_all_refused = false;
    CHECK(erased, 5);
    CHECK(asked.calls, 11); /* also for the one that the key does not find */
    CHECK(asked.charges, 10 + 5);
    for (unsigned key = 1; key <= 10; key++)
        CHECK(has(key), key % 2 == 1);
    CHECK(deletions, 3);
    CHECK(objects[even.value].deletions, 0);
    release(&even);
    CHECK(objects[even.value].deletions, 1);
    release(&odd);
    release(&found);
    CHECK(objects[found.value].deletions, 1);
    release(&replaced);
    CHECK(objects[replaced.value].deletions, 1);
    CHECK(stats().entries, 5);
    close_cache(__LINE__);
}

static void clearing(void) {
    lru_clock_pinned pinned;
    open_cache(100, 2);
    CHECK(lru_threads_clock_clear(cache), LRU_DONE);
    for (unsigned key = 1; key <= 10; key++)
        use(key);
    CHECK(get(4, &pinned), LRU_HIT);
    are_all_refused = true; /* it needs no memory */
    CHECK(lru_threads_clock_clear(cache), LRU_DONE);
    are_all_refused = false;
    CHECK(stats().entries, 1);
    CHECK(deletions, 9);
    CHECK(has(4), false);
    use(4); /* makes another one */
    CHECK(made, 11);
    CHECK(lru_threads_clock_clear(cache), LRU_DONE); /* the pinned one is not found any more */
    CHECK(stats().entries, 1);
    CHECK(objects[pinned.value].deletions, 0);
    release(&pinned);
    CHECK(stats().entries, 0);
    close_cache(__LINE__);
}

static void a_place_is_used_again(void) {
    lru_clock_pinned old, new;
    open_cache(10, 1);
    use(1);
    CHECK(get(1, &old), LRU_HIT);
    CHECK(invalidate(1), LRU_DONE);
    CHECK(lru_reader_unpin(&cache->shards[0].reader, old.place), LRU_LAST);
    lru_threads_clock_prune(cache);
    CHECK(deletions, 1);
    CHECK(insert(2, 1, new_object(2), &new), LRU_DONE);
    CHECK(new.place, old.place);
    release(&new);
    CHECK(lru_threads_clock_end_release(cache, &old, LRU_LAST, NULL), LRU_DONE);
    CHECK(deletions, 1);
    CHECK(has(2), true);
    close_cache(__LINE__);
}

static void refusals(void) {
    struct making making = {0};
    lru_clock_pinned pinned, large;
    lru_threads_clock *none = NULL;
    CHECK(lru_threads_clock_new(10, 0, NULL, NULL, &none), LRU_NO_SHARDS);
    CHECK(lru_threads_clock_new(10, (size_t)1 << 32, NULL, NULL, &none), LRU_OVERFLOW);
    has_no_random_numbers = true;
    CHECK(lru_threads_clock_new(10, 1, NULL, NULL, &none), LRU_NO_SEED);
    has_no_random_numbers = false;
    CHECK(none == NULL, true);
    open_cache(10, 1);
    CHECK(ask(1, 0, &making, &pinned), LRU_NO_CHARGE);
    CHECK(lru_threads_clock_get_or_init(cache, NULL, 1, 1, make_object, &making, &pinned),
          LRU_NULL_KEY);
    CHECK(lru_threads_clock_get(cache, NULL, 1, &pinned), LRU_NULL_KEY);
    CHECK(lru_threads_clock_insert(cache, NULL, 1, 1, 99, &pinned), LRU_NULL_KEY);
    CHECK(lru_threads_clock_invalidate(cache, NULL, 1), LRU_NULL_KEY);
    CHECK(making.calls, 0);

    /* an empty key is one */
    CHECK(lru_threads_clock_get(cache, NULL, 0, &pinned), LRU_MISSED);
    CHECK(lru_threads_clock_insert(cache, NULL, 0, 1, new_object(0), &pinned), LRU_DONE);
    release(&pinned);
    CHECK(lru_threads_clock_get(cache, "", 0, &pinned), LRU_HIT);
    CHECK(pinned.value, 0);
    release(&pinned);
    CHECK(lru_threads_clock_invalidate(cache, NULL, 0), LRU_DONE);
    CHECK(deletions, 1);

    /* what cannot be made: nothing leaves for it */
    making.fails = true;
    use(2);
    CHECK(ask(2, 0, &making, &pinned), LRU_NO_CHARGE);
    CHECK(ask(1, 10, &making, &pinned), LRU_FAILED);
    CHECK(making.calls, 1);
    CHECK(deletions, 1);
    CHECK(stats().entries, 1);
    CHECK(stats().failures, 1);
    making.fails = false;
    CHECK(ask(1, 10, &making, &pinned), LRU_HIT);
    CHECK(making.calls, 2);
    CHECK(deletions, 2);
    release(&pinned);

    /* a sum above 2^64 - 1 */
    lru_threads_clock_prune(cache);
    CHECK(insert(3, UINT64_MAX, new_object(3), &large), LRU_DONE);
    CHECK(ask(4, 1, &making, &pinned), LRU_OVERFLOW);
    CHECK(making.calls, 2);
    CHECK(insert(4, 1, 99, &pinned), LRU_OVERFLOW);
    CHECK(insert(3, 1, 99, &pinned), LRU_OVERFLOW);
    CHECK(get(3, &pinned), LRU_HIT);
    CHECK(pinned.value, large.value);
    release(&pinned);
    release(&large);
    CHECK(stats().entries, 0);
    close_cache(__LINE__);

    /* values that need no deleter */
    CHECK(lru_threads_clock_new(1, 1, NULL, NULL, &cache), LRU_DONE);
    CHECK(insert(1, 2, 99, &pinned), LRU_DONE);
    CHECK(pinned.value, 99);
    release(&pinned);
    CHECK(stats().entries, 0);
    close_cache(__LINE__);
}

/* The charge is told with the value. */
static void charges(void) {
    struct making making = {.charge = 4}, refused_one = {0};
    lru_clock_pinned pinned, other;
    open_cache(5, 1);
    use(1);
    use(2);
    CHECK(ask_with(3, &making, &pinned), LRU_HIT); /* with 4, one of the others has to leave */
    CHECK(making.calls, 1);
    CHECK(objects[pinned.value].key, 3);
    CHECK(deletions, 1);
    CHECK(stats().charge, 5);
    CHECK(pinned_charge(), 4);
    CHECK(ask_with(3, &making, &other), LRU_HIT); /* is there, with its charge */
    CHECK(other.value, pinned.value);
    CHECK(making.calls, 1);
    release(&other);
    refused_one.fails = true;
    CHECK(ask_with(4, &refused_one, &other), LRU_FAILED);
    refused_one.fails = false;
    CHECK(ask_with(4, &refused_one, &other), LRU_NO_CHARGE);
    CHECK(deletions, 2); /* no other value has left for it */
    CHECK(objects[3].deletions, 1);
    CHECK(stats().entries, 2);
    refused_one.charge = UINT64_MAX;
    CHECK(ask_with(4, &refused_one, &other), LRU_OVERFLOW);
    CHECK(refused_one.calls, 3);
    CHECK(objects[4].deletions, 1);
    CHECK(stats().failures, 3);
    CHECK(has(4), false);
    CHECK(lru_threads_clock_get_or_init_with(cache, NULL, 1, make_with_charge, &making, &other),
          LRU_NULL_KEY);
    release(&pinned);
    close_cache(__LINE__);
}

/* What a maker finds when it comes with its value. */
static lru_clock_pinned from_maker;

static void insert_a_large_one(void) {
    lru_threads_clock_prune(cache);
    CHECK(insert(1, UINT64_MAX, new_object(1), &from_maker), LRU_DONE);
}

/* A value for which no number is left once it was made. It is deleted, and others are made. */
static void a_made_value_is_refused(void) {
    struct making making = {.after = insert_a_large_one};
    lru_clock_pinned pinned;
    open_cache(10, 1);
    use(3);
    CHECK(ask(2, 1, &making, &pinned), LRU_OVERFLOW);
    CHECK(making.calls, 1);
    CHECK(deletions, 2);
    CHECK(objects[0].deletions, 1);
    CHECK(objects[2].deletions, 1);
    release(&from_maker);
    CHECK(deletions, 3);
    use(2);
    CHECK(stats().entries, 1);
    CHECK(stats().failures, 1);
    close_cache(__LINE__);
}

/* Values leave before a new one is stored, and not after: so the core never has places for more
 * than there is room for, wherever its tables end. */
static void room_is_made_first(void) {
    for (unsigned capacity = 1; capacity < KEYS; capacity++) {
        uint64_t places;
        open_cache(capacity, 1);
        for (unsigned key = 0; key < capacity; key++)
            use(key);
        places = lru_clock_places(&cache->shards[0].clock).value;
        use(KEYS);
        use(KEYS + 1);
        CHECK(lru_clock_places(&cache->shards[0].clock).value, places);
        CHECK(deletions, 2);
        close_cache(__LINE__);
    }
}

/* A pin is given back just before a value is stored for which all others were pinned. */
static lru_clock_pinned given_back;

static void give_one_back(void) { release(&given_back); }

static void a_release_beside_a_miss(void) {
    struct making making = {0};
    lru_clock_pinned pinned, other;
    open_cache(2, 1);
    CHECK(insert(1, 1, new_object(1), &given_back), LRU_DONE);
    CHECK(insert(2, 1, new_object(2), &other), LRU_DONE);
    before_ready = give_one_back;
    CHECK(ask(3, 1, &making, &pinned), LRU_HIT);
    CHECK(before_ready == NULL, true);
    CHECK(stats().charge, 2);
    CHECK(deletions, 1);
    CHECK(objects[0].deletions, 1);
    release(&pinned);
    release(&other);
    CHECK(deletions, 1);
    close_cache(__LINE__);
}

/* Keys of 16 bytes with one hash: what the first word changes, the second takes back. */
static void keys_of_one_hash(uint64_t seed, uint64_t keys[3][2]) {
    uint64_t first = lru_hash_multiply(0x13198a2e03707344 ^ seed, 0x94d049bb133111eb ^ 32);
    for (uint64_t i = 0; i < 3; i++) {
        keys[i][0] = i;
        keys[i][1] = lru_hash_multiply(first ^ i, 0x9e3779b97f4a7c05);
        CHECK(lru_hash_bytes(keys[i], 16, seed), lru_hash_bytes(keys[0], 16, seed));
    }
}

static bool make_by_number(void *context, const void *key, size_t length, uint64_t *value) {
    uint64_t number;
    CHECK(length, 16);
    memcpy(&number, key, 8);
    *(unsigned *)context += 1;
    *value = new_object((unsigned)number);
    return true;
}

/* Such keys have one entry, of the key that was stored last. */
static void equal_hashes(void) {
    uint64_t keys[3][2];
    lru_clock_pinned one, two, again;
    unsigned calls = 0;
    is_seed_fixed = true;
    open_cache(100, 4);
    keys_of_one_hash(cache->seed, keys);
    CHECK(lru_threads_clock_insert(cache, keys[0], 16, 1, new_object(0), &one), LRU_DONE);
    CHECK(lru_threads_clock_get(cache, keys[1], 16, &two), LRU_MISSED);
    CHECK(pinned_charge(), 1);
    release(&one);
    CHECK(lru_threads_clock_get(cache, keys[1], 16, &two), LRU_MISSED);
    CHECK(pinned_charge(), 0);
    CHECK(deletions, 0);

    /* One that is idle leaves for another one. */
    CHECK(lru_threads_clock_get_or_init(cache, keys[1], 16, 1, make_by_number, &calls, &two),
          LRU_HIT);
    CHECK(calls, 1);
    CHECK(objects[two.value].key, 1);
    CHECK(deletions, 1);
    CHECK(objects[0].deletions, 1);
    CHECK(lru_threads_clock_get(cache, keys[0], 16, &one), LRU_MISSED);

    /* One that is pinned stays for its holder. */
    CHECK(lru_threads_clock_get_or_init(cache, keys[2], 16, 1, make_by_number, &calls, &one),
          LRU_HIT);
    CHECK(calls, 2);
    CHECK(objects[one.value].key, 2);
    CHECK(deletions, 1);
    CHECK(lru_threads_clock_get(cache, keys[2], 16, &again), LRU_HIT);
    CHECK(again.value, one.value);
    release(&again);
    release(&two);
    CHECK(deletions, 2);
    CHECK(objects[1].deletions, 1);
    release(&one);
    CHECK(lru_threads_clock_insert(cache, keys[0], 16, 1, new_object(0), &one), LRU_DONE);
    CHECK(deletions, 3);
    release(&one);
    CHECK(lru_threads_clock_invalidate(cache, keys[1], 16), LRU_DONE);
    CHECK(deletions, 4);
    close_cache(__LINE__);
    is_seed_fixed = false;
}

/* A key is not found by another one that begins with it, or is as long. */
static void keys_of_bytes(void) {
    static const struct {
        const char *bytes;
        size_t length;
    } keys[] = {{"", 0},
                {"\0", 1},
                {"\0\0", 2},
                {"a", 1},
                {"a\0", 2},
                {"ab", 2},
                {"ba", 2},
                {"abcdefgh", 8},
                {"abcdefghi", 9},
                {"0123456789abcdef0123456789abcdef0", 33},
                {"0123456789abcdef0123456789abcdef1", 33}};
    enum { COUNT = sizeof keys / sizeof keys[0] };
    lru_clock_pinned pinned;
    char copy[40];
    open_cache(100, 4);
    for (unsigned i = 0; i < COUNT; i++) {
        CHECK(lru_threads_clock_get(cache, keys[i].bytes, keys[i].length, &pinned), LRU_MISSED);
        memcpy(copy, keys[i].bytes, keys[i].length);
        CHECK(lru_threads_clock_insert(cache, copy, keys[i].length, 1, new_object(i), &pinned),
              LRU_DONE);
        memset(copy, 'x', sizeof copy); /* the cache has a copy of its own */
        release(&pinned);
    }
    CHECK(stats().entries, COUNT);
    for (unsigned i = 0; i < COUNT; i++) {
        CHECK(lru_threads_clock_get(cache, keys[i].bytes, keys[i].length, &pinned), LRU_HIT);
        CHECK(objects[pinned.value].key, i);
        release(&pinned);
    }
    close_cache(__LINE__);
}

/* A look-up without the lock may miss a value, and then finds it with the lock. */
static void misses_without_the_lock(void) {
    struct making making = {0};
    lru_clock_pinned pinned;
    open_cache(10, 1);
    use(1);
    missed = 0;
    misses_unlocked = 1;
    CHECK(get(1, &pinned), LRU_HIT);
    CHECK(pinned.value, 0);
    release(&pinned);
    misses_unlocked = 1;
    CHECK(ask(1, 1, &making, &pinned), LRU_HIT);
    CHECK(pinned.value, 0);
    release(&pinned);
    CHECK(missed, 2);
    CHECK(making.calls, 0);
    CHECK(pinned_charge(), 0);
    close_cache(__LINE__);
}

/* -------------------------------------------------------------------------------------- memory */

static lru_code ask_for_two(lru_clock_pinned *out) {
    struct making making = {0};
    lru_code code = ask(2, 1, &making, out);
    CHECK(code == LRU_HIT || code == LRU_MEMORY, true);
    CHECK(making.calls, code == LRU_HIT ? 1 : 0);
    return code;
}

/* More values than fit, for which the core grows its tables. */
enum { MANY = 150 };
static unsigned refused_values; /* how many were made, and then refused */

static lru_code ask_for_many(lru_clock_pinned *out) {
    lru_code code = LRU_HIT;
    for (unsigned key = 2; key < 2 + MANY && code == LRU_HIT; key++) {
        struct making making = {0};
        code = ask(key, 1, &making, out);
        if (code != LRU_HIT)
            refused_values += making.calls;
        else if (key < 1 + MANY)
            release(out);
    }
    return code;
}

static lru_code insert_one(lru_clock_pinned *out) {
    uint64_t value = new_object(1);
    lru_code code = insert(1, 1, value, out);
    if (code == LRU_DONE)
        return code;
    /* the caller's still */
    CHECK(objects[value].deletions, 0);
    made--;
    return code;
}

static lru_code insert_many(lru_clock_pinned *out) {
    lru_code code = LRU_DONE;
    for (unsigned key = 2; key < 2 + MANY && code == LRU_DONE; key++) {
        uint64_t value = new_object(key);
        code = insert(key, 1, value, out);
        if (code != LRU_DONE) {
            CHECK(objects[value].deletions, 0);
            made--;
        } else if (key < 1 + MANY) {
            release(out);
        }
    }
    return code;
}

/* Each request of a call for memory is refused in turn, on a new cache, until the call makes no
 * further one. What was refused has added nothing, and a value that was not taken is the caller's,
 * or was deleted if the cache had it made. Returns how often the call was refused. */
static unsigned refuse(lru_code (*call)(lru_clock_pinned *)) {
    unsigned refusals = 0;
    for (unsigned requests = 1;; requests++) {
        lru_clock_pinned pinned;
        lru_code code;
        bool was_made;
        open_cache(MANY - 10, 1);
        CHECK(insert(1, 1, new_object(1), &pinned), LRU_DONE);
        release(&pinned);
        refused = requests;
        code = call(&pinned);
        was_made = refused == 0;
        refused = 0;
        if (code == LRU_MEMORY) {
            CHECK(was_made, true);
            CHECK(stats().makings + stats().insertions, stats().entries + stats().evictions);
            CHECK(get(1, &pinned), stats().evictions > 0 ? LRU_MISSED : LRU_HIT);
            if (stats().evictions == 0) {
                CHECK(pinned.value, 0);
                release(&pinned);
            }
            CHECK(pinned_charge(), 0);
            use(2);
            refusals++;
        } else {
            CHECK(code == LRU_HIT || code == LRU_DONE, true);
            release(&pinned);
        }
        close_cache(__LINE__);
        if (!was_made)
            return refusals;
    }
}

/* Leaves the threads without readers, as if they had not called yet. */
static void forget_readers(void) {
    size_t count = lru_threads_clock_readers(cache, 0);
    for (size_t i = 0; i < count; i++)
        lru_reader_free(&cache->chunks[0][i]);
    free(cache->chunks[0]);
    cache->chunks[0] = NULL;
}

/* The first calls of a thread on a cache, without memory for its readers: they take the lock. */
static void no_readers(void) {
    struct making making = {0};
    lru_clock_pinned pinned, held;
    open_cache(10, 1);
    use(1);
    CHECK(get(1, &held), LRU_HIT);
    forget_readers();
    for (unsigned round = 0; round < 2; round++) {
        unsigned before = locks;
        /* first there is no memory for the lane, and then for the reader in it */
        CHECK(round == 0 || lru_threads_clock_reader(cache, 0) != NULL, true);
        are_all_refused = true;
        CHECK(get(1, &pinned), LRU_HIT);
        CHECK(pinned.value, 0);
        CHECK(lru_threads_clock_release(cache, &pinned), LRU_DONE);
        CHECK(ask(1, 1, &making, &pinned), LRU_HIT);
        CHECK(lru_threads_clock_release(cache, &pinned), LRU_DONE);
        CHECK(get(2, &pinned), LRU_MISSED);
        CHECK(ask(2, 1, &making, &pinned), LRU_MEMORY);
        CHECK(making.calls, 0);
        CHECK(insert(2, 1, 99, &pinned), LRU_MEMORY);
        CHECK(lru_threads_clock_release(cache, &held), LRU_DONE);
        CHECK(lru_threads_clock_release(cache, &held), LRU_STALE);
        CHECK(get(1, &held), LRU_HIT);
        CHECK(locks - before, 10);
        are_all_refused = false;
    }

    /* The last pin of a value above the capacity, and that of one whose key was taken away. */
    are_all_refused = true;
    CHECK(get(1, &pinned), LRU_HIT);
    lru_threads_clock_set_capacity(cache, 0);
    release(&held);
    CHECK(deletions, 0);
    release(&pinned);
    CHECK(deletions, 1);
    are_all_refused = false;
    lru_threads_clock_set_capacity(cache, 10);
    use(3);
    CHECK(get(3, &held), LRU_HIT);
    forget_readers();
    are_all_refused = true;
    CHECK(invalidate(3), LRU_DONE);
    release(&held);
    CHECK(deletions, 2);
    are_all_refused = false;
    use(4);
    close_cache(__LINE__);
}

static void no_memory(void) {
    lru_code code = LRU_MEMORY;
    unsigned requests;
    for (requests = 0; code == LRU_MEMORY; requests++) {
        refused = requests + 1;
        code = try_open(10, 2);
        refused = 0;
    }
    CHECK(code, LRU_DONE);
    CHECK(requests > 6, true); /* the cache, its shards, and in each a clock and a reader */
    close_cache(__LINE__);
    CHECK(refuse(ask_for_two), 2); /* the making, and the value with its key */
    CHECK(refuse(insert_one), 1);
    CHECK(refuse(ask_for_many) > MANY + 1, true);
    CHECK(refused_values > 0, true);
    CHECK(refuse(insert_many) > MANY, true);
    no_readers();
}

/* -------------------------------------------------------------------------- shards and locks */

/* The shards of the keys depend on the seed, which is random. */
static void seeds(void) {
    lru_clock_pinned pinned;
    uint32_t first[KEYS];
    unsigned same = 0, in_shard[4] = {0};
    for (int run = 0; run < 2; run++) {
        open_cache(KEYS, 4);
        for (unsigned key = 0; key < KEYS; key++) {
            CHECK(insert(key, 1, new_object(key), &pinned), LRU_DONE);
            same += run == 1 && first[key] == pinned.shard;
            first[key] = pinned.shard;
            in_shard[pinned.shard]++;
            release(&pinned);
        }
        close_cache(__LINE__);
    }
    CHECK(same < KEYS, true);
    for (int shard = 0; shard < 4; shard++)
        CHECK(in_shard[shard] > 0, true);
}

static void shards(void) {
    lru_clock_pinned pinned;
    open_cache(1000, 4);
    for (unsigned key = 0; key < KEYS; key++)
        use(key);
    for (unsigned key = 0; key < KEYS; key++)
        use(key);
    for (unsigned key = 0; key < KEYS; key++) {
        struct making failing = {.fails = true};
        CHECK(insert(KEYS + key, 2, new_object(KEYS + key), &pinned), LRU_DONE);
        release(&pinned);
        CHECK(ask(2 * KEYS + key, 1, &failing, &pinned), LRU_FAILED);
    }
    CHECK(stats().makings, KEYS);
    CHECK(stats().insertions, KEYS);
    CHECK(stats().failures, KEYS);
    CHECK(stats().evictions, 0);
    CHECK(stats().entries, 2 * KEYS);
    CHECK(stats().charge, 3 * KEYS);
    CHECK(stats().capacity, 1000);
    lru_threads_clock_prune(cache);
    CHECK(stats().entries, 0);
    for (unsigned key = 0; key < KEYS; key++)
        use(key);
    lru_threads_clock_set_capacity(cache, 9); /* 3 for each shard */
    CHECK(stats().capacity, 12);
    CHECK(stats().entries, 12);
    CHECK(stats().evictions, 3 * KEYS - 12);
    lru_threads_clock_set_capacity(cache, UINT64_MAX);
    CHECK(stats().capacity, UINT64_MAX);
    close_cache(__LINE__);

    /* the pinned charge is that of all shards, and stays at the greatest number */
    open_cache(UINT64_MAX, 4);
    lru_clock_pinned held[KEYS];
    for (unsigned key = 0; key < KEYS; key++)
        CHECK(insert(key, key + 1, new_object(key), &held[key]), LRU_DONE);
    CHECK(pinned_charge(), KEYS * (KEYS + 1) / 2);
    for (unsigned key = 0; key < KEYS; key++)
        release(&held[key]);
    CHECK(pinned_charge(), 0);
    unsigned large = 0;
    uint32_t taken[4] = {0};
    for (unsigned key = 0; key < KEYS; key++) {
        CHECK(insert(key, UINT64_MAX / 2, new_object(key), &held[large]), LRU_DONE);
        if (taken[held[large].shard]++ == 0)
            large++;
        else
            release(&held[large]);
    }
    CHECK(large, 4);
    CHECK(pinned_charge(), UINT64_MAX);
    CHECK(lru_threads_clock_free(cache), LRU_HELD);
    while (large > 0)
        release(&held[--large]);
    close_cache(__LINE__);
}

#define CHECK_LOCKS(call, wanted)      \
    do {                               \
        unsigned before = locks;       \
        call;                          \
        CHECK(locks - before, wanted); \
    } while (0)

/* How often each call takes a lock: the archive is not instrumented, so no sanitizer is certain to
 * see that one is missing. A value is made without one, and make_object takes those of all shards,
 * and so does delete_object. */
static void locking(void) {
    struct making making = {0}, failing = {.fails = true};
    struct asked asked = {0};
    lru_clock_pinned pinned[4];
    unsigned key, shard;
    uint64_t erased;
    open_cache(100, 4);
    /* the first call of the thread on a shard opens its reader, with the lock; a release too */
    CHECK_LOCKS(get(1, &pinned[0]), 1);
    CHECK_LOCKS(get(1, &pinned[0]), 1);
    CHECK(insert(1, 1, new_object(1), &pinned[0]), LRU_DONE);
    CHECK_LOCKS(release(&pinned[0]), 0);
    CHECK_LOCKS(get(1, &pinned[0]), 0);
    CHECK_LOCKS(release(&pinned[0]), 0);
    CHECK_LOCKS(invalidate(1), 1 + 4);
    for (key = 2, shard = pinned[0].shard; shard == pinned[0].shard; key++) {
        CHECK(insert(key, 1, new_object(key), &pinned[1]), LRU_DONE);
        shard = pinned[1].shard;
        CHECK_LOCKS(release(&pinned[1]), shard == pinned[0].shard ? 0 : 1);
    }
    key--;
    CHECK_LOCKS(get(key, &pinned[1]), 0);
    CHECK_LOCKS(release(&pinned[1]), 0);
    lru_threads_clock_prune(cache);

    CHECK_LOCKS(ask(key, 1, &failing, &pinned[0]), 2 + 4);
    CHECK_LOCKS(ask(key, 1, &making, &pinned[0]), 2 + 4);
    CHECK_LOCKS(ask(key, 1, &making, &pinned[1]), 0); /* a hit */
    CHECK_LOCKS(get(key, &pinned[2]), 0);
    CHECK_LOCKS(release(&pinned[2]), 0);
    CHECK_LOCKS(get(key + 100, &pinned[2]), 1);
    CHECK_LOCKS(insert(key, 1, new_object(key), &pinned[2]), 1);
    CHECK_LOCKS(release(&pinned[0]), 0);
    CHECK_LOCKS(release(&pinned[1]), 1 + 4); /* the last one of a value that was replaced */
    CHECK_LOCKS(release(&pinned[2]), 0);
    CHECK_LOCKS(invalidate(key + 100), 1);
    CHECK_LOCKS(lru_threads_clock_set_capacity(cache, 200), 4);
    CHECK_LOCKS(stats(), 4);
    CHECK_LOCKS(pinned_charge(), 4);
    CHECK_LOCKS(lru_threads_clock_prune(cache), 4 + 4);
    CHECK_LOCKS(lru_threads_clock_prune(cache), 4);
    CHECK_LOCKS(lru_threads_clock_erase_if(cache, is_even, &asked, &erased), 4);
    CHECK_LOCKS(lru_threads_clock_clear(cache), 4);
    CHECK(insert(key, 1000, new_object(key), &pinned[0]), LRU_DONE);
    CHECK_LOCKS(release(&pinned[0]), 1 + 4); /* above the capacity */
    close_cache(__LINE__);
}

/* A call that waits for a lock tries it for a while before it sleeps. */
static void *tries_a_lock(void *at) {
    (void)at;
    for (int fails = 0; fails <= 12; fails++) {
        unsigned before = tries, locked = locks;
        fails_to_try = fails;
        CHECK(invalidate(1), LRU_DONE);
        fails_to_try = 0;
        CHECK(tries - before, fails < 10 ? fails + 1 : 10);
        CHECK(locks - locked, 1);
    }
    return NULL;
}

static void trying(void) {
    open_cache(10, 1);
    on_a_thread(tries_a_lock, NULL);
    close_cache(__LINE__);
}

/* ----------------------------------------------------------------------- threads and readers */

/* What a call on a key reads of what threads share is not written by a call that takes the lock,
 * nor does it share a cache line with that. */
static void lines(void) {
    struct making making = {0};
    lru_clock_pinned pinned, again;
    struct lru_threads_clock before;
    open_cache(20, 2);
    for (unsigned key = 0; key < 8; key++)
        use(key);
    memcpy(&before, cache, sizeof before);
    for (unsigned key = 0; key < KEYS; key++) {
        use(key);
        CHECK(ask(key, 3, &making, &pinned), LRU_HIT);
        CHECK(insert(key, 1, new_object(key), &again), LRU_DONE);
        CHECK(invalidate(key), LRU_DONE);
        release(&pinned);
        release(&again);
    }
    lru_threads_clock_prune(cache);
    CHECK(memcmp(&before, cache, sizeof before), 0);
    CHECK(offsetof(struct lru_threads_clock, this_thread) >= 64, true);
    CHECK(sizeof before - offsetof(struct lru_threads_clock, after) >= 64, true);
    CHECK((char *)lru_threads_clock_reader(cache, 0) - (char *)cache->chunks[0] >= 64, true);
    CHECK((char *)&cache->shards[1].lock - (char *)&cache->shards[0].makings >= 64, true);
    close_cache(__LINE__);
}

enum { AT_ONCE = 40, SHARDS = 5 };

static struct numbered {
    pthread_t thread;
    pthread_barrier_t has_called, may_end;
    uint32_t number;
    const lru_reader *readers[SHARDS], *too[SHARDS];
} numbered[AT_ONCE];
static pthread_barrier_t all_have_called;

static void *calls_with_a_number(void *at) {
    struct numbered *mine = (struct numbered *)at;
    for (unsigned key = 0; key < KEYS; key++) {
        /* the first calls of this thread find what is there */
        lru_clock_pinned pinned;
        char text[12];
        if (key % 2 == 0)
            CHECK(get(key, &pinned), LRU_HIT);
        else
            CHECK(too_get(cache, text, text_of(key, text), &pinned), LRU_HIT);
        CHECK(objects[pinned.value].key, key);
        if (key % 3 == 0)
            release(&pinned);
        else
            CHECK(too_release(cache, &pinned), LRU_DONE);
    }
    mine->number = lru_threads_this_thread()->number;
    for (uint32_t shard = 0; shard < SHARDS; shard++) {
        mine->readers[shard] = lru_threads_clock_reader(cache, shard);
        mine->too[shard] = too_reader(cache, shard);
        CHECK(lru_threads_clock_reader(cache, shard) == mine->readers[shard], true);
    }
    pthread_barrier_wait(&all_have_called);
    return NULL;
}

static uintptr_t line_of(const lru_reader *reader) { return (uintptr_t)reader / 64; }

/* The threads have the least numbers that are free, and each has readers of its own, in lines of
 * its own. The functions of another source file find the same ones. */
static void numbers_and_readers(void) {
    CHECK(pthread_barrier_init(&all_have_called, NULL, AT_ONCE), 0);
    open_cache(1000, SHARDS);
    for (unsigned key = 0; key < KEYS; key++)
        use(key);
    for (int round = 0; round < 2; round++) {
        bool is_taken[AT_ONCE + 1] = {false};
        for (int i = 0; i < AT_ONCE; i++)
            CHECK(pthread_create(&numbered[i].thread, NULL, calls_with_a_number, &numbered[i]), 0);
        for (int i = 0; i < AT_ONCE; i++)
            CHECK(pthread_join(numbered[i].thread, NULL), 0);
        is_taken[lru_threads_this_thread()->number] = true;
        CHECK(is_taken[0], true);
        for (int i = 0; i < AT_ONCE; i++) {
            CHECK(numbered[i].number <= AT_ONCE, true);
            CHECK(is_taken[numbered[i].number], false);
            is_taken[numbered[i].number] = true;
            for (int shard = 0; shard < SHARDS; shard++) {
                const lru_reader *reader = numbered[i].readers[shard];
                CHECK(numbered[i].too[shard] == reader, true);
                for (int j = 0; j < i; j++)
                    for (int other = 0; other < SHARDS; other++) {
                        CHECK(numbered[j].readers[other] == reader, false);
                        CHECK(line_of(numbered[j].readers[other]) == line_of(reader), false);
                    }
                for (int other = 0; other < shard; other++)
                    CHECK(numbered[i].readers[other] == reader, false);
            }
        }
    }
    CHECK(pinned_charge(), 0);
    close_cache(__LINE__);
    CHECK(pthread_barrier_destroy(&all_have_called), 0);
}

/* A thread that ends leaves its number to the next, whichever of them ends. */
static void *waits_to_end(void *at) {
    struct numbered *mine = (struct numbered *)at;
    use(1);
    mine->number = lru_threads_this_thread()->number;
    pthread_barrier_wait(&mine->has_called);
    pthread_barrier_wait(&mine->may_end);
    return NULL;
}

static void begin_to_wait(struct numbered *its, uint32_t number) {
    CHECK(pthread_barrier_init(&its->has_called, NULL, 2), 0);
    CHECK(pthread_barrier_init(&its->may_end, NULL, 2), 0);
    CHECK(pthread_create(&its->thread, NULL, waits_to_end, its), 0);
    pthread_barrier_wait(&its->has_called);
    CHECK(its->number, number);
}

static void end_to_wait(struct numbered *its) {
    pthread_barrier_wait(&its->may_end);
    CHECK(pthread_join(its->thread, NULL), 0);
    CHECK(pthread_barrier_destroy(&its->has_called), 0);
    CHECK(pthread_barrier_destroy(&its->may_end), 0);
}

static void numbers_are_given_back(void) {
    open_cache(10, 1);
    for (uint32_t i = 1; i <= 4; i++)
        begin_to_wait(&numbered[i], i);
    end_to_wait(&numbered[2]);
    end_to_wait(&numbered[4]);
    begin_to_wait(&numbered[2], 2);
    begin_to_wait(&numbered[4], 4);
    end_to_wait(&numbered[1]);
    end_to_wait(&numbered[2]);
    begin_to_wait(&numbered[2], 1);
    for (int i = 2; i <= 4; i++)
        end_to_wait(&numbered[i]);
    close_cache(__LINE__);
}

/* A thread that has given back its number, as it is about to end, goes on under the lock. What it
 * releases last is kept with a key that is younger than the key of its number. */
static lru_clock_pinned kept;
static pthread_key_t younger;

static void release_at_the_end(void *at) {
    lru_clock_pinned again;
    CHECK(at == &kept, true);
    CHECK(lru_threads_this_thread()->is_numbered, false);
    CHECK(lru_threads_clock_reader(cache, kept.shard) == NULL, true);
    CHECK_LOCKS(get(1, &again), 1);
    CHECK(again.value, kept.value);
    CHECK_LOCKS(release(&again), 1);
    CHECK_LOCKS(release(&kept), 1);
}

static void *ends_later(void *at) {
    (void)at;
    CHECK(get(1, &kept), LRU_HIT);
    CHECK(lru_threads_this_thread()->is_numbered, true);
    CHECK(__real_pthread_setspecific(younger, &kept), 0);
    return NULL;
}

static void a_thread_that_is_about_to_end(void) {
    open_cache(10, 1);
    use(1);
    CHECK(__real_pthread_key_create(&younger, release_at_the_end), 0);
    on_a_thread(ends_later, NULL);
    CHECK(__real_pthread_key_delete(younger), 0);
    CHECK(pinned_charge(), 0);
    close_cache(__LINE__);
}

/* A thread of which nobody would tell that it ends has no number, until that has changed. */
static void *calls_without_a_number(void *at) {
    (void)at;
    has_no_place = true;
    CHECK_LOCKS(use(1), 2);
    CHECK(lru_threads_this_thread()->is_numbered, false);
    CHECK_LOCKS(use(1), 2);
    has_no_place = false;
    CHECK_LOCKS(use(1), 1);
    CHECK_LOCKS(use(1), 0);
    CHECK(lru_threads_this_thread()->is_numbered, true);
    return NULL;
}

static void without_a_number(void) {
    open_cache(10, 1);
    use(1);
    on_a_thread(calls_without_a_number, NULL);
    CHECK(pinned_charge(), 0);
    close_cache(__LINE__);
}

/* Before any thread has a number. */
static void without_a_key(void) {
    open_cache(10, 1);
    has_no_keys = true;
    use(1);
    CHECK_LOCKS(use(1), 2);
    has_no_keys = false;
    has_no_exit = true;
    CHECK_LOCKS(use(1), 2);
    CHECK(deleted_keys, 2); /* one in each call */
    has_no_exit = false;
    CHECK_LOCKS(use(1), 1);
    CHECK_LOCKS(use(1), 0);
    CHECK(lru_threads_this_thread()->number, 0);
    CHECK(deleted_keys, 2);
#ifdef LRU_HAS_SINGLE_THREADED
    if (__libc_single_threaded)
        CHECK(tries, 0);
#endif
    close_cache(__LINE__);
}

/* Two threads make the first lanes at once. */
static const lru_reader *readers_of_another;

static void make_the_lanes(void) { readers_of_another = lru_threads_clock_reader(cache, 0); }

static void lanes_at_once(void) {
    open_cache(10, 1);
    before_calloc = make_the_lanes;
    CHECK(lru_threads_clock_reader(cache, 0) == readers_of_another, true);
    CHECK(before_calloc == NULL && readers_of_another != NULL, true);
    use(1);
    close_cache(__LINE__);
}

/* A thread uses two caches, and one of them is freed. */
static void two_caches(void) {
    lru_threads_clock *one;
    lru_clock_pinned pinned;
    open_cache(10, 3);
    use(1);
    one = cache;
    CHECK(lru_threads_clock_new(10, 1, NULL, NULL, &cache), LRU_DONE);
    CHECK(get(1, &pinned), LRU_MISSED);
    CHECK(insert(1, 1, 99, &pinned), LRU_DONE);
    release(&pinned);
    CHECK(get(1, &pinned), LRU_HIT);
    CHECK(pinned.value, 99);
    release(&pinned);
    CHECK(lru_threads_clock_free(cache), LRU_DONE);
    cache = one;
    CHECK(get(1, &pinned), LRU_HIT);
    CHECK(pinned.value, 0);
    release(&pinned);
    close_cache(__LINE__);
}

/* --------------------------------------------------------------------------------- threads wait */

struct caller {
    pthread_t thread;
    struct making making;
    lru_code code;
    lru_clock_pinned pinned;
};

static void *ask_for_seven(void *at) {
    struct caller *caller = (struct caller *)at;
    caller->code = ask(7, 1, &caller->making, &caller->pinned);
    return NULL;
}

static void start(struct caller *caller) {
    CHECK(pthread_create(&caller->thread, NULL, ask_for_seven, caller), 0);
}

static void join(struct caller *caller, lru_code wanted, unsigned calls) {
    CHECK(pthread_join(caller->thread, NULL), 0);
    CHECK(caller->code, wanted);
    CHECK(caller->making.calls, calls);
}

/* How many values are being made in the first shard. */
static unsigned makings(void) {
    unsigned count = 0;
    lru_threads_clock_making *making;
    __real_pthread_mutex_lock(&cache->shards[0].lock);
    for (making = cache->shards[0].makings; making != NULL; making = making->next)
        count++;
    pthread_mutex_unlock(&cache->shards[0].lock);
    return count;
}

/* A caller makes a value, until others wait for it. */
static void start_making(struct caller *maker, unsigned until) {
    waits = 0;
    maker->making.waits = until;
    start(maker);
    while (makings() == 0)
        sched_yield();
}

static void wait_for_waits(unsigned wanted) {
    while (waits < wanted)
        sched_yield();
}

/* The others ask while the first makes the value, and so do threads that ask for other keys. */
static void waiting(bool fails) {
    struct caller callers[4] = {0}, last = {0};
    unsigned before, calls;
    open_cache(100, 1);
    use(1);
    callers[0].making.fails = fails;
    start_making(&callers[0], 4); /* three callers, and the last one */
    for (int i = 1; i < 4; i++)
        start(&callers[i]);
    wait_for_waits(3);
    before = broadcasts;
    for (unsigned key = 10; key < 20; key++) {
        struct making failing = {.fails = true};
        lru_clock_pinned pinned;
        use(key);
        CHECK(ask(30, 1, &failing, &pinned), LRU_FAILED);
        CHECK(insert(key, 1, new_object(key), &pinned), LRU_DONE);
        release(&pinned);
        CHECK(invalidate(key), LRU_DONE);
    }
    CHECK(get(7, &last.pinned), LRU_MISSED); /* does not wait */
    CHECK(broadcasts, before);               /* nobody waits for these */
    CHECK(lru_threads_clock_free(cache), LRU_HELD);
    start(&last);
    for (int i = 0; i < 4; i++)
        CHECK(pthread_join(callers[i].thread, NULL), 0);
    CHECK(pthread_join(last.thread, NULL), 0);
    calls = last.making.calls;
    for (int i = 1; i < 4; i++) {
        CHECK(callers[i].code, LRU_HIT);
        CHECK(callers[i].pinned.value, last.pinned.value);
        CHECK(objects[callers[i].pinned.value].key, 7);
        release(&callers[i].pinned);
        calls += callers[i].making.calls;
    }
    CHECK(last.code, LRU_HIT);
    release(&last.pinned);
    CHECK(callers[0].code, fails ? LRU_FAILED : LRU_HIT);
    CHECK(calls, fails ? 1 : 0);
    if (!fails) {
        CHECK(callers[0].pinned.value, last.pinned.value);
        release(&callers[0].pinned);
    }
    CHECK(broadcasts - before, fails && waits > 4 ? 2 : 1);
    CHECK(pinned_charge(), 0);
    CHECK(makings(), 0);
    close_cache(__LINE__);
}

enum taking { BY_INVALIDATE, BY_INSERT, BY_CLEAR };

/* The key of a value that is being made, and for which another caller waits, is taken away: that
 * one goes on at once, and the maker's value is for itself alone. */
static void taken_away(enum taking taking) {
    const bool by_insert = taking == BY_INSERT;
    struct caller maker = {0}, waiter = {0};
    lru_clock_pinned pinned;
    unsigned before;
    open_cache(100, 1);
    use(1);
    start_making(&maker, 100);
    start(&waiter);
    wait_for_waits(1);
    before = broadcasts;
    CHECK(insert(8, 1, new_object(8), &pinned), LRU_DONE); /* another key */
    release(&pinned);
    CHECK(invalidate(9), LRU_DONE);
    CHECK(broadcasts, before);
    if (by_insert)
        CHECK(insert(7, 0, 99, &pinned), LRU_NO_CHARGE);
    CHECK(broadcasts, before);
    if (by_insert)
        CHECK(insert(7, 1, new_object(7), &pinned), LRU_DONE);
    else if (taking == BY_CLEAR)
        CHECK(lru_threads_clock_clear(cache), LRU_DONE);
    else
        CHECK(invalidate(7), LRU_DONE);
    join(&waiter, LRU_HIT, by_insert ? 0 : 1);
    CHECK(broadcasts, before + 1);
    if (by_insert) {
        CHECK(waiter.pinned.value, pinned.value);
        release(&pinned);
    }
    CHECK(objects[waiter.pinned.value].key, 7);
    CHECK(invalidate(9), LRU_DONE);
    waits = 100; /* now the maker goes on */
    join(&maker, LRU_HIT, 1);
    CHECK(maker.pinned.value == waiter.pinned.value, false);
    CHECK(broadcasts, before + 1); /* nobody waits for it */
    CHECK(get(7, &pinned), LRU_HIT);
    CHECK(pinned.value, waiter.pinned.value);
    release(&pinned);
    CHECK(objects[maker.pinned.value].deletions, 0);
    release(&maker.pinned);
    CHECK(objects[maker.pinned.value].deletions, 1);
    release(&waiter.pinned);
    CHECK(objects[waiter.pinned.value].deletions, 0);
    CHECK(stats().entries, taking == BY_CLEAR ? 1 : 3);
    close_cache(__LINE__);
}

/* Nobody waits for a value whose key is taken away twice: nobody is woken the second time, and a
 * second maker of the key is another one. */
static void taken_away_twice(void) {
    struct caller makers[3] = {{0}}, waiter = {0};
    unsigned before = 0;
    open_cache(100, 1);
    waits = 0;
    for (unsigned i = 0; i < 3; i++) {
        makers[i].making.waits = i < 2 ? 100 : 50;
        start(&makers[i]);
        while (makings() <= i)
            sched_yield();
        before = broadcasts;
        if (i < 2)
            CHECK(invalidate(7), LRU_DONE);
        CHECK(invalidate(8), LRU_DONE);
        CHECK(broadcasts, before);
    }
    start(&waiter);
    wait_for_waits(1);
    waits = 50; /* the last maker goes on, while the others still make theirs */
    join(&makers[2], LRU_HIT, 1);
    join(&waiter, LRU_HIT, 0);
    CHECK(waiter.pinned.value, makers[2].pinned.value);
    CHECK(broadcasts, before + 1);
    CHECK(makings(), 2);
    waits = 100;
    join(&makers[0], LRU_HIT, 1);
    join(&makers[1], LRU_HIT, 1);
    CHECK(broadcasts, before + 1);
    CHECK(makings(), 0);
    for (int i = 0; i < 3; i++)
        release(&makers[i].pinned);
    CHECK(deletions, 2);
    release(&waiter.pinned);
    CHECK(has(7), true);
    close_cache(__LINE__);
}

/* A caller waits while another key of the same hash is made, and then makes its own value. */
static uint64_t same[3][2];

static bool make_slowly(void *context, const void *key, size_t length, uint64_t *value) {
    wait_for_waits(1);
    return make_by_number(context, key, length, value);
}

static void *ask_for_the_other(void *at) {
    struct caller *caller = (struct caller *)at;
    caller->code = lru_threads_clock_get_or_init(cache, same[1], 16, 1, make_by_number,
                                                 &caller->making.calls, &caller->pinned);
    return NULL;
}

static void equal_hashes_wait(void) {
    struct caller other = {0};
    lru_clock_pinned pinned;
    unsigned calls = 0;
    is_seed_fixed = true;
    open_cache(100, 1);
    keys_of_one_hash(cache->seed, same);
    waits = 0;
    CHECK(pthread_create(&other.thread, NULL, ask_for_the_other, &other), 0);
    CHECK(pthread_join(other.thread, NULL), 0);
    release(&other.pinned);
    CHECK(lru_threads_clock_invalidate(cache, same[0], 16), LRU_DONE);
    CHECK(deletions, 1);
    /* now both are made at once: whoever comes first, the other one waits for it */
    CHECK(makings(), 0);
    other.making.calls = 0;
    lru_threads_clock_making pretended = {lru_hash_bytes(same[0], 16, cache->seed), 16, false,
                                          NULL};
    lru_found found =
        lru_threads_clock_begin(cache, &cache->shards[0], same[0], 16, 1, NULL, &pretended);
    CHECK(found.code, LRU_MAKE);
    CHECK(pthread_create(&other.thread, NULL, ask_for_the_other, &other), 0);
    wait_for_waits(1);
    CHECK(pretended.is_awaited, true);
    lru_threads_clock_node *node = lru_threads_clock_node_new(same[0], 16);
    CHECK(make_slowly(&calls, same[0], 16, &node->value), true);
    found = lru_threads_clock_end(cache, &cache->shards[0], found.value, 1, node, &pretended);
    CHECK(found.code, LRU_DONE);
    lru_threads_clock_tell(found, 0, &pinned);
    CHECK(objects[pinned.value].key, 0);
    join(&other, LRU_HIT, 1);
    CHECK(objects[other.pinned.value].key, 1);
    CHECK(deletions, 1);
    release(&pinned); /* its key has lost it */
    CHECK(deletions, 2);
    release(&other.pinned);
    close_cache(__LINE__);
    is_seed_fixed = false;
}

/* Two values are made, of which the older one is waited for. The other key has another hash, or the
 * same hash and another length. */
static bool make_slowly_until(void *context, const void *key, size_t length, uint64_t *value) {
    (void)key;
    wait_for_waits(*(const unsigned *)context);
    *value = new_object((unsigned)length);
    return true;
}

struct slow {
    pthread_t thread;
    const void *key;
    size_t length;
    unsigned until;
};

static void *make_and_release(void *at) {
    struct slow *slow = (struct slow *)at;
    lru_clock_pinned pinned;
    CHECK(lru_threads_clock_get_or_init(cache, slow->key, slow->length, 1, make_slowly_until,
                                        &slow->until, &pinned),
          LRU_HIT);
    CHECK(objects[pinned.value].key, slow->length);
    release(&pinned);
    return NULL;
}

static void start_slowly(struct slow *slow) {
    CHECK(pthread_create(&slow->thread, NULL, make_and_release, slow), 0);
}

static void two_makings(bool has_same_hash) {
    uint64_t long_key[2] = {1, 2}, short_key;
    struct slow older = {.key = long_key, .length = 16, .until = 3};
    struct slow newer = {.key = &short_key, .length = 8, .until = 2};
    struct slow waiter = {.key = long_key, .length = 16, .until = 0};
    unsigned before = broadcasts;
    is_seed_fixed = true;
    open_cache(100, 1);
    short_key = lru_hash_bytes(long_key, 16, cache->seed);
    short_key ^= lru_hash_multiply(0x13198a2e03707344 ^ cache->seed, 0x94d049bb133111eb ^ 16);
    CHECK(lru_hash_bytes(&short_key, 8, cache->seed), lru_hash_bytes(long_key, 16, cache->seed));
    short_key ^= !has_same_hash;
    waits = 0;
    start_slowly(&older);
    while (makings() < 1)
        sched_yield();
    start_slowly(&newer);
    while (makings() < 2)
        sched_yield();
    start_slowly(&waiter);
    wait_for_waits(1);
    waits = 2; /* now the newer one is made */
    CHECK(pthread_join(newer.thread, NULL), 0);
    CHECK(broadcasts, before);
    CHECK(makings(), 1);
    waits = 3;
    CHECK(pthread_join(older.thread, NULL), 0);
    CHECK(pthread_join(waiter.thread, NULL), 0);
    CHECK(broadcasts, before + 1);
    CHECK(stats().makings, 2);
    close_cache(__LINE__);
    is_seed_fixed = false;
}

/* -------------------------------------------------------------------------------------- stress */

static unsigned next_random(unsigned *state, unsigned end) {
    *state = *state * 1664525u + 1013904223u;
    return (*state >> 8) % end;
}

/* A pinned value, and its key. */
struct held {
    lru_clock_pinned pinned;
    unsigned key;
    bool is_held;
};

/* Values that any thread may put and take. */
static struct held passed[16];
static pthread_mutex_t passing = PTHREAD_MUTEX_INITIALIZER;

static void pass(struct held *held, unsigned slot) {
    struct held other;
    pthread_mutex_lock(&passing);
    other = passed[slot];
    passed[slot] = *held;
    pthread_mutex_unlock(&passing);
    *held = other;
}

static void let_go(struct held *held) {
    if (!held->is_held)
        return;
    CHECK(objects[held->pinned.value].key, held->key);
    CHECK(objects[held->pinned.value].deletions, 0);
    release(&held->pinned);
    held->is_held = false;
}

/* Takes many values away, in one way or another. */
static void take_away(unsigned key) {
    struct asked asked = {0};
    uint64_t erased;
    if (key % 3 == 0)
        lru_threads_clock_prune(cache);
    else if (key % 3 == 1)
        CHECK(lru_threads_clock_clear(cache), LRU_DONE);
    else
        CHECK(lru_threads_clock_erase_if(cache, is_even, &asked, &erased), LRU_DONE);
}

/* Holds up to four values at a time. */
static void *stress_thread(void *at) {
    unsigned state = *(unsigned *)at;
    struct held held[4] = {{{0, 0, 0}, 0, false}};
    for (unsigned call = 0; call < CALLS; call++) {
        unsigned key = next_random(&state, KEYS);
        struct held *slot = &held[next_random(&state, 4)];
        uint64_t charge = 1 + next_random(&state, 4);
        struct making making = {.fails = next_random(&state, 8) == 0, .charge = charge};
        unsigned kind = next_random(&state, 40);
        lru_code code = LRU_MISSED;
        if (kind > 35) {
            pass(slot, next_random(&state, 16));
            continue;
        }
        let_go(slot);
        slot->key = key;
        if (kind == 0 && next_random(&state, 20) == 0)
            take_away(key);
        else if (kind == 1)
            lru_threads_clock_set_capacity(cache, 64 + next_random(&state, 128));
        else if (kind == 2)
            CHECK(invalidate(key), LRU_DONE);
        else if (kind < 5)
            code = insert(key, charge, new_object(key), &slot->pinned);
        else if (kind < 9)
            code = get(key, &slot->pinned);
        else if (kind == 9)
            CHECK(pinned_charge() < 1000, true);
        else if (kind < 20)
            code = ask_with(key, &making, &slot->pinned);
        else
            code = ask(key, charge, &making, &slot->pinned);
        slot->is_held = code == LRU_HIT || code == LRU_DONE;
        if (!slot->is_held)
            CHECK(code, making.calls > 0 ? LRU_FAILED : LRU_MISSED);
        if (making.calls > 0)
            CHECK(code, making.fails ? LRU_FAILED : LRU_HIT);
    }
    for (int i = 0; i < 4; i++)
        let_go(&held[i]);
    return NULL;
}

static void stress(size_t shard_count) {
    pthread_t threads[THREADS];
    unsigned seeds[THREADS];
    open_cache(128, shard_count);
    for (unsigned i = 0; i < THREADS; i++) {
        seeds[i] = i + 1;
        CHECK(pthread_create(&threads[i], NULL, stress_thread, &seeds[i]), 0);
    }
    for (unsigned i = 0; i < THREADS; i++)
        CHECK(pthread_join(threads[i], NULL), 0);
    for (unsigned i = 0; i < 16; i++)
        let_go(&passed[i]);
    CHECK(pinned_charge(), 0);
    lru_threads_clock_set_capacity(cache, 100);
    lru_clock_counts told = stats();
    CHECK(told.charge <= told.capacity, true);
    CHECK(told.entries > 0, true);
    CHECK(told.makings + told.insertions, told.entries + told.evictions);
    CHECK(told.makings > CALLS / 8 && told.failures > 0 && told.insertions > 0, true);
    lru_threads_clock_prune(cache);
    CHECK(stats().entries, 0);
    CHECK(stats().charge, 0);
    close_cache(__LINE__);
}

/* --------------------------------------------------------------------------- the program ends */

static void *calls_at_the_end(void *at) {
    (void)at;
    CHECK_LOCKS(use(1), 2);
    CHECK(lru_threads_this_thread()->is_numbered, false);
    return NULL;
}

/* Is called after the key was deleted. The thread that has a number keeps it; another one gets
 * none. */
static void at_the_end(void) {
    CHECK(deleted_keys, 3);
    open_cache(10, 1);
    use(1);
    CHECK_LOCKS(use(1), 0);
    CHECK(__real_pthread_key_create(&younger, NULL), 0); /* perhaps the same one again */
    on_a_thread(calls_at_the_end, NULL);
    close_cache(__LINE__);
    if (failures > 0)
        _exit(1);
}

int main(void) {
    alarm(110);
    CHECK(__real_atexit(at_the_end), 0);
    without_a_key();
    one_value();
    charges();
    eviction();
    room_for_a_large_value();
    replacing();
    erasing();
    clearing();
    a_place_is_used_again();
    refusals();
    a_made_value_is_refused();
    room_is_made_first();
    a_release_beside_a_miss();
    equal_hashes();
    keys_of_bytes();
    misses_without_the_lock();
    no_memory();
    seeds();
    shards();
    locking();
    lines();
    numbers_and_readers();
    numbers_are_given_back();
    a_thread_that_is_about_to_end();
    without_a_number();
    lanes_at_once();
    two_caches();
    trying();
    waiting(false);
    waiting(true);
    taken_away(BY_INVALIDATE);
    taken_away(BY_INSERT);
    taken_away(BY_CLEAR);
    taken_away_twice();
    equal_hashes_wait();
    two_makings(false);
    two_makings(true);
    stress(1);
    stress(4);
    printf("threads over the clock in C: %d checks failed\n", (int)failures);
    return failures == 0 ? 0 : 1;
}
