/* lru.h - a least-recently-used cache of heavy values, with pinned entries.
 *
 * An entry has a key, a value, a charge and pins. Its charge is its weight, in units of the
 * caller's choice, and is above 0. An entry with a pin is held, and is never evicted. An entry
 * without a pin is idle. While the total of all charges is above the capacity, idle entries are
 * evicted, the one that was released longest ago first.
 *
 * The capacity is not a hard limit: held entries stay, and count. Strict calls of `begin`,
 * `ready_with` and `insert` make it one: they answer LRU_FULL, and evict nothing, if a new entry or
 * a new charge would take the total above the capacity even after all idle entries have left. If
 * all such calls are strict, and the capacity is not lowered, the total is never above it.
 *
 * A value is one word (uint64_t) of the caller's, usually the address of an object. The cache never
 * looks at it and never deletes the object. Entries that leave the cache are put into a chain,
 * oldest first. The caller pops them and deletes their values, which needs no lock on the cache.
 *
 * If a key has no value, one caller is told LRU_MAKE: it makes the value and passes it to `ready`,
 * or gives up with `fail`. Callers that ask for the same key in the meantime are told LRU_WAIT.
 * They have a pin already, and ask again with `poll` after that `ready` or `fail`. The library does
 * not wake them: lru_threads.h does, with POSIX threads. With another means, such as a condition
 * variable of your own at which threads wait for several keys, wake all of them, but only if
 * somebody waits for this one: after a `fail` that is told LRU_LEFT, and after a `ready` of an
 * entry that then has more than one pin, as lru_cache_entry tells under the same lock.
 *
 * The keys of a cache are of one of two kinds, which it is opened with: LRU_BYTES or LRU_WORDS. The
 * calls that take a key are there for each kind; all others are the same:
 *
 *     lru_bytes_*   keys are byte strings with a hash; the cache keeps its own copies
 *     lru_words_*   keys are 16 bytes, passed as two words, and faster to look up
 *     lru_cache_*   calls on a cache that take no key
 *     lru_chain_*   calls on a chain, which takes entries of any cache
 *     lru_clock_*   calls on a clock, another cache, whose hits take no lock (THE CLOCK, below):
 *                   those that change it or look at all of it, under a mutex of its own
 *     lru_reader_*  calls on a clock without that mutex, by a thread that has a reader of it; only
 *                   lru_reader_new, which opens one, is called under it
 *
 * The library is proved: each call on a cache is one step of the cache that docs/DEFINITIONS.md in
 * the sources defines, or is refused with a code and changes nothing; of the clock less is proved.
 * The library takes no lock and starts no thread; lru_threads.h and lru_threads_clock.h add locks.
 * The archive is for Linux with glibc or musl. Link it into a shared object with
 * -Wl,--whole-archive, or there is nothing in it; liblru.so.2 is one.
 *
 * WHAT THE CALLER MUST ENSURE. The proofs rely on the following, and it is not checked at run time:
 *
 *  1. There is one call at a time on each handle, from whatever thread. If threads share a cache, a
 *     mutex around each call is enough. Caches and chains may move between threads.
 *  2. A handle (lru_cache, lru_chain) is all zeros before its `new`, for example by `= {0}`. Its
 *     members are never read, written or compared. If a handle is copied, only one of the two
 *     copies is used from then on.
 *  3. Pointers to handles and to results are not null. They point to whole objects that do not
 *     overlap: the cache, the chain, the key and the result of a call are four different objects.
 *  4. A key is `length` readable bytes, which nobody writes during the call. A buffer is `room`
 *     writable bytes, which nobody else uses during the call. Both lengths are below 2^63.
 *  5. malloc, realloc and free belong to one allocator, and malloc and realloc align a block to
 *     each power of two up to 16 that divides its size.
 *  6. No call is made from a signal handler, or in the forked child of a process with threads.
 *
 * If one of these rules is broken, a call may meet a state that the proofs exclude, and end the
 * program. "Illegal instruction" (SIGILL) in a function of the library does not mean that the
 * processor is the wrong one: look for a missing mutex (rule 1) or a copied handle (rule 2). The
 * archive is not instrumented for sanitizers: ThreadSanitizer sees a race in it only by its calls
 * of malloc and free, or not at all, and MemorySanitizer reports errors in right programs, since it
 * does not see what the library writes.
 *
 * TWO RULES FOR PINS. Without them the calls still do what is proved, but not what is meant:
 *
 *  7. Each pin is given back once. An lru_pin names an entry and not its holder, so if one of two
 *     holders releases twice, the second call takes the other holder's pin, and its value may be
 *     evicted.
 *  8. An lru_pin is passed only to the cache that told it. Another cache may have an entry with the
 *     same stamp, and would release that.
 *
 * What is cheap to check is checked, and answered with a code: a charge of 0, a limit of 0 pins, a
 * kind of keys that does not exist, a null key with a length, a handle that is not open (it was
 * never opened, its opening was refused, or it was freed), a handle that is open already, a key of
 * the other kind, a chain that still holds entries, a buffer that is too small, and a pin of no
 * entry in the right state.
 *
 * HASHES. The calls with a key of bytes take its hash, so that the bytes are hashed before the lock
 * is taken, and not while other threads wait. Make it with lru_hash_bytes, or take another hash
 * that the program has anyway, of the key alone:
 *
 *     uint64_t hash = lru_hash_bytes(key, length, seed);
 *     pthread_mutex_lock(&lock);
 *     lru_told told = lru_bytes_get(&cache, key, length, hash);
 *
 * The hash is a part of the key: two keys are equal if both their bytes and their hashes are. So
 * all calls on a cache must pass the same hash for the same bytes. A call that passes another one
 * names another key: it does not find the entry, and `begin` and `insert` add a second one for the
 * same bytes. Nothing worse happens. Nor do equal hashes of different bytes change an answer; but
 * each look-up of such a key visits all of them.
 *
 * One hash may also choose among several caches (shards), by lru_shard_of. Within a cache it is
 * hashed once more, with the seed of that cache, so that equal shards do not make equal slots.
 *
 * SEEDS. A cache hashes the words of its keys, or the hashes of its keys of bytes, with the `seed`
 * that it is opened with. Whoever knows the seed can choose keys of words whose hashes are all
 * equal, and whoever knows the seed that was passed to lru_hash_bytes, such keys of bytes. Each
 * look-up of such a key then visits all of them, while the caller holds the lock. So if keys come
 * from outside the program, take a random seed for each cache, and pass it to both. With getrandom
 * of <sys/random.h>:
 *
 *     uint64_t seed;
 *     if (getrandom(&seed, sizeof seed, 0) != (ssize_t)sizeof seed)
 *         return false;
 *     lru_code code = lru_cache_new(LRU_BYTES, capacity, seed, &cache);
 *
 * Otherwise the seed may be 0. No answer depends on the seed of a cache, except for the hash of a
 * pin, nor does what is evicted, or its order.
 *
 * COMING FROM ANOTHER CACHE. Entries are evicted by `begin`, by the `release` of a last pin and by
 * `set_capacity`; many caches evict only when an entry is inserted. `begin` does not change the
 * charge of an entry that exists. If the other cache has a strict limit, make strict calls of
 * `begin`, `ready_with` and `insert`. `advice_evict` does nothing to a held entry: it can still be
 * found, and becomes idle with its last release. `invalidate` detaches a held entry from its key:
 * the key no longer finds it, and it is evicted with its last release. `insert` does the same to
 * the entry that it replaces. `release_and_evict` is a release that also evicts the entry if nobody
 * else holds it. An entry counts towards the total while its value is being made, and when it is
 * detached but still held.
 */
#ifndef CONCURRENT_LRU_H
#define CONCURRENT_LRU_H

#include <stdbool.h>
#include <stddef.h>
#include <stdint.h>
#include <string.h>

#define LRU_VERSION "2.0.0"

/* Whether this is compiled for ThreadSanitizer. */
#if defined(__SANITIZE_THREAD__)
#define LRU_HAS_THREAD_SANITIZER
#elif defined(__has_feature)
#if __has_feature(thread_sanitizer)
#define LRU_HAS_THREAD_SANITIZER
#endif
#endif
#ifdef LRU_HAS_THREAD_SANITIZER
#include <sanitizer/tsan_interface.h>
#endif

/* How functions are declared that the header defines. In the shared library they are exported. */
#ifndef LRU_INLINE
#define LRU_INLINE static inline
#endif

#ifdef __cplusplus
extern "C" {
#endif

/* The result of a call. After a refusal nothing has changed: no entry was added, moved, pinned or
 * evicted, and nothing was put into a chain. There are two exceptions: where lru_clock_ready has no
 * memory, or a number would overflow, the making has ended; and lru_clock_begin_bytes may have
 * erased the entry of another key, as it says. If a call could be refused for several reasons, any
 * of them may be told. */
typedef uint32_t lru_code;

enum {
    /* Answers. */
    LRU_MAKE = 0,    /* pinned; the caller makes the value now, then calls ready or fail. Clock:
                        not pinned; the ticket is told */
    LRU_WAIT = 1,    /* pinned; another caller makes the value: ask again with poll. Clock: not
                        pinned; ask again with begin */
    LRU_HIT = 2,     /* pinned; the value is told */
    LRU_DONE = 3,    /* done */
    LRU_LEFT = 4,    /* fail: others wait; the next poll or begin for the entry is told LRU_MAKE */
    LRU_REMOVED = 5, /* fail: nobody waits, and the entry is gone */
    LRU_MISSED = 6,  /* get, contains: the key has no entry, or its value is still being made */
    LRU_PINNED = 18, /* repin: pinned once more; the value is told */
    LRU_GONE = 22,   /* clock: an entry has left, and is told; call again for the next */
    LRU_LAST = 23,   /* reader: done; the entry was invalidated, and this was its last pin: collect
                        it, under the lock */
    LRU_REPLACED = 24, /* insert of a clock: done, as with LRU_DONE; another entry has left for the
                          new one, the key's or one that was evicted, and is told */
    LRU_ABOVE = 25,  /* reader: done; this was the last pin of the entry, and the total is above the
                        capacity: make room for a charge of 0, under the lock */

    /* Refusals of the cache. */
    LRU_OVERFLOW = 7, /* a number would overflow: the total of charges, the stamps or the pins */
    LRU_STALE = 8,    /* the pin names no entry that the call is for, or the ticket no making */
    LRU_MEMORY = 9,   /* malloc or realloc returned null */
    LRU_FULL = 20,    /* a strict begin, ready_with or insert: the charge and those of the held
                         entries, at ready_with of the others, add up to more than the capacity.
                         Clock: a strict add or ready would take the total above the capacity */

    LRU_NUMBER = 10, /* no refusal: the number that was asked for is told as the value */

    /* Refusals of calls that cannot be right. */
    LRU_NO_CHARGE = 11, /* a charge of 0 */
    LRU_NO_PINS = 12,   /* a limit of 0 pins */
    LRU_NULL_KEY = 13,  /* a null key with a length above 0 */
    LRU_CLOSED = 14,    /* the cache or the chain is not open */
    LRU_OPEN = 15,      /* new: the handle is open already */
    LRU_NOT_EMPTY = 16, /* the chain still holds entries: pop them first; or the clock still has
                           entries: prune it first; or a making of the clock has not ended */
    LRU_NO_ROOM = 17,   /* key_of, entries: the buffer is too small; how much room is enough is told
                           as the value */
    LRU_OTHER_KEYS = 19, /* lru_bytes_* or lru_words_*: the cache has keys of the other kind */
    LRU_NO_KIND = 21     /* new: no such kind of keys */
};

/* The kinds of keys, with which a cache is opened. */
typedef uint32_t lru_kind;

enum {
    LRU_BYTES = 0, /* keys are byte strings */
    LRU_WORDS = 1  /* keys are two words */
};

/* Names an entry that the caller has pinned. `begin`, `get`, `poll`, `repin` and `insert` tell it;
 * `poll`, `ready`, `ready_with`, `fail`, `repin`, `release`, `release_and_evict`, `entry` and
 * `key_of` take it.
 * It may be copied, and is passed on as it was told.
 *
 * It is good until the pin is given back, and then for as long as the entry stays in the cache. An
 * old one, or one of another cache, is answered with LRU_STALE, unless the cache has an entry with
 * the same stamp (rules 7 and 8).
 *
 * The hash and the place tell where to look. They change no answer, but a call visits every entry
 * if neither leads to the entry, or if no entry has the stamp. */
typedef struct lru_pin {
    uint64_t stamp; /* the number of the entry; a cache never gives the same one to two entries */
    uint64_t hash;  /* of the entry's key, as this cache hashes it */
    size_t place;   /* where this cache stores the entry */
} lru_pin;

/* The result of a call that tells more than a code. A member is 0 if it is not described for the
 * code. */
typedef struct lru_told {
    lru_pin pin;    /* LRU_MAKE, LRU_WAIT, LRU_HIT, LRU_PINNED, and LRU_DONE of insert: names the
                       entry. */
    uint64_t value; /* LRU_HIT, LRU_PINNED: the value. LRU_NUMBER: the number. LRU_NO_ROOM: how
                       much room is enough. */
    lru_code code;
} lru_told;

/* An entry that left a cache. */
typedef struct lru_gone {
    uint64_t stamp;
    uint64_t charge;
    uint64_t value; /* the caller's again, to be deleted */
} lru_gone;

/* An entry that a cache holds, and that has a value. */
typedef struct lru_entry {
    lru_pin pin;          /* names the entry, for repin and key_of; nobody owes a release for it */
    uint64_t value;       /* the cache's still */
    uint64_t charge;
    uint32_t pins;        /* 0: the entry is idle */
    uint32_t is_detached; /* 1: it is held, but its key no longer finds it; else 0 */
} lru_entry;

/* What the calls on a cache have answered since it was opened, and what the cache holds. A count of
 * answers that has reached 2^64 - 1 stays there. The entries inserted are those present, those
 * evicted and those removed:
 *
 *     insertions == entries + evictions + removals
 *
 * A strict call is counted as one that is not. No call that is refused is counted, not even one
 * that is told LRU_FULL.
 *
 * The hit ratio is hits / (hits + misses). To count from some time on, subtract the numbers that
 * were told at that time. */
typedef struct lru_stats {
    uint64_t hits;          /* calls of begin and get that were told LRU_HIT */
    uint64_t misses;        /* calls of begin that were told LRU_MAKE, and of get that were told
                               LRU_MISSED */
    uint64_t waits;         /* calls of begin that were told LRU_WAIT */
    uint64_t insertions;    /* entries that were added, by begin or insert */
    uint64_t evictions;     /* entries that were put into a chain, by any call except free */
    uint64_t removals;      /* entries that were removed because their maker failed: LRU_REMOVED */
    uint64_t entries;       /* as lru_cache_len tells it */
    uint64_t charge;        /* as lru_cache_total tells it */
    uint64_t pinned_charge; /* as lru_cache_pinned_charge tells it */
    uint64_t capacity;      /* as lru_cache_capacity tells it */
} lru_stats;

/* Handles: a cache, and a chain of entries that left one. A handle of all zeros is not open. Only
 * the library uses the members. */
typedef struct lru_cache {
    void *at;
    uint64_t open;
} lru_cache;

typedef struct lru_chain {
    void *at;
    uint64_t open;
} lru_chain;

/* The clock, a reader of it, and what their calls tell; see THE CLOCK, below. */
typedef struct lru_clock {
    void *at;
    uint64_t open;
} lru_clock;

typedef struct lru_reader {
    void *at;
    uint64_t open;
} lru_reader;

typedef struct lru_found {
    uint64_t value; /* LRU_HIT, LRU_REPLACED, and LRU_DONE of add, insert and ready: the value.
                       LRU_MAKE: the ticket. LRU_NUMBER: the number. */
    lru_code code;
    uint32_t place; /* LRU_HIT, LRU_REPLACED, and LRU_DONE of add, insert and ready: names the
                       pin */
} lru_found;

/* An entry that left a clock. */
typedef struct lru_left {
    uint64_t first;  /* the two words of its key; of a key of bytes the hash, */
    uint64_t second; /* and the length */
    uint64_t value;  /* the caller's again, to be deleted */
} lru_left;

/* A key of bytes in a clock. Each value is the address of an object that begins with one; see KEYS
 * OF BYTES IN A CLOCK, below. */
typedef struct lru_key {
    const void *bytes;
    size_t length;
} lru_key;

/* What has happened in a clock since it was opened, and what it holds. A count that passes 2^64 - 1
 * starts again at 0. Hits are not counted: a counter that all threads write would cost a hit as
 * much as a lock. */
typedef struct lru_clock_counts {
    uint64_t makings;    /* makings whose value was stored: LRU_DONE of ready */
    uint64_t failures;   /* makings that ended otherwise: by fail, or refused by ready */
    uint64_t insertions; /* entries that were added or inserted */
    uint64_t evictions;  /* entries that have left, by any call */
    uint64_t entries;    /* as lru_clock_len tells it */
    uint64_t charge;     /* as lru_clock_total tells it */
    uint64_t capacity;   /* as lru_clock_capacity tells it */
} lru_clock_counts;

/* ------------------------------------------------------------------------------- opening caches */

/* Opens an empty cache whose keys are of the kind `keys`. It evicts idle entries while the total of
 * charges is above `capacity`. Its first entry gets the stamp 0, and an entry may have up to
 * 2^32 - 1 pins. Keys are hashed with `seed` (SEEDS, above). The caller frees the cache with
 * lru_cache_free.
 *
 * Allocates. LRU_DONE; LRU_NO_KIND if `keys` is neither LRU_BYTES nor LRU_WORDS; LRU_MEMORY;
 * LRU_OPEN. */
lru_code lru_cache_new(lru_kind keys, uint64_t capacity, uint64_t seed, lru_cache *out);

/* The same, but the first entry gets the stamp `first_stamp`, and an entry may have up to
 * `most_pins` pins.
 *
 * Allocates. LRU_DONE; LRU_NO_PINS if `most_pins` is 0; LRU_NO_KIND; LRU_MEMORY; LRU_OPEN. */
lru_code lru_cache_new_with_limits(lru_kind keys, uint64_t capacity, uint64_t first_stamp,
                                   uint32_t most_pins, uint64_t seed, lru_cache *out);

/* -------------------------------------------------------------------------------- keys of bytes */

/* A key is `length` bytes, and their `hash`, which is the same in each call for the same bytes
 * (HASHES, above). On a cache whose keys are two words, each of these calls answers
 * LRU_OTHER_KEYS. */

/* The hash of `length` bytes, for the calls below. It takes eight bytes at a time. The seed is one
 * that nobody can guess, if keys come from outside the program (SEEDS, above). Needs no lock and no
 * cache, and answers with some number for a null key. Programs must not store it: it may change
 * with the version of this header and with the machine. The last bytes are not mixed with the
 * others, as a cache does that: for other uses take lru_shard_of. */
LRU_INLINE uint64_t lru_hash_bytes(const void *key, size_t length, uint64_t seed);

/* Which of `count` caches a hash chooses, for programs that spread their keys over several: a
 * number from 0 to count - 1. */
LRU_INLINE uint64_t lru_shard_of(uint64_t hash, uint64_t count);

/* Asks for the value of a key and pins its entry, or adds an entry if there is none. `charge`,
 * above 0, is the charge of a new entry; an entry that exists keeps its charge, even if its maker
 * failed and this caller makes the value. What the new charge evicts is put into `gone`, oldest
 * first. The pin is given back by `release` after LRU_HIT or `ready`, or by `fail`.
 *
 * If the call is `strict`, it adds no entry that the capacity has no room for: if the key has no
 * entry, and `charge` and the charges of the held entries add up to more than the capacity, nothing
 * changes. In particular, nothing is evicted. An entry that exists is pinned in any case, even if
 * the total is above the capacity.
 *
 * Allocates for a new entry, and if the key is longer than any before. LRU_MAKE with the pin;
 * LRU_WAIT with the pin; LRU_HIT with the pin and the value; LRU_OVERFLOW if the total would exceed
 * 2^64 - 1, if the stamps are used up or if the entry has as many pins as it may have; LRU_FULL if
 * the call is strict and there is no room; LRU_MEMORY; LRU_NO_CHARGE if `charge` is 0, even if the
 * key has an entry; LRU_NULL_KEY; LRU_CLOSED; LRU_NOT_EMPTY. */
LRU_INLINE lru_told lru_bytes_begin(lru_cache *cache, const void *key, size_t length,
                                    uint64_t hash, uint64_t charge, bool strict,
                                    lru_chain *gone);

/* Finds the value of a key and pins its entry. Adds no entry if there is none.
 *
 * Allocates if the key is longer than any before. LRU_HIT with the pin and the value; LRU_MISSED;
 * LRU_OVERFLOW if the entry has as many pins as it may have; LRU_MEMORY; LRU_NULL_KEY;
 * LRU_CLOSED. */
LRU_INLINE lru_told lru_bytes_get(lru_cache *cache, const void *key, size_t length,
                                  uint64_t hash);

/* Whether a key has a value that `get` would find. Pins nothing and does not change the order.
 *
 * Allocates if the key is longer than any before. LRU_DONE if it has one; LRU_MISSED; LRU_MEMORY;
 * LRU_NULL_KEY; LRU_CLOSED. */
LRU_INLINE lru_code lru_bytes_contains(lru_cache *cache, const void *key, size_t length,
                                       uint64_t hash);

/* Evicts the entry of a key into `gone` if it is idle. Otherwise nothing happens, now or later.
 *
 * Allocates if the key is longer than any before. LRU_DONE in either case; LRU_MEMORY;
 * LRU_NULL_KEY; LRU_CLOSED; LRU_NOT_EMPTY. */
LRU_INLINE lru_code lru_bytes_advice_evict(lru_cache *cache, const void *key, size_t length,
                                           uint64_t hash, lru_chain *gone);

/* Detaches the entry of a key, so that no call finds it by the key: the next `begin` adds a new
 * one. An idle entry is evicted into `gone`. A held one, with or without a value, is still found by
 * its pin, so its holders poll, call `ready` or `fail`, and release as before; it is evicted with
 * its last release. If the key has no entry, nothing happens.
 *
 * Allocates if the key is longer than any before. LRU_DONE in each case; LRU_MEMORY; LRU_NULL_KEY;
 * LRU_CLOSED; LRU_NOT_EMPTY. */
LRU_INLINE lru_code lru_bytes_invalidate(lru_cache *cache, const void *key, size_t length,
                                         uint64_t hash, lru_chain *gone);

/* Gives a key a value, whatever it had before: detaches the entry of the key as `invalidate` does,
 * and adds a new one with this value and this charge, which is above 0. The caller has a pin of it,
 * to be given back by `release`. If the old entry was idle, it is put into `gone`, followed by what
 * the charge evicts, oldest first.
 *
 * If the call is `strict`, and `charge` and the charges of the held entries add up to more than the
 * capacity, nothing changes. In particular, nothing is evicted, and the key keeps its entry. If
 * that is held, its charge counts too; if it is idle, it would leave.
 *
 * Allocates. LRU_DONE with the pin: the value belongs to the cache; LRU_OVERFLOW if the total,
 * not counting an idle entry of the key, would exceed 2^64 - 1, or if the stamps are used up;
 * LRU_FULL if the call is strict and there is no room; LRU_MEMORY; LRU_NO_CHARGE if `charge` is 0;
 * LRU_NULL_KEY; LRU_CLOSED; LRU_NOT_EMPTY. After a refusal the key keeps its entry, and the value
 * still belongs to the caller. */
LRU_INLINE lru_told lru_bytes_insert(lru_cache *cache, const void *key, size_t length,
                                     uint64_t hash, uint64_t charge, uint64_t value, bool strict,
                                     lru_chain *gone);

/* Copies the bytes of the key of an entry, held or idle, to the start of a buffer of `room` bytes.
 *
 * Does not allocate. LRU_NUMBER with the length of the key as the value; LRU_NO_ROOM with the
 * length of the key as the value if it is more than `room`; LRU_STALE if no entry has the stamp;
 * LRU_CLOSED. Nothing is written unless the code is LRU_NUMBER. */
LRU_INLINE lru_told lru_bytes_key_of(lru_cache *cache, lru_pin pin, void *buffer, size_t room);

/* ---------------------------------------------------------------------------- keys of two words */

/* As the calls above, for keys of two words: the key is (first, second), and two keys are equal if
 * both words are. Only `begin` for a new entry and `insert` allocate. On a cache whose keys are
 * bytes, each answers LRU_OTHER_KEYS. */
lru_told lru_words_begin(lru_cache *cache, uint64_t first, uint64_t second, uint64_t charge,
                         bool strict, lru_chain *gone);
lru_told lru_words_get(lru_cache *cache, uint64_t first, uint64_t second);
lru_code lru_words_contains(lru_cache *cache, uint64_t first, uint64_t second);
LRU_INLINE lru_code lru_words_advice_evict(lru_cache *cache, uint64_t first, uint64_t second,
                                           lru_chain *gone);
LRU_INLINE lru_code lru_words_invalidate(lru_cache *cache, uint64_t first, uint64_t second,
                                         lru_chain *gone);
lru_told lru_words_insert(lru_cache *cache, uint64_t first, uint64_t second, uint64_t charge,
                          uint64_t value, bool strict, lru_chain *gone);

/* Writes the key of an entry, held or idle. LRU_DONE; LRU_STALE if no entry has the stamp;
 * LRU_CLOSED; LRU_OTHER_KEYS. Nothing is written unless the code is LRU_DONE. */
lru_code lru_words_key_of(lru_cache *cache, lru_pin pin, uint64_t *first, uint64_t *second);

/* ------------------------------------------------------------------------- caches of both kinds */

/* Frees a cache and puts all entries that have a value into `left`, including those that are held:
 * their values are the caller's to delete, and their pins are no longer valid. Entries whose
 * value is still being made are not put there. `cache` is closed, and can be opened again.
 *
 * The idle entries come first, oldest first; held entries follow, in no particular order.
 *
 * Does not allocate. LRU_DONE; LRU_CLOSED; LRU_NOT_EMPTY. */
lru_code lru_cache_free(lru_cache *cache, lru_chain *left);

/* Asks again after LRU_WAIT. No pin is added or taken. The caller that makes the value must not
 * ask: it would be told LRU_WAIT, to wait for itself.
 *
 * Does not allocate. LRU_WAIT with the pin; LRU_MAKE with the pin if the other caller failed: this
 * one makes the value now; LRU_HIT with the pin and the value; LRU_STALE if no held entry has the
 * stamp; LRU_CLOSED. */
lru_told lru_cache_poll(lru_cache *cache, lru_pin pin);

/* Stores the value of an entry whose value is being made. The value belongs to the cache until it
 * is handed out in a chain; after a refusal it still belongs to the caller.
 *
 * Does not allocate. LRU_DONE; LRU_STALE if no entry with the stamp has its value being made;
 * LRU_CLOSED. */
LRU_INLINE lru_code lru_cache_ready(lru_cache *cache, lru_pin pin, uint64_t value);

/* As `ready`, for a value that tells its charge only once it is made: `charge`, above 0, takes the
 * place of the one with which the entry was begun, 1 for example. It counts for every holder of the
 * entry. While the total is above the capacity, idle entries are evicted into `gone`, oldest first.
 *
 * If the call is `strict`, and `charge` and the charges of the other held entries add up to more
 * than the capacity, nothing changes. In particular, nothing is evicted.
 *
 * Does not allocate. LRU_DONE: the value belongs to the cache; LRU_STALE if no entry with the stamp
 * has its value being made; LRU_OVERFLOW if the total would exceed 2^64 - 1; LRU_FULL if the call
 * is strict and there is no room; LRU_NO_CHARGE if `charge` is 0; LRU_CLOSED; LRU_NOT_EMPTY. After
 * a refusal the value still belongs to the caller, who, unless the code is LRU_STALE, still makes
 * it: call `ready`, `ready_with` or `fail`. */
LRU_INLINE lru_code lru_cache_ready_with(lru_cache *cache, lru_pin pin, uint64_t value,
                                         uint64_t charge, bool strict, lru_chain *gone);

/* Gives up making a value, and gives back the pin.
 *
 * Does not allocate. LRU_LEFT; LRU_REMOVED; LRU_STALE if no entry with the stamp has its value
 * being made; LRU_CLOSED. */
lru_code lru_cache_fail(lru_cache *cache, lru_pin pin);

/* Pins an entry once more by its pin, for another holder. The entry may be held, detached or not,
 * or idle; an idle one is held then, as after a `get` of its key. No key is looked up, so this is
 * counted neither as a hit nor as a miss. The pin that is told is equal to the one that was passed,
 * and both are given back.
 *
 * Does not allocate. LRU_PINNED with the pin and the value; LRU_STALE if no entry with a value has
 * the stamp; LRU_OVERFLOW if the entry has as many pins as it may have; LRU_CLOSED. */
lru_told lru_cache_repin(lru_cache *cache, lru_pin pin);

/* Gives back one pin of an entry. If it was the last, the entry becomes the newest idle one, or is
 * evicted if it is detached. What is evicted, perhaps this entry itself, is put into `gone`, oldest
 * first.
 *
 * Does not allocate. LRU_DONE; LRU_STALE if no held entry with a value has the stamp; LRU_CLOSED;
 * LRU_NOT_EMPTY. */
LRU_INLINE lru_code lru_cache_release(lru_cache *cache, lru_pin pin, lru_chain *gone);

/* Gives back one pin of an entry, as `release` does. But if it was the last, the entry is evicted
 * into `gone` at once, in place of becoming idle; no other entry is evicted. If the entry has more
 * pins, this is the same as `release`.
 *
 * Does not allocate. LRU_DONE in either case; LRU_STALE if no held entry with a value has the
 * stamp; LRU_CLOSED; LRU_NOT_EMPTY. */
lru_code lru_cache_release_and_evict(lru_cache *cache, lru_pin pin, lru_chain *gone);

/* Evicts all idle entries into `gone`, oldest first.
 *
 * Does not allocate. LRU_DONE; LRU_CLOSED; LRU_NOT_EMPTY. */
lru_code lru_cache_prune(lru_cache *cache, lru_chain *gone);

/* Sets the capacity. While the total is above it, idle entries are evicted into `gone`, oldest
 * first.
 *
 * Does not allocate. LRU_DONE; LRU_CLOSED; LRU_NOT_EMPTY. */
lru_code lru_cache_set_capacity(lru_cache *cache, uint64_t capacity, lru_chain *gone);

/* Makes room for `entries` entries in all, so that no call that adds one grows a table until there
 * are more. No call but lru_cache_free gives the memory of the tables back.
 *
 * Allocates. LRU_DONE; LRU_MEMORY; LRU_CLOSED. */
lru_code lru_cache_reserve(lru_cache *cache, size_t entries);

/* The total of the charges of all entries; the total of those that are held; the capacity; and the
 * number of all entries. Entries whose value is being made and detached entries count, and are
 * held. The pinned charge is 0 if and only if no pin is left to be given back.
 *
 * These do not allocate, and take the same time however many entries there are. LRU_NUMBER with the
 * number as the value; LRU_CLOSED. */
lru_told lru_cache_total(lru_cache *cache);
lru_told lru_cache_pinned_charge(lru_cache *cache);
lru_told lru_cache_capacity(lru_cache *cache);
lru_told lru_cache_len(lru_cache *cache);

/* Writes all of these numbers to `out`, and how often the calls on the cache hit and missed.
 *
 * Does not allocate, and takes the same time however many entries there are. LRU_DONE; LRU_CLOSED,
 * and nothing is written. */
lru_code lru_cache_stats(lru_cache *cache, lru_stats *out);

/* Writes the entry of a pin to `out`. The pin may have been given back already, as long as the
 * entry has not left the cache. Pins nothing and does not change the order.
 *
 * Does not allocate. LRU_DONE; LRU_STALE if no entry with a value has the stamp; LRU_CLOSED.
 * Nothing is written unless the code is LRU_DONE. */
lru_code lru_cache_entry(lru_cache *cache, lru_pin pin, lru_entry *out);

/* Writes all entries that have a value, each once and in no particular order, to the start of a
 * buffer with room for `room` entries. Pins nothing and does not change the order, so a pin that is
 * written is good only until another call evicts its entry: call `repin` to keep the entry. Room
 * for as many entries as lru_cache_len tells is enough.
 *
 *     lru_told told = lru_cache_entries(&cache, entries, room);
 *     for (size_t n = 0; told.code == LRU_NUMBER && n < told.value; n++)
 *         sum += entries[n].charge;
 *
 * Does not allocate, and takes time in proportion to the greatest number of entries that there ever
 * were at once. LRU_NUMBER with the number of entries written as the value; LRU_NO_ROOM, with the
 * number that lru_cache_len tells as the value, if more entries than `room` have a value: the
 * buffer then has some of them; LRU_CLOSED, and nothing is written. */
LRU_INLINE lru_told lru_cache_entries(lru_cache *cache, lru_entry *out, size_t room);

/* --------------------------------------------------------------------------------------- chains */

/* Opens an empty chain. A chain may be used for any number of calls and caches, one at a time. It
 * can be popped without a lock if each thread has its own. The caller frees it with
 * lru_chain_free.
 *
 * Allocates. LRU_DONE; LRU_MEMORY; LRU_OPEN. */
lru_code lru_chain_new(lru_chain *out);

/* Frees an empty chain, and closes it.
 *
 * Does not allocate. LRU_DONE; LRU_NOT_EMPTY: the chain is still open; LRU_CLOSED. */
lru_code lru_chain_free(lru_chain *chain);

/* Removes the first entry of a chain and writes it to `out`; its value is the caller's again. False
 * if no entry is left or the chain is not open, and `out` is not written. Does not allocate. */
bool lru_chain_pop(lru_chain *chain, lru_gone *out);

/* Whether no entry is left, or the chain is not open. Does not allocate. */
bool lru_chain_is_empty(lru_chain *chain);

/* ------------------------------------------------------------------------------------ the clock */

/* THE CLOCK. A cache for threads whose hits take no lock. Its keys are two words, or bytes to which
 * its values lead (KEYS OF BYTES IN A CLOCK, below); its values are one word. It does not evict in
 * the exact order of the last uses: a new entry is on trial, and leaves unless it is used. Each of
 * the others has up to three chances: a hit adds one, and a hand that moves from entry to entry
 * takes one away and evicts an entry that has none.
 *
 * A clock is one shard. The caller has a mutex for it, and as many clocks as it wants shards. Few
 * are needed, as hits do not contend: for eight threads that mostly hit, 64 clocks were no faster
 * than 16. Each thread has a reader of each clock. lru_threads_clock.h has all of these, with POSIX
 * threads. What may be called when:
 *
 *     lru_clock_*    under the mutex, as any call on a handle that threads share
 *     lru_reader_*   without it, from the thread that has the reader; lru_reader_new is given the
 *                    clock too, and so is called under the mutex
 *
 * A hit, the place of its pin, and how the pin is given back:
 *
 *     lru_found found = lru_reader_pin(&reader, hash, first, second);
 *     if (found.code == LRU_HIT) {
 *         use(found.value);
 *         lru_code code = lru_reader_unpin(&reader, found.place);
 *         if (code == LRU_LAST) {
 *             pthread_mutex_lock(&mutex);
 *             code = lru_clock_collect(&clock, found.place, &left);
 *             pthread_mutex_unlock(&mutex);
 *             if (code == LRU_GONE)
 *                 delete_value(left.value);
 *         }
 *     }
 *
 * A miss makes the value, takes the mutex, makes room and adds. At most one entry leaves in a call:
 *
 *     while (lru_clock_make_room(&clock, charge, &left) == LRU_GONE)
 *         keep(left);
 *     found = lru_clock_add(&clock, hash, first, second, charge, value, false);
 *
 * and deletes what was kept once the mutex is released. If another thread has added the key
 * meanwhile, it is told LRU_HIT with the other value, pinned, and its own was not taken.
 *
 * A new value of a key is inserted, which replaces the key's entry and makes room for itself. After
 * LRU_GONE another entry has to leave first, and the call is made again:
 *
 *     do {
 *         pthread_mutex_lock(&mutex);
 *         found = lru_clock_insert(&clock, hash, first, second, charge, value, false, &left);
 *         pthread_mutex_unlock(&mutex);
 *         if (found.code == LRU_GONE || found.code == LRU_REPLACED)
 *             delete_value(left.value);
 *     } while (found.code == LRU_GONE);
 *
 * Threads that miss the same key at once can leave its value to one of them, the maker. It holds no
 * mutex while it makes the value, and the others wait, here for a condition variable. `waiting` is
 * how many wait for any key, so that the maker wakes nobody if there are none; lru_threads_clock.h
 * knows of each key whether somebody waits for it:
 *
 *     pthread_mutex_lock(&mutex);
 *     found = lru_clock_begin(&clock, hash, first, second, charge);
 *     while (found.code == LRU_WAIT) {
 *         waiting++;
 *         pthread_cond_wait(&ended, &mutex);
 *         waiting--;
 *         found = lru_clock_begin(&clock, hash, first, second, charge);
 *     }
 *     if (found.code == LRU_MAKE) {
 *         uint64_t ticket = found.value, value;
 *         pthread_mutex_unlock(&mutex);
 *         bool is_made = make_value(first, second, &value);
 *         pthread_mutex_lock(&mutex);
 *         if (is_made) {
 *             while (lru_clock_make_room(&clock, charge, &left) == LRU_GONE)
 *                 keep(left);
 *             found = lru_clock_ready(&clock, ticket, hash, charge, value, false);
 *         } else {
 *             lru_clock_fail(&clock, ticket);
 *         }
 *         if (waiting > 0)
 *             pthread_cond_broadcast(&ended);
 *     }
 *     pthread_mutex_unlock(&mutex);
 *
 * After LRU_HIT and LRU_DONE it has a pin of the entry. Any thread that has the ticket may end the
 * making. If the key is erased, added or inserted meanwhile, later callers make another value, or
 * find the one that was stored, and the maker's value is for itself alone: `ready` stores and pins
 * it as any other, and giving that pin back is told LRU_LAST.
 *
 * A pin is named by the place of its entry, and the rules 7 and 8 above hold for it: it is given
 * back once, with any reader of its clock. If it is given back twice, the second call is told
 * LRU_STALE, or takes another holder's pin of the entry that is at the place by then, whose value
 * may then be evicted.
 *
 * The hash is one of the program's choice, of the key alone. A clock uses its upper half; a program
 * with several clocks chooses among them by the lower half. Keys whose upper halves are equal are
 * told apart, but each look-up of such a key visits all of them. A call that passes another hash
 * for a key does not find its entry, and may add a second one; nothing worse happens.
 *
 * Less is proved of these calls than of the others: that a call on a handle that is not open
 * changes nothing, that a hit by a place tells that place, that at most one entry leaves in a
 * make_room, release_and_evict, collect, prune or erase, and none unless LRU_GONE is told, that
 * none leaves while its slot counts a pin, that a strict add or ready stores nothing that would
 * take the total above the capacity, and is told LRU_FULL for no other reason, that an add or an
 * insert that is refused changes no entry, that the total has grown by the charge after an insert
 * that stores its value, less that of the entry that left, and is within the capacity after a
 * strict one, that the index has no entry of a key after it was erased, that nobody is told
 * LRU_MAKE while a caller makes the value of the key, unless it was erased, added or inserted
 * meanwhile, and that a ticket is accepted only while its making goes on, and ends it. That at most
 * one entry leaves in any other call, that a look-up counts its pin, and finds the entry that the
 * index has, that each value is told to leave once, that an insert replaces the key's entry, that
 * no ticket is told twice, and that nobody finds a value that was made for an erased key, is
 * tested.
 *
 * Giving a pin back evicts nothing. If pinned entries keep the total above the capacity, whoever
 * gives back the last pin of one is told LRU_ABOVE. To have the total down at once, take the mutex
 * then, and make room for a charge of 0 until LRU_DONE; otherwise the next make_room evicts down to
 * the capacity. LRU_ABOVE is not told in place of LRU_LAST, nor while another thread compares the
 * entry with a key.
 *
 * ThreadSanitizer does not see the atomic instructions that order what threads do with a clock. A
 * program that is tested with it has to tell it of them, by some address of the clock's own: by
 * __tsan_release before an add, insert, ready or unpin, and by __tsan_acquire after a look-up with
 * a reader, and after an entry has left. lru_threads_clock.h and the headers for C++ do so. */

/* Opens an empty clock, whose entries are evicted while their total is above `capacity`. The caller
 * frees it with lru_clock_free.
 *
 * Allocates. LRU_DONE; LRU_MEMORY; LRU_OPEN. */
lru_code lru_clock_new(uint64_t capacity, lru_clock *out);

/* Frees a clock without entries, and closes it: prune it first. What it shares with its readers is
 * freed with the last of them.
 *
 * Does not allocate. LRU_DONE; LRU_NOT_EMPTY if it has entries, pinned or not, or a making has not
 * ended; LRU_CLOSED. */
lru_code lru_clock_free(lru_clock *clock);

/* Opens a reader of a clock, for a thread. Readers may be opened and freed at any time.
 *
 * Allocates. LRU_DONE; LRU_MEMORY; LRU_OPEN; LRU_CLOSED if the clock is not open. */
lru_code lru_reader_new(lru_clock *clock, lru_reader *out);

/* Frees a reader, and closes it. Pins that were taken with it stay, and another reader may give
 * them back. Needs no lock.
 *
 * Does not allocate. LRU_DONE; LRU_CLOSED. */
lru_code lru_reader_free(lru_reader *reader);

/* Pins the entry of a key. While another thread changes the clock, it may miss an entry that is
 * there; the calls under the mutex miss none.
 *
 * Does not allocate. LRU_HIT with the value and the place; LRU_MISSED; LRU_OVERFLOW if the entry
 * has as many pins as it may have, about a billion; LRU_CLOSED. */
lru_found lru_reader_pin(lru_reader *reader, uint64_t hash, uint64_t first, uint64_t second);

/* Pins whatever entry is at a place, even an invalidated one: for one more pin of a pinned entry,
 * and to visit all entries, at the places below the number that lru_clock_places tells.
 *
 * Does not allocate. LRU_HIT with the value and the place; LRU_MISSED if there is none;
 * LRU_OVERFLOW; LRU_CLOSED. */
lru_found lru_reader_pin_at(lru_reader *reader, uint32_t place);

/* Gives back a pin.
 *
 * Does not allocate. LRU_DONE; LRU_LAST and LRU_ABOVE, which also give it back; LRU_STALE if no
 * entry is at the place, or it has no pin; LRU_CLOSED. LRU_ABOVE is told only after a call on the
 * clock has left the total above the capacity, and until one leaves it below. */
lru_code lru_reader_unpin(lru_reader *reader, uint32_t place);

/* Evicts one entry, if another charge would take the total above the capacity. Entries that are
 * pinned stay.
 *
 * Does not allocate. LRU_GONE with the entry in `left`; LRU_DONE if no entry left; LRU_CLOSED. */
lru_code lru_clock_make_room(lru_clock *clock, uint64_t charge, lru_left *left);

/* Adds an entry and pins it; or pins the entry that the key has. Evicts nothing: the total may be
 * above the capacity then, if too much is pinned, unless the call is strict. If a value is being
 * made for the key, nobody waits for it any more: wake the threads that do.
 *
 * Allocates, unless the clock has had as many entries at once before. LRU_DONE with the value and
 * the place; LRU_HIT with the value and the place of the key's entry: `value` was not taken;
 * LRU_NO_CHARGE; LRU_FULL if `strict` and the charge would take the total above the capacity;
 * LRU_MEMORY; LRU_OVERFLOW; LRU_CLOSED. */
lru_found lru_clock_add(lru_clock *clock, uint64_t hash, uint64_t first, uint64_t second,
                        uint64_t charge, uint64_t value, bool strict);

/* Stores an entry in place of the key's, and pins it. Makes room for it, by at most one entry that
 * leaves. If another has to leave first, nothing is stored: call again, at once or after the mutex
 * was released. The key's entry leaves last. Until then its charge counts as room, unless it is
 * pinned: then it stays, as after an erase. If all other entries are pinned, the total may be above
 * the capacity then, unless the call is strict. If a value is being made for the key, nobody waits
 * for it any more after LRU_DONE and LRU_REPLACED: wake the threads that do.
 *
 * A call that is refused changes no entry: the key has the one that it had, unless a call before it
 * that was told LRU_GONE has evicted that, as any other. A strict call may visit every place.
 *
 * Allocates, unless the clock has had more entries at once before. LRU_DONE with the value and the
 * place; LRU_REPLACED with them, and with the entry that left in `left`; LRU_GONE with the entry
 * that left in `left`: call again; LRU_NO_CHARGE; LRU_FULL if `strict`, and the charge and those of
 * the pinned entries add up to more than the capacity; LRU_MEMORY; LRU_OVERFLOW; LRU_CLOSED. The
 * value is taken with LRU_DONE and LRU_REPLACED only. */
lru_found lru_clock_insert(lru_clock *clock, uint64_t hash, uint64_t first, uint64_t second,
                           uint64_t charge, uint64_t value, bool strict, lru_left *left);

/* Pins the entry of a key; or begins the making of its value: the caller makes the value now, with
 * or without the mutex, and then calls ready or fail with the ticket; or tells that another caller
 * is making it: wait until a making of this clock has ended, and call again. Nothing wakes the
 * threads that wait; a making may also end, for those that wait, with an erase, an add or an insert
 * of the key. Evicts nothing. The charge is not kept: pass the one that is expected, or 1.
 *
 * Allocates, unless as many makings have gone on at once before. LRU_HIT with the value and the
 * place; LRU_MAKE with the ticket as the value; LRU_WAIT; LRU_NO_CHARGE; LRU_MEMORY; LRU_OVERFLOW
 * if the total would exceed 2^64 - 1, the key's entry has as many pins as it may have, or the clock
 * has begun 2^64 - 1 makings; LRU_CLOSED. */
lru_found lru_clock_begin(lru_clock *clock, uint64_t hash, uint64_t first, uint64_t second,
                          uint64_t charge);

/* Ends a making, adds an entry of its key with this value and pins it. The hash is that of begin;
 * the charge may be another. Evicts nothing: make room first, as for add. If the key was erased,
 * added or inserted meanwhile, the entry is invalidated already, and only this caller gets it:
 * giving back its pin is told LRU_LAST.
 *
 * Allocates, unless the clock has had as many entries at once before. LRU_DONE with the value and
 * the place; LRU_NO_CHARGE: the making goes on; LRU_FULL if `strict` and the charge would take the
 * total above the capacity, whatever the ticket: the making goes on; LRU_STALE if no making has the
 * ticket: it was never told, or the making has ended; LRU_MEMORY and LRU_OVERFLOW: the making has
 * ended, as with fail; LRU_CLOSED. The value is taken with LRU_DONE only. */
lru_found lru_clock_ready(lru_clock *clock, uint64_t ticket, uint64_t hash, uint64_t charge,
                          uint64_t value, bool strict);

/* Ends a making that failed: the next begin for the key is told LRU_MAKE.
 *
 * Does not allocate. LRU_DONE; LRU_STALE if no making has the ticket; LRU_CLOSED. */
lru_code lru_clock_fail(lru_clock *clock, uint64_t ticket);

/* Pins the entry of a key, as lru_reader_pin does, and misses none.
 *
 * Does not allocate. As lru_reader_pin. */
lru_found lru_clock_find(lru_clock *clock, uint64_t hash, uint64_t first, uint64_t second);

/* Invalidates the entry of a key: no look-up that begins later finds it. If it is pinned, whoever
 * gives back its last pin is told LRU_LAST; if that was a look-up of another key that compared this
 * one, the entry leaves with a later make_room or prune. A value that is being made for the key is
 * for its maker alone, and nobody waits for it any more: wake the threads that do.
 *
 * Does not allocate. LRU_GONE with the entry in `left`; LRU_DONE if the key has no entry or it is
 * pinned; LRU_CLOSED. */
lru_code lru_clock_erase(lru_clock *clock, uint64_t hash, uint64_t first, uint64_t second,
                         lru_left *left);

/* Gives back a pin of the entry at a place, as lru_reader_unpin does, and takes the entry out if it
 * has no other pin: no look-up finds it any more.
 *
 * Does not allocate. LRU_GONE with the entry in `left`; LRU_DONE if it has other pins, and stays;
 * LRU_STALE if no entry is at the place, or it has no pin; LRU_CLOSED. */
lru_code lru_clock_release_and_evict(lru_clock *clock, uint32_t place, lru_left *left);

/* Takes out the entry at a place, after LRU_LAST.
 *
 * Does not allocate. LRU_GONE with the entry in `left`; LRU_DONE if no invalidated entry without
 * pins is there: another call has taken it; LRU_CLOSED. */
lru_code lru_clock_collect(lru_clock *clock, uint32_t place, lru_left *left);

/* Evicts the first entry that is not pinned from the place `*next` on, and sets `*next` to its
 * place. Begin with 0, and call until LRU_DONE.
 *
 * Does not allocate. LRU_GONE with the entry in `left`; LRU_DONE; LRU_CLOSED. */
lru_code lru_clock_prune(lru_clock *clock, uint32_t *next, lru_left *left);

/* Sets the capacity. Evicts nothing: call make_room with a charge of 0 until LRU_DONE.
 *
 * Does not allocate. LRU_DONE; LRU_CLOSED. */
lru_code lru_clock_set_capacity(lru_clock *clock, uint64_t capacity);

/* Makes room in memory for as many entries, so that `add`, `insert` and `ready` allocate nothing
 * while there are fewer. Never gives memory back.
 *
 * Allocates about 138 bytes for each entry, page by page. LRU_DONE; LRU_OVERFLOW, at once, if
 * the clock cannot have as many entries, that is, more than 4,294,966,784; LRU_MEMORY if there is
 * no memory for all of them, and then the room that was made stays; LRU_CLOSED. No entry changes
 * in any case. */
lru_code lru_clock_reserve(lru_clock *clock, size_t entries);

/* What has happened in the clock, and what it holds.
 *
 * Does not allocate. LRU_DONE; LRU_CLOSED: nothing is written. */
lru_code lru_clock_stats(lru_clock *clock, lru_clock_counts *out);

/* The total of the charges of all entries; the total of those that are pinned; the capacity; the
 * number of all entries; and the number of places.
 *
 * These do not allocate. The pinned charge visits every place. LRU_NUMBER with the number as the
 * value; LRU_CLOSED. */
lru_found lru_clock_total(lru_clock *clock);
lru_found lru_clock_pinned_charge(lru_clock *clock);
lru_found lru_clock_capacity(lru_clock *clock);
lru_found lru_clock_len(lru_clock *clock);
lru_found lru_clock_places(lru_clock *clock);

/* KEYS OF BYTES IN A CLOCK. The clock keeps no copy of such a key, as its value leads to it: each
 * value is the address of an object that begins with an lru_key.
 *
 *     struct page {
 *         lru_key key;
 *         ...
 *     };
 *
 *     uint64_t hash = lru_hash_bytes(url, length, seed);
 *     lru_found found = lru_reader_pin_bytes(&reader, url, length, hash);
 *     if (found.code == LRU_HIT) {
 *         struct page *page = (struct page *)found.value;
 *
 * The calls below do what those with the same names do for keys of words. A look-up finds an entry
 * by the hash and the length, pins it, and then compares the bytes. It needs no lock for that: the
 * object is deleted only after its entry has left, and no entry leaves while it is pinned. In place
 * of an `add`, call find_bytes and then insert_bytes. The calls that take no key are the same for
 * both kinds.
 *
 * Two more rules, which are not checked:
 *
 *  9. The lru_key of a value and its bytes stay as they are while the entry is in the clock: from
 *     the call that stores the value until the one that tells the entry in `left`.
 * 10. The keys of a clock are all words or all bytes. These calls follow the value of whatever
 *     entry has the hash and the length.
 *
 * The hash is a part of the key, as for lru_bytes_*, and comes from lru_hash_bytes or from the
 * program (HASHES, above). A clock mixes it once more. A program with several clocks chooses among
 * them by lru_shard_of.
 *
 * Keys of the same hash and the same length are told apart, but a clock has an entry of only one of
 * them at a time: another key that is stored takes its place, and an insert or an erase of one is
 * one of the other too, also for its maker. With a good hash of 64 bits, that happens to one pair
 * of keys in 2^64. A look-up of the other key is told LRU_MISSED, and gives back its pin. If that
 * was the last one of an erased or replaced entry, or while the total was above the capacity,
 * nobody is told LRU_LAST or LRU_ABOVE: the entry leaves with a later make_room or prune.
 *
 * These calls are inline code over those with words. What is proved of those holds for the hash and
 * the length. The comparison is tested. */

/* As lru_reader_pin. LRU_NULL_KEY; LRU_OVERFLOW if the entry, perhaps of another key with this hash
 * and length, has as many pins as it may have. */
LRU_INLINE lru_found lru_reader_pin_bytes(lru_reader *reader, const void *key, size_t length,
                                          uint64_t hash);

/* As lru_clock_find. The reader is any one of the clock: it gives back the pin of another key's
 * entry. LRU_NULL_KEY; LRU_OVERFLOW as lru_reader_pin_bytes. */
LRU_INLINE lru_found lru_clock_find_bytes(lru_clock *clock, lru_reader *reader, const void *key,
                                          size_t length, uint64_t hash);

/* As lru_clock_insert, with the key of the value. LRU_NULL_KEY: the value is not taken. */
LRU_INLINE lru_found lru_clock_insert_bytes(lru_clock *clock, uint64_t hash, uint64_t charge,
                                            const lru_key *value, bool strict, lru_left *left);

/* As lru_clock_begin. LRU_GONE with the entry in `left` if that of another key with this hash and
 * length has left for this key: call again. If others have pinned that entry, it is erased, even if
 * this call is refused then. LRU_WAIT may be for the making of such a key. LRU_NULL_KEY. `left` is
 * written with LRU_GONE only. */
LRU_INLINE lru_found lru_clock_begin_bytes(lru_clock *clock, const void *key, size_t length,
                                           uint64_t hash, uint64_t charge, lru_left *left);

/* As lru_clock_ready: the hash is that of begin, and the value has the key of begin. LRU_NULL_KEY:
 * the making goes on. */
LRU_INLINE lru_found lru_clock_ready_bytes(lru_clock *clock, uint64_t ticket, uint64_t hash,
                                           uint64_t charge, const lru_key *value, bool strict);

/* As lru_clock_erase. Takes no bytes: whichever key with this hash and length has an entry loses
 * it. */
LRU_INLINE lru_code lru_clock_erase_bytes(lru_clock *clock, size_t length, uint64_t hash,
                                          lru_left *left);

/* -------------------------------------------------------------- the functions behind some calls */

/* The functions behind the calls above that take a key of bytes or a buffer. The pointer must not
 * be null, even if the length is 0. A binding for a language whose slices are never null may call
 * them directly. */
lru_told lru_bytes_begin_nonnull(lru_cache *cache, const uint8_t *key, size_t length, uint64_t hash,
                                 uint64_t charge, bool strict, lru_chain *gone);
lru_told lru_bytes_get_nonnull(lru_cache *cache, const uint8_t *key, size_t length, uint64_t hash);
lru_code lru_bytes_contains_nonnull(lru_cache *cache, const uint8_t *key, size_t length,
                                    uint64_t hash);
lru_code lru_bytes_evict_nonnull(lru_cache *cache, const uint8_t *key, size_t length, uint64_t hash,
                                 bool even_held, lru_chain *gone);
lru_told lru_bytes_insert_nonnull(lru_cache *cache, const uint8_t *key, size_t length,
                                  uint64_t hash, uint64_t charge, uint64_t value, bool strict,
                                  lru_chain *gone);
lru_told lru_bytes_key_of_nonnull(lru_cache *cache, lru_pin pin, uint8_t *buffer, size_t room);
lru_told lru_cache_entries_nonnull(lru_cache *cache, lru_entry *out, size_t room);

/* The functions behind `ready`, `ready_with` and `release`. They take the members of the pin one by
 * one, in registers: a pin in memory is copied 16 bytes at a time, and a processor that reads as
 * one what was just written as two words waits until all earlier writes have reached its cache. */
lru_code lru_cache_ready_at(lru_cache *cache, uint64_t stamp, uint64_t hash, size_t place,
                            uint64_t value);
lru_code lru_cache_ready_with_at(lru_cache *cache, uint64_t stamp, uint64_t hash, size_t place,
                                 uint64_t value, uint64_t charge, bool strict, lru_chain *gone);
lru_code lru_cache_release_at(lru_cache *cache, uint64_t stamp, uint64_t hash, size_t place,
                              lru_chain *gone);

LRU_INLINE lru_code lru_cache_ready(lru_cache *cache, lru_pin pin, uint64_t value) {
    return lru_cache_ready_at(cache, pin.stamp, pin.hash, pin.place, value);
}

LRU_INLINE lru_code lru_cache_ready_with(lru_cache *cache, lru_pin pin, uint64_t value,
                                         uint64_t charge, bool strict, lru_chain *gone) {
    return lru_cache_ready_with_at(cache, pin.stamp, pin.hash, pin.place, value, charge, strict,
                                   gone);
}

LRU_INLINE lru_code lru_cache_release(lru_cache *cache, lru_pin pin, lru_chain *gone) {
    return lru_cache_release_at(cache, pin.stamp, pin.hash, pin.place, gone);
}

/* The function behind `advice_evict` and `invalidate`, as lru_bytes_evict_nonnull is for keys of
 * bytes. It evicts an idle entry; if `even_held`, it also detaches a held one. */
lru_code lru_words_evict(lru_cache *cache, uint64_t first, uint64_t second, bool even_held,
                         lru_chain *gone);

LRU_INLINE lru_code lru_words_advice_evict(lru_cache *cache, uint64_t first, uint64_t second,
                                           lru_chain *gone) {
    return lru_words_evict(cache, first, second, false, gone);
}

LRU_INLINE lru_code lru_words_invalidate(lru_cache *cache, uint64_t first, uint64_t second,
                                         lru_chain *gone) {
    return lru_words_evict(cache, first, second, true, gone);
}

/* In C++, casts of C are reported by -Wold-style-cast. The second one is between an address and a
 * word. */
#ifdef __cplusplus
#define LRU_CAST(type, value) static_cast<type>(value)
#define LRU_RECAST(type, value) reinterpret_cast<type>(value)
#else
#define LRU_CAST(type, value) ((type)(value))
#define LRU_RECAST(type, value) ((type)(value))
#endif

/* Parts of the functions that hash; these names are internal. A product of two words, whose halves
 * are joined; and up to eight bytes as a word, by reads that may overlap. */
__extension__ typedef unsigned __int128 lru_product;

static inline uint64_t lru_hash_multiply(uint64_t a, uint64_t b) {
    lru_product product = LRU_CAST(lru_product, a) * b;
    return LRU_CAST(uint64_t, product) ^ LRU_CAST(uint64_t, product >> 64);
}

static inline uint64_t lru_hash_word(const uint8_t *at, size_t length) {
    uint32_t low, high;
    if (length == 0)
        return 0;
    if (length < 4)
        return at[0] | LRU_CAST(uint64_t, at[length / 2]) << 8 |
               LRU_CAST(uint64_t, at[length - 1]) << 16;
    memcpy(&low, at, 4);
    memcpy(&high, at + length - 4, 4);
    return low | LRU_CAST(uint64_t, high) << 32;
}

/* No factor is ever 0, so that without the seed nobody can tell which keys have hashes in common.
 * The last word is left to the multiplication of the cache, which spreads a series of keys, such as
 * the offsets of blocks, more evenly than two multiplications do. The first two numbers are not
 * those with which a cache begins, as equal seeds would cancel each other. */
LRU_INLINE uint64_t lru_hash_bytes(const void *key, size_t length, uint64_t seed) {
    const uint8_t *at = LRU_CAST(const uint8_t *, key);
    uint64_t hash;
    if (key == NULL)
        length = 0;
    hash = lru_hash_multiply(0x13198a2e03707344 ^ seed,
                             0x94d049bb133111eb ^ 2 * LRU_CAST(uint64_t, length));
    for (; length > 8; at += 8, length -= 8)
        hash = lru_hash_multiply(hash ^ lru_hash_word(at, 8), 0x9e3779b97f4a7c05);
    return hash ^ lru_hash_word(at, length);
}

LRU_INLINE uint64_t lru_shard_of(uint64_t hash, uint64_t count) {
    lru_product mixed = lru_hash_multiply(hash, 0xbf58476d1ce4e5b9);
    return LRU_CAST(uint64_t, mixed * count >> 64);
}

/* The calls that also take a null pointer. These first three names are internal. */
static const uint8_t lru_empty_key[1] = {0};

static inline const uint8_t *lru_key_or_empty(const void *key) {
    return key != NULL ? LRU_CAST(const uint8_t *, key) : lru_empty_key;
}

static inline lru_told lru_told_null_key(void) {
    lru_told told = {{0, 0, 0}, 0, LRU_NULL_KEY};
    return told;
}

LRU_INLINE lru_told lru_bytes_begin(lru_cache *cache, const void *key, size_t length,
                                    uint64_t hash, uint64_t charge, bool strict,
                                    lru_chain *gone) {
    if (key == NULL && length > 0)
        return lru_told_null_key();
    return lru_bytes_begin_nonnull(cache, lru_key_or_empty(key), length, hash, charge, strict,
                                   gone);
}

LRU_INLINE lru_told lru_bytes_get(lru_cache *cache, const void *key, size_t length,
                                  uint64_t hash) {
    if (key == NULL && length > 0)
        return lru_told_null_key();
    return lru_bytes_get_nonnull(cache, lru_key_or_empty(key), length, hash);
}

LRU_INLINE lru_code lru_bytes_contains(lru_cache *cache, const void *key, size_t length,
                                       uint64_t hash) {
    if (key == NULL && length > 0)
        return LRU_NULL_KEY;
    return lru_bytes_contains_nonnull(cache, lru_key_or_empty(key), length, hash);
}

LRU_INLINE lru_code lru_bytes_advice_evict(lru_cache *cache, const void *key, size_t length,
                                           uint64_t hash, lru_chain *gone) {
    if (key == NULL && length > 0)
        return LRU_NULL_KEY;
    return lru_bytes_evict_nonnull(cache, lru_key_or_empty(key), length, hash, false, gone);
}

LRU_INLINE lru_code lru_bytes_invalidate(lru_cache *cache, const void *key, size_t length,
                                         uint64_t hash, lru_chain *gone) {
    if (key == NULL && length > 0)
        return LRU_NULL_KEY;
    return lru_bytes_evict_nonnull(cache, lru_key_or_empty(key), length, hash, true, gone);
}

LRU_INLINE lru_told lru_bytes_insert(lru_cache *cache, const void *key, size_t length,
                                     uint64_t hash, uint64_t charge, uint64_t value, bool strict,
                                     lru_chain *gone) {
    if (key == NULL && length > 0)
        return lru_told_null_key();
    return lru_bytes_insert_nonnull(cache, lru_key_or_empty(key), length, hash, charge, value,
                                    strict, gone);
}

/* A null buffer has no room. */
LRU_INLINE lru_told lru_bytes_key_of(lru_cache *cache, lru_pin pin, void *buffer, size_t room) {
    uint8_t none[1];
    if (buffer == NULL)
        return lru_bytes_key_of_nonnull(cache, pin, none, 0);
    return lru_bytes_key_of_nonnull(cache, pin, LRU_CAST(uint8_t *, buffer), room);
}

LRU_INLINE lru_told lru_cache_entries(lru_cache *cache, lru_entry *out, size_t room) {
    lru_entry none[1];
    if (out == NULL)
        return lru_cache_entries_nonnull(cache, none, 0);
    return lru_cache_entries_nonnull(cache, out, room);
}

/* ThreadSanitizer does not see the atomic instructions of the library, and would report races where
 * they order what threads do. So these tell it of that order, and do nothing otherwise: what a
 * thread has done before the first comes before what another one does after the second, with the
 * same address. These names are internal. */
static inline void lru_before_release(void *at) {
#ifdef LRU_HAS_THREAD_SANITIZER
    __tsan_release(at);
#else
    LRU_CAST(void, at);
#endif
}

static inline void lru_after_acquire(void *at) {
#ifdef LRU_HAS_THREAD_SANITIZER
    __tsan_acquire(at);
#else
    LRU_CAST(void, at);
#endif
}

/* Parts of the calls on a clock with keys of bytes; these names are internal. The hash for the
 * clock, which uses its upper half; whether a call passes a null key, and whether the value of a
 * pinned entry has a key; and the answer of a look-up, which gives back the pin of another key's
 * entry. */
static inline uint64_t lru_clock_mixed(uint64_t hash) {
    return lru_hash_multiply(hash, 0x9e3779b97f4a7c05);
}

static inline bool lru_key_is_null(const void *key, size_t length) {
    return key == NULL && length > 0;
}

static inline bool lru_value_has_key(uint64_t value, const void *key, size_t length) {
    const lru_key *own = LRU_RECAST(const lru_key *, value);
    return own->length == length && (length == 0 || memcmp(own->bytes, key, length) == 0);
}

static inline lru_found lru_found_bare(lru_code code) {
    lru_found found = {0, code, 0};
    return found;
}

static inline lru_found lru_found_of_key(lru_reader *reader, lru_found found, const void *key,
                                         size_t length) {
    if (found.code == LRU_HIT)
        lru_after_acquire(LRU_RECAST(void *, found.value));
    if (found.code != LRU_HIT || lru_value_has_key(found.value, key, length))
        return found;
    lru_before_release(LRU_RECAST(void *, found.value));
    lru_reader_unpin(reader, found.place);
    return lru_found_bare(LRU_MISSED);
}

/* The word of a value that is to be stored. */
static inline uint64_t lru_word_of_key(const lru_key *value) {
    const uint64_t word = LRU_RECAST(uint64_t, value);
    lru_before_release(LRU_RECAST(void *, word));
    return word;
}

LRU_INLINE lru_found lru_reader_pin_bytes(lru_reader *reader, const void *key, size_t length,
                                          uint64_t hash) {
    lru_found found;
    if (lru_key_is_null(key, length))
        return lru_found_bare(LRU_NULL_KEY);
    found = lru_reader_pin(reader, lru_clock_mixed(hash), hash, length);
    return lru_found_of_key(reader, found, key, length);
}

LRU_INLINE lru_found lru_clock_find_bytes(lru_clock *clock, lru_reader *reader, const void *key,
                                          size_t length, uint64_t hash) {
    lru_found found;
    if (lru_key_is_null(key, length))
        return lru_found_bare(LRU_NULL_KEY);
    found = lru_clock_find(clock, lru_clock_mixed(hash), hash, length);
    return lru_found_of_key(reader, found, key, length);
}

LRU_INLINE lru_found lru_clock_insert_bytes(lru_clock *clock, uint64_t hash, uint64_t charge,
                                            const lru_key *value, bool strict, lru_left *left) {
    if (lru_key_is_null(value->bytes, value->length))
        return lru_found_bare(LRU_NULL_KEY);
    return lru_clock_insert(clock, lru_clock_mixed(hash), hash, value->length, charge,
                            lru_word_of_key(value), strict, left);
}

LRU_INLINE lru_found lru_clock_begin_bytes(lru_clock *clock, const void *key, size_t length,
                                           uint64_t hash, uint64_t charge, lru_left *left) {
    const uint64_t mixed = lru_clock_mixed(hash);
    lru_found found;
    lru_code code;
    if (lru_key_is_null(key, length))
        return lru_found_bare(LRU_NULL_KEY);
    found = lru_clock_begin(clock, mixed, hash, length, charge);
    if (found.code != LRU_HIT || lru_value_has_key(found.value, key, length))
        return found;
    /* The entry of another key leaves, or is no longer found if others have pinned it. */
    code = lru_clock_release_and_evict(clock, found.place, left);
    if (code != LRU_GONE)
        code = lru_clock_erase(clock, mixed, hash, length, left);
    if (code == LRU_GONE)
        return lru_found_bare(LRU_GONE);
    return lru_clock_begin(clock, mixed, hash, length, charge);
}

LRU_INLINE lru_found lru_clock_ready_bytes(lru_clock *clock, uint64_t ticket, uint64_t hash,
                                           uint64_t charge, const lru_key *value, bool strict) {
    if (lru_key_is_null(value->bytes, value->length))
        return lru_found_bare(LRU_NULL_KEY);
    return lru_clock_ready(clock, ticket, lru_clock_mixed(hash), charge, lru_word_of_key(value),
                           strict);
}

LRU_INLINE lru_code lru_clock_erase_bytes(lru_clock *clock, size_t length, uint64_t hash,
                                          lru_left *left) {
    return lru_clock_erase(clock, lru_clock_mixed(hash), hash, length, left);
}

#undef LRU_CAST
#undef LRU_RECAST

#ifdef __cplusplus
}
#endif

#endif
