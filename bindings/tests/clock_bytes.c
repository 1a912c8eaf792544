/* Tests the calls of lru.h on a clock whose keys are bytes: that each key finds its own entry and
 * no other one, also among keys of the same hash and length, of which one at a time has an entry;
 * and that each value is deleted once, and none while it is pinned or compared, while eight threads
 * look up, make, insert and erase such keys. A value is freed as soon as its entry has left, so
 * that AddressSanitizer reports one that is read later. Prints each failure, and exits with 1 if
 * there is any. */
#include <inttypes.h>
#include <pthread.h>
#include <sched.h>
#include <stdatomic.h>
#include <stdbool.h>
#include <stdio.h>
#include <stdlib.h>
#include <string.h>

/* How the header compares keys: see below. */
static int compare(const void *key, const void *other, size_t length);

#define memcmp compare
#include "lru.h"
#undef memcmp

static atomic_int failures;

static void check(int line, uint64_t got, uint64_t wanted) {
    if (got == wanted)
        return;
    fprintf(stderr, "clock_bytes.c:%d: got %" PRIu64 ", wanted %" PRIu64 "\n", line, got, wanted);
    failures++;
}

#define CHECK(got, wanted) check(__LINE__, (uint64_t)(got), (uint64_t)(wanted))

/* A clock of which some entry is pinned whenever keys are compared, or null. */
static lru_clock *compared;

static int compare(const void *key, const void *other, size_t length) {
    if (compared != NULL)
        CHECK(lru_clock_pinned_charge(compared).value > 0, true);
    return memcmp(key, other, length);
}

/* A value, with the bytes of its key. */
struct object {
    lru_key key;
    atomic_int pins;
    char text[16];
};

static atomic_uint made, deleted;

static lru_key *make(const char *text, size_t length) {
    struct object *object = calloc(1, sizeof *object);
    if (object == NULL)
        abort();
    memcpy(object->text, text, length);
    object->key.bytes = object->text;
    object->key.length = length;
    made++;
    return &object->key;
}

static void delete_value(uint64_t value) {
    struct object *object = (struct object *)value;
    CHECK(object->pins, 0);
    deleted++;
    free(object);
}

static bool has_text(uint64_t value, const char *text, size_t length) {
    const struct object *object = (const struct object *)value;
    return object->key.length == length && memcmp(object->text, text, length) == 0;
}

/* Evicts all entries, and frees the clock and its reader. */
static void ends(lru_clock *clock, lru_reader *reader) {
    lru_left left;
    uint32_t next = 0;
    CHECK(lru_clock_pinned_charge(clock).value, 0);
    while (lru_clock_prune(clock, &next, &left) == LRU_GONE)
        delete_value(left.value);
    CHECK(lru_clock_free(clock), LRU_DONE);
    CHECK(lru_reader_free(reader), LRU_DONE);
    CHECK(deleted, made);
}

/* --------------------------------------------------------------------------------- one thread */

/* Among these are an empty key, keys that begin with others, and bytes of 0. */
static const struct {
    const char *text;
    size_t length;
} texts[] = {{"", 0},
             {"a", 1},
             {"b", 1},
             {"a\0", 2},
             {"ab", 2},
             {"ba", 2},
             {"a\0b", 3},
             {"a\0c", 3},
             {"0123456789abcdef", 16},
             {"\0", 1},
             {"abcdefgh", 8},
             {"abcdefghi", 9},
             {"0123456789abcdeg", 16}};

enum { TEXTS = sizeof texts / sizeof texts[0] };

static uint64_t hash_of(int at) { return lru_hash_bytes(texts[at].text, texts[at].length, 7); }

static lru_found pins_text(lru_reader *reader, int at, uint64_t hash) {
    return lru_reader_pin_bytes(reader, texts[at].text, texts[at].length, hash);
}

static lru_found finds_text(lru_clock *clock, lru_reader *reader, int at) {
    return lru_clock_find_bytes(clock, reader, texts[at].text, texts[at].length, hash_of(at));
}

static void test_keys(void) {
    lru_clock clock = {0};
    lru_reader reader = {0};
    lru_left left = {1, 2, 3};
    lru_key none = {NULL, 3}, *values[TEXTS];
    lru_found found, again;
    int at;

    /* what is not open, and a null key with a length */
    CHECK(lru_reader_pin_bytes(&reader, "a", 1, 0).code, LRU_CLOSED);
    CHECK(lru_clock_find_bytes(&clock, &reader, "a", 1, 0).code, LRU_CLOSED);
    CHECK(lru_clock_begin_bytes(&clock, "a", 1, 0, 1, &left).code, LRU_CLOSED);
    CHECK(lru_clock_erase_bytes(&clock, 1, 0, &left), LRU_CLOSED);
    CHECK(lru_clock_new(100, &clock), LRU_DONE);
    CHECK(lru_reader_new(&clock, &reader), LRU_DONE);
    CHECK(lru_reader_pin_bytes(&reader, NULL, 3, 0).code, LRU_NULL_KEY);
    CHECK(lru_clock_find_bytes(&clock, &reader, NULL, 3, 0).code, LRU_NULL_KEY);
    CHECK(lru_clock_begin_bytes(&clock, NULL, 3, 0, 1, &left).code, LRU_NULL_KEY);
    CHECK(lru_clock_insert_bytes(&clock, 0, 1, &none, false, &left).code, LRU_NULL_KEY);
    found = lru_clock_begin_bytes(&clock, "abc", 3, 0, 1, &left);
    CHECK(found.code, LRU_MAKE);
    CHECK(lru_clock_ready_bytes(&clock, found.value, 0, 1, &none, false).code, LRU_NULL_KEY);
    CHECK(lru_clock_fail(&clock, found.value), LRU_DONE);
    CHECK(left.first == 1 && left.second == 2 && left.value == 3, true);

    /* each key is found by its own bytes and its own hash alone */
    for (at = 0; at < TEXTS; at++) {
        CHECK(pins_text(&reader, at, hash_of(at)).code, LRU_MISSED);
        values[at] = make(texts[at].text, texts[at].length);
        CHECK(lru_clock_insert_bytes(&clock, hash_of(at), 0, values[at], true, &left).code,
              LRU_NO_CHARGE);
        found = lru_clock_insert_bytes(&clock, hash_of(at), 1, values[at], true, &left);
        CHECK(found.code, LRU_DONE);
        CHECK(found.value, (uintptr_t)values[at]);
        CHECK(lru_reader_unpin(&reader, found.place), LRU_DONE);
    }
    CHECK(lru_clock_len(&clock).value, TEXTS);
    for (at = 0; at < TEXTS; at++) {
        found = pins_text(&reader, at, hash_of(at));
        CHECK(found.code, LRU_HIT);
        CHECK(found.value, (uintptr_t)values[at]);
        again = finds_text(&clock, &reader, at);
        CHECK(again.code, LRU_HIT);
        CHECK(again.place, found.place);
        CHECK(lru_reader_unpin(&reader, found.place), LRU_DONE);
        CHECK(lru_reader_unpin(&reader, found.place), LRU_DONE);
        CHECK(lru_reader_unpin(&reader, found.place), LRU_STALE);
        CHECK(pins_text(&reader, at, ~hash_of(at)).code, LRU_MISSED);
    }
    found = lru_reader_pin_bytes(&reader, NULL, 0, hash_of(0));
    CHECK(found.value, (uintptr_t)values[0]);
    CHECK(lru_reader_unpin(&reader, found.place), LRU_DONE);

    /* another value of a key replaces the first one, and an erased key has none */
    for (at = 0; at < TEXTS; at++) {
        lru_key *value = make(texts[at].text, texts[at].length);
        found = lru_clock_insert_bytes(&clock, hash_of(at), 1, value, true, &left);
        CHECK(found.code, LRU_REPLACED);
        CHECK(left.first == hash_of(at) && left.second == texts[at].length, true);
        CHECK(left.value, (uintptr_t)values[at]);
        delete_value(left.value);
        CHECK(lru_reader_unpin(&reader, found.place), LRU_DONE);
        values[at] = value;
    }
    for (at = 0; at < TEXTS; at += 2) {
        CHECK(lru_clock_erase_bytes(&clock, texts[at].length, hash_of(at), &left), LRU_GONE);
        CHECK(left.value, (uintptr_t)values[at]);
        delete_value(left.value);
        CHECK(lru_clock_erase_bytes(&clock, texts[at].length, hash_of(at), &left), LRU_DONE);
        CHECK(finds_text(&clock, &reader, at).code, LRU_MISSED);
    }
    CHECK(lru_clock_len(&clock).value, TEXTS / 2);

    /* a strict limit refuses a value, and its making goes on */
    CHECK(lru_clock_insert_bytes(&clock, hash_of(1), 101, values[1], true, &left).code, LRU_FULL);
    CHECK(lru_clock_erase_bytes(&clock, texts[1].length, hash_of(1), &left), LRU_GONE);
    found = lru_clock_begin_bytes(&clock, texts[1].text, texts[1].length, hash_of(1), 1, &left);
    CHECK(found.code, LRU_MAKE);
    CHECK(lru_clock_ready_bytes(&clock, found.value, hash_of(1), 101, values[1], true).code,
          LRU_FULL);
    found = lru_clock_ready_bytes(&clock, found.value, hash_of(1), 101, values[1], false);
    CHECK(found.code, LRU_DONE);
    CHECK(lru_reader_unpin(&reader, found.place), LRU_ABOVE);
    ends(&clock, &reader);
}

/* Two keys of one hash and one length. */
static const char one[] = "key 1", two[] = "key 2";
enum { HASH = 42, LENGTH = 5 };

static lru_found pins(lru_reader *reader, const char *text) {
    return lru_reader_pin_bytes(reader, text, LENGTH, HASH);
}

static lru_found begins(lru_clock *clock, const char *text, lru_left *left) {
    return lru_clock_begin_bytes(clock, text, LENGTH, HASH, 1, left);
}

static lru_found inserts(lru_clock *clock, const char *text, lru_left *left) {
    return lru_clock_insert_bytes(clock, HASH, 1, make(text, LENGTH), true, left);
}

/* Gives back the last pin of an entry whose key has lost it, and deletes its value. */
static void collects(lru_clock *clock, lru_reader *reader, lru_found found, const char *text) {
    lru_left left;
    CHECK(has_text(found.value, text, LENGTH), true);
    CHECK(lru_reader_unpin(reader, found.place), LRU_LAST);
    CHECK(lru_clock_collect(clock, found.place, &left), LRU_GONE);
    CHECK(left.value, found.value);
    delete_value(left.value);
}

static void test_equal_hashes(void) {
    lru_clock clock = {0};
    lru_reader reader = {0};
    lru_left left = {1, 2, 3};
    lru_found found, other;
    uint64_t ticket;
    CHECK(lru_clock_new(100, &clock), LRU_DONE);
    CHECK(lru_reader_new(&clock, &reader), LRU_DONE);

    /* a look-up of the key that has no entry finds none, and leaves the other one's as it is; it
     * pins that while it compares the keys */
    found = inserts(&clock, one, &left);
    CHECK(found.code, LRU_DONE);
    CHECK(lru_reader_unpin(&reader, found.place), LRU_DONE);
    compared = &clock;
    CHECK(pins(&reader, two).code, LRU_MISSED);
    CHECK(lru_clock_find_bytes(&clock, &reader, two, LENGTH, HASH).code, LRU_MISSED);
    CHECK(lru_clock_pinned_charge(&clock).value, 0);
    CHECK(lru_clock_len(&clock).value, 1);
    other = pins(&reader, one);
    CHECK(other.code, LRU_HIT);
    CHECK(other.value, found.value);

    /* it is pinned by another caller meanwhile, and keeps that pin alone */
    CHECK(pins(&reader, two).code, LRU_MISSED);
    CHECK(lru_reader_unpin(&reader, other.place), LRU_DONE);
    CHECK(lru_reader_unpin(&reader, other.place), LRU_STALE);
    CHECK(left.first == 1 && left.second == 2 && left.value == 3, true);

    /* an insert takes its place */
    found = inserts(&clock, two, &left);
    CHECK(found.code, LRU_REPLACED);
    CHECK(has_text(left.value, one, LENGTH), true);
    CHECK(left.first == HASH && left.second == LENGTH, true);
    delete_value(left.value);
    CHECK(pins(&reader, one).code, LRU_MISSED);
    CHECK(has_text(pins(&reader, two).value, two, LENGTH), true);
    CHECK(lru_reader_unpin(&reader, found.place), LRU_DONE);

    /* also if it is pinned */
    other = inserts(&clock, one, &left);
    CHECK(other.code, LRU_DONE);
    CHECK(has_text(pins(&reader, one).value, one, LENGTH), true);
    CHECK(pins(&reader, two).code, LRU_MISSED);
    CHECK(lru_reader_unpin(&reader, other.place), LRU_DONE);
    CHECK(lru_reader_unpin(&reader, other.place), LRU_DONE);
    collects(&clock, &reader, found, two);

    /* a begin finds its own key's entry, and takes out another one's before it begins */
    found = begins(&clock, one, &left);
    CHECK(found.code, LRU_HIT);
    CHECK(lru_reader_unpin(&reader, found.place), LRU_DONE);
    CHECK(begins(&clock, two, &left).code, LRU_GONE);
    CHECK(left.value, found.value);
    delete_value(left.value);
    CHECK(lru_clock_len(&clock).value, 0);
    found = begins(&clock, two, &left);
    CHECK(found.code, LRU_MAKE);
    ticket = found.value;
    CHECK(begins(&clock, two, &left).code, LRU_WAIT);
    CHECK(begins(&clock, one, &left).code, LRU_WAIT);
    found = lru_clock_ready_bytes(&clock, ticket, HASH, 1, make(two, LENGTH), true);
    CHECK(found.code, LRU_DONE);
    CHECK(pins(&reader, one).code, LRU_MISSED);
    CHECK(pins(&reader, two).value, found.value);
    CHECK(lru_reader_unpin(&reader, found.place), LRU_DONE);

    /* one that is pinned stays for those who have pinned it */
    other = begins(&clock, one, &left);
    CHECK(other.code, LRU_MAKE);
    CHECK(pins(&reader, two).code, LRU_MISSED);
    collects(&clock, &reader, found, two);
    CHECK(lru_clock_fail(&clock, other.value), LRU_DONE);

    /* the value of a maker whose key was erased, by either key, is for the maker alone */
    found = begins(&clock, one, &left);
    CHECK(found.code, LRU_MAKE);
    CHECK(lru_clock_erase_bytes(&clock, LENGTH, HASH, &left), LRU_DONE);
    other = inserts(&clock, two, &left);
    CHECK(other.code, LRU_DONE);
    found = lru_clock_ready_bytes(&clock, found.value, HASH, 1, make(one, LENGTH), true);
    CHECK(found.code, LRU_DONE);
    CHECK(pins(&reader, one).code, LRU_MISSED);
    CHECK(pins(&reader, two).value, other.value);
    collects(&clock, &reader, found, one);
    CHECK(lru_reader_unpin(&reader, other.place), LRU_DONE);
    CHECK(lru_reader_unpin(&reader, other.place), LRU_DONE);

    /* keys of the same hash and another length have entries beside them */
    found = lru_clock_insert_bytes(&clock, HASH, 1, make("key 22", 6), true, &left);
    CHECK(found.code, LRU_DONE);
    CHECK(lru_reader_unpin(&reader, found.place), LRU_DONE);
    CHECK(lru_clock_len(&clock).value, 2);
    CHECK(has_text(pins(&reader, two).value, two, LENGTH), true);
    CHECK(lru_reader_unpin(&reader, other.place), LRU_DONE);
    compared = NULL;
    ends(&clock, &reader);
}

/* ----------------------------------------------------------------------------- several threads */

enum { THREADS = 8, CALLS = 20000, KEYS = 64, HASHES = 32 };

static lru_clock shared_clock;
static pthread_mutex_t mutex = PTHREAD_MUTEX_INITIALIZER;
static pthread_cond_t ended = PTHREAD_COND_INITIALIZER;
static atomic_uint hits, taken_out;

/* Keys of one length, two of which have the same hash. */
struct name {
    char text[8];
    uint64_t hash;
};

static struct name name_of(uint64_t number) {
    struct name name;
    snprintf(name.text, sizeof name.text, "key %02u", (unsigned)number % 100);
    name.hash = number % HASHES;
    return name;
}

enum { NAME = 6 };

/* Uses a pinned value, and gives its pin back. */
static void use(lru_reader *reader, lru_found found, const struct name *name) {
    struct object *object = (struct object *)found.value;
    lru_left left;
    lru_code code = LRU_DONE, unpinned;
    object->pins++;
    CHECK(has_text(found.value, name->text, NAME), true);
    object->pins--;
    unpinned = lru_reader_unpin(reader, found.place);
    if (unpinned == LRU_DONE)
        return;
    pthread_mutex_lock(&mutex);
    if (unpinned == LRU_LAST)
        code = lru_clock_collect(&shared_clock, found.place, &left);
    else if (unpinned == LRU_ABOVE)
        code = lru_clock_make_room(&shared_clock, 0, &left);
    else
        CHECK(unpinned, LRU_DONE);
    pthread_mutex_unlock(&mutex);
    if (code == LRU_GONE)
        delete_value(left.value);
}

/* Finds the value of a key, or makes it, without the mutex meanwhile. */
static lru_found ask(const struct name *name) {
    lru_found found;
    lru_left left;
    pthread_mutex_lock(&mutex);
    for (;;) {
        found = lru_clock_begin_bytes(&shared_clock, name->text, NAME, name->hash, 1, &left);
        if (found.code == LRU_GONE) {
            delete_value(left.value);
            taken_out++;
        } else if (found.code == LRU_WAIT) {
            pthread_cond_wait(&ended, &mutex);
        } else {
            break;
        }
    }
    if (found.code == LRU_MAKE) {
        uint64_t ticket = found.value;
        lru_key *value;
        pthread_mutex_unlock(&mutex);
        value = make(name->text, NAME);
        if (ticket % 8 == 0)
            sched_yield();
        pthread_mutex_lock(&mutex);
        while (lru_clock_make_room(&shared_clock, 1, &left) == LRU_GONE)
            delete_value(left.value);
        found = lru_clock_ready_bytes(&shared_clock, ticket, name->hash, 1, value, false);
        CHECK(found.code, LRU_DONE);
        pthread_cond_broadcast(&ended);
    } else {
        CHECK(found.code, LRU_HIT);
    }
    pthread_mutex_unlock(&mutex);
    return found;
}

static lru_found replace(const struct name *name) {
    lru_key *value = make(name->text, NAME);
    lru_found found;
    lru_left left;
    do {
        pthread_mutex_lock(&mutex);
        found = lru_clock_insert_bytes(&shared_clock, name->hash, 1, value, false, &left);
        pthread_cond_broadcast(&ended);
        pthread_mutex_unlock(&mutex);
        if (found.code == LRU_GONE || found.code == LRU_REPLACED)
            delete_value(left.value);
    } while (found.code == LRU_GONE);
    CHECK(found.code == LRU_DONE || found.code == LRU_REPLACED, true);
    CHECK(found.value, (uintptr_t)value);
    return found;
}

static void erase(const struct name *name) {
    lru_left left;
    lru_code code;
    pthread_mutex_lock(&mutex);
    code = lru_clock_erase_bytes(&shared_clock, NAME, name->hash, &left);
    pthread_cond_broadcast(&ended);
    pthread_mutex_unlock(&mutex);
    if (code == LRU_GONE)
        delete_value(left.value);
}

static void *run(void *from) {
    lru_reader reader = {0};
    uint64_t random = (uintptr_t)from;
    int call;
    pthread_mutex_lock(&mutex);
    CHECK(lru_reader_new(&shared_clock, &reader), LRU_DONE);
    pthread_mutex_unlock(&mutex);
    for (call = 0; call < CALLS; call++) {
        struct name name;
        lru_found found;
        random = random * 6364136223846793005 + 1442695040888963407;
        name = name_of((random >> 33) % KEYS);
        if ((random >> 55) % 16 == 0) {
            erase(&name);
            continue;
        }
        if ((random >> 55) % 16 == 1) {
            use(&reader, replace(&name), &name);
            continue;
        }
        found = lru_reader_pin_bytes(&reader, name.text, NAME, name.hash);
        if (found.code == LRU_HIT) {
            hits++;
        } else {
            CHECK(found.code, LRU_MISSED);
            found = ask(&name);
        }
        use(&reader, found, &name);
    }
    CHECK(lru_reader_free(&reader), LRU_DONE);
    return NULL;
}

/* There are more hashes than the capacity has room for, so that entries are evicted too. */
static void test_threads(void) {
    pthread_t threads[THREADS];
    lru_reader reader = {0};
    uintptr_t number;
    CHECK(lru_clock_new(HASHES - 8, &shared_clock), LRU_DONE);
    CHECK(lru_reader_new(&shared_clock, &reader), LRU_DONE);
    for (number = 0; number < THREADS; number++)
        CHECK(pthread_create(&threads[number], NULL, run, (void *)(number + 1)), 0);
    for (number = 0; number < THREADS; number++)
        CHECK(pthread_join(threads[number], NULL), 0);
    ends(&shared_clock, &reader);
    CHECK(hits > 0 && taken_out > 0, true);
}

int main(void) {
    test_keys();
    test_equal_hashes();
    test_threads();
    if (failures > 0)
        return 1;
    printf(
        "clock, keys of bytes: %u values made, and each deleted once; %u hits without the mutex; "
        "%u entries taken out by a begin of another key with their hash\n",
        (unsigned)made, (unsigned)hits, (unsigned)taken_out);
    return 0;
}
