/* Tests the clock of lru.h: what each call answers, with one thread; that nothing is lost where
 * memory is refused; that each value is deleted once, and none while it is pinned, while eight
 * threads look up, pin once more, add, insert and erase; and that each key has one maker at a time,
 * whose value the others get, while eight threads make, fail and erase. Prints each failure, and
 * exits with 1 if there is any.
 *
 * The linker puts the functions below before those of the C library (--wrap). */
#include <inttypes.h>
#include <pthread.h>
#include <sched.h>
#include <stdatomic.h>
#include <stdbool.h>
#include <stdio.h>

#include "lru.h"

static atomic_int failures;

static void check(int line, uint64_t got, uint64_t wanted) {
    if (got == wanted)
        return;
    fprintf(stderr, "clock.c:%d: got %" PRIu64 ", wanted %" PRIu64 "\n", line, got, wanted);
    failures++;
}

#define CHECK(got, wanted) check(__LINE__, (uint64_t)(got), (uint64_t)(wanted))

static unsigned refused; /* which request for memory is refused, counted down; 0 for none */

void *__real_malloc(size_t size);
void *__real_realloc(void *block, size_t size);
void *__wrap_malloc(size_t size);
void *__wrap_realloc(void *block, size_t size);

static bool is_refused(void) { return refused > 0 && --refused == 0; }

void *__wrap_malloc(size_t size) { return is_refused() ? NULL : __real_malloc(size); }

void *__wrap_realloc(void *block, size_t size) {
    return is_refused() ? NULL : __real_realloc(block, size);
}

static uint64_t hash_of(uint64_t key) { return key * 0x9e3779b97f4a7c15; }

/* --------------------------------------------------------------------------------- one thread */

static void adds(lru_clock *clock, lru_reader *reader, uint64_t key, uint64_t charge) {
    lru_found added = lru_clock_add(clock, hash_of(key), key, ~key, charge, 10 * key, true);
    CHECK(added.code, LRU_DONE);
    CHECK(added.value, 10 * key);
    CHECK(lru_reader_unpin(reader, added.place), LRU_DONE);
}

static void test_answers(void) {
    lru_clock clock = {0};
    lru_reader reader = {0}, other = {0};
    lru_left left = {1, 2, 3};
    lru_clock_counts counts = {0};
    lru_found found;
    uint32_t next = 0, place;

    /* what is not open */
    CHECK(lru_clock_free(&clock), LRU_CLOSED);
    CHECK(lru_reader_free(&reader), LRU_CLOSED);
    CHECK(lru_reader_new(&clock, &reader), LRU_CLOSED);
    CHECK(lru_reader_pin(&reader, 0, 0, 0).code, LRU_CLOSED);
    CHECK(lru_reader_pin_at(&reader, 0).code, LRU_CLOSED);
    CHECK(lru_reader_unpin(&reader, 0), LRU_CLOSED);
    CHECK(lru_clock_make_room(&clock, 1, &left), LRU_CLOSED);
    CHECK(lru_clock_add(&clock, 0, 0, 0, 1, 0, false).code, LRU_CLOSED);
    CHECK(lru_clock_insert(&clock, 0, 0, 0, 1, 0, false, &left).code, LRU_CLOSED);
    CHECK(lru_clock_release_and_evict(&clock, 0, &left), LRU_CLOSED);
    CHECK(lru_clock_reserve(&clock, 1), LRU_CLOSED);
    CHECK(lru_clock_stats(&clock, &counts), LRU_CLOSED);
    CHECK(lru_clock_find(&clock, 0, 0, 0).code, LRU_CLOSED);
    CHECK(lru_clock_begin(&clock, 0, 0, 0, 1).code, LRU_CLOSED);
    CHECK(lru_clock_ready(&clock, 0, 0, 1, 0, false).code, LRU_CLOSED);
    CHECK(lru_clock_fail(&clock, 0), LRU_CLOSED);
    CHECK(lru_clock_erase(&clock, 0, 0, 0, &left), LRU_CLOSED);
    CHECK(lru_clock_collect(&clock, 0, &left), LRU_CLOSED);
    CHECK(lru_clock_prune(&clock, &next, &left), LRU_CLOSED);
    CHECK(lru_clock_set_capacity(&clock, 1), LRU_CLOSED);
    CHECK(lru_clock_total(&clock).code, LRU_CLOSED);
    CHECK(lru_clock_pinned_charge(&clock).code, LRU_CLOSED);
    CHECK(lru_clock_capacity(&clock).code, LRU_CLOSED);
    CHECK(lru_clock_len(&clock).code, LRU_CLOSED);
    CHECK(lru_clock_places(&clock).code, LRU_CLOSED);
    CHECK(left.first == 1 && left.second == 2 && left.value == 3, true);

    CHECK(lru_clock_new(10, &clock), LRU_DONE);
    CHECK(lru_clock_new(10, &clock), LRU_OPEN);
    CHECK(lru_reader_new(&clock, &reader), LRU_DONE);
    CHECK(lru_reader_new(&clock, &reader), LRU_OPEN);
    CHECK(lru_reader_new(&clock, &other), LRU_DONE);
    CHECK(lru_clock_capacity(&clock).value, 10);
    CHECK(lru_clock_places(&clock).value, 0);

    /* a key that has no entry, a place that has none, and a pin of none */
    CHECK(lru_reader_pin(&reader, hash_of(1), 1, ~1ul).code, LRU_MISSED);
    CHECK(lru_reader_pin_at(&reader, 0).code, LRU_MISSED);
    CHECK(lru_reader_pin_at(&reader, UINT32_MAX).code, LRU_MISSED);
    CHECK(lru_reader_unpin(&reader, 0), LRU_STALE);
    CHECK(lru_reader_unpin(&reader, UINT32_MAX), LRU_STALE);
    CHECK(lru_clock_find(&clock, hash_of(1), 1, ~1ul).code, LRU_MISSED);
    CHECK(lru_clock_erase(&clock, hash_of(1), 1, ~1ul, &left), LRU_DONE);
    CHECK(lru_clock_collect(&clock, 7, &left), LRU_DONE);
    CHECK(lru_clock_add(&clock, hash_of(1), 1, ~1ul, 0, 5, false).code, LRU_NO_CHARGE);
    CHECK(lru_clock_len(&clock).value, 0);

    /* an entry is found by its key alone, and one that the key has is told in place of a new one */
    adds(&clock, &reader, 1, 4);
    CHECK(lru_reader_pin(&reader, hash_of(1), 1, 1).code, LRU_MISSED);
    found = lru_reader_pin(&reader, hash_of(1), 1, ~1ul);
    CHECK(found.code, LRU_HIT);
    CHECK(found.value, 10);
    place = found.place;
    CHECK(lru_clock_pinned_charge(&clock).value, 4);
    found = lru_clock_add(&clock, hash_of(1), 1, ~1ul, 3, 99, true);
    CHECK(found.code, LRU_HIT);
    CHECK(found.value, 10);
    CHECK(found.place, place);
    CHECK(lru_clock_total(&clock).value, 4);
    CHECK(lru_reader_pin_at(&other, place).value, 10);

    /* a reader that is freed leaves its pins, and another one gives them back */
    CHECK(lru_reader_free(&reader), LRU_DONE);
    CHECK(lru_reader_unpin(&other, place), LRU_DONE);
    CHECK(lru_reader_unpin(&other, place), LRU_DONE);

    /* an entry that is erased while it is pinned is collected after its last pin */
    CHECK(lru_clock_erase(&clock, hash_of(1), 1, ~1ul, &left), LRU_DONE);
    CHECK(lru_reader_pin(&other, hash_of(1), 1, ~1ul).code, LRU_MISSED);
    CHECK(lru_clock_collect(&clock, place, &left), LRU_DONE);
    CHECK(lru_clock_free(&clock), LRU_NOT_EMPTY);
    CHECK(lru_reader_unpin(&other, place), LRU_LAST);
    CHECK(lru_reader_unpin(&other, place), LRU_STALE);
    CHECK(lru_clock_collect(&clock, place, &left), LRU_GONE);
    CHECK(left.first == 1 && left.second == ~1ul && left.value == 10, true);
    CHECK(lru_clock_collect(&clock, place, &left), LRU_DONE);
    CHECK(lru_clock_len(&clock).value, 0);

    /* an entry that is erased while it is not pinned leaves at once */
    adds(&clock, &other, 2, 4);
    CHECK(lru_clock_erase(&clock, hash_of(2), 2, ~2ul, &left), LRU_GONE);
    CHECK(left.value, 20);

    /* no pinned entry is evicted, and the others are, one by one */
    adds(&clock, &other, 3, 4);
    adds(&clock, &other, 4, 4);
    found = lru_reader_pin(&other, hash_of(3), 3, ~3ul);
    CHECK(lru_clock_make_room(&clock, 2, &left), LRU_DONE);
    CHECK(lru_clock_make_room(&clock, 3, &left), LRU_GONE);
    CHECK(left.value, 40);
    CHECK(lru_clock_make_room(&clock, 3, &left), LRU_DONE);
    CHECK(lru_clock_set_capacity(&clock, 1), LRU_DONE);
    CHECK(lru_clock_make_room(&clock, 0, &left), LRU_DONE);
    CHECK(lru_clock_total(&clock).value, 4);
    CHECK(lru_clock_add(&clock, hash_of(5), 5, ~5ul, UINT64_MAX, 50, false).code, LRU_OVERFLOW);
    CHECK(lru_clock_prune(&clock, &next, &left), LRU_DONE);
    CHECK(lru_reader_unpin(&other, found.place), LRU_ABOVE);
    CHECK(lru_clock_prune(&clock, &next, &left), LRU_GONE);
    CHECK(left.value, 30);
    CHECK(lru_clock_prune(&clock, &next, &left), LRU_DONE);

    /* what a reader shares outlives the clock */
    CHECK(lru_clock_free(&clock), LRU_DONE);
    CHECK(lru_clock_free(&clock), LRU_CLOSED);
    CHECK(lru_reader_pin(&other, hash_of(3), 3, ~3ul).code, LRU_MISSED);
    CHECK(lru_reader_free(&other), LRU_DONE);
    CHECK(lru_clock_new(1, &clock), LRU_DONE);
    CHECK(lru_clock_free(&clock), LRU_DONE);
}

static void test_limits(void) {
    lru_clock clock = {0};
    lru_reader reader = {0};
    lru_left left = {1, 2, 3};
    lru_clock_counts counts;
    lru_found found;
    CHECK(lru_clock_new(10, &clock), LRU_DONE);
    CHECK(lru_reader_new(&clock, &reader), LRU_DONE);

    /* room is made for places, and no entry is in them */
    CHECK(lru_clock_reserve(&clock, 100), LRU_DONE);
    CHECK(lru_clock_places(&clock).value, 100);
    CHECK(lru_clock_reserve(&clock, 1), LRU_DONE);
    CHECK(lru_clock_reserve(&clock, SIZE_MAX), LRU_OVERFLOW);
    CHECK(lru_clock_places(&clock).value, 100);
    CHECK(lru_clock_len(&clock).value, 0);

    /* a strict add is refused exactly above the capacity, and changes nothing then */
    adds(&clock, &reader, 1, 8);
    CHECK(lru_clock_add(&clock, hash_of(4), 4, ~4ul, 3, 40, true).code, LRU_FULL);
    CHECK(lru_clock_len(&clock).value, 1);
    CHECK(lru_clock_total(&clock).value, 8);
    found = lru_clock_add(&clock, hash_of(4), 4, ~4ul, 2, 40, true);
    CHECK(found.code, LRU_DONE);
    CHECK(lru_clock_add(&clock, hash_of(4), 4, ~4ul, 1, 41, true).code, LRU_HIT);
    CHECK(lru_clock_add(&clock, hash_of(5), 5, ~5ul, UINT64_MAX, 50, true).code, LRU_OVERFLOW);

    /* the last pin takes the entry out, and no other does */
    CHECK(lru_clock_release_and_evict(&clock, found.place, &left), LRU_DONE);
    CHECK(left.value, 3);
    CHECK(lru_clock_find(&clock, hash_of(4), 4, ~4ul).value, 40);
    CHECK(lru_reader_unpin(&reader, found.place), LRU_DONE);
    CHECK(lru_clock_release_and_evict(&clock, found.place, &left), LRU_GONE);
    CHECK(left.first == 4 && left.second == ~4ul && left.value == 40, true);
    CHECK(lru_clock_release_and_evict(&clock, found.place, &left), LRU_STALE);
    CHECK(lru_clock_release_and_evict(&clock, UINT32_MAX, &left), LRU_STALE);
    CHECK(lru_clock_find(&clock, hash_of(4), 4, ~4ul).code, LRU_MISSED);

    /* of an invalidated entry too */
    found = lru_clock_find(&clock, hash_of(1), 1, ~1ul);
    CHECK(lru_clock_erase(&clock, hash_of(1), 1, ~1ul, &left), LRU_DONE);
    CHECK(lru_clock_release_and_evict(&clock, found.place, &left), LRU_GONE);
    CHECK(left.value, 10);
    adds(&clock, &reader, 6, 4);

    CHECK(lru_clock_stats(&clock, &counts), LRU_DONE);
    CHECK(counts.makings, 0);
    CHECK(counts.failures, 0);
    CHECK(counts.insertions, 3);
    CHECK(counts.evictions, 2);
    CHECK(counts.entries, 1);
    CHECK(counts.charge, 4);
    CHECK(counts.capacity, 10);
    CHECK(lru_clock_erase(&clock, hash_of(6), 6, ~6ul, &left), LRU_GONE);
    CHECK(lru_clock_free(&clock), LRU_DONE);
    CHECK(lru_reader_free(&reader), LRU_DONE);
}

/* Who gives back the last pin of an entry is told whether the total is above the capacity. */
static void test_above(void) {
    lru_clock clock = {0};
    lru_reader reader = {0};
    lru_left left;
    lru_found found[3];
    uint32_t next = 0;
    uint64_t key;
    CHECK(lru_clock_new(10, &clock), LRU_DONE);
    CHECK(lru_reader_new(&clock, &reader), LRU_DONE);
    for (key = 0; key < 3; key++) {
        CHECK(lru_clock_make_room(&clock, 4, &left), LRU_DONE);
        found[key] = lru_clock_add(&clock, hash_of(key), key, ~key, 4, key, false);
        CHECK(found[key].code, LRU_DONE);
    }

    /* only the last pin, and only until the total is down */
    CHECK(lru_reader_pin(&reader, hash_of(0), 0, ~0ul).code, LRU_HIT);
    CHECK(lru_reader_unpin(&reader, found[0].place), LRU_DONE);
    CHECK(lru_reader_unpin(&reader, found[0].place), LRU_ABOVE);
    CHECK(lru_reader_unpin(&reader, found[0].place), LRU_STALE);
    CHECK(lru_clock_make_room(&clock, 0, &left), LRU_GONE);
    CHECK(left.value, 0);
    CHECK(lru_clock_make_room(&clock, 0, &left), LRU_DONE);
    CHECK(lru_reader_unpin(&reader, found[1].place), LRU_DONE);

    /* another capacity */
    CHECK(lru_clock_set_capacity(&clock, 7), LRU_DONE);
    CHECK(lru_reader_unpin(&reader, found[2].place), LRU_ABOVE);
    CHECK(lru_clock_set_capacity(&clock, 8), LRU_DONE);
    CHECK(lru_reader_pin_at(&reader, found[2].place).code, LRU_HIT);
    CHECK(lru_reader_unpin(&reader, found[2].place), LRU_DONE);

    /* an invalidated entry is to be collected */
    CHECK(lru_clock_set_capacity(&clock, 1), LRU_DONE);
    CHECK(lru_reader_pin_at(&reader, found[2].place).code, LRU_HIT);
    CHECK(lru_clock_erase(&clock, hash_of(2), 2, ~2ul, &left), LRU_DONE);
    CHECK(lru_reader_unpin(&reader, found[2].place), LRU_LAST);
    CHECK(lru_clock_collect(&clock, found[2].place, &left), LRU_GONE);

    CHECK(lru_clock_prune(&clock, &next, &left), LRU_GONE);
    CHECK(lru_clock_free(&clock), LRU_DONE);
    CHECK(lru_reader_free(&reader), LRU_DONE);
}

static lru_found inserts(lru_clock *clock, uint64_t key, uint64_t charge, uint64_t value,
                         bool strict, lru_left *left) {
    return lru_clock_insert(clock, hash_of(key), key, ~key, charge, value, strict, left);
}

/* Checks that a call stored this value and told that an entry left for it, and gives back its
 * pin. */
static void replaced(lru_reader *reader, lru_found found, uint64_t value) {
    CHECK(found.code, LRU_REPLACED);
    CHECK(found.value, value);
    CHECK(lru_reader_unpin(reader, found.place), LRU_DONE);
}

static bool is_entry(const lru_left *left, uint64_t key, uint64_t value) {
    return left->first == key && left->second == ~key && left->value == value;
}

static void test_inserts(void) {
    lru_clock clock = {0};
    lru_reader reader = {0};
    lru_left left = {1, 2, 3};
    lru_clock_counts counts;
    lru_found found, old;
    uint64_t evicted;
    CHECK(lru_clock_new(10, &clock), LRU_DONE);
    CHECK(lru_reader_new(&clock, &reader), LRU_DONE);
    CHECK(inserts(&clock, 1, 0, 10, false, &left).code, LRU_NO_CHARGE);

    /* a key that has no entry */
    found = inserts(&clock, 1, 4, 10, true, &left);
    CHECK(found.code, LRU_DONE);
    CHECK(found.value, 10);
    CHECK(lru_clock_pinned_charge(&clock).value, 4);
    CHECK(lru_reader_unpin(&reader, found.place), LRU_DONE);
    CHECK(lru_reader_unpin(&reader, found.place), LRU_STALE);
    CHECK(left.first == 1 && left.second == 2 && left.value == 3, true);

    /* the entry that a key has leaves, or is collected after its last pin */
    replaced(&reader, inserts(&clock, 1, 5, 11, true, &left), 11);
    CHECK(is_entry(&left, 1, 10), true);
    CHECK(lru_clock_total(&clock).value, 5);
    old = lru_reader_pin(&reader, hash_of(1), 1, ~1ul);
    CHECK(old.value, 11);
    found = inserts(&clock, 1, 4, 12, true, &left);
    CHECK(found.code, LRU_DONE);
    CHECK(lru_clock_total(&clock).value, 9);
    CHECK(lru_reader_pin_at(&reader, old.place).value, 11);
    CHECK(lru_reader_unpin(&reader, old.place), LRU_DONE);
    CHECK(lru_reader_unpin(&reader, old.place), LRU_LAST);
    CHECK(lru_clock_collect(&clock, old.place, &left), LRU_GONE);
    CHECK(is_entry(&left, 1, 11), true);
    CHECK(lru_reader_unpin(&reader, found.place), LRU_DONE);
    CHECK(lru_clock_find(&clock, hash_of(1), 1, ~1ul).value, 12);
    CHECK(lru_reader_unpin(&reader, found.place), LRU_DONE);

    /* one entry leaves for another; if two have to, the call is made twice */
    adds(&clock, &reader, 2, 4);
    replaced(&reader, inserts(&clock, 3, 4, 30, true, &left), 30);
    CHECK(is_entry(&left, 1, 12) || is_entry(&left, 2, 20), true);
    CHECK(lru_clock_total(&clock).value, 8);
    CHECK(inserts(&clock, 4, 10, 40, true, &left).code, LRU_GONE);
    evicted = left.first;
    CHECK(lru_clock_len(&clock).value, 1);
    CHECK(lru_clock_find(&clock, hash_of(4), 4, ~4ul).code, LRU_MISSED);
    replaced(&reader, inserts(&clock, 4, 10, 40, true, &left), 40);
    CHECK(left.first == evicted, false);
    CHECK(lru_clock_len(&clock).value, 1);

    /* the charge of the entry that the key has is room, unless it is pinned */
    replaced(&reader, inserts(&clock, 4, 9, 41, true, &left), 41);
    CHECK(is_entry(&left, 4, 40), true);
    old = lru_reader_pin(&reader, hash_of(4), 4, ~4ul);
    CHECK(inserts(&clock, 4, 2, 42, true, &left).code, LRU_FULL);
    CHECK(inserts(&clock, 5, 2, 50, true, &left).code, LRU_FULL);
    CHECK(inserts(&clock, 4, UINT64_MAX, 42, true, &left).code, LRU_OVERFLOW);
    CHECK(inserts(&clock, 4, UINT64_MAX, 42, false, &left).code, LRU_OVERFLOW);
    CHECK(inserts(&clock, 4, 0, 42, false, &left).code, LRU_NO_CHARGE);
    CHECK(is_entry(&left, 4, 40), true);
    CHECK(lru_clock_len(&clock).value, 1);
    CHECK(lru_clock_total(&clock).value, 9);
    found = lru_reader_pin(&reader, hash_of(4), 4, ~4ul);
    CHECK(found.value, 41);
    CHECK(found.place, old.place);
    CHECK(lru_reader_unpin(&reader, found.place), LRU_DONE);
    found = inserts(&clock, 4, 2, 42, false, &left);
    CHECK(found.code, LRU_DONE);
    CHECK(lru_clock_total(&clock).value, 11);
    CHECK(lru_clock_pinned_charge(&clock).value, 11);

    /* a strict call makes no other call strict */
    CHECK(inserts(&clock, 5, 1, 50, true, &left).code, LRU_FULL);
    CHECK(lru_clock_add(&clock, hash_of(6), 6, ~6ul, 1, 60, false).code, LRU_DONE);
    CHECK(lru_clock_total(&clock).value, 12);

    CHECK(lru_clock_stats(&clock, &counts), LRU_DONE);
    CHECK(counts.makings, 0);
    CHECK(counts.insertions, 9);
    CHECK(counts.evictions, 6);
    CHECK(counts.entries, 3);
    CHECK(lru_clock_release_and_evict(&clock, old.place, &left), LRU_GONE);
    CHECK(is_entry(&left, 4, 41), true);
    CHECK(lru_clock_release_and_evict(&clock, found.place, &left), LRU_GONE);
    CHECK(is_entry(&left, 4, 42), true);
    found = lru_clock_find(&clock, hash_of(6), 6, ~6ul);
    CHECK(lru_reader_unpin(&reader, found.place), LRU_DONE);
    CHECK(lru_clock_release_and_evict(&clock, found.place, &left), LRU_GONE);
    CHECK(lru_clock_free(&clock), LRU_DONE);
    CHECK(lru_reader_free(&reader), LRU_DONE);
}

static lru_found begins(lru_clock *clock, uint64_t key, uint64_t charge) {
    return lru_clock_begin(clock, hash_of(key), key, ~key, charge);
}

static lru_found readies(lru_clock *clock, uint64_t ticket, uint64_t key, uint64_t charge,
                         uint64_t value) {
    return lru_clock_ready(clock, ticket, hash_of(key), charge, value, false);
}

/* Begins a making of a key that nobody makes, of which other callers are told to wait. */
static uint64_t ticket_of(lru_clock *clock, uint64_t key) {
    lru_found made = begins(clock, key, 1);
    CHECK(made.code, LRU_MAKE);
    CHECK(made.place, 0);
    CHECK(begins(clock, key, 1).code, LRU_WAIT);
    return made.value;
}

/* Gives back the pin of an entry that only its maker has, which is then told to leave. */
static void leaves(lru_clock *clock, lru_reader *reader, uint32_t place, uint64_t key,
                   uint64_t value) {
    lru_left left;
    CHECK(lru_reader_unpin(reader, place), LRU_LAST);
    CHECK(lru_clock_collect(clock, place, &left), LRU_GONE);
    CHECK(left.first == key && left.second == ~key && left.value == value, true);
}

static void finds(lru_clock *clock, lru_reader *reader, uint64_t key, uint64_t value) {
    lru_found found = lru_reader_pin(reader, hash_of(key), key, ~key);
    CHECK(found.code, LRU_HIT);
    CHECK(found.value, value);
    CHECK(lru_reader_unpin(reader, found.place), LRU_DONE);
    found = begins(clock, key, 1);
    CHECK(found.code, LRU_HIT);
    CHECK(found.value, value);
    CHECK(lru_reader_unpin(reader, found.place), LRU_DONE);
}

static void test_makings(void) {
    lru_clock clock = {0};
    lru_reader reader = {0};
    lru_left left;
    lru_found found, other;
    uint64_t one, two, three;
    uint32_t next = 0;
    CHECK(lru_clock_new(100, &clock), LRU_DONE);
    CHECK(lru_reader_new(&clock, &reader), LRU_DONE);

    /* no ticket is good before it was told; a refused begin begins nothing */
    CHECK(lru_clock_fail(&clock, 0), LRU_STALE);
    CHECK(readies(&clock, 0, 1, 1, 10).code, LRU_STALE);
    CHECK(begins(&clock, 1, 0).code, LRU_NO_CHARGE);
    CHECK(lru_clock_free(&clock), LRU_DONE);
    CHECK(lru_reader_free(&reader), LRU_DONE);
    CHECK(lru_clock_new(100, &clock), LRU_DONE);
    CHECK(lru_reader_new(&clock, &reader), LRU_DONE);

    /* each key has its own making, which is no entry, and keeps the clock from being freed */
    one = ticket_of(&clock, 1);
    two = ticket_of(&clock, 2);
    CHECK(one == two, false);
    CHECK(lru_reader_pin(&reader, hash_of(1), 1, ~1ul).code, LRU_MISSED);
    CHECK(lru_clock_find(&clock, hash_of(1), 1, ~1ul).code, LRU_MISSED);
    CHECK(lru_clock_len(&clock).value, 0);
    CHECK(lru_clock_total(&clock).value, 0);
    CHECK(lru_clock_free(&clock), LRU_NOT_EMPTY);

    /* a making that is not made ready goes on */
    CHECK(readies(&clock, one, 1, 0, 10).code, LRU_NO_CHARGE);
    CHECK(readies(&clock, UINT64_MAX, 1, 1, 10).code, LRU_STALE);
    CHECK(begins(&clock, 1, 1).code, LRU_WAIT);
    CHECK(lru_clock_len(&clock).value, 0);

    /* nor does one end that a strict ready refuses, which it does exactly above the capacity */
    CHECK(lru_clock_ready(&clock, one, hash_of(1), 101, 10, true).code, LRU_FULL);
    CHECK(begins(&clock, 1, 1).code, LRU_WAIT);
    CHECK(lru_clock_total(&clock).value, 0);
    found = lru_clock_ready(&clock, ticket_of(&clock, 9), hash_of(9), 100, 90, true);
    CHECK(found.code, LRU_DONE);
    CHECK(lru_clock_ready(&clock, one, hash_of(1), 1, 10, true).code, LRU_FULL);
    CHECK(lru_clock_release_and_evict(&clock, found.place, &left), LRU_GONE);

    /* its value is stored with the charge of ready, pinned, and found by all; its ticket is used */
    found = readies(&clock, one, 1, 7, 10);
    CHECK(found.code, LRU_DONE);
    CHECK(found.value, 10);
    CHECK(lru_clock_total(&clock).value, 7);
    CHECK(lru_clock_pinned_charge(&clock).value, 7);
    finds(&clock, &reader, 1, 10);
    CHECK(readies(&clock, one, 1, 1, 11).code, LRU_STALE);
    CHECK(lru_clock_fail(&clock, one), LRU_STALE);
    CHECK(lru_clock_len(&clock).value, 1);
    CHECK(lru_reader_unpin(&reader, found.place), LRU_DONE);

    /* after a making that failed the key is made again, under another ticket */
    CHECK(lru_clock_fail(&clock, two), LRU_DONE);
    CHECK(lru_clock_fail(&clock, two), LRU_STALE);
    CHECK(readies(&clock, two, 2, 1, 20).code, LRU_STALE);
    three = ticket_of(&clock, 2);
    CHECK(three == one || three == two, false);
    CHECK(lru_clock_fail(&clock, three), LRU_DONE);

    /* of an erased key another caller makes the value, and each maker has a ticket of its own; the
     * first one gets its value alone, before the other is ready and after it */
    one = ticket_of(&clock, 3);
    CHECK(lru_clock_erase(&clock, hash_of(3), 3, ~3ul, &left), LRU_DONE);
    two = ticket_of(&clock, 3);
    CHECK(lru_clock_erase(&clock, hash_of(3), 3, ~3ul, &left), LRU_DONE);
    three = ticket_of(&clock, 3);
    found = readies(&clock, one, 3, 1, 31);
    CHECK(found.code, LRU_DONE);
    CHECK(found.value, 31);
    CHECK(lru_reader_pin(&reader, hash_of(3), 3, ~3ul).code, LRU_MISSED);
    CHECK(begins(&clock, 3, 1).code, LRU_WAIT);
    leaves(&clock, &reader, found.place, 3, 31);
    other = readies(&clock, three, 3, 1, 33);
    CHECK(other.code, LRU_DONE);
    found = readies(&clock, two, 3, 1, 32);
    CHECK(found.code, LRU_DONE);
    CHECK(found.value, 32);
    finds(&clock, &reader, 3, 33);
    leaves(&clock, &reader, found.place, 3, 32);
    CHECK(lru_reader_unpin(&reader, other.place), LRU_DONE);

    /* of a key that was added meanwhile all find what was added, and the maker has its own value */
    one = ticket_of(&clock, 4);
    adds(&clock, &reader, 4, 1);
    finds(&clock, &reader, 4, 40);
    found = readies(&clock, one, 4, 1, 41);
    CHECK(found.code, LRU_DONE);
    CHECK(found.value, 41);
    finds(&clock, &reader, 4, 40);
    leaves(&clock, &reader, found.place, 4, 41);
    finds(&clock, &reader, 4, 40);

    /* and so with one that was inserted */
    one = ticket_of(&clock, 7);
    found = inserts(&clock, 7, 1, 70, false, &left);
    CHECK(found.code, LRU_DONE);
    finds(&clock, &reader, 7, 70);
    other = readies(&clock, one, 7, 1, 71);
    CHECK(other.code, LRU_DONE);
    finds(&clock, &reader, 7, 70);
    leaves(&clock, &reader, other.place, 7, 71);
    CHECK(lru_clock_release_and_evict(&clock, found.place, &left), LRU_GONE);

    /* an add or insert that stores nothing leaves the making, and an invalidated one may fail */
    one = ticket_of(&clock, 5);
    CHECK(lru_clock_add(&clock, hash_of(5), 5, ~5ul, 0, 50, false).code, LRU_NO_CHARGE);
    CHECK(lru_clock_add(&clock, hash_of(5), 5, ~5ul, UINT64_MAX, 50, false).code, LRU_OVERFLOW);
    CHECK(inserts(&clock, 5, 101, 50, true, &left).code, LRU_FULL);
    CHECK(begins(&clock, 5, 1).code, LRU_WAIT);
    CHECK(lru_clock_erase(&clock, hash_of(5), 5, ~5ul, &left), LRU_DONE);
    CHECK(lru_clock_fail(&clock, one), LRU_DONE);
    CHECK(lru_clock_fail(&clock, one), LRU_STALE);

    /* a charge that does not fit: nothing is begun, and a making has ended */
    CHECK(begins(&clock, 6, UINT64_MAX).code, LRU_OVERFLOW);
    one = ticket_of(&clock, 6);
    CHECK(readies(&clock, one, 6, UINT64_MAX, 60).code, LRU_OVERFLOW);
    CHECK(lru_clock_fail(&clock, one), LRU_STALE);
    one = ticket_of(&clock, 6);
    CHECK(lru_clock_fail(&clock, one), LRU_DONE);

    CHECK(lru_clock_len(&clock).value, 3);
    while (lru_clock_prune(&clock, &next, &left) == LRU_GONE)
        CHECK(left.value == 10 || left.value == 33 || left.value == 40, true);
    CHECK(lru_clock_free(&clock), LRU_DONE);
    CHECK(lru_reader_free(&reader), LRU_DONE);
}

/* A call with a hash that is not that of the key, or with a place that is none, changes nothing
 * that is there, and each value is told once. */
static void test_wrong_hashes_and_places(void) {
    const uint32_t places[] = {1000, UINT32_MAX};
    const uint64_t other_hash = hash_of(99);
    lru_clock clock = {0};
    lru_reader reader = {0};
    lru_left left = {1, 2, 3};
    lru_found found, other;
    uint32_t next = UINT32_MAX;
    unsigned n, gone = 0;
    CHECK(lru_clock_new(10, &clock), LRU_DONE);
    CHECK(lru_reader_new(&clock, &reader), LRU_DONE);
    adds(&clock, &reader, 1, 2);

    /* by another hash the key has no entry */
    CHECK(lru_reader_pin(&reader, other_hash, 1, ~1ul).code, LRU_MISSED);
    CHECK(lru_clock_find(&clock, other_hash, 1, ~1ul).code, LRU_MISSED);
    CHECK(lru_clock_erase(&clock, other_hash, 1, ~1ul, &left), LRU_DONE);
    CHECK(lru_clock_prune(&clock, &next, &left), LRU_DONE);
    CHECK(next, UINT32_MAX);
    CHECK(lru_clock_len(&clock).value, 1);

    /* or one of its own, beside the first one */
    other = lru_clock_add(&clock, other_hash, 1, ~1ul, 3, 99, true);
    CHECK(other.code, LRU_DONE);
    CHECK(lru_clock_total(&clock).value, 5);
    found = lru_reader_pin(&reader, hash_of(1), 1, ~1ul);
    CHECK(found.code, LRU_HIT);
    CHECK(found.value, 10);
    CHECK(found.place == other.place, false);
    CHECK(lru_reader_unpin(&reader, found.place), LRU_DONE);
    CHECK(lru_reader_unpin(&reader, other.place), LRU_DONE);

    /* a value that was made is found by the hash of ready */
    found = begins(&clock, 2, 1);
    CHECK(found.code, LRU_MAKE);
    found = lru_clock_ready(&clock, found.value, other_hash, 1, 20, true);
    CHECK(found.code, LRU_DONE);
    CHECK(lru_reader_pin(&reader, hash_of(2), 2, ~2ul).code, LRU_MISSED);
    CHECK(lru_reader_pin(&reader, other_hash, 2, ~2ul).value, 20);
    CHECK(lru_reader_unpin(&reader, found.place), LRU_DONE);
    CHECK(lru_reader_unpin(&reader, found.place), LRU_DONE);

    /* an entry without a pin, and places without an entry */
    CHECK(lru_reader_unpin(&reader, found.place), LRU_STALE);
    CHECK(lru_clock_release_and_evict(&clock, found.place, &left), LRU_STALE);
    CHECK(lru_clock_collect(&clock, found.place, &left), LRU_DONE);
    for (n = 0; n < 2; n++) {
        CHECK(lru_reader_pin_at(&reader, places[n]).code, LRU_MISSED);
        CHECK(lru_reader_unpin(&reader, places[n]), LRU_STALE);
        CHECK(lru_clock_release_and_evict(&clock, places[n], &left), LRU_STALE);
        CHECK(lru_clock_collect(&clock, places[n], &left), LRU_DONE);
    }
    CHECK(left.first == 1 && left.second == 2 && left.value == 3, true);

    next = 0;
    for (; lru_clock_prune(&clock, &next, &left) == LRU_GONE; gone++)
        CHECK(is_entry(&left, 1, 10) || is_entry(&left, 1, 99) || is_entry(&left, 2, 20), true);
    CHECK(gone, 3);
    CHECK(lru_clock_free(&clock), LRU_DONE);
    CHECK(lru_reader_free(&reader), LRU_DONE);
}

/* ------------------------------------------------------------------------------ refused memory */

/* Stores an entry as its maker, where one request for memory is refused: a begin that is refused
 * begins nothing, and a ready that is refused has ended the making. */
static lru_found make(lru_clock *clock, uint64_t key) {
    lru_found found = begins(clock, key, 1);
    uint64_t ticket;
    if (found.code == LRU_MEMORY)
        found = begins(clock, key, 1);
    CHECK(found.code, LRU_MAKE);
    ticket = found.value;
    found = readies(clock, ticket, key, 1, key);
    CHECK(lru_clock_fail(clock, ticket), LRU_STALE);
    return found;
}

/* Opens a clock and adds entries to it, where one request for memory is refused. Returns whether
 * that was made at all. */
static bool test_refusal(unsigned which) {
    enum { ENTRIES = 700 };
    lru_clock clock = {0};
    lru_reader reader = {0};
    lru_left left;
    uint64_t key, stored = 0, gone = 0;
    uint32_t next = 0;
    lru_code code;
    refused = which;
    code = lru_clock_new(ENTRIES, &clock);
    CHECK(code == LRU_DONE || code == LRU_MEMORY, true);
    if (code == LRU_MEMORY)
        CHECK(lru_clock_new(ENTRIES, &clock), LRU_DONE);
    code = lru_reader_new(&clock, &reader);
    CHECK(code == LRU_DONE || code == LRU_MEMORY, true);
    if (code == LRU_MEMORY)
        CHECK(lru_reader_new(&clock, &reader), LRU_DONE);
    for (key = 0; key < ENTRIES; key++) {
        lru_found found = key % 2 == 0
                              ? lru_clock_add(&clock, hash_of(key), key, ~key, 1, key, false)
                              : make(&clock, key);
        CHECK(found.code == LRU_DONE || found.code == LRU_MEMORY, true);
        if (found.code == LRU_DONE) {
            stored++;
            CHECK(lru_reader_unpin(&reader, found.place), LRU_DONE);
        }
        CHECK(lru_clock_len(&clock).value, stored);
        CHECK(lru_clock_total(&clock).value, stored);
    }
    while (lru_clock_prune(&clock, &next, &left) == LRU_GONE) {
        CHECK(left.first, left.value);
        gone++;
    }
    CHECK(gone, stored);
    CHECK(lru_clock_free(&clock), LRU_DONE);
    CHECK(lru_reader_free(&reader), LRU_DONE);
    return refused == 0;
}

/* Reserves room, where one request for memory is refused: a second call makes the rest. Returns
 * whether that was made at all. */
static bool test_refused_reserve(unsigned which) {
    enum { ENTRIES = 300 };
    lru_clock clock = {0};
    lru_reader reader = {0};
    lru_code code;
    CHECK(lru_clock_new(10, &clock), LRU_DONE);
    CHECK(lru_reader_new(&clock, &reader), LRU_DONE);
    refused = which;
    code = lru_clock_reserve(&clock, ENTRIES);
    CHECK(code == LRU_DONE || code == LRU_MEMORY, true);
    CHECK(lru_clock_len(&clock).value, 0);
    if (code == LRU_MEMORY) {
        CHECK(lru_clock_places(&clock).value < ENTRIES, true);
        CHECK(lru_clock_reserve(&clock, ENTRIES), LRU_DONE);
    }
    CHECK(lru_clock_places(&clock).value, ENTRIES);
    CHECK(lru_clock_free(&clock), LRU_DONE);
    CHECK(lru_reader_free(&reader), LRU_DONE);
    return refused == 0;
}

/* Inserts and replaces entries, where one request for memory is refused: a key whose insert is
 * refused keeps what it had. Returns whether that was made at all. */
static bool test_refused_inserts(unsigned which) {
    enum { ENTRIES = 100 };
    lru_clock clock = {0};
    lru_reader reader = {0};
    lru_left left;
    uint64_t key, round, stored = 0, gone = 0;
    uint32_t next = 0;
    CHECK(lru_clock_new(2 * ENTRIES, &clock), LRU_DONE);
    CHECK(lru_reader_new(&clock, &reader), LRU_DONE);
    refused = which;
    for (round = 1; round <= 2; round++)
        for (key = 0; key < ENTRIES; key++) {
            lru_found old = lru_clock_find(&clock, hash_of(key), key, ~key), found;
            if (old.code == LRU_HIT)
                CHECK(lru_reader_unpin(&reader, old.place), LRU_DONE);
            found = inserts(&clock, key, 1, 1000 * round + key, true, &left);
            if (found.code == LRU_MEMORY) {
                found = lru_clock_find(&clock, hash_of(key), key, ~key);
                CHECK(found.code, old.code);
                CHECK(found.value, old.value);
            } else {
                CHECK(found.code, old.code == LRU_HIT ? LRU_REPLACED : LRU_DONE);
                CHECK(found.value, 1000 * round + key);
                stored++;
            }
            if (found.code == LRU_REPLACED) {
                CHECK(is_entry(&left, key, old.value), true);
                gone++;
            }
            if (found.code != LRU_MISSED)
                CHECK(lru_reader_unpin(&reader, found.place), LRU_DONE);
        }
    while (lru_clock_prune(&clock, &next, &left) == LRU_GONE)
        gone++;
    CHECK(gone, stored);
    CHECK(lru_clock_free(&clock), LRU_DONE);
    CHECK(lru_reader_free(&reader), LRU_DONE);
    return refused == 0;
}

/* Returns how many requests for memory were refused. */
static unsigned refusals_of(bool (*test)(unsigned)) {
    unsigned which = 1;
    while (test(which))
        which++;
    refused = 0;
    return which - 1;
}

/* ----------------------------------------------------------------------------- several threads */

enum { THREADS = 8, CALLS = 40000, KEYS = 200, MOST_VALUES = 2 * THREADS * CALLS };

/* A value is the number of an object. */
static struct object {
    uint64_t key;
    unsigned erasures; /* of the key, when its value was begun */
    atomic_int deletions, pins;
} objects[MOST_VALUES];

static atomic_uint next_object;
static lru_clock shared_clock;
static pthread_mutex_t mutex = PTHREAD_MUTEX_INITIALIZER;

static void delete_value(const lru_left *left) {
    struct object *object = &objects[left->value];
    CHECK(object->key, left->first);
    CHECK(object->pins, 0);
    CHECK(object->deletions++, 0);
}

/* Uses a pinned value, gives its pin back, and returns how that was answered. */
static lru_code use(lru_reader *reader, lru_found found, uint64_t key) {
    struct object *object = &objects[found.value];
    lru_left left;
    lru_code code, unpinned;
    object->pins++;
    CHECK(object->key, key);
    CHECK(object->deletions, 0);
    object->pins--;
    unpinned = lru_reader_unpin(reader, found.place);
    if (unpinned == LRU_LAST) {
        pthread_mutex_lock(&mutex);
        code = lru_clock_collect(&shared_clock, found.place, &left);
        pthread_mutex_unlock(&mutex);
        if (code == LRU_GONE)
            delete_value(&left);
    } else if (unpinned == LRU_ABOVE) {
        pthread_mutex_lock(&mutex);
        code = lru_clock_make_room(&shared_clock, 0, &left);
        pthread_mutex_unlock(&mutex);
        if (code == LRU_GONE)
            delete_value(&left);
    } else {
        CHECK(unpinned, LRU_DONE);
    }
    return unpinned;
}

static atomic_uint repins;

/* Takes another pin of an entry that is pinned, perhaps erased by now, and gives both back. */
static void use_twice(lru_reader *reader, lru_found found, uint64_t key) {
    lru_found again = lru_reader_pin_at(reader, found.place);
    CHECK(again.code, LRU_HIT);
    CHECK(again.place, found.place);
    CHECK(again.value, found.value);
    /* the other pin stays, so this is not the last one */
    CHECK(use(reader, again, key), LRU_DONE);
    use(reader, found, key);
    repins++;
}

static void insert(lru_reader *reader, uint64_t key) {
    lru_left kept[KEYS];
    lru_found found;
    unsigned count = 0, number = next_object++;
    objects[number].key = key;
    pthread_mutex_lock(&mutex);
    while (count < KEYS && lru_clock_make_room(&shared_clock, 1, &kept[count]) == LRU_GONE)
        count++;
    found = lru_clock_add(&shared_clock, hash_of(key), key, ~key, 1, number, false);
    pthread_mutex_unlock(&mutex);
    while (count > 0)
        delete_value(&kept[--count]);
    if (found.code == LRU_HIT)
        objects[number].deletions++;
    else
        CHECK(found.code, LRU_DONE);
    use(reader, found, key);
}

/* Replaces the entry of a key, and deletes each entry that leaves while it does not have the
 * mutex. */
static void replace(lru_reader *reader, uint64_t key) {
    lru_found found;
    unsigned number = next_object++;
    objects[number].key = key;
    do {
        lru_left left;
        pthread_mutex_lock(&mutex);
        found = inserts(&shared_clock, key, 1, number, false, &left);
        pthread_mutex_unlock(&mutex);
        if (found.code == LRU_GONE || found.code == LRU_REPLACED)
            delete_value(&left);
    } while (found.code == LRU_GONE);
    CHECK(found.code == LRU_DONE || found.code == LRU_REPLACED, true);
    CHECK(found.value, number);
    use(reader, found, key);
}

static void *run(void *from) {
    lru_reader reader = {0};
    uint64_t random = (uintptr_t)from;
    int call;
    pthread_mutex_lock(&mutex);
    CHECK(lru_reader_new(&shared_clock, &reader), LRU_DONE);
    pthread_mutex_unlock(&mutex);
    for (call = 0; call < CALLS; call++) {
        uint64_t key;
        lru_found found;
        random = random * 6364136223846793005 + 1442695040888963407;
        key = (random >> 33) % KEYS;
        if ((random >> 55) % 16 == 0) {
            lru_left left;
            lru_code code;
            pthread_mutex_lock(&mutex);
            code = lru_clock_erase(&shared_clock, hash_of(key), key, ~key, &left);
            pthread_mutex_unlock(&mutex);
            if (code == LRU_GONE)
                delete_value(&left);
            continue;
        }
        if ((random >> 55) % 16 == 1) {
            replace(&reader, key);
            continue;
        }
        found = lru_reader_pin(&reader, hash_of(key), key, ~key);
        if (found.code != LRU_HIT)
            insert(&reader, key);
        else if ((random >> 55) % 16 < 4)
            use_twice(&reader, found, key);
        else
            use(&reader, found, key);
    }
    CHECK(lru_reader_free(&reader), LRU_DONE);
    return NULL;
}

/* How often a key was erased, and how many makers it has had since whose values were stored or are
 * being made. The mutex protects both. */
static struct {
    unsigned erasures, makers;
} keys[KEYS];

static pthread_cond_t ended = PTHREAD_COND_INITIALIZER;
static atomic_uint waits, lone_values;

/* Makes the value of a key under a ticket, while the mutex is not held, and uses it. */
static void make_value(lru_reader *reader, uint64_t key, uint64_t ticket, bool fails) {
    lru_found found = {0, 0, 0};
    unsigned number = next_object++, erasures = keys[key].erasures;
    bool is_lone;
    CHECK(keys[key].makers++, 0);
    objects[number].key = key;
    objects[number].erasures = erasures;
    pthread_mutex_unlock(&mutex);
    sched_yield();
    pthread_mutex_lock(&mutex);
    is_lone = keys[key].erasures != erasures;
    if (fails) {
        CHECK(lru_clock_fail(&shared_clock, ticket), LRU_DONE);
        if (!is_lone)
            keys[key].makers--;
    } else {
        found = lru_clock_ready(&shared_clock, ticket, hash_of(key), 1, number, false);
        CHECK(found.code, LRU_DONE);
        CHECK(found.value, number);
    }
    CHECK(lru_clock_fail(&shared_clock, ticket), LRU_STALE);
    pthread_cond_broadcast(&ended);
    pthread_mutex_unlock(&mutex);
    if (fails) {
        objects[number].deletions++;
    } else if (is_lone) {
        CHECK(use(reader, found, key), LRU_LAST);
        CHECK(objects[number].deletions, 1);
        lone_values++;
    } else {
        use(reader, found, key);
    }
}

/* Nothing is evicted here: an entry leaves because its key was erased, so that those who find a key
 * find the value that was begun after its last erasure. */
static void *run_makers(void *from) {
    lru_reader reader = {0};
    uint64_t random = (uintptr_t)from;
    int call;
    pthread_mutex_lock(&mutex);
    CHECK(lru_reader_new(&shared_clock, &reader), LRU_DONE);
    pthread_mutex_unlock(&mutex);
    for (call = 0; call < CALLS; call++) {
        uint64_t key;
        lru_found found;
        random = random * 6364136223846793005 + 1442695040888963407;
        key = (random >> 33) % KEYS;
        pthread_mutex_lock(&mutex);
        if ((random >> 55) % 4 == 0) {
            lru_left left;
            lru_code code = lru_clock_erase(&shared_clock, hash_of(key), key, ~key, &left);
            keys[key].erasures++;
            keys[key].makers = 0;
            pthread_mutex_unlock(&mutex);
            if (code == LRU_GONE)
                delete_value(&left);
            continue;
        }
        while ((found = begins(&shared_clock, key, 1)).code == LRU_WAIT) {
            CHECK(keys[key].makers, 1);
            waits++;
            pthread_cond_wait(&ended, &mutex);
        }
        if (found.code == LRU_MAKE) {
            make_value(&reader, key, found.value, (random >> 58) % 4 == 0);
        } else {
            CHECK(found.code, LRU_HIT);
            CHECK(objects[found.value].erasures, keys[key].erasures);
            pthread_mutex_unlock(&mutex);
            use(&reader, found, key);
        }
    }
    CHECK(lru_reader_free(&reader), LRU_DONE);
    return NULL;
}

/* Runs eight threads on a clock, after which each value was deleted once. */
static void test_threads(uint64_t capacity, void *(*work)(void *)) {
    pthread_t threads[THREADS];
    lru_left left;
    uint32_t next = 0;
    uintptr_t number;
    unsigned made, deleted = 0;
    CHECK(lru_clock_new(capacity, &shared_clock), LRU_DONE);
    for (number = 0; number < THREADS; number++)
        CHECK(pthread_create(&threads[number], NULL, work, (void *)(number + 1)), 0);
    for (number = 0; number < THREADS; number++)
        CHECK(pthread_join(threads[number], NULL), 0);
    CHECK(lru_clock_pinned_charge(&shared_clock).value, 0);
    while (lru_clock_prune(&shared_clock, &next, &left) == LRU_GONE)
        delete_value(&left);
    CHECK(lru_clock_free(&shared_clock), LRU_DONE);
    made = next_object;
    for (number = 0; number < made; number++)
        deleted += objects[number].deletions == 1;
    CHECK(deleted, made);
}

int main(void) {
    unsigned refusals;
    test_answers();
    test_limits();
    test_above();
    test_inserts();
    test_makings();
    test_wrong_hashes_and_places();
    refusals = refusals_of(test_refusal) + refusals_of(test_refused_reserve);
    refusals += refusals_of(test_refused_inserts);
    test_threads(KEYS / 2, run);
    test_threads(UINT64_MAX, run_makers);
    if (failures > 0)
        return 1;
    printf("clock: %u requests for memory refused; %u values made, and each deleted once; %u pins "
           "of a pinned entry, %u waits for a maker, and %u values for their makers alone\n",
           refusals, (unsigned)next_object, (unsigned)repins, (unsigned)waits,
           (unsigned)lone_values);
    return 0;
}
