/* Worked examples, called rows: each shows one rule of the cache. This file is included once for
 * each kind of keys, with
 *
 *     FAMILY(name)    the function for such keys of that name, such as lru_bytes_get
 *     KIND            the kind of such keys, with which a cache is opened
 *     KEY(k)          the arguments that pass the number k as a key
 *
 * The value of a key is the key itself unless a row says otherwise. */

typedef struct FAMILY(stage) {
    lru_cache cache;
    lru_chain gone;
    uint64_t left[64]; /* the values evicted so far */
    size_t length;
} FAMILY(stage);

static void FAMILY(open_with_limits)(FAMILY(stage) *s, uint64_t capacity, uint64_t first_stamp,
                                     uint32_t most_pins) {
    memset(s, 0, sizeof *s);
    CHECK(lru_cache_new_with_limits(KIND, capacity, first_stamp, most_pins, 0, &s->cache),
          LRU_DONE);
    CHECK(lru_chain_new(&s->gone), LRU_DONE);
}

static void FAMILY(open)(FAMILY(stage) *s, uint64_t capacity) {
    memset(s, 0, sizeof *s);
    CHECK(lru_cache_new(KIND, capacity, 0, &s->cache), LRU_DONE);
    CHECK(lru_chain_new(&s->gone), LRU_DONE);
}

/* Pops what a call evicted, and returns the number of entries. */
static size_t FAMILY(note)(FAMILY(stage) *s) {
    lru_gone gone;
    size_t before = s->length;
    while (lru_chain_pop(&s->gone, &gone)) {
        if (s->length < sizeof s->left / sizeof s->left[0])
            s->left[s->length] = gone.value;
        s->length++;
    }
    return s->length - before;
}

static lru_told FAMILY(ask)(FAMILY(stage) *s, uint64_t k, uint64_t charge) {
    lru_told told = FAMILY(begin)(&s->cache, KEY(k), charge, false, &s->gone);
    FAMILY(note)(s);
    return told;
}

/* Pins the entry of a key, and makes its value if there is none. */
static lru_pin FAMILY(hold)(FAMILY(stage) *s, uint64_t k, uint64_t charge) {
    lru_told told = FAMILY(ask)(s, k, charge);
    if (told.code == LRU_MAKE)
        CHECK(lru_cache_ready(&s->cache, told.pin, k), LRU_DONE);
    else
        CHECK(told.code, LRU_HIT);
    return told.pin;
}

/* Gives a pin back, and returns the number of entries that this evicts. */
static size_t FAMILY(let_go)(FAMILY(stage) *s, lru_pin pin) {
    CHECK(lru_cache_release(&s->cache, pin, &s->gone), LRU_DONE);
    return FAMILY(note)(s);
}

/* The same, but the entry is evicted if the pin was its last. */
static size_t FAMILY(let_go_and_evict)(FAMILY(stage) *s, lru_pin pin) {
    CHECK(lru_cache_release_and_evict(&s->cache, pin, &s->gone), LRU_DONE);
    return FAMILY(note)(s);
}

/* Pins an entry once more, and returns its value. */
static uint64_t FAMILY(hold_again)(FAMILY(stage) *s, lru_pin pin) {
    lru_told told = lru_cache_repin(&s->cache, pin);
    CHECK(told.code, LRU_PINNED);
    CHECK(told.pin.stamp, pin.stamp);
    CHECK(told.pin.hash, pin.hash);
    CHECK(told.pin.place, pin.place);
    return told.value;
}

static void FAMILY(make)(FAMILY(stage) *s, uint64_t k, uint64_t charge) {
    FAMILY(let_go)(s, FAMILY(hold)(s, k, charge));
}

/* Whether a key is found; the pin is given back. */
static bool FAMILY(finds)(FAMILY(stage) *s, uint64_t k, uint64_t value) {
    lru_told told = FAMILY(get)(&s->cache, KEY(k));
    if (told.code != LRU_HIT) {
        CHECK(told.code, LRU_MISSED);
        CHECK(FAMILY(contains)(&s->cache, KEY(k)), LRU_MISSED);
        return false;
    }
    CHECK(told.value, value);
    CHECK(FAMILY(contains)(&s->cache, KEY(k)), LRU_DONE);
    FAMILY(let_go)(s, told.pin);
    return true;
}

static uint64_t FAMILY(total_of)(FAMILY(stage) *s) {
    lru_told told = lru_cache_total(&s->cache);
    CHECK(told.code, LRU_NUMBER);
    return told.value;
}

static uint64_t FAMILY(pinned_of)(FAMILY(stage) *s) {
    lru_told told = lru_cache_pinned_charge(&s->cache);
    CHECK(told.code, LRU_NUMBER);
    return told.value;
}

/* Evicts all idle entries, and returns their number. */
static size_t FAMILY(prune_all)(FAMILY(stage) *s) {
    s->length = 0;
    CHECK(lru_cache_prune(&s->cache, &s->gone), LRU_DONE);
    return FAMILY(note)(s);
}

static void FAMILY(close)(FAMILY(stage) *s) {
    CHECK(lru_cache_free(&s->cache, &s->gone), LRU_DONE);
    FAMILY(note)(s);
    CHECK(lru_chain_free(&s->gone), LRU_DONE);
}

#define EVICTED(s, ...)                                                                           \
    do {                                                                                          \
        const uint64_t wanted[] = {__VA_ARGS__};                                                  \
        check_list(__FILE__, __LINE__, (s)->left, (s)->length, wanted,                            \
                   sizeof wanted / sizeof wanted[0]);                                             \
    } while (0)

/* Rows 1 and 2: a key keeps its value; after an eviction the value is made again. */
static void FAMILY(row_1_2)(void) {
    FAMILY(stage) s;
    lru_told told;

    FAMILY(open)(&s, 10);
    FAMILY(make)(&s, 1, 1);
    FAMILY(make)(&s, 2, 1);
    CHECK(FAMILY(finds)(&s, 1, 1), true);
    FAMILY(close)(&s);

    FAMILY(open)(&s, 5);
    FAMILY(make)(&s, 1, 3);
    FAMILY(make)(&s, 2, 3);
    EVICTED(&s, 1);
    told = FAMILY(ask)(&s, 1, 3);
    CHECK(told.code, LRU_MAKE);
    CHECK(lru_cache_ready(&s.cache, told.pin, 3), LRU_DONE);
    FAMILY(let_go)(&s, told.pin);
    CHECK(FAMILY(finds)(&s, 1, 3), true);
    FAMILY(close)(&s);
}

/* Row 3: advice_evict evicts an idle entry, and does nothing to one that is pinned. */
static void FAMILY(row_3)(void) {
    FAMILY(stage) s;
    lru_pin pin;

    FAMILY(open)(&s, 5);
    pin = FAMILY(hold)(&s, 1, 3);
    CHECK(FAMILY(advice_evict)(&s.cache, KEY(1), &s.gone), LRU_DONE);
    CHECK(FAMILY(note)(&s), 0);
    CHECK(FAMILY(finds)(&s, 1, 1), true);
    FAMILY(let_go)(&s, pin);
    CHECK(FAMILY(advice_evict)(&s.cache, KEY(1), &s.gone), LRU_DONE);
    CHECK(FAMILY(note)(&s), 1);
    EVICTED(&s, 1);
    CHECK(FAMILY(finds)(&s, 1, 1), false);
    CHECK(FAMILY(advice_evict)(&s.cache, KEY(7), &s.gone), LRU_DONE);
    CHECK(FAMILY(note)(&s), 0);
    FAMILY(close)(&s);
}

/* Row 4: a third entry in a cache for two evicts the first. */
static void FAMILY(row_4)(void) {
    FAMILY(stage) s;

    FAMILY(open)(&s, 2);
    FAMILY(make)(&s, 1, 1);
    FAMILY(make)(&s, 2, 1);
    FAMILY(make)(&s, 3, 1);
    EVICTED(&s, 1);
    FAMILY(close)(&s);
}

/* Row 5: a pinned entry stays, whatever happens, and is the newest once it is released. */
static void FAMILY(row_5)(void) {
    FAMILY(stage) s;
    lru_pin four;

    FAMILY(open)(&s, 2);
    FAMILY(make)(&s, 1, 1);
    FAMILY(make)(&s, 2, 1);
    FAMILY(make)(&s, 3, 1);
    EVICTED(&s, 1);
    four = FAMILY(hold)(&s, 4, 1);
    EVICTED(&s, 1, 2);
    FAMILY(make)(&s, 5, 1);
    FAMILY(make)(&s, 6, 1);
    EVICTED(&s, 1, 2, 3, 5);
    CHECK(FAMILY(let_go)(&s, four), 0);
    EVICTED(&s, 1, 2, 3, 5);
    FAMILY(make)(&s, 7, 1);
    FAMILY(make)(&s, 8, 1);
    EVICTED(&s, 1, 2, 3, 5, 6, 4);
    FAMILY(close)(&s);
}

/* Row 6: if making a value fails, no entry is left, and the next attempt may succeed. */
static void FAMILY(row_6)(void) {
    FAMILY(stage) s;
    lru_told told;

    FAMILY(open)(&s, 10);
    FAMILY(make)(&s, 1, 1);
    CHECK(FAMILY(finds)(&s, 1, 1), true);
    FAMILY(make)(&s, 2, 1);
    CHECK(FAMILY(finds)(&s, 2, 2), true);
    told = FAMILY(ask)(&s, 3, 1);
    CHECK(told.code, LRU_MAKE);
    CHECK(lru_cache_fail(&s.cache, told.pin), LRU_REMOVED);
    CHECK(FAMILY(finds)(&s, 3, 3), false);
    FAMILY(make)(&s, 3, 1);
    CHECK(FAMILY(finds)(&s, 3, 3), true);
    FAMILY(close)(&s);
}

/* Row 8: the charge counts from begin on, so others are evicted even if making the value fails. */
static void FAMILY(row_8)(void) {
    FAMILY(stage) s;
    lru_told told;

    FAMILY(open)(&s, 2);
    FAMILY(make)(&s, 1, 1);
    FAMILY(make)(&s, 2, 1);
    told = FAMILY(ask)(&s, 3, 2);
    EVICTED(&s, 1, 2);
    CHECK(lru_cache_fail(&s.cache, told.pin), LRU_REMOVED);
    CHECK(FAMILY(finds)(&s, 1, 1), false);
    CHECK(FAMILY(finds)(&s, 2, 2), false);
    CHECK(FAMILY(total_of)(&s), 0);
    FAMILY(close)(&s);
}

/* Row 9: an entry larger than the capacity lives while it is pinned. */
static void FAMILY(row_9)(void) {
    FAMILY(stage) s;
    lru_pin pin;

    FAMILY(open)(&s, 5);
    pin = FAMILY(hold)(&s, 1, 9);
    CHECK(FAMILY(total_of)(&s), 9);
    CHECK(FAMILY(pinned_of)(&s), 9);
    CHECK(FAMILY(let_go)(&s, pin), 1);
    CHECK(FAMILY(pinned_of)(&s), 0);
    CHECK(FAMILY(finds)(&s, 1, 1), false);
    CHECK(FAMILY(total_of)(&s), 0);
    FAMILY(close)(&s);
}

/* Row 10: an entry keeps the charge that it was added with. */
static void FAMILY(row_10)(void) {
    FAMILY(stage) s;

    FAMILY(open)(&s, 10);
    FAMILY(make)(&s, 1, 3);
    FAMILY(make)(&s, 1, 7);
    CHECK(FAMILY(total_of)(&s), 3);
    FAMILY(close)(&s);
}

/* Row 11: of two entries that were pinned at once, the one released first leaves first. */
static void FAMILY(row_11)(void) {
    FAMILY(stage) s;
    lru_pin one, two;

    FAMILY(open)(&s, 2);
    one = FAMILY(hold)(&s, 1, 1);
    two = FAMILY(hold)(&s, 2, 1);
    FAMILY(let_go)(&s, two);
    FAMILY(let_go)(&s, one);
    FAMILY(make)(&s, 3, 1);
    EVICTED(&s, 2);
    FAMILY(close)(&s);
}

/* Row 12: what stays is the longest list of newest entries whose charges fit. */
static void FAMILY(row_12)(void) {
    FAMILY(stage) s;

    FAMILY(open)(&s, 5);
    FAMILY(make)(&s, 1, 3);
    FAMILY(make)(&s, 2, 2);
    FAMILY(make)(&s, 3, 4);
    CHECK(FAMILY(prune_all)(&s), 1);
    EVICTED(&s, 3);
    FAMILY(close)(&s);

    FAMILY(open)(&s, 9);
    FAMILY(make)(&s, 1, 3);
    FAMILY(make)(&s, 2, 2);
    FAMILY(make)(&s, 3, 4);
    CHECK(FAMILY(prune_all)(&s), 3);
    EVICTED(&s, 1, 2, 3);
    FAMILY(close)(&s);
}

/* Row 13: a lookup makes an entry the newest, if it is still there to be found. */
static void FAMILY(row_13)(void) {
    FAMILY(stage) s;

    FAMILY(open)(&s, 3);
    FAMILY(make)(&s, 1, 2);
    FAMILY(make)(&s, 2, 2);
    CHECK(FAMILY(finds)(&s, 1, 1), false);
    FAMILY(make)(&s, 3, 1);
    FAMILY(prune_all)(&s);
    EVICTED(&s, 2, 3);
    FAMILY(close)(&s);

    FAMILY(open)(&s, 4);
    FAMILY(make)(&s, 1, 2);
    FAMILY(make)(&s, 2, 2);
    CHECK(FAMILY(finds)(&s, 1, 1), true);
    FAMILY(make)(&s, 3, 1);
    FAMILY(prune_all)(&s);
    EVICTED(&s, 1, 3);
    FAMILY(close)(&s);
}

/* Row 15: a charge that would overflow the total is refused before anything is evicted. */
static void FAMILY(row_15)(void) {
    FAMILY(stage) s;

    FAMILY(open)(&s, UINT64_MAX);
    FAMILY(make)(&s, 1, UINT64_MAX);
    CHECK(FAMILY(ask)(&s, 2, 1).code, LRU_OVERFLOW);
    CHECK(s.length, 0);
    CHECK(FAMILY(finds)(&s, 1, 1), true);
    CHECK(FAMILY(total_of)(&s), UINT64_MAX);
    FAMILY(close)(&s);
}

/* Row 16: if one caller fails, the next that asks makes the value; old stamps are stale. */
static void FAMILY(row_16)(void) {
    FAMILY(stage) s;
    lru_told told;

    FAMILY(open)(&s, 10);
    told = FAMILY(ask)(&s, 1, 3);
    CHECK(told.code, LRU_MAKE);
    CHECK(told.pin.stamp, 0);
    CHECK(FAMILY(finds)(&s, 1, 1), false);
    /* the one that makes the value would wait for itself */
    CHECK(lru_cache_poll(&s.cache, pin_of(0)).code, LRU_WAIT);
    told = FAMILY(ask)(&s, 1, 7);
    CHECK(told.code, LRU_WAIT);
    CHECK(told.pin.stamp, 0);
    told = lru_cache_poll(&s.cache, pin_of(0));
    CHECK(told.code, LRU_WAIT);
    CHECK(lru_cache_fail(&s.cache, pin_of(0)), LRU_LEFT);
    told = lru_cache_poll(&s.cache, pin_of(0));
    CHECK(told.code, LRU_MAKE);
    CHECK(told.pin.stamp, 0);
    CHECK(lru_cache_ready(&s.cache, pin_of(0), 77), LRU_DONE);
    CHECK(lru_cache_ready(&s.cache, pin_of(0), 78), LRU_STALE);
    told = lru_cache_poll(&s.cache, pin_of(0));
    CHECK(told.code, LRU_HIT);
    CHECK(told.value, 77);
    CHECK(FAMILY(total_of)(&s), 3);
    CHECK(FAMILY(let_go)(&s, pin_of(0)), 0);
    CHECK(lru_cache_release(&s.cache, pin_of(0), &s.gone), LRU_STALE);
    CHECK(FAMILY(note)(&s), 0);
    CHECK(lru_cache_fail(&s.cache, pin_of(0)), LRU_STALE);
    CHECK(lru_cache_poll(&s.cache, pin_of(0)).code, LRU_STALE);
    CHECK(FAMILY(finds)(&s, 1, 77), true);
    FAMILY(close)(&s);
}

/* Row 17: with a capacity of 0 an entry is evicted at its release. */
static void FAMILY(row_17)(void) {
    FAMILY(stage) s;

    FAMILY(open)(&s, 0);
    FAMILY(make)(&s, 1, 1);
    EVICTED(&s, 1);
    CHECK(FAMILY(finds)(&s, 1, 1), false);
    FAMILY(close)(&s);
}

/* Row 18: the last stamp is never given, and an entry gets no more pins than it may have. */
static void FAMILY(row_18)(void) {
    FAMILY(stage) s;

    FAMILY(open_with_limits)(&s, 10, UINT64_MAX, 5);
    CHECK(FAMILY(ask)(&s, 1, 1).code, LRU_OVERFLOW);
    FAMILY(close)(&s);

    FAMILY(open_with_limits)(&s, 10, 0, 1);
    FAMILY(hold)(&s, 1, 1);
    CHECK(FAMILY(get)(&s.cache, KEY(1)).code, LRU_OVERFLOW);
    CHECK(FAMILY(ask)(&s, 1, 1).code, LRU_OVERFLOW);
    CHECK(FAMILY(let_go)(&s, pin_of(0)), 0);
    CHECK(FAMILY(finds)(&s, 1, 1), true);
    FAMILY(close)(&s);
}

/* Row 19: a smaller capacity evicts the oldest at once; a larger one does not bring them back. */
static void FAMILY(row_19)(void) {
    FAMILY(stage) s;

    FAMILY(open)(&s, 9);
    FAMILY(make)(&s, 1, 3);
    FAMILY(make)(&s, 2, 2);
    FAMILY(make)(&s, 3, 4);
    CHECK(lru_cache_set_capacity(&s.cache, 5, &s.gone), LRU_DONE);
    FAMILY(note)(&s);
    EVICTED(&s, 1, 2);
    CHECK(lru_cache_capacity(&s.cache).value, 5);
    CHECK(lru_cache_set_capacity(&s.cache, 9, &s.gone), LRU_DONE);
    CHECK(FAMILY(note)(&s), 0);
    CHECK(FAMILY(finds)(&s, 1, 1), false);
    CHECK(FAMILY(prune_all)(&s), 1);
    EVICTED(&s, 3);
    FAMILY(close)(&s);
}

/* invalidate: the key no longer finds its entry, and whoever holds the entry still has it. */
static void FAMILY(invalidates)(void) {
    FAMILY(stage) s;
    lru_pin first, second;

    /* an idle entry is evicted at once */
    FAMILY(open)(&s, 10);
    FAMILY(make)(&s, 1, 3);
    CHECK(FAMILY(invalidate)(&s.cache, KEY(1), &s.gone), LRU_DONE);
    CHECK(FAMILY(note)(&s), 1);
    EVICTED(&s, 1);
    CHECK(FAMILY(invalidate)(&s.cache, KEY(1), &s.gone), LRU_DONE);
    CHECK(FAMILY(note)(&s), 0);
    CHECK(FAMILY(total_of)(&s), 0);

    /* a held one is evicted with its last release, and counts until then */
    first = FAMILY(hold)(&s, 2, 3);
    CHECK(FAMILY(hold)(&s, 2, 3).stamp, first.stamp);
    CHECK(FAMILY(invalidate)(&s.cache, KEY(2), &s.gone), LRU_DONE);
    CHECK(FAMILY(note)(&s), 0);
    CHECK(FAMILY(finds)(&s, 2, 2), false);
    CHECK(lru_cache_poll(&s.cache, first).value, 2);
    second = FAMILY(hold)(&s, 2, 4);
    CHECK(second.stamp != first.stamp, true);
    CHECK(FAMILY(total_of)(&s), 7);
    CHECK(FAMILY(pinned_of)(&s), 7);
    CHECK(lru_cache_len(&s.cache).value, 2);
    CHECK(FAMILY(let_go)(&s, first), 0);
    CHECK(FAMILY(pinned_of)(&s), 7);
    CHECK(FAMILY(let_go)(&s, first), 1);
    CHECK(FAMILY(pinned_of)(&s), 4);
    EVICTED(&s, 1, 2);
    CHECK(lru_cache_release(&s.cache, first, &s.gone), LRU_STALE);
    CHECK(FAMILY(let_go)(&s, second), 0);
    CHECK(FAMILY(finds)(&s, 2, 2), true);
    CHECK(FAMILY(total_of)(&s), 4);
    CHECK(FAMILY(pinned_of)(&s), 0);
    FAMILY(close)(&s);
}

/* invalidate while a value is being made: those who wait get the value, and a later begin adds a
 * new entry. */
static void FAMILY(invalidates_a_making)(void) {
    FAMILY(stage) s;
    lru_pin first, second;
    lru_told told;

    FAMILY(open)(&s, 10);
    first = FAMILY(ask)(&s, 1, 3).pin;
    CHECK(FAMILY(ask)(&s, 1, 3).code, LRU_WAIT);
    CHECK(FAMILY(invalidate)(&s.cache, KEY(1), &s.gone), LRU_DONE);
    told = FAMILY(ask)(&s, 1, 3);
    CHECK(told.code, LRU_MAKE);
    second = told.pin;
    CHECK(second.stamp != first.stamp, true);
    CHECK(lru_cache_ready(&s.cache, first, 10), LRU_DONE);
    CHECK(lru_cache_poll(&s.cache, first).value, 10);
    CHECK(lru_cache_ready(&s.cache, second, 20), LRU_DONE);
    CHECK(FAMILY(finds)(&s, 1, 20), true);
    CHECK(FAMILY(let_go)(&s, first), 0);
    CHECK(FAMILY(let_go)(&s, first), 1);
    EVICTED(&s, 10);
    CHECK(FAMILY(let_go)(&s, second), 0);

    /* making the value fails */
    told = FAMILY(ask)(&s, 2, 3);
    CHECK(FAMILY(invalidate)(&s.cache, KEY(2), &s.gone), LRU_DONE);
    CHECK(lru_cache_fail(&s.cache, told.pin), LRU_REMOVED);
    CHECK(FAMILY(total_of)(&s), 3);
    FAMILY(close)(&s);
}

/* Inserts a value, and returns the pin of its entry. */
static lru_pin FAMILY(put)(FAMILY(stage) *s, uint64_t k, uint64_t charge, uint64_t value) {
    lru_told told = FAMILY(insert)(&s->cache, KEY(k), charge, value, false, &s->gone);
    CHECK(told.code, LRU_DONE);
    CHECK(told.value, 0);
    FAMILY(note)(s);
    return told.pin;
}

/* insert: replaces the entry of the key, whoever holds it, and then evicts. */
static void FAMILY(inserts)(void) {
    FAMILY(stage) s;
    lru_pin first, second;

    FAMILY(open)(&s, 4);
    first = FAMILY(put)(&s, 1, 1, 10);
    CHECK(FAMILY(finds)(&s, 1, 10), true);
    CHECK(FAMILY(let_go)(&s, first), 0);
    FAMILY(make)(&s, 2, 1);
    FAMILY(make)(&s, 3, 1);

    /* over an idle entry: that one comes first, and what the charge evicts is the oldest */
    second = FAMILY(put)(&s, 3, 3, 30);
    EVICTED(&s, 3, 10);
    CHECK(FAMILY(finds)(&s, 3, 30), true);
    CHECK(FAMILY(total_of)(&s), 4);

    /* over a held one, whose holder keeps it */
    first = FAMILY(put)(&s, 3, 1, 31);
    EVICTED(&s, 3, 10, 2);
    CHECK(FAMILY(finds)(&s, 3, 31), true);
    CHECK(lru_cache_poll(&s.cache, second).value, 30);
    CHECK(FAMILY(total_of)(&s), 4);
    CHECK(FAMILY(let_go)(&s, second), 1);
    EVICTED(&s, 3, 10, 2, 30);
    CHECK(FAMILY(let_go)(&s, first), 0);
    CHECK(FAMILY(finds)(&s, 3, 31), true);

    /* refused: the key keeps its entry */
    CHECK(FAMILY(insert)(&s.cache, KEY(3), 0, 32, false, &s.gone).code, LRU_NO_CHARGE);
    first = FAMILY(hold)(&s, 3, 1);
    CHECK(FAMILY(insert)(&s.cache, KEY(3), UINT64_MAX, 32, false, &s.gone).code, LRU_OVERFLOW);
    CHECK(FAMILY(finds)(&s, 3, 31), true);
    CHECK(FAMILY(let_go)(&s, first), 0);
    CHECK(FAMILY(note)(&s), 0);

    /* the charge of an idle entry of the key does not count */
    first = FAMILY(put)(&s, 3, UINT64_MAX, 33);
    EVICTED(&s, 3, 10, 2, 30, 31);
    CHECK(FAMILY(let_go)(&s, first), 1);
    FAMILY(close)(&s);
}

/* Refuses a strict begin and a strict insert of a key, and checks that nothing has changed. */
static void FAMILY(is_full)(FAMILY(stage) *s, uint64_t k, uint64_t charge) {
    lru_stats before, after;
    lru_told told;

    s->length = 0;
    CHECK(lru_cache_stats(&s->cache, &before), LRU_DONE);
    told = FAMILY(begin)(&s->cache, KEY(k), charge, true, &s->gone);
    CHECK(told.code, LRU_FULL);
    CHECK(told.pin.stamp, 0);
    CHECK(told.pin.hash, 0);
    CHECK(told.pin.place, 0);
    CHECK(told.value, 0);
    told = FAMILY(insert)(&s->cache, KEY(k), charge, 99, true, &s->gone);
    CHECK(told.code, LRU_FULL);
    CHECK(told.pin.stamp, 0);
    CHECK(told.value, 0);
    CHECK(lru_chain_is_empty(&s->gone), true);
    CHECK(lru_cache_stats(&s->cache, &after), LRU_DONE);
    CHECK(memcmp(&before, &after, sizeof before), 0);
}

/* A strict begin adds no entry that the capacity has no room for beside the held ones. */
static void FAMILY(begins_strictly)(void) {
    FAMILY(stage) s;
    lru_pin first, second;
    lru_told told;

    /* the idle entries leave for a new one, oldest first, but not for one that is refused */
    FAMILY(open)(&s, 10);
    first = FAMILY(hold)(&s, 1, 4);
    FAMILY(make)(&s, 2, 3);
    FAMILY(make)(&s, 3, 3);
    FAMILY(is_full)(&s, 4, 7);
    FAMILY(is_full)(&s, 4, UINT64_MAX);
    CHECK(FAMILY(total_of)(&s), 10);
    told = FAMILY(begin)(&s.cache, KEY(4), 3, true, &s.gone);
    CHECK(told.code, LRU_MAKE);
    FAMILY(note)(&s);
    EVICTED(&s, 2);
    CHECK(lru_cache_ready(&s.cache, told.pin, 4), LRU_DONE);
    CHECK(FAMILY(let_go)(&s, told.pin), 0);
    told = FAMILY(begin)(&s.cache, KEY(5), 6, true, &s.gone);
    CHECK(told.code, LRU_MAKE);
    FAMILY(note)(&s);
    EVICTED(&s, 2, 3, 4);
    CHECK(FAMILY(total_of)(&s), 10);

    /* now all are held: an entry that exists is still found, made or waited for */
    FAMILY(is_full)(&s, 6, 1);
    CHECK(FAMILY(begin)(&s.cache, KEY(1), 9, true, &s.gone).value, 1);
    CHECK(FAMILY(let_go)(&s, first), 0);
    second = told.pin;
    CHECK(FAMILY(begin)(&s.cache, KEY(5), 9, true, &s.gone).code, LRU_WAIT);
    CHECK(lru_cache_fail(&s.cache, second), LRU_LEFT);
    CHECK(FAMILY(begin)(&s.cache, KEY(5), 9, true, &s.gone).code, LRU_MAKE);
    CHECK(lru_cache_ready(&s.cache, second, 5), LRU_DONE);
    CHECK(FAMILY(begin)(&s.cache, KEY(5), 9, true, &s.gone).code, LRU_HIT);

    /* a charge of 0 is refused first; other refusals are those of begin */
    CHECK(FAMILY(begin)(&s.cache, KEY(6), 0, true, &s.gone).code, LRU_NO_CHARGE);
    FAMILY(close)(&s);
    FAMILY(open_with_limits)(&s, 10, UINT64_MAX - 1, 1);
    FAMILY(hold)(&s, 1, 10);
    CHECK(FAMILY(begin)(&s.cache, KEY(1), 1, true, &s.gone).code, LRU_OVERFLOW);
    FAMILY(is_full)(&s, 2, UINT64_MAX);
    CHECK(FAMILY(let_go)(&s, pin_of(UINT64_MAX - 1)), 0);
    CHECK(FAMILY(begin)(&s.cache, KEY(2), 1, true, &s.gone).code, LRU_OVERFLOW);
    CHECK(FAMILY(total_of)(&s), 10);
    FAMILY(close)(&s);
}

/* A strict insert replaces the entry of the key, unless the capacity has no room. */
static void FAMILY(inserts_strictly)(void) {
    FAMILY(stage) s;
    lru_pin first, second;
    lru_told told;

    FAMILY(open)(&s, 10);
    first = FAMILY(hold)(&s, 1, 4);
    FAMILY(make)(&s, 2, 3);
    FAMILY(make)(&s, 3, 3);

    /* the held entry of the key counts, and the key keeps its entry */
    told = FAMILY(insert)(&s.cache, KEY(1), 7, 10, true, &s.gone);
    CHECK(told.code, LRU_FULL);
    CHECK(FAMILY(note)(&s), 0);
    CHECK(FAMILY(finds)(&s, 1, 1), true);
    CHECK(FAMILY(total_of)(&s), 10);

    /* an idle one does not: it comes first, followed by what the charge evicts */
    told = FAMILY(insert)(&s.cache, KEY(3), 7, 30, true, &s.gone);
    CHECK(told.code, LRU_FULL);
    CHECK(FAMILY(finds)(&s, 3, 3), true);
    told = FAMILY(insert)(&s.cache, KEY(3), 6, 30, true, &s.gone);
    CHECK(told.code, LRU_DONE);
    CHECK(told.value, 0);
    FAMILY(note)(&s);
    EVICTED(&s, 3, 2);
    CHECK(FAMILY(finds)(&s, 3, 30), true);
    CHECK(FAMILY(total_of)(&s), 10);
    second = told.pin;
    FAMILY(is_full)(&s, 4, 1);

    /* beside a held entry of the key there is room once it is released */
    CHECK(FAMILY(let_go)(&s, second), 0);
    told = FAMILY(insert)(&s.cache, KEY(1), 6, 11, true, &s.gone);
    CHECK(told.code, LRU_DONE);
    FAMILY(note)(&s);
    EVICTED(&s, 30);
    CHECK(lru_cache_poll(&s.cache, first).value, 1);
    CHECK(FAMILY(finds)(&s, 1, 11), true);
    CHECK(FAMILY(let_go)(&s, first), 1);
    CHECK(FAMILY(let_go)(&s, told.pin), 0);

    /* refusals of insert */
    CHECK(FAMILY(insert)(&s.cache, KEY(1), 0, 12, true, &s.gone).code, LRU_NO_CHARGE);
    FAMILY(close)(&s);
    FAMILY(open_with_limits)(&s, 10, UINT64_MAX, 1);
    FAMILY(is_full)(&s, 1, 11);
    CHECK(FAMILY(insert)(&s.cache, KEY(1), 10, 1, true, &s.gone).code, LRU_OVERFLOW);
    FAMILY(close)(&s);

    /* a lower capacity leaves held entries above it: nothing is added until they are released */
    FAMILY(open)(&s, 10);
    first = FAMILY(hold)(&s, 1, 8);
    CHECK(lru_cache_set_capacity(&s.cache, 5, &s.gone), LRU_DONE);
    FAMILY(is_full)(&s, 2, 1);
    CHECK(FAMILY(let_go)(&s, first), 1);
    CHECK(FAMILY(insert)(&s.cache, KEY(2), 5, 2, true, &s.gone).code, LRU_DONE);
    FAMILY(is_full)(&s, 3, 1);
    FAMILY(close)(&s);
}

/* The calls that pin an entry tell the same pin. Another hash or place changes no answer. */
static void FAMILY(pins)(void) {
    FAMILY(stage) s;
    lru_pin first, second;
    lru_told told;

    FAMILY(open)(&s, 10);
    first = FAMILY(put)(&s, 1, 1, 10);
    told = FAMILY(get)(&s.cache, KEY(1));
    CHECK(told.pin.stamp, first.stamp);
    CHECK(told.pin.hash, first.hash);
    CHECK(told.pin.place, first.place);
    told = FAMILY(ask)(&s, 1, 1);
    CHECK(told.pin.stamp, first.stamp);
    CHECK(told.pin.hash, first.hash);
    CHECK(told.pin.place, first.place);
    told = lru_cache_poll(&s.cache, first);
    CHECK(told.pin.stamp, first.stamp);
    CHECK(told.pin.hash, first.hash);
    CHECK(told.pin.place, first.place);

    second = FAMILY(put)(&s, 2, 1, 20);
    second.hash = first.hash;
    CHECK(lru_cache_poll(&s.cache, second).value, 20);
    second.place = SIZE_MAX;
    CHECK(lru_cache_poll(&s.cache, second).value, 20);
    CHECK(FAMILY(let_go)(&s, second), 0);
    told = lru_cache_poll(&s.cache, second); /* nobody holds it */
    CHECK(told.code, LRU_STALE);
    CHECK(told.pin.stamp, 0);
    CHECK(told.pin.hash, 0);
    CHECK(told.pin.place, 0);
    CHECK(FAMILY(finds)(&s, 1, 10), true);
    CHECK(FAMILY(finds)(&s, 2, 20), true);
    FAMILY(close)(&s);
}

/* repin: one more pin of an entry that has a value, whether it is held, detached or idle. */
static void FAMILY(repins)(void) {
    FAMILY(stage) s;
    lru_pin first, second;
    lru_told told;

    /* a held entry: two releases are needed */
    FAMILY(open)(&s, 10);
    first = FAMILY(hold)(&s, 1, 3);
    CHECK(FAMILY(hold_again)(&s, first), 1);
    CHECK(FAMILY(let_go)(&s, first), 0);
    CHECK(FAMILY(pinned_of)(&s), 3);
    CHECK(FAMILY(let_go)(&s, first), 0);
    CHECK(FAMILY(pinned_of)(&s), 0);
    CHECK(lru_cache_release(&s.cache, first, &s.gone), LRU_STALE);

    /* an idle entry: it is held, and is the newest once it is released */
    FAMILY(make)(&s, 2, 3);
    CHECK(FAMILY(hold_again)(&s, first), 1);
    CHECK(FAMILY(pinned_of)(&s), 3);
    CHECK(FAMILY(prune_all)(&s), 1);
    EVICTED(&s, 2);
    FAMILY(make)(&s, 2, 3);
    CHECK(FAMILY(let_go)(&s, first), 0);
    CHECK(FAMILY(prune_all)(&s), 2);
    EVICTED(&s, 2, 1);

    /* an entry that was evicted */
    told = lru_cache_repin(&s.cache, first);
    CHECK(told.code, LRU_STALE);
    CHECK(told.pin.hash, 0);
    CHECK(told.value, 0);

    /* a detached entry: the second holder still has it when the first has given its pin back */
    s.length = 0;
    first = FAMILY(hold)(&s, 1, 3);
    CHECK(FAMILY(invalidate)(&s.cache, KEY(1), &s.gone), LRU_DONE);
    second = FAMILY(put)(&s, 1, 3, 11);
    CHECK(FAMILY(hold_again)(&s, first), 1);
    CHECK(FAMILY(let_go)(&s, first), 0);
    CHECK(lru_cache_poll(&s.cache, first).value, 1);
    CHECK(FAMILY(finds)(&s, 1, 11), true);
    CHECK(FAMILY(total_of)(&s), 6);
    CHECK(FAMILY(let_go)(&s, first), 1);
    EVICTED(&s, 1);
    CHECK(lru_cache_repin(&s.cache, first).code, LRU_STALE);
    CHECK(FAMILY(let_go)(&s, second), 0);

    /* another hash or place changes no answer */
    CHECK(FAMILY(hold_again)(&s, pin_of(second.stamp)), 11);
    CHECK(FAMILY(let_go)(&s, second), 0);

    /* an entry whose value is being made, or was given up while another caller waits */
    told = FAMILY(ask)(&s, 2, 1);
    CHECK(told.code, LRU_MAKE);
    CHECK(lru_cache_repin(&s.cache, told.pin).code, LRU_STALE);
    CHECK(FAMILY(ask)(&s, 2, 1).code, LRU_WAIT);
    CHECK(lru_cache_fail(&s.cache, told.pin), LRU_LEFT);
    CHECK(lru_cache_repin(&s.cache, told.pin).code, LRU_STALE);
    CHECK(lru_cache_poll(&s.cache, told.pin).code, LRU_MAKE);
    CHECK(lru_cache_fail(&s.cache, told.pin), LRU_REMOVED);
    FAMILY(close)(&s);

    /* an entry that has as many pins as it may have */
    FAMILY(open_with_limits)(&s, 10, 5, 2);
    first = FAMILY(hold)(&s, 1, 1);
    CHECK(FAMILY(hold_again)(&s, first), 1);
    told = lru_cache_repin(&s.cache, first);
    CHECK(told.code, LRU_OVERFLOW);
    CHECK(told.pin.stamp, 0);
    CHECK(told.value, 0);
    CHECK(FAMILY(let_go)(&s, first), 0);
    CHECK(FAMILY(hold_again)(&s, first), 1);
    CHECK(FAMILY(let_go)(&s, first), 0);
    CHECK(FAMILY(let_go)(&s, first), 0);
    CHECK(FAMILY(pinned_of)(&s), 0);
    FAMILY(close)(&s);
}

/* release_and_evict: with its last pin an entry is evicted, and no other entry is. */
static void FAMILY(releases_and_evicts)(void) {
    FAMILY(stage) s;
    lru_pin pin;
    lru_told told;

    /* one pin: idle entries stay, even if they are older */
    FAMILY(open)(&s, 10);
    FAMILY(make)(&s, 1, 3);
    pin = FAMILY(hold)(&s, 2, 3);
    FAMILY(make)(&s, 3, 3);
    CHECK(FAMILY(let_go_and_evict)(&s, pin), 1);
    EVICTED(&s, 2);
    CHECK(FAMILY(finds)(&s, 1, 1), true);
    CHECK(FAMILY(finds)(&s, 2, 2), false);
    CHECK(FAMILY(finds)(&s, 3, 3), true);
    CHECK(FAMILY(total_of)(&s), 6);
    CHECK(FAMILY(pinned_of)(&s), 0);
    CHECK(lru_cache_release_and_evict(&s.cache, pin, &s.gone), LRU_STALE);
    CHECK(FAMILY(note)(&s), 0);

    /* two pins: nothing leaves, now or with the other holder's release */
    pin = FAMILY(hold)(&s, 1, 3);
    CHECK(FAMILY(hold)(&s, 1, 3).stamp, pin.stamp);
    CHECK(FAMILY(let_go_and_evict)(&s, pin), 0);
    CHECK(FAMILY(pinned_of)(&s), 3);
    CHECK(FAMILY(finds)(&s, 1, 1), true);
    CHECK(FAMILY(let_go)(&s, pin), 0);
    CHECK(FAMILY(pinned_of)(&s), 0);

    /* an idle entry has no pin to give back */
    CHECK(lru_cache_release_and_evict(&s.cache, pin, &s.gone), LRU_STALE);
    CHECK(FAMILY(finds)(&s, 1, 1), true);

    /* a pin that repin told counts as any other */
    CHECK(FAMILY(hold_again)(&s, pin), 1);
    CHECK(FAMILY(hold_again)(&s, pin), 1);
    CHECK(FAMILY(let_go)(&s, pin), 0);
    CHECK(FAMILY(let_go_and_evict)(&s, pin), 1);
    EVICTED(&s, 2, 1);

    /* a detached entry, beside the new one of its key */
    pin = FAMILY(put)(&s, 3, 3, 30);
    EVICTED(&s, 2, 1, 3);
    FAMILY(let_go)(&s, FAMILY(put)(&s, 3, 3, 31));
    CHECK(FAMILY(hold_again)(&s, pin), 30);
    CHECK(FAMILY(let_go_and_evict)(&s, pin), 0);
    CHECK(FAMILY(let_go_and_evict)(&s, pin), 1);
    EVICTED(&s, 2, 1, 3, 30);
    CHECK(FAMILY(finds)(&s, 3, 31), true);
    CHECK(FAMILY(total_of)(&s), 3);

    /* a value that is being made is given up by fail only */
    told = FAMILY(ask)(&s, 4, 1);
    CHECK(told.code, LRU_MAKE);
    CHECK(lru_cache_release_and_evict(&s.cache, told.pin, &s.gone), LRU_STALE);
    CHECK(lru_cache_ready(&s.cache, told.pin, 4), LRU_DONE);
    CHECK(FAMILY(let_go)(&s, told.pin), 0);
    CHECK(FAMILY(finds)(&s, 4, 4), true);
    FAMILY(close)(&s);
}

/* Checks what `entry` tells of the entry of a pin, and that `entries` has it. */
static void FAMILY(check_entry)(FAMILY(stage) *s, lru_pin pin, uint64_t value, uint64_t charge,
                                uint32_t pins, uint32_t is_detached) {
    lru_entry entry = {{9, 9, 9}, 9, 9, 9, 9};
    lru_entry all[8];
    lru_told told;
    size_t i;

    CHECK(lru_cache_entry(&s->cache, pin, &entry), LRU_DONE);
    CHECK(entry.pin.stamp, pin.stamp);
    CHECK(entry.pin.hash, pin.hash);
    CHECK(entry.pin.place, pin.place);
    CHECK(entry.value, value);
    CHECK(entry.charge, charge);
    CHECK(entry.pins, pins);
    CHECK(entry.is_detached, is_detached);

    told = lru_cache_entries(&s->cache, all, 8);
    CHECK(told.code, LRU_NUMBER);
    for (i = 0; i < told.value && all[i].pin.stamp != pin.stamp; i++)
        continue;
    CHECK(i < told.value, true);
    if (i < told.value)
        CHECK(memcmp(&all[i], &entry, sizeof entry), 0);
}

/* `entry` and `entries` show the entries that have a value. */
static void FAMILY(entries)(void) {
    FAMILY(stage) s;
    lru_entry all[3], entry;
    lru_told told, waits;

    FAMILY(open)(&s, 10);
    memset(all, 9, sizeof all);
    entry = all[0];
    CHECK(lru_cache_entries(&s.cache, NULL, 0).code, LRU_NUMBER);
    CHECK(lru_cache_entries(&s.cache, NULL, 7).value, 0);

    /* not while the value is being made */
    told = FAMILY(ask)(&s, 1, 4);
    waits = FAMILY(ask)(&s, 1, 4);
    CHECK(lru_cache_entry(&s.cache, told.pin, &entry), LRU_STALE);
    CHECK(memcmp(&entry, &all[0], sizeof entry), 0);
    CHECK(lru_cache_entries(&s.cache, all, 3).value, 0);
    CHECK(memcmp(&entry, &all[0], sizeof entry), 0);
    CHECK(lru_cache_ready(&s.cache, told.pin, 1), LRU_DONE);
    FAMILY(check_entry)(&s, told.pin, 1, 4, 2, 0);

    /* held by one, idle, and held again, which is no use of the key */
    FAMILY(let_go)(&s, told.pin);
    FAMILY(check_entry)(&s, waits.pin, 1, 4, 1, 0);
    FAMILY(let_go)(&s, waits.pin);
    FAMILY(check_entry)(&s, told.pin, 1, 4, 0, 0);
    CHECK(lru_cache_repin(&s.cache, told.pin).code, LRU_PINNED);
    FAMILY(check_entry)(&s, told.pin, 1, 4, 1, 0);

    /* detached, beside a new entry of its key */
    waits = FAMILY(insert)(&s.cache, KEY(1), 3, 5, false, &s.gone);
    FAMILY(check_entry)(&s, told.pin, 1, 4, 1, 1);
    FAMILY(check_entry)(&s, waits.pin, 5, 3, 1, 0);

    /* a buffer without room for both */
    told = lru_cache_entries(&s.cache, all, 1);
    CHECK(told.code, LRU_NO_ROOM);
    CHECK(told.value, 2);
    CHECK(lru_cache_entries(&s.cache, NULL, 2).code, LRU_NO_ROOM);
    memset(all, 9, sizeof all);
    entry = all[2];
    told = lru_cache_entries(&s.cache, all, 3);
    CHECK(told.code, LRU_NUMBER);
    CHECK(told.value, 2);
    CHECK(all[0].charge + all[1].charge, 7);
    CHECK(memcmp(&entry, &all[2], sizeof entry), 0);

    /* not once it has left */
    FAMILY(let_go)(&s, pin_of(0));
    CHECK(lru_cache_entry(&s.cache, pin_of(0), &entry), LRU_STALE);
    CHECK(lru_cache_entries(&s.cache, all, 3).value, 1);
    FAMILY(let_go)(&s, waits.pin);

    /* a look is no use: the oldest leaves first */
    FAMILY(let_go)(&s, FAMILY(hold)(&s, 2, 3));
    FAMILY(check_entry)(&s, waits.pin, 5, 3, 0, 0);
    FAMILY(let_go)(&s, FAMILY(hold)(&s, 3, 7));
    EVICTED(&s, 1, 5);
    FAMILY(close)(&s);
    CHECK(lru_cache_entry(&s.cache, pin_of(1), &entry), LRU_CLOSED);
    CHECK(lru_cache_entries(&s.cache, all, 3).code, LRU_CLOSED);
}

/* Makes the entry of a pin ready with a charge, and returns the number of entries that this
 * evicts. */
static size_t FAMILY(give_with)(FAMILY(stage) *s, lru_pin pin, uint64_t value, uint64_t charge,
                                bool strict) {
    CHECK(lru_cache_ready_with(&s->cache, pin, value, charge, strict, &s->gone), LRU_DONE);
    return FAMILY(note)(s);
}

/* ready_with: the charge that is told with the value takes the place of the first one. */
static void FAMILY(readies_with)(void) {
    FAMILY(stage) s;
    lru_told told;

    FAMILY(open)(&s, 10);
    FAMILY(make)(&s, 1, 3);
    FAMILY(make)(&s, 2, 3);
    FAMILY(make)(&s, 3, 3);

    /* a larger one: the oldest leave, and no more than must */
    told = FAMILY(ask)(&s, 4, 1);
    CHECK(FAMILY(ask)(&s, 4, 1).code, LRU_WAIT);
    CHECK(FAMILY(note)(&s), 0);
    CHECK(FAMILY(give_with)(&s, told.pin, 40, 5, false), 2);
    EVICTED(&s, 1, 2);
    CHECK(FAMILY(total_of)(&s), 8);
    CHECK(FAMILY(pinned_of)(&s), 5);
    FAMILY(check_entry)(&s, told.pin, 40, 5, 2, 0);
    CHECK(lru_cache_poll(&s.cache, told.pin).value, 40);
    CHECK(FAMILY(let_go)(&s, told.pin), 0);
    CHECK(FAMILY(let_go)(&s, told.pin), 0);
    CHECK(FAMILY(finds)(&s, 4, 40), true);

    /* a smaller one, and the same */
    told = FAMILY(ask)(&s, 5, 2);
    CHECK(FAMILY(give_with)(&s, told.pin, 50, 1, true), 0);
    CHECK(FAMILY(total_of)(&s), 9);
    CHECK(FAMILY(let_go)(&s, told.pin), 0);
    told = FAMILY(ask)(&s, 6, 1);
    CHECK(FAMILY(give_with)(&s, told.pin, 60, 1, true), 0);
    CHECK(FAMILY(total_of)(&s), 10);
    CHECK(FAMILY(let_go)(&s, told.pin), 0);
    EVICTED(&s, 1, 2);

    /* above the capacity: all idle entries leave, and this one with its pin */
    told = FAMILY(ask)(&s, 5, 9);
    CHECK(told.code, LRU_HIT);
    CHECK(FAMILY(let_go)(&s, told.pin), 0);
    told = FAMILY(ask)(&s, 7, 1);
    EVICTED(&s, 1, 2, 3);
    CHECK(FAMILY(give_with)(&s, told.pin, 70, 11, false), 3);
    EVICTED(&s, 1, 2, 3, 40, 60, 50);
    CHECK(FAMILY(total_of)(&s), 11);
    CHECK(FAMILY(let_go)(&s, told.pin), 1);
    CHECK(FAMILY(total_of)(&s), 0);

    /* taken away from its key meanwhile */
    told = FAMILY(ask)(&s, 8, 1);
    CHECK(FAMILY(invalidate)(&s.cache, KEY(8), &s.gone), LRU_DONE);
    CHECK(FAMILY(give_with)(&s, told.pin, 80, 4, true), 0);
    FAMILY(check_entry)(&s, told.pin, 80, 4, 1, 1);
    CHECK(FAMILY(finds)(&s, 8, 80), false);
    CHECK(FAMILY(let_go)(&s, told.pin), 1);
    FAMILY(close)(&s);
}

/* Refuses a ready_with of a pin, and checks that nothing has changed. */
static void FAMILY(is_refused)(FAMILY(stage) *s, lru_pin pin, uint64_t charge, bool strict,
                               lru_code code) {
    lru_stats before, after;

    CHECK(lru_cache_stats(&s->cache, &before), LRU_DONE);
    CHECK(lru_cache_ready_with(&s->cache, pin, 99, charge, strict, &s->gone), code);
    CHECK(lru_chain_is_empty(&s->gone), true);
    CHECK(lru_cache_stats(&s->cache, &after), LRU_DONE);
    CHECK(memcmp(&before, &after, sizeof before), 0);
}

/* A ready_with that is refused: the value is still being made. */
static void FAMILY(refuses_charges)(void) {
    FAMILY(stage) s;
    lru_pin first, second;

    FAMILY(open)(&s, 10);
    first = FAMILY(hold)(&s, 1, 4);
    FAMILY(make)(&s, 2, 3);
    second = FAMILY(ask)(&s, 3, 3).pin;

    /* with the other held entry the charge is too much; its own first charge does not count */
    FAMILY(is_refused)(&s, second, 7, true, LRU_FULL);
    FAMILY(is_refused)(&s, second, UINT64_MAX, true, LRU_FULL);
    FAMILY(is_refused)(&s, second, UINT64_MAX - 6, false, LRU_OVERFLOW);
    FAMILY(is_refused)(&s, second, 0, false, LRU_NO_CHARGE);
    FAMILY(is_refused)(&s, second, 0, true, LRU_NO_CHARGE);
    CHECK(FAMILY(ask)(&s, 3, 9).code, LRU_WAIT);

    /* a pin of an entry that has a value, that is idle or that is none */
    FAMILY(is_refused)(&s, first, 1, false, LRU_STALE);
    FAMILY(is_refused)(&s, first, 11, true, LRU_STALE);
    FAMILY(is_refused)(&s, pin_of(1), 1, false, LRU_STALE);
    FAMILY(is_refused)(&s, pin_of(99), UINT64_MAX, true, LRU_STALE);
    FAMILY(is_refused)(&s, pin_of(99), 0, false, LRU_NO_CHARGE);

    /* the making can fail, and another caller takes it over */
    CHECK(lru_cache_fail(&s.cache, second), LRU_LEFT);
    FAMILY(is_refused)(&s, second, 1, false, LRU_STALE);
    CHECK(lru_cache_poll(&s.cache, second).code, LRU_MAKE);
    CHECK(FAMILY(give_with)(&s, second, 30, 6, true), 1);
    EVICTED(&s, 2);
    CHECK(FAMILY(total_of)(&s), 10);
    FAMILY(is_refused)(&s, second, 6, false, LRU_STALE);

    /* the largest total */
    second = FAMILY(ask)(&s, 4, 2).pin;
    FAMILY(is_refused)(&s, second, UINT64_MAX - 9, false, LRU_OVERFLOW);
    CHECK(FAMILY(give_with)(&s, second, 40, UINT64_MAX - 10, false), 0);
    CHECK(FAMILY(total_of)(&s), UINT64_MAX);
    FAMILY(close)(&s);
}

/* What free hands out: idle entries, oldest first, then those that are held, each once. */
static void FAMILY(frees)(void) {
    FAMILY(stage) s;
    uint64_t k;

    FAMILY(open_with_limits)(&s, 100, 1000000, 3);
    for (k = 1; k <= 6; k++)
        FAMILY(make)(&s, k, 1);
    FAMILY(hold)(&s, 2, 1); /* held by one pin */
    FAMILY(hold)(&s, 5, 1); /* held by three */
    FAMILY(hold)(&s, 5, 1);
    FAMILY(hold)(&s, 5, 1);
    CHECK(FAMILY(ask)(&s, 7, 1).code, LRU_MAKE); /* still being made */
    CHECK(FAMILY(ask)(&s, 7, 1).code, LRU_WAIT);
    CHECK(FAMILY(ask)(&s, 8, 1).code, LRU_MAKE); /* given up, while another caller waits */
    CHECK(FAMILY(ask)(&s, 8, 1).code, LRU_WAIT);
    CHECK(lru_cache_fail(&s.cache, pin_of(1000007)), LRU_LEFT);
    CHECK(FAMILY(ask)(&s, 9, 1).code, LRU_MAKE); /* detached, with a value and without */
    CHECK(FAMILY(invalidate)(&s.cache, KEY(9), &s.gone), LRU_DONE);
    FAMILY(hold)(&s, 9, 1);
    CHECK(FAMILY(invalidate)(&s.cache, KEY(9), &s.gone), LRU_DONE);
    CHECK(lru_cache_len(&s.cache).value, 10);
    CHECK(lru_cache_free(&s.cache, &s.gone), LRU_DONE);
    CHECK(FAMILY(note)(&s), 7);
    sort(s.left + 4, 3); /* held entries come in no particular order */
    EVICTED(&s, 1, 3, 4, 6, 2, 5, 9);
    CHECK(lru_chain_free(&s.gone), LRU_DONE);

    /* the handle can be opened again */
    CHECK(lru_cache_new(KIND, 1, 0, &s.cache), LRU_DONE);
    CHECK(lru_chain_new(&s.gone), LRU_DONE);
    CHECK(lru_cache_len(&s.cache).value, 0);
    FAMILY(close)(&s);
}

/* Each misuse that is cheap to check has a code, and changes nothing. */
static void FAMILY(misuse)(void) {
    FAMILY(stage) s;
    lru_cache closed = {0};
    lru_chain shut = {0};
    lru_gone gone = {0, 0, 0};
    lru_pin pin;

    FAMILY(open)(&s, 2);

    /* a cache that is not open */
    CHECK(FAMILY(begin)(&closed, KEY(1), 1, false, &s.gone).code, LRU_CLOSED);
    CHECK(lru_cache_poll(&closed, pin_of(0)).code, LRU_CLOSED);
    CHECK(lru_cache_ready(&closed, pin_of(0), 1), LRU_CLOSED);
    CHECK(lru_cache_ready_with(&closed, pin_of(0), 1, 1, false, &s.gone), LRU_CLOSED);
    CHECK(lru_cache_ready_with(&closed, pin_of(0), 1, 0, true, &s.gone), LRU_CLOSED);
    CHECK(lru_cache_fail(&closed, pin_of(0)), LRU_CLOSED);
    CHECK(FAMILY(get)(&closed, KEY(1)).code, LRU_CLOSED);
    CHECK(FAMILY(contains)(&closed, KEY(1)), LRU_CLOSED);
    CHECK(lru_cache_repin(&closed, pin_of(0)).code, LRU_CLOSED);
    CHECK(lru_cache_release(&closed, pin_of(0), &s.gone), LRU_CLOSED);
    CHECK(lru_cache_release_and_evict(&closed, pin_of(0), &s.gone), LRU_CLOSED);
    CHECK(FAMILY(advice_evict)(&closed, KEY(1), &s.gone), LRU_CLOSED);
    CHECK(FAMILY(invalidate)(&closed, KEY(1), &s.gone), LRU_CLOSED);
    CHECK(FAMILY(insert)(&closed, KEY(1), 1, 1, false, &s.gone).code, LRU_CLOSED);
    CHECK(FAMILY(begin)(&closed, KEY(1), 1, true, &s.gone).code, LRU_CLOSED);
    CHECK(FAMILY(insert)(&closed, KEY(1), 1, 1, true, &s.gone).code, LRU_CLOSED);
    CHECK(lru_cache_prune(&closed, &s.gone), LRU_CLOSED);
    CHECK(lru_cache_set_capacity(&closed, 1, &s.gone), LRU_CLOSED);
    CHECK(lru_cache_reserve(&closed, 1), LRU_CLOSED);
    CHECK(lru_cache_total(&closed).code, LRU_CLOSED);
    CHECK(lru_cache_pinned_charge(&closed).code, LRU_CLOSED);
    CHECK(lru_cache_capacity(&closed).code, LRU_CLOSED);
    CHECK(lru_cache_len(&closed).code, LRU_CLOSED);
    CHECK(lru_cache_free(&closed, &s.gone), LRU_CLOSED);
    CHECK(lru_chain_is_empty(&s.gone), true);

    /* a chain that is not open */
    CHECK(FAMILY(begin)(&s.cache, KEY(1), 1, false, &shut).code, LRU_CLOSED);
    CHECK(lru_cache_ready_with(&s.cache, pin_of(0), 1, 1, false, &shut), LRU_CLOSED);
    CHECK(lru_cache_release(&s.cache, pin_of(0), &shut), LRU_CLOSED);
    CHECK(lru_cache_release_and_evict(&s.cache, pin_of(0), &shut), LRU_CLOSED);
    CHECK(FAMILY(advice_evict)(&s.cache, KEY(1), &shut), LRU_CLOSED);
    CHECK(FAMILY(invalidate)(&s.cache, KEY(1), &shut), LRU_CLOSED);
    CHECK(FAMILY(insert)(&s.cache, KEY(1), 1, 1, false, &shut).code, LRU_CLOSED);
    CHECK(FAMILY(begin)(&s.cache, KEY(1), 1, true, &shut).code, LRU_CLOSED);
    CHECK(FAMILY(insert)(&s.cache, KEY(1), 1, 1, true, &shut).code, LRU_CLOSED);
    CHECK(lru_cache_prune(&s.cache, &shut), LRU_CLOSED);
    CHECK(lru_cache_set_capacity(&s.cache, 1, &shut), LRU_CLOSED);
    CHECK(lru_cache_free(&s.cache, &shut), LRU_CLOSED);
    CHECK(lru_chain_free(&shut), LRU_CLOSED);
    CHECK(lru_chain_pop(&shut, &gone), false);
    CHECK(lru_chain_is_empty(&shut), true);

    /* handles that are open already */
    CHECK(lru_cache_new(KIND, 1, 0, &s.cache), LRU_OPEN);
    CHECK(lru_cache_new_with_limits(KIND, 1, 0, 1, 0, &s.cache), LRU_OPEN);
    CHECK(lru_chain_new(&s.gone), LRU_OPEN);

    /* numbers that are 0 */
    CHECK(lru_cache_new_with_limits(KIND, 1, 0, 0, 0, &closed), LRU_NO_PINS);
    CHECK(FAMILY(begin)(&s.cache, KEY(1), 0, false, &s.gone).code, LRU_NO_CHARGE);
    CHECK(lru_cache_len(&s.cache).value, 0);
    FAMILY(make)(&s, 1, 1);
    CHECK(FAMILY(begin)(&s.cache, KEY(1), 0, false, &s.gone).code, LRU_NO_CHARGE);
    CHECK(FAMILY(pinned_of)(&s), 0);

    /* a chain that still holds entries */
    pin = FAMILY(hold)(&s, 2, 1);
    CHECK(FAMILY(advice_evict)(&s.cache, KEY(1), &s.gone), LRU_DONE);
    CHECK(lru_chain_is_empty(&s.gone), false);
    CHECK(FAMILY(begin)(&s.cache, KEY(3), 1, false, &s.gone).code, LRU_NOT_EMPTY);
    CHECK(lru_cache_ready_with(&s.cache, pin, 1, 1, false, &s.gone), LRU_NOT_EMPTY);
    CHECK(lru_cache_ready_with(&s.cache, pin, 1, 0, true, &s.gone), LRU_NOT_EMPTY);
    CHECK(lru_cache_release(&s.cache, pin, &s.gone), LRU_NOT_EMPTY);
    CHECK(lru_cache_release_and_evict(&s.cache, pin, &s.gone), LRU_NOT_EMPTY);
    CHECK(FAMILY(advice_evict)(&s.cache, KEY(2), &s.gone), LRU_NOT_EMPTY);
    CHECK(FAMILY(invalidate)(&s.cache, KEY(2), &s.gone), LRU_NOT_EMPTY);
    CHECK(FAMILY(insert)(&s.cache, KEY(2), 1, 1, false, &s.gone).code, LRU_NOT_EMPTY);
    CHECK(FAMILY(begin)(&s.cache, KEY(3), 9, true, &s.gone).code, LRU_NOT_EMPTY);
    CHECK(FAMILY(insert)(&s.cache, KEY(2), 9, 1, true, &s.gone).code, LRU_NOT_EMPTY);
    CHECK(lru_cache_prune(&s.cache, &s.gone), LRU_NOT_EMPTY);
    CHECK(lru_cache_set_capacity(&s.cache, 0, &s.gone), LRU_NOT_EMPTY);
    CHECK(lru_cache_free(&s.cache, &s.gone), LRU_NOT_EMPTY);
    CHECK(lru_chain_free(&s.gone), LRU_NOT_EMPTY);
    CHECK(lru_cache_len(&s.cache).value, 1);
    CHECK(lru_cache_capacity(&s.cache).value, 2);
    CHECK(lru_chain_pop(&s.gone, &gone), true);
    CHECK(gone.stamp, 0);
    CHECK(gone.charge, 1);
    CHECK(gone.value, 1);
    CHECK(lru_chain_pop(&s.gone, &gone), false);
    CHECK(gone.value, 1);
    FAMILY(let_go)(&s, pin);

    /* twice */
    FAMILY(close)(&s);
    CHECK(lru_cache_free(&s.cache, &s.gone), LRU_CLOSED);
    CHECK(lru_chain_free(&s.gone), LRU_CLOSED);
}

static void FAMILY(rows)(void) {
    FAMILY(row_1_2)();
    FAMILY(row_3)();
    FAMILY(row_4)();
    FAMILY(row_5)();
    FAMILY(row_6)();
    FAMILY(row_8)();
    FAMILY(row_9)();
    FAMILY(row_10)();
    FAMILY(row_11)();
    FAMILY(row_12)();
    FAMILY(row_13)();
    FAMILY(row_15)();
    FAMILY(row_16)();
    FAMILY(row_17)();
    FAMILY(row_18)();
    FAMILY(row_19)();
    FAMILY(invalidates)();
    FAMILY(invalidates_a_making)();
    FAMILY(inserts)();
    FAMILY(begins_strictly)();
    FAMILY(inserts_strictly)();
    FAMILY(pins)();
    FAMILY(repins)();
    FAMILY(releases_and_evicts)();
    FAMILY(entries)();
    FAMILY(readies_with)();
    FAMILY(refuses_charges)();
    FAMILY(frees)();
    FAMILY(misuse)();
}

#undef EVICTED
