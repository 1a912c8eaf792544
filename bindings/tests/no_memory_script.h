/* The script of no_memory.c for one kind of keys. It is included once for each, with
 *
 *   NAME(call)   the name of a function for such keys, or of one that is defined here
 *   CALL(call)   the same as text, where a call may be refused
 *   KIND         the kind of such keys, with which a cache is opened
 *   KEY(n)       the key of a number, as arguments
 *   RUN          the name of the function that is defined here
 */

/* The total charge and the number of entries, which a refused call must not change. */
static uint64_t NAME(weighed)(lru_cache *cache) {
    return lru_cache_total(cache).value * 1000 + lru_cache_len(cache).value;
}

/* Deletes what was evicted. */
static void NAME(take)(lru_chain *gone) {
    lru_gone entry;
    while (lru_chain_pop(gone, &entry)) delete_object(entry.value, "evicted");
    if (!lru_chain_is_empty(gone)) wrong("a chain that was popped is not empty");
}

static lru_told NAME(ask)(lru_cache *cache, lru_chain *gone, unsigned n, uint64_t charge) {
    uint64_t before = NAME(weighed)(cache);
    lru_told told = NAME(begin)(cache, KEY(n), charge, false, gone);
    if (refused(told.code, CALL("begin"))) {
        if (!lru_chain_is_empty(gone) || NAME(weighed)(cache) != before)
            wrong("a refused begin changed something");
        told = NAME(begin)(cache, KEY(n), charge, false, gone);
    }
    NAME(take)(gone);
    say("begin", told);
    return told;
}

static lru_told NAME(ask_strictly)(lru_cache *cache, lru_chain *gone, unsigned n, uint64_t charge) {
    uint64_t before = NAME(weighed)(cache);
    lru_told told = NAME(begin)(cache, KEY(n), charge, true, gone);
    if (refused(told.code, CALL("begin_strictly"))) {
        if (!lru_chain_is_empty(gone) || NAME(weighed)(cache) != before)
            wrong("a refused begin_strictly changed something");
        told = NAME(begin)(cache, KEY(n), charge, true, gone);
    }
    NAME(take)(gone);
    say("begin_strictly", told);
    return told;
}

static lru_told NAME(find)(lru_cache *cache, unsigned n) {
    uint64_t before = NAME(weighed)(cache);
    lru_told told = NAME(get)(cache, KEY(n));
    if (refused(told.code, CALL("get"))) {
        if (NAME(weighed)(cache) != before) wrong("a refused get changed something");
        told = NAME(get)(cache, KEY(n));
    }
    say("get", told);
    return told;
}

static void NAME(give)(lru_cache *cache, lru_pin pin) {
    say_code("ready", lru_cache_ready(cache, pin, new_object()));
}

static void NAME(let_go)(lru_cache *cache, lru_chain *gone, lru_pin pin) {
    say_code("release", lru_cache_release(cache, pin, gone));
    NAME(take)(gone);
}

static void NAME(let_go_and_evict)(lru_cache *cache, lru_chain *gone, lru_pin pin) {
    say_code("release_and_evict", lru_cache_release_and_evict(cache, pin, gone));
    NAME(take)(gone);
}

/* Makes the entry of a key if there is none, and releases it. */
static void NAME(use)(lru_cache *cache, lru_chain *gone, unsigned n, uint64_t charge) {
    lru_told told = NAME(ask)(cache, gone, n, charge);
    if (told.code == LRU_MAKE) NAME(give)(cache, told.pin);
    NAME(let_go)(cache, gone, told.pin);
}

static void NAME(advise)(lru_cache *cache, lru_chain *gone, unsigned n) {
    lru_code code = NAME(advice_evict)(cache, KEY(n), gone);
    if (refused(code, CALL("advice_evict"))) code = NAME(advice_evict)(cache, KEY(n), gone);
    say_code("advice_evict", code);
    NAME(take)(gone);
}

static void NAME(take_away)(lru_cache *cache, lru_chain *gone, unsigned n) {
    uint64_t before = NAME(weighed)(cache);
    lru_code code = NAME(invalidate)(cache, KEY(n), gone);
    if (refused(code, CALL("invalidate"))) {
        if (!lru_chain_is_empty(gone) || NAME(weighed)(cache) != before)
            wrong("a refused invalidate changed something");
        code = NAME(invalidate)(cache, KEY(n), gone);
    }
    say_code("invalidate", code);
    NAME(take)(gone);
}

static void NAME(look)(lru_cache *cache, unsigned n) {
    lru_code code = NAME(contains)(cache, KEY(n));
    if (refused(code, CALL("contains"))) code = NAME(contains)(cache, KEY(n));
    say_code("contains", code);
}

/* Puts a value in, and answers the pin of its entry. */
static lru_pin NAME(put)(lru_cache *cache, lru_chain *gone, unsigned n, uint64_t charge) {
    uint64_t before = NAME(weighed)(cache), value = new_object();
    lru_told told = NAME(insert)(cache, KEY(n), charge, value, false, gone);
    if (refused(told.code, CALL("insert"))) {
        if (!lru_chain_is_empty(gone) || NAME(weighed)(cache) != before)
            wrong("a refused insert changed something");
        told = NAME(insert)(cache, KEY(n), charge, value, false, gone);
    }
    say("insert", told);
    NAME(take)(gone);
    return told.pin;
}

/* The same with a strict limit, which must have room. */
static lru_pin NAME(put_strictly)(lru_cache *cache, lru_chain *gone, unsigned n, uint64_t charge) {
    uint64_t before = NAME(weighed)(cache), value = new_object();
    lru_told told = NAME(insert)(cache, KEY(n), charge, value, true, gone);
    if (refused(told.code, CALL("insert_strictly"))) {
        if (!lru_chain_is_empty(gone) || NAME(weighed)(cache) != before)
            wrong("a refused insert_strictly changed something");
        told = NAME(insert)(cache, KEY(n), charge, value, true, gone);
    }
    if (told.code != LRU_DONE) wrong("there is room for an insert_strictly");
    say("insert_strictly", told);
    NAME(take)(gone);
    return told.pin;
}

static void NAME(open)(lru_cache *cache) {
    lru_code code = lru_cache_new(KIND, 20, 0, cache);
    if (refused(code, CALL("new"))) code = lru_cache_new(KIND, 20, 0, cache);
    say_code("new", code);
}

static void RUN(void) {
    lru_cache cache = {0};
    lru_chain gone = {0};
    lru_told held, waited;
    lru_code code = lru_chain_new(&gone);
    if (refused(code, CALL("chain_new"))) code = lru_chain_new(&gone);
    say_code("chain_new", code);
    NAME(open)(&cache);

    /* Entries are made and evicted while one is held. */
    held = NAME(ask)(&cache, &gone, 0, 3);
    NAME(give)(&cache, held.pin);
    for (unsigned n = 1; n < 40; n++) NAME(use)(&cache, &gone, n, 1 + n % 3);
    for (unsigned n = 30; n < 40; n++) NAME(use)(&cache, &gone, n, 1);

    /* Making a value fails, once while nobody waits and once while somebody does. */
    waited = NAME(ask)(&cache, &gone, 50, 2);
    say_code("fail", lru_cache_fail(&cache, waited.pin));
    waited = NAME(ask)(&cache, &gone, 50, 2);
    NAME(ask)(&cache, &gone, 50, 9);
    say_code("fail", lru_cache_fail(&cache, waited.pin));
    say("poll", lru_cache_poll(&cache, waited.pin));
    NAME(give)(&cache, waited.pin);
    say("poll", lru_cache_poll(&cache, waited.pin));
    NAME(let_go)(&cache, &gone, waited.pin);

    /* Hits, misses and advice_evict. */
    waited = NAME(find)(&cache, 50);
    NAME(advise)(&cache, &gone, 50);
    NAME(let_go)(&cache, &gone, waited.pin);
    NAME(advise)(&cache, &gone, 50);
    NAME(find)(&cache, 50);
    NAME(find)(&cache, 80);

    /* Another pin of an entry, which is evicted with its last one. */
    waited = NAME(ask)(&cache, &gone, 51, 2);
    NAME(give)(&cache, waited.pin);
    say("repin", lru_cache_repin(&cache, waited.pin));
    NAME(let_go_and_evict)(&cache, &gone, waited.pin);
    NAME(let_go_and_evict)(&cache, &gone, waited.pin);

    /* Inserts over nothing, over an entry that is held and over one that is idle; an invalidate of
     * one that is held. Some keys are longer than all before. */
    held = NAME(find)(&cache, 0);
    for (unsigned n = 130; n < 150; n++) {
        lru_pin first = NAME(put)(&cache, &gone, n, 2), second = NAME(put)(&cache, &gone, n, 3);
        NAME(let_go)(&cache, &gone, first);
        NAME(let_go)(&cache, &gone, second);
        NAME(let_go)(&cache, &gone, NAME(put)(&cache, &gone, n, 1 + n % 4));
    }
    NAME(take_away)(&cache, &gone, 0);
    NAME(let_go)(&cache, &gone, held.pin);
    NAME(take_away)(&cache, &gone, 149);
    NAME(look)(&cache, 149);
    NAME(look)(&cache, 148);
    NAME(take_away)(&cache, &gone, 300);
    NAME(look)(&cache, 600);
    NAME(advise)(&cache, &gone, 1200);

    /* With a strict limit: new entries with keys longer than all before, and a key that finds no
     * room beside the two entries that are held, whose charges add up to 15. */
    held = NAME(ask_strictly)(&cache, &gone, 700, 12);
    NAME(give)(&cache, held.pin);
    for (unsigned n = 710; n < 730; n++)
        NAME(let_go)(&cache, &gone, NAME(put_strictly)(&cache, &gone, n, 1 + n % 5));
    for (unsigned n = 730; n < 740; n++) {
        waited = NAME(ask_strictly)(&cache, &gone, n, 1 + n % 5);
        NAME(give)(&cache, waited.pin);
        NAME(let_go)(&cache, &gone, waited.pin);
    }
    NAME(ask_strictly)(&cache, &gone, 740, 6);
    NAME(let_go)(&cache, &gone, held.pin);

    /* reserve, a smaller capacity, prune. */
    code = lru_cache_reserve(&cache, 100);
    if (refused(code, CALL("reserve"))) code = lru_cache_reserve(&cache, 100);
    say_code("reserve", code);
    say_code("set_capacity", lru_cache_set_capacity(&cache, 8, &gone));
    NAME(take)(&gone);
    say_code("prune", lru_cache_prune(&cache, &gone));
    NAME(take)(&gone);

    /* Free with one entry held, one idle and one being made; then open again. */
    NAME(use)(&cache, &gone, 60, 1);
    NAME(ask)(&cache, &gone, 61, 1);
    say("total", lru_cache_total(&cache));
    say_code("free", lru_cache_free(&cache, &gone));
    NAME(take)(&gone);
    NAME(open)(&cache);
    NAME(use)(&cache, &gone, 1, 1);
    say_code("free", lru_cache_free(&cache, &gone));
    NAME(take)(&gone);
    say_code("chain_free", lru_chain_free(&gone));
}
