/* A run of calls in which one request for memory may be refused. A call that answers LRU_MEMORY is
 * repeated, so the answers are those of a run with ample memory, whichever request was refused.
 *
 * Each object that the caches were given must be deleted once, and all memory must be freed. Prints
 * the answers, and to standard error the call that was refused. Exits with 1 if something is wrong.
 * tests/no_memory runs this with the first request refused, then with the second, and so on.
 */
#include <malloc.h>
#include <stdint.h>
#include <stdio.h>
#include <stdlib.h>
#include <string.h>

#include "lru.h"

static int failed;

static void wrong(const char *what) {
    fprintf(stderr, "wrong: %s\n", what);
    failed = 1;
}

/* Objects that are not on the heap. */
enum { OBJECTS = 512 };
static struct object {
    int deletions;
} objects[OBJECTS];
static int made;

static uint64_t new_object(void) {
    if (made == OBJECTS) wrong("too few objects for this script");
    return (uint64_t)(uintptr_t)&objects[made++ % OBJECTS];
}

static void delete_object(uint64_t value, const char *why) {
    struct object *object = (struct object *)(uintptr_t)value;
    if (object < objects || object >= objects + made) {
        wrong("an evicted value that was never given");
        return;
    }
    object->deletions++;
    printf("%s %d\n", why, (int)(object - objects));
}

/* Whether a call got no memory and must be repeated. */
static int refused(lru_code code, const char *call) {
    if (code == LRU_MEMORY) fprintf(stderr, "memory %s\n", call);
    return code == LRU_MEMORY;
}

static void say_code(const char *call, lru_code code) { printf("%s -> %d\n", call, (int)code); }

static void say(const char *call, lru_told told) {
    /* A value is an address. The number of its object is the same in each run. */
    int is_value = told.code == LRU_HIT || told.code == LRU_PINNED;
    long value = is_value ? (struct object *)(uintptr_t)told.value - objects : (long)told.value;
    printf("%s -> %d %d %ld\n", call, (int)told.code, (int)told.pin.stamp, value);
}

/* Keys of bytes have different lengths, so that some are longer than all before. */
static char key_bytes[1200];

#define NAME(call) lru_bytes_##call
#define CALL(call) "bytes_" call
#define KIND LRU_BYTES
#define KEY(n) key_bytes, (size_t)(n), (uint64_t)(n) % 7
#define RUN run_bytes
#include "no_memory_script.h"
#undef NAME
#undef CALL
#undef KIND
#undef KEY
#undef RUN

#define NAME(call) lru_words_##call
#define CALL(call) "words_" call
#define KIND LRU_WORDS
#define KEY(n) (uint64_t)(n) % 7, (uint64_t)(n)
#define RUN run_words
#include "no_memory_script.h"

int main(void) {
    static char out[1 << 16];
    size_t before;
    setvbuf(stdout, out, _IOFBF, sizeof out);
    memset(key_bytes, 'k', sizeof key_bytes);
    /* malloc takes some memory for itself when it is first used. calloc is never refused here, and
     * volatile keeps the compiler from leaving the call out. */
    void *volatile first = calloc(1, 1);
    free(first);
    before = mallinfo2().uordblks;
    run_bytes();
    run_words();
    if (mallinfo2().uordblks != before) wrong("memory was not freed");
    for (int i = 0; i < made; i++) {
        if (objects[i].deletions != 1) wrong("an object was not deleted exactly once");
    }
    if (made == 0) wrong("no object was made");
    fflush(stdout);
    return failed;
}
