/* The three functions through which the library asks for memory, over malloc, realloc and free. The
 * kit has them compiled for x86-64; this is for other processors. The contracts that the proofs
 * assume of them are those of the kit's crate `libc`, in src/heap.rt.
 *
 * A size of 0 asks for as many bytes as the alignment, so that there is a block to free. */
#include <stdbool.h>
#include <stddef.h>
#include <stdlib.h>

/* The answer: a block, or a pointer that is not null and is not used. */
struct tried {
    bool ok;
    void *block;
};

struct tried rattle_alloc(size_t size, size_t align);
struct tried rattle_realloc(void *block, size_t kept, size_t size, size_t align);
void rattle_dealloc(void *block);

static char nothing[16];

static struct tried tried(void *block) {
    struct tried answer = {block != NULL, block != NULL ? block : nothing};
    return answer;
}

struct tried rattle_alloc(size_t size, size_t align) {
    return tried(malloc(size != 0 ? size : align));
}

struct tried rattle_realloc(void *block, size_t kept, size_t size, size_t align) {
    (void)kept; /* realloc keeps what fits */
    return tried(realloc(block, size != 0 ? size : align));
}

void rattle_dealloc(void *block) { free(block); }
