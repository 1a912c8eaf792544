/* Counts the calls of pthread_cond_broadcast, and makes them. Loaded before the C library
 * (LD_PRELOAD); when the program ends, it writes the count to the file that BROADCASTS names. */
#define _GNU_SOURCE
#include <dlfcn.h>
#include <pthread.h>
#include <stdatomic.h>
#include <stdio.h>
#include <stdlib.h>

static atomic_int count;

int pthread_cond_broadcast(pthread_cond_t *condition) {
    int (*next)(pthread_cond_t *);
    *(void **)&next = dlsym(RTLD_NEXT, "pthread_cond_broadcast");
    count++;
    return next(condition);
}

__attribute__((destructor)) static void write_count(void) {
    const char *path = getenv("BROADCASTS");
    FILE *file = path == NULL ? NULL : fopen(path, "w");
    if (file == NULL)
        return;
    fprintf(file, "%d\n", count);
    fclose(file);
}
