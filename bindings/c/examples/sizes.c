/* Prints the sizes of up to 100 files, on a thread for each, through a cache of open files that the
 * threads share. If two need the same file at once, one opens it and the other waits. */
#define _POSIX_C_SOURCE 200809L
#include <stdio.h>
#include <sys/stat.h>

#include "lru_threads.h"

static lru_threads *files;

static bool open_file(void *context, const void *path, size_t length, uint64_t *value) {
    FILE *file = fopen((const char *)path, "rb");
    (void)context, (void)length;
    *value = (uintptr_t)file;
    return file != NULL;
}

static void close_file(void *context, uint64_t value) {
    (void)context;
    fclose((FILE *)(uintptr_t)value);
}

static bool find_size(const char *path, off_t *size) {
    lru_pinned file; /* stays open until it is released, whatever other threads do */
    struct stat about;
    if (lru_threads_get_or_init(files, path, strlen(path), 1, open_file, NULL, &file) != LRU_HIT)
        return false;
    bool found = fstat(fileno((FILE *)(uintptr_t)file.value), &about) == 0;
    lru_threads_release(files, &file);
    if (found)
        *size = about.st_size;
    return found;
}

/* Returns null if the size cannot be found. */
static void *print_size(void *path) {
    off_t size;
    bool found = find_size((const char *)path, &size);
    if (found)
        printf("%lld %s\n", (long long)size, (const char *)path);
    else
        fprintf(stderr, "sizes: cannot read %s\n", (const char *)path);
    return found ? path : NULL;
}

int main(int argc, char **argv) {
    pthread_t threads[100];
    bool all = true;
    if (lru_threads_new(20, 1, close_file, NULL, &files) != LRU_DONE)
        return 1;
    for (int i = 0; i < 100 && i < argc - 1; i++)
        if (pthread_create(&threads[i], NULL, print_size, argv[i + 1]) != 0)
            return 1;
    for (int i = 0; i < 100 && i < argc - 1; i++) {
        void *found;
        all = pthread_join(threads[i], &found) == 0 && found != NULL && all;
    }
    return lru_threads_free(files) == LRU_DONE && all ? 0 : 1;
}
