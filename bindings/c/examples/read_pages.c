/* Four threads read ten pages through a cache that they share, and whose hits take no lock. */
#include <stdio.h>

#include "lru_threads_clock.h"

static lru_threads_clock *pages;

static bool write_page(void *context, const void *number, size_t length, uint64_t *value) {
    char *page = (char *)malloc(20);
    (void)context, (void)length;
    if (page != NULL)
        snprintf(page, 20, "page %d", *(const int *)number);
    *value = (uintptr_t)page;
    return page != NULL;
}

static void delete_page(void *context, uint64_t value) {
    (void)context;
    free((char *)(uintptr_t)value);
}

static void *read_pages(void *letters) {
    for (int call = 0; call < 1000; call++) {
        int number = call % 10; /* its bytes are the key */
        lru_clock_pinned page;  /* stays until it is released, whatever other threads do */
        if (lru_threads_clock_get_or_init(pages, &number, sizeof number, 1, write_page, NULL,
                                          &page) != LRU_HIT)
            return NULL;
        *(size_t *)letters += strlen((const char *)(uintptr_t)page.value);
        lru_threads_clock_release(pages, &page);
    }
    return letters;
}

int main(void) {
    pthread_t threads[4];
    size_t letters[4] = {0}, sum = 0;
    lru_clock_counts counts;
    if (lru_threads_clock_new(100, 16, delete_page, NULL, &pages) != LRU_DONE)
        return 1;
    for (int i = 0; i < 4; i++)
        if (pthread_create(&threads[i], NULL, read_pages, &letters[i]) != 0)
            return 1;
    for (int i = 0; i < 4; i++) {
        void *read;
        if (pthread_join(threads[i], &read) != 0 || read == NULL)
            return 1;
        sum += letters[i];
    }
    lru_threads_clock_stats(pages, &counts);
    printf("%d pages were made, %d letters read\n", (int)counts.makings, (int)sum);
    return lru_threads_clock_free(pages) == LRU_DONE ? 0 : 1;
}
