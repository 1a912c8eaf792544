/* Refuses one request for memory: the one with the number that the environment variable
 * REFUSED_REQUEST names, from 1 on. Loaded before the C library (LD_PRELOAD), whose malloc and
 * realloc it stands in for. */
typedef unsigned long size;

extern void *__libc_malloc(size);
extern void *__libc_realloc(void *, size);
extern char *getenv(const char *);
extern long atol(const char *);
extern long write(int, const void *, size);

static const char mark[] = "this request is refused\n";
static long asked;

static int is_refused(void) {
    const char *wanted = getenv("REFUSED_REQUEST");
    if (wanted == 0 || __atomic_add_fetch(&asked, 1, __ATOMIC_SEQ_CST) != atol(wanted)) return 0;
    write(2, mark, sizeof mark - 1);
    return 1;
}

void *malloc(size bytes) { return is_refused() ? 0 : __libc_malloc(bytes); }

void *realloc(void *at, size bytes) { return is_refused() ? 0 : __libc_realloc(at, bytes); }
