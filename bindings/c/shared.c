/* The shared library, for programs that load it, such as those in Python or Go: the archive, and
 * the functions that the headers define. lru.map says which names are exported. */
#define LRU_INLINE
#include "lru_threads_clock.h"
