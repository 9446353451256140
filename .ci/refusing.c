/* The allocator of a library in which one of 32 requests for memory fails, drawn at random, always the same. `.ci/from-rust` puts it into a copy of
 * libfancy, whose calls of malloc and realloc are renamed to these. It is for one thread. */
#include <stdint.h>
#include <stdlib.h>

static int is_refused(void) {
    static uint64_t state = 88172645463325252u;
    state ^= state << 13;
    state ^= state >> 7;
    state ^= state << 17;
    return (state >> 40) % 32 == 0;
}

void *refusing_malloc(size_t size) { return is_refused() ? NULL : malloc(size); }

void *refusing_realloc(void *old, size_t size) { return is_refused() ? NULL : realloc(old, size); }
