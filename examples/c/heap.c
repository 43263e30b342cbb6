/* The memory of libpitch_c.a, over malloc, realloc and free. Each answer is whether there is memory,
 * and a pointer that is never null. A size of 0 is asked as the alignment, which is 16 at most. */
#include <stdbool.h>
#include <stddef.h>
#include <stdlib.h>

struct tried { bool ok; void *at; };

static char nothing;

static struct tried tried(void *at) {
    struct tried answer = { at != NULL, at ? at : &nothing };
    return answer;
}

struct tried rattle_alloc(size_t size, size_t align) { return tried(malloc(size ? size : align)); }

struct tried rattle_realloc(void *at, size_t kept, size_t size, size_t align) {
    (void)kept;
    return tried(realloc(at, size ? size : align));
}

void rattle_dealloc(void *at) { free(at); }
