/* The memory of libpitch_c.a, which refuses one allocation in so many where refuse_one_in is not 0. */
#include <stdlib.h>

unsigned long refuse_one_in = 0, refused = 0;

static unsigned long state = 88172645463325252ul;

static int refuses(void) {
    if (!refuse_one_in) return 0;
    state ^= state << 13;
    state ^= state >> 7;
    state ^= state << 17;
    if (state % refuse_one_in) return 0;
    refused++;
    return 1;
}

static void *sometimes(size_t size) { return refuses() ? NULL : malloc(size); }
static void *sometimes_again(void *at, size_t size) { return refuses() ? NULL : realloc(at, size); }

#define malloc sometimes
#define realloc sometimes_again
#include "../examples/c/heap.c"
