// Prints the first COUNT ids whose hash by the kit's `FoldHasher`, which has no seed, ends in the
// same BITS bits: collide COUNT BITS. `robust.py` compiles it.
#include <stdint.h>
#include <stdio.h>
#include <stdlib.h>

int main(int argc, char **argv) {
    if (argc != 3) {
        return 2;
    }
    uint64_t count = strtoull(argv[1], 0, 10);
    uint64_t mask = (UINT64_C(1) << atoi(argv[2])) - 1;
    uint64_t factor = UINT64_C(0x9e3779b97f4a7c15) ^ 16;
    for (uint64_t id = 1; count > 0; id++) {
        unsigned __int128 product = (unsigned __int128)(UINT64_C(0x243f6a8885a308d3) ^ id) * factor;
        uint64_t hash = (uint64_t)product ^ (uint64_t)(product >> 64);
        if (((hash ^ (hash >> 32)) & mask) == 0) {
            printf("%llu\n", (unsigned long long)id);
            count--;
        }
    }
    return 0;
}
