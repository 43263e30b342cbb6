/* What the calls of libpitch_c.a cost: hears the blocks of a file from memory, and asks. Prints the
 * processor time of hearing them all, and the time of single calls. A second word leaves the price
 * levels out, or is `quoted`: then the quotes of each block are told too. */
#define _POSIX_C_SOURCE 199309L
#include "../examples/c/pitch_client.h"

#include <inttypes.h>
#include <stdio.h>
#include <stdlib.h>
#include <string.h>
#include <time.h>

static double now(void) {
    struct timespec time;
    clock_gettime(CLOCK_PROCESS_CPUTIME_ID, &time);
    return (double)time.tv_sec + 1e-9 * (double)time.tv_nsec;
}

static uint32_t kept;

#define TIME(what, count, call)                                                                    \
    do {                                                                                           \
        double begun = now();                                                                      \
        for (long turn = 0; turn < (count); turn++) kept += (call);                                \
        printf("%s %.1f ns\n", what, 1e9 * (now() - begun) / (double)(count));                     \
    } while (0)

#ifndef SYMBOLS
#define SYMBOLS 2000
#endif

/* One of the symbols of the feed, which are asked for in no order. */
static const uint8_t *symbol(long turn) {
    static char name[9];
    snprintf(name, sizeof name, "S%04u   ", (unsigned)turn * 7919u % SYMBOLS);
    return (const uint8_t *)name;
}

static uint32_t hear(pitch_client *client, int quoted, const uint8_t *bytes, size_t len,
                     pitch_heard_out *heard) {
    static pitch_quote_out quotes[256];
    static uint64_t number;
    if (!quoted) return pitch_hear(client, bytes, len, heard);
    return pitch_hear_quoted(client, bytes, len, heard, quotes, 256, &number);
}

int main(int argc, char **argv) {
    FILE *file = argc > 1 ? fopen(argv[1], "rb") : NULL;
    pitch_client client = PITCH_CLIENT_INIT;
    pitch_heard_out heard;
    pitch_status_out status;
    pitch_best_out best;
    pitch_order_out order;
    pitch_level_out level, levels[10];
    uint64_t number;
    int quoted = argc > 2 && !strcmp(argv[2], "quoted"), leveled = argc < 3 || quoted;
    long bests = leveled ? 2000000 : 200;
    uint8_t *bytes, next[8] = { 8, 0, 0, 0, 0, 0, 0, 0 };
    uint64_t open = 0, messages = 0, blocks = 0;
    uint32_t unit = 256;
    size_t len, at;
    if (!file || fseek(file, 0, SEEK_END)) return 2;
    len = (size_t)ftell(file);
    rewind(file);
    bytes = malloc(len + 1);
    if (!bytes || fread(bytes, 1, len, file) != len) return 2;
    if (pitch_open(&client, 4096, leveled) != PITCH_OK) return 3;
    double begun = now();
    for (at = 0; at < len && hear(&client, quoted, bytes + at, len - at, &heard) == PITCH_OK;) {
        at += heard.used;
        messages += heard.count;
        blocks++;
    }
    printf("hearing %.3f s\n", now() - begun);
    if (at < len) return 3;
    for (uint32_t u = 0; u < 256 && unit == 256; u++)
        if (pitch_status(&client, u, &status) == PITCH_OK) unit = u;
    for (uint64_t id = 1; id <= messages; id++)
        if (pitch_order(&client, unit, id, &order) == PITCH_OK) open += order.there;
    printf("blocks %" PRIu64 " messages %" PRIu64 " open in unit %" PRIu32 " %" PRIu64 "\n", blocks,
           messages, unit, open);
    next[3] = (uint8_t)unit;
    TIME("status", 20000000, pitch_status(&client, unit, &status) + status.reach);
    TIME("no block", 20000000, pitch_hear(&client, (const uint8_t *)"\1\0\0\0\0\0\0", 8, &heard));
    TIME("unsequenced heartbeat", 2000000, pitch_hear(&client, next, 8, &heard));
    TIME("order", 2000000, pitch_order(&client, unit, (uint64_t)turn, &order));
    TIME("symbol", bests, *symbol(turn));
    TIME("best, with its symbol", bests, pitch_best(&client, unit, symbol(turn), 'B', &best));
    TIME("level, with its symbol", bests, pitch_level(&client, unit, symbol(turn), 'B', best.price, &level));
    TIME("ten levels, with their symbol", leveled ? 200000 : 20,
         pitch_levels(&client, unit, symbol(turn), 'B', levels, 10, &number));
    pitch_close(&client);
    return kept == 1;
}
