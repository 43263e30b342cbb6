/* Prints of each unit what crates/own_client prints, from C: how far its book is, and the best
 * prices of ACME or of the symbol that is given. It does so of a unit as soon as a block of it is
 * heard, and of all units at the end. */
#include "pitch_client.h"

#include <inttypes.h>
#include <stdio.h>
#include <stdlib.h>
#include <string.h>

static void must(uint32_t code) {
    if (code == PITCH_OK) return;
    fprintf(stderr, "bests: %s\n", pitch_strerror(code));
    exit(3);
}

static void print_side(pitch_client *client, uint32_t unit, const uint8_t *symbol, uint8_t side) {
    pitch_best_out best;
    must(pitch_best(client, unit, symbol, side, &best));
    printf(side == 'B' ? "bid " : ", offer ");
    if (!best.there)
        printf("none");
    else
        printf("%" PRIu64 " at %" PRIu64 ".%04" PRIu64, best.shares, best.price / 10000,
               best.price % 10000);
}

static void print_unit(pitch_client *client, uint32_t unit, const uint8_t *symbol) {
    pitch_status_out status;
    uint32_t code = pitch_status(client, unit, &status);
    if (code == PITCH_NO_CLIENT) return;
    must(code);
    printf("unit %" PRIu32 " %s at %" PRIu32 ": ", unit,
           pitch_state_word(status.state), status.reach);
    print_side(client, unit, symbol, 'B');
    print_side(client, unit, symbol, 'S');
    printf("\n");
}

int main(int argc, char **argv) {
    static uint8_t bytes[1 << 17], symbol[9];
    size_t have = 0, at, count;
    pitch_client client = PITCH_CLIENT_INIT;
    pitch_heard_out told;
    uint32_t code, unit;
    snprintf((char *)symbol, sizeof symbol, "%-8.8s", argc > 1 ? argv[1] : "ACME");
    must(pitch_open(&client, argc > 2 ? strtoul(argv[2], NULL, 10) : 4096, 1));
    while ((count = fread(bytes + have, 1, sizeof bytes - have, stdin)) > 0) {
        have += count;
        for (at = 0; !(code = pitch_hear(&client, bytes + at, have - at, &told)); at += told.used)
            print_unit(&client, told.unit, symbol);
        if (code != PITCH_TRUNCATED) must(code);
        have -= at;
        memmove(bytes, bytes + at, have);
    }
    if (have > 0) must(PITCH_TRUNCATED);
    for (unit = 0; unit < 256; unit++) print_unit(&client, unit, symbol);
    pitch_close(&client);
    return 0;
}
