/* What crates/own_client does, from C: hears the blocks on standard input, and prints of each unit
 * how far its book is and the best prices of a symbol, whose shares have to be those of the open
 * orders there. A number of bytes to read at once may be given. */
#include "pitch_client.h"

#include <inttypes.h>
#include <stdio.h>
#include <stdlib.h>
#include <string.h>

static int failed(const char *call, uint32_t code) {
    fprintf(stderr, "%s: %s\n", call, pitch_strerror(code));
    return 3;
}

/* The shares of the open orders at a price, by the list of all orders. */
static uint64_t shares_at(pitch_client *client, uint32_t unit, uint8_t side, uint64_t price) {
    uint64_t number, shares = 0;
    pitch_order_out *orders;
    uint32_t code = pitch_orders(client, unit, NULL, 0, &number);
    if (code != PITCH_OK) exit(failed("orders", code));
    orders = malloc(number * sizeof *orders);
    code = pitch_orders(client, unit, orders, number, &number);
    if (code != PITCH_OK) exit(failed("orders", code));
    for (uint64_t k = 0; k < number; k++)
        if (orders[k].side == side && orders[k].price == price && !memcmp(orders[k].symbol, "ACME    ", 8))
            shares += orders[k].quantity;
    free(orders);
    return shares;
}

static void print_side(pitch_client *client, uint32_t unit, uint8_t side, const char *word) {
    pitch_best_out best;
    uint32_t code = pitch_best(client, unit, (const uint8_t *)"ACME    ", side, &best);
    if (code != PITCH_OK) exit(failed("best", code));
    if (best.there && shares_at(client, unit, side, best.price) != best.shares) exit(4);
    if (!best.there)
        printf("%s none", word);
    else
        printf("%s %" PRIu64 " at %" PRIu64 ".%04" PRIu64, word, best.shares, best.price / 10000,
               best.price % 10000);
}

int main(int argc, char **argv) {
    size_t piece = argc > 1 ? strtoul(argv[1], NULL, 10) : 65536, have = 0, at, count;
    uint8_t *buffer = malloc(piece + 65536);
    pitch_client client = PITCH_CLIENT_INIT;
    pitch_heard_out told;
    pitch_status_out status;
    uint32_t code = pitch_open(&client, 4096, 1);
    if (code != PITCH_OK) return failed("open", code);
    while ((count = fread(buffer + have, 1, piece, stdin)) > 0) {
        have += count;
        for (at = 0; (code = pitch_hear(&client, buffer + at, have - at, &told)) == PITCH_OK;)
            at += told.used;
        if (code != PITCH_TRUNCATED) return failed("hear", code);
        have -= at;
        memmove(buffer, buffer + at, have);
    }
    if (have > 0) return failed("hear", PITCH_TRUNCATED);
    for (uint32_t unit = 0; unit < 256; unit++) {
        code = pitch_status(&client, unit, &status);
        if (code == PITCH_NO_CLIENT) continue;
        if (code != PITCH_OK) return failed("status", code);
        printf("unit %" PRIu32 " %s at %" PRIu32 ": ", unit,
               pitch_state_word(status.state), status.reach);
        print_side(&client, unit, 'B', "bid");
        print_side(&client, unit, 'S', ", offer");
        printf("\n");
    }
    pitch_close(&client);
    free(buffer);
    return 0;
}
