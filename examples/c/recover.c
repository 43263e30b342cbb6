/* A lost packet, with both ends in memory: unit 7 sends three messages, of which the second is
 * lost. The end logs in to a Gap Request Proxy, asks, is cut off, asks again, and hears it. Then it
 * tells its book. */
#include "pitch_end.h"

#include <inttypes.h>
#include <stdio.h>
#include <stdlib.h>
#include <string.h>

static pitch_end end = PITCH_END_INIT;

static void ok(const char *call, uint32_t code) {
    if (code == PITCH_OK) return;
    fprintf(stderr, "%s: %s\n", call, pitch_strerror(code));
    exit(3);
}

/* Message n adds an order: its id is n, buy 100 ABC at 1.00 and n hundredths. */
static void hear(uint8_t n) {
    uint8_t bytes[34] = { 34, 0, 1, 7, n, 0, 0, 0, 26, 0x22, 0, 0, 0, 0, n, 0, 0, 0, 0, 0, 0, 0,
                          'B', 100, 0, 'A', 'B', 'C', ' ', ' ', ' ', (uint8_t)(100 + n), 0, 1 };
    pitch_datagram_out told;
    ok("hear", pitch_end_hear(&end, bytes, sizeof bytes, &told));
    if (told.heard != 1 || told.others || told.rest) exit(4);
}

/* All that waits for the proxy, by a few bytes at a time. */
static size_t sent(uint8_t *bytes, size_t room) {
    pitch_sent_out told = { 0, 1, { 0, 0 } };
    size_t have = 0;
    while (told.left) {
        size_t piece = room - have < 8 ? room - have : 8;
        ok("send", pitch_end_send(&end, PITCH_PROXY, bytes + have, piece, &told));
        have += told.count;
    }
    return have;
}

static void print_status(const char *when) {
    pitch_status_out told;
    ok("status", pitch_end_status(&end, &told));
    printf("%s: %s at %" PRIu32 " of %" PRIu32 "\n", when,
           pitch_state_word(told.state), told.reach, told.top);
}

/* A connection with the proxy is made: it takes the login, and accepts it. */
static void log_in(void) {
    static const uint8_t accepted[] = { 11, 0, 1, 0, 0, 0, 0, 0, 3, 0x02, 'A' };
    uint8_t login[64];
    ok("connected", pitch_end_connected(&end, PITCH_PROXY));
    if (sent(login, sizeof login) != 30 || memcmp(login + 10, "0001FEED  PITCH     ", 20)) exit(5);
    ok("took", pitch_end_took(&end, PITCH_PROXY, accepted, sizeof accepted));
}

/* A second passes. Where the end asks for messages, the proxy says that it will send them, and
 * tells which is the first. */
static uint8_t asked(void) {
    uint8_t bytes[64], answer[18] = { 18, 0, 1, 0, 0, 0, 0, 0, 10, 0x04 };
    ok("second", pitch_end_second(&end));
    if (sent(bytes, sizeof bytes) != 17 || bytes[9] != 0x03 || bytes[10] != 7) return 0;
    memcpy(answer + 10, bytes + 10, 7);
    answer[17] = 'A';
    ok("took", pitch_end_took(&end, PITCH_PROXY, answer, sizeof answer));
    return bytes[11];
}

/* A price in dollars. */
static void print_at(uint64_t price) {
    printf(" at %" PRIu64 ".%04" PRIu64 "\n", price / 10000, price % 10000);
}

/* The levels to buy, the best first, and the open orders by their ids. */
static void print_book(void) {
    pitch_level_out levels[8];
    pitch_order_out orders[8];
    uint64_t number;
    ok("levels", pitch_end_levels(&end, (const uint8_t *)"ABC     ", 'B', levels, 8, &number));
    for (uint64_t at = 0; at < number && at < 8; at++) {
        printf("level %" PRIu64, levels[at].shares);
        print_at(levels[at].price);
    }
    ok("orders", pitch_end_orders(&end, orders, 8, &number));
    for (uint64_t at = 0; at < number && at < 8; at++) {
        printf("order %" PRIu64 ": %" PRIu32, orders[at].id, orders[at].quantity);
        print_at(orders[at].price);
    }
}

int main(void) {
    uint32_t stands;
    uint8_t first;
    pitch_best_out best;
    ok("open", pitch_end_open(&end, 7, (const uint8_t *)"0001", (const uint8_t *)"FEED",
                              (const uint8_t *)"PITCH     ", 16));
    hear(1);
    hear(3);
    print_status("a message is lost");
    log_in();
    printf("asked from %d on\n", asked());
    ok("cut", pitch_end_cut(&end, PITCH_PROXY));
    ok("connection", pitch_end_connection(&end, PITCH_PROXY, &stands));
    print_status(stands ? "connected" : "cut off");
    log_in();
    first = asked();
    printf("asked from %d on again\n", first);
    hear(first);
    print_status("it came on the gap line");
    ok("best", pitch_end_best(&end, (const uint8_t *)"ABC     ", 'B', &best));
    printf("bid %" PRIu64, best.shares);
    print_at(best.price);
    print_book();
    pitch_end_close(&end);
    return pitch_end_status(&end, &(pitch_status_out){ 0 }) == PITCH_CLOSED ? 0 : 6;
}
