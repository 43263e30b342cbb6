/* Calls of an end in every wrong order, and bytes that are no session; ends with the number of the
 * first answer that is not the one wanted, or 0. A seed may be given. */
#include "pitch_end.h"

#include <stdlib.h>
#include <string.h>

static uint64_t state = 88172645463325252ull;
static uint64_t next(void) {
    state ^= state << 13;
    state ^= state >> 7;
    state ^= state << 17;
    return state;
}

static int is_kept(const void *at, size_t len) {
    for (size_t k = 0; k < len; k++)
        if (((const uint8_t *)at)[k] != 0x5a) return 0;
    return 1;
}

int main(int argc, char **argv) {
    pitch_end e = PITCH_END_INIT;
    pitch_datagram_out d;
    pitch_sent_out t;
    pitch_status_out s;
    pitch_best_out b;
    pitch_order_out o, os[4];
    pitch_state_out x, xs[4];
    pitch_level_out l, ls[4];
    uint64_t n, of_book;
    uint32_t stands;
    uint8_t bytes[96];
    const uint8_t *sub = (const uint8_t *)"0001", *user = (const uint8_t *)"FEED";
    const uint8_t *word = (const uint8_t *)"PITCH     ";
    if (argc > 1) state ^= strtoull(argv[1], NULL, 10) * 0x9e3779b97f4a7c15ull;
    memset(&d, 0x5a, sizeof d), memset(&t, 0x5a, sizeof t), memset(&s, 0x5a, sizeof s);
    memset(&b, 0x5a, sizeof b), memset(&o, 0x5a, sizeof o), memset(&stands, 0x5a, sizeof stands);
    memset(bytes, 0x5a, sizeof bytes), memset(&x, 0x5a, sizeof x), memset(&l, 0x5a, sizeof l);
    memset(&n, 0x5a, sizeof n);
    /* closed, which it stays */
    if (pitch_end_hear(&e, bytes, 0, &d) != PITCH_CLOSED || pitch_end_second(&e) != PITCH_CLOSED) return 1;
    if (pitch_end_connected(&e, 1) != PITCH_CLOSED || pitch_end_cut(&e, 9) != PITCH_CLOSED) return 2;
    if (pitch_end_took(&e, 1, bytes, 0) != PITCH_CLOSED || pitch_end_send(&e, 1, NULL, 0, &t) != PITCH_CLOSED) return 3;
    if (pitch_end_connection(&e, 1, &stands) != PITCH_CLOSED || pitch_end_status(&e, &s) != PITCH_CLOSED) return 4;
    if (pitch_end_best(&e, word, 'B', &b) != PITCH_CLOSED || pitch_end_order(&e, 1, &o) != PITCH_CLOSED) return 5;
    if (pitch_end_orders(&e, &o, 1, &n) != PITCH_CLOSED || pitch_end_states(&e, &x, 1, &n) != PITCH_CLOSED) return 37;
    if (pitch_end_levels(&e, word, 'x', &l, 1, &n) != PITCH_CLOSED || pitch_end_level(&e, word, 'x', 1, &l) != PITCH_CLOSED) return 38;
    /* the unit, and the hold */
    if (pitch_end_open(&e, 0, sub, user, word, 8) != PITCH_BAD_UNIT) return 6;
    if (pitch_end_open(&e, 256, sub, user, word, 0) != PITCH_BAD_UNIT) return 7;
    if (pitch_end_open(&e, 255, sub, user, word, 0) != PITCH_BAD_HOLD) return 8;
    if (pitch_end_open(&e, 1, sub, user, word, 65537) != PITCH_BAD_HOLD) return 9;
    if (pitch_end_open(&e, 1, sub, user, word, 16) != PITCH_OK) return 10;
    if (pitch_end_open(&e, 1, sub, user, word, 16) != PITCH_IS_OPEN) return 11;
    /* no such session or side, and nulls */
    for (int i = 0; i < 3; i++) {
        const uint32_t session = (const uint32_t[]){ 0, 3, 0xffffffffu }[i];
        if (pitch_end_connected(&e, session) != PITCH_NO_SESSION || pitch_end_cut(&e, session) != PITCH_NO_SESSION) return 12;
        if (pitch_end_took(&e, session, bytes, 0) != PITCH_NO_SESSION) return 13;
        if (pitch_end_send(&e, session, bytes, 8, &t) != PITCH_NO_SESSION) return 14;
        if (pitch_end_connection(&e, session, &stands) != PITCH_NO_SESSION) return 15;
    }
    if (pitch_end_best(&e, word, 'x', &b) != PITCH_NO_SIDE) return 16;
    if (pitch_end_levels(&e, word, 'x', &l, 1, &n) != PITCH_NO_SIDE || pitch_end_level(&e, word, 'x', 1, &l) != PITCH_NO_SIDE) return 39;
    if (pitch_end_orders(&e, NULL, 1, &n) != PITCH_NULL || pitch_end_states(&e, &x, 1, NULL) != PITCH_NULL) return 40;
    if (pitch_end_levels(&e, NULL, 'B', &l, 1, &n) != PITCH_NULL || pitch_end_level(&e, word, 'B', 1, NULL) != PITCH_NULL) return 41;
    if (pitch_end_hear(&e, NULL, 1, &d) != PITCH_NULL || pitch_end_second(NULL) != PITCH_NULL) return 17;
    if (pitch_end_send(&e, 1, NULL, 1, &t) != PITCH_NULL || pitch_end_status(&e, NULL) != PITCH_NULL) return 18;
    if (!is_kept(&d, sizeof d) || !is_kept(&t, sizeof t) || !is_kept(&s, sizeof s)) return 34;
    if (!is_kept(&b, sizeof b) || !is_kept(&o, sizeof o)) return 35;
    if (!is_kept(&stands, sizeof stands) || !is_kept(bytes, sizeof bytes)) return 36;
    if (!is_kept(&x, sizeof x) || !is_kept(&l, sizeof l) || !is_kept(&n, sizeof n)) return 42;
    /* of an empty book there is nothing, and nothing is written but that */
    if (pitch_end_orders(&e, &o, 1, &n) != PITCH_OK || n || !is_kept(&o, sizeof o)) return 43;
    if (pitch_end_states(&e, &x, 1, &n) != PITCH_OK || n || !is_kept(&x, sizeof x)) return 44;
    if (pitch_end_levels(&e, word, 'B', &l, 1, &n) != PITCH_OK || n || !is_kept(&l, sizeof l)) return 45;
    if (pitch_end_level(&e, word, 'B', 7, &l) != PITCH_OK || l.price != 7 || l.shares) return 46;
    /* without a connection nothing waits, and bytes are of none */
    if (pitch_end_took(&e, 2, bytes, sizeof bytes) != PITCH_OK || pitch_end_cut(&e, 1) != PITCH_OK) return 19;
    if (pitch_end_send(&e, 1, NULL, 0, &t) != PITCH_OK || t.count || t.left) return 20;
    /* what waited for a connection that was cut is dropped, and what does not fit waits */
    if (pitch_end_connected(&e, 2) != PITCH_OK || pitch_end_send(&e, 2, bytes, 7, &t) != PITCH_OK) return 21;
    if (t.count != 7 || t.left != 23 || t.spare[0] || t.spare[1]) return 22;
    if (pitch_end_send(&e, 1, bytes, 7, &t) != PITCH_OK || t.count || t.left) return 23;
    if (pitch_end_cut(&e, 2) != PITCH_OK || pitch_end_send(&e, 2, bytes, 96, &t) != PITCH_OK || t.count) return 24;
    /* garbage: a connection that closes by it stands no more, and nothing waits for it */
    for (int i = 0; i < 100000; i++) {
        size_t len = next() % sizeof bytes, have = (size_t)(next() % 4);
        uint32_t session = 1 + (uint32_t)(next() % 2);
        for (size_t k = 0; k < len; k++) bytes[k] = (uint8_t)next();
        if (len >= 8) bytes[0] = (uint8_t)(len - have), bytes[1] = 0, bytes[2] = (uint8_t)(next() % 2);
        if (len >= 8) bytes[3] = (uint8_t)(next() % 2), bytes[6] = bytes[7] = 0;
        if (pitch_end_hear(&e, bytes, len, &d) != PITCH_OK || d.rest > len || d.spare[0]) return 25;
        if (next() % 8 == 0 && pitch_end_connected(&e, session) != PITCH_OK) return 26;
        if (pitch_end_took(&e, session, bytes, len) != PITCH_OK) return 27;
        if (next() % 4 == 0 && pitch_end_second(&e) != PITCH_OK) return 28;
        if (pitch_end_connection(&e, session, &stands) != PITCH_OK || stands > 1) return 29;
        if (pitch_end_send(&e, session, bytes, (size_t)(next() % 64), &t) != PITCH_OK) return 30;
        if (!stands && (t.count || t.left)) return 31;
        if (pitch_end_status(&e, &s) != PITCH_OK || pitch_end_order(&e, next() % 64, &o) != PITCH_OK) return 32;
        /* as many as fit, and how many there are whatever fits */
        if (pitch_end_orders(&e, os, 4, &n) != PITCH_OK || pitch_end_orders(&e, NULL, 0, &of_book) != PITCH_OK || n != of_book) return 47;
        for (uint64_t k = 0; k < n && k < 4; k++) {
            if (os[k].there != 1 || os[k].display > 1 || os[k].spare[0] || os[k].spare[1]) return 48;
            if (pitch_end_order(&e, os[k].id, &o) != PITCH_OK || memcmp(&o, &os[k], sizeof o)) return 49;
            if (pitch_end_levels(&e, o.symbol, (uint8_t)o.side, ls, 4, &of_book) != PITCH_OK || !of_book) return 50;
            if (pitch_end_level(&e, o.symbol, (uint8_t)o.side, ls[0].price, &l) != PITCH_OK || l.shares != ls[0].shares) return 51;
        }
        if (pitch_end_states(&e, xs, 4, &n) != PITCH_OK) return 52;
    }
    pitch_end_close(&e);
    pitch_end_close(&e);
    return pitch_end_second(&e) == PITCH_CLOSED ? 0 : 33;
}
