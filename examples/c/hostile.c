/* Calls in every wrong order and with bytes that are no feed; ends with the number of the first
 * answer that is not the one wanted, or 0. A seed may be given. What is not told has to stay. */
#include "pitch_client.h"

#include <stdlib.h>
#include <string.h>
#include <stdio.h>

static uint64_t state = 88172645463325252ull;
static uint64_t next(void) {
    state ^= state << 13;
    state ^= state >> 7;
    state ^= state << 17;
    return state;
}

static int is_kept(const void *at, size_t len) {
    for (size_t k = 0; k < len; k++)
        if (((const uint8_t *)at)[k] != 0x5a) return 0;
    return 1;
}

/* A client holds as many messages as it was asked to: the next one overflows. Answers whether. */
static int holds(uint32_t hold) {
    pitch_client c = PITCH_CLIENT_INIT;
    pitch_heard_out h;
    uint8_t block[8 + 3] = { 11, 0, 1, 1, 0, 0, 0, 0, 3, 0x99, 0 };
    uint32_t overflows = 0;
    if (pitch_open(&c, hold, 0) != PITCH_OK) return 0;
    for (uint32_t k = 0; k <= hold && !overflows; k++) {
        for (int at = 0; at < 4; at++) block[4 + at] = (uint8_t)((k + 2) >> 8 * at);
        if (pitch_hear(&c, block, sizeof block, &h) != PITCH_OK) return 0;
        overflows = h.overflows;
        if ((k == hold) != (overflows == 1)) return 0;
    }
    pitch_close(&c);
    return 1;
}

int main(int argc, char **argv) {
    pitch_client c = PITCH_CLIENT_INIT;
    pitch_heard_out h;
    pitch_status_out s;
    pitch_best_out b;
    pitch_order_out o, os[3];
    pitch_state_out st[2];
    pitch_level_out l, ls[2];
    pitch_quote_out qs[3];
    uint64_t n = 77;
    const uint8_t sym[8] = "ACME    ";
    if (argc > 1) state ^= strtoull(argv[1], NULL, 10) * 0x9e3779b97f4a7c15ull;
    memset(&h, 0x5a, sizeof h), memset(&s, 0x5a, sizeof s), memset(&b, 0x5a, sizeof b);
    memset(&o, 0x5a, sizeof o), memset(&l, 0x5a, sizeof l), memset(os, 0x5a, sizeof os);
    memset(st, 0x5a, sizeof st), memset(ls, 0x5a, sizeof ls), memset(qs, 0x5a, sizeof qs);
    /* closed, which it stays */
    pitch_close(&c);
    if (pitch_hear(&c, sym, 8, &h) != PITCH_CLOSED) return 1;
    if (pitch_status(&c, 1, &s) != PITCH_CLOSED) return 2;
    if (pitch_best(&c, 1, sym, 'B', &b) != PITCH_CLOSED) return 3;
    if (pitch_order(&c, 1, 1, &o) != PITCH_CLOSED || pitch_reserve(&c, 1, 1) != PITCH_CLOSED) return 22;
    if (pitch_orders(&c, 1, os, 3, &n) != PITCH_CLOSED || pitch_states(&c, 1, st, 2, &n) != PITCH_CLOSED) return 40;
    if (pitch_levels(&c, 1, sym, 'B', ls, 2, &n) != PITCH_CLOSED || pitch_level(&c, 1, sym, 'B', 1, &l) != PITCH_CLOSED) return 51;
    if (pitch_hear_quoted(&c, sym, 8, &h, qs, 3, &n) != PITCH_CLOSED) return 52;
    /* the hold */
    if (pitch_open(&c, 0, 1) != PITCH_BAD_HOLD) return 4;
    if (pitch_open(&c, 65537, 1) != PITCH_BAD_HOLD) return 5;
    if (pitch_open(&c, 0xffffffffu, 1) != PITCH_BAD_HOLD) return 6;
    if (pitch_open(&c, 16, 1) != PITCH_OK) return 7;
    if (pitch_open(&c, 16, 1) != PITCH_IS_OPEN) return 8;
    /* no unit yet; units that no header can name; sides */
    if (pitch_status(&c, 1, &s) != PITCH_NO_CLIENT) return 9;
    if (pitch_status(&c, 256, &s) != PITCH_NO_CLIENT) return 10;
    if (pitch_status(&c, 0xffffffffu, &s) != PITCH_NO_CLIENT) return 11;
    if (pitch_best(&c, 0xffffffffu, sym, 'S', &b) != PITCH_NO_CLIENT) return 12;
    if (pitch_best(&c, 1, sym, 'x', &b) != PITCH_NO_SIDE) return 13;
    if (pitch_order(&c, 1, 1, &o) != PITCH_NO_CLIENT || pitch_order(&c, 256, 1, &o) != PITCH_NO_CLIENT) return 25;
    if (pitch_c_reserve(&c, 9, 1) != PITCH_NO_CLIENT || pitch_reserve(&c, 256, 1) != PITCH_NO_CLIENT) return 28;
    if (pitch_orders(&c, 1, os, 3, &n) != PITCH_NO_CLIENT || pitch_orders(&c, 256, os, 3, &n) != PITCH_NO_CLIENT) return 41;
    if (pitch_states(&c, 1, st, 2, &n) != PITCH_NO_CLIENT || pitch_states(&c, 0xffffffffu, st, 2, &n) != PITCH_NO_CLIENT) return 42;
    if (pitch_levels(&c, 256, sym, 'S', ls, 2, &n) != PITCH_NO_CLIENT || pitch_level(&c, 1, sym, 'S', 1, &l) != PITCH_NO_CLIENT) return 53;
    if (pitch_levels(&c, 1, sym, 'x', ls, 2, &n) != PITCH_NO_SIDE || pitch_level(&c, 1, sym, 0, 1, &l) != PITCH_NO_SIDE) return 54;
    if (pitch_hear(&c, sym, 7, &h) != PITCH_TRUNCATED) return 67;
    if (pitch_hear_quoted(&c, sym, 7, &h, qs, 3, &n) != PITCH_TRUNCATED) return 72;
    if (n != 77) return 43;
    if (!is_kept(&h, sizeof h) || !is_kept(&s, sizeof s) || !is_kept(&b, sizeof b)) return 68;
    if (!is_kept(&o, sizeof o) || !is_kept(&l, sizeof l) || !is_kept(os, sizeof os)) return 69;
    if (!is_kept(st, sizeof st) || !is_kept(ls, sizeof ls) || !is_kept(qs, sizeof qs)) return 70;
    if (!holds(1) || !holds(2) || !holds(65536)) return 71;
    /* a unit that was reserved is silent, and has nothing */
    if (pitch_reserve(&c, 200, 1000) != PITCH_OK || pitch_status(&c, 200, &s) != PITCH_OK) return 29;
    if (s.state != PITCH_SILENT || s.reach || s.top || s.spare[0] || s.spare[4]) return 32;
    if (pitch_order(&c, 200, 1, &o) != PITCH_OK || o.there) return 35;
    if (pitch_orders(&c, 200, NULL, 0, &n) != PITCH_OK || n) return 44;
    n = 77;
    if (pitch_states(&c, 200, NULL, 0, &n) != PITCH_OK || n) return 45;
    /* more orders than the array holds: it is filled by rising id, and nothing behind it is written */
    {
        uint8_t block[8 + 3 * 34] = { 8 + 3 * 34, 0, 3, 201, 1, 0, 0, 0 };
        for (int k = 0; k < 3; k++) {
            uint8_t *add = block + 8 + 34 * k;
            add[0] = 34, add[1] = 0x21, add[6] = (uint8_t)(30 - 10 * k), add[14] = 'B', add[15] = (uint8_t)(k + 1);
            memcpy(add + 19, "ACME  ", 6), add[25] = 100;
        }
        if (pitch_hear(&c, block, sizeof block, &h) != PITCH_OK || h.fresh != 3) return 46;
        os[2].id = 99;
        if (pitch_orders(&c, 201, os, 2, &n) != PITCH_OK || n != 3) return 47;
        if (os[0].id != 10 || os[1].id != 20 || os[0].quantity != 3 || os[2].id != 99) return 48;
        if (pitch_orders(&c, 201, os, 3, &n) != PITCH_OK || n != 3 || os[2].id != 30) return 49;
        if (pitch_best(&c, 201, sym, 'B', &b) != PITCH_OK || !b.there || b.price != 100 || b.shares != 6) return 50;
        /* a fourth order, at a better price: one quote, and two levels of which one fits */
        block[0] = 42, block[2] = 1, block[4] = 4, block[14] = 40, block[8 + 25] = 101;
        qs[1].sequence = 99, n = 77;
        if (pitch_hear_quoted(&c, block, 42, &h, qs, 3, &n) != PITCH_OK || h.after.reach != 4 || n != 1) return 55;
        if (qs[0].sequence != 4 || qs[0].side != 'B' || memcmp(qs[0].symbol, sym, 8) || !qs[0].there) return 56;
        if (qs[0].price != 101 || qs[0].shares != 1 || qs[1].sequence != 99) return 57;
        if (pitch_hear_quoted(&c, block, 42, &h, NULL, 0, &n) != PITCH_OK || h.fresh || n) return 58;
        ls[1].price = 99;
        if (pitch_levels(&c, 201, sym, 'B', ls, 1, &n) != PITCH_OK || n != 2 || ls[0].price != 101 || ls[1].price != 99) return 59;
        if (pitch_levels(&c, 201, sym, 'B', ls, 2, &n) != PITCH_OK || ls[1].price != 100 || ls[1].shares != 6) return 60;
        if (pitch_levels(&c, 201, sym, 'S', NULL, 0, &n) != PITCH_OK || n) return 61;
        if (pitch_level(&c, 201, sym, 'B', 100, &l) != PITCH_OK || l.price != 100 || l.shares != 6 || l.spare[1]) return 62;
        if (pitch_level(&c, 201, sym, 'B', 99, &l) != PITCH_OK || l.price != 99 || l.shares) return 63;
    }
    /* no bytes, also at null; too few */
    if (pitch_hear(&c, sym, 0, &h) != PITCH_TRUNCATED) return 14;
    if (pitch_hear(&c, NULL, 0, &h) != PITCH_TRUNCATED) return 15;
    /* nulls, and a length that no memory has */
    if (pitch_hear(&c, NULL, 1, &h) != PITCH_NULL || pitch_hear(NULL, sym, 8, &h) != PITCH_NULL) return 16;
    if (pitch_hear(&c, sym, 8, NULL) != PITCH_NULL || pitch_open(NULL, 1, 1) != PITCH_NULL) return 17;
    if (pitch_status(&c, 1, NULL) != PITCH_NULL || pitch_best(&c, 1, NULL, 'B', &b) != PITCH_NULL) return 18;
    if (pitch_order(&c, 1, 1, NULL) != PITCH_NULL || pitch_reserve(NULL, 1, 1) != PITCH_NULL) return 37;
    if (pitch_orders(&c, 1, NULL, 1, &n) != PITCH_NULL || pitch_orders(&c, 1, os, 3, NULL) != PITCH_NULL) return 38;
    if (pitch_states(&c, 1, NULL, 1, &n) != PITCH_NULL || pitch_states(NULL, 1, st, 2, &n) != PITCH_NULL) return 39;
    if (pitch_levels(&c, 1, NULL, 'B', ls, 2, &n) != PITCH_NULL || pitch_levels(&c, 1, sym, 'B', NULL, 1, &n) != PITCH_NULL) return 64;
    if (pitch_level(&c, 1, sym, 'B', 1, NULL) != PITCH_NULL || pitch_hear_quoted(&c, sym, 8, &h, NULL, 1, &n) != PITCH_NULL) return 65;
    if (pitch_hear_quoted(&c, sym, 8, &h, qs, 3, NULL) != PITCH_NULL || pitch_hear_quoted(&c, sym, 8, NULL, qs, 3, &n) != PITCH_NULL) return 66;
    uint8_t *most = calloc(1, 65536);
    if (pitch_hear(&c, most, (size_t)-1, &h) != PITCH_NOT_A_BLOCK) return 19;
    free(most);
    /* garbage, in a block of its very size, so that a tool sees a read past its end */
    unsigned long heard = 0, cut = 0, refused = 0;
    for (int i = 0; i < 200000; i++) {
        size_t len = next() % 80;
        uint8_t *bytes = malloc(len ? len : 1);
        for (size_t k = 0; k < len; k++) bytes[k] = (uint8_t)next();
        if (len >= 8 && next() % 4) {
            /* a header that fits, and messages whose lengths fit: garbage inside */
            size_t at = 8, count = 0;
            bytes[0] = (uint8_t)len, bytes[1] = 0;
            while (at + 2 <= len) {
                size_t n = 2 + next() % 38;
                if (at + n > len) n = len - at;
                bytes[at] = (uint8_t)n;
                if (next() % 2) bytes[at + 1] = (uint8_t)(0x20 + next() % 0x20);
                at += n, count++;
            }
            bytes[2] = (uint8_t)count;
            bytes[3] = (uint8_t)(next() % 4);
            if (next() % 8) bytes[4] = (uint8_t)(next() % 64), bytes[5] = bytes[6] = bytes[7] = 0;
        }
        switch (next() % 2 ? pitch_hear(&c, bytes, len, &h) : pitch_hear_quoted(&c, bytes, len, &h, qs, next() % 4, &n)) {
        case PITCH_OK: heard++; if (h.used > len || h.used < 8) return 20; break;
        case PITCH_TRUNCATED: cut++; break;
        case PITCH_NOT_A_BLOCK: refused++; break;
        default: return 21;
        }
        if (i % 64 == 0) {
            uint32_t unit = (uint32_t)(next() % 260);
            uint8_t name[8];
            for (int k = 0; k < 8; k++) name[k] = (uint8_t)next();
            pitch_status(&c, unit, &s);
            pitch_best(&c, unit, name, next() % 2 ? 'B' : 'S', &b);
            pitch_order(&c, unit, next() % 256, &o);
            pitch_orders(&c, unit, os, next() % 4, &n);
            pitch_states(&c, unit, st, next() % 3, &n);
            pitch_levels(&c, unit, name, next() % 2 ? 'B' : 'S', ls, next() % 3, &n);
            pitch_level(&c, unit, name, next() % 2 ? 'B' : 'S', next() % 256, &l);
        }
        free(bytes);
    }
    printf("heard %lu, truncated %lu, refused %lu\n", heard, cut, refused);
    pitch_close(&c);
    pitch_close(&c);
    if (pitch_hear(&c, sym, 8, &h) != PITCH_CLOSED) return 30;
    if (pitch_open(&c, 65536, 1) != PITCH_OK) return 31;
    pitch_close(&c);
    return 0;
}
