/* The client's end of a unit with its two sessions, from C: blocks of the lines, bytes of the
 * sessions and seconds go in, and the bytes to send come out. Whoever calls owns the sockets.
 *
 * An end is a struct of the caller's, as a client is: it begins as PITCH_END_INIT, pitch_end_open
 * makes it ready, and pitch_end_close frees what it has. What pitch_client.h says of a client's
 * fields, pointers, calls and threads holds of an end. A length of bytes above PTRDIFF_MAX is told
 * as PITCH_NULL.
 *
 * After any answer but PITCH_OK an end stands for what it stood for, and nothing was written, but
 * for three calls after PITCH_NO_MEMORY: pitch_end_hear may have heard some blocks, pitch_end_took
 * has lost its connection, and pitch_end_second both. The first may be made again.
 */
#ifndef PITCH_END_H
#define PITCH_END_H

#include "pitch_client.h"

#ifdef __cplusplus
extern "C" {
#endif

typedef struct pitch_end {
    void *at_;
    uint64_t mark_;
} pitch_end;

#define PITCH_END_INIT { NULL, 0 }

/* A session: with the Gap Request Proxy, or with the unit's Spin Server. */
enum pitch_session { PITCH_PROXY = 1, PITCH_SPIN_SERVER = 2 };

typedef struct pitch_datagram_out {
    uint64_t heard;  /* blocks of the end's unit */
    uint64_t others; /* blocks of other units, which were passed over */
    uint64_t rest;   /* bytes after the last whole block */
    uint64_t spare[5];
} pitch_datagram_out;

typedef struct pitch_sent_out {
    uint64_t count; /* bytes that were handed out */
    uint64_t left;  /* bytes that wait still */
    uint64_t spare[2];
} pitch_sent_out;

/* ---- The library's own functions, as in pitch_client.h */
uint32_t pitch_c_end_open(pitch_end *end, uint32_t unit, const uint8_t sub[4],
                          const uint8_t user[4], const uint8_t password[10], uint32_t hold);
void pitch_c_end_close(pitch_end *end);
uint32_t pitch_c_end_hear(pitch_end *end, const uint8_t *bytes, size_t len,
                          pitch_datagram_out *told);
uint32_t pitch_c_end_connected(pitch_end *end, uint32_t session);
uint32_t pitch_c_end_took(pitch_end *end, uint32_t session, const uint8_t *bytes, size_t len);
uint32_t pitch_c_end_cut(pitch_end *end, uint32_t session);
uint32_t pitch_c_end_second(pitch_end *end);
uint32_t pitch_c_end_send(pitch_end *end, uint32_t session, uint8_t *into, size_t len,
                          pitch_sent_out *told);
uint32_t pitch_c_end_connection(pitch_end *end, uint32_t session, uint32_t *told);
uint32_t pitch_c_end_status(pitch_end *end, pitch_status_out *told);
uint32_t pitch_c_end_best(pitch_end *end, const uint8_t symbol[8], uint8_t side,
                          pitch_best_out *told);
uint32_t pitch_c_end_order(pitch_end *end, uint64_t id, pitch_order_out *told);
uint32_t pitch_c_end_orders(pitch_end *end, pitch_order_out *told, size_t len, uint64_t *number);
uint32_t pitch_c_end_states(pitch_end *end, pitch_state_out *told, size_t len, uint64_t *number);
uint32_t pitch_c_end_levels(pitch_end *end, const uint8_t symbol[8], uint8_t side,
                            pitch_level_out *told, size_t len, uint64_t *number);
uint32_t pitch_c_end_level(pitch_end *end, const uint8_t symbol[8], uint8_t side, uint64_t price,
                           pitch_level_out *told);

/* ---- The functions for C */

/* Opens a closed end for a unit from 1 to 255. It logs in with the account, each part of which has
 * spaces at its end, and holds at most `hold` messages, from 1 to 65,536. */
static inline uint32_t pitch_end_open(pitch_end *end, uint32_t unit, const uint8_t sub[4],
                                      const uint8_t user[4], const uint8_t password[10],
                                      uint32_t hold) {
    if (!end || !sub || !user || !password) return PITCH_NULL;
    if (pitch_c_abi() != PITCH_ABI) return PITCH_OTHER_ABI;
    return pitch_c_end_open(end, unit, sub, user, password, hold);
}

/* Closes an end and frees what it has. A closed one stays closed. */
static inline void pitch_end_close(pitch_end *end) {
    if (end) pitch_c_end_close(end);
}

/* A datagram came on a line. After PITCH_NO_MEMORY the blocks before one of them were heard, and
 * the same call may be made again. */
static inline uint32_t pitch_end_hear(pitch_end *end, const uint8_t *bytes, size_t len,
                                      pitch_datagram_out *told) {
    if (!end || !told || (!bytes && len) || len > PTRDIFF_MAX) return PITCH_NULL;
    return pitch_c_end_hear(end, bytes ? bytes : (const uint8_t *)"", len, told);
}

/* A connection was made; one that stood before has ended. The login waits to be sent. */
static inline uint32_t pitch_end_connected(pitch_end *end, uint32_t session) {
    if (!end) return PITCH_NULL;
    return pitch_c_end_connected(end, session);
}

/* Bytes of a connection came. After PITCH_NO_MEMORY the connection is lost: close its socket. */
static inline uint32_t pitch_end_took(pitch_end *end, uint32_t session, const uint8_t *bytes,
                                      size_t len) {
    if (!end || (!bytes && len) || len > PTRDIFF_MAX) return PITCH_NULL;
    return pitch_c_end_took(end, session, bytes ? bytes : (const uint8_t *)"", len);
}

/* A connection has ended, where one stood. What waited for it is dropped. */
static inline uint32_t pitch_end_cut(pitch_end *end, uint32_t session) {
    if (!end) return PITCH_NULL;
    return pitch_c_end_cut(end, session);
}

/* A second passed: heartbeats and requests wait to be sent, where they are due. After
 * PITCH_NO_MEMORY both connections are lost: close their sockets. */
static inline uint32_t pitch_end_second(pitch_end *end) {
    if (!end) return PITCH_NULL;
    return pitch_c_end_second(end);
}

/* Takes the bytes that wait for a session, as many as fit in an array of `len`, which may be null
 * where it is 0. Send them all, or cut the connection. */
static inline uint32_t pitch_end_send(pitch_end *end, uint32_t session, uint8_t *into, size_t len,
                                      pitch_sent_out *told) {
    uint8_t none;
    if (!end || !told || (!into && len) || len > PTRDIFF_MAX) return PITCH_NULL;
    return pitch_c_end_send(end, session, into ? into : &none, len, told);
}

/* Whether a connection stands: 1, or 0 where none was made, or it was cut or closed by its bytes.
 * Ask after pitch_end_took and pitch_end_second, and close the socket of one that does not. */
static inline uint32_t pitch_end_connection(pitch_end *end, uint32_t session, uint32_t *told) {
    if (!end || !told) return PITCH_NULL;
    return pitch_c_end_connection(end, session, told);
}

/* How far the client is; its reach. */
static inline uint32_t pitch_end_status(pitch_end *end, pitch_status_out *told) {
    if (!end || !told) return PITCH_NULL;
    return pitch_c_end_status(end, told);
}

/* The best price of a symbol on a side, as pitch_best tells it. It goes through all open orders. */
static inline uint32_t pitch_end_best(pitch_end *end, const uint8_t symbol[8], uint8_t side,
                                      pitch_best_out *told) {
    if (!end || !symbol || !told) return PITCH_NULL;
    return pitch_c_end_best(end, symbol, side, told);
}

/* The open order of an id. */
static inline uint32_t pitch_end_order(pitch_end *end, uint64_t id, pitch_order_out *told) {
    if (!end || !told) return PITCH_NULL;
    return pitch_c_end_order(end, id, told);
}

/* The open orders by rising id: as many as fit in an array of `len`, and in `number` how many there
 * are, as pitch_orders tells them. */
static inline uint32_t pitch_end_orders(pitch_end *end, pitch_order_out *told, size_t len,
                                        uint64_t *number) {
    pitch_order_out none;
    if (!end || !number || (!told && len)) return PITCH_NULL;
    if (len > PTRDIFF_MAX / sizeof none) len = PTRDIFF_MAX / sizeof none;
    return pitch_c_end_orders(end, told ? told : &none, len, number);
}

/* The trading statuses by rising bytes of their symbols, likewise. */
static inline uint32_t pitch_end_states(pitch_end *end, pitch_state_out *told, size_t len,
                                        uint64_t *number) {
    pitch_state_out none;
    if (!end || !number || (!told && len)) return PITCH_NULL;
    if (len > PTRDIFF_MAX / sizeof none) len = PTRDIFF_MAX / sizeof none;
    return pitch_c_end_states(end, told ? told : &none, len, number);
}

/* The levels of a symbol on a side, the best first, likewise. They are made anew from all open
 * orders at each call. */
static inline uint32_t pitch_end_levels(pitch_end *end, const uint8_t symbol[8], uint8_t side,
                                        pitch_level_out *told, size_t len, uint64_t *number) {
    pitch_level_out none;
    if (!end || !symbol || !number || (!told && len)) return PITCH_NULL;
    if (len > PTRDIFF_MAX / sizeof none) len = PTRDIFF_MAX / sizeof none;
    return pitch_c_end_levels(end, symbol, side, told ? told : &none, len, number);
}

/* The shares at a price: 0 where no order is open there. It goes through all open orders. */
static inline uint32_t pitch_end_level(pitch_end *end, const uint8_t symbol[8], uint8_t side,
                                       uint64_t price, pitch_level_out *told) {
    if (!end || !symbol || !told) return PITCH_NULL;
    return pitch_c_end_level(end, symbol, side, price, told);
}

#ifdef __cplusplus
}
#endif
PITCH_ASSERT_SIZE(pitch_end, 16);
PITCH_ASSERT_SIZE(pitch_datagram_out, 64);
PITCH_ASSERT_SIZE(pitch_sent_out, 32);

#endif
