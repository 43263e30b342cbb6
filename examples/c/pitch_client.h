/* The clients of a feed, from C.
 *
 * Link libpitch_c.a, and heap.c beside this file: the library takes its memory by malloc, realloc
 * and free.
 *
 * A client is a struct of the caller's. It begins as PITCH_CLIENT_INIT, pitch_open makes it ready,
 * and pitch_close frees what it has. Do not read or write its fields, and use one copy of it alone:
 * whoever moves it makes the old one PITCH_CLIENT_INIT again. No function keeps a pointer that it
 * was passed, starts a thread, or has a global of its own, and none calls but into heap.c.
 *
 * A client is used by one call at a time, also by calls that only ask: while one runs, the client
 * is marked closed. Another thread may go on with it, where a lock, a start or a join of a thread,
 * or a sequentially consistent atomic orders the two; two clients share nothing. Make no call in a
 * signal handler, nor in the child of a fork of a process with threads. Leave none by a longjmp, an
 * exception or a cancelled thread: what heap.c calls has to return, and calls nothing of this file.
 *
 * Every pointer must be to what its type says, aligned as that is, and those of one call must not
 * overlap. Null is told as PITCH_NULL.
 */
#ifndef PITCH_CLIENT_H
#define PITCH_CLIENT_H

#include <stddef.h>
#include <stdint.h>

#ifdef __cplusplus
extern "C" {
#endif

/* What pitch_c_abi answers where the library has the structs and functions of this header. */
#define PITCH_ABI 4

/* What the functions answer. Where it is neither PITCH_OK nor PITCH_UNTOLD, a client stands for
 * what it stood for, and nothing was written. Of an end pitch_end.h tells. */
enum pitch_code {
    PITCH_OK = 0,
    PITCH_CLOSED = 1,      /* the client or the end is not open */
    PITCH_IS_OPEN = 2,     /* it is open already */
    PITCH_NO_MEMORY = 3,   /* of a client the same call may be made again once there is memory */
    PITCH_BAD_HOLD = 4,    /* the hold is not from 1 to 65,536 */
    PITCH_TRUNCATED = 5,   /* more bytes may complete the block */
    PITCH_NOT_A_BLOCK = 6, /* the bytes begin with no block, whatever follows */
    PITCH_NO_CLIENT = 7,   /* no block named this unit yet */
    PITCH_NO_SIDE = 8,     /* the side is neither 'B' nor 'S' */
    PITCH_BAD_UNIT = 11,   /* the unit of an end is not from 1 to 255 */
    PITCH_NO_SESSION = 12, /* the session is none of pitch_session */
    PITCH_UNTOLD = 13,     /* the block was heard, but there was no memory to tell its quotes */
    PITCH_NULL = 9,        /* a pointer is null: told by this header alone */
    PITCH_OTHER_ABI = 10   /* the library is of another header: told by this one alone */
};

typedef struct pitch_client {
    void *at_;
    uint64_t mark_;
} pitch_client;

#define PITCH_CLIENT_INIT { NULL, 0 }

enum pitch_state { PITCH_SILENT = 1, PITCH_CURRENT = 2, PITCH_BEHIND = 3 };

/* Each struct that is told ends with room for fields to come, which is 0. */
typedef struct pitch_status_out {
    uint32_t state; /* a pitch_state */
    uint32_t reach; /* every message up to this sequence is in the book */
    uint32_t top;   /* the greatest sequence that the unit told of */
    uint32_t spare[5];
} pitch_status_out;

typedef struct pitch_best_out {
    uint64_t there;  /* 0 where the side is empty, else 1 */
    uint64_t price;  /* in ten-thousandths of a dollar */
    uint64_t shares;
    uint64_t spare[5];
} pitch_best_out;

typedef struct pitch_order_out {
    uint64_t there;    /* 0 where no order of this id is open, else 1 */
    uint64_t id;
    uint64_t price;    /* in ten-thousandths of a dollar */
    uint32_t quantity; /* in shares */
    uint32_t side;     /* 'B' or 'S' */
    uint8_t symbol[8]; /* with spaces at its end */
    uint32_t display;  /* 1 where it is displayed, else 0 */
    uint8_t participant[4]; /* with spaces at its end; four spaces where none is named */
    uint64_t spare[2];
} pitch_order_out;

typedef struct pitch_state_out {
    uint8_t symbol[8]; /* with spaces at its end */
    uint32_t halt;     /* the two bytes of its trading status */
    uint32_t sho;
    uint64_t spare[2];
} pitch_state_out;

typedef struct pitch_level_out {
    uint64_t price; /* in ten-thousandths of a dollar */
    uint64_t shares;
    uint64_t spare[2];
} pitch_level_out;

/* A best price that a message made another one. */
typedef struct pitch_quote_out {
    uint32_t sequence; /* of the message */
    uint32_t side;     /* 'B' or 'S' */
    uint8_t symbol[8]; /* with spaces at its end */
    uint64_t there;    /* 0 where the side is empty then, else 1 */
    uint64_t price;    /* in ten-thousandths of a dollar */
    uint64_t shares;
    uint64_t spare[3];
} pitch_quote_out;

typedef struct pitch_heard_out {
    uint32_t used;      /* the bytes of the block; those after it are of the next */
    uint32_t unit;
    uint32_t sequence;  /* of its first message */
    uint32_t count;     /* of its messages */
    uint32_t fresh;     /* how many of them were neither known nor held */
    uint32_t overflows; /* how often the hold overflowed */
    pitch_status_out after;
    uint32_t spare[2];
} pitch_heard_out;

/* ---- The library's own functions, which test nothing that C must keep anyway: no pointer is null,
 * also where a length is 0, and no array has more bytes than PTRDIFF_MAX. Bindings may call them. */
uint32_t pitch_c_abi(void);
uint32_t pitch_c_open(pitch_client *client, uint32_t hold, uint32_t levels);
void pitch_c_close(pitch_client *client);
uint32_t pitch_c_hear(pitch_client *client, const uint8_t *bytes, size_t len, pitch_heard_out *told);
uint32_t pitch_c_hear_quoted(pitch_client *client, const uint8_t *bytes, size_t len,
                             pitch_heard_out *told, pitch_quote_out *quotes, size_t quotes_len,
                             uint64_t *number);
uint32_t pitch_c_reserve(pitch_client *client, uint32_t unit, uint32_t messages);
uint32_t pitch_c_status(pitch_client *client, uint32_t unit, pitch_status_out *told);
uint32_t pitch_c_best(pitch_client *client, uint32_t unit, const uint8_t symbol[8], uint8_t side,
                      pitch_best_out *told);
uint32_t pitch_c_order(pitch_client *client, uint32_t unit, uint64_t id, pitch_order_out *told);
uint32_t pitch_c_orders(pitch_client *client, uint32_t unit, pitch_order_out *told, size_t len,
                        uint64_t *number);
uint32_t pitch_c_states(pitch_client *client, uint32_t unit, pitch_state_out *told, size_t len,
                        uint64_t *number);

uint32_t pitch_c_levels(pitch_client *client, uint32_t unit, const uint8_t symbol[8], uint8_t side,
                        pitch_level_out *told, size_t len, uint64_t *number);
uint32_t pitch_c_level(pitch_client *client, uint32_t unit, const uint8_t symbol[8], uint8_t side,
                       uint64_t price, pitch_level_out *told);

/* ---- The functions for C */

/* Writes the name of a symbol as orders have it, with spaces at its end: bytes that end by zeros
 * name another symbol, which has no orders. Answers 1, or 0 where a pointer is null, or the name is
 * empty or longer than eight. */
static inline int pitch_symbol(uint8_t symbol[8], const char *name) {
    size_t len = 0;
    if (!symbol || !name) return 0;
    while (len < 9 && name[len]) len++;
    if (len == 0 || len > 8) return 0;
    for (size_t at = 0; at < 8; at++) symbol[at] = at < len ? (uint8_t)name[at] : ' ';
    return 1;
}

/* Opens a closed client. Each unit will hold at most `hold` messages, from 1 to 65,536, while one
 * before them is missing. Where `levels` is not 0, price levels are kept beside each book, so that
 * best prices are looked up; hearing a message then takes some four times as long. */
static inline uint32_t pitch_open(pitch_client *client, uint32_t hold, uint32_t levels) {
    if (!client) return PITCH_NULL;
    if (pitch_c_abi() != PITCH_ABI) return PITCH_OTHER_ABI;
    return pitch_c_open(client, hold, levels);
}

/* Closes a client and frees what it has. A closed one stays closed. */
static inline void pitch_close(pitch_client *client) {
    if (client) pitch_c_close(client);
}

/* Hears the block at the start of the bytes: a datagram's, or a stream's next. */
static inline uint32_t pitch_hear(pitch_client *client, const uint8_t *bytes, size_t len,
                                  pitch_heard_out *told) {
    if (!client || !told || (!bytes && len)) return PITCH_NULL;
    /* No block has more bytes. */
    if (len > 65535) len = 65535;
    return pitch_c_hear(client, bytes ? bytes : (const uint8_t *)"", len, told);
}

/* Hears a block as pitch_hear does, and tells what each message that the book took changed of the
 * best prices: one quote where the best of a symbol on a side, or its shares, became another, in the
 * order of the messages and then of the symbols, to buy before to sell. The last one of a symbol and
 * side is its best. As many as fit in an array of `quotes_len`, and in `number` how many there are;
 * what is behind them in the array stays. An array of none may be null.
 *
 * The unit keeps price levels from its first such block with messages on; where it had none they are
 * made first. After PITCH_NO_MEMORY nothing was heard; it never comes for a heartbeat of a unit that
 * has a client. After PITCH_UNTOLD the block was heard and `told` is written, but not the quotes: ask
 * for the best prices that matter. */
static inline uint32_t pitch_hear_quoted(pitch_client *client, const uint8_t *bytes, size_t len,
                                         pitch_heard_out *told, pitch_quote_out *quotes,
                                         size_t quotes_len, uint64_t *number) {
    pitch_quote_out none;
    if (!client || !told || !number || (!bytes && len) || (!quotes && quotes_len)) return PITCH_NULL;
    if (len > 65535) len = 65535;
    if (quotes_len > PTRDIFF_MAX / sizeof none) quotes_len = PTRDIFF_MAX / sizeof none;
    return pitch_c_hear_quoted(client, bytes ? bytes : (const uint8_t *)"", len, told,
                               quotes ? quotes : &none, quotes_len, number);
}

/* Takes memory ahead for so many messages of a unit: pitch_hear then takes none for a block whose
 * messages, with those that are held, are no more. What other units hear or reserve takes nothing of
 * it, nor does a call that fails. A unit that no block named gets its client by a block without
 * messages and without a sequence, which tells it of nothing. More than the orders that a book can
 * have is PITCH_NO_MEMORY. In a client that was opened with price levels, those that went for want
 * of memory are made anew from the open orders, which takes some microseconds for each. */
static inline uint32_t pitch_reserve(pitch_client *client, uint32_t unit, uint32_t messages) {
    const uint8_t silent[8] = { 8, 0, 0, (uint8_t)unit, 0, 0, 0, 0 };
    pitch_heard_out told;
    uint32_t code;
    if (!client) return PITCH_NULL;
    code = pitch_c_reserve(client, unit, messages);
    if (code != PITCH_NO_CLIENT || unit > 255) return code;
    code = pitch_c_hear(client, silent, sizeof silent, &told);
    return code == PITCH_OK ? pitch_c_reserve(client, unit, messages) : code;
}

/* How far the client of a unit is. */
static inline uint32_t pitch_status(pitch_client *client, uint32_t unit, pitch_status_out *told) {
    if (!client || !told) return PITCH_NULL;
    return pitch_c_status(client, unit, told);
}

/* The best price of a symbol, of eight bytes with spaces at its end, on a side, 'B' or 'S', in a
 * unit's book. It is looked up where levels are kept, unless memory for those of the unit ran out.
 * Otherwise it goes through all open orders of the unit. */
static inline uint32_t pitch_best(pitch_client *client, uint32_t unit, const uint8_t symbol[8],
                                  uint8_t side, pitch_best_out *told) {
    if (!client || !symbol || !told) return PITCH_NULL;
    return pitch_c_best(client, unit, symbol, side, told);
}

/* The open order of an id in a unit's book. */
static inline uint32_t pitch_order(pitch_client *client, uint32_t unit, uint64_t id,
                                   pitch_order_out *told) {
    if (!client || !told) return PITCH_NULL;
    return pitch_c_order(client, unit, id, told);
}

/* The open orders of a unit by rising id: as many as fit in an array of `len`, and in `number` how
 * many there are. What is behind them in the array stays. An array of none may be null. */
static inline uint32_t pitch_orders(pitch_client *client, uint32_t unit, pitch_order_out *told,
                                    size_t len, uint64_t *number) {
    pitch_order_out none;
    if (!client || !number || (!told && len)) return PITCH_NULL;
    if (len > PTRDIFF_MAX / sizeof none) len = PTRDIFF_MAX / sizeof none;
    return pitch_c_orders(client, unit, told ? told : &none, len, number);
}

/* The trading statuses of a unit by rising bytes of their symbols, likewise. */
static inline uint32_t pitch_states(pitch_client *client, uint32_t unit, pitch_state_out *told,
                                    size_t len, uint64_t *number) {
    pitch_state_out none;
    if (!client || !number || (!told && len)) return PITCH_NULL;
    if (len > PTRDIFF_MAX / sizeof none) len = PTRDIFF_MAX / sizeof none;
    return pitch_c_states(client, unit, told ? told : &none, len, number);
}

/* The levels of a symbol on a side, the best first, likewise. Where levels are kept this takes the
 * time of what is written; otherwise they are made anew from all open orders of the unit. */
static inline uint32_t pitch_levels(pitch_client *client, uint32_t unit, const uint8_t symbol[8],
                                    uint8_t side, pitch_level_out *told, size_t len,
                                    uint64_t *number) {
    pitch_level_out none;
    if (!client || !symbol || !number || (!told && len)) return PITCH_NULL;
    if (len > PTRDIFF_MAX / sizeof none) len = PTRDIFF_MAX / sizeof none;
    return pitch_c_levels(client, unit, symbol, side, told ? told : &none, len, number);
}

/* The shares at a price, in ten-thousandths of a dollar: 0 where no order is open there. It is looked
 * up as pitch_best is. */
static inline uint32_t pitch_level(pitch_client *client, uint32_t unit, const uint8_t symbol[8],
                                   uint8_t side, uint64_t price, pitch_level_out *told) {
    if (!client || !symbol || !told) return PITCH_NULL;
    return pitch_c_level(client, unit, symbol, side, price, told);
}

/* A word for a pitch_state. */
static inline const char *pitch_state_word(uint32_t state) {
    return state == PITCH_SILENT    ? "silent"
           : state == PITCH_CURRENT ? "current"
           : state == PITCH_BEHIND  ? "behind"
                                    : "unknown";
}

static inline const char *pitch_strerror(uint32_t code) {
    static const char *const words[] = {
        "ok", "the client is closed", "the client is open already", "out of memory",
        "the hold is not from 1 to 65536", "truncated", "not a block", "no such unit", "no such side",
        "a null pointer", "the library is of another header",
        "the unit is not from 1 to 255", "no such session", "heard, with no memory to tell quotes",
    };
    return code < sizeof words / sizeof words[0] ? words[code] : "unknown code";
}

#ifdef __cplusplus
}
#define PITCH_ASSERT_SIZE(name, size) static_assert(sizeof(name) == size, #name)
#else
#define PITCH_ASSERT_SIZE(name, size) _Static_assert(sizeof(name) == size, #name)
#endif
PITCH_ASSERT_SIZE(pitch_client, 16);
PITCH_ASSERT_SIZE(pitch_status_out, 32);
PITCH_ASSERT_SIZE(pitch_best_out, 64);
PITCH_ASSERT_SIZE(pitch_order_out, 64);
PITCH_ASSERT_SIZE(pitch_state_out, 32);
PITCH_ASSERT_SIZE(pitch_level_out, 32);
PITCH_ASSERT_SIZE(pitch_quote_out, 64);
PITCH_ASSERT_SIZE(pitch_heard_out, 64);

#endif
