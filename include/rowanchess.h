/* Rowanchess: the gateway of a seat exchange, proved. The entry points of libedge.a (crates/edge_c), which `tools/archive edge` makes.
 *
 * The caller lends all memory: a slice is an address, never null, and a length in bytes. No byte that a call writes is in two of its slices. `m`
 * is the state, ROWANCHESS_STATE bytes that rowanchess_set_up or rowanchess_restore made. Each call wants it as the last call left it: nobody else
 * writes it, also not while the call runs. Any address will do; at a multiple of 128 an order's row is two lines of the cache, and calls are
 * faster.
 *
 * A call answers a code: 0, or a refusal, and then no byte of the state or of an output has changed. Values are rows of words: a word is 8 bytes,
 * little-endian, word i at byte 8 * i. A signed number is its two's complement, an optional value a flag (0 or 1) and the value, and a side, a
 * reason and the like its code below. A row's other words may be anything on the way in, and are 0 on the way out. */
#ifndef ROWANCHESS_H
#define ROWANCHESS_H

#include <stddef.h>
#include <stdint.h>

/* ---- sizes, in bytes */

#define ROWANCHESS_STATE 467592
#define ROWANCHESS_CHECKPOINT 43033 /* the longest */
#define ROWANCHESS_MESSAGE 128
#define ROWANCHESS_EVENT 128
#define ROWANCHESS_MAIL 96
#define ROWANCHESS_COMMAND 96
#define ROWANCHESS_ACCOUNT 56
#define ROWANCHESS_LISTED 64
#define ROWANCHESS_LEVEL 24

/* ---- limits, and the most rows that a call writes */

#define ROWANCHESS_OWNERS 256    /* the greatest owner limit: accounts are below it */
#define ROWANCHESS_SESSIONS 64   /* sessions are below it */
#define ROWANCHESS_ORDERS 1024   /* live orders */
#define ROWANCHESS_LEVELS 512    /* price levels of a side: rowanchess_levels */
#define ROWANCHESS_BATCH 256     /* commands that wait: rowanchess_take_batch */
#define ROWANCHESS_PUBLISH 83968 /* rowanchess_publish: 2,048 balances; to 64 sessions 256 trades and 1,024 levels */
#define ROWANCHESS_RECEIVE 84993 /* rowanchess_receive: a subscription publishes first; a snapshot and 1,024 levels */
#define ROWANCHESS_TICK 128      /* rowanchess_tick, rowanchess_shut_down: 2 a session */
#define ROWANCHESS_DELIVER 64    /* rowanchess_deliver: a phase change, to each session; at most 2 for any other event */
#define ROWANCHESS_END 2         /* rowanchess_end */

/* ---- refusals. Where several apply, the first that documents 01 and 02 name for the call is answered. */

enum rowanchess_refusal {
    ROWANCHESS_DONE = 0,
    ROWANCHESS_ACCOUNT_OUT_OF_RANGE = 1,
    ROWANCHESS_FOREIGN_ORDER = 2,
    ROWANCHESS_ACCOUNT_EXISTS = 3,
    ROWANCHESS_SEQUENCE = 4,
    ROWANCHESS_FULL = 5,
    ROWANCHESS_OUTPUT_TOO_SHORT = 6,
    ROWANCHESS_OUTSIDE_TYPE = 7,
    ROWANCHESS_INCONSISTENT = 8,
    ROWANCHESS_SESSION = 9,
    ROWANCHESS_NOT_QUIET = 10,
    ROWANCHESS_MALFORMED = 11, /* also a row, a length or a number that is none */
    ROWANCHESS_LIVE_ORDERS = 12,
    ROWANCHESS_NEGATIVE_FEE = 15
};

/* ---- codes of values */

enum rowanchess_side { ROWANCHESS_BUY = 0, ROWANCHESS_SELL = 1 };

enum rowanchess_time_in_force { ROWANCHESS_GTC = 0, ROWANCHESS_IOC = 1, ROWANCHESS_FOK = 2, ROWANCHESS_POST_ONLY = 3 };

enum rowanchess_phase { ROWANCHESS_CONTINUOUS = 0, ROWANCHESS_AUCTION = 1, ROWANCHESS_HALTED = 2, ROWANCHESS_CLOSED = 3 };

enum rowanchess_login_error {
    ROWANCHESS_LOGIN_UNSUPPORTED_VERSION = 1,
    ROWANCHESS_LOGIN_BAD_CREDENTIALS = 2,
    ROWANCHESS_LOGIN_ALREADY_LOGGED_IN = 3,
    ROWANCHESS_LOGIN_ALREADY_IN_SESSION = 4
};

enum rowanchess_logout_reason {
    ROWANCHESS_LOGOUT_REQUESTED = 1,
    ROWANCHESS_LOGOUT_IDLE = 2,
    ROWANCHESS_LOGOUT_PROTOCOL_ERROR = 3,
    ROWANCHESS_LOGOUT_SLOW_CONSUMER = 4,
    ROWANCHESS_LOGOUT_SHUTDOWN = 5
};

/* why the gateway refused a member's message */
enum rowanchess_reject_code {
    ROWANCHESS_REJECT_TOO_MANY_ORDERS = 1,
    ROWANCHESS_REJECT_THROTTLED = 2,
    ROWANCHESS_REJECT_UNAVAILABLE = 3,
    ROWANCHESS_REJECT_INSUFFICIENT_FUNDS = 4,
    ROWANCHESS_REJECT_NOT_ALLOWED = 5,
    ROWANCHESS_REJECT_OFF_MARKET = 6
};

/* why the engine refused a command */
enum rowanchess_reject_reason {
    ROWANCHESS_REASON_INVALID_QUANTITY = 1,
    ROWANCHESS_REASON_PRICE_OUT_OF_RANGE = 2,
    ROWANCHESS_REASON_PRICE_OUTSIDE_PROTECTION = 3,
    ROWANCHESS_REASON_DUPLICATE_ORDER_ID = 4,
    ROWANCHESS_REASON_UNKNOWN_ORDER = 5,
    ROWANCHESS_REASON_BOOK_FULL = 6,
    ROWANCHESS_REASON_INVALID_OWNER = 7,
    ROWANCHESS_REASON_POST_ONLY_WOULD_CROSS = 8,
    ROWANCHESS_REASON_INVALID_DISPLAY = 9,
    ROWANCHESS_REASON_PRICE_OUTSIDE_BAND = 10,
    ROWANCHESS_REASON_STOP_WOULD_TRIGGER = 11,
    ROWANCHESS_REASON_PENDING_STOP = 12,
    ROWANCHESS_REASON_AUCTION_CALL = 13,
    ROWANCHESS_REASON_TRADING_HALTED = 14,
    ROWANCHESS_REASON_MARKET_CLOSED = 15
};

/* why open quantity left the book without trading */
enum rowanchess_cancel_reason {
    ROWANCHESS_CANCEL_REQUESTED = 1,
    ROWANCHESS_CANCEL_NO_LIQUIDITY = 2,
    ROWANCHESS_CANCEL_PRICE_PROTECTION = 3,
    ROWANCHESS_CANCEL_SELF_TRADE = 4,
    ROWANCHESS_CANCEL_MASS_CANCEL = 5,
    ROWANCHESS_CANCEL_IMMEDIATE_OR_CANCEL = 6,
    ROWANCHESS_CANCEL_FILL_OR_KILL = 7,
    ROWANCHESS_CANCEL_PRICE_BAND = 8,
    ROWANCHESS_CANCEL_TRADING_PHASE = 9
};

/* ---- a message of a member. Word 0 is its kind; the words behind it: */

enum rowanchess_message {
    ROWANCHESS_MESSAGE_LOGIN = 0,       /* 1 version (1), 2 account, 3 token */
    ROWANCHESS_MESSAGE_LOGOUT = 1,      /* none */
    ROWANCHESS_MESSAGE_HEARTBEAT = 2,   /* none */
    ROWANCHESS_MESSAGE_NEW_ORDER = 3,   /* 1 client reference, 2 side, 3 quantity, 4 order kind, and its words */
    ROWANCHESS_MESSAGE_CANCEL = 4,      /* 1 order */
    ROWANCHESS_MESSAGE_MODIFY = 5,      /* 1 order, 2 price, 3 total quantity */
    ROWANCHESS_MESSAGE_MASS_CANCEL = 6, /* none */
    ROWANCHESS_MESSAGE_SUBSCRIBE = 7    /* none */
};

enum rowanchess_order_kind {
    ROWANCHESS_ORDER_LIMIT = 0,  /* 5 price, 6 time in force, 7 and 8 optional display quantity */
    ROWANCHESS_ORDER_MARKET = 1, /* none */
    ROWANCHESS_ORDER_STOP = 2    /* 5 trigger, 6 and 7 optional limit price */
};

/* ---- an event of the engine. Word 0 is its kind; the words behind it: */

enum rowanchess_event {
    ROWANCHESS_EVENT_ACCEPTED = 0,       /* 1 order */
    ROWANCHESS_EVENT_REJECTED = 1,       /* 1 order, 2 reject reason */
    ROWANCHESS_EVENT_TRADE = 2,          /* 1 trade, 2 taker, 3 maker, 4 taker's side, 5 price, 6 quantity, 7 taker's open quantity, 8 maker's */
    ROWANCHESS_EVENT_RESTED = 3,         /* 1 order, 2 side, 3 price, 4 open quantity, 5 visible quantity */
    ROWANCHESS_EVENT_REPLENISHED = 4,    /* 1 order, 2 side, 3 price, 4 visible quantity */
    ROWANCHESS_EVENT_CANCELLED = 5,      /* 1 order, 2 quantity, 3 cancel reason */
    ROWANCHESS_EVENT_MODIFIED = 6,       /* 1 order, 2 price, 3 total quantity, 4 open quantity */
    ROWANCHESS_EVENT_STOP_PLACED = 7,    /* 1 order, 2 side, 3 trigger, 4 and 5 optional limit price, 6 quantity */
    ROWANCHESS_EVENT_TRIGGERED = 8,      /* 1 order */
    ROWANCHESS_EVENT_MASS_CANCELLED = 9, /* 1 owner, 2 how many */
    ROWANCHESS_EVENT_PHASE_CHANGED = 10  /* 1 phase */
};

/* ---- a command to the engine. Word 0 is its kind, 2 its owner; a new order's number is its command's. The words behind the kind: */

enum rowanchess_command {
    ROWANCHESS_COMMAND_LIMIT = 0,      /* 1 order, 2 owner, 3 side, 4 price, 5 quantity, 6 time in force, 7 and 8 optional display quantity */
    ROWANCHESS_COMMAND_MARKET = 1,     /* 1 order, 2 owner, 3 side, 5 quantity */
    ROWANCHESS_COMMAND_CANCEL = 2,     /* 1 order, 2 owner */
    ROWANCHESS_COMMAND_MODIFY = 3,     /* 1 order, 2 owner, 4 price, 5 total quantity */
    ROWANCHESS_COMMAND_STOP = 4,       /* 1 order, 2 owner, 3 side, 5 quantity, 9 trigger, 10 and 11 optional limit price */
    ROWANCHESS_COMMAND_CANCEL_ALL = 5, /* 2 owner */
    ROWANCHESS_COMMAND_SET_PHASE = 6   /* 2 any number of 32 bits, 3 phase; only in a replay */
};

/* ---- mail. Word 0 is the session, 1 the kind; the words behind them: */

enum rowanchess_mail {
    ROWANCHESS_MAIL_CLOSE = 0,          /* none: close the session once what was sent to it is written */
    ROWANCHESS_MAIL_LOGIN_ACCEPTED = 1, /* 2 account, 3 last number */
    ROWANCHESS_MAIL_LOGIN_REJECTED = 2, /* 2 login error */
    ROWANCHESS_MAIL_HEARTBEAT = 3,      /* none */
    ROWANCHESS_MAIL_LOGOUT = 4,         /* 2 logout reason */
    ROWANCHESS_MAIL_REJECT = 5,         /* 2 reject code, 3 client reference or 0 */
    ROWANCHESS_MAIL_REPORT = 6,         /* 2 command's number, 3 order or 0, 4 client reference or 0, 5 report kind, and its words */
    ROWANCHESS_MAIL_BOOK_SNAPSHOT = 7,  /* 2 number, 3 how many level updates follow */
    ROWANCHESS_MAIL_LEVEL_UPDATE = 8,   /* 2 number, 3 side, 4 price, 5 quantity, 6 orders; 0 orders: the level is gone */
    ROWANCHESS_MAIL_TRADE_TICK = 9,     /* 2 number, 3 trade, 4 taker's side, 5 price, 6 quantity */
    ROWANCHESS_MAIL_BALANCE = 10        /* 2 cash, 3 position, 4 cash held, 5 position held */
};

enum rowanchess_report {
    ROWANCHESS_REPORT_ACCEPTED = 0,       /* none */
    ROWANCHESS_REPORT_REJECTED = 1,       /* 6 reject reason */
    ROWANCHESS_REPORT_FILL = 2,           /* 6 trade, 7 side, 8 price, 9 quantity, 10 open quantity */
    ROWANCHESS_REPORT_RESTED = 3,         /* 6 side, 7 price, 8 open quantity, 9 visible quantity */
    ROWANCHESS_REPORT_REPLENISHED = 4,    /* 6 side, 7 price, 8 visible quantity */
    ROWANCHESS_REPORT_CANCELLED = 5,      /* 6 quantity, 7 cancel reason */
    ROWANCHESS_REPORT_MODIFIED = 6,       /* 6 price, 7 total quantity, 8 open quantity */
    ROWANCHESS_REPORT_STOP_PLACED = 7,    /* 6 side, 7 trigger, 8 and 9 optional limit price, 10 quantity */
    ROWANCHESS_REPORT_TRIGGERED = 8,      /* none */
    ROWANCHESS_REPORT_MASS_CANCELLED = 9, /* 6 how many */
    ROWANCHESS_REPORT_PHASE_CHANGED = 10  /* 6 phase */
};

/* ---- the other rows
 *
 * An account: 0 account, 1 token, 2 most open orders, 3 messages a second, 4 whether it has a wallet, and then 5 cash, 6 position.
 * A level: 0 price, 1 quantity that shows, 2 how many orders. */

/* A book listing has a row for each order and stop on the book, in any order. Word 0 is the kind; the words behind it: */
enum rowanchess_listed {
    ROWANCHESS_LISTED_ORDER = 0, /* 1 order, 2 owner, 3 side, 4 any flag, 5 price, 6 open quantity, 7 visible quantity */
    ROWANCHESS_LISTED_STOP = 1   /* 1 order, 2 owner, 3 side, 4 and 5 optional limit price, 6 quantity */
};

/* ---- answers */

/* `count` is how many rows (of a checkpoint: bytes) were written at the front of the output. */
struct rowanchess_reply {
    uint64_t code;
    size_t count;
};

struct rowanchess_number {
    uint64_t code;
    uint64_t number;
};

/* `there` is 1 where there is an account, else 0. */
struct rowanchess_account {
    uint64_t code;
    uint64_t there;
    uint64_t account;
};

/* `there` is 1 where there is a wallet, else 0. */
struct rowanchess_wallet {
    uint64_t code;
    uint64_t there;
    int64_t cash;
    int64_t position;
    int64_t cash_held;
    int64_t position_held;
};

#ifdef __cplusplus
extern "C" {
#endif

/* ---- the start */

/* Makes `m` the state of a gateway with the rows of `accounts`, whose book holds the rows of `list` after the command `last`. `fee`, not below 0,
 * is what a buyer with a wallet pays the house for each seat: a buy holds (price + fee) * open quantity, and a fill takes (trade price + fee) *
 * quantity. No price, level or report has it, nor does the collar see it. Times, here and below, are nanoseconds: silence after which a session is
 * sent a heartbeat, or logged out. Refused: 11 for a length or a row, 15, 5, 1, 2, 8, 7. */
uint64_t rowanchess_set_up(uint8_t *m, size_t len, int64_t fee, uint64_t limit, uint64_t last, uint64_t heartbeat, uint64_t idle_timeout,
                           const uint8_t *accounts, size_t accounts_len, const uint8_t *list, size_t list_len);

/* Makes `m` the state that a checkpoint's `bytes` saved; `fee` is not among them, and is to be the same as before. The record after it follows by
 * replays, then rowanchess_finish. Refused: 11 for a length or a row, 15, 11 for `bytes`, 5, 1, 2, 7. */
uint64_t rowanchess_restore(uint8_t *m, size_t len, int64_t fee, uint64_t limit, uint64_t heartbeat, uint64_t idle_timeout, const uint8_t *accounts,
                            size_t accounts_len, const uint8_t *bytes, size_t bytes_len);

/* ---- the state, read and set. Each refuses 11 where `len` is not ROWANCHESS_STATE or a row or number is none, as do all calls below. */

/* The number of the last command numbered. */
struct rowanchess_number rowanchess_last_seq(const uint8_t *m, size_t len);

/* An account's wallet, if it has one. */
struct rowanchess_wallet rowanchess_wallet(const uint8_t *m, size_t len, uint32_t account);

/* The price levels of a side, best first: rows of levels. Refused: 6. */
struct rowanchess_reply rowanchess_levels(const uint8_t *m, size_t len, uint64_t side, uint8_t *out, size_t out_len);

/* Keeps limit orders of accounts with wallets within `percent` of the market's price; `there` is 0 for no collar, else 1. */
uint64_t rowanchess_set_paper_collar(uint8_t *m, size_t len, uint64_t there, uint32_t percent);

/* An account joins, by its row. Refused: 1, 3, 12. */
uint64_t rowanchess_add_account(uint8_t *m, size_t len, const uint8_t *row, size_t row_len);

/* ---- sessions. What a call sends are rows of mail. */

/* A new connection. Refused: 9. */
uint64_t rowanchess_connect(uint8_t *m, size_t len, size_t session, uint64_t time);

/* A message from a session. Orders and cancels wait in the batch. Refused: 6. */
struct rowanchess_reply rowanchess_receive(uint8_t *m, size_t len, size_t session, const uint8_t *row, size_t row_len, uint64_t time, uint8_t *out,
                                           size_t out_len);

/* Sends heartbeats to quiet sessions and logs out idle ones. Refused: 6. */
struct rowanchess_reply rowanchess_tick(uint8_t *m, size_t len, uint64_t time, uint8_t *out, size_t out_len);

/* Sends balances that changed, and to subscribers the trades and levels, since the last publishing. Refused: 6. */
struct rowanchess_reply rowanchess_publish(uint8_t *m, size_t len, uint8_t *out, size_t out_len);

/* Ends a session; `why` is a logout reason. Refused: 6. */
struct rowanchess_reply rowanchess_end(uint8_t *m, size_t len, size_t session, uint8_t why, uint8_t *out, size_t out_len);

/* Ends every session: the engine takes no more commands. Refused: 6. */
struct rowanchess_reply rowanchess_shut_down(uint8_t *m, size_t len, uint8_t *out, size_t out_len);

/* A connection is closed, and a mass cancel of its account joins the batch. Refused: 5. */
uint64_t rowanchess_disconnect(uint8_t *m, size_t len, size_t session);

/* A connection is closed, and the orders stay. Answers the account that was logged in. */
struct rowanchess_account rowanchess_detach(uint8_t *m, size_t len, size_t session);

/* ---- the engine */

/* Hands over the commands that wait: rows of commands, numbered one by one up to the last number. Refused: 6. */
struct rowanchess_reply rowanchess_take_batch(uint8_t *m, size_t len, uint8_t *out, size_t out_len);

/* An event of the command `n`: sends reports. Numbers do not fall. Refused: 4, 1, 8, 7, 5, 6. */
struct rowanchess_reply rowanchess_deliver(uint8_t *m, size_t len, uint64_t n, const uint8_t *row, size_t row_len, uint8_t *out, size_t out_len);

/* ---- restarting */

/* The bytes of a checkpoint, once every command is answered. Refused: 10, 6. */
struct rowanchess_reply rowanchess_checkpoint(const uint8_t *m, size_t len, uint8_t *out, size_t out_len);

/* The command `n` of the record after the checkpoint. Refused: 4, 8, 1, 5, 7. */
uint64_t rowanchess_replay_command(uint8_t *m, size_t len, uint64_t n, const uint8_t *row, size_t row_len);

/* An event of the command `n`, from the record. Refused: 4, 1, 8, 7. */
uint64_t rowanchess_replay_event(uint8_t *m, size_t len, uint64_t n, const uint8_t *row, size_t row_len);

/* Ends a restart: the live orders must be those of the listing, whose orders become the depth. Refused: 8, 5, 7. */
uint64_t rowanchess_finish(uint8_t *m, size_t len, const uint8_t *list, size_t list_len);

/* Where the order section of a checkpoint's bytes starts; it goes to their end. The end itself where they are no checkpoint. */
size_t rowanchess_order_section(const uint8_t *bytes, size_t len);

#ifdef __cplusplus
}
#endif

#endif
