/* The order of arguments and of an answer's fields is in no contract. This calls each of the 22 entry points with values that tell any two of them
 * apart, and compares all that comes back with what document 01 says. */
#include "rowanchess.h"
#include "words.h"

#include <stdio.h>
#include <stdlib.h>

enum { PAPER = 3, PLAIN = 4, JOINED = 12, LIMIT = 13, FEE = 7, HEARTBEAT = 1000, IDLE = 3000, LAST = 100, MAIL_WORDS = 12, LEVEL_WORDS = 3 };

static uint8_t first[ROWANCHESS_STATE], again[ROWANCHESS_STATE];
static uint8_t out[64 * ROWANCHESS_MAIL], saved[ROWANCHESS_CHECKPOINT];
static uint8_t row[ROWANCHESS_MESSAGE], accounts[2 * ROWANCHESS_ACCOUNT], joined[ROWANCHESS_ACCOUNT], list[6 * ROWANCHESS_LISTED];
static int compared;

static void same(const char *call, const char *what, uint64_t is, uint64_t wanted) {
    compared++;
    if (is == wanted) return;
    fprintf(stderr, "%s, %s: %lld, not %lld\n", call, what, (long long)is, (long long)wanted);
    exit(1);
}

/* The rows at the front of `out`, and their number. */
static void rows(const char *call, struct rowanchess_reply reply, size_t width, const uint64_t *wanted, size_t count) {
    same(call, "code", reply.code, ROWANCHESS_DONE);
    same(call, "count", reply.count, count);
    for (size_t i = 0; i < width * count; i++) same(call, "a word", word(out, i), wanted[i]);
}

#define ROWS(call, reply, width, ...) \
    rows(call, reply, width, &((const uint64_t[][width]){__VA_ARGS__})[0][0], sizeof((const uint64_t[][width]){__VA_ARGS__}) / (8 * width))
#define MAIL(call, reply, ...) ROWS(call, reply, MAIL_WORDS, __VA_ARGS__)

static void reply_is(const char *call, struct rowanchess_reply reply, uint64_t code, size_t count) {
    same(call, "code", reply.code, code);
    same(call, "count", reply.count, count);
}

static void number_is(const uint8_t *m, uint64_t number) {
    struct rowanchess_number n = rowanchess_last_seq(m, ROWANCHESS_STATE);
    same("last_seq", "code", n.code, ROWANCHESS_DONE);
    same("last_seq", "number", n.number, number);
}

static void wallet_is(const uint8_t *m, uint32_t account, uint64_t there, int64_t cash, int64_t position, int64_t cash_held, int64_t position_held) {
    struct rowanchess_wallet w = rowanchess_wallet(m, ROWANCHESS_STATE, account);
    same("wallet", "code", w.code, ROWANCHESS_DONE);
    same("wallet", "there", w.there, there);
    same("wallet", "cash", (uint64_t)w.cash, (uint64_t)cash);
    same("wallet", "position", (uint64_t)w.position, (uint64_t)position);
    same("wallet", "cash held", (uint64_t)w.cash_held, (uint64_t)cash_held);
    same("wallet", "position held", (uint64_t)w.position_held, (uint64_t)position_held);
}

static void account_is(const char *call, struct rowanchess_account a, uint64_t there, uint64_t account) {
    same(call, "code", a.code, ROWANCHESS_DONE);
    same(call, "there", a.there, there);
    same(call, "account", a.account, account);
}

static struct rowanchess_reply receive(uint8_t *m, size_t session, uint64_t time) {
    return rowanchess_receive(m, ROWANCHESS_STATE, session, row, sizeof row, time, out, sizeof out);
}

static struct rowanchess_reply deliver(uint64_t n) { return rowanchess_deliver(first, sizeof first, n, row, sizeof row, out, sizeof out); }

static struct rowanchess_reply levels(const uint8_t *m, uint64_t side) { return rowanchess_levels(m, ROWANCHESS_STATE, side, out, sizeof out); }

/* Owner limit: account 13 is outside, account 12 is not. */
static void join(uint8_t *m) {
    ROW(joined, LIMIT, 1012, 5, 1, 1, 40, 30);
    same("add_account", "code", rowanchess_add_account(m, ROWANCHESS_STATE, joined, sizeof joined), ROWANCHESS_ACCOUNT_OUT_OF_RANGE);
    ROW(joined, JOINED, 1012, 5, 1, 1, 40, 30);
    same("add_account", "code", rowanchess_add_account(m, ROWANCHESS_STATE, joined, sizeof joined), ROWANCHESS_DONE);
    wallet_is(m, JOINED, 1, 40, 30, 0, 0);
}

static void start(void) {
    ROW(accounts, PAPER, 1003, 4, 50, 1, 100000, 700);
    ROW(accounts + ROWANCHESS_ACCOUNT, PLAIN, 1004, 9, 60, 0, 0, 0);
    ROW(list, ROWANCHESS_LISTED_ORDER, 90, PLAIN, ROWANCHESS_SELL, 1, 250, 8, 6);
    ROW(list + ROWANCHESS_LISTED, ROWANCHESS_LISTED_STOP, 91, PLAIN, ROWANCHESS_BUY, 1, 260, 5, 0);
    ROW(list + 2 * ROWANCHESS_LISTED, ROWANCHESS_LISTED_ORDER, 92, PAPER, ROWANCHESS_BUY, 1, 20, 3, 2);
    ROW(list + 3 * ROWANCHESS_LISTED, ROWANCHESS_LISTED_ORDER, 93, PAPER, ROWANCHESS_SELL, 1, 250, 4, 1);
    same("set_up", "code",
         rowanchess_set_up(first, sizeof first, FEE, LIMIT, LAST, HEARTBEAT, IDLE, accounts, sizeof accounts, list, 4 * ROWANCHESS_LISTED), 0);
    number_is(first, LAST);
    wallet_is(first, PAPER, 1, 100000, 700, 81, 4); /* (20 + 7) * 3 held */
    wallet_is(first, PLAIN, 0, 0, 0, 0, 0);
    ROWS("levels", levels(first, ROWANCHESS_BUY), LEVEL_WORDS, {20, 2, 1});
    ROWS("levels", levels(first, ROWANCHESS_SELL), LEVEL_WORDS, {250, 7, 2});
    reply_is("levels", rowanchess_levels(first, sizeof first, ROWANCHESS_SELL, out, 0), ROWANCHESS_OUTPUT_TOO_SHORT, 0);
    join(first);
}

static void sessions(void) {
    same("connect", "code", rowanchess_connect(first, sizeof first, 6, 99), ROWANCHESS_DONE);
    same("connect", "code", rowanchess_connect(first, sizeof first, 7, 98), ROWANCHESS_DONE);
    ROW(row, ROWANCHESS_MESSAGE_LOGIN, 1, PAPER, 1003);
    MAIL("receive", receive(first, 6, 110), {6, ROWANCHESS_MAIL_LOGIN_ACCEPTED, PAPER, LAST}, {6, ROWANCHESS_MAIL_BALANCE, 100000, 700, 81, 4},
         {6, ROWANCHESS_MAIL_REPORT, LAST, 92, 0, ROWANCHESS_REPORT_RESTED, ROWANCHESS_BUY, 20, 3, 3},
         {6, ROWANCHESS_MAIL_REPORT, LAST, 93, 0, ROWANCHESS_REPORT_RESTED, ROWANCHESS_SELL, 250, 4, 4});
    ROW(row, ROWANCHESS_MESSAGE_LOGIN, 1, PLAIN, 1004);
    same("receive", "count", receive(first, 7, 115).count, 3);
    ROW(row, ROWANCHESS_MESSAGE_SUBSCRIBE);
    MAIL("receive", receive(first, 7, 116), {7, ROWANCHESS_MAIL_BOOK_SNAPSHOT, LAST, 2}, {7, ROWANCHESS_MAIL_LEVEL_UPDATE, LAST, ROWANCHESS_BUY, 20, 2, 1},
         {7, ROWANCHESS_MAIL_LEVEL_UPDATE, LAST, ROWANCHESS_SELL, 250, 7, 2});
}

/* Orders 101 and 102; 101 trades with 90. */
static void trading(void) {
    ROW(row, ROWANCHESS_MESSAGE_NEW_ORDER, 555, ROWANCHESS_BUY, 9, ROWANCHESS_ORDER_LIMIT, 251, ROWANCHESS_IOC, 1, 5);
    reply_is("receive", receive(first, 6, 120), ROWANCHESS_DONE, 0);
    ROW(row, ROWANCHESS_MESSAGE_NEW_ORDER, 556, ROWANCHESS_SELL, 11, ROWANCHESS_ORDER_STOP, 240, 1, 239);
    reply_is("receive", receive(first, 7, 121), ROWANCHESS_DONE, 0);
    ROWS("take_batch", rowanchess_take_batch(first, sizeof first, out, sizeof out), MAIL_WORDS,
         {ROWANCHESS_COMMAND_LIMIT, 101, PAPER, ROWANCHESS_BUY, 251, 9, ROWANCHESS_IOC, 1, 5},
         {ROWANCHESS_COMMAND_STOP, 102, PLAIN, ROWANCHESS_SELL, 0, 11, 0, 0, 0, 240, 1, 239});
    ROW(row, ROWANCHESS_EVENT_TRADE, 33, 101, 90, ROWANCHESS_BUY, 250, 6, 3, 2);
    MAIL("deliver", deliver(101), {6, ROWANCHESS_MAIL_REPORT, 101, 101, 555, ROWANCHESS_REPORT_FILL, 33, ROWANCHESS_BUY, 250, 6, 3},
         {7, ROWANCHESS_MAIL_REPORT, 101, 90, 0, ROWANCHESS_REPORT_FILL, 33, ROWANCHESS_SELL, 250, 6, 2});
    wallet_is(first, PAPER, 1, 98458, 706, 855, 4); /* paid (250 + 7) * 6; 81 and (251 + 7) * 3 held */
    MAIL("publish", rowanchess_publish(first, sizeof first, out, sizeof out), {6, ROWANCHESS_MAIL_BALANCE, 98458, 706, 855, 4},
         {6, ROWANCHESS_MAIL_BALANCE, 98458, 706, 855, 4}, {6, ROWANCHESS_MAIL_BALANCE, 98458, 706, 855, 4},
         {7, ROWANCHESS_MAIL_TRADE_TICK, 101, 33, ROWANCHESS_BUY, 250, 6}, {7, ROWANCHESS_MAIL_LEVEL_UPDATE, 101, ROWANCHESS_SELL, 250, 1, 2});
    same("set_paper_collar", "code", rowanchess_set_paper_collar(first, sizeof first, 1, 20), ROWANCHESS_DONE);
    ROW(row, ROWANCHESS_MESSAGE_NEW_ORDER, 777, ROWANCHESS_BUY, 1, ROWANCHESS_ORDER_LIMIT, 301, ROWANCHESS_GTC, 0, 0);
    MAIL("receive", receive(first, 6, 130), {6, ROWANCHESS_MAIL_REJECT, ROWANCHESS_REJECT_OFF_MARKET, 777});
    same("set_paper_collar", "code", rowanchess_set_paper_collar(first, sizeof first, 0, 21), ROWANCHESS_DONE);
}

/* A session that was sent its last message at `sent` and heard at `heard`. */
static void silence(uint8_t *m, size_t session, uint64_t sent, uint64_t heard) {
    reply_is("tick", rowanchess_tick(m, ROWANCHESS_STATE, sent + HEARTBEAT - 1, out, sizeof out), ROWANCHESS_DONE, 0);
    MAIL("tick", rowanchess_tick(m, ROWANCHESS_STATE, sent + HEARTBEAT, out, sizeof out), {session, ROWANCHESS_MAIL_HEARTBEAT});
    MAIL("tick", rowanchess_tick(m, ROWANCHESS_STATE, heard + IDLE, out, sizeof out), {session, ROWANCHESS_MAIL_LOGOUT, ROWANCHESS_LOGOUT_IDLE},
         {session, ROWANCHESS_MAIL_CLOSE});
}

static void ends(void) {
    MAIL("end", rowanchess_end(first, sizeof first, 7, ROWANCHESS_LOGOUT_SLOW_CONSUMER, out, sizeof out),
         {7, ROWANCHESS_MAIL_LOGOUT, ROWANCHESS_LOGOUT_SLOW_CONSUMER}, {7, ROWANCHESS_MAIL_CLOSE});
    silence(first, 6, 130, 130);
    account_is("detach", rowanchess_detach(first, sizeof first, 6), 1, PAPER);
    same("disconnect", "code", rowanchess_disconnect(first, sizeof first, 7), ROWANCHESS_DONE);
    number_is(first, 103);
    same("connect", "code", rowanchess_connect(first, sizeof first, 8, 4000), ROWANCHESS_DONE);
    MAIL("shut_down", rowanchess_shut_down(first, sizeof first, out, sizeof out), {8, ROWANCHESS_MAIL_LOGOUT, ROWANCHESS_LOGOUT_SHUTDOWN},
         {8, ROWANCHESS_MAIL_CLOSE});
    account_is("detach", rowanchess_detach(first, sizeof first, 8), 0, 0);
}

static size_t checkpoint(void) {
    reply_is("checkpoint", rowanchess_checkpoint(first, sizeof first, saved, sizeof saved), ROWANCHESS_NOT_QUIET, 0);
    ROWS("take_batch", rowanchess_take_batch(first, sizeof first, out, sizeof out), MAIL_WORDS, {ROWANCHESS_COMMAND_CANCEL_ALL, 0, PLAIN});
    ROW(row, ROWANCHESS_EVENT_MASS_CANCELLED, PLAIN, 0);
    reply_is("deliver", deliver(103), ROWANCHESS_DONE, 0);
    struct rowanchess_reply bytes = rowanchess_checkpoint(first, sizeof first, saved, sizeof saved);
    reply_is("checkpoint", bytes, ROWANCHESS_DONE, 25 + 20 * 2 + 37 * 6);
    same("order_section", "start", rowanchess_order_section(saved, bytes.count), 25 + 20 * 2);
    return bytes.count;
}

static void restart(size_t count) {
    same("restore", "code", rowanchess_restore(again, sizeof again, FEE, LIMIT, HEARTBEAT, IDLE, accounts, sizeof accounts, saved, count), 0);
    number_is(again, 103);
    wallet_is(again, PAPER, 1, 98458, 706, 855, 4);
    join(again);
    ROW(row, ROWANCHESS_COMMAND_LIMIT, 104, PAPER, ROWANCHESS_BUY, 30, 2, ROWANCHESS_GTC, 0, 0);
    same("replay_command", "code", rowanchess_replay_command(again, sizeof again, 104, row, ROWANCHESS_COMMAND), ROWANCHESS_DONE);
    wallet_is(again, PAPER, 1, 98458, 706, 929, 4);
    ROW(row, ROWANCHESS_EVENT_CANCELLED, 104, 2, ROWANCHESS_CANCEL_REQUESTED);
    same("replay_event", "code", rowanchess_replay_event(again, sizeof again, 104, row, sizeof row), ROWANCHESS_DONE);
    wallet_is(again, PAPER, 1, 98458, 706, 855, 4);
    ROW(list, ROWANCHESS_LISTED_ORDER, 90, PLAIN, ROWANCHESS_SELL, 1, 250, 2, 1);
    ROW(list + 4 * ROWANCHESS_LISTED, ROWANCHESS_LISTED_ORDER, 101, PAPER, ROWANCHESS_BUY, 1, 251, 3, 3);
    ROW(list + 5 * ROWANCHESS_LISTED, ROWANCHESS_LISTED_STOP, 102, PLAIN, ROWANCHESS_SELL, 1, 239, 11, 0);
    same("finish", "code", rowanchess_finish(again, sizeof again, list, 5 * ROWANCHESS_LISTED), ROWANCHESS_INCONSISTENT);
    same("finish", "code", rowanchess_finish(again, sizeof again, list, sizeof list), ROWANCHESS_DONE);
    ROWS("levels", levels(again, ROWANCHESS_BUY), LEVEL_WORDS, {251, 3, 1}, {20, 2, 1});
    ROWS("levels", levels(again, ROWANCHESS_SELL), LEVEL_WORDS, {250, 2, 2});
    same("connect", "code", rowanchess_connect(again, sizeof again, 9, 5000), ROWANCHESS_DONE);
    ROW(row, ROWANCHESS_MESSAGE_LOGIN, 1, JOINED, 1012);
    MAIL("receive", receive(again, 9, 5010), {9, ROWANCHESS_MAIL_LOGIN_ACCEPTED, JOINED, 104}, {9, ROWANCHESS_MAIL_BALANCE, 40, 30, 0, 0});
    silence(again, 9, 5010, 5010);
}

int main(void) {
    start();
    sessions();
    trading();
    ends();
    restart(checkpoint());
    printf("the order of arguments and fields: %d values as they have to be\n", compared);
    return 0;
}
