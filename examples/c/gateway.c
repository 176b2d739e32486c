/* A gateway from C: two members log in, one sells seats to the other, who pays the house a fee for each, a checkpoint is taken and restored, and
 * both gateways have the same wallets. */
#include "rowanchess.h"
#include "words.h"

#include <stdio.h>
#include <stdlib.h>

enum { BUYER = 0, SELLER = 1, MEMBERS = 2, PLACES = 256, LIMIT = 16, FEE = 10 };

static const uint64_t second = 1000000000;

static uint8_t first[ROWANCHESS_STATE], again[ROWANCHESS_STATE];
static uint8_t out[PLACES * ROWANCHESS_MAIL], saved[ROWANCHESS_CHECKPOINT];
static uint8_t row[ROWANCHESS_MESSAGE], accounts[MEMBERS * ROWANCHESS_ACCOUNT];

static void want(const char *call, uint64_t code) {
    if (code == ROWANCHESS_DONE) return;
    fprintf(stderr, "%s: refused with %d\n", call, (int)code);
    exit(1);
}

/* Says what mail a call sent. */
static void tell(const char *call, struct rowanchess_reply reply) {
    want(call, reply.code);
    for (size_t i = 0; i < reply.count; i++) {
        const uint8_t *mail = out + i * ROWANCHESS_MAIL;
        printf("%s: to session %d, kind %d", call, (int)word(mail, 0), (int)word(mail, 1));
        if (word(mail, 1) == ROWANCHESS_MAIL_REPORT) printf(", order %d, report %d", (int)word(mail, 3), (int)word(mail, 5));
        printf("\n");
    }
}

static void receive(const char *call, size_t session) {
    tell(call, rowanchess_receive(first, sizeof first, session, row, sizeof row, second, out, sizeof out));
}

static void deliver(const char *call, uint64_t number) {
    tell(call, rowanchess_deliver(first, sizeof first, number, row, sizeof row, out, sizeof out));
}

static void print_wallets(const char *which, const uint8_t *m) {
    for (uint32_t account = 0; account < MEMBERS; account++) {
        struct rowanchess_wallet w = rowanchess_wallet(m, ROWANCHESS_STATE, account);
        printf("%s, account %d: cash %d (held %d), seats %d (held %d)\n", which, (int)account, (int)w.cash, (int)w.cash_held, (int)w.position,
               (int)w.position_held);
    }
}

int main(void) {
    ROW(accounts, BUYER, 11, 10, 100, 1, 5000, 0);
    ROW(accounts + ROWANCHESS_ACCOUNT, SELLER, 22, 10, 100, 1, 0, 40);
    want("set-up", rowanchess_set_up(first, sizeof first, FEE, LIMIT, 0, second, 5 * second, accounts, sizeof accounts, row, 0)); /* an empty book */
    for (size_t member = 0; member < MEMBERS; member++) {
        want("connect", rowanchess_connect(first, sizeof first, member, second));
        ROW(row, ROWANCHESS_MESSAGE_LOGIN, 1, member, member == BUYER ? 11 : 22);
        receive("login", member);
    }
    /* the seller offers 4 seats at 250, the buyer takes 3 of them: orders 1 and 2 */
    ROW(row, ROWANCHESS_MESSAGE_NEW_ORDER, 901, ROWANCHESS_SELL, 4, ROWANCHESS_ORDER_LIMIT, 250, ROWANCHESS_GTC, 0, 0);
    receive("sell 4 at 250", SELLER);
    ROW(row, ROWANCHESS_MESSAGE_NEW_ORDER, 902, ROWANCHESS_BUY, 3, ROWANCHESS_ORDER_LIMIT, 250, ROWANCHESS_GTC, 0, 0);
    receive("buy 3 at 250", BUYER);
    struct rowanchess_reply batch = rowanchess_take_batch(first, sizeof first, out, sizeof out);
    want("take_batch", batch.code);
    printf("take_batch: %d commands\n", (int)batch.count);
    /* what the engine made of them */
    ROW(row, ROWANCHESS_EVENT_ACCEPTED, 1);
    deliver("accepted", 1);
    ROW(row, ROWANCHESS_EVENT_RESTED, 1, ROWANCHESS_SELL, 250, 4, 4);
    deliver("rested", 1);
    ROW(row, ROWANCHESS_EVENT_ACCEPTED, 2);
    deliver("accepted", 2);
    ROW(row, ROWANCHESS_EVENT_TRADE, 1, 2, 1, ROWANCHESS_BUY, 250, 3, 0, 1);
    deliver("trade", 2);
    tell("publish", rowanchess_publish(first, sizeof first, out, sizeof out));
    struct rowanchess_reply bytes = rowanchess_checkpoint(first, sizeof first, saved, sizeof saved);
    want("checkpoint", bytes.code);
    printf("checkpoint: %d bytes\n", (int)bytes.count);
    want("restore", rowanchess_restore(again, sizeof again, FEE, LIMIT, second, 5 * second, accounts, sizeof accounts, saved, bytes.count));
    print_wallets("first gateway", first);
    print_wallets("restored", again);
    return 0;
}
