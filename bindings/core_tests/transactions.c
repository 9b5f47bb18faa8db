/* Transactions on several channels: lists of steps, and those that get their channels as they go. */
#include "check.h"

static void check_enlisting(void) {
    void *txn = transaction(), *a = channel(QUEUE, 0), *b = channel(QUEUE, 0), *none = empty_place();
    void *recorded = recorded_channel(QUEUE, 0);
    CHECK_REJECTED(yalwythen_txn_enlist(txn, none), CORE_NOT_NOW);
    CHECK_REJECTED(yalwythen_txn_enlist(txn, recorded), CORE_NOT_NOW);
    CHECK_DONE(yalwythen_txn_enlist(txn, a), 0);
    CHECK_REJECTED(yalwythen_txn_enlist(txn, a), CORE_NOT_NOW);
    CHECK_REJECTED(write_to(a, 1), CORE_NOT_NOW);
    CHECK_DONE(yalwythen_txn_enlist(txn, b), 1);
    CHECK_REJECTED(yalwythen_txn_release(txn, 0, a), CORE_NOT_NOW);
    CHECK_REJECTED(yalwythen_txn_release(txn, 2, a), CORE_NOT_NOW);
    CHECK_REJECTED(yalwythen_txn_release(txn, 1, recorded), CORE_NOT_NOW);
    CHECK_DONE(yalwythen_txn_release(txn, 1, none), 0);
    CHECK_DONE(yalwythen_txn_release(txn, 0, a), 0);
    CHECK_REJECTED(yalwythen_txn_release(txn, 0, b), CORE_NOT_NOW);
    CHECK_REPLY(write_to(none, 1), REPLY_DONE, 0);
    end_transaction(txn);
    end_channel(a);
    end_channel(b);
    end_channel(none);
    end_channel(recorded);
}

static void check_alternatives(void) {
    void *txn = transaction(), *a = channel(QUEUE, 0), *b = channel(QUEUE, 0);
    core_result replies[8];
    const core_step put[] = {on(WRITE, 1, 40), on(WRITE, 1, 41)};
    const core_step merge[] = {on(EITHER, 0, 0), on(READ, 0, 0), on(OR, 0, 0),
                               on(READ, 1, 0),   on(END, 0, 0),  on(WRITE_LAST, 0, 0)};
    const core_step waits[] = {on(READ, 1, 0), on(READ, 1, 0)};
    const core_step unknown = on(READ, 2, 0);
    CHECK_DONE(yalwythen_txn_enlist(txn, a), 0);
    CHECK_DONE(yalwythen_txn_enlist(txn, b), 1);
    CHECK_DONE(yalwythen_txn_transact(txn, put, 2, replies, 8), 2);
    CHECK_DONE(yalwythen_txn_transact(txn, merge, 6, replies, 8), 2);
    CHECK_RESULT(replies[0], REPLY_GOT, 40);
    CHECK_RETRY(yalwythen_txn_transact(txn, waits, 2, replies, 8), CORE_EMPTY);
    CHECK_RESULT(yalwythen_txn_transact(txn, &unknown, 1, replies, 8), CORE_INVALID, 1);
    CHECK_REJECTED(yalwythen_txn_transact(txn, merge, 4, replies, 8), CORE_UNPAIRED);
    CHECK_DONE(yalwythen_txn_ask(txn, ASK_ACTS, 1, 0), 3);
    CHECK_DONE(yalwythen_txn_release(txn, 1, b), 0);
    CHECK_DONE(yalwythen_txn_release(txn, 0, a), 0);
    CHECK_REPLY(read_from(a, 0), REPLY_GOT, 40);
    CHECK_REPLY(read_from(b, 0), REPLY_GOT, 41);
    end_transaction(txn);
    end_channel(a);
    end_channel(b);
}

/* The second channel joins while the transaction is open, and after a savepoint. */
static void check_joining(void) {
    void *txn = transaction(), *a = channel(QUEUE, 0), *b = channel(QUEUE, 0);
    CHECK_REPLY(write_to(a, 41), REPLY_DONE, 0);
    CHECK_DONE(yalwythen_txn_ask(txn, ASK_BEGIN, 0, 0), 0);
    CHECK_REJECTED(yalwythen_txn_ask(txn, ASK_BEGIN, 0, 0), CORE_NOT_NOW);
    CHECK_DONE(yalwythen_txn_enlist(txn, a), 0);
    CHECK_REPLY(apply(txn, READ, 0, 0), REPLY_GOT, 41);
    CHECK_RESULT(apply(txn, READ, 1, 0), CORE_INVALID, 1);
    CHECK_REJECTED(yalwythen_txn_release(txn, 0, a), CORE_NOT_NOW);
    CHECK_DONE(yalwythen_txn_ask(txn, ASK_SAVEPOINT, 0, 0), 1);
    CHECK_DONE(yalwythen_txn_enlist(txn, b), 1);
    CHECK_REPLY(apply(txn, WRITE, 1, 90), REPLY_DONE, 0);
    CHECK_REPLY(apply(txn, WRITE, 1, 91), REPLY_DONE, 0);
    CHECK_DONE(yalwythen_txn_ask(txn, ASK_UNREAD, 1, 0), 2);
    CHECK_DONE(yalwythen_txn_ask(txn, ASK_ROLL_BACK_TO, 0, 0), 0);
    CHECK_DONE(yalwythen_txn_ask(txn, ASK_UNREAD, 1, 0), 0);
    CHECK_REPLY(apply(txn, WRITE_LAST, 1, 0), REPLY_DONE, 0);
    CHECK_DONE(yalwythen_txn_ask(txn, ASK_COMMIT, 0, 0), 2);
    CHECK_RESULT(yalwythen_txn_ask(txn, ASK_REPLY, 0, 0), REPLY_GOT, 41);
    CHECK_DONE(yalwythen_txn_release(txn, 1, b), 0);
    CHECK_DONE(yalwythen_txn_release(txn, 0, a), 0);
    CHECK_RETRY(read_from(a, 0), CORE_EMPTY);
    CHECK_REPLY(read_from(b, 0), REPLY_GOT, 41);
    end_transaction(txn);
    end_channel(a);
    end_channel(b);
}

/* A roll-back as a whole, after a roll-back to a savepoint and after a retry. */
static void check_rolling_back(void) {
    void *txn = transaction(), *a = channel(QUEUE, 0);
    CHECK_DONE(yalwythen_txn_ask(txn, ASK_BEGIN, 0, 0), 0);
    CHECK_DONE(yalwythen_txn_enlist(txn, a), 0);
    CHECK_REPLY(apply(txn, WRITE, 0, 1), REPLY_DONE, 0);
    CHECK_DONE(yalwythen_txn_ask(txn, ASK_SAVEPOINT, 0, 0), 1);
    CHECK_REPLY(apply(txn, WRITE, 0, 2), REPLY_DONE, 0);
    CHECK_DONE(yalwythen_txn_ask(txn, ASK_SAVEPOINT, 0, 0), 2);
    CHECK_REPLY(apply(txn, WRITE, 0, 3), REPLY_DONE, 0);
    CHECK_DONE(yalwythen_txn_ask(txn, ASK_ROLL_BACK_TO, 0, 0), 1);
    CHECK_DONE(yalwythen_txn_ask(txn, ASK_UNREAD, 0, 0), 2);
    CHECK_DONE(yalwythen_txn_ask(txn, ASK_ROLL_BACK_TO, 0, 0), 0);
    CHECK_REJECTED(yalwythen_txn_ask(txn, ASK_ROLL_BACK_TO, 0, 0), CORE_NOT_NOW);
    CHECK_DONE(yalwythen_txn_ask(txn, ASK_UNREAD, 0, 0), 1);
    CHECK_DONE(yalwythen_txn_ask(txn, ASK_ROLL_BACK, 0, 0), 0);
    CHECK_DONE(yalwythen_txn_ask(txn, ASK_UNREAD, 0, 0), 0);
    CHECK_DONE(yalwythen_txn_ask(txn, ASK_BEGIN, 0, 0), 0);
    CHECK_REPLY(apply(txn, WRITE, 0, 4), REPLY_DONE, 0);
    CHECK_REPLY(apply(txn, READ, 0, 0), REPLY_GOT, 4);
    CHECK_RETRY(apply(txn, READ, 0, 0), CORE_EMPTY);
    CHECK_REJECTED(yalwythen_txn_ask(txn, ASK_COMMIT, 0, 0), CORE_NOT_NOW);
    CHECK_DONE(yalwythen_txn_ask(txn, ASK_ROLL_BACK, 0, 0), 0);
    CHECK_DONE(yalwythen_txn_release(txn, 0, a), 0);
    CHECK_DONE(yalwythen_channel_tell(a, TELL_ACTS, 0), 0);
    end_transaction(txn);
    end_channel(a);
}

/* What is committed after a roll-back to a savepoint can no longer be undone. */
static void check_settling(void) {
    void *txn = transaction(), *a = channel(QUEUE, 0), *b = channel(QUEUE, 0);
    CHECK_DONE(yalwythen_txn_ask(txn, ASK_BEGIN, 0, 0), 0);
    CHECK_DONE(yalwythen_txn_enlist(txn, a), 0);
    CHECK_REPLY(apply(txn, WRITE, 0, 1), REPLY_DONE, 0);
    CHECK_DONE(yalwythen_txn_ask(txn, ASK_SAVEPOINT, 0, 0), 1);
    CHECK_REPLY(apply(txn, WRITE, 0, 2), REPLY_DONE, 0);
    CHECK_DONE(yalwythen_txn_ask(txn, ASK_ROLL_BACK_TO, 0, 0), 0);
    CHECK_DONE(yalwythen_txn_ask(txn, ASK_COMMIT, 0, 0), 1);
    CHECK_DONE(yalwythen_txn_release(txn, 0, a), 0);
    CHECK_DONE(yalwythen_channel_move(a, b), 1);
    CHECK_REPLY(read_from(b, 0), REPLY_GOT, 1);
    end_transaction(txn);
    end_channel(a);
    end_channel(b);
}

static void check_flush(void) {
    void *txn = transaction(), *a = channel(QUEUE, 0);
    core_result replies[2];
    uint64_t bodies[4] = {0, 0, 0, 0};
    const core_step flush = on(FLUSH, 0, 0);
    CHECK_REPLY(write_to(a, 1), REPLY_DONE, 0);
    CHECK_REPLY(write_to(a, 2), REPLY_DONE, 0);
    CHECK_DONE(yalwythen_txn_enlist(txn, a), 0);
    CHECK_DONE(yalwythen_txn_transact(txn, &flush, 1, replies, 2), 1);
    CHECK_RESULT(replies[0], REPLY_ALL, 2);
    CHECK_DONE(yalwythen_txn_items(txn, 0, 0, bodies, 4), 2);
    CHECK_NUMBER(bodies[0], 1);
    CHECK_NUMBER(bodies[1], 2);
    CHECK_RESULT(yalwythen_txn_items(txn, 1, 0, bodies, 4), CORE_NONE, 0);
    CHECK_DONE(yalwythen_txn_release(txn, 0, a), 0);
    end_transaction(txn);
    end_channel(a);
}

/* Four channels: two items in the first one, one in the third one, which is then full, and the last one closed. */
static void make_four(void *places[4]) {
    places[0] = channel(QUEUE, 0);
    places[1] = channel(QUEUE, 0);
    places[2] = channel(BOUNDED, 1);
    places[3] = channel(CLOSABLE, 0);
    for (uint64_t body = 8; body < 10; body++) CHECK_REPLY(write_to(places[0], body), REPLY_DONE, 0);
    CHECK_REPLY(write_to(places[2], 6), REPLY_DONE, 0);
    CHECK_REPLY(yalwythen_channel_commit_one(places[3], CLOSE, 0, 0), REPLY_DONE, 0);
}

static void enlist_four(void *txn, void *places[4]) {
    for (uint64_t i = 0; i < 4; i++) CHECK_DONE(yalwythen_txn_enlist(txn, places[i]), i);
}

static void release_four(void *txn, void *places[4]) {
    for (uint64_t i = 4; i-- > 0;) CHECK_DONE(yalwythen_txn_release(txn, i, places[i]), 0);
}

static void check_lists(void) {
    void *txn = transaction(), *places[4];
    core_result replies[4] = {{0, 0}, {0, 0}, {0, 0}, {0, 0}};
    const core_step move[] = {on(READ, 0, 0), on(WRITE_LAST, 1, 0)};
    const core_step four[] = {on(READ, 1, 0), on(WRITE, 0, 80), on(READ, 2, 0), on(TRY_READ, 3, 0)};
    const core_step waits[] = {on(WRITE, 2, 1), on(WRITE, 1, 2), on(WRITE, 2, 3)};
    make_four(places);
    CHECK_DONE(yalwythen_txn_list(txn, move, 0, replies, 4), 0);
    enlist_four(txn, places);
    CHECK_DONE(yalwythen_txn_list(txn, move, 2, replies, 4), 2);
    CHECK_RESULT(replies[0], REPLY_GOT, 8);
    CHECK_RESULT(replies[1], REPLY_DONE, 0);
    CHECK_REJECTED(yalwythen_txn_list(txn, four, 4, replies, 3), CORE_NOT_NOW);
    CHECK_DONE(yalwythen_txn_list(txn, four, 4, replies, 4), 4);
    CHECK_RESULT(replies[0], REPLY_GOT, 8);
    CHECK_RESULT(replies[2], REPLY_GOT, 6);
    CHECK_RESULT(replies[3], REPLY_CLOSED, 0);
    CHECK_RETRY(yalwythen_txn_list(txn, four, 4, replies, 4), CORE_EMPTY);
    CHECK_RETRY(yalwythen_txn_list(txn, waits, 3, replies, 4), CORE_FULL);
    CHECK_DONE(yalwythen_txn_ask(txn, ASK_UNREAD, 1, 0), 0);
    CHECK_DONE(yalwythen_txn_ask(txn, ASK_UNREAD, 2, 0), 0);
    release_four(txn, places);
    CHECK_REPLY(read_from(places[0], 0), REPLY_GOT, 9);
    CHECK_REPLY(read_from(places[0], 0), REPLY_GOT, 80);
    for (size_t i = 0; i < 4; i++) end_channel(places[i]);
    end_transaction(txn);
}

/* Runs a list that ends with a step that is not run, and checks that nothing changed. */
static void check_ended_list(void *txn, core_step last, uint64_t code, uint64_t value) {
    core_result replies[2];
    const core_step steps[] = {on(WRITE, 0, 1), last};
    CHECK_RESULT(yalwythen_txn_list(txn, steps, 2, replies, 2), code, value);
    CHECK_DONE(yalwythen_txn_ask(txn, ASK_UNREAD, 0, 0), 2);
}

static void check_ended_lists(void) {
    void *txn = transaction(), *fifth = channel(QUEUE, 0), *places[4];
    core_result replies[2];
    const core_step move[] = {on(READ, 0, 0), on(WRITE_LAST, 1, 0)};
    make_four(places);
    enlist_four(txn, places);
    check_ended_list(txn, on(FLUSH, 0, 0), CORE_REJECTED, CORE_NO_SUCH);
    check_ended_list(txn, on(RETRY, 0, 0), CORE_REJECTED, CORE_NO_SUCH);
    check_ended_list(txn, on(EITHER, 0, 0), CORE_REJECTED, CORE_NO_SUCH);
    check_ended_list(txn, on(CLOSE, 0, 0), CORE_INVALID, 2);
    check_ended_list(txn, on(WRITE_LAST, 0, 0), CORE_STOPPED, 2);
    check_ended_list(txn, on(READ, 4, 0), CORE_INVALID, 1);
    CHECK_DONE(yalwythen_txn_ask(txn, ASK_BEGIN, 0, 0), 0);
    CHECK_REJECTED(yalwythen_txn_list(txn, move, 2, replies, 2), CORE_NOT_NOW);
    CHECK_DONE(yalwythen_txn_ask(txn, ASK_ROLL_BACK, 0, 0), 0);
    CHECK_DONE(yalwythen_txn_enlist(txn, fifth), 4);
    CHECK_RESULT(yalwythen_txn_list(txn, move, 2, replies, 2), CORE_INVALID, 4);
    CHECK_DONE(yalwythen_txn_release(txn, 4, fifth), 0);
    CHECK_DONE(yalwythen_txn_list(txn, move, 2, replies, 2), 2);
    release_four(txn, places);
    CHECK_REPLY(read_from(places[1], 0), REPLY_GOT, 8);
    for (size_t i = 0; i < 4; i++) end_channel(places[i]);
    end_channel(fifth);
    end_transaction(txn);
}

/* A channel with a recorded log, and two seats. */
static void check_recorded(void) {
    void *at = recorded_channel(CLOSABLE, 0), *other = channel(QUEUE, 0);
    void *seats[] = {recorded_transaction(10), recorded_transaction(11)};
    core_result replies[2];
    core_record records[8];
    const core_step write = on(WRITE, 0, 70), read = on(READ, 0, 0);
    CHECK_REJECTED(yalwythen_txn_enlist(seats[0], other), CORE_NOT_NOW);
    for (int i = 0; i < 3; i++) {
        CHECK_DONE(yalwythen_txn_enlist(seats[0], at), 0);
        CHECK_DONE(yalwythen_txn_transact(seats[0], &write, 1, replies, 2), 1);
        CHECK_DONE(yalwythen_txn_release(seats[0], 0, at), 0);
    }
    /* The channel's stamp is 3, and that of the open transaction is 1. */
    CHECK_DONE(yalwythen_txn_ask(seats[1], ASK_BEGIN, 0, 0), 0);
    CHECK_REJECTED(yalwythen_txn_enlist(seats[1], at), CORE_NOT_NOW);
    CHECK_DONE(yalwythen_txn_ask(seats[1], ASK_ROLL_BACK, 0, 0), 0);
    CHECK_DONE(yalwythen_txn_enlist(seats[1], at), 0);
    CHECK_REJECTED(yalwythen_txn_list(seats[1], &read, 1, replies, 2), CORE_NOT_NOW);
    CHECK_DONE(yalwythen_txn_transact(seats[1], &read, 1, replies, 2), 1);
    CHECK_DONE(yalwythen_txn_release(seats[1], 0, at), 0);
    CHECK_DONE(yalwythen_channel_account(at, 0, records, 8), 6);
    CHECK_NUMBER(records[3].stamp, 4);
    CHECK_NUMBER(records[3].seat, 11);
    CHECK_NUMBER(records[3].act, 1);
    CHECK_NUMBER(records[3].maker, 10);
    CHECK_NUMBER(records[4].act, 6);
    CHECK_NUMBER(records[5].act, 6);
    for (size_t i = 0; i < 2; i++) end_transaction(seats[i]);
    end_channel(at);
    end_channel(other);
}

int main(void) {
    check_enlisting();
    check_alternatives();
    check_joining();
    check_rolling_back();
    check_settling();
    check_flush();
    check_lists();
    check_ended_lists();
    check_recorded();
    printf("%lu checks\n", checks);
    return 0;
}
