/* Lists of steps and transactions that decide as they go, in one thread. */
#include "check.h"

static yalwythen_domain *domain;
static yalwythen_channel queue, other, bounded, closable, broadcast;

static void make_channels(void) {
    CHECK_OK(yalwythen_channel_new(domain, YALWYTHEN_TQUEUE, 0, &queue));
    CHECK_OK(yalwythen_channel_new(domain, YALWYTHEN_TQUEUE, 0, &other));
    CHECK_OK(yalwythen_channel_new(domain, YALWYTHEN_TBQUEUE, 2, &bounded));
    CHECK_OK(yalwythen_channel_new(domain, YALWYTHEN_TBMQUEUE, 1, &closable));
    CHECK_OK(yalwythen_channel_new(domain, YALWYTHEN_TMCHAN, 1, &broadcast));
}

static uint64_t length(yalwythen_channel channel) {
    yalwythen_state state;
    CHECK_OK(yalwythen_channel_state(domain, channel, &state));
    return state.length;
}

static yalwythen_reply run(yalwythen_step step) {
    yalwythen_reply reply;
    CHECK_OK(yalwythen_do(domain, step, &reply));
    return reply;
}

static bool replies_with(yalwythen_step step, yalwythen_reply_kind kind, uint64_t value) {
    yalwythen_reply reply = run(step);
    return reply.kind == kind && reply.value == value;
}

/* Each operation, and what it replies. */
static void check_operations(void) {
    CHECK(replies_with(on(YALWYTHEN_WRITE, closable, 1), YALWYTHEN_REPLY_DONE, 0));
    CHECK(replies_with(on(YALWYTHEN_TRY_WRITE, closable, 2), YALWYTHEN_REPLY_FULL, 0));
    CHECK(retries(yalwythen_do(domain, on(YALWYTHEN_WRITE, closable, 2), NULL), YALWYTHEN_CAUSE_FULL));
    CHECK(replies_with(on(YALWYTHEN_IS_FULL, closable, 0), YALWYTHEN_REPLY_FLAG, 1));
    CHECK(replies_with(on(YALWYTHEN_PEEK, closable, 0), YALWYTHEN_REPLY_GOT, 1));
    CHECK(replies_with(on(YALWYTHEN_TRY_PEEK, closable, 0), YALWYTHEN_REPLY_GOT, 1));
    CHECK(replies_with(on(YALWYTHEN_PUT_BACK, closable, 3), YALWYTHEN_REPLY_DONE, 0));
    CHECK(replies_with(on(YALWYTHEN_CLOSE, closable, 0), YALWYTHEN_REPLY_DONE, 0));
    CHECK(replies_with(on(YALWYTHEN_IS_CLOSED, closable, 0), YALWYTHEN_REPLY_FLAG, 1));
    CHECK(replies_with(on(YALWYTHEN_WRITE, closable, 4), YALWYTHEN_REPLY_CLOSED, 0));
    CHECK(replies_with(on(YALWYTHEN_READ, closable, 0), YALWYTHEN_REPLY_GOT, 3));
    CHECK(replies_with(on(YALWYTHEN_TRY_READ, closable, 0), YALWYTHEN_REPLY_GOT, 1));
    CHECK(replies_with(on(YALWYTHEN_READ, closable, 0), YALWYTHEN_REPLY_CLOSED, 0));
    CHECK(replies_with(on(YALWYTHEN_IS_EMPTY, queue, 0), YALWYTHEN_REPLY_FLAG, 1));
    CHECK(replies_with(on(YALWYTHEN_TRY_READ, queue, 0), YALWYTHEN_REPLY_EMPTY, 0));
    CHECK(retries(yalwythen_do(domain, on(YALWYTHEN_GIVE_UP, queue, 0), NULL), YALWYTHEN_CAUSE_ASKED));
    CHECK(replies_with(on(YALWYTHEN_WRITE, bounded, 5), YALWYTHEN_REPLY_DONE, 0));
    CHECK(replies_with(on(YALWYTHEN_LENGTH, bounded, 0), YALWYTHEN_REPLY_COUNT, 1));
    CHECK(replies_with(on(YALWYTHEN_WRITE, broadcast, 6), YALWYTHEN_REPLY_DONE, 0));
    CHECK(replies_with(by(YALWYTHEN_CLONE, broadcast, 0), YALWYTHEN_REPLY_READER, 1));
    CHECK(replies_with(on(YALWYTHEN_DUP, broadcast, 0), YALWYTHEN_REPLY_READER, 2));
    CHECK(replies_with(by(YALWYTHEN_READ, broadcast, 1), YALWYTHEN_REPLY_GOT, 6));
    CHECK(replies_with(by(YALWYTHEN_TRY_READ, broadcast, 2), YALWYTHEN_REPLY_EMPTY, 0));
}

static void check_states(void) {
    yalwythen_state state;
    uint64_t unread;
    CHECK_OK(yalwythen_channel_state(domain, bounded, &state));
    CHECK(state.kind == YALWYTHEN_TBQUEUE && state.bound == 2 && state.length == 1 && state.changes == 1);
    CHECK(!state.closed && state.readers == 1);
    CHECK_OK(yalwythen_channel_state(domain, closable, &state));
    CHECK(state.kind == YALWYTHEN_TBMQUEUE && state.bound == 1 && state.closed && state.changes == 5);
    CHECK_OK(yalwythen_channel_state(domain, broadcast, &state));
    CHECK(state.kind == YALWYTHEN_TMCHAN && state.bound == 0 && state.readers == 3 && state.length == 1);
    CHECK_OK(yalwythen_unread(domain, broadcast, 0, &unread));
    CHECK(unread == 1);
    CHECK_OK(yalwythen_unread(domain, broadcast, 1, &unread));
    CHECK(unread == 0);
}

/* Alternatives: the first branch that does not retry, nested. Replies and items that do not fit are counted. */
static void check_alternatives(void) {
    const yalwythen_step none = on(YALWYTHEN_EITHER, queue, 0), or = on(YALWYTHEN_OR, queue, 0);
    const yalwythen_step end = on(YALWYTHEN_END, queue, 0);
    const yalwythen_step steps[] = {
        none, on(YALWYTHEN_WRITE, other, 1), on(YALWYTHEN_READ, queue, 0), or,
        none, on(YALWYTHEN_GIVE_UP, queue, 0), or, on(YALWYTHEN_FLUSH, bounded, 0), end,
        on(YALWYTHEN_FLUSH, other, 0), end, on(YALWYTHEN_WRITE, queue, 9),
    };
    yalwythen_reply at[4];
    uint64_t items[4] = {77, 77, 77, 77};
    yalwythen_replies replies = {at, 4, items, 4, 0, 0};
    run(on(YALWYTHEN_WRITE, bounded, 6));
    run(on(YALWYTHEN_WRITE, other, 8));
    CHECK_OK(yalwythen_transact(domain, steps, sizeof steps / sizeof *steps, &replies));
    CHECK(replies.count == 3 && replies.items_count == 3);
    CHECK(at[0].kind == YALWYTHEN_REPLY_ALL && at[0].value == 2 && at[1].kind == YALWYTHEN_REPLY_ALL);
    CHECK(at[1].value == 1 && at[2].kind == YALWYTHEN_REPLY_DONE);
    CHECK(items[0] == 5 && items[1] == 6 && items[2] == 8 && items[3] == 77);
    CHECK(length(queue) == 1 && length(other) == 0 && length(bounded) == 0);
    items[0] = items[1] = 0;
    CHECK_OK(yalwythen_items(domain, 0, 1, items, 1));
    CHECK(items[0] == 6 && items[1] == 0);
    CHECK_OK(yalwythen_items(domain, 0, 2, NULL, 0));
    CHECK_INVALID(yalwythen_items(domain, 0, 1, items, 2), NO_ITEMS);
    CHECK_INVALID(yalwythen_items(domain, 2, 0, items, 1), NO_ITEMS);
    CHECK_INVALID(yalwythen_items(domain, 3, 0, items, 1), NO_ITEMS);
    /* Here the first branch runs. */
    replies.size = replies.items_size = 1;
    at[1].value = 55;
    CHECK_OK(yalwythen_transact(domain, steps, sizeof steps / sizeof *steps, &replies));
    CHECK(replies.count == 3 && at[0].kind == YALWYTHEN_REPLY_DONE && at[1].value == 55 && replies.items_count == 0);
    CHECK(length(queue) == 1 && length(other) == 1);
}

/* The index of the invalid step. */
static bool is_step(const yalwythen_step *steps, size_t count, yalwythen_reason reason, uint32_t step) {
    uint64_t before = length(queue);
    yalwythen_result result = yalwythen_transact(domain, steps, count, NULL);
    return result.status == YALWYTHEN_INVALID && result.reason == reason && result.step == step &&
           length(queue) == before;
}

static void check_invalid_steps(void) {
    const yalwythen_step write = on(YALWYTHEN_WRITE, queue, 1), either = on(YALWYTHEN_EITHER, queue, 0);
    const yalwythen_step or = on(YALWYTHEN_OR, queue, 0), end = on(YALWYTHEN_END, queue, 0);
    const yalwythen_step none[] = {write, either, write, or, on(YALWYTHEN_WRITE, (yalwythen_channel){9}, 1), end};
    const yalwythen_step kind[] = {write, write, on(YALWYTHEN_CLOSE, queue, 0)};
    const yalwythen_step reader[] = {by(YALWYTHEN_READ, queue, 2)};
    const yalwythen_step unknown[] = {write, on((yalwythen_op)22, queue, 0)};
    const yalwythen_step unpaired[] = {either, write, end, end}, open[] = {write, either, or}, early[] = {write, or};
    yalwythen_step many[66];
    for (int i = 0; i < 66; i++) many[i] = write;
    CHECK(is_step(none, 6, YALWYTHEN_REASON_NO_CHANNEL, 4));
    CHECK(is_step(kind, 3, YALWYTHEN_REASON_NOT_FOR_KIND, 2));
    CHECK(is_step(reader, 1, YALWYTHEN_REASON_QUEUE_READER, 0));
    CHECK(is_step(unknown, 2, YALWYTHEN_REASON_NO_OPERATION, 1));
    CHECK(is_step(unpaired, 4, YALWYTHEN_REASON_UNPAIRED, 3));
    CHECK(is_step(open, 3, YALWYTHEN_REASON_UNPAIRED, 3));
    CHECK(is_step(early, 2, YALWYTHEN_REASON_UNPAIRED, 1));
    CHECK(is_step(many, 66, YALWYTHEN_REASON_TOO_LONG, 64));
    for (int i = 0; i < 9; i++) many[i] = either;
    for (int i = 9; i < 18; i++) many[i] = end;
    CHECK(is_step(many, 18, YALWYTHEN_REASON_TOO_DEEP, 8));
    for (uint16_t i = 0; i < 5; i++) many[i] = on(YALWYTHEN_WRITE, (yalwythen_channel){i}, 1);
    CHECK(is_step(many, 5, YALWYTHEN_REASON_STEP_CHANNELS, 4));
}

/* A transaction that is rolled back to a savepoint, and then as a whole. */
static void check_rolled_back_twice(void) {
    uint64_t before = length(queue);
    size_t savepoint;
    CHECK_OK(yalwythen_begin(domain));
    CHECK_OK(yalwythen_apply(domain, on(YALWYTHEN_WRITE, queue, 20), NULL));
    CHECK_OK(yalwythen_savepoint(domain, &savepoint));
    CHECK_OK(yalwythen_apply(domain, on(YALWYTHEN_WRITE, queue, 21), NULL));
    CHECK_OK(yalwythen_roll_back_to(domain, savepoint));
    CHECK(length(queue) == before + 1);
    CHECK_OK(yalwythen_roll_back(domain));
    CHECK(length(queue) == before);
}

/* An open transaction with savepoints, committed and rolled back. */
static void check_open(void) {
    yalwythen_reply reply;
    uint64_t item, before = length(queue);
    size_t first, second;
    CHECK_OK(yalwythen_begin(domain));
    CHECK_OK(yalwythen_apply(domain, on(YALWYTHEN_WRITE, queue, 20), &reply));
    CHECK(reply.kind == YALWYTHEN_REPLY_DONE);
    CHECK_OK(yalwythen_savepoint(domain, &first));
    CHECK_OK(yalwythen_apply(domain, on(YALWYTHEN_WRITE, queue, 21), NULL));
    CHECK_OK(yalwythen_savepoint(domain, &second));
    CHECK_OK(yalwythen_apply(domain, on(YALWYTHEN_FLUSH, queue, 0), &reply));
    CHECK(reply.kind == YALWYTHEN_REPLY_ALL && reply.value == before + 2);
    CHECK_OK(yalwythen_items(domain, YALWYTHEN_LAST_REPLY, before + 1, &item, 1));
    CHECK(item == 21);
    CHECK(length(queue) == 0);
    CHECK_OK(yalwythen_roll_back_to(domain, second));
    CHECK(length(queue) == before + 2);
    CHECK_OK(yalwythen_release(domain, first));
    CHECK_OK(yalwythen_apply(domain, on(YALWYTHEN_PEEK, queue, 0), &reply));
    CHECK(reply.kind == YALWYTHEN_REPLY_GOT);
    CHECK_OK(yalwythen_commit(domain));
    CHECK(length(queue) == before + 2);
    CHECK_OK(yalwythen_begin(domain));
    CHECK_OK(yalwythen_savepoint(domain, &first));
    CHECK_OK(yalwythen_commit(domain));
    CHECK_OK(yalwythen_begin(domain));
    CHECK_MISUSE(yalwythen_roll_back_to(domain, first), NO_SAVEPOINT);
    CHECK_OK(yalwythen_apply(domain, on(YALWYTHEN_FLUSH, queue, 0), NULL));
    CHECK_ABORTED(yalwythen_apply(domain, by(YALWYTHEN_READ, broadcast, 9), NULL), NO_READER);
    CHECK_OK(yalwythen_roll_back(domain));
    CHECK(length(queue) == before + 2);
    /* A domain is freed with a transaction open. */
    CHECK_OK(yalwythen_begin(domain));
    CHECK_OK(yalwythen_apply(domain, on(YALWYTHEN_FLUSH, queue, 0), NULL));
}

int main(void) {
    CHECK_OK(yalwythen_domain_new(NULL, &domain));
    make_channels();
    check_operations();
    check_states();
    check_alternatives();
    check_invalid_steps();
    check_rolled_back_twice();
    check_open();
    yalwythen_domain_free(domain);
    printf("%lu checks\n", checks);
    return 0;
}
