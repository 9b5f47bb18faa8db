/* What comes of wrong pointers, wrong numbers, and calls at the wrong time: a result that says so, and no change. */
#include "check.h"
#include <limits.h>
#include <string.h>
#include <yalwythen_threads.h>

static yalwythen_domain *domain;
static yalwythen_channel queue, other;

/* Each call with a handle that is none. */
static void check_handle(yalwythen_domain *none, yalwythen_reason reason) {
    yalwythen_channel channel;
    yalwythen_state state;
    yalwythen_seat seat = {0};
    yalwythen_record *records;
    size_t count;
    uint64_t item;
    CHECK(is(yalwythen_channel_new(none, YALWYTHEN_TQUEUE, 0, &channel), YALWYTHEN_MISUSE, reason));
    CHECK(is(yalwythen_channel_state(none, queue, &state), YALWYTHEN_MISUSE, reason));
    CHECK(is(yalwythen_unread(none, queue, 0, &item), YALWYTHEN_MISUSE, reason));
    CHECK(is(yalwythen_transact(none, NULL, 0, NULL), YALWYTHEN_MISUSE, reason));
    CHECK(is(yalwythen_do(none, on(YALWYTHEN_WRITE, queue, 1), NULL), YALWYTHEN_MISUSE, reason));
    CHECK(is(yalwythen_items(none, 0, 0, &item, 1), YALWYTHEN_MISUSE, reason));
    CHECK(is(yalwythen_begin(none), YALWYTHEN_MISUSE, reason));
    CHECK(is(yalwythen_apply(none, on(YALWYTHEN_WRITE, queue, 1), NULL), YALWYTHEN_MISUSE, reason));
    CHECK(is(yalwythen_savepoint(none, &count), YALWYTHEN_MISUSE, reason));
    CHECK(is(yalwythen_roll_back_to(none, 1), YALWYTHEN_MISUSE, reason));
    CHECK(is(yalwythen_release(none, 1), YALWYTHEN_MISUSE, reason));
    CHECK(is(yalwythen_commit(none), YALWYTHEN_MISUSE, reason));
    CHECK(is(yalwythen_roll_back(none), YALWYTHEN_MISUSE, reason));
    CHECK(is(yalwythen_seat_new(none, &seat), YALWYTHEN_MISUSE, reason));
    CHECK(is(yalwythen_seat_use(none, seat), YALWYTHEN_MISUSE, reason));
    CHECK(is(yalwythen_account(none, queue, &records, &count), YALWYTHEN_MISUSE, reason));
    yalwythen_domain_free(none);
}

static void check_handles(void) {
    static uint64_t zeroes[64], ones[64];
    memset(ones, 1, sizeof ones);
    check_handle(NULL, YALWYTHEN_REASON_NULL);
    check_handle((yalwythen_domain *)(void *)zeroes, YALWYTHEN_REASON_NO_DOMAIN);
    check_handle((yalwythen_domain *)(void *)ones, YALWYTHEN_REASON_NO_DOMAIN);
    check_handle((yalwythen_domain *)(void *)((char *)zeroes + 1), YALWYTHEN_REASON_NO_DOMAIN);
#ifndef __SANITIZE_ADDRESS__
    /* A sanitizer stops the program at the first look at memory that was freed. */
    yalwythen_domain *volatile freed;
    yalwythen_domain *made;
    CHECK_OK(yalwythen_domain_new(NULL, &made));
    freed = made;
    yalwythen_domain_free(made);
    check_handle(freed, YALWYTHEN_REASON_NO_DOMAIN);
#endif
}

static void check_nulls(void) {
    const yalwythen_step write = on(YALWYTHEN_WRITE, queue, 1);
    yalwythen_replies replies = {NULL, 0, NULL, 0, 7, 7};
    yalwythen_record *records;
    size_t count;
    CHECK_MISUSE(yalwythen_domain_new(NULL, NULL), NULL);
    CHECK_MISUSE(yalwythen_channel_new(domain, YALWYTHEN_TQUEUE, 0, NULL), NULL);
    CHECK_MISUSE(yalwythen_channel_state(domain, queue, NULL), NULL);
    CHECK_MISUSE(yalwythen_unread(domain, queue, 0, NULL), NULL);
    CHECK_MISUSE(yalwythen_transact(domain, NULL, 1, NULL), NULL);
    CHECK_OK(yalwythen_transact(domain, NULL, 0, &replies));
    CHECK(replies.count == 0 && replies.items_count == 0);
    replies.size = 1;
    CHECK_MISUSE(yalwythen_transact(domain, &write, 1, &replies), NULL);
    replies.size = 0;
    replies.items_size = 1;
    CHECK_MISUSE(yalwythen_transact(domain, &write, 1, &replies), NULL);
    CHECK_MISUSE(yalwythen_items(domain, 0, 0, NULL, 1), NULL);
    CHECK_MISUSE(yalwythen_savepoint(domain, NULL), NULL);
    CHECK_MISUSE(yalwythen_seat_new(domain, NULL), NULL);
    CHECK_MISUSE(yalwythen_account(domain, queue, NULL, &count), NULL);
    CHECK_MISUSE(yalwythen_account(domain, queue, &records, NULL), NULL);
    yalwythen_account_free(NULL);
}

static void check_numbers(void) {
    const yalwythen_channel none = {7};
    yalwythen_options options = {sizeof options - 1, false};
    yalwythen_domain *made;
    yalwythen_state state;
    uint64_t item;
    CHECK_INVALID(yalwythen_domain_new(&options, &made), OPTIONS);
    CHECK_INVALID(yalwythen_channel_new(domain, (yalwythen_kind)6, 0, &other), NO_KIND);
    CHECK_INVALID(yalwythen_channel_new(domain, (yalwythen_kind)INT_MAX, 0, &other), NO_KIND);
    CHECK_INVALID(yalwythen_channel_new(domain, YALWYTHEN_TBQUEUE, 65536, &other), BOUND);
    CHECK_INVALID(yalwythen_channel_new(domain, YALWYTHEN_TBMQUEUE, UINT64_MAX, &other), BOUND);
    CHECK_INVALID(yalwythen_channel_new(domain, YALWYTHEN_TCHAN, 65, &other), READERS);
    CHECK(yalwythen_is_bound(65535) && !yalwythen_is_bound(65536));
    CHECK_INVALID(yalwythen_channel_state(domain, none, &state), NO_CHANNEL);
    CHECK_INVALID(yalwythen_unread(domain, none, 0, &item), NO_CHANNEL);
    CHECK_ABORTED(yalwythen_unread(domain, queue, 1, &item), NO_READER);
    CHECK_INVALID(yalwythen_do(domain, on(YALWYTHEN_WRITE, none, 1), NULL), NO_CHANNEL);
    CHECK_INVALID(yalwythen_do(domain, on(YALWYTHEN_CLOSE, queue, 0), NULL), NOT_FOR_KIND);
    CHECK_INVALID(yalwythen_do(domain, by(YALWYTHEN_READ, queue, 1), NULL), QUEUE_READER);
    CHECK_INVALID(yalwythen_do(domain, on((yalwythen_op)22, queue, 0), NULL), NO_OPERATION);
    CHECK_INVALID(yalwythen_do(domain, on((yalwythen_op)UINT_MAX, queue, 0), NULL), NO_OPERATION);
    CHECK_INVALID(yalwythen_do(domain, on(YALWYTHEN_END, queue, 0), NULL), UNPAIRED);
    CHECK_ABORTED(yalwythen_do(domain, on(YALWYTHEN_WRITE_LAST, queue, 0), NULL), NOTHING_READ);
    CHECK_INVALID(yalwythen_items(domain, 0, 0, &item, 1), NO_ITEMS);
    CHECK_MISUSE(yalwythen_seat_use(domain, (yalwythen_seat){0}), NOT_RECORDED);
}

/* Calls while a transaction is open, and while none is. */
static void check_times(void) {
    yalwythen_record *records;
    size_t first, second;
    CHECK_MISUSE(yalwythen_apply(domain, on(YALWYTHEN_WRITE, queue, 1), NULL), NOT_BEGUN);
    CHECK_MISUSE(yalwythen_savepoint(domain, &first), NOT_BEGUN);
    CHECK_MISUSE(yalwythen_roll_back_to(domain, 1), NOT_BEGUN);
    CHECK_MISUSE(yalwythen_release(domain, 1), NOT_BEGUN);
    CHECK_MISUSE(yalwythen_commit(domain), NOT_BEGUN);
    CHECK_MISUSE(yalwythen_roll_back(domain), NOT_BEGUN);
    CHECK_OK(yalwythen_begin(domain));
    CHECK_MISUSE(yalwythen_begin(domain), BEGUN);
    CHECK_MISUSE(yalwythen_transact(domain, NULL, 0, NULL), BEGUN);
    CHECK_MISUSE(yalwythen_channel_new(domain, YALWYTHEN_TQUEUE, 0, &other), BEGUN);
    CHECK_MISUSE(yalwythen_account(domain, queue, &records, &first), BEGUN);
    CHECK_MISUSE(yalwythen_roll_back_to(domain, 1), NO_SAVEPOINT);
    CHECK_MISUSE(yalwythen_release(domain, 0), NO_SAVEPOINT);
    CHECK_OK(yalwythen_savepoint(domain, &first));
    CHECK_OK(yalwythen_savepoint(domain, &second));
    CHECK(first == 1 && second == 2);
    CHECK_INVALID(yalwythen_apply(domain, on(YALWYTHEN_CLOSE, queue, 0), NULL), NOT_FOR_KIND);
    CHECK_INVALID(yalwythen_apply(domain, on(YALWYTHEN_GIVE_UP, queue, 0), NULL), NO_OPERATION);
    CHECK_INVALID(yalwythen_apply(domain, on(YALWYTHEN_EITHER, queue, 0), NULL), NO_OPERATION);
    CHECK(retries(yalwythen_apply(domain, on(YALWYTHEN_READ, queue, 0), NULL), YALWYTHEN_CAUSE_EMPTY));
    CHECK_MISUSE(yalwythen_apply(domain, on(YALWYTHEN_WRITE, queue, 1), NULL), MUST_ROLL_BACK);
    CHECK_MISUSE(yalwythen_savepoint(domain, &second), MUST_ROLL_BACK);
    CHECK_MISUSE(yalwythen_commit(domain), MUST_ROLL_BACK);
    CHECK_OK(yalwythen_roll_back_to(domain, first));
    CHECK_MISUSE(yalwythen_roll_back_to(domain, second), NO_SAVEPOINT);
    CHECK_OK(yalwythen_roll_back(domain));
}

static yalwythen_shared *shared;

/* A body that calls what is not for there. */
static yalwythen_result misuse_inside(yalwythen_domain *inside, void *user) {
    yalwythen_channel channel;
    yalwythen_watch *watch;
    const yalwythen_step read = on(YALWYTHEN_READ, queue, 0);
    CHECK_MISUSE(yalwythen_send(shared, queue, 1, NULL), INSIDE);
    CHECK_MISUSE(yalwythen_shared_channel(shared, YALWYTHEN_TQUEUE, 0, &channel), INSIDE);
    CHECK_MISUSE(yalwythen_watch_new(shared, &read, 1, &watch), INSIDE);
    CHECK_MISUSE(yalwythen_atomically(shared, misuse_inside, user, NULL), INSIDE);
    CHECK_MISUSE(yalwythen_commit(inside), INSIDE);
    CHECK_MISUSE(yalwythen_roll_back(inside), INSIDE);
    CHECK_MISUSE(yalwythen_begin(inside), BEGUN);
    CHECK_MISUSE(yalwythen_channel_new(inside, YALWYTHEN_TQUEUE, 0, &channel), BEGUN);
    yalwythen_domain_free(inside);
    yalwythen_shared_free(shared);
    *(int *)user += 1;
    return yalwythen_apply(inside, on(YALWYTHEN_WRITE, queue, 5), NULL);
}

static yalwythen_result wait_for_nothing(yalwythen_domain *inside, void *user) {
    (void)inside, (void)user;
    return yalwythen_retry();
}

/* A body that does not tell of an operation that failed. */
static yalwythen_result hide(yalwythen_domain *inside, void *user) {
    (void)user;
    CHECK(yalwythen_apply(inside, on(YALWYTHEN_READ, other, 0), NULL).status == YALWYTHEN_RETRY);
    return (yalwythen_result){YALWYTHEN_OK, YALWYTHEN_CAUSE_NONE, YALWYTHEN_REASON_NONE, 0};
}

static void check_shared(void) {
    const struct timespec wrong = {0, 1000000000};
    const yalwythen_step read = on(YALWYTHEN_READ, (yalwythen_channel){9}, 0), write = on(YALWYTHEN_WRITE, queue, 1);
    yalwythen_shared *another;
    yalwythen_watch *watch;
    uint64_t item;
    int runs = 0;
    CHECK_MISUSE(yalwythen_shared_new(NULL, NULL), NULL);
    CHECK_MISUSE(yalwythen_send(NULL, queue, 1, NULL), NULL);
    CHECK_OK(yalwythen_shared_new(NULL, &shared));
    CHECK_OK(yalwythen_shared_channel(shared, YALWYTHEN_TQUEUE, 0, &queue));
    CHECK_OK(yalwythen_shared_channel(shared, YALWYTHEN_TQUEUE, 0, &other));
    CHECK_MISUSE(yalwythen_shared_seat(shared, &another, NULL), NOT_RECORDED);
    CHECK_INVALID(yalwythen_send(shared, queue, 1, &wrong), DEADLINE);
    CHECK_INVALID(yalwythen_receive(shared, (yalwythen_channel){2}, &item, NULL), NO_CHANNEL);
    CHECK_INVALID(yalwythen_close(shared, queue), NOT_FOR_KIND);
    CHECK_MISUSE(yalwythen_atomically(shared, NULL, NULL, NULL), NULL);
    CHECK_OK(yalwythen_atomically(shared, misuse_inside, &runs, NULL));
    CHECK_OK(yalwythen_receive(shared, queue, &item, NULL));
    CHECK(runs == 1 && item == 5);
    CHECK_MISUSE(yalwythen_atomically(shared, wait_for_nothing, NULL, NULL), NOTHING_TO_WAIT_FOR);
    CHECK_MISUSE(yalwythen_atomically(shared, hide, NULL, NULL), MUST_ROLL_BACK);
    CHECK_MISUSE(yalwythen_watch_new(shared, NULL, 1, &watch), NULL);
    CHECK_MISUSE(yalwythen_watch_new(shared, &write, 1, NULL), NULL);
    CHECK_MISUSE(yalwythen_watch_new(shared, &write, 1, &watch), NOTHING_TO_WAIT_FOR);
    CHECK_INVALID(yalwythen_watch_new(shared, &read, 1, &watch), NO_CHANNEL);
    CHECK_MISUSE(yalwythen_watch_clear(NULL), NULL);
    CHECK(yalwythen_watch_fd(NULL) == -1);
    yalwythen_watch_free(NULL);
    yalwythen_shared_free(NULL);
    yalwythen_shared_free(shared);
}

/* Every reason and status has a message of its own. */
static void check_messages(void) {
    const char *seen[80];
    size_t count = 0;
    for (int reason = 0; reason <= YALWYTHEN_REASON_NOTHING_TO_WAIT_FOR; reason++) {
        const yalwythen_result result = {YALWYTHEN_MISUSE, YALWYTHEN_CAUSE_NONE, (yalwythen_reason)reason, 0};
        const char *message = yalwythen_message(result);
        if (strcmp(message, "unknown reason") == 0) continue;
        for (size_t at = 0; at < count; at++) CHECK(strcmp(seen[at], message) != 0);
        seen[count++] = message;
    }
    CHECK(count == 1 + 5 + 16 + 10);
    for (int status = 0; status <= YALWYTHEN_SYSTEM; status++) {
        const yalwythen_result result = {(yalwythen_status)status, YALWYTHEN_CAUSE_EMPTY, YALWYTHEN_REASON_NONE, 0};
        CHECK(strlen(yalwythen_message(result)) > 0 && strcmp(yalwythen_message(result), "unknown status") != 0);
    }
}

int main(void) {
    yalwythen_state state;
    CHECK(yalwythen_version() == YALWYTHEN_VERSION);
    CHECK_OK(yalwythen_domain_new(NULL, &domain));
    CHECK_OK(yalwythen_channel_new(domain, YALWYTHEN_TQUEUE, 0, &queue));
    check_handles();
    check_nulls();
    check_numbers();
    check_times();
    check_messages();
    /* Nothing of all that left a trace. */
    CHECK_OK(yalwythen_channel_state(domain, queue, &state));
    CHECK(state.changes == 0 && state.length == 0);
    CHECK_OK(yalwythen_channel_new(domain, YALWYTHEN_TQUEUE, 0, &other));
    CHECK(other.number == 1);
    yalwythen_domain_free(domain);
    check_shared();
    printf("%lu checks\n", checks);
    return 0;
}
