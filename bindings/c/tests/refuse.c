/* Refuses each allocation of a run in turn, if it is linked with --wrap=malloc,--wrap=realloc,--wrap=calloc. Each
 * refusal must be reported, the domain must be as before, and the call must succeed when it is made again. */
#include "check.h"
#include <yalwythen_threads.h>

static long left;
static unsigned long reported;
void *__real_malloc(size_t size);
void *__real_realloc(void *block, size_t size);
void *__real_calloc(size_t count, size_t size);
void *__wrap_malloc(size_t size);
void *__wrap_realloc(void *block, size_t size);
void *__wrap_calloc(size_t count, size_t size);
void *__wrap_malloc(size_t size) { return left-- == 0 ? NULL : __real_malloc(size); }
void *__wrap_realloc(void *block, size_t size) { return left-- == 0 ? NULL : __real_realloc(block, size); }
void *__wrap_calloc(size_t count, size_t size) { return left-- == 0 ? NULL : __real_calloc(count, size); }

/* Whether a call has to be made again, since memory was refused to it. */
static bool was_refused(yalwythen_result result) {
    bool refused = result.status == YALWYTHEN_NO_MEMORY;
    reported += refused;
    return refused;
}

/* Makes a call, and makes it again if memory is refused, since only one allocation is; it has to succeed then. */
#define AGAIN(call)                                                       \
    do {                                                                  \
        yalwythen_result made = (call);                                   \
        if (was_refused(made)) made = (call);                             \
        CHECK_OK(made);                                                   \
    } while (0)

static yalwythen_domain *domain;
static yalwythen_channel bounded, queue, news, closable;

static void make_channels(bool records) {
    yalwythen_options options = {sizeof options, records};
    AGAIN(yalwythen_domain_new(&options, &domain));
    AGAIN(yalwythen_channel_new(domain, YALWYTHEN_TBQUEUE, 64, &bounded));
    AGAIN(yalwythen_channel_new(domain, YALWYTHEN_TQUEUE, 0, &queue));
    CHECK(bounded.number == 0 && queue.number == 1);
    if (records) return;
    AGAIN(yalwythen_channel_new(domain, YALWYTHEN_TCHAN, 64, &news));
    AGAIN(yalwythen_channel_new(domain, YALWYTHEN_TMCHAN, 1, &closable));
}

/* Two branches. The first retries; the second takes all items of one queue, writes two numbers to the other queue, and
 * one number to the first queue. */
static void write_two(uint64_t number) {
    const yalwythen_step steps[] = {
        on(YALWYTHEN_EITHER, queue, 0), on(YALWYTHEN_GIVE_UP, queue, 0), on(YALWYTHEN_OR, queue, 0),
        on(YALWYTHEN_FLUSH, queue, 0), on(YALWYTHEN_WRITE, bounded, number), on(YALWYTHEN_WRITE, bounded, number),
        on(YALWYTHEN_WRITE, queue, number), on(YALWYTHEN_END, queue, 0),
    };
    yalwythen_reply at[4];
    uint64_t item = 77;
    yalwythen_replies replies = {at, 4, &item, 1, 0, 0};
    AGAIN(yalwythen_transact(domain, steps, sizeof steps / sizeof *steps, &replies));
    CHECK(replies.count == 4 && replies.items_count == (number > 0) && at[0].kind == YALWYTHEN_REPLY_ALL);
    CHECK(item == (number > 0 ? number - 1 : 77) && at[3].kind == YALWYTHEN_REPLY_DONE);
}

static void read_one(yalwythen_channel channel, uint16_t reader, uint64_t wanted) {
    yalwythen_reply reply;
    AGAIN(yalwythen_do(domain, by(YALWYTHEN_READ, channel, reader), &reply));
    CHECK(reply.kind == YALWYTHEN_REPLY_GOT && reply.value == wanted);
}

/* Makes readers; each of them gets all items. */
static void run_broadcasts(void) {
    for (uint16_t reader = 0; reader < 20; reader++) {
        const yalwythen_step steps[] = {
            on(YALWYTHEN_WRITE, news, reader), on(YALWYTHEN_WRITE, closable, reader),
            by(YALWYTHEN_CLONE, closable, reader),
        };
        yalwythen_reply at[3];
        yalwythen_replies replies = {at, 3, NULL, 0, 0, 0};
        AGAIN(yalwythen_transact(domain, steps, 3, &replies));
        CHECK(at[2].kind == YALWYTHEN_REPLY_READER && at[2].value == reader + 1u);
    }
    for (uint16_t reader = 0; reader <= 20; reader++) {
        for (uint64_t item = 0; item < 20; item++) read_one(closable, reader, item);
    }
}

/* An open transaction: an operation that was refused memory is undone by its savepoint. */
static void run_open(void) {
    size_t savepoint;
    yalwythen_state state;
    AGAIN(yalwythen_begin(domain));
    for (uint64_t item = 0; item < 20; item++) {
        AGAIN(yalwythen_savepoint(domain, &savepoint));
        if (!was_refused(yalwythen_apply(domain, on(YALWYTHEN_WRITE, queue, item), NULL))) continue;
        CHECK_OK(yalwythen_roll_back_to(domain, savepoint));
        CHECK_OK(yalwythen_apply(domain, on(YALWYTHEN_WRITE, queue, item), NULL));
    }
    CHECK_OK(yalwythen_commit(domain));
    AGAIN(yalwythen_channel_state(domain, queue, &state));
    CHECK(state.length == 21);
}

/* While the index of an invalid step is searched, a refused allocation can leave the index unknown, but not wrong. */
static void run_invalid(void) {
    const yalwythen_step steps[] = {on(YALWYTHEN_WRITE, queue, 1), on(YALWYTHEN_CLOSE, queue, 1)};
    bool was_due = left >= 0;
    yalwythen_result result = yalwythen_transact(domain, steps, 2, NULL);
    if (was_refused(result)) result = yalwythen_transact(domain, steps, 2, NULL);
    else reported += was_due && left < 0;
    CHECK_INVALID(result, NOT_FOR_KIND);
    CHECK(result.step == 1 || result.step == YALWYTHEN_NO_STEP);
}

static void run_without_logs(void) {
    yalwythen_state state;
    make_channels(false);
    for (uint64_t item = 0; item < 20; item++) {
        write_two(item);
        read_one(bounded, 0, item / 2);
    }
    AGAIN(yalwythen_channel_state(domain, bounded, &state));
    CHECK(state.changes == 60);
    run_broadcasts();
    run_open();
    run_invalid();
    yalwythen_domain_free(domain);
}

/* In a domain with logs: what was written is recorded, and is left. */
static void run_with_logs(void) {
    yalwythen_record *records;
    yalwythen_seat seat;
    size_t count;
    make_channels(true);
    AGAIN(yalwythen_seat_new(domain, &seat));
    CHECK_OK(yalwythen_seat_use(domain, seat));
    for (uint64_t item = 0; item < 20; item++) write_two(item);
    AGAIN(yalwythen_account(domain, bounded, &records, &count));
    CHECK(count == 80);
    for (size_t at = 0; at < count; at++) {
        CHECK(records[at].act == (at < 40 ? YALWYTHEN_ACT_WROTE : YALWYTHEN_ACT_LEFT));
        CHECK(records[at].number == at % 40 && records[at].body == at % 40 / 2 && records[at].maker == seat.number);
    }
    yalwythen_account_free(records);
    yalwythen_domain_free(domain);
}

static yalwythen_channel channels[20];

/* Peeks at all channels, and retries if the last one is empty. */
static yalwythen_result look_at_all(yalwythen_domain *inside, void *user) {
    for (int at = 0; at < 20; at++) {
        yalwythen_reply reply;
        yalwythen_result result = yalwythen_apply(inside, on(YALWYTHEN_TRY_PEEK, channels[at], 0), &reply);
        if (result.status != YALWYTHEN_OK) return result;
        *(uint64_t *)user = reply.value;
        if (at == 19 && reply.kind == YALWYTHEN_REPLY_EMPTY) return yalwythen_retry();
    }
    return yalwythen_apply(inside, on(YALWYTHEN_READ, channels[19], 0), NULL);
}

/* A shared domain, and waits that end by their deadlines. */
static void run_shared(void) {
    const yalwythen_step read = on(YALWYTHEN_READ, channels[0], 0);
    yalwythen_shared *shared, *other;
    yalwythen_options options = {sizeof options, true};
    yalwythen_watch *watch;
    yalwythen_result result;
    struct timespec soon;
    uint64_t item;
    AGAIN(yalwythen_shared_new(&options, &shared));
    AGAIN(yalwythen_shared_seat(shared, &other, NULL));
    for (int at = 0; at < 20; at++) AGAIN(yalwythen_shared_channel(shared, YALWYTHEN_TQUEUE, 0, &channels[at]));
    AGAIN(yalwythen_watch_new(shared, &read, 1, &watch));
    soon = yalwythen_after(1000000);
    result = yalwythen_atomically(shared, look_at_all, &item, &soon);
    if (was_refused(result)) result = yalwythen_atomically(shared, look_at_all, &item, &soon);
    CHECK(result.status == YALWYTHEN_TIMED_OUT);
    for (int at = 0; at < 20; at++) AGAIN(yalwythen_send(other, channels[at], 100, NULL));
    AGAIN(yalwythen_atomically(shared, look_at_all, &item, NULL));
    CHECK(item == 100);
    AGAIN(yalwythen_receive(shared, channels[0], &item, NULL));
    soon = yalwythen_after(1000000);
    result = yalwythen_receive(shared, channels[0], &item, &soon);
    if (was_refused(result)) result = yalwythen_receive(shared, channels[0], &item, &soon);
    CHECK(result.status == YALWYTHEN_TIMED_OUT && result.cause == YALWYTHEN_CAUSE_EMPTY);
    yalwythen_watch_free(watch);
    yalwythen_shared_free(shared);
    yalwythen_shared_free(other);
}

int main(void) {
    long allocations = 0, unreported = 0;
    for (;; allocations++) {
        left = allocations;
        reported = 0;
        run_without_logs();
        run_with_logs();
        run_shared();
        if (left >= 0) break;
        unreported += reported != 1;
        if (reported != 1) fprintf(stderr, "allocation %ld was reported %lu times\n", allocations, reported);
    }
    left = -1;
    printf("%ld allocations refused, %ld of them not reported\n", allocations, unreported);
    return allocations < 50 || unreported != 0;
}
