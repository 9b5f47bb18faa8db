/* A domain through which many items pass takes no more memory than one through which few did: no log is recorded, and
 * what all readers of a broadcast have read is freed. Measured by glibc's count of allocated bytes. */
#define _GNU_SOURCE
#include "check.h"
#include <malloc.h>
#include <yalwythen_threads.h>

enum { FEW = 1000, MANY = 1000000, READERS = 3, SHARED = 100000 };
static yalwythen_domain *domain;
static yalwythen_channel queue, broadcast, first, second;
static yalwythen_shared *shared;

static void put(yalwythen_channel channel, uint64_t item) {
    CHECK_OK(yalwythen_do(domain, on(YALWYTHEN_WRITE, channel, item), NULL));
}

static void take(yalwythen_channel channel, uint16_t reader, uint64_t item) {
    yalwythen_reply reply;
    CHECK_OK(yalwythen_do(domain, by(YALWYTHEN_READ, channel, reader), &reply));
    CHECK(reply.kind == YALWYTHEN_REPLY_GOT && reply.value == item);
}

/* Passes items through both channels: each comes out as it went in, for each reader. */
static void pass(uint64_t items) {
    for (uint64_t item = 0; item < items; item++) {
        put(queue, item);
        take(queue, 0, item);
        put(broadcast, item);
        for (uint16_t reader = 0; reader < READERS; reader++) take(broadcast, reader, item);
    }
}

/* Moves an item, and before that tries a branch that is rolled back. */
static yalwythen_result move(yalwythen_domain *inside, void *user) {
    yalwythen_reply reply;
    size_t savepoint;
    yalwythen_result result = yalwythen_savepoint(inside, &savepoint);
    (void)user;
    if (result.status != YALWYTHEN_OK) return result;
    CHECK_OK(yalwythen_apply(inside, on(YALWYTHEN_WRITE, second, 1), NULL));
    CHECK_OK(yalwythen_roll_back_to(inside, savepoint));
    CHECK_OK(yalwythen_apply(inside, on(YALWYTHEN_READ, first, 0), &reply));
    return yalwythen_apply(inside, on(YALWYTHEN_WRITE, second, reply.value), NULL);
}

static void pass_shared(uint64_t items) {
    static const struct timespec past;
    for (uint64_t item = 0; item < items; item++) {
        uint64_t got;
        CHECK(yalwythen_receive(shared, second, &got, &past).status == YALWYTHEN_TIMED_OUT);
        CHECK_OK(yalwythen_send(shared, first, item, NULL));
        CHECK_OK(yalwythen_atomically(shared, move, NULL, NULL));
        CHECK_OK(yalwythen_receive(shared, second, &got, NULL));
        CHECK(got == item);
    }
}

int main(void) {
    yalwythen_state of_queue, of_broadcast;
    CHECK_OK(yalwythen_domain_new(NULL, &domain));
    CHECK_OK(yalwythen_channel_new(domain, YALWYTHEN_TQUEUE, 0, &queue));
    CHECK_OK(yalwythen_channel_new(domain, YALWYTHEN_TCHAN, READERS, &broadcast));
    CHECK_OK(yalwythen_shared_new(NULL, &shared));
    CHECK_OK(yalwythen_shared_channel(shared, YALWYTHEN_TQUEUE, 0, &first));
    CHECK_OK(yalwythen_shared_channel(shared, YALWYTHEN_TBQUEUE, 1, &second));
    pass(FEW);
    pass_shared(FEW);
    size_t before = mallinfo2().uordblks;
    pass(MANY);
    pass_shared(SHARED);
    size_t after = mallinfo2().uordblks;
    CHECK_OK(yalwythen_channel_state(domain, queue, &of_queue));
    CHECK_OK(yalwythen_channel_state(domain, broadcast, &of_broadcast));
    yalwythen_domain_free(domain);
    yalwythen_shared_free(shared);
    printf("%llu and %llu changes, %zd bytes more\n", (unsigned long long)of_queue.changes,
           (unsigned long long)of_broadcast.changes, (ssize_t)(after - before));
    return after != before;
}
