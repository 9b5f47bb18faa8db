/* A router by a transaction that decides as it goes. Producers send orders to two queues, one of them for urgent ones.
 * Each router takes an order, the urgent ones first, looks at it, and passes it on to one of two queues: so an order is
 * always in just one queue, and the orders of a producer stay in order. A large order needs a permit, which the router
 * takes in the same transaction, and which the consumer of large orders returns. */
#include "check.h"
#include <pthread.h>
#include <yalwythen_threads.h>

enum { PRODUCERS = 2, ROUTERS = 3, EACH = 3000, PERMITS = 2, ORDERS = PRODUCERS * EACH };
static yalwythen_shared *shared;
static yalwythen_channel urgent, orders, large, small, permits;

static bool is_large(uint64_t order) { return order % 5 == 0; }
static bool is_urgent(uint64_t order) { return order % 7 == 0; }
static uint64_t producer_of(uint64_t order) { return order >> 32; }

/* Takes an urgent order, or else another one. */
static yalwythen_result take(yalwythen_domain *domain, yalwythen_reply *reply) {
    size_t savepoint;
    yalwythen_result result = yalwythen_savepoint(domain, &savepoint);
    if (result.status != YALWYTHEN_OK) return result;
    result = yalwythen_apply(domain, on(YALWYTHEN_READ, urgent, 0), reply);
    if (result.status == YALWYTHEN_OK && reply->kind == YALWYTHEN_REPLY_GOT) return result;
    if (result.status != YALWYTHEN_OK && result.status != YALWYTHEN_RETRY) return result;
    result = yalwythen_roll_back_to(domain, savepoint);
    if (result.status != YALWYTHEN_OK) return result;
    return yalwythen_apply(domain, on(YALWYTHEN_READ, orders, 0), reply);
}

/* Routes one order, or sets `user` to false if both queues are closed and empty. */
static yalwythen_result route(yalwythen_domain *domain, void *user) {
    yalwythen_reply order, permit;
    yalwythen_result result = take(domain, &order);
    if (result.status != YALWYTHEN_OK) return result;
    if (order.kind == YALWYTHEN_REPLY_CLOSED) {
        /* The other queue was closed too, but for a moment it may still have had an order. */
        result = yalwythen_apply(domain, on(YALWYTHEN_TRY_READ, urgent, 0), &order);
        if (result.status != YALWYTHEN_OK) return result;
        if (order.kind == YALWYTHEN_REPLY_EMPTY) return yalwythen_retry();
        *(bool *)user = order.kind == YALWYTHEN_REPLY_GOT;
        if (order.kind != YALWYTHEN_REPLY_GOT) return result;
    }
    if (!is_large(order.value)) return yalwythen_apply(domain, on(YALWYTHEN_WRITE, small, order.value), NULL);
    result = yalwythen_apply(domain, on(YALWYTHEN_READ, permits, 0), &permit);
    if (result.status != YALWYTHEN_OK) return result;
    return yalwythen_apply(domain, on(YALWYTHEN_WRITE, large, order.value), NULL);
}

static void *be_router(void *unused) {
    bool goes_on = true;
    while (goes_on) CHECK_OK(yalwythen_atomically(shared, route, &goes_on, NULL));
    return unused;
}

static void *be_producer(void *number) {
    uint64_t base = (uint64_t)(uintptr_t)number << 32;
    for (uint64_t order = 1; order <= EACH; order++) {
        CHECK_OK(yalwythen_send(shared, is_urgent(order) ? urgent : orders, base | order, NULL));
    }
    return NULL;
}

/* Receives all orders of a queue. The urgent orders of a producer come in order, and so do its others. */
static void *be_consumer(void *channel) {
    uint64_t last[PRODUCERS][2] = {{0}}, order, *count = calloc(1, sizeof *count);
    yalwythen_channel from = *(yalwythen_channel *)channel;
    CHECK(count != NULL);
    while (yalwythen_receive(shared, from, &order, NULL).status == YALWYTHEN_OK) {
        uint64_t number = order & UINT32_MAX, *before = &last[producer_of(order)][is_urgent(number)];
        CHECK(is_large(order) == (from.number == large.number) && number > *before);
        *before = number;
        ++*count;
        if (is_large(order)) CHECK_OK(yalwythen_send(shared, permits, 1, NULL));
    }
    return count;
}

/* Counts the permits, and takes none. */
static yalwythen_result count_permits(yalwythen_domain *domain, void *user) {
    yalwythen_reply reply;
    yalwythen_result result = yalwythen_apply(domain, on(YALWYTHEN_FLUSH, permits, 0), &reply);
    if (result.status != YALWYTHEN_OK) return result;
    *(uint64_t *)user = reply.value;
    return yalwythen_abort();
}

static void make_channels(void) {
    CHECK_OK(yalwythen_shared_channel(shared, YALWYTHEN_TBMQUEUE, 8, &urgent));
    CHECK_OK(yalwythen_shared_channel(shared, YALWYTHEN_TMQUEUE, 0, &orders));
    CHECK_OK(yalwythen_shared_channel(shared, YALWYTHEN_TBMQUEUE, 4, &large));
    CHECK_OK(yalwythen_shared_channel(shared, YALWYTHEN_TMQUEUE, 0, &small));
    CHECK_OK(yalwythen_shared_channel(shared, YALWYTHEN_TQUEUE, 0, &permits));
    for (int i = 0; i < PERMITS; i++) CHECK_OK(yalwythen_send(shared, permits, 1, NULL));
}

int main(void) {
    pthread_t producers[PRODUCERS], routers[ROUTERS], consumers[2];
    uint64_t *counts[2], left;
    CHECK_OK(yalwythen_shared_new(NULL, &shared));
    make_channels();
    CHECK(!pthread_create(&consumers[0], NULL, be_consumer, &large));
    CHECK(!pthread_create(&consumers[1], NULL, be_consumer, &small));
    for (int i = 0; i < ROUTERS; i++) CHECK(!pthread_create(&routers[i], NULL, be_router, NULL));
    for (uintptr_t i = 0; i < PRODUCERS; i++) CHECK(!pthread_create(&producers[i], NULL, be_producer, (void *)i));
    for (int i = 0; i < PRODUCERS; i++) CHECK(!pthread_join(producers[i], NULL));
    CHECK_OK(yalwythen_close(shared, urgent));
    CHECK_OK(yalwythen_close(shared, orders));
    for (int i = 0; i < ROUTERS; i++) CHECK(!pthread_join(routers[i], NULL));
    CHECK_OK(yalwythen_close(shared, large));
    CHECK_OK(yalwythen_close(shared, small));
    for (int i = 0; i < 2; i++) CHECK(!pthread_join(consumers[i], (void **)&counts[i]));
    CHECK_ABORTED(yalwythen_atomically(shared, count_permits, &left, NULL), BY_CALLER);
    CHECK(left == PERMITS && *counts[0] == ORDERS / 5 && *counts[0] + *counts[1] == ORDERS);
    printf("%llu large and %llu small orders, each once\n", (unsigned long long)*counts[0],
           (unsigned long long)*counts[1]);
    free(counts[0]);
    free(counts[1]);
    yalwythen_shared_free(shared);
    return 0;
}
