/* Threads that move numbered items around a ring of queues, by bodies and by lists of steps, some with deadlines. Other
 * threads send to a queue that an event loop receives from, and to a broadcast. Each item goes around as often as it
 * should, or comes once and in order, and no thread sleeps for ever. */
#include "check.h"
#include <poll.h>
#include <pthread.h>
#include <yalwythen_threads.h>

#ifndef ROUNDS
#define ROUNDS 1500
#define EACH 4000
#endif
enum { RING = 3, MOVERS = 2, ITEMS = 24, SENDERS = 3 };
static yalwythen_shared *shared;
static yalwythen_channel ring[RING], done, inbox, news;

/* Takes an item from one place of the ring to the next, and an item that has gone round often enough to `done`. */
static yalwythen_result move(yalwythen_domain *domain, void *place) {
    unsigned at = *(unsigned *)place;
    yalwythen_reply item;
    yalwythen_result result = yalwythen_apply(domain, on(YALWYTHEN_READ, ring[at], 0), &item);
    if (result.status != YALWYTHEN_OK) return result;
    if (item.kind == YALWYTHEN_REPLY_CLOSED) return yalwythen_abort();
    if (at == 0) item.value += 1000;
    if (item.value / 1000 > ROUNDS) return yalwythen_apply(domain, on(YALWYTHEN_WRITE, done, item.value % 1000), NULL);
    return yalwythen_apply(domain, on(YALWYTHEN_WRITE, ring[(at + 1) % RING], item.value), NULL);
}

/* Moves items, sometimes with a deadline that is near, until the ring is closed. */
static void *be_mover(void *place) {
    for (unsigned count = 0;; count++) {
        struct timespec soon = yalwythen_after(count % 7 * 20000);
        yalwythen_result result = yalwythen_atomically(shared, move, place, count % 3 ? NULL : &soon);
        if (result.status == YALWYTHEN_ABORTED) return NULL;
        CHECK(result.status == YALWYTHEN_OK || result.status == YALWYTHEN_TIMED_OUT);
    }
}

/* Moves items over the last part of the ring by lists of steps: these do not look at the item. */
static void *be_passer(void *unused) {
    const yalwythen_step steps[] = {on(YALWYTHEN_READ, ring[RING - 1], 0), on(YALWYTHEN_WRITE_LAST, ring[0], 0)};
    yalwythen_result result;
    while ((result = yalwythen_run(shared, steps, 2, NULL, NULL)).status == YALWYTHEN_OK) continue;
    CHECK_ABORTED(result, NOTHING_READ);
    return unused;
}

static void *be_sender(void *number) {
    uint64_t base = (uint64_t)(uintptr_t)number << 32;
    for (uint64_t item = 1; item <= EACH; item++) {
        const yalwythen_step both[] = {on(YALWYTHEN_WRITE, inbox, base | item), on(YALWYTHEN_WRITE, news, base | item)};
        CHECK_OK(yalwythen_run(shared, both, 2, NULL, NULL));
    }
    return NULL;
}

static void see(uint64_t item, uint64_t last[SENDERS], uint64_t *count) {
    CHECK((item & UINT32_MAX) > last[item >> 32]);
    last[item >> 32] = item & UINT32_MAX;
    ++*count;
}

/* Receives by a watch until the inbox is closed. */
static void *be_loop(void *counted) {
    const yalwythen_step read = on(YALWYTHEN_READ, inbox, 0);
    static const struct timespec past;
    uint64_t last[SENDERS] = {0}, item;
    yalwythen_result result = {YALWYTHEN_OK, YALWYTHEN_CAUSE_NONE, YALWYTHEN_REASON_NONE, 0};
    yalwythen_watch *watch;
    CHECK_OK(yalwythen_watch_new(shared, &read, 1, &watch));
    while (result.status != YALWYTHEN_CLOSED) {
        struct pollfd polled = {yalwythen_watch_fd(watch), POLLIN, 0};
        CHECK(poll(&polled, 1, 60000) == 1);
        CHECK_OK(yalwythen_watch_clear(watch));
        while ((result = yalwythen_receive(shared, inbox, &item, &past)).status == YALWYTHEN_OK) {
            see(item, last, counted);
        }
    }
    yalwythen_watch_free(watch);
    return NULL;
}

static void *be_reader(void *counted) {
    uint64_t last[SENDERS] = {0}, item;
    while (yalwythen_receive_by(shared, news, 1, &item, NULL).status == YALWYTHEN_OK) see(item, last, counted);
    return NULL;
}

static void start(pthread_t *thread, void *(*body)(void *), void *user) {
    CHECK(!pthread_create(thread, NULL, body, user));
}

static void make_channels(void) {
    for (int at = 0; at < RING; at++) {
        CHECK_OK(yalwythen_shared_channel(shared, YALWYTHEN_TBMQUEUE, at == 1 ? 1 : ITEMS, &ring[at]));
    }
    CHECK_OK(yalwythen_shared_channel(shared, YALWYTHEN_TQUEUE, 0, &done));
    CHECK_OK(yalwythen_shared_channel(shared, YALWYTHEN_TBMQUEUE, 5, &inbox));
    CHECK_OK(yalwythen_shared_channel(shared, YALWYTHEN_TMCHAN, 2, &news));
}

/* Ends the ring: all items have come, each once. */
static void end_ring(void) {
    bool came[ITEMS] = {false};
    for (int count = 0; count < ITEMS; count++) {
        uint64_t item;
        CHECK_OK(yalwythen_receive(shared, done, &item, NULL));
        CHECK(item < ITEMS && !came[item]);
        came[item] = true;
    }
    for (int at = 0; at < RING; at++) CHECK_OK(yalwythen_close(shared, ring[at]));
}

int main(void) {
    static unsigned places[RING - 1] = {0, 1};
    pthread_t movers[MOVERS * (RING - 1)], passers[MOVERS], senders[SENDERS], loop, reader;
    uint64_t by_loop = 0, by_reader = 0;
    CHECK_OK(yalwythen_shared_new(NULL, &shared));
    make_channels();
    start(&loop, be_loop, &by_loop);
    start(&reader, be_reader, &by_reader);
    for (int i = 0; i < MOVERS * (RING - 1); i++) start(&movers[i], be_mover, &places[i % (RING - 1)]);
    for (int i = 0; i < MOVERS; i++) start(&passers[i], be_passer, NULL);
    for (uint64_t item = 0; item < ITEMS; item++) CHECK_OK(yalwythen_send(shared, ring[0], item, NULL));
    for (uintptr_t i = 0; i < SENDERS; i++) start(&senders[i], be_sender, (void *)i);
    for (int i = 0; i < SENDERS; i++) CHECK(!pthread_join(senders[i], NULL));
    CHECK_OK(yalwythen_close(shared, inbox));
    CHECK_OK(yalwythen_close(shared, news));
    CHECK(!pthread_join(loop, NULL) && !pthread_join(reader, NULL));
    end_ring();
    for (int i = 0; i < MOVERS * (RING - 1); i++) CHECK(!pthread_join(movers[i], NULL));
    for (int i = 0; i < MOVERS; i++) CHECK(!pthread_join(passers[i], NULL));
    yalwythen_shared_free(shared);
    CHECK(by_loop == SENDERS * EACH && by_reader == SENDERS * EACH);
    printf("%d rounds of %d items, and %d received twice\n", ROUNDS, ITEMS, SENDERS * EACH);
    return 0;
}
