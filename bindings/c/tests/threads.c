/* Waiting: deadlines, a closing, an abort and an error, seats, and watches for event loops. */
#include "check.h"
#include <poll.h>
#include <pthread.h>
#include <yalwythen_threads.h>

static const struct timespec past;
static yalwythen_shared *shared;
static yalwythen_channel queue, bounded, closable, news;

static void make(void) {
    CHECK_OK(yalwythen_shared_new(NULL, &shared));
    CHECK_OK(yalwythen_shared_channel(shared, YALWYTHEN_TQUEUE, 0, &queue));
    CHECK_OK(yalwythen_shared_channel(shared, YALWYTHEN_TBQUEUE, 1, &bounded));
    CHECK_OK(yalwythen_shared_channel(shared, YALWYTHEN_TBMQUEUE, 1, &closable));
    CHECK_OK(yalwythen_shared_channel(shared, YALWYTHEN_TMCHAN, 2, &news));
}

static bool is_late(yalwythen_result result, yalwythen_cause cause) {
    return result.status == YALWYTHEN_TIMED_OUT && result.cause == cause;
}

static void check_deadlines(void) {
    struct timespec from = yalwythen_after(0), soon = yalwythen_after(20000000), now;
    uint64_t item;
    CHECK(is_late(yalwythen_receive(shared, queue, &item, &past), YALWYTHEN_CAUSE_EMPTY));
    CHECK(is_late(yalwythen_receive(shared, queue, &item, &soon), YALWYTHEN_CAUSE_EMPTY));
    now = yalwythen_after(0);
    CHECK((now.tv_sec - from.tv_sec) * 1000000000 + now.tv_nsec - from.tv_nsec >= 20000000);
    CHECK_OK(yalwythen_send(shared, bounded, 1, &past));
    CHECK(is_late(yalwythen_send(shared, bounded, 2, &past), YALWYTHEN_CAUSE_FULL));
    soon = yalwythen_after(1000000);
    CHECK(is_late(yalwythen_send(shared, bounded, 2, &soon), YALWYTHEN_CAUSE_FULL));
    CHECK_OK(yalwythen_receive(shared, bounded, NULL, &past));
    soon = yalwythen_after(UINT64_MAX);
    CHECK(soon.tv_sec > now.tv_sec && soon.tv_nsec < 1000000000);
    CHECK_OK(yalwythen_send(shared, bounded, 3, &soon));
    CHECK_OK(yalwythen_receive(shared, bounded, &item, &soon));
    CHECK(item == 3);
}

static void *receive_one(void *from) {
    uint64_t item;
    yalwythen_result result = yalwythen_receive(shared, *(yalwythen_channel *)from, &item, NULL);
    return (void *)(uintptr_t)(result.status == YALWYTHEN_OK ? item : result.status == YALWYTHEN_CLOSED ? 77 : 99);
}
static void *send_one(void *to) {
    return (void *)(uintptr_t)yalwythen_send(shared, *(yalwythen_channel *)to, 5, NULL).status;
}
static void *read_news(void *reader) {
    uint64_t item;
    uint16_t number = (uint16_t)(uintptr_t)reader;
    CHECK_OK(yalwythen_receive_by(shared, news, number, &item, NULL));
    return (void *)(uintptr_t)item;
}

static void sleep_a_little(void) {
    const struct timespec little = {0, 5000000};
    nanosleep(&little, NULL);
}

static uintptr_t join(pthread_t thread) {
    void *end;
    CHECK(!pthread_join(thread, &end));
    return (uintptr_t)end;
}

/* All that wait go on when the channel is closed. */
static void check_closing(void) {
    pthread_t threads[6];
    uint64_t item;
    for (int i = 0; i < 3; i++) CHECK(!pthread_create(&threads[i], NULL, receive_one, &closable));
    sleep_a_little();
    CHECK_OK(yalwythen_close(shared, closable));
    for (int i = 0; i < 3; i++) CHECK(join(threads[i]) == 77);
    CHECK(yalwythen_send(shared, closable, 1, NULL).status == YALWYTHEN_CLOSED);
    CHECK(yalwythen_receive(shared, closable, &item, NULL).status == YALWYTHEN_CLOSED);
    CHECK_OK(yalwythen_close(shared, closable));
    CHECK_OK(yalwythen_shared_channel(shared, YALWYTHEN_TBMQUEUE, 0, &closable));
    for (int i = 0; i < 6; i++) CHECK(!pthread_create(&threads[i], NULL, send_one, &closable));
    sleep_a_little();
    CHECK_OK(yalwythen_close(shared, closable));
    for (int i = 0; i < 6; i++) CHECK(join(threads[i]) == YALWYTHEN_CLOSED);
}

/* An item of a broadcast wakes each reader. */
static void check_broadcast(void) {
    pthread_t threads[2];
    for (uintptr_t i = 0; i < 2; i++) CHECK(!pthread_create(&threads[i], NULL, read_news, (void *)i));
    sleep_a_little();
    CHECK_OK(yalwythen_send(shared, news, 8, NULL));
    for (int i = 0; i < 2; i++) CHECK(join(threads[i]) == 8);
}

/* Takes an item, and then fails, since the broadcast has no such reader. */
static void *take_and_fail(void *unused) {
    const yalwythen_step steps[] = {on(YALWYTHEN_READ, queue, 0), by(YALWYTHEN_PUT_BACK, news, 9)};
    CHECK_ABORTED(yalwythen_run(shared, steps, 2, NULL, NULL), NO_READER);
    return unused;
}

/* A thread that is woken for an item and fails leaves it to the next one. */
static void check_error(void) {
    pthread_t fails, next;
    CHECK(!pthread_create(&fails, NULL, take_and_fail, NULL));
    sleep_a_little();
    CHECK(!pthread_create(&next, NULL, receive_one, &queue));
    sleep_a_little();
    CHECK_OK(yalwythen_send(shared, queue, 6, NULL));
    CHECK(join(next) == 6);
    CHECK_OK(yalwythen_send(shared, queue, 7, NULL));
    CHECK(join(fails) == 0);
    CHECK_OK(yalwythen_receive(shared, queue, NULL, &past));
}

/* Takes an item that is not 1: puts a 1 back and waits. */
static yalwythen_result take_another(yalwythen_domain *domain, void *item) {
    yalwythen_reply reply;
    yalwythen_result result = yalwythen_apply(domain, on(YALWYTHEN_READ, queue, 0), &reply);
    if (result.status != YALWYTHEN_OK) return result;
    if (reply.value == 1) return yalwythen_retry();
    *(uint64_t *)item = reply.value;
    return result;
}
static void *take_other(void *item) {
    CHECK_OK(yalwythen_atomically(shared, take_another, item, NULL));
    return NULL;
}

/* A body waits for any change of what it looked at, and leaves no trace until then. */
static void check_bodies(void) {
    struct timespec soon = yalwythen_after(1000000);
    pthread_t thread;
    uint64_t item = 0;
    CHECK_OK(yalwythen_send(shared, queue, 1, NULL));
    CHECK(is_late(yalwythen_atomically(shared, take_another, &item, &past), YALWYTHEN_CAUSE_ASKED));
    CHECK(is_late(yalwythen_atomically(shared, take_another, &item, &soon), YALWYTHEN_CAUSE_ASKED));
    CHECK(!pthread_create(&thread, NULL, take_other, &item));
    sleep_a_little();
    CHECK_OK(yalwythen_send(shared, queue, 2, NULL));
    sleep_a_little();
    CHECK_OK(yalwythen_receive(shared, queue, NULL, NULL));
    CHECK(join(thread) == 0 && item == 2);
}

static bool is_readable(const yalwythen_watch *watch) {
    struct pollfd polled = {yalwythen_watch_fd(watch), POLLIN, 0};
    int count = poll(&polled, 1, 0);
    CHECK(count >= 0);
    return count == 1;
}

/* A watch is readable at first, and then after each change that it waits for. */
static void check_watches(void) {
    const yalwythen_step read = on(YALWYTHEN_READ, queue, 0), write = on(YALWYTHEN_WRITE, bounded, 1);
    const yalwythen_step either[] = {on(YALWYTHEN_EITHER, queue, 0), read, on(YALWYTHEN_OR, queue, 0), write,
                                     on(YALWYTHEN_END, queue, 0)};
    yalwythen_watch *items, *slots, *both;
    CHECK_OK(yalwythen_watch_new(shared, &read, 1, &items));
    CHECK_OK(yalwythen_watch_new(shared, &write, 1, &slots));
    CHECK_OK(yalwythen_watch_new(shared, either, 5, &both));
    CHECK(is_readable(items) && is_readable(slots) && is_readable(both));
    CHECK_OK(yalwythen_watch_clear(items));
    CHECK_OK(yalwythen_watch_clear(slots));
    CHECK_OK(yalwythen_watch_clear(both));
    CHECK_OK(yalwythen_watch_clear(both));
    CHECK(!is_readable(items) && !is_readable(slots) && !is_readable(both));
    CHECK_OK(yalwythen_send(shared, bounded, 1, NULL));
    CHECK(!is_readable(items) && !is_readable(slots) && !is_readable(both));
    CHECK_OK(yalwythen_send(shared, queue, 1, NULL));
    CHECK(is_readable(items) && !is_readable(slots) && is_readable(both));
    CHECK_OK(yalwythen_watch_clear(both));
    CHECK_OK(yalwythen_send(shared, queue, 2, NULL));
    CHECK(is_readable(items) && is_readable(both));
    CHECK_OK(yalwythen_watch_clear(items));
    CHECK_OK(yalwythen_receive(shared, queue, NULL, &past));
    CHECK(!is_readable(items) && !is_readable(slots));
    CHECK_OK(yalwythen_receive(shared, bounded, NULL, &past));
    CHECK(!is_readable(items) && is_readable(slots));
    CHECK_OK(yalwythen_receive(shared, queue, NULL, &past));
    yalwythen_watch_free(items);
    yalwythen_watch_free(both);
    CHECK_OK(yalwythen_watch_clear(slots));
    /* A watch keeps the domain. */
    yalwythen_shared_free(shared);
    CHECK_OK(yalwythen_watch_clear(slots));
    CHECK(!is_readable(slots));
    yalwythen_watch_free(slots);
}

/* Each handle of a domain that records logs has its seat. */
static void check_seats(void) {
    const yalwythen_options options = {sizeof options, true};
    yalwythen_shared *other;
    yalwythen_seat seat;
    yalwythen_record *records;
    size_t count;
    CHECK_OK(yalwythen_shared_new(&options, &shared));
    CHECK_OK(yalwythen_shared_seat(shared, &other, &seat));
    CHECK(seat.number == 1);
    CHECK_OK(yalwythen_shared_channel(other, YALWYTHEN_TQUEUE, 0, &queue));
    CHECK_OK(yalwythen_send(shared, queue, 5, NULL));
    CHECK_OK(yalwythen_receive(other, queue, NULL, NULL));
    CHECK_OK(yalwythen_send(other, queue, 6, NULL));
    yalwythen_shared_free(shared);
    CHECK_OK(yalwythen_shared_account(other, queue, &records, &count));
    CHECK(count == 4 && records[0].seat == 0 && records[1].seat == 1 && records[1].maker == 0);
    CHECK(records[2].seat == 1 && records[3].act == YALWYTHEN_ACT_LEFT && records[3].maker == 1);
    yalwythen_account_free(records);
    yalwythen_shared_free(other);
}

int main(void) {
    make();
    check_deadlines();
    check_closing();
    check_broadcast();
    check_error();
    check_bodies();
    check_watches();
    check_seats();
    puts("waited");
    return 0;
}
