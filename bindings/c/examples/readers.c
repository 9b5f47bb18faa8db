/* A broadcast: two threads write, and three readers each get every item, all in one order, until it is closed. The
 * broadcast is created with two readers, and the third is added before anything is written. */
#include <pthread.h>
#include <stdio.h>
#include <stdlib.h>
#include <yalwythen_threads.h>

enum { EACH = 5000, WRITERS = 2, READERS = 3, ITEMS = WRITERS * EACH };
static yalwythen_shared *shared;
static yalwythen_channel news, queue;
/* What each reader got, in order. */
static uint64_t got[READERS][ITEMS];

/* Fails in every build, also without asserts. */
static void check(int holds, const char *what) {
    if (holds) return;
    fprintf(stderr, "readers.c: not so: %s\n", what);
    _Exit(1);
}

static int is_ok(yalwythen_result result) { return result.status == YALWYTHEN_OK; }

/* Runs one step, which must not have to wait. */
static yalwythen_result run(yalwythen_step step, yalwythen_reply *reply) {
    static const struct timespec past;
    yalwythen_replies replies = {.at = reply, .size = 1};
    return yalwythen_run(shared, &step, 1, &replies, &past);
}

static int fails(yalwythen_step step, yalwythen_status status, yalwythen_reason reason) {
    yalwythen_reply reply;
    yalwythen_result result = run(step, &reply);
    return result.status == status && result.reason == reason;
}

/* Writes its numbers, each with the writer's own as its remainder by the number of writers. */
static void *write_all(void *number) {
    uint64_t writer = (uintptr_t)number;
    for (uint64_t item = writer; item < ITEMS; item += WRITERS) {
        check(is_ok(yalwythen_send(shared, news, item, NULL)), "an item is written");
    }
    return NULL;
}

static void *read_all(void *number) {
    uint16_t reader = (uint16_t)(uintptr_t)number;
    uint64_t count = 0, item;
    while (is_ok(yalwythen_receive_by(shared, news, reader, &item, NULL))) {
        check(count < ITEMS, "a reader gets not too many items");
        got[reader][count++] = item;
    }
    check(count == ITEMS, "a reader gets all items");
    return NULL;
}

/* Adds the third reader, and tries wrong numbers. */
static void add_third_reader(void) {
    yalwythen_reply reply;
    check(is_ok(run((yalwythen_step){YALWYTHEN_DUP, news, 0, 0}, &reply)), "a reader is added");
    check(reply.kind == YALWYTHEN_REPLY_READER && reply.value == READERS - 1, "it is the third one");
    check(fails((yalwythen_step){YALWYTHEN_TRY_READ, news, READERS, 0}, YALWYTHEN_ABORTED, YALWYTHEN_REASON_NO_READER),
          "there is no fourth one");
    check(fails((yalwythen_step){YALWYTHEN_TRY_READ, queue, 1, 0}, YALWYTHEN_INVALID, YALWYTHEN_REASON_QUEUE_READER),
          "a queue has one reader");
    check(fails((yalwythen_step){YALWYTHEN_CLONE, queue, 0, 0}, YALWYTHEN_INVALID, YALWYTHEN_REASON_NOT_FOR_KIND),
          "a queue's reader is not cloned");
    check(fails((yalwythen_step){YALWYTHEN_TRY_READ, {2}, 0, 0}, YALWYTHEN_INVALID, YALWYTHEN_REASON_NO_CHANNEL),
          "there is no third channel");
}

/* Tries what cannot be declared, and leaves no trace of it. */
static void check_limits(void) {
    yalwythen_channel none;
    check(yalwythen_shared_channel(shared, YALWYTHEN_TCHAN, 65, &none).reason == YALWYTHEN_REASON_READERS,
          "a broadcast has not 65 readers");
    check(yalwythen_shared_channel(shared, (yalwythen_kind)6, 0, &none).reason == YALWYTHEN_REASON_NO_KIND,
          "there is no seventh kind");
}

/* Whether all readers got the same, and of each writer all in its order. */
static void check_order(void) {
    uint64_t next[WRITERS] = {0, 1};
    for (int i = 0; i < ITEMS; i++) {
        uint64_t *wanted = &next[got[0][i] % WRITERS];
        for (int reader = 1; reader < READERS; reader++) check(got[reader][i] == got[0][i], "all have one order");
        check(got[0][i] == *wanted, "a writer's items are in its order");
        *wanted += WRITERS;
    }
}

int main(void) {
    check(is_ok(yalwythen_shared_new(NULL, &shared)), "there is a domain");
    check_limits();
    check(is_ok(yalwythen_shared_channel(shared, YALWYTHEN_TMCHAN, READERS - 1, &news)), "there is a broadcast");
    check(is_ok(yalwythen_shared_channel(shared, YALWYTHEN_TQUEUE, 0, &queue)), "there is a queue");
    add_third_reader();
    pthread_t readers[READERS], writers[WRITERS];
    for (uintptr_t i = 0; i < READERS; i++) check(!pthread_create(&readers[i], 0, read_all, (void *)i), "it starts");
    for (uintptr_t i = 0; i < WRITERS; i++) check(!pthread_create(&writers[i], 0, write_all, (void *)i), "it starts");
    for (int i = 0; i < WRITERS; i++) check(!pthread_join(writers[i], 0), "it ends");
    check(is_ok(yalwythen_close(shared, news)), "it is closed");
    for (int i = 0; i < READERS; i++) check(!pthread_join(readers[i], 0), "it ends");
    yalwythen_state state;
    check(is_ok(yalwythen_shared_state(shared, news, &state)) && state.readers == READERS, "it has its readers");
    /* The third reader, each write, what each reader took of it, and the closing. */
    check(state.changes == 1 + ITEMS * (1 + READERS) + 1, "no other changes were committed");
    yalwythen_shared_free(shared);
    check_order();
    printf("%d readers, %d items each\n", READERS, ITEMS);
    return 0;
}
