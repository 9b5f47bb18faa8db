/* What the tests share. */
#ifndef CHECK_H
#define CHECK_H
#include "channel_core.h"
#include <stdio.h>
#include <stdlib.h>

/* How many checks were made. */
static unsigned long checks;

/* Fails in every build, also without asserts. */
static inline void check(core_result result, uint64_t code, uint64_t value, const char *what, const char *file,
                         int line) {
    checks++;
    if (result.code == code && result.value == value) return;
    fprintf(stderr, "%s:%d: %s returned (%llu, %llu)\n", file, line, what, (unsigned long long)result.code,
            (unsigned long long)result.value);
    _Exit(1);
}
#define CHECK_RESULT(call, code, value) check((call), (code), (value), #call, __FILE__, __LINE__)
#define CHECK_DONE(call, value) CHECK_RESULT(call, CORE_DONE, value)
#define CHECK_RETRY(call, cause) CHECK_RESULT(call, CORE_RETRY, cause)
#define CHECK_REJECTED(call, reason) CHECK_RESULT(call, CORE_REJECTED, reason)
#define CHECK_REPLY(call, reply, value) CHECK_RESULT(call, CORE_REPLY + (reply), value)
#define CHECK_NUMBER(number, wanted) CHECK_DONE(((core_result){CORE_DONE, (number)}), wanted)

/* Memory for a channel or a transaction, aligned to 16, as `malloc` aligns it. */
static inline void *memory_for(uint64_t bytes) {
    void *at = malloc(bytes);
    if (at) return at;
    fprintf(stderr, "out of memory\n");
    _Exit(1);
}

/* A place without a channel. */
static inline void *empty_place(void) {
    void *at = memory_for(yalwythen_channel_bytes());
    yalwythen_channel_init(at);
    return at;
}

/* A place with a channel. */
static inline void *channel(uint64_t kind, uint64_t size) {
    void *at = empty_place();
    CHECK_DONE(yalwythen_channel_make(at, kind, size, 0), 0);
    return at;
}

/* A place with a channel whose log is recorded. */
static inline void *recorded_channel(uint64_t kind, uint64_t size) {
    void *at = empty_place();
    CHECK_DONE(yalwythen_channel_make(at, kind, size, 1), 0);
    return at;
}

/* A transaction for channels whose logs are not recorded. */
static inline void *transaction(void) {
    void *txn = memory_for(yalwythen_txn_bytes());
    yalwythen_txn_init(txn);
    return txn;
}

/* A transaction of this seat for channels whose logs are recorded. */
static inline void *recorded_transaction(uint64_t seat) {
    void *txn = memory_for(yalwythen_txn_bytes());
    yalwythen_txn_init_recorded(txn);
    CHECK_DONE(yalwythen_txn_ask(txn, ASK_SEAT, seat, 0), 0);
    return txn;
}

static inline void end_channel(void *at) {
    yalwythen_channel_end(at);
    free(at);
}

static inline void end_transaction(void *txn) {
    yalwythen_txn_end(txn);
    free(txn);
}

static inline core_result write_to(void *at, uint64_t body) { return yalwythen_channel_commit_one(at, WRITE, 0, body); }
static inline core_result read_from(void *at, uint16_t reader) {
    return yalwythen_channel_commit_one(at, READ, reader, 0);
}
static inline core_result unread(void *at, uint64_t reader) { return yalwythen_channel_tell(at, TELL_UNREAD, reader); }

/* A step, in short. */
static inline core_step on(uint32_t number, uint16_t channel, uint64_t body) {
    core_step step = {number, channel, 0, body};
    return step;
}

/* Runs an operation of an open transaction. */
static inline core_result apply(void *txn, uint32_t number, uint16_t channel, uint64_t body) {
    return yalwythen_txn_ask(txn, ASK_APPLY, number | (uint64_t)channel << 32, body);
}
#endif
