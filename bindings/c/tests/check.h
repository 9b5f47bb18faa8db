/* What the tests share. */
#ifndef CHECK_H
#define CHECK_H
#include <stdio.h>
#include <stdlib.h>
#include <yalwythen.h>

/* How many checks this thread made. */
static __thread unsigned long checks;

/* Fails in every build, also without asserts. */
static inline void check(bool holds, const char *what, const char *file, int line) {
    checks++;
    if (holds) return;
    fprintf(stderr, "%s:%d: not so: %s\n", file, line, what);
    _Exit(1);
}
#define CHECK(holds) check((holds), #holds, __FILE__, __LINE__)
#define CHECK_OK(call) CHECK((call).status == YALWYTHEN_OK)

static inline bool is(yalwythen_result result, yalwythen_status status, yalwythen_reason reason) {
    return result.status == status && result.reason == reason;
}
#define CHECK_MISUSE(call, why) CHECK(is((call), YALWYTHEN_MISUSE, YALWYTHEN_REASON_##why))
#define CHECK_INVALID(call, why) CHECK(is((call), YALWYTHEN_INVALID, YALWYTHEN_REASON_##why))
#define CHECK_ABORTED(call, why) CHECK(is((call), YALWYTHEN_ABORTED, YALWYTHEN_REASON_##why))

static inline bool retries(yalwythen_result result, yalwythen_cause cause) {
    return result.status == YALWYTHEN_RETRY && result.cause == cause;
}

/* Steps and channels of a test, in short. */
static inline yalwythen_step on(yalwythen_op op, yalwythen_channel channel, uint64_t body) {
    yalwythen_step step = {op, {0}, 0, 0};
    step.channel = channel;
    step.body = body;
    return step;
}
static inline yalwythen_step by(yalwythen_op op, yalwythen_channel channel, uint16_t reader) {
    yalwythen_step step = on(op, channel, 0);
    step.reader = reader;
    return step;
}
#endif
