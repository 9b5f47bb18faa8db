/* Transactions of a domain that threads share: waiting until one commits, or until a deadline. */
#include "shared.h"
#include <errno.h>

#define SECOND UINT64_C(1000000000)

static yalwythen_result ok(void) { return result_of(YALWYTHEN_OK, YALWYTHEN_REASON_NONE); }
static yalwythen_result no_memory(void) { return result_of(YALWYTHEN_NO_MEMORY, YALWYTHEN_REASON_NONE); }
static yalwythen_result misuse(yalwythen_reason reason) { return result_of(YALWYTHEN_MISUSE, reason); }

/* Makes the condition variable of a waiter that has none, and gives it a ticket: the order of all waits of a call. */
static yalwythen_result prepare(center *at, waiter *who) {
    pthread_condattr_t monotonic;
    int error;
    if (who->has_condition) return ok();
    if ((error = pthread_condattr_init(&monotonic)) != 0) return system_error(error);
    error = pthread_condattr_setclock(&monotonic, CLOCK_MONOTONIC);
    if (error == 0) error = pthread_cond_init(&who->changed, &monotonic);
    pthread_condattr_destroy(&monotonic);
    if (error != 0) return system_error(error);
    who->has_condition = true;
    who->ticket = ++at->tickets;
    return ok();
}

/* Sleeps without the lock until the waiter is woken or the deadline has passed; whether it has passed. */
static bool rest(center *at, waiter *who, const struct timespec *deadline) {
    bool late = false;
    who->is_woken = false;
    enlist(at, who);
    while (!who->is_woken && !late) {
        if (deadline == NULL) pthread_cond_wait(&who->changed, &at->lock);
        else late = pthread_cond_timedwait(&who->changed, &at->lock, deadline) == ETIMEDOUT;
    }
    delist(at, who);
    forget(at, who);
    return late;
}

static bool is_over(const struct timespec *deadline) {
    struct timespec now;
    if (deadline == NULL) return false;
    if (deadline->tv_sec <= 0) return true;
    clock_gettime(CLOCK_MONOTONIC, &now);
    return now.tv_sec > deadline->tv_sec || (now.tv_sec == deadline->tv_sec && now.tv_nsec >= deadline->tv_nsec);
}

static yalwythen_result timed_out(yalwythen_result retry) {
    retry.status = YALWYTHEN_TIMED_OUT;
    return retry;
}

/* What a call runs: a list of steps, or a body. */
typedef struct attempt {
    const yalwythen_step *steps;
    size_t length;
    yalwythen_replies *replies;
    yalwythen_body body;
    void *user;
} attempt;

/* Runs the body in a transaction, and commits it or rolls it back. */
static yalwythen_result try_body(yalwythen_domain *domain, const attempt *what) {
    yalwythen_result ended, result = yalwythen_begin(domain);
    if (result.status != YALWYTHEN_OK) return result;
    domain->noted_count = 0;
    domain->is_inside = true;
    result = what->body(domain, what->user);
    domain->is_inside = false;
    if (result.status == YALWYTHEN_OK) result = yalwythen_commit(domain);
    if (result.status == YALWYTHEN_OK) return result;
    ended = yalwythen_roll_back(domain);
    if (ended.status != YALWYTHEN_OK) return ended;
    if (result.status == YALWYTHEN_RETRY && domain->noted_count == 0) {
        return misuse(YALWYTHEN_REASON_NOTHING_TO_WAIT_FOR);
    }
    return result;
}

static yalwythen_result try_once(yalwythen_domain *domain, const attempt *what) {
    if (what->body != NULL) return try_body(domain, what);
    return yalwythen_transact(domain, what->steps, what->length, what->replies);
}

/* Sleeps after an attempt that returned RETRY, and sets `late` if the deadline has passed. */
static yalwythen_result sleep_on(center *at, waiter *who, const attempt *what, const struct timespec *deadline,
                                 bool *late) {
    yalwythen_result result = prepare(at, who);
    bool noted;
    if (result.status != YALWYTHEN_OK) return result;
    if (what->body == NULL) noted = wait_for_steps(at, who, what->steps, what->length);
    else noted = wait_for_any_change(at, who, at->domain->noted, at->domain->noted_count);
    if (!noted) return no_memory();
    *late = rest(at, who, deadline);
    return result;
}

/* Tries until it commits, fails, or is late, and wakes the waiters that can perhaps go on then. */
static yalwythen_result commit_by(center *at, const attempt *what, const struct timespec *deadline) {
    yalwythen_result slept, result;
    bool late = false;
    waiter who;
    who.has_condition = who.is_watch = false;
    who.wishes = NULL;
    who.count = 0;
    while ((result = try_once(at->domain, what)).status == YALWYTHEN_RETRY) {
        if (late || is_over(deadline)) {
            release(&who);
            return timed_out(result);
        }
        slept = sleep_on(at, &who, what, deadline, &late);
        if (slept.status == YALWYTHEN_OK) continue;
        result = slept;
        break;
    }
    if (result.status == YALWYTHEN_OK && what->body == NULL) wake_for(at, what->steps, what->length);
    else if (result.status == YALWYTHEN_OK) wake_for(at, at->domain->noted, at->domain->noted_count);
    /* A call that did not sleep was not woken in place of another. */
    else if (who.has_condition) wake_all(at);
    release(&who);
    return result;
}

struct timespec yalwythen_after(uint64_t nanoseconds) {
    struct timespec at;
    clock_gettime(CLOCK_MONOTONIC, &at);
    nanoseconds += (uint64_t)at.tv_nsec < UINT64_MAX - nanoseconds ? (uint64_t)at.tv_nsec : 0;
    at.tv_sec += (time_t)(nanoseconds / SECOND);
    at.tv_nsec = (long)(nanoseconds % SECOND);
    return at;
}

static yalwythen_result run(yalwythen_shared *shared, const attempt *what, const struct timespec *deadline) {
    yalwythen_result result;
    if (deadline != NULL && (deadline->tv_nsec < 0 || deadline->tv_nsec >= (long)SECOND)) {
        return result_of(YALWYTHEN_INVALID, YALWYTHEN_REASON_DEADLINE);
    }
    if ((result = enter(shared)).status != YALWYTHEN_OK) return result;
    result = commit_by(shared->center, what, deadline);
    leave(shared);
    return result;
}

yalwythen_result yalwythen_run(yalwythen_shared *shared, const yalwythen_step *steps, size_t length,
                               yalwythen_replies *replies, const struct timespec *deadline) {
    attempt what = {NULL, 0, NULL, NULL, NULL};
    what.steps = steps;
    what.length = length;
    what.replies = replies;
    return run(shared, &what, deadline);
}

yalwythen_result yalwythen_atomically(yalwythen_shared *shared, yalwythen_body body, void *user,
                                      const struct timespec *deadline) {
    attempt what = {NULL, 0, NULL, NULL, NULL};
    if (body == NULL) return misuse(YALWYTHEN_REASON_NULL);
    what.body = body;
    what.user = user;
    return run(shared, &what, deadline);
}

yalwythen_result yalwythen_retry(void) {
    yalwythen_result result = result_of(YALWYTHEN_RETRY, YALWYTHEN_REASON_NONE);
    result.cause = YALWYTHEN_CAUSE_ASKED;
    return result;
}

yalwythen_result yalwythen_abort(void) { return result_of(YALWYTHEN_ABORTED, YALWYTHEN_REASON_BY_CALLER); }

/* Runs one operation; `item` gets what it replies with GOT, and can be NULL. */
static yalwythen_result run_one(yalwythen_shared *shared, yalwythen_step step, uint64_t *item,
                                const struct timespec *deadline) {
    yalwythen_reply reply = {YALWYTHEN_REPLY_DONE, 0};
    yalwythen_replies replies = {NULL, 1, NULL, 0, 0, 0};
    yalwythen_result result;
    replies.at = &reply;
    result = yalwythen_run(shared, &step, 1, &replies, deadline);
    if (result.status != YALWYTHEN_OK) return result;
    if (reply.kind == YALWYTHEN_REPLY_CLOSED) result.status = YALWYTHEN_CLOSED;
    if (reply.kind == YALWYTHEN_REPLY_GOT && item != NULL) *item = reply.value;
    return result;
}

static yalwythen_step step_of(yalwythen_op op, yalwythen_channel channel, uint16_t reader, uint64_t body) {
    yalwythen_step step;
    step.op = op;
    step.channel = channel;
    step.reader = reader;
    step.body = body;
    return step;
}

yalwythen_result yalwythen_send(yalwythen_shared *shared, yalwythen_channel channel, uint64_t item,
                                const struct timespec *deadline) {
    return run_one(shared, step_of(YALWYTHEN_WRITE, channel, 0, item), NULL, deadline);
}

yalwythen_result yalwythen_receive(yalwythen_shared *shared, yalwythen_channel channel, uint64_t *item,
                                   const struct timespec *deadline) {
    return yalwythen_receive_by(shared, channel, 0, item, deadline);
}

yalwythen_result yalwythen_receive_by(yalwythen_shared *shared, yalwythen_channel channel, uint16_t reader,
                                      uint64_t *item, const struct timespec *deadline) {
    return run_one(shared, step_of(YALWYTHEN_READ, channel, reader, 0), item, deadline);
}

yalwythen_result yalwythen_close(yalwythen_shared *shared, yalwythen_channel channel) {
    return run_one(shared, step_of(YALWYTHEN_CLOSE, channel, 0, 0), NULL, NULL);
}
