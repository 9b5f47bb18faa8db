/* Random schedules of threads that are none: at each time a thread that is not asleep makes its next attempt, as
 * running.c makes it under the lock, on channels of all kinds. When all are asleep, no transaction of theirs
 * can commit: otherwise a wake-up was lost. Linked with the files of src/. */
#include "check.h"
#include "../src/waiting.h"
#include <string.h>

enum { THREADS = 6, CHANNELS = 4, MOST = 5, SCENES = 4000, MOVES = 120 };

typedef struct thread {
    waiter waiter;
    yalwythen_step steps[MOST + 1];
    size_t length;
    bool is_asleep, has_slept, is_late, by_body;
} thread;

static center at;
static slot slots[CHANNELS];
static thread threads[THREADS];
static yalwythen_channel channels[CHANNELS];
static unsigned long commits, sleeps, errors;

static unsigned below(unsigned most) {
    static uint64_t state = 88172645463325252u;
    state ^= state << 13;
    state ^= state >> 7;
    state ^= state << 17;
    return (unsigned)(state >> 33) % most;
}

/* An operation: most often one that can wait; a close is rare. */
static yalwythen_step any_step(void) {
    static const yalwythen_op ops[] = {
        YALWYTHEN_READ, YALWYTHEN_READ, YALWYTHEN_READ, YALWYTHEN_WRITE, YALWYTHEN_WRITE, YALWYTHEN_WRITE,
        YALWYTHEN_PEEK, YALWYTHEN_TRY_READ, YALWYTHEN_TRY_WRITE, YALWYTHEN_PUT_BACK, YALWYTHEN_WRITE_LAST,
        YALWYTHEN_FLUSH, YALWYTHEN_IS_EMPTY, YALWYTHEN_CLOSE,
    };
    yalwythen_op op = ops[below(sizeof ops / sizeof *ops)];
    if (op == YALWYTHEN_CLOSE && below(8)) op = YALWYTHEN_READ;
    yalwythen_step step = on(op, channels[below(CHANNELS)], 7);
    step.reader = slots[step.channel.number].is_broadcast ? (uint16_t)below(2) : 0;
    return step;
}

/* A transaction: one to three steps, or alternatives of one step each, or one that aborts once it need not wait, if its
 * second channel is a broadcast. */
static void any_transaction(thread *who) {
    if (below(5) == 0) {
        who->steps[0] = on(YALWYTHEN_EITHER, channels[0], 0);
        who->steps[1] = any_step();
        who->steps[2] = on(YALWYTHEN_OR, channels[0], 0);
        who->steps[3] = any_step();
        who->steps[4] = on(YALWYTHEN_END, channels[0], 0);
        who->length = 5;
    } else if (below(8) == 0) {
        who->steps[0] = on(YALWYTHEN_READ, channels[below(CHANNELS)], 0);
        who->steps[1] = by(YALWYTHEN_PUT_BACK, channels[below(CHANNELS)], 9);
        who->length = 2;
    } else {
        who->length = 1 + (below(2) ? 0 : below(3));
        for (size_t i = 0; i < who->length; i++) who->steps[i] = any_step();
    }
    who->by_body = who->length < 4 && below(6) == 0;
    who->has_slept = who->is_late = false;
    who->waiter.ticket = 0;
}

/* An attempt, and what comes after it: see `commit_by`. */
static void attempt(thread *who) {
    yalwythen_result result = yalwythen_transact(at.domain, who->steps, who->length, NULL);
    if (result.status == YALWYTHEN_OK) {
        wake_for(&at, who->steps, who->length);
        commits++;
    } else if (result.status == YALWYTHEN_RETRY && !who->is_late) {
        if (who->waiter.ticket == 0) who->waiter.ticket = ++at.tickets;
        who->waiter.is_woken = false;
        CHECK((who->by_body ? wait_for_any_change : wait_for_steps)(&at, &who->waiter, who->steps, who->length));
        enlist(&at, &who->waiter);
        who->is_asleep = true;
        sleeps++;
        return;
    } else if (result.status != YALWYTHEN_RETRY) {
        if (who->has_slept) wake_all(&at);
        errors++;
    }
    any_transaction(who);
}

static void wake_up(thread *who, bool late) {
    delist(&at, &who->waiter);
    forget(&at, &who->waiter);
    who->is_asleep = false;
    who->has_slept = true;
    who->is_late = late;
}

/* Whether the transaction of a thread that is asleep could commit: here it ends in GIVE_UP then. */
static bool could_commit(thread *who) {
    who->steps[who->length] = on(YALWYTHEN_GIVE_UP, channels[0], 0);
    return retries(yalwythen_transact(at.domain, who->steps, who->length + 1, NULL), YALWYTHEN_CAUSE_ASKED);
}

/* Lets a thread make its next move; whether there is one that is not asleep. */
static bool move(void) {
    unsigned first = below(THREADS);
    for (unsigned i = 0; i < THREADS; i++) {
        thread *who = &threads[(first + i) % THREADS];
        if (who->is_asleep && who->waiter.is_woken) wake_up(who, below(8) == 0);
        if (who->is_asleep) continue;
        attempt(who);
        return true;
    }
    return false;
}

static void start_scene(void) {
    CHECK_OK(yalwythen_domain_new(NULL, &at.domain));
    memset(slots, 0, sizeof slots);
    at.slots = slots;
    for (int i = 0; i < CHANNELS; i++) {
        const yalwythen_kind kind = (yalwythen_kind)below(6);
        const bool is_broadcast = kind == YALWYTHEN_TCHAN || kind == YALWYTHEN_TMCHAN;
        CHECK_OK(yalwythen_channel_new(at.domain, kind, is_broadcast ? 2 : below(3), &channels[i]));
        slots[i].is_broadcast = is_broadcast;
        slots[i].has_bound = kind == YALWYTHEN_TBQUEUE || kind == YALWYTHEN_TBMQUEUE;
    }
    for (int i = 0; i < THREADS; i++) any_transaction(&threads[i]);
}

/* Ends all waits by their deadlines. */
static void end_scene(void) {
    for (int i = 0; i < THREADS; i++) {
        if (threads[i].is_asleep) wake_up(&threads[i], true);
    }
    CHECK(at.waiters == NULL);
    yalwythen_domain_free(at.domain);
}

int main(void) {
    unsigned long quiet = 0;
    for (int i = 0; i < THREADS; i++) CHECK(!pthread_cond_init(&threads[i].waiter.changed, NULL));
    for (int scene = 0; scene < SCENES; scene++) {
        start_scene();
        for (int moves = 0; moves < MOVES; moves++) {
            if (move()) continue;
            quiet++;
            for (int i = 0; i < THREADS; i++) CHECK(threads[i].is_asleep && !could_commit(&threads[i]));
            /* One of them is late, and goes on with another transaction. */
            wake_up(&threads[below(THREADS)], true);
        }
        end_scene();
    }
    for (int i = 0; i < THREADS; i++) {
        if (threads[i].waiter.wishes != threads[i].waiter.few) free(threads[i].waiter.wishes);
    }
    CHECK(quiet > SCENES && commits > SCENES && sleeps > SCENES && errors > SCENES);
    puts("no wake-up is lost");
    return 0;
}
