/* Who waits for what, and who is woken. */
#include "waiting.h"
#include <errno.h>
#include <stdlib.h>
#include <unistd.h>

typedef enum effect { NOTHING, GIVES_ITEM, GIVES_SLOT, GIVES_ALL } effect;

static effect effect_of(yalwythen_op op) {
    switch (op) {
    case YALWYTHEN_WRITE:
    case YALWYTHEN_TRY_WRITE:
    case YALWYTHEN_PUT_BACK:
    case YALWYTHEN_WRITE_LAST:
    case YALWYTHEN_TRY_WRITE_LAST:
    case YALWYTHEN_PUT_BACK_LAST: return GIVES_ITEM;
    case YALWYTHEN_READ:
    case YALWYTHEN_TRY_READ: return GIVES_SLOT;
    case YALWYTHEN_CLOSE:
    case YALWYTHEN_FLUSH: return GIVES_ALL;
    default: return NOTHING;
    }
}

/* Whether an operation can have to wait, and for which side of its channel. */
static bool waits(const center *at, const yalwythen_step *step, side *for_side) {
    switch (step->op) {
    case YALWYTHEN_READ:
    case YALWYTHEN_PEEK: *for_side = ITEMS; return true;
    case YALWYTHEN_WRITE:
    case YALWYTHEN_PUT_BACK:
    case YALWYTHEN_WRITE_LAST:
    case YALWYTHEN_PUT_BACK_LAST: *for_side = SLOTS; return at->slots[step->channel.number].has_bound;
    default: return false;
    }
}

/* Whether steps take just one item or slot of a queue. Besides, they can write to channels without a bound. */
static bool is_single(const center *at, const yalwythen_step *steps, size_t length) {
    const yalwythen_step *one = NULL;
    size_t i;
    for (i = 0; i < length; i++) {
        bool is_free = effect_of(steps[i].op) == GIVES_ITEM && !at->slots[steps[i].channel.number].has_bound;
        if (is_free) continue;
        if (one != NULL) return false;
        one = &steps[i];
    }
    return one != NULL && (one->op == YALWYTHEN_READ || one->op == YALWYTHEN_WRITE) &&
           !at->slots[one->channel.number].is_broadcast;
}

static queue *queue_of(center *at, const wish *wanted) {
    slot *in = &at->slots[wanted->channel];
    return wanted->of->is_single ? &in->single[wanted->side] : &in->several[wanted->side];
}

/* Puts a wish into its queue, in the order of the waiters' tickets. */
static void link_wish(center *at, wish *made) {
    queue *in = queue_of(at, made);
    wish *after = in->last != NULL && in->last->of->ticket > made->of->ticket ? in->first : NULL;
    while (after != NULL && after->of->ticket < made->of->ticket) after = after->after;
    made->after = after;
    made->before = after != NULL ? after->before : in->last;
    *(made->before != NULL ? &made->before->after : &in->first) = made;
    *(after != NULL ? &after->before : &in->last) = made;
}

static void unlink_wish(center *at, wish *old) {
    queue *in = queue_of(at, old);
    *(old->before != NULL ? &old->before->after : &in->first) = old->after;
    *(old->after != NULL ? &old->after->before : &in->last) = old->before;
}

/* Adds a wish that the waiter does not have yet. `at->notes` is the same for all wishes of a call. */
static void add_wish(center *at, waiter *who, uint16_t channel, side for_side) {
    slot *in = &at->slots[channel];
    wish *made = &who->wishes[who->count];
    if (in->noted[for_side] == at->notes) return;
    in->noted[for_side] = at->notes;
    who->count++;
    made->of = who;
    made->channel = channel;
    made->side = (uint8_t)for_side;
    link_wish(at, made);
}

void forget(center *at, waiter *who) {
    while (who->count > 0) unlink_wish(at, &who->wishes[--who->count]);
}

/* Makes room for `most` wishes of a waiter that has none; whether there is memory. */
static bool reserve(waiter *who, size_t most) {
    wish *wishes;
    if (who->wishes == NULL) {
        who->wishes = who->few;
        who->size = FEW;
    }
    if (most <= who->size) return true;
    wishes = most > SIZE_MAX / sizeof *wishes ? NULL : (wish *)malloc(most * sizeof *wishes);
    if (wishes == NULL) return false;
    if (who->wishes != who->few) free(who->wishes);
    who->wishes = wishes;
    who->size = most;
    return true;
}

bool wait_for_steps(center *at, waiter *who, const yalwythen_step *steps, size_t length) {
    size_t i, most = 0;
    side for_side;
    for (i = 0; i < length; i++) most += waits(at, &steps[i], &for_side);
    if (!reserve(who, most)) return false;
    who->is_single = !who->is_watch && is_single(at, steps, length);
    at->notes++;
    for (i = 0; i < length; i++) {
        if (waits(at, &steps[i], &for_side)) add_wish(at, who, steps[i].channel.number, for_side);
    }
    return true;
}

bool wait_for_any_change(center *at, waiter *who, const yalwythen_step *steps, size_t length) {
    size_t i;
    if (length > SIZE_MAX / SIDES || !reserve(who, SIDES * length)) return false;
    who->is_single = false;
    at->notes++;
    for (i = 0; i < length; i++) {
        add_wish(at, who, steps[i].channel.number, ITEMS);
        add_wish(at, who, steps[i].channel.number, SLOTS);
    }
    return true;
}

void release(waiter *who) {
    if (who->has_condition) pthread_cond_destroy(&who->changed);
    if (who->wishes != who->few) free(who->wishes);
}

void wake(center *at, waiter *who) {
    static const uint64_t one = 1;
    if (!who->is_watch) forget(at, who);
    if (who->is_woken) return;
    who->is_woken = true;
    if (!who->is_watch) pthread_cond_signal(&who->changed);
    /* A write to an eventfd fails only if its counter is full, and then it is readable. */
    else while (write(who->fd, &one, sizeof one) < 0 && errno == EINTR) continue;
}

/* Wakes waiters of a side of a channel: the first of the single ones or all of them, and all others. */
static void wake_side(center *at, uint16_t channel, side of, bool all) {
    slot *in = &at->slots[channel];
    wish *next, *one;
    for (one = in->several[of].first; one != NULL; one = next) {
        next = one->after;
        wake(at, one->of);
    }
    while (in->single[of].first != NULL) {
        wake(at, in->single[of].first->of);
        if (!all) return;
    }
}

void wake_for(center *at, const yalwythen_step *steps, size_t length) {
    size_t i;
    for (i = 0; at->waiters != NULL && i < length; i++) {
        uint16_t channel = steps[i].channel.number;
        effect gives = effect_of(steps[i].op);
        if (gives == GIVES_ITEM || gives == GIVES_ALL) wake_side(at, channel, ITEMS, gives == GIVES_ALL);
        if (gives == GIVES_SLOT || gives == GIVES_ALL) wake_side(at, channel, SLOTS, gives == GIVES_ALL);
    }
}

void wake_all(center *at) {
    waiter *who;
    for (who = at->waiters; who != NULL; who = who->after) wake(at, who);
}

void enlist(center *at, waiter *who) {
    who->before = NULL;
    who->after = at->waiters;
    if (at->waiters != NULL) at->waiters->before = who;
    at->waiters = who;
}

void delist(center *at, waiter *who) {
    *(who->before != NULL ? &who->before->after : &at->waiters) = who->after;
    if (who->after != NULL) who->after->before = who->before;
}
