/* Watches: descriptors by which event loops wait for steps. */
#include "shared.h"
#include <errno.h>
#include <stdlib.h>
#include <sys/eventfd.h>
#include <unistd.h>

struct yalwythen_watch {
    center *center;
    waiter waiter;
};

static yalwythen_result ok(void) { return result_of(YALWYTHEN_OK, YALWYTHEN_REASON_NONE); }
static yalwythen_result no_memory(void) { return result_of(YALWYTHEN_NO_MEMORY, YALWYTHEN_REASON_NONE); }
static yalwythen_result misuse(yalwythen_reason reason) { return result_of(YALWYTHEN_MISUSE, reason); }

/* Whether the channels of all steps are there. */
static bool are_there(const center *at, const yalwythen_step *steps, size_t length) {
    size_t i;
    for (i = 0; i < length; i++) {
        bool names_none = steps[i].op == YALWYTHEN_GIVE_UP || steps[i].op >= YALWYTHEN_EITHER;
        if (!names_none && steps[i].channel.number >= at->count) return false;
    }
    return true;
}

/* Makes the descriptor of a watch, and has it wait for the steps. */
static yalwythen_result start_watch(center *at, yalwythen_watch *made, const yalwythen_step *steps, size_t length) {
    waiter *who = &made->waiter;
    yalwythen_result result;
    if (!are_there(at, steps, length)) return result_of(YALWYTHEN_INVALID, YALWYTHEN_REASON_NO_CHANNEL);
    who->fd = eventfd(1, EFD_CLOEXEC | EFD_NONBLOCK);
    if (who->fd < 0) return system_error(errno);
    who->is_watch = who->is_woken = true;
    who->ticket = ++at->tickets;
    result = wait_for_steps(at, who, steps, length) ? ok() : no_memory();
    if (result.status == YALWYTHEN_OK && who->count == 0) result = misuse(YALWYTHEN_REASON_NOTHING_TO_WAIT_FOR);
    if (result.status != YALWYTHEN_OK) {
        close(who->fd);
        return result;
    }
    made->center = at;
    at->handles++;
    enlist(at, who);
    return result;
}

yalwythen_result yalwythen_watch_new(yalwythen_shared *shared, const yalwythen_step *steps, size_t length,
                                     yalwythen_watch **watch) {
    yalwythen_result result;
    yalwythen_watch *made;
    if (watch == NULL || (steps == NULL && length > 0)) return misuse(YALWYTHEN_REASON_NULL);
    made = (yalwythen_watch *)calloc(1, sizeof *made);
    if (made == NULL) return no_memory();
    if ((result = enter(shared)).status == YALWYTHEN_OK) {
        result = start_watch(shared->center, made, steps, length);
        leave(shared);
    }
    if (result.status == YALWYTHEN_OK) *watch = made;
    else {
        release(&made->waiter);
        free(made);
    }
    return result;
}

int yalwythen_watch_fd(const yalwythen_watch *watch) { return watch == NULL ? -1 : watch->waiter.fd; }

yalwythen_result yalwythen_watch_clear(yalwythen_watch *watch) {
    uint64_t count;
    int error;
    if (watch == NULL) return misuse(YALWYTHEN_REASON_NULL);
    if ((error = pthread_mutex_lock(&watch->center->lock)) == EDEADLK) return misuse(YALWYTHEN_REASON_INSIDE);
    if (error != 0) return system_error(error);
    while (read(watch->waiter.fd, &count, sizeof count) < 0 && errno == EINTR) continue;
    watch->waiter.is_woken = false;
    pthread_mutex_unlock(&watch->center->lock);
    return ok();
}

void yalwythen_watch_free(yalwythen_watch *watch) {
    center *at;
    if (watch == NULL || pthread_mutex_lock(&watch->center->lock) != 0) return;
    at = watch->center;
    forget(at, &watch->waiter);
    delist(at, &watch->waiter);
    pthread_mutex_unlock(&at->lock);
    close(watch->waiter.fd);
    release(&watch->waiter);
    free(watch);
    leave_for_good(at);
}
