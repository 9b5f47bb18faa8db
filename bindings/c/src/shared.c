/* A domain that threads share: its lock, its handles and its channels. */
#include "shared.h"
#include <errno.h>
#include <stdlib.h>
#include <string.h>

#define SHARED_MARK UINT64_C(0x79616c7768616e64)

static yalwythen_result ok(void) { return result_of(YALWYTHEN_OK, YALWYTHEN_REASON_NONE); }
static yalwythen_result no_memory(void) { return result_of(YALWYTHEN_NO_MEMORY, YALWYTHEN_REASON_NONE); }
static yalwythen_result misuse(yalwythen_reason reason) { return result_of(YALWYTHEN_MISUSE, reason); }

yalwythen_result system_error(int number) {
    errno = number;
    return result_of(YALWYTHEN_SYSTEM, YALWYTHEN_REASON_NONE);
}

static bool is_shared(const yalwythen_shared *shared) {
    return shared != NULL && (uintptr_t)shared % sizeof(uint64_t) == 0 && shared->mark == SHARED_MARK;
}

yalwythen_result enter(const yalwythen_shared *shared) {
    int error;
    if (!is_shared(shared)) return misuse(shared == NULL ? YALWYTHEN_REASON_NULL : YALWYTHEN_REASON_NO_DOMAIN);
    error = pthread_mutex_lock(&shared->center->lock);
    if (error == EDEADLK) return misuse(YALWYTHEN_REASON_INSIDE);
    if (error != 0) return system_error(error);
    shared->center->domain->seat = shared->seat.number;
    return ok();
}

void leave(const yalwythen_shared *shared) { pthread_mutex_unlock(&shared->center->lock); }

/* Makes a lock that reports a second call by the thread that has it. */
static int make_lock(pthread_mutex_t *lock) {
    pthread_mutexattr_t checking;
    int error = pthread_mutexattr_init(&checking);
    if (error != 0) return error;
    error = pthread_mutexattr_settype(&checking, PTHREAD_MUTEX_ERRORCHECK);
    if (error == 0) error = pthread_mutex_init(lock, &checking);
    pthread_mutexattr_destroy(&checking);
    return error;
}

static yalwythen_shared *handle_of(center *at, uint16_t seat) {
    yalwythen_shared *made = (yalwythen_shared *)malloc(sizeof *made);
    if (made == NULL) return NULL;
    made->mark = SHARED_MARK;
    made->center = at;
    made->seat.number = seat;
    at->handles++;
    return made;
}

yalwythen_result yalwythen_shared_new(const yalwythen_options *options, yalwythen_shared **shared) {
    yalwythen_shared *made = NULL;
    yalwythen_result result;
    center *at;
    int error;
    if (shared == NULL) return misuse(YALWYTHEN_REASON_NULL);
    at = (center *)calloc(1, sizeof *at);
    if (at == NULL) return no_memory();
    result = yalwythen_domain_new(options, &at->domain);
    if (result.status == YALWYTHEN_OK && (made = handle_of(at, 0)) == NULL) result = no_memory();
    if (result.status == YALWYTHEN_OK && (error = make_lock(&at->lock)) != 0) result = system_error(error);
    if (result.status == YALWYTHEN_OK) {
        *shared = made;
        return result;
    }
    free(made);
    yalwythen_domain_free(at->domain);
    free(at);
    return result;
}

bool leave_for_good(center *at) {
    bool is_last;
    if (pthread_mutex_lock(&at->lock) != 0) return false;
    is_last = --at->handles == 0;
    pthread_mutex_unlock(&at->lock);
    if (!is_last) return true;
    pthread_mutex_destroy(&at->lock);
    yalwythen_domain_free(at->domain);
    free(at->slots);
    free(at);
    return true;
}

void yalwythen_shared_free(yalwythen_shared *shared) {
    if (!is_shared(shared) || !leave_for_good(shared->center)) return;
    /* A volatile write, which the compiler keeps although the memory is freed next. */
    *(volatile uint64_t *)&shared->mark = 0;
    free(shared);
}

yalwythen_result yalwythen_shared_seat(yalwythen_shared *shared, yalwythen_shared **other, yalwythen_seat *seat) {
    yalwythen_seat made = {0};
    yalwythen_result result;
    yalwythen_shared *handle;
    if (other == NULL) return misuse(YALWYTHEN_REASON_NULL);
    if ((result = enter(shared)).status != YALWYTHEN_OK) return result;
    handle = handle_of(shared->center, 0);
    result = handle == NULL ? no_memory() : yalwythen_seat_new(shared->center->domain, &made);
    if (result.status == YALWYTHEN_OK) {
        handle->seat = made;
        *other = handle;
        if (seat != NULL) *seat = made;
    } else if (handle != NULL) {
        shared->center->handles--;
        free(handle);
    }
    leave(shared);
    return result;
}

yalwythen_result yalwythen_shared_channel(yalwythen_shared *shared, yalwythen_kind kind, uint64_t size,
                                          yalwythen_channel *channel) {
    yalwythen_result result = enter(shared);
    center *at;
    slot *slots;
    if (result.status != YALWYTHEN_OK) return result;
    at = shared->center;
    slots = (slot *)grown(at->slots, at->count, &at->size, sizeof *slots);
    if (slots == NULL) result = no_memory();
    else {
        at->slots = slots;
        result = yalwythen_channel_new(at->domain, kind, size, channel);
    }
    if (result.status == YALWYTHEN_OK) {
        slot *made = &slots[at->count++];
        memset(made, 0, sizeof *made);
        made->has_bound = kind == YALWYTHEN_TBQUEUE || kind == YALWYTHEN_TBMQUEUE;
        made->is_broadcast = kind == YALWYTHEN_TCHAN || kind == YALWYTHEN_TMCHAN;
    }
    leave(shared);
    return result;
}

yalwythen_result yalwythen_shared_state(yalwythen_shared *shared, yalwythen_channel channel, yalwythen_state *state) {
    yalwythen_result result = enter(shared);
    if (result.status != YALWYTHEN_OK) return result;
    result = yalwythen_channel_state(shared->center->domain, channel, state);
    leave(shared);
    return result;
}

yalwythen_result yalwythen_shared_account(yalwythen_shared *shared, yalwythen_channel channel,
                                          yalwythen_record **records, size_t *count) {
    yalwythen_result result = enter(shared);
    if (result.status != YALWYTHEN_OK) return result;
    result = yalwythen_account(shared->center->domain, channel, records, count);
    leave(shared);
    return result;
}
