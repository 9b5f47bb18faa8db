/* The handles of a domain that threads share. */
#ifndef YALWYTHEN_SHARED_H
#define YALWYTHEN_SHARED_H
#include "waiting.h"
#include "yalwythen_threads.h"

struct yalwythen_shared {
    uint64_t mark; /* SHARED_MARK until it is freed */
    center *center;
    yalwythen_seat seat;
};

/* Returns SYSTEM, and sets errno. */
yalwythen_result system_error(int number);

/* Takes the lock, and records under the seat of this handle. Fails if the handle is bad or if this thread has it. */
yalwythen_result enter(const yalwythen_shared *shared);

void leave(const yalwythen_shared *shared);

/* Counts one handle or watch less, and frees all with the last one. Returns whether it did, which it does not in a
 * body. */
bool leave_for_good(center *at);
#endif
