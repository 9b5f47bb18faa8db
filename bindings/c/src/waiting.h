/* The waiters of a shared domain, by channel and side. All of it is used under the lock of the domain.
 *
 * A transaction waits for items if it reads or peeks, and for free slots if it writes or puts back to a channel with a
 * bound. A transaction that commits gives an item for each write, and a slot for each take; a closing and a flush give
 * both. A waiter that takes just one item or slot of a queue is `single`: each item or slot wakes one of these, the
 * first that came. All other waiters of that side are woken, since they may leave what they find. A waiter tries once
 * more after it is woken, also after its deadline. If that ends in an error, it wakes all, since it may have been woken
 * in place of another. */
#ifndef YALWYTHEN_WAITING_H
#define YALWYTHEN_WAITING_H
#include "core.h"
#include <pthread.h>
#include <time.h>

typedef enum side { ITEMS, SLOTS } side;
enum { SIDES = 2, FEW = 8 };

typedef struct waiter waiter;
/* That a waiter waits for a side of a channel. */
typedef struct wish {
    waiter *of;
    struct wish *before, *after;
    uint16_t channel;
    uint8_t side;
} wish;
/* A list of wishes in the order of their waiters' tickets. */
typedef struct queue {
    wish *first, *last;
} queue;

/* A thread that waits, on its stack, or a watch. `is_watch` waiters stay when they are woken. */
struct waiter {
    pthread_cond_t changed;
    bool has_condition, is_watch, is_single, is_woken;
    int fd;
    uint64_t ticket;
    wish *wishes;
    size_t count, size;
    wish few[FEW];
    waiter *before, *after; /* of all waiters */
};

typedef struct slot {
    queue single[SIDES], several[SIDES];
    uint64_t noted[SIDES]; /* the last call of `add_wish` that was here, by `center.notes` */
    bool has_bound, is_broadcast;
} slot;

/* What all handles share. All but `lock` is used under the lock. */
typedef struct center {
    pthread_mutex_t lock;
    yalwythen_domain *domain;
    slot *slots;
    size_t count, size, handles;
    uint64_t tickets, notes;
    waiter *waiters;
} center;

/* Notes that a waiter waits until these valid steps can commit; whether there is memory. */
bool wait_for_steps(center *at, waiter *who, const yalwythen_step *steps, size_t length);

/* Notes that a waiter waits until a channel of these operations changes; whether there is memory. */
bool wait_for_any_change(center *at, waiter *who, const yalwythen_step *steps, size_t length);

/* Removes what a waiter waits for. */
void forget(center *at, waiter *who);

/* Frees what a waiter has, which waits for nothing. */
void release(waiter *who);

/* Adds a waiter to the list of all, and removes it. */
void enlist(center *at, waiter *who);
void delist(center *at, waiter *who);

/* Wakes a waiter, which then waits for nothing more; a watch goes on. */
void wake(center *at, waiter *who);

/* Wakes the waiters that can perhaps go on after these operations were committed. */
void wake_for(center *at, const yalwythen_step *steps, size_t length);

void wake_all(center *at);
#endif
