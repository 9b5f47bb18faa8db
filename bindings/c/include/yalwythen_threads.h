/* Domains that threads share: any number of threads can call at once, and a call can wait until its transaction
 * commits. Of the threads that wait for one item of a queue, or for one free slot, each item or slot wakes the one that
 * has waited longest. A call that can commit at once does so, also while others wait. Link with -pthread. Linux only.
 *
 * Each call takes the lock of the domain. Only calls with a `deadline` wait longer than that. A deadline is a time of
 * CLOCK_MONOTONIC, as `yalwythen_after` returns it. With NULL a call waits for ever; with a time in the past, such as
 * {0, 0}, it tries once. A thread must not be cancelled in a call. */
#ifndef YALWYTHEN_THREADS_H
#define YALWYTHEN_THREADS_H
#include "yalwythen.h"
#include <time.h>

#ifdef __cplusplus
extern "C" {
#endif

/* A handle of a shared domain. All threads can use one handle. */
typedef struct yalwythen_shared yalwythen_shared;

/* Creates a shared domain without channels; `options` can be NULL. Errors: NO_MEMORY, INVALID (OPTIONS), MISUSE (NULL),
 * SYSTEM. Allocates. */
YALWYTHEN_USE_RESULT yalwythen_result yalwythen_shared_new(const yalwythen_options *options, yalwythen_shared **shared);

/* Creates another handle of the same domain, whose transactions are recorded under a seat of its own. Writes the seat
 * to `seat`, which can be NULL. Errors: MISUSE (NOT_RECORDED, DOMAIN_FULL, INSIDE), NO_MEMORY. Allocates. */
YALWYTHEN_USE_RESULT yalwythen_result yalwythen_shared_seat(yalwythen_shared *shared, yalwythen_shared **other,
                                                            yalwythen_seat *seat);

/* Frees a handle, and the domain with the last handle and watch. No thread can be in a call with this handle. NULL, and
 * a handle that can be seen to be none, are ignored; so is a call inside `yalwythen_atomically`. */
void yalwythen_shared_free(yalwythen_shared *shared);

/* Adds a channel like `yalwythen_channel_new`, at any time. Errors also: MISUSE (INSIDE). Allocates. */
YALWYTHEN_USE_RESULT yalwythen_result yalwythen_shared_channel(yalwythen_shared *shared, yalwythen_kind kind,
                                                               uint64_t size, yalwythen_channel *channel);

/* Writes the state of a channel like `yalwythen_channel_state`. Errors also: MISUSE (INSIDE). */
YALWYTHEN_USE_RESULT yalwythen_result yalwythen_shared_state(yalwythen_shared *shared, yalwythen_channel channel,
                                                             yalwythen_state *state);

/* Copies the account of a channel like `yalwythen_account`. Errors also: MISUSE (INSIDE). Allocates. */
YALWYTHEN_USE_RESULT yalwythen_result yalwythen_shared_account(yalwythen_shared *shared, yalwythen_channel channel,
                                                               yalwythen_record **records, size_t *count);

/* Returns the time a number of nanoseconds from now, as a deadline. */
struct timespec yalwythen_after(uint64_t nanoseconds);

/* Runs a list of steps like `yalwythen_transact`, and waits until they can commit. They are tried again when a channel
 * changes for which they wait, so a change that lets them abort is perhaps noticed later. Items of a flush that do not
 * fit into `replies` are lost: flush in `yalwythen_atomically` if their number is not known. Errors: those of
 * `yalwythen_transact` except RETRY, TIMED_OUT, INVALID (DEADLINE), MISUSE (INSIDE), SYSTEM. Allocates. */
YALWYTHEN_USE_RESULT yalwythen_result yalwythen_run(yalwythen_shared *shared, const yalwythen_step *steps,
                                                    size_t length, yalwythen_replies *replies,
                                                    const struct timespec *deadline);

/* Writes an item to a channel, and waits while it is full. Errors: those of `yalwythen_run`, and CLOSED: the item
 * is then not written. Allocates. */
YALWYTHEN_USE_RESULT yalwythen_result yalwythen_send(yalwythen_shared *shared, yalwythen_channel channel, uint64_t item,
                                                     const struct timespec *deadline);

/* Takes the next item of a channel by reader 0, and waits while there is none. Errors: those of `yalwythen_run`, and
 * CLOSED, if the channel is closed and empty. `item` is only written with OK, and can be NULL. Allocates. */
YALWYTHEN_USE_RESULT yalwythen_result yalwythen_receive(yalwythen_shared *shared, yalwythen_channel channel,
                                                        uint64_t *item, const struct timespec *deadline);

/* Takes the next item of a reader of a broadcast like `yalwythen_receive`. */
YALWYTHEN_USE_RESULT yalwythen_result yalwythen_receive_by(yalwythen_shared *shared, yalwythen_channel channel,
                                                           uint16_t reader, uint64_t *item,
                                                           const struct timespec *deadline);

/* Closes a channel; every thread that waits for it goes on. Closing it again does nothing. Errors: those of
 * `yalwythen_run` except TIMED_OUT. Allocates. */
YALWYTHEN_USE_RESULT yalwythen_result yalwythen_close(yalwythen_shared *shared, yalwythen_channel channel);

/* A transaction that decides as it goes. It calls `yalwythen_apply`, `yalwythen_savepoint`, `yalwythen_roll_back_to`,
 * `yalwythen_release` and `yalwythen_items` on `domain`, whose transaction is open. It returns the first result that is
 * not OK and that it does not handle, or `yalwythen_retry()`, or `yalwythen_abort()`. It runs under the lock of the
 * domain, perhaps several times: so it must be short, have no other effects that cannot be repeated, and return (no
 * longjmp, no exception). Calls for the same shared domain return MISUSE (INSIDE) there. */
typedef yalwythen_result (*yalwythen_body)(yalwythen_domain *domain, void *user);

/* Runs `body` in a transaction. If `body` returns OK, the transaction commits. If it returns RETRY, the transaction is
 * rolled back, and `body` runs again after a change of a channel on which it applied an operation. Otherwise the
 * transaction is rolled back, and the call returns the result of `body`. Errors: those of `body` and of
 * `yalwythen_run`, and MISUSE (NOTHING_TO_WAIT_FOR). Allocates. */
YALWYTHEN_USE_RESULT yalwythen_result yalwythen_atomically(yalwythen_shared *shared, yalwythen_body body, void *user,
                                                           const struct timespec *deadline);

/* Returns RETRY, for a body that has to wait. */
yalwythen_result yalwythen_retry(void);
/* Returns ABORTED (BY_CALLER), for a body that gives up. */
yalwythen_result yalwythen_abort(void);

/* ---- Event loops ---- */

/* A file descriptor (an eventfd) that becomes readable when a list of steps may be able to commit: for poll, epoll,
 * libuv and io_uring. The thread of an event loop waits until it is readable, calls `yalwythen_watch_clear`, and then
 * runs the steps with a deadline in the past until that returns TIMED_OUT. */
typedef struct yalwythen_watch yalwythen_watch;

/* Creates a watch of the channels for which these steps can wait; TRY_ operations cannot. The descriptor is readable at
 * first. Errors: INVALID (NO_CHANNEL), MISUSE (NULL, NO_DOMAIN, INSIDE, NOTHING_TO_WAIT_FOR), NO_MEMORY, SYSTEM.
 * Allocates. */
YALWYTHEN_USE_RESULT yalwythen_result yalwythen_watch_new(yalwythen_shared *shared, const yalwythen_step *steps,
                                                          size_t length, yalwythen_watch **watch);

/* Returns the file descriptor, which the watch closes when it is freed; -1 without a watch. */
int yalwythen_watch_fd(const yalwythen_watch *watch);

/* Makes the descriptor unreadable until a channel changes. Errors: MISUSE (NULL, INSIDE). Does not allocate. */
YALWYTHEN_USE_RESULT yalwythen_result yalwythen_watch_clear(yalwythen_watch *watch);

/* Frees a watch and closes its descriptor. NULL is ignored; so is a call inside `yalwythen_atomically`. */
void yalwythen_watch_free(yalwythen_watch *watch);

#ifdef __cplusplus
}
#endif
#endif
