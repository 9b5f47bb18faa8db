/* Yalwythen: transactional channels. A domain is a set of channels. A transaction is a list of operations on channels
 * of one domain: all of them happen, or none. Build with `pkg-config --cflags --libs yalwythen`; docs/C.md begins with
 * a program.
 *
 * The calls of this header never block. A domain is used by one thread at a time: yalwythen_threads.h has domains that
 * threads share, with waiting and deadlines. C99 and C++11; no function is inline. */
#ifndef YALWYTHEN_H
#define YALWYTHEN_H
#include <stdbool.h>
#include <stddef.h>
#include <stdint.h>

#define YALWYTHEN_VERSION_MAJOR 0
#define YALWYTHEN_VERSION_MINOR 2
#define YALWYTHEN_VERSION_PATCH 0
#define YALWYTHEN_VERSION ((YALWYTHEN_VERSION_MAJOR << 16) | (YALWYTHEN_VERSION_MINOR << 8) | YALWYTHEN_VERSION_PATCH)

#if defined(__GNUC__) || defined(__clang__)
#define YALWYTHEN_USE_RESULT __attribute__((warn_unused_result))
#else
#define YALWYTHEN_USE_RESULT
#endif

#ifdef __cplusplus
extern "C" {
#endif

/* Returns the version of the library that is linked, as YALWYTHEN_VERSION has that of the header. */
uint32_t yalwythen_version(void);

/* ---- Results ---- */

/* How a call ended. Unless a comment says otherwise, a call that does not return OK changes nothing. A call with a bad
   pointer returns MISUSE (reason NULL or NO_DOMAIN), which the comments of calls do not repeat. */
typedef enum yalwythen_status {
    YALWYTHEN_OK = 0,
    YALWYTHEN_RETRY = 1,     /* the transaction cannot commit now, and can later; `cause` says why */
    YALWYTHEN_ABORTED = 2,   /* the transaction was rolled back and trying again does not help; `reason` says why */
    YALWYTHEN_INVALID = 3,   /* an argument is invalid: `reason`; for a list of steps, `step` */
    YALWYTHEN_MISUSE = 4,    /* the call is not allowed now, or a pointer is bad: `reason` */
    YALWYTHEN_NO_MEMORY = 5, /* an allocation failed */
    /* only returned by calls of yalwythen_threads.h */
    YALWYTHEN_TIMED_OUT = 6, /* the deadline passed before the transaction could commit; `cause` says why */
    YALWYTHEN_CLOSED = 7,    /* the channel is closed, and for a receive also empty */
    YALWYTHEN_SYSTEM = 8     /* the system refused a mutex, a condition variable or a file descriptor: see errno */
} yalwythen_status;

/* What a transaction would have to wait for. */
typedef enum yalwythen_cause {
    YALWYTHEN_CAUSE_NONE = 0,
    YALWYTHEN_CAUSE_FULL,  /* for a free slot in a bounded queue */
    YALWYTHEN_CAUSE_EMPTY, /* for an item */
    YALWYTHEN_CAUSE_ASKED  /* GIVE_UP or `yalwythen_retry` asked for it */
} yalwythen_cause;

/* Why a call failed. The numbers of the groups do not overlap. */
typedef enum yalwythen_reason {
    YALWYTHEN_REASON_NONE = 0,
    /* with ABORTED */
    YALWYTHEN_REASON_NO_READER = 1,      /* the broadcast has no reader of this number */
    YALWYTHEN_REASON_NOTHING_READ,       /* a `_LAST` operation before the transaction read or peeked an item */
    YALWYTHEN_REASON_TOO_MANY_READERS,   /* the broadcast has 64 readers, which is the most */
    YALWYTHEN_REASON_WORN,               /* a serial, a stamp or a log has reached 2^64 - 1 */
    YALWYTHEN_REASON_BY_CALLER,          /* `yalwythen_abort` */
    /* with INVALID */
    YALWYTHEN_REASON_NO_CHANNEL = 33,    /* the domain has no channel of this number */
    YALWYTHEN_REASON_NOT_FOR_KIND,       /* channels of this kind do not have this operation */
    YALWYTHEN_REASON_QUEUE_READER,       /* a queue has only reader 0 */
    YALWYTHEN_REASON_STEP_CHANNELS,      /* a list of steps names more than 4 channels */
    YALWYTHEN_REASON_TOO_DEEP,           /* alternatives are nested more than 8 deep */
    YALWYTHEN_REASON_TOO_LONG,           /* a list of steps has more than 64 operations */
    YALWYTHEN_REASON_UNPAIRED,           /* OR or END without EITHER, or EITHER without END */
    YALWYTHEN_REASON_NO_OPERATION,       /* there is no operation of this number, or it is not one for `apply` */
    YALWYTHEN_REASON_NO_KIND,            /* there is no kind of this number */
    YALWYTHEN_REASON_BOUND,              /* a bound over 65,535 */
    YALWYTHEN_REASON_READERS,            /* a broadcast is created with more than 64 readers */
    YALWYTHEN_REASON_BROADCAST_LOG,      /* a domain that records logs cannot have broadcasts */
    YALWYTHEN_REASON_NO_SEAT,            /* the domain has no seat of this number */
    YALWYTHEN_REASON_NO_ITEMS,           /* no such reply, or it has fewer items */
    YALWYTHEN_REASON_OPTIONS,            /* the options have an unknown size */
    YALWYTHEN_REASON_DEADLINE,           /* nanoseconds of a deadline are not 0 to 999,999,999 */
    /* with MISUSE */
    YALWYTHEN_REASON_NULL = 65,          /* a pointer is NULL that must not be */
    YALWYTHEN_REASON_NO_DOMAIN,          /* the handle was freed, or never was one */
    YALWYTHEN_REASON_BEGUN,              /* a transaction is open */
    YALWYTHEN_REASON_NOT_BEGUN,          /* no transaction is open */
    YALWYTHEN_REASON_MUST_ROLL_BACK,     /* an operation of the open transaction failed */
    YALWYTHEN_REASON_NO_SAVEPOINT,       /* the savepoint is gone */
    YALWYTHEN_REASON_NOT_RECORDED,       /* the domain does not record logs */
    YALWYTHEN_REASON_DOMAIN_FULL,        /* the domain has 65,536 channels or seats */
    YALWYTHEN_REASON_INSIDE,             /* not allowed inside the callback of `yalwythen_atomically` */
    YALWYTHEN_REASON_NOTHING_TO_WAIT_FOR /* a retry of a transaction that did not look at any channel */
} yalwythen_reason;

/* What a call returns. `step` is the index of the invalid step, if the call took a list of steps and `status` is
 * INVALID. It is the length of the list if an END is missing, and YALWYTHEN_NO_STEP if an allocation failed while the
 * step was searched. Otherwise `step` is 0. */
#define YALWYTHEN_NO_STEP UINT32_MAX
typedef struct yalwythen_result {
    yalwythen_status status;
    yalwythen_cause cause;
    yalwythen_reason reason;
    uint32_t step;
} yalwythen_result;

/* Returns a description in English, in static memory, never NULL. Does not allocate. */
const char *yalwythen_message(yalwythen_result result);

/* ---- Domains and channels ---- */

/* A set of channels that can take part in one transaction. A handle that is NULL, freed or foreign is reported as
 * MISUSE if the memory in front of it shows that; this cannot always be seen. */
typedef struct yalwythen_domain yalwythen_domain;

/* Memory comes from malloc, realloc and free: the proved core calls these three, so they cannot be options. */
typedef struct yalwythen_options {
    size_t size;  /* sizeof(yalwythen_options) */
    bool records; /* whether logs are recorded, for `yalwythen_account`: the domain then grows with each change */
} yalwythen_options;

/* Creates a domain without channels; `options` can be NULL. Errors: NO_MEMORY, INVALID (OPTIONS), MISUSE (NULL).
 * Allocates. */
YALWYTHEN_USE_RESULT yalwythen_result yalwythen_domain_new(const yalwythen_options *options, yalwythen_domain **domain);

/* Frees a domain and rolls back its open transaction. NULL, and a handle that can be seen to be no domain, are ignored;
 * so is a call inside `yalwythen_atomically`. */
void yalwythen_domain_free(yalwythen_domain *domain);

/* Four kinds of queues and two of broadcasts. An item of a broadcast goes to each of its readers. Kinds with an M can
 * be closed, kinds with a B have a bound. */
typedef enum yalwythen_kind {
    YALWYTHEN_TQUEUE,
    YALWYTHEN_TBQUEUE,
    YALWYTHEN_TMQUEUE,
    YALWYTHEN_TBMQUEUE,
    YALWYTHEN_TCHAN,
    YALWYTHEN_TMCHAN
} yalwythen_kind;

/* A channel of a domain: 0, 1, 2 and so on, in the order of their creation. */
typedef struct yalwythen_channel {
    uint16_t number;
} yalwythen_channel;

/* Adds a channel, at any time when no transaction is open. `size` is the bound of a kind with a bound, at most 65,535,
 * and the number of readers of a broadcast, at most 64; other kinds ignore it. Errors: INVALID (NO_KIND, BOUND,
 * READERS, BROADCAST_LOG), MISUSE (BEGUN; DOMAIN_FULL after 65,536 channels), NO_MEMORY. Allocates. */
YALWYTHEN_USE_RESULT yalwythen_result yalwythen_channel_new(yalwythen_domain *domain, yalwythen_kind kind,
                                                            uint64_t size, yalwythen_channel *channel);

/* A channel at this moment, with what an open transaction did. */
typedef struct yalwythen_state {
    yalwythen_kind kind;
    bool closed;
    uint16_t readers; /* 1 for a queue */
    uint16_t bound;   /* 0 for kinds without a bound */
    uint64_t length;  /* items that reader 0 has to read */
    uint64_t changes; /* writes, takes, put-backs, new readers and the closing */
} yalwythen_state;

/* Writes the state of a channel to `state`. Errors: INVALID (NO_CHANNEL), NO_MEMORY. Allocates, and takes time in the
 * length of the channel. */
YALWYTHEN_USE_RESULT yalwythen_result yalwythen_channel_state(const yalwythen_domain *domain,
                                                              yalwythen_channel channel, yalwythen_state *state);

/* Writes how many items a reader has to read to `length`; a queue has reader 0. Errors: INVALID (NO_CHANNEL), ABORTED
 * (NO_READER), NO_MEMORY. Allocates, and takes time in the length of the channel. */
YALWYTHEN_USE_RESULT yalwythen_result yalwythen_unread(const yalwythen_domain *domain, yalwythen_channel channel,
                                                       uint16_t reader, uint64_t *length);

/* Returns whether a queue can have this bound: at most 65,535. */
bool yalwythen_is_bound(uint64_t bound);

/* ---- Transactions as a list of steps ---- */

/* The operations of a transaction. Each comment ends with the replies that the operation can have. */
typedef enum yalwythen_op {
    YALWYTHEN_WRITE,          /* appends `body`; retries if a bounded queue is full. DONE, CLOSED */
    YALWYTHEN_TRY_WRITE,      /* the same for a TBMQUEUE, without a retry. DONE, CLOSED, FULL */
    YALWYTHEN_READ,           /* takes the next item; retries if there is none. GOT, CLOSED */
    YALWYTHEN_TRY_READ,       /* the same without a retry. GOT, CLOSED, EMPTY */
    YALWYTHEN_PEEK,           /* replies the next item and leaves it; retries if there is none. GOT, CLOSED */
    YALWYTHEN_TRY_PEEK,       /* the same without a retry. GOT, CLOSED, EMPTY */
    YALWYTHEN_PUT_BACK,       /* puts `body` in front; retries if a TBQUEUE is full. DONE, CLOSED */
    YALWYTHEN_CLOSE,          /* closes the channel; closing it again does nothing. DONE */
    YALWYTHEN_IS_CLOSED,      /* FLAG */
    YALWYTHEN_IS_EMPTY,       /* FLAG */
    YALWYTHEN_IS_FULL,        /* FLAG; kinds with a bound */
    YALWYTHEN_LENGTH,         /* COUNT; TBQUEUE */
    YALWYTHEN_WRITE_LAST,     /* WRITE of the item that this transaction read or peeked last */
    YALWYTHEN_TRY_WRITE_LAST, /* TRY_WRITE of it */
    YALWYTHEN_PUT_BACK_LAST,  /* PUT_BACK of it */
    YALWYTHEN_GIVE_UP,        /* retries */
    YALWYTHEN_FLUSH,          /* takes all items of a TQUEUE or TBQUEUE. ALL */
    YALWYTHEN_DUP,            /* adds a reader to a broadcast, which gets what is written from then on. READER */
    YALWYTHEN_CLONE,          /* adds a reader to a broadcast, which has all that `reader` has to read. READER */
    /* EITHER begins alternatives, OR begins the next branch, END ends them. The first branch that does not retry runs.
     * Alternatives can be nested, up to 8 deep. */
    YALWYTHEN_EITHER,
    YALWYTHEN_OR,
    YALWYTHEN_END
} yalwythen_op;

/* An operation. Operations that take, peek or put back are by a reader; a queue has reader 0. `body` is the item that
 * is written or put back. Fields that an operation does not use are ignored. */
typedef struct yalwythen_step {
    yalwythen_op op;
    yalwythen_channel channel;
    uint16_t reader;
    uint64_t body;
} yalwythen_step;

/* What an operation replies. */
typedef enum yalwythen_reply_kind {
    YALWYTHEN_REPLY_DONE,
    YALWYTHEN_REPLY_GOT,    /* `value` is the item */
    YALWYTHEN_REPLY_FULL,
    YALWYTHEN_REPLY_EMPTY,
    YALWYTHEN_REPLY_CLOSED, /* the channel is closed, and for a read also empty */
    YALWYTHEN_REPLY_FLAG,   /* `value` is 0 or 1 */
    YALWYTHEN_REPLY_READER, /* `value` is the number of the new reader */
    YALWYTHEN_REPLY_COUNT,  /* `value` is the length */
    YALWYTHEN_REPLY_ALL     /* `value` is the number of items, which `yalwythen_items` returns */
} yalwythen_reply_kind;

/* The reply of one operation. */
typedef struct yalwythen_reply {
    yalwythen_reply_kind kind;
    uint64_t value;
} yalwythen_reply;

/* Arrays for the replies of a transaction. The caller sets the first four members, and the call sets the last two. What
 * does not fit is counted and not written. */
typedef struct yalwythen_replies {
    yalwythen_reply *at; /* `size` replies; can be NULL if `size` is 0 */
    size_t size;
    uint64_t *items;     /* the items of all ALL replies, one reply after another; can be NULL if `items_size` is 0 */
    size_t items_size;
    size_t count;        /* how many replies there are: one for each operation of the branches that ran */
    size_t items_count;  /* how many items there are */
} yalwythen_replies;

/* Runs `length` steps as one transaction, which commits if the call returns OK. `replies` can be NULL, and `steps` if
 * `length` is 0. Errors: RETRY, ABORTED (NO_READER, NOTHING_READ, TOO_MANY_READERS, WORN), INVALID (NO_CHANNEL to
 * NO_OPERATION), MISUSE (BEGUN), NO_MEMORY. Allocates. */
YALWYTHEN_USE_RESULT yalwythen_result yalwythen_transact(yalwythen_domain *domain, const yalwythen_step *steps,
                                                         size_t length, yalwythen_replies *replies);

/* Runs one operation as a transaction, and writes its reply to `reply`, which can be NULL. Errors as for
 * `yalwythen_transact`. Allocates. */
YALWYTHEN_USE_RESULT yalwythen_result yalwythen_do(yalwythen_domain *domain, yalwythen_step step,
                                                   yalwythen_reply *reply);

/* Copies `length` items of reply `reply` of the last committed transaction, from item `from` on. Inside an open
 * transaction only YALWYTHEN_LAST_REPLY is allowed, which is the reply of its last operation. Errors: INVALID
 * (NO_ITEMS: the reply is not an ALL, or has fewer than `from + length` items). Does not allocate. */
#define YALWYTHEN_LAST_REPLY SIZE_MAX
YALWYTHEN_USE_RESULT yalwythen_result yalwythen_items(const yalwythen_domain *domain, size_t reply, size_t from,
                                                      uint64_t *items, size_t length);

/* ---- Transactions that decide as they go ---- */

/* Opens a transaction, which `apply` extends operation by operation. One can be open at a time. Errors: MISUSE (BEGUN),
 * ABORTED (WORN), NO_MEMORY. */
YALWYTHEN_USE_RESULT yalwythen_result yalwythen_begin(yalwythen_domain *domain);

/* Runs an operation in the open transaction, and writes its reply to `reply`, which can be NULL. GIVE_UP and
 * alternatives are not allowed here. After RETRY, ABORTED and NO_MEMORY the transaction must be rolled back, to a
 * savepoint or as a whole. After INVALID (NO_CHANNEL, NOT_FOR_KIND, QUEUE_READER, NO_OPERATION) it goes on unchanged.
 * Also MISUSE (NOT_BEGUN, MUST_ROLL_BACK). Allocates. */
YALWYTHEN_USE_RESULT yalwythen_result yalwythen_apply(yalwythen_domain *domain, yalwythen_step step,
                                                      yalwythen_reply *reply);

/* Sets a savepoint in the open transaction, and writes its number to `savepoint`: 1, 2, 3 and so on. Errors: MISUSE
 * (NOT_BEGUN, MUST_ROLL_BACK), NO_MEMORY. Allocates. */
YALWYTHEN_USE_RESULT yalwythen_result yalwythen_savepoint(yalwythen_domain *domain, size_t *savepoint);

/* Rolls back the operations after a savepoint, and removes it and those set after it. Errors: MISUSE (NOT_BEGUN,
 * NO_SAVEPOINT). Does not allocate. */
YALWYTHEN_USE_RESULT yalwythen_result yalwythen_roll_back_to(yalwythen_domain *domain, size_t savepoint);

/* Removes a savepoint and those set after it; the operations stay. Errors: MISUSE (NOT_BEGUN, NO_SAVEPOINT). Does not
 * allocate. */
YALWYTHEN_USE_RESULT yalwythen_result yalwythen_release(yalwythen_domain *domain, size_t savepoint);

/* Commits the open transaction. Errors: MISUSE (NOT_BEGUN, MUST_ROLL_BACK, INSIDE), after which it is still open. Does
 * not allocate. */
YALWYTHEN_USE_RESULT yalwythen_result yalwythen_commit(yalwythen_domain *domain);

/* Rolls back the open transaction: the channels are as they were when it began. Errors: MISUSE (NOT_BEGUN, INSIDE).
 * Does not allocate. */
YALWYTHEN_USE_RESULT yalwythen_result yalwythen_roll_back(yalwythen_domain *domain);

/* ---- Recorded logs: domains with `records` ---- */

/* A name under which transactions are recorded. Each domain has seat 0, which its transactions use at first. */
typedef struct yalwythen_seat {
    uint16_t number;
} yalwythen_seat;

/* Adds a seat. Errors: MISUSE (NOT_RECORDED, BEGUN; DOMAIN_FULL after 65,536 seats), NO_MEMORY. Allocates. */
YALWYTHEN_USE_RESULT yalwythen_result yalwythen_seat_new(yalwythen_domain *domain, yalwythen_seat *seat);

/* Records transactions under this seat from now on. Errors: INVALID (NO_SEAT), MISUSE (NOT_RECORDED, BEGUN). */
YALWYTHEN_USE_RESULT yalwythen_result yalwythen_seat_use(yalwythen_domain *domain, yalwythen_seat seat);

/* What a record tells: a change of the channel, or an item that is in it. */
typedef enum yalwythen_act {
    YALWYTHEN_ACT_WROTE,
    YALWYTHEN_ACT_TOOK,
    YALWYTHEN_ACT_PUT_BACK,
    YALWYTHEN_ACT_CLOSED,
    YALWYTHEN_ACT_LEFT = 6 /* no act: an item that is in the channel */
} yalwythen_act;
/* How an item entered its channel. */
typedef enum yalwythen_origin {
    YALWYTHEN_ORIGIN_WRITE,
    YALWYTHEN_ORIGIN_PUT_BACK,
    YALWYTHEN_ORIGIN_NONE /* the record has no item */
} yalwythen_origin;

/* A record of a channel's account. First come its acts, in order; then the items that are in the channel, from the
 * front. `seat` is that of the transaction, and `serial` counts the transactions of that seat from 0. Of two
 * transactions on one channel or by one seat the later has the greater `stamp`. An item is the `number`th, from 0, that
 * entered the channel by its `origin`, and `maker` is the seat that wrote it. */
typedef struct yalwythen_record {
    uint64_t stamp, serial, number, body;
    uint16_t act, origin; /* a yalwythen_act and a yalwythen_origin */
    uint16_t seat, maker;
} yalwythen_record;

/* Copies the account of a channel in one pass: `*records` are `*count` records, which the caller frees by
 * `yalwythen_account_free`. Errors: INVALID (NO_CHANNEL), MISUSE (NOT_RECORDED, BEGUN), NO_MEMORY. Allocates. */
YALWYTHEN_USE_RESULT yalwythen_result yalwythen_account(const yalwythen_domain *domain, yalwythen_channel channel,
                                                        yalwythen_record **records, size_t *count);

/* Frees the records of an account; NULL is ignored. */
void yalwythen_account_free(yalwythen_record *records);

#ifdef __cplusplus
}
#endif
#endif
