/* The exports of the proved core, and what the two parts of this library share. Not installed. */
#ifndef YALWYTHEN_CORE_H
#define YALWYTHEN_CORE_H
#include "yalwythen.h"

/* What a call of the core returns, and how it returns a reply. */
typedef struct core_said {
    uint64_t code, value;
} core_said;
enum {
    CORE_DONE,
    CORE_RETRY,
    CORE_STOPPED,
    CORE_INVALID,
    CORE_REFUSED,
    CORE_NO_MEMORY,
    CORE_REPLY = 16,
    CORE_NONE = 64
};
/* With CORE_REFUSED. */
enum { CORE_NO_SUCH, CORE_NOT_NOW, CORE_UNPAIRED = 3, CORE_BROADCAST_LOG, CORE_BOUND = 17, CORE_READERS };
/* What `yalwythen_core_ask` does. */
enum {
    CORE_DECLARE,
    CORE_SEAT,
    CORE_LAST_REPLY,
    CORE_CHANGES,
    CORE_UNREAD,
    CORE_IS_CLOSED,
    CORE_BEGIN,
    CORE_APPLY,
    CORE_SAVEPOINT,
    CORE_ROLL_BACK_TO,
    CORE_RELEASE,
    CORE_COMMIT,
    CORE_ROLL_BACK,
    CORE_READERS_OF
};

/* No pointer of these calls can be NULL, also with length 0. A step and a record have the core's layout. */
uint64_t yalwythen_core_bytes(void);
void yalwythen_core_init(void *at);
void yalwythen_core_init_recorded(void *at);
void yalwythen_core_end(void *at);
core_said yalwythen_core_ask(void *at, uint64_t verb, uint64_t a, uint64_t b);
core_said yalwythen_core_transact(void *at, uint64_t seat, const yalwythen_step *steps, size_t length,
                                  core_said *replies, size_t size);
core_said yalwythen_core_items(void *at, uint64_t reply, uint64_t from, uint64_t *bodies, size_t size);
core_said yalwythen_core_account(void *at, uint64_t channel, uint64_t from, yalwythen_record *records, size_t size);
bool yalwythen_core_is_bound(uint64_t bound);

/* Kind and bound of a channel, which the core does not return. */
typedef struct declared {
    uint8_t kind;
    uint16_t bound;
} declared;

struct yalwythen_domain {
    uint64_t mark; /* DOMAIN_MARK until it is freed */
    void *core;
    declared *channels;
    size_t count, size;
    uint64_t seats;
    uint16_t seat;
    bool records, begun;
    size_t savepoints;
    /* For `yalwythen_atomically`: a callback runs, and the operations of its transaction are noted. */
    bool is_inside;
    yalwythen_step *noted;
    size_t noted_count, noted_size;
};

/* Returns a result without a cause. */
yalwythen_result result_of(yalwythen_status status, yalwythen_reason reason);

/* Returns an array with room for one element more than `count`, moved and with `*size` changed if it was full; NULL if
 * an allocation fails, and then the old array is as it was. */
void *grown(void *array, size_t count, size_t *size, size_t element);
#endif
