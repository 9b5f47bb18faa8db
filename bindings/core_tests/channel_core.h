/* The exports of crates/yalwythen_channel_c: channels without a domain, each in memory of its caller, and transactions
 * that are given the channels that they name. bindings/README.md has the rules that a caller must keep. */
#ifndef YALWYTHEN_CHANNEL_CORE_H
#define YALWYTHEN_CHANNEL_CORE_H
#include <stddef.h>
#include <stdint.h>

/* What a call returns, and how it returns a reply. */
typedef struct core_result {
    uint64_t code, value;
} core_result;
enum {
    CORE_DONE,
    CORE_RETRY,
    CORE_STOPPED,
    CORE_INVALID,
    CORE_REJECTED,
    CORE_NO_MEMORY,
    CORE_REPLY = 16,
    CORE_NONE = 64
};
/* The value with CORE_RETRY. */
enum { CORE_FULL, CORE_EMPTY, CORE_ASKED };
/* The value with CORE_REJECTED. */
enum { CORE_NO_SUCH, CORE_NOT_NOW, CORE_UNPAIRED = 3, CORE_BROADCAST_LOG, CORE_BOUND = 17, CORE_READERS };
/* The code of a reply, to which CORE_REPLY is added by calls that return a reply. */
enum { REPLY_DONE, REPLY_GOT, REPLY_FULL, REPLY_EMPTY, REPLY_CLOSED, REPLY_FLAG, REPLY_READER, REPLY_COUNT, REPLY_ALL };

/* The kinds of channels. */
enum { QUEUE, BOUNDED, CLOSABLE, BOUNDED_CLOSABLE, BROADCAST, CLOSABLE_BROADCAST };

/* The numbers of steps. Those from EITHER on are marks of alternatives. */
enum {
    WRITE,
    TRY_WRITE,
    READ,
    TRY_READ,
    PEEK,
    TRY_PEEK,
    PUT_BACK,
    CLOSE,
    IS_CLOSED,
    IS_EMPTY,
    IS_FULL,
    LENGTH,
    WRITE_LAST,
    TRY_WRITE_LAST,
    PUT_BACK_LAST,
    RETRY,
    FLUSH,
    DUP,
    CLONE,
    EITHER,
    OR,
    END
};

/* A step. `channel` is the number that the channel got when it was enlisted. */
typedef struct core_step {
    uint32_t number;
    uint16_t channel, reader;
    uint64_t body;
} core_step;

/* An entry of a channel's log, or an item that is left in the channel, with act 6. */
typedef struct core_record {
    uint64_t stamp, serial, number, body;
    uint16_t act, origin, seat, maker;
} core_record;

/* What `yalwythen_channel_tell` returns. */
enum { TELL_ACTS, TELL_UNREAD, TELL_CLOSED, TELL_READERS };

/* What `yalwythen_txn_ask` does. */
enum {
    ASK_SEAT = 1,
    ASK_REPLY,
    ASK_ACTS,
    ASK_UNREAD,
    ASK_CLOSED,
    ASK_BEGIN,
    ASK_APPLY,
    ASK_SAVEPOINT,
    ASK_ROLL_BACK_TO,
    ASK_RELEASE,
    ASK_COMMIT,
    ASK_ROLL_BACK,
    ASK_READERS
};

/* A place for one channel: `yalwythen_channel_bytes()` bytes, aligned to 16. */
uint64_t yalwythen_channel_bytes(void);
void yalwythen_channel_init(void *at);
core_result yalwythen_channel_make(void *at, uint64_t kind, uint64_t size, uint64_t records);
void yalwythen_channel_end(void *at);
core_result yalwythen_channel_tell(void *at, uint64_t number, uint64_t reader);
core_result yalwythen_channel_commit_one(void *at, uint32_t number, uint16_t reader, uint64_t body);
core_result yalwythen_channel_commit_as(void *at, uint16_t seat, uint64_t serial, uint64_t stamp, uint32_t number,
                                        uint16_t reader, uint64_t body);
core_result yalwythen_channel_move(void *from, void *to);
core_result yalwythen_channel_account(void *at, uint64_t from, core_record *records, size_t size);

/* A transaction: `yalwythen_txn_bytes()` bytes, aligned to 16. */
uint64_t yalwythen_txn_bytes(void);
void yalwythen_txn_init(void *txn);
void yalwythen_txn_init_recorded(void *txn);
void yalwythen_txn_end(void *txn);
core_result yalwythen_txn_enlist(void *txn, void *at);
core_result yalwythen_txn_release(void *txn, uint64_t number, void *at);
core_result yalwythen_txn_ask(void *txn, uint64_t request, uint64_t a, uint64_t b);
core_result yalwythen_txn_transact(void *txn, const core_step *steps, size_t length, core_result *replies, size_t size);
core_result yalwythen_txn_list(void *txn, const core_step *steps, size_t length, core_result *replies, size_t size);
core_result yalwythen_txn_items(void *txn, uint64_t reply, uint64_t from, uint64_t *bodies, size_t size);
#endif
