/* Results as text. */
#include "yalwythen.h"

static const char *of_reason(yalwythen_reason reason) {
    switch (reason) {
    case YALWYTHEN_REASON_NONE: return NULL;
    case YALWYTHEN_REASON_NO_READER: return "the broadcast has no reader of this number";
    case YALWYTHEN_REASON_NOTHING_READ: return "the transaction has not read or peeked an item";
    case YALWYTHEN_REASON_TOO_MANY_READERS: return "the broadcast has 64 readers, which is the most";
    case YALWYTHEN_REASON_WORN: return "a counter of the domain is at its end";
    case YALWYTHEN_REASON_BY_CALLER: return "the transaction was aborted by its body";
    case YALWYTHEN_REASON_NO_CHANNEL: return "the domain has no channel of this number";
    case YALWYTHEN_REASON_NOT_FOR_KIND: return "channels of this kind do not have this operation";
    case YALWYTHEN_REASON_QUEUE_READER: return "a queue has only reader 0";
    case YALWYTHEN_REASON_STEP_CHANNELS: return "the steps name more than 4 channels";
    case YALWYTHEN_REASON_TOO_DEEP: return "the alternatives are nested more than 8 deep";
    case YALWYTHEN_REASON_TOO_LONG: return "the steps have more than 64 operations";
    case YALWYTHEN_REASON_UNPAIRED: return "an EITHER, OR or END does not belong to an alternative";
    case YALWYTHEN_REASON_NO_OPERATION: return "there is no such operation, or not in an open transaction";
    case YALWYTHEN_REASON_NO_KIND: return "there is no such kind of channel";
    case YALWYTHEN_REASON_BOUND: return "the bound is over 65,535";
    case YALWYTHEN_REASON_READERS: return "a broadcast cannot have more than 64 readers";
    case YALWYTHEN_REASON_BROADCAST_LOG: return "a domain that records logs cannot have broadcasts";
    case YALWYTHEN_REASON_NO_SEAT: return "the domain has no seat of this number";
    case YALWYTHEN_REASON_NO_ITEMS: return "the reply does not have these items";
    case YALWYTHEN_REASON_OPTIONS: return "the options have an unknown size";
    case YALWYTHEN_REASON_DEADLINE: return "the nanoseconds of the deadline are not 0 to 999,999,999";
    case YALWYTHEN_REASON_NULL: return "a pointer is NULL";
    case YALWYTHEN_REASON_NO_DOMAIN: return "the handle was freed or never was one";
    case YALWYTHEN_REASON_BEGUN: return "a transaction is open: commit it or roll it back first";
    case YALWYTHEN_REASON_NOT_BEGUN: return "no transaction is open: begin one first";
    case YALWYTHEN_REASON_MUST_ROLL_BACK: return "an operation of the open transaction failed: roll it back first";
    case YALWYTHEN_REASON_NO_SAVEPOINT: return "the savepoint does not exist any more";
    case YALWYTHEN_REASON_NOT_RECORDED: return "the domain does not record logs: set records in its options";
    case YALWYTHEN_REASON_DOMAIN_FULL: return "the domain has 65,536 of these, which is the most";
    case YALWYTHEN_REASON_INSIDE: return "this call is not allowed inside the body of a transaction";
    case YALWYTHEN_REASON_NOTHING_TO_WAIT_FOR: return "the transaction would wait, and no channel can wake it";
    }
    return "unknown reason";
}

static const char *of_cause(yalwythen_cause cause) {
    switch (cause) {
    case YALWYTHEN_CAUSE_FULL: return "the channel is full";
    case YALWYTHEN_CAUSE_EMPTY: return "the channel is empty";
    case YALWYTHEN_CAUSE_NONE:
    case YALWYTHEN_CAUSE_ASKED: break;
    }
    return "the transaction asked to be retried";
}

const char *yalwythen_message(yalwythen_result result) {
    const char *text = of_reason(result.reason);
    if (text != NULL) return text;
    switch (result.status) {
    case YALWYTHEN_OK: return "no error";
    case YALWYTHEN_RETRY: return of_cause(result.cause);
    case YALWYTHEN_ABORTED: return "the transaction was aborted";
    case YALWYTHEN_INVALID: return "an argument is invalid";
    case YALWYTHEN_MISUSE: return "the call is not allowed now";
    case YALWYTHEN_NO_MEMORY: return "out of memory";
    case YALWYTHEN_TIMED_OUT: return "the deadline passed before the transaction could commit";
    case YALWYTHEN_CLOSED: return "the channel is closed";
    case YALWYTHEN_SYSTEM: return "a system call failed: see errno";
    }
    return "unknown status";
}
