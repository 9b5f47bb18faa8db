/* The calls of yalwythen.h over the proved core: checks of pointers, names of errors, and kinds of channels. */
#include "yalwythen.h"
#include "core.h"
#include <stdlib.h>
#include <string.h>

#define DOMAIN_MARK UINT64_C(0x59616c7779746865)

/* Fails to compile if a type does not have the core's layout. */
typedef char step_is_as_in_the_core[sizeof(yalwythen_step) == 16 && offsetof(yalwythen_step, body) == 8 ? 1 : -1];
typedef char reply_is_as_in_the_core[sizeof(yalwythen_reply) == sizeof(core_said) ? 1 : -1];
typedef char record_is_as_in_the_core[sizeof(yalwythen_record) == 40 ? 1 : -1];

uint32_t yalwythen_version(void) { return YALWYTHEN_VERSION; }

bool yalwythen_is_bound(uint64_t bound) { return yalwythen_core_is_bound(bound); }

/* ---- Results ---- */

yalwythen_result result_of(yalwythen_status status, yalwythen_reason reason) {
    yalwythen_result result = {YALWYTHEN_OK, YALWYTHEN_CAUSE_NONE, YALWYTHEN_REASON_NONE, 0};
    result.status = status;
    result.reason = reason;
    return result;
}

static yalwythen_result ok(void) { return result_of(YALWYTHEN_OK, YALWYTHEN_REASON_NONE); }
static yalwythen_result invalid(yalwythen_reason reason) { return result_of(YALWYTHEN_INVALID, reason); }
static yalwythen_result misuse(yalwythen_reason reason) { return result_of(YALWYTHEN_MISUSE, reason); }

/* The result of what the core refused. Which thing does not exist, and why it is not the time, depends on the call. */
static yalwythen_result refused(uint64_t value, yalwythen_reason no_such, yalwythen_reason not_now) {
    switch (value) {
    case CORE_NO_SUCH: return invalid(no_such);
    case CORE_UNPAIRED: return invalid(YALWYTHEN_REASON_UNPAIRED);
    case CORE_BROADCAST_LOG: return invalid(YALWYTHEN_REASON_BROADCAST_LOG);
    case CORE_BOUND: return invalid(YALWYTHEN_REASON_BOUND);
    case CORE_READERS: return invalid(YALWYTHEN_REASON_READERS);
    default: return misuse(not_now);
    }
}

static yalwythen_result from_core(core_said said, yalwythen_reason no_such, yalwythen_reason not_now) {
    yalwythen_result result = ok();
    switch (said.code) {
    case CORE_RETRY:
        result.status = YALWYTHEN_RETRY;
        result.cause = (yalwythen_cause)(YALWYTHEN_CAUSE_FULL + (int)said.value);
        return result;
    case CORE_STOPPED: return result_of(YALWYTHEN_ABORTED, (yalwythen_reason)said.value);
    case CORE_INVALID: return invalid((yalwythen_reason)(YALWYTHEN_REASON_NO_CHANNEL + (int)said.value - 1));
    case CORE_REFUSED: return refused(said.value, no_such, not_now);
    case CORE_NO_MEMORY: return result_of(YALWYTHEN_NO_MEMORY, YALWYTHEN_REASON_NONE);
    case CORE_NONE: return invalid(YALWYTHEN_REASON_NO_ITEMS);
    default: return result;
    }
}

/* ---- Domains and channels ---- */

static bool is_domain(const yalwythen_domain *domain) {
    return domain != NULL && (uintptr_t)domain % sizeof(uint64_t) == 0 && domain->mark == DOMAIN_MARK;
}

static yalwythen_result no_domain(const yalwythen_domain *domain) {
    return misuse(domain == NULL ? YALWYTHEN_REASON_NULL : YALWYTHEN_REASON_NO_DOMAIN);
}

static core_said ask(const yalwythen_domain *domain, uint64_t verb, uint64_t a, uint64_t b) {
    return yalwythen_core_ask(domain->core, verb, a, b);
}

/* Why a call is not allowed while a transaction is open, or else for another reason. */
static yalwythen_reason unless_begun(const yalwythen_domain *domain, yalwythen_reason reason) {
    return domain->begun ? YALWYTHEN_REASON_BEGUN : reason;
}

void *grown(void *array, size_t count, size_t *size, size_t element) {
    size_t more = count < 8 ? 8 : 2 * count;
    void *moved;
    if (count < *size) return array;
    if (more > SIZE_MAX / element) return NULL;
    moved = realloc(array, more * element);
    if (moved != NULL) *size = more;
    return moved;
}

yalwythen_result yalwythen_domain_new(const yalwythen_options *options, yalwythen_domain **domain) {
    yalwythen_domain *made;
    yalwythen_result result;
    uintptr_t end;
    if (domain == NULL) return misuse(YALWYTHEN_REASON_NULL);
    if (options != NULL && options->size != sizeof *options) return invalid(YALWYTHEN_REASON_OPTIONS);
    /* The core follows the handle in the same block, at a multiple of 16. */
    made = (yalwythen_domain *)malloc(sizeof *made + 15 + (size_t)yalwythen_core_bytes());
    if (made == NULL) return result_of(YALWYTHEN_NO_MEMORY, YALWYTHEN_REASON_NONE);
    memset(made, 0, sizeof *made);
    end = (uintptr_t)(made + 1);
    made->core = (unsigned char *)(made + 1) + (16 - end % 16) % 16;
    made->records = options != NULL && options->records;
    if (made->records) {
        yalwythen_core_init_recorded(made->core);
    } else {
        yalwythen_core_init(made->core);
    }
    result = from_core(ask(made, CORE_SEAT, 0, 0), YALWYTHEN_REASON_NO_SEAT, YALWYTHEN_REASON_DOMAIN_FULL);
    made->mark = DOMAIN_MARK;
    made->seats = 1;
    if (result.status == YALWYTHEN_OK) *domain = made;
    else yalwythen_domain_free(made);
    return result;
}

void yalwythen_domain_free(yalwythen_domain *domain) {
    if (!is_domain(domain) || domain->is_inside) return;
    yalwythen_core_end(domain->core);
    free(domain->channels);
    free(domain->noted);
    /* A volatile write, which the compiler keeps although the memory is freed next. */
    *(volatile uint64_t *)&domain->mark = 0;
    free(domain);
}

yalwythen_result yalwythen_channel_new(yalwythen_domain *domain, yalwythen_kind kind, uint64_t size,
                                       yalwythen_channel *channel) {
    core_said said;
    declared *channels;
    bool has_bound = kind == YALWYTHEN_TBQUEUE || kind == YALWYTHEN_TBMQUEUE;
    if (!is_domain(domain)) return no_domain(domain);
    if (channel == NULL) return misuse(YALWYTHEN_REASON_NULL);
    channels = (declared *)grown(domain->channels, domain->count, &domain->size, sizeof *channels);
    if (channels == NULL) return result_of(YALWYTHEN_NO_MEMORY, YALWYTHEN_REASON_NONE);
    domain->channels = channels;
    said = ask(domain, CORE_DECLARE, (uint64_t)kind, size);
    if (said.code == CORE_DONE) {
        channels[domain->count].kind = (uint8_t)kind;
        channels[domain->count].bound = has_bound ? (uint16_t)size : 0;
        domain->count++;
        channel->number = (uint16_t)said.value;
    }
    return from_core(said, YALWYTHEN_REASON_NO_KIND, unless_begun(domain, YALWYTHEN_REASON_DOMAIN_FULL));
}

yalwythen_result yalwythen_channel_state(const yalwythen_domain *domain, yalwythen_channel channel,
                                         yalwythen_state *state) {
    core_said unread;
    if (!is_domain(domain)) return no_domain(domain);
    if (state == NULL) return misuse(YALWYTHEN_REASON_NULL);
    if (channel.number >= domain->count) return invalid(YALWYTHEN_REASON_NO_CHANNEL);
    unread = ask(domain, CORE_UNREAD, channel.number, 0);
    if (unread.code == CORE_NO_MEMORY) return result_of(YALWYTHEN_NO_MEMORY, YALWYTHEN_REASON_NONE);
    state->kind = (yalwythen_kind)domain->channels[channel.number].kind;
    state->bound = domain->channels[channel.number].bound;
    state->closed = ask(domain, CORE_IS_CLOSED, channel.number, 0).value != 0;
    state->length = unread.code == CORE_DONE ? unread.value : 0;
    state->changes = ask(domain, CORE_CHANGES, channel.number, 0).value;
    state->readers = (uint16_t)ask(domain, CORE_READERS_OF, channel.number, 0).value;
    return ok();
}

yalwythen_result yalwythen_unread(const yalwythen_domain *domain, yalwythen_channel channel, uint16_t reader,
                                  uint64_t *length) {
    core_said said;
    if (!is_domain(domain)) return no_domain(domain);
    if (length == NULL) return misuse(YALWYTHEN_REASON_NULL);
    if (channel.number >= domain->count) return invalid(YALWYTHEN_REASON_NO_CHANNEL);
    said = ask(domain, CORE_UNREAD, channel.number, reader);
    if (said.code == CORE_NO_MEMORY) return result_of(YALWYTHEN_NO_MEMORY, YALWYTHEN_REASON_NONE);
    if (said.code != CORE_DONE) return result_of(YALWYTHEN_ABORTED, YALWYTHEN_REASON_NO_READER);
    *length = said.value;
    return ok();
}

/* ---- Transactions as a list of steps ---- */

static core_said transact(yalwythen_domain *domain, const yalwythen_step *steps, size_t length, core_said *replies,
                          size_t size) {
    static const yalwythen_step none = {YALWYTHEN_WRITE, {0}, 0, 0};
    core_said unused;
    if (length == 0) steps = &none;
    if (size == 0) replies = &unused;
    return yalwythen_core_transact(domain->core, domain->seat, steps, length, replies, size);
}

static bool is_invalid(uint64_t code) { return code == CORE_INVALID || code == CORE_REFUSED; }

/* Runs the first `length` steps of `some`, with the alternatives closed that are open. They end in GIVE_UP, so that
 * this transaction never commits. `some` has room for `depth + 1` steps more. Returns the core's code. */
static uint64_t probe(yalwythen_domain *domain, yalwythen_step *some, size_t length, size_t depth) {
    static const yalwythen_step none = {YALWYTHEN_GIVE_UP, {0}, 0, 0};
    for (; depth > 0; depth--) {
        some[length] = none;
        some[length++].op = YALWYTHEN_END;
    }
    some[length++] = none;
    return transact(domain, some, length, NULL, 0).code;
}

/* Finds the first invalid step: the last one of the shortest beginning of the steps that is invalid. Returns
 * YALWYTHEN_NO_STEP if an allocation fails. */
static uint32_t invalid_step(yalwythen_domain *domain, const yalwythen_step *steps, size_t length) {
    size_t at, depth = 0;
    uint64_t code = CORE_DONE;
    yalwythen_step *some;
    if (length > SIZE_MAX / sizeof *some / 2 - 1) return YALWYTHEN_NO_STEP;
    some = (yalwythen_step *)malloc((2 * length + 1) * sizeof *some);
    if (some == NULL) return YALWYTHEN_NO_STEP;
    for (at = 0; at < length; at++) {
        bool is_end = steps[at].op == YALWYTHEN_END;
        memcpy(some, steps, (at + 1) * sizeof *some);
        depth += steps[at].op == YALWYTHEN_EITHER;
        if (is_end && depth == 0) break;
        depth -= is_end;
        code = probe(domain, some, at + 1, depth);
        if (is_invalid(code) || code == CORE_NO_MEMORY) break;
    }
    free(some);
    return code == CORE_NO_MEMORY ? YALWYTHEN_NO_STEP : (uint32_t)at;
}

/* Adds the items of a reply to those that are in `replies`. */
static void add_items(const yalwythen_domain *domain, uint64_t reply, uint64_t count, yalwythen_replies *replies) {
    if (replies->items_count < replies->items_size) {
        size_t size = replies->items_size - replies->items_count;
        yalwythen_core_items(domain->core, reply, 0, replies->items + replies->items_count, size);
    }
    replies->items_count += (size_t)count;
}

/* Turns the replies that the core wrote into replies of the header, in the same array, and adds the items. */
static void take_replies(const yalwythen_domain *domain, yalwythen_replies *replies) {
    size_t at;
    for (at = 0; at < replies->count; at++) {
        core_said said;
        if (at < replies->size) memcpy(&said, &replies->at[at], sizeof said);
        else said = ask(domain, CORE_LAST_REPLY, at, 0);
        if (said.code == YALWYTHEN_REPLY_ALL) add_items(domain, at, said.value, replies);
        if (at < replies->size) {
            replies->at[at].kind = (yalwythen_reply_kind)said.code;
            replies->at[at].value = said.value;
        }
    }
}

yalwythen_result yalwythen_transact(yalwythen_domain *domain, const yalwythen_step *steps, size_t length,
                                    yalwythen_replies *replies) {
    yalwythen_replies none = {NULL, 0, NULL, 0, 0, 0};
    yalwythen_result result;
    core_said said;
    if (!is_domain(domain)) return no_domain(domain);
    if (replies == NULL) replies = &none;
    if ((steps == NULL && length > 0) || (replies->at == NULL && replies->size > 0) ||
        (replies->items == NULL && replies->items_size > 0)) {
        return misuse(YALWYTHEN_REASON_NULL);
    }
    replies->count = replies->items_count = 0;
    said = transact(domain, steps, length, (core_said *)(void *)replies->at, replies->size);
    result = from_core(said, YALWYTHEN_REASON_NO_OPERATION, YALWYTHEN_REASON_BEGUN);
    if (result.status == YALWYTHEN_INVALID) result.step = invalid_step(domain, steps, length);
    if (result.status != YALWYTHEN_OK) return result;
    replies->count = (size_t)said.value;
    if (replies != &none) take_replies(domain, replies);
    return result;
}

yalwythen_result yalwythen_do(yalwythen_domain *domain, yalwythen_step step, yalwythen_reply *reply) {
    yalwythen_reply one;
    yalwythen_replies replies = {NULL, 1, NULL, 0, 0, 0};
    replies.at = reply == NULL ? &one : reply;
    return yalwythen_transact(domain, &step, 1, &replies);
}

yalwythen_result yalwythen_items(const yalwythen_domain *domain, size_t reply, size_t from, uint64_t *items,
                                 size_t length) {
    uint64_t unused;
    uint64_t number = reply == YALWYTHEN_LAST_REPLY ? UINT64_MAX : reply;
    core_said said;
    if (!is_domain(domain)) return no_domain(domain);
    if (items == NULL && length > 0) return misuse(YALWYTHEN_REASON_NULL);
    said = yalwythen_core_items(domain->core, number, from, length == 0 ? &unused : items, length);
    if (said.code != CORE_DONE || from > said.value || length > said.value - from) {
        return invalid(YALWYTHEN_REASON_NO_ITEMS);
    }
    return ok();
}

/* ---- Transactions that decide as they go ---- */

/* Why a call in a transaction is not allowed. */
static yalwythen_reason not_going(const yalwythen_domain *domain, yalwythen_reason reason) {
    return domain->begun ? reason : YALWYTHEN_REASON_NOT_BEGUN;
}

yalwythen_result yalwythen_begin(yalwythen_domain *domain) {
    core_said said;
    if (!is_domain(domain)) return no_domain(domain);
    said = ask(domain, CORE_BEGIN, domain->seat, 0);
    if (said.code == CORE_DONE) domain->begun = true;
    return from_core(said, YALWYTHEN_REASON_NO_SEAT, YALWYTHEN_REASON_BEGUN);
}

/* Whether there is room to note one more operation. */
static bool can_note(yalwythen_domain *domain) {
    yalwythen_step *noted = (yalwythen_step *)grown(domain->noted, domain->noted_count, &domain->noted_size,
                                                    sizeof *noted);
    if (noted != NULL) domain->noted = noted;
    return noted != NULL;
}

yalwythen_result yalwythen_apply(yalwythen_domain *domain, yalwythen_step step, yalwythen_reply *reply) {
    core_said said;
    uint64_t number;
    if (!is_domain(domain)) return no_domain(domain);
    if (domain->is_inside && !can_note(domain)) return result_of(YALWYTHEN_NO_MEMORY, YALWYTHEN_REASON_NONE);
    number = (uint64_t)step.op | (uint64_t)step.channel.number << 32 | (uint64_t)step.reader << 48;
    said = ask(domain, CORE_APPLY, number, step.body);
    if (domain->is_inside && (said.code >= CORE_REPLY || said.code == CORE_RETRY)) {
        domain->noted[domain->noted_count++] = step;
    }
    if (said.code >= CORE_REPLY && reply != NULL) {
        reply->kind = (yalwythen_reply_kind)(said.code - CORE_REPLY);
        reply->value = said.value;
    }
    return from_core(said, YALWYTHEN_REASON_NO_OPERATION, not_going(domain, YALWYTHEN_REASON_MUST_ROLL_BACK));
}

yalwythen_result yalwythen_savepoint(yalwythen_domain *domain, size_t *savepoint) {
    core_said said;
    if (!is_domain(domain)) return no_domain(domain);
    if (savepoint == NULL) return misuse(YALWYTHEN_REASON_NULL);
    said = ask(domain, CORE_SAVEPOINT, 0, 0);
    if (said.code == CORE_DONE) *savepoint = ++domain->savepoints;
    return from_core(said, YALWYTHEN_REASON_NO_SAVEPOINT, not_going(domain, YALWYTHEN_REASON_MUST_ROLL_BACK));
}

/* Removes savepoints down to this one, by rolling back to each or by releasing each. */
static yalwythen_result remove_savepoints(yalwythen_domain *domain, size_t savepoint, uint64_t verb) {
    if (!is_domain(domain)) return no_domain(domain);
    if (!domain->begun) return misuse(YALWYTHEN_REASON_NOT_BEGUN);
    if (savepoint == 0 || savepoint > domain->savepoints) return misuse(YALWYTHEN_REASON_NO_SAVEPOINT);
    for (; domain->savepoints >= savepoint; domain->savepoints--) ask(domain, verb, 0, 0);
    return ok();
}

yalwythen_result yalwythen_roll_back_to(yalwythen_domain *domain, size_t savepoint) {
    return remove_savepoints(domain, savepoint, CORE_ROLL_BACK_TO);
}

yalwythen_result yalwythen_release(yalwythen_domain *domain, size_t savepoint) {
    return remove_savepoints(domain, savepoint, CORE_RELEASE);
}

/* Ends the open transaction by committing it or by rolling it back. */
static yalwythen_result end(yalwythen_domain *domain, uint64_t verb) {
    core_said said;
    if (!is_domain(domain)) return no_domain(domain);
    if (domain->is_inside) return misuse(YALWYTHEN_REASON_INSIDE);
    said = ask(domain, verb, 0, 0);
    if (said.code == CORE_DONE) {
        domain->begun = false;
        domain->savepoints = 0;
        return ok();
    }
    return from_core(said, YALWYTHEN_REASON_NO_SEAT, not_going(domain, YALWYTHEN_REASON_MUST_ROLL_BACK));
}

yalwythen_result yalwythen_commit(yalwythen_domain *domain) { return end(domain, CORE_COMMIT); }
yalwythen_result yalwythen_roll_back(yalwythen_domain *domain) { return end(domain, CORE_ROLL_BACK); }

/* ---- Recorded logs ---- */

yalwythen_result yalwythen_seat_new(yalwythen_domain *domain, yalwythen_seat *seat) {
    core_said said;
    if (!is_domain(domain)) return no_domain(domain);
    if (seat == NULL) return misuse(YALWYTHEN_REASON_NULL);
    if (!domain->records) return misuse(YALWYTHEN_REASON_NOT_RECORDED);
    said = ask(domain, CORE_SEAT, 0, 0);
    if (said.code == CORE_DONE) {
        seat->number = (uint16_t)said.value;
        domain->seats = said.value + 1;
    }
    return from_core(said, YALWYTHEN_REASON_NO_SEAT, unless_begun(domain, YALWYTHEN_REASON_DOMAIN_FULL));
}

yalwythen_result yalwythen_seat_use(yalwythen_domain *domain, yalwythen_seat seat) {
    if (!is_domain(domain)) return no_domain(domain);
    if (!domain->records) return misuse(YALWYTHEN_REASON_NOT_RECORDED);
    if (domain->begun) return misuse(YALWYTHEN_REASON_BEGUN);
    if (seat.number >= domain->seats) return invalid(YALWYTHEN_REASON_NO_SEAT);
    domain->seat = seat.number;
    return ok();
}

yalwythen_result yalwythen_account(const yalwythen_domain *domain, yalwythen_channel channel,
                                   yalwythen_record **records, size_t *count) {
    yalwythen_reason not_now;
    yalwythen_record one;
    core_said said;
    if (!is_domain(domain)) return no_domain(domain);
    if (records == NULL || count == NULL) return misuse(YALWYTHEN_REASON_NULL);
    not_now = unless_begun(domain, YALWYTHEN_REASON_NOT_RECORDED);
    if (!domain->records) return misuse(not_now);
    said = yalwythen_core_account(domain->core, channel.number, 0, &one, 0);
    if (said.code == CORE_DONE) {
        size_t size = (size_t)said.value;
        yalwythen_record *made = (yalwythen_record *)malloc((size + 1) * sizeof *made);
        if (made == NULL) return result_of(YALWYTHEN_NO_MEMORY, YALWYTHEN_REASON_NONE);
        said = yalwythen_core_account(domain->core, channel.number, 0, made, size);
        if (said.code == CORE_DONE) {
            *records = made;
            *count = size;
        } else free(made);
    }
    return from_core(said, YALWYTHEN_REASON_NO_CHANNEL, not_now);
}

void yalwythen_account_free(yalwythen_record *records) { free(records); }
