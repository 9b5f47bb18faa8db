/* As many channels and seats as a domain has, and transactions at their limits and beyond. */
#include "check.h"
#include <yalwythen_threads.h>

enum { MOST = 65536 };

static yalwythen_channel numbered(uint32_t number) {
    yalwythen_channel channel = {(uint16_t)number};
    return channel;
}

static void fill_channels(yalwythen_domain *domain) {
    yalwythen_channel channel;
    for (uint32_t at = 0; at < MOST; at++) {
        const yalwythen_kind kind = (yalwythen_kind)(at % 6);
        CHECK_OK(yalwythen_channel_new(domain, kind, kind < YALWYTHEN_TCHAN ? 65535 : at % 65, &channel));
        CHECK(channel.number == at);
    }
    CHECK_MISUSE(yalwythen_channel_new(domain, YALWYTHEN_TQUEUE, 0, &channel), DOMAIN_FULL);
}

static void fill_seats(yalwythen_domain *domain) {
    yalwythen_seat seat;
    for (uint32_t at = 1; at < MOST; at++) {
        CHECK_OK(yalwythen_seat_new(domain, &seat));
        CHECK(seat.number == at);
    }
    CHECK_MISUSE(yalwythen_seat_new(domain, &seat), DOMAIN_FULL);
    CHECK_OK(yalwythen_seat_use(domain, seat));
}

/* Transactions on the first and the last channels, and an open one on all. */
static void use_all(yalwythen_domain *domain) {
    const yalwythen_channel first = numbered(0), last = numbered(65532);
    const yalwythen_step move[] = {
        on(YALWYTHEN_WRITE, first, 7), on(YALWYTHEN_READ, first, 0), on(YALWYTHEN_WRITE_LAST, last, 0),
    };
    yalwythen_reply reply;
    yalwythen_state state;
    CHECK_OK(yalwythen_transact(domain, move, 3, NULL));
    CHECK_OK(yalwythen_do(domain, on(YALWYTHEN_READ, last, 0), &reply));
    CHECK(reply.kind == YALWYTHEN_REPLY_GOT && reply.value == 7);
    CHECK_OK(yalwythen_channel_state(domain, numbered(65531), &state));
    CHECK(state.kind == YALWYTHEN_TMCHAN && state.readers == 65531 % 65);
    for (int rolls_back = 0; rolls_back < 2; rolls_back++) {
        CHECK_OK(yalwythen_begin(domain));
        for (uint32_t at = 0; at < MOST; at++) {
            CHECK_OK(yalwythen_apply(domain, on(YALWYTHEN_WRITE, numbered(at), at), NULL));
        }
        CHECK_OK(rolls_back ? yalwythen_roll_back(domain) : yalwythen_commit(domain));
    }
    for (uint32_t at = 0; at < MOST; at++) {
        CHECK_OK(yalwythen_channel_state(domain, numbered(at), &state));
        CHECK(state.length == (state.readers > 0) && state.changes == 1u + (at == 0 || at == 65532) * 2u);
    }
}

static void check_readers(yalwythen_domain *domain) {
    const yalwythen_channel broadcast = numbered(64 * 6 + 4);
    yalwythen_state state;
    CHECK_OK(yalwythen_channel_state(domain, broadcast, &state));
    for (; state.readers < 64; state.readers++) CHECK_OK(yalwythen_do(domain, on(YALWYTHEN_DUP, broadcast, 0), NULL));
    CHECK_ABORTED(yalwythen_do(domain, on(YALWYTHEN_DUP, broadcast, 0), NULL), TOO_MANY_READERS);
}

/* A body that writes to all channels but the last, and waits for that. */
static yalwythen_result write_all(yalwythen_domain *inside, void *count) {
    for (uint32_t at = 0; at + 1 < *(uint32_t *)count; at++) {
        yalwythen_result result = yalwythen_apply(inside, on(YALWYTHEN_WRITE, numbered(at), at), NULL);
        if (result.status != YALWYTHEN_OK) return result;
    }
    return yalwythen_apply(inside, on(YALWYTHEN_READ, numbered(*(uint32_t *)count - 1), 0), NULL);
}

/* A transaction that waits for all channels of a shared domain. */
static void wait_for_many(void) {
    const struct timespec soon = yalwythen_after(20000000);
    uint32_t count = 20000;
    yalwythen_shared *shared;
    yalwythen_channel channel;
    yalwythen_state state;
    CHECK_OK(yalwythen_shared_new(NULL, &shared));
    for (uint32_t at = 0; at < count; at++) {
        CHECK_OK(yalwythen_shared_channel(shared, at % 2 ? YALWYTHEN_TBQUEUE : YALWYTHEN_TMQUEUE, 1, &channel));
    }
    CHECK(yalwythen_atomically(shared, write_all, &count, &soon).status == YALWYTHEN_TIMED_OUT);
    CHECK_OK(yalwythen_shared_state(shared, numbered(0), &state));
    CHECK(state.length == 0);
    CHECK_OK(yalwythen_send(shared, channel, 1, NULL));
    CHECK_OK(yalwythen_atomically(shared, write_all, &count, NULL));
    CHECK_OK(yalwythen_shared_state(shared, numbered(count - 2), &state));
    CHECK(state.length == 1);
    yalwythen_shared_free(shared);
}

int main(void) {
    const yalwythen_options records = {sizeof records, true};
    yalwythen_domain *domain;
    CHECK_OK(yalwythen_domain_new(NULL, &domain));
    fill_channels(domain);
    use_all(domain);
    check_readers(domain);
    yalwythen_domain_free(domain);
    CHECK_OK(yalwythen_domain_new(&records, &domain));
    fill_seats(domain);
    yalwythen_domain_free(domain);
    wait_for_many();
    printf("%d channels and seats\n", MOST);
    return 0;
}
