/* Who is woken, without threads: the waiters here are woken without a thread that sleeps. */
#include "check.h"
#include "../src/waiting.h"
#include <string.h>

enum { MANY = 16, CHANNELS = 4 };
static slot slots[CHANNELS];
static center at;
static waiter waiters[MANY];
static const yalwythen_channel zero = {0}, one = {1}, two = {2}, three = {3};

static void start(void) {
    memset(&at, 0, sizeof at);
    memset(slots, 0, sizeof slots);
    memset(waiters, 0, sizeof waiters);
    at.slots = slots;
    at.count = CHANNELS;
    for (int i = 0; i < MANY; i++) CHECK(!pthread_cond_init(&waiters[i].changed, NULL));
}

/* Waiter `number` waits for these steps, with a ticket if it has none. */
static void waits_for(int number, const yalwythen_step *steps, size_t length) {
    waiter *who = &waiters[number];
    if (who->ticket == 0) who->ticket = ++at.tickets;
    who->is_woken = false;
    enlist(&at, who);
    CHECK(wait_for_steps(&at, who, steps, length));
}

/* Returns the waiters that were woken since the last call, a bit for each, and takes them off. */
static unsigned woken(void) {
    unsigned bits = 0;
    for (int i = 0; i < MANY; i++) {
        if (!waiters[i].is_woken) continue;
        bits |= 1u << i;
        waiters[i].is_woken = false;
        delist(&at, &waiters[i]);
        CHECK(waiters[i].count == 0);
    }
    return bits;
}

static unsigned woken_by(const yalwythen_step *steps, size_t length) {
    wake_for(&at, steps, length);
    return woken();
}
static unsigned woken_by_one(yalwythen_step step) { return woken_by(&step, 1); }

static int count_of(unsigned bits) {
    int count = 0;
    for (; bits != 0; bits &= bits - 1) count++;
    return count;
}

/* Wakes all, and returns who waited; then no waiter is left. */
static unsigned all(void) {
    unsigned bits;
    wake_all(&at);
    bits = woken();
    CHECK(at.waiters == NULL);
    for (int i = 0; i < CHANNELS; i++) {
        for (int of = 0; of < SIDES; of++) CHECK(!slots[i].single[of].first && !slots[i].several[of].last);
    }
    return bits;
}

static void check_one_for_each_item(void) {
    const yalwythen_step read = on(YALWYTHEN_READ, zero, 0), other = on(YALWYTHEN_READ, one, 0);
    const yalwythen_step both[] = {on(YALWYTHEN_WRITE, zero, 7), on(YALWYTHEN_TRY_WRITE, zero, 7)};
    start();
    for (int i = 0; i < 4; i++) waits_for(i, &read, 1);
    waits_for(4, &other, 1);
    CHECK(woken_by_one(on(YALWYTHEN_WRITE, one, 7)) == 1u << 4);
    CHECK(woken_by_one(on(YALWYTHEN_WRITE, zero, 7)) == 1);
    CHECK(woken_by(both, 2) == 6);
    /* A waiter that was woken for nothing waits again, before the waiters that came later. */
    waits_for(4, &read, 1);
    waits_for(5, &read, 1);
    waits_for(0, &read, 1);
    waits_for(1, &read, 1);
    CHECK(woken_by_one(on(YALWYTHEN_WRITE, zero, 7)) == 1);
    CHECK(woken_by_one(on(YALWYTHEN_PUT_BACK, zero, 7)) == 1u << 1);
    CHECK(woken_by_one(on(YALWYTHEN_WRITE_LAST, zero, 7)) == 1u << 3);
    CHECK(woken_by_one(on(YALWYTHEN_READ, zero, 0)) == 0 && woken_by_one(on(YALWYTHEN_PEEK, zero, 0)) == 0);
    CHECK(all() == 3u << 4);
}

static void check_free_writes(void) {
    const yalwythen_step move[] = {on(YALWYTHEN_READ, zero, 0), on(YALWYTHEN_WRITE_LAST, one, 0)};
    const yalwythen_step to_bounded[] = {on(YALWYTHEN_READ, zero, 0), on(YALWYTHEN_WRITE_LAST, two, 0)};
    const yalwythen_step twice[] = {on(YALWYTHEN_TRY_READ, zero, 0), on(YALWYTHEN_READ, zero, 0)};
    const yalwythen_step gives_up[] = {on(YALWYTHEN_READ, zero, 0), on(YALWYTHEN_GIVE_UP, zero, 0)};
    const yalwythen_step *const several[] = {to_bounded, twice, gives_up};
    const yalwythen_step opposite[] = {on(YALWYTHEN_READ, one, 0), on(YALWYTHEN_WRITE_LAST, zero, 0)};
    start();
    slots[2].has_bound = true;
    for (int i = 0; i < 4; i++) waits_for(i, move, 2);
    CHECK(count_of(woken_by(opposite, 2)) == 1);
    CHECK(count_of(all()) == 3);
    for (int kind = 0; kind < 3; kind++) {
        for (int i = 0; i < 4; i++) waits_for(i, several[kind], 2);
        CHECK(woken_by_one(on(YALWYTHEN_WRITE, zero, 7)) == 15);
    }
    CHECK(all() == 0);
}

static void check_broadcasts(void) {
    const yalwythen_step gives[] = {
        on(YALWYTHEN_WRITE, one, 7), on(YALWYTHEN_WRITE_LAST, one, 0), by(YALWYTHEN_PUT_BACK, one, 2),
        on(YALWYTHEN_CLOSE, one, 0),
    };
    const yalwythen_step idle[] = {by(YALWYTHEN_READ, one, 0), on(YALWYTHEN_DUP, one, 0), by(YALWYTHEN_CLONE, one, 2),
                                   by(YALWYTHEN_IS_EMPTY, one, 1)};
    const yalwythen_step out[] = {by(YALWYTHEN_READ, one, 1), on(YALWYTHEN_WRITE_LAST, zero, 0)};
    const yalwythen_step in[] = {on(YALWYTHEN_READ, zero, 0), on(YALWYTHEN_WRITE_LAST, one, 0)};
    start();
    slots[1].is_broadcast = true;
    for (int kind = 0; kind < 4; kind++) {
        const yalwythen_step peek = by(YALWYTHEN_PEEK, one, 0), read = on(YALWYTHEN_READ, zero, 0);
        for (uint16_t reader = 0; reader < 3; reader++) {
            const yalwythen_step step = by(YALWYTHEN_READ, one, reader);
            waits_for(reader, &step, 1);
        }
        waits_for(3, &peek, 1);
        waits_for(4, out, 2);
        waits_for(5, in, 2);
        waits_for(6, &read, 1);
        CHECK(woken_by(idle, 4) == 0);
        CHECK(woken_by_one(gives[kind]) == 31);
        CHECK(woken_by_one(on(YALWYTHEN_WRITE, zero, 7)) == 1u << 5);
        CHECK(all() == 1u << 6);
    }
}

static void check_several(void) {
    const yalwythen_step steps[][2] = {
        {on(YALWYTHEN_WRITE, zero, 7), on(YALWYTHEN_PEEK, one, 0)}, {on(YALWYTHEN_READ, zero, 0)},
        {on(YALWYTHEN_PEEK, zero, 0)}, {on(YALWYTHEN_WRITE, zero, 7)},
    };
    const yalwythen_step both[] = {on(YALWYTHEN_READ, two, 0), on(YALWYTHEN_WRITE, three, 7)};
    const yalwythen_step idle[] = {on(YALWYTHEN_PEEK, zero, 0), on(YALWYTHEN_IS_EMPTY, zero, 0),
                                   on(YALWYTHEN_LENGTH, zero, 0), on(YALWYTHEN_GIVE_UP, zero, 0)};
    const yalwythen_step write = on(YALWYTHEN_WRITE, zero, 7), back = on(YALWYTHEN_PUT_BACK, zero, 7);
    start();
    for (int i = 0; i < CHANNELS; i++) slots[i].has_bound = true;
    for (int kind = 0; kind < 4; kind++) {
        waits_for(0, both, 2);
        waits_for(1, steps[kind], kind == 0 ? 2 : 1);
        waits_for(2, steps[kind], kind == 0 ? 2 : 1);
        CHECK(woken_by_one(on(YALWYTHEN_WRITE, two, 7)) == 1);
        CHECK(woken_by(idle, 4) == 0);
        CHECK(woken_by_one(on(YALWYTHEN_CLOSE, zero, 0)) == 6);
    }
    waits_for(1, &write, 1);
    waits_for(2, &back, 1);
    CHECK(woken_by_one(on(YALWYTHEN_TRY_READ, zero, 0)) == 6);
    waits_for(3, &write, 1);
    waits_for(4, &write, 1);
    CHECK(woken_by_one(on(YALWYTHEN_FLUSH, zero, 0)) == 24);
    CHECK(all() == 0);
}

/* One that waits for any change of what it looked at, often, is woken by each side of it once. */
static void check_any_change(void) {
    yalwythen_step looked[40];
    start();
    for (int i = 0; i < 40; i++) looked[i] = on(YALWYTHEN_TRY_READ, i % 2 ? one : two, 0);
    for (int kind = 0; kind < 4; kind++) {
        const yalwythen_op op = kind % 2 ? YALWYTHEN_WRITE : YALWYTHEN_READ;
        waiters[0].ticket = 1;
        waiters[0].is_woken = false;
        enlist(&at, &waiters[0]);
        CHECK(wait_for_any_change(&at, &waiters[0], looked, 40) && waiters[0].count == 4);
        CHECK(woken_by_one(on(op, zero, 7)) == 0 && woken_by_one(on(op, three, 7)) == 0);
        CHECK(woken_by_one(on(op, kind < 2 ? one : two, 7)) == 1);
    }
    CHECK(all() == 0);
    free(waiters[0].wishes);
}

int main(void) {
    check_one_for_each_item();
    check_free_writes();
    check_broadcasts();
    check_several();
    check_any_change();
    printf("%lu checks\n", checks);
    return 0;
}
