/* A domain that records logs: the account of a channel has each change, with the seat that made it, and the items that
 * are in the channel. */
#include <stdio.h>
#include <stdlib.h>
#include <yalwythen.h>

/* Fails in every build, also without asserts. */
static void check(bool holds, const char *what) {
    if (holds) return;
    fprintf(stderr, "accounts.c: not so: %s\n", what);
    exit(1);
}

static bool is_ok(yalwythen_result result) { return result.status == YALWYTHEN_OK; }

static bool is_misuse(yalwythen_result result, yalwythen_reason reason) {
    return result.status == YALWYTHEN_MISUSE && result.reason == reason;
}

static bool same(const yalwythen_record *one, const yalwythen_record *other) {
    return one->stamp == other->stamp && one->serial == other->serial && one->number == other->number &&
           one->body == other->body && one->act == other->act && one->origin == other->origin &&
           one->seat == other->seat && one->maker == other->maker;
}

static yalwythen_channel queue, other;
static yalwythen_seat first, second;

static yalwythen_domain *new_domain(bool records) {
    yalwythen_options options = {.size = sizeof options, .records = records};
    yalwythen_domain *domain;
    check(is_ok(yalwythen_domain_new(&options, &domain)), "there is a domain");
    check(is_ok(yalwythen_channel_new(domain, YALWYTHEN_TMQUEUE, 0, &queue)), "there is a queue");
    check(is_ok(yalwythen_channel_new(domain, YALWYTHEN_TBQUEUE, 8, &other)), "there is another queue");
    return domain;
}

/* Runs one operation under a seat, if the domain has seats. */
static yalwythen_result run(yalwythen_domain *domain, yalwythen_seat seat, yalwythen_op op, uint64_t body) {
    (void)yalwythen_seat_use(domain, seat).status;
    return yalwythen_do(domain, (yalwythen_step){op, queue, 0, body}, NULL);
}

/* Seat 0 writes 5 and 6, seat 1 takes 5 and puts it back as 7, and seat 0 closes: the stamps count these four. */
static void act(yalwythen_domain *domain) {
    const yalwythen_step writes[] = {{YALWYTHEN_WRITE, queue, 0, 5}, {YALWYTHEN_WRITE, queue, 0, 6}};
    check(is_ok(yalwythen_transact(domain, writes, 2, NULL)), "both are written");
    check(is_ok(run(domain, second, YALWYTHEN_READ, 0)), "one is taken");
    check(is_ok(run(domain, second, YALWYTHEN_PUT_BACK, 7)), "one is put back");
    check(is_ok(run(domain, first, YALWYTHEN_CLOSE, 0)), "it is closed");
    yalwythen_result result = yalwythen_do(domain, (yalwythen_step){YALWYTHEN_READ, other, 0, 0}, NULL);
    check(result.status == YALWYTHEN_RETRY && result.cause == YALWYTHEN_CAUSE_EMPTY, "nothing is in the other one");
}

static size_t check_records(yalwythen_domain *domain) {
    static const yalwythen_record wanted[] = {
        {1, 0, 0, 5, YALWYTHEN_ACT_WROTE, YALWYTHEN_ORIGIN_WRITE, 0, 0},
        {1, 0, 1, 6, YALWYTHEN_ACT_WROTE, YALWYTHEN_ORIGIN_WRITE, 0, 0},
        {2, 0, 0, 5, YALWYTHEN_ACT_TOOK, YALWYTHEN_ORIGIN_WRITE, 1, 0},
        {3, 1, 0, 7, YALWYTHEN_ACT_PUT_BACK, YALWYTHEN_ORIGIN_PUT_BACK, 1, 1},
        {4, 1, 0, 0, YALWYTHEN_ACT_CLOSED, YALWYTHEN_ORIGIN_NONE, 0, 0},
        {0, 0, 0, 7, YALWYTHEN_ACT_LEFT, YALWYTHEN_ORIGIN_PUT_BACK, 0, 1},
        {0, 0, 1, 6, YALWYTHEN_ACT_LEFT, YALWYTHEN_ORIGIN_WRITE, 0, 0},
    };
    yalwythen_record *records;
    size_t count, none;
    check(is_ok(yalwythen_account(domain, queue, &records, &count)), "there is an account");
    check(count == sizeof wanted / sizeof *wanted, "it has all records");
    for (size_t at = 0; at < count; at++) check(same(&records[at], &wanted[at]), "each record is as it was done");
    yalwythen_account_free(records);
    check(is_ok(yalwythen_account(domain, other, &records, &none)) && none == 0, "nothing was done on the other one");
    yalwythen_account_free(records);
    yalwythen_result result = yalwythen_account(domain, (yalwythen_channel){2}, &records, &none);
    check(result.status == YALWYTHEN_INVALID && result.reason == YALWYTHEN_REASON_NO_CHANNEL, "there is no third one");
    return count;
}

int main(void) {
    yalwythen_domain *domain = new_domain(true);
    yalwythen_channel broadcast;
    yalwythen_record *records;
    yalwythen_state state;
    size_t count;
    check(is_ok(yalwythen_seat_new(domain, &second)) && second.number == 1, "there is another seat");
    act(domain);
    size_t printed = check_records(domain);
    yalwythen_result result = yalwythen_channel_new(domain, YALWYTHEN_TCHAN, 1, &broadcast);
    check(result.status == YALWYTHEN_INVALID && result.reason == YALWYTHEN_REASON_BROADCAST_LOG, "it has no broadcast");
    yalwythen_domain_free(domain);

    domain = new_domain(false);
    act(domain);
    check(is_misuse(yalwythen_account(domain, queue, &records, &count), YALWYTHEN_REASON_NOT_RECORDED), "no account");
    check(is_misuse(yalwythen_seat_new(domain, &second), YALWYTHEN_REASON_NOT_RECORDED), "no seats");
    check(is_ok(yalwythen_channel_state(domain, queue, &state)) && state.changes == 5, "but a count of changes");
    check(is_ok(yalwythen_channel_new(domain, YALWYTHEN_TCHAN, 1, &broadcast)), "and broadcasts");
    yalwythen_domain_free(domain);
    printf("%zu records, as they were done\n", printed);
    return 0;
}
