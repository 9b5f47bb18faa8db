/* Moves an item from one queue to another in a transaction: it is in one of them at every time. */
#include <stdio.h>
#include <stdlib.h>
#include <yalwythen.h>

static void check(yalwythen_result result) {
    if (result.status == YALWYTHEN_OK) return;
    fprintf(stderr, "hello: %s\n", yalwythen_message(result));
    exit(1);
}

int main(void) {
    yalwythen_domain *domain;
    yalwythen_channel orders, done;
    check(yalwythen_domain_new(NULL, &domain));
    check(yalwythen_channel_new(domain, YALWYTHEN_TQUEUE, 0, &orders));
    check(yalwythen_channel_new(domain, YALWYTHEN_TQUEUE, 0, &done));
    check(yalwythen_do(domain, (yalwythen_step){YALWYTHEN_WRITE, orders, 0, 7}, NULL));

    const yalwythen_step move[] = {{YALWYTHEN_READ, orders, 0, 0}, {YALWYTHEN_WRITE_LAST, done, 0, 0}};
    check(yalwythen_transact(domain, move, 2, NULL));

    yalwythen_reply reply;
    check(yalwythen_do(domain, (yalwythen_step){YALWYTHEN_READ, done, 0, 0}, &reply));
    printf("%llu\n", (unsigned long long)reply.value);
    yalwythen_domain_free(domain);
    return 0;
}
