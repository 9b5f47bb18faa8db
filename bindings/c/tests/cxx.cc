// The headers from C++: two threads and a transaction with a lambda as its body.
#include <cstdio>
#include <cstdlib>
#include <thread>
#include <yalwythen_script.h>
#include <yalwythen_threads.h>

static void check(bool holds, const char *what) {
    if (holds) return;
    std::fprintf(stderr, "cxx.cc: not so: %s\n", what);
    std::_Exit(1);
}
static void check(yalwythen_result result) { check(result.status == YALWYTHEN_OK, yalwythen_message(result)); }

int main() {
    yalwythen_shared *shared;
    yalwythen_channel numbers, sums;
    check(yalwythen_shared_new(nullptr, &shared));
    check(yalwythen_shared_channel(shared, YALWYTHEN_TBMQUEUE, 4, &numbers));
    check(yalwythen_shared_channel(shared, YALWYTHEN_TQUEUE, 0, &sums));
    std::thread sender([=] {
        for (uint64_t number = 1; number <= 1000; number++) check(yalwythen_send(shared, numbers, number, nullptr));
        check(yalwythen_close(shared, numbers));
    });
    struct state {
        yalwythen_channel from, to;
        uint64_t sum;
        bool goes_on;
    } state = {numbers, sums, 0, true};
    while (state.goes_on) {
        const yalwythen_body body = [](yalwythen_domain *domain, void *user) {
            auto *at = static_cast<struct state *>(user);
            yalwythen_reply reply;
            yalwythen_result result = yalwythen_apply(domain, {YALWYTHEN_READ, at->from, 0, 0}, &reply);
            if (result.status != YALWYTHEN_OK) return result;
            at->goes_on = reply.kind == YALWYTHEN_REPLY_GOT;
            if (at->goes_on) at->sum += reply.value;
            else result = yalwythen_apply(domain, {YALWYTHEN_WRITE, at->to, 0, at->sum}, nullptr);
            return result;
        };
        check(yalwythen_atomically(shared, body, &state, nullptr));
    }
    uint64_t sum;
    check(yalwythen_receive(shared, sums, &sum, nullptr));
    sender.join();
    yalwythen_shared_free(shared);
    check(yalwythen_script_check("", 0, nullptr, nullptr) == YALWYTHEN_FAULT_NOT_JSON, "no script is no JSON");
    std::printf("sum %llu\n", static_cast<unsigned long long>(sum));
}
