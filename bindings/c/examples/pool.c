/* A worker pool: one thread sends jobs and closes the queue, three receive and add up. */
#include <pthread.h>
#include <stdio.h>
#include <stdlib.h>
#include <yalwythen_threads.h>

enum { JOBS = 10000, WORKERS = 3 };
static yalwythen_shared *shared;
static yalwythen_channel jobs;

/* Fails in every build, also without asserts. */
static void check(int holds, const char *what) {
    if (holds) return;
    fprintf(stderr, "pool.c: not so: %s\n", what);
    _Exit(1);
}

static int is_ok(yalwythen_result result) { return result.status == YALWYTHEN_OK; }

static void *work(void *sum) {
    uint64_t job;
    yalwythen_result result;
    while (is_ok(result = yalwythen_receive(shared, jobs, &job, NULL))) *(uint64_t *)sum += job;
    check(result.status == YALWYTHEN_CLOSED, "the queue ends by its closing");
    return NULL;
}

int main(void) {
    pthread_t workers[WORKERS];
    uint64_t sums[WORKERS] = {0}, sum = 0;
    check(is_ok(yalwythen_shared_new(NULL, &shared)), "there is a domain");
    check(is_ok(yalwythen_shared_channel(shared, YALWYTHEN_TBMQUEUE, 64, &jobs)), "there is a queue");
    for (int i = 0; i < WORKERS; i++) check(!pthread_create(&workers[i], NULL, work, &sums[i]), "a thread starts");
    for (uint64_t job = 1; job <= JOBS; job++) check(is_ok(yalwythen_send(shared, jobs, job, NULL)), "a job is sent");
    check(is_ok(yalwythen_close(shared, jobs)), "the queue is closed");
    check(yalwythen_send(shared, jobs, 1, NULL).status == YALWYTHEN_CLOSED, "nothing is sent after that");
    for (int i = 0; i < WORKERS; i++) {
        check(!pthread_join(workers[i], NULL), "a thread ends");
        sum += sums[i];
    }
    yalwythen_state state;
    check(is_ok(yalwythen_shared_state(shared, jobs, &state)), "the queue has a state");
    check(state.closed && state.length == 0 && state.changes == 2 * JOBS + 1, "each job was sent and received once");
    yalwythen_shared_free(shared);
    check(sum == (uint64_t)JOBS * (JOBS + 1) / 2, "the sum is that of all jobs");
    printf("sum %llu\n", (unsigned long long)sum);
    return 0;
}
