/* A job server. Clients send numbers over a socket; an event loop passes them to worker threads by one queue, and their
 * squares back by another. The loop polls the socket and two watches: one for results, one for free slots of the queue
 * of jobs, without which it stops reading from the socket. */
#include <poll.h>
#include <pthread.h>
#include <stdio.h>
#include <stdlib.h>
#include <sys/socket.h>
#include <unistd.h>
#include <yalwythen_threads.h>

enum { JOBS = 2000, WORKERS = 3, SLOTS = 16 };
static const struct timespec past;
static yalwythen_shared *shared;
static yalwythen_channel jobs, results;

/* Fails in every build, also without asserts. */
static void check(int holds, const char *what) {
    if (holds) return;
    fprintf(stderr, "jobs.c: not so: %s\n", what);
    _Exit(1);
}

static int is_ok(yalwythen_result result) { return result.status == YALWYTHEN_OK; }

/* Takes a job and sends its square, until there are no more jobs. */
static void *work(void *unused) {
    uint64_t job;
    while (is_ok(yalwythen_receive(shared, jobs, &job, NULL))) {
        check(is_ok(yalwythen_send(shared, results, job * job, NULL)), "a result is sent");
    }
    return unused;
}

/* Sends all numbers while it receives all squares, and adds these up. */
static void *be_client(void *at) {
    int fd = *(int *)at;
    uint64_t *sum = malloc(sizeof *sum), sent = 0, got, count = 0;
    check(sum != NULL, "there is memory");
    for (*sum = 0; count < JOBS; count++) {
        for (; sent < JOBS && sent < count + 100; sent++) {
            uint64_t job = sent + 1;
            check(write(fd, &job, sizeof job) == sizeof job, "a number is written");
        }
        check(read(fd, &got, sizeof got) == sizeof got, "a square is read");
        *sum += got;
    }
    check(shutdown(fd, SHUT_WR) == 0, "the client stops");
    return sum;
}

/* The event loop's job that the queue had no slot for, if there is one. */
static uint64_t waiting;
static bool is_waiting;

/* Passes the waiting job on; whether none waits any more. */
static bool pass_on(void) {
    yalwythen_result result;
    if (!is_waiting) return true;
    result = yalwythen_send(shared, jobs, waiting, &past);
    is_waiting = result.status == YALWYTHEN_TIMED_OUT;
    check(is_waiting || is_ok(result), "a job is passed on");
    return !is_waiting;
}

/* Reads jobs until there are no more for now, or one has to wait; whether the client goes on. */
static bool read_jobs(int fd) {
    while (pass_on()) {
        ssize_t count = recv(fd, &waiting, sizeof waiting, MSG_DONTWAIT);
        if (count <= 0) return count < 0;
        check(count == sizeof waiting, "a number is whole");
        is_waiting = true;
    }
    return true;
}

static void write_results(int fd) {
    uint64_t result;
    while (is_ok(yalwythen_receive(shared, results, &result, &past))) {
        check(write(fd, &result, sizeof result) == sizeof result, "a result is written");
    }
}

static yalwythen_watch *watch(yalwythen_op op, yalwythen_channel channel) {
    yalwythen_step step = {.op = op, .channel = channel};
    yalwythen_watch *made;
    check(is_ok(yalwythen_watch_new(shared, &step, 1, &made)), "there is a watch");
    return made;
}

static void serve(int fd) {
    yalwythen_watch *slots = watch(YALWYTHEN_WRITE, jobs), *done = watch(YALWYTHEN_READ, results);
    bool goes_on = true;
    while (goes_on) {
        struct pollfd polled[] = {
            {.fd = yalwythen_watch_fd(done), .events = POLLIN},
            {.fd = is_waiting ? yalwythen_watch_fd(slots) : -1, .events = POLLIN},
            {.fd = is_waiting ? -1 : fd, .events = POLLIN},
        };
        check(poll(polled, 3, 60000) > 0, "something happens within a minute");
        if (polled[0].revents) check(is_ok(yalwythen_watch_clear(done)), "a watch is cleared");
        if (polled[1].revents) check(is_ok(yalwythen_watch_clear(slots)), "a watch is cleared");
        write_results(fd);
        if (polled[1].revents || polled[2].revents) goes_on = read_jobs(fd);
    }
    yalwythen_watch_free(slots);
    yalwythen_watch_free(done);
}

int main(void) {
    pthread_t workers[WORKERS], client;
    uint64_t *sum;
    int fds[2];
    check(is_ok(yalwythen_shared_new(NULL, &shared)), "there is a domain");
    check(is_ok(yalwythen_shared_channel(shared, YALWYTHEN_TBMQUEUE, SLOTS, &jobs)), "there is a queue of jobs");
    check(is_ok(yalwythen_shared_channel(shared, YALWYTHEN_TQUEUE, 0, &results)), "there is a queue of results");
    check(socketpair(AF_UNIX, SOCK_STREAM, 0, fds) == 0, "there is a socket");
    for (int i = 0; i < WORKERS; i++) check(!pthread_create(&workers[i], NULL, work, NULL), "a worker starts");
    check(!pthread_create(&client, NULL, be_client, &fds[1]), "the client starts");
    serve(fds[0]);
    check(is_ok(yalwythen_close(shared, jobs)), "there are no more jobs");
    for (int i = 0; i < WORKERS; i++) check(!pthread_join(workers[i], NULL), "a worker ends");
    check(!pthread_join(client, (void **)&sum), "the client ends");
    printf("%d squares, sum %llu\n", JOBS, (unsigned long long)*sum);
    free(sum);
    close(fds[0]);
    close(fds[1]);
    yalwythen_shared_free(shared);
    return 0;
}
