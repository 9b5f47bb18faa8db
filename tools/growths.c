/* Preloaded into a program, counts its growths, that is its calls of malloc, calloc and realloc, refuses some of
   them or the start of a thread, and tells on standard error when the program ends: `growths N refused M in call K`.

   REFUSE=N       the Nth growth is refused, alone
   REFUSE_FROM=N  the Nth growth is refused, and each one after it
   REFUSE_THREAD=N  the Nth start of a thread fails
   CALLS=1        only growths within calls count. A call is what the program does between two writes to standard
                  output, the first of which is a line that begins with `call `. Calls are numbered from 1. Once
                  the second one is the line `no memory`, nothing is refused any more: the program makes the same
                  call again, with memory. */
#define _GNU_SOURCE
#include <dlfcn.h>
#include <errno.h>
#include <pthread.h>
#include <stdio.h>
#include <stdlib.h>
#include <string.h>
#include <unistd.h>

static unsigned long growths, refused, calls, refused_in;
static unsigned long first = -1, last = -1;
static unsigned long threads, no_thread;
static int by_calls, in_call, is_over, is_printed;

static unsigned long number(const char *name) {
  const char *text = getenv(name);
  return text ? strtoul(text, NULL, 10) : 0;
}

__attribute__((constructor)) static void begin(void) {
  unsigned long alone = number("REFUSE"), from = number("REFUSE_FROM");
  if (alone) first = last = alone;
  if (from) first = from;
  by_calls = number("CALLS") != 0;
  no_thread = number("REFUSE_THREAD");
}

/* Counts a growth, and says whether it is refused. */
static int is_refused(void) {
  if (is_over || (by_calls && !in_call)) return 0;
  unsigned long number = __atomic_add_fetch(&growths, 1, __ATOMIC_SEQ_CST);
  if (number < first || number > last) return 0;
  __atomic_add_fetch(&refused, 1, __ATOMIC_SEQ_CST);
  refused_in = calls;
  /* The C library looks at it where it starts a thread. */
  errno = ENOMEM;
  return 1;
}

void *malloc(size_t size) {
  static void *(*next)(size_t);
  if (!next) next = dlsym(RTLD_NEXT, "malloc");
  return is_refused() ? NULL : next(size);
}

void *calloc(size_t count, size_t size) {
  static void *(*next)(size_t, size_t);
  if (!next) next = dlsym(RTLD_NEXT, "calloc");
  return is_refused() ? NULL : next(count, size);
}

void *realloc(void *block, size_t size) {
  static void *(*next)(void *, size_t);
  if (!next) next = dlsym(RTLD_NEXT, "realloc");
  return is_refused() ? NULL : next(block, size);
}

int pthread_create(pthread_t *thread, const pthread_attr_t *attributes, void *(*start)(void *), void *argument) {
  static int (*next)(pthread_t *, const pthread_attr_t *, void *(*)(void *), void *);
  if (!next) next = dlsym(RTLD_NEXT, "pthread_create");
  if (__atomic_add_fetch(&threads, 1, __ATOMIC_SEQ_CST) == no_thread) return EAGAIN;
  return next(thread, attributes, start, argument);
}

static int begins(const char *text, size_t length, const char *line) {
  return length >= strlen(line) && memcmp(text, line, strlen(line)) == 0;
}

ssize_t write(int file, const void *text, size_t length) {
  static ssize_t (*next)(int, const void *, size_t);
  if (!next) next = dlsym(RTLD_NEXT, "write");
  if (by_calls && file == STDOUT_FILENO) {
    if (in_call && begins(text, length, "no memory\n")) is_over = 1;
    in_call = begins(text, length, "call ");
    calls += in_call;
  }
  return next(file, text, length);
}

static void tell(void) {
  if (is_printed) return;
  is_printed = is_over = 1;
  fprintf(stderr, "growths %lu refused %lu in call %lu\n", growths, refused, refused_in);
}

__attribute__((destructor)) static void end(void) { tell(); }

/* A program that may start threads ends so, which runs no destructor. */
void _exit(int status) {
  static void (*next)(int);
  if (!next) next = dlsym(RTLD_NEXT, "_exit");
  tell();
  next(status);
  __builtin_unreachable();
}
