/* A clock that goes faster, preloaded into the program: in a second of the machine CLOCK_TIMES seconds go by for all that it measures, sleeps and waits
   for. So what it does once a minute is played in seconds. The date stays that of the machine. */

#define _GNU_SOURCE
#include <dlfcn.h>
#include <linux/futex.h>
#include <stdarg.h>
#include <stdlib.h>
#include <sys/epoll.h>
#include <sys/syscall.h>
#include <time.h>
#include <unistd.h>

#define NEXT(name) ((__typeof__(&name))dlsym(RTLD_NEXT, #name))
#define SECOND 1000000000L

static long times = 1, begun;

static long nanos_of(const struct timespec *time) { return time->tv_sec * SECOND + time->tv_nsec; }

static struct timespec time_of(long nanos) { return (struct timespec){.tv_sec = nanos / SECOND, .tv_nsec = nanos % SECOND}; }

__attribute__((constructor)) static void begin(void) {
    const char *word = getenv("CLOCK_TIMES");
    struct timespec now;
    if (!word || (times = atol(word)) < 1 || NEXT(clock_gettime)(CLOCK_MONOTONIC, &now) != 0) abort();
    begun = nanos_of(&now);
}

int clock_gettime(clockid_t clock, struct timespec *time) {
    int error = NEXT(clock_gettime)(clock, time);
    if (error == 0 && clock == CLOCK_MONOTONIC) *time = time_of(begun + (nanos_of(time) - begun) * times);
    return error;
}

int nanosleep(const struct timespec *time, struct timespec *left) {
    struct timespec shorter = time_of(nanos_of(time) / times);
    return NEXT(nanosleep)(&shorter, left);
}

int epoll_wait(int file, struct epoll_event *events, int most, int millis) {
    return NEXT(epoll_wait)(file, events, most, millis > 0 ? (int)((millis + times - 1) / times) : millis);
}

/* A thread that waits for another one, at most until a time if it names one. */
long syscall(long number, ...) {
    long words[6];
    va_list rest;
    va_start(rest, number);
    for (int at = 0; at < 6; at++) words[at] = va_arg(rest, long);
    va_end(rest);
    struct timespec sooner;
    const struct timespec *time = (const struct timespec *)words[3];
    int what = (int)words[1] & FUTEX_CMD_MASK;
    if (number == SYS_futex && time && (what == FUTEX_WAIT || what == FUTEX_WAIT_BITSET)) {
        sooner = time_of(what == FUTEX_WAIT ? nanos_of(time) / times : begun + (nanos_of(time) - begun) / times);
        words[3] = (long)&sooner;
    }
    return NEXT(syscall)(number, words[0], words[1], words[2], words[3], words[4], words[5]);
}
