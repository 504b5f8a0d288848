// Clocks that are set while a program runs: the file SET_CLOCK has two whole numbers of 64 bits, the milliseconds that are added to
// the time of day and to the clock that nobody sets.
// cc -O2 -shared -fPIC -o set_clock.so set_clock.c; SET_CLOCK=file LD_PRELOAD=./set_clock.so pulsar_broker ..
#define _GNU_SOURCE
#include <fcntl.h>
#include <stdint.h>
#include <stdlib.h>
#include <sys/mman.h>
#include <sys/syscall.h>
#include <time.h>
#include <unistd.h>

static volatile const int64_t *added(void) {
    static volatile const int64_t *shown;
    if (!shown) {
        int file = open(getenv("SET_CLOCK"), O_RDONLY);
        shown = mmap(NULL, 2 * sizeof(int64_t), PROT_READ, MAP_SHARED, file, 0);
    }
    return shown;
}

int clock_gettime(clockid_t clock, struct timespec *now) {
    int answer = syscall(SYS_clock_gettime, clock, now);
    if (answer == 0 && (clock == CLOCK_REALTIME || clock == CLOCK_MONOTONIC)) {
        int64_t nanos = now->tv_nsec + added()[clock == CLOCK_MONOTONIC] * 1000000;
        int64_t seconds = nanos / 1000000000, rest = nanos % 1000000000;
        if (rest < 0) {
            rest += 1000000000;
            seconds -= 1;
        }
        now->tv_sec += seconds;
        now->tv_nsec = rest;
    }
    return answer;
}
