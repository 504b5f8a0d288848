// A fdatasync that takes SYNC_US microseconds and writes nothing, to show what a disk's speed does to the broker.
// cc -O2 -shared -fPIC -o fixed_sync.so fixed_sync.c; SYNC_US=90 LD_PRELOAD=./fixed_sync.so pulsar_broker /dev/shm/..
// Nothing that is stored meanwhile would outlast the machine.
#define _GNU_SOURCE
#include <stdlib.h>
#include <sys/prctl.h>
#include <time.h>

// A sleep ends this much later than it was asked to.
enum { LATE = 12 };

static double now_us(void) {
    struct timespec now;
    clock_gettime(CLOCK_MONOTONIC, &now);
    return now.tv_sec * 1e6 + now.tv_nsec / 1e3;
}

int fdatasync(int file) {
    static __thread int is_exact;
    (void)file;
    const char *asked = getenv("SYNC_US");
    int length = asked ? atoi(asked) : 0;
    double end = now_us() + length;
    if (!is_exact) is_exact = prctl(PR_SET_TIMERSLACK, 1) == 0;
    if (length > LATE) {
        struct timespec pause = {0, (length - LATE) * 1000L};
        nanosleep(&pause, NULL);
    }
    while (now_us() < end) {
    }
    return 0;
}
