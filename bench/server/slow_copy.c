// A copy of the database that takes SLOW_COPY seconds longer, as over a disk that is busy: whoever opens a file of a copy that is not
// whole yet sleeps so long.
// cc -O2 -shared -fPIC -o slow_copy.so slow_copy.c; SLOW_COPY=3 LD_PRELOAD=./slow_copy.so pulsar_broker ..
#define _GNU_SOURCE
#include <fcntl.h>
#include <stdarg.h>
#include <stdlib.h>
#include <string.h>
#include <sys/syscall.h>
#include <unistd.h>

static int slowly(int folder, const char *path, int flags, int mode) {
    const char *name = strstr(path, ".part");
    if (name && strcmp(name, ".part") == 0) sleep(atoi(getenv("SLOW_COPY")));
    return syscall(SYS_openat, folder, path, flags, mode);
}

#define MODE(flags) \
    va_list more; \
    va_start(more, flags); \
    int mode = va_arg(more, int); \
    va_end(more)

int open(const char *path, int flags, ...) {
    MODE(flags);
    return slowly(AT_FDCWD, path, flags, mode);
}

int open64(const char *path, int flags, ...) {
    MODE(flags);
    return slowly(AT_FDCWD, path, flags, mode);
}

int openat(int folder, const char *path, int flags, ...) {
    MODE(flags);
    return slowly(folder, path, flags, mode);
}

int openat64(int folder, const char *path, int flags, ...) {
    MODE(flags);
    return slowly(folder, path, flags, mode);
}
