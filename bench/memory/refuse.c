// Refuses the allocation whose number the variable REFUSE has, counted from 1 in the whole process: for a program
// that is run with LD_PRELOAD. With REFUSE_COUNT set it says at the end how many there were.
#define _GNU_SOURCE
#include <dlfcn.h>
#include <stdio.h>
#include <stdlib.h>
#include <sys/syscall.h>
#include <unistd.h>

static unsigned long made, refused;
static void *(*next_malloc)(size_t);
static void *(*next_realloc)(void *, size_t);

static int is_refused(void) {
  return __sync_add_and_fetch(&made, 1) == refused;
}

__attribute__((constructor)) static void begin(void) {
  const char *number = getenv("REFUSE");
  refused = number ? strtoul(number, 0, 10) : 0;
  next_malloc = dlsym(RTLD_NEXT, "malloc");
  next_realloc = dlsym(RTLD_NEXT, "realloc");
}

__attribute__((destructor)) static void end(void) {
  if (getenv("REFUSE_COUNT")) fprintf(stderr, "%lu\n", made);
}

/* A program that starts threads may end so, without its destructors. */
void _exit(int status) {
  end();
  syscall(SYS_exit_group, status);
  __builtin_unreachable();
}

void *malloc(size_t size) {
  if (!next_malloc) next_malloc = dlsym(RTLD_NEXT, "malloc");
  return is_refused() ? 0 : next_malloc(size);
}

void *realloc(void *block, size_t size) {
  if (!next_realloc) next_realloc = dlsym(RTLD_NEXT, "realloc");
  return is_refused() ? 0 : next_realloc(block, size);
}
