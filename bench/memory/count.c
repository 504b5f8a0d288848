// Counts mallocs and reallocs by whose code asks for memory: for a program that is run with LD_PRELOAD. The file that the variable
// COUNTS names has the program's functions, and gets the counts: allocations.py makes it, and reads it at any moment.
#define _GNU_SOURCE
#include <dlfcn.h>
#include <fcntl.h>
#include <link.h>
#include <pthread.h>
#include <stdint.h>
#include <stdlib.h>
#include <string.h>
#include <sys/mman.h>
#include <unistd.h>

enum { MALLOC = 1, REALLOC = 2, NONE = 0xffffff, FUNCTIONS = 1 << 16, SITES = 1 << 16, FAR = 1 << 13 };

// The functions in the order of where they begin. One that passes on asks for others, as a vector does.
struct counts {
  uint64_t functions;
  struct { uint64_t start, passes_on; } function[FUNCTIONS];
  struct { uint64_t key, count, bytes; } site[SITES];
};

// Where a function's frame is on the stack, or that of what it called.
struct place {
  uint64_t *stack;
  uint32_t function;
};

static struct counts *counts;
static uint64_t base, text, text_end;
static void *(*next_malloc)(size_t);
static void *(*next_realloc)(void *, size_t);
static __thread __attribute__((tls_model("initial-exec"))) uint64_t *stack_end;
static __thread __attribute__((tls_model("initial-exec"))) int is_inside;

static int find_text(struct dl_phdr_info *info, size_t size, void *data) {
  (void)size, (void)data;
  base = info->dlpi_addr;
  for (int i = 0; i < info->dlpi_phnum; i++) {
    const ElfW(Phdr) *part = &info->dlpi_phdr[i];
    if (part->p_type != PT_LOAD || !(part->p_flags & PF_X)) continue;
    text = base + part->p_vaddr;
    text_end = text + part->p_memsz;
  }
  return 1; /* the program is the first of all */
}

__attribute__((constructor)) static void begin(void) {
  next_malloc = dlsym(RTLD_NEXT, "malloc");
  next_realloc = dlsym(RTLD_NEXT, "realloc");
  const char *name = getenv("COUNTS");
  int file = name ? open(name, O_RDWR) : -1;
  if (file < 0) return;
  dl_iterate_phdr(find_text, 0);
  void *at = mmap(0, sizeof *counts, PROT_READ | PROT_WRITE, MAP_SHARED, file, 0);
  close(file);
  if (at != MAP_FAILED) counts = at;
}

static uint64_t *end_of_stack(void) {
  pthread_attr_t attributes;
  void *low;
  size_t size;
  if (stack_end || pthread_getattr_np(pthread_self(), &attributes)) return stack_end;
  if (!pthread_attr_getstack(&attributes, &low, &size)) stack_end = (uint64_t *)((char *)low + size);
  pthread_attr_destroy(&attributes);
  return stack_end;
}

// The function that has an address, by halves.
static uint32_t function_at(uint64_t address) {
  if (address < text || address >= text_end || !counts->functions) return NONE;
  uint32_t low = 0, high = counts->functions;
  while (high - low > 1) {
    uint32_t middle = (low + high) / 2;
    if (base + counts->function[middle].start <= address) low = middle;
    else high = middle;
  }
  return low;
}

// Whether the code before an address is a call of the function.
static int is_behind_call(uint64_t address, uint32_t function) {
  if (address < text + 5 || address >= text_end) return 0;
  const unsigned char *call = (const unsigned char *)address - 5;
  int32_t way;
  memcpy(&way, call + 1, sizeof way);
  return *call == 0xe8 && address + way == base + counts->function[function].start;
}

// Goes to the caller: the function to which the next address on the stack returns that is behind a call of this one.
static int go_to_caller(struct place *place) {
  uint64_t *end = end_of_stack();
  if (place->function == NONE || !end) return 0;
  for (uint64_t *at = place->stack; at < end && at < place->stack + FAR; at++) {
    if (!is_behind_call(*at, place->function)) continue;
    place->function = function_at(*at);
    place->stack = at + 1;
    return 1;
  }
  return 0;
}

static void add(uint64_t key, size_t bytes) {
  for (uint64_t i = key * 0x9e3779b97f4a7c15 >> 48;; i = (i + 1) % SITES) {
    uint64_t none = 0, *there = &counts->site[i].key;
    if (!__atomic_compare_exchange_n(there, &none, key, 0, __ATOMIC_RELAXED, __ATOMIC_RELAXED) && none != key) continue;
    __atomic_fetch_add(&counts->site[i].count, 1, __ATOMIC_RELAXED);
    __atomic_fetch_add(&counts->site[i].bytes, bytes, __ATOMIC_RELAXED);
    return;
  }
}

// Counts one by the first function that does not pass on, and the one that called that.
static void count(uint64_t kind, size_t bytes, void *stack, void *address) {
  if (!counts || is_inside) return;
  is_inside = 1;
  struct place place = {stack, function_at((uint64_t)address)};
  while (place.function != NONE && counts->function[place.function].passes_on && go_to_caller(&place)) continue;
  uint64_t site = place.function, caller = go_to_caller(&place) ? place.function : NONE;
  add(kind << 48 | site << 24 | caller, bytes);
  is_inside = 0;
}

void *malloc(size_t size) {
  if (!next_malloc) next_malloc = dlsym(RTLD_NEXT, "malloc");
  count(MALLOC, size, __builtin_frame_address(0), __builtin_return_address(0));
  return next_malloc(size);
}

void *realloc(void *block, size_t size) {
  if (!next_realloc) next_realloc = dlsym(RTLD_NEXT, "realloc");
  count(REALLOC, size, __builtin_frame_address(0), __builtin_return_address(0));
  return next_realloc(block, size);
}
