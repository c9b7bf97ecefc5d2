/* refuse: loaded before a program (LD_PRELOAD), it refuses it memory.
   REFUSE_AT=N refuses the Nth request for memory, counted from 1, and with REFUSE_ON set all behind it too. At the
   end it writes how many requests there were, and a line feed, into the file of the descriptor REFUSE_TELL.
   Not part of the crates: bench/hostile.py builds it. */
#define _GNU_SOURCE
#include <dlfcn.h>
#include <errno.h>
#include <stdio.h>
#include <stdlib.h>
#include <string.h>
#include <unistd.h>

static unsigned long asked, at;
static int on, ready;

static void *(*real_malloc)(size_t);
static void *(*real_calloc)(size_t, size_t);
static void *(*real_realloc)(void *, size_t);
static void *(*real_aligned_alloc)(size_t, size_t);
static int (*real_posix_memalign)(void **, size_t, size_t);
static void (*real_free)(void *);

__attribute__((constructor)) static void begin(void) {
  real_malloc = dlsym(RTLD_NEXT, "malloc");
  real_calloc = dlsym(RTLD_NEXT, "calloc");
  real_realloc = dlsym(RTLD_NEXT, "realloc");
  real_aligned_alloc = dlsym(RTLD_NEXT, "aligned_alloc");
  real_posix_memalign = dlsym(RTLD_NEXT, "posix_memalign");
  real_free = dlsym(RTLD_NEXT, "free");
  const char *n = getenv("REFUSE_AT");
  at = n ? strtoul(n, 0, 10) : 0;
  on = getenv("REFUSE_ON") != 0;
  ready = 1;
}

__attribute__((destructor)) static void end(void) {
  const char *fd = getenv("REFUSE_TELL");
  char line[32];
  if (!fd) return;
  int length = snprintf(line, sizeof line, "%lu\n", asked);
  if (write(atoi(fd), line, (size_t)length) < 0) return;
}

/* Whether this request is refused. */
static int refused(void) {
  if (!ready) return 0;
  asked++;
  if (at == 0 || asked < at || (asked > at && !on)) return 0;
  errno = ENOMEM;
  return 1;
}

/* What is asked for before this library has begun. */
static char early[65536];
static size_t early_used;

static void *from_early(size_t size) {
  size_t start = (early_used + 15) & ~(size_t)15;
  if (start + size > sizeof early) return 0;
  early_used = start + size;
  return early + start;
}

void free(void *p) {
  if (real_free && ((char *)p < early || (char *)p >= early + sizeof early)) real_free(p);
}

void *malloc(size_t size) {
  if (!real_malloc) return from_early(size);
  return refused() ? 0 : real_malloc(size);
}

void *calloc(size_t count, size_t size) {
  if (!real_calloc) return from_early(count * size);
  return refused() ? 0 : real_calloc(count, size);
}

void *realloc(void *old, size_t size) {
  if (!real_realloc) return old ? 0 : from_early(size);
  return refused() ? 0 : real_realloc(old, size);
}

void *aligned_alloc(size_t alignment, size_t size) {
  return refused() ? 0 : real_aligned_alloc(alignment, size);
}

int posix_memalign(void **to, size_t alignment, size_t size) {
  return refused() ? ENOMEM : real_posix_memalign(to, alignment, size);
}
