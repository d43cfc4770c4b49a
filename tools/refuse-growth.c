/* Preloaded into a program, this refuses one of its allocations: that whose number REFUSE gives, counted from 1. It says so by a byte on
   descriptor 9. */
#include <errno.h>
#include <stdatomic.h>
#include <stdlib.h>
#include <unistd.h>

extern void *__libc_malloc(size_t size);
extern void *__libc_calloc(size_t count, size_t size);
extern void *__libc_realloc(void *old, size_t size);
extern void *__libc_memalign(size_t alignment, size_t size);

/* How many allocations there are up to the refused one, itself counted. */
static atomic_long left;

__attribute__((constructor)) static void start(void) {
  const char *number = getenv("REFUSE");
  atomic_store(&left, number ? atol(number) : 0);
}

static int is_refused(void) {
  if (atomic_load(&left) <= 0 || atomic_fetch_sub(&left, 1) != 1) return 0;
  if (write(9, "r", 1) != 1) _exit(125);
  errno = ENOMEM;
  return 1;
}

void *malloc(size_t size) { return is_refused() ? NULL : __libc_malloc(size); }

void *calloc(size_t count, size_t size) { return is_refused() ? NULL : __libc_calloc(count, size); }

void *realloc(void *old, size_t size) { return is_refused() ? NULL : __libc_realloc(old, size); }

void *aligned_alloc(size_t alignment, size_t size) { return is_refused() ? NULL : __libc_memalign(alignment, size); }

int posix_memalign(void **place, size_t alignment, size_t size) {
  if (alignment < sizeof(void *) || (alignment & (alignment - 1)) != 0) return EINVAL;
  void *made = is_refused() ? NULL : __libc_memalign(alignment, size);
  if (!made) return ENOMEM;
  *place = made;
  return 0;
}
