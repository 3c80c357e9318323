/* Refuses one growth of memory: the one with the number that REFUSED_GROWTH has, counted from 1; with 0 none. A growth
 * is a call of any function of the C library that gives memory out. The file that GROWTHS_COUNTED names has 24 bytes:
 * the first 8 count the growths, the next those that were refused, and the last those of them that asked for less than
 * they had, to give memory back. It is loaded before the C library (LD_PRELOAD) by checks/refused_memory.sh. Growths are
 * handed on by the names that glibc has for them, so that nothing is looked up, which may take memory itself. */
#include <errno.h>
#include <fcntl.h>
#include <stdatomic.h>
#include <stdint.h>
#include <stdlib.h>
#include <sys/mman.h>
#include <unistd.h>

void *__libc_malloc(size_t size);
void *__libc_calloc(size_t count, size_t size);
void *__libc_realloc(void *old, size_t size);
void *__libc_memalign(size_t alignment, size_t size);

static atomic_ulong before_main[3];
static atomic_ulong *counts = before_main;
static unsigned long refused;

/* What was asked for at each place that was given out, the newest in each row. A place that is given out again is
 * written over, so nothing has to be noted when it is given back. */
enum { ROWS = 1 << 18 };
static struct {
  _Atomic(void *) place;
  atomic_size_t size;
} asked[ROWS];

static size_t row_of(void *place) { return ((uintptr_t)place >> 4) % ROWS; }

static void *noted(void *place, size_t size) {
  if (place) {
    atomic_store(&asked[row_of(place)].place, place);
    atomic_store(&asked[row_of(place)].size, size);
  }
  return place;
}

static int gives_back(void *old, size_t size) {
  return old && atomic_load(&asked[row_of(old)].place) == old && size < atomic_load(&asked[row_of(old)].size);
}

__attribute__((constructor)) static void begin(void) {
  const char *number = getenv("REFUSED_GROWTH"), *name = getenv("GROWTHS_COUNTED");
  int file = name ? open(name, O_RDWR) : -1;
  void *place = file < 0 ? MAP_FAILED : mmap(NULL, sizeof before_main, PROT_READ | PROT_WRITE, MAP_SHARED, file, 0);
  if (place == MAP_FAILED)
    _exit(99);
  close(file);
  counts = place;
  atomic_store(&counts[0], 0);
  atomic_store(&counts[1], 0);
  atomic_store(&counts[2], 0);
  refused = number ? strtoul(number, NULL, 10) : 0;
}

static int is_refused(void) {
  if (atomic_fetch_add(&counts[0], 1) + 1 != refused)
    return 0;
  atomic_fetch_add(&counts[1], 1);
  errno = ENOMEM;
  return 1;
}

void *malloc(size_t size) { return is_refused() ? NULL : noted(__libc_malloc(size), size); }

void *calloc(size_t count, size_t size) { return is_refused() ? NULL : noted(__libc_calloc(count, size), count * size); }

void *realloc(void *old, size_t size) {
  if (!is_refused())
    return noted(__libc_realloc(old, size), size);
  if (gives_back(old, size))
    atomic_fetch_add(&counts[2], 1);
  return NULL;
}

void *reallocarray(void *old, size_t count, size_t size) {
  size_t bytes;
  if (__builtin_mul_overflow(count, size, &bytes)) {
    errno = ENOMEM;
    return NULL;
  }
  return realloc(old, bytes);
}

void *memalign(size_t alignment, size_t size) {
  return is_refused() ? NULL : noted(__libc_memalign(alignment, size), size);
}

void *aligned_alloc(size_t alignment, size_t size) { return memalign(alignment, size); }

int posix_memalign(void **place, size_t alignment, size_t size) {
  void *made = memalign(alignment, size);
  if (!made)
    return ENOMEM;
  *place = made;
  return 0;
}

void *valloc(size_t size) { return memalign((size_t)sysconf(_SC_PAGESIZE), size); }
