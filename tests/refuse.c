// Refuses one allocation of a program that is run with this library in LD_PRELOAD: the one whose number, from 1, REFUSE_AT gives.
// The file that REFUSE_COUNT names holds the number of its allocations so far, as eight bytes of the machine's order, however the program
// ends. For the GNU C library, whose own names of its allocator stand here.
#include <errno.h>
#include <fcntl.h>
#include <stdatomic.h>
#include <stddef.h>
#include <stdlib.h>
#include <sys/mman.h>
#include <unistd.h>

extern void *__libc_malloc(size_t size);
extern void *__libc_calloc(size_t count, size_t size);
extern void *__libc_realloc(void *block, size_t size);
extern void *__libc_memalign(size_t alignment, size_t size);

static atomic_long uncounted;
static atomic_long *allocations = &uncounted;
static long refused_number;

__attribute__((constructor)) static void start(void) {
  const char *number = getenv("REFUSE_AT");
  const char *name = getenv("REFUSE_COUNT");
  int file = name ? open(name, O_RDWR | O_CREAT | O_TRUNC, 0600) : -1;
  if (file >= 0 && ftruncate(file, sizeof *allocations) == 0) {
    void *room = mmap(NULL, sizeof *allocations, PROT_READ | PROT_WRITE, MAP_SHARED, file, 0);
    if (room != MAP_FAILED) allocations = room;
  }
  refused_number = number ? atol(number) : 0;
  atomic_store(allocations, 0);
}

static int is_refused(void) {
  if (atomic_fetch_add(allocations, 1) + 1 != refused_number) return 0;
  errno = ENOMEM;
  return 1;
}

void *malloc(size_t size) {
  return is_refused() ? NULL : __libc_malloc(size);
}

void *calloc(size_t count, size_t size) {
  return is_refused() ? NULL : __libc_calloc(count, size);
}

void *realloc(void *block, size_t size) {
  return is_refused() ? NULL : __libc_realloc(block, size);
}

void *aligned_alloc(size_t alignment, size_t size) {
  return is_refused() ? NULL : __libc_memalign(alignment, size);
}

int posix_memalign(void **block, size_t alignment, size_t size) {
  void *made = is_refused() ? NULL : __libc_memalign(alignment, size);
  if (!made) return ENOMEM;
  *block = made;
  return 0;
}
