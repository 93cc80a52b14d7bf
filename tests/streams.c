// In LD_PRELOAD: each read of the program gives one byte at most, and every other one is interrupted, unless READ_FAILS is set: then that of
// this number, from 1, fails, and the others give what they have. Each write takes one byte at most where WRITE_SHORT is set, and that of the
// number WRITE_FAILS, from 1, fails.
#include <errno.h>
#include <stdlib.h>
#include <sys/syscall.h>
#include <unistd.h>

static int is_refused(const char *name, long number) {
  const char *refused = getenv(name);
  return refused && number == atol(refused);
}

ssize_t read(int file, void *buffer, size_t size) {
  static long reads;
  const int whole = getenv("READ_FAILS") != NULL || getenv("WRITE_FAILS") != NULL;
  errno = 0;
  ++reads;
  if (is_refused("READ_FAILS", reads)) errno = EIO;
  else if (!whole && reads % 2 == 1) errno = EINTR;
  if (errno) return -1;
  return syscall(SYS_read, file, buffer, whole || size < 1 ? size : 1);
}

ssize_t write(int file, const void *buffer, size_t size) {
  static long writes;
  errno = 0;
  if (is_refused("WRITE_FAILS", ++writes)) errno = ENOSPC;
  if (errno) return -1;
  return syscall(SYS_write, file, buffer, getenv("WRITE_SHORT") == NULL || size < 1 ? size : 1);
}
