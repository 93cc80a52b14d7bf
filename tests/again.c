// In LD_PRELOAD: calls the program's main function once for each text of a file, one after another in one process. A text lies in the file that
// AGAIN_PLACE names while it is read; standard input, output and error are files too, and begin anew for each. AGAIN_TEXTS names the file of the
// texts, each its length and its bytes. AGAIN_ANSWERS gets the answer to each: its status, how many bytes it has on standard output and on standard
// error, the most memory so far in KiB, and those bytes. Numbers are 32 bits in the machine's order. A text may take AGAIN_SECONDS; then a
// signal ends the process, as any other does that the program gets, and the texts before it have their answers.
#define _GNU_SOURCE
#include <dlfcn.h>
#include <fcntl.h>
#include <setjmp.h>
#include <stdint.h>
#include <stdlib.h>
#include <sys/resource.h>
#include <sys/stat.h>
#include <unistd.h>

typedef int main_function(int, char **, char **);

static main_function *program_main;
static jmp_buf end;
static int end_status;

// By this call the program ends with a status other than 0, on its first thread, where nothing is left to do.
void _exit(int status) {
  end_status = status;
  longjmp(end, 1);
}

static int status_of(int count, char **words, char **environment) {
  return setjmp(end) == 0 ? program_main(count, words, environment) : end_status;
}

static int file_in(const char *variable, int flags) {
  const char *name = getenv(variable);
  int file = name ? open(name, flags | O_CLOEXEC, 0600) : -1;
  if (file < 0) abort();
  return file;
}

static void put(int file, const void *bytes, size_t size) {
  for (const char *at = bytes; size > 0;) {
    ssize_t count = write(file, at, size);
    if (count <= 0) abort();
    at += count;
    size -= (size_t)count;
  }
}

// Puts the next so many bytes of one file behind those of the other.
static void copy(int from, int to, size_t size) {
  char part[65536];
  while (size > 0) {
    ssize_t count = read(from, part, size < sizeof part ? size : sizeof part);
    if (count <= 0) abort();
    put(to, part, (size_t)count);
    size -= (size_t)count;
  }
}

static void begin(int file) {
  if (lseek(file, 0, SEEK_SET) < 0) abort();
}

static void clear(int file) {
  begin(file);
  if (ftruncate(file, 0) < 0) abort();
}

static uint32_t size_of(int file) {
  struct stat found;
  if (fstat(file, &found) < 0) abort();
  return (uint32_t)found.st_size;
}

static void answer(int answers, int status) {
  struct rusage used;
  getrusage(RUSAGE_SELF, &used);
  const uint32_t head[] = {(uint32_t)status, size_of(STDOUT_FILENO), size_of(STDERR_FILENO), (uint32_t)used.ru_maxrss};
  put(answers, head, sizeof head);
  for (int file = STDOUT_FILENO; file <= STDERR_FILENO; ++file) {
    begin(file);
    copy(file, answers, head[file]);
  }
}

static int answer_all(int count, char **words, char **environment) {
  const int texts = file_in("AGAIN_TEXTS", O_RDONLY), answers = file_in("AGAIN_ANSWERS", O_WRONLY), place = file_in("AGAIN_PLACE", O_WRONLY);
  const char *seconds = getenv("AGAIN_SECONDS");
  for (uint32_t size; read(texts, &size, sizeof size) == sizeof size;) {
    clear(place);
    copy(texts, place, size);
    begin(STDIN_FILENO);
    clear(STDOUT_FILENO);
    clear(STDERR_FILENO);
    alarm(seconds ? (unsigned)atoi(seconds) : 0);
    const int status = status_of(count, words, environment);
    alarm(0);
    answer(answers, status);
  }
  return 0;
}

// The C library's start of a program, with another main function.
int __libc_start_main(main_function *main, int count, char **words, void (*init)(void), void (*fini)(void), void (*ended)(void), void *stack) {
  int (*start)(main_function *, int, char **, void (*)(void), void (*)(void), void (*)(void), void *);
  *(void **)&start = dlsym(RTLD_NEXT, "__libc_start_main");
  program_main = main;
  return start(answer_all, count, words, init, fini, ended, stack);
}
