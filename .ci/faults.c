// Lets a call of a program on the system fail, for tests. It is preloaded (LD_PRELOAD) and told by the environment:
//
//   FAULT_CALL   which calls are counted: open, read, write or malloc
//   FAULT_AT     the number of the call that fails, from 1; none where it is 0 or not given
//   FAULT_FROM   1 where each call from that one on fails
//   FAULT_ERROR  the number of the error (errno) that it fails with; 0 for a write that takes nothing
//   FAULT_MOST   the most octets that one read or write moves; any number where it is 0 or not given
//   FAULT_LOG    a file to which a line is written when a call fails: the file of the call, where it is on one
//
// Build it by: cc -shared -fPIC -O2 -o faults.so faults.c

#define _GNU_SOURCE
#include <errno.h>
#include <fcntl.h>
#include <stdarg.h>
#include <stdatomic.h>
#include <stdio.h>
#include <stdlib.h>
#include <string.h>
#include <sys/syscall.h>
#include <sys/uio.h>
#include <unistd.h>

enum call { NONE, OPEN, READ, WRITE, MALLOC };

static enum call counted = NONE;
static long fails_at = 0, fails_from = 0, most = 0;
static int error = 0;
static const char *log_name = NULL;
static atomic_long made = 0;

static long number(const char *name) {
  const char *text = getenv(name);
  return text ? atol(text) : 0;
}

__attribute__((constructor)) static void begin(void) {
  static const char *names[] = {"none", "open", "read", "write", "malloc"};
  const char *call = getenv("FAULT_CALL");
  fails_at = number("FAULT_AT");
  fails_from = number("FAULT_FROM");
  error = (int)number("FAULT_ERROR");
  most = number("FAULT_MOST");
  log_name = getenv("FAULT_LOG");
  for (int i = OPEN; call && i <= MALLOC; i++)
    if (!strcmp(call, names[i])) counted = (enum call)i;
}

// Writes the line of a call that fails, without any call that is counted.
static void tell(const char *name) {
  if (!log_name) return;
  int to = (int)syscall(SYS_openat, AT_FDCWD, log_name, O_WRONLY | O_CREAT | O_APPEND, 0600);
  if (to < 0) return;
  syscall(SYS_write, to, name, strlen(name));
  syscall(SYS_write, to, "\n", 1);
  syscall(SYS_close, to);
}

static void tell_file(int file) {
  char link[64], name[4096];
  snprintf(link, sizeof link, "/proc/self/fd/%d", file);
  long n = syscall(SYS_readlinkat, AT_FDCWD, link, name, sizeof name - 1);
  name[n < 0 ? 0 : n] = 0;
  tell(name);
}

// Whether the next call of this sort fails.
static int fails(enum call call) {
  if (call != counted) return 0;
  long n = ++made;
  return fails_at > 0 && (fails_from ? n >= fails_at : n == fails_at);
}

static size_t cut(size_t n) { return most > 0 && n > (size_t)most ? (size_t)most : n; }

// Opening. A file that is made needs a mode besides; a program under test makes none.

static int opened(int at, const char *name, int flags) {
  if (!fails(OPEN)) return (int)syscall(SYS_openat, at, name, flags, 0600);
  tell(name);
  errno = error;
  return -1;
}

int open(const char *name, int flags, ...) { return opened(AT_FDCWD, name, flags); }
int open64(const char *name, int flags, ...) { return opened(AT_FDCWD, name, flags); }
int openat(int at, const char *name, int flags, ...) { return opened(at, name, flags); }
int openat64(int at, const char *name, int flags, ...) { return opened(at, name, flags); }

// Reading

static int reads(int file) {
  if (!fails(READ)) return 1;
  tell_file(file);
  errno = error;
  return 0;
}

ssize_t read(int file, void *room, size_t n) {
  return reads(file) ? syscall(SYS_read, file, room, cut(n)) : -1;
}

ssize_t pread(int file, void *room, size_t n, off_t from) {
  return reads(file) ? syscall(SYS_pread64, file, room, cut(n), from) : -1;
}

ssize_t pread64(int file, void *room, size_t n, off64_t from) {
  return reads(file) ? syscall(SYS_pread64, file, room, cut(n), from) : -1;
}

ssize_t readv(int file, const struct iovec *rooms, int n) {
  if (most > 0 && n > 0) return read(file, rooms[0].iov_base, rooms[0].iov_len);
  return reads(file) ? syscall(SYS_readv, file, rooms, n) : -1;
}

// Writing

static int writes(int file) {
  if (!fails(WRITE)) return 1;
  tell_file(file);
  errno = error;
  return 0;
}

ssize_t write(int file, const void *octets, size_t n) {
  return writes(file) ? syscall(SYS_write, file, octets, cut(n)) : error ? -1 : 0;
}

ssize_t __write(int file, const void *octets, size_t n) { return write(file, octets, n); }

ssize_t writev(int file, const struct iovec *pieces, int n) {
  if (most > 0 && n > 0) return write(file, pieces[0].iov_base, pieces[0].iov_len);
  return writes(file) ? syscall(SYS_writev, file, pieces, n) : error ? -1 : 0;
}

// Memory, by the names that glibc has for these calls besides

extern void *__libc_malloc(size_t);
extern void *__libc_calloc(size_t, size_t);
extern void *__libc_realloc(void *, size_t);
extern void *__libc_memalign(size_t, size_t);

static int allocates(void) {
  if (!fails(MALLOC)) return 1;
  tell("");
  errno = ENOMEM;
  return 0;
}

void *malloc(size_t n) { return allocates() ? __libc_malloc(n) : NULL; }
void *calloc(size_t n, size_t each) { return allocates() ? __libc_calloc(n, each) : NULL; }
void *realloc(void *old, size_t n) { return allocates() ? __libc_realloc(old, n) : NULL; }
void *memalign(size_t to, size_t n) { return allocates() ? __libc_memalign(to, n) : NULL; }
void *aligned_alloc(size_t to, size_t n) { return memalign(to, n); }

int posix_memalign(void **room, size_t to, size_t n) {
  void *given = memalign(to, n);
  if (!given) return ENOMEM;
  *room = given;
  return 0;
}
