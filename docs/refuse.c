#define _GNU_SOURCE
#include <dlfcn.h>
#include <errno.h>
#include <fcntl.h>
#include <stdarg.h>
#include <stdatomic.h>
#include <stdlib.h>
#include <string.h>
#include <sys/syscall.h>
#include <unistd.h>

/* The calls of the kind CALL are counted from 1. The one of the number REFUSED fails, with the error CAUSE, and all behind it where REFUSED_ON is set. The
   file MARK is made at the first. A write takes a byte at a time where CALL is write. */
static atomic_ulong asked;
static unsigned long refused, on;
static const char *mark, *call = "";
static int cause;
static void *(*real_malloc)(size_t), *(*real_calloc)(size_t, size_t), *(*real_realloc)(void *, size_t);

__attribute__((constructor)) static void begin(void) {
  real_malloc = dlsym(RTLD_NEXT, "malloc");
  real_calloc = dlsym(RTLD_NEXT, "calloc");
  real_realloc = dlsym(RTLD_NEXT, "realloc");
  const char *number = getenv("REFUSED");
  refused = number ? strtoul(number, 0, 10) : 0;
  on = getenv("REFUSED_ON") ? 1 : 0;
  mark = getenv("MARK");
  call = getenv("CALL");
  cause = atoi(getenv("CAUSE"));
  atomic_store(&asked, 0);
}

static int is_refused(const char *kind) {
  if (strcmp(kind, call)) return 0;
  unsigned long number = atomic_fetch_add(&asked, 1) + 1;
  if (!refused || number < refused || (number > refused && !on)) return 0;
  if (number == refused) close(syscall(SYS_openat, AT_FDCWD, mark, O_CREAT | O_WRONLY, 0600));
  errno = cause;
  return 1;
}

void *malloc(size_t n) { return !real_malloc || is_refused("malloc") ? 0 : real_malloc(n); }
void *calloc(size_t n, size_t m) { return !real_calloc || is_refused("malloc") ? 0 : real_calloc(n, m); }
void *realloc(void *p, size_t n) { return is_refused("malloc") ? 0 : real_realloc(p, n); }
ssize_t read(int fd, void *p, size_t n) { return is_refused("read") ? -1 : syscall(SYS_read, fd, p, n); }
ssize_t write(int fd, const void *p, size_t n) {
  return is_refused("write") ? -1 : syscall(SYS_write, fd, p, n && !strcmp(call, "write") ? 1 : n);
}
ssize_t __write(int fd, const void *p, size_t n) { return write(fd, p, n); }

static int opens(int at, const char *path, int flags, va_list more) {
  int mode = flags & O_CREAT ? va_arg(more, int) : 0;
  return is_refused("open") ? -1 : syscall(SYS_openat, at, path, flags, mode);
}
int open(const char *path, int flags, ...) {
  va_list more;
  va_start(more, flags);
  int fd = opens(AT_FDCWD, path, flags, more);
  va_end(more);
  return fd;
}
int openat(int at, const char *path, int flags, ...) {
  va_list more;
  va_start(more, flags);
  int fd = opens(at, path, flags, more);
  va_end(more);
  return fd;
}
