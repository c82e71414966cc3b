/* Preloaded into a program, this makes its calls of the C library fail, for tests. Compiled and used by failing.py.

   FAIL_ALLOCATION=N   the Nth allocation, and every later one, is refused; 0 or absent: none
   FAIL_READ=N         the Nth read, and every later one, fails with EIO
   FAIL_WRITE=N        the Nth write, and every later one, fails with EIO
   FAIL_ONCE=1         later calls go through again
   PIECE=N             a read or a write moves at most N bytes
   INTERRUPT=N         a signal interrupts each read and each write N times before it is made
   COUNTS=PATH         at the end the numbers of allocations, reads and writes are written to this file

   Calls are counted from 1. Interrupted calls are not counted. */
#define _GNU_SOURCE
#include <errno.h>
#include <fcntl.h>
#include <stdio.h>
#include <stdlib.h>
#include <string.h>
#include <sys/syscall.h>
#include <unistd.h>

extern void *__libc_malloc(size_t);
extern void *__libc_calloc(size_t, size_t);
extern void *__libc_realloc(void *, size_t);
extern void *__libc_memalign(size_t, size_t);

struct calls {
  unsigned long made;
  unsigned long failing;
};

static struct calls allocations, reads, writes;
static unsigned long piece, interrupts, interrupted;
static int is_once, is_ready;
static const char *counts_path;

static unsigned long number(const char *name) {
  const char *text = getenv(name);
  return text ? strtoul(text, NULL, 10) : 0;
}

__attribute__((constructor)) static void begin(void) {
  allocations.failing = number("FAIL_ALLOCATION");
  reads.failing = number("FAIL_READ");
  writes.failing = number("FAIL_WRITE");
  is_once = number("FAIL_ONCE") != 0;
  piece = number("PIECE");
  interrupts = number("INTERRUPT");
  counts_path = getenv("COUNTS");
  is_ready = 1;
}

__attribute__((destructor)) static void end(void) {
  char line[96];
  is_ready = 0;
  if (!counts_path) return;
  int length = snprintf(line, sizeof line, "%lu %lu %lu\n", allocations.made, reads.made, writes.made);
  int file = open(counts_path, O_WRONLY | O_CREAT | O_TRUNC, 0600);
  if (file >= 0) {
    syscall(SYS_write, file, line, (size_t)length);
    close(file);
  }
}

/* Counts a call, and says whether it has to fail. */
static int fails(struct calls *calls) {
  if (!is_ready) return 0;
  calls->made++;
  return calls->failing && (is_once ? calls->made == calls->failing : calls->made >= calls->failing);
}

static int refuses(void) {
  if (!fails(&allocations)) return 0;
  errno = ENOMEM;
  return 1;
}

void *malloc(size_t size) { return refuses() ? NULL : __libc_malloc(size); }

void *calloc(size_t count, size_t size) { return refuses() ? NULL : __libc_calloc(count, size); }

void *realloc(void *block, size_t size) { return refuses() ? NULL : __libc_realloc(block, size); }

void *aligned_alloc(size_t alignment, size_t size) { return refuses() ? NULL : __libc_memalign(alignment, size); }

int posix_memalign(void **block, size_t alignment, size_t size) {
  if (refuses()) return ENOMEM;
  *block = __libc_memalign(alignment, size);
  return *block ? 0 : ENOMEM;
}

/* How many bytes a call may move, 0 where it has failed already, with errno. */
static size_t moved(struct calls *calls, size_t size) {
  if (is_ready && interrupted < interrupts) {
    interrupted++;
    errno = EINTR;
    return 0;
  }
  interrupted = 0;
  if (fails(calls)) {
    errno = EIO;
    return 0;
  }
  return piece && piece < size ? piece : size;
}

/* In pieces standard input is taken ahead, so that a run of n pieces makes few calls of the kernel. */
static ssize_t read_piece(void *bytes, size_t most) {
  static char held[1 << 16];
  static size_t at, end;
  if (at == end) {
    ssize_t taken = syscall(SYS_read, STDIN_FILENO, held, sizeof held);
    if (taken <= 0) return taken;
    at = 0;
    end = (size_t)taken;
  }
  if (most > end - at) most = end - at;
  memcpy(bytes, held + at, most);
  at += most;
  return (ssize_t)most;
}

ssize_t read(int file, void *bytes, size_t size) {
  size_t most = moved(&reads, size);
  if (!most && size) return -1;
  return piece && file == STDIN_FILENO ? read_piece(bytes, most) : syscall(SYS_read, file, bytes, most);
}

ssize_t write(int file, const void *bytes, size_t size) {
  size_t most = moved(&writes, size);
  return most || !size ? syscall(SYS_write, file, bytes, most) : -1;
}
