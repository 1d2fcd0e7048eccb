/* A library for LD_PRELOAD that refuses a request of a program, or reports each request.
   REFUSE is a letter and a number n:
   m: the n-th request for memory is refused; a: so is each request after it, until the program writes;
   r, w: the n-th read of standard input or write to standard output fails; i, j: it is interrupted;
   s, t: each read or write is of at most n bytes.
   REFUSE_LOG is a file descriptor. A line for each request that isn't refused is written to it. */
#include <errno.h>
#include <stddef.h>
#include <stdio.h>
#include <stdlib.h>
#include <sys/syscall.h>
#include <unistd.h>

extern void *__libc_malloc(size_t);
extern void *__libc_realloc(void *, size_t);
extern void __libc_free(void *);

static char kind;
static long number, memory, reads, writes;
static int refusing, log_to = -1;

__attribute__((constructor)) static void begin(void) {
  const char *asked = getenv("REFUSE"), *to = getenv("REFUSE_LOG");
  memory = 0;
  if (asked && asked[0]) {
    kind = asked[0];
    number = atol(asked + 1);
  }
  if (to)
    log_to = atoi(to);
}

static int is_refused(void) {
  memory++;
  if (kind == 'a' && memory == number)
    refusing = 1;
  if (!refusing && (kind != 'm' || memory != number))
    return 0;
  errno = ENOMEM;
  return 1;
}

/* Writes a line to the log. It must not allocate memory. */
static void report(char letter, void *block, size_t size) {
  char line[64];
  if (log_to >= 0) {
    int len = snprintf(line, sizeof line, "%c %zx %zu\n", letter, (size_t)block, size);
    syscall(SYS_write, log_to, line, len);
  }
}

static void *allocated(void *block, size_t size) {
  report('m', block, size);
  return block;
}

static void freed(void *block) {
  if (block)
    report('f', block, 0);
}

void *malloc(size_t size) { return is_refused() ? NULL : allocated(__libc_malloc(size), size); }

void *realloc(void *old, size_t size) {
  if (is_refused())
    return NULL;
  freed(old);
  return allocated(__libc_realloc(old, size), size);
}

void free(void *block) {
  freed(block);
  __libc_free(block);
}

/* Returns whether a call fails, with EIO by one letter and with EINTR by the other. */
static int fails(long call, char failing, char interrupted) {
  if (call != number || (kind != failing && kind != interrupted))
    return 0;
  errno = kind == failing ? EIO : EINTR;
  return 1;
}

static size_t at_most(size_t size, char letter) {
  return kind == letter && (size_t)number < size ? (size_t)number : size;
}

ssize_t read(int from, void *to, size_t size) {
  if (from == 0) {
    if (fails(++reads, 'r', 'i'))
      return -1;
    size = at_most(size, 's');
    report('r', NULL, 0);
  }
  return syscall(SYS_read, from, to, size);
}

ssize_t write(int to, const void *from, size_t size) {
  if (to == 1) {
    refusing = 0;
    if (fails(++writes, 'w', 'j'))
      return -1;
    size = at_most(size, 't');
    report('w', NULL, 0);
  }
  return syscall(SYS_write, to, from, size);
}
