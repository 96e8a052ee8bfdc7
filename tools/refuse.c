/* A preloaded library that refuses memory: the Nth request by REFUSE=N, several by REFUSE=3,8,9 with their numbers in ascending order, or
   each from the Nth on by REFUSE_FROM=N.
   At the end it writes to the file named by REFUSE_LOG how many requests were made and how many refused, how many blocks were not
   given back, and how many bytes were asked for. A process that ends by _exit or a signal writes none. */
#define _GNU_SOURCE
#include <errno.h>
#include <fcntl.h>
#include <stddef.h>
#include <stdio.h>
#include <stdlib.h>
#include <unistd.h>

extern void *__libc_malloc(size_t);
extern void *__libc_calloc(size_t, size_t);
extern void *__libc_realloc(void *, size_t);
extern void *__libc_memalign(size_t, size_t);
extern void __libc_free(void *);

static const char *more = ""; /* the numbers after nth */
static unsigned long requests, refusals, bytes, nth, from;
static long held;
static int started;

static const char *text_of(const char *name) {
  const char *text = getenv(name);
  return text ? text : "";
}

/* The first of the numbers that are left, or 0. */
static unsigned long next_number(void) {
  char *end;
  unsigned long number = strtoul(more, &end, 10);
  more = *end == ',' ? end + 1 : end;
  return number;
}

static int refused(size_t size) {
  if (!started) {
    started = 1;
    more = text_of("REFUSE_FROM");
    from = next_number();
    more = text_of("REFUSE");
    nth = next_number();
  }
  requests++;
  bytes += size;
  if (requests != nth && (from == 0 || requests < from)) return 0;
  if (requests == nth) nth = next_number();
  refusals++;
  errno = ENOMEM;
  return 1;
}

static void *given(void *block) {
  if (block) held++;
  return block;
}

void *malloc(size_t size) { return refused(size) ? 0 : given(__libc_malloc(size)); }

void *calloc(size_t count, size_t size) { return refused(count * size) ? 0 : given(__libc_calloc(count, size)); }

void *realloc(void *block, size_t size) {
  if (refused(size)) return 0;
  void *moved = __libc_realloc(block, size);
  if (!block) return given(moved);
  if (!size && !moved) held--;
  return moved;
}

void *aligned_alloc(size_t align, size_t size) { return refused(size) ? 0 : given(__libc_memalign(align, size)); }

int posix_memalign(void **block, size_t align, size_t size) {
  if (refused(size)) return ENOMEM;
  *block = given(__libc_memalign(align, size));
  return *block ? 0 : ENOMEM;
}

void free(void *block) {
  if (block) held--;
  __libc_free(block);
}

__attribute__((destructor)) static void report(void) {
  const char *path = getenv("REFUSE_LOG");
  if (!path) return;
  char line[96];
  int length = snprintf(line, sizeof line, "%lu %lu %ld %lu\n", requests, refusals, held, bytes);
  int file = open(path, O_WRONLY | O_CREAT | O_TRUNC, 0600);
  if (file < 0) return;
  if (write(file, line, length) < 0) _exit(3);
  close(file);
}
