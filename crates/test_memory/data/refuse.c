/* Refuses one growth of memory to a program, by LD_PRELOAD.
 *
 * The environment's REFUSE says which growth, counted from 1 behind the program's line `begin` on standard output; 0 refuses
 * none. When it is refused, one `!` goes to standard error. Only what grows is refused: to give memory back takes none. */
#include <errno.h>
#include <stdlib.h>
#include <string.h>
#include <sys/syscall.h>
#include <unistd.h>

extern void *__libc_malloc(size_t);
extern void *__libc_calloc(size_t, size_t);
extern void *__libc_realloc(void *, size_t);
extern void *__libc_memalign(size_t, size_t);

static long left;

static int is_refused(void) {
  if (left == 0 || --left > 0)
    return 0;
  syscall(SYS_write, 2, "!", 1);
  errno = ENOMEM;
  return 1;
}

void *malloc(size_t size) { return is_refused() ? NULL : __libc_malloc(size); }

void *calloc(size_t count, size_t size) { return is_refused() ? NULL : __libc_calloc(count, size); }

void *realloc(void *old, size_t size) { return size > 0 && is_refused() ? NULL : __libc_realloc(old, size); }

void *aligned_alloc(size_t alignment, size_t size) { return is_refused() ? NULL : __libc_memalign(alignment, size); }

ssize_t write(int file, const void *bytes, size_t len) {
  static const char begin[] = "begin\n";
  if (file == 1 && len == sizeof begin - 1 && memcmp(bytes, begin, len) == 0) {
    const char *number = getenv("REFUSE");
    left = number ? atol(number) : 0;
  }
  return syscall(SYS_write, file, bytes, len);
}
