// The two writes and two data syncs of an append of 100 bytes, with nothing else: `bare FILE COUNT [RECORDS]` after the last byte of
// FILE that isn't zero. Where a write would make FILE longer, 65,536 zeros are laid out and synced before it, as a journal has them.
// Each append has so many RECORDS, one where it isn't said. Prints the microseconds that COUNT of them take.
#include <fcntl.h>
#include <stdio.h>
#include <stdlib.h>
#include <string.h>
#include <time.h>
#include <unistd.h>

static char zeros[65536];

// The place after the last byte that isn't zero, at most 128 KiB before the end; where a journal's closing gate is.
static long end_of(int file, long length) {
  long end = length, from = length > 131072 ? length - 131072 : 0;
  static char last[131072];
  if (pread(file, last, end - from, from) != end - from) return -1;
  while (end > from && last[end - from - 1] == 0) end--;
  return end;
}

int main(int argc, char **argv) {
  if (argc < 3) return 2;
  int file = open(argv[1], O_RDWR | O_CREAT, 0644);
  long length = lseek(file, 0, SEEK_END), end = end_of(file, length);
  long count = atol(argv[2]), records = argc > 3 ? atol(argv[3]) : 1, size = records * 105;
  char *bytes = records > 0 ? malloc(size) : 0, gate = (char)0xA5;
  if (file < 0 || !bytes || end < 0) return 1;
  memset(bytes, 7, size);
  struct timespec from, to;
  clock_gettime(CLOCK_MONOTONIC, &from);
  for (long i = 0; i < count; i++) {
    if (end + 1 + size > length) {
      if (pwrite(file, zeros, sizeof zeros, length) != sizeof zeros || fdatasync(file)) return 1;
      length += sizeof zeros;
    }
    if (pwrite(file, bytes, size, end + 1) != size || fdatasync(file)) return 1;
    if (pwrite(file, &gate, 1, end) != 1 || fdatasync(file)) return 1;
    end += size;
  }
  clock_gettime(CLOCK_MONOTONIC, &to);
  printf("%ld\n", (to.tv_sec - from.tv_sec) * 1000000 + (to.tv_nsec - from.tv_nsec) / 1000);
  return 0;
}
