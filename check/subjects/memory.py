"""Memory that is refused, a growth at a time: a 503 says that nothing was changed."""
import mmap
import struct

from lib.client import rest_of
from lib.expect import expect, say, skip
from lib.shims import shim
from subjects.common import Cluster


# Refuses one growth of memory: the one to which the first number of a shared file counts down. The second counts what was refused.
REFUSING = r"""
#define _GNU_SOURCE
#include <errno.h>
#include <fcntl.h>
#include <stdlib.h>
#include <sys/mman.h>
#include <unistd.h>
extern void *__libc_malloc(size_t), *__libc_calloc(size_t, size_t), *__libc_realloc(void *, size_t), *__libc_memalign(size_t, size_t);
static volatile long *left;
__attribute__((constructor)) static void begin(void) {
  int file = open(getenv("REFUSE"), O_RDWR);
  void *page = mmap(NULL, 16, PROT_READ | PROT_WRITE, MAP_SHARED, file, 0);
  close(file);
  left = page == MAP_FAILED ? NULL : page;
}
static int is_refused(void) {
  if (left == NULL || left[0] == 0 || --left[0] > 0) return 0;
  left[1]++;
  errno = ENOMEM;
  return 1;
}
void *malloc(size_t size) { return is_refused() ? NULL : __libc_malloc(size); }
void *calloc(size_t count, size_t size) { return is_refused() ? NULL : __libc_calloc(count, size); }
void *realloc(void *old, size_t size) { return size > 0 && is_refused() ? NULL : __libc_realloc(old, size); }
void *aligned_alloc(size_t alignment, size_t size) { return is_refused() ? NULL : __libc_memalign(alignment, size); }
"""


class Refusals:
    """The numbers of that file."""

    def __init__(self, cluster):
        self.path = cluster.write("refuse", "\0" * 16)
        with open(self.path, "r+b") as file:
            self.page = mmap.mmap(file.fileno(), 16)

    def refuse(self, growth):
        self.page[:8] = struct.pack("=q", growth)

    def count(self):
        return struct.unpack("=q", self.page[8:])[0]


def answer_to(cluster, request):
    """All that comes in answer to a request; nothing if the connection was closed without one."""
    with cluster.connect(0) as stream:
        stream.sendall(request)
        try:
            return rest_of(stream)
        except ConnectionError:
            return b""


def no_503_over_a_step_that_stands():
    """Each growth of memory that a counted POST takes is refused in turn. A 503 says that nothing was changed by the request, so the
    next count goes on where the one before it was; a client that isn't answered can't know."""
    cluster = Cluster(1)
    refusing = shim(cluster.folder, "refused memory", REFUSING)
    if refusing is None:
        return
    refusals = Refusals(cluster)
    cluster.start(0, env=refusing | {"REFUSE": refusals.path})
    body, cookie = cluster.count(0)
    request = f"POST /shop/count HTTP/1.1\r\nHost: h\r\nCookie: {cookie}\r\nContent-Length: 1\r\n\r\nx".encode()
    counted, refused, lost, growth = int(body), 0, 0, 0
    while refusals.count() == growth:
        growth += 1
        refusals.refuse(growth)
        answer = answer_to(cluster, request)
        refusals.refuse(0)
        if growth == 1 and refusals.count() == 0:
            skip("this program has an allocator of its own")
            cluster.end()
            return
        now = int(cluster.count(0, cookie)[0])
        stands = now == counted + 2
        expect(f"a count after growth {growth} was refused ({answer[:12]})", now in (counted + 1, counted + 2), True)
        if answer[:12] == b"HTTP/1.1 200":
            expect(f"an answer where growth {growth} was refused", (answer.rsplit(b"\r\n", 1)[1], stands), (b"%d\n" % (counted + 1), True))
        elif answer:
            refused += 1
            expect(f"a 503 over a step that stands (growth {growth})", (answer[:12], stands), (b"HTTP/1.1 503", False))
        else:
            lost += stands
        counted = now
    expect("that some were refused, and that the last refusal that was wanted wasn't met", (refused > 0, growth > 10), (True, True))
    say(f"  {growth - 1} growths refused: {refused} times 503 with nothing changed, {lost} times no answer to what was done")
    cluster.end()


# By its name alone: it wants a proved program, since one with nothing proved has an allocator of its own.
CHECKS = (no_503_over_a_step_that_stands,)
