// A bare loop on a port: accepts, reads, writes an answer of as many bytes as a hello's, closes. With FILE it makes the pair of
// writes and data syncs first that an append to a journal makes. With `keep` it keeps its connections, and waits for all of them.
//
//     bare PORT [keep | FILE]
#include <arpa/inet.h>
#include <fcntl.h>
#include <stdio.h>
#include <stdlib.h>
#include <string.h>
#include <sys/epoll.h>
#include <sys/socket.h>
#include <unistd.h>

static const char answer[] =
    "HTTP/1.1 200 OK\r\nDate: Sun, 06 Nov 1994 08:49:37 GMT\r\ncontent-type: text/plain\r\nContent-Length: 6\r\n"
    "Connection: close\r\n\r\nHello\n";
static const char kept_answer[] =
    "HTTP/1.1 200 OK\r\nDate: Sun, 06 Nov 1994 08:49:37 GMT\r\ncontent-type: text/plain\r\nContent-Length: 6\r\n"
    "\r\nHello\n";

// A node closes a connection behind its 10,000th answer, which says so; so does this.
static int keep(int listener) {
  static int asked[65536];
  char bytes[4096];
  int poll = epoll_create1(0);
  struct epoll_event event = {.events = EPOLLIN, .data.fd = listener}, events[256];
  epoll_ctl(poll, EPOLL_CTL_ADD, listener, &event);
  for (;;) {
    int count = epoll_wait(poll, events, 256, -1);
    for (int n = 0; n < count; n++) {
      int stream = events[n].data.fd;
      if (stream == listener) {
        event.data.fd = accept(listener, 0, 0);
        if (event.data.fd < 0) continue;
        asked[event.data.fd] = 0;
        epoll_ctl(poll, EPOLL_CTL_ADD, event.data.fd, &event);
      } else if (read(stream, bytes, sizeof bytes) <= 0) {
        close(stream);
      } else if (++asked[stream] % 10000 == 0) {
        if (write(stream, answer, sizeof answer - 1) < 0) return 1;
        close(stream);
      } else if (write(stream, kept_answer, sizeof kept_answer - 1) < 0) {
        close(stream);
      }
    }
  }
}

int main(int argc, char **argv) {
  if (argc < 2) return 2;
  int keeps = argc > 2 && strcmp(argv[2], "keep") == 0, file = argc > 2 && !keeps ? open(argv[2], O_RDWR | O_CREAT, 0600) : -1;
  int one = 1, listener = socket(AF_INET, SOCK_STREAM, 0);
  struct sockaddr_in at = {.sin_family = AF_INET, .sin_port = htons(atoi(argv[1])), .sin_addr.s_addr = htonl(INADDR_LOOPBACK)};
  setsockopt(listener, SOL_SOCKET, SO_REUSEADDR, &one, sizeof one);
  if (bind(listener, (struct sockaddr *)&at, sizeof at) < 0 || listen(listener, 128) < 0) return 1;
  if (keeps) return keep(listener);
  char bytes[4096], entry[128] = {0};
  long end = 0;
  for (;;) {
    int stream = accept(listener, 0, 0);
    if (stream < 0) continue;
    if (read(stream, bytes, sizeof bytes) > 0) {
      if (file >= 0) {
        if (pwrite(file, entry, sizeof entry, end + 1) < 0 || fdatasync(file) < 0) return 1;
        if (pwrite(file, entry, 1, end) < 0 || fdatasync(file) < 0) return 1;
        end += sizeof entry;
      }
      if (write(stream, answer, sizeof answer - 1) < 0) return 1;
    }
    close(stream);
  }
}
