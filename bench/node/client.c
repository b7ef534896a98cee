// Requests to a port of the loopback address, and what the answers took.
//
//     client HOW PORT PATH COUNT CLIENTS COOKIES [PORT..]
//
// CLIENTS processes send COUNT requests each, one after the other. HOW is `close` (a connection for each, whose close the request
// asks for), `open` (a connection for each, whose close it doesn't ask for), `keep` (one connection, and another one after each
// 10,000th answer, where a node closes it) or `kept` (one connection for as long as the server keeps it). COOKIES is `none`, `own`
// (each client goes on with the session of its first answer), `last` (with that of its last answer that began one) or `turns` (so
// does one client with that of its first, which goes round all the ports, so that its session moves at each request). It prints
// three numbers of microseconds: those of a request, whole time by whole number, the mean of what each client waited for an answer,
// and what the slowest hundredth waited at least. Connections that are kept are opened one after the other before the clock begins,
// so that none finds a listener's queue full, which would have it try again after a second. It stops with status 1 where an
// answer isn't 200, or a connection of `keep` is closed early.
//
//     client idle PORT PATH COUNT
//
// COUNT connections bring a request each and are kept, until the process is killed. It prints a line once all were answered.
#define _GNU_SOURCE
#include <arpa/inet.h>
#include <netinet/tcp.h>
#include <stdio.h>
#include <stdlib.h>
#include <string.h>
#include <sys/mman.h>
#include <sys/socket.h>
#include <sys/wait.h>
#include <time.h>
#include <unistd.h>

enum { LIMIT = 10000 };
static char cookie[256];
static const char *how, *cookies = "none";
static int kept = -1, asked;

static int reach(int port) {
  struct sockaddr_in to = {.sin_family = AF_INET, .sin_port = htons(port), .sin_addr.s_addr = htonl(INADDR_LOOPBACK)};
  int one = 1, stream = socket(AF_INET, SOCK_STREAM, 0);
  if (stream < 0 || connect(stream, (struct sockaddr *)&to, sizeof to) < 0) return -1;
  setsockopt(stream, IPPROTO_TCP, TCP_NODELAY, &one, sizeof one);
  return stream;
}

// An answer whose end its length tells, as it does in all of a node's.
static int read_answer(int stream, char *answer, int room) {
  int have = 0, got;
  while ((got = read(stream, answer + have, room - 1 - have)) > 0) {
    answer[have += got] = 0;
    char *body = strstr(answer, "\r\n\r\n"), *length = strcasestr(answer, "Content-Length: ");
    if (body && length && have >= body + 4 - answer + atoi(length + 16)) return 1;
  }
  return 0;
}

static int ask(int port, const char *path) {
  char text[1024], answer[8192];
  int stream = kept >= 0 ? kept : reach(port), is_kept = strncmp(how, "ke", 2) == 0;
  if (stream < 0) return 0;
  const char *close_field = strcmp(how, "close") == 0 ? "Connection: close\r\n" : "";
  int length = snprintf(text, sizeof text, "GET %s HTTP/1.1\r\nHost: localhost\r\n%s%s\r\n", path, close_field, cookie);
  if (write(stream, text, length) != length || !read_answer(stream, answer, sizeof answer)) return 0;
  int closes = strcasestr(answer, "\r\nConnection: close\r\n") != 0;
  kept = closes ? -1 : stream;
  if (closes && !is_kept && read(stream, text, sizeof text) != 0) return 0;
  if (closes) close(stream);
  if (strcmp(how, "keep") == 0 && closes != (++asked % LIMIT == 0)) return 0;
  if (strncmp(answer, "HTTP/1.1 200", 12) != 0) return 0;
  char *given = strcasestr(answer, "set-cookie: JSESSIONID=");
  int goes_on = strcmp(cookies, "none") != 0 && (strcmp(cookies, "last") == 0 || !cookie[0]);
  if (goes_on && given) snprintf(cookie, sizeof cookie, "Cookie: %.63s\r\n", given + 12);
  return 1;
}

static double micros_since(struct timespec start) {
  struct timespec now;
  clock_gettime(CLOCK_MONOTONIC, &now);
  return (now.tv_sec - start.tv_sec) * 1e6 + (now.tv_nsec - start.tv_nsec) / 1e3;
}

static void work(int *ports, int count_of_ports, const char *path, int count, float *waited) {
  for (int n = 0; n < count; n++) {
    struct timespec start;
    clock_gettime(CLOCK_MONOTONIC, &start);
    if (!ask(ports[n % count_of_ports], path)) _exit(1);
    waited[n] = micros_since(start);
  }
  _exit(0);
}

static int by_size(const void *one, const void *other) {
  float a = *(const float *)one, b = *(const float *)other;
  return (a > b) - (a < b);
}

// The mean and the slowest hundredth of what was waited.
static void print_waited(float *waited, int many) {
  double sum = 0;
  for (int n = 0; n < many; n++) sum += waited[n];
  qsort(waited, many, sizeof *waited, by_size);
  printf(" %.1f %.1f\n", sum / many, waited[many - 1 - (many - 1) / 100]);
}

static int idle(int port, const char *path, int count) {
  how = "keep";
  for (int n = 0; n < count; n++, kept = -1, asked = 0)
    if (!ask(port, path)) return 1;
  puts("idle");
  fflush(stdout);
  for (;;) pause();
}

int main(int argc, char **argv) {
  if (argc == 5 && strcmp(argv[1], "idle") == 0) return idle(atoi(argv[2]), argv[3], atoi(argv[4]));
  if (argc < 7) return 2;
  how = argv[1];
  cookies = argv[6];
  int ports[8] = {atoi(argv[2])}, many = 1, count = atoi(argv[4]), clients = atoi(argv[5]);
  for (int n = 7; n < argc && many < 8; n++) ports[many++] = atoi(argv[n]);
  float *waited = mmap(0, sizeof *waited * count * clients, PROT_READ | PROT_WRITE, MAP_SHARED | MAP_ANONYMOUS, -1, 0);
  if (waited == MAP_FAILED) return 1;
  int gate[2], keeps = strncmp(how, "ke", 2) == 0;
  if (pipe(gate) != 0) return 1;
  for (int n = 0; n < clients; n++) {
    if (keeps && (kept = reach(ports[0])) < 0) return 1;
    if (fork() == 0) {
      char end;
      close(gate[1]);
      if (read(gate[0], &end, 1) != 0) exit(1);
      work(ports, many, argv[3], count, waited + n * count);
    }
    if (keeps) close(kept);
  }
  struct timespec start;
  clock_gettime(CLOCK_MONOTONIC, &start);
  // The last end of the pipe at which somebody could write: all clients begin.
  close(gate[1]);
  int status, failed = 0;
  while (wait(&status) > 0) failed |= status != 0;
  double micros = micros_since(start);
  if (failed) return 1;
  printf("%.1f", micros / count / clients);
  print_waited(waited, count * clients);
  return 0;
}
