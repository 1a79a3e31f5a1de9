/* What is held of a body, and of a WebTransport stream, that comes in small pieces and is not pulled: for each size of a piece the bytes of memory for a
 * byte, which may not pass a bound. The pieces then come out as they came in, and with the last all of it is let go. Linked with --wrap for malloc, realloc and free.
 * One line 'ok NAME' or 'failed NAME'; with an argument a line for each size. */
#include "counted.h"
#include <h3.h>
#include <stdio.h>
#include <stdlib.h>
#include <string.h>

enum { WINDOW = 1 << 20, LARGEST = 4096 };

static h3_endpoint server;
static unsigned char sent[WINDOW];

static void need(int holds, const char *what, size_t size) {
  if (holds) return;
  printf("failed small pieces: %s, at pieces of %zu bytes\n", what, size);
  exit(1);
}

static void deliver(uint64_t id, const unsigned char *bytes, size_t count) {
  need(h3_deliver(&server, id, bytes, count, NULL) == H3_OK, "a delivery is refused", count);
}

static h3_item pull(uint64_t id) {
  h3_item item = {0};
  need(h3_pull(&server, id, &item) == H3_OK, "a pull is refused", 0);
  return item;
}

/* a request whose head was pulled, and the head of a DATA frame as large as the window */
static void begin_body(uint64_t id) {
  static const unsigned char head[] = {1, 8, 0, 0, 0xd1, 0xd7, 0xc1, 0x50, 1, 'a'};
  static const unsigned char body[] = {0, 0x80, 0x10, 0, 0};
  deliver(id, head, sizeof head);
  need(pull(id).kind == H3_HEAD, "no head", 0);
  deliver(id, body, sizeof body);
  need(pull(id).kind == H3_PENDING, "something before the body", 0);
}

/* a unidirectional stream of a WebTransport session */
static void begin_session(uint64_t id) {
  static const unsigned char front[] = {0x40, 0x54, 0};
  deliver(id, front, sizeof front);
  need(pull(id).kind == H3_SESSION, "no session", 0);
  need(pull(id).kind == H3_PENDING, "something before the bytes of the session", 0);
}

/* how many bytes of memory a byte of the stream takes; what came out is what went in, piece by piece */
static double taken(uint64_t id, uint32_t kind, size_t size) {
  size_t before = live;
  size_t count = 0;
  for (; count + size <= WINDOW; count += size) deliver(id, sent + count, size);
  double all = (double)live - (double)before;
  unsigned char came[LARGEST];
  size_t n = 0;
  for (size_t at = 0; at < count; at += size) {
    h3_item item = pull(id);
    need(item.kind == kind && item.len == size, "a piece comes out that was cut elsewhere", size);
    need(h3_item_bytes(&server, 0, came, LARGEST, &n) == H3_OK && n == size && !memcmp(came, sent + at, size), "other bytes come out", size);
  }
  need(pull(id).kind == H3_PENDING, "more comes out", size);
  need(live < before + 4096, "something is still held", size);
  return all / (double)count;
}

int main(int count, char **arguments) {
  static const struct {
    size_t size;
    double most;
  } rows[] = {{1, 1.1}, {2, 33}, {3, 23}, {4, 17}, {8, 9}, {16, 5.2}, {32, 3.2}, {33, 6.5}, {64, 3.7}, {128, 2.3}, {1024, 1.15}, {1200, 1.1}, {LARGEST, 1.1}};
  (void)arguments; /* they are counted */
  for (size_t i = 0; i < WINDOW; i++) sent[i] = (unsigned char)(i * 31 + i / 251);
  h3_config config;
  h3_config_default(&config);
  config.server = 1;
  config.webtransport = config.datagram = 1; /* so that sessions are known */
  need(h3_new(&server, &config, NULL) == H3_OK, "no endpoint", 0);
  for (size_t i = 0; i < sizeof rows / sizeof *rows; i++) {
    begin_body(4 * i);
    double body = taken(4 * i, H3_BODY, rows[i].size);
    begin_session(4 * i + 2);
    double session = taken(4 * i + 2, H3_RAW, rows[i].size);
    if (count > 1) printf("pieces of %zu bytes: %.2f bytes held a byte of a body, %.2f of a session\n", rows[i].size, body, session);
    need(body <= rows[i].most && session <= rows[i].most, "more is held for a byte than the bound", rows[i].size);
  }
  h3_free(&server);
  puts("ok small pieces: a body and a session in pieces of 1 to 4,096 bytes are held within their bounds, and come out as they were cut");
}
