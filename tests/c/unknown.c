/* Frames of unknown types (RFC 9114, section 9): 40 MiB of a frame of 2^30 - 1 bytes, in pieces of 64 KiB, on a request stream, pulled and not, and on
 * the control stream. None of them is held: by h3_stream, and by the bytes that are allocated. What comes behind such a frame is read as without
 * it, and an end inside is a fault. Linked with --wrap for malloc, realloc and free. */
#include "counted.h"
#include "h3.h"
#include <stdio.h>
#include <stdlib.h>
#include <string.h>

enum { PIECE = 64 * 1024, PIECES = 640, MOST = 4096 };

static uint8_t piece[PIECE];
static h3_endpoint server;

static void fail(const char *what, uint64_t id, uint64_t number) {
  printf("failed unknown: %s, stream %llu, %llu\n", what, (unsigned long long)id, (unsigned long long)number);
  exit(1);
}
#define WANT(test, what, id, number) \
  do { \
    if (!(test)) fail(what, id, number); \
  } while (0)

static void deliver(uint64_t id, const void *bytes, size_t n) {
  uint32_t answer = h3_deliver(&server, id, bytes, n, NULL);
  WANT(answer == H3_OK, "h3_deliver", id, answer);
}
static uint32_t pulled(uint64_t id) {
  h3_item item;
  uint32_t answer = h3_pull(&server, id, &item);
  WANT(answer == H3_OK, "h3_pull", id, answer);
  return item.kind;
}
static uint64_t unread(uint64_t id) {
  h3_stream_state state;
  uint32_t answer = h3_stream(&server, id, &state);
  WANT(answer == H3_OK, "h3_stream", id, answer);
  return state.unread;
}
static void make(void) {
  h3_config config;
  h3_config_default(&config);
  config.server = 1;
  WANT(h3_new(&server, &config, NULL) == H3_OK, "h3_new", 0, 0);
}

/* so many pieces of the payload come, and the stream is pulled behind each of them, or never */
static size_t flood(uint64_t id, int pulls) {
  size_t before = live, most = 0;
  deliver(id, "\x21\xbf\xff\xff\xff", 5);
  for (int n = 0; n < PIECES; n++) {
    if (pulls) WANT(pulled(id) == H3_PENDING, "another item", id, (uint64_t)n);
    deliver(id, piece, PIECE);
    WANT(unread(id) == 0, "bytes of an unknown frame count as held", id, unread(id));
    if (live - before > most) most = live - before;
  }
  WANT(most <= MOST, "bytes of an unknown frame are held", id, most);
  return most;
}

/* a frame of 70,000 bytes in pieces of so many, with a HEADERS frame behind it (of a request for /). Once it is whole it counts, until it is read over */
static void behind(uint64_t id, size_t step, int pulls) {
  static const char head[] = "\x01\x0a\x00\x00\xd1\xd7\xc1\x50\x03\x61.b";
  size_t n = 70000, len = sizeof head - 1;
  uint8_t all[70100];
  memcpy(all, "\x40\x21\x80\x01\x11\x70", 6);
  memset(all + 6, 7, n);
  memcpy(all + 6 + n, head, len);
  for (size_t at = 0; at < 6 + n + len; at += step) {
    size_t left = 6 + n + len - at;
    if (pulls && at) WANT(pulled(id) == H3_PENDING, "an item comes too early", id, at);
    deliver(id, all + at, left < step ? left : step);
  }
  WANT(unread(id) == (step == 1 ? len : 6 + n + len), "another count behind an unknown frame", id, unread(id));
  WANT(pulled(id) == H3_HEAD, "no head behind an unknown frame", id, step);
  WANT(unread(id) == 0, "bytes are held behind a head", id, unread(id));
}

int main(void) {
  size_t request, waiting, control;
  h3_item item;
  make();
  deliver(24, "\x21", 1); /* what a connection takes with its first request stream is no frame's */
  request = flood(0, 1);
  waiting = flood(4, 0);
  WANT(h3_deliver_end(&server, 0, NULL) == H3_OK, "h3_deliver_end", 0, 0);
  behind(8, 1000, 0);
  behind(12, 1000, 1);
  behind(16, 70100, 0);
  behind(20, 1, 1);
  deliver(2, "\x00\x04\x00", 3);
  control = flood(2, 0);
  WANT(h3_pull(&server, 0, &item) == H3_OK && item.kind == H3_FAULT_CONNECTION && item.number == 0x106, "no fault at an end inside a frame", 0, item.kind);
  h3_free(&server);
  make();
  deliver(2, "\x00\x04\x00\x21\x80\x01\x11\x70", 8);
  for (int n = 0; n < 70; n++) deliver(2, piece, 1000);
  WANT(unread(2) == 0, "a frame that was read over counts as held", 2, unread(2));
  deliver(2, "\x07\x01", 2);
  WANT(unread(2) == 2, "another count behind an unknown frame", 2, unread(2));
  deliver(2, "\x04", 1);
  WANT(unread(2) == 0, "a frame that was read counts as held", 2, unread(2));
  h3_free(&server);
  printf("ok unknown: 40 MiB of an unknown frame: at most %zu bytes are held of a request stream that is pulled, %zu of one that is not, %zu of the control stream\n",
      request, waiting, control);
  return 0;
}
