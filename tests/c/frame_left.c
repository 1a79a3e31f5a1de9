/* What h3_frame_left says is still to come of a frame, byte by byte, over the calls of include/h3.h: each expected number is the length that the frame
 * says, less the bytes of its payload that came (RFC 9114, sections 6.2 and 7). One line 'ok NAME' or 'failed NAME'. */
#include <h3.h>
#include <stdio.h>
#include <string.h>

static int bad;
static h3_endpoint server;

#define HOLDS(what) \
  do \
    if (!(what)) { \
      printf("failed frame_left: line %d: %s\n", __LINE__, #what); \
      bad = 1; \
    } \
  while (0)

#define LEFT(id, count) HOLDS(left(id) == (count))

static uint64_t left(uint64_t id) {
  uint64_t count = 99;
  return h3_frame_left(&server, id, &count) == H3_OK ? count : UINT64_MAX;
}

#include "server.h"

/* a frame byte by byte, its type and length first: the caller pulls after each */
static void of_frame(uint64_t id, const char *bytes, size_t head, size_t payload, int pulls) {
  for (size_t i = 0; i < head + payload; i++) {
    HOLDS(deliver(id, bytes + i, 1) == H3_OK);
    LEFT(id, i + 1 < head ? 0 : head + payload - i - 1);
    if (pulls) pull(id);
    LEFT(id, i + 1 < head ? 0 : head + payload - i - 1);
  }
}

#define FRAME(id, head, payload, pulls) of_frame(id, head payload, sizeof head - 1, sizeof payload - 1, pulls)

/* unknown frames, the head of a message, DATA, and DATA that is not pulled */
static void of_a_request(void) {
  LEFT(0, 0);
  FRAME(0, "\x21\x03", "abc", 1);
  FRAME(0, "\x40\x21\x40\x03", "abc", 1);
  FRAME(0, "\x01\x07", "\x00\x00\xd1\xd7\x50\x01" "a", 1);
  FRAME(0, "\x00\x05", "hello", 1);
  FRAME(0, "\x00\x00", "", 1);
  FRAME(0, "\x00\x80\x00\x00\x02", "hi", 1);
  FRAME(0, "\x21\x02", "hi", 1);
  HOLDS(deliver(0, "\x00\x05he", 4) == H3_OK);
  LEFT(0, 3);
  HOLDS(deliver(0, "l", 1) == H3_OK);
  LEFT(0, 2);
  HOLDS(pull(0).len == 2);
  LEFT(0, 2);
  HOLDS(deliver(0, "lo\x00\x09", 4) == H3_OK);
  LEFT(0, 0); /* the first frame is whole, and not pulled */
  HOLDS(pull(0).len == 1 && pull(0).len == 2 && pull(0).kind == H3_PENDING);
  LEFT(0, 9);
  HOLDS(h3_deliver_reset(&server, 0, 0x10c, NULL) == H3_OK);
  LEFT(0, 0);
}

/* the longest payload that there is (RFC 9000, section 16), of which the end is not to come */
static void of_long_frames(void) {
  HOLDS(deliver(4, "\x01\xff\xff\xff\xff\xff\xff\xff\xff", 9) == H3_OK);
  LEFT(4, (UINT64_C(1) << 62) - 1);
  HOLDS(deliver(4, "abc", 3) == H3_OK && pull(4).kind == H3_PENDING);
  LEFT(4, (UINT64_C(1) << 62) - 4);
  HOLDS(deliver(8, "\x21\xff\xff\xff\xff\xff\xff\xff\xff" "abc", 12) == H3_OK && pull(8).kind == H3_PENDING);
  LEFT(8, (UINT64_C(1) << 62) - 4);
  HOLDS(h3_cancel(&server, 8, NULL) == H3_OK);
  LEFT(8, 0);
  LEFT(4, (UINT64_C(1) << 62) - 4);
}

/* a section that needs two insertions came whole: nothing of its frame is to come, and what follows is read after it */
static void of_a_waiting_head(void) {
  static const char insertions[] = "\x02\x3f\xbd\x01\xc0\x0fwww.example.com\xc1\x0c/sample/path";
  FRAME(12, "\x01\x06", "\x03\x81\xd1\xd7\x10\x11", 1);
  HOLDS(pull(12).kind == H3_WAITING);
  HOLDS(deliver(12, "\x00\x03z", 3) == H3_OK && pull(12).kind == H3_WAITING);
  LEFT(12, 0);
  HOLDS(deliver(6, insertions, sizeof insertions - 1) == H3_OK);
  HOLDS(pull(12).kind == H3_HEAD);
  LEFT(12, 2);
  HOLDS(pull(12).kind == H3_BODY);
  LEFT(12, 2);
}

/* the control stream behind its type; streams without frames */
static void of_streams_of_the_connection(void) {
  FRAME(2, "\x00\x04\x02", "\x06\x05", 0); /* with the type of the stream in front */
  FRAME(2, "\x07\x04", "\x80\x00\x00\x00", 0);
  FRAME(2, "\x40\x21\x40\x04", "abcd", 0);
  FRAME(2, "\x0d\x02", "\x40\x00", 0);
  LEFT(6, 0);
  HOLDS(deliver(10, "\x03\x40\x41", 3) == H3_OK && deliver(14, "\x21\x04\x09", 3) == H3_OK);
  LEFT(10, 0);
  LEFT(14, 0);
  LEFT(3, 0);
  LEFT(1, 0);
  LEFT(400, 0);
  HOLDS(left(UINT64_C(1) << 62) == UINT64_MAX);
}

/* a session of WebTransport has no frames behind its id */
static void of_a_session(void) {
  HOLDS(deliver(16, "\x40\x41\x00" "\x00\x05", 5) == H3_OK && pull(16).kind == H3_SESSION);
  LEFT(16, 0);
  HOLDS(pull(16).kind == H3_RAW);
  LEFT(16, 0);
}

/* bodies that are read where they lie */
static void of_given_bodies(void) {
  h3_item item;
  size_t used;
  HOLDS(h3_read(&server, 20, "\x01\x07\x00\x00\xd1\xd7\x50\x01" "a", 9, 0, &used, &item, NULL) == H3_OK && item.kind == H3_HEAD);
  HOLDS(h3_read(&server, 20, "\x00\x08he", 4, 0, &used, &item, NULL) == H3_OK && item.kind == H3_BODY_GIVEN);
  LEFT(20, 6);
  HOLDS(h3_read(&server, 20, "llo", 3, 0, &used, &item, NULL) == H3_OK && item.kind == H3_BODY_GIVEN);
  LEFT(20, 3);
}

/* once the connection has a fault nothing more is to come */
static void of_a_closed_connection(void) {
  LEFT(4, (UINT64_C(1) << 62) - 4);
  HOLDS(deliver(2, "\x00\x00", 2) == H3_CONNECTION);
  LEFT(4, 0);
}

int main(void) {
  make();
  of_a_request();
  of_long_frames();
  of_a_waiting_head();
  of_streams_of_the_connection();
  of_a_session();
  of_given_bodies();
  of_a_closed_connection();
  h3_free(&server);
  if (!bad) puts("ok frame_left: what is still to come of a frame is its length, less what came of its payload");
  return bad;
}
