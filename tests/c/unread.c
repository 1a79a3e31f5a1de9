/* What h3_stream says is held of a stream, byte by byte, over the calls of include/h3.h: each expected number is counted from the bytes of a frame or
 * instruction by hand (RFC 9114, sections 6.2 and 7; RFC 9204, sections 4.3 to 4.5 and appendix B.2). One line 'ok NAME' or 'failed NAME'. */
#include <h3.h>
#include <stdio.h>
#include <string.h>

static int bad;
static h3_endpoint server;

#define HOLDS(what) \
  do \
    if (!(what)) { \
      printf("failed unread: line %d: %s\n", __LINE__, #what); \
      bad = 1; \
    } \
  while (0)

#define UNREAD(id, count) HOLDS(unread(id) == (count))

static uint64_t unread(uint64_t id) {
  h3_stream_state state;
  return h3_stream(&server, id, &state) == H3_OK ? state.unread : UINT64_MAX;
}

#include "server.h"

/* a head of :method GET, :scheme https, :authority "a", and the front of a body of five bytes */
static void of_a_request(void) {
  static const char head[] = "\x01\x07\x00\x00\xd1\xd7\x50\x01"
                             "a";
  UNREAD(0, 0);
  for (size_t i = 0; i < 9; i++) {
    HOLDS(deliver(0, head + i, 1) == H3_OK);
    UNREAD(0, i + 1);
    HOLDS(pull(0).kind == (i < 8 ? H3_PENDING : H3_HEAD));
  }
  UNREAD(0, 0);
  HOLDS(deliver(0, "\x00", 1) == H3_OK);
  HOLDS(pull(0).kind == H3_PENDING);
  UNREAD(0, 1);
  HOLDS(deliver(0, "\x05he", 3) == H3_OK);
  UNREAD(0, 4);
  HOLDS(pull(0).len == 2);
  UNREAD(0, 0);
  HOLDS(deliver(0, "l", 1) == H3_OK && deliver(0, "lo", 2) == H3_OK);
  UNREAD(0, 3);
  HOLDS(pull(0).len == 1);
  UNREAD(0, 2);
  HOLDS(pull(0).len == 2);
  UNREAD(0, 0);
  HOLDS(h3_deliver_end(&server, 0, NULL) == H3_OK && pull(0).kind == H3_END);
  UNREAD(0, 0);
}

/* a frame of an unknown type with 100 bytes, which are let go as they come, and the front of one behind it; a HEADERS frame of 2^30 - 1 bytes */
static void of_unfinished_frames(void) {
  char bytes[100] = {0};
  HOLDS(deliver(4, "\x21", 1) == H3_OK);
  UNREAD(4, 1);
  HOLDS(deliver(4, "\x40\x64", 2) == H3_OK);
  UNREAD(4, 0);
  HOLDS(deliver(4, bytes, 50) == H3_OK);
  UNREAD(4, 0);
  HOLDS(pull(4).kind == H3_PENDING);
  UNREAD(4, 0);
  HOLDS(deliver(4, bytes, 50) == H3_OK && deliver(4, "\x40\x21\x05" "abc", 6) == H3_OK);
  UNREAD(4, 109); /* the first is whole, and was not read over */
  HOLDS(pull(4).kind == H3_PENDING);
  UNREAD(4, 0);
  HOLDS(deliver(4, "de", 2) == H3_OK && pull(4).kind == H3_PENDING);
  UNREAD(4, 0);
  HOLDS(deliver(4, "\x01\xbf\xff\xff\xff", 5) == H3_OK && deliver(4, bytes, 100) == H3_OK);
  HOLDS(pull(4).kind == H3_PENDING);
  UNREAD(4, 105);
  HOLDS(h3_deliver_reset(&server, 4, 0x10c, NULL) == H3_OK);
  UNREAD(4, 0);
  HOLDS(deliver(8, "\x01\x40", 2) == H3_OK);
  UNREAD(8, 2);
  HOLDS(h3_cancel(&server, 8, NULL) == H3_OK);
  UNREAD(8, 0);
  HOLDS(deliver(8, bytes, 100) == H3_OK);
  UNREAD(8, 0);
}

/* a section that needs two insertions: of its frame six bytes are the payload */
static void of_a_waiting_head(void) {
  static const char insertions[] = "\x02\x3f\xbd\x01\xc0\x0fwww.example.com\xc1\x0c/sample/path";
  size_t count = sizeof insertions - 1;
  HOLDS(deliver(12, "\x01\x06\x03\x81\xd1\xd7\x10\x11", 8) == H3_OK);
  UNREAD(12, 8);
  HOLDS(pull(12).kind == H3_WAITING);
  UNREAD(12, 6);
  HOLDS(deliver(12, "\x00\x01z", 3) == H3_OK && pull(12).kind == H3_WAITING);
  UNREAD(12, 9);
  HOLDS(deliver(6, insertions, count - 1) == H3_OK);
  UNREAD(6, 13); /* the second insertion without its last byte */
  HOLDS(deliver(6, insertions + count - 1, 1) == H3_OK);
  UNREAD(6, 0);
  HOLDS(pull(12).kind == H3_HEAD);
  UNREAD(12, 3);
  HOLDS(pull(12).kind == H3_BODY);
  UNREAD(12, 0);
}

/* the decoder stream is read when the settings came; a GOAWAY without its last byte */
static void of_streams_of_the_connection(void) {
  HOLDS(deliver(10, "\x03\x40\x41", 3) == H3_OK); /* two cancellations */
  UNREAD(10, 2);
  HOLDS(deliver(2, "\x00\x04", 2) == H3_OK);
  UNREAD(2, 1);
  HOLDS(deliver(2, "\x00", 1) == H3_OK);
  UNREAD(2, 0);
  UNREAD(10, 0);
  HOLDS(deliver(2, "\x07\x04\x80\x00\x00", 5) == H3_OK);
  UNREAD(2, 5);
  HOLDS(deliver(2, "\x00", 1) == H3_OK);
  UNREAD(2, 0);
}

/* a type in part, an unknown one, and a session of WebTransport, which is reset */
static void of_other_streams(void) {
  HOLDS(deliver(14, "\x40", 1) == H3_OK);
  UNREAD(14, 1);
  HOLDS(deliver(14, "\x21" "abc", 4) == H3_OK);
  UNREAD(14, 0);
  HOLDS(deliver(18, "\x40\x54", 2) == H3_OK);
  UNREAD(18, 2);
  HOLDS(deliver(18, "\x00" "abc", 4) == H3_OK && pull(18).kind == H3_SESSION);
  UNREAD(18, 3);
  HOLDS(pull(18).kind == H3_RAW);
  UNREAD(18, 0);
  HOLDS(deliver(18, "de", 2) == H3_OK);
  UNREAD(18, 2);
  HOLDS(h3_deliver_reset(&server, 18, 7, NULL) == H3_OK);
  UNREAD(18, 0);
  HOLDS(pull(18).kind == H3_FAULT_RESET);
}

int main(void) {
  make();
  of_a_request();
  of_unfinished_frames();
  of_a_waiting_head();
  of_streams_of_the_connection();
  of_other_streams();
  UNREAD(3, 0); /* an own stream, one that a server would open, one of which nothing came, and no id */
  UNREAD(1, 0);
  UNREAD(400, 0);
  HOLDS(unread(UINT64_C(1) << 62) == UINT64_MAX);
  h3_free(&server);
  if (!bad) puts("ok unread: what is held of a stream is what was delivered, and not handed out and not read");
  return bad;
}
