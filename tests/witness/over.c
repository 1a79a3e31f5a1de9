/* A server, and a stream that is over: what comes on it is refused, and it is not done with while its end waits. A response to a request that nobody read yet,
 * and a body in pieces whose length was said (RFC 9114, section 4.1.2). */
#include <h3.h>
#include <stdio.h>
#define TEST "over"
#include "expect.h"

static const uint8_t get[] = {1, 8, 0, 0, 0xd1, 0xd7, 0x50, 1, 'a', 0xc1};
/* the same with a content-length of 2 (RFC 9204, Appendix A: the name of the entry 4) */
static const uint8_t two_bytes[] = {1, 11, 0, 0, 0xd1, 0xd7, 0x50, 1, 'a', 0xc1, 0x54, 1, '2'};
static h3_endpoint end;

static void make(int strict) {
  h3_config config;
  h3_config_default(&config);
  config.server = 1;
  config.strict = strict;
  end = (h3_endpoint)H3_NONE_YET;
  IS(h3_new(&end, &config, NULL), H3_OK);
}

static void pulls(uint32_t kind) {
  h3_item item;
  IS(h3_pull(&end, 0, &item), H3_OK);
  IS(item.kind, kind);
}

static void take_all(uint64_t id) {
  uint8_t bytes[256];
  size_t n = 0;
  IS(h3_outgoing(&end, id, bytes, sizeof bytes, &n, NULL, NULL), H3_OK);
  IS(h3_advance(&end, id, n), H3_OK);
}

static void drained(uint32_t wanted) {
  uint32_t is = 7;
  IS(h3_is_drained(&end, &is), H3_OK);
  IS(is, wanted);
}

/* A request and its response, both whole: all that is left is to take the end of the response. */
static void over(void) {
  static const h3_field_size status = {7, 3};
  make(0);
  IS(h3_deliver(&end, 0, get, sizeof get, NULL), H3_OK);
  IS(h3_deliver_end(&end, 0, NULL), H3_OK);
  pulls(H3_HEAD), pulls(H3_END);
  IS(h3_send_head(&end, 0, &status, NULL, 1, ":status200", 10, NULL), H3_OK);
  IS(h3_finish(&end, 0, NULL), H3_OK);
  take_all(0);
  IS(h3_shutdown(&end, NULL), H3_OK);
  for (uint64_t id = 3; id < 12; id += 4) take_all(id);
  drained(0);
  IS(h3_end_taken(&end, 0), H3_OK);
  drained(1);
  IS(h3_deliver(&end, 0, get, sizeof get, NULL), H3_AFTER_END);
  h3_free(&end);
}

/* What was asked is not known, so the length that the response says need not come (RFC 9110, section 9.3.2). */
static void unread(void) {
  static const h3_field_size sizes[] = {{7, 3}, {14, 1}};
  make(1);
  IS(h3_deliver(&end, 0, get, 1, NULL), H3_OK);
  IS(h3_send_head(&end, 0, sizes, NULL, 2, ":status404content-length1", 25, NULL), H3_OK);
  IS(h3_finish(&end, 0, NULL), H3_OK);
  h3_free(&end);
}

static void reads(const char *bytes, size_t len, uint32_t kind, uint64_t number) {
  h3_item item;
  size_t used = 0;
  IS(h3_read(&end, 0, bytes, len, 0, &used, &item, NULL), H3_OK);
  IS(item.kind, kind);
  HOLDS(item.number == number);
}

/* Of two bytes that were said one comes, and then two. */
static void pieces(void) {
  make(1);
  IS(h3_deliver(&end, 0, two_bytes, sizeof two_bytes, NULL), H3_OK);
  pulls(H3_HEAD);
  reads("\x00\x01" "a", 3, H3_BODY_GIVEN, 2);
  reads("\x00\x02" "bc", 4, H3_FAULT_MALFORMED, H3_BAD_CONTENT_LENGTH);
  h3_free(&end);
}

int main(void) {
  over();
  unread();
  pieces();
  if (!bad) puts("ok over: a stream that is over, a response to what was not read, and a body in pieces");
  return bad;
}
