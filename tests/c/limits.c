/* Frames of any length beside `unfinished_limit`: which are faults, of what, and when. One line 'ok NAME' or 'failed NAME'. */
#include "h3.h"
#include <string.h>
#define TEST "limits"
#include "expect.h"

static void plain_config(h3_config *c) {
  h3_config_default(c);
  c->strict = 0;
}

/* A frame that says more than `unfinished_limit` is a fault as soon as its head came, when it is pulled: HEADERS of their stream, any other of the
 * connection. One that says as much is none; DATA is never too long. Without a limit such a frame is waited for. 0 is four times what is announced. */
static void of_unfinished_limits(void) {
  static const struct {
    uint64_t most;
    uint64_t section;
    const char *bytes;
    size_t len;
    uint32_t kind;
  } of[] = {
      {0, 65536, "\1\xc0\0\0\0\x40\0\0\0", 9, H3_FAULT_MALFORMED},      /* HEADERS of 2^30 bytes */
      {0, 65536, "\1\x80\4\0\1", 5, H3_FAULT_MALFORMED},                  /* of 262,145, */
      {0, 65536, "\1\x80\4\0\0", 5, H3_PENDING},                          /* and of 262,144 */
      {0, 65536, "\1\x80\4\0", 4, H3_PENDING},                            /* no head yet */
      {300000, 65536, "\1\x80\4\0\1", 5, H3_PENDING},                     /* a greater limit */
      {262144, 65536, "\1\x80\4\0\1", 5, H3_FAULT_MALFORMED},
      {0, 131072, "\1\x80\4\0\1", 5, H3_PENDING},                         /* the limit follows what is announced */
      {0, 131072, "\1\x80\x8\0\1", 5, H3_FAULT_MALFORMED},
      {0, 65536, "\5\xc0\0\0\0\x40\0\0\0", 9, H3_FAULT_CONNECTION},     /* PUSH_PROMISE, */
      {0, 65536, "\4\x80\4\0\1", 5, H3_FAULT_CONNECTION},                 /* SETTINGS, */
      {0, 65536, "\x21\xc0\0\0\0\x40\0\0\0", 9, H3_PENDING},            /* and a type that is unknown */
      {0, 65536, "\x21\1\0\1\x80\4\0\1", 8, H3_FAULT_MALFORMED},         /* HEADERS behind an unknown frame that is whole */
      {UINT64_MAX, 65536, "\1\xc0\0\0\0\x40\0\0\0", 9, H3_PENDING},
      {0, (UINT64_C(1) << 62) - 1, "\1\xff\xff\xff\xff\xff\xff\xff\xff", 9, H3_PENDING}, /* any size is announced: no limit */
      {0, UINT64_C(1) << 60, "\1\xff\xff\xff\xff\xff\xff\xff\xff", 9, H3_PENDING},
      {0, (UINT64_C(1) << 60) - 1, "\1\xff\xff\xff\xff\xff\xff\xff\xff", 9, H3_FAULT_MALFORMED},
      {(UINT64_C(1) << 62) - 1, 65536, "\1\xff\xff\xff\xff\xff\xff\xff\xff", 9, H3_PENDING},
      {(UINT64_C(1) << 62) - 2, 65536, "\1\xff\xff\xff\xff\xff\xff\xff\xff", 9, H3_FAULT_MALFORMED},
  };
  for (size_t i = 0; i < sizeof of / sizeof *of; i++) {
    h3_endpoint e = H3_NONE_YET;
    h3_config c;
    h3_item item;
    uint64_t detail = 9;
    plain_config(&c);
    HOLDS(c.unfinished_limit == 0);
    c.server = 1;
    c.unfinished_limit = of[i].most;
    c.max_field_section_size = of[i].section;
    IS(h3_new(&e, &c, NULL), H3_OK);
    IS(h3_deliver(&e, 0, of[i].bytes, of[i].len, NULL), H3_OK);
    IS(h3_pull(&e, 0, &item), H3_OK);
    HOLDS(item.kind == of[i].kind);
    if (item.kind == H3_FAULT_CONNECTION) {
      HOLDS(item.number == H3_CODE_EXCESSIVE_LOAD);
      IS(h3_deliver(&e, 0, "\0\0", 2, &detail), H3_CONNECTION);
      HOLDS(detail == H3_CODE_EXCESSIVE_LOAD);
    }
    if (item.kind == H3_FAULT_MALFORMED) {
      HOLDS(item.number == H3_TOO_LONG);
      IS(h3_deliver(&e, 0, "\0", 1, &detail), H3_OK);
      IS(h3_pull(&e, 4, &item), H3_OK);
      HOLDS(item.kind == H3_PENDING);
    }
    h3_free(&e);
  }
}

/* On the control stream the delivery that brings the head closes the connection, however it is cut, and what came of the frame is let go. */
static void of_long_control_frames(void) {
  static const char settings[] = "\0\4\0", goaway[] = "\7\xc0\0\0\0\x40\0\0\0"; /* GOAWAY of 2^30 bytes */
  for (size_t cut = 0; cut <= sizeof goaway - 1; cut++) {
    h3_endpoint e = H3_NONE_YET;
    h3_config c;
    h3_stream_state state;
    uint64_t detail = 0;
    plain_config(&c);
    IS(h3_new(&e, &c, NULL), H3_OK);
    IS(h3_deliver(&e, 3, settings, sizeof settings - 1, NULL), H3_OK);
    IS(h3_deliver(&e, 3, goaway, cut, &detail), cut < sizeof goaway - 1 ? H3_OK : H3_CONNECTION);
    if (cut < sizeof goaway - 1) IS(h3_deliver(&e, 3, goaway + cut, sizeof goaway - 1 - cut, &detail), H3_CONNECTION);
    HOLDS(detail == 0x107);
    HOLDS(h3_stream(&e, 3, &state) == H3_OK && state.unread == 0);
    IS(h3_deliver(&e, 3, settings, 1, &detail), H3_CONNECTION);
    HOLDS(detail == 0x107 && h3_stream(&e, 3, &state) == H3_OK && state.unread == 0);
    h3_free(&e);
  }
}

int main(void) {
  of_unfinished_limits();
  of_long_control_frames();
  if (!bad) puts("ok limits: frames that are longer than unfinished_limit, on a request stream and on the control stream");
  return bad;
}
