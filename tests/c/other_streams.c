/* Unidirectional streams of types that have no meaning here (RFC 9114, section 6.2), if `other_streams` is set: which are handed out, in any pieces; their
 * ends and resets; what is held of them; and that memory that is refused loses nothing. Without the choice what comes on them is dropped. Linked with
 * --wrap for malloc and realloc. One line 'ok NAME' or 'failed NAME'. */
#define TEST "other_streams"
#include "pair.h"
#include <stdlib.h>
#include <string.h>

#define NEVER (~UINT64_C(0)) /* no type is this */
#define BYTES(text) text, sizeof(text) - 1

/* ---- memory that is refused: from the next call on so many are not ---- */

static int64_t left = -1;
void *__real_malloc(size_t);
void *__real_realloc(void *, size_t);
void *__wrap_malloc(size_t);
void *__wrap_realloc(void *, size_t);
static int refuses(void) { return left >= 0 && left-- <= 0 ? (left = 0, 1) : 0; }
void *__wrap_malloc(size_t size) { return refuses() ? NULL : __real_malloc(size); }
void *__wrap_realloc(void *block, size_t size) { return refuses() ? NULL : __real_realloc(block, size); }

/* ---- one endpoint, and bytes that are given by hand ---- */

static void make(int side, int others, int strict, int webtransport) {
  h3_config config;
  h3_config_default(&config);
  HOLDS(config.other_streams == 0);
  config.server = (uint64_t)side;
  config.other_streams = (uint64_t)others;
  config.strict_connection = (uint64_t)strict;
  config.webtransport = config.datagram = (uint64_t)webtransport;
  h3_free(&ends[side]);
  IS(h3_new(&ends[side], &config, NULL), H3_OK);
}

static uint64_t peer(int side, uint64_t n) { return 4 * n + (side == CLIENT ? 3 : 2); }

static uint32_t kind(int side, uint64_t id) {
  uint32_t type = 99;
  IS(h3_stream_kind(&ends[side], id, &type), H3_OK);
  return type;
}

static uint64_t type(int side, uint64_t id) {
  uint64_t found = NEVER;
  uint32_t n = h3_other_type(&ends[side], id, &found);
  if (n != H3_OK) IS(n, H3_NONE);
  HOLDS((n == H3_OK) == (found != NEVER));
  return found;
}

static uint64_t unread(int side, uint64_t id) {
  h3_stream_state state;
  IS(h3_stream(&ends[side], id, &state), H3_OK);
  return state.unread;
}

/* all that was not pulled, and then this answer */
static void gives(int side, uint64_t id, const char *bytes, size_t len, uint32_t then) {
  uint8_t got[100];
  size_t all = 0;
  h3_item item = {0};
  for (;;) {
    size_t n = 0;
    IS(h3_pull(&ends[side], id, &item), H3_OK);
    if (item.kind != H3_RAW || all == sizeof got) break;
    IS(h3_item_bytes(&ends[side], 0, got + all, sizeof got - all, &n), H3_OK);
    HOLDS(n == item.len && n > 0);
    all += n;
  }
  HOLDS(all == len && memcmp(got, bytes, len) == 0);
  IS(item.kind, then);
}

static void comes(int side, uint64_t id, const char *bytes, size_t len, size_t piece) {
  for (size_t at = 0; at < len; at += piece)
    IS(h3_deliver(&ends[side], id, bytes + at, len - at < piece ? len - at : piece, NULL), H3_OK);
}

static void of_off(void) {
  for (int side = 0; side < 2; side++) {
    make(side, 0, 1, 0);
    uint64_t id = peer(side, 3);
    comes(side, id, BYTES("\x40\x99" "abc"), 1);
    HOLDS(kind(side, id) == H3_STREAM_UNKNOWN && type(side, id) == NEVER && unread(side, id) == 0);
    gives(side, id, BYTES(""), H3_NO_MESSAGES);
  }
  drop();
}

static void of_pieces(void) {
  for (int side = 0; side < 2; side++)
    for (size_t piece = 1; piece < 12; piece++)
      for (int strict = 0; strict < 2; strict++) {
        make(side, 1, strict, 0);
        uint64_t id = peer(side, 3), far = peer(side, 1 << 20);
        HOLDS(kind(side, id) == H3_STREAM_UNTOLD);
        comes(side, id, BYTES("\x40\x99" "abcdefgh"), piece);
        HOLDS(kind(side, id) == H3_STREAM_OTHER && type(side, id) == 0x99 && unread(side, id) == 8);
        gives(side, id, BYTES("abcdefgh"), H3_PENDING);
        HOLDS(unread(side, id) == 0);
        comes(side, id, BYTES("ijk"), piece);
        IS(h3_deliver_end(&ends[side], id, NULL), H3_OK);
        gives(side, id, BYTES("ijk"), H3_END);
        gives(side, id, BYTES(""), H3_END);
        HOLDS(kind(side, id) == H3_STREAM_OTHER && type(side, id) == 0x99);
        comes(side, far, BYTES("\xc0\0\0\0\xc6\x71\x70\x6a" "x"), piece); /* and far ahead */
        HOLDS(type(side, far) == 0xc671706a);
        gives(side, far, BYTES("x"), H3_PENDING);
        IS(h3_deliver_reset(&ends[side], far, 77, NULL), H3_OK);
        h3_item item = pull(side, far);
        HOLDS(item.kind == H3_FAULT_RESET && item.number == 77);
        IS(h3_deliver(&ends[side], far, "y", 1, NULL), H3_AFTER_END);
      }
  drop();
}

/* a reset drops what was not pulled; the type alone, and an end before the type */
static void of_ends(void) {
  make(SERVER, 1, 1, 0);
  comes(SERVER, 14, BYTES("\x4f" "\xff" "abc"), 5);
  HOLDS(unread(SERVER, 14) == 3);
  IS(h3_deliver_reset(&ends[SERVER], 14, 5, NULL), H3_OK);
  HOLDS(unread(SERVER, 14) == 0);
  HOLDS(pull(SERVER, 14).kind == H3_FAULT_RESET);
  HOLDS(type(SERVER, 14) == 0xfff && unread(SERVER, 14) == 0);
  comes(SERVER, 18, BYTES("\x3f"), 1);
  HOLDS(kind(SERVER, 18) == H3_STREAM_OTHER && type(SERVER, 18) == 0x3f);
  gives(SERVER, 18, BYTES(""), H3_PENDING);
  IS(h3_deliver_end(&ends[SERVER], 18, NULL), H3_OK);
  gives(SERVER, 18, BYTES(""), H3_END);
  comes(SERVER, 22, BYTES("\x80\0"), 1);
  HOLDS(unread(SERVER, 22) == 2);
  IS(h3_deliver_end(&ends[SERVER], 22, NULL), H3_OK);
  HOLDS(kind(SERVER, 22) == H3_STREAM_UNTOLD && type(SERVER, 22) == NEVER);
  gives(SERVER, 22, BYTES(""), H3_NO_MESSAGES);
  HOLDS(type(SERVER, 0) == NEVER && type(SERVER, 3) == NEVER && type(SERVER, 2) == NEVER);
  uint64_t found = 5;
  IS(h3_other_type(&ends[SERVER], UINT64_C(1) << 62, &found), H3_ARGUMENT);
  HOLDS(found == 5);
  drop();
}

/* no reserved type (RFC 9114, section 6.2.3), and none that has a meaning */
static void of_types(void) {
  make(SERVER, 1, 1, 0);
  comes(SERVER, 2, BYTES("\0\4\0"), 1);
  comes(SERVER, 6, BYTES("\2"), 1);
  comes(SERVER, 10, BYTES("\3"), 1);
  uint64_t id = 14;
  for (uint64_t n = 4; n < 0x1000; n++, id += 4) {
    if (n == 0x54) continue;
    const char bytes[] = {(char)(0x40 | n >> 8), (char)n, 'a'};
    comes(SERVER, id, bytes, 3, 3);
    int is_reserved = n >= 0x21 && (n - 0x21) % 0x1f == 0;
    HOLDS(kind(SERVER, id) == (is_reserved ? H3_STREAM_UNKNOWN : H3_STREAM_OTHER));
    HOLDS(type(SERVER, id) == (is_reserved ? NEVER : n));
    gives(SERVER, id, "a", is_reserved ? 0 : 1, is_reserved ? H3_NO_MESSAGES : H3_PENDING);
  }
  comes(SERVER, id, BYTES("\xff\xff\xff\xff\xff\xff\xff\xff" "a"), 4);
  HOLDS(type(SERVER, id) == (((UINT64_C(1) << 62) - 1 - 0x21) % 0x1f ? (UINT64_C(1) << 62) - 1 : NEVER));
  comes(SERVER, id += 4, BYTES("\x40\x54\0a"), 4); /* sessions are not known */
  HOLDS(kind(SERVER, id) == H3_STREAM_UNKNOWN);
  HOLDS(kind(SERVER, 2) == H3_STREAM_CONTROL && kind(SERVER, 6) == H3_STREAM_ENCODER && kind(SERVER, 10) == H3_STREAM_DECODER);
  make(SERVER, 1, 1, 1);
  comes(SERVER, 14, BYTES("\x40\x54\0a"), 4);
  HOLDS(kind(SERVER, 14) == H3_STREAM_SESSION && type(SERVER, 14) == NEVER);
  HOLDS(pull(SERVER, 14).kind == H3_SESSION);
  gives(SERVER, 14, BYTES("a"), H3_PENDING);
  drop();
}

/* by one call, and while no allocation succeeds but those that are counted */
static void of_reads(void) {
  make(SERVER, 1, 1, 0);
  size_t used = 0;
  h3_item item = {0};
  uint8_t got[10];
  size_t n = 0;
  IS(h3_read(&ends[SERVER], 14, BYTES("\x40\x99" "abc"), 1, &used, &item, NULL), H3_OK);
  HOLDS(used == 5 && item.kind == H3_RAW && item.len == 3);
  IS(h3_item_bytes(&ends[SERVER], 0, got, sizeof got, &n), H3_OK);
  HOLDS(n == 3 && memcmp(got, "abc", 3) == 0);
  IS(h3_read(&ends[SERVER], 14, "", 0, 0, &used, &item, NULL), H3_OK);
  HOLDS(item.kind == H3_END);
  int refused = 0;
  for (int64_t count = 0; count < 20; count++) {
    make(SERVER, 1, 1, 0);
    for (uint64_t id = 14; id < 64; id += 4) {
      left = count;
      uint32_t answer = h3_deliver(&ends[SERVER], id, BYTES("\x40\x99" "abc"), NULL);
      left = -1;
      refused += answer != H3_OK;
      if (answer == H3_MEMORY) IS(h3_deliver(&ends[SERVER], id, BYTES("\x40\x99" "abc"), NULL), H3_OK);
      gives(SERVER, id, BYTES("abc"), H3_PENDING);
      HOLDS(type(SERVER, id) == 0x99);
    }
  }
  HOLDS(refused > 2);
  drop();
}

int main(void) {
  of_off();
  of_pieces();
  of_ends();
  of_types();
  of_reads();
  if (!bad) printf("ok " TEST "\n");
  return bad;
}
