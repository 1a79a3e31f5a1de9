/* HTTP Datagrams and capsules (RFC 9297) through the header, between two endpoints: which stream a datagram is for, whatever stands in it;
 * what refuses one, in order; capsules in any cut; what a refused call leaves. One line 'ok NAME' or 'failed NAME'. */
#include "h3.h"
#include <string.h>
#define TEST "datagrams"
#include "field_list.h"
#include "pair.h"

static const uint64_t FAR = UINT64_C(1) << 62;
static field_list request, response;

/* a client or a server that announces datagrams or does not, and closes the connection for what may not be announced or does not */
static void make_judging(int side, uint64_t datagram, uint64_t strict) {
  h3_config c;
  h3_config_default(&c);
  c.server = (uint64_t)side;
  c.datagram = datagram;
  c.strict_connection = strict;
  IS(h3_new(&ends[side], &c, NULL), H3_OK);
}

static void make_end(int side, uint64_t datagram) { make_judging(side, datagram, 1); }

static void make(uint64_t client, uint64_t server) {
  make_end(CLIENT, client);
  make_end(SERVER, server);
}

/* opens request streams up to this one, and their requests go over */
static void ask_up_to(uint64_t last) {
  for (uint64_t id = 1; id != last;) {
    IS(h3_open_request(&ends[CLIENT], &id, NULL), H3_OK);
    IS(send_list(&ends[CLIENT], id, &request), H3_OK);
    carry(CLIENT, id);
  }
}

/* ---- heads ---- */

static void head_is(int side, uint64_t id, const void *wanted, size_t len) {
  uint8_t buffer[10];
  size_t n = 77;
  uint64_t detail = 88;
  memset(buffer, 0xa5, sizeof buffer);
  IS(h3_datagram_head(&ends[side], id, buffer, len, &n, &detail), H3_OK);
  HOLDS(n == len && !memcmp(buffer, wanted, len) && detail == 0);
  for (size_t i = len; i < sizeof buffer; i++) HOLDS(buffer[i] == 0xa5);
}

/* refused, and no result but `detail` is written */
static void no_head(int side, uint64_t id, size_t room, uint32_t answer, uint64_t why) {
  uint8_t buffer[10];
  size_t n = 77;
  uint64_t detail = 88;
  memset(buffer, 0xa5, sizeof buffer);
  IS(h3_datagram_head(&ends[side], id, buffer, room, &n, &detail), answer);
  HOLDS(n == 77 && detail == why);
  for (size_t i = 0; i < sizeof buffer; i++) HOLDS(buffer[i] == 0xa5);
}

static void of_heads(void) {
  make(1, 1);
  carry_own();
  ask_up_to(65536);
  for (int side = 0; side < 2; side++) {
    head_is(side, 0, "\x00", 1);
    head_is(side, 252, "\x3f", 1);
    head_is(side, 256, "\x40\x40", 2);
    head_is(side, 65536, "\x80\x00\x40\x00", 4);
    no_head(side, 0, 0, H3_ROOM, 0);
    no_head(side, 256, 1, H3_ROOM, 0);
    no_head(side, 65536, 3, H3_ROOM, 0);
    no_head(side, FAR, 10, H3_ARGUMENT, 0);
    no_head(side, 65540, 10, H3_NOT_OPEN, 0);
    no_head(side, 1, 10, H3_NOT_REQUEST_ID, 0);
    no_head(side, 2, 10, H3_NOT_REQUEST_ID, 0);
    no_head(side, 3, 10, H3_NOT_REQUEST_ID, 0);
  }
  IS(h3_datagram_head(&ends[CLIENT], 0, NULL, 0, NULL, NULL), H3_ARGUMENT);
  drop();
}

/* datagrams are agreed on: each refusal stands in front of those behind it */
static void of_refused_heads(void) {
  for (int mine = 0; mine < 2; mine++)
    for (int theirs = 0; theirs < 2; theirs++) {
      make((uint64_t)mine, (uint64_t)theirs);
      no_head(CLIENT, 0, 10, H3_NO_DATAGRAMS, 0);
      no_head(CLIENT, 1, 10, H3_NOT_REQUEST_ID, 0);
      carry_own();
      if (mine && theirs) {
        no_head(CLIENT, 0, 10, H3_NOT_OPEN, 0);
        ask_up_to(0);
        head_is(CLIENT, 0, "\x00", 1);
        IS(h3_finish(&ends[CLIENT], 0, NULL), H3_OK);
        no_head(CLIENT, 0, 10, H3_ENDED, 0);
        no_head(CLIENT, 0, 0, H3_ENDED, 0);
        head_is(SERVER, 0, "\x00", 1);
        IS(h3_reset(&ends[SERVER], 0, NULL), H3_OK);
        no_head(SERVER, 0, 10, H3_ENDED, 0);
      } else {
        ask_up_to(0);
        no_head(CLIENT, 0, 10, H3_NO_DATAGRAMS, 0);
        no_head(SERVER, 0, 10, H3_NO_DATAGRAMS, 0);
      }
      uint64_t detail = 0;
      IS(h3_deliver(&ends[CLIENT], 3, "\x00\x00\x00", 3, &detail), H3_CONNECTION); /* DATA on the control stream */
      no_head(CLIENT, 0, 10, H3_CLOSED, detail);
      no_head(CLIENT, 1, 10, H3_CLOSED, detail);
      no_head(CLIENT, FAR, 10, H3_ARGUMENT, 0);
      drop();
    }
}

/* ---- what comes ---- */

enum { SAME_ID = 777, SAME_FROM = 888 };

static void reads(int side, const void *bytes, size_t len, uint32_t answer, uint64_t id, size_t from, uint64_t why) {
  uint64_t at = SAME_ID, detail = 99;
  size_t place = SAME_FROM;
  IS(h3_read_datagram(&ends[side], bytes, len, &at, &place, &detail), answer);
  HOLDS(at == id && place == from && detail == why);
}
static void is_for(int side, const void *bytes, size_t len, uint64_t id, size_t from) { reads(side, bytes, len, H3_OK, id, from, 0); }
static void is_early(int side, const void *bytes, size_t len, uint64_t id) { reads(side, bytes, len, H3_NOT_OPEN, id, SAME_FROM, 0); }
static void is_late(int side, const void *bytes, size_t len) { reads(side, bytes, len, H3_AFTER_END, SAME_ID, SAME_FROM, 0); }
static void is_off(int side, const void *bytes, size_t len) { reads(side, bytes, len, H3_NO_DATAGRAMS, SAME_ID, SAME_FROM, 0); }
static void is_fault(int side, const void *bytes, size_t len, uint64_t code) { reads(side, bytes, len, H3_CONNECTION, SAME_ID, SAME_FROM, code); }

static void of_streams(void) {
  make(1, 1);
  carry_own();
  ask_up_to(0);
  is_early(SERVER, "\x01", 1, 4);
  ask_up_to(256);
  for (int side = 0; side < 2; side++) {
    is_for(side, "\x00\x68\x69", 3, 0, 1);
    is_for(side, "\x00", 1, 0, 1);
    is_for(side, "\x40\x00\x68", 3, 0, 2);
    is_for(side, "\x80\x00\x00\x00", 4, 0, 4);
    is_for(side, "\xc0\x00\x00\x00\x00\x00\x00\x00\x68", 9, 0, 8);
    is_for(side, "\x40\x40\x68", 3, 256, 2);
    is_for(side, "\x3f\x68", 2, 252, 1);
    is_early(side, "\xcf\xff\xff\xff\xff\xff\xff\xff", 8, FAR - 4);
    is_early(side, "\x40\x41", 2, 260);
  }
  /* the local end closes no receiving part */
  IS(h3_finish(&ends[CLIENT], 0, NULL), H3_OK);
  is_for(CLIENT, "\x00", 1, 0, 1);
  IS(h3_reset(&ends[SERVER], 4, NULL), H3_OK);
  is_for(SERVER, "\x01", 1, 4, 1);
  /* the peer's end does, its reset, and a cancellation */
  carry(CLIENT, 0);
  is_late(SERVER, "\x00", 1);
  is_for(SERVER, "\x01", 1, 4, 1);
  IS(h3_deliver_reset(&ends[SERVER], 8, 0x10c, NULL), H3_OK);
  is_late(SERVER, "\x02\x68", 2);
  IS(h3_cancel(&ends[CLIENT], 12, NULL), H3_OK);
  is_late(CLIENT, "\x03", 1);
  IS(send_list(&ends[SERVER], 0, &response), H3_OK);
  IS(h3_finish(&ends[SERVER], 0, NULL), H3_OK);
  carry(SERVER, 0);
  HOLDS(pull(CLIENT, 0).kind == H3_HEAD);
  is_late(CLIENT, "\x00", 1);
  HOLDS(pull(CLIENT, 0).kind == H3_END);
  is_late(CLIENT, "\x00", 1);
  is_for(CLIENT, "\x10", 1, 64, 1);
  drop();
}

static void of_faults(void) {
  static const struct {
    const char *bytes;
    size_t len;
  } of[] = {{"", 0}, {"\x40", 1}, {"\x80\x00", 2}, {"\xc0\x00\x00\x00\x00\x00\x00", 7}, {"\xd0\x00\x00\x00\x00\x00\x00\x00", 8},
            {"\xff\xff\xff\xff\xff\xff\xff\xff\x00", 9}};
  for (size_t i = 0; i < sizeof of / sizeof *of; i++)
    for (int side = 0; side < 2; side++) {
      make(1, 1);
      if (i % 2) carry_own(); /* before the peer's settings too */
      is_fault(side, of[i].len ? of[i].bytes : NULL, of[i].len, H3_CODE_DATAGRAM_ERROR);
      uint64_t id = 5, detail = 0;
      is_fault(side, "\x00", 1, H3_CODE_DATAGRAM_ERROR); /* from then on each call tells of it */
      no_head(side, 0, 10, H3_CLOSED, H3_CODE_DATAGRAM_ERROR);
      IS(h3_open_request(&ends[side], &id, &detail), H3_CLOSED);
      HOLDS(id == 5 && detail == H3_CODE_DATAGRAM_ERROR);
      IS(h3_deliver(&ends[side], 0, "a", 1, &detail), H3_CONNECTION);
      HOLDS(detail == H3_CODE_DATAGRAM_ERROR);
      h3_item item = pull(side, 0);
      HOLDS(item.kind == H3_FAULT_CONNECTION && item.number == H3_CODE_DATAGRAM_ERROR);
      drop();
    }
  HOLDS(!strcmp(h3_code_text(H3_CODE_DATAGRAM_ERROR), "H3_DATAGRAM_ERROR"));
  HOLDS(!strcmp(h3_answer_text(H3_NO_DATAGRAMS), "H3_NO_DATAGRAMS"));
}

/* a side announced none: whatever comes is dropped. Before the peer's settings a datagram is early, but late where nothing more comes */
static void of_settings(void) {
  for (int mine = 0; mine < 2; mine++)
    for (int theirs = 0; theirs < 2; theirs++) {
      make((uint64_t)theirs, (uint64_t)mine);
      ask_up_to(4);
      if (mine) {
        is_early(SERVER, "\x00\x68", 2, 0);
        IS(h3_deliver_reset(&ends[SERVER], 4, 0, NULL), H3_OK);
        is_late(SERVER, "\x01\x68", 2);
      } else
        is_off(SERVER, "\x00\x68", 2);
      carry_own();
      if (mine && theirs)
        is_for(SERVER, "\x00\x68", 2, 0, 1);
      else {
        is_off(SERVER, "\x00\x68", 2);
        is_off(SERVER, NULL, 0);
        is_off(SERVER, "\xd0\x00\x00\x00\x00\x00\x00\x00", 8);
        IS(h3_deliver_end(&ends[SERVER], 0, NULL), H3_OK); /* it has no fault */
      }
      drop();
    }
  /* of the setting the values 0 and 1 alone have a meaning, and 0 where it is left out (RFC 9297, section 2.1.1): 2 and none announce nothing */
  for (int is_there = 0; is_there < 2; is_there++) {
    make_end(CLIENT, 1);
    make_judging(SERVER, 1, 0);
    IS(h3_deliver(&ends[SERVER], 2, is_there ? "\x00\x04\x02\x33\x02" : "\x00\x04\x00", is_there ? 5 : 3, NULL), H3_OK);
    is_off(SERVER, "\x00\x68", 2);
    no_head(SERVER, 0, 10, H3_NO_DATAGRAMS, 0);
    drop();
  }
}

/* what one side writes the other side reads, behind any payload */
static void of_both(void) {
  make(1, 1);
  carry_own();
  ask_up_to(512);
  for (uint64_t id = 0; id <= 512; id += 4) {
    uint8_t datagram[16] = {0};
    size_t n = 0;
    int side = id % 8 == 0;
    IS(h3_datagram_head(&ends[side], id, datagram, 8, &n, NULL), H3_OK);
    memset(datagram + n, (int)id & 0xff, sizeof datagram - n);
    for (size_t len = n; len <= sizeof datagram; len++) is_for(!side, datagram, len, id, n);
  }
  uint64_t id;
  size_t n;
  IS(h3_read_datagram(&ends[CLIENT], NULL, 1, &id, &n, NULL), H3_ARGUMENT);
  IS(h3_read_datagram(&ends[CLIENT], "a", 1, NULL, &n, NULL), H3_ARGUMENT);
  IS(h3_read_datagram(&ends[CLIENT], "a", 1, &id, NULL, NULL), H3_ARGUMENT);
  drop();
}

/* ---- capsules ---- */

typedef struct {
  uint64_t parts[64][2]; /* a part, and its type; of a value each byte is one */
  size_t count;
} telling;

static void tell(telling *t, uint64_t part, uint64_t number) {
  if (t->count == 64) {
    IS(0, 1);
    return;
  }
  t->parts[t->count][0] = part;
  t->parts[t->count++][1] = number;
}

/* what a reader tells of a piece, until all of it is taken; the piece lies at the end of a block of its own size, for the sanitizers */
static void take(h3_capsule_reader *reader, const uint8_t *bytes, size_t len, telling *t) {
  for (size_t at = 0;;) {
    h3_capsule c = {9, 9, 9};
    size_t used = 99;
    IS(h3_read_capsule(reader, len == at ? NULL : bytes + at, len - at, &used, &c), H3_OK);
    HOLDS(used <= len - at);
    if (c.part == H3_CAPSULE_HEAD) tell(t, c.part, c.capsule_type << 8 | c.length);
    if (c.part == H3_CAPSULE_VALUE) {
      HOLDS(c.length == used && used > 0 && c.capsule_type == 0);
      for (size_t i = 0; i < used; i++) tell(t, c.part, bytes[at + i]);
    }
    if (c.part == H3_CAPSULE_END) {
      HOLDS(used == 0 && c.length == 0 && c.capsule_type == 0);
      tell(t, c.part, 0);
    }
    at += used;
    if (c.part == H3_CAPSULE_PENDING) {
      HOLDS(at == len);
      return;
    }
    HOLDS(c.part <= H3_CAPSULE_END);
  }
}

static int may_end(const h3_capsule_reader *reader) {
  uint32_t ends_here = 7;
  IS(h3_capsule_ends(reader, &ends_here), H3_OK);
  HOLDS(ends_here < 2);
  return ends_here == 1;
}

static const struct {
  const char *bytes;
  size_t len;
  const char *told; /* a letter each: Head, Value, End; then whether the data may end */
  uint64_t first;   /* the type and length of the first capsule */
} capsules[] = {
    {"\x00\x02hi", 4, "HVVE1", 0x0002},
    {"\x17\x00", 2, "HE1", 0x1700},
    {"\x00\x05h", 3, "HV0", 0x0005},
    {"\x68\x43\x06\x00\x00\x00\x07" "by", 9, "HVVVVVVE1", 0x284306},
    {"\x40", 1, "0", 0},
    {"", 0, "1", 0},
    {"\x17\x00\x00\x01" "a\x17", 6, "HEHVE0", 0x1700},
    {"\xc0\x00\x00\x00\x00\x00\x00\x01\xc0\x00\x00\x00\x00\x00\x00\x01z", 17, "HVE1", 0x0101},
    {"\xc0\x00\x00\x00\x00\x00\x00\x01\xc0\x00\x00\x00\x00\x00\x00", 15, "0", 0},
};

static void told_is(const telling *t, const h3_capsule_reader *reader, size_t row) {
  static const char letters[] = "?HVE";
  const char *told = capsules[row].told;
  HOLDS(t->count + 1 == strlen(told));
  for (size_t i = 0; i < t->count; i++) HOLDS(told[i] == letters[t->parts[i][0]]);
  if (t->count) HOLDS(t->parts[0][1] == capsules[row].first);
  HOLDS(may_end(reader) == (told[t->count] == '1'));
}

static void of_cuts(void) {
  for (size_t row = 0; row < sizeof capsules / sizeof *capsules; row++) {
    const uint8_t *bytes = (const uint8_t *)capsules[row].bytes;
    size_t len = capsules[row].len;
    for (size_t one = 0; one <= len; one++)
      for (size_t other = one; other <= len; other++) {
        h3_capsule_reader reader = {0};
        telling t = {.count = 0};
        take(&reader, bytes, one, &t);
        h3_capsule_reader copy = reader; /* it is plain memory */
        memset(&reader, 0xa5, sizeof reader);
        take(&copy, bytes + one, other - one, &t);
        take(&copy, bytes + other, len - other, &t);
        told_is(&t, &copy, row);
      }
    h3_capsule_reader reader = {0};
    telling t = {.count = 0};
    for (size_t at = 0; at < len; at++) take(&reader, bytes + at, 1, &t);
    told_is(&t, &reader, row);
  }
}

/* in single bytes: each answer */
static void of_single_bytes(void) {
  static const struct {
    const char *bytes;
    size_t len;
    uint64_t part, capsule_type, length;
    size_t used;
  } of[] = {{"\x00", 1, H3_CAPSULE_PENDING, 0, 0, 1}, {"\x02", 1, H3_CAPSULE_HEAD, 0, 2, 1},  {"h", 1, H3_CAPSULE_VALUE, 0, 1, 1},
            {"", 0, H3_CAPSULE_PENDING, 0, 0, 0},     {"i\x17", 2, H3_CAPSULE_VALUE, 0, 1, 1}, {"\x17", 1, H3_CAPSULE_END, 0, 0, 0},
            {"\x17\x00", 2, H3_CAPSULE_HEAD, 0x17, 0, 2}, {"", 0, H3_CAPSULE_END, 0, 0, 0},    {"", 0, H3_CAPSULE_PENDING, 0, 0, 0}};
  h3_capsule_reader reader = {0};
  for (size_t i = 0; i < sizeof of / sizeof *of; i++) {
    h3_capsule c = {9, 9, 9};
    size_t used = 99;
    IS(h3_read_capsule(&reader, of[i].bytes, of[i].len, &used, &c), H3_OK);
    HOLDS(c.part == of[i].part && c.capsule_type == of[i].capsule_type && c.length == of[i].length && used == of[i].used);
  }
  HOLDS(may_end(&reader));
}

/* a reader that no call wrote: each answer is some answer, and nothing is read or written past a buffer */
static void of_poison(void) {
  static const uint64_t numbers[] = {0, 1, 15, 16, 17, 0x2843, UINT64_C(1) << 62, UINT64_MAX, UINT64_C(0xa5a5a5a5a5a5a5a5)};
  enum { N = sizeof numbers / sizeof *numbers };
  for (size_t i = 0; i < N * N * N; i++) {
    h3_capsule_reader reader = {numbers[i % N], numbers[i / N % N], numbers[i / N / N], i % 5 ? 0 : numbers[i % 7], i % 11 ? 0 : numbers[i % 3]};
    telling t = {.count = 0};
    uint32_t ends_here = 7;
    take(&reader, (const uint8_t *)"\x00\x02hi\x17\x00", 6, &t);
    IS(h3_capsule_ends(&reader, &ends_here), H3_OK);
    HOLDS(ends_here < 2);
  }
}

static void capsule_head_is(uint64_t type, uint64_t length, const void *wanted, size_t len) {
  uint8_t buffer[20];
  size_t n = 77;
  memset(buffer, 0xa5, sizeof buffer);
  IS(h3_capsule_head(type, length, buffer, len - 1, &n), H3_ROOM);
  HOLDS(n == 77 && buffer[0] == 0xa5);
  IS(h3_capsule_head(type, length, buffer, len, &n), H3_OK);
  HOLDS(n == len && !memcmp(buffer, wanted, len));
  for (size_t i = len; i < sizeof buffer; i++) HOLDS(buffer[i] == 0xa5);
  h3_capsule_reader reader = {0}; /* it reads back */
  h3_capsule c;
  size_t used;
  IS(h3_read_capsule(&reader, buffer, len, &used, &c), H3_OK);
  HOLDS(c.part == H3_CAPSULE_HEAD && c.capsule_type == type && c.length == length && used == len);
}

static void of_capsule_heads(void) {
  uint8_t b[20];
  size_t n = 77;
  capsule_head_is(0, 2, "\x00\x02", 2);
  capsule_head_is(0x17, 0, "\x17\x00", 2);
  capsule_head_is(0x2843, 6, "\x68\x43\x06", 3);
  capsule_head_is(FAR - 1, FAR - 1, "\xff\xff\xff\xff\xff\xff\xff\xff\xff\xff\xff\xff\xff\xff\xff\xff", 16);
  IS(h3_capsule_head(FAR, 0, b, 20, &n), H3_ARGUMENT);
  IS(h3_capsule_head(0, FAR, b, 20, &n), H3_ARGUMENT);
  IS(h3_capsule_head(0, 0, NULL, 20, &n), H3_ROOM);
  HOLDS(n == 77);
  IS(h3_capsule_head(0, 0, b, 20, NULL), H3_ARGUMENT);
  h3_capsule_reader reader = {0};
  h3_capsule c = {9, 9, 9};
  uint32_t ends_here = 7;
  IS(h3_read_capsule(NULL, "a", 1, &n, &c), H3_ARGUMENT);
  IS(h3_read_capsule(&reader, NULL, 1, &n, &c), H3_ARGUMENT);
  IS(h3_read_capsule(&reader, "a", 1, NULL, &c), H3_ARGUMENT);
  IS(h3_read_capsule(&reader, "a", 1, &n, NULL), H3_ARGUMENT);
  IS(h3_capsule_ends(NULL, &ends_here), H3_ARGUMENT);
  IS(h3_capsule_ends(&reader, NULL), H3_ARGUMENT);
  HOLDS(n == 77 && c.part == 9 && ends_here == 7 && may_end(&reader));
}

int main(void) {
  add_field(&request, ":method", "GET");
  add_field(&request, ":scheme", "https");
  add_field(&request, ":authority", "a");
  add_field(&request, ":path", "/");
  add_field(&response, ":status", "200");
  of_heads();
  of_refused_heads();
  of_streams();
  of_faults();
  of_settings();
  of_both();
  of_cuts();
  of_single_bytes();
  of_poison();
  of_capsule_heads();
  if (!bad) printf("ok datagrams: RFC 9297 between two endpoints, and capsules in any cut\n");
  return bad;
}
