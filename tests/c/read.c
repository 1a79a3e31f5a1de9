/* h3_read against h3_deliver, h3_deliver_end and h3_pull: two servers get the same bytes of a request stream in the same cuts, one by each way,
 * and answer the same items with the same bytes, and stand alike. Each cut is given in memory of its own, which is overwritten and freed as soon as
 * h3_read returns. The messages are random: frames of each kind, whole, cut short and damaged, insertions that come late, and ends. One line 'ok NAME'
 * or 'failed NAME'. Arguments: the first seed, and how many. */
#include <h3.h>
#include <stdio.h>
#include <stdlib.h>
#include <string.h>
#define TEST "read"
#include "expect.h"
#include "field_list.h"

enum { READS, PULLS, MOST_LOG = 1 << 20 };

static uint64_t state;

static uint32_t below(uint32_t count) {
  state = state * 6364136223846793005u + 1442695040888963407u;
  return (uint32_t)(state >> 33) % count;
}

/* what came out of a side: kinds, numbers, fields and bytes of bodies, pieces that follow one another joined */
typedef struct {
  h3_endpoint end;
  uint8_t log[MOST_LOG];
  size_t len, body_at;
  int in_body;
} side;

static side sides[2];
static unsigned long given_pieces, kept_pieces, heads, waits, faults, ends;

static void put(side *s, const void *bytes, size_t len) {
  if (s->len + len > MOST_LOG) {
    puts("failed " TEST ": a log of the program itself is too long");
    exit(1);
  }
  memcpy(s->log + s->len, bytes, len);
  s->len += len;
}

static void put_item(side *s, const h3_item *item) {
  put(s, "|", 1);
  put(s, &item->kind, sizeof item->kind);
  put(s, &item->status, sizeof item->status);
  put(s, &item->number, sizeof item->number);
  put(s, &item->fields, sizeof item->fields);
}

static void put_body(side *s, const void *bytes, size_t len) {
  if (!s->in_body) {
    s->body_at = s->len;
    put(s, "|B", 2);
  }
  s->in_body = 1;
  put(s, bytes, len);
}

/* an item that the endpoint holds; the answer: whether another one may follow */
static int take(side *s, const h3_item *item) {
  static h3_field_size sizes[MOST_FIELDS];
  static uint8_t bytes[MOST_BYTES];
  size_t n = 0;
  if (item->kind == H3_BODY) {
    if (item->len) IS(h3_item_bytes(&s->end, 0, bytes, item->len, &n), H3_OK);
    HOLDS(n == item->len);
    put_body(s, bytes, n);
    return 1;
  }
  if (item->kind == H3_PENDING) return 0;
  /* a payload that the end cuts short: how much of it came out before the fault rests on when the end came (RFC 9114, section 7.1) */
  if (item->kind == H3_FAULT_CONNECTION && item->number == H3_CODE_FRAME_ERROR && s->in_body) s->len = s->body_at;
  s->in_body = 0;
  put_item(s, item);
  if (item->fields) {
    IS(h3_item_fields(&s->end, sizes, NULL, item->fields, bytes, item->len), H3_OK);
    put(s, sizes, item->fields * sizeof *sizes);
    put(s, bytes, item->len);
  }
  if (item->kind == H3_RAW) {
    IS(h3_item_bytes(&s->end, 0, bytes, item->len, &n), H3_OK);
    put(s, bytes, n);
  }
  return item->kind < H3_END;
}

static void told(side *s, uint32_t answer, uint64_t detail) {
  put(s, "|!", 2);
  put(s, &answer, sizeof answer);
  put(s, &detail, sizeof detail);
}

/* bytes and perhaps the end come to the side that reads; it has no use of them after the call */
static void by_read(const uint8_t *bytes, size_t len, int fin) {
  side *s = &sides[READS];
  size_t at = 0, used = 0;
  int is_pause = 0; /* the next item is a pause: a body took all bytes, and no end comes */
  for (;;) {
    h3_item item;
    uint64_t detail = 0;
    uint8_t *given = malloc(len - at + 1);
    if (!given) exit(1);
    memcpy(given, bytes + at, len - at);
    uint32_t answer = h3_read(&s->end, 0, len - at ? given : NULL, len - at, fin, &used, &item, &detail);
    memset(given, 0xee, len - at + 1);
    free(given);
    HOLDS(used <= len - at);
    if (answer != H3_OK) {
      told(s, answer, detail);
      return;
    }
    if (item.kind == H3_BODY_GIVEN) {
      size_t n = 1;
      given_pieces++;
      HOLDS(item.len > 0 && item.number + item.len == used && used <= len - at && item.status == 0 && item.fields == 0);
      put_body(s, bytes + at + item.number, item.len);
      IS(h3_item_bytes(&s->end, 0, NULL, 0, &n), H3_NONE);
      is_pause = at + used == len && !fin;
      if (is_pause && below(2)) return; /* half of the time nobody asks */
    } else {
      if (is_pause) HOLDS(item.kind == H3_PENDING);
      if (item.kind == H3_BODY) kept_pieces++;
      if (item.kind == H3_HEAD || item.kind == H3_TRAILER) heads++;
      if (item.kind == H3_WAITING) waits++;
      if (item.kind > H3_NO_MESSAGES) faults++;
      if (item.kind == H3_END) ends++;
      if (!take(s, &item)) {
        if (item.kind == H3_PENDING || item.kind == H3_WAITING) HOLDS(at + used == len);
        return;
      }
    }
    at += used;
  }
}

static void pull_all(side *s) {
  h3_item item;
  do IS(h3_pull(&s->end, 0, &item), H3_OK);
  while (take(s, &item));
}

static void by_pull(const uint8_t *bytes, size_t len, int fin) {
  side *s = &sides[PULLS];
  uint64_t detail = 0;
  uint32_t answer = len ? h3_deliver(&s->end, 0, bytes, len, &detail) : H3_OK;
  if (answer == H3_OK && fin) answer = h3_deliver_end(&s->end, 0, &detail);
  if (answer == H3_AFTER_END && !len) answer = H3_OK; /* it came before */
  if (answer != H3_OK) {
    told(s, answer, detail);
    return;
  }
  pull_all(s);
}

/* both sides stand alike, and said the same */
static void alike(void) {
  h3_stream_state stream[2];
  h3_state connection[2];
  static uint8_t replies[2][4096];
  size_t n[2];
  memset(stream, 0, sizeof stream);
  memset(connection, 0, sizeof connection);
  for (int i = 0; i < 2; i++) {
    IS(h3_stream(&sides[i].end, 0, &stream[i]), H3_OK);
    IS(h3_connection(&sides[i].end, &connection[i]), H3_OK);
    IS(h3_outgoing(&sides[i].end, h3_decoder_id(1), replies[i], sizeof replies[i], &n[i], NULL, NULL), H3_OK);
  }
  HOLDS(!memcmp(&stream[0], &stream[1], sizeof *stream));
  HOLDS(!memcmp(&connection[0], &connection[1], sizeof *connection));
  HOLDS(n[0] == n[1] && !memcmp(replies[0], replies[1], n[0]));
  HOLDS(sides[0].len == sides[1].len && !memcmp(sides[0].log, sides[1].log, sides[0].len));
}

/* a message: its bytes on stream 0, and what its sender's encoder says beside it */
static uint8_t message[1 << 18];
static size_t message_len;

static void add(const void *bytes, size_t len) {
  if (message_len + len > sizeof message) return;
  memcpy(message + message_len, bytes, len);
  message_len += len;
}

static void add_number(uint64_t number) { /* in one of its forms (RFC 9000, section 16) */
  uint8_t b[8];
  uint32_t form = below(4);
  if (number > 63 && form == 0) form = 1;
  if (number > 16383 && form < 2) form = 2;
  size_t len = (size_t)1 << form;
  for (size_t i = 0; i < len; i++) b[i] = (uint8_t)(number >> 8 * (len - 1 - i));
  b[0] |= (uint8_t)(form << 6);
  add(b, len);
}

static void add_payload(size_t len) {
  for (uint8_t b; len > 0; len--) {
    b = (uint8_t)below(256);
    add(&b, 1);
  }
}

static size_t random_size(void) {
  static const size_t sizes[] = {0, 1, 2, 63, 64, 100, 1200, 5000};
  return below(2) ? sizes[below(8)] : below(40);
}

static void add_frame(uint64_t kind) {
  size_t len = random_size();
  add_number(kind);
  add_number(len);
  add_payload(len);
}

/* what the client writes of a section goes into the message as it is */
static void add_own(h3_endpoint *client) {
  uint8_t buffer[4096];
  size_t n;
  do {
    IS(h3_outgoing(client, 0, buffer, sizeof buffer, &n, NULL, NULL), H3_OK);
    add(buffer, n);
    IS(h3_advance(client, 0, n), H3_OK);
  } while (n);
}

static void add_message(h3_endpoint *client) {
  static const char *const lengths[] = {"0", "5", "100", "1300"};
  static field_list list;
  begin_request(&list, below(8) ? "POST" : "HEAD");
  if (!below(4)) add_field(&list, "content-length", lengths[below(4)]);
  for (uint32_t i = below(4); i > 0; i--) add_field(&list, i & 1 ? "x-name" : "x-other", "a value that is inserted");
  if (!below(20)) add_frame(0x21);
  if (!below(40)) add_frame(0);
  send_list(client, 0, &list);
  add_own(client);
  for (uint32_t i = below(8); i > 0; i--) {
    uint32_t what = below(20);
    if (what < 14) add_frame(0);
    else if (what < 18) add_frame(0x21 + 31 * (uint64_t)below(3));
    else if (what == 18 && !below(3)) add_frame(7);
    else add_frame(0x4040);
  }
  if (!below(3)) {
    list.count = list.len = 0;
    add_field(&list, "x-checksum", "a value that is inserted too");
    h3_send_trailer(client, 0, list.sizes, NULL, list.count, list.bytes, list.len, NULL);
    add_own(client);
    if (!below(6)) add_frame(0);
  }
  if (!below(10) && message_len) message[below((uint32_t)message_len)] ^= (uint8_t)(1 << below(8));
  if (!below(10) && message_len) message_len = below((uint32_t)message_len);
}

static void begin(h3_endpoint *client) {
  h3_config c;
  uint64_t id;
  uint8_t buffer[4096];
  size_t n;
  h3_config_default(&c);
  IS(h3_new(client, &c, NULL), H3_OK);
  h3_config_default(&c);
  c.server = 1;
  c.strict = below(2);
  if (!below(4)) {
    c.max_field_section_size = 300;
    c.table = 220;
    c.unfinished_limit = 1200;
  }
  for (int i = 0; i < 2; i++) {
    IS(h3_new(&sides[i].end, &c, NULL), H3_OK);
    sides[i].len = 0;
    sides[i].in_body = 0;
  }
  IS(h3_outgoing(&sides[0].end, h3_control_id(1), buffer, sizeof buffer, &n, NULL, NULL), H3_OK);
  IS(h3_deliver(client, h3_control_id(1), buffer, n, NULL), H3_OK);
  IS(h3_open_request(client, &id, NULL), H3_OK);
  message_len = 0;
}

/* the insertions come, and both sides go on */
static void insert(h3_endpoint *client) {
  uint8_t buffer[4096];
  size_t n;
  IS(h3_outgoing(client, h3_encoder_id(0), buffer, sizeof buffer, &n, NULL, NULL), H3_OK);
  if (!n) return;
  IS(h3_advance(client, h3_encoder_id(0), n), H3_OK);
  for (int i = 0; i < 2; i++) {
    uint64_t detail = 0;
    uint32_t answer = h3_deliver(&sides[i].end, h3_encoder_id(0), buffer, n, &detail);
    if (answer != H3_OK) told(&sides[i], answer, detail);
  }
  by_read((const uint8_t *)"", 0, 0);
  by_pull((const uint8_t *)"", 0, 0);
  alike();
}

static void one(uint64_t seed) {
  h3_endpoint client = H3_NONE_YET;
  state = seed * 2654435761u + 1;
  for (int i = 0; i < 4; i++) below(2);
  begin(&client);
  add_message(&client);
  static const uint32_t most[] = {1, 3, 20, 200, 1200, 65536};
  uint32_t cut = most[below(6)], when = below(3);
  if (when == 0) insert(&client);
  for (size_t at = 0; at <= message_len && !bad;) {
    size_t len = 1 + below(cut);
    if (len > message_len - at) len = message_len - at;
    int fin = at + len == message_len && below(4) > 0;
    by_read(message + at, len, fin);
    by_pull(message + at, len, fin);
    alike();
    if (when == 1 && !below(5)) insert(&client);
    at += len;
    if (at == message_len) break;
  }
  if (when == 2) insert(&client);
  if (!below(8)) { /* the end comes alone, perhaps once more; or what comes after a reset */
    if (!below(2)) for (int i = 0; i < 2; i++) h3_deliver_reset(&sides[i].end, 0, 7, NULL);
    by_read((const uint8_t *)"", 0, 1);
    by_pull((const uint8_t *)"", 0, 1);
    alike();
  }
  if (bad) printf("failed " TEST ": seed %lu\n", (unsigned long)seed);
  h3_free(&client);
  for (int i = 0; i < 2; i++) h3_free(&sides[i].end);
}

/* a body in a packet with its head: RFC 9114, section 7.2, and RFC 9204, appendix A */
static void places(void) {
  static const uint8_t packet[] = "\x01\x07\x00\x00\xd1\xd7\x50\x01" "a" "\x00\x05" "he" ;
  h3_endpoint server = H3_NONE_YET;
  h3_config c;
  h3_item item;
  size_t used = 9;
  h3_config_default(&c);
  c.server = 1;
  c.strict = 0;
  c.blocked = 0; /* no header section may wait, and none does */
  IS(h3_read(&server, 0, packet, 13, 0, &used, &item, NULL), H3_NO_ENDPOINT);
  IS(h3_new(&server, &c, NULL), H3_OK);
  IS(h3_read(&server, (uint64_t)1 << 62, packet, 13, 0, &used, &item, NULL), H3_ARGUMENT);
  HOLDS(used == 0);
  IS(h3_read(&server, 0, NULL, 1, 0, &used, &item, NULL), H3_ARGUMENT);
  IS(h3_read(&server, 0, packet, 13, 0, &used, &item, NULL), H3_OK);
  HOLDS(used == 9 && item.kind == H3_HEAD && item.fields == 3);
  IS(h3_read(&server, 0, packet + 9, 4, 0, &used, &item, NULL), H3_OK);
  HOLDS(used == 4 && item.kind == H3_BODY_GIVEN && item.number == 2 && item.len == 2);
  IS(h3_item_fields(&server, NULL, NULL, 0, NULL, 0), H3_OK);
  IS(h3_read(&server, 0, "llo\x21\x01x\x00\x01y", 9, 1, &used, &item, NULL), H3_OK);
  HOLDS(used == 3 && item.kind == H3_BODY_GIVEN && item.number == 0 && item.len == 3);
  IS(h3_read(&server, 0, "\x21\x01x\x00\x01y", 6, 1, &used, &item, NULL), H3_OK);
  HOLDS(used == 6 && item.kind == H3_BODY_GIVEN && item.number == 5 && item.len == 1);
  IS(h3_read(&server, 0, NULL, 0, 1, &used, &item, NULL), H3_OK);
  HOLDS(used == 0 && item.kind == H3_END);
  IS(h3_read(&server, 0, NULL, 0, 1, &used, &item, NULL), H3_OK);
  HOLDS(used == 0 && item.kind == H3_END);
  IS(h3_read(&server, 0, "x", 1, 0, &used, &item, NULL), H3_AFTER_END);
  HOLDS(used == 0);
  /* the end came within a payload */
  IS(h3_read(&server, 4, packet, 13, 0, &used, &item, NULL), H3_OK);
  IS(h3_read(&server, 4, packet + 9, 4, 0, &used, &item, NULL), H3_OK);
  HOLDS(used == 4 && item.kind == H3_BODY_GIVEN);
  IS(h3_deliver_end(&server, 4, NULL), H3_OK);
  IS(h3_read(&server, 4, "llo", 3, 0, &used, &item, NULL), H3_AFTER_END);
  HOLDS(used == 0);
  /* the type of DATA came before: it has the length 0, and after it come the type and length of HEADERS */
  IS(h3_read(&server, 8, packet, 9, 0, &used, &item, NULL), H3_OK);
  IS(h3_read(&server, 8, "\x00", 1, 0, &used, &item, NULL), H3_OK);
  HOLDS(used == 1 && item.kind == H3_PENDING);
  IS(h3_read(&server, 8, "\x00\x01\x61", 3, 0, &used, &item, NULL), H3_OK);
  HOLDS(used == 3 && item.kind == H3_PENDING);
  h3_free(&server);
}

/* A unidirectional stream has no messages: what comes is delivered, all of it. Here SETTINGS and two GOAWAY frames (RFC 9114, sections 7.2.4
 * and 7.2.6). */
static void control(void) {
  h3_endpoint client = H3_NONE_YET;
  h3_config c;
  h3_item item;
  h3_state told;
  size_t used;
  h3_config_default(&c);
  IS(h3_new(&client, &c, NULL), H3_OK);
  IS(h3_read(&client, 3, "\x00\x04\x00\x07\x01\x08\x07\x01\x04", 9, 0, &used, &item, NULL), H3_OK);
  HOLDS(used == 9 && item.kind == H3_NO_MESSAGES);
  IS(h3_connection(&client, &told), H3_OK);
  HOLDS(told.has_goaway && told.goaway == 4);
  h3_free(&client);
}

int main(int argc, char **argv) {
  uint64_t first = argc > 1 ? strtoull(argv[1], NULL, 10) : 0, count = argc > 2 ? strtoull(argv[2], NULL, 10) : 1000;
  places();
  control();
  for (uint64_t seed = first; seed < first + count && !bad; seed++) one(seed);
  if (count >= 1000) HOLDS(given_pieces && kept_pieces && heads && waits && faults && ends);
  if (!bad)
    printf("ok " TEST ": %lu pieces of bodies lay in the bytes that were given, %lu were kept; %lu sections, %lu waits, %lu faults, %lu ends\n",
           given_pieces, kept_pieces, heads, waits, faults, ends);
  return bad;
}
