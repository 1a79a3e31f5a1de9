/* Bodies that the caller holds (h3_send_body_of): an endpoint that is told the lengths of its bodies, and a twin that is given the bytes
 * themselves, under random schedules of sends, partial advances, resets and small buffers. What QUIC gets of both is the same, byte by byte,
 * and so are the answers and states. One line 'ok NAME' or 'failed NAME'. Arguments: the first seed, how many schedules. */
#include <h3.h>
#include <stdio.h>
#include <stdlib.h>
#include <string.h>
#define TEST "past"
#include "expect.h"

enum { STREAMS = 4, MOST = 300, SENDS = 40, ROOM = 64 };

/* of one stream: the bodies in the order in which they were sent, and how many of their bytes QUIC has of the endpoint that does not get them */
typedef struct {
  uint8_t body[MOST * SENDS];
  size_t len, held_until[SENDS], held_from[SENDS], count, at; /* held_from[i] to held_until[i]: the bytes of the i-th body that is held */
  int is_reset;
} stream;

static h3_endpoint told, given;
static stream streams[STREAMS];
static uint32_t state;

static uint32_t draw(uint32_t below) {
  state ^= state << 13, state ^= state >> 17, state ^= state << 5;
  return state % below;
}

static h3_endpoint client(void) {
  h3_endpoint e = H3_NONE_YET;
  h3_config c;
  h3_config_default(&c);
  c.strict = 0;
  IS(h3_new(&e, &c, NULL), H3_OK);
  return e;
}

static void same_state(uint64_t id) {
  h3_stream_state a, b;
  IS(h3_stream(&told, id, &a), H3_OK);
  IS(h3_stream(&given, id, &b), H3_OK);
  HOLDS(!memcmp(&a, &b, sizeof a));
}

/* a body: bytes to one of them, and its length or, some of them, its bytes to the other */
static void send(int i) {
  stream *s = &streams[i];
  size_t len = draw(8) ? draw(40) : draw(MOST);
  uint64_t a = 0, b = 0;
  if (s->count == SENDS) return;
  uint8_t *bytes = s->body + s->len;
  for (size_t k = 0; k < len; k++) bytes[k] = (uint8_t)(draw(4) ? draw(256) : 0);
  uint32_t wanted = h3_send_body(&given, 4 * (uint64_t)i, bytes, len, &b);
  int is_held = draw(3) > 0;
  uint32_t answer = is_held ? h3_send_body_of(&told, 4 * (uint64_t)i, len, &a) : h3_send_body(&told, 4 * (uint64_t)i, bytes, len, &a);
  HOLDS(answer == wanted && (answer == H3_OK || a == b));
  if (answer != H3_OK || !is_held || !len) return;
  s->held_from[s->count] = s->len, s->held_until[s->count] = s->len + len, s->count++, s->len += len;
}

/* the next bytes of the payloads that the caller holds: a payload is never told beyond its end */
static const uint8_t *held(stream *s, size_t past) {
  if (s->at == s->count) return NULL;
  HOLDS(past == s->held_until[s->at] - s->held_from[s->at]);
  return s->body + s->held_from[s->at];
}

static void take_held(stream *s, size_t n) {
  if (!n) return;
  s->held_from[s->at] += n;
  if (s->held_from[s->at] == s->held_until[s->at]) s->at++;
}

/* Some of what waits goes to QUIC, as the next bytes of both: the twin's are copied, all of them. */
static void carry(int i, size_t room) {
  static uint8_t all[MOST * SENDS * 2];
  uint8_t front[ROOM + 1], wire[ROOM + MOST];
  stream *s = &streams[i];
  size_t n = 99, past = 99, whole = 0, twin_past = 99, k;
  uint32_t fin = 9, twin_fin = 9;
  uint64_t id = 4 * (uint64_t)i;
  memset(front, 0xa5, sizeof front);
  IS(h3_outgoing(&told, id, front, room, &n, &past, &fin), H3_OK);
  IS(h3_outgoing(&given, id, all, sizeof all, &whole, &twin_past, &twin_fin), H3_OK);
  HOLDS(n <= room && twin_past == 0 && n + past <= whole);
  for (k = n; k < sizeof front; k++) HOLDS(front[k] == 0xa5);
  memcpy(wire, front, n);
  if (past) {
    const uint8_t *bytes = held(s, past);
    HOLDS(bytes != NULL);
    if (!bytes) return;
    memcpy(wire + n, bytes, past);
  }
  HOLDS(!memcmp(wire, all, n + past));
  HOLDS(fin == (twin_fin && n + past == whole));
  HOLDS(past || n == room || n == whole); /* nothing stops it but a payload, the buffer and the end */
  if (!past && n < whole) {               /* the next one is no byte of a payload that is held: it fits into a larger buffer */
    size_t more = 0, behind = 0;
    IS(h3_outgoing(&told, id, front, n + 1, &more, &behind, NULL), H3_OK);
    HOLDS(more == n + 1);
  }
  size_t count = draw(3) ? n + past : draw((uint32_t)(n + past) + 1);
  IS(h3_advance(&told, id, count), H3_OK);
  IS(h3_advance(&given, id, count), H3_OK);
  take_held(s, count > n ? count - n : 0);
  same_state(id);
  if (fin && count == n + past && draw(2)) {
    uint32_t wanted = h3_end_taken(&given, id);
    IS(h3_end_taken(&told, id), wanted);
  }
}

static void end(int i) {
  uint64_t a = 0, b = 0, id = 4 * (uint64_t)i;
  uint32_t what = draw(8);
  uint32_t (*const call)(h3_endpoint *, uint64_t, uint64_t *) = what ? h3_finish : h3_reset;
  uint32_t wanted = call(&given, id, &b);
  IS(call(&told, id, &a), wanted);
  if (!what && wanted == H3_OK) streams[i].at = streams[i].count = 0, streams[i].is_reset = 1;
  same_state(id);
}

static void schedule(uint32_t seed) {
  static const h3_field_size get[] = {{7, 3}};
  uint64_t id, next[2];
  state = seed * 2654435761u + 1;
  memset(streams, 0, sizeof streams);
  told = client(), given = client();
  for (int i = 0; i < STREAMS; i++) {
    IS(h3_open_request(&told, &id, NULL), H3_OK);
    IS(h3_open_request(&given, &id, NULL), H3_OK);
    if (i == 3) continue; /* no head: a body is refused */
    IS(h3_send_head(&told, id, get, NULL, 1, ":methodGET", 10, NULL), H3_OK);
    IS(h3_send_head(&given, id, get, NULL, 1, ":methodGET", 10, NULL), H3_OK);
  }
  for (int k = 0; k < 120; k++) {
    int i = (int)draw(STREAMS);
    uint32_t what = draw(100);
    if (what < 45) send(i);
    else if (what < 97) carry(i, draw(4) ? draw(12) : draw(ROOM + 1));
    else end(i);
    next[0] = next[1] = 99;
    IS(h3_next_to_send(&told, 0, &next[0]), h3_next_to_send(&given, 0, &next[1]));
    HOLDS(next[0] == next[1]);
  }
  for (int i = 0; i < STREAMS; i++)
    for (h3_stream_state s; h3_stream(&told, 4 * (uint64_t)i, &s) == H3_OK && s.waiting && !bad;) carry(i, 1 + draw(ROOM));
  h3_free(&told);
  h3_free(&given);
}

/* RFC 9114, section 7.1: type 0, a length of one to eight bytes (RFC 9000, section 16), and the payload, which is the caller's */
static void of_lengths(void) {
  static const struct {
    size_t len, head;
    const char *bytes;
  } rows[] = {{1, 2, "\0\x01"}, {63, 2, "\0\x3f"}, {64, 3, "\0\x40\x40"}, {16383, 3, "\0\x7f\xff"}, {16384, 5, "\0\x80\0\x40\0"},
              {(1 << 30) - 1, 5, "\0\xbf\xff\xff\xff"}, {1 << 30, 9, "\0\xc0\0\0\0\x40\0\0\0"}, {(size_t)1 << 40, 9, "\0\xc0\0\x01\0\0\0\0\0"}};
  static const h3_field_size get[] = {{7, 3}};
  uint8_t buffer[16];
  size_t n, past;
  uint32_t fin;
  uint64_t id;
  told = client();
  for (size_t i = 0; i < sizeof rows / sizeof *rows; i++) {
    IS(h3_open_request(&told, &id, NULL), H3_OK);
    IS(h3_send_body_of(&told, id, rows[i].len, NULL), H3_OUT_OF_ORDER);
    IS(h3_send_head(&told, id, get, NULL, 1, ":methodGET", 10, NULL), H3_OK);
    IS(h3_advance(&told, id, 5), H3_OK);
    IS(h3_send_body_of(&told, id, 0, NULL), H3_OK);
    IS(h3_send_body_of(&told, id, rows[i].len, NULL), H3_OK);
    IS(h3_finish(&told, id, NULL), H3_OK);
    /* too small for the head of the frame: nothing of the payload may go out */
    IS(h3_outgoing(&told, id, buffer, rows[i].head - 1, &n, &past, &fin), H3_OK);
    HOLDS(n == rows[i].head - 1 && past == 0 && fin == 0 && !memcmp(buffer, rows[i].bytes, n));
    IS(h3_outgoing(&told, id, buffer, rows[i].head - 1, &n, NULL, &fin), H3_OK);
    IS(h3_outgoing(&told, id, buffer, rows[i].head, &n, &past, &fin), H3_OK);
    HOLDS(n == rows[i].head && past == rows[i].len && fin == 1 && !memcmp(buffer, rows[i].bytes, n));
    IS(h3_outgoing(&told, id, buffer, sizeof buffer, &n, NULL, &fin), H3_ARGUMENT);
    IS(h3_advance(&told, id, rows[i].head + rows[i].len - 1), H3_OK);
    IS(h3_outgoing(&told, id, NULL, 0, &n, &past, &fin), H3_OK);
    HOLDS(n == 0 && past == 1 && fin == 1);
    IS(h3_advance(&told, id, 2), H3_ARGUMENT);
    IS(h3_advance(&told, id, 1), H3_OK);
    IS(h3_outgoing(&told, id, buffer, sizeof buffer, &n, NULL, &fin), H3_OK);
    HOLDS(n == 0 && fin == 1);
  }
  h3_free(&told);
}

/* `strict`: the bytes that are announced count as those that content-length says (RFC 9114, section 4.1.2) */
static void of_content(void) {
  static const char list[] = ":methodPOST:schemehttps:authoritya:path/content-length5";
  static const h3_field_size sizes[] = {{7, 4}, {7, 5}, {10, 1}, {5, 1}, {14, 1}};
  h3_config c;
  uint64_t id;
  h3_config_default(&c);
  told = (h3_endpoint)H3_NONE_YET;
  IS(h3_new(&told, &c, NULL), H3_OK);
  IS(h3_open_request(&told, &id, NULL), H3_OK);
  IS(h3_send_head(&told, id, sizes, NULL, 5, list, sizeof list - 1, NULL), H3_OK);
  IS(h3_send_body_of(&told, id, 6, NULL), H3_MALFORMED);
  IS(h3_send_body_of(&told, id, 3, NULL), H3_OK);
  IS(h3_finish(&told, id, NULL), H3_MALFORMED);
  IS(h3_send_body_of(&told, id, 3, NULL), H3_MALFORMED);
  IS(h3_send_body_of(&told, id, 2, NULL), H3_OK);
  IS(h3_finish(&told, id, NULL), H3_OK);
  IS(h3_send_body_of(&told, id, 1, NULL), H3_OUT_OF_ORDER);
  h3_free(&told);
}

int main(int count, char **words) {
  uint32_t first = count > 1 ? (uint32_t)strtoul(words[1], NULL, 10) : 1, many = count > 2 ? (uint32_t)strtoul(words[2], NULL, 10) : 2000;
  of_lengths();
  of_content();
  for (uint32_t seed = first; seed < first + many && !bad; seed++) {
    schedule(seed);
    if (bad) printf("failed past: schedule %u\n", seed);
  }
  if (!bad) printf("ok past: %u schedules of bodies that the caller holds send the bytes of a twin that copies them\n", many);
  return bad;
}
