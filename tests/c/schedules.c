/* A client and a server in one program under random schedules: opens, heads, bodies, trailers, ends, resets, cancellations, bytes carried in random
 * pieces, pulls. Every item is compared with what was sent; no call may answer a fault of the connection. At the end everything that was
 * neither reset nor canceled has come out whole. Half of what comes on request streams is read where it lies, each time in a block of its own,
 * which is overwritten and freed as soon as h3_read returns.
 *
 *     schedules FIRST_SEED COUNT */
#include "h3.h"
#include <stdio.h>
#include <stdlib.h>
#include <string.h>

#include "one_by_one.h"

enum { REQUESTS = 12, BODY = 6000, FIELDS = 10 };

static uint64_t seed, state;

static uint32_t rnd(uint32_t below) {
  state = state * UINT64_C(6364136223846793005) + UINT64_C(1442695040888963407);
  return (uint32_t)(state >> 33) % below;
}

static void fail(const char *what, uint64_t id, uint64_t number) {
  printf("failed schedules: seed %llu: %s, stream %llu, %llu\n", (unsigned long long)seed, what, (unsigned long long)id, (unsigned long long)number);
  exit(1);
}
#define WANT(test, what, id, number) \
  do { \
    if (!(test)) fail(what, id, number); \
  } while (0)

/* fields as h3_send_head takes them */
typedef struct {
  h3_field_size sizes[FIELDS];
  size_t count, len;
  uint8_t bytes[1024];
} list;

static void add(list *l, const char *name, const char *value) {
  size_t n = strlen(name), v = strlen(value);
  memcpy(l->bytes + l->len, name, n);
  memcpy(l->bytes + l->len + n, value, v);
  l->len += n + v;
  l->sizes[l->count++] = (h3_field_size){(uint32_t)n, (uint32_t)v};
}

static void add_random(list *l, unsigned count) {
  char name[32], value[64];
  for (unsigned i = 0; i < count; i++) {
    snprintf(name, sizeof name, "x-%c%u", (int)('a' + rnd(3)), i);
    snprintf(value, sizeof value, "%0*u", (int)(1 + rnd(30)), rnd(4));
    add(l, name, value);
  }
}

/* one direction of an exchange: what was sent, and what came out */
typedef struct {
  list head, trailer;
  uint8_t body[BODY];
  size_t body_len, body_out;
  int head_sent, trailer_sent, finished, reset;      /* at the sender */
  int takes_no_trailer;                              /* a 2xx response to a request whose head was not pulled */
  int head_out, trailer_out, end_out, fin_given, reset_given, canceled, faulty; /* at the receiver */
  int end_said; /* h3_end_taken was */
} flow;

static h3_endpoint ends[2]; /* the client, the server */
static flow flows[REQUESTS][2];
static int opened, seen[REQUESTS];

static int is_memory_aside(uint32_t n) { return n == H3_OK; }

static uint64_t unread(int side, uint64_t id) {
  h3_stream_state s;
  WANT(h3_stream(&ends[side], id, &s) == H3_OK, "stream", id, 0);
  return s.unread;
}

static unsigned long given; /* pieces of bodies that lay in the bytes that were given to h3_read */

static void open_one(void) {
  uint64_t id;
  if (opened == REQUESTS) return;
  WANT(h3_open_request(&ends[0], &id, NULL) == H3_OK && id == 4u * (unsigned)opened, "open", id, 0);
  opened++;
}

static void send_some(int side) {
  if (!opened) return;
  int i = (int)rnd((uint32_t)opened);
  uint64_t id = 4u * (unsigned)i, detail;
  flow *f = &flows[i][side];
  if ((side && !seen[i]) || f->finished || f->reset) return;
  uint32_t n;
  if (!f->head_sent) {
    list *l = &f->head;
    if (side) add(l, ":status", rnd(2) ? "200" : "404");
    else {
      add(l, ":method", rnd(2) ? "GET" : "POST");
      add(l, ":scheme", "https");
      add(l, ":authority", rnd(2) ? "localhost" : "www.example.com");
      add(l, ":path", rnd(2) ? "/" : "/index.html");
    }
    add_random(l, rnd(5));
    n = h3_send_head(&ends[side], id, l->sizes, NULL, l->count, l->bytes, l->len, &detail);
    WANT(is_memory_aside(n), "send_head", id, n);
    f->head_sent = 1;
    f->takes_no_trailer = side && l->bytes[7] == '2' && !flows[i][0].head_out;
  } else if (rnd(4) && !f->trailer_sent) {
    size_t len = rnd(1200);
    if (len > BODY - f->body_len) len = BODY - f->body_len;
    for (size_t k = 0; k < len; k++) f->body[f->body_len + k] = (uint8_t)rnd(256);
    n = h3_send_body(&ends[side], id, f->body + f->body_len, len, &detail);
    WANT(n == H3_OK, "send_body", id, n);
    f->body_len += len;
  } else if (rnd(3) == 0 && !f->trailer_sent) {
    add_random(&f->trailer, 1 + rnd(3));
    n = h3_send_trailer(&ends[side], id, f->trailer.sizes, NULL, f->trailer.count, f->trailer.bytes, f->trailer.len, &detail);
    WANT(f->takes_no_trailer ? n == H3_MALFORMED && detail == H3_BAD_CONNECT : n == H3_OK, "send_trailer", id, n);
    f->trailer_sent = n == H3_OK;
    if (!f->trailer_sent) f->trailer = (list){0};
  } else {
    n = h3_finish(&ends[side], id, &detail);
    WANT(n == H3_OK, "finish", id, n);
    f->finished = 1;
  }
}

static void reset_one(int side) {
  if (!opened) return;
  int i = (int)rnd((uint32_t)opened);
  flow *f = &flows[i][side];
  if ((side && !seen[i]) || f->reset || f->fin_given) return;
  uint32_t n = h3_reset(&ends[side], 4u * (unsigned)i, NULL);
  /* refused only where all of it was sent */
  WANT(n == H3_OK || (n == H3_ENDED && f->finished), "reset", 4u * (unsigned)i, n);
  if (n == H3_OK) f->reset = 1;
}

static void cancel_one(int side) {
  if (!opened) return;
  int i = (int)rnd((uint32_t)opened);
  flow *f = &flows[i][!side];
  if (side && !seen[i]) return;
  uint32_t n = h3_cancel(&ends[side], 4u * (unsigned)i, NULL);
  WANT(n == H3_OK || (n == H3_ENDED && (f->end_out || f->canceled || f->faulty || f->reset_given)), "cancel", 4u * (unsigned)i, n);
  if (n == H3_OK) f->canceled = 1;
}

/* what h3_next_to_send answers is what the streams' states say: it names ends too, until h3_end_taken */
static void check_ends(int side) {
  uint64_t next = 0, id = 0;
  for (id = 0; id < 4u * REQUESTS + 12; id++) {
    h3_stream_state s;
    WANT(h3_stream(&ends[side], id, &s) == H3_OK, "stream", id, 0);
    if (!s.waiting && (!s.is_finished || flows[id / 4][side].end_said)) continue;
    uint64_t found = 0;
    uint32_t n = h3_next_to_send(&ends[side], next, &found);
    WANT(n == H3_OK && found == id, "next_to_send", id, found);
    next = id + 1;
  }
  WANT(h3_next_to_send(&ends[side], next, &id) == H3_NONE, "next_to_send finds one too many", next, id);
}

static void same_fields(int side, uint64_t id, const h3_item *item, const list *l) {
  const uint8_t *at = l->bytes;
  WANT(item->fields == l->count, "another number of fields", id, item->fields);
  for (size_t i = 0; i < l->count; i++) {
    const uint8_t *name, *value;
    size_t nl, vl;
    uint32_t n = field_at(&ends[side], item, i, &name, &nl, &value, &vl);
    WANT(n == H3_OK && nl == l->sizes[i].name && vl == l->sizes[i].value, "a field's sizes", id, i);
    WANT(!memcmp(name, at, nl) && !memcmp(value, at + nl, vl), "a field's bytes", id, i);
    at += nl + vl;
  }
}

static void same_body(flow *f, uint64_t id, const uint8_t *bytes, size_t len) {
  WANT(f->head_out && !f->trailer_out && len && len <= f->body_len - f->body_out, "a body", id, len);
  WANT(!memcmp(bytes, f->body + f->body_out, len), "another body", id, f->body_out);
  f->body_out += len;
}

/* An item came, which lies in `bytes` if it is a piece of a body there. The answer: whether another one may follow. */
static int take(int side, int i, const h3_item *item, const uint8_t *bytes) {
  static uint8_t copied[BODY];
  uint64_t id = 4u * (unsigned)i;
  flow *f = &flows[i][!side];
  size_t n;
  if (f->canceled && !f->faulty) {
    WANT(item->kind == H3_FAULT_CANCELED, "a canceled stream", id, item->kind);
    return 0;
  }
  switch (item->kind) {
  case H3_HEAD:
    WANT(!f->head_out && f->head_sent, "a head", id, 0);
    same_fields(side, id, item, &f->head);
    WANT(item->status == (side ? 0u : f->head.bytes[7] == '2' ? 200u : 404u), "a status", id, item->status);
    f->head_out = 1;
    return 1;
  case H3_BODY:
    WANT(h3_item_bytes(&ends[side], 0, copied, item->len, &n) == H3_OK && n == item->len, "a body's bytes", id, n);
    same_body(f, id, copied, n);
    return 1;
  case H3_BODY_GIVEN:
    given++;
    same_body(f, id, bytes + item->number, item->len);
    return 1;
  case H3_TRAILER:
    WANT(f->head_out && f->trailer_sent && !f->trailer_out && f->body_out == f->body_len, "a trailer", id, 0);
    same_fields(side, id, item, &f->trailer);
    f->trailer_out = 1;
    return 1;
  case H3_END:
    WANT(f->fin_given && f->head_out && f->body_out == f->body_len && f->trailer_out == f->trailer_sent, "an end", id, 0);
    f->end_out = 1;
    return 0;
  case H3_PENDING:
  case H3_WAITING: return 0;
  case H3_FAULT_RESET:
    WANT(f->reset_given && item->number == 77, "a reset", id, item->number);
    f->faulty = 1;
    return 0;
  default: fail("an item of another kind", id, item->kind);
  }
  return 0;
}

static int pull_one(int side, int i) {
  uint64_t id = 4u * (unsigned)i, held = unread(side, id);
  h3_item item;
  WANT(h3_pull(&ends[side], id, &item) == H3_OK, "pull", id, 0);
  WANT(item.kind < H3_END ? unread(side, id) < held : unread(side, id) <= held, "unread behind a pull", id, held);
  WANT(item.kind != H3_BODY || unread(side, id) + item.len <= held, "unread behind a body", id, held);
  WANT(item.kind != H3_BODY_GIVEN, "a body that nobody gave", id, item.len);
  return take(side, i, &item, NULL);
}

/* Bytes came on a request stream, and perhaps its end: they are read to a pause, the end or a fault. No call finds the block of the one before. */
static void read_all(int side, int i, const uint8_t *bytes, size_t len, int fin) {
  uint64_t id = 4u * (unsigned)i, detail = 0;
  size_t at = 0, used = 0;
  h3_item item;
  do {
    uint8_t *block = malloc(len - at + 1);
    if (!block) exit(1);
    memcpy(block, bytes + at, len - at);
    uint32_t told = h3_read(&ends[side], id, block, len - at, fin, &used, &item, &detail);
    memset(block, 0xee, len - at + 1);
    free(block);
    WANT(told == H3_OK && used <= len - at, "read", id, told == H3_CONNECTION ? detail : told);
    at += used;
  } while (take(side, i, &item, bytes + at - used));
  WANT(at == len || item.kind == H3_FAULT_CANCELED || item.kind == H3_FAULT_RESET, "bytes are left", id, len - at);
}

/* hands on what waits on a stream of a side, some of it, and its end */
static void carry(int side, uint64_t id, size_t most) {
  static uint8_t buffer[4096];
  size_t n;
  uint32_t fin, told;
  uint64_t detail = 0;
  int request = id % 4 == 0;
  flow *f = request ? &flows[id / 4][side] : NULL;
  if (request && f->reset) {
    if (!f->reset_given) {
      told = h3_deliver_reset(&ends[!side], id, 77, &detail);
      WANT(told == H3_OK, "deliver_reset", id, told);
      f->reset_given = 1;
      if (!side) seen[id / 4] = 1;
    }
    return;
  }
  if (most > sizeof buffer) most = sizeof buffer;
  WANT(h3_outgoing(&ends[side], id, buffer, most, &n, NULL, &fin) == H3_OK, "outgoing", id, 0);
  h3_stream_state before, after;
  WANT(h3_stream(&ends[side], id, &before) == H3_OK, "stream", id, 0);
  WANT(n == (before.waiting < most ? before.waiting : most), "outgoing gives fewer than fit", id, n);
  int reads = request && rnd(2);
  if (request && !side && (n || fin)) seen[id / 4] = 1;
  if (fin && !request) fail("fin", id, 0);
  if (n && !reads) {
    uint64_t held = unread(!side, id);
    told = h3_deliver(&ends[!side], id, buffer, n, &detail);
    WANT(told == H3_OK, "deliver", id, told == H3_CONNECTION ? detail : told);
    /* a request's bytes are held until they are pulled, unless it was given up; others are read, as far as they are whole */
    int is_thrown_away = request && (f->canceled || f->faulty);
    WANT(request ? unread(!side, id) == held + (is_thrown_away ? 0 : n) : unread(!side, id) <= held + n, "unread behind a delivery", id, held);
  }
  if (reads && (n || (fin && !f->fin_given))) {
    f->fin_given |= (int)fin;
    read_all(!side, (int)(id / 4), buffer, n, (int)fin);
  }
  WANT(h3_advance(&ends[side], id, n) == H3_OK, "advance", id, n);
  WANT(h3_stream(&ends[side], id, &after) == H3_OK && after.waiting == before.waiting - n, "advance takes another count", id, n);
  if (fin) {
    WANT(f->finished && after.waiting == 0, "fin", id, 0);
    if (!f->fin_given) {
      told = h3_deliver_end(&ends[!side], id, &detail);
      WANT(told == H3_OK, "deliver_end", id, told);
      f->fin_given = 1;
    }
  }
  /* sometimes it is told that the FIN was taken: it is said once, of a stream whose end is next */
  if (rnd(2)) {
    told = h3_end_taken(&ends[side], id);
    WANT(told == (fin && !f->end_said ? H3_OK : H3_NONE), "end_taken", id, told);
    if (told == H3_OK) f->end_said = 1;
  }
}


static void carry_some(int side) {
  uint64_t id, from = rnd(4u * REQUESTS);
  if (next_with_bytes(&ends[side], from, &id) == H3_OK || next_with_bytes(&ends[side], 0, &id) == H3_OK) carry(side, id, 1 + rnd(rnd(2) ? 40 : 4000));
  if (opened) {
    uint64_t other = 4u * rnd((uint32_t)opened);
    if (flows[other / 4][side].finished || flows[other / 4][side].reset) carry(side, other, 1 + rnd(4000));
  }
}

static void run(uint64_t of) {
  static const uint32_t tables[] = {0, 220, 4096}, blocked[] = {0, 1, 100};
  seed = of;
  state = of * 977 + 1;
  memset(flows, 0, sizeof flows);
  memset(seen, 0, sizeof seen);
  opened = 0;
  for (int side = 0; side < 2; side++) {
    h3_config c;
    h3_config_default(&c);
    c.server = (uint32_t)side;
    c.table = tables[rnd(3)];
    c.blocked = blocked[rnd(3)];
    c.send_grease = rnd(2);
    c.grease = rnd(1000);
    WANT(h3_new(&ends[side], &c, NULL) == H3_OK, "new", 0, 0);
  }
  for (int step = 0; step < 600; step++) {
    int side = (int)rnd(2);
    switch (rnd(12)) {
    case 0: open_one(); break;
    case 1: case 2: case 3: send_some(side); break;
    case 4: case 5: case 6: case 7: carry_some(side); break;
    case 8: case 9: case 10:
      if (opened) {
        int i = (int)rnd((uint32_t)opened);
        if (!side || seen[i]) pull_one(side, i);
      }
      break;
    default:
      if (rnd(12) == 0) reset_one(side);
      else if (rnd(12) == 0) cancel_one(side);
      else if (rnd(4) == 0) check_ends(side);
    }
  }
  /* the rest of what was sent goes over, and comes out */
  for (int i = 0; i < opened; i++)
    for (int side = 0; side < 2; side++) {
      flow *f = &flows[i][side];
      if ((side && !seen[i]) || !f->head_sent || f->finished || f->reset) continue;
      WANT(h3_finish(&ends[side], 4u * (unsigned)i, NULL) == H3_OK, "finish", 4u * (unsigned)i, 0);
      f->finished = 1;
    }
  for (int round = 0; round < 4; round++) {
    for (int side = 0; side < 2; side++) {
      uint64_t id;
      while (next_with_bytes(&ends[side], 0, &id) == H3_OK) carry(side, id, 4096);
      for (int i = 0; i < opened; i++)
        if (flows[i][side].finished || flows[i][side].reset) carry(side, 4u * (unsigned)i, 4096);
    }
    for (int side = 0; side < 2; side++)
      for (int i = 0; i < opened; i++)
        if (!side || seen[i])
          while (pull_one(side, i)) {
          }
  }
  for (int i = 0; i < opened; i++)
    for (int side = 0; side < 2; side++) {
      flow *f = &flows[i][side];
      if (f->finished && !f->reset && !f->canceled) WANT(f->end_out, "not all came out", 4u * (unsigned)i, (uint64_t)side);
    }
  for (uint64_t id = 0; id < 4u * REQUESTS + 12; id++)
    for (int side = 0; side < 2; side++) WANT(unread(side, id) == 0, "something is still held", id, unread(side, id));
  for (int side = 0; side < 2; side++) {
    h3_free(&ends[side]);
    h3_free(&ends[side]);
  }
}

int main(int argc, char **argv) {
  uint64_t first = argc > 1 ? strtoull(argv[1], NULL, 10) : 0, count = argc > 2 ? strtoull(argv[2], NULL, 10) : 200;
  for (uint64_t s = first; s < first + count; s++) run(s);
  if (count > 50 && given < count) fail("few pieces of bodies lay in the bytes that were given", 0, given);
  printf("ok schedules: %llu random schedules of two endpoints, every item as it was sent\n", (unsigned long long)count);
  return 0;
}
