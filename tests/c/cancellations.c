/* Requests that are opened and canceled before the settings came, cancellations that come before the first byte of their request, and
 * floods of cancellations of ids far apart and of GOAWAY frames: none is a fault, none costs more memory than a bound, what counts as
 * canceled is still answered, and the last GOAWAY holds. Linked with --wrap for malloc, realloc and free. One line 'ok NAME' or
 * 'failed NAME'. */
#include "counted.h"
#include "h3.h"
#include <string.h>
#define TEST "cancellations"
#include "field_list.h"
#include "pair.h"

/* what is expected of the library */
enum {
  KEPT_IDS = 1000,                /* so many ids of canceled streams are kept by default */
  CANCELED_BYTES = 24 * KEPT_IDS, /* and so many bytes (blocks of malloc are rounded up) */
  GOAWAY_BYTES = 64,              /* of GOAWAY frames the last one's id alone is kept: a block of few ids */
};

enum { EARLY = 40000, BEFORE_THEIR_BYTES = 1500, FAR_IDS = 4475000, GOAWAYS = 1000000, PIECE = 1024 };

static uint8_t piece[PIECE + 16];

static field_list request, response;

static void make(void) {
  for (int side = 0; side < 2; side++) {
    h3_config config;
    h3_config_default(&config);
    config.server = (uint64_t)side;
    config.economical_table = 0; /* so that a first head inserts its fields and names them */
    IS(h3_new(&ends[side], &config, NULL), H3_OK);
  }
}

static void ask(uint64_t id) {
  uint64_t next;
  IS(h3_next_request_id(&ends[CLIENT], &next, NULL), H3_OK);
  for (; next <= id; next += 4) IS(h3_open_request(&ends[CLIENT], &next, NULL), H3_OK);
  IS(send_list(&ends[CLIENT], id, &request), H3_OK);
  carry_own();
  carry(CLIENT, id);
  HOLDS(pull(SERVER, id).kind == H3_HEAD);
}

/* The server answers. Tells whether the section names the table: its required insert count is not 0 (RFC 9204, section 4.5.1), the first
 * byte after a frame's type and a length of one byte. */
static int names_table(uint64_t id) {
  uint8_t head[3];
  size_t n = 0;
  IS(send_list(&ends[SERVER], id, &response), H3_OK);
  IS(h3_outgoing(&ends[SERVER], id, head, sizeof head, &n, NULL, NULL), H3_OK);
  HOLDS(n == 3 && head[0] == 1 && head[1] < 64);
  return head[2] != 0;
}

/* the same, and the client reads it */
static int answers_by_table(uint64_t id) {
  int by_table = names_table(id);
  IS(h3_finish(&ends[SERVER], id, NULL), H3_OK);
  carry_own();
  carry(SERVER, id);
  h3_item item = pull(CLIENT, id);
  HOLDS(item.kind == H3_HEAD && is_list(&ends[CLIENT], &item, &response));
  HOLDS(pull(CLIENT, id).kind == H3_END);
  return by_table;
}

/* requests that are opened and canceled before any settings, whose cancellations come ahead of them */
static void of_early_cancellations(void) {
  h3_stream_state stream;
  uint64_t id, waiting;
  make();
  for (unsigned i = 0; i < EARLY; i++) {
    IS(h3_open_request(&ends[CLIENT], &id, NULL), H3_OK);
    IS(h3_cancel(&ends[CLIENT], id, NULL), H3_OK);
  }
  IS(h3_stream(&ends[CLIENT], h3_decoder_id(0), &stream), H3_OK);
  waiting = stream.waiting;
  HOLDS(waiting > 2 * EARLY);
  carry(CLIENT, h3_decoder_id(0));
  IS(h3_stream(&ends[SERVER], h3_decoder_id(0), &stream), H3_OK);
  HOLDS(stream.unread == waiting - 1); /* but for the stream's type */
  carry_own();
  IS(h3_stream(&ends[SERVER], h3_decoder_id(0), &stream), H3_OK);
  HOLDS(stream.unread == 0);
  ask(4 * EARLY);
  answers_by_table(4 * EARLY);
  drop();
}

/* requests whose cancellations come before the first of their bytes */
static void of_cancellations_ahead(void) {
  make();
  carry_own();
  for (uint64_t id = 0; id < 4 * BEFORE_THEIR_BYTES; id += 4) {
    uint64_t opened;
    IS(h3_open_request(&ends[CLIENT], &opened, NULL), H3_OK);
    IS(send_list(&ends[CLIENT], id, &request), H3_OK);
    IS(h3_cancel(&ends[CLIENT], id, NULL), H3_OK);
    carry_own();
  }
  for (uint64_t id = 0; id < 4 * BEFORE_THEIR_BYTES; id += 4) {
    carry(CLIENT, id);
    HOLDS(pull(SERVER, id).kind == H3_HEAD);
    IS(send_list(&ends[SERVER], id, &response), H3_OK);
    carry_own();
    carry(SERVER, id);
    HOLDS(pull(CLIENT, id).kind == H3_FAULT_CANCELED);
  }
  ask(4 * BEFORE_THEIR_BYTES);
  HOLDS(answers_by_table(4 * BEFORE_THEIR_BYTES)); /* it was not canceled */
  drop();
}

/* The bytes of a request come, of no client here: one opens its requests in turn, and that many take long. */
static void see(uint64_t id) {
  IS(h3_deliver(&ends[SERVER], id, "\1\x08\0\0\xd1\xd7\xc1\x50\1\x61", 10, NULL), H3_OK);
  HOLDS(pull(SERVER, id).kind == H3_HEAD);
}

/* never more than so much was allocated beyond what was before, and four deliveries: one is copied while it is read, in room that doubles */
static void bounded(const char *what, size_t before, size_t most) {
  if (most_live <= before + most + 4 * PIECE) return;
  printf("failed cancellations: %s: %zu bytes were allocated, above the bound of %zu\n", what, most_live - before, most);
  bad = 1;
}

/* a cancellation (RFC 9204, section 4.4.2) */
static size_t cancellation(uint8_t *to, uint64_t id) {
  size_t n = 1;
  if (id < 63) {
    to[0] = (uint8_t)(0x40 | id);
    return 1;
  }
  to[0] = 0x7f;
  for (id -= 63; id >= 128; id >>= 7) to[n++] = (uint8_t)(0x80 | (id & 0x7f));
  to[n++] = (uint8_t)id;
  return n;
}

/* so many cancellations of streams with this distance go to the server */
static void cancel_far(uint64_t from, uint64_t count, uint64_t distance) {
  size_t n = 0;
  uint32_t answer = H3_OK;
  for (uint64_t i = 0; i < count && answer == H3_OK; i++) {
    n += cancellation(piece + n, from + distance * i);
    if (n < PIECE && i + 1 < count) continue;
    answer = h3_deliver(&ends[SERVER], h3_decoder_id(0), piece, n, NULL);
    n = 0;
  }
  IS(answer, H3_OK);
}

/* A stream above the canceled ones is answered by the table; one up to the lowest of those that are kept without it, unless a section
 * of it is not yet acknowledged: so a server goes on where it is. */
static void of_far_cancellations(void) {
  const uint64_t distance = 1024, kept = distance * FAR_IDS, between = 4 * 102, above = distance * (FAR_IDS + 1);
  make();
  carry_own();
  ask(0);
  HOLDS(names_table(0)); /* and it is not acknowledged */
  ask(4);
  size_t before = live;
  most_live = live;
  cancel_far(distance, FAR_IDS, distance);
  bounded("cancellations far apart", before, CANCELED_BYTES);
  IS(h3_finish(&ends[SERVER], 0, NULL), H3_OK);
  carry_own();
  carry(SERVER, 0);
  h3_item item = pull(CLIENT, 0);
  HOLDS(item.kind == H3_HEAD && is_list(&ends[CLIENT], &item, &response));
  HOLDS(!answers_by_table(4));
  ask(between);
  HOLDS(!answers_by_table(between));
  see(kept);
  HOLDS(!names_table(kept));
  see(kept - 4);
  HOLDS(names_table(kept - 4)); /* between two that are kept */
  see(above);
  HOLDS(names_table(above));
  drop();
}

/* as many as are kept: those alone count as canceled. With one more the lowest is dropped, and each up to it counts */
static void of_few_cancellations(void) {
  make();
  carry_own();
  cancel_far(8, KEPT_IDS, 8);
  ask(4);
  HOLDS(answers_by_table(4));
  ask(8);
  HOLDS(!answers_by_table(8));
  ask(12);
  HOLDS(answers_by_table(12));
  ask(0);
  cancel_far(8 * (KEPT_IDS + 1), 1, 8);
  HOLDS(!answers_by_table(0));
  ask(16);
  HOLDS(!answers_by_table(16));
  ask(20);
  HOLDS(answers_by_table(20));
  drop();
}

/* a GOAWAY frame (RFC 9114, section 7.2.6) whose id has eight bytes */
static size_t goaway(uint8_t *to, uint64_t id) {
  to[0] = 7;
  to[1] = 8;
  for (int i = 0; i < 8; i++) to[2 + i] = (uint8_t)(id >> (56 - 8 * i));
  to[2] |= 0xc0;
  return 10;
}

/* so many GOAWAY frames go to the client, each id below the one before it by this distance */
static void go_away(uint64_t from, uint64_t count, uint64_t distance) {
  size_t n = 0;
  uint32_t answer = H3_OK;
  for (uint64_t i = 0; i < count && answer == H3_OK; i++) {
    n += goaway(piece + n, from - distance * i);
    if (n < PIECE && i + 1 < count) continue;
    answer = h3_deliver(&ends[CLIENT], h3_control_id(SERVER), piece, n, NULL);
    n = 0;
  }
  IS(answer, H3_OK);
}

/* the client's last GOAWAY: it opens no request, and a greater id is a fault */
static void has_goaway(uint64_t id) {
  h3_state state;
  uint64_t opened, detail = 0;
  IS(h3_connection(&ends[CLIENT], &state), H3_OK);
  HOLDS(state.has_goaway == 1 && state.goaway == id);
  IS(h3_open_request(&ends[CLIENT], &opened, &detail), H3_GOING_AWAY);
  HOLDS(detail == id);
}

static void of_goaways(void) {
  const uint64_t first = (UINT64_C(1) << 62) - 4, last = first - 4 * (GOAWAYS - 1);
  uint64_t detail = 0;
  make();
  carry_own();
  size_t before = live;
  most_live = live;
  go_away(first, GOAWAYS, 0);
  has_goaway(first);
  go_away(first, GOAWAYS, 4);
  has_goaway(last);
  bounded("GOAWAY frames", before, GOAWAY_BYTES);
  HOLDS(live <= before + GOAWAY_BYTES);
  IS(h3_deliver(&ends[CLIENT], h3_control_id(SERVER), piece, goaway(piece, last + 4), &detail), H3_CONNECTION);
  HOLDS(detail == 0x108); /* H3_ID_ERROR */
  drop();
}

int main(void) {
  begin_request(&request, "GET");
  begin_response(&response, "200");
  add_field(&response, "x-name", "a value that is inserted");
  of_early_cancellations();
  of_cancellations_ahead();
  of_far_cancellations();
  of_few_cancellations();
  of_goaways();
  if (!bad)
    printf("ok cancellations: %d requests canceled before the settings, %d before their first byte, %d ids far apart: no fault, and at most "
           "%d bytes for the ids; %d GOAWAY frames: at most %d\n",
        EARLY, BEFORE_THEIR_BYTES, FAR_IDS, CANCELED_BYTES, 2 * GOAWAYS, GOAWAY_BYTES);
  return bad;
}
