/* What a stranger can drive up at an encoder: many sections under way, many that wait, and fields that all have one slot of
 * its index. */
#define _POSIX_C_SOURCE 200809L
#include "measure.h"
#include "peer_session.h"
#include "rows.h"
#include "session_steps.h"
#include <stdio.h>
#include <stdlib.h>
#include <string.h>

/* So many sections under way are measured beside nghttp3. With 2,000 streams version 0.8.0 writes literals, and with 1,397 1.17.0 refuses an
 * acknowledgment. */
enum { PEER_MOST = 1000 };

/* A session of an encoder: each list is sent, and then the replies are read, all at once. */
typedef struct {
  field_lists lists; /* that are not the same */
  size_t sent;       /* how many are sent: the lists, in turn */
  size_t capacity, limit, step; /* between the streams of two lists; 0: all are on one stream */
  const uint8_t *first; /* what is read behind the first list: nothing, or that it came */
  size_t first_len;
  pack replies;
  pack steps[2]; /* for our encoder: with the replies, and without them */
  uint8_t *out;
  size_t room;
} hostile;

/* A field whose name and value stand in memory of their own. */
static field_list one_field(const char *name, const char *value) {
  field_list list = {calloc(1, sizeof(nghttp3_nv)), 1};
  if (!list.fields) stop("no memory", 1);
  list.fields[0] = (nghttp3_nv){(uint8_t *)strdup(name), (uint8_t *)strdup(value), strlen(name), strlen(value), 0};
  return list;
}

/* A round is a session; one is run where none is asked for. */
static void ours(const hostile *h, int is_part, uint64_t rounds) {
  h3_report report;
  const pack *steps = &h->steps[is_part];
  if (!rounds) return;
  done("hostile", h3_bench_session_encode(rounds - 1, h->capacity, h->limit, 0, steps->bytes, steps->len, h->out, h->room, &report));
}

static void our_whole(void *data, uint64_t rounds) { ours(data, 0, rounds); }
static void our_part(void *data, uint64_t rounds) { ours(data, 1, rounds); }

static void peer_round(const hostile *h, int is_part) {
  peer_sender sender = peer_sender_new(h->capacity, h->limit);
  for (size_t i = 0; i < h->sent; i++) {
    nghttp3_buf_reset(&sender.instructions);
    peer_send(&sender, h->step * i, &h->lists.lists[i % h->lists.count]);
    if (!i && h->first_len && !peer_sender_hear(&sender, h->first, h->first_len)) stop("nghttp3: first reply", 0);
  }
  if (!is_part && !peer_sender_hear(&sender, h->replies.bytes, h->replies.len)) stop("nghttp3: replies", (long)h->replies.len);
  peer_sender_free(&sender);
}

static void peer_whole(void *data, uint64_t rounds) {
  for (; rounds; rounds--) peer_round(data, 0);
}

static void peer_part(void *data, uint64_t rounds) {
  for (; rounds; rounds--) peer_round(data, 1);
}

static void prepare(hostile *h) {
  session_steps steps = {0};
  pack packed = pack_lists(&h->lists);
  for (size_t i = 0; i < h->sent; i++) {
    add_list(&steps, h->step * i, i % h->lists.count);
    if (!i && h->first_len) add_heard(&steps, h->first, h->first_len);
  }
  h->steps[1] = pack_steps(&steps, &packed);
  add_heard(&steps, h->replies.bytes, h->replies.len);
  h->steps[0] = pack_steps(&steps, &packed);
  free_pack(&steps.steps);
  free_pack(&packed);
  h->room = 64 * h->sent + 1024;
  h->out = malloc(h->room);
  if (!h->out) stop("no memory", (long)h->room);
}

/* The time of one reply: what sessions take beyond those that are sent alone. */
static void measure_hostile(hostile *h, const char *row, int with_peer, size_t count, double most) {
  char set[32];
  snprintf(set, sizeof set, h->step ? "%zu" : "%zu, one stream", count);
  if (!is_measured(row, set)) return;
  prepare(h);
  const contender whole[CONTENDERS] = {{our_whole, h}, {with_peer ? peer_whole : NULL, h}, {0}};
  const contender part[CONTENDERS] = {{our_part, h}, {with_peer ? peer_part : NULL, h}, {0}};
  measure_beyond(&(row_kind){row, set, "ns", (double)count, 1, 1, 0, 0, NULL, most}, whole, part, 0);
  free_pack(&h->steps[0]);
  free_pack(&h->steps[1]);
  free(h->out);
}

static hostile new_hostile(size_t sent, size_t lists, size_t capacity, size_t limit) {
  hostile h = {.lists = {.name = "hostile", .count = lists}, .sent = sent, .capacity = capacity, .limit = limit, .step = 4};
  h.lists.lists = calloc(lists, sizeof *h.lists.lists);
  if (!h.lists.lists) stop("no memory", (long)lists);
  return h;
}

static void free_hostile(hostile *h) {
  for (size_t i = 0; i < h->lists.count; i++) {
    free((void *)h->lists.lists[i].fields[0].name);
    free((void *)h->lists.lists[i].fields[0].value);
    free(h->lists.lists[i].fields);
  }
  free_pack(&h->replies);
  free(h->lists.lists);
}

/* The numbers from 1 on, in an order that is none of counting. */
static size_t *mixed(size_t count) {
  uint64_t random = 1;
  size_t *order = malloc(count * sizeof *order);
  if (!order) stop("no memory", (long)count);
  for (size_t i = 0; i < count; i++) order[i] = i + 1;
  for (size_t i = count - 1; i > 0; i--) {
    random = random * 6364136223846793005u + 1442695040888963407u;
    size_t j = (size_t)(random >> 33) % (i + 1), kept = order[i];
    order[i] = order[j];
    order[j] = kept;
  }
  return order;
}

/* So many sections that name one entry are under way, one a stream or all on one, and are acknowledged, or their streams canceled,
 * in an order that is none of sending. */
static void tracked_row(const char *row, uint8_t flag, unsigned bits, size_t count, size_t step) {
  static const uint8_t came[] = {1, 128}; /* an increment of 1, and the acknowledgment of stream 0 */
  hostile h = new_hostile(count + 1, 1, 4096, 100);
  h.lists.lists[0] = one_field("user-agent", "1");
  h.step = step;
  h.first = came;
  h.first_len = sizeof came;
  size_t *order = mixed(count);
  for (size_t i = 0; i < count; i++) put_integer(&h.replies, flag, bits, step * order[i]);
  free(order);
  measure_hostile(&h, row, count <= PEER_MOST, count, 200);
  free_hostile(&h);
}

static void tracked_rows(size_t count) {
  tracked_row("section acknowledged", 128, 7, count, 4);
  tracked_row("section canceled", 64, 6, count, 4);
}

/* So many sections wait, each for an insertion of its own, and increments of 1 make them known one after another. */
static void waiting_row(size_t count) {
  hostile h = new_hostile(count, count, 1 << 22, 65535);
  for (size_t i = 0; i < count; i++) {
    char value[32];
    snprintf(value, sizeof value, "%zu", i);
    h.lists.lists[i] = one_field("user-agent", value);
    put_integer(&h.replies, 0, 6, 1);
  }
  measure_hostile(&h, "increment of 1, many wait", count <= PEER_MOST, count, 200);
  free_hostile(&h);
}

/* So many sections wait for one insertion, and as many increments of 0 come. nghttp3 refuses these. */
static void idle_row(size_t count) {
  hostile h = new_hostile(count, 1, 4096, 65535);
  h.lists.lists[0] = one_field("user-agent", "1");
  for (size_t i = 0; i < count; i++) put_integer(&h.replies, 0, 6, 0);
  measure_hostile(&h, "increment of 0, many wait", 0, count, 50);
  free_hostile(&h);
}

/* Lists of 16 fields whose values differ in bytes alone that the slot of a field does not rest on. */
static field_lists one_slot_lists(void) {
  enum { LISTS = 256, FIELDS = 16 };
  field_lists to = {.name = "field, all of one slot", .count = LISTS, .lists = calloc(LISTS, sizeof(field_list))};
  if (!to.lists) stop("no memory", LISTS);
  for (size_t i = 0; i < LISTS; i++) {
    to.lists[i] = (field_list){calloc(FIELDS, sizeof(nghttp3_nv)), FIELDS};
    if (!to.lists[i].fields) stop("no memory", FIELDS);
    for (size_t j = 0; j < FIELDS; j++) {
      char value[9];
      snprintf(value, sizeof value, "%04zux0xx", i * FIELDS + j);
      to.lists[i].fields[j] = (nghttp3_nv){(uint8_t *)strdup("user-agent"), (uint8_t *)strdup(value), 10, 8, 0};
    }
  }
  to.fields = LISTS * FIELDS;
  to.bytes = to.fields * 18;
  return to;
}

static void one_slot_rows(void) {
  field_lists one_slot = one_slot_lists();
  field_row(&one_slot, "4096", 4096, 900);
  /* linear in the capacity */
  field_row(&one_slot, "65536", 65536, 16 * 900);
}

void hostile_rows(void) {
  tracked_rows(PEER_MOST);
  tracked_rows(10000);
  tracked_row("section acknowledged", 128, 7, 10000, 0);
  tracked_rows(1000000);
  waiting_row(PEER_MOST);
  waiting_row(65000);
  idle_row(65000);
  one_slot_rows();
  hostile_decoder_rows();
}
