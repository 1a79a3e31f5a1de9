/* Sessions with a dynamic table between an end of ours and one of nghttp3's. Both instruction streams come in random cuts,
 * and sections in random order, so that some wait for instructions and are tried again. The ends of ours keep nothing
 * between calls: each call is handed all steps so far. */
#include "h3_bench.h"
#include "interop.h"
#include "peer_session.h"
#include "session_steps.h"
#include <stdio.h>
#include <stdlib.h>
#include <string.h>

/* A stream under way: what was written, and how much of it was taken. */
typedef struct {
  pack bytes;
  size_t taken;
} byte_stream;

/* A session under way. List i goes on stream 4 i. */
typedef struct {
  const field_lists *lists;
  size_t capacity, limit;
  byte_stream instructions, replies;
  pack *sections;     /* by list */
  size_t *under_way;  /* the lists that are written and not decoded */
  size_t count;
  size_t written;     /* how many lists were written */
  size_t bytes, waits;
  pack *decoded;      /* the lists that came out */
  int good;
  session_steps steps; /* of our end */
  size_t seen;         /* how many of them were answered */
  pack packed;
} session;

static session session_new(const field_lists *lists, size_t capacity, size_t limit) {
  session s = {.lists = lists, .capacity = capacity, .limit = limit, .good = 1, .packed = pack_lists(lists)};
  s.sections = calloc(lists->count, sizeof *s.sections);
  s.under_way = calloc(lists->count, sizeof *s.under_way);
  s.decoded = calloc(lists->count, sizeof *s.decoded);
  if (!s.sections || !s.under_way || !s.decoded) stop("no memory", (long)lists->count);
  return s;
}

static void session_free(session *s) {
  for (size_t i = 0; i < s->lists->count; i++) {
    free_pack(&s->sections[i]);
    free_pack(&s->decoded[i]);
  }
  free(s->sections);
  free(s->under_way);
  free(s->decoded);
  free_pack(&s->instructions.bytes);
  free_pack(&s->replies.bytes);
  free_pack(&s->steps.steps);
  free_pack(&s->packed);
}

/* A section was written for the next list. */
static void add_written(session *s, const uint8_t *bytes, size_t len) {
  s->bytes += len;
  s->under_way[s->count++] = s->written;
  put_bytes(&s->sections[s->written++], bytes, len);
}

/* A cut of what waits, often short; all of it at the end. */
static const uint8_t *take_cut(byte_stream *of, int all, size_t *len) {
  size_t waiting = of->bytes.len - of->taken;
  *len = waiting;
  if (!all && waiting) {
    size_t most = next_random() % 2 && waiting > 8 ? 8 : waiting;
    *len = 1 + next_random() % most;
  }
  of->taken += *len;
  return of->bytes.bytes + of->taken - *len;
}

static int is_at_end(const session *s) {
  return s->written == s->lists->count && s->instructions.taken == s->instructions.bytes.len;
}

/* The answer of our end to all steps so far. */
static uint8_t *run_ours(session *s, int sends) {
  pack input = pack_steps(&s->steps, sends ? &s->packed : NULL);
  size_t room = 4 * s->packed.len + 64 * s->steps.count + 65536;
  uint8_t *out = malloc(room);
  if (!out) stop("no memory", (long)room);
  h3_report report;
  uint32_t status =
      sends ? h3_bench_session_encode(0, s->capacity, s->limit, 0, input.bytes, input.len, out, room, &report)
            : h3_bench_session_decode(0, s->capacity, input.bytes, input.len, out, room, &report);
  free_pack(&input);
  if (status == H3_REFUSED) s->good = 0;
  else if (status != H3_DONE) stop("session", (long)status);
  return out;
}

/* We write the lists up to `to`. */
static void we_send(session *s, size_t to) {
  for (size_t i = s->written; i < to; i++) add_list(&s->steps, 4 * i, i);
  uint8_t *out = run_ours(s, 1);
  const uint8_t *place = out;
  for (size_t i = 0, steps = s->good ? take_number(&place) : 0; i < steps; i++) {
    size_t section_len, len;
    const uint8_t *section = take_string(&place, &section_len), *instructions = take_string(&place, &len);
    if (i < s->seen) continue;
    put_bytes(&s->instructions.bytes, instructions, len);
    if (section_len) add_written(s, section, section_len); /* else the step was to hear */
  }
  s->seen = s->steps.count;
  free(out);
}

/* nghttp3 reads a cut of our instructions and a section, and answers; we hear a cut of that. */
static void peer_reads(session *s, peer_receiver *receiver) {
  size_t len, fields = 0, sum = 0;
  const uint8_t *bytes = take_cut(&s->instructions, s->written == s->lists->count && next_random() % 4 == 0, &len);
  if (len && !peer_receiver_hear(receiver, bytes, len)) s->good = 0;
  if (s->count) {
    size_t place = next_random() % s->count, list = s->under_way[place];
    int how = peer_receive(receiver, 4 * list, s->sections[list].bytes, s->sections[list].len, &fields, &sum,
                           &s->decoded[list]);
    if (how == PEER_REFUSED) s->good = 0;
    if (how == PEER_WAITS) s->waits++;
    if (how != PEER_WAITS) s->under_way[place] = s->under_way[--s->count];
  }
  peer_reply(receiver);
  put_bytes(&s->replies.bytes, receiver->replies.bytes, receiver->replies.len);
  bytes = take_cut(&s->replies, 0, &len);
  if (len) add_heard(&s->steps, bytes, len);
}

static void we_write(session *s) {
  peer_receiver receiver = peer_receiver_new(s->capacity, s->limit);
  while (s->good && !(is_at_end(s) && !s->count)) {
    size_t left = s->lists->count - s->written, more = next_random() % 12;
    if (left) we_send(s, s->written + (more < left ? more : left));
    for (size_t reads = next_random() % 12; reads && s->good; reads--) peer_reads(s, &receiver);
  }
  s->bytes += s->instructions.bytes.len;
  peer_receiver_free(&receiver);
}

/* nghttp3 writes the lists up to `to`. */
static void peer_sends(session *s, peer_sender *sender, size_t to) {
  while (s->written < to) {
    pack section = {0};
    nghttp3_buf_reset(&sender->instructions);
    peer_send(sender, 4 * s->written, &s->lists->lists[s->written]);
    put_section(&section, sender);
    put_bytes(&s->instructions.bytes, sender->instructions.pos, nghttp3_buf_len(&sender->instructions));
    add_written(s, section.bytes, section.len);
    free_pack(&section);
  }
}

enum { MOST_READS = 12, NO_LIST = -1 };

/* The steps by which we read a cut of the instructions and a section, some times. `of_step` tells the list of each. */
static void add_reads(session *s, long of_step[2 * MOST_READS]) {
  size_t len, count = 0;
  for (size_t reads = 1 + next_random() % MOST_READS; reads; reads--) {
    const uint8_t *bytes = take_cut(&s->instructions, s->written == s->lists->count && next_random() % 4 == 0, &len);
    if (len) {
      add_heard(&s->steps, bytes, len);
      of_step[count++] = NO_LIST;
    }
    if (!s->count) continue;
    size_t place = next_random() % s->count, list = s->under_way[place];
    add_section(&s->steps, 4 * list, s->sections[list].bytes, s->sections[list].len);
    s->under_way[place] = s->under_way[--s->count];
    of_step[count++] = (long)list;
  }
}

/* What we answered to one step: the list, where one was decoded, and replies. Answers where the next one stands. */
static const uint8_t *take_answer(session *s, const uint8_t *place, int is_new, long list) {
  const uint8_t *decoded = place + 4;
  size_t is_decoded = take_number(&place), len;
  if (is_decoded)
    for (size_t strings = 2 * take_number(&place); strings; strings--) take_string(&place, &len);
  size_t decoded_len = (size_t)(place - decoded);
  const uint8_t *replies = take_string(&place, &len);
  if (!is_new) return place;
  put_bytes(&s->replies.bytes, replies, len);
  if (is_decoded)
    put_bytes(&s->decoded[list], decoded, decoded_len);
  else if (list != NO_LIST) {
    s->waits++;
    s->under_way[s->count++] = (size_t)list;
  }
  return place;
}

static void we_read(session *s) {
  long of_step[2 * MOST_READS];
  add_reads(s, of_step);
  uint8_t *out = run_ours(s, 0);
  const uint8_t *place = out;
  for (size_t i = 0, steps = s->good ? take_number(&place) : 0; i < steps; i++)
    place = take_answer(s, place, i >= s->seen, i >= s->seen ? of_step[i - s->seen] : NO_LIST);
  s->seen = s->steps.count;
  free(out);
}

static void peer_writes(session *s) {
  peer_sender sender = peer_sender_new(s->capacity, s->limit);
  while (s->good && !(is_at_end(s) && !s->count)) {
    size_t left = s->lists->count - s->written, more = next_random() % 12, len;
    peer_sends(s, &sender, s->written + (more < left ? more : left));
    we_read(s);
    const uint8_t *bytes = take_cut(&s->replies, 0, &len);
    if (len && !peer_sender_hear(&sender, bytes, len)) s->good = 0;
  }
  s->bytes += s->instructions.bytes.len;
  peer_sender_free(&sender);
}

/* Whether each list came out as it was. */
static void check_session(session *s, const char *who) {
  char what[128], more[160];
  size_t equal = 0;
  for (size_t i = 0; i < s->lists->count; i++) {
    pack wanted = {0};
    put_list(&wanted, &s->lists->lists[i]);
    equal += wanted.len == s->decoded[i].len && !memcmp(wanted.bytes, s->decoded[i].bytes, wanted.len);
    free_pack(&wanted);
  }
  snprintf(what, sizeof what, "capacity %zu, %zu may wait, %s: %s", s->capacity, s->limit, s->lists->name, who);
  snprintf(more, sizeof more, "%zu of %zu lists, %.3f of their bytes, %zu times a section waited", equal,
           s->lists->count, (double)s->bytes / (double)s->lists->bytes, s->waits);
  check(s->good && equal == s->lists->count, what, more);
}

void session_checks(const field_lists *lists, size_t capacity, size_t limit) {
  session ours = session_new(lists, capacity, limit), peers = session_new(lists, capacity, limit);
  we_write(&ours);
  check_session(&ours, "nghttp3 reads what we write");
  peer_writes(&peers);
  check_session(&peers, "we read what nghttp3 writes");
  session_free(&ours);
  session_free(&peers);
}
