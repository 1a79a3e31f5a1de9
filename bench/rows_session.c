/* Sessions with a dynamic table: both ends, and each end alone, driven by what the other wrote. */
#include "measure.h"
#include "peer_hpack.h"
#include "peer_session.h"
#include "rows.h"
#include "session_steps.h"
#include <stdio.h>
#include <stdlib.h>

enum { CAPACITY = 4096, LIMIT = 100, PASSES = 8, MOST_BATCH = 64 };

typedef struct {
  const field_lists *lists;
  size_t capacity;    /* of the tables */
  size_t batch;       /* lists sent before their bytes are read and answered */
  uint32_t choices;   /* of our encoder: those of h3_config_default where lists are under way, or none */
  pack packed;        /* the lists, as the static library takes them */
  pack encode, decode; /* the steps of our ends */
  uint8_t *out;
  size_t room;
  pack *peer_replies; /* what nghttp3's decoder wrote, by batch */
  size_t peer_bytes;  /* of its sections and instructions */
  h3_report both;     /* of one session of ours */
} session_work;

static size_t lists_of(const session_work *w) { return PASSES * w->lists->count; }

static void our_both(void *data, uint64_t rounds) {
  session_work *w = data;
  done("exchange", h3_bench_exchange(rounds, w->capacity, LIMIT, w->choices, w->batch, PASSES, w->packed.bytes, w->packed.len,
                                     w->out, w->room, &w->both));
  if (w->both.items != PASSES * w->lists->fields) stop("exchange: another count", (long)w->both.items);
}

static void our_encode(void *data, uint64_t rounds) {
  session_work *w = data;
  h3_report report;
  done("session_encode", h3_bench_session_encode(rounds, w->capacity, LIMIT, w->choices, w->encode.bytes, w->encode.len, w->out,
                                                 w->room, &report));
  if (report.items != w->both.items || report.bytes != w->both.bytes)
    stop("session_encode: other counts", (long)report.items);
}

static void our_decode(void *data, uint64_t rounds) {
  session_work *w = data;
  h3_report report;
  done("session_decode",
       h3_bench_session_decode(rounds, w->capacity, w->decode.bytes, w->decode.len, w->out, w->room, &report));
  if (rounds && (report.items != PASSES * w->lists->fields || report.bytes != PASSES * w->lists->bytes))
    stop("session_decode: other counts", (long)report.items);
}

/* The sections of a batch, whose memory serves again. */
static pack sections[MOST_BATCH];

static void peer_send_batch(peer_sender *sender, const session_work *w, size_t from, size_t to) {
  nghttp3_buf_reset(&sender->instructions);
  for (size_t j = from; j < to; j++) {
    peer_send(sender, 4 * j, &w->lists->lists[j % w->lists->count]);
    pack *section = &sections[j - from];
    section->len = 0;
    put_section(section, sender);
  }
}

/* One session of nghttp3. What its decoder wrote is kept where `replies` is given. Answers how many bytes sections and
 * instructions had. */
static size_t peer_session(const session_work *w, pack *replies) {
  peer_sender sender = peer_sender_new(w->capacity, LIMIT);
  peer_receiver receiver = peer_receiver_new(w->capacity, LIMIT);
  size_t fields = 0, sum = 0, written = 0, total = lists_of(w);
  for (size_t from = 0; from < total; from += w->batch) {
    size_t to = from + w->batch < total ? from + w->batch : total;
    peer_send_batch(&sender, w, from, to);
    if (!peer_receiver_hear(&receiver, sender.instructions.pos, nghttp3_buf_len(&sender.instructions)))
      stop("nghttp3_qpack_decoder_read_encoder", (long)from);
    written += nghttp3_buf_len(&sender.instructions);
    for (size_t j = from; j < to; j++) {
      const pack *section = &sections[j - from];
      if (peer_receive(&receiver, 4 * j, section->bytes, section->len, &fields, &sum, NULL) != PEER_DECODED)
        stop("nghttp3_qpack_decoder_read_request", (long)j);
      written += section->len;
    }
    peer_reply(&receiver);
    if (!peer_sender_hear(&sender, receiver.replies.bytes, receiver.replies.len))
      stop("nghttp3_qpack_encoder_read_decoder", (long)from);
    if (replies) put_bytes(&replies[from / w->batch], receiver.replies.bytes, receiver.replies.len);
  }
  if (fields != PASSES * w->lists->fields || sum != PASSES * w->lists->bytes) stop("nghttp3: other counts", (long)fields);
  peer_sender_free(&sender);
  peer_receiver_free(&receiver);
  return written;
}

static void peer_both(void *data, uint64_t rounds) {
  for (; rounds; rounds--) peer_session(data, NULL);
}

static void peer_encode(void *data, uint64_t rounds) {
  session_work *w = data;
  size_t total = lists_of(w);
  for (; rounds; rounds--) {
    peer_sender sender = peer_sender_new(w->capacity, LIMIT);
    for (size_t from = 0; from < total; from += w->batch) {
      const pack *replies = &w->peer_replies[from / w->batch];
      peer_send_batch(&sender, w, from, from + w->batch < total ? from + w->batch : total);
      if (!peer_sender_hear(&sender, replies->bytes, replies->len))
        stop("nghttp3_qpack_encoder_read_decoder", (long)from);
    }
    peer_sender_free(&sender);
  }
}

/* Both decode what we wrote. */
static void peer_decode(void *data, uint64_t rounds) {
  session_work *w = data;
  for (; rounds; rounds--) {
    peer_receiver receiver = peer_receiver_new(w->capacity, LIMIT);
    const uint8_t *place = w->decode.bytes;
    size_t fields = 0, sum = 0, len;
    for (size_t steps = take_number(&place); steps; steps--) {
      if (take_number(&place)) {
        const uint8_t *bytes = take_string(&place, &len);
        if (!peer_receiver_hear(&receiver, bytes, len)) stop("nghttp3_qpack_decoder_read_encoder", (long)len);
        peer_reply(&receiver);
      } else {
        size_t stream = take_number(&place);
        const uint8_t *section = take_string(&place, &len);
        if (peer_receive(&receiver, stream, section, len, &fields, &sum, NULL) != PEER_DECODED)
          stop("nghttp3_qpack_decoder_read_request", (long)stream);
      }
    }
    if (fields != PASSES * w->lists->fields || sum != PASSES * w->lists->bytes)
      stop("nghttp3: other counts", (long)fields);
    peer_receiver_free(&receiver);
  }
}

/* The steps of each of our ends in a session of both. */
static void keep_steps(session_work *w) {
  session_steps encode = {0}, decode = {0};
  const uint8_t *place = w->out;
  size_t list = 0, len;
  while (list < lists_of(w)) {
    size_t count = take_number(&place);
    session_steps batch = {0};
    for (size_t end = list + count; list < end; list++) {
      const uint8_t *section = take_string(&place, &len);
      add_list(&encode, 4 * list, list % w->lists->count);
      add_section(&batch, 4 * list, section, len);
    }
    const uint8_t *instructions = take_string(&place, &len);
    add_heard(&decode, instructions, len);
    put_bytes(&decode.steps, batch.steps.bytes, batch.steps.len);
    decode.count += batch.count;
    free_pack(&batch.steps);
    const uint8_t *replies = take_string(&place, &len);
    add_heard(&encode, replies, len);
  }
  w->encode = pack_steps(&encode, &w->packed);
  w->decode = pack_steps(&decode, NULL);
  free_pack(&encode.steps);
  free_pack(&decode.steps);
}

static session_work prepare(const field_lists *lists, size_t capacity, size_t batch) {
  session_work w = {.lists = lists, .capacity = capacity, .batch = batch, .choices = batch != 1, .packed = pack_lists(lists)};
  w.room = 4 * PASSES * w.packed.len + 1024;
  w.out = malloc(w.room);
  w.peer_replies = calloc(lists_of(&w) / batch + 1, sizeof *w.peer_replies);
  if (!w.out || !w.peer_replies) stop("no memory", (long)w.room);
  our_both(&w, 0);
  keep_steps(&w);
  w.peer_bytes = peer_session(&w, w.peer_replies);
  return w;
}

static void free_work(session_work *w) {
  for (size_t i = 0; i <= lists_of(w) / w->batch; i++) free_pack(&w->peer_replies[i]);
  free(w->peer_replies);
  free_pack(&w->packed);
  free_pack(&w->encode);
  free_pack(&w->decode);
  free(w->out);
}

void session_rows(const field_lists *lists, size_t batch, session_targets targets) {
  session_work w = prepare(lists, CAPACITY, batch);
  /* HPACK acknowledges nothing, so it has lock-step alone */
  peer_hpack *hpack = batch == 1 ? peer_hpack_new(lists, PASSES, CAPACITY) : NULL;
  const contender encode[CONTENDERS] = {{our_encode, &w}, {peer_encode, &w}, {hpack ? peer_hpack_encode : NULL, hpack}};
  const contender decode[CONTENDERS] = {{our_decode, &w}, {peer_decode, &w}, {hpack ? peer_hpack_decode : NULL, hpack}};
  const contender both[CONTENDERS] = {{our_both, &w}, {peer_both, &w}, {0}};
  double count = (double)lists_of(&w);
  char row[3][48];
  static const char *const works[] = {"encode", "decode", "both"};
  for (int k = 0; k < 3; k++) snprintf(row[k], sizeof row[k], "%s, %d/100, by %zu", works[k], CAPACITY, batch);
  measure_row(&(row_kind){row[0], lists->name, "klists/s", count, 1e3, 0, targets.encode, 0, "nghttp2"}, encode, count);
  measure_row(&(row_kind){row[1], lists->name, "klists/s", count, 1e3, 0, targets.decode, targets.decode_third, "nghttp2"}, decode, count);
  measure_row(&(row_kind){row[2], lists->name, "klists/s", count, 1e3, 0, targets.both, 0}, both, count);
  double plain = PASSES * (double)lists->bytes;
  size_row(row[2], lists->name, (double)w.both.bytes / plain, (double)w.peer_bytes / plain, targets.most_size);
  if (hpack) peer_hpack_free(hpack);
  free_work(&w);
}

void field_row(const field_lists *lists, const char *set, size_t capacity, double most) {
  session_work w = prepare(lists, capacity, 1);
  const contender encode[CONTENDERS] = {{our_encode, &w}, {peer_encode, &w}, {0}};
  double fields = (double)(PASSES * lists->fields);
  measure_row(&(row_kind){lists->name, set, "ns", fields, 1, 1, 0, 0, NULL, most}, encode, 0);
  free_work(&w);
}
