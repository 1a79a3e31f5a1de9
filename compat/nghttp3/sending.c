/* sending.c: what QUIC is given, in which order, and what it says of it: bytes that it took, that are acknowledged, streams that it
 * blocks. */
#include <stdlib.h>
#include "connection.h"

enum {
  LEAST_UNSENT = 4096, /* a body is asked for while fewer bytes of its stream are unsent, as nghttp3 does */
  MOST_VECTORS = 8     /* of one call of read_data, as nghttp3 has it */
};

/* ---- parts of a message ---- */

/* The most bytes of a HEADERS frame with these fields: its type, its length, the prefix of the section (RFC 9204, section 4.5.1), and for
 * each field two lengths (sections 4.1.1 and 4.5.6) and both strings. */
static size_t most_encoded(const field_list *fields) { return 9 + 20 + fields->length + 12 * fields->count; }

__attribute__((always_inline)) static inline uint32_t send_section(nghttp3_conn *connection, stream *s, const field_list *fields,
                                                                   bool is_trailer, uint64_t *detail) {
  const uint8_t *bytes = field_list_bytes(fields), *flags = fields->has_flags ? field_list_flags(fields) : NULL;
  h3_endpoint *endpoint = &connection->endpoint;
  return is_trailer ? h3_send_trailer(endpoint, s->endpoint_id, fields->sizes, flags, fields->count, bytes, fields->length, detail)
                    : h3_send_head(endpoint, s->endpoint_id, fields->sizes, flags, fields->count, bytes, fields->length, detail);
}

/* Names go out in lower case, as nghttp3 sends them (RFC 9114, section 4.2). Most are so: the others are changed when the endpoint has
 * refused them. */
static APART uint32_t send_lower_case(nghttp3_conn *connection, stream *s, const field_list *fields, bool is_trailer, uint32_t refused,
                                      uint64_t *detail) {
  return field_list_lower(fields) ? send_section(connection, s, fields, is_trailer, detail) : refused;
}

inline int send_fields(nghttp3_conn *connection, stream *s, const field_list *fields, bool is_trailer) {
  uint64_t detail = 0;
  bool has_unsent = s->is_untaken || s->unsent_length > 0;
  int error = s->announced ? endpoint_take(connection, s) : 0;
  if (error) return error;
  uint32_t answer = send_section(connection, s, fields, is_trailer, &detail);
  if (answer != H3_OK) answer = send_lower_case(connection, s, fields, is_trailer, answer, &detail);
  if (connection->has_peer_table) may_have_bytes(connection, &connection->encoder);
  if (answer != H3_OK) return error_of_answer(answer, detail);
  s->is_untaken = true; /* what follows is taken in the same call, unless this alone fills what is unsent */
  return has_unsent || most_encoded(fields) >= LEAST_UNSENT ? endpoint_take(connection, s) : 0;
}

int send_message_end(nghttp3_conn *connection, stream *s) {
  uint64_t detail = 0;
  uint32_t answer = h3_finish(&connection->endpoint, s->endpoint_id, &detail);
  if (answer != H3_OK) return error_of_answer(answer, detail);
  s->has_ended = true;
  return 0;
}

int send_trailer(nghttp3_conn *connection, stream *s) {
  int error = send_fields(connection, s, &s->trailer, true);
  free(s->trailer.sizes);
  s->trailer = (field_list){0};
  return error ? error : send_message_end(connection, s);
}

/* ---- bodies ---- */

/* A body or trailer that the endpoint refuses, which nghttp3 would have sent, ends its stream alone. */
static int reset(nghttp3_conn *connection, stream *s) {
  give_up_writing(connection, s);
  return CALLBACK(connection, reset_stream, s->id, NGHTTP3_H3_INTERNAL_ERROR, connection->user_data, s->user_data);
}

static int send_pieces(nghttp3_conn *connection, stream *s, const nghttp3_vec *pieces, size_t count, uint32_t flags) {
  int error = 0;
  for (size_t i = 0; i < count && !error; i++) error = endpoint_send_body(connection, s, pieces + i);
  if (flags & NGHTTP3_DATA_FLAG_EOF) s->read_data = NULL;
  else if (nghttp3_vec_len(pieces, count) == 0) s->awaits_data = true;
  if (error || s->read_data) return error;
  if (s->trailer.sizes) return send_trailer(connection, s);
  return flags & NGHTTP3_DATA_FLAG_NO_END_STREAM ? 0 : send_message_end(connection, s);
}

/* Asks the application for more of the body. */
static int read_body(nghttp3_conn *connection, stream *s) {
  nghttp3_vec pieces[MOST_VECTORS];
  uint32_t flags = 0;
  nghttp3_ssize count = s->read_data(connection, s->id, pieces, MOST_VECTORS, &flags, connection->user_data, s->user_data);
  if (count == NGHTTP3_ERR_WOULDBLOCK) {
    s->awaits_data = true;
    return 0;
  }
  if (count < 0) return NGHTTP3_ERR_CALLBACK_FAILURE;
  if (s->is_write_shut || s->is_closed) return 0;
  int error = send_pieces(connection, s, pieces, (size_t)count, flags);
  return error && error != NGHTTP3_ERR_NOMEM ? reset(connection, s) : error;
}

static bool wants_body(const stream *s) {
  return s->read_data && s->is_ready && !s->is_closed && !s->is_write_shut && !s->awaits_data && s->unsent_length < LEAST_UNSENT;
}

/* ---- which stream is next ---- */

/* The local unidirectional streams come first: the peer's heads may wait for them. */
static int next_own(nghttp3_conn *connection, stream **next) {
  stream *own[] = {&connection->control, &connection->decoder, &connection->encoder};
  connection->has_own_work = false;
  for (int i = 0; i < 3; i++) {
    int error = own[i]->is_untaken && own[i]->id >= 0 ? endpoint_take(connection, own[i]) : 0;
    if (own[i]->is_untaken || own[i]->unsent_length > 0) connection->has_own_work = true;
    if (error) return error;
  }
  for (int i = 0; i < 3 && !*next; i++)
    if (own[i]->unsent_length > 0 && !own[i]->is_blocked) *next = own[i];
  return 0;
}

/* The first stream of a row that has bytes or its end to send, after its body was asked for. Callbacks may change the row. */
static int next_of_row(nghttp3_conn *connection, struct stream_row *row, stream **next) {
  for (stream *s; !*next && (s = TAILQ_FIRST(row));) {
    int error = 0;
    stream_hold(s);
    while (!error && wants_body(s)) error = read_body(connection, s);
    bool is_first = !error && TAILQ_FIRST(row) == s && !s->is_closed;
    if (is_first && s->is_untaken) error = endpoint_take(connection, s);
    if (is_first && !error) {
      if (stream_has_work(s) && (s->unsent_length > 0 || s->has_ended)) *next = connection->found = s;
      else stream_unschedule(connection, s);
    }
    stream_release(connection, s);
    if (error) return error;
  }
  return 0;
}

static nghttp3_ssize hand_out(stream *s, int64_t *id, int *fin, nghttp3_vec *vectors, size_t room) {
  size_t count = 0, from = s->unsent_offset;
  chunk *at = s->unsent;
  for (; at && count < room; at = STAILQ_NEXT(at, next), from = 0)
    vectors[count++] = (nghttp3_vec){(uint8_t *)(uintptr_t)at->bytes + from, at->length - from};
  s->is_fin_offered = s->has_ended && !at;
  *id = s->id, *fin = s->is_fin_offered;
  return (nghttp3_ssize)count;
}

EXPORT nghttp3_ssize nghttp3_conn_writev_stream(nghttp3_conn *connection, int64_t *id, int *fin, nghttp3_vec *vectors, size_t room) {
  stream *next = NULL;
  *id = -1, *fin = 0;
  if (room == 0) return 0;
  int error = connection->has_own_work ? next_own(connection, &next) : 0;
  for (unsigned urgency = 0, rows; !error && !next && (rows = connection->urgencies >> urgency); urgency++) {
    urgency += (unsigned)__builtin_ctz(rows);
    error = next_of_row(connection, &connection->ready[urgency], &next);
  }
  if (error) return error;
  return next ? hand_out(next, id, fin, vectors, room) : 0;
}

/* ---- what QUIC says ---- */

EXPORT int nghttp3_conn_add_write_offset(nghttp3_conn *connection, int64_t id, size_t taken) {
  stream *s = stream_find(connection, id);
  if (!s) return 0;
  if (taken > s->unsent_length) return NGHTTP3_ERR_INVALID_ARGUMENT;
  s->unsent_length -= taken, s->sent += taken;
  for (taken += s->unsent_offset; s->unsent && taken >= s->unsent->length; s->unsent = STAILQ_NEXT(s->unsent, next))
    taken -= s->unsent->length;
  s->unsent_offset = taken;
  if (s->is_fin_offered && s->unsent_length == 0 && !s->is_fin_taken) {
    s->is_fin_taken = true;
    h3_end_taken(&connection->endpoint, s->endpoint_id);
  }
  bool has_work = stream_has_work(s);
  if (!has_work || s->priority.is_incremental) stream_unschedule(connection, s); /* RFC 9218, section 10: incremental ones take turns */
  if (has_work) stream_schedule(connection, s);
  return 0;
}

/* Forgets what is acknowledged, and says to the application how much of it is its body. What was not sent cannot be. */
static int acknowledge(nghttp3_conn *connection, stream *s, uint64_t count) {
  int error = 0;
  if (count > s->sent - s->acknowledged) count = s->sent - s->acknowledged;
  s->acknowledged += count;
  while (count > 0 && !error) {
    chunk *first = STAILQ_FIRST(&s->chunks);
    uint64_t part = first->length - s->acknowledged_offset;
    bool is_body = first->is_body;
    if (part > count) part = count;
    count -= part, s->acknowledged_offset += (size_t)part;
    if (s->acknowledged_offset == first->length) {
      STAILQ_REMOVE_HEAD(&s->chunks, next);
      s->acknowledged_offset = 0;
      chunk_free(connection, first);
    }
    if (is_body) error = CALLBACK(connection, acked_stream_data, s->id, part, connection->user_data, s->user_data);
  }
  return error;
}

EXPORT int nghttp3_conn_add_ack_offset(nghttp3_conn *connection, int64_t id, uint64_t count) {
  stream *s = stream_find(connection, id);
  if (!s) return 0;
  stream_hold(s);
  int error = acknowledge(connection, s, count);
  stream_release(connection, s);
  return error;
}

#ifdef HAS_VERSION_1
EXPORT int nghttp3_conn_update_ack_offset(nghttp3_conn *connection, int64_t id, uint64_t offset) {
  stream *s = stream_find(connection, id);
  if (!s) return 0;
  return offset < s->acknowledged ? NGHTTP3_ERR_INVALID_ARGUMENT : nghttp3_conn_add_ack_offset(connection, id, offset - s->acknowledged);
}
#endif

EXPORT void nghttp3_conn_block_stream(nghttp3_conn *connection, int64_t id) {
  stream *s = stream_find(connection, id);
  if (!s) return;
  s->is_blocked = true;
  stream_unschedule(connection, s);
}

EXPORT int nghttp3_conn_unblock_stream(nghttp3_conn *connection, int64_t id) {
  stream *s = stream_find(connection, id);
  if (!s) return 0;
  s->is_blocked = false;
  stream_schedule(connection, s);
  return 0;
}

EXPORT int nghttp3_conn_resume_stream(nghttp3_conn *connection, int64_t id) {
  stream *s = stream_find(connection, id);
  if (!s) return 0;
  s->awaits_data = false;
  stream_schedule(connection, s);
  return 0;
}

EXPORT int nghttp3_conn_is_stream_writable(nghttp3_conn *connection, int64_t id) {
  stream *s = stream_find(connection, id);
  return s && !s->is_closed && !s->is_blocked && !s->awaits_data && !s->is_write_shut;
}
