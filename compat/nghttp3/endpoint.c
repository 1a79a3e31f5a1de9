/* endpoint.c: how bytes leave the endpoint, and how those of streams without messages enter it. */
#include <stdlib.h>
#include <string.h>
#include "connection.h"

enum {
  PIECE = 1024,
  SPARE = 16,     /* room of a chunk for the head of a DATA frame after its bytes */
  BLOCK_ROOM = 80 /* of a chunk of the pool: for most heads of messages */
};

/* ---- what leaves ---- */

/* A chunk that has no bytes yet, and room for so many. */
static chunk *chunk_new(nghttp3_conn *connection, size_t room) {
  bool is_block = room + SPARE <= BLOCK_ROOM;
  size_t whole = is_block ? BLOCK_ROOM : room + SPARE;
  chunk *new = is_block ? block_take(&connection->spare_chunks, sizeof *new + whole) : malloc(sizeof *new + whole);
  if (new) *new = (chunk){.bytes = (const uint8_t *)(new + 1), .room = whole, .is_block = is_block};
  return new;
}

void chunk_free(nghttp3_conn *connection, chunk *old) {
  if (old->is_block) block_give(&connection->spare_chunks, old);
  else free(old);
}

static void append(stream *s, chunk *last) {
  STAILQ_INSERT_TAIL(&s->chunks, last, next);
  s->last = last;
  if (!s->unsent) s->unsent = last, s->unsent_offset = 0;
  s->unsent_length += last->length;
}

/* The last chunk, if so many bytes fit after its own and QUIC does not have it whole; else NULL. */
static chunk *last_with_room(stream *s, size_t length) {
  return s->unsent && !s->last->is_body && s->last->room >= length ? s->last : NULL;
}

int append_copy(nghttp3_conn *connection, stream *s, const uint8_t *bytes, size_t length) {
  chunk *open = last_with_room(s, length), *last = open ? open : chunk_new(connection, length);
  if (!last) return NGHTTP3_ERR_NOMEM;
  if (!open) append(s, last);
  memcpy((uint8_t *)(last + 1) + last->length, bytes, length);
  last->length += length, last->room -= length, s->unsent_length += length;
  return 0;
}

/* Takes all that the endpoint has for the stream. Where memory is refused the rest stays there. */
int endpoint_take(nghttp3_conn *connection, stream *s) {
  uint8_t bytes[PIECE];
  size_t length, past;
  s->is_untaken = true;
  do {
    length = past = 0;
    h3_outgoing(&connection->endpoint, s->endpoint_id, bytes, sizeof bytes, &length, &past, NULL);
    if (length > 0 && append_copy(connection, s, bytes, length)) return NGHTTP3_ERR_NOMEM;
    if (past > 0) append(s, s->announced), s->announced = NULL;
    if (length + past > 0) h3_advance(&connection->endpoint, s->endpoint_id, length + past);
  } while (length == sizeof bytes);
  s->is_untaken = false;
  return 0;
}

/* Sends a piece of a body, which stays in the application's memory: the endpoint writes the type and length of its frame, and is told the
 * length of the payload. */
int endpoint_send_body(nghttp3_conn *connection, stream *s, const nghttp3_vec *body) {
  uint64_t detail = 0;
  if (body->len == 0) return 0;
  int error = s->announced ? endpoint_take(connection, s) : 0;
  if (error) return error;
  chunk *piece = chunk_new(connection, 0);
  if (!piece) return NGHTTP3_ERR_NOMEM;
  piece->bytes = body->base, piece->length = body->len, piece->is_body = true;
  uint32_t answer = h3_send_body_of(&connection->endpoint, s->endpoint_id, body->len, &detail);
  if (answer != H3_OK) {
    chunk_free(connection, piece);
    return error_of_answer(answer, detail);
  }
  s->announced = piece;
  return endpoint_take(connection, s);
}

/* ---- what enters ---- */

/* The bytes of a piece of a body that the endpoint holds: a copy until the next call of this file. */
int endpoint_copied_body(nghttp3_conn *connection, const h3_item *item, const uint8_t **bytes) {
  size_t length;
  if (!reserve_scratch(connection, item->len)) return NGHTTP3_ERR_NOMEM;
  *bytes = connection->scratch;
  return h3_item_bytes(&connection->endpoint, 0, connection->scratch, item->len, &length) == H3_OK ? 0 : NGHTTP3_ERR_H3_INTERNAL_ERROR;
}

/* Bytes of a stream that has no items. */
int endpoint_deliver(nghttp3_conn *connection, int64_t id, const uint8_t *bytes, size_t length, bool has_fin) {
  uint64_t detail = 0;
  uint32_t answer = H3_OK;
  if (length > 0) answer = h3_deliver(&connection->endpoint, (uint64_t)id, bytes, length, &detail);
  if (has_fin && (answer == H3_OK || answer == H3_KEPT)) answer = h3_deliver_end(&connection->endpoint, (uint64_t)id, &detail);
  return error_of_answer(answer, detail);
}
