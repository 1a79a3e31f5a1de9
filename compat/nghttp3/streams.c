/* streams.c: the table of request streams, the order among those that have something to send, and how long a stream lives. */
#include <stdlib.h>
#include <string.h>
#include "connection.h"

/* ---- the table ---- */

/* There are 128, 256, .. places: a power of 2. */
static stream **place_of(stream **table, size_t places, int64_t id) { return table + (((uint64_t)id >> 2) & (places - 1)); }

/* The local unidirectional stream that is bound to this id; else NULL. */
static stream *find_own(nghttp3_conn *connection, int64_t id) {
  stream *own[] = {&connection->control, &connection->encoder, &connection->decoder};
  for (int i = 0; i < 3; i++)
    if (id >= 0 && own[i]->id == id) return own[i];
  return NULL;
}

APART stream *stream_look_up(nghttp3_conn *connection, int64_t id) {
  if (!is_request(id)) return find_own(connection, id);
  stream *s = *place_of(connection->table, connection->places, id);
  while (s && s->id != id) s = s->next;
  if (s) connection->found = s;
  return s;
}

bool table_grow(nghttp3_conn *connection) {
  size_t places = connection->places ? 2 * connection->places : 128; /* most QUIC libraries let 100 be open at once */
  stream **table = calloc(places, sizeof *table);
  if (!table) return false;
  for (size_t i = 0; i < connection->places; i++)
    for (stream *s = connection->table[i], *next; s; s = next) {
      stream **place = place_of(table, places, s->id);
      next = s->next, s->next = *place, *place = s;
    }
  free(connection->table);
  connection->table = table, connection->places = places;
  return true;
}

void stream_init(stream *s, int64_t id, uint64_t endpoint_id) {
  memset(s, 0, sizeof *s);
  s->id = id, s->endpoint_id = endpoint_id, s->priority.urgency = NGHTTP3_DEFAULT_URGENCY, s->awaits_head = true;
  STAILQ_INIT(&s->chunks);
}

/* A request stream, which is not in the table yet. NULL where memory is refused. */
inline stream *stream_add(nghttp3_conn *connection, int64_t id) {
  if (connection->streams >= connection->places && !table_grow(connection)) return NULL;
  stream *s = block_take(&connection->spare_streams, sizeof *s);
  if (!s) return NULL;
  stream_init(s, id, (uint64_t)id);
  stream **place = place_of(connection->table, connection->places, id);
  s->next = *place, *place = s, connection->streams++;
  connection->found = s;
  return s;
}

/* Frees what a stream keeps. */
void stream_clear(nghttp3_conn *connection, stream *s) {
  for (chunk *first; (first = STAILQ_FIRST(&s->chunks));) {
    STAILQ_REMOVE_HEAD(&s->chunks, next);
    chunk_free(connection, first);
  }
  if (s->announced) chunk_free(connection, s->announced);
  if (s->trailer.sizes) free(s->trailer.sizes);
}

/* ---- blocks ---- */

/* A block of a pool that has none left. */
void *pool_grow(block_pool *pool, size_t size) {
  enum { FIRST_COUNT = 4, MOST_COUNT = 64, HEAD = 16 };
  size_t count = pool->last_count == 0 ? FIRST_COUNT : pool->last_count < MOST_COUNT ? 2 * pool->last_count : MOST_COUNT;
  spare_block *slab = malloc(HEAD + count * size);
  if (!slab) return NULL;
  slab->next = pool->slabs, pool->slabs = slab, pool->last_count = count;
  uint8_t *block = (uint8_t *)slab + HEAD;
  for (size_t i = 1; i < count; i++) block_give(pool, block + i * size);
  return block;
}

void pool_clear(block_pool *pool) {
  for (spare_block *slab = pool->slabs, *next; slab; slab = next) {
    next = slab->next;
    free(slab);
  }
}

/* Takes a request stream out of the table, and frees it. */
inline void stream_free(nghttp3_conn *connection, stream *s) {
  stream_unschedule(connection, s);
  stream_set_waiting(connection, s, false);
  stream **place = place_of(connection->table, connection->places, s->id);
  while (*place != s) place = &(*place)->next;
  *place = s->next, connection->streams--;
  if (connection->found == s) connection->found = NULL;
  stream_clear(connection, s);
  block_give(&connection->spare_streams, s);
}

/* ---- the order among streams (RFC 9218, section 10) ---- */

/* May bytes or the end of the stream be sent, or its body be asked for? */
bool stream_has_work(const stream *s) {
  if (s->is_blocked || s->is_write_shut) return false;
  return s->unsent_length > 0 || s->is_untaken || (s->has_ended && !s->is_fin_taken) || (s->read_data && !s->awaits_data);
}

/* Puts a request stream that has work last among those of its urgency. */
void stream_schedule(nghttp3_conn *connection, stream *s) {
  if (s->is_ready || !stream_has_work(s) || !is_request(s->id)) return;
  TAILQ_INSERT_TAIL(&connection->ready[s->priority.urgency], s, ready);
  connection->urgencies |= 1u << s->priority.urgency;
  s->is_ready = true;
}

void stream_unschedule(nghttp3_conn *connection, stream *s) {
  if (!s->is_ready) return;
  struct stream_row *row = &connection->ready[s->priority.urgency];
  TAILQ_REMOVE(row, s, ready);
  if (TAILQ_EMPTY(row)) connection->urgencies &= ~(1u << s->priority.urgency);
  s->is_ready = false;
}

void stream_set_priority(nghttp3_conn *connection, stream *s, priority to) {
  stream_unschedule(connection, s);
  s->priority = to;
  stream_schedule(connection, s);
}

bool reserve_scratch(nghttp3_conn *connection, size_t size) {
  if (size <= connection->scratch_size) return true;
  uint8_t *larger = realloc(connection->scratch, size + size / 2);
  if (!larger) return false;
  connection->scratch = larger, connection->scratch_size = size + size / 2;
  return true;
}
