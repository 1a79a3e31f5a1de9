/* priorities.c: the calls about priorities (RFC 9218). Version 0.8 has them under other names, and with another struct. */
#include <stdlib.h>
#include <string.h>
#include "connection.h"

static nghttp3_pri to_struct(priority from) { return (nghttp3_pri){.urgency = from.urgency, .inc = from.is_incremental}; }

static int get_priority(nghttp3_conn *connection, nghttp3_pri *to, int64_t id) {
  if (!is_request(id)) return NGHTTP3_ERR_INVALID_ARGUMENT;
  stream *s = stream_find(connection, id);
  if (!s) return NGHTTP3_ERR_STREAM_NOT_FOUND;
  *to = to_struct(s->priority);
  return 0;
}

static int set_priority(nghttp3_conn *connection, int64_t id, const nghttp3_pri *from) {
  if (!is_request(id) || from->urgency > NGHTTP3_URGENCY_LOW || (from->inc != 0 && from->inc != 1)) return NGHTTP3_ERR_INVALID_ARGUMENT;
  stream *s = stream_find(connection, id);
  if (!s) return NGHTTP3_ERR_STREAM_NOT_FOUND;
  uint32_t answer = h3_set_priority(&connection->endpoint, s->endpoint_id, from->urgency, from->inc, NULL);
  if (answer == H3_MEMORY) return NGHTTP3_ERR_NOMEM;
  stream_set_priority(connection, s, (priority){from->urgency, from->inc});
  return 0;
}

/* The endpoint knows which priority counts of a stream: its application's, else that of the client's last PRIORITY_UPDATE, else its request's. */
void stream_read_priority(nghttp3_conn *connection, stream *s) {
  uint32_t urgency, incremental;
  if (h3_priority(&connection->endpoint, s->endpoint_id, &urgency, &incremental) != H3_OK) return;
  if (s->priority.urgency == urgency && s->priority.is_incremental == (incremental != 0)) return;
  stream_set_priority(connection, s, (priority){urgency, incremental != 0});
}

/* PRIORITY_UPDATE frames may have come (RFC 9218, section 7.2): the endpoint uses those of the streams that are open, and drops those of others that
 * are over. */
void read_priorities(nghttp3_conn *connection) {
  uint64_t next;
  h3_next_by_priority(&connection->endpoint, &next);
  for (size_t i = 0; i < connection->places; i++)
    for (stream *s = connection->table[i]; s; s = s->next) stream_read_priority(connection, s);
}

/* ---- the `priority` field: the library's parser reads it, which is proved ---- */

/* The fields of a request, from the `priority` field `first` on: several of them are one, with their values joined by ", " (RFC 9110,
 * section 5.3). What it says counts unless the client or the application says another priority (RFC 9218, section 5). */
int read_priority_fields(nghttp3_conn *connection, stream *s, const section *all, size_t count, size_t first) {
  nghttp3_vec value = all->buffers[2 * first + 1].bytes;
  for (size_t i = first + 1; i < count; i++) {
    nghttp3_vec name = all->buffers[2 * i].bytes, more = all->buffers[2 * i + 1].bytes;
    if (token_of(name.base, name.len) != NGHTTP3_QPACK_TOKEN_PRIORITY) continue;
    size_t length = value.len + 2 + more.len;
    bool is_joined = value.base == connection->scratch;
    if (!reserve_scratch(connection, length)) return NGHTTP3_ERR_NOMEM;
    if (!is_joined) memcpy(connection->scratch, value.base, value.len);
    memcpy(connection->scratch + value.len, ", ", 2);
    memcpy(connection->scratch + value.len + 2, more.base, more.len);
    value = (nghttp3_vec){connection->scratch, length};
  }
  uint32_t urgency, incremental;
  if (h3_priority_read(value.base, value.len, &urgency, &incremental) != H3_OK) return 0;
  if (h3_set_initial_priority(&connection->endpoint, s->endpoint_id, urgency, incremental, NULL) == H3_MEMORY) return NGHTTP3_ERR_NOMEM;
  stream_read_priority(connection, s);
  return 0;
}

/* A member that the value does not have keeps what it is. The library says its default then, 3 and 0; and after other members it says
 * theirs, since the last member of a key counts (RFC 8941, section 3.2). A blank value has no member. */
static int parse_priority(nghttp3_pri *to, const uint8_t *value, size_t length) {
  static const char OTHER[] = {'u', '=', '0', ',', ' ', 'i', ',', ' '};
  uint32_t urgency, incremental, other_urgency, other_incremental;
  uint8_t on_stack[256];
  if (h3_priority_read(value, length, &urgency, &incremental) != H3_OK) return NGHTTP3_ERR_INVALID_ARGUMENT;
  size_t size = sizeof OTHER + length;
  uint8_t *joined = size <= sizeof on_stack ? on_stack : malloc(size);
  if (!joined) return NGHTTP3_ERR_NOMEM;
  memcpy(joined, OTHER, sizeof OTHER);
  if (length > 0) memcpy(joined + sizeof OTHER, value, length);
  bool has_members = h3_priority_read(joined, size, &other_urgency, &other_incremental) == H3_OK;
  if (has_members && urgency == other_urgency) to->urgency = urgency;
  if (has_members && incremental == other_incremental) to->inc = incremental != 0;
  if (joined != on_stack) free(joined);
  return 0;
}

/* ---- the calls of each version ---- */

#ifndef HAS_VERSION_1
EXPORT int nghttp3_conn_get_stream_priority(nghttp3_conn *connection, nghttp3_pri *to, int64_t id) {
  return get_priority(connection, to, id);
}
EXPORT int nghttp3_conn_set_stream_priority(nghttp3_conn *connection, int64_t id, const nghttp3_pri *from) {
  return set_priority(connection, id, from);
}
EXPORT int nghttp3_http_parse_priority(nghttp3_pri *to, const uint8_t *value, size_t length) { return parse_priority(to, value, length); }
#else
EXPORT int nghttp3_conn_get_stream_priority_versioned(nghttp3_conn *connection, int version, nghttp3_pri *to, int64_t id) {
  return (void)version, get_priority(connection, to, id);
}

EXPORT int nghttp3_conn_set_server_stream_priority_versioned(nghttp3_conn *connection, int64_t id, int version, const nghttp3_pri *from) {
  return (void)version, set_priority(connection, id, from);
}

EXPORT int nghttp3_pri_parse_priority_versioned(int version, nghttp3_pri *to, const uint8_t *value, size_t length) {
  return (void)version, parse_priority(to, value, length);
}

/* A PRIORITY_UPDATE frame (RFC 9218, section 7.2) goes out after what the endpoint wrote on its control stream, which is whole frames. */
EXPORT int nghttp3_conn_set_client_stream_priority(nghttp3_conn *connection, int64_t id, const uint8_t *value, size_t length) {
  enum { PRIORITY_UPDATE = 0xf0700 };
  if (!is_request(id)) return NGHTTP3_ERR_INVALID_ARGUMENT;
  if (!stream_find(connection, id)) return NGHTTP3_ERR_STREAM_NOT_FOUND;
  uint8_t id_bytes[LONGEST_INTEGER];
  size_t id_length = (size_t)(write_integer(id_bytes, (uint64_t)id) - id_bytes);
  uint8_t *frame = malloc(3 * LONGEST_INTEGER + length);
  if (!frame) return NGHTTP3_ERR_NOMEM;
  uint8_t *end = write_integer(write_integer(frame, PRIORITY_UPDATE), id_length + length);
  memcpy(end, id_bytes, id_length), end += id_length;
  if (length > 0) memcpy(end, value, length);
  may_have_bytes(connection, &connection->control);
  int error = endpoint_take(connection, &connection->control);
  if (!error) error = append_copy(connection, &connection->control, frame, (size_t)(end - frame) + length);
  free(frame);
  return error;
}
#endif
