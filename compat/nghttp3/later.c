/* later.c: the calls that nghttp3 has since 1.9, up to 1.17. */
#include "connection.h"
#ifdef HAS_VERSION_1_17

/* Bytes that came at a time. No limit here depends on it: the library has limits of its own, and none on how often something comes. */
EXPORT nghttp3_ssize nghttp3_conn_read_stream2(nghttp3_conn *connection, int64_t id, const uint8_t *bytes, size_t length, int fin,
                                               nghttp3_tstamp now) {
  return (void)now, nghttp3_conn_read_stream(connection, id, bytes, length, fin);
}

/* ---- calls of 1.8, of a connection that is not changed: but for the note which stream was found last, and bytes that were kept ---- */

static nghttp3_conn *noting(const nghttp3_conn *connection) { return (nghttp3_conn *)(uintptr_t)connection; }

EXPORT int nghttp3_conn_is_drained2(const nghttp3_conn *connection) { return nghttp3_conn_is_drained(noting(connection)); }

EXPORT int nghttp3_conn_is_stream_writable2(const nghttp3_conn *connection, int64_t id) {
  return nghttp3_conn_is_stream_writable(noting(connection), id);
}

EXPORT int nghttp3_conn_get_stream_priority2_versioned(const nghttp3_conn *connection, int version, nghttp3_pri *to, int64_t id) {
  return nghttp3_conn_get_stream_priority_versioned(noting(connection), version, to, id);
}

EXPORT uint64_t nghttp3_conn_get_frame_payload_left2(const nghttp3_conn *connection, int64_t id) {
  return nghttp3_conn_get_frame_payload_left(noting(connection), id);
}

/* ---- what a stream is ---- */

EXPORT void *nghttp3_conn_get_stream_user_data(const nghttp3_conn *connection, int64_t id) {
  const stream *s = stream_find(noting(connection), id);
  return s ? s->user_data : NULL;
}

/* Has QUIC all bytes that the stream has now? */
EXPORT int nghttp3_conn_is_stream_flushed(const nghttp3_conn *connection, int64_t id) {
  const stream *s = stream_find(noting(connection), id);
  return !s || (s->unsent_length == 0 && !s->is_untaken);
}

/* ---- variable-length integers of the application (RFC 9000, section 16) ---- */

EXPORT size_t nghttp3_put_uvarintlen(uint64_t number) { return integer_length(number); }
EXPORT uint8_t *nghttp3_put_uvarint(uint8_t *to, uint64_t number) { return write_integer(to, number); }
EXPORT size_t nghttp3_get_uvarintlen(const uint8_t *from) { return (size_t)1 << (*from >> 6); }

EXPORT const uint8_t *nghttp3_get_uvarint(uint64_t *to, const uint8_t *from) {
  const uint8_t *end = from + nghttp3_get_uvarintlen(from);
  uint64_t number = *from++ & 0x3f;
  while (from < end) number = number << 8 | *from++;
  *to = number;
  return end;
}

EXPORT const uint8_t *nghttp3_get_varint(int64_t *to, const uint8_t *from) {
  uint64_t number;
  from = nghttp3_get_uvarint(&number, from);
  *to = (int64_t)number;
  return from;
}
#else
typedef int no_later_calls; /* C has no empty file */
#endif
