/* messages.c: the calls by which the application sends messages. */
#include <stdlib.h>
#include "connection.h"

static int submit_fields(nghttp3_conn *connection, stream *s, const nghttp3_nv *fields, size_t count) {
  uint64_t on_stack[256];
  size_t size = field_list_size(fields, count);
  void *place = size <= sizeof on_stack ? on_stack : size == SIZE_MAX ? NULL : malloc(size);
  if (!place) return NGHTTP3_ERR_NOMEM;
  field_list list = field_list_at(place, fields, count);
  int error = send_fields(connection, s, &list, false);
  if (place != on_stack) free(place);
  return error;
}

/* A head, and the body or the end. */
static int submit_message(nghttp3_conn *connection, stream *s, const nghttp3_nv *fields, size_t count,
                          const nghttp3_data_reader *reader) {
  int error = submit_fields(connection, s, fields, count);
  if (error) return error;
  if (reader) s->read_data = reader->read_data;
  else error = send_message_end(connection, s);
  stream_schedule(connection, s);
  return error;
}

/* Opens the request stream of this id, and those before it, which QUIC has opened for other ends or not at all. */
static int open_request(nghttp3_conn *connection, int64_t id) {
  uint64_t detail = 0;
  if (id < connection->next_id) return 0;
  uint32_t answer = h3_open_request_at(&connection->endpoint, (uint64_t)id, &detail);
  /* one below the next is open: a call that ran out of memory opened it */
  if (answer != H3_OK && answer != H3_OUT_OF_ORDER) return error_of_answer(answer, detail);
  connection->next_id = id + 4;
  return 0;
}

EXPORT int nghttp3_conn_submit_request(nghttp3_conn *connection, int64_t id, const nghttp3_nv *fields, size_t count,
                                       const nghttp3_data_reader *reader, void *user_data) {
  if (connection->is_server || !is_request(id)) return NGHTTP3_ERR_INVALID_ARGUMENT;
  if (id < connection->next_id && stream_find(connection, id)) return NGHTTP3_ERR_STREAM_IN_USE;
  int error = open_request(connection, id);
  if (error) return error;
  stream *s = stream_add(connection, id);
  if (!s) return NGHTTP3_ERR_NOMEM;
  s->user_data = user_data;
  error = submit_message(connection, s, fields, count, reader);
  if (error) stream_free(connection, s);
  return error;
}

EXPORT int nghttp3_conn_submit_response(nghttp3_conn *connection, int64_t id, const nghttp3_nv *fields, size_t count,
                                        const nghttp3_data_reader *reader) {
  stream *s = stream_find(connection, id);
  return s && is_request(id) ? submit_message(connection, s, fields, count, reader) : NGHTTP3_ERR_STREAM_NOT_FOUND;
}

EXPORT int nghttp3_conn_submit_info(nghttp3_conn *connection, int64_t id, const nghttp3_nv *fields, size_t count) {
  stream *s = stream_find(connection, id);
  if (!s || !is_request(id)) return NGHTTP3_ERR_STREAM_NOT_FOUND;
  int error = submit_fields(connection, s, fields, count);
  stream_schedule(connection, s);
  return error;
}

/* A trailer that comes before the end of the body is kept until then. */
EXPORT int nghttp3_conn_submit_trailers(nghttp3_conn *connection, int64_t id, const nghttp3_nv *fields, size_t count) {
  stream *s = stream_find(connection, id);
  if (!s || !is_request(id)) return NGHTTP3_ERR_STREAM_NOT_FOUND;
  if (s->has_ended || s->trailer.sizes) return NGHTTP3_ERR_INVALID_STATE;
  size_t size = field_list_size(fields, count);
  void *place = size == SIZE_MAX ? NULL : malloc(size + 1); /* not NULL for an empty list */
  if (!place) return NGHTTP3_ERR_NOMEM;
  s->trailer = field_list_at(place, fields, count);
  int error = s->read_data ? 0 : send_trailer(connection, s);
  stream_schedule(connection, s);
  return error;
}

EXPORT int nghttp3_conn_set_stream_user_data(nghttp3_conn *connection, int64_t id, void *user_data) {
  stream *s = stream_find(connection, id);
  if (!s) return NGHTTP3_ERR_STREAM_NOT_FOUND;
  s->user_data = user_data;
  return 0;
}
