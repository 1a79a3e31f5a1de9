/* One end of a connection, by nghttp3. */
#include "interop_exchange.h"
#include <stdlib.h>
#include <string.h>

typedef struct {
  nghttp3_conn *end;
  int is_client;
  size_t streams;
  message *got;
} side;

static void done(const char *what, long answer) {
  if (answer < 0) stop(what, answer);
}

static void keep(field_list *list, nghttp3_rcbuf *name, nghttp3_rcbuf *value, uint8_t flags) {
  nghttp3_vec n = nghttp3_rcbuf_get_buf(name), v = nghttp3_rcbuf_get_buf(value);
  keep_field(list, n.base, n.len, v.base, v.len, flags);
}

static int on_field(nghttp3_conn *end, int64_t id, int32_t token, nghttp3_rcbuf *name, nghttp3_rcbuf *value, uint8_t flags, void *data,
                    void *of_stream) {
  keep(&((side *)data)->got[id / 4].head, name, value, flags);
  return 0;
}

static int on_trailer(nghttp3_conn *end, int64_t id, int32_t token, nghttp3_rcbuf *name, nghttp3_rcbuf *value, uint8_t flags, void *data,
                      void *of_stream) {
  keep(&((side *)data)->got[id / 4].trailer, name, value, flags);
  return 0;
}

static int on_body(nghttp3_conn *end, int64_t id, const uint8_t *bytes, size_t len, void *data, void *of_stream) {
  put_bytes(&((side *)data)->got[id / 4].body, bytes, len);
  return 0;
}

static int on_end(nghttp3_conn *end, int64_t id, void *data, void *of_stream) {
  ((side *)data)->got[id / 4].is_whole = 1;
  return 0;
}

static nghttp3_ssize lend_body(nghttp3_conn *end, int64_t id, nghttp3_vec *pieces, size_t count, uint32_t *flags, void *data, void *of_stream) {
  const message *sent = of_stream;
  pieces[0] = (nghttp3_vec){sent->body.bytes, sent->body.len};
  *flags |= NGHTTP3_DATA_FLAG_EOF;
  if (sent->trailer.count) {
    *flags |= NGHTTP3_DATA_FLAG_NO_END_STREAM;
    done("nghttp3_conn_submit_trailers", nghttp3_conn_submit_trailers(end, id, sent->trailer.fields, sent->trailer.count));
  }
  return 1;
}

static int next(void *data, uint64_t *id, uint8_t *bytes, size_t room, size_t *len, int *fin) {
  enum { PIECES = 16 };
  side *from = data;
  nghttp3_vec pieces[PIECES];
  int64_t stream;
  size_t all = 0;
  nghttp3_ssize count = nghttp3_conn_writev_stream(from->end, &stream, fin, pieces, PIECES);
  done("nghttp3_conn_writev_stream", count);
  if (stream == -1) return 0;
  *len = 0;
  for (nghttp3_ssize i = 0; i < count; i++) {
    size_t taken = pieces[i].len < room - *len ? pieces[i].len : room - *len;
    memcpy(bytes + *len, pieces[i].base, taken);
    *len += taken;
    all += pieces[i].len;
  }
  *fin = *fin && *len == all;
  *id = (uint64_t)stream;
  done("nghttp3_conn_add_write_offset", nghttp3_conn_add_write_offset(from->end, stream, *len));
  done("nghttp3_conn_add_ack_offset", nghttp3_conn_add_ack_offset(from->end, stream, *len));
  return 1;
}

static void take(void *data, uint64_t id, const uint8_t *bytes, size_t len, int fin) {
  done("nghttp3_conn_read_stream", nghttp3_conn_read_stream(((side *)data)->end, (int64_t)id, bytes, len, fin));
}

static void send(void *data, uint64_t id, const message *sent) {
  static const nghttp3_data_reader lender = {lend_body};
  side *from = data;
  const nghttp3_data_reader *reader = sent->body.len ? &lender : NULL;
  void *of_stream = (void *)sent;
  if (from->is_client) {
    done("nghttp3_conn_submit_request",
         nghttp3_conn_submit_request(from->end, (int64_t)id, sent->head.fields, sent->head.count, reader, of_stream));
    return;
  }
  done("nghttp3_conn_set_stream_user_data", nghttp3_conn_set_stream_user_data(from->end, (int64_t)id, of_stream));
  done("nghttp3_conn_submit_response", nghttp3_conn_submit_response(from->end, (int64_t)id, sent->head.fields, sent->head.count, reader));
}

static const message *got(void *data, uint64_t id) { return &((side *)data)->got[id / 4]; }

static void let_go(void *data) {
  side *it = data;
  nghttp3_conn_del(it->end);
  free_messages(it->got, it->streams);
  free(it);
}

conn_end peer_end(int is_server, size_t table, size_t blocked, size_t streams) {
  const nghttp3_callbacks calls = {.recv_data = on_body, .recv_header = on_field, .recv_trailer = on_trailer, .end_stream = on_end};
  side *made = calloc(1, sizeof *made);
  nghttp3_settings settings;
  nghttp3_settings_default(&settings);
  settings.qpack_max_dtable_capacity = settings.qpack_encoder_max_dtable_capacity = table;
  settings.qpack_blocked_streams = blocked;
  if (is_server)
    done("nghttp3_conn_server_new", nghttp3_conn_server_new(&made->end, &calls, &settings, NULL, made));
  else
    done("nghttp3_conn_client_new", nghttp3_conn_client_new(&made->end, &calls, &settings, NULL, made));
  if (is_server) nghttp3_conn_set_max_client_streams_bidi(made->end, streams);
  nghttp3_conn_set_max_concurrent_streams(made->end, streams);
  done("nghttp3_conn_bind_control_stream", nghttp3_conn_bind_control_stream(made->end, is_server ? 3 : 2));
  done("nghttp3_conn_bind_qpack_streams", nghttp3_conn_bind_qpack_streams(made->end, is_server ? 7 : 6, is_server ? 11 : 10));
  made->is_client = !is_server;
  made->streams = streams;
  made->got = calloc(streams, sizeof *made->got);
  return (conn_end){made, next, take, send, got, let_go};
}
