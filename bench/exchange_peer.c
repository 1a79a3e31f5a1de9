/* Exchanges by nghttp3. */
#include "exchange.h"
#include "measure.h"
#include <stdlib.h>
#include <string.h>

typedef struct {
  nghttp3_conn *end;
  const field_lists *lists; /* what it sends */
  size_t body;
  int64_t *whole; /* streams whose end came, not yet answered or closed */
  size_t whole_count;
  int is_copied; /* whether what comes out is copied */
  came_out got;
} side;

static void done(const char *what, long answer) {
  if (answer < 0) stop(what, answer);
}

static int on_field(nghttp3_conn *end, int64_t id, int32_t token, nghttp3_rcbuf *name, nghttp3_rcbuf *value, uint8_t flags, void *data,
                    void *of_stream) {
  side *to = data;
  nghttp3_vec n = nghttp3_rcbuf_get_buf(name), v = nghttp3_rcbuf_get_buf(value);
  if (to->is_copied) {
    memcpy(copied, n.base, n.len);
    memcpy(copied + (1 << 8), v.base, v.len);
  }
  to->got.fields++;
  to->got.field_bytes += n.len + v.len;
  return 0;
}

static int on_head(nghttp3_conn *end, int64_t id, int last, void *data, void *of_stream) {
  ((side *)data)->got.heads++;
  return 0;
}

static int on_body(nghttp3_conn *end, int64_t id, const uint8_t *bytes, size_t len, void *data, void *of_stream) {
  side *to = data;
  if (to->is_copied) memcpy(copied, bytes, len);
  to->got.body += len;
  return 0;
}

static int on_end(nghttp3_conn *end, int64_t id, void *data, void *of_stream) {
  side *to = data;
  to->whole[to->whole_count++] = id;
  to->got.ends++;
  return 0;
}

static nghttp3_ssize lend_body(nghttp3_conn *end, int64_t id, nghttp3_vec *pieces, size_t count, uint32_t *flags, void *data, void *of_stream) {
  pieces[0] = (nghttp3_vec){exchange_body, ((side *)data)->body};
  *flags |= NGHTTP3_DATA_FLAG_EOF;
  return 1;
}

/* Copies the pieces one behind the other, as far as they fit. */
static size_t gather(const nghttp3_vec *pieces, size_t count, size_t room, size_t *all) {
  size_t len = 0;
  *all = 0;
  for (size_t i = 0; i < count; i++) {
    size_t taken = pieces[i].len < room - len ? pieces[i].len : room - len;
    memcpy(carried + len, pieces[i].base, taken);
    len += taken;
    *all += pieces[i].len;
  }
  return len;
}

static void read_piece(void *to, uint64_t id, const uint8_t *bytes, size_t len, int fin) {
  done("nghttp3_conn_read_stream", nghttp3_conn_read_stream(((side *)to)->end, (int64_t)id, bytes, len, fin));
}

/* Copies the pieces as far as they fit, one behind the other, and reads them at once, or in turn. Answers how many bytes were read. */
static size_t read_gathered(side *to, int64_t id, const nghttp3_vec *pieces, size_t count, int fin, const exchange_kind *kind) {
  size_t all, len = gather(pieces, count, kind->piece, &all);
  if (kind->in_turn) keep_piece((uint64_t)id, carried, len, fin && len == all);
  else read_piece(to, (uint64_t)id, carried, len, fin && len == all);
  return len;
}

/* Reads a piece from a block of its own. */
static void read_block(side *to, int64_t id, nghttp3_vec piece, int fin) {
  uint8_t *block = malloc(piece.len);
  if (!block) stop("no memory", (long)piece.len);
  memcpy(block, piece.base, piece.len);
  read_piece(to, (uint64_t)id, block, piece.len, fin);
  free(block);
}

static int is_of_body(nghttp3_vec piece) { return (uintptr_t)piece.base - (uintptr_t)exchange_body < sizeof exchange_body; }

/* Reads a piece of a body where it lies, and every other piece from a block of its own. Answers how many bytes were read. */
static size_t read_blocks(side *to, int64_t id, const nghttp3_vec *pieces, size_t count, int fin) {
  size_t len = 0;
  if (!count) read_piece(to, (uint64_t)id, NULL, 0, fin);
  for (size_t i = 0; i < count; i++) {
    const int is_last = fin && i + 1 == count;
    if (is_of_body(pieces[i])) read_piece(to, (uint64_t)id, pieces[i].base, pieces[i].len, is_last);
    else read_block(to, id, pieces[i], is_last);
    len += pieces[i].len;
  }
  return len;
}

/* Reads each piece where it lies, `most` bytes at once. Answers how many bytes were read. */
static size_t read_in_place(side *to, int64_t id, const nghttp3_vec *pieces, size_t count, int fin, size_t most) {
  size_t all = 0;
  if (!count) done("nghttp3_conn_read_stream", nghttp3_conn_read_stream(to->end, id, NULL, 0, fin));
  for (size_t i = 0; i < count; i++) {
    const uint8_t *bytes = pieces[i].base;
    size_t len = pieces[i].len;
    for (; len > most; bytes += most, len -= most) done("nghttp3_conn_read_stream", nghttp3_conn_read_stream(to->end, id, bytes, most, 0));
    done("nghttp3_conn_read_stream", nghttp3_conn_read_stream(to->end, id, bytes, len, fin && i + 1 == count));
    all += pieces[i].len;
  }
  return all;
}

static size_t read_all(side *to, int64_t id, const nghttp3_vec *pieces, size_t count, int fin, const exchange_kind *kind) {
  if (kind->in_place) return read_in_place(to, id, pieces, count, fin, kind->piece);
  return kind->piece ? read_gathered(to, id, pieces, count, fin, kind) : read_blocks(to, id, pieces, count, fin);
}

/* Carries all that waits. */
static void carry_all(side *from, side *to, const exchange_kind *kind) {
  enum { PIECES = 16 };
  nghttp3_vec pieces[PIECES];
  for (;;) {
    int64_t id;
    int fin;
    nghttp3_ssize count = nghttp3_conn_writev_stream(from->end, &id, &fin, pieces, PIECES);
    done("nghttp3_conn_writev_stream", count);
    if (id == -1) return read_in_turn(read_piece, to);
    size_t len = read_all(to, id, pieces, (size_t)count, fin, kind);
    done("nghttp3_conn_add_write_offset", nghttp3_conn_add_write_offset(from->end, id, len));
    done("nghttp3_conn_add_ack_offset", nghttp3_conn_add_ack_offset(from->end, id, len));
  }
}

static const nghttp3_data_reader lender = {lend_body};

static void request(side *client, size_t number) {
  const field_list *list = &client->lists->lists[number % client->lists->count];
  done("nghttp3_conn_submit_request", nghttp3_conn_submit_request(client->end, 4 * (int64_t)number, list->fields, list->count,
                                                                  client->body ? &lender : NULL, NULL));
}

static void respond(side *server, int64_t id) {
  const field_list *list = &server->lists->lists[(size_t)id / 4 % server->lists->count];
  done("nghttp3_conn_submit_response",
       nghttp3_conn_submit_response(server->end, id, list->fields, list->count, server->body ? &lender : NULL));
}

static void make(side *client, side *server, const exchange_kind *kind) {
  const nghttp3_callbacks calls = {.recv_data = on_body, .recv_header = on_field, .end_headers = on_head, .end_stream = on_end};
  nghttp3_settings settings;
  nghttp3_settings_default(&settings);
  settings.qpack_max_dtable_capacity = settings.qpack_encoder_max_dtable_capacity = kind->table;
  settings.qpack_blocked_streams = kind->blocked;
  done("nghttp3_conn_client_new", nghttp3_conn_client_new(&client->end, &calls, &settings, NULL, client));
  done("nghttp3_conn_server_new", nghttp3_conn_server_new(&server->end, &calls, &settings, NULL, server));
  nghttp3_conn_set_max_client_streams_bidi(server->end, 1u << 20);
  nghttp3_conn_set_max_concurrent_streams(server->end, kind->under_way);
  nghttp3_conn_set_max_concurrent_streams(client->end, kind->under_way);
  done("nghttp3_conn_bind_control_stream", nghttp3_conn_bind_control_stream(client->end, 2));
  done("nghttp3_conn_bind_qpack_streams", nghttp3_conn_bind_qpack_streams(client->end, 6, 10));
  done("nghttp3_conn_bind_control_stream", nghttp3_conn_bind_control_stream(server->end, 3));
  done("nghttp3_conn_bind_qpack_streams", nghttp3_conn_bind_qpack_streams(server->end, 7, 11));
}

static void close_streams(side *client, side *server) {
  for (size_t i = 0; i < client->whole_count; i++) {
    done("nghttp3_conn_close_stream", nghttp3_conn_close_stream(client->end, client->whole[i], NGHTTP3_H3_NO_ERROR));
    done("nghttp3_conn_close_stream", nghttp3_conn_close_stream(server->end, client->whole[i], NGHTTP3_H3_NO_ERROR));
  }
  client->whole_count = server->whole_count = 0;
}

static void run_connection(const exchange_kind *kind, side *client, side *server) {
  make(client, server, kind);
  carry_all(client, server, kind);
  carry_all(server, client, kind);
  for (size_t opened = 0; opened < kind->exchanges;) {
    for (size_t i = 0; i < kind->under_way && opened < kind->exchanges; i++, opened++) request(client, opened);
    carry_all(client, server, kind);
    for (size_t i = 0; i < server->whole_count; i++) respond(server, server->whole[i]);
    carry_all(server, client, kind);
    carry_all(client, server, kind);
    carry_all(server, client, kind);
    close_streams(client, server);
  }
  nghttp3_conn_del(client->end);
  nghttp3_conn_del(server->end);
}

void peer_exchanges(void *data, uint64_t rounds) {
  const exchange_kind *kind = data;
  int64_t *whole = calloc(2 * (kind->under_way + 1), sizeof *whole);
  for (; rounds; rounds--) {
    const int is_copied = kind->piece > 0 && !kind->in_place;
    side client = {NULL, kind->requests, kind->request_body, whole, 0, is_copied, {0}};
    side server = {NULL, kind->responses, kind->response_body, whole + kind->under_way + 1, 0, is_copied, {0}};
    count_held_from_here();
    run_connection(kind, &client, &server);
    want_all("nghttp3", kind, &server.got, &client.got);
  }
  free(whole);
}
