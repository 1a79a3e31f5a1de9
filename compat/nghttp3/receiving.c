/* receiving.c: the callbacks for what came on a stream, and the end of a stream. */
#include <stdlib.h>
#include <string.h>
#include "input.h"

/* ---- streams that are given up ---- */

/* The application gets nothing more of the stream. */
void give_up_reading(nghttp3_conn *connection, stream *s) {
  s->is_read_shut = true;
  stream_set_waiting(connection, s, false);
  h3_cancel(&connection->endpoint, s->endpoint_id, NULL);
  may_have_bytes(connection, &connection->decoder);
}

/* Nothing more of the stream is sent. */
void give_up_writing(nghttp3_conn *connection, stream *s) {
  h3_reset(&connection->endpoint, s->endpoint_id, NULL);
  s->is_write_shut = true;
  stream_unschedule(connection, s);
}

/* Both ends of a stream, with a code of the application protocol (RFC 9000, sections 19.4 and 19.5). */
static int refuse(nghttp3_conn *connection, stream *s, uint64_t code) {
  int error = CALLBACK(connection, stop_sending, s->id, code, connection->user_data, s->user_data);
  return error ? error : CALLBACK(connection, reset_stream, s->id, code, connection->user_data, s->user_data);
}

static int refuse_message(nghttp3_conn *connection, stream *s, uint64_t code) {
  give_up_reading(connection, s);
  give_up_writing(connection, s);
  return refuse(connection, s, code);
}

/* ---- items ---- */

static int tell_each(nghttp3_conn *connection, stream *s, section *all, size_t count, bool is_trailer) {
  nghttp3_recv_header tell = is_trailer ? connection->callbacks.recv_trailer : connection->callbacks.recv_header;
  size_t first_priority = count;
  for (size_t i = 0; i < count && !s->is_read_shut; i++) {
    nghttp3_rcbuf *name = all->buffers + 2 * i, *value = name + 1;
    uint8_t flags = all->flags[i] & H3_NEVER_INDEX ? NGHTTP3_NV_FLAG_NEVER_INDEX : NGHTTP3_NV_FLAG_NONE;
    int32_t token = token_of(name->bytes.base, name->bytes.len);
    if (token == NGHTTP3_QPACK_TOKEN_PRIORITY && i < first_priority) first_priority = i;
    if (tell && tell(connection, s->id, token, name, value, flags, connection->user_data, s->user_data)) return NGHTTP3_ERR_CALLBACK_FAILURE;
  }
  bool has_priority = first_priority < count && connection->is_server && !is_trailer && !s->is_read_shut;
  return has_priority ? read_priority_fields(connection, s, all, count, first_priority) : 0;
}

static int tell_fields(nghttp3_conn *connection, stream *s, const h3_item *item) {
  bool is_trailer = item->kind == H3_TRAILER;
  section *all = section_take(connection, item);
  if (!all) return NGHTTP3_ERR_NOMEM;
  int error = is_trailer ? CALLBACK(connection, begin_trailers, s->id, connection->user_data, s->user_data)
                         : CALLBACK(connection, begin_headers, s->id, connection->user_data, s->user_data);
  if (connection->has_updates && !is_trailer) stream_read_priority(connection, s); /* of an update that came before the stream */
  if (!error) error = tell_each(connection, s, all, item->fields, is_trailer);
  section_give(connection, all);
  return error;
}

/* The callback for the end of a field section comes with the next item: then it is known whether the stream ends there. */
static int tell_end_of_fields(nghttp3_conn *connection, stream *s, uint32_t kind, int is_end) {
  return kind == H3_TRAILER ? CALLBACK(connection, end_trailers, s->id, is_end, connection->user_data, s->user_data)
                            : CALLBACK(connection, end_headers, s->id, is_end, connection->user_data, s->user_data);
}

static inline int tell_body(nghttp3_conn *connection, stream *s, const uint8_t *bytes, size_t length) {
  return CALLBACK(connection, recv_data, s->id, bytes, length, connection->user_data, s->user_data);
}

/* The application grants credit for the bytes that recv_data gets. */
static void count_body(stream *s, size_t length) { s->owed -= length < s->owed ? length : s->owed; }

static int tell_given_body(nghttp3_conn *connection, stream *s, const reading *now) {
  s->may_be_held = false;
  count_body(s, now->item.len);
  return tell_body(connection, s, now->given + now->item.number, now->item.len);
}

static int tell_copied_body(nghttp3_conn *connection, stream *s, const h3_item *item) {
  const uint8_t *bytes = NULL;
  if (item->len == 0) return 0;
  count_body(s, item->len);
  int error = connection->callbacks.recv_data ? endpoint_copied_body(connection, item, &bytes) : 0;
  return error ? error : tell_body(connection, s, bytes, item->len);
}

enum { NOTHING_FOLLOWS = 1 }; /* of tell_item, beside 0 and errors */

/* Any item but a piece of a body in the bytes that came. */
static int tell_item(nghttp3_conn *connection, stream *s, const h3_item *item) {
  stream_set_waiting(connection, s, item->kind == H3_WAITING);
  if (connection->has_own_table) may_have_bytes(connection, &connection->decoder); /* for a section (RFC 9204, section 4.4.1) */
  switch (item->kind) {
    case H3_HEAD: s->awaits_head = false; return tell_fields(connection, s, item);
    case H3_INTERIM:
    case H3_TRAILER: return tell_fields(connection, s, item);
    case H3_BODY: return tell_copied_body(connection, s, item);
    case H3_END: s->is_read_shut = true; return CALLBACK(connection, end_stream, s->id, connection->user_data, s->user_data);
    case H3_TOO_LARGE_HEAD: return refuse_message(connection, s, NGHTTP3_H3_EXCESSIVE_LOAD);
    case H3_FAULT_MALFORMED: return refuse_message(connection, s, h3_error_code(H3_FAULT_MALFORMED, item->number, connection->is_server));
    case H3_FAULT_CONNECTION: return error_of_code(item->number);
    case H3_FAULT_MEMORY: return NGHTTP3_ERR_NOMEM;
    default: return NOTHING_FOLLOWS;
  }
}

static bool is_section(uint32_t kind) { return kind == H3_HEAD || kind == H3_INTERIM || kind == H3_TRAILER; }

/* Is nothing there after what was read? The endpoint need not be asked then. */
static bool is_all(const stream *s, const input *in) { return in->length == 0 && !in->has_fin && !s->may_be_held; }

/* Is only the end there? */
static bool is_at_end(const stream *s, const input *in) { return in->length == 0 && in->has_fin && !s->may_be_held; }

static bool is_pause(uint32_t kind) { return kind == H3_PENDING || kind == H3_WAITING; }

/* Does the application get nothing more of the stream? */
static inline bool is_shut(const stream *s) { return s->is_read_shut || s->is_closed; }

/* What was taken though memory was refused is read by a pull. */
static int pull_kept(nghttp3_conn *connection, stream *s, reading *now) {
  if (now->answer == H3_KEPT) {
    s->may_be_held = true;
    now->answer = h3_pull(&connection->endpoint, s->endpoint_id, &now->item);
  }
  return error_of_answer(now->answer, now->detail);
}

/* The next item, from what was read on: `in` begins after that then. After a pause all bytes are read, and then the end: so a body that it
 * cuts short is passed on as far as it came, in whichever pieces. */
static int next_item(nghttp3_conn *connection, stream *s, input *in, reading *now) {
  for (;; read_on(connection, s, *in, in->length == 0, now)) {
    now->given = in->bytes;
    in->bytes += now->used, in->length -= now->used;
    int error = now->answer == H3_OK ? 0 : pull_kept(connection, s, now);
    if (error || !is_pause(now->item.kind)) return error;
    if (now->used > 0) s->may_be_held = true;
    if (in->length == 0 && (now->has_end || !in->has_fin)) return 0;
  }
}

/* ---- the type and length of a DATA frame whose payload comes later ---- */

/* Are these bytes the type and length of a DATA frame that has a payload, and no more? */
static bool is_data_head(const uint8_t *bytes, size_t length) {
  if (length < 2 || bytes[0] != 0 || length != 1 + number_length(bytes[1])) return false;
  unsigned some = bytes[1] & 0x3f;
  for (size_t i = 2; i < length; i++) some |= bytes[i];
  return some != 0;
}

/* Keeps them if they are all that is left in a body. The endpoint would copy them, and reads them where they lie if a byte of the payload
 * comes after them. */
static bool keep_head(stream *s, input *in, uint32_t before) {
  if (in->has_fin || s->may_be_held || (before != H3_HEAD && before != H3_BODY_GIVEN) || !is_data_head(in->bytes, in->length)) return false;
  memcpy(s->head, in->bytes, in->length);
  s->head_length = (uint8_t)in->length, in->length = 0;
  return true;
}

/* Reads the next item of `in`, from its front on. */
static inline void read_front(nghttp3_conn *connection, stream *s, const input *in, reading *to) {
  if (is_at_end(s, in)) read_end(connection, s, *in, to);
  else read_on(connection, s, (input){in->bytes, first_length(s, in), in->has_fin}, false, to);
}

/* Passes all items that are there, of what came before and of `in`, from what was read of it on. */
static int tell_items(nghttp3_conn *connection, stream *s, input *in, reading *now) {
  uint32_t before = 0; /* the kind of the item before, if that is a header or trailer section */
  for (;; read_front(connection, s, in, now)) {
    int error = next_item(connection, s, in, now);
    uint32_t kind = now->item.kind;
    if (!error && before) error = tell_end_of_fields(connection, s, before, kind == H3_END);
    if (error || is_shut(s)) return error;
    error = kind == H3_BODY_GIVEN ? tell_given_body(connection, s, now) : tell_item(connection, s, &now->item);
    if (error == NOTHING_FOLLOWS) return 0;
    if (error || is_shut(s)) return error;
    before = is_section(kind) ? kind : 0;
    if ((before || kind == H3_BODY_GIVEN) && (is_all(s, in) || keep_head(s, in, kind))) break;
  }
  return before ? tell_end_of_fields(connection, s, before, 0) : 0;
}

/* Passes all items of `in` from its front on. */
static int tell_from_front(nghttp3_conn *connection, stream *s, input *in) {
  reading now;
  read_front(connection, s, in, &now);
  return tell_items(connection, s, in, &now);
}

static bool is_given_body(const reading *now) { return now->answer == H3_OK && now->item.kind == H3_BODY_GIVEN; }

/* The same after one byte of a body, which `body` told: with what follows of that body it is one piece. */
static int tell_from_body(nghttp3_conn *connection, stream *s, input *in, reading *body) {
  reading next;
  body->used = body->item.len = 1, body->item.number = 0;
  if (in->length == 1) return tell_items(connection, s, in, body);
  input rest = {in->bytes + 1, in->length - 1, in->has_fin};
  read_on(connection, s, rest, false, &next);
  if (is_given_body(&next) && next.item.number == 0) {
    body->used += next.used, body->item.len += next.item.len;
    return tell_items(connection, s, in, body);
  }
  body->given = in->bytes;
  int error = tell_given_body(connection, s, body);
  return error ? error : tell_items(connection, s, &rest, &next);
}

/* The same after the type and length of a DATA frame that were kept: the endpoint gets them now, with the first byte of `in`. */
static APART int tell_after_head(nghttp3_conn *connection, stream *s, input *in) {
  uint8_t bytes[MOST_HEAD + 1];
  size_t first = in->length > 0;
  reading now;
  input head = {bytes, s->head_length + first, false};
  memcpy(bytes, s->head, MOST_HEAD);
  if (first) bytes[s->head_length] = *in->bytes;
  s->head_length = 0;
  read_on(connection, s, head, false, &now);
  if (is_given_body(&now)) return tell_from_body(connection, s, in, &now);
  in->bytes += first, in->length -= first;
  int error = tell_items(connection, s, &head, &now);
  return error || is_shut(s) ? error : tell_from_front(connection, s, in);
}

/* ---- credit ---- */

/* The bytes for which credit is due now: all but those after a head that waits for the peer's encoder. */
static inline size_t take_credit(nghttp3_conn *connection, stream *s) {
  size_t due = s->owed, kept = 0;
  h3_stream_state state;
  s->owed = 0;
  if (!s->is_waiting) return due;
  if (h3_stream(&connection->endpoint, s->endpoint_id, &state) == H3_OK)
    kept = state.unread < due ? (size_t)state.unread : due;
  s->owed = kept;
  return due - kept;
}

/* Passes all items of what came on a request stream. `first`: what was read of it; NULL if nothing was. Answers for how many bytes credit
 * is due. */
static APART nghttp3_ssize pass_items(nghttp3_conn *connection, stream *s, const uint8_t *bytes, size_t length, int fin,
                                      reading *first) {
  input in = {length > 0 ? bytes : (const uint8_t *)"", length, fin};
  int error;
  stream_hold(s);
  s->owed += length;
  if (first) error = tell_items(connection, s, &in, first);
  else if (s->head_length == 0) error = tell_from_front(connection, s, &in);
  else error = length > 0 || fin ? tell_after_head(connection, s, &in) : 0;
  size_t credit = take_credit(connection, s);
  stream_release(connection, s);
  return error ? error : (nghttp3_ssize)credit;
}

/* Bytes of a request stream after the header section, without the end. Most packets are a piece of a body and nothing else: the stream is
 * not looked at after the callback then, so it need not be held. */
static nghttp3_ssize read_bytes(nghttp3_conn *connection, stream *s, const uint8_t *bytes, size_t length) {
  reading now;
  read_on(connection, s, (input){bytes, length, false}, false, &now);
  if (now.answer != H3_OK || now.item.kind != H3_BODY_GIVEN || now.used < length)
    return pass_items(connection, s, bytes, length, false, &now);
  size_t credit = s->owed + length - now.item.len;
  s->owed = 0, s->may_be_held = false;
  int error = tell_body(connection, s, bytes + now.item.number, now.item.len);
  return error ? error : (nghttp3_ssize)credit;
}

/* ---- the end of a stream ---- */

static int close_now(nghttp3_conn *connection, stream *s) {
  int error = CALLBACK(connection, stream_close, s->id, s->close_code, connection->user_data, s->user_data);
  if (!s->is_read_shut) give_up_reading(connection, s);
  if (!s->is_fin_taken) give_up_writing(connection, s);
  stream_unschedule(connection, s);
  s->is_closed = true;
  return error;
}

/* A unidirectional stream of the peer (RFC 9000, section 2.1). */
static bool is_of_peer(const nghttp3_conn *connection, int64_t id) { return id % 4 != 0 && (id % 2 == 1) != connection->is_server; }

/* A stream whose head waits is closed after that message, as nghttp3 does: its application gets all that came. */
EXPORT int nghttp3_conn_close_stream(nghttp3_conn *connection, int64_t id, uint64_t code) {
  stream *s = stream_find(connection, id);
  if (!s) return is_of_peer(connection, id) ? 0 : NGHTTP3_ERR_STREAM_NOT_FOUND;
  if (!is_request(id)) return NGHTTP3_ERR_H3_CLOSED_CRITICAL_STREAM;
  if (s->is_closed || s->is_closing) return NGHTTP3_ERR_STREAM_NOT_FOUND;
  s->close_code = code, s->is_closing = true;
  stream_unschedule(connection, s);
  if (s->is_waiting) return 0;
  stream_hold(s);
  int error = close_now(connection, s);
  stream_release(connection, s);
  return error;
}

EXPORT int nghttp3_conn_shutdown_stream_read(nghttp3_conn *connection, int64_t id) {
  stream *s = stream_find(connection, id);
  if (s && is_request(id) && !s->is_read_shut) give_up_reading(connection, s);
  return 0;
}

EXPORT void nghttp3_conn_shutdown_stream_write(nghttp3_conn *connection, int64_t id) {
  stream *s = stream_find(connection, id);
  if (s && is_request(id)) give_up_writing(connection, s);
}

/* ---- unidirectional streams ---- */

/* A head of the stream may be there now that waited for the peer's encoder. */
static int resume_waiting(nghttp3_conn *connection, stream *s) {
  stream_hold(s);
  nghttp3_ssize credit = pass_items(connection, s, NULL, 0, 0, NULL);
  int error = credit < 0 ? (int)credit : 0;
  if (credit > 0) error = CALLBACK(connection, deferred_consume, s->id, (size_t)credit, connection->user_data, s->user_data);
  if (!error && s->is_closing && !s->is_waiting && !s->is_closed) error = close_now(connection, s);
  stream_release(connection, s);
  return error;
}

/* Each stream that waits now, once: those that go on waiting come last. Callbacks may end any of them. */
static int resume_all_waiting(nghttp3_conn *connection) {
  uint32_t round = ++connection->round;
  int error = 0;
  for (stream *s; !error && (s = TAILQ_FIRST(&connection->waiting)) && s->round != round;) {
    s->round = round;
    TAILQ_REMOVE(&connection->waiting, s, waiting);
    TAILQ_INSERT_TAIL(&connection->waiting, s, waiting);
    error = resume_waiting(connection, s);
  }
  return error;
}

/* nghttp3 1.8 tells a client nothing of the peer's SETTINGS_ENABLE_CONNECT_PROTOCOL. */
#ifdef HAS_VERSION_1_17
enum { TELLS_A_CLIENT = 1 };
#else
enum { TELLS_A_CLIENT = 0 };
#endif

static int tell_settings(nghttp3_conn *connection) {
  h3_state state;
  if (h3_connection(&connection->endpoint, &state) != H3_OK) return 0;
  connection->has_peer_table = state.peer_table > 0;
#ifdef HAS_VERSION_1
  enum { ENABLE_CONNECT_PROTOCOL = 0x08, H3_DATAGRAM = 0x33 }; /* RFC 9220, section 5; RFC 9297, section 5.1 */
  uint64_t connect = 0, datagram = 0;
  h3_peer_setting(&connection->endpoint, ENABLE_CONNECT_PROTOCOL, &connect);
  h3_peer_setting(&connection->endpoint, H3_DATAGRAM, &datagram);
  nghttp3_settings peer = {
      .max_field_section_size = state.peer_section,
      .qpack_max_dtable_capacity = (size_t)state.peer_table,
      .qpack_blocked_streams = (size_t)state.peer_blocked,
      .enable_connect_protocol = connect == 1 && (connection->is_server || TELLS_A_CLIENT),
      .h3_datagram = datagram == 1,
  };
#ifdef NGHTTP3_PROTO_SETTINGS_V1
  nghttp3_proto_settings same = {peer.max_field_section_size, peer.qpack_max_dtable_capacity, peer.qpack_blocked_streams,
                                 peer.enable_connect_protocol, peer.h3_datagram};
  if (connection->callbacks.recv_settings2) return CALLBACK(connection, recv_settings2, &same, connection->user_data);
#endif
  return CALLBACK(connection, recv_settings, &peer, connection->user_data);
#else
  return 0;
#endif
}

/* The peer's control stream may have been read: its settings come first. */
static int tell_control(nghttp3_conn *connection) {
  uint32_t event;
  uint64_t id;
  int error = 0;
  while (!error && h3_next_event(&connection->endpoint, &event, &id) == H3_OK)
    error = event == H3_EVENT_SETTINGS ? tell_settings(connection) : CALLBACK(connection, shutdown, (int64_t)id, connection->user_data);
  return error;
}

/* Are these a control stream's type and its SETTINGS frame, and no more (RFC 9114, sections 6.2.1 and 7.2.4)? */
static bool is_settings_alone(const uint8_t *bytes, size_t length) {
  return length >= 3 && bytes[0] == 0 && bytes[1] == 4 && bytes[2] < 64 && length - 3 == bytes[2];
}

/* Bytes of a client's control stream were read. While only its SETTINGS came no PRIORITY_UPDATE frame did. */
static void look_for_updates(nghttp3_conn *connection, const uint8_t *bytes, size_t length) {
  if (connection->has_control || !is_settings_alone(bytes, length)) connection->has_updates = true;
  connection->has_control = true;
  if (connection->has_updates) read_priorities(connection);
}

/* What a unidirectional stream of the peer is, by what came on it. */
static uint32_t kind_of(nghttp3_conn *connection, int64_t id) {
  uint32_t kind;
  return h3_stream_kind(&connection->endpoint, (uint64_t)id, &kind) == H3_OK ? kind : H3_STREAM_UNTOLD;
}

static bool is_kind_known(const nghttp3_conn *connection, int64_t id) {
  return id == connection->peer_control || id == connection->peer_encoder || id == connection->peer_decoder;
}

#ifdef HAS_VERSION_1
enum { REFUSES_AGAIN = 0 };
#else
enum { REFUSES_AGAIN = 1 };
#endif

/* So many bytes came on a stream that was of the kind `before`. One of an unknown type is refused (RFC 9114, section 6.2): once, and by
 * version 0.8 with all bytes that come. */
static int tell_kind(nghttp3_conn *connection, int64_t id, uint32_t before, size_t length) {
  if (before == H3_STREAM_UNKNOWN && (!REFUSES_AGAIN || length == 0)) return 0;
  switch (kind_of(connection, id)) {
    case H3_STREAM_CONTROL: connection->peer_control = id; return 0;
    case H3_STREAM_ENCODER: connection->peer_encoder = id; return 0;
    case H3_STREAM_DECODER: connection->peer_decoder = id; return 0;
    case H3_STREAM_UNKNOWN:
      return CALLBACK(connection, stop_sending, id, NGHTTP3_H3_STREAM_CREATION_ERROR, connection->user_data, NULL);
    default: return 0;
  }
}

static nghttp3_ssize read_unidirectional(nghttp3_conn *connection, int64_t id, const uint8_t *bytes, size_t length, int fin) {
  bool is_known = is_kind_known(connection, id);
  uint32_t before = is_known ? H3_STREAM_UNTOLD : kind_of(connection, id);
  int fault = endpoint_deliver(connection, id, bytes, length, fin);
  if (fault == NGHTTP3_ERR_H3_SETTINGS_ERROR) return fault; /* settings that are refused are not told */
  may_have_bytes(connection, &connection->encoder), may_have_bytes(connection, &connection->decoder);
  int error = tell_control(connection);
  if (fault || error) return fault ? fault : error;
  error = is_known ? 0 : tell_kind(connection, id, before, length);
  if (connection->is_server && id == connection->peer_control) look_for_updates(connection, bytes, length);
  if (!error) error = resume_all_waiting(connection);
  return error ? error : (nghttp3_ssize)length;
}

#ifndef HAS_VERSION_1
EXPORT int nghttp3_conn_is_remote_qpack_encoder_stream(nghttp3_conn *connection, int64_t id) {
  return id >= 0 && kind_of(connection, id) == H3_STREAM_ENCODER;
}
#endif

/* ---- request streams ---- */

/* A request that comes after the local GOAWAY (RFC 9114, section 5.2). */
static int reject(nghttp3_conn *connection, stream *s) {
  stream_hold(s);
  s->is_read_shut = s->is_write_shut = true;
  int error = refuse(connection, s, NGHTTP3_H3_REQUEST_REJECTED);
  stream_release(connection, s);
  return error;
}

/* What came on a request stream that is there. */
static inline nghttp3_ssize read_there(nghttp3_conn *connection, stream *s, const uint8_t *bytes, size_t length, int fin) {
  if (is_shut(s)) return (nghttp3_ssize)length;
  bool is_more = length == 0 || fin || (s->head_length | s->awaits_head);
  return is_more ? pass_items(connection, s, bytes, length, fin, NULL) : read_bytes(connection, s, bytes, length);
}

/* What came on another stream than the one that was found last: a unidirectional one, another request stream, a new one, or one that is
 * over. */
static APART nghttp3_ssize read_other(nghttp3_conn *connection, int64_t id, const uint8_t *bytes, size_t length, int fin) {
  if (!is_request(id)) return read_unidirectional(connection, id, bytes, length, fin);
  bool is_new = connection->is_server && id >= connection->next_id && id < connection->end_id;
  stream *s = is_new ? NULL : stream_look_up(connection, id);
  if (!s && !connection->is_server) return id < connection->next_id ? (nghttp3_ssize)length : NGHTTP3_ERR_H3_STREAM_CREATION_ERROR;
  if (!s) {
    s = stream_add(connection, id);
    if (!s) return NGHTTP3_ERR_NOMEM;
    if (id >= connection->end_id) {
      int error = reject(connection, s);
      return error ? error : (nghttp3_ssize)length;
    }
    if (id >= connection->next_id) connection->next_id = id + 4;
  }
  return read_there(connection, s, bytes, length, fin);
}

/* The endpoint gets the type and length of a DATA frame that were kept. It reads them with what comes next: so what it has to say of them
 * is told then. */
static void give_head(nghttp3_conn *connection, stream *s) {
  if (endpoint_deliver(connection, s->id, s->head, s->head_length, false) == 0) s->head_length = 0, s->may_be_held = true;
}

/* How many bytes of its payload are to come of the frame that is under way on a request stream, or on the peer's control stream. */
EXPORT uint64_t nghttp3_conn_get_frame_payload_left(nghttp3_conn *connection, int64_t id) {
  uint64_t left = 0;
  stream *s = is_request(id) ? stream_find(connection, id) : NULL;
  if (!s && id != connection->peer_control) return 0;
  if (s && s->head_length > 0) give_head(connection, s);
  h3_frame_left(&connection->endpoint, (uint64_t)id, &left);
  return left;
}

EXPORT nghttp3_ssize nghttp3_conn_read_stream(nghttp3_conn *connection, int64_t id, const uint8_t *bytes, size_t length, int fin) {
  stream *s = connection->found;
  return s && s->id == id ? read_there(connection, s, bytes, length, fin) : read_other(connection, id, bytes, length, fin);
}
