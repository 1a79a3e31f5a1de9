#include "quic_parts.h"
#include <errno.h>
#include <netinet/udp.h>
#include <stdlib.h>
#include <string.h>

enum {
  KEPT_LIMIT = 256 * 1024, /* bytes of a stream that may wait for their acknowledgment */
  FIRST_PIECE = 16 * 1024, /* of a stream that has none, however many the others have */
  DATAGRAMS = 64,          /* that wait for a packet at once */
  AROUND = 64              /* the most bytes of a packet that are not a datagram's */
};

/* ---- streams ---- */

stream *quic_find(const quic_connection *connection, int64_t id) { return table_find(&connection->streams, (uint64_t)id); }

static stream *find_or_add(quic_connection *connection, int64_t id) {
  stream *found = quic_find(connection, id);
  if (found || !(found = malloc(sizeof *found))) return found;
  *found = (stream){0};
  table_add(&connection->streams, &found->entry, (uint64_t)id);
  return found;
}

/* Something of the stream is here, for a packet. */
static bool has_bytes(const stream *stream) {
  return stream->out.taken < stream->out.given || (stream->out.ended && !stream->out.end_taken);
}

/* The stream is in this list behind the others, or (NULL) in none. */
static void move_to(quic_connection *connection, stream *stream, stream_list *list) {
  if (stream->list) TAILQ_REMOVE(stream->list, stream, order);
  stream->list = list;
  if (list) TAILQ_INSERT_TAIL(list, stream, order);
  if (connection->piece == stream && list != &connection->ready) connection->piece = NULL;
}

/* The stream has another place, and the owner learns whether that is among those of which nothing more goes into a packet in this round. */
static void move_held(quic_connection *connection, stream *stream, stream_list *list) {
  const quic_events *events = connection->socket->events;
  move_to(connection, stream, list);
  if (events->held) events->held(connection->owner, (int64_t)stream->entry.id, list == &connection->blocked);
}

static void block(quic_connection *connection, stream *stream) { move_held(connection, stream, &connection->blocked); }

static void unblock_all(quic_connection *connection) {
  for (stream *stream; (stream = TAILQ_FIRST(&connection->blocked));)
    move_held(connection, stream, has_bytes(stream) ? &connection->ready : NULL);
}

/* QUIC took so many bytes, or nobody will. */
static void taken(quic_connection *connection, stream *stream, uint64_t count) {
  buffer_take(&stream->out, count);
  connection->untaken -= count;
}

/* Nothing more of the stream goes out. What was sent is kept until the stream is closed. */
static void abandon(quic_connection *connection, stream *stream) {
  move_to(connection, stream, NULL);
  taken(connection, stream, stream->out.given - stream->out.taken);
  stream->out.ended = stream->out.end_taken = true;
}

void quic_acknowledged(quic_connection *connection, stream *stream, uint64_t offset) {
  uint64_t before = stream->out.kept;
  buffer_acknowledge(&stream->out, offset);
  connection->kept -= stream->out.kept - before;
}

void quic_forget(quic_connection *connection, stream *stream) {
  abandon(connection, stream);
  table_remove(&connection->streams, &stream->entry);
  connection->kept -= stream->out.given - stream->out.kept;
  buffer_free(&stream->out);
  free(stream);
}

static uint64_t least(uint64_t one, uint64_t other) { return one < other ? one : other; }

/* What the peer has granted: on the stream, and on all streams, of which the others have a part. */
static uint64_t credit(const quic_connection *connection, int64_t id, uint64_t untaken) {
  uint64_t of_stream = ngtcp2_conn_get_max_stream_data_left(connection->conn, id);
  uint64_t of_all = ngtcp2_conn_get_max_data_left(connection->conn);
  of_stream -= least(of_stream, untaken);
  return least(of_stream, of_all - least(of_all, connection->untaken));
}

size_t quic_room(const quic_connection *connection, int64_t id) {
  const stream *stream = quic_find(connection, id);
  if (connection->gone || (stream && stream->out.ended)) return 0;
  uint64_t kept = stream ? stream->out.given - stream->out.kept : 0, most = KEPT_LIMIT;
  if (connection->kept >= connection->socket->limits.kept) most = FIRST_PIECE;
  if (kept >= most) return 0;
  return (size_t)least(most - kept, credit(connection, id, stream ? stream->out.given - stream->out.taken : 0));
}

bool quic_is_read(const quic_connection *connection, int64_t id) {
  return !connection->gone && ngtcp2_conn_get_max_stream_data_left(connection->conn, id) > 0;
}

/* So many bytes were given to a stream, or its end. */
static void given(quic_connection *connection, stream *stream, size_t count) {
  connection->kept += count;
  connection->untaken += count;
  if (!connection->asking) quic_due(connection);
  if (!stream->list && has_bytes(stream)) move_to(connection, stream, &connection->ready);
}

bool quic_send(quic_connection *connection, int64_t id, const uint8_t *bytes, size_t count, bool end) {
  stream *stream = find_or_add(connection, id);
  if (!stream || !buffer_give(&stream->out, bytes, count)) return false;
  if (end) stream->out.ended = true;
  given(connection, stream, count);
  return true;
}

uint8_t *quic_send_here(quic_connection *connection, int64_t id, size_t count) {
  stream *stream = find_or_add(connection, id);
  uint8_t *place = stream ? buffer_extend(&stream->out, count) : NULL;
  if (place) given(connection, stream, count);
  return place;
}

void quic_reset(quic_connection *connection, int64_t id, uint64_t code) {
  stream *stream = quic_find(connection, id);
  if (stream) abandon(connection, stream);
  quic_due(connection);
  if (!connection->gone) ngtcp2_conn_shutdown_stream_write(connection->conn, 0, id, code);
}

/* ---- datagrams ---- */

bool quic_datagram(quic_connection *connection, const uint8_t *bytes, size_t count) {
  if (connection->gone || connection->datagram_count == DATAGRAMS) return false;
  if (count + AROUND > ngtcp2_conn_get_path_max_tx_udp_payload_size(connection->conn)) return false;
  datagram *datagram = malloc(sizeof *datagram + count);
  if (!datagram) return false;
  datagram->count = count;
  memcpy(datagram->bytes, bytes, count);
  STAILQ_INSERT_TAIL(&connection->datagrams, datagram, order);
  connection->datagram_count++;
  quic_due(connection);
  return true;
}

static void forget_first(quic_connection *connection) {
  datagram *first = STAILQ_FIRST(&connection->datagrams);
  STAILQ_REMOVE_HEAD(&connection->datagrams, order);
  connection->datagram_count--;
  free(first);
}

void quic_forget_datagrams(quic_connection *connection) {
  while (!STAILQ_EMPTY(&connection->datagrams)) forget_first(connection);
}

/* ---- packets ---- */

void quic_put(quic_socket *socket, const uint8_t *packet, size_t count, const ngtcp2_addr *to) {
  while (sendto(socket->file, packet, count, 0, to->addr, to->addrlen) < 0 && errno == EINTR) continue;
  socket->counts.packets_out++;
  socket->counts.bytes_out += count;
}

/* Sends packets, of which all but the last have the length `segment`. */
static ssize_t send_segments(quic_socket *socket, batch *batch, uint8_t *bytes, size_t count) {
  union {
    struct cmsghdr head;
    char bytes[CMSG_SPACE(sizeof(uint16_t))];
  } control = {.bytes = {0}};
  uint16_t segment = (uint16_t)batch->segment;
  struct iovec piece = {bytes, count};
  struct msghdr message = {.msg_name = &batch->to, .msg_namelen = batch->to_count, .msg_iov = &piece, .msg_iovlen = 1};
  if (count > batch->segment) {
    message.msg_control = control.bytes;
    message.msg_controllen = sizeof control.bytes;
    control.head = (struct cmsghdr){.cmsg_level = SOL_UDP, .cmsg_type = UDP_SEGMENT, .cmsg_len = CMSG_LEN(sizeof segment)};
    memcpy(CMSG_DATA(&control.head), &segment, sizeof segment);
  }
  return sendmsg(socket->file, &message, 0);
}

/* Another error than a full socket loses packets, as quic_put does. */
bool quic_flush(quic_socket *socket) {
  batch *batch = &socket->batch;
  while (batch->sent < batch->count) {
    size_t left = batch->count - batch->sent, count = socket->one_by_one && left > batch->segment ? batch->segment : left;
    ssize_t done = send_segments(socket, batch, batch->bytes + batch->sent, count);
    if (done < 0 && (errno == EAGAIN || errno == EWOULDBLOCK)) return false;
    if (done < 0 && errno == EINTR) continue;
    if (done < 0 && count > batch->segment && (errno == EIO || errno == EINVAL)) socket->one_by_one = true;
    else batch->sent += count;
  }
  batch->sent = batch->count = 0;
  return true;
}

/* The packet that was written after the batch joins it, if it has its length and goes the same way; else the batch goes out before. false: the
 * socket is full. */
static bool join(quic_socket *socket, size_t count, const ngtcp2_addr *to) {
  batch *batch = &socket->batch;
  socket->counts.packets_out++;
  socket->counts.bytes_out += count;
  if (batch->count > 0 && (count > batch->segment || batch->to_count != to->addrlen || memcmp(&batch->to, to->addr, to->addrlen) != 0)) {
    uint8_t *packet = batch->bytes + batch->count;
    if (!quic_flush(socket)) return false; /* the packet is lost */
    memmove(batch->bytes, packet, count);
  }
  if (batch->count == 0) {
    batch->segment = count;
    memcpy(&batch->to, to->addr, to->addrlen);
    batch->to_count = to->addrlen;
  }
  batch->count += count;
  return (count == batch->segment && batch->count + PACKET <= sizeof batch->bytes) || quic_flush(socket);
}

/* Puts what fits of a stream (none: NULL) into a packet. Returns what ngtcp2 returns: bytes of a packet that is whole, 0, an error. */
static ngtcp2_ssize write_stream(quic_connection *connection, stream *stream, ngtcp2_path *path, uint8_t *packet, ngtcp2_tstamp time) {
  ngtcp2_vec pieces[16];
  ngtcp2_pkt_info info;
  ngtcp2_ssize count_taken = -1;
  size_t total = 0, count = stream ? buffer_untaken(&stream->out, pieces, 16, &total) : 0;
  bool last = stream && stream->out.ended && stream->out.taken + total == stream->out.given;
  uint32_t flags = stream ? NGTCP2_WRITE_STREAM_FLAG_MORE : 0;
  ngtcp2_ssize done = ngtcp2_conn_writev_stream(connection->conn, path, &info, packet, PACKET, &count_taken,
                                                last ? flags | NGTCP2_WRITE_STREAM_FLAG_FIN : flags,
                                                stream ? (int64_t)stream->entry.id : -1, pieces, count, time);
  if (count_taken < 0) return done;
  taken(connection, stream, (uint64_t)count_taken);
  if (last && (size_t)count_taken == total) stream->out.end_taken = true;
  return done;
}

/* Puts the first datagram into a packet. Returns what ngtcp2 returns. One that the peer does not take is lost. */
static ngtcp2_ssize write_datagram(quic_connection *connection, ngtcp2_path *path, uint8_t *packet, ngtcp2_tstamp time) {
  datagram *first = STAILQ_FIRST(&connection->datagrams);
  ngtcp2_vec piece = {first->bytes, first->count};
  ngtcp2_pkt_info info;
  int is_taken = 0;
  ngtcp2_ssize done = ngtcp2_conn_writev_datagram(connection->conn, path, &info, packet, PACKET, &is_taken, NGTCP2_WRITE_DATAGRAM_FLAG_MORE, 0, &piece, 1, time);
  if (is_taken || done == NGTCP2_ERR_INVALID_ARGUMENT || done == NGTCP2_ERR_INVALID_STATE) forget_first(connection);
  return done == NGTCP2_ERR_INVALID_ARGUMENT || done == NGTCP2_ERR_INVALID_STATE ? NGTCP2_ERR_WRITE_MORE : done;
}

/* The place of a stream after what ngtcp2 returned: it has its next turn after the others if something of it was taken, or it has none. Returns
 * whether this was an error of this stream alone. */
static bool next_turn(quic_connection *connection, stream *stream, ngtcp2_ssize done) {
  switch (done) {
  case NGTCP2_ERR_STREAM_DATA_BLOCKED: block(connection, stream); return true;
  case NGTCP2_ERR_STREAM_NOT_FOUND: abandon(connection, stream); return true;
  case NGTCP2_ERR_STREAM_SHUT_WR: /* STOP_SENDING came: ngtcp2 has reset the stream, and says so here alone */
    abandon(connection, stream);
    if (!connection->close_asked) connection->socket->events->was_stopped(connection->owner, (int64_t)stream->entry.id);
    return true;
  default:
    if (done != 0) move_to(connection, stream, has_bytes(stream) ? &connection->ready : NULL);
    return false;
  }
}

/* The owner gives a piece of the stream that is next, or of the one behind it if nothing of that can go out. */
static void ask(quic_connection *connection) {
  const quic_events *events = connection->socket->events;
  if (!events->next || !connection->owner) return;
  for (int64_t id; !connection->piece && !connection->close_asked && events->next(connection->owner, &id);) {
    stream *stream = find_or_add(connection, id); /* none, or one that is named though it is held: there is no memory (H3_INTERNAL_ERROR) */
    if (!stream || stream->list == &connection->blocked) return quic_close(connection, 0x102);
    connection->asking = true;
    if (!has_bytes(stream) && !stream->out.ended && !events->more(connection->owner, id)) abandon(connection, stream);
    connection->asking = false;
    if (has_bytes(stream)) connection->piece = stream;
    else block(connection, stream);
  }
}

void quic_write_packets(quic_connection *connection) {
  batch *batch = &connection->socket->batch;
  ngtcp2_path_storage path;
  ngtcp2_tstamp time = quic_now(); /* of all packets of a burst */
  size_t total = 0, burst = ngtcp2_conn_get_send_quantum(connection->conn);
  connection->more = !quic_flush(connection->socket);
  unblock_all(connection);
  while (!connection->more) {
    ask(connection);
    stream *stream = STAILQ_EMPTY(&connection->datagrams) ? TAILQ_FIRST(&connection->ready) : NULL;
    ngtcp2_path_storage_zero(&path);
    ngtcp2_ssize done = STAILQ_EMPTY(&connection->datagrams) ? write_stream(connection, stream, &path.path, batch->bytes + batch->count, time)
                                                            : write_datagram(connection, &path.path, batch->bytes + batch->count, time);
    if ((stream && next_turn(connection, stream, done)) || done == NGTCP2_ERR_WRITE_MORE) continue;
    if (done < 0) return quic_fail(connection, (int)done);
    if (done == 0) break;
    total += (size_t)done;
    connection->more = !join(connection->socket, (size_t)done, &path.path.remote) || total >= burst;
  }
  quic_flush(connection->socket);
  ngtcp2_conn_update_pkt_tx_time(connection->conn, time);
}
