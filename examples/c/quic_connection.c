#include "quic_parts.h"
#include <gnutls/crypto.h>
#include <netdb.h>
#include <stdio.h>
#include <stdlib.h>
#include <string.h>
#include <sys/random.h>

enum {
  OTHERS_LIMIT = 100000, /* unidirectional streams of the peer on one connection: ngtcp2 0.12 keeps a piece of each */
  TOKEN_SECONDS = 10     /* that a Retry token is valid */
};

/* Connection ids. Those that are made here are random. One that a client chose lasts no longer than the connection that it began. */

/* The place of an id, or where it would stand. */
static known_id **place_of(quic_socket *socket, const uint8_t *bytes, size_t count) {
  known_id **at = &socket->ids[count < 2 ? 0 : (bytes[0] << 8 | bytes[1]) % ID_PLACES];
  while (*at && ((*at)->cid.datalen != count || memcmp((*at)->cid.data, bytes, count) != 0)) at = &(*at)->next;
  return at;
}

/* Packets with this id are the connection's. false: out of memory, or the id is another's. */
static bool know(quic_connection *connection, const ngtcp2_cid *cid) {
  known_id **place = place_of(connection->socket, cid->data, cid->datalen);
  if (*place) return (*place)->connection == connection;
  known_id *id = malloc(sizeof *id);
  if (!id) return false;
  *id = (known_id){.other = connection->ids, .connection = connection, .cid = *cid};
  connection->ids = *place = id;
  return true;
}

static void forget_id(quic_connection *connection, const ngtcp2_cid *cid) {
  known_id **place = place_of(connection->socket, cid->data, cid->datalen), **at = &connection->ids, *id = *place;
  if (!id || id->connection != connection) return;
  while (*at != id) at = &(*at)->other;
  *at = id->other;
  *place = id->next;
  free(id);
}

/* ---- what ngtcp2 calls ---- */

static int on_handshake(ngtcp2_conn *conn, void *user) {
  (void)conn;
  quic_connection *connection = user;
  connection->shook = true;
  connection->socket->handshakes--;
  connection->heard_at = quic_now();
  connection->owner = connection->socket->events->opened(connection, connection->socket->user);
  return connection->owner ? 0 : NGTCP2_ERR_CALLBACK_FAILURE;
}

/* The peer may open one stream more of those that have ended, once for each. ngtcp2 0.12 never closes a unidirectional one that ended by FIN. */
static void allow_another(ngtcp2_conn *conn, int64_t id, void *was_allowed) {
  if (ngtcp2_is_bidi_stream(id) || ngtcp2_conn_is_local_stream(conn, id) || was_allowed || id / 4 >= OTHERS_LIMIT) return;
  ngtcp2_conn_extend_max_streams_uni(conn, 1);
  ngtcp2_conn_set_stream_user_data(conn, id, conn);
}

static int on_data(ngtcp2_conn *conn, uint32_t flags, int64_t id, uint64_t offset, const uint8_t *bytes, size_t count, void *user,
                   void *stream_user) {
  (void)offset;
  quic_connection *connection = user;
  connection->heard_at = quic_now();
  if (flags & NGTCP2_STREAM_DATA_FLAG_FIN) allow_another(conn, id, stream_user);
  if (!connection->close_asked)
    connection->socket->events->received(connection->owner, id, bytes, count, flags & NGTCP2_STREAM_DATA_FLAG_FIN);
  return 0;
}

static int on_datagram(ngtcp2_conn *conn, uint32_t flags, const uint8_t *bytes, size_t count, void *user) {
  (void)conn, (void)flags;
  quic_connection *connection = user;
  const quic_events *events = connection->socket->events;
  connection->heard_at = quic_now();
  if (events->datagram && connection->owner && !connection->close_asked) events->datagram(connection->owner, bytes, count);
  return 0;
}

static int on_acknowledged(ngtcp2_conn *conn, int64_t id, uint64_t offset, uint64_t count, void *user, void *stream_user) {
  (void)conn, (void)stream_user;
  quic_connection *connection = user;
  stream *stream = quic_find(connection, id);
  connection->heard_at = quic_now();
  if (stream) quic_acknowledged(connection, stream, offset + count);
  return 0;
}

static int on_stream_close(ngtcp2_conn *conn, uint32_t flags, int64_t id, uint64_t code, void *user, void *stream_user) {
  (void)flags, (void)code;
  quic_connection *connection = user;
  stream *stream = quic_find(connection, id);
  if (stream) quic_forget(connection, stream);
  connection->socket->events->stream_closed(connection->owner, id);
  if (ngtcp2_is_bidi_stream(id) && !ngtcp2_conn_is_local_stream(conn, id)) ngtcp2_conn_extend_max_streams_bidi(conn, 1);
  allow_another(conn, id, stream_user);
  return 0;
}

static int on_reset(ngtcp2_conn *conn, int64_t id, uint64_t size, uint64_t code, void *user, void *stream_user) {
  (void)size;
  quic_connection *connection = user;
  connection->heard_at = quic_now();
  allow_another(conn, id, stream_user);
  if (!connection->close_asked) connection->socket->events->was_reset(connection->owner, id, code);
  return 0;
}

static int on_new_id(ngtcp2_conn *conn, ngtcp2_cid *cid, uint8_t *token, size_t count, void *user) {
  (void)conn;
  cid->datalen = count;
  if (gnutls_rnd(GNUTLS_RND_RANDOM, cid->data, count) != 0 || !know(user, cid)) return NGTCP2_ERR_CALLBACK_FAILURE;
  return gnutls_rnd(GNUTLS_RND_RANDOM, token, NGTCP2_STATELESS_RESET_TOKENLEN) == 0 ? 0 : NGTCP2_ERR_CALLBACK_FAILURE;
}

static int on_old_id(ngtcp2_conn *conn, const ngtcp2_cid *cid, void *user) {
  (void)conn;
  forget_id(user, cid);
  return 0;
}

/* For what needs not be secret. The kernel gives up to 256 bytes at once. */
static void on_random(uint8_t *bytes, size_t count, const ngtcp2_rand_ctx *context) {
  (void)context;
  for (size_t done = 0; done < count;) {
    ssize_t more = getrandom(bytes + done, count - done, 0);
    if (more > 0) done += (size_t)more;
  }
}

static const ngtcp2_callbacks CALLBACKS = {
    .client_initial = ngtcp2_crypto_client_initial_cb,
    .recv_client_initial = ngtcp2_crypto_recv_client_initial_cb,
    .recv_crypto_data = ngtcp2_crypto_recv_crypto_data_cb,
    .handshake_completed = on_handshake,
    .encrypt = ngtcp2_crypto_encrypt_cb,
    .decrypt = ngtcp2_crypto_decrypt_cb,
    .hp_mask = ngtcp2_crypto_hp_mask_cb,
    .recv_stream_data = on_data,
    .acked_stream_data_offset = on_acknowledged,
    .stream_close = on_stream_close,
    .recv_retry = ngtcp2_crypto_recv_retry_cb,
    .rand = on_random,
    .get_new_connection_id = on_new_id,
    .remove_connection_id = on_old_id,
    .update_key = ngtcp2_crypto_update_key_cb,
    .stream_reset = on_reset,
    .delete_crypto_aead_ctx = ngtcp2_crypto_delete_crypto_aead_ctx_cb,
    .delete_crypto_cipher_ctx = ngtcp2_crypto_delete_crypto_cipher_ctx_cb,
    .get_path_challenge_data = ngtcp2_crypto_get_path_challenge_data_cb,
    .recv_datagram = on_datagram,
    .version_negotiation = ngtcp2_crypto_version_negotiation_cb,
};

/* ---- making and ending ---- */

static void settle(const quic_socket *socket, ngtcp2_settings *settings, ngtcp2_transport_params *params) {
  ngtcp2_settings_default(settings);
  settings->initial_ts = quic_now();
  settings->max_tx_udp_payload_size = PACKET;
  settings->handshake_timeout = 10 * NGTCP2_SECONDS;
  ngtcp2_transport_params_default(params);
  params->initial_max_data = socket->limits.window;
  params->initial_max_stream_data_bidi_local = params->initial_max_stream_data_bidi_remote = socket->limits.stream_window;
  params->initial_max_stream_data_uni = socket->limits.stream_window;
  params->initial_max_streams_bidi = socket->server ? QUIC_STREAMS : socket->limits.opened;
  params->initial_max_streams_uni = QUIC_OTHERS;
  params->max_idle_timeout = socket->limits.idle * NGTCP2_SECONDS;
  params->max_datagram_frame_size = 65535; /* WebTransport asks for it */
  params->active_connection_id_limit = 7;
}

static ngtcp2_conn *conn_of(ngtcp2_crypto_conn_ref *ref) { return ((quic_connection *)ref->user_data)->conn; }

void quic_delete(quic_connection *connection) {
  quic_socket *socket = connection->socket;
  if (!connection->gone) quic_leave(connection, QUIC_CLOSED_HERE);
  if (connection->owner && !connection->told) socket->events->closed(connection->owner, &connection->ending);
  for (stream *stream; (stream = table_any(&connection->streams));) quic_forget(connection, stream);
  quic_forget_datagrams(connection);
  while (connection->ids) forget_id(connection, &connection->ids->cid);
  if (connection->due) TAILQ_REMOVE(&socket->due, connection, turn);
  timers_remove(&socket->timers, &connection->timer);
  LIST_REMOVE(connection, others);
  socket->count--;
  if (connection->conn) ngtcp2_conn_del(connection->conn);
  if (connection->session) gnutls_deinit(connection->session);
  tls_release(connection->credentials);
  free(connection);
}

/* A connection without its ngtcp2 part, or NULL. */
static quic_connection *make_connection(quic_socket *socket, const char *host) {
  quic_connection *connection = calloc(1, sizeof *connection);
  if (!connection || !timers_add(&socket->timers, &connection->timer, connection, UINT64_MAX)) {
    free(connection);
    return NULL;
  }
  connection->socket = socket;
  connection->wake_at = UINT64_MAX;
  connection->credentials = socket->credentials;
  connection->credentials->users++;
  TAILQ_INIT(&connection->ready);
  TAILQ_INIT(&connection->blocked);
  STAILQ_INIT(&connection->datagrams);
  LIST_INSERT_HEAD(&socket->connections, connection, others);
  socket->count++;
  socket->open++;
  socket->handshakes++;
  quic_due(connection);
  connection->ref = (ngtcp2_crypto_conn_ref){conn_of, connection};
  ngtcp2_ccerr_default(&connection->close);
  int done = tls_session(&connection->session, socket->credentials, host);
  if (done == 0) {
    gnutls_session_set_ptr(connection->session, &connection->ref);
    return connection;
  }
  connection->session = NULL;
  fprintf(stderr, "TLS: %s\n", gnutls_strerror(done));
  quic_delete(connection);
  return NULL;
}

static bool random_id(ngtcp2_cid *cid) {
  cid->datalen = CID_LENGTH;
  return gnutls_rnd(GNUTLS_RND_RANDOM, cid->data, CID_LENGTH) == 0;
}

void quic_leave(quic_connection *connection, int by) {
  if (!connection->gone) {
    connection->socket->open--;
    if (!connection->shook) connection->socket->handshakes--;
  }
  connection->gone = true;
  connection->ending.by = by;
  if (by == QUIC_CLOSED_BY_PEER) connection->close = close_of_peer(connection->conn);
  connection->ending.application = connection->close.type == NGTCP2_CCERR_TYPE_APPLICATION;
  connection->ending.code = connection->close.error_code;
  connection->socket->last = connection->ending;
}

void quic_write_close(quic_connection *connection) {
  ngtcp2_path_storage path;
  ngtcp2_pkt_info info;
  ngtcp2_path_storage_zero(&path);
  ngtcp2_ssize count = ngtcp2_conn_write_connection_close(connection->conn, &path.path, &info, connection->goodbye, PACKET,
                                                          &connection->close, quic_now());
  connection->gone_at = quic_now() + 3 * ngtcp2_conn_get_pto(connection->conn);
  quic_leave(connection, QUIC_CLOSED_HERE);
  if (count <= 0) return;
  connection->goodbye_count = (size_t)count;
  quic_put(connection->socket, connection->goodbye, (size_t)count, &path.path.remote);
}

void quic_fail(quic_connection *connection, int error) {
  if (error == NGTCP2_ERR_DRAINING) return quic_leave(connection, QUIC_CLOSED_BY_PEER);
  if (error == NGTCP2_ERR_IDLE_CLOSE || error == NGTCP2_ERR_HANDSHAKE_TIMEOUT || error == NGTCP2_ERR_DROP_CONN)
    return quic_leave(connection, QUIC_TIMED_OUT);
  if (error == NGTCP2_ERR_CRYPTO)
    ngtcp2_ccerr_set_tls_alert(&connection->close, ngtcp2_conn_get_tls_alert(connection->conn), NULL, 0);
  else if (!connection->close_asked)
    ngtcp2_ccerr_set_liberr(&connection->close, error, NULL, 0);
  quic_write_close(connection);
}

/* ---- a client's first packet ---- */

/* The client has to show by a token that it is where it says, and begins again (RFC 9000, section 8.1.2). */
static void send_retry(quic_socket *socket, const ngtcp2_version_cid *ids, const ngtcp2_addr *to) {
  uint8_t token[NGTCP2_CRYPTO_MAX_RETRY_TOKENLEN], packet[PACKET];
  ngtcp2_cid client, first, own;
  ngtcp2_cid_init(&client, ids->scid, ids->scidlen);
  ngtcp2_cid_init(&first, ids->dcid, ids->dcidlen);
  if (!random_id(&own)) return;
  ngtcp2_ssize count = ngtcp2_crypto_generate_retry_token(token, socket->secret, sizeof socket->secret, ids->version, to->addr, to->addrlen,
                                                          &own, &first, quic_now());
  if (count < 0) return;
  count = ngtcp2_crypto_write_retry(packet, sizeof packet, ids->version, &client, &own, &first, token, (size_t)count);
  if (count > 0) quic_put(socket, packet, (size_t)count, to);
  socket->counts.retried++;
}

/* What the token of a client's first packet says, if it is one that was sent in the last ten seconds. Any other is no token: a client may keep one
 * of another server (RFC 9000, section 8.1.3). Returns whether it is ours. */
static bool read_token(const quic_socket *socket, const ngtcp2_pkt_hd *head, const ngtcp2_addr *from, ngtcp2_settings *settings,
                       ngtcp2_transport_params *params) {
  ngtcp2_vec token = token_of(head);
  ngtcp2_cid first;
  bool is_ours = token.len > 0 &&
                 ngtcp2_crypto_verify_retry_token(&first, token.base, token.len, socket->secret, sizeof socket->secret, head->version, from->addr,
                                                  from->addrlen, &head->dcid, TOKEN_SECONDS * NGTCP2_SECONDS, quic_now()) == 0;
  set_token(settings, params, head, is_ours ? &first : NULL);
  return is_ours;
}

/* The client may go to another server at once. */
static void refuse(quic_socket *socket, const ngtcp2_pkt_hd *head, const ngtcp2_addr *to) {
  uint8_t packet[PACKET];
  ngtcp2_ssize count = ngtcp2_crypto_write_connection_close(packet, sizeof packet, head->version, &head->scid, &head->dcid,
                                                            NGTCP2_CONNECTION_REFUSED, NULL, 0);
  if (count > 0) quic_put(socket, packet, (size_t)count, to);
  socket->counts.refused++;
}

static quic_connection *accept_connection(quic_socket *socket, const ngtcp2_path *path, const ngtcp2_version_cid *ids, const uint8_t *packet,
                                          size_t count) {
  ngtcp2_pkt_hd head;
  ngtcp2_cid id;
  ngtcp2_settings settings;
  ngtcp2_transport_params params;
  if (ngtcp2_accept(&head, packet, count) != 0 || !random_id(&id)) return NULL;
  if (socket->refusing || socket->open >= socket->limits.connections) return refuse(socket, &head, &path->remote), NULL;
  settle(socket, &settings, &params);
  bool is_shown = read_token(socket, &head, &path->remote, &settings, &params);
  if (!is_shown && socket->handshakes >= socket->limits.handshakes) return send_retry(socket, ids, &path->remote), NULL;
  quic_connection *connection = make_connection(socket, NULL);
  if (!connection) return NULL;
  if (know(connection, &id) && know(connection, &head.dcid) &&
      ngtcp2_conn_server_new(&connection->conn, &head.scid, &id, path, head.version, &CALLBACKS, &settings, &params, NULL,
                             connection) == 0) {
    ngtcp2_conn_set_tls_native_handle(connection->conn, connection->session);
    socket->counts.accepted++;
    return connection;
  }
  connection->conn = NULL;
  quic_delete(connection);
  return NULL;
}

bool quic_start(quic_socket *socket, const ngtcp2_path *path, const char *host) {
  ngtcp2_cid to, from;
  ngtcp2_settings settings;
  ngtcp2_transport_params params;
  quic_connection *connection = make_connection(socket, host);
  if (!connection) return false;
  settle(socket, &settings, &params);
  if (random_id(&to) && random_id(&from) && know(connection, &from) &&
      ngtcp2_conn_client_new(&connection->conn, &to, &from, path, NGTCP2_PROTO_VER_V1, &CALLBACKS, &settings, &params, NULL,
                             connection) == 0) {
    ngtcp2_conn_set_tls_native_handle(connection->conn, connection->session);
    if (socket->limits.keep_alive > 0) ngtcp2_conn_set_keep_alive_timeout(connection->conn, socket->limits.keep_alive * NGTCP2_SECONDS);
    return true;
  }
  connection->conn = NULL;
  quic_delete(connection);
  return false;
}

/* A packet of an unknown version is answered with the known ones (RFC 9000, section 6). */
static void negotiate(quic_socket *socket, const ngtcp2_version_cid *ids, const ngtcp2_addr *to) {
  static const uint32_t versions[] = {NGTCP2_PROTO_VER_V1};
  uint8_t packet[PACKET], chance = 0;
  on_random(&chance, 1, NULL);
  ngtcp2_ssize count = ngtcp2_pkt_write_version_negotiation(packet, sizeof packet, chance, ids->scid, ids->scidlen, ids->dcid,
                                                            ids->dcidlen, versions, 1);
  if (count > 0) quic_put(socket, packet, (size_t)count, to);
}

void quic_read_packet(quic_socket *socket, const ngtcp2_path *path, const uint8_t *packet, size_t count) {
  ngtcp2_version_cid ids;
  ngtcp2_pkt_info info = {0};
  int read = ngtcp2_pkt_decode_version_cid(&ids, packet, count, CID_LENGTH);
  if (read == NGTCP2_ERR_VERSION_NEGOTIATION && socket->server) return negotiate(socket, &ids, &path->remote);
  if (read != 0) return;
  known_id *known_id = *place_of(socket, ids.dcid, ids.dcidlen);
  quic_connection *connection = known_id ? known_id->connection : NULL;
  if (!connection && socket->server) connection = accept_connection(socket, path, &ids, packet, count);
  if (!connection) return;
  if (connection->gone) {
    if (connection->goodbye_count) quic_put(socket, connection->goodbye, connection->goodbye_count, &path->remote);
    return;
  }
  quic_due(connection);
  uint64_t credit = ngtcp2_conn_get_max_data_left(connection->conn);
  int done = ngtcp2_conn_read_pkt(connection->conn, path, &info, packet, count, quic_now());
  if (done == NGTCP2_ERR_RETRY) send_retry(socket, &ids, &path->remote);
  if (done == NGTCP2_ERR_RETRY || done == NGTCP2_ERR_DROP_CONN) return quic_delete(connection);
  if (done != 0) quic_fail(connection, done);
  else if (ngtcp2_conn_get_max_data_left(connection->conn) > credit) connection->heard_at = quic_now();
}

/* ---- the turn of a connection ---- */

/* What is asked for from here on needs a turn of its own. */
static void not_due(quic_connection *connection) {
  if (connection->due) TAILQ_REMOVE(&connection->socket->due, connection, turn);
  connection->due = false;
}

void quic_drive(quic_connection *connection) {
  quic_socket *socket = connection->socket;
  ngtcp2_tstamp time = quic_now();
  if (connection->wake_at <= time) connection->wake_at = UINT64_MAX;
  if (!connection->gone && ngtcp2_conn_get_expiry(connection->conn) <= time) {
    int done = ngtcp2_conn_handle_expiry(connection->conn, time);
    if (done != 0) quic_fail(connection, done);
  }
  if (!connection->gone && connection->owner && !connection->close_asked) socket->events->fill(connection->owner);
  not_due(connection);
  if (!connection->gone) quic_write_packets(connection);
  if (!connection->gone && connection->close_asked) quic_write_close(connection);
  if (connection->gone && connection->owner && !connection->told) {
    connection->told = true;
    socket->events->closed(connection->owner, &connection->ending);
  }
  if (connection->gone) return timers_move(&socket->timers, &connection->timer, connection->gone_at);
  ngtcp2_tstamp expiry = ngtcp2_conn_get_expiry(connection->conn);
  timers_move(&socket->timers, &connection->timer, expiry < connection->wake_at ? expiry : connection->wake_at);
  if (connection->more) quic_due(connection);
}

/* ---- what the owner calls ---- */

void quic_peer(quic_connection *connection, char text[QUIC_PLACE]) {
  const ngtcp2_addr *peer = &ngtcp2_conn_get_path(connection->conn)->remote;
  char address[NI_MAXHOST], port[NI_MAXSERV];
  bool has_colons = peer->addr->sa_family == AF_INET6;
  if (getnameinfo(peer->addr, peer->addrlen, address, sizeof address, port, sizeof port, NI_NUMERICHOST | NI_NUMERICSERV) != 0)
    strcpy(text, "-");
  else
    snprintf(text, QUIC_PLACE, has_colons ? "[%.46s]:%.5s" : "%.46s:%.5s", address, port);
}

uint64_t quic_may_open(quic_connection *connection, bool unidirectional) {
  if (connection->gone) return 0;
  return unidirectional ? ngtcp2_conn_get_streams_uni_left(connection->conn) : ngtcp2_conn_get_streams_bidi_left(connection->conn);
}

int64_t quic_open(quic_connection *connection, bool unidirectional) {
  int64_t id = -1;
  if (connection->gone) return -1;
  quic_due(connection);
  int done = unidirectional ? ngtcp2_conn_open_uni_stream(connection->conn, &id, NULL)
                            : ngtcp2_conn_open_bidi_stream(connection->conn, &id, NULL);
  return done == 0 ? id : -1;
}

void quic_stop(quic_connection *connection, int64_t id, uint64_t code) {
  quic_due(connection);
  if (!connection->gone) ngtcp2_conn_shutdown_stream_read(connection->conn, 0, id, code);
}

void quic_consumed(quic_connection *connection, int64_t id, size_t count) {
  quic_allow(connection, id, count);
  quic_dropped(connection, count);
}

void quic_allow(quic_connection *connection, int64_t id, size_t count) {
  quic_due(connection);
  if (!connection->gone) ngtcp2_conn_extend_max_stream_offset(connection->conn, id, count);
}

void quic_dropped(quic_connection *connection, size_t count) {
  quic_due(connection);
  if (!connection->gone) ngtcp2_conn_extend_max_offset(connection->conn, count);
}

void quic_wake(quic_connection *connection, uint64_t milliseconds) {
  if (milliseconds == 0) return quic_due(connection);
  ngtcp2_tstamp then = quic_now() + milliseconds * NGTCP2_MILLISECONDS;
  if (then >= connection->wake_at) return;
  connection->wake_at = then;
  if (then < connection->timer.at) timers_move(&connection->socket->timers, &connection->timer, then);
}

uint64_t quic_silence(const quic_connection *connection) { return (quic_now() - connection->heard_at) / NGTCP2_MILLISECONDS; }

void quic_close(quic_connection *connection, uint64_t code) {
  if (connection->close_asked) return;
  connection->close_asked = true;
  quic_due(connection);
  ngtcp2_ccerr_set_application_error(&connection->close, code, NULL, 0);
}
