#include "quic_parts.h"
#include <errno.h>
#include <gnutls/crypto.h>
#include <netdb.h>
#include <poll.h>
#include <stdio.h>
#include <stdlib.h>
#include <string.h>
#include <time.h>
#include <unistd.h>

enum { PACKETS_A_TURN = 64, /* read before something is sent */ MOST_SOCKETS = 64 /* of one wait */ };

ngtcp2_tstamp quic_now(void) {
  struct timespec time;
  clock_gettime(CLOCK_MONOTONIC, &time);
  return (ngtcp2_tstamp)time.tv_sec * NGTCP2_SECONDS + (ngtcp2_tstamp)time.tv_nsec;
}

uint64_t quic_time(void) { return quic_now() / NGTCP2_MILLISECONDS; }

void quic_due(quic_connection *connection) {
  if (connection->due || connection->gone) return;
  connection->due = true;
  TAILQ_INSERT_TAIL(&connection->socket->due, connection, turn);
}

/* ---- the loop ---- */

/* Nobody listens where the client's packets went: it need not wait for an answer. Later on this may be a lie of the network's. */
static void was_refused(quic_socket *socket) {
  quic_connection *connection = LIST_FIRST(&socket->connections);
  if (socket->server || !connection || connection->shook || connection->gone) return;
  quic_due(connection);
  quic_leave(connection, QUIC_NOBODY_LISTENS);
}

/* Reads what has come on the socket. */
static void read_packets(quic_socket *socket) {
  uint8_t packet[65536];
  struct sockaddr_storage from;
  for (int i = 0; i < PACKETS_A_TURN; i++) {
    socklen_t from_count = sizeof from;
    ssize_t count = recvfrom(socket->file, packet, sizeof packet, 0, (struct sockaddr *)&from, &from_count);
    if (count < 0 && errno == ECONNREFUSED) was_refused(socket);
    if (count < 0) return;
    ngtcp2_path path = {.local = {(struct sockaddr *)&socket->local, socket->local_count},
                        .remote = {(struct sockaddr *)&from, from_count}};
    socket->counts.packets_in++;
    socket->counts.bytes_in += (uint64_t)count;
    if (count > 0) quic_read_packet(socket, &path, packet, (size_t)count);
  }
}

/* The connections whose time has come are due, or (gone and silent) freed. */
static void look_at_timers(quic_socket *socket) {
  ngtcp2_tstamp time = quic_now();
  for (timer *first; (first = timers_first(&socket->timers)) && first->at <= time;) {
    quic_connection *connection = first->of;
    if (connection->gone && !connection->due) quic_delete(connection);
    else {
      timers_move(&socket->timers, first, UINT64_MAX); /* until it had its turn */
      quic_due(connection);
    }
  }
}

void quic_work(quic_socket *socket) {
  read_packets(socket);
  look_at_timers(socket);
  quic_connection *last = TAILQ_LAST(&socket->due, due), *connection = NULL;
  while (last && connection != last) { /* those that are due since have the next turn */
    connection = TAILQ_FIRST(&socket->due);
    TAILQ_REMOVE(&socket->due, connection, turn);
    connection->due = false;
    quic_drive(connection);
  }
  look_at_timers(socket);
  quic_flush(socket);
}

int quic_file(const quic_socket *socket) { return socket->file; }

bool quic_is_full(const quic_socket *socket) { return socket->batch.count > 0; }

uint64_t quic_wait(const quic_socket *socket) {
  const timer *first = timers_first(&socket->timers);
  ngtcp2_tstamp time = quic_now();
  if (!TAILQ_EMPTY(&socket->due) && !quic_is_full(socket)) return 0;
  if (!first) return UINT64_MAX;
  return first->at <= time ? 0 : first->at - time;
}

/* Waits until something can be done on one of the sockets. */
static void wait_for(quic_socket *const *sockets, size_t count, uint64_t most) {
  struct pollfd files[MOST_SOCKETS];
  nfds_t found = 0;
  for (size_t i = 0; i < count && found < MOST_SOCKETS; i++) {
    if (!sockets[i]) continue;
    uint64_t wait = quic_wait(sockets[i]);
    if (wait < most) most = wait;
    files[found++] = (struct pollfd){.fd = sockets[i]->file, .events = POLLIN | (quic_is_full(sockets[i]) ? POLLOUT : 0)};
  }
  struct timespec wait = {(time_t)(most / NGTCP2_SECONDS), (long)(most % NGTCP2_SECONDS)};
  ppoll(files, found, &wait, NULL);
}

void quic_turn_all(quic_socket *const *sockets, size_t count, int milliseconds) {
  for (size_t i = 0; i < count; i++)
    if (sockets[i]) quic_work(sockets[i]);
  wait_for(sockets, count, (uint64_t)milliseconds * NGTCP2_MILLISECONDS);
}

size_t quic_turn(quic_socket *socket, int milliseconds) {
  quic_work(socket);
  if (!socket->server && socket->open == 0) return 0;
  wait_for(&socket, 1, (uint64_t)milliseconds * NGTCP2_MILLISECONDS);
  return socket->open;
}

size_t quic_count(const quic_socket *socket) { return socket->open; }

quic_counts quic_counted(const quic_socket *socket) { return socket->counts; }

quic_ending quic_last_ending(const quic_socket *socket) { return socket->last; }

void quic_refuse_more(quic_socket *socket) { socket->refusing = true; }

void quic_each(quic_socket *socket, void (*call)(void *owner)) {
  quic_connection *connection;
  LIST_FOREACH(connection, &socket->connections, others) {
    if (connection->gone || !connection->owner) continue;
    quic_due(connection);
    call(connection->owner);
  }
}

/* ---- sockets ---- */

void quic_limits_default(quic_limits *limits) {
  *limits = (quic_limits){.connections = 10000, .handshakes = 100, .stream_window = 256 * 1024, .window = 1024 * 1024, .kept = 2 * 1024 * 1024,
                          .idle = 30};
}

/* getaddrinfo takes 99999 for a port, as 34463. */
static bool is_port(const char *port) {
  char *end;
  if (*port < '0' || *port > '9') return false;
  unsigned long number = strtoul(port, &end, 10);
  return *end == 0 && number <= 65535;
}

/* A socket that is bound, or connected, to an address and port of text. */
static bool open_file(quic_socket *opened, const char *address, const char *port, struct addrinfo **found) {
  struct addrinfo hints = {.ai_flags = AI_NUMERICSERV, .ai_socktype = SOCK_DGRAM};
  int size = 4 * 1024 * 1024, done = is_port(port) ? getaddrinfo(address, port, &hints, found) : EAI_SERVICE;
  if (done != 0) {
    fprintf(stderr, "%s port %s: %s\n", address, port, done == EAI_SERVICE ? "not a port, a number up to 65535" : gai_strerror(done));
    return false;
  }
  const struct addrinfo *to = *found;
  opened->local_count = sizeof opened->local;
  opened->file = socket(to->ai_family, SOCK_DGRAM | SOCK_CLOEXEC | SOCK_NONBLOCK, 0);
  if (opened->file >= 0) setsockopt(opened->file, SOL_SOCKET, SO_RCVBUF, &size, sizeof size);
  if (opened->file >= 0 &&
      (opened->server ? bind(opened->file, to->ai_addr, to->ai_addrlen) : connect(opened->file, to->ai_addr, to->ai_addrlen)) == 0 &&
      getsockname(opened->file, (struct sockaddr *)&opened->local, &opened->local_count) == 0)
    return true;
  fprintf(stderr, "%s port %s: %s\n", address, port, strerror(errno));
  return false;
}

/* `host` is NULL at a server. */
static quic_socket *make_socket(const char *address, const char *port, const char *host, const quic_identity *identity,
                                const quic_limits *limits, const quic_events *events, void *user) {
  struct addrinfo *found = NULL;
  quic_socket *socket = calloc(1, sizeof *socket);
  if (!socket) {
    fprintf(stderr, "out of memory\n");
    return NULL;
  }
  socket->file = -1;
  socket->server = !host;
  socket->events = events;
  socket->user = user;
  if (limits) socket->limits = *limits;
  else quic_limits_default(&socket->limits);
  socket->one_by_one = socket->limits.one_by_one;
  TAILQ_INIT(&socket->due);
  bool made = gnutls_rnd(GNUTLS_RND_RANDOM, socket->secret, sizeof socket->secret) == 0 &&
              (socket->credentials = tls_read(identity, socket->server)) && open_file(socket, address, port, &found);
  if (made && host) {
    ngtcp2_path path = {.local = {(struct sockaddr *)&socket->local, socket->local_count},
                        .remote = {found->ai_addr, found->ai_addrlen}};
    made = quic_start(socket, &path, host);
    if (!made) fprintf(stderr, "no connection could be made\n");
  }
  if (found) freeaddrinfo(found);
  if (made) return socket;
  quic_free(socket);
  return NULL;
}

quic_socket *quic_listen(const char *address, const char *port, const quic_identity *identity, const quic_limits *limits,
                         const quic_events *events, void *user) {
  return make_socket(address, port, NULL, identity, limits, events, user);
}

quic_socket *quic_connect(const char *address, const char *port, const char *host, const quic_identity *identity, const quic_limits *limits,
                          const quic_events *events, void *user) {
  return make_socket(address, port, host, identity, limits, events, user);
}

unsigned quic_port(const quic_socket *socket) {
  const struct sockaddr *local = (const struct sockaddr *)&socket->local;
  return ntohs(local->sa_family == AF_INET6 ? ((const struct sockaddr_in6 *)local)->sin6_port : ((const struct sockaddr_in *)local)->sin_port);
}

bool quic_show(quic_socket *socket, const quic_identity *identity) {
  tls_credentials *credentials = tls_read(identity, true);
  if (!credentials) return false;
  tls_release(socket->credentials);
  socket->credentials = credentials;
  return true;
}

void quic_free(quic_socket *socket) {
  for (quic_connection *connection; (connection = LIST_FIRST(&socket->connections));) {
    if (!connection->gone) {
      quic_close(connection, 0x100); /* H3_NO_ERROR */
      quic_write_close(connection);
    }
    quic_delete(connection);
  }
  timers_free(&socket->timers);
  tls_release(socket->credentials);
  if (socket->file >= 0) close(socket->file);
  free(socket);
}

const char *quic_code_text(uint64_t code) {
  static const char *const names[] = {"NO_ERROR", "INTERNAL_ERROR", "CONNECTION_REFUSED", "FLOW_CONTROL_ERROR", "STREAM_LIMIT_ERROR",
                                      "STREAM_STATE_ERROR", "FINAL_SIZE_ERROR", "FRAME_ENCODING_ERROR", "TRANSPORT_PARAMETER_ERROR",
                                      "CONNECTION_ID_LIMIT_ERROR", "PROTOCOL_VIOLATION", "INVALID_TOKEN", "APPLICATION_ERROR",
                                      "CRYPTO_BUFFER_EXCEEDED", "KEY_UPDATE_ERROR", "AEAD_LIMIT_REACHED", "NO_VIABLE_PATH"};
  if (code < sizeof names / sizeof *names) return names[code];
  const char *alert = code >> 8 == 1 ? gnutls_alert_get_name((gnutls_alert_description_t)(code & 0xff)) : NULL;
  return alert ? alert : "an unknown code";
}
