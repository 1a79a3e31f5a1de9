#include "pool.h"
#include <string.h>

enum {
  BUSY = 50,     /* requests of a connection from which on another one is made */
  IDLE = 20000,  /* milliseconds after which a connection that nobody uses is closed: sooner than the server's QUIC would */
  AGAIN = 1000,  /* milliseconds after which another one is tried, if the server was not to be reached */
  KEEP_ALIVE = 5 /* seconds of silence after which a PING is sent */
};

/* One connection. Empty: all but `user` of the setup is zero. */
typedef struct {
  http3 *connection; /* NULL: its handshake has not ended, or it has ended itself */
  size_t requests;
  bool was_there, going_away;
  uint64_t idle_at; /* since when it has no requests */
} upstream;

static pool_setup setup;
static http3_events events;
static http3_setup setups[POOL_MOST];
static upstream upstreams[POOL_MOST];
static quic_socket *sockets[POOL_MOST];
static uint64_t try_at; /* before that time no connection is tried */

static void on_ready(http3 *h, void *user) {
  upstream *upstream = user;
  upstream->connection = h;
  upstream->was_there = true;
  upstream->idle_at = quic_time();
}

static void on_going_away(http3 *h, void *user) {
  (void)h;
  upstream *upstream = user;
  upstream->going_away = true;
}

static void on_over(void *user, const quic_ending *ending) {
  (void)ending;
  upstream *upstream = user;
  upstream->connection = NULL;
}

void pool_begin(const pool_setup *given) {
  setup = *given;
  events = *given->events;
  events.ready = on_ready;
  events.going_away = on_going_away;
  events.over = on_over;
  for (size_t i = 0; i < POOL_MOST; i++) setups[i] = (http3_setup){.events = &events, .user = &upstreams[i]};
}

/* The connection that has the fewest requests of those that may have more. NULL: there is none. */
static upstream *least_busy(bool needs_settings) {
  upstream *found = NULL;
  for (upstream *at = upstreams; at < upstreams + POOL_MOST; at++) {
    if (!at->connection || at->going_away || (found && at->requests >= found->requests)) continue;
    if (!needs_settings || http3_has_settings(at->connection)) found = at;
  }
  return found;
}

http3_request *pool_open(bool is_tunnel) {
  upstream *upstream = least_busy(is_tunnel);
  http3_request *request = upstream ? http3_open(upstream->connection, &upstream->going_away) : NULL;
  if (request) upstream->requests++;
  return request;
}

void pool_freed(const http3_request *request) {
  for (upstream *at = upstreams; at < upstreams + POOL_MOST; at++) {
    if (at->connection != request->connection) continue;
    if (--at->requests == 0) at->idle_at = quic_time();
  }
}

/* What may come on a connection at once is what may come of all its requests: so one whose client reads slowly holds up no other. false: there is
 * no such place. */
static bool make_one(size_t i) {
  quic_identity identity = {.trusted = setup.trusted};
  quic_limits limits;
  quic_limits_default(&limits);
  limits.stream_window = setup.window;
  limits.window = setup.window * QUIC_STREAMS;
  limits.keep_alive = KEEP_ALIVE; /* all answers may wait for their clients (RFC 9114, section 5.1) */
  upstreams[i] = (upstream){0};
  sockets[i] = quic_connect(setup.address, setup.port, setup.host, &identity, &limits, &http3_over_quic, &setups[i]);
  return sockets[i];
}

/* false: it has ended before its handshake did. */
static bool tend_one(size_t i) {
  upstream *upstream = &upstreams[i];
  bool is_open = quic_count(sockets[i]) > 0, was_there = upstream->was_there;
  bool is_idle = upstream->connection && upstream->requests == 0 && (upstream->going_away || quic_time() - upstream->idle_at > IDLE);
  if (is_open && !is_idle) return true;
  quic_free(sockets[i]);
  sockets[i] = NULL;
  return was_there;
}

bool pool_tend(bool is_waiting) {
  size_t place = setup.most, begun = 0;
  bool is_reached = true;
  for (size_t i = 0; i < setup.most; i++) {
    if (sockets[i] && !tend_one(i)) is_reached = false;
    if (!sockets[i]) place = i;
    else if (!upstreams[i].was_there || (upstreams[i].connection && !http3_has_settings(upstreams[i].connection))) begun++;
  }
  const upstream *least = least_busy(false);
  bool is_needed = begun == 0 && (is_waiting || (least && least->requests >= BUSY));
  if (is_needed && place < setup.most && quic_time() >= try_at && !make_one(place)) is_reached = false;
  if (!is_reached) try_at = quic_time() + AGAIN;
  return is_reached;
}

quic_socket **pool_sockets(void) { return sockets; }

void pool_end(void) {
  for (size_t i = 0; i < POOL_MOST; i++) {
    if (sockets[i]) quic_free(sockets[i]);
    sockets[i] = NULL;
  }
}
