/* proxy [OPTION..] ADDRESS PORT CERTIFICATE KEY TO_ADDRESS TO_PORT TO_NAME: a reverse proxy, HTTP/3 in and HTTP/3 out. What comes at ADDRESS
 * and PORT goes to the server at TO_ADDRESS and TO_PORT, whose certificate has to have the name TO_NAME.
 * --help has the options.
 *
 * Bodies go through as they come: the reader of each sets its pace, and a window on each side is all that is kept. So do the bytes of tunnels, each
 * way to an end of its own. A request that the server did not process (GOAWAY, H3_REQUEST_REJECTED), or whose connection was lost before an answer if
 * it may be repeated, is sent again.
 * SIGTERM and SIGINT: GOAWAY on each connection; what was begun goes on until it is over, or --drain. The second signal ends it.
 * SIGHUP: reads the certificates again, for new connections, and opens the log again. SIGUSR1: counts, to standard error. */
#include "access.h"
#include "date.h"
#include "ending.h"
#include "forward.h"
#include "operated.h"
#include "pool.h"
#include "report.h"
#include <stdio.h>
#include <stdlib.h>
#include <string.h>

enum {
  REPLAY = 16 * 1024, /* bytes of a request's body that are kept to be sent again */
  TRIES = 3,          /* connections that a request is sent on */
  PROTOCOL = 32       /* bytes that a `:protocol` needs, and a NUL */
};

/* A request of a client's, and the one that is made of it. */
typedef struct exchange {
  TAILQ_ENTRY(exchange) order;   /* of all: the one that stood still longest comes first */
  TAILQ_ENTRY(exchange) waiting; /* of those that have no connection to the server yet */
  http3_request *front, *back;   /* the client's; the server's, or NULL */
  http3_list *head, *trailer;    /* of the request, to be sent again: NULL once an answer came */
  uint8_t *body;                 /* of the request, likewise */
  size_t body_count;
  bool is_waiting, answered, over;
  bool is_tunnel;               /* extended CONNECT, unless the server refused it */
  bool front_ended, back_ended; /* nothing more goes to the server, and to the client */
  bool body_lost;               /* more of the body went than is kept */
  unsigned tries;
  uint64_t moved_at; /* when something moved last */
  access_entry entry;
} exchange;

typedef TAILQ_HEAD(exchanges, exchange) exchanges;

static exchanges all = TAILQ_HEAD_INITIALIZER(all), waiting = TAILQ_HEAD_INITIALIZER(waiting);
static uint64_t timeout = 30000; /* milliseconds */
static bool takes_tunnels;

/* Something of it moved: it is the last one to be given up. */
static void moved(exchange *exchange) {
  exchange->moved_at = quic_time();
  TAILQ_REMOVE(&all, exchange, order);
  TAILQ_INSERT_TAIL(&all, exchange, order);
}

/* ---- how an exchange ends ---- */

static void wait_no_more(exchange *exchange) {
  if (exchange->is_waiting) TAILQ_REMOVE(&waiting, exchange, waiting);
  exchange->is_waiting = false;
}

/* Nothing is sent again. */
static void forget_request(exchange *exchange) {
  free(exchange->head);
  free(exchange->trailer);
  free(exchange->body);
  exchange->head = exchange->trailer = NULL;
  exchange->body = NULL;
  exchange->body_lost = true;
}

/* The server's side goes on by itself, if at all. */
static http3_request *let_go(exchange *exchange) {
  http3_request *back = exchange->back;
  exchange->back = NULL;
  if (back) back->data = NULL;
  return back;
}

/* The server's side is over, or no longer of interest. */
static void leave_back(exchange *exchange, uint64_t code) {
  http3_request *back = let_go(exchange);
  if (back) http3_give_up(back, code);
}

/* An answer of the proxy's: nothing of one of the server's went out. */
static void answer(exchange *exchange, const char *status) {
  char date[DATE_TEXT];
  http3_field fields[] = {{":status", status}, {"content-length", "0"}, {"date", date}, {"server", "h3-proxy"}};
  date_text(time(NULL), date);
  wait_no_more(exchange);
  leave_back(exchange, H3_CODE_REQUEST_CANCELLED);
  exchange->answered = exchange->over = true;
  exchange->entry.status = (unsigned)atoi(status);
  if (http3_head_of(exchange->front, fields, 4)) http3_finish(exchange->front);
  else http3_give_up(exchange->front, H3_CODE_INTERNAL_ERROR);
  http3_ignore(exchange->front);
}

/* The answer cannot be made whole: the client gets an answer if none was begun, else a reset. */
static void fail(exchange *exchange, const char *status, uint64_t code) {
  char peer[QUIC_PLACE];
  if (exchange->over) return;
  http3_peer(exchange->front->connection, peer);
  report("%s: stream %llu: %s, %s", peer, (unsigned long long)exchange->front->entry.id, exchange->answered ? "reset" : status, h3_code_text(code));
  if (!exchange->answered) return answer(exchange, status);
  wait_no_more(exchange);
  leave_back(exchange, H3_CODE_REQUEST_CANCELLED);
  exchange->over = true;
  exchange->entry.failed = h3_code_text(code);
  /* a client may send a rejected request again: not one that has a part of an answer */
  http3_give_up(exchange->front, code == H3_CODE_REQUEST_REJECTED ? H3_CODE_INTERNAL_ERROR : code);
}

/* ---- tunnels ---- */

/* The server took it: bytes go both ways, and each way ends by itself. */
static bool is_open(const exchange *exchange) { return exchange->is_tunnel && exchange->answered && !exchange->over; }

/* If both ways ended, what the server has not got yet goes to it within the credit that it granted. */
static void end_tunnel(exchange *exchange) {
  if (!is_open(exchange) || !exchange->front_ended || !exchange->back_ended) return;
  exchange->over = true;
  let_go(exchange);
}

/* The server of a tunnel reads nothing more: nor has the client to send more. What the server sends goes on. */
static void stop_front(exchange *exchange) {
  if (!is_open(exchange) || exchange->front_ended || exchange->back->sending) return;
  exchange->front_ended = true;
  http3_ignore(exchange->front);
  end_tunnel(exchange);
}

/* The same of a client that reads nothing more. */
static void stop_back(exchange *exchange) {
  exchange->back_ended = true;
  exchange->entry.failed = "stopped";
  http3_ignore(exchange->back);
  end_tunnel(exchange);
}

/* ---- the request goes to the server ---- */

static void wait(exchange *exchange) {
  if (exchange->is_waiting) return;
  exchange->is_waiting = true;
  TAILQ_INSERT_TAIL(&waiting, exchange, waiting);
  http3_pause(exchange->front);
}

static void finish_back(exchange *exchange) {
  if (exchange->trailer && !http3_trailer(exchange->back, exchange->trailer)) return fail(exchange, "502", H3_CODE_INTERNAL_ERROR);
  http3_finish(exchange->back);
}

/* Sends what came of the request, if there is a connection for it. */
static void begin(exchange *exchange) {
  http3_request *back = pool_open(exchange->is_tunnel);
  if (!back) return wait(exchange);
  wait_no_more(exchange);
  exchange->tries++;
  exchange->back = back;
  back->data = exchange;
  moved(exchange);
  if (!http3_head(back, exchange->head) || !http3_body(back, exchange->body, exchange->body_count))
    return fail(exchange, "502", H3_CODE_INTERNAL_ERROR);
  if (exchange->front_ended) finish_back(exchange);
  http3_resume(exchange->front);
}

/* The server did nothing of the request, or may do it twice: it goes out again. false: it cannot, as a tunnel of which bytes went out. */
static bool begin_again(exchange *exchange) {
  if (exchange->answered || exchange->over || exchange->body_lost || exchange->tries >= TRIES) return false;
  if (exchange->is_tunnel && exchange->body_count > 0) return false;
  wait(exchange); /* the connection may be ending just now: pool_tend knows */
  return true;
}

/* Keeps a piece of the body, as long as it is short. */
static void keep(exchange *exchange, const uint8_t *bytes, size_t count) {
  if (!exchange->body_lost && exchange->body_count + count > REPLAY) forget_request(exchange);
  if (exchange->body_lost) return;
  uint8_t *body = realloc(exchange->body, exchange->body_count + count);
  if (!body) return forget_request(exchange);
  memcpy(body + exchange->body_count, bytes, count);
  exchange->body = body;
  exchange->body_count += count;
}

/* ---- what the client sends ---- */

static void front_ready(http3 *h, void *user) { (void)h, (void)user; }
static void front_over(void *user, const quic_ending *ending) { (void)user, (void)ending; }

/* A new request: its fields go on, or (a status) an answer says why not. */
static const char *read_request(exchange *exchange, const http3_list *list) {
  char method[16] = "-", path[4096] = "-", hops[16] = "", protocol[PROTOCOL] = "", peer[QUIC_PLACE];
  http3_wanted wanted[] = {{.name = ":method", .value = method, .room = sizeof method},
                           {.name = ":path", .value = path, .room = sizeof path, .optional = true},
                           {.name = "max-forwards", .value = hops, .room = sizeof hops, .optional = true},
                           {.name = ":protocol", .value = protocol, .room = sizeof protocol, .optional = true}};
  bool is_known = http3_find(list, wanted, 4), is_connect = strcmp(method, "CONNECT") == 0;
  access_begin(&exchange->entry, method, path);
  if (!is_known || strcmp(method, "TRACE") == 0) return "501";
  /* a session of WebTransport has streams beside its request, which do not go through */
  exchange->is_tunnel = takes_tunnels && is_connect && *protocol && strcmp(protocol, "webtransport") != 0;
  if (is_connect && !exchange->is_tunnel) return "501";
  if (strcmp(method, "OPTIONS") == 0 && strcmp(hops, "0") == 0) return "204"; /* RFC 9110, section 7.6.2 */
  if (forward_is_loop(list)) return "508";
  http3_prefer(exchange->front, exchange->is_tunnel ? NULL : list); /* tunnels take turns with others (RFC 9218, section 11) */
  http3_peer(exchange->front->connection, peer);
  exchange->head = forward_request(list, peer);
  return exchange->head ? NULL : "500";
}

static void front_head(http3_request *front, const h3_item *item) {
  exchange *exchange = front->data;
  bool is_new = !exchange->front;
  if (is_new) {
    exchange->front = front;
    exchange->moved_at = quic_time();
    TAILQ_INSERT_TAIL(&all, exchange, order);
  }
  if (exchange->over) return;
  if (is_new && item->kind == H3_TOO_LARGE_HEAD) access_begin(&exchange->entry, "-", "-");
  if (item->kind == H3_TOO_LARGE_HEAD) return is_new ? answer(exchange, "431") : fail(exchange, "431", H3_CODE_EXCESSIVE_LOAD);
  http3_list *list = http3_fields(front->connection, item);
  if (!list) return fail(exchange, "500", H3_CODE_INTERNAL_ERROR);
  const char *status = is_new ? read_request(exchange, list) : NULL;
  if (!is_new) {
    free(exchange->trailer);
    exchange->trailer = forward_trailer(list);
  }
  free(list);
  if (status) answer(exchange, status);
  else if (is_new) begin(exchange);
}

static void front_body(http3_request *front, const uint8_t *bytes, size_t count) {
  exchange *exchange = front->data;
  if (exchange->over) return;
  moved(exchange);
  keep(exchange, bytes, count);
  http3_request *back = exchange->back;
  if (!back || !back->sending) return; /* it comes later, or the server needs no more */
  if (!http3_body(back, bytes, count)) return fail(exchange, "502", H3_CODE_INTERNAL_ERROR);
  if (http3_room(back) == 0) http3_pause(front);
}

static void front_end(http3_request *front) {
  exchange *exchange = front->data;
  exchange->front_ended = true;
  if (exchange->back && !exchange->over) finish_back(exchange);
  end_tunnel(exchange);
}

/* The client gave up, or sent what it must not: it has its reset already. */
static void front_failed(http3_request *front, const h3_item *item) {
  exchange *exchange = front->data;
  bool is_reset = item && item->kind == H3_FAULT_RESET && item->number != H3_CODE_REQUEST_REJECTED; /* that code is a server's */
  if (!exchange->front) return;
  if (!exchange->over) exchange->entry.failed = item ? http3_why(item) : "stopped";
  wait_no_more(exchange);
  leave_back(exchange, is_reset ? item->number : H3_CODE_REQUEST_CANCELLED);
  exchange->over = true;
}

/* It reads nothing more of the answer. */
static void front_stopped(http3_request *front) {
  exchange *exchange = front->data;
  if (is_open(exchange)) return stop_back(exchange);
  front_failed(front, NULL);
  http3_give_up(front, H3_CODE_REQUEST_CANCELLED);
}

static void front_room(http3_request *front) {
  const exchange *exchange = front->data;
  if (exchange->back) http3_resume(exchange->back);
}

static void front_freed(http3_request *front) {
  exchange *exchange = front->data;
  if (!exchange->front) return;
  wait_no_more(exchange);
  leave_back(exchange, H3_CODE_REQUEST_CANCELLED);
  forget_request(exchange);
  if (!front->sent && !exchange->entry.failed) exchange->entry.failed = "cut";
  access_end(&exchange->entry, front->connection);
  TAILQ_REMOVE(&all, exchange, order);
}

/* ---- what the server sends ---- */

static void back_ready(http3 *h, void *user) { (void)h, (void)user; }

/* Passes a section on. false: the client does not take it. */
static bool pass_section(exchange *exchange, uint32_t kind, const http3_list *list) {
  http3_list *passed = kind == H3_TRAILER ? forward_trailer(list) : forward_response(list);
  bool sent = passed && (kind == H3_TRAILER   ? http3_trailer(exchange->front, passed)
                         : kind == H3_INTERIM ? http3_interim(exchange->front, passed)
                                              : http3_head(exchange->front, passed));
  free(passed);
  return sent;
}

static void back_head(http3_request *back, const h3_item *item) {
  exchange *exchange = back->data;
  if (!exchange) return;
  moved(exchange);
  http3_list *list = item->kind == H3_TOO_LARGE_HEAD ? NULL : http3_fields(back->connection, item);
  bool sent = list && pass_section(exchange, item->kind, list);
  free(list);
  if (!sent) return fail(exchange, "502", H3_CODE_INTERNAL_ERROR);
  if (item->kind != H3_HEAD) return;
  exchange->answered = true;
  exchange->is_tunnel = exchange->is_tunnel && item->status / 100 == 2;
  exchange->entry.status = (unsigned)item->status;
  forget_request(exchange);
  stop_front(exchange);
}

static void back_body(http3_request *back, const uint8_t *bytes, size_t count) {
  exchange *exchange = back->data;
  if (!exchange) return;
  moved(exchange);
  if (!http3_body(exchange->front, bytes, count)) return fail(exchange, "502", H3_CODE_INTERNAL_ERROR);
  exchange->entry.sent += count;
  if (http3_room(exchange->front) == 0) http3_pause(back);
}

static void back_end(http3_request *back) {
  exchange *exchange = back->data;
  if (!exchange) return;
  exchange->back_ended = true;
  http3_finish(exchange->front);
  if (is_open(exchange)) return end_tunnel(exchange);
  exchange->over = true;
  if (exchange->front_ended) return;
  http3_reset(back, H3_CODE_NO_ERROR); /* the server answered before it had all of the request */
  http3_ignore(exchange->front);
}

static void back_failed(http3_request *back, const h3_item *item) {
  exchange *exchange = back->data;
  bool is_rejected = item->kind == H3_FAULT_RESET && item->number == H3_CODE_REQUEST_REJECTED;
  if (!exchange) return;
  exchange->back = NULL;
  back->data = NULL;
  if (is_rejected && begin_again(exchange)) return;
  fail(exchange, "502", item->kind == H3_FAULT_RESET ? item->number : H3_CODE_INTERNAL_ERROR);
}

/* The server needs no more of the request: the rest is read and thrown away, until the answer is whole. */
static void back_stopped(http3_request *back) {
  exchange *exchange = back->data;
  if (!exchange) return;
  http3_resume(exchange->front);
  stop_front(exchange);
}

static void back_room(http3_request *back) {
  const exchange *exchange = back->data;
  if (exchange) http3_resume(exchange->front);
}

/* Before its end, or while a tunnel goes on the other way: the connection was lost. */
static void back_freed(http3_request *back) {
  exchange *exchange = back->data;
  pool_freed(back);
  if (!exchange) return;
  exchange->back = NULL;
  if (exchange->over) return;
  if (exchange->head && forward_is_idempotent(exchange->head) && begin_again(exchange)) return;
  fail(exchange, "502", H3_CODE_INTERNAL_ERROR);
}

/* ---- the program ---- */

static void show_requests(void) {
  const exchange *exchange;
  size_t count = 0;
  TAILQ_FOREACH(exchange, &all, order) count++;
  fprintf(stderr, "requests %zu under way\n", count);
}

/* Those that wait have their try; if the server was not to be reached, they have their answer. */
static void look_at_waiting(bool is_reached) {
  for (exchange *exchange = TAILQ_FIRST(&waiting), *next; exchange; exchange = next) {
    next = TAILQ_NEXT(exchange, waiting);
    if (!is_reached) fail(exchange, "503", H3_CODE_CONNECT_ERROR);
    else begin(exchange);
    if (is_reached && exchange->is_waiting) return; /* there is no room for the others either */
  }
}

/* Gives up those on which nothing moved for too long, but for answers that wait until the client has those that come before. */
static void look_at_time(void) {
  exchange *exchange;
  while ((exchange = TAILQ_FIRST(&all)) && quic_time() - exchange->moved_at >= timeout) {
    moved(exchange);
    if (!http3_has_to_wait(exchange->front, timeout)) fail(exchange, "504", H3_CODE_REQUEST_CANCELLED);
  }
}

static void run(quic_socket *front, uint64_t drain) {
  quic_socket *sockets[1 + POOL_MOST] = {front};
  uint64_t last = UINT64_MAX;
  while (!ending_at_once() && quic_time() < last) {
    if (ending_begun() && last == UINT64_MAX) {
      last = quic_time() + 1000 * drain;
      quic_refuse_more(front);
    }
    if (last != UINT64_MAX) quic_each(front, http3_leave);
    if (last != UINT64_MAX && quic_count(front) == 0) return;
    memcpy(sockets + 1, pool_sockets(), POOL_MOST * sizeof *sockets);
    quic_turn_all(sockets, 1 + POOL_MOST, TAILQ_EMPTY(&waiting) ? 100 : 20);
    look_at_waiting(pool_tend(!TAILQ_EMPTY(&waiting)));
    look_at_time();
    operated_tick(front, show_requests);
  }
}

enum { WORDS = 7, TUNNELS = 1024 };

static const char *words[WORDS]; /* address, port, certificate, key; of the server: address, port, name */
static struct {
  unsigned long long pool, timeout, window;
  const char *trusted;
} options = {.pool = 4, .timeout = 30, .window = 128};

static const struct argp_option known[] = {
    {"trust", 't', "FILE", 0, "whom to trust, instead of the system's authorities (PEM)", 0},
    {"pool", 'p', "N", 0, "at most so many connections to the server (4; at most 16)", 0},
    {"timeout", 's', "SECONDS", 0, "a request on which nothing moves for so long is given up: 504, or a reset (30)", 0},
    {"window", 'w', "KIB", 0, "what the server may send of an answer whose client does not read: so much is kept (128)", 0},
    {"tunnels", TUNNELS, NULL, 0, "extended CONNECT goes through, as of WebSockets (RFC 9220) and CONNECT-UDP (RFC 9298)", 0},
    {0}};

static void read_between(struct argp_state *state, const char *text, unsigned long long *number, unsigned long long least, unsigned long long most) {
  operated_number(state, text, number);
  if (*number < least || *number > most) argp_error(state, "not from %llu to %llu: %s", least, most, text);
}

static error_t read_option(int key, char *text, struct argp_state *state) {
  switch (key) {
  case 't': options.trusted = text; return 0;
  case 'p': read_between(state, text, &options.pool, 1, POOL_MOST); return 0;
  case 's': read_between(state, text, &options.timeout, 1, 1000000); return 0;
  case 'w': read_between(state, text, &options.window, 16, 65536); return 0;
  case TUNNELS: takes_tunnels = true; return 0;
  default: return operated_words(key, text, state, words, WORDS);
  }
}

static const http3_events FRONT = {.ready = front_ready, .head = front_head, .body = front_body, .end = front_end, .failed = front_failed,
                                   .stopped = front_stopped, .room = front_room, .freed = front_freed, .over = front_over};
static const http3_events BACK = {.ready = back_ready, .head = back_head, .body = back_body, .end = back_end, .failed = back_failed,
                                  .stopped = back_stopped, .room = back_room, .freed = back_freed};

static int serve(void) {
  http3_setup setup = {.server = true, .tunnels = takes_tunnels, .requests = 100000, .data = sizeof(exchange), .qlog = chosen.qlog,
                       .events = &FRONT};
  quic_socket *socket = operated_listen(words[0], words[1], &http3_over_quic, &setup);
  if (!socket) return 1;
  printf("proxy at %s port %u, of %s port %s\n", words[0], quic_port(socket), words[4], words[5]);
  fflush(stdout);
  run(socket, chosen.drain);
  quic_free(socket);
  return 0;
}

const char *argp_program_version = "proxy of Beanwhile " H3_VERSION_TEXT;

int main(int count, char **arguments) {
  static const struct argp_child children[] = {{&operated_options, 0, NULL, 0}, {0}};
  static const struct argp parser = {known, read_option, "ADDRESS PORT CERTIFICATE KEY TO_ADDRESS TO_PORT TO_NAME",
                                     "Passes requests to the server at TO_ADDRESS and TO_PORT, and its answers back, HTTP/3 on both sides.\v"
                                     "SIGTERM ends it when what was begun is over, a second one at once. SIGHUP reads the certificates and opens the "
                                     "log again. SIGUSR1 writes counts.",
                                     children, NULL, NULL};
  operated_read(&parser, count, arguments);
  timeout = 1000 * options.timeout;
  forward_begin();
  pool_begin(&(pool_setup){words[4], words[5], words[6], options.trusted, (size_t)options.pool, 1024 * options.window, &BACK});
  int status = operated_begin(words[2], words[3]) ? serve() : 1;
  operated_end();
  pool_end();
  return status;
}
