#include "http3_list.h"
#include "qlog.h"
#include <stdlib.h>
#include <string.h>

enum {
  PIECE = 8 * 1024,          /* bytes that are moved at once: so many go out before a response that is more urgent */
  WAITING_LIMIT = 64 * 1024, /* bytes of a body that may wait in the endpoint */
  HELD_LIMIT = 256 * 1024 - 16, /* bytes of a request that the endpoint may hold, just below the window: what fills that never becomes whole. A
                                 * header section of 64 KiB has up to 240 KiB in the Huffman code */
  GRACE = 100,               /* milliseconds that a client has for an answer before it is told to send no more */
  SECTION_GRACE = 2000,      /* the same for one whose header section is too long, and who may read no answer until it is sent */
  LINGER = 5000,             /* milliseconds of silence behind which a connection that takes no more requests is closed */
  NOTICE = 1000,             /* milliseconds between the first GOAWAY and the last: requests that were on their way come */
  USUAL = 3                  /* the urgency of a request that says nothing (RFC 9218, section 4.1) */
};

static const uint64_t ANY_ID = (UINT64_C(1) << 62) - 4;

/* Bytes that came on a stream, and its end. */
typedef struct http3_chunk {
  STAILQ_ENTRY(http3_chunk) order;
  size_t count;
  bool end;
  uint8_t bytes[];
} chunk;

/* One of the peer's unidirectional streams, while some is owed for it. */
typedef struct {
  uint64_t id;
  size_t owed; /* as of a request */
} other;

struct http3 {
  quic_connection *quic;
  const http3_setup *setup;
  qlog *log; /* NULL: none */
  h3_endpoint endpoint;
  table found;                                 /* the requests by their ids */
  TAILQ_HEAD(requests, http3_request) requests; /* the same in the order in which they were opened */
  other others[QUIC_OTHERS];
  uint64_t next_id;    /* behind the last request that came */
  uint64_t end_id;     /* a server's: where the requests end that the setup lets the connection have */
  bool leaving;        /* GOAWAY was sent, or came: no more are opened */
  bool shut;           /* a server's: from the last GOAWAY on nothing is taken that did not come before */
  uint64_t leaving_at; /* when http3_leave was called first, by quic_time; 0: never */
};

static http3_request *find(const http3 *h, uint64_t id) { return table_find(&h->found, id); }

static http3_request *add(http3 *h, uint64_t id) {
  size_t data = h->setup->data;
  http3_request *request = malloc(sizeof *request + data); /* calloc would pass over the blocks that were freed last */
  if (!request) return NULL;
  *request = (http3_request){.connection = h, .data = data > 0 ? request + 1 : NULL};
  STAILQ_INIT(&request->held);
  memset(request + 1, 0, data);
  table_add(&h->found, &request->entry, id);
  TAILQ_INSERT_TAIL(&h->requests, request, order);
  return request;
}

/* A stream of a WebTransport session. Of an own one that goes one way nothing comes. */
static http3_request *add_raw(http3 *h, uint64_t id, bool comes) {
  http3_request *request = add(h, id);
  if (!request) return NULL;
  request->raw = true;
  request->settled = !comes;
  return request;
}

/* Grants the peer credit for what came on a stream and is no longer held. */
static void grant(http3 *h, uint64_t id, size_t *owed, size_t held) {
  if (held >= *owed) return;
  quic_consumed(h->quic, (int64_t)id, *owed - held);
  *owed = held;
}

static void grant_other(http3 *h, other *other) {
  h3_stream_state state;
  if (other->owed > 0 && h3_stream(&h->endpoint, other->id, &state) == H3_OK) grant(h, other->id, &other->owed, (size_t)state.unread);
}

/* Takes what came first of that which is held. */
static chunk *take_held(http3_request *request) {
  chunk *first = STAILQ_FIRST(&request->held);
  if (!first) return NULL;
  STAILQ_REMOVE_HEAD(&request->held, order);
  request->held_count -= first->count;
  return first;
}

/* Of a request that is over nothing is held, and nothing more is needed: the connection alone gets credit. */
static void grant_request(http3_request *request) {
  http3 *h = request->connection;
  h3_stream_state state;
  if (request->settled) {
    for (chunk *chunk; (chunk = take_held(request));) free(chunk);
    if (request->owed > 0) quic_dropped(h->quic, request->owed);
    request->owed = 0;
  } else if (request->owed > 0 && h3_stream(&h->endpoint, request->entry.id, &state) == H3_OK)
    grant(h, request->entry.id, &request->owed, (size_t)state.unread + request->held_count);
}

/* What is owed for a unidirectional stream. NULL: QUIC has opened more of them than it may. */
static size_t *owed_for(http3 *h, uint64_t id) {
  other *free_one = NULL;
  for (other *at = h->others; at < h->others + QUIC_OTHERS; at++)
    if (at->owed == 0) free_one = at;
    else if (at->id == id) return &at->owed;
  if (!free_one) return NULL;
  free_one->id = id;
  return &free_one->owed;
}

static void drop(http3_request *request) {
  http3 *h = request->connection;
  for (chunk *chunk; (chunk = take_held(request));) free(chunk);
  if (request->settled) grant_request(request);
  uint32_t stop_sending, reset_stream;
  if (request->raw) h3_close_stream(&h->endpoint, request->entry.id, &stop_sending, &reset_stream, NULL); /* nothing is kept of it */
  else if (!request->sent) h3_reset(&h->endpoint, request->entry.id, NULL);
  table_remove(&h->found, &request->entry);
  TAILQ_REMOVE(&h->requests, request, order);
  h->setup->events->freed(request);
  free(request);
}

/* A call was refused that is always taken but for want of memory or a fault of the connection. */
static void refuse(http3 *h, uint32_t answer, uint64_t code) {
  quic_close(h->quic, answer == H3_CONNECTION || answer == H3_CLOSED ? code : H3_CODE_INTERNAL_ERROR);
}

/* Both halves of a stream end; what QUIC was given with the end goes out. */
static void cut_off(http3_request *request, uint64_t code) {
  http3 *h = request->connection;
  if (h3_reset(&h->endpoint, request->entry.id, NULL) == H3_OK) {
    request->sending = false;
    quic_reset(h->quic, (int64_t)request->entry.id, code);
  }
  quic_stop(h->quic, (int64_t)request->entry.id, code);
}

/* ---- what came ---- */

typedef uint32_t priority_call(h3_endpoint *, uint64_t, uint32_t, uint32_t, uint64_t *); /* what is asked for, or what counts before that */
static void prefer(priority_call *call, http3_request *request, uint32_t urgency, uint32_t incremental) {
  http3 *h = request->connection;
  if (call(&h->endpoint, request->entry.id, urgency, incremental, NULL) == H3_MEMORY) quic_close(h->quic, H3_CODE_INTERNAL_ERROR);
}

/* Of a section that is too large nobody knows the `priority`: its answer is short, and sent before others. */
static void hurry(http3_request *request) { prefer(h3_set_priority, request, 0, 0); }

static void tell_section(http3_request *request, const h3_item *item) {
  http3 *h = request->connection;
  if (h->setup->server && item->kind == H3_TOO_LARGE_HEAD) hurry(request);
  http3_list *list = h->log && item->kind != H3_TOO_LARGE_HEAD ? http3_fields(h, item) : NULL;
  qlog_section(h->log, false, request->entry.id, list);
  free(list);
  request->has_head = true;
  h->setup->events->head(request, item);
}

static void tell_body(http3_request *request, const uint8_t *bytes, size_t count) {
  http3 *h = request->connection;
  qlog_piece(h->log, request->entry.id, count);
  h->setup->events->body(request, bytes, count);
}

/* Bytes that the endpoint kept: their header section waited, or they are of a WebTransport session. */
static void tell_kept(http3_request *request, const h3_item *item) {
  http3 *h = request->connection;
  uint8_t bytes[PIECE];
  size_t count = 0;
  for (size_t from = 0; from < item->len; from += count) {
    if (h3_item_bytes(&h->endpoint, from, bytes, sizeof bytes, &count) != H3_OK) return;
    tell_body(request, bytes, count);
  }
}

/* A request whose header section is longer than the endpoint keeps. No more of it is needed, and the program answers it as one that is too
 * large. Some clients read no answer until they have sent the section, and fail if they are stopped before: so they may send a window more,
 * and have some time for it. */
static void tell_too_long(http3_request *request) {
  http3 *h = request->connection;
  hurry(request);
  quic_allow(h->quic, (int64_t)request->entry.id, HELD_LIMIT);
  request->stop_at = quic_time() + SECTION_GRACE;
  h->setup->events->head(request, &(h3_item){.kind = H3_TOO_LARGE_HEAD});
}

static bool is_both_ways(uint64_t id) { return id % 4 < 2; }

/* The peer's message is over: an end, or a fault. */
static void settle(http3_request *request, const h3_item *item) {
  http3 *h = request->connection;
  request->settled = true;
  if (item->kind == H3_END) return h->setup->events->end(request);
  if (item->kind == H3_FAULT_MALFORMED && item->number == H3_TOO_LONG && h->setup->server && !request->has_head) return tell_too_long(request);
  if (item->kind == H3_FAULT_MALFORMED || item->kind == H3_FAULT_RESET)
    cut_off(request, h3_error_code(item->kind, item->number, h->setup->server));
  if (item->kind != H3_FAULT_CANCELED) h->setup->events->failed(request, item);
}

/* Tells what was read; a piece of the body may lie in the bytes that were given. false: nothing more is there. */
static bool tell(http3_request *request, const h3_item *item, const uint8_t *given) {
  http3 *h = request->connection;
  switch (item->kind) {
  case H3_HEAD:
  case H3_INTERIM:
  case H3_TRAILER:
  case H3_TOO_LARGE_HEAD: tell_section(request, item); return true;
  case H3_BODY_GIVEN: tell_body(request, given + item->number, item->len); return true;
  case H3_BODY:
  case H3_RAW: tell_kept(request, item); return true;
  case H3_SESSION:
    request->raw = true;
    if (h->setup->events->session) h->setup->events->session(request, item->number);
    else http3_give_up(request, H3_CODE_REQUEST_REJECTED);
    return true;
  case H3_PENDING: return false;
  case H3_WAITING: request->waiting = true; return false;
  case H3_FAULT_CONNECTION: quic_close(h->quic, item->number); return false;
  case H3_FAULT_MEMORY: quic_close(h->quic, H3_CODE_INTERNAL_ERROR); return false;
  default: settle(request, item); return false;
  }
}

/* The peer gets credit for what was read of a request; of a frame that is larger than any that is taken nothing more is wanted. */
static void go_on(http3_request *request) {
  grant_request(request);
  if (request->settled || request->waiting || request->paused || request->held_count > 0 || request->owed <= HELD_LIMIT) return;
  http3_give_up(request, H3_CODE_EXCESSIVE_LOAD);
  request->connection->setup->events->failed(request, &(h3_item){.kind = H3_FAULT_CANCELED, .number = H3_CODE_EXCESSIVE_LOAD});
  grant_request(request);
}

/* Pulls what the endpoint kept of a request, until it pauses or ends. */
static void pull(http3_request *request) {
  h3_item item;
  request->waiting = false;
  do
    if (request->settled || request->paused || h3_pull(&request->connection->endpoint, request->entry.id, &item) != H3_OK) break;
  while (tell(request, &item, NULL));
  go_on(request);
}

/* Pulls a unidirectional stream. No messages are expected on it, but the bytes of a WebTransport session, where the program wants such. */
static void pull_stream(http3 *h, uint64_t id) {
  http3_request *request = find(h, id);
  h3_item item;
  do {
    if ((request && request->settled) || h3_pull(&h->endpoint, id, &item) != H3_OK) return;
    if (item.kind == H3_FAULT_CONNECTION) return quic_close(h->quic, item.number);
    if (item.kind == H3_SESSION && h->setup->events->session && !(request = add(h, id))) return quic_close(h->quic, H3_CODE_INTERNAL_ERROR);
  } while (request ? tell(request, &item, NULL) : item.kind < H3_END);
}

static void pull_others(http3 *h, uint64_t id);

/* A request is held back while the program takes nothing of it, or its header section waits: what came stays here, piece for piece. */
static bool is_held_back(const http3_request *request) { return !request->settled && (request->paused || request->waiting); }

/* Keeps a copy, before what is held or after it. */
static void hold(http3_request *request, bool is_first, const uint8_t *bytes, size_t count, bool end) {
  chunk *chunk = malloc(sizeof *chunk + count);
  if (!chunk) return quic_close(request->connection->quic, H3_CODE_INTERNAL_ERROR);
  chunk->count = count;
  chunk->end = end;
  if (count > 0) memcpy(chunk->bytes, bytes, count);
  if (is_first) STAILQ_INSERT_HEAD(&request->held, chunk, order);
  else STAILQ_INSERT_TAIL(&request->held, chunk, order);
  request->held_count += count;
}

/* The endpoint gets what came on a unidirectional stream, or on one of which nothing more is wanted. Its end may have come before. */
static bool deliver(http3 *h, uint64_t id, const uint8_t *bytes, size_t count, bool end) {
  uint64_t code = 0;
  uint32_t answer = h3_deliver(&h->endpoint, id, bytes, count, &code);
  if (end && (answer == H3_OK || answer == H3_KEPT)) answer = h3_deliver_end(&h->endpoint, id, &code);
  if (answer == H3_OK || answer == H3_KEPT || answer == H3_AFTER_END) return true;
  refuse(h, answer, code);
  return false;
}

/* A server that shuts down processes nothing of a request: its client may send it on another connection. */
static void reject(http3_request *request, uint64_t code) {
  quic_connection *quic = request->connection->quic;
  int64_t id = (int64_t)request->entry.id;
  quic_reset(quic, id, code);
  quic_stop(quic, id, code);
  request->settled = true;
  drop(request);
}

/* The endpoint reads what came on a request's stream, and the program gets what it makes of it. The bytes behind a pause of the program's stay
 * here. */
static void read_request(http3_request *request, const uint8_t *bytes, size_t count, bool end) {
  http3 *h = request->connection;
  uint64_t id = request->entry.id, code = 0;
  h3_item item = {0};
  size_t used;
  bool goes_on = true;
  request->waiting = false;
  while (goes_on && !request->settled && !request->paused) {
    uint32_t answer = h3_read(&h->endpoint, id, bytes, count, end, &used, &item, &code);
    if (answer == H3_REJECTED) return reject(request, code);
    if (answer != H3_OK) return refuse(h, answer, code);
    goes_on = tell(request, &item, bytes);
    bytes += used;
    count -= used;
  }
  if (request->settled && item.kind != H3_END) deliver(h, id, bytes, count, end);
  if (!request->settled && goes_on && (count > 0 || end)) hold(request, true, bytes, count, end);
  go_on(request);
}

/* What was held back goes on, as far as the program takes it. */
static void release(http3_request *request) {
  if (is_held_back(request)) return;
  pull(request);
  for (chunk *chunk; !is_held_back(request) && (chunk = take_held(request)); free(chunk))
    read_request(request, chunk->bytes, chunk->count, chunk->end);
  grant_request(request);
}

/* The server processes no request from this id on: they may be sent on another connection. */
static void reject_from(http3 *h, uint64_t id) {
  http3_request *request;
  TAILQ_FOREACH(request, &h->requests, order) {
    if (request->entry.id < id || request->settled) continue;
    http3_give_up(request, H3_CODE_REQUEST_CANCELLED);
    h->setup->events->failed(request, &(h3_item){.kind = H3_FAULT_RESET, .number = H3_CODE_REQUEST_REJECTED});
  }
}

static void log_settings(http3 *h) {
  h3_state state;
  if (h->log && h3_connection(&h->endpoint, &state) == H3_OK)
    qlog_settings(h->log, false, state.peer_section, state.peer_table, state.peer_blocked);
}

/* A client's: the server's last GOAWAY has this id. */
static void goaway_came(http3 *h, uint64_t id) {
  h->leaving = true;
  qlog_goaway(h->log, false, id);
  if (h->setup->events->going_away) h->setup->events->going_away(h, h->setup->user);
  reject_from(h, id);
}

/* What happened on the connection. */
static void tell_events(http3 *h) {
  uint32_t kind;
  uint64_t id;
  while (h3_next_event(&h->endpoint, &kind, &id) == H3_OK)
    if (kind == H3_EVENT_SETTINGS) log_settings(h);
    else if (!h->setup->server) goaway_came(h, id);
}

/* A stream of the peer's was read: those header sections may be there that waited for it. */
static void pull_others(http3 *h, uint64_t id) {
  pull_stream(h, id);
  for (other *at = h->others; at < h->others + QUIC_OTHERS; at++) grant_other(h, at);
  for (uint64_t at = 0; h3_next_unblocked(&h->endpoint, at, &at) == H3_OK; at++) {
    http3_request *request = find(h, at);
    if (!request) continue;
    request->waiting = false;
    release(request);
  }
  tell_events(h);
}

/* GOAWAY was sent: the peer opens no more requests. */
static void said_goaway(http3 *h, uint64_t id, uint32_t answer) {
  h->leaving = true;
  qlog_goaway(h->log, true, id);
  quic_wake(h->quic, 0);
  if (answer != H3_OK) quic_close(h->quic, H3_CODE_INTERNAL_ERROR);
}

/* From the requests on of which nothing came yet, none is taken. */
static void shut(http3 *h) {
  uint64_t id = 0;
  h->shut = true;
  h3_first_unseen(&h->endpoint, &id);
  said_goaway(h, id, h3_shutdown(&h->endpoint, NULL));
}

static bool is_request(uint64_t id) { return id % 4 == 0; }

/* The request on a stream. At a server the first bytes on a stream open it, and all before it (RFC 9000, section 2.1), which may come later.
 * NULL: it is over. */
static http3_request *take(http3 *h, uint64_t id) {
  bool is_new = h->setup->server && id >= h->next_id;
  for (; is_new && h->next_id <= id; h->next_id += 4)
    if (!add(h, h->next_id)) {
      quic_close(h->quic, H3_CODE_INTERNAL_ERROR);
      return NULL;
    }
  /* the peer is told while it can still use as many streams as it may have opened: none is rejected */
  if (is_new && !h->leaving && h->next_id + 4 * QUIC_STREAMS >= h->end_id) said_goaway(h, h->end_id, h3_goaway(&h->endpoint, h->end_id, NULL));
  return find(h, id);
}

/* The request on a stream, or the stream both ways that a server opened for a session. NULL: it is over, or unidirectional. */
static http3_request *take_both_ways(http3 *h, uint64_t id) {
  if (is_request(id)) return take(h, id);
  if (!is_both_ways(id) || h->setup->server || h->setup->sessions == 0) return NULL;
  http3_request *found = find(h, id);
  return found ? found : add_raw(h, id, true);
}

/* The peer's unidirectional stream ended, or was reset: QUIC says nothing more of it. */
static void one_way_over(http3 *h, uint64_t id) {
  http3_request *request = find(h, id);
  if (request) request->closed = true;
}

static void received(void *owner, int64_t stream, const uint8_t *bytes, size_t count, bool end) {
  http3 *h = owner;
  uint64_t id = (uint64_t)stream;
  http3_request *request = take_both_ways(h, id);
  size_t *owed = request ? &request->owed : is_request(id) ? NULL : owed_for(h, id);
  if (!owed) return quic_consumed(h->quic, stream, count); /* it is over */
  *owed += count;
  if (request && (is_held_back(request) || request->resumed || !STAILQ_EMPTY(&request->held))) hold(request, false, bytes, count, end);
  else if (request) read_request(request, bytes, count, end);
  else {
    if (deliver(h, id, bytes, count, end)) pull_others(h, id);
    if (end) one_way_over(h, id);
  }
}

static void was_reset(void *owner, int64_t stream, uint64_t reason) {
  http3 *h = owner;
  uint64_t id = (uint64_t)stream, code = 0;
  http3_request *request = take_both_ways(h, id);
  if (request ? request->settled : is_request(id)) return;
  for (chunk *chunk; request && (chunk = take_held(request));) free(chunk);
  uint32_t answer = h3_deliver_reset(&h->endpoint, id, reason, &code);
  if (answer == H3_REJECTED && request) return reject(request, code);
  if (answer != H3_OK && answer != H3_KEPT) return refuse(h, answer, code);
  if (request) request->paused = false; /* its end is a fault, which comes at once */
  if (request) return pull(request);
  pull_others(h, id);
  one_way_over(h, id);
}

/* A datagram for a request that is there. Any other one is dropped, as one that was lost on its way. */
static void datagram_came(void *owner, const uint8_t *bytes, size_t count) {
  http3 *h = owner;
  uint64_t id = 0, code = 0;
  size_t from = 0;
  uint32_t answer = h3_read_datagram(&h->endpoint, bytes, count, &id, &from, &code);
  if (answer == H3_CONNECTION) return quic_close(h->quic, code);
  http3_request *request = answer == H3_OK ? find(h, id) : NULL;
  if (request && !request->settled && h->setup->events->datagram) h->setup->events->datagram(request, bytes + from, count - from);
}

static void was_stopped(void *owner, int64_t stream) {
  http3 *h = owner;
  http3_request *request = find(h, (uint64_t)stream);
  if (!request && !is_request((uint64_t)stream)) {
    if ((uint64_t)stream <= h3_decoder_id(h->setup->server)) quic_close(h->quic, 0x104); /* H3_CLOSED_CRITICAL_STREAM */
    return;
  }
  h3_reset(&h->endpoint, (uint64_t)stream, NULL);
  if (!request) return;
  request->sending = false;
  if (h->setup->events->stopped) h->setup->events->stopped(request);
}

static void stream_closed(void *owner, int64_t stream) {
  http3 *h = owner;
  http3_request *request = find(h, (uint64_t)stream);
  if (request && !request->sent) h3_reset(&h->endpoint, request->entry.id, NULL); /* nothing more of it goes out */
  if (request) request->closed = true;
  for (other *at = h->others; at < h->others + QUIC_OTHERS; at++)
    if (at->id == (uint64_t)stream) at->owed = 0; /* what is still held of it gets no credit */
}

/* ---- what goes out ---- */

/* Gives QUIC bytes, and the end behind them. false: the connection is closed, for want of memory. */
static bool move(http3 *h, uint64_t id, const uint8_t *bytes, size_t count, bool end) {
  if (quic_send(h->quic, (int64_t)id, bytes, count, end)) return true;
  quic_close(h->quic, H3_CODE_INTERNAL_ERROR);
  return false;
}

/* The program writes the next bytes of a body of http3_body_of where QUIC keeps them. false: it cannot, or there is no memory. A packet is written
 * now: the stream is reset after it. */
static bool move_body(http3_request *request, size_t count, bool end) {
  http3 *h = request->connection;
  uint64_t id = request->entry.id;
  uint8_t *place = quic_send_here(h->quic, (int64_t)id, count);
  if (place && h->setup->events->read(request, place, count)) return !end || move(h, id, NULL, 0, true);
  if (!place) quic_close(h->quic, H3_CODE_INTERNAL_ERROR);
  request->unreadable = true;
  quic_wake(h->quic, 0);
  return false;
}

/* Moves the next piece of what waits on a stream to QUIC, as far as it has room, and the end after it, once. The request is NULL if the stream is
 * not that of one. false: the piece cannot be had. */
static bool move_piece(http3 *h, uint64_t id, http3_request *request) {
  uint8_t bytes[PIECE];
  size_t room = quic_room(h->quic, (int64_t)id), count, past;
  uint32_t end;
  if (room > PIECE) room = PIECE; /* what QUIC keeps is freed piece by piece */
  if (h3_outgoing(&h->endpoint, id, bytes, room, &count, &past, &end) != H3_OK) return true;
  if (past > room - count) past = room - count, end = 0;
  if (count == 0 && past == 0 && !end) return true;
  if (!move(h, id, bytes, count, end && past == 0) || (past > 0 && !move_body(request, past, end))) return false;
  h3_advance(&h->endpoint, id, count + past);
  if (!end) return true;
  h3_end_taken(&h->endpoint, id); /* the stream is named no longer */
  if (request) request->sent = true;
  return true;
}

static bool next(void *owner, int64_t *stream) {
  http3 *h = owner;
  uint64_t id;
  if (h3_next_by_priority(&h->endpoint, &id) != H3_OK) return false;
  *stream = (int64_t)id;
  return true;
}

static bool more(void *owner, int64_t stream) {
  http3 *h = owner;
  http3_request *request = find(h, (uint64_t)stream);
  bool moved = move_piece(h, (uint64_t)stream, request);
  if (request && request->sending) request->unsent = http3_waiting(request);
  return moved;
}

static void held(void *owner, int64_t stream, bool held) {
  http3 *h = owner;
  if (h3_hold(&h->endpoint, (uint64_t)stream, held, NULL) == H3_MEMORY) quic_close(h->quic, H3_CODE_INTERNAL_ERROR);
}

/* Asks for more of the bodies that are being sent. */
static void ask_for_bodies(http3 *h) {
  http3_request *request;
  TAILQ_FOREACH(request, &h->requests, order)
    if (h->setup->events->room && http3_room(request) > 0) h->setup->events->room(request);
}

/* A connection that takes no more requests is closed when nothing is left to be done. All is acknowledged then, but its reader may not have it
 * yet, and would lose it: the peer is the one to close, or does nothing any more. */
static void close_if_drained(http3 *h) {
  uint32_t is_drained = 0;
  if (!h->leaving || !TAILQ_EMPTY(&h->requests)) return;
  quic_wake(h->quic, 1000);
  if (quic_silence(h->quic) < LINGER || quic_time() - h->leaving_at <= LINGER) return;
  if (h->setup->server && !h->shut) shut(h); /* of the requests that the peer may still have some may not come */
  h3_is_drained(&h->endpoint, &is_drained);
  if (is_drained) quic_close(h->quic, H3_CODE_NO_ERROR);
}

/* Tells the peer to send no more of a request, when its time has come. */
static void stop_in_time(http3_request *request) {
  if (request->stop_at == 0) return;
  uint64_t time = quic_time();
  if (time < request->stop_at) return quic_wake(request->connection->quic, request->stop_at - time);
  request->stop_at = 0;
  /* a request without a header section is one whose section was too long */
  quic_stop(request->connection->quic, (int64_t)request->entry.id, request->has_head ? H3_CODE_NO_ERROR : H3_CODE_EXCESSIVE_LOAD);
}

/* What was paused goes on, and a request is given up whose body could not be read. */
static void resume(http3_request *request) {
  if (request->unreadable) http3_give_up(request, H3_CODE_INTERNAL_ERROR);
  request->unreadable = false;
  if (!request->resumed) return;
  request->resumed = false;
  release(request);
}

static void fill(void *owner) {
  http3 *h = owner;
  http3_request *resumed;
  TAILQ_FOREACH(resumed, &h->requests, order) resume(resumed);
  ask_for_bodies(h);
  for (http3_request *request = TAILQ_FIRST(&h->requests), *next; request; request = next) {
    next = TAILQ_NEXT(request, order);
    if (request->closed && request->sending) was_stopped(h, (int64_t)request->entry.id); /* while nothing was to be sent QUIC does not say so */
    if (request->closed && request->settled) drop(request);
    else stop_in_time(request);
  }
  close_if_drained(h);
}

/* ---- the connection ---- */

static void *opened(quic_connection *quic, void *user) {
  const http3_setup *setup = user;
  h3_config config;
  http3 *h = calloc(1, sizeof *h);
  if (!h) return NULL;
  h->quic = quic;
  h->setup = setup;
  TAILQ_INIT(&h->requests);
  h->end_id = setup->requests > 0 && setup->requests < UINT64_MAX / 16 ? 4 * setup->requests : UINT64_MAX;
  h3_config_default(&config);
  config.server = setup->server;
  config.webtransport = config.datagram = setup->sessions > 0;
  config.extended_connect = setup->sessions > 0 || setup->tunnels;
  config.max_webtransport_sessions = setup->sessions;
  config.sessions = setup->sessions > 0;
  bool made = h3_new(&h->endpoint, &config, NULL) == H3_OK;
  for (int64_t id = (int64_t)h3_control_id(setup->server), i = 0; made && i < 3; i++, id += 4) /* the peer's heads may wait for them */
    made = quic_open(quic, true) == id;
  if (!made) {
    h3_free(&h->endpoint);
    free(h);
    return NULL;
  }
  char peer[QUIC_PLACE];
  quic_peer(quic, peer);
  h->log = qlog_begin(setup->qlog, setup->server, peer);
  qlog_settings(h->log, true, config.max_field_section_size, config.table, config.blocked);
  setup->events->ready(h, setup->user);
  return h;
}

static void closed(void *owner, const quic_ending *ending) {
  http3 *h = owner;
  for (http3_request *request; (request = TAILQ_FIRST(&h->requests));) drop(request);
  h3_free(&h->endpoint);
  qlog_end(h->log, ending);
  h->setup->events->over(h->setup->user, ending);
  free(h);
}

const quic_events http3_over_quic = {opened, received, was_reset, was_stopped, stream_closed, fill, next, more, held, datagram_came, closed};

void http3_leave(void *owner) {
  http3 *h = owner;
  uint64_t time = quic_time();
  if (!h->setup->server) return;
  if (h->leaving_at == 0) {
    h->leaving_at = time;
    said_goaway(h, ANY_ID, h3_shutdown_notice(&h->endpoint, NULL));
  } else if (!h->shut && time - h->leaving_at > NOTICE)
    shut(h);
}

/* ---- what programs call ---- */

http3_request *http3_open(http3 *h, bool *going_away) {
  uint64_t id;
  *going_away = false;
  if (quic_may_open(h->quic, false) == 0) return NULL;
  uint32_t answer = h3_open_request(&h->endpoint, &id, NULL);
  *going_away = answer == H3_GOING_AWAY || answer == H3_CLOSED;
  if (answer != H3_OK) return NULL;
  http3_request *request = quic_open(h->quic, false) == (int64_t)id ? add(h, id) : NULL;
  if (!request) quic_close(h->quic, H3_CODE_INTERNAL_ERROR);
  else prefer(h3_set_priority, request, USUAL, 1);
  return request;
}

void http3_prefer(http3_request *request, const http3_list *list) {
  uint32_t urgency, incremental;
  if (!list || !http3_priority(list, &urgency, &incremental)) return prefer(h3_set_priority, request, USUAL, 1);
  /* what is usual need not be said: while nobody said anything, no turn is counted */
  if (urgency != USUAL || incremental) prefer(h3_set_initial_priority, request, urgency, incremental);
}

bool http3_update(http3_request *request, uint32_t urgency, uint32_t incremental) {
  if (h3_send_priority(&request->connection->endpoint, request->entry.id, urgency, incremental, NULL) != H3_OK) return false;
  quic_wake(request->connection->quic, 0);
  return true;
}

bool http3_has_to_wait(const http3_request *request, uint64_t silence) {
  const quic_connection *quic = request->connection->quic;
  return request->unsent > 0 && quic_is_read(quic, (int64_t)request->entry.id) && quic_silence(quic) < silence;
}

/* A section goes out by a call of h3.h. */
typedef uint32_t send_call(h3_endpoint *, uint64_t, const h3_field_size *, const uint8_t *, size_t, const void *, size_t, uint64_t *);
static uint32_t send_section(send_call *call, http3_request *request, const http3_list *list) {
  return call(&request->connection->endpoint, request->entry.id, list->sizes, list_flags(list), list->count, list_bytes(list), list->len, NULL);
}

bool http3_interim(http3_request *request, const http3_list *list) {
  http3 *h = request->connection;
  if (send_section(h3_send_head, request, list) != H3_OK) return false;
  qlog_section(h->log, true, request->entry.id, list);
  quic_wake(h->quic, 0);
  return true;
}

bool http3_head(http3_request *request, const http3_list *list) { return request->sending = http3_interim(request, list); }

bool http3_trailer(http3_request *request, const http3_list *list) {
  http3 *h = request->connection;
  if (send_section(h3_send_trailer, request, list) != H3_OK) return false;
  qlog_section(h->log, true, request->entry.id, list);
  quic_wake(h->quic, 0);
  return true;
}

bool http3_head_of(http3_request *request, const http3_field *fields, size_t count) {
  http3_list *list = http3_list_of(fields, count);
  bool sent = list && http3_head(request, list);
  free(list);
  return sent;
}

uint64_t http3_waiting(http3_request *request) {
  h3_stream_state state;
  return h3_stream(&request->connection->endpoint, request->entry.id, &state) == H3_OK ? state.waiting : 0;
}

size_t http3_room(http3_request *request) {
  if (!request->sending) return 0;
  size_t room = quic_room(request->connection->quic, (int64_t)request->entry.id);
  if (room > WAITING_LIMIT) room = WAITING_LIMIT;
  return request->unsent < room ? room - request->unsent : 0;
}

/* The endpoint has so many bytes more of the body, or (false) refused them. */
static bool body_given(http3_request *request, uint32_t answer, size_t count) {
  if (answer != H3_OK) return false;
  request->unsent += count;
  if (count > 0) qlog_data(request->connection->log, request->entry.id, count);
  quic_wake(request->connection->quic, 0);
  return true;
}

bool http3_body(http3_request *request, const uint8_t *bytes, size_t count) {
  return body_given(request, h3_send_body(&request->connection->endpoint, request->entry.id, bytes, count, NULL), count);
}

bool http3_body_of(http3_request *request, size_t count) {
  return body_given(request, h3_send_body_of(&request->connection->endpoint, request->entry.id, count, NULL), count);
}

http3_request *http3_open_stream(http3_request *session, bool both_ways) {
  http3 *h = session->connection;
  uint64_t id;
  if (quic_may_open(h->quic, !both_ways) == 0) return NULL;
  if (h3_open_session_stream(&h->endpoint, session->entry.id, both_ways, &id, NULL) != H3_OK) return NULL;
  http3_request *request = quic_open(h->quic, !both_ways) == (int64_t)id ? add_raw(h, id, both_ways) : NULL;
  if (!request) quic_close(h->quic, H3_CODE_INTERNAL_ERROR);
  else quic_wake(h->quic, 0);
  return request;
}

bool http3_raw(http3_request *request, const uint8_t *bytes, size_t count, bool end) {
  http3 *h = request->connection;
  if (h3_send_raw(&h->endpoint, request->entry.id, bytes, count, NULL) != H3_OK) return false;
  request->sending = true;
  request->unsent += count;
  quic_wake(h->quic, 0);
  if (end) http3_finish(request);
  return true;
}

bool http3_datagram(http3_request *session, const uint8_t *bytes, size_t count) {
  http3 *h = session->connection;
  uint8_t all[PIECE];
  size_t head;
  if (h3_datagram_head(&h->endpoint, session->entry.id, all, sizeof all, &head, NULL) != H3_OK || count > sizeof all - head) return false;
  memcpy(all + head, bytes, count);
  return quic_datagram(h->quic, all, head + count);
}

void http3_end_session(http3_request *session) {
  http3 *h = session->connection;
  for (uint64_t id = 0; h3_next_of_session(&h->endpoint, session->entry.id, id, &id) == H3_OK; id++) {
    http3_request *request = find(h, id);
    if (request) http3_give_up(request, H3_CODE_WEBTRANSPORT_SESSION_GONE);
  }
}

void http3_finish(http3_request *request) {
  h3_finish(&request->connection->endpoint, request->entry.id, NULL);
  quic_wake(request->connection->quic, 0);
  request->sending = false;
}

/* Nothing more of the peer's message is told. */
static void cancel(http3_request *request) {
  http3 *h = request->connection;
  uint64_t reason = 0;
  uint32_t answer = h3_cancel(&h->endpoint, request->entry.id, &reason); /* refused where the message is over */
  if (answer == H3_MEMORY || answer == H3_CLOSED) refuse(h, answer, reason);
  request->settled = true;
  grant_request(request);
}

void http3_give_up(http3_request *request, uint64_t code) {
  cancel(request);
  cut_off(request, code);
}

void http3_reset(http3_request *request, uint64_t code) {
  http3 *h = request->connection;
  if (h3_reset(&h->endpoint, request->entry.id, NULL) != H3_OK) return;
  request->sending = false;
  quic_reset(h->quic, (int64_t)request->entry.id, code);
}

void http3_pause(http3_request *request) { request->paused = true; }

void http3_resume(http3_request *request) {
  if (!request->paused) return;
  request->paused = false;
  request->resumed = true;
  quic_wake(request->connection->quic, 0);
}

void http3_peer(http3 *h, char text[QUIC_PLACE]) { quic_peer(h->quic, text); }

bool http3_has_settings(http3 *h) {
  h3_state state;
  return h3_connection(&h->endpoint, &state) == H3_OK && state.has_settings;
}

void http3_close(http3 *h, uint64_t code) { quic_close(h->quic, code); }

void http3_ignore(http3_request *request) {
  if (request->settled) return;
  cancel(request);
  request->stop_at = quic_time() + GRACE;
  quic_wake(request->connection->quic, GRACE);
}

http3_list *http3_fields(http3 *h, const h3_item *head) { return list_of_item(&h->endpoint, head); }

bool http3_values(http3 *h, const h3_item *head, http3_wanted *wanted, size_t count) {
  http3_list *list = http3_fields(h, head);
  bool found = list && http3_find(list, wanted, count);
  if (!list) quic_close(h->quic, H3_CODE_INTERNAL_ERROR);
  free(list);
  return found;
}

const char *http3_why(const h3_item *item) {
  switch (item->kind) {
  case H3_FAULT_MALFORMED: return h3_malformation_text(item->number);
  case H3_FAULT_RESET:
  case H3_FAULT_CANCELED: return h3_code_text(item->number);
  default: return h3_kind_text(item->kind);
  }
}

const char *http3_why_over(const quic_ending *ending) {
  if (ending->by == QUIC_TIMED_OUT) return "silence";
  if (ending->by == QUIC_NOBODY_LISTENS) return "nobody listens";
  return ending->application ? h3_code_text(ending->code) : quic_code_text(ending->code);
}
