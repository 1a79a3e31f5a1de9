/* A client and a server in one program, over a QUIC library of some lines. docs/GUIDE.md goes through it: the event loop (on_data,
 * on_reset, on_stop, on_credit, on_writable), and what a program does with messages. tests/c/in_memory.stdout has the lines that it prints. */
#include "h3.h"
#include <stdio.h>
#include <stdlib.h>
#include <string.h>

enum {
  STREAMS = 32,          /* ids of streams: 0 to 31 */
  PACKET = 1000,         /* bytes that QUIC takes at once */
  SECTION = 1024,        /* the largest header section that is accepted */
  WINDOW = 4 * SECTION,  /* bytes of a stream that may come before more credit is granted: no header section needs more */
  MOST_WAITING = 2000,   /* a sender stops while so many bytes of a stream wait */
  MOST_AT_ONCE = 1200    /* bytes of bodies that the program of the server takes in a turn */
};

/* What the program keeps of a stream. */
typedef struct {
  size_t room;      /* QUIC: how many bytes may go out before the peer grants more */
  size_t owed;      /* bytes that came, and for which no credit was granted yet */
  size_t most_held; /* the most bytes that came and were not read */
  size_t taken;     /* bytes of a body that the program has taken, in all */
  size_t to_make;   /* bytes of a body that are to be sent yet */
  const char *body; /* the rest of a body that h3_send_body_of announced */
  int is_paused;    /* the program takes no more now */
} stream;

/* What one side says to the other: stream data, RESET_STREAM, STOP_SENDING or MAX_STREAM_DATA (`len` bytes more). */
typedef struct {
  enum { DATA, RESET, STOP, CREDIT } what;
  int fin;
  uint64_t id, code;
  size_t len;
  uint8_t bytes[PACKET];
} packet;

typedef struct side {
  h3_endpoint h3;
  const char *name;
  struct side *peer;
  stream streams[STREAMS];
  packet packets[64]; /* that came and were not received */
  unsigned first, end;
  size_t left; /* how many bytes of bodies the program takes in this turn */
  int is_server;
} side;

/* ---- a QUIC library in memory ---- */

static void quic_put(side *at, packet next) {
  if (at->peer->end - at->peer->first == 64) abort();
  at->peer->packets[at->peer->end++ % 64] = next;
}

static size_t quic_room(const side *at, uint64_t id) { return at->streams[id].room < PACKET ? at->streams[id].room : PACKET; }

static void quic_send(side *at, uint64_t id, const void *bytes, size_t len, int fin) {
  packet next = {.what = DATA, .fin = fin, .id = id, .len = len};
  memcpy(next.bytes, bytes, len);
  at->streams[id].room -= len;
  quic_put(at, next);
}

static void quic_reset(side *at, uint64_t id, uint64_t code) { quic_put(at, (packet){.what = RESET, .id = id, .code = code}); }
static void quic_stop(side *at, uint64_t id, uint64_t code) { quic_put(at, (packet){.what = STOP, .id = id, .code = code}); }
static void quic_grant(side *at, uint64_t id, size_t bytes) { quic_put(at, (packet){.what = CREDIT, .id = id, .len = bytes}); }

static void quic_close(side *at, uint64_t code) {
  printf("%s: the connection ends, %s\n", at->name, h3_code_text(code));
  if (code != H3_CODE_NO_ERROR) exit(1);
}

/* ---- fields: the sizes of names and values in an array, and all their bytes in a buffer ---- */

/* Takes any section that is accepted: a field counts its bytes and 32. */
typedef struct {
  h3_field_size sizes[SECTION / 32];
  size_t count, len;
  char bytes[SECTION];
} fields;

static void add(fields *list, const char *name, const char *value) {
  size_t n = strlen(name), v = strlen(value);
  if (list->count == SECTION / 32 || n + v > sizeof list->bytes - list->len) abort();
  memcpy(list->bytes + list->len, name, n);
  memcpy(list->bytes + list->len + n, value, v);
  list->len += n + v;
  list->sizes[list->count++] = (h3_field_size){(uint32_t)n, (uint32_t)v};
}

/* The value of the first field of this name; NULL: there is none. */
static const char *find(const fields *list, const char *name, size_t *len) {
  const char *at = list->bytes;
  for (size_t i = 0; i < list->count; at += list->sizes[i].name + list->sizes[i].value, i++) {
    if (list->sizes[i].name != strlen(name) || memcmp(at, name, strlen(name)) != 0) continue;
    *len = list->sizes[i].value;
    return at + list->sizes[i].name;
  }
  return NULL;
}

/* ---- messages: what a program sends ---- */

/* Both halves of a stream end. H3_ENDED is normal: that half has ended before. */
static void give_up(side *at, uint64_t id, uint64_t code) {
  if (h3_cancel(&at->h3, id, NULL) == H3_OK) quic_stop(at, id, code);
  if (h3_reset(&at->h3, id, NULL) == H3_OK) quic_reset(at, id, code);
}

static uint64_t ask(side *client, const char *path, const char *priority, size_t body) {
  fields head = {.count = 0};
  uint64_t id;
  uint32_t answer = h3_open_request(&client->h3, &id, NULL); /* then QUIC opens its stream: both give 0, 4, 8, .. */
  if (answer != H3_OK) abort();
  add(&head, ":method", body > 0 ? "POST" : "GET");
  add(&head, ":scheme", "https");
  add(&head, ":authority", "localhost");
  add(&head, ":path", path);
  add(&head, "priority", priority);
  answer = h3_send_head(&client->h3, id, head.sizes, NULL, head.count, head.bytes, head.len, NULL);
  client->streams[id].to_make = body;
  if (answer == H3_OK && body == 0) answer = h3_finish(&client->h3, id, NULL);
  if (answer != H3_OK) give_up(client, id, H3_CODE_INTERNAL_ERROR);
  return id;
}

static void respond(side *server, uint64_t id) {
  static const char body[] = "hello\n";
  fields early = {.count = 0}, head = {.count = 0}, trailer = {.count = 0};
  h3_endpoint *h3 = &server->h3;
  add(&early, ":status", "103"); /* an interim response, which may come before the response */
  add(&early, "link", "</style.css>; rel=preload");
  add(&head, ":status", "200");
  add(&head, "content-type", "text/plain");
  add(&trailer, "server-timing", "total;dur=3");
  uint32_t answer = h3_send_head(h3, id, early.sizes, NULL, early.count, early.bytes, early.len, NULL);
  if (answer == H3_OK) answer = h3_send_head(h3, id, head.sizes, NULL, head.count, head.bytes, head.len, NULL);
  server->streams[id].body = body; /* these bytes stay where they are: on_writable passes them to QUIC */
  if (answer == H3_OK) answer = h3_send_body_of(h3, id, strlen(body), NULL);
  if (answer == H3_OK) answer = h3_send_trailer(h3, id, trailer.sizes, NULL, trailer.count, trailer.bytes, trailer.len, NULL);
  if (answer == H3_OK) answer = h3_finish(h3, id, NULL);
  if (answer != H3_OK) give_up(server, id, H3_CODE_INTERNAL_ERROR); /* H3_MEMORY: this request alone is lost */
}

/* Sends more of a body, while little enough of it waits. */
static void send_more(side *at, uint64_t id) {
  static const char piece[400] = "a piece of the body of a request\n";
  stream *s = &at->streams[id];
  h3_stream_state state;
  while (s->to_make > 0 && h3_stream(&at->h3, id, &state) == H3_OK && state.waiting < MOST_WAITING) {
    size_t len = s->to_make < sizeof piece ? s->to_make : sizeof piece;
    uint32_t answer = h3_send_body(&at->h3, id, piece, len, NULL);
    if (answer == H3_MEMORY) return; /* nothing was sent: the next turn sends it */
    s->to_make = answer == H3_OK ? s->to_make - len : 0;
    if (s->to_make == 0 && answer == H3_OK) answer = h3_finish(&at->h3, id, NULL);
    if (answer != H3_OK) give_up(at, id, H3_CODE_INTERNAL_ERROR);
  }
}

/* ---- messages: what a program reads ---- */

/* A response goes out as its request asks (RFC 9218); as any other if memory was refused, or the field cannot be read. */
static void prefer(side *server, uint64_t id, const fields *head) {
  uint32_t urgency, incremental;
  size_t len;
  const char *priority = find(head, "priority", &len);
  if (priority && h3_priority_read(priority, len, &urgency, &incremental) == H3_OK)
    h3_set_initial_priority(&server->h3, id, urgency, incremental, NULL);
}

static void on_fields(side *at, uint64_t id, const h3_item *item) {
  fields list;
  if (h3_item_fields(&at->h3, list.sizes, NULL, SECTION / 32, list.bytes, sizeof list.bytes) != H3_OK) abort(); /* H3_ROOM: not with this room */
  list.count = item->fields;
  const char *next = list.bytes;
  printf("%s, stream %u:", at->name, (unsigned)id);
  for (size_t i = 0; i < list.count; i++) {
    printf(" %.*s=%.*s", (int)list.sizes[i].name, next, (int)list.sizes[i].value, next + list.sizes[i].name);
    next += list.sizes[i].name + list.sizes[i].value;
  }
  printf("\n");
  if (at->is_server && item->kind == H3_HEAD) prefer(at, id, &list);
}

static void on_body(side *at, uint64_t id, const uint8_t *bytes, size_t len) {
  stream *s = &at->streams[id];
  if (!at->is_server) printf("%s, stream %u: body: %.*s", at->name, (unsigned)id, (int)len, (const char *)bytes);
  s->taken += len;
  at->left = len < at->left ? at->left - len : 0;
  if (at->is_server && at->left == 0) s->is_paused = 1; /* the program can take no more: read_stream stops */
}

static void on_end(side *at, uint64_t id) {
  printf("%s, stream %u: end\n", at->name, (unsigned)id);
  if (at->is_server) respond(at, id);
}

/* A piece of a body that the library has kept is copied out of it. */
static void on_kept_body(side *at, uint64_t id, const h3_item *item) {
  uint8_t bytes[PACKET];
  size_t n;
  for (size_t from = 0; from < item->len; from += n) {
    if (h3_item_bytes(&at->h3, from, bytes, sizeof bytes, &n) != H3_OK) abort();
    on_body(at, id, bytes, n);
  }
}

/* Does what an item asks for. Returns 0 at a pause, at the end of the message and at a fault. */
static int on_item(side *at, uint64_t id, const h3_item *item, const uint8_t *given) {
  switch (item->kind) {
  case H3_PENDING: case H3_WAITING: case H3_NO_MESSAGES: return 0; /* more has to come first */
  case H3_INTERIM: case H3_HEAD: case H3_TRAILER: on_fields(at, id, item); return 1;
  case H3_BODY_GIVEN: on_body(at, id, given + item->number, item->len); return 1;
  case H3_BODY: on_kept_body(at, id, item); return 1;
  case H3_END: on_end(at, id); return 0;
  case H3_FAULT_CANCELED: return 0;
  case H3_FAULT_CONNECTION: quic_close(at, item->number); return 0;
  default: break; /* enum h3_kind has all */
  }
  uint64_t code = h3_error_code(item->kind, item->number, at->is_server); /* it ends this stream; the connection goes on */
  if (item->kind == H3_FAULT_RESET) code = item->number;
  if (item->kind == H3_TOO_LARGE_HEAD) code = H3_CODE_EXCESSIVE_LOAD; /* a server may also respond with status 431 */
  printf("%s, stream %u: %s, %s\n", at->name, (unsigned)id, h3_kind_text(item->kind), h3_code_text(code));
  give_up(at, id, code);
  return 0;
}

/* ---- the event loop: what QUIC's callbacks do ---- */

/* A read or a delivery was refused. Out of memory ends this connection here; a program may also try again later. */
static void refused(side *at, uint64_t id, uint32_t answer, uint64_t code) {
  if (answer == H3_REJECTED) { /* a request that came after the last GOAWAY */
    printf("%s, stream %u: rejected\n", at->name, (unsigned)id);
    quic_stop(at, id, code);
    quic_reset(at, id, code);
  } else if (answer == H3_CONNECTION || answer == H3_CLOSED) {
    quic_close(at, code);
  } else if (answer != H3_AFTER_END && answer != H3_KEPT) { /* these two are normal */
    quic_close(at, H3_CODE_INTERNAL_ERROR);
  }
}

/* Delivers bytes without reading them: they stay in the library, unread. */
static void deliver(side *at, uint64_t id, const uint8_t *bytes, size_t len, int fin) {
  uint64_t code;
  uint32_t answer = h3_deliver(&at->h3, id, bytes, len, &code);
  if (fin && (answer == H3_OK || answer == H3_KEPT)) answer = h3_deliver_end(&at->h3, id, &code);
  if (answer != H3_OK) refused(at, id, answer, code);
}

/* Reads a request stream up to a pause, its end or a fault. The rest waits while the program can take no more. */
static void read_stream(side *at, uint64_t id, const uint8_t *bytes, size_t len, int fin) {
  uint64_t code;
  h3_item item;
  size_t used;
  for (; !at->streams[id].is_paused; bytes += used, len -= used) {
    uint32_t answer = h3_read(&at->h3, id, bytes, len, fin, &used, &item, &code);
    if (answer != H3_OK) return refused(at, id, answer, code);
    if (!on_item(at, id, &item, bytes)) return;
  }
  deliver(at, id, bytes, len, fin);
}

/* Reads on where the program stopped, or where insertions were missing. */
static void read_on(side *at, uint64_t id) {
  h3_item item;
  while (!at->streams[id].is_paused && h3_pull(&at->h3, id, &item) == H3_OK && on_item(at, id, &item, NULL)) continue;
}

/* Grants credit for the bytes that are no longer held. */
static void grant(side *at) {
  for (uint64_t id = 0; id < STREAMS; id++) {
    stream *s = &at->streams[id];
    h3_stream_state state;
    if (s->owed == 0 || h3_stream(&at->h3, id, &state) != H3_OK) continue;
    if (state.unread > s->most_held) s->most_held = (size_t)state.unread;
    if (s->owed <= state.unread) continue;
    quic_grant(at, id, s->owed - (size_t)state.unread);
    s->owed = (size_t)state.unread;
  }
}

/* Data came on a stream, and perhaps its FIN. */
static void on_data(side *at, uint64_t id, const uint8_t *bytes, size_t len, int fin) {
  at->streams[id].owed += len;
  if (id % 4 == 0) {
    read_stream(at, id, bytes, len, fin);
  } else { /* the peer's control, encoder or decoder stream: header sections may wait for it */
    deliver(at, id, bytes, len, fin);
    for (uint64_t request = 0; h3_next_unblocked(&at->h3, request, &request) == H3_OK; request++) read_on(at, request);
  }
  grant(at);
}

/* RESET_STREAM came. */
static void on_reset(side *at, uint64_t id, uint64_t code) {
  uint64_t detail;
  uint32_t answer = h3_deliver_reset(&at->h3, id, code, &detail);
  if (answer != H3_OK) return refused(at, id, answer, detail);
  read_on(at, id);
  grant(at);
}

/* STOP_SENDING came. H3_CRITICAL: it names a stream that the connection needs. */
static void on_stop(side *at, uint64_t id, uint64_t code) {
  uint32_t answer = h3_reset(&at->h3, id, NULL);
  if (answer == H3_OK) quic_reset(at, id, code);
  else if (answer == H3_CRITICAL) quic_close(at, H3_CODE_CLOSED_CRITICAL_STREAM);
}

/* MAX_STREAM_DATA came: QUIC takes more of this stream. H3_NOT_OPEN: it is over. */
static void on_credit(side *at, uint64_t id, size_t bytes) {
  at->streams[id].room += bytes;
  if (h3_hold(&at->h3, id, 0, NULL) == H3_MEMORY) quic_close(at, H3_CODE_INTERNAL_ERROR); /* or let it go later */
}

/* Passes to QUIC what waits on a stream, as much as fits into a packet. Returns 0 if QUIC takes nothing of it now. */
static int send_some(side *at, uint64_t id) {
  uint8_t bytes[PACKET];
  size_t room = quic_room(at, id), n, past;
  uint32_t fin;
  if (h3_outgoing(&at->h3, id, bytes, room, &n, &past, &fin) != H3_OK) abort();
  if (past > room - n) past = room - n, fin = 0; /* of the body that we hold, as much as there is room for */
  if (n + past == 0 && !fin) return 0;
  quic_send(at, id, bytes, n, fin && past == 0);
  if (past > 0) quic_send(at, id, at->streams[id].body, past, (int)fin), at->streams[id].body += past;
  h3_advance(&at->h3, id, n + past); /* QUIC took these bytes */
  if (fin) h3_end_taken(&at->h3, id); /* and the FIN: the stream is named no longer */
  return 1;
}

/* Packets can be written: the streams of the connection first, then requests by their priorities, and none that has no credit. */
static void on_writable(side *at) {
  uint64_t id;
  while (h3_next_by_priority(&at->h3, &id) == H3_OK)
    if (!send_some(at, id) && h3_hold(&at->h3, id, 1, NULL) != H3_OK) return; /* H3_MEMORY: the next turn goes on */
}

/* ---- the program ---- */

static void make(side *at, side *peer, const char *name, int is_server) {
  h3_config config;
  h3_config_default(&config);
  config.server = (uint64_t)is_server;
  config.max_field_section_size = SECTION;
  if (h3_new(&at->h3, &config, NULL) != H3_OK) abort();
  at->name = name, at->peer = peer, at->is_server = is_server;
  for (int id = 0; id < STREAMS; id++) at->streams[id].room = WINDOW;
}

/* One turn of a side: its program goes on, then packets go out, then those that came are received. */
static unsigned turn(side *at) {
  unsigned came = at->end - at->first;
  at->left = MOST_AT_ONCE;
  for (uint64_t id = 0; id < STREAMS; id += 4) {
    if (at->streams[id].is_paused) at->streams[id].is_paused = 0, read_on(at, id);
    send_more(at, id);
  }
  grant(at);
  on_writable(at);
  while (at->first != at->end) {
    packet next = at->packets[at->first++ % 64];
    if (next.what == DATA) on_data(at, next.id, next.bytes, next.len, next.fin);
    else if (next.what == RESET) on_reset(at, next.id, next.code);
    else if (next.what == STOP) on_stop(at, next.id, next.code);
    else on_credit(at, next.id, next.len);
  }
  return came;
}

static void run(side *client, side *server) {
  for (int quiet = 0; quiet < 8; quiet++)
    if (turn(client) + turn(server) > 0) quiet = 0;
}

/* A server shuts down in two steps, while one more request of the client is on its way. */
static void shut_down(side *server, side *client) {
  uint32_t drained = 0;
  if (h3_shutdown_notice(&server->h3, NULL) != H3_OK) abort(); /* what comes from now on is still processed */
  uint64_t late = ask(client, "/late", "u=3", 0);
  if (h3_shutdown(&server->h3, NULL) != H3_OK) abort(); /* a round trip later, in a real program: then nothing is late */
  run(client, server);
  uint64_t id, goaway;
  if (h3_open_request(&client->h3, &id, &goaway) != H3_GOING_AWAY || goaway != late) abort();
  printf("client: no request from stream %u on; send it again on another connection\n", (unsigned)goaway);
  if (h3_is_drained(&server->h3, &drained) == H3_OK && drained) quic_close(server, H3_CODE_NO_ERROR);
}

int main(void) {
  static side client, server;
  make(&client, &server, "client", 0);
  make(&server, &client, "server", 1);
  run(&client, &server); /* the settings of both */

  ask(&client, "/hello", "u=5", 0);
  ask(&client, "/urgent", "u=1", 0); /* its response goes out first */
  run(&client, &server);

  uint64_t upload = ask(&client, "/upload", "u=3", 20000);
  run(&client, &server);
  const stream *s = &server.streams[upload];
  if (s->most_held == 0 || s->most_held > WINDOW) abort(); /* some was held, and no more than a window */
  printf("server: %u bytes of a body, and never more than a window was held\n", (unsigned)s->taken);

  uint64_t canceled = ask(&client, "/never", "u=3", 20000);
  turn(&client);
  turn(&server);
  give_up(&client, canceled, H3_CODE_REQUEST_CANCELLED);
  client.streams[canceled].to_make = 0;
  run(&client, &server);

  shut_down(&server, &client);
  h3_free(&client.h3);
  h3_free(&server.h3);
  return 0;
}
