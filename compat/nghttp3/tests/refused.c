/* refused.c: a client and a server of the drop-in in one process, over which exchanges go with bodies, interim responses, trailers and a
 * dynamic table, while allocations are refused: each alone, and all from each one on. What may follow: all comes, or a call answers
 * NGHTTP3_ERR_NOMEM. Nothing leaks, once the thread has ended in which it was (memory.c). This program's malloc, calloc, realloc and free
 * take the place of the C library's in all of the process. */
#include <nghttp3/nghttp3.h>
#include <pthread.h>
#include <stdbool.h>
#include <stdio.h>
#include <stdlib.h>
#include <string.h>

enum { EXCHANGES = 6, BODY = 9000, PIECE = 700, ROUNDS = 2000 };

/* ---- memory ---- */

void *__libc_malloc(size_t size);
void *__libc_calloc(size_t count, size_t size);
void *__libc_realloc(void *place, size_t size);
void __libc_free(void *place);

static bool is_counting, refuses_all_later;
static long asked, refused_from, live;
static pthread_key_t at_end; /* of a thread: its value is a `both` */

static bool is_refused(void) {
  if (!is_counting) return false;
  asked++;
  return refuses_all_later ? asked >= refused_from : asked == refused_from;
}

static void *counted(void *place) {
  if (is_counting && place) live++;
  return place;
}

void *malloc(size_t size) { return is_refused() ? NULL : counted(__libc_malloc(size)); }
void *calloc(size_t count, size_t size) { return is_refused() ? NULL : counted(__libc_calloc(count, size)); }
void *realloc(void *place, size_t size) {
  if (is_refused()) return NULL;
  void *moved = __libc_realloc(place, size);
  return place ? moved : counted(moved);
}
void free(void *place) {
  if (is_counting && place) live--;
  __libc_free(place);
}

/* ---- two ends ---- */

typedef struct {
  nghttp3_conn *connection;
  bool is_server;
  size_t unread[4 * EXCHANGES]; /* of its own bodies, by stream */
  size_t came[4 * EXCHANGES];
  int ended;
  bool failed; /* a call of its callbacks was refused memory */
} side;

static uint8_t bytes_of_body[BODY];

static nghttp3_ssize read_data(nghttp3_conn *connection, int64_t id, nghttp3_vec *vectors, size_t count, uint32_t *flags, void *user_data,
                               void *stream_data) {
  side *s = user_data;
  size_t left = s->unread[id], size = left < PIECE ? left : PIECE;
  (void)connection, (void)count, (void)stream_data;
  vectors[0] = (nghttp3_vec){bytes_of_body + BODY - left, size};
  s->unread[id] -= size;
  if (s->unread[id] == 0) *flags |= NGHTTP3_DATA_FLAG_EOF;
  return 1;
}

#define FIELD(name, value) \
  { (uint8_t *)(uintptr_t)(name), (uint8_t *)(uintptr_t)(value), strlen(name), strlen(value), NGHTTP3_NV_FLAG_NONE }

static int submit_response(side *s, int64_t id) {
  nghttp3_nv interim[] = {FIELD(":status", "103"), FIELD("link", "</a.css>")};
  nghttp3_nv head[] = {FIELD(":status", "200"), FIELD("server", "drop-in"), FIELD("content-type", "text/plain")};
  nghttp3_nv trailer[] = {FIELD("digest", "none")};
  nghttp3_data_reader reader = {read_data};
  s->unread[id] = BODY;
  int error = nghttp3_conn_submit_info(s->connection, id, interim, 2);
  if (!error) error = nghttp3_conn_submit_response(s->connection, id, head, 3, &reader);
  return error ? error : nghttp3_conn_submit_trailers(s->connection, id, trailer, 1);
}

static int submit_request(side *s, int64_t id) {
  char path[16];
  snprintf(path, sizeof path, "/%d", (int)id);
  nghttp3_nv head[] = {FIELD(":method", "POST"), FIELD(":scheme", "https"),      FIELD(":authority", "a.b"),
                       FIELD(":path", path),     FIELD("user-agent", "refused"), FIELD("priority", "u=1, i")};
  nghttp3_data_reader reader = {read_data};
  s->unread[id] = BODY;
  return nghttp3_conn_submit_request(s->connection, id, head, 6, &reader, NULL);
}

static int end_stream(nghttp3_conn *connection, int64_t id, void *user_data, void *stream_data) {
  side *s = user_data;
  (void)connection, (void)stream_data;
  s->ended++;
  int error = s->is_server ? submit_response(s, id) : 0;
  if (error == NGHTTP3_ERR_NOMEM) s->failed = true;
  return error ? NGHTTP3_ERR_CALLBACK_FAILURE : 0;
}

static int receive_data(nghttp3_conn *connection, int64_t id, const uint8_t *data, size_t length, void *user_data, void *stream_data) {
  side *s = user_data;
  (void)connection, (void)stream_data;
  if (memcmp(data, bytes_of_body + s->came[id], length) != 0) abort();
  s->came[id] += length;
  return 0;
}

static int receive_field(nghttp3_conn *connection, int64_t id, int32_t token, nghttp3_rcbuf *name, nghttp3_rcbuf *value, uint8_t flags,
                         void *user_data, void *stream_data) {
  (void)connection, (void)id, (void)token, (void)flags, (void)user_data, (void)stream_data;
  nghttp3_rcbuf_incref(name), nghttp3_rcbuf_incref(value);
  nghttp3_rcbuf_decref(value), nghttp3_rcbuf_decref(name);
  return 0;
}

static int open_side(side *s, bool is_server) {
  const nghttp3_callbacks callbacks = {
      .recv_data = receive_data, .recv_header = receive_field, .recv_trailer = receive_field, .end_stream = end_stream};
  nghttp3_settings settings;
  nghttp3_settings_default(&settings);
  settings.qpack_max_dtable_capacity = 4096, settings.qpack_blocked_streams = 100;
  memset(s, 0, sizeof *s), s->is_server = is_server;
  int error = is_server ? nghttp3_conn_server_new(&s->connection, &callbacks, &settings, NULL, s)
                        : nghttp3_conn_client_new(&s->connection, &callbacks, &settings, NULL, s);
  if (!error) error = nghttp3_conn_bind_control_stream(s->connection, is_server ? 3 : 2);
  return error ? error : nghttp3_conn_bind_qpack_streams(s->connection, is_server ? 7 : 6, is_server ? 11 : 10);
}

/* Hands over what one call of writev has: 1 where there was something, 0 where not, else an error. */
static int pass(side *from, side *to) {
  nghttp3_vec vectors[8];
  uint8_t packet[8192];
  int64_t id;
  int fin;
  nghttp3_ssize count = nghttp3_conn_writev_stream(from->connection, &id, &fin, vectors, 8);
  if (count < 0 || id < 0) return (int)(count < 0 ? count : 0);
  size_t length = 0;
  for (nghttp3_ssize i = 0; i < count; i++) {
    if (length + vectors[i].len > sizeof packet) vectors[i].len = sizeof packet - length, fin = 0;
    memcpy(packet + length, vectors[i].base, vectors[i].len), length += vectors[i].len;
  }
  int error = nghttp3_conn_add_write_offset(from->connection, id, length);
  if (error) return error;
  nghttp3_ssize consumed = nghttp3_conn_read_stream(to->connection, id, packet, length, fin);
  memset(packet, 0xa5, sizeof packet); /* the bytes are the caller's again */
  if (consumed < 0) return (int)consumed;
  error = nghttp3_conn_add_ack_offset(from->connection, id, length);
  return error ? error : 1;
}

static int exchange(side *client, side *server) {
  int error = 0, moved = 1;
  for (int k = 0; k < EXCHANGES && !error; k++) error = submit_request(client, 4 * k);
  for (int round = 0; round < ROUNDS && moved && !error; round++) {
    int one = pass(client, server), two = one < 0 ? one : pass(server, client);
    moved = one > 0 || two > 0;
    error = one < 0 ? one : two < 0 ? two : 0;
  }
  for (int k = 0; k < EXCHANGES && !error; k++) {
    error = nghttp3_conn_close_stream(client->connection, 4 * k, NGHTTP3_H3_NO_ERROR);
    if (!error) error = nghttp3_conn_close_stream(server->connection, 4 * k, NGHTTP3_H3_NO_ERROR);
  }
  return error;
}

static bool is_whole(const side *s) {
  for (int k = 0; k < EXCHANGES; k++)
    if (s->came[4 * k] != BODY) return false;
  return s->ended == EXCHANGES;
}

typedef struct {
  side client, server;
  int error;
  int ends; /* how often stop_counting was called */
} both;

/* All exchanges, in a thread of their own. */
static void *exchange_all(void *data) {
  both *b = data;
  pthread_setspecific(at_end, b);
  is_counting = true;
  b->error = open_side(&b->client, false);
  if (!b->error) b->error = open_side(&b->server, true);
  if (!b->error) b->error = exchange(&b->client, &b->server);
  nghttp3_conn_del(b->client.connection), nghttp3_conn_del(b->server.connection);
  return NULL;
}

/* At the end of the thread: what else is called there is called before the second time. */
static void stop_counting(void *data) {
  both *b = data;
  if (++b->ends < 2) pthread_setspecific(at_end, b);
  else is_counting = false;
}

/* Answers false, with a line, where a run went wrong; *has_ended: fewer allocations were asked for than the one that is refused. */
static bool run(long from, bool all_later, bool *has_ended) {
  both b = {0};
  pthread_t thread;
  asked = live = 0, refused_from = from, refuses_all_later = all_later;
  if (pthread_create(&thread, NULL, exchange_all, &b) != 0 || pthread_join(thread, NULL) != 0) abort();
  *has_ended = asked < from;
  bool failed = b.client.failed || b.server.failed, are_whole = is_whole(&b.client) && is_whole(&b.server);
  bool is_right = b.error ? b.error == NGHTTP3_ERR_NOMEM || (b.error == NGHTTP3_ERR_CALLBACK_FAILURE && failed) : are_whole;
  if (*has_ended && b.error) is_right = false;
  if (is_right && live == 0) return true;
  printf("failed refused memory: allocation %ld%s: error %d, %s, %ld not freed\n", from, all_later ? " and all later" : "", b.error,
         are_whole ? "whole" : "not whole", live);
  return false;
}

int main(void) {
  long runs = 0;
  if (pthread_key_create(&at_end, stop_counting) != 0) abort();
  for (size_t i = 0; i < sizeof bytes_of_body; i++) bytes_of_body[i] = (uint8_t)(i * 7 + i / 256);
  setvbuf(stdout, NULL, _IONBF, 0);
  for (int all_later = 0; all_later < 2; all_later++) {
    bool has_ended = false;
    for (long from = 1; !has_ended; from++, runs++)
      if (!run(from, all_later, &has_ended)) return 1;
  }
  printf("ok refused memory: %ld runs of %d exchanges\n", runs, EXCHANGES);
  return 0;
}
