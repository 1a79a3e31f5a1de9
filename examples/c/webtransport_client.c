/* webtransport_client TRUSTED ADDRESS PORT HOST PATH FILE..: a client of one WebTransport session (draft-ietf-webtrans-http3-02) over HTTP/3, of
 * https://HOST:PORT and the path. Each file goes out on a stream both ways, and on one that goes one way, and its name as a datagram. What comes back
 * is told on standard output: a line for each stream, with how it goes, "both", "back" (both ways, opened by the server) or "one", and what came on
 * it, and a line "datagram" for each datagram. When all files are answered three times the session is closed by its capsule. TRUSTED is whom to
 * trust (PEM).
 *
 * It ends with 0 if all was answered and the server ended the session. */
#include "http3.h"
#include <stdio.h>
#include <stdlib.h>
#include <string.h>

enum {
  SECONDS = 60,
  ANSWER = 200,  /* the longest answer that is told */
  AGAIN = 100    /* milliseconds behind which a datagram that did not come back is sent again */
};

static const uint64_t CLOSE_SESSION = 0x2843; /* a type of capsules, section 5 of the draft */

/* A stream of the session. */
typedef struct {
  char text[ANSWER];
  size_t count;
} answer;

static struct {
  http3 *connection;
  http3_request *session;
  const char *host, *path;
  char **files;
  size_t count;         /* of the files */
  size_t sent;          /* of the streams, two a file */
  size_t answered;      /* of the same */
  size_t datagrams;     /* that came back */
  uint64_t datagram_at; /* when the last one was sent */
  bool is_open, is_closing, is_over, failed;
} client;

static void fail(const char *what) {
  fprintf(stderr, "webtransport_client: %s\n", what);
  client.failed = client.is_over = true;
}

/* ---- what goes out ---- */

/* All of a file on a stream, and its end. */
static void send_file(http3_request *stream, const char *name) {
  uint8_t bytes[8192];
  size_t count;
  FILE *file = fopen(name, "rb");
  if (!file) return fail(name);
  while ((count = fread(bytes, 1, sizeof bytes, file)) > 0)
    if (!http3_raw(stream, bytes, count, false)) fail("a stream is refused");
  if (ferror(file) || !http3_raw(stream, NULL, 0, true)) fail(name);
  fclose(file);
}

/* Files go out on as many streams as the server allows. */
static void send_files(void) {
  while (client.sent < 2 * client.count && !client.is_over) {
    http3_request *stream = http3_open_stream(client.session, client.sent % 2 == 0);
    if (!stream) return;
    send_file(stream, client.files[client.sent / 2]);
    client.sent++;
  }
}

static void send_datagram(void) {
  if (client.datagrams == client.count || quic_time() - client.datagram_at < AGAIN) return;
  const char *name = client.files[client.datagrams];
  client.datagram_at = quic_time();
  http3_datagram(client.session, (const uint8_t *)name, strlen(name));
}

/* The capsule has a code of 32 bits, 0, and no text. */
static void close_session(void) {
  uint8_t capsule[16 + 4] = {0};
  size_t count = 0;
  client.is_closing = true;
  if (h3_capsule_head(CLOSE_SESSION, 4, capsule, 16, &count) != H3_OK) return fail("no capsule");
  memset(capsule + count, 0, 4);
  if (!http3_body(client.session, capsule, count + 4)) return fail("the session is refused");
  http3_finish(client.session);
}

/* ---- what comes ---- */

static void on_ready(http3 *h, void *user) {
  (void)user;
  client.connection = h;
}

/* Once the server's settings are there: it has to announce WebTransport. */
static void open_session(void) {
  const http3_field fields[] = {{":method", "CONNECT"}, {":protocol", "webtransport"}, {":scheme", "https"}, {":authority", client.host},
                                {":path", client.path}, {"sec-webtransport-http3-draft02", "1"}};
  bool is_going_away;
  client.session = http3_open(client.connection, &is_going_away);
  if (!client.session || !http3_head_of(client.session, fields, 6)) fail("the server takes no extended CONNECT");
}

static void on_head(http3_request *request, const h3_item *head) {
  if (request != client.session || head->kind != H3_HEAD) return;
  client.is_open = head->status >= 200 && head->status <= 299;
  if (!client.is_open) fail("the server takes no session");
}

static void on_session(http3_request *request, uint64_t session) {
  if (!client.session || session != client.session->entry.id) http3_give_up(request, H3_CODE_WEBTRANSPORT_BUFFERED_STREAM_REJECTED);
}

static void on_body(http3_request *request, const uint8_t *bytes, size_t count) {
  answer *answer = request->data;
  if (request == client.session) return; /* capsules: none is of interest */
  if (count > sizeof answer->text - answer->count) return fail("an answer is too long");
  memcpy(answer->text + answer->count, bytes, count);
  answer->count += count;
}

static void on_end(http3_request *request) {
  static const char *const ways[] = {"both", "back", "own", "one"};
  const answer *answer = request->data;
  if (request == client.session) {
    if (!client.is_closing) fail("the server ended the session");
    client.is_over = true;
    return;
  }
  printf("%s %.*s", ways[request->entry.id % 4], (int)answer->count, answer->text);
  if (request->entry.id % 4 == 1) http3_raw(request, NULL, 0, true); /* nothing is said to it */
  client.answered++;
}

static void on_datagram(http3_request *request, const uint8_t *bytes, size_t count) {
  const char *name = client.datagrams < client.count ? client.files[client.datagrams] : "";
  if (request != client.session || count != strlen(name) || memcmp(bytes, name, count) != 0) return; /* one that came back twice */
  printf("datagram %s\n", name);
  client.datagrams++;
  client.datagram_at = 0;
}

static void on_failed(http3_request *request, const h3_item *item) {
  if (request == client.session || !client.is_closing) fail(http3_why(item));
}

static void on_freed(http3_request *request) { (void)request; }

static void on_over(void *user, const quic_ending *ending) {
  (void)user;
  if (!client.is_over) fail(http3_why_over(ending));
}

/* ---- the program ---- */

static void go_on(void) {
  if (!client.session && client.connection && http3_has_settings(client.connection)) open_session();
  if (!client.is_open || client.is_closing) return;
  send_files();
  send_datagram();
  if (client.answered == 2 * client.count && client.datagrams == client.count) close_session();
}

static void run(quic_socket *socket) {
  uint64_t last = quic_time() + 1000 * SECONDS;
  while (!client.is_over && quic_turn(socket, 10) > 0) {
    go_on();
    if (quic_time() > last) fail("not over in time");
  }
  quic_ending ending = quic_last_ending(socket);
  if (!client.is_over) fail(http3_why_over(&ending)); /* before the handshake was done: on_over is not called */
}

int main(int count, char **arguments) {
  static const http3_events events = {.ready = on_ready, .head = on_head, .body = on_body, .end = on_end, .failed = on_failed, .freed = on_freed,
                                      .over = on_over, .session = on_session, .datagram = on_datagram};
  http3_setup setup = {.sessions = 1, .data = sizeof(answer), .events = &events};
  quic_limits limits;
  if (count < 6) {
    fprintf(stderr, "webtransport_client TRUSTED ADDRESS PORT HOST PATH FILE..\n");
    return 2;
  }
  char host[300];
  snprintf(host, sizeof host, "%s:%s", arguments[4], arguments[3]);
  client.host = host;
  client.path = arguments[5];
  client.files = arguments + 6;
  client.count = (size_t)count - 6;
  quic_limits_default(&limits);
  limits.opened = QUIC_STREAMS;
  quic_identity identity = {.trusted = arguments[1]};
  quic_socket *socket = quic_connect(arguments[2], arguments[3], arguments[4], &identity, &limits, &http3_over_quic, &setup);
  if (socket) run(socket);
  if (socket) quic_free(socket);
  return socket && client.is_over && !client.failed && fflush(stdout) == 0 ? 0 : 1;
}
