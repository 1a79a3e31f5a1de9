/* websocket_client TRUSTED ADDRESS PORT HOST PATH FILE..: a WebSocket over HTTP/3 (RFC 9220), of wss://HOST:PORT and the path. Each file
 * goes out as a binary message when the one before has come back. The messages that come go to standard output; after the last one the
 * WebSocket is closed. Frames are by wslay. TRUSTED is whom to trust (PEM).
 *
 * It ends with 0 if all messages came back and the server closed with 1000. */
#include "http3.h"
#include <gnutls/crypto.h>
#include <stdio.h>
#include <string.h>
#include <wslay/wslay.h>

enum { SECONDS = 60 };

static struct {
  http3 *connection;
  http3_request *request;
  wslay_event_context_ptr events;
  const char *host, *path;
  char **files;         /* that have yet to be sent, and NULL after them */
  FILE *file;           /* that is sent, or was sent last */
  const uint8_t *given; /* what came and was not read yet */
  size_t given_count;
  bool is_message; /* the frame that comes is one of a message */
  bool is_over, failed;
} client;

static void fail(const char *what) {
  fprintf(stderr, "websocket_client: %s\n", what);
  client.failed = client.is_over = true;
}

/* ---- for wslay ---- */

static ssize_t take(wslay_event_context_ptr events, uint8_t *bytes, size_t count, int flags, void *user) {
  (void)flags, (void)user;
  if (client.given_count == 0) {
    wslay_event_set_error(events, WSLAY_ERR_WOULDBLOCK);
    return -1;
  }
  if (count > client.given_count) count = client.given_count;
  memcpy(bytes, client.given, count);
  client.given += count;
  client.given_count -= count;
  return (ssize_t)count;
}

static ssize_t put(wslay_event_context_ptr events, const uint8_t *bytes, size_t count, int flags, void *user) {
  size_t room = http3_room(client.request);
  (void)flags, (void)user;
  if (count > room) count = room;
  if (count > 0 && http3_body(client.request, bytes, count)) return (ssize_t)count;
  wslay_event_set_error(events, count > 0 ? WSLAY_ERR_CALLBACK_FAILURE : WSLAY_ERR_WOULDBLOCK);
  return -1;
}

static int new_mask(wslay_event_context_ptr events, uint8_t *bytes, size_t count, void *user) {
  (void)events, (void)user;
  return gnutls_rnd(GNUTLS_RND_NONCE, bytes, count) == 0 ? 0 : -1;
}

/* The next piece of the file. */
static ssize_t read_file(wslay_event_context_ptr events, uint8_t *bytes, size_t count, const union wslay_event_msg_source *source,
                         int *eof, void *user) {
  (void)source, (void)user;
  size_t read = fread(bytes, 1, count, client.file);
  if (ferror(client.file)) {
    wslay_event_set_error(events, WSLAY_ERR_CALLBACK_FAILURE);
    return -1;
  }
  *eof = read < count;
  return (ssize_t)read;
}

static void on_frame(wslay_event_context_ptr events, const struct wslay_event_on_frame_recv_start_arg *frame, void *user) {
  (void)events, (void)user;
  client.is_message = !wslay_is_ctrl_frame(frame->opcode);
}

static void on_piece(wslay_event_context_ptr events, const struct wslay_event_on_frame_recv_chunk_arg *piece, void *user) {
  (void)events, (void)user;
  if (client.is_message && fwrite(piece->data, 1, piece->data_length, stdout) != piece->data_length) fail("standard output");
}

/* Sends the next file, or the close after the last. */
static void send_next(void) {
  const struct wslay_event_fragmented_msg message = {.opcode = WSLAY_BINARY_FRAME, .read_callback = read_file};
  if (client.file) fclose(client.file);
  client.file = *client.files ? fopen(*client.files, "rb") : NULL;
  if (*client.files && !client.file) return fail(*client.files);
  if (client.file) client.files++;
  if ((client.file ? wslay_event_queue_fragmented_msg(client.events, &message)
                   : wslay_event_queue_close(client.events, WSLAY_CODE_NORMAL_CLOSURE, NULL, 0)) != 0)
    fail("nothing more can be sent");
}

static void on_message(wslay_event_context_ptr events, const struct wslay_event_on_msg_recv_arg *message, void *user) {
  (void)events, (void)user;
  if (!wslay_is_ctrl_frame(message->opcode)) send_next();
}

static bool begin_frames(void) {
  static const struct wslay_event_callbacks callbacks = {
      .recv_callback = take, .send_callback = put, .genmask_callback = new_mask, .on_frame_recv_start_callback = on_frame,
      .on_frame_recv_chunk_callback = on_piece, .on_msg_recv_callback = on_message};
  if (wslay_event_context_client_init(&client.events, &callbacks, NULL) != 0) return false;
  wslay_event_config_set_no_buffering(client.events, 1);
  wslay_event_config_set_max_recv_msg_length(client.events, UINT64_MAX);
  return true;
}

/* ---- for HTTP/3 ---- */

static void on_ready(http3 *h, void *user) {
  (void)user;
  client.connection = h;
}

/* Once the server's settings are there: it has to announce extended CONNECT. */
static void open_websocket(void) {
  const http3_field fields[] = {{":method", "CONNECT"}, {":protocol", "websocket"}, {":scheme", "https"}, {":authority", client.host},
                                {":path", client.path}, {"sec-websocket-version", "13"}};
  bool is_going_away;
  client.request = http3_open(client.connection, &is_going_away);
  if (!client.request || !http3_head_of(client.request, fields, 6)) fail("the server takes no extended CONNECT");
}

static void on_head(http3_request *request, const h3_item *head) {
  (void)request;
  if (head->kind != H3_HEAD) return;
  if (head->status >= 200 && head->status <= 299) return send_next();
  fprintf(stderr, "websocket_client: status %u\n", (unsigned)head->status);
  client.failed = client.is_over = true;
}

static void on_room(http3_request *request) {
  if (client.events && wslay_event_send(client.events) != 0) fail("a frame cannot be sent");
  if (wslay_event_get_close_sent(client.events) && wslay_event_get_close_received(client.events)) http3_finish(request);
}

static void on_body(http3_request *request, const uint8_t *bytes, size_t count) {
  (void)request;
  client.given = bytes;
  client.given_count = count;
  if (wslay_event_recv(client.events) != 0) fail("a frame that is none");
}

static void on_end(http3_request *request) {
  (void)request;
  if (wslay_event_get_status_code_received(client.events) != WSLAY_CODE_NORMAL_CLOSURE || client.file) fail("closed before the end");
  client.is_over = true;
}

static void on_failed(http3_request *request, const h3_item *item) {
  (void)request;
  fail(http3_why(item));
}

static void on_freed(http3_request *request) { (void)request; }

static void on_over(void *user, const quic_ending *ending) {
  (void)user;
  if (!client.is_over) fail(http3_why_over(ending));
}

/* ---- the program ---- */

static void run(quic_socket *socket) {
  uint64_t last = quic_time() + 1000 * SECONDS;
  while (!client.is_over && quic_turn(socket, 100) > 0) {
    if (!client.request && client.connection && http3_has_settings(client.connection)) open_websocket();
    if (quic_time() > last) fail("not over in time");
  }
  quic_ending ending = quic_last_ending(socket);
  if (!client.is_over) fail(http3_why_over(&ending)); /* before the handshake was done: on_over is not called */
}

int main(int count, char **arguments) {
  static const http3_events events = {.ready = on_ready, .head = on_head, .body = on_body, .end = on_end, .failed = on_failed,
                                      .room = on_room, .freed = on_freed, .over = on_over};
  http3_setup setup = {.events = &events};
  if (count < 6) {
    fprintf(stderr, "websocket_client TRUSTED ADDRESS PORT HOST PATH FILE..\n");
    return 2;
  }
  char host[300];
  snprintf(host, sizeof host, "%s:%s", arguments[4], arguments[3]);
  client.host = host;
  client.path = arguments[5];
  client.files = arguments + 6;
  quic_identity identity = {.trusted = arguments[1]};
  quic_socket *socket =
      begin_frames() ? quic_connect(arguments[2], arguments[3], arguments[4], &identity, NULL, &http3_over_quic, &setup) : NULL;
  if (socket) run(socket);
  if (socket) quic_free(socket);
  if (client.file) fclose(client.file);
  if (client.events) wslay_event_context_free(client.events);
  return socket && client.is_over && !client.failed && fflush(stdout) == 0 ? 0 : 1;
}
