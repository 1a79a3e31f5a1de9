/* websocket ADDRESS PORT CERTIFICATE KEY: a server of WebSockets over HTTP/3 (RFC 9220), on any path. Messages go back to their sender,
 * piece by piece as they come: no message is kept. If the client does not read, it gets no more credit.
 *
 * SIGTERM and SIGINT: GOAWAY on each connection, and a close with 1001 on each WebSocket. The second signal ends all at once. */
#include "ending.h"
#include "http3.h"
#include "report.h"
#include "websocket_frames.h"
#include <stdio.h>
#include <stdlib.h>
#include <string.h>

enum {
  DRAIN = 60,       /* seconds that clients have for their close at the end */
  GOING_AWAY = 1001 /* RFC 6455, section 7.4.1 */
};

/* A WebSocket: `data` of its request, which is NULL for one that was refused. */
typedef struct websocket {
  TAILQ_ENTRY(websocket) order;
  http3_request *request;
  websocket_frames *frames;
} websocket;

static TAILQ_HEAD(websockets, websocket) all = TAILQ_HEAD_INITIALIZER(all); /* of all connections */

/* ---- how one begins ---- */

static bool put(void *owner, const uint8_t *bytes, size_t count) { return http3_body(owner, bytes, count); }

static bool add(http3_request *request) {
  websocket *websocket = calloc(1, sizeof *websocket);
  if (!websocket) return false;
  websocket->request = request;
  websocket->frames = websocket_new(put, request);
  TAILQ_INSERT_TAIL(&all, websocket, order);
  request->data = websocket;
  return websocket->frames;
}

static void refuse(http3_request *request, const char *status) {
  http3_field fields[] = {{":status", status}, {"content-length", "0"}, {"sec-websocket-version", "13"}};
  if (http3_head_of(request, fields, 3)) http3_finish(request);
  else http3_give_up(request, H3_CODE_INTERNAL_ERROR);
  http3_ignore(request);
}

/* Why a request opens no WebSocket, as a status. NULL: it does. */
static const char *judge(http3_request *request, const h3_item *head) {
  char method[16] = "", protocol[32] = "", version[8] = "";
  http3_wanted wanted[] = {{.name = ":method", .value = method, .room = sizeof method},
                           {.name = ":protocol", .value = protocol, .room = sizeof protocol, .optional = true},
                           {.name = "sec-websocket-version", .value = version, .room = sizeof version, .optional = true}};
  if (head->kind == H3_TOO_LARGE_HEAD) return "431";
  if (!http3_values(request->connection, head, wanted, 3)) return "501";
  if (strcmp(method, "CONNECT") != 0) return "404";
  if (strcmp(protocol, "websocket") != 0) return "501"; /* RFC 9220, section 3 */
  return strcmp(version, "13") == 0 ? NULL : "400";
}

static void on_head(http3_request *request, const h3_item *head) {
  http3_field field = {":status", "200"};
  if (request->data || head->kind == H3_TRAILER) return;
  const char *status = judge(request, head);
  if (status) return refuse(request, status);
  http3_prefer(request, NULL); /* WebSockets take turns with each other (RFC 9218, section 11) */
  if (!add(request) || !http3_head_of(request, &field, 1)) http3_give_up(request, H3_CODE_INTERNAL_ERROR);
}

/* ---- how it goes on and ends ---- */

static void on_body(http3_request *request, const uint8_t *bytes, size_t count) {
  websocket *websocket = request->data;
  if (!websocket || !request->sending) return;
  if (!websocket_read(websocket->frames, bytes, count)) return http3_give_up(request, H3_CODE_INTERNAL_ERROR);
  if (websocket_is_over(websocket->frames)) {
    http3_finish(request);
    http3_ignore(request);
  } else if (http3_room(request) == 0)
    http3_pause(request);
}

static void on_room(http3_request *request) { http3_resume(request); }

static void on_end(http3_request *request) {
  if (request->data) http3_finish(request);
}

static void on_failed(http3_request *request, const h3_item *item) {
  report("stream %llu failed: %s, %s", (unsigned long long)request->entry.id, h3_kind_text(item->kind), http3_why(item));
}

static void on_stopped(http3_request *request) { http3_give_up(request, H3_CODE_REQUEST_CANCELLED); }

static void on_freed(http3_request *request) {
  websocket *websocket = request->data;
  if (!websocket) return;
  websocket_free(websocket->frames);
  TAILQ_REMOVE(&all, websocket, order);
  free(websocket);
}

/* ---- the program ---- */

/* At the end of the server each WebSocket is closed. */
static void tick(quic_socket *socket) {
  const websocket *websocket;
  (void)socket;
  report_sweep();
  if (!ending_begun()) return;
  TAILQ_FOREACH(websocket, &all, order)
    if (websocket->request->sending && !websocket_close(websocket->frames, GOING_AWAY))
      http3_give_up(websocket->request, H3_CODE_INTERNAL_ERROR);
}

static void on_ready(http3 *h, void *user) { (void)h, (void)user; }

static void on_over(void *user, const quic_ending *ending) { (void)user, (void)ending; }

int main(int count, char **arguments) {
  static const http3_events events = {.ready = on_ready, .head = on_head, .body = on_body, .end = on_end, .failed = on_failed,
                                      .stopped = on_stopped, .room = on_room, .freed = on_freed, .over = on_over};
  http3_setup setup = {.server = true, .tunnels = true, .events = &events};
  if (count != 5) {
    fprintf(stderr, "websocket ADDRESS PORT CERTIFICATE KEY\n");
    return 2;
  }
  ending_await();
  quic_pair pair = {arguments[3], arguments[4]};
  quic_identity identity = {.pairs = &pair, .count = 1};
  quic_socket *socket = quic_listen(arguments[1], arguments[2], &identity, NULL, &http3_over_quic, &setup);
  if (!socket) return 1;
  printf("WebSockets at %s port %u\n", arguments[1], quic_port(socket));
  fflush(stdout);
  serve_until_ended(socket, DRAIN, tick);
  quic_free(socket);
  return 0;
}
