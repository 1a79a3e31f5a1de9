/* leave TRUSTED COUNT PARALLEL PATH BYTES PORT..: COUNT requests of a body of so many bytes, so many at once, on a connection to the server at the first
 * port. When that one takes no more requests, those that are left, and those that it rejected, go to the server at the next port. Each 503 is asked for
 * again. It says 'half' when half of them are answered, and at last how many were answered, rejected, refused by 503, and lost, and over how
 * many connections. It ends with 0 where all were answered, none was lost, and no request was answered whose id is above that of a rejected one. */
#include "http3.h"
#include <stdio.h>
#include <stdlib.h>
#include <string.h>

enum { SECONDS = 90 };

typedef struct {
  size_t received;
  unsigned status;
  bool is_over;
} exchange;

static const char *path, *authority = "localhost";
static size_t count, parallel, bytes;
static size_t left, under_way, answered, rejected, refused, lost, connections;
static uint64_t answered_to, rejected_from; /* ids of this connection */
static http3 *connection;
static bool is_leaving;

static void over(http3_request *request) {
  exchange *exchange = request->data;
  exchange->is_over = true;
  under_way--;
}

static void lose(http3_request *request, const char *why) {
  fprintf(stderr, "leave: connection %zu, request %llu: %s\n", connections, (unsigned long long)request->entry.id, why);
  lost++;
}

static void on_ready(http3 *h, void *user) {
  (void)user;
  connection = h;
}

static void on_head(http3_request *request, const h3_item *item) {
  exchange *exchange = request->data;
  if (item->kind == H3_HEAD) exchange->status = item->status;
}

static void on_body(http3_request *request, const uint8_t *body, size_t size) {
  (void)body;
  exchange *exchange = request->data;
  exchange->received += size;
}

static void on_end(http3_request *request) {
  const exchange *exchange = request->data;
  over(request);
  if (exchange->status == 503) {
    refused++;
    left++;
  } else if (exchange->status != 200 || exchange->received != bytes)
    lose(request, "not the body that was asked for");
  else {
    if (request->entry.id > answered_to) answered_to = request->entry.id;
    if (++answered != count / 2) return;
    puts("half");
    fflush(stdout);
  }
}

static void on_failed(http3_request *request, const h3_item *item) {
  over(request);
  if (item->kind != H3_FAULT_RESET || item->number != H3_CODE_REQUEST_REJECTED) return lose(request, http3_why(item));
  if (request->entry.id < rejected_from) rejected_from = request->entry.id;
  rejected++;
  left++;
}

static void on_freed(http3_request *request) {
  const exchange *exchange = request->data;
  if (exchange->is_over) return;
  over(request);
  lose(request, "the connection ended");
}

static void on_going_away(http3 *h, void *user) {
  (void)h, (void)user;
  is_leaving = true;
}

static void on_over(void *user, const quic_ending *ending) {
  (void)user, (void)ending;
  connection = NULL;
}

static void ask(void) {
  const http3_field fields[] = {{":method", "GET"}, {":scheme", "https"}, {":authority", authority}, {":path", path}};
  while (connection && !is_leaving && left > 0 && under_way < parallel) {
    http3_request *request = http3_open(connection, &is_leaving);
    if (!request) return;
    left--;
    under_way++;
    if (!http3_head_of(request, fields, 4)) abort();
    http3_finish(request);
  }
}

/* false: a request was answered above one that was rejected, or there is no connection. */
static bool use(const char *port, const quic_identity *identity, http3_setup *setup, uint64_t last) {
  quic_socket *socket = quic_connect("127.0.0.1", port, "localhost", identity, NULL, &http3_over_quic, setup);
  if (!socket) return false;
  connections++;
  answered_to = 0;
  rejected_from = UINT64_MAX;
  is_leaving = false;
  size_t is_open = 1;
  while (is_open > 0 && quic_time() < last && left + under_way > 0 && !(is_leaving && under_way == 0)) {
    ask();
    is_open = quic_turn(socket, 20);
  }
  quic_free(socket);
  return answered_to < rejected_from;
}

int main(int words_count, char **words) {
  static const http3_events events = {.ready = on_ready, .head = on_head, .body = on_body, .end = on_end, .failed = on_failed,
                                      .freed = on_freed, .going_away = on_going_away, .over = on_over};
  http3_setup setup = {.data = sizeof(exchange), .events = &events};
  if (words_count < 7) return 2;
  quic_identity identity = {.trusted = words[1]};
  bool is_in_order = true;
  left = count = strtoul(words[2], NULL, 10);
  parallel = strtoul(words[3], NULL, 10);
  path = words[4];
  bytes = strtoul(words[5], NULL, 10);
  uint64_t last = quic_time() + 1000 * SECONDS;
  for (int i = 6; i < words_count && left > 0; i++) is_in_order &= use(words[i], &identity, &setup, last);
  printf("%zu answered, %zu rejected, %zu refused, %zu lost, %zu connections%s\n", answered, rejected, refused, lost, connections,
         is_in_order ? "" : ", not in order");
  return answered == count && lost == 0 && is_in_order ? 0 : 1;
}
