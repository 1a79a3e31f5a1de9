/* urgent PORT TRUSTED [updated|usual]: 20 downloads of /many.bin that are not urgent (u=7), and a second later /part.bin, the most urgent (u=0): by its
 * field, or with `updated` by PRIORITY_UPDATE alone; with `usual` it is as the others. Prints how many bytes of the others came until that one was whole,
 * which no load of the machine changes, and how many milliseconds it took. */
#include "http3.h"
#include <stdio.h>
#include <string.h>

enum { DOWNLOADS = 20, LATER = 1000, SECONDS = 60 };

static http3 *connection;
static uint64_t asked_at, took; /* by quic_time; 0: not yet */
static uint64_t others;         /* bytes that came of the downloads since it was asked */
static bool has_failed, is_updated, is_usual;

static http3_request *ask(const char *path, const char *priority) {
  const http3_field fields[] = {{":method", "GET"}, {":scheme", "https"}, {":path", path}, {":authority", "localhost"}, {"priority", priority}};
  bool going_away;
  http3_request *request = http3_open(connection, &going_away);
  if (!request || !http3_head_of(request, fields, sizeof fields / sizeof *fields)) has_failed = true;
  else http3_finish(request);
  return request;
}

static void on_ready(http3 *h, void *user) {
  (void)user;
  connection = h;
}

static void on_head(http3_request *request, const h3_item *item) {
  (void)request;
  if (item->kind == H3_HEAD && item->status != 200) has_failed = true;
}

static void on_body(http3_request *request, const uint8_t *bytes, size_t count) {
  (void)bytes;
  if (asked_at != 0 && !request->data) others += count;
}

static void on_end(http3_request *request) {
  if (request->data) took = quic_time() - asked_at;
}

static void on_failed(http3_request *request, const h3_item *item) {
  (void)request, (void)item;
  has_failed = true;
}

static void on_freed(http3_request *request) { (void)request; }

static void on_over(void *user, const quic_ending *ending) {
  (void)user, (void)ending;
  connection = NULL;
}

static void go_on(const quic_socket *socket) {
  static uint64_t began;
  if (began == 0) {
    began = quic_time();
    for (int i = 0; i < DOWNLOADS; i++) ask("/many.bin", "u=7");
  } else if (asked_at == 0 && quic_time() - began >= LATER) {
    asked_at = quic_time();
    http3_request *request = ask("/part.bin", is_updated || is_usual ? "u=7" : "u=0");
    if (request && is_updated && !http3_update(request, 0, 0)) has_failed = true;
    if (request) request->data = (void *)socket; /* which tells it apart */
  }
}

int main(int count, char **words) {
  static const http3_events events = {.ready = on_ready, .head = on_head, .body = on_body, .end = on_end, .failed = on_failed, .freed = on_freed,
                                      .over = on_over};
  http3_setup setup = {.events = &events};
  is_updated = count == 4 && strcmp(words[3], "updated") == 0;
  is_usual = count == 4 && strcmp(words[3], "usual") == 0;
  bool is_asked = count == 3 || is_updated || is_usual;
  quic_identity identity = {.trusted = is_asked ? words[2] : NULL};
  quic_socket *socket = is_asked ? quic_connect("127.0.0.1", words[1], "localhost", &identity, NULL, &http3_over_quic, &setup) : NULL;
  if (!socket) return 1;
  uint64_t last = quic_time() + 1000 * SECONDS;
  while (took == 0 && !has_failed && quic_time() < last && quic_turn(socket, 5) > 0)
    if (connection) go_on(socket);
  printf("%llu %llu\n", (unsigned long long)others, (unsigned long long)took);
  bool is_whole = took > 0 && !has_failed;
  quic_free(socket);
  return is_whole ? 0 : 1;
}
