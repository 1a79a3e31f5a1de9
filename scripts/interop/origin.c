/* origin ADDRESS PORT CERTIFICATE KEY: a server for a proxy's checks, which does on each path one thing that a proxy has to pass on.
 *
 *   /all     an interim response, fields, of which x-secret is never indexed, a body and a trailer section
 *   /secret  the names of the request's fields that came never indexed
 *   /echo    the body that comes, at the reader's pace, and the trailer section that came
 *   /reset   a part of a body, then a reset with H3_EXCESSIVE_LOAD
 *   /reject  H3_REQUEST_REJECTED and a body, in turn
 *   /lost    the connection is closed, and a body, in turn
 *   /silent  nothing
 *   /early   an answer, before the request's body came, which is not wanted
 *   /first   the same, but the body is wanted: standard error has how much came
 *   /both    the same, and the answer has no end
 *   /deaf    an answer whose body comes half a second after the request's is no longer wanted
 *   /refuse  403, and a body
 *
 * Extended CONNECT of any protocol is taken as any request. */
#include "ending.h"
#include "http3.h"
#include "report.h"
#include <stdio.h>
#include <stdlib.h>
#include <string.h>

typedef struct {
  bool is_echo, is_reset, is_both, is_counted;
  size_t came;       /* of the body */
  uint64_t begun_at; /* of /reset: when its part of a body was given; of /deaf: when it began */
  http3_list *trailer;
} work;

static http3_request *later; /* the one of /reset, or of /deaf, until it is reset or has its body */

static void answer(http3_request *request, const char *status, const char *text) {
  const http3_field fields[] = {{":status", status}, {"x-origin", "yes"}};
  if (http3_head_of(request, fields, 2) && http3_body(request, (const uint8_t *)text, strlen(text))) http3_finish(request);
}

/* A list of fields, of which the last one is never indexed. */
static http3_list *with_secret(const http3_field *fields, size_t count) {
  http3_line lines[count];
  for (size_t i = 0; i < count; i++) lines[i] = http3_line_of(&fields[i]);
  lines[count - 1].never_indexed = true;
  http3_list *list = http3_list_of_lines(lines, count);
  if (!list) abort();
  return list;
}

static void answer_all(http3_request *request) {
  const http3_field early[] = {{":status", "103"}, {"link", "</style.css>; rel=preload"}}, last = {"x-count", "1"};
  const http3_field fields[] = {{":status", "200"}, {"x-origin", "yes"}, {"x-secret", "kept"}};
  http3_list *lists[] = {http3_list_of(early, 2), with_secret(fields, 3), with_secret(&last, 1)};
  if (!http3_interim(request, lists[0]) || !http3_head(request, lists[1]) || !http3_body(request, (const uint8_t *)"body\n", 5) ||
      !http3_trailer(request, lists[2]))
    abort();
  http3_finish(request);
  for (size_t i = 0; i < 3; i++) free(lists[i]);
}

static void answer_secrets(http3_request *request, const h3_item *item) {
  char names[256] = "";
  http3_list *list = http3_fields(request->connection, item);
  http3_line line;
  for (http3_at at = {0}; list && http3_next(list, &at, &line);)
    if (line.never_indexed && strlen(names) + line.name_count + 2 < sizeof names) strcat(strncat(names, line.name, line.name_count), "\n");
  free(list);
  answer(request, "200", names);
}

static void begin_body(http3_request *request) {
  const http3_field field = {":status", "200"};
  if (!http3_head_of(request, &field, 1)) abort();
}

static void begin_deaf(http3_request *request) {
  begin_body(request);
  http3_ignore(request);
  ((work *)request->data)->begun_at = quic_time();
  later = request;
}

/* Whether one of two things has its turn: each second call says so. */
static bool has_turn(int which) {
  static bool had[2];
  return had[which] = !had[which];
}

static void on_head(http3_request *request, const h3_item *item) {
  char path[64];
  http3_wanted wanted = {.name = ":path", .value = path, .room = sizeof path};
  work *work = request->data;
  if (item->kind == H3_TRAILER) {
    work->trailer = http3_fields(request->connection, item);
    return;
  }
  if (!http3_values(request->connection, item, &wanted, 1)) abort();
  work->is_echo = strcmp(path, "/echo") == 0;
  work->is_reset = strcmp(path, "/reset") == 0;
  work->is_both = strcmp(path, "/both") == 0;
  work->is_counted = work->is_both || strcmp(path, "/first") == 0;
  if (work->is_echo || work->is_reset || work->is_both) begin_body(request);
  else if (strcmp(path, "/deaf") == 0) begin_deaf(request);
  else if (strcmp(path, "/all") == 0) answer_all(request);
  else if (strcmp(path, "/secret") == 0) answer_secrets(request, item);
  else if (strcmp(path, "/reject") == 0 && has_turn(0)) http3_give_up(request, H3_CODE_REQUEST_REJECTED);
  else if (strcmp(path, "/lost") == 0 && has_turn(1)) http3_close(request->connection, H3_CODE_INTERNAL_ERROR);
  else if (strcmp(path, "/refuse") == 0) answer(request, "403", "no\n");
  else if (strcmp(path, "/silent") != 0) answer(request, "200", strcmp(path, "/early") == 0 ? "early\n" : "again\n");
  if (strcmp(path, "/early") == 0) http3_ignore(request);
}

static void on_body(http3_request *request, const uint8_t *bytes, size_t count) {
  work *work = request->data;
  work->came += count;
  if (!work->is_echo) return;
  if (!http3_body(request, bytes, count)) abort();
  if (http3_room(request) == 0) http3_pause(request);
}

static void on_end(http3_request *request) {
  const work *work = request->data;
  if (work->is_counted) report("%zu came after the answer", work->came);
  if (!work->is_echo) return;
  if (work->trailer && !http3_trailer(request, work->trailer)) abort();
  http3_finish(request);
}

static void on_failed(http3_request *request, const h3_item *item) {
  (void)request;
  report("failed: %s", http3_why(item));
}

static void on_stopped(http3_request *request) {
  (void)request;
  report("stopped");
}

static void on_room(http3_request *request) {
  static const uint8_t bytes[1000];
  work *work = request->data;
  http3_resume(request);
  if (work->is_both) http3_body(request, bytes, sizeof bytes);
  if (!work->is_reset || work->begun_at > 0) return;
  work->begun_at = quic_time();
  http3_body(request, bytes, sizeof bytes);
  later = request;
}

/* The part of the body is out, and the reset comes after it; or the body comes. */
static void tick(quic_socket *socket) {
  (void)socket;
  const work *work = later ? later->data : NULL;
  if (!work || quic_time() - work->begun_at < 500) return;
  if (work->is_reset) http3_reset(later, H3_CODE_EXCESSIVE_LOAD);
  else if (http3_body(later, (const uint8_t *)"last\n", 5)) http3_finish(later);
  later = NULL;
}

static void on_freed(http3_request *request) {
  if (later == request) later = NULL;
  free(((work *)request->data)->trailer);
}
static void on_ready(http3 *h, void *user) { (void)h, (void)user; }
static void on_over(void *user, const quic_ending *ending) { (void)user, (void)ending; }

int main(int count, char **words) {
  static const http3_events events = {.ready = on_ready, .head = on_head, .body = on_body, .end = on_end, .failed = on_failed,
                                      .stopped = on_stopped, .room = on_room, .freed = on_freed, .over = on_over};
  http3_setup setup = {.server = true, .tunnels = true, .data = sizeof(work), .events = &events};
  if (count != 5) return 2;
  ending_await();
  quic_pair pair = {words[3], words[4]};
  quic_identity identity = {.pairs = &pair, .count = 1};
  quic_socket *socket = quic_listen(words[1], words[2], &identity, NULL, &http3_over_quic, &setup);
  if (!socket) return 1;
  serve_until_ended(socket, 5, tick);
  quic_free(socket);
  return 0;
}
