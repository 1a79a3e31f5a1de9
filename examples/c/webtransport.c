/* webtransport ADDRESS PORT CERTIFICATE KEY: a server of WebTransport sessions (draft-ietf-webtrans-http3-02), over HTTP/3. A session is taken
 * on any path. Each stream of it is answered, when it has ended, with the count and the SHA-256 of its bytes: one both ways on itself, and one that
 * goes one way on a stream that the server opens, which goes one way too, or both ways if the path is "/both". A datagram comes back as it is. A
 * session ends with its CONNECT request, or by the capsule that closes it.
 *
 * SIGTERM and SIGINT: GOAWAY on each connection, and what was begun ends. The second signal cuts it off. */
#include "digest.h"
#include "ending.h"
#include "http3.h"
#include "report.h"
#include <stdio.h>
#include <stdlib.h>
#include <string.h>

enum {
  SESSIONS = 4, /* on a connection at once */
  ANSWERS = 64, /* of a session, that wait for a stream */
  DRAIN = 60    /* seconds that what was begun has at the end */
};

static const uint64_t CLOSE_SESSION = 0x2843; /* a type of capsules, section 5 of the draft */

/* To a stream that went one way: it waits until the client lets the server open one more. */
typedef struct answer {
  STAILQ_ENTRY(answer) order;
  char text[DIGEST_TEXT];
} answer;

/* The CONNECT request of a session, or a stream of one. */
typedef struct work {
  TAILQ_ENTRY(work) order;
  http3_request *request;
  uint64_t session;           /* the id of its CONNECT request */
  digest digest;              /* of a stream: none when it was answered */
  h3_capsule_reader capsules; /* of a CONNECT request */
  bool answers_both_ways;     /* what goes one way is answered on a stream both ways */
  STAILQ_HEAD(, answer) answers; /* of a session */
  size_t answer_count;
  bool is_closing;            /* the capsule that closes the session comes */
  bool is_over;
} work;

static TAILQ_HEAD(works, work) works = TAILQ_HEAD_INITIALIZER(works); /* of all connections */

static work *add(http3_request *request, uint64_t session) {
  work *work = calloc(1, sizeof *work);
  if (!work) return NULL;
  work->request = request;
  work->session = session;
  STAILQ_INIT(&work->answers);
  TAILQ_INSERT_TAIL(&works, work, order);
  return request->data = work;
}

/* The session of this id on a connection. Its streams may overtake it: then there is none yet. */
static work *find(const http3 *connection, uint64_t session) {
  work *work;
  TAILQ_FOREACH(work, &works, order)
    if (work->request->connection == connection && work->request->entry.id == session && work->session == session) return work;
  return NULL;
}

/* ---- sessions ---- */

static void refuse(http3_request *request, const char *status) {
  http3_field fields[] = {{":status", status}, {"content-length", "0"}};
  if (http3_head_of(request, fields, 2)) http3_finish(request);
  else http3_give_up(request, H3_CODE_INTERNAL_ERROR);
  http3_ignore(request);
}

static void on_head(http3_request *request, const h3_item *head) {
  http3_field fields[] = {{":status", "200"}, {"sec-webtransport-http3-draft", "draft02"}};
  char protocol[32], path[8];
  http3_wanted wanted[] = {{.name = ":protocol", .value = protocol, .room = sizeof protocol},
                           {.name = ":path", .value = path, .room = sizeof path, .optional = true}};
  if (request->data || head->kind == H3_TRAILER) return;
  if (head->kind == H3_TOO_LARGE_HEAD) return refuse(request, "431");
  if (!http3_values(request->connection, head, wanted, 2)) return refuse(request, "404");
  if (strcmp(protocol, "webtransport") != 0) return refuse(request, "501"); /* RFC 9220, section 3 */
  work *session = add(request, request->entry.id);
  if (!session || !http3_head_of(request, fields, 2)) return http3_give_up(request, H3_CODE_INTERNAL_ERROR);
  session->answers_both_ways = wanted[1].found && strcmp(path, "/both") == 0;
}

/* The session is over, and so are its streams. A code: its request was no valid message. */
static void end_session(work *session, uint64_t code) {
  if (session->is_over) return;
  session->is_over = true;
  http3_end_session(session->request);
  if (code) http3_give_up(session->request, code);
  else http3_finish(session->request);
}

static void on_datagram(http3_request *request, const uint8_t *bytes, size_t count) {
  if (request->data) http3_datagram(request, bytes, count);
}

/* ---- streams ---- */

/* A stream that comes before its session is refused: a client that waits for the answer to its CONNECT sees none of it. */
static void on_session(http3_request *request, uint64_t id) {
  work *session = find(request->connection, id);
  if (!session) return http3_give_up(request, H3_CODE_WEBTRANSPORT_BUFFERED_STREAM_REJECTED);
  work *stream = add(request, id);
  if (!stream || !digest_begin(&stream->digest)) end_session(session, H3_CODE_INTERNAL_ERROR);
}

/* What comes on a CONNECT request are capsules (RFC 9297): of unknown types they are skipped, and one type closes the session. */
static void read_capsules(work *session, const uint8_t *bytes, size_t count) {
  h3_capsule capsule;
  size_t used;
  do {
    if (h3_read_capsule(&session->capsules, bytes, count, &used, &capsule) != H3_OK) return;
    if (capsule.part == H3_CAPSULE_HEAD) session->is_closing = capsule.capsule_type == CLOSE_SESSION;
    if (capsule.part == H3_CAPSULE_END && session->is_closing) end_session(session, 0);
    bytes += used, count -= used;
  } while (capsule.part != H3_CAPSULE_PENDING);
}

static bool is_session(const work *work) { return work->session == work->request->entry.id; }

static void on_body(http3_request *request, const uint8_t *bytes, size_t count) {
  work *work = request->data;
  if (!work) return;
  if (is_session(work)) read_capsules(work, bytes, count);
  else digest_add(&work->digest, bytes, count);
}

/* There may be no memory. A stream that is reset before its first bytes came is one of no session for the client: so the session ends. */
static void send_text(work *session, http3_request *stream, const char *text) {
  if (!http3_raw(stream, (const uint8_t *)text, strlen(text), true)) end_session(session, H3_CODE_INTERNAL_ERROR);
}

static void forget_first(work *session) {
  answer *first = STAILQ_FIRST(&session->answers);
  STAILQ_REMOVE_HEAD(&session->answers, order);
  session->answer_count--;
  free(first);
}

/* Each goes out on a stream that the server opens. */
static void send_answers(work *session) {
  while (session->answer_count > 0 && !session->is_over) {
    http3_request *stream = http3_open_stream(session->request, session->answers_both_ways);
    if (!stream) return; /* the client allows no more just now */
    send_text(session, stream, STAILQ_FIRST(&session->answers)->text);
    forget_first(session);
  }
}

static void answer_later(work *session, const char *text) {
  answer *answer = session->answer_count < ANSWERS ? malloc(sizeof *answer) : NULL;
  if (!answer) return end_session(session, H3_CODE_EXCESSIVE_LOAD);
  strcpy(answer->text, text);
  STAILQ_INSERT_TAIL(&session->answers, answer, order);
  session->answer_count++;
  send_answers(session);
}

/* Packets came, which may allow another stream. */
static void on_room(http3_request *request) {
  if (request->data) send_answers(request->data);
}

static void on_end(http3_request *request) {
  work *work = request->data;
  char text[DIGEST_TEXT];
  if (!work) return;
  if (digest_end(&work->digest, text)) {
    struct work *session = find(request->connection, work->session);
    if (session && request->entry.id % 4 == 0) send_text(session, request, text); /* it goes both ways */
    else if (session) answer_later(session, text);
    return;
  }
  if (!is_session(work)) return;
  uint32_t ends_here = 0;
  h3_capsule_ends(&work->capsules, &ends_here);
  end_session(work, ends_here ? 0 : H3_CODE_MESSAGE_ERROR); /* RFC 9297, section 3.3 */
}

/* Of a stream of a session the code of a reset may be a number of the client's application. */
static void on_failed(http3_request *request, const h3_item *item) {
  work *work = request->data;
  unsigned long long id = request->entry.id;
  uint32_t number;
  if (item->kind == H3_FAULT_RESET && h3_webtransport_number(item->number, &number) == H3_OK)
    report("stream %llu failed: H3_FAULT_RESET, number %lu of the application", id, (unsigned long)number);
  else report("stream %llu failed: %s, %s", id, h3_kind_text(item->kind), http3_why(item));
  if (work && is_session(work)) end_session(work, 0);
}

/* ---- the program ---- */

static void on_freed(http3_request *request) {
  work *work = request->data;
  if (!work) return;
  digest_drop(&work->digest);
  while (work->answer_count > 0) forget_first(work);
  TAILQ_REMOVE(&works, work, order);
  free(work);
}

static void on_ready(http3 *h, void *user) { (void)h, (void)user; }

static void on_over(void *user, const quic_ending *ending) { (void)user, (void)ending; }

int main(int count, char **arguments) {
  static const http3_events events = {.ready = on_ready, .head = on_head, .body = on_body, .end = on_end, .failed = on_failed,
                                      .room = on_room, .freed = on_freed, .over = on_over, .session = on_session, .datagram = on_datagram};
  http3_setup setup = {.server = true, .sessions = SESSIONS, .events = &events};
  if (count != 5) {
    fprintf(stderr, "webtransport ADDRESS PORT CERTIFICATE KEY\n");
    return 2;
  }
  ending_await();
  quic_pair pair = {arguments[3], arguments[4]};
  quic_identity identity = {.pairs = &pair, .count = 1};
  quic_socket *socket = quic_listen(arguments[1], arguments[2], &identity, NULL, &http3_over_quic, &setup);
  if (!socket) return 1;
  printf("WebTransport at %s port %u\n", arguments[1], quic_port(socket));
  fflush(stdout);
  serve_until_ended(socket, DRAIN, NULL);
  quic_free(socket);
  return 0;
}
