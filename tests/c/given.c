/* No pointer that a call of include/h3.h is given is used after the call: every buffer, bytes that are given as well as results, stands in
 * a page of its own, and nobody can read or write that page once the call returned. First streams that are cut off by faults, resets and
 * cancellations, after each of which every call is made; then an exchange in which each call is made so. One line 'ok NAME' or
 * 'failed NAME'. */
#define _GNU_SOURCE
#include <h3.h>
#include <signal.h>
#include <stdio.h>
#include <stdlib.h>
#include <string.h>
#include <sys/mman.h>
#include <sys/wait.h>
#include <unistd.h>
#define TEST "given"
#include "expect.h"

/* ---- pages that are let go ---- */

enum { PAGE = 4096, MOST_PAGES = 4096 };
static void *pages[MOST_PAGES];
static size_t page_count;
static char using_one[200]; /* what is told if a page is used that was let go */

static void told_of_use(int signal_number) {
  (void)signal_number;
  ssize_t n = write(STDOUT_FILENO, using_one, strlen(using_one));
  _exit(n < 0 ? 2 : 1);
}

static void watch(const char *name) {
  struct sigaction uses = {.sa_handler = told_of_use};
  snprintf(using_one, sizeof using_one, "failed given: a buffer is used after its call returned: %s\n", name);
  sigaction(SIGSEGV, &uses, NULL);
}

/* `len` bytes at the end of a page of their own, or as near to it as `alignment` allows */
static void *room_for(size_t len, size_t alignment) {
  uint8_t *page = mmap(NULL, PAGE, PROT_READ | PROT_WRITE, MAP_PRIVATE | MAP_ANONYMOUS, -1, 0);
  if (page == MAP_FAILED || page_count == MOST_PAGES || len > PAGE) exit(1);
  pages[page_count++] = page;
  return page + (PAGE - len) / alignment * alignment;
}
#define ROOM(type) room_for(sizeof(type), sizeof(uint64_t))

static void *given(const void *bytes, size_t len) { return len ? memcpy(room_for(len, 1), bytes, len) : NULL; }

/* nobody can read or write what was given until now */
static void let_go(void) {
  static size_t gone;
  if (page_count < gone) gone = 0;
  for (; gone < page_count; gone++) mprotect(pages[gone], PAGE, PROT_NONE);
}

static void unmap_all(void) {
  while (page_count) munmap(pages[--page_count], PAGE);
  let_go();
}

/* ---- calls, each with buffers of its own ---- */

static h3_endpoint new_end(int server, int is_strict) {
  h3_endpoint made = H3_NONE_YET;
  h3_config *c = ROOM(h3_config);
  uint64_t *detail = ROOM(uint64_t);
  h3_config_default(c);
  c->server = (uint64_t)server;
  c->strict = (uint64_t)is_strict;
  IS(h3_new(&made, c, detail), H3_OK);
  let_go();
  return made;
}

/* one item of these bytes; the item, and how many of the bytes were used */
static h3_item read_one(h3_endpoint *e, uint64_t id, const uint8_t *bytes, size_t len, int fin, size_t *used) {
  size_t *count = ROOM(size_t);
  h3_item *item = ROOM(h3_item);
  uint64_t *detail = ROOM(uint64_t);
  IS(h3_read(e, id, given(bytes, len), len, fin, count, item, detail), H3_OK);
  h3_item came = *item;
  *used = *count;
  let_go();
  return came;
}

static h3_item pulled(h3_endpoint *e, uint64_t id) {
  h3_item *item = ROOM(h3_item);
  IS(h3_pull(e, id, item), H3_OK);
  h3_item came = *item;
  let_go();
  return came;
}

static void deliver(h3_endpoint *e, uint64_t id, const void *bytes, size_t len) {
  IS(h3_deliver(e, id, given(bytes, len), len, ROOM(uint64_t)), H3_OK);
  let_go();
}

static uint64_t unread(h3_endpoint *e, uint64_t id) {
  h3_stream_state *state = ROOM(h3_stream_state);
  IS(h3_stream(e, id, state), H3_OK);
  uint64_t held = state->unread;
  let_go();
  return held;
}

/* the item has these fields */
static void same_fields(h3_endpoint *e, const h3_item *item, const h3_field_size *sizes, size_t count, const char *bytes) {
  size_t len = strlen(bytes);
  HOLDS(item->fields == count && item->len == len);
  if (item->fields != count || item->len != len) return;
  h3_field_size *came_sizes = room_for(count * sizeof *sizes, sizeof(uint32_t));
  uint8_t *came = room_for(len, 1);
  IS(h3_item_fields(e, came_sizes, NULL, count, came, len), H3_OK);
  HOLDS(!memcmp(came_sizes, sizes, count * sizeof *sizes) && !memcmp(came, bytes, len));
  let_go();
}

/* ---- an exchange ---- */

enum { BODY = 900, ROUNDS = 8 };
static const char HEAD[] = ":methodPOST:schemehttps:authoritya:path/x-namea value that is inserted";
static const char TRAILER[] = "x-checka sum that is inserted";
static const h3_field_size HEAD_SIZES[] = {{7, 4}, {7, 5}, {10, 1}, {5, 1}, {6, 24}}, TRAILER_SIZES[] = {{7, 22}};
static uint8_t body[BODY], came_body[2 * BODY];
static size_t came_len;
static int heads, trailers, ends, waits;

/* a request with two bodies: one of its bytes, one by its length */
static uint64_t send_request(h3_endpoint *client) {
  uint64_t *id = ROOM(uint64_t), *detail = ROOM(uint64_t);
  IS(h3_open_request(client, id, detail), H3_OK);
  uint64_t opened = *id;
  let_go();
  detail = ROOM(uint64_t);
  h3_field_size *sizes = memcpy(room_for(sizeof HEAD_SIZES, 4), HEAD_SIZES, sizeof HEAD_SIZES);
  IS(h3_send_head(client, opened, sizes, NULL, 5, given(HEAD, sizeof HEAD - 1), sizeof HEAD - 1, detail), H3_OK);
  let_go();
  IS(h3_send_body(client, opened, given(body, BODY), BODY, NULL), H3_OK);
  let_go();
  IS(h3_send_body_of(client, opened, BODY, NULL), H3_OK);
  sizes = memcpy(room_for(sizeof TRAILER_SIZES, 4), TRAILER_SIZES, sizeof TRAILER_SIZES);
  IS(h3_send_trailer(client, opened, sizes, NULL, 1, given(TRAILER, sizeof TRAILER - 1), sizeof TRAILER - 1, NULL), H3_OK);
  let_go();
  IS(h3_finish(client, opened, NULL), H3_OK);
  return opened;
}

/* the next bytes of a stream at `to`, and of a body that the caller holds; whether the stream ends behind them */
static size_t take_out(h3_endpoint *from, uint64_t id, uint8_t *to, int *is_last) {
  enum { ROOM_OUT = 300 };
  uint8_t *buffer = room_for(ROOM_OUT, 1);
  size_t *n = ROOM(size_t), *past = ROOM(size_t), count, held;
  uint32_t *fin = ROOM(uint32_t);
  IS(h3_outgoing(from, id, buffer, ROOM_OUT, n, past, fin), H3_OK);
  memcpy(to, buffer, *n);
  count = *n, held = *past;
  *is_last = *fin == 1;
  let_go();
  memcpy(to + count, body, held); /* such a body is taken whole */
  IS(h3_advance(from, id, count + held), H3_OK);
  return count + held;
}

static void take_item(h3_endpoint *to, const h3_item *item, const uint8_t *bytes) {
  if (item->kind == H3_HEAD) heads++, same_fields(to, item, HEAD_SIZES, 5, HEAD);
  else if (item->kind == H3_TRAILER) trailers++, same_fields(to, item, TRAILER_SIZES, 1, TRAILER);
  else if (item->kind == H3_BODY_GIVEN) memcpy(came_body + came_len, bytes + item->number, item->len);
  else if (item->kind == H3_BODY) {
    uint8_t *copy = room_for(item->len, 1);
    size_t *n = ROOM(size_t);
    IS(h3_item_bytes(to, 0, copy, item->len, n), H3_OK);
    HOLDS(*n == item->len);
    memcpy(came_body + came_len, copy, item->len);
    let_go();
  } else {
    ends += item->kind == H3_END;
    waits += item->kind == H3_WAITING;
    HOLDS(item->kind == H3_END || item->kind == H3_PENDING || item->kind == H3_WAITING);
    return;
  }
  if (item->kind == H3_BODY_GIVEN || item->kind == H3_BODY) came_len += item->len;
}

static int is_pause_or_end(const h3_item *item) { return item->kind >= H3_END && item->kind <= H3_WAITING; }

static void read_all(h3_endpoint *to, uint64_t id, const uint8_t *bytes, size_t len, int fin) {
  size_t used;
  h3_item item;
  do {
    item = read_one(to, id, bytes, len, fin, &used);
    HOLDS(used <= len);
    take_item(to, &item, bytes);
    bytes += used, len -= used;
  } while (!is_pause_or_end(&item) && !bad);
  HOLDS(len == 0);
}

/* all that waits goes over, in the order of the streams: the request's before its insertions */
static void carry(h3_endpoint *from, h3_endpoint *to) {
  uint8_t bytes[300 + BODY];
  uint64_t id = 0;
  int is_last;
  for (uint64_t *next; next = ROOM(uint64_t), h3_next_to_send(from, id, next) == H3_OK && !bad; id = id + 1) {
    id = *next;
    let_go();
    for (size_t n; (n = take_out(from, id, bytes, &is_last)) > 0 || is_last;) {
      if (id % 4 == 0) read_all(to, id, bytes, n, is_last);
      else deliver(to, id, bytes, n);
      if (!is_last) continue;
      IS(h3_end_taken(from, id), H3_OK);
      break;
    }
  }
}

static void pull_all(h3_endpoint *to, uint64_t id) {
  h3_item item;
  do {
    item = pulled(to, id);
    take_item(to, &item, NULL);
  } while (!is_pause_or_end(&item) && !bad);
}

static void of_an_exchange(void) {
  h3_endpoint client = new_end(0, 1), server = new_end(1, 1);
  watch("an exchange");
  for (size_t i = 0; i < BODY; i++) body[i] = (uint8_t)(i * 7);
  carry(&client, &server);
  carry(&server, &client);
  for (int i = 0; i < ROUNDS; i++) {
    int before = waits;
    came_len = 0;
    uint64_t id = send_request(&client);
    carry(&client, &server);
    if (waits > before) pull_all(&server, id);
    HOLDS(came_len == 2 * BODY && !memcmp(came_body, body, BODY) && !memcmp(came_body + BODY, body, BODY));
    HOLDS(heads == i + 1 && trailers == i + 1 && ends == i + 1 && unread(&server, id) == 0);
    carry(&server, &client);
    unmap_all();
  }
  HOLDS(waits > 0); /* entries were inserted: copies of fields */
  h3_state *state = ROOM(h3_state);
  IS(h3_connection(&server, state), H3_OK);
  HOLDS(state->receiving_table >= 6 + 24 + 32);
  h3_free(&client);
  h3_free(&server);
  unmap_all();
}

/* ---- after faults ---- */

/* the connection gets its fault on the control stream: DATA is its first frame (RFC 9114, section 6.2.1) */
static void by_another_stream(h3_endpoint *e) {
  uint64_t *code = ROOM(uint64_t);
  IS(h3_deliver(e, 2, given("\0\0\0", 3), 3, code), H3_CONNECTION);
  HOLDS(*code == H3_CODE_MISSING_SETTINGS);
  let_go();
}
static void by_a_reset(h3_endpoint *e) {
  IS(h3_deliver_reset(e, 0, H3_CODE_REQUEST_CANCELLED, NULL), H3_OK);
  HOLDS(pulled(e, 0).kind == H3_FAULT_RESET);
}
static void by_a_cancellation(h3_endpoint *e) {
  IS(h3_cancel(e, 0, NULL), H3_OK);
  HOLDS(pulled(e, 0).kind == H3_FAULT_CANCELED);
}
static void by_nothing(h3_endpoint *e) { (void)e; }

/* every call that may look at what is held of the stream */
static void ask_all(h3_endpoint *e) {
  uint64_t held = unread(e, 0);
  uint8_t bytes[16];
  h3_field_size size;
  uint64_t id;
  size_t n, used;
  for (int i = 0; i < 2; i++) {
    h3_state state;
    h3_item item = {0};
    IS(h3_connection(e, &state), H3_OK);
    h3_item_bytes(e, 0, bytes, sizeof bytes, &n);
    h3_item_fields(e, &size, NULL, 1, bytes, sizeof bytes);
    h3_next_to_send(e, 0, &id);
    h3_outgoing(e, 0, bytes, sizeof bytes, &n, NULL, NULL);
    pulled(e, 0);
    h3_read(e, 0, given("more", 4), 4, i, &used, &item, NULL);
    let_go();
    h3_deliver(e, 0, given("more", 4), 4, NULL);
    let_go();
    h3_deliver_end(e, 0, NULL);
    h3_reset(e, 0, NULL);
    h3_cancel(e, 0, NULL);
    pulled(e, 4);
    HOLDS(unread(e, 0) <= held + 8);
  }
}

/* bytes that are read on stream 0 of a server, the kinds of items that come of them, and what happens then */
#define HEAD_FRAME "\x01\x07\0\0\xd1\xd7\x50\x01" "a" /* :method GET, :scheme https, :authority "a" (RFC 9204, appendix A) */
static const struct {
  const char *name, *bytes;
  size_t len;
  uint8_t kinds[5];
  void (*then)(h3_endpoint *);
} cuts[] = {
    {"a frame in part", "\1\5\0", 3, {H3_PENDING}, by_another_stream},
    {"a frame's type in part", "\x40", 1, {H3_PENDING}, by_another_stream},
    {"a head", HEAD_FRAME, 9, {H3_HEAD, H3_PENDING}, by_another_stream},
    {"a head and content in part", HEAD_FRAME "\0\5he", 13, {H3_HEAD, H3_BODY_GIVEN, H3_PENDING}, by_another_stream},
    {"two bodies", HEAD_FRAME "\0\2hi\0\3abc", 18, {H3_HEAD, H3_BODY_GIVEN, H3_BODY_GIVEN, H3_PENDING}, by_another_stream},
    {"an unknown frame in part", "\x21\x09" "abc", 5, {H3_PENDING}, by_another_stream},
    {"a head that waits", "\1\6\3\x81\xd1\xd7\x10\x11\0\1z", 11, {H3_WAITING}, by_another_stream},
    {"a head that waits, and a reset", "\1\6\3\x81\xd1\xd7\x10\x11\0\1z", 11, {H3_WAITING}, by_a_reset},
    {"a head that waits, and h3_cancel", "\1\6\3\x81\xd1\xd7\x10\x11\0\1z", 11, {H3_WAITING}, by_a_cancellation},
    {"DATA before a head", "\0\3\1\2\3", 5, {H3_FAULT_CONNECTION}, by_nothing},
    {"a bad section", "\1\4\0\0\xff\x7f\0\1z", 9, {H3_FAULT_CONNECTION}, by_nothing},
    {"PUSH_PROMISE", "\5\2\0\0\0\1z", 7, {H3_FAULT_CONNECTION}, by_nothing},
    {"a frame above the limit", "\1\xc0\0\0\0\x40\0\0\0" "abc", 12, {H3_FAULT_MALFORMED}, by_nothing},
    {"a malformed head", "\1\3\0\0\xd9\0\1z", 8, {H3_FAULT_MALFORMED}, by_nothing},
    {"a malformed head, and a fault of the connection", "\1\3\0\0\xd9\0\1z", 8, {H3_FAULT_MALFORMED}, by_another_stream},
    {"a frame in part, and a reset", "\1\5\0", 3, {H3_PENDING}, by_a_reset},
    {"a frame in part, and h3_cancel", "\1\5\0", 3, {H3_PENDING}, by_a_cancellation},
    {"content, and h3_cancel", HEAD_FRAME "\0\2hi\0\5he", 17, {H3_HEAD, H3_BODY_GIVEN, H3_BODY_GIVEN, H3_PENDING}, by_a_cancellation},
    {"content, and a reset", HEAD_FRAME "\0\2hi\0\5he", 17, {H3_HEAD, H3_BODY_GIVEN, H3_BODY_GIVEN, H3_PENDING}, by_a_reset},
};
#undef HEAD_FRAME

static void of_a_cut(size_t i) {
  h3_endpoint server = new_end(1, 0); /* the heads have no :path */
  size_t at = 0, used;
  watch(cuts[i].name);
  for (int k = 0; cuts[i].kinds[k]; k++, at += used) {
    h3_item item = read_one(&server, 0, (const uint8_t *)cuts[i].bytes + at, cuts[i].len - at, 0, &used);
    HOLDS(item.kind == cuts[i].kinds[k] && used <= cuts[i].len - at);
  }
  cuts[i].then(&server);
  ask_all(&server);
  h3_free(&server);
  unmap_all();
}

static void of_cuts(void) {
  fflush(stdout);
  for (size_t i = 0; i < sizeof cuts / sizeof *cuts; i++) {
    int status = 0;
    pid_t child = fork(); /* a use of a page ends it */
    if (child == 0) {
      of_a_cut(i);
      exit(bad);
    }
    if (child < 0 || waitpid(child, &status, 0) != child || status) bad = 1;
  }
}

static void of_a_priority(void) {
  uint32_t *urgency = room_for(4, 4), *incremental = room_for(4, 4);
  IS(h3_priority_read(given("u=1, i", 6), 6, urgency, incremental), H3_OK);
  HOLDS(*urgency == 1 && *incremental == 1);
  let_go();
}

static void of_a_capsule(void) {
  h3_capsule_reader *reader = ROOM(h3_capsule_reader);
  h3_capsule *capsule = ROOM(h3_capsule);
  size_t *used = ROOM(size_t);
  uint32_t *ends = room_for(4, 4);
  memset(reader, 0, sizeof *reader);
  IS(h3_read_capsule(reader, given("\x00\x02hi", 4), 4, used, capsule), H3_OK);
  HOLDS(capsule->part == H3_CAPSULE_HEAD && capsule->length == 2 && *used == 2);
  IS(h3_capsule_ends(reader, ends), H3_OK);
  HOLDS(*ends == 0);
  IS(h3_capsule_head(0x2843, 6, room_for(3, 1), 3, used), H3_OK);
  HOLDS(*used == 3);
  let_go();
}

static void of_a_datagram(void) {
  h3_endpoint made = new_end(0, 1);
  uint64_t *id = ROOM(uint64_t), *detail = ROOM(uint64_t);
  size_t *n = ROOM(size_t);
  IS(h3_read_datagram(&made, given("\x00hi", 3), 3, id, n, detail), H3_NO_DATAGRAMS);
  let_go();
  n = ROOM(size_t);
  detail = ROOM(uint64_t);
  IS(h3_datagram_head(&made, 0, room_for(8, 1), 8, n, detail), H3_NO_DATAGRAMS);
  let_go();
  h3_free(&made);
}

int main(void) {
  of_a_capsule();
  of_a_datagram();
  of_cuts();
  of_an_exchange();
  of_a_priority();
  if (!bad) printf("ok given: no buffer is used after its call returned\n");
  return bad;
}
