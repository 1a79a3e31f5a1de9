/* Each allocation of an exchange between two endpoints is refused in turn: the call says so, is made again, and in the end the same items come
 * out, by deliveries and pulls, and by h3_read. Nothing is left allocated. And once more with a head that waits for two insertions, where each call
 * has to give what was worked out beforehand; and a delivery, of which h3_stream says what is held of it. With no memory at all any other reason is told first.
 * Linked with --wrap for malloc, realloc and free. */
#include "h3.h"
#include <stdio.h>
#include <stdlib.h>
#include <string.h>

#include "one_by_one.h"

void *__real_malloc(size_t);
void *__real_realloc(void *, size_t);
void __real_free(void *);

static long left = -1; /* allocations until one is refused; -1: none is */
static long live;      /* blocks that are allocated */
static long refused;
static int all_refused; /* while it is set, each is */

static int refuse(void) {
  if (all_refused) return 1;
  if (left < 0 || left-- != 0) return 0;
  refused++;
  return 1;
}
void *__wrap_malloc(size_t n) {
  if (refuse()) return NULL;
  void *p = __real_malloc(n);
  live += p != NULL;
  return p;
}
void *__wrap_realloc(void *p, size_t n) {
  if (refuse()) return NULL;
  void *q = __real_realloc(p, n);
  if (!p && q) live++;
  return q;
}
void __wrap_free(void *p) {
  live -= p != NULL;
  __real_free(p);
}

static long run_number;

static void fail(const char *what, uint32_t n) {
  printf("failed memory: allocation %ld refused: %s, %u\n", run_number, what, n);
  exit(1);
}

/* a call that may be refused memory, made until it is not */
#define AGAIN(call, what) \
  do { \
    uint32_t n_; \
    int tries_ = 0; \
    while ((n_ = (call)) == H3_MEMORY) \
      if (++tries_ > 2) fail(what, n_); \
    if (n_ != H3_OK) fail(what, n_); \
  } while (0)

static h3_endpoint ends[2];
static char story[8192]; /* what came out, as text */
static size_t told;
static int reads;            /* what comes on request streams is read by h3_read */
static int is_over[2];       /* the end of the stream that is under way came out */
static uint8_t body_out[4096]; /* what came out of a body */
static size_t body_out_len;

static void tell(const char *word, const uint8_t *bytes, size_t len) {
  told += (size_t)snprintf(story + told, sizeof story - told, "%s:", word);
  for (size_t i = 0; i < len && told < sizeof story - 4; i++) told += (size_t)snprintf(story + told, sizeof story - told, "%02x", bytes[i]);
  told += (size_t)snprintf(story + told, sizeof story - told, "\n");
}

static void make(void) {
  for (int side = 0; side < 2; side++) {
    h3_config c;
    h3_config_default(&c);
    c.server = (uint32_t)side;
    c.table = 4096;
    c.blocked = 100;
    AGAIN(h3_new(&ends[side], &c, NULL), "new");
  }
}

static void head(int side, uint64_t id) {
  static const h3_field_size request[] = {{7, 3}, {7, 5}, {10, 9}, {5, 11}, {4, 20}, {3, 1}}, response[] = {{7, 3}, {12, 9}, {4, 20}};
  static const char *const asked = ":methodGET:schemehttps:authoritylocalhost:path/index.htmlx-ab01234567890123456789x-c1";
  static const char *const given = ":status200content-typetext/htmlx-ab01234567890123456789";
  if (side)
    AGAIN(h3_send_head(&ends[1], id, response, NULL, 3, given, strlen(given), NULL), "send_head of a response");
  else
    AGAIN(h3_send_head(&ends[0], id, request, NULL, 6, asked, strlen(asked), NULL), "send_head of a request");
}

static void gather(const uint8_t *bytes, size_t len) {
  if (body_out_len + len > sizeof body_out) fail("a body is too long", (uint32_t)len);
  memcpy(body_out + body_out_len, bytes, len);
  body_out_len += len;
}

static void tell_fields(int side, const h3_item *item) {
  tell(item->kind == H3_HEAD ? "head" : "trailer", NULL, 0);
  for (size_t i = 0; i < item->fields; i++) {
    const uint8_t *name, *value;
    size_t nl, vl;
    AGAIN(field_at(&ends[side], item, i, &name, &nl, &value, &vl), "item_fields");
    tell("name", name, nl);
    tell("value", value, vl);
  }
}

/* What came out goes into the story; a piece of a body lies in `bytes`, or in the endpoint. The answer: whether another item may follow. */
static int take(int side, const h3_item *item, const uint8_t *bytes) {
  static uint8_t copied[4096];
  size_t n;
  if (item->kind == H3_PENDING || item->kind == H3_WAITING) return 0;
  if (item->kind == H3_BODY_GIVEN) {
    gather(bytes + item->number, item->len);
    return 1;
  }
  if (item->kind == H3_BODY) {
    if (h3_item_bytes(&ends[side], 0, copied, item->len, &n) || n != item->len) fail("item_bytes", 0);
    gather(copied, n);
    return 1;
  }
  if (body_out_len) tell("body", body_out, body_out_len);
  body_out_len = 0;
  if (item->kind == H3_HEAD || item->kind == H3_TRAILER) {
    tell_fields(side, item);
    return 1;
  }
  if (item->kind != H3_END) fail("an item of another kind", item->kind);
  tell("end", NULL, 0);
  is_over[side] = 1;
  return 0;
}

/* pulls until a pause */
static void pull_all(int side, uint64_t id) {
  for (int faults = 0; !is_over[side];) {
    h3_item item;
    if (h3_pull(&ends[side], id, &item)) fail("pull", 0);
    if (item.kind == H3_FAULT_MEMORY) {
      if (++faults > 3) fail("pull has no memory", 0);
    } else if (!take(side, &item, NULL)) {
      return;
    }
  }
}

/* Bytes of a request stream, and perhaps its end, are read to a pause or the end. The bytes are overwritten as soon as each call returns; where it is
 * refused memory it goes on with those that it did not use. */
static void read_all(int side, uint64_t id, const uint8_t *bytes, size_t len, int fin) {
  int faults = 0;
  for (size_t used = 0;; bytes += used, len -= used) {
    uint8_t given[200];
    h3_item item = {0};
    memcpy(given, bytes, len);
    uint32_t answer = h3_read(&ends[side], id, given, len, fin, &used, &item, NULL);
    memset(given, 0xee, sizeof given);
    if (used > len) fail("h3_read used more than it was given", (uint32_t)used);
    if (answer == H3_MEMORY || answer == H3_KEPT || (answer == H3_OK && item.kind == H3_FAULT_MEMORY)) {
      if (++faults > 3) fail("h3_read has no memory", answer);
      continue;
    }
    if (answer) fail("read", answer);
    if (!take(side, &item, bytes)) {
      if (used != len) fail("bytes are left after a pause or the end", (uint32_t)(len - used));
      return;
    }
  }
}

/* a call that delivers, made again while it is refused memory; it may be taken, and read by the next delivery or pull */
#define DELIVERED(call, what) \
  do { \
    uint32_t answer_; \
    long before_ = refused; \
    while ((answer_ = (call)) == H3_MEMORY) { \
      /* also while something is kept: an allocation of this call was refused */ \
      if (refused == before_) fail(what, answer_); \
      before_ = refused; \
    } \
    if (answer_ != H3_OK && answer_ != H3_KEPT) fail(what, answer_); \
  } while (0)

static void carry_all(int side) {
  uint64_t id;
  while (next_with_bytes(&ends[side], 0, &id) == H3_OK) {
    uint8_t buffer[48];
    size_t n;
    uint32_t fin;
    if (h3_outgoing(&ends[side], id, buffer, sizeof buffer, &n, NULL, &fin)) fail("outgoing", 0);
    if (!n) fail("outgoing gives nothing", 0);
    int is_read = reads && id % 4 == 0;
    if (is_read) read_all(!side, id, buffer, n, (int)fin);
    else DELIVERED(h3_deliver(&ends[!side], id, buffer, n, NULL), "deliver");
    if (h3_advance(&ends[side], id, n)) fail("advance", 0);
    /* where memory is refused the end may come by itself */
    h3_stream_state s;
    if (h3_stream(&ends[side], id, &s)) fail("stream", 0);
    if (s.is_finished && !s.waiting && !is_read) DELIVERED(h3_deliver_end(&ends[!side], id, NULL), "deliver_end");
  }
}

static void exchange(void) {
  uint64_t id;
  uint8_t body[500];
  static const h3_field_size trailer[] = {{3, 2}};
  for (size_t i = 0; i < sizeof body; i++) body[i] = (uint8_t)(i * 7);
  told = 0;
  make();
  carry_all(0);
  carry_all(1);
  for (int round = 0; round < 3; round++) {
    is_over[0] = is_over[1] = 0;
    AGAIN(h3_open_request(&ends[0], &id, NULL), "open_request");
    head(0, id);
    AGAIN(h3_send_body(&ends[0], id, body, sizeof body, NULL), "send_body");
    AGAIN(h3_finish(&ends[0], id, NULL), "finish");
    carry_all(0);
    pull_all(1, id);
    head(1, id);
    AGAIN(h3_send_body(&ends[1], id, body, 100, NULL), "send_body");
    AGAIN(h3_send_trailer(&ends[1], id, trailer, NULL, 1, "x-tyz", 5, NULL), "send_trailer");
    AGAIN(h3_finish(&ends[1], id, NULL), "finish");
    carry_all(1);
    pull_all(0, id);
    carry_all(0);
  }
  is_over[0] = is_over[1] = 0;
  AGAIN(h3_open_request(&ends[0], &id, NULL), "open_request");
  head(0, id);
  carry_all(0);
  pull_all(1, id);
  AGAIN(h3_cancel(&ends[0], id, NULL), "cancel");
  AGAIN(h3_goaway(&ends[1], 40, NULL), "goaway");
  carry_all(0);
  carry_all(1);
  h3_free(&ends[0]);
  h3_free(&ends[1]);
}

/* what waits on a unidirectional stream goes over in one delivery. Bytes that were taken and not read are read by a delivery of none */
static void carry(int side, uint64_t id) {
  uint8_t bytes[200];
  size_t n;
  uint32_t answer;
  if (h3_outgoing(&ends[side], id, bytes, sizeof bytes, &n, NULL, NULL) || !n || n == sizeof bytes) fail("outgoing", 0);
  int tries = 0;
  while ((answer = h3_deliver(&ends[!side], id, bytes, n, NULL)) == H3_MEMORY)
    if (++tries > 2) fail("deliver", answer);
  if (answer == H3_KEPT) AGAIN(h3_deliver(&ends[!side], id, "", 0, NULL), "deliver");
  else if (answer) fail("deliver", answer);
  if (h3_advance(&ends[side], id, n)) fail("advance", 0);
}

/* What waits on a request stream goes over, and is read where it lies: the item. The bytes are overwritten as soon as each call returns. */
static h3_item carry_and_read(int side, uint64_t id) {
  uint8_t bytes[200], given[200];
  h3_item item = {0};
  size_t n, used = 0;
  uint32_t answer;
  if (h3_outgoing(&ends[side], id, bytes, sizeof bytes, &n, NULL, NULL) || !n || n == sizeof bytes) fail("outgoing", 0);
  if (h3_advance(&ends[side], id, n)) fail("advance", 0);
  for (size_t at = 0, tries = 0;; at += used) {
    memcpy(given, bytes + at, n - at);
    answer = h3_read(&ends[!side], id, given, n - at, 0, &used, &item, NULL);
    memset(given, 0xee, sizeof given);
    if (answer == H3_OK && item.kind != H3_FAULT_MEMORY) return item;
    if ((answer && answer != H3_MEMORY && answer != H3_KEPT) || ++tries > 2) fail("read", answer);
  }
}

static h3_item pulled(int side, uint64_t id) {
  h3_item item;
  int tries = 0;
  do {
    if (h3_pull(&ends[side], id, &item)) fail("pull", 0);
  } while (item.kind == H3_FAULT_MEMORY && ++tries < 3);
  return item;
}

/* A head with two insertions: a table of 220 bytes, two streams may wait. The entries are 57 and 49 bytes (RFC 9204, section 3.2.1). */
static void waiting_head(void) {
  static const h3_field_size sizes[] = {{7, 3}, {7, 5}, {10, 15}, {5, 12}};
  static const char *const head_bytes = ":methodGET:schemehttps:authoritywww.example.com:path/sample/path";
  uint64_t id;
  h3_item item;
  h3_state state;
  for (int side = 0; side < 2; side++) {
    h3_config c;
    h3_config_default(&c);
    c.max_field_section_size = 1000;
    c.server = (uint32_t)side;
    if (side) c.table = 220, c.blocked = 2;
    AGAIN(h3_new(&ends[side], &c, NULL), "new");
  }
  AGAIN(h3_open_request(&ends[0], &id, NULL), "open_request");
  carry(1, 3);
  AGAIN(h3_send_head(&ends[0], id, sizes, NULL, 4, head_bytes, strlen(head_bytes), NULL), "send_head");
  item = carry_and_read(0, id);
  if (item.kind != H3_WAITING || item.number != 2) fail("the head does not wait for two insertions", item.kind);
  carry(0, 6);
  item = pulled(1, id);
  if (item.kind != H3_HEAD || item.fields != 4) fail("the head does not come", item.kind);
  for (size_t i = 0, at = 0; i < 4; i++) {
    const uint8_t *both[2];
    size_t n, v;
    AGAIN(field_at(&ends[1], &item, i, &both[0], &n, &both[1], &v), "item_fields");
    if (n != sizes[i].name || v != sizes[i].value || memcmp(both[0], head_bytes + at, n) || memcmp(both[1], head_bytes + at + n, v))
      fail("another field", (uint32_t)i);
    at += n + v;
  }
  if (pulled(1, id).kind != H3_PENDING) fail("something comes behind the head", 0);
  carry(1, 11);
  if (h3_connection(&ends[0], &state)) fail("connection", 0);
  if (!state.has_settings || state.peer_table != 220 || state.peer_blocked != 2 || state.peer_section != 1000 || state.sending_table != 106 ||
      state.receiving_table || state.waiting_heads)
    fail("another state of the client", (uint32_t)state.sending_table);
  if (h3_connection(&ends[1], &state)) fail("connection", 1);
  if (state.has_settings || state.sending_table || state.receiving_table != 106 || state.waiting_heads)
    fail("another state of the server", (uint32_t)state.receiving_table);
  h3_free(&ends[0]);
  h3_free(&ends[1]);
}

/* that exchange with each allocation refused in turn; answers how many there are */
static long waiting_heads(void) {
  long before = live;
  for (run_number = 0;; run_number++) {
    refused = 0;
    left = run_number;
    waiting_head();
    int all = left >= 0;
    left = -1;
    if (live != before) fail("something is left allocated", (uint32_t)(live - before));
    if (all) return run_number;
    if (refused != 1) fail("the refusals were not one", (uint32_t)refused);
  }
}

static uint64_t unread(uint64_t id) {
  h3_stream_state state;
  if (h3_stream(&ends[1], id, &state)) fail("stream", 0);
  return state.unread;
}

/* Bytes that memory was refused for: refused ones are not held, and those that were taken are, of the control stream without its type once that was
 * read. Answers how many were taken so, and were not all read. */
static long kept(void) {
  long before = live, count = 0;
  for (run_number = 0;; run_number++) {
    h3_config c;
    uint32_t answer;
    h3_config_default(&c);
    c.server = 1;
    if (h3_new(&ends[1], &c, NULL)) fail("new", 0);
    left = run_number;
    answer = h3_deliver(&ends[1], 2, "\x00\x04", 2, NULL);
    int all = left >= 0;
    left = -1;
    if (answer == H3_MEMORY && unread(2)) fail("what was refused is held", (uint32_t)unread(2));
    if (answer == H3_KEPT && unread(2) != 2 && unread(2) != 1) fail("what was kept is not held", (uint32_t)unread(2));
    if (answer == H3_OK && unread(2) != 1) fail("another count is held", (uint32_t)unread(2));
    count += answer == H3_KEPT;
    if (answer == H3_KEPT && (h3_deliver(&ends[1], 2, "", 0, NULL) || unread(2) != 1)) fail("what was kept is not read", (uint32_t)unread(2));
    h3_free(&ends[1]);
    if (live != before) fail("something is left allocated", (uint32_t)(live - before));
    if (all) return count;
  }
}

static void answers(uint32_t n, uint32_t expected, const char *what) {
  if (n != expected) fail(what, n);
}

/* With no memory at all each call that copies tells what else refuses it, and H3_MEMORY only where nothing does. */
static void reasons(void) {
  static const char list[] = ":methodGET:schemehttps:authoritya:path/";
  static const h3_field_size sizes[] = {{7, 3}, {7, 5}, {10, 1}, {5, 1}};
  const size_t len = sizeof list - 1;
  h3_endpoint *e = &ends[0];
  h3_config c;
  uint64_t id;
  h3_config_default(&c);
  if (h3_new(e, &c, NULL)) fail("new", 0);
  all_refused = 1;
  answers(h3_send_head(e, 0, sizes, NULL, 4, list, len - 1, NULL), H3_ARGUMENT, "a list whose sizes are not those of the bytes");
  answers(h3_send_head(e, 0, sizes, NULL, 4, list, len, NULL), H3_NOT_OPEN, "a list on no stream");
  answers(h3_send_trailer(e, 0, sizes, NULL, 4, list, len, NULL), H3_NOT_OPEN, "a trailer on no stream");
  answers(h3_send_body(e, 0, "a", 1, NULL), H3_NOT_OPEN, "a body on no stream");
  answers(h3_deliver(e, 2, "ab", 2, NULL), H3_NOT_RECEIVING, "bytes on the local control stream");
  all_refused = 0;
  if (h3_open_request(e, &id, NULL)) fail("open_request", 0);
  all_refused = 1;
  answers(h3_send_trailer(e, id, sizes, NULL, 4, list, len, NULL), H3_OUT_OF_ORDER, "a trailer ahead of the header section");
  answers(h3_send_body(e, id, "a", 1, NULL), H3_OUT_OF_ORDER, "a body ahead of the header section");
  answers(h3_send_head(e, id, sizes, NULL, 4, list, len, NULL), H3_MEMORY, "a list that there is no memory for");
  answers(h3_deliver(e, id, "ab", 2, NULL), H3_MEMORY, "bytes that there is no memory for");
  all_refused = 0;
  if (h3_send_head(e, id, sizes, NULL, 4, list, len, NULL)) fail("send_fields", 0);
  all_refused = 1;
  answers(h3_send_head(e, id, sizes, NULL, 4, list, len, NULL), H3_OUT_OF_ORDER, "a second header section");
  answers(h3_send_body(e, id, "a", 1, NULL), H3_MEMORY, "a body that there is no memory for");
  all_refused = 0;
  if (h3_finish(e, id, NULL) || h3_deliver_end(e, id, NULL)) fail("finish", 0);
  all_refused = 1;
  answers(h3_send_body(e, id, "a", 1, NULL), H3_OUT_OF_ORDER, "a body after the end");
  answers(h3_deliver(e, id, "ab", 2, NULL), H3_AFTER_END, "bytes after the end");
  all_refused = 0;
  answers(h3_deliver(e, 3, "\x00\x00\x00", 3, NULL), H3_CONNECTION, "a control stream without SETTINGS");
  all_refused = 1;
  answers(h3_send_head(e, id, sizes, NULL, 4, list, len, NULL), H3_CLOSED, "a list after a fault");
  answers(h3_send_body(e, id, "a", 1, NULL), H3_CLOSED, "a body after a fault");
  answers(h3_deliver(e, 0, "ab", 2, NULL), H3_CONNECTION, "bytes after a fault");
  all_refused = 0;
  h3_free(e);
}

/* the exchange with each allocation refused in turn: the same items come out; answers how many there are */
static long exchanges(const char *expected, long before) {
  for (run_number = 0;; run_number++) {
    refused = 0;
    left = run_number;
    exchange();
    int all = left >= 0;
    left = -1;
    if (live != before) fail("something is left allocated", (uint32_t)(live - before));
    if (strcmp(expected, story)) fail("other items came out", 0);
    if (all) return run_number;
    if (refused != 1) fail("the refusals were not one", (uint32_t)refused);
  }
}

int main(void) {
  static char expected[sizeof story];
  long before = live;
  reasons();
  if (live != before) fail("something is left allocated by calls with no memory", (uint32_t)(live - before));
  exchange();
  if (live != before) fail("something is left allocated with no refusal", (uint32_t)(live - before));
  memcpy(expected, story, sizeof story);
  if (told < 4000) fail("the story is too short", (uint32_t)told);
  for (reads = 0; reads < 2; reads++) {
    long count = exchanges(expected, before);
    if (count < 100) fail("there were too few allocations", (uint32_t)count);
    printf("ok memory, by %s: %ld allocations refused in turn, each call made again, the same items came out, nothing left allocated\n",
           reads ? "h3_read" : "deliveries and pulls", count);
  }
  printf("ok memory, a head that waits: %ld allocations refused in turn, each call made again and answered as with memory\n", waiting_heads());
  long times = kept();
  if (times < 1) fail("no delivery was kept", 0);
  printf("ok memory, what is kept: %ld deliveries were kept, and are held until they are read\n", times);
  return 0;
}
