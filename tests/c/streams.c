/* Streams by their ids: what the peer's unidirectional streams are, streams that are given up both ways in one call, requests that are
 * opened by an id that QUIC gave, and streams that waited for insertions. Linked with --wrap for malloc and realloc. One line 'ok NAME' or
 * 'failed NAME'. */
#include "h3.h"
#include <stdlib.h>
#include <string.h>
#define TEST "streams"
#include "field_list.h"
#include "pair.h"

void *__real_malloc(size_t);
void *__real_realloc(void *, size_t);
void *__wrap_malloc(size_t);
void *__wrap_realloc(void *, size_t);

static size_t left = SIZE_MAX; /* so many allocations succeed */

static int refuses(void) {
  if (!left) return 1;
  if (left != SIZE_MAX) left--;
  return 0;
}

void *__wrap_malloc(size_t size) { return refuses() ? NULL : __real_malloc(size); }
void *__wrap_realloc(void *block, size_t size) { return refuses() ? NULL : __real_realloc(block, size); }

static const uint64_t FAR = UINT64_C(1) << 62;

static field_list request, response;

static void make(void) {
  for (int side = 0; side < 2; side++) {
    h3_config config;
    h3_config_default(&config);
    config.server = (uint64_t)side;
    config.webtransport = config.datagram = 1; /* so that sessions are known */
    IS(h3_new(&ends[side], &config, NULL), H3_OK);
  }
  carry_own();
}

/* ---- what a stream is ---- */

/* The type of the stream is told as this one, by what came on it (RFC 9114, section 6.2; RFC 9204, section 4.2). */
static void is_type(int side, uint64_t id, uint32_t wanted) {
  uint32_t type = 99;
  IS(h3_stream_kind(&ends[side], id, &type), H3_OK);
  IS(type, wanted);
}

static void has_no_type(int side, uint64_t id, uint32_t answer) {
  uint32_t type = 99;
  IS(h3_stream_kind(&ends[side], id, &type), answer);
  IS(type, 99);
}

#define COMES(side, id, text) IS(h3_deliver(&ends[side], id, text, sizeof text - 1, NULL), H3_OK)

static void of_types(void) {
  make();
  is_type(SERVER, 2, H3_STREAM_CONTROL);
  is_type(SERVER, 6, H3_STREAM_ENCODER);
  is_type(SERVER, 10, H3_STREAM_DECODER);
  is_type(CLIENT, 3, H3_STREAM_CONTROL);
  is_type(CLIENT, 7, H3_STREAM_ENCODER);
  is_type(CLIENT, 11, H3_STREAM_DECODER);
  /* nothing came; then 0x21, which is reserved so that unknown types occur (section 6.2.3) */
  is_type(SERVER, 14, H3_STREAM_UNTOLD);
  COMES(SERVER, 14, "\x21");
  is_type(SERVER, 14, H3_STREAM_UNKNOWN);
  COMES(SERVER, 14, "any bytes");
  is_type(SERVER, 14, H3_STREAM_UNKNOWN);
  IS(h3_deliver_end(&ends[SERVER], 14, NULL), H3_OK);
  is_type(SERVER, 14, H3_STREAM_UNKNOWN);
  /* a type in two bytes, which come one by one: 0x4042 is 66; and 0x4002 is 2 in two bytes */
  COMES(SERVER, 18, "\x40");
  is_type(SERVER, 18, H3_STREAM_UNTOLD);
  COMES(SERVER, 18, "\x42");
  is_type(SERVER, 18, H3_STREAM_UNKNOWN);
  /* 0x54 and the id of its session */
  COMES(SERVER, 22, "\x40\x54");
  is_type(SERVER, 22, H3_STREAM_UNTOLD);
  COMES(SERVER, 22, "\x08");
  is_type(SERVER, 22, H3_STREAM_SESSION);
  /* one that ended before its type was whole */
  COMES(SERVER, 26, "\x80\x00");
  IS(h3_deliver_end(&ends[SERVER], 26, NULL), H3_OK);
  is_type(SERVER, 26, H3_STREAM_UNTOLD);
  /* one that was reset after its type */
  COMES(SERVER, 30, "\x3e");
  IS(h3_deliver_reset(&ends[SERVER], 30, 0x10c, NULL), H3_OK);
  is_type(SERVER, 30, H3_STREAM_UNKNOWN);
  /* far ahead of all that came */
  is_type(SERVER, FAR - 2, H3_STREAM_UNTOLD);
  COMES(SERVER, FAR - 2, "\x21");
  is_type(SERVER, FAR - 2, H3_STREAM_UNKNOWN);
  /* requests, streams both ways that a server would open, and those on which this side sends */
  has_no_type(SERVER, 0, H3_NONE);
  has_no_type(SERVER, 1, H3_NONE);
  has_no_type(SERVER, 3, H3_NONE);
  has_no_type(SERVER, 15, H3_NONE);
  has_no_type(CLIENT, 2, H3_NONE);
  has_no_type(CLIENT, 14, H3_NONE);
  has_no_type(SERVER, FAR, H3_ARGUMENT);
  has_no_type(SERVER, UINT64_MAX, H3_ARGUMENT);
  /* push: no client has allowed one (section 4.6), so the stream is a fault, and is told after it */
  COMES(CLIENT, 15, "\x01");
  is_type(CLIENT, 15, H3_STREAM_UNTOLD);
  IS(h3_deliver(&ends[CLIENT], 15, "\x00", 1, NULL), H3_CONNECTION);
  is_type(CLIENT, 15, H3_STREAM_PUSH);
  is_type(CLIENT, 3, H3_STREAM_CONTROL);
  drop();
}

/* ---- a stream that is given up both ways ---- */

/* It is closed, and QUIC is to send these frames. */
static void closes(int side, uint64_t id, uint32_t stop, uint32_t reset) {
  uint32_t stop_sending = 99, reset_stream = 99;
  uint64_t detail = 99;
  IS(h3_close_stream(&ends[side], id, &stop_sending, &reset_stream, &detail), H3_OK);
  IS(stop_sending, stop);
  IS(reset_stream, reset);
  HOLDS(detail == 0);
}

static void closes_not(int side, uint64_t id, uint32_t answer, uint64_t told) {
  uint32_t stop_sending = 98, reset_stream = 99;
  uint64_t detail = 97;
  IS(h3_close_stream(&ends[side], id, &stop_sending, &reset_stream, &detail), answer);
  HOLDS(stop_sending == 98 && reset_stream == 99 && detail == told);
}

/* A request is under way: its header section was sent, and carried if asked for. */
static uint64_t ask(int carried) {
  uint64_t id = 99;
  IS(h3_open_request(&ends[CLIENT], &id, NULL), H3_OK);
  IS(send_list(&ends[CLIENT], id, &request), H3_OK);
  if (carried) {
    carry_own();
    carry(CLIENT, id);
  }
  return id;
}

static h3_stream_state state_of(int side, uint64_t id) {
  h3_stream_state state = {0};
  IS(h3_stream(&ends[side], id, &state), H3_OK);
  return state;
}

/* Neither half has ended: both frames. Nothing waits then, pulls are told, and the peer's encoder learns of it once: Stream Cancellation of
 * stream 0 is 0x40 (RFC 9204, section 4.4.2). */
static void of_open_streams(void) {
  uint8_t bytes[8];
  size_t n = 9;
  make();
  ask(0);
  HOLDS(state_of(CLIENT, 0).waiting > 0);
  closes(CLIENT, 0, 1, 1);
  HOLDS(state_of(CLIENT, 0).waiting == 0 && state_of(CLIENT, 0).is_reset == 1);
  HOLDS(pull(CLIENT, 0).kind == H3_FAULT_CANCELED);
  IS(h3_outgoing(&ends[CLIENT], h3_decoder_id(0), bytes, sizeof bytes, &n, NULL, NULL), H3_OK);
  HOLDS(n == 1 && bytes[0] == 0x40);
  closes(CLIENT, 0, 1, 0); /* again: nothing came that ended the peer's half */
  IS(h3_outgoing(&ends[CLIENT], h3_decoder_id(0), bytes, sizeof bytes, &n, NULL, NULL), H3_OK);
  HOLDS(n == 1);
  IS(h3_deliver_reset(&ends[CLIENT], 0, 0x10c, NULL), H3_OK);
  closes(CLIENT, 0, 0, 0);
  /* a server that has answered in part */
  ask(1);
  HOLDS(pull(SERVER, 4).kind == H3_HEAD);
  IS(send_list(&ends[SERVER], 4, &response), H3_OK);
  closes(SERVER, 4, 1, 1);
  HOLDS(pull(SERVER, 4).kind == H3_FAULT_CANCELED && state_of(SERVER, 4).is_reset == 1);
  drop();
}

/* One half has ended, or both have. */
static void of_ended_halves(void) {
  uint64_t id;
  make();
  /* the local half was finished, and its bytes were taken: its FIN alone waits */
  id = ask(0);
  IS(h3_finish(&ends[CLIENT], id, NULL), H3_OK);
  carry_own();
  carry(CLIENT, id);
  closes(CLIENT, id, 1, 0);
  HOLDS(state_of(CLIENT, id).is_finished == 1 && state_of(CLIENT, id).is_reset == 0);
  /* it was finished, and bytes still wait */
  id = ask(0);
  IS(h3_finish(&ends[CLIENT], id, NULL), H3_OK);
  closes(CLIENT, id, 1, 1);
  HOLDS(state_of(CLIENT, id).is_reset == 1);
  /* it was reset */
  id = ask(0);
  IS(h3_reset(&ends[CLIENT], id, NULL), H3_OK);
  closes(CLIENT, id, 1, 0);
  HOLDS(pull(CLIENT, id).kind == H3_FAULT_CANCELED);
  /* the end of the peer's half came, and was not pulled */
  id = ask(1);
  IS(h3_deliver_end(&ends[SERVER], id, NULL), H3_OK);
  closes(SERVER, id, 0, 1);
  HOLDS(pull(SERVER, id).kind == H3_FAULT_CANCELED);
  /* it was pulled */
  id = ask(1);
  IS(h3_deliver_end(&ends[SERVER], id, NULL), H3_OK);
  HOLDS(pull(SERVER, id).kind == H3_HEAD && pull(SERVER, id).kind == H3_END);
  closes(SERVER, id, 0, 1);
  HOLDS(pull(SERVER, id).kind == H3_END && state_of(SERVER, id).is_reset == 1);
  closes(SERVER, id, 0, 0);
  /* its reset came */
  id = ask(1);
  IS(h3_deliver_reset(&ends[SERVER], id, 0x10c, NULL), H3_OK);
  closes(SERVER, id, 0, 1);
  HOLDS(pull(SERVER, id).kind == H3_FAULT_RESET);
  /* it was canceled before */
  id = ask(1);
  IS(h3_cancel(&ends[SERVER], id, NULL), H3_OK);
  closes(SERVER, id, 1, 1);
  /* both have ended */
  id = ask(1);
  IS(h3_deliver_end(&ends[SERVER], id, NULL), H3_OK);
  HOLDS(pull(SERVER, id).kind == H3_HEAD && pull(SERVER, id).kind == H3_END);
  IS(send_list(&ends[SERVER], id, &response), H3_OK);
  IS(h3_finish(&ends[SERVER], id, NULL), H3_OK);
  carry_own();
  carry(SERVER, id);
  IS(h3_end_taken(&ends[SERVER], id), H3_OK);
  closes(SERVER, id, 0, 0);
  drop();
}

/* A malformed message: the peer goes on to send, so STOP_SENDING is due (RFC 9114, section 4.1.2). HEADERS with :method GET alone. */
static void of_malformed_messages(void) {
  make();
  COMES(SERVER, 0, "\x01\x03\x00\x00\xd1");
  h3_item item = pull(SERVER, 0);
  HOLDS(item.kind == H3_FAULT_MALFORMED && item.number == H3_MISSING_PSEUDO_FIELD);
  closes(SERVER, 0, 1, 1);
  HOLDS(pull(SERVER, 0).kind == H3_FAULT_MALFORMED);
  drop();
}

/* streams that are not given up: nothing is done, and nothing is written */
static void of_refusals(void) {
  make();
  ask(1);
  closes_not(CLIENT, 4, H3_NOT_OPEN, 0);
  closes_not(CLIENT, 1, H3_NOT_OPEN, 0);
  closes_not(CLIENT, 14, H3_NOT_OPEN, 0);
  COMES(SERVER, 14, "\x21");
  closes_not(SERVER, 14, H3_NOT_OPEN, 0);
  for (uint64_t id = 2; id < 12; id += 4) {
    closes_not(CLIENT, id, H3_CRITICAL, 0);
    closes_not(CLIENT, id + 1, H3_CRITICAL, 0);
  }
  closes_not(CLIENT, FAR, H3_ARGUMENT, 0);
  closes_not(CLIENT, UINT64_MAX, H3_ARGUMENT, 0);
  uint32_t frame = 99;
  IS(h3_close_stream(&ends[CLIENT], 0, NULL, &frame, NULL), H3_ARGUMENT);
  IS(h3_close_stream(&ends[CLIENT], 0, &frame, NULL, NULL), H3_ARGUMENT);
  HOLDS(frame == 99 && state_of(CLIENT, 0).is_reset == 0);
  /* DATA on a control stream: H3_FRAME_UNEXPECTED (section 7.2.1) */
  IS(h3_deliver(&ends[SERVER], 2, "\x00\x00", 2, NULL), H3_CONNECTION);
  closes_not(SERVER, 0, H3_CLOSED, H3_CODE_FRAME_UNEXPECTED);
  drop();
}

/* What waits on all streams of an end, and what it tells of its streams: written to `bytes`. */
static size_t all_of(int side, uint8_t *bytes, size_t room) {
  size_t len = 0;
  for (uint64_t id = 0; id < 16; id++) {
    size_t n = 0;
    h3_stream_state state = state_of(side, id);
    IS(h3_outgoing(&ends[side], id, bytes + len, room - len, &n, NULL, NULL), H3_OK);
    len += n;
    bytes[len++] = (uint8_t)(state.is_reset << 2 | state.is_finished << 1 | state.has_outgoing);
    bytes[len++] = (uint8_t)state.unread;
    bytes[len++] = (uint8_t)pull(side, id).kind;
  }
  return len;
}

/* One call does what a cancellation and then a reset do, whatever came and was sent before: the steps that a number's bits name. */
static void does_both(int steps, uint8_t *bytes, size_t *len, int at_once) {
  uint32_t stop_sending, reset_stream;
  make();
  uint64_t id = ask(1);
  if (steps & 1) HOLDS(pull(SERVER, id).kind == H3_HEAD);
  if (steps & 2) IS(h3_deliver_end(&ends[SERVER], id, NULL), H3_OK);
  if (steps & 4) pull(SERVER, id);
  if (steps & 8) IS(send_list(&ends[SERVER], id, &response), H3_OK);
  if (steps & 16) h3_finish(&ends[SERVER], id, NULL);
  if (steps & 32) carry(SERVER, id);
  if (steps & 64) h3_cancel(&ends[SERVER], id, NULL);
  if (steps & 128) h3_reset(&ends[SERVER], id, NULL);
  if (at_once) {
    IS(h3_close_stream(&ends[SERVER], id, &stop_sending, &reset_stream, NULL), H3_OK);
    HOLDS(stop_sending == !(steps & 2));
  } else {
    uint32_t canceled = h3_cancel(&ends[SERVER], id, NULL), reset = h3_reset(&ends[SERVER], id, NULL);
    HOLDS((canceled == H3_OK || canceled == H3_ENDED) && (reset == H3_OK || reset == H3_ENDED));
  }
  *len = all_of(SERVER, bytes, 4096);
  drop();
}

static void of_both_calls(void) {
  static uint8_t one[8192], other[8192];
  size_t n, m;
  for (int steps = 0; steps < 256; steps++) {
    does_both(steps, one, &n, 1);
    does_both(steps, other, &m, 0);
    HOLDS(n == m && !memcmp(one, other, n));
  }
}

/* Out of memory: nothing was done, and the call may be made again. The cancellations fill the decoder stream, which has to grow. */
static void of_memory(void) {
  enum { STREAMS = 400 };
  int refused = 0;
  make();
  for (uint64_t id = 0; id < 4 * STREAMS; id += 4) COMES(SERVER, id, "\x01\x03\x00\x00\xd1");
  for (uint64_t id = 0; id < 4 * STREAMS; id += 4) {
    uint32_t stop_sending = 98, reset_stream = 99;
    uint64_t before = state_of(SERVER, h3_decoder_id(1)).waiting;
    left = 0;
    uint32_t answer = h3_close_stream(&ends[SERVER], id, &stop_sending, &reset_stream, NULL);
    left = SIZE_MAX;
    if (answer != H3_OK) {
      IS(answer, H3_MEMORY);
      HOLDS(stop_sending == 98 && reset_stream == 99);
      HOLDS(state_of(SERVER, id).is_reset == 0 && state_of(SERVER, h3_decoder_id(1)).waiting == before);
      refused++;
      closes(SERVER, id, 1, 1);
    }
    HOLDS(state_of(SERVER, h3_decoder_id(1)).waiting > before);
    HOLDS(pull(SERVER, id).kind == H3_FAULT_CANCELED && state_of(SERVER, id).is_reset == 1);
  }
  HOLDS(refused > 1);
  drop();
}

/* ---- a request by its id ---- */

static void is_next(uint64_t wanted) {
  uint64_t id = 99;
  IS(h3_next_request_id(&ends[CLIENT], &id, NULL), H3_OK);
  HOLDS(id == wanted);
  HOLDS(state_of(CLIENT, wanted).has_outgoing == 0);
  for (uint64_t below = 0; below < wanted; below += 4) HOLDS(state_of(CLIENT, below).has_outgoing == 1);
}

static void opens_at(int side, uint64_t id, uint32_t answer, uint64_t told) {
  uint64_t detail = 99;
  IS(h3_open_request_at(&ends[side], id, &detail), answer);
  HOLDS(detail == told);
}

static void of_ids(void) {
  uint64_t id;
  make();
  opens_at(CLIENT, 0, H3_OK, 0);
  is_next(4);
  opens_at(CLIENT, 4, H3_OK, 0);
  is_next(8);
  opens_at(CLIENT, 20, H3_OK, 0); /* and 8, 12 and 16 */
  is_next(24);
  opens_at(CLIENT, 20, H3_OUT_OF_ORDER, 0);
  opens_at(CLIENT, 0, H3_OUT_OF_ORDER, 0);
  for (uint64_t low = 1; low < 4; low++) {
    opens_at(CLIENT, low, H3_NOT_REQUEST_ID, 0);
    opens_at(CLIENT, 24 + low, H3_NOT_REQUEST_ID, 0);
  }
  opens_at(CLIENT, FAR, H3_ARGUMENT, 0);
  opens_at(CLIENT, UINT64_MAX - 3, H3_ARGUMENT, 0);
  is_next(24);
  IS(h3_open_request(&ends[CLIENT], &id, NULL), H3_OK);
  HOLDS(id == 24);
  opens_at(CLIENT, 28, H3_OK, 0);
  /* a message on one that was opened between */
  IS(send_list(&ends[CLIENT], 12, &request), H3_OK);
  carry_own();
  carry(CLIENT, 12);
  HOLDS(pull(SERVER, 12).kind == H3_HEAD);
  opens_at(SERVER, 32, H3_NOT_CLIENT, 0);
  opens_at(SERVER, 33, H3_NOT_CLIENT, 0);
  /* a GOAWAY comes before what the id is */
  IS(h3_goaway(&ends[SERVER], 16, NULL), H3_OK);
  carry_own();
  opens_at(CLIENT, 32, H3_GOING_AWAY, 16);
  opens_at(CLIENT, 33, H3_GOING_AWAY, 16);
  opens_at(CLIENT, 0, H3_GOING_AWAY, 16);
  IS(h3_deliver(&ends[CLIENT], 3, "\x00\x00", 2, NULL), H3_CONNECTION);
  opens_at(CLIENT, 32, H3_CLOSED, H3_CODE_FRAME_UNEXPECTED);
  drop();
}

/* Out of memory: those with lower ids that it opened stay, and a later call opens the rest. */
static void of_ids_without_memory(void) {
  enum { LAST = 4000 };
  uint64_t before = 0, next = 0;
  int refused = 0;
  make();
  for (size_t allowed = 0; allowed < 4000; allowed++) {
    uint64_t detail = 99;
    left = allowed;
    uint32_t answer = h3_open_request_at(&ends[CLIENT], LAST, &detail);
    left = SIZE_MAX;
    IS(h3_next_request_id(&ends[CLIENT], &next, NULL), H3_OK);
    HOLDS(detail == 0 && next >= before && next % 4 == 0);
    before = next;
    if (answer == H3_OK) break;
    IS(answer, H3_MEMORY);
    HOLDS(next <= LAST);
    refused++;
  }
  HOLDS(next == LAST + 4 && refused > 1);
  is_next(LAST + 4);
  drop();
}

/* ---- streams that waited for insertions ---- */

static void unblocked(uint64_t from, uint64_t wanted) {
  uint64_t id = 99;
  IS(h3_next_unblocked(&ends[SERVER], from, &id), H3_OK);
  HOLDS(id == wanted);
}

static void none_unblocked(uint64_t from) {
  uint64_t id = 99;
  IS(h3_next_unblocked(&ends[SERVER], from, &id), H3_NONE);
  HOLDS(id == 99);
}

/* HEADERS with :method GET and :scheme https of the static table, and fields of a table of 220 bytes (RFC 9204, appendix B.2): the first
 * one, and :path "/" of the static table; or the first and the second one */
#define WAITS_FOR_ONE "\x01\x06\x02\x80\xd1\xd7\x10\xc1"
#define WAITS_FOR_TWO "\x01\x06\x03\x81\xd1\xd7\x10\x11"
#define INSERTS_FIRST "\x02\x3f\xbd\x01\xc0\x0fwww.example.com"
#define INSERTS_SECOND "\xc1\x0c/sample/path"

static void make_server(uint64_t blocked) {
  h3_config config;
  h3_config_default(&config);
  config.server = 1;
  config.table = 220;
  config.blocked = blocked;
  IS(h3_new(&ends[SERVER], &config, NULL), H3_OK);
}

static void waits(uint64_t id, uint64_t count) {
  h3_item item = pull(SERVER, id);
  HOLDS(item.kind == H3_WAITING && item.number == count);
}

static void of_unblocked(void) {
  make_server(5);
  none_unblocked(0);
  for (uint64_t id = 0; id < 12; id += 4) {
    COMES(SERVER, id, WAITS_FOR_TWO);
    none_unblocked(0);
    waits(id, 2);
  }
  COMES(SERVER, 12, WAITS_FOR_ONE);
  waits(12, 1);
  COMES(SERVER, 16, WAITS_FOR_TWO); /* no pull has told that it waits */
  none_unblocked(0);
  COMES(SERVER, 6, INSERTS_FIRST);
  unblocked(0, 12);
  unblocked(12, 12);
  none_unblocked(13);
  waits(0, 2);
  HOLDS(pull(SERVER, 12).kind == H3_HEAD);
  none_unblocked(0);
  COMES(SERVER, 6, INSERTS_SECOND);
  unblocked(0, 0);
  unblocked(1, 4);
  unblocked(4, 4);
  unblocked(5, 8);
  none_unblocked(9);
  none_unblocked(UINT64_MAX);
  IS(h3_cancel(&ends[SERVER], 4, NULL), H3_OK);
  unblocked(1, 8);
  HOLDS(pull(SERVER, 0).kind == H3_HEAD);
  unblocked(0, 8);
  IS(h3_deliver_reset(&ends[SERVER], 8, 0x10c, NULL), H3_OK);
  none_unblocked(0);
  HOLDS(pull(SERVER, 16).kind == H3_HEAD);
  none_unblocked(0);
  h3_free(&ends[SERVER]);
}

/* Many streams, near and far, that came and were pulled in another order: each is named once, in the order of the ids. */
static void of_many_unblocked(void) {
  enum { MANY = 600 };
  uint64_t id, named = 0, before = 0;
  make_server(MANY);
  for (uint64_t n = 0; n < MANY; n++) {
    uint64_t other = 4 * (n * 7 % MANY); /* 7 and 600 have no common divisor */
    if (other % 8 == 4) other += UINT64_C(1) << 40;
    COMES(SERVER, other, WAITS_FOR_TWO);
    waits(other, 2);
  }
  COMES(SERVER, 6, INSERTS_FIRST);
  none_unblocked(0);
  COMES(SERVER, 6, INSERTS_SECOND);
  for (id = 0; h3_next_unblocked(&ends[SERVER], id, &id) == H3_OK; id++) {
    HOLDS(named == 0 || id > before);
    before = id;
    HOLDS(id % 8 == 0 ? id < 4 * MANY : id - (UINT64_C(1) << 40) < 4 * MANY);
    if (named % 2) HOLDS(pull(SERVER, id).kind == H3_HEAD);
    named++;
  }
  HOLDS(named == MANY);
  for (named = 0, id = 0; h3_next_unblocked(&ends[SERVER], id, &id) == H3_OK; named++) HOLDS(pull(SERVER, id).kind == H3_HEAD);
  HOLDS(named == MANY / 2);
  h3_free(&ends[SERVER]);
}

int main(void) {
  begin_request(&request, "GET");
  begin_response(&response, "200");
  of_types();
  of_open_streams();
  of_ended_halves();
  of_malformed_messages();
  of_refusals();
  of_both_calls();
  of_memory();
  of_ids();
  of_ids_without_memory();
  of_unblocked();
  of_many_unblocked();
  if (!bad) puts("ok streams: the types of the peer's streams, streams that are given up both ways, requests by their ids, and streams that waited");
  return bad;
}
