/* A HEADERS frame that is longer than `unfinished_limit` is the fault of its request stream alone: the stream is given up with one
 * cancellation, nothing of it is kept, the credit of all that comes later is free at once, a server may still answer, and the other
 * streams and the connection go on: in one delivery, in pieces of 100 and byte by byte, pulled after each or at the end. A frame of the
 * control stream is the connection's. Linked with --wrap for malloc, realloc and free. One line 'ok NAME' or 'failed NAME'. */
#include "counted.h"
#define TEST "excess"
#include "field_list.h"
#include "pair.h"

/* what is expected of the library */
enum {
  SECTION = 16384,
  LIMIT = 4 * SECTION,     /* the least that is taken beside a section of that size */
  TOO_LONG = 19,           /* the h3_malformation of a HEADERS frame above the limit */
  EXCESSIVE_LOAD = 0x107,  /* RFC 9114, section 8.1 */
  KEPT_OF_A_STREAM = 4096, /* bytes that a stream may cost that was given up */
};

enum { PIECE = 512, PIECES = 40, FRAME = 5 + LIMIT + 1, AFTER = 10 };

static uint8_t frame[FRAME + AFTER];
static uint8_t content[PIECE];
static field_list request, response, came_last;

static void make(uint64_t limit) {
  for (int side = 0; side < 2; side++) {
    h3_config config;
    h3_config_default(&config);
    config.server = (uint64_t)side;
    config.max_field_section_size = SECTION;
    config.unfinished_limit = limit;
    config.shortest_strings = 0; /* so that a list may take more bytes than its size */
    IS(h3_new(&ends[side], &config, NULL), H3_OK);
  }
}

static uint64_t unread(int side, uint64_t id) {
  h3_stream_state stream;
  IS(h3_stream(&ends[side], id, &stream), H3_OK);
  return stream.unread;
}

static void deliver(int side, uint64_t id, const void *bytes, size_t len) { IS(h3_deliver(&ends[side], id, bytes, len, NULL), H3_OK); }

/* exactly these bytes wait on a stream; they are taken */
static void waits(int side, uint64_t id, const char *bytes, size_t len) {
  uint8_t came[64];
  size_t n = 0;
  IS(h3_outgoing(&ends[side], id, came, sizeof came, &n, NULL, NULL), H3_OK);
  HOLDS(n == len && !memcmp(came, bytes, len));
  IS(h3_advance(&ends[side], id, n), H3_OK);
}

/* a message with content of PIECES pieces, that goes over piece by piece while another stream has its fault */
typedef struct {
  uint64_t id;
  int from;
  unsigned out;
} transfer;

static void begin_transfer(transfer *t, int from, uint64_t id) {
  *t = (transfer){.id = id, .from = from};
  IS(send_list(&ends[from], id, from ? &response : &request), H3_OK);
  carry_own();
  carry(from, id);
  HOLDS(pull(!from, id).kind == H3_HEAD);
}

static void go_on(transfer *t) {
  uint8_t came[PIECE];
  size_t n = 0;
  if (t->out == PIECES) return;
  IS(h3_send_body(&ends[t->from], t->id, content, PIECE, NULL), H3_OK);
  carry(t->from, t->id);
  h3_item item = pull(!t->from, t->id);
  HOLDS(item.kind == H3_BODY && item.len == PIECE);
  IS(h3_item_bytes(&ends[!t->from], 0, came, PIECE, &n), H3_OK);
  HOLDS(n == PIECE && !memcmp(came, content, n));
  t->out++;
}

static void end_transfer(transfer *t) {
  while (t->out < PIECES) go_on(t);
  IS(h3_finish(&ends[t->from], t->id, NULL), H3_OK);
  carry(t->from, t->id);
  HOLDS(pull(!t->from, t->id).kind == H3_END);
}

/* the stream was given up: each pull tells it again, it cannot be given up once more, and nothing of it is held */
static void is_given_up(int side, uint64_t id) {
  for (int i = 0; i < 2; i++) {
    h3_item item = pull(side, id);
    HOLDS(item.kind == H3_FAULT_MALFORMED && item.number == TOO_LONG);
  }
  IS(h3_cancel(&ends[side], id, NULL), H3_ENDED);
  HOLDS(unread(side, id) == 0);
}

/* Delivers the frame and what stands after it in pieces of `step`; pulled after each, or when all came. `owed` is what a caller grants
 * credit by: of the bytes that came all are free but those that are held. Answers how many came with the piece whose pull told the fault.
 */
static size_t deliver_frame(int side, uint64_t id, size_t step, int pulls, transfer *beside, size_t *most) {
  size_t told = 0, before = live;
  for (size_t at = 0; at < sizeof frame; at += step) {
    size_t n = sizeof frame - at < step ? sizeof frame - at : step;
    deliver(side, id, frame + at, n);
    if (pulls) {
      uint32_t kind = pull(side, id).kind;
      if (kind == H3_FAULT_MALFORMED && !told) told = at + n;
      HOLDS(kind == (told ? H3_FAULT_MALFORMED : H3_PENDING));
    }
    HOLDS(unread(side, id) == (told ? 0 : at + n));
    if (told && live > before + *most) *most = live - before;
    if (at % 100 == 0) go_on(beside);
  }
  if (!pulls) told = pull(side, id).kind == H3_FAULT_MALFORMED ? sizeof frame : 0;
  return told;
}

/* A server gets the frame in the place of a request's head. An upload goes on beside it, and then a download. */
static void of_a_request(size_t step, int pulls) {
  transfer upload, download;
  uint64_t id[3];
  size_t most = 0;
  make(LIMIT);
  for (int i = 0; i < 3; i++) IS(h3_open_request(&ends[CLIENT], &id[i], NULL), H3_OK);
  begin_transfer(&upload, CLIENT, id[1]);
  waits(SERVER, h3_decoder_id(1), "", 0);
  size_t before = live;
  size_t told = deliver_frame(SERVER, id[0], step, pulls, &upload, &most);
  HOLDS(told == (!pulls || step > sizeof frame ? sizeof frame : step > 5 ? step : 5)); /* its type and length are five bytes */
  is_given_up(SERVER, id[0]);
  waits(SERVER, h3_decoder_id(1), "\x40", 1); /* one cancellation of stream 0 (RFC 9204, section 4.4.2) */
  end_transfer(&upload);
  IS(h3_deliver_end(&ends[SERVER], id[0], NULL), H3_OK);
  is_given_up(SERVER, id[0]);
  HOLDS(most <= KEPT_OF_A_STREAM && live <= before + KEPT_OF_A_STREAM);
  /* 431 (RFC 6585, section 5) */
  begin_response(&came_last, "431");
  IS(send_list(&ends[SERVER], id[0], &came_last), H3_OK);
  IS(h3_finish(&ends[SERVER], id[0], NULL), H3_OK);
  carry_own();
  IS(send_list(&ends[CLIENT], id[0], &request), H3_OK); /* so that the client has asked */
  carry(SERVER, id[0]);
  h3_item item = pull(CLIENT, id[0]);
  HOLDS(item.kind == H3_HEAD && item.status == 431);
  HOLDS(pull(CLIENT, id[0]).kind == H3_END);
  /* the connection goes on */
  IS(send_list(&ends[CLIENT], id[2], &request), H3_OK);
  carry_own();
  carry(CLIENT, id[2]);
  HOLDS(pull(SERVER, id[2]).kind == H3_HEAD);
  begin_transfer(&download, SERVER, id[2]);
  end_transfer(&download);
  waits(SERVER, h3_decoder_id(1), "", 0);
  drop();
}

/* A client gets it in the place of a response's head, or of its trailer, beside a download. What it sends goes on. */
static void of_a_response(size_t step, int after_content) {
  transfer download;
  uint64_t id[2];
  size_t most = 0;
  make(LIMIT);
  carry_own();
  for (int i = 0; i < 2; i++) {
    IS(h3_open_request(&ends[CLIENT], &id[i], NULL), H3_OK);
    IS(send_list(&ends[CLIENT], id[i], &request), H3_OK);
    carry(CLIENT, id[i]);
    carry_own();
    HOLDS(pull(SERVER, id[i]).kind == H3_HEAD);
  }
  begin_transfer(&download, SERVER, id[0]);
  if (after_content) {
    IS(send_list(&ends[SERVER], id[1], &response), H3_OK);
    IS(h3_send_body(&ends[SERVER], id[1], content, PIECE, NULL), H3_OK);
    carry_own();
    carry(SERVER, id[1]);
    HOLDS(pull(CLIENT, id[1]).kind == H3_HEAD);
    HOLDS(pull(CLIENT, id[1]).kind == H3_BODY);
  }
  carry_own();
  deliver_frame(CLIENT, id[1], step, 1, &download, &most);
  is_given_up(CLIENT, id[1]);
  waits(CLIENT, h3_decoder_id(0), "\x44", 1); /* stream 4 */
  end_transfer(&download);
  IS(h3_send_body(&ends[CLIENT], id[1], content, PIECE, NULL), H3_OK);
  carry(CLIENT, id[1]);
  HOLDS(pull(SERVER, id[1]).kind == H3_BODY);
  IS(h3_reset(&ends[CLIENT], id[1], NULL), H3_OK);
  waits(CLIENT, h3_decoder_id(0), "", 0);
  HOLDS(most <= KEPT_OF_A_STREAM);
  drop();
}

/* RFC 9204, sections 4.5.1 and 4.5.6: a literal of name "a", whose section has `len` bytes; such a list has a size of len + 25 */
static void literal_section(uint8_t *to, size_t len) {
  size_t left = len - 8 - 127;
  memset(to, 'v', len);
  memcpy(to,
      "\0\0\x21"
      "a\x7f",
      5);
  to[5] = (uint8_t)(0x80 | (left & 0x7f));
  to[6] = (uint8_t)(0x80 | (left >> 7 & 0x7f));
  to[7] = (uint8_t)(left >> 14);
}

/* A frame of exactly the limit is read; its list is above the section size that was announced, whose size is told. */
static void of_the_limit(void) {
  static uint8_t whole[5 + LIMIT] = {1, 0x80, 1, 0, 0};
  literal_section(whole + 5, LIMIT);
  make(LIMIT);
  deliver(SERVER, 0, whole, 4);
  HOLDS(pull(SERVER, 0).kind == H3_PENDING);
  deliver(SERVER, 0, whole + 4, LIMIT);
  HOLDS(pull(SERVER, 0).kind == H3_PENDING && unread(SERVER, 0) == LIMIT + 4);
  deliver(SERVER, 0, whole + 4 + LIMIT, 1);
  h3_item item = pull(SERVER, 0);
  HOLDS(item.kind == H3_TOO_LARGE_HEAD && item.number == LIMIT + 25 && unread(SERVER, 0) == 0);
  drop();
}

/* Lists that this library's client sends before the settings, above what the server takes: as encoded within the limit, the size is told,
 * and above it the stream is given up. Later lists are refused at the client. */
static void of_early_lists(void) {
  static uint8_t value[LIMIT];
  for (int longer = 0; longer < 2; longer++) {
    uint64_t id;
    make(LIMIT);
    memset(value, longer ? 0xf9 : 'a', sizeof value); /* 28 bits and 5 of the Huffman code (RFC 7541, appendix B) */
    begin_request(&came_last, "GET");
    add_bytes(&came_last, "x-list", value, longer ? 20000 : LIMIT);
    IS(h3_open_request(&ends[CLIENT], &id, NULL), H3_OK);
    IS(send_list(&ends[CLIENT], id, &came_last), H3_OK);
    carry_own();
    carry(CLIENT, id);
    h3_item item = pull(SERVER, id);
    HOLDS(item.kind == (longer ? H3_FAULT_MALFORMED : H3_TOO_LARGE_HEAD));
    HOLDS(item.number == (longer ? TOO_LONG : size_of(&came_last)));
    IS(h3_open_request(&ends[CLIENT], &id, NULL), H3_OK);
    IS(send_list(&ends[CLIENT], id, &came_last), H3_TOO_LARGE);
    IS(send_list(&ends[CLIENT], id, &request), H3_OK);
    carry_own();
    carry(CLIENT, id);
    HOLDS(pull(SERVER, id).kind == H3_HEAD);
    drop();
  }
}

int main(void) {
  static const size_t steps[] = {FRAME + AFTER, 100, 1};
  memcpy(frame, "\1\x80\1\0\1", 5);
  literal_section(frame + 5, LIMIT + 1);
  memcpy(frame + FRAME,
      "\0\x08"
      "is later",
      AFTER); /* DATA */
  memset(content, 'c', sizeof content);
  begin_request(&request, "POST");
  begin_response(&response, "200");
  add_field(&response, "x-name", "a value that is inserted");
  of_the_limit();
  of_early_lists();
  for (size_t i = 0; i < 3 && !bad; i++) {
    of_a_request(steps[i], 0);
    of_a_request(steps[i], 1);
    of_a_response(steps[i], 0);
    of_a_response(steps[i], 1);
  }
  if (!bad) puts("ok excess: a HEADERS frame above the limit is the fault of its stream, however it is cut, and all else goes on");
  return bad;
}
