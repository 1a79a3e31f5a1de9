/* PRIORITY_UPDATE frames (RFC 9218, section 7.2), if `priority_updates` is set: what each closes the connection for, at once and byte by byte; which
 * priority counts; what waits for its stream; what a client writes; and that memory that is refused loses nothing. Without the choice they are skipped.
 * One line 'ok NAME' or 'failed NAME'. */
#define TEST "priority_updates"
#include "field_list.h"
#include "pair.h"

enum { FRAME_UNEXPECTED = 0x105, FRAME_ERROR = 0x106, EXCESSIVE_LOAD = 0x107, ID_ERROR = 0x108, MISSING_SETTINGS = 0x10a, GENERAL = 0x101 };
enum { LIMIT = 16384, NO_PRIORITY = -1 };

static field_list request, response;

/* ---- memory that is refused ---- */

static int refuses;
void *__real_malloc(size_t);
void *__real_realloc(void *, size_t);
void *__wrap_malloc(size_t);
void *__wrap_realloc(void *, size_t);
void *__wrap_malloc(size_t size) { return refuses ? NULL : __real_malloc(size); }
void *__wrap_realloc(void *block, size_t size) { return refuses ? NULL : __real_realloc(block, size); }

/* ---- one endpoint, and bytes that are given by hand ---- */

#define SETTINGS "\0\4\0"
#define UPDATE "\x80\x0f\7\0"
#define PUSH_UPDATE "\x80\x0f\7\1"
#define BYTES(text) text, sizeof(text) - 1

static uint64_t control_of(int side) { return side == CLIENT ? 3 : 2; }

static void make(int side, uint64_t updates, int strict) {
  h3_config config;
  h3_config_default(&config);
  HOLDS(config.priority_updates == 100);
  config.server = (uint64_t)side;
  config.priority_updates = updates;
  config.strict_connection = (uint64_t)strict;
  config.max_field_section_size = 1000;
  config.unfinished_limit = LIMIT;
  h3_free(&ends[side]);
  ends[side] = (h3_endpoint)H3_NONE_YET;
  IS(h3_new(&ends[side], &config, NULL), H3_OK);
}

/* the urgency, and 8 more if it is incremental */
static int counts(int side, uint64_t id) {
  uint32_t urgency = 77, incremental = 77;
  uint32_t n = h3_priority(&ends[side], id, &urgency, &incremental);
  if (n == H3_OK) return (int)(urgency + 8 * incremental);
  IS(n, H3_NOT_OPEN);
  HOLDS(urgency == 77 && incremental == 77);
  return NO_PRIORITY;
}

/* the bytes behind the settings of the peer's control stream close the connection with this code, or with none */
static void closes(int side, uint64_t updates, const char *bytes, size_t len, uint64_t code) {
  uint64_t detail = 0;
  for (int strict = 0; strict < 2; strict++) {
    make(side, updates, strict);
    IS(h3_deliver(&ends[side], control_of(side), SETTINGS, 3, NULL), H3_OK);
    IS(h3_deliver(&ends[side], control_of(side), bytes, len, &detail), code ? H3_CONNECTION : H3_OK);
    HOLDS(detail == code);
    make(side, updates, strict);
    IS(h3_deliver(&ends[side], control_of(side), SETTINGS, 3, NULL), H3_OK);
    uint32_t n = H3_OK;
    for (size_t i = 0; i < len && n == H3_OK; i++) n = h3_deliver(&ends[side], control_of(side), bytes + i, 1, &detail);
    IS(n, code ? H3_CONNECTION : H3_OK);
    HOLDS(detail == code);
  }
}

static void of_rows(void) {
  static const struct {
    const char *bytes;
    size_t len;
    uint64_t code;
  } of[] = {
      {BYTES(UPDATE "\4\0u=1"), 0},
      {BYTES(UPDATE "\2\4i"), 0},
      {BYTES(UPDATE "\1\0"), 0},
      {BYTES(UPDATE "\0"), FRAME_ERROR},
      {BYTES(UPDATE "\1\x40"), FRAME_ERROR},
      {BYTES(UPDATE "\2\x80\0"), FRAME_ERROR},
      {BYTES(PUSH_UPDATE "\0"), FRAME_ERROR},
      {BYTES(UPDATE "\4\1u=1"), ID_ERROR},
      {BYTES(UPDATE "\4\2u=1"), ID_ERROR},
      {BYTES(UPDATE "\4\3u=1"), ID_ERROR},
      {BYTES(UPDATE "\4\5u=,"), ID_ERROR}, /* ahead of what its text is */
      {BYTES(PUSH_UPDATE "\4\0u=1"), ID_ERROR},
      {BYTES(PUSH_UPDATE "\4\0U=1"), ID_ERROR},
      {BYTES(UPDATE "\4\0U=1"), GENERAL},
      {BYTES(UPDATE "\4\0u=1" UPDATE "\5\4u=1,"), GENERAL},
      {BYTES(UPDATE "\5\0\0u=1"), GENERAL}, /* all behind the id is text */
      {BYTES(UPDATE "\4\0u=8"), 0},
      {BYTES(UPDATE "\5\x40\0u=1"), 0}, /* an id in two bytes */
      {BYTES(UPDATE "\x80\0\x40\1"), EXCESSIVE_LOAD}, /* by its head */
      {BYTES(PUSH_UPDATE "\x80\0\x40\1"), EXCESSIVE_LOAD},
      {BYTES(UPDATE "\x80\0\x40\0"), 0}, /* so long it may be */
      {BYTES("\x80\x0f\7\2\4\0U=1"), 0}, /* another type */
  };
  for (size_t i = 0; i < sizeof of / sizeof *of; i++) {
    closes(SERVER, 100, of[i].bytes, of[i].len, of[i].code);
    closes(SERVER, 1, of[i].bytes, of[i].len, of[i].code);
    closes(SERVER, 0, of[i].bytes, of[i].len, 0); /* of an unknown type */
    closes(CLIENT, 0, of[i].bytes, of[i].len, 0);
  }
  closes(CLIENT, 100, BYTES(UPDATE "\4\0u=1"), FRAME_UNEXPECTED);
  closes(CLIENT, 100, BYTES(PUSH_UPDATE "\4\0u=1"), FRAME_UNEXPECTED);
  closes(CLIENT, 100, BYTES(UPDATE "\0"), FRAME_ERROR);
  closes(CLIENT, 100, BYTES(UPDATE "\x80\0\x40\1"), EXCESSIVE_LOAD);
}

/* in front of SETTINGS each is another frame */
static void of_first_frames(void) {
  static const struct {
    const char *bytes;
    size_t len;
  } of[] = {{BYTES("\0" UPDATE "\4\0u=1")}, {BYTES("\0" UPDATE "\0")}, {BYTES("\0" PUSH_UPDATE "\4\0u=1")}, {BYTES("\0" UPDATE "\4\0U=1")}};
  for (size_t i = 0; i < sizeof of / sizeof *of; i++)
    for (int side = 0; side < 2; side++) {
      uint64_t detail = 0;
      make(side, 100, 0);
      IS(h3_deliver(&ends[side], control_of(side), of[i].bytes, of[i].len, &detail), H3_CONNECTION);
      HOLDS(detail == MISSING_SETTINGS);
      make(side, 0, 0);
      IS(h3_deliver(&ends[side], control_of(side), of[i].bytes, of[i].len, NULL), H3_OK);
      IS(h3_deliver(&ends[side], control_of(side), "\4\0", 2, NULL), H3_OK);
    }
}

/* Pulls of the stream answer this code, or nothing. */
static void pulls(int side, uint64_t code) {
  h3_item item = {0};
  IS(h3_pull(&ends[side], 0, &item), H3_OK);
  HOLDS(item.kind == (code ? H3_FAULT_CONNECTION : H3_PENDING));
  if (code) HOLDS(item.number == code);
}

/* On a request stream none may stand: in front of the head, behind it, at either side. */
static void of_request_streams(void) {
  static const struct {
    const char *bytes;
    size_t len;
    uint64_t code;
  } of[] = {
      {BYTES(UPDATE "\4\0u=1"), FRAME_UNEXPECTED},
      {BYTES(PUSH_UPDATE "\4\0u=1"), FRAME_UNEXPECTED},
      {BYTES(UPDATE "\0"), FRAME_ERROR},
      {BYTES(UPDATE "\x80\0\x40\1"), EXCESSIVE_LOAD},
  };
  for (size_t i = 0; i < sizeof of / sizeof *of; i++)
    for (int side = 0; side < 2; side++)
      for (int updates = 0; updates < 2; updates++)
        for (int cut = 0; cut < 2; cut++) {
          uint64_t id;
          make(side, (uint64_t)(100 * updates), 1);
          if (side == CLIENT) IS(h3_open_request(&ends[side], &id, NULL), H3_OK);
          for (size_t at = 0; at < of[i].len; at += cut ? 1 : of[i].len)
            IS(h3_deliver(&ends[side], 0, of[i].bytes + at, cut ? 1 : of[i].len, NULL), H3_OK);
          pulls(side, updates ? of[i].code : 0);
        }
}

/* ---- a client and a server ---- */

static void meet(uint64_t updates) {
  h3_config config;
  h3_config_default(&config);
  config.priority_updates = updates;
  for (int side = 0; side < 2; side++) {
    config.server = (uint64_t)side;
    h3_free(&ends[side]);
    ends[side] = (h3_endpoint)H3_NONE_YET;
    IS(h3_new(&ends[side], &config, NULL), H3_OK);
  }
  carry_own();
}

/* a request on the next stream, of which nothing has come */
static uint64_t ask(void) {
  uint64_t id = 1;
  IS(h3_open_request(&ends[CLIENT], &id, NULL), H3_OK);
  IS(send_list(&ends[CLIENT], id, &request), H3_OK);
  return id;
}

static void come(uint64_t id) {
  carry_own();
  carry(CLIENT, id);
  carry_own();
}

static void update(uint64_t id, uint32_t urgency, uint32_t incremental) {
  IS(h3_send_priority(&ends[CLIENT], id, urgency, incremental, NULL), H3_OK);
  carry(CLIENT, 2);
}

static void answer(uint64_t id, size_t len) {
  static uint8_t body[1000];
  IS(send_list(&ends[SERVER], id, &response), H3_OK);
  IS(h3_send_body(&ends[SERVER], id, body, len, NULL), H3_OK);
  carry_own();
}

static int64_t next(void) {
  uint64_t id;
  return h3_next_by_priority(&ends[SERVER], &id) == H3_OK ? (int64_t)id : -1;
}

static void all_sent(uint64_t id) {
  h3_stream_state state;
  IS(h3_stream(&ends[SERVER], id, &state), H3_OK);
  IS(h3_advance(&ends[SERVER], id, state.waiting), H3_OK);
}

/* The own priority counts, else the last update, else the field of the request, else urgency 3. */
static void of_sources(void) {
  meet(100);
  for (int i = 0; i < 8; i++) come(ask());
  HOLDS(counts(SERVER, 0) == 3);
  for (int used = 0; used < 2; used++) { /* whether h3_next_by_priority used it */
    uint64_t id = 4 * (uint64_t)used, other = 8 + id;
    IS(h3_set_initial_priority(&ends[SERVER], id, 1, 1, NULL), H3_OK);
    HOLDS(counts(SERVER, id) == 9);
    update(id, 5, 0); /* whole: what it leaves out has its default */
    if (used) next();
    HOLDS(counts(SERVER, id) == 5);
    IS(h3_set_initial_priority(&ends[SERVER], id, 2, 0, NULL), H3_OK); /* the update counts before it */
    HOLDS(counts(SERVER, id) == 5);
    next();
    HOLDS(counts(SERVER, id) == 5);
    update(id, 6, 1);
    HOLDS(counts(SERVER, id) == 14);
    if (used) next();
    IS(h3_set_priority(&ends[SERVER], id, 0, 0, NULL), H3_OK);
    HOLDS(counts(SERVER, id) == 0);
    update(id, 7, 1); /* for good */
    if (used) next();
    IS(h3_set_initial_priority(&ends[SERVER], id, 2, 0, NULL), H3_OK);
    HOLDS(counts(SERVER, id) == 0);
    IS(h3_set_priority(&ends[SERVER], id, 4, 0, NULL), H3_OK);
    HOLDS(counts(SERVER, id) == 4);
    update(other, 5, 0); /* the other way round */
    if (used) next();
    IS(h3_set_initial_priority(&ends[SERVER], other, 1, 0, NULL), H3_OK);
    HOLDS(counts(SERVER, other) == 5);
  }
  HOLDS(counts(SERVER, 16) == 3);
  HOLDS(counts(SERVER, 400) == NO_PRIORITY);
  HOLDS(counts(CLIENT, 0) == 3); /* what a client sends counts at its server */
  drop();
}

/* An update changes what goes next, and its turns count. */
static void of_turns(void) {
  meet(100);
  for (int i = 0; i < 4; i++) {
    uint64_t id = ask();
    come(id);
    answer(id, 500);
  }
  for (int i = 0; i < 2; i++) {
    HOLDS(next() == 0);
    IS(h3_advance(&ends[SERVER], 0, 1), H3_OK);
  }
  update(12, 1, 0);
  HOLDS(next() == 12);
  update(12, 3, 1);
  update(8, 3, 1);
  const int64_t turns[] = {0, 8, 12, 0, 8, 12};
  for (size_t i = 0; i < sizeof turns / sizeof *turns; i++) {
    HOLDS(next() == turns[i]);
    IS(h3_advance(&ends[SERVER], (uint64_t)turns[i], 1), H3_OK);
  }
  update(4, 0, 0);
  update(4, 7, 0); /* the last one counts */
  HOLDS(next() == 0);
  IS(h3_set_priority(&ends[SERVER], 0, 5, 0, NULL), H3_OK);
  update(0, 0, 0);
  HOLDS(next() == 8 || next() == 12);
  drop();
}

/* An update of a stream of which nothing came waits: one of each, and of no more than so many. */
static void of_waiting(void) {
  for (int used = 0; used < 2; used++) {
    meet(3);
    for (int i = 0; i < 6; i++) ask();
    for (uint32_t i = 0; i < 3; i++) update(4 * i, i, 0);
    if (used) next();
    update(4, 6, 1);  /* in the place of an earlier one */
    update(16, 0, 0); /* dropped: so many wait already */
    if (used) next();
    for (uint64_t id = 0; id < 24; id += 4) HOLDS(counts(SERVER, id) == NO_PRIORITY);
    for (uint64_t id = 20;; id -= 4) {
      come(id);
      if (id == 0) break;
    }
    HOLDS(counts(SERVER, 0) == 0 && counts(SERVER, 4) == 14 && counts(SERVER, 8) == 2);
    HOLDS(counts(SERVER, 12) == 3 && counts(SERVER, 16) == 3);
    answer(16, 10), answer(8, 10), answer(0, 10), answer(4, 10);
    HOLDS(next() == 0);
    for (uint64_t id = 0; id < 24; id += 4) { /* there is room again */
      update(id, 7 - (uint32_t)id / 4, 0);
      HOLDS(next() >= 0);
    }
    for (uint64_t id = 0; id < 24; id += 4) HOLDS(counts(SERVER, id) == 7 - (int)id / 4);
    HOLDS(next() == 16);
    drop();
  }
  /* as many as are known, and no more than 128 */
  const uint64_t most[] = {1, 100, 128, 129, ~0ull};
  for (size_t i = 0; i < sizeof most / sizeof *most; i++) {
    uint64_t kept = most[i] < 128 ? most[i] : 128;
    meet(most[i]);
    for (int k = 0; k < 130; k++) ask();
    for (uint64_t k = 0; k < 130; k++) update(4 * k, 1, 0);
    for (uint64_t k = 0; k < 130; k++) {
      come(4 * k);
      HOLDS(counts(SERVER, 4 * k) == (k < kept ? 1 : 3));
    }
    drop();
  }
}

/* An update of a stream on which sending has ended is dropped, whether that is over or not. */
static void of_ended(void) {
  meet(1);
  for (int i = 0; i < 4; i++) {
    uint64_t id = ask();
    if (i != 2) IS(h3_finish(&ends[CLIENT], id, NULL), H3_OK);
    come(id);
    HOLDS(pull(SERVER, id).kind == H3_HEAD);
    if (i != 2) HOLDS(pull(SERVER, id).kind == H3_END);
    carry_own();
    answer(id, 10);
    all_sent(id);
  }
  for (uint64_t id = 0; id < 16; id += 4) {
    if (id < 12) IS(h3_finish(&ends[SERVER], id, NULL), H3_OK);
    if (id < 12) IS(h3_end_taken(&ends[SERVER], id), H3_OK);
    if (id == 12) IS(h3_reset(&ends[SERVER], id, NULL), H3_OK);
    update(id, 1, 0);
    HOLDS(counts(SERVER, id) == 3);
    HOLDS(next() == -1);
    HOLDS(counts(SERVER, id) == 3);
  }
  uint64_t id = ask();
  come(id);
  update(id, 1, 0); /* there is room: nothing waits */
  HOLDS(counts(SERVER, id) == 1);
  drop();
}

/* ---- what a client writes ---- */

static void of_bytes(void) {
  static const struct {
    uint32_t urgency, incremental;
    const char *bytes;
    size_t len;
  } of[] = {
      {1, 1, BYTES(UPDATE "\7\0u=1, i")},
      {3, 0, BYTES(UPDATE "\4\0u=3")},
      {7, 0, BYTES(UPDATE "\4\0u=7")},
      {0, 1, BYTES(UPDATE "\7\0u=0, i")},
  };
  uint8_t bytes[100];
  size_t n;
  uint32_t fin;
  for (size_t i = 0; i < sizeof of / sizeof *of; i++) {
    meet(0); /* it needs no choice */
    ask();
    IS(h3_send_priority(&ends[CLIENT], 0, of[i].urgency, of[i].incremental, NULL), H3_OK);
    IS(h3_outgoing(&ends[CLIENT], 2, bytes, sizeof bytes, &n, NULL, &fin), H3_OK);
    HOLDS(n == of[i].len && memcmp(bytes, of[i].bytes, n) == 0);
    come(0);
    HOLDS(counts(SERVER, 0) == 3); /* of an unknown type */
    drop();
  }
  meet(100);
  for (int i = 0; i < 20; i++) ask();
  carry(CLIENT, 2);
  IS(h3_goaway(&ends[CLIENT], 9, NULL), H3_OK); /* each behind what was written before it */
  IS(h3_send_priority(&ends[CLIENT], 76, 2, 0, NULL), H3_OK);
  IS(h3_goaway(&ends[CLIENT], 8, NULL), H3_OK);
  IS(h3_outgoing(&ends[CLIENT], 2, bytes, sizeof bytes, &n, NULL, &fin), H3_OK);
  HOLDS(n == 16 && memcmp(bytes, "\7\1\x9" UPDATE "\5\x40\x4cu=2\7\1\x8", n) == 0);
  come(76);
  HOLDS(counts(SERVER, 76) == 2);
  drop();
}

static void of_refusals(void) {
  uint64_t detail = 1;
  uint32_t urgency = 9, incremental = 9;
  meet(100);
  come(ask());
  IS(h3_send_priority(&ends[CLIENT], 1ull << 62, 0, 0, &detail), H3_ARGUMENT);
  IS(h3_send_priority(&ends[CLIENT], 0, 8, 0, &detail), H3_ARGUMENT);
  IS(h3_send_priority(&ends[CLIENT], 0, 256, 0, &detail), H3_ARGUMENT);
  IS(h3_send_priority(&ends[CLIENT], 0, 0, 2, &detail), H3_ARGUMENT);
  IS(h3_send_priority(&ends[SERVER], 0, 0, 0, &detail), H3_NOT_CLIENT);
  IS(h3_send_priority(&ends[SERVER], 1, 0, 0, &detail), H3_NOT_CLIENT);
  IS(h3_send_priority(&ends[CLIENT], 2, 0, 0, &detail), H3_NOT_REQUEST_ID);
  IS(h3_send_priority(&ends[CLIENT], 4, 0, 0, &detail), H3_NOT_OPEN);
  answer(0, 10);
  IS(h3_finish(&ends[SERVER], 0, NULL), H3_OK);
  IS(h3_send_priority(&ends[CLIENT], 0, 0, 0, &detail), H3_OK);
  carry(SERVER, 0);
  IS(h3_send_priority(&ends[CLIENT], 0, 0, 0, &detail), H3_ENDED); /* its end came */
  HOLDS(ask() == 4 && ask() == 8);
  IS(h3_cancel(&ends[CLIENT], 4, NULL), H3_OK);
  IS(h3_send_priority(&ends[CLIENT], 4, 0, 0, &detail), H3_ENDED);
  IS(h3_deliver_reset(&ends[CLIENT], 8, 7, NULL), H3_OK);
  IS(h3_send_priority(&ends[CLIENT], 8, 0, 0, &detail), H3_ENDED);
  IS(h3_set_initial_priority(&ends[SERVER], 1ull << 62, 0, 0, &detail), H3_ARGUMENT);
  IS(h3_set_initial_priority(&ends[SERVER], 0, 8, 0, &detail), H3_ARGUMENT);
  IS(h3_set_initial_priority(&ends[SERVER], 0, 0, 2, &detail), H3_ARGUMENT);
  IS(h3_set_initial_priority(&ends[SERVER], 3, 0, 0, &detail), H3_NOT_REQUEST_ID);
  IS(h3_set_initial_priority(&ends[SERVER], 400, 0, 0, &detail), H3_NOT_OPEN);
  HOLDS(ask() == 12);
  IS(h3_set_initial_priority(&ends[CLIENT], 12, 6, 0, &detail), H3_OK); /* for what it sends */
  HOLDS(counts(CLIENT, 12) == 6);
  IS(h3_priority(&ends[SERVER], 1ull << 62, &urgency, &incremental), H3_ARGUMENT);
  IS(h3_priority(&ends[SERVER], 0, NULL, &incremental), H3_ARGUMENT);
  IS(h3_priority(&ends[SERVER], 0, &urgency, NULL), H3_ARGUMENT);
  IS(h3_priority(&ends[SERVER], 3, &urgency, &incremental), H3_NOT_OPEN);
  HOLDS(urgency == 9 && incremental == 9);
  for (int side = 0; side < 2; side++)
    IS(h3_deliver(&ends[side], side == CLIENT ? 7 : 6, "\x3f\xff\xff\xff\xff\xff\xff\xff\xff\xff\xff", 11, NULL), H3_CONNECTION);
  IS(h3_send_priority(&ends[SERVER], 0, 0, 0, &detail), H3_CLOSED);
  IS(h3_send_priority(&ends[CLIENT], 3, 0, 0, &detail), H3_CLOSED);
  IS(h3_set_initial_priority(&ends[SERVER], 3, 0, 0, &detail), H3_CLOSED);
  HOLDS(counts(CLIENT, 12) == 6);
  h3_endpoint none = H3_NONE_YET;
  IS(h3_send_priority(&none, 0, 0, 0, NULL), H3_NO_ENDPOINT);
  IS(h3_set_initial_priority(&none, 0, 0, 0, NULL), H3_NO_ENDPOINT);
  IS(h3_priority(&none, 0, &urgency, &incremental), H3_NO_ENDPOINT);
  drop();
}

/* Where memory is refused an update stays, and counts once there is some. That of stream 0 to class (3, incremental) wants some: in the row of words the
 * place of that class is taken by the streams from 256 on of class (3, not incremental). */
static void of_memory(void) {
  uint8_t bytes[100];
  size_t n;
  uint32_t fin;
  meet(100);
  for (uint64_t id = 0; id <= 256; id += 4) {
    HOLDS(ask() == id);
    come(id);
  }
  answer(256, 10), answer(0, 10), answer(4, 10), answer(8, 10);
  IS(h3_send_priority(&ends[CLIENT], 4, 3, 1, NULL), H3_OK);
  IS(h3_send_priority(&ends[CLIENT], 8, 1, 0, NULL), H3_OK);
  IS(h3_outgoing(&ends[CLIENT], 2, bytes, sizeof bytes, &n, NULL, &fin), H3_OK);
  IS(h3_advance(&ends[CLIENT], 2, n), H3_OK);
  refuses = 1;
  uint32_t kept = h3_deliver(&ends[SERVER], 2, bytes, n, NULL);
  refuses = 0;
  if (kept == H3_MEMORY) kept = h3_deliver(&ends[SERVER], 2, bytes, n, NULL); /* nothing was taken */
  if (kept == H3_KEPT) IS(h3_deliver(&ends[SERVER], 2, "", 0, NULL), H3_OK);
  else IS(kept, H3_OK);
  HOLDS(counts(SERVER, 4) == 11 && counts(SERVER, 8) == 1);
  for (int times = 0; times < 2; times++) {
    refuses = 1;
    HOLDS(next() == 0); /* by what counted before */
    HOLDS(counts(SERVER, 4) == 11 && counts(SERVER, 8) == 1);
    IS(h3_set_initial_priority(&ends[SERVER], 0, 3, 1, NULL), H3_MEMORY);
    IS(h3_set_priority(&ends[SERVER], 0, 3, 1, NULL), H3_MEMORY);
    HOLDS(counts(SERVER, 0) == 3);
    refuses = 0;
  }
  HOLDS(next() == 8);
  all_sent(8);
  HOLDS(next() == 0);
  IS(h3_advance(&ends[SERVER], 0, 1), H3_OK);
  HOLDS(next() == 4);
  IS(h3_set_initial_priority(&ends[SERVER], 0, 3, 1, NULL), H3_OK);
  HOLDS(counts(SERVER, 0) == 11);
  uint64_t id = ask();
  refuses = 1;
  IS(h3_send_priority(&ends[CLIENT], id, 1, 0, NULL), H3_MEMORY);
  refuses = 0;
  IS(h3_outgoing(&ends[CLIENT], 2, bytes, sizeof bytes, &n, NULL, &fin), H3_OK);
  HOLDS(n == 0);
  IS(h3_send_priority(&ends[CLIENT], id, 1, 0, NULL), H3_OK);
  IS(h3_outgoing(&ends[CLIENT], 2, bytes, sizeof bytes, &n, NULL, &fin), H3_OK);
  HOLDS(n == 10 && memcmp(bytes, UPDATE "\5\x41\x04u=1", n) == 0);
  drop();
}

int main(void) {
  begin_request(&request, "GET");
  response.count = response.len = 0;
  add_field(&response, ":status", "200");
  of_rows();
  of_first_frames();
  of_request_streams();
  drop();
  of_sources();
  of_turns();
  of_waiting();
  of_ended();
  of_bytes();
  of_refusals();
  of_memory();
  if (!bad) puts("ok " TEST);
  return bad;
}
