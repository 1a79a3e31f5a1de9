/* Streams of WebTransport sessions (draft-ietf-webtrans-http3-02): which are opened, with which ids and first bytes; what goes over, both ways and in any pieces; ends,
 * resets and cancellations; whose turn it is; that memory that is refused loses nothing. Without the choice nothing is other than before. Linked with --wrap for malloc
 * and realloc. One line 'ok NAME' or 'failed NAME'. */
#define TEST "sessions"
#include "pair.h"
#include <stdlib.h>
#include <string.h>

#define BYTES(text) text, sizeof(text) - 1

/* ---- memory that is refused: from the next call on so many are not ---- */

static int64_t left = -1;
void *__real_malloc(size_t);
void *__real_realloc(void *, size_t);
void *__wrap_malloc(size_t);
void *__wrap_realloc(void *, size_t);
static int refuses(void) { return left >= 0 && left-- <= 0 ? (left = 0, 1) : 0; }
void *__wrap_malloc(size_t size) { return refuses() ? NULL : __real_malloc(size); }
void *__wrap_realloc(void *block, size_t size) { return refuses() ? NULL : __real_realloc(block, size); }

/* ---- a session ---- */

static void make(int side, int sessions, int settings) {
  h3_config config;
  h3_config_default(&config);
  HOLDS(config.sessions == 0);
  config.server = (uint64_t)side;
  config.sessions = (uint64_t)sessions;
  config.webtransport = config.datagram = config.extended_connect = (uint64_t)settings;
  config.max_webtransport_sessions = 4;
  h3_free(&ends[side]);
  IS(h3_new(&ends[side], &config, NULL), H3_OK);
}

static void send_head(int side, uint64_t id, const char *const *texts, size_t count) {
  h3_field_size sizes[8];
  char bytes[400] = "";
  size_t len = 0;
  for (size_t i = 0; i < count; i++) {
    sizes[i] = (h3_field_size){strlen(texts[2 * i]), strlen(texts[2 * i + 1])};
    len += (size_t)snprintf(bytes + len, sizeof bytes - len, "%s%s", texts[2 * i], texts[2 * i + 1]);
  }
  IS(h3_send_head(&ends[side], id, sizes, NULL, count, bytes, len, NULL), H3_OK);
}

static const char *const CONNECT[] = {":method", "CONNECT", ":scheme", "https", ":authority", "a", ":path", "/", ":protocol", "webtransport"};
static const char *const OKAY[] = {":status", "200"};

/* a client's request begins a session, which its server takes */
static uint64_t begin(void) {
  uint64_t id = 99;
  carry_own();
  IS(h3_open_request(&ends[CLIENT], &id, NULL), H3_OK);
  send_head(CLIENT, id, CONNECT, 5);
  carry_own();
  carry(CLIENT, id);
  IS(pull(SERVER, id).kind, H3_HEAD);
  send_head(SERVER, id, OKAY, 1);
  carry(SERVER, id);
  IS(pull(CLIENT, id).kind, H3_HEAD);
  carry_own();
  return id;
}

static void make_both(int sessions) {
  make(CLIENT, sessions, 1);
  make(SERVER, sessions, 1);
}

static uint64_t opened(int side, uint64_t session, uint32_t both_ways) {
  uint64_t id = 99;
  IS(h3_open_session_stream(&ends[side], session, both_ways, &id, NULL), H3_OK);
  return id;
}

static void waits(int side, uint64_t id, const char *bytes, size_t len) {
  uint8_t got[100];
  size_t n = 99, past = 99;
  IS(h3_outgoing(&ends[side], id, got, sizeof got, &n, &past, NULL), H3_OK);
  HOLDS(past == 0 && n == len && memcmp(got, bytes, len) == 0);
}

/* the session is told, then these bytes, and then this answer */
static void gives_raw(int side, uint64_t id, const char *bytes, size_t len, uint32_t then) {
  uint8_t got[100];
  size_t all = 0;
  h3_item item = {0};
  for (;;) {
    size_t n = 0;
    item = pull(side, id);
    if (item.kind != H3_RAW) break;
    IS(h3_item_bytes(&ends[side], 0, got + all, sizeof got - all, &n), H3_OK);
    HOLDS(n == item.len && n > 0);
    all += n;
  }
  HOLDS(all == len && memcmp(got, bytes, len) == 0);
  IS(item.kind, then);
}

static void tells(int side, uint64_t id, uint64_t session) {
  h3_item item = pull(side, id);
  HOLDS(item.kind == H3_SESSION && item.number == session);
}

static uint64_t next_to_send(int side, uint64_t from) {
  uint64_t id = 99;
  uint32_t n = h3_next_to_send(&ends[side], from, &id);
  if (n != H3_OK) IS(n, H3_NONE);
  return id;
}

static uint64_t next_of_session(int side, uint64_t session, uint64_t from) {
  uint64_t id = 99;
  uint32_t n = h3_next_of_session(&ends[side], session, from, &id);
  if (n != H3_OK) IS(n, H3_NONE);
  return id;
}

/* ---- rows ---- */

static void of_fronts(void) {
  uint64_t id = 99;
  make_both(1);
  HOLDS(begin() == 0);
  HOLDS(opened(CLIENT, 0, 1) == 4);
  waits(CLIENT, 4, BYTES("\x40\x41\x00"));
  HOLDS(opened(CLIENT, 0, 0) == 14);
  waits(CLIENT, 14, BYTES("\x40\x54\x00"));
  HOLDS(opened(CLIENT, 0, 0) == 18);
  HOLDS(opened(SERVER, 0, 1) == 1);
  waits(SERVER, 1, BYTES("\x40\x41\x00"));
  HOLDS(opened(SERVER, 0, 1) == 5);
  HOLDS(opened(SERVER, 0, 0) == 15);
  waits(SERVER, 15, BYTES("\x40\x54\x00"));
  HOLDS(opened(SERVER, 0, 0) == 19);
  /* requests and streams both ways have ids of one row */
  IS(h3_next_request_id(&ends[CLIENT], &id, NULL), H3_OK);
  HOLDS(id == 8);
  IS(h3_open_request(&ends[CLIENT], &id, NULL), H3_OK);
  HOLDS(id == 8);
  HOLDS(opened(CLIENT, 0, 1) == 12);
  IS(h3_open_request_at(&ends[CLIENT], 4, NULL), H3_OUT_OF_ORDER);
  IS(h3_send_head(&ends[CLIENT], 4, NULL, NULL, 0, NULL, 0, NULL), H3_NOT_OPEN);
  drop();
}

static void of_refusals(void) {
  uint64_t id = 99, detail = 99;
  h3_config config;
  make_both(1);
  HOLDS(begin() == 0);
  IS(h3_open_session_stream(&ends[CLIENT], UINT64_C(1) << 62, 1, &id, NULL), H3_ARGUMENT);
  IS(h3_open_session_stream(&ends[CLIENT], 0, 2, &id, NULL), H3_ARGUMENT);
  IS(h3_open_session_stream(&ends[CLIENT], 0, 1, NULL, NULL), H3_ARGUMENT);
  IS(h3_open_session_stream(&ends[CLIENT], 1, 1, &id, NULL), H3_NOT_REQUEST_ID);
  IS(h3_open_session_stream(&ends[CLIENT], 4, 1, &id, NULL), H3_NOT_OPEN);
  IS(h3_open_session_stream(&ends[SERVER], 4, 1, &id, NULL), H3_NOT_OPEN);
  IS(h3_send_raw(&ends[CLIENT], 0, "x", 1, NULL), H3_NOT_OPEN);
  IS(h3_send_raw(&ends[CLIENT], 14, "x", 1, NULL), H3_NOT_OPEN);
  IS(h3_send_raw(&ends[CLIENT], UINT64_C(1) << 62, "x", 1, NULL), H3_ARGUMENT);
  IS(h3_send_raw(&ends[CLIENT], 14, NULL, 1, NULL), H3_ARGUMENT);
  IS(h3_next_of_session(&ends[CLIENT], UINT64_C(1) << 62, 0, &id), H3_ARGUMENT);
  IS(h3_next_of_session(&ends[CLIENT], 0, 0, NULL), H3_ARGUMENT);
  IS(h3_next_of_session(&ends[CLIENT], 0, 0, &id), H3_NONE);
  HOLDS(id == 99);
  /* a session that has ended opens no streams */
  IS(h3_finish(&ends[CLIENT], 0, NULL), H3_OK);
  IS(h3_open_session_stream(&ends[CLIENT], 0, 0, &id, NULL), H3_NOT_OPEN);
  /* behind GOAWAY a client opens none both ways */
  IS(h3_shutdown_notice(&ends[SERVER], NULL), H3_OK);
  drop();
  /* the peer's settings have not come, or do not have those that are needed; the choice is off */
  make(CLIENT, 1, 1);
  make(SERVER, 1, 1);
  IS(h3_open_request(&ends[CLIENT], &id, NULL), H3_OK);
  IS(h3_open_session_stream(&ends[CLIENT], 0, 1, &id, NULL), H3_NO_SESSIONS);
  make(SERVER, 0, 0);
  carry_own();
  IS(h3_open_session_stream(&ends[CLIENT], 0, 1, &id, NULL), H3_NO_SESSIONS);
  IS(h3_open_session_stream(&ends[SERVER], 0, 1, &id, NULL), H3_NO_SESSIONS);
  drop();
  /* the settings go with the choice */
  for (int lacks = 0; lacks < 3; lacks++) {
    h3_config_default(&config);
    config.sessions = 1;
    config.webtransport = lacks != 0, config.datagram = lacks != 1, config.extended_connect = lacks != 2;
    IS(h3_new(&ends[CLIENT], &config, &detail), H3_SETTING);
    HOLDS(detail == 0x2b603742);
  }
  ends[CLIENT] = (h3_endpoint)H3_NONE_YET;
}

static void of_goaway(void) {
  uint64_t id = 99, detail = 99;
  make_both(1);
  HOLDS(begin() == 0);
  IS(h3_shutdown_notice(&ends[SERVER], NULL), H3_OK);
  carry_own();
  IS(h3_open_session_stream(&ends[CLIENT], 0, 1, &id, &detail), H3_GOING_AWAY);
  HOLDS(opened(CLIENT, 0, 0) == 14);
  HOLDS(opened(SERVER, 0, 1) == 1);
  drop();
}

/* a stream of each kind, from each side: what is sent on it comes, and the answer on one that goes both ways */
static void of_bytes(void) {
  make_both(1);
  HOLDS(begin() == 0);
  for (int side = 0; side < 2; side++)
    for (uint32_t both = 0; both < 2; both++) {
      uint64_t id = opened(side, 0, both);
      IS(h3_send_raw(&ends[side], id, "hello", 5, NULL), H3_OK);
      carry(side, id);
      tells(!side, id, 0);
      gives_raw(!side, id, "hello", 5, H3_PENDING);
      IS(h3_send_raw(&ends[side], id, "", 0, NULL), H3_OK);
      IS(h3_send_raw(&ends[side], id, " all", 4, NULL), H3_OK);
      IS(h3_finish(&ends[side], id, NULL), H3_OK);
      IS(h3_send_raw(&ends[side], id, "x", 1, NULL), H3_OUT_OF_ORDER);
      IS(h3_finish(&ends[side], id, NULL), H3_OUT_OF_ORDER);
      HOLDS(next_to_send(side, id) == id);
      carry(side, id);
      HOLDS(next_to_send(side, id) == id);
      IS(h3_end_taken(&ends[side], id), H3_OK);
      IS(h3_end_taken(&ends[side], id), H3_NONE);
      HOLDS(next_to_send(side, id) == 99);
      IS(h3_reset(&ends[side], id, NULL), H3_ENDED);
      gives_raw(!side, id, " all", 4, H3_END);
      IS(pull(!side, id).kind, H3_END);
      IS(h3_deliver(&ends[!side], id, "x", 1, NULL), H3_AFTER_END);
      if (!both) {
        IS(h3_send_raw(&ends[!side], id, "x", 1, NULL), H3_NOT_OPEN);
        IS(h3_finish(&ends[!side], id, NULL), H3_NOT_OPEN);
        continue;
      }
      IS(h3_send_raw(&ends[!side], id, "back", 4, NULL), H3_OK);
      waits(!side, id, BYTES("back"));
      IS(h3_finish(&ends[!side], id, NULL), H3_OK);
      carry(!side, id);
      IS(h3_end_taken(&ends[!side], id), H3_OK);
      gives_raw(side, id, "back", 4, H3_END);
      IS(pull(side, id).kind, H3_END);
    }
  drop();
}

/* in single bytes, with whatever front */
static void of_pieces(void) {
  static const char front[] = "\x80\x00\x00\x41\x40\x00raw";
  make_both(1);
  HOLDS(begin() == 0);
  for (size_t piece = 1; piece < sizeof front; piece++) {
    uint64_t id = 4 * piece + 1;
    for (size_t at = 0; at < sizeof front - 1; at += piece)
      IS(h3_deliver(&ends[CLIENT], id, front + at, sizeof front - 1 - at < piece ? sizeof front - 1 - at : piece, NULL), H3_OK);
    tells(CLIENT, id, 0);
    gives_raw(CLIENT, id, "raw", 3, H3_PENDING);
  }
  /* not whole */
  IS(pull(CLIENT, 101).kind, H3_PENDING);
  IS(h3_deliver(&ends[CLIENT], 101, "\x40", 1, NULL), H3_OK);
  IS(pull(CLIENT, 101).kind, H3_PENDING);
  IS(h3_deliver_end(&ends[CLIENT], 101, NULL), H3_OK);
  IS(pull(CLIENT, 101).kind, H3_NO_MESSAGES);
  drop();
}

static void of_faults(void) {
  uint64_t detail = 99;
  static const struct {
    const char *bytes;
    size_t len;
    uint64_t code;
  } rows[] = {{"\x00\x00", 2, 0x103}, {"\x01\x05hello", 7, 0x103}, {"\x40\x54\x00", 3, 0x103}, {"\x40\x41\x01", 3, 0x108}, {"\x40\x41\x02", 3, 0x108}};
  for (size_t i = 0; i < sizeof rows / sizeof *rows; i++) {
    make_both(1);
    HOLDS(begin() == 0);
    IS(h3_deliver(&ends[CLIENT], 1, rows[i].bytes, rows[i].len, &detail), H3_CONNECTION);
    HOLDS(detail == rows[i].code);
    IS(h3_open_session_stream(&ends[CLIENT], 0, 1, &detail, NULL), H3_CLOSED);
    IS(h3_send_raw(&ends[CLIENT], 0, "x", 1, NULL), H3_CLOSED);
    IS(pull(CLIENT, 1).kind, H3_FAULT_CONNECTION);
    drop();
  }
  /* with the choice off no byte comes there */
  make_both(0);
  HOLDS(begin() == 0);
  IS(h3_deliver(&ends[CLIENT], 1, "\x40", 1, &detail), H3_CONNECTION);
  HOLDS(detail == 0x103);
  drop();
  /* an id that is none of a session, where the endpoint reads the stream */
  make_both(1);
  HOLDS(begin() == 0);
  IS(h3_deliver(&ends[SERVER], 4, "\x40\x41\x01", 3, NULL), H3_OK);
  h3_item item = pull(SERVER, 4);
  HOLDS(item.kind == H3_FAULT_CONNECTION && item.number == 0x108);
  drop();
}

static void of_ends(void) {
  uint32_t stop = 99, reset = 99;
  make_both(1);
  HOLDS(begin() == 0);
  /* resets */
  uint64_t id = opened(SERVER, 0, 1);
  carry(SERVER, id);
  tells(CLIENT, id, 0);
  IS(h3_deliver(&ends[CLIENT], id, "x", 1, NULL), H3_OK);
  IS(h3_deliver_reset(&ends[CLIENT], id, 77, NULL), H3_OK);
  h3_item item = pull(CLIENT, id);
  HOLDS(item.kind == H3_FAULT_RESET && item.number == 77);
  IS(h3_deliver(&ends[CLIENT], id, "x", 1, NULL), H3_AFTER_END);
  IS(h3_send_raw(&ends[CLIENT], id, "on", 2, NULL), H3_OK);
  IS(h3_reset(&ends[CLIENT], id, NULL), H3_OK);
  IS(h3_reset(&ends[CLIENT], id, NULL), H3_ENDED);
  waits(CLIENT, id, "", 0);
  HOLDS(next_to_send(CLIENT, id) == 99);
  /* cancellations */
  id = opened(SERVER, 0, 1);
  carry(SERVER, id);
  tells(CLIENT, id, 0);
  IS(h3_cancel(&ends[CLIENT], id, NULL), H3_OK);
  IS(h3_cancel(&ends[CLIENT], id, NULL), H3_ENDED);
  IS(h3_deliver(&ends[CLIENT], id, "x", 1, NULL), H3_OK);
  IS(pull(CLIENT, id).kind, H3_FAULT_CANCELED);
  /* all streams of the session end */
  uint64_t one = opened(CLIENT, 0, 0), both = opened(CLIENT, 0, 1);
  HOLDS(next_of_session(CLIENT, 0, 0) == 1 && next_of_session(CLIENT, 0, 2) == both && next_of_session(CLIENT, 0, both + 1) == 5);
  HOLDS(next_of_session(CLIENT, 0, 6) == one && next_of_session(CLIENT, 0, one + 1) == 99 && next_of_session(CLIENT, 4, 0) == 99);
  IS(h3_close_stream(&ends[CLIENT], one, &stop, &reset, NULL), H3_OK);
  HOLDS(stop == 0 && reset == 1);
  IS(h3_close_stream(&ends[CLIENT], both, &stop, &reset, NULL), H3_OK);
  HOLDS(stop == 1 && reset == 1);
  IS(h3_close_stream(&ends[CLIENT], 1, &stop, &reset, NULL), H3_OK);
  HOLDS(stop == 0 && reset == 0);
  IS(h3_close_stream(&ends[CLIENT], 5, &stop, &reset, NULL), H3_OK);
  HOLDS(stop == 1 && reset == 1);
  HOLDS(next_of_session(CLIENT, 0, 0) == 99);
  IS(h3_send_raw(&ends[CLIENT], one, "x", 1, NULL), H3_NOT_OPEN);
  drop();
  /* at the server, streams of the client */
  make_both(1);
  HOLDS(begin() == 0);
  one = opened(CLIENT, 0, 0), both = opened(CLIENT, 0, 1);
  carry(CLIENT, one);
  carry(CLIENT, both);
  tells(SERVER, one, 0);
  tells(SERVER, both, 0);
  HOLDS(next_of_session(SERVER, 0, 0) == both && next_of_session(SERVER, 0, both + 1) == one);
  IS(h3_send_head(&ends[SERVER], both, NULL, NULL, 0, NULL, 0, NULL), H3_OUT_OF_ORDER);
  IS(h3_close_stream(&ends[SERVER], one, &stop, &reset, NULL), H3_OK);
  HOLDS(stop == 1 && reset == 0);
  IS(h3_close_stream(&ends[SERVER], both, &stop, &reset, NULL), H3_OK);
  HOLDS(stop == 1 && reset == 1);
  HOLDS(next_of_session(SERVER, 0, 0) == 99);
  drop();
}

static uint64_t unread(int side, uint64_t id) {
  h3_stream_state state;
  IS(h3_stream(&ends[side], id, &state), H3_OK);
  return state.unread;
}

static void closes(int side, uint64_t id, uint32_t stop_is, uint32_t reset_is) {
  uint32_t stop = 99, reset = 99;
  IS(h3_close_stream(&ends[side], id, &stop, &reset, NULL), H3_OK);
  HOLDS(stop == stop_is && reset == reset_is);
  HOLDS(next_to_send(side, id) != id && unread(side, id) == 0);
}

/* a stream of the peer that was opened for session 0, and these bytes came on it */
static uint64_t comes(int side, uint32_t both, const char *bytes, size_t len) {
  uint64_t id = opened(!side, 0, both);
  carry(!side, id);
  tells(side, id, 0);
  IS(h3_deliver(&ends[side], id, bytes, len, NULL), H3_OK);
  HOLDS(unread(side, id) == len);
  return id;
}

/* what came and was not pulled goes with its stream, also behind its end */
static void of_dropped(void) {
  for (int side = 0; side < 2; side++)
    for (uint32_t both = 0; both < 2; both++)
      for (int end = 0; end < 2; end++) {
        make_both(1);
        HOLDS(begin() == 0);
        uint64_t id = comes(side, both, BYTES("all of this"));
        if (end) IS(h3_deliver_end(&ends[side], id, NULL), H3_OK);
        closes(side, id, !end, both);
        HOLDS(pull(side, id).kind != H3_RAW && next_of_session(side, 0, 0) == 99);
        if (side == SERVER || !both) IS(h3_deliver(&ends[side], id, "more", 4, NULL), H3_AFTER_END); /* so nothing waits for its end */
        drop();
      }
}

/* nothing is kept of a stream that was closed: where QUIC did not take its FIN it is to be reset */
static void of_cut(void) {
  make_both(1);
  HOLDS(begin() == 0);
  for (uint32_t both = 0; both < 2; both++) {
    uint64_t id = opened(CLIENT, 0, both);
    IS(h3_finish(&ends[CLIENT], id, NULL), H3_OK);
    closes(CLIENT, id, both, 1); /* its front waits too */
    id = opened(CLIENT, 0, both);
    carry(CLIENT, id);
    IS(h3_finish(&ends[CLIENT], id, NULL), H3_OK);
    HOLDS(next_to_send(CLIENT, id) == id);
    closes(CLIENT, id, both, 1);
    id = opened(CLIENT, 0, both);
    carry(CLIENT, id);
    IS(h3_finish(&ends[CLIENT], id, NULL), H3_OK);
    IS(h3_end_taken(&ends[CLIENT], id), H3_OK);
    closes(CLIENT, id, both, 0);
    id = opened(CLIENT, 0, both);
    IS(h3_reset(&ends[CLIENT], id, NULL), H3_OK);
    closes(CLIENT, id, both, 0);
  }
  drop();
}

/* a stream of the peer is canceled as a request is, whichever way it goes */
static void of_canceled(void) {
  for (int side = 0; side < 2; side++)
    for (uint32_t both = 0; both < 2; both++) {
      make_both(1);
      HOLDS(begin() == 0);
      uint64_t id = comes(side, both, BYTES("all of this"));
      IS(h3_cancel(&ends[side], id, NULL), H3_OK);
      HOLDS(unread(side, id) == 0 && next_of_session(side, 0, 0) == id);
      IS(pull(side, id).kind, H3_FAULT_CANCELED);
      IS(h3_cancel(&ends[side], id, NULL), H3_ENDED);
      IS(h3_deliver(&ends[side], id, "more", 4, NULL), H3_OK);
      HOLDS(unread(side, id) == 0);
      IS(h3_deliver_end(&ends[side], id, NULL), H3_OK);
      IS(h3_deliver(&ends[side], id, "more", 4, NULL), H3_AFTER_END);
      IS(pull(side, id).kind, H3_FAULT_CANCELED);
      IS(h3_cancel(&ends[side], id, NULL), H3_ENDED);
      closes(side, id, 0, both);
      /* its end came, and was not pulled */
      id = comes(side, both, BYTES("all of this"));
      IS(h3_deliver_end(&ends[side], id, NULL), H3_OK);
      IS(h3_cancel(&ends[side], id, NULL), H3_OK);
      HOLDS(unread(side, id) == 0);
      IS(h3_deliver(&ends[side], id, "more", 4, NULL), H3_AFTER_END);
      IS(pull(side, id).kind, H3_FAULT_CANCELED);
      closes(side, id, 0, both);
      /* it was pulled, or a reset came */
      id = comes(side, both, "", 0);
      IS(h3_deliver_end(&ends[side], id, NULL), H3_OK);
      IS(pull(side, id).kind, H3_END);
      IS(h3_cancel(&ends[side], id, NULL), H3_ENDED);
      closes(side, id, 0, both);
      id = comes(side, both, BYTES("all of this"));
      IS(h3_deliver_reset(&ends[side], id, 7, NULL), H3_OK);
      IS(h3_cancel(&ends[side], id, NULL), H3_ENDED);
      closes(side, id, 0, both);
      /* one of this side alone */
      id = opened(side, 0, 0);
      IS(h3_cancel(&ends[side], id, NULL), H3_NOT_OPEN);
      IS(h3_cancel(&ends[side], id + 4, NULL), H3_NOT_OPEN);
      drop();
    }
}

static uint32_t drained(int side) {
  uint32_t is = 99;
  IS(h3_is_drained(&ends[side], &is), H3_OK);
  return is;
}

/* what waits on a stream of a session keeps a connection from being drained */
static void of_drained(void) {
  uint64_t ids[2];
  make_both(1);
  HOLDS(begin() == 0);
  for (int side = 0; side < 2; side++) ids[side] = opened(side, 0, 0);
  for (int side = 0; side < 2; side++) {
    IS(h3_finish(&ends[side], 0, NULL), H3_OK);
    carry(side, 0);
    IS(h3_end_taken(&ends[side], 0), H3_OK);
    IS(pull(!side, 0).kind, H3_END);
  }
  IS(h3_shutdown(&ends[SERVER], NULL), H3_OK);
  carry_own();
  for (int side = 0; side < 2; side++) {
    HOLDS(drained(side) == 0);
    carry(side, ids[side]);
    HOLDS(drained(side) == 1);
    IS(h3_finish(&ends[side], ids[side], NULL), H3_OK);
    HOLDS(drained(side) == 0);
    IS(h3_end_taken(&ends[side], ids[side]), H3_OK);
    HOLDS(drained(side) == 1);
  }
  drop();
}

/* behind a fault of the connection nothing counts as unread */
static void of_unread(void) {
  make_both(1);
  HOLDS(begin() == 0);
  uint64_t both = comes(CLIENT, 1, BYTES("raw")), one = comes(CLIENT, 0, BYTES("raw"));
  IS(h3_deliver(&ends[CLIENT], both + 4, "\x00\x00", 2, NULL), H3_CONNECTION);
  HOLDS(unread(CLIENT, both) == 0 && unread(CLIENT, one) == 0);
  drop();
}

/* a session is over once either side ends or resets its request's stream: no stream is opened then */
static void of_over(void) {
  for (int side = 0; side < 2; side++)
    for (int reset = 0; reset < 2; reset++)
      for (int own = 0; own < 2; own++) {
        uint64_t id = 99;
        int ends_it = own ? side : !side;
        make_both(1);
        HOLDS(begin() == 0);
        IS((reset ? h3_reset : h3_finish)(&ends[ends_it], 0, NULL), H3_OK);
        if (!own) IS(reset ? h3_deliver_reset(&ends[side], 0, 7, NULL) : h3_deliver_end(&ends[side], 0, NULL), H3_OK);
        for (uint32_t both = 0; both < 2; both++) IS(h3_open_session_stream(&ends[side], 0, both, &id, NULL), H3_NOT_OPEN);
        HOLDS(id == 99);
        drop();
      }
}

/* a half that was reset before it is known to be a session's stays so */
static void of_reset_before(void) {
  h3_stream_state state;
  make_both(1);
  HOLDS(begin() == 0);
  uint64_t id = opened(CLIENT, 0, 1);
  carry(CLIENT, id);
  IS(h3_reset(&ends[SERVER], id, NULL), H3_OK);
  tells(SERVER, id, 0);
  IS(h3_stream(&ends[SERVER], id, &state), H3_OK);
  HOLDS(state.is_reset == 1 && state.has_outgoing == 1);
  IS(h3_send_raw(&ends[SERVER], id, "x", 1, NULL), H3_OUT_OF_ORDER);
  IS(h3_reset(&ends[SERVER], id, NULL), H3_ENDED);
  closes(SERVER, id, 1, 0);
  drop();
}

static uint64_t next_by_priority(int side) {
  uint64_t id = 99;
  uint32_t n = h3_next_by_priority(&ends[side], &id);
  if (n != H3_OK) IS(n, H3_NONE);
  return id;
}

/* a half that was finished before: its FIN waits on, if QUIC did not take it */
static void of_finished_before(void) {
  for (int taken = 0; taken < 2; taken++) {
    uint8_t bytes[64];
    size_t n = 0;
    uint32_t fin = 0;
    make_both(1);
    HOLDS(begin() == 0);
    uint64_t id = opened(CLIENT, 0, 1);
    carry(CLIENT, id);
    send_head(SERVER, id, OKAY, 1);
    IS(h3_finish(&ends[SERVER], id, NULL), H3_OK);
    IS(h3_outgoing(&ends[SERVER], id, bytes, sizeof bytes, &n, NULL, &fin), H3_OK);
    HOLDS(n > 0 && fin == 1);
    IS(h3_advance(&ends[SERVER], id, n), H3_OK);
    if (taken) IS(h3_end_taken(&ends[SERVER], id), H3_OK);
    tells(SERVER, id, 0);
    HOLDS(next_by_priority(SERVER) == (taken ? 99 : id));
    IS(h3_send_raw(&ends[SERVER], id, "x", 1, NULL), H3_OUT_OF_ORDER);
    IS(h3_outgoing(&ends[SERVER], id, bytes, sizeof bytes, &n, NULL, &fin), H3_OK);
    HOLDS(n == 0 && fin == (uint32_t)!taken);
    IS(h3_end_taken(&ends[SERVER], id), taken ? H3_NONE : H3_OK);
    HOLDS(next_by_priority(SERVER) == 99 && next_to_send(SERVER, 0) == 99);
    closes(SERVER, id, 1, 0);
    drop();
  }
}

/* a stream that a server opened ends without a session: its client has sent nothing there, and QUIC is to end that half, too */
static void of_unheard(void) {
  for (int whole = 0; whole < 2; whole++) {
    uint32_t stop = 99, reset = 99;
    make_both(1);
    HOLDS(begin() == 0);
    IS(h3_deliver(&ends[CLIENT], 1, "\x40\x41\x00", whole ? 3 : 2, NULL), H3_OK);
    if (!whole) IS(h3_deliver_reset(&ends[CLIENT], 1, 7, NULL), H3_OK);
    HOLDS(pull(CLIENT, 1).kind == (whole ? H3_SESSION : H3_FAULT_RESET));
    IS(h3_close_stream(&ends[CLIENT], 1, &stop, &reset, NULL), H3_OK);
    HOLDS(stop == (uint32_t)whole && reset == 1);
    drop();
  }
}

static void of_turns(void) {
  static const uint64_t turns[] = {14, 8, 12, 8, 4, 8, 14, 8, 12, 8}; /* bytes of a request were taken before */
  make_both(1);
  HOLDS(begin() == 0);
  uint64_t a = opened(CLIENT, 0, 1), request = 99, b, c = opened(CLIENT, 0, 0);
  IS(h3_open_request(&ends[CLIENT], &request, NULL), H3_OK);
  b = opened(CLIENT, 0, 1);
  HOLDS(a == 4 && request == 8 && b == 12 && c == 14);
  send_head(CLIENT, request, CONNECT, 4 + 1);
  for (uint64_t own = next_by_priority(CLIENT); own % 4 == 2 && own < 14; own = next_by_priority(CLIENT)) carry(CLIENT, own);
  IS(h3_send_raw(&ends[CLIENT], a, "aaaaaaaa", 8, NULL), H3_OK);
  IS(h3_send_raw(&ends[CLIENT], b, "bbbbbbbb", 8, NULL), H3_OK);
  IS(h3_send_raw(&ends[CLIENT], c, "cccccccc", 8, NULL), H3_OK);
  for (size_t i = 0; i < sizeof turns / sizeof *turns; i++) {
    uint64_t id = next_by_priority(CLIENT);
    HOLDS(id == turns[i]);
    IS(h3_advance(&ends[CLIENT], id, 1), H3_OK);
  }
  IS(h3_hold(&ends[CLIENT], 8, 1, NULL), H3_OK);
  HOLDS(next_by_priority(CLIENT) == 4);
  IS(h3_hold(&ends[CLIENT], 4, 1, NULL), H3_OK);
  HOLDS(next_by_priority(CLIENT) == 14);
  IS(h3_hold(&ends[CLIENT], 4, 0, NULL), H3_OK);
  HOLDS(next_by_priority(CLIENT) == 4);
  IS(h3_hold(&ends[CLIENT], 18, 1, NULL), H3_NOT_OPEN);
  IS(h3_advance(&ends[CLIENT], 14, 100), H3_ARGUMENT);
  /* while new streams keep coming: of those that were there each has its turn again within four */
  IS(h3_advance(&ends[CLIENT], 4, 1), H3_OK);
  for (size_t i = 0; i < 4; i++) {
    static const uint64_t round[] = {18, 14, 12, 4};
    HOLDS(opened(CLIENT, 0, 0) == 18 + 4 * i);
    uint64_t id = next_by_priority(CLIENT);
    HOLDS(id == round[i]);
    IS(h3_advance(&ends[CLIENT], id, 1), H3_OK);
  }
  drop();
}

static void of_codes(void) {
  uint32_t number = 99;
  HOLDS(h3_webtransport_code(0) == UINT64_C(0x52e4a40fa8db) && h3_webtransport_code(30) == UINT64_C(0x52e4a40fa8fa));
  HOLDS(h3_webtransport_code(UINT32_MAX) == UINT64_C(0x52e4a40fa8db) + UINT32_MAX + UINT32_MAX / 30);
  IS(h3_webtransport_number(UINT64_C(0x52e4a40fa8da), &number), H3_NONE);
  IS(h3_webtransport_number(UINT64_C(0x52e4a40fa8f9), &number), H3_NONE); /* a reserved one */
  HOLDS(number == 99);
  for (uint64_t n = 0; n < UINT32_MAX; n += n < 1000 ? 1 : 7777777) {
    IS(h3_webtransport_number(h3_webtransport_code((uint32_t)n), &number), H3_OK);
    HOLDS(number == n && (h3_webtransport_code((uint32_t)n) - 0x21) % 0x1f != 0);
  }
  IS(h3_webtransport_number(h3_webtransport_code(UINT32_MAX) + 1, &number), H3_NONE);
  IS(h3_webtransport_number(0, &number), H3_NONE);
  IS(h3_webtransport_number(UINT64_C(0x52e4a40fa8db), NULL), H3_ARGUMENT);
}

/* each allocation that a call makes fails once: it says so, and then it is as if it had not been called */
static void of_memory(void) {
  for (int64_t fails = 0; fails < 10; fails++) {
    uint64_t id = 99, named = 99;
    make_both(1);
    HOLDS(begin() == 0);
    left = fails;
    uint32_t n = h3_open_session_stream(&ends[CLIENT], 0, 1, &id, NULL);
    left = -1;
    if (n != H3_OK) {
      IS(n, H3_MEMORY);
      HOLDS(opened(CLIENT, 0, 1) == 4);
    }
    waits(CLIENT, 4, BYTES("\x40\x41\x00"));
    left = fails;
    n = h3_send_raw(&ends[CLIENT], 4, "raw", 3, NULL);
    left = -1;
    if (n != H3_OK) {
      IS(n, H3_MEMORY);
      IS(h3_send_raw(&ends[CLIENT], 4, "raw", 3, NULL), H3_OK);
    }
    waits(CLIENT, 4, BYTES("\x40\x41\x00raw"));
    IS(h3_next_to_send(&ends[CLIENT], 3, &named), H3_OK);
    HOLDS(named == 4);
    carry(CLIENT, 4);
    HOLDS(h3_next_to_send(&ends[CLIENT], 3, &named) == H3_NONE || named != 4);
    HOLDS(opened(CLIENT, 0, 0) == 14 && opened(CLIENT, 0, 0) == 18);
    IS(h3_next_to_send(&ends[CLIENT], 12, &named), H3_OK);
    HOLDS(named == 14);
    for (named = next_by_priority(CLIENT); named % 4 == 2 && named < 14; named = next_by_priority(CLIENT)) carry(CLIENT, named);
    HOLDS(named == 18);
    IS(h3_advance(&ends[CLIENT], 18, 1), H3_OK);
    HOLDS(next_by_priority(CLIENT) == 14);
    IS(h3_advance(&ends[CLIENT], 14, 1), H3_OK);
    HOLDS(next_by_priority(CLIENT) == 18);
    left = fails;
    h3_item item = pull(SERVER, 4);
    left = -1;
    if (item.kind != H3_SESSION) {
      IS(item.kind, H3_FAULT_MEMORY);
      tells(SERVER, 4, 0);
    }
    gives_raw(SERVER, 4, "raw", 3, H3_PENDING);
    left = fails;
    n = h3_deliver(&ends[CLIENT], 1, "\x40\x41\x00x", 4, NULL);
    left = -1;
    if (n != H3_OK) {
      IS(n, H3_MEMORY);
      IS(h3_deliver(&ends[CLIENT], 1, "\x40\x41\x00x", 4, NULL), H3_OK);
    }
    tells(CLIENT, 1, 0);
    gives_raw(CLIENT, 1, "x", 1, H3_PENDING);
    drop();
  }
}

/* a call that closes a stream while allocations fail from this one on: whether it is out of memory. Then nothing has changed, and the call again answers what is due */
static int closes_at_last(int side, uint64_t id, int64_t fails, uint32_t stop_is, uint32_t reset_is) {
  uint32_t stop = 99, reset = 99;
  left = fails;
  uint32_t n = h3_close_stream(&ends[side], id, &stop, &reset, NULL);
  left = -1;
  if (n == H3_MEMORY) {
    HOLDS(stop == 99 && reset == 99 && unread(side, id) == 11 && next_of_session(side, 0, 0) == id);
    IS(pull(side, id).kind, H3_RAW);
    closes(side, id, stop_is, reset_is);
  } else {
    IS(n, H3_OK);
    HOLDS(stop == stop_is && reset == reset_is);
  }
  HOLDS(unread(side, id) == 0 && next_of_session(side, 0, 0) == 99 && pull(side, id).kind != H3_RAW);
  if (side == SERVER || reset_is == 0) IS(h3_deliver(&ends[side], id, "more", 4, NULL), H3_AFTER_END); /* its end is not waited for */
  return n == H3_MEMORY;
}

/* the first allocation fails; so many other streams were closed before, so that each list of bytes that wait is full once */
static void of_closed_later(void) {
  int later[2] = {0};
  for (int side = 0; side < 2; side++)
    for (uint32_t both = 0; both < 2; both++)
      for (uint32_t end = 0; end < 2; end++)
        for (int others = 0; others < 18; others++) {
          make_both(1);
          HOLDS(begin() == 0);
          for (int i = 0; i < others; i++) closes(side, comes(side, both, BYTES("other")), 1, both);
          uint64_t id = comes(side, both, BYTES("all of this"));
          if (end) IS(h3_deliver_end(&ends[side], id, NULL), H3_OK);
          later[end] += closes_at_last(side, id, 0, !end, both);
          drop();
        }
  HOLDS(later[0] > 0 && later[1] > 0);
}

/* bytes of another stream are kept at the server, as an allocation failed, and so many resets of others */
static void keep(int more) {
  uint32_t n = H3_MEMORY;
  for (uint64_t id = 402; id < 482 && n != H3_KEPT; id += 4) {
    n = H3_MEMORY;
    for (int64_t fails = 0; fails < 9 && n == H3_MEMORY; fails++) {
      left = fails;
      n = h3_deliver(&ends[SERVER], id, BYTES("\x40\x54\x00raw"), NULL);
      left = -1;
    }
  }
  IS(n, H3_KEPT);
  for (int i = 0; i < more; i++) {
    left = 0;
    n = h3_deliver_reset(&ends[SERVER], 802 + 4 * (uint64_t)i, 7, NULL);
    left = -1;
    HOLDS(n == H3_KEPT || n == H3_MEMORY);
  }
}

/* what is kept is read first: no other call has to */
static void of_closed_behind(void) {
  int later[2] = {0}, canceled = 0;
  for (uint32_t both = 0; both < 2; both++)
    for (uint32_t end = 0; end < 2; end++)
      for (int more = 0; more < 8; more++)
        for (int64_t fails = -1; fails < 3; fails++) {
          make_both(1);
          HOLDS(begin() == 0);
          uint64_t id = comes(SERVER, both, BYTES("all of this"));
          if (end) IS(h3_deliver_end(&ends[SERVER], id, NULL), H3_OK);
          keep(more);
          int is_later = closes_at_last(SERVER, id, fails, !end, both);
          HOLDS(fails >= 0 || !is_later);
          later[both] += is_later;
          drop();
        }
  for (int64_t fails = -1; fails < 3; fails++) {
    make_both(1);
    HOLDS(begin() == 0);
    uint64_t id = comes(SERVER, 0, BYTES("all of this"));
    keep(0);
    left = fails;
    uint32_t n = h3_cancel(&ends[SERVER], id, NULL);
    left = -1;
    HOLDS(n == H3_OK || (n == H3_MEMORY && fails >= 0 && unread(SERVER, id) == 11));
    if (n == H3_MEMORY) IS(h3_cancel(&ends[SERVER], id, NULL), H3_OK);
    canceled += n == H3_MEMORY;
    HOLDS(unread(SERVER, id) == 0);
    IS(pull(SERVER, id).kind, H3_FAULT_CANCELED);
    drop();
  }
  HOLDS(later[0] > 0 && later[1] > 0 && canceled > 0);
}

/* a fault in what is kept closes the connection, and the call says so: a second control stream */
static void of_closed_faulty(void) {
  for (uint32_t both = 0; both < 2; both++)
    for (int cancels = 0; cancels < 2 - (int)both; cancels++) {
      uint32_t stop = 99, reset = 99, n = H3_MEMORY;
      uint64_t code = 0;
      make_both(1);
      HOLDS(begin() == 0);
      uint64_t id = comes(SERVER, both, BYTES("all of this"));
      keep(0);
      for (int64_t fails = 0; fails < 9 && n == H3_MEMORY; fails++) {
        left = fails;
        n = h3_deliver(&ends[SERVER], 602, "", 1, NULL);
        left = -1;
      }
      IS(n, H3_KEPT);
      IS(cancels ? h3_cancel(&ends[SERVER], id, &code) : h3_close_stream(&ends[SERVER], id, &stop, &reset, &code), H3_CLOSED);
      HOLDS(code == H3_CODE_STREAM_CREATION_ERROR && stop == 99 && reset == 99);
      IS(pull(SERVER, id).kind, H3_FAULT_CONNECTION);
      drop();
    }
}

/* with the choice off a server reads what it read before, and answers nothing */
static void of_choice_off(void) {
  uint64_t id = 99;
  make_both(0);
  HOLDS(begin() == 0);
  IS(h3_deliver(&ends[SERVER], 4, "\x40\x41\x00hi", 5, NULL), H3_OK);
  tells(SERVER, 4, 0);
  gives_raw(SERVER, 4, "hi", 2, H3_PENDING);
  IS(h3_send_raw(&ends[SERVER], 4, "x", 1, NULL), H3_NOT_OPEN);
  IS(h3_next_of_session(&ends[SERVER], 0, 0, &id), H3_NONE);
  IS(h3_open_session_stream(&ends[SERVER], 0, 1, &id, NULL), H3_NO_SESSIONS);
  drop();
}

/* bytes of a session are one piece, whatever frames they may look like */
static void of_reads(void) {
  static const uint8_t zeros[100];
  uint8_t front[103] = {0x40, 0x41, 0x00}, got[100];
  size_t used = 0, n = 0;
  h3_item item;
  make_both(1);
  HOLDS(begin() == 0);
  HOLDS(opened(SERVER, 0, 1) == 1);
  IS(h3_read(&ends[CLIENT], 1, front, sizeof front, 0, &used, &item, NULL), H3_OK);
  HOLDS(item.kind == H3_SESSION && item.number == 0 && used == sizeof front);
  IS(h3_read(&ends[CLIENT], 1, NULL, 0, 0, &used, &item, NULL), H3_OK);
  HOLDS(item.kind == H3_RAW && item.len == 100);
  for (int fin = 0; fin < 2; fin++) {
    IS(h3_read(&ends[CLIENT], 1, zeros, sizeof zeros, (uint32_t)fin, &used, &item, NULL), H3_OK);
    HOLDS(item.kind == H3_RAW && item.len == 100 && used == 100);
    IS(h3_item_bytes(&ends[CLIENT], 0, got, sizeof got, &n), H3_OK);
    HOLDS(n == 100 && !memcmp(got, zeros, n));
  }
  IS(h3_read(&ends[CLIENT], 1, NULL, 0, 1, &used, &item, NULL), H3_OK);
  IS(item.kind, H3_END);
  IS(h3_read(&ends[CLIENT], 1, zeros, 1, 0, &used, &item, NULL), H3_AFTER_END);
  drop();
}

int main(void) {
  of_reads();
  of_fronts();
  of_refusals();
  of_goaway();
  of_bytes();
  of_pieces();
  of_faults();
  of_ends();
  of_dropped();
  of_cut();
  of_canceled();
  of_drained();
  of_unread();
  of_over();
  of_reset_before();
  of_finished_before();
  of_unheard();
  of_turns();
  of_codes();
  of_memory();
  of_closed_later();
  of_closed_behind();
  of_closed_faulty();
  of_choice_off();
  if (!bad) printf("ok " TEST "\n");
  return bad;
}
