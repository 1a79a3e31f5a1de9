/* Large input, with memory for all of it: bodies of 16 MiB, heads of 64 KiB and of 1,000 fields, 10,000 streams, 100,000 insertions and
 * deliveries of 1 MiB. Each call of the header is made at such a size: first bodies are copied, then sent by their length. No call may tell of want of memory, and no allocation may have been refused: they are counted. Linked with --wrap for
 * malloc and realloc. */
#include "h3.h"
#include <stdio.h>
#include <stdlib.h>
#include <string.h>

void *__real_malloc(size_t);
void *__real_realloc(void *, size_t);

static long allocations, refused;

static void *counted(void *block, size_t size) {
  allocations++;
  refused += !block && size;
  return block;
}
void *__wrap_malloc(size_t size) { return counted(__real_malloc(size), size); }
void *__wrap_realloc(void *old, size_t size) { return counted(__real_realloc(old, size), size); }

enum { KIB = 1024, MIB = 1024 * 1024, BODY = 16 * MIB, FIELDS = 1000, VALUE = 64 * KIB };
enum { STREAMS = 10000, RAW_STREAMS = 1000, HEADS = 2000, NEW_FIELDS = 50, GOAWAYS = 110000 };

static void fail(const char *what, uint64_t id, uint64_t number) {
  printf("failed sizes: %s, stream %llu, %llu (%ld of %ld allocations refused)\n", what, (unsigned long long)id, (unsigned long long)number, refused,
      allocations);
  exit(1);
}
#define WANT(test, what, id, number) \
  do { \
    if (!(test)) fail(what, id, number); \
  } while (0)
#define DONE(call, what, id) \
  do { \
    uint32_t answer_ = (call); \
    WANT(answer_ == H3_OK, what, id, answer_); \
  } while (0)

static h3_endpoint ends[2]; /* a client and a server */
static uint8_t *piece;      /* of BODY + MIB bytes */
static uint8_t *body;
static int by_length; /* bodies are sent by their length */

/* fields as h3_send_head takes them */
typedef struct {
  h3_field_size sizes[FIELDS + 8];
  size_t count, len;
  uint8_t bytes[2 * VALUE];
} list;

static void add(list *l, const char *name, const void *value, size_t len) {
  size_t n = strlen(name);
  WANT(l->count < FIELDS + 8 && l->len + n + len <= sizeof l->bytes, "a list is too long", 0, l->count);
  memcpy(l->bytes + l->len, name, n);
  memcpy(l->bytes + l->len + n, value, len);
  l->len += n + len;
  l->sizes[l->count++] = (h3_field_size){(uint32_t)n, (uint32_t)len};
}
static void begin(list *l, int side) {
  l->count = l->len = 0;
  if (side) {
    add(l, ":status", "200", 3);
    return;
  }
  add(l, ":method", "POST", 4);
  add(l, ":scheme", "https", 5);
  add(l, ":authority", "localhost", 9);
  add(l, ":path", "/index", 6);
}

/* so many fields of one name, whose values are numbers from there on */
static void add_numbers(list *l, const char *name, unsigned from, unsigned count) {
  char value[16];
  for (unsigned n = from; n < from + count; n++) add(l, name, value, (size_t)snprintf(value, sizeof value, "%06u", n));
}

static void make(void) {
  for (int side = 0; side < 2; side++) {
    h3_config c;
    h3_config_default(&c);
    c.max_field_section_size = 1 << 24;
    c.server = (uint32_t)side;
    c.strict_connection = 0;     /* so that sessions are known */
    c.table = 4096;
    c.blocked = 100;
    c.count_acknowledgments = 0; /* so that increments of 0 are taken */
    c.economical_table = 0;      /* so that fields that come once are inserted too */
    DONE(h3_new(&ends[side], &c, NULL), "h3_new", side);
  }
}
static void drop(void) {
  h3_free(&ends[0]);
  h3_free(&ends[1]);
}

static uint64_t opened(void) {
  uint64_t next, id;
  DONE(h3_next_request_id(&ends[0], &next, NULL), "h3_next_request_id", 0);
  if (next % 8) {
    DONE(h3_open_request(&ends[0], &id, NULL), "h3_open_request", next);
  } else {
    DONE(h3_open_request_at(&ends[0], id = next, NULL), "h3_open_request_at", next);
  }
  WANT(id == next, "h3_next_request_id names another stream", id, next);
  return id;
}
static uint32_t next(int side, uint64_t from, uint64_t *id) {
  return h3_next_to_send(&ends[side], from, id);
}

/* what waits on a stream goes over, as much as fits into `piece` at a time; answers how many bytes went in the largest delivery */
static size_t carry(int side, uint64_t id) {
  size_t most = 0, n, past;
  uint32_t fin;
  for (;;) {
    DONE(h3_outgoing(&ends[side], id, piece, BODY + MIB, &n, &past, &fin), "h3_outgoing", id);
    memcpy(piece + n, body, past); /* such a body is taken whole */
    n += past;
    if (!n) break;
    DONE(h3_deliver(&ends[!side], id, piece, n, NULL), "h3_deliver", id);
    DONE(h3_advance(&ends[side], id, n), "h3_advance", id);
    if (n > most) most = n;
  }
  if (fin) {
    DONE(h3_deliver_end(&ends[!side], id, NULL), "h3_deliver_end", id);
    DONE(h3_end_taken(&ends[side], id), "h3_end_taken", id);
  }
  return most;
}
static void carry_own(void) {
  for (int side = 0; side < 2; side++) {
    carry(side, h3_control_id(side));
    carry(side, h3_encoder_id(side));
    carry(side, h3_decoder_id(side));
  }
}

/* the next item is of this kind */
static h3_item pulled(int side, uint64_t id, uint32_t kind) {
  h3_item item;
  DONE(h3_pull(&ends[side], id, &item), "h3_pull", id);
  WANT(item.kind == kind, "an item of another kind", id, item.kind);
  return item;
}

/* the item has these fields, in this order */
static void same_fields(int side, uint64_t id, const h3_item *item, const list *l) {
  static uint8_t bytes[2 * VALUE];
  static h3_field_size sizes[FIELDS + 8];
  WANT(item->fields == l->count, "another count of fields", id, item->fields);
  WANT(item->len == l->len, "another length of fields", id, item->len);
  DONE(h3_item_fields(&ends[side], sizes, NULL, FIELDS + 8, bytes, sizeof bytes), "h3_item_fields", id);
  WANT(!memcmp(sizes, l->sizes, l->count * sizeof *sizes) && !memcmp(bytes, l->bytes, l->len), "other fields", id, l->count);
}

/* the body comes out, in whatever pieces */
static void same_body(int side, uint64_t id, size_t len) {
  for (size_t at = 0; at < len;) {
    size_t n;
    h3_item item = pulled(side, id, H3_BODY);
    DONE(h3_item_bytes(&ends[side], 0, piece, BODY + MIB, &n), "h3_item_bytes", id);
    WANT(n && n == item.len && n <= len - at && !memcmp(piece, body + at, n), "another body", id, n);
    at += n;
  }
}

/* a message of a head, a body and a trailer */
static void send(int side, uint64_t id, const list *head, size_t len, const list *trailer) {
  h3_endpoint *end = &ends[side];
  h3_stream_state s;
  DONE(h3_send_head(end, id, head->sizes, NULL, head->count, head->bytes, head->len, NULL), "h3_send_head", id);
  if (len && by_length) DONE(h3_send_body_of(end, id, len, NULL), "h3_send_body_of", id);
  if (len && !by_length) DONE(h3_send_body(end, id, body, len, NULL), "h3_send_body", id);
  if (trailer) DONE(h3_send_trailer(end, id, trailer->sizes, NULL, trailer->count, trailer->bytes, trailer->len, NULL), "h3_send_trailer", id);
  DONE(h3_finish(end, id, NULL), "h3_finish", id);
  DONE(h3_stream(end, id, &s), "h3_stream", id);
  WANT(s.waiting > len && s.is_finished, "too few bytes wait", id, s.waiting);
}
static void take(int side, uint64_t id, const list *head, size_t len, const list *trailer) {
  h3_item item = pulled(side, id, H3_HEAD);
  same_fields(side, id, &item, head);
  same_body(side, id, len);
  if (trailer) {
    item = pulled(side, id, H3_TRAILER);
    same_fields(side, id, &item, trailer);
  }
  pulled(side, id, H3_END);
}

/* bodies of these sizes, with heads and trailers of 64 KiB and of 1,000 fields */
static void bodies(void) {
  static list head, trailer;
  static const size_t lens[] = {VALUE, BODY};
  uint64_t id;
  h3_state state;
  h3_stream_state came;
  make();
  carry_own();
  for (size_t i = 0; i < 2; i++) {
    id = opened();
    for (int side = 0; side < 2; side++) {
      begin(&head, side);
      if (i) add_numbers(&head, "x-a", 0, FIELDS);
      else add(&head, "x-a", body, VALUE);
      trailer.count = trailer.len = 0;
      if (i) add_numbers(&trailer, "x-b", 0, FIELDS);
      else add(&trailer, "x-b", body, VALUE);
      send(side, id, &head, lens[i], &trailer);
      carry_own();
      carry(side, id);
      DONE(h3_stream(&ends[!side], id, &came), "h3_stream", id);
      WANT(came.unread > lens[i], "too few bytes are held", id, came.unread);
      take(!side, id, &head, lens[i], &trailer);
      carry_own();
    }
  }
  DONE(h3_connection(&ends[0], &state), "h3_connection", 0);
  WANT(state.sent > BODY + VALUE && state.peer_section == 1 << 24, "another state of the connection", 0, state.sent);
  drop();
}

/* requests on so many streams at once, and then their responses; and as many that are cut off and given up */
static void streams(void) {
  static list head;
  uint64_t id, seen = 0;
  uint32_t stop, reset;
  make();
  carry_own();
  for (int side = 0; side < 2; side++) {
    begin(&head, side);
    for (uint64_t n = 0; n < STREAMS; n++) {
      if (!side) opened();
      send(side, 4 * n, &head, 100, NULL);
    }
    carry_own();
    seen = 0;
    for (id = 0; next(side, id, &id) == H3_OK; id++) {
      WANT(id == 4 * seen, "another stream is named to be sent", id, seen);
      carry(side, id);
      seen++;
    }
    WANT(seen == STREAMS, "streams to be sent are left out", 0, seen);
    WANT(h3_next_unblocked(&ends[!side], 0, &id) == H3_NONE, "a stream is unblocked that did not wait", 0, id);
    for (uint64_t n = 0; n < STREAMS; n++) take(!side, 4 * n, &head, 100, NULL);
    carry_own();
  }
  begin(&head, 0);
  for (uint64_t n = 0; n < STREAMS; n++) {
    id = opened();
    send(0, id, &head, 100, NULL);
    carry_own();
    if (n % 2) {
      DONE(h3_close_stream(&ends[0], id, &stop, &reset, NULL), "h3_close_stream", id);
      WANT(stop == 1 && reset == 1, "a frame is not to be sent", id, n);
    } else {
      DONE(h3_reset(&ends[0], id, NULL), "h3_reset", id);
    }
    DONE(h3_deliver_reset(&ends[1], id, 256, NULL), "h3_deliver_reset", id);
    WANT(pulled(1, id, H3_FAULT_RESET).number == 256, "another code", id, 0);
    if (n % 2 == 0) DONE(h3_cancel(&ends[0], id, NULL), "h3_cancel", id);
    pulled(0, id, H3_FAULT_CANCELED);
  }
  drop();
}

/* responses of new fields, which are inserted in the place of older ones */
static void insertions(void) {
  static list head;
  uint64_t id;
  h3_state state;
  make();
  carry_own();
  for (unsigned n = 0; n < HEADS; n++) {
    id = opened();
    DONE(h3_deliver(&ends[1], id, "", 0, NULL), "h3_deliver", id);
    begin(&head, 1);
    add_numbers(&head, "x-a", NEW_FIELDS * n, NEW_FIELDS);
    send(1, id, &head, 0, NULL);
    carry(1, id);
    pulled(0, id, H3_WAITING);
    carry_own();
    take(0, id, &head, 0, NULL);
    carry_own();
    DONE(h3_connection(&ends[0], &state), "h3_connection", 0);
    WANT(state.receiving_table <= 4096 && (n < 2 || state.receiving_table > 4000), "another size of the table", id, state.receiving_table);
  }
  drop();
}

/* deliveries of 1 MiB on each kind of stream */
static void deliveries(void) {
  uint64_t id, value, detail;
  uint32_t drained, type, urgency, incremental;
  h3_state state;
  h3_item item;
  size_t n;
  make();
  DONE(h3_deliver(&ends[0], 3, "\0\4\3\6\101\0", 6, NULL), "h3_deliver", 3); /* SETTINGS that take sections of 256 bytes */
  DONE(h3_peer_setting(&ends[0], 6, &value), "h3_peer_setting", 0);
  WANT(value == 256, "another setting", 0, value);
  h3_config config;
  h3_endpoint with = H3_NONE_YET;
  const h3_setting further[] = {{0x99, 7}};
  uint8_t settings[128];
  uint32_t settings_kept = 0;
  h3_config_default(&config);
  DONE(h3_remember_settings(&ends[0], settings, sizeof settings, &n), "h3_remember_settings", 0);
  DONE(h3_settings_kept(&ends[0], settings, n, &settings_kept), "h3_settings_kept", 0);
  WANT(n == 3 && settings_kept == 1, "other settings are remembered", 0, n);
  DONE(h3_new_with(&with, &config, further, 1, NULL), "h3_new_with", 0);
  h3_free(&with);
  DONE(h3_new_resumed(&with, &config, further, 1, settings, n, NULL), "h3_new_resumed", 0);
  h3_free(&with);
  memcpy(piece, "\41\200\20\0\0", 5); /* an unknown frame of 1 MiB */
  memset(piece + 5, 0, MIB);
  DONE(h3_deliver(&ends[0], 3, piece, MIB + 5, NULL), "h3_deliver", 3);
  memset(piece, 0, MIB); /* increments of 0 */
  piece[0] = 3;
  DONE(h3_deliver(&ends[0], 11, piece, MIB, NULL), "h3_deliver", 11);
  memcpy(piece, "\2\77\341\37", 4); /* a table of 4,096 bytes; insertions of :authority and seven bytes */
  for (n = 0; n < MIB / 9; n++) memcpy(piece + 4 + 9 * n, "\300\7abcdefg", 9);
  DONE(h3_deliver(&ends[0], 7, piece, 4 + 9 * n, NULL), "h3_deliver", 7);
  memcpy(piece, "\100\124\4", 3); /* a WebTransport stream of session 4 */
  memcpy(piece + 3, body, MIB);
  DONE(h3_deliver(&ends[0], 15, piece, MIB + 3, NULL), "h3_deliver", 15);
  WANT(pulled(0, 15, H3_SESSION).number == 4, "another session", 15, 0);
  item = pulled(0, 15, H3_RAW);
  DONE(h3_item_bytes(&ends[0], 0, piece, MIB, &n), "h3_item_bytes", 15);
  WANT(item.len == MIB && n == MIB && !memcmp(piece, body, MIB), "other bytes", 15, n);
  drop();
  make();
  for (unsigned k = 0; k < GOAWAYS; k++) DONE(h3_goaway(&ends[1], (UINT64_C(1) << 62) - 4 - 4 * k, NULL), "h3_goaway", k);
  n = carry(1, 3);
  WANT(n > MIB, "the GOAWAYs went in small pieces", 3, n);
  DONE(h3_connection(&ends[0], &state), "h3_connection", 0);
  id = (UINT64_C(1) << 62) - 4 * (uint64_t)GOAWAYS;
  WANT(state.has_goaway && state.goaway == id, "another GOAWAY", 3, state.goaway);
  DONE(h3_next_event(&ends[0], &type, &value), "h3_next_event", 0);
  WANT(type == H3_EVENT_SETTINGS, "another event", 0, type);
  DONE(h3_next_event(&ends[0], &type, &value), "h3_next_event", 1);
  WANT(type == H3_EVENT_GOAWAY && value == id, "another id is told", 3, value);
  WANT(h3_next_event(&ends[0], &type, &value) == H3_NONE, "a GOAWAY is told that is not the last", 3, value);
  WANT(h3_open_request(&ends[0], &value, &detail) == H3_GOING_AWAY && detail == id, "a request is opened behind a GOAWAY", 0, detail);
  drop();
  make();
  DONE(h3_shutdown_notice(&ends[1], NULL), "h3_shutdown_notice", 0);
  DONE(h3_shutdown(&ends[1], NULL), "h3_shutdown", 0);
  carry(1, 3);
  DONE(h3_first_unseen(&ends[1], &id), "h3_first_unseen", 0);
  DONE(h3_is_drained(&ends[1], &drained), "h3_is_drained", 0);
  DONE(h3_hold(&ends[1], 3, 1, NULL), "h3_hold", 3);
  DONE(h3_next_by_priority(&ends[1], &value), "h3_next_by_priority", 7);
  WANT(value == 7, "another stream is next", 7, value);
  WANT(h3_set_priority(&ends[1], 0, 1, 0, NULL) == H3_NOT_OPEN, "h3_set_priority", 0, 0);
  WANT(h3_set_initial_priority(&ends[1], 0, 1, 0, NULL) == H3_NOT_OPEN, "h3_set_initial_priority", 0, 0);
  WANT(h3_send_priority(&ends[1], 0, 1, 0, NULL) == H3_NOT_CLIENT, "h3_send_priority", 0, 0);
  WANT(h3_priority(&ends[1], 0, &urgency, &incremental) == H3_NOT_OPEN, "h3_priority", 0, 0);
  DONE(h3_stream_kind(&ends[0], 3, &type), "h3_stream_kind", 3);
  WANT(h3_other_type(&ends[0], 3, &value) == H3_NONE, "h3_other_type", 0, 0);
  WANT(type == H3_STREAM_CONTROL, "another type of stream", 3, type);
  DONE(h3_frame_left(&ends[0], 3, &value), "h3_frame_left", 3);
  WANT(value == 0, "a frame is under way", 3, value);
  WANT(id == 0 && drained == 1, "an endpoint without requests is not drained", 3, id);
  drop();
}

/* a session on a request, on which each side announced what it needs */
static uint64_t with_session(void) {
  static list head;
  uint64_t id;
  for (int side = 0; side < 2; side++) {
    h3_config c;
    h3_config_default(&c);
    c.server = (uint32_t)side;
    c.webtransport = c.extended_connect = c.datagram = c.sessions = c.max_webtransport_sessions = 1;
    DONE(h3_new(&ends[side], &c, NULL), "h3_new", side);
  }
  carry_own();
  id = opened();
  head.count = head.len = 0;
  add(&head, ":method", "CONNECT", 7);
  add(&head, ":scheme", "https", 5);
  add(&head, ":authority", "localhost", 9);
  add(&head, ":path", "/", 1);
  add(&head, ":protocol", "webtransport", 12);
  for (int side = 0; side < 2; side++) {
    DONE(h3_send_head(&ends[side], id, head.sizes, NULL, head.count, head.bytes, head.len, NULL), "h3_send_head", id);
    carry_own();
    carry(side, id);
    pulled(!side, id, H3_HEAD);
    begin(&head, 1);
  }
  return id;
}

/* these bytes go over on a stream of a session, and its end */
static void send_raw(int side, uint64_t id, size_t len) {
  DONE(h3_send_raw(&ends[side], id, body, len, NULL), "h3_send_raw", id);
  DONE(h3_finish(&ends[side], id, NULL), "h3_finish", id);
}
static void take_raw(int side, uint64_t id, size_t len) {
  for (size_t n, at = 0; at < len; at += n) {
    h3_item item = pulled(side, id, H3_RAW);
    DONE(h3_item_bytes(&ends[side], 0, piece, BODY + MIB, &n), "h3_item_bytes", id);
    WANT(n && n == item.len && n <= len - at && !memcmp(piece, body + at, n), "other bytes", id, n);
  }
  pulled(side, id, H3_END);
}

/* streams of a session: 16 MiB both ways, many with few bytes, and its end */
static void sessions(void) {
  uint64_t session = with_session(), id, seen = 0;
  uint32_t stop, reset, number;
  DONE(h3_open_session_stream(&ends[1], session, 1, &id, NULL), "h3_open_session_stream", session);
  send_raw(1, id, BODY);
  carry(1, id);
  WANT(pulled(0, id, H3_SESSION).number == session, "another session", id, 0);
  take_raw(0, id, BODY);
  send_raw(0, id, BODY);
  carry(0, id);
  take_raw(1, id, BODY);
  for (uint64_t n = 0; n < RAW_STREAMS; n++) {
    DONE(h3_open_session_stream(&ends[0], session, 0, &id, NULL), "h3_open_session_stream", n);
    WANT(id == 14 + 4 * n, "another id", id, n);
    send_raw(0, id, 100);
  }
  for (id = 0; next(0, id, &id) == H3_OK; id++, seen++) carry(0, id);
  WANT(seen == RAW_STREAMS, "streams to be sent are left out", 0, seen);
  for (uint64_t n = 0; n < RAW_STREAMS; n++) {
    WANT(pulled(1, 14 + 4 * n, H3_SESSION).number == session, "another session", 14 + 4 * n, 0);
    take_raw(1, 14 + 4 * n, 100);
  }
  seen = 0;
  for (uint64_t s = 0; !h3_next_of_session(&ends[1], session, s, &s); s++, seen++) {
    DONE(h3_close_stream(&ends[1], s, &stop, &reset, NULL), "h3_close_stream", s);
    WANT(!stop && !reset, "a frame is to be sent of what is over", s, seen);
  }
  WANT(seen == RAW_STREAMS + 1, "streams of a session are left out", session, seen);
  WANT(h3_webtransport_code(30) == UINT64_C(0x52e4a40fa8fa), "another code", 30, h3_webtransport_code(30));
  DONE(h3_webtransport_number(h3_webtransport_code(UINT32_MAX), &number), "h3_webtransport_number", 0);
  WANT(number == UINT32_MAX, "another number", 0, number);
  drop();
}

/* a body of 16 MiB in one frame, in one piece behind its head: it is read where it lies, and nothing of it is kept */
static void reads(void) {
  h3_item item;
  h3_stream_state state;
  size_t used;
  make();
  memcpy(piece, "\1\10\0\0\321\301\327\120\1a", 10); /* GET, "/", https, "a" (RFC 9204, appendix A) */
  memcpy(piece + 10, "\0\201\0\0\0", 5);                  /* DATA of 2^24 bytes (RFC 9114, section 7.2.1) */
  memcpy(piece + 15, body, BODY);
  DONE(h3_read(&ends[1], 0, piece, 15 + BODY, 1, &used, &item, NULL), "h3_read", 0);
  WANT(item.kind == H3_HEAD && used == 10, "a head is not read by itself", 0, used);
  DONE(h3_read(&ends[1], 0, piece + 10, 5 + BODY, 1, &used, &item, NULL), "h3_read", 0);
  WANT(item.kind == H3_BODY_GIVEN && item.number == 5 && item.len == BODY && used == 5 + BODY, "another piece", 0, used);
  DONE(h3_stream(&ends[1], 0, &state), "h3_stream", 0);
  WANT(state.unread == 0, "a body is kept", 0, state.unread);
  DONE(h3_read(&ends[1], 0, NULL, 0, 1, &used, &item, NULL), "h3_read", 0);
  WANT(item.kind == H3_END, "no end", 0, item.kind);
  drop();
}

/* a message of those sizes in one piece, with its end: each item is read where it lies */
static void read_message(uint64_t id, const list *head, size_t len, const list *trailer) {
  size_t n, past, front, used, at = 0, out = 0;
  uint32_t fin;
  h3_item item;
  DONE(h3_outgoing(&ends[0], id, piece, BODY + MIB, &n, &past, &fin), "h3_outgoing", id);
  memcpy(piece + n, body, past);
  front = n + past;
  DONE(h3_advance(&ends[0], id, front), "h3_advance", id);
  if (!fin) { /* the trailer section stands behind a body that was sent by its length */
    DONE(h3_outgoing(&ends[0], id, piece + front, BODY + MIB - front, &n, &past, &fin), "h3_outgoing", id);
    DONE(h3_advance(&ends[0], id, n), "h3_advance", id);
    front += n;
  }
  WANT(fin == 1, "the message is not whole", id, front);
  for (item.kind = 0; item.kind != H3_END; at += used) {
    DONE(h3_read(&ends[1], id, piece + at, front - at, 1, &used, &item, NULL), "h3_read", id);
    if (item.kind == H3_HEAD) same_fields(1, id, &item, head);
    else if (item.kind == H3_TRAILER) same_fields(1, id, &item, trailer);
    else if (item.kind == H3_BODY_GIVEN) {
      WANT(item.len <= len - out && !memcmp(piece + at + item.number, body + out, item.len), "another body", id, out);
      out += item.len;
    } else WANT(item.kind == H3_END, "an item of another kind", id, item.kind);
  }
  WANT(at == front && out == len, "not all was read", id, at);
}
static void read_messages(void) {
  static list head, trailer;
  make();
  carry_own();
  for (int i = 0; i < 2; i++) {
    uint64_t id = opened();
    begin(&head, 0);
    trailer.count = trailer.len = 0;
    if (i) add_numbers(&head, "x-a", 0, FIELDS), add_numbers(&trailer, "x-b", 0, FIELDS);
    else add(&head, "x-a", body, VALUE), add(&trailer, "x-b", body, VALUE);
    send(0, id, &head, i ? BODY : VALUE, &trailer);
    carry_own();
    read_message(id, &head, i ? BODY : VALUE, &trailer);
    carry_own();
  }
  drop();
}

/* a `priority` field of 1 MiB: a parameter with a long key, and the urgency */
static void priorities(void) {
  uint32_t urgency, incremental;
  memset(piece, 'a', MIB);
  memcpy(piece + MIB - 4, ",u=1", 4);
  WANT(h3_priority_read(piece, MIB, &urgency, &incremental) == H3_OK && urgency == 1 && incremental == 0, "a long priority field", 0, urgency);
}

/* a capsule whose value has 1 MiB, and datagrams of 1 MiB */
static void capsules(void) {
  h3_capsule_reader reader = {0};
  h3_capsule capsule;
  size_t n, used;
  uint32_t ends_here;
  uint64_t id, detail;
  DONE(h3_capsule_head(0, MIB, piece, 16, &n), "h3_capsule_head", 0);
  DONE(h3_read_capsule(&reader, piece, n, &used, &capsule), "h3_read_capsule", 0);
  DONE(h3_read_capsule(&reader, body, MIB + 1, &used, &capsule), "h3_read_capsule", 0);
  WANT(capsule.part == H3_CAPSULE_VALUE && capsule.length == MIB && used == MIB, "another value", 0, used);
  DONE(h3_read_capsule(&reader, body, 1, &used, &capsule), "h3_read_capsule", 0);
  DONE(h3_capsule_ends(&reader, &ends_here), "h3_capsule_ends", 0);
  WANT(capsule.part == H3_CAPSULE_END && ends_here == 1, "a capsule has no end", 0, capsule.part);
  make();
  WANT(h3_datagram_head(&ends[0], 0, piece, 8, &n, &detail) == H3_NO_DATAGRAMS, "datagrams that were not announced", 0, detail);
  WANT(h3_read_datagram(&ends[0], piece, MIB, &id, &n, &detail) == H3_NO_DATAGRAMS, "a datagram that was not announced", 0, detail);
  drop();
}

int main(void) {
  piece = malloc(BODY + MIB);
  body = malloc(BODY);
  if (!piece || !body) fail("the test itself has no memory", 0, 0);
  for (size_t i = 0; i < BODY; i++) body[i] = (uint8_t)('a' + i % 23);
  WANT((h3_version() & ~H3_UNPROVED) == H3_VERSION, "another version", 0, h3_version());
  for (by_length = 0; by_length < 2; by_length++) {
    bodies();
    streams();
    insertions();
    deliveries();
    reads();
    read_messages();
    priorities();
    capsules();
    sessions();
    WANT(!refused && allocations > 100000 * (by_length + 1), "allocations were refused, or not counted", (uint64_t)by_length, 0);
  }
  free(piece);
  free(body);
  printf("ok sizes: bodies of 16 MiB, heads of 64 KiB and 1,000 fields, 10,000 streams, 100,000 insertions, deliveries of 1 MiB: %ld allocations, none "
         "refused\n",
      allocations);
  return 0;
}
