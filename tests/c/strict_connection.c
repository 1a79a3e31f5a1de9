/* What a connection is closed for if `strict_connection` is set, and what is taken without it: in one delivery, and byte by byte. One line
 * 'ok NAME' or 'failed NAME'. */
#define TEST "strict_connection"
#include "field_list.h"
#include "expect.h"

enum { CLIENT, SERVER };
enum { LIMIT = 16384 }; /* on what is unfinished: the least beside a table of 4,096 bytes */
enum { DECOMPRESSION_FAILED = 0x200, STREAM_ERROR_OF_ENCODER = 0x201, STREAM_ERROR_OF_DECODER = 0x202, EXCESSIVE_LOAD = 0x107, ID_ERROR = 0x108, SETTINGS_ERROR = 0x109, MISSING_SETTINGS = 0x10a, FRAME_UNEXPECTED = 0x105 };

static h3_endpoint end = H3_NONE_YET;
static field_list request, wanted;

/* the peer's streams, of an endpoint of this side */
static uint64_t control_of(int side) { return side == CLIENT ? 3 : 2; }
static uint64_t encoder_of(int side) { return side == CLIENT ? 7 : 6; }
static uint64_t decoder_of(int side) { return side == CLIENT ? 11 : 10; }
static uint64_t other_of(int side) { return side == CLIENT ? 15 : 14; }

static void make(int side, int strict, int sessions) {
  h3_config config;
  h3_config_default(&config);
  config.server = (uint64_t)side;
  config.strict_connection = (uint64_t)strict;
  config.webtransport = config.datagram = (uint64_t)sessions;
  config.max_field_section_size = 1000;
  config.unfinished_limit = LIMIT;
  h3_free(&end);
  end = (h3_endpoint)H3_NONE_YET;
  IS(h3_new(&end, &config, NULL), H3_OK);
}

/* The bytes close the connection with this code as soon as so many came, or are taken (0): at once, and byte by byte. */
static void closes(int side, int strict, int sessions, uint64_t id, const char *bytes, size_t len, uint64_t code, size_t at) {
  uint64_t detail = 0;
  make(side, strict, sessions);
  IS(h3_deliver(&end, id, bytes, len, &detail), code ? H3_CONNECTION : H3_OK);
  HOLDS(detail == code);
  make(side, strict, sessions);
  for (size_t i = 0; i < len && i < (code ? at : len); i++) {
    int here = code && i + 1 == at;
    IS(h3_deliver(&end, id, bytes + i, 1, &detail), here ? H3_CONNECTION : H3_OK);
    HOLDS(detail == (here ? code : 0));
  }
}

/* of the same row, without the choice: taken by either side */
static void taken_if_loose(uint64_t of_client, uint64_t of_server, const char *bytes, size_t len, int sessions) {
  closes(CLIENT, 0, sessions, of_client, bytes, len, 0, 0);
  closes(SERVER, 0, sessions, of_server, bytes, len, 0, 0);
}

#define BYTES(text) text, sizeof(text) - 1

/* RFC 9114, section 6.2.1: by the head of the first frame, of whatever type. Its payload need not come */
static void of_first_frames(void) {
  static const struct {
    const char *bytes;
    size_t len, at;
  } of[] = {
      {BYTES("\0\x21\0\4\0"), 3}, /* of a reserved type */
      {BYTES("\0\x21\5"), 3},
      {BYTES("\0\x40\x21\x40\5"), 5},
      {BYTES("\0\x0d\x40\1"), 4}, /* MAX_PUSH_ID, whose id did not come */
      {BYTES("\0\7\1"), 3},       /* GOAWAY */
  };
  for (int side = 0; side < 2; side++) {
    for (size_t i = 0; i < sizeof of / sizeof *of; i++) closes(side, 1, 0, control_of(side), of[i].bytes, of[i].len, MISSING_SETTINGS, of[i].at);
    closes(side, 1, 0, control_of(side), BYTES("\0\4\0\x21\0\x21\5"), 0, 0); /* behind the settings each is skipped */
    closes(side, 1, 0, control_of(side), BYTES("\0\x40\4\0\x21\0"), 0, 0);
    closes(side, 1, 0, control_of(side), BYTES("\0\x40\4"), 0, 0);
  }
  taken_if_loose(3, 2, BYTES("\0\x21\0\4\0"), 0);
}

/* RFC 8441, section 3, of a client alone; RFC 9297, section 2.1.1; and the drafts of WebTransport, where the endpoint announces it */
static void of_settings(void) {
#define CONNECT_OF_2 "\0\4\2\x8\2"
#define DATAGRAM_OF_2 "\0\4\2\x33\2"
#define SESSIONS_OF_2 "\0\4\7\xab\x60\x37\x42\2\x33\1"
#define SESSIONS_ALONE "\0\4\5\xab\x60\x37\x42\1"
#define SESSIONS_WITHOUT "\0\4\7\xab\x60\x37\x42\1\x33\0"
#define SESSIONS_WITH "\0\4\7\xab\x60\x37\x42\1\x33\1"
  closes(CLIENT, 1, 0, 3, BYTES(CONNECT_OF_2), SETTINGS_ERROR, 5);
  closes(SERVER, 1, 0, 2, BYTES(CONNECT_OF_2), 0, 0);
  taken_if_loose(3, 2, BYTES(CONNECT_OF_2), 0);
  for (int side = 0; side < 2; side++) {
    uint64_t id = control_of(side);
    closes(side, 1, 0, id, BYTES(DATAGRAM_OF_2), SETTINGS_ERROR, 5);
    closes(side, 1, 1, id, BYTES(SESSIONS_OF_2), SETTINGS_ERROR, 10);
    closes(side, 1, 1, id, BYTES(SESSIONS_ALONE), SETTINGS_ERROR, 8);
    closes(side, 1, 1, id, BYTES(SESSIONS_WITHOUT), SETTINGS_ERROR, 10);
    closes(side, 1, 1, id, BYTES(SESSIONS_WITH), 0, 0);
    closes(side, 1, 1, id, BYTES("\0\4\4\x8\1\x33\1"), 0, 0);
    closes(side, 1, 1, id, BYTES("\0\4\4\x8\0\x33\0"), 0, 0);
    closes(side, 1, 0, id, BYTES(SESSIONS_OF_2), 0, 0); /* it did not announce them */
    closes(side, 1, 0, id, BYTES(SESSIONS_ALONE), 0, 0);
    closes(side, 1, 0, id, BYTES(DATAGRAM_OF_2 "\2\0"), SETTINGS_ERROR, 5); /* before the fault of what follows */
  }
  taken_if_loose(3, 2, BYTES(DATAGRAM_OF_2), 0);
  taken_if_loose(3, 2, BYTES(SESSIONS_OF_2), 1);
  taken_if_loose(3, 2, BYTES(SESSIONS_ALONE), 1);
}

/* sessions without datagrams are announced by no strict endpoint */
static void of_own_settings(void) {
  for (int strict = 0; strict < 2; strict++) {
    h3_config config;
    uint64_t detail = 0;
    h3_endpoint e = H3_NONE_YET;
    h3_config_default(&config);
    config.webtransport = 1;
    config.strict_connection = (uint64_t)strict;
    IS(h3_new(&e, &config, &detail), strict ? H3_SETTING : H3_OK);
    HOLDS(detail == (strict ? 0x2b603742 : 0));
    h3_free(&e);
  }
}

/* RFC 9204, section 7.4: an instruction that is too long to be taken */
static void of_instructions(void) {
  static const char insertion[] = "\2\x5f\xe1\xff\xff\xff\x03"; /* the length of its name tells it */
  static char cancellation[LIMIT + 1] = "\3\x7f"; /* of a stream whose number does not end */
  memset(cancellation + 2, 0x80, sizeof cancellation - 2);
  for (int side = 0; side < 2; side++)
    for (int strict = 0; strict < 2; strict++) {
      uint64_t detail = 0;
      closes(side, strict, 0, encoder_of(side), BYTES(insertion), strict ? STREAM_ERROR_OF_ENCODER : EXCESSIVE_LOAD, sizeof insertion - 1);
      make(side, strict, 0);
      IS(h3_deliver(&end, control_of(side), "\0\4\0", 3, NULL), H3_OK);
      IS(h3_deliver(&end, decoder_of(side), cancellation, LIMIT, NULL), H3_OK);
      IS(h3_deliver(&end, decoder_of(side), cancellation + LIMIT, 1, &detail), H3_CONNECTION);
      HOLDS(detail == (strict ? STREAM_ERROR_OF_DECODER : EXCESSIVE_LOAD));
    }
}

/* The header section of this prefix and this last line comes on stream 0, behind a table of 4,096 bytes with the entries a: b and c: d, or
 * without a table. It is a head with this field behind its pseudo-header fields, or with none (NULL), or it is bad: "bad". */
static void section_comes(int side, int strict, int has_table, const char *prefix, const char *line, size_t line_len, const char *name, const char *value) {
  static const char insertions[] = "\2\x3f\xe1\x1f\x41\x61\1\x62\x41\x63\1\x64";
  static const char of_request[] = "\xd1\xd7\x50\x81\x1f\xc1"; /* GET https a / */
  char frame[32] = "\1";
  size_t len = 4;
  int is_bad = name && !strcmp(name, "bad");
  h3_config config;
  h3_item item;
  h3_config_default(&config);
  config.server = (uint64_t)side;
  config.strict_connection = (uint64_t)strict;
  if (!has_table) config.table = config.blocked = 0;
  h3_free(&end);
  end = (h3_endpoint)H3_NONE_YET;
  IS(h3_new(&end, &config, NULL), H3_OK);
  if (side == CLIENT) {
    uint64_t id;
    IS(h3_open_request(&end, &id, NULL), H3_OK);
    IS(send_list(&end, id, &request), H3_OK);
    begin_response(&wanted, "200");
    frame[len++] = (char)0xd9;
  } else {
    begin_request(&wanted, "GET");
    memcpy(frame + len, of_request, sizeof of_request - 1);
    len += sizeof of_request - 1;
  }
  if (name) add_field(&wanted, name, value);
  memcpy(frame + 2, prefix, 2);
  memcpy(frame + len, line, line_len);
  len += line_len;
  frame[1] = (char)(len - 2);
  if (has_table) IS(h3_deliver(&end, encoder_of(side), insertions, sizeof insertions - 1, NULL), H3_OK);
  IS(h3_deliver(&end, 0, frame, len, NULL), H3_OK);
  IS(h3_pull(&end, 0, &item), H3_OK);
  HOLDS(item.kind == (is_bad ? H3_FAULT_CONNECTION : H3_HEAD));
  if (is_bad) HOLDS(item.number == DECOMPRESSION_FAILED);
  else HOLDS(is_list(&end, &item, &wanted));
}

/* RFC 9204, sections 2.2.1 and 2.2.3: no line names an entry from the required insert count on. The count may be larger than is needed. And
 * sections 4.5.1.1 and 4.5.1.2: without a table the encoded count and the sign are 0 */
static void of_sections(void) {
  static const struct {
    const char *prefix, *line;
    size_t len;
    const char *name, *value;
    int bad_if_strict;
  } of[] = {
      {"\2\0", BYTES("\x80"), "a", "b", 0},         /* count 1: the entry below the base, 1 */
      {"\2\x80", BYTES("\x10"), "a", "b", 0},       /* the entry from the base on, 0 */
      {"\3\x80", BYTES("\x10"), "c", "d", 0},       /* count 2 */
      {"\3\0", BYTES("\x81"), "a", "b", 0},         /* larger than is needed */
      {"\3\0", BYTES("\x41\1x"), "a", "x", 0},      /* a name alone */
      {"\2\x80", BYTES("\0\1x"), "a", "x", 0},
      {"\2\0", BYTES("\x10"), "c", "d", 1},         /* count 1, and entry 2 is named, from the base on */
      {"\2\1", BYTES("\x80"), "c", "d", 1},         /* below the base */
      {"\2\0", BYTES("\0\1x"), "c", "x", 1},        /* its name alone */
      {"\2\1", BYTES("\x40\1x"), "c", "x", 1},
      {"\0\0", BYTES("\x10"), "a", "b", 1},         /* count 0 */
      {"\0\1", BYTES("\x80"), "a", "b", 1},
  };
  static const struct {
    const char *prefix;
    int bad_if_strict;
  } without[] = {{"\0\0", 0}, {"\0\5", 0}, {"\1\0", 1}, {"\2\0", 1}, {"\0\x80", 1}, {"\0\x85", 1}, {"\1\x80", 1}};
  for (int side = 0; side < 2; side++)
    for (int strict = 0; strict < 2; strict++) {
      for (size_t i = 0; i < sizeof of / sizeof *of; i++) {
        int is_bad = strict && of[i].bad_if_strict;
        section_comes(side, strict, 1, of[i].prefix, of[i].line, of[i].len, is_bad ? "bad" : of[i].name, is_bad ? "" : of[i].value);
      }
      section_comes(side, strict, 1, "\3\0", BYTES("\x11"), "bad", ""); /* an entry that never came */
      for (size_t i = 0; i < sizeof without / sizeof *without; i++) {
        int is_bad = strict && without[i].bad_if_strict;
        section_comes(side, strict, 0, without[i].prefix, "", 0, is_bad ? "bad" : NULL, "");
      }
      section_comes(side, strict, 0, "\0\5", BYTES("\x80"), "bad", ""); /* no entry is there */
    }
}

/* a session is named by the id of a request stream */
static void of_sessions(void) {
  for (int side = 0; side < 2; side++) {
    uint64_t id = other_of(side);
    closes(side, 1, 1, id, BYTES("\x40\x54\1"), ID_ERROR, 3);
    closes(side, 1, 1, id, BYTES("\x40\x54\2"), ID_ERROR, 3);
    closes(side, 1, 1, id, BYTES("\x40\x54\x40\7"), ID_ERROR, 4);
    closes(side, 1, 1, id, BYTES("\x40\x54\4abc"), 0, 0);
  }
  taken_if_loose(15, 14, BYTES("\x40\x54\1"), 1);
  for (int strict = 0; strict < 2; strict++)
    for (uint64_t session = 0; session < 8; session++) {
      const char bytes[] = {0x40, 0x41, (char)session};
      h3_item item;
      int bad_id = strict && session % 4;
      make(SERVER, strict, 1);
      IS(h3_deliver(&end, 0, bytes, sizeof bytes, NULL), H3_OK);
      IS(h3_pull(&end, 0, &item), H3_OK);
      HOLDS(item.kind == (bad_id ? H3_FAULT_CONNECTION : H3_SESSION));
      HOLDS(item.number == (bad_id ? ID_ERROR : session));
    }
}

/* how many bytes of a stream are held */
static uint64_t unread_of(uint64_t id) {
  h3_stream_state stream = {0};
  IS(h3_stream(&end, id, &stream), H3_OK);
  return stream.unread;
}

/* What a pull of stream 0 answers once these bytes came: at once, and byte by byte */
static void pulls(int side, int strict, int sessions, const char *bytes, size_t len, uint32_t kind, uint64_t number) {
  for (int pieces = 0; pieces < 2; pieces++) {
    h3_item item;
    uint64_t id;
    make(side, strict, sessions);
    if (side == CLIENT) {
      IS(h3_open_request(&end, &id, NULL), H3_OK);
      IS(send_list(&end, id, &request), H3_OK);
    }
    for (size_t i = 0; pieces && i + 1 < len; i++) {
      IS(h3_deliver(&end, 0, bytes + i, 1, NULL), H3_OK);
      IS(h3_pull(&end, 0, &item), H3_OK);
      HOLDS(item.kind == H3_PENDING);
    }
    IS(h3_deliver(&end, 0, pieces ? bytes + len - 1 : bytes, pieces ? 1 : len, NULL), H3_OK);
    IS(h3_pull(&end, 0, &item), H3_OK);
    HOLDS(item.kind == kind);
    if (kind == H3_SESSION || kind == H3_FAULT_CONNECTION) HOLDS(item.number == number);
  }
}

/* RFC 9114, section 9: where WebTransport is not announced 0x41 is the type of an unknown frame, which has a length, and is passed over at any
 * place. 0x54 is that of an unknown stream. Where it is, or without the choice, a session begins there */
#define UNKNOWN_FRAME "\x40\x41\4abcd"
#define REQUEST_SECTION "\1\x8\0\0\xd1\xd7\xc1\x50\1\x61"
#define RESPONSE_SECTION "\1\3\0\0\xd9"
static void of_unknown_types(void) {
  static const char long_frame[] = "\x40\x41\x80\1\0\0"; /* of 65,536 bytes */
  static char payload[65536];
  pulls(SERVER, 1, 0, BYTES(UNKNOWN_FRAME REQUEST_SECTION), H3_HEAD, 0);
  pulls(SERVER, 1, 0, BYTES(UNKNOWN_FRAME UNKNOWN_FRAME "\x40\x41\0" REQUEST_SECTION), H3_HEAD, 0);
  pulls(CLIENT, 1, 0, BYTES(UNKNOWN_FRAME RESPONSE_SECTION), H3_HEAD, 0);
  pulls(SERVER, 1, 0, BYTES("\x40\x41\4abc"), H3_PENDING, 0);
  for (int side = 0; side < 2; side++) {
    uint64_t id = control_of(side);
    closes(side, 1, 0, id, BYTES("\0\4\0" UNKNOWN_FRAME "\x7\1\0" UNKNOWN_FRAME), 0, 0);
    closes(side, 1, 0, id, BYTES("\0" UNKNOWN_FRAME), MISSING_SETTINGS, 4);
    closes(side, 1, 1, id, BYTES("\0\4\0\x40\x41\4"), FRAME_UNEXPECTED, 6);
    closes(side, 0, 0, id, BYTES("\0\4\0\x40\x41\4"), FRAME_UNEXPECTED, 6);
    closes(side, 1, 0, other_of(side), BYTES("\x40\x54\1abcd"), 0, 0);
    h3_item item;
    IS(h3_pull(&end, other_of(side), &item), H3_OK);
    HOLDS(item.kind == H3_NO_MESSAGES);
    HOLDS(unread_of(other_of(side)) == 0);
  }
  for (int strict = 0; strict < 2; strict++) {
    pulls(SERVER, strict, 1, BYTES("\x40\x41\4"), H3_SESSION, 4);
    pulls(CLIENT, strict, 1, BYTES("\x40\x41\4"), H3_FAULT_CONNECTION, FRAME_UNEXPECTED);
  }
  pulls(SERVER, 0, 0, BYTES("\x40\x41\4"), H3_SESSION, 4);
  pulls(CLIENT, 0, 0, BYTES("\x40\x41\4"), H3_FAULT_CONNECTION, FRAME_UNEXPECTED);
  /* nothing is held of one that is under way, and what follows it is read */
  h3_item item;
  make(SERVER, 1, 0);
  IS(h3_deliver(&end, 0, long_frame, sizeof long_frame - 1, NULL), H3_OK);
  for (size_t sent = 0; sent < sizeof payload; sent += 4096) {
    HOLDS(unread_of(0) == 0);
    IS(h3_deliver(&end, 0, payload, 4096, NULL), H3_OK);
  }
  IS(h3_deliver(&end, 0, BYTES(REQUEST_SECTION), NULL), H3_OK);
  IS(h3_pull(&end, 0, &item), H3_OK);
  HOLDS(item.kind == H3_HEAD);
}

/* RFC 9114, section 5.2: no request begins behind the peer's GOAWAY, also on a stream that was opened before. Those that began go on */
static void of_requests(void) {
  for (int strict = 0; strict < 2; strict++) {
    uint64_t begun, opened, detail = 0;
    make(CLIENT, strict, 0);
    IS(h3_open_request(&end, &begun, NULL), H3_OK);
    IS(h3_open_request(&end, &opened, NULL), H3_OK);
    IS(send_list(&end, begun, &request), H3_OK);
    IS(h3_deliver(&end, 3, "\0\4\0\7\1\x8", 6, NULL), H3_OK);
    IS(h3_send_head(&end, begun, request.sizes, NULL, request.count, request.bytes, request.len, &detail), H3_OUT_OF_ORDER);
    IS(h3_send_head(&end, opened, request.sizes, NULL, request.count, request.bytes, request.len, &detail), strict ? H3_GOING_AWAY : H3_OK);
    if (strict) HOLDS(detail == 8);
    IS(h3_send_body(&end, begun, "a", 1, NULL), H3_OK);
    IS(h3_finish(&end, begun, NULL), H3_OK);
    IS(h3_reset(&end, opened, NULL), H3_OK);
  }
}

int main(void) {
  begin_request(&request, "POST");
  of_first_frames();
  of_settings();
  of_own_settings();
  of_instructions();
  of_sections();
  of_sessions();
  of_unknown_types();
  of_requests();
  h3_free(&end);
  if (!bad) puts("ok strict_connection: a connection is closed for what it was asked to be, and for nothing more");
  return bad;
}
