/* Wrong arguments of every kind: each is answered, and nothing is done. */
#include "h3.h"
#include <stddef.h>
#include <stdio.h>
#include <stdlib.h>
#include <string.h>

#include "one_by_one.h"
#define TEST "arguments"
#include "expect.h"

static const uint64_t FAR = UINT64_C(1) << 62;

/* the defaults, but that messages are not judged: the lists of most rows here are no whole messages */
static void plain_config(h3_config *c) {
  h3_config_default(c);
  HOLDS(c->strict == 1);
  c->strict = 0;
}

static void of_none(h3_endpoint *e) {
  uint64_t id = 5, detail = 6;
  size_t n = 7;
  uint32_t fin;
  uint8_t b[4];
  h3_item item;
  h3_stream_state s;
  h3_state c;
  h3_field_size f = {1, 1};
  IS(h3_open_request(e, &id, &detail), H3_NO_ENDPOINT);
  IS(h3_next_request_id(e, &id, &detail), H3_NO_ENDPOINT);
  IS(h3_open_request_at(e, 0, &detail), H3_NO_ENDPOINT);
  IS(h3_send_head(e, 0, &f, NULL, 1, "ab", 2, &detail), H3_NO_ENDPOINT);
  IS(h3_send_trailer(e, 0, &f, NULL, 1, "ab", 2, &detail), H3_NO_ENDPOINT);
  IS(h3_send_head(e, 0, &f, NULL, 1, "ab", 2, &detail), H3_NO_ENDPOINT);
  IS(h3_send_trailer(e, 0, &f, NULL, 1, "ab", 2, &detail), H3_NO_ENDPOINT);
  IS(h3_send_body(e, 0, "ab", 2, &detail), H3_NO_ENDPOINT);
  IS(h3_send_body_of(e, 0, 2, &detail), H3_NO_ENDPOINT);
  IS(h3_read(e, 0, "ab", 2, 1, &n, &item, &detail), H3_NO_ENDPOINT);
  IS(h3_finish(e, 0, &detail), H3_NO_ENDPOINT);
  IS(h3_reset(e, 0, &detail), H3_NO_ENDPOINT);
  IS(h3_cancel(e, 0, &detail), H3_NO_ENDPOINT);
  IS(h3_close_stream(e, 0, &fin, &fin, &detail), H3_NO_ENDPOINT);
  IS(h3_stream_kind(e, 2, &fin), H3_NO_ENDPOINT);
  IS(h3_frame_left(e, 2, &id), H3_NO_ENDPOINT);
  IS(h3_other_type(e, 2, &id), H3_NO_ENDPOINT);
  IS(h3_goaway(e, 0, &detail), H3_NO_ENDPOINT);
  IS(h3_shutdown_notice(e, &detail), H3_NO_ENDPOINT);
  IS(h3_shutdown(e, &detail), H3_NO_ENDPOINT);
  IS(h3_first_unseen(e, &id), H3_NO_ENDPOINT);
  IS(h3_is_drained(e, &fin), H3_NO_ENDPOINT);
  IS(h3_datagram_head(e, 0, b, 4, &n, &detail), H3_NO_ENDPOINT);
  IS(h3_read_datagram(e, "ab", 2, &id, &n, &detail), H3_NO_ENDPOINT);
  IS(h3_next_to_send(e, 0, &id), H3_NO_ENDPOINT);
  IS(h3_end_taken(e, 0), H3_NO_ENDPOINT);
  IS(h3_next_unblocked(e, 0, &id), H3_NO_ENDPOINT);
  IS(h3_outgoing(e, 0, b, 4, &n, NULL, &fin), H3_NO_ENDPOINT);
  IS(h3_advance(e, 0, 0), H3_NO_ENDPOINT);
  IS(h3_deliver(e, 0, "ab", 2, &detail), H3_NO_ENDPOINT);
  IS(h3_deliver_end(e, 0, &detail), H3_NO_ENDPOINT);
  IS(h3_deliver_reset(e, 0, 0, &detail), H3_NO_ENDPOINT);
  IS(h3_pull(e, 0, &item), H3_NO_ENDPOINT);
  IS(h3_item_bytes(e, 0, b, 4, &n), H3_NO_ENDPOINT);
  IS(h3_stream(e, 0, &s), H3_NO_ENDPOINT);
  IS(h3_connection(e, &c), H3_NO_ENDPOINT);
  IS(h3_next_event(e, &fin, &id), H3_NO_ENDPOINT);
  IS(h3_peer_setting(e, 6, &id), H3_NO_ENDPOINT);
  HOLDS(id == 5 && detail == 6 && n == 7);
  h3_free(e);
  h3_free(e);
}

/* what may not be NULL is tested, and what may be is taken */
static void of_pointers(h3_endpoint *e, uint64_t id) {
  uint8_t b[4];
  size_t n = 7;
  uint32_t fin;
  h3_item item = {.kind = 99};
  h3_field_size f = {7, 3};
  h3_config c;
  h3_endpoint none = H3_NONE_YET;
  plain_config(&c);
  IS(h3_new(NULL, &c, NULL), H3_ARGUMENT);
  IS(h3_new(&none, NULL, NULL), H3_ARGUMENT);
  HOLDS(!none.at);
  h3_endpoint live = *e;
  uint64_t untouched = 7;
  IS(h3_new(&live, NULL, &untouched), H3_ARGUMENT);
  HOLDS(live.at == e->at && untouched == 7);
  h3_free(NULL);
  IS(h3_pull(NULL, id, NULL), H3_NO_ENDPOINT);
  IS(h3_finish(NULL, id, NULL), H3_NO_ENDPOINT);
  IS(h3_open_request(e, NULL, NULL), H3_ARGUMENT);
  IS(h3_next_request_id(e, NULL, NULL), H3_ARGUMENT);
  IS(h3_send_head(e, id, NULL, NULL, 1, ":methodGET", 10, NULL), H3_ARGUMENT);
  IS(h3_send_head(e, id, &f, NULL, 1, NULL, 10, NULL), H3_ARGUMENT);
  IS(h3_send_trailer(e, id, NULL, NULL, 1, ":methodGET", 10, NULL), H3_ARGUMENT);
  IS(h3_send_trailer(e, id, &f, NULL, 1, NULL, 10, NULL), H3_ARGUMENT);
  IS(h3_send_body(e, id, NULL, 64, NULL), H3_ARGUMENT);
  IS(h3_read(e, id, NULL, 64, 0, &n, &item, NULL), H3_ARGUMENT);
  IS(h3_read(e, id, "ab", 2, 0, NULL, &item, NULL), H3_ARGUMENT);
  IS(h3_read(e, id, "ab", 2, 0, &n, NULL, NULL), H3_ARGUMENT);
  HOLDS(n == 7 && item.kind == 99);
  IS(h3_read(e, id, NULL, 0, 0, &n, &item, NULL), H3_OK);
  HOLDS(n == 0 && item.kind == H3_PENDING);
  IS(h3_deliver(e, id, NULL, 64, NULL), H3_ARGUMENT);
  IS(h3_deliver(e, id, NULL, 0, NULL), H3_OK);
  IS(h3_next_to_send(e, 0, NULL), H3_ARGUMENT);
  IS(h3_next_unblocked(e, 0, NULL), H3_ARGUMENT);
  IS(h3_outgoing(e, id, b, 4, NULL, NULL, &fin), H3_ARGUMENT);
  IS(h3_outgoing(e, id, NULL, 4, &n, NULL, NULL), H3_OK);
  HOLDS(n == 0);
  IS(h3_pull(e, id, NULL), H3_ARGUMENT);
  IS(h3_item_bytes(e, 0, b, 4, NULL), H3_ARGUMENT);
  IS(h3_stream(e, id, NULL), H3_ARGUMENT);
  IS(h3_stream_kind(e, 3, NULL), H3_ARGUMENT);
  IS(h3_frame_left(e, 3, NULL), H3_ARGUMENT);
  IS(h3_other_type(e, 3, NULL), H3_ARGUMENT);
  IS(h3_close_stream(e, id, NULL, &fin, NULL), H3_ARGUMENT);
  IS(h3_close_stream(e, id, &fin, NULL, NULL), H3_ARGUMENT);
  IS(h3_connection(e, NULL), H3_ARGUMENT);
  IS(h3_next_event(e, NULL, &untouched), H3_ARGUMENT);
  IS(h3_next_event(e, &fin, NULL), H3_ARGUMENT);
  IS(h3_peer_setting(e, 6, NULL), H3_ARGUMENT);
  HOLDS(n == 0);
  HOLDS(!strcmp(h3_answer_text(H3_OK), "H3_OK") && !strcmp(h3_answer_text(H3_NO_ENDPOINT), "H3_NO_ENDPOINT"));
  HOLDS(!strcmp(h3_kind_text(H3_INTERIM), "H3_INTERIM") && !strcmp(h3_kind_text(H3_FAULT_MEMORY), "H3_FAULT_MEMORY"));
  HOLDS(!strcmp(h3_code_text(0x107), "H3_EXCESSIVE_LOAD") && !strcmp(h3_code_text(0x200), "QPACK_DECOMPRESSION_FAILED"));
  HOLDS(!strcmp(h3_code_text(0x111), "an unknown code"));
  HOLDS(h3_error_code(H3_FAULT_CONNECTION, 0x105, 0) == 0x105 && h3_error_code(H3_FAULT_RESET, 7, 0) == 0x10c);
  HOLDS(h3_error_code(H3_FAULT_MALFORMED, H3_NO_HEAD, 1) == 0x10d && h3_error_code(H3_FAULT_MALFORMED, H3_NO_HEAD, 0) == 0x10e);
  HOLDS(h3_error_code(H3_FAULT_MALFORMED, H3_BAD_PATH, 1) == 0x10e && h3_error_code(H3_FAULT_MALFORMED, H3_TOO_LONG, 1) == 0x107);
  HOLDS(h3_error_code(H3_FAULT_CANCELED, 0, 1) == 0x10c && h3_error_code(H3_FAULT_MEMORY, 0, 1) == 0x102);
  HOLDS(h3_error_code(H3_BODY, 0, 1) == 0x100);
  HOLDS(!strcmp(h3_malformation_text(H3_BAD_NAME), "H3_BAD_NAME") && !strcmp(h3_malformation_text(H3_TOO_LONG), "H3_TOO_LONG"));
  HOLDS(!strcmp(h3_answer_text(99), "an unknown answer") && !strcmp(h3_kind_text(0), "an unknown kind"));
  HOLDS(!strcmp(h3_malformation_text(H3_TOO_LONG + 1), "an unknown malformation"));
}

static void of_new(void) {
  h3_endpoint e = H3_NONE_YET;
  h3_config c;
  uint64_t detail = 9;
  plain_config(&c);
  c.grease = UINT64_C(0x210842108421083);
  IS(h3_new(&e, &c, &detail), H3_ARGUMENT);
  HOLDS(!e.at && detail == 0);
  c.grease--;
  c.send_grease = 1;
  IS(h3_new(&e, &c, NULL), H3_OK);
  h3_free(&e);
  HOLDS(!e.at);
  c.table = UINT64_C(1) << 30;
  c.blocked = 65536;
  IS(h3_new(&e, &c, &detail), H3_TABLE_LIMIT);
  HOLDS(!e.at);
  c.table--;
  IS(h3_new(&e, &c, &detail), H3_BLOCKED_LIMIT);
  c.blocked--;
  c.max_field_section_size = FAR;
  IS(h3_new(&e, &c, &detail), H3_SETTING);
  HOLDS(!e.at && detail == 6);
  c.max_field_section_size--;
  c.unfinished_limit = (UINT64_C(1) << 62) - 2;
  IS(h3_new(&e, &c, &detail), H3_UNFINISHED_LIMIT); /* below four times the section size, */
  HOLDS(!e.at && detail == 0);
  c.max_field_section_size = 10;
  c.table = 10000;
  c.unfinished_limit = 39999;
  IS(h3_new(&e, &c, &detail), H3_UNFINISHED_LIMIT); /* or four times the table, */
  c.table = 0;
  c.unfinished_limit = 255;
  IS(h3_new(&e, &c, &detail), H3_UNFINISHED_LIMIT); /* or 256 */
  c.max_field_section_size = FAR - 1;
  c.unfinished_limit = 0;
  c.max_webtransport_sessions = FAR;
  IS(h3_new(&e, &c, &detail), H3_SETTING);
  HOLDS(detail == UINT64_C(0x2b603743));
  c.max_webtransport_sessions = 0;
  IS(h3_new(&e, &c, &detail), H3_OK);
  HOLDS(detail == 0);
  h3_free(&e);
}

/* what an endpoint announces: the bytes of its control stream */
static size_t announces(const h3_config *config, uint8_t *bytes, size_t room) {
  h3_endpoint e = H3_NONE_YET;
  size_t n = 0;
  IS(h3_new(&e, config, NULL), H3_OK);
  IS(h3_outgoing(&e, h3_control_id(0), bytes, room, &n, NULL, NULL), H3_OK);
  h3_free(&e);
  return n;
}

/* a configuration by its size: a shorter one has the defaults of what it lacks, and a size that is none is refused */
static void of_sizes(void) {
  enum { ALL = sizeof(h3_config) / sizeof(uint64_t) };
  const uint64_t none[] = {0, 1, 7, sizeof(h3_config) - 1, sizeof(h3_config) + 1, sizeof(h3_config) + 8, UINT64_MAX};
  h3_endpoint e = H3_NONE_YET;
  h3_config c;
  uint64_t detail, more[ALL + 2];
  uint8_t one[64], other[64];
  h3_config_default(&c);
  HOLDS(c.size == sizeof c);
  for (size_t i = 0; i < sizeof none / sizeof *none; i++) {
    c.size = none[i];
    e.at = &c;
    detail = 9;
    IS(h3_new(&e, &c, &detail), H3_ARGUMENT);
    HOLDS(e.at == &c && detail == 0); /* what it held stays */
  }
  /* as of a program whose header knew the first numbers alone, at the end of its memory */
  for (size_t count = 1; count <= ALL; count++) {
    uint64_t *few = malloc(count * sizeof *few);
    if (!few) exit(1);
    h3_raw_config_default(few, count);
    HOLDS(few[0] == count * sizeof *few);
    h3_config_default(&c);
    for (size_t i = 1; i < count && i <= 4; i++) few[i] = ((uint64_t *)&c)[i] = i == 2 ? 1 : 3;
    size_t n = announces((const h3_config *)few, one, sizeof one);
    HOLDS(n > 8 && n == announces(&c, other, sizeof other) && !memcmp(one, other, n));
    free(few);
  }
  /* a row that is longer than the library knows: its own numbers are written, and it is refused, as a size is that is not the row's */
  memset(more, 0xee, sizeof more);
  h3_raw_config_default(more, ALL + 1);
  h3_config_default(&c);
  HOLDS(more[0] == 8 * (ALL + 1) && !memcmp(more + 1, (uint64_t *)&c + 1, 8 * (ALL - 1)));
  HOLDS(more[ALL] == UINT64_C(0xeeeeeeeeeeeeeeee) && more[ALL + 1] == more[ALL]);
  e.at = NULL;
  IS(h3_raw_new(more, ALL + 1, &detail, &e), H3_ARGUMENT);
  IS(h3_raw_new(more, ALL, &detail, &e), H3_ARGUMENT);
  IS(h3_raw_new(more, 0, &detail, &e), H3_ARGUMENT);
  HOLDS(!e.at);
}

/* the numbers behind those that are announced have their defaults too: a program that knows of no `encoder_table` has one of 4,096 bytes */
static void of_shorter_tables(void) {
  enum { KNOWN = offsetof(h3_config, encoder_table) / sizeof(uint64_t) };
  uint64_t few[KNOWN];
  h3_endpoint e = H3_NONE_YET;
  uint8_t bytes[8];
  size_t n = 0;
  h3_raw_config_default(few, KNOWN);
  IS(h3_new(&e, (const h3_config *)few, NULL), H3_OK);
  IS(h3_deliver(&e, 3, "\0\4\5\1\x50\0\7\20", 8, NULL), H3_OK);
  IS(h3_outgoing(&e, h3_encoder_id(0), bytes, sizeof bytes, &n, NULL, NULL), H3_OK);
  HOLDS(n == 4 && !memcmp(bytes, "\2\x3f\xe1\x1f", n));
  h3_free(&e);
}

/* the next request's id is told before it is given, and nothing is opened */
static void of_next_ids(void) {
  h3_endpoint e = H3_NONE_YET;
  h3_config c;
  uint64_t id = 5, detail = 9;
  h3_stream_state s;
  plain_config(&c);
  IS(h3_new(&e, &c, NULL), H3_OK);
  for (uint64_t next = 0; next < 40; next += 4) {
    IS(h3_next_request_id(&e, &id, &detail), H3_OK);
    HOLDS(id == next && detail == 0);
    IS(h3_next_request_id(&e, &id, NULL), H3_OK);
    HOLDS(id == next);
    IS(h3_finish(&e, next, NULL), H3_NOT_OPEN);
    IS(h3_stream(&e, next, &s), H3_OK);
    HOLDS(!s.has_outgoing);
    IS(h3_open_request(&e, &id, NULL), H3_OK);
    HOLDS(id == next);
  }
  /* GOAWAY of the peer with the id 8, and then a frame that a control stream does not have (RFC 9114, sections 5.2 and 7.2.1) */
  IS(h3_deliver(&e, 3, "\0\4\0\7\1\x8", 6, NULL), H3_OK);
  id = 5;
  IS(h3_next_request_id(&e, &id, &detail), H3_GOING_AWAY);
  HOLDS(id == 5 && detail == 8);
  IS(h3_open_request(&e, &id, &detail), H3_GOING_AWAY);
  IS(h3_deliver(&e, 3, "\0\0", 2, NULL), H3_CONNECTION);
  IS(h3_next_request_id(&e, &id, &detail), H3_CLOSED);
  HOLDS(id == 5 && detail == 0x105);
  h3_free(&e);
  c.server = 1;
  IS(h3_new(&e, &c, NULL), H3_OK);
  IS(h3_next_request_id(&e, &id, &detail), H3_NOT_CLIENT);
  HOLDS(id == 5 && detail == 0);
  h3_free(&e);
}

static void of_ids(h3_endpoint *e) {
  uint64_t detail, ids[3] = {FAR, FAR + 1, UINT64_MAX};
  size_t n = 7;
  uint8_t b[4];
  h3_item item;
  h3_stream_state s;
  h3_field_size f = {7, 3};
  for (int i = 0; i < 3; i++) {
    IS(h3_send_head(e, ids[i], &f, NULL, 1, ":methodGET", 10, &detail), H3_ARGUMENT);
    IS(h3_send_trailer(e, ids[i], &f, NULL, 1, ":methodGET", 10, &detail), H3_ARGUMENT);
    IS(h3_send_head(e, ids[i], &f, NULL, 1, ":methodGET", 10, &detail), H3_ARGUMENT);
    IS(h3_send_trailer(e, ids[i], &f, NULL, 1, ":methodGET", 10, &detail), H3_ARGUMENT);
    IS(h3_send_body(e, ids[i], "ab", 2, &detail), H3_ARGUMENT);
    IS(h3_send_body_of(e, ids[i], 2, &detail), H3_ARGUMENT);
    n = 7;
    item.kind = 99;
    IS(h3_read(e, ids[i], "ab", 2, 1, &n, &item, &detail), H3_ARGUMENT);
    HOLDS(n == 0 && item.kind == 99);
    n = 7;
    IS(h3_finish(e, ids[i], &detail), H3_ARGUMENT);
    IS(h3_reset(e, ids[i], &detail), H3_ARGUMENT);
    IS(h3_cancel(e, ids[i], &detail), H3_ARGUMENT);
    IS(h3_goaway(e, ids[i], &detail), H3_ARGUMENT);
    IS(h3_outgoing(e, ids[i], b, 4, &n, NULL, NULL), H3_ARGUMENT);
    IS(h3_advance(e, ids[i], 0), H3_ARGUMENT);
    IS(h3_deliver(e, ids[i], "ab", 2, &detail), H3_ARGUMENT);
    IS(h3_deliver_end(e, ids[i], &detail), H3_ARGUMENT);
    IS(h3_deliver_reset(e, ids[i], 0, &detail), H3_ARGUMENT);
    IS(h3_pull(e, ids[i], &item), H3_ARGUMENT);
    IS(h3_stream(e, ids[i], &s), H3_ARGUMENT);
    uint64_t next = 8;
    uint32_t fin = 9;
    IS(h3_next_to_send(e, ids[i], &next), H3_NONE);
    IS(h3_end_taken(e, ids[i]), H3_ARGUMENT);
    IS(h3_outgoing(e, ids[i], b, 4, &n, NULL, &fin), H3_ARGUMENT);
    HOLDS(detail == 0 && n == 7 && next == 8 && fin == 9);
  }
}

static void of_fields(h3_endpoint *e, uint64_t id) {
  h3_field_size sizes[2] = {{7, 3}, {3, 1}}, empty = {0, 0}, upper = {3, 1}, huge = {UINT32_MAX, UINT32_MAX};
  static const char row[] = ":methodGETx-ab";
  IS(h3_send_head(e, id, sizes, NULL, 2, row, 13, NULL), H3_ARGUMENT);
  IS(h3_send_head(e, id, sizes, NULL, 2, row, 15, NULL), H3_ARGUMENT);
  IS(h3_send_head(e, id, sizes, NULL, 1, row, 14, NULL), H3_ARGUMENT);
  IS(h3_send_head(e, id, &huge, NULL, 1, row, 14, NULL), H3_ARGUMENT);
  IS(h3_send_head(e, id, &empty, NULL, 1, NULL, 0, NULL), H3_FIELD_NAME);
  IS(h3_send_head(e, id, &upper, NULL, 1, "X-ab", 4, NULL), H3_FIELD_NAME);
  IS(h3_send_head(e, id, &upper, NULL, 1, ":-ab", 4, NULL), H3_FIELD_NAME);
  IS(h3_send_head(e, id, &upper, NULL, 1, "x-a\n", 4, NULL), H3_FIELD_VALUE);
  IS(h3_send_head(e, id, &(h3_field_size){7, 3}, NULL, 1, ":methodG T", 10, NULL), H3_FIELD_VALUE);
  IS(h3_send_head(e, id, NULL, NULL, 0, NULL, 0, NULL), H3_WRONG_SIDE);
  IS(h3_send_head(e, id, &(h3_field_size){7, 3}, NULL, 1, ":status200", 10, NULL), H3_WRONG_SIDE);
  IS(h3_send_trailer(e, id, NULL, NULL, 0, NULL, 0, NULL), H3_OUT_OF_ORDER);
  IS(h3_send_head(e, id, sizes, NULL, 2, row, 14, NULL), H3_OK);
  IS(h3_send_head(e, id, sizes, NULL, 2, row, 14, NULL), H3_OUT_OF_ORDER);
  IS(h3_send_trailer(e, id, sizes, NULL, 1, row, 10, NULL), H3_PSEUDO_IN_TRAILER);
  IS(h3_send_trailer(e, id, NULL, NULL, 0, NULL, 0, NULL), H3_OK);
}

/* the bytes that wait on a stream are taken, and are these: HEADERS frames of static entries (RFC 9204, section 4.5.2) */
static void of_bytes(h3_endpoint *e, uint64_t id, const void *bytes, size_t len) {
  uint8_t buffer[64];
  size_t n = 0;
  IS(h3_outgoing(e, id, buffer, sizeof buffer, &n, NULL, NULL), H3_OK);
  HOLDS(n == len && !memcmp(buffer, bytes, len));
  IS(h3_advance(e, id, n), H3_OK);
}

/* a list goes out in its order; what refuses it, and in which order */
static void of_lists(void) {
  h3_endpoint client = H3_NONE_YET, server = H3_NONE_YET;
  h3_config c;
  uint64_t id;
  h3_field_size get = {7, 3}, status = {7, 3}, upper = {3, 1}, twice[2] = {{7, 3}, {7, 4}}, behind[2] = {{13, 5}, {7, 3}};
  plain_config(&c);
  IS(h3_new(&client, &c, NULL), H3_OK);
  c.server = 1;
  IS(h3_new(&server, &c, NULL), H3_OK);
  /* what the stream refuses comes before what is malformed, and that before the side */
  IS(h3_send_head(&client, 0, &upper, NULL, 1, "X-ab", 4, NULL), H3_NOT_OPEN);
  IS(h3_send_trailer(&client, 0, &upper, NULL, 1, "X-ab", 4, NULL), H3_NOT_OPEN);
  IS(h3_open_request(&client, &id, NULL), H3_OK);
  IS(h3_send_head(&client, id, &get, NULL, 1, ":methodGET", 9, NULL), H3_ARGUMENT);
  IS(h3_send_trailer(&client, id, &upper, NULL, 1, "X-ab", 4, NULL), H3_OUT_OF_ORDER);
  IS(h3_send_head(&client, id, &upper, NULL, 1, "X-ab", 4, NULL), H3_FIELD_NAME);
  IS(h3_send_head(&client, id, &upper, NULL, 1, "x-a\n", 4, NULL), H3_FIELD_VALUE);
  IS(h3_send_head(&client, id, &get, NULL, 1, ":methodG T", 10, NULL), H3_FIELD_VALUE);
  IS(h3_send_head(&client, id, &status, NULL, 1, ":status200", 10, NULL), H3_WRONG_SIDE);
  IS(h3_send_head(&client, id, NULL, NULL, 0, NULL, 0, NULL), H3_WRONG_SIDE);
  /* the pseudo-header field stays behind: entries 32 (accept-ranges: bytes) and 17 (:method: GET) of the static table */
  IS(h3_send_head(&client, id, behind, NULL, 2, "accept-rangesbytes:methodGET", 28, NULL), H3_OK);
  of_bytes(&client, id, "\x01\x04\x00\x00\xe0\xd1", 6);
  IS(h3_send_head(&client, id, &get, NULL, 1, ":methodGET", 10, NULL), H3_OUT_OF_ORDER);
  IS(h3_send_trailer(&client, id, &get, NULL, 1, ":methodGET", 10, NULL), H3_PSEUDO_IN_TRAILER);
  IS(h3_send_trailer(&client, id, &upper, NULL, 1, "X-ab", 4, NULL), H3_FIELD_NAME);
  IS(h3_send_trailer(&client, id, NULL, NULL, 0, NULL, 0, NULL), H3_OK);
  of_bytes(&client, id, "\x01\x02\x00\x00", 4);
  /* a field that comes twice stays twice */
  IS(h3_open_request(&client, &id, NULL), H3_OK);
  IS(h3_send_head(&client, id, twice, NULL, 2, ":methodGET:methodPOST", 21, NULL), H3_OK);
  of_bytes(&client, id, "\x01\x04\x00\x00\xd1\xd4", 6);
  /* an interim head, and then the final one */
  IS(h3_deliver(&server, 0, "\x01\x03\x00\x00\xd1", 5, NULL), H3_OK);
  IS(h3_send_head(&server, 0, &status, NULL, 1, ":status103", 10, NULL), H3_OK);
  of_bytes(&server, 0, "\x01\x03\x00\x00\xd8", 5);
  IS(h3_send_head(&server, 0, &status, NULL, 1, ":status200", 10, NULL), H3_OK);
  of_bytes(&server, 0, "\x01\x03\x00\x00\xd9", 5);
  IS(h3_send_head(&server, 0, &status, NULL, 1, ":status200", 10, NULL), H3_OUT_OF_ORDER);
  h3_free(&client);
  h3_free(&server);
}

/* a strict endpoint sends no list that a strict peer would call malformed */
static void of_strict_lists(void) {
  h3_endpoint client = H3_NONE_YET;
  h3_config c;
  uint64_t id, rule = 99;
  h3_field_size get = {7, 3}, request[5] = {{7, 3}, {7, 5}, {10, 1}, {5, 1}, {5, 1}}, behind[2] = {{3, 1}, {7, 3}}, host = {4, 1}, spaced = {3, 2};
  const char *twice = ":methodGET:schemehttps:authoritya:path/:path/";
  h3_config_default(&c);
  c.strict = 1;
  IS(h3_new(&client, &c, NULL), H3_OK);
  IS(h3_open_request(&client, &id, NULL), H3_OK);
  IS(h3_send_head(&client, id, &get, NULL, 1, ":methodGET", 10, &rule), H3_MALFORMED);
  HOLDS(rule == H3_MISSING_PSEUDO_FIELD);
  IS(h3_send_head(&client, id, behind, NULL, 2, "x-a1:methodGET", 14, &rule), H3_MALFORMED);
  HOLDS(rule == H3_LATE_PSEUDO_FIELD);
  IS(h3_send_head(&client, id, request, NULL, 5, twice, 45, &rule), H3_MALFORMED);
  HOLDS(rule == H3_REPEATED_PSEUDO_FIELD);
  of_bytes(&client, id, "", 0);
  IS(h3_send_head(&client, id, request, NULL, 4, twice, 39, NULL), H3_OK);
  IS(h3_send_trailer(&client, id, &host, NULL, 1, "hosta", 5, &rule), H3_MALFORMED);
  HOLDS(rule == H3_NO_TRAILER_FIELD);
  IS(h3_send_trailer(&client, id, &spaced, NULL, 1, "x-a b", 5, NULL), H3_FIELD_VALUE);
  h3_free(&client);
}

/* a strict endpoint sends as much content as its head says: a server by what was asked */
static void of_strict_content(void) {
  h3_endpoint client = H3_NONE_YET, server = H3_NONE_YET;
  h3_config c;
  h3_item item;
  uint64_t id, rule = 99;
  h3_field_size post[5] = {{7, 4}, {7, 5}, {10, 1}, {5, 1}, {14, 1}}, ok[2] = {{7, 3}, {14, 1}}, trailer = {3, 1};
  h3_config_default(&c);
  IS(h3_new(&client, &c, NULL), H3_OK);
  IS(h3_open_request(&client, &id, NULL), H3_OK);
  IS(h3_send_head(&client, id, post, NULL, 5, ":methodPOST:schemehttps:authoritya:path/content-length3", 55, NULL), H3_OK);
  IS(h3_send_body(&client, id, "ab", 2, NULL), H3_OK);
  IS(h3_send_body(&client, id, "cd", 2, &rule), H3_MALFORMED);
  HOLDS(rule == H3_BAD_CONTENT_LENGTH);
  IS(h3_send_body_of(&client, id, 2, &rule), H3_MALFORMED);
  HOLDS(rule == H3_BAD_CONTENT_LENGTH);
  IS(h3_finish(&client, id, &rule), H3_MALFORMED);
  HOLDS(rule == H3_BAD_CONTENT_LENGTH);
  IS(h3_send_trailer(&client, id, &trailer, NULL, 1, "x-a1", 4, &rule), H3_MALFORMED);
  HOLDS(rule == H3_BAD_CONTENT_LENGTH);
  IS(h3_send_body(&client, id, "c", 1, NULL), H3_OK);
  IS(h3_send_trailer(&client, id, &trailer, NULL, 1, "x-a1", 4, NULL), H3_OK);
  IS(h3_finish(&client, id, NULL), H3_OK);
  h3_free(&client);

  c.server = 1;
  IS(h3_new(&server, &c, NULL), H3_OK);
  /* HEAD has a response without content, whatever its length; GET has one with it */
  IS(h3_deliver(&server, 0, "\x01\x08\x00\x00\xd2\xd7\x50\x01\x61\xc1", 10, NULL), H3_OK);
  IS(h3_deliver(&server, 4, "\x01\x08\x00\x00\xd1\xd7\x50\x01\x61\xc1", 10, NULL), H3_OK);
  for (id = 0; id <= 4; id += 4) {
    IS(h3_pull(&server, id, &item), H3_OK);
    HOLDS(item.kind == H3_HEAD && item.fields == 4);
    IS(h3_send_head(&server, id, ok, NULL, 2, ":status200content-length5", 25, NULL), H3_OK);
    IS(h3_send_body(&server, id, "abcdef", 6, &rule), H3_MALFORMED);
    HOLDS(rule == H3_BAD_CONTENT_LENGTH);
  }
  IS(h3_finish(&server, 0, NULL), H3_OK);
  IS(h3_finish(&server, 4, &rule), H3_MALFORMED);
  IS(h3_send_body(&server, 4, "abcde", 5, NULL), H3_OK);
  IS(h3_finish(&server, 4, NULL), H3_OK);
  h3_free(&server);
}

static void of_counts(h3_endpoint *e, uint64_t id) {
  h3_stream_state s;
  size_t n = 0, m = 0;
  uint8_t b[64], c[64];
  IS(h3_stream(e, id, &s), H3_OK);
  HOLDS(s.waiting > 4);
  IS(h3_advance(e, id, s.waiting + 1), H3_ARGUMENT);
  IS(h3_advance(e, id, SIZE_MAX), H3_ARGUMENT);
  /* a buffer of no bytes gets none, and what waits goes on waiting */
  IS(h3_outgoing(e, id, NULL, 64, &n, NULL, NULL), H3_OK);
  HOLDS(n == 0);
  IS(h3_outgoing(e, id, b, 0, &n, NULL, NULL), H3_OK);
  HOLDS(n == 0);
  IS(h3_outgoing(e, id, b, 3, &n, NULL, NULL), H3_OK);
  HOLDS(n == 3);
  memset(c, 0xee, sizeof c);
  IS(h3_outgoing(e, id, c, 64, &m, NULL, NULL), H3_OK);
  HOLDS(m == s.waiting && !memcmp(b, c, 3) && c[m] == 0xee);
  /* what was advanced over is gone, and no more */
  IS(h3_advance(e, id, 3), H3_OK);
  IS(h3_outgoing(e, id, b, 64, &n, NULL, NULL), H3_OK);
  HOLDS(n == m - 3 && !memcmp(b, c + 3, n));
}

/* a configuration of a program whose header knew no any_protocol: any token is taken, as by default (RFC 8441, section 4) */
static void of_rows_before_protocols(void) {
  enum { FEW = offsetof(h3_config, any_protocol) / sizeof(uint64_t) };
  static const char bytes[] = ":methodCONNECT:protocolwebsocket:schemehttps:authoritya:path/";
  static const h3_field_size fields[] = {{7, 7}, {9, 9}, {7, 5}, {10, 1}, {5, 1}};
  h3_endpoint e = H3_NONE_YET;
  uint64_t few[FEW], id, detail;
  h3_raw_config_default(few, FEW);
  few[offsetof(h3_config, strict) / sizeof *few] = 0;
  IS(h3_raw_new(few, FEW, &detail, &e), H3_OK);
  IS(h3_open_request(&e, &id, NULL), H3_OK);
  IS(h3_send_head(&e, id, fields, NULL, 5, bytes, sizeof bytes - 1, &detail), H3_OK);
  h3_free(&e);
}

/* and of one whose header knew no guard_secrets and no shortest_strings: both are set (RFC 9204, sections 7.1.3 and 4.1.2) */
static void of_rows_before_guards(void) {
  enum { FEW = offsetof(h3_config, guard_secrets) / sizeof(uint64_t) };
  static const char bytes[] = ":methodGET:schemehttps:authoritya:path/authorizationa";
  static const h3_field_size fields[] = {{7, 3}, {7, 5}, {10, 1}, {5, 1}, {13, 1}};
  static const uint8_t wanted[] = {1, 12, 0, 0, 0xd1, 0xd7, 0x50, 1, 'a', 0xc1, 0x7f, 0x45, 1, 'a'};
  h3_endpoint e = H3_NONE_YET;
  uint64_t few[FEW], id, detail;
  uint8_t b[64];
  size_t n = 0;
  h3_raw_config_default(few, FEW);
  IS(h3_raw_new(few, FEW, &detail, &e), H3_OK);
  IS(h3_open_request(&e, &id, NULL), H3_OK);
  IS(h3_send_head(&e, id, fields, NULL, 5, bytes, sizeof bytes - 1, &detail), H3_OK);
  IS(h3_outgoing(&e, id, b, sizeof b, &n, NULL, NULL), H3_OK);
  HOLDS(n == sizeof wanted && !memcmp(b, wanted, n));
  h3_free(&e);
}

/* and of one whose header knew no strict_connection: it is set */
static void of_rows_before_strict_connections(void) {
  enum { FEW = offsetof(h3_config, strict_connection) / sizeof(uint64_t) };
  h3_endpoint e = H3_NONE_YET;
  uint64_t few[FEW], detail;
  h3_raw_config_default(few, FEW);
  IS(h3_raw_new(few, FEW, &detail, &e), H3_OK);
  IS(h3_deliver(&e, 3, "\0\x21\0", 3, &detail), H3_CONNECTION); /* a frame before the settings */
  HOLDS(detail == 0x10a);
  h3_free(&e);
}

/* and of one whose header knew no priority_updates: those of 100 streams are kept */
static void of_rows_before_updates(void) {
  enum { FEW = offsetof(h3_config, priority_updates) / sizeof(uint64_t) };
  h3_endpoint e = H3_NONE_YET;
  uint64_t few[FEW], detail;
  h3_raw_config_default(few, FEW);
  few[offsetof(h3_config, server) / sizeof *few] = 1;
  IS(h3_raw_new(few, FEW, &detail, &e), H3_OK);
  IS(h3_deliver(&e, 2, "\0\4\0\x80\xf\7\0\0", 8, &detail), H3_CONNECTION); /* a PRIORITY_UPDATE without an id */
  HOLDS(detail == 0x106);
  h3_free(&e);
}

/* and of one whose header knew no other_settings: none are kept, and no streams of unknown types are handed out */
static void of_rows_before_others(void) {
  enum { FEW = offsetof(h3_config, other_settings) / sizeof(uint64_t) };
  h3_endpoint e = H3_NONE_YET;
  uint64_t few[FEW], detail, value;
  uint32_t type = 0;
  h3_raw_config_default(few, FEW);
  few[offsetof(h3_config, server) / sizeof *few] = 1;
  IS(h3_raw_new(few, FEW, &detail, &e), H3_OK);
  IS(h3_deliver(&e, 2, "\0\4\3\x40\x99\7", 6, &detail), H3_OK);
  IS(h3_peer_setting(&e, 0x99, &value), H3_NONE);
  IS(h3_deliver(&e, 6, "\x40\x99\7", 3, &detail), H3_OK);
  IS(h3_stream_kind(&e, 6, &type), H3_OK);
  HOLDS(type == H3_STREAM_UNKNOWN);
  h3_free(&e);
}

/* the limits of a default endpoint, and what it announces: a control stream with one SETTINGS frame (RFC 9114, sections 6.2.1 and 7.2.4) */
static void of_default(void) {
  static const uint8_t announced[] = {0, 4, 24, 6, 0x80, 1, 0, 0, 8, 0, 0xab, 0x60, 0x37, 0x42, 0, 0x33, 0, 0xab, 0x60, 0x37, 0x43, 0, 1, 0x50, 0, 7, 16};
  h3_endpoint e = H3_NONE_YET;
  h3_config c;
  uint8_t b[64];
  size_t n = 0;
  memset(&c, 0xee, sizeof c);
  plain_config(&c);
  HOLDS(c.max_field_section_size == 65536 && c.table == 4096 && c.blocked == 16);
  HOLDS(c.max_webtransport_sessions == 0 && c.grease == 0 && c.server == 0 && c.send_grease == 0 && c.webtransport == 0);
  HOLDS(c.extended_connect == 0 && c.datagram == 0 && c.reject_requests == 1 && c.any_protocol == 1);
  HOLDS(c.guard_secrets == 1 && c.shortest_strings == 1 && c.strict_connection == 1 && c.priority_updates == 100 && c.other_settings == 0 && c.other_streams == 0 && c.sessions == 0);
  IS(h3_new(&e, &c, NULL), H3_OK);
  IS(h3_outgoing(&e, h3_control_id(0), b, sizeof b, &n, NULL, NULL), H3_OK);
  HOLDS(n == sizeof announced && !memcmp(b, announced, n));
  h3_free(&e);
}

static void of_items(void) {
  h3_endpoint e = H3_NONE_YET;
  h3_config config;
  h3_item item, same;
  size_t n = 7;
  uint8_t b[64];
  h3_field_size sizes[4] = {{0, 0}};
  /* HEADERS with :method GET, :scheme https, :authority "a", :path / (RFC 9204, appendix A and section 4.5.4), then DATA "hi" */
  static const uint8_t request[] = {1, 7, 0, 0, 0xd1, 0xd7, 0x50, 1, 'a', 0, 2, 'h', 'i'};
  plain_config(&config);
  config.server = 1;
  IS(h3_new(&e, &config, NULL), H3_OK);
  IS(h3_item_fields(&e, sizes, NULL, 4, b, 64), H3_OK); /* an item without fields: nothing is written */
  IS(h3_item_bytes(&e, 0, b, 64, &n), H3_NONE);
  HOLDS(n == 7);
  IS(h3_deliver(&e, 0, request, sizeof request, NULL), H3_OK);
  IS(h3_pull(&e, 0, &item), H3_OK);
  HOLDS(item.kind == H3_HEAD && item.fields == 3 && item.len == 33);
  memset(b, 0xee, sizeof b);
  IS(h3_item_fields(&e, sizes, NULL, 2, b, 64), H3_ROOM);
  IS(h3_item_fields(&e, sizes, NULL, 4, b, 32), H3_ROOM);
  HOLDS(b[0] == 0xee && !sizes[0].name);
  /* a refused pull leaves the item */
  memset(&same, 0x55, sizeof same);
  IS(h3_pull(&e, FAR, &same), H3_ARGUMENT);
  HOLDS(same.kind == 0x55555555);
  IS(h3_item_fields(&e, sizes, NULL, 4, b, 64), H3_OK);
  HOLDS(sizes[0].name == 7 && sizes[0].value == 3 && sizes[1].name == 7 && sizes[1].value == 5 && sizes[2].name == 10 && sizes[2].value == 1);
  HOLDS(!memcmp(b, ":methodGET:schemehttps:authoritya\xee", 34) && !sizes[3].name);
  IS(h3_item_bytes(&e, 0, b, 64, &n), H3_NONE);
  IS(h3_pull(&e, 0, &item), H3_OK);
  HOLDS(item.kind == H3_BODY && item.len == 2);
  b[0] = 0xee;
  IS(h3_item_fields(&e, sizes, NULL, 4, b, 64), H3_OK);
  HOLDS(b[0] == 0xee);
  IS(h3_item_bytes(&e, 0, b, 1, &n), H3_OK);
  HOLDS(n == 1 && b[0] == 'h');
  IS(h3_item_bytes(&e, 1, b, 64, &n), H3_OK);
  HOLDS(n == 1 && b[0] == 'i');
  IS(h3_item_bytes(&e, 2, b, 64, &n), H3_NONE);
  IS(h3_item_bytes(&e, SIZE_MAX, b, 64, &n), H3_NONE);
  /* an own stream, one of the other side, and one behind its end */
  uint64_t detail = 1;
  IS(h3_deliver(&e, 3, "x", 1, &detail), H3_NOT_RECEIVING);
  IS(h3_deliver(&e, 1, "x", 1, &detail), H3_NOT_OPEN);
  IS(h3_deliver_end(&e, 0, &detail), H3_OK);
  IS(h3_deliver(&e, 0, "x", 1, &detail), H3_AFTER_END);
  /* a fault of the connection: DATA on the control stream before SETTINGS (RFC 9114, section 6.2.1) */
  IS(h3_deliver(&e, 2, "\0\0", 3, &detail), H3_CONNECTION);
  HOLDS(detail == 0x10a);
  IS(h3_deliver(&e, 2, "x", 1, &detail), H3_CONNECTION);
  HOLDS(detail == 0x10a);
  IS(h3_goaway(&e, 0, &detail), H3_CLOSED);
  IS(h3_first_unseen(&e, NULL), H3_ARGUMENT);
  IS(h3_is_drained(&e, NULL), H3_ARGUMENT);
  HOLDS(detail == 0x10a);
  IS(h3_pull(&e, 0, &item), H3_OK);
  HOLDS(item.kind == H3_FAULT_CONNECTION && item.number == 0x10a);
  h3_free(&e);
}

/* a sweep finds the streams on which bytes wait, in order, and no others; where there is none no id is written */
static void of_sweep(h3_endpoint *e, uint64_t end, unsigned count) {
  uint64_t next = 0, found;
  unsigned seen = 0;
  for (uint64_t id = 0; id < end; id++) {
    h3_stream_state s;
    IS(h3_stream(e, id, &s), H3_OK);
    if (!s.waiting) continue;
    found = 1;
    IS(next_with_bytes(e, next, &found), H3_OK);
    HOLDS(found == id);
    found = 1;
    IS(next_with_bytes(e, id, &found), H3_OK);
    HOLDS(found == id);
    next = id + 1;
    seen++;
  }
  found = 1;
  IS(next_with_bytes(e, next, &found), H3_NONE);
  HOLDS(found == 1 && seen == count);
}

enum { STREAMS = 300 };

/* an end waits behind the bytes of its stream until it is taken, once, or the stream is reset; streams that are over keep their ends */
static void of_ends(void) {
  h3_endpoint e = H3_NONE_YET;
  h3_config c;
  h3_stream_state s;
  uint64_t id, found;
  h3_field_size f = {7, 3};
  plain_config(&c);
  IS(h3_new(&e, &c, NULL), H3_OK);
  for (id = 2; id <= 10; id += 4) {
    IS(h3_stream(&e, id, &s), H3_OK);
    IS(h3_advance(&e, id, s.waiting), H3_OK);
    IS(h3_end_taken(&e, id), H3_NONE);
  }
  for (unsigned i = 0; i < STREAMS; i++) {
    IS(h3_open_request(&e, &id, NULL), H3_OK);
    IS(h3_send_head(&e, id, &f, NULL, 1, ":methodGET", 10, NULL), H3_OK);
    IS(h3_stream(&e, id, &s), H3_OK);
    IS(h3_advance(&e, id, s.waiting - 1), H3_OK);
    IS(h3_finish(&e, id, NULL), H3_OK);
    IS(h3_end_taken(&e, id), H3_NONE);
    IS(h3_advance(&e, id, 1), H3_OK);
    IS(next_with_bytes(&e, 0, &found), H3_NONE);
    if (i % 2) IS(h3_deliver_end(&e, id, NULL), H3_OK);
    if (i % 4 == 3) {
      IS(h3_cancel(&e, id, NULL), H3_OK);
      IS(h3_stream(&e, 10, &s), H3_OK);
      IS(h3_advance(&e, 10, s.waiting), H3_OK);
    }
  }
  for (unsigned i = 0; i < STREAMS; i++) {
    found = 1;
    IS(h3_next_to_send(&e, 4 * i - (i ? 3 : 0), &found), H3_OK);
    HOLDS(found == 4 * i);
  }
  for (unsigned i = STREAMS; i-- > 0;)
    if (i % 5) {
      IS(h3_end_taken(&e, 4 * i), H3_OK);
      IS(h3_end_taken(&e, 4 * i), H3_NONE);
      IS(h3_reset(&e, 4 * i, NULL), H3_ENDED);
    }
  unsigned seen = 0;
  for (id = 0; h3_next_to_send(&e, id, &id) == H3_OK; id++) {
    HOLDS(id == 20 * seen);
    seen++;
  }
  HOLDS(seen == STREAMS / 5);
  /* one that is reset behind its head has no end */
  IS(h3_open_request(&e, &id, NULL), H3_OK);
  IS(h3_send_head(&e, id, &f, NULL, 1, ":methodGET", 10, NULL), H3_OK);
  IS(h3_finish(&e, id, NULL), H3_OK);
  IS(h3_next_to_send(&e, id, &found), H3_OK);
  IS(h3_reset(&e, id, NULL), H3_OK);
  found = 1;
  IS(h3_next_to_send(&e, id, &found), H3_NONE);
  HOLDS(found == 1);
  IS(h3_end_taken(&e, id), H3_NONE);
  h3_free(&e);
}

static void of_waiting(void) {
  h3_endpoint e = H3_NONE_YET;
  h3_config c;
  h3_stream_state s;
  uint64_t id, detail;
  h3_field_size f = {7, 3};
  plain_config(&c);
  IS(h3_new(&e, &c, NULL), H3_OK);
  of_sweep(&e, 12, 3);
  for (unsigned i = 0; i < STREAMS; i++) IS(h3_open_request(&e, &id, NULL), H3_OK);
  of_sweep(&e, 4 * STREAMS, 3);
  /* from the last stream to the first one; an empty body, a further one and an end change nothing */
  for (unsigned i = STREAMS; i-- > 0;) IS(h3_send_head(&e, 4 * i, &f, NULL, 1, ":methodGET", 10, NULL), H3_OK);
  for (unsigned i = 0; i < STREAMS; i += 7) {
    IS(h3_send_body(&e, 4 * i, NULL, 0, NULL), H3_OK);
    IS(h3_send_body(&e, 4 * i, "body", 4, NULL), H3_OK);
    IS(h3_finish(&e, 4 * i, NULL), H3_OK);
  }
  of_sweep(&e, 4 * STREAMS, STREAMS + 3);
  /* some of the bytes are taken, and all of them */
  for (unsigned i = 0; i < STREAMS; i += 2) {
    IS(h3_advance(&e, 4 * i, 1), H3_OK);
    IS(h3_stream(&e, 4 * i, &s), H3_OK);
    if (i % 4) IS(h3_advance(&e, 4 * i, s.waiting), H3_OK);
  }
  of_sweep(&e, 4 * STREAMS, STREAMS * 3 / 4 + 3);
  for (id = 2; id <= 10; id += 4) {
    IS(h3_stream(&e, id, &s), H3_OK);
    IS(h3_advance(&e, id, s.waiting), H3_OK);
  }
  /* what was reset is not named, and neither is one whose head is refused for its size (SETTINGS of the peer: no section above 10 bytes) */
  for (unsigned i = 0; i < STREAMS; i++) {
    IS(h3_stream(&e, 4 * i, &s), H3_OK);
    if (s.waiting && i % 3) IS(h3_reset(&e, 4 * i, NULL), H3_OK);
  }
  of_sweep(&e, 4 * STREAMS, STREAMS / 4);
  IS(h3_deliver(&e, 3, "\x00\x04\x02\x06\x0a", 5, NULL), H3_OK);
  IS(h3_open_request(&e, &id, NULL), H3_OK);
  IS(h3_send_head(&e, id, &f, NULL, 1, ":methodGET", 10, &detail), H3_TOO_LARGE);
  of_sweep(&e, 4 * STREAMS + 12, STREAMS / 4);
  /* a server opens none, and no id is written */
  h3_free(&e);
  c.server = 1;
  IS(h3_new(&e, &c, NULL), H3_OK);
  id = 5;
  IS(h3_open_request(&e, &id, NULL), H3_NOT_CLIENT);
  HOLDS(id == 5);
  of_sweep(&e, 12, 3);
  h3_free(&e);
}

/* an increment of 0 is a fault where acknowledgments count, and is taken where they do not */
static void of_increments(void) {
  for (uint32_t counts = 0; counts < 2; counts++) {
    h3_endpoint e = H3_NONE_YET;
    h3_config c;
    uint64_t detail = 0;
    plain_config(&c);
    HOLDS(c.count_acknowledgments == 1);
    c.count_acknowledgments = counts;
    IS(h3_new(&e, &c, NULL), H3_OK);
    IS(h3_deliver(&e, 3, "\0\4\0", 3, NULL), H3_OK);
    IS(h3_deliver(&e, 11, "\3\0", 2, &detail), counts ? H3_CONNECTION : H3_OK);
    HOLDS(detail == (counts ? 0x202 : 0));
    h3_free(&e);
  }
}

/* the lesser of what the peer announces, 4,096 bytes, and of what is given is set, and nothing where that is 0 */
static void of_encoder_tables(void) {
  static const struct {
    uint32_t most;
    const char *wrote;
    size_t len;
  } of[] = {{0, "\2", 1}, {1, "\2\41", 2}, {64, "\2\x3f\x21", 3}, {4096, "\2\x3f\xe1\x1f", 4}, {UINT32_MAX, "\2\x3f\xe1\x1f", 4}};
  for (size_t i = 0; i < sizeof of / sizeof *of; i++) {
    h3_endpoint e = H3_NONE_YET;
    h3_config c;
    uint8_t bytes[8];
    size_t n = 0;
    uint32_t fin;
    plain_config(&c);
    HOLDS(c.encoder_table == 4096 && c.economical_table == 1);
    c.encoder_table = of[i].most;
    IS(h3_new(&e, &c, NULL), H3_OK);
    IS(h3_deliver(&e, 3, "\0\4\5\1\x50\0\7\20", 8, NULL), H3_OK);
    IS(h3_outgoing(&e, h3_encoder_id(0), bytes, sizeof bytes, &n, NULL, &fin), H3_OK);
    HOLDS(n == of[i].len && !memcmp(bytes, of[i].wrote, n));
    h3_free(&e);
  }
}

/* with a word: the library is to say that it was built without proofs */
int main(int argc, char **argv) {
  h3_endpoint e = H3_NONE_YET;
  h3_config c;
  uint64_t id;
  (void)argv;
  HOLDS(h3_version() == (argc > 1 ? H3_VERSION | H3_UNPROVED : H3_VERSION));
  of_none(&e);
  of_new();
  of_sizes();
  of_rows_before_protocols();
  of_rows_before_guards();
  of_rows_before_strict_connections();
  of_rows_before_updates();
  of_rows_before_others();
  of_shorter_tables();
  of_next_ids();
  plain_config(&c);
  IS(h3_new(&e, &c, NULL), H3_OK);
  of_ids(&e);
  IS(h3_open_request(&e, &id, NULL), H3_OK);
  of_fields(&e, id);
  of_lists();
  of_strict_lists();
  of_strict_content();
  of_counts(&e, id);
  of_pointers(&e, id);
  h3_free(&e);
  of_none(&e);
  of_default();
  of_items();
  of_waiting();
  of_ends();
  of_increments();
  of_encoder_tables();
  if (!bad) puts("ok arguments: wrong arguments of every kind are answered, and nothing is done");
  return bad;
}
