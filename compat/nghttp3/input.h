/* input.h: how what comes on a request stream enters the endpoint. Each packet of a body needs this: so it stands here, without a call. */
#ifndef COMPAT_INPUT_H
#define COMPAT_INPUT_H
#include "connection.h"

/* What came in one call on a request stream, without what the endpoint has used of it. */
typedef struct {
  const uint8_t *bytes; /* not NULL, even if the length is 0 */
  size_t length;
  bool has_fin;
} input;

/* What the endpoint told of it. */
typedef struct {
  uint32_t answer;
  bool has_end; /* whether it was given the end */
  size_t used;
  uint64_t detail;
  h3_item item;
  const uint8_t *given; /* the bytes in which a piece of a body lies */
} reading;

/* How many bytes a variable-length integer has that begins with this one (RFC 9000, section 16). */
static inline size_t number_length(uint8_t first) { return (size_t)1 << (first >> 6); }

/* How many of the bytes the endpoint gets at once: all, or a HEADERS frame with which the message begins, if it is whole. The endpoint
 * would take that alone too, but has to look first whether it holds bytes that came before it. */
static inline size_t first_length(const stream *s, const input *in) {
  enum { HEADERS = 1, LONGEST_HEAD = 3 }; /* of a frame of up to 16,383 bytes (RFC 9114, section 7.2.2) */
  if (!s->awaits_head || s->may_be_held || in->length < LONGEST_HEAD || in->bytes[0] != HEADERS) return in->length;
  size_t head = 1 + number_length(in->bytes[1]);
  size_t size = head == 2 ? in->bytes[1] : (size_t)(in->bytes[1] & 0x3f) << 8 | in->bytes[2];
  return head <= LONGEST_HEAD && size <= in->length - head ? head + size : in->length;
}

/* The export that h3_read is made of, which tests no pointers. It may pause before the last byte. */
static inline void read_on(nghttp3_conn *connection, stream *s, input in, bool has_end, reading *to) {
  to->has_end = has_end;
  to->answer = h3_raw_read(connection->endpoint, s->endpoint_id, in.bytes, in.length, has_end, &to->used, &to->item, &to->detail,
                           &connection->endpoint);
}

/* The same of the end alone. Mostly it comes for the first time, and no body has to be looked for. */
static inline void read_end(nghttp3_conn *connection, stream *s, input in, reading *to) {
  h3_endpoint *endpoint = &connection->endpoint;
  to->has_end = true, to->used = 0;
  to->answer = h3_raw_deliver_end(*endpoint, s->endpoint_id, &to->detail, endpoint);
  if (to->answer == H3_OK) to->answer = h3_raw_pull(*endpoint, s->endpoint_id, &to->item, endpoint);
  else if (to->answer != H3_KEPT) read_on(connection, s, in, true, to);
}

#endif
