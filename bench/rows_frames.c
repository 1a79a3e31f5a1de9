/* Frames that are read, of streams that come in pieces. */
#include "measure.h"
#include "rows.h"
#include "session_steps.h"
#include <stdlib.h>
#include <string.h>

enum { FRAMES = 256, PIECE = 100, PAYLOAD = 1020 };

typedef struct {
  pack stream;
  size_t frames, payload; /* how many frames it has, and the bytes of their payloads */
  size_t piece;           /* it comes in pieces of so many bytes */
  nghttp3_conn *peer;
  int64_t id; /* of nghttp3's next stream */
  size_t got; /* bytes of bodies that came out at nghttp3 */
} frame_work;

/* A variable-length integer below 2^14 (RFC 9000, section 16). */
static void put_length(pack *to, size_t n) {
  const uint8_t two[] = {(uint8_t)(64 | n >> 8), (uint8_t)n}, one = (uint8_t)n;
  if (n < 64)
    put_bytes(to, &one, 1);
  else
    put_bytes(to, two, 2);
}

static void add_frame(frame_work *w, uint8_t type, const uint8_t *payload, size_t len) {
  if (len >= 1 << 14) stop("a frame of another length", (long)len);
  put_bytes(&w->stream, &type, 1);
  put_length(&w->stream, len);
  put_bytes(&w->stream, payload, len);
  w->frames++;
  w->payload += len;
}

static void our_frames(void *data, uint64_t rounds) {
  frame_work *w = data;
  h3_report report;
  done("frames_read", h3_bench_frames_read(rounds, w->piece, w->stream.bytes, w->stream.len, &report));
  if (rounds && (report.items != w->frames || report.bytes != w->payload)) stop("frames_read: other counts", (long)report.items);
}

static int on_body(nghttp3_conn *end, int64_t id, const uint8_t *bytes, size_t len, void *data, void *of_stream) {
  ((frame_work *)data)->got += len;
  return 0;
}

/* A stream of nghttp3's server, which comes in the same pieces. */
static void peer_stream(frame_work *w) {
  w->got = 0;
  for (size_t at = 0; at < w->stream.len; at += w->piece) {
    size_t left = w->stream.len - at, len = left < w->piece ? left : w->piece;
    if (nghttp3_conn_read_stream(w->peer, w->id, w->stream.bytes + at, len, 0) < 0) stop("nghttp3_conn_read_stream", (long)at);
  }
  if (nghttp3_conn_close_stream(w->peer, w->id, NGHTTP3_H3_NO_ERROR)) stop("nghttp3_conn_close_stream", (long)w->id);
  w->id += 4;
}

static void peer_frames(void *data, uint64_t rounds) {
  frame_work *w = data;
  const nghttp3_callbacks calls = {.recv_data = on_body};
  nghttp3_settings settings;
  nghttp3_settings_default(&settings);
  if (nghttp3_conn_server_new(&w->peer, &calls, &settings, NULL, w)) stop("nghttp3: no memory", 0);
  nghttp3_conn_set_max_client_streams_bidi(w->peer, 1u << 30);
  w->id = 0;
  for (uint64_t i = 0; i < rounds; i++) peer_stream(w);
  nghttp3_conn_del(w->peer);
}

static void frame_row(frame_work *w, const char *set, size_t piece, int has_peer, double target, double most) {
  w->piece = piece;
  const contender both[CONTENDERS] = {{our_frames, w}, {has_peer ? peer_frames : NULL, w}, {0}};
  measure_row(&(row_kind){"frames read", set, "ns", (double)w->frames, 1, 1, target, 0, NULL, most}, both, (double)w->frames);
}

/* A request by entries of the static table, and DATA frames of many lengths: what nghttp3 does beside reading frames, it does once. */
static void data_rows(void) {
  static const uint8_t section[] = {0, 0, 0xd4, 0xd7, 0xc1, 0x50, 9, 'l', 'o', 'c', 'a', 'l', 'h', 'o', 's', 't'};
  uint8_t payload[PAYLOAD];
  memset(payload, 'a', sizeof payload);
  frame_work w = {0};
  add_frame(&w, 1, section, sizeof section);
  for (size_t i = 1; i < FRAMES; i++) add_frame(&w, 0, payload, 1 + 97 * i % PAYLOAD);
  w.piece = w.stream.len;
  peer_frames(&w, 1);
  if (w.got != w.payload - sizeof section) stop("nghttp3: another body", (long)w.got);
  frame_row(&w, "DATA, one piece", w.stream.len, 1, 1.0, 0);
  frame_row(&w, "DATA, by 100", PIECE, 1, 1.0, 0);
  free_pack(&w.stream);
}

/* The sections of these lists, each with a DATA frame behind it. nghttp3 reads no section without decoding and judging it. */
static void headers_rows(const field_lists *lists) {
  pack packed = pack_lists(lists);
  size_t room = 4 * packed.len + 64;
  uint8_t *out = malloc(room), payload[PAYLOAD];
  h3_report report;
  done("section_encode", h3_bench_section_encode(0, packed.bytes, packed.len, out, room, &report));
  memset(payload, 'a', sizeof payload);
  frame_work w = {0};
  const uint8_t *place = out;
  for (size_t i = 0, count = take_number(&place); i < count; i++) {
    size_t len;
    const uint8_t *section = take_string(&place, &len);
    add_frame(&w, 1, section, len);
    add_frame(&w, 0, payload, 1 + 97 * i % PAYLOAD);
  }
  frame_row(&w, "HEADERS, one piece", w.stream.len, 0, 0, 60);
  frame_row(&w, "HEADERS, by 100", PIECE, 0, 0, 200);
  free_pack(&w.stream);
  free_pack(&packed);
  free(out);
}

void frame_rows(const field_lists *lists) {
  data_rows();
  headers_rows(lists);
}
