/* Field sections with no dynamic table. */
#include "measure.h"
#include "peer_hpack.h"
#include "peer_session.h"
#include "rows.h"
#include <stdlib.h>

typedef struct {
  const field_lists *lists;
  pack packed;       /* the lists, as the static library takes them */
  pack our_sections; /* as it wrote them */
  uint8_t *out;
  size_t room;
  peer_sender sender;
  peer_receiver receiver;
} section_work;

static void our_encode(void *data, uint64_t rounds) {
  section_work *w = data;
  h3_report report;
  done("section_encode",
       h3_bench_section_encode(rounds, w->packed.bytes, w->packed.len, w->out, w->room, &report));
  if (rounds && report.items != w->lists->fields) stop("section_encode: another count", (long)report.items);
}

static void peer_encode(void *data, uint64_t rounds) {
  section_work *w = data;
  for (; rounds; rounds--)
    for (size_t i = 0; i < w->lists->count; i++) peer_send(&w->sender, 4 * i, &w->lists->lists[i]);
}

static void our_decode(void *data, uint64_t rounds) {
  section_work *w = data;
  h3_report report;
  done("section_decode",
       h3_bench_section_decode(rounds, w->our_sections.bytes, w->our_sections.len, w->out, w->room, &report));
  if (rounds && (report.items != w->lists->fields || report.bytes != w->lists->bytes))
    stop("section_decode: other counts", (long)report.items);
}

/* Both decode the sections that we wrote. */
static void peer_decode(void *data, uint64_t rounds) {
  section_work *w = data;
  for (; rounds; rounds--) {
    const uint8_t *from = w->our_sections.bytes + 4;
    size_t fields = 0, bytes = 0;
    for (size_t i = 0; i < w->lists->count; i++) {
      size_t len = number_at(from);
      if (peer_receive(&w->receiver, 4 * i, from + 4, len, &fields, &bytes, NULL) != PEER_DECODED)
        stop("nghttp3_qpack_decoder_read_request", (long)i);
      from += 4 + len;
    }
    if (fields != w->lists->fields || bytes != w->lists->bytes) stop("nghttp3: other counts", (long)fields);
  }
}

static section_work prepare(const field_lists *lists) {
  section_work w = {.lists = lists, .packed = pack_lists(lists)};
  w.sender = peer_sender_new(0, 0);
  w.receiver = peer_receiver_new(0, 0);
  w.room = 4 * w.packed.len + 64;
  w.out = malloc(w.room);
  our_encode(&w, 0);
  size_t len = 4;
  for (size_t i = 0; i < lists->count; i++) len += 4 + number_at(w.out + len);
  put_bytes(&w.our_sections, w.out, len);
  our_decode(&w, 0);
  same("section_decode", w.out, w.packed.len, w.packed.bytes, w.packed.len);
  return w;
}

void section_rows_wanting(const field_lists *lists, double encode_target, double decode_target) {
  section_work w = prepare(lists);
  peer_hpack *hpack = peer_hpack_new(lists, 1, 0);
  const contender encode[CONTENDERS] = {{our_encode, &w}, {peer_encode, &w}, {peer_hpack_encode, hpack}};
  const contender decode[CONTENDERS] = {{our_decode, &w}, {peer_decode, &w}, {peer_hpack_decode, hpack}};
  double count = (double)lists->count;
  measure_row(&(row_kind){"encode, capacity 0", lists->name, "klists/s", count, 1e3, 0, encode_target, 0, "nghttp2"}, encode,
              count);
  measure_row(&(row_kind){"decode, capacity 0", lists->name, "klists/s", count, 1e3, 0, decode_target, 0, "nghttp2"}, decode,
              count);
  peer_hpack_free(hpack);
  free_pack(&w.packed);
  free_pack(&w.our_sections);
  free(w.out);
  peer_sender_free(&w.sender);
  peer_receiver_free(&w.receiver);
}

void section_rows(const field_lists *lists) { section_rows_wanting(lists, 1.0, 1.0); }
