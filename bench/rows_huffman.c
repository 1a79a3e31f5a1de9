/* The Huffman code of all names and values, each a string of its own. */
#include "measure.h"
#include "peer.h"
#include "plain.h"
#include "rows.h"
#include <stdlib.h>
#include <string.h>

typedef struct {
  const uint8_t *bytes;
  size_t len;
} string;

typedef struct {
  string *items;
  size_t count;
  pack packed; /* as the static library takes them */
} strings;

typedef struct {
  strings plain, encoded;
  size_t plain_bytes, encoded_bytes;
  uint8_t *out;
  size_t room;
} huffman_work;

static strings unpacked(pack packed) {
  strings all = {.count = number_at(packed.bytes), .packed = packed};
  all.items = malloc(all.count * sizeof *all.items);
  const uint8_t *from = packed.bytes + 4;
  for (size_t i = 0; i < all.count; i++) {
    all.items[i] = (string){from + 4, number_at(from)};
    from += 4 + all.items[i].len;
  }
  return all;
}

/* The strings as nghttp3 encodes them. */
static strings encoded_by_peer(const strings *plain) {
  pack packed = {0};
  put_number(&packed, plain->count);
  for (size_t i = 0; i < plain->count; i++) {
    string s = plain->items[i];
    uint8_t *bytes = malloc(4 * s.len + 8);
    size_t len = (size_t)(nghttp3_qpack_huffman_encode(bytes, s.bytes, s.len) - bytes);
    put_string(&packed, bytes, len);
    free(bytes);
  }
  /* the plain decoder reads eight bytes at a time */
  put_bytes(&packed, "\0\0\0\0\0\0\0\0", 8);
  packed.len -= 8;
  return unpacked(packed);
}

static size_t sum_of(const strings *all) {
  size_t sum = 0;
  for (size_t i = 0; i < all->count; i++) sum += all->items[i].len;
  return sum;
}

static void our_encode(void *data, uint64_t rounds) {
  huffman_work *w = data;
  h3_report report;
  done("huffman_encode", h3_bench_huffman_encode(rounds, w->plain.packed.bytes, w->plain.packed.len, w->out, w->room,
                                                 &report));
  if (rounds && report.bytes != w->encoded_bytes) stop("huffman_encode: another length", (long)report.bytes);
}

static void encode_by_peer(huffman_work *w, uint64_t rounds, int counts) {
  for (; rounds; rounds--) {
    uint8_t *end = w->out;
    for (size_t i = 0; i < w->plain.count; i++) {
      string s = w->plain.items[i];
      if (counts) measure_sink += nghttp3_qpack_huffman_encode_count(s.bytes, s.len);
      end = nghttp3_qpack_huffman_encode(end, s.bytes, s.len);
    }
  }
}

/* The length is asked first, as its encoder of strings does. */
static void peer_encode(void *data, uint64_t rounds) { encode_by_peer(data, rounds, 1); }

/* The code alone. */
static void peer_encode_alone(void *data, uint64_t rounds) { encode_by_peer(data, rounds, 0); }

static void plain_encode(void *data, uint64_t rounds) {
  huffman_work *w = data;
  for (; rounds; rounds--) {
    uint8_t *end = w->out;
    for (size_t i = 0; i < w->plain.count; i++)
      end = plain_huffman_encode(end, w->plain.items[i].bytes, w->plain.items[i].len);
  }
}

static void our_decode(void *data, uint64_t rounds) {
  huffman_work *w = data;
  h3_report report;
  done("huffman_decode", h3_bench_huffman_decode(rounds, w->encoded.packed.bytes, w->encoded.packed.len, w->out,
                                                 w->room, &report));
  if (rounds && report.bytes != w->plain_bytes) stop("huffman_decode: another length", (long)report.bytes);
}

static void peer_decode(void *data, uint64_t rounds) {
  huffman_work *w = data;
  for (; rounds; rounds--) {
    uint8_t *end = w->out;
    for (size_t i = 0; i < w->encoded.count; i++) {
      peer_huffman_context context;
      nghttp3_qpack_huffman_decode_context_init(&context);
      nghttp3_ssize len =
          nghttp3_qpack_huffman_decode(&context, end, w->encoded.items[i].bytes, w->encoded.items[i].len, 1);
      if (len < 0) stop("nghttp3_qpack_huffman_decode", len);
      end += len;
    }
  }
}

static void plain_decode(void *data, uint64_t rounds) {
  huffman_work *w = data;
  for (; rounds; rounds--) {
    uint8_t *end = w->out;
    for (size_t i = 0; i < w->encoded.count; i++) {
      long len = plain_huffman_decode(end, w->encoded.items[i].bytes, w->encoded.items[i].len);
      if (len < 0) stop("plain_huffman_decode", len);
      end += len;
    }
  }
}

/* Each contender has written the same bytes: those of the strings, one after another. */
static void check_out(huffman_work *w, const contender contenders[CONTENDERS], const strings *wanted) {
  for (int k = 0; k < CONTENDERS; k++) {
    memset(w->out, 0, w->room);
    contenders[k].work(contenders[k].data, 1);
    const uint8_t *from = w->out;
    for (size_t i = 0; i < wanted->count; i++) {
      same("huffman", from, wanted->items[i].len, wanted->items[i].bytes, wanted->items[i].len);
      from += wanted->items[i].len;
    }
  }
}

void huffman_rows(const field_lists *const *sets, size_t count, const char *set) {
  huffman_work w = {.plain = unpacked(pack_strings(sets, count))};
  w.encoded = encoded_by_peer(&w.plain);
  w.plain_bytes = sum_of(&w.plain);
  w.encoded_bytes = sum_of(&w.encoded);
  w.room = 4 * w.plain_bytes + 64;
  w.out = malloc(w.room);
  const contender encode[CONTENDERS] = {{our_encode, &w}, {peer_encode, &w}, {plain_encode, &w}};
  const contender alone[CONTENDERS] = {{our_encode, &w}, {peer_encode_alone, &w}, {plain_encode, &w}};
  const contender decode[CONTENDERS] = {{our_decode, &w}, {peer_decode, &w}, {plain_decode, &w}};
  check_out(&w, encode, &w.encoded);
  check_out(&w, decode, &w.plain);
  double bytes = (double)w.plain_bytes;
  measure_row(&(row_kind){"huffman encode", set, "MB/s", bytes, 1e6, 0, 1.5, 0}, encode, 0);
  measure_row(&(row_kind){"huffman encode, no count", set, "MB/s", bytes, 1e6, 0, 1.0, 0}, alone, 0);
  measure_row(&(row_kind){"huffman decode", set, "MB/s", bytes, 1e6, 0, 1.5, 1.0}, decode, 0);
  free(w.plain.items);
  free(w.plain.packed.bytes);
  free(w.encoded.items);
  free(w.encoded.packed.bytes);
  free(w.out);
}
