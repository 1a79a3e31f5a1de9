#include "peer_hpack.h"
#include <nghttp2/nghttp2.h>
#include <stdlib.h>

struct peer_hpack {
  const field_lists *lists;
  size_t passes, capacity;
  nghttp2_nv **fields; /* of each list */
  pack *blocks;        /* of each pass over the lists, one behind the other */
  size_t *lens;
  uint8_t *out;
  size_t room;
};

static nghttp2_hd_deflater *new_deflater(const peer_hpack *w) {
  nghttp2_hd_deflater *deflater;
  if (nghttp2_hd_deflate_new(&deflater, w->capacity)) stop("nghttp2_hd_deflate_new", (long)w->capacity);
  return deflater;
}

static size_t deflate(peer_hpack *w, nghttp2_hd_deflater *deflater, size_t list) {
  ssize_t len = nghttp2_hd_deflate_hd(deflater, w->out, w->room, w->fields[list], w->lists->lists[list].count);
  if (len < 0) stop("nghttp2_hd_deflate_hd", (long)len);
  return (size_t)len;
}

void peer_hpack_encode(void *data, uint64_t rounds) {
  peer_hpack *w = data;
  for (; rounds; rounds--) {
    nghttp2_hd_deflater *deflater = new_deflater(w);
    for (size_t pass = 0; pass < w->passes; pass++)
      for (size_t i = 0; i < w->lists->count; i++) deflate(w, deflater, i);
    nghttp2_hd_deflate_del(deflater);
  }
}

static void inflate(nghttp2_hd_inflater *inflater, const uint8_t *bytes, size_t len, size_t *fields, size_t *sum) {
  for (;;) {
    nghttp2_nv field;
    int flags = 0;
    ssize_t taken = nghttp2_hd_inflate_hd2(inflater, &field, &flags, bytes, len, 1);
    if (taken < 0) stop("nghttp2_hd_inflate_hd2", (long)taken);
    bytes += taken;
    len -= (size_t)taken;
    if (flags & NGHTTP2_HD_INFLATE_EMIT) {
      *fields += 1;
      *sum += field.namelen + field.valuelen;
    }
    if (flags & NGHTTP2_HD_INFLATE_FINAL) break;
    if (!(flags & NGHTTP2_HD_INFLATE_EMIT) && !len) stop("nghttp2: a block that is not whole", (long)*fields);
  }
  nghttp2_hd_inflate_end_headers(inflater);
}

void peer_hpack_decode(void *data, uint64_t rounds) {
  peer_hpack *w = data;
  for (; rounds; rounds--) {
    nghttp2_hd_inflater *inflater;
    if (nghttp2_hd_inflate_new(&inflater)) stop("nghttp2_hd_inflate_new", 0);
    nghttp2_hd_inflate_change_table_size(inflater, w->capacity);
    size_t fields = 0, sum = 0;
    const uint8_t *from = w->blocks->bytes;
    for (size_t i = 0; i < w->passes * w->lists->count; i++) {
      inflate(inflater, from, w->lens[i], &fields, &sum);
      from += w->lens[i];
    }
    if (fields != w->passes * w->lists->fields || sum != w->passes * w->lists->bytes)
      stop("nghttp2: other counts", (long)fields);
    nghttp2_hd_inflate_del(inflater);
  }
}

static nghttp2_nv *fields_of(const field_list *list) {
  nghttp2_nv *fields = calloc(list->count + 1, sizeof *fields);
  for (size_t j = 0; j < list->count; j++)
    fields[j] = (nghttp2_nv){(uint8_t *)list->fields[j].name, (uint8_t *)list->fields[j].value,
                             list->fields[j].namelen, list->fields[j].valuelen, NGHTTP2_NV_FLAG_NONE};
  return fields;
}

peer_hpack *peer_hpack_new(const field_lists *lists, size_t passes, size_t capacity) {
  peer_hpack *w = calloc(1, sizeof *w);
  *w = (peer_hpack){.lists = lists, .passes = passes, .capacity = capacity, .room = 4 * lists->bytes + 64 * lists->fields};
  w->out = malloc(w->room);
  w->fields = calloc(lists->count, sizeof *w->fields);
  w->blocks = calloc(1, sizeof *w->blocks);
  w->lens = calloc(passes * lists->count, sizeof *w->lens);
  for (size_t i = 0; i < lists->count; i++) w->fields[i] = fields_of(&lists->lists[i]);
  nghttp2_hd_deflater *deflater = new_deflater(w);
  for (size_t i = 0; i < passes * lists->count; i++) {
    w->lens[i] = deflate(w, deflater, i % lists->count);
    put_bytes(w->blocks, w->out, w->lens[i]);
  }
  nghttp2_hd_deflate_del(deflater);
  return w;
}

void peer_hpack_free(peer_hpack *w) {
  for (size_t i = 0; i < w->lists->count; i++) free(w->fields[i]);
  free(w->fields);
  free_pack(w->blocks);
  free(w->blocks);
  free(w->lens);
  free(w->out);
  free(w);
}
