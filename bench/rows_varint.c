/* Varints of 65,536 numbers: ours with every bound tested, nghttp3's and plain C with none. */
#include "measure.h"
#include "peer.h"
#include "plain.h"
#include "rows.h"
#include <stdlib.h>

enum { NUMBERS = 1 << 16, ROOM = 8 * NUMBERS + 16 };

typedef struct {
  uint64_t *numbers;
  uint8_t *bytes, *out;
  size_t len;
  uint64_t sum;
} varints;

static uint64_t next_random(uint64_t *state) {
  *state ^= *state << 13;
  *state ^= *state >> 7;
  *state ^= *state << 17;
  return *state;
}

enum { MIXED = 4 };

/* Numbers whose shortest encodings have 2^form bytes each; MIXED: one, two, four and eight alike often. */
static varints make(int form) {
  static const uint64_t most[4] = {63, 16383, 1073741823u, 4611686018427387903u};
  static const uint64_t least[4] = {0, 64, 16384, 1073741824u};
  uint64_t state = 88172645463325252u;
  varints v = {malloc(NUMBERS * sizeof(uint64_t)), malloc(ROOM), malloc(ROOM), 0, 0};
  uint8_t *end = v.bytes;
  for (size_t i = 0; i < NUMBERS; i++) {
    uint64_t random = next_random(&state);
    uint64_t number = random >> 2 & most[form == MIXED ? random & 3 : (uint64_t)form];
    v.numbers[i] = form != MIXED && number < least[form] ? number + least[form] : number;
    v.sum += v.numbers[i];
    end = peer_put_varint(end, v.numbers[i]);
  }
  v.len = (size_t)(end - v.bytes);
  return v;
}

static void our_encode(void *data, uint64_t rounds) {
  varints *v = data;
  h3_report report;
  done("varint_encode", h3_bench_varint_encode(rounds, v->numbers, NUMBERS, v->out, ROOM, &report));
}

static void peer_encode(void *data, uint64_t rounds) {
  varints *v = data;
  for (; rounds; rounds--) {
    uint8_t *end = v->out;
    for (size_t i = 0; i < NUMBERS; i++) end = peer_put_varint(end, v->numbers[i]);
  }
}

static void plain_encode(void *data, uint64_t rounds) {
  varints *v = data;
  for (; rounds; rounds--) {
    uint8_t *end = v->out;
    for (size_t i = 0; i < NUMBERS; i++) end = plain_varint_encode(end, v->numbers[i]);
  }
}

static void our_decode(void *data, uint64_t rounds) {
  varints *v = data;
  h3_report report;
  done("varint_decode", h3_bench_varint_decode(rounds, NUMBERS, v->bytes, v->len, &report));
  if (rounds && report.checksum != v->sum) stop("varint_decode: another sum", (long)report.checksum);
}

static void peer_decode(void *data, uint64_t rounds) {
  varints *v = data;
  for (; rounds; rounds--) {
    const uint8_t *from = v->bytes;
    uint64_t sum = 0;
    for (size_t i = 0; i < NUMBERS; i++) {
      uint64_t number;
      from = peer_get_varint(&number, from);
      sum += number;
    }
    if (sum != v->sum) stop("nghttp3: another sum", (long)sum);
  }
}

static void plain_decode(void *data, uint64_t rounds) {
  varints *v = data;
  for (; rounds; rounds--) {
    const uint8_t *from = v->bytes;
    uint64_t sum = 0, number;
    for (size_t i = 0; i < NUMBERS; i++) {
      from = plain_varint_decode(from, &number);
      sum += number;
    }
    if (sum != v->sum) stop("plain varint: another sum", (long)sum);
  }
}

static void check_bytes(const varints *v) {
  h3_report report;
  done("varint_encode", h3_bench_varint_encode(1, v->numbers, NUMBERS, v->out, ROOM, &report));
  same("varint_encode", v->out, report.bytes, v->bytes, v->len);
  plain_encode((void *)v, 1);
  same("plain varint", v->out, v->len, v->bytes, v->len);
}

void varint_rows(void) {
  static const char *const names[MIXED + 1] = {"1 byte", "2 bytes", "4 bytes", "8 bytes", "1 to 8 bytes"};
  for (int form = 0; form <= MIXED; form++) {
    double target = form == MIXED ? 1.1 : 1.0;
    varints v = make(form);
    check_bytes(&v);
    const contender encode[CONTENDERS] = {{our_encode, &v}, {peer_encode, &v}, {plain_encode, &v}};
    const contender decode[CONTENDERS] = {{our_decode, &v}, {peer_decode, &v}, {plain_decode, &v}};
    measure_row(&(row_kind){"varint encode", names[form], "ns", NUMBERS, 1, 1, target, 0}, encode, 0);
    measure_row(&(row_kind){"varint decode", names[form], "ns", NUMBERS, 1, 1, target, 0}, decode, 0);
    free(v.numbers);
    free(v.bytes);
    free(v.out);
  }
}
