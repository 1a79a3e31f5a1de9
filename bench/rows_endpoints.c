/* Whole exchanges of two endpoints with no C between, beside nghttp3's. Neither side copies a piece of a body; every other piece is copied into a block of its
 * own. */
#include "exchange.h"
#include "measure.h"
#include "rows.h"
#include <stdlib.h>

/* The fields of all heads. */
static size_t fields_of(const field_lists *lists, size_t exchanges) {
  size_t fields = 0;
  for (size_t i = 0; i < exchanges; i++) fields += lists->lists[i % lists->count].count;
  return fields;
}

void our_endpoints(void *data, uint64_t rounds) {
  const exchange_kind *kind = data;
  pack requests = sections_of(kind->requests), responses = sections_of(kind->responses);
  h3_report report;
  count_held_from_here();
  done("endpoints", h3_bench_endpoints(rounds, kind->table, kind->blocked, kind->exchanges / kind->under_way, kind->under_way, requests.bytes,
                                       requests.len, exchange_body, kind->request_body, responses.bytes, responses.len, exchange_body,
                                       kind->response_body, &report));
  if (rounds) {
    if (report.items != fields_of(kind->requests, kind->exchanges) + fields_of(kind->responses, kind->exchanges))
      stop("endpoints: another count of fields", (long)report.items);
    if (report.bytes != kind->exchanges * (kind->request_body + kind->response_body)) stop("endpoints: another count of bytes", (long)report.bytes);
    if (report.checksum != 2 * kind->exchanges) stop("endpoints: another count of ends", (long)report.checksum);
  }
  free_pack(&requests);
  free_pack(&responses);
}

static void row(const char *name, const char *set, exchange_kind kind, double target) {
  const contender both[CONTENDERS] = {{our_endpoints, &kind}, {peer_exchanges, &kind}, {0}};
  measure_row(&(row_kind){name, set, "us", (double)kind.exchanges, 1000, 1, target, 0}, both, (double)kind.exchanges);
}

/* Both without a table, and with one of 4,096 bytes of which 100 streams may wait. */
static void rows(const char *set, exchange_kind kind, double target) {
  row("endpoints, 0/0", set, kind, target);
  kind.table = 4096;
  kind.blocked = 100;
  row("endpoints, 4096/100", set, kind, target);
}

/* The most that an end of a connection without exchanges holds. Nothing is handed in, so the driver holds nothing. */
static void idle_row(void) {
  const figure_kind idle = {"endpoints", "no exchange", "an idle end", "bytes", 4096, 0};
  const field_lists none = {.name = "no exchange"};
  exchange_kind kind = {&none, &none, 0, 0, 0, 1, 0, 0, 0};
  const contender ours = {our_endpoints, &kind}, peer = {peer_exchanges, &kind};
  if (is_measured(idle.row, idle.set)) figure_row(&idle, memory_of(&ours).bytes / 2, memory_of(&peer).bytes / 2);
}

#define FIELD(name, value) \
  { (uint8_t *)(name), (uint8_t *)(value), sizeof(name) - 1, sizeof(value) - 1, NGHTTP3_NV_FLAG_NONE }

/* The least ratios to nghttp3's speed that are wanted, as of exchanges through the C interface. */
void endpoint_rows(const field_lists *requests, const field_lists *responses) {
  field_lists posts = with_value(requests, "real POST", ":method", "POST"), answers = with_value(responses, "real POST", ":status", "200");
  nghttp3_nv get[] = {FIELD(":method", "GET"), FIELD(":scheme", "https"), FIELD(":authority", "www.example.com"), FIELD(":path", "/sample/path")};
  nghttp3_nv ok[] = {FIELD(":status", "200"), FIELD("content-type", "text/plain")};
  field_list small_get = {get, 4}, small_ok = {ok, 2};
  field_lists gets = {.name = "small GET", .lists = &small_get, .count = 1}, oks = {.name = "small GET", .lists = &small_ok, .count = 1};
  for (size_t i = 0; i < LARGE_BODY; i++) exchange_body[i] = (uint8_t)('a' + i % 26);
  rows("real POST", (exchange_kind){&posts, &answers, 7000, 7000, 500, 100, 0, 0, 0}, 1.4);
  exchange_kind small = {&gets, &oks, 0, 100, 500, 100, 0, 0, 0};
  rows("small GET", small, 1.3);
  idle_row();
  small.request_body = small.response_body = 7000;
  rows("small POST", small, 1.2);
  small.request_body = small.response_body = LARGE_BODY;
  small.under_way = 10;
  row("endpoints, 0/0", "64 KiB POST", small, 1.0);
}
