/* Kinds of exchanges: their lists, bodies and pieces. */
#include "exchange_kinds.h"
#include <stdio.h>
#include <string.h>

enum { KIB = 1 << 10, MIB = 1 << 20, GATHERED = 128 * KIB, PACKET = 1200, LETTERS = 26 };

#define FIELD(name, value) \
  { (uint8_t *)(name), (uint8_t *)(value), sizeof(name) - 1, sizeof(value) - 1, NGHTTP3_NV_FLAG_NONE }

list_sets load_sets(const char *dir) {
  static nghttp3_nv get[] = {FIELD(":method", "GET"), FIELD(":scheme", "https"), FIELD(":authority", "www.example.com"), FIELD(":path", "/sample/path")};
  static nghttp3_nv ok[] = {FIELD(":status", "200"), FIELD("content-type", "text/plain")};
  static field_list small_get = {get, 4}, small_ok = {ok, 2};
  list_sets sets = {.requests = load_lists(dir, "requests"), .responses = load_lists(dir, "responses")};
  for (size_t i = 0; i < LETTERS; i++) exchange_body[i] = (uint8_t)('a' + i);
  for (size_t len = LETTERS, more; len < sizeof exchange_body; len += more) {
    more = len < sizeof exchange_body - len ? len : sizeof exchange_body - len;
    memcpy(exchange_body + len, exchange_body, more);
  }
  sets.posts = with_value(&sets.requests, "real POST", ":method", "POST");
  sets.answers = with_value(&sets.responses, "real POST", ":status", "200");
  sets.pages = with_value(&sets.requests, "real GET", ":method", "GET");
  sets.wide = widened(&sets.pages, "30 fields", 30);
  sets.gets = (field_lists){.name = "small GET", .lists = &small_get, .count = 1};
  sets.oks = (field_lists){.name = "small GET", .lists = &small_ok, .count = 1};
  sets.one_authority = with_value(&sets.pages, "one authority", ":authority", "localhost:7020");
  return sets;
}

exchange_kind real_post(const list_sets *sets) {
  return (exchange_kind){&sets->posts, &sets->answers, 7000, 7000, 500, 100, GATHERED, 0, 0, 0, 0};
}

exchange_kind real_get(const list_sets *sets) { return (exchange_kind){&sets->pages, &sets->answers, 0, 100, 500, 100, GATHERED, 0, 0, 0, 0}; }

exchange_kind small_get(const list_sets *sets) { return (exchange_kind){&sets->gets, &sets->oks, 0, 100, 500, 100, GATHERED, 0, 0, 0, 0}; }

exchange_kind small_post(const list_sets *sets) {
  exchange_kind post = small_get(sets);
  post.request_body = post.response_body = 7000;
  return post;
}

exchange_kind large_post(const list_sets *sets) {
  exchange_kind large = small_get(sets);
  large.request_body = large.response_body = LARGE_BODY;
  large.under_way = 10;
  return large;
}

exchange_kind long_get(const list_sets *sets, size_t body, size_t piece) {
  return (exchange_kind){&sets->gets, &sets->oks, 0, body, body < 4 * MIB ? 20 : 4, 1, piece, 0, 0, 0, 0};
}

exchange_kind small_pieces(const list_sets *sets, size_t piece) {
  exchange_kind pieces = small_get(sets);
  pieces.piece = piece;
  return pieces;
}

exchange_kind short_connection(const list_sets *sets, size_t table, size_t blocked) {
  exchange_kind one = real_get(sets);
  one.exchanges = 1;
  one.table = table, one.blocked = blocked;
  return one;
}

exchange_kind wide_get(const list_sets *sets) {
  exchange_kind wide = real_get(sets);
  wide.requests = &sets->wide;
  return wide;
}

exchange_kind in_turn(exchange_kind kind) {
  kind.piece = PACKET;
  kind.in_turn = 1;
  return kind;
}

exchange_kind one_by_one(exchange_kind kind) {
  kind.under_way = 1;
  return kind;
}

exchange_kind in_place(exchange_kind kind) {
  kind.in_place = 1;
  return kind;
}

void name_kinds(const list_sets *sets, named_kind named[NAMED_KINDS]) {
  const named_kind all[NAMED_KINDS] = {
      {"small GET", small_get(sets)},
      {"small GET one by one", one_by_one(small_get(sets))},
      {"small POST", small_post(sets)},
      {"real GET", real_get(sets)},
      {"real POST", real_post(sets)},
      {"64 KiB POST", large_post(sets)},
      {"64 KiB POST in place", in_place(large_post(sets))},
      {"1 MiB GET by 1,200", long_get(sets, MIB, PACKET)},
      {"1 MiB GET by 1,200 in place", in_place(long_get(sets, MIB, PACKET))},
      {"1 MiB GET by 64 KiB", long_get(sets, MIB, 64 * KIB)},
      {"1 MiB GET by 64 KiB in place", in_place(long_get(sets, MIB, 64 * KIB))},
      {"1 MiB GET by 1 MiB in place", in_place(long_get(sets, MIB, MIB))},
      {"16 MiB GET by 128 KiB", long_get(sets, 16 * MIB, GATHERED)},
      {"16 MiB GET by 128 KiB in place", in_place(long_get(sets, 16 * MIB, GATHERED))},
      {"small POST in turn by 1,200", in_turn(small_post(sets))},
      {"GET of 30 fields", wide_get(sets)},
      {"small GET byte by byte", small_pieces(sets, 1)},
      {"a connection with one real GET", short_connection(sets, 0, 0)},
      {"a connection with one real GET and tables", short_connection(sets, 4096, 16)},
  };
  memcpy(named, all, sizeof all);
}

uint64_t connections_of(exchange_kind *kind, size_t exchanges) {
  if (kind->exchanges == 1) return exchanges;
  kind->exchanges = exchanges;
  return 1;
}

exchange_kind kind_named(const list_sets *sets, const char *name) {
  named_kind named[NAMED_KINDS];
  name_kinds(sets, named);
  for (int k = 0; k < NAMED_KINDS; k++)
    if (strcmp(named[k].name, name) == 0) return named[k].kind;
  fprintf(stderr, "%s: no such kind of exchanges\n", name);
  stop("kinds of exchanges", NAMED_KINDS);
}
