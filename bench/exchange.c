/* Rows of whole exchanges, ours through the C interface beside nghttp3's, in one run. */
#include "exchange_kinds.h"
#include "measure.h"
#include <stdio.h>
#include <stdlib.h>
#include <string.h>

/* The least ratios to nghttp3's speed that are wanted. */
static const double REAL_TARGET = 1.4, IN_PIECES_TARGET = 1.3, SMALL_GET_TARGET = 1.3, SMALL_POST_TARGET = 1.2;
static const double LARGE_TARGET = 1.0, IN_PLACE_TARGET = 0.9, OTHER_TARGET = 1.0;

static void row(const char *name, const char *set, exchange_kind kind, double target) {
  const contender both[CONTENDERS] = {{our_exchanges, &kind}, {peer_exchanges, &kind}, {0}};
  measure_row(&(row_kind){name, set, "us", (double)kind.exchanges, 1000, 1, target, 0}, both, (double)kind.exchanges);
}

/* Both without a table, and with one of 4,096 bytes of which 100 streams may wait. */
static void rows(const char *with_none, const char *with_table, const char *set, exchange_kind kind, double target) {
  row(with_none, set, kind, target);
  kind.table = 4096;
  kind.blocked = 100;
  row(with_table, set, kind, target);
}

static double seconds_each(void (*work)(void *, uint64_t), exchange_kind *kind) {
  const contender c = {work, kind};
  return seconds_of(&c) / (double)kind->exchanges;
}

/* What one of so many exchanges costs, of one of few: nothing is to be searched in line. */
static void growth_row(exchange_kind few, exchange_kind many) {
  const figure_kind kind = {"growth", "small GET", "one of 20,000, of one of 500", "times", 1.1, 1};
  if (!is_measured(kind.row, kind.set)) return;
  figure_row(&kind, seconds_each(our_exchanges, &many) / seconds_each(our_exchanges, &few),
             seconds_each(peer_exchanges, &many) / seconds_each(peer_exchanges, &few));
}

static double held_after(void (*work)(void *, uint64_t), exchange_kind kind, size_t exchanges) {
  kind.exchanges = exchanges;
  contender c = {work, &kind};
  return memory_of(&c).bytes;
}

/* By how much each finished exchange raises what an end holds, and what an end holds at most in a connection without any. */
static void memory_rows(exchange_kind kind) {
  const size_t few = 5000, many = 15000;
  const figure_kind finished = {"memory", "small GET", "a finished stream", "bytes", 0, 0}, idle = {"memory", "no exchange", "an idle end", "bytes", 4096, 0};
  void (*const works[2])(void *, uint64_t) = {our_exchanges, peer_exchanges};
  double raised[2], held[2];
  if (!is_measured(finished.row, finished.set)) return;
  for (int k = 0; k < 2; k++) {
    raised[k] = (held_after(works[k], kind, many) - held_after(works[k], kind, few)) / (double)(many - few) / 2;
    held[k] = held_after(works[k], kind, 0) / 2;
  }
  figure_row(&finished, raised[OURS], raised[PEER]);
  figure_row(&idle, held[OURS], held[PEER]);
}

/* What an end holds at most while so many requests are under way. */
static void open_row(exchange_kind kind, size_t open, const char *figure, double for_each) {
  const figure_kind held = {"memory", "small GET", figure, "bytes", 0, 0};
  if (!is_measured(held.row, held.set)) return;
  kind.under_way = open;
  figure_row(&held, held_after(our_exchanges, kind, open) / 2 / for_each, held_after(peer_exchanges, kind, open) / 2 / for_each);
}

/* Connections of one exchange each, many streams at once, wide sections and single bytes. */
static void other_rows(const list_sets *sets) {
  row("a connection each, 0/0", "real GET", short_connection(sets, 0, 0), OTHER_TARGET);
  row("a connection each, 4096/16", "real GET", short_connection(sets, 4096, 16), OTHER_TARGET);
  row("100 in turn by 1,200", "small POST", in_turn(small_post(sets)), OTHER_TARGET);
  rows("500 exchanges, 0/0", "500 exchanges, 4096/100", "GET of 30 fields", wide_get(sets), OTHER_TARGET);
  row("byte by byte", "small GET", small_pieces(sets, 1), OTHER_TARGET);
}

static void small_rows(const list_sets *sets) {
  const exchange_kind get = small_get(sets);
  rows("500 exchanges, 0/0", "500 exchanges, 4096/100", "small GET", get, SMALL_GET_TARGET);
  exchange_kind many = get;
  many.exchanges = 20000;
  rows("20,000 exchanges, 0/0", "20,000 exchanges, 4096/100", "small GET", many, SMALL_GET_TARGET);
  growth_row(get, many);
  rows("500 exchanges, 0/0", "500 exchanges, 4096/100", "small POST", small_post(sets), SMALL_POST_TARGET);
}

/* A long body, copied into packets and out of them, and read where it lies. */
static void long_rows(const char *with_copies, const char *with_none, const char *set, exchange_kind kind, double in_place_target) {
  row(with_copies, set, kind, LARGE_TARGET);
  row(with_none, set, in_place(kind), in_place_target);
}

/* Bodies, by pieces of many lengths. */
static void body_rows(const list_sets *sets) {
  enum { KIB = 1 << 10, MIB = 1 << 20 };
  row("500 exchanges, 0/0", "64 KiB POST", large_post(sets), LARGE_TARGET);
  row("500 exchanges, in place", "64 KiB POST", in_place(large_post(sets)), LARGE_TARGET);
  long_rows("by 1,200, copied", "by 1,200, in place", "1 MiB GET", long_get(sets, MIB, 1200), IN_PLACE_TARGET);
  long_rows("by 64 KiB, copied", "by 64 KiB, in place", "1 MiB GET", long_get(sets, MIB, 64 * KIB), LARGE_TARGET);
  long_rows("by 128 KiB, copied", "by 128 KiB, in place", "1 MiB GET", long_get(sets, MIB, 128 * KIB), IN_PLACE_TARGET);
  long_rows("by 1 MiB, copied", "by 1 MiB, in place", "1 MiB GET", long_get(sets, MIB, MIB), LARGE_TARGET);
  long_rows("by 1,200, copied", "by 1,200, in place", "16 MiB GET", long_get(sets, 16 * MIB, 1200), IN_PLACE_TARGET);
  long_rows("by 128 KiB, copied", "by 128 KiB, in place", "16 MiB GET", long_get(sets, 16 * MIB, 128 * KIB), IN_PLACE_TARGET);
}

/* Runs so many exchanges on one connection, or each on its own, and measures no time: scripts/bench/instructions.sh counts instructions. */
static int run_once(const list_sets *sets, const char *name, size_t exchanges, const char *who) {
  exchange_kind kind = kind_named(sets, name);
  uint64_t connections = connections_of(&kind, exchanges);
  (strcmp(who, "ours") == 0 ? our_exchanges : peer_exchanges)(&kind, connections);
  return 0;
}

static void all_rows(const list_sets *sets) {
  exchange_kind real = real_post(sets);
  rows("500 exchanges, 0/0", "500 exchanges, 4096/100", "real POST", real, REAL_TARGET);
  real.piece = 1200;
  rows("in pieces of 1,200, 0/0", "in pieces of 1,200, 4096/100", "real POST", real, IN_PIECES_TARGET);
  exchange_kind pages = real_get(sets);
  pages.exchanges = 20000;
  row("20,000 exchanges, 0/0", "real GET", pages, REAL_TARGET);
  small_rows(sets);
  body_rows(sets);
  other_rows(sets);
  memory_rows(small_get(sets));
  open_row(small_get(sets), 1, "an end with 1 request", 1);
  open_row(small_get(sets), 100, "an end with 100 requests", 1);
  open_row(small_get(sets), 10000, "each of 10,000 requests", 10000);
  heads_rows(&sets->one_authority, &sets->answers);
}

int main(int argc, char **argv) {
  const char *dir = argc > 1 ? argv[1] : "data";
  const list_sets sets = load_sets(dir);
  if (argc == 6 && strcmp(argv[2], "once") == 0) return run_once(&sets, argv[3], strtoul(argv[4], NULL, 10), argv[5]);
  if (argc > 2) measure_seconds = atof(argv[2]);
  if (argc > 3) measure_only = argv[3];
  print_head();
  all_rows(&sets);
  printf("\n%d rows below their target\n", rows_below());
  return rows_below() > 0;
}
