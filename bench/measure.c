#define _GNU_SOURCE
#include "measure.h"
#include <malloc.h>
#include <stdio.h>
#include <stdlib.h>
#include <string.h>
#include <time.h>

double measure_seconds = 1.0;
const char *measure_only;
volatile uint64_t measure_sink;
static int below;

/* Contenders, and behind each what is taken off its time. */
enum { RUNS = 5, MEASURED = 2 * CONTENDERS };

typedef struct {
  double seconds[CONTENDERS];     /* of one round: the median of five runs; 0 where there is no such contender */
  double allocations[CONTENDERS]; /* of one round: calls of malloc, calloc and realloc */
} figures;

/* What is held, where it is asked. */
static int is_asked;
static memory_held held, most_held;

static void *gain(void *block) {
  if (is_asked && block) {
    held.bytes += (double)malloc_usable_size(block);
    held.blocks += 1;
    if (held.bytes > most_held.bytes) most_held = held;
  }
  return block;
}

static void lose(void *block) {
  if (is_asked && block) {
    held.bytes -= (double)malloc_usable_size(block);
    held.blocks -= 1;
  }
}

/* The linker sends each call of these through here (-Wl,--wrap). */
static uint64_t allocations;
void *__real_malloc(size_t size);
void *__real_calloc(size_t count, size_t size);
void *__real_realloc(void *block, size_t size);
void __real_free(void *block);
void *__wrap_malloc(size_t size);
void *__wrap_calloc(size_t count, size_t size);
void *__wrap_realloc(void *block, size_t size);
void __wrap_free(void *block);
void *__wrap_malloc(size_t size) {
  allocations++;
  return gain(__real_malloc(size));
}
void *__wrap_calloc(size_t count, size_t size) {
  allocations++;
  return gain(__real_calloc(count, size));
}
void *__wrap_realloc(void *block, size_t size) {
  allocations++;
  lose(block);
  return gain(__real_realloc(block, size));
}
void __wrap_free(void *block) {
  lose(block);
  __real_free(block);
}

static double read_clock(clockid_t clock) {
  struct timespec time;
  clock_gettime(clock, &time);
  return (double)time.tv_sec + (double)time.tv_nsec * 1e-9;
}

static double now(void) { return read_clock(CLOCK_MONOTONIC); }

/* The processor's time: what other processes took of the core in between does not count. */
static double time_of(const contender *c, uint64_t rounds) {
  double start = read_clock(CLOCK_THREAD_CPUTIME_ID);
  c->work(c->data, rounds);
  return read_clock(CLOCK_THREAD_CPUTIME_ID) - start;
}

double allocations_of(const contender *c, uint64_t rounds) {
  uint64_t before = allocations;
  c->work(c->data, rounds);
  return (double)(allocations - before);
}

/* A round that takes long is tried once. */
static double best_time(const contender *c, uint64_t rounds, int tries) {
  const double LONG = 0.02;
  double best = 1e9;
  for (; tries && best > LONG; tries--) {
    double taken = time_of(c, rounds);
    if (taken < best) best = taken;
    if (taken > LONG) break;
  }
  return best;
}

/* Rounds that take at least a millisecond, and five times what a call of no rounds takes: short enough to fall between
 * other work of the machine, and long enough for what is taken off to count little. */
static uint64_t rounds_of(const contender *c) {
  enum { TRIES = 5 };
  double idle = best_time(c, 0, TRIES), least = 0.001 > 5 * idle ? 0.001 : 5 * idle;
  uint64_t rounds = 1;
  while (rounds < 1u << 20 && best_time(c, rounds, TRIES) - idle < least) rounds *= 2;
  return rounds;
}

/* One run: the contenders in turn, in pieces of some milliseconds; of each the best piece counts. There are ten of each or more, unless that
 * takes five times as long as a run should. */
static void run(const contender all[MEASURED], const uint64_t rounds[MEASURED], double taken[MEASURED]) {
  enum { LEAST_PIECES = 10, MOST_TIMES = 5 };
  double best[MEASURED], none[MEASURED];
  for (int k = 0; k < MEASURED; k++) best[k] = none[k] = 1e9;
  double start = now(), wanted = measure_seconds / RUNS;
  int pieces = 0;
  do {
    for (int k = 0; k < MEASURED; k++) {
      if (!all[k].work) continue;
      double idle = time_of(&all[k], 0), busy = time_of(&all[k], rounds[k]);
      if (idle < none[k]) none[k] = idle;
      if (busy < best[k]) best[k] = busy;
    }
    pieces++;
  } while (now() < start + wanted || (pieces < LEAST_PIECES && now() < start + MOST_TIMES * wanted));
  for (int k = 0; k < MEASURED; k++) taken[k] = all[k].work ? (best[k] - none[k]) / (double)rounds[k] : 0;
}

static int in_order(const void *one, const void *other) {
  double a = *(const double *)one, b = *(const double *)other;
  return (a > b) - (a < b);
}

static double allocations_a_round(const contender *c, uint64_t rounds) {
  return (allocations_of(c, rounds) - allocations_of(c, 0)) / (double)rounds;
}

/* What the contenders take beyond their parts. */
static figures measure(const contender whole[CONTENDERS], const contender part[CONTENDERS]) {
  figures found = {0};
  contender all[MEASURED];
  uint64_t rounds[MEASURED] = {0};
  double taken[RUNS][MEASURED], one[RUNS];
  for (int k = 0; k < CONTENDERS; k++) {
    all[k] = whole[k];
    all[CONTENDERS + k] = part ? part[k] : (contender){0};
  }
  for (int k = 0; k < MEASURED; k++) {
    if (!all[k].work) continue;
    rounds[k] = rounds_of(&all[k]);
    found.allocations[k % CONTENDERS] += (k < CONTENDERS ? 1 : -1) * allocations_a_round(&all[k], rounds[k]);
  }
  for (int i = 0; i < RUNS; i++) run(all, rounds, taken[i]);
  for (int k = 0; k < CONTENDERS; k++) {
    for (int i = 0; i < RUNS; i++) one[i] = taken[i][k] - taken[i][CONTENDERS + k];
    qsort(one, RUNS, sizeof *one, in_order);
    found.seconds[k] = one[RUNS / 2];
  }
  return found;
}

/* The rows are those of a table in Markdown. */
void print_head(void) {
  printf("| %-27s | %-17s | %9s | %9s | %9s | %-8s | %8s | %8s | %-25s | %s |\n", "Row", "Set", "ours", "nghttp3", "third", "unit",
         "/nghttp3", "/third", "wanted", "allocations");
  printf("|---|---|---|---|---|---|---|---|---|---|\n");
}

static double figure_of(const row_kind *kind, double seconds) {
  return kind->each ? seconds / kind->count * 1e9 / kind->scale : kind->count / seconds / kind->scale;
}

static void print_figure(const row_kind *kind, double seconds) {
  if (seconds <= 0)
    printf(" %9s |", "");
  else
    printf(" %9.2f |", figure_of(kind, seconds));
}

/* A ratio is judged as it is printed. */
static int print_ratio(double ours, double other, double target) {
  if (ours <= 0 || other <= 0) {
    printf(" %8s |", "");
    return 0;
  }
  char text[32];
  snprintf(text, sizeof text, "%.2f", other / ours);
  int short_of = target > 0 && atof(text) < target;
  printf(" %7s%c |", text, short_of ? '*' : ' ');
  return short_of;
}

/* What the targets of a row are. */
static void print_wanted(const row_kind *kind, int is_above) {
  char text[96] = "";
  size_t len = 0;
  if (kind->target_peer > 0) len += (size_t)snprintf(text + len, sizeof text - len, "at least %.2f", kind->target_peer);
  if (kind->target_third > 0)
    len += (size_t)snprintf(text + len, sizeof text - len, "%s%.2f of %s", len ? ", " : "at least ", kind->target_third,
                            kind->third ? kind->third : "plain C");
  if (kind->most > 0) len += (size_t)snprintf(text + len, sizeof text - len, "%sat most %.0f%s", len ? ", " : "", kind->most, is_above ? "*" : "");
  if (kind->no_allocation) snprintf(text + len, sizeof text - len, "%sno allocation", len ? ", " : "");
  printf(" %-25s |", text);
}

static void print_allocations(const figures *found, double count) {
  const char *gap = " ";
  for (int k = 0; count > 0 && k < CONTENDERS; k++) {
    if (found->seconds[k] <= 0) continue;
    printf("%s%.2f", gap, found->allocations[k] / count);
    gap = ", ";
  }
  printf(" |\n");
}

static void print_row(const row_kind *kind, const figures *found, double lists) {
  printf("| %-27s | %-17s |", kind->row, kind->set);
  for (int k = 0; k < CONTENDERS; k++) print_figure(kind, found->seconds[k]);
  printf(" %-8s |", kind->unit);
  int short_of = print_ratio(found->seconds[OURS], found->seconds[PEER], kind->target_peer);
  short_of |= print_ratio(found->seconds[OURS], found->seconds[THIRD], kind->target_third);
  int is_above = kind->most > 0 && figure_of(kind, found->seconds[OURS]) > kind->most;
  print_wanted(kind, is_above);
  print_allocations(found, lists);
  fflush(stdout);
  below += short_of | is_above | (kind->no_allocation && found->allocations[OURS] > 0);
}

int is_measured(const char *row, const char *set) {
  char name[128];
  snprintf(name, sizeof name, "%s %s", row, set);
  return !measure_only || strstr(name, measure_only);
}

void figure_row(const figure_kind *kind, double ours, double peers) {
  if (!is_measured(kind->row, kind->set)) return;
  int is_above = kind->most > 0 && ours > kind->most;
  char wanted[32] = "", ratio[32] = "", peer[32] = "";
  if (kind->most > 0) snprintf(wanted, sizeof wanted, "at most %.*f%s", kind->most < 10 ? 2 : 0, kind->most, is_above ? "*" : "");
  if (peers > 0) {
    snprintf(peer, sizeof peer, "%.3f", peers);
    if (!kind->of_itself) snprintf(ratio, sizeof ratio, "%.2f", peers / ours);
  }
  printf("| %-27s | %-17s | %9.3f | %9s | %9s | %-8s | %7s  | %8s | %-25s | |\n", kind->figure, kind->set, ours, peer, "", kind->unit, ratio, "",
         wanted);
  fflush(stdout);
  below += is_above;
}

void size_row(const char *row, const char *set, double ours, double peers, double most) {
  char figure[64];
  snprintf(figure, sizeof figure, "size, %s", row);
  figure_row(&(figure_kind){row, set, figure, "of plain", most, 0}, ours, peers);
}

void count_held_from_here(void) { held = most_held = (memory_held){0, 0}; }

memory_held memory_of(const contender *c) {
  count_held_from_here();
  is_asked = 1;
  c->work(c->data, 1);
  is_asked = 0;
  return most_held;
}

void measure_beyond(const row_kind *kind, const contender whole[CONTENDERS], const contender part[CONTENDERS], double lists) {
  if (!is_measured(kind->row, kind->set)) return;
  figures found = measure(whole, part);
  print_row(kind, &found, lists);
}

void measure_row(const row_kind *kind, const contender contenders[CONTENDERS], double lists) {
  measure_beyond(kind, contenders, NULL, lists);
}

double seconds_of(const contender *c) {
  const contender alone[CONTENDERS] = {*c, {0}, {0}};
  return measure(alone, NULL).seconds[OURS];
}

int rows_below(void) { return below; }
