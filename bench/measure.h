/* Times contenders in one run, in turn, and prints a row of a Markdown table for them. */
#ifndef MEASURE_H
#define MEASURE_H
#include <stddef.h>
#include <stdint.h>

/* One contender: does its work `rounds` times. What it does besides (reading its input) is measured by no round and
 * taken off. */
typedef struct {
  void (*work)(void *data, uint64_t rounds);
  void *data;
} contender;

enum { OURS, PEER, THIRD, CONTENDERS };

/* How long each row is measured, in five runs; the median of them counts. */
extern double measure_seconds;

/* Keeps the compiler from dropping work. */
extern volatile uint64_t measure_sink;

/* How a row shows its figures: `count` units a round, in `unit`, divided by `scale`; or, where `each` is set, the
 * nanoseconds of one unit, divided by `scale`. */
typedef struct {
  const char *row, *set, *unit;
  double count, scale;
  int each;
  double target_peer, target_third; /* least ratios of throughput; 0: none */
  const char *third;                /* who the third contender is; NULL: plain C */
  double most;                      /* the greatest figure of ours; 0: none */
  int no_allocation;                /* ours is to make none */
} row_kind;

void print_head(void);

/* Only rows whose name and set, with a blank between them, have this in them are measured; NULL: all. */
extern const char *measure_only;
int is_measured(const char *row, const char *set);

/* Measures the contenders and prints their row; `lists`, where it is above 0, also the allocations of one of them.
 * `work` is NULL for a contender that the row does not have. */
void measure_row(const row_kind *kind, const contender contenders[CONTENDERS], double lists);

/* Measures steps that cannot be taken alone: what each contender of `whole` takes beyond that of `part`, which does the same
 * without the step. */
void measure_beyond(const row_kind *kind, const contender whole[CONTENDERS], const contender part[CONTENDERS], double lists);

/* The seconds of one round, measured as a row is. */
double seconds_of(const contender *c);

/* Prints how large what is sent is, for ours and nghttp3; 1: as large as the plain bytes. `most`: the target of ours,
 * 0: none. */
void size_row(const char *row, const char *set, double ours, double peers, double most);

/* A figure of `row`, which is left out where that is: its name, its unit, and the most that ours may be (0: no target). If the
 * figure compares a library with itself, no ratio is printed. */
typedef struct {
  const char *row, *set, *figure, *unit;
  double most;
  int of_itself;
} figure_kind;

void figure_row(const figure_kind *kind, double ours, double peers);

/* The most memory that a round held: the bytes of its blocks, and how many these were then. */
typedef struct {
  double bytes, blocks;
} memory_held;

memory_held memory_of(const contender *c);

/* For work that makes what belongs to the driver first: that is not counted as held. */
void count_held_from_here(void);

/* Calls of malloc, calloc and realloc in so many rounds. */
double allocations_of(const contender *c, uint64_t rounds);

/* How many rows missed a target. */
int rows_below(void);
#endif
