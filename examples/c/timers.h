/* What has to be done at a time: a heap, whose first one is the earliest. */
#ifndef EXAMPLES_TIMERS_H
#define EXAMPLES_TIMERS_H
#include <stdbool.h>
#include <stddef.h>
#include <stdint.h>

/* One, which stands in what it is for. All zero: in no heap. */
typedef struct {
  uint64_t at;
  size_t place; /* in the heap, from 1 on */
  void *of;
} timer;

/* Empty if all is zero. */
typedef struct {
  timer **all;
  size_t count, room;
} timers;

/* Adds one, of `of`, at a time. false: out of memory. */
bool timers_add(timers *, timer *, void *of, uint64_t at);
/* Its time is another one. It takes no memory. */
void timers_move(timers *, timer *, uint64_t at);
/* Takes one out, if it is there. */
void timers_remove(timers *, timer *);
/* The earliest, or NULL. */
static inline timer *timers_first(const timers *timers) { return timers->count > 0 ? timers->all[0] : NULL; }
void timers_free(timers *);
#endif
