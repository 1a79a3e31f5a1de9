#include "timers.h"
#include <stdlib.h>

static void put(timers *timers, timer *timer, size_t place) {
  timers->all[place - 1] = timer;
  timer->place = place;
}

/* Moves one to where it belongs. */
static void settle(timers *timers, timer *timer) {
  size_t place = timer->place;
  while (place > 1 && timers->all[place / 2 - 1]->at > timer->at) {
    put(timers, timers->all[place / 2 - 1], place);
    place /= 2;
  }
  while (2 * place <= timers->count) {
    size_t next = 2 * place;
    if (next < timers->count && timers->all[next]->at < timers->all[next - 1]->at) next++;
    if (timers->all[next - 1]->at >= timer->at) break;
    put(timers, timers->all[next - 1], place);
    place = next;
  }
  put(timers, timer, place);
}

bool timers_add(timers *timers, timer *timer, void *of, uint64_t at) {
  if (timers->count == timers->room) {
    size_t room = timers->room > 0 ? 2 * timers->room : 16;
    void *all = realloc(timers->all, room * sizeof *timers->all);
    if (!all) return false;
    timers->all = all;
    timers->room = room;
  }
  timer->of = of;
  timer->at = at;
  put(timers, timer, ++timers->count);
  settle(timers, timer);
  return true;
}

void timers_move(timers *timers, timer *timer, uint64_t at) {
  if (timer->place == 0 || timer->at == at) return;
  timer->at = at;
  settle(timers, timer);
}

void timers_remove(timers *timers, timer *removed) {
  if (removed->place == 0) return;
  timer *last = timers->all[timers->count-- - 1];
  if (last != removed) {
    put(timers, last, removed->place);
    settle(timers, last);
  }
  removed->place = 0;
}

void timers_free(timers *timers) {
  free(timers->all);
  timers->all = NULL;
  timers->count = timers->room = 0;
}
