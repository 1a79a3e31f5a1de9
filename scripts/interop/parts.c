/* parts: what examples/c keeps bytes and times in, and what it reads of priorities. It ends with 0 if all is right, and each loop took a second at
 * most. */
#include "buffer.h"
#include "http3.h"
#include "timers.h"
#include <stdio.h>
#include <stdlib.h>
#include <string.h>
#include <time.h>

enum { PIECES = 100000, PIECE = 100, PACKET = 1200, TIMERS = 5000 };

static int failed;

static void check(const char *name, bool is_right, clock_t began) {
  double seconds = (double)(clock() - began) / CLOCKS_PER_SEC;
  failed += !is_right || seconds > 1;
  printf("%s %s, %.3f s\n", is_right ? "right" : "wrong", name, seconds);
}

/* PIECES pieces, in numbers, are taken packet by packet, while none is acknowledged: each byte comes once. */
static void test_buffer(void) {
  static uint8_t bytes[PIECE];
  clock_t began = clock();
  buffer buffer = {0};
  bool is_right = true;
  for (int i = 0; i < PIECES; i++) {
    memset(bytes, i % 251, PIECE);
    is_right &= buffer_give(&buffer, bytes, PIECE);
  }
  for (uint64_t at = 0; at < (uint64_t)PIECES * PIECE;) {
    ngtcp2_vec pieces[16];
    size_t total, count = buffer_untaken(&buffer, pieces, 16, &total);
    size_t left = total < PACKET ? total : PACKET, step = left;
    for (size_t i = 0; i < count && left > 0; i++) {
      size_t now = pieces[i].len < left ? pieces[i].len : left;
      for (size_t j = 0; j < now; j++, at++) is_right &= pieces[i].base[j] == (at / PIECE) % 251;
      left -= now;
    }
    buffer_take(&buffer, step);
  }
  is_right &= buffer.taken == buffer.given && !buffer.next;
  buffer_acknowledge(&buffer, buffer.given - 1);
  is_right &= buffer.first == buffer.last && buffer.first;
  buffer_free(&buffer);
  check("buffer", is_right, began);
}

/* Timers by chance, moved and removed: the first is always the least. */
static void test_timers(void) {
  static timer all[TIMERS];
  clock_t began = clock();
  timers timers = {0};
  uint64_t last = 0;
  bool is_right = true;
  srand(1);
  for (int i = 0; i < TIMERS; i++) is_right &= timers_add(&timers, &all[i], &all[i], (uint64_t)rand());
  for (int i = 0; i < TIMERS; i += 3) timers_move(&timers, &all[i], (uint64_t)rand());
  for (int i = 0; i < TIMERS; i += 5) timers_remove(&timers, &all[i]);
  for (timer *first; (first = timers_first(&timers)); timers_remove(&timers, first)) {
    is_right &= first->at >= last && first->of == first;
    last = first->at;
  }
  for (int i = 0; i < TIMERS; i++) is_right &= all[i].place == 0;
  timers_free(&timers);
  check("timers", is_right, began);
}

/* RFC 9218, section 4: what the fields of a request say; section 13.1: nothing, if it came through a proxy. */
static void test_priority(void) {
  static const struct {
    http3_field fields[2];
    uint32_t urgency, incremental;
    bool is_said;
  } given[] = {{{{"accept", "*"}, {"user-agent", "x"}}, 3, 0, true},        {{{"priority", "u=1"}, {"priority", "i"}}, 1, 1, true},
               {{{"priority", "u=9"}, {"accept", "*"}}, 3, 0, true},         {{{"priority", "u=1,"}, {"accept", "*"}}, 3, 0, true},
               {{{"priority", "u=0"}, {"via", "3 proxy"}}, 0, 0, false},     {{{"forwarded", "for=x"}, {"priority", "u=0"}}, 0, 0, false},
               {{{"priority", "x=1;y, u=5"}, {"accept", "*"}}, 5, 0, true}};
  clock_t began = clock();
  bool is_right = true;
  for (size_t i = 0; i < sizeof given / sizeof *given; i++) {
    uint32_t urgency = 0, incremental = 0;
    http3_list *list = http3_list_of(given[i].fields, 2);
    is_right &= list && http3_priority(list, &urgency, &incremental) == given[i].is_said;
    if (given[i].is_said) is_right &= urgency == given[i].urgency && incremental == given[i].incremental;
    free(list);
  }
  check("priority", is_right, began);
}

int main(void) {
  test_priority();
  test_buffer();
  test_timers();
  return failed;
}
