/* Which stream sends next (RFC 9218, section 10): the rows of turns and urgencies, streams that are held, own streams first, an urgent response
 * behind twenty downloads on a slow link, random programs beside a model that keeps streams in a row, and each allocation of the calls refused
 * in turn. Linked with --wrap for malloc and realloc. One line 'ok NAME' or 'failed NAME'. */
#include "h3.h"
#include <string.h>
#define TEST "by_priority"
#include "field_list.h"
#include "pair.h"

enum { BODY = 1 << 16, NONE = -1 };

static field_list request, response;
static uint8_t body[BODY];

static void make(void) {
  h3_config config;
  h3_config_default(&config);
  for (int side = 0; side < 2; side++) {
    config.server = (uint64_t)side;
    IS(h3_new(&ends[side], &config, NULL), H3_OK);
  }
  carry_own();
}

/* a request that the server knows, on the next stream */
static uint64_t ask(void) {
  uint64_t id = 1;
  IS(h3_open_request(&ends[CLIENT], &id, NULL), H3_OK);
  IS(send_list(&ends[CLIENT], id, &request), H3_OK);
  carry(CLIENT, id);
  carry_own();
  return id;
}

/* a response with so many bytes of a body, of which nothing goes out yet but what QPACK writes */
static void answer(uint64_t id, size_t len) {
  IS(send_list(&ends[SERVER], id, &response), H3_OK);
  for (size_t n; len; len -= n) {
    n = len < BODY ? len : BODY;
    IS(h3_send_body(&ends[SERVER], id, body, n, NULL), H3_OK);
  }
  carry_own();
}

static void urge(uint64_t id, uint32_t urgency, uint32_t incremental) {
  IS(h3_set_priority(&ends[SERVER], id, urgency, incremental, NULL), H3_OK);
}

static int64_t next(void) {
  uint64_t id = 77;
  uint32_t n = h3_next_by_priority(&ends[SERVER], &id);
  if (n == H3_OK) return (int64_t)id;
  IS(n, H3_NONE);
  HOLDS(id == 77);
  return NONE;
}

/* this stream is next, and one byte of it goes out */
static void turn_of(int64_t id) {
  int64_t is = next();
  if (is != id) printf("failed " TEST ": %lld is next, not %lld\n", (long long)is, (long long)id), bad = 1;
  if (is != NONE) IS(h3_advance(&ends[SERVER], (uint64_t)is, 1), H3_OK);
}

#define TURNS(...) \
  do { \
    const int64_t of_[] = {__VA_ARGS__}; \
    for (size_t i_ = 0; i_ < sizeof of_ / sizeof *of_; i_++) turn_of(of_[i_]); \
  } while (0)

static uint64_t waits(int side, uint64_t id) {
  h3_stream_state state;
  IS(h3_stream(&ends[side], id, &state), H3_OK);
  return state.waiting;
}

/* all that waits on a stream, and its end */
static void take_all(uint64_t id) {
  IS(h3_advance(&ends[SERVER], id, waits(SERVER, id)), H3_OK);
  h3_end_taken(&ends[SERVER], id);
}

static void of_rows(void) {
  make();
  for (int i = 0; i < 5; i++) answer(ask(), 1000);
  urge(8, 3, 1);
  urge(12, 3, 1);
  urge(16, 1, 0);
  TURNS(16, 16);
  take_all(16);
  TURNS(0, 8, 12, 0, 8, 12);
  IS(h3_advance(&ends[SERVER], 0, 0), H3_OK); /* no bytes, no turn */
  HOLDS(next() == 0);
  take_all(0);
  TURNS(4, 8, 12);
  IS(h3_hold(&ends[SERVER], 8, 1, NULL), H3_OK);
  IS(h3_hold(&ends[SERVER], 8, 1, NULL), H3_OK);
  TURNS(4, 12, 4, 12);
  uint64_t id = 5;
  IS(h3_next_to_send(&ends[SERVER], 5, &id), H3_OK); /* it waits still */
  HOLDS(id == 8);
  IS(h3_hold(&ends[SERVER], 8, 0, NULL), H3_OK);
  TURNS(4, 8, 12, 4);
  drop();
}

/* one that comes during a round waits for the next */
static void of_rounds(void) {
  make();
  for (int i = 0; i < 5; i++) ask();
  answer(0, 100);
  answer(8, 100);
  answer(12, 100);
  urge(8, 3, 1);
  urge(12, 3, 1);
  TURNS(0);
  HOLDS(ask() == 20);
  urge(20, 3, 1);
  answer(20, 100);
  TURNS(8, 12, 0, 8, 12, 20);
  drop();
}

/* a FIN alone is named, and a stream changes its urgency while it waits */
static void of_ends(void) {
  make();
  for (int i = 0; i < 3; i++) answer(ask(), 10);
  IS(h3_finish(&ends[SERVER], 4, NULL), H3_OK);
  IS(h3_advance(&ends[SERVER], 4, waits(SERVER, 4)), H3_OK);
  urge(4, 0, 0);
  HOLDS(next() == 4);
  urge(4, 7, 1);
  HOLDS(next() == 0);
  IS(h3_hold(&ends[SERVER], 0, 1, NULL), H3_OK);
  IS(h3_hold(&ends[SERVER], 8, 1, NULL), H3_OK);
  HOLDS(next() == 4);
  IS(h3_hold(&ends[SERVER], 4, 1, NULL), H3_OK);
  HOLDS(next() == NONE);
  uint64_t id = 9;
  IS(h3_next_to_send(&ends[SERVER], 0, &id), H3_OK);
  HOLDS(id == 0);
  IS(h3_hold(&ends[SERVER], 4, 0, NULL), H3_OK);
  HOLDS(next() == 4);
  IS(h3_end_taken(&ends[SERVER], 4), H3_OK);
  HOLDS(next() == NONE);
  IS(h3_reset(&ends[SERVER], 0, NULL), H3_OK);
  IS(h3_hold(&ends[SERVER], 0, 0, NULL), H3_OK); /* nothing waits on it any more */
  HOLDS(next() == NONE);
  IS(h3_hold(&ends[SERVER], 8, 0, NULL), H3_OK);
  HOLDS(next() == 8);
  drop();
}

/* the own streams come first, in their order, but for one that is held */
static void of_own(void) {
  make();
  answer(ask(), 10);
  urge(0, 0, 0);
  HOLDS(next() == 0);
  field_list more = response;
  add_field(&more, "x-new", "of which the table knows nothing");
  ask();
  IS(send_list(&ends[SERVER], 4, &more), H3_OK);
  IS(h3_goaway(&ends[SERVER], 8, NULL), H3_OK);
  HOLDS(waits(SERVER, 7) > 0);
  HOLDS(next() == 3);
  IS(h3_hold(&ends[SERVER], 3, 1, NULL), H3_OK);
  HOLDS(next() == 7);
  IS(h3_hold(&ends[SERVER], 7, 1, NULL), H3_OK);
  HOLDS(next() == 0);
  IS(h3_hold(&ends[SERVER], 3, 0, NULL), H3_OK);
  HOLDS(next() == 3);
  take_all(3);
  IS(h3_hold(&ends[SERVER], 7, 0, NULL), H3_OK);
  HOLDS(next() == 7);
  take_all(7);
  HOLDS(next() == 0);
  drop();
}

static void of_refusals(void) {
  uint64_t detail = 1;
  make();
  ask();
  IS(h3_set_priority(&ends[SERVER], 1ull << 62, 0, 0, &detail), H3_ARGUMENT);
  IS(h3_set_priority(&ends[SERVER], 0, 8, 0, &detail), H3_ARGUMENT);
  IS(h3_set_priority(&ends[SERVER], 0, 263, 0, &detail), H3_ARGUMENT); /* 7 in its low byte */
  IS(h3_set_priority(&ends[SERVER], 0, 0, 2, &detail), H3_ARGUMENT);
  IS(h3_set_priority(&ends[SERVER], 3, 0, 0, &detail), H3_NOT_REQUEST_ID);
  IS(h3_set_priority(&ends[SERVER], 4, 0, 0, &detail), H3_NOT_OPEN);
  IS(h3_set_priority(&ends[SERVER], 0, 7, 1, &detail), H3_OK);
  IS(h3_hold(&ends[SERVER], 1ull << 62, 0, &detail), H3_ARGUMENT);
  IS(h3_hold(&ends[SERVER], 0, 2, &detail), H3_ARGUMENT);
  IS(h3_hold(&ends[SERVER], 4, 1, &detail), H3_NOT_OPEN);
  IS(h3_hold(&ends[SERVER], 2, 1, &detail), H3_NOT_OPEN); /* the peer's */
  IS(h3_hold(&ends[SERVER], 0, 1, &detail), H3_OK);
  IS(h3_deliver(&ends[SERVER], 6, "\x02\x3f\xff\xff\xff\xff\xff\xff\xff\xff\xff\xff", 12, NULL), H3_CONNECTION);
  IS(h3_set_priority(&ends[SERVER], 0, 0, 0, &detail), H3_CLOSED);
  IS(h3_hold(&ends[SERVER], 0, 0, &detail), H3_CLOSED);
  HOLDS(next() == NONE || next() == 3);
  h3_endpoint none = H3_NONE_YET;
  uint64_t id = 7;
  IS(h3_next_by_priority(&none, &id), H3_NO_ENDPOINT);
  IS(h3_set_priority(&none, 0, 0, 0, NULL), H3_NO_ENDPOINT);
  IS(h3_hold(&none, 0, 0, NULL), H3_NO_ENDPOINT);
  IS(h3_next_by_priority(&ends[SERVER], NULL), H3_ARGUMENT);
  drop();
}

/* On a slow link: twenty downloads of 200 KB are under way, and an urgent response of 50 KB comes once 100 KB went out. How many bytes go out until it is
 * whole, in pieces of 1,200 bytes. */
static uint64_t sent_until_urgent(int by_priority, uint32_t incremental) {
  enum { DOWNLOADS = 20, PIECE = 1200, SIZE = 200000, URGENT_SIZE = 50000, BEFORE = 100000 };
  uint64_t sent = 0, urgent = 4 * DOWNLOADS, begun = 0;
  make();
  for (int i = 0; i < DOWNLOADS; i++) {
    uint64_t id = ask();
    if (by_priority && incremental) urge(id, 3, 1);
    answer(id, SIZE);
    IS(h3_finish(&ends[SERVER], id, NULL), H3_OK);
  }
  for (;;) {
    uint64_t id = 0;
    uint32_t n = by_priority ? h3_next_by_priority(&ends[SERVER], &id) : h3_next_to_send(&ends[SERVER], 0, &id);
    if (n != H3_OK) break;
    uint64_t piece = waits(SERVER, id);
    if (piece > PIECE) piece = PIECE;
    IS(h3_advance(&ends[SERVER], id, piece), H3_OK);
    if (h3_end_taken(&ends[SERVER], id) == H3_OK && id == urgent) break;
    sent += piece;
    if (!begun && sent >= BEFORE) {
      begun = sent;
      HOLDS(ask() == urgent);
      if (by_priority) urge(urgent, 0, 0);
      answer(urgent, URGENT_SIZE);
      IS(h3_finish(&ends[SERVER], urgent, NULL), H3_OK);
    }
  }
  drop();
  return sent - begun;
}

static void of_slow_links(void) {
  HOLDS(sent_until_urgent(0, 0) > 3900000); /* all downloads go first */
  HOLDS(sent_until_urgent(1, 0) < 51000);
  HOLDS(sent_until_urgent(1, 1) < 51000);
}

/* ---- the model: the streams in a row, and of each urgency a round (ids from one on and below another have their turn) ---- */

enum { STREAMS = 40 };

static struct {
  uint64_t bytes;
  uint32_t urgency, incremental, held, open, headed, finished, taken;
} of[STREAMS];
static uint64_t from[8], until[8], opened;
static int turns_count;

static int stands(int i) { return of[i].open && !of[i].held && (of[i].bytes > 0 || (of[i].finished && !of[i].taken)); }

static int64_t model_next(void) {
  for (uint32_t urgency = 0; urgency < 8; urgency++) {
    int64_t plain = NONE, first = NONE, in_round = NONE;
    for (int i = STREAMS - 1; i >= 0; i--)
      if (stands(i) && of[i].urgency == urgency && !of[i].incremental) plain = 4 * i;
    for (int i = STREAMS - 1; i >= 0; i--) {
      int64_t id = 4 * i;
      if (!stands(i) || of[i].urgency != urgency || (!of[i].incremental && id != plain)) continue;
      first = id;
      if ((uint64_t)id >= from[urgency] && (uint64_t)id < until[urgency]) in_round = id;
    }
    if (in_round != NONE) return in_round;
    if (first != NONE) return first;
  }
  return NONE;
}

static void model_turn(uint64_t id) {
  uint32_t urgency = of[id / 4].urgency;
  if (!turns_count) return;
  if (id < from[urgency] || id >= until[urgency]) until[urgency] = 4 * opened;
  from[urgency] = id + 1;
}

static uint32_t a_step(void) {
  int i = (int)random_below((uint32_t)opened + 1);
  uint64_t id = 4 * (uint64_t)i;
  if (i == (int)opened) {
    if (opened == STREAMS) return 0;
    HOLDS(ask() == id);
    if (random_below(2)) { /* the request is whole, so that the stream can be over */
      IS(h3_finish(&ends[CLIENT], id, NULL), H3_OK);
      carry(CLIENT, id);
      HOLDS(pull(SERVER, id).kind == H3_HEAD && pull(SERVER, id).kind == H3_END);
      carry_own();
    }
    of[i].urgency = 3, of[i].incremental = of[i].held = of[i].headed = of[i].finished = of[i].taken = 0, of[i].bytes = 0, of[i].open = 1;
    opened++;
    return 1;
  }
  switch (random_below(8)) {
  case 0:
    of[i].urgency = random_below(3) + 2, of[i].incremental = random_below(2);
    urge(id, of[i].urgency, of[i].incremental);
    if (!turns_count) memset(from, 0, sizeof from), memset(until, 0, sizeof until);
    turns_count = 1;
    break;
  case 1:
    of[i].held = random_below(3) == 0;
    IS(h3_hold(&ends[SERVER], id, of[i].held, NULL), H3_OK);
    break;
  case 2:
    if (!of[i].headed && !of[i].finished) {
      answer(id, random_below(200));
      of[i].headed = 1;
    } else if (of[i].headed && !of[i].finished) {
      IS(h3_send_body(&ends[SERVER], id, body, random_below(300), NULL), H3_OK);
    }
    break;
  case 3:
    if (of[i].headed && !of[i].finished && random_below(3) == 0) {
      IS(h3_finish(&ends[SERVER], id, NULL), H3_OK);
      of[i].finished = 1;
    }
    break;
  case 4:
    if (random_below(12) == 0 && of[i].headed && !(of[i].finished && of[i].bytes == 0)) {
      IS(h3_reset(&ends[SERVER], id, NULL), H3_OK);
      of[i].finished = of[i].taken = 1;
    }
    break;
  default: {
    int64_t is = next();
    if (is == NONE) break;
    uint64_t n = random_below(100), there = waits(SERVER, (uint64_t)is);
    if (n > there) n = there;
    IS(h3_advance(&ends[SERVER], (uint64_t)is, n), H3_OK);
    if (n) model_turn((uint64_t)is);
    if (h3_end_taken(&ends[SERVER], (uint64_t)is) == H3_OK) of[is / 4].taken = 1;
    i = (int)(is / 4);
    id = (uint64_t)is;
  }
  }
  of[i].bytes = waits(SERVER, id);
  return 1;
}

static void of_model(void) {
  for (int run = 0; run < 40; run++) {
    memset(of, 0, sizeof of);
    memset(from, 0, sizeof from), memset(until, 0, sizeof until);
    opened = 0, turns_count = 0;
    make();
    for (int step = 0; step < 2000; step++) {
      a_step();
      int64_t is = next(), wanted = model_next();
      if (is != wanted) {
        printf("failed " TEST ": run %d, step %d: %lld is next, not %lld\n", run, step, (long long)is, (long long)wanted);
        bad = 1;
        return;
      }
      if (!turns_count && is != NONE) { /* no priority was set: the lowest id of those that are not held */
        uint64_t id = 0;
        while (h3_next_to_send(&ends[SERVER], id, &id) == H3_OK && of[id / 4].held) id++;
        HOLDS(id == (uint64_t)is);
      }
    }
    drop();
  }
}

/* ---- each allocation of h3_set_priority and h3_hold is refused in turn: nothing changes, and the call can be made again ---- */

void *__real_malloc(size_t);
void *__real_realloc(void *, size_t);
void *__wrap_malloc(size_t);
void *__wrap_realloc(void *, size_t);

static long left = -1; /* allocations until one is refused; -1: none is */

static int refuse(void) { return left >= 0 && left-- == 0; }
void *__wrap_malloc(size_t n) { return refuse() ? NULL : __real_malloc(n); }
void *__wrap_realloc(void *p, size_t n) { return refuse() ? NULL : __real_realloc(p, n); }

enum { ASKED = 300, CALLS = 48, PLAYED = 3000, NO_CALL = -1 };

/* what an allocation that is refused does: none was, the call says so, or it does without (a stream that is over stays whole) */
enum { NONE_REFUSED, SAID, DONE_WITHOUT };

/* priorities of all classes, of streams far apart and of one that is over; each third stream is held, and some are let go */
static uint32_t call(int i) {
  uint64_t id = 4 * (uint64_t)(i * 89 % ASKED);
  if (i % 3 == 2) return h3_hold(&ends[SERVER], 4 * (uint64_t)((i - i % 2 * 3) * 89 % ASKED), (uint32_t)(i % 2 == 0), NULL);
  return h3_set_priority(&ends[SERVER], id, (uint32_t)(i % 8), (uint32_t)(i / 8 % 2), NULL);
}

/* the first stream is over, both ways */
static void end_first(void) {
  IS(h3_finish(&ends[CLIENT], 0, NULL), H3_OK);
  carry(CLIENT, 0);
  HOLDS(pull(SERVER, 0).kind == H3_HEAD && pull(SERVER, 0).kind == H3_END);
  IS(h3_finish(&ends[SERVER], 0, NULL), H3_OK);
  take_all(0);
}

/* All calls but the one at `skipped` are made. In the one at `at` this allocation is refused, and it is made `again` or not. Then who has its
 * turn goes to `order`. */
static int play(int skipped, int at, long allocation, int again, int64_t order[PLAYED]) {
  int refusal = NONE_REFUSED, turns = 0;
  make();
  for (int i = 0; i < ASKED; i++) answer(ask(), 20);
  end_first();
  for (int i = 0; i < CALLS; i++) {
    if (i == skipped) continue;
    left = i == at ? allocation : -1;
    uint32_t n = call(i);
    if (i == at && left < 0) refusal = n == H3_OK ? DONE_WITHOUT : SAID;
    left = -1;
    IS(n, i == at && refusal == SAID ? H3_MEMORY : H3_OK);
    if (i == at && refusal == SAID && again) IS(call(i), H3_OK);
  }
  for (int64_t is; turns < PLAYED - 1 && (is = next()) != NONE; order[turns++] = is) {
    uint64_t there = waits(SERVER, (uint64_t)is);
    IS(h3_advance(&ends[SERVER], (uint64_t)is, there < 10 ? there : 10), H3_OK);
  }
  order[turns] = NONE;
  HOLDS(turns < PLAYED - 1);
  drop();
  return refusal;
}

static int same(const int64_t *one, const int64_t *other) {
  while (*one == *other && *one != NONE) one++, other++;
  return *one == *other;
}

static long of_memory(void) {
  static int64_t whole[PLAYED], without[PLAYED], order[PLAYED];
  long refused = 0;
  int refusal;
  play(NO_CALL, NO_CALL, 0, 0, whole);
  for (int at = 0; at < CALLS; at++) {
    play(at, NO_CALL, 0, 0, without);
    for (long allocation = 0; (refusal = play(NO_CALL, at, allocation, 0, order)) != NONE_REFUSED; allocation++, refused++) {
      HOLDS(refusal == SAID || at == 0); /* the stream of the first call is over */
      HOLDS(same(order, refusal == SAID ? without : whole));
      HOLDS(play(NO_CALL, at, allocation, 1, order) && same(order, whole));
    }
    HOLDS(same(order, whole));
  }
  return refused;
}

int main(void) {
  begin_request(&request, "GET");
  begin_response(&response, "200");
  of_rows();
  of_rounds();
  of_ends();
  of_own();
  of_refusals();
  of_slow_links();
  of_model();
  long refused = of_memory();
  HOLDS(refused >= 5);
  if (!bad) printf("ok by_priority: urgencies, turns, held and own streams, an urgent response on a slow link, 80,000 random steps, %ld allocations refused\n", refused);
  return bad;
}
