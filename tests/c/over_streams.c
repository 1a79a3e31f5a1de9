/* Streams that are over at a server, of each priority, held or not, and ended in many ways: each costs a few bytes, the FIN of one is still
 * named by its priority, and a later change of the priority holds. Linked with --wrap for malloc, realloc and free. One line 'ok NAME' or
 * 'failed NAME'. */
#include "counted.h"
#include "h3.h"
#include <string.h>
#define TEST "over_streams"
#include "field_list.h"
#include "pair.h"

/* how a request ends: by its FIN, by a reset behind its head or ahead of it, or it is canceled or malformed */
enum { ENDED, RESET, RESET_EARLY, CANCELED, MALFORMED, REQUEST_ENDS };

/* how its response does: all is taken, or all but the FIN, also behind a trailer, or it is reset behind its head or ahead of it */
enum { TAKEN, FIN_WAITS, TRAILER_TAKEN, CUT_OFF, NOTHING_SENT, RESPONSE_ENDS };

enum {
  PRECEDENCES = 32, /* eight urgencies, incremental or not, held or not */
  KINDS = PRECEDENCES * REQUEST_ENDS * RESPONSE_ENDS,
  ROUNDS = 8,
  BYTES = 12,      /* what a stream may cost that is over: two bytes in pages, the bit of a FIN that waits, and some have a code */
  CODE_BYTES = 24, /* and with a code of its own */
};

static field_list response, trailer;

static void make(void) {
  h3_config config;
  h3_config_default(&config);
  for (int side = 0; side < 2; side++) {
    config.server = (uint64_t)side;
    IS(h3_new(&ends[side], &config, NULL), H3_OK);
  }
  carry_own();
}

static void take_bytes(uint64_t id) {
  h3_stream_state state;
  IS(h3_stream(&ends[SERVER], id, &state), H3_OK);
  IS(h3_advance(&ends[SERVER], id, state.waiting), H3_OK);
}

/* QPACK's streams may take bytes at each of these calls */
static void take_own(void) {
  take_bytes(h3_control_id(SERVER));
  take_bytes(h3_encoder_id(SERVER));
  take_bytes(h3_decoder_id(SERVER));
}

static void request_ends(uint64_t id, int how, uint64_t code) {
  static const char whole[] = "\1\x08\0\0\xd1\xd7\xc1\x50\1\x61", no_method[] = "\1\x03\0\0\xd7";
  h3_endpoint *server = &ends[SERVER];
  int is_malformed = how == MALFORMED;
  IS(h3_deliver(server, id, is_malformed ? no_method : whole, is_malformed ? sizeof no_method - 1 : sizeof whole - 1, NULL), H3_OK);
  if (how == RESET_EARLY) {
    IS(h3_deliver_reset(server, id, code, NULL), H3_OK);
    HOLDS(pull(SERVER, id).kind == H3_FAULT_RESET);
    return;
  }
  HOLDS(pull(SERVER, id).kind == (is_malformed ? H3_FAULT_MALFORMED : H3_HEAD));
  if (how == CANCELED) IS(h3_cancel(server, id, NULL), H3_OK);
  if (how == RESET) {
    IS(h3_deliver_reset(server, id, code, NULL), H3_OK);
    HOLDS(pull(SERVER, id).kind == H3_FAULT_RESET);
    return;
  }
  IS(h3_deliver_end(server, id, NULL), H3_OK);
  if (how == ENDED) HOLDS(pull(SERVER, id).kind == H3_END);
}

static void response_ends(uint64_t id, int how) {
  h3_endpoint *server = &ends[SERVER];
  if (how != NOTHING_SENT) IS(send_list(server, id, &response), H3_OK);
  if (how == CUT_OFF || how == NOTHING_SENT) {
    IS(h3_reset(server, id, NULL), H3_OK);
    return;
  }
  if (how == TRAILER_TAKEN) IS(h3_send_trailer(server, id, trailer.sizes, NULL, trailer.count, trailer.bytes, trailer.len, NULL), H3_OK);
  IS(h3_finish(server, id, NULL), H3_OK);
  take_bytes(id);
  if (how != FIN_WAITS) IS(h3_end_taken(server, id), H3_OK);
}

static void prioritize(uint64_t id, int precedence) {
  IS(h3_set_priority(&ends[SERVER], id, (uint32_t)precedence >> 2, precedence >> 1 & 1, NULL), H3_OK);
  if (precedence & 1) IS(h3_hold(&ends[SERVER], id, 1, NULL), H3_OK);
}

/* a stream of each kind, so many times */
static uint64_t all_kinds(uint64_t id, int rounds, int has_codes) {
  for (int i = 0; i < rounds * KINDS; i++, id += 4) {
    int kind = i % KINDS, how = kind / PRECEDENCES;
    int request = how % REQUEST_ENDS, answer = how / REQUEST_ENDS;
    request_ends(id, request, has_codes ? (uint64_t)i : 0x10c);
    prioritize(id, kind % PRECEDENCES);
    response_ends(id, request == RESET_EARLY && answer == TRAILER_TAKEN ? TAKEN : answer); /* no trailer ahead of a request's head */
    take_own();
  }
  return id;
}

/* the bytes that a stream costs once all kinds were seen */
static double cost(int has_codes) {
  make();
  uint64_t id = all_kinds(0, 1, has_codes);
  size_t before = live;
  all_kinds(id, ROUNDS, has_codes);
  double bytes = (double)(live - before) / (ROUNDS * KINDS);
  drop();
  return bytes;
}

/* FINs go out by their priorities, though their streams are over, and those that are held do not */
static void of_ends_that_wait(void) {
  uint64_t id = 0;
  make();
  for (int i = 0; i < PRECEDENCES; i++) {
    int precedence = (i * 11 + 5) % PRECEDENCES;
    request_ends((uint64_t)i * 4, ENDED, 0);
    prioritize((uint64_t)i * 4, precedence);
    response_ends((uint64_t)i * 4, FIN_WAITS);
  }
  for (int precedence = 0; precedence < PRECEDENCES; precedence += 2) { /* two of each urgency */
    IS(h3_next_by_priority(&ends[SERVER], &id), H3_OK);
    HOLDS((int)(id / 4 * 11 + 5) % PRECEDENCES / 4 == precedence / 4);
    IS(h3_end_taken(&ends[SERVER], id), H3_OK);
  }
  IS(h3_next_by_priority(&ends[SERVER], &id), H3_NONE);
  for (uint64_t i = 0; i < PRECEDENCES; i++) /* the least urgent goes first now */
    if ((i * 11 + 5) & 1) {
      IS(h3_set_priority(&ends[SERVER], i * 4, 7 - (uint32_t)((i * 11 + 5) % PRECEDENCES >> 2), 0, NULL), H3_OK);
      IS(h3_hold(&ends[SERVER], i * 4, 0, NULL), H3_OK);
    }
  for (int urgency = 0; urgency < 8; urgency++)
    for (int i = 0; i < 2; i++) {
      IS(h3_next_by_priority(&ends[SERVER], &id), H3_OK);
      HOLDS((int)(id / 4 * 11 + 5) % PRECEDENCES >> 2 == 7 - urgency);
      IS(h3_end_taken(&ends[SERVER], id), H3_OK);
    }
  IS(h3_next_by_priority(&ends[SERVER], &id), H3_NONE);
  drop();
}

static void bounded(const char *which, double bytes, int most) {
  if (bytes <= most) return;
  printf("failed over_streams: a stream that is over%s costs %.1f bytes, above %d\n", which, bytes, most);
  bad = 1;
}

int main(void) {
  begin_response(&response, "200");
  add_field(&trailer, "x", "y");
  of_ends_that_wait();
  double plain = cost(0), coded = cost(1);
  bounded("", plain, BYTES);
  bounded(" with a code of its own", coded, CODE_BYTES);
  if (!bad)
    printf("ok over_streams: %d kinds of streams that are over: %.1f bytes each, and %.1f with codes of resets\n", KINDS, plain, coded);
  return bad;
}
