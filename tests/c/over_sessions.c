/* Streams of WebTransport sessions that are over, of each kind and from each side, ended in many ways, with bytes that were not pulled. Once
 * both ends called h3_close_stream one costs a few bytes, or some hundred if it went one way, and its bytes are gone. Linked with --wrap
 * for malloc, realloc and free. One line 'ok NAME' or 'failed NAME'. */
#include "counted.h"
#define TEST "over_sessions"
#include "pair.h"
#include <string.h>

/* how what its opener sends ends: by its FIN, pulled or not, by its reset, behind its front or in it, or not at all, also where its reader
 * canceled it */
enum { ENDED, END_UNREAD, RESET, RESET_IN_FRONT, OPEN, CANCELED, ENDS };

enum { ROUNDS = 500, UNREAD = 3000, BYTES_BOTH = 24, BYTES_ONE = 450 };

static void make(void) {
  h3_config config;
  h3_config_default(&config);
  config.webtransport = config.datagram = config.extended_connect = config.sessions = 1;
  for (int side = 0; side < 2; side++) {
    config.server = (uint64_t)side;
    IS(h3_new(&ends[side], &config, NULL), H3_OK);
  }
  carry_own();
}

static void send_head(int side, const h3_field_size *sizes, size_t count, const char *bytes) {
  IS(h3_send_head(&ends[side], 0, sizes, NULL, count, bytes, strlen(bytes), NULL), H3_OK);
  carry_own();
  carry(side, 0);
  IS(pull(!side, 0).kind, H3_HEAD);
  carry_own();
}

static void begin(void) {
  static const h3_field_size request[] = {{7, 7}, {9, 12}, {7, 5}, {10, 1}, {5, 1}}, response[] = {{7, 3}};
  uint64_t id = 99;
  make();
  IS(h3_open_request(&ends[CLIENT], &id, NULL), H3_OK);
  send_head(CLIENT, request, 5, ":methodCONNECT:protocolwebtransport:schemehttps:authoritya:path/");
  send_head(SERVER, response, 1, ":status200");
}

/* what was sent comes, and of the opener's side alone what was not pulled stays */
static void comes(int side, uint64_t id, int how) {
  static uint8_t bytes[UNREAD];
  if (how == RESET_IN_FRONT) {
    IS(h3_deliver(&ends[!side], id, "\x40", 1, NULL), H3_OK);
    IS(h3_reset(&ends[side], id, NULL), H3_OK);
    IS(h3_deliver_reset(&ends[!side], id, 7, NULL), H3_OK);
    pull(!side, id);
    return;
  }
  carry(side, id);
  HOLDS(pull(!side, id).kind == H3_SESSION);
  IS(h3_send_raw(&ends[side], id, bytes, sizeof bytes, NULL), H3_OK);
  if (how == ENDED || how == END_UNREAD) IS(h3_finish(&ends[side], id, NULL), H3_OK);
  carry(side, id);
  if (how == ENDED || how == END_UNREAD) IS(h3_end_taken(&ends[side], id), H3_OK);
  if (how == ENDED)
    while (pull(!side, id).kind != H3_END) {
    }
  if (how == RESET) {
    IS(h3_reset(&ends[side], id, NULL), H3_OK);
    IS(h3_deliver_reset(&ends[!side], id, 7, NULL), H3_OK);
    HOLDS(pull(!side, id).kind == H3_FAULT_RESET);
  }
  if (how == CANCELED) IS(h3_cancel(&ends[!side], id, NULL), H3_OK);
}

static void close_at(int side, uint64_t id) {
  uint32_t stop = 9, reset = 9;
  uint32_t answer = h3_close_stream(&ends[side], id, &stop, &reset, NULL);
  HOLDS(answer == H3_OK || answer == H3_NOT_OPEN); /* one that ended in its front is of no session */
}

static void streams(int side, int both_ways, int how, int count) {
  for (int i = 0; i < count; i++) {
    uint64_t id = 99;
    IS(h3_open_session_stream(&ends[side], 0, (uint32_t)both_ways, &id, NULL), H3_OK);
    comes(side, id, how);
    if (both_ways && how != RESET_IN_FRONT) {
      IS(h3_send_raw(&ends[!side], id, "answer", 6, NULL), H3_OK);
      carry(!side, id);
    }
    close_at(side, id);
    close_at(!side, id);
    carry_own();
  }
}

static double most[2]; /* one way, both ways */

static void of(int side, int both_ways, int how) {
  begin();
  streams(side, both_ways, how, ROUNDS);
  size_t before = live;
  streams(side, both_ways, how, ROUNDS);
  double bytes = (double)(live - before) / ROUNDS;
  if (live < before) bytes = 0;
  if (bytes > (both_ways ? BYTES_BOTH : BYTES_ONE)) {
    printf("failed " TEST ": a stream from side %d, both ways %d, that ends in way %d costs %.1f bytes\n", side, both_ways, how, bytes);
    bad = 1;
  }
  if (bytes > most[both_ways]) most[both_ways] = bytes;
  drop();
}

int main(void) {
  for (int side = 0; side < 2; side++)
    for (int both_ways = 0; both_ways < 2; both_ways++)
      for (int how = 0; how < ENDS; how++) of(side, both_ways, how);
  if (!bad) printf("ok " TEST ": a stream that is over costs at most %.1f bytes both ways, and %.1f one way\n", most[1], most[0]);
  return bad;
}
