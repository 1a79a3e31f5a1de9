/* A server shuts down in two steps, and loses no request: the bytes of both GOAWAY frames, requests that are rejected, when the connection is
 * drained, 1,000 requests under way, and what h3_next_event tells. One line 'ok NAME' or 'failed NAME'. */
#include "h3.h"
#include <string.h>
#define TEST "shutdown"
#include "field_list.h"
#include "pair.h"

enum { REQUESTS = 1000, NUMBERS = 21, SERVER_NUMBER = 5, REJECT_NUMBER = 16 };

static field_list request, response;

/* An end that is made of so many numbers in a row, so that reject_requests is given or left out. */
static void make_end(int side, uint64_t rejects) {
  uint64_t numbers[NUMBERS], detail = 0;
  h3_raw_config_default(numbers, NUMBERS);
  numbers[SERVER_NUMBER + 1] = (uint64_t)side;
  HOLDS(numbers[REJECT_NUMBER + 1] == 1); /* by default */
  numbers[REJECT_NUMBER + 1] = rejects;
  IS(h3_raw_new(numbers, NUMBERS, &detail, &ends[side]), H3_OK);
}

static void make(uint64_t rejects) {
  make_end(CLIENT, rejects);
  make_end(SERVER, rejects);
  carry_own();
}

static uint64_t ask(void) {
  uint64_t id = 1;
  IS(h3_open_request(&ends[CLIENT], &id, NULL), H3_OK);
  IS(send_list(&ends[CLIENT], id, &request), H3_OK);
  IS(h3_finish(&ends[CLIENT], id, NULL), H3_OK);
  return id;
}

static void answer(uint64_t id) {
  IS(send_list(&ends[SERVER], id, &response), H3_OK);
  IS(h3_finish(&ends[SERVER], id, NULL), H3_OK);
}

/* what waits on a stream goes over, and its end, which is taken */
static void carry_to_end(int from, uint64_t id) {
  carry(from, id);
  IS(h3_end_taken(&ends[from], id), H3_OK);
}

static void pull_whole(int side, uint64_t id) {
  HOLDS(pull(side, id).kind == H3_HEAD);
  HOLDS(pull(side, id).kind == H3_END);
}

static int drained(int side) {
  uint32_t is = 7;
  IS(h3_is_drained(&ends[side], &is), H3_OK);
  HOLDS(is < 2);
  return is == 1;
}

static uint64_t unseen(int side) {
  uint64_t id = 7;
  IS(h3_first_unseen(&ends[side], &id), H3_OK);
  return id;
}

/* these bytes wait on the control stream, and are carried */
static void writes(int side, const void *bytes, size_t len) {
  uint8_t there[64];
  size_t n = 0;
  IS(h3_outgoing(&ends[side], h3_control_id(side), there, sizeof there, &n, NULL, NULL), H3_OK);
  HOLDS(n == len && memcmp(there, bytes, len) == 0);
  carry(side, h3_control_id(side));
}

#define WRITES(side, text) writes(side, text, sizeof text - 1)

static const char frame[] = "\x01\x03\x00\x00\xd1"; /* HEADERS with :method GET, for streams that no one reads */

/* 0 and 4 were seen: what is below 8 goes on, and what comes first from there on is rejected */
static void of_two_requests(void) {
  uint64_t detail = 1;
  h3_item item;
  size_t used;
  make(1);
  HOLDS(unseen(SERVER) == 0 && unseen(CLIENT) == 0);
  HOLDS(!drained(SERVER) && !drained(CLIENT));
  ask();
  carry_own();
  carry(CLIENT, 0);
  HOLDS(unseen(SERVER) == 4);
  ask();
  carry_own();
  carry(CLIENT, 4);
  HOLDS(unseen(SERVER) == 8 && unseen(CLIENT) == 8);
  IS(h3_shutdown_notice(&ends[SERVER], &detail), H3_OK);
  HOLDS(detail == 0);
  WRITES(SERVER, "\x07\x08\xff\xff\xff\xff\xff\xff\xff\xfc");
  IS(h3_shutdown_notice(&ends[SERVER], NULL), H3_OK); /* once */
  WRITES(SERVER, "");
  /* the notice rejects nothing: a request that was under way when it came is taken */
  IS(h3_deliver(&ends[SERVER], 8, frame, 2, &detail), H3_OK);
  HOLDS(unseen(SERVER) == 12 && !drained(SERVER));
  IS(h3_shutdown(&ends[SERVER], NULL), H3_OK);
  WRITES(SERVER, "\x07\x01\x0c");
  IS(h3_shutdown(&ends[SERVER], NULL), H3_OK);
  WRITES(SERVER, "");
  IS(h3_open_request(&ends[CLIENT], &detail, NULL), H3_GOING_AWAY);
  /* from 12 on nothing is taken, and nothing of it is kept */
  for (int again = 0; again < 2; again++) {
    IS(h3_deliver(&ends[SERVER], 12, frame, 5, &detail), H3_REJECTED);
    HOLDS(detail == H3_CODE_REQUEST_REJECTED);
    item = (h3_item){.kind = 99};
    used = 9;
    IS(h3_read(&ends[SERVER], 12, frame, 5, 1, &used, &item, &detail), H3_REJECTED);
    HOLDS(detail == H3_CODE_REQUEST_REJECTED && used == 0 && item.kind == 99);
    IS(h3_deliver_end(&ends[SERVER], 12, &detail), H3_REJECTED);
    IS(h3_deliver_reset(&ends[SERVER], 400, 0x10c, &detail), H3_REJECTED);
    HOLDS(detail == H3_CODE_REQUEST_REJECTED);
  }
  HOLDS(unseen(SERVER) == 12);
  IS(h3_send_body(&ends[SERVER], 12, "x", 1, NULL), H3_NOT_OPEN);
  /* below, what was opened goes on, and so does what is not a request */
  IS(h3_deliver(&ends[SERVER], 8, frame + 2, 3, &detail), H3_OK);
  IS(h3_deliver(&ends[SERVER], 14, "\x21", 1, &detail), H3_OK);
  IS(h3_deliver_reset(&ends[SERVER], 8, 0x10c, NULL), H3_OK);
  HOLDS(pull(SERVER, 8).kind == H3_FAULT_RESET);
  IS(h3_reset(&ends[SERVER], 8, NULL), H3_OK);
  for (uint64_t id = 0; id < 8; id += 4) {
    pull_whole(SERVER, id);
    answer(id);
    HOLDS(!drained(SERVER));
    carry_own();
    carry(SERVER, id);
    HOLDS(!drained(SERVER)); /* its FIN waits */
    IS(h3_end_taken(&ends[SERVER], id), H3_OK);
  }
  carry_own();
  HOLDS(drained(SERVER));
  /* and it stays so */
  IS(h3_deliver(&ends[SERVER], 16, frame, 5, &detail), H3_REJECTED);
  HOLDS(drained(SERVER) && unseen(SERVER) == 12);
  for (uint64_t id = 0; id < 8; id += 4) {
    HOLDS(!drained(CLIENT));
    IS(h3_end_taken(&ends[CLIENT], id), H3_OK);
    pull_whole(CLIENT, id);
  }
  HOLDS(drained(CLIENT));
  drop();
}

/* none was seen; 12 was seen before 8; and what a client announces */
static void of_ids(void) {
  uint64_t detail = 0;
  make(1);
  IS(h3_shutdown(&ends[SERVER], NULL), H3_OK);
  HOLDS(!drained(SERVER)); /* its GOAWAY waits */
  WRITES(SERVER, "\x07\x01\x00");
  HOLDS(drained(SERVER) && drained(CLIENT));
  IS(h3_deliver(&ends[SERVER], 0, frame, 5, &detail), H3_REJECTED);
  HOLDS(drained(SERVER));
  drop();
  make(1);
  IS(h3_deliver(&ends[SERVER], 12, frame, 5, &detail), H3_OK);
  IS(h3_shutdown(&ends[SERVER], NULL), H3_OK);
  WRITES(SERVER, "\x07\x01\x10");
  IS(h3_deliver(&ends[SERVER], 8, frame, 5, &detail), H3_OK);
  IS(h3_deliver(&ends[SERVER], 16, frame, 5, &detail), H3_REJECTED);
  IS(h3_goaway(&ends[SERVER], 20, &detail), H3_RAISED);
  HOLDS(detail == 16);
  IS(h3_goaway(&ends[SERVER], 8, NULL), H3_OK);
  IS(h3_shutdown(&ends[SERVER], NULL), H3_OK); /* a lower id was named */
  IS(h3_shutdown_notice(&ends[SERVER], NULL), H3_OK);
  WRITES(SERVER, "\x07\x01\x08");
  IS(h3_deliver(&ends[SERVER], 12, frame, 5, &detail), H3_OK); /* it was open */
  IS(h3_shutdown_notice(&ends[CLIENT], NULL), H3_OK);
  WRITES(CLIENT, "\x07\x08\xff\xff\xff\xff\xff\xff\xff\xff");
  IS(h3_shutdown(&ends[CLIENT], NULL), H3_OK);
  WRITES(CLIENT, "\x07\x01\x00");
  IS(h3_shutdown(&ends[CLIENT], NULL), H3_OK);
  WRITES(CLIENT, "");
  drop();
}

/* The packets of one of three requests are late: the other two are done, and the server is not drained. It named 12, so that one
 * may come, and no other connection will be asked for it (RFC 9114, section 5.2). */
static void of_a_late_request(uint64_t late) {
  make(1);
  for (int i = 0; i < 3; i++) ask();
  carry_own();
  for (uint64_t id = 0; id <= 8; id += 4) {
    if (id == late) continue;
    carry_to_end(CLIENT, id);
    pull_whole(SERVER, id);
    answer(id);
    carry_own();
    carry_to_end(SERVER, id);
    pull_whole(CLIENT, id);
  }
  IS(h3_shutdown(&ends[SERVER], NULL), H3_OK);
  WRITES(SERVER, "\x07\x01\x0c");
  carry_own();
  HOLDS(unseen(SERVER) == 12 && !drained(SERVER));
  carry_to_end(CLIENT, late);
  HOLDS(!drained(SERVER));
  pull_whole(SERVER, late);
  answer(late);
  HOLDS(!drained(SERVER));
  carry_own();
  carry_to_end(SERVER, late);
  HOLDS(drained(SERVER));
  pull_whole(CLIENT, late);
  drop();
}

/* where a program does not ask for it a later request is taken as any; and the greatest id of all */
static void of_choices(void) {
  uint64_t detail = 0;
  make(0);
  IS(h3_shutdown(&ends[SERVER], NULL), H3_OK);
  IS(h3_deliver(&ends[SERVER], 0, frame, 5, &detail), H3_OK);
  HOLDS(unseen(SERVER) == 4);
  drop();
  make(1);
  IS(h3_deliver(&ends[SERVER], (UINT64_C(1) << 62) - 4, frame, 5, &detail), H3_OK);
  HOLDS(unseen(SERVER) == UINT64_C(1) << 62);
  IS(h3_shutdown(&ends[SERVER], &detail), H3_IDS_USED_UP);
  WRITES(SERVER, "");
  IS(h3_shutdown_notice(&ends[SERVER], NULL), H3_OK);
  IS(h3_shutdown(&ends[SERVER], NULL), H3_OK);
  WRITES(SERVER, "\x07\x08\xff\xff\xff\xff\xff\xff\xff\xfc");
  drop();
  /* after a fault of the connection all is refused, and a delivery as it was before */
  make(1);
  IS(h3_shutdown(&ends[SERVER], NULL), H3_OK);
  IS(h3_deliver(&ends[SERVER], 2, "\x00\x00", 2, &detail), H3_CONNECTION);
  IS(h3_deliver(&ends[SERVER], 0, frame, 5, &detail), H3_CONNECTION);
  IS(h3_shutdown(&ends[SERVER], &detail), H3_CLOSED);
  IS(h3_shutdown_notice(&ends[SERVER], &detail), H3_CLOSED);
  drop();
}

/* While 1,000 requests are under way, some read, some answered, and some not yet come, the server shuts down. All that it announced to process are
 * answered; the others are rejected, each at its first byte, and the client knows it of each. */
static void of_a_thousand(void) {
  uint64_t first = REQUESTS * 4 / 2, goaway = 0, answered = 0, rejected = 0;
  h3_state state;
  make(1);
  for (int i = 0; i < REQUESTS; i++) ask();
  carry_own();
  for (uint64_t id = 0; id < first; id += 4) {
    carry_to_end(CLIENT, id);
    if (id % 12 == 0) pull_whole(SERVER, id);
    if (id % 24 == 0) answer(id);
  }
  IS(h3_shutdown_notice(&ends[SERVER], NULL), H3_OK);
  carry_own();
  /* a round trip: a hundred more come, in another order */
  for (uint64_t id = first + 400; id > first; id -= 4) carry_to_end(CLIENT, id - 4);
  IS(h3_shutdown(&ends[SERVER], NULL), H3_OK);
  carry_own();
  IS(h3_connection(&ends[CLIENT], &state), H3_OK);
  goaway = state.goaway;
  HOLDS(state.has_goaway == 1 && goaway == first + 400 && goaway == unseen(SERVER));
  for (uint64_t id = first + 400; id < REQUESTS * 4; id += 4) {
    uint8_t bytes[256];
    uint64_t detail = 0;
    size_t n = 0;
    uint32_t fin = 0;
    IS(h3_outgoing(&ends[CLIENT], id, bytes, sizeof bytes, &n, NULL, &fin), H3_OK);
    IS(h3_deliver(&ends[SERVER], id, bytes, n, &detail), H3_REJECTED);
    /* RESET_STREAM and STOP_SENDING with this code come to the client */
    IS(h3_deliver_reset(&ends[CLIENT], id, detail, NULL), H3_OK);
    IS(h3_reset(&ends[CLIENT], id, NULL), H3_OK);
    h3_item item = pull(CLIENT, id);
    HOLDS(item.kind == H3_FAULT_RESET && item.number == H3_CODE_REQUEST_REJECTED);
    rejected++;
  }
  for (uint64_t id = 0; id < goaway; id += 4) {
    HOLDS(!drained(SERVER));
    if (id >= first || id % 12) pull_whole(SERVER, id);
    if (id >= first || id % 24) answer(id);
    carry_own();
    carry_to_end(SERVER, id);
    pull_whole(CLIENT, id);
    answered++;
  }
  HOLDS(answered + rejected == REQUESTS && answered == 600);
  carry_own();
  HOLDS(drained(SERVER) && drained(CLIENT));
  drop();
}

/* ---- what happened on the connection ---- */

static void tells(int side, uint32_t kind, uint64_t number) {
  uint32_t told = 99;
  uint64_t with = 98;
  IS(h3_next_event(&ends[side], &told, &with), H3_OK);
  HOLDS(told == kind && with == number);
}

static void tells_none(int side) {
  uint32_t told = 99;
  uint64_t with = 98;
  for (int again = 0; again < 2; again++) IS(h3_next_event(&ends[side], &told, &with), H3_NONE);
  HOLDS(told == 99 && with == 98);
}

/* these bytes come on the peer's control stream */
#define CONTROLS(side, text) IS(h3_deliver(&ends[side], h3_control_id(!(side)), text, sizeof text - 1, NULL), H3_OK)

/* The settings are told once, and no other call tells them again. */
static void of_settings(void) {
  make_end(CLIENT, 1);
  make_end(SERVER, 1);
  tells_none(CLIENT);
  carry_own();
  for (int side = 0; side < 2; side++) {
    tells(side, H3_EVENT_SETTINGS, 0);
    tells_none(side);
  }
  ask();
  carry_own();
  carry_to_end(CLIENT, 0);
  pull_whole(SERVER, 0);
  answer(0);
  carry_own();
  carry_to_end(SERVER, 0);
  pull_whole(CLIENT, 0);
  tells_none(CLIENT);
  tells_none(SERVER);
  IS(h3_shutdown_notice(&ends[SERVER], NULL), H3_OK);
  carry_own();
  tells_none(SERVER); /* it is the peer's that are told */
  tells(CLIENT, H3_EVENT_GOAWAY, (UINT64_C(1) << 62) - 4);
  tells_none(CLIENT);
  IS(h3_shutdown(&ends[SERVER], NULL), H3_OK);
  carry_own();
  tells(CLIENT, H3_EVENT_GOAWAY, 4);
  tells_none(CLIENT);
  IS(h3_shutdown(&ends[CLIENT], NULL), H3_OK);
  carry_own();
  tells(SERVER, H3_EVENT_GOAWAY, 0);
  tells_none(SERVER);
  drop();
}

/* GOAWAY frames (RFC 9114, section 7.2.6): the last of several is told, one in pieces once it is whole, and the same id not again. All ids of
 * them are kept, or with a number in kept_ids the last one. */
static void of_goaways(uint64_t kept_ids) {
  uint64_t detail = 0;
  h3_config config;
  h3_config_default(&config);
  config.kept_ids = kept_ids;
  IS(h3_new(&ends[CLIENT], &config, NULL), H3_OK);
  CONTROLS(CLIENT, "\x00\x04\x00\x07\x01\x20\x07\x01\x10"); /* the stream's type, SETTINGS, and GOAWAY with 32 and 16 */
  tells(CLIENT, H3_EVENT_SETTINGS, 0);
  tells(CLIENT, H3_EVENT_GOAWAY, 16);
  tells_none(CLIENT);
  CONTROLS(CLIENT, "\x07\x01\x10"); /* the same */
  tells_none(CLIENT);
  CONTROLS(CLIENT, "\x07\x01");
  tells_none(CLIENT);
  CONTROLS(CLIENT, "\x0c");
  tells(CLIENT, H3_EVENT_GOAWAY, 12);
  tells_none(CLIENT);
  CONTROLS(CLIENT, "\x07\x01\x0c\x07\x01\x08\x07\x01\x08\x07\x01\x00");
  tells(CLIENT, H3_EVENT_GOAWAY, 0);
  tells_none(CLIENT);
  IS(h3_deliver(&ends[CLIENT], 3, "\x07\x01\x04", 3, &detail), H3_CONNECTION); /* a greater one */
  HOLDS(detail == H3_CODE_ID_ERROR);
  tells_none(CLIENT);
  h3_free(&ends[CLIENT]);
  /* what came before a fault is told behind it */
  IS(h3_new(&ends[CLIENT], &config, NULL), H3_OK);
  IS(h3_deliver(&ends[CLIENT], 3, "\x00\x04\x00\x07\x01\x04\x07\x01\x08", 9, &detail), H3_CONNECTION);
  tells(CLIENT, H3_EVENT_SETTINGS, 0);
  tells(CLIENT, H3_EVENT_GOAWAY, 4);
  tells_none(CLIENT);
  h3_free(&ends[CLIENT]);
}

int main(void) {
  add_field(&request, ":method", "GET");
  add_field(&request, ":scheme", "https");
  add_field(&request, ":authority", "localhost");
  add_field(&request, ":path", "/");
  add_field(&response, ":status", "200");
  of_two_requests();
  of_ids();
  of_a_late_request(0);
  of_a_late_request(4);
  of_choices();
  of_a_thousand();
  of_settings();
  of_goaways(UINT64_C(1) << 62);
  of_goaways(8);
  if (!bad) puts("ok shutdown: two GOAWAY frames, requests that are rejected, when an end is drained, 1,000 requests of which none is lost, and events");
  return bad;
}
