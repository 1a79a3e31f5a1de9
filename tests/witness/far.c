/* Streams whose ids lie far apart, at a server: h3_next_to_send names each on which something waits, once and in order, in whatever order they began, and
 * whatever was refused; each that was reset tells its own code, also when both ways are over; a header section of one field is read whole; a response that is
 * reset stays so. And for runs that count memory: streams that share a place, and cancellations of streams that are far apart. */
#include <h3.h>
#include <stdlib.h>
#include <string.h>
#define TEST "far"
#include "expect.h"

enum { IDS = 12, CODES = 1200 };

static const uint64_t ids[IDS] = {0, 4096, 8192, 4, 4100, 2048, 400000, 8, 4352, 12, 16384, 256};
static const uint8_t get[] = {1, 8, 0, 0, 0xd1, 0xd7, 0x50, 1, 'a', 0xc1};

static h3_endpoint made(int is_server, int strict) {
  h3_endpoint end = H3_NONE_YET;
  h3_config config;
  h3_config_default(&config);
  config.server = is_server;
  config.strict = strict;
  config.kept_ids = UINT64_MAX;
  IS(h3_new(&end, &config, NULL), H3_OK);
  return end;
}

/* a request came whole, and was pulled */
static void ask(h3_endpoint *end, uint64_t id) {
  h3_item item;
  IS(h3_deliver(end, id, get, sizeof get, NULL), H3_OK);
  IS(h3_pull(end, id, &item), H3_OK);
  IS(item.kind, H3_HEAD);
}

static void answer(h3_endpoint *end, uint64_t id) {
  h3_field_size size = {7, 3};
  IS(h3_send_head(end, id, &size, NULL, 1, ":status200", 10, NULL), H3_OK);
}

static int compare(const void *a, const void *b) {
  uint64_t x = *(const uint64_t *)a, y = *(const uint64_t *)b;
  return (x > y) - (x < y);
}

/* It names these and no other request stream. */
static void names(h3_endpoint *end, const uint64_t *those, size_t count) {
  uint64_t wanted[IDS], id = 0;
  size_t at = 0;
  memcpy(wanted, those, count * sizeof *those);
  qsort(wanted, count, sizeof *wanted, compare);
  for (; h3_next_to_send(end, id, &id) == H3_OK; id++) {
    if (id % 4) continue;
    HOLDS(at < count && wanted[at] == id);
    at++;
  }
  IS((uint32_t)at, (uint32_t)count);
}

static void take_all(h3_endpoint *end, uint64_t id) {
  uint8_t bytes[64];
  size_t n = 0, past = 0;
  uint32_t fin = 9;
  IS(h3_outgoing(end, id, bytes, sizeof bytes, &n, &past, &fin), H3_OK);
  HOLDS(n > 0);
  IS(h3_advance(end, id, n), H3_OK);
}

/* They begin in the order of the list, or in that which begins with another of them, and are taken in that order. */
static void in_order(int first) {
  h3_endpoint end = made(1, 0);
  uint64_t begun[IDS];
  for (size_t k = 0; k < IDS; k++) {
    begun[k] = ids[(k + (size_t)first) % IDS];
    ask(&end, begun[k]);
    answer(&end, begun[k]);
    names(&end, begun, k + 1);
  }
  for (size_t k = 0; k < IDS; k++) {
    take_all(&end, begun[k]);
    names(&end, begun + k + 1, IDS - k - 1);
  }
  h3_free(&end);
}

static void tells_code(h3_endpoint *end, uint64_t id) {
  h3_item item;
  IS(h3_pull(end, id, &item), H3_OK);
  IS(item.kind, H3_FAULT_RESET);
  HOLDS(item.number == 7 + id);
}

static void codes(void) {
  h3_endpoint end = made(1, 0);
  for (uint64_t id = 0; id < CODES; id += 4) {
    IS(h3_deliver(&end, id, get, sizeof get, NULL), H3_OK);
    IS(h3_deliver_reset(&end, id, 7 + id, NULL), H3_OK);
    if (id % 3 == 0) tells_code(&end, id);
    IS(h3_reset(&end, id, NULL), H3_OK);
  }
  for (int again = 0; again < 2; again++)
    for (uint64_t id = 0; id < CODES; id += 4) tells_code(&end, id);
  h3_free(&end);
}

/* a response of the one field `:status: 200` (RFC 9204, Appendix A: the entry 25) */
static void lone_field(void) {
  static const uint8_t response[] = {1, 3, 0, 0, 0xd9};
  static const uint64_t first = 0;
  h3_endpoint end = made(0, 0);
  h3_field_size request[4] = {{7, 3}, {7, 5}, {10, 1}, {5, 1}}, size;
  h3_item item;
  uint64_t id = 9;
  char bytes[16] = "";
  IS(h3_open_request(&end, &id, NULL), H3_OK);
  HOLDS(id == first);
  IS(h3_send_head(&end, id, request, NULL, 4, ":methodGET:schemehttps:authoritya:path/", 39, NULL), H3_OK);
  IS(h3_deliver(&end, id, response, sizeof response, NULL), H3_OK);
  IS(h3_pull(&end, id, &item), H3_OK);
  IS((uint32_t)item.fields, 1);
  IS(h3_item_fields(&end, &size, NULL, 1, bytes, sizeof bytes), H3_OK);
  HOLDS(size.name == 7 && size.value == 3 && !memcmp(bytes, ":status200", 10));
  h3_free(&end);
}

/* It shuts down, and nothing is left to be done. */
static void is_drained(h3_endpoint *end) {
  uint8_t bytes[256];
  size_t n = 0;
  uint32_t is = 0;
  IS(h3_shutdown(end, NULL), H3_OK);
  IS(h3_outgoing(end, h3_control_id(1), bytes, sizeof bytes, &n, NULL, NULL), H3_OK);
  IS(h3_advance(end, h3_control_id(1), n), H3_OK);
  IS(h3_is_drained(end, &is), H3_OK);
  IS(is, 1);
}

/* Nothing is left to be done once the end of the request was pulled, too. */
static void unpulled_end(void) {
  h3_endpoint end = made(1, 0);
  h3_item item;
  uint8_t bytes[256];
  size_t n = 0;
  uint32_t is = 7;
  ask(&end, 0);
  IS(h3_deliver_end(&end, 0, NULL), H3_OK);
  answer(&end, 0);
  IS(h3_finish(&end, 0, NULL), H3_OK);
  take_all(&end, 0);
  IS(h3_end_taken(&end, 0), H3_OK);
  IS(h3_shutdown(&end, NULL), H3_OK);
  for (uint64_t id = 3; id < 12; id += 4) {
    IS(h3_outgoing(&end, id, bytes, sizeof bytes, &n, NULL, NULL), H3_OK);
    IS(h3_advance(&end, id, n), H3_OK);
  }
  IS(h3_is_drained(&end, &is), H3_OK);
  IS(is, 0);
  IS(h3_pull(&end, 0, &item), H3_OK);
  IS(item.kind, H3_END);
  IS(h3_is_drained(&end, &is), H3_OK);
  IS(is, 1);
  h3_free(&end);
}

/* Responses that are reset, each after it said how much content it has: of each stream the end stays read, and the response reset. */
static void resets(void) {
  h3_endpoint end = H3_NONE_YET;
  h3_config config;
  h3_stream_state state;
  h3_item item;
  h3_config_default(&config);
  config.server = 1;
  IS(h3_new(&end, &config, NULL), H3_OK);
  for (uint64_t id = 0; id < CODES; id += 4) {
    char bytes[48];
    h3_field_size sizes[2] = {{7, 3}, {14, 4}};
    ask(&end, id);
    IS(h3_deliver_end(&end, id, NULL), H3_OK);
    IS(h3_pull(&end, id, &item), H3_OK);
    IS(item.kind, H3_END);
    snprintf(bytes, sizeof bytes, ":status200content-length%u", (unsigned)(1000 + id));
    IS(h3_send_head(&end, id, sizes, NULL, 2, bytes, 28, NULL), H3_OK);
    IS(h3_reset(&end, id, NULL), H3_OK);
  }
  for (uint64_t id = 0; id < CODES; id += 4) {
    IS(h3_stream(&end, id, &state), H3_OK);
    HOLDS(state.is_reset == 1 && state.is_finished == 0);
    IS(h3_pull(&end, id, &item), H3_OK);
    IS(item.kind, H3_END);
  }
  is_drained(&end);
  h3_free(&end);
}

/* A header section that is refused as malformed takes nothing from the interim response that waits. */
static void refused_head(void) {
  static const h3_field_size interim[] = {{7, 3}}, broken[] = {{7, 3}, {10, 5}};
  static const uint64_t both[] = {0, 4};
  h3_endpoint end = made(1, 1);
  ask(&end, 0), ask(&end, 4);
  IS(h3_send_head(&end, 0, interim, NULL, 1, ":status103", 10, NULL), H3_OK);
  IS(h3_send_head(&end, 0, broken, NULL, 2, ":status200connectionclose", 25, NULL), H3_MALFORMED);
  answer(&end, 4);
  names(&end, both, 2);
  h3_free(&end);
}

/* the response is whole, and all of it was taken */
static void answer_whole(h3_endpoint *end, uint64_t id) {
  answer(end, id);
  IS(h3_finish(end, id, NULL), H3_OK);
  take_all(end, id);
  IS(h3_end_taken(end, id), H3_OK);
}

/* Nothing is left to be done on a request that was canceled and answered, though its end did not come. */
static void canceled(void) {
  h3_endpoint end = made(1, 0);
  ask(&end, 0);
  IS(h3_cancel(&end, 0, NULL), H3_OK);
  answer_whole(&end, 0);
  is_drained(&end);
  h3_free(&end);
}

/* Requests that are over, while one is under way whose place they share. */
static void behind(void) {
  h3_item item;
  h3_endpoint end = made(1, 0);
  ask(&end, 0);
  for (uint64_t id = 512; id < 10 * 512; id += 512) {
    ask(&end, id);
    IS(h3_deliver_end(&end, id, NULL), H3_OK);
    IS(h3_pull(&end, id, &item), H3_OK);
    IS(item.kind, H3_END);
    answer_whole(&end, id);
  }
  h3_free(&end);
}

/* A table (RFC 9204, section 4.3.1), sections of two streams that name its entry, and cancellations of streams 0, 8192 and 65536 (section 4.4.2). */
static void tables(void) {
  static const h3_field_size sizes[] = {{7, 3}, {3, 1}};
  h3_endpoint end = made(1, 0);
  IS(h3_deliver(&end, 2, "\x00\x04\x05\x01\x40\x50\x07\x02", 8, NULL), H3_OK);
  for (uint64_t id = 0; id < 128; id += 64) {
    ask(&end, id);
    IS(h3_send_head(&end, id, sizes, NULL, 2, ":status200x-a1", 14, NULL), H3_OK);
  }
  IS(h3_deliver(&end, 10, "\x03\x40\x7f\xc1\x3f\x7f\xc1\xff\x03", 9, NULL), H3_OK);
  h3_free(&end);
}

int main(void) {
  for (int first = 0; first < IDS; first++) in_order(first);
  codes();
  lone_field();
  resets();
  unpulled_end();
  refused_head();
  canceled();
  behind();
  tables();
  if (!bad) puts("ok far: streams far apart, the codes of resets, a section of one field, responses that are reset");
  return bad;
}
