/* What `detail` says after each answer, and that a NULL does nothing: also that h3_new keeps the endpoint that is there. One line
 * 'ok NAME' or 'failed NAME'. */
#define TEST "details"
#include "field_list.h"
#include "expect.h"

enum { RANDOM_LISTS = 10000 };

static const uint64_t FAR = UINT64_C(1) << 62, UNTOUCHED = 777;

static h3_endpoint client, server;
static field_list request, response;

/* the call answers so, and `detail` is this; it was 777 */
#define TELLS(call, wanted, number) \
  do { \
    detail = UNTOUCHED; \
    IS(call, wanted); \
    HOLDS(detail == (number)); \
  } while (0)

static void make(void) {
  h3_config config;
  h3_config_default(&config);
  IS(h3_new(&client, &config, NULL), H3_OK);
  config.server = 1;
  IS(h3_new(&server, &config, NULL), H3_OK);
}

/* the caller frees it, and goes on with it until then */
static void of_a_live_endpoint(void) {
  h3_endpoint before = client;
  h3_state state;
  uint64_t detail;
  TELLS(h3_new(&client, NULL, &detail), H3_ARGUMENT, UNTOUCHED);
  HOLDS(client.at == before.at);
  client = before;
  IS(h3_connection(&client, &state), H3_OK);
}

/* no number is written where there is no endpoint, nor for a NULL */
static void of_nothing_done(void) {
  h3_endpoint none = H3_NONE_YET;
  h3_field_size size = {7, 3};
  h3_item item;
  size_t used;
  uint64_t detail;
  TELLS(h3_open_request(&none, &detail, &detail), H3_NO_ENDPOINT, UNTOUCHED);
  TELLS(h3_finish(&none, 0, &detail), H3_NO_ENDPOINT, UNTOUCHED);
  TELLS(h3_deliver(&none, 0, "a", 1, &detail), H3_NO_ENDPOINT, UNTOUCHED);
  TELLS(h3_open_request(&client, NULL, &detail), H3_ARGUMENT, UNTOUCHED);
  TELLS(h3_next_request_id(&client, NULL, &detail), H3_ARGUMENT, UNTOUCHED);
  TELLS(h3_send_head(&client, 0, NULL, NULL, 1, ":methodGET", 10, &detail), H3_ARGUMENT, UNTOUCHED);
  TELLS(h3_send_head(&client, 0, &size, NULL, 1, NULL, 10, &detail), H3_ARGUMENT, UNTOUCHED);
  TELLS(h3_send_trailer(&client, 0, NULL, NULL, 1, ":methodGET", 10, &detail), H3_ARGUMENT, UNTOUCHED);
  TELLS(h3_send_head(&client, 0, &size, NULL, 1, NULL, 10, &detail), H3_ARGUMENT, UNTOUCHED);
  TELLS(h3_send_trailer(&client, 0, NULL, NULL, 1, ":methodGET", 10, &detail), H3_ARGUMENT, UNTOUCHED);
  TELLS(h3_send_body(&client, 0, NULL, 64, &detail), H3_ARGUMENT, UNTOUCHED);
  TELLS(h3_deliver(&client, 0, NULL, 64, &detail), H3_ARGUMENT, UNTOUCHED);
  TELLS(h3_read(&client, 0, NULL, 64, 0, &used, &item, &detail), H3_ARGUMENT, UNTOUCHED);
  TELLS(h3_read(&none, 0, "a", 1, 0, &used, &item, &detail), H3_NO_ENDPOINT, UNTOUCHED);
}

/* any other refusal writes it, with 0 where the reason names no number */
static void of_refusals(void) {
  h3_field_size size = {7, 3};
  h3_item item;
  size_t used;
  uint64_t detail;
  TELLS(h3_send_head(&client, FAR, &size, NULL, 1, ":methodGET", 10, &detail), H3_ARGUMENT, 0);
  TELLS(h3_send_head(&client, 0, &size, NULL, 1, ":methodGET", 9, &detail), H3_ARGUMENT, 0);
  TELLS(h3_send_trailer(&client, FAR, &size, NULL, 1, ":methodGET", 10, &detail), H3_ARGUMENT, 0);
  TELLS(h3_send_body(&client, FAR, "a", 1, &detail), H3_ARGUMENT, 0);
  TELLS(h3_finish(&client, FAR, &detail), H3_ARGUMENT, 0);
  TELLS(h3_reset(&client, FAR, &detail), H3_ARGUMENT, 0);
  TELLS(h3_cancel(&client, FAR, &detail), H3_ARGUMENT, 0);
  TELLS(h3_goaway(&client, FAR, &detail), H3_ARGUMENT, 0);
  TELLS(h3_deliver(&client, FAR, "a", 1, &detail), H3_ARGUMENT, 0);
  TELLS(h3_read(&client, FAR, "a", 1, 0, &used, &item, &detail), H3_ARGUMENT, 0);
  TELLS(h3_deliver_end(&client, FAR, &detail), H3_ARGUMENT, 0);
  TELLS(h3_deliver_reset(&client, FAR, 0, &detail), H3_ARGUMENT, 0);
  TELLS(h3_finish(&client, 0, &detail), H3_NOT_OPEN, 0);
  TELLS(h3_cancel(&client, 2, &detail), H3_CRITICAL, 0);
  TELLS(h3_deliver(&client, 2, "a", 1, &detail), H3_NOT_RECEIVING, 0);
  TELLS(h3_goaway(&server, 1, &detail), H3_NOT_REQUEST_ID, 0);
}

/* The index of the field that is refused: the first that is invalid by itself; if none is, the first with white space around its value
 * (RFC 9114, sections 4.2 and 10.3). Further fields with faults change nothing. */
static void of_indexes(uint64_t id) {
  static field_list list;
  uint64_t detail;
  begin_request(&list, "GET");
  add_field(&list, "x-spaced", "a ");
  add_field(&list, "x-good", "a");
  add_field(&list, "x-tab", "\ta");
  TELLS(h3_send_head(&client, id, list.sizes, NULL, list.count, list.bytes, list.len, &detail), H3_FIELD_VALUE, 4);
  add_field(&list, "x-line", "a\n");
  add_field(&list, "X-Upper", "a");
  TELLS(h3_send_head(&client, id, list.sizes, NULL, list.count, list.bytes, list.len, &detail), H3_FIELD_VALUE, 7);
  begin_request(&list, "GET");
  add_field(&list, "X-Upper", "a\n");
  add_field(&list, "x-line", "a\n");
  TELLS(h3_send_head(&client, id, list.sizes, NULL, list.count, list.bytes, list.len, &detail), H3_FIELD_NAME, 4);
  begin_request(&list, "GE T");
  TELLS(h3_send_head(&client, id, list.sizes, NULL, list.count, list.bytes, list.len, &detail), H3_FIELD_VALUE, 0);
}

/* the answer to a request that this field alone follows, and its detail */
static uint32_t refusal_of_field(const field_list *list, uint64_t index, uint64_t *detail) {
  static field_list alone;
  h3_endpoint end;
  h3_config config;
  uint64_t id;
  const uint8_t *at = list->bytes;
  const h3_field_size size = list->sizes[index];
  for (uint64_t i = 0; i < index; i++) at += list->sizes[i].name + list->sizes[i].value;
  begin_request(&alone, "GET");
  alone.sizes[alone.count++] = size;
  memcpy(alone.bytes + alone.len, at, size.name + size.value);
  alone.len += size.name + size.value;
  h3_config_default(&config);
  IS(h3_new(&end, &config, NULL), H3_OK);
  IS(h3_open_request(&end, &id, NULL), H3_OK);
  uint32_t answer = h3_send_head(&end, id, alone.sizes, NULL, alone.count, alone.bytes, alone.len, detail);
  h3_free(&end);
  return answer;
}

/* a list of valid and invalid fields; half of them begin as a request does */
static void make_random(field_list *list) {
  static const char *const names[] = {":method", ":scheme", ":path", ":status", ":protocol", ":foo", "", "X-a", "x b", "x-a",
                                      "host", "te", "cookie", "content-length"};
  static const char *const values[] = {"", "GET", "GE T", "https", "/x?y", "a b", "200", "99", "websocket", " a", "a ", "\ta",
                                       "a\nb", "a\x01", "a\xff", "5", "-1", "trailers"};
  list->count = list->len = 0;
  if (random_below(2)) begin_request(list, "GET");
  for (uint32_t count = random_below(6); count > 0; count--)
    add_field(list, names[random_below(sizeof names / sizeof *names)], values[random_below(sizeof values / sizeof *values)]);
}

/* Random lists: a request that only the field at the index follows is refused with the same answer, so the index is never that of a valid
 * field. */
static void of_random_indexes(uint64_t id) {
  static field_list list;
  unsigned told = 0;
  for (int i = 0; i < RANDOM_LISTS; i++) {
    uint64_t index = UNTOUCHED, alone;
    make_random(&list);
    uint32_t answer = h3_send_head(&client, id, list.sizes, NULL, list.count, list.bytes, list.len, &index);
    if (answer == H3_OK) IS(h3_open_request(&client, &id, NULL), H3_OK);
    if (answer != H3_FIELD_NAME && answer != H3_FIELD_VALUE) continue;
    HOLDS(index < list.count);
    IS(refusal_of_field(&list, index, &alone), answer);
    HOLDS(alone == 4);
    told++;
  }
  HOLDS(told > RANDOM_LISTS / 3);
}

/* and what it names */
static void of_numbers(void) {
  uint64_t detail, id;
  TELLS(h3_open_request(&client, &id, &detail), H3_OK, 0);
  of_indexes(id);
  of_random_indexes(id);
  TELLS(h3_open_request(&client, &id, &detail), H3_OK, 0);
  TELLS(h3_deliver(&client, 3, "\0\4\3\6\x40\x64", 6, &detail), H3_OK, 0); /* SETTINGS that take sections of 100 bytes */
  TELLS(h3_send_head(&client, id, request.sizes, NULL, request.count, request.bytes, request.len, &detail), H3_TOO_LARGE, size_of(&request));
  TELLS(h3_send_head(&client, id, request.sizes, NULL, 1, request.bytes, 10, &detail), H3_MALFORMED, H3_MISSING_PSEUDO_FIELD);
  TELLS(h3_send_head(&client, id, response.sizes, NULL, response.count, response.bytes, response.len, &detail), H3_WRONG_SIDE, 0);
  TELLS(h3_deliver(&client, 3, "\7\1\4", 3, &detail), H3_OK, 0); /* GOAWAY */
  TELLS(h3_open_request(&client, &id, &detail), H3_GOING_AWAY, 4);
  TELLS(h3_next_request_id(&client, &id, &detail), H3_GOING_AWAY, 4);
  TELLS(h3_goaway(&server, 8, &detail), H3_OK, 0);
  TELLS(h3_goaway(&server, 12, &detail), H3_RAISED, 8);
  TELLS(h3_deliver(&client, 3, "\7\1\x8", 3, &detail), H3_CONNECTION, 0x108); /* RFC 9114, section 5.2 */
  TELLS(h3_deliver(&client, 3, "\7\1\x8", 3, &detail), H3_CONNECTION, 0x108);
  TELLS(h3_open_request(&client, &id, &detail), H3_CLOSED, 0x108);
  TELLS(h3_goaway(&client, 0, &detail), H3_CLOSED, 0x108);
}

int main(void) {
  begin_request(&request, "GET");
  begin_response(&response, "200");
  make();
  of_a_live_endpoint();
  of_nothing_done();
  of_refusals();
  of_numbers();
  h3_free(&client);
  h3_free(&server);
  if (!bad) puts("ok details: each refusal writes its number, a NULL writes none, and an endpoint that is there stays");
  return bad;
}
