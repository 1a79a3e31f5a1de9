/* Header and trailer sections are the lists of fields that came (h3_pull, h3_item_fields of include/h3.h): each list comes out as it went in, and
 * what is malformed is told. One line 'ok NAME' or 'failed NAME'. */
#include <h3.h>
#include <stdio.h>
#include <string.h>
#define TEST "lists"
#include "expect.h"

enum { MOST = 8, ROOM = 256 };

typedef struct {
  size_t count;
  h3_field_size sizes[MOST];
  const char *bytes;
} list;

static size_t length_of(const list *l) {
  size_t n = 0;
  for (size_t i = 0; i < l->count; i++) n += l->sizes[i].name + l->sizes[i].value;
  return n;
}

static void made(h3_endpoint *e, int is_server, int is_strict) {
  h3_config c;
  h3_config_default(&c);
  c.strict = (uint64_t)is_strict;
  c.server = (uint64_t)is_server;
  IS(h3_new(e, &c, NULL), H3_OK);
}

/* all that waits at one side is delivered to the other */
static void carry(h3_endpoint *from, h3_endpoint *to) {
  uint8_t buffer[512];
  size_t n;
  uint32_t fin;
  for (uint64_t id = 0; h3_next_to_send(from, id, &id) == H3_OK; id++) {
    IS(h3_outgoing(from, id, buffer, sizeof buffer, &n, NULL, &fin), H3_OK);
    if (n) IS(h3_deliver(to, id, buffer, n, NULL), H3_OK);
    IS(h3_advance(from, id, n), H3_OK);
    if (fin) {
      IS(h3_deliver_end(to, id, NULL), H3_OK);
      IS(h3_end_taken(from, id), H3_OK);
    }
  }
}

/* the item that was pulled last has exactly this list, and is written nowhere else */
static void is_list(h3_endpoint *e, const h3_item *item, const list *l) {
  h3_field_size sizes[MOST + 1];
  uint8_t bytes[ROOM + 1];
  size_t len = length_of(l);
  HOLDS(item->fields == l->count && item->len == len);
  memset(sizes, 0xa5, sizeof sizes);
  memset(bytes, 0xa5, sizeof bytes);
  if (l->count) IS(h3_item_fields(e, sizes, NULL, l->count - 1, bytes, len), H3_ROOM);
  if (len) IS(h3_item_fields(e, sizes, NULL, l->count, bytes, len - 1), H3_ROOM);
  if (len) IS(h3_item_fields(e, NULL, NULL, 0, NULL, 0), H3_ROOM);
  HOLDS(bytes[0] == 0xa5 && sizes[0].name == 0xa5a5a5a5);
  IS(h3_item_fields(e, sizes, NULL, l->count, bytes, len), H3_OK);
  HOLDS(!memcmp(sizes, l->sizes, l->count * sizeof *sizes) && !memcmp(bytes, l->bytes, len));
  HOLDS(sizes[l->count].name == 0xa5a5a5a5 && bytes[len] == 0xa5);
}

/* the next item is of this kind, with this number and status, and has this list */
static void pulls(h3_endpoint *e, uint64_t id, uint32_t kind, uint32_t status, uint64_t number, const list *l) {
  h3_item item;
  IS(h3_pull(e, id, &item), H3_OK);
  HOLDS(item.kind == kind && item.status == status && item.number == number);
  if (l) is_list(e, &item, l);
}

static const list request = {5, {{7, 3}, {7, 5}, {1, 1}, {5, 1}, {1, 2}}, ":methodGET:schemehttpsxa:path/xbb"};
static const list early = {2, {{7, 3}, {4, 1}}, ":status103linkx"};
static const list answer = {4, {{7, 3}, {1, 1}, {1, 2}, {1, 0}}, ":status200b1a22c"};
static const list last = {3, {{1, 1}, {1, 1}, {1, 3}}, "z1y2z333"};
static const list in_front = {4, {{7, 3}, {7, 5}, {10, 1}, {5, 1}}, ":methodGET:schemehttps:authoritya:path/"};
static const list wrong_name = {1, {{1, 1}}, "Xa"};

/* a message of each kind of item, both ways */
static void of_messages(void) {
  h3_endpoint client = H3_NONE_YET, server = H3_NONE_YET;
  uint64_t id;
  uint8_t bytes[8];
  size_t n;
  h3_item item;
  made(&client, 0, 0), made(&server, 1, 0);
  IS(h3_open_request(&client, &id, NULL), H3_OK);
  IS(h3_send_head(&client, id, request.sizes, NULL, request.count, request.bytes, length_of(&request), NULL), H3_OK);
  IS(h3_send_body(&client, id, "body", 4, NULL), H3_OK);
  IS(h3_finish(&client, id, NULL), H3_OK);
  pulls(&server, id, H3_PENDING, 0, 0, NULL);
  carry(&client, &server);
  pulls(&server, id, H3_HEAD, 0, 0, &request);
  pulls(&server, id, H3_BODY, 0, 0, NULL);
  IS(h3_item_bytes(&server, 1, bytes, sizeof bytes, &n), H3_OK);
  HOLDS(n == 3 && !memcmp(bytes, "ody", 3));
  IS(h3_item_fields(&server, NULL, NULL, 0, NULL, 0), H3_OK);
  pulls(&server, id, H3_END, 0, 0, NULL);
  pulls(&server, id, H3_END, 0, 0, NULL);
  IS(h3_send_head(&server, id, early.sizes, NULL, early.count, early.bytes, length_of(&early), NULL), H3_OK);
  IS(h3_send_head(&server, id, answer.sizes, NULL, answer.count, answer.bytes, length_of(&answer), NULL), H3_OK);
  IS(h3_send_trailer(&server, id, last.sizes, NULL, last.count, last.bytes, length_of(&last), NULL), H3_OK);
  IS(h3_finish(&server, id, NULL), H3_OK);
  carry(&server, &client);
  pulls(&client, id, H3_INTERIM, 103, 0, &early);
  pulls(&client, id, H3_HEAD, 200, 0, &answer);
  pulls(&client, id, H3_TRAILER, 0, 0, &last);
  pulls(&client, id, H3_END, 0, 0, NULL);
  IS(h3_pull(&client, UINT64_C(1) << 62, &item), H3_ARGUMENT);
  IS(h3_pull(&client, id, NULL), H3_ARGUMENT);
  h3_free(&client), h3_free(&server);
  IS(h3_pull(&client, id, &item), H3_NO_ENDPOINT);
  IS(h3_item_fields(&client, NULL, NULL, 0, NULL, 0), H3_NO_ENDPOINT);
}

/* An encoded field section of literals (RFC 9204, section 4.5.6) of these fields, in a HEADERS frame. All lengths are below 7 bits of their prefix. */
static size_t literal_frame(uint8_t *out, const list *l) {
  size_t n = 4, at = 0;
  out[0] = 1, out[2] = 0, out[3] = 0;
  for (size_t i = 0; i < l->count; i++) {
    size_t name = l->sizes[i].name, value = l->sizes[i].value;
    out[n++] = name < 7 ? (uint8_t)(0x20 + name) : 0x27;
    if (name >= 7) out[n++] = (uint8_t)(name - 7);
    memcpy(out + n, l->bytes + at, name), n += name, at += name;
    out[n++] = (uint8_t)value;
    memcpy(out + n, l->bytes + at, value), n += value, at += value;
  }
  out[1] = (uint8_t)(n - 2);
  return n;
}

/* what is malformed, strict or not */
static void of_malformed(void) {
  static const struct {
    const list *sent;
    int is_strict;
    uint32_t kind;
    uint64_t number;
  } cases[] = {
      {&wrong_name, 0, H3_FAULT_MALFORMED, H3_BAD_NAME},
      {&answer, 0, H3_FAULT_MALFORMED, H3_HEAD_OF_WRONG_SIDE},
      {&request, 1, H3_FAULT_MALFORMED, H3_LATE_PSEUDO_FIELD},
      {&request, 0, H3_HEAD, 0},
      {&in_front, 1, H3_HEAD, 0},
  };
  uint8_t frame[ROOM];
  for (size_t i = 0; i < sizeof cases / sizeof *cases; i++) {
    h3_endpoint server = H3_NONE_YET;
    size_t n = literal_frame(frame, cases[i].sent);
    made(&server, 1, cases[i].is_strict);
    for (size_t cut = 0; cut < n; cut++) {
      IS(h3_deliver(&server, 0, frame + cut, 1, NULL), H3_OK);
      if (cut + 1 < n) pulls(&server, 0, H3_PENDING, 0, 0, NULL);
    }
    pulls(&server, 0, cases[i].kind, 0, cases[i].number, cases[i].kind == H3_HEAD ? cases[i].sent : NULL);
    pulls(&server, 0, cases[i].kind == H3_HEAD ? H3_PENDING : cases[i].kind, 0, cases[i].number, NULL);
    h3_free(&server);
  }
}

/* a request for an extended CONNECT of this protocol */
static list asking(char bytes[ROOM], const char *protocol) {
  list l = {5, {{7, 7}, {9, (uint64_t)strlen(protocol)}, {7, 5}, {10, 1}, {5, 1}}, bytes};
  snprintf(bytes, ROOM, ":methodCONNECT:protocol%s:schemehttps:authoritya:path/", protocol);
  return l;
}

/* Two default endpoints, of which the server announces extended CONNECT (RFC 8441, section 4; RFC 9220): a token of 1 to 31 bytes arrives
 * as the protocol, and anything else is neither sent nor delivered. */
static void of_protocols(void) {
  static const char *const taken[] = {"a", "websocket", "connect-udp", "webtransport", "abcdefghijklmnopqrstuvwxyz01234"};
  static const char *const refused[] = {"", "web socket", "abcdefghijklmnopqrstuvwxyz012345"};
  h3_endpoint client = H3_NONE_YET, server = H3_NONE_YET;
  h3_config c;
  uint64_t id = 0, setting = 0;
  char bytes[ROOM];
  h3_config_default(&c);
  IS(h3_new(&client, &c, NULL), H3_OK);
  c.server = 1, c.extended_connect = 1;
  IS(h3_new(&server, &c, NULL), H3_OK);
  /* before the settings of the server came none is sent (RFC 8441, section 3) */
  list early = asking(bytes, "websocket");
  IS(h3_open_request(&client, &id, NULL), H3_OK);
  IS(h3_send_head(&client, id, early.sizes, NULL, early.count, early.bytes, length_of(&early), &setting), H3_MALFORMED);
  HOLDS(setting == H3_BAD_PROTOCOL);
  carry(&server, &client);
  IS(h3_peer_setting(&client, 8, &setting), H3_OK);
  HOLDS(setting == 1);
  for (size_t i = 0; i < sizeof taken / sizeof *taken; i++) {
    list l = asking(bytes, taken[i]);
    IS(h3_open_request(&client, &id, NULL), H3_OK);
    IS(h3_send_head(&client, id, l.sizes, NULL, l.count, l.bytes, length_of(&l), NULL), H3_OK);
    carry(&client, &server);
    pulls(&server, id, H3_HEAD, 0, 0, &l);
  }
  /* host stands for :authority, as in other requests (section 4) */
  list by_host = {5, {{7, 7}, {9, 9}, {7, 5}, {5, 1}, {4, 1}}, ":methodCONNECT:protocolwebsocket:schemehttps:path/hosta"};
  IS(h3_open_request(&client, &id, NULL), H3_OK);
  IS(h3_send_head(&client, id, by_host.sizes, NULL, by_host.count, by_host.bytes, length_of(&by_host), NULL), H3_OK);
  carry(&client, &server);
  pulls(&server, id, H3_HEAD, 0, 0, &by_host);
  for (size_t i = 0; i < sizeof refused / sizeof *refused; i++) {
    list l = asking(bytes, refused[i]);
    uint8_t frame[ROOM];
    IS(h3_open_request(&client, &id, NULL), H3_OK);
    uint64_t index = 9;
    IS(h3_send_head(&client, id, l.sizes, NULL, l.count, l.bytes, length_of(&l), &index), H3_FIELD_VALUE);
    HOLDS(index == 1);
    list alone = {1, {l.sizes[1]}, bytes + sizeof ":methodCONNECT" - 1};
    IS(h3_deliver(&server, id, frame, literal_frame(frame, &alone), NULL), H3_OK);
    pulls(&server, id, H3_FAULT_MALFORMED, 0, H3_BAD_VALUE, NULL);
  }
  h3_free(&client), h3_free(&server);
}

int main(void) {
  of_messages();
  of_malformed();
  of_protocols();
  if (!bad) puts("ok lists");
  return bad;
}
