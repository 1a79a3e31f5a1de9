/* Two endpoints as h3_config_default makes them: lists of every size up to the announced one, of each byte that a value may have, of text
 * in UTF-8, of JSON and of random bytes, as requests, responses and trailers, before the settings and after them. Each is sent, and comes
 * out as it was sent, beside a message with content on another stream, which comes out whole. A fault of any kind is counted. One line 'ok
 * NAME' or 'failed NAME'. */
#define TEST "defaults"
#include "field_list.h"

enum { LISTS = 10000, ANNOUNCED = 65536, ON_ONE_CONNECTION = 16, CONTENT = 600, HALF = 300, TOLD = 5 };
enum { CLIENT, SERVER };
enum { CHINESE = 256, CYRILLIC, EMOJI, JSON, RANDOM, MADE_OF }; /* below 256 the byte */

/* a list, and how it goes over */
typedef struct {
  unsigned number, made_of;
  size_t size;
  int from;       /* CLIENT: it is a request; SERVER: a response */
  int early;      /* no settings were delivered yet */
  int is_trailer; /* it stands after a head */
  int own_first;  /* after the settings: whether the encoder stream goes over ahead of the list */
  size_t value;   /* its values are so long, but for the last */
  size_t step;    /* the pieces in which it is delivered */
} plan;

static h3_endpoint ends[2];
static unsigned on_connection, faults;
static const char *broken; /* what went wrong with this list first */
static uint64_t broken_by;
static uint8_t content[CONTENT];

static void need(int holds, const char *what, uint64_t by) {
  if (holds || broken) return;
  broken = what;
  broken_by = by;
}

/* RFC 9110, section 5.5; white space stands within a value alone */
static int may_stand_in_value(unsigned byte) { return byte == '\t' || (byte >= ' ' && byte != 0x7f); }

/* one character of this scalar value, where it fits into the room; answers how many bytes it has */
static size_t utf8(uint8_t *to, size_t room, uint32_t scalar) {
  size_t count = scalar < 0x800 ? 2 : scalar < 0x10000 ? 3 : 4;
  if (count > room) return 0;
  for (size_t at = count - 1; at > 0; at--, scalar >>= 6) to[at] = (uint8_t)(0x80 | (scalar & 0x3f));
  to[0] = (uint8_t)((0xf00u >> count & 0xf0) | scalar);
  return count;
}

static uint32_t character(unsigned made_of) {
  if (made_of == CHINESE) return 0x4e00 + random_below(0x51a6);
  return made_of == CYRILLIC ? 0x410 + random_below(64) : 0x1f600 + random_below(80);
}

static uint8_t any_byte(void) {
  for (;;) {
    uint32_t byte = random_below(256);
    if (may_stand_in_value(byte)) return (uint8_t)byte;
  }
}

/* a value of so many bytes; white space at its ends, and what is left after the last whole character, is an 'a' */
static void fill(uint8_t *to, size_t len, unsigned made_of) {
  static const char text[] = "{\"id\":4711,\"name\":\"Beanwhile\",\"tags\":[\"a\",\"b\"],\"ok\":true,\"at\":\"2026-01-31T12:00:00Z\"},";
  for (size_t at = 0; at < len;) {
    size_t count = 1;
    if (made_of == JSON)
      to[at] = (uint8_t)text[at % (sizeof text - 1)];
    else if (made_of == RANDOM)
      to[at] = any_byte();
    else if (made_of < 256)
      to[at] = (uint8_t)made_of;
    else
      count = utf8(to + at, len - at, character(made_of));
    if (!count) {
      memset(to + at, 'a', len - at);
      break;
    }
    at += count;
  }
  if (len && (to[0] == ' ' || to[0] == '\t')) to[0] = 'a';
  if (len && (to[len - 1] == ' ' || to[len - 1] == '\t')) to[len - 1] = 'a';
}

static void begin_list(field_list *list, int from, const char *method) {
  if (from == CLIENT)
    begin_request(list, method);
  else
    begin_response(list, "200");
}

/* fields of one name until the list has its size */
static void make_list(field_list *list, const plan *p) {
  static uint8_t value[MOST_BYTES];
  static const char name[] = "x-list";
  const size_t least = sizeof name - 1 + 32;
  begin_list(list, p->from, "GET");
  if (p->is_trailer) list->count = list->len = 0;
  while (size_of(list) < p->size) {
    size_t left = p->size - size_of(list);
    size_t len = left < p->value + 2 * least ? left - least : p->value;
    fill(value, len, p->made_of);
    add_bytes(list, name, value, len);
  }
}

typedef uint32_t send_call(h3_endpoint *, uint64_t, const h3_field_size *, const uint8_t *, size_t, const void *, size_t, uint64_t *);

static void send_section(int side, uint64_t id, const field_list *list, send_call *send) {
  if (broken) return;
  uint32_t answer = send(&ends[side], id, list->sizes, NULL, list->count, list->bytes, list->len, NULL);
  need(answer == H3_OK, "a list is not sent: answer", answer);
}

static void send_content(int side, uint64_t id, size_t from) {
  if (!broken) need(h3_send_body(&ends[side], id, content + from, HALF, NULL) == H3_OK, "content is not sent: stream", id);
}

static void finish(int side, uint64_t id) {
  if (!broken) need(h3_finish(&ends[side], id, NULL) == H3_OK, "a message is not finished: stream", id);
}

/* what waits on a stream goes over, and its end */
static void carry(int from, uint64_t id, size_t step) {
  static uint8_t bytes[512 * 1024];
  size_t n = 0;
  uint32_t fin = 0;
  uint64_t code = 0;
  do {
    if (broken) return;
    need(h3_outgoing(&ends[from], id, bytes, step, &n, NULL, &fin) == H3_OK && h3_advance(&ends[from], id, n) == H3_OK,
        "nothing is taken: stream", id);
    if (n) need(h3_deliver(&ends[!from], id, bytes, n, &code) == H3_OK, "a delivery is refused: code", code);
  } while (n && !fin);
  if (fin)
    need(h3_deliver_end(&ends[!from], id, &code) == H3_OK && h3_end_taken(&ends[from], id) == H3_OK, "an end is refused: code", code);
}

static void carry_own(int from) {
  carry(from, h3_control_id(from), ANNOUNCED);
  carry(from, h3_encoder_id(from), ANNOUNCED);
  carry(from, h3_decoder_id(from), ANNOUNCED);
}

static h3_item pull(int side, uint64_t id) {
  h3_item item = {0};
  if (broken) return item;
  uint32_t answer = h3_pull(&ends[side], id, &item);
  need(answer == H3_OK, "a pull is refused: answer", answer);
  need(item.kind != H3_FAULT_CONNECTION, "a pull is H3_FAULT_CONNECTION: code", item.number);
  need(item.kind != H3_FAULT_MALFORMED, "a pull is H3_FAULT_MALFORMED: reason", item.number);
  return item;
}

/* the list comes out as this kind */
static void take_list(int side, uint64_t id, uint32_t kind, const field_list *list) {
  h3_item item = pull(side, id);
  need(item.kind == kind, "no head or trailer comes out: kind", item.kind);
  if (!broken) need(is_list(&ends[side], &item, list), "another list comes out: fields", item.fields);
}

/* the other message comes out, so many bytes of its content from there on */
static void take_content(int side, uint64_t id, size_t from) {
  uint8_t came[HALF];
  size_t n = 0;
  h3_item item = pull(side, id);
  need(item.kind == H3_BODY && item.len == HALF, "no content of the other message: kind", item.kind);
  if (!broken)
    need(!h3_item_bytes(&ends[side], 0, came, HALF, &n) && n == HALF && !memcmp(came, content + from, n), "other content: bytes", n);
}

static void make_pair(void) {
  for (int side = 0; side < 2; side++) {
    h3_config config;
    h3_free(&ends[side]);
    h3_config_default(&config);
    config.server = (uint64_t)side;
    need(h3_new(&ends[side], &config, NULL) == H3_OK, "no endpoint", 0);
  }
  on_connection = 0;
}

/* a message of the sender's with this list, beside another one: whose first half went before it, and whose second half goes after it */
static void send_beside(const plan *p, uint64_t id, uint64_t other, const field_list *list, const field_list *plain) {
  static field_list head; /* in front of a trailer */
  int to = !p->from;
  begin_list(&head, p->from, "GET");
  send_section(p->from, other, plain, h3_send_head);
  send_content(p->from, other, 0);
  if (!p->early) carry_own(p->from); /* what the plain head inserts */
  carry(p->from, other, ANNOUNCED);
  need(pull(to, other).kind == H3_HEAD, "no head of the other message: stream", other);
  take_content(to, other, 0);
  if (p->is_trailer) send_section(p->from, id, &head, h3_send_head);
  send_section(p->from, id, list, p->is_trailer ? h3_send_trailer : h3_send_head);
  finish(p->from, id);
  if (!p->early && p->own_first) carry_own(p->from);
  carry(p->from, id, p->step);
  if (!p->early) carry_own(p->from);
  send_content(p->from, other, HALF);
  finish(p->from, other);
  carry(p->from, other, ANNOUNCED);
  if (p->is_trailer) take_list(to, id, H3_HEAD, &head);
  take_list(to, id, p->is_trailer ? H3_TRAILER : H3_HEAD, list);
  need(pull(to, id).kind == H3_END, "no end after the list: stream", id);
  take_content(to, other, HALF);
  need(pull(to, other).kind == H3_END, "no end of the other message: stream", other);
}

/* the requests, where the list is a response */
static void ask(uint64_t id, uint64_t other, int early) {
  static field_list request;
  begin_request(&request, "GET");
  for (int i = 0; i < 2; i++) {
    uint64_t to = i ? other : id;
    send_section(CLIENT, to, &request, h3_send_head);
    finish(CLIENT, to);
    if (!early) carry_own(CLIENT);
    carry(CLIENT, to, ANNOUNCED);
    take_list(SERVER, to, H3_HEAD, &request);
    need(pull(SERVER, to).kind == H3_END, "no end of a request: stream", to);
  }
}

static void exchange(const plan *p) {
  static field_list list, plain;
  uint64_t id = 0, other = 0;
  if (p->early || !ends[CLIENT].at || on_connection == ON_ONE_CONNECTION) make_pair();
  if (!p->early && !on_connection)
    for (int side = 0; side < 2; side++) carry_own(side);
  on_connection++;
  make_list(&list, p);
  begin_list(&plain, p->from, "POST");
  add_field(&plain, "content-length", "600");
  need(!h3_open_request(&ends[CLIENT], &id, NULL) && !h3_open_request(&ends[CLIENT], &other, NULL), "no request is opened: stream", id);
  if (p->from == SERVER) ask(id, other, p->early);
  send_beside(p, id, other, &list, &plain);
  for (int side = 0; side < 2; side++) carry_own(side);
  if (p->early) make_pair();
}

/* the lists: first one of each kind that is as large as was announced, then all sizes, each kind in turn */
static plan plan_of(unsigned number, const unsigned *kinds, unsigned count) {
  const size_t least = 167 + 32 + 6; /* a request, and a field without a value */
  static const size_t values[] = {ANNOUNCED, 997, 40}, steps[] = {300000, 1200, 5000};
  plan p = {.number = number, .made_of = kinds[number % count], .size = ANNOUNCED};
  if (number >= count) p.size = least + (size_t)number * 6151 % (ANNOUNCED - least + 1);
  p.from = number / count % 2 ? SERVER : CLIENT;
  p.early = number / 2 % 2;
  p.own_first = number / 8 % 2;
  p.is_trailer = number / 16 % 4 == 0;
  p.value = values[number % 3];
  p.step = p.size < 1000 ? 1 : steps[number / 3 % 3];
  return p;
}

static void tell(const plan *p) {
  if (faults++ >= TOLD) return;
  printf("failed defaults: list %u of %zu bytes, made of ", p->number, p->size);
  static const char *const names[] = {"Chinese", "Cyrillic", "emoji", "JSON", "random bytes"};
  if (p->made_of < CHINESE)
    printf("byte 0x%02x", p->made_of);
  else
    printf("%s", names[p->made_of - CHINESE]);
  printf(", a %s%s %s the settings: %s 0x%llx\n", p->from ? "response" : "request", p->is_trailer ? "'s trailer" : "",
      p->early ? "before" : "after", broken, (unsigned long long)broken_by);
}

int main(void) {
  unsigned kinds[MADE_OF], count = 0;
  for (unsigned kind = 0; kind < MADE_OF; kind++)
    if (kind >= CHINESE || may_stand_in_value(kind)) kinds[count++] = kind;
  for (size_t i = 0; i < CONTENT; i++) content[i] = (uint8_t)('a' + i % 23);
  for (unsigned number = 0; number < LISTS; number++) {
    plan p = plan_of(number, kinds, count);
    broken = NULL;
    exchange(&p);
    if (!broken) continue;
    tell(&p);
    make_pair();
  }
  for (int side = 0; side < 2; side++) h3_free(&ends[side]);
  if (faults)
    printf("failed defaults: %u of %d lists\n", faults, LISTS);
  else
    printf("ok defaults: %d lists of up to %d bytes, of %u kinds, between two endpoints with the defaults: 0 faults\n", LISTS, ANNOUNCED,
        count);
  return faults != 0;
}
