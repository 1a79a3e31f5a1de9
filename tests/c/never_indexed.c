/* Fields with H3_NEVER_INDEX (RFC 9204, sections 4.5.4 to 4.5.6 and 7.1.3): the bytes of their lines, that no table keeps them, and that they come with
 * the flag. The same of secrets that an encoder guards, and the bytes of the shortest strings. One line 'ok NAME' or 'failed NAME'. */
#include <h3.h>
#include <stdio.h>
#include <string.h>
#define TEST "never_indexed"
#include "pair.h"

enum { MOST = 5, ROOM = 256 };

/* `authorization: a` behind GET https a / */
static const h3_field_size secret[MOST] = {{7, 3}, {7, 5}, {10, 1}, {5, 1}, {13, 1}};
static const char secret_bytes[] = ":methodGET:schemehttps:authoritya:path/authorizationa";
/* `x-a: 1` in that place */
static const h3_field_size other[MOST] = {{7, 3}, {7, 5}, {10, 1}, {5, 1}, {3, 1}};
static const char other_bytes[] = ":methodGET:schemehttps:authoritya:path/x-a1";
/* `accept`, all of which is in the static table */
static const h3_field_size neutral[MOST] = {{7, 3}, {7, 5}, {10, 1}, {5, 1}, {6, 3}};
static const char neutral_bytes[] = ":methodGET:schemehttps:authoritya:path/accept*/*";
/* of the last field, of the fourth, of none */
static const uint8_t last[MOST] = {0, 0, 0, 0, H3_NEVER_INDEX}, path[MOST] = {0, 0, 0, H3_NEVER_INDEX, 0}, none[MOST] = {0};

/* What both sides choose. */
static uint64_t guards, shortest;

/* Both sides with a table of so many bytes, and this many streams that may wait. */
static void begin(uint64_t table, uint64_t blocked, uint64_t economical) {
  for (int side = 0; side < 2; side++) {
    h3_config c;
    h3_config_default(&c);
    c.server = (uint64_t)side, c.table = c.encoder_table = table, c.blocked = blocked, c.economical_table = economical;
    c.guard_secrets = guards, c.shortest_strings = shortest;
    IS(h3_new(&ends[side], &c, NULL), H3_OK);
  }
  carry_own();
  carry_own(); /* the capacity of the client's table, which follows the server's settings */
}

/* what waits on a stream, which is taken */
static size_t taken(int side, uint64_t id, uint8_t bytes[ROOM]) {
  size_t n = 0;
  uint32_t fin;
  IS(h3_outgoing(&ends[side], id, bytes, ROOM, &n, NULL, &fin), H3_OK);
  IS(h3_advance(&ends[side], id, n), H3_OK);
  return n;
}

static int is(const uint8_t *bytes, size_t n, const uint8_t *wanted, size_t size) { return n == size && !memcmp(bytes, wanted, size); }

/* A request goes over: what waited on its stream, and on the encoder stream. */
typedef struct {
  size_t section_size, instructions_size;
  uint8_t section[ROOM], instructions[ROOM];
} wire;

static wire sent(const h3_field_size *sizes, const char *fields, const uint8_t *flags) {
  uint64_t id = 0;
  wire w = {0};
  IS(h3_open_request(&ends[CLIENT], &id, NULL), H3_OK);
  IS(h3_send_head(&ends[CLIENT], id, sizes, flags, MOST, fields, strlen(fields), NULL), H3_OK);
  w.section_size = taken(CLIENT, id, w.section);
  w.instructions_size = taken(CLIENT, h3_encoder_id(CLIENT), w.instructions);
  IS(h3_deliver(&ends[SERVER], h3_encoder_id(CLIENT), w.instructions, w.instructions_size, NULL), H3_OK);
  IS(h3_deliver(&ends[SERVER], id, w.section, w.section_size, NULL), H3_OK);
  HOLDS(pull(SERVER, id).kind == H3_HEAD);
  return w;
}

static int same(const wire *a, const wire *b) {
  return is(a->section, a->section_size, b->section, b->section_size) && is(a->instructions, a->instructions_size, b->instructions, b->instructions_size);
}

/* the section that came last has these fields and flags, and no flag is written behind them */
static void came(int side, size_t count, const h3_field_size *wanted, const char *fields, const uint8_t *wanted_flags) {
  h3_field_size sizes[MOST + 1];
  uint8_t flags[MOST + 1], bytes[ROOM];
  memset(flags, 0xa5, sizeof flags);
  IS(h3_item_fields(&ends[side], sizes, flags, count - 1, bytes, sizeof bytes), H3_ROOM);
  HOLDS(flags[0] == 0xa5);
  IS(h3_item_fields(&ends[side], sizes, flags, count, bytes, sizeof bytes), H3_OK);
  HOLDS(!memcmp(sizes, wanted, count * sizeof *sizes) && !memcmp(bytes, fields, strlen(fields)));
  HOLDS(!memcmp(flags, wanted_flags, count) && flags[count] == 0xa5);
}

/* the lines of RFC 9204, sections 4.5.4 and 4.5.6, of an encoder without a table */
static void of_lines(void) {
  static const uint8_t plain[] = {1, 12, 0, 0, 0xd1, 0xd7, 0x50, 0x81, 0x1f, 0xc1, 0x5f, 0x45, 0x81, 0x1f};
  static const uint8_t flagged[] = {1, 12, 0, 0, 0xd1, 0xd7, 0x50, 0x81, 0x1f, 0xc1, 0x7f, 0x45, 0x81, 0x1f};
  static const uint8_t of_path[] = {1, 14, 0, 0, 0xd1, 0xd7, 0x50, 0x81, 0x1f, 0x71, 0x81, 0x63, 0x5f, 0x45, 0x81, 0x1f};
  static const uint8_t literal[] = {1, 14, 0, 0, 0xd1, 0xd7, 0x50, 0x81, 0x1f, 0xc1, 0x3b, 0xf2, 0xb0, 0xff, 0x81, 0x0f};
  static const struct {
    const h3_field_size *sizes;
    const char *fields;
    const uint8_t *flags, *section;
    size_t size;
  } cases[] = {
      {secret, secret_bytes, last, flagged, sizeof flagged}, {secret, secret_bytes, path, of_path, sizeof of_path},
      {secret, secret_bytes, NULL, plain, sizeof plain},     {secret, secret_bytes, none, plain, sizeof plain},
      {other, other_bytes, last, literal, sizeof literal},
  };
  begin(0, 0, 0);
  for (size_t i = 0; i < sizeof cases / sizeof *cases; i++) {
    wire w = sent(cases[i].sizes, cases[i].fields, cases[i].flags);
    HOLDS(is(w.section, w.section_size, cases[i].section, cases[i].size) && w.instructions_size == 0);
    came(SERVER, MOST, cases[i].sizes, cases[i].fields, cases[i].flags ? cases[i].flags : none);
  }
  drop();
}

/* RFC 9204 4.5.4: never-indexed fields */
/* A table of 4,096 bytes, and a hundred streams that may wait. A flagged field is inserted neither once nor twice, and behind that, without the flag,
 * it is sent as if it were new: as behind requests that had another field in its place. */
static void of_a_table(uint64_t economical) {
  begin(4096, 100, economical);
  for (int i = 0; i < 4; i++) sent(neutral, neutral_bytes, NULL);
  wire fresh = sent(other, other_bytes, NULL), fresh_again = sent(other, other_bytes, NULL);
  HOLDS(fresh.instructions_size + fresh_again.instructions_size > 0);
  drop();
  begin(4096, 100, economical);
  for (int i = 0; i < 2; i++) sent(neutral, neutral_bytes, NULL);
  wire first = sent(other, other_bytes, last);
  came(SERVER, MOST, other, other_bytes, last);
  wire second = sent(other, other_bytes, last);
  came(SERVER, MOST, other, other_bytes, last);
  HOLDS(first.instructions_size == 0 && same(&first, &second));
  wire unflagged = sent(other, other_bytes, NULL), again = sent(other, other_bytes, NULL);
  came(SERVER, MOST, other, other_bytes, none);
  HOLDS(same(&unflagged, &fresh) && same(&again, &fresh_again));
  wire third = sent(other, other_bytes, last); /* a literal also where an equal entry is there */
  HOLDS(third.instructions_size == 0 && third.section_size > again.section_size);
  came(SERVER, MOST, other, other_bytes, last);
  drop();
}

/* both ways, in each section of a message */
static void of_messages(void) {
  static const h3_field_size early[] = {{7, 3}, {4, 1}}, answer[] = {{7, 3}, {10, 1}, {4, 1}}, trailer[] = {{1, 1}, {1, 2}};
  static const uint8_t of_early[] = {0, 1}, of_answer[] = {0, 1, 0}, of_trailer[] = {1, 0};
  begin(4096, 16, 1);
  sent(secret, secret_bytes, last);
  IS(h3_send_head(&ends[SERVER], 0, early, of_early, 2, ":status103linkx", 15, NULL), H3_OK);
  IS(h3_send_head(&ends[SERVER], 0, answer, of_answer, 3, ":status200set-cookieaetagb", 26, NULL), H3_OK);
  IS(h3_send_trailer(&ends[SERVER], 0, trailer, of_trailer, 2, "z1y22", 5, NULL), H3_OK);
  IS(h3_finish(&ends[SERVER], 0, NULL), H3_OK);
  carry_own();
  carry(SERVER, 0);
  HOLDS(pull(CLIENT, 0).kind == H3_INTERIM);
  came(CLIENT, 2, early, ":status103linkx", of_early);
  HOLDS(pull(CLIENT, 0).kind == H3_HEAD);
  came(CLIENT, 3, answer, ":status200set-cookieaetagb", of_answer);
  HOLDS(pull(CLIENT, 0).kind == H3_TRAILER);
  came(CLIENT, 2, trailer, "z1y22", of_trailer);
  HOLDS(pull(CLIENT, 0).kind == H3_END);
  drop();
}

/* lines that another encoder wrote: with strings that are not Huffman code, and with names of the dynamic table (sections 4.5.4 to 4.5.6) */
static void of_another_encoder(void) {
  /* a capacity of 220; x-a: 1 is inserted (section 4.3.3) */
  static const uint8_t inserts[] = {2, 0x3f, 0xbd, 1, 0x43, 'x', '-', 'a', 1, '1'};
  /* required insert count 1, base 1 */
  static const uint8_t relative[] = {1, 15, 2, 0, 0xd1, 0xd7, 0x50, 1, 'a', 0xc1, 0x60, 1, 's', 0x40, 1, 't', 0x80};
  static const h3_field_size of_relative[] = {{7, 3}, {7, 5}, {10, 1}, {5, 1}, {3, 1}, {3, 1}, {3, 1}};
  static const uint8_t flags_of_relative[] = {0, 0, 0, 0, 1, 0, 0};
  /* required insert count 1, base 0 */
  static const uint8_t post_base[] = {1, 15, 2, 0x80, 0xd1, 0xd7, 0x50, 1, 'a', 0xc1, 8, 1, 's', 0, 1, 't', 0x10};
  /* no reference: x-b: s, and x-b: t */
  static const uint8_t literals[] = {1, 20, 0, 0, 0xd1, 0xd7, 0x50, 1, 'a', 0xc1, 0x33, 'x', '-', 'b', 1, 's', 0x23, 'x', '-', 'b', 1, 't'};
  static const struct {
    const uint8_t *bytes;
    size_t size, count;
    const char *fields;
  } cases[] = {{relative, sizeof relative, 7, ":methodGET:schemehttps:authoritya:path/x-asx-atx-a1"},
               {post_base, sizeof post_base, 7, ":methodGET:schemehttps:authoritya:path/x-asx-atx-a1"},
               {literals, sizeof literals, 6, ":methodGET:schemehttps:authoritya:path/x-bsx-bt"}};
  static const uint8_t settings[] = {0, 4, 0};
  h3_config c;
  h3_config_default(&c);
  c.server = 1;
  IS(h3_new(&ends[SERVER], &c, NULL), H3_OK);
  IS(h3_deliver(&ends[SERVER], h3_control_id(CLIENT), settings, sizeof settings, NULL), H3_OK);
  IS(h3_deliver(&ends[SERVER], h3_encoder_id(CLIENT), inserts, sizeof inserts, NULL), H3_OK);
  for (size_t i = 0; i < sizeof cases / sizeof *cases; i++) {
    h3_field_size sizes[7];
    uint8_t flags[7], bytes[ROOM];
    IS(h3_deliver(&ends[SERVER], 4 * i, cases[i].bytes, cases[i].size, NULL), H3_OK);
    HOLDS(pull(SERVER, 4 * i).kind == H3_HEAD);
    IS(h3_item_fields(&ends[SERVER], sizes, flags, 7, bytes, sizeof bytes), H3_OK);
    HOLDS(!memcmp(sizes, of_relative, cases[i].count * sizeof *sizes) && !memcmp(bytes, cases[i].fields, strlen(cases[i].fields)));
    HOLDS(!memcmp(flags, flags_of_relative, cases[i].count));
  }
  drop();
}

/* another bit than H3_NEVER_INDEX is no flag, wherever it stands, and nothing is sent */
static void of_other_flags(void) {
  uint64_t id = 0, detail = 1;
  uint8_t bytes[ROOM];
  begin(4096, 16, 1);
  IS(h3_open_request(&ends[CLIENT], &id, NULL), H3_OK);
  for (size_t at = 0; at < MOST; at++) {
    for (unsigned flag = 2; flag < 256; flag++) {
      uint8_t flags[MOST] = {1, 0, 1, 0, 1};
      flags[at] = (uint8_t)flag;
      IS(h3_send_head(&ends[CLIENT], id, secret, flags, MOST, secret_bytes, strlen(secret_bytes), &detail), H3_ARGUMENT);
    }
  }
  HOLDS(taken(CLIENT, id, bytes) == 0 && taken(CLIENT, h3_encoder_id(CLIENT), bytes) == 0);
  IS(h3_send_head(&ends[CLIENT], id, secret, last, MOST, secret_bytes, strlen(secret_bytes), NULL), H3_OK);
  static const h3_field_size trailer = {1, 1};
  static const uint8_t wrong = 2, right = 1;
  IS(h3_send_trailer(&ends[CLIENT], id, &trailer, &wrong, 1, "z1", 2, NULL), H3_ARGUMENT);
  IS(h3_send_trailer(&ends[CLIENT], id, &trailer, &right, 1, "z1", 2, NULL), H3_OK);
  drop();
}

/* a cookie of so many bytes behind GET https a /, sent twice: how much was inserted, and the flag that came */
static size_t cookie(size_t size, uint8_t flag) {
  const h3_field_size sizes[MOST] = {{7, 3}, {7, 5}, {10, 1}, {5, 1}, {6, (uint32_t)size}};
  const uint8_t wanted[MOST] = {0, 0, 0, 0, flag};
  char fields[ROOM] = ":methodGET:schemehttps:authoritya:path/cookie";
  memset(fields + strlen(fields), 'c', size);
  wire first = sent(sizes, fields, NULL), second = sent(sizes, fields, NULL);
  came(SERVER, MOST, sizes, fields, wanted);
  return first.instructions_size + second.instructions_size;
}

/* A side that guards secrets sends these as if they had the flag, and no other field. */
static void of_guards(void) {
  static const uint8_t flagged[] = {1, 12, 0, 0, 0xd1, 0xd7, 0x50, 0x81, 0x1f, 0xc1, 0x7f, 0x45, 0x81, 0x1f};
  guards = 1;
  begin(0, 0, 0);
  for (int i = 0; i < 3; i++) {
    wire w = sent(secret, secret_bytes, i == 0 ? NULL : i == 1 ? none : last);
    HOLDS(is(w.section, w.section_size, flagged, sizeof flagged) && w.instructions_size == 0);
    came(SERVER, MOST, secret, secret_bytes, last);
  }
  sent(other, other_bytes, NULL);
  came(SERVER, MOST, other, other_bytes, none);
  drop();
  begin(4096, 100, 0);
  sent(neutral, neutral_bytes, NULL);
  HOLDS(sent(neutral, neutral_bytes, NULL).instructions_size == 0);
  HOLDS(cookie(19, H3_NEVER_INDEX) == 0 && cookie(20, 0) > 0);
  drop();
  guards = 0;
  begin(4096, 100, 0);
  sent(neutral, neutral_bytes, NULL);
  HOLDS(cookie(19, 0) > 0);
  drop();
}

/* The shortest strings: plain where the Huffman code has as many bytes, and else Huffman coded (section 4.1.2). */
static void of_shortest(void) {
  static const uint8_t plain[] = {1, 12, 0, 0, 0xd1, 0xd7, 0x50, 1, 'a', 0xc1, 0x5f, 0x45, 1, 'a'};
  static const uint8_t named[] = {1, 14, 0, 0, 0xd1, 0xd7, 0x50, 1, 'a', 0xc1, 0x33, 'x', '-', 'a', 1, '1'};
  static const uint8_t longer[] = {1,    23,   0,    0,    0xd1, 0xd7, 0x50, 0x8c, 0xf1, 0xe3, 0xc2, 0xe5, 0xf2,
                                   0x3a, 0x6b, 0xa0, 0xab, 0x90, 0xf4, 0xff, 0xc1, 0x5f, 0x45, 1,    'a'};
  static const h3_field_size of_longer[MOST] = {{7, 3}, {7, 5}, {10, 15}, {5, 1}, {13, 1}};
  static const char longer_bytes[] = ":methodGET:schemehttps:authoritywww.example.com:path/authorizationa";
  shortest = 1;
  begin(0, 0, 0);
  wire w = sent(secret, secret_bytes, NULL);
  HOLDS(is(w.section, w.section_size, plain, sizeof plain));
  w = sent(other, other_bytes, last);
  HOLDS(is(w.section, w.section_size, named, sizeof named));
  w = sent(of_longer, longer_bytes, NULL);
  HOLDS(is(w.section, w.section_size, longer, sizeof longer));
  came(SERVER, MOST, of_longer, longer_bytes, none);
  drop();
  shortest = 0;
}

int main(void) {
  of_lines();
  of_a_table(0);
  of_a_table(1);
  of_messages();
  of_another_encoder();
  of_other_flags();
  of_guards();
  of_shortest();
  if (!bad) puts("ok never_indexed: bytes of the lines, no table, both ways, another encoder, other flags, guarded secrets, the shortest strings");
  return bad;
}
