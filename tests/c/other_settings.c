/* Settings without a meaning here (RFC 9114, section 7.2.4): which of the peer's are kept (`other_settings`), at once, byte by byte and behind unknown
 * frames; what further ones an endpoint announces (h3_new_with), and which are refused; and that memory that is refused loses nothing.
 * One line 'ok NAME' or 'failed NAME'. */
#define TEST "other_settings"
#include "pair.h"
#include <stdlib.h>
#include <string.h>

enum { FRAME_ERROR = 0x106, EXCESSIVE_LOAD = 0x107, SETTINGS_ERROR = 0x109 };
#define NEVER (~UINT64_C(0)) /* no value is this */
#define BYTES(text) text, sizeof(text) - 1

/* ---- memory that is refused: from the next call on so many are not ---- */

static int64_t left = -1;
void *__real_malloc(size_t);
void *__real_realloc(void *, size_t);
void *__wrap_malloc(size_t);
void *__wrap_realloc(void *, size_t);
static int refuses(void) { return left >= 0 && left-- <= 0 ? (left = 0, 1) : 0; }
void *__wrap_malloc(size_t size) { return refuses() ? NULL : __real_malloc(size); }
void *__wrap_realloc(void *block, size_t size) { return refuses() ? NULL : __real_realloc(block, size); }

/* ---- one endpoint, and bytes that are given by hand ---- */

static h3_config config_of(int side, uint64_t most, int strict) {
  h3_config config;
  h3_config_default(&config);
  HOLDS(config.other_settings == 0);
  config.server = (uint64_t)side;
  config.other_settings = most;
  config.strict_connection = (uint64_t)strict;
  return config;
}

static void make(int side, uint64_t most, int strict) {
  h3_config config = config_of(side, most, strict);
  h3_free(&ends[side]);
  IS(h3_new(&ends[side], &config, NULL), H3_OK);
}

static uint64_t setting(int side, uint64_t id) {
  uint64_t value = NEVER;
  uint32_t n = h3_peer_setting(&ends[side], id, &value);
  if (n != H3_OK) IS(n, H3_NONE);
  HOLDS((n == H3_OK) == (value != NEVER));
  return value;
}

static uint64_t control_of(int side) { return side == CLIENT ? 3 : 2; }

/* the bytes of the peer's control stream, in pieces of so many; whether they close the connection, with this code */
static void comes(int side, const void *bytes, size_t len, size_t piece, uint64_t code) {
  uint64_t detail = 0;
  uint32_t n = H3_OK;
  for (size_t at = 0; at < len && n == H3_OK; at += piece)
    n = h3_deliver(&ends[side], control_of(side), (const uint8_t *)bytes + at, len - at < piece ? len - at : piece, &detail);
  IS(n, code ? H3_CONNECTION : H3_OK);
  HOLDS(detail == code);
}

/* 6: 1000, 0xc671706a: 16, a reserved one, 0x99: 7, 0x99: 8, 0x2b603742 (known): 0, 0x100: 1 */
#define FIRST "\x6\x43\xe8" "\xc0\0\0\0\xc6\x71\x70\x6a\x10"
#define LAST "\x40\x5f\x5" "\x40\x99\x7" "\x40\x99\x8" "\xab\x60\x37\x42\0" "\x41\0\1"
#define SETTINGS "\4\x1d" FIRST LAST

static void of_kept(void) {
  static const uint64_t most[] = {0, 1, 2, 3, 4, 5, 64, 65, NEVER};
  static const size_t pieces[] = {1, 2, 3, 7, 1000};
  for (int side = 0; side < 2; side++)
    for (size_t i = 0; i < sizeof most / sizeof *most; i++)
      for (size_t k = 0; k < sizeof pieces / sizeof *pieces; k++)
        for (int form = 0; form < 3; form++) {
          make(side, most[i], form == 0);
          for (int id = 0; id < 0x200; id++) HOLDS(setting(side, (uint64_t)id) == NEVER);
          if (form == 0) comes(side, BYTES("\0" SETTINGS), pieces[k], 0);
          if (form == 1) comes(side, BYTES("\0\x21\3abc\x40\x40\3efg" SETTINGS "\x21\x5" "abcde\7\1\0"), pieces[k], 0); /* behind unknown frames, and before them */
          if (form == 2) comes(side, BYTES("\0\xe\0" SETTINGS "\7\1\0"), pieces[k], 0);
          HOLDS(setting(side, 6) == 1000 && setting(side, 0x2b603742) == 0);
          HOLDS(setting(side, 0xc671706a) == (most[i] > 0 ? 16 : NEVER));
          HOLDS(setting(side, 0x99) == (most[i] > 1 ? 7 : NEVER));
          HOLDS(setting(side, 0x100) == (most[i] > 3 ? 1 : NEVER)); /* the second 0x99 is kept too */
          HOLDS(setting(side, 0x5f) == NEVER && setting(side, 0x21) == NEVER && setting(side, 8) == NEVER && setting(side, 1) == NEVER);
        }
  drop();
}

/* no more than 64, in their order */
static void of_many(void) {
  uint8_t bytes[1000] = {0, 4, 0x41, 0x90};
  size_t len = 4;
  for (int id = 0; id < 80; id++) {
    bytes[len++] = 0x80, bytes[len++] = 1, bytes[len++] = 0, bytes[len++] = (uint8_t)(0x80 + id); /* 0x10080 on: none of them is reserved */
    bytes[len++] = (uint8_t)(id % 60);
  }
  uint64_t reserved = 0;
  for (uint64_t id = 0x10080; id < 0x10080 + 80; id++) reserved += (id - 0x21) % 0x1f == 0;
  make(SERVER, NEVER, 1);
  comes(SERVER, bytes, len, 50, 0);
  uint64_t kept = 0;
  for (uint64_t id = 0x10080; id < 0x10080 + 80; id++) {
    int is_reserved = (id - 0x21) % 0x1f == 0, is_first = kept < 64 && !is_reserved;
    kept += is_first ? 1 : 0;
    HOLDS(setting(SERVER, id) == (is_first ? (id - 0x10080) % 60 : NEVER));
  }
  HOLDS(kept == 64 && reserved > 1);
  drop();
}

/* what is refused is as without the choice, and nothing is kept of it */
static void of_faults(void) {
  static const struct {
    const char *bytes;
    size_t len;
    uint64_t code;
  } of[] = {
      {BYTES("\0\4\4\x40\x99\x7\x40"), FRAME_ERROR},       /* a pair that is not whole */
      {BYTES("\0\4\5\x40\x99\x7\2\0"), SETTINGS_ERROR},     /* an id of HTTP/2's */
      {BYTES("\0\4\7\x40\x99\x7\6\0\6\0"), SETTINGS_ERROR}, /* one twice */
      {BYTES("\0\4\5\x40\x99\x7\x33\2"), SETTINGS_ERROR},   /* no flag */
      {BYTES("\0\4\xc0\0\0\0\1\0\0\0"), EXCESSIVE_LOAD},
  };
  for (size_t i = 0; i < sizeof of / sizeof *of; i++)
    for (uint64_t most = 0; most < 3; most++) {
      make(CLIENT, most, 1);
      comes(CLIENT, of[i].bytes, of[i].len, i % 2 ? 1 : of[i].len, of[i].code);
      HOLDS(setting(CLIENT, 0x99) == NEVER);
    }
  make(SERVER, 5, 1);
  comes(SERVER, BYTES("\0\4\3\x40\x99\x7\4\0"), 1, 0x105); /* a second frame changes nothing */
  HOLDS(setting(SERVER, 0x99) == 7);
  drop();
}

/* each allocation fails in turn: what was taken is read by the next delivery */
static void of_memory(void) {
  int refused = 0;
  for (int64_t count = 0; count < 40; count++) {
    make(SERVER, 5, 1);
    left = count;
    uint32_t n = h3_deliver(&ends[SERVER], 2, BYTES("\0" SETTINGS), NULL);
    left = -1;
    if (n == H3_MEMORY) IS(h3_deliver(&ends[SERVER], 2, BYTES("\0" SETTINGS), NULL), H3_OK);
    if (n == H3_KEPT) IS(h3_deliver(&ends[SERVER], 2, "", 0, NULL), H3_OK);
    refused += n != H3_OK;
    HOLDS(setting(SERVER, 6) == 1000 && setting(SERVER, 0xc671706a) == 16 && setting(SERVER, 0x99) == 7 && setting(SERVER, 0x100) == 1);
  }
  HOLDS(refused > 2);
  drop();
}

/* ---- further ones that are announced ---- */

static void announces(const h3_setting *further, size_t count, const char *bytes, size_t len) {
  h3_config config;
  uint8_t got[400];
  size_t n = 0;
  h3_config_default(&config);
  IS(h3_new_with(&ends[CLIENT], &config, further, count, NULL), H3_OK);
  IS(h3_outgoing(&ends[CLIENT], h3_control_id(0), got, sizeof got, &n, NULL, NULL), H3_OK);
  HOLDS(n == len && memcmp(got, bytes, len) == 0);
  h3_free(&ends[CLIENT]);
}

#define OURS "\6\x80\1\0\0\x8\0\xab\x60\x37\x42\0\x33\0\xab\x60\x37\x43\0\1\x50\0\7\x10"

static void of_announced(void) {
  const h3_setting one[] = {{0xc671706a, 16}}, reserved[] = {{0x21, 3}, {0x99, (UINT64_C(1) << 62) - 1}};
  h3_setting eight[8];
  for (uint64_t i = 0; i < 8; i++) eight[i] = (h3_setting){0x3000 + i, i};
  announces(NULL, 0, BYTES("\0\4\x18" OURS));
  announces(one, 1, BYTES("\0\4\x21" OURS "\xc0\0\0\0\xc6\x71\x70\x6a\x10"));
  announces(reserved, 2, BYTES("\0\4\x24" OURS "\x21\3\x40\x99\xff\xff\xff\xff\xff\xff\xff\xff"));
  announces(eight, 8, BYTES("\0\4\x30" OURS "\x70\0\0\x70\1\1\x70\2\2\x70\3\3\x70\4\4\x70\5\5\x70\6\6\x70\7\7"));
  /* and a peer reads them, behind a reserved one; nothing else of the connection changes */
  h3_config client = config_of(CLIENT, 8, 1), server = config_of(SERVER, 2, 1);
  client.send_grease = 1, client.grease = 5;
  IS(h3_new_with(&ends[CLIENT], &client, eight, 8, NULL), H3_OK);
  IS(h3_new_with(&ends[SERVER], &server, one, 1, NULL), H3_OK);
  carry_own();
  HOLDS(setting(CLIENT, 0xc671706a) == 16);
  HOLDS(setting(SERVER, 0x3000) == 0 && setting(SERVER, 0x3001) == 1 && setting(SERVER, 0x3002) == NEVER);
  IS(h3_goaway(&ends[CLIENT], 0, NULL), H3_OK);
  carry_own();
  h3_state state;
  IS(h3_connection(&ends[SERVER], &state), H3_OK);
  HOLDS(state.has_goaway == 1 && state.goaway == 0 && state.peer_table == 4096);
  drop();
}

static void of_refused(void) {
  static const struct {
    h3_setting of[2];
    uint64_t id;
  } rows[] = {
      {{{0, 1}, {2, 1}}, 0},
      {{{0x99, 1}, {4, 1}}, 4},
      {{{2, 1}, {3, 1}}, 2},
      {{{3, 1}}, 3},
      {{{5, 1}}, 5},
      {{{6, 1000}}, 6}, /* each that has a meaning */
      {{{1, 0}}, 1},
      {{{7, 0}}, 7},
      {{{8, 1}}, 8},
      {{{0x33, 1}}, 0x33},
      {{{0x2b603742, 1}}, 0x2b603742},
      {{{0x2b603743, 1}}, 0x2b603743},
      {{{0x99, 1}, {0x99, 1}}, 0x99},
      {{{0x1f * 7 + 0x21, 0}}, 0x1f * 7 + 0x21}, /* the reserved one that it sends */
      {{{UINT64_C(1) << 62, 1}}, UINT64_C(1) << 62},
      {{{0x99, UINT64_C(1) << 62}}, 0x99},
  };
  h3_config config = config_of(CLIENT, 0, 1);
  config.send_grease = 1, config.grease = 7;
  for (size_t i = 0; i < sizeof rows / sizeof *rows; i++) {
    h3_endpoint e = H3_NONE_YET;
    uint64_t detail = NEVER;
    size_t count = rows[i].of[1].id ? 2 : 1;
    IS(h3_new_with(&e, &config, rows[i].of, count, &detail), H3_SETTING);
    HOLDS(detail == rows[i].id && e.at == NULL);
  }
  h3_setting nine[9];
  for (uint64_t i = 0; i < 9; i++) nine[i] = (h3_setting){0x3000 + i, i};
  h3_endpoint e = H3_NONE_YET;
  uint64_t detail = NEVER, three[] = {0x99, 1, 0x98};
  IS(h3_new_with(&e, &config, nine, 9, &detail), H3_ARGUMENT);
  IS(h3_new_with(&e, &config, nine, (SIZE_MAX >> 1) + 2, &detail), H3_ARGUMENT);
  IS(h3_new_with(&e, &config, NULL, 1, &detail), H3_ARGUMENT);
  IS(h3_new_with(&e, NULL, nine, 1, &detail), H3_ARGUMENT);
  IS(h3_new_with(NULL, &config, nine, 1, &detail), H3_ARGUMENT);
  HOLDS(detail == NEVER);
  IS(h3_raw_new_with((const uint64_t *)&config, sizeof config / sizeof(uint64_t), three, 3, &detail, &e), H3_ARGUMENT);
  IS(h3_raw_new_with((const uint64_t *)&config, sizeof config / sizeof(uint64_t), (const uint64_t *)nine, 18, &detail, &e), H3_ARGUMENT);
  config.grease = 0x210842108421083;
  IS(h3_new_with(&e, &config, nine, 1, &detail), H3_ARGUMENT);
  config.grease = 7, config.table = UINT64_C(1) << 30;
  IS(h3_new_with(&e, &config, rows[0].of, 1, &detail), H3_TABLE_LIMIT); /* what h3_new refuses comes first */
  config.table = 0, config.unfinished_limit = 1;
  IS(h3_new_with(&e, &config, rows[0].of, 1, &detail), H3_UNFINISHED_LIMIT);
  config.unfinished_limit = 0;
  for (int64_t count = 0;; count++) { /* each allocation fails in turn */
    left = count;
    uint32_t n = h3_new_with(&e, &config, nine, 8, &detail);
    left = -1;
    if (n == H3_OK) break;
    IS(n, H3_MEMORY);
    HOLDS(e.at == NULL && count < 20);
    if (count >= 20) break;
  }
  h3_free(&e);
}

int main(void) {
  of_kept();
  of_many();
  of_faults();
  of_memory();
  of_announced();
  of_refused();
  if (!bad) printf("ok " TEST "\n");
  return bad;
}
