/* Settings of a server that its client remembers for a connection that sends 0-RTT data (RFC 9114, section 7.2.4.2): they are copied, a new client keeps to
 * them until its server's come, and those are compared with them. One line 'ok NAME' or 'failed NAME'. */
#define TEST "remembered_settings"
#include "pair.h"
#include <stdlib.h>
#include <string.h>

#define BYTES(text) text, sizeof(text) - 1

static int refuses;
void *__real_malloc(size_t);
void *__real_realloc(void *, size_t);
void *__wrap_malloc(size_t);
void *__wrap_realloc(void *, size_t);
void *__wrap_malloc(size_t size) { return refuses ? NULL : __real_malloc(size); }
void *__wrap_realloc(void *block, size_t size) { return refuses ? NULL : __real_realloc(block, size); }

static h3_config config_of(int side) {
  h3_config config;
  h3_config_default(&config);
  config.server = (uint64_t)side;
  config.datagram = 1;
  return config;
}

/* a client that remembers these, and whose server sent nothing */
static void resume(const void *bytes, size_t len) {
  h3_config config = config_of(CLIENT);
  h3_free(&ends[CLIENT]);
  IS(h3_new_resumed(&ends[CLIENT], &config, NULL, 0, bytes, len, NULL), H3_OK);
}

/* a header section of a request whose size is 167 bytes (RFC 9114, section 4.2.2), and more with this :protocol */
static uint32_t asks(const char *protocol) {
  static char bytes[1000];
  uint64_t id = 99, detail = 99;
  size_t len = 0;
  h3_field_size sizes[8];
  size_t count = 0;
  const char *fields[][2] = {{":method", protocol ? "CONNECT" : "GET"}, {":scheme", "https"}, {":authority", "a"}, {":path", "/"}, {":protocol", protocol}};
  for (size_t i = 0; i < (protocol ? 5u : 4u); i++, count++) {
    sizes[count] = (h3_field_size){(uint32_t)strlen(fields[i][0]), (uint32_t)strlen(fields[i][1])};
    memcpy(bytes + len, fields[i][0], sizes[count].name), len += sizes[count].name;
    memcpy(bytes + len, fields[i][1], sizes[count].value), len += sizes[count].value;
  }
  IS(h3_open_request(&ends[CLIENT], &id, NULL), H3_OK);
  return h3_send_head(&ends[CLIENT], id, sizes, NULL, count, bytes, len, &detail);
}

/* ---- what is copied ---- */

static void of_copies(void) {
  uint8_t bytes[128];
  size_t n = 77;
  h3_config server = config_of(SERVER), client = config_of(CLIENT);
  client.other_settings = 5;
  const h3_setting further[] = {{0x99, 7}};
  IS(h3_new_with(&ends[SERVER], &server, further, 1, NULL), H3_OK);
  IS(h3_new(&ends[CLIENT], &client, NULL), H3_OK);
  IS(h3_remember_settings(&ends[CLIENT], bytes, sizeof bytes, &n), H3_NONE);
  uint32_t kept = 9;
  IS(h3_settings_kept(&ends[CLIENT], "", 0, &kept), H3_NONE);
  HOLDS(n == 77 && kept == 9);
  carry_own();
  static const uint8_t ours[] = {6, 0x80, 1, 0, 0, 8, 0, 0xab, 0x60, 0x37, 0x42, 0, 0x33, 1, 0xab, 0x60, 0x37, 0x43, 0, 1, 0x50, 0, 7, 0x10};
  IS(h3_remember_settings(&ends[CLIENT], bytes, sizeof ours - 1, &n), H3_ROOM);
  IS(h3_remember_settings(&ends[CLIENT], NULL, sizeof bytes, &n), H3_ROOM);
  refuses = 1;
  IS(h3_remember_settings(&ends[CLIENT], bytes, sizeof bytes, &n), H3_MEMORY);
  refuses = 0;
  HOLDS(n == 77);
  IS(h3_remember_settings(&ends[CLIENT], bytes, sizeof ours, &n), H3_OK);
  HOLDS(n == sizeof ours && memcmp(bytes, ours, n) == 0); /* without the one that has no meaning */
  IS(h3_settings_kept(&ends[CLIENT], bytes, n, &kept), H3_OK);
  HOLDS(kept == 1);
  IS(h3_remember_settings(&ends[CLIENT], bytes, sizeof bytes, NULL), H3_ARGUMENT);
  IS(h3_settings_kept(&ends[CLIENT], bytes, n, NULL), H3_ARGUMENT);
  IS(h3_settings_kept(&ends[CLIENT], NULL, n, &kept), H3_ARGUMENT);
  IS(h3_settings_kept(&ends[CLIENT], BYTES("\6"), &kept), H3_ARGUMENT);
  IS(h3_settings_kept(&ends[CLIENT], BYTES("\2\0"), &kept), H3_ARGUMENT);
  IS(h3_settings_kept(&ends[CLIENT], BYTES("\6\0\6\0"), &kept), H3_ARGUMENT);
  h3_endpoint none = H3_NONE_YET;
  IS(h3_remember_settings(&none, bytes, sizeof bytes, &n), H3_NO_ENDPOINT);
  IS(h3_settings_kept(&none, bytes, n, &kept), H3_NO_ENDPOINT);
  HOLDS(kept == 1);
  drop();
}

/* ---- what a client keeps to ---- */

static void of_limits(void) {
  /* without them there is no limit, and no :protocol */
  h3_config config = config_of(CLIENT);
  IS(h3_new(&ends[CLIENT], &config, NULL), H3_OK);
  IS(asks(NULL), H3_OK);
  IS(asks("websocket"), H3_MALFORMED);
  resume(BYTES("\6\x40\x64\x8\1"));
  IS(asks(NULL), H3_TOO_LARGE);
  IS(asks("websocket"), H3_TOO_LARGE);
  resume(BYTES("\6\x43\xe8\x8\1\x33\1"));
  IS(asks(NULL), H3_OK);
  IS(asks("websocket"), H3_OK);
  uint8_t head[8];
  size_t n;
  uint64_t detail;
  IS(h3_datagram_head(&ends[CLIENT], 0, head, sizeof head, &n, &detail), H3_OK);
  h3_state state;
  IS(h3_connection(&ends[CLIENT], &state), H3_OK);
  HOLDS(state.has_settings == 0 && state.sending_table == 0);
  uint64_t value = 99;
  IS(h3_peer_setting(&ends[CLIENT], 6, &value), H3_NONE); /* they did not come */
  /* the settings that come count from then on */
  IS(h3_deliver(&ends[CLIENT], 3, BYTES("\0\4\3\6\x40\x64"), NULL), H3_OK);
  IS(asks(NULL), H3_TOO_LARGE);
  IS(h3_datagram_head(&ends[CLIENT], 0, head, sizeof head, &n, &detail), H3_NO_DATAGRAMS);
  resume(BYTES("\6\x40\x64"));
  IS(h3_deliver(&ends[CLIENT], 3, BYTES("\0\4\0"), NULL), H3_OK);
  IS(asks(NULL), H3_OK);
  /* a table is used only once they came */
  resume(BYTES("\1\x50\0\7\x10"));
  for (int i = 0; i < 3; i++) IS(asks(NULL), H3_OK);
  IS(h3_connection(&ends[CLIENT], &state), H3_OK);
  HOLDS(state.sending_table == 0);
  drop();
}

/* what is announced, and what is refused */
static void of_arguments(void) {
  h3_config config = config_of(CLIENT), server = config_of(SERVER);
  const h3_setting further[] = {{0x99, 7}, {6, 1}};
  h3_endpoint e = H3_NONE_YET;
  uint64_t detail = 99;
  uint8_t got[100];
  size_t n;
  IS(h3_new_resumed(&e, &config, further, 1, BYTES("\6\x43\xe8"), &detail), H3_OK);
  IS(h3_outgoing(&e, 2, got, sizeof got, &n, NULL, NULL), H3_OK);
  HOLDS(n == 3 + 24 + 3 && memcmp(got + 27, "\x40\x99\7", 3) == 0);
  h3_free(&e);
  IS(h3_new_resumed(&e, &config, further, 2, BYTES("\6\x43\xe8"), &detail), H3_SETTING);
  HOLDS(detail == 6 && !e.at);
  IS(h3_new_resumed(&e, &server, NULL, 0, BYTES("\6\x43\xe8"), &detail), H3_ARGUMENT);
  IS(h3_new_resumed(&e, &config, NULL, 0, BYTES("\6"), &detail), H3_ARGUMENT);
  IS(h3_new_resumed(&e, &config, NULL, 0, BYTES("\4\0"), &detail), H3_ARGUMENT);
  IS(h3_new_resumed(&e, &config, NULL, 0, NULL, 1, &detail), H3_ARGUMENT);
  IS(h3_new_resumed(&e, &config, NULL, 1, "", 0, &detail), H3_ARGUMENT);
  IS(h3_new_resumed(&e, &config, further, 9, "", 0, &detail), H3_ARGUMENT);
  IS(h3_new_resumed(&e, NULL, NULL, 0, "", 0, &detail), H3_ARGUMENT);
  IS(h3_new_resumed(NULL, &config, NULL, 0, "", 0, &detail), H3_ARGUMENT);
  config.grease = 0x210842108421083;
  IS(h3_new_resumed(&e, &config, NULL, 0, "", 0, &detail), H3_ARGUMENT);
  config.grease = 0, config.blocked = 70000;
  IS(h3_new_resumed(&e, &config, NULL, 0, "", 0, &detail), H3_BLOCKED_LIMIT);
  config.blocked = 0;
  refuses = 1;
  IS(h3_new_resumed(&e, &config, NULL, 0, "", 0, &detail), H3_MEMORY);
  refuses = 0;
  HOLDS(!e.at);
}

/* ---- whether those that come keep to them ---- */

static void of_kept(void) {
  static const struct {
    const char *before;
    size_t before_len;
    const char *now;
    size_t now_len;
    uint32_t kept;
  } of[] = {
      {BYTES(""), BYTES(""), 1},
      {BYTES("\6\x43\xe8"), BYTES("\6\x43\xe8"), 1},
      {BYTES("\6\x43\xe8"), BYTES("\6\x43\xe9"), 1},
      {BYTES("\6\x43\xe8"), BYTES("\6\x43\xe7"), 0},
      {BYTES("\6\x43\xe8"), BYTES(""), 0}, /* it was no default, and is gone */
      {BYTES(""), BYTES("\6\x43\xe8"), 0}, /* there was no limit */
      {BYTES("\6\xff\xff\xff\xff\xff\xff\xff\xff"), BYTES(""), 1},
      {BYTES("\1\x50\0"), BYTES("\1\x50\0"), 1},
      {BYTES("\1\x50\0"), BYTES("\1\x50\1"), 0}, /* neither less nor more (RFC 9204, section 3.2.3) */
      {BYTES("\1\x50\0"), BYTES("\1\0"), 0},
      {BYTES("\1\x50\0"), BYTES(""), 0},
      {BYTES("\1\0"), BYTES("\1\x50\0"), 1},
      {BYTES(""), BYTES("\1\x50\0"), 1},
      {BYTES("\7\x10"), BYTES("\7\x11"), 1},
      {BYTES("\7\x10"), BYTES("\7\xf"), 0},
      {BYTES("\7\x10"), BYTES(""), 0},
      {BYTES("\x8\1"), BYTES("\x8\1"), 1},
      {BYTES("\x8\1"), BYTES("\x8\0"), 0},
      {BYTES("\x8\1"), BYTES(""), 0},
      {BYTES("\x8\0"), BYTES(""), 1},
      {BYTES(""), BYTES("\x8\1\x33\1"), 1},
      {BYTES("\x33\1"), BYTES("\x33\0"), 0},
      {BYTES("\x33\1\x8\1"), BYTES("\x8\1\x33\1"), 1},
      {BYTES("\xab\x60\x37\x42\1"), BYTES("\x33\1"), 0},
      {BYTES("\xab\x60\x37\x43\5"), BYTES("\xab\x60\x37\x43\4"), 0},
      {BYTES("\xab\x60\x37\x43\5"), BYTES("\xab\x60\x37\x43\6"), 1},
      {BYTES("\x40\x99\7\6\x43\xe8"), BYTES("\6\x43\xe8"), 1}, /* one without a meaning */
  };
  for (size_t i = 0; i < sizeof of / sizeof *of; i++) {
    uint8_t bytes[100] = {0, 4, (uint8_t)of[i].now_len};
    uint32_t kept = 9;
    memcpy(bytes + 3, of[i].now, of[i].now_len);
    resume(of[i].before, of[i].before_len);
    IS(h3_deliver(&ends[CLIENT], 3, bytes, 3 + of[i].now_len, NULL), H3_OK);
    IS(h3_settings_kept(&ends[CLIENT], of[i].before, of[i].before_len, &kept), H3_OK);
    if (kept != of[i].kept) printf("failed " TEST ": row %zu: %u\n", i, kept), bad = 1;
  }
  drop();
}

int main(void) {
  of_copies();
  of_limits();
  of_arguments();
  of_kept();
  if (!bad) printf("ok " TEST "\n");
  return bad;
}
