/* Calls of endpoints whose answers are printed, each made once, also where memory is refused: for runs in which scripts/gate/witnesses.py refuses calls for
 * memory. What takes memory stands in front of what tells of it: states, what waits, what is pulled. */
#include <h3.h>
#include <stdio.h>
#include <string.h>

static h3_endpoint end = H3_NONE_YET;
static uint64_t detail, kept_ids = 1000;

#define GET "01080000d1d7500161c1"
#define INSERTS "3fbd01c00f7777772e6578616d706c652e636f6dc10c2f73616d706c652f70617468" /* RFC 9204, appendix B.2 */

static void told(const char *what, uint64_t id, uint32_t answer) {
  printf("%s %llu: %s %llu\n", what, (unsigned long long)id, h3_answer_text(answer), (unsigned long long)detail);
  detail = 0;
}

static void begin(const char *name, int server, uint64_t table, uint64_t blocked, int strict) {
  h3_config config;
  h3_config_default(&config);
  config.server = (uint32_t)server, config.table = table, config.blocked = blocked, config.strict = (uint32_t)strict;
  config.max_field_section_size = 1000, config.unfinished_limit = 0, config.kept_ids = kept_ids;
  h3_free(&end);
  printf("# %s\n", name);
  told("new", 0, h3_new(&end, &config, &detail));
}

static void deliver(uint64_t id, const char *digits) {
  uint8_t bytes[4096];
  size_t n = 0;
  unsigned byte;
  for (; digits[0] && sscanf(digits, "%2x", &byte) == 1; digits += 2) bytes[n++] = (uint8_t)byte;
  told("deliver", id, h3_deliver(&end, id, bytes, n, &detail));
}

static void state(uint64_t id) {
  h3_stream_state it;
  if (h3_stream(&end, id, &it) != H3_OK) return;
  printf("state %llu: %llu %llu %u %u %u %u\n", (unsigned long long)id, (unsigned long long)it.waiting, (unsigned long long)it.unread, it.has_outgoing,
         it.is_finished, it.is_reset, it.tries);
}

static void pull(uint64_t id) {
  h3_item item;
  uint32_t answer = h3_pull(&end, id, &item);
  if (answer) return told("pull", id, answer);
  printf("pull %llu: %u %u %llu %zu %zu\n", (unsigned long long)id, item.kind, item.status, (unsigned long long)item.number, item.fields, item.len);
  state(id);
}

static size_t out(uint64_t id) {
  uint8_t bytes[256];
  size_t n = 0, past = 0;
  uint32_t fin = 0;
  if (h3_outgoing(&end, id, bytes, sizeof bytes, &n, &past, &fin) != H3_OK) return 0;
  printf("out %llu: %u ", (unsigned long long)id, fin);
  for (size_t k = 0; k < n; k++) printf("%02x", bytes[k]);
  puts("");
  return n;
}

static void send(uint64_t id, int is_trailer, const char *name, const char *value) {
  h3_field_size sizes[2] = {{7, 3}, {(uint32_t)strlen(name), (uint32_t)strlen(value)}};
  char bytes[128] = ":status200";
  strcat(strcat(bytes, name), value);
  if (is_trailer)
    told("trailer", id, h3_send_trailer(&end, id, sizes + 1, NULL, 1, bytes + 10, strlen(bytes) - 10, &detail));
  else
    told("head", id, h3_send_head(&end, id, sizes, NULL, 2, bytes, strlen(bytes), &detail));
}

static void tables(void) {
  h3_state it;
  if (h3_connection(&end, &it) != H3_OK) return;
  printf("tables %llu %llu %llu of %llu %llu\n", (unsigned long long)it.sending_table, (unsigned long long)it.receiving_table, (unsigned long long)it.waiting_heads,
         (unsigned long long)it.peer_table, (unsigned long long)it.peer_blocked);
}

static void read_in_place(uint64_t id, const char *digits, uint32_t fin) {
  uint8_t bytes[64];
  size_t n = 0, used = 0;
  unsigned byte;
  h3_item item = {0};
  for (; digits[0] && sscanf(digits, "%2x", &byte) == 1; digits += 2) bytes[n++] = (uint8_t)byte;
  told("read", id, h3_read(&end, id, bytes, n, fin, &used, &item, &detail));
  printf("read %llu: %zu, %u %u %llu %zu %zu\n", (unsigned long long)id, used, item.kind, item.status, (unsigned long long)item.number, item.fields, item.len);
}

static void sections(void) {
  begin("sections that are bad", 1, 220, 2, 0);
  deliver(0, "0109000021618" "4ffffffff"), pull(0), pull(0);
  begin("a string of eight ones", 1, 220, 2, 0);
  deliver(0, "01060000216181" "ff"), pull(0), pull(0);
  for (int strict = 0; strict < 2; strict++) {
    begin("lists that are malformed", 1, 220, 2, strict);
    deliver(0, "01070000d121410131"), pull(0), pull(0);
    deliver(4, "0106000021410131"), pull(4), pull(4);
    deliver(8, GET "000161" "01060000" "21410131"), pull(8), pull(8), pull(8);
  }
}

static void unidirectional(void) {
  begin("streams of one way", 1, 220, 2, 0);
  deliver(14, "21aabb"), state(14), deliver(14, "cc"), state(14);
  deliver(2, "00"), deliver(2, "0405014050"), deliver(2, "0702"), tables(), deliver(2, "0d01"), deliver(2, "04"), tables(), out(7);
  deliver(10, "03"), deliver(6, "02"), state(2), state(6), state(10), tables(), out(7), deliver(18, "40fe"), state(18);
  deliver(22, "00"), state(22), tables(), out(7);
}

static void sending(void) {
  begin("sections that are sent", 1, 220, 2, 0);
  deliver(2, "0004050140500702"), deliver(0, GET), deliver(4, GET), pull(0), tables();
  send(0, 0, "x-a", "1"), out(7), out(0), state(0), tables(), send(0, 0, "x-a", "1"), out(0);
  send(4, 0, "x-b", "2"), out(7), out(4), tables(), deliver(10, "0384"), deliver(10, "80"), tables();
  told("body", 0, h3_send_body(&end, 0, "abc", 3, &detail)), out(0), state(0);
  send(0, 1, "x-a", "1"), out(7), out(0), told("finish", 0, h3_finish(&end, 0, &detail)), out(0), state(0);
  told("reset", 4, h3_reset(&end, 4, &detail)), state(4), tables();
}

static void acknowledged(void) {
  begin("settings and a GOAWAY in one delivery", 1, 220, 2, 0);
  deliver(2, "0004050140500702" "070100"), tables(), deliver(10, "03"), deliver(0, GET), pull(0), tables();
  send(0, 0, "x-a", "1"), out(7), out(0), deliver(10, "80"), deliver(10, "80"), tables();
}

/* stream 8 was canceled, and no id is kept: from there on downwards all count as canceled, but stream 0, a section of which is not acknowledged */
static void canceled(void) {
  static const h3_field_size interim[] = {{7, 3}, {3, 1}};
  kept_ids = 0;
  begin("a canceled stream", 1, 220, 2, 0);
  deliver(2, "0004050140500702"), deliver(10, "03"), deliver(0, GET), deliver(4, GET), deliver(8, GET), pull(0), pull(4), pull(8);
  told("interim", 0, h3_send_head(&end, 0, interim, NULL, 2, ":status103x-a1", 14, &detail)), send(0, 0, "x-a", "1"), deliver(10, "48"), deliver(10, "80");
  send(8, 0, "x-a", "1"), send(4, 0, "x-a", "1"), send(0, 1, "x-a", "1"), out(7), out(8), out(4), out(0), deliver(10, "80"), deliver(10, "80"), tables();
}

/* one stream more was canceled than ids are kept: those below the least count as canceled */
static void many_canceled(void) {
  uint8_t bytes[3 * 1002];
  size_t n = 0;
  kept_ids = 1001;
  begin("many canceled streams", 1, 220, 2, 0);
  deliver(2, "0004050140500702"), deliver(10, "03"), deliver(0, GET), pull(0);
  for (unsigned id = 400; id < 400 + 4 * 1002; id += 4) { /* RFC 9204, section 4.4.2 */
    bytes[n++] = 0x7f;
    if (id - 63 > 127) bytes[n++] = (uint8_t)((id - 63) | 0x80);
    bytes[n++] = (uint8_t)(id - 63 > 127 ? (id - 63) >> 7 : id - 63);
  }
  told("deliver", 10, h3_deliver(&end, 10, bytes, n, &detail)), send(0, 0, "x-a", "1"), out(7), out(0), tables();
  kept_ids = 1000;
}

static void unsent(void) {
  begin("lists that are not sent", 1, 220, 2, 1);
  deliver(2, "0004050140500702"), deliver(0, GET), pull(0), send(0, 0, "connection", "close"), send(0, 0, "A", "1"), send(0, 0, "x-a", "1"), out(7), out(0);
  send(0, 1, "connection", "close"), send(0, 1, "x-a", "1"), out(0);
}

static void waiting(void) {
  begin("sections that wait", 1, 220, 3, 0);
  deliver(2, "000400"), deliver(0, "010403811011000161"), pull(0), state(0), pull(0), deliver(4, "010403811011"), pull(4), state(4);
  deliver(8, "010403811011"), pull(8), pull(8), out(11);
  told("gone", 4, h3_deliver_reset(&end, 4, 7, &detail)), pull(4), state(4), out(11), deliver(6, "02"), deliver(6, INSERTS), tables(), out(11);
  pull(0), pull(0), out(11), told("end", 0, h3_deliver_end(&end, 0, &detail)), pull(0), pull(0), state(0), out(11);
  told("cancel", 8, h3_cancel(&end, 8, &detail)), pull(8), state(8), out(11);
}

static void kept(void) {
  begin("what is kept", 1, 220, 3, 0);
  deliver(2, "000400"), deliver(6, "02" INSERTS), state(6), tables(), out(11), deliver(6, "00"), state(6), tables(), out(11);
  deliver(0, GET), state(0), deliver(0, "000161"), state(0), told("gone", 0, h3_deliver_reset(&end, 0, 7, &detail)), state(0), pull(0), state(0), pull(0), state(0);
  deliver(4, "000161"), state(4), pull(4), deliver(8, GET), pull(8);
}

static void over(void) {
  begin("streams that are over", 1, 0, 0, 0);
  for (uint64_t id = 0; id < 24; id += 4) {
    deliver(id, GET), told("end", id, h3_deliver_end(&end, id, &detail)), pull(id), pull(id), send(id, 0, "x-a", "1");
    told("finish", id, h3_finish(&end, id, &detail)), told("advance", id, h3_advance(&end, id, out(id))), told("taken", id, h3_end_taken(&end, id));
    state(id), pull(id), told("cancel", id, h3_cancel(&end, id, &detail)), told("gone", id, h3_deliver_reset(&end, id, 7, &detail)), pull(id);
  }
  for (uint64_t id = 0; id < 24; id += 4) state(id), pull(id);
}

static void reading(void) {
  begin("bytes that are read", 1, 220, 2, 0);
  read_in_place(0, GET, 0), read_in_place(0, "0005616263", 0), state(0), read_in_place(0, "6465", 1), read_in_place(0, "", 1), read_in_place(0, "6667", 0), state(0);
  read_in_place(4, GET "210161" "000161", 0), read_in_place(4, "", 0), pull(4), state(4);
}

static void faults(void) {
  begin("faults behind what is kept", 1, 220, 3, 0);
  deliver(4, "000161"), deliver(2, "00" "0400" "0400"), deliver(0, GET), pull(0), pull(4), state(0), deliver(8, GET), pull(8);
}

static void empty(void) {
  begin("a section without lines", 1, 220, 2, 0);
  deliver(0, "01020000"), pull(0), pull(0);
}

static void far(void) {
  uint64_t id = 99;
  begin("streams that are far, and a frame that is too long", 1, 220, 2, 0);
  deliver(0, GET), told("unseen", id, h3_first_unseen(&end, &id)), deliver(2048, GET), told("unseen", id, h3_first_unseen(&end, &id));
  printf("unseen %llu\n", (unsigned long long)id), state(2048), deliver(16002, "21aa"), state(16002), deliver(2, "00044fff"), state(2);
}

static void ready(void) {
  begin("streams that are ready", 1, 220, 3, 0);
  for (uint64_t id = 0; id < 12; id += 4) {
    uint64_t next = 99;
    deliver(id, GET), pull(id), send(id, 0, "x-a", "1"), told("body", id, h3_send_body(&end, id, "abc", 3, &detail)), send(id, 1, "x-b", "2");
    for (uint64_t from = 0; h3_next_to_send(&end, from, &next) == H3_OK && next >= from; from = next + 1) printf("next %llu\n", (unsigned long long)next);
  }
}

static void tries(void) {
  begin("how often sections were tried", 1, 220, 3, 0);
  deliver(2, "000400"), deliver(0, "010403811011"), deliver(4, "010403811011"), deliver(8, "010403811011"), pull(0), pull(4), deliver(6, "023fbd01"), pull(4);
  for (uint64_t id = 0; id < 12; id += 4) {
    told("cancel", id, h3_cancel(&end, id, &detail)), told("gone", id, h3_deliver_reset(&end, id, 7, &detail)), told("reset", id, h3_reset(&end, id, &detail)), pull(id);
  }
  state(0), state(4), state(8);
}

int main(void) {
  sections(), unidirectional(), sending(), unsent(), waiting(), kept(), over();
  reading(), faults(), ready(), tries(), acknowledged(), canceled(), many_canceled(), empty(), far();
  h3_free(&end);
  return 0;
}
