/* Calls in which each allocation is refused in turn. A call that is refused changes nothing. What is kept is read in order once there is memory again, as if
 * none had been refused. One line 'ok NAME' or 'failed NAME'. Linked with --wrap for malloc and realloc. */
#include <h3.h>
#include <stdlib.h>
#include <string.h>
#define TEST "lacking"
#include "expect.h"

enum { STREAMS = 70 }; /* more codes of resets than are kept in common */

static const uint8_t get[] = {1, 8, 0, 0, 0xd1, 0xd7, 0x50, 1, 'a', 0xc1};
static h3_endpoint end;
static long left = -1; /* allocations until one is refused; -1: none is */
static int all;        /* from that one on each is */
static long refusals;

void *__real_malloc(size_t);
void *__real_realloc(void *, size_t);

static int is_refused(void) {
  if (left < 0 || left-- > 0) return 0;
  if (all) left = 0;
  refusals++;
  return 1;
}

void *__wrap_malloc(size_t size) { return is_refused() ? NULL : __real_malloc(size); }
void *__wrap_realloc(void *old, size_t size) { return is_refused() ? NULL : __real_realloc(old, size); }

static void make(void) {
  h3_config config;
  left = -1;
  h3_config_default(&config);
  config.server = 1;
  config.kept_ids = UINT64_MAX, config.table = 4096, config.blocked = 16, config.datagram = 1;
  end = (h3_endpoint)H3_NONE_YET;
  IS(h3_new(&end, &config, NULL), H3_OK);
}

/* from now on the allocation after so many is refused, or that and all after it */
static void refuse(long after, int rest) { left = after, all = rest, refusals = 0; }

/* whether one was; from now on none is */
static int was_refused(void) {
  left = -1;
  return refusals > 0;
}

static uint64_t unread(uint64_t id) {
  h3_stream_state state;
  IS(h3_stream(&end, id, &state), H3_OK);
  return state.unread;
}

static uint64_t pulls(uint64_t id, uint32_t kind) {
  h3_item item;
  IS(h3_pull(&end, id, &item), H3_OK);
  IS(item.kind, kind);
  return item.number;
}

static void ask_and_reset(uint64_t id) {
  while (h3_deliver(&end, id, get, sizeof get, NULL) == H3_MEMORY) {}
  while (h3_deliver_reset(&end, id, 7 + id, NULL) == H3_MEMORY) {}
  IS(h3_reset(&end, id, NULL), H3_OK);
}

/* Each stream tells its own code, though there was no room to remember it in few bytes. */
static int codes(long after) {
  make();
  refuse(after, 0);
  for (uint64_t id = 0; id < 4 * STREAMS; id += 4) ask_and_reset(id);
  int was = was_refused();
  for (uint64_t id = 0; id < 4 * STREAMS; id += 4) HOLDS(pulls(id, H3_FAULT_RESET) == 7 + id);
  h3_free(&end);
  return was;
}

/* A reset comes after what is kept, and its stream stays as it is until that is read. Nothing comes after it. */
static int kept_reset(long after) {
  make();
  IS(h3_deliver(&end, 0, get, sizeof get, NULL), H3_OK);
  refuse(after, 1);
  uint32_t answer = h3_deliver(&end, 2, "\x00\x04\x00", 3, NULL);
  if (answer == H3_KEPT) {
    answer = h3_deliver_reset(&end, 0, 7, NULL);
    HOLDS(answer == H3_KEPT || answer == H3_MEMORY);
    HOLDS(unread(0) == sizeof get);
    if (answer == H3_KEPT) IS(h3_deliver_end(&end, 0, NULL), H3_AFTER_END);
  }
  int was = was_refused();
  if (answer == H3_KEPT) HOLDS(pulls(0, H3_FAULT_RESET) == 7);
  h3_free(&end);
  return was;
}

/* A request whose reset there was no memory for was not seen: a server that names an id above it is not drained. */
static int unseen(long after) {
  uint8_t bytes[256];
  size_t n = 0;
  uint32_t is = 7, answer = H3_OK;
  uint64_t id = 0;
  make();
  refuse(after, 0);
  while (id < 4 * STREAMS && (answer = h3_deliver_reset(&end, id, 7, NULL)) == H3_OK) {
    IS(h3_reset(&end, id, NULL), H3_OK);
    id += 4;
  }
  int was = was_refused();
  HOLDS(answer == H3_OK || (was && answer == H3_MEMORY)); /* no call tells that room for spare blocks was refused */
  if (answer == H3_MEMORY) {
    IS(h3_goaway(&end, id + 4, NULL), H3_OK);
    IS(h3_outgoing(&end, h3_control_id(1), bytes, sizeof bytes, &n, NULL, NULL), H3_OK);
    IS(h3_advance(&end, h3_control_id(1), n), H3_OK);
    IS(h3_is_drained(&end, &is), H3_OK);
    IS(is, 0);
  }
  h3_free(&end);
  return was;
}

/* Settings with a table of 80 bytes, and GOAWAYs after them: the table is used as soon as the settings are read (RFC 9204, sections 3.2.3 and 4.3.1). */
static int settings(long after) {
  static const uint8_t control[] = {0, 4, 5, 1, 0x40, 0x50, 7, 2, 7, 1, 5, 7, 1, 4, 7, 1, 3, 7, 1, 2, 7, 1, 1, 7, 1, 0};
  uint8_t bytes[8] = {0};
  size_t n = 0;
  make();
  refuse(after, 0);
  uint32_t answer = h3_deliver(&end, 2, control, sizeof control, NULL);
  int was = was_refused();
  HOLDS(answer == H3_OK || answer == H3_KEPT || answer == H3_MEMORY);
  if (answer == H3_MEMORY) IS(h3_deliver(&end, 2, control, sizeof control, NULL), H3_OK);
  if (answer == H3_KEPT) IS(h3_deliver(&end, 2, "", 0, NULL), H3_OK);
  IS(h3_outgoing(&end, h3_encoder_id(1), bytes, sizeof bytes, &n, NULL, NULL), H3_OK);
  HOLDS(n == 3 && !memcmp(bytes, "\x02\x3f\x31", 3));
  h3_free(&end);
  return was;
}

/* What the decoder stream said before the settings is read after them, also if memory was refused for a GOAWAY between: an increment by 1 where nothing was
 * inserted (RFC 9204, section 4.4.3). What is kept is tried once more in the same call. */
static int early(long after) {
  static const uint8_t control[] = {0, 4, 0, 7, 1, 5, 7, 1, 4, 7, 1, 3, 7, 1, 2, 7, 1, 1, 7, 1, 0};
  uint32_t answer = H3_MEMORY;
  uint64_t code = 0;
  for (long first = 0; answer == H3_MEMORY; first++) {
    h3_free(&end), make();
    IS(h3_deliver(&end, 10, "\x03\x01", 2, NULL), H3_OK);
    refuse(first, 1);
    answer = h3_deliver(&end, 2, control, sizeof control, NULL);
  }
  IS(answer, H3_KEPT);
  refuse(after, 0);
  answer = h3_deliver(&end, 2, "", 0, &code);
  int was = was_refused();
  if (answer == H3_KEPT || answer == H3_MEMORY) answer = h3_deliver(&end, 2, "", 0, &code);
  IS(answer, H3_CONNECTION);
  HOLDS(code == UINT64_C(0x202));
  h3_free(&end);
  return was;
}

/* More content than was said is told as such, and not as out of memory (RFC 9114, section 4.1.2). */
static int too_much(long after) {
  static const h3_field_size sizes[] = {{7, 3}, {14, 1}};
  uint64_t rule = 0;
  make();
  IS(h3_deliver(&end, 0, get, sizeof get, NULL), H3_OK);
  pulls(0, H3_HEAD);
  IS(h3_send_head(&end, 0, sizes, NULL, 2, ":status200content-length0", 25, NULL), H3_OK);
  refuse(after, 1);
  uint32_t answer = h3_send_body(&end, 0, "a", 1, &rule);
  int was = was_refused();
  IS(answer, H3_MALFORMED);
  HOLDS(rule == H3_BAD_CONTENT_LENGTH);
  h3_free(&end);
  return was;
}

/* Nothing is held behind a fault, whatever was kept (RFC 9297, section 2.1: a datagram without an id). */
static int faulty(long after) {
  uint64_t id, code = 0;
  size_t from;
  make();
  refuse(after, 1);
  uint32_t answer = h3_deliver(&end, 2, "\x00\x04", 2, NULL);
  int was = was_refused();
  if (answer == H3_KEPT) HOLDS(unread(2) > 0);
  IS(h3_read_datagram(&end, "", 0, &id, &from, &code), H3_CONNECTION);
  HOLDS(code == UINT64_C(0x33) && unread(2) == 0);
  h3_free(&end);
  return was;
}

/* What is kept of a stream, since there was no memory to read what came before it, is held on that stream and on no other. */
static int others(long after) {
  uint32_t answer = H3_MEMORY;
  int was = 0;
  for (long first = 0; answer == H3_MEMORY; first++) {
    h3_free(&end), make();
    refuse(first, 1);
    answer = h3_deliver(&end, 2, "\x00\x04", 2, NULL);
    if (answer != H3_KEPT) continue;
    refuse(after, 1);
    answer = h3_deliver(&end, 0, get, sizeof get, NULL);
    was = was_refused();
    if (answer == H3_KEPT) HOLDS(unread(0) == sizeof get && unread(2) <= 2);
    answer = H3_OK;
  }
  h3_free(&end);
  return was;
}

/* A cancellation by the peer for which there was no memory is read once there is some (RFC 9204, section 4.4.2). */
static int replies(long after) {
  make();
  IS(h3_deliver(&end, 2, "\x00\x04\x00", 3, NULL), H3_OK);
  IS(h3_deliver(&end, 10, "\x03", 1, NULL), H3_OK);
  refuse(after, 1);
  uint32_t answer = h3_deliver(&end, 10, "\x40", 1, NULL);
  int was = was_refused();
  if (answer == H3_MEMORY) answer = h3_deliver(&end, 10, "\x40", 1, NULL);
  if (answer == H3_KEPT) answer = h3_deliver(&end, 10, "", 0, NULL);
  IS(answer, H3_OK);
  HOLDS(unread(10) == 0);
  h3_free(&end);
  return was;
}

int main(void) {
  static int (*const each[])(long) = {codes, kept_reset, unseen, settings, early, too_much, faulty, others, replies};
  long count = 0;
  for (size_t which = 0; which < sizeof each / sizeof *each; which++)
    for (long after = 0; each[which](after); after++) count++;
  if (!bad) printf("ok lacking: %ld calls in which memory was refused\n", count);
  return bad;
}
