/* Random programs of a client and a server, with allocations refused: whatever is called and delivered on an end that is drained, it stays
 * drained, but for a GOAWAY that it sends itself, until that is taken (RFC 9114, section 5.2). Linked with --wrap for malloc and realloc.
 *
 *     drained FIRST_SEED COUNT */
#define TEST "drained"
#include "field_list.h"

enum { CLIENT, SERVER };
enum { REQUESTS = 6, IDS = 4 * REQUESTS + 16, OWN_IDS = 12, LONGEST = 64 };

static h3_endpoint ends[2];
static field_list request, response;
static int was_drained[2];
static uint64_t seed, state, checks, times_drained;

/* which allocation of the next call is refused; 0: none */
static unsigned refuse_at;

void *__real_malloc(size_t);
void *__real_realloc(void *, size_t);
void *__wrap_malloc(size_t);
void *__wrap_realloc(void *, size_t);

static int refuses(void) { return refuse_at && !--refuse_at; }
void *__wrap_malloc(size_t size) { return refuses() ? NULL : __real_malloc(size); }
void *__wrap_realloc(void *block, size_t size) { return refuses() ? NULL : __real_realloc(block, size); }

static uint32_t below(uint32_t count) {
  state = state * UINT64_C(6364136223846793005) + UINT64_C(1442695040888963407);
  return (uint32_t)(state >> 33) % count;
}

static void need(int holds, const char *what, int side) {
  if (holds) return;
  printf("failed drained: seed %llu: %s, side %d\n", (unsigned long long)seed, what, side);
  exit(1);
}

/* a request's, mostly; any low one, or one of the last */
static uint64_t any_id(void) {
  uint32_t kind = below(8);
  if (kind < 5) return 4 * below(REQUESTS + 2);
  return kind < 7 ? below(IDS) : (UINT64_C(1) << 62) - 1 - below(8);
}

/* Some of what waits goes over, and its end. Where memory was refused it goes over again. */
static void carry(int from, uint64_t id, size_t most) {
  static uint8_t bytes[8192];
  size_t n = 0;
  uint32_t fin = 0;
  if (h3_outgoing(&ends[from], id, bytes, most < sizeof bytes ? most : sizeof bytes, &n, NULL, &fin) != H3_OK) return;
  if (n && h3_deliver(&ends[!from], id, bytes, n, NULL) == H3_MEMORY) return;
  h3_advance(&ends[from], id, n);
  if (fin && h3_deliver_end(&ends[!from], id, NULL) != H3_MEMORY) h3_end_taken(&ends[from], id);
}

static void carry_own(int side) {
  carry(side, h3_control_id((uint32_t)side), SIZE_MAX);
  carry(side, h3_encoder_id((uint32_t)side), SIZE_MAX);
  carry(side, h3_decoder_id((uint32_t)side), SIZE_MAX);
}

/* frames, instructions and types of streams, whole and not, in any order */
static size_t any_bytes(uint8_t *to) {
  static const struct {
    size_t len;
    const char *bytes;
  } some[] = {
      {5, "\x01\x03\x00\x00\xd1"}, {8, "\x01\x06\x00\x00\xd1\xd7\x50\x00"}, {4, "\x00\x02hi"},     {3, "\x00\x04\x00"}, {3, "\x07\x01\x00"},
      {3, "\x07\x01\x04"},         {4, "\x02\x3f\xe1\x1f"},                 {2, "\x03\x80"}, {2, "\x21\x00"},     {2, "\x04\x00"},
  };
  size_t len = 0;
  for (uint32_t pieces = 1 + below(3); pieces; pieces--) {
    uint32_t which = below(12);
    if (which < 10) {
      memcpy(to + len, some[which].bytes, some[which].len);
      len += some[which].len;
    } else {
      to[len++] = (uint8_t)below(256);
    }
  }
  return len;
}

/* what a caller does */
static void call(int side) {
  uint64_t id = any_id(), opened;
  h3_item item;
  switch (below(12)) {
  case 0: h3_open_request(&ends[side], &opened, NULL); break;
  case 1: send_list(&ends[side], id, side ? &response : &request); break;
  case 2: h3_send_body(&ends[side], id, "body", 4, NULL); break;
  case 3: h3_finish(&ends[side], id, NULL); break;
  case 4: case 5: case 6: carry(side, below(3) ? 4 * below(REQUESTS) : below(OWN_IDS), 1 + below(60)); break;
  case 7: case 8: h3_pull(&ends[side], id, &item); break;
  case 9: carry_own(side); break;
  case 10: if (!below(4)) h3_reset(&ends[side], id, NULL); break;
  default: if (!below(4)) h3_cancel(&ends[side], id, NULL);
  }
}

/* what a peer does that keeps no rule, and a caller that says what is not so */
static void break_rules(int side) {
  uint8_t bytes[LONGEST];
  uint64_t id = any_id();
  size_t used;
  h3_item item;
  switch (below(5)) {
  case 0: h3_deliver(&ends[side], id, bytes, any_bytes(bytes), NULL); break;
  case 1: h3_deliver_end(&ends[side], id, NULL); break;
  case 2: h3_deliver_reset(&ends[side], id, below(300), NULL); break;
  case 3: h3_read(&ends[side], id, bytes, any_bytes(bytes), below(2), &used, &item, NULL); break;
  default:
    h3_advance(&ends[side], id, below(9));
    h3_end_taken(&ends[side], id);
  }
}

static void leave(int side) {
  switch (below(3)) {
  case 0: h3_shutdown(&ends[side], NULL); break;
  case 1: h3_shutdown_notice(&ends[side], NULL); break;
  default: h3_goaway(&ends[side], 4 * below(REQUESTS), NULL);
  }
}

/* what was drained is so, unless a GOAWAY waits */
static void look(void) {
  for (int side = 0; side < 2; side++) {
    uint32_t is = 2;
    h3_stream_state control;
    need(h3_is_drained(&ends[side], &is) == H3_OK && is < 2, "h3_is_drained", side);
    need(h3_stream(&ends[side], h3_control_id((uint32_t)side), &control) == H3_OK, "h3_stream", side);
    if (was_drained[side]) {
      need((int)is == (control.waiting == 0), is ? "it is drained, and a GOAWAY waits" : "it is drained no longer", side);
      checks++;
    } else if (is) {
      was_drained[side] = 1;
      times_drained++;
    }
  }
}

static void any_calls(int count, uint32_t one_lacks_memory_in, int is_wild) {
  for (int step = 0; step < count; step++) {
    int side = (int)below(2);
    uint32_t kind = below(is_wild ? 16 : 40);
    refuse_at = one_lacks_memory_in && !below(one_lacks_memory_in) ? 1 + below(4) : 0;
    if (kind == 0) leave(side);
    else if (is_wild && kind < 6) break_rules(side);
    else call(side);
    refuse_at = 0;
    look();
  }
}

/* both shut down, and each exchange comes to its end */
static void end_all(void) {
  for (int side = 1; side >= 0; side--)
    if (!was_drained[side]) h3_shutdown(&ends[side], NULL);
  for (int round = 0; round < 6; round++)
    for (int side = 0; side < 2; side++) {
      carry_own(side);
      for (uint64_t id = 0; id < 4 * (REQUESTS + 2); id += 4) {
        h3_item item = {0};
        if (h3_finish(&ends[side], id, NULL) != H3_OK && round > 2) h3_reset(&ends[side], id, NULL);
        carry(side, id, SIZE_MAX);
        while (h3_pull(&ends[side], id, &item) == H3_OK && item.kind < H3_END) {
        }
        if (round > 3) h3_cancel(&ends[side], id, NULL);
      }
      look();
    }
}

static void run(uint64_t of) {
  seed = of;
  state = of * 977 + 1;
  for (int side = 0; side < 2; side++) {
    h3_config config;
    h3_config_default(&config);
    config.server = (uint32_t)side;
    config.strict = below(2);
    need(h3_new(&ends[side], &config, NULL) == H3_OK, "h3_new", side);
    was_drained[side] = 0;
  }
  uint32_t lacks_memory = below(2);
  any_calls(200, lacks_memory * 12, 0);
  end_all();
  any_calls(300, lacks_memory * 4, 1);
  for (int side = 0; side < 2; side++) h3_free(&ends[side]);
}

int main(int argc, char **argv) {
  uint64_t first = argc > 1 ? strtoull(argv[1], NULL, 10) : 0, count = argc > 2 ? strtoull(argv[2], NULL, 10) : 1000;
  begin_request(&request, "GET");
  begin_response(&response, "200");
  for (uint64_t of = first; of < first + count; of++) run(of);
  if (count > 50 && times_drained < count) {
    printf("failed drained: of %llu programs an end was drained %llu times\n", (unsigned long long)count, (unsigned long long)times_drained);
    return 1;
  }
  printf("ok drained: %llu random programs, %llu drained ends, which stayed so over %llu calls\n", (unsigned long long)count,
         (unsigned long long)times_drained, (unsigned long long)checks);
  return 0;
}
