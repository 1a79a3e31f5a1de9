/* nghttp3 reads what we write, and we read what it writes: one line a check, and a sum. */
#include "interop.h"
#include "h3_bench.h"
#include "peer.h"
#include "peer_session.h"
#include "plain.h"
#include <stdio.h>
#include <stdlib.h>
#include <string.h>

static int passed, failed;

void check(int good, const char *what, const char *more) {
  printf("%s %s%s%s\n", good ? "ok" : "failed", what, *more ? ": " : "", more);
  if (good)
    passed++;
  else
    failed++;
}

/* The lists that our decoder reads in sections; none where it refuses one. */
static pack ours_of_sections(const pack *sections, size_t room) {
  pack lists = {0};
  h3_report report;
  uint8_t *out = malloc(room);
  uint32_t status = h3_bench_section_decode(0, sections->bytes, sections->len, out, room, &report);
  if (status == H3_DONE) {
    size_t len = 4;
    for (size_t i = number_at(out); i; i--) {
      size_t fields = number_at(out + len);
      len += 4;
      for (size_t j = 2 * fields; j; j--) len += 4 + number_at(out + len);
    }
    put_bytes(&lists, out, len);
  } else if (status != H3_REFUSED)
    stop("section_decode", (long)status);
  free(out);
  return lists;
}

/* The same by nghttp3. */
static pack peers_of_sections(const pack *sections) {
  peer_receiver receiver = peer_receiver_new(0, 0);
  pack lists = {0};
  size_t count = number_at(sections->bytes), fields = 0, sum = 0;
  const uint8_t *from = sections->bytes + 4;
  put_number(&lists, count);
  for (size_t i = 0; i < count; i++) {
    size_t len = number_at(from);
    if (peer_receive(&receiver, 4 * i, from + 4, len, &fields, &sum, &lists) != PEER_DECODED) {
      free_pack(&lists);
      break;
    }
    from += 4 + len;
  }
  peer_receiver_free(&receiver);
  return lists;
}

static pack sections_by_us(const pack *packed) {
  h3_report report;
  size_t room = 8 * packed->len + 64;
  uint8_t *out = malloc(room);
  uint32_t status = h3_bench_section_encode(0, packed->bytes, packed->len, out, room, &report);
  if (status != H3_DONE) stop("section_encode", (long)status);
  size_t len = 4;
  for (size_t i = number_at(out); i; i--) len += 4 + number_at(out + len);
  pack sections = {0};
  put_bytes(&sections, out, len);
  free(out);
  return sections;
}

static pack sections_by_peer(const field_lists *lists) {
  peer_sender sender = peer_sender_new(0, 0);
  pack sections = {0}, section = {0};
  put_number(&sections, lists->count);
  for (size_t i = 0; i < lists->count; i++) {
    peer_send(&sender, 4 * i, &lists->lists[i]);
    section.len = 0;
    put_section(&section, &sender);
    put_string(&sections, section.bytes, section.len);
  }
  free_pack(&section);
  peer_sender_free(&sender);
  return sections;
}

static int are_same(const pack *a, const pack *b) { return a->len == b->len && !memcmp(a->bytes, b->bytes, a->len); }

static void both_ways(const field_lists *lists) {
  char what[128], more[128];
  pack packed = pack_lists(lists);
  pack ours = sections_by_us(&packed), peers = sections_by_peer(lists);
  pack read_by_peer = peers_of_sections(&ours), read_by_us = ours_of_sections(&peers, 2 * packed.len);
  snprintf(what, sizeof what, "capacity 0, %s: nghttp3 reads what we write", lists->name);
  snprintf(more, sizeof more, "%zu lists, %zu fields, %zu bytes", lists->count, lists->fields,
           ours.len - 4 - 4 * lists->count);
  check(are_same(&read_by_peer, &packed), what, more);
  snprintf(what, sizeof what, "capacity 0, %s: we read what nghttp3 writes", lists->name);
  snprintf(more, sizeof more, "%zu lists, %zu fields, %zu bytes", lists->count, lists->fields,
           peers.len - 4 - 4 * lists->count);
  check(are_same(&read_by_us, &packed), what, more);
  free_pack(&packed);
  free_pack(&ours);
  free_pack(&peers);
  free_pack(&read_by_peer);
  free_pack(&read_by_us);
}

static uint64_t seed = 88172645463325252u;
uint64_t next_random(void) {
  seed ^= seed << 13;
  seed ^= seed >> 7;
  seed ^= seed << 17;
  return seed >> 11;
}

static void random_string(uint8_t **to, size_t *len, size_t least, size_t most) {
  *len = least + next_random() % (most - least + 1);
  *to = malloc(*len + 1);
  for (size_t i = 0; i < *len; i++) (*to)[i] = (uint8_t)next_random();
}

/* Names and values of all bytes and of many lengths. */
static field_lists random_lists(size_t count) {
  field_lists all = {.name = "random bytes", .count = count};
  all.lists = calloc(count, sizeof *all.lists);
  for (size_t i = 0; i < count; i++) {
    field_list *list = &all.lists[i];
    list->count = next_random() % 8;
    list->fields = calloc(list->count + 1, sizeof *list->fields);
    for (size_t j = 0; j < list->count; j++) {
      random_string(&list->fields[j].name, &list->fields[j].namelen, 1, 40);
      random_string(&list->fields[j].value, &list->fields[j].valuelen, 0, next_random() % 16 ? 60 : 3000);
      all.fields++;
      all.bytes += list->fields[j].namelen + list->fields[j].valuelen;
    }
  }
  return all;
}

/* A section of one line, and what a decoder has to say to it. */
typedef struct {
  const char *what;
  size_t len;
  uint8_t bytes[24];
  int ours, peers;    /* whether it is read */
  const char *reason; /* where the two differ */
} worked_section;

static const worked_section worked[] = {
    {"a string as it stands", 5, {0, 0, 0x51, 0x01, 0x61}, 1, 1, ""},
    {"a Huffman coded string, padding of three ones", 5, {0, 0, 0x51, 0x81, 0x1f}, 1, 1, ""},
    {"a line with the bit N", 5, {0, 0, 0x71, 0x81, 0x1f}, 1, 1, ""},
    {"an index in more bytes than it needs", 6, {0, 0, 0xff, 0x80, 0x80, 0x00}, 1, 1, ""},
    {"no lines", 2, {0, 0}, 1, 1, ""},
    {"padding of eight ones", 6, {0, 0, 0x51, 0x82, 0xf8, 0xff}, 0, 0, ""},
    {"padding of eleven ones", 6, {0, 0, 0x51, 0x82, 0x1f, 0xff}, 0, 0, ""},
    {"a string of eight ones", 5, {0, 0, 0x51, 0x81, 0xff}, 0, 0, ""},
    {"padding with a zero", 5, {0, 0, 0x51, 0x81, 0x1e}, 0, 0, ""},
    {"an end-of-string symbol", 8, {0, 0, 0x51, 0x84, 0xff, 0xff, 0xff, 0xff}, 0, 0, ""},
    {"an end-of-string symbol before a string", 9, {0, 0, 0x51, 0x85, 0xff, 0xff, 0xff, 0xfc, 0x7f}, 0, 0, ""},
    {"a static index of 99", 4, {0, 0, 0xff, 0x24}, 0, 0, ""},
    {"a static name of index 99", 6, {0, 0, 0x5f, 0x54, 0x81, 0x1f}, 0, 0, ""},
    {"a dynamic index", 3, {0, 0, 0x80}, 0, 0, ""},
    {"a dynamic name", 5, {0, 0, 0x40, 0x81, 0x1f}, 0, 0, ""},
    {"an index from the base on", 3, {0, 0, 0x10}, 0, 0, ""},
    {"a name from the base on", 5, {0, 0, 0x00, 0x81, 0x1f}, 0, 0, ""},
    {"an index of 2^64", 14, {0, 0, 0xff, 0x80, 0x80, 0x80, 0x80, 0x80, 0x80, 0x80, 0x80, 0x80, 0x02}, 0, 0, ""},
    {"a string longer than the section", 5, {0, 0, 0x51, 0x82, 0x1f}, 0, 0, ""},
    {"half a prefix", 1, {0}, 0, 0, ""},
};

static pack one_section(const uint8_t *bytes, size_t len) {
  pack section = {0};
  put_number(&section, 1);
  put_string(&section, bytes, len);
  return section;
}

static void worked_sections(void) {
  for (size_t i = 0; i < sizeof worked / sizeof *worked; i++) {
    const worked_section *w = &worked[i];
    pack section = one_section(w->bytes, w->len);
    pack ours = ours_of_sections(&section, 1 << 16), peers = peers_of_sections(&section);
    int good = (ours.len > 0) == w->ours && (peers.len > 0) == w->peers;
    if (good && w->ours && w->peers) good = are_same(&ours, &peers);
    char more[256];
    if (w->ours == w->peers)
      snprintf(more, sizeof more, "%s by both", w->ours ? "read" : "refused");
    else
      snprintf(more, sizeof more, "%s by us, %s by nghttp3: %s", w->ours ? "read" : "refused",
               w->peers ? "read" : "refused", w->reason);
    if (!good)
      snprintf(more, sizeof more, "we %s it, nghttp3 %s it", ours.len ? "read" : "refused",
               peers.len ? "read" : "refused");
    check(good, w->what, more);
    free_pack(&section);
    free_pack(&ours);
    free_pack(&peers);
  }
}

/* Sections of nghttp3 with some bytes changed: both read them alike, or both refuse them. */
static void changed_sections(const field_lists *lists, size_t times) {
  pack sections = sections_by_peer(lists);
  size_t read = 0, refused = 0, differ = 0;
  for (size_t t = 0; t < times; t++) {
    const uint8_t *from = sections.bytes + 4;
    for (size_t skip = next_random() % lists->count; skip; skip--) from += 4 + number_at(from);
    pack section = one_section(from + 4, number_at(from));
    size_t len = section.len - 8;
    for (size_t changes = 1 + next_random() % 3; changes; changes--)
      section.bytes[10 + next_random() % (len - 2)] = (uint8_t)next_random();
    pack ours = ours_of_sections(&section, 1 << 16), peers = peers_of_sections(&section);
    if (!are_same(&ours, &peers))
      differ++;
    else if (ours.len)
      read++;
    else
      refused++;
    free_pack(&section);
    free_pack(&ours);
    free_pack(&peers);
  }
  char more[128];
  snprintf(more, sizeof more, "%zu read alike, %zu refused by both, %zu differ", read, refused, differ);
  check(differ == 0, "sections with changed bytes", more);
  free_pack(&sections);
}

/* Random payloads of the Huffman code, often with many ones: ours, nghttp3 and plain C agree. */
static void random_payloads(size_t times) {
  size_t read = 0, refused = 0, differ = 0;
  for (size_t t = 0; t < times; t++) {
    uint8_t payload[16] = {0}, ours[64], peers[64], plain[64];
    size_t len = next_random() % 8;
    for (size_t i = 0; i < len; i++) payload[i] = next_random() % 3 ? (uint8_t)next_random() : 0xff;
    pack packed = one_section(payload, len);
    h3_report report = {0, 0, 0};
    uint32_t status = h3_bench_huffman_decode(1, packed.bytes, packed.len, ours, sizeof ours, &report);
    peer_huffman_context context;
    nghttp3_qpack_huffman_decode_context_init(&context);
    nghttp3_ssize by_peer = nghttp3_qpack_huffman_decode(&context, peers, payload, len, 1);
    long by_plain = plain_huffman_decode(plain, payload, len);
    long by_us = status == H3_DONE ? (long)report.bytes : -1;
    if ((by_peer < 0 ? -1 : by_peer) != by_us || by_plain != by_us)
      differ++;
    else if (by_us < 0)
      refused++;
    else if (memcmp(ours, peers, (size_t)by_us) || memcmp(ours, plain, (size_t)by_us))
      differ++;
    else
      read++;
    free_pack(&packed);
  }
  char more[128];
  snprintf(more, sizeof more, "%zu read alike, %zu refused by all, %zu differ", read, refused, differ);
  check(differ == 0, "random Huffman payloads (and plain C)", more);
}

int main(int argc, char **argv) {
  const char *dir = argc > 1 ? argv[1] : "data";
  static const char *const names[] = {"requests", "responses", "static_only", "literal_only"};
  plain_build();
  printf("nghttp3 %s\n", nghttp3_version(0)->version_str);
  for (size_t i = 0; i < 4; i++) {
    field_lists lists = load_lists(dir, names[i]);
    both_ways(&lists);
    if (i < 2) changed_sections(&lists, 20000);
    session_checks(&lists, 4096, 100);
    session_checks(&lists, 220, 2);
  }
  field_lists lists = random_lists(2000);
  both_ways(&lists);
  worked_sections();
  random_payloads(300000);
  printf("%d passed, %d failed\n", passed, failed);
  return failed != 0;
}
