/* What a stranger can drive up at a decoder: a literal and an integer that come byte by byte, and lines that each name a large entry. */
#include "measure.h"
#include "peer_session.h"
#include "rows.h"
#include "session_steps.h"
#include <stdio.h>
#include <stdlib.h>
#include <string.h>

typedef struct {
  size_t capacity;
  pack instructions;
  pack steps; /* for our decoder: each byte of the instructions by itself */
  uint8_t *out;
  size_t room;
} work;

/* Sets the capacity, and inserts a field named a, whose value is not compressed (RFC 9204, sections 4.3.1 and 4.3.3). */
static work work_of(size_t capacity, size_t value_len) {
  work w = {.capacity = capacity};
  put_integer(&w.instructions, 32, 5, capacity);
  put_integer(&w.instructions, 64, 5, 1);
  put_bytes(&w.instructions, "a", 1);
  put_integer(&w.instructions, 0, 7, value_len);
  make_room(&w.instructions, value_len);
  memset(w.instructions.bytes + w.instructions.len, 'a', value_len);
  w.instructions.len += value_len;
  return w;
}

/* Sets a capacity of 128 by an integer with so many groups of no worth (RFC 9204, section 4.1.1; RFC 7541, section 5.1), and inserts a field. */
static work integer_work(size_t groups) {
  enum { CAPACITY = 128 };
  work w = {.capacity = CAPACITY};
  make_room(&w.instructions, groups + 3);
  memcpy(w.instructions.bytes, (const uint8_t[]){32 + 31, 128 + CAPACITY - 31}, 2);
  memset(w.instructions.bytes + 2, 128, groups);
  w.instructions.bytes[groups + 2] = 0;
  w.instructions.len = groups + 3;
  put_integer(&w.instructions, 64, 5, 1);
  put_bytes(&w.instructions, "a", 1);
  put_integer(&w.instructions, 0, 7, 1);
  put_bytes(&w.instructions, "a", 1);
  return w;
}

static void free_work(work *w) {
  free_pack(&w->instructions);
  free_pack(&w->steps);
  free(w->out);
}

static void our_bytes(void *data, uint64_t rounds) {
  work *w = data;
  h3_report report;
  done("session_decode",
       h3_bench_session_decode(rounds, w->capacity, w->steps.bytes, w->steps.len, w->out, w->room, &report));
}

static void peer_bytes(void *data, uint64_t rounds) {
  work *w = data;
  for (; rounds; rounds--) {
    peer_receiver receiver = peer_receiver_new(w->capacity, 100);
    for (size_t i = 0; i < w->instructions.len; i++)
      if (!peer_receiver_hear(&receiver, w->instructions.bytes + i, 1)) stop("nghttp3: a byte of an instruction", (long)i);
    peer_receiver_free(&receiver);
  }
}

/* The time of a byte is to be the same however many come. */
static void bytewise_row(const char *row, const char *set, work w, int with_peer) {
  session_steps steps = {0};
  for (size_t i = 0; i < w.instructions.len; i++) add_heard(&steps, w.instructions.bytes + i, 1);
  w.steps = pack_steps(&steps, NULL);
  free_pack(&steps.steps);
  w.room = 16 * w.instructions.len + 1024;
  w.out = malloc(w.room);
  our_bytes(&w, 0);
  /* it is inserted with its last byte: an increment of 1 is the last string that is handed out */
  size_t end = 4 + 8 * w.instructions.len;
  if (number_at(w.out + end - 4) != 1 || w.out[end] != 1) stop("the field was not inserted", (long)w.instructions.len);
  const contender both[CONTENDERS] = {{our_bytes, &w}, {with_peer ? peer_bytes : NULL, &w}, {0}};
  measure_row(&(row_kind){row, set, "ns", (double)w.instructions.len, 1, 1, 0, 0, NULL, 100}, both, 0);
  free_work(&w);
}

typedef struct {
  size_t capacity;
  uint64_t max; /* the most that the fields may sum to */
  pack instructions, section;
  size_t lines, entry; /* how many lines the section has, and the size of the entry that each names (RFC 9204, section 3.2.1) */
  peer_receiver receiver;
} large_work;

static void our_lines(void *data, uint64_t rounds) {
  large_work *w = data;
  h3_report report;
  done("section_within", h3_bench_section_within(rounds, w->capacity, w->max, w->instructions.bytes, w->instructions.len, w->section.bytes,
                                                 w->section.len, &report));
  if (rounds && (report.items || report.bytes != w->lines * w->entry)) stop("section_within: another sum", (long)report.bytes);
}

/* nghttp3 knows no such limit: each line is handed out, and let go. */
static void peer_lines(void *data, uint64_t rounds) {
  large_work *w = data;
  for (; rounds; rounds--) {
    size_t fields = 0, bytes = 0;
    if (peer_receive(&w->receiver, 0, w->section.bytes, w->section.len, &fields, &bytes, NULL) != PEER_DECODED)
      stop("nghttp3_qpack_decoder_read_request", 0);
    if (fields != w->lines || bytes != w->lines * (w->entry - 32)) stop("nghttp3: other counts", (long)fields);
    peer_reply(&w->receiver);
  }
}

/* A section of 16 KiB each of whose lines names the one entry (RFC 9204, sections 4.5.1 and 4.5.2): as fields it would have 66 MB. */
static void large_section_row(void) {
  enum { CAPACITY = 4096, VALUE = 3999, SECTION = 16384, MAX = 1 << 16 };
  work table = work_of(CAPACITY, VALUE);
  large_work w = {.capacity = CAPACITY, .max = MAX, .instructions = table.instructions, .lines = SECTION - 2, .entry = 1 + VALUE + 32};
  make_room(&w.section, SECTION);
  memset(w.section.bytes, 128, SECTION);
  memcpy(w.section.bytes, (const uint8_t[]){2, 0}, 2);
  w.section.len = SECTION;
  w.receiver = peer_receiver_new(CAPACITY, 100);
  if (!peer_receiver_hear(&w.receiver, w.instructions.bytes, w.instructions.len)) stop("nghttp3: an instruction", 0);
  const contender both[CONTENDERS] = {{our_lines, &w}, {peer_lines, &w}, {0}};
  measure_row(&(row_kind){"line beyond a limit", "16,382 of 4,032", "ns", (double)w.lines, 1, 1, 1.0, 0, NULL, 20}, both, 1);
  peer_receiver_free(&w.receiver);
  free_pack(&w.section);
  free_work(&table);
}

void hostile_decoder_rows(void) {
  bytewise_row("literal byte by byte", "6,000", work_of(1 << 17, 6000), 1);
  bytewise_row("literal byte by byte", "60,000", work_of(1 << 17, 60000), 1);
  /* nghttp3 refuses such an integer */
  bytewise_row("integer byte by byte", "6,000", integer_work(6000), 0);
  bytewise_row("integer byte by byte", "60,000", integer_work(60000), 0);
  large_section_row();
}
