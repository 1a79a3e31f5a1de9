/* What is sent on one stream, kept until QUIC has acknowledged it. */
#ifndef EXAMPLES_BUFFER_H
#define EXAMPLES_BUFFER_H
#include <ngtcp2/ngtcp2.h>
#include <stdbool.h>

struct piece;

/* Bytes of a stream by their offsets: those before `kept` are acknowledged and freed, those before `taken` were taken by QUIC. */
typedef struct {
  struct piece *first, *last;
  struct piece *next; /* the first that QUIC has not taken whole, or NULL; it begins at the offset `next_at` */
  uint64_t kept, taken, given, next_at;
  bool ended, end_taken;
} buffer;

/* The end is moved by so many bytes, which the caller writes at once. NULL: out of memory, nothing has changed. */
uint8_t *buffer_extend(buffer *, size_t count);
/* Copies bytes to the end. false: out of memory, nothing has changed. */
bool buffer_give(buffer *, const uint8_t *bytes, size_t count);
/* The bytes that QUIC has not taken, as at most `limit` pieces. Returns how many pieces there are; `total` is the bytes in them. */
size_t buffer_untaken(const buffer *, ngtcp2_vec *pieces, size_t limit, size_t *total);
/* QUIC took the next so many bytes. */
void buffer_take(buffer *, uint64_t count);
/* All before this offset is acknowledged. */
void buffer_acknowledge(buffer *, uint64_t offset);
void buffer_free(buffer *);
#endif
