#include "buffer.h"
#include <stdlib.h>
#include <string.h>

struct piece {
  struct piece *next;
  size_t count;
  uint8_t bytes[];
};

uint8_t *buffer_extend(buffer *buffer, size_t count) {
  struct piece *piece = malloc(sizeof *piece + count);
  if (!piece) return NULL;
  piece->next = NULL;
  piece->count = count;
  if (buffer->last) buffer->last->next = piece;
  else buffer->first = piece;
  buffer->last = piece;
  if (!buffer->next) {
    buffer->next = piece;
    buffer->next_at = buffer->given;
  }
  buffer->given += count;
  return piece->bytes;
}

bool buffer_give(buffer *buffer, const uint8_t *bytes, size_t count) {
  uint8_t *place = count > 0 ? buffer_extend(buffer, count) : NULL;
  if (place) memcpy(place, bytes, count);
  return count == 0 || place;
}

size_t buffer_untaken(const buffer *buffer, ngtcp2_vec *pieces, size_t limit, size_t *total) {
  size_t found = 0, skipped = (size_t)(buffer->taken - buffer->next_at);
  *total = 0;
  for (struct piece *piece = buffer->next; piece && found < limit; piece = piece->next) {
    pieces[found].base = piece->bytes + skipped;
    pieces[found].len = piece->count - skipped;
    *total += pieces[found++].len;
    skipped = 0;
  }
  return found;
}

void buffer_take(buffer *buffer, uint64_t count) {
  buffer->taken += count;
  while (buffer->next && buffer->next_at + buffer->next->count <= buffer->taken) {
    buffer->next_at += buffer->next->count;
    buffer->next = buffer->next->next;
  }
}

void buffer_acknowledge(buffer *buffer, uint64_t offset) {
  while (buffer->first && buffer->kept + buffer->first->count <= offset) {
    struct piece *piece = buffer->first;
    buffer->kept += piece->count;
    buffer->first = piece->next;
    if (!buffer->first) buffer->last = NULL;
    free(piece);
  }
}

void buffer_free(buffer *buffer) {
  buffer->next = NULL;
  buffer_acknowledge(buffer, UINT64_MAX);
}
